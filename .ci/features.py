#!/usr/bin/env python3
"""Judges by cargo itself what a program says is built, and with which features.

Workspaces are drawn, with questions on each; cargo's graph of units tells what would be built, and nothing is compiled.
The program reads what `cargo metadata --all-features` prints, takes what is asked as arguments (`words_for`), and
prints `part NAME VERSION SIDE`, `feature NAME VERSION SIDE FEATURE` and `built NAME VERSION SIDE PLATFORM`, a line each.
Without arguments this judges the program as built; else the first names one, and further ones from which to which
number workspaces are drawn. `--keep NUMBER FOLDER` writes a drawn workspace to a folder, and prints its questions.

`--commands` asks guppy-cargo, or the program that is named behind it, by the command `built` in the same way, of fewer
workspaces. Of metadata that cargo makes in other ways, without `--all-features` or with `--filter-platform`, it has to
tell the same or refuse them, because an optional dependency isn't resolved in them.

`--own` in the program's place tries the judge: `built.py` has the definition in Python, and wrong definitions, one a
rule, are planted in it, of which each must be told. The last line is 'N passed, M failed'.
"""

import json
import os
import random
import re
import subprocess
import sys
import tempfile
import time
import types
from collections import Counter
from concurrent.futures import ThreadPoolExecutor

import built
from drawn import BUILT_FOR, OverCrates, Workspace, installed, write_alone, written

HERE = os.path.dirname(os.path.realpath(__file__))
CRATES = os.path.join(os.path.dirname(HERE), "crates")
PROGRAM = os.path.join(CRATES, "guppy_features_tests", "out", "guppy_features_tests")
GUPPY_CARGO = os.path.join(CRATES, "guppy_cargo_main", "out", "guppy_cargo_main")
# So many workspaces are drawn, so many to try the judge itself, with so many questions each.
DRAWN, OWN, ASKED = 150, 40, 6
# Of so many guppy-cargo is asked by its command.
BY_COMMAND = 100
# So many are drawn over crates of Debian's, where some are installed.
OVER_CRATES = 20
SECONDS = 120
TARGET, HOST = built.TARGET, built.HOST


class Cargo:
    """Cargo in a workspace."""

    def __init__(self, room, folder):
        self.folder = folder
        places = {"CARGO_HOME": os.path.join(room, "home"), "CARGO_TARGET_DIR": os.path.join(room, "target")}
        self.environment = os.environ | places | {"RUSTC_BOOTSTRAP": "1"}

    def run(self, *words):
        ways = {"cwd": self.folder, "env": self.environment, "capture_output": True, "timeout": SECONDS, "check": False}
        return subprocess.run(["cargo", *words, "--offline"], **ways)

    def json(self, *words):
        """What it prints, or none where it refuses the words."""
        ran = self.run(*words)
        return json.loads(ran.stdout) if ran.returncode == 0 else None

    def metadata(self, *words):
        return self.json("metadata", "--format-version", "1", *(words or ["--all-features"]))

    def units(self, words, triples):
        """The graph of units that it would build."""
        targets = [word for it in triples for word in ("--target", it)]
        return self.json(*words, *targets, "--unit-graph", "-Z", "unstable-options")


def host_of_rustc():
    told = subprocess.run(["rustc", "-vV"], capture_output=True, text=True, check=True).stdout
    return next(it.removeprefix("host: ") for it in told.splitlines() if it.startswith("host: "))


def cfgs_of(triple):
    """What rustc says of the platform, in one line."""
    command = ["rustc", "--print", "cfg", "--target", triple]
    return " ".join(subprocess.run(command, capture_output=True, text=True, check=True).stdout.splitlines())


# ---------------------------------------------------------------------------------------------------------------------
# What is built: a set of (NAME, VERSION, SIDE, PLATFORM, FEATURES)


def built_by_cargo(units, metadata, host):
    """What the units say is built. They don't say on which side: it is followed from the roots. What builds a script is
    no part of its package, and it and procedural macros lead to the host's side. A package that the metadata lack has
    its ID for a name."""
    called = {it["id"]: (it["name"], it["version"]) for it in metadata["packages"]}
    all_units, seen, found = units["units"], set(), set()
    waiting = [(it, TARGET) for it in units["roots"]]
    while waiting:
        at, side = waiting.pop()
        unit = all_units[at]
        is_script = unit["mode"] != "run-custom-build" and "custom-build" in unit["target"]["kind"]
        side = HOST if is_script or "proc-macro" in unit["target"]["kind"] else side
        if (at, side) in seen:
            continue
        seen.add((at, side))
        if not is_script:
            name = called.get(unit["pkg_id"], (unit["pkg_id"], ""))
            found.add((*name, side, unit["platform"] or host, tuple(sorted(unit["features"]))))
        waiting += [(it["index"], side) for it in unit["dependencies"]]
    return found


def built_by_lines(lines, resolver):
    """What the program says is built. With resolver 1 there is one side for features."""
    features, places = {}, []
    for line in lines:
        kind, name, version, side, *rest = line.split(" ")
        if kind == "feature":
            features.setdefault((name, version, side), set()).add(rest[0])
        elif kind == "built":
            places.append((name, version, side, rest[0]))
    return {
        (*it, tuple(sorted(features.get((*it[:2], it[2] if resolver > 1 else TARGET), ())))) for it in places
    }


def features_by_cargo(built_here, resolver):
    """The features of what is built, on each side."""
    return {(name, version, side if resolver > 1 else TARGET, "any platform", on) for name, version, side, _, on in built_here}


def features_by_lines(lines, those):
    """The features of those packages and sides, if the program says that they take part."""
    features = {}
    for line in lines:
        kind, name, version, side, *rest = line.split(" ")
        if kind in ("part", "feature"):
            features.setdefault((name, version, side), []).append((kind, *rest))
    return {
        (*it[:4], tuple(sorted(rest[0] for _, *rest in features[it[:3]] if rest)))
        for it in those if ("part",) in features.get(it[:3], ())
    }


def difference(cargo, told):
    """A text that says what differs first, or none."""
    for name, version, side, triple, features in sorted(cargo ^ told):
        here = (name, version, side, triple)
        ways = [[",".join(it[4]) or "none" for it in those if it[:4] == here] for those in (cargo, told)]
        wanted, got = (f"features {' and '.join(it)}" if it else "none of it" for it in ways)
        return f"{name} {version} on side {side} for {triple}: cargo: {wanted}; told: {got}"
    return None


# ---------------------------------------------------------------------------------------------------------------------
# Questions, and the limits of what metadata tell


class Asked:
    """A question that cargo has answered."""

    def __init__(self, place, words, triples, metadata, resolver, cargo, limit, others):
        self.place, self.words, self.triples, self.metadata = place, words, triples, metadata
        self.resolver, self.cargo, self.limit, self.others = resolver, cargo, limit, others

    def __str__(self):
        targets = [word for it in self.triples for word in ("--target", it)]
        return f"{self.place}: cargo {' '.join([*self.words, *targets])} (resolver {self.resolver})"


def words_of(asked, world):
    return words_for(asked.words, asked.triples, asked.metadata, asked.resolver, world)


def words_for(words, triples, metadata, resolver, world):
    """The program's arguments for what cargo is asked by these."""
    given = list(words[1:])
    if "-p" not in given:
        among = "workspace_members" if "--workspace" in given else "workspace_default_members"
        names = {it["id"]: it["name"] for it in metadata["packages"]}
        given = [word for it in metadata[among] for word in ("-p", names[it])] + [it for it in given if it != "--workspace"]
    given += ["--tests"] * (words[0] == "test") + ["--resolver", str(resolver)]
    given += ["--host", world.host, "--cfgs", world.cfgs[world.host]]
    return given + [word for it in triples or [world.host] for word in ("--platform", it, "--cfgs", world.cfgs[it])]


class World:
    """What all questions share."""

    def __init__(self, room, by_command):
        self.room, self.by_command, self.host = room, by_command, host_of_rustc()
        # In this folder, if it is there, cargo keeps what rustc says of platforms.
        os.mkdir(os.path.join(room, "target"))
        triples = sorted({self.host, *(it for triples in BUILT_FOR for it in triples)})
        with ThreadPoolExecutor(4) as workers:
            self.cfgs = dict(zip(triples, workers.map(cfgs_of, triples), strict=True))


NAMES_DEV = "a feature names a dev-dependency"
NO_LIBRARY = "a dependency has no library"
NOT_RESOLVED = "an optional dependency isn't in the metadata"
TWO_NAMES = "a package is asked for under two names"
LIMITS = [NAMES_DEV, NO_LIBRARY, NOT_RESOLVED, TWO_NAMES]
# What guppy-cargo tells where an optional dependency isn't resolved.
UNRESOLVED = (
    "error: .+'s optional dependency .+ isn't resolved: "
    "make the metadata with --all-features and the same --features, without --filter-platform\n"
)
# And where a feature is asked for of a dependency that is left out of metadata for other platforms.
LEFT_OUT = "error: no chosen package has the feature [^/]+/.+\n"


def limit_of(metadata, words):
    """The limit that what is asked by these arguments meets, or none."""
    for package in metadata["packages"]:
        if any("path" in it and not os.path.exists(os.path.join(it["path"], "src/lib.rs")) for it in package["dependencies"]):
            return NO_LIBRARY
        named = {}
        for it in package["dependencies"]:
            named.setdefault(it["name"] + it.get("path", ""), set()).add(it["rename"] or it["name"])
        if any(len(it) > 1 for it in named.values()):
            return TWO_NAMES
        dev = {it["rename"] or it["name"] for it in package["dependencies"] if it["kind"] == "dev"}
        dev -= {it["rename"] or it["name"] for it in package["dependencies"] if it["kind"] != "dev"}
        values = [it for texts in package["features"].values() for it in texts]
        if any(it.partition("/")[0].removesuffix("?") in dev and "/" in it for it in values):
            return NAMES_DEV
    return NOT_RESOLVED if built.lacks(metadata, words) else None


def other_metadata(cargo, triples, resolver, world):
    """What cargo tells of the workspace in other ways, by how it is asked. With resolver 1 what is needed on other platforms
    counts, too."""
    ways = ["--no-default-features", "--features="]
    if resolver > 1:
        ways.append(" ".join(["--all-features", *(f"--filter-platform={it}" for it in sorted({world.host, *triples}))]))
    return {way: cargo.metadata(*way.split()) for way in ways}


def asked_in(place, folder, resolver, questions, world):
    """The questions on a workspace that cargo answers; of the others it is told how many there are."""
    cargo = Cargo(world.room, folder)
    metadata, found = cargo.metadata(), []
    if metadata is None:
        sys.exit(f"features: {place}: {cargo.run('metadata', '--format-version', '1').stderr.decode()[-2000:]}")
    for words, triples in questions:
        units = cargo.units(words, triples)
        if units is not None:
            answer = built_by_cargo(units, metadata, world.host)
            limit = limit_of(metadata, words_for(words, triples, metadata, resolver, world))
            others = other_metadata(cargo, triples, resolver, world) if world.by_command else {}
            found.append(Asked(place, words, triples, metadata, resolver, answer, limit, others))
    return found


def drawn_in(folder, seed):
    """A drawn workspace, which is written to the folder, and questions on it."""
    drawn = random.Random(seed)
    workspace = Workspace(drawn)
    workspace.write(folder)
    return workspace.resolver, [workspace.question(drawn) for _ in range(ASKED)]


def ask_drawn(seed, world):
    folder = os.path.join(world.room, str(seed))
    return asked_in(f"workspace {seed}", folder, *drawn_in(folder, seed), world)


def ask_written(workspace, world):
    folder = os.path.join(world.room, f"written {workspace.rule}")
    workspace.write(folder)
    return asked_in(workspace.rule, folder, int(workspace.resolver), workspace.questions, world)


def crates_known(world):
    """The features of each of Debian's crates that cargo can resolve here."""
    known = {}
    for name, version in installed():
        folder = os.path.join(world.room, f"alone {name}")
        write_alone(folder, name, version)
        metadata = Cargo(world.room, folder).metadata()
        known |= {it["name"]: sorted(it["features"]) for it in (metadata or {"packages": []})["packages"] if it["name"] == name}
    return known


def ask_over_crates(seed, known, world):
    """Questions on a workspace over Debian's crates, none where cargo can't resolve it: where a crate isn't there."""
    drawn, folder = random.Random(seed), os.path.join(world.room, f"crates {seed}")
    workspace = OverCrates(drawn, known)
    workspace.write(folder)
    if Cargo(world.room, folder).metadata() is None:
        return []
    questions = [workspace.question(drawn) for _ in range(ASKED)]
    return asked_in(f"over crates {seed}", folder, workspace.resolver, questions, world)


# ---------------------------------------------------------------------------------------------------------------------
# Judging


def told_by_program(program):
    """What a program tells."""

    def tell(asked, world):
        ways = {"input": json.dumps(asked.metadata), "capture_output": True, "text": True, "timeout": SECONDS, "check": False}
        ran = subprocess.run([program, *words_of(asked, world)], **ways)
        # It refuses features of a dependency that the metadata lack.
        if ran.returncode != 0 and not asked.limit:
            sys.exit(f"features: {asked}: {ran.stderr}")
        return ran.stdout.splitlines()

    return tell


def built_by_command(program, asked, metadata, world):
    """What `guppy-cargo built` says of the metadata is built, or none where it refuses them: an optional dependency isn't
    resolved."""
    words, given = words_of(asked, world), []
    while words:
        word = words.pop(0)
        if word in ("--platform", "--host"):
            triple, _, cfgs = words.pop(0), words.pop(0), words.pop(0)
            file = os.path.join(world.room, f"cfgs {triple}")
            with open(file, "w", encoding="utf-8") as it:
                it.write(cfgs.replace(" ", "\n"))
            given += [word, triple, "--host-cfgs" if word == "--host" else "--cfgs", file]
        else:
            given.append(word)
    ways = {"input": json.dumps(metadata), "capture_output": True, "text": True, "timeout": SECONDS, "check": False}
    ran = subprocess.run([program, "built", *given], **ways)
    refusals = UNRESOLVED if metadata is asked.metadata else f"{UNRESOLVED}|{LEFT_OUT}"
    if ran.returncode == 1 and re.fullmatch(refusals, ran.stderr):
        return None
    if ran.returncode != 0:
        sys.exit(f"features: {asked}: {ran.stderr}")
    called = {it["id"]: (it["name"], it["version"]) for it in metadata["packages"]}
    for name, version in list(called.values()):
        called[f"{name}@{version}"] = called[name] = name, version
    found = set()
    for line in ran.stdout.splitlines():
        word, platform, *features = line.split(" ")
        side, triple = (HOST, world.host) if platform == "host" else (TARGET, platform)
        found.add((*called[word], side, triple, tuple(sorted(features))))
    return found


def told_by(definition):
    """What a definition in Python tells."""
    return lambda asked, world: definition.answer(asked.metadata, words_of(asked, world))


def differs(tell, asked, world):
    """What is told wrongly: what is built with which features, or that what cargo builds takes part."""
    lines = tell(asked, world)
    wanted = features_by_cargo(asked.cargo, asked.resolver)
    return difference(asked.cargo, built_by_lines(lines, asked.resolver)) or difference(
        wanted, features_by_lines(lines, wanted))


def ask_all(world, seeds, over_crates=0):
    """All questions on the workspaces of the text, on those that are drawn from these seeds, and on some over crates."""
    with ThreadPoolExecutor(4) as workers:
        for asked in workers.map(lambda it: ask_written(it, world), written()):
            yield from asked
        for asked in workers.map(lambda it: ask_drawn(it, world), seeds):
            yield from asked
        known = crates_known(world) if over_crates else {}
        if over_crates and not known:
            print("features: without Debian's crates: none that can be asked for is installed")
        for asked in workers.map(lambda it: ask_over_crates(it, known, world), range(over_crates if known else 0)):
            yield from asked


def judge(tell, world, questions):
    """How many questions of each limit it tells as cargo does and not, and what is told wrongly beyond these limits."""
    counts, failures = Counter(), []
    for asked in questions:
        wrong = differs(tell, asked, world)
        counts[asked.limit, wrong is None] += 1
        if wrong and not asked.limit:
            failures.append(f"features: {asked}: FAILED: {wrong}")
    for it in failures[:20]:
        print(it)
    for limit in [None, *LIMITS]:
        print(f"features: {limit or 'no limit'}: {counts[limit, True]} as cargo says, {counts[limit, False]} not")
    return counts[None, True], len(failures)


def wrong_by_command(program, asked, metadata, may_refuse, world):
    """What guppy-cargo tells of the metadata, none where it refuses them, and what is wrong with that, or none."""
    told = built_by_command(program, asked, metadata, world)
    if told is None:
        return told, None if may_refuse else "it is refused"
    return told, difference(asked.cargo, told)


def judge_command(program, world, questions):
    """How many questions guppy-cargo answers as cargo does, and how many it doesn't, of those without a limit. Where an
    optional dependency isn't in the metadata it has to refuse them, and may of metadata that are made in another way."""
    counts, failed = Counter(), 0
    for asked in questions:
        lacks = asked.limit == NOT_RESOLVED
        if asked.limit and not lacks:
            continue
        for way, metadata in {"": asked.metadata, **asked.others}.items():
            told, wrong = wrong_by_command(program, asked, metadata, way or lacks, world)
            if told is not None and not way and lacks:
                wrong = "it isn't refused"
            counts[way.partition("=")[0], told is None] += not wrong
            if wrong:
                failed += 1
                print(f"features: {asked} {way}: FAILED: {wrong}")
    for way in sorted({way for way, _ in counts}):
        told, refused = counts[way, False], counts[way, True]
        print(f"features: by command, {way or '--all-features'}: {told} as cargo says, {refused} refused")
    return sum(counts.values()), failed


def wrong_definitions():
    """Each rule that is planted wrong, with the definition."""
    with open(built.__file__, encoding="utf-8") as file:
        source = file.read()
    with open(os.path.join(HERE, "built.edit"), encoding="utf-8") as file:
        bugs = re.findall(r"^bug: (.*)\nold: (.*)\nnew: (.*)$", file.read(), re.M)
    for name, old, new in bugs:
        module = types.ModuleType("wrong")
        if source.count(old) == 1:
            exec(compile(source.replace(old, new), name, "exec"), module.__dict__)
        yield name, module if source.count(old) == 1 else None


def try_own(world, seeds):
    """Tries the judge: the definition tells what cargo does, and each wrong one is told."""
    questions = list(ask_all(world, seeds, OVER_CRATES if len(seeds) > OWN else 0))
    passed, failed = judge(told_by(built), world, questions)
    questions = [it for it in questions if it.limit is None]
    for name, module in wrong_definitions():
        if module and any(differs(told_by(module), it, world) for it in questions):
            passed += 1
        else:
            failed += 1
            print(f"features: {name}: FAILED: {'it is not told' if module else 'its text is not there once'}")
    return passed, failed


def keep(world, seed, folder):
    """Writes a drawn workspace to the folder, and prints its questions."""
    for it in asked_in(f"workspace {seed}", folder, *drawn_in(folder, seed), world):
        print(it)
    return 0, 0


def main(words):
    program, *numbers = words or [PROGRAM]
    begun = time.time()
    with tempfile.TemporaryDirectory() as room:
        world = World(room, program == "--commands")
        if program == "--keep":
            passed, failed = keep(world, int(numbers[0]), numbers[1])
        elif program == "--commands":
            passed, failed = judge_command(numbers[0] if numbers else GUPPY_CARGO, world, ask_all(world, range(BY_COMMAND)))
        elif program == "--own":
            passed, failed = try_own(world, range(*map(int, numbers)) if numbers else range(OWN))
        elif os.access(program, os.X_OK):
            seeds = range(*map(int, numbers)) if numbers else range(DRAWN)
            passed, failed = judge(told_by_program(program), world, ask_all(world, seeds, OVER_CRATES))
        else:
            return f"features: {program} is not there"
    print(f"features: {time.time() - begun:.0f} seconds")
    print(f"{passed} passed, {failed} failed")
    return failed > 0


if __name__ == "__main__":
    sys.exit(main(sys.argv[1:]))

#!/usr/bin/env python3
"""Tries the program guppy_cargo_main on what `cargo metadata` prints of real workspaces.

They are made in a temporary folder: one with every kind of package and dependency, some that are drawn, and one on
Debian's packages of Rust sources, which are taken from its archive and unpacked there; where they can't be had a
line says so. What the program answers is compared with what a few lines here read off the same JSON. Then it is
given a thousand broken ones. Needs cargo, and the program as built, or one that the argument names; with Graphviz, that
reads what is drawn. The last line is 'N passed, M failed'.
"""

import collections
import itertools
import json
import os
import random
import re
import shutil
import subprocess
import sys
import tempfile
from concurrent.futures import ThreadPoolExecutor

from breaks import broken
from platforms import cfgs_of
from workspaces import cargo_in, metadata_of, tree_in, workspaces_in

HERE = os.path.dirname(os.path.realpath(__file__))
BUILT = os.path.join(os.path.dirname(HERE), "crates", "guppy_cargo_main", "out", "guppy_cargo_main")
PROGRAM = sys.argv[1] if sys.argv[1:] else BUILT
SECONDS = 60
# Graphviz's program, where there is one.
GRAPHVIZ = shutil.which("dot")

# So many starts are asked about in each graph, and so many broken inputs are tried.
STARTS, BROKEN = 12, 1000
# More packages than these are many.
MANY = 100

# The platforms that cargo is asked about, too: this one first, for which it builds what runs while it builds.
HOST = re.search(r"host: (.*)", subprocess.run(["rustc", "-vV"], capture_output=True, text=True, check=True).stdout)[1]
TRIPLES = [HOST, "x86_64-pc-windows-msvc", "aarch64-apple-darwin", "wasm32-unknown-unknown"]

# The workspace's own files, those that choose a toolchain wherever they lie, and where cargo looks for the targets of a
# package at the workspace's root.
EVERYONES = ("Cargo.toml", "Cargo.lock")
TOOLCHAINS = ("rust-toolchain", "rust-toolchain.toml")
TARGETS_FOLDERS = ("src", "tests", "examples", "benches")

# The commands, and what is told of words that are none of theirs.
COMMANDS = "affected publish-order depends why reach order roots links cycles duplicates dot verify".split()
OF_BUILDS = "built features why-feature".split()
COMMANDS += OF_BUILDS
EVERY_COMMANDS = "--kinds --platform --cfgs --host --host-cfgs --workspace --ids --null".split()
BUILDS = "-p --features --all-features --no-default-features --tests --resolver".split()
NO_COMMAND = "give a command: guppy-cargo help lists them"
NO_KIND = "other is no kind: give some of normal,build,dev, separated by commas"
NO_CFGS = "give --cfgs FILE behind each --platform TRIPLE"
NO_HOST = "give both --host TRIPLE and --host-cfgs FILE"
NO_PATHS = "affected needs a path, --paths-from FILE or, of the scripts, --since REVISION"
CYCLE = "error: cycle over links that are not dev-only: "
WITH_FORMAT = "all commands but depends, verify and dot do"
KINDS = ["normal", "build", "dev"]
NO_NULS = "its paths aren't each ended by a NUL: give it what git writes with -z"


class Graph:
    """What is read off the JSON of a workspace, each package under the name that the program is to give it."""

    def __init__(self, text, tree=None, cargo=None):
        self.text, self.data, self.tree, self.cargo = text, json.loads(text), tree, cargo
        packages, nodes = self.data["packages"], self.data["resolve"]["nodes"]
        self.forms = {it["id"]: (it["name"], f"{it['name']}@{it['version']}", it["id"]) for it in packages}
        self.meant = {it: [it] for it in self.forms}
        for called in (0, 1):
            for text in {it[called] for it in self.forms.values()} - set(self.forms):
                self.meant[text] = [it for it, forms in self.forms.items() if text in forms[:2]]
        called = {it: next(form for form in forms if self.meant[form] == [it]) for it, forms in self.forms.items()}
        self.called, self.publish = called, {called[it["id"]]: it["publish"] for it in packages}
        self.names, self.ids = sorted(called.values()), {name: it for it, name in called.items()}
        self.repeated = [text for text, ids in self.meant.items() if len(ids) > 1]
        ends = [(called[node["id"]], called[it["pkg"]], it["dep_kinds"]) for node in nodes for it in node["deps"]]
        self.sections = {(a, b): {it["kind"] or "normal" for it in kinds} for a, b, kinds in ends}
        self.links = set(self.sections)
        self.firm = {(a, b) for a, b, kinds in ends if any(it["kind"] != "dev" for it in kinds)}
        # Members by the folder of their manifest, which is the path that cargo prints of a dependency on them.
        homes = {it["manifest_path"].removesuffix("/Cargo.toml"): it["id"] for it in packages}
        asked = [(it["id"], homes.get(one["path"])) for it in packages for one in it["dependencies"]
                 if one["kind"] != "dev" and one.get("path")]
        within = set(self.data["workspace_members"])
        self.declared = {(called[a], called[b]) for a, b in asked if a in within and b in within}
        self.onward, self.firmly = reach_of(self.names, self.links), reach_of(self.names, self.firm)
        self.needed = reach_of(self.names, self.firm | self.declared)
        self.back = reach_of(self.names, reverse(self.links))
        macros = {called[it["id"]] for it in packages if any("proc-macro" in target["crate_types"] for target in it["targets"])}
        built = {b for (_, b), sections in self.sections.items() if "build" in sections}
        self.hosted = set().union(*(self.onward[it] for it in macros | built))
        members, root = set(self.data["workspace_members"]), self.data["workspace_root"]
        paths = {it["id"]: os.path.relpath(it["manifest_path"], root) for it in packages if it["source"] is None}
        self.local = {called[it]: path.split("/")[:-1] for it, path in paths.items()}
        self.folders = {called[it]: self.local[called[it]] for it in paths if it in members}
        self.root, self.elsewhere = root, {called[it["id"]]: elsewhere(it) for it in packages if it["source"] is None}
        self.on = {}
        self.random = random.Random(len(text))
        self.starts = self.random.sample(self.names, min(STARTS, len(self.names)))

    def component(self, name):
        return self.onward[name] & self.back[name]

    def has_firm_cycle(self):
        return any(a != b and a in self.firmly[b] for a, b in self.firm)

    def has_needed_cycle(self):
        return any(a != b and a in self.needed[b] for a, b in self.firm | self.declared)

    def led_back(self, order):
        """The pairs that stand the wrong way round in an order with dependents first."""
        pairs = [(a, b) for a, b in itertools.combinations(order, 2) if a in self.onward.get(b, ())]
        is_firm = not self.has_firm_cycle()
        return [(a, b) for a, b in pairs if b not in self.onward[a] or is_firm and a in self.firmly[b]]

    def touched(self, path):
        """The packages to which a path belongs and those below it, and all members where it is everyone's."""
        path = path.removeprefix("./")
        parts = path.split("/") if path else []
        holding = [it for it, folder in self.local.items() if holds(folder, parts)]
        longest = max((len(self.local[it]) for it in holding), default=0)
        is_of_target = path == "build.rs" or any(holds([it], parts) for it in TARGETS_FOLDERS)
        is_of_settings = ".cargo" in parts or not set(parts[-1:]).isdisjoint(TOOLCHAINS)
        if path in EVERYONES or is_of_settings or not holding or not (longest or is_of_target):
            return set(self.folders)
        below = {it for it, folder in self.local.items() if holds(parts, folder)}
        far = {it for it, folders in self.elsewhere.items() for folder in folders if meet(self.place(path), folder)}
        return below | far | {it for it in holding if len(self.local[it]) == longest}

    def place(self, path):
        """Where the path leads, from the workspace's root."""
        return os.path.normpath(os.path.join(self.root, path))

    def tested_with(self, touched):
        """The members whose tests are built from these packages."""
        direct = {a for a, b in self.links if self.firmly[b] & touched}
        return (touched | direct) & set(self.folders)

    def ask(self, *words):
        """The lines of an answer, or what came in its place."""
        status, output, errors = run(words, self.text.encode())
        return lines_of(output) if (status, errors) == (0, "") else [f"status {status}, {output!r}, {errors!r}"]


def meet(one, other):
    """Whether one of the places holds the other."""
    return f"{one}/".startswith(f"{other}/") or f"{other}/".startswith(f"{one}/")


def elsewhere(package):
    """The folders of the targets of the package whose sources lie outside of its own."""
    own = os.path.dirname(package["manifest_path"])
    folders = {os.path.dirname(os.path.normpath(it["src_path"])) for it in package["targets"]}
    return [it for it in folders if not f"{it}/".startswith(f"{own}/")]


def holds(folder, path):
    """Whether the path's parts begin with the folder's, with names alone behind them."""
    return path[: len(folder)] == folder and not {"", ".", ".."} & set(path[len(folder) :])


def reverse(links):
    return {(b, a) for a, b in links}


def reach_of(names, links):
    """What links lead to from each, itself among them."""
    follows = collections.defaultdict(set)
    for a, b in links:
        follows[a].add(b)
    return {name: reached_from(name, follows) for name in names}


def reached_from(start, follows):
    reached, new = set(), {start}
    while new:
        reached |= new
        new = set().union(*(follows[it] for it in new)) - reached
    return reached


def distance(start, end, links):
    """How many links the shortest walk has, where there is one."""
    follows = collections.defaultdict(set)
    for a, b in links:
        follows[a].add(b)
    reached, near = set(), {start}
    for links_so_far in itertools.count():
        if end in near or not near:
            return links_so_far if near else None
        reached |= near
        near = set().union(*(follows[it] for it in near)) - reached


def lines_of(output):
    return output.removesuffix("\n").split("\n") if output else []


def run(words, given):
    """Status, output and errors of the program; what takes too long ends with a status of its own."""
    try:
        ran = subprocess.run([PROGRAM, *words], input=given, capture_output=True, timeout=SECONDS, check=False)
    except subprocess.TimeoutExpired:
        return "too slow", "", ""
    return ran.returncode, ran.stdout.decode(errors="replace"), ran.stderr.decode(errors="replace")


def ending(words, given):
    """The status, and what is wrong in how the program told it."""
    status, output, errors = run(words, given)
    is_told = output == "" and errors.startswith("error: ") and errors.endswith("\n") and errors.count("\n") == 1
    return f"status {status}" if is_told or (status, errors) == (0, "") else f"status {status} with {errors!r}"


# Each of these yields what was asked, what is right, and what the program answered.


def try_reach(graph):
    for a, b in itertools.pairwise(graph.starts):
        yield f"reach forward {a}", sorted(graph.onward[a]), graph.ask("reach", "forward", a)
        yield f"reach reverse {a}", sorted(graph.back[a]), graph.ask("reach", "reverse", a)
        both = sorted(graph.onward[a] | graph.onward[b])
        yield f"reach forward {a} {b}, by ID", both, graph.ask("reach", "forward", graph.ids[a], graph.ids[b])


def try_depends(graph):
    for a, b in itertools.product(graph.starts[:6], graph.starts[:6]):
        yield f"depends {a} {b}", [str(b in graph.onward[a]).lower()], graph.ask("depends", a, b)


def try_why(graph):
    for a, b in itertools.product(graph.starts[:6], graph.starts[:6]):
        length = distance(a, b, graph.links)
        if length is None:
            told = 1, "", f"error: no links lead from {a} to {b}\n"
            yield f"why {a} {b}, where there is none", told, run(["why", a, b], graph.text.encode())
            continue
        steps = [line.split(" ") for line in graph.ask("why", a, b)]
        names = [name for name, *_ in steps]
        yield f"why {a} {b}, from where to where, and by how many links", (a, b, length), (names[0], names[-1], len(steps) - 1)
        kinds = [sorted(graph.sections.get(ends, ())) for ends in itertools.pairwise(names)]
        yield f"why {a} {b}, the kinds of links", [[], *kinds], [sorted(kinds) for _, *kinds in steps]
        order = [[it for it in ("normal", "build", "dev") if it in kinds] for _, *kinds in steps]
        yield f"why {a} {b}, the order of kinds", order, [kinds for _, *kinds in steps]


def try_order(graph):
    order = graph.ask("order")
    yield "order, each once", graph.names, sorted(order)
    yield "order, the wrong way round", [], graph.led_back(order)
    place = {name: order.index(name) if name in order else 0 for name in graph.names}
    parts = [sorted(place[it] for it in graph.component(name)) for name in graph.names]
    yield "order, components apart", [], [it for it in parts if it[-1] - it[0] >= len(it)]


def try_cycles(graph):
    components = {tuple(sorted(graph.component(name))) for name in graph.names}
    wanted = sorted(it for it in components if len(it) > 1 or it * 2 in graph.links)
    yield "cycles", wanted, sorted(tuple(sorted(line.split(" "))) for line in graph.ask("cycles"))


def try_links(graph):
    for direction, links in (("forward", graph.links), ("reverse", reverse(graph.links))):
        entered = {b for a, b in links if b not in graph.component(a)}
        found = {name for name in graph.names if not entered & graph.component(name)}
        yield f"roots {direction}", sorted(found), sorted(graph.ask("roots", direction))
        walked = [tuple(line.split(" ")) for line in graph.ask("links", direction)]
        yield f"links {direction}", sorted(graph.links), sorted(walked)
        steps = walked if direction == "forward" else [it[::-1] for it in walked]
        early = [it for it in steps if it[0] not in found or found.add(it[-1])]
        yield f"links {direction}, before what leads there", [], early


def try_publishable(graph, chosen):
    """The members that can be published, or the first of them that needs one that can't, and that one."""
    held = {it for it in graph.folders if graph.publish[it] == []}
    needed = {it: {b for a, b in graph.firm | graph.declared if a == it} & held for it in chosen}
    first = next((it for it in chosen if needed[it]), None)
    if first is None:
        yield "publish-order --publishable", chosen, graph.ask("publish-order", "--publishable")
        return
    for form, called in ((), str), (("--ids",), graph.ids.get):
        ran = run(["publish-order", "--publishable", *form], graph.text.encode())
        told = [(1, "", f"error: {called(first)} can't be published: it needs {called(it)}, which isn't publishable\n") for it in needed[first]]
        yield f"publish-order --publishable {form}, what is told", True, ran in told or ran


def try_publish(graph):
    yield "verify", ["ok"], graph.ask("verify")
    order = graph.ask("publish-order")
    yield "publish-order, each once", sorted(graph.folders), sorted(order)
    yield from try_publishable(graph, [it for it in order if graph.publish[it] != []])
    early = [(a, b) for a, b in itertools.combinations(order, 2) if b in graph.needed.get(a, ())]
    yield "publish-order, the wrong way round", [], early


def drawing_of(graph, names):
    """The packages of these names and the links between them, each with what is to be drawn of it."""
    on_cycles = {name for name in graph.names if len(graph.component(name)) > 1 or (name, name) in graph.links}
    nodes, edges = {}, {}
    for name in names:
        nodes[name,] = {"shape": "box" if name in graph.folders else "", "color": "red" if name in on_cycles else ""}
    for a, b in graph.links:
        if {a, b} <= names:
            style = "dashed" if (a, b) not in graph.firm else "" if "normal" in graph.sections[a, b] else "dotted"
            edges[a, b] = {"style": style, "color": "red" if b in graph.component(a) else ""}
    return {it: {key: value for key, value in told.items() if value} for it, told in (nodes | edges).items()}


def drawn_line(names, told):
    quoted = ['"' + re.sub(r'(["\\])', r"\\\1", it) + '"' for it in names]
    attributes = ", ".join(f"{key}={value}" for key, value in told.items())
    return f"  {' -> '.join(quoted)}{f' [{attributes}]' if attributes else ''};"


def read_by_graphviz(text):
    """What Graphviz reads in a drawing, in the form of `drawing_of`, or what it says against it."""
    ran = subprocess.run([GRAPHVIZ, "-Tdot_json"], input=text, capture_output=True, text=True, check=False)
    if ran.returncode or ran.stderr:
        return ran.stderr
    read = json.loads(ran.stdout)
    names = [it["name"].replace(r"\\", "\\") for it in read.get("objects", ())]
    items = [((name,), it) for name, it in zip(names, read.get("objects", ()))]
    items += [((names[it["tail"]], names[it["head"]]), it) for it in read.get("edges", ())]
    kept = [(them, {key: it[key] for key in ("shape", "style", "color") if key in it}) for them, it in items]
    return dict(kept) if len(dict(kept)) == len(kept) else kept


def try_dot(graph):
    chosen = graph.starts[:2]
    for words, names in (
        ((), set(graph.names)),
        (("--workspace",), set(graph.folders)),
        (chosen, set().union(*(graph.onward[it] for it in chosen))),
    ):
        drawing, lines = drawing_of(graph, names), graph.ask("dot", *words)
        asked = f"dot {' '.join(words)}"
        yield asked, sorted(drawn_line(*it) for it in drawing.items()), sorted(lines[1:-1])
        yield f"{asked}, how it begins and ends", ["digraph {", "}"], [lines[0], lines[-1]]
        if GRAPHVIZ:
            yield f"{asked}, as Graphviz reads it", drawing, read_by_graphviz("\n".join(lines))


def try_affected(graph):
    files = ("src/lib.rs", "x/y/z", "Cargo.toml", "Cargo.lock", ".cargo/config.toml")
    some = ["/".join([*folder, it]) for folder in graph.local.values() if folder for it in files]
    some += [*EVERYONES, *TOOLCHAINS, "base/rust-toolchain.toml", "x/rust-toolchain", "rust-toolchain/x"]
    some += [".cargo/config.toml", ".cargo", ".cargo.toml", "elsewhere/x", "base-mor/x"]
    some += ["./Cargo.lock", "./base/x", "/base/x", "../base/x", "", "src/lib.rs", "tests", "build.rs", "src/../x"]
    some += sorted({"/".join(it[:at]) for it in graph.local.values() for at in range(1, len(it) + 1)})
    for paths in [*([it] for it in some), *(graph.random.sample(some, it % 3 + 2) for it in range(STARTS))]:
        wanted = graph.tested_with(set().union(*map(graph.touched, paths)))
        answer = graph.ask("affected", *paths)
        yield f"affected {' '.join(paths)}", sorted(wanted), sorted(answer)
        yield f"affected {' '.join(paths)}, the wrong way round", [], graph.led_back(answer[::-1])


def is_in(path, folders):
    """Whether the path lies in one of the folders."""
    parts = path.removeprefix("./").split("/")
    return any(holds(it, parts) for it in (folder.removeprefix("./").split("/") for folder in folders))


def try_left_out(graph):
    """Folders to leave out, and paths that a file has."""
    folders = ["docs", "./base", "base/src", *("/".join(it) for it in graph.local.values() if it)]
    paths = ["docs/a b", "base/src/lib.rs", "base-more/src/lib.rs", "./base/x", "a\nb/\u00e9", "Cargo.lock", "docs"]
    with tempfile.TemporaryDirectory() as room:
        for number in range(3 * STARTS):
            ignored = graph.random.sample(folders, number % 3)
            chosen = graph.random.sample(paths + [f"{it}/x" for it in folders], 1 + number % 5)
            left = [it for it in chosen if not is_in(it, ignored)]
            wanted = sorted(graph.tested_with(set().union(*map(graph.touched, left))))
            words = [*itertools.chain(*(("--ignore", it) for it in ignored)), *chosen]
            yield f"affected {words}", wanted, sorted(graph.ask("affected", *words))
            file = os.path.join(room, f"paths {number}")
            with open(file, "wb") as held:
                held.write(b"".join(it.encode() + b"\0" for it in chosen[1:]))
            words = [*words[:-len(chosen)], "--paths-from", file, chosen[0]]
            yield f"affected {words}, the paths in a file", wanted, sorted(graph.ask("affected", *words))
        given = graph.text.encode()
        for name, text in (("bytes", b"a\0\xff\0"), ("unended", b"a\0b"), ("none", b"")):
            with open(os.path.join(room, name), "wb") as held:
                held.write(text)
        dashed = os.path.join(room, "dashes")
        with open(dashed, "wb") as held:
            held.write(b"base/x\0-x\0--ignore\0base/x\0")
        wanted = graph.ask("affected", "base/x", "./-x", "./--ignore")
        yield "affected, paths in a file that begin with -", wanted, graph.ask("affected", "--paths-from", dashed)
        yield "affected, no path in a file", [], graph.ask("affected", "--paths-from", os.path.join(room, "none"))
        wanted = graph.ask("affected", "--ignore", "base", "--paths-from", dashed)
        yield "affected, values behind =", wanted, graph.ask("affected", "--ignore=base", f"--paths-from={dashed}")
        for words, fault in (
            ([], NO_PATHS),
            (["--ignore", "base"], NO_PATHS),
            (["--ignore"], "a value is missing behind --ignore"),
            (["--ignore", "./.", "x"], "--ignore ./. leaves out everything: give a folder"),
            (["--ignore=", "x"], "--ignore  leaves out everything: give a folder"),
            (["x", "--paths-from"], "a value is missing behind --paths-from"),
            (["x", "--sinc", "main"], "--sinc is no option of the program: the nearest is --since, of the scripts"),
            (["-x"], "-x is no option: the nearest is -p"),
            (["x", "--publishable"], "affected takes no --publishable"),
            (["--paths-from", os.path.join(room, "bytes")], f"{os.path.join(room, 'bytes')}: the paths in it can't be read"),
            (["--paths-from", os.path.join(room, "unended")], f"{os.path.join(room, 'unended')}: {NO_NULS}"),
            (["--paths-from", "no/such"], "no/such: the paths in it can't be read"),
        ):
            yield f"affected {words}", (2, "", f"error: {fault}\n"), run(["affected", *words], given)


def try_given(graph):
    """Folders that are given to packages beside their own."""
    folders = ["docs", "base/src", "../out", *("/".join(it) for it in graph.local.values() if it)]
    for number in range(3 * STARTS):
        also = [(graph.random.choice(folders), graph.random.choice(graph.names)) for _ in range(1 + number % 3)]
        chosen = [f"{graph.random.choice(folders)}/x" for _ in range(1 + number % 2)]
        paths = [graph.place(it) for it in chosen]
        more = {name for folder, name in also if any(meet(graph.place(folder), it) for it in paths)}
        wanted = sorted(graph.tested_with(more.union(*map(graph.touched, chosen))))
        words = [*itertools.chain(*(("--also", f"{folder}={name}") for folder, name in also)), *chosen]
        yield f"affected {words}", wanted, sorted(graph.ask("affected", *words))
    name, given = graph.names[0], graph.text.encode()
    folder = next(("/".join(it) for it in graph.local.values() if it), "docs")
    wanted = graph.ask("affected", "--also", f"{folder}={name}", folder)
    yield "affected, a folder given by an ID", wanted, graph.ask("affected", f"--also={folder}={graph.ids[name]}", folder)
    yield "affected, a folder with no path", graph.ask("affected", folder), graph.ask("affected", "--also", f"no/such={name}", folder)
    for word in ("x", "=", f"={name}", "x="):
        told = f"error: {word} is no folder of a package: give --also FOLDER=PACKAGE\n"
        yield f"--also {word}", (2, "", told), run(["affected", "--also", word, "y"], given)
    yield "--also, with no value", (2, "", "error: a value is missing behind --also\n"), run(["affected", "y", "--also"], given)
    yield "--also with no path", (2, "", f"error: {NO_PATHS}\n"), run(["affected", "--also", f"x={name}"], given)
    for word in ("no-such-package", *graph.repeated):
        told = run(["reach", "forward", word], given)
        yield f"--also x={word}", (1, *told[1:]), run(["affected", "--also", f"x={name}", "--also", f"x={word}", "y"], given)


def try_names(graph):
    """Each package by each text that means it alone, and texts that are names where IDs belong."""
    for it, forms in graph.forms.items():
        for form in forms:
            if graph.meant[form] == [it]:
                yield f"depends {form} on itself", ["true"], graph.ask("depends", form, it)
    it, name = next((it, name) for it, (name, _, _) in graph.forms.items() if graph.meant[name] == [it])
    for key in ("pkg", "workspace_default_members"):
        text = json.dumps(named(graph.data, key, it, name)).encode()
        if text != json.dumps(graph.data).encode():
            yield f"{key} {name}", "status 1", ending(["order"], text)


def objects_of(graph):
    """Each package as JSON has it, by its name, of what cargo says."""
    told = ("name", "version", "id", "manifest_path")
    return {graph.called[it["id"]]: {key: it[key] for key in told} for it in graph.data["packages"]}


def fact_of(objects, text):
    """What a line says of a package, as JSON has it."""
    package, side, *said = text.split(" ")
    named = {"dependency" if it.startswith("dep:") else "feature": it.removeprefix("dep:") for it in said}
    return {"package": objects[package], "side": side, **named}


def reason_of(objects, line):
    """A line of `why-feature`, as JSON has it."""
    said, *grounds = line.split(" for ")
    facts = [fact_of(objects, it) for text in grounds for it in text.split(" and ")]
    return {**fact_of(objects, said), "for": facts}


def try_json(graph):
    """Answers as JSON, which Python reads, beside what cargo says of the packages, and what the lines say."""
    given, some, objects = graph.text.encode(), graph.starts[0], objects_of(graph)

    def array(*words, end="\n"):
        status, text, errors = run([*words, "--format", "json"], given)
        is_line = status == 0 and errors == "" and text.endswith(end) and text.count("\n") == (end == "\n")
        return json.loads(text.removesuffix(end)) if is_line else (status, text, errors)

    for words in (["order"], ["roots", "forward"], ["roots", "reverse", "--workspace"], ["affected", "Cargo.toml"]):
        yield f"{' '.join(words)} --format json", [objects[it] for it in graph.ask(*words)], array(*words)
    for direction in ("forward", "reverse"):
        words = ["reach", direction, some]
        reached = sorted((objects[it] for it in graph.ask(*words)), key=lambda it: it["id"].encode())
        yield f"{' '.join(words)} --format json", reached, array(*words)
        yield f"{' '.join(words)} --null --ids --format json", reached, array(*words, "--null", "--ids", end="\0")
        words = ["links", direction]
        ends = [tuple(it.split(" ")) for it in graph.ask(*words)]
        links = [{"from": objects[a], "to": objects[b], "sections": sorted(graph.sections[a, b], key=KINDS.index)} for a, b in ends]
        yield f"{' '.join(words)} --format json", links, array(*words)
    yield "affected --format json, of nothing", [], array("affected", "--ignore", "a", "a/b")

    def beside(words, item):
        """The answer as JSON, beside its lines, or the same fault."""
        lines = run(words, given)
        wanted = [item(it) for it in lines_of(lines[1])] if lines[0] == 0 else lines
        return f"{' '.join(words)} --format json", wanted, array(*words)

    def packages(names):
        return [objects[it] for it in names]

    def of_why(line):
        name, *sections = line.split(" ")
        return {"package": objects[name], "sections": sections}

    def of_duplicates(line):
        name, *others = line.split(" ")
        return {"package": objects[name], "needed_by": packages(others)}

    def of_built(line):
        name, platform, *features = line.split(" ")
        return {"package": objects[name], "platform": platform, "features": features}

    def of_features(line):
        feature, side, *askers = line.split(" ")
        return {"feature": feature, "side": side, "asked_by": packages(askers)}

    yield beside(["cycles"], lambda line: packages(line.split(" ")))
    yield beside(["cycles", "--workspace"], lambda line: packages(line.split(" ")))
    for words in (["duplicates"], ["duplicates", "--workspace"]):
        yield beside(words, of_duplicates)
    for words in (["built"], ["built", "--tests", "--resolver", "1"]):
        yield beside(words, of_built)
    for name in graph.starts:
        yield beside(["why", some, name], of_why)
        yield beside(["features", name], of_features)
        _, text, _ = run(["features", name], given)
        for line in lines_of(text)[:2]:
            yield beside(["why-feature", name, line.split(" ")[0]], lambda it: reason_of(objects, it))


def try_formats(graph):
    """Lines that end with a NUL, by way of xargs, and packages as flags, which cargo takes for these packages."""
    given, some = graph.text.encode(), graph.starts[0]
    for words in (
        ["order"],
        ["links", "forward"],
        ["cycles"],
        ["duplicates"],
        ["why", some, some],
        ["reach", "reverse", some],
        ["built"],
        ["order", "--ids"],
    ):
        lines, nulls = run(words, given), run([*words, "--null"], given)
        asked = f"{' '.join(words)} --null"
        yield asked, (lines[0], lines[1].replace("\n", "\0"), lines[2]), nulls
        by_xargs = subprocess.run(["xargs", "-0r", "printf", "%s\\n"], input=nulls[1].encode(), capture_output=True, check=False)
        yield f"{asked}, by way of xargs", lines[1], by_xargs.stdout.decode()
    flags = {}
    for it, (_, full, _) in graph.forms.items():
        flags[graph.called[it]] = f"--package={full if graph.meant[full] == [it] else it}"
    order = graph.ask("order")
    yield "order --format flags", [flags[it] for it in order], graph.ask("order", "--format", "flags")
    yield "order --format=flags --ids", [f"--package={graph.ids[it]}" for it in order], graph.ask("order", "--ids", "--format=flags")
    reached = graph.ask("reach", "forward", some)
    yield "reach --format flags", sorted(flags[it] for it in reached), graph.ask("reach", "forward", some, "--format", "flags")
    yield "order --format lines", order, graph.ask("order", "--format", "lines")
    for it in [*graph.starts, *(it for it in order if graph.called[graph.ids[it]] == graph.ids[it])]:
        yield f"cargo pkgid {flags[it]}", graph.ids[it], graph.cargo("pkgid", flags[it]).rstrip("\n")
    for words, fault in (
        ("order --format", "a value is missing behind --format"),
        ("order --format flag", "flag is no format: give lines, flags or json"),
        ("links forward --format flags", "links takes --format lines or json, not flags"),
        ("verify --format lines", f"verify takes no --format: {WITH_FORMAT}"),
        ("depends a b --format json", f"depends takes no --format: {WITH_FORMAT}"),
        ("dot --format json", f"dot takes no --format: {WITH_FORMAT}"),
        ("why a b --format flags", "why takes --format lines or json, not flags"),
        ("built --format flags", "built takes --format lines or json, not flags"),
        ("dot --null", "dot takes no --null"),
        ("depends a b --null", "depends takes no --null"),
    ):
        yield words, (2, "", f"error: {fault}\n"), run(words.split(), given)


def try_options(graph):
    """Links of some kinds alone, members alone, and IDs; an option stands anywhere."""
    for kinds in ("normal", "build", "dev", "build,normal", "dev,build,normal"):
        kept = {ends for ends, sections in graph.sections.items() if sections & set(kinds.split(","))}
        onward, back = reach_of(graph.names, kept), reach_of(graph.names, reverse(kept))
        for a in graph.starts:
            yield f"--kinds {kinds} reach forward {a}", sorted(onward[a]), graph.ask("--kinds", kinds, "reach", "forward", a)
            yield f"reach reverse {a} --kinds {kinds}", sorted(back[a]), graph.ask("reach", "reverse", a, "--kinds", kinds)
    order = graph.ask("order")
    members = [it for it in order if it in graph.folders]
    yield "order --workspace", members, graph.ask("order", "--workspace")
    yield "order --ids", [graph.ids[it] for it in order], graph.ask("--ids", "order")
    yield "--ids order --workspace", [graph.ids[it] for it in members], graph.ask("--ids", "order", "--workspace")
    for kinds in ("build", "dev,normal"):
        yield f"order --kinds={kinds}", graph.ask("order", "--kinds", kinds), graph.ask("order", f"--kinds={kinds}")
    for words, fault in (
        ("--kinds order", NO_COMMAND),
        ("--kinds other order", NO_KIND),
        ("order --kinds=other", NO_KIND),
        ("order --kinds", "a value is missing behind --kinds"),
        ("--kinds dev order --kinds dev", "--kinds is given twice"),
        ("order --ids --workspace --ids", "--ids is given twice"),
        ("order --ids=yes", "--ids takes no value"),
        ("order --publishable", "order takes no --publishable"),
        ("--ignore x order", "order takes no --ignore"),
        ("order --also x=y", "order takes no --also"),
        ("--id order", "--id is no option: the nearest is --ids"),
        ("order --kind=dev", "--kind is no option: the nearest is --kinds"),
        ("order --frobnicate", "--frobnicate is no option: guppy-cargo help lists them"),
    ):
        yield words, (2, "", f"error: {fault}\n"), run(words.split(), graph.text.encode())


class OnPlatform:
    """What cargo says of a workspace on one platform: its packages and links, by ID, and its tree's packages."""

    def __init__(self, room, folder, flags, triple):
        data = json.loads(metadata_of(room, folder, f"{flags} --filter-platform {triple}"))
        nodes = data["resolve"]["nodes"]
        self.packages = {it["id"] for it in nodes}
        self.links = {(it["id"], dep["pkg"]) for it in nodes for dep in it["deps"]}
        # What is built to run while it builds is the host's in the tree, and macros aren't told apart here.
        self.kinds = "normal,build,dev" if triple == HOST else "normal"
        is_told = triple == HOST or folder != "debian"
        self.tree = tree_in(room, folder, flags, triple)("-e", self.kinds) if is_told else None


def on_platforms(room, folder, flags):
    return {} if "--filter-platform" in flags else {it: OnPlatform(room, folder, flags, it) for it in TRIPLES}


def try_platforms(graph):
    """Links that are on on a platform, beside what cargo says of it."""
    members = sorted(graph.folders)
    with tempfile.TemporaryDirectory() as room:
        for triple, there in graph.on.items():
            file = os.path.join(room, triple)
            with open(file, "w", encoding="utf-8") as held:
                held.write(cfgs_of(triple))
            words = ["--platform", triple, "--cfgs", file]
            # What runs on the host, which isn't known, stays as it is, and cargo's metadata have it on the platform alone.
            kept = {ends for ends, kinds in graph.sections.items() if ends[0] in graph.hosted or "build" in kinds}
            kept |= {(graph.called[a], graph.called[b]) for a, b in there.links}
            onward = reach_of(graph.names, kept)
            wanted = set().union(*(onward[it] for it in members))
            yield f"packages on {triple}", [], sorted({graph.called[it] for it in there.packages} - wanted)
            reached = graph.ask("reach", "forward", *members, *words)
            yield f"reach forward on {triple}", sorted(wanted), reached
            walked = [tuple(line.split(" ")) for line in graph.ask(*words, "links", "forward")]
            yield f"links on {triple}", sorted(it for it in kept if it[0] in wanted), sorted(
                it for it in walked if it[0] in reached
            )
            if there.tree is not None:
                reached = graph.ask("reach", "forward", *members, *words, "--kinds", there.kinds)
                missed = set(there.tree) - {graph.forms[graph.ids[it]][1] for it in reached}
                yield f"cargo tree on {triple}", [], sorted(missed)
        every = [word for it in graph.on for word in ("--platform", it, "--cfgs", os.path.join(room, it))]
        both = sorted({graph.called[it] for there in graph.on.values() for it in there.packages})
        yield "reach forward on each of them", [], sorted(set(both) - set(graph.ask("reach", "forward", *members, *every)))
        given, bad = graph.text.encode(), os.path.join(room, "bad")
        with open(bad, "w", encoding="utf-8") as held:
            held.write("unix\n\nwindows\n")
        for words, fault in (
            ("order --platform x", NO_CFGS),
            (f"order --cfgs {bad}", NO_CFGS),
            (f"order --platform x --cfgs {bad} --platform y", NO_CFGS),
            ("order --platform x --cfgs no/such", "no/such: the cfgs in it can't be read"),
            (f"--platform x --cfgs={bad} order", "x: line 2 of its cfgs is neither a name nor a key with a value"),
            ("order --host x", NO_HOST),
            ("built --resolver 4", "4 is no resolver: give 1, 2 or 3"),
            ("features --resolver= x", " is no resolver: give 1, 2 or 3"),
            ("built --resolver 1 --resolver 1", "--resolver is given twice"),
            ("built x", "built takes other words: give built"),
            ("features", "features takes other words: give features PACKAGE"),
            ("why-feature x -p y", "why-feature takes other words: give why-feature PACKAGE FEATURE"),
            ("built --kinds dev", "built takes no --kinds"),
            ("order --tests", "order takes no --tests"),
            (f"--host-cfgs {bad} order", NO_HOST),
            ("order --host=x --host=y", "--host is given twice"),
            ("order --host x --host-cfgs no/such", "no/such: the cfgs in it can't be read"),
            (f"order --host x --host-cfgs {bad}", "x: line 2 of its cfgs is neither a name nor a key with a value"),
        ):
            yield words, (2, "", f"error: {fault}\n"), run(words.split(), given)


def named(data, key, old, new):
    """The data with the text under this key, or in the list there, replaced."""
    if isinstance(data, dict):
        changed = {k: named(it, key, old, new) for k, it in data.items()}
        if key in data:
            lists = isinstance(data[key], list)
            changed[key] = [new if it == old else it for it in data[key]] if lists else new if data[key] == old else data[key]
        return changed
    return [named(it, key, old, new) for it in data] if isinstance(data, list) else data


def try_tree(graph):
    """What `cargo tree` shows of the same workspace. It counts a package twice that is built with other features, too, of which
    the JSON has the links of both: where there are many packages, it may show fewer that lead to one. And it follows
    dependencies on packages with no library, of which the JSON has nothing."""
    if not graph.tree:
        return
    full = {name: graph.forms[it][1] for name, it in graph.ids.items()}
    for kind in ("normal", "build", "dev"):
        answer = graph.ask("--kinds", kind, "reach", "forward", *sorted(graph.folders))
        yield f"--kinds {kind}, as cargo tree has it", graph.tree("-e", kind), {full.get(it, it) for it in answer}
    kinds = {it["id"]: set().union(*(to["kind"] for to in it["targets"])) for it in graph.data["packages"]}
    others = {name for name, it in graph.ids.items() if not kinds[it] & {"lib", "proc-macro"}}
    for a in (it for it in graph.starts if not graph.back[it] & others):
        wanted = graph.tree("-e", "normal,build,dev", "-i", graph.ids[a])
        answer = {full.get(it, it) for it in graph.ask("reach", "reverse", a)}
        yield f"reach reverse {a}, as cargo tree has it", wanted, answer & wanted if len(graph.names) > MANY else answer
        for b in sorted(graph.back[a])[:2] if wanted == answer else ():
            passed = {full.get(it.split(" ")[0], it) for it in graph.ask("why", b, a)}
            yield f"why {b} {a}, what cargo tree has not", set(), passed - wanted
    shown = graph.tree("-e", "normal,build,dev", "-d", "--depth", "0")
    versions = collections.Counter(it.split("@")[0] for it in shown)
    wanted = {it for it in shown if versions[it.split("@")[0]] > 1}
    # Cargo tree shows two packages of one version as one.
    versions = [(it["name"], it["version"]) for it in graph.data["packages"]]
    if len(set(versions)) == len(versions):
        yield "duplicates, as cargo tree has them", wanted, {full.get(it, it) for it in duplicates_of(graph)}


def duplicates_of(graph):
    """The packages whose name another one has, too."""
    names = collections.Counter(it for it, _, _ in graph.forms.values())
    return [name for name, it in graph.ids.items() if names[graph.forms[it][0]] > 1]


def try_duplicates(graph):
    """Each with the packages that have a link to it."""
    rows = [line.split(" ") for line in graph.ask("duplicates")]
    wanted = {name: sorted(a for a, b in graph.links if b == name) for name in duplicates_of(graph)}
    yield "duplicates, what needs each", wanted, {name: sorted(others) for name, *others in rows}
    yield "duplicates, each once", len(wanted), len(rows)
    names = [graph.forms[graph.ids[it[0]]][0] if it[0] in graph.ids else it for it in rows]
    yield "duplicates, ascending by name", sorted(names), names
    of_members = [" ".join(it) for it in rows if it[0] in graph.folders]
    yield "duplicates --workspace", of_members, graph.ask("duplicates", "--workspace")


def edits(a, b):
    """How many letters are left out, put in or changed from one word to the other."""
    row = list(range(len(b) + 1))
    for i, letter in enumerate(a):
        last, row = row, [i + 1]
        for j, other in enumerate(b):
            row.append(min(row[j] + 1, last[j + 1] + 1, last[j] + (letter != other)))
    return row[-1]


def try_help(graph):
    """What the program says of itself, with no metadata."""
    for words in ("--help", "-h", "help", "help order", "order --help", "affected -h", "help affected"):
        status, output, errors = run(words.split(), b"")
        yield f"{words}, how it ends", (0, ""), (status, errors)
        yield f"{words}, whose usage", ["guppy-cargo"], re.findall(r"^Usage: (\S+) ", output, re.M)
    told = run(["help"], b"")[1]
    yield "help, the commands", sorted(COMMANDS), sorted(re.findall(r"^  ([a-z][a-z-]+)", told, re.M))
    yield "help, lines of more than 90 letters", [], [it for it in told.splitlines() if len(it) > 90]
    for command, own in (
        ("cycles", ["--format"]),
        ("links", ["--format"]),
        ("order", ["--format"]),
        ("publish-order", ["--format", "--publishable"]),
        ("affected", ["--format", "--ignore", "--also", "--paths-from", "--before", "--resolver"]),
    ):
        options = re.findall(r"^  (--[a-z-]+)", run(["help", command], b"")[1], re.M)
        yield f"help {command}, its options", [*EVERY_COMMANDS, *own], options
    for command in OF_BUILDS:
        options = re.findall(r"^  (--?[a-z-]+)", run(["help", command], b"")[1], re.M)
        yield f"help {command}, its options", [*EVERY_COMMANDS[1:], "--format", *BUILDS], options
    with open(os.path.join(HERE, "../docs/PROGRAM.md"), encoding="utf-8") as page:
        above, json_on = page.read().split("\n## JSON\n")
    rows, items = ([it.split("|")[1] for it in text.splitlines() if it.startswith("| `")] for text in (above, json_on.split("\n## ")[0]))
    documented = [option for it in rows for option in re.findall("--[a-z-]+", it)]
    helped = [it for words in COMMANDS for it in re.findall(r"^  (--[a-z-]+)", run(["help", words], b"")[1], re.M)]
    yield "the options of PROGRAM", sorted(set(helped)), sorted(documented)
    yield "the commands of PROGRAM", sorted(COMMANDS), sorted(re.findall(r"`([a-z][a-z-]*)", " ".join(rows)))
    of_lists = sorted({*COMMANDS} - {"depends", "verify", "dot"})
    yield "the commands of PROGRAM with JSON", of_lists, sorted(re.findall(r"`([a-z][a-z-]*)", " ".join(items)))
    for word in (it[1:] for it in COMMANDS):
        apart = {it: edits(word, it) for it in COMMANDS}
        wanted = {it for it in COMMANDS if apart[it] == min(apart.values())}
        message = re.fullmatch("error: (.*) is no command: the nearest is (.*)\n", run([word], b"")[2])
        yield f"{word}, the nearest command", True, bool(message and message[1] == word and message[2] in wanted)
    with open(os.path.join(HERE, "../scripts/words.sh"), encoding="utf-8") as script:
        taken = set(re.findall("(--[a-z][a-z-]+)[=) ]", script.read().split("# The words of this kind")[0])) | {"--with"}
    for word in sorted(taken - set(helped)):
        told = f"error: {word} is no option of the program: the nearest is {word}, of the scripts\n"
        yield f"{word}, of the scripts", (2, "", told), run(["order", word, "x"], b"")
    yield "--version", (0, "guppy-cargo of guppy 0.19.1, proved\n", ""), run(["--version"], b"")
    for words, fault in (
        ("help no-such", "help is no command: guppy-cargo help lists them"),
        ("--help order roots", "--help is no option: the nearest is --host"),
    ):
        yield words, (2, "", f"error: {fault}\n"), run(words.split(), graph.text.encode())


def try_unknown(graph):
    """Words that are nearly a package's name, and what is told of them."""
    given, names = graph.text.encode(), {it["name"] for it in graph.data["packages"]}
    some = graph.random.sample(sorted(names), min(STARTS, len(names)))
    for word in {*(name[1:] for name in some), *(name + end for name in some for end in ("x", "-xy", "-xyz"))}:
        if not word or word in graph.meant:
            continue
        apart = {name: edits(word, name) for name in names}
        wanted = {name for name in names if apart[name] == min(min(apart.values()), 3)}
        told = run(["reach", "forward", word], given)[2]
        message = re.fullmatch("error: unknown package (.*): the nearest is (.*)\n", told)
        is_right = message and message[1] == word and message[2] in wanted if wanted else told == f"error: unknown package ID: {word}\n"
        yield f"{word}, the nearest package", True, bool(is_right)


def try_refused(graph):
    """Arguments, names and input that are wrong, and cycles that no order can have."""
    given = graph.text.encode()
    for words in ("", "reach", "reach up", "reach forward", "depends a", "order all", "publish", "roots", "verify x"):
        yield words, "status 2", ending(words.split(), given)
    for name in ("no-such-package", *graph.repeated):
        yield f"depends {name}", "status 1", ending(["depends", name, graph.names[0]], given)
    for name in graph.repeated:
        wanted = f"error: ambiguous package {name}: give {' or '.join(graph.called[it] for it in graph.meant[name])}\n"
        yield f"reach forward {name}, what is told", (1, "", wanted), run(["reach", "forward", name], given)
    without = json.dumps({**graph.data, "resolve": None}).encode()
    deep = [b"[" * 10**6, b'{"a":' * 10**5]
    for text in (b"", b"{}", b"[]", b"\xff", given[:-2], given + b"x", given * 2, without, *deep):
        yield f"order of {text[:20]} and {len(text)} bytes", "status 1", ending(["order"], text)
    # The texts of the program's own, and one of each kind that it passes on.
    for words, text, status, fault in (
        ("", given, 2, NO_COMMAND),
        ("reach", given, 2, "reach takes other words: give reach forward|reverse PACKAGE.."),
        ("order x", given, 2, "order takes other words: give order"),
        ("order", b"\xff", 1, "the input is no UTF-8"),
        ("order", without, 1, "resolve: no dependencies are resolved"),
        ("reach forward no-such-package", given, 1, "unknown package ID: no-such-package"),
    ):
        told = status, "", f"error: {fault}\n"
        yield f"{words} of {text[:20]} and {len(text)} bytes, what is told", told, run(words.split(), text)
    members = [it for it in graph.names if it in graph.folders]
    for it in [it for it in graph.names if it not in graph.folders][:1]:
        told = 1, "", f"error: {it} is no member of the workspace\n"
        for words in (["built"], ["features", it]):
            yield f"{words} of {it}, what is told", told, run([*words, "-p", members[0], "-p", it], given)
    firm = Graph(graph.text.replace('"kind":"dev"', '"kind":null'))
    for words, has_cycle in (("verify", firm.has_firm_cycle()), ("publish-order", firm.has_needed_cycle())):
        wanted = f"status {int(has_cycle)}"
        yield f"{words}, dev-dependencies made normal", wanted, ending([words], firm.text.encode())
        links = firm.firm | (firm.declared if words == "publish-order" else set())
        for form, called in ((), str), (("--ids",), firm.ids.get):
            told = run([words, *form], firm.text.encode())[2].removeprefix(CYCLE).removesuffix("\n").split(" -> ")
            pairs, known = set(itertools.pairwise(told)), {(called(a), called(b)) for a, b in links}
            is_cycle = len(set(told)) == len(told) - 1 > 1 and told[0] == told[-1] and pairs <= known
            yield f"{words} {form}, the cycle that is told", has_cycle, is_cycle


PARTS = {
    "reach": try_reach,
    "depends": try_depends,
    "why": try_why,
    "order": try_order,
    "cycles": try_cycles,
    "roots and links": try_links,
    "verify and publish-order": try_publish,
    "dot": try_dot,
    "affected": try_affected,
    "what is left out": try_left_out,
    "what is given": try_given,
    "names": try_names,
    "formats": try_formats,
    "json": try_json,
    "options": try_options,
    "platforms": try_platforms,
    "what cargo tree shows": try_tree,
    "duplicates": try_duplicates,
    "help": try_help,
    "unknown packages": try_unknown,
    "refusals": try_refused,
}


def try_broken(text, number):
    """What was asked of a broken JSON, what is right, and how the program ended."""
    given, what = broken(text, number)
    words = ["order", "links reverse", "verify", "publish-order"][number % 4]
    ended = ending(words.split(), given)
    return f"{words} of number {number}, {what}", ended if ended in ("status 0", "status 1") else "status 0 or 1", ended


def tell(part, tried):
    """Prints what came of a part's questions, and returns whether all are right."""
    wrong = [it for it in tried if it[1] != it[2]]
    for asked, wanted, got in wrong[:10]:
        print(f"cargo: {part}: FAILED: {asked}: {got!s:.1000}, where {wanted!s:.1000} is the answer")
    print(f"cargo: {part}: {len(tried) - len(wrong)} of {len(tried)} are right", flush=True)
    return not wrong


def tries_of(part, where, graph):
    return [(f"{where}: {asked}", *rest) for asked, *rest in PARTS[part](graph)]


def graph_of(room, folder, flags):
    """The graph of a workspace; `cargo tree` is asked about those that are for all platforms."""
    tree = None if "platform" in flags else tree_in(room, folder, flags)
    return Graph(metadata_of(room, folder, flags), tree, lambda *words: cargo_in(room, folder, *words))


def main():
    if not os.access(PROGRAM, os.X_OK):
        return f"cargo: {PROGRAM} is not there"
    with tempfile.TemporaryDirectory() as room:
        places = workspaces_in(room)
        graphs = {where: graph_of(room, *place) for where, place in places.items()}
        with ThreadPoolExecutor(4) as workers:
            said = list(workers.map(lambda it: on_platforms(room, *it), places.values()))
        for graph, on in zip(graphs.values(), said, strict=True):
            graph.on = on
        links = sum(len(it.links) for it in graphs.values())
        print(f"cargo: {len(graphs)} graphs, of {sum(len(it.names) for it in graphs.values())} packages and {links} links")
        if not GRAPHVIZ:
            print("cargo: Graphviz is not there: what it reads is not tried")
        text = next(iter(graphs.values())).text
        with ThreadPoolExecutor(4) as workers:
            trying = {part: [workers.submit(tries_of, part, *it) for it in graphs.items()] for part in PARTS}
            passed = [tell(part, [it for tried in each for it in tried.result()]) for part, each in trying.items()]
            passed.append(tell("broken input", list(workers.map(lambda it: try_broken(text, it), range(BROKEN)))))
    print(f"{passed.count(True)} passed, {passed.count(False)} failed")
    return not all(passed)


if __name__ == "__main__":
    sys.exit(main())

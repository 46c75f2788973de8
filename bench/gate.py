#!/usr/bin/env python3
"""Measures what the parts of the merge gate cost, and tries the wrong bodies that it leaves out.

    bench/gate.py               for each crate, lowest first, the processor seconds at one job of its proof, of that of
                                its tests, and of each of its must-fail edits
    bench/gate.py guppy_core    these crates alone, with the proofs of those below them
    bench/gate.py --proofs guppy_core       the same without the edits
    bench/gate.py --functions guppy_core    of its proof, the functions and the parts that take longest
    bench/gate.py --edits [guppy_core]      the edits alone, over the libraries that `rt ci` left
    bench/gate.py --bugs [guppy_core]       each bug of the lists must-fail-by-hand.edit, over the same
    bench/gate.py --apply       tries nothing: tells which edits and bugs don't fit the sources

It calls the functions of `rt` (which has to be on the path) that the gate calls, so the sums are the gate's, but for
the runs of the programs and the tests. What measures works one after the other; without --edits and --bugs it proves
everything from nothing, on a copy of the repository.

In a list a line `bug: NAME` begins a bug, which has all pairs up to the next blank line; a pair outside of one is a bug
of its own. Bugs of one pair, each in another function, are tried together, up to BATCH of them: the check tells of each
function whether it is proved, and a bug is refused where its function isn't by its own fault. Any other bug is tried by
itself, as the gate tries an edit. One that was refused is not tried again while the files that it stands on stay the
same. The status is 1 where a bug or edit isn't refused.
"""
import contextlib
import glob
import hashlib
import importlib.machinery
import importlib.util
import json
import os
import re
import resource
import shutil
import sys
import tempfile
import time
from collections import Counter
from concurrent.futures import ThreadPoolExecutor
from pathlib import Path

sys.dont_write_bytecode = True
TOP = os.path.dirname(os.path.dirname(os.path.realpath(__file__)))
ONE_JOB = ["--jobs", "1"]
BY_HAND = "must-fail-by-hand.edit"
OVER_LIBRARIES = ("--edits", "--bugs")
BATCH = 16


def load_rt():
    path = shutil.which("rt")
    if not path:
        sys.exit("gate.py: rt is not on the path")
    loader = importlib.machinery.SourceFileLoader("rt", os.path.realpath(path))
    module = importlib.util.module_from_spec(importlib.util.spec_from_loader("rt", loader))
    loader.exec_module(module)
    return module


def read(path):
    with open(path, encoding="utf-8") as it:
        return it.read()


# Measuring.


def seconds_of(call, *given):
    """Returns what the call answers, and the processor seconds of the commands that it ran."""
    def spent():
        used = resource.getrusage(resource.RUSAGE_CHILDREN)
        return used.ru_utime + used.ru_stime

    before = spent()
    answer = call(*given)
    return answer, spent() - before


def tell(part, name, seconds, well, more=""):
    print(f"{seconds:8.1f}  {part:6} {name}{'' if well else '  FAILED'}{more}", flush=True)


def function_and_part(module):
    """Cuts the file of a checked module, as Rattle-guppy-proofs.set.PackageSet.packages.Lts.oantt: its last word in
    capitals is the part of the proof, and a file of lemmas has no function."""
    words = module.removesuffix(".oantt").removesuffix(".decls").partition("-proofs.")[2].split(".")
    last = len(words)
    while last > 1 and words[last - 1][:1].isupper():
        last -= 1
    return ".".join(words[:last]), words[-1] if last < len(words) else ""


def measure_functions(rt, crate):
    """Tells which functions and parts take longest: at one job, each module takes until it is written."""
    functions, parts = Counter(), Counter()
    with tempfile.TemporaryDirectory() as kept:
        before = time.time()
        ran, whole = seconds_of(rt.checked, crate, {}, ONE_JOB, kept)
        for at, module in sorted((it.stat().st_mtime, it.name) for it in Path(kept).rglob("*.oantt")):
            function, part = function_and_part(module)
            functions[function] += at - before
            parts[part] += at - before
            before = at
    tell("proof", crate.name, whole, not ran.returncode)
    for what, spent in ("part", parts.most_common(8)), ("fn", functions.most_common(40)):
        for name, seconds in spent:
            tell(what, name or "others", seconds, True)
    return whole, not ran.returncode


def measure_edits(rt, crate):
    """Tries each edit of a crate over one proof of it, or from nothing where it is the only one, as the gate does."""
    edits, whole, well, seed = rt.edits_of(crate)[0], 0.0, True, None
    if len(edits) > 1:
        seed, whole = seconds_of(rt.seeded, crate, ONE_JOB)
        tell("seed", crate.name, whole, seed)
    for edit in edits:
        with copy_of(rt, seed) as kept:
            (kind, text), seconds = seconds_of(rt.must_fail, crate, edit, ONE_JOB, kept)
        whole, well = whole + seconds, well and kind == rt.REFUSED
        name = f"{crate.name}/{os.path.basename(edit)}"
        tell("edit", name, seconds, kind == rt.REFUSED, "" if kind == rt.REFUSED else f": {text}")
    return whole, well


def measure(rt, crate, parts):
    """Tells what the parts of a crate take, and returns their sum and whether all went well."""
    if parts == "--functions":
        return measure_functions(rt, crate)
    if parts == "--edits":
        return measure_edits(rt, crate)
    status, whole = seconds_of(crate.ci, ONE_JOB, False)
    tell("proof", crate.name, whole, not status)
    if crate.has_tests():
        of_tests, seconds = seconds_of(crate.ci, ONE_JOB, True)
        tell("tests", crate.name, seconds, not of_tests)
        status, whole = status or of_tests, whole + seconds
    if parts == "--proofs":
        return whole, not status
    seconds, well = measure_edits(rt, crate)
    return whole + seconds, well and not status


@contextlib.contextmanager
def copy_of(rt, seed):
    """Gives a copy of what a crate's own check proved, for one check that may write into it, or None where there is
    none."""
    if not seed:
        yield None
        return
    with tempfile.TemporaryDirectory(dir=seed) as room:
        rt.linked(f"{seed}/seed", f"{room}/kept")
        yield f"{room}/kept"


# The lists of bugs.


class Bug:
    """A bug of a list: its name, and its pairs as (path, old, new)."""

    def __init__(self, name):
        self.name, self.pairs = name, []

    def text(self):
        """The bug as an edit has it."""
        return "".join(f"file: {path}\nold: {old}\nnew: {new}\n" for path, old, new in self.pairs)

    def function(self, folder):
        """The file and the name of the function that the bug changes, or None of one that has several pairs."""
        if len(self.pairs) != 1:
            return None
        path, old, _ = self.pairs[0]
        text = read(f"{folder}/{path}")
        before = text[: text.find(old) + len(old)]
        names = re.findall(r"^\s*(?:pub(?:\(\w+\))? )?(?:unsafe |extern \"C\" )*fn (\w+)", before, re.M)
        return (path, names[-1]) if names else None


def bugs_of(text):
    """Cuts a list into its bugs."""
    bugs, named, path, old = [], None, "", ""
    for line in text.split("\n"):
        word, _, rest = line.partition(" ")
        if not line:
            named = None
        elif word == "bug:":
            named = Bug(rest)
            bugs.append(named)
        elif word == "file:":
            path = rest.strip()
        elif word == "old:":
            old = rest
        elif word == "new:":
            bug = named
            if not bug:
                bug = Bug(f"{path}: {old.strip()}")
                bugs.append(bug)
            bug.pairs.append((path, old, rest))
    return bugs


def list_of(crate):
    """The bugs of a crate's list, none where it has no list."""
    path = f"{crate.folder}/{BY_HAND}"
    return bugs_of(read(path)) if os.path.isfile(path) else []


def spliced(text, pairs):
    """The text with each new text in the place of its old one, which stands there once."""
    for at, old, new in sorted(((text.index(old), old, new) for old, new in pairs), reverse=True):
        text = text[:at] + new + text[at + len(old) :]
    return text


def is_at_fault(line):
    """Whether a check's line of a function blames the function itself. Of one that only calls what isn't proved, it says
    that there is no proof, as `fn a::b: no proof: it calls `a::c`, which is not proved`."""
    return ": not proved" in line or ": no proof" in line and not re.search(r"it calls|it passes|a call of", line)


class Tries:
    """The tries of a crate's bugs, by themselves or together."""

    def __init__(self, rt, crate, say):
        self.rt, self.crate, self.say = rt, crate, say
        self.bugs = list_of(crate)
        self.results = Counter()
        self.kept = f"{crate.folder}/out/refused-by-hand.json"
        self.stamp = rt.stamp_of(crate, {})

    def sum_of(self, bug):
        return hashlib.sha256(f"{self.stamp}\n{bug.text()}".encode()).hexdigest()

    def known(self):
        """The sums of the bugs that were refused before."""
        try:
            return set(json.loads(read(self.kept)))
        except (OSError, ValueError):
            return set()

    def settle(self, bug, kind, more=""):
        self.results[kind] += 1
        if kind == self.rt.REFUSED:
            known = sorted({*self.known(), self.sum_of(bug)})
            with open(self.kept, "w", encoding="utf-8") as it:
                json.dump(known, it)
        self.say(f"{kind:8} {self.crate.name}: {bug.name}{more}")

    def run(self):
        known = self.known()
        left = [bug for bug in self.bugs if self.sum_of(bug) not in known]
        self.results["before"] = len(self.bugs) - len(left)
        seed = self.rt.seeded(self.crate, ONE_JOB, self.started()) if left else None
        if left and not seed:
            self.say(f"{self.crate.name}: it is not proved as it stands, so no bug of its lists is tried")
            self.results[self.rt.UNSURE] += len(left)
            return self.results
        alone = [bug for bug in left if not bug.function(self.crate.folder)]
        together = [bug for bug in left if bug not in alone]
        while together:
            batch, together = self.batch(together)
            masked, unclear = self.try_together(batch, seed)
            # What is masked by another bug of its batch goes into a later one, where that bug isn't.
            is_moving = len(masked) + len(unclear) < len(batch)
            together += masked if is_moving else []
            alone += unclear + ([] if is_moving else masked)
        for bug in alone:
            self.try_alone(bug, seed)
        return self.results

    def started(self):
        """What an earlier `rt check` kept, if there is something."""
        kept = f"{self.crate.folder}/out/incremental"
        return kept if os.path.isdir(kept) else None

    def batch(self, bugs):
        """Takes the first bugs of different functions, and returns them and the others."""
        taken, names, others = [], set(), []
        for bug in bugs:
            function = bug.function(self.crate.folder)
            if len(taken) < BATCH and function not in names:
                names.add(function)
                taken.append(bug)
            else:
                others.append(bug)
        return taken, others

    def try_together(self, bugs, seed):
        """Settles the bugs whose function the check refuses, and returns those that others mask, and those left."""
        folder = self.crate.folder
        fitting = [bug for bug in bugs if not self.rt.edited(bug.text(), folder)[1]]
        unclear = [bug for bug in bugs if bug not in fitting]
        pairs = {}
        for bug in fitting:
            for path, old, new in bug.pairs:
                pairs.setdefault(path, []).append((old, new))
        texts = {path: spliced(read(f"{folder}/{path}"), of_it) for path, of_it in pairs.items()}
        with copy_of(self.rt, seed) as kept:
            ran = self.rt.checked(self.crate, texts, ONE_JOB, kept)
        lines = [line for line in ran.stdout.split("\n") if line.startswith("fn ")]
        if not lines:
            # The front end refuses one of them: half of them may do.
            half = len(fitting) // 2
            if half:
                masked, others = self.try_together(fitting[:half], seed)
                more, rest = self.try_together(fitting[half:], seed)
                return masked + more, unclear + others + rest
            return [], unclear + fitting
        masked = []
        for bug in fitting:
            of_it = [line for line in lines if self.names(line, bug)]
            if any(map(is_at_fault, of_it)):
                self.settle(bug, self.rt.REFUSED)
            elif any(": no proof" in line for line in of_it):
                masked.append(bug)
            else:
                unclear.append(bug)
        return masked, unclear

    def names(self, line, bug):
        """Whether a check's line is of the function that the bug changes, or of a closure in it."""
        path, name = bug.function(self.crate.folder)
        module = re.sub(r"^(lib|main)$", "", path.removeprefix("src/").removesuffix(".rt")).replace("/", "::")
        front = f"{self.crate.name}::{module}::" if module else f"{self.crate.name}::"
        named = line.removeprefix("fn ").split(": ")[0]
        return named.startswith(front) and name in re.split(r"::|\+", named.removeprefix(front))

    def try_alone(self, bug, seed):
        with tempfile.TemporaryDirectory() as room, copy_of(self.rt, seed) as kept:
            edit = f"{room}/bug.edit"
            with open(edit, "w", encoding="utf-8") as it:
                it.write(bug.text())
            kind, text = self.rt.must_fail(self.crate, edit, ONE_JOB, kept)
        self.settle(bug, kind, "" if kind == self.rt.REFUSED else f": {text.partition('bug.edit: ')[2]}")


def try_bugs(rt, crates):
    """Tries the bugs of these crates' lists, crates side by side, tells what each came to, and returns whether all were
    refused."""
    def say(line):
        print(line, flush=True)

    tries = sorted((Tries(rt, crate, say) for crate in crates), key=lambda it: -len(it.bugs))
    lanes = int(os.environ.get("RT_JOBS") or os.cpu_count())
    with rt.ending(), ThreadPoolExecutor(lanes) as pool:
        found = sum(pool.map(Tries.run, tries), Counter())
    before, refused = found.pop("before", 0), found.pop(rt.REFUSED, 0)
    others = "".join(f", {number} {kind}" for kind, number in sorted(found.items()))
    print(f"{refused + before} refused, {before} of them by an earlier run{others}")
    return not found


def bugs_that_miss():
    """Tells each edit and each bug of a list that doesn't fit the sources, and returns how many there are. (rt ci
    passes over an edit that it can't apply.)"""
    rt, missing = load_rt(), 0
    for file in sorted(glob.glob(f"{TOP}/crates/*/must-fail/*.edit") + glob.glob(f"{TOP}/crates/*/{BY_HAND}")):
        folder = file[: file.index("/must-fail")]
        is_list = file.endswith(BY_HAND)
        texts = [(f"{bug.name}: ", bug.text()) for bug in bugs_of(read(file))] if is_list else [("", read(file))]
        for name, text in texts:
            why = rt.edited(text, folder)[1]
            if why:
                print(f"{os.path.relpath(file, TOP)}: {name}{why}")
                missing += 1
    return missing


def main(words):
    if words == ["--apply"]:
        sys.exit(1 if bugs_that_miss() else 0)
    parts = words.pop(0) if words and words[0] in ("--proofs", "--functions", *OVER_LIBRARIES) else ""
    rt = load_rt()
    with tempfile.TemporaryDirectory() as room:
        top = TOP
        if parts not in OVER_LIBRARIES:
            top = f"{room}/copy"
            shutil.copytree(TOP, top, ignore=shutil.ignore_patterns("out", ".git"))
        os.chdir(top)
        rt.rtlib.guarded()
        rt.Crate.cuts_libraries = parts not in OVER_LIBRARIES
        rt.Crate.allowed = rt.handles_of(top)
        rt.rtlib.Crate = rt.Crate
        crates = sorted(rt.rtlib.crates_below(top), key=lambda crate: len(crate.below()))
        lacking = [name for name in words if name not in [crate.name for crate in crates]]
        if lacking:
            sys.exit(f"gate.py: {lacking[0]} is no crate of crates.txt")
        wanted = [crate for crate in crates if not words or crate.name in words]
        unbuilt = sorted({it.name for crate in wanted for it in crate.below() if not os.path.isdir(it.rlib)})
        if parts in OVER_LIBRARIES and unbuilt:
            sys.exit(f"gate.py: there is no built library of {unbuilt[0]}: run `rt ci` first")
        for crate in crates:
            os.makedirs(f"{crate.folder}/out", exist_ok=True)
            crate.out = open(f"{crate.folder}/out/gate.log", "w", encoding="utf-8")
        if parts == "--bugs":
            sys.exit(0 if try_bugs(rt, wanted) else 1)
        whole, well = 0.0, True
        with rt.ending():
            for crate in crates:
                if crate in wanted:
                    seconds, is_well = measure(rt, crate, parts)
                    whole, well = whole + seconds, well and is_well
                elif parts != "--edits" and any(crate in above.below() for above in wanted):
                    crate.ci(ONE_JOB, False)
    print(f"{whole:8.1f}  processor seconds in all")
    sys.exit(0 if well else 1)


main(sys.argv[1:])

#!/usr/bin/env python3
"""Refuses each request for memory in turn, to the cases of guppy_memory_tests and to the programs.

Both are run as the gate built them, in crates/*/out, with refuse.c preloaded, which has the C library refuse
requests. Each case and each command is run with its first request refused, then with its second, until a run has
no request left to refuse; each time once with this one alone, and once with those after it too. None may ask for memory
that its answer doesn't need: where the answer comes in full though a request was refused, another one was made in its
place, and with that one refused too it doesn't come. guppy_run is also run with less and less address space. The last
line is 'N passed, M failed'.
"""

import itertools
import os
import subprocess
import sys
import tempfile
from concurrent.futures import ThreadPoolExecutor

HERE = os.path.dirname(os.path.realpath(__file__))
CRATES = os.path.join(os.path.dirname(HERE), "crates")
BUILDS = {"": "as LLVM builds them", ".by-rattle": "as Rattle's own compiler builds them"}

REFUSED = "out of memory"
TOLD = f"error: {REFUSED}\n"
NEEDLESS = "the answer came in full, so it asks for memory that it doesn't need"
# What a filter tells where the request for the list that it hands back was refused.
OWN_LIST = "its own list was refused"
# So many lines tell what stands before a case, and behind it.
WORLD = 4
# A case that may make so many requests, and no more.
FEWEST = {"positions.thousand_by_sevens": 99}
# More than any other case makes, and any run.
MANY = 10000

# A graph with every kind of link: of each section, to itself, round, dev-only ones round, and none.
LINES = """package r
package a
package b
package c
package lone
link r a normal
link a b build
link b a dev
link a a normal
link b c normal
link c b normal
link r c dev
"""
# So many packages more for the runs with less room, which are so many kilobytes apart.
SIZE = 2000
STEP = 64
COMMANDS = [
    "reach forward a",
    "reach reverse a r",
    "depends r c",
    "depends c r",
    "why r b",
    "why c r",
    "order",
    "roots forward",
    "roots reverse",
    "links forward",
    "links reverse",
    "cycles",
    "duplicates",
    "dot",
    "dot r",
    "verify",
    "publish-order",
    "publish-order --publishable",
    "--null --format flags order",
    "--format flags reach forward a",
    "--format json order",
    "--format json reach forward a",
    "--format json links forward",
    "--format json why r c",
    "--format json cycles",
    "--platform x --cfgs CFGS --platform y --cfgs CFGS --host z --host-cfgs CFGS order",
]
# The link of the graph that makes a cycle over links that aren't dev-only, and what ends in a fault for that.
TURNING = "link c b normal\n"
TURNED = ["verify", "publish-order", "publish-order --publishable"]
# What prints nothing: no two packages of the graph have one name.
SILENT = ["duplicates"]
# What ends in a fault, and what is told of it.
FAULTED = {"why c r": "no links lead from c to r"} | dict.fromkeys(TURNED, "cycle")
# Each command on the graph, and those on the graph without that link.
RUNS = {command: (command, LINES) for command in COMMANDS}
RUNS |= {f"{command} without a cycle": (command, LINES.replace(TURNING, "")) for command in TURNED}
# On the input that is stored with guppy_cargo_main. All of it is read whatever the command; these show each member, package
# and link.
CARGO_RUNS = [
    "affected base/src/lib.rs ./top/x",
    "affected --also top/x=mid --paths-from PATHS",
    "order",
    "links forward",
    "built --tests --features mid/extra",
    "features mid -p top",
    "why-feature mid extra -p top --platform x --cfgs CFGS",
    "built -p top --format json",
    "features mid -p top --format json",
    "why-feature mid extra -p top --format json",
    "help",
]
# What stands in the files that commands name by these words, of which main says where they lie.
FILES = {"CFGS": 'unix\na="b"\n', "PATHS": "base/src/lib.rs\0./top/x\0"}


def run(shim, words, number, part, given=b""):
    """Runs a command with the request of this number refused, or the two of 1-2, or with a + those after it too.

    Its input is a file, which a read finds whole, so that it makes the same requests each time. Returns status, output,
    errors, and a letter for each request, r where it was refused.
    """
    reader, writer = os.pipe()
    environment = {"LD_PRELOAD": shim, "REFUSE": str(number), "REFUSE_IN": part, "REFUSE_TO": str(writer)}
    with os.fdopen(reader, "rb") as told, tempfile.TemporaryFile() as file:
        file.write(given)
        file.seek(0)
        streams = {"stdin": file, "stdout": subprocess.PIPE, "stderr": subprocess.PIPE}
        try:
            started = subprocess.Popen(words, env=environment, pass_fds=[writer], **streams)
        finally:
            os.close(writer)
        with started:
            output, errors = started.communicate(timeout=60)
        return started.returncode, output.decode(), errors.decode(), told.read().decode()


def in_turn(tries, most):
    """Refuses the first request, the second and so on, and returns how many there are, and what is wrong.

    tries(number) refuses the request of this number, and returns whether there was one, and what is wrong.
    """
    for number in range(1, most + 2):
        for which in (str(number), f"{number}+"):
            was_refused, wrong = tries(which)
            if wrong is not None:
                return number - 1, f"request {which}: {wrong}"
        if not was_refused:
            return number - 1, None
    return most, f"it makes more than {most} requests"


def answered(tries, number, has_another):
    """Whether there was a request, and what is wrong, where the answer came in full though this one was refused.

    A list that found no room to grow may have asked for the less that it needs: that request is refused as well.
    """
    return tries(f"{number}-{int(number) + 1}") if has_another and number.isdigit() else (True, NEEDLESS)


def wrong_in(lines, full):
    """What is wrong in what a case told that was refused once, where it tells 'full' with ample memory."""
    attempt, again = lines[: -len(full)], lines[-len(full) :]
    if again != full:
        return f"afterwards it told {again}, where {full} is the answer"
    if attempt.count("call") != 1 or attempt[-2:] != ["done", REFUSED]:
        return f"the refused call shows as {attempt}"
    call = attempt.index("call")
    if attempt[:call] != full[: full.index("call")]:
        return f"it began as {attempt[:call]}"
    before, after = attempt[WORLD:call], attempt[call + 1 : -2]
    if after != before and OWN_LIST not in after:
        return f"the refused call left {after}, where {before} was before"
    return None


def try_case(shim, program, case, full):
    """Refuses each request of a case in turn, and returns how many there are, and what is wrong."""
    requests = len(run(shim, [program, case], 0, "call")[-1])

    def tries(number):
        status, output, errors, told = run(shim, [program, case], number, "call")
        lines = output.splitlines()[1:]
        was_refused = "r" in told
        if status != 0 or errors:
            return was_refused, f"status {status}, and it said {errors!r}"
        if not was_refused:
            return False, None if lines == full else f"it told {lines}, where {full} is the answer"
        if lines == full:
            return answered(tries, number, len(told) > requests)
        return True, wrong_in(lines, full)

    if full[:WORLD] != full[-WORLD:]:
        return 0, "a call with ample memory changed what stood before it"
    if case.startswith("quiet."):
        was_refused, wrong = tries("1+")
        return 0, "it made a request" if was_refused else wrong
    count, wrong = in_turn(tries, FEWEST.get(case, MANY))
    if wrong is None and not count:
        wrong = "none of its requests was refused"
    return count, wrong


def words_of(program, command):
    """The words that run the command."""
    return [program, *(FILES.get(it, it) for it in command.split(" "))]


def outcome_of(words, given):
    """Runs a command, and returns its status, output and errors."""
    ran = subprocess.run(words, input=given, capture_output=True, check=False)
    return [ran.returncode, ran.stdout.decode(), ran.stderr.decode()]


def full_outcome(name, words, given):
    """What a run is with ample memory, and what is wrong in that."""
    full = outcome_of(words, given)
    is_fault = name in FAULTED and full[:2] == [1, ""] and FAULTED[name] in full[2]
    is_silent = name in SILENT
    is_right = is_fault or (name not in FAULTED and full[0] == 0 and is_silent == (full[1] == "") and full[2] == "")
    return full, None if is_right else f"with ample memory status, output and errors are {full}"


def try_program(shim, program, name, command, text, rereads=False):
    """Refuses each request of a run of a program in turn, and returns how many there are, and what is wrong.

    A program that rereads has another way to read its input, and may answer where one request alone is refused.
    """
    words, given = words_of(program, command), text.encode()
    full, wrong = full_outcome(name, words, given)
    requests = len(run(shim, words, 0, "main", given)[-1])

    def tries(number):
        *outcome, told = run(shim, words, number, "main", given)
        was_refused = "r" in told
        if was_refused and outcome == full:
            return (True, None) if rereads and number.isdigit() else answered(tries, number, len(told) > requests)
        is_right = outcome == ([1, "", TOLD] if was_refused else full)
        return was_refused, None if is_right else f"status, output and errors are {outcome}"

    return in_turn(tries, MANY) if wrong is None else (0, wrong)


def limited(kilobytes, words, given):
    """Runs a command with an address space of so many kilobytes."""
    return outcome_of(["sh", "-c", 'ulimit -v "$0"; exec "$@"', str(kilobytes), *words], given)


def least_room(program):
    """The kilobytes, in steps, with which the program starts: with less the loader finds no room for it."""
    return next(it for it in itertools.count(STEP, STEP) if limited(it, [program], b"")[0] == 2)


def try_limits(program, name):
    """Runs a command with more and more address space, and returns how many runs were refused, and what is wrong."""
    command, lines = RUNS[name]
    words, least = words_of(program, command), least_room(program)
    packages = "".join(f"package p{i}\n" for i in range(SIZE))
    links = "".join(f"link p{i} p{(7 * i + 3) % SIZE} dev\n" for i in range(SIZE))
    given = (lines + packages + links).encode()
    full, wrong = full_outcome(name, words, given)
    if wrong is not None:
        return 0, wrong
    for number in range(MANY):
        outcome = limited(least + number * STEP, words, given)
        if outcome == full:
            return number, None if number else "it was refused nowhere"
        if outcome != [1, "", TOLD]:
            return number, f"with {least + number * STEP} kilobytes status, output and errors are {outcome}"
    return MANY, "it finds room nowhere"


def text_of(crate, file):
    with open(os.path.join(CRATES, crate, file), encoding="utf-8") as opened:
        return opened.read()


def read_lines(file):
    return text_of("guppy_memory_tests", file).splitlines()


def transcripts(cases):
    """What the cases tell with ample memory, one after another, each behind its name."""
    lines = read_lines("stdout")
    starts = [lines.index(case) for case in cases] + [len(lines)]
    return {case: lines[start + 1 : end] for case, start, end in zip(cases, starts, starts[1:])}


def outcomes_of(workers, tries, over):
    """Tries each of a list at once, tells what is wrong, and returns how many failed, and how much was refused."""
    trying = [(name, workers.submit(tries, name)) for name in over]
    failed = refused = 0
    for name, outcome in trying:
        count, wrong = outcome.result()
        refused += count
        if wrong is not None:
            failed += 1
            print(f"refusals: {name}: FAILED: {wrong}", flush=True)
    return failed, refused


def try_build(workers, shim, ending):
    """Tries all that one of the compilers built, and returns how many were tried, and how many failed."""
    crates = "guppy_memory_tests", "guppy_run", "guppy_cargo_main"
    checks, program, cargo = (os.path.join(CRATES, it, "out", it + ending) for it in crates)
    metadata = text_of("guppy_cargo_main", "stdin")
    cases = read_lines("args")
    full = transcripts(cases)
    quiet = sum(case.startswith("quiet.") for case in cases)
    print(f"refusals, {BUILDS[ending]}:")
    cut, refused = outcomes_of(workers, lambda case: try_case(shim, checks, case, full[case]), cases)
    print(f"  {len(cases) - quiet} cases, of which {refused} requests were refused; {quiet} cases that make none")
    lost, refused = outcomes_of(workers, lambda it: try_program(shim, program, it, *RUNS[it]), RUNS)
    print(f"  {len(RUNS)} runs of guppy_run's commands, of which {refused} requests were refused")
    read, refused = outcomes_of(workers, lambda it: try_program(shim, cargo, it, it, metadata, rereads=True), CARGO_RUNS)
    print(f"  {len(CARGO_RUNS)} runs of guppy_cargo's commands, of which {refused} requests were refused")
    crashed, refused = outcomes_of(workers, lambda name: try_limits(program, name), RUNS)
    print(f"  {len(RUNS)} runs with less and less room, of which {refused} were refused")
    return len(cases) + 2 * len(RUNS) + len(CARGO_RUNS), cut + lost + read + crashed


def main():
    tried = failed = 0
    with tempfile.TemporaryDirectory() as room, ThreadPoolExecutor(os.cpu_count()) as workers:
        shim = os.path.join(room, "refuse.so")
        flags = ["-O2", "-Wall", "-Wextra", "-Werror", "-shared", "-fPIC"]
        subprocess.run(["cc", *flags, "-o", shim, os.path.join(HERE, "refuse.c"), "-ldl"], check=True)
        for word, text in FILES.items():
            FILES[word] = os.path.join(room, word)
            with open(FILES[word], "w", encoding="utf-8") as opened:
                opened.write(text)
        for ending in BUILDS:
            if ending == "" or os.path.exists(os.path.join(CRATES, "guppy_run", "out", f"guppy_run{ending}")):
                outcomes = try_build(workers, shim, ending)
                tried, failed = tried + outcomes[0], failed + outcomes[1]
    print(f"{tried - failed} passed, {failed} failed")
    return failed != 0


if __name__ == "__main__":
    sys.exit(main())

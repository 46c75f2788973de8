#!/usr/bin/env python3
"""Tries `bench/gate.py --bugs` and `--edits` on a repository of one small crate, with bugs that are refused, one that
stays proved and one that can't be applied: each is told, and the status says whether all were refused. The last line is
'N passed, M failed'.
"""
import os
import shutil
import subprocess
import sys
import tempfile

TOP = os.path.dirname(os.path.dirname(os.path.realpath(__file__)))
SOURCE = """\
//! Three functions, of which one has no contract.
#![tactic(auto)]

ghost use Rattle.std.specs.Prelude.{◌≡◌, ◌+◌};

/// The number behind this one.
pub fn next(n: u8) -> u16
    ensures { result ≡ n + 1 }
{
    n as u16 + 1
}

/// The number behind that one.
pub fn next_but_one(n: u8) -> u16
    ensures { result ≡ n + 2 }
{
    next(n) + 1
}

/// A part of the number.
pub fn part(n: u8) -> u8 {
    n / 2
}
"""
REFUSED = {
    "the_number_itself": ("    n as u16 + 1", "    n as u16"),
    "the_next_is_the_next_but_one": ("    next(n) + 1", "    next(n)"),
}
PROVED = {"another_part": ("    n / 2", "    n / 3")}
MISFIT = {"a_text_that_is_not_there": ("    n / 7", "    n / 3")}
passed = failed = 0


def count(what, well, said=""):
    global passed, failed
    passed, failed = passed + bool(well), failed + (not well)
    if not well:
        print(f"{what}: FAILED\n{said}")


def write(path, text):
    os.makedirs(os.path.dirname(path), exist_ok=True)
    with open(path, "w", encoding="utf-8") as it:
        it.write(text)


def pair(texts):
    return "file: src/lib.rt\nold: {}\nnew: {}\n".format(*texts)


def gate(top, bugs, word):
    """Writes the bugs as a list and as edits, and returns the status of the command, its lines and what it said."""
    crate = f"{top}/crates/small"
    shutil.rmtree(f"{crate}/must-fail", ignore_errors=True)
    write(f"{crate}/must-fail-by-hand.edit", "\n".join(f"bug: {name}\n{pair(texts)}" for name, texts in bugs.items()))
    for name, texts in bugs.items():
        write(f"{crate}/must-fail/{name}.edit", pair(texts))
    ran = subprocess.run([f"{top}/bench/gate.py", word], stdout=subprocess.PIPE, stderr=subprocess.STDOUT, text=True)
    return ran.returncode, ran.stdout.split("\n"), ran.stdout


def has_line(lines, begin):
    return any(line.startswith(begin) for line in lines)


with tempfile.TemporaryDirectory() as top:
    write(f"{top}/crates.txt", "small:\n")
    write(f"{top}/HANDLES", "Handles allowed: none.\n")
    write(f"{top}/crates/small/src/lib.rt", SOURCE)
    os.mkdir(f"{top}/bench")
    shutil.copy(f"{TOP}/bench/gate.py", f"{top}/bench")

    status, lines, said = gate(top, {**REFUSED, **PROVED, **MISFIT}, "--bugs")
    count("bugs: the status of a bug that stays proved", status == 1, said)
    for name in REFUSED:
        count(f"bugs: {name}", has_line(lines, f"refused  small: {name}"), said)
    count("bugs: one that stays proved", has_line(lines, "missed   small: another_part: "), said)
    count("bugs: one that can't be applied", has_line(lines, "bad      small: a_text_that_is_not_there: "), said)
    count("bugs: the sums", "2 refused, 0 of them by an earlier run, 1 bad, 1 missed" in lines, said)

    status, lines, said = gate(top, REFUSED, "--bugs")
    count("bugs: the status where all are refused", status == 0, said)
    count("bugs: what was tried before", "2 refused, 2 of them by an earlier run" in lines, said)

    status, lines, said = gate(top, {**REFUSED, **PROVED}, "--edits")
    count("edits: the status of one that stays proved", status == 1, said)
    count("edits: one that stays proved", any("small/another_part.edit  FAILED" in line for line in lines), said)
    status, lines, said = gate(top, REFUSED, "--edits")
    count("edits: the status where all are refused", status == 0, said)

    status, lines, said = gate(top, MISFIT, "--apply")
    count("apply: the status of one that can't be applied", status == 1, said)

print(f"{passed} passed, {failed} failed")
sys.exit(1 if failed else 0)

#!/usr/bin/env python3
"""Times guppy-run, with huge pages as its script starts it, beside other programs that take the same commands and input,
an older build say, by turns.

Prints for each graph and command the least time and the peak memory of each program, and what guppy-run takes of
each of the others.
usage: compare.py OTHER.. [--packages N] [--rounds N] [--graphs NAME,..] [--commands NAME,..]
"""

import argparse
import os
import sys
import tempfile

from bench import run
from graphs import GRAPHS, PROGRAM, REFUSING, commands, written


# As scripts/start.sh has it.
STARTED = {"env": os.environ | {"GLIBC_TUNABLES": "glibc.malloc.hugetlb=1"}}


def compare(programs, words, path, rounds):
    """The least seconds and the greatest memory of each program; they take turns."""
    how = {PROGRAM: STARTED}
    runs = [[run(program, words, path, **how.get(program, {})) for program in programs] for _ in range(rounds)]
    for program, (_, _, status) in zip(programs, runs[0]):
        if status != 0 and words not in REFUSING:
            sys.exit(f"compare: {program} {' '.join(words)} ended with status {status}")
    return [(min(seconds for seconds, _, _ in of), max(memory for _, memory, _ in of)) for of in zip(*runs)]


def row(label, figures):
    (seconds, memory), *others = figures
    own = "".join(f" {1000 * s:12.0f} {m:7.0f}" for s, m in figures)
    return f"{label:14}{own}" + "".join(f" {seconds / s:9.2f} {memory / m:7.2f}" for s, m in others)


def main():
    ask = argparse.ArgumentParser(description=__doc__, formatter_class=argparse.RawDescriptionHelpFormatter)
    ask.add_argument("others", nargs="+", metavar="OTHER")
    ask.add_argument("--packages", type=int, default=200_000)
    ask.add_argument("--rounds", type=int, default=3)
    ask.add_argument("--graphs", default=",".join(GRAPHS))
    ask.add_argument("--commands", default=",".join(commands("", "")))
    given = ask.parse_args()
    programs = [PROGRAM] + given.others
    names = [os.path.basename(program) for program in programs]
    with tempfile.TemporaryDirectory() as folder:
        path = os.path.join(folder, "input")
        for graph in given.graphs.split(","):
            packages, links, first, last = written(graph, given.packages, path)
            print(f"\n{graph}: {packages} packages, {links} links, load {os.getloadavg()[0]:.1f}")
            print(f"{'':14}" + "".join(f" {name[:9] + ' ms':>12} {'MiB':>7}" for name in names)
                  + "".join(f" {'x ' + name[:7]:>9} {'x MiB':>7}" for name in names[1:]))
            for label in given.commands.split(","):
                figures = compare(programs, commands(first, last)[label], path, given.rounds)
                print(row(label, figures), flush=True)


if __name__ == "__main__":
    main()

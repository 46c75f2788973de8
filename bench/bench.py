#!/usr/bin/env python3
"""Runs guppy-run on large inputs of three sizes, n, 2n and 4n.

Prints time, peak memory and the exponent of growth between two sizes: 1 is linear. Then the same of the
instructions, which don't depend on what else the machine does, where valgrind is installed. Then the time for IDs
made against the look-up, beside friendly ones.
usage: bench.py [PACKAGES]     4n packages, 200000 if left out
"""

import math
import os
import re
import shutil
import subprocess
import sys
import tempfile
import time

from graphs import IDS, PROGRAM, REFUSING, WRAPPER, commands, written

GROWING = ("chain", "scattered", "acyclic", "layered", "dense", "star")


def run(program, words, path, **how):
    """Seconds, peak mebibytes and status of one run."""
    with open(path, "rb") as source:
        begun = time.perf_counter()
        process = subprocess.Popen([program] + words, stdin=source, stdout=subprocess.DEVNULL,
                                   stderr=subprocess.DEVNULL, **how)
        _, status, usage = os.wait4(process.pid, 0)
        seconds = time.perf_counter() - begun
    process.returncode = os.waitstatus_to_exitcode(status)
    return seconds, usage.ru_maxrss / 1024, process.returncode


def measure(words, path):
    """Seconds and peak mebibytes of the fastest of three runs."""
    runs = [run(PROGRAM, words, path) for _ in range(3)]
    for _, _, status in runs:
        if status != 0 and words not in REFUSING:
            sys.exit(f"bench: {' '.join(words)} ended with status {status}")
    return min(runs)[:2]


def instructions(words, path):
    """The instructions of one run, in millions."""
    with open(path, "rb") as source, tempfile.TemporaryDirectory() as folder:
        done = subprocess.run(["valgrind", "--tool=callgrind", f"--callgrind-out-file={folder}/out", PROGRAM] + words,
                              stdin=source, stdout=subprocess.DEVNULL, stderr=subprocess.PIPE, check=True, text=True)
    return int(re.search(r"Collected : (\d+)", done.stderr)[1]) / 1e6


def exponent(now, before):
    """The power of the size that the figure grew by, where the size doubled."""
    return f"{math.log2(now / before):7.2f}" if before else ""


def measure_growth(largest, path):
    print(f"{'graph':10} {'command':16} {'packages':>9} {'links':>9} {'seconds':>8} {'MiB':>7} {'growth':>7}")
    for name in GROWING:
        before = {}
        for count in (largest // 4, largest // 2, largest):
            packages, links, first, last = written(name, count, path)
            for label, words in commands(first, last).items():
                seconds, memory = measure(words, path)
                growth = exponent(seconds, before.get(label))
                before[label] = seconds
                print(f"{name:10} {label:16} {packages:9} {links:9} {seconds:8.3f} {memory:7.1f} {growth:>7}", flush=True)


def measure_instructions(largest, path):
    print(f"{'graph':10} {'packages':>9} {'links':>9} {'10^6':>8} {'growth':>7}")
    for name in GROWING:
        before = None
        for count in (largest // 4, largest // 2, largest):
            packages, links, _, _ = written(name, count, path)
            millions = instructions(["order"], path)
            print(f"{name:10} {packages:9} {links:9} {millions:8.0f} {exponent(millions, before):>7}", flush=True)
            before = millions


def measure_ids(largest, path):
    """`order` on one graph under IDs of each kind: none should take more than twice what friendly ones take."""
    print(f"{'IDs':16} {'packages':>9} {'seconds':>8} {'MiB':>7} {'x friendly':>10}")
    friendly = None
    for kind in IDS:
        written("scattered", largest, path, kind)
        seconds, memory = measure(["order"], path)
        friendly = friendly or seconds
        print(f"{kind:16} {largest:9} {seconds:8.3f} {memory:7.1f} {seconds / friendly:10.2f}", flush=True)


def main():
    largest = int(sys.argv[1]) if len(sys.argv) > 1 else 200_000
    subprocess.run([WRAPPER, "depends", "a", "a"], input=b"package a\n", stdout=subprocess.DEVNULL, check=True)
    with tempfile.TemporaryDirectory() as folder:
        path = os.path.join(folder, "input")
        measure_growth(largest, path)
        if shutil.which("valgrind"):
            measure_instructions(largest // 4, path)
        measure_ids(largest, path)


if __name__ == "__main__":
    main()

#!/usr/bin/env python3
"""Tries the scripts at the top: what they do as they should, and each of their lines that can fail.

They run on a fresh clone in a folder whose name has a space, with stand-in/rt in the place of rt, which hands out what
the gate has just built; two runs are with rt itself. Needs git, cargo and the programs as built. The last line is
'N passed, M failed'.
"""

import hashlib
import os
import re
import shutil
import signal
import subprocess
import sys
import tempfile
import time
from concurrent.futures import ThreadPoolExecutor
from pathlib import Path

from metadata import try_asked, try_built_for, try_declared, try_flags, try_given, try_host, try_metadata_refused, try_platforms, try_publishable
from since import try_manifests, try_since, try_since_answers, try_since_locked, try_since_manifests, try_since_refused, try_since_states
from tested import try_tests, try_tests_on_branches, try_tests_refused
from told import try_told, try_told_of_hosts

HERE = Path(__file__).resolve().parent
TOP = HERE.parent
# What the scripts call beside rt, cargo and python3.
TOOLS = "awk basename cat chmod cp cut dirname env find git grep head ls mkdir mktemp mv pwd readlink rm sed sh sha256sum"
TOOLS += " cmp sleep sort stat tail touch tr true wc xargs"
BUILT = os.environ.get("BUILT", str(TOP / "crates"))
SECONDS = 300

AFFECTED = ["affected", "crates/core/src/lib.rs"]
ANSWER = "core\ntest-support\ncli\napp\n"
UNPROVED = "comes from a program that is not proved on this machine yet"


class World:
    """A fresh clone, and a path that has what the scripts call and, where they are wanted, rt and cargo."""

    def __init__(self, room, without=()):
        self.room, self.top = room, room / "a clone"
        clone(self.top)
        self.bin, self.temporary, self.home = room / "bin", room / "temporary", room / "home"
        for folder in (self.bin, self.temporary, self.home):
            folder.mkdir()
        found = {it: shutil.which(it) for it in (*TOOLS.split(), "cargo", "rustc", "python3")}
        for name in found.keys() - set(without):
            (self.bin / name).symlink_to(found[name])
        if "rt" not in without:
            shutil.copy(HERE / "stand-in/rt", self.bin)
        folders = {"CARGO_HOME": ".cargo", "RUSTUP_HOME": ".rustup"}
        self.environment = {it: os.environ.get(it, str(Path.home() / folder)) for it, folder in folders.items()}
        self.environment |= {"PATH": str(self.bin), "TMPDIR": str(self.temporary), "HOME": str(self.home)}
        self.environment |= {"BUILT": BUILT}

    def start(self, words, stand_in="", given=None, where=None, **how):
        """Starts a script of the clone; `given` is a file or None."""
        script = self.top / words[0]
        environment = self.environment | {"STAND_IN": stand_in} | how.pop("environment", {})
        how = {"stdin": given or subprocess.DEVNULL, "stdout": subprocess.PIPE, "stderr": subprocess.PIPE} | how
        words = [script if script.exists() else words[0], *words[1:]]
        return subprocess.Popen(words, cwd=where or self.top, env=environment, text=True, **how)

    def run(self, words, **how):
        """Status, output and errors of a script of the clone."""
        with self.start(words, start_new_session=True, **how) as started:
            try:
                output, errors = started.communicate(timeout=SECONDS)
            except subprocess.TimeoutExpired:
                os.killpg(started.pid, signal.SIGKILL)
                return "too slow", *started.communicate()
        # (what cargo says where another one, beside this, holds its lock)
        errors = re.sub(r"^ *Blocking waiting for file lock on .*\n", "", errors, flags=re.M)
        return started.returncode, output, errors

    def ask(self, words=("guppy-cargo", *AFFECTED), **how):
        """The same of guppy-cargo with the stored metadata."""
        return self.run([*words, "--metadata", str(self.top / "examples/metadata.json")], **how)

    def left(self):
        """What stands in the folder for temporary files."""
        return sorted(it.name for it in self.temporary.iterdir())

    def build(self):
        return self.run(["prove"])


def clone(top):
    """A fresh clone, or a copy of the files where this is no repository that git would clone."""
    if subprocess.run(["git", "clone", "-q", TOP, top], capture_output=True, check=False).returncode:
        hidden = shutil.ignore_patterns(".git", "out")
        shutil.copytree(TOP, top, ignore=hidden)


def is_one_line(errors, *words):
    return errors.count("\n") == 1 and errors.endswith("\n") and all(it in errors for it in words)


def is_refusal(ran, status, *words):
    """Whether a script answered nothing, and said why in one line at the end."""
    got, output, errors = ran
    return (got, output) == (status, "") and is_one_line(errors.splitlines(True)[-1], *words)


# Each yields what was tried, whether it went as it should, and what came.


def try_unproved(world):
    ran = world.ask()
    yield "a fresh clone answers", ran[:2] == (0, ANSWER) and is_one_line(ran[2], UNPROVED, "prove"), ran
    with open(world.top / "examples/metadata.json", "rb") as given:
        ran = world.run(["guppy-run", "order"], given=given)
    yield "so does guppy-run", ran[0] == 2 and ran[2].endswith("error: bad line 1\n"), ran
    ran = world.ask(["guppy-cargo", "reach", "forward", "no such"])
    is_told = ran[:2] == (1, "") and ran[2].splitlines()[1:] == ["error: unknown package ID: no such"]
    yield "a fault of the program is told as it tells it", is_told, ran
    for words in (["", "a\nb"], ["--order"], ["affected", "a=b", "../x", "*"]):
        ran = world.ask(["guppy-cargo", *words])
        yield f"arguments {words} reach it", ran[0] == (0 if "affected" in words else 2), ran
    ran = world.run(["guppy-cargo", *AFFECTED], where=world.top / "examples/..")
    yield "outside of a workspace", *refusal(ran, 3, "--manifest-path PATH", "--metadata FILE")
    yield "a part of an answer is none", *refusal(world.ask(stand_in="too-much"), 4, "1048576 bytes", "prove")
    yield "neither is a fault", *refusal(world.ask(stand_in="fault"), 3, "index out of bounds")
    with tempfile.TemporaryFile(dir=world.room) as large:
        large.truncate(64 << 20)
        ran = world.run(["guppy-run", "order"], given=large)
    yield "input that rt would cut is refused", *refusal(ran, 4, "67108863 bytes", "prove")
    ran = world.ask(environment={"TMPDIR": "/no such folder"})
    yield "no temporary file", *refusal(ran, 3, "no temporary file can be made")
    ran = world.run(["guppy-run", "order"], environment={"TMPDIR": "/no such folder"})
    yield "no temporary folder", *refusal(ran, 3, "no temporary folder can be made")
    folder = os.open(world.room, os.O_RDONLY)
    ran = world.run(["guppy-run", "order"], given=folder)
    os.close(folder)
    yield "input that can't be read", *refusal(ran, 3, "standard input can't be read")
    with open("/dev/full", "wb") as full:
        ran = world.ask(stdout=full)
    yield "output that can't be written", ran[0] == 2 and ran[2].splitlines()[1:] == ["error: output failed"], ran
    yield "no file is left", not world.left(), world.left()


def refusal(ran, status, *words):
    return is_refusal(ran, status, *words), ran


def try_interrupts(world):
    metadata = str(world.top / "examples/metadata.json")
    for number in (signal.SIGINT, signal.SIGTERM, signal.SIGHUP):
        for words in (["guppy-cargo", *AFFECTED, "--metadata", metadata], ["prove"], ["quick-tests"]):
            file = world.room / f"{words[0]} {number.name}"
            how = {"environment": {"STARTED": str(file)}, "start_new_session": True}
            started = world.start(words, stand_in="slow", **how)
            wait_for(file)
            # As a terminal does, or kill.
            (os.killpg if number == signal.SIGINT else os.kill)(started.pid, number)
            output, errors = started.communicate(timeout=SECONDS)
            status = started.returncode
            left = world.left() + still_running(started.pid)
            is_clean = status == 128 + number and not left
            yield f"{words[0]} is ended by {number.name}", is_clean, (status, output, errors, left)
    yield from try_ended(world)
    ran = world.build()
    yield "what comes next proves", ran[0] == 0, ran
    ran = world.ask()
    yield "and answers", ran == (0, ANSWER, ""), ran


def try_ended(world):
    """What has ended while others are being proved isn't ended again: its number may be another process's."""
    file = world.room / "started"
    how = {"environment": {"STARTED": str(file)}, "start_new_session": True}
    with world.start(["prove"], stand_in="one-slow", **how) as started:
        wait_for(file)
        for _ in range(10 * SECONDS):
            proved = [it.stem for it in world.temporary.glob("*/*.proved")]
            if "guppy_search" in proved:
                break
            time.sleep(0.1)
        left = [it.stem for it in world.temporary.glob("*/*.pid")]
        started.terminate()
    is_right = "guppy_search" in proved and "guppy_data" in left and not set(left) & set(proved)
    is_right = is_right and not still_running(started.pid)
    yield "prove ends what runs alone", is_right, (proved, left)


def wait_for(file):
    """Waits until the file is there, and then for what stands beside it."""
    ends = time.monotonic() + SECONDS
    while not file.exists() and time.monotonic() < ends:
        time.sleep(0.1)
    time.sleep(0.5)


def still_running(session):
    """What runs of the session; what was ended may take a moment to go."""
    for _ in range(50):
        ran = subprocess.run(["ps", "-o", "stat=,args=", "-s", str(session)], capture_output=True, text=True, check=False)
        running = [it for it in ran.stdout.splitlines() if not it.startswith("Z")]
        if not running:
            return []
        time.sleep(0.1)
    return running


def try_proved(world):
    yield "a crate that isn't proved", *named(world.run(["prove"], stand_in="refused"), 3, "crates/guppy_data/out/check.log")
    ran = world.ask()
    yield "leaves the program unproved", ran[:2] == (0, ANSWER) and UNPROVED in ran[2], ran
    ran = world.run(["prove"], environment={"BUILT": "/no such folder"})
    yield "a program that isn't built", *named(ran, 3, "out/build.log")
    ran = world.build()
    yield "prove proves both", ran[0] == 0 and ran[2] == "" and ran[1].endswith("are proved and built\n"), ran
    ran = world.run(["prove"], stand_in="refused")
    yield "and proves nothing twice", ran[0] == 0, ran
    yield "guppy-cargo is the proved program", world.ask() == (0, ANSWER, ""), world.ask()
    with open(world.top / "examples/workspace.txt", "rb") as given:
        ran = world.run(["guppy-run", "depends", "cli", "macros"], given=given)
    yield "guppy-run too", ran == (0, "true\n", "") or ran[0] == 0, ran
    yield from try_run_platforms(world)
    yield from try_made_of(world)
    workspace = world.room / "a workspace"
    make_workspace(workspace)
    ran = world.run(["guppy-cargo", "affected", "other/src/lib.rs"], where=workspace)
    yield "it asks cargo itself", ran == (0, "other\nlast\n", ""), ran
    yield from try_memory(world, world.top / "crates/guppy_run/out/guppy_run", ["guppy-run", "order"])


def try_made_of(world):
    """What a proved program was made of, by content: times count for nothing."""
    program = world.top / "crates/guppy_cargo_main/out/guppy_cargo_main"
    source, crates = world.top / "crates/guppy_search/specs/Reach.antt", world.top / "crates.txt"
    source.touch()
    yield "a newer source that has what it had", world.ask() == (0, ANSWER, ""), world.ask()
    for file, old, new in (
        (source, source.read_text(), source.read_text() + "-- more\n"),
        (crates, crates.read_text(), crates.read_text().replace("guppy_folders: ", "guppy_folders: guppy_search ")),
    ):
        when = file.stat().st_mtime_ns
        file.write_text(new)
        os.utime(file, ns=(when, when))
        ran = world.ask()
        yield f"{file.name} has something else, and is as old", ran[:2] == (0, ANSWER) and UNPROVED in ran[2], ran
        file.write_text(old)
        yield f"{file.name} has what it had", world.ask() == (0, ANSWER, ""), world.ask()
    unrelated = crates.read_text()
    crates.write_text(unrelated + "other: guppy\n")
    yield "a crate that it isn't made of", world.ask() == (0, ANSWER, ""), world.ask()
    crates.write_text(unrelated)
    source.rename(source.with_suffix(".rt"))
    ran = world.ask()
    yield "a source with another name", ran[:2] == (0, ANSWER) and UNPROVED in ran[2], ran
    source.with_suffix(".rt").rename(source)
    shutil.copy(program, world.room)
    program.write_bytes(program.read_bytes() + b"\n")
    ran = world.ask()
    yield "another program", ran[:2] == (0, ANSWER) and UNPROVED in ran[2], ran
    shutil.copy(world.room / program.name, program)
    yield "the proved one", world.ask() == (0, ANSWER, ""), world.ask()
    ran = world.run(["prove"], stand_in="another")
    is_anew = ran[0] == 0 and "guppy_search is proved" in ran[1]
    yield "another toolchain proves anew", is_anew and program.with_name("made-of").read_text().endswith(" another rt\n"), ran
    ran = world.run(["prove"], stand_in="another")
    yield "and not twice", ran[0] == 0 and "guppy_search is proved" not in ran[1], ran
    ran = world.run(["guppy-cargo", "--version"])
    yield "what the proved one says of itself", ran[0] == 0 and ran[1].endswith(", proved\n"), ran
    program.unlink()
    for word in ("--version", "-V"):
        ran = world.run(["guppy-cargo", word])
        yield f"and the unproved one: {word}", ran[0] == 0 and ran[1].endswith(", not proved on this machine yet\n"), ran
    ran = world.build()
    yield "it is proved again", ran[0] == 0 and world.ask() == (0, ANSWER, ""), ran


def try_memory(world, program, words, more="", path=None, **how):
    """How the program is to get its memory: in huge pages, and by more settings, or as the user says. In its place is
    one that tells."""
    program.write_text('#!/bin/sh\nprintf %s "$GLIBC_TUNABLES"\n')
    made_of = program.with_name("made-of")
    if made_of.exists():
        sources = made_of.read_text().splitlines()[0]
        made_of.write_text(f"{sources}\n{hashlib.sha256(program.read_bytes()).hexdigest()} this rt\n")
    for told in ({}, {"GLIBC_TUNABLES": "a=1"}):
        ran = world.run(words, environment=(path or {}) | told, **how)
        wanted = told.get("GLIBC_TUNABLES", f"glibc.malloc.hugetlb=1{more}")
        yield f"{words[0]}: memory as {told or wanted}", ran == (0, wanted, ""), ran


def try_run_platforms(world, **how):
    """What guppy-run is told of platforms: by files, or by rustc."""
    lines, on = world.room / "lines", world.room / "on"
    object_b = '{"name":"b","version":"0.0.0","id":"b","manifest_path":"Cargo.toml"}'
    lines.write_text('package a\npackage b\nlink a b normal\n')
    on.write_text("unix\n")
    for words, wanted in (
        ("--platform x86_64-unknown-linux-gnu order", (0, "a\nb\n", "")),
        (f"--ids --platform=x86_64-pc-windows-gnu --platform x --cfgs={on} order", (0, "a\nb\n", "")),
        ("--null --format flags --platform=x86_64-pc-windows-gnu order", (0, "--package=a\0--package=b\0", "")),
        ("--format json --platform=x86_64-pc-windows-gnu roots reverse", (0, f"[{object_b}]\n", "")),
        ("--format json cycles", (0, "[]\n", "")),
        (f"--platform x --cfgs {world.room / 'none'} order", (2, "", "error: bad arguments\n")),
        (f"--host x86_64-unknown-linux-gnu --platform x --cfgs={on} order", (0, "a\nb\n", "")),
        (f"--host=x --host-cfgs {on} --platform x --cfgs={on} order", (0, "a\nb\n", "")),
        (f"--host-cfgs {on} order", (2, "", "error: bad arguments\n")),
        ("--platform", (2, "", "error: bad arguments\n")),
    ):
        with lines.open("rb") as given:
            ran = world.run(["guppy-run", *words.split()], given=given, where=world.room, **how)
        yield f"guppy-run {words}", ran == wanted, ran
    ran = world.run(["guppy-run", "--platform", "no-such", "order"], where=world.room, **how)
    is_told = ran[2].endswith("guppy-run: rustc does not say what is set for the platform no-such, and says above why\n")
    yield "guppy-run, an unknown platform", ran[:2] == (3, "") and is_told, ran
    yield "guppy-run leaves no file", not world.left(), world.left()


def named(ran, status, word):
    return ran[0] == status and word in ran[2] and ran[2].count("\n") == 1, ran


def make_workspace(top):
    """Two members, the last on the other."""
    manifest = '[package]\nname = "{}"\nversion = "0.1.0"\nedition = "2021"\n'
    files = {"Cargo.toml": '[workspace]\nmembers = ["other", "last"]\nresolver = "2"\n'}
    files |= {"other/Cargo.toml": manifest.format("other"), "other/src/lib.rs": "", "last/src/lib.rs": ""}
    files["last/Cargo.toml"] = manifest.format("last") + '[dependencies]\nother.path = "../other"\n'
    for name, text in files.items():
        (top / name).parent.mkdir(parents=True, exist_ok=True)
        (top / name).write_text(text)


def try_installed(world):
    for words in ([], [""], ["a", "b"]):
        ran = world.run(["install", *words])
        yield f"install {words}", is_refusal(ran, 2, "usage"), ran
    (world.room / "file").touch()
    yield "no folder", *named(world.run(["install", str(world.room / "file")]), 3, "nothing can be written")
    prefix = world.room / "a prefix"
    yield "not proved", *named(world.run(["install", str(prefix)], stand_in="refused"), 3, "guppy_data")
    ran = world.run(["install", "../a prefix"])
    yield "installs", ran[0] == 0 and "add it to PATH" in ran[1], ran
    path = {"PATH": f"{prefix}/bin:{world.bin}"}
    ran = world.run(["install", str(prefix)], environment=path)
    yield "installs again", ran[0] == 0 and "add it to PATH" not in ran[1], ran
    shutil.rmtree(world.top)
    workspace = world.room / "a workspace"
    make_workspace(workspace)
    for words in (["cargo", "guppy"], ["cargo-guppy"], ["guppy-cargo"]):
        ran = world.run([*words, "affected", "other/src/lib.rs"], where=workspace, environment=path)
        yield f"{' '.join(words)} runs without the clone", ran == (0, "other\nlast\n", ""), ran
    for words in (["init", "-q"], ["add", "last"], ["-c", "user.name=x", "-c", "user.email=x", "commit", "-q", "-m", "x"]):
        subprocess.run(["git", *words], cwd=workspace, check=True)
    (workspace / ".gitignore").write_text("Cargo.*\n")
    ran = world.run(["cargo", "guppy", "affected", "--since", "HEAD", "last/x"], where=workspace, environment=path)
    yield "it asks git what changed", ran == (0, "other\nlast\n", ""), ran
    ran = world.run(["guppy-run", "order"], where=workspace, environment=path)
    yield "guppy-run too", ran == (0, "", ""), ran
    yield from try_run_platforms(world, environment=path)
    ran = world.run(["cargo", "guppy", "order"], where=world.room, environment=path)
    yield "no workspace", ran[0] == 3 and ran[2].endswith("metadata by --metadata FILE\n"), ran
    left = sorted(str(it.relative_to(prefix)) for it in prefix.rglob("*") if it.is_file())
    wanted = ["bin/cargo-guppy", "bin/guppy-cargo", "bin/guppy-run", "libexec/guppy/guppy-cargo", "libexec/guppy/guppy-run"]
    wanted += [f"libexec/guppy/{it}.sh" for it in ("before", "builds", "manifests", "metadata", "platforms", "since", "start", "tests", "words")]
    yield "nothing else is there", left == sorted(wanted) and not world.left(), (left, world.left())
    metadata = world.room / "metadata.json"
    metadata.write_text("{}")
    heap = ":glibc.malloc.top_pad=2097152:glibc.malloc.mmap_threshold=1073741824:glibc.malloc.trim_threshold=4294967296"
    words = ["guppy-cargo", "order", "--metadata", str(metadata)]
    yield from try_memory(world, prefix / "libexec/guppy/guppy-cargo", words, heap, path, where=workspace)
    yield from try_memory(world, prefix / "libexec/guppy/guppy-run", ["guppy-run", "order"], "", path, where=workspace)


def try_quick(world):
    ran = world.run(["quick-tests"])
    yield "all crates", ran[0] == 0 and ran[1].endswith(" passed, 0 failed\n") and ran[2] == "", ran
    ran = world.run(["quick-tests", "guppy_data_tests", "guppy_core_tests"])
    yield "two crates", ran[0] == 0 and ran[1].endswith("\n2 passed, 0 failed\n"), ran
    ran = world.run(["quick-tests", "guppy_data_tests"], stand_in="tests-fail")
    is_named = "FAILED: guppy_data_tests: b::wrong\n    why it is wrong\n" in ran[1]
    yield "a test that fails is named", ran[0] == 1 and is_named and ran[1].endswith("\n1 passed, 1 failed\n"), ran
    ran = world.run(["quick-tests", "guppy_data_tests"], stand_in="tests-stop")
    yield "tests that stop are none", ran[0] == 1 and ran[1].endswith("\n1 passed, 1 failed\n"), ran
    ran = world.run(["quick-tests", "guppy_run"], stand_in="fault")
    yield "a stored run that fails", ran[0] == 1 and "FAILED: guppy_run: its stored run" in ran[1], ran
    for name, why in (("guppy_core", "has no test"), ("no_crate", "is no crate")):
        ran = world.run(["quick-tests", name])
        yield f"tests of {name}", ran[0] == 1 and ran[1] == "" and why in ran[2] and "guppy_core_tests" in ran[2], ran


def try_read_only(world):
    """As a user who may read the clone and not write to it."""
    world.room.chmod(0o755)
    for it in (world.top, *world.top.rglob("*")):
        it.chmod(it.stat().st_mode & ~0o222 | 0o444)
    world.temporary.chmod(0o777)
    built = world.room / "built/guppy_cargo_main/out"
    built.mkdir(parents=True)
    shutil.copy(Path(BUILT) / "guppy_cargo_main/out/guppy_cargo_main", built)
    how = {"user": 65534, "group": 65534, "extra_groups": []} if os.getuid() == 0 else {}
    how["environment"] = {"BUILT": str(world.room / "built")}
    ran = world.ask(**how)
    yield "a clone that can't be written to answers", ran[:2] == (0, ANSWER) and UNPROVED in ran[2], ran
    yield "and can't be proved", *named(world.run(["prove"], **how), 3, "nothing can be written to crates/guppy_")
    for it in (world.top, *world.top.rglob("*")):
        it.chmod(it.stat().st_mode | 0o200)


def try_without_rt(world):
    metadata = ["--metadata", str(world.top / "examples/metadata.json")]
    for words in (["guppy-run", "order"], ["guppy-cargo", *AFFECTED, *metadata], ["prove"], ["install", str(world.room / "p")]):
        ran = world.run(words)
        yield f"{words[0]} without rt", *refusal(ran, 3, "rt is not on the path")
    ran = world.run(["quick-tests"])
    yield "quick-tests without rt", ran[0] == 1 and is_one_line(ran[2], "rt is not on the path"), ran
    ran = world.run(["guppy-cargo", *AFFECTED])
    yield "without cargo", *refusal(ran, 3, "cargo is not on the path")
    shutil.copy(HERE / "stand-in/rt", world.bin)
    world.build()
    (world.bin / "rt").unlink()
    yield "a proved program needs no rt", world.ask() == (0, ANSWER, ""), world.ask()


def try_with_rt(world):
    """With rt itself: a source that doesn't compile, and the tests of a crate."""
    (world.bin / "rt").unlink()
    (world.bin / "rt").symlink_to(shutil.which("rt"))
    main = world.top / "crates/guppy_run/src/main.rt"
    text = main.read_text()
    main.write_text(text.replace("fn main", "fn other"))
    yield "a source that does not compile", *refusal(world.run(["guppy-run", "order"]), 3, "error", "src/main.rt:")
    main.write_text(text)
    ran = world.run(["quick-tests", "guppy_core_tests"])
    yield "the tests of a crate", ran[0] == 0 and ran[1].endswith(" passed, 0 failed\n"), ran
    yield "no file is left by rt", not world.left(), world.left()


PARTS = {
    "unproved": (try_unproved, []),
    "interrupts": (try_interrupts, []),
    "proved": (try_proved, []),
    "installed": (try_installed, []),
    "changes": (try_since, []),
    "changes, answers": (try_since_answers, []),
    "changes, a new lock file": (try_since_locked, []),
    "changes, two states": (try_since_states, []),
    "changes, manifests": (try_since_manifests, []),
    "manifests": (try_manifests, []),
    "changes, refusals": (try_since_refused, []),
    "tests of changes": (try_tests, []),
    "tests of changes, on branches": (try_tests_on_branches, []),
    "tests of changes, refusals": (try_tests_refused, []),
    "what cargo is asked": (try_asked, []),
    "what members declare": (try_declared, []),
    "members that can be published": (try_publishable, []),
    "flags that cargo gives": (try_flags, []),
    "platforms that cargo builds for": (try_built_for, []),
    "members on a platform": (try_platforms, []),
    "members on the host": (try_host, []),
    "what cargo builds": (try_told, []),
    "what cargo builds for": (try_told_of_hosts, []),
    "metadata": (try_given, []),
    "metadata, refusals": (try_metadata_refused, []),
    "quick tests": (try_quick, []),
    "a read-only clone": (try_read_only, []),
    "without rt and cargo": (try_without_rt, ["rt", "cargo"]),
    "with rt itself": (try_with_rt, []),
}


def tried_in(part):
    tries, without = PARTS[part]
    with tempfile.TemporaryDirectory() as room:
        return part, list(tries(World(Path(room), without)))


def tell(part, tried):
    """Prints what came of a part, and returns whether all is right."""
    wrong = [(what, came) for what, is_right, came in tried if not is_right]
    for what, came in wrong:
        print(f"scripts: {part}: FAILED: {what}: {came!s:.2000}")
    print(f"scripts: {part}: {len(tried) - len(wrong)} of {len(tried)} are right", flush=True)
    return not wrong


def main():
    # A shell that starts this in the background has it, and all below it, ignore interrupts, and nohup has it ignore
    # hangups. What a script handles, those that it starts don't ignore.
    signal.signal(signal.SIGINT, signal.default_int_handler)
    if signal.getsignal(signal.SIGHUP) == signal.SIG_IGN:
        signal.signal(signal.SIGHUP, lambda number, frame: None)
    with ThreadPoolExecutor(4) as workers:
        passed = [tell(*it) for it in workers.map(tried_in, sys.argv[1:] or PARTS)]
    print(f"{passed.count(True)} passed, {passed.count(False)} failed")
    return not all(passed)


if __name__ == "__main__":
    sys.exit(main())

"""Tries `guppy-cargo test` on repositories that are made and changed here: which tests cargo runs, and what it is given."""

import os
import re
from pathlib import Path

from since import Changing, metadata_file, write

# The job that docs/CI.md has for any shell.
PAGE = Path(__file__).resolve().parent.parent / "docs/CI.md"
PASSES = "#[test]\nfn holds() {}\n"
FAILS = "#[test]\nfn holds() {\n    panic!();\n}\n"
NOTHING = "guppy-cargo: no member is affected, so there is nothing to test\n"
LIBRARIES = ["--", "--lib"]


def run(world, words, where):
    """Runs a script of the clone, with what cargo builds tests by."""
    path = {"PATH": f"{world.bin}:{os.environ['PATH']}"}
    return world.run(words, where=where, environment=path)


def tested(ran):
    """The packages whose unit tests cargo says that it ran."""
    return "".join(sorted(set(re.findall(r"Running unittests \S+ \(.*deps/(\w+)-", ran[2]))))


def change(changing, path, text=PASSES):
    write(changing.root / path, text)


class Building(Changing):
    """A repository as that one, whose members have a test each."""

    def __init__(self, top, folder=""):
        super().__init__(top, folder)
        write(self.top / ".gitignore", "Cargo.lock\ntarget\n")
        for name in "abc":
            change(self, f"{name}/src/lib.rs")
        metadata_file(self)
        self.commit()


# Each yields what was tried, whether it went as it should, and what came.


def try_tests(world):
    world.build()
    changing = Building(world.room / "repository", "a workspace")
    words = ["guppy-cargo", "test", "--since", "HEAD"]
    ran = run(world, [*words, *LIBRARIES], changing.root)
    yield "nothing changed", ran == (0, "", NOTHING), ran
    for what, path, wanted in (
        ("a member that none needs", "c/src/lib.rs", "c"),
        ("a member that another needs", "a/src/lib.rs", "ab"),
        ("what all need", "../out/src/lib.rs", "abc"),
        ("a file of a test alone", "b/tests/all.rs", "b"),
    ):
        change(changing, path, PASSES + f"// {what}\n")
        for place in (changing.root, changing.root / "b/src"):
            ran = run(world, [*words, *LIBRARIES], place)
            yield f"{what}, from {place.name}", ran[0] == 0 and tested(ran) == wanted, ran
        changing.commit()
    change(changing, "docs/page.md", "")
    ran = run(world, [*words, "--ignore", "docs", *LIBRARIES], changing.root)
    yield "a file in a folder that is left out", ran == (0, "", NOTHING), ran
    ran = run(world, ["guppy-cargo", "test", "c/x", *LIBRARIES], changing.root)
    yield "a path that is given", ran[0] == 0 and tested(ran) == "c", ran
    change(changing, "c/src/lib.rs", FAILS)
    ran = run(world, [*words, "--ignore=docs", *LIBRARIES], changing.root)
    yield "a test that fails", ran[0] == 101 and tested(ran) == "c", ran
    yield from try_flags(world, changing)
    yield from try_given_words(world, changing, words)


def try_flags(world, changing):
    """What cargo builds where it is given the members as flags."""
    changing.commit()
    change(changing, "a/src/lib.rs", PASSES + "// flags\n")
    (world.bin / "guppy-cargo").symlink_to(world.top / "guppy-cargo")
    for words in (
        "cargo test --no-run $(guppy-cargo affected --since HEAD --format flags)",
        "guppy-cargo affected --since HEAD --format flags --null | xargs -0 cargo test --no-run",
    ):
        ran = run(world, ["sh", "-c", words], changing.root)
        built = re.findall(r"Executable unittests \S+ \(.*deps/(\w+)-", ran[2])
        yield words, ran[0] == 0 and sorted(built) == ["a", "b"], ran


def try_given_words(world, changing, words):
    """What the command that tests is given, as a program says that prints its words."""
    show = world.bin / "show"
    write(show, "#!/bin/sh\nprintf '<%s>' \"$@\"\n")
    show.chmod(0o755)
    changing.commit()
    change(changing, "a/src/lib.rs", "")
    packages = "<--package=a><--package=b>"
    manifest = str(changing.root / "b/Cargo.toml")
    for given, wanted in (
        (["--with", "show"], f"{packages}<--all-features>"),
        (["--with=show it", "--", "x y", "it's", "--", "$HOME", "*"], f"<it>{packages}<--all-features><x y><it's><--><$HOME><*>"),
        (["--with", "show *"], f"<*>{packages}<--all-features>"),
        (["--with", "show", "--no-default-features"], f"{packages}<--no-default-features>"),
        (["--offline", "--with", "show", "--locked"], f"{packages}<--all-features><--offline><--locked>"),
        (["--manifest-path", manifest, "--with", "show"], f"{packages}<--all-features><--manifest-path={manifest}>"),
        (["--with", "show", "--filter-platform=x86_64-unknown-linux-gnu"], f"{packages}<--all-features>"),
    ):
        ran = run(world, [*words, *given], changing.root)
        yield f"{given}", ran == (0, wanted, ""), ran


def job():
    """The job for any shell, as the page has it."""
    return PAGE.read_text().split("```sh\n")[1].split("```")[0]


def try_tests_on_branches(world):
    """The page's job plays through five changes, each on a branch of its own, and through a clone without their base."""
    world.build()
    changing = Building(world.room / "repository")
    changing.git("update-ref", "refs/remotes/origin/main", "HEAD")
    (world.bin / "guppy-cargo").symlink_to(world.top / "guppy-cargo")
    for what, path, text, wanted in (
        ("a member that none needs", "c/src/lib.rs", "", "c"),
        ("one that another needs", "a/src/lib.rs", "", "ab"),
        ("what is not of a package", "README.md", "", "abc"),
        ("a test that fails", "b/tests/fails.rs", FAILS, "b"),
        ("nothing", "x.ignored", "", ""),
    ):
        changing.git("checkout", "-q", "-b", what.replace(" ", "-"), "refs/remotes/origin/main")
        write(changing.top / ".git/info/exclude", "*.ignored\n")
        change(changing, path, text)
        changing.commit()
        ran = run(world, ["sh", "-c", job()], changing.root)
        is_right = tested(ran) == wanted and ran[0] == (101 if text == FAILS else 0)
        yield what, is_right and (NOTHING in ran[2]) == (not wanted), ran
    changing.git("update-ref", "-d", "refs/remotes/origin/main")
    ran = run(world, ["sh", "-c", job()], changing.root)
    is_told = "git does not say what changed since unknown" in ran[2]
    yield "where git knows no base, everything is tested", ran[0] == 0 and tested(ran) == "abc" and is_told, ran


def try_tests_refused(world):
    changing = Building(world.room / "repository")
    since = ["--since", "HEAD"]
    change(changing, "c/src/lib.rs", "")
    for words, status, told in (
        (["--since", "nosuch"], 5, "git does not say what changed since nosuch"),
        ([*since, "--with"], 2, "--with needs a value"),
        ([*since, "--with="], 2, "--with needs a value"),
        ([*since, "--with", " "], 2, "--with needs a value"),
        ([*since, "--with", "x", "--with=y"], 2, "--with is given twice"),
        (["--since"], 2, "--since needs a value"),
        ([], 2, "error: affected needs a path, --paths-from FILE or, of the scripts, --since REVISION"),
        ([*since, "--publishable"], 2, "error: affected takes no --publishable"),
        ([*since, "--null"], 2, "test takes no --null"),
        ([*since, "--format", "flags"], 2, "test takes no --format"),
        (["--format=lines", *since], 2, "test takes no --format"),
    ):
        ran = world.run(["guppy-cargo", "test", *words], where=changing.root)
        yield f"{words}", ran[:2] == (status, "") and ran[2].splitlines()[-1].endswith(told), ran
    for word in ("--help", "-h"):
        ran = world.run(["guppy-cargo", "test", word], where=changing.root)
        yield f"{word} is that of affected", ran[0] == 0 and ran[1].startswith("Usage: guppy-cargo [OPTION].. affected PATH.."), ran
    (world.bin / "cargo").unlink()
    ran = world.run(["guppy-cargo", "test", *since], where=changing.root)
    yield "without cargo", ran[0] == 3 and "cargo is not on the path" in ran[2], ran

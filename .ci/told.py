"""Tries what guppy-cargo tells the program where it is asked what cargo builds, and what it asks cargo and rustc for it."""

import hashlib
import subprocess

from metadata import is_told, lines, make, metadata_of, script

# Manifests of a workspace's root, and the resolver by which cargo resolves features there.
RESOLVERS = [
    ('[workspace]\nmembers = ["a"]\nresolver = "3" # of its own\n', 3),
    ("[workspace]\nmembers = [\n 'a'\n]\nresolver = '1'\n", 1),
    ('[workspace]\nmembers = ["a"]\n', 1),
    ('[workspace.package]\nedition = "2021"\n[workspace]\nmembers = ["a"]\n', 1),
    ('workspace.resolver = "2"\nworkspace.members = ["a"]\n', 2),
    ('[package]\nname = "x"\nedition = "2018"\n', 1),
    ('[package]\nname = "x"\n', 1),
    ('[package]\nname = "x"\nedition = "2021"\n', 2),
    ('[ package ]\nname = "x"\n"edition" = "2024"\n[[bin]]\nname = "y"\npath = "src/y.rs"\nedition = "2015"\n', 3),
    ('[package]\nname = "x"\nedition = "2021"\nresolver = "1"\n', 1),
    ('[package]\nname = "x"\nedition.workspace = true\n[workspace.package]\nedition = "2024"\n', 3),
    ('[workspace.package]\nedition = "2021"\n[workspace]\n[package]\nname = "x"\nedition = { workspace = true }\n', 2),
    ('package = { name = "x", edition = "2021" }\n[workspace]\nresolver = "2"\n', 2),
    ('[package]\nname = "x"\nedition = "2021"\n[package.metadata.y]\nresolver = "1"\nedition = "2015"\n', 2),
]
LINUX, WINDOWS = "x86_64-unknown-linux-gnu", "x86_64-pc-windows-msvc"
OWN = [f"--platform {LINUX}", f"--host {LINUX}"]
# Words for the script, and what the program is told of them beside files.
TOLD = [
    ("built", ["built", *OWN, "--resolver=2"]),
    ("built --help", ["built --help"]),
    ("help built", ["help built"]),
    ("--tests -p a built -p=b", ["built --tests -p a -p b", *OWN, "--resolver=2"]),
    ("features a --features x,y -F z", ["features a", *OWN, "--features=x,y --features=z --resolver=2"]),
    ("-Fz why-feature a f --all-features", ["why-feature a f", *OWN, "--features=z --all-features --resolver=2"]),
    ("built --no-default-features --ids", ["built --ids", *OWN, "--no-default-features --resolver=2"]),
    ("built --resolver 1", ["built --resolver 1", *OWN]),
    ("built --resolver=3 --locked", ["built --resolver 3", *OWN]),
    (f"built --platform {WINDOWS}", ["built", f"--host {LINUX}", f"--platform {WINDOWS}", "--resolver=2"]),
    ("built --platform x --cfgs y", ["built --platform x --cfgs y --resolver=2"]),
    (f"built --host {WINDOWS}", ["built", f"--platform {WINDOWS}", f"--host {WINDOWS}", "--resolver=2"]),
    ("built --host x --host-cfgs y --platform z --cfgs y", ["built --host-cfgs y --platform z --cfgs y --host x --resolver=2"]),
    ("order", ["order"]),
    ("order --tests", ["order --tests"]),
    ("--null --format flags order", ["order --null --format flags"]),
    ("order --format=flags", ["order --format flags"]),
    ("links forward --format json", ["links forward --format json"]),
]
WRONG = [
    ("built --resolver", "--resolver needs a value"),
    ("built -p", "-p needs a value"),
    ("order --format", "--format needs a value"),
    ("built -p --ids", "-p needs a value"),
    ("built --host x --host-cfgs y", "give --platform TRIPLE beside --host-cfgs FILE"),
    ("built --metadata x", "give --resolver N beside --metadata FILE"),
    ("built --metadata x --locked", "--metadata can't be used with --locked"),
    ("--features x order --metadata x", "--metadata can't be used with --features"),
    ("built --since HEAD", "--since goes with affected"),
]


def stand_in(world, text):
    """In place of the proved program, one that does what the text says."""
    program = world.top / "crates/guppy_cargo_main/out/guppy_cargo_main"
    script(program, text)
    made_of = program.with_name("made-of")
    sources = made_of.read_text().splitlines()[0]
    made_of.write_text(f"{sources}\n{hashlib.sha256(program.read_bytes()).hexdigest()} this rt\n")


def without_files(told):
    """The words, but for the files that rustc's answers are in, each of which has to be one."""
    words = told.split()
    at = [place for place, word in enumerate(words) if word.startswith("/dev/fd/")]
    return " ".join(word for place, word in enumerate(words) if place not in at and place + 1 not in at)


# Each yields what was tried, whether it went as it should, and what came.


def try_told(world):
    top = world.room / "a workspace"
    make(top)
    world.build()
    note = world.room / "note"
    cargo = script(world.room / "noting", f'printf "%s " "$@" >> "{note}"\nexec cargo "$@"\n')
    stand_in(world, 'echo "$@"\n')
    for words, wanted in TOLD:
        note.write_text("")
        ran = world.run(["guppy-cargo", *words.split()], where=top, environment={"CARGO": cargo})
        asked = note.read_text()
        asks_for_all = not any(it in words for it in ("elp", "order", "links"))
        is_asked = not asks_for_all or "--all-features" in asked.split("metadata --format-version 1")[1].split()
        is_right = ran[0] == 0 and without_files(ran[1]) == " ".join(wanted)
        yield f"{words}, what the program is told", is_right and is_asked, (ran, asked)
    ran = world.run(["guppy-cargo", "built", "--features", "a b, c"], where=top)
    yield "features in one word", "--features=a b, c --resolver=2\n" in ran[1], ran
    (top / "src").mkdir()
    for it in ("lib.rs", "main.rs", "y.rs"):
        (top / "src" / it).touch()
    for manifest, wanted in RESOLVERS:
        (top / "Cargo.toml").write_text(manifest)
        ran = world.run(["guppy-cargo", "built"], where=top)
        yield f"the resolver of {manifest!r}", ran[0] == 0 and ran[1].endswith(f" --resolver={wanted}\n"), ran
    yield "no file is left", not world.left(), world.left()


def try_told_of_hosts(world):
    """What rustc says is set where cargo builds for the host: one file for both, with what cargo's flags set."""
    top = world.room / "a workspace"
    make(top)
    world.build()
    stand_in(world, 'for it do case $it in /dev/fd/*) echo "$it"; cat "$it" ;; esac; done\n')
    plain = subprocess.run(["rustc", "--print", "cfg"], capture_output=True, text=True, check=True).stdout.split("\n")
    for flags in ("", "--cfg mine"):
        ran = world.run(["guppy-cargo", "built"], where=top, environment={"RUSTFLAGS": flags} if flags else {})
        files = ran[1].split("/dev/fd/4\n")
        is_right = len(files) == 3 and files[1] == files[2] and set(files[1].split("\n")) == {*plain, *(["mine"] if flags else [])}
        yield f"what is set with {flags!r}", ran[0] == 0 and is_right, ran
    file = world.room / "metadata.json"
    file.write_bytes(metadata_of(top, "--all-features"))
    words = ["guppy-cargo", "features", "a", "--features=a/extra", "--resolver=2", "--metadata", str(file)]
    stand_in(world, 'cat; echo "$@"\n')
    ran = world.run(words, where=world.room)
    is_right = ran[0] == 0 and ran[1].startswith(file.read_text()) and "--features=a/extra" in ran[1].splitlines()[-1]
    yield "given metadata, with features", is_right, ran[2]
    stand_in(world, "exit 0\n")
    for words, told in WRONG:
        ran = world.run(["guppy-cargo", *words.split()], where=top)
        yield words, is_told(ran, 2, told), ran
    ran = world.run(["guppy-cargo", "built"], where=top, environment={"RUSTC": "/no/such"})
    yield "no rustc", is_told(ran, 3, "rustc is not on the path: put it there, or give what it prints for TRIPLE by --platform TRIPLE"), ran
    ran = world.run(["guppy-cargo", "built"], where=world.room)
    yield "no workspace", is_told(ran, 3, "give the path of one by --manifest-path PATH", 1), ran
    yield "no file is left", not world.left(), world.left()

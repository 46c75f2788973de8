"""Makes workspaces, and has cargo print their metadata."""

import json
import os
import random
import re
import subprocess
import sys
from concurrent.futures import ThreadPoolExecutor

HERE = os.path.dirname(os.path.realpath(__file__))
# Each archive or index is to be had in so many seconds.
SECONDS = 180

# The folder of the workspace with every kind of package and dependency, and flags that make other graphs of it.
MADE = "a rööm"
FLAGS = ["", "--all-features", "--no-default-features", "--filter-platform x86_64-pc-windows-msvc"]
# So many workspaces are drawn, of so many packages, and with dependencies on these targets.
DRAWN, SIZE = 8, 18
TARGETS = ["", "", "target.'cfg(unix)'.", "target.x86_64-pc-windows-msvc."]
# Below these are most of Debian's crates that many others stand on; what is no dependency is left out.
DEBIAN = ["librust-cargo-dev", "librust-reqwest-dev", "librust-tokio-dev", "librust-clap-dev"]
APART = ["recommends", "suggests", "conflicts", "breaks", "replaces", "enhances"]


def write(room, file, text):
    path = os.path.join(room, file)
    os.makedirs(os.path.dirname(path), exist_ok=True)
    with open(path, "w", encoding="utf-8") as opened:
        opened.write(text)


def write_package(room, folder, name, version, files, manifest):
    for file in files:
        write(room, f"{folder}/{file}", "fn main() {}\n")
    head = f'[package]\nname = "{name}"\nversion = "{version}"\nedition = "2021"\n'
    write(room, f"{folder}/Cargo.toml", head + manifest + "\n")


def write_made(room):
    with open(os.path.join(HERE, "workspace.txt"), encoding="utf-8") as opened:
        packages = opened.read().split("\n== ")[1:]
    for package in packages:
        head, _, manifest = package.partition("\n")
        folder, name, version, *files = head.split(" ")
        write_package(room, folder, name, version, files, manifest)


def name_of(number):
    """Some drawn packages are no members, and share a name."""
    return "twin" if number % 6 == 5 else f"p{number}"


def folder_of(number):
    """Every other member lies in the one before."""
    above = "outside/" if name_of(number) == "twin" else f"p{number - 1}/" if number % 2 else ""
    return f"{above}p{number}"


def dependency_of(drawn, number, other):
    """A dependency in one section or two. Those that aren't for development lead from lower to higher numbers."""
    sections = drawn.choice([["dev-"], ["build-"], [""], ["", "dev-"], ["build-", ""]]) if other > number else ["dev-"]
    key = f"d{other}" if name_of(other) == "twin" or drawn.random() < 0.3 else name_of(other)
    optional = "true" if "dev-" not in sections and drawn.random() < 0.3 else "false"
    path = os.path.relpath(folder_of(other), folder_of(number))
    table = f'package = "{name_of(other)}"\npath = "{path}"\noptional = {optional}\n'
    return "".join(f"[{drawn.choice(TARGETS)}{it}dependencies.{key}]\n{table}" for it in sections)


def write_drawn(room, seed):
    drawn = random.Random(seed)
    for number in range(SIZE):
        others = [it for it in range(SIZE) if drawn.random() < 2.5 / SIZE]
        manifest = "".join(dependency_of(drawn, number, it) for it in others)
        version = f"0.{number}.0" + drawn.choice(["", "", "-beta.1"])
        write_package(room, folder_of(number), name_of(number), version, ["src/lib.rs"], manifest)
    members = [folder_of(it) for it in range(SIZE) if name_of(it) != "twin"]
    write(room, "Cargo.toml", f'[workspace]\nresolver = "2"\nmembers = {members}\nexclude = ["outside"]\n')


def write_twice(room):
    """A member that depends on two packages of one name and version: one of a registry's, and one in a folder."""
    write_package(room, "ws", "app", "0.1.0", ["src/lib.rs"], '[dependencies]\nleaf = "1"\nown.package = "leaf"\nown.path = "../own"')
    for folder in ("registry/leaf", "own"):
        write_package(room, folder, "leaf", "1.0.0", ["src/lib.rs"], "")
    write(room, "registry/leaf/.cargo-checksum.json", json.dumps({"files": {}, "package": "0" * 64}))
    write(room, "ws/.cargo/config.toml", f'[source.crates-io]\nreplace-with = "own"\n[source.own]\ndirectory = "{room}/registry"\n')


def take_debian(room):
    """Unpacks Debian's crates below the folder, and changes nothing outside of it."""
    own = [f"Dir::State::lists={room}/lists", f"Dir::Cache={room}/cache", "APT::Sandbox::User=root"]
    options = [it for option in own for it in ("-o", option)]
    os.makedirs(f"{room}/lists/partial")
    os.makedirs(f"{room}/cache/archives/partial")
    ways = {"cwd": room, "check": True, "capture_output": True, "text": True, "timeout": SECONDS}
    subprocess.run(["apt-get", *options, "update"], **ways)
    without = [f"--no-{it}" for it in APART]
    listed = subprocess.run(["apt-cache", *options, "depends", "--recurse", *without, *DEBIAN], **ways).stdout
    packages = sorted({it for it in listed.splitlines() if it.startswith("librust-")})
    subprocess.run(["apt-get", *options, "download", *packages], **ways)
    archives = [it for it in os.listdir(room) if it.endswith(".deb")]
    with ThreadPoolExecutor(4) as workers:
        list(workers.map(lambda it: subprocess.run(["dpkg", "-x", it, "."], **ways), archives))


def write_debian(room, registry):
    """Members that depend on large packages and on each other, and one that depends on all that there are."""
    crates = [re.fullmatch(r"(.+?)-(\d+\.\d+\.\d+.*)", it).groups() for it in sorted(os.listdir(registry))]
    each = 'd{} = {{ package = "{}", version = "={}", default-features = false }}'
    members = {
        "all": "[dependencies]\n" + "\n".join(each.format(i, *it) for i, it in enumerate(crates)),
        "tool": '[dependencies]\ncargo = "*"\n[dev-dependencies]\nfront.path = "../front"',
        "server": '[dependencies]\nreqwest = "*"\ntokio = { version = "*", features = ["full"] }',
        "front": '[dependencies]\ntool.path = "../tool"\n[build-dependencies]\nserver.path = "../server"\nclap = "*"',
    }
    for name, manifest in members.items():
        write_package(room, name, name, "0.1.0", ["src/lib.rs", "build.rs"], manifest)
    write(room, "Cargo.toml", f'[workspace]\nresolver = "2"\nmembers = {list(members)}\n')
    source = f'[source.crates-io]\nreplace-with = "debian"\n[source.debian]\ndirectory = "{registry}"\n'
    write(room, ".cargo/config.toml", source)


def cargo_in(room, folder, *words):
    """What cargo prints in the folder."""
    environment = {**os.environ, "CARGO_HOME": os.path.join(room, "home")}
    ways = {"cwd": os.path.join(room, folder), "env": environment, "capture_output": True, "check": False}
    ran = subprocess.run(["cargo", *words, "--offline"], **ways)
    return ran.stdout.decode() if ran.returncode == 0 else sys.exit(f"cargo: {folder}: {ran.stderr.decode()}")


def metadata_of(room, folder, flags=""):
    return cargo_in(room, folder, "metadata", "--format-version", "1", *flags.split())


def tree_in(room, folder, flags, triple="all"):
    """What `cargo tree` shows of the workspace for words, on all platforms or on one: the packages, each as `name@version`."""
    always = ["tree", "--workspace", "--target", triple, "--prefix", "none", "--format", "{p}", *flags.split()]
    return lambda *words: {"@".join(it) for it in re.findall(r"^(\S+) v(\S+)", cargo_in(room, folder, *always, *words), re.M)}


def workspaces_in(room):
    """The folder of each workspace and the flags for cargo, under its name."""
    write_made(os.path.join(room, MADE))
    found = {f"made {it}": (f"{MADE}/ws", it) for it in FLAGS}
    for seed in range(DRAWN):
        write_drawn(os.path.join(room, f"drawn{seed}"), seed)
        found[f"drawn {seed}"] = (f"drawn{seed}", FLAGS[seed % len(FLAGS)])
    write_twice(os.path.join(room, "twice"))
    found["a version twice"] = ("twice/ws", "")
    archive = os.path.join(room, "archive")
    try:
        take_debian(archive)
        write_debian(os.path.join(room, "debian"), os.path.join(archive, "usr/share/cargo/registry"))
        found["Debian"] = ("debian", "")
    except (OSError, subprocess.SubprocessError) as error:
        print(f"cargo: without Debian's packages, which can't be had: {error}"[:500])
    return found

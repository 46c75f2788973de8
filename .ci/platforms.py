#!/usr/bin/env python3
"""Tries what the program guppy_cargo_main makes of platforms, on ten thousand drawn predicates and what rustc prints for
twenty platforms, beside the crate cfg-expr, where Debian's package of it is installed (librust-cfg-expr-dev).

A predicate and its opposite are the targets of two links. Where it holds, the first one is kept, where it doesn't, the
second, and both where the program doesn't read it. Needs cargo, rustc, and the program as built, or one that the first
argument names. The last line is 'N passed, M failed'.
"""

import json
import os
import random
import shutil
import subprocess
import sys
import tempfile
from concurrent.futures import ThreadPoolExecutor

HERE = os.path.dirname(os.path.realpath(__file__))
BUILT = os.path.join(os.path.dirname(HERE), "crates", "guppy_cargo_main", "out", "guppy_cargo_main")
REGISTRY = "/usr/share/cargo/registry"
SECONDS = 120

TRIPLES = """x86_64-unknown-linux-gnu aarch64-apple-darwin x86_64-pc-windows-msvc x86_64-pc-windows-gnu i686-unknown-linux-musl
armv7-unknown-linux-gnueabihf aarch64-linux-android riscv64gc-unknown-linux-gnu powerpc64-unknown-linux-gnu s390x-unknown-linux-gnu
wasm32-unknown-unknown wasm32-wasip1 wasm32-unknown-emscripten thumbv7em-none-eabihf x86_64-unknown-freebsd x86_64-pc-solaris
aarch64-apple-ios x86_64-unknown-uefi x86_64-fortanix-unknown-sgx avr-none""".split()
# So many predicates, in packages with so many links each.
PREDICATES, EACH = 10000, 100
# What cfg-expr doesn't read.
APART = "target_abi"


def cfgs_of(triple):
    """What rustc prints for the platform."""
    command = ["rustc", "--print", "cfg", "--target", triple]
    return subprocess.run(command, capture_output=True, text=True, check=True).stdout


def drawn_predicate(drawn, settings, depth=4):
    """A predicate of some levels, with some spaces."""
    gap, way = " " * drawn.choice([0, 0, 0, 1, 2]), drawn.random()
    if depth == 1 or way < 0.35:
        return drawn.choice(settings).replace("=", f"{gap}={gap}") + gap
    if way < 0.5:
        return f"not{gap}({drawn_predicate(drawn, settings, depth - 1)}{gap})"
    parts = [drawn_predicate(drawn, settings, depth - 1) for _ in range(drawn.choice([0, 1, 2, 2, 3, 4]))]
    end = "," if parts and drawn.random() < 0.2 else ""
    return f"{drawn.choice(['all', 'any'])}{gap}({gap}{f',{gap}'.join(parts)}{end}{gap})"


def package(name, dependencies):
    target = {"kind": ["lib"], "crate_types": ["lib"], "name": name, "src_path": f"/w/{name}/src/lib.rs", "edition": "2021"}
    known = {"name": name, "version": "0.1.0", "id": name, "source": None, "edition": "2021", "features": {}}
    empty = {it: None for it in "license license_file description metadata publish readme repository homepage documentation".split()}
    lists = {it: [] for it in ("authors", "categories", "keywords")}
    more = {"links": None, "default_run": None, "rust_version": None, "manifest_path": f"/w/{name}/Cargo.toml"}
    return {**known, **empty, **lists, **more, "targets": [target], "dependencies": dependencies}


def dependency(name, target):
    known = {"name": name, "source": None, "req": "*", "kind": None, "rename": None, "optional": False}
    return {**known, "uses_default_features": True, "features": [], "target": target, "registry": None, "path": f"/w/{name}"}


def resolved(name, targets):
    deps = [{"name": to, "pkg": to, "dep_kinds": [{"kind": None, "target": target}]} for to, target in targets]
    return {"id": name, "dependencies": [to for to, _ in targets], "deps": deps, "features": []}


def metadata_of(texts):
    """Metadata in which these are targets of links, each between two packages of its own."""
    links = {f"r{at // EACH}": [] for at in range(len(texts))}
    for at, text in enumerate(texts):
        links[f"r{at // EACH}"].append((f"d{at % EACH}", text))
    links |= {f"d{at}": [] for at in range(EACH)}
    packages = [package(name, [dependency(*it) for it in targets]) for name, targets in links.items()]
    nodes = [resolved(name, targets) for name, targets in links.items()]
    names = list(links)
    places = {"target_directory": "/w/target", "workspace_root": "/w", "metadata": None, "version": 1}
    members = {"workspace_members": names, "workspace_default_members": names}
    return json.dumps({"packages": packages, **members, "resolve": {"nodes": nodes, "root": None}, **places}).encode()


def kept(program, given, triple, file):
    """The numbers of the links that are kept."""
    words = ["links", "forward", "--platform", triple, "--cfgs", file]
    ran = subprocess.run([program, *words], input=given, capture_output=True, timeout=SECONDS, check=True)
    ends = [line.split(" ") for line in ran.stdout.decode().splitlines()]
    return {int(a[1:]) * EACH + int(b[1:]) for a, b in ends}


def letters(program, given, count, triple, file):
    """A letter for each predicate: y where it holds, n where it doesn't, and ? where it isn't read."""
    on = kept(program, given, triple, file)
    pairs = [(2 * at in on, 2 * at + 1 in on) for at in range(count)]
    return "".join({(True, False): "y", (False, True): "n", (True, True): "?"}.get(it, "!") for it in pairs)


def build_peer(room):
    """The program that cfg-expr answers in."""
    os.makedirs(os.path.join(room, "src"))
    os.makedirs(os.path.join(room, ".cargo"))
    shutil.copy(os.path.join(HERE, "cfg_expr.rs"), os.path.join(room, "src/main.rs"))
    with open(os.path.join(room, "Cargo.toml"), "w", encoding="utf-8") as manifest:
        manifest.write('[package]\nname = "peer"\nversion = "0.1.0"\nedition = "2021"\n[dependencies]\ncfg-expr = "*"\n[workspace]\n')
    with open(os.path.join(room, ".cargo/config.toml"), "w", encoding="utf-8") as config:
        config.write(f'[source.crates-io]\nreplace-with = "debian"\n[source.debian]\ndirectory = "{REGISTRY}"\n')
    ways = {"cwd": room, "env": {**os.environ, "CARGO_HOME": os.path.join(room, "home")}, "check": True}
    subprocess.run(["cargo", "build", "-q", "--release", "--offline"], **ways)
    return os.path.join(room, "target/release/peer")


def compare(program, room):
    """Whether both say the same of each predicate that cfg-expr reads, for each platform."""
    cfgs = {triple: cfgs_of(triple) for triple in TRIPLES}
    settings = sorted({line for text in cfgs.values() for line in text.splitlines() if not line.startswith(APART)})
    drawn = random.Random(20)
    inner = [drawn_predicate(drawn, settings) for _ in range(PREDICATES)]
    given = metadata_of([it for text in inner for it in (f"cfg({text})", f"cfg(not({text}))")])
    files = {triple: os.path.join(room, triple) for triple in TRIPLES}
    for triple, text in cfgs.items():
        with open(files[triple], "w", encoding="utf-8") as file:
            file.write(text)
    texts = os.path.join(room, "predicates")
    with open(texts, "w", encoding="utf-8") as file:
        file.write("".join(f"cfg({text})\n" for text in inner))
    peer = build_peer(os.path.join(room, "peer"))
    told = subprocess.run([peer, texts, *files.values()], capture_output=True, text=True, check=True).stdout.splitlines()
    with ThreadPoolExecutor(4) as workers:
        ours = list(workers.map(lambda it: letters(program, given, PREDICATES, *it), files.items()))
    results = []
    for triple, theirs, own in zip(TRIPLES, told, ours, strict=True):
        read = [it for it in zip(inner, theirs, own, strict=True) if it[1] != "?"]
        wrong = [it for it in read if it[1] != it[2]]
        for text, wanted, got in wrong[:5]:
            print(f"platforms: {triple}: FAILED: cfg({text}): {got}, where cfg-expr says {wanted}")
        held = sum(it[1] == "y" for it in read)
        print(f"platforms: {triple}: {len(read) - len(wrong)} of {len(read)} as cfg-expr says, of which {held} hold")
        results.append(bool(read) and not wrong)
    return results


def main():
    program = sys.argv[1] if sys.argv[1:] else BUILT
    if not os.access(program, os.X_OK):
        return f"platforms: {program} is not there"
    if not any(it.startswith("cfg-expr-") for it in (os.listdir(REGISTRY) if os.path.isdir(REGISTRY) else [])):
        print(f"platforms: without cfg-expr, which is not in {REGISTRY}: install librust-cfg-expr-dev")
        print("0 passed, 0 failed")
        return 0
    with tempfile.TemporaryDirectory() as room:
        results = compare(program, room)
    print(f"{results.count(True)} passed, {results.count(False)} failed")
    return not all(results)


if __name__ == "__main__":
    sys.exit(main())

"""Large graphs to run guppy-run on, their IDs, and the program's commands."""

import functools
import os
import random
import subprocess
import sys

ROOT = os.path.dirname(os.path.dirname(os.path.abspath(__file__)))
WRAPPER = os.path.join(ROOT, "guppy-run")
PROGRAM = os.path.join(ROOT, "crates", "guppy_run", "out", "guppy_run")


# Each graph below is made of a number of packages, and is the IDs and the links, as pairs of positions with a kind.

def chain(count):
    return plain_ids(count), [(i, i + 1, "normal") for i in range(count - 1)]


def ring(count):
    return plain_ids(count), [(i, (i + 1) % count, "normal") for i in range(count)]


def scattered(count):
    """Five links a package, between packages picked at random, a fifth of them dev: one large component."""
    picks = random.Random(count)
    ids = plain_ids(count)
    picks.shuffle(ids)
    pairs = set()
    while len(pairs) < 5 * count:
        pairs.add((picks.randrange(count), picks.randrange(count)))
    kinds = ("normal", "normal", "normal", "build", "dev")
    return ids, [(a, b, picks.choice(kinds)) for a, b in sorted(pairs, key=lambda _: picks.random())]


def acyclic(count):
    """The same packages, with the links that aren't dev turned to lead from lower positions to higher ones."""
    ids, links = scattered(count)
    turned = {((a, b) if kind == "dev" else (min(a, b), max(a, b))): kind for a, b, kind in links}
    return ids, [(a, b, kind) for (a, b), kind in turned.items()]


def layered(count):
    """Half as many packages, as Cargo's graphs are: IDs of 70 bytes that share the first 60, links to lower packages
    near by, and a few dev links back."""
    picks = random.Random(count)
    count //= 2
    ids = [f"registry+https://registry.example.invalid/index-of-crates#package-{i}@1.{i % 7}.0" for i in range(count)]
    pairs = {(a, a + 1 + int(picks.expovariate(1 / 2000)) % (count - 1 - a)) for a in range(count - 1) for _ in range(4)}
    links = [(a, b, "normal") for a, b in sorted(pairs)]
    back = {(picks.randrange(count // 2, count), picks.randrange(count // 2)) for _ in range(count // 50)}
    return ids, links + [(a, b, "dev") for a, b in sorted(back)]


def dense(count):
    """Five links for each of the number, between so few packages that half of all pairs are linked."""
    count = int((10 * count) ** 0.5)
    return plain_ids(count), [(a, b, "normal") for a in range(count) for b in range(count) if a != b and (a ^ b) & 1]


def star(count):
    """Half of the packages depend on the first one, and it depends on the other half."""
    half = count // 2
    return plain_ids(count), [(0, i, "normal") for i in range(1, half)] + [(i, 0, "normal") for i in range(half, count)]


def plain_ids(count):
    return [f"p{i}" for i in range(count)]


GRAPHS = {graph.__name__: graph for graph in (chain, ring, scattered, acyclic, layered, dense, star)}

# The bytes of IDs of one hash: none is a space, and none cuts a path.
BYTES = bytes(byte for byte in range(33, 127) if byte not in b"/.\\")
TO_BYTES = bytes(BYTES[byte % len(BYTES)] for byte in range(256))


def mixed(number):
    """As guppy_graph's hints mix eight bytes of an ID for the first of their two hashes."""
    product = number * 0x9E37_79B9_7F4A_7C15 % 2**64
    return product ^ product >> 32


@functools.cache
def pieces_without_hash(count):
    """Pieces of an ID behind which its first hash is 0, whatever pieces stand before."""
    picks = random.Random(count)
    pieces = []
    while len(pieces) < count:
        first = picks.randbytes(8).translate(TO_BYTES)
        second = mixed(int.from_bytes(first, "little")).to_bytes(8, "little")
        if not second.translate(None, BYTES):
            pieces.append((first + second).decode())
    return pieces


def id_without_hash(i, count):
    """One of count IDs, made of three pieces, whose first hash is 0."""
    side = round(count ** (1 / 3)) + 1
    pieces = pieces_without_hash(side)
    return pieces[i // side**2] + pieces[i // side % side] + pieces[i % side]


# The ID of package i of n, by kind: those that a look-up likes come first.
IDS = {
    "friendly": lambda i, count: f"p{i}",
    "descending": lambda i, count: f"p{count - i:09}",
    "60 shared bytes": lambda i, count: f"{'registry+https://example.invalid/index#':-<60}{i}",
    "one hash": id_without_hash,
}


def write(name, count, path, kind):
    """Writes the graph, under its own IDs or those of the kind, and prints its packages, links, first and last ID."""
    ids, links = GRAPHS[name](count)
    if kind:
        ids = [IDS[kind](i, len(ids)) for i in range(len(ids))]
    with open(path, "w", encoding="ascii") as file:
        file.writelines(f"package {id}\n" for id in ids)
        file.writelines(f"link {ids[a]} {ids[b]} {section}\n" for a, b, section in links)
    print(len(ids), len(links), ids[0], ids[-1])


def written(name, count, path, kind=""):
    """Packages, links, first and last ID of the graph that another process wrote: this one stays small, so that
    the peak memory that the system tells of a run is the run's own."""
    done = subprocess.run([sys.executable, os.path.abspath(__file__), name, str(count), path, kind],
                          stdout=subprocess.PIPE, check=True, text=True)
    packages, links, first, last = done.stdout.split()
    return int(packages), int(links), first, last


def commands(first, last):
    """The program's arguments for each command, with its label."""
    return {
        "depends": ["depends", first, last],
        "depends back": ["depends", last, first],
        "reach forward": ["reach", "forward", first],
        "reach reverse": ["reach", "reverse", last],
        "order": ["order"],
        "cycles": ["cycles"],
        "roots": ["roots", "forward"],
        "links": ["links", "forward"],
        "verify": ["verify"],
        "publish-order": ["publish-order"],
    }


# The commands that may answer a fault: a cycle over links that aren't dev.
REFUSING = ["verify"], ["publish-order"]


if __name__ == "__main__":
    write(sys.argv[1], int(sys.argv[2]), sys.argv[3], sys.argv[4])

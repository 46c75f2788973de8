#!/usr/bin/env python3
"""Judges `guppy-cargo affected` by cargo itself. In workspaces that are made here all tests are built, a file is
changed, and they are built again: the answer for the paths that changed must tell each member of which cargo built a
test anew, and so must that of the scripts for what changed since the commit before (`--since`), which have the state
before. Folders that only the compiler knows a package to read are given to it, and some are told for these alone.

What is told beyond these is counted, by what was changed. The state before has to take away at least a third of it
where the change shows in the metadata, and what is left may be half of all that is told. After two minutes nothing more is
changed, and what was tried counts. Needs cargo, git, and the program as built, or one that the first argument names; a
second one says in how many workspaces, then without an end, and a third one the first workspace's number. The last line
is 'N passed, M failed'.
"""

import json
import os
import random
import re
import shutil
import subprocess
import sys
import tempfile
import time
from concurrent.futures import ThreadPoolExecutor
from pathlib import Path

HERE = Path(__file__).resolve().parent
SHELL = HERE.parent / "scripts"
BUILT = HERE.parent / "crates/guppy_cargo_main/out/guppy_cargo_main"
PROGRAM = sys.argv[1] if sys.argv[1:] else str(BUILT)
# So many workspaces are drawn, of so many packages, and so much is changed in each, one after the other.
DRAWN, SIZE, CHANGES = int(sys.argv[2]) if sys.argv[2:] else 16, 8, 8
FIRST = int(sys.argv[3]) if sys.argv[3:] else 0
# No more is changed after so many seconds, however slow the machine.
END = time.monotonic() + (120 if not sys.argv[2:] else 24 * 3600)
CARGO = {"CARGO_INCREMENTAL": "0", "CARGO_BUILD_JOBS": "1", "CARGO_PROFILE_DEV_DEBUG": "0", "CARGO_NET_OFFLINE": "true"}

# What a build script says of when it is to run again; of the first cargo looks at each file of its package.
SCRIPTS = ["", "cargo:rerun-if-changed=build.rs", "cargo:rerun-if-changed=data.txt"]
MACRO = "[lib]\nproc-macro = true\n"
# What a test in another folder is made of.
FAR = {"far.rs": "mod part;\n", "part.rs": ""}
# Where files lie that several packages include.
SHARED = ["shared", "../proto"]
# A package of a registry, in the versions that there are, and cargo's settings by which it comes from a folder.
KEPT, VERSIONS = "kept", ["1.0.0", "1.0.1"]
FEATURES = '[features]\ndefault = ["d"]\nd = []\nf = []\n'
AUTHOR = ["-c", "user.name=x", "-c", "user.email=x"]
SOURCES = '[source.crates-io]\nreplace-with = "near"\n[source.near]\ndirectory = "../registry"\n'


class TimeIsUp(Exception):
    """The end came before what was asked was done."""


def write(path, text):
    """Writes the file, but where it has this text: it isn't changed then, and cargo goes by times."""
    path.parent.mkdir(parents=True, exist_ok=True)
    if not path.exists() or path.read_text() != text:
        path.write_text(text)


class Asked:
    """What a manifest asks of another package, in a section."""

    def __init__(self, section, other):
        self.section, self.other, self.platform, self.is_inherited = section, other, None, False
        self.has_feature, self.has_defaults, self.is_optional = False, True, False

    def may_be_apart(self):
        is_plain = not self.has_feature and not self.is_inherited and self.section != "build-"
        return is_plain and self.other.is_member and not self.other.is_macro

    def line(self, package):
        """The header of its table and its line there."""
        place = "workspace = true" if self.is_inherited else f'path = "{package.from_here(self.other.folder)}"'
        features = ', features = ["f"]' if self.has_feature else ""
        defaults = "" if self.has_defaults or self.is_inherited else ", default-features = false"
        optional = ", optional = true" if self.is_optional else ""
        platform = f"target.'cfg({self.platform})'." if self.platform else ""
        line = f"{self.other.name} = {{ {place}{features}{defaults}{optional} }}"
        return f"[{platform}{self.section}dependencies]\n{line}\n"


class Package:
    """A drawn package: where it lies, from the workspace's root, and what its manifest asks for."""

    def __init__(self, drawn, number, others, rooted):
        self.name, self.version, self.asks = f"p{number}", 0, []
        places = [f"p{number}", f"crates/p{number}", f"../out/p{number}", f"vendor/p{number}"]
        places += [f"{it.folder}/in/p{number}" for it in others if it.is_member and it.folder]
        self.folder = "" if rooted and number == 0 else drawn.choice(places)
        # What is excluded, and half of what lies outside, is no member.
        self.is_member = not self.folder.startswith("vendor/")
        self.is_member &= not self.folder.startswith("../") or drawn.random() < 0.5
        self.is_macro = 0 < number < SIZE - 1 and drawn.random() < 0.15
        self.script = drawn.choice(SCRIPTS) if drawn.random() < 0.4 else None
        self.reads = drawn.choice(["", "", "", "data.txt", "ws/shared", "proto", "Cargo.toml"])
        # A test of some lies in another folder, from the workspace's root.
        self.far = drawn.choice(["shared", "../far", "p0/tests", "crates/far"]) if drawn.random() < 0.3 else None
        # Some include a file of a folder in another package.
        self.borrows = os.path.join(drawn.choice(others).folder, "lent") if others and drawn.random() < 0.4 else None
        # Some include the manifest of another package.
        self.looks_at = drawn.choice(others) if others and drawn.random() < 0.2 else None
        # Some need a package of the registry.
        self.needs_kept, self.requirement = drawn.random() < 0.6, "1"

    def manifest(self, root):
        """Its manifest; `root` is the workspace's table where it lies at the root."""
        head = f'[package]\nname = "{self.name}"\nversion = "0.1.{self.version}"\nedition = "2021"\n'
        if self.is_member and self.folder.startswith("../"):
            head += f'workspace = "{os.path.relpath("ws", os.path.join("ws", self.folder))}"\n'
        asked = [it.line(self) for it in self.asks]
        asked += [f'[dependencies]\n{KEPT} = "{self.requirement}"\n'] if self.needs_kept else []
        far = f'[[test]]\nname = "far"\npath = "{self.from_here(self.far)}/{self.name}/far.rs"\n' if self.far else ""
        return head + (MACRO if self.is_macro else "") + far + tables(asked) + FEATURES + root

    def from_here(self, folder):
        return os.path.relpath(os.path.join("ws", folder), os.path.join("ws", self.folder)) or "."

    def given(self):
        """What it reads outside of its folder, as an option each."""
        shared = {"ws/shared": "shared", "proto": "../proto"}.get(self.reads)
        manifest = os.path.join(self.looks_at.folder, "Cargo.toml") if self.looks_at else None
        return [f"--also={it}={self.name}" for it in (shared, self.borrows, manifest) if it]

    def files(self):
        above = "../" * len(os.path.normpath(os.path.join("ws", self.folder)).split("/"))
        read = self.reads if self.reads in ("data.txt", "Cargo.toml") else f"{above}{self.reads}/text.txt"
        source = f'pub const READ: &str = include_str!("../{read}");\n' if self.reads and not self.is_macro else ""
        if self.borrows and not self.is_macro:
            source += f'pub const BORROWED: &str = include_str!("../{self.from_here(self.borrows)}/text.txt");\n'
        if self.looks_at and not self.is_macro:
            source += f'pub const SEEN: &str = include_str!("../{self.from_here(self.looks_at.folder)}/Cargo.toml");\n'
        found = {"src/lib.rs": f"mod part;\n{source}", "src/part.rs": "", "data.txt": "", "tests/all.rs": "", "notes.md": ""}
        if self.script is not None:
            found["build.rs"] = f'fn main() {{\n    println!("{self.script}");\n}}\n'
        return found


def tables(asked):
    """The tables of dependencies, each section once."""
    sections = {}
    for it in asked:
        head, line = it.split("\n", 1)
        sections[head] = sections.get(head, "") + line
    return "".join(f"{head}\n{lines}" for head, lines in sections.items())


class Workspace:
    """A drawn workspace, in a folder of a repository."""

    def __init__(self, room, seed):
        self.drawn, self.top, self.seed = random.Random(seed), Path(room) / str(seed), seed
        self.root, self.rooted, self.packages, self.profile = self.top / "ws", seed % 2 == 1, [], ""
        # Of these the members that inherit them ask for a feature.
        self.shared_features = set()
        for number in range(SIZE):
            self.packages.append(Package(self.drawn, number, self.packages, self.rooted))
        for number, it in enumerate(self.packages):
            self.draw_links(number, it)
        for it in self.packages:
            for name, text in it.files().items():
                write(self.root / it.folder / name, text)
            for name, text in FAR.items() if it.far else ():
                write(self.root / it.far / it.name / name, text)
            if it.borrows:
                write(self.root / it.borrows / "text.txt", "")
            self.write_manifest(it)
        self.write_table()
        for folder in SHARED:
            write(self.root / folder / "text.txt", "")
        for version in VERSIONS:
            folder = self.top / "registry" / version
            write(folder / "Cargo.toml", f'[package]\nname = "{KEPT}"\nversion = "{version}"\nedition = "2021"\n')
            write(folder / "src/lib.rs", "")
            write(folder / ".cargo-checksum.json", '{"files": {}, "package": "' + "0" * 64 + '"}')
        self.set_up("")
        write(self.root / "README.md", "")
        write(self.top / ".gitignore", "target\n")
        self.git("init", "-q")

    def draw_links(self, number, package):
        """Links lead to lower numbers, but for those of tests, which make cycles."""
        for at, other in enumerate(self.packages):
            if at != number and self.drawn.random() < 2 / SIZE:
                section = self.drawn.choice(["", "", "build-", "dev-"]) if at < number else "dev-"
                if section != "build-" or package.script is not None:
                    package.asks.append(Asked(section, other))
                    package.asks[-1].is_inherited = package.is_member and self.drawn.random() < 0.3

    def table(self):
        members = [it.folder for it in self.packages if it.is_member and it.folder]
        table = f'[workspace]\nresolver = "2"\nmembers = {json.dumps(members)}\nexclude = ["vendor"]\n{self.profile}'
        features = {it: ["f"] if it in self.shared_features else [] for it in self.packages}
        lines = (f'{it.name} = {{ path = "{it.folder or "."}", features = {json.dumps(features[it])} }}\n' for it in self.packages)
        return f"{table}[workspace.dependencies]\n{''.join(lines)}"

    def write_table(self):
        """Writes the workspace's own manifest."""
        write(self.root / "Cargo.toml", self.packages[0].manifest(self.table()) if self.rooted else self.table())

    def set_up(self, settings):
        """Writes cargo's settings."""
        write(self.root / ".cargo/config.toml", SOURCES + settings)

    def write_manifest(self, package):
        root = self.table() if self.rooted and not package.folder else ""
        write(self.root / package.folder / "Cargo.toml", package.manifest(root))

    def git(self, *words):
        subprocess.run(["git", *words], cwd=self.top, check=True, capture_output=True)

    def run(self, *words):
        environment = os.environ | CARGO | {"CARGO_TARGET_DIR": str(self.top / "target")}
        ways = {"cwd": self.root, "env": environment, "capture_output": True, "text": True, "timeout": time_left()}
        ran = subprocess.run(words, check=False, **ways)
        if ran.returncode:
            sys.exit(f"affected: workspace {self.seed}: {words}: {ran.stderr[-3000:]}")
        return ran

    def cargo(self, *words):
        return self.run("cargo", *words).stdout

    def build(self):
        """Builds all tests, and returns the members of which one was built anew."""
        anew = set()
        for line in self.cargo("test", "--no-run", "--workspace", "--message-format", "json").splitlines():
            told = json.loads(line) if line.startswith("{") else {}
            if told.get("reason") == "compiler-artifact" and told["profile"]["test"] and not told["fresh"]:
                anew.add(told["manifest_path"])
        named = {str((self.root / it.folder / "Cargo.toml").resolve()): it.name for it in self.packages}
        return {named[os.path.realpath(it)] for it in anew}

    def files(self):
        """Each file with what it has, from the workspace's root."""
        found = {}
        for folder, folders, names in os.walk(self.top):
            folders[:] = [it for it in folders if it not in ("target", ".git")]
            for name in names:
                path = os.path.join(folder, name)
                found[os.path.relpath(path, self.root)] = Path(path).read_bytes()
        return found

    def change(self, number):
        """Changes a file, and tells which kind of change that is."""
        kind = self.drawn.choice(list(KINDS))
        package = self.drawn.choice(self.packages)
        KINDS[kind](self, package, number)
        return kind

    def tries(self):
        """What was changed in turn, the members of which a test was built anew, those that were told, those that are
        where no folder is given to a package, and those that are since the commit before."""
        self.metadata()
        self.build()
        for number in range(CHANGES):
            self.git("add", "-A")
            self.git(*AUTHOR, "commit", "-q", "--allow-empty", "-m", "x")
            before = self.files()
            kind = self.change(number)
            metadata = self.metadata()
            after = self.files()
            changed = sorted(it for it in before.keys() | after.keys() if before.get(it) != after.get(it))
            paths = [self.told(it) for it in changed]
            known = {it["name"] for it in json.loads(metadata)["packages"]}
            given = [option for it in self.packages if it.name in known for option in it.given()]
            answers = (affected(metadata, words) for words in ([*given, *paths], paths))
            yield kind, paths, self.build(), *answers, self.since(given)

    def since(self, given):
        """The members that the scripts tell."""
        ran = self.run(self.top.parent / "bin/guppy-cargo", "affected", "--since", "HEAD", *given)
        # (cargo says so where another one, beside this, holds its lock)
        told = re.sub(r"^ *Blocking waiting for file lock on .*\n", "", ran.stderr, flags=re.M)
        return set(ran.stdout.split()) if not told else sys.exit(f"affected: workspace {self.seed}: {told}")

    def metadata(self):
        return self.cargo("metadata", "--format-version", "1", "--all-features")

    def told(self, path):
        """The path as git tells it: some folders count as one, as a submodule does."""
        parts = path.split("/")
        if self.drawn.random() < 0.2 and len(parts) > 1:
            folders = ["/".join(parts[:it]) for it in range(1, len(parts)) if parts[it - 1] != ".."]
            return self.drawn.choice(folders or [path])
        return path


def time_left():
    left = END - time.monotonic()
    if left <= 0:
        raise TimeIsUp
    return left


def append(workspace, package, name, text):
    path = workspace.root / package.folder / name
    write(path, (path.read_text() if path.exists() else "") + text)


def change_source(workspace, package, number):
    append(workspace, package, workspace.drawn.choice(["src/lib.rs", "src/part.rs"]), f"// {number}\n")


def change_test(workspace, package, number):
    append(workspace, package, "tests/all.rs", f"// {number}\n")


def change_far_test(workspace, package, number):
    far = [it for it in workspace.packages if it.far and it.is_member]
    if not far:
        return change_test(workspace, package, number)
    it = workspace.drawn.choice(far)
    path = workspace.root / it.far / it.name / workspace.drawn.choice(list(FAR))
    return write(path, f"{path.read_text()}// {number}\n")


def change_lent(workspace, package, number):
    borrowing = [it for it in workspace.packages if it.borrows and it.is_member and not it.is_macro]
    if not borrowing:
        return change_test(workspace, package, number)
    return write(workspace.root / workspace.drawn.choice(borrowing).borrows / "text.txt", f"{number}\n")


def add_test(workspace, package, number):
    append(workspace, package, f"tests/more{number}.rs", "")


def change_data(workspace, package, number):
    append(workspace, package, workspace.drawn.choice(["data.txt", "notes.md"]), f"{number}\n")


def change_script(workspace, package, number):
    append(workspace, package, "src/part.rs" if package.script is None else "build.rs", f"// {number}\n")


def raise_version(workspace, package, number):
    package.version = number + 1
    workspace.write_manifest(package)


def new_ones(package, others):
    """Those of the others of which the package asks nothing."""
    asked = [it.other for it in package.asks]
    return [it for it in others if it is not package and it not in asked]


def ask_for_more(workspace, package, number):
    """By links that lead to lower numbers."""
    others = new_ones(package, workspace.packages[: workspace.packages.index(package)])
    if others:
        section = "build-" if package.script is not None and number % 2 else ""
        package.asks.append(Asked(section, workspace.drawn.choice(others)))
    workspace.write_manifest(package)


def ask_for_tests(workspace, package, number):
    others = new_ones(package, workspace.packages)
    if others:
        package.asks.append(Asked("dev-", workspace.drawn.choice(others)))
    workspace.write_manifest(package)


def asking(workspace, fits):
    """A package, and something that it asks for of which this holds."""
    found = [(package, it) for package in workspace.packages for it in package.asks if fits(it)]
    return workspace.drawn.choice(found) if found else (workspace.packages[0], Asked("", workspace.packages[-1]))


def ask_for_less(workspace, package, number):
    package, asked = asking(workspace, lambda it: True)
    package.asks = [it for it in package.asks if it is not asked]
    workspace.write_manifest(package)


def ask_for_feature(workspace, package, number):
    package, asked = asking(workspace, lambda it: it.platform is None)
    asked.has_feature ^= True
    workspace.write_manifest(package)


def ask_for_defaults(workspace, package, number):
    package, asked = asking(workspace, lambda it: not it.is_inherited)
    asked.has_defaults ^= True
    workspace.write_manifest(package)


def ask_optionally(workspace, package, number):
    package, asked = asking(workspace, lambda it: it.section == "")
    asked.is_optional ^= True
    workspace.write_manifest(package)


def ask_on_a_platform(workspace, package, number):
    """Of members, which are built for this one anyway: where no platform is named, what another one has counts for all."""
    package, asked = asking(workspace, lambda it: it.may_be_apart())
    asked.platform = None if asked.platform == "windows" else "windows"
    workspace.write_manifest(package)


def ask_for_shared(workspace, package, number):
    _, asked = asking(workspace, lambda it: it.is_inherited)
    workspace.shared_features ^= {asked.other}
    workspace.write_table()


def require(workspace, package, number):
    needing = [it for it in workspace.packages if it.needs_kept] or [package]
    it = workspace.drawn.choice(needing)
    it.requirement = "1.0" if it.requirement == "1" else "1"
    workspace.write_manifest(it)


def change_shared(workspace, package, number):
    write(workspace.root / workspace.drawn.choice(SHARED) / "text.txt", f"{number}\n")


def change_outside(workspace, package, number):
    write(workspace.root / workspace.drawn.choice(["README.md", "../README.md"]), f"{number}\n")


def change_settings(workspace, package, number):
    workspace.set_up(f'[build]\nrustflags = ["--cfg", "x{number}"]\n')


def change_profile(workspace, package, number):
    workspace.profile = f"[profile.dev]\nopt-level = {number % 2 + 1}\n"
    workspace.write_table()


def update(workspace, package, number):
    lock = workspace.root / "Cargo.lock"
    text = lock.read_text()
    version = re.search(f'name = "{KEPT}"\nversion = "([0-9.]*)"', text)
    if not version:
        return change_outside(workspace, package, number)
    # By itself, cargo takes no other version from a folder.
    other = VERSIONS[version[1] == VERSIONS[0]]
    return write(lock, text.replace(version[0], version[0].replace(version[1], other)))


UNREAD, LENT = "a file that nobody reads", "what some include of another package"
# By the paths alone these may be missed: the other package is built anew, and nothing in its folder changed.
FEATURE, DEFAULTS, LESS = "a feature that is asked for", "default features that are asked for", "a dependency less"
OPTIONAL, PLATFORM = "a dependency that gets optional", "a dependency for one platform"
FEATURES_OF_OTHERS = {FEATURE, DEFAULTS, LESS, OPTIONAL, PLATFORM, "a new dependency", "a new dev-dependency"}
REQUIRED = "a version that is asked for"
# What shows in the metadata.
SHOWN = {"a version", "a version in Cargo.lock", "features that members inherit", REQUIRED, *FEATURES_OF_OTHERS} - {PLATFORM}
KINDS = {
    "a source": change_source,
    "a test": change_test,
    "a test in another folder": change_far_test,
    "a new test": add_test,
    "a file beside": change_data,
    "a build script": change_script,
    "a version": raise_version,
    "a new dependency": ask_for_more,
    "a new dev-dependency": ask_for_tests,
    LESS: ask_for_less,
    "what some include": change_shared,
    LENT: change_lent,
    UNREAD: change_outside,
    "settings": change_settings,
    "a profile": change_profile,
    FEATURE: ask_for_feature,
    DEFAULTS: ask_for_defaults,
    OPTIONAL: ask_optionally,
    PLATFORM: ask_on_a_platform,
    "features that members inherit": ask_for_shared,
    REQUIRED: require,
    "a version in Cargo.lock": update,
}


def affected(metadata, words):
    """The members that the program tells."""
    ways = {"input": metadata, "capture_output": True, "text": True, "timeout": time_left()}
    # A file that has no path says that nothing may have changed.
    ran = subprocess.run([PROGRAM, "affected", "--paths-from", os.devnull, *words], check=False, **ways)
    if ran.returncode or ran.stderr:
        sys.exit(f"affected: {words}: status {ran.returncode}, {ran.stderr}")
    return set(ran.stdout.split())


def install(room):
    """Puts the scripts there as `install` does, with the program."""
    room = Path(room)
    for folder in ("bin", "libexec/guppy"):
        (room / folder).mkdir(parents=True)
    for it in SHELL.glob("*.sh"):
        shutil.copy(it, room / "libexec/guppy")
    shutil.copy(SHELL / "cargo-guppy", room / "bin/guppy-cargo")
    (room / "libexec/guppy/guppy-cargo").symlink_to(os.path.abspath(PROGRAM))


def tries_of(room, seed):
    """What was tried in a workspace until the end."""
    tried = []
    try:
        time_left()
        workspace = Workspace(room, seed)
        for it in workspace.tries():
            tried.append(it)
        shutil.rmtree(workspace.top)
    except (TimeIsUp, subprocess.TimeoutExpired):
        pass
    return seed, tried


def main():
    if not os.access(PROGRAM, os.X_OK):
        return f"affected: {PROGRAM} is not there"
    passed = failed = whole = gained = 0
    counts = {it: [0, 0, 0] for it in KINDS}
    beyond, shown = [0, 0], [0, 0]
    with tempfile.TemporaryDirectory(ignore_cleanup_errors=True) as room, ThreadPoolExecutor(4) as workers:
        install(room)
        for seed, tried in workers.map(lambda it: tries_of(room, it), range(FIRST, FIRST + DRAWN)):
            whole += len(tried) == CHANGES
            for kind, paths, built, answer, without, since in tried:
                # What is told with no folder given to a package is told anyway.
                missed = (without if kind in FEATURES_OF_OTHERS else built | without) - answer | built - since
                gained += kind == LENT and len((built & answer) - without)
                passed, failed = passed + (not missed), failed + bool(missed)
                for at, told in enumerate((built, answer, since)):
                    counts[kind][at] += len(told)
                for counted in (beyond, shown) if kind in SHOWN else (beyond,):
                    counted[:] = [counted[0] + len(answer - built), counted[1] + len(since - built)]
                if missed:
                    told = f"{sorted(answer)} told, with the state before {sorted(since)}"
                    print(f"affected: workspace {seed}: FAILED: {kind}, {paths}: {sorted(missed)} missed, {told}")
    in_time = whole == DRAWN
    if not in_time:
        print(f"affected: the time was up: {whole} of {DRAWN} workspaces were tried whole")
    for kind, (anew, told, since) in counts.items():
        print(f"affected: {kind}: cargo built tests of {anew} members anew; {told} are told, with the state before {since}")
        if not anew and kind not in (UNREAD, REQUIRED) and in_time:
            print(f"affected: {kind}: FAILED: cargo built no test anew, so nothing was judged")
            failed += 1
    print(f"affected: {LENT}: {gained} of them are told for --also alone")
    if not gained and in_time:
        print("affected: --also: FAILED: cargo built no test anew that --also alone tells, so it was not judged")
        failed += 1
    anew, told, since = (sum(it[at] for it in counts.values()) for at in (0, 1, 2))
    print(f"affected: together: cargo built tests of {anew} members anew; {told} are told, {beyond[0]} of them beyond")
    print(f"affected: with the state before {since} are told, {beyond[1]} of them beyond")
    print(f"affected: where the metadata show the change, {shown[0]} are beyond, and with the state before {shown[1]}")
    if (shown[1] * 3 > shown[0] * 2 or beyond[1] * 2 > since) and in_time:
        print("affected: FAILED: that is more than two thirds, or what is beyond is more than half of all that is told")
        failed += 1
    print(f"{passed} passed, {failed} failed")
    return failed > 0


if __name__ == "__main__":
    sys.exit(main())

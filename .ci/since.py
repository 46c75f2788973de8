"""Tries `guppy-cargo affected --since REVISION` on repositories that are made and changed here, beside what their files
themselves say.
"""

import os
import subprocess
from pathlib import Path

from metadata import HOOK, piped, with_open_pipe

# Who commits, and settings with which git shows less than it could.
SETTINGS = {
    "user.name": "x",
    "user.email": "x@x",
    "diff.relative": "true",
    "diff.renames": "copies",
    "diff.ignoreSubmodules": "all",
    "status.showUntrackedFiles": "no",
}
# Names that a list must neither split nor change.
ODD = [b"a b", b" x ", b"it's", b'"q"', b"new\nline", b"\n", b"end\n", b"\\n", b"$HOME", b"*", b"--since", b"-x", b"{}"]
ODD += ["rööm".encode(), "日本".encode(), b"\xff $HOME", bytes(it for it in range(1, 256) if it != ord("/"))]


# Where in its repository the workspace lies.
FOLDERS = {"at the top": "", "below": "a workspace", "in an odd folder": "it's [a], wörk*.\\&$/new\nline"}


class Changing:
    """A repository with a workspace at its top, or in a folder of it, and beside that the package `out`.

    Member `b` depends on `a`, and all members depend on `out`.
    """

    def __init__(self, top, folder=""):
        self.top, self.root = Path(top), Path(top) / folder
        self.top.mkdir()
        self.git("init", "-q")
        for name, value in SETTINGS.items():
            self.git("config", name, value)
        self.out = self.root.parent / "out" if folder else self.root / "out"
        for name, others in {"a": [self.out], "b": [self.out, self.root / "a"], "c": [self.out]}.items():
            write_package(self.root / name, others)
        write_package(self.out, [])
        write(self.root / "Cargo.toml", '[workspace]\nmembers = ["a", "b", "c"]\nexclude = ["out"]\nresolver = "2"\n')
        write(self.top / ".gitignore", "*.ignored\nCargo.lock\n")
        self.commit()

    def git(self, *words, where=None):
        ran = subprocess.run(["git", *words], cwd=where or self.top, capture_output=True, check=True)
        return ran.stdout

    def commit(self):
        """Commits all; what changes from now on has changed since HEAD."""
        self.git("add", "-A")
        self.git("commit", "-q", "-m", "x", "--allow-empty")
        self.before = files_of(os.fsencode(self.top))

    def changed(self):
        """The paths of all files that aren't what they were, from the workspace's root."""
        now = files_of(os.fsencode(self.top))
        names = {it for it in self.before.keys() | now.keys() if self.before.get(it) != now.get(it)}
        names = {it for it in names if not it.endswith((b".ignored", b"Cargo.lock"))}
        return {os.path.relpath(os.path.join(os.fsencode(self.top), it), os.fsencode(self.root)) for it in names}


def write(path, text):
    path.parent.mkdir(parents=True, exist_ok=True)
    path.write_text(text)


def write_package(folder, others):
    """A package that depends on those in the other folders."""
    write(folder / "src/lib.rs", "")
    write(folder / "moved", f"{folder.name}\n" * 9)
    head = f'[package]\nname = "{folder.name}"\nversion = "0.1.0"\nedition = "2021"\n[dependencies]\n'
    write(folder / "Cargo.toml", head + "".join(f'{it.name}.path = "{os.path.relpath(it, folder)}"\n' for it in others))


def files_of(top, folder=b""):
    """Each file below the folder with what it is; a repository inside counts as one."""
    found = {}
    for it in os.scandir(os.path.join(top, folder)):
        name = os.path.join(folder, it.name)
        if it.name == b".git":
            continue
        if it.is_symlink():
            found[name] = os.readlink(it.path)
        elif it.is_dir():
            inside = files_of(top, name)
            found |= {name: inside} if os.path.exists(os.path.join(it.path, b".git")) else inside
        else:
            found[name] = it.stat().st_mode, Path(os.fsdecode(it.path)).read_bytes()
    return found


# Each changes files, and tells what it did.


def rename(changing):
    changing.git("mv", changing.root / "a/moved", changing.root / "c/moved to")
    return "a rename from one member to another"


def delete(changing):
    changing.git("rm", "-q", changing.root / "b/moved")
    (changing.root / "c/moved").unlink()
    return "deletions"


def add(changing):
    for name in ("a/untracked", "a/x.ignored", "b/staged", "b/intended", "c/ä"):
        write(changing.root / name, name)
    changing.git("add", changing.root / "b/staged")
    changing.git("add", "-N", changing.root / "b/intended")
    return "new files"


def change(changing):
    write(changing.out / "src/lib.rs", "// changed")
    write(changing.top / "README", "")
    (changing.root / "b/src/lib.rs").chmod(0o755)
    (changing.root / "b/link").symlink_to("no such file")
    return "outside of the workspace, a mode, a link"


def name_oddly(changing):
    changing.commit()
    for name in ODD:
        for folder in (changing.root / "a", changing.root / "b/src", changing.out, changing.top):
            Path(os.fsdecode(os.fsencode(folder) + b"/" + name)).write_text("odd")
    return "odd names"


def track(changing):
    changing.git("add", "-A")
    return "odd names of tracked files"


def nest(changing):
    write(changing.root / "c/inner/x", "")
    changing.git("init", "-q", where=changing.root / "c/inner")
    return "a repository inside"


def change_nested(changing):
    inner = changing.root / "c/inner"
    changing.git("add", "-A", where=inner)
    changing.git("-c", "user.name=x", "-c", "user.email=x", "commit", "-q", "-m", "x", where=inner)
    changing.commit()
    write(inner / "x", "changed")
    return "a change in a submodule"


CHANGES = [rename, delete, add, change, name_oddly, track, nest, change_nested]


def noted(world, changing, words=("--since", "HEAD"), others=(), **how):
    """Whether a program in the place of guppy-cargo is given the paths that changed, and these others, each once."""
    program, note = world.room / "noting/guppy_cargo_main/out/guppy_cargo_main", world.room / "note"
    write(program, "#!/bin/sh\nprintf '%s\\0' \"$@\" > \"$NOTE\"\nwc -c\n")
    program.chmod(0o755)
    note.write_bytes(b"")
    how = {"where": changing.root} | how
    environment = {"NOTE": str(note), "BUILT": str(world.room / "noting"), "LANG": "C.UTF-8"}
    how["environment"] = environment | how.get("environment", {})
    ran = world.run(["guppy-cargo", "affected", *words], **how)
    # An untracked repository is given with a slash at its end.
    told = [it.removesuffix(b"/") for it in note.read_bytes().split(b"\0")][:-1]
    got = paths_of(told[1:])
    changed = [b"./" + it if it.startswith(b"-") else it for it in changing.changed()]
    wanted = sorted([*changed, *others])
    is_right = ran[0] == 0 and told[:1] == [b"affected"] and sorted(got) == wanted
    return is_right, (ran, [it for it in got if it not in wanted], [it for it in wanted if it not in got])


def paths_of(words):
    """The paths among words, beside which stand an empty file that may have more, the state before, where it is known,
    and the resolver."""
    paths, is_value = [], False
    for it in words:
        is_option = it in (b"--paths-from", b"--before")
        if not (is_option or is_value or it.startswith(b"--resolver=")):
            paths.append(it)
        is_value = is_option
    return paths


def metadata_file(changing):
    """What cargo says of the workspace, beside its repository."""
    path = changing.top.parent / "metadata.json"
    with path.open("wb") as file:
        how = {"stdout": file, "stderr": subprocess.DEVNULL, "check": True}
        subprocess.run(["cargo", "metadata", "--format-version", "1"], cwd=changing.root, **how)
    return path


# Each yields what was tried, whether it went as it should, and what came.


def try_since(world):
    for place, folder in FOLDERS.items():
        changing = Changing(world.room / place, folder)
        yield f"{place}: nothing", *noted(world, changing)
        for change in (it(changing) for it in CHANGES):
            yield f"{place}: {change}", *noted(world, changing)
        changing.git("tag", "before")
        write(changing.root / "c/src/lib.rs", "// committed")
        changing.git("commit", "-q", "-a", "-m", "x")
        yield f"{place}: committed since", *noted(world, changing, ["--since=before"])
        yield f"{place}: and other paths", *noted(world, changing, ["--since", "before", "x y", "*"], [b"x y", b"*"])
        metadata = metadata_file(changing)
        with metadata.open("rb") as given:
            ran = noted(world, changing, ["--since=before", "--metadata", "-"], given=given)
        size = metadata.stat().st_size
        yield f"{place}: of the metadata on standard input", ran[0] and ran[1][0][1] == f"{size}\n", (ran, size)
        ran = noted(world, changing, ["--metadata", str(metadata), "x", "--since", "before"], [b"x"])
        yield f"{place}: of those in a file", ran[0] and ran[1][0][1] == f"{size}\n", (ran, size)
        manifest = ["--manifest-path", str(changing.root / "b/Cargo.toml"), "--since=before"]
        yield f"{place}: from elsewhere", *noted(world, changing, manifest, where=world.room)
        link = world.room / f"{place}, linked"
        link.symlink_to(changing.root)
        for where in (changing.root / "b/src", link):
            # As in a hook of another repository.
            hooked = {"PWD": str(where), "GIT_DIR": "/no such folder", "GIT_INDEX_FILE": "/no such file"}
            ran = noted(world, changing, ["--since", "before"], where=where, environment=hooked)
            yield f"{place}: from {where.name}", *ran


def try_since_answers(world):
    changing = Changing(world.room / "repository", "a workspace")
    root = changing.root
    for what, change, wanted in (
        ("nothing", lambda: None, ""),
        ("a rename from a to c", lambda: changing.git("mv", root / "a/moved", root / "c/moved to"), "abc"),
        ("a deletion in c", (root / "c/moved").unlink, "c"),
        ("an untracked file in b", lambda: write(root / "b/src/é\n'", ""), "b"),
        ("an ignored file in a", lambda: write(root / "a/x.ignored", ""), ""),
        ("a file in a", lambda: write(root / "a/src/lib.rs", "// changed"), "ab"),
        ("a package outside", lambda: write(changing.out / "src/lib.rs", "// changed"), "abc"),
    ):
        change()
        words = ["guppy-cargo", "affected", "--since", "HEAD"]
        for place, ran in (
            ("from its root", world.run(words, where=root)),
            ("from a folder", world.run(words, where=root / "b/src")),
            ("in a hook", with_open_pipe(world, words, HOOK, where=root)),
            ("with no standard input", piped(world, '"$@" <&-', words, where=root)),
        ):
            yield f"{what}, {place}", ran[0] == 0 and sorted(ran[1].split()) == list(wanted), ran
        changing.commit()


def try_since_locked(world):
    """A version is raised in one manifest, and cargo writes another Cargo.lock when it is asked for the metadata."""
    changing = Changing(world.room / "repository", "a workspace")
    write(changing.top / ".gitignore", "")
    metadata_file(changing)
    changing.commit()
    manifest = changing.root / "c/Cargo.toml"
    write(manifest, manifest.read_text().replace("0.1.0", "0.2.0"))
    for turn in ("first", "again"):
        ran = world.run(["guppy-cargo", "affected", "--since", "HEAD"], where=changing.root)
        # Nobody needs c, and nothing else in Cargo.lock changed.
        is_known = "isn't known" not in ran[2]
        yield f"a version is raised, asked {turn}", ran[:2] == (0, "c\n") and is_known, ran
    manifest.write_text(manifest.read_text().replace("0.2.0", "0.1.0"))
    lock = changing.root / "Cargo.lock"
    lock.write_text(lock.read_text().replace('name = "c"\nversion = "0.1.0"', 'name = "c"\nversion = "0.3.0"'))
    changing.commit()
    ran = world.run(["guppy-cargo", "affected", "--since", "HEAD"], where=changing.root)
    told = "guppy-cargo: what cargo built at HEAD isn't known, so each change of a Cargo.lock affects all members: "
    is_told = told in ran[2] and "--locked" in ran[2]
    yield "where Cargo.lock doesn't fit", ran[0] == 0 and sorted(ran[1].split()) == ["a", "b", "c"] and is_told, ran


def try_since_states(world):
    """What cargo builds in another way is told, and what it doesn't isn't."""
    changing = Changing(world.room / "repository", "a workspace")
    root, manifest = changing.root, changing.root / "Cargo.toml"
    write(changing.top / ".gitignore", "")
    metadata_file(changing)
    changing.commit()
    table = manifest.read_text()
    shared = '[workspace.dependencies]\nout.path = "../out"\n'
    features = "[features]\nf = []\n"

    def added(path, text):
        return lambda: write(path, path.read_text() + text)

    for what, change, wanted in (
        ("tables of dependencies", added(manifest, shared), ""),
        ("features", added(root / "c/Cargo.toml", features), "c"),
        ("more features", added(root / "a/Cargo.toml", features), "ab"),
        ("a feature of a that b asks for", lambda: ask_for_feature(root), "ab"),
        ("a profile", added(manifest, "[profile.dev]\nopt-level = 1\n"), "abc"),
        ("a dependency of c on b", lambda: write_package(root / "c", [changing.out, root / "b"]), "c"),
        ("nothing", lambda: None, ""),
        ("all of the root's manifest", lambda: write(manifest, table), "abc"),
        ("the resolver", lambda: write(manifest, table.replace("2", "1")), "abc"),
        ("the lock alone", lambda: write(root / "Cargo.lock", (root / "Cargo.lock").read_text() + "\n"), ""),
    ):
        change()
        ran = world.run(["guppy-cargo", "affected", "--since", "HEAD"], where=root)
        is_known = "isn't known" not in ran[2]
        yield what, ran[0] == 0 and is_known and sorted(ran[1].split()) == list(wanted), ran
        yield f"{what}: what is left behind", world.left() == [], world.left()
        changing.commit()


# What a manifest says, then something else, and whether the metadata show all that this changes.
RESTS = [
    ("# x = 1", '\n[dependencies]\n# x', True),
    ('[dependencies]\nx = "1"', '[dependencies]\nx = { version = "2", features = ["a"] } # it\'s', True),
    ('[dependencies]\nx.path = "x"', '[dev-dependencies]\nx.workspace = true\n[build-dependencies]\ny = "1"', True),
    ('[dependencies.x]\npath = "x"', '[dependencies.x]\npath = "x"\nfeatures = [\n  "a",\n]\ndefault-features = false', True),
    ('[workspace.dependencies]\nx = "1"', '[workspace.dependencies.x]\nversion = "1"', True),
    ('[patch.crates-io]\nx.path = "x"', '[patch."https://a.b/c"]\nx = { path = "x" }', True),
    ('[dependencies]\nx = { path = "x", optional = true }', '[dependencies]\nx = { path = "x", optional = true }\ny = "1"', True),
    ('[dependencies]\ny = "1"\n[target.x.dependencies]\nx = "1"', '[target.x.dependencies]\nx = "1"', True),
    ('[dependencies]\nx.path = "x"', '[dependencies]\nx = { path = "x", optional = true }', False),
    ('[dependencies]\nx.path = "x"', '[dependencies]\nx.path = "x"\nx.optional = true', False),
    ('[dependencies]\nx.path = "x"', '[dependencies]\nx = { path = "x", "public" = true }', False),
    ('[dependencies]\nx.path = "x"', '[dependencies]\nx = {\n  path = "x",\n  other = true,\n}', False),
    ('[dependencies]\nx.path = "x"', '[dependencies]\nx = { path = "x", package = "x" }', False),
    ('[dependencies.x]\noptional = true\n[dependencies.y]\npath = "y"', '[dependencies.x]\n[dependencies.y]\noptional = true', False),
    ('[target."cfg(unix)".dependencies]\nx = "1"', '[target."cfg(windows)".dependencies]\nx = "1"', False),
    ('[dependencies]\nx = "1"\n[target.x.dependencies]\nx = "1"', '[target.x.dependencies]\nx = "1"', False),
    ('[dependencies.x]\npath = "x"\n[target.x.dependencies."x"] # dependencies\n', '[target.x.dependencies."x"] # dependencies\n', False),
    ('[dependencies]\nx = "1"\n[target.x]\ndependencies.x = "1"', '[target.x]\ndependencies.x = "1"', False),
    ('["target".x.dependencies]\nx = "1"\n[dependencies]\nx = "1"', '["target".x.dependencies]\nx = "1"', False),
    ('[dependencies]\nx = "1"\n[lib]\ntest = true', '[dependencies]\nx = "1"\n[lib]\ntest = false', False),
    ('[features]\nf = []', '[features]\nf = ["x/f"]', False),
    ('dependencies.x = "1"', 'dependencies.x = "2"', False),
    ('[package]\ndescription = """\n[dependencies]\nx"""', '[package]\ndescription = """\n[dependencies]\ny"""', False),
]


def try_manifests(world):
    def rest(text):
        write(world.room / "Cargo.toml", f"{text}\n")
        ran = world.run(["sh", "-c", '. "$0" && print_rest Cargo.toml', world.top / "scripts/manifests.sh"], where=world.room)
        return ran if ran[0] == 0 and ran[2] == "" else (ran, text)

    for before, now, is_shown in RESTS:
        rests = rest(before), rest(now)
        yield f"{before} is changed to {now}", (rests[0] == rests[1]) == is_shown, rests


def edit(path, old, new):
    text = path.read_text()
    assert old in text, (path, old)
    write(path, text.replace(old, new))


def try_since_manifests(world):
    """A manifest counts by what it changed where the metadata show all of that, or else as a path of its package's."""
    changing = Changing(world.room / "repository", "a workspace")
    root, manifest = changing.root, changing.root / "a/Cargo.toml"
    write(changing.top / ".gitignore", "")
    out, versioned = 'out.path = "../../out"', 'out = { path = "../../out", version = "0.1" }'
    for name in "ab":
        edit(root / name / "Cargo.toml", "[dep", "[features]\nf = []\n[dep")
    metadata_file(changing)
    shared = '\n[workspace.dependencies]\nout.path = "../out"\n'
    test_of = 'const _: &str = include_str!("../Cargo.toml");\n'
    # Nothing is changed where it is asked again with other words.
    for what, change, words, wanted in (
        ("a version that is asked for", lambda: edit(manifest, out, versioned), [], ""),
        ("with fewer kinds", None, ["--kinds", "normal"], "ab"),
        ("with named features", None, ["--features", "f"], "ab"),
        ("with other folders given", None, ["--also", "b=b", "--also=out=b", "--also", "no/such=c"], ""),
        ("with its folder given", None, ["--also", "b/../a=c"], "abc"),
        ("with itself given", None, [f"--also={manifest}=c"], "abc"),
        ("what gets optional", lambda: edit(manifest, '"0.1"', '"0.1", optional = true'), [], "ab"),
        ("a description", lambda: edit(manifest, "[feat", 'description = "x"\n[feat'), [], "ab"),
        ("a feature that says more", lambda: edit(manifest, "f = []", 'f = ["out"]'), [], "ab"),
        ("a package outside", lambda: edit(changing.out / "Cargo.toml", "[dep", "[lib]\n[dep"), [], "abc"),
        ("only its dependencies", lambda: edit(changing.out / "Cargo.toml", "[dependencies]", "# more\n[build-dependencies]"), [], ""),
        ("a manifest of no package", lambda: write(root / "c/data/Cargo.toml", "[dependencies]\n"), [], "c"),
        ("its dependencies", lambda: write(root / "c/data/Cargo.toml", '[dependencies]\nx = "1"\n'), [], "c"),
        ("a build script", lambda: write(root / "c/build.rs", "fn main() {}\n"), [], "c"),
        ("what that may look at", lambda: edit(root / "c/Cargo.toml", out, versioned), [], "c"),
        ("a comment that names manifests", lambda: write(root / "b/src/lib.rs", "//! See Cargo.toml.\n"), [], "b"),
        ("one of these", lambda: edit(root / "b/Cargo.toml", out, versioned), [], ""),
        ("a source that names it", lambda: write(root / "b/tests/all.rs", test_of), [], "b"),
        ("what that looks at", lambda: edit(root / "b/Cargo.toml", versioned, out), [], "b"),
        ("what members share", lambda: edit(root / "Cargo.toml", '"2"\n', f'"2"\n{shared}'), [], "b"),
        ("which they share", None, ["--also", "Cargo.toml=c"], "abc"),
    ):
        if change:
            changing.commit()
            change()
        ran = world.run(["guppy-cargo", "affected", "--since", "HEAD", *words], where=root)
        is_right = ran[0] == 0 and "isn't known" not in ran[2] and sorted(ran[1].split()) == list(wanted)
        yield what, is_right, ran
        yield f"{what}: what is left behind", world.left() == [], world.left()


def ask_for_feature(root):
    """Package b asks for a feature of a."""
    manifest = root / "b/Cargo.toml"
    write(manifest, manifest.read_text().replace('a.path = "../a"', 'a = { path = "../a", features = ["f"] }'))


def try_since_refused(world):
    changing = Changing(world.room / "repository", "a workspace")
    home = changing.root

    def refused(status, told, *words, where=home, **how):
        ran = world.run(["guppy-cargo", "affected", *words], where=where, **how)
        is_told = ran[2].endswith("\n") and told in ran[2].splitlines()[-1] and world.left() == []
        return f"{words} in {where.name}", ran[:2] == (status, "") and is_told, ran

    for word in ("nosuch", "HEAD~1", "HEAD..HEAD", "^HEAD", "HEAD^{tree}", "x y", "HEAD:a"):
        yield refused(5, f"git does not say what changed since {word}", "--since", word)
    since = ["--since", "HEAD"]
    for words in (["--since"], ["--since="], ["--since", "-x"], ["--since=--all"]):
        yield refused(2, "--since needs a value", *words)
    yield refused(2, "--since is given twice", *since, "x", *since)
    ran = world.run(["guppy-cargo", "order", *since], where=home)
    told = "guppy-cargo: --since goes with affected, as in: guppy-cargo affected --since main\n"
    yield "order", ran == (2, "", told), ran
    metadata = str(world.top / "examples/metadata.json")
    yield refused(3, "metadata.json has no metadata of the workspace in", *since, "--metadata", metadata)
    with open(metadata, "rb") as given:
        yield refused(3, "standard input has no metadata of the workspace in", *since, "--metadata", "-", given=given)
    # Whose path begins the other one's first line.
    inner, odd = Changing(world.room / "a"), Changing(world.room / "a\nb")
    with metadata_file(inner).open("rb") as given:
        yield refused(3, "without --metadata cargo is asked", *since, "--metadata=-", where=odd.root, given=given)
    yield refused(3, "by --manifest-path PATH", *since, where=world.room)
    write(changing.top / ".gitignore", "*.ignored\nCargo.lock\nnone\n")
    (inner.top / ".git").rename(world.room / "taken away")
    tried, is_right, ran = refused(5, "git does not say what changed", *since, where=inner.root)
    yield tried, is_right and "fatal: not a git repository" in ran[2], ran
    inner.top.rename(changing.top / "none")
    yield refused(5, "git does not say what changed", *since, where=changing.top / "none")
    for number in range(2000):
        write(home / "a" / f"{number:0200}", "")
    shell = ["sh", "-c", 'ulimit -s 1024 && exec "$@"', "sh", world.top / "guppy-cargo", "affected", *since]
    ran = world.run(shell, where=home)
    yield "too many paths", ran[:2] == (5, "") and ran[2].endswith("can be given: test all members\n"), ran
    (world.bin / "git").unlink()
    yield refused(5, "git is not on the path", *since)
    (world.bin / "cargo").unlink()
    yield refused(3, "cargo is not on the path", *since)

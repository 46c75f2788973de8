"""Tries where guppy-cargo takes metadata from: what it asks cargo, what it is given, and when it reads standard input."""

import json
import os
import signal
import subprocess
import time

MANIFEST = '[package]\nname = "{}"\nversion = "0.1.0"\nedition = "2021"\n'
# In the order of their names `a` comes before `b`, which it may need, and `d` behind `c`. In no order of unrelated members
# by their names both pairs are right.
MEMBERS = {
    "a": '[dependencies]\nb = { path = "../b", optional = true }\n[features]\nextra = ["dep:b"]\n',
    "b": "",
    "c": '[target."cfg(windows)".dependencies]\ne.path = "../e"\n',
    "d": '[dependencies]\nc = { path = "../c", optional = true }\n[features]\ndefault = ["more"]\nmore = []\nextra = ["c"]\n',
    "e": "",
}
# Members that declare others to which cargo resolves nothing: `b` and `h` have no library, and `c`, `g` and `k` are
# switched on by no feature. The link from `j` is dev-only then, as is the one back, which counts for nothing. In no
# order by names are all pairs right.
DECLARED = {
    "a": ('[dependencies]\nz = { path = "../b/../b", version = "0.1.0", package = "b" }\n[build-dependencies]\nd = { path = "../d", version = "0.1.0" }\n', "lib.rs"),
    "b": ("", "main.rs"),
    "c": ("", "lib.rs"),
    "d": ('[dependencies]\nc = { path = "../c/", version = "0.1.0", optional = true }\n', "lib.rs"),
    "e": ('[target."cfg(windows)".dependencies]\ng = { path = "../g", version = "0.1.0", optional = true }\n', "lib.rs"),
    "g": ("", "lib.rs"),
    "h": ("", "main.rs"),
    "i": ('[dependencies]\nh = { path = "../h", version = "0.1.0" }\n', "lib.rs"),
    "j": ('[dependencies]\nk = { path = "../k", version = "0.1.0", optional = true }\n[dev-dependencies]\nk = { path = "../k" }\n', "lib.rs"),
    "k": ('[dev-dependencies]\nj = { path = "../j" }\n', "lib.rs"),
}
NEEDED = ["ab", "ad", "dc", "eg", "ih", "jk"]
ALL = ["--all-features"]
# Words for the script, and what cargo is to be asked of them.
PASSED_ON = [
    ("order", []),
    ("affected x", ALL),
    ("publish-order", ALL),
    ("--locked publish-order", [*ALL, "--locked"]),
    ("order --locked --offline", ["--locked", "--offline"]),
    ("--frozen order", ["--frozen"]),
    ("order --features a/extra", ["--features=a/extra"]),
    ("order --features=a/extra,d/extra", ["--features=a/extra,d/extra"]),
    ("publish-order -F a/extra -F d/extra", ["--features=a/extra", "--features=d/extra"]),
    ("-Fa/extra order", ["--features=a/extra"]),
    ("-F=a/extra order", ["--features=a/extra"]),
    ("publish-order --no-default-features", ["--no-default-features"]),
    ("order --all-features", ALL),
    ("affected --all-features x --no-default-features", [*ALL, "--no-default-features"]),
    ("affected --ignore y --filter-platform x86_64-pc-windows-msvc x", [*ALL, "--filter-platform=x86_64-pc-windows-msvc"]),
    ("order --filter-platform=x86_64-pc-windows-msvc", ["--filter-platform=x86_64-pc-windows-msvc"]),
    ("order --manifest-path a/Cargo.toml", ["--manifest-path=a/Cargo.toml"]),
    ("--manifest-path=a/Cargo.toml order", ["--manifest-path=a/Cargo.toml"]),
]
# Words that are wrong, and what is told of them in one line; the others are told by the program.
WRONG = [
    ("order --metadata", "--metadata needs a value"),
    ("order --metadata=", "--metadata needs a value"),
    ("--metadata --locked order", "--metadata needs a value"),
    ("order --manifest-path", "--manifest-path needs a value"),
    ("order --features --locked", "--features needs a value"),
    ("order -F", "-F needs a value"),
    ("--filter-platform", "--filter-platform needs a value"),
    ("order --metadata x --metadata=y", "--metadata is given twice"),
    ("order --metadata x --locked", "--metadata can't be used with --locked"),
    ("--features=x order --metadata=x", "--metadata can't be used with --features"),
    ("--manifest-path x --metadata - order", "--metadata can't be used with --manifest-path"),
    ("order --platform", "--platform needs a value"),
    ("order --platform= --ids", "--platform needs a value"),
    ("order --platform --cfgs x", "--platform needs a value"),
    ("order --platform x --cfgs", "--cfgs needs a value"),
    ("order --cfgs x", "--cfgs goes behind --platform TRIPLE"),
    ("--platform x --ids --cfgs x order", "--cfgs goes behind --platform TRIPLE"),
    ("order --platform x --cfgs no/such", "no/such: the cfgs in it can't be read"),
    ("order --host", "--host needs a value"),
    ("order --host= --ids", "--host needs a value"),
    ("order --host-cfgs x", "give both --host TRIPLE and --host-cfgs FILE"),
    ("order --host x --host y --host-cfgs z", "--host is given twice"),
    ("order --host-cfgs no/such --host x", "no/such: the cfgs in it can't be read"),
    ("order --host x --host-cfgs - --metadata -", "standard input can't be read for --host-cfgs and --metadata"),
    ("order --platform x --cfgs - --metadata -", "standard input can't be read for --cfgs and --metadata"),
    ("affected --paths-from", "--paths-from needs a value"),
    ("affected --paths-from - --metadata -", "standard input can't be read for --paths-from and --metadata"),
    ("affected --paths-from no/such", "no/such: the paths in it can't be read"),
    ("order --metadata no/such", "no metadata can be read: no/such: "),
    ("order --metadata .", "no metadata can be read: .: "),
    ("", "give a command: guppy-cargo help lists them"),
    ("--locked", "give a command: guppy-cargo help lists them"),
    ("no-such --offline", "no-such is no command: guppy-cargo help lists them"),
    ("order --unknown", "--unknown is no option: guppy-cargo help lists them"),
    ("order --kind dev", "--kind is no option: the nearest is --kinds"),
    ("no-such --metadata no/such", "no-such is no command: guppy-cargo help lists them"),
    ("affected --ignore=x", "affected needs a path, --paths-from FILE or, of the scripts, --since REVISION"),
    ("affected --paths-from=no/such", "no/such: the paths in it can't be read"),
    ("order --kinds=dev --kinds=dev", "--kinds is given twice"),
    (" ".join(["order", *["--platform=x86_64-unknown-linux-gnu"] * 7]), "six platforms at most"),
]
# Members of which some need others on some platforms alone.
APART = {
    "b": "",
    "m": '[target."cfg(windows)".dependencies]\nb.path = "../b"\n[dev-dependencies]\nb.path = "../b"\n',
    "n": '[dependencies]\nm.path = "../m"\n',
}
# Members of which some run on the host: what `s` is built with, the macro `p`, and what these need there. They need `i` on
# another platform than those that are tried.
HOSTED = {
    "d": "",
    "e": "",
    "f": '[target."cfg(unix)".dependencies]\nd.path = "../d"\n[target."cfg(unix)".dev-dependencies]\ng.path = "../g"\n',
    "g": "",
    "h": "",
    "i": "",
    "p": '[lib]\nproc-macro = true\n[target."cfg(unix)".dependencies]\ne.path = "../e"\n[target.\'cfg(target_os = "macos")\'.dependencies]\ni.path = "../i"\n[dev-dependencies]\nf.path = "../f"\n',
    "s": '[target."cfg(unix)".build-dependencies]\nf.path = "../f"\n[target."cfg(windows)".build-dependencies]\nh.path = "../h"\n',
    "u": '[dependencies]\np.path = "../p"\n',
    "w": '[target."cfg(unix)".dependencies]\ng.path = "../g"\n',
}
# What is told on Windows beyond what cargo builds there: `f` needs these for its own tests, or where it is built for the
# target, on unix alone, and the target is asked about what `s` is built with, too.
BEYOND = {("d", "f"), ("g", "f"), ("h", "s")}
HOOK = b"0000 1111 refs/heads/main\n"


def make(top, members=MEMBERS):
    """A workspace of these members, with the file that locks it."""
    for name, text in members.items():
        (top / name / "src").mkdir(parents=True)
        (top / name / "src/lib.rs").touch()
        (top / name / "Cargo.toml").write_text(MANIFEST.format(name) + text)
    (top / "Cargo.toml").write_text(f'[workspace]\nmembers = {json.dumps(list(members))}\nresolver = "2"\n')
    subprocess.run(["cargo", "generate-lockfile", "--offline"], cwd=top, capture_output=True, check=True)


def metadata_of(top, *words):
    """What cargo says of a workspace."""
    command = ["cargo", "metadata", "--format-version", "1", *words]
    return subprocess.run(command, cwd=top, capture_output=True, check=True).stdout


def script(path, text):
    path.write_text(f"#!/bin/sh\n{text}")
    path.chmod(0o755)
    return str(path)


def lines(ran):
    return ran[1].split() if (ran[0], ran[2]) == (0, "") else ran


def is_told(ran, status, told, before=0):
    """Whether nothing was answered, and what is told stands in the last line, behind so many others."""
    errors = ran[2].splitlines()
    return ran[:2] == (status, "") and len(errors) == before + 1 and told in errors[-1]


# Each yields what was tried, whether it went as it should, and what came.


def try_asked(world):
    """What cargo is asked, and what follows for the answer."""
    top = world.room / "a workspace"
    make(top)
    world.build()
    note = world.room / "note"
    cargo = script(world.room / "noting", f'printf "%s\\n" "$@" > "{note}"\nexec cargo "$@"\n')
    for words, wanted in PASSED_ON:
        ran = world.run(["guppy-cargo", *words.split()], where=top, environment={"CARGO": cargo})
        asked = note.read_text().splitlines()
        is_right = asked[:3] == ["metadata", "--format-version", "1"] and sorted(asked[3:]) == sorted(wanted)
        yield f"{words}, what cargo is asked", is_right and ran[0] == 0, (ran, asked)
    for words in ("no-such", "order --unknown", "--locked", "order --help", "--locked --version"):
        note.unlink(missing_ok=True)
        ran = world.run(["guppy-cargo", *words.split()], where=top, environment={"CARGO": cargo})
        is_judged = ran[0] == (0 if "--help" in words or "version" in words else 2)
        yield f"{words}, for which cargo isn't asked", is_judged and not note.exists(), ran

    def ask(*words, where=top):
        return lines(world.run(["guppy-cargo", *words], where=where))

    (world.room / "on").write_text("windows\n")
    order, without = ask("publish-order"), ask("publish-order", "--no-default-features")
    for words, got in (("all features", order), ("no features", without)):
        is_right = sorted(got) == list("abcde") and all(got.index(a) < got.index(b) for a, b in ("ba", "cd", "ec"))
        yield f"the order to publish in, with {words}", is_right, got
    for words, wanted in (
        ("affected b/src/lib.rs", "ab"),
        ("affected b/src/lib.rs --no-default-features", "b"),
        ("affected b/src/lib.rs --features a/extra", "ab"),
        ("affected c/x -Fd/more", "c"),
        ("affected e/x", "cde"),
        ("affected e/x --filter-platform x86_64-unknown-linux-gnu", "e"),
        ("affected e/x --platform x86_64-unknown-linux-gnu", "e"),
        ("affected --platform=x86_64-pc-windows-gnu e/x", "cde"),
        (f"affected --platform x --cfgs={world.room / 'on'} e/x --platform=x86_64-unknown-linux-gnu", "cde"),
        ("affected e/x --platform x86_64-unknown-linux-gnu --kinds normal --platform x86_64-pc-windows-msvc", "cde"),
        ("reach forward a", "a"),
        ("reach forward a --all-features", "ab"),
        ("--features=a/extra reach reverse b", "ab"),
    ):
        got = ask(*words.split())
        yield words, sorted(map(str, got)) == list(wanted), got
    places = (world.room, top / "Cargo.toml"), (world.room, "a workspace/d/Cargo.toml"), (top / "b", "../Cargo.toml")
    for where, path in places:
        for words in (["--manifest-path", path, "affected", "b/x"], ["affected", "b/x", f"--manifest-path={path}"]):
            got = ask(*words, where=where)
            yield f"{words} in {where.name}", sorted(got) == ["a", "b"], got
    (top / "Cargo.lock").unlink()
    ran = world.run(["guppy-cargo", "order", "--locked"], where=top)
    is_right = ran[:2] == (3, "") and "--locked" in ran[2] and "cargo gives no metadata" in ran[2].splitlines()[-1]
    yield "cargo heeds --locked", is_right and not (top / "Cargo.lock").exists(), ran
    yield "no file is left", not world.left(), world.left()


def try_declared(world):
    """The order counts what members declare of each other, beside the order in which cargo itself packages them."""
    top = world.room / "declared"
    for name, (manifest, source) in DECLARED.items():
        folder = top / name
        (folder / "src").mkdir(parents=True)
        about = MANIFEST.format(name) + 'description = "-"\nlicense = "MIT"\n'
        (folder / "Cargo.toml").write_text(about + manifest)
        (folder / "src" / source).write_text("fn main() {}\n" if source == "main.rs" else "")
    (top / "a" / "build.rs").write_text("fn main() {}\n")
    (top / "Cargo.toml").write_text(f'[workspace]\nresolver = "2"\nmembers = {sorted(DECLARED)}\n')
    world.build()
    words = ["cargo", "package", "--workspace", "--no-verify", "--allow-dirty", "--offline"]
    told = subprocess.run(words, cwd=top, capture_output=True, text=True).stderr
    cargos = [line.split()[1] for line in told.splitlines() if line.strip().startswith("Packaging ")]
    for features in ([], ["--no-default-features"], ["--all-features"]):
        ran = world.run(["guppy-cargo", "publish-order", *features], where=top)
        # (cargo warns of members without a library)
        order = ran[1].split() if ran[0] == 0 else []
        is_whole = sorted(order) == sorted(cargos) == sorted(DECLARED)
        wrong = [(a, b) for a, b in NEEDED if not is_whole or order.index(b) > order.index(a) or cargos.index(b) > cargos.index(a)]
        yield f"what is declared comes first, with {features}", not wrong, (ran, cargos, wrong)


def try_publishable(world):
    """A member that needs one with `publish = false` is told, beside what cargo packages: of the others alone it finds none."""
    top = world.room / "publishable"
    make(top, {"a": "", "b": "publish = false\n", "c": ""})
    about, others = MANIFEST.format("a") + 'description = "-"\nlicense = "MIT"\n', ["-p", "a", "-p", "c"]
    world.build()
    for section, rest, is_hindered in (
        ("dependencies", ', version = "0.1.0"', True),
        ("dependencies", ', version = "0.1.0", optional = true', True),
        ("build-dependencies", ', version = "0.1.0"', True),
        ('target."cfg(windows)".dependencies', ', version = "0.1.0"', True),
        ("dev-dependencies", "", False),
    ):
        (top / "a/Cargo.toml").write_text(f'{about}[{section}]\nb = {{ path = "../b"{rest} }}\n')
        (top / "a/build.rs").write_text("fn main() {}\n")
        words = ["cargo", "package", "--no-verify", "--allow-dirty", "--offline", *others]
        cargos = subprocess.run(words, cwd=top, capture_output=True, text=True)
        has_failed = cargos.returncode != 0 and "no matching package named `b` found" in cargos.stderr
        wanted = "error: a can't be published: it needs b, which isn't publishable\n"
        for features in ([], ["--no-default-features"]):
            ran = world.run(["guppy-cargo", "publish-order", "--publishable", *features], where=top)
            is_right = ran == (1, "", wanted) if is_hindered else (ran[0], sorted(ran[1].split())) == (0, ["a", "c"])
            yield f"{section}{rest}, {features}", is_right and has_failed == is_hindered, (ran, cargos.stderr)


def try_flags(world):
    """What is set by the flags that cargo gives rustc, of its settings or of the environment, beside what cargo tree follows."""
    top, host = world.room / "a workspace", "x86_64-unknown-linux-gnu"
    make(top)
    world.build()
    needs = '[target."cfg({})".dependencies]\nb.path = "../b"\n'
    (top / ".cargo").mkdir()
    for cfg, settings, flags in (
        ("mine", '[build]\nrustflags = ["--cfg", "mine"]\n', ""),
        ("mine", f'[target.{host}]\nrustflags = ["--cfg", "mine"]\n', ""),
        ("mine", '[target."cfg(unix)"]\nrustflags = ["--cfg", "other"]\n', ""),
        ("mine", "", "--cfg mine"),
        ("mine", "", ""),
        ('panic = \\"unwind\\"', "", "-C panic=abort"),
        ('panic = \\"unwind\\"', "", ""),
    ):
        (top / "a/Cargo.toml").write_text(MANIFEST.format("a") + needs.format(cfg))
        (top / ".cargo/config.toml").write_text(settings)
        how = {"where": top, "environment": {"RUSTFLAGS": flags} if flags else {}}
        tree = lines(world.run(["cargo", "tree", "-p", "a", "--target", host, "--prefix", "none", "--format", "{p}"], **how))
        followed = sorted(it for it in tree if it in MEMBERS)
        reached = lines(world.run(["guppy-cargo", "reach", "forward", "a", "--platform", host], **how))
        yield f"{cfg}, {settings!r}, {flags!r}", reached == followed, (reached, tree)
    yield "no file of flags is left", not world.left(), world.left()


def try_built_for(world):
    """For which platforms packages are told to be built where none is named, beside what cargo builds by its settings."""
    top, host = world.room / "a workspace", "x86_64-unknown-linux-gnu"
    make(top)
    world.build()
    (top / ".cargo").mkdir()
    for settings, named in (
        ("", ""),
        ('[build]\ntarget = "x86_64-pc-windows-msvc"\n', ""),
        ('[build]\ntarget = ["x86_64-pc-windows-msvc", "host-tuple"]\n', ""),
        ("", "wasm32-unknown-unknown"),
    ):
        (top / ".cargo/config.toml").write_text(settings)
        environment = {"CARGO_BUILD_TARGET": named} if named else {}
        ran = world.run(["cargo", "build", "--unit-graph", "-Z", "unstable-options"], where=top, environment=environment | {"RUSTC_BOOTSTRAP": "1"})
        graph = json.loads(ran[1])
        wanted = {graph["units"][it]["platform"] or host for it in graph["roots"]}
        told = world.run(["guppy-cargo", "built"], where=top, environment=environment)[1].splitlines()
        yield f"{settings!r}, {named!r}", {it.split()[1] for it in told} == wanted, (told, wanted)
    yield "no file of platforms is left", not world.left(), world.left()


def tested_with(top, member, triple):
    """The packages that cargo builds for the platform, or to build for it, where it tests the member."""
    command = ["cargo", "test", "-p", member, "--target", triple, "--unit-graph", "-Z", "unstable-options"]
    how = {"cwd": top, "capture_output": True, "check": True, "env": os.environ | {"RUSTC_BOOTSTRAP": "1"}}
    units = json.loads(subprocess.run(command, **how).stdout)["units"]
    return {unit["pkg_id"].split("#")[0].rsplit("/", 1)[1] for unit in units}


def try_platforms(world):
    """Which members a change affects on a platform, and why, beside what cargo builds there."""
    top = world.room / "a workspace"
    make(top, APART)
    world.build()
    for triple in ("x86_64-unknown-linux-gnu", "x86_64-pc-windows-msvc"):
        built = {it: tested_with(top, it, triple) for it in APART}
        for member in APART:
            got = lines(world.run(["guppy-cargo", "affected", f"{member}/src/lib.rs", "--platform", triple], where=top))
            yield f"affected {member} on {triple}", sorted(got) == [it for it in sorted(APART) if member in built[it]], (got, built)
        kinds = "dev" if "linux" in triple else "normal dev"
        for words, wanted in (("why m b", f"m\nb {kinds}\n"), ("reach forward n --kinds normal", "m\nn\n"), ("verify", "ok\n")):
            wanted = wanted if kinds == "dev" else wanted.replace("m\nn\n", "b\nm\nn\n")
            ran = world.run(["guppy-cargo", *words.split(), "--platform", triple], where=top)
            yield f"{words} on {triple}", ran == (0, wanted, ""), ran
    yield "no file is left", not world.left(), world.left()


def try_host(world):
    """Which members a change affects through what runs on the host, beside what cargo builds to test them."""
    top = world.room / "a workspace"
    make(top, HOSTED)
    (top / "s/build.rs").write_text("fn main() {}\n")
    world.build()
    linux, windows = "x86_64-unknown-linux-gnu", "x86_64-pc-windows-msvc"
    for triple in (linux, windows):
        built = {it: tested_with(top, it, triple) for it in HOSTED}
        for member in HOSTED:
            got = lines(world.run(["guppy-cargo", "affected", f"{member}/src/lib.rs", "--platform", triple], where=top))
            beyond = BEYOND if triple == windows else ()
            wanted = [it for it in sorted(HOSTED) if member in built[it] or (member, it) in beyond]
            yield f"affected {member} on {triple}", sorted(got) == wanted, (got, built)
    for triple in (linux, windows):
        with (world.room / triple).open("w") as held:
            subprocess.run(["rustc", "--print", "cfg", "--target", triple], stdout=held, check=True)
    on_linux = ["--platform", linux, "--cfgs", str(world.room / linux)]
    with_windows = ["--host-cfgs", str(world.room / windows)]
    for member, words, wanted in (
        # Nothing is known of the host where rustc isn't asked.
        ("h", on_linux, "hs"),
        ("i", on_linux, "ipu"),
        ("h", [*on_linux, "--host", linux, f"--host-cfgs={world.room / linux}"], "h"),
        ("i", [*on_linux, "--host", linux, f"--host-cfgs={world.room / linux}"], "i"),
        ("h", [*on_linux, "--host", windows, *with_windows], "hs"),
        ("i", [*with_windows, f"--host={windows}", *on_linux], "i"),
        # Rustc is asked about the host that is named.
        ("h", [*on_linux, "--host", windows], "hs"),
        ("h", [*on_linux, f"--host={linux}"], "h"),
        ("h", ["--host", windows, "--platform", linux], "hs"),
        ("h", ["--host", windows, *with_windows, "--platform", linux], "hs"),
        # Where no platform is named, all counts.
        ("h", ["--host", linux], "hs"),
    ):
        got = lines(world.run(["guppy-cargo", "affected", f"{member}/src/lib.rs", *words], where=top))
        yield f"affected {member} {words}", sorted(got) == list(wanted), got
    yield "no file of the host is left", not world.left(), world.left()


def try_given(world):
    """Metadata from a file and from standard input, and standard input that counts for nothing."""
    top = world.room / "a workspace"
    make(top)
    file = world.room / "it's metadata.json"
    file.write_bytes(metadata_of(top, "--all-features"))
    (world.room / "-x").write_bytes(file.read_bytes())
    words = ["guppy-cargo", "affected", "b/src/lib.rs"]
    for way in ("unproved", "proved"):
        if way == "proved":
            world.build()
        for given in ([str(file)], ["it's metadata.json"], ["./-x"], ["=-x"], [f"={file}"]):
            option = [f"--metadata{given[0]}"] if given[0][0] == "=" else ["--metadata", *given]
            for asked in ([*option, *words[1:]], [*words[1:], *option]):
                ran = world.run(["guppy-cargo", *asked], where=world.room)
                yield f"{way}: {asked}", ran[:2] == (0, "b\na\n"), ran
        for option in (["--metadata", "-"], ["--metadata=-"], ["--metadata", "/dev/stdin"]):
            asked = [words[0], *option, *words[1:]]
            with file.open("rb") as given:
                ran = world.run(asked, where=world.room, given=given)
            yield f"{way}: {asked}", ran[:2] == (0, "b\na\n"), ran
        ran = piped(world, f'cat "{file}" | "$@" --metadata -', words)
        yield f"{way}: a pipe", ran[:2] == (0, "b\na\n"), ran
        ran = piped(world, f'cat "{file}" | "$@" --metadata /dev/fd/3 3<&0 < /dev/null', words)
        yield f"{way}: a pipe with a number", ran[:2] == (0, "b\na\n"), ran
        ran = piped(world, 'printf "b/src/lib.rs\\0" | "$@" --paths-from /dev/fd/3 3<&0 < /dev/null', words[:2], where=top)
        yield f"{way}: paths from a pipe", ran[:2] == (0, "b\na\n"), ran
        for option in ("--paths-from -", "--paths-from /dev/stdin", "--paths-from=-"):
            ran = piped(world, f'printf "b/src/lib.rs\\0" | "$@" {option}', words[:2], where=top)
            yield f"{way}: {option}", ran[:2] == (0, "b\na\n"), ran
        asked = ["guppy-cargo", "reach", "reverse", "e", "--platform", "x"]
        for cfg, wanted in (("unix", "e\n"), ("windows", "c\ne\n")):
            ran = piped(world, f'echo {cfg} | "$@" --cfgs -', asked, where=top)
            yield f"{way}: {cfg} from standard input", ran[:2] == (0, wanted), ran
        for asked in (words, ["guppy-cargo", "--help"], ["guppy-cargo", "no-such"]):
            status = 2 if asked[1] == "no-such" else 0
            with_pipe = with_open_pipe(world, asked, where=top)
            yield f"{way}: {asked} with an open pipe", with_pipe[0] == status and is_fine(asked, with_pipe), with_pipe
            with_hook = with_open_pipe(world, asked, HOOK, where=top)
            yield f"{way}: {asked} in a hook", with_hook == with_pipe, with_hook
            closed = piped(world, '"$@" <&-', asked, where=top)
            yield f"{way}: {asked} with no standard input", closed == with_pipe, closed
    ran = piped(world, '"$@" --metadata - <&-', words)
    yield "an interrupt while it reads", *ended_while_reading(world, words)
    yield "metadata from none", is_told(ran, 2, "no metadata can be read: -: "), ran
    yield "no file is left", not world.left(), world.left()


def ended_while_reading(world, words):
    """Whether an interrupt ends a run that waits for metadata, with no file left."""
    reading, writing = os.pipe()
    with world.start([*words, "--metadata", "-"], given=reading, start_new_session=True) as started:
        while not world.left() and started.poll() is None:
            time.sleep(0.1)
        os.killpg(started.pid, signal.SIGINT)
    os.close(reading)
    os.close(writing)
    return started.returncode == 130 and not world.left(), (started.returncode, world.left())


def is_fine(words, ran):
    return ran[1] == "b\na\n" if words[1] == "affected" else bool(ran[1]) == (words[1] == "--help")


def piped(world, text, words, where=None):
    """What a shell makes of the text, in which the words are a script of the clone and its own."""
    return world.run(["sh", "-c", text, "sh", world.top / words[0], *words[1:]], where=where or world.room)


def with_open_pipe(world, words, text=b"", **how):
    """A run whose standard input has this text and never ends."""
    reading, writing = os.pipe()
    try:
        os.write(writing, text)
        return world.run(words, given=reading, **how)
    finally:
        os.close(reading)
        os.close(writing)


def try_metadata_refused(world):
    """What is wrong, and what to do next."""
    top = world.room / "a workspace"
    make(top)
    world.build()
    for words, told in WRONG:
        ran = world.run(["guppy-cargo", *words.split()], where=top)
        yield words, is_told(ran, 3 if "at most" in told else 2, told), ran
    bare = world.room / "bare"
    bare.write_bytes(metadata_of(top, "--no-deps"))
    ran = world.run(["guppy-cargo", "order", "--metadata", str(bare)], where=top)
    is_hinted = "--no-deps" in ran[2].splitlines()[0] and ran[2].endswith("error: resolve: no dependencies are resolved\n")
    yield "no dependencies", ran[:2] == (1, "") and is_hinted and ran[2].count("\n") == 2, ran
    for words in (["order"], ["affected", "--since", "HEAD"]):
        ran = world.run(["guppy-cargo", *words], where=world.room)
        yield f"{words} with no workspace", is_told(ran, 3, "--manifest-path PATH", 1) and "Cargo.toml" in ran[2], ran
        ran = world.run(["guppy-cargo", *words, "--manifest-path", "no/such"], where=world.room)
        yield f"{words} with a wrong path", ran[:2] == (3, "") and "says above why" in ran[2].splitlines()[-1], ran
        old = script(world.room / "old", 'echo "error: unexpected argument" >&2; exit 1\n')
        ran = world.run(["guppy-cargo", *words, "--manifest-path=a/Cargo.toml"], where=top, environment={"CARGO": old})
        yield f"{words} with an old cargo", is_told(ran, 3, "says above why", 1) and "unexpected" in ran[2], ran
    words = ["guppy-cargo", "order", "--platform", "x"]
    ran = world.run(words, where=top, environment={"RUSTC": "/no/such", "CARGO": "/no/such"})
    yield "no rustc", is_told(ran, 3, "rustc is not on the path: put it there, or give what it prints for x"), ran
    ran = world.run(words, where=top, environment={"CARGO": "/no/such"})
    is_right = ran[:2] == (3, "") and "rustc does not say what is set for the platform x" in ran[2].splitlines()[-1]
    yield "an unknown platform", is_right and "error" in ran[2], ran
    ran = world.run(["guppy-cargo", "order"], where=top, environment={"CARGO": "/no/such"})
    yield "no cargo", is_told(ran, 3, "cargo is not on the path: put it there, or give metadata by --metadata FILE"), ran
    yield "no file is left", not world.left(), world.left()

"""Draws workspaces in which packages ask each other for features, and questions on them; and reads those of a text."""

import json
import os
import re

from workspaces import HERE, write, write_package

# A dependency's platforms, most of the time none.
PLATFORMS = [""] * 5 + [
    "target.'cfg(unix)'.", "target.'cfg(windows)'.", "target.'cfg(not(target_os = \"linux\"))'.",
    "target.'cfg(target_arch = \"wasm32\")'.", "target.x86_64-unknown-linux-gnu.", "target.x86_64-pc-windows-msvc.",
]
# The sections in which one package asks for another one.
SECTIONS = [[""], [""], [""], ["build-"], ["build-"], ["dev-"], ["", "build-"], ["", "dev-"], ["build-", "dev-"]]
LINUX, WINDOWS, MAC, WASM = (
    "x86_64-unknown-linux-gnu", "x86_64-pc-windows-msvc", "aarch64-apple-darwin", "wasm32-unknown-unknown",
)
# What is built for; nothing is what cargo builds for if it isn't told.
BUILT_FOR = [[], [], [LINUX], [WINDOWS], [MAC], [WASM], [LINUX, WINDOWS], [WASM, MAC]]


class Asked:
    """A dependency as it is declared."""

    def __init__(self, section, platform, key, to, is_optional):
        self.section, self.platform, self.key, self.to, self.is_optional = section, platform, key, to, is_optional
        self.features, self.has_default = [], True

    def toml(self, package):
        told = {"path": os.path.relpath(self.to.folder, package.folder)}
        if self.key != self.to.name:
            told["package"] = self.to.name
        if self.features:
            told["features"] = self.features
        flags = [("optional", "true")] * self.is_optional + [("default-features", "false")] * (not self.has_default)
        lines = [f"{key} = {json.dumps(value)}" for key, value in told.items()] + [f"{key} = {value}" for key, value in flags]
        return f"[{self.platform}{self.section}dependencies.{self.key}]\n" + "".join(f"{it}\n" for it in lines)


class Package:
    """A drawn package; what it asks for and its features come later."""

    def __init__(self, drawn, number, rooted, names_dev):
        self.number, self.version, self.names_dev = number, f"0.{number}.0", names_dev
        self.is_member = number == 0 or drawn.random() < 0.65
        is_twin = not self.is_member and drawn.random() < 0.3
        self.name = "twin" if is_twin else f"p{number}"
        inside = "." if rooted and number == 0 else f"p{number}"
        self.folder = inside if self.is_member else f"outside/p{number}"
        self.is_macro = drawn.random() < 0.2
        self.has_library = self.is_macro or drawn.random() < 0.93
        self.has_binary = not self.has_library or (not self.is_macro and drawn.random() < 0.25)
        self.has_script = drawn.random() < 0.45
        self.has_test, self.has_example = drawn.random() < 0.3, drawn.random() < 0.2
        self.asks, self.features, self.required, self.flags = [], {}, {}, []

    def key_of(self, drawn):
        """What another package calls this one in its manifest."""
        return f"d{self.number}" if self.name == "twin" or drawn.random() < 0.25 else self.name

    def all_features(self):
        """Its features with those that optional dependencies are."""
        hidden = {it.removeprefix("dep:") for values in self.features.values() for it in values if it.startswith("dep:")}
        implied = [it.key for it in self.asks if it.is_optional and it.key not in hidden and it.key not in self.features]
        return [*self.features, *dict.fromkeys(implied)]

    def files(self):
        found = {"src/lib.rs": self.has_library, "src/main.rs": self.has_binary, "build.rs": self.has_script}
        found |= {"tests/t.rs": self.has_test, "examples/e.rs": self.has_example}
        return [file for file, is_there in found.items() if is_there]

    def manifest(self):
        text = "[features]\n" + "".join(f"{name} = {json.dumps(values)}\n" for name, values in self.features.items())
        lib = ["proc-macro = true"] * self.is_macro + self.flags * self.has_library
        text += "[lib]\n" + "".join(f"{it}\n" for it in lib) if lib else ""
        places = {"bin": ("b", "src/main.rs"), "test": ("t", "tests/t.rs"), "example": ("e", "examples/e.rs")}
        for kind, required in self.required.items():
            name, path = places[kind]
            text += f'[[{kind}]]\nname = "{name}{self.number}"\npath = "{path}"\nrequired-features = {json.dumps(required)}\n'
        return text + "".join(it.toml(self) for it in self.asks)


def draw_asks(drawn, package, others):
    """Dependencies of the package: on higher numbers, and for tests on any."""
    size = len(others)
    for other in others:
        is_above = other.number > package.number
        if drawn.random() > (2.2 if is_above else 0.5) / size or (other is package and drawn.random() < 0.7):
            continue
        if not other.has_library and drawn.random() < 0.7:
            continue
        key = other.key_of(drawn)
        for section in drawn.choice(SECTIONS) if is_above else ["dev-"]:
            platforms = {drawn.choice(PLATFORMS) for _ in range(2 if drawn.random() < 0.2 else 1)}
            for platform in sorted(platforms):
                is_optional = section != "dev-" and drawn.random() < 0.4
                package.asks.append(Asked(section, platform, key, other, is_optional))


def draw_details(drawn, package, sections):
    """What dependencies in these sections ask for."""
    for it in package.asks:
        if it.section in sections:
            known = it.to.all_features()
            it.features = sorted(drawn.sample(known, min(len(known), drawn.choice([0, 0, 1, 2]))))
            it.has_default = drawn.random() < 0.6


def draw_features(drawn, package):
    """Features of the package, of which those that it needs must have been drawn."""
    named = {it.key: it for it in package.asks if it.section != "dev-"}
    if package.names_dev:
        named |= {it.key: it for it in package.asks if it.key not in named and it.to.number > package.number}
    optional = list(dict.fromkeys(it.key for it in package.asks if it.is_optional))
    names = [f"f{it}" for it in range(drawn.choice([0, 1, 2, 3]))] + ["default"] * (drawn.random() < 0.6)
    styles = {it: drawn.choice(["implied", "hidden", "hidden", "named"] if names else ["implied", "named"]) for it in optional}
    names += [it for it, style in styles.items() if style == "named"]
    implied = [it for it, style in styles.items() if style == "implied"]
    values = [f"dep:{it}" for it, style in styles.items() if style != "implied"]
    for key, it in named.items():
        of_it = it.to.all_features()
        values += [f"{key}{mark}/{of}" for of in drawn.sample(of_it, min(2, len(of_it))) for mark in
                   (["", "?"] if key in optional else [""])]
    for name in names:
        given = [it for it in [*names, *implied, *values, *values] if it != name and drawn.random() < 0.25]
        package.features[name] = list(dict.fromkeys(given))
    for key, style in styles.items():
        if style == "named" or (style == "hidden" and not any(f"dep:{key}" in it for it in package.features.values())):
            place = package.features[key if style == "named" else drawn.choice(names)]
            place += [f"dep:{key}"] * (f"dep:{key}" not in place)


def draw_required(drawn, package):
    """Features that targets of the package require."""
    own = package.all_features()
    asked = [f"{it.key}/{of}" for it in package.asks for of in it.to.all_features()]
    for kind, is_there in {"bin": package.has_binary, "test": package.has_test, "example": package.has_example}.items():
        if is_there and drawn.random() < 0.6:
            known = own + asked
            package.required[kind] = drawn.sample(known, min(len(known), drawn.choice([0, 1, 1, 2])))
    package.flags = [it for it in ("test = false", "doctest = false") if drawn.random() < 0.15]


class Workspace:
    """A drawn workspace."""

    def __init__(self, drawn):
        self.is_rooted, self.resolver = drawn.random() < 0.4, drawn.choice([1, 2, 2, 3])
        size, names_dev = drawn.choice([4, 5, 6, 7, 8]), drawn.random() < 0.08
        self.packages = [Package(drawn, it, self.is_rooted, names_dev) for it in range(size)]
        for package in reversed(self.packages):
            draw_asks(drawn, package, self.packages)
            draw_details(drawn, package, ["", "build-"])
            draw_features(drawn, package)
        for package in self.packages:
            draw_details(drawn, package, ["dev-"])
            draw_required(drawn, package)
        self.members = [it for it in self.packages if it.is_member]
        self.default = drawn.sample(self.members, drawn.randint(1, len(self.members))) if drawn.random() < 0.3 else []

    def table(self):
        folders = [it.folder for it in self.members if it.folder != "."]
        told = {"members": folders, "exclude": ["outside"], "resolver": str(self.resolver)}
        if self.default:
            told["default-members"] = [it.folder for it in self.default]
        return "[workspace]\n" + "".join(f"{key} = {json.dumps(value)}\n" for key, value in told.items())

    def write(self, room):
        for it in self.packages:
            manifest = it.manifest() + (self.table() if it.folder == "." else "")
            write_package(room, it.folder, it.name, it.version, it.files(), manifest)
        if not self.is_rooted:
            write(room, "Cargo.toml", self.table())

    def question(self, drawn):
        """Words for cargo, the first its command, with the platforms that are built for."""
        words, chosen = [drawn.choice(["build", "test"])], self.members
        way = drawn.random()
        if way < 0.6:
            chosen = drawn.sample(self.members, drawn.randint(1, min(3, len(self.members))))
            words += [word for it in chosen for word in ("-p", it.name)]
        elif way < 0.8:
            words.append("--workspace")
        words += ["--all-features"] * (drawn.random() < 0.1) + ["--no-default-features"] * (drawn.random() < 0.3)
        known = [of for it in chosen for of in it.all_features()]
        known += [f"{it.name}/{of}" for it in chosen for of in it.all_features()]
        if drawn.random() < 0.4:
            known += [f"{asked.key}/{of}" for it in chosen for asked in it.asks for of in asked.to.all_features()]
        given = drawn.sample(known, min(len(known), drawn.choice([0, 0, 1, 2, 3])))
        return words + (["--features", ",".join(sorted(set(given)))] if given else []), drawn.choice(BUILT_FOR)


# Debian's crates that drawn members ask for, those that are installed.
REGISTRY = "/usr/share/cargo/registry"
CRATES = """ahash camino either env_logger hashbrown indexmap libc log memchr once_cell proc-macro2 quote rand rayon regex
semver serde serde_derive serde_json smallvec syn""".split()
SOURCE = f'[source.crates-io]\nreplace-with = "debian"\n[source.debian]\ndirectory = "{REGISTRY}"\n'


def installed():
    """The names and versions of these crates that are there."""
    found = [re.fullmatch(r"(.+?)-(\d+\.\d+\.\d+.*)", it) for it in (os.listdir(REGISTRY) if os.path.isdir(REGISTRY) else [])]
    return sorted(it.groups() for it in found if it and it[1] in CRATES)


def write_alone(room, name, version):
    """A package that needs this crate alone."""
    write(room, ".cargo/config.toml", SOURCE)
    write_package(room, ".", "alone", "0.1.0", ["src/lib.rs"], f'[dependencies]\n{name} = "={version}"\n[workspace]\n')


def crate_table(drawn, crate, features):
    """The table that asks for the crate, and the values of a feature that name it."""
    section, platform = drawn.choice(["", "", "build-", "dev-"]), drawn.choice(PLATFORMS)
    is_optional = section != "dev-" and drawn.random() < 0.4
    asked = drawn.sample(features, min(len(features), drawn.choice([0, 0, 1, 2])))
    lines = ['version = "*"', f"features = {json.dumps(asked)}"]
    lines += ["optional = true"] * is_optional + ["default-features = false"] * (drawn.random() < 0.4)
    mark = drawn.choice(["", "?"]) if is_optional else ""
    values = [f"{crate}{mark}/{it}" for it in drawn.sample(features, min(2, len(features)))] + [f"dep:{crate}"] * is_optional
    return "\n".join([f"[{platform}{section}dependencies.{crate}]", *lines, ""]), values if section != "dev-" else []


class OverCrates:
    """A drawn workspace whose members ask for crates, of which the features are known."""

    def __init__(self, drawn, known):
        self.resolver, self.names = drawn.choice([1, 2, 3]), [f"m{it}" for it in range(3)]
        self.manifests = {}
        for number, name in enumerate(self.names):
            tables = [
                f'[{drawn.choice(["", "build-", "dev-"])}dependencies.{it}]\npath = "../{it}"\n'
                for it in self.names[:number] if drawn.random() < 0.5
            ]
            values = []
            for crate in drawn.sample(sorted(known), min(len(known), drawn.randint(1, 4))):
                table, named = crate_table(drawn, crate, known[crate])
                tables.append(table)
                values += named
            more = drawn.choice([[], ["f"]])
            self.manifests[name] = f"[features]\nf = {json.dumps(values)}\ndefault = {json.dumps(more)}\n" + "".join(tables)

    def write(self, room):
        for name, manifest in self.manifests.items():
            write_package(room, name, name, "0.1.0", ["src/lib.rs", "build.rs"], manifest)
        write(room, "Cargo.toml", f'[workspace]\nmembers = {self.names}\nresolver = "{self.resolver}"\n')
        write(room, ".cargo/config.toml", SOURCE)

    def question(self, drawn):
        words = [drawn.choice(["build", "test"])]
        chosen = drawn.sample(self.names, drawn.randint(1, 3))
        words += [word for it in chosen for word in ("-p", it)]
        words += drawn.choice([[], [], ["--no-default-features"], ["--all-features"]])
        words += ["--features", f"{chosen[0]}/f"] if drawn.random() < 0.4 else []
        return words, drawn.choice(BUILT_FOR)


class Written:
    """A workspace of the text."""

    def __init__(self, text):
        head, *packages = text.split("\n== ")
        (self.resolver, _, self.rule), *asked = [it.partition(" ") for it in head.splitlines()]
        self.packages = [it.partition("\n") for it in packages]
        self.questions = []
        for _, _, question in asked:
            triples, _, words = question.partition(":")
            self.questions.append((words.split(), triples.split()))

    def write(self, room):
        folders = [head.split(" ")[0] for head, _, _ in self.packages]
        members = [it for it in folders if it != "." and not it.startswith("outside/")]
        table = f'[workspace]\nresolver = "{self.resolver}"\nmembers = {members}\nexclude = ["outside"]\n'
        for head, _, manifest in self.packages:
            folder, name, *files = head.split(" ")
            write_package(room, folder, name, "0.1.0", files, manifest + "\n" + (table if folder == "." else ""))
        if "." not in folders:
            write(room, "Cargo.toml", table)


def written():
    with open(os.path.join(HERE, "features.txt"), encoding="utf-8") as text:
        return [Written(it) for it in text.read().split("\n=== ")[1:]]

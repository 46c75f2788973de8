#!/usr/bin/env python3
"""What Cargo builds and with which features, by its definition as facts and clauses: a stand-in for the program that
`.ci/features.py` judges, to try the judge itself. It reads the JSON of `cargo metadata --all-features` and takes the
same arguments, and prints the same lines.

A fact says something of a package, most of them on a side: `host` is that of build scripts, procedural macros and what
these need, `target` that of all else. With resolver 1 there is only `target`, but for what is built.

    part P SIDE          the package takes part there
    switched P SIDE X    there, its optional dependencies that it calls X are switched on
    feature P SIDE F     there, its feature F is on
    built P SIDE T       it is built there, for the platform T
    tested P SIDE T      it is built there with its dev-dependencies, for the platform T
    used P SIDE Q        there, some dependency of the member P on Q may be used by a target of P
    met P TEXT           what a target of the member P requires by this text is on

A clause has a body, some facts, and a head, one fact, that holds where all of the body does. What holds are the least
facts that keep all clauses.
"""

import json
import re
import sys
from collections import defaultdict
from typing import NamedTuple

TARGET, HOST = "target", "host"
LIBRARIES = {"lib", "rlib", "dylib", "cdylib", "staticlib", "proc-macro"}


class Value(NamedTuple):
    """What a text among a feature's values says: F, dep:X, X/F or X?/F."""

    name: str | None
    feature: str | None
    is_weak: bool = False


def value_of(text):
    if text.startswith("dep:"):
        return Value(text.removeprefix("dep:"), None)
    name, slash, feature = text.partition("/")
    return Value(name.removesuffix("?"), feature, name.endswith("?")) if slash else Value(None, text)


class Dependency(NamedTuple):
    """A declared dependency, and the package that it was resolved to."""

    to: "Package"
    name: str
    section: str
    platform: str | None
    is_optional: bool
    features: list


class Package:
    def __init__(self, told):
        self.id, self.name, self.version = told["id"], told["name"], told["version"]
        self.features = {name: [value_of(it) for it in texts] for name, texts in told["features"].items()}
        self.targets, self.declared, self.dependencies = told["targets"], told["dependencies"], []
        self.folder = told["manifest_path"].removesuffix("/Cargo.toml")
        kinds = {kind for it in self.targets for kind in it["kind"]}
        self.is_macro, self.has_script = "proc-macro" in kinds, "custom-build" in kinds


def packages_of(metadata):
    """The packages by ID, each with its dependencies as they were resolved."""
    packages = {it["id"]: Package(it) for it in metadata["packages"]}
    for node in metadata["resolve"]["nodes"]:
        package = packages[node["id"]]
        for resolved in node["deps"]:
            to, usages = packages[resolved["pkg"]], [(it["kind"], it["target"]) for it in resolved["dep_kinds"]]
            package.dependencies += [
                dependency_of(it, to) for it in package.declared
                if it["name"] == to.name and it.get("path", to.folder) == to.folder and (it["kind"], it["target"]) in usages
            ]
    return packages


def dependency_of(told, to):
    asked = list(told["features"])
    if told["uses_default_features"] and "default" in to.features:
        asked.append("default")
    name = told["rename"] or told["name"]
    return Dependency(to, name, told["kind"] or "normal", told["target"], told["optional"], asked)


class Platform:
    """A platform: its name, and what `rustc --print cfg` says of it."""

    def __init__(self, triple, text):
        self.triple = triple
        self.settings = {it.replace('"', "") for it in text.split()}

    def has(self, text):
        """Whether a dependency with these platforms, or with none, is one for this platform."""
        if text is None or not text.startswith("cfg("):
            return text in (None, self.triple)
        return self.holds(re.findall(r'[(),=]|"[^"]*"|\w+', text)[2:])

    def holds(self, tokens):
        """Whether the predicate at the front of the tokens holds, which it takes away."""
        word = tokens.pop(0)
        if tokens[0] == "=":
            tokens.pop(0)
            return f"{word}={tokens.pop(0)[1:-1]}" in self.settings
        if tokens[0] != "(":
            return word == "true" or word in self.settings
        results = []
        while tokens.pop(0) != ")":
            if tokens[0] != ")":
                results.append(self.holds(tokens))
            else:
                tokens.pop(0)
                break
        return all(results) if word == "all" else any(results) if word == "any" else not results[0]


class Question(NamedTuple):
    """What is to be built: of the chosen packages, with these values of the command line, for these platforms."""

    packages: dict
    chosen: list
    root: Package | None
    features: list
    is_all: bool
    has_default: bool
    has_tests: bool
    resolver: int
    host: Platform
    platforms: list

    @property
    def is_split(self):
        """Whether the two sides have features of their own, and platforms and tests count for features."""
        return self.resolver > 1

    @property
    def sides(self):
        return (TARGET, HOST) if self.is_split else (TARGET,)

    @property
    def members(self):
        """The members that take part by themselves: the chosen ones and, with resolver 1, the workspace's root."""
        others = [self.root] if not self.is_split and self.root and self.root not in self.chosen else []
        return self.chosen + others


# ---------------------------------------------------------------------------------------------------------------------
# Dependencies


def side_of(question, dependency, side):
    """The side of what a package on this side needs: build scripts and macros lead to the host's, where it stays."""
    is_for_host = dependency.section == "build" or dependency.to.is_macro
    return HOST if question.is_split and is_for_host else side


def counts(question, package, dependency, side):
    """Whether the dependency asks for features, where the package takes part on this side."""
    if dependency.section == "dev" and package not in question.members:
        return False
    if not question.is_split:
        return True
    if dependency.section == "dev" and not question.has_tests:
        return False
    on_host = side == HOST or dependency.section == "build"
    return any(it.has(dependency.platform) for it in ([question.host] if on_host else question.platforms))


def switch(question, package, dependency, side):
    """What has to hold of the package on this side for an optional dependency to be used."""
    return [("switched", package, side if question.is_split else TARGET, dependency.name)] if dependency.is_optional else []


def use(question, package, dependency, side):
    """What has to hold for the dependency to be used by the package on this side."""
    return switch(question, package, dependency, side) or [("part", package, side)]


# ---------------------------------------------------------------------------------------------------------------------
# Features


def asked_of(question, member):
    """The values that the command line asks for of the member."""
    if question.is_split or question.root is None:
        return known_to(member, question.features) + switches_of(member, question.is_all, question.has_default)
    names = {it.name for it in question.chosen if it is not question.root}
    if member is question.root:
        own = [it for it in question.features if it.name not in names]
        return known_to(member, own) + switches_of(member, question.is_all, question.has_default)
    named = [Value(None, it.feature) for it in question.features if it.name == member.name]
    return named + switches_of(member, question.is_all, True)


def known_to(member, values):
    """Those of these values that the member knows: its features, also as NAME/F, and those of its dependencies."""
    dependencies = {it.name for it in member.dependencies}
    own = [it for it in values if it.name in (None, member.name) and it.feature in member.features]
    return [it for it in values if it.name in dependencies] + [
        Value(None, it.feature) for it in own if it.name not in dependencies
    ]


def switches_of(member, is_all, has_default):
    return [Value(None, it) for it in member.features if is_all or (has_default and it == "default")]


def gives(question, package, side, value):
    """What a value of the package switches on on this side, each behind what else has to hold."""
    if value.name is None:
        yield [], ("feature", package, side, value.feature)
    elif value.feature is None:
        yield [], ("switched", package, side, value.name)
    else:
        for it in package.dependencies:
            if it.name == value.name and counts(question, package, it, side):
                if it.is_optional and not value.is_weak:
                    yield [], ("switched", package, side, value.name)
                    if value.name in package.features:
                        yield [], ("feature", package, side, value.name)
                gate = switch(question, package, it, side) if value.is_weak else []
                yield gate, ("feature", it.to, side_of(question, it, side), value.feature)


def feature_clauses(question):
    """Which packages take part on which sides, and with which features."""
    for member in question.members:
        for side in question.sides if member.is_macro else (TARGET,):
            yield [], ("part", member, side)
            for value in asked_of(question, member):
                yield from gives(question, member, side, value)
    for package in question.packages.values():
        for side in question.sides:
            for feature, values in package.features.items():
                for value in values:
                    for gate, head in gives(question, package, side, value):
                        yield [("feature", package, side, feature), *gate], head
            for it in package.dependencies:
                if counts(question, package, it, side):
                    to_side = side_of(question, it, side)
                    yield use(question, package, it, side), ("part", it.to, to_side)
                    for feature in it.features:
                        yield use(question, package, it, side), ("feature", it.to, to_side, feature)


# ---------------------------------------------------------------------------------------------------------------------
# What is built


def is_library(target):
    return not LIBRARIES.isdisjoint(target["kind"])


def is_asked_for(question, target):
    """Whether this target of a chosen member is to be built: libraries and binaries, or with tests what is tested."""
    if not question.has_tests:
        return is_library(target) or "bin" in target["kind"]
    return target["test"] or "example" in target["kind"] or (is_library(target) and target["doctest"])


def required_by(target):
    return [] if is_library(target) else target.get("required-features", [])


def may_be_used(question, dependency):
    """Whether a target of a chosen member may use the dependency, where it is switched on."""
    places = [question.host, *question.platforms]
    return (dependency.section != "dev" or question.has_tests) and any(it.has(dependency.platform) for it in places)


def required_clauses(question, member):
    """When what the member's targets require is on."""
    for it in member.dependencies:
        if may_be_used(question, it):
            for side in question.sides:
                yield switch(question, member, it, side), ("used", member, side, it.to)
    for text in sorted({text for target in member.targets for text in required_by(target)}):
        value = value_of(text)
        if value.name is None:
            yield [("feature", member, TARGET, value.feature)], ("met", member, text)
        for it in member.dependencies:
            if it.name == value.name:
                on = ("feature", it.to, side_of(question, it, TARGET), value.feature)
                for side in question.sides:
                    yield [*switch(question, member, it, side), ("used", member, side, it.to), on], ("met", member, text)


def target_clauses(question, member):
    """Which targets of a chosen member are built, and for which platforms."""
    for target in member.targets:
        if is_asked_for(question, target):
            required = [("met", member, it) for it in required_by(target)]
            for platform in question.platforms:
                is_for_host = is_library(target) and member.is_macro
                place = (HOST, question.host.triple) if is_for_host else (TARGET, platform.triple)
                yield required, ("built", member, *place)
                if question.has_tests:
                    yield required, ("tested", member, *place)


def built_clauses(question):
    """Which packages are built, and for which platforms."""
    for member in question.chosen:
        yield from required_clauses(question, member)
        yield from target_clauses(question, member)
    places = [(TARGET, it) for it in question.platforms] + [(HOST, question.host)]
    for package in question.packages.values():
        for side, platform in places:
            here = (package, side, platform.triple)
            if package.is_macro:
                yield [("built", *here)], ("built", package, HOST, question.host.triple)
            for it in package.dependencies:
                if it.section == "build" and not package.has_script:
                    continue
                is_for_host = it.section == "build" or it.to.is_macro
                there = (HOST, question.host.triple) if is_for_host else (side, platform.triple)
                if (question.host if it.section == "build" else platform).has(it.platform):
                    kind = "tested" if it.section == "dev" else "built"
                    yield [(kind, *here), *switch(question, package, it, side)], ("built", it.to, *there)


# ---------------------------------------------------------------------------------------------------------------------
# What holds, and the program


def holding(clauses):
    """The least facts that keep the clauses."""
    waiting, facts, new = defaultdict(list), set(), []
    for clause in clauses:
        for fact in clause[0]:
            waiting[fact].append(clause)
        if not clause[0]:
            new.append(clause[1])
    while new:
        fact = new.pop()
        if fact not in facts:
            facts.add(fact)
            new += [head for body, head in waiting[fact] if all(it in facts for it in body)]
    return facts


def lines_of(question):
    """What holds, a fact a line, as the program tells it."""
    for kind, package, *rest in holding([*feature_clauses(question), *built_clauses(question)]):
        if kind in ("part", "feature", "built"):
            yield " ".join([kind, package.name, package.version, *rest])


def question_of(metadata, words):
    """What the arguments ask of the workspace."""
    packages, names, hosts, platforms = packages_of(metadata), [], [], []
    asked = {"features": [], "is_all": False, "has_default": True, "has_tests": False, "resolver": 2}
    words = list(words)
    while words:
        word = words.pop(0)
        if word == "-p":
            names.append(words.pop(0))
        elif word == "--features":
            asked["features"] += [value_of(it) for it in words.pop(0).split(",")]
        elif word == "--all-features":
            asked["is_all"] = True
        elif word == "--no-default-features":
            asked["has_default"] = False
        elif word == "--tests":
            asked["has_tests"] = True
        elif word == "--resolver":
            asked["resolver"] = int(words.pop(0))
        elif word in ("--host", "--platform"):
            triple, _, cfgs = [words.pop(0) for _ in range(3)]
            (hosts if word == "--host" else platforms).append(Platform(triple, cfgs))
        else:
            raise ValueError(word)
    members = [packages[it] for it in metadata["workspace_members"]]
    chosen, root = [it for it in members if it.name in names], packages.get(metadata["resolve"]["root"])
    return Question(packages, chosen, root, **asked, host=hosts[0], platforms=platforms or hosts)


def answer(metadata, words):
    return sorted(lines_of(question_of(metadata, words)))


def lacks(metadata, words):
    """Whether an optional dependency is switched on that the metadata don't resolve."""
    for kind, package, *rest in holding(feature_clauses(question_of(metadata, words))):
        if kind == "switched" and rest[1] not in {it.name for it in package.dependencies if it.is_optional}:
            return True
    return False


if __name__ == "__main__":
    print("\n".join(answer(json.load(sys.stdin), sys.argv[1:])))

#!/usr/bin/env python3
"""Writes what other languages declare of crates/guppy_c, rust/src/exports.rs and rust/guppy.h, and the table in
rust/README.md of the clauses that each export's contract has.

All are made of the sources. With --check it writes nothing, and fails where a file is not what it would write. It refuses to change the structs or functions that the header declares as long as the number of the
interface is the same.
"""

import re
import sys
from pathlib import Path

TOP = Path(__file__).resolve().parent.parent
SOURCES = sorted((TOP / "crates/guppy_c/src").glob("*.rt")) + [TOP / "crates/guppy_flat/src/flat.rt"]
RUST = TOP / "rust/src/exports.rs"
HEADER = TOP / "rust/guppy.h"
README = TOP / "rust/README.md"
C_TYPES = {"u8": "uint8_t", "u32": "uint32_t", "usize": "size_t", "bool": "bool"}
DOCS = r"((?:^ *///[^\n]*\n)*)"
STRUCT = re.compile(DOCS + r"#\[repr\(C\)\]\n#\[derive\([^\n]*\)\]\npub struct (\w+) \{\n(.*?)^\}", re.M | re.S)
FIELD = re.compile(DOCS + r" *pub (\w+): (\w+),\n", re.M)
EXPORT = re.compile(DOCS + r'#\[unsafe\(no_mangle\)\]\npub extern "C" fn (\w+)\(([^)]*)\) -> (\w+)', re.M)
SLICE = re.compile(r"&(mut )?\[(\w+)\]")
CONTRACT = re.compile(r'pub extern "C" fn (\w+)\([^)]*\) -> \w+\n((?: {4,}[^\n]*\n)+)\{$', re.M)
CLAUSE = re.compile(r"^    ensures (\w+) \{(.*?)\}$(?=\n    ensures|\Z)", re.M | re.S)
# What holds of an answer: where the status is 0, or always, where there is none.
OF_ANSWER = re.compile(r" \(?result\.(outcome\.)?status ≡ 0\b.*→| result ≡ ", re.S)
TABLE = re.compile(r"(?<=\n\| export \| its answer \| its other statuses \|\n\|---\|---\|---\|\n)(\|[^\n]*\n)*")
ANSWERED = re.compile(r"fn guppy_version\(\) -> u32\n +ensures number \{ result ≡ (\d+) \}")
NUMBER = re.compile(r"#define GUPPY_C_VERSION (\d+)\n")
HEAD = """// Made by scripts/exports.py of crates/guppy_c; not to be edited.
//
// A slice is a pointer and the number of elements that lie there. The pointer is never null, even where there are no
// elements, and is aligned for their type. Every element is initialized, also in a slice that is only written, and a
// `bool` is 0 or 1. A slice that a call writes overlaps no other.
//
// A call keeps no pointer, and nothing else for a later one. Several threads may call at once, as long as none writes
// what another one's call reads or writes. No call is made from a signal handler, or from the forked child of a process
// that has threads.
"""
BEGIN = """
#ifndef GUPPY_H
#define GUPPY_H

#include <stdbool.h>
#include <stddef.h>
#include <stdint.h>

#ifdef __cplusplus
extern "C" {
#endif

// The number of this interface; `guppy_version` answers that of the archive.
"""
MEMORY = """// Three functions that the program which links the archive defines, over one allocator. A call uses them on its own
// thread, so they must be fit for as many threads as call at once. They return: nothing is thrown or jumped out of them.

// What a request for memory gets.
struct rattle_tried {
    // Whether there is memory.
    bool found;
    // Where there is, the block; else any address but null.
    void *block;
};

// Returns a block of this many bytes, which may be 0. Its address is a multiple of the alignment: 1, 2, 4, 8 or 16.
struct rattle_tried rattle_alloc(size_t bytes, size_t alignment);

// Makes the block one of this many bytes, as C's `realloc` does. It may move; the first `kept` bytes, or as many as
// there is room for, stay the same. Where there is no memory, the block is left as it is.
struct rattle_tried rattle_realloc(void *block, size_t kept, size_t bytes, size_t alignment);

// Takes the block back.
void rattle_dealloc(void *block);

"""
END = """#ifdef __cplusplus
}
#endif

#endif
"""


def words_of(docs):
    return [line.strip().removeprefix("///").strip() for line in docs.splitlines()]


def comment(mark, docs, indent=""):
    return [f"{indent}{mark} {it}".rstrip() + "\n" for it in docs]


def parameters_of(text):
    """Name and type of each parameter that crosses: an allocator takes no room."""
    found = [it.strip().split(": ", 1) for it in text.replace("\n", " ").split(",") if it.strip()]
    return [(name, type) for name, type in found if type != "Global"]


def read():
    """The structs, the exports, and the number of the interface."""
    structs, exports, number = [], [], None
    for file in SOURCES:
        text = file.read_text(encoding="utf-8")
        structs += [(name, words_of(docs), FIELD.findall(body)) for docs, name, body in STRUCT.findall(text)]
        exports += [(name, words_of(docs), parameters_of(given), result) for docs, name, given, result in EXPORT.findall(text)]
        if len(EXPORT.findall(text)) != text.count("no_mangle"):
            sys.exit(f"exports: a signature in {file} has another form than the others")
        answered = ANSWERED.search(text)
        number = answered[1] if answered else number
    if number is None:
        sys.exit("exports: the clause that tells the number of the interface has another form")
    return structs, sorted(exports), number


def rust_of(structs, exports, number):
    lines = [HEAD, "\n/// The number of this interface.\n", f"pub(crate) const VERSION: u32 = {number};\n\n"]
    for name, docs, fields in structs:
        lines += comment("///", docs)
        lines += ["#[repr(C)]\n", "#[derive(Clone, Copy, Debug, PartialEq, Eq)]\n", f"pub(crate) struct {name} {{\n"]
        for told, field, type in fields:
            lines += comment("///", words_of(told), "    ") + [f"    pub(crate) {field}: {type},\n"]
        lines.append("}\n\n")
    lines.append('#[allow(dead_code)]\nextern "C" {\n')
    for name, docs, parameters, result in exports:
        lines += comment("///", docs, "    ")
        given = []
        for parameter, type in parameters:
            slice = SLICE.fullmatch(type)
            if slice:
                given.append(f"        {parameter}: *{'mut' if slice[1] else 'const'} {slice[2]},\n")
                given.append(f"        {parameter}_len: usize,\n")
            else:
                given.append(f"        {parameter}: {type},\n")
        lines += [f"    fn {name}(", *(["\n", *given, "    "] if given else []), f") -> {result};\n"]
    return "".join([*lines, "}\n"])


def header_of(structs, exports, number):
    names = {name: f"struct guppy_{name.lower()}" for name, _, _ in structs} | C_TYPES
    lines = [HEAD, BEGIN, f"#define GUPPY_C_VERSION {number}\n\n", MEMORY]
    for name, docs, fields in structs:
        lines += comment("//", docs) + [f"{names[name]} {{\n"]
        for told, field, type in fields:
            lines += comment("//", words_of(told), "    ") + [f"    {names[type]} {field};\n"]
        lines.append("};\n\n")
    for name, docs, parameters, result in exports:
        given = []
        for parameter, type in parameters:
            slice = SLICE.fullmatch(type)
            if slice:
                given += [f"{'' if slice[1] else 'const '}{names[slice[2]]} *{parameter}", f"size_t {parameter}_len"]
            else:
                given.append(f"{names[type]} {parameter}")
        lines += comment("//", docs) + [f"{names[result]} {name}(", ", ".join(given) or "void", ");\n\n"]
    return "".join([*lines, END])


def clauses():
    """The names of the clauses of each export, those of its answer first."""
    exports = {}
    for file in SOURCES:
        for name, contract in CONTRACT.findall(file.read_text(encoding="utf-8")):
            found = CLAUSE.findall(contract.rstrip("\n"))
            if len(found) != contract.count("ensures"):
                sys.exit(f"exports: a clause of {name} has no name, or another form than the others")
            of_answer = [clause for clause, said in found if OF_ANSWER.match(said)]
            exports[name] = of_answer, [clause for clause, _ in found if clause not in of_answer]
    return exports


def readme_of(page, exports):
    """The page, with the table of the exports' clauses."""
    cell = lambda names: ", ".join(f"`{name}`" for name in names)
    contracts = clauses()
    rows = [f"| `{name}` | {' | '.join(map(cell, contracts[name]))} |\n" for name, *_ in exports]
    new, found = TABLE.subn("".join(rows).replace("|  |", "| |"), page)
    return new if found == 1 else sys.exit("exports: rust/README.md has no table of the clauses")


def is_other_with_one_number(old, new):
    """Whether two headers declare other structs or functions, under one number."""
    declared = ["".join(re.sub(r"//[^\n]*", "", text).split()) for text in (old, new)]
    numbers = [NUMBER.findall(text) for text in (old, new)]
    return declared[0] != declared[1] and numbers[0] == numbers[1]


def main():
    declared = read()
    readme = readme_of(README.read_text(encoding="utf-8"), declared[1])
    made = {RUST: rust_of(*declared), HEADER: header_of(*declared), README: readme}
    old = {file: file.read_text(encoding="utf-8") if file.exists() else "" for file in made}
    if sys.argv[1:] == ["--check"]:
        for file, text in made.items():
            if old[file] != text:
                sys.exit(f"exports: {file.relative_to(TOP)} is not what scripts/exports.py writes")
        return
    if is_other_with_one_number(old[HEADER], made[HEADER]):
        sys.exit("exports: the interface is another one: change the number that `guppy_version` answers")
    for file, text in made.items():
        file.write_text(text, encoding="utf-8")


if __name__ == "__main__":
    main()

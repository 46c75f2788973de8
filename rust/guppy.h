// Made by scripts/exports.py of crates/guppy_c; not to be edited.
//
// A slice is a pointer and the number of elements that lie there. The pointer is never null, even where there are no
// elements, and is aligned for their type. Every element is initialized, also in a slice that is only written, and a
// `bool` is 0 or 1. A slice that a call writes overlaps no other.
//
// A call keeps no pointer, and nothing else for a later one. Several threads may call at once, as long as none writes
// what another one's call reads or writes. No call is made from a signal handler, or from the forked child of a process
// that has threads.

#ifndef GUPPY_H
#define GUPPY_H

#include <stdbool.h>
#include <stddef.h>
#include <stdint.h>

#ifdef __cplusplus
extern "C" {
#endif

// The number of this interface; `guppy_version` answers that of the archive.
#define GUPPY_C_VERSION 4

// Three functions that the program which links the archive defines, over one allocator. A call uses them on its own
// thread, so they must be fit for as many threads as call at once. They return: nothing is thrown or jumped out of them.

// What a request for memory gets.
struct rattle_tried {
    // Whether there is memory.
    bool found;
    // Where there is, the block; else any address but null.
    void *block;
};

// Returns a block of this many bytes, which may be 0. Its address is a multiple of the alignment: 1, 2, 4, 8 or 16.
struct rattle_tried rattle_alloc(size_t bytes, size_t alignment);

// Makes the block one of this many bytes, as C's `realloc` does. It may move; the first `kept` bytes, or as many as
// there is room for, stay the same. Where there is no memory, the block is left as it is.
struct rattle_tried rattle_realloc(void *block, size_t kept, size_t bytes, size_t alignment);

// Takes the block back.
void rattle_dealloc(void *block);

// How a call ended that writes a text.
struct guppy_answer {
    // 0: answered. 1: refused. 2: there was no room for the text. 3: there was no memory. Of `guppy_records` also 4:
    // the bytes are no JSON. 5: no dependencies are resolved.
    uint32_t status;
    // How many bytes the text has, 0 where there was no memory.
    size_t len;
};

// How a call ended.
struct guppy_outcome {
    // 0: answered. 1: the lengths of the slices don't fit. 2: there are too many positions. 3: there are
    // too many links. 4: an end of a link is no position. 5: a link has the ends of an earlier one. 6: there
    // was no memory, and 1 to 4 aren't so.
    uint32_t status;
    // At 4 and 5 the number of the first such link, else 0.
    size_t link;
};

// How a call ended that writes a list of its own length.
struct guppy_listed {
    // How the call ended. Its status 7: there are too few places for the list.
    struct guppy_outcome outcome;
    // How long the list is, at 0 and 7, else 0.
    size_t len;
};

// Whether what was walked is a resolve.
struct guppy_judged {
    // How the call ended, with 0, 1 or 6.
    struct guppy_outcome outcome;
    // At 0 whether it is, else `false`.
    bool holds;
};

// What a text says of a platform.
struct guppy_evaluated {
    // 0: answered. 1: a line sets nothing. 2: not all that is passed is UTF-8. 3: there was no memory.
    uint32_t status;
    // At 0 what the text says, 0: that it is another platform, 1: nothing, 2: that it is this one; else 0.
    uint32_t value;
    // At 1 how many lines stand before the first that sets nothing, else 0.
    size_t line;
};

// A link by its ends, two positions.
struct guppy_ends {
    // The position that it leaves.
    uint32_t from;
    // The position that it leads to.
    uint32_t to;
};

// Writes what `guppy-cargo` prints for the arguments, which zero bytes part, of the workspace that the JSON
// describes: what `cargo metadata --format-version 1` prints. Options and commands are those of `guppy-cargo
// help`, but no file is read: what it has stands in the place of its name, as `unix` behind `--cfgs`. A refusal
// says why, with no newline at its end.
struct guppy_answer guppy_answer(const uint8_t *json, size_t json_len, const uint8_t *args, size_t args_len, uint8_t *out, size_t out_len);

// Writes all positions as `guppy_order` does, and marks the places of the list at which a component
// begins. There is a flag for each link, and a mark for each place of the list.
struct guppy_outcome guppy_components(const struct guppy_ends *links, size_t links_len, const bool *flags, size_t flags_len, uint32_t *list, size_t list_len, bool *firsts, size_t firsts_len);

// Writes a cycle over flagged links to the front of the list: two or more positions, each once, each with
// a flagged link to the next, and the last with one to the first. There is a flag for each link, and as many
// positions as places in the list. None is a list of no positions.
struct guppy_listed guppy_cycle(const struct guppy_ends *links, size_t links_len, const bool *flags, size_t flags_len, uint32_t *list, size_t list_len);

// Tells what the text, as `cfg(unix)` or the name of a platform, says of the platform with this name, for which a
// compiler prints these lines, as `rustc --print cfg --target NAME` does: names, as `unix`, and keys with a value,
// as `target_os="linux"`. Unknown is what reads as neither a predicate nor a name.
struct guppy_evaluated guppy_eval(const uint8_t *text, size_t text_len, const uint8_t *triple, size_t triple_len, const uint8_t *cfgs, size_t cfgs_len);

// Tells whether a walk from the marked starts that showed somebody links, in the order of their numbers in
// `shown`, with their answers, and ended with the marked set, is a resolve: no link is shown twice; exactly those
// are shown that leave a position of the set, each after this was a start or an accepted link had led to it; and
// the set has exactly the starts and what accepted links lead to. From dependents to dependencies where `forward`
// says so, else the other way. There is an answer for each number shown, and a mark of the set for each of the
// starts' positions.
//
// No link is refused: it is no resolve where a number is no link's, or an accepted link leads to no position.
struct guppy_judged guppy_judge(const struct guppy_ends *links, size_t links_len, const bool *starts, size_t starts_len, const size_t *shown, size_t shown_len, const bool *answers, size_t answers_len, const bool *set, size_t set_len, bool forward);

// Writes the numbers of the links inside the marked set that are walked from its roots to the front of
// `numbers`, each once: one whose leaving end is no root after a link that leads to that end. Where the set
// holds each component that it touches, these are all links inside. A place for each link always does.
struct guppy_listed guppy_links(const struct guppy_ends *links, size_t links_len, const bool *set, size_t set_len, bool forward, size_t *numbers, size_t numbers_len);

// Writes all positions, each once: components together, and of a link between two components the
// position that it leaves first. Where the flagged links have no cycle but self-links, of each of these
// too. There is a flag for each link, and as many positions as places in the list.
struct guppy_outcome guppy_order(const struct guppy_ends *links, size_t links_len, const bool *flags, size_t flags_len, uint32_t *list, size_t list_len);

// Marks the positions that flagged links lead to from the marked starts, the starts among them, and no
// other; from dependents to dependencies where `forward` says so, else the other way. There is a flag for
// each link, and a mark for each of the starts' positions.
struct guppy_outcome guppy_reach(const struct guppy_ends *links, size_t links_len, const bool *flags, size_t flags_len, const bool *starts, size_t starts_len, bool forward, bool *marks, size_t marks_len);

// Writes the packages, links and workspace that the JSON describes as one text, in which each part tells how long
// it is. The JSON is what `cargo metadata --format-version 1` prints. Without `details` it takes about two
// thirds of the time; the details and free tables of packages and the named features of links are then empty.
//
// A field is its length in bytes, a colon and the text. A list is how many there are, a semicolon, and each. An
// option is `-` where there is none. A flag is `y` or `n`. A status is `*` for all platforms, else the list of
// their texts, a field each. A text, an ID or a path is a field, where nothing else is said. One after another
// come:
//
// - the workspace: root, target directory, optionally the build directory, the list of the default members, and the
// free table as JSON, a field;
// - the list of packages, each as ID, name, version, source, manifest, edition, and optionally description, license
// and repository; a source is `w`, `p` or `x` for a member at the path, a package at the path or one from elsewhere,
// and the text;
// - the list of links, each as two IDs, the names in the manifest and in code, for the normal, the build and the
// dev section the status of where it is required and of where it is optional, and a field with the details;
// - of each package, in the order of the list, a field with the details, and one with the free table as JSON.
//
// The details of a package: the list of authors; optionally the license file; the lists of categories and
// keywords; optionally readme, homepage, documentation and linked library; `*` where it may be published
// everywhere, else the list of registries; optionally the default run and the Rust version; the list of named
// features, each as its name and the list of what it switches on: `f` and a feature, `d` and an optional
// dependency, `s`, or weak `w`, and a dependency and its feature; the list of optional dependencies; and the list
// of build targets. A build target is `l`, `s`, or `b`, `e`, `t` or `m` and a name, for the library, the build
// script, a binary, an example, a test or a benchmark; `c` and the list of crate types, or `p` or `b` for a
// procedural macro or a binary; optionally the library's name; the list of required features; path; edition; and
// flags: whether it is documented, has its documentation tested, and is tested.
//
// The details of a link: optionally registry and path; for each section, first where it is required and then where
// it is optional, the status of the default features, the status of no default features, and the list of named
// features, each with its status; and behind these, to the end, the version requirement, with no length.
//
// A refusal says why, with no newline at its end.
struct guppy_answer guppy_records(const uint8_t *json, size_t json_len, bool details, uint8_t *out, size_t out_len);

// Marks the roots of the marked set, and no other position: those whose component no link inside the
// set enters from another one; a link enters what it leads to where `forward` says so, else what it
// leaves. There is a mark for each of the set's positions.
struct guppy_outcome guppy_roots(const struct guppy_ends *links, size_t links_len, const bool *set, size_t set_len, bool forward, bool *marks, size_t marks_len);

// The number of the archive's interface. A program that was built with another `GUPPY_C_VERSION` must make no
// other call: the number changes with each export, parameter, struct and status, and with the layout of a text.
uint32_t guppy_version(void);

#ifdef __cplusplus
}
#endif

#endif

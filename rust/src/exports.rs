// Made by scripts/exports.py of crates/guppy_c; not to be edited.
//
// A slice is a pointer and the number of elements that lie there. The pointer is never null, even where there are no
// elements, and is aligned for their type. Every element is initialized, also in a slice that is only written, and a
// `bool` is 0 or 1. A slice that a call writes overlaps no other.
//
// A call keeps no pointer, and nothing else for a later one. Several threads may call at once, as long as none writes
// what another one's call reads or writes. No call is made from a signal handler, or from the forked child of a process
// that has threads.

/// The number of this interface.
pub(crate) const VERSION: u32 = 4;

/// How a call ended that writes a text.
#[repr(C)]
#[derive(Clone, Copy, Debug, PartialEq, Eq)]
pub(crate) struct Answer {
    /// 0: answered. 1: refused. 2: there was no room for the text. 3: there was no memory. Of `guppy_records` also 4:
    /// the bytes are no JSON. 5: no dependencies are resolved.
    pub(crate) status: u32,
    /// How many bytes the text has, 0 where there was no memory.
    pub(crate) len: usize,
}

/// How a call ended.
#[repr(C)]
#[derive(Clone, Copy, Debug, PartialEq, Eq)]
pub(crate) struct Outcome {
    /// 0: answered. 1: the lengths of the slices don't fit. 2: there are too many positions. 3: there are
    /// too many links. 4: an end of a link is no position. 5: a link has the ends of an earlier one. 6: there
    /// was no memory, and 1 to 4 aren't so.
    pub(crate) status: u32,
    /// At 4 and 5 the number of the first such link, else 0.
    pub(crate) link: usize,
}

/// How a call ended that writes a list of its own length.
#[repr(C)]
#[derive(Clone, Copy, Debug, PartialEq, Eq)]
pub(crate) struct Listed {
    /// How the call ended. Its status 7: there are too few places for the list.
    pub(crate) outcome: Outcome,
    /// How long the list is, at 0 and 7, else 0.
    pub(crate) len: usize,
}

/// Whether what was walked is a resolve.
#[repr(C)]
#[derive(Clone, Copy, Debug, PartialEq, Eq)]
pub(crate) struct Judged {
    /// How the call ended, with 0, 1 or 6.
    pub(crate) outcome: Outcome,
    /// At 0 whether it is, else `false`.
    pub(crate) holds: bool,
}

/// What a text says of a platform.
#[repr(C)]
#[derive(Clone, Copy, Debug, PartialEq, Eq)]
pub(crate) struct Evaluated {
    /// 0: answered. 1: a line sets nothing. 2: not all that is passed is UTF-8. 3: there was no memory.
    pub(crate) status: u32,
    /// At 0 what the text says, 0: that it is another platform, 1: nothing, 2: that it is this one; else 0.
    pub(crate) value: u32,
    /// At 1 how many lines stand before the first that sets nothing, else 0.
    pub(crate) line: usize,
}

/// A link by its ends, two positions.
#[repr(C)]
#[derive(Clone, Copy, Debug, PartialEq, Eq)]
pub(crate) struct Ends {
    /// The position that it leaves.
    pub(crate) from: u32,
    /// The position that it leads to.
    pub(crate) to: u32,
}

#[allow(dead_code)]
extern "C" {
    /// Writes what `guppy-cargo` prints for the arguments, which zero bytes part, of the workspace that the JSON
    /// describes: what `cargo metadata --format-version 1` prints. Options and commands are those of `guppy-cargo
    /// help`, but no file is read: what it has stands in the place of its name, as `unix` behind `--cfgs`. A refusal
    /// says why, with no newline at its end.
    fn guppy_answer(
        json: *const u8,
        json_len: usize,
        args: *const u8,
        args_len: usize,
        out: *mut u8,
        out_len: usize,
    ) -> Answer;
    /// Writes all positions as `guppy_order` does, and marks the places of the list at which a component
    /// begins. There is a flag for each link, and a mark for each place of the list.
    fn guppy_components(
        links: *const Ends,
        links_len: usize,
        flags: *const bool,
        flags_len: usize,
        list: *mut u32,
        list_len: usize,
        firsts: *mut bool,
        firsts_len: usize,
    ) -> Outcome;
    /// Writes a cycle over flagged links to the front of the list: two or more positions, each once, each with
    /// a flagged link to the next, and the last with one to the first. There is a flag for each link, and as many
    /// positions as places in the list. None is a list of no positions.
    fn guppy_cycle(
        links: *const Ends,
        links_len: usize,
        flags: *const bool,
        flags_len: usize,
        list: *mut u32,
        list_len: usize,
    ) -> Listed;
    /// Tells what the text, as `cfg(unix)` or the name of a platform, says of the platform with this name, for which a
    /// compiler prints these lines, as `rustc --print cfg --target NAME` does: names, as `unix`, and keys with a value,
    /// as `target_os="linux"`. Unknown is what reads as neither a predicate nor a name.
    fn guppy_eval(
        text: *const u8,
        text_len: usize,
        triple: *const u8,
        triple_len: usize,
        cfgs: *const u8,
        cfgs_len: usize,
    ) -> Evaluated;
    /// Tells whether a walk from the marked starts that showed somebody links, in the order of their numbers in
    /// `shown`, with their answers, and ended with the marked set, is a resolve: no link is shown twice; exactly those
    /// are shown that leave a position of the set, each after this was a start or an accepted link had led to it; and
    /// the set has exactly the starts and what accepted links lead to. From dependents to dependencies where `forward`
    /// says so, else the other way. There is an answer for each number shown, and a mark of the set for each of the
    /// starts' positions.
    ///
    /// No link is refused: it is no resolve where a number is no link's, or an accepted link leads to no position.
    fn guppy_judge(
        links: *const Ends,
        links_len: usize,
        starts: *const bool,
        starts_len: usize,
        shown: *const usize,
        shown_len: usize,
        answers: *const bool,
        answers_len: usize,
        set: *const bool,
        set_len: usize,
        forward: bool,
    ) -> Judged;
    /// Writes the numbers of the links inside the marked set that are walked from its roots to the front of
    /// `numbers`, each once: one whose leaving end is no root after a link that leads to that end. Where the set
    /// holds each component that it touches, these are all links inside. A place for each link always does.
    fn guppy_links(
        links: *const Ends,
        links_len: usize,
        set: *const bool,
        set_len: usize,
        forward: bool,
        numbers: *mut usize,
        numbers_len: usize,
    ) -> Listed;
    /// Writes all positions, each once: components together, and of a link between two components the
    /// position that it leaves first. Where the flagged links have no cycle but self-links, of each of these
    /// too. There is a flag for each link, and as many positions as places in the list.
    fn guppy_order(
        links: *const Ends,
        links_len: usize,
        flags: *const bool,
        flags_len: usize,
        list: *mut u32,
        list_len: usize,
    ) -> Outcome;
    /// Marks the positions that flagged links lead to from the marked starts, the starts among them, and no
    /// other; from dependents to dependencies where `forward` says so, else the other way. There is a flag for
    /// each link, and a mark for each of the starts' positions.
    fn guppy_reach(
        links: *const Ends,
        links_len: usize,
        flags: *const bool,
        flags_len: usize,
        starts: *const bool,
        starts_len: usize,
        forward: bool,
        marks: *mut bool,
        marks_len: usize,
    ) -> Outcome;
    /// Writes the packages, links and workspace that the JSON describes as one text, in which each part tells how long
    /// it is. The JSON is what `cargo metadata --format-version 1` prints. Without `details` it takes about two
    /// thirds of the time; the details and free tables of packages and the named features of links are then empty.
    ///
    /// A field is its length in bytes, a colon and the text. A list is how many there are, a semicolon, and each. An
    /// option is `-` where there is none. A flag is `y` or `n`. A status is `*` for all platforms, else the list of
    /// their texts, a field each. A text, an ID or a path is a field, where nothing else is said. One after another
    /// come:
    ///
    /// - the workspace: root, target directory, optionally the build directory, the list of the default members, and the
    /// free table as JSON, a field;
    /// - the list of packages, each as ID, name, version, source, manifest, edition, and optionally description, license
    /// and repository; a source is `w`, `p` or `x` for a member at the path, a package at the path or one from elsewhere,
    /// and the text;
    /// - the list of links, each as two IDs, the names in the manifest and in code, for the normal, the build and the
    /// dev section the status of where it is required and of where it is optional, and a field with the details;
    /// - of each package, in the order of the list, a field with the details, and one with the free table as JSON.
    ///
    /// The details of a package: the list of authors; optionally the license file; the lists of categories and
    /// keywords; optionally readme, homepage, documentation and linked library; `*` where it may be published
    /// everywhere, else the list of registries; optionally the default run and the Rust version; the list of named
    /// features, each as its name and the list of what it switches on: `f` and a feature, `d` and an optional
    /// dependency, `s`, or weak `w`, and a dependency and its feature; the list of optional dependencies; and the list
    /// of build targets. A build target is `l`, `s`, or `b`, `e`, `t` or `m` and a name, for the library, the build
    /// script, a binary, an example, a test or a benchmark; `c` and the list of crate types, or `p` or `b` for a
    /// procedural macro or a binary; optionally the library's name; the list of required features; path; edition; and
    /// flags: whether it is documented, has its documentation tested, and is tested.
    ///
    /// The details of a link: optionally registry and path; for each section, first where it is required and then where
    /// it is optional, the status of the default features, the status of no default features, and the list of named
    /// features, each with its status; and behind these, to the end, the version requirement, with no length.
    ///
    /// A refusal says why, with no newline at its end.
    fn guppy_records(
        json: *const u8,
        json_len: usize,
        details: bool,
        out: *mut u8,
        out_len: usize,
    ) -> Answer;
    /// Marks the roots of the marked set, and no other position: those whose component no link inside the
    /// set enters from another one; a link enters what it leads to where `forward` says so, else what it
    /// leaves. There is a mark for each of the set's positions.
    fn guppy_roots(
        links: *const Ends,
        links_len: usize,
        set: *const bool,
        set_len: usize,
        forward: bool,
        marks: *mut bool,
        marks_len: usize,
    ) -> Outcome;
    /// The number of the archive's interface. A program that was built with another `GUPPY_C_VERSION` must make no
    /// other call: the number changes with each export, parameter, struct and status, and with the layout of a text.
    fn guppy_version() -> u32;
}

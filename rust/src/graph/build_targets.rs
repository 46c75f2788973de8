use super::details::{Target, TargetId, TargetKind};
use super::parts::Span;
use camino::Utf8Path;
use std::fmt;

/// What Cargo builds of a package: a library, a build script, or a binary, example, test or benchmark. What it says is
/// what the JSON says, which is proved.
#[derive(Clone, Copy)]
pub struct BuildTarget<'g> {
    pub(super) text: &'g str,
    pub(super) target: &'g Target,
}

impl<'g> BuildTarget<'g> {
    /// Which of the package's it is.
    pub fn id(&self) -> BuildTargetId<'g> {
        self.target.id.of(self.text)
    }

    /// Its name, also where it is a library or a build script.
    pub fn name(&self) -> &'g str {
        let own = || self.target.lib_name.map(|part| part.of(self.text));
        self.id().name().or_else(own).unwrap_or_default()
    }

    /// What it is built as.
    pub fn kind(&self) -> BuildTargetKind<'g> {
        match &self.target.kind {
            TargetKind::LibraryOrExample(types) => BuildTargetKind::LibraryOrExample(types),
            TargetKind::ProcMacro => BuildTargetKind::ProcMacro,
            TargetKind::Binary => BuildTargetKind::Binary,
        }
    }

    /// The features without which it isn't built. They mean nothing for a library.
    pub fn required_features(&self) -> &'g [String] {
        &self.target.required_features
    }

    /// The path of its main file.
    pub fn path(&self) -> &'g Utf8Path {
        self.target.path.of(self.text).into()
    }

    /// The edition of Rust that it is written in.
    pub fn edition(&self) -> &'g str {
        self.target.edition.of(self.text)
    }

    /// Whether it is documented where nothing else is asked for.
    pub fn doc_by_default(&self) -> bool {
        self.target.doc
    }

    /// Whether the examples of its documentation run as tests where nothing else is asked for.
    pub fn doctest_by_default(&self) -> bool {
        self.target.doctest
    }

    /// Whether its tests run where nothing else is asked for.
    pub fn test_by_default(&self) -> bool {
        self.target.test
    }
}

impl fmt::Debug for BuildTarget<'_> {
    fn fmt(&self, f: &mut fmt::Formatter<'_>) -> fmt::Result {
        f.debug_struct("BuildTarget")
            .field("id", &self.id())
            .field("kind", &self.kind())
            .finish_non_exhaustive()
    }
}

impl TargetId {
    // The ID whose name lies in the text.
    pub(super) fn of(self, text: &str) -> BuildTargetId<'_> {
        let name = |part: Span| part.of(text);
        match self {
            TargetId::Library => BuildTargetId::Library,
            TargetId::BuildScript => BuildTargetId::BuildScript,
            TargetId::Binary(part) => BuildTargetId::Binary(name(part)),
            TargetId::Example(part) => BuildTargetId::Example(name(part)),
            TargetId::Test(part) => BuildTargetId::Test(name(part)),
            TargetId::Benchmark(part) => BuildTargetId::Benchmark(name(part)),
        }
    }
}

/// Which of a package's build targets it is.
#[derive(Clone, Copy, Debug, PartialEq, Eq, PartialOrd, Ord, Hash)]
#[non_exhaustive]
pub enum BuildTargetId<'g> {
    /// The library, of which there is at most one.
    Library,
    /// The build script, of which there is at most one.
    BuildScript,
    /// The binary with the name.
    Binary(&'g str),
    /// The example with the name.
    Example(&'g str),
    /// The test with the name.
    Test(&'g str),
    /// The benchmark with the name.
    Benchmark(&'g str),
}

impl<'g> BuildTargetId<'g> {
    /// The name, where it has one; [`BuildTarget::name`] has that of a library or a build script.
    pub fn name(&self) -> Option<&'g str> {
        match self {
            BuildTargetId::Library | BuildTargetId::BuildScript => None,
            BuildTargetId::Binary(name)
            | BuildTargetId::Example(name)
            | BuildTargetId::Test(name)
            | BuildTargetId::Benchmark(name) => Some(name),
        }
    }
}

/// What a build target is built as.
#[derive(Clone, Copy, Debug, PartialEq, Eq, PartialOrd, Ord, Hash)]
#[non_exhaustive]
pub enum BuildTargetKind<'g> {
    /// A library or an example, of these crate types, which are sorted; `bin` is one of an example.
    LibraryOrExample(&'g [String]),
    /// A procedural macro.
    ProcMacro,
    /// A binary, test, benchmark or build script.
    Binary,
}

use std::fmt;

/// The ID that Cargo gives a package: a text whose form is Cargo's own.
#[derive(Clone, Debug, PartialEq, Eq, PartialOrd, Ord, Hash)]
pub struct PackageId {
    repr: Box<str>,
}

impl PackageId {
    /// The ID that is written so.
    pub fn new(repr: impl Into<Box<str>>) -> Self {
        PackageId { repr: repr.into() }
    }

    /// How it is written.
    pub fn repr(&self) -> &str {
        &self.repr
    }
}

impl fmt::Display for PackageId {
    fn fmt(&self, f: &mut fmt::Formatter<'_>) -> fmt::Result {
        fmt::Display::fmt(&self.repr, f)
    }
}

impl PartialEq<&PackageId> for PackageId {
    fn eq(&self, other: &&PackageId) -> bool {
        self == *other
    }
}

impl PartialEq<PackageId> for &PackageId {
    fn eq(&self, other: &PackageId) -> bool {
        *self == other
    }
}

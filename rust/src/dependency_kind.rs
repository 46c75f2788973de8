use std::fmt;

/// A section of a manifest in which a dependency stands.
#[derive(Clone, Copy, Debug, PartialEq, Eq, Hash)]
pub enum DependencyKind {
    /// `[dependencies]`.
    Normal,
    /// `[dev-dependencies]`, for tests, examples and benchmarks alone.
    Development,
    /// `[build-dependencies]`, for build scripts.
    Build,
}

impl DependencyKind {
    /// All of them.
    pub const VALUES: &'static [Self; 3] = &[
        DependencyKind::Normal,
        DependencyKind::Development,
        DependencyKind::Build,
    ];

    /// `normal`, `dev` or `build`.
    pub fn to_str(self) -> &'static str {
        match self {
            DependencyKind::Normal => "normal",
            DependencyKind::Development => "dev",
            DependencyKind::Build => "build",
        }
    }
}

impl fmt::Display for DependencyKind {
    fn fmt(&self, f: &mut fmt::Formatter<'_>) -> fmt::Result {
        f.write_str(self.to_str())
    }
}

use camino::Utf8Path;
use std::fmt;

/// Where a package comes from.
#[derive(Clone, Copy, Debug, PartialEq, Eq, Hash)]
pub enum PackageSource<'g> {
    /// It is a member of the workspace, at this path from its root.
    Workspace(&'g Utf8Path),
    /// It lies at this path from the workspace's root, and is no member.
    Path(&'g Utf8Path),
    /// It comes from a registry or a repository, as Cargo writes it.
    External(&'g str),
}

impl<'g> PackageSource<'g> {
    /// How Cargo writes crates.io's registry.
    pub const CRATES_IO_REGISTRY: &'static str =
        "registry+https://github.com/rust-lang/crates.io-index";

    /// Whether it is a member of the workspace.
    pub fn is_workspace(&self) -> bool {
        matches!(self, PackageSource::Workspace(_))
    }

    /// Whether it lies at a path, and is no member.
    pub fn is_path(&self) -> bool {
        matches!(self, PackageSource::Path(_))
    }

    /// Whether it comes from a registry or a repository.
    pub fn is_external(&self) -> bool {
        matches!(self, PackageSource::External(_))
    }

    /// Whether it comes from crates.io.
    pub fn is_crates_io(&self) -> bool {
        self.external_source() == Some(Self::CRATES_IO_REGISTRY)
    }

    /// Whether it lies at a path, as a member or not.
    pub fn is_local(&self) -> bool {
        !self.is_external()
    }

    /// The path from the workspace's root to a member.
    pub fn workspace_path(&self) -> Option<&'g Utf8Path> {
        match self {
            PackageSource::Workspace(path) => Some(path),
            _ => None,
        }
    }

    /// The path from the workspace's root to a member, or to what is none.
    pub fn local_path(&self) -> Option<&'g Utf8Path> {
        match self {
            PackageSource::Workspace(path) | PackageSource::Path(path) => Some(path),
            PackageSource::External(_) => None,
        }
    }

    /// The registry or repository, as Cargo writes it.
    pub fn external_source(&self) -> Option<&'g str> {
        match self {
            PackageSource::External(source) => Some(source),
            _ => None,
        }
    }

    /// The registry or repository, where it is of a known kind.
    pub fn parse_external(&self) -> Option<ExternalSource<'g>> {
        self.external_source().and_then(ExternalSource::new)
    }
}

impl fmt::Display for PackageSource<'_> {
    fn fmt(&self, f: &mut fmt::Formatter<'_>) -> fmt::Result {
        match self {
            PackageSource::Workspace(path) | PackageSource::Path(path) => {
                fmt::Display::fmt(path, f)
            }
            PackageSource::External(source) => f.write_str(source),
        }
    }
}

/// A registry or repository.
///
/// ```
/// use guppy_proved::graph::{ExternalSource, GitReq};
///
/// let registry = ExternalSource::new("registry+https://example.org/index");
/// assert_eq!(registry, Some(ExternalSource::Registry("https://example.org/index")));
///
/// let written = "git+https://example.org/tool.git?branch=next#0123abc";
/// let git = ExternalSource::Git {
///     repository: "https://example.org/tool.git",
///     req: GitReq::Branch("next"),
///     resolved: "0123abc",
/// };
/// assert_eq!(ExternalSource::new(written), Some(git));
/// assert_eq!(git.to_string(), written);
/// ```
#[derive(Clone, Copy, Debug, PartialEq, Eq, Hash)]
#[non_exhaustive]
pub enum ExternalSource<'g> {
    /// A registry with an index that is a repository, by what follows `registry+`.
    Registry(&'g str),
    /// A registry with a sparse index, by what follows `sparse+`.
    Sparse(&'g str),
    /// A repository.
    Git {
        /// Its URL.
        repository: &'g str,
        /// Which revision the manifest asks for.
        req: GitReq<'g>,
        /// The revision that was taken.
        resolved: &'g str,
    },
}

impl<'g> ExternalSource<'g> {
    /// What a registry begins with.
    pub const REGISTRY_PLUS: &'static str = "registry+";
    /// What a sparse registry begins with.
    pub const SPARSE_PLUS: &'static str = "sparse+";
    /// What a repository begins with.
    pub const GIT_PLUS: &'static str = "git+";
    /// What stands between a repository and a branch.
    pub const BRANCH_EQ: &'static str = "?branch=";
    /// What stands between a repository and a tag.
    pub const TAG_EQ: &'static str = "?tag=";
    /// What stands between a repository and a revision.
    pub const REV_EQ: &'static str = "?rev=";
    /// The URL of crates.io's registry.
    pub const CRATES_IO_URL: &'static str = "https://github.com/rust-lang/crates.io-index";

    /// The registry or repository that Cargo writes so, where it is of a known kind.
    pub fn new(source: &'g str) -> Option<Self> {
        if let Some(url) = source.strip_prefix(Self::REGISTRY_PLUS) {
            return Some(ExternalSource::Registry(url));
        }
        if let Some(url) = source.strip_prefix(Self::SPARSE_PLUS) {
            return Some(ExternalSource::Sparse(url));
        }
        let (asked, resolved) = source.strip_prefix(Self::GIT_PLUS)?.rsplit_once('#')?;
        let (repository, req) = Self::parted(asked);
        Some(ExternalSource::Git {
            repository,
            req,
            resolved,
        })
    }

    // A repository and the revision that is asked for.
    fn parted(asked: &'g str) -> (&'g str, GitReq<'g>) {
        if let Some((repository, branch)) = asked.split_once(Self::BRANCH_EQ) {
            (repository, GitReq::Branch(branch))
        } else if let Some((repository, tag)) = asked.split_once(Self::TAG_EQ) {
            (repository, GitReq::Tag(tag))
        } else if let Some((repository, rev)) = asked.split_once(Self::REV_EQ) {
            (repository, GitReq::Rev(rev))
        } else {
            (asked, GitReq::Default)
        }
    }
}

impl fmt::Display for ExternalSource<'_> {
    fn fmt(&self, f: &mut fmt::Formatter<'_>) -> fmt::Result {
        match self {
            ExternalSource::Registry(url) => write!(f, "{}{url}", Self::REGISTRY_PLUS),
            ExternalSource::Sparse(url) => write!(f, "{}{url}", Self::SPARSE_PLUS),
            ExternalSource::Git {
                repository,
                req,
                resolved,
            } => {
                let (mark, asked) = match req {
                    GitReq::Branch(branch) => (Self::BRANCH_EQ, *branch),
                    GitReq::Tag(tag) => (Self::TAG_EQ, *tag),
                    GitReq::Rev(rev) => (Self::REV_EQ, *rev),
                    GitReq::Default => ("", ""),
                };
                write!(f, "{}{repository}{mark}{asked}#{resolved}", Self::GIT_PLUS)
            }
        }
    }
}

/// Which revision of a repository a manifest asks for.
#[derive(Clone, Copy, Debug, PartialEq, Eq, Hash)]
#[non_exhaustive]
pub enum GitReq<'g> {
    /// That of a branch.
    Branch(&'g str),
    /// That of a tag.
    Tag(&'g str),
    /// This one.
    Rev(&'g str),
    /// None: Cargo takes that of the main branch.
    Default,
}

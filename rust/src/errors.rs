//! Why there is no answer.

use crate::PackageId;
use camino::Utf8PathBuf;
use std::{error, fmt};

/// Why there is no answer.
#[derive(Debug)]
#[non_exhaustive]
pub enum Error {
    /// `cargo metadata` could not be run, or failed: the source says why.
    CommandError(Box<dyn error::Error + Send + Sync>),
    /// The JSON is not what `cargo metadata` prints: the source says where.
    MetadataParseError(serde_json::Error),
    /// The JSON could not be written out.
    MetadataSerializeError(serde_json::Error),
    /// The JSON describes packages and links that make no graph: this says why.
    PackageGraphConstructError(String),
    /// The graph has no package with this ID.
    UnknownPackageId(PackageId),
    /// No package with this ID has this feature.
    UnknownFeatureId(PackageId, String),
    /// The workspace has no member at this path.
    UnknownWorkspacePath(Utf8PathBuf),
    /// The workspace has no member with this name.
    UnknownWorkspaceName(String),
    /// A platform, or what is said of one, could not be read: the text says what was done, and the source why.
    TargetSpecError(String, TargetSpecError),
    /// A rule of graphs is broken, as [`verify`](crate::graph::PackageGraph::verify) found: this says which.
    PackageGraphInternalError(String),
    /// Kept for programs that name it: there is no feature graph here, and it never comes.
    FeatureGraphInternalError(String),
    /// The library refused what it was asked: this says why. It isn't in guppy.
    Refused(String),
    /// Links that aren't dev-only lead round through these packages, each to the next, and the last to the first. It
    /// isn't in guppy.
    Cycle(Vec<PackageId>),
}

impl fmt::Display for Error {
    fn fmt(&self, f: &mut fmt::Formatter<'_>) -> fmt::Result {
        match self {
            Error::CommandError(_) => f.write_str("`cargo metadata` failed"),
            Error::MetadataParseError(_) => f.write_str("this is not what `cargo metadata` prints"),
            Error::MetadataSerializeError(_) => f.write_str("the metadata could not be written"),
            Error::PackageGraphConstructError(why) => write!(f, "no package graph: {why}"),
            Error::UnknownPackageId(id) => write!(f, "unknown package ID: {id}"),
            Error::UnknownFeatureId(id, feature) => write!(f, "unknown feature ID: {id}/{feature}"),
            Error::UnknownWorkspacePath(path) => write!(f, "unknown workspace path: {path}"),
            Error::UnknownWorkspaceName(name) => {
                write!(f, "unknown workspace package name: {name}")
            }
            Error::TargetSpecError(doing, _) => write!(f, "target spec error while {doing}"),
            Error::PackageGraphInternalError(why) => write!(f, "wrong package graph: {why}"),
            Error::FeatureGraphInternalError(why) => write!(f, "wrong feature graph: {why}"),
            Error::Refused(why) => f.write_str(why),
            Error::Cycle(ids) => {
                f.write_str("a cycle:")?;
                ids.iter().try_for_each(|id| write!(f, " {id}"))
            }
        }
    }
}

impl error::Error for Error {
    fn source(&self) -> Option<&(dyn error::Error + 'static)> {
        match self {
            Error::CommandError(source) => Some(&**source),
            Error::MetadataParseError(source) | Error::MetadataSerializeError(source) => {
                Some(source)
            }
            Error::TargetSpecError(_, source) => Some(source),
            _ => None,
        }
    }
}

/// Why a platform, or what is said of one, could not be read.
#[derive(Clone, Debug, PartialEq, Eq)]
#[non_exhaustive]
pub enum TargetSpecError {
    /// The text is neither a predicate, as `cfg(unix)`, nor the name of a platform.
    InvalidTargetSpec(String),
    /// No lines were to be had of the platform with this name, for this reason.
    UnknownPlatform(String, String),
    /// Of what is set for the platform with this name, this line sets nothing; the first line has number 1.
    InvalidCfg(String, usize),
}

impl fmt::Display for TargetSpecError {
    fn fmt(&self, f: &mut fmt::Formatter<'_>) -> fmt::Result {
        match self {
            TargetSpecError::InvalidTargetSpec(text) => {
                write!(f, "neither a predicate nor the name of a platform: {text}")
            }
            TargetSpecError::UnknownPlatform(triple, why) => {
                write!(f, "unknown platform {triple}: {why}")
            }
            TargetSpecError::InvalidCfg(triple, line) => {
                write!(f, "line {line} of what is set for {triple} sets nothing")
            }
        }
    }
}

impl error::Error for TargetSpecError {}

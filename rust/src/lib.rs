//! Package graphs of Cargo workspaces, under the names of [guppy](https://docs.rs/guppy) 0.19.1, with answers that
//! are proved: they come from `libguppy_c.a`, a library in Rattle. A program that takes
//!
//! ```toml
//! [dependencies]
//! guppy = { package = "guppy-proved", path = "../rust" }
//! ```
//!
//! keeps its `use` lines. In this crate's own documentation guppy goes by `guppy_proved`:
//!
//! ```no_run
//! use guppy_proved::graph::DependencyDirection;
//! use guppy_proved::MetadataCommand;
//!
//! let graph = MetadataCommand::new().build_graph()?;
//! let core = graph.workspace().member_by_name("core")?;
//! let dependents = graph.query_reverse([core.id()])?.resolve();
//! for package in dependents.packages(DependencyDirection::Reverse) {
//!     println!("{} {}", package.name(), package.version());
//! }
//! # Ok::<(), guppy_proved::Error>(())
//! ```
//!
//! "Proved" says of a call that its answer is the library's, whose contract is proved of whatever it is passed.
//! README.md says by which export, what is judged while it runs, and what is only tested.
#![deny(unsafe_code, missing_docs)]

#[cfg(not(all(
    target_os = "linux",
    target_arch = "x86_64",
    target_pointer_width = "64"
)))]
compile_error!("guppy-proved links libguppy_c.a, which is made for Linux on x86-64 alone");

mod dependency_kind;
pub mod errors;
pub mod graph;
mod metadata;
mod metadata_command;
mod package_id;
pub mod platform;
mod proved;
mod sys;

pub use dependency_kind::DependencyKind;
pub use errors::Error;
pub use metadata::CargoMetadata;
pub use metadata_command::MetadataCommand;
pub use package_id::PackageId;

pub use semver::{Version, VersionReq};
pub use serde_json::Value as JsonValue;

/// What `guppy-cargo` prints for these words of the workspace that the JSON describes, as `["why", "app", "core"]`: the
/// commands and options of docs/PROGRAM.md, but no file is read: what it has stands in the place of its name. It isn't in
/// guppy. Proved.
///
/// # Errors
///
/// [`Error::Refused`] has the line that `guppy-cargo` would tell, or says that a word has a NUL.
pub fn answer<'w>(
    json: impl AsRef<str>,
    words: impl IntoIterator<Item = &'w str>,
) -> Result<String, Error> {
    let words: Vec<_> = words.into_iter().collect();
    if words.iter().any(|word| word.contains('\0')) {
        return Err(Error::Refused("a word has a NUL".to_owned()));
    }
    proved::answer(json.as_ref(), &words).map_err(Error::Refused)
}

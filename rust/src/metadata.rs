use crate::graph::PackageGraph;
use crate::proved::{self, Refusal, RefusalKind};
use crate::Error;
use serde::de::IgnoredAny;
use serde::{de, ser};
use serde_json::value::RawValue;
use std::collections::BTreeMap;
use std::fmt;
use std::io::Write;

/// What `cargo metadata --format-version 1` printed, and what was read of it.
#[derive(Clone)]
pub struct CargoMetadata {
    json: String,
    // The same with an empty list of resolved dependencies, where none are resolved.
    light: Option<String>,
    records: Records,
}

/// The packages and links, as the library writes them.
#[derive(Clone)]
pub(crate) struct Records {
    pub(crate) text: String,
    /// Whether all details are among them.
    pub(crate) have_details: bool,
}

impl Records {
    fn of(json: &str, have_details: bool) -> Result<Self, Refusal> {
        let text = proved::records(json, have_details)?;
        Ok(Records { text, have_details })
    }
}

impl CargoMetadata {
    /// Reads the JSON, of which it keeps a copy; [`try_from`](CargoMetadata::try_from) keeps a `String` as it is. Cargo
    /// is best asked for `--all-features`. With `--no-deps` there are the workspace's members alone, and no links.
    ///
    /// What is read are the packages, links and workspace that the JSON describes. Proved. Details of packages and links,
    /// which most programs don't ask for, are read when they are first asked for.
    ///
    /// # Errors
    ///
    /// [`Error::MetadataParseError`] where it is not what Cargo prints, and [`Error::PackageGraphConstructError`] where
    /// it resolves a dependency to no package that it has, or to one that isn't declared.
    pub fn parse_json(json: impl AsRef<str>) -> Result<Self, Error> {
        Self::try_from(json.as_ref().to_owned())
    }

    /// Reads the JSON with all details of packages and links. Where some are asked for, that takes less time and memory
    /// than to read them when they are first asked for, and where they aren't such as Cargo prints, no call panics.
    /// Proved.
    ///
    /// # Errors
    ///
    /// Those of [`parse_json`](CargoMetadata::parse_json); [`Error::MetadataParseError`] also where details aren't such
    /// as Cargo prints.
    pub fn with_details(json: impl Into<String>) -> Result<Self, Error> {
        read(json.into(), true)
    }

    /// Writes the JSON that was read.
    ///
    /// # Errors
    ///
    /// [`Error::MetadataSerializeError`] where it can't be written.
    pub fn serialize(&self, writer: &mut impl Write) -> Result<(), Error> {
        let written = writer.write_all(self.json.as_bytes());
        written.map_err(|why| Error::MetadataSerializeError(ser::Error::custom(why)))
    }

    // The JSON that the library read, and what it wrote of it.
    pub(crate) fn into_parts(self) -> (String, Records) {
        (self.light.unwrap_or(self.json), self.records)
    }

    /// The graph of it, as [`PackageGraph::from_metadata`] makes it.
    ///
    /// # Errors
    ///
    /// Those of [`PackageGraph::from_metadata`].
    pub fn build_graph(self) -> Result<PackageGraph, Error> {
        PackageGraph::from_metadata(self)
    }
}

// It isn't in guppy.
impl TryFrom<String> for CargoMetadata {
    type Error = Error;

    fn try_from(json: String) -> Result<Self, Error> {
        read(json, false)
    }
}

// Reads metadata, with all details or without.
fn read(json: String, details: bool) -> Result<CargoMetadata, Error> {
    match Records::of(&json, details) {
        Ok(records) => Ok(CargoMetadata {
            json,
            light: None,
            records,
        }),
        Err(why) if why.kind == RefusalKind::NotResolved => read_light(json, details),
        Err(why) => Err(refused(&json, why)),
    }
}

// Reads metadata in which no dependency is resolved as the same with an empty list of resolved ones.
fn read_light(json: String, details: bool) -> Result<CargoMetadata, Error> {
    let light = with_nothing_resolved(&json).map_err(Error::MetadataParseError)?;
    let records = Records::of(&light, details).map_err(|why| refused(&light, why))?;
    Ok(CargoMetadata {
        json,
        light: Some(light),
        records,
    })
}

fn with_nothing_resolved(json: &str) -> Result<String, serde_json::Error> {
    let mut members: BTreeMap<String, &RawValue> = serde_json::from_str(json)?;
    let none = RawValue::from_string(r#"{"nodes":[],"root":null}"#.to_owned())?;
    members.insert("resolve".to_owned(), &none);
    serde_json::to_string(&members)
}

// Why the JSON is refused. Where it is none, serde says so, as it does in guppy.
fn refused(json: &str, why: Refusal) -> Error {
    let read = || serde_json::from_str::<IgnoredAny>(json);
    if let (RefusalKind::NotJson, Err(fault)) = (why.kind, read()) {
        return Error::MetadataParseError(fault);
    }
    let why = why.text;
    let is_of_graph = [": the ID of no package", ": no declared dependency fits"];
    if is_of_graph.iter().any(|end| why.ends_with(end)) {
        return Error::PackageGraphConstructError(why);
    }
    unread(why)
}

/// The error that says what of the metadata could not be read.
pub(crate) fn unread(why: impl fmt::Display) -> Error {
    Error::MetadataParseError(de::Error::custom(why))
}

impl fmt::Debug for CargoMetadata {
    fn fmt(&self, f: &mut fmt::Formatter<'_>) -> fmt::Result {
        write!(f, "CargoMetadata({} bytes)", self.json.len())
    }
}

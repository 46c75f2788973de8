//! The packages and links that the proved library read off the JSON, out of the one text that has them. The text is
//! kept, and texts in it are told by places.

use super::details::{table_of, version_req_of, Later};
use super::package::{Package, Source};
use super::package_link::{Link, Section};
use super::parts::{Parts, Span};
use crate::metadata::unread;
use crate::proved::{Ends, LinkFault};
use crate::{Error, JsonValue, PackageId};
use camino::Utf8Path;
use semver::{Version, VersionReq};
use std::collections::HashMap;
use std::sync::Arc;

/// Packages by position, and links by number.
#[derive(Clone)]
pub(super) struct Decoded {
    pub(super) text: Arc<String>,
    workspace: Workspace,
    // By position, in the order of the JSON.
    pub(super) default_members: Vec<usize>,
    table: Later<JsonValue>,
    // Where the details of packages begin in the text.
    pub(super) details: usize,
    pub(super) packages: Vec<Package>,
    positions: Positions,
    pub(super) ends: Vec<Ends>,
    pub(super) links: Vec<Link>,
    // Where a link isn't dev-only.
    pub(super) firm: Vec<bool>,
}

/// What is kept of the workspace, but for its table.
#[derive(Clone)]
pub(super) struct Workspace {
    root: Span,
    target_directory: Span,
    build_directory: Option<Span>,
    // The IDs.
    default_members: Vec<Span>,
}

// The positions of packages by their IDs.
type Positions = HashMap<String, u32>;

impl Parts<'_> {
    /// The workspace, but for its table.
    pub(super) fn workspace(&mut self) -> Workspace {
        Workspace {
            root: self.field(),
            target_directory: self.field(),
            build_directory: self.optional(),
            default_members: self.list(Self::field),
        }
    }

    fn source(&mut self) -> Source {
        match self.take() {
            b'w' => Source::Workspace(self.field()),
            b'p' => Source::Path(self.field()),
            _ => Source::External(self.field()),
        }
    }

    // The library refuses what is no version, by the same rules.
    fn version(&mut self) -> Result<Version, Error> {
        let text = self.text();
        Version::parse(text).map_err(|why| unread(format!("version {text}: {why}")))
    }

    fn package(&mut self) -> Result<Package, Error> {
        Ok(Package {
            id: PackageId::new(self.text()),
            name: self.field(),
            version: self.version()?,
            source: self.source(),
            manifest_path: self.field(),
            edition: self.field(),
            description: self.optional(),
            license: self.optional(),
            repository: self.optional(),
        })
    }

    // The list of packages.
    fn packages(&mut self) -> Result<Vec<Package>, Error> {
        let count = self.number(b';');
        (0..count).map(|_| self.package()).collect()
    }

    fn section(&mut self) -> Section {
        // Most have no dependency.
        if self.takes("0;0;") {
            return Section::NEVER;
        }
        Section {
            required: self.platforms(),
            optional: self.platforms(),
        }
    }

    fn link(&mut self) -> Link {
        Link {
            dep_name: self.field(),
            resolved_name: self.field(),
            normal: self.section(),
            build: self.section(),
            dev: self.section(),
            version_req: Later::of(self.field()),
        }
    }

    /// Passes over a package.
    pub(super) fn pass_package(&mut self) {
        // The ID, the name and the version.
        (0..3).for_each(|_| self.pass());
        self.source();
        // The manifest and the edition.
        (0..2).for_each(|_| self.pass());
        // The description, the license and the repository.
        (0..3).for_each(|_| self.pass_optional());
    }

    /// Passes over a link, and tells where its details stand.
    pub(super) fn link_in_short(&mut self) -> Span {
        // The ends, and both names.
        (0..4).for_each(|_| self.pass());
        // Where it is required and optional, in each section.
        (0..6).for_each(|_| self.pass_platforms());
        self.field()
    }

    // The links with their ends. Those that leave one package stand together, so its position is looked up once.
    fn links(&mut self, positions: &Positions) -> Result<(Vec<Ends>, Vec<Link>), Error> {
        let count = self.number(b';');
        let (mut ends, mut links) = (Vec::with_capacity(count), Vec::with_capacity(count));
        // The position that the last link leaves, and the field with its ID.
        let mut last = None;
        for _ in 0..count {
            let from = match last {
                Some((from, field)) if self.takes(field) => from,
                _ => {
                    let start = self.place();
                    let from = position(positions, self.text(), "link")?;
                    last = Some((from, self.between(start, self.place())));
                    from
                }
            };
            let to = position(positions, self.text(), "link")?;
            ends.push(Ends { from, to });
            links.push(self.link());
        }
        Ok((ends, links))
    }
}

// The position of the package that something names.
fn position(positions: &Positions, id: &str, of: &str) -> Result<u32, Error> {
    let unknown = || Error::PackageGraphConstructError(format!("a {of} of unknown package {id}"));
    positions.get(id).copied().ok_or_else(unknown)
}

fn positions(packages: &[Package]) -> Result<Positions, Error> {
    let mut positions = HashMap::with_capacity(packages.len());
    for (package, position) in packages.iter().zip(0..) {
        let id = package.id.repr().to_owned();
        if positions.insert(id, position).is_some() {
            let repeated = format!("repeated package ID: {}", package.id);
            return Err(Error::PackageGraphConstructError(repeated));
        }
    }
    Ok(positions)
}

impl Decoded {
    /// What the text has.
    pub(super) fn of(text: String) -> Result<Self, Error> {
        let mut parts = Parts::at(&text, 0);
        let workspace = parts.workspace();
        let table = Later::of(parts.field());
        let packages = parts.packages()?;
        let positions = positions(&packages)?;
        let (ends, links) = parts.links(&positions)?;
        let details = parts.place();
        let defaults = workspace.default_members.iter();
        let defaults =
            defaults.map(|id| Ok(position(&positions, id.of(&text), "default member")? as usize));
        Ok(Decoded {
            default_members: defaults.collect::<Result<_, Error>>()?,
            workspace,
            table,
            details,
            firm: links.iter().map(|link| !link.is_dev_only()).collect(),
            packages,
            positions,
            ends,
            links,
            text: Arc::new(text),
        })
    }

    /// The part of the text.
    pub(super) fn part(&self, span: Span) -> &str {
        span.of(&self.text)
    }

    /// The path of a package at a position, or the text that says where it comes from.
    pub(super) fn path(&self, position: usize) -> &Utf8Path {
        self.part(self.packages[position].source.part()).into()
    }

    /// The folder of the workspace.
    pub(super) fn root(&self) -> &Utf8Path {
        self.part(self.workspace.root).into()
    }

    /// The folder for what is built.
    pub(super) fn target_directory(&self) -> &Utf8Path {
        self.part(self.workspace.target_directory).into()
    }

    /// The folder for what is built on the way, where it is another one.
    pub(super) fn build_directory(&self) -> Option<&Utf8Path> {
        Some(self.part(self.workspace.build_directory?).into())
    }

    /// Which versions the link with the number accepts. The text has them also without details.
    pub(super) fn version_req(&self, number: usize) -> &VersionReq {
        let version_req = &self.links[number].version_req;
        version_req.get(|part| version_req_of(&self.text, part))
    }

    /// The free table of the workspace.
    pub(super) fn workspace_table(&self) -> &JsonValue {
        self.table.get(|part| table_of(&self.text, part))
    }

    /// The position of the package with the ID.
    pub(super) fn position(&self, id: &PackageId) -> Result<usize, Error> {
        let known = self.position_of(id.repr());
        known.ok_or_else(|| Error::UnknownPackageId(id.clone()))
    }

    /// The position of the package whose ID is written so.
    pub(super) fn position_of(&self, id: &str) -> Option<usize> {
        Some(*self.positions.get(id)? as usize)
    }

    /// The fault of the links in words.
    pub(super) fn told(&self, fault: LinkFault) -> Error {
        Error::PackageGraphConstructError(match fault {
            LinkFault::TooMany => "too many packages or links".to_owned(),
            LinkFault::At(number) => {
                let ends = self.ends[number];
                let id = |position: u32| self.packages[position as usize].id.repr();
                format!("a second link from {} to {}", id(ends.from), id(ends.to))
            }
        })
    }
}

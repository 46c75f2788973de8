//! The graph of packages, sets of them, and what is asked of both.

mod build_targets;
pub mod cargo;
mod command;
mod cycles;
mod decode;
mod depends;
mod details;
mod dot;
pub mod feature;
mod links_at;
mod package;
mod package_link;
mod package_publish;
mod package_source;
mod parts;
mod query;
mod resolve;
mod set;
mod workspace;

pub use build_targets::{BuildTarget, BuildTargetId, BuildTargetKind};
pub use cycles::Cycles;
pub use depends::DependsCache;
pub use dot::{DotWrite, PackageDotVisitor};
pub use package::PackageMetadata;
pub use package_link::{DependencyReq, EnabledStatus, PackageLink};
pub use package_publish::PackagePublish;
pub use package_source::{ExternalSource, GitReq, PackageSource};
pub use query::PackageQuery;
pub use resolve::{PackageLinkContext, PackageLinkVisitor};
pub use set::PackageSet;
pub use workspace::Workspace;

use crate::proved::{self, Components};
use crate::{CargoMetadata, Error, MetadataCommand, PackageId};
use camino::Utf8Path;
use decode::Decoded;
use details::Details;
use links_at::LinksAt;
use std::fmt;
use std::sync::OnceLock;

/// The direction of a walk.
#[derive(Clone, Copy, Debug, PartialEq, Eq, Hash)]
pub enum DependencyDirection {
    /// From dependents to their dependencies.
    Forward,
    /// From dependencies to their dependents.
    Reverse,
}

impl DependencyDirection {
    /// The other direction.
    pub fn opposite(self) -> Self {
        match self {
            DependencyDirection::Forward => DependencyDirection::Reverse,
            DependencyDirection::Reverse => DependencyDirection::Forward,
        }
    }

    fn is_forward(self) -> bool {
        self == DependencyDirection::Forward
    }
}

/// The packages of what `cargo metadata` prints, and the links between them.
#[derive(Clone)]
pub struct PackageGraph {
    json: String,
    decoded: Decoded,
    // A flag at each link.
    all: Vec<bool>,
    components: Components,
    // The links that leave and that enter each package.
    leaving: LinksAt,
    entering: LinksAt,
    // The positions of the workspace's members, by path and by name.
    members_by_path: Vec<usize>,
    members_by_name: Vec<usize>,
    // Whether the text with the packages and links has details, too. Else they are read when they are first asked for.
    has_details: bool,
    details: OnceLock<Details>,
}

// The members by a key of what names each, which is no other's.
fn sorted_by<'d, K: Ord>(
    what: &str,
    members: &[usize],
    name: impl Fn(usize) -> &'d str,
    key: impl Fn(&'d str) -> K,
) -> Result<Vec<usize>, Error> {
    let keys = members.iter().map(|at| (key(name(*at)), *at));
    let mut sorted: Vec<(K, usize)> = keys.collect();
    sorted.sort_unstable();
    let same = sorted.windows(2).find(|pair| pair[0].0 == pair[1].0);
    match same {
        Some(pair) => Err(Error::PackageGraphConstructError(format!(
            "two members have the {what} {}",
            name(pair[0].1)
        ))),
        None => Ok(sorted.into_iter().map(|(_, at)| at).collect()),
    }
}

/// Making a graph.
impl PackageGraph {
    /// The graph of what the command prints.
    ///
    /// # Errors
    ///
    /// Those of [`MetadataCommand::build_graph`].
    pub fn from_command(command: &mut MetadataCommand) -> Result<Self, Error> {
        command.build_graph()
    }

    /// The graph of what was read. Its packages and links are those that the JSON describes, which is proved. No
    /// ordered pair of packages may have two links, as in what Cargo prints.
    ///
    /// The graph keeps the JSON for [`affected`](PackageGraph::affected), and the text with its packages and links, in
    /// which their names and paths lie.
    ///
    /// # Errors
    ///
    /// [`Error::PackageGraphConstructError`] where two packages have one ID, or an ordered pair of them two links, where a
    /// link or default member is of no package, or two members have one path or one name.
    pub fn from_metadata(metadata: CargoMetadata) -> Result<Self, Error> {
        let (json, records) = metadata.into_parts();
        let decoded = Decoded::of(records.text)?;
        let (packages, ends) = (&decoded.packages, &decoded.ends);
        let count = packages.len();
        let components =
            proved::components(ends, &decoded.firm, count).map_err(|fault| decoded.told(fault))?;
        let members: Vec<_> = (0..count).filter(|at| packages[*at].is_member()).collect();
        let path = |at| decoded.path(at).as_str();
        // What a path has between slashes is parted once.
        let parted = |path| Utf8Path::new(path).components().collect::<Vec<_>>();
        let members_by_path = sorted_by("path", &members, path, parted)?;
        let name = |at: usize| decoded.part(packages[at].name);
        let members_by_name = sorted_by("name", &members, name, |name| name)?;
        Ok(PackageGraph {
            json,
            all: vec![true; ends.len()],
            components,
            leaving: LinksAt::of(count, ends, |link| link.from),
            entering: LinksAt::of(count, ends, |link| link.to),
            members_by_path,
            members_by_name,
            has_details: records.have_details,
            details: OnceLock::new(),
            decoded,
        })
    }

    /// The graph of what `cargo metadata --format-version 1` printed, as [`CargoMetadata::parse_json`] reads it and
    /// [`from_metadata`](PackageGraph::from_metadata) makes it.
    ///
    /// # Errors
    ///
    /// Those of both.
    pub fn from_json(json: impl AsRef<str>) -> Result<Self, Error> {
        CargoMetadata::parse_json(json)?.build_graph()
    }
}

/// Packages, links and the workspace.
impl PackageGraph {
    fn package(&self, position: usize) -> PackageMetadata<'_> {
        PackageMetadata {
            graph: self,
            position,
        }
    }

    fn link(&self, number: usize) -> PackageLink<'_> {
        PackageLink {
            graph: self,
            number,
        }
    }

    // The numbers of the links that leave the package in the direction.
    fn links_at(&self, position: usize, direction: DependencyDirection) -> &[usize] {
        match direction {
            DependencyDirection::Forward => self.leaving.at(position),
            DependencyDirection::Reverse => self.entering.at(position),
        }
    }

    // The link from the one package to the other.
    fn link_from_to(&self, from: usize, to: usize) -> Option<PackageLink<'_>> {
        let mut numbers = self.leaving.at(from).iter();
        let number = numbers.find(|number| self.decoded.ends[**number].to as usize == to)?;
        Some(self.link(*number))
    }

    fn details(&self) -> &Details {
        self.details.get_or_init(|| {
            if self.has_details {
                Details::within(&self.decoded)
            } else {
                Details::read(&self.json)
            }
        })
    }

    fn position(&self, id: &PackageId) -> Result<usize, Error> {
        self.decoded.position(id)
    }

    /// How many packages there are.
    pub fn package_count(&self) -> usize {
        self.decoded.packages.len()
    }

    /// How many links there are.
    pub fn link_count(&self) -> usize {
        self.decoded.ends.len()
    }

    /// All packages, as the JSON has them.
    pub fn packages(&self) -> impl ExactSizeIterator<Item = PackageMetadata<'_>> {
        (0..self.package_count()).map(|position| self.package(position))
    }

    /// The IDs of all packages.
    pub fn package_ids(&self) -> impl ExactSizeIterator<Item = &PackageId> {
        self.decoded.packages.iter().map(|package| &package.id)
    }

    /// The package with the ID.
    ///
    /// # Errors
    ///
    /// [`Error::UnknownPackageId`] where there is none.
    pub fn metadata(&self, package_id: &PackageId) -> Result<PackageMetadata<'_>, Error> {
        Ok(self.package(self.position(package_id)?))
    }

    /// The workspace.
    pub fn workspace(&self) -> Workspace<'_> {
        Workspace { graph: self }
    }

    /// Which packages depend on each other.
    pub fn cycles(&self) -> Cycles<'_> {
        Cycles { graph: self }
    }
}

/// What isn't in guppy, or means more here.
impl PackageGraph {
    /// That no links that aren't dev-only lead from a package to another and back. Proved.
    ///
    /// # Errors
    ///
    /// [`Error::Cycle`] has the IDs of packages round which such links lead.
    pub fn verify(&self) -> Result<(), Error> {
        let ends = &self.decoded.ends;
        let Some(cycle) = proved::cycle(ends, &self.decoded.firm, self.package_count()) else {
            return Ok(());
        };
        let ids = cycle
            .iter()
            .map(|at| self.package(*at as usize).id().clone());
        Err(Error::Cycle(ids.collect()))
    }

    /// The workspace's members in an order in which they can be published: each after every other member to which a
    /// path of links that aren't dev-only leads from it, also through packages that are no members. Proved.
    ///
    /// # Errors
    ///
    /// That of [`verify`](PackageGraph::verify).
    pub fn publish_order(&self) -> Result<Vec<PackageMetadata<'_>>, Error> {
        self.verify()?;
        let members = self.resolve_workspace();
        let listed = members.packages(DependencyDirection::Reverse).collect();
        Ok(listed)
    }

    /// The members to test when the files at these paths changed, what they depend on first: those whose folder holds
    /// one of them or lies in one, and those that depend on one of these. A path counts for all members where no
    /// package's folder holds it, or only that of one at the root, outside of `build.rs`, `src`, `tests`, `examples`
    /// and `benches`. Paths in an ignored folder count for nothing. Paths and folders are relative to the workspace's
    /// root.
    ///
    /// The JSON is read again. Proved.
    ///
    /// # Errors
    ///
    /// [`Error::Refused`] where a path has a NUL, which none has, or an ignored folder is the whole workspace.
    pub fn affected<'a>(
        &self,
        paths: impl IntoIterator<Item = &'a str>,
        ignored: impl IntoIterator<Item = &'a str>,
    ) -> Result<Vec<PackageMetadata<'_>>, Error> {
        let mut words = vec!["--ids".to_owned(), "affected".to_owned()];
        words.extend(paths.into_iter().map(|path| format!("./{path}")));
        // The library refuses to be asked about no path.
        if words.len() == 2 {
            return Ok(Vec::new());
        }
        for folder in ignored {
            words.extend(["--ignore".to_owned(), format!("./{folder}")]);
        }
        let answer = crate::answer(&self.json, words.iter().map(String::as_str))?;
        let ids = answer.lines().map(PackageId::new);
        ids.map(|id| self.metadata(&id)).collect()
    }
}

impl fmt::Debug for PackageGraph {
    fn fmt(&self, f: &mut fmt::Formatter<'_>) -> fmt::Result {
        write!(
            f,
            "PackageGraph({} packages, {} links)",
            self.package_count(),
            self.link_count()
        )
    }
}

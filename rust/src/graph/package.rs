use super::details::PackageDetails;
use super::parts::Span;
use super::{
    BuildTarget, BuildTargetId, BuildTargetKind, DependencyDirection, PackageGraph, PackageLink,
    PackagePublish, PackageQuery, PackageSet, PackageSource,
};
use crate::{Error, JsonValue, PackageId};
use camino::Utf8Path;
use semver::Version;
use std::fmt;

/// What is kept of a package.
#[derive(Clone)]
pub(super) struct Package {
    pub(super) id: PackageId,
    pub(super) name: Span,
    pub(super) version: Version,
    pub(super) source: Source,
    pub(super) manifest_path: Span,
    pub(super) edition: Span,
    pub(super) description: Option<Span>,
    pub(super) license: Option<Span>,
    pub(super) repository: Option<Span>,
}

impl Package {
    pub(super) fn is_member(&self) -> bool {
        matches!(self.source, Source::Workspace(_))
    }
}

/// Where a package comes from, as [`PackageSource`] has it.
#[derive(Clone, Copy)]
pub(super) enum Source {
    Workspace(Span),
    Path(Span),
    External(Span),
}

impl Source {
    /// The path or text.
    pub(super) fn part(self) -> Span {
        match self {
            Source::Workspace(part) | Source::Path(part) | Source::External(part) => part,
        }
    }
}

/// A package of a graph.
#[derive(Clone, Copy)]
pub struct PackageMetadata<'g> {
    pub(super) graph: &'g PackageGraph,
    pub(super) position: usize,
}

/// Its links, and walks from it.
impl<'g> PackageMetadata<'g> {
    /// The graph that it is of.
    pub fn graph(&self) -> &'g PackageGraph {
        self.graph
    }

    /// A walk in the direction that begins at it.
    pub fn to_package_query(&self, direction: DependencyDirection) -> PackageQuery<'g> {
        self.to_package_set().into_query(direction)
    }

    /// The set of it alone.
    pub fn to_package_set(&self) -> PackageSet<'g> {
        PackageSet::at(self.graph, [self.position])
    }

    /// The links that leave it in the direction.
    pub fn direct_links_directed(
        &self,
        direction: DependencyDirection,
    ) -> impl ExactSizeIterator<Item = PackageLink<'g>> + 'g + use<'g> {
        let graph = self.graph;
        let numbers = graph.links_at(self.position, direction);
        numbers.iter().map(|number| graph.link(*number))
    }

    /// The links that leave it, to what it depends on.
    pub fn direct_links(&self) -> impl ExactSizeIterator<Item = PackageLink<'g>> + 'g + use<'g> {
        self.direct_links_directed(DependencyDirection::Forward)
    }

    /// The links that lead to it, from what depends on it.
    pub fn reverse_direct_links(
        &self,
    ) -> impl ExactSizeIterator<Item = PackageLink<'g>> + 'g + use<'g> {
        self.direct_links_directed(DependencyDirection::Reverse)
    }

    /// The link between it and the other package: Forward from it to the other, Reverse from the other to it.
    ///
    /// # Errors
    ///
    /// [`Error::UnknownPackageId`] where no package has the ID.
    pub fn link_between(
        &self,
        other: &PackageId,
        direction: DependencyDirection,
    ) -> Result<Option<PackageLink<'g>>, Error> {
        match direction {
            DependencyDirection::Forward => self.link_to(other),
            DependencyDirection::Reverse => self.link_from(other),
        }
    }

    /// The link from it to the package.
    ///
    /// # Errors
    ///
    /// [`Error::UnknownPackageId`] where no package has the ID.
    pub fn link_to(&self, to: &PackageId) -> Result<Option<PackageLink<'g>>, Error> {
        let to = self.graph.position(to)?;
        Ok(self.graph.link_from_to(self.position, to))
    }

    /// The link from the package to it.
    ///
    /// # Errors
    ///
    /// [`Error::UnknownPackageId`] where no package has the ID.
    pub fn link_from(&self, from: &PackageId) -> Result<Option<PackageLink<'g>>, Error> {
        let from = self.graph.position(from)?;
        Ok(self.graph.link_from_to(from, self.position))
    }
}

/// What its manifest says. All of it is what the JSON says, which is proved.
impl<'g> PackageMetadata<'g> {
    fn package(&self) -> &'g Package {
        &self.graph.decoded.packages[self.position]
    }

    fn part(&self, part: Span) -> &'g str {
        self.graph.decoded.part(part)
    }

    /// Its ID.
    pub fn id(&self) -> &'g PackageId {
        &self.package().id
    }

    /// Its name.
    pub fn name(&self) -> &'g str {
        self.part(self.package().name)
    }

    /// Its version.
    pub fn version(&self) -> &'g Version {
        &self.package().version
    }

    /// What it is.
    pub fn description(&self) -> Option<&'g str> {
        self.package().description.map(|part| self.part(part))
    }

    /// The expression of its license.
    pub fn license(&self) -> Option<&'g str> {
        self.package().license.map(|part| self.part(part))
    }

    /// Where it comes from.
    pub fn source(&self) -> PackageSource<'g> {
        let source = self.package().source;
        let text = self.part(source.part());
        match source {
            Source::Workspace(_) => PackageSource::Workspace(text.into()),
            Source::Path(_) => PackageSource::Path(text.into()),
            Source::External(_) => PackageSource::External(text),
        }
    }

    /// Whether it is a member of the workspace.
    pub fn in_workspace(&self) -> bool {
        self.package().is_member()
    }

    /// The path of its manifest.
    pub fn manifest_path(&self) -> &'g Utf8Path {
        self.part(self.package().manifest_path).into()
    }

    /// The URL of its repository.
    pub fn repository(&self) -> Option<&'g str> {
        self.package().repository.map(|part| self.part(part))
    }

    /// The edition of Rust that it is written in.
    pub fn edition(&self) -> &'g str {
        self.part(self.package().edition)
    }
}

/// The rest of what its manifest says, which is what the JSON says, too: that is proved. The first of these calls on any
/// package or link of a graph reads the JSON once more, and keeps what it has of details, unless it was read with them
/// ([`CargoMetadata::with_details`](crate::CargoMetadata::with_details)).
///
/// They panic where the details are not such as Cargo prints, of any package or link of the JSON.
impl<'g> PackageMetadata<'g> {
    pub(super) fn details(&self) -> &'g PackageDetails {
        self.graph.details().package(self.position)
    }

    fn optional(&self, part: Option<Span>) -> Option<&'g str> {
        part.map(|part| part.of(self.graph.details().text()))
    }

    /// Its authors.
    pub fn authors(&self) -> &'g [String] {
        &self.details().authors
    }

    /// The path of the file with its license, from the folder of its manifest.
    pub fn license_file(&self) -> Option<&'g Utf8Path> {
        self.optional(self.details().license_file).map(Into::into)
    }

    /// Its categories.
    pub fn categories(&self) -> &'g [String] {
        &self.details().categories
    }

    /// Its keywords.
    pub fn keywords(&self) -> &'g [String] {
        &self.details().keywords
    }

    /// The path of its README, from the folder of its manifest.
    pub fn readme(&self) -> Option<&'g Utf8Path> {
        self.optional(self.details().readme).map(Into::into)
    }

    /// The URL of its homepage.
    pub fn homepage(&self) -> Option<&'g str> {
        self.optional(self.details().homepage)
    }

    /// The URL of its documentation.
    pub fn documentation(&self) -> Option<&'g str> {
        self.optional(self.details().documentation)
    }

    /// The free table `package.metadata`.
    pub fn metadata_table(&self) -> &'g JsonValue {
        self.graph.details().table(self.position)
    }

    /// The native library that it links.
    pub fn links(&self) -> Option<&'g str> {
        self.optional(self.details().links)
    }

    /// To which registries it can be published.
    pub fn publish(&self) -> PackagePublish<'g> {
        let registries = self.details().registries.as_deref();
        registries.map_or(PackagePublish::Unrestricted, PackagePublish::Registries)
    }

    /// The binary that `cargo run` runs where no other is asked for.
    pub fn default_run(&self) -> Option<&'g str> {
        self.optional(self.details().default_run)
    }

    /// The oldest Rust that builds it.
    pub fn rust_version(&self) -> Option<&'g Version> {
        self.details().rust_version.as_ref()
    }

    /// What Cargo builds of it, by ID.
    pub fn build_targets(&self) -> impl ExactSizeIterator<Item = BuildTarget<'g>> + use<'g> {
        let text = self.graph.details().text();
        let targets = self.details().targets.iter();
        targets.map(move |target| BuildTarget { text, target })
    }

    /// The one with the ID.
    pub fn build_target(&self, id: &BuildTargetId<'_>) -> Option<BuildTarget<'g>> {
        self.build_targets().find(|target| target.id() == *id)
    }

    /// Whether it is a procedural macro.
    pub fn is_proc_macro(&self) -> bool {
        let library = self.build_target(&BuildTargetId::Library);
        library.is_some_and(|library| library.kind() == BuildTargetKind::ProcMacro)
    }

    /// Whether it has a build script.
    pub fn has_build_script(&self) -> bool {
        self.build_target(&BuildTargetId::BuildScript).is_some()
    }

    /// Whether it has a feature `default`.
    pub fn has_default_feature(&self) -> bool {
        self.named_features().any(|name| name == "default")
    }

    /// The names of its features, as `[features]` has them.
    pub fn named_features(&self) -> impl ExactSizeIterator<Item = &'g str> + 'g + use<'g> {
        let text = self.graph.details().text();
        let names = self.details().named_features.iter();
        names.map(move |feature| feature.name.of(text))
    }
}

/// Equal are packages of one graph, by its address, and one position.
impl PartialEq for PackageMetadata<'_> {
    fn eq(&self, other: &Self) -> bool {
        std::ptr::eq(self.graph, other.graph) && self.position == other.position
    }
}

impl Eq for PackageMetadata<'_> {}

impl fmt::Debug for PackageMetadata<'_> {
    fn fmt(&self, f: &mut fmt::Formatter<'_>) -> fmt::Result {
        f.debug_struct("PackageMetadata")
            .field("package_id", &self.id().repr())
            .finish_non_exhaustive()
    }
}

use super::details::{Features, Later, LinkDetails, SectionDetails};
use super::parts::Span;
use super::{PackageGraph, PackageMetadata};
use crate::platform::{EnabledTernary, PlatformSpec, PlatformStatus, Platforms};
use crate::DependencyKind;
use camino::Utf8Path;
use semver::VersionReq;
use std::fmt;

/// What is kept of a link, beside its ends.
#[derive(Clone)]
pub(super) struct Link {
    pub(super) dep_name: Span,
    pub(super) resolved_name: Span,
    pub(super) normal: Section,
    pub(super) build: Section,
    pub(super) dev: Section,
    pub(super) version_req: Later<VersionReq>,
}

impl Link {
    pub(super) fn is_dev_only(&self) -> bool {
        self.normal.is_never() && self.build.is_never()
    }

    fn section(&self, kind: DependencyKind) -> &Section {
        match kind {
            DependencyKind::Normal => &self.normal,
            DependencyKind::Development => &self.dev,
            DependencyKind::Build => &self.build,
        }
    }
}

/// On which platforms a dependency in one section is there.
#[derive(Clone)]
pub(super) struct Section {
    pub(super) required: Platforms,
    pub(super) optional: Platforms,
}

impl Section {
    /// That of no dependency.
    pub(super) const NEVER: Self = Section {
        required: Platforms::Specs(Vec::new()),
        optional: Platforms::Specs(Vec::new()),
    };

    fn is_never(&self) -> bool {
        self.required.is_never() && self.optional.is_never()
    }
}

/// A link of a graph: that one package depends on another. What it says is what the JSON says, which is proved.
#[derive(Clone, Copy)]
pub struct PackageLink<'g> {
    pub(super) graph: &'g PackageGraph,
    pub(super) number: usize,
}

impl<'g> PackageLink<'g> {
    /// The package that depends on the other.
    pub fn from(&self) -> PackageMetadata<'g> {
        let from = self.graph.decoded.ends[self.number].from;
        self.graph.package(from as usize)
    }

    /// The package that it depends on.
    pub fn to(&self) -> PackageMetadata<'g> {
        let to = self.graph.decoded.ends[self.number].to;
        self.graph.package(to as usize)
    }

    /// Both packages.
    pub fn endpoints(&self) -> (PackageMetadata<'g>, PackageMetadata<'g>) {
        (self.from(), self.to())
    }

    fn link(&self) -> &'g Link {
        &self.graph.decoded.links[self.number]
    }

    /// The dependency's name in the manifest. Where it has several, as under other platforms, it is that of the first.
    pub fn dep_name(&self) -> &'g str {
        self.graph.decoded.part(self.link().dep_name)
    }

    /// The dependency's name in the code.
    pub fn resolved_name(&self) -> &'g str {
        self.graph.decoded.part(self.link().resolved_name)
    }

    fn details(&self) -> &'g LinkDetails {
        self.graph.details().link(self.number)
    }

    /// Which versions it accepts. Where it is declared several times, these are those of one declaration.
    pub fn version_req(&self) -> &'g VersionReq {
        self.graph.decoded.version_req(self.number)
    }

    /// The URL of the registry that it is looked for in, where it isn't crates.io.
    pub fn registry(&self) -> Option<&'g str> {
        let part = self.details().registry;
        part.map(|part| part.of(self.graph.details().text()))
    }

    /// The path of the dependency, where it is given by one.
    pub fn path(&self) -> Option<&'g Utf8Path> {
        let part = self.details().path;
        part.map(|part| part.of(self.graph.details().text()).into())
    }

    /// What it asks for in `[dependencies]`.
    pub fn normal(&self) -> DependencyReq<'g> {
        self.req_for_kind(DependencyKind::Normal)
    }

    /// What it asks for in `[build-dependencies]`.
    pub fn build(&self) -> DependencyReq<'g> {
        self.req_for_kind(DependencyKind::Build)
    }

    /// What it asks for in `[dev-dependencies]`.
    pub fn dev(&self) -> DependencyReq<'g> {
        self.req_for_kind(DependencyKind::Development)
    }

    /// What it asks for in the section.
    pub fn req_for_kind(&self, kind: DependencyKind) -> DependencyReq<'g> {
        DependencyReq { link: *self, kind }
    }

    /// Whether it stands in no other section than `[dev-dependencies]`, so that only tests, examples and benchmarks
    /// need it.
    pub fn dev_only(&self) -> bool {
        self.link().is_dev_only()
    }
}

impl fmt::Debug for PackageLink<'_> {
    fn fmt(&self, f: &mut fmt::Formatter<'_>) -> fmt::Result {
        f.debug_struct("PackageLink")
            .field("from", &self.from().id().repr())
            .field("to", &self.to().id().repr())
            .field("dep_name", &self.dep_name())
            .finish_non_exhaustive()
    }
}

/// What a link's dependencies ask for in one section.
#[derive(Clone, Copy)]
pub struct DependencyReq<'g> {
    link: PackageLink<'g>,
    kind: DependencyKind,
}

impl<'g> DependencyReq<'g> {
    fn section(&self) -> &'g Section {
        self.link.link().section(self.kind)
    }

    fn details(&self) -> &'g SectionDetails {
        let details = self.link.details();
        match self.kind {
            DependencyKind::Normal => &details.normal,
            DependencyKind::Development => &details.dev,
            DependencyKind::Build => &details.build,
        }
    }

    /// Whether one of them stands in the section, for some platform.
    pub fn is_present(&self) -> bool {
        !self.section().is_never()
    }

    /// Where it is there.
    pub fn status(&self) -> EnabledStatus<'g> {
        let section = self.section();
        EnabledStatus::of(&section.required, &section.optional)
    }

    // That of the features that the function picks.
    fn of_features(&self, pick: impl Fn(&'g Features) -> &'g Platforms) -> EnabledStatus<'g> {
        let details = self.details();
        let (required, optional) = (details.required.features(), details.optional.features());
        EnabledStatus::of(pick(required), pick(optional))
    }

    /// Where it is there with its default features.
    pub fn default_features(&self) -> EnabledStatus<'g> {
        self.of_features(|features| &features.default_features)
    }

    /// Where it is there without its default features.
    pub fn no_default_features(&self) -> EnabledStatus<'g> {
        self.of_features(|features| &features.no_default_features)
    }

    /// The features that are asked for somewhere: first by what is required, then by what is optional, each time by name.
    pub fn features(&self) -> impl Iterator<Item = &'g str> + use<'g> {
        let (text, details) = (self.link.graph.details().text(), self.details());
        let both = [&details.required, &details.optional];
        let named = both.into_iter().flat_map(|asked| &asked.features().named);
        named.map(move |(name, _)| name.of(text))
    }

    /// Where the feature is asked for.
    pub fn feature_status(&self, feature: &str) -> EnabledStatus<'g> {
        let text = self.link.graph.details().text();
        self.of_features(|features| features.status(text, feature))
    }
}

impl fmt::Debug for DependencyReq<'_> {
    fn fmt(&self, f: &mut fmt::Formatter<'_>) -> fmt::Result {
        f.debug_struct("DependencyReq")
            .field("status", &self.status())
            .finish_non_exhaustive()
    }
}

/// On which platforms a dependency is there, by itself or where a feature asks for it.
#[derive(Clone, Copy, Debug)]
pub struct EnabledStatus<'g> {
    required: PlatformStatus<'g>,
    optional: PlatformStatus<'g>,
}

impl<'g> EnabledStatus<'g> {
    fn of(required: &'g Platforms, optional: &'g Platforms) -> Self {
        EnabledStatus {
            required: PlatformStatus::of(required),
            optional: PlatformStatus::of(optional),
        }
    }

    /// Whether it is there on none.
    pub fn is_never(&self) -> bool {
        self.required.is_never() && self.optional.is_never()
    }

    /// Whether it is required there, as [`PlatformStatus::enabled_on`] says.
    pub fn required_on(&self, platform_spec: &PlatformSpec) -> EnabledTernary {
        self.required.enabled_on(platform_spec)
    }

    /// Whether it is required or optional there, as [`PlatformStatus::enabled_on`] says.
    pub fn enabled_on(&self, platform_spec: &PlatformSpec) -> EnabledTernary {
        self.required.enabled_on(platform_spec) | self.optional.enabled_on(platform_spec)
    }

    /// Where it is required.
    pub fn required_status(&self) -> PlatformStatus<'g> {
        self.required
    }

    /// Where it is optional.
    pub fn optional_status(&self) -> PlatformStatus<'g> {
        self.optional
    }
}

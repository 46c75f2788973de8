//! That types have the traits, signatures and lifetimes on which programs over guppy rely: this compiles or doesn't.
#![allow(dead_code)]
// What programs may write is what is tried.
#![allow(
    clippy::type_complexity,
    clippy::needless_borrows_for_generic_args,
    clippy::nonminimal_bool
)]

extern crate guppy_proved as guppy;

use camino::{Utf8Path, Utf8PathBuf};
use guppy::errors::TargetSpecError;
use guppy::graph::cargo::{BuildPlatform, CargoOptions, CargoResolverVersion, CargoSet};
use guppy::graph::feature::{
    named_feature_filter, FeatureFilter, FeatureFilterFn, FeatureGraph, FeatureId, FeatureLabel,
    FeatureList, FeatureSet, StandardFeatures,
};
use guppy::graph::{
    BuildTarget, BuildTargetId, BuildTargetKind, Cycles, DependencyDirection, DependencyReq,
    DependsCache, DotWrite, EnabledStatus, ExternalSource, GitReq, PackageDotVisitor, PackageGraph,
    PackageLink, PackageLinkContext, PackageMetadata, PackagePublish, PackageQuery, PackageSet,
    PackageSource, Workspace,
};
use guppy::platform::{
    EnabledTernary, Platform, PlatformEval, PlatformSpec, PlatformStatus, TargetFeatures,
    TargetSpec,
};
use guppy::{CargoMetadata, DependencyKind, Error, JsonValue, MetadataCommand, PackageId};
use guppy::{Version, VersionReq};
use std::error::Error as StdError;
use std::fmt::{self, Debug, Display};
use std::hash::Hash;
use std::process::Command;
use std::sync::Arc;

fn is_shared<T: Send + Sync + Debug>() {}
fn is_cloned<T: Clone + Debug>() {}
fn is_copied<T: Copy + Debug>() {}
fn is_compared<T: Eq + Hash>() {}
fn is_ordered<T: Ord>() {}
fn is_displayed<T: Display>() {}
fn is_error<T: StdError + Send + Sync + 'static>() {}
fn is_exact<T>(_: impl ExactSizeIterator<Item = T>) {}

#[test]
fn types_have_their_traits() {
    is_shared::<(
        PackageGraph,
        DependsCache<'_>,
        Workspace<'_>,
        PackageMetadata<'_>,
    )>();
    is_shared::<(
        PackageLink<'_>,
        PackageSet<'_>,
        PackageQuery<'_>,
        PackageLinkContext<'_>,
    )>();
    is_shared::<(
        CargoMetadata,
        MetadataCommand,
        Error,
        PackageId,
        Platform,
        PlatformSpec,
    )>();
    is_cloned::<(
        PackageGraph,
        DependsCache<'_>,
        Workspace<'_>,
        PackageSet<'_>,
        PackageQuery<'_>,
    )>();
    is_cloned::<(
        PackageLinkContext<'_>,
        CargoMetadata,
        MetadataCommand,
        DependencyReq<'_>,
    )>();
    is_copied::<(
        PackageMetadata<'_>,
        PackageLink<'_>,
        EnabledStatus<'_>,
        PlatformStatus<'_>,
    )>();
    is_copied::<(
        PlatformEval<'_>,
        PackageSource<'_>,
        ExternalSource<'_>,
        GitReq<'_>,
    )>();
    is_copied::<(DependencyDirection, DependencyKind, EnabledTernary)>();
    is_compared::<(
        PackageId,
        PackageSource<'_>,
        ExternalSource<'_>,
        GitReq<'_>,
        EnabledTernary,
    )>();
    is_compared::<(
        DependencyDirection,
        DependencyKind,
        Platform,
        TargetFeatures,
        TargetSpec,
    )>();
    is_ordered::<(PackageId, EnabledTernary)>();
    is_shared::<(
        BuildTarget<'_>,
        BuildTargetId<'_>,
        BuildTargetKind<'_>,
        PackagePublish<'_>,
    )>();
    is_copied::<(BuildTargetId<'_>, PackagePublish<'_>)>();
    is_compared::<(BuildTargetId<'_>, BuildTargetKind<'_>, PackagePublish<'_>)>();
    is_ordered::<(BuildTargetId<'_>, BuildTargetKind<'_>)>();
    is_shared::<(FeatureGraph<'_>, FeatureSet<'_>, FeatureList<'_>)>();
    is_shared::<(CargoOptions<'_>, CargoSet<'_>)>();
    is_cloned::<(FeatureSet<'_>, FeatureList<'_>)>();
    is_cloned::<(CargoOptions<'_>, CargoSet<'_>)>();
    is_copied::<(FeatureGraph<'_>, FeatureId<'_>, FeatureLabel<'_>)>();
    is_copied::<(StandardFeatures, BuildPlatform, CargoResolverVersion)>();
    is_compared::<(FeatureId<'_>, FeatureLabel<'_>, StandardFeatures)>();
    is_ordered::<(FeatureId<'_>, FeatureLabel<'_>, BuildPlatform)>();
    is_displayed::<FeatureId<'_>>();
    is_displayed::<FeatureLabel<'_>>();
    is_displayed::<PackageId>();
    is_displayed::<DependencyKind>();
    is_displayed::<PackageSource<'_>>();
    is_displayed::<ExternalSource<'_>>();
    is_displayed::<TargetSpec>();
    is_error::<Error>();
    is_error::<TargetSpecError>();
}

// What borrows from a graph may be taken for what borrows for less long.
fn is_covariant<'a: 'b, 'b>(
    it: (
        PackageSet<'a>,
        PackageQuery<'a>,
        PackageMetadata<'a>,
        PackageLink<'a>,
        Workspace<'a>,
    ),
    more: (
        PackageSource<'a>,
        EnabledStatus<'a>,
        PlatformStatus<'a>,
        PlatformEval<'a>,
        Cycles<'a>,
    ),
) -> (
    (
        PackageSet<'b>,
        PackageQuery<'b>,
        PackageMetadata<'b>,
        PackageLink<'b>,
        Workspace<'b>,
    ),
    (
        PackageSource<'b>,
        EnabledStatus<'b>,
        PlatformStatus<'b>,
        PlatformEval<'b>,
        Cycles<'b>,
    ),
) {
    (it, more)
}

fn features_are_covariant<'a: 'b, 'b>(
    it: (FeatureSet<'a>, FeatureList<'a>, FeatureId<'a>, CargoSet<'a>),
    options: CargoOptions<'a>,
) -> (
    (FeatureSet<'b>, FeatureList<'b>, FeatureId<'b>, CargoSet<'b>),
    CargoOptions<'b>,
) {
    (it, options)
}

// Filters are taken in each form.
fn features_are_filtered<'g>(
    set: &PackageSet<'g>,
    boxed: Box<dyn FeatureFilter<'g> + '_>,
    names: &[&str],
) -> [FeatureSet<'g>; 4] {
    let mut odd = false;
    let mut every_other = FeatureFilterFn::new(|_: &FeatureGraph<'g>, _: FeatureId<'g>| {
        odd = !odd;
        odd
    });
    let named = named_feature_filter(StandardFeatures::Default, names.iter().copied());
    [
        set.to_feature_set(boxed),
        set.to_feature_set(&mut every_other),
        set.to_feature_set(&mut every_other as &mut dyn FeatureFilter<'g>),
        set.to_feature_set(named_feature_filter(named, ["more"])),
    ]
}

// What is taken out of a view lives as long as the graph, and not only as the view.
fn lives_long<'g>(graph: &'g PackageGraph, id: &PackageId) -> Result<Vec<&'g str>, Error> {
    let package = graph
        .workspace()
        .iter()
        .next()
        .ok_or(Error::UnknownPackageId(id.clone()))?;
    let links = package.direct_links().chain(package.reverse_direct_links());
    let names = links.map(|link| link.to().name());
    let (paths, _): (Vec<&'g Utf8Path>, Vec<_>) = graph.workspace().iter_by_path().unzip();
    let ids = graph.cycles().all_cycles().flatten().map(PackageId::repr);
    let paths = paths.into_iter().map(Utf8Path::as_str);
    Ok(names.chain(ids).chain(paths).collect())
}

fn are_exact<'g>(graph: &'g PackageGraph, set: &PackageSet<'g>, direction: DependencyDirection) {
    is_exact::<PackageMetadata<'g>>(graph.packages());
    is_exact::<&PackageId>(graph.package_ids());
    is_exact::<PackageMetadata<'g>>(set.packages(direction));
    is_exact::<&PackageId>(set.package_ids(direction));
    is_exact::<PackageMetadata<'g>>(set.root_packages(direction));
    is_exact::<&PackageId>(set.root_ids(direction));
    is_exact::<&PackageId>(graph.workspace().member_ids());
    is_exact::<(&str, PackageMetadata<'g>)>(graph.workspace().iter_by_name());
}

// IDs, paths and names are taken in each form.
fn each_form_is_taken(
    graph: &PackageGraph,
    ids: &[PackageId],
    lent: &[&PackageId],
) -> Result<(), Error> {
    let _ = (
        graph.query_forward(ids)?,
        graph.resolve_ids(lent.iter().copied())?,
    );
    let _ = graph.query_workspace_paths(["a"])?.initials().len();
    let _ = graph.resolve_workspace_paths([Utf8PathBuf::from("a")])?;
    let _ = graph.query_workspace_names(vec![String::from("a")])?;
    let _ = graph.resolve_workspace_names(&["a"])?;
    let _ = (
        graph.resolve_package_name("a"),
        graph.resolve_package_name(String::from("a")),
    );
    let _ = (
        PackageGraph::from_json("")?,
        PackageGraph::from_json(&String::new())?,
    );
    let _ = (
        PackageId::new("a"),
        PackageId::new(String::from("a")),
        PackageId::new(Box::<str>::from("a")),
    );
    Ok(())
}

fn errors_are_matched(error: Error) -> Option<String> {
    match error {
        Error::CommandError(why) => Some(why.to_string()),
        Error::MetadataParseError(why) | Error::MetadataSerializeError(why) => {
            let why: serde_json::Error = why;
            Some(why.to_string())
        }
        Error::PackageGraphConstructError(why) | Error::PackageGraphInternalError(why) => Some(why),
        Error::UnknownPackageId(id) => Some(id.repr().to_owned()),
        Error::UnknownWorkspacePath(path) => Some(Utf8PathBuf::into_string(path)),
        Error::UnknownWorkspaceName(name) | Error::TargetSpecError(name, _) => Some(name),
        _ => None,
    }
}

fn other_types_are_the_ecosystems(package: PackageMetadata<'_>) -> (&semver::Version, &Utf8Path) {
    let _: (Version, VersionReq) = (semver::Version::new(1, 0, 0), semver::VersionReq::STAR);
    let _: JsonValue = serde_json::Value::Null;
    let _: Command = MetadataCommand::new().cargo_command();
    (package.version(), package.manifest_path())
}

fn platforms_are_made(one: Platform, shared: Arc<Platform>) -> Vec<PlatformSpec> {
    let several = PlatformSpec::platforms([shared.clone()]);
    vec![
        one.into(),
        shared.into(),
        several,
        PlatformSpec::Any,
        PlatformSpec::Always,
    ]
}

// `write!` on a label needs no `use`.
struct Name;

impl PackageDotVisitor for Name {
    fn visit_package(&self, package: PackageMetadata<'_>, f: &mut DotWrite<'_, '_>) -> fmt::Result {
        write!(f, "{}", package.name())
    }

    fn visit_link(&self, _: PackageLink<'_>, _: &mut DotWrite<'_, '_>) -> fmt::Result {
        Ok(())
    }
}

#[test]
fn ids_are_compared_with_borrowed_ones() {
    let (one, other) = (PackageId::new("a"), PackageId::new("b"));
    let (lent, other_lent) = (&one, &other);
    assert!(one == lent && lent == one && one != other_lent && lent != other);
    assert_eq!((one.to_string(), one.repr()), ("a".to_owned(), "a"));
}

#[test]
fn kinds_and_directions_are_told() {
    let kinds = DependencyKind::VALUES.map(|kind| (kind.to_str(), kind.to_string()));
    assert_eq!(
        kinds,
        ["normal", "dev", "build"].map(|name| (name, name.to_owned()))
    );
    assert_eq!(
        DependencyDirection::Forward.opposite(),
        DependencyDirection::Reverse
    );
    assert_eq!(
        DependencyDirection::Reverse.opposite(),
        DependencyDirection::Forward
    );
}

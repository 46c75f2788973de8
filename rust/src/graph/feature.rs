//! Features of packages, and sets of them.
//!
//! There is no graph of features here: which features follow from others, across packages, is
//! [`cargo`](super::cargo)'s to tell.

use super::{DependencyDirection, PackageGraph, PackageMetadata, PackageSet};
use crate::{Error, PackageId};
use std::collections::{BTreeSet, HashSet};
use std::fmt;

/// What of a package is built: the package without any of its features, or with one.
#[derive(Clone, Copy, Debug, PartialEq, Eq, PartialOrd, Ord, Hash)]
pub enum FeatureLabel<'g> {
    /// The package itself.
    Base,
    /// Its feature with this name. An optional dependency that no feature names as `dep:x` has one of its name.
    Named(&'g str),
}

impl fmt::Display for FeatureLabel<'_> {
    fn fmt(&self, f: &mut fmt::Formatter<'_>) -> fmt::Result {
        f.write_str(match self {
            FeatureLabel::Base => "[base]",
            FeatureLabel::Named(name) => name,
        })
    }
}

/// A package, or a feature of it.
#[derive(Clone, Copy, Debug, PartialEq, Eq, PartialOrd, Ord, Hash)]
pub struct FeatureId<'g> {
    package_id: &'g PackageId,
    label: FeatureLabel<'g>,
}

impl<'g> FeatureId<'g> {
    /// This of the package with the ID.
    pub fn new(package_id: &'g PackageId, label: FeatureLabel<'g>) -> Self {
        FeatureId { package_id, label }
    }

    /// The package with the ID itself.
    pub fn base(package_id: &'g PackageId) -> Self {
        FeatureId::new(package_id, FeatureLabel::Base)
    }

    /// The package's feature with the name.
    pub fn named(package_id: &'g PackageId, feature_name: &'g str) -> Self {
        FeatureId::new(package_id, FeatureLabel::Named(feature_name))
    }

    /// The ID of the package.
    pub fn package_id(&self) -> &'g PackageId {
        self.package_id
    }

    /// What of it is meant.
    pub fn label(&self) -> FeatureLabel<'g> {
        self.label
    }

    /// Whether it is the package itself.
    pub fn is_base(&self) -> bool {
        self.label == FeatureLabel::Base
    }

    fn unknown(&self) -> Error {
        Error::UnknownFeatureId(self.package_id.clone(), self.label.to_string())
    }
}

impl<'g> From<(&'g PackageId, &'g str)> for FeatureId<'g> {
    fn from((package_id, feature_name): (&'g PackageId, &'g str)) -> Self {
        FeatureId::named(package_id, feature_name)
    }
}

impl<'g> From<(&'g PackageId, FeatureLabel<'g>)> for FeatureId<'g> {
    fn from((package_id, label): (&'g PackageId, FeatureLabel<'g>)) -> Self {
        FeatureId::new(package_id, label)
    }
}

impl fmt::Display for FeatureId<'_> {
    fn fmt(&self, f: &mut fmt::Formatter<'_>) -> fmt::Result {
        write!(f, "{}/{}", self.package_id, self.label)
    }
}

/// Which packages and features are taken into a set.
pub trait FeatureFilter<'g> {
    /// Whether this one is.
    fn accept(&mut self, graph: &FeatureGraph<'g>, feature_id: FeatureId<'g>) -> bool;
}

impl<'g, T: FeatureFilter<'g> + ?Sized> FeatureFilter<'g> for &mut T {
    fn accept(&mut self, graph: &FeatureGraph<'g>, feature_id: FeatureId<'g>) -> bool {
        (**self).accept(graph, feature_id)
    }
}

impl<'g> FeatureFilter<'g> for Box<dyn FeatureFilter<'g> + '_> {
    fn accept(&mut self, graph: &FeatureGraph<'g>, feature_id: FeatureId<'g>) -> bool {
        (**self).accept(graph, feature_id)
    }
}

/// Those for which the function answers true.
#[derive(Clone, Debug)]
pub struct FeatureFilterFn<F>(F);

impl<F> FeatureFilterFn<F> {
    /// Those for which this one does.
    pub fn new<'g>(f: F) -> Self
    where
        F: FnMut(&FeatureGraph<'g>, FeatureId<'g>) -> bool,
    {
        FeatureFilterFn(f)
    }
}

impl<'g, F> FeatureFilter<'g> for FeatureFilterFn<F>
where
    F: FnMut(&FeatureGraph<'g>, FeatureId<'g>) -> bool,
{
    fn accept(&mut self, graph: &FeatureGraph<'g>, feature_id: FeatureId<'g>) -> bool {
        (self.0)(graph, feature_id)
    }
}

/// Those that the filter accepts, and each feature with one of these names.
pub fn named_feature_filter<'g: 'a, 'a>(
    base: impl FeatureFilter<'g> + 'a,
    features: impl IntoIterator<Item = &'a str>,
) -> impl FeatureFilter<'g> + 'a {
    let (mut base, names): (_, HashSet<&str>) = (base, features.into_iter().collect());
    FeatureFilterFn::new(move |graph: &FeatureGraph<'g>, id: FeatureId<'g>| {
        let is_named = matches!(id.label, FeatureLabel::Named(name) if names.contains(name));
        base.accept(graph, id) || is_named
    })
}

/// The packages themselves, each with some of its features.
#[derive(Clone, Copy, Debug, PartialEq, Eq, PartialOrd, Ord, Hash)]
pub enum StandardFeatures {
    /// None, as by `--no-default-features`.
    None,
    /// `default` and those that it switches on, if there is one.
    Default,
    /// All, as by `--all-features`.
    All,
}

impl<'g> FeatureFilter<'g> for StandardFeatures {
    fn accept(&mut self, graph: &FeatureGraph<'g>, feature_id: FeatureId<'g>) -> bool {
        let FeatureLabel::Named(name) = feature_id.label else {
            return true;
        };
        match self {
            StandardFeatures::None => false,
            StandardFeatures::Default => {
                let package = graph.package_graph().metadata(feature_id.package_id);
                package.is_ok_and(|package| package.is_default(name))
            }
            StandardFeatures::All => true,
        }
    }
}

impl<'g> PackageMetadata<'g> {
    /// Its feature `default`, or the package itself where it has none.
    pub fn default_feature_id(&self) -> FeatureId<'g> {
        if self.has_default_feature() {
            FeatureId::named(self.id(), "default")
        } else {
            FeatureId::base(self.id())
        }
    }

    /// What the filter accepts of it and its features.
    pub fn to_feature_set(&self, filter: impl FeatureFilter<'g>) -> FeatureSet<'g> {
        self.to_package_set().to_feature_set(filter)
    }

    // The feature of this name, which is kept with the graph.
    fn feature_named(&self, name: &str) -> Option<&'g str> {
        self.named_features().find(|feature| *feature == name)
    }

    // Whether the feature is `default` or one that it switches on.
    fn is_default(&self, name: &str) -> bool {
        let defaults = self.details().defaults(self.graph.details().text());
        let mut features = self.named_features().zip(defaults);
        features.any(|(feature, is_default)| *is_default && feature == name)
    }

    // The names of these of its features.
    pub(super) fn standard_features(&self, features: StandardFeatures) -> BTreeSet<&'g str> {
        match features {
            StandardFeatures::None => BTreeSet::new(),
            StandardFeatures::Default => self.with_given(["default"]),
            StandardFeatures::All => self.named_features().collect(),
        }
    }

    // The names of those of its features that are called so, and of those that these switch on.
    pub(super) fn with_given<'a>(
        &self,
        names: impl IntoIterator<Item = &'a str>,
    ) -> BTreeSet<&'g str> {
        let text = self.graph.details().text();
        self.details().with_given(text, names)
    }
}

impl<'g> PackageSet<'g> {
    /// What the filter accepts of these packages and their features: it is asked once about each of both, package by
    /// package, of each first about itself. With [`StandardFeatures`] it is the packages with these of their features.
    pub fn to_feature_set(&self, mut filter: impl FeatureFilter<'g>) -> FeatureSet<'g> {
        let graph = self.graph().feature_graph();
        let mut set = graph.resolve_none();
        for package in self.packages(DependencyDirection::Forward) {
            let named = package.named_features().map(FeatureLabel::Named);
            let mut labels: Vec<_> = [FeatureLabel::Base].into_iter().chain(named).collect();
            labels.retain(|label| filter.accept(&graph, FeatureId::new(package.id(), *label)));
            set.set(package, labels);
        }
        set
    }
}

/// The features of the packages of a graph. It is no graph: it has none of guppy's calls but those that make sets.
#[derive(Clone, Copy, Debug)]
pub struct FeatureGraph<'g> {
    graph: &'g PackageGraph,
}

impl PackageGraph {
    /// The features of its packages.
    pub fn feature_graph(&self) -> FeatureGraph<'_> {
        FeatureGraph { graph: self }
    }
}

impl<'g> FeatureGraph<'g> {
    /// The graph of these packages.
    pub fn package_graph(&self) -> &'g PackageGraph {
        self.graph
    }

    /// No package, and no feature.
    pub fn resolve_none(&self) -> FeatureSet<'g> {
        FeatureSet::none(self.graph)
    }

    /// Exactly these packages and features: nothing is followed.
    ///
    /// # Errors
    ///
    /// [`Error::UnknownFeatureId`] with the first one that there isn't.
    pub fn resolve_ids<'a>(
        &self,
        feature_ids: impl IntoIterator<Item = impl Into<FeatureId<'a>>>,
    ) -> Result<FeatureSet<'g>, Error> {
        let mut labels = vec![Vec::new(); self.graph.package_count()];
        for id in feature_ids {
            let (package, label) = self.graph.feature(id.into())?;
            labels[package.position].push(label);
        }
        let mut set = self.resolve_none();
        for (package, labels) in self.graph.packages().zip(labels) {
            set.set(package, labels);
        }
        Ok(set)
    }
}

impl PackageGraph {
    // The package, and what of it is meant.
    fn feature(&self, id: FeatureId<'_>) -> Result<(PackageMetadata<'_>, FeatureLabel<'_>), Error> {
        let package = self.metadata(id.package_id).map_err(|_| id.unknown())?;
        let label = match id.label {
            FeatureLabel::Base => Some(FeatureLabel::Base),
            FeatureLabel::Named(name) => package.feature_named(name).map(FeatureLabel::Named),
        };
        Ok((package, label.ok_or_else(|| id.unknown())?))
    }
}

/// A set of packages of a graph and of features of them.
#[derive(Clone, Debug)]
pub struct FeatureSet<'g> {
    graph: &'g PackageGraph,
    // What it has of each package, sorted.
    labels: Vec<Vec<FeatureLabel<'g>>>,
}

impl<'g> FeatureSet<'g> {
    pub(super) fn none(graph: &'g PackageGraph) -> Self {
        FeatureSet {
            graph,
            labels: vec![Vec::new(); graph.package_count()],
        }
    }

    // Makes it have this of the package.
    pub(super) fn set(
        &mut self,
        package: PackageMetadata<'g>,
        labels: impl IntoIterator<Item = FeatureLabel<'g>>,
    ) {
        let of_package = &mut self.labels[package.position];
        *of_package = labels.into_iter().collect();
        of_package.sort_unstable();
        of_package.dedup();
    }

    fn list(&self, package: PackageMetadata<'g>) -> Option<FeatureList<'g>> {
        let labels = self.labels[package.position].clone();
        (!labels.is_empty()).then_some(FeatureList { package, labels })
    }

    /// The features of the packages of its graph.
    pub fn graph(&self) -> FeatureGraph<'g> {
        self.graph.feature_graph()
    }

    /// How many features it has, each package itself counted as one.
    pub fn len(&self) -> usize {
        self.labels.iter().map(Vec::len).sum()
    }

    /// Whether it has none.
    pub fn is_empty(&self) -> bool {
        self.labels.iter().all(Vec::is_empty)
    }

    /// Whether it has the feature.
    ///
    /// # Errors
    ///
    /// [`Error::UnknownFeatureId`] where the graph has no such feature.
    pub fn contains<'a>(&self, feature_id: impl Into<FeatureId<'a>>) -> Result<bool, Error> {
        let (package, label) = self.graph.feature(feature_id.into())?;
        Ok(has(&self.labels[package.position], &label))
    }

    /// Whether it has anything of the package.
    ///
    /// # Errors
    ///
    /// [`Error::UnknownPackageId`] where the graph has no package with the ID.
    pub fn contains_package(&self, package_id: &PackageId) -> Result<bool, Error> {
        Ok(!self.labels[self.graph.position(package_id)?].is_empty())
    }

    /// What it has of the package, if that is anything.
    ///
    /// # Errors
    ///
    /// [`Error::UnknownPackageId`] where the graph has no package with the ID.
    pub fn features_for(&self, package_id: &PackageId) -> Result<Option<FeatureList<'g>>, Error> {
        Ok(self.list(self.graph.metadata(package_id)?))
    }

    /// What it has of each package, in the order of [`PackageSet::packages`].
    pub fn packages_with_features<'a>(
        &'a self,
        direction: DependencyDirection,
    ) -> impl Iterator<Item = FeatureList<'g>> + 'a {
        let packages: Vec<_> = self.to_package_set().packages(direction).collect();
        packages
            .into_iter()
            .filter_map(|package| self.list(package))
    }

    /// The packages of which it has anything.
    pub fn to_package_set(&self) -> PackageSet<'g> {
        let included = self.labels.iter().map(|labels| !labels.is_empty());
        PackageSet::of(self.graph, included.collect())
    }
}

// Whether the label is among these, which are sorted.
fn has(labels: &[FeatureLabel<'_>], label: &FeatureLabel<'_>) -> bool {
    labels.binary_search(label).is_ok()
}

/// Two sets.
impl FeatureSet<'_> {
    // The features of either set that are picked by whether the one has it and whether the other does.
    fn with(&self, other: &Self, picked: impl Fn(bool, bool) -> bool) -> Self {
        assert!(std::ptr::eq(self.graph, other.graph), "sets of two graphs");
        let mut set = FeatureSet::none(self.graph);
        for package in self.graph.packages() {
            let [one, two] = [self, other].map(|it| it.labels[package.position].as_slice());
            let labels = one.iter().chain(two).copied();
            let labels = labels.filter(|label| picked(has(one, label), has(two, label)));
            set.set(package, labels);
        }
        set
    }

    /// The features of either set.
    ///
    /// # Panics
    ///
    /// Where they are of two graphs.
    pub fn union(&self, other: &Self) -> Self {
        self.with(other, |_, _| true)
    }

    /// The features of both sets.
    ///
    /// # Panics
    ///
    /// Where they are of two graphs.
    pub fn intersection(&self, other: &Self) -> Self {
        self.with(other, |one, two| one && two)
    }

    /// The features that the other set doesn't have.
    ///
    /// # Panics
    ///
    /// Where they are of two graphs.
    pub fn difference(&self, other: &Self) -> Self {
        self.with(other, |one, two| one && !two)
    }

    /// The features that one of the sets has and the other doesn't.
    ///
    /// # Panics
    ///
    /// Where they are of two graphs.
    pub fn symmetric_difference(&self, other: &Self) -> Self {
        self.with(other, |one, two| one != two)
    }
}

/// Equal are sets of one graph, by its address, with the same features.
impl PartialEq for FeatureSet<'_> {
    fn eq(&self, other: &Self) -> bool {
        std::ptr::eq(self.graph, other.graph) && self.labels == other.labels
    }
}

impl Eq for FeatureSet<'_> {}

/// What a set has of a package.
#[derive(Clone, Debug)]
pub struct FeatureList<'g> {
    package: PackageMetadata<'g>,
    // Sorted.
    labels: Vec<FeatureLabel<'g>>,
}

impl<'g> FeatureList<'g> {
    /// The package.
    pub fn package(&self) -> &PackageMetadata<'g> {
        &self.package
    }

    /// All of it: the package itself first, then its features by name.
    pub fn labels(&self) -> &[FeatureLabel<'g>] {
        &self.labels
    }

    /// Whether it has this of the package.
    pub fn contains(&self, label: FeatureLabel<'_>) -> bool {
        has(&self.labels, &label)
    }

    /// Whether it has the package itself.
    pub fn has_base(&self) -> bool {
        self.contains(FeatureLabel::Base)
    }

    /// Whether it has the package's feature with the name.
    pub fn has_named_feature(&self, feature_name: &str) -> bool {
        self.contains(FeatureLabel::Named(feature_name))
    }

    /// The names of its features.
    pub fn named_features<'a>(&'a self) -> impl Iterator<Item = &'g str> + 'a {
        self.labels.iter().filter_map(|label| match label {
            FeatureLabel::Base => None,
            FeatureLabel::Named(name) => Some(*name),
        })
    }
}

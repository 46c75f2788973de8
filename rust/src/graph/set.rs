use super::dot::Dot;
use super::{
    DependencyDirection, PackageDotVisitor, PackageGraph, PackageLink, PackageMetadata,
    PackageQuery,
};
use crate::proved;
use crate::{Error, PackageId};
use camino::Utf8Path;
use std::fmt;

/// A set of packages of a graph.
#[derive(Clone, Debug)]
pub struct PackageSet<'g> {
    graph: &'g PackageGraph,
    // A mark for each package of the graph.
    pub(super) included: Vec<bool>,
    len: usize,
}

/// Sets of exactly the named packages: nothing is followed.
impl PackageGraph {
    /// All packages.
    pub fn resolve_all(&self) -> PackageSet<'_> {
        PackageSet::of(self, vec![true; self.package_count()])
    }

    /// No package.
    pub fn resolve_none(&self) -> PackageSet<'_> {
        PackageSet::of(self, vec![false; self.package_count()])
    }

    /// Exactly these packages.
    ///
    /// # Errors
    ///
    /// [`Error::UnknownPackageId`] with the first ID that no package has.
    pub fn resolve_ids<'a>(
        &self,
        package_ids: impl IntoIterator<Item = &'a PackageId>,
    ) -> Result<PackageSet<'_>, Error> {
        let positions = package_ids.into_iter().map(|id| self.position(id));
        let positions: Vec<usize> = positions.collect::<Result<_, _>>()?;
        Ok(PackageSet::at(self, positions))
    }

    /// The workspace's members.
    pub fn resolve_workspace(&self) -> PackageSet<'_> {
        PackageSet::at(self, self.members_by_path.iter().copied())
    }

    /// The members at these paths from the workspace's root.
    ///
    /// # Errors
    ///
    /// [`Error::UnknownWorkspacePath`] with the first path at which there is none.
    pub fn resolve_workspace_paths(
        &self,
        paths: impl IntoIterator<Item = impl AsRef<Utf8Path>>,
    ) -> Result<PackageSet<'_>, Error> {
        let members: Vec<_> = self.workspace().members_by_paths(paths)?;
        Ok(PackageSet::at(self, members.iter().map(|it| it.position)))
    }

    /// The members with these names.
    ///
    /// # Errors
    ///
    /// [`Error::UnknownWorkspaceName`] with the first name that none has.
    pub fn resolve_workspace_names(
        &self,
        names: impl IntoIterator<Item = impl AsRef<str>>,
    ) -> Result<PackageSet<'_>, Error> {
        let members: Vec<_> = self.workspace().members_by_names(names)?;
        Ok(PackageSet::at(self, members.iter().map(|it| it.position)))
    }

    /// The packages with the name, members or not; none where none has it.
    pub fn resolve_package_name(&self, name: impl AsRef<str>) -> PackageSet<'_> {
        let named = self
            .packages()
            .map(|package| package.name() == name.as_ref());
        PackageSet::of(self, named.collect())
    }
}

impl<'g> PackageSet<'g> {
    // The marked packages.
    pub(super) fn of(graph: &'g PackageGraph, included: Vec<bool>) -> Self {
        let len = included.iter().filter(|is_included| **is_included).count();
        PackageSet {
            graph,
            included,
            len,
        }
    }

    // The packages at these positions.
    pub(super) fn at(graph: &'g PackageGraph, positions: impl IntoIterator<Item = usize>) -> Self {
        let mut included = vec![false; graph.package_count()];
        positions.into_iter().for_each(|at| included[at] = true);
        PackageSet::of(graph, included)
    }

    pub(super) fn graph(&self) -> &'g PackageGraph {
        self.graph
    }

    pub(super) fn into_query(self, direction: DependencyDirection) -> PackageQuery<'g> {
        PackageQuery {
            initials: self,
            direction,
        }
    }

    /// How many packages it has.
    pub fn len(&self) -> usize {
        self.len
    }

    /// Whether it has none.
    pub fn is_empty(&self) -> bool {
        self.len == 0
    }

    /// Whether it has the package.
    ///
    /// # Errors
    ///
    /// [`Error::UnknownPackageId`] where the graph has no package with the ID.
    pub fn contains(&self, package_id: &PackageId) -> Result<bool, Error> {
        Ok(self.included[self.graph.position(package_id)?])
    }

    /// A walk in the direction that begins at these packages.
    pub fn to_package_query(&self, direction: DependencyDirection) -> PackageQuery<'g> {
        self.clone().into_query(direction)
    }
}

/// Two sets.
impl PackageSet<'_> {
    // What is made of both, package by package.
    fn with(&self, other: &Self, made: impl Fn(bool, bool) -> bool) -> Self {
        assert!(std::ptr::eq(self.graph, other.graph), "sets of two graphs");
        let both = self.included.iter().zip(&other.included);
        PackageSet::of(
            self.graph,
            both.map(|(one, two)| made(*one, *two)).collect(),
        )
    }

    /// The packages of either set.
    ///
    /// # Panics
    ///
    /// Where they are of two graphs.
    pub fn union(&self, other: &Self) -> Self {
        self.with(other, |one, two| one || two)
    }

    /// The packages of both sets.
    ///
    /// # Panics
    ///
    /// Where they are of two graphs.
    pub fn intersection(&self, other: &Self) -> Self {
        self.with(other, |one, two| one && two)
    }

    /// The packages that the other set doesn't have.
    ///
    /// # Panics
    ///
    /// Where they are of two graphs.
    pub fn difference(&self, other: &Self) -> Self {
        self.with(other, |one, two| one && !two)
    }

    /// The packages that one of the sets has and the other doesn't.
    ///
    /// # Panics
    ///
    /// Where they are of two graphs.
    pub fn symmetric_difference(&self, other: &Self) -> Self {
        self.with(other, |one, two| one != two)
    }
}

/// Parts of a set. The function is asked once about each package, in the order of
/// [`packages`](PackageSet::packages).
impl<'g> PackageSet<'g> {
    /// The packages for which the function answers true.
    pub fn filter(
        &self,
        direction: DependencyDirection,
        mut callback: impl FnMut(PackageMetadata<'g>) -> bool,
    ) -> Self {
        self.partition(direction, &mut callback).0
    }

    /// The packages for which the function answers true, and the others.
    pub fn partition(
        &self,
        direction: DependencyDirection,
        mut callback: impl FnMut(PackageMetadata<'g>) -> bool,
    ) -> (Self, Self) {
        self.filter_partition(direction, |package| Some(callback(package)))
    }

    /// The packages for which the function answers true, and those for which it answers false.
    pub fn filter_partition(
        &self,
        direction: DependencyDirection,
        mut callback: impl FnMut(PackageMetadata<'g>) -> Option<bool>,
    ) -> (Self, Self) {
        let answers = self
            .packages(direction)
            .filter_map(|it| Some((it.position, callback(it)?)));
        let (true_of, false_of): (Vec<_>, Vec<_>) = answers.partition(|(_, answer)| *answer);
        let set = |part: Vec<(usize, bool)>| {
            PackageSet::at(self.graph, part.into_iter().map(|(position, _)| position))
        };
        (set(true_of), set(false_of))
    }
}

/// Lists of a set.
impl<'g> PackageSet<'g> {
    // The marked packages, in the direction.
    fn listed(&self, marks: &[bool], direction: DependencyDirection) -> Vec<PackageMetadata<'g>> {
        let positions = self.graph.components.order().iter().map(|at| *at as usize);
        let packages = positions
            .filter(|at| marks[*at])
            .map(|at| self.graph.package(at));
        match direction {
            DependencyDirection::Forward => packages.collect(),
            DependencyDirection::Reverse => packages.rev().collect(),
        }
    }

    /// The IDs of the packages, in the order of [`packages`](PackageSet::packages).
    pub fn package_ids<'a>(
        &'a self,
        direction: DependencyDirection,
    ) -> impl ExactSizeIterator<Item = &'g PackageId> + 'a {
        self.packages(direction).map(|package| package.id())
    }

    /// The packages: Forward dependents first, Reverse that list from its end. Those of one cycle stand together, where
    /// all of them are in the set, and links that aren't dev-only lead on, where these have no cycle. The order is
    /// proved.
    pub fn packages<'a>(
        &'a self,
        direction: DependencyDirection,
    ) -> impl ExactSizeIterator<Item = PackageMetadata<'g>> + 'a {
        self.listed(&self.included, direction).into_iter()
    }

    /// The IDs of [`root_packages`](PackageSet::root_packages).
    pub fn root_ids<'a>(
        &'a self,
        direction: DependencyDirection,
    ) -> impl ExactSizeIterator<Item = &'g PackageId> + 'a {
        self.root_packages(direction).map(|package| package.id())
    }

    /// The packages whose cycle, or which alone, no link inside the set enters from outside of it, in the direction: in
    /// a whole graph Forward those on which no other depends, Reverse those that depend on no other. Proved.
    pub fn root_packages<'a>(
        &'a self,
        direction: DependencyDirection,
    ) -> impl ExactSizeIterator<Item = PackageMetadata<'g>> + 'a {
        let ends = &self.graph.decoded.ends;
        let roots = proved::roots(ends, &self.included, direction.is_forward());
        self.listed(&roots, direction).into_iter()
    }

    /// The links inside the set that a walk over such links comes to from its roots, in the direction: each once, and
    /// one that leaves no root after a link that leads to the package that it leaves. Where the set holds each cycle
    /// that it touches, these are all links inside. Proved.
    pub fn links<'a>(
        &'a self,
        direction: DependencyDirection,
    ) -> impl ExactSizeIterator<Item = PackageLink<'g>> + 'a {
        let graph = self.graph;
        let numbers = proved::links(&graph.decoded.ends, &self.included, direction.is_forward());
        numbers.into_iter().map(move |number| graph.link(number))
    }

    /// The packages and the links between them in Graphviz's `dot` format, with labels that the visitor writes.
    pub fn display_dot<'a, V: PackageDotVisitor + 'g>(
        &'a self,
        visitor: V,
    ) -> impl fmt::Display + 'a {
        Dot {
            graph: self.graph,
            included: &self.included,
            visitor,
        }
    }
}

/// Equal are sets of one graph, by its address, with the same packages.
impl PartialEq for PackageSet<'_> {
    fn eq(&self, other: &Self) -> bool {
        std::ptr::eq(self.graph, other.graph) && self.included == other.included
    }
}

impl Eq for PackageSet<'_> {}

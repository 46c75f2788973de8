use super::resolve::{Function, Walk};
use super::{
    DependencyDirection, PackageGraph, PackageLink, PackageLinkContext, PackageLinkVisitor,
    PackageSet,
};
use crate::proved;
use crate::{Error, PackageId};
use camino::Utf8Path;

/// Where a walk begins, and its direction.
#[derive(Clone, Debug)]
pub struct PackageQuery<'g> {
    pub(super) initials: PackageSet<'g>,
    pub(super) direction: DependencyDirection,
}

/// Queries: walks that may be made.
impl PackageGraph {
    /// From all members to what they depend on.
    pub fn query_workspace(&self) -> PackageQuery<'_> {
        self.resolve_workspace()
            .into_query(DependencyDirection::Forward)
    }

    /// From the members at these paths to what they depend on.
    ///
    /// # Errors
    ///
    /// [`Error::UnknownWorkspacePath`] with the first path at which there is none.
    pub fn query_workspace_paths(
        &self,
        paths: impl IntoIterator<Item = impl AsRef<Utf8Path>>,
    ) -> Result<PackageQuery<'_>, Error> {
        let members = self.resolve_workspace_paths(paths)?;
        Ok(members.into_query(DependencyDirection::Forward))
    }

    /// From the members with these names to what they depend on.
    ///
    /// # Errors
    ///
    /// [`Error::UnknownWorkspaceName`] with the first name that none has.
    pub fn query_workspace_names(
        &self,
        names: impl IntoIterator<Item = impl AsRef<str>>,
    ) -> Result<PackageQuery<'_>, Error> {
        let members = self.resolve_workspace_names(names)?;
        Ok(members.into_query(DependencyDirection::Forward))
    }

    /// From these packages in the direction.
    ///
    /// # Errors
    ///
    /// [`Error::UnknownPackageId`] with the first ID that no package has.
    pub fn query_directed<'g, 'a>(
        &'g self,
        package_ids: impl IntoIterator<Item = &'a PackageId>,
        dep_direction: DependencyDirection,
    ) -> Result<PackageQuery<'g>, Error> {
        Ok(self.resolve_ids(package_ids)?.into_query(dep_direction))
    }

    /// From these packages to what they depend on.
    ///
    /// # Errors
    ///
    /// [`Error::UnknownPackageId`] with the first ID that no package has.
    pub fn query_forward<'g, 'a>(
        &'g self,
        package_ids: impl IntoIterator<Item = &'a PackageId>,
    ) -> Result<PackageQuery<'g>, Error> {
        self.query_directed(package_ids, DependencyDirection::Forward)
    }

    /// From these packages to what depends on them.
    ///
    /// # Errors
    ///
    /// [`Error::UnknownPackageId`] with the first ID that no package has.
    pub fn query_reverse<'g, 'a>(
        &'g self,
        package_ids: impl IntoIterator<Item = &'a PackageId>,
    ) -> Result<PackageQuery<'g>, Error> {
        self.query_directed(package_ids, DependencyDirection::Reverse)
    }
}

impl<'g> PackageQuery<'g> {
    /// The graph that it is of.
    pub fn graph(&self) -> &'g PackageGraph {
        self.initials.graph()
    }

    /// The direction of the walk.
    pub fn direction(&self) -> DependencyDirection {
        self.direction
    }

    /// The packages at which the walk begins.
    pub fn initials(&self) -> &PackageSet<'g> {
        &self.initials
    }

    /// The packages to which links lead from these, and these. Proved.
    pub fn resolve(self) -> PackageSet<'g> {
        let (graph, forward) = (self.graph(), self.direction.is_forward());
        let (ends, starts) = (&graph.decoded.ends, &self.initials.included);
        PackageSet::of(graph, proved::reach(ends, &graph.all, starts, forward))
    }

    /// The packages to which links that the visitor accepts lead from these, and these. It is asked during the walk,
    /// once about each link that leaves one of the packages that are found, after the package was, and about no other
    /// link; its answers may change. Certified of each walk, whatever was answered: the proved judge sees it when it
    /// has ended.
    ///
    /// # Panics
    ///
    /// Should the judge find that the walk was no resolve.
    pub fn resolve_with(self, mut visitor: impl PackageLinkVisitor<'g>) -> PackageSet<'g> {
        Walk::from(self).walked(&mut visitor).judged()
    }

    /// [`resolve_with`](PackageQuery::resolve_with) on a function.
    ///
    /// # Panics
    ///
    /// As there.
    pub fn resolve_with_fn(
        self,
        visitor_fn: impl FnMut(&PackageLinkContext<'g>, PackageLink<'g>) -> bool,
    ) -> PackageSet<'g> {
        self.resolve_with(Function(visitor_fn))
    }
}

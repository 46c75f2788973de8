use super::{DependencyDirection, PackageGraph};
use crate::proved;
use crate::{Error, PackageId};
use std::fmt;

/// Which packages depend on which.
impl PackageGraph {
    /// A cache for many questions of [`depends_on`](DependsCache::depends_on).
    pub fn new_depends_cache(&self) -> DependsCache<'_> {
        DependsCache::new(self)
    }

    /// Whether a walk over links leads from the first package to the second. From a package to itself one does. Proved.
    ///
    /// # Errors
    ///
    /// [`Error::UnknownPackageId`] with the first ID that no package has.
    pub fn depends_on(&self, package_a: &PackageId, package_b: &PackageId) -> Result<bool, Error> {
        self.new_depends_cache().depends_on(package_a, package_b)
    }

    /// Whether a link leads from the first package to the second.
    ///
    /// # Errors
    ///
    /// [`Error::UnknownPackageId`] with the first ID that no package has.
    pub fn directly_depends_on(
        &self,
        package_a: &PackageId,
        package_b: &PackageId,
    ) -> Result<bool, Error> {
        let (from, to) = (self.position(package_a)?, self.position(package_b)?);
        Ok(self.link_from_to(from, to).is_some())
    }

    // The positions to which walks in the direction lead from this one.
    pub(super) fn reached_from(&self, start: usize, direction: DependencyDirection) -> Vec<bool> {
        let mut starts = vec![false; self.package_count()];
        starts[start] = true;
        proved::reach(
            &self.decoded.ends,
            &self.all,
            &starts,
            direction.is_forward(),
        )
    }
}

/// Remembers all that the package depends on of which it was asked last: more questions of the same one cost no walk.
#[derive(Clone)]
pub struct DependsCache<'g> {
    graph: &'g PackageGraph,
    // A package, and what walks lead to from it.
    last: Option<(usize, Vec<bool>)>,
}

impl<'g> DependsCache<'g> {
    /// One of the graph, which remembers nothing yet.
    pub fn new(package_graph: &'g PackageGraph) -> Self {
        DependsCache {
            graph: package_graph,
            last: None,
        }
    }

    /// Whether a walk over links leads from the first package to the second. From a package to itself one does. Proved.
    ///
    /// # Errors
    ///
    /// [`Error::UnknownPackageId`] with the first ID that no package has.
    pub fn depends_on(
        &mut self,
        package_a: &PackageId,
        package_b: &PackageId,
    ) -> Result<bool, Error> {
        let (from, to) = (
            self.graph.position(package_a)?,
            self.graph.position(package_b)?,
        );
        let last = self.last.take().filter(|(start, _)| *start == from);
        let walk = || {
            (
                from,
                self.graph.reached_from(from, DependencyDirection::Forward),
            )
        };
        let (_, reached) = self.last.insert(last.unwrap_or_else(walk));
        Ok(reached[to])
    }
}

impl fmt::Debug for DependsCache<'_> {
    fn fmt(&self, f: &mut fmt::Formatter<'_>) -> fmt::Result {
        let last = self
            .last
            .as_ref()
            .map(|(start, _)| self.graph.package(*start).id());
        f.debug_struct("DependsCache")
            .field("graph", self.graph)
            .field("last", &last)
            .finish()
    }
}

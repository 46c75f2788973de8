use super::PackageGraph;
use crate::{Error, PackageId};

/// The packages that depend on each other, or on themselves: Cargo allows it where a dev-dependency closes the cycle.
#[derive(Clone, Copy, Debug)]
pub struct Cycles<'g> {
    pub(super) graph: &'g PackageGraph,
}

impl<'g> Cycles<'g> {
    /// Whether walks of at least one link lead from the first package to the second and back. So a package is on a
    /// cycle with itself where it depends on another one that depends on it, or has a link to itself. Proved.
    ///
    /// # Errors
    ///
    /// [`Error::UnknownPackageId`] with the first ID that no package has.
    pub fn is_cyclic(&self, a: &PackageId, b: &PackageId) -> Result<bool, Error> {
        let (first, second) = (self.graph.position(a)?, self.graph.position(b)?);
        let components = &self.graph.components;
        Ok(components.are_together(first, second) && self.is_cycle(components.around(first)))
    }

    // Whether a component has two packages or more, or one with a link to itself.
    fn is_cycle(&self, component: &[u32]) -> bool {
        match component {
            [] => false,
            [alone] => {
                let alone = *alone as usize;
                self.graph.link_from_to(alone, alone).is_some()
            }
            _ => true,
        }
    }

    /// The packages of each cycle, or of cycles with common packages: those of two or more, and those with a link to
    /// themselves. Dependents come first, among cycles, and inside of one by links that aren't dev-only, where these
    /// have no cycle. Proved.
    pub fn all_cycles(&self) -> impl DoubleEndedIterator<Item = Vec<&'g PackageId>> + 'g + use<'g> {
        let graph = self.graph;
        let ids = move |cycle: &[u32]| {
            let packages = cycle.iter().map(|at| graph.package(*at as usize));
            packages.map(|package| package.id()).collect()
        };
        let cycles = *self;
        let components = graph.components.iter();
        components.filter(move |it| cycles.is_cycle(it)).map(ids)
    }
}

//! Walks that ask a visitor about each link.

use super::{DependencyDirection, PackageLink, PackageQuery, PackageSet};
use crate::proved;

/// What a visitor is told beside a link.
#[derive(Clone, Debug)]
pub struct PackageLinkContext<'g> {
    query: PackageQuery<'g>,
}

impl<'g> PackageLinkContext<'g> {
    /// The query whose walk it is.
    pub fn query(&self) -> &PackageQuery<'g> {
        &self.query
    }

    /// The direction of the walk.
    pub fn direction(&self) -> DependencyDirection {
        self.query.direction
    }

    /// Whether the link leaves a package at which the walk begins: in a forward walk its `from`, else its `to`.
    pub fn starts_from_initial(&self, link: &PackageLink<'g>) -> bool {
        let left = match self.direction() {
            DependencyDirection::Forward => link.from(),
            DependencyDirection::Reverse => link.to(),
        };
        self.query.initials.included[left.position]
    }
}

/// Says which links a walk follows.
pub trait PackageLinkVisitor<'g> {
    /// Whether to follow the link. A package to which no link is followed may still be found by another one.
    fn visit_link(&mut self, cx: &PackageLinkContext<'g>, link: PackageLink<'g>) -> bool;
}

impl<'g, V: PackageLinkVisitor<'g>> PackageLinkVisitor<'g> for &mut V {
    fn visit_link(&mut self, cx: &PackageLinkContext<'g>, link: PackageLink<'g>) -> bool {
        (**self).visit_link(cx, link)
    }
}

impl<'g> PackageLinkVisitor<'g> for &mut dyn PackageLinkVisitor<'g> {
    fn visit_link(&mut self, cx: &PackageLinkContext<'g>, link: PackageLink<'g>) -> bool {
        (**self).visit_link(cx, link)
    }
}

impl<'g> PackageLinkVisitor<'g> for Box<dyn PackageLinkVisitor<'g> + '_> {
    fn visit_link(&mut self, cx: &PackageLinkContext<'g>, link: PackageLink<'g>) -> bool {
        (**self).visit_link(cx, link)
    }
}

// A function as a visitor.
pub(super) struct Function<F>(pub(super) F);

impl<'g, F> PackageLinkVisitor<'g> for Function<F>
where
    F: FnMut(&PackageLinkContext<'g>, PackageLink<'g>) -> bool,
{
    fn visit_link(&mut self, cx: &PackageLinkContext<'g>, link: PackageLink<'g>) -> bool {
        (self.0)(cx, link)
    }
}

// A walk, and what was noted of it for the judge.
pub(super) struct Walk<'g> {
    context: PackageLinkContext<'g>,
    included: Vec<bool>,
    // The packages that were found and whose links weren't shown yet.
    found: Vec<usize>,
    shown: Vec<usize>,
    answers: Vec<bool>,
}

impl<'g> From<PackageQuery<'g>> for Walk<'g> {
    fn from(query: PackageQuery<'g>) -> Self {
        let included = query.initials.included.clone();
        Walk {
            context: PackageLinkContext { query },
            found: (0..included.len()).filter(|at| included[*at]).collect(),
            included,
            shown: Vec::new(),
            answers: Vec::new(),
        }
    }
}

impl<'g> Walk<'g> {
    pub(super) fn walked(mut self, visitor: &mut impl PackageLinkVisitor<'g>) -> Self {
        while let Some(position) = self.found.pop() {
            let graph = self.context.query.graph();
            let numbers = graph.links_at(position, self.context.direction());
            numbers
                .iter()
                .for_each(|number| self.show(*number, visitor));
        }
        self
    }

    // Shows the link to the visitor, and includes what it leads to where it is accepted.
    fn show(&mut self, number: usize, visitor: &mut impl PackageLinkVisitor<'g>) {
        let graph = self.context.query.graph();
        let is_accepted = visitor.visit_link(&self.context, graph.link(number));
        self.shown.push(number);
        self.answers.push(is_accepted);
        let end = graph.decoded.ends[number].far(self.context.direction().is_forward());
        if is_accepted && !self.included[end] {
            self.included[end] = true;
            self.found.push(end);
        }
    }

    // What the walk includes, where the judge finds that it was a resolve.
    pub(super) fn judged(self) -> PackageSet<'g> {
        let graph = self.context.query.graph();
        let is_resolve = proved::is_resolve(
            &graph.decoded.ends,
            &self.context.query.initials.included,
            &self.shown,
            &self.answers,
            &self.included,
            self.context.direction().is_forward(),
        );
        assert!(is_resolve, "the library finds that this was no resolve");
        PackageSet::of(graph, self.included)
    }
}

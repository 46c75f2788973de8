//! Graphs in Graphviz's `dot` format.

use super::{PackageGraph, PackageLink, PackageMetadata};
use std::fmt;

/// Writes the labels of packages and links.
pub trait PackageDotVisitor {
    /// Writes the label of the package.
    fn visit_package(&self, package: PackageMetadata<'_>, f: &mut DotWrite<'_, '_>) -> fmt::Result;

    /// Writes the label of the link.
    fn visit_link(&self, link: PackageLink<'_>, f: &mut DotWrite<'_, '_>) -> fmt::Result;
}

/// Takes the text of a label, in which it marks quotes and backslashes, and writes the end of a line as `\l`.
pub struct DotWrite<'a, 'b> {
    formatter: &'a mut fmt::Formatter<'b>,
    is_escaping: bool,
}

impl<'a, 'b> DotWrite<'a, 'b> {
    fn new(formatter: &'a mut fmt::Formatter<'b>) -> Self {
        DotWrite {
            formatter,
            is_escaping: true,
        }
    }

    /// Whether backslashes are marked, as they are at first; without that, `\n`, `\l` and `\r` mean what they do in
    /// `dot`.
    pub fn set_escape_backslashes(&mut self, escape_backslashes: bool) {
        self.is_escaping = escape_backslashes;
    }

    /// Writes what `write!` has, also where [`fmt::Write`] isn't in scope.
    ///
    /// # Errors
    ///
    /// That of what it is written to.
    pub fn write_fmt(&mut self, args: fmt::Arguments<'_>) -> fmt::Result {
        fmt::Write::write_fmt(self, args)
    }
}

impl fmt::Write for DotWrite<'_, '_> {
    fn write_str(&mut self, text: &str) -> fmt::Result {
        text.chars().try_for_each(|it| self.write_char(it))
    }

    fn write_char(&mut self, it: char) -> fmt::Result {
        match it {
            '"' => self.formatter.write_str("\\\""),
            '\n' => self.formatter.write_str("\\l"),
            '\\' if self.is_escaping => self.formatter.write_str("\\\\"),
            it => self.formatter.write_char(it),
        }
    }
}

// The marked packages and the links between them.
pub(super) struct Dot<'a, V> {
    pub(super) graph: &'a PackageGraph,
    pub(super) included: &'a [bool],
    pub(super) visitor: V,
}

impl<V: PackageDotVisitor> Dot<'_, V> {
    fn write_package(&self, f: &mut fmt::Formatter<'_>, position: usize) -> fmt::Result {
        write!(f, "    {position} [label=\"")?;
        let package = self.graph.package(position);
        self.visitor.visit_package(package, &mut DotWrite::new(f))?;
        f.write_str("\"]\n")
    }

    fn write_link(&self, f: &mut fmt::Formatter<'_>, number: usize) -> fmt::Result {
        let ends = self.graph.decoded.ends[number];
        write!(f, "    {} -> {} [label=\"", ends.from, ends.to)?;
        let link = self.graph.link(number);
        self.visitor.visit_link(link, &mut DotWrite::new(f))?;
        f.write_str("\"]\n")
    }
}

impl<V: PackageDotVisitor> fmt::Display for Dot<'_, V> {
    fn fmt(&self, f: &mut fmt::Formatter<'_>) -> fmt::Result {
        let ends = &self.graph.decoded.ends;
        let is_in = |position: u32| self.included[position as usize];
        let mut packages = (0..self.included.len()).filter(|at| self.included[*at]);
        let mut links = (0..ends.len()).filter(|at| is_in(ends[*at].from) && is_in(ends[*at].to));
        f.write_str("digraph {\n")?;
        packages.try_for_each(|position| self.write_package(f, position))?;
        links.try_for_each(|number| self.write_link(f, number))?;
        f.write_str("}\n")
    }
}

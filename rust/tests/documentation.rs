//! The examples of guppy's documentation, written anew over the workspace of the documents.

mod common;

// What a program has in Cargo.toml as `guppy = { package = "guppy-proved", .. }`.
extern crate guppy_proved as guppy;

use guppy::graph::{DependencyDirection, PackageGraph, PackageMetadata};
use guppy::{CargoMetadata, PackageId};
use std::collections::HashMap;

fn graph() -> PackageGraph {
    let metadata = CargoMetadata::parse_json(common::JSON).unwrap();
    metadata.build_graph().unwrap()
}

// The example of guppy's README: all direct dependencies of a package.
#[test]
fn direct_dependencies_are_listed() {
    let package_graph = graph();
    let package_id = PackageId::new("path+file:///workspace/crates/core#0.1.0");
    let package = package_graph.metadata(&package_id).unwrap();
    let mut needed: Vec<String> = Vec::new();
    for link in package.direct_links() {
        assert_eq!(link.from(), package);
        needed.push(link.to().id().to_string());
    }
    needed.sort();
    let wanted = ["macros", "test-support"];
    assert_eq!(
        needed,
        wanted.map(|name| format!("path+file:///workspace/crates/{name}#0.1.0"))
    );
}

// Whether packages use one, by themselves and for their tests: the example of `Cycles`. Dependencies come first, so
// that it is known of them.
#[test]
fn a_property_is_computed_over_a_graph_with_cycles() {
    let package_graph = graph();
    let members = package_graph.resolve_workspace();
    let dependencies = package_graph.query_workspace().resolve();
    let mut uses: HashMap<&PackageId, bool> = HashMap::new();
    for package in dependencies.packages(DependencyDirection::Reverse) {
        let needs = |package: PackageMetadata<'_>| {
            package
                .direct_links()
                .any(|link| !link.dev_only() && uses[link.to().id()])
        };
        let is_used = package.name() == "macros" || needs(package);
        uses.insert(package.id(), is_used);
    }
    let tests_use = members.filter(DependencyDirection::Reverse, |package| {
        package.direct_links().any(|link| uses[link.to().id()])
    });
    let using = members.filter(DependencyDirection::Forward, |package| uses[package.id()]);
    let names = ["app", "cli", "core", "macros", "test-support"];
    assert_eq!(
        common::sorted(using.packages(DependencyDirection::Forward)),
        names
    );
    let names = ["app", "cli", "core", "test-support"];
    assert_eq!(
        common::sorted(tests_use.packages(DependencyDirection::Forward)),
        names
    );
}

// What is built without tests, by a resolve that leaves dev-only links out.
#[test]
fn dev_only_links_are_left_out() {
    let package_graph = graph();
    let query = package_graph.query_workspace_names(["core"]).unwrap();
    let built = query.resolve_with_fn(|_, link| !link.dev_only());
    let names: Vec<&str> = built
        .packages(DependencyDirection::Forward)
        .map(|package| package.name())
        .collect();
    assert_eq!(names, ["core", "macros"]);
}

// As the documentation of `packages` says, dependents come first, and inside of a cycle by links that aren't dev-only.
#[test]
fn a_topological_order_is_told() {
    let package_graph = graph();
    let set = package_graph.resolve_all();
    let place: HashMap<&PackageId, usize> = set
        .package_ids(DependencyDirection::Forward)
        .zip(0..)
        .collect();
    for link in set.links(DependencyDirection::Forward) {
        let leads_on = place[link.from().id()] < place[link.to().id()];
        assert!(leads_on || link.dev_only(), "{link:?}");
    }
    // A link that leads to a package comes before those that leave it, where the package is no root.
    let roots: Vec<&PackageId> = set.root_ids(DependencyDirection::Forward).collect();
    let links: Vec<_> = set.links(DependencyDirection::Forward).collect();
    for (number, link) in links.iter().enumerate() {
        let from = link.from().id();
        let is_led_to = links[..number]
            .iter()
            .any(|before| before.to().id() == from);
        assert!(is_led_to || roots.contains(&from), "{link:?}");
    }
}

// An error has a source, and both have a text.
#[test]
fn errors_are_reported() {
    let told = PackageGraph::from_json("{").unwrap_err();
    let report = |error: &dyn std::error::Error| {
        let source = error.source().expect("a reason");
        format!("{error}: {source}")
    };
    assert!(report(&told).contains("line 1"), "{}", report(&told));
}

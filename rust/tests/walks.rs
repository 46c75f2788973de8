//! Queries, visitors, sets and cycles over the workspace of the documents.

mod common;

extern crate guppy_proved as guppy;

use common::{id, json_of, named, sorted, workspace};
use guppy::graph::{
    DependencyDirection, DotWrite, PackageDotVisitor, PackageGraph, PackageLink,
    PackageLinkContext, PackageLinkVisitor, PackageMetadata, PackageSet,
};
use guppy::{Error, PackageId};
use std::fmt::{self, Write};
use DependencyDirection::{Forward, Reverse};

#[test]
fn walks_lead_both_ways() {
    let graph = workspace();
    let core = id(&graph, "core");
    let needed = graph.query_forward([core]).unwrap().resolve();
    assert_eq!(
        sorted(needed.packages(Forward)),
        ["core", "macros", "test-support"]
    );
    let needing = graph.query_directed([core], Reverse).unwrap().resolve();
    let names = ["app", "cli", "core", "test-support"];
    assert_eq!(sorted(needing.packages(Forward)), names);
    let firm = graph.query_forward([core]).unwrap();
    let firm = firm.resolve_with_fn(|_, link| !link.dev_only());
    assert_eq!(sorted(firm.packages(Forward)), ["core", "macros"]);
    assert!(!firm.contains(id(&graph, "unused")).unwrap());
    let of_core = graph.metadata(core).unwrap();
    assert_eq!(of_core.to_package_query(Forward).resolve(), needed);
    assert_eq!(named(of_core.to_package_set().packages(Forward)), ["core"]);
    let by_path = graph.query_workspace_paths(["crates/core"]).unwrap();
    assert_eq!(by_path.resolve(), needed);
    let by_name = graph.query_workspace_names(["core"]).unwrap();
    assert_eq!(by_name.resolve(), needed);
}

#[test]
fn a_query_has_a_set_of_initials() {
    let graph = workspace();
    let (app, core) = (id(&graph, "app"), id(&graph, "core"));
    let query = graph.query_reverse([core, app, core]).unwrap();
    assert_eq!((query.initials().len(), query.direction()), (2, Reverse));
    assert_eq!(*query.initials(), graph.resolve_ids([app, core]).unwrap());
    assert!(std::ptr::eq(query.graph(), &graph));
    assert_eq!(
        query.initials().to_package_query(Reverse).resolve(),
        query.resolve()
    );
}

#[test]
fn dependence_is_told() {
    let graph = workspace();
    let (app, core) = (id(&graph, "app"), id(&graph, "core"));
    assert!(graph.depends_on(app, core).unwrap() && !graph.depends_on(core, app).unwrap());
    assert!(graph.depends_on(core, core).unwrap());
    assert!(!graph.directly_depends_on(core, core).unwrap());
    assert!(graph.directly_depends_on(app, core).unwrap());
    assert!(!graph
        .directly_depends_on(app, id(&graph, "macros"))
        .unwrap());
    // The cache answers the same, whatever it was asked before.
    let mut cache = graph.new_depends_cache();
    let ids: Vec<&PackageId> = graph.package_ids().collect();
    for (one, two) in ids
        .iter()
        .flat_map(|one| ids.iter().map(move |two| (one, two)))
    {
        let answers = [
            cache.depends_on(one, two).unwrap(),
            cache.clone().depends_on(two, one).unwrap(),
        ];
        let wanted = [
            graph.depends_on(one, two).unwrap(),
            graph.depends_on(two, one).unwrap(),
        ];
        assert_eq!(answers, wanted, "{one} {two}");
    }
}

// Of two unknown IDs the first is told, as guppy looks for it first.
#[test]
fn the_first_unknown_id_is_told() {
    let graph = workspace();
    let (core, first, second) = (id(&graph, "core"), PackageId::new("x"), PackageId::new("y"));
    let is_first = |told: Error| matches!(told, Error::UnknownPackageId(id) if id == first);
    assert!(is_first(graph.metadata(&first).unwrap_err()));
    assert!(is_first(graph.depends_on(&first, &second).unwrap_err()));
    assert!(is_first(graph.depends_on(core, &first).unwrap_err()));
    assert!(is_first(
        graph.directly_depends_on(&first, &second).unwrap_err()
    ));
    assert!(is_first(
        graph
            .new_depends_cache()
            .depends_on(&first, &second)
            .unwrap_err()
    ));
    assert!(is_first(
        graph.cycles().is_cyclic(&first, &second).unwrap_err()
    ));
    assert!(is_first(
        graph.query_forward([core, &first, &second]).unwrap_err()
    ));
    assert!(is_first(
        graph.resolve_ids([core, &first, &second]).unwrap_err()
    ));
    assert!(is_first(graph.resolve_all().contains(&first).unwrap_err()));
    assert_eq!(
        graph.metadata(&first).unwrap_err().to_string(),
        "unknown package ID: x"
    );
}

// Takes links of one package, and remembers what it was shown.
#[derive(Default)]
struct Of<'g> {
    name: &'g str,
    shown: Vec<(&'g str, &'g str)>,
    initial: usize,
}

impl<'g> PackageLinkVisitor<'g> for Of<'g> {
    fn visit_link(&mut self, cx: &PackageLinkContext<'g>, link: PackageLink<'g>) -> bool {
        assert_eq!((cx.direction(), cx.query().direction()), (Forward, Forward));
        self.shown.push((link.from().name(), link.to().name()));
        self.initial += usize::from(cx.starts_from_initial(&link));
        link.from().name() == self.name
    }
}

#[test]
fn a_visitor_is_asked_once_about_each_link_of_what_was_found() {
    let graph = workspace();
    let mut of_app = Of {
        name: "app",
        ..Of::default()
    };
    let query = graph.query_forward([id(&graph, "app")]).unwrap();
    let set = query.clone().resolve_with(&mut of_app);
    assert_eq!(sorted(set.packages(Forward)), ["app", "cli", "core"]);
    // Those of app come first, as nothing else led to the others.
    assert!(of_app.shown[..2].iter().all(|(from, _)| *from == "app"));
    assert_eq!(of_app.initial, 2);
    let mut shown = of_app.shown;
    shown.sort_unstable();
    let wanted = [
        ("app", "cli"),
        ("app", "core"),
        ("cli", "core"),
        ("core", "macros"),
        ("core", "test-support"),
    ];
    assert_eq!(shown, wanted);
}

// By value, lent, lent as any visitor, and boxed as one, which may borrow.
#[test]
fn visitors_are_passed_in_each_way() {
    fn resolved<'g>(
        graph: &'g PackageGraph,
        visitor: impl PackageLinkVisitor<'g>,
    ) -> PackageSet<'g> {
        let query = graph.query_forward([id(graph, "app")]).unwrap();
        query.resolve_with(visitor)
    }
    let graph = workspace();
    let of = || Of {
        name: "app",
        ..Of::default()
    };
    let wanted = resolved(&graph, of());
    let (mut lent, mut any, mut boxed) = (of(), of(), of());
    assert_eq!(resolved(&graph, &mut lent), wanted);
    assert_eq!(
        resolved(&graph, &mut any as &mut dyn PackageLinkVisitor<'_>),
        wanted
    );
    let within: Box<dyn PackageLinkVisitor<'_> + '_> = Box::new(&mut boxed);
    assert_eq!(resolved(&graph, within), wanted);
    assert_eq!(
        (lent.shown.len(), any.shown.len(), boxed.shown.len()),
        (5, 5, 5)
    );
}

// What is answered may depend on what was answered before, in both directions.
#[test]
fn a_function_may_change_its_answers() {
    let graph = workspace();
    for direction in [Forward, Reverse] {
        let query = graph
            .query_directed([id(&graph, "core")], direction)
            .unwrap();
        let mut shown = 0;
        let set = query.resolve_with_fn(|cx, link| {
            shown += 1;
            assert!(cx.starts_from_initial(&link) || shown > 1);
            shown == 1
        });
        assert_eq!(set.len(), 2);
        let leaving =
            |package: PackageMetadata<'_>| package.direct_links_directed(direction).count();
        assert_eq!(shown, set.packages(Forward).map(leaving).sum::<usize>());
    }
}

#[test]
fn sets_are_combined() {
    let graph = workspace();
    let core = id(&graph, "core");
    let needed = graph.query_forward([core]).unwrap().resolve();
    let needing = graph.query_reverse([core]).unwrap().resolve();
    let both = needing.intersection(&needed);
    assert_eq!(sorted(both.packages(Forward)), ["core", "test-support"]);
    assert_eq!(
        sorted(needing.difference(&needed).packages(Forward)),
        ["app", "cli"]
    );
    let one = needing.symmetric_difference(&needed);
    assert_eq!(sorted(one.packages(Forward)), ["app", "cli", "macros"]);
    assert_eq!(needing.union(&needed).len(), 5);
    assert!(graph.resolve_none().is_empty() && graph.resolve_all().len() == 6);
    assert_eq!(graph.resolve_all(), graph.resolve_workspace());
    assert_eq!(graph.query_workspace().resolve(), graph.resolve_all());
    assert_eq!(
        named(graph.resolve_package_name("cli").packages(Forward)),
        ["cli"]
    );
    assert!(graph.resolve_package_name("nobody").is_empty());
    let names = graph.resolve_workspace_names(["cli", "core"]).unwrap();
    assert_eq!(
        graph
            .resolve_workspace_paths(["crates/core", "crates/cli"])
            .unwrap(),
        names
    );
}

#[test]
#[should_panic(expected = "sets of two graphs")]
fn sets_of_two_graphs_are_not_combined() {
    let (one, other) = (workspace(), workspace());
    let _ = one.resolve_all().union(&other.resolve_all());
}

// Each package is asked about once, in the order of the list.
#[test]
fn sets_are_parted() {
    let graph = workspace();
    let all = graph.resolve_all();
    for direction in [Forward, Reverse] {
        let (mut asked, mut again) = (Vec::new(), Vec::new());
        let kept = all.filter(direction, |package| {
            asked.push(package.name());
            package.name() != "core"
        });
        assert_eq!(asked, named(all.packages(direction)));
        assert_eq!(
            (kept.len(), kept.contains(id(&graph, "core")).unwrap()),
            (5, false)
        );
        let (short, long) = all.partition(direction, |package| package.name().len() < 5);
        assert_eq!(sorted(short.packages(Forward)), ["app", "cli", "core"]);
        assert_eq!(long, all.difference(&short));
        let (is_core, other) = all.filter_partition(direction, |package| {
            again.push(package.name());
            let is_short = package.name().len() < 5;
            is_short.then_some(package.name() == "core")
        });
        assert_eq!(again, asked);
        assert_eq!(named(is_core.packages(Forward)), ["core"]);
        assert_eq!(sorted(other.packages(Forward)), ["app", "cli"]);
    }
}

#[test]
fn sets_are_listed() {
    let graph = workspace();
    let needing = graph.query_reverse([id(&graph, "core")]).unwrap().resolve();
    let listed = named(needing.packages(Forward));
    let mut back = named(needing.packages(Reverse));
    back.reverse();
    assert_eq!(listed, back);
    assert_eq!(listed[..2], ["app", "cli"]);
    assert_eq!(needing.packages(Forward).len(), 4);
    let ids: Vec<_> = needing
        .packages(Forward)
        .map(|package| package.id())
        .collect();
    assert!(needing.package_ids(Forward).eq(ids));
    let all = graph.resolve_all();
    assert_eq!(sorted(all.root_packages(Forward)), ["app", "unused"]);
    assert_eq!(sorted(all.root_packages(Reverse)), ["macros", "unused"]);
    let roots: Vec<_> = all
        .root_packages(Reverse)
        .map(|package| package.id())
        .collect();
    assert!(all.root_ids(Reverse).eq(roots));
    assert_eq!(all.links(Forward).count(), 6);
    assert_eq!(needing.links(Reverse).count(), 5);
}

// By guppy's documentation a package is on a cycle with itself only where a walk of at least one link leads back.
#[test]
fn cycles_are_told() {
    let graph = workspace();
    let (core, tests) = (id(&graph, "core"), id(&graph, "test-support"));
    let cycles: Vec<_> = graph.cycles().all_cycles().collect();
    // The dependent comes first, dev-dependencies aside.
    assert_eq!(cycles, [[tests, core]].map(Vec::from));
    let is_cyclic = |one, two| graph.cycles().is_cyclic(one, two).unwrap();
    assert!(is_cyclic(core, tests) && is_cyclic(tests, core) && is_cyclic(core, core));
    let app = id(&graph, "app");
    assert!(!is_cyclic(core, app) && !is_cyclic(app, core) && !is_cyclic(app, app));
}

#[test]
fn links_to_oneself_are_cycles() {
    let links = [
        (0, 1, "normal"),
        (1, 1, "dev"),
        (1, 2, "normal"),
        (2, 3, "normal"),
        (3, 2, "dev"),
    ];
    let graph = PackageGraph::from_json(json_of(4, &links)).unwrap();
    let is_cyclic = |one: &str, two: &str| {
        let told = graph.cycles().is_cyclic(id(&graph, one), id(&graph, two));
        told.unwrap()
    };
    let itself = ["p0", "p1", "p2", "p3"].map(|name| is_cyclic(name, name));
    assert_eq!(itself, [false, true, true, true]);
    assert!(is_cyclic("p2", "p3") && !is_cyclic("p1", "p2"));
    let wanted = [vec!["p1"], vec!["p2", "p3"]].map(|cycle| {
        let ids = cycle.into_iter().map(|name| id(&graph, name));
        ids.collect::<Vec<_>>()
    });
    assert!(graph.cycles().all_cycles().eq(wanted.clone()));
    assert!(graph
        .cycles()
        .all_cycles()
        .rev()
        .eq(wanted.into_iter().rev()));
}

#[test]
fn a_cycle_that_is_not_for_tests_alone_is_told() {
    let links = [
        (0, 1, "normal"),
        (1, 2, "build"),
        (2, 0, "normal"),
        (2, 2, "normal"),
    ];
    let graph = PackageGraph::from_json(json_of(4, &links)).unwrap();
    let Err(Error::Cycle(cycle)) = graph.verify() else {
        panic!("no cycle")
    };
    assert_eq!(cycle.len(), 3);
    assert!(graph.publish_order().is_err());
    let links = [
        (0, 1, "normal"),
        (1, 2, "build"),
        (2, 0, "dev"),
        (2, 2, "normal"),
    ];
    let graph = PackageGraph::from_json(json_of(4, &links)).unwrap();
    assert!(graph.verify().is_ok());
    let order = named(graph.publish_order().unwrap());
    let firm: Vec<_> = order.into_iter().filter(|name| *name != "p3").collect();
    assert_eq!(firm, ["p2", "p1", "p0"]);
}

struct Labels;

impl PackageDotVisitor for Labels {
    fn visit_package(&self, package: PackageMetadata<'_>, f: &mut DotWrite<'_, '_>) -> fmt::Result {
        write!(f, "{} \"{}\"\n\\", package.name(), package.version())
    }

    fn visit_link(&self, link: PackageLink<'_>, f: &mut DotWrite<'_, '_>) -> fmt::Result {
        f.set_escape_backslashes(false);
        f.write_str("\\n")?;
        f.write_str(link.dep_name())
    }
}

#[test]
fn a_set_is_shown_as_dot() {
    let links = [(0, 1, "normal"), (1, 2, "normal"), (0, 2, "normal")];
    let graph = PackageGraph::from_json(json_of(3, &links)).unwrap();
    let set = graph.resolve_workspace_names(["p0", "p2"]).unwrap();
    let label = |name: &str| format!(r#"{name} \"1.0.0\"\l\\"#);
    let wanted = format!(
        "digraph {{\n    0 [label=\"{}\"]\n    2 [label=\"{}\"]\n    0 -> 2 [label=\"\\np2\"]\n}}\n",
        label("p0"),
        label("p2")
    );
    assert_eq!(set.display_dot(Labels).to_string(), wanted);
}

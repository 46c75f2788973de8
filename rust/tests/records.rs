//! The whole records of packages and links, as a workspace of one member and what it needs has them.

mod common;

extern crate guppy_proved as guppy;

use guppy::graph::{
    BuildTargetId, BuildTargetKind, EnabledStatus, PackageGraph, PackageLink, PackageMetadata,
    PackagePublish,
};
use guppy::platform::PlatformStatus;
use guppy::{CargoMetadata, Version, VersionReq};

const JSON: &str = include_str!("records.json");

fn graph() -> PackageGraph {
    PackageGraph::from_json(JSON).unwrap()
}

fn tool(graph: &PackageGraph) -> PackageMetadata<'_> {
    graph.workspace().member_by_name("tool").unwrap()
}

fn link(graph: &PackageGraph) -> PackageLink<'_> {
    tool(graph).direct_links().next().unwrap()
}

#[test]
fn the_workspace_has_a_record() {
    let graph = graph();
    let workspace = graph.workspace();
    assert_eq!(workspace.target_directory(), "/w/target");
    assert_eq!(workspace.build_directory().unwrap(), "/cache/build");
    assert!(workspace.default_member_ids().eq([tool(&graph).id()]));
    assert!(workspace.default_members().eq([tool(&graph)]));
    assert_eq!(workspace.metadata_table()["release"], 1.5);
}

#[test]
fn default_members_stand_as_the_json_has_them() {
    let json = common::json_of(3, &[]);
    let id = |package: usize| format!("\"path+file:///w/p{package}#1.0.0\"");
    let all = format!(
        "\"workspace_default_members\":[{},{},{}]",
        id(0),
        id(1),
        id(2)
    );
    let some = format!("\"workspace_default_members\":[{},{}]", id(2), id(0));
    assert!(json.contains(&all));
    let graph = PackageGraph::from_json(json.replace(&all, &some)).unwrap();
    let defaults = graph.workspace().default_members();
    assert_eq!(common::named(defaults), ["p2", "p0"]);
    assert!(graph.workspace().build_directory().is_none());
}

#[test]
fn a_package_has_a_record() {
    let graph = graph();
    let tool = tool(&graph);
    assert_eq!(tool.authors(), ["Ann <ann@example.org>", "Bo"]);
    assert_eq!(tool.license_file().unwrap(), "LICENSE.txt");
    assert_eq!(tool.categories(), ["database"]);
    assert_eq!(tool.keywords(), ["graph", "größe"]);
    assert_eq!(tool.readme().unwrap(), "../README.md");
    assert_eq!(tool.homepage(), Some("https://example.org"));
    assert_eq!(tool.documentation(), Some("https://docs.example.org"));
    assert_eq!(tool.repository(), Some("https://git.example.org"));
    assert_eq!(tool.links(), Some("ssl"));
    assert_eq!(
        tool.publish(),
        PackagePublish::Registries(&["own".to_owned()])
    );
    assert_eq!(tool.default_run(), Some("tool"));
    // Cargo writes two numbers, and guppy tells three.
    assert_eq!(tool.rust_version(), Some(&Version::new(1, 82, 0)));
    assert_eq!(tool.metadata_table()["docs"]["all"], true);
    let mut features: Vec<&str> = tool.named_features().collect();
    features.sort_unstable();
    assert_eq!(features, ["default", "fast", "full"]);
    assert!(tool.has_default_feature() && tool.has_build_script() && !tool.is_proc_macro());
}

#[test]
fn a_package_without_more_has_none() {
    let graph = graph();
    let dep = link(&graph).to();
    assert!(dep.authors().is_empty() && dep.categories().is_empty() && dep.keywords().is_empty());
    assert!(dep.license_file().is_none() && dep.readme().is_none() && dep.rust_version().is_none());
    let texts = [
        dep.homepage(),
        dep.documentation(),
        dep.links(),
        dep.default_run(),
    ];
    assert_eq!(texts, [None; 4]);
    assert_eq!(dep.publish(), PackagePublish::Unrestricted);
    assert!(dep.metadata_table().is_null() && dep.named_features().eq(["fast"]));
    assert!(!dep.has_default_feature() && !dep.has_build_script() && dep.is_proc_macro());
}

#[test]
fn build_targets_are_told_by_id() {
    let graph = graph();
    let tool = tool(&graph);
    let ids: Vec<BuildTargetId<'_>> = tool.build_targets().map(|target| target.id()).collect();
    let wanted = [
        BuildTargetId::Library,
        BuildTargetId::BuildScript,
        BuildTargetId::Binary("tool"),
        BuildTargetId::Example("show"),
        BuildTargetId::Test("all"),
        BuildTargetId::Benchmark("speed"),
    ];
    assert_eq!(ids, wanted);
    for id in ids {
        assert_eq!(tool.build_target(&id).unwrap().id(), id);
    }
    assert!(tool.build_target(&BuildTargetId::Binary("show")).is_none());
}

#[test]
fn a_build_target_has_a_record() {
    let graph = graph();
    let tool = tool(&graph);
    let library = tool.build_target(&BuildTargetId::Library).unwrap();
    assert_eq!((library.name(), library.id().name()), ("tool_lib", None));
    let types = ["cdylib", "lib"].map(String::from);
    assert_eq!(library.kind(), BuildTargetKind::LibraryOrExample(&types));
    assert_eq!(
        (library.path().as_str(), library.edition()),
        ("/w/tool/src/lib.rs", "2021")
    );
    assert!(library.doc_by_default() && library.doctest_by_default() && library.test_by_default());
    let script = tool.build_target(&BuildTargetId::BuildScript).unwrap();
    assert_eq!(
        (script.name(), script.kind()),
        ("build-script-build", BuildTargetKind::Binary)
    );
    let binary = tool.build_target(&BuildTargetId::Binary("tool")).unwrap();
    assert_eq!((binary.name(), binary.edition()), ("tool", "2018"));
    assert_eq!(binary.required_features(), ["full"]);
    assert!(binary.doc_by_default() && !binary.doctest_by_default() && binary.test_by_default());
    let example = tool.build_target(&BuildTargetId::Example("show")).unwrap();
    let bin = ["bin".to_owned()];
    assert_eq!(example.kind(), BuildTargetKind::LibraryOrExample(&bin));
    assert!(!example.test_by_default());
}

#[test]
fn a_link_has_a_record() {
    let graph = graph();
    let link = link(&graph);
    assert_eq!((link.dep_name(), link.resolved_name()), ("short", "short"));
    assert_eq!(*link.version_req(), VersionReq::parse("^1.2").unwrap());
    assert_eq!(link.registry(), Some("https://index.example.org"));
    assert_eq!(link.path(), None);
}

// Where it is there: on all platforms, on none, or by these texts.
fn texts(status: PlatformStatus<'_>) -> Vec<String> {
    match status {
        PlatformStatus::Always => vec!["always".to_owned()],
        PlatformStatus::Never => Vec::new(),
        PlatformStatus::PlatformDependent { eval } => eval
            .target_specs()
            .iter()
            .map(|text| text.to_string())
            .collect(),
    }
}

fn both(status: EnabledStatus<'_>) -> [Vec<String>; 2] {
    [
        texts(status.required_status()),
        texts(status.optional_status()),
    ]
}

// On Windows it is required without its default features, and elsewhere optional with them.
#[test]
fn a_link_asks_for_features() {
    let graph = graph();
    let link = link(&graph);
    let (always, windows) = (vec!["always".to_owned()], vec!["cfg(windows)".to_owned()]);
    let normal = link.normal();
    assert_eq!(both(normal.status()), [windows.clone(), always.clone()]);
    assert_eq!(both(normal.default_features()), [vec![], always.clone()]);
    assert_eq!(
        both(normal.no_default_features()),
        [windows.clone(), vec![]]
    );
    // By what is required, and then by what is optional.
    assert!(normal.features().eq(["b", "c", "a", "b"]));
    assert_eq!(both(normal.feature_status("a")), [vec![], always.clone()]);
    assert_eq!(both(normal.feature_status("b")), [windows.clone(), always]);
    assert_eq!(both(normal.feature_status("c")), [windows, vec![]]);
    assert!(normal.feature_status("d").is_never());
    assert!(!link.build().is_present() && link.build().features().next().is_none());
    assert!(link.dev().default_features().is_never());
}

// All that details of packages and links tell.
fn details(graph: &PackageGraph) -> Vec<String> {
    let of_package = |it: PackageMetadata<'_>| {
        let lists = [it.authors(), it.categories(), it.keywords()];
        let paths = [it.license_file(), it.readme()];
        let texts = [
            it.homepage(),
            it.documentation(),
            it.links(),
            it.default_run(),
        ];
        let rest = (it.publish(), it.rust_version(), it.metadata_table());
        let features: Vec<_> = it.named_features().collect();
        let targets: Vec<_> = it
            .build_targets()
            .map(|target| {
                (
                    target.id().name().map(str::to_owned),
                    target.path().as_str(),
                )
            })
            .collect();
        format!("{lists:?} {paths:?} {texts:?} {rest:?} {features:?} {targets:?}")
    };
    let of_link = |it: PackageLink<'_>| {
        let sections = [it.normal(), it.build(), it.dev()].map(|section| {
            let features: Vec<_> = section.features().collect();
            let each = features.iter().map(|name| section.feature_status(name));
            let (defaults, none) = (section.default_features(), section.no_default_features());
            format!(
                "{features:?} {:?} {defaults:?} {none:?}",
                each.collect::<Vec<_>>()
            )
        });
        let (registry, path) = (it.registry(), it.path());
        format!("{} {registry:?} {path:?} {sections:?}", it.version_req())
    };
    let links = graph.packages().flat_map(|it| it.direct_links());
    graph
        .packages()
        .map(of_package)
        .chain(links.map(of_link))
        .collect()
}

#[test]
fn details_that_are_read_at_once_are_the_same() {
    for json in [JSON, common::JSON] {
        let later = PackageGraph::from_json(json).unwrap();
        let at_once = CargoMetadata::with_details(json).unwrap();
        let at_once = at_once.build_graph().unwrap();
        assert_eq!(details(&at_once), details(&later));
        assert_eq!(details(&at_once.clone()), details(&later));
    }
}

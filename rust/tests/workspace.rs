//! The members of the workspace of the documents.

mod common;

extern crate guppy_proved as guppy;

use camino::Utf8Path;
use common::{id, named, workspace, JSON};
use guppy::graph::{PackageGraph, PackageMetadata};
use guppy::{answer, Error};

#[test]
fn the_workspace_says_where_it_is() {
    let graph = workspace();
    assert_eq!(graph.workspace().root(), "/workspace");
    assert_eq!(graph.workspace().target_directory(), "/workspace/target");
    assert_eq!(graph.workspace().member_count(), 6);
}

// The workspace whose members' names go the other way than their paths.
fn turned() -> PackageGraph {
    let folders = [
        ("core", "z"),
        ("app", "core"),
        ("unused", "a/x"),
        ("macros", "a-x"),
    ];
    let json = folders
        .iter()
        .fold(JSON.to_owned(), |json, (name, folder)| {
            let path = format!("/workspace/crates/{name}/Cargo.toml");
            json.replace(&path, &format!("/workspace/{folder}/Cargo.toml"))
        });
    PackageGraph::from_json(json).unwrap()
}

// As guppy sorts them: by path, component by component, not as the JSON has them.
#[test]
fn members_go_by_path() {
    let graph = turned();
    let workspace = graph.workspace();
    let by_path = ["unused", "macros", "app", "cli", "test-support", "core"];
    let paths = [
        "a/x",
        "a-x",
        "core",
        "crates/cli",
        "crates/test-support",
        "z",
    ];
    assert_eq!(named(workspace.iter()), by_path);
    let listed: Vec<&str> = workspace
        .iter_by_path()
        .map(|(path, _)| path.as_str())
        .collect();
    assert_eq!(listed, paths);
    assert_eq!(
        named(workspace.iter_by_path().map(|(_, member)| member)),
        by_path
    );
    let ids: Vec<_> = workspace.iter().map(|member| member.id()).collect();
    assert!(workspace.member_ids().eq(ids));
}

#[test]
fn members_go_by_name() {
    let graph = turned();
    let listed: Vec<(&str, &str)> = graph
        .workspace()
        .iter_by_name()
        .map(|(name, member)| (name, member.name()))
        .collect();
    let names = ["app", "cli", "core", "macros", "test-support", "unused"];
    assert_eq!(listed, names.map(|name| (name, name)));
}

#[test]
fn members_are_found_by_path_and_name() {
    let graph = turned();
    let workspace = graph.workspace();
    for member in workspace.iter() {
        let path = member.source().workspace_path().unwrap();
        assert_eq!(workspace.member_by_path(path).unwrap(), member);
        assert_eq!(workspace.member_by_name(member.name()).unwrap(), member);
        assert!(workspace.contains_path(path) && workspace.contains_name(member.name()));
    }
    // Paths are the same where their components are.
    assert_eq!(workspace.member_by_path("a/./x/").unwrap().name(), "unused");
    assert!(!workspace.contains_path("a") && !workspace.contains_name("a"));
    let found: Vec<PackageMetadata<'_>> = workspace.members_by_paths(["z", "a-x", "z"]).unwrap();
    assert_eq!(named(found), ["core", "macros", "core"]);
    let found: Vec<PackageMetadata<'_>> = workspace.members_by_names(["cli", "app"]).unwrap();
    assert_eq!(named(found), ["cli", "app"]);
}

#[test]
fn the_first_unknown_path_or_name_is_told() {
    let graph = workspace();
    let paths = ["crates/core", "x", "y"].map(Utf8Path::new);
    let names = ["core", "x", "y"];
    let is_path = |told: Error| matches!(told, Error::UnknownWorkspacePath(path) if path == "x");
    let is_name = |told: Error| matches!(told, Error::UnknownWorkspaceName(name) if name == "x");
    let workspace = graph.workspace();
    assert!(is_path(
        workspace.members_by_paths::<Vec<_>>(paths).unwrap_err()
    ));
    assert!(is_path(graph.query_workspace_paths(paths).unwrap_err()));
    assert!(is_path(graph.resolve_workspace_paths(paths).unwrap_err()));
    assert!(is_name(
        workspace.members_by_names::<Vec<_>>(names).unwrap_err()
    ));
    assert!(is_name(graph.query_workspace_names(names).unwrap_err()));
    assert!(is_name(graph.resolve_workspace_names(names).unwrap_err()));
    assert_eq!(
        graph
            .resolve_workspace_names(names)
            .unwrap_err()
            .to_string(),
        "unknown workspace package name: x"
    );
}

#[test]
fn members_are_published_after_what_they_need() {
    let graph = workspace();
    let order = named(graph.publish_order().unwrap());
    let place = |name| order.iter().position(|it| *it == name).unwrap();
    assert_eq!(order.len(), 6);
    for (first, then) in [
        ("macros", "core"),
        ("core", "test-support"),
        ("core", "cli"),
        ("cli", "app"),
    ] {
        assert!(place(first) < place(then), "{order:?}");
    }
    assert!(graph.verify().is_ok());
}

#[test]
fn members_are_tested_after_their_files_changed() {
    let graph = workspace();
    let tested = |paths: &[&'static str], ignored: &[&'static str]| {
        let affected = graph.affected(paths.iter().copied(), ignored.iter().copied());
        named(affected.unwrap())
    };
    let of_core = tested(&["crates/core/src/lib.rs"], &[]);
    assert_eq!(of_core, ["core", "test-support", "cli", "app"]);
    assert_eq!(tested(&["crates/cli/--x"], &[]), ["cli", "app"]);
    assert_eq!(tested(&["Cargo.lock"], &[]).len(), 6);
    assert!(tested(&["docs/a.md", "docs"], &["docs"]).is_empty() && tested(&[], &[]).is_empty());
    assert!(matches!(
        graph.affected(["a\0b"], []),
        Err(Error::Refused(_))
    ));
}

#[test]
fn each_command_is_answered_as_the_program_answers_it() {
    let stored = |file| {
        let folder = concat!(env!("CARGO_MANIFEST_DIR"), "/../crates/guppy_cargo_main");
        std::fs::read_to_string(format!("{folder}/{file}")).unwrap()
    };
    let (json, args) = (stored("stdin"), stored("args"));
    assert_eq!(answer(&json, args.lines()).unwrap(), stored("stdout"));
    assert_eq!(answer(JSON, ["depends", "app", "core"]).unwrap(), "true\n");
    assert_eq!(answer(JSON, ["verify"]).unwrap(), "ok\n");
    let unknown = answer(JSON, ["depends", "app", "nobody"]).unwrap_err();
    assert_eq!(unknown.to_string(), "unknown package ID: nobody");
    assert!(matches!(answer(JSON, ["a\0b"]), Err(Error::Refused(_))));
}

#[test]
fn a_graph_is_asked_by_several_threads() {
    let graph = workspace();
    let ask = || {
        for _ in 0..50 {
            let all = graph.query_forward([id(&graph, "app")]).unwrap().resolve();
            assert_eq!(all.len(), 5);
            assert_eq!(graph.publish_order().unwrap().len(), 6);
        }
    };
    std::thread::scope(|scope| (0..4).for_each(|_| drop(scope.spawn(ask))));
}

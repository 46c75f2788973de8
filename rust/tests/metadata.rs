//! What is read as metadata, what is refused, and what cargo says.

mod common;

extern crate guppy_proved as guppy;

use common::{json_of, named, JSON};
use guppy::graph::{DependencyDirection, PackageGraph};
use guppy::{CargoMetadata, Error, MetadataCommand};
use std::error::Error as _;
use std::fs;
use std::path::PathBuf;

#[test]
fn metadata_is_written_as_it_was_read() {
    let metadata = CargoMetadata::parse_json(JSON).unwrap();
    let mut written = Vec::new();
    metadata.serialize(&mut written).unwrap();
    assert_eq!(written, JSON.as_bytes());
    // There is no room in a slice of three bytes.
    let told = metadata.serialize(&mut &mut [0; 3][..]).unwrap_err();
    assert!(matches!(told, Error::MetadataSerializeError(_)) && told.source().is_some());
    let graphs = [
        metadata.clone().build_graph(),
        PackageGraph::from_metadata(metadata),
    ];
    assert!(graphs
        .into_iter()
        .all(|graph| graph.unwrap().package_count() == 6));
}

// serde says where a text is no JSON.
#[test]
fn what_is_no_json_is_refused() {
    for (json, place) in [("", (1, 0)), ("{", (1, 1)), ("{\n 1", (2, 2))] {
        let told = PackageGraph::from_json(json).unwrap_err();
        assert!(told.source().is_some() && !told.to_string().is_empty());
        let Error::MetadataParseError(fault) = told else {
            panic!("{json} is read")
        };
        assert_eq!((fault.line(), fault.column()), place, "{json}");
        assert!(fault.is_eof() || fault.is_syntax(), "{json}: {fault}");
    }
}

#[test]
fn what_is_no_metadata_is_refused() {
    let versions = JSON.replace("\"version\": \"0.1.0\"", "\"version\": \"0.1\"");
    let versions = versions.replace("\"version\":\"0.1.0\"", "\"version\":\"0.1\"");
    assert_ne!(versions, JSON);
    let without = [
        "[]",
        "{}",
        r#"{"packages": []}"#,
        r#"{"packages": [{"id": 1}]}"#,
        &versions,
    ];
    for json in without {
        let told = PackageGraph::from_json(json).unwrap_err();
        let fault = told.source().expect("a reason").to_string();
        assert!(
            matches!(told, Error::MetadataParseError(_)) && !fault.is_empty(),
            "{json}"
        );
    }
}

#[test]
fn what_makes_no_graph_is_refused() {
    let unknown = JSON.replace("\"pkg\":\"path", "\"pkg\":\"other");
    let links = [(0, 1, "normal"), (0, 1, "dev")];
    for (json, said) in [
        (unknown, "unknown package other+file:///workspace/crates/"),
        (
            json_of(2, &links),
            "a second link from path+file:///w/p0#1.0.0 to path+file:///w/p1#1.0.0",
        ),
    ] {
        let told = PackageGraph::from_json(json).unwrap_err();
        assert!(
            matches!(told, Error::PackageGraphConstructError(_)),
            "{told:?}"
        );
        assert!(told.to_string().contains(said), "{told}");
    }
}

// Rules of docs/RULES.md that JSON can break, though Cargo's never does.
#[test]
fn records_that_break_a_rule_are_refused() {
    let sound = json_of(2, &[]);
    assert!(PackageGraph::from_json(&sound).is_ok());
    let (first, second) = ("path+file:///w/p0#1.0.0", "path+file:///w/p1#1.0.0");
    let defaults = format!("\"workspace_default_members\":[\"{first}\"");
    for (old, new, said) in [
        (second, first, first),
        (
            &*defaults,
            "\"workspace_default_members\":[\"nobody\"",
            "nobody",
        ),
        ("/w/p1/Cargo.toml", "/w/p0/Cargo.toml", "path p0"),
        (
            "\"name\":\"p1\",\"version\"",
            "\"name\":\"p0\",\"version\"",
            "name p0",
        ),
    ] {
        let broken = sound.replace(old, new);
        assert_ne!(broken, sound, "{old}");
        match PackageGraph::from_json(broken).unwrap_err() {
            Error::PackageGraphConstructError(why) => assert!(why.contains(said), "{why}"),
            other => panic!("{new}: {other:?}"),
        }
    }
}

// As guppy's documentation says of `--no-deps`: no links, and nothing of packages that are no members.
#[test]
fn light_metadata_make_a_graph_without_links() {
    let resolve = JSON.find("\"resolve\":").unwrap();
    let end = JSON.find("\"target_directory\"").unwrap();
    let light = format!("{}\"resolve\":null,{}", &JSON[..resolve], &JSON[end..]);
    let graph = PackageGraph::from_json(&light).unwrap();
    assert_eq!((graph.package_count(), graph.link_count()), (6, 0));
    let all = graph.resolve_all();
    assert_eq!(all.root_packages(DependencyDirection::Forward).len(), 6);
    let mut written = Vec::new();
    let metadata = CargoMetadata::parse_json(&light).unwrap();
    metadata.serialize(&mut written).unwrap();
    assert_eq!(written, light.as_bytes());
    assert_eq!(
        graph.affected(["crates/core/x"], []).map(named).unwrap(),
        ["core"]
    );
}

// Nothing is asked of details until one is, unless they are read with the rest.
#[test]
fn details_that_cargo_does_not_print_are_refused() {
    let json = JSON.replace("\"authors\":[]", "\"authors\":7");
    assert_ne!(json, JSON);
    let told = CargoMetadata::with_details(json.as_str()).unwrap_err();
    let fault = told.source().expect("a reason").to_string();
    assert!(matches!(told, Error::MetadataParseError(_)) && fault.contains("authors"));
    let graph = PackageGraph::from_json(json).unwrap();
    let authors = || graph.packages().map(|it| it.authors().len()).max();
    assert!(std::panic::catch_unwind(authors).is_err());
}

#[test]
fn light_metadata_are_read_with_details() {
    let resolve = JSON.find("\"resolve\":").unwrap();
    let end = JSON.find("\"target_directory\"").unwrap();
    let light = format!("{}\"resolve\":null,{}", &JSON[..resolve], &JSON[end..]);
    let graph = CargoMetadata::with_details(light).unwrap().build_graph();
    let graph = graph.unwrap();
    let core = graph.workspace().member_by_name("core").unwrap();
    assert_eq!((graph.link_count(), core.build_targets().len()), (0, 1));
}

// A workspace of a package with an optional dependency on another one.
struct Workspace(PathBuf);

impl Workspace {
    fn new(name: &str) -> Self {
        let folder = std::env::temp_dir().join(format!("guppy-{}-{name}", std::process::id()));
        let manifest = |name: &str, more: &str| {
            format!("[package]\nname = \"{name}\"\nversion = \"0.1.0\"\nedition = \"2021\"\n{more}")
        };
        for (name, more) in [
            (
                "one",
                "[dependencies]\ntwo = { path = \"../two\", optional = true }\n",
            ),
            ("two", ""),
        ] {
            fs::create_dir_all(folder.join(name).join("src")).unwrap();
            fs::write(folder.join(name).join("src/lib.rs"), "").unwrap();
            fs::write(folder.join(name).join("Cargo.toml"), manifest(name, more)).unwrap();
        }
        fs::write(
            folder.join("Cargo.toml"),
            "[workspace]\nmembers = [\"one\", \"two\"]\n",
        )
        .unwrap();
        Workspace(folder)
    }
}

impl Drop for Workspace {
    fn drop(&mut self) {
        fs::remove_dir_all(&self.0).unwrap();
    }
}

// All features are asked for, as guppy does: without them the optional dependency would be no link.
#[test]
fn cargo_is_asked_for_all_features() {
    let workspace = Workspace::new("features");
    let mut command = MetadataCommand::new();
    command
        .current_dir(&workspace.0)
        .other_options(["--offline"]);
    let graph = command.build_graph().unwrap();
    assert_eq!((graph.package_count(), graph.link_count()), (2, 1));
    let one = graph.workspace().member_by_path("one").unwrap();
    let link = one.direct_links().next().unwrap();
    assert!(link.normal().status().optional_status().is_always());
    assert!(link.normal().status().required_status().is_never());
    let again = PackageGraph::from_command(&mut command).unwrap();
    assert_eq!(again.link_count(), 1);
}

#[test]
fn cargo_is_asked_for_members_alone() {
    let workspace = Workspace::new("light");
    let mut command = MetadataCommand::new();
    command
        .manifest_path(workspace.0.join("Cargo.toml"))
        .no_deps();
    let graph = command.build_graph().unwrap();
    assert_eq!((graph.package_count(), graph.link_count()), (2, 0));
}

#[test]
fn the_command_is_what_is_asked_for() {
    let mut command = MetadataCommand::new();
    command
        .cargo_path("my-cargo")
        .manifest_path("a/Cargo.toml")
        .current_dir("b")
        .no_deps()
        .other_options(["--offline", "--locked"])
        .env("A", "1")
        .env_remove("B")
        .verbose(true);
    let command = command.cargo_command();
    assert_eq!(command.get_program(), "my-cargo");
    let words = [
        "metadata",
        "--format-version",
        "1",
        "--no-deps",
        "--all-features",
        "--manifest-path",
        "a/Cargo.toml",
        "--offline",
        "--locked",
    ];
    assert!(command.get_args().eq(words));
    assert_eq!(command.get_current_dir(), Some("b".as_ref()));
    let set: Vec<_> = command.get_envs().collect();
    assert_eq!(
        set,
        [("A".as_ref(), Some("1".as_ref())), ("B".as_ref(), None)]
    );
}

#[test]
fn where_cargo_fails_that_is_told() {
    let said = |command: &MetadataCommand| {
        let told = command.exec().unwrap_err();
        assert!(matches!(told, Error::CommandError(_)), "{told:?}");
        told.source().expect("a reason").to_string()
    };
    let mut command = MetadataCommand::new();
    assert!(said(command.manifest_path("/no/Cargo.toml")).contains("/no/Cargo.toml"));
    assert!(!said(command.cargo_path("/no/cargo")).is_empty());
    assert!(said(command.cargo_path("true")).contains("no JSON"));
}

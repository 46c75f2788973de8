//! The workspace of the documents, and others as `cargo metadata` prints them, made of links by number.
#![allow(dead_code)]

use guppy_proved::graph::{PackageGraph, PackageMetadata};
use guppy_proved::PackageId;

/// What cargo says of the workspace of the documents.
pub const JSON: &str = include_str!("../../../examples/metadata.json");

/// The graph of the workspace of the documents.
pub fn workspace() -> PackageGraph {
    PackageGraph::from_json(JSON).unwrap()
}

/// The ID of the member with the name.
pub fn id<'g>(graph: &'g PackageGraph, name: &str) -> &'g PackageId {
    graph.workspace().member_by_name(name).unwrap().id()
}

/// The names of the packages.
pub fn named<'g>(packages: impl IntoIterator<Item = PackageMetadata<'g>>) -> Vec<&'g str> {
    packages.into_iter().map(|package| package.name()).collect()
}

/// The names of the packages, sorted.
pub fn sorted<'g>(packages: impl IntoIterator<Item = PackageMetadata<'g>>) -> Vec<&'g str> {
    let mut names = named(packages);
    names.sort_unstable();
    names
}

/// A link: from, to, and its kind as Cargo writes it.
pub type Link = (usize, usize, &'static str);

fn id_of(package: usize) -> String {
    format!("path+file:///w/p{package}#1.0.0")
}

fn quoted(kind: &str) -> String {
    if kind == "normal" {
        "null".to_owned()
    } else {
        format!("\"{kind}\"")
    }
}

/// The JSON of a workspace of so many members, with these links.
pub fn json_of(count: usize, links: &[Link]) -> String {
    let package = |p: usize| {
        let declared: Vec<String> = links
            .iter()
            .filter(|link| link.0 == p)
            .map(|(_, to, kind)| {
                format!(
                    r#"{{"name":"p{to}","source":null,"req":"*","kind":{},"rename":null,"optional":false,
                    "uses_default_features":true,"features":[],"target":null,"registry":null,"path":"/w/p{to}"}}"#,
                    quoted(kind)
                )
            })
            .collect();
        format!(
            r#"{{"name":"p{p}","version":"1.0.0","id":"{}","license":null,"license_file":null,"description":null,
            "source":null,"dependencies":[{}],"targets":[{{"kind":["lib"],"crate_types":["lib"],"name":"p{p}",
            "src_path":"/w/p{p}/src/lib.rs","edition":"2021","doc":true,"doctest":true,"test":true}}],
            "features":{{}},"manifest_path":"/w/p{p}/Cargo.toml","metadata":null,"publish":null,"authors":[],
            "categories":[],"keywords":[],"readme":null,"repository":null,"homepage":null,"documentation":null,
            "edition":"2021","links":null,"default_run":null,"rust_version":null}}"#,
            id_of(p),
            declared.join(",")
        )
    };
    let node = |p: usize| {
        let deps: Vec<String> = links
            .iter()
            .filter(|link| link.0 == p)
            .map(|(_, to, kind)| {
                format!(
                    r#"{{"name":"p{to}","pkg":"{}","dep_kinds":[{{"kind":{},"target":null}}]}}"#,
                    id_of(*to),
                    quoted(kind)
                )
            })
            .collect();
        format!(
            r#"{{"id":"{}","dependencies":[],"deps":[{}],"features":[]}}"#,
            id_of(p),
            deps.join(",")
        )
    };
    let ids: Vec<String> = (0..count).map(|p| format!("\"{}\"", id_of(p))).collect();
    format!(
        r#"{{"packages":[{}],"workspace_members":[{ids}],"workspace_default_members":[{ids}],
        "resolve":{{"nodes":[{}],"root":null}},"target_directory":"/w/target","build_directory":"/w/target",
        "version":1,"workspace_root":"/w","metadata":null}}"#,
        (0..count).map(package).collect::<Vec<_>>().join(","),
        (0..count).map(node).collect::<Vec<_>>().join(","),
        ids = ids.join(",")
    )
}

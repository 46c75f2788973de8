//! What packages and links say of the workspace of the documents.

mod common;

extern crate guppy_proved as guppy;

use camino::Utf8Path;
use common::{id, json_of, sorted, workspace};
use guppy::graph::{DependencyDirection, ExternalSource, GitReq, PackageGraph, PackageSource};
use guppy::{DependencyKind, Error, PackageId, Version};
use DependencyDirection::{Forward, Reverse};

#[test]
fn packages_say_what_the_json_says() {
    let graph = workspace();
    assert_eq!((graph.package_count(), graph.link_count()), (6, 6));
    assert_eq!((graph.packages().len(), graph.package_ids().len()), (6, 6));
    let core = graph.metadata(id(&graph, "core")).unwrap();
    assert_eq!(core.id().repr(), "path+file:///workspace/crates/core#0.1.0");
    assert_eq!((core.name(), core.edition()), ("core", "2021"));
    assert_eq!(*core.version(), Version::new(0, 1, 0));
    assert_eq!(core.manifest_path(), "/workspace/crates/core/Cargo.toml");
    let path = Utf8Path::new("crates/core");
    assert_eq!(core.source(), PackageSource::Workspace(path));
    assert_eq!(core.source().workspace_path(), Some(path));
    assert_eq!(core.source().to_string(), "crates/core");
    assert!(core.in_workspace() && core.source().is_local() && !core.source().is_path());
    assert!(std::ptr::eq(core.graph(), &graph));
}

#[test]
fn texts_are_those_of_the_json() {
    let plain = json_of(2, &[(0, 1, "normal")]);
    let described = r#""description":"Größe: 1 µm\n12:""#;
    let json = plain
        .replace(r#""description":null"#, described)
        .replace(r#""license":null"#, r#""license":"""#)
        .replace(r#""version":"1.0.0""#, r#""version":"1.0.0-rc.1+x""#);
    let graph = PackageGraph::from_json(json).unwrap();
    for package in graph.packages() {
        assert_eq!(package.description(), Some("Größe: 1 µm\n12:"));
        assert_eq!((package.license(), package.repository()), (Some(""), None));
        assert_eq!(package.version().to_string(), "1.0.0-rc.1+x");
        assert!(format!("{package:?}").contains(package.id().repr()));
    }
    let link = graph.resolve_all().links(Forward).next().unwrap();
    assert!(format!("{link:?}").contains("p1#1.0.0"));
}

#[test]
fn links_say_what_the_json_says() {
    let graph = workspace();
    let core = graph.metadata(id(&graph, "core")).unwrap();
    let needed = core.direct_links().map(|link| link.to());
    assert_eq!(sorted(needed), ["macros", "test-support"]);
    let needing = core.reverse_direct_links().map(|link| link.from());
    assert_eq!(sorted(needing), ["app", "cli", "test-support"]);
    let to_macros = core.link_to(id(&graph, "macros")).unwrap().unwrap();
    assert!(to_macros.build().is_present() && !to_macros.normal().is_present());
    assert!(!to_macros.dev_only());
    let to_tests = core.link_to(id(&graph, "test-support")).unwrap().unwrap();
    assert_eq!(to_tests.endpoints(), (core, to_tests.to()));
    let names = (to_tests.dep_name(), to_tests.resolved_name());
    assert_eq!(names, ("test-support", "test_support"));
    assert!(to_tests.dev().is_present() && to_tests.dev_only());
    let dev = to_tests.req_for_kind(DependencyKind::Development).status();
    assert!(dev.required_status().is_always() && dev.optional_status().is_never());
    assert!(to_tests.normal().status().is_never());
}

// What is no member lies at a path, or comes from elsewhere.
#[test]
fn packages_that_are_no_members_have_sources() {
    let json = json_of(3, &[(0, 1, "normal"), (0, 2, "normal")]);
    let ids = |packages: &[usize]| {
        let ids = packages
            .iter()
            .map(|it| format!("\"path+file:///w/p{it}#1.0.0\""));
        ids.collect::<Vec<_>>().join(",")
    };
    let members = json.replace(&ids(&[0, 1, 2]), &ids(&[0]));
    let external = "registry+https://example.org/index";
    let sources: Vec<&str> = members.split("\"source\":null,\"dependencies\"").collect();
    let [first, second, third, last] = sources[..] else {
        panic!("three packages")
    };
    let (null, text) = ("\"source\":null,", format!("\"source\":\"{external}\","));
    let json = format!("{first}{null}\"dependencies\"{second}{null}\"dependencies\"{third}{text}\"dependencies\"{last}");
    let graph = PackageGraph::from_json(json).unwrap();
    let source = |name: &str| {
        graph
            .packages()
            .find(|it| it.name() == name)
            .unwrap()
            .source()
    };
    assert_eq!(source("p0"), PackageSource::Workspace("p0".into()));
    assert_eq!(source("p1"), PackageSource::Path("p1".into()));
    assert_eq!(source("p2"), PackageSource::External(external));
    assert_eq!(source("p1").local_path().unwrap(), "p1");
    assert!(source("p1").workspace_path().is_none() && source("p2").is_external());
    assert_eq!(graph.workspace().member_count(), 1);
    assert_eq!(graph.resolve_workspace().len(), 1);
}

// The link between two packages is told from either of them, and an unknown ID is refused.
#[test]
fn the_link_between_two_packages_is_found() {
    let graph = workspace();
    let (app, core) = (id(&graph, "app"), id(&graph, "core"));
    let (of_app, of_core) = (graph.metadata(app).unwrap(), graph.metadata(core).unwrap());
    let ends = |link: Option<guppy::graph::PackageLink<'_>>| {
        link.map(|link| (link.from().name().to_owned(), link.to().name().to_owned()))
    };
    let wanted = Some(("app".to_owned(), "core".to_owned()));
    assert_eq!(ends(of_app.link_to(core).unwrap()), wanted);
    assert_eq!(ends(of_core.link_from(app).unwrap()), wanted);
    assert_eq!(ends(of_app.link_between(core, Forward).unwrap()), wanted);
    assert_eq!(ends(of_core.link_between(app, Reverse).unwrap()), wanted);
    assert_eq!(ends(of_core.link_to(app).unwrap()), None);
    assert_eq!(ends(of_app.link_between(core, Reverse).unwrap()), None);
    let nobody = PackageId::new("nobody");
    for told in [of_app.link_to(&nobody), of_app.link_from(&nobody)] {
        assert!(matches!(told, Err(Error::UnknownPackageId(id)) if id == nobody));
    }
}

// guppy's documentation has these forms.
#[test]
fn external_sources_are_parsed_and_written() {
    let git = |req| ExternalSource::Git {
        repository: "https://example.org/tool.git",
        req,
        resolved: "0123abc",
    };
    for (text, source) in [
        (
            "registry+https://example.org/index",
            ExternalSource::Registry("https://example.org/index"),
        ),
        (
            "sparse+https://example.org/",
            ExternalSource::Sparse("https://example.org/"),
        ),
        (
            "git+https://example.org/tool.git?branch=a#b#0123abc",
            git(GitReq::Branch("a#b")),
        ),
        (
            "git+https://example.org/tool.git?tag=v1#0123abc",
            git(GitReq::Tag("v1")),
        ),
        (
            "git+https://example.org/tool.git?rev=0123#0123abc",
            git(GitReq::Rev("0123")),
        ),
        (
            "git+https://example.org/tool.git#0123abc",
            git(GitReq::Default),
        ),
    ] {
        assert_eq!(ExternalSource::new(text), Some(source));
        assert_eq!(source.to_string(), text);
        assert_eq!(PackageSource::External(text).parse_external(), Some(source));
    }
    for text in [
        "git+https://example.org/tool.git",
        "svn+https://example.org/#1",
        "",
    ] {
        assert_eq!(ExternalSource::new(text), None, "{text}");
    }
    let source = PackageSource::External(PackageSource::CRATES_IO_REGISTRY);
    assert!(source.is_crates_io() && source.is_external() && source.local_path().is_none());
    assert_eq!(PackageSource::Path("a".into()).parse_external(), None);
}

//! What Cargo builds, judged by cargo's own graph of units, in workspaces that are written here.

mod common;

extern crate guppy_proved as guppy;

use common::{id, json_of, named};
use guppy::graph::cargo::{BuildPlatform, CargoOptions, CargoResolverVersion, CargoSet};
use guppy::graph::feature::{named_feature_filter, FeatureFilterFn, FeatureGraph};
use guppy::graph::feature::{FeatureId, FeatureLabel, FeatureSet, StandardFeatures};
use guppy::graph::{DependencyDirection, PackageGraph};
use guppy::platform::{Platform, PlatformSpec, TargetFeatures};
use guppy::{Error, JsonValue, MetadataCommand, PackageId};
use std::collections::{BTreeMap, BTreeSet};
use std::fs;
use std::path::{Path, PathBuf};
use std::process::Command;

const APP: &str = r#"
[features]
default = ["fast"]
fast = ["codec/simd"]
net = ["store?/remote"]
kept = ["dep:store", "net"]
helped = ["tools"]

[dependencies]
codec = { path = "../codec", default-features = false }
derive = { path = "../derive" }
store = { path = "../store", optional = true, features = ["disk"] }
tools = { path = "../tools", optional = true }

[build-dependencies]
gen = { path = "../gen" }

[dev-dependencies]
testkit = { path = "../testkit" }
"#;

const CODEC: &str = r#"
[features]
default = ["std"]
std = []
simd = []
tables = []
quoting = []
"#;

const STORE: &str = r#"
[features]
default = ["cache"]
cache = []
disk = []
remote = []

[dependencies]
codec = { path = "../codec", default-features = false }
"#;

const GEN: &str = "[dependencies]\ncodec = { path = \"../codec\", features = [\"tables\"] }\n";

const DERIVE: &str = r#"
[lib]
proc-macro = true

[dependencies]
codec = { path = "../codec", default-features = false, features = ["quoting"] }
"#;

const TESTKIT: &str = "[dependencies]\nstore = { path = \"../store\", features = [\"remote\"] }\n";

// The members, each with the rest of its manifest. Those with a build script are called `app` and `gen`.
const MEMBERS: [(&str, &str); 7] = [
    ("app", APP),
    ("codec", CODEC),
    ("derive", DERIVE),
    ("gen", GEN),
    ("store", STORE),
    ("testkit", TESTKIT),
    ("tools", "[features]\nfast = []\n"),
];

fn write_package(folder: &Path, name: &str, rest: &str, head: &str) {
    let package = format!(
        "{head}[package]\nname = \"{name}\"\nversion = \"0.1.0\"\nedition = \"2021\"\n{rest}"
    );
    fs::create_dir_all(folder.join("src")).unwrap();
    fs::write(folder.join("Cargo.toml"), package).unwrap();
    fs::write(folder.join("src/lib.rs"), "").unwrap();
    if name == "app" {
        fs::write(folder.join("build.rs"), "fn main() {}\n").unwrap();
        fs::write(folder.join("src/main.rs"), "fn main() {}\n").unwrap();
    }
}

// A workspace with these members, in a folder of this name; the one called `root` is the package at its root.
struct Written {
    folder: PathBuf,
    graph: PackageGraph,
}

impl Written {
    fn new(folder: &str, resolver: &str, members: &[(&str, &str)]) -> Self {
        let folder = Path::new(env!("CARGO_TARGET_TMPDIR")).join(folder);
        let _ = fs::remove_dir_all(&folder);
        fs::create_dir_all(&folder).unwrap();
        let names: Vec<_> = members.iter().map(|(name, _)| name).collect();
        let names: Vec<_> = names.into_iter().filter(|name| **name != "root").collect();
        let head = format!("[workspace]\nresolver = \"{resolver}\"\nmembers = {names:?}\n");
        fs::write(folder.join("Cargo.toml"), &head).unwrap();
        for (name, rest) in members {
            match *name {
                "root" => write_package(&folder, name, rest, &head),
                name => write_package(&folder.join(name), name, rest, ""),
            }
        }
        let mut command = MetadataCommand::new();
        command
            .current_dir(&folder)
            .other_options(["--offline"])
            .env_remove("CARGO_BUILD_TARGET");
        Written {
            graph: command.build_graph().unwrap(),
            folder,
        }
    }

    // What these words have cargo build: packages by name, each with the features that are on for the target or host.
    fn by_cargo(&self, words: &str) -> Built {
        let mut command = Command::new(std::env::var_os("CARGO").unwrap());
        command
            .args(words.split(' '))
            .args(["--offline", "--unit-graph", "-Z", "unstable-options"])
            .env("RUSTC_BOOTSTRAP", "1")
            .env_remove("CARGO_BUILD_TARGET")
            .current_dir(&self.folder);
        let output = command.output().unwrap();
        let told = String::from_utf8_lossy(&output.stderr);
        assert!(output.status.success(), "cargo {words}: {told}");
        built_by(
            &self.graph,
            &serde_json::from_slice(&output.stdout).unwrap(),
        )
    }
}

fn options(resolver: CargoResolverVersion, tests: bool) -> CargoOptions<'static> {
    let mut options = CargoOptions::new();
    options.set_resolver(resolver).set_include_dev(tests);
    options
}

type Built = BTreeMap<(String, BuildPlatform), BTreeSet<String>>;

// The units don't say for what they are: it is followed from the roots. What builds a script is no part of its package,
// and it and procedural macros lead to the host.
fn built_by(graph: &PackageGraph, units: &JsonValue) -> Built {
    let numbers = |list: &JsonValue| -> Vec<usize> {
        let list = list.as_array().unwrap().iter();
        list.map(|it| it.as_u64().unwrap() as usize).collect()
    };
    let (mut built, mut seen) = (Built::new(), BTreeSet::new());
    let roots = numbers(&units["roots"]).into_iter();
    let mut waiting: Vec<_> = roots.map(|at| (at, BuildPlatform::Target)).collect();
    while let Some((at, from)) = waiting.pop() {
        let unit = &units["units"][at];
        let has_kind = |kind: &str| {
            unit["target"]["kind"]
                .as_array()
                .unwrap()
                .contains(&kind.into())
        };
        let is_script = has_kind("custom-build") && unit["mode"] != "run-custom-build";
        let is_of_host = is_script || has_kind("proc-macro");
        let platform = if is_of_host {
            BuildPlatform::Host
        } else {
            from
        };
        if !seen.insert((at, platform)) {
            continue;
        }
        if !is_script {
            let package = graph.metadata(&PackageId::new(unit["pkg_id"].as_str().unwrap()));
            let features = unit["features"].as_array().unwrap().iter();
            let features = features.map(|it| it.as_str().unwrap().to_owned());
            built.insert(
                (package.unwrap().name().to_owned(), platform),
                features.collect(),
            );
        }
        let needed = unit["dependencies"].as_array().unwrap().iter();
        waiting.extend(needed.map(|it| (it["index"].as_u64().unwrap() as usize, platform)));
    }
    built
}

// The same of a set.
fn built_of(set: &CargoSet<'_>) -> Built {
    let features = set.all_features().into_iter();
    let lists = features.flat_map(|(platform, features)| {
        let lists = features.packages_with_features(DependencyDirection::Forward);
        lists.map(move |list| (platform, list)).collect::<Vec<_>>()
    });
    let rows = lists.map(|(platform, list)| {
        assert!(list.has_base());
        let names = list.named_features().map(str::to_owned).collect();
        ((list.package().name().to_owned(), platform), names)
    });
    rows.collect()
}

// Exactly these members, as `app` or `app:fast,net`, each with these of its features.
fn members<'g>(graph: &'g PackageGraph, asked: &str) -> FeatureSet<'g> {
    let ids = asked.split(' ').flat_map(|member| {
        let (name, features) = member.split_once(':').unwrap_or((member, ""));
        let features = features.split(',').filter(|it| !it.is_empty());
        let features = features.map(move |feature| FeatureId::named(id(graph, name), feature));
        [FeatureId::base(id(graph, name))]
            .into_iter()
            .chain(features)
    });
    graph.feature_graph().resolve_ids(ids).unwrap()
}

fn with<'g>(graph: &'g PackageGraph, names: &str, features: StandardFeatures) -> FeatureSet<'g> {
    let members = graph.resolve_workspace_names(names.split(' ')).unwrap();
    members.to_feature_set(features)
}

// The set is what cargo builds by the words, `build` or `test` in front of them.
fn expect(written: &Written, resolver: CargoResolverVersion, asked: &FeatureSet<'_>, words: &str) {
    for (tests, verb) in [(false, "build"), (true, "test")] {
        let options = options(resolver, tests);
        let set = asked.clone().into_cargo_set(&options).unwrap();
        assert_eq!(set.initials(), asked);
        let words = format!("{verb} {words}");
        assert_eq!(
            built_of(&set),
            written.by_cargo(&words),
            "{resolver:?}: cargo {words}"
        );
    }
}

const RESOLVERS: [(CargoResolverVersion, &str); 3] = [
    (CargoResolverVersion::V1, "1"),
    (CargoResolverVersion::V2, "2"),
    (CargoResolverVersion::V3, "3"),
];

#[test]
fn what_is_built_is_what_cargo_builds() {
    for (resolver, number) in RESOLVERS {
        let written = Written::new(&format!("built-{number}"), number, &MEMBERS);
        let graph = &written.graph;
        let expect = |asked: &FeatureSet<'_>, words: &str| expect(&written, resolver, asked, words);
        use StandardFeatures::{All, Default, None};
        expect(&with(graph, "app", Default), "-p app");
        expect(&with(graph, "app", None), "-p app --no-default-features");
        expect(&with(graph, "app", All), "-p app --all-features");
        if resolver == CargoResolverVersion::V3 {
            continue;
        }
        expect(&with(graph, "app store", Default), "-p app -p store");
        expect(&with(graph, "derive tools", Default), "-p derive -p tools");
        expect(
            &with(graph, "app codec gen", All),
            "-p app -p codec -p gen --all-features",
        );
        let everything = graph.resolve_workspace();
        expect(&everything.to_feature_set(Default), "--workspace");
        expect(
            &everything.to_feature_set(None),
            "--workspace --no-default-features",
        );
        let app = graph.workspace().member_by_name("app").unwrap();
        expect(&app.to_feature_set(Default), "-p app");
        // Of single features: `default` gives `fast`, and `kept` gives `net`.
        expect(
            &members(graph, "app:net"),
            "-p app --no-default-features --features net",
        );
        let kept = "-p app --no-default-features --features kept,helped";
        expect(&members(graph, "app:kept,net,helped"), kept);
        expect(
            &members(graph, "app:default,fast,net,kept"),
            "-p app --features kept",
        );
        // `default` of one and not of the other, which has no dependency of its name.
        let one = "-p store -p codec --no-default-features --features store/default";
        expect(&members(graph, "store:default,cache codec"), one);
        let one = "-p tools -p derive --features fast";
        expect(&members(graph, "tools:fast derive"), one);
        let same = "-p store -p derive --features disk";
        expect(&members(graph, "store:cache,default,disk derive"), same);
    }
}

#[test]
fn a_package_at_the_root_is_asked_with_resolver_1() {
    let root = "[features]\ndefault = [\"on\"]\non = []\nmore = []\n\
                [dependencies]\ncodec = { path = \"codec\", features = [\"simd\"] }\n";
    let other = "[features]\ndefault = [\"on\"]\non = []\nmore = []\n";
    let all = [("root", root), ("codec", CODEC), ("other", other)];
    for (resolver, number) in RESOLVERS {
        let written = Written::new(&format!("rooted-{number}"), number, &all);
        let graph = &written.graph;
        let expect = |asked: &FeatureSet<'_>, words: &str| expect(&written, resolver, asked, words);
        expect(&with(graph, "root", StandardFeatures::Default), "-p root");
        expect(
            &with(graph, "root", StandardFeatures::None),
            "-p root --no-default-features",
        );
        expect(&with(graph, "other", StandardFeatures::Default), "-p other");
        expect(
            &with(graph, "other codec", StandardFeatures::All),
            "-p other -p codec --all-features",
        );
        expect(
            &members(graph, "other:default,on,more"),
            "-p other --features other/more",
        );
        let both = "-p root -p other --features more,other/more";
        expect(
            &members(graph, "root:default,on,more other:default,on,more"),
            both,
        );
        expect(
            &members(graph, "root:on other:default"),
            if resolver == CargoResolverVersion::V1 {
                "-p root -p other --no-default-features --features on"
            } else {
                "-p root -p other --no-default-features --features on,other/default"
            },
        );
        // That of another one without its default features can't be asked for.
        let asked = members(graph, "other:more");
        let set = asked.into_cargo_set(&options(resolver, false));
        match resolver {
            CargoResolverVersion::V1 => assert!(matches!(set, Err(Error::Refused(_)))),
            _ => assert!(set.is_ok()),
        }
    }
}

// The platform with the name, with the features that rustc takes its processor to have.
fn platform(triple: &'static str) -> Platform {
    let mut command = Command::new(std::env::var_os("RUSTC").unwrap_or_else(|| "rustc".into()));
    command.args(["--print", "cfg", "--target", triple]);
    let lines = String::from_utf8(command.output().unwrap().stdout).unwrap();
    let features = lines.lines().filter_map(|line| {
        let feature = line.strip_prefix("target_feature=\"")?.strip_suffix('"')?;
        Some(feature.to_owned())
    });
    Platform::new(triple, TargetFeatures::new(features)).unwrap()
}

#[test]
fn platforms_are_named() {
    const LINUX: &str = "x86_64-unknown-linux-gnu";
    const WINDOWS: &str = "x86_64-pc-windows-msvc";
    let app = r#"
[dependencies]
derive = { path = "../derive" }

[target.'cfg(windows)'.dependencies]
store = { path = "../store", features = ["disk"] }

[target.'cfg(all(unix, target_feature = "sse2"))'.dependencies]
store = { path = "../store", default-features = false, features = ["remote"] }

[target.'cfg(unix)'.build-dependencies]
gen = { path = "../gen" }

[target.'cfg(windows)'.build-dependencies]
tools = { path = "../tools" }
"#;
    let all = MEMBERS.map(|(name, rest)| (name, if name == "app" { app } else { rest }));
    let host = platform(LINUX);
    for (resolver, number) in RESOLVERS {
        let written = Written::new(&format!("platforms-{number}"), number, &all);
        let asked = with(&written.graph, "app", StandardFeatures::Default);
        for triples in [&[][..], &[LINUX], &[WINDOWS], &[WINDOWS, LINUX]] {
            let mut options = options(resolver, false);
            options.set_platform(host.clone().into());
            let mut words = "build -p app".to_owned();
            if !triples.is_empty() {
                let platforms = triples.iter().map(|triple| platform(triple));
                options.set_target_platform(PlatformSpec::platforms(platforms));
                triples
                    .iter()
                    .for_each(|triple| words += &format!(" --target {triple}"));
            }
            let set = asked.clone().into_cargo_set(&options).unwrap();
            assert_eq!(
                built_of(&set),
                written.by_cargo(&words),
                "{resolver:?}: {words}"
            );
        }
    }
}

#[test]
fn platforms_that_cannot_be_named_are_refused() {
    let graph = common::workspace();
    let refused = |set: &dyn Fn(&mut CargoOptions<'_>)| {
        let mut options = CargoOptions::new();
        set(&mut options);
        let told = with(&graph, "app", StandardFeatures::Default).into_cargo_set(&options);
        assert!(matches!(told, Err(Error::Refused(_))), "{options:?}");
    };
    let custom = |triple: &'static str, features: TargetFeatures| {
        Platform::new_custom_cfg(triple, "unix\n", features).unwrap()
    };
    refused(&|options| {
        options.set_platform(PlatformSpec::Always);
    });
    refused(&|options| {
        options.set_platform(PlatformSpec::Platforms(Vec::new()));
    });
    let two = PlatformSpec::platforms(["a", "b"].map(|name| custom(name, TargetFeatures::none())));
    refused(&|options| {
        options.set_host_platform(two.clone());
    });
    let all = custom("a", TargetFeatures::All);
    refused(&|options| {
        options.set_target_platform(all.clone().into());
    });
    let host = custom("host", TargetFeatures::none());
    refused(&|options| {
        options.set_target_platform(host.clone().into());
    });
    // A platform for which nothing is set.
    let bare = Platform::new_custom_cfg("bare", "", TargetFeatures::Unknown).unwrap();
    let mut options = CargoOptions::new();
    options.set_platform(bare.into());
    let app = with(&graph, "app", StandardFeatures::Default);
    let set = app.into_cargo_set(&options).unwrap();
    assert_eq!(set.target_features().len(), 3);
}

#[test]
fn the_host_has_features_of_its_own() {
    let written = Written::new("host", "2", &MEMBERS);
    let graph = &written.graph;
    let codec = id(graph, "codec");
    let mut options = CargoOptions::new();
    let app = with(graph, "app", StandardFeatures::Default);
    // With resolver 1, the default, the target and the host have the same.
    let set = app.clone().into_cargo_set(&options).unwrap();
    let names = |features: &FeatureSet<'_>| -> Vec<String> {
        let list = features.features_for(codec).unwrap().unwrap();
        list.labels().iter().map(FeatureLabel::to_string).collect()
    };
    let all = ["[base]", "default", "quoting", "simd", "std", "tables"];
    assert_eq!(names(set.target_features()), all);
    assert_eq!(names(set.host_features()), all);
    options.set_resolver(CargoResolverVersion::V2);
    let set = app.into_cargo_set(&options).unwrap();
    assert_eq!(names(set.target_features()), ["[base]", "simd"]);
    assert_eq!(
        names(set.host_features()),
        ["[base]", "default", "quoting", "std", "tables"]
    );
    assert!(std::ptr::eq(set.package_graph(), graph));
    assert_eq!(
        set.platform_features(BuildPlatform::Host),
        set.host_features()
    );
    assert_eq!(
        BuildPlatform::VALUES.map(BuildPlatform::flip),
        [BuildPlatform::Host, BuildPlatform::Target]
    );
    // Dependents first.
    let target = set.target_features();
    let packages = target.packages_with_features(DependencyDirection::Forward);
    assert_eq!(
        named(packages.map(|list| *list.package())),
        ["app", "codec"]
    );
    let host = set.host_features().to_package_set();
    assert_eq!(
        common::sorted(host.packages(DependencyDirection::Forward)),
        ["codec", "derive", "gen"]
    );
    assert!(target.contains((codec, "simd")).unwrap() && !target.contains((codec, "std")).unwrap());
    assert!(target.contains(FeatureId::base(codec)).unwrap());
    assert!(target.contains_package(codec).unwrap());
    assert!(!target.contains_package(id(graph, "gen")).unwrap());
    assert!(target.features_for(id(graph, "gen")).unwrap().is_none());
    assert_eq!(target.len(), 5);
}

#[test]
fn what_no_command_asks_for_is_refused() {
    let written = Written::new("refused", "2", &MEMBERS);
    let graph = &written.graph;
    let options = options(CargoResolverVersion::V2, false);
    // What `app` calls `tools` and `codec` are its dependencies.
    for asked in ["app tools:fast", "app codec:default,std"] {
        let told = members(graph, asked).into_cargo_set(&options).unwrap_err();
        assert!(
            told.to_string().starts_with("no command asks"),
            "{asked}: {told}"
        );
    }
    // What is not built, and what is.
    let (app, gen) = (members(graph, "app"), members(graph, "gen"));
    let told = CargoSet::new(app.clone(), gen.clone(), &options).unwrap_err();
    assert!(
        told.to_string().starts_with("Cargo takes no features"),
        "{told}"
    );
    let both = app.union(&gen);
    let set = CargoSet::new(both.clone(), gen, &options).unwrap();
    assert_eq!(set, both.into_cargo_set(&options).unwrap());
    // `app` has no feature `std`.
    let asked = members(graph, "app codec:std").into_cargo_set(&options);
    assert!(asked.is_ok());
    let nothing = graph
        .feature_graph()
        .resolve_none()
        .into_cargo_set(&options)
        .unwrap();
    assert!(nothing.target_features().is_empty() && nothing.host_features().is_empty());
}

#[test]
fn a_package_from_elsewhere_is_refused() {
    // Only two of the three are members.
    let json = json_of(3, &[(0, 1, "normal"), (1, 2, "normal")]);
    let (members, last) = ("\"workspace_members\":[", "\"path+file:///w/p2#1.0.0\"");
    let begin = json.find(members).unwrap();
    let json = format!(
        "{}{}",
        &json[..begin],
        json[begin..].replacen(&format!(",{last}]"), "]", 2)
    );
    let graph = PackageGraph::from_json(json).unwrap();
    let all = graph
        .resolve_all()
        .to_feature_set(StandardFeatures::Default);
    let told = all.into_cargo_set(&CargoOptions::default()).unwrap_err();
    assert!(told.to_string().contains("p2#1.0.0 is no member"), "{told}");
    let two = graph
        .resolve_workspace()
        .to_feature_set(StandardFeatures::Default);
    let set = two.into_cargo_set(&CargoOptions::default()).unwrap();
    assert_eq!(set.target_features().to_package_set(), graph.resolve_all());
}

#[test]
fn sets_of_features_are_made_and_compared() {
    let written = Written::new("sets", "2", &MEMBERS);
    let graph = &written.graph;
    let (app, codec) = (id(graph, "app"), id(graph, "codec"));
    let none = with(graph, "app codec", StandardFeatures::None);
    let default = with(graph, "app codec", StandardFeatures::Default);
    let all = with(graph, "app codec", StandardFeatures::All);
    // `default` gives `fast`; of a feature of a dependency only that which is called as the dependency.
    assert_eq!((none.len(), default.len(), all.len()), (2, 6, 13));
    assert_eq!(
        default,
        members(graph, "app:default,fast codec:default,std")
    );
    assert_eq!(default.intersection(&all), default);
    assert_eq!(default.union(&all), all);
    let rest = all.difference(&default);
    assert_eq!(rest.len(), 7);
    assert_eq!(all.symmetric_difference(&default), rest);
    assert!(!rest.is_empty() && default.difference(&all).is_empty());
    assert!(
        rest.contains_package(codec).unwrap() && !rest.contains(FeatureId::base(codec)).unwrap()
    );
    assert!(!rest.features_for(app).unwrap().unwrap().has_base());
    assert_eq!(graph.feature_graph().resolve_none().len(), 0);
    // Filters.
    let both = graph.resolve_workspace_names(["app", "codec"]).unwrap();
    let more = both.to_feature_set(named_feature_filter(
        StandardFeatures::None,
        ["net", "simd"],
    ));
    assert_eq!(more, members(graph, "app:net codec:simd"));
    let mut asked = Vec::new();
    let rest_too = both.to_feature_set(FeatureFilterFn::new(|_: &FeatureGraph<'_>, id| {
        asked.push(id);
        rest.contains(id).unwrap()
    }));
    assert_eq!((rest_too, asked.len()), (rest, 13));
    assert!(asked[0].is_base() && asked[0].package_id() == app);
    let list = default.features_for(app).unwrap().unwrap();
    assert_eq!(
        list.labels(),
        [
            FeatureLabel::Base,
            FeatureLabel::Named("default"),
            FeatureLabel::Named("fast")
        ]
    );
    assert!(list.has_named_feature("fast") && !list.has_named_feature("net"));
    assert!(list.contains(FeatureLabel::Base));
    // What isn't there.
    let unknown = default.contains((codec, "fast")).unwrap_err();
    assert!(
        matches!(&unknown, Error::UnknownFeatureId(id, feature) if id == codec && feature == "fast")
    );
    let other = PackageId::new("other");
    assert!(matches!(
        default.contains(FeatureId::base(&other)),
        Err(Error::UnknownFeatureId(..))
    ));
    assert!(matches!(
        default.contains_package(&other),
        Err(Error::UnknownPackageId(_))
    ));
    assert!(matches!(
        default.features_for(&other),
        Err(Error::UnknownPackageId(_))
    ));
    let told = graph
        .feature_graph()
        .resolve_ids([(codec, "fast")])
        .unwrap_err();
    assert!(matches!(told, Error::UnknownFeatureId(..)));
    let package = graph.metadata(codec).unwrap();
    assert_eq!(
        package.default_feature_id(),
        FeatureId::named(codec, "default")
    );
    let gen = graph.metadata(id(graph, "gen")).unwrap();
    assert!(gen.default_feature_id().is_base());
    let named = FeatureId::from((codec, FeatureLabel::Named("std")));
    assert_eq!(
        (named.package_id(), named.label()),
        (codec, FeatureLabel::Named("std"))
    );
    assert_eq!(named.to_string(), format!("{codec}/std"));
    assert_eq!(
        FeatureId::base(codec).to_string(),
        format!("{codec}/[base]")
    );
}

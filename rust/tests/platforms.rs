//! On which platforms dependencies are there.

mod common;

extern crate guppy_proved as guppy;

use common::json_of;
use guppy::errors::TargetSpecError;
use guppy::graph::{EnabledStatus, PackageGraph};
use guppy::platform::{
    EnabledTernary, Platform, PlatformSpec, PlatformStatus, TargetFeatures, TargetSpec,
};
use std::sync::Arc;
use EnabledTernary::{Disabled, Enabled, Unknown};

fn quoted(text: &str) -> String {
    text.replace('"', "\\\"")
}

// A graph in which the first package depends on one more for each text, on these platforms.
fn graph_on(texts: &[&str]) -> PackageGraph {
    let links: Vec<_> = (1..=texts.len()).map(|to| (0, to, "normal")).collect();
    let json = texts
        .iter()
        .zip(1..)
        .fold(json_of(links.len() + 1, &links), |json, (text, to)| {
            let target = format!("\"target\":\"{}\"", quoted(text));
            let declared = format!(",\"registry\":null,\"path\":\"/w/p{to}\"");
            let linked =
                format!("\"pkg\":\"path+file:///w/p{to}#1.0.0\",\"dep_kinds\":[{{\"kind\":null,");
            json.replace(
                &format!("\"target\":null{declared}"),
                &format!("{target}{declared}"),
            )
            .replace(
                &format!("{linked}\"target\":null"),
                &format!("{linked}{target}"),
            )
        });
    PackageGraph::from_json(json).unwrap()
}

// Where the first package's dependency with the number is there.
fn status(graph: &PackageGraph, number: usize) -> EnabledStatus<'_> {
    let name = format!("p{number}");
    let workspace = graph.workspace();
    let (first, other) = (
        workspace.member_by_name("p0"),
        workspace.member_by_name(name),
    );
    let link = first
        .unwrap()
        .link_to(other.unwrap().id())
        .unwrap()
        .unwrap();
    assert!(link.normal().is_present() && !link.build().is_present() && !link.dev_only());
    link.normal().status()
}

fn linux(features: TargetFeatures) -> Platform {
    let cfgs = "debug_assertions\nunix\ntarget_arch=\"x86_64\"\ntarget_feature=\"sse\"\ntarget_os=\"linux\"\n";
    Platform::new_custom_cfg("x86_64-unknown-linux-gnu", cfgs, features).unwrap()
}

#[test]
fn each_link_has_its_own_platforms() {
    let graph = graph_on(&["cfg(windows)", "x86_64-unknown-linux-gnu"]);
    for (number, text) in [(1, "cfg(windows)"), (2, "x86_64-unknown-linux-gnu")] {
        let PlatformStatus::PlatformDependent { eval } = status(&graph, number).required_status()
        else {
            panic!("{text}: no platforms")
        };
        let texts: Vec<String> = eval
            .target_specs()
            .iter()
            .map(|it| it.to_string())
            .collect();
        assert_eq!(texts, [text]);
        assert!(status(&graph, number).optional_status().is_never());
    }
    let plain = PackageGraph::from_json(json_of(2, &[(0, 1, "normal")])).unwrap();
    assert!(status(&plain, 1).required_status().is_always());
}

// The table of guppy's documentation: `Platforms([]) <= Always <= Platforms(non-empty) <= Any`.
#[test]
fn statuses_are_evaluated() {
    let graph = graph_on(&["cfg(unix)", "cfg(windows)"]);
    let plain = PackageGraph::from_json(json_of(2, &[(0, 1, "normal")])).unwrap();
    let here = Arc::new(linux(TargetFeatures::Unknown));
    let specs = [
        PlatformSpec::platforms(Vec::<Platform>::new()),
        PlatformSpec::Always,
        PlatformSpec::platforms([here.clone(), here.clone()]),
        PlatformSpec::Any,
    ];
    let told = |status: EnabledStatus<'_>| specs.each_ref().map(|spec| status.enabled_on(spec));
    assert_eq!(
        told(status(&plain, 1)),
        [Disabled, Enabled, Enabled, Enabled]
    );
    assert_eq!(
        told(status(&graph, 1)),
        [Disabled, Disabled, Enabled, Enabled]
    );
    assert_eq!(
        told(status(&graph, 2)),
        [Disabled, Disabled, Disabled, Enabled]
    );
    let required = status(&graph, 1).required_on(&here.clone().into());
    assert_eq!(required, Enabled);
    let never = status(&graph, 1).optional_status();
    assert_eq!(never.enabled_on(&PlatformSpec::Any), Disabled);
}

#[test]
fn three_values_are_combined() {
    let values = [Disabled, Unknown, Enabled];
    for (place, one) in values.into_iter().enumerate() {
        for (other_place, other) in values.into_iter().enumerate() {
            assert_eq!(one & other, values[place.min(other_place)]);
            assert_eq!(one | other, values[place.max(other_place)]);
        }
        assert_eq!(one.is_known(), one != Unknown);
    }
}

// By Kleene's logic, in which a feature and its negation are both unknown.
#[test]
fn features_are_known_or_not() {
    let on = |text: &str, features| {
        let text: TargetSpec = text.parse().unwrap();
        text.eval(&linux(features))
    };
    let features = || TargetFeatures::new(["sse2", "avx"]);
    for (text, unknown, these, none, all) in [
        ("cfg(unix)", Some(true), true, true, true),
        ("cfg(target_feature = \"sse2\")", None, true, false, true),
        ("cfg(target_feature = \"sse\")", None, false, false, true),
        (
            "cfg(not(target_feature = \"sse\"))",
            None,
            true,
            true,
            false,
        ),
        (
            "cfg(all(unix, target_feature = \"avx\"))",
            None,
            true,
            false,
            true,
        ),
        (
            "cfg(all(windows, target_feature = \"avx\"))",
            Some(false),
            false,
            false,
            false,
        ),
        (
            "cfg(any(unix, target_feature = \"avx\"))",
            Some(true),
            true,
            true,
            true,
        ),
        (
            "cfg(any(target_feature = \"a\", not(target_feature = \"a\")))",
            None,
            true,
            true,
            true,
        ),
        (
            "cfg(all(target_feature = \"a\", not(target_feature = \"a\")))",
            None,
            false,
            false,
            false,
        ),
        ("cfg(debug_assertions)", Some(false), false, false, false),
        ("x86_64-unknown-linux-gnu", Some(true), true, true, true),
        ("x86_64-pc-windows-msvc", Some(false), false, false, false),
    ] {
        assert_eq!(
            on(text, TargetFeatures::Unknown),
            unknown,
            "{text}: unknown"
        );
        assert_eq!(on(text, features()), Some(these), "{text}: sse2 and avx");
        assert_eq!(on(text, TargetFeatures::none()), Some(none), "{text}: none");
        // Of `a` and its negation both are asked as if they were two.
        let is_odd = text.contains("not(target_feature = \"a\")");
        assert!(
            is_odd || on(text, TargetFeatures::All) == Some(all),
            "{text}: all"
        );
    }
    let odd = TargetFeatures::new(["a\"b", "a\nb", "avx"]);
    assert_eq!(on("cfg(target_feature = \"avx\")", odd), Some(true));
    assert_eq!(features().matches("avx"), Some(true));
    assert_eq!(TargetFeatures::none().matches("avx"), Some(false));
    assert_eq!(TargetFeatures::Unknown.matches("avx"), None);
}

#[test]
fn unknown_features_make_a_status_unknown() {
    let graph = graph_on(&["cfg(target_feature = \"avx\")"]);
    let spec = |features| PlatformSpec::from(linux(features));
    assert_eq!(
        status(&graph, 1).enabled_on(&spec(TargetFeatures::Unknown)),
        Unknown
    );
    assert_eq!(
        status(&graph, 1).enabled_on(&spec(TargetFeatures::All)),
        Enabled
    );
    let both = [linux(TargetFeatures::Unknown), linux(TargetFeatures::All)];
    assert_eq!(
        status(&graph, 1).enabled_on(&PlatformSpec::platforms(both)),
        Enabled
    );
    let both = [
        linux(TargetFeatures::Unknown),
        linux(TargetFeatures::none()),
    ];
    assert_eq!(
        status(&graph, 1).enabled_on(&PlatformSpec::platforms(both)),
        Unknown
    );
}

#[test]
fn what_reads_as_nothing_is_refused() {
    for text in ["cfg(unix", "cfg()", "cfg(a b)"] {
        let told = TargetSpec::new(text);
        assert_eq!(
            told,
            Err(TargetSpecError::InvalidTargetSpec(text.to_owned()))
        );
    }
    let told = Platform::new_custom_cfg("x", "unix\n\nwindows", TargetFeatures::All);
    assert_eq!(told, Err(TargetSpecError::InvalidCfg("x".to_owned(), 2)));
}

// What is noted when the crate is built is what rustc prints of it.
#[test]
fn the_build_target_is_known() {
    let here = Platform::build_target().unwrap();
    assert_eq!(here.triple_str(), "x86_64-unknown-linux-gnu");
    assert!(PlatformSpec::build_target().is_ok());
    let asks = |text: &str| text.parse::<TargetSpec>().unwrap().eval(&here);
    for (text, wanted) in [
        ("cfg(unix)", true),
        ("cfg(windows)", false),
        ("cfg(target_os = \"linux\")", true),
        ("cfg(target_pointer_width = \"64\")", true),
        ("cfg(target_has_atomic = \"64\")", true),
        ("cfg(target_feature = \"sse2\")", true),
        ("cfg(panic = \"unwind\")", true),
        ("x86_64-unknown-linux-gnu", true),
    ] {
        assert_eq!(asks(text), Some(wanted), "{text}");
    }
}

#[test]
fn rustc_is_asked_for_other_platforms() {
    let windows = Platform::new("x86_64-pc-windows-msvc", TargetFeatures::Unknown).unwrap();
    let asks = |text: &str| text.parse::<TargetSpec>().unwrap().eval(&windows);
    assert_eq!(asks("cfg(windows)"), Some(true));
    assert_eq!(asks("cfg(unix)"), Some(false));
    assert_eq!(
        asks("cfg(all(target_env = \"msvc\", target_feature = \"avx\"))"),
        None
    );
    let told = Platform::new("no-such-platform", TargetFeatures::Unknown);
    let Err(TargetSpecError::UnknownPlatform(triple, why)) = told else {
        panic!("no-such-platform is known")
    };
    assert!(
        triple == "no-such-platform" && why.contains("no-such-platform"),
        "{why}"
    );
}

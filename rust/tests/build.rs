//! What build.rs reads of cargo's command line.

#[allow(dead_code)]
#[path = "../build.rs"]
mod build;

#[test]
fn the_verb_of_a_command_is_found() {
    for (command, verb) in [
        ("cargo build", Some("build")),
        ("/usr/bin/cargo -q --color always t --no-run", Some("t")),
        (
            "cargo --config net.offline=true -C app run -- check",
            Some("run"),
        ),
        (
            "cargo +nightly -Z unstable-options check --tests",
            Some("check"),
        ),
        ("cargo --version", None),
        ("cargo", None),
        ("", None),
    ] {
        assert_eq!(build::verb_of(command.split(' ')), verb, "{command}");
    }
}

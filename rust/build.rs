//! Links the proved library, the archive `libguppy_c.a`: that in the folder that `GUPPY_C_LIB` names, else the one that
//! `rt lib` leaves in `crates/guppy_c`. Where that isn't there, cargo is to link something, and the toolchain's `rt` is on
//! the path, `rt lib` makes it. `cargo check`, `cargo doc` and editors do without.
//!
//! It also notes what is set for the platform that is built for, as `rustc --print cfg` prints it.

use std::fs::File;
use std::path::{Path, PathBuf};
use std::process::{self, Command, ExitStatus, Stdio};
use std::{env, fs, io};

fn path_in(variable: &str) -> PathBuf {
    env::var_os(variable).expect("cargo sets it").into()
}

// The verb of a command of cargo's: its first word that is neither an option nor the value of one.
pub fn verb_of<'w>(words: impl IntoIterator<Item = &'w str>) -> Option<&'w str> {
    let mut words = words.into_iter().skip(1);
    while let Some(word) = words.next() {
        if ["--config", "--color", "-C", "-Z"].contains(&word) {
            words.next();
        } else if !word.starts_with(['-', '+']) {
            return Some(word);
        }
    }
    None
}

// How the process was called that runs this one.
fn command_of_parent() -> Option<String> {
    let status = fs::read_to_string("/proc/self/status").ok()?;
    let parent = status.lines().find_map(|line| line.strip_prefix("PPid:"))?;
    fs::read_to_string(format!("/proc/{}/cmdline", parent.trim())).ok()
}

// Whether cargo is to link something. It tells no build script, so its command line is read.
fn is_linking() -> bool {
    let linking = [
        "build", "b", "run", "r", "test", "t", "bench", "install", "rustc",
    ];
    command_of_parent()
        .is_some_and(|words| verb_of(words.split('\0')).is_some_and(|verb| linking.contains(&verb)))
}

// Has `rt lib` make the archive in the folder of its crate. What it says goes into the log.
fn prove(folder: &Path, log: &Path) -> io::Result<ExitStatus> {
    let log = File::create(log)?;
    Command::new("rt")
        .arg("lib")
        .current_dir(folder)
        .stdin(Stdio::null())
        .stdout(log.try_clone()?)
        .stderr(log)
        .status()
}

// Has the archive made that isn't there, or says why it isn't.
fn make(folder: &Path, archive: &Path) -> Result<(), String> {
    let log = path_in("OUT_DIR").join("rt-lib.log");
    match prove(folder, &log) {
        Ok(status) if status.success() && archive.is_file() => Ok(()),
        Ok(_) => Err(format!("`rt lib` failed; {} says why", log.display())),
        Err(_) => Err(
            "with Rattle's `rt` on the path cargo has it made, in half an hour, as `rt lib` in \
                       crates/guppy_c does; or GUPPY_C_LIB names the folder of one"
                .to_owned(),
        ),
    }
}

// What is to be said where there is no archive, or why cargo is to stop. In this folder one can be made.
fn without(archive: &Path, folder: Option<&Path>) -> Result<String, String> {
    let missing = format!("there is no {}", archive.display());
    if !is_linking() {
        return Ok(format!(
            "{missing}: nothing can be linked, and `cargo build` says more"
        ));
    }
    let made = match folder {
        Some(folder) => make(folder, archive),
        None => Err("GUPPY_C_LIB is to name the folder of one".to_owned()),
    };
    match made {
        Ok(()) => Ok(format!(
            "`rt lib` has proved and built {}",
            archive.display()
        )),
        Err(why) => Err(format!("{missing}: {why}")),
    }
}

fn link() -> Result<(), String> {
    println!("cargo:rerun-if-env-changed=GUPPY_C_LIB");
    let folder = path_in("CARGO_MANIFEST_DIR").join("../crates/guppy_c");
    let folder = folder.canonicalize().unwrap_or(folder);
    let named = env::var_os("GUPPY_C_LIB").map(PathBuf::from);
    let made_in = named.is_none().then_some(folder.as_path());
    let place = named.clone().unwrap_or_else(|| folder.join("out"));
    let archive = place.join("libguppy_c.a");
    println!("cargo:rerun-if-changed={}", archive.display());
    if !archive.is_file() {
        println!("cargo:warning={}", without(&archive, made_in)?);
    }
    // For the test that calls it from C.
    println!("cargo:rustc-env=GUPPY_C_ARCHIVE={}", archive.display());
    println!("cargo:rustc-link-search=native={}", place.display());
    // What depends on this crate links it.
    println!("cargo:rustc-link-lib=static:-bundle=guppy_c");
    Ok(())
}

// The lines that `rustc --print cfg` prints for a setting that cargo tells as a variable.
fn lines_of(name: &str, values: &str) -> Vec<String> {
    let name = name.to_lowercase();
    if values.is_empty() {
        return vec![name];
    }
    values
        .split(',')
        .map(|value| format!("{name}=\"{value}\""))
        .collect()
}

fn note_target() {
    let settings = env::vars().filter_map(|(name, values)| {
        let name = name.strip_prefix("CARGO_CFG_")?;
        let is_of_target =
            name.starts_with("TARGET_") || ["UNIX", "WINDOWS", "PANIC"].contains(&name);
        is_of_target.then(|| lines_of(name, &values))
    });
    let mut lines: Vec<String> = settings.flatten().collect();
    lines.sort();
    let file = path_in("OUT_DIR").join("cfgs.txt");
    fs::write(file, lines.join("\n")).expect("the folder that cargo gives can be written");
    println!(
        "cargo:rustc-env=GUPPY_TARGET={}",
        env::var("TARGET").expect("cargo sets it")
    );
}

fn main() {
    note_target();
    if let Err(why) = link() {
        eprintln!("{why}");
        process::exit(1);
    }
}

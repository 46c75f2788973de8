//! What is declared of the proved library is what its sources say.

use std::fs::File;
use std::path::PathBuf;
use std::process::Command;

#[test]
fn declarations_are_those_of_the_sources() {
    let script = concat!(env!("CARGO_MANIFEST_DIR"), "/../scripts/exports.py");
    let status = Command::new("python3")
        .args([script, "--check"])
        .status()
        .unwrap();
    assert!(status.success());
}

fn is_there(program: &str) -> bool {
    Command::new(program).arg("--version").output().is_ok()
}

// A program of C or C++ over the archive, which is removed when this is dropped.
struct Program(PathBuf);

const FOLDER: &str = env!("CARGO_MANIFEST_DIR");

impl Program {
    fn of(compiler: &str, words: &[&str], source: &str) -> Self {
        let name = format!("guppy-{}-{source}", std::process::id());
        let program = std::env::temp_dir().join(&name);
        let memory = std::env::temp_dir().join(name + ".memory.o");
        let compiled = Command::new("cc")
            .args([
                "-std=c11", "-Wall", "-Wextra", "-Werror", "-I", FOLDER, "-c",
            ])
            .arg(format!("{FOLDER}/tests/memory.c"))
            .arg("-o")
            .arg(&memory)
            .status();
        assert!(compiled.unwrap().success());
        let built = Command::new(compiler)
            .args(words)
            .args(["-Wall", "-Wextra", "-Werror", "-I", FOLDER])
            .arg(format!("{FOLDER}/tests/{source}"))
            .arg(&memory)
            .arg(env!("GUPPY_C_ARCHIVE"))
            .arg("-o")
            .arg(&program)
            .status();
        std::fs::remove_file(memory).unwrap();
        assert!(built.unwrap().success());
        Program(program)
    }

    // Its status and what it prints, of the documents' workspace on its standard input. Where valgrind is installed, it
    // runs under it, with these options.
    fn run(&self, tool: &[&str], words: &[&str]) -> (i32, String) {
        let mut command = if is_there("valgrind") {
            let mut command = Command::new("valgrind");
            command
                .args(["-q", "--error-exitcode=99"])
                .args(tool)
                .arg(&self.0);
            command
        } else {
            Command::new(&self.0)
        };
        let json = File::open(format!("{FOLDER}/../examples/metadata.json")).unwrap();
        let output = command.args(words).stdin(json).output().unwrap();
        let text = String::from_utf8(output.stdout).unwrap();
        (output.status.code().unwrap(), text)
    }
}

impl Drop for Program {
    fn drop(&mut self) {
        std::fs::remove_file(&self.0).unwrap();
    }
}

#[test]
fn the_library_is_called_from_c() {
    let program = Program::of("cc", &["-std=c11"], "calls.c");
    // Each use of memory is seen, and each block that is not given back.
    let asked = |words: &[&str]| program.run(&["--leak-check=full"], words);
    let told = "2 0 1\n4 shown: 1, 0\n02 00 01 02 11\n";
    let tested = format!("{told}core\ntest-support\ncli\napp\n");
    assert_eq!(asked(&["affected", "crates/core/src/lib.rs"]), (0, tested));
    let refused = format!("{told}unknown package ID: nobody");
    assert_eq!(asked(&["reach", "forward", "nobody"]), (1, refused));
}

#[test]
fn each_call_runs_on_several_threads_at_once() {
    let program = Program::of("cc", &["-std=c11", "-pthread"], "threads.c");
    // What two threads read and write is seen.
    let told = program.run(&["--tool=helgrind"], &[]);
    assert_eq!(told, (0, "the same\n".to_owned()));
}

#[test]
fn the_header_is_read_by_cpp() {
    if is_there("c++") {
        let program = Program::of("c++", &["-std=c++17"], "calls.cpp");
        assert_eq!(program.run(&["--leak-check=full"], &[]).0, 0);
    }
}

//! Prints the members to test after files changed, what they depend on first: `tests_to_run metadata.json PATH..`,
//! each path relative to the workspace's root.

use guppy_proved::graph::PackageGraph;
use std::error::Error;
use std::{env, fs};

fn main() -> Result<(), Box<dyn Error>> {
    let mut words = env::args().skip(1);
    let file = words
        .next()
        .ok_or("give the file that cargo metadata wrote, and paths of files that changed")?;
    let paths: Vec<_> = words.collect();
    let graph = PackageGraph::from_json(fs::read_to_string(file)?)?;
    for package in graph.affected(paths.iter().map(String::as_str), [])? {
        println!("cargo test --package {}", package.name());
    }
    Ok(())
}

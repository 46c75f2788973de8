//! Prints the workspace's members in an order in which they can be published: `release_order metadata.json`.

use guppy_proved::graph::PackageGraph;
use std::error::Error;
use std::{env, fs};

fn main() -> Result<(), Box<dyn Error>> {
    let file = env::args()
        .nth(1)
        .ok_or("give the file that cargo metadata wrote")?;
    let graph = PackageGraph::from_json(fs::read_to_string(file)?)?;
    for package in graph.publish_order()? {
        println!("{} {}", package.name(), package.version());
    }
    Ok(())
}

//! Prints which packages need one, without links that only tests need, dependents last: `who_needs
//! metadata.json NAME`.

use guppy_proved::graph::{DependencyDirection, PackageGraph};
use std::error::Error;
use std::{env, fs};

fn main() -> Result<(), Box<dyn Error>> {
    let mut words = env::args().skip(1);
    let (Some(file), Some(name)) = (words.next(), words.next()) else {
        return Err("give the file that cargo metadata wrote, and a package's name".into());
    };
    let graph = PackageGraph::from_json(fs::read_to_string(file)?)?;
    let named = graph.packages().filter(|package| package.name() == name);
    let query = graph.query_reverse(named.map(|package| package.id()))?;
    let needing = query.resolve_with_fn(|_, link| !link.dev_only());
    for package in needing.packages(DependencyDirection::Reverse) {
        println!("{} {}", package.name(), package.version());
    }
    Ok(())
}

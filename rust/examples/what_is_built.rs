//! Prints what Cargo builds of a member of the workspace by default, and with which features, the host's part behind the
//! target's: `what_is_built metadata.json NAME`.

use guppy_proved::graph::cargo::{CargoOptions, CargoResolverVersion};
use guppy_proved::graph::feature::StandardFeatures;
use guppy_proved::graph::{DependencyDirection, PackageGraph};
use std::error::Error;
use std::{env, fs};

fn main() -> Result<(), Box<dyn Error>> {
    let mut words = env::args().skip(1);
    let (Some(file), Some(name)) = (words.next(), words.next()) else {
        return Err("give the file that cargo metadata wrote, and a member's name".into());
    };
    let graph = PackageGraph::from_json(fs::read_to_string(file)?)?;
    let member = graph.workspace().member_by_name(name)?;
    let mut options = CargoOptions::new();
    options.set_resolver(CargoResolverVersion::V2);
    let asked = member.to_feature_set(StandardFeatures::Default);
    let set = asked.into_cargo_set(&options)?;
    for (platform, features) in set.all_features() {
        for list in features.packages_with_features(DependencyDirection::Forward) {
            let names: Vec<&str> = list.named_features().collect();
            println!("{platform:?} {} {}", list.package().name(), names.join(","));
        }
    }
    Ok(())
}

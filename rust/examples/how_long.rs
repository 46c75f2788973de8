//! Prints how many milliseconds it takes to read the graph of a file and list its packages in their order, to read it
//! with all details of packages and links, and to resolve what a member needs, with no resolver and with one, whose
//! walk is judged, the least of nine times each: `how_long metadata.json`.

use guppy_proved::graph::{DependencyDirection, PackageGraph};
use guppy_proved::CargoMetadata;
use std::error::Error;
use std::time::Instant;
use std::{env, fs};

// The least of nine times that the call takes, in milliseconds, without what it takes to get ready for it.
fn least<R, T>(ready: impl Fn() -> R, call: impl Fn(R) -> T) -> f64 {
    let times = (0..9).map(|_| {
        let given = ready();
        let begun = Instant::now();
        call(given);
        begun.elapsed().as_secs_f64() * 1000.0
    });
    times.fold(f64::INFINITY, f64::min)
}

fn main() -> Result<(), Box<dyn Error>> {
    let file = env::args()
        .nth(1)
        .ok_or("give the file that cargo metadata wrote")?;
    let json = fs::read_to_string(file)?;
    let graph = PackageGraph::from_json(&json)?;
    let read = least(
        || json.clone(),
        |json| {
            let graph = CargoMetadata::try_from(json)?.build_graph()?;
            Ok::<_, guppy_proved::Error>(
                graph
                    .resolve_all()
                    .packages(DependencyDirection::Forward)
                    .count(),
            )
        },
    );
    println!(
        "{} packages read and ordered: {read:.3}",
        graph.package_count()
    );
    let whole = least(
        || json.clone(),
        |json| {
            let graph = CargoMetadata::with_details(json)?.build_graph()?;
            let of_packages = graph.packages().map(|package| {
                let has_table = !package.metadata_table().is_null();
                package.authors().len() + package.build_targets().count() + usize::from(has_table)
            });
            let links = graph.packages().flat_map(|package| package.direct_links());
            let of_links = links.map(|link| link.version_req().comparators.len());
            Ok::<_, guppy_proved::Error>((of_packages.sum::<usize>(), of_links.sum::<usize>()))
        },
    );
    println!("read with all details: {whole:.3}");
    let member = graph.workspace().iter().next().ok_or("no member")?;
    let resolved = least(
        || [member.id()],
        |ids| graph.query_forward(ids).map(|it| it.resolve().len()),
    );
    println!("{} resolved: {resolved:.3}", member.name());
    let judged = least(
        || [member.id()],
        |ids| {
            let query = graph.query_forward(ids)?;
            Ok::<_, guppy_proved::Error>(query.resolve_with_fn(|_, _| true).len())
        },
    );
    println!("{} resolved by a closure: {judged:.3}", member.name());
    Ok(())
}

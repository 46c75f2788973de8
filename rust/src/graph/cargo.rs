//! What Cargo builds, and with which features.

use super::command::Members;
use super::feature::{FeatureLabel, FeatureSet};
use super::{PackageGraph, PackageMetadata};
use crate::platform::{Platform, PlatformSpec};
use crate::{Error, PackageId};
use std::marker::PhantomData;
use std::sync::Arc;

/// Cargo's resolver, which the manifest of the workspace's root names, or its edition. The metadata don't tell it.
#[derive(Clone, Copy, Debug, PartialEq, Eq, PartialOrd, Ord, Hash)]
#[non_exhaustive]
pub enum CargoResolverVersion {
    /// `resolver = "1"`: features of the target and of the host, and of all platforms, are one.
    V1,
    /// `resolver = "2"`.
    V2,
    /// `resolver = "3"`, by which features are as by 2.
    V3,
}

impl CargoResolverVersion {
    fn number(self) -> &'static str {
        match self {
            CargoResolverVersion::V1 => "1",
            CargoResolverVersion::V2 => "2",
            CargoResolverVersion::V3 => "3",
        }
    }
}

/// For what something is built.
#[derive(Clone, Copy, Debug, PartialEq, Eq, PartialOrd, Ord, Hash)]
pub enum BuildPlatform {
    /// For the platform that is built for.
    Target,
    /// For the one that builds: build scripts, procedural macros, and what these need.
    Host,
}

impl BuildPlatform {
    /// Both.
    pub const VALUES: &'static [Self; 2] = &[BuildPlatform::Target, BuildPlatform::Host];

    /// The other one.
    pub fn flip(self) -> Self {
        match self {
            BuildPlatform::Target => BuildPlatform::Host,
            BuildPlatform::Host => BuildPlatform::Target,
        }
    }
}

/// How Cargo is asked.
#[derive(Clone, Debug)]
pub struct CargoOptions<'a> {
    resolver: CargoResolverVersion,
    include_dev: bool,
    target_platform: PlatformSpec,
    host_platform: PlatformSpec,
    // guppy's borrow packages that are to be left out.
    packages: PhantomData<&'a PackageId>,
}

impl CargoOptions<'_> {
    /// With resolver 1, without dev-dependencies, for any platforms.
    pub fn new() -> Self {
        CargoOptions {
            resolver: CargoResolverVersion::V1,
            include_dev: false,
            target_platform: PlatformSpec::Any,
            host_platform: PlatformSpec::Any,
            packages: PhantomData,
        }
    }

    /// With this resolver.
    pub fn set_resolver(&mut self, resolver: CargoResolverVersion) -> &mut Self {
        self.resolver = resolver;
        self
    }

    /// Whether what is asked for is built as `cargo test` does: tests, examples and what they need, too.
    pub fn set_include_dev(&mut self, include_dev: bool) -> &mut Self {
        self.include_dev = include_dev;
        self
    }

    /// For what is built for both: the target and the host.
    pub fn set_platform(&mut self, platform_spec: PlatformSpec) -> &mut Self {
        self.set_target_platform(platform_spec.clone());
        self.set_host_platform(platform_spec)
    }

    /// The platforms that are built for: [`Any`](PlatformSpec::Any), which is each that a dependency may be for, or some
    /// of these.
    ///
    /// A feature of a processor that isn't known to be there is taken not to be.
    pub fn set_target_platform(&mut self, target_platform: PlatformSpec) -> &mut Self {
        self.target_platform = target_platform;
        self
    }

    /// The platform that builds: [`Any`](PlatformSpec::Any), or one.
    pub fn set_host_platform(&mut self, host_platform: PlatformSpec) -> &mut Self {
        self.host_platform = host_platform;
        self
    }

    // What is built where the set is asked for.
    fn answer(&self, set: &FeatureSet<'_>) -> Result<String, Error> {
        let is_first = self.resolver == CargoResolverVersion::V1;
        let mut words = Members::of(set, is_first)?.words()?;
        words.extend(["--ids", "built", "--resolver", self.resolver.number()].map(str::to_owned));
        if self.include_dev {
            words.push("--tests".to_owned());
        }
        for platform in platforms_of(&self.target_platform)? {
            words.extend(words_of(platform, ["--platform", "--cfgs"])?);
        }
        let hosts = platforms_of(&self.host_platform)?;
        if hosts.len() > 1 {
            return Err(Error::Refused("one platform builds".to_owned()));
        }
        for platform in hosts {
            words.extend(words_of(platform, ["--host", "--host-cfgs"])?);
        }
        let words = words.iter().map(String::as_str);
        crate::answer(&set.graph().package_graph().json, words)
    }

    // What the platforms that are built for are called in the answer.
    fn targets(&self) -> Vec<&str> {
        match &self.target_platform {
            PlatformSpec::Platforms(platforms) => {
                platforms.iter().map(|it| it.triple_str()).collect()
            }
            _ => vec!["target"],
        }
    }
}

// The platforms that are named, none where any may be meant.
fn platforms_of(spec: &PlatformSpec) -> Result<&[Arc<Platform>], Error> {
    match spec {
        PlatformSpec::Any => Ok(&[]),
        PlatformSpec::Platforms(platforms) if !platforms.is_empty() => Ok(platforms),
        _ => Err(Error::Refused("no platform is named".to_owned())),
    }
}

// The words that name the platform and tell what is set for it.
fn words_of(platform: &Platform, options: [&str; 2]) -> Result<[String; 4], Error> {
    let triple = platform.triple_str();
    if triple == "host" || triple.contains([' ', '\n']) {
        return Err(Error::Refused(format!("{triple} names no platform")));
    }
    let unknown = || Error::Refused(format!("the features of {triple} aren't named"));
    let cfgs = platform.known_cfgs().ok_or_else(unknown)?;
    let [name, text] = options.map(str::to_owned);
    Ok([name, triple.to_owned(), text, cfgs])
}

impl Default for CargoOptions<'_> {
    fn default() -> Self {
        CargoOptions::new()
    }
}

/// What Cargo builds, and with which features.
#[derive(Clone, Debug, PartialEq, Eq)]
pub struct CargoSet<'g> {
    initials: FeatureSet<'g>,
    target: FeatureSet<'g>,
    host: FeatureSet<'g>,
}

impl<'g> CargoSet<'g> {
    /// What Cargo builds where it is asked for these members of the workspace with these of their features, as by
    /// `cargo build -p MEMBER --features FEATURE`. The metadata of the graph have to be those of `--all-features`, for
    /// which [`MetadataCommand`](crate::MetadataCommand) asks.
    ///
    /// A package has the features that are on for the target or the host, also those that another one asks for. With
    /// resolver 1, in a workspace with a package at its root, Cargo has this one take part, too.
    ///
    /// `features_only`, of which guppy takes the features alone, may have nothing that `initials` lacks: Cargo builds all
    /// that it is asked for.
    ///
    /// The JSON is read again. Proved.
    ///
    /// # Errors
    ///
    /// [`Error::Refused`] where a package is no member; where an optional dependency is switched on for which the metadata
    /// resolve nothing; where the platforms are [`Always`](PlatformSpec::Always), an
    /// empty list or, of the host, several, or one has [all features](crate::platform::TargetFeatures::All) that its
    /// processor may have; where `features_only` has more; and where no command asks Cargo for exactly these features:
    /// not for one of a member that another one has as well and isn't asked for, where one of them has a dependency
    /// called as that member; and not, with resolver 1 in a workspace with a package at its root, for less than the
    /// default features of another member.
    pub fn new(
        initials: FeatureSet<'g>,
        features_only: FeatureSet<'g>,
        opts: &CargoOptions<'_>,
    ) -> Result<Self, Error> {
        if !features_only.difference(&initials).is_empty() {
            let why = "Cargo takes no features of what it doesn't build";
            return Err(Error::Refused(why.to_owned()));
        }
        let graph = initials.graph().package_graph();
        let (mut target, mut host) = (FeatureSet::none(graph), FeatureSet::none(graph));
        if !initials.is_empty() {
            let answer = opts.answer(&initials)?;
            let targets = opts.targets();
            for row in answer.lines().map(|line| Row::of(graph, &targets, line)) {
                let set = match row.build_platform {
                    BuildPlatform::Target => &mut target,
                    BuildPlatform::Host => &mut host,
                };
                set.set(row.package, row.labels);
            }
        }
        Ok(CargoSet {
            initials,
            target,
            host,
        })
    }

    /// The graph of the packages.
    pub fn package_graph(&self) -> &'g PackageGraph {
        self.initials.graph().package_graph()
    }

    /// What Cargo was asked for.
    pub fn initials(&self) -> &FeatureSet<'g> {
        &self.initials
    }

    /// What is built for the target: packages, each with its features that are on there.
    pub fn target_features(&self) -> &FeatureSet<'g> {
        &self.target
    }

    /// What is built for the host, such as build scripts, procedural macros and what these need.
    pub fn host_features(&self) -> &FeatureSet<'g> {
        &self.host
    }

    /// What is built for the one or the other.
    pub fn platform_features(&self, build_platform: BuildPlatform) -> &FeatureSet<'g> {
        match build_platform {
            BuildPlatform::Target => &self.target,
            BuildPlatform::Host => &self.host,
        }
    }

    /// What is built for each.
    pub fn all_features(&self) -> [(BuildPlatform, &FeatureSet<'g>); 2] {
        BuildPlatform::VALUES.map(|it| (it, self.platform_features(it)))
    }
}

impl<'g> FeatureSet<'g> {
    /// What Cargo builds where it is asked for this, as [`CargoSet::new`] has it.
    ///
    /// # Errors
    ///
    /// Those of [`CargoSet::new`].
    pub fn into_cargo_set(self, opts: &CargoOptions<'_>) -> Result<CargoSet<'g>, Error> {
        let nothing = FeatureSet::none(self.graph().package_graph());
        CargoSet::new(self, nothing, opts)
    }
}

/// A line of what is built.
struct Row<'g> {
    package: PackageMetadata<'g>,
    build_platform: BuildPlatform,
    labels: Vec<FeatureLabel<'g>>,
}

impl<'g> Row<'g> {
    // It has the package's ID, what the platform is called and the features, with a space between each. An ID may have
    // spaces, too.
    fn of(graph: &'g PackageGraph, targets: &[&str], line: &str) -> Self {
        let spaces = line.match_indices(' ').map(|(at, _)| at);
        let parts = spaces.map(|at| (&line[..at], &line[at + 1..]));
        let mut read = parts.filter_map(|(id, rest)| Self::with_id(graph, targets, id, rest));
        read.next().expect("a row begins with a package's ID")
    }

    fn with_id(graph: &'g PackageGraph, targets: &[&str], id: &str, rest: &str) -> Option<Self> {
        let package = graph.package(graph.decoded.position_of(id)?);
        let mut words = rest.split(' ');
        let build_platform = match words.next()? {
            "host" => BuildPlatform::Host,
            name if targets.contains(&name) => BuildPlatform::Target,
            _ => return None,
        };
        // They stand as the package has them.
        let mut features = package.named_features();
        let mut named = |word| features.find(|feature| *feature == word);
        let named = words.map(|word| named(word).expect("a feature of the package"));
        let named = named.map(FeatureLabel::Named);
        Some(Row {
            package,
            build_platform,
            labels: [FeatureLabel::Base].into_iter().chain(named).collect(),
        })
    }
}

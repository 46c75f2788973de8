//! How a command asks Cargo for a set of features.

use super::feature::{FeatureList, FeatureSet, StandardFeatures};
use super::{DependencyDirection, PackageMetadata, PackageSource};
use crate::Error;
use std::collections::BTreeSet;

/// A member that is asked for, with names of its features.
struct Member<'g> {
    package: PackageMetadata<'g>,
    asked: BTreeSet<&'g str>,
    // These, and those that they switch on.
    given: BTreeSet<&'g str>,
    default: BTreeSet<&'g str>,
    all: BTreeSet<&'g str>,
}

impl<'g> Member<'g> {
    fn of(set: &FeatureSet<'g>, package: PackageMetadata<'g>) -> Result<Self, Error> {
        if !package.in_workspace() {
            let why = format!("{} is no member of the workspace", package.id());
            return Err(Error::Refused(why));
        }
        let list = set.features_for(package.id())?;
        let asked: BTreeSet<_> = list.iter().flat_map(FeatureList::named_features).collect();
        Ok(Member {
            package,
            given: package.with_given(asked.iter().copied()),
            asked,
            default: package.standard_features(StandardFeatures::Default),
            all: package.standard_features(StandardFeatures::All),
        })
    }

    fn is_at_root(&self) -> bool {
        self.package.source() == PackageSource::Workspace("".into())
    }

    fn has_optional(&self, name: &str) -> bool {
        let text = self.package.graph.details().text();
        self.package.details().optional_deps(text).contains(&name)
    }

    fn has_dependency(&self, name: &str) -> bool {
        let mut links = self.package.direct_links();
        links.any(|link| link.dep_name() == name) || self.has_optional(name)
    }

    // Whether the name alone asks it for the feature exactly where it is to be asked, and Cargo takes the name: not
    // where it is that of an optional dependency with no feature of its own.
    fn fits(&self, name: &str) -> bool {
        let (has, is_asked) = (self.all.contains(name), self.asked.contains(name));
        has == is_asked && (has || !self.has_optional(name))
    }
}

/// The members that are asked for.
pub(super) struct Members<'g> {
    members: Vec<Member<'g>>,
    // Whether Cargo asks a package at the root for what isn't another member's by name, and that one alone to do
    // without its default features.
    is_for_root: bool,
}

impl<'g> Members<'g> {
    /// Those of the set, where the first of Cargo's resolvers is asked or another one.
    pub(super) fn of(set: &FeatureSet<'g>, is_first: bool) -> Result<Self, Error> {
        let packages = set.to_package_set();
        let packages = packages.packages(DependencyDirection::Forward);
        let members: Result<_, Error> = packages.map(|it| Member::of(set, it)).collect();
        let workspace = set.graph().package_graph().workspace();
        Ok(Members {
            members: members?,
            is_for_root: is_first && workspace.contains_path(""),
        })
    }

    fn are_all(&self, test: impl Fn(&Member<'g>) -> bool) -> bool {
        self.members.iter().all(test)
    }

    // What the members are asked for beside single features.
    fn standard(&self) -> StandardFeatures {
        if self.are_all(|member| member.given == member.default) {
            StandardFeatures::Default
        } else if self.are_all(|member| member.given == member.all) {
            StandardFeatures::All
        } else if self.are_all(|member| member.given.is_superset(&member.default)) {
            StandardFeatures::Default
        } else {
            StandardFeatures::None
        }
    }

    // Which of its features the member is asked for then.
    fn standard_of(
        &self,
        member: &Member<'g>,
        standard: StandardFeatures,
    ) -> Result<StandardFeatures, Error> {
        let is_beside_root = self.is_for_root && !member.is_at_root();
        if standard != StandardFeatures::None || !is_beside_root {
            Ok(standard)
        } else if member.given.is_superset(&member.default) {
            Ok(StandardFeatures::Default)
        } else {
            Err(refused(member, "less than its default features"))
        }
    }

    // How the member is asked for its feature.
    fn text(&self, member: &Member<'g>, feature: &str) -> Result<String, Error> {
        let name = member.package.name();
        let is_alone = if self.is_for_root {
            member.is_at_root()
        } else {
            self.are_all(|member| member.fits(feature))
        };
        if is_alone {
            Ok(feature.to_owned())
        } else if self.is_for_root || self.are_all(|member| !member.has_dependency(name)) {
            Ok(format!("{name}/{feature}"))
        } else {
            Err(refused(member, &format!("its feature {feature} alone")))
        }
    }

    /// The words that ask for all of it.
    pub(super) fn words(&self) -> Result<Vec<String>, Error> {
        let standard = self.standard();
        let option = match standard {
            StandardFeatures::None => Some("--no-default-features".to_owned()),
            StandardFeatures::Default => None,
            StandardFeatures::All => Some("--all-features".to_owned()),
        };
        let mut words: BTreeSet<String> = option.into_iter().collect();
        for member in &self.members {
            words.insert(format!("-p={}", member.package.id()));
            let standard = self.standard_of(member, standard)?;
            let given = member.package.standard_features(standard);
            for feature in member.asked.difference(&given) {
                words.insert(format!("--features={}", self.text(member, feature)?));
            }
        }
        Ok(words.into_iter().collect())
    }
}

fn refused(member: &Member<'_>, what: &str) -> Error {
    let name = member.package.name();
    Error::Refused(format!("no command asks Cargo's {name} for {what}"))
}

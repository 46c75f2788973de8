//! What the text has of packages and links beside what walks need, read when it is first asked for.

use super::decode::Decoded;
use super::parts::{Parts, Span};
use crate::platform::Platforms;
use crate::{proved, JsonValue};
use semver::{Version, VersionReq};
use std::collections::{BTreeSet, HashMap};
use std::sync::{Arc, OnceLock};

/// What is made of a part of the text when it is first asked for.
#[derive(Clone)]
pub(super) struct Later<T> {
    pub(super) part: Span,
    read: OnceLock<Box<T>>,
}

impl<T> Later<T> {
    pub(super) fn of(part: Span) -> Self {
        Later {
            part,
            read: OnceLock::new(),
        }
    }

    /// What the function makes of the part.
    pub(super) fn get(&self, read: impl FnOnce(Span) -> T) -> &T {
        self.read.get_or_init(|| Box::new(read(self.part)))
    }
}

/// A text with details, and where those of packages, by position, and of links, by number, stand in it.
#[derive(Clone)]
pub(super) struct Details {
    text: Arc<String>,
    packages: Vec<Later<PackageDetails>>,
    links: Vec<Later<LinkDetails>>,
    // The free tables of packages.
    tables: Vec<Later<JsonValue>>,
}

impl Details {
    /// Those that the JSON has.
    ///
    /// # Panics
    ///
    /// Where the library refuses them. It did not refuse the rest.
    pub(super) fn read(json: &str) -> Self {
        let text = proved::records(json, true).unwrap_or_else(|refusal| {
            panic!(
                "these are no details as Cargo prints them: {}",
                refusal.text
            )
        });
        let mut parts = Parts::at(&text, 0);
        parts.workspace();
        let _table_of_workspace = parts.field();
        let count = parts.pass_list(Parts::pass_package);
        let links = parts.list(|parts| Later::of(parts.link_in_short()));
        let (packages, tables) = parts.details_of(count);
        Details {
            packages,
            links,
            tables,
            text: Arc::new(text),
        }
    }

    /// Those that the text has of which the rest was decoded.
    pub(super) fn within(decoded: &Decoded) -> Self {
        let text = Arc::clone(&decoded.text);
        let links = decoded.links.iter();
        let links = links.map(|link| Later::of(link.version_req.part)).collect();
        let mut parts = Parts::at(&text, decoded.details);
        let (packages, tables) = parts.details_of(decoded.packages.len());
        Details {
            packages,
            links,
            tables,
            text,
        }
    }

    /// The text.
    pub(super) fn text(&self) -> &str {
        &self.text
    }

    /// The rest of a package's record.
    pub(super) fn package(&self, position: usize) -> &PackageDetails {
        self.packages[position].get(|part| PackageDetails::of(&self.text, part))
    }

    /// The rest of a link's record.
    pub(super) fn link(&self, number: usize) -> &LinkDetails {
        self.links[number].get(|part| LinkDetails::of(&self.text, part))
    }

    /// The free table of a package.
    pub(super) fn table(&self, position: usize) -> &JsonValue {
        self.tables[position].get(|part| table_of(&self.text, part))
    }
}

/// The table of that part of the text, which the library writes as JSON.
pub(super) fn table_of(text: &str, part: Span) -> JsonValue {
    serde_json::from_str(part.of(text)).expect("a table is JSON")
}

/// The rest of a package's record.
#[derive(Clone)]
pub(super) struct PackageDetails {
    pub(super) authors: Vec<String>,
    pub(super) license_file: Option<Span>,
    pub(super) categories: Vec<String>,
    pub(super) keywords: Vec<String>,
    pub(super) readme: Option<Span>,
    pub(super) homepage: Option<Span>,
    pub(super) documentation: Option<Span>,
    pub(super) links: Option<Span>,
    // Each, where there is no list.
    pub(super) registries: Option<Vec<String>>,
    pub(super) default_run: Option<Span>,
    pub(super) rust_version: Option<Version>,
    pub(super) named_features: Vec<NamedFeature>,
    // Of each, whether it is `default` or one that `default` switches on.
    defaults: OnceLock<Box<[bool]>>,
    // Where the names of optional dependencies stand in the text.
    optional_deps: usize,
    // By ID.
    pub(super) targets: Vec<Target>,
}

/// A named feature.
#[derive(Clone)]
pub(super) struct NamedFeature {
    pub(super) name: Span,
    // Where what it switches on stands in the text.
    values: usize,
}

impl NamedFeature {
    /// The names of the package's own features that it switches on. A feature of a dependency `x` switches on the one
    /// called `x`, where there is such a one.
    pub(super) fn gives<'t>(&self, text: &'t str) -> Vec<&'t str> {
        let given = Parts::at(text, self.values).list(Parts::given_feature);
        given.into_iter().flatten().collect()
    }
}

/// A build target.
#[derive(Clone)]
pub(super) struct Target {
    pub(super) id: TargetId,
    pub(super) kind: TargetKind,
    pub(super) lib_name: Option<Span>,
    pub(super) required_features: Vec<String>,
    pub(super) path: Span,
    pub(super) edition: Span,
    pub(super) doc: bool,
    pub(super) doctest: bool,
    pub(super) test: bool,
}

/// [`BuildTargetId`](super::BuildTargetId), by places in the text.
#[derive(Clone, Copy)]
pub(super) enum TargetId {
    Library,
    BuildScript,
    Binary(Span),
    Example(Span),
    Test(Span),
    Benchmark(Span),
}

/// [`BuildTargetKind`](super::BuildTargetKind), with its list.
#[derive(Clone)]
pub(super) enum TargetKind {
    LibraryOrExample(Vec<String>),
    ProcMacro,
    Binary,
}

impl PackageDetails {
    /// Those that begin there in the text.
    pub(super) fn of(text: &str, part: Span) -> Self {
        let mut parts = Parts::at(text, part.start());
        let mut details = parts.package_details();
        details.targets.sort_by_key(|target| target.id.of(text));
        details
    }

    /// The names of those features that are called so, and of those that these switch on. What features of other packages
    /// switch on is not among them.
    pub(super) fn with_given<'t, 'a>(
        &self,
        text: &'t str,
        names: impl IntoIterator<Item = &'a str>,
    ) -> BTreeSet<&'t str> {
        let named = self.named_features.iter();
        let features: HashMap<&str, &NamedFeature> = named
            .map(|feature| (feature.name.of(text), feature))
            .collect();
        let known = |name: &str| features.get_key_value(name);
        let mut found = BTreeSet::new();
        let mut waiting: Vec<_> = names.into_iter().filter_map(known).collect();
        while let Some((name, feature)) = waiting.pop() {
            if found.insert(*name) {
                waiting.extend(feature.gives(text).into_iter().filter_map(known));
            }
        }
        found
    }

    /// Of each named feature, whether it is `default` or one that `default` switches on.
    pub(super) fn defaults(&self, text: &str) -> &[bool] {
        self.defaults.get_or_init(|| {
            let given = self.with_given(text, ["default"]);
            let named = self.named_features.iter();
            let marks = named.map(|feature| given.contains(feature.name.of(text)));
            marks.collect()
        })
    }

    /// The names of optional dependencies.
    pub(super) fn optional_deps<'t>(&self, text: &'t str) -> Vec<&'t str> {
        Parts::at(text, self.optional_deps).list(Parts::text)
    }
}

impl<'t> Parts<'t> {
    // The name of the package's own feature that a value of a feature switches on.
    fn given_feature(&mut self) -> Option<&'t str> {
        let kind = self.take();
        let name = self.text();
        if [b's', b'w'].contains(&kind) {
            self.pass();
        }
        [b'f', b's'].contains(&kind).then_some(name)
    }
}

impl Parts<'_> {
    // Where the details of so many packages stand, and their free tables.
    fn details_of(&mut self, count: usize) -> (Vec<Later<PackageDetails>>, Vec<Later<JsonValue>>) {
        let one = |_| (Later::of(self.field()), Later::of(self.field()));
        (0..count).map(one).unzip()
    }

    fn texts(&mut self) -> Vec<String> {
        self.list(|parts| parts.text().to_owned())
    }

    fn flag(&mut self) -> bool {
        self.take() == b'y'
    }

    fn registries(&mut self) -> Option<Vec<String>> {
        (!self.takes("*")).then(|| self.texts())
    }

    // The library writes a version that it has read as one.
    fn rust_version(&mut self) -> Option<Version> {
        let part = self.optional()?;
        Some(Version::parse(self.part(part)).expect("a version of Rust"))
    }

    // What a feature switches on is passed over.
    fn named_feature(&mut self) -> NamedFeature {
        let name = self.field();
        let values = self.place();
        self.pass_list(|parts| {
            let is_of_dependency = [b's', b'w'].contains(&parts.take());
            parts.pass();
            if is_of_dependency {
                parts.pass();
            }
        });
        NamedFeature { name, values }
    }

    fn package_details(&mut self) -> PackageDetails {
        PackageDetails {
            authors: self.texts(),
            license_file: self.optional(),
            categories: self.texts(),
            keywords: self.texts(),
            readme: self.optional(),
            homepage: self.optional(),
            documentation: self.optional(),
            links: self.optional(),
            registries: self.registries(),
            default_run: self.optional(),
            rust_version: self.rust_version(),
            named_features: self.list(Self::named_feature),
            defaults: OnceLock::new(),
            optional_deps: self.place(),
            targets: {
                self.pass_list(Parts::pass);
                self.list(Self::target)
            },
        }
    }

    fn target_id(&mut self) -> TargetId {
        match self.take() {
            b'l' => TargetId::Library,
            b's' => TargetId::BuildScript,
            b'b' => TargetId::Binary(self.field()),
            b'e' => TargetId::Example(self.field()),
            b't' => TargetId::Test(self.field()),
            _ => TargetId::Benchmark(self.field()),
        }
    }

    fn target_kind(&mut self) -> TargetKind {
        match self.take() {
            b'c' => TargetKind::LibraryOrExample(self.texts()),
            b'p' => TargetKind::ProcMacro,
            _ => TargetKind::Binary,
        }
    }

    fn target(&mut self) -> Target {
        Target {
            id: self.target_id(),
            kind: self.target_kind(),
            lib_name: self.optional(),
            required_features: self.texts(),
            path: self.field(),
            edition: self.field(),
            doc: self.flag(),
            doctest: self.flag(),
            test: self.flag(),
        }
    }
}

/// The rest of a link's record, but for which versions it accepts.
#[derive(Clone)]
pub(super) struct LinkDetails {
    pub(super) registry: Option<Span>,
    pub(super) path: Option<Span>,
    pub(super) normal: SectionDetails,
    pub(super) build: SectionDetails,
    pub(super) dev: SectionDetails,
}

/// What dependencies in one section ask of features.
#[derive(Clone)]
pub(super) struct SectionDetails {
    pub(super) required: Asked,
    pub(super) optional: Asked,
}

/// The same of those that are required, or of those that are optional. Most sections have none.
#[derive(Clone)]
pub(super) struct Asked(Option<Box<Features>>);

impl Asked {
    pub(super) fn features(&self) -> &Features {
        self.0.as_deref().unwrap_or(&NONE)
    }
}

/// On which platforms features are asked for.
#[derive(Clone)]
pub(super) struct Features {
    pub(super) default_features: Platforms,
    pub(super) no_default_features: Platforms,
    // By name.
    pub(super) named: Vec<(Span, Platforms)>,
}

// What the text has where none are asked for.
const NO_FEATURES: &str = "0;0;0;";

static NEVER: Platforms = Platforms::Specs(Vec::new());

static NONE: Features = Features {
    default_features: Platforms::Specs(Vec::new()),
    no_default_features: Platforms::Specs(Vec::new()),
    named: Vec::new(),
};

impl Features {
    /// Where the feature is asked for. The text has the names.
    pub(super) fn status(&self, text: &str, feature: &str) -> &Platforms {
        let place = self
            .named
            .binary_search_by_key(&feature, |(name, _)| name.of(text));
        place.map_or(&NEVER, |place| &self.named[place].1)
    }
}

impl LinkDetails {
    /// Those of the part of the text.
    pub(super) fn of(text: &str, part: Span) -> Self {
        let mut parts = Parts::at(text, part.start());
        let (registry, path) = (parts.optional(), parts.optional());
        LinkDetails {
            registry,
            path,
            normal: parts.section_details(),
            build: parts.section_details(),
            dev: parts.section_details(),
        }
    }
}

/// Which versions a link accepts whose details are that part of the text: they end with it.
pub(super) fn version_req_of(text: &str, part: Span) -> VersionReq {
    let mut parts = Parts::at(text, part.start());
    // The registry and the path.
    (0..2).for_each(|_| parts.pass_optional());
    // Those that are required, and those that are optional, in each section.
    for _ in 0..6 {
        if !parts.takes(NO_FEATURES) {
            parts.pass_features();
        }
    }
    // The library writes a requirement that it has read as one.
    VersionReq::parse(parts.between(parts.place(), part.end())).expect("a requirement")
}

impl Parts<'_> {
    fn features(&mut self) -> Features {
        Features {
            default_features: self.platforms(),
            no_default_features: self.platforms(),
            named: self.list(|parts| (parts.field(), parts.platforms())),
        }
    }

    fn asked(&mut self) -> Asked {
        Asked((!self.takes(NO_FEATURES)).then(|| Box::new(self.features())))
    }

    fn pass_features(&mut self) {
        (0..2).for_each(|_| self.pass_platforms());
        self.pass_list(|parts| {
            parts.pass();
            parts.pass_platforms();
        });
    }

    fn section_details(&mut self) -> SectionDetails {
        SectionDetails {
            required: self.asked(),
            optional: self.asked(),
        }
    }
}

#[cfg(test)]
mod tests {
    use super::super::BuildTargetId;
    use super::*;

    // A text, and where what is read of it lies: behind three bytes.
    fn part(details: &str) -> (String, Span) {
        let text = format!("...{}:{details}", details.len());
        let part = Parts::at(&text, 3).field();
        (text, part)
    }

    #[test]
    fn a_package_without_details_has_none() {
        let (text, part) = part("0;-0;0;----0;--0;0;0;");
        let read = PackageDetails::of(&text, part);
        assert!(read.authors.is_empty() && read.license_file.is_none());
        assert!(read.registries.is_some_and(|names| names.is_empty()));
        assert!(read.rust_version.is_none() && read.targets.is_empty());
    }

    #[test]
    fn details_of_a_package_are_read() {
        let targets = "3;b4:toolb-1;4:full9:src/ma.rs4:2021yny\
                       lc2;5:cdylib3:lib3:lib0;10:src/lib.rs4:2018yyy\
                       sb18:build-script-build0;8:build.rs4:2021nnn";
        let targets = targets.replace("5:cdylib", "6:cdylib");
        let features = "2;7:default2;f4:fulls5:other3:std4:full2;d5:otherw5:other1:x";
        let text = format!(
            "2;3:One3:T:o7:LICENSE1;8:database2;1:a1:b9:README.md-1:d3:ssl1;3:own4:tool6:1.82.0{features}1;5:other{targets}"
        );
        let (text, part) = part(&text);
        let read = PackageDetails::of(&text, part);
        let shown = |part: Option<Span>| part.map(|part| part.of(&text));
        assert_eq!(read.optional_deps(&text), ["other"]);
        assert_eq!(
            (read.authors, read.categories),
            (
                vec!["One".to_owned(), "T:o".to_owned()],
                vec!["database".to_owned()]
            )
        );
        assert_eq!(
            (shown(read.license_file), read.keywords.len()),
            (Some("LICENSE"), 2)
        );
        assert_eq!(
            (shown(read.readme), shown(read.homepage)),
            (Some("README.md"), None)
        );
        assert_eq!(
            (shown(read.documentation), shown(read.links)),
            (Some("d"), Some("ssl"))
        );
        assert_eq!(read.registries, Some(vec!["own".to_owned()]));
        assert_eq!(
            (shown(read.default_run), read.rust_version),
            (Some("tool"), Some(Version::new(1, 82, 0)))
        );
        let names: Vec<&str> = read
            .named_features
            .iter()
            .map(|feature| feature.name.of(&text))
            .collect();
        assert_eq!(names, ["default", "full"]);
        let given = read
            .named_features
            .iter()
            .map(|feature| feature.gives(&text));
        assert_eq!(given.collect::<Vec<_>>(), [&["full", "other"][..], &[]]);
        let ids: Vec<_> = read
            .targets
            .iter()
            .map(|target| target.id.of(&text))
            .collect();
        assert_eq!(
            ids,
            [
                BuildTargetId::Library,
                BuildTargetId::BuildScript,
                BuildTargetId::Binary("tool")
            ]
        );
        let binary = &read.targets[2];
        assert_eq!(
            (binary.path.of(&text), binary.edition.of(&text)),
            ("src/ma.rs", "2021")
        );
        assert_eq!(
            (binary.doc, binary.doctest, binary.test),
            (true, false, true)
        );
        assert_eq!(
            (shown(binary.lib_name), binary.required_features.as_slice()),
            (None, &["full".to_owned()][..])
        );
        assert!(
            matches!(&read.targets[0].kind, TargetKind::LibraryOrExample(types) if *types == ["cdylib", "lib"])
        );
        assert_eq!(shown(read.targets[1].lib_name), Some("build-script-build"));
    }

    #[test]
    fn details_of_a_link_are_read() {
        let never = "0;0;0;";
        let text =
            format!("3:own-*0;2;1:a*1:b1;9:cfg(unix){never}{never}{never}{never}0;*0;>=1.2, <2");
        let (text, part) = part(&text);
        let read = LinkDetails::of(&text, part);
        assert_eq!(
            version_req_of(&text, part),
            VersionReq::parse(">=1.2, <2").unwrap()
        );
        assert_eq!(
            (read.registry.map(|it| it.of(&text)), read.path.is_none()),
            (Some("own"), true)
        );
        let required = read.normal.required.features();
        assert!(matches!(required.default_features, Platforms::Always));
        assert!(required.no_default_features.is_never());
        assert!(matches!(required.status(&text, "a"), Platforms::Always));
        let of_b = required.status(&text, "b");
        assert!(matches!(of_b, Platforms::Specs(specs) if specs[0].to_string() == "cfg(unix)"));
        assert!(required.status(&text, "c").is_never());
        assert!(matches!(
            read.dev.optional.features().no_default_features,
            Platforms::Always
        ));
    }
}

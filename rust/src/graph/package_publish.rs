/// To which registries a package can be published.
///
/// ```
/// use guppy_proved::graph::PackagePublish;
///
/// let (everywhere, nowhere) = (PackagePublish::Unrestricted, PackagePublish::Registries(&[]));
/// assert!(everywhere.is_unrestricted() && everywhere.can_publish_to("own"));
/// assert!(nowhere.is_never() && !nowhere.can_publish_to_crates_io());
///
/// let own = ["own".to_owned()];
/// let own = PackagePublish::Registries(&own);
/// assert!(own.can_publish_to("own") && !own.can_publish_to(PackagePublish::CRATES_IO));
/// ```
#[derive(Clone, Copy, Debug, PartialEq, Eq, Hash)]
#[non_exhaustive]
pub enum PackagePublish<'g> {
    /// To each.
    Unrestricted,
    /// To these alone, by their names.
    Registries(&'g [String]),
}

impl PackagePublish<'_> {
    /// The name of crates.io.
    pub const CRATES_IO: &'static str = "crates-io";

    /// Whether it can be published to each.
    pub fn is_unrestricted(&self) -> bool {
        matches!(self, PackagePublish::Unrestricted)
    }

    /// Whether it can be published to the registry with the name.
    pub fn can_publish_to(&self, registry: impl AsRef<str>) -> bool {
        match self {
            PackagePublish::Unrestricted => true,
            PackagePublish::Registries(names) => names.iter().any(|it| it == registry.as_ref()),
        }
    }

    /// Whether it can be published to crates.io.
    pub fn can_publish_to_crates_io(&self) -> bool {
        self.can_publish_to(Self::CRATES_IO)
    }

    /// Whether it can be published to none.
    pub fn is_never(&self) -> bool {
        matches!(self, PackagePublish::Registries([]))
    }
}

use std::borrow::Cow;
use std::collections::BTreeSet;

/// Which features a platform's processor has, as `target_feature = "sse2"` asks for them.
#[derive(Clone, Debug, PartialEq, Eq, PartialOrd, Ord, Hash)]
#[non_exhaustive]
pub enum TargetFeatures {
    /// It isn't known.
    Unknown,
    /// These and no others.
    Features(BTreeSet<Cow<'static, str>>),
    /// All that there are.
    All,
}

impl TargetFeatures {
    /// These and no others.
    pub fn new(features: impl IntoIterator<Item = impl Into<Cow<'static, str>>>) -> Self {
        TargetFeatures::Features(features.into_iter().map(Into::into).collect())
    }

    /// None.
    pub fn none() -> Self {
        TargetFeatures::Features(BTreeSet::new())
    }

    /// Whether this is one of them, where that is known.
    pub fn matches(&self, feature: &str) -> Option<bool> {
        match self {
            TargetFeatures::Unknown => None,
            TargetFeatures::Features(features) => Some(features.contains(feature)),
            TargetFeatures::All => Some(true),
        }
    }
}

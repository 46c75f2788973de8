use super::{Platform, PlatformSpec, TargetSpec};
use std::ops::{BitAnd, BitOr};

/// On which platforms something is there, as it is kept.
#[derive(Clone, Debug)]
pub(crate) enum Platforms {
    Always,
    // On those of which one of these says so; on none where there is none.
    Specs(Vec<TargetSpec>),
}

impl Platforms {
    pub(crate) fn is_never(&self) -> bool {
        matches!(self, Platforms::Specs(specs) if specs.is_empty())
    }
}

/// On which platforms something is there.
#[derive(Clone, Copy, Debug)]
pub enum PlatformStatus<'g> {
    /// On none.
    Never,
    /// On all.
    Always,
    /// On those of which some texts say so.
    PlatformDependent {
        /// The texts.
        eval: PlatformEval<'g>,
    },
}

impl<'g> PlatformStatus<'g> {
    pub(crate) fn of(platforms: &'g Platforms) -> Self {
        match platforms {
            Platforms::Always => PlatformStatus::Always,
            Platforms::Specs(specs) if specs.is_empty() => PlatformStatus::Never,
            Platforms::Specs(specs) => PlatformStatus::PlatformDependent {
                eval: PlatformEval { specs },
            },
        }
    }

    /// Whether it is there on all.
    pub fn is_always(&self) -> bool {
        matches!(self, PlatformStatus::Always)
    }

    /// Whether it is there on none.
    pub fn is_never(&self) -> bool {
        matches!(self, PlatformStatus::Never)
    }

    /// Whether it may be there on some.
    pub fn is_present(&self) -> bool {
        !self.is_never()
    }

    /// Whether it is there: for [`Always`](PlatformSpec::Always) on all platforms, for [`Any`](PlatformSpec::Any) on
    /// some, for a list on one of it. `Unknown` comes only where the features of a platform in a list are unknown, or a
    /// text reads as no predicate and no name.
    pub fn enabled_on(&self, platform_spec: &PlatformSpec) -> EnabledTernary {
        match platform_spec {
            PlatformSpec::Always => EnabledTernary::of(self.is_always()),
            PlatformSpec::Any => EnabledTernary::of(self.is_present()),
            PlatformSpec::Platforms(platforms) => EnabledTernary::any(
                platforms
                    .iter()
                    .map(|platform| self.enabled_on_one(platform)),
            ),
        }
    }

    fn enabled_on_one(&self, platform: &Platform) -> EnabledTernary {
        match self {
            PlatformStatus::Never => EnabledTernary::Disabled,
            PlatformStatus::Always => EnabledTernary::Enabled,
            PlatformStatus::PlatformDependent { eval } => eval.eval(platform),
        }
    }
}

/// Whether something is there on a platform, where that may be unknown: Kleene's three values, in their order.
#[derive(Clone, Copy, Debug, PartialEq, Eq, PartialOrd, Ord, Hash)]
pub enum EnabledTernary {
    /// It isn't.
    Disabled,
    /// It isn't known, as where a text asks for a feature of the platform's processor, and these are unknown.
    Unknown,
    /// It is.
    Enabled,
}

impl EnabledTernary {
    fn of(is_enabled: bool) -> Self {
        if is_enabled {
            EnabledTernary::Enabled
        } else {
            EnabledTernary::Disabled
        }
    }

    // Whether one of them is.
    fn any(mut values: impl Iterator<Item = Self>) -> Self {
        let or = |so_far: Self, value: Self| match so_far | value {
            EnabledTernary::Enabled => Err(EnabledTernary::Enabled),
            other => Ok(other),
        };
        let folded = values.try_fold(EnabledTernary::Disabled, or);
        folded.unwrap_or_else(|enabled| enabled)
    }

    /// Whether it is known.
    pub fn is_known(self) -> bool {
        self != EnabledTernary::Unknown
    }
}

/// Whether both are.
impl BitAnd for EnabledTernary {
    type Output = Self;

    fn bitand(self, other: Self) -> Self {
        self.min(other)
    }
}

/// Whether one of them is.
impl BitOr for EnabledTernary {
    type Output = Self;

    fn bitor(self, other: Self) -> Self {
        self.max(other)
    }
}

/// Texts as `cfg(unix)`, of which one that fits is enough.
#[derive(Clone, Copy, Debug)]
pub struct PlatformEval<'g> {
    specs: &'g [TargetSpec],
}

impl<'g> PlatformEval<'g> {
    /// Whether one of them fits the platform, by what [`TargetSpec::eval`] says of each.
    pub fn eval(&self, platform: &Platform) -> EnabledTernary {
        let told = self.specs.iter().map(|spec| {
            spec.eval(platform)
                .map_or(EnabledTernary::Unknown, EnabledTernary::of)
        });
        EnabledTernary::any(told)
    }

    /// The texts.
    pub fn target_specs(&self) -> &'g [TargetSpec] {
        self.specs
    }
}

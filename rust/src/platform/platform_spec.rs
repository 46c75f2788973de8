use super::Platform;
use crate::errors::TargetSpecError;
use std::sync::Arc;

/// Of which platforms it is asked. Answers of [`PlatformStatus::enabled_on`](super::PlatformStatus::enabled_on) grow
/// from an empty list to `Always`, to other lists, to `Any`.
#[derive(Clone, Debug)]
#[non_exhaustive]
pub enum PlatformSpec {
    /// All that there may be at once. What depends on the platform is not there, even where its texts fit each.
    Always,
    /// Some of these; where there is none, nothing is there.
    Platforms(Vec<Arc<Platform>>),
    /// Some of all that there may be. What depends on the platform is there, even where its texts fit none.
    Any,
}

impl PlatformSpec {
    /// The platform that this crate was built for.
    ///
    /// # Errors
    ///
    /// Those of [`Platform::build_target`].
    pub fn build_target() -> Result<Self, TargetSpecError> {
        Ok(Platform::build_target()?.into())
    }

    /// Some of these.
    pub fn platforms<I, P>(platforms: I) -> Self
    where
        I: IntoIterator<Item = P>,
        P: Into<Arc<Platform>>,
    {
        PlatformSpec::Platforms(platforms.into_iter().map(Into::into).collect())
    }
}

impl<T: Into<Arc<Platform>>> From<T> for PlatformSpec {
    fn from(platform: T) -> Self {
        PlatformSpec::Platforms(vec![platform.into()])
    }
}

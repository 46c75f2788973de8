//! Platforms, and on which of them a dependency is there.

mod platform_eval;
mod platform_spec;
mod target_features;
mod target_platform;
mod target_spec;

pub(crate) use platform_eval::Platforms;
pub use platform_eval::{EnabledTernary, PlatformEval, PlatformStatus};
pub use platform_spec::PlatformSpec;
pub use target_features::TargetFeatures;
pub use target_platform::Platform;
pub use target_spec::TargetSpec;

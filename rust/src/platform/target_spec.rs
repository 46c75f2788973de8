use super::Platform;
use crate::errors::TargetSpecError;
use crate::proved::{self, Said};
use std::borrow::Cow;
use std::fmt;
use std::str::FromStr;

/// A text that says on which platforms something is there: a predicate, as `cfg(unix)`, or the name of a platform.
#[derive(Clone, Debug, PartialEq, Eq, PartialOrd, Ord, Hash)]
pub struct TargetSpec {
    text: Box<str>,
}

impl TargetSpec {
    /// The text.
    ///
    /// # Errors
    ///
    /// [`TargetSpecError::InvalidTargetSpec`] where it reads as neither.
    pub fn new(text: impl Into<Cow<'static, str>>) -> Result<Self, TargetSpecError> {
        let spec = TargetSpec::as_written(&text.into());
        match proved::said(&spec.text, "", "") {
            Ok(Said::Nothing) => Err(TargetSpecError::InvalidTargetSpec(spec.to_string())),
            _ => Ok(spec),
        }
    }

    // The text that metadata has, as it is.
    pub(crate) fn as_written(text: &str) -> Self {
        TargetSpec { text: text.into() }
    }

    /// Whether the platform is one of these, where that is known. Proved, but for what is asked of its processor's
    /// features where these are all there or unknown.
    pub fn eval(&self, platform: &Platform) -> Option<bool> {
        platform.is_meant(&self.text)
    }
}

impl FromStr for TargetSpec {
    type Err = TargetSpecError;

    fn from_str(text: &str) -> Result<Self, TargetSpecError> {
        TargetSpec::new(text.to_owned())
    }
}

impl fmt::Display for TargetSpec {
    fn fmt(&self, f: &mut fmt::Formatter<'_>) -> fmt::Result {
        f.write_str(&self.text)
    }
}

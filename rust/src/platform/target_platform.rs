use super::TargetFeatures;
use crate::errors::TargetSpecError;
use crate::proved::{self, Said};
use std::borrow::Cow;
use std::env;
use std::iter;
use std::process::Command;

// What is set for the platform that is built for.
const BUILD_TARGET: &str = env!("GUPPY_TARGET");
const BUILD_CFGS: &str = include_str!(concat!(env!("OUT_DIR"), "/cfgs.txt"));

/// A platform: its name, what is set for it, as `rustc --print cfg` prints it, and the features of its processor.
///
/// `debug_assertions`, `test`, `proc_macro` and a package's features are set for none, as in guppy.
#[derive(Clone, Debug, PartialEq, Eq, PartialOrd, Ord, Hash)]
pub struct Platform {
    triple: Cow<'static, str>,
    // What is set, the features aside.
    cfgs: String,
    target_features: TargetFeatures,
}

impl Platform {
    /// The platform with this name, of which rustc is asked: that which `RUSTC` names, else `rustc` on the path. Of
    /// [`build_target`](Platform::build_target)'s it isn't.
    ///
    /// # Errors
    ///
    /// [`TargetSpecError::UnknownPlatform`] where rustc can't be run or doesn't know it, with what it said.
    pub fn new(
        triple: impl Into<Cow<'static, str>>,
        target_features: TargetFeatures,
    ) -> Result<Self, TargetSpecError> {
        let triple = triple.into();
        if triple == BUILD_TARGET {
            return Self::new_custom_cfg(triple, BUILD_CFGS, target_features);
        }
        match cfgs_of(&triple) {
            Ok(cfgs) => Self::new_custom_cfg(triple, cfgs, target_features),
            Err(why) => Err(TargetSpecError::UnknownPlatform(triple.into_owned(), why)),
        }
    }

    /// The platform that this crate was built for, with the features for which it was.
    ///
    /// # Errors
    ///
    /// None: guppy has some, where it doesn't know the platform.
    pub fn build_target() -> Result<Self, TargetSpecError> {
        let features = BUILD_CFGS.lines().filter_map(feature_of);
        Self::new(BUILD_TARGET, TargetFeatures::new(features))
    }

    /// A platform by its name and the lines that `rustc --print cfg` prints for it. Lines that set features count for
    /// nothing: these are passed.
    ///
    /// # Errors
    ///
    /// [`TargetSpecError::InvalidCfg`] where a line sets nothing.
    pub fn new_custom_cfg(
        triple: impl Into<Cow<'static, str>>,
        cfg_text: impl AsRef<str>,
        target_features: TargetFeatures,
    ) -> Result<Self, TargetSpecError> {
        let (triple, cfg_text) = (triple.into(), cfg_text.as_ref());
        if let Err(before) = proved::said("cfg(unix)", &triple, cfg_text) {
            return Err(TargetSpecError::InvalidCfg(triple.into_owned(), before + 1));
        }
        let cfgs = cfg_text.lines().filter(|line| is_of_platform(line));
        Ok(Platform {
            triple,
            cfgs: cfgs.flat_map(|line| [line, "\n"]).collect(),
            target_features,
        })
    }

    /// Its name, as `x86_64-unknown-linux-gnu`.
    pub fn triple_str(&self) -> &str {
        &self.triple
    }

    /// The features of its processor.
    pub fn target_features(&self) -> &TargetFeatures {
        &self.target_features
    }

    // What is set, with these features.
    fn cfgs_with<'f>(&self, features: impl IntoIterator<Item = &'f str>) -> String {
        // No text asks for a feature with another name.
        let features = features
            .into_iter()
            .filter(|it| !it.contains(['"', '\n', '\r']));
        let set = features.map(|feature| format!("{FEATURE}{feature}\"\n"));
        iter::once(self.cfgs.clone()).chain(set).collect()
    }

    /// What is set, with the features that are known to be there; nothing where all that there are would have to be
    /// named.
    pub(crate) fn known_cfgs(&self) -> Option<String> {
        match &self.target_features {
            TargetFeatures::Unknown => Some(self.cfgs.clone()),
            TargetFeatures::Features(features) => {
                Some(self.cfgs_with(features.iter().map(|feature| &**feature)))
            }
            TargetFeatures::All => None,
        }
    }

    // Whether the text means this platform, with these features set.
    fn is_meant_with<'f>(
        &self,
        text: &str,
        features: impl IntoIterator<Item = &'f str>,
    ) -> Option<bool> {
        match proved::said(text, &self.triple, &self.cfgs_with(features)) {
            Ok(Said::No) => Some(false),
            Ok(Said::Yes) => Some(true),
            Ok(Said::Nothing) => None,
            Err(line) => unreachable!("line {line} was accepted"),
        }
    }

    /// Whether the text means this platform, where that is known.
    ///
    /// Where the features are unknown, each that is asked for is taken to be there and not to be there, whichever makes
    /// the text hold less; and then the other way round. Where both say the same, it is known.
    pub(super) fn is_meant(&self, text: &str) -> Option<bool> {
        match &self.target_features {
            TargetFeatures::Features(features) => {
                self.is_meant_with(text, features.iter().map(|feature| &**feature))
            }
            TargetFeatures::All => self.is_meant_with(&signed(text), ["+", "-"]),
            TargetFeatures::Unknown => {
                let text = signed(text);
                let least = self.is_meant_with(&text, ["-"])?;
                let most = self.is_meant_with(&text, ["+"])?;
                (least == most).then_some(least)
            }
        }
    }
}

// What rustc prints for the platform, or says where it prints nothing.
fn cfgs_of(triple: &str) -> Result<String, String> {
    let rustc = env::var_os("RUSTC").unwrap_or_else(|| "rustc".into());
    let mut command = Command::new(rustc);
    command.args(["--print", "cfg", "--target", triple]);
    let output = command
        .output()
        .map_err(|why| format!("rustc can't be run: {why}"))?;
    if output.status.success() {
        String::from_utf8(output.stdout).map_err(|why| why.to_string())
    } else {
        Err(String::from_utf8_lossy(&output.stderr).into_owned())
    }
}

const FEATURE: &str = "target_feature=\"";

// The feature that the line sets.
fn feature_of(line: &'static str) -> Option<&'static str> {
    line.strip_prefix(FEATURE)?.strip_suffix('"')
}

fn is_of_platform(line: &str) -> bool {
    let is_of_build = ["debug_assertions", "test", "proc_macro"].contains(&line);
    !is_of_build && !line.starts_with(FEATURE) && !line.starts_with("feature=")
}

// The text in which each feature that is asked for is `+`, and behind an odd number of `not`s `-`: with `+` alone it
// holds wherever it does with some features, and with `-` alone only where it does with all.
fn signed(text: &str) -> String {
    let (mut rest, mut signs) = (text, Signs::default());
    let parts = iter::from_fn(|| {
        let (part, behind) = rest.split_at(length_of_part(rest)?);
        rest = behind;
        Some(signs.signed(part))
    });
    parts.collect()
}

// How long the word, quoted text, space or mark at the front of the text is.
fn length_of_part(text: &str) -> Option<usize> {
    let is_of_word = |it: char| it.is_alphanumeric() || it == '_';
    let until = |ends: &dyn Fn(char) -> bool| text.find(ends).unwrap_or(text.len());
    Some(match text.chars().next()? {
        '"' => text[1..].find('"').map_or(text.len(), |end| end + 2),
        it if is_of_word(it) => until(&|it| !is_of_word(it)),
        it if it.is_whitespace() => until(&|it| !it.is_whitespace()),
        it => it.len_utf8(),
    })
}

// What was read of a text so far.
#[derive(Default)]
struct Signs<'t> {
    // Of each open parenthesis, whether it is that of a `not`.
    negations: Vec<bool>,
    // The last two parts that are no space.
    last: [&'t str; 2],
}

impl<'t> Signs<'t> {
    // What stands in the place of the part.
    fn signed(&mut self, part: &'t str) -> &'t str {
        if part.trim().is_empty() {
            return part;
        }
        match part {
            "(" => self.negations.push(self.last[1] == "not"),
            ")" => drop(self.negations.pop()),
            _ => {}
        }
        let is_feature = part.starts_with('"') && self.last == ["target_feature", "="];
        self.last = [self.last[1], part];
        let is_negated = self.negations.iter().filter(|it| **it).count() % 2 == 1;
        match (is_feature, is_negated) {
            (false, _) => part,
            (true, false) => "\"+\"",
            (true, true) => "\"-\"",
        }
    }
}

#[cfg(test)]
mod tests {
    use super::signed;

    #[test]
    fn features_are_signed_by_the_nots_around_them() {
        for (text, wanted) in [
            ("cfg(unix)", "cfg(unix)"),
            ("x86_64-pc-windows-msvc", "x86_64-pc-windows-msvc"),
            ("cfg(target_feature = \"sse2\")", "cfg(target_feature = \"+\")"),
            ("cfg(not(target_feature=\"sse2\"))", "cfg(not(target_feature=\"-\"))"),
            (
                "cfg(all(not(any(not (target_feature=\"a\"), target_feature = \"b\")), target_os = \"c\"))",
                "cfg(all(not(any(not (target_feature=\"+\"), target_feature = \"-\")), target_os = \"c\"))",
            ),
            (
                "cfg(all(target_os = \"not(\", target_feature = \"ä\"))",
                "cfg(all(target_os = \"not(\", target_feature = \"+\"))",
            ),
            ("cfg(target_feature = \"", "cfg(target_feature = \"+\""),
            ("cfg)(", "cfg)("),
        ] {
            assert_eq!(signed(text), wanted);
        }
    }
}

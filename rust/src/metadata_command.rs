use crate::graph::PackageGraph;
use crate::{CargoMetadata, Error};
use std::env;
use std::ffi::OsString;
use std::path::PathBuf;
use std::process::{Command, Stdio};

/// How `cargo metadata` is run, always with `--format-version 1` and `--all-features`, so that no dependency is left
/// out. `CARGO` names the cargo that is, else `cargo` is looked for on the path.
#[derive(Clone, Debug, Default)]
pub struct MetadataCommand {
    cargo: Option<PathBuf>,
    manifest: Option<PathBuf>,
    folder: Option<PathBuf>,
    is_without_dependencies: bool,
    options: Vec<String>,
    // A variable is set to a value, or removed.
    variables: Vec<(OsString, Option<OsString>)>,
    is_verbose: bool,
}

impl MetadataCommand {
    /// That of the workspace of the current folder.
    pub fn new() -> Self {
        MetadataCommand::default()
    }

    /// With this cargo.
    pub fn cargo_path(&mut self, path: impl Into<PathBuf>) -> &mut Self {
        self.cargo = Some(path.into());
        self
    }

    /// Of the workspace of this manifest.
    pub fn manifest_path(&mut self, path: impl Into<PathBuf>) -> &mut Self {
        self.manifest = Some(path.into());
        self
    }

    /// Run in this folder.
    pub fn current_dir(&mut self, path: impl Into<PathBuf>) -> &mut Self {
        self.folder = Some(path.into());
        self
    }

    /// Of the workspace's members alone, with no links and nothing to fetch.
    pub fn no_deps(&mut self) -> &mut Self {
        self.is_without_dependencies = true;
        self
    }

    /// With these options too, as `--offline` or `--filter-platform`, behind all others.
    pub fn other_options(
        &mut self,
        options: impl IntoIterator<Item = impl Into<String>>,
    ) -> &mut Self {
        self.options.extend(options.into_iter().map(Into::into));
        self
    }

    /// With this variable of the environment set to the value.
    pub fn env(&mut self, key: impl Into<OsString>, value: impl Into<OsString>) -> &mut Self {
        self.variables.push((key.into(), Some(value.into())));
        self
    }

    /// Without this variable of the environment.
    pub fn env_remove(&mut self, key: impl Into<OsString>) -> &mut Self {
        self.variables.push((key.into(), None));
        self
    }

    /// Whether what cargo says while it works goes to this process's standard error.
    pub fn verbose(&mut self, verbose: bool) -> &mut Self {
        self.is_verbose = verbose;
        self
    }

    /// The command, ready to be run.
    pub fn cargo_command(&self) -> Command {
        let named = || env::var_os("CARGO").map_or_else(|| "cargo".into(), PathBuf::from);
        let mut command = Command::new(self.cargo.clone().unwrap_or_else(named));
        command.args(["metadata", "--format-version", "1"]);
        if self.is_without_dependencies {
            command.arg("--no-deps");
        }
        if let Some(folder) = &self.folder {
            command.current_dir(folder);
        }
        command.arg("--all-features");
        if let Some(manifest) = &self.manifest {
            command.arg("--manifest-path").arg(manifest);
        }
        command.args(&self.options);
        for (key, value) in &self.variables {
            match value {
                Some(value) => command.env(key, value),
                None => command.env_remove(key),
            };
        }
        command
    }

    /// What cargo prints.
    ///
    /// # Errors
    ///
    /// [`Error::CommandError`] where cargo can't be run, fails, or prints no JSON, with what it said; and those of
    /// [`CargoMetadata::parse_json`].
    pub fn exec(&self) -> Result<CargoMetadata, Error> {
        let failed = |why: String| Error::CommandError(why.into());
        let mut command = self.cargo_command();
        if self.is_verbose {
            command.stderr(Stdio::inherit());
        }
        let output = command
            .output()
            .map_err(|why| Error::CommandError(why.into()))?;
        if !output.status.success() {
            return Err(failed(String::from_utf8_lossy(&output.stderr).into_owned()));
        }
        let printed =
            String::from_utf8(output.stdout).map_err(|why| Error::CommandError(why.into()))?;
        CargoMetadata::try_from(
            json_of(printed).ok_or_else(|| failed("cargo printed no JSON".to_owned()))?,
        )
    }

    /// The graph of what cargo prints.
    ///
    /// # Errors
    ///
    /// Those of [`exec`](MetadataCommand::exec) and of [`PackageGraph::from_metadata`].
    pub fn build_graph(&self) -> Result<PackageGraph, Error> {
        self.exec()?.build_graph()
    }
}

// The first line that begins an object: a wrapper around cargo may print others before it.
fn json_of(printed: String) -> Option<String> {
    let json = printed.lines().find(|line| line.starts_with('{'))?;
    if json.len() + 1 < printed.len() {
        return Some(json.to_owned());
    }
    Some(printed)
}

#[cfg(test)]
mod tests {
    use super::json_of;

    #[test]
    fn the_json_is_the_line_that_begins_an_object() {
        let json = |printed: &str| json_of(printed.to_owned());
        for (printed, wanted) in [
            ("{1}\n", "{1}\n"),
            ("{1}", "{1}"),
            ("wrapped\n{1}\n", "{1}"),
            ("{1}\nmore\n", "{1}"),
        ] {
            assert_eq!(json(printed).as_deref(), Some(wanted));
        }
        assert_eq!(json("wrapped\n"), None);
        assert_eq!(json(""), None);
    }
}

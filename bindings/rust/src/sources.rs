//! What a configuration is loaded from: the library's request, which is written as JSON.

use serde::{Serialize, Serializer};
use std::{fs, io, iter};

/// The files of a configuration, with their texts. The caller reads them.
#[derive(Clone, Debug, Serialize)]
#[serde(rename_all = "kebab-case")]
#[non_exhaustive]
pub struct Sources {
    /// The workspace's root.
    pub root: String,
    /// The repository's own file, which may be missing.
    pub file: File,
    /// The file that a user named, which replaces the repository's own.
    pub config_file: Option<File>,
    /// The file of an organisation. It overrides those of tools, and the repository's file overrides it.
    pub organisation_config_file: Option<File>,
    /// The files of tools. The first has the highest precedence.
    pub tools: Vec<ToolFile>,
    /// The experimental features that are enabled, in addition to those that the repository's file enables.
    pub features: Features,
    /// The output of `cargo metadata --format-version 1`, for `deps` and `rdeps`.
    pub metadata: Option<String>,
    /// The host of the build.
    pub host: Machine,
    /// The target of the build, if it is not the host.
    pub target: Option<Machine>,
    /// The target directory, to which programs of scripts may be relative. A whole run takes that of its list.
    pub target_directory: Option<String>,
}

/// A file: its path, and the outcome of reading it.
#[derive(Clone, Debug, Serialize)]
pub struct File {
    pub path: String,
    #[serde(flatten)]
    pub outcome: ReadOutcome,
}

/// The outcome of reading a file.
#[derive(Clone, Debug, PartialEq, Eq)]
pub enum ReadOutcome {
    /// Its text.
    Text(String),
    /// There is no such file.
    NotFound,
    /// A parent in its path is not a directory.
    NotADirectory,
    /// Any other failure, such as invalid UTF-8: a message, which the error includes.
    Failed(String),
}

/// A file that a tool provides. It must exist.
#[derive(Clone, Debug, Serialize)]
pub struct ToolFile {
    pub tool: String,
    #[serde(flatten)]
    pub file: File,
}

/// The experimental features.
#[derive(Clone, Copy, Debug, Default, Serialize)]
#[serde(rename_all = "kebab-case")]
pub struct Features {
    pub setup_scripts: bool,
    pub wrapper_scripts: bool,
}

/// A machine: its triple, and the output of `rustc --print cfg` for it. Without this output the triple is looked up in
/// a table.
#[derive(Clone, Debug, Serialize)]
pub struct Machine {
    pub triple: String,
    pub cfg: Option<String>,
}

impl Serialize for ReadOutcome {
    fn serialize<S: Serializer>(&self, serializer: S) -> Result<S::Ok, S::Error> {
        #[derive(Serialize)]
        struct Members<'a> {
            outcome: &'a str,
            text: Option<&'a str>,
        }
        let (outcome, text) = match self {
            ReadOutcome::Text(text) => ("text", Some(text.as_str())),
            ReadOutcome::NotFound => ("not-found", None),
            ReadOutcome::NotADirectory => ("not-a-directory", None),
            ReadOutcome::Failed(message) => ("failed", Some(message.as_str())),
        };
        Members { outcome, text }.serialize(serializer)
    }
}

/// The outcome of `fs::read_to_string`.
impl From<io::Result<String>> for ReadOutcome {
    fn from(read: io::Result<String>) -> ReadOutcome {
        match read {
            Ok(text) => ReadOutcome::Text(text),
            Err(error) => match error.kind() {
                io::ErrorKind::NotFound => ReadOutcome::NotFound,
                io::ErrorKind::NotADirectory => ReadOutcome::NotADirectory,
                _ => ReadOutcome::Failed(error.to_string()),
            },
        }
    }
}

impl File {
    /// Returns a file with this text.
    pub fn of(path: &str, text: &str) -> File {
        File {
            path: path.to_owned(),
            outcome: ReadOutcome::Text(text.to_owned()),
        }
    }

    /// Reads the file at a path from the disk.
    pub fn read(path: &str) -> File {
        File {
            path: path.to_owned(),
            outcome: fs::read_to_string(path).into(),
        }
    }
}

impl Sources {
    /// Returns the repository's file alone, with this text, for a build on a machine with this triple.
    pub fn of_file(root: &str, text: &str, triple: &str) -> Sources {
        Sources {
            root: root.to_owned(),
            file: File::of(&format!("{root}/.config/nextest.toml"), text),
            config_file: None,
            organisation_config_file: None,
            tools: Vec::new(),
            features: Features::default(),
            metadata: None,
            host: Machine {
                triple: triple.to_owned(),
                cfg: None,
            },
            target: None,
            target_directory: None,
        }
    }

    /// Returns the paths of the files, from the lowest source to the highest, by the positions that origins have. At
    /// position 0 is the default table, which has no path.
    pub fn paths(&self) -> Vec<Option<&str>> {
        let tools = self.tools.iter().rev().map(|tool| &tool.file);
        let repository = self.config_file.as_ref().unwrap_or(&self.file);
        let files = tools.chain(&self.organisation_config_file).chain([repository]);
        iter::once(None).chain(files.map(|file| Some(file.path.as_str()))).collect()
    }
}

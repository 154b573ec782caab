//! Loads the repository's file, checks it, and compiles its rules.
use crate::filter::Filter;
use crate::platform::Spec;
use crate::tables::{File, Ids, Override, Platform, Profile, ScriptRule};
use std::collections::{BTreeMap, BTreeSet};

pub const CONFIG_PATH: &str = ".config/nextest.toml";

const DEFAULTS: &str = include_str!("defaults.toml");

/// The conditions of a rule.
pub struct Conditions {
    pub host: Option<Spec>,
    pub target: Option<Spec>,
    pub filter: Option<Filter>,
}

/// The compiled rules of a profile, by their positions, and its default filter.
#[derive(Default)]
pub struct Rules {
    pub default_filter: Option<Filter>,
    pub overrides: Vec<Conditions>,
    pub scripts: Vec<Conditions>,
}

pub struct Config {
    pub defaults: File,
    pub file: File,
    pub rules: BTreeMap<String, Rules>,
}

/// The result of a load. Without a configuration there is an error.
#[derive(Default)]
pub struct Loaded {
    pub config: Option<Config>,
    pub errors: Vec<String>,
    pub warnings: Vec<String>,
}

/// Reads a file, and the paths of its unknown keys.
fn read(text: &str) -> Result<(File, BTreeSet<String>), toml::de::Error> {
    let mut unknown = BTreeSet::new();
    let mut reader = toml::Deserializer::new(text);
    let file = serde_ignored::deserialize(&mut reader, |path| {
        unknown.insert(path.to_string().replace(".?", ""));
    })?;
    Ok((file, unknown))
}

/// Loads the text of the repository's file, if there is one.
pub fn load(text: Option<&str>) -> Loaded {
    let mut loaded = Loaded::default();
    let (defaults, _) = read(DEFAULTS).expect("the defaults are a file");
    let file = match read(text.unwrap_or("")) {
        Ok((file, unknown)) => {
            loaded.warnings.extend(unknown.iter().map(|path| format!("[UnknownConfigKeys]: {path} has no effect")));
            file
        }
        Err(error) => {
            loaded.errors.push(format!("[DeserializeError]: {error}"));
            return loaded;
        }
    };
    let mut check = Check { defaults: &defaults, file: &file, errors: Vec::new(), warnings: &mut loaded.warnings };
    check.names();
    check.inheritance();
    let rules = check.compiled();
    check.groups();
    check.script_rules();
    loaded.errors = check.errors;
    loaded.config = Some(Config { defaults, file, rules });
    loaded
}

/// Whether a text is a part of an identifier.
fn is_part(text: &str) -> bool {
    let mut chars = text.chars();
    chars.next().is_some_and(char::is_alphabetic) && chars.all(|c| c.is_alphanumeric() || matches!(c, '_' | '-'))
}

/// Whether a text is an identifier.
fn is_identifier(text: &str) -> bool {
    if let Some(part) = text.strip_prefix("@org:") {
        return is_part(part);
    }
    match text.strip_prefix("@tool:").and_then(|rest| rest.split_once(':')) {
        Some((tool, part)) => is_part(tool) && is_part(part),
        None => is_part(text),
    }
}

struct Check<'c> {
    defaults: &'c File,
    file: &'c File,
    errors: Vec<String>,
    warnings: &'c mut Vec<String>,
}

impl<'c> Check<'c> {
    fn knows_profile(&self, name: &str) -> bool {
        self.file.profile.contains_key(name) || self.defaults.profile.contains_key(name)
    }

    /// The file may define neither names of tools and of the organisation, nor scripts that it does not
    /// switch on.
    fn names(&mut self) {
        let File { test_groups, scripts, profile, .. } = self.file;
        let ids = test_groups.keys().chain(scripts.setup.keys()).chain(scripts.wrapper.keys());
        for id in ids.filter(|id| id.starts_with('@') || !is_identifier(id)) {
            self.errors.push(format!("[InvalidName]: `{id}` may not be defined"));
        }
        for id in scripts.setup.keys().filter(|id| scripts.wrapper.contains_key(*id)) {
            self.errors.push(format!("[DuplicateConfigScriptNames]: `{id}`"));
        }
        let used = [("setup-scripts", scripts.setup.is_empty()), ("wrapper-scripts", scripts.wrapper.is_empty())];
        for (feature, is_empty) in used {
            if !is_empty && !self.has_feature(feature) {
                self.errors.push(format!("[ExperimentalFeaturesNotEnabled]: {feature}"));
            }
        }
        for name in profile.keys().filter(|name| name.starts_with("default-") && *name != "default-miri") {
            self.warnings.push(format!("[UnknownReservedProfiles]: profile.{name}"));
        }
    }

    fn has_feature(&self, name: &str) -> bool {
        match &self.file.experimental {
            Some(toml::Value::Array(features)) => features.iter().any(|feature| feature.as_str() == Some(name)),
            Some(toml::Value::Table(features)) => features.get(name).and_then(toml::Value::as_bool) == Some(true),
            _ => false,
        }
    }

    /// Each parent is known, and no profile inherits from itself.
    fn inheritance(&mut self) {
        for (name, profile) in &self.file.profile {
            let Some(parent) = &profile.inherits else { continue };
            if name == "default" || name.starts_with("default-") {
                self.errors.push(format!("[InheritanceErrors]: profile.{name} may not inherit"));
            } else if !self.knows_profile(parent) {
                self.errors.push(format!("[InheritanceErrors]: profile.{name}: unknown profile `{parent}`"));
            } else if chain(self.file, name).is_none() {
                self.errors.push(format!("[InheritanceErrors]: profile.{name} inherits in a cycle"));
            }
        }
    }

    fn compiled(&mut self) -> BTreeMap<String, Rules> {
        self.file.profile.iter().map(|(name, profile)| (name.clone(), self.compiled_profile(name, profile))).collect()
    }

    fn compiled_profile(&mut self, name: &str, profile: &Profile) -> Rules {
        let path = format!("profile.{name}");
        let default_filter = self.filter(profile.default_filter.as_deref(), true, || format!("{path}.default-filter"));
        let overrides = profile.overrides.iter().enumerate();
        let overrides = overrides.map(|(index, rule)| self.compiled_override(&path, index, rule)).collect();
        let scripts = profile.scripts.iter().enumerate();
        let scripts = scripts.map(|(index, rule)| self.compiled_script_rule(&path, index, rule)).collect();
        Rules { default_filter, overrides, scripts }
    }

    fn compiled_override(&mut self, path: &str, index: usize, rule: &Override) -> Conditions {
        let at = || format!("{path}.overrides.{index}");
        if rule.filter.is_some() && rule.default_filter.is_some() {
            self.fault(at, "at most one of `filter` and `default-filter` must be specified");
        }
        self.filter(rule.default_filter.as_deref(), true, at);
        self.conditions(rule.platform.as_ref(), rule.filter.as_deref(), false, at)
    }

    fn compiled_script_rule(&mut self, path: &str, index: usize, rule: &ScriptRule) -> Conditions {
        let at = || format!("{path}.scripts.{index}");
        self.conditions(rule.platform.as_ref(), rule.filter.as_deref(), true, at)
    }

    fn conditions(
        &mut self,
        platform: Option<&Platform>,
        filter: Option<&str>,
        is_default: bool,
        at: impl Fn() -> String,
    ) -> Conditions {
        let conditions = Conditions {
            host: self.spec(platform.and_then(Platform::host), &at),
            target: self.spec(platform.and_then(Platform::target), &at),
            filter: self.filter(filter, is_default, &at),
        };
        let texts = (platform.and_then(Platform::host), platform.and_then(Platform::target), filter);
        if texts == (None, None, None) {
            self.fault(at, "at least one of `platform` and `filter` must be specified");
        }
        conditions
    }

    fn fault(&mut self, at: impl Fn() -> String, message: &str) {
        self.errors.push(format!("[CompileErrors]: {}: {message}", at()));
    }

    fn filter(&mut self, text: Option<&str>, is_default: bool, at: impl Fn() -> String) -> Option<Filter> {
        match Filter::parse(text?, is_default) {
            Ok(filter) => Some(filter),
            Err(message) => {
                self.fault(at, &message);
                None
            }
        }
    }

    fn spec(&mut self, text: Option<&str>, at: impl Fn() -> String) -> Option<Spec> {
        match Spec::parse(text?) {
            Ok(spec) => Some(spec),
            Err(message) => {
                self.fault(at, &message);
                None
            }
        }
    }

    /// Each group that a rule names is defined.
    fn groups(&mut self) {
        for (name, profile) in &self.file.profile {
            for (index, rule) in profile.overrides.iter().enumerate() {
                match &rule.test_group {
                    Some(group) if group != "@global" && !self.file.test_groups.contains_key(group) => {
                        let message = format!("profile.{name}.overrides.{index}: unknown group `{group}`");
                        self.errors.push(format!("[UnknownTestGroups]: {message}"));
                    }
                    _ => {}
                }
            }
        }
    }

    /// Each script that a rule names is defined, and of its kind, and each rule names one.
    fn script_rules(&mut self) {
        let scripts = &self.file.scripts;
        for (name, profile) in &self.file.profile {
            let mut empty = 0;
            for (index, rule) in profile.scripts.iter().enumerate() {
                let setup: &[String] = match &rule.setup {
                    None => &[],
                    Some(Ids::One(id)) => std::slice::from_ref(id),
                    Some(Ids::Several(ids)) => ids,
                };
                let wrappers = rule.list_wrapper.iter().chain(&rule.run_wrapper);
                empty += usize::from(setup.is_empty() && wrappers.clone().next().is_none());
                let setup = setup.iter().filter(|id| !scripts.setup.contains_key(*id));
                for id in setup.chain(wrappers.filter(|id| !scripts.wrapper.contains_key(*id))) {
                    let message = format!("profile.{name}.scripts.{index}: unknown script `{id}`");
                    self.errors.push(format!("[ProfileScriptErrors]: {message}"));
                }
            }
            if empty > 0 {
                let message = format!("profile.{name}.scripts: rules that name no script: {empty}");
                self.warnings.push(format!("[EmptyScriptSections]: {message}"));
            }
        }
    }
}

/// A profile, its parent and further ancestors, and last the default; none where they form a cycle.
fn chain<'c>(file: &'c File, name: &'c str) -> Option<Vec<&'c str>> {
    let mut chain = Vec::new();
    let mut next = Some(name);
    while let Some(name) = next.filter(|name| *name != "default") {
        if chain.contains(&name) {
            return None;
        }
        chain.push(name);
        next = file.profile.get(name).and_then(|profile| profile.inherits.as_deref());
    }
    chain.push("default");
    Some(chain)
}

impl Config {
    /// The chain of a profile, if it is known.
    pub fn chain<'c>(&'c self, name: &'c str) -> Option<Vec<&'c str>> {
        if self.file.profile.contains_key(name) || self.defaults.profile.contains_key(name) {
            chain(&self.file, name)
        } else {
            None
        }
    }
}

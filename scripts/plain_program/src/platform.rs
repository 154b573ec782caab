//! Specs of platforms: a triple, or an expression `cfg(..)`.
use cfg_expr::targets::{get_builtin_target_by_triple, TargetInfo};
use cfg_expr::{Expression, Predicate};

pub enum Spec {
    Triple(String),
    Cfg(Expression),
}

impl Spec {
    pub fn parse(text: &str) -> Result<Spec, String> {
        if text.starts_with("cfg(") {
            return Expression::parse(text).map(Spec::Cfg).map_err(|error| error.to_string());
        }
        let is_triple = |c: char| c.is_ascii_alphanumeric() || matches!(c, '_' | '-' | '.');
        if text.is_empty() || !text.chars().all(is_triple) {
            return Err(format!("invalid triple `{text}`"));
        }
        Ok(Spec::Triple(text.to_owned()))
    }

    /// Whether it holds. What is not known counts as met.
    fn holds(&self, platform: &TargetInfo) -> bool {
        let value = match self {
            Spec::Triple(triple) => Some(platform.triple.as_str() == triple),
            Spec::Cfg(expression) => expression.eval(|predicate| match predicate {
                Predicate::Target(target) => Some(target.matches(platform)),
                Predicate::TargetFeature(_) => None,
                _ => Some(false),
            }),
        };
        value.unwrap_or(true)
    }
}

/// The platforms of a build.
pub struct Platforms {
    pub host: &'static TargetInfo,
    pub target: Option<&'static TargetInfo>,
}

/// What is known of a triple.
fn platform(triple: &str) -> Result<&'static TargetInfo, String> {
    get_builtin_target_by_triple(triple).ok_or_else(|| format!("unknown platform `{triple}`"))
}

impl Platforms {
    pub fn new(host: &str, target: Option<&str>) -> Result<Platforms, String> {
        Ok(Platforms { host: platform(host)?, target: target.map(platform).transpose()? })
    }

    /// Whether the specs of a rule hold for binaries of the host or of the target.
    pub fn meet(&self, host: Option<&Spec>, target: Option<&Spec>, is_host_binary: bool) -> bool {
        let platform = match self.target {
            Some(target) if !is_host_binary => target,
            _ => self.host,
        };
        host.is_none_or(|spec| spec.holds(self.host)) && target.is_none_or(|spec| spec.holds(platform))
    }
}

//! The language of filters, without the predicates that need a graph of packages or groups.
use globset::{Glob, GlobMatcher};
use regex::Regex;

/// How deep filters nest.
const DEEPEST: usize = 128;

#[derive(Clone, Copy, PartialEq)]
pub enum BuildPlatform {
    Host,
    Target,
}

/// A test, as filters see it.
pub struct Test<'a> {
    pub binary_id: &'a str,
    pub package: &'a str,
    pub kind: &'a str,
    pub binary: &'a str,
    pub name: &'a str,
    pub platform: BuildPlatform,
}

impl<'a> Test<'a> {
    pub fn new(binary_id: &'a str, name: &'a str, platform: BuildPlatform) -> Test<'a> {
        let (package, kind, binary) = match binary_id.split_once("::") {
            None => (binary_id, "lib", binary_id),
            Some((package, target)) => match target.split_once('/') {
                Some((kind, binary)) => (package, kind, binary),
                None => (package, "test", target),
            },
        };
        Test { binary_id, package, kind, binary, name, platform }
    }
}

enum Matcher {
    Equal(String),
    Contains(String),
    Glob(GlobMatcher),
    Regex(Regex),
}

impl Matcher {
    fn matches(&self, name: &str) -> bool {
        match self {
            Matcher::Equal(text) => name == text,
            Matcher::Contains(text) => name.contains(text.as_str()),
            Matcher::Glob(glob) => glob.is_match(name),
            Matcher::Regex(regex) => regex.is_match(name),
        }
    }
}

#[derive(Clone, Copy)]
enum Name {
    Test,
    Binary,
    BinaryId,
    Kind,
    Package,
}

/// A filter. `Default` is the default filter, which a default filter may not use.
pub enum Filter {
    All,
    None,
    Default,
    Host,
    Target,
    Name(NameFilter),
    Not(Box<Filter>),
    And(Box<Filter>, Box<Filter>),
    Or(Box<Filter>, Box<Filter>),
}

pub struct NameFilter {
    name: Name,
    matcher: Matcher,
}

impl Filter {
    pub fn parse(text: &str, is_default: bool) -> Result<Filter, String> {
        let mut parser = Parser { rest: text, depth: 0, is_default };
        let filter = parser.either()?;
        parser.skip_blanks();
        if parser.rest.is_empty() {
            Ok(filter)
        } else {
            Err(parser.expected("the end"))
        }
    }

    pub fn matches(&self, test: &Test, default: Option<&Filter>) -> bool {
        match self {
            Filter::All => true,
            Filter::None => false,
            Filter::Default => default.is_none_or(|filter| filter.matches(test, None)),
            Filter::Host => test.platform == BuildPlatform::Host,
            Filter::Target => test.platform == BuildPlatform::Target,
            Filter::Name(NameFilter { name, matcher }) => matcher.matches(match name {
                Name::Test => test.name,
                Name::Binary => test.binary,
                Name::BinaryId => test.binary_id,
                Name::Kind => test.kind,
                Name::Package => test.package,
            }),
            Filter::Not(filter) => !filter.matches(test, default),
            Filter::And(left, right) => left.matches(test, default) && right.matches(test, default),
            Filter::Or(left, right) => left.matches(test, default) || right.matches(test, default),
        }
    }
}

struct Parser<'a> {
    rest: &'a str,
    depth: usize,
    is_default: bool,
}

impl<'a> Parser<'a> {
    fn expected(&self, what: &str) -> String {
        format!("expected {what} before `{}`", self.rest)
    }

    fn skip_blanks(&mut self) {
        self.rest = self.rest.trim_start_matches([' ', '\n', '\r']);
    }

    fn take(&mut self, mark: &str) -> bool {
        match self.rest.strip_prefix(mark) {
            Some(rest) => {
                self.rest = rest;
                true
            }
            None => false,
        }
    }

    fn take_any(&mut self, marks: &[&str]) -> bool {
        self.skip_blanks();
        marks.iter().any(|mark| self.take(mark))
    }

    fn either(&mut self) -> Result<Filter, String> {
        let mut filter = self.both()?;
        while self.take_any(&["or ", "|", "+"]) {
            filter = Filter::Or(Box::new(filter), Box::new(self.both()?));
        }
        Ok(filter)
    }

    fn both(&mut self) -> Result<Filter, String> {
        let mut filter = self.operand()?;
        loop {
            if self.take_any(&["and ", "&"]) {
                filter = Filter::And(Box::new(filter), Box::new(self.operand()?));
            } else if self.take("-") {
                let right = Filter::Not(Box::new(self.operand()?));
                filter = Filter::And(Box::new(filter), Box::new(right));
            } else {
                return Ok(filter);
            }
        }
    }

    fn operand(&mut self) -> Result<Filter, String> {
        self.depth += 1;
        if self.depth > DEEPEST {
            return Err("nested too deeply".to_owned());
        }
        let filter = if self.take_any(&["not ", "!"]) {
            Filter::Not(Box::new(self.operand()?))
        } else if self.take("(") {
            let filter = self.either()?;
            self.close()?;
            filter
        } else {
            self.predicate()?
        };
        self.depth -= 1;
        Ok(filter)
    }

    fn close(&mut self) -> Result<(), String> {
        if self.take_any(&[")"]) {
            Ok(())
        } else {
            Err(self.expected("`)`"))
        }
    }

    fn predicate(&mut self) -> Result<Filter, String> {
        let length = self.rest.find(|c: char| c != '_' && !c.is_ascii_lowercase()).unwrap_or(self.rest.len());
        let word = &self.rest[..length];
        let behind = self.rest[length..].trim_start_matches([' ', '\n', '\r']).strip_prefix('(');
        let Some(behind) = behind.filter(|_| length > 0) else {
            return Err(self.expected("a predicate"));
        };
        self.rest = behind;
        let filter = match word {
            "all" => Filter::All,
            "none" => Filter::None,
            "default" if self.is_default => return Err("`default()` may not be in a default filter".to_owned()),
            "default" => Filter::Default,
            "test" => self.name(Name::Test)?,
            "binary" => self.name(Name::Binary)?,
            "binary_id" => self.name(Name::BinaryId)?,
            "kind" => self.name(Name::Kind)?,
            "package" => self.name(Name::Package)?,
            "platform" => self.platform()?,
            _ => return Err(format!("unknown predicate `{word}`")),
        };
        self.close()?;
        Ok(filter)
    }

    fn platform(&mut self) -> Result<Filter, String> {
        self.skip_blanks();
        match self.text()?.trim_end() {
            "host" => Ok(Filter::Host),
            "target" => Ok(Filter::Target),
            other => Err(format!("`{other}` is no platform")),
        }
    }

    fn name(&mut self, name: Name) -> Result<Filter, String> {
        self.skip_blanks();
        let matcher = if self.take("/") {
            self.regex()?
        } else if self.take("=") {
            Matcher::Equal(self.text()?)
        } else if self.take("~") {
            Matcher::Contains(self.text()?)
        } else if self.take("#") {
            self.glob()?
        } else {
            match name {
                Name::Test => Matcher::Contains(self.text()?),
                Name::Kind => Matcher::Equal(self.text()?),
                Name::Binary | Name::BinaryId | Name::Package => self.glob()?,
            }
        };
        Ok(Filter::Name(NameFilter { name, matcher }))
    }

    fn glob(&mut self) -> Result<Matcher, String> {
        let glob = Glob::new(&self.text()?).map_err(|error| error.to_string())?;
        Ok(Matcher::Glob(glob.compile_matcher()))
    }

    /// A regular expression, up to the first `/` that no `\` precedes.
    fn regex(&mut self) -> Result<Matcher, String> {
        let mut pattern = String::new();
        let mut chars = self.rest.char_indices();
        while let Some((at, c)) = chars.next() {
            match c {
                '/' => {
                    self.rest = &self.rest[at + 1..];
                    return Regex::new(&pattern).map(Matcher::Regex).map_err(|error| error.to_string());
                }
                '\\' => match chars.next() {
                    Some((_, '/')) => pattern.push('/'),
                    Some((_, escaped)) => pattern.extend(['\\', escaped]),
                    None => break,
                },
                c => pattern.push(c),
            }
        }
        Err(self.expected("a closing `/`"))
    }

    /// A text, up to the first `,` or `)` that no `\` precedes.
    fn text(&mut self) -> Result<String, String> {
        let mut text = String::new();
        let mut chars = self.rest.char_indices();
        while let Some((at, c)) = chars.next() {
            match c {
                ',' | ')' => {
                    self.rest = &self.rest[at..];
                    return if text.is_empty() { Err(self.expected("a text")) } else { Ok(text) };
                }
                '\\' => match chars.next() {
                    Some((_, 'n')) => text.push('\n'),
                    Some((_, 'r')) => text.push('\r'),
                    Some((_, 't')) => text.push('\t'),
                    Some((_, c @ ('\\' | '/' | ')' | ','))) => text.push(c),
                    _ => return Err(self.expected("an escape")),
                },
                c => text.push(c),
            }
        }
        Err(self.expected("`)`"))
    }
}

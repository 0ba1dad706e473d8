//! Environment variables, lists and globs.

use std::collections::HashMap;

#[derive(Default)]
pub struct Env(HashMap<String, String>);

impl Env {
    /// The process's variables that are UTF-8; the last value of a name counts.
    pub fn of_process() -> Env {
        let mut map = HashMap::new();
        for (name, value) in std::env::vars_os() {
            if let (Ok(name), Ok(value)) = (name.into_string(), value.into_string()) {
                map.insert(name, value);
            }
        }
        Env(map)
    }

    /// The value, empty or not.
    pub fn get(&self, name: &str) -> Option<&str> {
        self.0.get(name).map(String::as_str)
    }

    /// The value where it isn't empty.
    pub fn filled(&self, name: &str) -> Option<&str> {
        self.get(name).filter(|v| !v.is_empty())
    }
}

pub fn split_paths(text: &str) -> impl Iterator<Item = &str> {
    text.split(':').filter(|p| !p.is_empty())
}

pub fn split_names(text: &str) -> impl Iterator<Item = &str> {
    text.split(',').filter(|n| !n.is_empty())
}

enum Form { Whole, Prefix, Suffix, Infix }

/// Texts are kept with their ASCII capitals lowered.
struct Glob { form: Form, text: Vec<u8> }

impl Glob {
    fn parse(text: &str) -> Glob {
        let b = text.as_bytes();
        let n = b.len();
        let starts = b.first() == Some(&b'*');
        let ends = b.last() == Some(&b'*');
        let (form, kept) = if starts && ends && n >= 2 {
            (Form::Infix, &b[1..n - 1])
        } else if starts {
            (Form::Suffix, &b[1..])
        } else if ends {
            (Form::Prefix, &b[..n - 1])
        } else {
            (Form::Whole, b)
        };
        Glob { form, text: kept.to_ascii_lowercase() }
    }

    fn matches(&self, lowered: &[u8]) -> bool {
        let t = self.text.as_slice();
        match self.form {
            Form::Whole => lowered == t,
            Form::Prefix => lowered.starts_with(t),
            Form::Suffix => lowered.ends_with(t),
            Form::Infix => t.is_empty() || lowered.windows(t.len()).any(|w| w == t),
        }
    }
}

#[derive(Clone, Copy, PartialEq, Eq, Debug)]
pub enum Kind { Explicit, Implicit }

#[derive(Default)]
pub struct FilterList {
    globs: Vec<Glob>,
    all: bool,
    explicit: bool,
    implicit: bool,
}

impl FilterList {
    pub fn of(env: &Env, name: &str) -> FilterList {
        FilterList::parse(env.get(name).unwrap_or(""))
    }

    pub fn parse(text: &str) -> FilterList {
        let has = |word: &str| split_names(text).any(|e| e.eq_ignore_ascii_case(word));
        FilterList {
            globs: split_names(text).map(Glob::parse).collect(),
            all: has("~all~"),
            explicit: has("~explicit~"),
            implicit: has("~implicit~"),
        }
    }

    pub fn is_empty(&self) -> bool {
        self.globs.is_empty()
    }

    pub fn hits(&self, name: &str) -> bool {
        if self.globs.is_empty() {
            return false;
        }
        let lowered = name.to_ascii_lowercase();
        self.globs.iter().any(|g| g.matches(lowered.as_bytes()))
    }

    /// `hits`, with the three words of the disable list.
    pub fn hits_disable(&self, name: &str, kind: Kind) -> bool {
        self.all
            || match kind {
                Kind::Explicit => self.explicit,
                Kind::Implicit => self.implicit,
            }
            || self.hits(name)
    }
}

//! The words of a command: options with and without a value, and the rest.

use crate::trouble::Trouble;
use std::ffi::{OsStr, OsString};

/// An option, as `--grant`, and whether a value follows it.
pub struct Opt {
    pub name: &'static str,
    pub value: bool,
}

pub const fn with_value(name: &'static str) -> Opt {
    Opt { name, value: true }
}

pub const fn flag(name: &'static str) -> Opt {
    Opt { name, value: false }
}

pub struct Words {
    options: Vec<(&'static str, OsString)>,
    rest: Vec<OsString>,
}

impl Words {
    /// `--name value` and `--name=value` are the same; after `--` all words are the rest.
    pub fn parse(words: &[OsString], known: &'static [Opt]) -> Result<Words, Trouble> {
        let mut parsed = Words { options: Vec::new(), rest: Vec::new() };
        let mut words = words.iter();
        while let Some(word) = words.next() {
            match word.to_str() {
                Some("--") => parsed.rest.extend(words.by_ref().cloned()),
                Some(text) if text.len() > 1 && text.starts_with('-') => {
                    let (name, value) = text.split_once('=').map_or((text, None), |(name, value)| (name, Some(value)));
                    let option = known.iter().find(|option| option.name == name);
                    let option = option.ok_or_else(|| Trouble::Usage(format!("there is no option {name}")))?;
                    let value = match (option.value, value) {
                        (true, Some(value)) => value.into(),
                        (true, None) => words.next().ok_or_else(|| Trouble::Usage(format!("{name} wants a value")))?.clone(),
                        (false, None) => OsString::new(),
                        (false, Some(_)) => return Err(Trouble::Usage(format!("{name} takes no value"))),
                    };
                    parsed.options.push((option.name, value));
                }
                None if word.as_encoded_bytes().starts_with(b"-") => {
                    return Err(Trouble::Usage(format!("there is no option {word:?}; the name of a file may follow --")));
                }
                _ => parsed.rest.push(word.clone()),
            }
        }
        Ok(parsed)
    }

    /// The values of an option, in their order.
    pub fn all<'a>(&'a self, name: &'a str) -> impl Iterator<Item = &'a OsStr> + 'a {
        self.options.iter().filter(move |(option, _)| *option == name).map(|(_, value)| value.as_os_str())
    }

    /// The value of an option that is given once at most.
    pub fn one<'a>(&'a self, name: &'a str) -> Result<Option<&'a OsStr>, Trouble> {
        let mut values = self.all(name);
        let value = values.next();
        match values.next() {
            None => Ok(value),
            Some(_) => Err(Trouble::Usage(format!("{name} is given twice"))),
        }
    }

    /// The decimal number that an option gives.
    pub fn number(&self, name: &str) -> Result<Option<u64>, Trouble> {
        let Some(value) = self.one(name)? else { return Ok(None) };
        let digits = value.to_str().filter(|text| text.bytes().all(|byte| byte.is_ascii_digit()));
        match digits.and_then(|text| text.parse().ok()) {
            Some(number) => Ok(Some(number)),
            None => Err(Trouble::Usage(format!("{name} wants a number, such as 100, and not {value:?}"))),
        }
    }

    /// Whether an option is given.
    pub fn given(&self, name: &str) -> bool {
        self.options.iter().any(|(option, _)| *option == name)
    }

    /// The words that are no options: files.
    pub fn rest(&self) -> &[OsString] {
        &self.rest
    }

    /// The one image of a command that takes no more.
    pub fn only_image(&self) -> Result<&OsStr, Trouble> {
        match self.rest() {
            [image] => Ok(image),
            _ => Err(Trouble::Usage("one image is wanted".into())),
        }
    }
}

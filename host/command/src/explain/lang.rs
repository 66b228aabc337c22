//! The languages that explanations are written in.

use crate::args::Words;
use crate::trouble::Trouble;
use std::env::var_os;

#[derive(Clone, Copy, Debug, PartialEq, Eq)]
pub enum Lang {
    En,
    Fr,
}

impl Lang {
    /// That of `--lang`; else by the locale.
    pub fn of(words: &Words) -> Result<Lang, Trouble> {
        match words.one("--lang")? {
            None => {
                Ok(Lang::of_locale(["LC_ALL", "LC_MESSAGES", "LANG"].map(|name| Some(var_os(name)?.to_string_lossy().into()))))
            }
            Some(value) => match value.to_str() {
                Some("en") => Ok(Lang::En),
                Some("fr") => Ok(Lang::Fr),
                _ => Err(Trouble::Usage(format!("--lang wants en or fr, and not {value:?}"))),
            },
        }
    }

    /// By the first variable that is set, which an empty one is not: French for fr, fr_BE.UTF-8 and the like, English for all else.
    fn of_locale(variables: [Option<String>; 3]) -> Lang {
        let set = variables.into_iter().flatten().find(|value| !value.is_empty()).unwrap_or_default();
        match set.split(['_', '.', '@', '-']).next() {
            Some("fr") => Lang::Fr,
            _ => Lang::En,
        }
    }
}

#[cfg(test)]
mod tests {
    use super::Lang;

    #[test]
    fn the_first_variable_that_is_set_decides() {
        let of = |all: &str, messages: &str, lang: &str| {
            Lang::of_locale([all, messages, lang].map(|value| (value != "unset").then(|| value.into())))
        };
        assert_eq!(of("unset", "unset", "unset"), Lang::En);
        assert_eq!(of("unset", "unset", "fr_FR.UTF-8"), Lang::Fr);
        assert_eq!(of("C", "unset", "fr_FR.UTF-8"), Lang::En);
        assert_eq!(of("", "fr", "en_GB"), Lang::Fr);
        assert_eq!(of("fr@euro", "en", "en"), Lang::Fr);
        assert_eq!(of("unset", "frr_DE", "fr_FR"), Lang::En);
    }
}

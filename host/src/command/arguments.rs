//! The words of a command line: options with their values, and the rest.

use super::fault::Fault;
use super::output::shown;
use std::ffi::{OsStr, OsString};
use std::ops::RangeInclusive;
use std::os::unix::ffi::OsStrExt;
use std::path::Path;

pub struct Arguments<'a> {
    rest: Vec<&'a OsStr>,
    options: Vec<(&'static str, &'a OsStr)>,
}

impl<'a> Arguments<'a> {
    /// Takes the words apart: each of the known options has a value, which is the next word or stands behind `=`.
    pub fn new(words: &'a [OsString], known: &[&'static str]) -> Result<Self, Fault> {
        let mut arguments = Arguments { rest: Vec::new(), options: Vec::new() };
        let mut words = words.iter();
        while let Some(word) = words.next() {
            if !word.as_bytes().starts_with(b"-") {
                arguments.rest.push(word);
                continue;
            }
            let (name, value) = name_and_value(word);
            let option = known.iter().find(|&&option| name == option);
            let &option = option.ok_or_else(|| Fault::arguments(format!("no such option: {:?}", shown(name))))?;
            let value = value.or_else(|| words.next().map(OsString::as_os_str));
            let value = value.ok_or_else(|| Fault::arguments(format!("{option} has no value")))?;
            if arguments.value(option).is_some() {
                return Err(Fault::arguments(format!("{option} is given twice")));
            }
            arguments.options.push((option, value));
        }
        Ok(arguments)
    }

    /// The one word that is no option.
    pub fn only(&self, what: &str) -> Result<&'a OsStr, Fault> {
        match self.rest[..] {
            [one] => Ok(one),
            [] => Err(Fault::arguments(format!("no {what} is given"))),
            [_, other, ..] => Err(Fault::arguments(format!("one {what} is taken, and {:?} is a second", shown(other)))),
        }
    }

    fn value(&self, option: &str) -> Option<&'a OsStr> {
        self.options.iter().find(|(name, _)| *name == option).map(|&(_, value)| value)
    }

    pub fn path(&self, option: &str) -> Result<Option<&'a Path>, Fault> {
        match self.value(option) {
            Some(value) if value.is_empty() => Err(Fault::arguments(format!("{option} names no file"))),
            value => Ok(value.map(Path::new)),
        }
    }

    /// A value as the function reads it, which knows no other values than those described.
    pub fn read<T>(&self, option: &str, described: &str, read: impl Fn(&str) -> Option<T>) -> Result<Option<T>, Fault> {
        let told = |value| Fault::arguments(format!("{option} takes {described}, and not {:?}", shown(value)));
        self.value(option).map(|value| value.to_str().and_then(&read).ok_or_else(|| told(value))).transpose()
    }

    pub fn number(&self, option: &str, range: RangeInclusive<u32>) -> Result<Option<u32>, Fault> {
        let described = format!("{} to {}", range.start(), range.end());
        self.read(option, &described, |word| whole(word).filter(|number| range.contains(number)))
    }
}

fn name_and_value(word: &OsStr) -> (&OsStr, Option<&OsStr>) {
    let bytes = word.as_bytes();
    match bytes.iter().position(|&byte| byte == b'=') {
        Some(at) => (OsStr::from_bytes(&bytes[..at]), Some(OsStr::from_bytes(&bytes[at + 1..]))),
        None => (word, None),
    }
}

/// A whole number in decimal digits alone: `parse` would take a sign too.
pub fn whole(word: &str) -> Option<u32> {
    Some(word).filter(|word| word.bytes().all(|byte| byte.is_ascii_digit())).and_then(|word| word.parse().ok())
}

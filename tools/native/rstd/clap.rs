//! A parser of command lines: options by long names, each with a value, with one each time that it stands there, or
//! with none.

use crate::alloc::{AllocError, Global};
use crate::vec::Vec;
use error::ErrorKind;

pub mod error {
    /// Why words aren't taken.
    #[derive(Clone, Copy, Debug, PartialEq, Eq)]
    pub enum ErrorKind {
        Words,
        OutOfMemory,
    }
}

#[derive(Clone, Copy, Debug)]
pub struct Error(ErrorKind);

impl Error {
    pub fn kind(&self) -> ErrorKind {
        self.0
    }
}

impl From<AllocError> for Error {
    fn from(_: AllocError) -> Self {
        Error(ErrorKind::OutOfMemory)
    }
}

/// What becomes of an option that stands in a line.
#[derive(Clone, Copy, PartialEq, Eq)]
pub enum ArgAction {
    /// It has one value, and stands there once.
    Set,
    /// It has one value, each time that it stands there.
    Append,
    /// It has none, and stands there once.
    SetTrue,
}

#[derive(Clone, Copy)]
pub struct Arg<'a> {
    name: &'a str,
    long: &'a str,
    action: ArgAction,
    is_required: bool,
}

impl<'a> Arg<'a> {
    pub fn new(_: Global, name: &'a str) -> Self {
        Arg {
            name,
            long: name,
            action: ArgAction::Set,
            is_required: false,
        }
    }
    pub fn long(self, long: &'a str) -> Self {
        Arg { long, ..self }
    }
    pub fn action(self, action: ArgAction) -> Self {
        Arg { action, ..self }
    }
    pub fn required(self, is_required: bool) -> Self {
        Arg {
            is_required,
            ..self
        }
    }
}

pub struct Command<'a> {
    options: Vec<Arg<'a>>,
    skipped: usize,
}

/// The options that stood in a line, in the order of the command's, each with its values.
pub struct ArgMatches<'a> {
    found: Vec<(&'a str, Vec<&'a str>)>,
}

impl<'a> Command<'a> {
    pub fn new(alloc: Global, _: &'a str) -> Self {
        Command {
            options: Vec::new(alloc),
            skipped: 1,
        }
    }
    pub fn no_binary_name(self, is_absent: bool) -> Self {
        Command {
            skipped: usize::from(!is_absent),
            ..self
        }
    }
    pub fn arg(mut self, option: Arg<'a>) -> Result<Self, AllocError> {
        self.options.push(option)?;
        Ok(self)
    }
    fn place_of(&self, long: &str) -> Option<usize> {
        self.options.iter().position(|option| option.long == long)
    }
    /// The place of the option that a word begins with, and the value that the word has behind `=`.
    fn option_of(&self, word: &'a str) -> Option<(usize, Option<&'a str>)> {
        let text = word.strip_prefix("--")?;
        match text.split_once('=') {
            Some((long, value)) => Some((self.place_of(long)?, Some(value))),
            None => Some((self.place_of(text)?, None)),
        }
    }
    /// The options, each without a value so far.
    fn without_values(&self) -> Result<Vec<(&'a str, Vec<&'a str>)>, AllocError> {
        let mut found = Vec::with_capacity(Global, self.options.len())?;
        for option in &self.options {
            found.push((option.name, Vec::new(Global)))?;
        }
        Ok(found)
    }
    /// The values of each option.
    fn values(&self, words: &'a [String]) -> Result<Vec<(&'a str, Vec<&'a str>)>, Error> {
        const WRONG: Error = Error(ErrorKind::Words);
        let mut found = self.without_values()?;
        let mut words = words.iter().skip(self.skipped).map(|word| word.as_str());
        while let Some(word) = words.next() {
            // Behind this word no option stands, and there is nothing else to stand there.
            if word == "--" {
                return words.next().map_or(Ok(found), |_| Err(WRONG));
            }
            let (place, attached) = self.option_of(word).ok_or(WRONG)?;
            let value = match (self.options[place].action, attached) {
                (ArgAction::SetTrue, Some(_)) => return Err(WRONG),
                (ArgAction::SetTrue, None) => "true",
                (_, Some(value)) => value,
                (_, None) => words
                    .next()
                    .filter(|value| *value == "-" || !value.starts_with('-'))
                    .ok_or(WRONG)?,
            };
            let values = &mut found[place].1;
            if self.options[place].action != ArgAction::Append && !values.is_empty() {
                return Err(WRONG);
            }
            values.push(value)?;
        }
        Ok(found)
    }
    pub fn try_get_matches_from(self, words: &'a [String]) -> Result<ArgMatches<'a>, Error> {
        let found = self.values(words)?;
        let mut told = self.options.iter().zip(&found);
        if told.any(|(option, (_, values))| option.is_required && values.is_empty()) {
            return Err(Error(ErrorKind::Words));
        }
        Ok(ArgMatches { found })
    }
}

impl<'a> ArgMatches<'a> {
    pub fn get_strs(&self, name: &str) -> Option<&[&'a str]> {
        let (_, values) = self.found.iter().find(|(found, _)| *found == name)?;
        if values.is_empty() {
            None
        } else {
            Some(values)
        }
    }
    pub fn get_str(&self, name: &str) -> Option<&'a str> {
        self.get_strs(name)?.first().copied()
    }
}

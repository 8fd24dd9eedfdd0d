//! The command line: files and options behind the name of a subcommand.

use crate::failure::Failure;
use crate::subcommands::{Command, Subcommand, HELP, SUBCOMMANDS, VERSION};
use std::ffi::{OsStr, OsString};
use std::os::unix::ffi::OsStrExt;
use std::path::PathBuf;

/// What stands behind the name of a subcommand.
#[derive(Default)]
pub struct Given {
    files: Vec<PathBuf>,
    options: Vec<String>,
    values: Vec<(String, OsString)>,
    help: bool,
}

impl Given {
    pub fn has(&self, option: &str) -> bool {
        self.options.iter().any(|given| given == option)
    }

    pub fn file(&self, place: usize) -> PathBuf {
        self.files.get(place).cloned().unwrap_or_default()
    }

    pub fn file_count(&self) -> usize {
        self.files.len()
    }

    /// The last value of an option.
    pub fn value(&self, option: &str) -> Option<&OsStr> {
        self.values.iter().rev().find(|(name, _)| name == option).map(|(_, value)| value.as_os_str())
    }
}

pub fn parse(mut arguments: impl Iterator<Item = OsString>) -> Result<Command, Failure> {
    let Some(first) = arguments.next() else {
        return Err(Failure::Told(format!("a subcommand is missing\n\n{}", HELP.trim_end())));
    };
    let name = first.to_string_lossy();
    if name == "--help" || name == "-h" || name == "help" {
        return Ok(Command::Help(HELP));
    }
    if name == "--version" {
        return Ok(Command::Help(VERSION));
    }
    let Some(subcommand) = SUBCOMMANDS.iter().find(|subcommand| subcommand.name == name) else {
        return Err(Failure::Told(format!("there is no subcommand '{name}': see backoff --help")));
    };
    let given = subcommand.given(arguments)?;
    if given.help {
        return Ok(Command::Help(subcommand.help));
    }
    let (fewest, most) = subcommand.files;
    if given.files.len() < fewest || given.files.len() > most {
        let counted = counted(given.files.len(), subcommand.counted);
        return Err(subcommand.wrong(&format!("{counted} given, not {}", range(fewest, most))));
    }
    (subcommand.command)(&given).map_err(|what| subcommand.wrong(&what))
}

fn counted(number: usize, name: &str) -> String {
    if number == 1 {
        format!("1 {name} is")
    } else {
        format!("{number} {name}s are")
    }
}

fn range(fewest: usize, most: usize) -> String {
    if fewest == most {
        fewest.to_string()
    } else {
        format!("{fewest} or {most}")
    }
}

/// An option and its value, if one stands behind `=`.
fn split(argument: &OsStr) -> (String, Option<OsString>) {
    let mut parts = argument.as_bytes().splitn(2, |&byte| byte == b'=');
    let name = String::from_utf8_lossy(parts.next().unwrap_or_default()).into_owned();
    (name, parts.next().map(|value| OsStr::from_bytes(value).to_os_string()))
}

impl Subcommand {
    fn given(&self, mut arguments: impl Iterator<Item = OsString>) -> Result<Given, Failure> {
        let mut given = Given::default();
        let mut options_end = false;
        while let Some(argument) = arguments.next() {
            if options_end || argument == "-" || !argument.as_bytes().starts_with(b"-") {
                given.files.push(argument.into());
            } else if argument == "--" {
                options_end = true;
            } else {
                self.option(&argument, &mut given, &mut arguments)?;
            }
        }
        Ok(given)
    }

    fn option(&self, argument: &OsStr, given: &mut Given, rest: &mut impl Iterator<Item = OsString>) -> Result<(), Failure> {
        let (name, value) = split(argument);
        let takes_value = |option: &&str| option.split_once(' ').is_some_and(|(option, _)| option == name);
        if name == "--help" || name == "-h" {
            given.help = true;
        } else if self.options.iter().any(takes_value) {
            given.values.push((name, value.or_else(|| rest.next()).unwrap_or_default()));
        } else if !self.options.contains(&&name[..]) {
            return Err(self.wrong(&format!("there is no option '{name}'")));
        } else if value.is_some() {
            return Err(self.wrong(&format!("'{name}' takes no value")));
        } else {
            given.options.push(name);
        }
        Ok(())
    }

    fn wrong(&self, what: &str) -> Failure {
        Failure::Told(format!("{}: {what}: see backoff {0} --help", self.name))
    }
}

//! The words of a call.
use crate::words;
use std::ffi::{OsStr, OsString};
use std::path::Path;

pub enum Command {
    Read { files: Vec<OsString>, sheet: OsString },
    Show { files: Vec<OsString>, json: bool },
    Check { files: Vec<OsString>, json: bool, all: bool },
    Proof { file: OsString, page: OsString },
    Rests { ticks: u32, divisions: u32, notes: u32 },
    Help(&'static str),
    Version,
}

/// A wrong call: what is wrong with it, and the command that it names.
pub struct Wrong {
    pub why: String,
    pub command: Option<&'static str>,
}

pub const COMMANDS: [&str; 6] = ["read", "show", "check", "proof", "rests", "help"];

fn wrong<T>(command: Option<&'static str>, why: String) -> Result<T, Wrong> {
    Err(Wrong { why, command })
}

fn quoted(word: &OsStr) -> String {
    format!("`{}`", words::plain(word.as_encoded_bytes()))
}

pub fn command(words: Vec<OsString>) -> Result<Command, Wrong> {
    let mut words = words.into_iter();
    let Some(verb) = words.next() else {
        return wrong(None, "a command is wanted".to_string());
    };
    match verb.to_str() {
        Some("-h" | "--help") => return Ok(Command::Help("")),
        Some("-V" | "--version") => return Ok(Command::Version),
        _ => {}
    }
    let Some(command) = COMMANDS.into_iter().find(|c| verb == *c) else {
        let what = if verb.as_encoded_bytes().starts_with(b"-") { "option" } else { "command" };
        let file = if Path::new(&verb).exists() { format!("; `ruevault show {}` shows the file", words::plain(verb.as_encoded_bytes())) } else { String::new() };
        return wrong(None, format!("there is no {what} {}{file}", quoted(&verb)));
    };
    let words: Vec<OsString> = words.collect();
    if words.iter().take_while(|w| *w != "--").any(|w| w == "-h" || w == "--help") {
        return Ok(Command::Help(command));
    }
    match command {
        "help" => help(&words),
        "rests" => rests(&words),
        _ => with_files(command, words),
    }
}

fn help(words: &[OsString]) -> Result<Command, Wrong> {
    match words {
        [] => Ok(Command::Help("")),
        [word] => match COMMANDS.into_iter().find(|c| word == *c) {
            Some(command) => Ok(Command::Help(command)),
            None => wrong(None, format!("there is no command {}", quoted(word))),
        },
        [_, word, ..] => wrong(Some("help"), format!("help takes one command, and {} is one more", quoted(word))),
    }
}

/// Ticks, divisions, and the voice's notes, 0 where they aren't given.
fn rests(words: &[OsString]) -> Result<Command, Wrong> {
    let words = words.strip_prefix(&[OsString::from("--")]).unwrap_or(words);
    let mut numbers = Vec::new();
    for word in words {
        match word.to_str().and_then(|w| w.parse::<u32>().ok()) {
            Some(number) => numbers.push(number),
            None => return wrong(Some("rests"), format!("{} is no whole number from 0 to 4294967295", quoted(word))),
        }
    }
    match numbers[..] {
        [ticks, divisions] => Ok(Command::Rests { ticks, divisions, notes: 0 }),
        [ticks, divisions, notes] => Ok(Command::Rests { ticks, divisions, notes }),
        _ => wrong(Some("rests"), format!("rests takes two or three numbers, and there are {}", numbers.len())),
    }
}

fn with_files(command: &'static str, words: Vec<OsString>) -> Result<Command, Wrong> {
    let (mut files, mut sheet, mut json, mut all) = (Vec::new(), None, false, false);
    let mut words = words.into_iter();
    let writes = matches!(command, "read" | "proof");
    let what = if command == "read" { "sheet" } else { "page" };
    let no_sheet = || Wrong { why: format!("behind -o the name of a {what} is wanted"), command: Some(command) };
    while let Some(word) = words.next() {
        let bytes = word.as_encoded_bytes();
        match word.to_str() {
            Some("--") => {
                files.extend(words.by_ref());
            }
            Some("--json") if !writes => json = true,
            Some("--all") if command == "check" => all = true,
            Some("-o" | "--output") if writes && sheet.is_none() => sheet = Some(words.next().ok_or_else(no_sheet)?),
            Some(w) if writes && sheet.is_none() && w.starts_with("--output=") => sheet = Some(OsString::from(&w["--output=".len()..])),
            _ if bytes.starts_with(b"-") && bytes != b"-" => return wrong(Some(command), format!("{command} has no option {}{}", quoted(&word), twice(&word, &sheet))),
            _ => files.push(word),
        }
    }
    if files.is_empty() {
        return wrong(Some(command), format!("{command} wants the name of a file, or - for standard input"));
    }
    if files.iter().filter(|f| *f == "-").count() > 1 {
        return wrong(Some(command), "standard input (-) can be read only once".to_string());
    }
    match (command, sheet) {
        ("read", Some(sheet)) => Ok(Command::Read { files, sheet }),
        ("read" | "proof", None) => wrong(Some(command), format!("{command} wants -o and the name of the {what}, or -o - for standard output")),
        ("proof", Some(page)) => match <[OsString; 1]>::try_from(files) {
            Ok([file]) => Ok(Command::Proof { file, page }),
            Err(files) => wrong(Some(command), format!("proof takes one file, and {} is one more", quoted(&files[1]))),
        },
        ("show", _) => Ok(Command::Show { files, json }),
        _ => Ok(Command::Check { files, json, all }),
    }
}

fn twice(word: &OsStr, sheet: &Option<OsString>) -> &'static str {
    let output = word == "-o" || word.as_encoded_bytes().starts_with(b"--output");
    if output && sheet.is_some() { " a second time" } else { "" }
}

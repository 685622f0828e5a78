//! `ruevault read FILE -o SHEET` writes the sheet of a text, `ruevault show FILE` prints it in words, `ruevault check FILE` prints messages only,
//! `ruevault proof FILE -o PAGE` writes a page to look it through, `ruevault rests TICKS DIVISIONS` prints the rests of a hole.
mod account;
mod args;
mod files;
mod given;
mod help;
mod hints;
mod json;
mod message;
mod proof;
mod refused;
mod rows;
mod score;
mod show;
mod show_json;
mod time;
mod unread;
mod words;

use account::Class;
use args::{Command, Wrong};
use json::Json;
use message::{Message, counted, name_of};
use ruevault::Refusal;
use std::collections::HashSet;
use std::ffi::{OsStr, OsString};
use std::io::{self, BufWriter, Write};
use std::path::{Path, PathBuf};
use std::process::ExitCode;

/// How many places of lost tokens are told of each reason.
const PLACES: usize = 10;

/// The exit status: nothing wrong, something refused, a wrong call or a file error. The worst of several stands.
#[derive(Clone, Copy, PartialEq, Eq, PartialOrd, Ord)]
enum Status {
    Fine = 0,
    Refused = 1,
    Failed = 2,
}

fn main() -> ExitCode {
    let status = match args::command(std::env::args_os().skip(1).collect()) {
        Ok(command) => run(command),
        Err(wrong) => wrong_call(&wrong),
    };
    ExitCode::from(status as u8)
}

fn run(command: Command) -> Status {
    match command {
        Command::Read { files, sheet } => read(&files, &sheet),
        Command::Show { files, json } => show(&files, json),
        Command::Check { files, json, all } => check(&files, json, all),
        Command::Proof { file, page } => proof(&file, &page),
        Command::Rests { ticks, divisions, notes } => rests(ticks, divisions, notes),
        Command::Help(command) => printed(|out| writeln!(out, "{}", help::of(command))),
        Command::Version => printed(|out| writeln!(out, "ruevault {}", env!("CARGO_PKG_VERSION"))),
    }
}

/// Says what is wrong, and how the command is called.
fn wrong_call(wrong: &Wrong) -> Status {
    let usage = help::of(wrong.command.unwrap_or_default()).split("\n\n").next().unwrap_or_default();
    let more = wrong.command.map_or("ruevault help".to_string(), |c| format!("ruevault help {c}"));
    say(&format!("ruevault: {}\n{usage}\n`{more}` says more.\n", wrong.why));
    Status::Failed
}

/// On standard error; a closed one is passed over.
fn say(message: &str) {
    let _ = io::stderr().write_all(message.as_bytes());
}

fn file_error(file: &OsStr, e: &io::Error) -> Status {
    say(&format!("ruevault: {}: {e}\n", name_of(file)));
    Status::Failed
}

/// Writes to standard output; a reader of it who wants no more is no error.
fn printed(write: impl FnOnce(&mut dyn Write) -> io::Result<()>) -> Status {
    let mut out = BufWriter::new(io::stdout().lock());
    let done = write(&mut out).and_then(|()| out.flush());
    match files::unless_closed(done) {
        Ok(()) => Status::Fine,
        Err(e) => file_error(OsStr::new("standard output"), &e),
    }
}

/// A text that is accepted, with its sheet; or a sheet that was given without its text.
struct Sheet {
    text: Option<Vec<u8>>,
    sheet: Vec<u8>,
}

enum Stop {
    File(io::Error),
    Refused(Message),
}

/// A text and its sheet.
fn read_text(file: &OsStr) -> Result<Sheet, Stop> {
    of_input(files::read(file).map_err(Stop::File)?)
}

fn of_input(input: files::Input) -> Result<Sheet, Stop> {
    match ruevault::sheet_of(&input.bytes) {
        Ok(sheet) => Ok(Sheet { text: Some(input.bytes), sheet }),
        Err(refusal) => Err(Stop::Refused(refused::message(&input.bytes, input.length, refusal))),
    }
}

/// A text and its sheet, or a sheet.
fn read_any(file: &OsStr) -> Result<Sheet, Stop> {
    let input = files::read(file).map_err(Stop::File)?;
    match ruevault::head(&input.bytes) {
        Some(head) if head.length as usize == input.bytes.len() && ruevault::is_whole(&input.bytes) => Ok(Sheet { text: None, sheet: input.bytes }),
        Some(_) => Err(Stop::File(io::Error::other("this begins as a sheet does, but is not a whole one"))),
        None => of_input(input),
    }
}

fn stopped(file: &OsStr, stop: &Stop) -> Status {
    match stop {
        Stop::File(e) => file_error(file, e),
        Stop::Refused(message) => {
            say(&message.printed(&name_of(file)));
            Status::Refused
        }
    }
}

/// The worst of what each file comes to.
fn each(files: &[OsString], mut of: impl FnMut(&OsStr) -> Status) -> Status {
    files.iter().map(|file| of(file)).max().unwrap_or(Status::Fine)
}

fn read(files: &[OsString], sheet: &OsStr) -> Status {
    let folder = Path::new(sheet).is_dir();
    if files.len() > 1 && !folder {
        let why = format!("of {} files the sheets go into a folder, and `{}` is none", files.len(), name_of(sheet));
        return wrong_call(&Wrong { why, command: Some("read") });
    }
    let sheets: Vec<OsString> = files.iter().map(|file| if folder { inside(sheet, file) } else { sheet.to_os_string() }).collect();
    let mut names = HashSet::new();
    for (file, sheet) in files.iter().zip(&sheets) {
        if folder && file == "-" {
            return wrong_call(&Wrong { why: "the sheet of standard input has no name in a folder".to_string(), command: Some("read") });
        }
        if !names.insert(sheet) {
            return wrong_call(&Wrong { why: format!("two of the sheets would be `{}`", name_of(sheet)), command: Some("read") });
        }
        if let Some(same) = files.iter().find(|f| files::is_same(f, sheet)) {
            return self::same(sheet, same);
        }
    }
    let mut sheets = sheets.iter();
    each(files, |file| {
        let Some(sheet) = sheets.next() else { return Status::Fine };
        match read_text(file) {
            Ok(done) => written(file, sheet, &done),
            Err(stop) => stopped(file, &stop),
        }
    })
}

/// `FOLDER/NAME.sheet` of `NAME.krn`.
fn inside(folder: &OsStr, file: &OsStr) -> OsString {
    let mut name = PathBuf::from(Path::new(file).file_stem().unwrap_or(file));
    name.as_mut_os_string().push(".sheet");
    Path::new(folder).join(name).into_os_string()
}

/// Writes a sheet, and says what was lost.
fn written(file: &OsStr, sheet: &OsStr, done: &Sheet) -> Status {
    let writing = if sheet == "-" { files::write_standard(&done.sheet) } else { files::write(Path::new(sheet), &done.sheet) };
    if let Err(e) = writing {
        return file_error(sheet, &e);
    }
    let account = account::of(done.text.as_deref().unwrap_or_default(), &done.sheet, 1);
    let name = name_of(file);
    for group in account.of_class(Class::Lost) {
        if let Some(first) = group.spots.first() {
            let text = format!("lost: {}", group.said());
            say(&Message::warning(group.number, first.line, first.column, text).printed(&name));
        }
    }
    Status::Fine
}

fn proof(file: &OsStr, page: &OsStr) -> Status {
    if files::is_same(file, page) {
        return same(page, file);
    }
    let done = match read_text(file) {
        Ok(done) => done,
        Err(stop) => return stopped(file, &stop),
    };
    let mut html = Vec::new();
    let text = done.text.as_deref().unwrap_or_default();
    let drawn = proof::page(text, &done.sheet, &name_of(file), &mut html);
    match drawn.and_then(|()| if page == "-" { files::write_standard(&html) } else { files::write(Path::new(page), &html) }) {
        Ok(()) => Status::Fine,
        Err(e) => file_error(page, &e),
    }
}

fn same(output: &OsStr, input: &OsStr) -> Status {
    say(&format!("ruevault: {}: the output is the input `{}`, and was left as it is\n", name_of(output), name_of(input)));
    Status::Failed
}

fn show(files: &[OsString], json: bool) -> Status {
    let mut shown = 0;
    each(files, |file| {
        let done = match read_any(file) {
            Ok(done) => done,
            Err(stop) if json => return stopped_json(file, "ruevault-show-1", &stop),
            Err(stop) => return stopped(file, &stop),
        };
        let name = name_of(file);
        shown += 1;
        printed(|mut out| {
            if json {
                return show_json::show(&name, done.text.as_deref(), &done.sheet, &mut out);
            }
            if files.len() > 1 {
                writeln!(out, "{}==> {name} <==", if shown > 1 { "\n" } else { "" })?;
            }
            show::show(done.text.as_deref(), &done.sheet, &mut out)
        })
    })
}

/// A refused text as an object; a file error goes to standard error.
fn stopped_json(file: &OsStr, schema: &str, stop: &Stop) -> Status {
    let message = match stop {
        Stop::File(e) => return file_error(file, e),
        Stop::Refused(message) => message,
    };
    let status = printed(|out| {
        let mut json = Json::new(out);
        json.object(|o| {
            o.field("schema", |v| v.string(schema));
            o.field("file", |v| v.string(&name_of(file)));
            o.field("accepted", |v| v.boolean(false));
            o.field("error", |v| message.json(v));
        });
        json.end()
    });
    status.max(Status::Refused)
}

fn check(files: &[OsString], json: bool, all: bool) -> Status {
    let most = if all { usize::MAX } else { PLACES };
    let (mut read, mut refused) = (0, 0);
    let status = each(files, |file| {
        let status = match read_text(file) {
            Ok(done) => {
                read += 1;
                accepted(file, &done, json, most)
            }
            Err(stop) if json => stopped_json(file, "ruevault-check-1", &stop),
            Err(stop) => stopped(file, &stop),
        };
        refused += usize::from(status == Status::Refused);
        status
    });
    if files.len() > 1 && !json {
        let left = files.len() - read - refused;
        let unreadable = if left > 0 { format!(", {left} can't be read") } else { String::new() };
        say(&format!("{}: {read} accepted, {refused} refused{unreadable}\n", counted(files.len(), "file")));
    }
    status
}

/// What there is to say of a text that is accepted.
fn accepted(file: &OsStr, done: &Sheet, json: bool, most: usize) -> Status {
    let account = account::of(done.text.as_deref().unwrap_or_default(), &done.sheet, most);
    let name = name_of(file);
    if json {
        return printed(|out| {
            let mut json = Json::new(out);
            json.object(|o| {
                o.field("schema", |v| v.string("ruevault-check-1"));
                o.field("file", |v| v.string(&name));
                o.field("accepted", |v| v.boolean(true));
                account.json(o);
            });
            json.end()
        });
    }
    let mut said = String::new();
    for message in account.groups.iter().flat_map(|g| g.messages()) {
        said += &message.printed(&name);
    }
    say(&format!("{said}{name}: {}\n", account.summary()));
    Status::Fine
}

fn rests(ticks: u32, divisions: u32, notes: u32) -> Status {
    match ruevault::rests_of(ticks, divisions, notes) {
        Ok(rests) => printed(|out| rests.iter().try_for_each(|rest| writeln!(out, "{rest}"))),
        Err(Refusal { number, .. }) => {
            let words = Refusal { number, line: 0, figure: 0 }.words();
            say(&format!("ruevault: error[{number}]: {words}\n"));
            Status::Refused
        }
    }
}

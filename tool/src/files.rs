//! Files: an input up to the limit, an output that is written beside and renamed.
use ruevault::MAX_TEXT;
use std::ffi::OsStr;
use std::fs::{self, File, Metadata, OpenOptions};
use std::io::{self, ErrorKind, Read, Write};
use std::os::unix::fs::MetadataExt;
use std::path::{Path, PathBuf};
use std::process;

/// The most bytes that are read of a text: one more than it may have.
const MOST: u64 = MAX_TEXT as u64 + 1;

pub struct Input {
    pub bytes: Vec<u8>,
    /// How many bytes the file has, where it says so.
    pub length: Option<u64>,
}

/// The bytes of a file, or of standard input, up to one more than a text may have; of a sheet all that its head counts, and one.
pub fn read(file: &OsStr) -> io::Result<Input> {
    if file == "-" { taken(io::stdin().lock(), None) } else { opened(File::open(file)?) }
}

fn opened(file: File) -> io::Result<Input> {
    let about = file.metadata()?;
    taken(file, about.is_file().then_some(about.len()))
}

fn taken(mut file: impl Read, length: Option<u64>) -> io::Result<Input> {
    let mut bytes = Vec::with_capacity(length.unwrap_or(0).min(MOST) as usize + 1);
    file.by_ref().take(MOST).read_to_end(&mut bytes)?;
    if let Some(head) = ruevault::head(&bytes) {
        let left = (u64::from(head.length) + 1).saturating_sub(bytes.len() as u64);
        file.take(left).read_to_end(&mut bytes)?;
    }
    Ok(Input { bytes, length })
}

/// Whether an output is one of the inputs. `-` is what standard input and output stand for.
pub fn is_same(input: &OsStr, output: &OsStr) -> bool {
    let about = |file: &OsStr, standard: &str| fs::metadata(if file == "-" { OsStr::new(standard) } else { file }).ok().filter(Metadata::is_file);
    match (about(input, "/dev/stdin"), about(output, "/dev/stdout")) {
        (Some(a), Some(b)) => (a.dev(), a.ino()) == (b.dev(), b.ino()),
        _ => false,
    }
}

/// Writes a file whole or not at all: into a new one beside it, which then takes its name. A link is followed; what is no file, as a pipe, is
/// written to as it is.
pub fn write(file: &Path, bytes: &[u8]) -> io::Result<()> {
    let file = fs::canonicalize(file).unwrap_or_else(|_| file.to_path_buf());
    match fs::metadata(&file) {
        Ok(about) if about.is_dir() => Err(ErrorKind::IsADirectory.into()),
        Ok(about) if !about.is_file() => OpenOptions::new().write(true).open(&file)?.write_all(bytes),
        Ok(about) => replaced(&file, bytes, Some(about)),
        Err(e) if e.kind() == ErrorKind::NotFound => replaced(&file, bytes, None),
        Err(e) => Err(e),
    }
}

fn replaced(file: &Path, bytes: &[u8], old: Option<Metadata>) -> io::Result<()> {
    let beside = beside(file)?;
    let new = OpenOptions::new().write(true).create_new(true).open(&beside)?;
    let written = fill(new, bytes, old).and_then(|()| fs::rename(&beside, file));
    if written.is_err() {
        let _ = fs::remove_file(&beside);
    }
    written
}

fn fill(mut new: File, bytes: &[u8], old: Option<Metadata>) -> io::Result<()> {
    new.write_all(bytes)?;
    if let Some(old) = old {
        new.set_permissions(old.permissions())?;
    }
    new.sync_all()
}

/// `.ruevault-PROCESS.part` in the same folder.
fn beside(file: &Path) -> io::Result<PathBuf> {
    file.file_name().ok_or(ErrorKind::InvalidInput)?;
    Ok(file.with_file_name(format!(".ruevault-{}.part", process::id())))
}

pub fn write_standard(bytes: &[u8]) -> io::Result<()> {
    let mut out = io::stdout().lock();
    unless_closed(out.write_all(bytes).and_then(|()| out.flush()))
}

/// A reader of our output who wants no more is no error.
pub fn unless_closed(written: io::Result<()>) -> io::Result<()> {
    match written {
        Err(e) if e.kind() == ErrorKind::BrokenPipe => Ok(()),
        other => other,
    }
}

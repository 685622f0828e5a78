//! Ruevault, a verified reader of Humdrum `**kern`, for Rust programs.
//!
//! [`Sheet::read`] reads a text, and gives its notes, bars, parts and notices. [`sheet_of`] makes the sheet alone, which is a run of bytes
//! (docs/SHEET.md), [`read`] puts it into a lent buffer, and [`walk`] takes it apart; [`rests_of`] fills a hole with rests. The reading itself, the
//! rests, the words of the notices and the names of the parts are the proved library's; this crate calls it and keeps no table of these.
//!
//! ```
//! let sheet = ruevault::Sheet::read(b"**kern\n4c\n8.f#L\n16gJ\n*-\n")?;
//! for note in sheet.notes() {
//!     println!("bar {} voice {}: {note}", note.bar, note.voice + 1);
//! }
//! assert_eq!(sheet.notes().last().unwrap().to_string(), "sixteenth G4 (beam end)");
//! # Ok::<(), ruevault::Refusal>(())
//! ```
#![warn(missing_docs)]
mod proved;
mod records;
mod refusal;
mod sheet;
mod values;

pub use records::{Bar, End, Head, Note, Notice, Part, Record, Records, Span, head, is_whole, walk};
pub use refusal::Refusal;
pub use sheet::Sheet;
pub use values::{Articulation, Barline, Beam, Clef, Key, Meter, Mode, Pitch, Sign, Value};

/// The most bytes that a text may have.
pub const MAX_TEXT: usize = 67_108_864;

/// Reads a text into a lent buffer, and answers the sheet's length. After an acceptance the buffer holds the sheet first and its old bytes
/// behind; after a refusal it is unchanged.
pub fn read(text: &[u8], out: &mut [u8]) -> Result<usize, Refusal> {
    answered(proved::read(text, out))
}

/// How long the sheet of a text is: what a buffer needs for [`read`].
///
/// ```
/// let text = b"**kern\n4c\n*-\n";
/// let mut out = vec![0; ruevault::measure(text)?];
/// assert_eq!(ruevault::read(text, &mut out), Ok(119));
/// # Ok::<(), ruevault::Refusal>(())
/// ```
pub fn measure(text: &[u8]) -> Result<usize, Refusal> {
    needed(|out| read(text, out))
}

/// The sheet of a text. It is read once, into room for most sheets, and again where its sheet is longer.
pub fn sheet_of(text: &[u8]) -> Result<Vec<u8>, Refusal> {
    // Memory that isn't touched isn't taken.
    let mut sheet = vec![0; room(text.len())];
    match read(text, &mut sheet) {
        Ok(length) => {
            sheet.truncate(length);
            sheet.shrink_to_fit();
            Ok(sheet)
        }
        Err(Refusal { number: 13, .. }) => {
            drop(sheet);
            measured(|out| read(text, out))
        }
        Err(refusal) => Err(refusal),
    }
}

/// Room for the sheet of a text of music: a note's token has two bytes and more, its NOTE about thirty, and a text has at most 100,000 notes.
fn room(text: usize) -> usize {
    (16 * text + 256).min(text + (8 << 20))
}

/// A line that a record carries on, or a branch that it adds: its column before the record and the part's header column, from 1, and its voice.
#[derive(Clone, Copy, Debug, PartialEq, Eq)]
pub struct Holder {
    /// Before the record, of a branch that of its `*^`.
    pub column: u64,
    /// None of the last, the branch that finds none.
    pub voice: Option<u64>,
    /// Where the part stands in the header.
    pub header: u64,
}

/// The lines and branches that fill the staff of a text that is refused with 8, five of them; none of any other text.
pub fn filling(text: &[u8]) -> Vec<Holder> {
    match proved::read_lines(text, &mut []) {
        (8, lines) => lines.chunks(3).map(|l| Holder { column: l[0], voice: Some(l[1]).filter(|v| *v < 4), header: l[2] }).collect(),
        _ => Vec::new(),
    }
}

/// Fills a hole of so many ticks, at so many divisions to the quarter, with hidden rests in a lent buffer, for a voice of so many notes;
/// answers the length of their NOTE records. The buffer is as after [`read`].
pub fn gap_rests(ticks: u32, divisions: u32, notes: u32, out: &mut [u8]) -> Result<usize, Refusal> {
    answered(proved::gap_rests(ticks, divisions, notes, out))
}

/// The rests of a hole.
///
/// ```
/// let rests = ruevault::rests_of(8000, 480, 0)?;
/// assert_eq!(rests[1].to_string(), "quarter 3:2 rest (hidden)");
/// # Ok::<(), ruevault::Refusal>(())
/// ```
pub fn rests_of(ticks: u32, divisions: u32, notes: u32) -> Result<Vec<Note<'static>>, Refusal> {
    let bytes = measured(|out| gap_rests(ticks, divisions, notes, out))?;
    Ok(records::notes(&bytes).map(|rest| rest.without_lists()).collect())
}

fn answered((refused, [number, line, figure]): (u32, [u64; 3])) -> Result<usize, Refusal> {
    match refused {
        0 => Ok(figure as usize),
        _ => Err(Refusal { number: number as u32, line, figure }),
    }
}

/// The length of what is written. An empty buffer measures it: 13's figure is the length needed.
fn needed(write: impl Fn(&mut [u8]) -> Result<usize, Refusal>) -> Result<usize, Refusal> {
    match write(&mut []) {
        Ok(length) => Ok(length),
        Err(Refusal { number: 13, figure, .. }) => Ok(figure as usize),
        Err(refusal) => Err(refusal),
    }
}

/// What is written into a buffer of just its length.
fn measured(write: impl Fn(&mut [u8]) -> Result<usize, Refusal>) -> Result<Vec<u8>, Refusal> {
    let mut bytes = vec![0; needed(&write)?];
    let length = write(&mut bytes)?;
    bytes.truncate(length);
    Ok(bytes)
}

/// The code of a notice, 1 to 21; empty for a number that is no notice.
pub fn notice_code(number: u8) -> String {
    said(|out| proved::notice_code(number, out))
}

/// The reason of a notice, 1 to 21; empty for a number that is no notice.
pub fn notice_reason(number: u8) -> String {
    said(|out| proved::notice_reason(number, out))
}

/// The name of a part: `given`, `at` and `len` are the PART record's. Where none is given it is `Spine 1` for part 0 and so on.
pub fn part_name(text: &[u8], given: bool, at: u32, len: u32, part: u8) -> String {
    said(|out| proved::part_name(text, given.into(), at, len, part, out))
}

/// What a function of the library puts into a buffer. It is called twice, first to measure.
fn said(put: impl Fn(&mut [u8]) -> usize) -> String {
    let mut out = vec![0; put(&mut [])];
    put(&mut out);
    String::from_utf8_lossy(&out).into_owned()
}

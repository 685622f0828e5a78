//! Tokens that gave no note: those of kern columns in data records at whose line and column the sheet has no NOTE.
use crate::rows::{self, Column, Record, Rows};
use ruevault::Note;

/// Where the sheet has a NOTE.
#[derive(Clone, Copy)]
pub struct Place {
    pub line: u32,
    pub column: u16,
    pub voice: u8,
}

impl Place {
    pub fn of(note: &Note) -> Self {
        Place { line: note.line, column: note.column, voice: note.voice }
    }
}

/// A token that gave no note.
#[derive(Clone, Copy)]
pub struct Unread<'a> {
    pub line: u64,
    /// From 1.
    pub column: usize,
    pub part: u16,
    /// Its line of the staff, by the number that `rows` gives.
    pub thread: u32,
    pub token: &'a [u8],
}

/// The text's records beside the sheet's NOTEs, both in their order.
pub struct Beside<'a, 'p> {
    rows: Rows<'a>,
    ahead: Option<Record<'a>>,
    places: &'p [Place],
}

impl<'a, 'p> Beside<'a, 'p> {
    pub fn new(text: &'a [u8], places: &'p [Place]) -> Self {
        let mut rows = Rows::new(text);
        Beside { ahead: rows.next(), rows, places }
    }

    /// The next record.
    pub fn ahead(&self) -> Option<Record<'a>> {
        self.ahead
    }

    /// The columns that the record ahead meets.
    pub fn row(&self) -> &[Column] {
        self.rows.row()
    }

    /// Goes past the record ahead. Answers whether a spine is left behind it.
    pub fn pass(&mut self, read: impl FnMut(Column, Place), unread: impl FnMut(Unread<'a>)) -> bool {
        if let Some(record) = self.ahead.filter(|r| !r.is_star() && !r.is_bar()) {
            self.tokens(record, read, unread);
        }
        let left = !self.rows.row_behind().is_empty();
        self.ahead = self.rows.next();
        left
    }

    /// The tokens of a data record under kern, but null and blank ones.
    fn tokens(&mut self, record: Record<'a>, mut read: impl FnMut(Column, Place), mut unread: impl FnMut(Unread<'a>)) {
        let passed = self.places.iter().take_while(|p| u64::from(p.line) < record.number).count();
        self.places = &self.places[passed..];
        let mut at = 0;
        for (j, column) in self.rows.row().iter().enumerate() {
            let Some(rest) = record.bytes.get(at..) else { return };
            let token = &rest[..rest.iter().position(|b| *b == b'\t').unwrap_or(rest.len())];
            if let (Some(part), false) = (column.part, is_silent(token)) {
                match self.places.first() {
                    Some(place) if u64::from(place.line) == record.number && usize::from(place.column) == j + 1 => {
                        read(*column, *place);
                        self.places = &self.places[1..];
                    }
                    _ => unread(Unread { line: record.number, column: j + 1, part, thread: column.line, token }),
                }
            }
            at += token.len() + 1;
        }
    }
}

/// Null, empty, or of blanks.
fn is_silent(token: &[u8]) -> bool {
    token == b"." || token.iter().all(|b| *b == b' ')
}

/// All tokens that gave no note, in the order of the text.
pub fn each<'a>(text: &'a [u8], places: &[Place], mut see: impl FnMut(Unread<'a>)) {
    let mut beside = Beside::new(text, places);
    while beside.ahead().is_some() {
        beside.pass(|_, _| {}, &mut see);
    }
}

/// The voice of each line of a staff, by the notes that the sheet has of it; none of a line without a note.
pub fn voices(text: &[u8], places: &[Place]) -> Vec<Option<u8>> {
    let mut voices = Vec::new();
    let mut beside = Beside::new(text, places);
    while beside.ahead().is_some() {
        let mut say = |column: Column, place: Place| {
            let at = column.line as usize;
            if voices.len() <= at {
                voices.resize(at + 1, None);
            }
            voices[at] = Some(place.voice);
        };
        beside.pass(&mut say, |_| {});
    }
    voices
}

/// The position of a token in its line as editors count it: characters, from 1.
pub fn position(line: &[u8], at: usize) -> u64 {
    let before = &line[..at.min(line.len())];
    before.iter().filter(|b| **b & 0xC0 != 0x80).count() as u64 + 1
}

/// The position of a column of a line, columns from 1; of the whole line for column 0.
pub fn position_of_column(line: &[u8], column: u16) -> u64 {
    position(line, if column == 0 { 0 } else { rows::start_of(line, usize::from(column) - 1) })
}

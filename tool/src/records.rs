//! The sheet, version 1, taken apart (docs/SHEET.md), without a copy of any of it. The fields have the page's names, order and numbers.
use crate::values::{Articulation, Barline, Beam, Clef, Key, Meter, Mode, Pitch, Sign, Value};
use std::fmt;

/// A piece of the text.
#[derive(Clone, Copy, Debug, PartialEq, Eq)]
pub struct Span {
    /// Its first byte.
    pub at: u32,
    /// How many bytes it has.
    pub len: u32,
}

impl Span {
    /// Its bytes; none where the text is too short for it, which no sheet of that text gives.
    pub fn of<'a>(&self, text: &'a [u8]) -> &'a [u8] {
        let at = self.at as usize;
        text.get(at..at + self.len as usize).unwrap_or_default()
    }
}

/// The head of a sheet.
#[derive(Clone, Copy, Debug, PartialEq, Eq)]
pub struct Head {
    /// Of the format: 1.
    pub version: u16,
    /// How many parts there are.
    pub parts: u16,
    /// The sheet's bytes, the head's included.
    pub length: u32,
    /// How many NOTE records there are.
    pub notes: u32,
}

/// A note, a chord or a rest. Its Display is in the words of musicians: `dotted half B-flat 3 (tie start)`.
#[derive(Clone, Copy, Debug, PartialEq, Eq)]
pub struct Note<'a> {
    /// From 0, the lowest.
    pub part: u8,
    /// 0 to 3.
    pub voice: u8,
    /// As it is written, without dots and tuplet.
    pub value: Value,
    /// From 1.
    pub bar: u32,
    /// Of the text, from 1.
    pub line: u32,
    /// Of that line, from 1.
    pub column: u16,
    /// 0 to 3.
    pub dots: u8,
    /// Bits, from the lowest: rest, tie start, tie end, slur start, slur end, grace, slash, hidden.
    pub flags: u8,
    /// Of a tuplet, how many notes there are; 0 for no tuplet, as is `normal`.
    pub actual: u8,
    /// Of a tuplet, in the time of how many.
    pub normal: u8,
    /// Where it stands under a beam.
    pub beam: Option<Beam>,
    pitches: &'a [u8],
    articulations: &'a [u8],
}

impl<'a> Note<'a> {
    /// Its pitches in the order of the token; none of a rest.
    pub fn pitches(&self) -> impl ExactSizeIterator<Item = Pitch> + use<'a> {
        self.pitches.chunks_exact(3).map(|p| Pitch { step: p[0], octave: p[1], alter: p[2] as i8 })
    }
    /// Its articulations in the order of the token.
    pub fn articulations(&self) -> impl Iterator<Item = Articulation> + use<'a> {
        self.articulations.iter().filter_map(|a| Articulation::from_number(*a))
    }
    /// Whether it is a rest.
    pub fn rest(&self) -> bool {
        self.flag(0)
    }
    /// Whether a tie begins at it.
    pub fn tie_start(&self) -> bool {
        self.flag(1)
    }
    /// Whether a tie ends at it.
    pub fn tie_end(&self) -> bool {
        self.flag(2)
    }
    /// Whether a slur begins at it.
    pub fn slur_start(&self) -> bool {
        self.flag(3)
    }
    /// Whether a slur ends at it.
    pub fn slur_end(&self) -> bool {
        self.flag(4)
    }
    /// Whether it is a grace note, which lasts nothing.
    pub fn grace(&self) -> bool {
        self.flag(5)
    }
    /// Whether it is a grace note with a slash.
    pub fn slash(&self) -> bool {
        self.flag(6)
    }
    /// Whether it is hidden, as the rests of a hole are.
    pub fn hidden(&self) -> bool {
        self.flag(7)
    }
    /// The note without its pitches and articulations.
    pub(crate) fn without_lists(self) -> Note<'static> {
        Note { pitches: &[], articulations: &[], ..self }
    }
    fn flag(&self, bit: u8) -> bool {
        self.flags >> bit & 1 == 1
    }

    /// How long it lasts, in whole notes: a numerator and a denominator, not in lowest terms.
    ///
    /// ```
    /// let sheet = ruevault::Sheet::read(b"**kern\n12.c\n4cq\n*-\n").unwrap();
    /// let lengths: Vec<(u32, u32)> = sheet.notes().map(|n| n.length()).collect();
    /// assert_eq!(lengths, [(4 * 3 * 2, 32 * 2 * 3), (0, 1)]);
    /// ```
    pub fn length(&self) -> (u32, u32) {
        if self.grace() {
            return (0, 1);
        }
        let dots = self.dots.min(3);
        let (actual, normal) = if self.actual == 0 { (1, 1) } else { (self.actual.into(), self.normal.into()) };
        (4 * ((2 << dots) - 1) * normal, (1 << self.value.number()) * (1 << dots) * actual)
    }

    /// What is marked at it: hidden, ties, slurs and beam.
    fn marks(&self) -> impl Iterator<Item = &'static str> {
        let given = |given: bool, word| given.then_some(word);
        let marks = [
            given(self.hidden(), "hidden"),
            given(self.tie_end(), "tie end"),
            given(self.tie_start(), "tie start"),
            given(self.slur_end(), "slur end"),
            given(self.slur_start(), "slur start"),
            self.beam.map(Beam::words),
        ];
        marks.into_iter().flatten()
    }
}

impl fmt::Display for Note<'_> {
    fn fmt(&self, f: &mut fmt::Formatter) -> fmt::Result {
        f.write_str(match (self.grace(), self.slash()) {
            (true, true) => "slashed grace ",
            (true, false) => "grace ",
            _ => "",
        })?;
        f.write_str(["", "dotted ", "double-dotted ", "triple-dotted "].get(usize::from(self.dots)).unwrap_or(&""))?;
        self.value.fmt(f)?;
        if self.actual != 0 {
            write!(f, " {}:{}", self.actual, self.normal)?;
        }
        if self.rest() {
            f.write_str(" rest")?;
        } else {
            self.pitches().try_for_each(|pitch| write!(f, " {pitch}"))?;
        }
        let mut between = " (";
        for mark in self.marks().chain(self.articulations().map(Articulation::words)) {
            write!(f, "{between}{mark}")?;
            between = ", ";
        }
        f.write_str(if between == ", " { ")" } else { "" })
    }
}

/// A bar of one part.
#[derive(Clone, Copy, Debug, PartialEq, Eq)]
pub struct Bar {
    /// From 0, the lowest.
    pub part: u8,
    /// The barline on the right.
    pub right: Barline,
    /// The barline on the left.
    pub left: Barline,
    /// From 1.
    pub number: u32,
    /// The clef that it sets.
    pub clef: Option<Clef>,
    /// The meter that it sets; of bar 1 always one.
    pub meter: Option<Meter>,
    /// The sign that stands for its meter.
    pub sign: Option<Sign>,
    /// Whether it sets a key; of bar 1 always.
    pub key_given: bool,
    /// Sharps above 0, flats below.
    pub fifths: i8,
    /// Major or minor.
    pub mode: Mode,
    /// Quarter notes a minute, 0 for none.
    pub tempo: u16,
}

impl Bar {
    /// The key that it sets.
    pub fn key(&self) -> Option<Key> {
        self.key_given.then_some(Key { fifths: self.fifths, mode: self.mode })
    }
}

/// A part.
#[derive(Clone, Copy, Debug, PartialEq, Eq)]
pub struct Part {
    /// From 0, the lowest.
    pub part: u8,
    /// Whether the text gives a name, an empty one too.
    pub name_given: bool,
    /// The first bar's, else the treble clef.
    pub clef: Clef,
    /// Its name in the text.
    pub name: Span,
    /// Its short name in the text.
    pub short_name: Span,
}

/// What holds of the whole text.
#[derive(Clone, Copy, Debug, PartialEq, Eq)]
pub struct End {
    /// Of bar 1 in the highest part.
    pub key: Key,
    /// Of bar 1 in the highest part.
    pub meter: Meter,
    /// The text's first, 0 for none.
    pub tempo: u16,
    /// Empty where there is none.
    pub title: Span,
    /// Empty where there is none.
    pub composer: Span,
    /// Empty where there is none.
    pub lyricist: Span,
}

/// What the sheet doesn't hold, or holds otherwise than it is written.
#[derive(Clone, Copy, Debug, PartialEq, Eq)]
pub struct Notice<'a> {
    /// 1 to 21.
    pub number: u8,
    /// 0 for none.
    pub column: u16,
    /// Of the text, from 1.
    pub line: u32,
    /// What it preserves, but for number 17.
    pub value: Span,
    /// Of number 1, the reference record's key.
    pub key: Span,
    /// The bytes that follow the record of number 17.
    pub bytes: &'a [u8],
}

impl<'a> Notice<'a> {
    /// What it preserves.
    pub fn preserved(&self, text: &'a [u8]) -> &'a [u8] {
        if self.number == 17 { self.bytes } else { self.value.of(text) }
    }
}

/// A record of a sheet.
#[derive(Clone, Copy, Debug, PartialEq, Eq)]
pub enum Record<'a> {
    /// A note, a chord or a rest.
    Note(Note<'a>),
    /// A bar of one part, behind its notes.
    Bar(Bar),
    /// A part, behind all bars, from the highest.
    Part(Part),
    /// The last record.
    End(End),
    /// A notice, before the note of its token.
    Notice(Notice<'a>),
}

/// The head of a sheet, where the bytes have one of version 1.
pub fn head(sheet: &[u8]) -> Option<Head> {
    let b = sheet.get(..16)?;
    let version = short(b, 4);
    (b[..4] == *b"KRN\0" && version == 1).then(|| Head { version, parts: short(b, 6), length: long(b, 8), notes: long(b, 12) })
}

/// The records of a sheet one by one, up to the length in its head, without allocation. Of other bytes, those up to the first that is no record.
///
/// ```
/// let sheet = ruevault::sheet_of(b"**kern\n4c\n*-\n").unwrap();
/// let Some(ruevault::Record::Note(note)) = ruevault::walk(&sheet).next() else { panic!() };
/// assert_eq!(note.to_string(), "quarter C4");
/// ```
pub fn walk(sheet: &[u8]) -> Records<'_> {
    let length = head(sheet).map_or(0, |h| h.length as usize).min(sheet.len());
    Records { rest: sheet.get(16..length).unwrap_or_default() }
}

/// Whether the bytes are a whole sheet: records from the head up to its length, as many NOTEs as it says, and nothing behind.
pub fn is_whole(sheet: &[u8]) -> bool {
    let Some(head) = head(sheet).filter(|h| h.length as usize == sheet.len()) else { return false };
    let mut records = walk(sheet);
    let notes = records.by_ref().filter(|r| matches!(r, Record::Note(_))).count();
    records.rest.is_empty() && notes == head.notes as usize
}

/// The NOTEs of records that stand without a head.
pub(crate) fn notes(records: &[u8]) -> impl Iterator<Item = Note<'_>> {
    Records { rest: records }.filter_map(|record| if let Record::Note(note) = record { Some(note) } else { None })
}

/// The walk over a sheet.
#[derive(Clone, Debug)]
pub struct Records<'a> {
    rest: &'a [u8],
}

impl<'a> Iterator for Records<'a> {
    type Item = Record<'a>;

    fn next(&mut self) -> Option<Record<'a>> {
        let (record, rest) = self.rest.split_at_checked(length_of(self.rest)?)?;
        let decoded = decoded(record)?;
        self.rest = rest;
        Some(decoded)
    }
}

/// The length of the first record; nothing where there is none.
fn length_of(b: &[u8]) -> Option<usize> {
    match b.first()? {
        1 if b.len() >= 28 => Some(28 + 3 * long(b, 20) as usize + long(b, 24) as usize),
        2 | 3 => Some(20),
        4 => Some(32),
        5 if b.len() >= 24 && b[1] == 17 => Some(24 + long(b, 12) as usize),
        5 => Some(24),
        _ => None,
    }
}

/// A record from its bytes, of which there are as many as `length_of` says; none where a field has a number that it can't have.
fn decoded(b: &[u8]) -> Option<Record<'_>> {
    match b[0] {
        1 => note(b).map(Record::Note),
        2 => bar(b).map(Record::Bar),
        3 => part(b).map(Record::Part),
        4 => end(b).map(Record::End),
        5 if b.len() >= 24 => Some(Record::Notice(notice(b))),
        _ => None,
    }
}

/// None for 0, and one of the values for another number.
fn unless_zero<T>(number: u8, from: impl Fn(u8) -> Option<T>) -> Option<Option<T>> {
    if number == 0 { Some(None) } else { from(number).map(Some) }
}

fn note(b: &[u8]) -> Option<Note<'_>> {
    let (pitches, articulations) = b[28..].split_at(3 * long(b, 20) as usize);
    let known = articulations.iter().all(|a| Articulation::from_number(*a).is_some());
    known.then_some(Note {
        part: b[1],
        voice: b[2],
        value: Value::from_number(b[3])?,
        bar: long(b, 4),
        line: long(b, 8),
        column: short(b, 12),
        dots: b[14],
        flags: b[15],
        actual: b[16],
        normal: b[17],
        beam: unless_zero(b[18], Beam::from_number)?,
        pitches,
        articulations,
    })
}

fn meter(numerator: u8, denominator: u8) -> Option<Meter> {
    (numerator != 0).then_some(Meter { numerator, denominator })
}

fn bar(b: &[u8]) -> Option<Bar> {
    Some(Bar {
        part: b[1],
        right: Barline::from_number(b[2])?,
        left: Barline::from_number(b[3])?,
        number: long(b, 4),
        clef: unless_zero(b[8], Clef::from_number)?,
        meter: meter(b[9], b[10]),
        sign: unless_zero(b[11], Sign::from_number)?,
        key_given: b[12] == 1,
        fifths: b[13] as i8,
        mode: Mode::from_number(b[14])?,
        tempo: short(b, 16),
    })
}

fn part(b: &[u8]) -> Option<Part> {
    Some(Part { part: b[1], name_given: b[2] == 1, clef: Clef::from_number(b[3])?, name: span(b, 4), short_name: span(b, 12) })
}

fn end(b: &[u8]) -> Option<End> {
    Some(End {
        key: Key { fifths: b[2] as i8, mode: Mode::from_number(b[1])? },
        meter: meter(b[4], b[5])?,
        tempo: short(b, 6),
        title: span(b, 8),
        composer: span(b, 16),
        lyricist: span(b, 24),
    })
}

fn notice(b: &[u8]) -> Notice<'_> {
    Notice { number: b[1], column: short(b, 2), line: long(b, 4), value: span(b, 8), key: span(b, 16), bytes: &b[24..] }
}

fn span(b: &[u8], at: usize) -> Span {
    Span { at: long(b, at), len: long(b, at + 4) }
}

fn short(b: &[u8], at: usize) -> u16 {
    u16::from_le_bytes([b[at], b[at + 1]])
}

fn long(b: &[u8], at: usize) -> u32 {
    u32::from_le_bytes([b[at], b[at + 1], b[at + 2], b[at + 3]])
}

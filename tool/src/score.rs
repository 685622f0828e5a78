//! A sheet bar by bar, beside the text where there is one: what `show` prints, in words or as JSON.
use crate::rows::{self, Column, Record as Line};
use crate::unread::{self, Beside, Place, Unread};
use crate::{given, words};
use ruevault::{Bar, End, Note, Notice, Part, Record, Span};
use std::io;

/// What a sheet says behind its bars, or anywhere.
pub struct Score<'a> {
    pub text: Option<&'a [u8]>,
    pub sheet: &'a [u8],
    /// From the highest, as a score has them.
    pub parts: Vec<Part>,
    /// Their names, in the same order.
    pub labels: Vec<String>,
    pub end: Option<End>,
    pub notices: Vec<Notice<'a>>,
    pub bars: u32,
    /// The first bar as the text gives it, by part: without the meter and the key that a sheet fills in.
    pub given: Vec<Bar>,
    /// Whether the first bar has a clef, by part.
    pub clefs: Vec<bool>,
    places: Vec<Place>,
    voices: Vec<Option<u8>>,
}

/// A bar, and what stands in its lines.
#[derive(Default)]
pub struct Measure<'a> {
    pub number: u32,
    pub notes: Vec<Note<'a>>,
    /// By rising part.
    pub bars: Vec<Bar>,
    pub lines: Lines<'a>,
}

/// What a stretch of a text's lines has beside the notes.
#[derive(Default)]
pub struct Lines<'a> {
    /// The tokens of the barlines at its start.
    pub labels: Vec<&'a [u8]>,
    pub first: u64,
    pub last: u64,
    pub paths: Vec<Path<'a>>,
    pub unread: Vec<Unread<'a>>,
}

/// A record with path tokens.
pub struct Path<'a> {
    pub number: u64,
    pub bytes: &'a [u8],
    pub branches: Vec<Branch>,
}

/// A line that a `*^` or `*+` adds.
#[derive(Clone, Copy)]
pub struct Branch {
    /// From 0.
    pub token: usize,
    /// Where it is under kern.
    pub part: Option<u16>,
    pub thread: u32,
}

impl<'a> Score<'a> {
    pub fn new(text: Option<&'a [u8]>, sheet: &'a [u8]) -> Self {
        let mut score = Score {
            text,
            sheet,
            parts: Vec::new(),
            labels: Vec::new(),
            end: None,
            notices: Vec::new(),
            bars: 0,
            given: Vec::new(),
            clefs: Vec::new(),
            places: Vec::new(),
            voices: Vec::new(),
        };
        for record in ruevault::walk(sheet) {
            match record {
                Record::Bar(bar) => {
                    score.bars = bar.number;
                    if bar.number == 1 {
                        score.clefs.push(bar.clef.is_some());
                    }
                }
                Record::Part(part) => score.parts.push(part),
                Record::End(end) => score.end = Some(end),
                Record::Notice(notice) => score.notices.push(notice),
                Record::Note(note) => score.places.push(Place::of(&note)),
            }
        }
        if let Some(text) = text {
            score.voices = unread::voices(text, &score.places);
            score.given = given::first_bar(text, &score.places);
        }
        score.labels = labels(text, &score.parts);
        score
    }

    pub fn voice_of(&self, u: &Unread) -> Option<u8> {
        self.voice_of_thread(u.thread)
    }

    pub fn voice_of_thread(&self, thread: u32) -> Option<u8> {
        self.voices.get(thread as usize).copied().flatten()
    }

    /// Whether the text itself gives the meter and the key of a bar, where that is known.
    pub fn gives(&self, bar: &Bar) -> (bool, bool) {
        match self.given.get(usize::from(bar.part)) {
            Some(given) if bar.number == 1 => (given.meter.is_some(), given.key_given),
            _ => (true, true),
        }
    }

    pub fn text_of(&self, span: Span) -> &'a [u8] {
        self.text.map_or(&[], |text| span.of(text))
    }

    /// Goes through the bars; answers what is left of the text behind the last.
    pub fn each(&self, mut see: impl FnMut(Measure<'a>) -> io::Result<()>) -> io::Result<Lines<'a>> {
        let mut source = self.text.map(|text| Source::new(text, &self.places));
        let mut measure = Measure::default();
        for record in ruevault::walk(self.sheet) {
            match record {
                Record::Note(note) => measure.notes.push(note),
                Record::Bar(bar) => measure.bars.push(bar),
                _ => {}
            }
            if measure.bars.len() == self.parts.len() && !measure.bars.is_empty() {
                measure.number = measure.bars[0].number;
                if let Some(source) = &mut source {
                    measure.lines = source.bar(measure.notes.last().map_or(0, |n| n.line.into()));
                }
                see(std::mem::take(&mut measure))?;
            }
        }
        Ok(source.map(|mut s| s.bar(u64::MAX)).unwrap_or_default())
    }
}

/// The names of the parts; parts of one name have their numbers behind it.
fn labels(text: Option<&[u8]>, parts: &[Part]) -> Vec<String> {
    let name = |p: &Part| match text {
        Some(text) => words::plain(ruevault::part_name(text, p.name_given, p.name.at, p.name.len, p.part).as_bytes()),
        None => format!("Part {}", u32::from(p.part) + 1),
    };
    let names: Vec<String> = parts.iter().map(name).collect();
    let alone = |name: &String| !name.is_empty() && names.iter().filter(|n| *n == name).count() == 1;
    let label = |(p, name): (&Part, &String)| match name.as_str() {
        _ if alone(name) => name.clone(),
        "" => format!("Part {} (without a name)", u32::from(p.part) + 1),
        _ => format!("{name} (part {})", u32::from(p.part) + 1),
    };
    parts.iter().zip(&names).map(label).collect()
}

/// The text's lines beside the sheet's bars.
struct Source<'a, 'p> {
    beside: Beside<'a, 'p>,
    /// The token of the barline that closed the last bar.
    opener: Option<&'a [u8]>,
}

impl<'a, 'p> Source<'a, 'p> {
    fn new(text: &'a [u8], places: &'p [Place]) -> Self {
        Source { beside: Beside::new(text, places), opener: None }
    }

    /// The lines up to the barline that closes a bar: the first behind the line of its last note. That line goes to the next bar.
    fn bar(&mut self, note: u64) -> Lines<'a> {
        let mut lines = Lines::default();
        let open = |lines: &mut Lines<'a>, label: &'a [u8]| {
            if lines.unread.is_empty() {
                lines.labels.clear();
                lines.first = 0;
            }
            lines.labels.push(label);
        };
        if let Some(label) = self.opener.take() {
            open(&mut lines, label);
        }
        let mut noted = false;
        while let Some(record) = self.beside.ahead() {
            if record.is_bar() {
                let label = deciding(record.bytes, self.beside.row());
                if record.number > note {
                    self.opener = Some(label);
                    self.beside.pass(|_, _| {}, |_| {});
                    break;
                }
                if !noted {
                    open(&mut lines, label);
                }
            }
            let before = self.beside.row().iter().map(|c| c.line).max();
            let left = self.beside.pass(|_, _| noted = true, |u| lines.unread.push(u));
            // The record that ends all spines is no bar's.
            if left && !record.is_bar() {
                lines.first = if lines.first == 0 { record.number } else { lines.first };
                lines.last = record.number;
            }
            if record.is_star() && left && rows::has_paths(record.bytes) {
                lines.paths.push(path(record, self.beside.row(), before));
            }
        }
        lines
    }
}

/// The record with its branches: the lines behind it that were not before.
fn path<'a>(record: Line<'a>, behind: &[Column], before: Option<u32>) -> Path<'a> {
    let forks = record.bytes.split(|b| *b == b'\t').enumerate().filter(|(_, token)| matches!(*token, b"*^" | b"*+"));
    let fresh = behind.iter().filter(|c| before.is_none_or(|before| c.line > before));
    let branches = forks.zip(fresh).map(|((token, _), c)| Branch { token, part: c.part, thread: c.line }).collect();
    Path { number: record.number, bytes: record.bytes, branches }
}

/// The token of a barline record that decides it: that of the first kern column, else the first.
fn deciding<'a>(record: &'a [u8], row: &[Column]) -> &'a [u8] {
    let mut tokens = record.split(|b| *b == b'\t');
    let first = row.iter().position(|c| c.part.is_some()).unwrap_or(0);
    tokens.nth(first).unwrap_or_default()
}

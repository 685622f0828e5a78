//! A refusal as a message: where, what, the line with a mark, and hints.
use crate::hints;
use crate::message::{Message, counted, grouped};
use crate::rows::{self, Column};
use crate::unread::position;
use crate::words;
use ruevault::{MAX_TEXT, Record, Refusal};

/// The most bytes of a line that are shown on each side of the mark.
const SIDE: usize = 60;

/// A line of the text, and the byte of it to mark.
struct Place<'a> {
    line: u64,
    text: &'a [u8],
    mark: Option<usize>,
}

/// `length` is the file's where it is known: a longer text than may be read isn't read to its end.
pub fn message(text: &[u8], length: Option<u64>, refusal: Refusal) -> Message {
    let row = if matches!(refusal.number, 6 | 8) { rows::row_at(text, refusal.line) } else { Vec::new() };
    let place = place_of(text, refusal, &row);
    let (line, column) = place.as_ref().map_or((1, 1), |p| (p.line, position(p.text, p.mark.unwrap_or(0))));
    let mut below = place.as_ref().map(shown).unwrap_or_default();
    if refusal.number == 8 {
        below += &full(text);
    }
    Message {
        severity: "error",
        number: refusal.number,
        line,
        column,
        text: said(text, length, refusal, &row),
        below,
        hints: hints::of(text, refusal, place.as_ref().map_or(&[], |p| p.text), row.len()),
    }
}

fn said(text: &[u8], length: Option<u64>, refusal: Refusal, row: &[Column]) -> String {
    let figure = refusal.figure;
    match refusal.number {
        1 => match length.filter(|l| *l > MAX_TEXT as u64) {
            Some(length) => format!("{} bytes, {} are the most", grouped(length), grouped(MAX_TEXT as u64)),
            None => format!("more than {} bytes, which are the most", grouped(MAX_TEXT as u64)),
        },
        4 => format!("{} in the header, 256 are the most", counted(figure as usize, "token")),
        6 => format!("{}, {} expected", counted(figure as usize, "token"), row.len()),
        8 => format!("{} would have more than four lines", part_name(text, refusal.line, figure, row)),
        9 => format!("{} behind this record, 256 are the most", counted(figure as usize, "spine")),
        _ => refusal.words(),
    }
}

/// The name that the library gives the part from the lines before a line: it reads these with a rest in each column. Without one, its place.
fn part_name(text: &[u8], line: u64, part: u64, row: &[Column]) -> String {
    let before = rows::lines(text).find(|(n, ..)| *n == line).map_or(text.len(), |(_, at, _)| at);
    let mut asked = text[..before].to_vec();
    asked.extend(vec!["4r"; row.len()].join("\t").bytes());
    let sheet = ruevault::sheet_of(&asked).unwrap_or_default();
    let given = ruevault::walk(&sheet).find_map(|record| match record {
        Record::Part(p) if u64::from(p.part) == part => Some(p),
        _ => None,
    });
    match given {
        Some(p) if !p.name_given || p.name.len > 0 => words::plain(ruevault::part_name(&asked, p.name_given, p.name.at, p.name.len, p.part).as_bytes()),
        _ => format!("the staff of spine {}", part + 1),
    }
}

/// Which lines fill the staff.
fn full(text: &[u8]) -> String {
    let lines = ruevault::filling(text);
    let header = lines.first().map_or(0, |l| l.header);
    let holders: Vec<String> = lines.iter().filter_map(|l| l.voice.map(|v| format!("token {} (voice {})", l.column, v + 1))).collect();
    let last = lines.last().map_or(0, |l| l.column);
    format!("  the staff of token {header} of the header is full with {}; the branch of token {last} finds no voice\n", holders.join(", "))
}

fn place_of<'a>(text: &'a [u8], refusal: Refusal, row: &[Column]) -> Option<Place<'a>> {
    if refusal.number == 2 {
        return Some(place_of_byte(text, refusal.figure as usize));
    }
    if refusal.line == 0 {
        return None;
    }
    let line = rows::line_of(text, refusal.line);
    Some(Place { line: refusal.line, text: line, mark: mark(text, line, refusal, row) })
}

/// The line of a byte, with the byte to mark.
fn place_of_byte(text: &[u8], at: usize) -> Place<'_> {
    let before = &text[..at.min(text.len())];
    let start = before.iter().rposition(|b| *b == b'\n').map_or(0, |i| i + 1);
    let line = before.iter().filter(|b| **b == b'\n').count() as u64 + 1;
    let end = text[start..].iter().position(|b| *b == b'\n').map_or(text.len(), |i| start + i);
    Place { line, text: &text[start..end], mark: Some(at - start) }
}

/// The byte of a refused line to mark, where a token of it is at fault.
fn mark(text: &[u8], line: &[u8], refusal: Refusal, row: &[Column]) -> Option<usize> {
    let first = |is: &dyn Fn(&[u8]) -> bool| line.split(|b| *b == b'\t').position(is);
    match refusal.number {
        3 => first(&|t| !t.starts_with(b"**")),
        4 => Some(256),
        6 => Some(row.len()),
        7 => first(&|t| !t.starts_with(b"*")),
        8 => ruevault::filling(text).last().map(|l| l.column as usize - 1),
        17 => Some(refusal.figure as usize - 1),
        _ => None,
    }
    .map(|column| rows::start_of(line, column))
}

/// The line, and the mark on a line below.
fn shown(place: &Place) -> String {
    let label = format!("  {} | ", place.line);
    let at = place.mark.unwrap_or(0).min(place.text.len());
    let (start, end) = window(place.text, at);
    let (before, behind) = (dots(start > 0), dots(end < place.text.len()));
    let left = format!("{before}{}", words::plain(&place.text[start..at]));
    let line = format!("{label}{left}{}{behind}\n", words::plain(&place.text[at..end]));
    match place.mark {
        Some(_) => line + &" ".repeat(label.len() - 2) + "| " + &blank(&left) + "^\n",
        None => line,
    }
}

/// The bytes of a line to show, whole characters around one.
fn window(line: &[u8], at: usize) -> (usize, usize) {
    let inside = |i: usize| i < line.len() && line[i] & 0xC0 == 0x80;
    let (mut start, mut end) = (at.saturating_sub(SIDE), line.len().min(at + SIDE));
    while start > 0 && inside(start) {
        start -= 1;
    }
    while end > at && inside(end) {
        end -= 1;
    }
    (start, end)
}

fn dots(cut: bool) -> &'static str {
    if cut { "..." } else { "" }
}

/// As wide as what stands above, with its tabs.
fn blank(above: &str) -> String {
    above.chars().map(|c| if c == '\t' { c } else { ' ' }).collect()
}

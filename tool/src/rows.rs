//! Lines of a text, and rows of columns over its records: which column is whose. What is said of music comes from the sheet alone.
use std::io::BufRead;

/// A column of a row.
#[derive(Clone, Copy)]
pub struct Column {
    /// The part, where it is under kern.
    pub part: Option<u16>,
    /// Which line it is, of all that the text has in their order; a line keeps its number and its voice to its end.
    pub line: u32,
}

/// A line of the text that is neither empty nor a comment, without LF and the CRs before it.
#[derive(Clone, Copy)]
pub struct Record<'a> {
    pub number: u64,
    pub bytes: &'a [u8],
}

impl Record<'_> {
    pub fn is_bar(&self) -> bool {
        self.bytes[0] == b'='
    }
    pub fn is_star(&self) -> bool {
        self.bytes[0] == b'*'
    }
}

/// The lines of a text, from 1, with the place of each.
pub struct Lines<'a> {
    text: &'a [u8],
    at: usize,
    number: u64,
}

pub fn lines(text: &[u8]) -> Lines<'_> {
    Lines { text, at: 0, number: 0 }
}

impl<'a> Iterator for Lines<'a> {
    /// Its number, where it begins, and its bytes without LF and the CRs before it.
    type Item = (u64, usize, &'a [u8]);

    fn next(&mut self) -> Option<Self::Item> {
        let start = self.at;
        let mut rest = self.text.get(start..).filter(|rest| !rest.is_empty())?;
        self.at += rest.skip_until(b'\n').unwrap_or(0);
        self.number += 1;
        let line = &self.text[start..self.at];
        Some((self.number, start, without_cr(line.strip_suffix(b"\n").unwrap_or(line))))
    }
}

fn without_cr(line: &[u8]) -> &[u8] {
    let kept = line.iter().rposition(|b| *b != b'\r').map_or(0, |i| i + 1);
    &line[..kept]
}

/// Some lines of a text, whose numbers rise; empty ones past the end.
pub fn lines_at<'a>(text: &'a [u8], numbers: &[u64]) -> Vec<&'a [u8]> {
    let mut all = lines(text).peekable();
    let mut find = |number: u64| {
        while all.next_if(|(n, ..)| *n < number).is_some() {}
        all.peek().filter(|(n, ..)| *n == number).map_or(&[][..], |(.., line)| *line)
    };
    numbers.iter().map(|n| find(*n)).collect()
}

pub fn line_of(text: &[u8], number: u64) -> &[u8] {
    lines_at(text, &[number])[0]
}

pub fn tokens(record: &[u8]) -> Vec<&[u8]> {
    record.split(|b| *b == b'\t').collect()
}

/// Where a column's token begins, columns from 0; the line's end where there are too few.
pub fn start_of(record: &[u8], column: usize) -> usize {
    let mut ends = record.iter().enumerate().filter(|(_, b)| **b == b'\t').map(|(i, _)| i + 1);
    if column == 0 { 0 } else { ends.nth(column - 1).unwrap_or(record.len()) }
}

fn is_path(token: &[u8]) -> bool {
    matches!(token, b"*^" | b"*v" | b"*x" | b"*+" | b"*-")
}

pub fn has_paths(record: &[u8]) -> bool {
    record.split(|b| *b == b'\t').any(is_path)
}

/// Goes through the records behind the header, with the row that each meets, until no spine is left.
pub struct Rows<'a> {
    lines: Lines<'a>,
    row: Vec<Column>,
    next: Vec<Column>,
    /// How many lines there have been.
    count: u32,
    /// The record that was met last, where it is still to move the row.
    star: Option<&'a [u8]>,
}

impl<'a> Rows<'a> {
    pub fn new(text: &'a [u8]) -> Self {
        let mut rows = Rows { lines: lines(text), row: Vec::new(), next: Vec::new(), count: 0, star: None };
        if let Some(header) = rows.record() {
            let mut parts = 0..;
            for token in header.bytes.split(|b| *b == b'\t') {
                let part = if token == b"**kern" { parts.next() } else { None };
                rows.row.push(Column { part, line: rows.count });
                rows.count += 1;
            }
        }
        rows
    }

    /// The row that the last record met.
    pub fn row(&self) -> &[Column] {
        &self.row
    }

    /// The row behind the last record.
    pub fn row_behind(&mut self) -> &[Column] {
        if let Some(star) = self.star.take() {
            self.advance(star);
        }
        &self.row
    }

    fn record(&mut self) -> Option<Record<'a>> {
        let (number, _, bytes) = self.lines.find(|(.., line)| !line.is_empty() && line[0] != b'!')?;
        Some(Record { number, bytes })
    }

    /// The row behind a star record. A filled record changes no row, and a cut token stands behind the row.
    fn advance(&mut self, record: &[u8]) {
        let tokens = tokens(record);
        let token = |i: usize| tokens.get(i).copied().unwrap_or(b"*");
        self.next.clear();
        let (row, next) = (&self.row, &mut self.next);
        let mut i = 0;
        while i < row.len() {
            let pair = i + 1 < row.len() && token(i + 1) == token(i);
            match token(i) {
                b"*^" | b"*+" => {
                    let part = if token(i) == b"*^" { row[i].part } else { None };
                    next.extend([row[i], Column { part, line: self.count }]);
                    self.count += 1;
                }
                b"*x" if pair => {
                    next.extend([row[i + 1], row[i]]);
                    i += 1;
                }
                b"*v" => {
                    next.push(row[i]);
                    while i + 1 < row.len() && token(i + 1) == b"*v" {
                        i += 1;
                    }
                }
                b"*-" => {}
                _ => next.push(row[i]),
            }
            i += 1;
        }
        std::mem::swap(&mut self.row, &mut self.next);
    }
}

impl<'a> Iterator for Rows<'a> {
    type Item = Record<'a>;

    fn next(&mut self) -> Option<Record<'a>> {
        if self.row_behind().is_empty() {
            return None;
        }
        let record = self.record()?;
        if record.is_star() && has_paths(record.bytes) {
            self.star = Some(record.bytes);
        }
        Some(record)
    }
}

/// The row that a line meets; that at the end of the text where the line is none of its records.
pub fn row_at(text: &[u8], number: u64) -> Vec<Column> {
    let mut rows = Rows::new(text);
    while rows.next().is_some_and(|record| record.number < number) {}
    rows.row().to_vec()
}

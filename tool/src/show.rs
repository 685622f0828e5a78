//! A sheet for a person to check: names, bars part by part, the source lines of splits and joins, tokens that gave no note, notices.
use crate::account::{self, Class};
use crate::message::grouped;
use crate::score::{Lines, Measure, Score};
use crate::unread::Unread;
use crate::words;
use ruevault::{Bar, Barline, Note, Span};
use std::io::{self, Write};

/// How wide a printed line is at most, where its pieces allow it.
const WIDTH: usize = 100;

pub fn show(text: Option<&[u8]>, sheet: &[u8], out: &mut impl Write) -> io::Result<()> {
    let score = Score::new(text, sheet);
    show_titles(&score, out)?;
    show_parts(&score, out)?;
    let behind = score.each(|measure| show_bar(&score, &measure, out))?;
    show_behind(&score, &behind, out)?;
    match text {
        Some(text) => show_account(text, sheet, out),
        None => show_notices(&score, out),
    }
}

fn show_titles(score: &Score, out: &mut impl Write) -> io::Result<()> {
    let Some(end) = &score.end else { return Ok(()) };
    let mut say = |label: &str, span: Span| match (span.len, score.text) {
        (0, _) => Ok(()),
        (_, Some(text)) => writeln!(out, "{label}: {}", words::plain(span.of(text))),
        (len, None) => writeln!(out, "{label}: {len} bytes of the text, from byte {}", span.at),
    };
    say("Title", end.title)?;
    say("Composer", end.composer)?;
    say("Lyricist", end.lyricist)
}

fn show_parts(score: &Score, out: &mut impl Write) -> io::Result<()> {
    writeln!(out, "Parts, from the top of the score:")?;
    for (p, label) in score.parts.iter().zip(&score.labels) {
        write!(out, "  {label}")?;
        let short = score.text_of(p.short_name);
        if !short.is_empty() {
            write!(out, " ({})", words::plain(short))?;
        }
        if score.text.is_none() && p.name.len > 0 {
            write!(out, " (named in the text, {} bytes from byte {})", p.name.len, p.name.at)?;
        }
        let given = score.clefs.get(usize::from(p.part)).is_none_or(|given| *given);
        writeln!(out, ", {}{}", p.clef, if given { "" } else { " (not given)" })?;
    }
    Ok(())
}

/// `Bar 2 (=1, lines 19-24)`.
pub fn heading(measure: &Measure) -> String {
    let lines = &measure.lines;
    let labels = lines.labels.iter().map(|l| words::plain(l)).collect::<Vec<_>>().join(" ");
    let span = match (lines.first, lines.last) {
        (0, _) => String::new(),
        (a, b) if a == b => format!("line {a}"),
        (a, b) => format!("lines {a}-{b}"),
    };
    let said = [labels, span].into_iter().filter(|s| !s.is_empty()).collect::<Vec<_>>().join(", ");
    if said.is_empty() { format!("Bar {}", measure.number) } else { format!("Bar {} ({said})", measure.number) }
}

fn show_bar(score: &Score, measure: &Measure, out: &mut impl Write) -> io::Result<()> {
    let Some(first) = measure.bars.first() else { return Ok(()) };
    writeln!(out, "\n{}", heading(measure))?;
    if first.left != Barline::Normal {
        writeln!(out, "  barline on the left: {}", first.left)?;
    }
    for (part, label) in score.parts.iter().zip(&score.labels) {
        // BARs stand by rising part.
        show_settings(score, label, measure.bars.get(usize::from(part.part)), out)?;
        show_voices(score, part.part, measure, out)?;
    }
    for path in &measure.lines.paths {
        writeln!(out, "    line {}: {}", path.number, words::plain(path.bytes))?;
    }
    writeln!(out, "  barline: {}", first.right)
}

fn show_settings(score: &Score, label: &str, bar: Option<&Bar>, out: &mut impl Write) -> io::Result<()> {
    let settings = bar.map(|b| words::settings(b, score.gives(b))).unwrap_or_default();
    let between = if settings.is_empty() { "" } else { ": " };
    writeln!(out, "  {label}{between}{settings}")
}

/// What a voice has in a bar, with line and column to sort it by.
type Piece = (u64, usize, String);

/// The voices of a part that have notes in the bar, or tokens that gave none.
fn show_voices(score: &Score, part: u8, measure: &Measure, out: &mut impl Write) -> io::Result<()> {
    let with_lines = !measure.lines.paths.is_empty();
    let mut voices: [Vec<Piece>; 5] = [const { Vec::new() }; 5];
    for note in measure.notes.iter().filter(|n| n.part == part && n.voice < 4) {
        voices[usize::from(note.voice)].push((note.line.into(), note.column.into(), in_its_place(note, with_lines)));
    }
    for u in measure.lines.unread.iter().filter(|u| u.part == u16::from(part)) {
        let voice = score.voice_of(u).map_or(4, usize::from).min(4);
        voices[voice].push((u.line, u.column, not_read(u)));
    }
    if voices.iter().all(Vec::is_empty) {
        return writeln!(out, "    no notes");
    }
    for (voice, pieces) in voices.iter_mut().enumerate().filter(|(_, pieces)| !pieces.is_empty()) {
        pieces.sort();
        let label = if voice < 4 { format!("    voice {}: ", voice + 1) } else { "    a line without any note: ".to_string() };
        write_wrapped(&label, pieces, out)?;
    }
    Ok(())
}

/// The pieces with `; ` between them, wrapped.
fn write_wrapped(label: &str, pieces: &[Piece], out: &mut impl Write) -> io::Result<()> {
    let mut line = label.to_string();
    let mut fresh = true;
    for (i, (.., piece)) in pieces.iter().enumerate() {
        let end = if i + 1 < pieces.len() { ";" } else { "" };
        let wide = line.chars().count() + 1 + piece.chars().count() + end.len();
        if !fresh && wide > WIDTH {
            writeln!(out, "{line}")?;
            line = " ".repeat(6);
        } else if !fresh {
            line.push(' ');
        }
        fresh = false;
        line += piece;
        line += end;
    }
    writeln!(out, "{line}")
}

/// A note, with its source line before it in a bar whose lines split, join, exchange or end.
fn in_its_place(n: &Note, with_line: bool) -> String {
    if with_line { format!("[{}] {n}", n.line) } else { n.to_string() }
}

pub fn not_read(u: &Unread) -> String {
    format!("NOT READ: line {}, token {}, `{}`", u.line, u.column, words::shortened(u.token))
}

/// What stands behind the last bar.
fn show_behind(score: &Score, lines: &Lines, out: &mut impl Write) -> io::Result<()> {
    if lines.unread.is_empty() && lines.paths.is_empty() {
        return Ok(());
    }
    writeln!(out, "\nBehind the last bar")?;
    for u in &lines.unread {
        let label = score.parts.iter().zip(&score.labels).find(|(p, _)| u16::from(p.part) == u.part).map_or("", |(_, label)| label);
        let voice = score.voice_of(u).map_or("a line without any note".to_string(), |v| format!("voice {}", v + 1));
        writeln!(out, "  {label}, {voice}: {}", not_read(u))?;
    }
    for path in &lines.paths {
        writeln!(out, "  line {}: {}", path.number, words::plain(path.bytes))?;
    }
    Ok(())
}

fn show_account(text: &[u8], sheet: &[u8], out: &mut impl Write) -> io::Result<()> {
    let account = account::of(text, sheet, 1);
    for (class, heading) in [(Class::Lost, "Lost"), (Class::Ignored, "Ignored"), (Class::Harmless, "Harmless")] {
        if account.total(class) > 0 {
            writeln!(out, "\n{heading}:")?;
        }
        for group in account.of_class(class) {
            writeln!(out, "  {}", group.said())?;
        }
    }
    writeln!(out, "\n{}", account.summary())
}

/// Without the text: where the notices stand, and no more.
fn show_notices(score: &Score, out: &mut impl Write) -> io::Result<()> {
    if !score.notices.is_empty() {
        writeln!(out, "\nNotices:")?;
    }
    for n in &score.notices {
        let token = if n.column == 0 { String::new() } else { format!(", token {}", n.column) };
        let said = if n.number == 17 { format!(": `{}`", words::shortened(n.bytes)) } else { String::new() };
        writeln!(out, "  line {}{token}: {}{said}", n.line, ruevault::notice_reason(n.number))?;
    }
    let notes = ruevault::head(score.sheet).map_or(0, |h| h.notes);
    writeln!(
        out,
        "\n{} parts, {} bars, {} notes, {} notices. What was not read is seen only beside the text.",
        score.parts.len(),
        grouped(score.bars.into()),
        grouped(notes.into()),
        grouped(score.notices.len() as u64)
    )
}

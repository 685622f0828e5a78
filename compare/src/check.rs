//! The encoder's sheets held to the source's report: acceptance, every note by part, voice and bar, bars with their settings, names, references,
//! settings, and notices in order with location and value.
use crate::encoder;
use crate::generate::{self, Seed};
use crate::source::*;
use std::fmt::Write;
use std::process::ExitCode;

fn notice_number(reason: &str) -> u8 {
    match reason {
        "Humdrum reference record is not represented in the score model" => 1,
        "only **kern spines are imported" => 2,
        "records after every spine terminated are not imported" => 3,
        "trailing empty tab fields were ignored" => 4,
        "missing trailing interpretation fields were treated as null interpretations" => 5,
        "missing trailing barline fields were copied from identical barlines" => 6,
        "a spine added with *+ is not imported" => 7,
        other => crate::tokens::notice_number(other).unwrap_or_else(|| interpretation_notice(other)),
    }
}

/// A refusal as far as the source's message tells it: 4 and 9 are one, as are 5, 11 and 12; 3, 7 and 8 have a line, 6 a line and a count, 1 the length.
fn refused(number: u32, line: u32, figure: usize) -> String {
    match number {
        1 => format!("too large: {figure}"),
        2 => "not UTF-8".to_string(),
        3 | 7 | 8 => format!("{number} at line {line}"),
        4 | 9 => "too wide".to_string(),
        5 | 11 | 12 => "empty".to_string(),
        6 => format!("6 at line {line}: {figure}"),
        _ => "too many notes".to_string(),
    }
}

/// The same of the source's message.
fn by_message(message: &str) -> String {
    let number_behind = |word: &str| -> usize {
        let digits = message.split(word).nth(1).unwrap_or("").chars().take_while(char::is_ascii_digit).collect::<String>();
        digits.parse().unwrap_or(0)
    };
    let line = number_behind("line ") as u32;
    match () {
        _ if message.contains("exclusive") => refused(3, line, 0),
        _ if message.contains(" has ") && message.contains("active") => refused(6, line, number_behind(" has ")),
        _ if message.contains("mixes") => refused(7, line, 0),
        _ if message.contains("sub-spines") => refused(8, line, 0),
        _ if message.contains("spines") => refused(9, 0, 0),
        _ => refused(10, 0, 0),
    }
}

/// What the source says of a text, a line for each thing.
fn of_source(text: &[u8]) -> String {
    let Ok(text) = std::str::from_utf8(text) else {
        return refused(2, 0, 0);
    };
    let report = match parse_kern_with_report(text) {
        Err(acorde_io::Error::Empty) => return refused(5, 0, 0),
        Err(acorde_io::Error::TooLarge(length)) => return refused(1, 0, length),
        Err(acorde_io::Error::Xml(message)) => return by_message(&message),
        Ok(report) => report,
    };
    let mut said = String::new();
    for (p, part) in report.score.parts.iter().rev().enumerate() {
        let staff = &part.staves[0];
        writeln!(said, "part {p} {:?} {:?} {}", part.name, part.short_name, clef_number(&staff.clef)).unwrap();
        for m in &staff.measures {
            let meter = m.time_sig.as_ref().map_or((0, 0), |t| (t.numerator, t.denominator));
            let key = m.key_sig.as_ref().map(|k| (k.fifths as u8, mode_number(k)));
            let signs = (m.clef.as_ref().map_or(0, clef_number), m.time_symbol.as_ref().map_or(0, symbol_number), m.tempo.unwrap_or(0));
            writeln!(said, "bar {} {} {} {signs:?} {meter:?} {key:?}", m.number, barline_number(&m.barline_right), barline_number(&m.barline_left)).unwrap();
            for (v, notes) in m.voices.iter().enumerate() {
                for n in notes {
                    let tuplet = n.tuplet.as_ref().map_or((0, 0), |t| (t.actual_notes, t.normal_notes));
                    let flags = [n.is_rest, n.tie_start, n.tie_end, n.slur_start, n.slur_end, n.is_grace, n.is_grace && n.grace_slash];
                    let flags: u8 = flags.iter().enumerate().map(|(i, f)| u8::from(*f) << i).sum();
                    let pitches: Vec<[u8; 3]> = n.pitches.iter().map(|p| ["CDEFGAB".find(p.step.to_char()).unwrap() as u8, p.octave as u8, p.alter as u8]).collect();
                    let articulations: Vec<u8> = n.articulations.iter().map(articulation_number).collect();
                    let value = value_number(&n.duration);
                    writeln!(said, "note {v} {value} {tuplet:?} {} {flags} {} {pitches:?} {articulations:?}", n.dot_count, beam_number(&n.beam)).unwrap();
                }
            }
        }
    }
    for d in &report.diagnostics {
        let number = notice_number(d.loss_reason.as_ref().unwrap());
        writeln!(said, "notice {number} {:?} {:?}", d.source_location.as_ref().unwrap(), d.preserved_value.as_ref().unwrap()).unwrap();
    }
    let (meta, settings) = (&report.score.metadata, &report.score.settings);
    let meter = (settings.time_signature.numerator, settings.time_signature.denominator);
    let key = (settings.key_signature.fifths as u8, mode_number(&settings.key_signature));
    writeln!(said, "end {:?} {:?} {:?} {meter:?} {key:?} {}", meta.title, meta.composer, meta.lyricist, settings.tempo_bpm).unwrap();
    said
}

fn number(b: &[u8], at: usize, width: usize) -> usize {
    (0..width).map(|i| (b[at + i] as usize) << (8 * i)).sum()
}

fn span<'a>(text: &'a [u8], b: &[u8], at: usize) -> &'a str {
    let (start, len) = (number(b, at, 4), number(b, at + 4, 4));
    std::str::from_utf8(&text[start..start + len]).unwrap()
}

/// The same of a sheet, walked record by record.
fn of_sheet(text: &[u8], sheet: &[u8]) -> String {
    let parts = number(sheet, 6, 2);
    let mut notes: Vec<(usize, usize, usize, String)> = Vec::new();
    let mut bars: Vec<(usize, usize, String)> = Vec::new();
    let mut named = vec![String::new(); parts];
    let (mut notices, mut end) = (String::new(), String::new());
    let mut at = 16;
    while at < number(sheet, 8, 4) {
        let b = &sheet[at..];
        at += match b[0] {
            1 => {
                let (pitches, articulations) = (number(b, 20, 4), number(b, 24, 4));
                let list: Vec<[u8; 3]> = b[28..28 + 3 * pitches].chunks(3).map(|c| [c[0], c[1], c[2]]).collect();
                let marks = b[28 + 3 * pitches..28 + 3 * pitches + articulations].to_vec();
                let said = format!("note {} {} {:?} {} {} {} {list:?} {marks:?}\n", b[2], b[3], (b[16], b[17]), b[14], b[15], b[18]);
                notes.push((b[1] as usize, number(b, 4, 4), b[2] as usize, said));
                28 + 3 * pitches + articulations
            }
            2 => {
                let key = (b[12] == 1).then_some((b[13], b[14]));
                let signs = (b[8], b[11], number(b, 16, 2) as u16);
                let said = format!("bar {} {} {} {signs:?} {:?} {key:?}\n", number(b, 4, 4), b[2], b[3], (b[9], b[10]));
                bars.push((b[1] as usize, number(b, 4, 4), said));
                20
            }
            3 => {
                let name = if b[2] == 1 { span(text, b, 4).to_string() } else { format!("Spine {}", b[1] as usize + 1) };
                named[b[1] as usize] = format!("part {} {name:?} {:?} {}\n", b[1], span(text, b, 12), b[3]);
                20
            }
            4 => {
                let (meter, key) = ((b[4], b[5]), (b[2], b[1]));
                end = format!("end {:?} {:?} {:?} {meter:?} {key:?} {}\n", span(text, b, 8), span(text, b, 16), span(text, b, 24), number(b, 6, 2));
                32
            }
            5 => {
                let extra = if b[1] == 17 { number(b, 12, 4) } else { 0 };
                let value = if b[1] == 17 { std::str::from_utf8(&b[24..24 + extra]).unwrap() } else { span(text, b, 8) };
                let line = number(b, 4, 4);
                let place = match b[1] {
                    1 => format!("/line/{line}/reference/{}", span(text, b, 16)),
                    3..=6 => format!("/line/{line}"),
                    _ => format!("/line/{line}/spine/{}", number(b, 2, 2)),
                };
                writeln!(notices, "notice {} {place:?} {value:?}", b[1]).unwrap();
                24 + extra
            }
            kind => panic!("no record has the kind {kind}"),
        };
    }
    let mut said = String::new();
    for (p, name) in named.iter().enumerate() {
        said.push_str(name);
        for (_, bar, line) in bars.iter().filter(|b| b.0 == p) {
            said.push_str(line);
            for v in 0..4 {
                notes.iter().filter(|n| (n.0, n.1, n.2) == (p, *bar, v)).for_each(|n| said.push_str(&n.3));
            }
        }
    }
    said + &notices + &end
}

fn of_encoder(text: &[u8]) -> String {
    match encoder::sheet(text) {
        Ok(sheet) => of_sheet(text, &sheet),
        Err((number, line, figure)) => refused(number, line, figure),
    }
}

/// Whether a text has a signature over which request E7 parts from the source; such a text is not held to it.
pub fn apart(text: &[u8]) -> bool {
    let lines = text.split(|b| *b == b'\n').filter(|line| line.starts_with(b"*"));
    let mut tokens = lines.flat_map(|line| line[..line.len() - line.iter().rev().take_while(|b| **b == b'\r').count()].split(|b| *b == b'\t'));
    tokens.any(|token| std::str::from_utf8(token).is_ok_and(set_apart))
}

/// Document 01 compares no `MM` texts but digits with at most one point and at most nine digits behind it, request E7 no signatures that the
/// source takes and that are not standard.
pub fn comparable(text: &[u8]) -> bool {
    !apart(text) && text.windows(3).enumerate().filter(|(_, w)| *w == b"*MM").all(|(i, _)| {
        let token = text[i + 3..].split(|b| matches!(b, b'\t' | b'\n' | b'\r')).next().unwrap();
        let point = token.iter().position(|b| *b == b'.').unwrap_or(token.len());
        token.len() <= point + 10 && token.iter().all(|b| b.is_ascii_digit() || *b == b'.')
    })
}

/// Whether a text is refused with 17, a join over two parts or over kern and another kind, which the source takes.
pub fn mixes(text: &[u8]) -> bool {
    matches!(encoder::sheet(text), Err((17, ..)))
}

/// Whether a text has a `%` anywhere: request E3 has "only texts without `%`" compared.
pub fn has_ratios(text: &[u8]) -> bool {
    text.contains(&b'%')
}

/// Whether the encoder's sheet of a text says what the source's report says, or the text is not held to it.
pub fn agree(text: &[u8]) -> bool {
    has_ratios(text) || mixes(text) || of_encoder(text) == of_source(text) || apart(text)
}

/// Texts by a seed in turn of every kind, and how many the encoder reads otherwise than the source; the first of them is shown.
pub fn encoder(seed: u64, texts: usize) -> ExitCode {
    let mut seed = Seed(2 * seed + 1);
    let (mut accepted, mut ratios, mut unheld, mut different) = (0, 0, 0, 0);
    for i in 0..texts {
        let text = generate::kind(&mut seed, i % generate::KINDS.len());
        if has_ratios(&text) {
            ratios += 1;
            continue;
        }
        if mixes(&text) || !comparable(&text) {
            unheld += 1;
            continue;
        }
        let (ours, theirs) = (of_encoder(&text), of_source(&text));
        accepted += usize::from(ours.ends_with('\n'));
        if ours != theirs {
            different += 1;
            if different == 1 {
                println!("{}\nours:\n{ours}\nthe source:\n{theirs}", String::from_utf8_lossy(&text));
            }
        }
    }
    println!("encoder: {texts} texts, not compared {ratios} for a `%` and {unheld} for their MM, signatures or a mixed run; of the others {accepted} accepted, {different} different");
    if different == 0 { ExitCode::SUCCESS } else { ExitCode::FAILURE }
}

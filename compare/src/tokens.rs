//! Note tokens beside the published source: all short tokens over an alphabet that has every class of byte, alone and beside peers. A record with a `%`
//! is held to the encoder alone (request E3).
use crate::encoder;
use crate::leaves::{Case, strings};
use crate::source::*;

const ALPHABET: [&str; 16] = ["0", "4", ".", "c", "C", "#", "-", "n", "r", "[", "L", "J", "q", "'", "%", " "];

/// The number of a token's notice, by its wording.
pub fn notice_number(reason: &str) -> Option<u8> {
    Some(match reason {
        "rational (%) or repeated durations are outside the subset" => 16,
        "kern signifiers outside the supported subset were not imported" => 17,
        "data token has neither a pitch nor a rest" => 18,
        "reciprocal duration is outside the supported range" => 19,
        "missing reciprocal duration was inferred from aligned music spines" => 20,
        "a non-grace kern token needs a duration" => 21,
        _ => return None,
    })
}

/// What becomes of the last token of a record, all of whose columns are kern. A last record keeps a text without a note from being refused.
pub fn token(record: &str) -> Case {
    let columns = record.split('\t').count();
    let all = |token: &str| vec![token; columns].join("\t");
    let text = format!("{}\n{record}\n{}\n{}\n", all("**kern"), all("="), all("1r"));
    let answer = if record.contains('%') { of_encoder(&text, columns) } else { of_source(&text, columns) };
    Case { request: format!("T{record}").into_bytes(), answer: answer.into_bytes() }
}

/// What the encoder's sheet says of a column of line 2.
fn of_encoder(text: &str, column: usize) -> String {
    let sheet = encoder::sheet(text.as_bytes()).unwrap();
    let number = |at: usize, width: usize| (0..width).fold(0, |n, i| n + ((sheet[at + i] as usize) << (8 * i)));
    let mut answer = String::new();
    let mut at = 16;
    while at < sheet.len() {
        let b = &sheet[at..];
        at += match b[0] {
            1 => {
                let (pitches, articulations) = (number(at + 20, 4), number(at + 24, 4));
                let (list, long) = (28 + 3 * pitches, 28 + 3 * pitches + articulations);
                if (number(at + 8, 4), number(at + 12, 2)) == (2, column) {
                    answer.push_str(&format!("note {} {} {} {} {} {} {pitches} ", b[3], b[16], b[17], b[14], b[15], b[18]));
                    b[28..list].iter().for_each(|byte| answer.push_str(&format!("{byte} ")));
                    answer.push_str(&format!("{articulations} "));
                    b[list..long].iter().for_each(|byte| answer.push_str(&format!("{byte} ")));
                }
                long
            }
            2 | 3 => 20,
            4 => 32,
            _ => {
                let more = if b[1] == 17 { number(at + 12, 4) } else { 0 };
                if (number(at + 4, 4), number(at + 2, 2)) == (2, column) {
                    answer.push_str(&format!("{} ", b[1]));
                    if b[1] == 17 {
                        answer.push_str(&format!("{} ", String::from_utf8_lossy(&b[24..24 + more])));
                    }
                }
                24 + more
            }
        };
    }
    answer
}

/// What the source's report says of a column of line 2, the last one.
fn of_source(text: &str, columns: usize) -> String {
    let report = parse_kern_with_report(text).unwrap();
    let mut answer = String::new();
    let place = format!("/line/2/spine/{columns}");
    for d in report.diagnostics.iter().filter(|d| d.source_location.as_deref() == Some(&place)) {
        let number = notice_number(d.loss_reason.as_ref().unwrap()).unwrap();
        answer.push_str(&format!("{number} "));
        if number == 17 {
            answer.push_str(&format!("{} ", d.preserved_value.as_ref().unwrap()));
        }
    }
    // the highest part stands first, and a record without any note closes no bar
    let notes: Vec<_> = report.score.parts[0].staves[0].measures.iter().flat_map(|m| m.voices[0].iter()).collect();
    if notes.len() > 1 {
        let n = notes[0];
        let (actual, normal) = n.tuplet.as_ref().map_or((0, 0), |t| (t.actual_notes, t.normal_notes));
        let flags = [n.is_rest, n.tie_start, n.tie_end, n.slur_start, n.slur_end, n.is_grace, n.is_grace && n.grace_slash];
        let flags: u32 = flags.iter().enumerate().map(|(i, f)| u32::from(*f) << i).sum();
        answer.push_str(&format!("note {} {actual} {normal} {} {flags} {} {} ", value_number(&n.duration), n.dot_count, beam_number(&n.beam), n.pitches.len()));
        for p in &n.pitches {
            answer.push_str(&format!("{} {} {} ", "CDEFGAB".find(p.step.to_char()).unwrap(), p.octave, p.alter as u8));
        }
        answer.push_str(&format!("{} ", n.articulations.len()));
        for a in &n.articulations {
            answer.push_str(&format!("{} ", articulation_number(a)));
        }
    }
    answer
}

/// All tokens of up to `high` bytes over the alphabet and one unknown byte, alone; of up to three bytes beside peers.
pub fn all(high: usize) -> Vec<Case> {
    let mut alphabet = ALPHABET.to_vec();
    alphabet.push("x");
    // a token of one point is passed over before it is read
    let mut cases: Vec<Case> = strings(&alphabet, 0, high).iter().filter(|s| *s != ".").map(|s| token(s)).collect();
    let peers = ["4c\t4d", "4c\t04d", "4c", "0c\t0d", "4c\t4", "4c\t.", "4.c\t4d", "4c\t4d\t4e", "4c\t8d\t4e", "12c\t12r", "000c\t000d", "4x\t4y", "c\t4d\t4e", "4c 4e\t4d"];
    for token_text in strings(&["c", "C", "#", "-", "n", "r", "4", "x", "q", "["], 1, 3) {
        for peer in peers {
            cases.push(token(&format!("{peer}\t{token_text}")));
        }
    }
    for long in ["cccccc", "ccccccc", "CCCC", "CCCCC", "4cccccc", "4ccccccc", "4CCCC", "4CCCCC", "4cccccccd", "4cd#", "4ccccccc#", "x4c4", "4cx 8d8", "L 4c", "4c 8.d",
        "4c r", "4r c", "4rc", "8rq", "4c....", "4c_", "4r_", "4c(T)t^~;", "4c\u{e9}", "4c\u{a0}d", "00c", "000c", "99999x", "4c##n#", "4c 4e 4g", "16.cc#L", "4cQq", "4cqQ"] {
        cases.push(token(long));
    }
    cases.extend(crate::ratios::tokens());
    cases
}

/// All tokens of six bytes over ten that end and begin runs, and all of seven over six.
pub fn longer() -> Vec<Case> {
    let six = strings(&["4", ".", "c", "d", "#", "n", "r", "%", " ", "x"], 6, 6);
    let seven = strings(&["0", "c", "-", "q", " ", "C"], 7, 7);
    six.iter().chain(&seven).map(|s| token(s)).collect()
}

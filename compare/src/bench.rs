//! Times of the proved library, of the source, and of a plain pass over the same bytes.
use crate::generate::{self, Seed};
use crate::library;
use crate::source::parse_kern_with_report;
use std::hint::black_box;
use std::process::ExitCode;

const MIB: usize = 1 << 20;

/// A text of a kind: what it begins with, its records with notes in turn, and the records that follow once no more notes are allowed.
struct Kind {
    name: &'static str,
    /// Made at each size, and not by records.
    whole: Option<fn(usize) -> Vec<u8>>,
    start: String,
    /// Each with its count of notes; a text has whole turns of them.
    music: Vec<(String, usize)>,
    rest: Vec<String>,
    /// All music, so that a text is at most as long as 100,000 notes allow.
    dense: bool,
}

const NOTES: usize = 100_000;

impl Kind {
    fn text(&self, size: usize) -> Vec<u8> {
        if let Some(whole) = self.whole {
            return whole(size);
        }
        let mut text = self.start.clone();
        let (turn, notes): (String, usize) = (self.music.iter().map(|m| m.0.as_str()).collect(), self.music.iter().map(|m| m.1).sum());
        let mut met = 0;
        while met + notes <= NOTES && text.len() + turn.len() <= size {
            text.push_str(&turn);
            met += notes;
            if notes == 0 || (!self.dense && self.music.len() == 1 && notes == 1) {
                break;
            }
        }
        let turn = self.rest.concat();
        while !turn.is_empty() && text.len() + turn.len() <= size {
            text.push_str(&turn);
        }
        text.into_bytes()
    }
}

fn row(token: &str, times: usize) -> String {
    vec![token; times].join("\t") + "\n"
}

fn by_records(name: &'static str, start: &str, music: &[(&str, usize)], rest: &[&str]) -> Kind {
    Kind { name, whole: None, start: start.to_string(), music: music.iter().map(|(m, n)| (m.to_string(), *n)).collect(), rest: rest.iter().map(|r| r.to_string()).collect(), dense: rest.is_empty() }
}

fn by_size(name: &'static str, whole: fn(usize) -> Vec<u8>) -> Kind {
    Kind { name, whole: Some(whole), start: String::new(), music: Vec::new(), rest: Vec::new(), dense: false }
}

/// `start`, then `unit` as often as it fits, then `end`.
fn filled(start: &str, unit: &str, end: &str, size: usize) -> Vec<u8> {
    let times = (size - start.len() - end.len()) / unit.len();
    [start, &unit.repeat(times), end].concat().into_bytes()
}

/// Generated music: the header of the first text of a kind, and the records between the settings and the end of many, each by its own seed.
fn generated(kind: usize, size: usize) -> Vec<u8> {
    let mut seed = Seed(4711);
    let mut text: Vec<u8> = Vec::new();
    loop {
        let piece = generate::kind(&mut seed, kind);
        let header = piece.split(|b| *b == b'\n').position(|l| l.starts_with(b"**")).unwrap();
        let mut lines: Vec<&[u8]> = piece.split(|b| *b == b'\n').collect();
        // all paths are joined and ended by the last record, which is left out
        lines.pop();
        if !text.is_empty() {
            lines.drain(..=header);
        }
        let more = lines.join(&b'\n');
        if text.len() + more.len() + 1 > size {
            return text;
        }
        text.extend(more);
        text.push(b'\n');
    }
}

/// Four columns of tokens that are drawn, each record of one length, a barline behind every eighth.
fn drawn(size: usize, token: fn(&mut Seed, &str) -> String) -> Vec<u8> {
    let mut seed = Seed(4712);
    let mut text = row("**kern", 4);
    for k in 1.. {
        let length = seed.pick(&["4", "8", "16", "2", "4.", "8."]);
        let mut more = (0..4).map(|_| token(&mut seed, length)).collect::<Vec<_>>().join("\t") + "\n";
        if k % 8 == 0 {
            more.push_str(&row("=", 4));
        }
        if text.len() + more.len() > size {
            break;
        }
        text.push_str(&more);
    }
    text.into_bytes()
}

fn kinds() -> Vec<Kind> {
    let four = "!!!COM: Bach, Johann Sebastian\n!!!OTL: Chorale\n**kern\t**kern\t**kern\t**kern\n*I\"Bass\t*I\"Tenor\t*I\"Alto\t*I\"Soprano\n*clefF4\t*clefGv2\t*clefG2\t*clefG2\n*k[b-e-]\t*k[b-e-]\t*k[b-e-]\t*k[b-e-]\n*M4/4\t*M4/4\t*M4/4\t*M4/4\n";
    let chorale = [
        ("4GG\t4d\t4g\t4b-\n8AAL\t8dL\t4f#\t4a\n8BB-J\t8e-J\t.\t.\n", 10), ("8.CL\t4e-\t8gL\t4.cc\n16DJk\t.\t8fJ\t.\n4E-\t8cL\t4g\t.\n.\t8dJ\t.\t8b-\n", 11), ("=2\t=2\t=2\t=2\n", 0),
        ("4D;\t4f#;\t4a;\t4dd;\n[4GG\t2d\t4g 4b-\t(8ddL\n.\t.\t.\t8ccJ)\n4GG]\t.\t4f#X\t4a\n", 12), ("2GG\t2d\t2g\t2b-\n2r\t2r\t2r\t2r\n=3\t=3\t=3\t=3\n", 8),
    ];
    let nulls = [".\t.\t.\t.\n", ".\t.\t.\t.\n", ".\t.\t.\t.\n", ".\t.\t.\t.\n", "=4\t=4\t=4\t=4\n"];
    let two = "!!!OTL: Sonata\n**kern\t**kern\t**dynam\n*staff2\t*staff1\t*staff1/2\n*clefF4\t*clefG2\t*\n*k[f#]\t*k[f#]\t*\n*M3/4\t*M3/4\t*\n";
    let piano = [
        ("4GG 4G\t8.ddL\tp\n.\t16ccJk\t.\n*\t*^\t*\n4D 4F#\t4a\t8ddL\tf\n.\t.\t8ee-J\t.\n2r\t4b-\t(4gg)'\t.\n*^\t*\t*\t*\n", 11), ("4D\t4GG\t4b\t4gg#\t.\n8CL\t2GG\t8aL\t4ff#\t<\n8DJ\t.\t8gJ\t.\t.\n*\t*\t*v\t*v\t*\n", 11),
        ("16EL\t4GG\t4g 4b 4dd\t[\n16F#\t.\t.\t.\n16G\t.\t.\t.\n16AJ\t.\t.\t.\n*v\t*v\t*\t*\n=\t=\t=\n", 6),
    ];
    let piano_rest = [".\t.\t.\n", "*\t*^\t*\n", ".\t.\t.\tp\n", ".\t.\t.\t.\n", "*^\t*\t*\t*\n", ".\t.\t.\t.\t.\n", "*\t*\t*v\t*v\t*\n", ".\t.\t.\t.\n", "*v\t*v\t*\t*\n", "=\t=\t=\n"];
    let one = format!("**kern\t**kern\t**kern\t**kern\n{}", row("4c", 4));
    let wide = row("**kern", 256);
    let half = |first: &str, other: &str| [vec![first; 128], vec![other; 128]].concat().join("\t") + "\n";
    let half_bare = (half("4c", "e-"), half("4x", "e-"));
    // the last neighbour disagrees, so that all are looked at and no note comes
    let one_bare = [vec!["e"], vec!["4x"; 254], vec!["8x"]].concat().join("\t") + "\n";
    let paths = [row("*^", 128), row(".", 256), vec!["*v\t*v\t*\t*"; 64].join("\t") + "\n", row(".", 192), vec!["*\t*v\t*v"; 64].join("\t") + "\n", row(".", 128)];
    let path_texts: Vec<&str> = paths.iter().map(String::as_str).collect();
    let comment = "!! Edited from the first edition; slurs in brackets are editorial.\n";
    vec![
        Kind { dense: true, ..by_size("generated chorales, all music", |n| generated(1, n)) },
        Kind { dense: true, ..by_size("engraved chorales, all music", |n| generated(9, n)) },
        Kind { dense: true, ..by_size("drawn pitches, all music", |n| drawn(n, |seed, length| format!("{length}{}", seed.pick(&generate::PITCHES)))) },
        Kind { dense: true, ..by_size("drawn chords, all music", |n| drawn(n, |seed, length| format!("{length}{} {length}{}", seed.pick(&generate::PITCHES), seed.pick(&generate::PITCHES)))) },
        by_records("chorale, all music", four, &chorale, &[]),
        by_records("piano with sub-spines, all music", two, &piano, &[]),
        // the source has notices 16 for them
        by_records("ratios, all music", "**kern\t**kern\t**kern\t**kern\n", &[("3%2GG\t3%2d\t3%2g\t3%2b-\n3%4AA\t3%4d\t3%4f#\t3%4a\n1BB-\t1e-\t1g\t1cc\n=\t=\t=\t=\n", 12)], &[]),
        by_records("256 columns, all music", &wide, &[(&(row("8cL", 256) + &row("8dJ", 256) + &row("=", 256)), 512)], &[]),
        by_records("bare pitches, all music", "**kern\t**kern\t**kern\t**kern\n", &[("4GG\t4d\tg\t4b-\n8AA\t8d\t8f#\ta\nBB-\t2e-\t2g\t2cc\n=\t=\t=\t=\n", 12)], &[]),
        by_records("chorale, then nulls and bars", four, &chorale, &nulls),
        by_records("piano with sub-spines, then nulls", two, &piano, &piano_rest),
        by_records("256 columns, then nulls", &wide, &[(&(row("8cL", 256) + &row("8dJ", 256) + &row("=", 256)), 512)], &[&row(".", 256)]),
        by_records("256 columns, splits and joins", &(row("**kern", 128) + &row("4c", 128)), &[], &path_texts),
        by_records("bare pitches, then nulls", "**kern\t**kern\t**kern\t**kern\n", &[("4GG\t4d\tg\t4b-\n8AA\t8d\t8f#\ta\nBB-\t2e-\t2g\t2cc\n=\t=\t=\t=\n", 12)], &nulls),
        by_records("bare pitches without a length", &one, &[], &["GG\td\tg\tb-\n", "AA\td#\tf#\ta\n", "=\t=\t=\t=\n"]),
        by_records("256 columns, one bare", &(wide.clone() + &row("4c", 256)), &[], &[&one_bare]),
        by_records("256 columns, half bare", &wide, &[(&half_bare.0, 128)], &[&half_bare.1]),
        by_records("many notices", &one, &[], &["4x\t4h\t8w\t.\n", "*foo\t*bar\t*MMx\t*\n", "4c%3\t256c\tc\t4\n", "!!!XYZ: q\n"]),
        by_records("interpretations", &one, &[], &["=\t=\t=\t=\n", "*clefG2\t*clefF4\t*clefC3\t*\n", "*k[f#c#]\t*k[b-]\t*k[]\t*\n", "*M3/4\t*M12/8\t*M4/4\t*met(c)\n", "*MM96\t*I\"Violin\t*e:\t*I'Vl.\n"]),
        by_records("mostly comments", "**kern\t**kern\t**kern\t**kern\n", &[(&(comment.repeat(4) + "8c\t8d\t8e\t8f\n"), 4)], &[comment, comment, comment, comment, ".\t.\t.\t.\n"]),
        by_records("comments of two-byte letters", &one, &[], &["!! \u{3c3}\u{3b7}\u{3bc}\u{3b5}\u{3b9}\u{3ce}\u{3c3}\u{3b5}\u{3b9}\u{3c2} \u{3c4}\u{3bf}\u{3c5} \u{3b5}\u{3ba}\u{3b4}\u{3cc}\u{3c4}\u{3b7}\n"]),
        by_records("references", &one, &[], &["!!!OTL: A title of some length, with   \n", "!!!COM@@DE:  Bach \n"]),
        by_records("empty lines", &one, &[], &["\n", "\r\n", "\n", "\n"]),
        by_size("one comment", |n| filled("**kern\n4c\n!", "x", "\n", n)),
        by_size("one chord", |n| filled("**kern\n4c", " e-", "\n", n)),
        by_size("one token of signs", |n| filled("**kern\n4c", "#", "\n", n)),
        by_size("one token of letters not imported", |n| filled("**kern\n4c", "x", "\n", n)),
        by_size("one token of marks", |n| filled("**kern\n4c", "'", "\n", n)),
        by_size("one record of empty fields", |n| filled("**kern\n4c", "\t", "\n", n)),
        by_size("records of 1,000 empty fields", |n| filled("**kern\n4c\n", &(".".to_string() + &"\t".repeat(1000) + "\n"), "", n)),
        by_size("refused at line 1 (3)", |n| filled("kern\n", "4c\n", "", n)),
        by_size("refused at note 100,001 (10)", |n| filled("**kern\t**kern\n", "4c\t8d\n", "", n)),
        by_size("refused at the last line (6)", |n| filled("**kern\t**kern\n4c\t4d\n", ".\t.\n", "4c\n", n)),
    ]
}

/// Best times of a text, in seconds: the library, the library on an empty buffer (which measures and doesn't write), the source, a pass, and
/// the standard library's look at UTF-8, which the source takes for granted.
struct Times {
    reader: f64,
    measuring: f64,
    source: f64,
    pass: f64,
    utf8: f64,
    number: u32,
    notes: usize,
    sheet: u64,
}

unsafe extern "C" {
    fn clock_gettime(clock: i32, time: *mut [i64; 2]) -> i32;
}

/// The processor time of this thread, in seconds: what else the machine does in between doesn't count.
fn now() -> f64 {
    let mut time = [0; 2];
    assert_eq!(unsafe { clock_gettime(3, &mut time) }, 0);
    time[0] as f64 + time[1] as f64 / 1e9
}

fn timed<T>(best: &mut f64, work: impl FnOnce() -> T) -> T {
    let start = now();
    let made = black_box(work());
    *best = best.min(now() - start);
    made
}

fn lines(text: &[u8]) -> usize {
    let mut count = 0;
    for b in text {
        if *b == b'\n' {
            count += 1;
        }
    }
    count
}

fn times(text: &[u8], buffer: &mut Vec<u8>) -> Times {
    let valid = std::str::from_utf8(text).unwrap();
    let (_, need) = library::read(text, &mut []);
    if need[0] == 13 && buffer.len() < need[2] as usize {
        // written once, so that its pages are there
        buffer.clear();
        buffer.resize(need[2] as usize, 0xa5);
    }
    let mut t = Times { reader: f64::MAX, measuring: f64::MAX, source: f64::MAX, pass: f64::MAX, utf8: f64::MAX, number: 0, notes: 0, sheet: 0 };
    let runs = if text.len() > 16 * MIB { 3 } else if text.len() > 2 * MIB { 5 } else { 15 };
    let begun = now();
    for run in 0..runs {
        if run >= 3 && now() - begun > 2.0 {
            break;
        }
        let (number, answer) = timed(&mut t.reader, || library::read(black_box(text), buffer));
        let report = timed(&mut t.source, || parse_kern_with_report(black_box(valid)));
        timed(&mut t.measuring, || library::read(black_box(text), &mut []));
        timed(&mut t.pass, || lines(black_box(text)));
        timed(&mut t.utf8, || std::str::from_utf8(black_box(text)).is_ok());
        assert_eq!(number == 0, report.is_ok());
        t.number = number;
        if number == 0 {
            t.sheet = answer[2];
            t.notes = u32::from_le_bytes(buffer[12..16].try_into().unwrap()) as usize;
        }
    }
    t
}

/// A table over the kinds whose name has this in it.
pub fn all(part: &str) -> ExitCode {
    let mut buffer = vec![0xa5; MIB];
    println!("| kind | bytes | notes | sheet | reader ms | measuring ms | source ms | pass ms | UTF-8 ms | reader MB/s | source : reader | reader : pass | reader, 2n : n |");
    println!("|---|--:|--:|--:|--:|--:|--:|--:|--:|--:|--:|--:|--:|");
    for kind in kinds().iter().filter(|k| k.name.contains(part)) {
        let sizes = if kind.dense { vec![MIB / 16, MIB / 8, MIB / 4, 3 * MIB / 8] } else if kind.name.contains("half bare") { vec![MIB, 2 * MIB] } else { vec![MIB, 8 * MIB, 64 * MIB] };
        for size in sizes {
            let text = kind.text(size);
            let t = times(&text, &mut buffer);
            let half = times(&kind.text(size / 2), &mut buffer);
            assert_eq!(t.number == 0, !kind.name.starts_with("refused"), "{}: {}", kind.name, t.number);
            let what = if t.number == 0 { format!("{} | {}", t.notes, t.sheet) } else { format!("refused | {}", t.number) };
            let rate = text.len() as f64 / t.reader / 1e6;
            let ms = [t.reader, t.measuring, t.source, t.pass, t.utf8].map(|s| format!("{:.3}", s * 1e3)).join(" | ");
            println!("| {} | {} | {what} | {ms} | {rate:.0} | {:.2} | {:.1} | {:.2} |", kind.name, text.len(), t.source / t.reader, t.reader / t.pass, t.reader / half.reader);
        }
    }
    ExitCode::SUCCESS
}

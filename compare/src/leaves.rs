//! The leaves of the reader beside the published source. The leaves are private there, so each is reached by a small text
//! through `parse_kern_with_report`; ours are asked through the program `leaves`, a request to a line.
use crate::source::*;

/// A request to the program, without its line feed, and the answer that the source gives, or a request of document 02 where it parts from the source.
pub struct Case {
    pub request: Vec<u8>,
    pub answer: Vec<u8>,
}

fn case(kind: u8, body: &[u8], answer: String) -> Case {
    let mut request = vec![kind];
    request.extend_from_slice(body);
    Case { request, answer: answer.into_bytes() }
}

/// All strings over an alphabet of `low` to `high` characters.
pub fn strings(alphabet: &[&str], low: usize, high: usize) -> Vec<String> {
    let mut all = Vec::new();
    let mut level = vec![String::new()];
    for length in 0..=high {
        if length >= low {
            all.extend(level.iter().cloned());
        }
        level = level.iter().flat_map(|s| alphabet.iter().map(move |a| format!("{s}{a}"))).collect();
    }
    all
}

fn read(text: &str) -> Option<ImportReport> {
    parse_kern_with_report(text).ok()
}

/// D: digits, to value, actual, normal, or `-`.
fn duration(digits: &str) -> Case {
    let answer = match read(&format!("**kern\n{digits}c\n")) {
        Some(report) => {
            let note = notes(&report)[0].clone();
            let (actual, normal) = note.tuplet.map_or((0, 0), |t| (t.actual_notes, t.normal_notes));
            format!("{} {actual} {normal}", value_number(&note.duration))
        }
        None => "-".to_string(),
    };
    case(b'D', digits.as_bytes(), answer)
}

/// P: a run of one letter, to step and octave, or `-`.
fn pitch(run: &str) -> Case {
    let answer = match read(&format!("**kern\n4{run}\n")) {
        Some(report) => {
            let pitch = notes(&report)[0].pitches[0].clone();
            format!("{} {}", "CDEFGAB".find(pitch.step.to_char()).unwrap(), pitch.octave)
        }
        None => "-".to_string(),
    };
    case(b'P', run.as_bytes(), answer)
}

/// A: signs, to the alteration's byte.
fn alteration(signs: &str) -> Case {
    let report = read(&format!("**kern\n4c{signs}\n")).unwrap();
    let answer = format!("{}", notes(&report)[0].pitches[0].alter as u8);
    case(b'A', signs.as_bytes(), answer)
}

/// B: the deciding token of a bar record, to right and left.
fn barline(token: &str) -> Case {
    let report = read(&format!("**text\t**kern\n.\t4c\n=\t{token}\n.\t4d\n")).unwrap();
    let bars = measures(&report);
    let answer = format!("{} {}", barline_number(&bars[0].barline_right), barline_number(&bars[1].barline_left));
    case(b'B', token.as_bytes(), answer)
}

/// M: note tokens with blanks between, one voice, to the notes' beams.
fn beams(tokens: &str) -> Case {
    let report = read(&format!("**kern\n{}\n", tokens.replace(' ', "\n"))).unwrap();
    let marks: Vec<String> = notes(&report).iter().map(|n| beam_number(&n.beam).to_string()).collect();
    case(b'M', tokens.as_bytes(), marks.join(" "))
}

/// I, J: an interpretation, with no note in the bar and after one. What it set is read off the second bar, which has nothing filled
/// in; a mode, which shows only in a key, off the key after either mode.
fn interpretation(token: &str, noted: bool) -> Case {
    let note = if noted { "4c\n" } else { "" };
    let under = |key: &str| read(&format!("**kern\n4c\n=\n{key}\n*k[]\n{note}{token}\n4d\n")).unwrap();
    let (major, minor) = (under("*C:"), under("*c:"));
    let plain = read(&format!("**kern\n4c\n=\n{note}{token}\n4d\n")).unwrap();
    let bar = &measures(&plain)[1];
    let modes = [&major, &minor].map(|r| measures(r)[1].key_sig.as_ref().map_or(0, mode_number));
    let part = &plain.score.parts[0];
    let answer = if let Some(d) = plain.diagnostics.first() {
        format!("9 {}", interpretation_notice(d.loss_reason.as_ref().unwrap()))
    } else if let Some(c) = &bar.clef {
        format!("1 {}", clef_number(c))
    } else if let Some(k) = &bar.key_sig {
        format!("2 {}", k.fifths as u8)
    } else if let Some(t) = &bar.time_sig {
        format!("3 {} {}", t.numerator, t.denominator)
    } else if let Some(s) = &bar.time_symbol {
        format!("4 {}", symbol_number(s))
    } else if let Some(t) = bar.tempo {
        format!("5 {t}")
    } else if part.name != "Spine 1" {
        format!("6 {}", part.name)
    } else if !part.short_name.is_empty() {
        format!("7 {}", part.short_name)
    } else if modes[0] == modes[1] {
        format!("8 {}", modes[0])
    } else {
        "0".to_string()
    };
    case(if noted { b'J' } else { b'I' }, token.as_bytes(), answer)
}

/// Whether a token is a tempo of the form that document 01 reads; other `MM` texts are not compared.
fn compared(token: &str) -> bool {
    let Some(text) = token.strip_prefix("*MM") else {
        return true;
    };
    let points = text.matches('.').count();
    let after = text.split_once('.').map_or(0, |(_, after)| after.len());
    text.bytes().all(|b| b.is_ascii_digit() || b == b'.')
        && points <= 1
        && text.len() > points
        && after <= 9
}

/// R: what stands behind `!!!`, to the field (1 title, 2 composer, 3 lyricist, 0 other), the other key, and the value.
fn reference(record: &str) -> Case {
    let report = read(&format!("!!!{record}\n**kern\n4c\n")).unwrap();
    let meta = &report.score.metadata;
    let key = record.split_once(':').map_or(record, |(key, _)| key).trim();
    let answer = match key {
        "OTL" => format!("1 |{}", meta.title),
        "COM" => format!("2 |{}", meta.composer),
        "LYR" => format!("3 |{}", meta.lyricist),
        _ => {
            let notice = &report.diagnostics[0];
            let location = notice.source_location.as_ref().unwrap();
            format!("0 {}|{}", location.strip_prefix("/line/1/reference/").unwrap(), notice.preserved_value.as_ref().unwrap())
        }
    };
    case(b'R', record.as_bytes(), answer)
}

/// U: bytes, to the length of their longest well-formed part from the start, as Rust's own decoder has it.
fn utf8(bytes: &[u8]) -> Case {
    let length = std::str::from_utf8(bytes).map_or_else(|e| e.valid_up_to(), str::len);
    case(b'U', bytes, length.to_string())
}

/// N: a notice's number, to its code and reason, from a text that gives it.
fn notices() -> Vec<Case> {
    let texts = [
        "!!!XYZ\n**kern\n4c\n", "**kern\t**text\n4c\t.\n", "**kern\n4c\n*-\n4c\n", "**kern\n4c\t\n", "**kern\t**kern\n*\n4c\t4c\n",
        "**kern\t**kern\t**kern\n=\t=\n4c\t.\t.\n", "**kern\n*+\n4c\t.\n", "**kern\n4c\n*clefG2\n", "**kern\n*clefQ\n4c\n", "**kern\n*k[\n4c\n",
        "**kern\n*k[##]\n4c\n", "**kern\n*M4\n4c\n", "**kern\n*met(o)\n4c\n", "**kern\n*MM0\n4c\n", "**kern\n*xyz\n4c\n", "**kern\n4%3c\n4c\n",
        "**kern\n4cx\n", "**kern\n4\n4c\n", "**kern\n999c\n4c\n", "**kern\t**kern\t**kern\n4c\t4c\tc\n", "**kern\nc\n4c\n",
    ];
    let mut cases = Vec::new();
    for (index, text) in texts.iter().enumerate() {
        let report = read(text).unwrap();
        assert_eq!(report.diagnostics.len(), 1, "{text:?}");
        let notice = &report.diagnostics[0];
        let answer = format!("{}|{}", notice.code, notice.loss_reason.as_ref().unwrap());
        cases.push(case(b'N', (index + 1).to_string().as_bytes(), answer));
    }
    cases
}

/// S: a part's number from 0, to the name it has where none is given.
fn names() -> Vec<Case> {
    let text = format!("{}\n{}\n", ["**kern"; 256].join("\t"), ["4c"; 256].join("\t"));
    let report = read(&text).unwrap();
    (0..256).map(|part| case(b'S', part.to_string().as_bytes(), report.score.parts[255 - part].name.clone())).collect()
}

fn all_references() -> Vec<Case> {
    let white = [
        "\t", "\u{b}", "\u{c}", " ", "\u{85}", "\u{a0}", "\u{1680}", "\u{2000}", "\u{200a}", "\u{2028}", "\u{2029}", "\u{202f}", "\u{205f}",
        "\u{3000}", "\u{200b}", "\u{feff}", "\u{2001}", "\u{2005}", "\u{180e}", "\u{84}", "\u{9f}", "\u{e}", "\u{8}", "\r", "\u{2027}", "\u{202a}",
    ];
    let mut cases = Vec::new();
    for key in ["OTL", "COM", "LYR", "OTL@DE", "!OTL", "", "X Y", "otl", "OT", "OTLL"] {
        for w in white {
            for body in [format!("{w}{key}{w}:{w}a{w}b{w}"), format!("{key}{w}"), format!("{w}{w}{key}: {w}"), format!("{key}:a:b{w} {w}")] {
                // a line's trailing CRs are no part of it
                cases.push(reference(body.trim_end_matches('\r')));
            }
        }
    }
    cases.extend(strings(&["O", "T", "L", ":", " "], 0, 5).iter().map(|s| reference(s)));
    cases
}

/// Signatures around the standard ones: each with one byte more, less or other, or in upper case; and steps in any order.
fn signatures() -> Vec<String> {
    let mut all = strings(&["f#", "c#", "g#", "F#", "b-", "e-", "a-", "]"], 0, 4);
    for standard in standard_signatures() {
        for at in 0..=standard.len() {
            let (before, behind) = standard.split_at(at);
            let rest = behind.get(1..).unwrap_or("");
            all.push(format!("{before}{rest}"));
            for byte in "abcdefgB#-n ".chars() {
                all.extend([format!("{before}{byte}{rest}"), format!("{before}{byte}{behind}")]);
            }
        }
        all.extend([standard.to_uppercase(), standard]);
    }
    all
}

/// Interpretations with the source's answers; behind them the signatures that the source takes and request E7 doesn't, with its notice 11.
fn all_interpretations() -> (Vec<Case>, Vec<Case>) {
    let mut tokens: Vec<String> = signatures().iter().map(|s| format!("*k[{s}]")).collect();
    let mut add = |prefix: &str, alphabet: &[&str], high: usize| {
        tokens.extend(strings(alphabet, 0, high).iter().map(|s| format!("{prefix}{s}")));
    };
    add("*M", &["0", "1", "5", ".", "/", "+"], 5);
    add("*MM", &["0", "1", "5", ".", "/", "+"], 5);
    add("*MM6553", &["4", "5", "6", ".", "0", "9"], 3);
    add("*M2", &["4", "5", "6", "/", "8", "0"], 4);
    add("*M3/", &["1", "2", "4", "6", "8", "0", "+"], 4);
    add("*clef", &["G", "F", "C", "X", "v", "^", "1", "2", "3", "4", "5"], 3);
    add("*k[", &["f", "#", "-", "]", "\u{e9}"], 5);
    add("*k[", &["f#", "b-", "]", "c"], 6);
    add("*", &["a", "g", "h", "A", ":", "#"], 5);
    add("*met(", &["c", "|", ")", "o"], 4);
    add("*I", &["\"", "'", "a", " "], 3);
    add("*", &["clef", "G2", "k[", "]", "M", "MM", "4", "/", "met(", "c)", "I\"", ":"], 3);
    for tail in ["1", "0", "60", "000000000000000000000000000060", "119.5", "119.49", "119.499999999", "65534.5", "65535", "65535.0", "65535.1",
        "65535.000000001", "65535.000000000", "0.9", "0.999999999", "1.0", "1.", ".5", "0.5", "99999999999999999999", "65536", "70000"] {
        tokens.push(format!("*MM{tail}"));
    }
    for tail in ["G:", "e:", "b-:", "B-:", "g\u{e9}:", "g\u{e9}\u{e9}:", "f##:", "f###:", ":", "h:", "*kern"] {
        tokens.push(format!("*{tail}"));
    }
    // document 01's lines that are not marked P, and both edges of rules
    for token in ["*M4/+4", "*M0/4", "*M255/128", "*M4/3", "*M004/08", "*M+4/4", "*abcd:"] {
        tokens.push(token.to_string());
    }
    tokens.sort();
    tokens.dedup();
    let path = ["*^", "*v", "*x", "*-", "*+"];
    tokens.retain(|t| !path.contains(&t.as_str()) && compared(t) && t != "*I'");
    let (apart, held): (Vec<String>, Vec<String>) = tokens.into_iter().partition(|t| set_apart(t));
    let held = held.iter().flat_map(|t| [interpretation(t, false), interpretation(t, true)]).collect();
    (held, apart.iter().flat_map(|t| [case(b'I', t.as_bytes(), "9 11".to_string()), interpretation(t, true)]).collect())
}

fn all_pitches() -> Vec<Case> {
    let mut cases = Vec::new();
    for letter in "abcdefgABCDEFG".chars() {
        for count in (1..=8).chain([9, 20, 127, 128, 129, 255, 256, 300]) {
            cases.push(pitch(&letter.to_string().repeat(count)));
        }
    }
    cases
}

fn all_alterations() -> Vec<Case> {
    let mut cases: Vec<Case> = strings(&["#", "-", "n"], 0, 6).iter().map(|s| alteration(s)).collect();
    for count in [100, 126, 127, 128, 129, 130, 255, 256, 257, 300] {
        for tail in ["", "-", "#", "n", "n#", "--", "##"] {
            for sign in ["#", "-"] {
                cases.push(alteration(&format!("{}{tail}", sign.repeat(count))));
            }
        }
    }
    cases
}

fn all_beams() -> Vec<Case> {
    strings(&["8c ", "8cL ", "8cJ ", "8cLJ ", "8c 8eL ", "8c 8eJL "], 1, 4)
        .iter()
        // a chord's blank would be a token's end in a request
        .filter(|s| !s.contains(" 8e"))
        .map(|s| beams(s.trim_end()))
        .collect()
}

fn all_utf8() -> Vec<Case> {
    let bytes = [0x00u8, 0x41, 0x7f, 0x80, 0x8f, 0x90, 0x9f, 0xa0, 0xbf, 0xc0, 0xc1, 0xc2, 0xdf, 0xe0, 0xe1, 0xec, 0xed, 0xee, 0xef, 0xf0, 0xf1, 0xf3, 0xf4, 0xf5, 0xff];
    let mut level: Vec<Vec<u8>> = vec![Vec::new()];
    let mut cases = Vec::new();
    for _ in 0..3 {
        level = level.iter().flat_map(|s| bytes.iter().map(move |b| [s.as_slice(), &[*b]].concat())).collect();
        cases.extend(level.iter().map(|s| utf8(s)));
    }
    for lead in [0xe0u8, 0xed, 0xf0, 0xf1, 0xf4] {
        for a in bytes {
            for b in bytes {
                for c in bytes {
                    cases.push(utf8(&[b'a', lead, a, b, c, b'z']));
                }
            }
        }
    }
    // long runs of plain bytes before and behind, around every block size
    for before in 0..40 {
        for middle in ["\u{e9}", "\u{20ac}", "\u{1f3b5}", ""] {
            let text = [vec![b'x'; before], middle.as_bytes().to_vec(), vec![b'y'; 40 - before]].concat();
            cases.push(utf8(&text));
            cases.push(utf8(&[text.as_slice(), &[0x80]].concat()));
            cases.push(utf8(&text[..text.len().min(before + 1)]));
        }
    }
    cases
}

/// Every case, leaf after leaf, with the leaf's name.
pub fn all() -> Vec<(&'static str, Vec<Case>)> {
    let (held, apart) = all_interpretations();
    let digits: Vec<&str> = vec!["0", "1", "2", "3", "4", "5", "6", "7", "8", "9"];
    vec![
        ("UTF-8", all_utf8()),
        ("references", all_references()),
        ("durations", strings(&digits, 1, 5).iter().map(|s| duration(s)).collect()),
        ("ratios by request E3", crate::ratios::lengths()),
        ("pitches", all_pitches()),
        ("alterations", all_alterations()),
        ("beams", all_beams()),
        ("barlines", strings(&["=", "|", ":", "!", "-"], 0, 5).iter().map(|s| barline(s)).collect()),
        ("interpretations", held),
        ("signatures by request E7", apart),
        ("notices", notices()),
        ("names", names()),
        ("holes", crate::gaps::cases()),
    ]
}

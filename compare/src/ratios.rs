//! Request E3: a row for each way in which a ratio is spelled or missed, and for what neighbours make of one. The answers are written by hand from the
//! request's words: the notices, 17 with its bytes, and value, actual, normal and dots of the note.
use crate::encoder;
use crate::leaves::Case;
use crate::tokens;

/// A token under one part.
pub const ROWS: [(&str, &str); 60] = [
    ("3%2c", "note 2 3 2 0"), ("3%2r", "note 2 3 2 0"), ("3%2cq", "note 2 3 2 0"), ("3%2.c", "note 2 3 2 1"), ("[3%2c", "note 2 3 2 0"), (" 3%2c", "note 2 3 2 0"), ("c3%2", "note 2 3 2 0"),
    ("03%2c", "note 2 3 2 0"), ("0003%0002c", "note 2 3 2 0"),
    // none at 1 to 1
    ("4%2c", "note 3 0 0 0"), ("1%4c", "note 0 0 0 0"), ("255%255c", "note 2 0 0 0"), ("4%1c", "note 4 0 0 0"), ("5%1c", "note 4 5 4 0"), ("255%1c", "note 9 255 128 0"),
    // the smallest of the ten that is not below
    ("2%3c", "note 1 4 3 0"), ("255%2c", "note 8 255 128 0"), ("255%254c", "note 2 255 254 0"), ("254%255c", "19"), ("128%255c", "19"), ("63%252c", "note 0 0 0 0"), ("64%255c", "19"), ("128%129c", "19"), ("127%255c", "19"),
    // above 4, and outside the range
    ("1%5c", "19"), ("63%253c", "19"), ("0%2c", "19"), ("00%2c", "19"), ("3%0c", "19"), ("3%00c", "19"), ("256%3c", "19"), ("3%256c", "19"), ("00003%2c", "19"), ("3%00002c", "19"), ("300%2cq", "19"),
    // further digits or `%` in its sub-token, and `%` without a number on either side
    ("3%2%c", "16"), ("3%2c4", "16"), ("3%2c%", "16"), ("3%2%5c", "16"), ("3.%2c", "16"), ("4%c", "16"), ("4%", "16"), ("3%%2c", "16"), ("4c3%2", "16"), ("300%2c%", "16"),
    ("%3c", "17 % note 3 3 2 0"), ("%3%2c", "17 % note 2 3 2 0"), ("4c%", "17 % note 4 0 0 0"), ("3 %2c", "17 % note 3 3 2 0"),
    // other sub-tokens
    ("4c 3%2e", "16"), ("3%2c 3%2e", "16"), ("3%2c e4%3", "16"), ("c 3%2e", "16"), ("3%2c 4e", "note 2 3 2 0"), ("3%2c e", "note 2 3 2 0"), ("3%2c e%", "17 % note 2 3 2 0"),
    // with what else is wrong
    ("300%2x", "17 x 18"), ("300%2cx", "17 x 19"), ("3%2x", "17 x 18"), ("3%2", "18"),
];

/// Three tokens and a bare pitch.
pub const NEIGHBOURS: [(&str, &str); 26] = [
    ("3%2c\t3%2e\t3%2a\tg", "20 note 2 3 2 0"), ("6%4c\t6%4e\t6%4a\tg", "20 note 2 3 2 0"), ("4%1c\t4%1e\t4%1r\tg", "20 note 4 0 0 0"), ("03%2c\t03%2e\t03%2a\tgn", "20 note 2 3 2 0"),
    // by its spelling, not by its worth
    ("03%2c\t3%2e\t3%2a\tg", "21"), ("6%4c\t3%2e\t3%2a\tg", "21"), ("3%2c\t3%2e\t6%4a\tg", "21"), ("4%1c\t4e\t4a\tg", "21"), ("4c\t4e\t4%1a\tg", "21"), ("3c\t3e\t3%2a\tg", "21"), ("3%2c\t3%2e\t3a\tg", "21"), ("3%2c\t3%2e\t3%25a\tg", "21"),
    ("3%25c\t3%25e\t3%2a\tg", "21"),
    // what offers nothing
    ("3%2.c\t3%2e\t3%2a\tg", "21"), ("3%2\t3%2e\t3%2a\tg", "21"), ("5%300c\t3%2e\t3%2a\tg", "21"), ("1%5c\t3%2e\t3%2a\tg", "21"), ("3%2%c\t3%2e\t3%2a\tg", "21"), ("3%2c%\t3%2e\t3%2a\tg", "21"), ("4%c\t3%2e\t3%2a\tg", "21"),
    ("c3%2\t3%2e\t3%2a\tg", "21"), (" 3%2c\t3%2e\t3%2a\tg", "21"), ("3%2c 4e\t3%2e\t3%2a\tg", "21"), ("300%2c\t300%2e\t300%2a\tg", "21"),
    // as `4c4` offers `4`
    ("3%2c4\t3%2e\t3%2a\tg", "20 note 2 3 2 0"), ("3%2e\t3%2a\t3%2c4\tg", "20 note 2 3 2 0"),
];

/// The rows as records of one text under one part, and of one text of four.
pub fn texts() -> [Vec<u8>; 2] {
    let text = |columns: usize, rows: &[(&str, &str)]| {
        let lines: Vec<&str> = rows.iter().map(|row| row.0).collect();
        format!("{}\n{}\n", vec!["**kern"; columns].join("\t"), lines.join("\n")).into_bytes()
    };
    [text(1, &ROWS), text(4, &NEIGHBOURS)]
}

/// The rows, each in a text of its own with a name.
pub fn apart() -> Vec<(String, Vec<u8>)> {
    let text = |columns: usize, record: &str| format!("{}\n{record}\n{}\n", vec!["**kern"; columns].join("\t"), vec!["1c"; columns].join("\t")).into_bytes();
    let rows = ROWS.iter().enumerate().map(|(i, row)| (format!("row-{i:02}"), text(1, row.0)));
    rows.chain(NEIGHBOURS.iter().enumerate().map(|(i, row)| (format!("neighbours-{i:02}"), text(4, row.0)))).collect()
}

/// The rows as requests of the program `tokens`. The encoder's answers begin as the rows say.
pub fn tokens() -> Vec<Case> {
    ROWS.iter().chain(&NEIGHBOURS).map(|(record, said)| {
        let case = tokens::token(record);
        let answer = String::from_utf8_lossy(&case.answer);
        assert!(answer.starts_with(&format!("{said} ")) && answer.contains("note") == said.contains("note"), "{record:?}: {answer}, not {said}");
        case
    }).collect()
}

/// Whether a request of the program `tokens` is that of a row.
pub fn is_row(request: &[u8]) -> bool {
    ROWS.iter().chain(&NEIGHBOURS).any(|(record, _)| request.strip_prefix(b"T") == Some(record.as_bytes()))
}

/// A length as it is spelled, to value, actual and normal, or `-`.
fn length(spelling: String) -> Case {
    let answer = encoder::value(spelling.as_bytes()).map_or("-".to_string(), |(value, actual, normal)| format!("{value} {actual} {normal}"));
    Case { request: format!("D{spelling}").into_bytes(), answer: answer.into_bytes() }
}

/// Every ratio of numbers up to 257, and numbers with zeros before them.
pub fn lengths() -> Vec<Case> {
    let mut spellings: Vec<String> = (0..=257).flat_map(|n| (0..=257).map(move |m| format!("{n}%{m}"))).collect();
    let numbers = ["3", "03", "003", "0003", "00003", "0", "00", "000", "0000", "00000", "255", "0255", "00255", "256", "0256", "999", "1000", "9999", "10001", "4294967299"];
    spellings.extend(numbers.iter().flat_map(|n| numbers.iter().map(move |m| format!("{n}%{m}"))));
    spellings.sort();
    spellings.dedup();
    spellings.into_iter().map(length).collect()
}

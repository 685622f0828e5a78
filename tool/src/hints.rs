//! Hints: what in the bytes of a file may lie behind a refusal that contradicts what a person sees. They decide nothing.
use crate::words;
use ruevault::Refusal;

/// Of a refusal, the line at fault, and how many tokens it should have, where that is known.
pub fn of(text: &[u8], refusal: Refusal, line: &[u8], expected: usize) -> Vec<String> {
    let whole = of_file(text, refusal.number);
    if let Some(hint) = whole {
        return vec![hint.to_string()];
    }
    let hint = match refusal.number {
        2 => Some(single_byte(text, refusal.figure as usize)),
        3 | 5 => header(line),
        6 => even(line, refusal.figure, expected),
        11 => Some("it has comments and empty lines only; a Humdrum text needs a line such as `**kern`".to_string()),
        12 => Some("a note or a rest, such as `4c` or `4r`, must stand in a `**kern` column".to_string()),
        _ => None,
    };
    hint.into_iter().collect()
}

/// What the whole file is.
fn of_file(text: &[u8], number: u32) -> Option<&'static str> {
    let lone_cr = || text.windows(2).any(|w| w[0] == b'\r' && !matches!(w[1], b'\r' | b'\n'));
    let zeros = text.iter().take(64).filter(|b| **b == 0).count();
    match text {
        [] => Some("the file is empty"),
        [0xFF, 0xFE, ..] | [0xFE, 0xFF, ..] => Some("the file begins as UTF-16 does; save it as UTF-8 (iconv -f UTF-16 -t UTF-8)"),
        [0xEF, 0xBB, 0xBF, ..] => Some("the file begins with a byte order mark (U+FEFF), which isn't part of a Humdrum text; save it as UTF-8 without one"),
        [b'K', b'R', b'N', 0, ..] => Some("this is a sheet, no text; `ruevault show` shows it"),
        [0x1F, 0x8B, ..] => Some("the file is compressed by gzip; unpack it first"),
        [b'P', b'K', 3, 4, ..] => Some("the file is a zip archive; unpack it first"),
        [b'<', ..] => Some("the file looks like XML, not like a Humdrum text"),
        _ if matches!(number, 2 | 3) && zeros > 8 => Some("every other byte is zero, as in UTF-16; save the file as UTF-8 (iconv -f UTF-16 -t UTF-8)"),
        _ if matches!(number, 3 | 5 | 6 | 11 | 12) && lone_cr() => Some("lines end with CR alone, which is no end of a line here; end them with LF (tr '\\r' '\\n')"),
        _ => None,
    }
}

/// A byte that is no UTF-8.
fn single_byte(text: &[u8], at: usize) -> String {
    match text.get(at) {
        Some(byte @ 0xC0..) => {
            let letter = char::from(*byte);
            format!("the byte {byte:02X} is `{letter}` in Latin-1; if the file is Latin-1, convert it (iconv -f ISO-8859-1 -t UTF-8)")
        }
        Some(byte) => format!("the byte {byte:02X} begins no character; if the file is in another encoding, convert it to UTF-8 (iconv)"),
        None => "the file ends inside a character".to_string(),
    }
}

/// A header that a person would take for one.
fn header(line: &[u8]) -> Option<String> {
    let tokens = || line.split(|b| *b == b'\t');
    if tokens().any(|t| blank_inside(t) && t.starts_with(b"**")) {
        return Some("blanks stand in the header; columns are separated by one tab each, and nothing stands behind a name".to_string());
    }
    if let Some(token) = tokens().find(|t| t.eq_ignore_ascii_case(b"**kern") && *t != b"**kern") {
        return Some(format!("`{}` is written `**kern`, in small letters", words::plain(token)));
    }
    if let Some(token) = tokens().find(|t| t.eq_ignore_ascii_case(b"*kern") || t.eq_ignore_ascii_case(b"kern")) {
        return Some(format!("`{}` is written `**kern`, with two stars", words::plain(token)));
    }
    if tokens().any(<[u8]>::is_empty) {
        return Some("the header has an empty token: two tabs stand together, or one at an end".to_string());
    }
    None
}

fn blank_inside(token: &[u8]) -> bool {
    token.contains(&b' ')
}

/// A record of the wrong number of tokens.
fn even(line: &[u8], found: u64, expected: usize) -> Option<String> {
    let words = line.split(|b| matches!(b, b' ' | b'\t')).filter(|w| !w.is_empty()).count();
    let apart = line.windows(2).any(|w| w == b"  ");
    if (found as usize) < expected && (words == expected || apart) && blank_inside(line) {
        return Some("blanks stand where tabs are wanted; columns are separated by one tab each".to_string());
    }
    if line.split(|b| *b == b'\t').any(<[u8]>::is_empty) {
        return Some("the record has an empty token: two tabs stand together, or one at an end; a place without a note has `.`".to_string());
    }
    None
}

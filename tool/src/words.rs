//! Words that the library doesn't have: text for a terminal, and names of signs that aren't imported.
use ruevault::Bar;

/// Text for a terminal: control characters but tabs, characters that can't be seen, and bytes that are not UTF-8, as escapes.
pub fn plain(bytes: &[u8]) -> String {
    let mut said = String::new();
    for chunk in bytes.utf8_chunks() {
        for c in chunk.valid().chars() {
            if c.is_control() && c != '\t' || is_invisible(c) { said.extend(c.escape_default()) } else { said.push(c) }
        }
        chunk.invalid().iter().for_each(|b| said += &format!("\\x{b:02X}"));
    }
    said
}

/// Blanks that are not the usual one, marks of no width or of direction, and the byte order mark.
fn is_invisible(c: char) -> bool {
    matches!(c, '\u{A0}' | '\u{AD}' | '\u{34F}' | '\u{61C}' | '\u{115F}' | '\u{1160}' | '\u{1680}' | '\u{180E}' | '\u{2000}'..='\u{200F}'
        | '\u{2028}'..='\u{202F}' | '\u{205F}'..='\u{206F}' | '\u{3000}' | '\u{3164}' | '\u{FE00}'..='\u{FE0F}' | '\u{FEFF}' | '\u{FFA0}'
        | '\u{FFF9}'..='\u{FFFB}' | '\u{E0000}'..='\u{E0FFF}')
}

/// The same, and of a long text only the start.
pub fn shortened(bytes: &[u8]) -> String {
    let most = 60;
    if bytes.len() <= most {
        return plain(bytes);
    }
    let end = (0..=most).rev().find(|i| bytes[*i] & 0xC0 != 0x80).unwrap_or(most);
    format!("{}...", plain(&bytes[..end]))
}

/// What a byte of a kern token that isn't imported is called, where it has a common name.
pub fn signifier(c: char) -> Option<&'static str> {
    let name = match c {
        '/' | '\\' => "stems",
        '{' | '}' => "phrase marks",
        '(' | ')' => "slurs",
        '[' | ']' | '_' => "ties",
        'L' | 'J' => "beams",
        'K' | 'k' => "partial beams",
        ',' => "breath marks",
        ':' => "arpeggios",
        '`' => "staccatissimos",
        's' => "spiccatos",
        '"' => "pizzicatos",
        'z' => "sforzandos",
        'u' | 'v' => "bowings",
        'o' => "harmonics",
        'O' => "generic ornaments",
        'S' | '$' => "turns",
        'R' => "ending turns",
        'M' | 'm' | 'W' | 'w' => "mordents",
        'H' | 'h' => "glissandos",
        'P' | 'p' => "appoggiaturas",
        'I' => "generic articulations",
        '&' => "elisions",
        '?' => "editorial marks",
        _ => return None,
    };
    Some(name)
}

/// A hint at a column whose name a person takes for `**kern`.
pub fn kern_in_other_letters(number: u8, what: &str) -> Option<String> {
    let name = what.split('`').nth(1)?;
    let like = number == 2 && name.trim().eq_ignore_ascii_case("**kern");
    like.then(|| format!("`{name}` is written `**kern`, in small letters and with nothing behind it"))
}

/// What a bar sets for its part: clef, key, meter, sign, tempo. `given` says of meter and key whether the text has them.
pub fn settings(b: &Bar, given: (bool, bool)) -> String {
    let in_brackets = |given: bool| if given { "" } else { " (not given)" };
    let mut said = Vec::new();
    said.extend(b.clef.map(|clef| clef.to_string()));
    said.extend(b.key().map(|key| format!("key {key}{}", in_brackets(given.1))));
    said.extend(b.meter.map(|meter| format!("meter {meter}{}", in_brackets(given.0))));
    said.extend(b.sign.map(|sign| sign.to_string()));
    if b.tempo != 0 {
        said.push(format!("tempo quarter = {}", b.tempo));
    }
    said.join(", ")
}

//! A text's sheet, written from document 01 and requests E3, E5 and E7 and from nothing else here: what the source's report does not hold (lines, columns, spans, the order of
//! records) comes from this. `check.rs` holds what it does hold to the report.

/// Number, line and figure.
pub type Refusal = (u32, u32, usize);

type Span = (usize, usize);

#[derive(Clone, Copy, PartialEq)]
enum Spine {
    Outside,
    /// Part and voice; a branch has no voice yet.
    Line(usize, Option<usize>),
}

#[derive(Clone, Default)]
struct Bar {
    left: u8,
    clef: u8,
    meter: (u8, u8),
    symbol: u8,
    key: Option<(u8, u8)>,
    tempo: u16,
}

#[derive(Clone, Default)]
struct Part {
    name: Option<Span>,
    short: Span,
    mode: u8,
    beams: [bool; 4],
    noted: bool,
    bar: Bar,
    first: Bar,
}

struct Writer {
    bytes: Vec<u8>,
    notices: usize,
}

impl Writer {
    fn number(&mut self, n: usize, width: usize) {
        self.bytes.extend_from_slice(&(n as u64).to_le_bytes()[..width]);
    }

    fn span(&mut self, s: Span) {
        let (at, len) = if s.1 == 0 { (0, 0) } else { s };
        self.number(at, 4);
        self.number(len, 4);
    }

    fn notice(&mut self, number: u8, line: usize, column: usize, value: Span, key: Span) {
        if self.notices < 1024 {
            self.notices += 1;
            self.bytes.extend_from_slice(&[5, number]);
            self.number(column, 2);
            self.number(line, 4);
            self.span(value);
            self.span(key);
        }
    }

    fn signifiers(&mut self, line: usize, column: usize, bytes: &[u8]) {
        if self.notices < 1024 && !bytes.is_empty() {
            self.notice(17, line, column, (0, bytes.len()), (0, 0));
            self.bytes.extend_from_slice(bytes);
        }
    }

    fn bar(&mut self, part: usize, right: u8, number: usize, bar: &Bar) {
        self.bytes.extend_from_slice(&[2, part as u8, right, bar.left]);
        self.number(number, 4);
        let (fifths, mode) = bar.key.unwrap_or((0, 0));
        self.bytes.extend_from_slice(&[bar.clef, bar.meter.0, bar.meter.1, bar.symbol, u8::from(bar.key.is_some()), fifths, mode, 0]);
        self.number(bar.tempo as usize, 2);
        self.number(0, 2);
    }
}

fn white(c: char) -> bool {
    matches!(c as u32, 9..=13 | 32 | 133 | 160 | 5760 | 8192..=8202 | 8232 | 8233 | 8239 | 8287 | 12288)
}

fn trimmed(text: &str, at: usize) -> Span {
    let rest = text.trim_start_matches(white);
    (at + text.len() - rest.len(), rest.trim_end_matches(white).len())
}

/// Written value and tuplet.
fn duration(digits: &[u8]) -> Option<(u8, u8, u8)> {
    match digits {
        b"0" => return Some((1, 0, 0)),
        b"00" => return Some((0, 0, 0)),
        _ => {}
    }
    if digits.is_empty() || digits.len() > 4 {
        return None;
    }
    let n = digits.iter().fold(0u32, |n, d| n * 10 + u32::from(d - b'0'));
    if !(1..=255).contains(&n) {
        return None;
    }
    let value = (0..8).rev().find(|k| 1 << k <= n).unwrap();
    let base = 1u32 << value;
    if n == base {
        return Some((value as u8 + 2, 0, 0));
    }
    let common = (1..=base).rev().find(|d| n % d == 0 && base % d == 0).unwrap();
    Some((value as u8 + 2, (n / common) as u8, (base / common) as u8))
}

fn common_divisor(a: u64, b: u64) -> u64 {
    if b == 0 { a } else { common_divisor(b, a % b) }
}

/// Request E3: the value of n%m, which lasts m/n. "n and m each 1 to 4 digits worth 1 to 255. The written value becomes the smallest of the ten
/// that is not below m/n, with normal to actual in lowest terms. A ratio above 4, or whose tuplet doesn't fit a u8", has none.
fn ratio(n: &[u8], m: &[u8]) -> Option<(u8, u8, u8)> {
    let worth = |digits: &[u8]| -> Option<u64> {
        let number = std::str::from_utf8(digits).ok()?.parse().ok()?;
        (digits.len() <= 4 && (1..=255).contains(&number)).then_some(number)
    };
    let (n, m) = (worth(n)?, worth(m)?);
    // the ten in 128ths of a whole note, the smallest first: value 9 is one of them, the longa 512
    let value = (0..=9u8).rev().find(|value| (512 >> value) * n >= 128 * m)?;
    // m/n of a whole note is normal over actual of the value: m/n = (512 >> value)/128 * normal/actual
    let (normal, actual) = (128 * m, (512 >> value) * n);
    let common = common_divisor(normal, actual);
    let (normal, actual) = (normal / common, actual / common);
    // what a NOTE lasts of it, its value times normal over actual, is m/n
    assert_eq!((512 >> value) * normal * n, 128 * actual * m);
    match (normal, actual) {
        (1, 1) => Some((value, 0, 0)),
        _ => Some((value, u8::try_from(actual).ok()?, u8::try_from(normal).ok()?)),
    }
}

/// How many bytes a length has at the start of a piece of a token: digits, and behind them `%` and digits where it is a ratio.
fn length(piece: &[u8]) -> usize {
    let digits = |from: usize| piece[from..].iter().take_while(|b| b.is_ascii_digit()).count();
    let n = digits(0);
    match piece.get(n) {
        Some(b'%') if n > 0 && digits(n + 1) > 0 => n + 1 + digits(n + 1),
        _ => n,
    }
}

/// Written value and tuplet of a length as it is spelled, a reciprocal or a ratio.
pub fn value(spelling: &[u8]) -> Option<(u8, u8, u8)> {
    match spelling.iter().position(|b| *b == b'%') {
        Some(at) => ratio(&spelling[..at], &spelling[at + 1..]),
        None => duration(spelling),
    }
}

enum Said {
    Nothing,
    Clef(u8),
    Key(u8),
    Meter(u8, u8),
    Symbol(u8),
    Tempo(u16),
    Name,
    Short,
    Mode(u8),
    Notice(u8),
}

/// A number as Rust reads a u8.
fn u8_number(s: &[u8]) -> Option<u8> {
    let digits = s.strip_prefix(b"+").unwrap_or(s);
    if digits.is_empty() || !digits.iter().all(u8::is_ascii_digit) {
        return None;
    }
    let n = digits.iter().fold(0u32, |n, d| (n * 10 + u32::from(d - b'0')).min(1000));
    u8::try_from(n).ok()
}

fn tempo(s: &[u8]) -> Option<u16> {
    let point = s.iter().position(|b| *b == b'.');
    let (whole, fraction) = point.map_or((s, &b""[..]), |p| (&s[..p], &s[p + 1..]));
    let digits = [whole, fraction].concat();
    if digits.is_empty() || fraction.len() > 9 || !digits.iter().all(u8::is_ascii_digit) {
        return None;
    }
    let unit = 10u128.pow(fraction.len() as u32);
    let n = digits.iter().fold(0u128, |n, d| (n * 10 + u128::from(d - b'0')).min(1 << 100));
    (unit <= n && n <= 65535 * unit).then(|| ((2 * n + unit) / (2 * unit)) as u16)
}

fn interpretation(token: &[u8], noted: bool) -> Said {
    let body = token.get(1..).unwrap_or(b"");
    let meter = body.first() == Some(&b'M') && body.get(1).is_some_and(u8::is_ascii_digit);
    if body.is_empty() {
        return Said::Nothing;
    }
    if noted && (body.starts_with(b"clef") || body.starts_with(b"k[") || meter || body.starts_with(b"met(")) {
        return Said::Notice(8);
    }
    if let Some(clef) = body.strip_prefix(b"clef") {
        let clefs: [&[u8]; 11] = [b"G2", b"Gv2", b"G^2", b"F4", b"Fv4", b"C1", b"C2", b"C3", b"C4", b"C5", b"X"];
        return clefs.iter().position(|c| *c == clef).map_or(Said::Notice(9), |i| Said::Clef(i as u8 + 1));
    }
    if let Some(signature) = body.strip_prefix(b"k[") {
        let Some(signs) = signature.strip_suffix(b"]") else {
            return Said::Notice(10);
        };
        // request E7: the first steps of the order of sharps or of flats
        let steps = signs.len() / 2;
        let first = |order: &[u8], sign: u8| -> Vec<u8> { order.iter().take(steps).flat_map(|step| [*step, sign]).collect() };
        return match signs {
            _ if signs == first(b"fcgdaeb", b'#') => Said::Key(steps as u8),
            _ if signs == first(b"beadgcf", b'-') => Said::Key((steps as u8).wrapping_neg()),
            _ => Said::Notice(11),
        };
    }
    if meter {
        let text = &body[1..];
        let slash = text.iter().position(|b| *b == b'/');
        let read = slash.and_then(|i| Some((u8_number(&text[..i])?, u8_number(&text[i + 1..])?)));
        return match read {
            Some((n, d)) if n > 0 && d.is_power_of_two() => Said::Meter(n, d),
            _ => Said::Notice(12),
        };
    }
    if let Some(sign) = body.strip_prefix(b"met(") {
        return match sign {
            b"c)" => Said::Symbol(1),
            b"c|)" => Said::Symbol(2),
            _ => Said::Notice(13),
        };
    }
    if let Some(text) = body.strip_prefix(b"MM") {
        return tempo(text).map_or(Said::Notice(14), Said::Tempo);
    }
    if body.starts_with(b"I\"") {
        return Said::Name;
    }
    if body.starts_with(b"I'") {
        return Said::Short;
    }
    match body.strip_suffix(b":") {
        Some(tonic) if tonic.len() <= 3 && tonic.first().is_some_and(|b| matches!(b.to_ascii_lowercase(), b'a'..=b'g')) => {
            Said::Mode(u8::from(tonic[0].is_ascii_lowercase()))
        }
        _ => Said::Notice(15),
    }
}

struct Note {
    inferred: bool,
    value: (u8, u8, u8),
    dots: u8,
    flags: u8,
    pitches: Vec<[u8; 3]>,
    articulations: Vec<u8>,
}

enum Token {
    Silent,
    /// The signifiers not imported, and 16, 18, 19 or 21.
    Unread(Vec<u8>, u8),
    Heard(Vec<u8>, Note),
}

fn token(text: &[u8], inferred: Option<&[u8]>) -> Token {
    let mut signifiers = Vec::new();
    let (mut pitches, mut articulations) = (Vec::new(), Vec::new());
    let (mut tie, mut slur, mut grace) = ((false, false), (false, false), 0u8);
    let mut first: Option<(Option<&[u8]>, u8, bool)> = None;
    for sub in text.split(|b| *b == b' ').filter(|s| !s.is_empty()) {
        let (mut digits, mut dots, mut rest) = (None, 0u8, false);
        // request E3: "An n%m counts where a first sub-token's first digits begin it; further digits or `%` there give notice 16"
        let mut ratio = false;
        let mut pitch: Option<(u8, u8, i8)> = None;
        let mut i = 0;
        while i < sub.len() {
            let b = sub[i];
            let run = |same: &dyn Fn(u8) -> bool| sub[i..].iter().take_while(|x| same(**x)).count();
            match b {
                b'0'..=b'9' if first.is_none() && digits.is_none() && sub[i..i + length(&sub[i..])].contains(&b'%') => {
                    ratio = true;
                    digits = Some(&sub[i..i + length(&sub[i..])]);
                    i += length(&sub[i..]);
                    continue;
                }
                b'%' if ratio => return Token::Unread(Vec::new(), 16),
                b'0'..=b'9' => {
                    let n = run(&|x| x.is_ascii_digit());
                    if sub.get(i + n) == Some(&b'%') || digits.is_some() {
                        return Token::Unread(Vec::new(), 16);
                    }
                    digits = Some(&sub[i..i + n]);
                    i += n;
                    continue;
                }
                b'a'..=b'g' | b'A'..=b'G' => {
                    let n = run(&|x| x == b);
                    let octave = if b.is_ascii_lowercase() { (n <= 6).then(|| 3 + n) } else { (n <= 4).then(|| 4 - n) };
                    match octave {
                        Some(octave) if pitch.is_none() => {
                            let step = b"cdefgab".iter().position(|l| *l == b.to_ascii_lowercase()).unwrap();
                            pitch = Some((step as u8, octave as u8, 0));
                        }
                        _ => signifiers.push(b),
                    }
                    i += n;
                    continue;
                }
                b'#' | b'-' | b'n' => match &mut pitch {
                    Some(p) => p.2 = if b == b'#' { p.2.saturating_add(1) } else if b == b'-' { p.2.saturating_sub(1) } else { 0 },
                    None => signifiers.push(b),
                },
                b'.' => dots = dots.saturating_add(1),
                b'r' => rest = true,
                b'[' => tie.0 = true,
                b']' => tie.1 = true,
                b'_' => tie = (true, true),
                b'(' => slur.0 = true,
                b')' => slur.1 = true,
                b'L' | b'J' => {}
                b'q' => grace = 2,
                b'Q' => grace = 1,
                b'\'' => articulations.push(0),
                b'^' => articulations.push(1),
                b'~' => articulations.push(2),
                b';' => articulations.push(3),
                b'T' | b't' => articulations.push(4),
                _ => signifiers.push(b),
            }
            i += 1;
        }
        pitches.extend(pitch.map(|(step, octave, alter)| [step, octave, alter as u8]));
        first.get_or_insert((digits, dots.min(3), rest));
    }
    let Some((digits, dots, rest)) = first else {
        return Token::Silent;
    };
    if !rest && pitches.is_empty() {
        return Token::Unread(signifiers, 18);
    }
    let (value, was_inferred) = match (digits, grace, inferred) {
        (Some(digits), _, _) => match value(digits) {
            Some(value) => (value, false),
            None => return Token::Unread(signifiers, 19),
        },
        (None, 1 | 2, _) => ((5, 0, 0), false),
        (None, _, Some(digits)) => (value(digits).unwrap(), true),
        _ => return Token::Unread(signifiers, 21),
    };
    let bits = [rest, tie.0 && !rest, tie.1 && !rest, slur.0, slur.1, grace > 0, grace == 2];
    let flags = bits.iter().enumerate().map(|(i, b)| u8::from(*b) << i).sum();
    let pitches = if rest { Vec::new() } else { pitches };
    Token::Heard(signifiers, Note { inferred: was_inferred, value, dots, flags, pitches, articulations })
}

/// One letter run followed by nothing but signs.
fn bare(token: &[u8]) -> bool {
    let Some(first) = token.first().filter(|b| matches!(b, b'a'..=b'g' | b'A'..=b'G')) else {
        return false;
    };
    token.iter().skip_while(|b| *b == first).all(|b| matches!(b, b'#' | b'-' | b'n'))
}

/// The length that at least two other kern columns offer, all in one spelling. Request E3: "Among neighbours a ratio counts as a reciprocal does, by
/// its spelling."
fn peers<'a>(tokens: &[&'a [u8]], row: &[Spine], column: usize) -> Option<&'a [u8]> {
    let mut offers = Vec::new();
    for (i, (token, spine)) in tokens.iter().zip(row).enumerate() {
        if i == column || *spine == Spine::Outside {
            continue;
        }
        let (spelling, rest) = token.split_at(length(token));
        let plain = !rest.iter().any(|b| matches!(b, b' ' | b'.' | b'%'));
        if !plain || spelling.is_empty() || rest.is_empty() || value(spelling).is_none() {
            return None;
        }
        offers.push(spelling);
    }
    (offers.len() >= 2 && offers.iter().all(|o| *o == offers[0])).then(|| offers[0])
}

/// The right and the left barline of a deciding token.
/// The first column, from 1, of the first run of `*v` that joins lines of two parts, or of kern and of another kind.
fn mixed_run(tokens: &[&[u8]], row: &[Spine]) -> Option<usize> {
    let mut begin = 0;
    for run in tokens.chunk_by(|a, b| *a == b"*v" && *b == b"*v") {
        let mut parts: Vec<Option<usize>> = row[begin..begin + run.len()].iter().map(|s| if let Spine::Line(p, _) = s { Some(*p) } else { None }).collect();
        parts.dedup();
        if parts.len() > 1 {
            return Some(begin + 1);
        }
        begin += run.len();
    }
    None
}

fn barlines(token: &[u8]) -> (u8, u8) {
    let body = &token[token.iter().take_while(|b| **b == b'=').count()..];
    let has = |pair: &[u8]| body.windows(2).any(|w| w == pair);
    let right = if has(b":|") || has(b":!") {
        4
    } else if token.starts_with(b"==") {
        2
    } else if has(b"||") {
        1
    } else if body.contains(&b'-') {
        8
    } else {
        0
    };
    (right, if has(b"|:") || has(b"!:") { 3 } else { 0 })
}

struct Reader {
    out: Writer,
    row: Vec<Spine>,
    parts: Vec<Part>,
    closings: usize,
    notes: usize,
    tempo: u16,
    references: [Span; 3],
}

impl Reader {
    fn reference(&mut self, text: &str, at: usize, line: usize) {
        let (key, value, value_at) = match text.split_once(':') {
            Some((key, value)) => (key, value, at + key.len() + 1),
            None => (text, "", at),
        };
        let value = trimmed(value, value_at);
        let key_span = trimmed(key, at);
        match key.trim_matches(white) {
            "OTL" => self.references[0] = value,
            "COM" => self.references[1] = value,
            "LYR" => self.references[2] = value,
            _ => self.out.notice(1, line, 0, value, key_span),
        }
    }

    fn header(&mut self, tokens: &[&[u8]], places: &[usize], line: usize) -> Result<(), Refusal> {
        let k = line as u32;
        if !tokens.iter().all(|t| t.starts_with(b"**")) {
            return Err((3, k, 0));
        }
        if tokens.len() > 256 {
            return Err((4, k, tokens.len()));
        }
        if !tokens.contains(&&b"**kern"[..]) {
            return Err((5, k, 0));
        }
        for (i, t) in tokens.iter().enumerate() {
            if *t == b"**kern" {
                self.row.push(Spine::Line(self.parts.len(), Some(0)));
                self.parts.push(Part::default());
            } else {
                self.row.push(Spine::Outside);
                self.out.notice(2, line, i + 1, (places[i], t.len()), (0, 0));
            }
        }
        Ok(())
    }

    fn interpret(&mut self, spine: Spine, token: &[u8], place: usize, line: usize, column: usize) {
        let Spine::Line(p, _) = spine else {
            return;
        };
        let part = &mut self.parts[p];
        let name = (place + 3, token.len().saturating_sub(3));
        match interpretation(token, part.noted) {
            Said::Nothing => {}
            Said::Clef(clef) => part.bar.clef = clef,
            Said::Key(fifths) => part.bar.key = Some((fifths, part.mode)),
            Said::Meter(n, d) => part.bar.meter = (n, d),
            Said::Symbol(symbol) => part.bar.symbol = symbol,
            Said::Tempo(bpm) => {
                part.bar.tempo = bpm;
                if self.tempo == 0 {
                    self.tempo = bpm;
                }
            }
            Said::Name => part.name = Some(name),
            Said::Short => part.short = name,
            Said::Mode(mode) => {
                part.mode = mode;
                if let Some(key) = &mut part.bar.key {
                    key.1 = mode;
                }
            }
            Said::Notice(number) => self.out.notice(number, line, column, (place, token.len()), (0, 0)),
        }
    }

    fn star(&mut self, tokens: &[&[u8]], places: &[usize], line: usize) -> Result<(), Refusal> {
        if let Some(column) = mixed_run(tokens, &self.row) {
            return Err((17, line as u32, column));
        }
        let row = std::mem::take(&mut self.row);
        let mut next = Vec::new();
        let mut i = 0;
        while i < tokens.len() {
            match tokens[i] {
                b"*^" => {
                    next.push(row[i]);
                    next.push(if let Spine::Line(p, _) = row[i] { Spine::Line(p, None) } else { Spine::Outside });
                }
                b"*v" => {
                    next.push(row[i]);
                    while tokens.get(i + 1) == Some(&&b"*v"[..]) {
                        i += 1;
                    }
                }
                b"*-" => {}
                b"*x" if tokens.get(i + 1) == Some(&&b"*x"[..]) => {
                    next.extend([row[i + 1], row[i]]);
                    i += 1;
                }
                b"*+" => {
                    self.out.notice(7, line, i + 1, (places[i], 2), (0, 0));
                    next.extend([row[i], Spine::Outside]);
                }
                other => {
                    self.interpret(row[i], other, places[i], line, i + 1);
                    next.push(row[i]);
                }
            }
            i += 1;
        }
        for i in 0..next.len() {
            if let Spine::Line(p, None) = next[i] {
                let free = (0..4).find(|v| !next.contains(&Spine::Line(p, Some(*v))));
                next[i] = Spine::Line(p, Some(free.ok_or((8, line as u32, p))?));
            }
        }
        if next.len() > 256 {
            return Err((9, line as u32, next.len()));
        }
        self.row = next;
        Ok(())
    }

    fn close(&mut self, right: u8, left: u8) {
        self.closings += 1;
        for (p, part) in self.parts.iter_mut().enumerate() {
            let mut bar = std::mem::take(&mut part.bar);
            if self.closings == 1 {
                if bar.meter.0 == 0 {
                    bar.meter = (4, 4);
                }
                bar.key.get_or_insert((0, 0));
                part.first = bar.clone();
            }
            self.out.bar(p, right, self.closings, &bar);
            part.bar.left = left;
            part.noted = false;
        }
    }

    fn bar(&mut self, tokens: &[&[u8]]) {
        let deciding = tokens.iter().zip(&self.row).find(|(_, s)| **s != Spine::Outside).map_or(tokens[0], |(t, _)| t);
        let (right, left) = barlines(deciding);
        if self.parts.iter().any(|p| p.noted) {
            self.close(right, left);
        } else if left != 0 {
            self.parts.iter_mut().for_each(|p| p.bar.left = left);
        }
    }

    fn data(&mut self, tokens: &[&[u8]], places: &[usize], line: usize) -> Result<(), Refusal> {
        for (i, text) in tokens.iter().enumerate() {
            let Spine::Line(p, Some(v)) = self.row[i] else {
                continue;
            };
            if *text == b"." {
                continue;
            }
            let inferred = if bare(text) { peers(tokens, &self.row, i) } else { None };
            let (column, span) = (i + 1, (places[i], text.len()));
            match token(text, inferred) {
                Token::Silent => {}
                Token::Unread(signifiers, number) => {
                    self.out.signifiers(line, column, &signifiers);
                    self.out.notice(number, line, column, span, (0, 0));
                }
                Token::Heard(signifiers, note) => {
                    self.out.signifiers(line, column, &signifiers);
                    if note.inferred {
                        self.out.notice(20, line, column, span, (0, 0));
                    }
                    self.notes += 1;
                    if self.notes > 100_000 {
                        return Err((10, line as u32, 0));
                    }
                    self.note(p, v, text, &note, line, column);
                }
            }
        }
        Ok(())
    }

    fn note(&mut self, p: usize, v: usize, text: &[u8], note: &Note, line: usize, column: usize) {
        let held = self.parts[p].beams[v];
        let (starts, ends) = (text.contains(&b'L'), text.contains(&b'J'));
        let (beam, after) = match (starts, ends, held) {
            (true, true, _) => (0, false),
            (true, false, _) => (1, true),
            (false, true, true) => (3, false),
            (false, false, true) => (2, true),
            (false, _, false) => (0, false),
        };
        self.parts[p].beams[v] = after;
        self.parts[p].noted = true;
        let out = &mut self.out;
        out.bytes.extend_from_slice(&[1, p as u8, v as u8, note.value.0]);
        out.number(self.closings + 1, 4);
        out.number(line, 4);
        out.number(column, 2);
        out.bytes.extend_from_slice(&[note.dots, note.flags, note.value.1, note.value.2, beam, 0]);
        out.number(note.pitches.len(), 4);
        out.number(note.articulations.len(), 4);
        out.bytes.extend(note.pitches.iter().flatten());
        out.bytes.extend_from_slice(&note.articulations);
    }

    /// A record behind the header, repaired where a repair applies.
    fn record(&mut self, content: &[u8], at: usize, line: usize) -> Result<(), Refusal> {
        let mut tokens: Vec<&[u8]> = content.split(|b| *b == b'\t').collect();
        let places = places(&tokens, at);
        let (count, width) = (tokens.len(), self.row.len());
        let path: [&[u8]; 5] = [b"*^", b"*v", b"*x", b"*+", b"*-"];
        let whole = (at, content.len());
        if count > width && tokens[width..].iter().all(|t| t.is_empty()) {
            tokens.truncate(width);
            self.out.notice(4, line, 0, whole, (0, 0));
        } else if count < width && tokens.iter().all(|t| t.starts_with(b"*") && !path.contains(t)) {
            tokens.resize(width, b"*");
            self.out.notice(5, line, 0, whole, (0, 0));
        } else if (2..width).contains(&count) && tokens[0].starts_with(b"=") && tokens.iter().all(|t| *t == tokens[0]) {
            tokens.resize(width, tokens[0]);
            self.out.notice(6, line, 0, whole, (0, 0));
        }
        if tokens.len() != width {
            return Err((6, line as u32, count));
        }
        let places: Vec<usize> = (0..width).map(|i| places.get(i).copied().unwrap_or(0)).collect();
        match content[0] {
            b'*' if !tokens.iter().all(|t| t.starts_with(b"*")) => Err((7, line as u32, 0)),
            b'*' => self.star(&tokens, &places, line),
            b'=' => {
                self.bar(&tokens);
                Ok(())
            }
            _ => self.data(&tokens, &places, line),
        }
    }

    fn finish(mut self) -> Result<Vec<u8>, Refusal> {
        if self.parts.iter().any(|p| p.noted) {
            self.close(0, 0);
        }
        if self.notes == 0 {
            return Err((12, 0, 0));
        }
        for (p, part) in self.parts.iter().enumerate().rev() {
            self.out.bytes.extend_from_slice(&[3, p as u8, u8::from(part.name.is_some()), part.first.clef.max(1)]);
            self.out.span(part.name.unwrap_or((0, 0)));
            self.out.span(part.short);
        }
        let last = &self.parts.last().unwrap().first;
        let (fifths, mode) = last.key.unwrap();
        self.out.bytes.extend_from_slice(&[4, mode, fifths, 0, last.meter.0, last.meter.1]);
        self.out.number(self.tempo as usize, 2);
        for reference in self.references {
            self.out.span(reference);
        }
        let body = std::mem::take(&mut self.out.bytes);
        self.out.bytes.extend_from_slice(b"KRN\0\x01\0");
        self.out.number(self.parts.len(), 2);
        self.out.number(16 + body.len(), 4);
        self.out.number(self.notes, 4);
        self.out.bytes.extend_from_slice(&body);
        Ok(self.out.bytes)
    }
}

/// Where each token begins.
fn places(tokens: &[&[u8]], at: usize) -> Vec<usize> {
    tokens.iter().scan(at, |next, t| { let here = *next; *next += t.len() + 1; Some(here) }).collect()
}

/// A text's sheet, or its refusal; the buffer is as long as it need be.
pub fn sheet(text: &[u8]) -> Result<Vec<u8>, Refusal> {
    if text.len() > 67_108_864 {
        return Err((1, 0, text.len()));
    }
    if let Err(e) = std::str::from_utf8(text) {
        return Err((2, 0, e.valid_up_to()));
    }
    let mut reader = Reader {
        out: Writer { bytes: Vec::new(), notices: 0 },
        row: Vec::new(),
        parts: Vec::new(),
        closings: 0,
        notes: 0,
        tempo: 0,
        references: [(0, 0); 3],
    };
    let mut begun = false;
    let mut next = 0;
    for (index, raw) in text.split(|b| *b == b'\n').enumerate() {
        let (at, line) = (next, index + 1);
        next += raw.len() + 1;
        let content = &raw[..raw.iter().rposition(|b| *b != b'\r').map_or(0, |i| i + 1)];
        if let Some(record) = content.strip_prefix(b"!!!") {
            reader.reference(std::str::from_utf8(record).unwrap(), at + 3, line);
        } else if content.is_empty() || content[0] == b'!' {
        } else if !begun {
            let tokens: Vec<&[u8]> = content.split(|b| *b == b'\t').collect();
            reader.header(&tokens, &places(&tokens, at), line)?;
            begun = true;
        } else if reader.row.is_empty() {
            reader.out.notice(3, line, 0, (at, content.len()), (0, 0));
            break;
        } else {
            reader.record(content, at, line)?;
        }
    }
    if begun { reader.finish() } else { Err((11, 0, 0)) }
}

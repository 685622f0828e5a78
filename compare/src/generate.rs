//! Small texts with a seed: headers, music, path records, interpretations, barlines, references, and damage.

pub struct Seed(pub u64);

impl Seed {
    pub fn next(&mut self) -> u64 {
        // xorshift64*
        self.0 ^= self.0 >> 12;
        self.0 ^= self.0 << 25;
        self.0 ^= self.0 >> 27;
        self.0.wrapping_mul(0x2545_F491_4F6C_DD1D)
    }

    pub fn below(&mut self, n: usize) -> usize {
        (self.next() >> 33) as usize % n
    }

    pub fn pick<'a>(&mut self, from: &[&'a str]) -> &'a str {
        from[self.below(from.len())]
    }
}

const NOTES: [&str; 32] = [
    "4c", "4c", "8cc#L", "8dJ", "8e", "4r", ".", "c", "4e-", "2.g", "12f 12a", "[4c", "4c]", "4c_", "8ccq", "4x", "x4c4", "4ccccccc", "", " ", "4c'^~;T", "000c", "256r", "(4c)",
    "e-", "3%2c", "16..Ln", "0c", "00r", "4c\u{e9}", "4D;t", "4c 8e. r",
];
const INTERPRETATIONS: [&str; 24] = [
    "*", "*", "*clefF4", "*clefQ", "*k[f#]", "*k[b-e-]", "*k[", "*k[##]", "*M3/4", "*M4/+4", "*M0/4", "*MM119.5", "*MM0", "*MM90", "*I\"Vc a", "*I'v", "*I\"", "*e:", "*G:", "*met(c)",
    "*met(x)", "*foo", "**kern", "*x",
];
const PATHS: [&str; 9] = ["*^", "*^", "*v", "*x", "*-", "*+", "*", "*", "*"];
const BARS: [&str; 8] = ["=", "==", "=||", "=:|", "=|:", "=-", "=1:|!|:", "=2"];
const OTHERS: [&str; 9] = ["!!!OTL: a b ", "!!!COM:x", "!!!LYR: \u{a0}y\u{2003}", "!!!XYZ: q", "!!!OTL", "!!! : v", "!x", "!! y", ""];

/// How many columns a path record leaves.
fn width_after(tokens: &[&str]) -> usize {
    let mut width = 0;
    for (i, token) in tokens.iter().enumerate() {
        width += match *token {
            "*^" | "*+" => 2,
            "*-" => 0,
            "*v" if i > 0 && tokens[i - 1] == "*v" => 0,
            _ => 1,
        };
    }
    width
}

pub fn text(seed: &mut Seed) -> Vec<u8> {
    let mut lines: Vec<String> = (0..seed.below(3)).map(|_| seed.pick(&OTHERS).to_string()).collect();
    let mut width = 1 + seed.below(3);
    let header: Vec<&str> = (0..width).map(|_| seed.pick(&["**kern", "**kern", "**kern", "**kern", "**text"])).collect();
    lines.push(header.join("\t"));
    for _ in 0..2 + seed.below(9) {
        let row = |seed: &mut Seed, from: &[&'static str]| -> Vec<&'static str> { (0..width).map(|_| seed.pick(from)).collect() };
        let kind = seed.below(100);
        let tokens = match kind {
            0..45 => row(seed, &NOTES),
            45..60 => row(seed, &INTERPRETATIONS),
            60..78 => row(seed, &PATHS),
            78..88 => vec![seed.pick(&BARS); width],
            88..92 => row(seed, &BARS),
            _ => vec![seed.pick(&OTHERS)],
        };
        let mut line = tokens.join("\t");
        if (60..78).contains(&kind) {
            width = width_after(&tokens);
        } else {
            match seed.below(30) {
                0 => line.push('\t'),
                1 => line.push('\r'),
                2 => line = line.rsplit_once('\t').map_or(line.clone(), |(front, _)| front.to_string()),
                _ => {}
            }
        }
        lines.push(line);
        if width == 0 {
            break;
        }
    }
    let mut text = lines.join("\n").into_bytes();
    if seed.below(3) > 0 {
        text.push(b'\n');
    }
    if seed.below(40) == 0 && !text.is_empty() {
        let at = seed.below(text.len());
        text[at] = seed.below(256) as u8;
    }
    text
}

/// The kinds of texts that the library is held to.
pub const KINDS: [&str; 12] = ["mixed", "chorale", "piano", "paths", "tokens", "interpretations", "headers", "references", "peers", "engraved", "ratios", "damaged"];

/// A text of the k-th kind.
pub fn kind(seed: &mut Seed, k: usize) -> Vec<u8> {
    match k {
        0 => text(seed),
        1 => chorale(seed),
        2 => piano(seed),
        3 => paths(seed),
        4 => tokens(seed),
        5 => interpretations(seed),
        6 => headers(seed),
        7 => references(seed),
        8 => peers(seed),
        9 => engraved(seed),
        10 => ratios(seed),
        _ => {
            let k = seed.below(11);
            let base = kind(seed, k);
            damaged(seed, base)
        }
    }
}

pub const PITCHES: [&str; 24] = ["c", "d", "e", "f", "g", "a", "b", "cc", "dd", "ee-", "ff#", "gg", "C", "D", "E-", "F#", "G", "A", "BB", "CC", "GG", "c#", "b-", "fn"];

fn chorale(seed: &mut Seed) -> Vec<u8> {
    let mut lines = vec!["!!!COM: Bach, Johann Sebastian".to_string(), "!!!OTL@@DE: Jesu, meine Freude".to_string(), "!!!OTL: Chorale".to_string(), "**kern\t**kern\t**kern\t**kern".to_string()];
    lines.push("*I\"Bass\t*I\"Tenor\t*I\"Alto\t*I\"Soprano".to_string());
    lines.push("*clefF4\t*clefGv2\t*clefG2\t*clefG2".to_string());
    lines.push([seed.pick(&["*k[]", "*k[f#]", "*k[b-e-]", "*k[f#c#g#]"]); 4].join("\t"));
    lines.push([seed.pick(&["*G:", "*e:", "*d:", "*B-:"]); 4].join("\t"));
    lines.push([seed.pick(&["*M4/4", "*M3/4", "*M2/2"]); 4].join("\t"));
    lines.push([seed.pick(&["*MM100", "*MM72.5", "*", "*met(c)"]); 4].join("\t"));
    for bar in 0..1 + seed.below(5) {
        if bar > 0 {
            lines.push(vec![format!("={bar}{}", seed.pick(&["", "", "", ":|", "||", "|:", ":|!|:", "-"])); 4].join("\t"));
        }
        for _ in 0..3 + seed.below(2) {
            let (mut first, mut second) = (Vec::new(), Vec::new());
            for _ in 0..4 {
                let (a, b) = (seed.pick(&PITCHES), seed.pick(&PITCHES));
                match seed.below(12) {
                    0..4 => {
                        first.push(format!("8{a}L"));
                        second.push(format!("8{b}J"));
                    }
                    4 => {
                        first.push(format!("8.{a}L"));
                        second.push(format!("16{b}Jk"));
                    }
                    n => {
                        let mark = match n {
                            5 => ";",
                            6 => "]",
                            7 => "_",
                            _ => "",
                        };
                        first.push(if n == 8 { "4r".to_string() } else { format!("{}4{a}{mark}", if n == 9 { "[" } else { "" }) });
                        second.push(".".to_string());
                    }
                }
            }
            lines.push(first.join("\t"));
            if second.iter().any(|t| t != ".") {
                lines.push(second.join("\t"));
            }
        }
    }
    lines.push(["=="; 4].join("\t"));
    lines.push(["*-"; 4].join("\t"));
    lines.join("\n").into_bytes()
}

fn piano(seed: &mut Seed) -> Vec<u8> {
    // the lines of the left staff, of the right staff, and the dynamics
    let mut staffs = [1, 1];
    let dynamics = seed.below(2);
    let row = |staffs: [usize; 2], seed: &mut Seed, say: &mut dyn FnMut(&mut Seed) -> String| -> String {
        let mut tokens: Vec<String> = (0..staffs[0] + staffs[1]).map(|_| say(seed)).collect();
        if dynamics == 1 {
            tokens.push(if tokens[0].starts_with('*') { "*".to_string() } else { ".".to_string() });
        }
        tokens.join("\t")
    };
    let mut lines = vec![["**kern", "**kern", "**dynam"][..2 + dynamics].join("\t")];
    lines.push(["*clefF4", "*clefG2", "*"][..2 + dynamics].join("\t"));
    lines.push(["*staff2", "*staff1", "*staff1/2"][..2 + dynamics].join("\t"));
    for record in 0..4 + seed.below(20) {
        match seed.below(10) {
            0 | 1 => {
                // a line splits, or all lines of a staff join
                let staff = seed.below(2);
                let mut tokens = vec!["*"; staffs[0] + staffs[1] + dynamics];
                let at = staff * staffs[0];
                if staffs[staff] > 1 && seed.below(2) == 0 {
                    tokens[at..at + staffs[staff]].fill("*v");
                    staffs[staff] = 1;
                } else if staffs[staff] < 4 {
                    tokens[at + seed.below(staffs[staff])] = "*^";
                    staffs[staff] += 1;
                }
                lines.push(tokens.join("\t"));
            }
            2 => {
                let bar = format!("={record}");
                lines.push(vec![bar; staffs[0] + staffs[1] + dynamics].join("\t"));
            }
            _ => {
                let line = row(staffs, seed, &mut |seed| {
                    let length = seed.pick(&["4", "8", "16", "2", "4.", "12", "6", "1", "0", "32"]);
                    let chord: Vec<String> = (0..1 + seed.below(3)).map(|_| format!("{length}{}", seed.pick(&PITCHES))).collect();
                    match seed.below(8) {
                        0 | 1 => ".".to_string(),
                        2 => format!("{length}r"),
                        3 => format!("({}", chord.join(" ")),
                        4 => format!("{})L", chord.join(" ")),
                        5 => format!("{}J'", chord.join(" ")),
                        6 => format!("{}q", chord[0]),
                        _ => chord.join(" "),
                    }
                });
                lines.push(line);
            }
        }
    }
    lines.push(["*-"].repeat(staffs[0] + staffs[1] + dynamics).join("\t"));
    lines.join("\n").into_bytes()
}

/// Rows of many columns: splits, joins, exchanges, ends, added columns, mostly within four lines for each part.
fn paths(seed: &mut Seed) -> Vec<u8> {
    const OUTSIDE: usize = usize::MAX;
    let many = match seed.below(20) {
        0 => 250 + seed.below(7),
        1..4 => 20 + seed.below(60),
        _ => 1 + seed.below(9),
    };
    let mut parts = 0;
    let mut row: Vec<usize> = (0..many).map(|_| if seed.below(8) == 0 { OUTSIDE } else { parts += 1; parts - 1 }).collect();
    let header: Vec<&str> = row.iter().map(|p| if *p == OUTSIDE { "**text" } else { "**kern" }).collect();
    let mut lines = vec![header.join("\t")];
    let (bold, open, mingled) = (seed.below(10) == 0, seed.below(3) == 0, seed.below(8) == 0);
    for _ in 0..2 + seed.below(8) {
        if row.is_empty() {
            break;
        }
        if seed.below(3) == 0 {
            let tokens: Vec<&str> = row.iter().map(|_| seed.pick(&["4c", "8dL", "8eJ", ".", "2g", "16ff#", "e", "4r"])).collect();
            lines.push(tokens.join("\t"));
            continue;
        }
        let mut lines_of = vec![0; parts];
        row.iter().filter(|p| **p != OUTSIDE).for_each(|p| lines_of[*p] += 1);
        let mut tokens: Vec<&str> = Vec::new();
        let mut run = "*";
        for (i, p) in row.iter().enumerate() {
            let token = match seed.below(12) {
                0..3 => "*^",
                3 | 4 => "*v",
                5 => run,
                6 => "*x",
                7 if seed.below(3) == 0 => "*-",
                8 if seed.below(6) == 0 => "*+",
                9 => run,
                _ => "*",
            };
            let full = *p != OUTSIDE && lines_of[*p] >= 4 && !bold && seed.below(30) > 0;
            let wide = row.len() + tokens.iter().filter(|t| matches!(**t, "*^" | "*+")).count() >= 256 && !open;
            let token = if matches!(token, "*^" | "*+") && (full || wide) { "*" } else { token };
            // few texts join lines of two origins, as these are refused
            let token = if token == "*v" && run == "*v" && row[i - 1] != *p && !mingled { "*" } else { token };
            if token == "*^" && *p != OUTSIDE {
                lines_of[*p] += 1;
            }
            tokens.push(token);
            run = if matches!(token, "*v" | "*x") { token } else { "*" };
        }
        lines.push(tokens.join("\t"));
        let mut next = Vec::new();
        let mut i = 0;
        while i < tokens.len() {
            match tokens[i] {
                "*^" => next.extend([row[i], row[i]]),
                "*+" => next.extend([row[i], OUTSIDE]),
                "*-" => {}
                "*x" if tokens.get(i + 1) == Some(&"*x") => {
                    next.extend([row[i + 1], row[i]]);
                    i += 1;
                }
                "*v" => {
                    next.push(row[i]);
                    while tokens.get(i + 1) == Some(&"*v") {
                        i += 1;
                    }
                }
                _ => next.push(row[i]),
            }
            i += 1;
        }
        row = next;
    }
    lines.push(["4c"].repeat(row.len().max(1)).join("\t"));
    lines.join("\n").into_bytes()
}

/// A chorale whose notes carry stems and other marks that are not imported, in some texts past the notices that are kept.
fn engraved(seed: &mut Seed) -> Vec<u8> {
    let text = String::from_utf8(chorale(seed)).unwrap();
    let mut lines: Vec<String> = Vec::new();
    if seed.below(4) == 0 {
        lines.extend(vec!["!!!X: y".to_string(); 1000 + seed.below(40)]);
    }
    for line in text.split('\n') {
        if line.is_empty() || line.starts_with(['*', '=', '!']) {
            lines.push(line.to_string());
            continue;
        }
        let marked = line.split('\t').map(|token| if token == "." { token.to_string() } else { token.to_string() + seed.pick(&["/", "\\", "/", "\\", "", "k", "X/", "\\'", "/;", "\"!", "\u{e9}", "/#", "\\L"]) });
        lines.push(marked.collect::<Vec<_>>().join("\t"));
    }
    lines.join("\n").into_bytes()
}

/// A token of the letters that a note token knows, and some that it doesn't; without `%` where the text is to be held to the source.
fn token(seed: &mut Seed, ratios: bool) -> String {
    const LETTERS: [&str; 56] = [
        "0", "1", "2", "4", "8", "16", "3", "9", "12", "255", "256", "00", ".", ".", "%", "c", "d", "g", "a", "C", "G", "B", "cc", "CC", "r", "n", "#", "-", "[", "]", "_", "(", ")", "L", "J",
        "q", "Q", "'", "^", "~", ";", "T", "t", " ", " ", "  ", "x", "h", "H", "\u{e9}", "\u{1d11e}", "!", "*", "=", "\r", "k",
    ];
    let mut token = String::new();
    for _ in 0..1 + seed.below(7) {
        let letter = seed.pick(&LETTERS);
        let letter = if letter == "%" && !ratios { "X" } else { letter };
        let times = if seed.below(8) == 0 { 1 + seed.below(8) } else { 1 };
        token.push_str(&letter.repeat(times));
    }
    token
}

fn tokens(seed: &mut Seed) -> Vec<u8> {
    let width = 1 + seed.below(4);
    let ratios = seed.below(4) == 0;
    let mut lines = vec![["**kern"].repeat(width).join("\t")];
    for _ in 0..1 + seed.below(8) {
        let mut row: Vec<String> = (0..width).map(|_| token(seed, ratios)).collect();
        if seed.below(3) > 0 {
            // a plain note before the mark that would make it another record
            row[0].insert_str(0, "4c ");
        }
        lines.push(row.join("\t"));
        if seed.below(6) == 0 {
            lines.push([seed.pick(&BARS)].repeat(width).join("\t"));
        }
    }
    if seed.below(400) == 0 {
        // past the notices that are kept
        let again = lines[1..].to_vec();
        (0..1100 / again.len()).for_each(|_| lines.extend_from_slice(&again));
    }
    lines.push(["4c"].repeat(width).join("\t"));
    lines.join("\n").into_bytes()
}

fn interpretations(seed: &mut Seed) -> Vec<u8> {
    let width = 1 + seed.below(3);
    let mut lines = vec![(0..width).map(|_| seed.pick(&["**kern", "**kern", "**kern", "**text"])).collect::<Vec<_>>().join("\t")];
    let digits = |seed: &mut Seed, most: usize| -> String { (0..seed.below(most + 1)).map(|_| char::from(b'0' + seed.below(10) as u8)).collect() };
    for _ in 0..2 + seed.below(10) {
        let row: Vec<String> = (0..width)
            .map(|_| match seed.below(16) {
                0 => format!("*clef{}", seed.pick(&["G2", "Gv2", "G^2", "F4", "Fv4", "C1", "C2", "C3", "C4", "C5", "X", "", "G", "G22", "g2", "F2"])),
                1 => format!("*k[{}", ["f#", "c#", "b-", "e-", "#", "-", "fn", "f##", "]", " "].iter().map(|s| s.repeat(seed.below(5) / 3 * (1 + seed.below(3)))).collect::<String>()) + seed.pick(&["]", "]", "]", "", "]]"]),
                // standard ones, and some that are refused on both sides: a step without a sign, an eighth step, both signs
                2 => format!("*k[{}]", &seed.pick(&["f#c#g#d#a#e#b#f#", "b-e-a-d-g-c-f-b-", "f#c#g#d-a#e#b#f#", "################"])[..seed.below(17)]),
                3 => format!("*M{}/{}", digits(seed, 4), digits(seed, 4)),
                4 => format!("*M{}{}/{}{}", seed.pick(&["", "0", "00", "+"]), seed.pick(&["1", "2", "3", "4", "12", "255", "256", "0"]), seed.pick(&["", "0", "+", "++", "-"]), seed.pick(&["1", "2", "4", "8", "128", "256", "6", "3/4", ""])),
                5 => format!("*MM{}{}{}", digits(seed, 6), seed.pick(&["", ".", "."]), digits(seed, 9)),
                6 => format!("*MM{}", seed.pick(&["65535", "65535.000000000", "65535.000000001", "0.999999999", "1", "1.5", "2.5", "65534.499999999", "65534.5", "0.5", "00090", "1.", ".1"])),
                7 => format!("*met({}", seed.pick(&["c)", "c|)", "C)", "c", "", "c|", "c) ", "o)"])),
                8 => format!("*I{}{}", seed.pick(&["\"", "'", "", "C"]), seed.pick(&["", "Violin", " a b ", "\u{e9}", "\"", ":"])),
                9 | 10 => format!("*{}{}:", seed.pick(&["a", "b", "c", "d", "e", "f", "g", "A", "G", "h", "H", "", "1"]), seed.pick(&["", "", "-", "#", "##", "###", "\u{e9}", "dor"])),
                11 => seed.pick(&["*x", "*v", "*", "*", "**kern", "*M", "*MM", "*clef", "*k", "*k[", "*I", "*:", "*M4/4:", "*c:c", "*met", "*\u{e9}"]).to_string(),
                _ => "*".to_string(),
            })
            .collect();
        lines.push(row.join("\t"));
        match seed.below(6) {
            0 => lines.push((0..width).map(|_| seed.pick(&["4c", ".", "4r", "x"])).collect::<Vec<_>>().join("\t")),
            1 => lines.push([seed.pick(&BARS)].repeat(width).join("\t")),
            _ => {}
        }
    }
    lines.push(["4c"].repeat(width).join("\t"));
    lines.join("\n").into_bytes()
}

fn headers(seed: &mut Seed) -> Vec<u8> {
    let mut lines: Vec<String> = (0..seed.below(5)).map(|_| seed.pick(&["", "\r", "!", "!!", "!!!", "! **kern", "\r\r\r", "!!!!OTL: a", "!\t!", "!!!OTL:\tx"]).to_string()).collect();
    let width = match seed.below(12) {
        0 => 254 + seed.below(5),
        _ => 1 + seed.below(5),
    };
    let odd = if width > 200 { 600 } else { 8 };
    let header: Vec<&str> = (0..width).map(|_| if seed.below(odd) == 0 { seed.pick(&["**kern ", " **kern", "**Kern", "**", "*kern", "", "**kern!", "***kern", "kern", "**kern\u{a0}", "*"]) } else { seed.pick(&["**kern", "**kern", "**text"]) }).collect();
    lines.push(header.join("\t"));
    let end = seed.pick(&["\n", "\r\n", "\n\n", "\r\r\n", "\n"]);
    lines.push((0..width).map(|_| seed.pick(&["4c", "4d", "."])).collect::<Vec<_>>().join("\t"));
    if seed.below(2) == 0 {
        lines.push(["*-"].repeat(width).join("\t"));
        (0..seed.below(3)).for_each(|_| lines.push(seed.pick(&["", "4c", "!x", "!!!COM: z", "\r", "**kern", "*-"]).to_string()));
    }
    (lines.join(end) + seed.pick(&["", end, "\r", "\t"])).into_bytes()
}

fn references(seed: &mut Seed) -> Vec<u8> {
    // all white space there is, and its neighbours
    const CODES: [u32; 46] = [
        8, 9, 11, 12, 14, 28, 31, 32, 33, 132, 133, 134, 159, 160, 161, 5759, 5760, 5761, 6158, 8191, 8192, 8193, 8195, 8197, 8199, 8200, 8201, 8202, 8203, 8231, 8232, 8233, 8234, 8238, 8239, 8240, 8286,
        8287, 8288, 12287, 12288, 12289, 65279, 65533, 127, 13,
    ];
    let blanks = |seed: &mut Seed| -> String { (0..seed.below(4)).map(|_| if seed.below(3) > 0 { ' ' } else { char::from_u32(CODES[seed.below(CODES.len())]).unwrap() }).collect() };
    let mut lines: Vec<String> = Vec::new();
    for _ in 0..1 + seed.below(6) {
        let words = (seed.pick(&["OTL", "COM", "LYR", "otl", "OTL@EN", "", "XYZ", "O TL", "\u{e9}"]), seed.pick(&["", "a", "a b", "x:y", "\u{3b1}\u{3c9}", "\u{1d11e}"]));
        lines.push(format!("!!!{}{}{}{}{}{}{}", blanks(seed), words.0, blanks(seed), seed.pick(&[":", ":", ":", ":", "", "::"]), blanks(seed), words.1, blanks(seed)));
    }
    let at = seed.below(lines.len() + 1);
    lines.insert(at, "**kern\n4c".to_string());
    if seed.below(3) == 0 {
        let at = at + 1 + seed.below(lines.len() - at);
        lines.insert(at, "*-".to_string());
    }
    lines.join("\n").into_bytes()
}

/// Rows with bare pitches, whose lengths the others tell.
fn peers(seed: &mut Seed) -> Vec<u8> {
    let width = 2 + seed.below(5);
    let header: Vec<&str> = (0..width).map(|_| seed.pick(&["**kern", "**kern", "**kern", "**kern", "**kern", "**text"])).collect();
    let mut lines = vec![header.join("\t")];
    for _ in 0..1 + seed.below(6) {
        let usual = seed.pick(&["4", "8", "16", "0", "00", "3", "04", "255", "256", "12", "000"]);
        let row: Vec<String> = (0..width)
            .map(|_| match seed.below(16) {
                0..9 => format!("{usual}{}", seed.pick(&["c", "d", "r", "e-L", "gJ", "x", "aq", "b;", "]"])),
                9..13 => seed.pick(&["c", "ee-", "F#", "gn", "a##", "CCCCC", "ccccccc", "c#n-", "cd", "r", "cL"]).to_string(),
                13 => seed.pick(&["4", "4.c", "4c 4e", "4%2c", ".", "", "8c", "4c "]).to_string(),
                _ => format!("{usual}c"),
            })
            .collect();
        lines.push(row.join("\t"));
        if seed.below(5) == 0 {
            lines.push([seed.pick(&BARS)].repeat(width).join("\t"));
        }
    }
    lines.join("\n").into_bytes()
}

/// A length n%m, or nearly one.
fn ratio(seed: &mut Seed) -> String {
    const EDGES: [&str; 44] = [
        "3%2", "3%2", "4%2", "1%4", "255%255", "2%3", "03%2", "0003%0002", "00003%2", "3%00002", "0%2", "00%2", "3%0", "256%3", "3%256", "1%5", "63%252", "63%253", "64%255", "128%129", "127%255", "255%1", "255%254",
        "255%2", "5%1", "300%2", "4%", "%3", "%3%2", "3%%2", "3.%2", "3%2%", "3%2%5", "3 %2", "3%2 ", " 3%2", "3% 2", "3%2.", ".3%2", "c3%2", "4", "0", "00", "12",
    ];
    match seed.below(5) {
        0 | 1 => seed.pick(&EDGES).to_string(),
        2 => format!("{}%{}", 1 + seed.below(255), 1 + seed.below(255)),
        _ => format!("{}%{}", 1 + seed.below(9), 1 + seed.below(9)),
    }
}

/// A record of notes of one length and a bare pitch among them, some with a neighbour that is spelled otherwise or offers nothing.
fn beside_bare(seed: &mut Seed, width: usize, usual: &str) -> String {
    let mut row: Vec<String> = (0..width).map(|_| format!("{usual}{}", seed.pick(&["c", "d", "r", "e-L", "gJ", "b;", "aq", "x"]))).collect();
    if seed.below(2) == 0 {
        let (length, other) = usual.split_once('%').unwrap_or((usual, "1"));
        row[seed.below(width)] = match seed.below(8) {
            0 => format!("{length}c"),
            1 => format!("0{usual}c"),
            2 => format!("{usual}0c"),
            3 => format!("{length}%0{other}c"),
            4 => format!("{usual}{}", seed.pick(&["c%", "c4", "c e", ".c", "", "%c", "c.", " c", "%2c"])),
            5 => format!(" {usual}c"),
            _ => format!("{}c", ratio(seed)),
        };
    }
    row[seed.below(width)] = seed.pick(&["g", "ee-", "F#", "bn", "GG", "c#n-", "d", "gL", "cd"]).to_string();
    row.join("\t")
}

/// Notes whose lengths are ratios or nearly so, with dots, graces, rests, chords and marks, and bare pitches beside them.
fn ratios(seed: &mut Seed) -> Vec<u8> {
    let width = 1 + seed.below(5);
    let header: Vec<&str> = (0..width).map(|k| if k == 0 { "**kern" } else { seed.pick(&["**kern", "**kern", "**kern", "**kern", "**text"]) }).collect();
    let mut lines = vec![header.join("\t")];
    for _ in 0..1 + seed.below(8) {
        let usual = ratio(seed);
        if width > 2 && seed.below(3) == 0 {
            lines.push(beside_bare(seed, width, &usual));
            continue;
        }
        let agreed = seed.below(2) == 0;
        let row: Vec<String> = (0..width)
            .map(|_| {
                let own = seed.below(if agreed { 8 } else { 2 }) > 0;
                match seed.below(12) {
                    0 | 1 => seed.pick(&["g", "ee-", "F#", "bn", "GG", ".", "gq", "g "]).to_string(),
                    2..5 if agreed => format!("{usual}{}", seed.pick(&["c", "d", "r", "e-L", "gJ", "b;", "aq"])),
                    _ => {
                        let spelling = if own { usual.clone() } else { ratio(seed) };
                        let before = seed.pick(&["", "", "", "", "", "[", "(", "x", "_", "L", " ", "%", "4"]);
                        let dots = seed.pick(&["", "", "", "", ".", "..", "....", "%"]);
                        let pitch = seed.pick(&["c", "c", "d", "ee-", "F#", "r", "", "x", "ccccccc", "rc"]);
                        let mut behind = seed.pick(&["", "", "", "", "", "q", "Q", "]", "L", "J", "'", ";x", "%", "4", " 4e", " 3%2e", " e%", " e4%3", " e", " r", "3%2", " %", " 8%e", "  c", "#", ".", "\u{e9}"]).to_string();
                        if seed.below(9) == 0 {
                            behind.push_str(&format!(" {}{}", ratio(seed), seed.pick(&["e", "r", "", "x"])));
                        }
                        format!("{before}{spelling}{dots}{pitch}{behind}")
                    }
                }
            })
            .collect();
        lines.push(row.join("\t"));
        if seed.below(6) == 0 {
            lines.push([seed.pick(&BARS)].repeat(width).join("\t"));
        }
    }
    if seed.below(3) > 0 {
        lines.push(["1c"].repeat(width).join("\t"));
    }
    lines.join("\n").into_bytes()
}

/// A copy with bytes changed, put in or taken out, lines cut, doubled or exchanged.
fn damaged(seed: &mut Seed, mut text: Vec<u8>) -> Vec<u8> {
    for _ in 0..1 + seed.below(4) {
        if text.is_empty() {
            break;
        }
        let at = seed.below(text.len());
        match seed.below(10) {
            0 => text[at] = seed.below(256) as u8,
            1 => text[at] = b"\t\n\r *=!.4cr^v%"[seed.below(14)],
            2 => {
                text.remove(at);
            }
            3 => text.insert(at, b"\t\n\r *=!.4cr^v#-%"[seed.below(16)]),
            4 => {
                let sign = seed.pick(&["\u{e9}", "\u{2003}", "\u{1d11e}", "\u{85}", "\u{7ff}", "\u{ffff}", "\u{10ffff}"]).bytes();
                text.splice(at..at, sign);
            }
            5 if seed.below(3) == 0 => {
                let bad: [&[u8]; 12] = [b"\xff", b"\x80", b"\xc0\x80", b"\xc1\xbf", b"\xe0\x9f\xbf", b"\xed\xa0\x80", b"\xf0\x8f\xbf\xbf", b"\xf4\x90\x80\x80", b"\xf5\x80\x80\x80", b"\xe2\x82", b"\xf0\x9f\x8e", b"\xc3"];
                let bad = bad[seed.below(12)];
                text.splice(at..at, bad.iter().copied());
            }
            6 => text.truncate(at),
            _ => {
                let mut lines: Vec<Vec<u8>> = text.split(|b| *b == b'\n').map(<[u8]>::to_vec).collect();
                let (i, j) = (seed.below(lines.len()), seed.below(lines.len()));
                match seed.below(3) {
                    0 => lines.swap(i, j),
                    1 => {
                        lines.remove(i);
                    }
                    _ => {
                        let copy = lines[i].clone();
                        lines.insert(j, copy);
                    }
                }
                text = lines.join(&b'\n');
            }
        }
    }
    text
}

const STARTS: [&str; 4] = ["**kern", "**kern\t**kern", "**text\t**kern", "**kern\t**kern\t**kern"];
const SHORT: [&str; 30] = [
    "4c", "8cL", "8dJ", "x", ".", "4c\t8d", "4c\t.", "4c\t4d\te", "e\t4d", "*^", "*^\t*", "*\t*^", "*v", "*v\t*v", "*x\t*x", "*-", "*-\t*", "*-\t*-", "*+", "=", "==\t=|:", "=:|\t=:|", "=|:", "*M3/4", "*clefF4\t*G:", "4c\t", "!!!OTL:a", "",
    "*^\t*^", "*v\t*v\t*v",
];

/// How many short texts there are with so many lines behind the header.
pub fn short_texts(lines: u32) -> usize {
    STARTS.len() * SHORT.len().pow(lines)
}

pub fn short(lines: u32, mut index: usize) -> Vec<u8> {
    let mut text = STARTS[index % STARTS.len()].to_string();
    index /= STARTS.len();
    for _ in 0..lines {
        text.push('\n');
        text.push_str(SHORT[index % SHORT.len()]);
        index /= SHORT.len();
    }
    text.into_bytes()
}

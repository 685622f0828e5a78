//! Path records beside the published source: all records over the six tokens, behind rows that are themselves reached by path records. A record
//! with a run of `*v` that mixes origins is held to the encoder alone.
//! What row the source holds is read off a data record with a pitch of its own in each column.
use crate::encoder;
use crate::leaves::Case;
use crate::source::parse_kern_with_report;
use std::collections::BTreeMap;

const TOKENS: [&str; 6] = ["*^", "*v", "*x", "*-", "*+", "*"];

/// A header, `k` a kern column and `o` another, and the star records behind it.
#[derive(Clone)]
struct Start {
    header: String,
    records: Vec<String>,
}

impl Start {
    fn text(&self) -> String {
        let header: Vec<&str> = self.header.chars().map(|c| if c == 'k' { "**kern" } else { "**text" }).collect();
        let mut text = header.join("\t");
        for record in &self.records {
            text.push('\n');
            text.push_str(record);
        }
        text.push('\n');
        text
    }

    fn request(&self) -> Vec<u8> {
        let mut request = format!("V{}", self.header);
        for record in &self.records {
            request.push('|');
            request.push_str(record);
        }
        request.into_bytes()
    }

    fn then(&self, record: String) -> Start {
        let mut next = self.clone();
        next.records.push(record);
        next
    }
}

/// The first column of a run of `*v` that mixes origins, which the source takes: the encoder's answer.
fn mixed(start: &Start) -> Option<usize> {
    match encoder::sheet(start.text().as_bytes()) {
        Err((17, _, column)) => Some(column),
        _ => None,
    }
}

/// The number of a refusal, from the source's message.
fn refusal(message: &str) -> Option<&'static str> {
    if message.contains("more than 4 sub-spines") {
        Some("8")
    } else if message.contains("more than 256 spines") {
        Some("9")
    } else {
        None
    }
}

/// A token that no other column of the record has.
fn own_token(column: usize) -> String {
    let letter = "cdefgabCDEFGAB".as_bytes()[column % 14] as char;
    format!("4{}", letter.to_string().repeat(1 + column / 14))
}

/// The source's row after the records: each column as part.voice or `-`, or the number of a refusal.
fn source_row(start: &Start) -> (usize, String) {
    let probe = format!("{}{}\n", start.text(), vec!["."; 600].join("\t"));
    let width = match parse_kern_with_report(&probe) {
        Ok(_) => unreachable!("a text without notes is refused"),
        Err(acorde_io::Error::Xml(message)) => {
            if let Some(number) = refusal(&message) {
                return (0, number.to_string());
            }
            let active = message.split(" tokens for ").nth(1).and_then(|m| m.split(' ').next()).expect("the message names the active spines");
            active.parse::<usize>().unwrap()
        }
        Err(_) => return (0, String::new()),
    };
    let tokens: Vec<String> = (0..width).map(own_token).collect();
    let mut columns = vec!["-".to_string(); width];
    if let Ok(report) = parse_kern_with_report(&format!("{}{}\n", start.text(), tokens.join("\t"))) {
        let parts = report.score.parts.len();
        for (index, part) in report.score.parts.iter().enumerate() {
            for measure in &part.staves[0].measures {
                for (voice, notes) in measure.voices.iter().enumerate() {
                    for note in notes {
                        let pitch = &note.pitches[0];
                        let lower = pitch.octave >= 4;
                        let letter = if lower { pitch.step.to_char().to_ascii_lowercase() } else { pitch.step.to_char() };
                        let count = if lower { pitch.octave - 3 } else { 4 - pitch.octave };
                        let token = format!("4{}", letter.to_string().repeat(count as usize));
                        let column = tokens.iter().position(|t| *t == token).unwrap();
                        columns[column] = format!("{}.{voice}", parts - 1 - index);
                    }
                }
            }
        }
    }
    (width, columns.join(" "))
}

/// All records of n tokens.
fn records(n: usize) -> Vec<String> {
    let mut all = vec![String::new()];
    for column in 0..n {
        all = all.iter().flat_map(|r| TOKENS.iter().map(move |t| if column == 0 { t.to_string() } else { format!("{r}\t{t}") })).collect();
    }
    all
}

/// Rows of at most five columns, each with the first way to it that was found, from every header of up to three columns with a kern one,
/// by two records on rows of at most three columns.
fn rows() -> Vec<Start> {
    let mut found: BTreeMap<(String, String), Start> = BTreeMap::new();
    let headers = ["k", "kk", "ko", "ok", "kkk", "kko", "kok", "okk"];
    let mut level: Vec<Start> = headers.iter().map(|h| Start { header: h.to_string(), records: Vec::new() }).collect();
    for _ in 0..3 {
        let mut next = Vec::new();
        for start in &level {
            let (width, _) = source_row(start);
            for record in if width <= 3 { records(width) } else { Vec::new() } {
                let way = start.then(record);
                if mixed(&way).is_some() {
                    continue;
                }
                let (width, row) = source_row(&way);
                let key = (way.header.clone(), row);
                if (1..=5).contains(&width) && !found.contains_key(&key) {
                    found.insert(key, way.clone());
                    next.push(way);
                }
            }
        }
        level = next;
    }
    found.into_values().collect()
}

/// Every record behind rows of up to five columns; of the rows of four, one in four, of those of five, one in thirty.
pub fn all() -> Vec<Case> {
    let mut cases = Vec::new();
    let rows = rows();
    for (index, start) in rows.iter().enumerate() {
        let (width, _) = source_row(start);
        if width == 4 && index % 4 != 0 || width == 5 && index % 30 != 0 {
            continue;
        }
        for record in records(width) {
            let asked = start.then(record);
            let answer = mixed(&asked).map_or_else(|| source_row(&asked).1, |column| format!("17 {column}")).into_bytes();
            cases.push(Case { request: asked.request(), answer });
        }
    }
    cases
}


//! The lines that fill a staff, computed here by following each column back to its header column, beside the proved library.
use crate::encoder;
use crate::generate::{self, Seed};
use crate::library;
use std::process::ExitCode;

/// A kern line's header column, from 0, and its voice.
type Spine = Option<(usize, usize)>;

const OLD: u64 = 77;

fn tokens(content: &[u8], width: usize) -> Vec<&[u8]> {
    let mut tokens: Vec<&[u8]> = content.split(|b| *b == b'\t').collect();
    tokens.resize(width, b"*");
    tokens
}

/// The column of each line and branch of the next row, and whether it is a branch; none for an added spine.
fn origins(tokens: &[&[u8]]) -> Vec<Option<(usize, bool)>> {
    let mut next = Vec::new();
    let mut i = 0;
    while i < tokens.len() {
        match tokens[i] {
            b"*-" => {}
            b"*^" => next.extend([Some((i, false)), Some((i, true))]),
            b"*+" => next.extend([Some((i, false)), None]),
            b"*v" if i > 0 && tokens[i - 1] == b"*v" => {}
            b"*x" if tokens.get(i + 1) == Some(&&b"*x"[..]) => {
                next.extend([Some((i + 1, false)), Some((i, false))]);
                i += 1;
            }
            _ => next.push(Some((i, false))),
        }
        i += 1;
    }
    next
}

/// The next row of a record that is taken.
fn next_row(row: &[Spine], tokens: &[&[u8]]) -> Vec<Spine> {
    let origins = origins(tokens);
    let line = |o: &Option<(usize, bool)>| o.and_then(|(i, branch)| row[i].filter(|_| !branch));
    let mut next: Vec<Spine> = origins.iter().map(line).collect();
    for (j, origin) in origins.iter().enumerate() {
        if let Some((i, true)) = origin {
            next[j] = row[*i].map(|(h, _)| (h, (0..4).find(|v| !next.contains(&Some((h, *v)))).expect("a voice")));
        }
    }
    next
}

/// What fills the staff of a part at the record on a line.
fn filling(text: &[u8], number: usize, part: usize) -> Vec<[u64; 3]> {
    let records = text.split(|b| *b == b'\n').map(|raw| &raw[..raw.iter().rposition(|b| *b != b'\r').map_or(0, |i| i + 1)]);
    let mut row: Option<Vec<Spine>> = None;
    for content in records.take(number - 1).filter(|c| !c.is_empty() && c[0] != b'!') {
        row = Some(match row {
            None => content.split(|b| *b == b'\t').enumerate().map(|(i, t)| (t == b"**kern").then_some((i, 0))).collect(),
            Some(row) if content[0] == b'*' => next_row(&row, &tokens(content, row.len())),
            Some(row) => row,
        });
    }
    let row = row.expect("a header");
    let header = text.split(|b| *b == b'\n').find(|l| l.starts_with(b"**")).expect("a header");
    let kerns = header.split(|b| *b == b'\t').enumerate().filter(|(_, t)| t.split(|b| *b == b'\r').next() == Some(b"**kern"));
    let column = kerns.map(|(i, _)| i).nth(part).expect("a part");
    let content = text.split(|b| *b == b'\n').nth(number - 1).expect("a line");
    let content = &content[..content.iter().rposition(|b| *b != b'\r').map_or(0, |i| i + 1)];
    let origins = origins(&tokens(content, row.len()));
    let mut list: Vec<[u64; 3]> = Vec::new();
    for (i, spine) in row.iter().enumerate() {
        if let Some((h, v)) = spine {
            if *h == column && origins.contains(&Some((i, false))) {
                list.push([i as u64 + 1, *v as u64, *h as u64 + 1]);
            }
        }
    }
    for (i, _) in origins.iter().flatten().filter(|(i, branch)| *branch && row[*i].is_some_and(|(h, _)| h == column)) {
        let voice = (0..4).find(|v| !list.iter().any(|entry| entry[1] == *v)).unwrap_or(4);
        list.push([*i as u64 + 1, voice, column as u64 + 1]);
        if voice == 4 {
            break;
        }
    }
    list
}

/// The list that is due, and the one that the library gives.
fn held(text: &[u8]) -> (Vec<u64>, [u64; 15]) {
    let due: Vec<u64> = match encoder::sheet(text) {
        Err((8, line, part)) => filling(text, line as usize, part).concat(),
        _ => vec![OLD; 15],
    };
    let mut lines = [OLD; 15];
    library::read_lines(text, &mut [0; 64], &mut lines);
    (due, lines)
}

/// Texts by a seed of every kind, and all short ones of up to three lines.
pub fn by_seed(seed: u64, texts: usize) -> ExitCode {
    let mut seed = Seed(2 * seed + 1);
    let (mut refused, mut different, mut asked) = (0, 0, 0);
    let mut hold = |text: Vec<u8>| {
        let (due, given) = held(&text);
        asked += 1;
        refused += usize::from(given[0] != OLD);
        if due != given {
            different += 1;
            if different == 1 {
                println!("different: due {due:?}, given {given:?}\n{}", String::from_utf8_lossy(&text));
            }
        }
    };
    (0..texts).for_each(|i| hold(generate::kind(&mut seed, i % generate::KINDS.len())));
    (0..=3).for_each(|n| (0..generate::short_texts(n)).for_each(|index| hold(generate::short(n, index))));
    println!("causes: {asked} texts, {refused} refused with 8, {different} different");
    if different == 0 { ExitCode::SUCCESS } else { ExitCode::FAILURE }
}

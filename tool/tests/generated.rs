//! Texts drawn at random, whose kern tokens are known as they are drawn: each is a NOTE of the sheet or told as unread, and none is both.
mod common;
use common::run;
use ruevault::Sheet;
use std::collections::BTreeSet;

/// Numbers that follow from a seed.
struct Seed(u64);

impl Seed {
    fn below(&mut self, most: usize) -> usize {
        self.0 ^= self.0 << 13;
        self.0 ^= self.0 >> 7;
        self.0 ^= self.0 << 17;
        (self.0 % most as u64) as usize
    }
    fn of<'a>(&mut self, all: &[&'a str]) -> &'a str {
        all[self.below(all.len())]
    }
}

const TOKENS: [&str; 20] =
    ["4c", "8d", "2.e", ".", ".", "4096c", "0z", "x", "12f", "4g/", " ", "4r", "4c 4e", "c", "8ccq", "4B-;", "é", "1000c", "[4d", "00G"];
const STARS: [&str; 6] = ["*", "*clefG2", "*k[b-]", "*M3/4", "*I\"N", "*foo"];
const BARS: [&str; 6] = ["=", "=7", "==", "=:|!", "=||", "=-"];

type Tokens = BTreeSet<(u64, usize)>;

/// A text, and the lines and places of its kern tokens that are neither null nor blank.
fn drawn(seed: &mut Seed) -> (String, Tokens) {
    // The part of each column, none outside kern, and how many lines each part has.
    let mut row: Vec<Option<usize>> = (0..1 + seed.below(3)).map(Some).collect();
    row.insert(seed.below(row.len() + 1), None);
    let names: Vec<&str> = row.iter().map(|part| if part.is_some() { "**kern" } else { "**text" }).collect();
    let (mut lines, mut tokens) = (vec![names.join("\t")], Tokens::new());
    for _ in 0..5 + seed.below(30) {
        let record: Vec<&str> = match seed.below(10) {
            0..6 => row.iter().map(|_| seed.of(&TOKENS)).collect(),
            6 => vec![seed.of(&BARS); row.len()],
            7 => row.iter().map(|_| seed.of(&STARS)).collect(),
            8 => vec!["!! comment"],
            _ => paths(seed, &mut row),
        };
        lines.push(record.join("\t"));
        if !record[0].starts_with(['=', '*', '!']) {
            let kern = record.iter().zip(&row).enumerate().filter(|(_, (token, part))| part.is_some() && **token != "." && !token.trim().is_empty());
            tokens.extend(kern.map(|(j, _)| (lines.len() as u64, j + 1)));
        }
    }
    lines.push(vec!["*-"; row.len()].join("\t"));
    (lines.join(["\n", "\r\n"][seed.below(2)]) + "\n", tokens)
}

/// A record with path tokens; moves the row.
fn paths(seed: &mut Seed, row: &mut Vec<Option<usize>>) -> Vec<&'static str> {
    let (mut record, mut next) = (Vec::new(), Vec::new());
    let mut i = 0;
    while i < row.len() {
        let here = row[i];
        let lines = row.iter().chain(&next).filter(|part| **part == here).count();
        let pair = row.get(i + 1).copied();
        match seed.below(6) {
            0 if lines < 4 => {
                record.push("*^");
                next.extend([here, here]);
                // The staff is full enough: no second branch in this record.
                record.extend(vec!["*"; row.len() - i - 1]);
                next.extend(&row[i + 1..]);
                break;
            }
            1 if pair == Some(here) => {
                record.extend(["*v", "*v"]);
                next.push(here);
                i += 1;
            }
            2 if pair.is_some() => {
                record.extend(["*x", "*x"]);
                next.extend([row[i + 1], here]);
                i += 1;
            }
            3 if row.len() < 12 => {
                record.push("*+");
                next.extend([here, None]);
            }
            _ => {
                record.push("*");
                next.push(here);
            }
        }
        i += 1;
    }
    // Adjacent runs would join or exchange more than was drawn.
    let apart = record.windows(3).all(|w| w[0] != w[1] || w[1] != w[2] || w[0] == "*");
    if !apart {
        return vec!["*"; row.len()];
    }
    *row = next;
    record
}

#[test]
fn each_kern_token_is_a_note_or_unread() {
    let mut seed = Seed(0x9E37_79B9_7F4A_7C15);
    let (mut accepted, mut unread_in_all) = (0, 0);
    for _ in 0..150 {
        let (text, tokens) = drawn(&mut seed);
        let Ok(sheet) = Sheet::read(text.as_bytes()) else { continue };
        accepted += 1;
        let notes: Tokens = sheet.notes().map(|n| (n.line.into(), n.column.into())).collect();
        assert!(notes.is_subset(&tokens), "{text}");
        let unread: Vec<(u64, usize)> = tokens.difference(&notes).copied().collect();
        unread_in_all += unread.len();
        let checked = run(&["check", "--json", "--all", "-"], text.as_bytes());
        assert!(checked.said.contains(&format!("\"unread\":{},", unread.len())), "{text}\n{}", checked.said);
        let shown = run(&["show", "-"], text.as_bytes()).said;
        let mut told: Vec<(u64, usize)> = Vec::new();
        for rest in shown.split("NOT READ: line ").skip(1) {
            let (line, rest) = rest.split_once(", token ").unwrap();
            told.push((line.parse().unwrap(), rest.split(',').next().unwrap().parse().unwrap()));
        }
        told.sort();
        assert_eq!(told, unread, "{text}\n{shown}");
        let page = run(&["proof", "-", "-o", "-"], text.as_bytes());
        assert_eq!((page.status, page.said.matches("<g class=\"note\">").count()), (0, notes.len()), "{text}");
    }
    assert!(accepted > 100 && unread_in_all > 1000, "{accepted} {unread_in_all}");
}

/// Damaged texts are told of in one way by all commands, and none of them fails.
#[test]
fn damaged_texts() {
    let mut seed = Seed(0x0123_4567_89AB_CDEF);
    for _ in 0..100 {
        let mut text = drawn(&mut seed).0.into_bytes();
        for _ in 0..1 + seed.below(4) {
            let at = seed.below(text.len());
            text[at] = *b"\t\n*^v=c48 .\r\xFF\x00!".get(seed.below(15)).unwrap();
        }
        let wanted = i32::from(ruevault::sheet_of(&text).is_err());
        let errors: Vec<String> = [&["show", "-"][..], &["check", "-"], &["read", "-", "-o", "-"], &["proof", "-", "-o", "-"]]
            .iter()
            .map(|words| {
                let done = run(words, &text);
                assert_eq!(done.status, wanted, "{words:?} {}", String::from_utf8_lossy(&text));
                done.err
            })
            .collect();
        assert!(wanted == 0 || errors.iter().all(|e| *e == errors[0]), "{errors:?}");
    }
}

//! The proved library beside the encoder and the source, text by text.
use crate::check;
use crate::encoder;
use crate::generate::{self, Seed};
use crate::library;
use crate::texts;
use std::process::ExitCode;

/// Bytes before and behind every lent buffer.
const GUARD: usize = 64;

fn pattern(i: usize) -> u8 {
    (i as u8).wrapping_mul(167) ^ 0x5a
}

unsafe extern "C" {
    fn mmap(at: *mut u8, len: usize, protection: i32, flags: i32, file: i32, offset: i64) -> *mut u8;
    fn mprotect(at: *mut u8, len: usize, protection: i32) -> i32;
}

const PAGE: usize = 4096;

/// A place for texts with a page on each side that no one may touch: a text stands against the page behind it or against the page
/// before it, so that reading past an end of it stops the program.
pub struct Room {
    start: *mut u8,
    len: usize,
}

impl Room {
    pub fn new(len: usize) -> Room {
        let len = len.div_ceil(PAGE) * PAGE;
        unsafe {
            // private and anonymous
            let start = mmap(std::ptr::null_mut(), len + 2 * PAGE, 3, 0x22, -1, 0);
            assert!(start as isize != -1, "no memory");
            assert!(mprotect(start, PAGE, 0) == 0 && mprotect(start.add(PAGE + len), PAGE, 0) == 0, "no protected pages");
            Room { start: start.add(PAGE), len }
        }
    }

    fn put(&mut self, text: &[u8], behind: bool) -> &[u8] {
        assert!(text.len() <= self.len);
        unsafe {
            let at = if behind { self.start.add(self.len - text.len()) } else { self.start };
            std::ptr::copy_nonoverlapping(text.as_ptr(), at, text.len());
            std::slice::from_raw_parts(at, text.len())
        }
    }
}

/// Where texts and buffers stand, and what was met.
pub struct Bench {
    room: Room,
    buffer: Vec<u8>,
    pub numbers: [usize; 18],
    pub calls: usize,
    pub ratios: usize,
    pub unheld: usize,
}

impl Bench {
    pub fn new(longest: usize) -> Bench {
        Bench { room: Room::new(longest), buffer: Vec::new(), numbers: [0; 18], calls: 0, ratios: 0, unheld: 0 }
    }

    /// One call on a buffer of this length, held to the encoder byte for byte.
    fn call(&mut self, text: &[u8], expected: &Result<Vec<u8>, encoder::Refusal>, len: usize) -> Result<(), String> {
        self.buffer.clear();
        self.buffer.extend((0..len + 2 * GUARD).map(pattern));
        self.calls += 1;
        let lent = self.room.put(text, self.calls % 2 == 0);
        let (number, answer) = library::read(lent, &mut self.buffer[GUARD..GUARD + len]);
        if lent != text {
            return Err(format!("a buffer of {len}: the text is changed"));
        }
        let due = match expected {
            Err((number, line, figure)) => [*number as u64, *line as u64, *figure as u64],
            Ok(sheet) if len < sheet.len() => [13, 0, sheet.len() as u64],
            Ok(sheet) => [0, 0, sheet.len() as u64],
        };
        self.numbers[due[0] as usize] += 1;
        if u64::from(number) != due[0] || answer != due {
            return Err(format!("a buffer of {len}: ours {number} {answer:?}, the encoder's {due:?}"));
        }
        let sheet = if due[0] == 0 { expected.as_ref().unwrap().as_slice() } else { &[] };
        let written = GUARD..GUARD + sheet.len();
        if self.buffer[written.clone()] != *sheet {
            let at = (0..sheet.len()).find(|i| self.buffer[GUARD + i] != sheet[*i]).unwrap();
            return Err(format!("a buffer of {len}: byte {at} of the sheet is {}, the encoder's {}", self.buffer[GUARD + at], sheet[at]));
        }
        match self.buffer.iter().enumerate().find(|(i, b)| !written.contains(i) && **b != pattern(*i)) {
            Some((i, _)) => Err(format!("a buffer of {len}: byte {} from its start is changed", i as isize - GUARD as isize)),
            None => Ok(()),
        }
    }

    /// What differs in a text.
    pub fn differs(&mut self, text: &[u8]) -> Option<String> {
        let expected = encoder::sheet(text);
        let need = expected.as_ref().map_or(256, Vec::len);
        for len in [0, 1, 15, 16, need - 1, need, need + 1, need + 37] {
            if let Err(what) = self.call(text, &expected, len) {
                return Some(what);
            }
        }
        if check::has_ratios(text) {
            self.ratios += 1;
        } else if !check::comparable(text) || check::mixes(text) {
            self.unheld += 1;
        } else if !check::agree(text) {
            return Some("the encoder says otherwise than the source".to_string());
        }
        None
    }
}

struct Run {
    bench: Bench,
    texts: usize,
    different: usize,
}

impl Run {
    fn new(longest: usize) -> Run {
        Run { bench: Bench::new(longest), texts: 0, different: 0 }
    }

    /// Holds a text; a difference is cut down and shown where it is to be.
    fn hold(&mut self, text: Vec<u8>, show: bool) {
        self.texts += 1;
        let Some(what) = self.bench.differs(&text) else {
            return;
        };
        self.different += 1;
        if show && self.different == 1 {
            let mut again = Bench::new(text.len());
            let least = texts::cut(text, |t| again.differs(t).is_some());
            let what = again.differs(&least).unwrap_or(what);
            println!("different: {what}\n{}\n{}", String::from_utf8_lossy(&least), String::from_utf8_lossy(&least).escape_debug());
        }
    }

    fn said(&self, name: &str) {
        let answers: Vec<String> = self.bench.numbers.iter().enumerate().filter(|(_, n)| **n > 0).map(|(i, n)| format!("{i}: {n}")).collect();
        println!("{name}: {} texts, {} calls (by number {}), not held to the source {} for a `%` and {} for their MM, signatures or a mixed run, {} different", self.texts, self.bench.calls, answers.join(", "), self.bench.ratios, self.bench.unheld, self.different);
    }
}

/// Texts by a seed, in turn of every kind.
pub fn by_seed(seed: u64, texts: usize) -> ExitCode {
    let mut seed = Seed(2 * seed + 1);
    let mut runs: Vec<Run> = generate::KINDS.iter().map(|_| Run::new(1 << 20)).collect();
    for i in 0..texts {
        let k = i % runs.len();
        let show = runs.iter().all(|run| run.different == 0);
        runs[k].hold(generate::kind(&mut seed, k), show);
    }
    runs.iter().zip(generate::KINDS).for_each(|(run, name)| run.said(name));
    finish(&runs)
}

/// Every text of a header and so many short lines at most.
pub fn short(lines: u32) -> ExitCode {
    let mut run = Run::new(1 << 12);
    for n in 0..=lines {
        (0..generate::short_texts(n)).for_each(|index| run.hold(generate::short(n, index), true));
    }
    run.said("short texts");
    finish(&[run])
}

/// The replayed list's texts by hand, and the edges of length and number that are too long for it.
pub fn edges() -> ExitCode {
    let mut run = Run::new(67_108_865);
    let mut hold = |text| run.hold(text, true);
    texts::picked().into_iter().for_each(&mut hold);
    let filled = |len: usize| {
        let mut text = b"**kern\n4c\n*-\n!".to_vec();
        text.resize(len, b'x');
        text
    };
    hold(filled(67_108_864));
    hold(filled(67_108_865));
    let mut broken = filled(67_108_864);
    broken[67_108_863] = 0xe2;
    hold(broken);
    hold(vec![b'\n'; 67_108_864]);
    for notes in [99_999, 100_000, 100_001] {
        hold(format!("**kern\n{}*-\n", "4c\n".repeat(notes)).into_bytes());
        hold(format!("**kern\t**kern\n4r\t4r\n{}*-\t*-\n", "8e\t.\n".repeat(notes - 2)).into_bytes());
    }
    for notices in [1_023, 1_024, 1_025] {
        hold(format!("**kern\n{}4c\n", "4x\n".repeat(notices)).into_bytes());
        hold(format!("**kern\n*foo\n{}4c\n", "4x\n".repeat(notices / 2)).into_bytes());
        hold(format!("{}**kern\n4c\n", "!!!X: y\n".repeat(notices)).into_bytes());
        hold(format!("**kern\t**kern\n{}(8ccL/\t4rX\n8eeJ\\)\t[4GG#k\n=\t=\n4c/n\t4d'x\n", "4c/\t.\n".repeat(notices - 1)).into_bytes());
    }
    for signs in [126, 127, 128, 129, 255, 256, 300] {
        hold(format!("**kern\n4c{}\n4c{}\n4c{}n{}\n", "#".repeat(signs), "-".repeat(signs), "#".repeat(signs), "-".repeat(signs)).into_bytes());
        hold(format!("**kern\n4c{}\n4c{}\n{}\n", ".".repeat(signs), "'".repeat(signs), "4c ".repeat(signs)).into_bytes());
    }
    // every ratio of two numbers from 1 to 255
    let mut ratios = String::from("**kern\n");
    for n in 1..=255 {
        for m in 1..=255 {
            ratios += &format!("{n}%{m}c\n");
        }
    }
    hold(ratios.into_bytes());
    run.said("edges");
    finish(&[run])
}

fn finish(runs: &[Run]) -> ExitCode {
    let (texts, different) = runs.iter().fold((0, 0), |(t, d), run| (t + run.texts, d + run.different));
    println!("reader: {texts} texts, {different} different");
    if different == 0 { ExitCode::SUCCESS } else { ExitCode::FAILURE }
}

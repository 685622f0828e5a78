//! Holes beside the published `append_gap_rests`.
use crate::gap::append_gap_rests;
use crate::generate::Seed;
use crate::leaves::Case;
use crate::source::value_number;
use acorde_core::{Duration, Note};

pub struct Hole {
    pub ticks: u32,
    pub divisions: u32,
    pub notes: u32,
}

/// Value, actual and normal of each rest, or the number that turns the hole away.
pub fn published(hole: &Hole) -> Result<Vec<[u8; 3]>, u32> {
    let mut voice = vec![Note::rest(Duration::Quarter); hole.notes as usize];
    match append_gap_rests(&mut voice, hole.ticks, hole.divisions) {
        Err(crate::Error::Xml(reason)) => Err(if reason.starts_with("too many") { 15 } else { 14 }),
        Ok(()) => Ok(voice[hole.notes as usize..].iter().map(|n| {
            assert!(n.is_rest && n.hidden && n.dot_count == 0 && n.pitches.is_empty());
            let (actual, normal) = n.tuplet.as_ref().map_or((0, 0), |t| (t.actual_notes, t.normal_notes));
            [value_number(&n.duration), actual, normal]
        }).collect()),
    }
}

/// The bytes of the rests, as docs/SHEET.md has a NOTE.
pub fn records(rests: &[[u8; 3]]) -> Vec<u8> {
    let mut bytes = Vec::with_capacity(rests.len() * 28);
    for [value, actual, normal] in rests {
        let mut note = [0; 28];
        note[0] = 1;
        note[3] = *value;
        note[15] = 0b1000_0001;
        note[16] = *actual;
        note[17] = *normal;
        bytes.extend_from_slice(&note);
    }
    bytes
}

const DIVISIONS: [u32; 24] = [
    0, 1, 2, 3, 4, 5, 6, 7, 8, 12, 16, 24, 32, 48, 96, 120, 192, 240, 480, 768, 960, 10_080, 0x1000_0000, u32::MAX,
];

/// A hole of any size, more often one that music has.
pub fn drawn(seed: &mut Seed) -> Hole {
    let divisions = match seed.below(8) {
        0 => seed.below(64) as u32,
        1 => seed.next() as u32,
        2 => 0x0FFF_FFF0 + seed.below(32) as u32,
        3 => 1 << seed.below(32),
        _ => DIVISIONS[seed.below(DIVISIONS.len())],
    };
    let ticks = match seed.below(8) {
        0 => seed.below(100) as u32,
        1 => seed.next() as u32,
        2 => divisions.wrapping_mul(seed.below(64) as u32),
        3 => divisions.wrapping_mul(16).wrapping_mul(2) / 3,
        4 => (u64::from(divisions) * seed.below(300) as u64 / (1 + seed.below(255) as u64)) as u32,
        5 => (u64::from(divisions) * 2 / 3) as u32 >> seed.below(6),
        _ => seed.below(divisions.saturating_mul(5) as usize + 1) as u32,
    };
    let notes = match seed.below(64) {
        0 => 49_990 + seed.below(20) as u32,
        1 => seed.below(50_000) as u32,
        _ => 0,
    };
    Hole { ticks, divisions, notes }
}

/// The small holes, each at small divisions: all of them.
pub fn small() -> impl Iterator<Item = Hole> {
    (0..=130).flat_map(|divisions| (0..=600).map(move |ticks| Hole { ticks, divisions, notes: 0 }))
}

/// Requests for the program of leaves: ticks, divisions, the voice's notes and the buffer's length, to the answer and the rests.
pub fn cases() -> Vec<Case> {
    let mut seed = Seed(1);
    let picked = [(0, 0, 60_000), (480, 480, 49_999), (480, 480, 50_000), (15_360, 480, 49_999), (1, 0, 50_000), (320, 480, 0), (96, 480, 0), (u32::MAX, u32::MAX, 0), (7, 4, 0)];
    let mut holes: Vec<Hole> = picked.into_iter().map(|(ticks, divisions, notes)| Hole { ticks, divisions, notes }).collect();
    holes.extend((0..400).map(|_| drawn(&mut seed)));
    holes.into_iter().enumerate().map(|(index, hole)| {
        let found = published(&hole);
        let long = found.as_ref().map_or(0, |rests| rests.len() * 28);
        let room = if index < picked.len() { 4096 } else { [0, 27, 28, long.saturating_sub(1), long, long + 1, 4096][seed.below(7)].min(4096) };
        let answer = match &found {
            Err(number) => format!("{number} 0 0"),
            Ok(_) if room < long => format!("13 0 {long}"),
            Ok(rests) => rests.iter().fold(format!("0 0 {long}"), |text, [value, actual, normal]| format!("{text} {value} {actual} {normal}")),
        };
        Case { request: format!("H{} {} {} {room}", hole.ticks, hole.divisions, hole.notes).into_bytes(), answer: answer.into_bytes() }
    }).collect()
}

/// Whether the rests last the hole's ticks, as whole numbers: a value is 16 divisions, halved as often as its number says.
#[cfg(library)]
fn adds_up(hole: &Hole, rests: &[[u8; 3]]) -> bool {
    rests.iter().try_fold(u64::from(hole.ticks), |left, &[value, actual, normal]| {
        let longa = u64::from(hole.divisions) * 16;
        let (base, whole) = (longa >> value, longa % (1 << value) == 0);
        let (actual, normal) = if actual == 0 { (1, 1) } else { (u64::from(actual), u64::from(normal)) };
        let taken = base * normal / actual;
        (whole && base * normal % actual == 0 && 0 < taken && taken <= left).then(|| left - taken)
    }) == Some(0)
}

/// Our rests beside the source's, on buffers of several lengths.
#[cfg(library)]
fn different(hole: &Hole, met: &mut [usize; 16]) -> bool {
    let found = published(hole);
    let bytes = found.as_ref().map_or_else(|_| Vec::new(), |rests| records(rests));
    if let Ok(rests) = &found {
        assert!(adds_up(hole, rests), "the source's rests of {} ticks at {}", hole.ticks, hole.divisions);
    }
    [0, 27, bytes.len().saturating_sub(1), bytes.len(), bytes.len() + 1, bytes.len() + 100].into_iter().any(|room| {
        let before: Vec<u8> = (0..room).map(|i| (i as u8).wrapping_mul(167) ^ 0x5a).collect();
        let mut after = before.clone();
        let (number, answer) = crate::library::gap_rests(hole.ticks, hole.divisions, hole.notes, &mut after);
        let expected = match &found {
            Err(number) => (*number, [u64::from(*number), 0, 0]),
            Ok(_) if room < bytes.len() => (13, [13, 0, bytes.len() as u64]),
            Ok(_) => (0, [0, 0, bytes.len() as u64]),
        };
        met[number as usize & 15] += 1;
        let whole = if expected.0 == 0 { [&bytes[..], &before[bytes.len()..]].concat() } else { before };
        let wrong = (number, answer) != expected || after != whole;
        if wrong {
            println!("  {} ticks at {}, {} notes, room {room}: ours {number} {answer:?}, the source {expected:?}", hole.ticks, hole.divisions, hole.notes);
        }
        wrong
    })
}

/// All small holes, and so many others.
#[cfg(library)]
pub fn beside(seed: u64, holes: usize) -> std::process::ExitCode {
    let mut seed = Seed(seed | 1);
    let mut met = [0; 16];
    let all = small().chain((0..holes).map(|_| drawn(&mut seed)));
    let (count, wrong) = all.fold((0, 0), |(count, wrong), hole| (count + 1, wrong + usize::from(different(&hole, &mut met))));
    println!("holes: {count}, calls by number 0: {}, 13: {}, 14: {}, 15: {}, {wrong} different", met[0], met[13], met[14], met[15]);
    if wrong == 0 { std::process::ExitCode::SUCCESS } else { std::process::ExitCode::FAILURE }
}

/// Nanoseconds a hole, of ours and of the source's, and how many times faster ours is.
#[cfg(library)]
pub fn bench() -> std::process::ExitCode {
    println!("| hole | rests | ours, ns | the source's, ns | times |\n|---|--:|--:|--:|--:|");
    for (name, ticks, divisions) in [("an exact value", 960, 480), ("a triplet", 320, 480), ("a tuplet", 96, 480), ("no value", 1, 0), ("1,000 longas", 7_680_000, 480), ("49,999 longas", 49_999 * 16, 1)] {
        let rests = published(&Hole { ticks, divisions, notes: 0 }).map_or(0, |r| r.len());
        let mut out = vec![0; rests * 28];
        let times = 2_000_000 / (rests + 1) + 3;
        let best = |f: &mut dyn FnMut()| (0..5).map(|_| { let start = std::time::Instant::now(); (0..times).for_each(|_| f()); start.elapsed().as_nanos() as f64 / times as f64 }).fold(f64::MAX, f64::min);
        let ours = best(&mut || { std::hint::black_box(crate::library::gap_rests(std::hint::black_box(ticks), divisions, 0, &mut out)); });
        let theirs = best(&mut || { let mut voice = Vec::new(); let _ = std::hint::black_box(append_gap_rests(&mut voice, std::hint::black_box(ticks), divisions)); std::hint::black_box(&voice); });
        println!("| {name} | {rests} | {ours:.0} | {theirs:.0} | {:.2} |", theirs / ours);
    }
    std::process::ExitCode::SUCCESS
}

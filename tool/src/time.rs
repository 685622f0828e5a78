//! Exact times, in whole notes, and the onsets of a bar's notes from the lengths in the sheet.
use crate::score::Measure;
use crate::unread::Unread;
use ruevault::Note;
use std::cmp::Ordering;
use std::collections::BTreeMap;
use std::fmt;

/// A time in lowest terms. Sums that 128 bits don't hold are none.
#[derive(Clone, Copy, Debug, PartialEq, Eq)]
pub struct Time {
    over: u128,
    under: u128,
}

impl Time {
    pub const ZERO: Time = Time { over: 0, under: 1 };

    pub fn new(over: u128, under: u128) -> Time {
        let gcd = gcd(over, under).max(1);
        Time { over: over / gcd, under: under / gcd }
    }

    pub fn plus(self, other: Time) -> Option<Time> {
        let gcd = gcd(self.under, other.under);
        let under = (self.under / gcd).checked_mul(other.under)?;
        let over = self.over.checked_mul(under / self.under)?.checked_add(other.over.checked_mul(under / other.under)?)?;
        Some(Time::new(over, under))
    }

    pub fn number(self) -> f64 {
        self.over as f64 / self.under as f64
    }
}

fn gcd(a: u128, b: u128) -> u128 {
    if b == 0 { a } else { gcd(b, a % b) }
}

impl PartialOrd for Time {
    fn partial_cmp(&self, other: &Time) -> Option<Ordering> {
        Some(self.cmp(other))
    }
}

impl Ord for Time {
    fn cmp(&self, other: &Time) -> Ordering {
        match (self.over.checked_mul(other.under), other.over.checked_mul(self.under)) {
            (Some(a), Some(b)) => a.cmp(&b),
            _ => self.number().total_cmp(&other.number()),
        }
    }
}

impl fmt::Display for Time {
    fn fmt(&self, f: &mut fmt::Formatter) -> fmt::Result {
        if self.under == 1 { write!(f, "{}", self.over) } else { write!(f, "{}/{}", self.over, self.under) }
    }
}

pub fn length_of(note: &Note) -> Time {
    let (over, under) = note.length();
    Time::new(over.into(), under.into())
}

/// When the lines of a bar are, and how long it is.
#[derive(Default)]
pub struct Times {
    lines: BTreeMap<u64, Time>,
    /// Lines that their voices reach at different times.
    pub torn: Vec<u64>,
    /// The end of each part's last note, by part.
    pub ends: BTreeMap<u8, Time>,
}

impl Times {
    pub fn of_line(&self, line: u64) -> Time {
        self.lines.range(..=line).next_back().map_or(Time::ZERO, |(_, time)| *time)
    }

    /// The time of the first line behind one; of the bar's end behind the last.
    pub fn behind(&self, line: u64) -> Time {
        self.lines.range(line..).next().map_or_else(|| self.end(), |(_, time)| *time)
    }

    /// The end of the last note of all.
    pub fn end(&self) -> Time {
        self.ends.values().copied().max().unwrap_or(Time::ZERO)
    }

    /// All times at which something begins.
    pub fn onsets(&self) -> Vec<Time> {
        let mut all: Vec<Time> = self.lines.values().copied().collect();
        all.sort();
        all.dedup();
        all
    }
}

/// A note begins where the one before it in its voice ends; the first of a voice where the others of its line do, or else where the next of the
/// sounding notes ends. Behind a token that gave no note its voice waits for another one's line.
pub fn of(measure: &Measure, voice_of: impl Fn(&Unread) -> Option<u8>) -> Times {
    let mut times = Times::default();
    let mut ends: BTreeMap<(u8, u8), Option<Time>> = BTreeMap::new();
    let mut now = Time::ZERO;
    let mut unread = measure.lines.unread.iter().peekable();
    for line in measure.notes.chunk_by(|a, b| a.line == b.line) {
        let number = u64::from(line[0].line);
        while let Some(u) = unread.next_if(|u| u.line < number) {
            lose(&mut ends, u, &voice_of, &mut times);
        }
        let mut reached: Vec<Time> = line.iter().filter_map(|n| ends.get(&(n.part, n.voice)).copied().flatten()).collect();
        reached.sort();
        reached.dedup();
        if reached.len() > 1 {
            times.torn.push(number);
        }
        let next = || ends.values().flatten().copied().filter(|end| *end > now).min();
        let first = times.lines.is_empty() && measure.lines.unread.iter().all(|u| u.line >= number);
        now = reached.last().copied().unwrap_or_else(|| if first { Time::ZERO } else { next().unwrap_or(now) });
        times.lines.insert(number, now);
        for note in line {
            let end = now.plus(length_of(note));
            ends.insert((note.part, note.voice), end);
            let last = times.ends.entry(note.part).or_insert(Time::ZERO);
            *last = (*last).max(end.unwrap_or(now));
        }
        while let Some(u) = unread.next_if(|u| u.line == number) {
            lose(&mut ends, u, &voice_of, &mut times);
        }
    }
    unread.for_each(|u| lose(&mut ends, u, &voice_of, &mut times));
    times
}

/// Behind a token that gave no note the voice's time isn't known; the token stands where the voice was.
fn lose(ends: &mut BTreeMap<(u8, u8), Option<Time>>, u: &Unread, voice_of: impl Fn(&Unread) -> Option<u8>, times: &mut Times) {
    let Some(voice) = voice_of(u) else { return };
    let end = ends.entry((u.part as u8, voice)).or_insert(None);
    let at = end.take().unwrap_or_else(|| times.of_line(u.line)).max(times.of_line(u.line));
    times.lines.entry(u.line).or_insert(at);
}

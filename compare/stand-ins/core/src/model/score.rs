//! Stand-ins, as document 01 describes them: notes and bars hold what they are given, a note's beats are 0.0, so nothing is padded.
use super::duration::Duration;
use super::notation::*;
use super::pitch::Pitch;

#[derive(Debug, Clone, PartialEq)]
pub struct NoteAddr;

#[derive(Debug, Clone, PartialEq)]
pub struct Note {
    pub pitches: Vec<Pitch>,
    pub duration: Duration,
    pub is_rest: bool,
    pub hidden: bool,
    pub dot_count: u8,
    pub tuplet: Option<TupletInfo>,
    pub tie_start: bool,
    pub tie_end: bool,
    pub slur_start: bool,
    pub slur_end: bool,
    pub is_grace: bool,
    pub grace_slash: bool,
    pub beam: BeamState,
    pub articulations: Vec<Articulation>,
    pub lyric: Option<Lyric>,
    pub additional_lyrics: Vec<VerseLyric>,
}

impl Note {
    /// A note with that one pitch and value, all else unset.
    pub fn new(pitch: Pitch, duration: Duration) -> Self {
        Self { pitches: vec![pitch], is_rest: false, ..Self::rest(duration) }
    }

    /// A note without pitches, rest set.
    pub fn rest(duration: Duration) -> Self {
        Self {
            pitches: Vec::new(),
            duration,
            is_rest: true,
            hidden: false,
            dot_count: 0,
            tuplet: None,
            tie_start: false,
            tie_end: false,
            slur_start: false,
            slur_end: false,
            is_grace: false,
            grace_slash: false,
            beam: BeamState::None,
            articulations: Vec::new(),
            lyric: None,
            additional_lyrics: Vec::new(),
        }
    }

    pub fn beats(&self) -> f64 {
        0.0
    }
}

impl Duration {
    pub fn whole_filling_beats(_: f64) -> Self {
        Duration::Whole
    }
}

#[derive(Debug, Clone, PartialEq)]
pub struct MeasureLength;

impl MeasureLength {
    pub fn from_beats(_: f64) -> Option<Self> {
        None
    }
}

#[derive(Debug, Clone, PartialEq)]
pub struct Measure {
    pub number: u32,
    pub voices: Vec<Vec<Note>>,
    pub barline_left: Barline,
    pub barline_right: Barline,
    pub clef: Option<Clef>,
    pub key_sig: Option<KeySignature>,
    pub time_sig: Option<TimeSignature>,
    pub time_symbol: Option<TimeSymbol>,
    pub tempo: Option<u16>,
    pub actual_length: Option<MeasureLength>,
}

impl Measure {
    /// A bar with all unset, barlines Normal, voices emptied.
    pub fn empty(_: u8, _: u8) -> Self {
        Self {
            number: 0,
            voices: vec![Vec::new(); 4],
            barline_left: Barline::Normal,
            barline_right: Barline::Normal,
            clef: None,
            key_sig: None,
            time_sig: None,
            time_symbol: None,
            tempo: None,
            actual_length: None,
        }
    }
}

#[derive(Debug, Clone)]
pub struct Staff {
    pub clef: Clef,
    pub measures: Vec<Measure>,
}

impl Staff {
    pub fn new(clef: Clef) -> Self {
        Self { clef, measures: Vec::new() }
    }
}

#[derive(Debug, Clone)]
pub struct Part {
    pub name: String,
    pub short_name: String,
    pub staves: Vec<Staff>,
}

impl Part {
    pub fn new(name: &str, short_name: &str) -> Self {
        Self { name: name.to_string(), short_name: short_name.to_string(), staves: Vec::new() }
    }
}

#[derive(Debug, Clone, Default)]
pub struct Metadata {
    pub title: String,
    pub composer: String,
    pub lyricist: String,
}

#[derive(Debug, Clone)]
pub struct Settings {
    pub time_signature: TimeSignature,
    pub key_signature: KeySignature,
    pub tempo_bpm: u16,
}

#[derive(Debug, Clone)]
pub struct Score {
    pub metadata: Metadata,
    pub parts: Vec<Part>,
    pub settings: Settings,
}

impl Default for Score {
    fn default() -> Self {
        Self {
            metadata: Metadata::default(),
            parts: Vec::new(),
            settings: Settings {
                time_signature: TimeSignature::default(),
                key_signature: KeySignature::default(),
                tempo_bpm: 0,
            },
        }
    }
}

pub fn tuplet_group_ranges(_: &[Note]) -> Vec<(usize, usize)> {
    Vec::new()
}

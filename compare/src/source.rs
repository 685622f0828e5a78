//! The published source's answers, in document 01's numbers.
use acorde_core::{Articulation, Barline, BeamState, Clef, Duration, KeySignature, Measure, Note, Step, TimeSymbol};
pub use acorde_io::{ImportReport, parse_kern_with_report};

pub fn value_number(d: &Duration) -> u8 {
    match d {
        Duration::Longa => 0,
        Duration::Breve => 1,
        Duration::Whole => 2,
        Duration::Half => 3,
        Duration::Quarter => 4,
        Duration::Eighth => 5,
        Duration::Sixteenth => 6,
        Duration::ThirtySecond => 7,
        Duration::SixtyFourth => 8,
        Duration::HundredTwentyEighth => 9,
    }
}

pub fn barline_number(b: &Barline) -> u8 {
    match b {
        Barline::Normal => 0,
        Barline::Double => 1,
        Barline::Final => 2,
        Barline::RepeatStart => 3,
        Barline::RepeatEnd => 4,
        Barline::Invisible => 8,
        other => panic!("a barline that the reader never gives: {other:?}"),
    }
}

pub fn clef_number(c: &Clef) -> u8 {
    match c {
        Clef::Treble => 1,
        Clef::Treble8vb => 2,
        Clef::Treble8va => 3,
        Clef::Bass => 4,
        Clef::Bass8vb => 5,
        Clef::Soprano => 6,
        Clef::MezzoSoprano => 7,
        Clef::Alto => 8,
        Clef::Tenor => 9,
        Clef::Baritone => 10,
        Clef::Percussion => 11,
        other => panic!("a clef that the reader never gives: {other:?}"),
    }
}

pub fn symbol_number(s: &TimeSymbol) -> u8 {
    match s {
        TimeSymbol::Common => 1,
        TimeSymbol::Cut => 2,
    }
}

pub fn beam_number(b: &BeamState) -> u8 {
    match b {
        BeamState::None => 0,
        BeamState::Begin => 1,
        BeamState::Continue => 2,
        BeamState::End => 3,
        other => panic!("a beam that the reader never gives: {other:?}"),
    }
}

pub fn articulation_number(a: &Articulation) -> u8 {
    match a {
        Articulation::Staccato => 0,
        Articulation::Accent => 1,
        Articulation::Tenuto => 2,
        Articulation::Fermata => 3,
        Articulation::Trill => 4,
        other => panic!("an articulation that the reader never gives: {other:?}"),
    }
}

pub fn mode_number(k: &KeySignature) -> u8 {
    u8::from(k.mode == "minor")
}

/// Request E7's fifteen standard signatures, as they stand between the brackets: the steps in the order in which the published
/// `KeySignature` alters one more with each fifth, in lower case, each with its sign.
pub fn standard_signatures() -> Vec<String> {
    let alter = |fifths: i8, step: char| KeySignature { fifths, mode: "major".to_string() }.alter_for_step(&Step::from_char(step).unwrap());
    let mut all = vec![String::new()];
    for (sign, one) in [('#', 1), ('-', -1)] {
        let mut signature = String::new();
        for n in 0..7 {
            let step = "CDEFGAB".chars().find(|step| alter(one * n, *step) != alter(one * (n + 1), *step)).unwrap();
            signature.extend([step.to_ascii_lowercase(), sign]);
            all.push(signature.clone());
        }
    }
    all
}

/// Whether request E7 parts from the source over a token: a signature that the source takes and that is not standard.
pub fn set_apart(token: &str) -> bool {
    let Some(signature) = token.strip_prefix("*k[").and_then(|s| s.strip_suffix(']')) else {
        return false;
    };
    let taken = || parse_kern_with_report(&format!("**kern\n{token}\n4c\n")).is_ok_and(|report| report.diagnostics.is_empty());
    !standard_signatures().iter().any(|s| s == signature) && taken()
}

/// The numbers of document 01 for the notices of tandem interpretations, by their wording.
pub fn interpretation_notice(reason: &str) -> u8 {
    match reason {
        "clef, key and meter changes inside a bar are not imported" => 8,
        "clef is outside the supported subset" => 9,
        "malformed key signature" => 10,
        "non-standard key signature" => 11,
        "meter is outside the supported subset" => 12,
        "mensuration sign is outside the subset" => 13,
        "tempo is outside the supported subset" => 14,
        "interpretation is outside the supported subset" => 15,
        other => panic!("not a notice of an interpretation: {other}"),
    }
}

pub fn measures(report: &ImportReport) -> &[Measure] {
    &report.score.parts[0].staves[0].measures
}

/// The notes of the first voice of a text's first part, over all bars.
pub fn notes(report: &ImportReport) -> Vec<&Note> {
    measures(report).iter().flat_map(|m| m.voices[0].iter()).collect()
}

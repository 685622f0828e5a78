//! The library on the shipped example and on short texts.
use ruevault::{Articulation, Barline, Beam, Clef, Key, Meter, Mode, Note, Pitch, Record, Refusal, Sheet, Sign, Value};

const SEXTET: &[u8] = include_bytes!("../../examples/sextet.krn");

/// Document 01's whole case: `**kern`, `4c`, `*-`.
const WHOLE: &[u8] = b"**kern\n4c\n*-\n";
const WHOLE_SHEET: &str = "4B524E00010001007700000001000000\
    01000004010000000200000001000000000000000100000000000000000400\
    0200000001000000000404000100000000000000\
    0300000100000000000000000000000000000000\
    0400000004040000000000000000000000000000000000000000000000000000";

fn hex(bytes: &[u8]) -> String {
    bytes.iter().map(|b| format!("{b:02X}")).collect()
}

fn records(sheet: &[u8]) -> Vec<Record<'_>> {
    ruevault::walk(sheet).collect()
}

fn voices(notes: &[Note], part: u8, line: u32) -> Vec<u8> {
    notes.iter().filter(|n| (n.part, n.line) == (part, line)).map(|n| n.voice).collect()
}

fn refusal(number: u32, line: u64, figure: u64) -> Refusal {
    Refusal { number, line, figure }
}

#[test]
fn the_whole_case_of_document_01() {
    assert_eq!(hex(&ruevault::sheet_of(WHOLE).unwrap()), WHOLE_SHEET);
}

#[test]
fn the_low_staff_before_and_after_line_11() {
    let sheet = Sheet::read(SEXTET).unwrap();
    let notes: Vec<Note> = sheet.notes().collect();
    assert_eq!(notes.len(), 16);
    assert_eq!(voices(&notes, 0, 10), [0, 2, 1, 3]);
    assert_eq!(voices(&notes, 0, 12), [0, 1, 3, 2]);
}

#[test]
fn a_buffer_that_is_lent() {
    let mut out = [7; 120];
    assert_eq!(ruevault::read(WHOLE, &mut out), Ok(119));
    assert_eq!((hex(&out[..119]).as_str(), out[119]), (WHOLE_SHEET, 7));
    let mut short = [7; 118];
    assert_eq!(ruevault::read(WHOLE, &mut short), Err(refusal(13, 0, 119)));
    assert_eq!(short, [7; 118]);
}

#[test]
fn refusals() {
    let of = |text: &[u8]| ruevault::sheet_of(text).unwrap_err();
    assert_eq!(of(b"**kern\n4c\n\xFF\n"), refusal(2, 0, 10));
    assert_eq!(of(b"**kern\tkern\n"), refusal(3, 1, 0));
    assert_eq!(of(b"**dynam\n"), refusal(5, 1, 0));
    assert_eq!(of(b"**kern\n4c\t4d\n"), refusal(6, 2, 2));
    assert_eq!(of(b"**kern\t**kern\n*\t4c\n"), refusal(7, 2, 0));
    assert_eq!(of(b"**kern\n*^\n*^\t*^\n*\t*^\t*\t*\n"), refusal(8, 4, 0));
    assert_eq!(of(b"**kern\t**text\t**kern\n*\t*v\t*v\n"), refusal(17, 2, 2));
    assert_eq!(of(b""), refusal(11, 0, 0));
    assert_eq!(of(b"**kern\n*-\n"), refusal(12, 0, 0));
}

#[test]
fn notices_have_their_words_from_the_library() {
    assert_eq!(ruevault::notice_code(2), "humdrum.unsupported-spine");
    assert_eq!(ruevault::notice_reason(2), "only **kern spines are imported");
    assert!((1..=21).all(|n| !ruevault::notice_code(n).is_empty() && !ruevault::notice_reason(n).is_empty()));
    assert!([0, 22, 255].iter().all(|n| ruevault::notice_code(*n).is_empty() && ruevault::notice_reason(*n).is_empty()));
}

#[test]
fn names_of_parts() {
    assert_eq!(ruevault::part_name(b"", false, 0, 0, 0), "Spine 1");
    assert_eq!(ruevault::part_name(b"", false, 0, 0, 255), "Spine 256");
    assert_eq!(ruevault::part_name(b"*I\"Viola", true, 3, 5, 9), "Viola");
    assert_eq!(ruevault::part_name(b"*I\"", true, 0, 0, 9), "");
}

#[test]
fn a_notice_of_number_17_keeps_its_bytes() {
    let sheet = ruevault::sheet_of(b"**kern\n4cXyX\n*-\n").unwrap();
    let records = records(&sheet);
    let Record::Notice(notice) = &records[0] else { panic!("the notice stands before its note") };
    assert_eq!((notice.number, notice.line, notice.column), (17, 2, 1));
    assert_eq!(notice.preserved(b""), b"XyX");
    assert!(matches!(records[1..], [Record::Note(_), Record::Bar(_), Record::Part(_), Record::End(_)]));
}

/// The walk takes any bytes, and ends where they are no record.
#[test]
fn bytes_that_are_no_sheet() {
    let sheet = ruevault::sheet_of(SEXTET).unwrap();
    let whole = records(&sheet);
    assert_eq!(ruevault::head(&sheet).unwrap().length as usize, sheet.len());
    for cut in 0..sheet.len() {
        assert!(whole.starts_with(&records(&sheet[..cut])));
    }
    for at in 0..sheet.len() {
        let mut other = sheet.clone();
        other[at] = 255;
        records(&other);
    }
}

#[test]
fn holes_in_a_buffer_that_is_lent() {
    let mut out = [7; 60];
    assert_eq!(ruevault::gap_rests(8000, 480, 0, &mut out), Ok(56));
    assert_eq!(out[..4], [1, 0, 0, 0]);
    assert_eq!((out[28..32].to_vec(), out[43..46].to_vec(), out[56..].to_vec()), (vec![1, 0, 0, 4], vec![129, 3, 2], vec![7; 4]));
    let mut short = [7; 55];
    assert_eq!(ruevault::gap_rests(8000, 480, 0, &mut short), Err(refusal(13, 0, 56)));
    assert_eq!(ruevault::gap_rests(8000, 480, 49_999, &mut short), Err(refusal(15, 0, 0)));
    assert_eq!(ruevault::gap_rests(1, 0, 0, &mut short), Err(refusal(14, 0, 0)));
    assert_eq!(short, [7; 55]);
    let rests = ruevault::rests_of(320, 480, 0).unwrap();
    assert!(matches!(rests[..], [Note { value: Value::Quarter, actual: 3, normal: 2, part: 0, line: 0, .. }]) && rests[0].rest() && rests[0].hidden());
}

/// A sheet and its text together: typed values, and words.
#[test]
fn a_sheet_with_its_text() {
    let text = "!!!OTL: Lied\n!!!COM: Schubert, Franz\n**kern\n*I\"Voice\n*I'V\n*clefC3\n*k[b-e-]\n*g:\n*M2/2\n*met(c|)\n*MM96\n12dL'~\n12e\n12fJ;\n2.r\n=:|!|:\n1B-- 1d [X\n==\n*-\n".as_bytes();
    let sheet = Sheet::read(text).unwrap();
    assert_eq!((sheet.title(), sheet.composer(), sheet.lyricist()), (Some("Lied"), Some("Schubert, Franz"), None));
    let part = sheet.parts().next().unwrap();
    assert_eq!((sheet.part_name(&part).as_str(), sheet.piece(part.short_name), part.clef), ("Voice", Some("V"), Clef::Alto));
    let bars: Vec<_> = sheet.bars().collect();
    assert_eq!(bars[0].key(), Some(Key { fifths: -2, mode: Mode::Minor }));
    assert_eq!((bars[0].meter, bars[0].sign, bars[0].tempo), (Some(Meter { numerator: 2, denominator: 2 }), Some(Sign::Cut), 96));
    assert_eq!((bars[0].right, bars[1].left, bars[1].right), (Barline::RepeatEnd, Barline::RepeatStart, Barline::Final));
    assert_eq!((bars[1].clef, bars[1].meter, bars[1].key()), (None, None, None));
    let notes: Vec<Note> = sheet.notes().collect();
    assert_eq!(notes[0].articulations().collect::<Vec<_>>(), [Articulation::Staccato, Articulation::Tenuto]);
    assert_eq!((notes[0].beam, notes[1].beam, notes[2].beam, notes[3].beam), (Some(Beam::Begin), Some(Beam::Continue), Some(Beam::End), None));
    assert_eq!((notes[0].value, notes[0].length(), notes[3].length()), (Value::Eighth, (8, 96), (12, 16)));
    assert_eq!(notes[4].pitches().collect::<Vec<_>>(), [Pitch { step: 6, octave: 3, alter: -2 }, Pitch { step: 1, octave: 4, alter: 0 }]);
    assert_eq!(notes[4].to_string(), "whole B-double-flat 3 D4 (tie start)");
    let notice = sheet.notices().last().unwrap();
    assert_eq!((notice.number, sheet.preserved(&notice)), (17, &b"X"[..]));
    assert_eq!(sheet.head().notes, 5);
    let end = sheet.end().unwrap();
    assert_eq!((end.key, end.meter, end.tempo), (bars[0].key().unwrap(), bars[0].meter.unwrap(), 96));
    let bytes = sheet.clone().into_bytes();
    assert_eq!(Sheet::tie(text, &bytes), Some(sheet));
    assert_eq!(Sheet::tie(text, &bytes[1..]), None);
    assert_eq!(ruevault::measure(text), Ok(bytes.len()));
}

#[test]
fn numbers_and_words_of_values() {
    assert!(Value::ALL.iter().zip(0..).all(|(v, n)| v.number() == n && Value::from_number(n) == Some(*v)));
    assert_eq!((Value::ALL.len(), Clef::ALL.len(), Barline::ALL.len(), Beam::ALL.len(), Articulation::ALL.len()), (10, 11, 6, 3, 5));
    assert_eq!((Value::from_number(10), Barline::from_number(5), Clef::from_number(0), Beam::from_number(0)), (None, None, None, None));
    assert_eq!(Barline::from_number(8), Some(Barline::Invisible));
    assert_eq!(format!("{:>6}|{}", Mode::Minor, Clef::BassDown), " minor|bass clef, octave down (Fv4)");
    assert_eq!(Key { fifths: 7, mode: Mode::Minor }.to_string(), "A-sharp minor (7 sharps)");
    assert_eq!(Key { fifths: 1, mode: Mode::Major }.to_string(), "G major (1 sharp)");
}

#[test]
fn a_refusal_says_its_line() {
    assert_eq!(refusal(7, 12, 0).to_string(), "line 12: the record begins with `*`, but not all of its tokens do");
    assert_eq!(refusal(11, 0, 0).to_string(), "the text has no header");
    assert_eq!(refusal(8, 3, 0).words(), "a new branch of part 1 finds no voice, as the part would have more than four lines");
}

//! What `show` prints: words, and JSON's shape.
mod common;
use common::{example, examples, run, scratch, shown};
use std::fs;

#[test]
fn the_source_line_stands_under_its_bar() {
    let run = run(&["show", "examples/sextet.krn"], b"");
    assert_eq!(run.status, 0);
    let (one, two) = run.said.split_once("\nBar 2 (=2, lines 15-16)\n").unwrap();
    assert!(one.contains("    voice 4: [10] half F4; [12] quarter D4; [13] quarter E4\n    line 8: *^\t*\n    line 9: *^\t*^\t*\n    line 11: *^\t*-\t*-\t*^\t*\n  barline: normal\n"), "{one}");
    assert!(one.contains("voice 2: [10] half C4; [12] quarter B-flat 2; [13] quarter D3\n"));
    assert!(two.contains("    line 15: *v\t*v\t*v\t*v\t*\n") && !two.contains("line 11"));
    assert!(one.starts_with("Title: Sextet, the low staff\nComposer: Ruevault\n"));
}

#[test]
fn standard_input_is_a_file_like_others() {
    assert_eq!(shown(&example("sextet.krn")), run(&["show", "examples/sextet.krn"], b"").said);
}

#[test]
fn the_words_of_musicians() {
    let said = shown(b"**kern\n*clefC3\n*k[b-e-]\n*g:\n*M6/8\n*MM96\n2.B-[\n8r\n=||\n4c 4e 4g\n12dLT'\n12e_\n12f##J)\n8ccq\n=:|\n4c\n==\n*-\n");
    for words in [
        "alto clef (C3), key G minor (2 flats), meter 6/8, tempo quarter = 96\n",
        "voice 1: dotted half B-flat 3 (tie start); eighth rest\n",
        "voice 1: quarter C4 E4 G4; eighth 3:2 D4 (beam begin, trill, staccato);\n      eighth 3:2 E4 (tie end, tie start, beam); ",
        "eighth 3:2 F-double-sharp 4 (slur end, beam end);\n      slashed grace eighth C5\n",
        "  barline: double\n",
        "  barline: repeat end\n",
        "  barline: final\n",
        "Spine 1",
    ] {
        assert!(said.contains(words), "{words} is not in\n{said}");
    }
}

/// Lines are wrapped between notes.
#[test]
fn long_voices_are_wrapped() {
    for name in examples("examples") {
        let said = run(&["show", &name], b"").said;
        assert!(said.lines().filter(|l| l.contains("; ")).all(|l| l.chars().count() <= 100 || l.contains("lost:")), "{said}");
    }
}

#[test]
fn ratios_are_tuplets() {
    let said = shown(b"**kern\n3%2c\n2%3d\n4%2e\n3%2.r\n3%2cq\n=\n1c\n*-\n");
    assert!(said.contains("voice 1: whole 3:2 C4; breve 4:3 D4; half E4; dotted whole 3:2 rest; slashed grace whole 3:2 C4\n"), "{said}");
    let said = run(&["show", "examples/renaissance.krn"], b"").said;
    assert!(said.contains("    voice 1: whole 3:2 G4; whole 3:2 F4; whole 3:2 E4\n"), "{said}");
    assert!(!said.contains("NOT READ"), "{said}");
}

/// The bar has the source's label and lines; what the first bar has is told from what is filled in.
#[test]
fn headings_and_defaults() {
    let said = shown(b"**kern\t**kern\n*\t*M3/4\n4c\t4e\n=5-\t=5-\n4d\t.\n==\t==\n*-\t*-\n");
    assert!(said.contains("\nBar 1 (lines 2-3)\n") && said.contains("\nBar 2 (=5-, line 5)\n"), "{said}");
    assert!(said.contains("  Spine 1: key C major (not given), meter 4/4 (not given)\n"), "{said}");
    assert!(said.contains("  Spine 2: key C major (not given), meter 3/4\n"), "{said}");
    assert!(said.contains("  Spine 1, treble clef (G2) (not given)\n"));
    let given = shown(b"**kern\n*clefG2\n*k[]\n*M4/4\n=1\n4c\n*-\n");
    assert!(given.contains("  Spine 1: treble clef (G2), key C major, meter 4/4\n") && !given.contains("not given"), "{given}");
    // What stands behind a note of the bar isn't the bar's.
    let behind = shown(b"**kern\t**kern\n4c\t.\n*M3/4\t*M3/4\n4d\t4e\n=\t=\n4e\t4f\n*-\t*-\n");
    let first = behind.split("\nBar 2").next().unwrap();
    assert!(first.contains("meter 4/4 (not given)\n"), "{behind}");
    let quartet = run(&["show", "examples/quartet.krn"], b"").said;
    assert!(quartet.contains("\nBar 4 (=4!|:, lines 20-23)\n  barline on the left: repeat start\n"), "{quartet}");
    // Parts of one name have their numbers.
    assert!(quartet.contains("\n  Violin (part 4), treble clef (G2)\n  Violin (part 3), treble clef (G2)\n  Viola, alto clef (C3)\n"));
}

/// A bar of tokens that gave no note has no BAR: it goes with the next, and both barlines stand in the heading.
#[test]
fn a_bar_without_notes() {
    let said = shown(b"**kern\n=1\n4c\n=2\n4096d\n=3\n4e\n=4\n*-\n");
    assert!(said.contains("\nBar 2 (=2 =3, lines 5-7)\n  Spine 1\n    voice 1: NOT READ: line 5, token 1, `4096d`; quarter E4\n"), "{said}");
    let said = shown(b"**kern\n=1\n=2\n4c\n*-\n");
    assert!(said.contains("\nBar 1 (=2, line 4)\n"), "{said}");
}

/// Each token of a kern column that gave no note stands in its voice.
#[test]
fn unread_tokens_stand_in_their_voices() {
    let said = run(&["show", "examples/lost.krn"], b"").said;
    let (one, two) = said.split_once("\nBar 2 ").unwrap();
    assert!(one.contains("    voice 1: [7] quarter E4; [8] quarter F4; [9] quarter G4; [11] eighth A4;\n      NOT READ: line 12, token 2, `512ff`\n"), "{said}");
    assert!(one.contains("[7] quarter C4; NOT READ: line 8, token 1, `4096c`; NOT READ: line 9, token 1, `x`;\n"), "{said}");
    assert!(two.contains("\nLost:\n  no note: reciprocal duration is outside the supported range: 2, first 8:1 `4096c`\n"), "{said}");
    assert!(two.contains("\nIgnored:\n  stems, not imported: 2, first 7:1\n  signifier `x`, not imported: 9:1\n"));
    assert!(two.ends_with("\n\n2 parts, 2 bars, 9 notes; lost: 3, ignored: 3, harmless: 1\n"));
}

/// Null and blank tokens are none, nor are those of other columns, of barlines and of interpretations.
#[test]
fn tokens_that_need_no_note() {
    assert!(!shown(b"**kern\t**text\n*xyz\t*\n4c\tla\n.\tla\n \tla\n=\t=\n*-\t*-\n").contains("NOT READ"));
}

#[test]
fn unread_tokens_past_the_notices() {
    let text = format!("**kern\n{}4096c\n=\n4e\n*-\n", "4d/\n".repeat(1024));
    assert!(shown(text.as_bytes()).contains("NOT READ: line 1026, token 1, `4096c`\n"));
}

#[test]
fn unread_tokens_without_a_voice_or_a_bar() {
    let said = shown(b"**kern\n4c\n*^\n4d\t0z\n*v\t*v\n==\n0y\n*-\n");
    assert!(said.contains("    a line without any note: NOT READ: line 4, token 2, `0z`\n"), "{said}");
    assert!(said.contains("\nBehind the last bar\n  Spine 1, voice 1: NOT READ: line 7, token 1, `0y`\n"), "{said}");
}

/// Lines keep their voices through joins and exchanges.
#[test]
fn voices_of_unread_tokens() {
    let said = shown(b"**kern\n*^\n4c\t4e\n*x\t*x\n0z\t4c\n*v\t*v\n0y\n=\n*-\n");
    assert!(said.contains("voice 2: [3] quarter E4; NOT READ: line 5, token 1, `0z`; NOT READ: line 7, token 1, `0y`\n"), "{said}");
}

/// A record with path tokens is the bar's that is open there, whatever comes next in it; a closing `*-` alone marks nothing.
#[test]
fn path_records_are_under_the_open_bar() {
    let said = shown(b"**kern\n=1\n4c\n*^\n=2\t=2\n4c\t4e\n*v\t*v\n=3\n=4\n4c\n*^\n==\t==\n*v\t*v\n*-\n*^\n");
    let bars: Vec<&str> = said.split("\nBar ").collect();
    assert!(bars[1].starts_with("1 (=1, lines 3-4)\n") && bars[1].contains("\n    line 4: *^\n  barline: "));
    assert!(bars[2].contains("\n    line 7: *v\t*v\n"));
    assert!(bars[3].starts_with("3 (=4, lines 10-11)\n") && bars[3].contains("\n    line 11: *^\n"));
    assert!(bars[3].contains("\nBehind the last bar\n  line 13: *v\t*v\n"));
    assert!(!said.contains("line 14: ") && !said.contains("line 15: *^"));
    let plain = shown(b"**kern\n4c\n*-\n");
    assert!(plain.contains("    voice 1: quarter C4\n  barline: normal\n") && !plain.contains("*-"), "{plain}");
}

#[test]
fn a_sheet_without_its_text() {
    let folder = scratch("alone");
    let sheet = folder.join("chorale.sheet");
    let name = sheet.to_str().unwrap();
    assert_eq!(run(&["read", "examples/chorale.krn", "-o", name], b"").status, 0);
    let alone = run(&["show", name], b"");
    let beside = run(&["show", "examples/chorale.krn"], b"");
    assert_eq!((alone.status, alone.err.as_str()), (0, ""));
    assert!(alone.said.starts_with("Title: 13 bytes of the text, from byte 8\n"), "{}", alone.said);
    assert!(alone.said.contains("\n  Part 4 (named in the text, 7 bytes from byte 102), treble clef (G2)\n"), "{}", alone.said);
    let voices = |said: &str| said.lines().filter(|l| l.contains("voice ") || l.starts_with("      ")).map(String::from).collect::<Vec<_>>();
    assert_eq!(voices(&alone.said), voices(&beside.said));
    assert!(alone.said.ends_with("\n4 parts, 9 bars, 129 notes, 0 notices. What was not read is seen only beside the text.\n"));
    let bytes = fs::read(&sheet).unwrap();
    assert_eq!(run(&["show", "-"], &bytes).said, alone.said);
    for broken in [&bytes[..bytes.len() - 1], &[&bytes[..], b"x"].concat()] {
        let done = run(&["show", "-"], broken);
        assert_eq!((done.status, done.out.len()), (2, 0));
        assert_eq!(done.err, "ruevault: -: this begins as a sheet does, but is not a whole one\n");
    }
    let check = run(&["check", name], b"");
    assert_eq!(check.status, 1);
    assert!(check.err.ends_with("  hint: this is a sheet, no text; `ruevault show` shows it\n"), "{}", check.err);
    fs::remove_dir_all(folder).unwrap();
}

/// Whether a text is one JSON value; answers what stands behind it.
fn value(json: &[u8]) -> Option<&[u8]> {
    match json.first()? {
        b'{' => members(&json[1..], b'}', |rest| value(string(rest)?.strip_prefix(b":")?)),
        b'[' => members(&json[1..], b']', value),
        b'"' => string(json),
        b't' => json.strip_prefix(b"true"),
        b'f' => json.strip_prefix(b"false"),
        b'n' => json.strip_prefix(b"null"),
        _ => {
            let rest = json.strip_prefix(b"-").unwrap_or(json);
            let digits = rest.iter().take_while(|b| b.is_ascii_digit()).count();
            (digits > 0).then_some(&rest[digits..])
        }
    }
}

fn members(mut rest: &[u8], close: u8, member: impl Fn(&[u8]) -> Option<&[u8]>) -> Option<&[u8]> {
    if rest.first()? == &close {
        return Some(&rest[1..]);
    }
    loop {
        rest = member(rest)?;
        match rest.first()? {
            b',' => rest = &rest[1..],
            b if *b == close => return Some(&rest[1..]),
            _ => return None,
        }
    }
}

fn string(json: &[u8]) -> Option<&[u8]> {
    let mut rest = json.strip_prefix(b"\"")?;
    loop {
        match rest.first()? {
            b'"' => return Some(&rest[1..]),
            b'\\' => rest = rest.get(2..)?,
            0..32 => return None,
            _ => rest = &rest[1..],
        }
    }
}

/// One object a file, each on a line of its own.
#[test]
fn json_is_well_formed() {
    let names: Vec<String> = [examples("examples"), examples("examples/broken")].concat();
    for command in ["show", "check"] {
        let words: Vec<&str> = [command, "--json"].into_iter().chain(names.iter().map(String::as_str)).collect();
        let done = run(&words, b"");
        assert_eq!((done.status, done.err.as_str()), (1, ""));
        let lines: Vec<&str> = done.said.lines().collect();
        assert_eq!(lines.len(), names.len());
        for (line, name) in lines.iter().zip(&names) {
            assert_eq!(value(line.as_bytes()), Some(&b""[..]), "{line}");
            let accepted = !name.contains("broken");
            assert!(line.starts_with(&format!("{{\"schema\":\"ruevault-{command}-1\",\"file\":\"{name}\",\"accepted\":{accepted},")), "{line}");
        }
    }
}

#[test]
fn json_holds_what_is_shown() {
    let said = run(&["show", "--json", "examples/lost.krn"], b"").said;
    for piece in [
        "\"title\":\"Tokens that give no note\",\"composer\":null",
        "\"bars\":[{\"bar\":1,\"labels\":[\"=1\"],\"first_line\":7,\"last_line\":12,",
        "\"meter_given\":true",
        "\"key\":true,\"fifths\":0,\"mode\":0,\"key_given\":false",
        "\"unread\":[{\"part\":0,\"voice\":0,\"line\":8,\"token\":1,\"text\":\"4096c\"}",
        "{\"part\":1,\"voice\":0,\"line\":12,\"token\":2,\"text\":\"512ff\"}]",
        "\"paths\":[{\"line\":10,\"text\":\"*\\t*^\"}]",
        "{\"part\":1,\"voice\":1,\"line\":11,\"token\":3,\"value\":4,\"dots\":0,\"actual\":0,\"normal\":0,\"beam\":0,\"flags\":0,\"pitches\":[{\"step\":2,\"octave\":4,\"alter\":0}],\"articulations\":[]}",
        "\"behind\":{\"paths\":[],\"unread\":[]}",
        "{\"number\":17,\"code\":\"humdrum.unsupported-signifier\"",
        "\"account\":{\"parts\":2,\"bars\":2,\"notes\":9,\"unread\":3,",
    ] {
        assert!(said.contains(piece), "{piece} is not in\n{said}");
    }
    let said = run(&["check", "--json", "examples/lost.krn"], b"").said;
    assert!(said.contains("{\"class\":\"lost\",\"number\":18,\"code\":\"humdrum.unsupported-token\",\"what\":\"no note: data token has neither a pitch nor a rest\",\"count\":1,\"places\":[{\"line\":9,\"column\":1,\"token\":1,\"text\":\"x\"}]}"), "{said}");
    let said = run(&["check", "--json", "examples/broken/06-short-record.krn"], b"").said;
    assert_eq!(said, "{\"schema\":\"ruevault-check-1\",\"file\":\"examples/broken/06-short-record.krn\",\"accepted\":false,\"error\":{\"number\":6,\"line\":3,\"column\":9,\"text\":\"3 tokens, 4 expected\",\"hints\":[]}}\n");
    let sheet = ruevault::sheet_of(b"!!!OTL: A \"b\\c\"\n**kern\n4c\n*-\n").unwrap();
    assert!(run(&["show", "--json", "-"], &sheet).said.contains("\"with_text\":false,\"title\":{\"at\":8,\"len\":7}"));
    assert!(run(&["show", "--json", "-"], b"!!!OTL: A \"b\\c\"\n**kern\n4c\n*-\n").said.contains("\"title\":\"A \\\"b\\\\c\\\"\""));
}

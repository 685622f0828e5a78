//! What is said of a text: refusals with their place and hints, and what was lost, ignored, or is harmless.
mod common;
use common::{checked, example, examples, refused, run};

/// The number in `..error[N]: ..` or `..warning[N]: ..`, and the place before it.
fn taken(line: &str, severity: &str) -> (u64, u64, u32) {
    let (place, rest) = line.split_once(&format!(": {severity}[")).unwrap_or_else(|| panic!("{line}"));
    let (number, _) = rest.split_once("]: ").unwrap();
    let mut place = place.rsplit(':').map(|n| n.parse::<u64>().unwrap());
    let (column, line) = (place.next().unwrap(), place.next().unwrap_or(0));
    (line, column, number.parse().unwrap())
}

fn place(message: &str, severity: &str) -> (u64, u64, u32) {
    let first = message.lines().next().unwrap();
    taken(first.split_once(':').map_or(first, |(_, rest)| rest), severity)
}

/// Each broken example is refused with the number that its name begins with.
#[test]
fn broken_examples() {
    let names = examples("examples/broken");
    assert!(names.len() >= 16);
    for name in names {
        let done = run(&["check", &name], b"");
        let number: u32 = name.rsplit('/').next().unwrap()[..2].parse().unwrap();
        assert_eq!((done.status, done.said.as_str()), (1, ""), "{name}");
        assert!(done.err.starts_with(&format!("{name}:")), "{}", done.err);
        let (line, column, found) = place(&done.err, "error");
        assert_eq!((found, line > 0, column > 0), (number, true, true), "{}", done.err);
    }
}

fn said_of(name: &str) -> String {
    run(&["check", &format!("examples/broken/{name}.krn")], b"").err.replace(&format!("examples/broken/{name}.krn:"), "")
}

#[test]
fn places_marks_and_hints() {
    assert_eq!(said_of("06-short-record"), "3:9: error[6]: 3 tokens, 4 expected\n  3 | 4D\t4G\t4b\n    |   \t  \t  ^\n");
    assert_eq!(
        said_of("06-blanks"),
        "2:7: error[6]: 1 token, 2 expected\n  2 | 4c  4e\n    |       ^\n  hint: blanks stand where tabs are wanted; columns are separated by one tab each\n"
    );
    assert_eq!(
        said_of("03-byte-order-mark"),
        "1:1: error[3]: a token of the header doesn't begin with `**`\n  1 | \\u{feff}**kern\n    | ^\n  hint: the file begins with a byte order mark (U+FEFF), which isn't part of a Humdrum text; save it as UTF-8 without one\n"
    );
    assert!(said_of("03-header").starts_with("1:8: error[3]: "));
    assert!(said_of("03-header").ends_with("  hint: `kern` is written `**kern`, with two stars\n"));
    assert!(said_of("05-capital").ends_with("  hint: `**Kern` is written `**kern`, in small letters\n"));
    assert!(said_of("05-bare-cr").contains("\n  1 | **kern\\r4c\\r*-\n  hint: lines end with CR alone"));
    assert!(said_of("02-latin-1").starts_with("1:11: error[2]: "));
    assert!(said_of("02-latin-1").contains("\n  hint: the byte E8 is `è` in Latin-1; "));
    assert!(said_of("02-utf-16").contains("\n  hint: the file begins as UTF-16 does; "));
    assert!(said_of("11-empty").ends_with("\n  hint: the file is empty\n"));
    assert!(said_of("11-comments").contains("\n  hint: it has comments and empty lines only; "));
    assert!(said_of("12-no-note").starts_with("1:1: error[12]: the text has no note\n"));
    assert!(said_of("04-columns").starts_with("1:1793: error[4]: 257 tokens in the header, 256 are the most\n"));
    assert!(said_of("09-spines").starts_with("10:1: error[9]: 257 spines behind this record, 256 are the most\n"));
    assert!(said_of("07-mixed").starts_with("3:3: error[7]: "));
    assert_eq!(
        said_of("08-full-staff"),
        "6:3: error[8]: Viola would have more than four lines\n  6 | *\t*^\t*\t*\t*\n    |  \t^\n  the staff of token 1 of the header is full with token 1 (voice 1), token 2 (voice 3), token 3 (voice 2), token 4 (voice 4); the branch of token 2 finds no voice\n"
    );
    assert_eq!(
        said_of("17-join"),
        "3:1: error[17]: the `*v` from token 1 on join lines of different parts, or of kern and of another kind\n  3 | *v\t*v\n    | ^\n"
    );
}

#[test]
fn hints_at_what_can_not_be_seen() {
    assert!(refused(b"**kern  **kern\n4c  4d\n").contains("\n  hint: blanks stand in the header; "));
    assert!(refused(b"**kern \n4c\n").contains("\n  hint: blanks stand in the header; "));
    assert!(refused(b"*\0*\0k\0e\0r\0n\0\n\x004\0c\0\n\0").contains("\n  hint: every other byte is zero, as in UTF-16; "));
    assert!(refused(b"!!! a\r**kern\r4c\r").contains("\n  hint: lines end with CR alone, "));
    assert!(refused(b"<?xml version=\"1.0\"?>\n").contains("\n  hint: the file looks like XML"));
    assert!(refused(b"**kern\t**kern\n4c\t\t4e\n").contains("\n  hint: the record has an empty token: "));
    assert!(refused("**kern\n4\u{200b}c\t4\u{a0}d\n".as_bytes()).contains("\n  2 | 4\\u{200b}c\t4\\u{a0}d\n"));
    assert!(refused(b"**kern\n4c\n\xE2\x82").contains("ends") || refused(b"**kern\n4c\n\xE2\x82").contains("hint"));
    let said = checked(b"**Kern\t**kern\n4c\t4d\n*-\t*-\n");
    assert!(said.contains("\n  hint: `**Kern` is written `**kern`, in small letters and with nothing behind it\n"), "{said}");
    // A chord, read as it stands.
    assert!(!checked(b"**kern\n4c  4e\n*-\n").contains("hint"));
}

/// The part's name comes from the library, also where no note stands before the refused line.
#[test]
fn a_full_staff_by_name() {
    let full = "*^\t*\n*^\t*^\t*\n*\t*^\t*\t*\t*\n";
    let name = |header: &str| {
        let said = refused(format!("{header}{full}").as_bytes());
        said.lines().next().unwrap().split_once("error[8]: ").unwrap().1.to_string()
    };
    assert_eq!(name("**kern\t**kern\n*I\"Alto\t*\n"), "Alto would have more than four lines");
    assert_eq!(name("**kern\t**kern\n"), "Spine 1 would have more than four lines");
    assert_eq!(name("**kern\t**kern\n*I\"\t*\n"), "the staff of spine 1 would have more than four lines");
    // Behind a column that isn't kern the part's number is not the column's.
    let said = refused(b"**text\t**kern\n*\t*^\n*\t*^\t*^\n*\t*\t*^\t*\t*\n");
    assert!(said.contains("  the staff of token 2 of the header is full with token 2 (voice 1), token 3 (voice 3), token 4 (voice 2), token 5 (voice 4); the branch of token 3 finds no voice\n"), "{said}");
}

/// Two branches, of which the first takes the voice that the line beside it frees.
#[test]
fn the_mark_is_under_the_branch_without_a_voice() {
    let said = refused(b"**kern\n*^\n*^\t*^\n*^\t*^\t*-\t*\n");
    assert!(said.starts_with("-:4:4: error[8]: ") && said.contains("\n  4 | *^\t*^\t*-\t*\n    |   \t^\n"), "{said}");
}

#[test]
fn a_long_line_is_cut_around_its_mark() {
    let said = refused(format!("**kern\n{}\t4c\n", "4c ".repeat(200)).as_bytes());
    assert!(said.starts_with("-:2:602: error[6]: 2 tokens, 1 expected\n"), "{said}");
    assert!(said.lines().all(|l| l.len() < 150) && said.contains("  2 | ..."));
}

/// Columns are characters, as editors count them.
#[test]
fn columns_are_characters() {
    let said = checked("**text\t**kern\nFrè\t0z\n.\t4c\n*-\t*-\n".as_bytes());
    assert!(said.starts_with("-:2:5: warning[18]: lost: token 2, `0z`: no note: "), "{said}");
}

#[test]
fn notices_are_grouped_and_counted() {
    let said = run(&["check", "examples/lost.krn"], b"").err.replace("examples/lost.krn", "");
    let lines: Vec<&str> = said.lines().collect();
    assert_eq!(
        lines,
        [
            ":8:1: warning[19]: lost: token 1, `4096c`: no note: reciprocal duration is outside the supported range",
            ":12:3: warning[19]: lost: token 2, `512ff`: no note: reciprocal duration is outside the supported range",
            ":9:1: warning[18]: lost: token 1, `x`: no note: data token has neither a pitch nor a rest",
            ":7:1: warning[17]: ignored: stems, not imported: 2, first 7:1",
            ":9:1: warning[17]: ignored: signifier `x`, not imported",
            ":2:1: warning[1]: harmless: Humdrum reference record is not represented in the score model, `ENC`",
            ": 2 parts, 2 bars, 9 notes; lost: 3, ignored: 3, harmless: 1",
        ]
    );
    let piano = run(&["check", "examples/piano.krn"], b"").err;
    assert!(piano.contains("examples/piano.krn:2:15: warning[2]: ignored: only **kern spines are imported, not `**dynam`\n"), "{piano}");
    assert!(piano.contains("warning[17]: ignored: stems, not imported: 18, first 9:1\n"));
    let late = run(&["check", "examples/late.krn"], b"").err;
    assert!(!late.contains("error"), "{late}");
}

/// Of one reason ten places are told, and all on request.
#[test]
fn many_lost_tokens() {
    let text = format!("**kern\n4c\n{}*-\n", "4096d\n".repeat(25));
    let said = checked(text.as_bytes());
    assert_eq!(said.lines().count(), 12);
    assert!(said.contains("\n-:12:1: warning[19]: lost: and 15 more behind this one: no note: reciprocal duration is outside the supported range\n"), "{said}");
    let all = run(&["check", "--all", "-"], text.as_bytes());
    assert_eq!(all.err.lines().count(), 26);
    assert!(all.err.contains("\n-:27:1: warning[19]: lost: token 1, `4096d`: "));
}

/// Past the notices that a sheet keeps lost tokens are counted still.
#[test]
fn lost_tokens_without_a_notice() {
    let text = format!("**kern\n{}4096c\n4e\n0z\n*-\n", "4d/\n".repeat(1024));
    let said = checked(text.as_bytes());
    let lost: Vec<&str> = said.lines().filter(|l| l.contains(" lost: token ")).collect();
    assert_eq!(
        lost,
        [
            "-:1026:1: warning[0]: lost: token 1, `4096c`: no note, and no reason, as 1,024 notices were kept before it",
            "-:1028:1: warning[0]: lost: token 1, `0z`: no note, and no reason, as 1,024 notices were kept before it",
        ]
    );
    assert!(said.ends_with("-: 1 part, 1 bar, 1,025 notes; lost: 2, ignored: 1,024, harmless: 0 (of the first 1,024 notices; lost tokens are all counted)\n"), "{said}");
    let read = run(&["read", "-", "-o", "-"], text.as_bytes());
    assert_eq!(read.err, "-:1026:1: warning[0]: lost: no note, and no reason, as 1,024 notices were kept before it: 2, first 1026:1 `4096c`\n");
}

#[test]
fn crlf_is_no_matter() {
    let text = example("crlf.krn");
    assert!(text.ends_with(b"\r\n"));
    assert_eq!(checked(&text), "-: 1 part, 2 bars, 4 notes; lost: 0, ignored: 0, harmless: 0\n");
}

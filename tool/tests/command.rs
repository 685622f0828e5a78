//! How the tool is called, and how it exits.
mod common;
use common::{example, run, scratch};
use std::fs;

#[test]
fn wrong_calls_name_the_wrong_word_first() {
    for (words, first) in [
        (&[][..], "a command is wanted"),
        (&["play", "a"], "there is no command `play`"),
        (&["examples/song.krn"], "there is no command `examples/song.krn`; `ruevault show examples/song.krn` shows the file"),
        (&["--jso"], "there is no option `--jso`"),
        (&["show"], "show wants the name of a file, or - for standard input"),
        (&["show", "-x"], "show has no option `-x`"),
        (&["show", "a", "-o", "b"], "show has no option `-o`"),
        (&["show", "a", "--all"], "show has no option `--all`"),
        (&["read", "a"], "read wants -o and the name of the sheet, or -o - for standard output"),
        (&["read", "a", "-o"], "behind -o the name of a sheet is wanted"),
        (&["read", "a", "-o", "b", "-o", "c"], "read has no option `-o` a second time"),
        (&["read", "a", "--json", "-o", "b"], "read has no option `--json`"),
        (&["proof", "a"], "proof wants -o and the name of the page, or -o - for standard output"),
        (&["proof", "a", "b", "-o", "c"], "proof takes one file, and `b` is one more"),
        (&["proof", "a", "-o"], "behind -o the name of a page is wanted"),
        (&["check", "-", "-"], "standard input (-) can be read only once"),
        (&["check", "--", "-x", "-", "-"], "standard input (-) can be read only once"),
        (&["rests"], "rests takes two or three numbers, and there are 0"),
        (&["rests", "1"], "rests takes two or three numbers, and there are 1"),
        (&["rests", "1", "2", "3", "4"], "rests takes two or three numbers, and there are 4"),
        (&["rests", "1", "two"], "`two` is no whole number from 0 to 4294967295"),
        (&["rests", "4294967296", "1"], "`4294967296` is no whole number from 0 to 4294967295"),
        (&["rests", "-1", "1"], "`-1` is no whole number from 0 to 4294967295"),
        (&["help", "play"], "there is no command `play`"),
        (&["help", "show", "read"], "help takes one command, and `read` is one more"),
        (&["show", "-\u{200b}"], "show has no option `-\\u{200b}`"),
    ] {
        let done = run(words, b"");
        assert_eq!((done.status, done.out.len()), (2, 0), "{words:?}");
        assert_eq!(done.err.lines().next().unwrap(), format!("ruevault: {first}"));
        assert!(done.err.lines().nth(1).unwrap().starts_with("usage: ruevault "), "{}", done.err);
    }
}

#[test]
fn help_and_version() {
    for command in ["read", "show", "check", "proof", "rests", "help"] {
        let help = run(&["help", command], b"");
        assert_eq!((help.status, help.err.as_str()), (0, ""));
        assert!(help.said.starts_with(&format!("usage: ruevault {command}")), "{}", help.said);
        assert_eq!(run(&[command, "a", "--help"], b"").said, help.said);
        assert_eq!(run(&[command, "-h"], b"").said, help.said);
        assert!(run(&["help"], b"").said.contains(&format!("ruevault {command} ")));
    }
    assert_eq!(run(&["--help"], b"").said, run(&["help"], b"").said);
    assert_eq!(run(&["-h"], b"").said, run(&["help"], b"").said);
    for word in ["--version", "-V"] {
        assert_eq!(run(&[word], b"").said, format!("ruevault {}\n", env!("CARGO_PKG_VERSION")));
    }
}

#[test]
fn files_behind_two_hyphens() {
    let folder = scratch("hyphens");
    let file = folder.join("-x");
    fs::write(&file, "**kern\n4c\n*-\n").unwrap();
    let mut command = std::process::Command::new(env!("CARGO_BIN_EXE_ruevault"));
    command.args(["check", "--", "-x"]).current_dir(&folder);
    let done = common::run_with(command, b"");
    assert_eq!((done.status, done.err.as_str()), (0, "-x: 1 part, 1 bar, 1 note; lost: 0, ignored: 0, harmless: 0\n"));
    // Behind them a word is a file also where it looks like an option; what isn't there is said.
    let done = run(&["check", "--", "--help"], b"");
    assert_eq!(done.status, 2);
    assert!(done.err.starts_with("ruevault: --help: "), "{}", done.err);
    fs::remove_dir_all(folder).unwrap();
}

#[test]
fn files_that_can_not_be_read() {
    for words in [&["show", "/no/such.krn"][..], &["check", "/no/such.krn"], &["read", "/no/such.krn", "-o", "-"], &["show", "--json", "/no/such.krn"]] {
        let done = run(words, b"");
        assert_eq!((done.status, done.out.len()), (2, 0));
        assert!(done.err.starts_with("ruevault: /no/such.krn: "), "{}", done.err);
    }
    assert!(run(&["show", "examples"], b"").err.starts_with("ruevault: examples: "));
}

/// Every file is told of, and the worst status stands.
#[test]
fn many_files() {
    let done = run(&["check", "examples/sextet.krn", "examples/broken/11-empty.krn", "examples/chorale.krn"], b"");
    assert_eq!(done.status, 1);
    assert!(done.err.starts_with("examples/sextet.krn: 2 parts, 2 bars, 16 notes; "), "{}", done.err);
    assert!(done.err.contains("\nexamples/broken/11-empty.krn:1:1: error[11]: "));
    assert!(done.err.contains("\nexamples/chorale.krn: 4 parts, 9 bars, "));
    assert!(done.err.ends_with("\n3 files: 2 accepted, 1 refused\n"));
    let done = run(&["check", "examples/broken/11-empty.krn", "/no/such.krn", "examples/sextet.krn"], b"");
    assert_eq!(done.status, 2);
    assert!(done.err.ends_with("\n3 files: 1 accepted, 1 refused, 1 can't be read\n"));
    let shown = run(&["show", "examples/sextet.krn", "examples/broken/11-empty.krn", "-"], &example("song.krn"));
    assert_eq!(shown.status, 1);
    assert!(shown.said.starts_with("==> examples/sextet.krn <==\nTitle: Sextet, the low staff\n"));
    assert!(shown.said.contains("\n\n==> - <==\nTitle: Frère Jacques\n"));
    assert!(shown.err.starts_with("examples/broken/11-empty.krn:1:1: error[11]: "));
}

#[test]
fn rests_of_a_hole() {
    assert_eq!(run(&["rests", "8000", "480"], b"").said, "longa rest (hidden)\nquarter 3:2 rest (hidden)\n");
    assert_eq!(run(&["rests", "96", "480", "49999"], b"").said, "sixteenth 5:4 rest (hidden)\n");
    assert_eq!(run(&["rests", "0", "480"], b"").said, "");
    let full = run(&["rests", "96", "480", "50000"], b"");
    assert_eq!((full.status, full.out.len()), (1, 0));
    assert_eq!(full.err, "ruevault: error[15]: the voice would have more than 50,000 notes\n");
    assert_eq!(run(&["rests", "1", "0"], b"").err, "ruevault: error[14]: no value fits the ticks that remain of the hole\n");
}

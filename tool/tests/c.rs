//! The header and the examples in C, by the compiler `cc`, beside the wrapper.
mod common;
use common::{example, examples, run_with, scratch, top};
use ruevault::Record;
use std::fs;
use std::path::{Path, PathBuf};
use std::process::Command;

/// Compiles a program with all warnings as errors.
fn compiled(source: &Path, folder: &Path) -> PathBuf {
    let program = folder.join("program");
    let library = match std::env::var_os("RUEVAULT_LIB") {
        Some(given) => top().join("tool").join(given),
        None => top().join("crates/kern_ffi/out"),
    };
    let mut cc = Command::new("cc");
    cc.args(["-std=c99", "-pedantic", "-Wall", "-Wextra", "-Werror"]).arg("-I").arg(top().join("include"));
    let done = cc.arg(source).arg(library.join("libkern_ffi.a")).arg("-o").arg(&program).output().expect("cc is needed");
    assert!(done.status.success(), "{}", String::from_utf8_lossy(&done.stderr));
    program
}

fn given(name: &str, program: &str, words: &[&str], input: &[u8]) -> common::Run {
    let folder = scratch(name);
    let source = folder.join("program.c");
    fs::write(&source, program).unwrap();
    let mut command = Command::new(compiled(&source, &folder));
    command.args(words);
    let done = run_with(command, input);
    fs::remove_dir_all(folder).unwrap();
    done
}

#[test]
fn read_in_c() {
    let folder = scratch("read-c");
    let done = run_with(Command::new(compiled(&top().join("examples/read.c"), &folder)), b"");
    assert_eq!((done.status, done.said.as_str()), (0, "0 0, a sheet of 119 bytes\n"));
    fs::remove_dir_all(folder).unwrap();
}

/// The example that measures first walks every example's notes, and says why each broken one is refused.
#[test]
fn walk_in_c() {
    let folder = scratch("walk-c");
    let program = compiled(&top().join("examples/walk.c"), &folder);
    let walk = |name: &str| {
        let mut command = Command::new(&program);
        command.arg(name).current_dir(top());
        run_with(command, b"")
    };
    for name in examples("examples") {
        let done = walk(&name);
        let sheet = ruevault::sheet_of(&fs::read(top().join(&name)).unwrap()).unwrap();
        let count = |is: fn(&Record) -> bool| ruevault::walk(&sheet).filter(is).count();
        assert_eq!((done.status, done.err.as_str()), (0, ""));
        assert_eq!(done.said.lines().filter(|l| l.starts_with("bar ")).count(), count(|r| matches!(r, Record::Note(_))), "{name}");
        assert_eq!(done.said.lines().filter(|l| l.starts_with("line ")).count(), count(|r| matches!(r, Record::Notice(_))), "{name}");
    }
    for name in examples("examples/broken") {
        let done = walk(&name);
        let number: u32 = name.rsplit('/').next().unwrap()[..2].parse().unwrap();
        assert_eq!((done.status, done.said.as_str()), (1, ""));
        assert!(done.err.contains(&format!(": refused with {number}, figure ")), "{}", done.err);
    }
    assert_eq!(walk("examples/no-such.krn").status, 2);
    fs::remove_dir_all(folder).unwrap();
}

const RECORDS: &str = r#"
#include "kern_sheet.h"
#include <stdio.h>
#include <stdlib.h>
/* Sheets from standard input, each behind its length in decimal and a blank; of each the kinds and lengths of its records. */
int main(void) {
    size_t length;
    while (scanf("%zu", &length) == 1 && getchar() == ' ') {
        uint8_t *sheet = malloc(length + 1);
        kern_record r = KERN_FIRST;
        if (!sheet || fread(sheet, 1, length, stdin) != length) return 1;
        while (kern_next(sheet, length, &r)) printf("%d.%zu ", r.at[0], r.length);
        printf("%d\n", kern_is_end(sheet, length, r));
        free(sheet);
    }
    return 0;
}
"#;

/// The walk in C finds what the wrapper's finds, of sheets, of cut ones and of ones with a byte changed.
#[test]
fn walks_agree() {
    let mut sheets = Vec::new();
    for name in ["sextet.krn", "lost.krn", "quartet.krn"] {
        let sheet = ruevault::sheet_of(&example(name)).unwrap();
        for cut in 0..sheet.len() {
            sheets.push(sheet[..cut].to_vec());
            let mut other = sheet.clone();
            other[cut] ^= 1 << (cut % 8);
            sheets.push(other);
        }
        sheets.push(sheet);
    }
    let mut input = Vec::new();
    for sheet in &sheets {
        input.extend(format!("{} ", sheet.len()).bytes());
        input.extend(sheet);
    }
    let done = given("records", RECORDS, &[], &input);
    assert_eq!((done.status, done.said.lines().count()), (0, sheets.len()));
    for (line, sheet) in done.said.lines().zip(&sheets) {
        let counted = ruevault::head(sheet).is_some_and(|h| h.length as usize <= sheet.len());
        // A sheet that is cut below its length has no records in C.
        let records: Vec<Record> = if counted { ruevault::walk(sheet).collect() } else { Vec::new() };
        let kind = |r: &Record| match r {
            Record::Note(n) => format!("1.{}", 28 + 3 * n.pitches().len() + n.articulations().count()),
            Record::Bar(_) => "2.20".to_string(),
            Record::Part(_) => "3.20".to_string(),
            Record::End(_) => "4.32".to_string(),
            Record::Notice(n) => format!("5.{}", 24 + n.bytes.len()),
        };
        let said: Vec<&str> = line.split(' ').collect();
        let wanted: Vec<String> = records.iter().map(kind).collect();
        // The wrapper ends too where a field has a number that it can't have.
        assert!(said[..said.len() - 1].len() >= wanted.len() && said[..wanted.len()] == wanted[..], "{sheet:?}");
        if ruevault::is_whole(sheet) {
            assert_eq!((said.len() - 1, *said.last().unwrap()), (wanted.len(), "1"));
        }
    }
}

const CONSTANTS: &str = r#"
#include "kern.h"
#include <stdio.h>
int main(void) {
    uint64_t answer[3];
    printf("%s %d.%d.%d %d\n", KERN_VERSION, KERN_VERSION_MAJOR, KERN_VERSION_MINOR, KERN_VERSION_PATCH, KERN_SHEET_VERSION);
    printf("%d %d %d\n", KERN_MOST_BYTES, KERN_MOST_NOTES, KERN_MOST_NOTICES);
    printf("%d", kern_read((const uint8_t *)"**kern\n4c\n*-\n", 13, KERN_EMPTY, answer) == KERN_SHORT_BUFFER);
    printf(" %d\n", (int)answer[2]);
    printf("%d %d\n", kern_read(KERN_EMPTY, KERN_EMPTY, answer) == KERN_NO_HEADER, kern_gap_rests(1, 0, 0, KERN_EMPTY, answer) == KERN_NO_VALUE);
    printf("%d\n", kern_gap_rests(96, 480, 50000, KERN_EMPTY, answer) == KERN_FULL_VOICE);
    return 0;
}
"#;

/// The constants are the library's and the package's.
#[test]
fn constants_in_c() {
    let done = given("constants", CONSTANTS, &[], b"");
    let version = env!("CARGO_PKG_VERSION");
    assert_eq!(done.said, format!("{version} {version} 1\n{} 100000 1024\n1 119\n1 1\n1\n", ruevault::MAX_TEXT));
    let header = fs::read_to_string(top().join("include/kern.h")).unwrap();
    let (_, notices) = header.split_once("enum kern_notice {").unwrap();
    let (notices, _) = notices.split_once("};").unwrap();
    let numbers: Vec<u8> = notices.split(',').map(|n| n.rsplit(" = ").next().unwrap().trim().parse().unwrap()).collect();
    assert_eq!(numbers, (1..=21).collect::<Vec<u8>>());
    // Each notice's name is its code's words, or what its reason names.
    for (n, line) in (1..=21).zip(notices.split(',')) {
        let words = format!("{} {}", ruevault::notice_code(n), ruevault::notice_reason(n)).to_lowercase().replace("humdrum.", "").replace('-', " ");
        let name = line.split(" = ").next().unwrap().trim().trim_start_matches("KERN_").to_lowercase();
        let known = name.split('_').filter(|word| words.contains(word)).count();
        assert!(known * 2 > name.split('_').count(), "{name}: {words}");
    }
}

/// The header is C++ too.
#[test]
fn the_header_in_cxx() {
    let folder = scratch("cxx");
    let source = folder.join("program.cc");
    fs::write(&source, "#include \"kern_sheet.h\"\nint main() { kern_record r = KERN_FIRST; uint64_t a[3]; return (int)kern_read(KERN_EMPTY, KERN_EMPTY, a) + kern_next(KERN_EMPTY, &r); }\n").unwrap();
    let done = match Command::new("c++").args(["-Wall", "-Wextra", "-Werror", "-fsyntax-only", "-I"]).arg(top().join("include")).arg(&source).output() {
        Ok(done) => done,
        Err(_) => return, // no compiler of C++ here
    };
    assert!(done.status.success(), "{}", String::from_utf8_lossy(&done.stderr));
    fs::remove_dir_all(folder).unwrap();
}

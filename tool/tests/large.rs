//! Texts of 64 MiB: `check` in memory for text and sheet, and in less than twice the library's own time.
mod common;
use common::{example, run_with, scratch};
use std::fs;
use std::path::Path;
use std::process::Command;
use std::sync::Mutex;

/// The tests measure the process, so one runs at a time.
static ALONE: Mutex<()> = Mutex::new(());

/// A text of nearly the limit: a start, and lines behind it as often as they fit.
fn filled(start: &str, lines: &str) -> String {
    start.to_string() + &lines.repeat((ruevault::MAX_TEXT - start.len()) / lines.len())
}

fn texts() -> [(&'static str, String); 3] {
    let chorale = String::from_utf8(example("chorale.krn")).unwrap();
    let header = chorale.split("=1\t").next().unwrap();
    let music = "4G\t4B\t4d\t4g\n4D\t4A\t4d\t4f#\n=\t=\t=\t=\n".repeat(12_000);
    [
        ("chorale", filled(&(header.to_string() + &music), ".\t.\t.\t.\n.\t.\t.\t.\n=\t=\t=\t=\n")),
        ("lost", filled("**kern\n4c\n", "4096c/\n")),
        ("splits", filled("**kern\t**kern\n4c\t4e\n", "*^\t*\n.\t.\t.\n*v\t*v\t*\n")),
    ]
}

fn checked(file: &Path, kib: u32) -> common::Run {
    let mut shell = Command::new("sh");
    shell.args(["-c", "ulimit -v \"$0\" && exec \"$1\" check \"$2\""]).arg(kib.to_string()).arg(env!("CARGO_BIN_EXE_ruevault")).arg(file);
    run_with(shell, b"")
}

/// The address space has room for the text, as much and 8 MiB for a sheet, and 24 MiB for all else.
#[test]
fn memory_for_text_and_sheet() {
    let _alone = ALONE.lock().unwrap_or_else(|e| e.into_inner());
    let folder = scratch("memory");
    for (name, text) in texts() {
        let file = folder.join(name);
        fs::write(&file, text).unwrap();
        let done = checked(&file, (64 + 64 + 8 + 24) * 1024);
        assert_eq!(done.status, 0, "{name}: {}", done.err);
        assert!(name != "lost" || done.err.contains("; lost: 9,586,979, ignored: 512, "), "{}", done.err);
        assert!(done.err.lines().all(|l| l.len() < 300));
        fs::remove_file(file).unwrap();
    }
    fs::remove_dir_all(folder).unwrap();
}

/// Processor time in hundredths of a second, of this process and of its children that have ended.
fn ticks() -> (u64, u64) {
    let said = fs::read_to_string("/proc/self/stat").unwrap();
    let fields: Vec<u64> = said.rsplit(')').next().unwrap().split_whitespace().map(|f| f.parse().unwrap_or(0)).collect();
    (fields[11] + fields[12], fields[13] + fields[14])
}

#[test]
#[ignore = "measures time: best of three runs each, some seconds, with --release"]
fn twice_the_time_of_the_library() {
    let _alone = ALONE.lock().unwrap_or_else(|e| e.into_inner());
    let folder = scratch("time");
    for (name, text) in texts() {
        let file = folder.join(name);
        fs::write(&file, &text).unwrap();
        let mut out = vec![0; text.len() + (8 << 20)];
        let (mut library, mut tool) = (u64::MAX, u64::MAX);
        for _ in 0..3 {
            let before = ticks();
            ruevault::read(text.as_bytes(), &mut out).unwrap();
            let between = ticks();
            assert_eq!(checked(&file, 1 << 30).status, 0);
            let behind = ticks();
            library = library.min(between.0 - before.0);
            tool = tool.min(behind.1 - between.1);
        }
        println!("{name}: library {library}, check {tool} hundredths of a second");
        assert!(tool < 2 * library, "{name}: library {library}, check {tool}");
        fs::remove_file(file).unwrap();
    }
    fs::remove_dir_all(folder).unwrap();
}

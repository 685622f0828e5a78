//! What is read and written.
mod common;
use common::{example, run, run_with, scratch};
use std::fs::{self, File};
use std::os::unix::fs::{MetadataExt, PermissionsExt, symlink};
use std::path::Path;
use std::process::{Command, Stdio};

fn name(path: &Path) -> &str {
    path.to_str().unwrap()
}

fn tool() -> Command {
    Command::new(env!("CARGO_BIN_EXE_ruevault"))
}

#[test]
fn read_writes_the_sheet() {
    let folder = scratch("sheet");
    let sheet = folder.join("sextet.sheet");
    let done = run(&["read", "examples/sextet.krn", "-o", name(&sheet)], b"");
    assert_eq!((done.status, done.said.as_str(), done.err.as_str()), (0, "", ""));
    let bytes = fs::read(&sheet).unwrap();
    assert_eq!(bytes.len(), 667);
    assert_eq!(bytes, ruevault::sheet_of(&example("sextet.krn")).unwrap());
    for option in [&["--output", name(&sheet)][..], &[&format!("--output={}", name(&sheet))]] {
        fs::remove_file(&sheet).unwrap();
        assert_eq!(run(&[&["read"], option, &["examples/sextet.krn"]].concat(), b"").status, 0);
        assert_eq!(fs::read(&sheet).unwrap(), bytes);
    }
    fs::remove_dir_all(folder).unwrap();
}

#[test]
fn read_writes_to_standard_output() {
    let done = run(&["read", "-", "-o", "-"], b"**kern\n4c\n*-\n");
    assert_eq!((done.status, done.out.len()), (0, 119));
    assert_eq!(done.out, ruevault::sheet_of(b"**kern\n4c\n*-\n").unwrap());
}

#[test]
fn read_counts_what_is_lost() {
    let done = run(&["read", "examples/lost.krn", "-o", "-"], b"");
    assert_eq!(done.status, 0);
    assert_eq!(
        done.err,
        "examples/lost.krn:8:1: warning[19]: lost: no note: reciprocal duration is outside the supported range: 2, first 8:1 `4096c`\n\
         examples/lost.krn:9:1: warning[18]: lost: no note: data token has neither a pitch nor a rest: 9:1 `x`\n"
    );
}

#[test]
fn read_of_many_files() {
    let folder = scratch("many");
    let done = run(&["read", "examples/sextet.krn", "examples/broken/11-empty.krn", "examples/chorale.krn", "-o", name(&folder)], b"");
    assert_eq!(done.status, 1);
    let mut names: Vec<_> = fs::read_dir(&folder).unwrap().map(|e| e.unwrap().file_name().into_string().unwrap()).collect();
    names.sort();
    assert_eq!(names, ["chorale.sheet", "sextet.sheet"]);
    let done = run(&["read", "examples/sextet.krn", "examples/chorale.krn", "-o", "no-folder"], b"");
    assert_eq!(done.status, 2);
    assert!(done.err.starts_with("ruevault: of 2 files the sheets go into a folder, and `no-folder` is none\n"));
    let done = run(&["read", "examples/sextet.krn", "./examples/sextet.krn", "-o", name(&folder)], b"");
    assert!(done.status == 2 && done.err.starts_with("ruevault: two of the sheets would be `"), "{}", done.err);
    let done = run(&["read", "-", "-o", name(&folder)], b"**kern\n4c\n");
    assert!(done.status == 2 && done.err.starts_with("ruevault: the sheet of standard input has no name in a folder\n"));
    fs::remove_dir_all(folder).unwrap();
}

#[test]
fn a_refused_text_leaves_the_old_sheet() {
    let folder = scratch("refused");
    let sheet = folder.join("a.sheet");
    assert_eq!(run(&["read", "-", "-o", name(&sheet)], b"**kern\n*-\n").status, 1);
    assert!(!sheet.exists());
    fs::write(&sheet, "old").unwrap();
    assert_eq!(run(&["read", "-", "-o", name(&sheet)], b"**kern\n*-\n").status, 1);
    assert_eq!(fs::read(&sheet).unwrap(), b"old");
    fs::remove_dir_all(folder).unwrap();
}

/// A file of the limit's length can't be written where the process may write no more than a block.
#[test]
fn a_failed_write_leaves_the_old_sheet() {
    let folder = scratch("failed");
    let sheet = folder.join("a.sheet");
    fs::write(&sheet, "old").unwrap();
    let text = folder.join("a.krn");
    fs::write(&text, format!("**kern\n{}*-\n", "4c\n".repeat(5000))).unwrap();
    let mut shell = Command::new("sh");
    shell.args(["-c", "trap '' XFSZ; ulimit -f 8; exec \"$0\" read \"$1\" -o \"$2\"", env!("CARGO_BIN_EXE_ruevault"), name(&text), name(&sheet)]);
    let done = run_with(shell, b"");
    assert_eq!(done.status, 2, "{}", done.err);
    assert!(done.err.starts_with(&format!("ruevault: {}: ", name(&sheet))), "{}", done.err);
    assert_eq!(fs::read(&sheet).unwrap(), b"old");
    let left: Vec<_> = fs::read_dir(&folder).unwrap().map(|e| e.unwrap().file_name()).collect();
    assert_eq!(left.len(), 2, "{left:?}");
    fs::remove_dir_all(folder).unwrap();
}

/// A name as long as a folder takes is written to as well.
#[test]
fn a_long_name() {
    let folder = scratch("long");
    let sheet = folder.join("n".repeat(255));
    assert_eq!(run(&["read", "examples/sextet.krn", "-o", name(&sheet)], b"").status, 0);
    assert_eq!(fs::metadata(&sheet).unwrap().len(), 667);
    fs::remove_dir_all(folder).unwrap();
}

#[test]
fn a_full_device_is_an_error() {
    let done = run(&["read", "examples/sextet.krn", "-o", "/dev/full"], b"");
    assert_eq!(done.status, 2);
    assert!(done.err.starts_with("ruevault: /dev/full: "));
    assert_eq!(run(&["read", "examples/sextet.krn", "-o", "/dev/null"], b"").status, 0);
    assert_eq!(run(&["read", "examples/sextet.krn", "-o", "/no/such/folder/a"], b"").status, 2);
}

/// The new sheet has a file of its own, with the old one's permissions; a link to the old one stays a link.
#[test]
fn a_sheet_is_written_beside_and_renamed() {
    let folder = scratch("beside");
    let (sheet, link) = (folder.join("a.sheet"), folder.join("link"));
    fs::write(&sheet, "old").unwrap();
    fs::set_permissions(&sheet, fs::Permissions::from_mode(0o640)).unwrap();
    symlink("a.sheet", &link).unwrap();
    let open = File::open(&sheet).unwrap();
    let before = fs::metadata(&sheet).unwrap().ino();
    assert_eq!(run(&["read", "examples/sextet.krn", "-o", name(&link)], b"").status, 0);
    let about = fs::metadata(&sheet).unwrap();
    assert!(about.ino() != before && about.len() == 667 && about.mode() & 0o777 == 0o640);
    assert_eq!(open.metadata().unwrap().len(), 3);
    assert!(fs::symlink_metadata(&link).unwrap().is_symlink());
    assert_eq!(fs::read_dir(&folder).unwrap().count(), 2);
    fs::remove_dir_all(folder).unwrap();
}

#[test]
fn an_output_that_is_the_input_is_refused() {
    let folder = scratch("same");
    let (text, link, hard) = (folder.join("a.krn"), folder.join("link"), folder.join("hard"));
    fs::write(&text, example("sextet.krn")).unwrap();
    symlink(&text, &link).unwrap();
    fs::hard_link(&text, &hard).unwrap();
    for output in [&text, &link, &hard] {
        let done = run(&["read", name(&text), "-o", name(output)], b"");
        assert_eq!(done.status, 2);
        assert!(done.err.contains(": the output is the input `"), "{}", done.err);
    }
    // Standard input and output too.
    let mut command = tool();
    command.args(["read", "-", "-o", name(&text)]).stdin(File::open(&text).unwrap()).stderr(Stdio::null());
    assert_eq!(command.status().unwrap().code(), Some(2));
    let mut command = tool();
    command.args(["read", name(&text), "-o", "-"]).stdout(File::options().append(true).open(&text).unwrap()).stderr(Stdio::null());
    assert_eq!(command.status().unwrap().code(), Some(2));
    assert_eq!(fs::read(&text).unwrap(), example("sextet.krn"));
    fs::remove_dir_all(folder).unwrap();
}

/// An input without an end is read up to the limit and one byte.
#[test]
fn endless_input_stops() {
    for command in ["show", "check"] {
        let mut tool = tool();
        tool.args([command, "-"]).stdin(File::open("/dev/zero").unwrap()).stdout(Stdio::null()).stderr(Stdio::piped());
        let done = tool.output().unwrap();
        assert_eq!(done.status.code(), Some(1));
        assert_eq!(String::from_utf8(done.stderr).unwrap(), "-:1:1: error[1]: more than 67,108,864 bytes, which are the most\n");
    }
    let folder = scratch("endless");
    let long = folder.join("long.krn");
    File::create(&long).unwrap().set_len(67_108_866).unwrap();
    let done = run(&["check", name(&long)], b"");
    assert_eq!((done.status, done.err), (1, format!("{}:1:1: error[1]: 67,108,866 bytes, 67,108,864 are the most\n", name(&long))));
    fs::remove_dir_all(folder).unwrap();
}

/// The 100,001st note is refused, at its line.
#[test]
fn too_many_notes() {
    let done = run(&["check", "-"], format!("**kern\n{}*-\n", "4c\n".repeat(100_001)).as_bytes());
    assert_eq!(done.status, 1);
    assert!(done.err.starts_with("-:100002:1: error[10]: "), "{}", done.err);
    assert_eq!(run(&["check", "-"], format!("**kern\n{}*-\n", "4c\n".repeat(100_000)).as_bytes()).status, 0);
}

/// A sheet that is longer than the room that is tried first.
#[test]
fn a_long_sheet() {
    let wide = |token: &str| vec![token; 256].join("\t") + "\n";
    let text = wide("**kern") + &(wide("1c") + &wide("=")).repeat(300) + &wide("=").repeat(10) + &wide("*-");
    let sheet = ruevault::sheet_of(text.as_bytes()).unwrap();
    assert_eq!(ruevault::head(&sheet).unwrap().notes, 76_800);
    assert!(ruevault::is_whole(&sheet));
    assert_eq!(sheet.len(), 16 + 76_800 * (31 + 20) + 256 * 20 + 32);
}

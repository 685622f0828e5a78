//! What the tests of the tool share.
#![allow(dead_code)]
use std::fs;
use std::io::Write;
use std::path::PathBuf;
use std::process::{Command, Stdio};

pub struct Run {
    pub status: i32,
    pub out: Vec<u8>,
    pub said: String,
    pub err: String,
}

/// Runs the tool with an input.
pub fn run(words: &[&str], input: &[u8]) -> Run {
    let mut command = Command::new(env!("CARGO_BIN_EXE_ruevault"));
    command.args(words).current_dir(top());
    run_with(command, input)
}

pub fn run_with(mut command: Command, input: &[u8]) -> Run {
    command.stdin(Stdio::piped()).stdout(Stdio::piped()).stderr(Stdio::piped());
    let mut child = command.spawn().unwrap();
    let mut stdin = child.stdin.take().unwrap();
    let input = input.to_vec();
    // A run that doesn't want the input may have ended.
    let writer = std::thread::spawn(move || drop(stdin.write_all(&input)));
    let done = child.wait_with_output().unwrap();
    writer.join().unwrap();
    let text = |bytes: &[u8]| String::from_utf8(bytes.to_vec()).unwrap_or_default();
    Run { status: done.status.code().unwrap_or(-1), said: text(&done.stdout), out: done.stdout, err: text(&done.stderr) }
}

pub fn shown(text: &[u8]) -> String {
    let run = run(&["show", "-"], text);
    assert_eq!((run.status, run.err.as_str()), (0, ""));
    run.said
}

/// What `check` says of a text that is accepted.
pub fn checked(text: &[u8]) -> String {
    let run = run(&["check", "-"], text);
    assert_eq!((run.status, run.said.as_str()), (0, ""));
    run.err
}

/// The message of a refusal, which leaves standard output empty; `show` and `check` say the same.
pub fn refused(text: &[u8]) -> String {
    let (show, check) = (run(&["show", "-"], text), run(&["check", "-"], text));
    assert_eq!((show.status, show.out.len(), check.status, check.out.len()), (1, 0, 1, 0));
    assert_eq!(show.err, check.err);
    check.err
}

/// The top of the repository.
pub fn top() -> PathBuf {
    PathBuf::from(env!("CARGO_MANIFEST_DIR")).join("..")
}

pub fn example(name: &str) -> Vec<u8> {
    fs::read(top().join("examples").join(name)).unwrap()
}

/// The names of the examples in a folder, in their order.
pub fn examples(folder: &str) -> Vec<String> {
    let entries = fs::read_dir(top().join(folder)).unwrap();
    let names = entries.map(|e| format!("{folder}/{}", e.unwrap().file_name().into_string().unwrap()));
    let mut names: Vec<String> = names.filter(|n| n.ends_with(".krn")).collect();
    names.sort();
    names
}

/// A folder of its own for a test.
pub fn scratch(name: &str) -> PathBuf {
    let folder = std::env::temp_dir().join(format!("ruevault-{}-{name}", std::process::id()));
    let _ = fs::remove_dir_all(&folder);
    fs::create_dir_all(&folder).unwrap();
    folder
}

//! `make install`, and the pages that go with it.
mod common;
use common::{run, run_with, scratch, top};
use std::fs;
use std::process::Command;

/// What is installed works from where it stands, by pkg-config where that is there.
#[test]
fn make_install() {
    if std::env::var_os("RUEVAULT_LIB").is_some() {
        return; // the Makefile has the library's own place
    }
    let prefix = scratch("prefix");
    let make = |target: &str| {
        let mut make = Command::new("make");
        // The tool is built already; cargo is asked once more only in a folder of its own.
        make.args(["-s", target, &format!("PREFIX={}", prefix.display()), "CARGO=true"]).current_dir(top());
        run_with(make, b"")
    };
    if !top().join("tool/target/release/ruevault").is_file() {
        return; // these tests were not built with --release
    }
    let done = make("install");
    assert_eq!((done.status, done.err.as_str()), (0, ""));
    for file in [
        "bin/ruevault",
        "lib/libkern_ffi.a",
        "lib/pkgconfig/ruevault.pc",
        "include/kern.h",
        "include/kern_sheet.h",
        "share/man/man1/ruevault.1",
        "share/bash-completion/completions/ruevault",
        "share/zsh/site-functions/_ruevault",
        "share/fish/vendor_completions.d/ruevault.fish",
    ] {
        assert!(prefix.join(file).is_file(), "{file}");
    }
    let mut installed = Command::new(prefix.join("bin/ruevault"));
    installed.arg("--version").current_dir(&prefix);
    let version = run_with(installed, b"");
    assert_eq!(version.said, format!("ruevault {}\n", env!("CARGO_PKG_VERSION")));
    let said = fs::read_to_string(prefix.join("lib/pkgconfig/ruevault.pc")).unwrap();
    assert!(said.contains(&format!("\nVersion: {}\n", env!("CARGO_PKG_VERSION"))) && said.starts_with(&format!("prefix={}\n", prefix.display())));
    let program = prefix.join("read");
    let mut cc = Command::new("cc");
    cc.arg(top().join("examples/read.c")).arg(format!("-I{}/include", prefix.display())).arg(format!("-L{}/lib", prefix.display()));
    assert!(cc.arg("-lkern_ffi").arg("-o").arg(&program).status().unwrap().success());
    assert_eq!(run_with(Command::new(&program), b"").said, "0 0, a sheet of 119 bytes\n");
    fs::remove_file(program).unwrap();
    assert_eq!(make("uninstall").status, 0);
    assert!(!prefix.join("bin/ruevault").exists() && !prefix.join("lib/libkern_ffi.a").exists());
    fs::remove_dir_all(prefix).unwrap();
}

/// Every command and option that help names stands in the man page and in the completions.
#[test]
fn pages_name_all_commands() {
    let read = |name: &str| fs::read_to_string(top().join("tool").join(name)).unwrap().replace("\\-", "-");
    let pages = ["man/ruevault.1", "completions/ruevault.bash", "completions/_ruevault", "completions/ruevault.fish"].map(read);
    let help = run(&["help"], b"").said;
    let commands: Vec<&str> = help.lines().filter_map(|l| l.split_once("ruevault ")).filter_map(|(_, rest)| rest.split(' ').next()).collect();
    for command in commands.iter().filter(|c| c.chars().all(|c| c.is_ascii_lowercase())) {
        assert!(pages.iter().all(|page| page.contains(command)), "{command}");
    }
    for option in ["json", "all", "output", "help", "version"] {
        assert!(pages.iter().all(|page| page.contains(option)), "{option}");
    }
    assert!(pages[0].contains(&format!("\"ruevault {}\"", env!("CARGO_PKG_VERSION"))));
}

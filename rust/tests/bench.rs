//! The program bench, as far as it goes without measuring: its help, and what it refuses.

use std::process::{Command, Output};
use std::{env, fs, process, str};

fn run(arguments: &[&str]) -> Output {
    Command::new(env!("CARGO_BIN_EXE_bench")).args(arguments).output().unwrap()
}

fn told(bytes: &[u8]) -> &str {
    str::from_utf8(bytes).unwrap()
}

/// A refusal says its message and nothing else: no map was begun.
fn refused(arguments: &[&str], message: &str) {
    let output = run(arguments);
    assert_eq!((told(&output.stderr), told(&output.stdout)), (message, ""), "{arguments:?}");
    assert_eq!(output.status.code(), Some(2), "{arguments:?}");
}

#[test]
fn help() {
    let output = run(&["--help"]);
    assert!(told(&output.stdout).starts_with("bench [--write] [MAP..]"), "{output:?}");
    assert!(told(&output.stdout).lines().count() <= 3, "{output:?}");
    assert!(output.status.success() && output.stderr.is_empty(), "{output:?}");
}

#[test]
fn other_options() {
    refused(&["--wrong"], "bench: --wrong is no option; --write and --help are\n");
    refused(&["my.map", "-w"], "bench: -w is no option; --write and --help are\n");
}

/// A file that is no map, or is not there, after one that is good.
#[test]
fn bad_files() {
    let folder = env::temp_dir().join(format!("bench-{}", process::id()));
    fs::create_dir_all(&folder).unwrap();
    let path = |name: &str| folder.join(name).into_os_string().into_string().unwrap();
    let [good, bad, lost] = ["good.map", "bad.map", "lost.map"].map(path);
    fs::write(&good, "road 0 1 5\nroad 1 0 5\n").unwrap();
    for (text, what) in [
        ("road 0 1 5\nroad 1 0\n", "line 2: a road has 3 numbers: TAIL HEAD TENTHS, not 2"),
        ("road 0 4096 5\n", "line 1: junction 4096 is not below 4096"),
        ("order 0 1\n", "no road, so none to set"),
    ] {
        fs::write(&bad, text).unwrap();
        refused(&[&good, &bad], &format!("bench: {bad}: {what}\n"));
        refused(&[&bad, &good], &format!("bench: {bad}: {what}\n"));
    }
    let output = run(&[&good, &lost]);
    assert_eq!((output.status.code(), told(&output.stdout)), (Some(2), ""));
    assert!(told(&output.stderr).starts_with(&format!("bench: {lost}: ")), "{output:?}");
    assert_eq!(told(&output.stderr).lines().count(), 1, "{output:?}");
    fs::remove_dir_all(folder).unwrap();
}

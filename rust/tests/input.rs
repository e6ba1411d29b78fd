//! What the program reads: lines up to the input's first end and nothing after it, and nothing at all where its card does not open.
//! The input is a socket of datagrams, of which an empty one is an end that more can follow.

use harness::maps;
use std::os::fd::OwnedFd;
use std::os::unix::net::UnixDatagram;
use std::path::Path;
use std::process::{Command, Stdio};
use std::time::{Duration, Instant};
use std::{env, fs, process, thread};

/// What the program prints, run in a folder of that name with this card or none, and the datagrams that it leaves unread.
/// Its status is 0.
fn run(name: &str, card: Option<&[u8]>, input: &[&[u8]]) -> (String, Vec<Vec<u8>>) {
    let root = Path::new(env!("CARGO_MANIFEST_DIR")).join("..");
    let folder = env::temp_dir().join(format!("{name}-{}", process::id()));
    fs::create_dir_all(&folder).unwrap();
    if let Some(card) = card {
        fs::write(folder.join("unit.card"), card).unwrap();
    }
    let (ours, theirs) = UnixDatagram::pair().unwrap();
    for bytes in input {
        assert_eq!(ours.send(bytes).unwrap(), bytes.len());
    }
    let left = theirs.try_clone().unwrap();
    let program = root.canonicalize().unwrap().join("crates/route_unit/out/route_unit");
    let mut program = Command::new(program)
        .current_dir(&folder)
        .stdin(Stdio::from(OwnedFd::from(theirs)))
        .stdout(Stdio::piped())
        .spawn()
        .expect("crates/route_unit/out/route_unit, which `rt run` and `rt ci` leave");
    let begun = Instant::now();
    while program.try_wait().unwrap().is_none() {
        if begun.elapsed() > Duration::from_secs(20) {
            program.kill().unwrap();
            panic!("the program reads on");
        }
        thread::sleep(Duration::from_millis(5));
    }
    let output = program.wait_with_output().unwrap();
    fs::remove_dir_all(folder).unwrap();
    assert_eq!(output.status.code(), Some(0));

    left.set_nonblocking(true).unwrap();
    let (mut unread, mut room) = (Vec::new(), [0; 4096]);
    while let Ok(length) = left.recv(&mut room) {
        unread.push(room[..length].to_vec());
    }
    (String::from_utf8(output.stdout).unwrap(), unread)
}

#[test]
fn first_end_without_a_newline() {
    let card = maps::map_p().card().unwrap();
    let (printed, unread) =
        run("first-end", Some(&card), &[b"aim", b" 3\nest", b" 0", b"", b"\ngo 0\n", b""]);
    assert_eq!(printed, "ok\nest 20\n");
    assert_eq!(unread, [&b"\ngo 0\n"[..], b""]);
}

#[test]
fn first_end_after_a_newline() {
    let card = maps::map_p().card().unwrap();
    let (printed, unread) = run("newline-end", Some(&card), &[b"aim 3\n", b"", b"est 0\n"]);
    assert_eq!(printed, "ok\n");
    assert_eq!(unread, [b"est 0\n"]);
}

#[test]
fn card_that_does_not_open() {
    let card = maps::map_p_with_classes().card().unwrap();
    for (name, bytes, line) in [
        ("no-card", None, "no 1\n"),
        ("short-card", Some(&card[..39]), "no 1\n"),
        ("no-section", Some(&[0; 27]), "no 2\n"),
    ] {
        let (printed, unread) = run(name, bytes, &[b"aim 3\n"]);
        assert_eq!(printed, line);
        assert_eq!(unread, [b"aim 3\n"]);
    }
}

/// What a line may not have: tabs, carriage returns, a second blank between two words, a blank at an end.
#[test]
fn lines_that_are_none() {
    let card = maps::map_p().card().unwrap();
    let lines: [&[u8]; 10] = [
        b"aim 3\r\n",
        b"aim\t3\n",
        b"aim  3\n",
        b" aim 3\n",
        b"aim 3 \n",
        b"\taim 3\n",
        b"est 0\n",
        b"aim 03\n",
        b"est 0\r\n",
        b"\n",
    ];
    let (printed, unread) = run("no-lines", Some(&card), &[&lines.concat(), b""]);
    let none = "no 0\n";
    assert_eq!(printed, [&none.repeat(6), "no 13\nok\n", &none.repeat(2)].concat());
    assert!(unread.is_empty());
}

/// A go is of class 0, which road 1 of this card bars.
#[test]
fn class_of_the_program() {
    let card = maps::map_p_with_classes().card().unwrap();
    let (printed, unread) = run("class-0", Some(&card), &[b"aim 3\nest 0\ngo 0\nset 1 60\n", b""]);
    assert_eq!(printed, "ok\nest 20\ngo 25 4 2 3\nok\n");
    assert!(unread.is_empty());
}

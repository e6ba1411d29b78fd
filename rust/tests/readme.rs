//! The session that README.md has for a newcomer: the program answers what stands there.

use harness::maps;
use std::io::Write;
use std::path::Path;
use std::process::{Command, Stdio};
use std::{env, fs, process, str};

/// The lines to type and the answers, from the rows of the table.
fn session(readme: &str) -> Vec<(&str, &str)> {
    let rows = readme.lines().filter_map(|row| row.strip_prefix("| `")?.split_once("` | `"));
    rows.map(|(line, rest)| (line, rest.split_once('`').expect("an answer").0)).collect()
}

#[test]
fn session_on_map_p() {
    let root = Path::new(env!("CARGO_MANIFEST_DIR")).join("..");
    let readme = fs::read_to_string(root.join("README.md")).unwrap();
    let session = session(&readme);
    assert!(session.len() >= 10, "{session:?}");

    let folder = env::temp_dir().join(format!("readme-{}", process::id()));
    fs::create_dir_all(&folder).unwrap();
    fs::write(folder.join("unit.card"), maps::map_p().card().unwrap()).unwrap();
    let program = root.canonicalize().unwrap().join("crates/route_unit/out/route_unit");
    let mut program = Command::new(program)
        .current_dir(&folder)
        .stdin(Stdio::piped())
        .stdout(Stdio::piped())
        .spawn()
        .expect("crates/route_unit/out/route_unit, which `rt run` and `rt ci` leave");
    let lines: String = session.iter().map(|(line, _)| format!("{line}\n")).collect();
    program.stdin.take().unwrap().write_all(lines.as_bytes()).unwrap();
    let output = program.wait_with_output().unwrap();
    fs::remove_dir_all(folder).unwrap();

    let answers: Vec<&str> = str::from_utf8(&output.stdout).unwrap().lines().collect();
    let wanted: Vec<&str> = session.iter().map(|&(_, answer)| answer).collect();
    assert_eq!(answers, wanted, "the program (left), README.md (right)");
    assert!(output.status.success());
}

//! The header file for C: it declares what `crates/unit_c` exports, C and C++ take it, and a C program that
//! includes it drives map P.

use harness::calls::{MOST_LEGS, MOST_STOPS};
use harness::unit::ANSWER_WORDS;
use std::path::{Path, PathBuf};
use std::process::{Command, Output};
use std::{env, fs, process, str};

const WARNINGS: [&str; 4] = ["-Wall", "-Wextra", "-pedantic", "-Werror"];

fn root() -> PathBuf {
    Path::new(env!("CARGO_MANIFEST_DIR")).join("..")
}

fn read(path: &str) -> String {
    fs::read_to_string(root().join(path)).unwrap()
}

fn told(bytes: &[u8]) -> &str {
    str::from_utf8(bytes).unwrap()
}

/// A text between two others, and what follows the second.
fn between<'a>(text: &'a str, from: &str, to: &str) -> Option<(&'a str, &'a str)> {
    text.split_once(from)?.1.split_once(to)
}

/// The text with one space for each row of spaces and newlines.
fn spaced(text: &str) -> String {
    text.split_whitespace().collect::<Vec<_>>().join(" ").replace("( ", "(").replace(" )", ")")
}

/// A parameter or a field of an export, as C declares it. In C++ `class` is no name.
fn declared(item: &str) -> String {
    let (name, kind) = item.trim().trim_start_matches("pub ").split_once(": ").unwrap();
    let name = if name == "class" { "vehicle_class" } else { name };
    let number = |kind: &str| match kind {
        "u8" | "u32" | "u64" => format!("uint{}_t", &kind[1..]),
        "i64" => "int64_t".to_string(),
        other => other.to_string(),
    };
    let slice = |kind: &str| kind.strip_suffix(']').map(number);
    if let Some(kind) = kind.strip_prefix("&mut [").and_then(slice) {
        return format!("{kind} *{name}, size_t {name}_len");
    }
    if let Some(kind) = kind.strip_prefix("&[").and_then(slice) {
        return format!("const {kind} *{name}, size_t {name}_len");
    }
    if let Some((kind, len)) = kind.strip_prefix('[').and_then(|kind| kind.split_once("; ")) {
        return format!("{} {name}[UNIT_{}]", number(kind), len.trim_end_matches(']'));
    }
    match kind.strip_prefix("&mut ") {
        Some(kind) => format!("{} *{name}", number(kind)),
        None => format!("{} {name}", number(kind)),
    }
}

fn items<'a>(list: &'a str) -> impl Iterator<Item = String> + 'a {
    list.split(',').filter(|item| !item.trim().is_empty()).map(declared)
}

/// The structs and the functions of `unit_c`, as C declares them: the word of a time is one of its width.
fn exports() -> Vec<String> {
    let network = read("crates/network/src/lib.rt");
    let (width, _) = between(&network, "pub type TimeWord = ", ";").unwrap();
    let code = read("crates/unit_c/src/lib.rt").replace("TimeWord", width);
    let attributes = |line: &&str| !line.starts_with("#[derive(");
    let code = code.lines().filter(attributes).collect::<Vec<_>>().join("\n");
    let mut declarations = Vec::new();
    let mut rest = &code[..];
    while let Some((structure, after)) = between(rest, "#[repr(C)]\npub struct ", "\n}") {
        let (name, fields) = structure.split_once(" {").unwrap();
        let fields: Vec<String> = items(fields).map(|field| field + ";").collect();
        declarations.push(format!("typedef struct {name} {{ {} }} {name}", fields.join(" ")));
        rest = after;
    }
    rest = &code;
    while let Some((function, after)) = between(rest, "pub extern \"C\" fn ", "\n    ensures") {
        let (name, rest_of_it) = function.split_once('(').unwrap();
        let (parameters, result) = rest_of_it.rsplit_once(") -> ").unwrap();
        let parameters: Vec<String> = items(parameters).collect();
        let result = declared(&format!("{name}: {result}"));
        declarations.push(format!("{result}({})", parameters.join(", ")));
        rest = after;
    }
    declarations
}

/// The declarations of the header file, but for those that say what layout a struct has.
fn declarations() -> Vec<String> {
    let mut header = read("c/route_unit.h");
    while let Some((before, rest)) = header.split_once("/*") {
        header = format!("{before}{}", rest.split_once("*/").unwrap().1);
    }
    let lines =
        header.lines().filter(|line| !line.starts_with('#') && !line.contains("extern \"C\""));
    let text = lines.collect::<Vec<_>>().join("\n");
    let mut declarations = Vec::new();
    let mut begun = String::new();
    for piece in text.split_inclusive(';') {
        begun.push_str(piece);
        if begun.matches('{').count() == begun.matches('}').count() {
            declarations.push(spaced(begun.trim_end_matches(';')));
            begun.clear();
        }
    }
    declarations.retain(|declaration| !declaration.contains("sizeof"));
    declarations
}

#[test]
fn header_declares_the_exports() {
    let exports = exports();
    assert_eq!(exports.len(), 3 + 10);
    assert_eq!(declarations(), exports, "c/route_unit.h (left), crates/unit_c (right)");
}

/// As many legs as a list of the most stops has, and as many words as an answer of a script.
#[test]
fn most_legs() {
    let network = read("crates/network/src/lib.rt");
    let (most, _) = between(&network, "pub const MOST_STOPS: usize = ", ";").unwrap();
    let legs: usize = most.parse::<usize>().unwrap() - 1;
    assert_eq!((legs, most.parse()), (MOST_LEGS, Ok(MOST_STOPS)));
    assert!(read("crates/call_stops/src/lib.rt").contains("MOST_LEGS: usize = MOST_STOPS - 1;"));
    let header = read("c/route_unit.h");
    assert!(header.contains(&format!("#define UNIT_MOST_LEGS {legs}\n")));
    let script = read("crates/unit_script/src/lib.rt");
    assert!(script.contains("LEG_WORDS: usize = 2;"));
    assert!(script.contains("ANSWER_SIZE: usize = 4 + LEG_WORDS * MOST_LEGS;"));
    assert_eq!(ANSWER_WORDS, 4 + 2 * legs);
    assert!(header.contains(&format!("#define UNIT_ANSWER_WORDS {ANSWER_WORDS}\n")));
}

/// Taken by C, and by C++ if this machine has a compiler for it.
#[test]
fn header_is_taken() {
    for (compiler, language, standard) in [
        ("cc", "c", "-std=c99"),
        ("cc", "c", "-std=c11"),
        ("c++", "c++", "-std=c++98"),
        ("c++", "c++", "-std=c++17"),
    ] {
        let mut command = Command::new(compiler);
        command.args([standard, "-fsyntax-only", "-x", language]).args(WARNINGS);
        match command.arg(root().join("c/route_unit.h")).output() {
            Ok(output) => assert!(output.status.success(), "{}", told(&output.stderr)),
            Err(error) if compiler == "c++" => eprintln!("c++ is not tried: {error}"),
            Err(error) => panic!("{compiler}: {error}"),
        }
    }
}

/// Compiles a C program against the header and the archive, and runs it.
fn run(name: &str, program: &str) -> Output {
    let folder = env::temp_dir().join(format!("map_p-{}-{name}", process::id()));
    fs::create_dir_all(&folder).unwrap();
    let (source, binary) = (folder.join("map_p.c"), folder.join("map_p"));
    fs::write(&source, program).unwrap();
    let mut compile = Command::new("cc");
    compile.args(["-std=c99", "-O2"]).args(WARNINGS).arg("-I").arg(root().join("c"));
    let archive = root().join("crates/unit_c/out/libunit_c.a");
    compile.arg(source).arg(archive).arg("-o").arg(&binary);
    let compiled = compile.output().unwrap();
    assert!(compiled.status.success(), "{}", told(&compiled.stderr));
    let output = Command::new(binary).output().unwrap();
    fs::remove_dir_all(folder).unwrap();
    output
}

#[test]
fn map_p() {
    let output = run("right", &read("c/map_p.c"));
    let said = told(&output.stdout);
    assert_eq!(output.status.code(), Some(0), "{said}");
    assert_eq!((said.matches(" ok\n").count(), said.lines().count()), (30, 30), "{said}");
    for case in 1..=10 {
        assert!(said.contains(&format!("P{case} ")), "{said}");
    }
    let requests = ["A1 ", "A2 ", "A3 ", "A5 ", "A6 ", "A7 "];
    let requests = requests.map(|request| said.matches(request).count());
    assert_eq!(requests, [1, 6, 4, 1, 3, 3], "{said}");
}

/// The C program sees an answer that is not the one it waits for, in each case.
#[test]
fn map_p_with_another_answer() {
    let program = read("c/map_p.c");
    for (i, (case, old, new)) in [
        ("card", "2, 1, 28, 60,", "2, 1, 28, 61,"),
        ("P1 ", "1, 3, 2, 3};", "1, 3, 3, 2};"),
        ("P1 ", "UNIT_NONE, 20, 20};", "UNIT_NONE, 20, 21};"),
        ("P1 ", "{UNIT_NONE, 10, 10, UNIT_NONE,", "{10, UNIT_NONE, UNIT_NONE, 10,"),
        ("P2 ", "header.pairs == PAIRS && header.card == CARD", "header.pairs == M - 1"),
        (
            "P2 ",
            "header.pairs == PAIRS && header.card == CARD",
            "header.pairs == PAIRS && header.card == LONGER",
        ),
        ("P3 ", "estimated(1, 10)", "estimated(1, 11)"),
        ("P4 ", "estimated(3, 30)", "estimated(3, 20)"),
        ("P5 ", "gone(0, 0, 20, 2, roads_01, 3,", "gone(0, 0, 20, 2, roads_01, 2,"),
        ("P6 ", "gone(0, 0, 25, 2, roads_23,", "gone(0, 0, 24, 2, roads_23,"),
        ("P7 ", "gone(0, 0, 25, 2, roads_01,", "gone(0, 0, 25, 2, roads_23,"),
        ("P8 ", "log_of_3[] = {3}", "log_of_3[] = {0}"),
        ("P9 ", "set(0, 10000001) == 11", "set(0, 10000001) == 0"),
        ("P10 ", "gone(0, 15,", "gone(0, 0,"),
        ("A1 ", "{0, 2, 1, 3, 4}", "{0, 1, 2, 3, 4}"),
        ("A1 ", "{0, 2, 3, 4, 5}", "{0, 2, 3, 4, 4}"),
        ("A2  road 1 at 15", "foreseen(1, 15, 20, 25, 1, 5)", "foreseen(1, 15, 20, 25, 1, -5)"),
        ("A2  road 4", "20, 20, 1, 0)", "20, 20, 0, 0)"),
        ("A2  road 1 closed; at 10", "25, 20, 1, -5)", "25, 20, 1, 5)"),
        ("A2  road 1 closed; road 2", "25, UNIT_NONE, 0, 0)", "25, 0, 0, 0)"),
        ("A2  roads 1 and 2", "UNIT_NONE, 25, 0, 0)", "UNIT_NONE, 25, 1, 0)"),
        ("A2  refused", "1, 9, N, 11,", "1, 9, N, 12,"),
        ("A2  refused", "2 * N + 1, 1, 15, 0, 9,", "2 * N + 1, 1, 15, 0, 0,"),
        ("A3  stops 0, 3, 0", "both_ways = {0, 0, 2, 40,", "both_ways = {0, 0, 2, 41,"),
        ("A3  road 4 closed", "no_way_back = {17, 1,", "no_way_back = {17, 2,"),
        ("A3  road 4 closed", "2, {0, 1}, 3, {3, 1, 3}, 0}", "2, {0, 1}, 3, {3, 1, 3}, 3}"),
        ("A3  stops 0, 0", "stayed = {0, 0, 1, 0,", "stayed = {0, 0, 2, 0,"),
        ("A3  refused", "3 * N - 1, N, &too_short", "3 * N, N, &too_short"),
        ("A3  refused", "called(far, 3, 0, 0, &no_junction)", "called(far, 3, 0, 0, &too_short)"),
        ("replay", "{0, 25, 4, 2}", "{0, 26, 4, 2}"),
        ("replay", "(uint64_t)-5", "5"),
        ("replay", "4, 2, 1, TIME(10), 0,", "4, 2, 1, UNIT_HIGH(10), UNIT_LOW(10), 0,"),
        ("replay", "{0, 45, 0, 2}", "{0, 45, 2, 0}"),
        ("replay", "{25, 2, 20, 1}", "{25, 20, 2, 1}"),
        ("replay", "{17, 1, 0, 0}", "{17, 0, 1, 0}"),
        ("replay", "{18, 0, 0, 0}", "{12, 0, 0, 0}"),
        ("replay", "replayed(4, 13)", "replayed(4, 9)"),
        (
            "replay",
            "    bool prepared = prepare(PAIRS) == 0;",
            "    bool prepared = prepared_at(3) && set(1, 11) == 0;",
        ),
        ("A6  a byte", "LONGER - 1, &first, &second) == 3", "LONGER - 1, &first, &second) == 4"),
        (
            "A6  a byte",
            "card_read(card, 39, &first, &second) == 1",
            "card_read(card, 39, &first, &second) == 2",
        ),
        ("A6  a byte", "header.card == LONGER;", "header.card == CARD;"),
        ("A6  road 1", "{255, 254, 255, 255, 255}", "{255, 253, 255, 255, 255}"),
        ("A6  road 1", "gone_as(7, 0, 0, 20, 2,", "gone_as(7, 0, 0, 25, 2,"),
        ("A6  road 1", "1, 60, 0, 0, 25, 25, 1, 0)", "1, 60, 0, 0, 25, 20, 1, -5)"),
        (
            "A6  road 1",
            "called_as(0, ends, 2, 2 * N, N, &round)",
            "called_as(1, ends, 2, 2 * N, N, &round)",
        ),
        ("A6  class 8", "gone_as(8, N, 18, 0,", "gone_as(8, N, 12, 0,"),
        (
            "A6  class 8",
            "previewed_as(8, 2 * N, M, 9, N, 18,",
            "previewed_as(8, 2 * N, M, 9, N, 10,",
        ),
        (
            "A6  class 8",
            "called_as(8, ends, 1, 0, 0, &wrong_number)",
            "called_as(8, ends, 2, 0, 0, &wrong_number)",
        ),
        (
            "A6  class 8",
            "called_as(8, ends, 2, 0, 0, &refused)",
            "called_as(7, ends, 2, 0, 0, &refused)",
        ),
        (
            "A6  class 8",
            "called_as(8, ends, 1, 0, 0, &lengths)",
            "!called_as(8, ends, 1, 0, 0, &lengths)",
        ),
        ("A7  times", "set(1, 10000000) == 0", "set(1, 10000000) == 11"),
        ("A7  times", "refused[] = {0, 9,", "refused[] = {0, 10,"),
        ("A7  times", "UNIT_CLOSED >> 1, UNIT_CLOSED << 32}", "UNIT_CLOSED >> 1, UNIT_CLOSED}"),
        ("A7  times", "(UINT64_C(1) << 32) + 10) == 11", "(UINT64_C(1) << 32) + 10) == 0"),
        ("A7  pairs", "groups, N + 1, 0, 11)) == 9", "groups, N + 1, 0, 11)) == 0"),
        ("A7  pairs", "groups, N + 1)) == 7", "groups, N + 1)) == 9"),
        ("A7  pairs", "{{2 * PAIRS, 2 * PAIRS - 2},", "{{2 * PAIRS, 2 * PAIRS},"),
        ("A7  430", "told_of.total == whole", "told_of.total == (uint32_t)whole"),
        ("A7  430", "trip.total == whole", "trip.total == (uint32_t)whole"),
        ("A7  430", "foretold.then == UNIT_NONE", "foretold.then == UINT32_MAX"),
        ("A5 ", "gone(0, 0, 3, 3, roads, 4, log)", "gone(0, 0, 3, 2, roads, 4, log)"),
        ("A5 ", "log[] = {0, 2, 1, 3}, ends", "log[] = {0, 1, 2, 3}, ends"),
        ("A5 ", "{2, 0, 3}, 4, {0, 2, 1, 3}, 3}", "{2, 0, 3}, 4, {0, 1, 2, 3}, 3}"),
    ]
    .into_iter()
    .enumerate()
    {
        assert_eq!(program.matches(old).count(), 1, "{old}");
        let output = run(&format!("{i}"), &program.replace(old, new));
        let said = told(&output.stdout);
        assert_eq!(output.status.code(), Some(1), "{said}");
        let wrong: Vec<&str> = said.lines().filter(|line| line.ends_with("WRONG")).collect();
        assert!(wrong.len() == 1 && wrong[0].starts_with(case), "{case}: {said}");
    }
}

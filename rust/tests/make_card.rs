//! The program make-card: text to card and back.

use harness::calls::Refusal;
use harness::card::{LONGEST, MOST_JUNCTIONS, MOST_ROADS};
use harness::maps::{self, Map, Road, Streets};
use harness::order::MOST_PAIRS;
use harness::random::Random;
use harness::text;
use harness::unit::Unit;
use std::path::{Path, PathBuf};
use std::process::{Command, Output, Stdio};
use std::{env, fs, process, str};

/// A folder of a test's own, removed at its end.
struct Folder(PathBuf);

impl Folder {
    fn new(name: &str) -> Folder {
        let folder = env::temp_dir().join(format!("make-card-{}-{name}", process::id()));
        fs::create_dir_all(&folder).unwrap();
        Folder(folder)
    }

    fn path(&self, name: &str) -> PathBuf {
        self.0.join(name)
    }

    /// The names of its files.
    fn names(&self) -> Vec<String> {
        let entries = fs::read_dir(&self.0).unwrap();
        let mut names: Vec<_> =
            entries.map(|entry| entry.unwrap().file_name().into_string().unwrap()).collect();
        names.sort();
        names
    }

    /// Makes the card `CARD` of a text in the file `text`.
    fn make(&self, text: &[u8]) -> Output {
        fs::write(self.path("text"), text).unwrap();
        run(&[&self.path("text"), &self.path("CARD")])
    }
}

impl Drop for Folder {
    fn drop(&mut self) {
        let _ = fs::remove_dir_all(&self.0);
    }
}

fn run(arguments: &[&Path]) -> Output {
    Command::new(env!("CARGO_BIN_EXE_make-card")).args(arguments).output().unwrap()
}

fn told(bytes: &[u8]) -> &str {
    str::from_utf8(bytes).unwrap()
}

const MAP_P: &str = "\
road 0 1 10
road 1 3 10
road 0 2 15
road 2 3 10
road 3 0 20
order 1 2 0 3
";

#[test]
fn map_p() {
    let folder = Folder::new("map_p");
    let output = folder.make(MAP_P.as_bytes());
    let said = "4 junctions, 5 roads, 5 pairs\n\
        fits the unit (4096 junctions, 16384 roads, 65536 pairs)\n\
        fits the program (200 junctions, 800 roads, 4000 pairs)\n";
    assert_eq!((told(&output.stdout), told(&output.stderr)), (said, ""));
    assert!(output.status.success());
    let card = fs::read(folder.path("CARD")).unwrap();
    assert_eq!(card.len(), 104);
    assert_eq!(card, maps::map_p().card().unwrap());
    assert_eq!(folder.names(), ["CARD", "text"]);

    let output = run(&["--text".as_ref(), &folder.path("CARD")]);
    assert_eq!((told(&output.stdout), told(&output.stderr)), (MAP_P, ""));
    assert!(output.status.success());
}

/// Map P with road 1 barred to class 0, and road 3 to all but two.
#[test]
fn map_p_with_classes() {
    let folder = Folder::new("map_p_with_classes");
    let text = MAP_P
        .replace("road 1 3 10", "road 1 3 10 classes 1-7")
        .replace("road 2 3 10", "road 2 3 10 classes 0,2");
    let output = folder.make(text.as_bytes());
    let said = "4 junctions, 5 roads, 5 pairs; 2 roads bar some classes\nfits the unit ";
    assert!(told(&output.stdout).starts_with(said), "{}", told(&output.stdout));
    assert!(output.status.success() && output.stderr.is_empty());
    let card = fs::read(folder.path("CARD")).unwrap();
    assert_eq!(card.len(), 40 + 60 + 16 + 5);
    let table: Vec<u32> =
        card.as_chunks().0[..10].iter().map(|&word| u32::from_le_bytes(word)).collect();
    assert_eq!(table, [3, 1, 40, 60, 2, 100, 16, 3, 116, 5]);
    assert_eq!(card[116..], [255, 254, 255, 5, 255]);
    assert_eq!(card[40..116], maps::map_p().card().unwrap()[28..]);
    let output = run(&["--text".as_ref(), &folder.path("CARD")]);
    assert_eq!((told(&output.stdout), told(&output.stderr)), (&text[..], ""));
}

/// Lists that let every class in make the card that has none of them; and a card with bytes of 255 is printed
/// without any.
#[test]
fn classes_that_bar_nothing() {
    let folder = Folder::new("bar_nothing");
    let text = MAP_P.replace("road 1 3 10", "road 1 3 10 classes 0-7");
    assert!(folder.make(text.as_bytes()).status.success());
    assert!(fs::read(folder.path("CARD")).unwrap() == maps::map_p().card().unwrap());
    fs::write(folder.path("CARD"), maps::map_p().card_with_access().unwrap()).unwrap();
    let output = run(&["--text".as_ref(), &folder.path("CARD")]);
    assert_eq!((told(&output.stdout), told(&output.stderr)), (MAP_P, ""));
}

#[test]
fn there_and_back() {
    let folder = Folder::new("there_and_back");
    let mut random = Random::new(1);
    let mut maps: Vec<Map> = (0..20).map(|_| maps::small(&mut random)).collect();
    let mut barred: Vec<Map> = (0..30).map(|_| maps::small(&mut random)).collect();
    barred.push(maps::random(&mut random, MOST_JUNCTIONS, MOST_ROADS, LONGEST));
    barred.iter_mut().for_each(|map| maps::bar(&mut random, map));
    assert!(barred.iter().filter(|map| !map.admits_all()).count() > 15);
    maps.extend(barred);
    maps.extend([
        maps::town(&mut random, 30, 30, Streets::USUAL),
        maps::random(&mut random, 300, 1_000, LONGEST),
        maps::random(&mut random, MOST_JUNCTIONS, 0, 1),
        maps::random(&mut random, 2, MOST_ROADS, LONGEST),
    ]);
    let mut fitting = 0;
    for map in maps {
        let output = folder.make(text::print(&map).as_bytes());
        let fits = told(&output.stdout).contains("\nfits the unit ");
        assert_eq!(output.status.code(), Some(if fits { 0 } else { 3 }));
        fitting += fits as usize;
        assert!(fs::read(folder.path("CARD")).unwrap() == map.card().unwrap(), "another card");
        let output = run(&["--text".as_ref(), &folder.path("CARD")]);
        assert_eq!(text::parse(&output.stdout), Ok(map));
    }
    assert_eq!(fitting, 20 + 30 + 4, "all but the largest one fit the unit");
}

/// Without an order, few pairs; and where a map fits.
#[test]
fn sizes() {
    let folder = Folder::new("sizes");
    let mut random = Random::new(2);
    let said = |map: &Map, status: i32| {
        let mut lines = text::print(map);
        lines.truncate(lines.find("order").unwrap_or(lines.len()));
        let output = folder.make(lines.as_bytes());
        assert_eq!(output.status.code(), Some(status), "{}", told(&output.stderr));
        told(&output.stdout).replace(" (", "\n").lines().map(str::to_string).collect::<Vec<_>>()
    };
    for (width, height, unit, program) in [
        (10, 20, "fits", "fits"),
        (20, 20, "fits", "does not fit"),
        (64, 64, "fits", "does not fit"),
    ] {
        let lines = said(&maps::town(&mut random, width, height, Streets::USUAL), 0);
        assert!(lines[0].starts_with(&format!("{} junctions, ", width * height)), "{lines:?}");
        assert_eq!(lines[1], format!("{unit} the unit"));
        assert_eq!(lines[3], format!("{program} the program"));
    }
    let lines = said(&maps::random(&mut random, 2_000, 16_000, LONGEST), 3);
    assert_eq!(
        (&lines[1][..], &lines[3][..]),
        ("does not fit the unit", "does not fit the program")
    );
}

/// A map whose order keeps 65,535 pairs and `more`. Its first junction, which 255 lead into and which leads to 255 others, is the
/// first that is contracted: 510 pairs, and one for each of these two and two; then a chain of `more` roads.
fn of_pairs(more: u32) -> Map {
    let center = (1..=255).flat_map(|i| [Road::new(i, 0, 1), Road::new(0, 255 + i, 1)]);
    let chain = (0..more).map(|i| Road::new(510 + i, 511 + i, 1));
    Map { roads: center.chain(chain).collect(), order: (0..=510 + more).collect() }
}

/// At 65,536 pairs a card fits the unit, and at one more it is written all the same, with a status of its own; preparing
/// agrees.
#[test]
fn room_of_the_unit() {
    let folder = Folder::new("room");
    for (more, status, fits, prepared) in
        [(1, 0, "fits", Ok(())), (2, 3, "does not fit", Err(Refusal::Room))]
    {
        let map = of_pairs(more);
        let output = folder.make(text::print(&map).as_bytes());
        let said = format!(
            "{} junctions, {} roads, {} pairs\n\
             {fits} the unit (4096 junctions, 16384 roads, 65536 pairs)\n\
             does not fit the program (200 junctions, 800 roads, 4000 pairs)\n",
            511 + more,
            510 + more,
            65_535 + more
        );
        let path = folder.path("CARD");
        let want = match status {
            0 => String::new(),
            _ => format!(
                "make-card: {}: written, but it does not fit the unit, which will refuse it by question 8\n",
                path.display()
            ),
        };
        assert_eq!((told(&output.stdout), told(&output.stderr)), (&said[..], &want[..]));
        assert_eq!(output.status.code(), Some(status));
        let card = fs::read(path).unwrap();
        assert!(card == map.card().unwrap(), "another card");
        assert_eq!(Unit::new(&card, map.n(), map.m(), MOST_PAIRS).prepare(), prepared);
        fs::remove_file(folder.path("CARD")).unwrap();
    }
}

/// Warnings: the card is written, and the status is 0.
#[test]
fn warnings() {
    let folder = Folder::new("warnings");
    let whole = "road 0 1 10\nroad 1 2 10\n";
    for (text, warnings) in [
        (whole.to_string(), &[][..]),
        // One part, though no chain leads both ways, nor to each junction from one.
        ("road 0 1 10\nroad 2 1 10\nroad 2 3 10\n".to_string(), &[]),
        ("road 0 2 10\n".to_string(), &["junction 1 has no road"]),
        ("road 1 2 10\n".to_string(), &["junction 0 has no road"]),
        (format!("{whole}order 3 2 1 0\n"), &["junction 3 has no road"]),
        ("order 0\n".to_string(), &["junction 0 has no road"]),
        ("order 2 0 1\n".to_string(), &["3 junctions have no road, first 0"]),
        ("road 6 9 10\nroad 1 6 10\n".to_string(), &["7 junctions have no road, first 0"]),
        (
            "road 3 2 10\nroad 0 1 10\n".to_string(),
            &["the roads are in 2 parts that no road joins; junctions 0 and 2 lie in two of them"],
        ),
        (
            "road 4 9 10\nroad 3 4 10 classes none\nroad 6 1 10\nroad 8 7 10\nroad 9 8 10\nroad 2 5 1\n"
                .to_string(),
            &[
                "junction 0 has no road",
                "the roads are in 3 parts that no road joins; junctions 1 and 2 lie in two of them",
            ],
        ),
        // A ring, and a part within its numbers.
        (
            "road 0 2 10\nroad 2 4 10\nroad 4 0 10\nroad 1 3 10\nroad 3 1 10\n".to_string(),
            &["the roads are in 2 parts that no road joins; junctions 0 and 1 lie in two of them"],
        ),
    ] {
        let output = folder.make(text.as_bytes());
        let path = folder.path("text");
        let told_of: Vec<String> = warnings
            .iter()
            .map(|warning| format!("make-card: {}: warning: {warning}\n", path.display()))
            .collect();
        assert_eq!(told(&output.stderr), told_of.concat(), "{text}");
        assert!(output.status.success() && told(&output.stdout).contains("\nfits the unit "));
        let card = fs::read(folder.path("CARD")).unwrap();
        assert!(card == text::parse(text.as_bytes()).unwrap().card().unwrap(), "another card");
        fs::remove_file(folder.path("CARD")).unwrap();
    }
}

/// Help and version go to standard output, with status 0, and nothing is written or read.
#[test]
fn help_and_version() {
    let output = run(&["--help".as_ref()]);
    assert_eq!((output.status.code(), told(&output.stderr)), (Some(0), ""));
    let help = told(&output.stdout);
    assert!(help.starts_with("make-card TEXT CARD "), "{help}");
    for words in [
        "make-card --text CARD ",
        "make-card --help ",
        "make-card --version ",
        "\n  road TAIL HEAD TENTHS ",
        " classes 0,2-5 ",
        "\n  order J J .. ",
        "\n  # any words ",
        "byte order mark",
        "junctions without a road",
        "parts that no road joins",
        "\n  0   ",
        "\n  1   ",
        "\n  2   ",
        "\n  3   ",
    ] {
        assert!(help.contains(words), "{words:?} is not said in\n{help}");
    }
    for limit in [LONGEST as usize, MOST_JUNCTIONS - 1, MOST_ROADS - 1, MOST_PAIRS] {
        assert!(help.contains(&format!(" {limit}")), "{limit} is not said in\n{help}");
    }
    assert!(help.lines().all(|line| line.chars().count() <= 100), "{help}");

    let output = run(&["--version".as_ref()]);
    assert_eq!((output.status.code(), told(&output.stderr)), (Some(0), ""));
    let package = include_str!("../Cargo.toml");
    let version = package.lines().find_map(|line| line.strip_prefix("version = ")).unwrap();
    assert_eq!(told(&output.stdout), format!("make-card {}\n", version.trim_matches('"')));
}

/// The examples of text that the help has make cards.
#[test]
fn lines_of_the_help() {
    let folder = Folder::new("lines_of_the_help");
    let output = run(&["--help".as_ref()]);
    let forms: Vec<&str> = told(&output.stdout)
        .lines()
        .filter_map(|line| line.strip_prefix("  ")?.split("   ").next())
        .filter(|form| ["road", "orde", "# an"].iter().any(|start| form.starts_with(start)))
        .collect();
    assert_eq!(forms.len(), 4, "{forms:?}");
    let text: String = forms
        .iter()
        .map(|form| {
            let numbers = [("TAIL", "0"), ("HEAD", "1"), ("TENTHS", "7"), ("J J ..", "1 0")];
            numbers.iter().fold(form.to_string(), |line, (name, to)| line.replace(name, to)) + "\n"
        })
        .collect();
    assert_eq!(text, "road 0 1 7\nroad 0 1 7 classes 0,2-5\norder 1 0\n# any words\n");
    assert!(folder.make(text.as_bytes()).status.success());
}

/// Where standard output takes nothing, the status is 1; the card is there, and the message says so.
#[test]
fn no_standard_output() {
    let folder = Folder::new("no_standard_output");
    fs::write(folder.path("text"), MAP_P).unwrap();
    let [text, card] = ["text", "CARD"].map(|name| folder.path(name));
    for (arguments, written) in [
        (&[text.as_path(), &card][..], true),
        (&["--text".as_ref(), &card], false),
        (&["--help".as_ref()], false),
        (&["--version".as_ref()], false),
    ] {
        let full = fs::File::create("/dev/full").unwrap();
        let mut make_card = Command::new(env!("CARGO_BIN_EXE_make-card"));
        let output =
            make_card.args(arguments).stdout(full).stderr(Stdio::piped()).output().unwrap();
        let said = told(&output.stderr);
        assert_eq!(output.status.code(), Some(1), "{said}");
        assert!(said.starts_with("make-card: standard output: "), "{said}");
        assert_eq!(said.ends_with("; the card is written\n"), written, "{said}");
    }
    assert_eq!(fs::read(card).unwrap(), maps::map_p().card().unwrap());
}

/// A text that is no map: a message with the line, and the card that was there stays.
#[test]
fn faults() {
    let folder = Folder::new("faults");
    fs::write(folder.path("CARD"), "old").unwrap();
    for (text, message) in [
        (&b"road 0 1 10\nroad 0 1\n"[..], "line 2: a road has 3 numbers: TAIL HEAD TENTHS, not 2"),
        (b"road 0 1 0\n", "line 1: 0 tenths of a second are not from 1 to 10000000"),
        (b"", "no road and no order, so no junction"),
        (b"road 0 1 10\n\xff\n", "line 2: this is no text in UTF-8"),
        (b"road 0 1 10\nroad 1 0 10 classes 0,8\n", "line 2: class 8 is not below 8"),
        (b"road 0 1 10 classes\n", "line 1: `classes` without a list, such as 0,2-5 or none"),
        (b"road 0 1 10 0,2\n", "line 1: `0,2` behind the time; only `classes` may stand there"),
        (b"road 0 1 10\nroad 4096 0 10\n", "line 2: junction 4096 is not below 4096"),
        (
            b"\xef\xbb\xbfroad 0 1 10\n",
            "line 1: the text begins with a byte order mark (UTF-8); save it as UTF-8 without one",
        ),
        (
            b"road 0 1 10\n012345678901234567890123456789012345678901234567890\n",
            "line 2: `0123456789012345678901234567890123456789..` begins no line; `road`, `order` and `#` do",
        ),
    ] {
        let output = folder.make(text);
        let want = format!("make-card: {}: {message}\n", folder.path("text").display());
        assert_eq!((told(&output.stderr), told(&output.stdout)), (&want[..], ""));
        assert_eq!(output.status.code(), Some(1));
        assert_eq!(fs::read(folder.path("CARD")).unwrap(), b"old");
        assert_eq!(folder.names(), ["CARD", "text"]);
    }
}

#[test]
fn files_that_are_not_there() {
    let folder = Folder::new("files");
    fs::write(folder.path("text"), MAP_P).unwrap();
    let [text, lost, deep] = ["text", "lost", "lost/CARD"].map(|name| folder.path(name));
    for arguments in [[&lost, &deep], [&text, &deep], [&PathBuf::from("--text"), &lost]] {
        let output = run(&arguments.map(PathBuf::as_path));
        assert_eq!(output.status.code(), Some(1));
        assert!(told(&output.stderr).starts_with("make-card: "), "{}", told(&output.stderr));
        assert_eq!(folder.names(), ["text"]);
    }
    for arguments in [
        &[][..],
        &[text.as_path()],
        &["--helps".as_ref()],
        &["--text".as_ref()],
        &["--help".as_ref(), &text],
        &["--version".as_ref(), &text],
        &[&text, &text, &text],
    ] {
        let output = run(arguments);
        assert_eq!((output.status.code(), told(&output.stdout)), (Some(2), ""));
        let said = told(&output.stderr);
        assert!(said.starts_with("make-card TEXT CARD ") && said.lines().count() == 4, "{said}");
        assert_eq!(folder.names(), ["text"]);
    }
}

/// Nothing but a file is replaced by a card, and not the text that it is made of.
#[test]
fn places_that_are_no_card() {
    let folder = Folder::new("places");
    fs::write(folder.path("text"), MAP_P).unwrap();
    fs::create_dir(folder.path("deep")).unwrap();
    for place in ["text", "deep", "deep/../text"] {
        let output = run(&[&folder.path("text"), &folder.path(place)]);
        assert_eq!((output.status.code(), told(&output.stdout)), (Some(1), ""));
        assert!(told(&output.stderr).starts_with("make-card: "), "{}", told(&output.stderr));
        assert_eq!(folder.names(), ["deep", "text"]);
        assert_eq!(fs::read_to_string(folder.path("text")).unwrap(), MAP_P);
    }
}

/// The map of document 01 that the repository has as a text.
#[test]
fn example() {
    let text = Path::new(env!("CARGO_MANIFEST_DIR")).join("../examples/p.map");
    assert_eq!(text::parse(&fs::read(text).unwrap()), Ok(maps::map_p()));
}

/// A card that the proved reader refuses.
#[test]
fn refused_cards() {
    let folder = Folder::new("refused");
    let card = maps::map_p().card().unwrap();
    let mut bad_road = card.clone();
    bad_road[28 + 12 + 4] = 9;
    let mut bad_place = card.clone();
    bad_place[88 + 12] = 1;
    let with_access = maps::map_p_with_classes().card().unwrap();
    let mut one_byte_less = with_access[..120].to_vec();
    one_byte_less[36] = 4;
    let mut kind_4 = with_access.clone();
    kind_4[28] = 4;
    for (bytes, told_of) in [
        (&card[..27], "1: it is"),
        (&card[..3], "1: it is"),
        (&with_access[..39], "1: it is"),
        (&kind_4, "2: it does"),
        (&with_access[..120], "3: it is"),
        (&one_byte_less, "4: it has"),
        (&card[..103], "3: it is"),
        (&bad_road, "5: road 1"),
        (&bad_place, "6: place 3"),
    ] {
        fs::write(folder.path("CARD"), bytes).unwrap();
        let output = run(&["--text".as_ref(), &folder.path("CARD")]);
        let path = folder.path("CARD");
        let want = format!("make-card: {}: refused by question {told_of} ", path.display());
        assert!(told(&output.stderr).starts_with(&want), "{}", told(&output.stderr));
        assert_eq!(told(&output.stdout), "");
        assert_eq!(output.status.code(), Some(1));
    }
}

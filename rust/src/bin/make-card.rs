//! Makes the card of a map that is lines of text, and text of a card. The proved writer, which knows maps without
//! classes, makes a card; where a road bars a class, a section with a byte for each road is added to it here, and the
//! proved reader asked whether it takes that card.

use harness::calls::Refusal;
use harness::card::{self, EVERY_CLASS};
use harness::graph::Graph;
use harness::maps::Map;
use harness::order::{self, MOST_PAIRS};
use harness::{text, unit};
use std::io::{self, Write};
use std::path::{Path, PathBuf};
use std::{env, fs, process};

const USAGE: &str = "\
make-card TEXT CARD     makes the card of a map that is text
make-card --text CARD   prints the text of a card
make-card --help        says how the text is written, and what the statuses are
make-card --version     prints the version";

/// What follows the usage in the help.
const HELP: &str = "\
The text is UTF-8 without a byte order mark; blanks or tabs stand between the words of a line:

  road TAIL HEAD TENTHS                 a road from junction TAIL to junction HEAD, one way, and
                                        its time in tenths of a second, 1 to 10000000
  road TAIL HEAD TENTHS classes 0,2-5   one that only these vehicle classes may use, of 0 to 7;
                                        `classes none` bars them all
  order J J ..                          the junctions from lowest rank to highest, each once, on
                                        one line or several; without any, make-card looks for a
                                        good order
  # any words                           a comment, which has a line of its own and says nothing,
                                        as an empty line does

Junctions are numbered from 0, to 4095 at most; roads from 0 as they come, to 16383 at most.

CARD is written whole or not at all, in the place of a file that was there; its sizes, and
where it fits, go to standard output. Warnings go to standard error and leave card and status
as they are: of junctions without a road, and of a map in parts that no road joins.

The status is
  0   The card is written, or the text printed.
  1   The text is no map, the card is refused, or a file cannot be read or written; the message
      names the line, the question or the file. No card is written, unless it is standard output
      that failed: then the message says that it is.
  2   These are no arguments of make-card's. No card is written.
  3   The card is written, but the unit has no room for it: in this order the map needs more
      than 65536 pairs, and preparing will refuse it, by question 8. Another order may do.";

/// The statuses but 0.
const FAILED: i32 = 1;
const NO_USAGE: i32 = 2;
const NO_ROOM: i32 = 3;

/// What the program has room for: junctions, roads and pairs.
const PROGRAM: [usize; 3] = [200, 800, 4_000];

fn main() {
    let arguments: Vec<PathBuf> = env::args_os().skip(1).map(PathBuf::from).collect();
    let done = match &arguments[..] {
        [option] if option.as_os_str() == "--help" => say(&format!("{USAGE}\n\n{HELP}\n")),
        [option] if option.as_os_str() == "--version" => {
            say(&format!("make-card {}\n", env!("CARGO_PKG_VERSION")))
        }
        [option, card] if option.as_os_str() == "--text" => print_text(card),
        [text, card] if !text.as_os_str().to_string_lossy().starts_with("--") => {
            make_card(text, card)
        }
        _ => {
            eprintln!("{USAGE}");
            process::exit(NO_USAGE);
        }
    };
    if let Err(Failure { message, status }) = done {
        eprintln!("make-card: {message}");
        process::exit(status);
    }
}

/// Why the status is not 0.
struct Failure {
    message: String,
    status: i32,
}

impl From<String> for Failure {
    fn from(message: String) -> Failure {
        Failure { message, status: FAILED }
    }
}

fn make_card(text: &Path, card: &Path) -> Result<(), Failure> {
    let about = |error: &dyn ToString| format!("{}: {}", text.display(), error.to_string());
    let lines = fs::read(text).map_err(|error| about(&error))?;
    let map = text::parse(&lines).map_err(|fault| about(&fault))?;
    let bytes = card_of(&map).map_err(|refusal| about(&told(refusal)))?;
    if fs::canonicalize(card)
        .is_ok_and(|card| fs::canonicalize(text).is_ok_and(|text| card == text))
    {
        return Err(about(&"the card would take the place of the text").into());
    }
    put(card, &bytes)?;
    for warning in warnings(&map) {
        eprintln!("make-card: {}", about(&format!("warning: {warning}")));
    }
    let pairs = order::pairs(&map);
    say(&(summary(&map, pairs) + "\n")).map_err(|failure| Failure {
        message: format!("{}; the card is written", failure.message),
        ..failure
    })?;
    if pairs > MOST_PAIRS {
        let message = format!(
            "{}: written, but it does not fit the unit, which will refuse it by question 8",
            card.display()
        );
        return Err(Failure { message, status: NO_ROOM });
    }
    Ok(())
}

/// The card of a map, with bytes for classes if a road bars one.
fn card_of(map: &Map) -> Result<Vec<u8>, Refusal> {
    let (roads, order) = map.rows();
    let mut card = vec![0; card::len(map.n(), map.m())];
    unit::write(&roads, &order, &mut card)?;
    if map.admits_all() {
        return Ok(card);
    }
    let card = card::with_access(&card, &map.access());
    unit::read(&card)?;
    Ok(card)
}

fn print_text(card: &Path) -> Result<(), Failure> {
    let about = |error: &dyn ToString| format!("{}: {}", card.display(), error.to_string());
    let bytes = fs::read(card).map_err(|error| about(&error))?;
    unit::read(&bytes).map_err(|refusal| about(&told(refusal)))?;
    let map = Map::of_card(&bytes).map_err(|refusal| about(&told(refusal)))?;
    say(&text::print(&map))
}

fn say(words: &str) -> Result<(), Failure> {
    let said = io::stdout().write_all(words.as_bytes()).and_then(|()| io::stdout().flush());
    Ok(said.map_err(|error| format!("standard output: {error}"))?)
}

/// Writes a file whole or not at all, in the place of one that was there, but of nothing else.
fn put(path: &Path, bytes: &[u8]) -> Result<(), String> {
    if fs::metadata(path).is_ok_and(|there| !there.is_file()) {
        return Err(format!("{}: is there and is no file", path.display()));
    }
    let mut part = path.as_os_str().to_owned();
    part.push(".part");
    let written = fs::write(&part, bytes).and_then(|()| fs::rename(&part, path));
    written.map_err(|error| {
        // It may never have been made.
        let _ = fs::remove_file(&part);
        format!("{}: {error}", path.display())
    })
}

/// A refusal of a card or of a map, in words.
fn told(refusal: Refusal) -> String {
    let why = match refusal {
        Refusal::Short => "it is shorter than its table of contents".to_string(),
        Refusal::Kinds => "it does not begin as a card does".to_string(),
        Refusal::Starts => {
            "it is longer or shorter than it says, or its parts lie elsewhere".to_string()
        }
        Refusal::Sizes => {
            "it has too many roads, too many junctions or none, or not a byte of classes for each road"
                .to_string()
        }
        Refusal::Road(road) => format!("road {road} has a wrong end or a time out of range"),
        Refusal::Place(place) => {
            format!("place {place} of the order, from 0, has a wrong junction or one that stands before")
        }
        _ => "by no question on a card".to_string(),
    };
    format!("refused by question {}: {why}", refusal.number())
}

/// What is no fault, but seldom meant: junctions without a road, and roads in parts that none of them joins.
fn warnings(map: &Map) -> Vec<String> {
    let graph = Graph::new(map);
    let (lonely, parts) = (graph.without_roads(), graph.parts());
    let mut warnings = Vec::new();
    match lonely[..] {
        [] => (),
        [junction] => warnings.push(format!("junction {junction} has no road")),
        [first, ..] => {
            warnings.push(format!("{} junctions have no road, first {first}", lonely.len()))
        }
    }
    if let [one, another, ..] = parts[..] {
        warnings.push(format!(
            "the roads are in {} parts that no road joins; junctions {one} and {another} lie in two of them",
            parts.len()
        ));
    }
    warnings
}

/// The size of a map that needs so many pairs, and where it fits.
fn summary(map: &Map, pairs: usize) -> String {
    let needs = [map.n(), map.m(), pairs];
    let [n, m, _] = needs;
    let says = |fits| if fits { "fits" } else { "does not fit" };
    let unit = says(pairs <= MOST_PAIRS);
    let program = says(needs.iter().zip(PROGRAM).all(|(&need, room)| need <= room));
    let [junctions, roads, room] = PROGRAM;
    let barred = match map.access().iter().filter(|&&access| access != EVERY_CLASS).count() {
        0 => String::new(),
        1 => "; 1 road bars some classes".to_string(),
        barred => format!("; {barred} roads bar some classes"),
    };
    format!(
        "{n} junctions, {m} roads, {pairs} pairs{barred}\n\
         {unit} the unit (4096 junctions, 16384 roads, {MOST_PAIRS} pairs)\n\
         {program} the program ({junctions} junctions, {roads} roads, {room} pairs)"
    )
}

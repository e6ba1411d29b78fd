//! A map as lines of text.
//!
//! A road is a line `road TAIL HEAD TENTHS`, with its base time in tenths of a second; roads are numbered from 0 as
//! they come. Where it lets only some vehicle classes in, `classes LIST` follows: numbers from 0 to 7 and rows of
//! them, as `0,2-5`, or `none`. Lines `order J J ..` have the junctions from lowest rank to highest, each once; without
//! one, a good order is computed, for as many junctions as the largest number in a road asks for. Empty lines and lines
//! that begin with `#` say nothing. A byte order mark at the start is refused by name.

use crate::calls::CLASSES;
use crate::card::{EVERY_CLASS, LONGEST, MOST_JUNCTIONS, MOST_ROADS};
use crate::maps::{Map, Road};
use std::error::Error;
use std::fmt::{self, Display, Formatter, Write};

/// Why a text is no map.
#[derive(Clone, Debug, PartialEq, Eq)]
pub struct Fault {
    /// Counted from 1; 0 if it is no line's fault.
    pub line: usize,
    pub what: String,
}

impl Display for Fault {
    fn fmt(&self, f: &mut Formatter) -> fmt::Result {
        match self {
            Fault { line: 0, what } => f.write_str(what),
            Fault { line, what } => write!(f, "line {line}: {what}"),
        }
    }
}

impl Error for Fault {}

/// Byte order marks, and what an editor calls a text that begins with one.
const MARKS: [(&[u8], &str); 3] = [
    (b"\xef\xbb\xbf", "UTF-8"),
    (b"\xff\xfe", "UTF-16, little endian"),
    (b"\xfe\xff", "UTF-16, big endian"),
];

/// A message shows so many characters of a word.
const MOST_SHOWN: usize = 40;

/// The map of a text.
pub fn parse(text: &[u8]) -> Result<Map, Fault> {
    if let Some((_, name)) = MARKS.iter().find(|(mark, _)| text.starts_with(mark)) {
        let what = format!(
            "the text begins with a byte order mark ({name}); save it as UTF-8 without one"
        );
        return Err(Fault { line: 1, what });
    }
    let mut reader = Reader::default();
    for line in text.split(|&byte| byte == b'\n') {
        reader.at += 1;
        let read = str::from_utf8(line).map_err(|_| "this is no text in UTF-8".to_string());
        let read = read.and_then(|line| reader.line(line));
        read.map_err(|what| Fault { line: reader.at, what })?;
    }
    reader.map()
}

/// The text of a map.
pub fn print(map: &Map) -> String {
    let mut text = String::new();
    let mut line = |line: String| text.push_str(&(line + "\n"));
    for &Road { tail, head, base, access } in &map.roads {
        let classes = match access {
            EVERY_CLASS => String::new(),
            _ => format!(" classes {}", print_classes(access)),
        };
        line(format!("road {tail} {head} {base}{classes}"));
    }
    for junctions in map.order.chunks(16) {
        line(junctions.iter().fold("order".to_string(), |mut line, junction| {
            write!(line, " {junction}").expect("room in a string");
            line
        }));
    }
    text
}

/// The classes that a byte lets in, in rows as long as they are.
fn print_classes(access: u8) -> String {
    let admits = |class: u32| access & 1 << class != 0;
    let mut rows: Vec<String> = Vec::new();
    let mut class = 0;
    while class < CLASSES {
        let first = class;
        while class < CLASSES && admits(class) {
            class += 1;
        }
        match class - first {
            0 => (),
            1 => rows.push(format!("{first}")),
            _ => rows.push(format!("{first}-{}", class - 1)),
        }
        class += 1;
    }
    if rows.is_empty() {
        return "none".to_string();
    }
    rows.join(",")
}

/// What was read so far. With each road and each place of the order comes its line.
#[derive(Default)]
struct Reader {
    /// The number of the line.
    at: usize,
    roads: Vec<(usize, Road)>,
    order: Vec<(usize, u32)>,
    /// Of each junction in the order, its line.
    placed: Vec<Option<usize>>,
}

impl Reader {
    fn line(&mut self, line: &str) -> Result<(), String> {
        let mut words = line.split_whitespace();
        match words.next() {
            None => Ok(()),
            Some(word) if word.starts_with('#') => Ok(()),
            Some("road") => self.road(&words.collect::<Vec<_>>()),
            Some("order") => words.try_for_each(|word| self.place(word)),
            Some(word) => {
                Err(format!("`{}` begins no line; `road`, `order` and `#` do", cut(word)))
            }
        }
    }

    fn road(&mut self, words: &[&str]) -> Result<(), String> {
        let &[tail, head, base, ref rest @ ..] = words else {
            return Err(format!("a road has 3 numbers: TAIL HEAD TENTHS, not {}", words.len()));
        };
        let (tail, head, base) = (junction(tail)?, junction(head)?, number(base)?.into());
        let access = access(rest)?;
        if tail == head {
            return Err(format!("the road leads from junction {tail} to itself"));
        }
        if !(1..=LONGEST).contains(&base) {
            return Err(format!("{base} tenths of a second are not from 1 to {LONGEST}"));
        }
        if self.roads.len() == MOST_ROADS {
            return Err(format!("a map has no more than {MOST_ROADS} roads"));
        }
        self.roads.push((self.at, Road { tail, head, base, access }));
        Ok(())
    }

    fn place(&mut self, word: &str) -> Result<(), String> {
        let junction = junction(word)?;
        self.placed.resize(MOST_JUNCTIONS, None);
        if let Some(line) = self.placed[junction as usize].replace(self.at) {
            return Err(format!("junction {junction} stands in the order already, in line {line}"));
        }
        self.order.push((self.at, junction));
        Ok(())
    }

    fn map(self) -> Result<Map, Fault> {
        let roads: Vec<Road> = self.roads.iter().map(|&(_, road)| road).collect();
        let Some(last) = roads.iter().map(|road| road.tail.max(road.head)).max() else {
            return self.ordered(roads);
        };
        if self.order.is_empty() {
            return Ok(Map::in_good_order(last as usize + 1, roads));
        }
        self.ordered(roads)
    }

    /// The map in the order of the text, which has the junctions from 0 on.
    fn ordered(self, roads: Vec<Road>) -> Result<Map, Fault> {
        let n = self.order.len();
        if n == 0 {
            return Err(Fault {
                line: 0,
                what: "no road and no order, so no junction".to_string(),
            });
        }
        let outside = |junction: u32| junction as usize >= n;
        let missing = (0..n).find(|&junction| self.placed[junction].is_none());
        if let (Some(&(line, junction)), Some(missing)) =
            (self.order.iter().find(|place| outside(place.1)), missing)
        {
            let what = format!("junction {junction} stands in the order, but not {missing}");
            return Err(Fault { line, what });
        }
        if let Some(&(line, road)) =
            self.roads.iter().find(|(_, road)| outside(road.tail) || outside(road.head))
        {
            let junction = road.tail.max(road.head);
            let what = format!("junction {junction} does not stand in the order");
            return Err(Fault { line, what });
        }
        let order = self.order.iter().map(|&(_, junction)| junction).collect();
        Ok(Map { roads, order })
    }
}

/// The byte of what stands behind a road's time.
fn access(words: &[&str]) -> Result<u8, String> {
    match words {
        [] => Ok(EVERY_CLASS),
        ["classes", list] => classes(list),
        ["classes"] => Err("`classes` without a list, such as 0,2-5 or none".to_string()),
        ["classes", list, more, ..] => Err(format!(
            "a list of classes is one word, such as 0,2-5: `{}` follows `{}`",
            cut(more),
            cut(list)
        )),
        [word, ..] => {
            Err(format!("`{}` behind the time; only `classes` may stand there", cut(word)))
        }
    }
}

/// The byte of a list: `none`, or classes and rows of them, each class once.
fn classes(list: &str) -> Result<u8, String> {
    let mut access = 0;
    for item in list.split(',').filter(|_| list != "none") {
        let (first, last) = item.split_once('-').unwrap_or((item, item));
        let [first, last] = [class(list, first)?, class(list, last)?];
        if first > last {
            return Err(format!(
                "`{}` in the list `{}` begins behind its end",
                cut(item),
                cut(list)
            ));
        }
        for class in first..=last {
            if access & 1 << class != 0 {
                return Err(format!("class {class} stands twice in the list `{}`", cut(list)));
            }
            access |= 1 << class;
        }
    }
    Ok(access)
}

fn class(list: &str, word: &str) -> Result<u32, String> {
    if word.is_empty() {
        return Err(format!("a class is missing in the list `{}`", cut(list)));
    }
    let class = number(word)?;
    if class >= CLASSES {
        return Err(format!("class {class} is not below {CLASSES}"));
    }
    Ok(class)
}

fn junction(word: &str) -> Result<u32, String> {
    let junction = number(word)?;
    if junction as usize >= MOST_JUNCTIONS {
        return Err(format!("junction {junction} is not below {MOST_JUNCTIONS}"));
    }
    Ok(junction)
}

fn number(word: &str) -> Result<u32, String> {
    if !word.bytes().all(|byte| byte.is_ascii_digit()) {
        return Err(format!("`{}` is no number", cut(word)));
    }
    word.parse().map_err(|_| format!("{} is too large", cut(word)))
}

/// A word as a message shows it: a long one is cut.
fn cut(word: &str) -> String {
    match word.char_indices().nth(MOST_SHOWN) {
        Some((end, _)) => format!("{}..", &word[..end]),
        None => word.to_string(),
    }
}

#[cfg(test)]
mod tests {
    use super::*;
    use crate::maps;
    use crate::random::Random;

    #[test]
    fn there_and_back() {
        let mut random = Random::new(1);
        let (mut plain, mut barred) = (0, 0);
        for _ in 0..1_000 {
            let mut map = maps::small(&mut random);
            maps::bar(&mut random, &mut map);
            let text = print(&map);
            assert_eq!(
                text.matches("classes").count(),
                map.access().iter().filter(|&&byte| byte < 255).count()
            );
            *if map.admits_all() { &mut plain } else { &mut barred } += 1;
            assert_eq!(parse(text.as_bytes()), Ok(map));
        }
        assert!(plain > 150 && barred > 500, "{plain} plain, {barred} with classes");
    }

    /// Every byte as a list and back; and lists that are not as they are printed.
    #[test]
    fn lists_of_classes() {
        for byte in 0..=u8::MAX {
            assert_eq!(classes(&print_classes(byte)), Ok(byte));
        }
        for (list, byte, printed) in [
            ("none", 0, "none"),
            ("0", 1, "0"),
            ("7", 128, "7"),
            ("0,2-5", 0b11_1101, "0,2-5"),
            ("5,3,4,0", 0b11_1001, "0,3-5"),
            ("3-3,1", 0b1010, "1,3"),
            ("1-7", 254, "1-7"),
            ("0-3,4-7", 255, "0-7"),
            ("00,007", 129, "0,7"),
        ] {
            assert_eq!((classes(list), &print_classes(byte)[..]), (Ok(byte), printed), "{list}");
        }
        let text = "road 0 1 5\nroad 1 0 5 classes 1,3-4\nroad 1 2 5 classes none\nroad 2 1 5\tclasses  0-7 \n";
        let map = parse(text.as_bytes()).unwrap();
        assert_eq!(map.access(), [255, 0b1_1010, 0, 255]);
        let lines: Vec<String> = print(&map).lines().take(4).map(str::to_string).collect();
        assert_eq!(
            lines,
            ["road 0 1 5", "road 1 0 5 classes 1,3-4", "road 1 2 5 classes none", "road 2 1 5"]
        );
    }

    #[test]
    fn faults() {
        for (text, fault) in [
            ("", "no road and no order, so no junction"),
            ("\n# nothing\n", "no road and no order, so no junction"),
            ("order\n", "no road and no order, so no junction"),
            (
                "road 0 1 5\nroads 1 0 5",
                "line 2: `roads` begins no line; `road`, `order` and `#` do",
            ),
            ("Road 0 1 5", "line 1: `Road` begins no line; `road`, `order` and `#` do"),
            ("road 0 1 5 # 6", "line 1: `#` behind the time; only `classes` may stand there"),
            ("road 0 1", "line 1: a road has 3 numbers: TAIL HEAD TENTHS, not 2"),
            ("road 0 1 5 6", "line 1: `6` behind the time; only `classes` may stand there"),
            (
                "road 0 1 5 Classes 6",
                "line 1: `Classes` behind the time; only `classes` may stand there",
            ),
            ("road 0 classes 1", "line 1: `classes` is no number"),
            ("road 0 1 classes 1", "line 1: `classes` is no number"),
            ("road 0 1\nroad 0 1 classes", "line 1: a road has 3 numbers: TAIL HEAD TENTHS, not 2"),
            (
                "road 0 1 5\nroad 0 1 5 classes",
                "line 2: `classes` without a list, such as 0,2-5 or none",
            ),
            (
                "road 0 1 5 classes 0, 2",
                "line 1: a list of classes is one word, such as 0,2-5: `2` follows `0,`",
            ),
            ("road 0 1 5 classes 8", "line 1: class 8 is not below 8"),
            ("\nroad 0 1 5 classes 0,2-8", "line 2: class 8 is not below 8"),
            ("road 0 1 5 classes 255", "line 1: class 255 is not below 8"),
            ("road 0 1 5 classes 4294967296", "line 1: 4294967296 is too large"),
            ("road 0 1 5 classes ,", "line 1: a class is missing in the list `,`"),
            ("road 0 1 5 classes 0,,1", "line 1: a class is missing in the list `0,,1`"),
            ("road 0 1 5 classes 0,", "line 1: a class is missing in the list `0,`"),
            ("road 0 1 5 classes -3", "line 1: a class is missing in the list `-3`"),
            ("road 0 1 5 classes 2-", "line 1: a class is missing in the list `2-`"),
            ("road 0 1 5 classes 5-2", "line 1: `5-2` in the list `5-2` begins behind its end"),
            ("road 0 1 5 classes 1-2-3", "line 1: `2-3` is no number"),
            ("road 0 1 5 classes 0,3,0", "line 1: class 0 stands twice in the list `0,3,0`"),
            ("road 0 1 5 classes 2-5,4", "line 1: class 4 stands twice in the list `2-5,4`"),
            ("road 0 1 5 classes all", "line 1: `all` is no number"),
            ("road 0 1 5 classes none,1", "line 1: `none` is no number"),
            ("road 0 1 0 classes 8", "line 1: class 8 is not below 8"),
            ("\n\nroad 0 x 5", "line 3: `x` is no number"),
            ("road 0 +1 5", "line 1: `+1` is no number"),
            ("road 0 1 5.5", "line 1: `5.5` is no number"),
            ("road 0 1 5000000000", "line 1: 5000000000 is too large"),
            ("road 4096 1 5", "line 1: junction 4096 is not below 4096"),
            ("road 3 3 5", "line 1: the road leads from junction 3 to itself"),
            ("road 0 1 0", "line 1: 0 tenths of a second are not from 1 to 10000000"),
            ("road 0 1 10000001", "line 1: 10000001 tenths of a second are not from 1 to 10000000"),
            ("order 0 1\norder 2 1", "line 2: junction 1 stands in the order already, in line 1"),
            ("order 0\norder 2", "line 2: junction 2 stands in the order, but not 1"),
            ("road 0 2 5\norder 1 0", "line 1: junction 2 does not stand in the order"),
        ] {
            assert_eq!(parse(text.as_bytes()).unwrap_err().to_string(), fault, "{text:?}");
        }
        let fault = parse(b"road 0 1 5\nroad 1 0 \xff").unwrap_err();
        assert_eq!(fault.to_string(), "line 2: this is no text in UTF-8");
        let most = "road 0 1 5\n".repeat(MOST_ROADS);
        assert!(parse(most.as_bytes()).is_ok());
        let fault = parse((most + "road 0 1 5").as_bytes()).unwrap_err();
        assert_eq!(fault.to_string(), "line 16385: a map has no more than 16384 roads");
    }

    /// Each of the marks, before a text that is right without one; elsewhere it is a word like any other.
    #[test]
    fn byte_order_marks() {
        for (mark, name) in MARKS {
            for rest in [&b""[..], b"road 0 1 5\n", b"# a map\nroad 0 1 5\n"] {
                let fault = parse(&[mark, rest].concat()).unwrap_err();
                let what = format!(
                    "line 1: the text begins with a byte order mark ({name}); save it as UTF-8 without one"
                );
                assert_eq!(fault.to_string(), what);
            }
        }
        assert!(parse("# \u{feff}\nroad 0 1 5\n".as_bytes()).is_ok());
        let fault = parse("road 0 1 5\n\u{feff}road 1 0 5\n".as_bytes()).unwrap_err();
        assert!(fault.to_string().starts_with("line 2: `\u{feff}road` begins no line"), "{fault}");
    }

    /// A word of 40 characters is shown whole, a longer one cut, wherever a message has one.
    #[test]
    fn long_words() {
        let long = "x".repeat(100_000);
        let shown = "x".repeat(40) + "..";
        let digits = "9".repeat(41);
        for (text, fault) in [
            (long.clone(), format!("`{shown}` begins no line; `road`, `order` and `#` do")),
            (format!("road 0 {long} 5"), format!("`{shown}` is no number")),
            (format!("road 0 1 {digits}"), format!("{}.. is too large", &digits[1..])),
            (format!("order 0 {long}"), format!("`{shown}` is no number")),
            (
                format!("road 0 1 5 {long}"),
                format!("`{shown}` behind the time; only `classes` may stand there"),
            ),
            (format!("road 0 1 5 classes {long}"), format!("`{shown}` is no number")),
            (
                format!("road 0 1 5 classes {long} {long}"),
                format!(
                    "a list of classes is one word, such as 0,2-5: `{shown}` follows `{shown}`"
                ),
            ),
            (
                format!("road 0 1 5 classes {}5", "0,".repeat(30)),
                format!("class 0 stands twice in the list `{}..`", "0,".repeat(20)),
            ),
            (
                format!("road 0 1 5 classes {},", "0".repeat(60)),
                format!("a class is missing in the list `{}..`", "0".repeat(40)),
            ),
            (
                format!("road 0 1 5 classes {}2-1", "0".repeat(60)),
                format!("`{0}..` in the list `{0}..` begins behind its end", "0".repeat(40)),
            ),
        ] {
            assert_eq!(parse(text.as_bytes()).unwrap_err().to_string(), format!("line 1: {fault}"));
        }
        for (word, shown) in [
            ("é".repeat(39), "é".repeat(39)),
            ("é".repeat(40), "é".repeat(40)),
            ("é".repeat(41), "é".repeat(40) + ".."),
            (String::new(), String::new()),
        ] {
            assert_eq!(cut(&word), shown);
        }
    }

    /// A number is the time in tenths, whatever was the longest before document 02's A7.
    #[test]
    fn tenths() {
        let text =
            "road 0 1 1\nroad 0 1 10\nroad 0 1 1000000\nroad 0 1 1000001\nroad 0 1 10000000\n";
        let map = parse(text.as_bytes()).unwrap();
        assert_eq!(map.base(), [1, 10, 1_000_000, 1_000_001, 10_000_000]);
        assert!(print(&map).starts_with(text));
    }

    #[test]
    fn what_says_nothing() {
        let text = "# a map\r\n\r\n  road 0 1\t5  \r\n#road 1 0 5\r\nroad 1 2 007";
        let map = parse(text.as_bytes()).unwrap();
        assert_eq!((map.n(), map.base()), (3, vec![5, 7]));
        assert_eq!(parse(b"order 0").unwrap(), Map { roads: vec![], order: vec![0] });
    }
}

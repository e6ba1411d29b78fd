//! The proved reader and writer of cards beside the plain ones, and both beside known answers.

use harness::calls::Refusal;
use harness::card::{self, EVERY_CLASS, LONGEST, MOST_JUNCTIONS, MOST_ROADS};
use harness::damage::{CardDamage, Layout, Lent, MapDamage};
use harness::maps::{self, Map, Streets};
use harness::order;
use harness::random::Random;
use harness::time::Time;
use harness::unit::{self, Unit};

type Reading = Result<(u32, u32), Refusal>;
type Writing = Result<Vec<u8>, Refusal>;
type Writer = fn(&[u32], &[u32], &mut [u8]) -> Result<(), Refusal>;

/// Reads a card by both, which agree.
fn read(card: &[u8]) -> Reading {
    let before = card.to_vec();
    let proved = unit::read(card);
    assert!(card == before, "reading alters no byte");
    assert_eq!(proved, card::read(card), "proved (left), plain (right)");
    proved
}

/// Writes a map by both into an area of `len` bytes; they agree, and alter no row.
fn write(roads: &[u32], order: &[u32], len: usize) -> Writing {
    let before = (roads.to_vec(), order.to_vec());
    let proved = write_amid(unit::write, roads, order, len, 0x5a);
    assert!(roads == before.0 && order == before.1, "writing alters no row");
    let plain = write_amid(card::write, roads, order, len, 0xa5);
    assert_eq!(proved.as_ref().err(), plain.as_ref().err(), "proved (left), plain (right)");
    assert!(proved == plain, "the cards differ");
    proved
}

/// Writes into an area amid other bytes, which stay; the area's own stay if it is refused.
fn write_amid(writer: Writer, roads: &[u32], order: &[u32], len: usize, fill: u8) -> Writing {
    const BESIDE: usize = 61;
    let mut bytes = vec![fill; BESIDE + len + BESIDE];
    let answer = writer(roads, order, &mut bytes[BESIDE..BESIDE + len]);
    let area: Vec<u8> = bytes.drain(BESIDE..BESIDE + len).collect();
    assert!(bytes.iter().all(|&byte| byte == fill), "writing stays in its area");
    assert!(answer.is_ok() || area.iter().all(|&byte| byte == fill), "a refusal alters no byte");
    answer.map(|()| area)
}

/// Reads the card of two rows and writes them into an area of its length: questions 4 to 6 are
/// answered alike, and the card comes back. With a byte for each road too, it is read alike.
fn read_and_write(roads: &[u32], order: &[u32]) -> Reading {
    let card = laid_out(roads, order);
    let (reading, writing) = (read(&card), write(roads, order, card.len()));
    assert_eq!(reading.err(), writing.as_ref().err().copied(), "reading (left), writing (right)");
    let bytes: Vec<u8> = (0..roads.len() / 3).map(|road| (7 * road) as u8).collect();
    let with_access = card::with_access(&card, &bytes);
    assert_eq!(read(&with_access), reading, "with a byte for each road (left), without (right)");
    assert!(writing.is_err() || writing == Ok(card), "another card is written");
    reading
}

/// The card of two rows, whatever they hold.
fn laid_out(roads: &[u32], order: &[u32]) -> Vec<u8> {
    let (roads_len, order_len) = (4 * roads.len() as u32, 4 * order.len() as u32);
    let table = [2, 1, 28, roads_len, 2, 28 + roads_len, order_len];
    [&table, roads, order].concat().into_iter().flat_map(u32::to_le_bytes).collect()
}

/// How often each answer was met, by the question's number, 0 for accepted.
#[derive(Default)]
struct Tally([usize; 8]);

impl Tally {
    fn count<T>(&mut self, answer: &Result<T, Refusal>) {
        self.0[answer.as_ref().map_or_else(|refusal| refusal.number() as usize, |_| 0)] += 1;
    }

    fn at_least(&self, least: [usize; 8]) {
        let enough = self.0.iter().zip(least).all(|(&met, least)| met >= least);
        assert!(enough, "met {:?}, too few for {least:?}", self.0);
    }
}

/// A card's table and the bytes of its bodies, for a case to spoil.
#[derive(Clone)]
struct Parts {
    table: Vec<u32>,
    bodies: Vec<u8>,
}

impl Parts {
    /// Map P: 4 junctions, 5 roads, a table of 2, 1, 28, 60, 2, 88, 16.
    fn of_map_p() -> Parts {
        let mut card = maps::map_p().card().unwrap();
        Parts { bodies: card.split_off(28), table: vec![2, 1, 28, 60, 2, 88, 16] }
    }

    /// With a byte for each road: a table of 3, 1, 40, 60, 2, 100, 16, 3, 116, 5.
    fn with_access() -> Parts {
        let mut card = maps::map_p_with_classes().card().unwrap();
        Parts { bodies: card.split_off(40), table: vec![3, 1, 40, 60, 2, 100, 16, 3, 116, 5] }
    }

    fn card(&self) -> Vec<u8> {
        self.table
            .iter()
            .flat_map(|word| word.to_le_bytes())
            .chain(self.bodies.iter().copied())
            .collect()
    }

    /// Bodies of other lengths in bytes, with a table that says so.
    fn lengths(&mut self, lengths: &[u32]) {
        let mut at = card::table_len(lengths.len()) as u32;
        self.table = vec![lengths.len() as u32];
        for (kind, &len) in (1..).zip(lengths) {
            self.table.extend([kind, at, len]);
            at += len;
        }
        self.bodies.resize(lengths.iter().sum::<u32>() as usize, 0);
    }

    /// Another word in the bodies: 0 to 14 are map P's roads, 15 to 18 its order.
    fn word(&mut self, place: usize, to: u32) {
        self.bodies[4 * place..][..4].copy_from_slice(&to.to_le_bytes());
    }
}

/// Question 1 asks for 4 bytes, and for the table where the first word is 2 or 3; with any other, 2 refuses.
#[test]
fn shorter_than_the_table() {
    let [card, with_access] =
        [maps::map_p(), maps::map_p_with_classes()].map(|map| map.card().unwrap());
    for len in 0..=40 {
        let want = |table| if len < table { Refusal::Short } else { Refusal::Starts };
        assert_eq!(read(&card[..len]), Err(want(28)), "{len} bytes");
        assert_eq!(read(&with_access[..len]), Err(want(40)), "{len} bytes with a third entry");
        let want = if len < 4 { Refusal::Short } else { Refusal::Kinds };
        for bytes in [&[0; 40][..len], &[0xff; 40][..len]] {
            assert_eq!(read(bytes), Err(want), "{len} bytes");
        }
    }
    // As many bytes as a table of 2 sections has, and a first word that asks for one of 3; and the other way round.
    let mut asks_for_more = card.clone();
    asks_for_more[0] = 3;
    assert_eq!(read(&asks_for_more[..39]), Err(Refusal::Short));
    assert_eq!(read(&asks_for_more[..40]), Err(Refusal::Kinds));
    let mut asks_for_less = with_access.clone();
    asks_for_less[0] = 2;
    assert_eq!(read(&asks_for_less[..28]), Err(Refusal::Starts));
}

/// Every card of up to 48 bytes whose words are of a few values, by the first of them.
#[test]
fn short_cards() {
    const FIRST: [u32; 10] = [0, 1, 2, 3, 4, 5, 255, 256, 1 << 31, u32::MAX];
    // What may stand in the words behind it; only those are varied that the first word makes a table of, and a body's first.
    const WORDS: [&[u32]; 11] = [
        &[1, 2, 3, 0],
        &[28, 40],
        &[0, 12, 4],
        &[2, 3, 1],
        &[28, 40, 32],
        &[4, 0, 8, minus(28)],
        &[3, 4, 0],
        &[44, 40],
        &[0, 1, minus(44)],
        &[0, 1],
        &[0],
    ];
    let mut tally = Tally::default();
    let mut accepted = [0; 2];
    for first in FIRST {
        let varied = match first {
            2 => 7,
            3 => 10,
            _ => 2,
        };
        for len in 0..=48 {
            // Words that are not whole have nothing to vary.
            let places = varied.min((len / 4_usize).saturating_sub(1));
            let mut choice = vec![0; places];
            loop {
                let value = |place: usize| WORDS[place][choice.get(place).copied().unwrap_or(0)];
                let words = [first].into_iter().chain((0..11).map(value));
                let bytes: Vec<u8> = words.flat_map(u32::to_le_bytes).collect();
                let answer = read(&bytes[..len]);
                tally.count(&answer);
                accepted[(first == 3) as usize] += answer.is_ok() as usize;
                // The next choice, as a number's digits.
                let next = (0..places).find(|&place| {
                    choice[place] = (choice[place] + 1) % WORDS[place].len();
                    choice[place] > 0
                });
                if next.is_none() {
                    break;
                }
            }
        }
    }
    tally.at_least([2, 30_000, 200_000, 9_000, 15, 5, 5, 0]);
    assert_eq!(accepted, [1, 1], "the smallest map, on 32 bytes and on 44");
}

/// What is done to map P's card.
type Case = (&'static str, fn(&mut Parts));

const KINDS: &[Case] = &[
    ("no section", |p| p.table[0] = 0),
    ("1 section", |p| p.table[0] = 1),
    ("3 sections", |p| p.table[0] = 3),
    ("2 in the second byte", |p| p.table[0] = 2 << 8),
    ("2 highest byte first", |p| p.table[0] = 2 << 24),
    ("2 and the highest bit", |p| p.table[0] |= 1 << 31),
    ("first kind 0", |p| p.table[1] = 0),
    ("first kind 2", |p| p.table[1] = 2),
    ("first kind 3", |p| p.table[1] = 3),
    ("first kind 257", |p| p.table[1] = 257),
    ("second kind 0", |p| p.table[4] = 0),
    ("second kind 1", |p| p.table[4] = 1),
    ("second kind 3", |p| p.table[4] = 3),
    ("second kind and the highest bit", |p| p.table[4] |= 1 << 31),
    ("kinds swapped", |p| p.table.swap(1, 4)),
    ("entries swapped", |p| p.table = vec![2, 2, 88, 16, 1, 28, 60]),
    ("entries and bodies swapped", |p| {
        p.table = vec![2, 2, 28, 16, 1, 44, 60];
        p.bodies.rotate_left(60);
    }),
];

const STARTS: &[Case] = &[
    ("first start 0", |p| p.table[2] = 0),
    ("first start 27", |p| p.table[2] = 27),
    ("first start 29", |p| p.table[2] = 29),
    ("first start 28 + 256", |p| p.table[2] = 28 + 256),
    ("first start largest", |p| p.table[2] = u32::MAX),
    ("second start 0", |p| p.table[5] = 0),
    ("second start 28", |p| p.table[5] = 28),
    ("second start 87", |p| p.table[5] = 87),
    ("second start 89", |p| p.table[5] = 89),
    ("second start largest", |p| p.table[5] = u32::MAX),
    ("starts swapped", |p| p.table.swap(2, 5)),
    ("lengths swapped", |p| p.table.swap(3, 6)),
    ("first length 0", |p| p.table[3] = 0),
    ("first length 48", |p| p.table[3] = 48),
    ("first length 59", |p| p.table[3] = 59),
    ("first length 61", |p| p.table[3] = 61),
    ("first length 72", |p| p.table[3] = 72),
    ("second length 0", |p| p.table[6] = 0),
    ("second length 12", |p| p.table[6] = 12),
    ("second length 15", |p| p.table[6] = 15),
    ("second length 17", |p| p.table[6] = 17),
    ("second length 20", |p| p.table[6] = 20),
    ("second length largest", |p| p.table[6] = u32::MAX),
    ("no bodies", |p| p.bodies.clear()),
    ("a byte less", |p| p.bodies.truncate(75)),
    ("a byte more", |p| p.bodies.push(0)),
    ("a word more", |p| p.bodies.extend([0; 4])),
    ("a gap after the table", |p| {
        p.table = vec![2, 1, 32, 60, 2, 92, 16];
        p.bodies.splice(..0, [0; 4]);
    }),
    ("a gap between the bodies", |p| {
        p.table[5] = 92;
        p.bodies.splice(60..60, [0; 4]);
    }),
    ("bodies that overlap", |p| {
        p.table[5] = 76;
        p.bodies.truncate(64);
    }),
    ("roads in the table", |p| p.table = vec![2, 1, 0, 12, 2, 12, 92]),
    // The card has 104 bytes: only a sum that wraps is its length or the second start.
    ("roads to 2^32", |p| p.table = vec![2, 1, 28, minus(28), 2, 0, 104]),
    ("roads past 2^32", |p| p.table = vec![2, 1, 28, minus(12), 2, 16, 88]),
    ("order past 2^32", |p| p.table = vec![2, 1, 28, 60, 2, 88, minus(88)]),
    ("order past 2^32 to the end", |p| p.table = vec![2, 1, 28, 120, 2, 148, minus(44)]),
    ("order all past 2^32", |p| p.table = vec![2, 1, 28, minus(40), 2, minus(12), 116]),
];

/// The same of map P's card with a byte for each road.
const KINDS_OF_3: &[Case] = &[
    ("no section", |p| p.table[0] = 0),
    ("1 section", |p| p.table[0] = 1),
    ("4 sections", |p| p.table[0] = 4),
    ("3 in the second byte", |p| p.table[0] = 3 << 8),
    ("3 and the highest bit", |p| p.table[0] |= 1 << 31),
    ("first kind 0", |p| p.table[1] = 0),
    ("first kind 2", |p| p.table[1] = 2),
    ("first kind 257", |p| p.table[1] = 257),
    ("second kind 1", |p| p.table[4] = 1),
    ("second kind 3", |p| p.table[4] = 3),
    ("third kind 0", |p| p.table[7] = 0),
    ("third kind 1", |p| p.table[7] = 1),
    ("third kind 2", |p| p.table[7] = 2),
    ("third kind 4", |p| p.table[7] = 4),
    ("third kind 259", |p| p.table[7] = 259),
    ("third kind and the highest bit", |p| p.table[7] |= 1 << 31),
    ("kinds 1, 3, 2", |p| p.table.swap(4, 7)),
    ("kinds 3, 2, 1", |p| p.table.swap(1, 7)),
    ("kinds 1, 2, 2", |p| p.table[7] = 2),
    ("kinds 1, 3, 3", |p| p.table[4] = 3),
    ("kinds 2, 3, 4", |p| (p.table[1], p.table[4], p.table[7]) = (2, 3, 4)),
    ("2 sections, of kinds 1 and 3", |p| {
        p.table = vec![2, 1, 28, 60, 3, 88, 5];
        p.bodies.drain(60..76);
    }),
    ("2 sections, of kinds 2 and 3", |p| {
        p.table = vec![2, 2, 28, 16, 3, 44, 5];
        p.bodies.drain(..60);
    }),
    ("the third body first", |p| {
        p.table = vec![3, 3, 40, 5, 1, 45, 60, 2, 105, 16];
        p.bodies.rotate_right(5);
    }),
];

const STARTS_OF_3: &[Case] = &[
    ("first start 28", |p| p.table[2] = 28),
    ("first start 39", |p| p.table[2] = 39),
    ("first start 41", |p| p.table[2] = 41),
    ("second start 99", |p| p.table[5] = 99),
    ("second start 101", |p| p.table[5] = 101),
    ("third start 0", |p| p.table[8] = 0),
    ("third start 40", |p| p.table[8] = 40),
    ("third start 115", |p| p.table[8] = 115),
    ("third start 117", |p| p.table[8] = 117),
    ("third start largest", |p| p.table[8] = u32::MAX),
    ("second length 15", |p| p.table[6] = 15),
    ("third length 0", |p| p.table[9] = 0),
    ("third length 4", |p| p.table[9] = 4),
    ("third length 6", |p| p.table[9] = 6),
    ("third length largest", |p| p.table[9] = u32::MAX),
    ("third entry the second's", |p| (p.table[8], p.table[9]) = (100, 16)),
    ("a byte less", |p| p.bodies.truncate(80)),
    ("a byte more", |p| p.bodies.push(255)),
    ("no third body", |p| p.bodies.truncate(76)),
    ("no bodies", |p| p.bodies.clear()),
    ("a gap before the third", |p| {
        p.table[8] = 120;
        p.bodies.splice(76..76, [0; 4]);
    }),
    ("a table of 2 entries and a body more", |p| {
        p.table = vec![2, 1, 28, 60, 2, 88, 16];
    }),
    ("bodies that begin in the table", |p| {
        p.table = vec![3, 1, 28, 60, 2, 88, 16, 3, 104, 5];
        p.bodies.drain(..12);
    }),
    // The card has 121 bytes: only a sum that wraps is its length or a start.
    ("roads to 2^32", |p| p.table = vec![3, 1, 40, minus(40), 2, 0, 16, 3, 16, 105]),
    ("order past 2^32", |p| p.table = vec![3, 1, 40, 60, 2, 100, minus(84), 3, 16, 105]),
    ("third past 2^32", |p| p.table = vec![3, 1, 40, 60, 2, 100, minus(200), 3, minus(100), 221]),
];

/// 2^32 less `by`.
const fn minus(by: u32) -> u32 {
    0u32.wrapping_sub(by)
}

#[test]
fn kinds_and_starts() {
    let (mut cases_met, of_map_p) = (0, Parts::of_map_p as fn() -> Parts);
    assert_eq!(read(&Parts::with_access().card()), Ok((4, 5)));
    for (cases, parts, want) in [
        (KINDS, of_map_p, Refusal::Kinds),
        (STARTS, of_map_p, Refusal::Starts),
        (KINDS_OF_3, Parts::with_access, Refusal::Kinds),
        (STARTS_OF_3, Parts::with_access, Refusal::Starts),
    ] {
        for (name, spoil) in cases {
            let mut parts = parts();
            spoil(&mut parts);
            assert_eq!(read(&parts.card()), Err(want), "{name}");
            cases_met += 1;
        }
    }
    assert_eq!(cases_met, 17 + 36 + 24 + 26);
}

#[test]
fn lengths_of_the_bodies() {
    let mut tally = Tally::default();
    let most = [12 * MOST_ROADS as u32, 4 * MOST_JUNCTIONS as u32];
    for roads in (0..=60).chain(most[0] - 13..=most[0] + 13).chain([2 * most[0], 1 << 20]) {
        for order in (0..=20).chain(most[1] - 5..=most[1] + 5).chain([2 * most[1], 1 << 20]) {
            let mut parts = Parts::of_map_p();
            parts.lengths(&[roads, order]);
            let answer = read(&parts.card());
            let fits = roads % 12 == 0
                && roads <= most[0]
                && order % 4 == 0
                && (4..=most[1]).contains(&order);
            assert_eq!(answer != Err(Refusal::Sizes), fits, "{roads} and {order} bytes");
            tally.count(&answer);
        }
    }
    tally.at_least([3, 0, 0, 0, 3_000, 20, 20, 0]);
}

/// The third length is to be m, with the other two in their ranges and out of them.
#[test]
fn lengths_of_the_third_body() {
    let mut tally = Tally::default();
    let most = [12 * MOST_ROADS as u32, 4 * MOST_JUNCTIONS as u32];
    for roads in (0..=60).chain([most[0] - 12, most[0], most[0] + 12]) {
        for order in [0, 4, 8, 16, 17, most[1], most[1] + 4] {
            let m = roads / 12;
            let near =
                [0, m.saturating_sub(1), m, m + 1, 4 * m, 12 * m, roads, m + 256, m + 65_536];
            for access in near.into_iter().chain(0..=7) {
                let mut parts = Parts::with_access();
                parts.lengths(&[roads, order, access]);
                let answer = read(&parts.card());
                let fits = roads % 12 == 0
                    && roads <= most[0]
                    && order % 4 == 0
                    && (4..=most[1]).contains(&order)
                    && access == m;
                assert_eq!(answer != Err(Refusal::Sizes), fits, "{roads}, {order}, {access} bytes");
                tally.count(&answer);
            }
        }
    }
    tally.at_least([10, 0, 0, 0, 5_000, 20, 20, 0]);
}

/// No byte of a road is refused, whatever it is, and the map has it.
#[test]
fn every_byte_of_a_road() {
    for byte in 0..=u8::MAX {
        let mut parts = Parts::with_access();
        parts.bodies[76..].copy_from_slice(&[byte, !byte, 0, 255, byte]);
        let card = parts.card();
        assert_eq!(read(&card), Ok((4, 5)));
        assert_eq!(card::map(&card).unwrap().2, [byte, !byte, 0, 255, byte]);
    }
    let plain = maps::map_p().card().unwrap();
    assert_eq!(card::map(&plain).unwrap().2, [EVERY_CLASS; 5], "255 where there are none");
    // An empty third section, where there is no road.
    let map = maps::random(&mut Random::new(8), 3, 0, 1);
    assert_eq!(read(&map.card_with_access().unwrap()), Ok((3, 0)));
}

/// `m` roads to and fro between two junctions, with the shortest and the longest base times, and an
/// order of `n` junctions.
fn to_and_fro(n: usize, m: usize) -> (Vec<u32>, Vec<u32>) {
    let roads = [[0, 1, 1], [1, 0, LONGEST as u32]];
    let roads = roads.into_iter().cycle().take(m).flatten().collect();
    (roads, (0..n as u32).rev().collect())
}

#[test]
fn ends_of_the_ranges() {
    let (n, m) = (MOST_JUNCTIONS, MOST_ROADS);
    let sizes = Err(Refusal::Sizes);
    for (junctions, roads, want) in [
        (0, 0, sizes),
        (0, 1, sizes),
        (1, 0, Ok((1, 0))),
        (1, 1, Err(Refusal::Road(0))),
        (1, m, Err(Refusal::Road(0))),
        (2, 0, Ok((2, 0))),
        (2, 1, Ok((2, 1))),
        (2, m, Ok((2, m as u32))),
        (2, m + 1, sizes),
        (n, 0, Ok((n as u32, 0))),
        (n, m - 1, Ok((n as u32, m as u32 - 1))),
        (n, m, Ok((n as u32, m as u32))),
        (n, m + 1, sizes),
        (n + 1, 0, sizes),
        (n + 1, m, sizes),
        (n + 1, m + 1, sizes),
        (1 << 20, 0, sizes),
        (2, 1 << 20, sizes),
    ] {
        let (roads, order) = to_and_fro(junctions, roads);
        assert_eq!(
            read_and_write(&roads, &order),
            want,
            "{junctions} junctions, {} road words",
            roads.len()
        );
    }
    for words in (0..=9).chain(3 * m - 2..=3 * m + 5) {
        let (mut roads, order) = to_and_fro(n, m + 2);
        roads.truncate(words);
        let fits = words % 3 == 0 && words <= 3 * m;
        let want = if fits { Ok((n as u32, words as u32 / 3)) } else { sizes };
        assert_eq!(read_and_write(&roads, &order), want, "{words} road words");
    }
}

/// A way for an entry to fail, in a map of `n` junctions.
type Fault<Entry> = (&'static str, fn(entry: &mut Entry, n: u32));

const ROAD_FAULTS: &[Fault<[u32; 3]>] = &[
    ("tail n", |road, n| road[0] = n),
    ("tail n + 1", |road, n| road[0] = n + 1),
    ("tail largest", |road, _| road[0] = u32::MAX),
    ("head n", |road, n| road[1] = n),
    ("head 65,536 more", |road, _| road[1] += 1 << 16),
    ("head largest", |road, _| road[1] = u32::MAX),
    ("ends equal", |road, _| road[1] = road[0]),
    ("ends equal, out of range", |road, n| (road[0], road[1]) = (n, n)),
    ("base 0", |road, _| road[2] = 0),
    ("base 10,000,001", |road, _| road[2] = LONGEST as u32 + 1),
    ("base largest", |road, _| road[2] = u32::MAX),
    ("base highest byte first", |road, _| road[2] = 1 << 24),
];

/// The longest base time before document 02's A7, in seconds.
const LONGEST_BEFORE: u32 = 1_000_000;

/// Old cards read as tenths: no number is scaled. Every card that was accepted, by a range of base times to 1,000,000,
/// is so with the same numbers, on the card and in the live times that preparing leaves; those with times from there on
/// to 10,000,000 are accepted too; 10,000,001 is refused by 5, with the first such road.
#[test]
fn base_times_of_old_cards_and_new() {
    let mut random = Random::new(9);
    let longest = LONGEST as u32;
    let times = [
        &[1, 2, 9, 10, 11, 65_535, 65_536, LONGEST_BEFORE - 1, LONGEST_BEFORE][..],
        &[LONGEST_BEFORE + 1, LONGEST_BEFORE + 10, 9_999_999, longest, longest / 10 * 9],
        &[longest + 1, longest + 10, 1 << 24, 10 * longest, 1 << 31, u32::MAX - 1, u32::MAX, 0],
    ];
    // Accepted before and now, now alone, and refused.
    let mut met = [0; 3];
    for i in 0..3_000 {
        let most = random.pick(&[0, 0, 1, 1, 2]);
        let mut map = maps::random(&mut random, 2 + i % 6, 1 + i % 17, LONGEST);
        for road in &mut map.roads {
            let old = random.within(1..=LONGEST_BEFORE.into());
            let picked = random.pick(&times[..=most]);
            road.base = if random.chance(50) { random.pick(picked).into() } else { old };
        }
        let (roads, order) = map.rows();
        let bases: Vec<u32> = roads.iter().skip(2).step_by(3).copied().collect();
        let answer = read_and_write(&roads, &order);
        let outside = |longest| bases.iter().position(|&base| base < 1 || base > longest);
        if let Some(road) = outside(longest) {
            assert_eq!(answer, Err(Refusal::Road(road as u32)), "{bases:?}");
            met[2] += 1;
            continue;
        }
        assert_eq!(answer, Ok((map.n() as u32, map.m() as u32)), "{bases:?}");
        met[outside(LONGEST_BEFORE).is_some() as usize] += 1;
        let card = laid_out(&roads, &order);
        assert_eq!(card::map(&card).map(|(words, ..)| words), Ok(roads), "other numbers");
        let mut unit = Unit::new(&card, map.n(), map.m(), order::pairs(&map));
        unit.prepare().expect("room for the pairs");
        let live: Vec<Time> = bases.into_iter().map(Time::from).collect();
        assert_eq!(unit.live[..], live);
    }
    assert!(met.iter().all(|&met| met > 300), "{met:?}");
}

/// Each end of the range, in each place of map P's roads.
#[test]
fn ends_of_the_base_times() {
    let longest = LONGEST as u32;
    assert_eq!(longest, 10_000_000);
    for place in 0..5 {
        for (base, taken) in [
            (0, false),
            (1, true),
            (LONGEST_BEFORE, true),
            (LONGEST_BEFORE + 1, true),
            (longest - 1, true),
            (longest, true),
            (longest + 1, false),
            (u32::MAX, false),
        ] {
            for mut parts in [Parts::of_map_p(), Parts::with_access()] {
                parts.word(3 * place + 2, base);
                let want = if taken { Ok((4, 5)) } else { Err(Refusal::Road(place as u32)) };
                assert_eq!(read(&parts.card()), want, "road {place} with {base}");
            }
        }
    }
}

/// Sizes of maps to look for the first failing entry in.
const SIZES: [(usize, usize); 6] =
    [(2, 1), (2, 2), (4, 5), (65, 130), (300, 1_000), (MOST_JUNCTIONS, MOST_ROADS)];

#[test]
fn first_failing_road() {
    let mut random = Random::new(5);
    let mut cases = 0;
    for (n, m) in SIZES {
        let (roads, order) = maps::random(&mut random, n, m, LONGEST).rows();
        for (name, spoil) in ROAD_FAULTS {
            for first in [0, m / 2, m - 1] {
                // Later roads and the order may fail too.
                for (also, entry) in [(first, 0), (m - 1, 0), (first, n as u32), (m - 1, u32::MAX)]
                {
                    let (mut roads, mut order) = (roads.clone(), order.clone());
                    let entries = roads.as_chunks_mut().0;
                    spoil(&mut entries[first], n as u32);
                    if also != first {
                        spoil(&mut entries[also], n as u32);
                    }
                    order[0] = entry;
                    let want = Err(Refusal::Road(first as u32));
                    assert_eq!(read_and_write(&roads, &order), want, "{name} in {first} of {m}");
                    cases += 1;
                }
            }
        }
    }
    assert_eq!(cases, SIZES.len() * ROAD_FAULTS.len() * 3 * 4);
}

const PLACE_FAULTS: &[Fault<u32>] = &[
    ("n", |entry, n| *entry = n),
    ("n + 1", |entry, n| *entry = n + 1),
    ("65,536 more", |entry, _| *entry += 1 << 16),
    ("2^31 more", |entry, _| *entry += 1 << 31),
    ("largest", |entry, _| *entry = u32::MAX),
];

#[test]
fn first_failing_place() {
    let mut random = Random::new(6);
    let mut tally = Tally::default();
    for (n, m) in SIZES {
        let (roads, order) = maps::random(&mut random, n, m, LONGEST).rows();
        let mut refuse = |order: &[u32], place: usize, name: &str| {
            let answer = read_and_write(&roads, order);
            assert_eq!(answer, Err(Refusal::Place(place as u32)), "{name} at {place} of {n}");
            tally.count(&answer);
        };
        for first in [0, n / 2, n - 1] {
            for (name, spoil) in PLACE_FAULTS {
                let mut order = order.clone();
                spoil(&mut order[first], n as u32);
                refuse(&order, first, name);
                order[n - 1] = u32::MAX;
                refuse(&order, first, "an earlier one");
            }
            for like in [0, first / 2, first.saturating_sub(1)] {
                // The later of two equal entries fails.
                if like < first {
                    let mut order = order.clone();
                    order[first] = order[like];
                    refuse(&order, first, "an entry once more");
                    order[n - 1] = order[like];
                    refuse(&order, first, "an entry twice more");
                }
            }
        }
    }
    tally.at_least([0, 0, 0, 0, 0, 0, 250, 0]);
}

#[test]
fn the_first_question_that_fails_answers() {
    let faults: [fn(&mut Parts); 5] = [
        |p| p.word(18, 1),
        |p| p.word(14, 0),
        |p| p.lengths(&[61, 16]),
        |p| p.table[2] = 29,
        |p| p.table[0] = 3,
    ];
    let mut tally = Tally::default();
    for subset in 0..64 {
        let mut parts = Parts::of_map_p();
        let mut first = 0;
        for (i, spoil) in faults.iter().enumerate().filter(|(i, _)| subset >> i & 1 == 1) {
            spoil(&mut parts);
            first = 6 - i as u32;
        }
        let mut card = parts.card();
        if subset >> 5 == 1 {
            card.truncate(27);
            first = 1;
        }
        let answer = read(&card);
        assert_eq!(answer.map_or_else(Refusal::number, |_| 0), first, "{subset:b}");
        tally.count(&answer);
    }
    tally.at_least([1, 32, 16, 8, 4, 2, 1, 0]);
}

/// The same with both halves of 1 and 2, on cards of two sections and of three.
#[test]
fn the_first_half_that_fails_answers() {
    // From the last that is asked to the first.
    const ASKED: [u32; 8] = [6, 5, 4, 3, 2, 1, 2, 1];
    let mut tally = Tally::default();
    for sections in [2, 3] {
        for subset in 0..1 << ASKED.len() {
            let fails = |i: usize| subset >> i & 1 == 1;
            let mut parts = if sections == 2 { Parts::of_map_p() } else { Parts::with_access() };
            if fails(0) {
                parts.word(18, 1);
            }
            if fails(1) {
                parts.word(14, 0);
            }
            if fails(2) {
                let lengths = [&[61, 16][..], &[60, 16, 6]][sections - 2];
                parts.lengths(lengths);
            }
            if fails(3) {
                parts.table[3 * sections - 1] += 1;
            }
            if fails(4) {
                parts.table[3 * sections - 2] += 1;
            }
            if fails(6) {
                parts.table[0] = 4;
            }
            let mut card = parts.card();
            if fails(5) {
                card.truncate(card::table_len(sections) - 1);
            }
            if fails(7) {
                card.truncate(3);
            }
            let first = (0..ASKED.len()).rev().find(|&i| fails(i)).map_or(0, |i| ASKED[i]);
            let answer = read(&card);
            assert_eq!(answer.map_or_else(Refusal::number, |_| 0), first, "{sections}: {subset:b}");
            tally.count(&answer);
        }
    }
    tally.at_least([2, 256 + 64, 128 + 32, 16, 8, 4, 2, 0]);
}

#[test]
fn the_first_question_that_fails_answers_in_writing() {
    let mut tally = Tally::default();
    for subset in 0..16 {
        let (mut roads, mut order) = maps::map_p().rows();
        let fails = |question: u32| subset >> (question - 4) & 1 == 1;
        if fails(6) {
            order[3] = 1;
        }
        if fails(5) {
            roads[14] = 0;
        }
        if fails(4) {
            roads.push(7);
        }
        let len = 28 + 4 * (roads.len() + order.len()) + fails(7) as usize;
        let answer = write(&roads, &order, len);
        let first = (4..=7).find(|&question| fails(question)).unwrap_or(0);
        assert_eq!(answer.as_ref().map_or_else(|refusal| refusal.number(), |_| 0), first);
        tally.count(&answer);
    }
    tally.at_least([1, 0, 0, 0, 8, 4, 2, 1]);
}

#[test]
fn areas_of_another_length() {
    let mut random = Random::new(7);
    let mut tally = Tally::default();
    for (n, m) in SIZES.into_iter().chain([(1, 0)]) {
        let map = maps::random(&mut random, n, m, LONGEST);
        let (roads, order) = map.rows();
        let card = map.card().unwrap();
        let right = card.len();
        assert_eq!(write(&roads, &order, right), Ok(card));
        for len in [
            0,
            1,
            27,
            28,
            29,
            right - 4,
            right - 1,
            right + 1,
            right + 4,
            2 * right,
            right + 65_536,
        ] {
            let answer = write(&roads, &order, len);
            assert_eq!(answer, Err(Refusal::AreaLengths), "{len} bytes for {right}");
            tally.count(&answer);
        }
    }
    tally.at_least([0, 0, 0, 0, 0, 0, 0, 77]);
}

/// Slices of 4 GiB and more, of which only a page is touched: no length is cut to 32 bits, and no sum or product of lengths
/// wraps.
#[test]
fn lengths_past_32_bits() {
    let mut card = vec![0; 1 << 32];
    card[..28].copy_from_slice(
        &Parts { table: vec![2, 1, 28, 0, 2, 28, minus(28)], bodies: vec![] }.card(),
    );
    for read in [unit::read, card::read] {
        assert_eq!(read(&card), Err(Refusal::Starts));
    }
    let table = vec![3, 1, 40, 0, 2, 40, 4, 3, 44, minus(44)];
    card[..40].copy_from_slice(&Parts { table, bodies: vec![] }.card());
    for read in [unit::read, card::read] {
        assert_eq!(read(&card), Err(Refusal::Starts));
    }
    drop(card);
    // 4 bytes a word make the 12 of a road, or the 4 of a place of the order, if the product wraps.
    let words = vec![0; (1 << 30) + 3];
    for write in [unit::write, card::write] {
        assert_eq!(write(&words, &[0], &mut [0; 44]), Err(Refusal::Sizes));
        assert_eq!(write(&[], &words[2..], &mut [0; 32]), Err(Refusal::Sizes));
    }
}

/// Maps of varied size, most of them small, with the smallest, the largest and towns among them.
fn varied(random: &mut Random, count: usize) -> Vec<Map> {
    let mut varied = vec![
        maps::random(random, 1, 0, LONGEST),
        maps::random(random, MOST_JUNCTIONS, MOST_ROADS, LONGEST),
        maps::random(random, MOST_JUNCTIONS, 0, LONGEST),
        maps::random(random, 2, MOST_ROADS, 1),
        maps::town(random, 10, 20, Streets::USUAL),
        maps::line(200),
        maps::star(200),
        maps::ring(200),
        maps::map_p(),
    ];
    while varied.len() < count {
        let most = random.pick(&[4, 16, 64, 256]);
        let n = 1 + random.below(most);
        let m = random.below(4 * n + 1);
        let longest = random.pick(&[1, 60, LONGEST]);
        varied.push(maps::random(random, n, m, longest));
    }
    varied
}

#[test]
fn there_and_back() {
    let mut random = Random::new(1);
    let maps = varied(&mut random, 1_000);
    for map in &maps {
        let (roads, order) = map.rows();
        let card = write(&roads, &order, card::len(map.n(), map.m())).unwrap();
        assert_eq!(read(&card), Ok((map.n() as u32, map.m() as u32)));
        let every_class = vec![EVERY_CLASS; map.m()];
        assert!(card::map(&card) == Ok((roads, order, every_class)), "another map comes back");
        // The same at each alignment.
        for card in [&card, &map.card_with_access().unwrap()] {
            for offset in 0..4 {
                let bytes = [&[0xff; 4][..offset], card, &[0xff; 4]].concat();
                read(&bytes[offset..][..card.len()]).unwrap();
            }
        }
    }
    assert!(maps.iter().filter(|map| map.m() == 0).count() >= 10);
    assert!(maps.iter().filter(|map| map.n() > 100).count() >= 100);
}

/// How often a kind of damage was met, and each answer, on cards without bytes for classes or with them.
struct Damaged {
    kinds: [usize; CardDamage::ALL.len()],
    tally: Tally,
    /// Accepted, with two sections and with three.
    accepted: [usize; 2],
}

/// Damages maps' cards in each way in turn, some in a second way too. An accepted one of two sections comes back when
/// its map is written, one of three without its third.
fn damaged(seed: u64, access: bool) -> Damaged {
    let mut random = Random::new(seed);
    let mut varied = varied(&mut random, 1_000);
    if access {
        varied.iter_mut().for_each(|map| maps::bar(&mut random, map));
    }
    let card = |map: &Map| if access { map.card_with_access() } else { map.card() }.unwrap();
    let cards: Vec<(Vec<u8>, Layout)> =
        varied.iter().map(|map| (card(map), Layout { access, ..Layout::of(map) })).collect();
    let (kinds, tally) = ([0; CardDamage::ALL.len()], Tally::default());
    let mut met = Damaged { kinds, tally, accepted: [0; 2] };
    for i in 0..130_000 {
        let (whole, layout) = &cards[random.below(cards.len())];
        let kind = i % CardDamage::ALL.len();
        let mut card = whole.clone();
        CardDamage::ALL[kind].apply(&mut random, &mut card, *layout);
        met.kinds[kind] += (card != *whole) as usize;
        if random.chance(25) {
            random.pick(&CardDamage::ALL).apply(&mut random, &mut card, *layout);
        }
        let answer = read(&card);
        met.tally.count(&answer);
        if let Ok((n, m)) = answer {
            let (roads, order, access) = card::map(&card).unwrap();
            let written = write(&roads, &order, card::len(n as usize, m as usize)).unwrap();
            let with_access = card::with_access(&written, &access);
            let three = card[0] == 3;
            assert!(card == if three { with_access } else { written }, "another card comes back");
            assert!(three || access.iter().all(|&byte| byte == EVERY_CLASS));
            met.accepted[three as usize] += 1;
        }
    }
    met
}

#[test]
fn damaged_cards() {
    let Damaged { kinds, tally, accepted } = damaged(2, false);
    let bytes = CardDamage::ALL.iter().position(|&kind| kind == CardDamage::AccessByte).unwrap();
    let enough = |(i, &met): (usize, &usize)| met >= 7_000 || i == bytes;
    assert!(kinds.iter().enumerate().all(enough), "{kinds:?}");
    tally.at_least([10_000, 5_000, 10_000, 20_000, 5_000, 10_000, 10_000, 0]);
    assert!(accepted[0] > 10_000 && accepted[1] > 2_000, "{accepted:?}");
}

#[test]
fn damaged_cards_with_classes() {
    let Damaged { kinds, tally, accepted } = damaged(4, true);
    assert!(kinds.iter().all(|&met| met >= 7_000), "{kinds:?}");
    tally.at_least([10_000, 5_000, 10_000, 20_000, 5_000, 10_000, 10_000, 0]);
    assert!(accepted[0] > 2_000 && accepted[1] > 10_000, "{accepted:?}");
}

/// Damages what is lent for maps' cards in each way in turn, some in a second way too.
#[test]
fn damaged_maps() {
    let mut random = Random::new(3);
    let maps = varied(&mut random, 500);
    let mut tally = Tally::default();
    let mut damaged = [0; MapDamage::ALL.len()];
    for i in 0..25_000 {
        let (roads, order) = maps[random.below(maps.len())].rows();
        let whole = Lent { roads, order, excess: 0 };
        let kind = i % MapDamage::ALL.len();
        let mut lent = whole.clone();
        MapDamage::ALL[kind].apply(&mut random, &mut lent);
        damaged[kind] += (lent != whole) as usize;
        if random.chance(25) {
            random.pick(&MapDamage::ALL).apply(&mut random, &mut lent);
        }
        if lent.excess == 0 {
            tally.count(&read_and_write(&lent.roads, &lent.order));
        } else {
            tally.count(&write(&lent.roads, &lent.order, lent.area_len()));
        }
    }
    assert!(damaged.iter().all(|&met| met >= 3_000), "{damaged:?}");
    tally.at_least([3_000, 0, 0, 0, 4_000, 4_000, 4_000, 4_000]);
}

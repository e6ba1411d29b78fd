//! The card: a second reader and writer, from the description of the format and nothing else (document 01, and A6 and A7
//! of document 02).

use crate::calls::Refusal;
use crate::time::Time;

/// Most junctions of a map.
pub const MOST_JUNCTIONS: usize = 4_096;
/// Most roads of a map.
pub const MOST_ROADS: usize = 16_384;
/// Longest base time, in tenths of a second (document 02, A7).
pub const LONGEST: Time = 10_000_000;
/// The byte of a road that lets every class in, as all do where a card has no such bytes.
pub const EVERY_CLASS: u8 = 255;

/// Kinds of sections: roads, order, and for each road the classes that it lets in.
const ROADS: u32 = 1;
const ORDER: u32 = 2;
const ACCESS: u32 = 3;

/// A row of the table of contents.
#[derive(Clone, Copy)]
struct Entry {
    kind: u32,
    start: u32,
    len: u32,
}

/// The bodies of a card that is accepted.
struct Bodies<'a> {
    roads: &'a [[[u8; 4]; 3]],
    order: &'a [[u8; 4]],
    access: Option<&'a [u8]>,
}

/// The map of a card: the words of its roads, three for each, those of its order, and a byte for each road.
pub type Rows = (Vec<u32>, Vec<u32>, Vec<u8>);

/// Questions 1 to 6: the numbers of junctions and of roads, or the first refusal.
pub fn read(card: &[u8]) -> Result<(u32, u32), Refusal> {
    let bodies = bodies(card)?;
    Ok((bodies.order.len() as u32, bodies.roads.len() as u32))
}

/// Its map, or the first refusal. Without a third section every class passes.
pub fn map(card: &[u8]) -> Result<Rows, Refusal> {
    let Bodies { roads, order, access } = bodies(card)?;
    let row = |words: &[[u8; 4]]| words.iter().map(|&word| u32::from_le_bytes(word)).collect();
    let access = access.map_or_else(|| vec![EVERY_CLASS; roads.len()], |access| access.to_vec());
    Ok((row(roads.as_flattened()), row(order), access))
}

/// The bodies, all questions answered with yes. Inlined, since `read`, which is measured, is a sixth quicker then.
#[inline(always)]
fn bodies(card: &[u8]) -> Result<Bodies<'_>, Refusal> {
    let entries = entries(card)?;
    ask(follow_one_another(&entries, card.len()), Refusal::Starts)?;
    let body = |kind: u32| {
        let entry = entries.iter().find(|entry| entry.kind == kind)?;
        Some(&card[entry.start as usize..][..entry.len as usize])
    };
    let [Some(roads), Some(order)] = [ROADS, ORDER].map(body) else { unreachable!("by 2") };
    let access = body(ACCESS);
    let (m, n) = (roads.len() / 12, order.len() / 4);
    ask(roads.len().is_multiple_of(12) && order.len().is_multiple_of(4), Refusal::Sizes)?;
    ask(in_range(n, m) && access.is_none_or(|access| access.len() == m), Refusal::Sizes)?;
    let (roads, order) = (words(roads).as_chunks().0, words(order));
    check_roads(roads.iter().map(|road| road.map(u32::from_le_bytes)), n as u32)?;
    check_order(order.iter().map(|&word| u32::from_le_bytes(word)), n as u32)?;
    Ok(Bodies { roads, order, access })
}

/// Questions 1 and 2: 4 bytes, a count of 2 or 3, as many entries, and kinds that ascend, 1 and 2 among them and
/// none above 3.
fn entries(card: &[u8]) -> Result<Vec<Entry>, Refusal> {
    let (count, rest) = words(card).split_first().ok_or(Refusal::Short)?;
    let count = u32::from_le_bytes(*count);
    ask(count == 2 || count == 3, Refusal::Kinds)?;
    let rows: &[[[u8; 4]; 3]] = rest.as_chunks().0;
    let rows = rows.get(..count as usize).ok_or(Refusal::Short)?;
    let entry = |row: &[[u8; 4]; 3]| {
        let [kind, start, len] = row.map(u32::from_le_bytes);
        Entry { kind, start, len }
    };
    let entries: Vec<Entry> = rows.iter().map(entry).collect();
    let kinds: Vec<u32> = entries.iter().map(|entry| entry.kind).collect();
    let known = kinds.iter().all(|kind| [ROADS, ORDER, ACCESS].contains(kind));
    let ascending = kinds.windows(2).all(|two| two[0] < two[1]);
    let has = |kind: u32| kinds.contains(&kind);
    ask(known && ascending && has(ROADS) && has(ORDER), Refusal::Kinds)?;
    Ok(entries)
}

/// Question 3: right after the table, one after the other, to the end. A sum that wraps is no start and no end.
fn follow_one_another(entries: &[Entry], end: usize) -> bool {
    let mut at = Some(table_len(entries.len()) as u32);
    for entry in entries {
        if at != Some(entry.start) {
            return false;
        }
        at = entry.start.checked_add(entry.len);
    }
    at.is_some_and(|at| at as usize == end)
}

fn ask(yes: bool, refusal: Refusal) -> Result<(), Refusal> {
    if yes {
        Ok(())
    } else {
        Err(refusal)
    }
}

/// Questions 4 to 7: makes the card of a map in `area`, or leaves it unaltered. It knows no classes.
pub fn write(roads: &[u32], order: &[u32], area: &mut [u8]) -> Result<(), Refusal> {
    let (entries, rest) = roads.as_chunks::<3>();
    if !rest.is_empty() || !in_range(order.len(), entries.len()) {
        return Err(Refusal::Sizes);
    }
    check_roads(entries.iter().copied(), order.len() as u32)?;
    check_order(order.iter().copied(), order.len() as u32)?;
    ask(area.len() == len(order.len(), entries.len()), Refusal::AreaLengths)?;
    let (roads_len, order_len) = (4 * roads.len() as u32, 4 * order.len() as u32);
    let (table, bodies) = area.split_at_mut(table_len(2));
    let (roads_body, order_body) = bodies.split_at_mut(roads_len as usize);
    let start = table_len(2) as u32;
    put(table, &[2, ROADS, start, roads_len, ORDER, start + roads_len, order_len]);
    put(roads_body, roads);
    put(order_body, order);
    Ok(())
}

/// A card of two sections with a third one: a byte for each of its roads.
pub fn with_access(card: &[u8], access: &[u8]) -> Vec<u8> {
    let (table, bodies) = card.split_at(table_len(2));
    let words: Vec<u32> = words(table).iter().map(|&word| u32::from_le_bytes(word)).collect();
    let &[2, ROADS, start, roads_len, ORDER, order_start, order_len] = &words[..] else {
        panic!("no card of two sections")
    };
    let more = (table_len(3) - table_len(2)) as u32;
    let end = order_start + order_len + more;
    let mut card = vec![0; table_len(3)];
    let roads = [ROADS, start + more, roads_len];
    let order = [ORDER, order_start + more, order_len];
    put(&mut card, &[&[3][..], &roads, &order, &[ACCESS, end, access.len() as u32]].concat());
    card.extend(bodies);
    card.extend(access);
    card
}

/// Bytes of a table of so many entries: the number of sections and, for each, its kind, start and length.
pub fn table_len(sections: usize) -> usize {
    4 + 12 * sections
}

/// Bytes of the card of a map with `n` junctions and `m` roads, without bytes for classes.
pub fn len(n: usize, m: usize) -> usize {
    table_len(2) + 12 * m + 4 * n
}

/// The same with them.
pub fn len_with_access(n: usize, m: usize) -> usize {
    table_len(3) + 12 * m + 4 * n + m
}

fn in_range(n: usize, m: usize) -> bool {
    (1..=MOST_JUNCTIONS).contains(&n) && m <= MOST_ROADS
}

/// Question 5.
fn check_roads(mut roads: impl Iterator<Item = [u32; 3]>, n: u32) -> Result<(), Refusal> {
    let fails = |[tail, head, base]: [u32; 3]| {
        tail >= n || head >= n || tail == head || !(1..=LONGEST).contains(&base.into())
    };
    match roads.position(fails) {
        Some(road) => Err(Refusal::Road(road as u32)),
        None => Ok(()),
    }
}

/// Question 6.
fn check_order(mut order: impl Iterator<Item = u32>, n: u32) -> Result<(), Refusal> {
    let mut seen = [false; MOST_JUNCTIONS];
    let seen = &mut seen[..n as usize];
    let fails = |junction: u32| {
        let seen = seen.get_mut(junction as usize);
        seen.is_none_or(|seen| std::mem::replace(seen, true))
    };
    match order.position(fails) {
        Some(place) => Err(Refusal::Place(place as u32)),
        None => Ok(()),
    }
}

fn words(bytes: &[u8]) -> &[[u8; 4]] {
    bytes.as_chunks().0
}

fn put(bytes: &mut [u8], words: &[u32]) {
    for (bytes, word) in bytes.as_chunks_mut().0.iter_mut().zip(words) {
        *bytes = word.to_le_bytes();
    }
}

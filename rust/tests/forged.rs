//! Calls on states that no list of calls leaves: areas, headers and cards of right lengths and any
//! contents. The answer is free, but the call ends, writes only in the areas that it is lent to write, leaves
//! each estimate that is filled, but for an aim and a list of stops, and hands the header back as it was, but for
//! its target. A preview's change is right wherever both totals are answered, and its questions are asked of
//! whatever words there are. A list of stops asks its questions so, and is then an aim and a go for each leg, up to
//! one whose go answers no route. A header out of range is refused, by 9, whatever the lengths; so is a card whose
//! table does not name bodies for the header's numbers inside the card (document 02, A6). Entries of 64 bits, which a
//! sum of two may pass, wrap in none (A7): where only times are forged, down totals and estimates are those that sums of
//! 128 bits give, with none where one does not fit below the marks, and a go's times and total are sums of live times.
//! A script on any of these is its calls one by one.

use harness::both::with_stack;
use harness::calls::{
    Accepted, Answer, Call, Calls, Previewed, Refusal, StopList, Stopped, CLASSES, MOST_STOPS,
};
use harness::card::{self, LONGEST, MOST_JUNCTIONS, MOST_ROADS};
use harness::damage::{CardDamage, Layout};
use harness::maps::{self, Streets};
use harness::order::{self, MOST_PAIRS};
use harness::random::{setting, Random};
use harness::time::{Time, CLOSED, NONE, UNASKED};
use harness::traffic;
use harness::unit::{
    answer_words, same, spelled, Area, Header, HeldMut, LentAreas, Unit, ANSWER_WORDS, AREAS,
    RECORD,
};
use std::fs;
use std::path::Path;

/// What the words of an area are taken from.
#[derive(Clone, Copy, Debug)]
enum Words {
    Any,
    /// Below n, or n itself.
    Small,
    /// Times and marks.
    Times,
    /// A row of 0, 1, 2 ..
    Ascending,
    Zero,
    Unasked,
}

impl Words {
    const ALL: [Words; 6] =
        [Words::Any, Words::Small, Words::Times, Words::Ascending, Words::Zero, Words::Unasked];

    /// A word of 32 bits.
    fn word(self, random: &mut Random, place: usize, n: usize) -> u32 {
        match self {
            Words::Any => random.word(),
            Words::Small => random.below(n + 1) as u32,
            Words::Times => random.pick(&[0, 1, LONGEST as u32, 1 << 31, u32::MAX - 1, u32::MAX]),
            Words::Ascending => place as u32,
            Words::Zero => 0,
            Words::Unasked => UNASKED as u32,
        }
    }

    /// A time. Any is of any number of bits.
    fn time(self, random: &mut Random, place: usize, n: usize) -> Time {
        match self {
            Words::Any => random.bits() >> random.below(64),
            Words::Times => forged_time(random),
            Words::Unasked => UNASKED,
            Words::Small | Words::Ascending | Words::Zero => self.word(random, place, n).into(),
        }
    }
}

/// A time that may be near or past what its word, or a word that holds more beside it, has room for: at 2^64 and the
/// marks, 2^63, 2^50, 2^38 and 2^32; or an allowed one.
fn forged_time(random: &mut Random) -> Time {
    let near = random.below(40) as Time;
    match random.below(9) {
        0 => random.pick(&[UNASKED, NONE]),
        1 => UNASKED - 1 - near,
        2 => UNASKED - LONGEST + near,
        3 => (1 << 63) - 20 + near,
        4 => (1 << 50) - 20 + near,
        5 => (1 << 38) - 20 + near,
        6 => (1 << 32) - 20 + near,
        7 => random.pick(&[0, 1, LONGEST - 1, LONGEST]),
        _ => random.bits() >> random.below(64),
    }
}

fn noise(random: &mut Random, area: HeldMut, n: usize) {
    let words = random.pick(&Words::ALL);
    match area {
        HeldMut::Words(area) => {
            for (place, word) in area.iter_mut().enumerate() {
                *word = words.word(random, place, n);
            }
        }
        HeldMut::Times(area) => {
            for (place, word) in area.iter_mut().enumerate() {
                *word = words.time(random, place, n);
            }
        }
    }
}

/// Records that mostly lead upwards, with any times: long walks.
fn records(random: &mut Random, unit: &mut Unit, n: usize) {
    let count = unit.pairs.len() / RECORD;
    for (i, ranks) in unit.pairs.as_chunks_mut().0.iter_mut().enumerate() {
        let low = i * n / count;
        let high = low + 1 + random.below(3);
        *ranks = [low as u32, high as u32];
    }
    for time in unit.times.iter_mut() {
        *time = forged_time(random);
    }
}

/// Starts of groups that ascend, up to m for the most part, and roads that are mostly some of the map's.
fn ascending_groups(random: &mut Random, unit: &mut Unit, m: usize) {
    let most = m + random.pick(&[0, 0, 0, 3]);
    for start in unit.groups.iter_mut() {
        *start = random.below(most + 1) as u32;
    }
    unit.groups.sort();
    for road in unit.leaving.iter_mut() {
        *road = number(random, m);
    }
}

/// A size up to `most`: small, large or the largest.
fn size(random: &mut Random, most: usize) -> usize {
    match random.below(20) {
        0 => most,
        1 => random.below(most + 1),
        2..8 => random.below(most.min(300) + 1),
        _ => random.below(12),
    }
}

/// Any bytes, or any words, as a card's, with a table that names bodies for n junctions and m roads somewhere in it.
fn any_card(random: &mut Random, n: usize, m: usize) -> Vec<u8> {
    let len = card::len_with_access(n, m) + random.below(9);
    let mut card: Vec<u8> = match random.chance(50) {
        true => (0..len).map(|_| random.word() as u8).collect(),
        false => (0..len.div_ceil(4)).flat_map(|_| number(random, n).to_le_bytes()).collect(),
    };
    card.truncate(len);
    put(&mut card, 0, random.pick(&[2, 2, 3, 3, 4, u32::MAX]));
    for (i, size) in [12 * m, 4 * n, m].into_iter().enumerate() {
        let [kind, any] = [random.pick(&[1, 2, 3]), random.below(len - size + 1)];
        let at = random.pick(&[any, len - size, 0, card::table_len(3).min(len - size)]);
        put(&mut card, 1 + 3 * i, kind as u32);
        put(&mut card, 2 + 3 * i, at as u32);
        put(&mut card, 3 + 3 * i, size as u32);
    }
    card
}

/// Another word of a card.
fn put(card: &mut [u8], place: usize, to: u32) {
    card.as_chunks_mut().0[place] = to.to_le_bytes();
}

/// Where an entry of a card's table says that its body starts, and how long it is; none if there is no such entry.
fn entry(card: &[u8], i: usize) -> Option<(usize, usize)> {
    let word = |place: usize| {
        let bytes = card.get(4 * place..4 * place + 4).expect("a word of the table");
        u32::from_le_bytes(bytes.try_into().expect("4 bytes")) as usize
    };
    let there = card.len() >= 4 && i < word(0) && card.len() >= 4 + 12 * (i + 1);
    there.then(|| (word(2 + 3 * i), word(3 + 3 * i)))
}

/// The part of a card that an entry of its table names: nothing if it has no such entry, or if that part would lie
/// past its end.
fn body(card: &[u8], i: usize) -> &[u8] {
    entry(card, i).and_then(|(start, len)| card.get(start..start + len)).unwrap_or(&[])
}

/// Does an entry name a body of so many bytes inside the card? A body without bytes needs no entry.
fn names(card: &[u8], i: usize, bytes: usize) -> bool {
    entry(card, i).map_or(bytes == 0, |(start, len)| len == bytes && start + len <= card.len())
}

/// The table names bodies for the header's numbers inside the card, whose length the header has.
fn named(unit: &Unit) -> bool {
    let Header { n, m, card: len, .. } = unit.header;
    let (n, m, card) = (n as usize, m as usize, &unit.card[..]);
    let third = card.len() >= 4 && (card[0] > 2 || card[1..4] != [0; 3]);
    card.len() == len as usize
        && names(card, 0, 12 * m)
        && names(card, 1, 4 * n)
        && (!third || entry(card, 2).is_some() && names(card, 2, m))
}

/// A header, areas and a card that fit each other in length alone.
fn forge(random: &mut Random) -> Unit {
    let [n, m, room] = [MOST_JUNCTIONS, MOST_ROADS, MOST_PAIRS].map(|most| size(random, most));
    let bytes = match random.below(3) {
        0 | 1 => any_card(random, n, m),
        _ => {
            let (n, m) = (n.max(1), if n < 2 { 0 } else { m });
            let mut map = maps::random(random, n, m, LONGEST);
            maps::bar(random, &mut map);
            let card = map.card().expect("a map in range");
            return forge_on(random, &card, [n, m], room);
        }
    };
    forge_on(random, &bytes, [n, m], room)
}

/// A header and areas that fit a card of n junctions and m roads in length.
fn forge_on(random: &mut Random, card: &[u8], [n, m]: [usize; 2], room: usize) -> Unit {
    let mut unit = Unit::new(card, n, m, room);
    for area in unit.areas_mut() {
        noise(random, area, n);
    }
    if random.chance(50) {
        records(random, &mut unit, n);
    }
    if random.chance(50) {
        ascending_groups(random, &mut unit, m);
    }
    let [n, m, len] = [n, m, card.len()].map(|number| number as u32);
    unit.header = Header { n, m, card: len, ..header(random, n as usize) };
    unit.header.pairs = random.below(room + 1) as u32;
    unit
}

/// A target that is there or not, and now and then words that no header has.
fn header(random: &mut Random, n: usize) -> Header {
    let target = number(random, n);
    let [aimed, target] = match random.below(20) {
        0 => [random.word(), target],
        1 => [0, target],
        2 | 3 => [0, 0],
        _ => [1, target],
    };
    Header { aimed, target, ..Header::default() }
}

/// A number below n for the most part.
fn number(random: &mut Random, n: usize) -> u32 {
    match random.below(10) {
        0 => random.word(),
        1 => random.pick(&[n as u32, n as u32 + 1, u32::MAX]),
        _ => random.below(n.max(1)) as u32,
    }
}

/// A prepared and used unit.
fn used(random: &mut Random) -> Unit {
    let mut map = match random.below(8) {
        0 => maps::town(random, 20, 20, Streets::USUAL),
        1 => maps::even_grid(random, 8, 8),
        _ => maps::small(random),
    };
    if random.chance(40) {
        maps::bar(random, &mut map);
    }
    let (n, m) = (map.n(), map.m());
    let mut unit = Unit::new(&map.card().expect("a map in range"), n, m, order::pairs(&map) + 3);
    unit.prepare().expect("room for the pairs");
    for (road, time) in (0..).zip(traffic::live_times(random, &map)) {
        unit.set(road, time).expect("an allowed time");
    }
    unit.aim(random.below(n) as u32).expect("a junction");
    unit.estimate(random.below(n) as u32).expect("a junction");
    unit
}

/// One that is damaged in a few places.
fn damage(random: &mut Random) -> Unit {
    let mut unit = used(random);
    let (n, layout) = (unit.header.n as usize, layout(&unit));
    for _ in 0..=random.below(6) {
        match random.below(4 + AREAS) {
            0 => CardDamage::RoadWord.apply(random, &mut unit.card, layout),
            1 => CardDamage::OrderWord.apply(random, &mut unit.card, layout),
            2 => CardDamage::AccessByte.apply(random, &mut unit.card, layout),
            3 => unit.header = Header { target: number(random, n), ..unit.header },
            which => damage_word(random, &mut unit.areas_mut()[which - 4], n),
        }
    }
    unit
}

/// Another word of an area, if it has one.
fn damage_word(random: &mut Random, area: &mut HeldMut, n: usize) {
    if area.len() == 0 {
        return;
    }
    let (words, place) = (random.pick(&Words::ALL), random.below(area.len()));
    match area {
        HeldMut::Words(area) => area[place] = words.word(random, place, n),
        HeldMut::Times(area) => area[place] = words.time(random, place, n),
    }
}

/// Where the words of its card stand.
fn layout(unit: &Unit) -> Layout {
    let (n, m) = (unit.header.n as usize, unit.header.m as usize);
    Layout { n, m, access: unit.card.len() != card::len(n, m) }
}

/// One with all as it is to be but for its card's table, or for the card's length in the card or in the header.
fn damage_table(random: &mut Random) -> Unit {
    let mut unit = used(random);
    let layout = layout(&unit);
    let len = unit.card.len();
    let table = random.pick(&[CardDamage::TableWord, CardDamage::TableSwap, CardDamage::Count]);
    match random.below(8) {
        0..4 => table.apply(random, &mut unit.card, layout),
        4 => {
            // A part as long, elsewhere in the card.
            let entry = random.below(2 + layout.access as usize);
            let most = len - body(&unit.card, entry).len();
            let at = random.below(most + 1) as u32;
            put(&mut unit.card, 2 + 3 * entry, at);
        }
        5 => {
            let other = random.pick(&[0, 3, 4, 27, 28, 39, 40, len - 1, len + 1, len + 12]);
            unit.card.resize(other, 0);
            // The header goes with the card, or not.
            if random.chance(60) {
                unit.header.card = other as u32;
            }
        }
        6 => {
            let (word, len) = (random.word(), len as u32);
            let others = [len + 1, len - 1, len ^ 1 << 31, 0, 28, 40, u32::MAX, word];
            unit.header.card = random.pick(&others);
        }
        _ => CardDamage::Section.apply(random, &mut unit.card, layout),
    }
    unit
}

/// One with all as it is to be but for an entry of the roads by tail, or a start of a group.
fn damage_groups(random: &mut Random) -> Unit {
    let mut unit = used(random);
    let m = unit.header.m;
    let area = match m > 0 && random.chance(50) {
        true => &mut unit.leaving,
        false => &mut unit.groups,
    };
    let (place, other) = (random.below(area.len()), random.below(area.len()));
    let old = area[place];
    let word = random.word();
    let words = [old + 1, old.wrapping_sub(1), 0, m, m + 1, area[other], u32::MAX, word];
    let new = random.pick(&words);
    area[place] = if new == old { old + 1 } else { new };
    unit
}

/// Tail, head and base time of a road as they stand in the body that the card's table names, if it is below m.
fn road_on(unit: &Unit, road: u32) -> Option<[u32; 3]> {
    let m = unit.header.m as usize;
    let roads = body(&unit.card, 0).as_chunks::<12>().0.get(..m)?;
    let words = roads.get(road as usize)?.as_chunks().0;
    Some([words[0], words[1], words[2]].map(u32::from_le_bytes))
}

/// A class below 8 for the most part.
fn class(random: &mut Random) -> u32 {
    match random.below(12) {
        0 => random.pick(&[8, 9, 255, 256, u32::MAX]),
        _ => random.below(CLASSES as usize) as u32,
    }
}

/// A list of stops, longer ones where the map is small, now and then of a wrong number or with a short area.
fn stops(random: &mut Random, n: usize) -> Call {
    let most = if n < 40 { MOST_STOPS + 1 } else { 4 };
    let count = match random.below(6) {
        0 => random.pick(&[0, 1, most, MOST_STOPS + 1]),
        1 => 2 + random.below(most - 1),
        _ => 2 + random.below(3),
    };
    let wrong = random.chance(20);
    let stops: Vec<u32> = (0..count)
        .map(|_| if wrong { number(random, n) } else { random.below(n.max(1)) as u32 })
        .collect();
    let less = if random.chance(10) { 1 + random.below(n + 1) } else { 0 };
    let route = (count * n + 2 * random.below(2)).saturating_sub(less);
    let class = class(random);
    Call::Stops { class, stops: StopList::of(&stops), route, log: n + random.below(3) }
}

fn call(random: &mut Random, unit: &Unit) -> Call {
    let n = unit.header.n as usize;
    match random.below(12) {
        0 => {
            let time = [LONGEST, CLOSED, CLOSED, random.bits(), forged_time(random)];
            Call::Set { road: number(random, unit.header.m as usize), time: random.pick(&time) }
        }
        1 => Call::Aim { junction: number(random, n) },
        2..4 => Call::Estimate { junction: number(random, n) },
        4..6 => {
            let (road, any) = (number(random, unit.header.m as usize), number(random, n));
            let [tail, _, base] = road_on(unit, road).unwrap_or([any, any, LONGEST as u32]);
            let base = Time::from(base);
            let others = [random.within(1..=LONGEST), forged_time(random)];
            let times = [base, base, CLOSED, CLOSED, others[0], others[1]];
            let (time, start) = (random.pick(&times), random.pick(&[tail, any]));
            let work = 2 * n + random.pick(&[0, 0, 0, 0, 0, 0, 0, 1, n]);
            Call::Preview { class: class(random), road, time, start, work }
        }
        10.. => stops(random, n),
        _ => {
            let (class, start) = (class(random), number(random, n));
            Call::Go { class, start, route: n + random.below(3), log: n + random.below(3) }
        }
    }
}

/// What the calls met.
#[derive(Debug, Default)]
struct Met {
    /// How often they were refused with each number, 0 for accepted.
    refusals: [usize; Refusal::NUMBERS],
    /// Where the table names no bodies for the header: refused by 9, by the call.
    unnamed: [usize; 6],
    /// Where it names bodies in other places than a card's, or kinds or a number of sections that no card has:
    /// accepted, and refused.
    elsewhere: [usize; 2],
    /// How many filled estimates the estimates that were answered found, and left.
    kept_by_estimates: usize,
    /// The same of the goes that searched.
    kept_by_goes: usize,
    /// The same of the previews that searched.
    kept_by_previews: usize,
    groups: Groups,
    previews: Previews,
    lists: Lists,
}

/// How the lists of stops were answered.
#[derive(Debug, Default)]
struct Lists {
    /// Refused with each number, 0 for accepted.
    refusals: [usize; Refusal::NUMBERS],
    /// 17 with the first leg, and with a later one.
    lost: [usize; 2],
    /// Found, with several legs, and of these with a route.
    found: [usize; 2],
}

impl Lists {
    /// What the questions refuse by the header, the lengths and the arguments.
    fn refusal(unit: &Unit, call: Call) -> Option<Refusal> {
        let Call::Stops { class, stops, route, log } = call else { panic!("no list of stops") };
        let n = unit.header.n as usize;
        if !(2..=32).contains(&stops.len()) {
            Some(Refusal::StopCount)
        } else if class > 7 {
            Some(Refusal::NoClass)
        } else if stops.iter().any(|&stop| stop as usize >= n) {
            Some(Refusal::NoJunction)
        } else {
            (route < stops.len() * n || log < n).then_some(Refusal::LentLengths)
        }
    }

    /// The legs one by one, each an aim and a go that is lent the route area behind the roads before.
    fn legs(unit: &mut Unit, class: u32, stops: &[u32], lent: &mut LentAreas) -> Answer {
        let (mut legs, mut at) = (Vec::new(), 0);
        for (leg, ends) in (0..).zip(stops.windows(2)) {
            unit.aim(ends[1]).expect("a junction");
            let trip = unit.go(class, ends[0], &mut lent.route[at..], &mut lent.log);
            let trip = trip.map_err(|_| Refusal::NoLeg(leg))?;
            legs.push((trip.total, trip.roads));
            at = lent.route.len().min(at + trip.roads as usize);
        }
        Ok(Accepted::Stopped(Stopped::of(&legs)))
    }

    /// An answer, and what the call left: as the questions have it, or as the legs one by one.
    fn check(&mut self, before: &Unit, after: &Unit, call: Call, lent: &LentAreas, answer: Answer) {
        let Call::Stops { class, stops, .. } = call else { panic!("no list of stops") };
        let (mut unit, mut areas) = (before.clone(), LentAreas::of(call));
        let want = match Lists::refusal(before, call) {
            Some(refusal) => {
                unit.header = handed(unit.header);
                Err(refusal)
            }
            None => Lists::legs(&mut unit, class, &stops, &mut areas),
        };
        assert_eq!(answer, want, "{call:?}, {:?}", before.header);
        assert!(*after == unit, "{call:?} leaves another unit than its legs");
        assert!(*lent == areas, "{call:?} leaves another route or log than its legs");
        self.refusals[answer.map_or_else(|refusal| refusal.number() as usize, |_| 0)] += 1;
        match answer {
            Ok(Accepted::Stopped(stopped)) if stopped.legs > 1 => {
                self.found[0] += 1;
                self.found[1] += (stopped.roads.iter().sum::<u32>() > 1) as usize;
            }
            Err(Refusal::NoLeg(leg)) => self.lost[(leg > 0) as usize] += 1,
            _ => (),
        }
    }
}

/// Words that no header has come back as those of the header that they stand for.
fn handed(header: Header) -> Header {
    let target = if header.aimed == 0 { 0 } else { header.target };
    Header { aimed: header.aimed.min(1), target, ..header }
}

/// How the previews were answered.
#[derive(Debug, Default)]
struct Previews {
    /// Refused with each number, 0 for accepted.
    refusals: [usize; Refusal::NUMBERS],
    /// With two totals: a change below 0, 0, and above.
    changes: [usize; 3],
    /// With no total now, with the time set, and either way.
    absent: [usize; 3],
}

impl Previews {
    /// What the questions refuse by the header, the lengths, the road's words on the card and the arguments.
    /// A target out of range, which no list of calls leaves, is refused by 9 behind them.
    fn refusal(unit: &Unit, call: Call) -> Option<Refusal> {
        let Call::Preview { class, road, time, start, work } = call else { panic!("no preview") };
        let Header { n, m, aimed, target, .. } = unit.header;
        let allowed =
            |[_, _, base]: [u32; 3]| (Time::from(base)..=LONGEST).contains(&time) || time == CLOSED;
        if work != 2 * n as usize {
            Some(Refusal::Lengths)
        } else if class > 7 {
            Some(Refusal::NoClass)
        } else if road >= m {
            Some(Refusal::NoRoad)
        } else if !road_on(unit, road).is_some_and(allowed) {
            Some(Refusal::NotAllowed)
        } else if start >= n {
            Some(Refusal::NoJunction)
        } else if aimed == 0 {
            Some(Refusal::NoTarget)
        } else {
            (target >= n).then_some(Refusal::Lengths)
        }
    }

    /// An answer, which is refused as it is to be, or has the change of its totals.
    fn check(&mut self, unit: &Unit, call: Call, answer: Answer) {
        let refusal = Previews::refusal(unit, call);
        assert_eq!(answer.err(), refusal, "{call:?}, {:?}", unit.header);
        self.refusals[refusal.map_or(0, Refusal::number) as usize] += 1;
        let Ok(answer) = answer else { return };
        let Accepted::Previewed(Previewed { present, new, change }) = answer else {
            panic!("{call:?}: {answer:?}")
        };
        match (present, new) {
            (Some(present), Some(new)) => {
                assert!(
                    present.max(new) < 1 << 63,
                    "{call:?}: a total that no change has room for"
                );
                let difference = i128::from(new) - i128::from(present);
                assert_eq!(change.map(i128::from), Some(difference), "{present}, {new}");
                self.changes[(1 + difference.signum()) as usize] += 1;
            }
            (present, new) => {
                assert_eq!(change, None, "{present:?}, {new:?}");
                self.absent[if new.is_some() { 0 } else { 1 + present.is_none() as usize }] += 1;
            }
        }
    }
}

/// What the groups of logged junctions were, where they are to be gone on from.
#[derive(Debug, Default)]
struct Groups {
    /// Starts behind its end.
    crossed: usize,
    /// Ends behind the last road.
    beyond: usize,
    /// Has a road that is not below m,
    no_road: usize,
    /// or one that leaves another junction.
    stray: usize,
}

impl Groups {
    /// Counts those of a go's log.
    fn count(&mut self, unit: &Unit, log: &[u32]) {
        let m = unit.header.m as usize;
        let roads = body(&unit.card, 0).as_chunks::<12>().0;
        for &junction in log.iter().filter(|&&junction| junction != unit.header.target) {
            let at = junction as usize;
            let [start, end] = [unit.groups[at], unit.groups[at + 1]].map(|word| word as usize);
            if start > end {
                self.crossed += 1;
            } else if end > m {
                self.beyond += 1;
            } else {
                for &road in &unit.leaving[start..end] {
                    match roads.get(road as usize) {
                        None => self.no_road += 1,
                        Some(road) => {
                            self.stray += !road.starts_with(&junction.to_le_bytes()) as usize
                        }
                    }
                }
            }
        }
    }

    fn at_least(&self, least: usize) {
        let Groups { crossed, beyond, no_road, stray } = *self;
        assert!([crossed, beyond, no_road, stray].iter().all(|&met| met >= least), "{self:?}");
    }
}

/// Each call's place.
fn which(call: Call) -> usize {
    match call {
        Call::Set { .. } => 0,
        Call::Aim { .. } => 1,
        Call::Estimate { .. } => 2,
        Call::Go { .. } => 3,
        Call::Preview { .. } => 4,
        Call::Stops { .. } => 5,
    }
}

/// What the questions behind 9 refuse, in any state: by the header, the lengths of what is lent, the arguments, and
/// the road's base time where the table says that the roads stand.
fn refusal(unit: &Unit, call: Call) -> Option<Refusal> {
    let Header { n, aimed, .. } = unit.header;
    let below = |junction: u32| (junction < n, Refusal::NoJunction);
    let target = (aimed != 0, Refusal::NoTarget);
    let questions = match call {
        Call::Set { road, time } => {
            let base = road_on(unit, road).map(|[_, _, base]| base);
            let allowed = |base: u32| time == CLOSED || (base.into()..=LONGEST).contains(&time);
            vec![(base.is_some(), Refusal::NoRoad), (base.is_none_or(allowed), Refusal::NotAllowed)]
        }
        Call::Aim { junction } => vec![below(junction)],
        Call::Estimate { junction } => vec![below(junction), target],
        Call::Go { class, start, route, log } => {
            let long_enough = route.min(log) >= n as usize;
            let class = (class < CLASSES, Refusal::NoClass);
            vec![class, below(start), target, (long_enough, Refusal::LentLengths)]
        }
        // These two have their own.
        Call::Preview { .. } | Call::Stops { .. } => return None,
    };
    questions.into_iter().find(|(passes, _)| !passes).map(|(_, refusal)| refusal)
}

/// How many junctions stand in the log.
fn count_of(answer: Answer) -> usize {
    match answer {
        Ok(Accepted::Trip(trip)) => trip.count as usize,
        Err(Refusal::NoPath(count)) => count as usize,
        _ => 0,
    }
}

/// What a call answers, and the areas that it was lent.
struct Made {
    answer: Answer,
    lent: LentAreas,
}

/// Makes a call, and looks at what it may not alter.
fn free_call(unit: &mut Unit, call: Call, met: &mut Met) -> Made {
    let before = unit.clone();
    let mut lent = LentAreas::of(call);
    let answer = unit.call(call, lent.lend());
    assert!(unit.guarded() && lent.guarded(), "{call:?} alters guard words");

    let Header { n, m, pairs, card, aimed, target } = unit.header;
    let old = before.header;
    assert_eq!((n, m, pairs, card), (old.n, old.m, old.pairs, old.card), "{call:?}");
    if !named(&before) {
        assert_eq!(answer.err(), Some(Refusal::Lengths), "{call:?}, {old:?}: no such bodies");
        let left = Unit { header: handed(old), ..before };
        assert!(*unit == left, "{call:?} alters a unit without such bodies");
        assert!(lent == LentAreas::of(call), "{call:?} alters a lent area");
        met.refusals[9] += 1;
        met.unnamed[which(call)] += 1;
        return Made { answer, lent };
    }
    if let Some(refusal) = refusal(&before, call) {
        assert_eq!(answer.err(), Some(refusal), "{call:?}, {old:?}");
        let left = Unit { header: handed(old), ..before.clone() };
        assert!(*unit == left && lent == LentAreas::of(call), "{call:?}, refused, alters an area");
    }
    let laid_out = card::read(&before.card).is_ok();
    met.elsewhere[answer.is_err() as usize] += !laid_out as usize;
    let proper = old.aimed == 1 || (old.aimed == 0 && old.target == 0);
    let aims = matches!(call, Call::Aim { .. } | Call::Stops { .. });
    if proper && !aims {
        assert_eq!((aimed, target), (old.aimed, old.target), "{call:?}");
    }

    let written = match call {
        Call::Set { .. } => &["live times"][..],
        Call::Aim { .. } => &["down totals", "estimates"],
        Call::Estimate { .. } => &["estimates"],
        Call::Go { .. } => &["estimates", "elapsed"],
        Call::Preview { .. } => &["estimates"],
        Call::Stops { .. } => &["down totals", "estimates", "elapsed"],
    };
    assert!(unit.card == before.card, "{call:?} alters the card");
    for ((name, area), (_, old)) in unit.areas().into_iter().zip(before.areas()) {
        assert!(written.contains(&name) || area == old, "{call:?} alters {name}");
    }

    let refusal = answer.map_or_else(|refusal| refusal.number() as usize, |_| 0);
    met.refusals[refusal] += 1;
    if matches!(call, Call::Preview { .. }) {
        met.previews.check(&before, call, answer);
        if refusal != 0 {
            assert!(lent == LentAreas::of(call), "{call:?}, refused, alters its work area");
            assert!(unit.estimates == before.estimates, "{call:?}, refused, alters estimates");
        }
    }
    if matches!(call, Call::Stops { .. }) {
        met.lists.check(&before, unit, call, &lent, answer);
    }
    if !aims {
        let kept = kept(&before.estimates, &unit.estimates, call);
        match (call, refusal) {
            (Call::Estimate { .. }, 0) => met.kept_by_estimates += kept,
            (Call::Go { .. }, 0 | 15) => {
                met.kept_by_goes += kept;
                met.groups.count(unit, &lent.log[..count_of(answer)]);
            }
            (Call::Preview { .. }, 0) => met.kept_by_previews += kept,
            _ => (),
        }
    }
    Made { answer, lent }
}

/// No filled estimate is altered. How many there are.
fn kept(before: &[Time], after: &[Time], call: Call) -> usize {
    let mut filled = 0;
    for (junction, (&old, &new)) in before.iter().zip(after).enumerate() {
        if old != UNASKED {
            assert_eq!(new, old, "{call:?} alters the estimate of junction {junction}");
            filled += 1;
        }
    }
    filled
}

/// A prepared and used unit with all as it is to be but for times: of each area of them some words, or all.
fn forge_times(random: &mut Random) -> Unit {
    let mut unit = used(random);
    for area in unit.areas_mut() {
        if let HeldMut::Times(area) = area {
            let percent = random.pick(&[0, 5, 30, 100]);
            for word in area.iter_mut() {
                if random.chance(percent) {
                    *word = forged_time(random);
                }
            }
        }
    }
    if random.chance(60) {
        unit.estimates.fill(UNASKED);
    }
    unit
}

/// What stood in the areas of times, and what was added up.
#[derive(Debug, Default)]
struct Forged {
    /// Words: marks, and those near 2^64, 2^63, 2^50, 2^38 and 2^32.
    words: [usize; 6],
    /// Of down totals, of estimates, of a candidate's times and of keys.
    sums: [Sums; 4],
    /// The end of a candidate's keys, and those that are not below it, and below.
    most: Time,
    keys: [usize; 2],
    /// Trips whose roads are summed up, and previews beside two goes, with a total and without.
    trips: usize,
    previews: [usize; 2],
}

/// Sums of two words below the marks.
#[derive(Clone, Copy, Debug, Default)]
struct Sums {
    /// Of 2^64 and more, which would wrap.
    wrapping: usize,
    /// The marks' words themselves.
    at_a_mark: usize,
    /// Those that fit, of 2^63, of 2^50, of 2^38 and of 2^32 and more, and the rest.
    fitting: [usize; 5],
}

impl Sums {
    /// The sum of two words as it is to be: none where it does not fit below the marks.
    fn sum(&mut self, a: Time, b: Time) -> Time {
        let sum = u128::from(a) + u128::from(b);
        let fits = sum < u128::from(UNASKED);
        if a < UNASKED && b < UNASKED {
            match sum >> 64 {
                0 if fits => {
                    let place = [63, 50, 38, 32, 0].iter().position(|&bits| sum >> bits > 0);
                    self.fitting[place.unwrap_or(4)] += 1;
                }
                0 => self.at_a_mark += 1,
                _ => self.wrapping += 1,
            }
        }
        if fits {
            sum as Time
        } else {
            NONE
        }
    }

    fn all(&self) -> Vec<usize> {
        [&[self.wrapping, self.at_a_mark][..], &self.fitting].concat()
    }
}

impl Forged {
    fn new() -> Forged {
        let source =
            Path::new(env!("CARGO_MANIFEST_DIR")).join("../crates/search_queue/src/lib.rt");
        let source = fs::read_to_string(source).expect("the queue's source");
        let (_, rest) = source.split_once("pub const SETTLED: u64 = ").expect("the end of keys");
        let (most, _) = rest.split_once(';').expect("a number");
        Forged { most: most.parse().expect("a number"), ..Forged::default() }
    }

    fn count_words(&mut self, unit: &Unit) {
        let near = |word: Time, bits: u32| word.abs_diff(1 << bits) < 100;
        for &word in [&unit.times, &unit.live, &unit.down, &unit.estimates]
            .into_iter()
            .flat_map(|area| area.iter())
        {
            self.words[0] += (word >= UNASKED) as usize;
            self.words[1] += (word < UNASKED && NONE - word < 100) as usize;
            for (met, bits) in self.words[2..].iter_mut().zip([63, 50, 38, 32]) {
                *met += near(word, bits) as usize;
            }
        }
    }

    /// The down totals of a target: each record in turn hands its lower junction's total on to its higher one.
    fn down_totals(&mut self, unit: &Unit, target: u32) -> Vec<Time> {
        let order = order_of(unit);
        let mut totals = vec![NONE; order.len()];
        totals[target as usize] = 0;
        for &(low, high, _, down) in &unit.records()[..unit.header.pairs as usize] {
            let rest = totals[order[low as usize]];
            if rest != NONE {
                let total = self.sums[0].sum(down, rest);
                let old = &mut totals[order[high as usize]];
                *old = total.min(*old);
            }
        }
        totals
    }

    /// The estimate of a junction, filled with those that it asks for: unasked, as a forged down total may be, is none.
    fn estimate(
        &mut self,
        unit: &Unit,
        order: &[usize],
        estimates: &mut [Time],
        at: usize,
    ) -> Time {
        if estimates[at] != UNASKED {
            return estimates[at];
        }
        let mut least = unit.down[at];
        for (low, high, up, _) in unit.records() {
            if low == unit.ranks[at] && high > low && up != NONE {
                let above = self.estimate(unit, order, estimates, order[high as usize]);
                least = self.sums[1].sum(up, above).min(least);
            }
        }
        estimates[at] = if least == UNASKED { NONE } else { least };
        estimates[at]
    }

    /// The log of a go, the times and the estimates that it leaves: by key, time and number, as ever, where a key that
    /// the queue has no room for is no candidate's.
    fn search(&mut self, unit: &Unit, class: u32, start: u32) -> (Vec<u32>, Vec<Time>, Vec<Time>) {
        let (n, order) = (unit.ranks.len(), order_of(unit));
        let (mut log, mut elapsed) = (Vec::new(), vec![NONE; n]);
        let mut estimates = unit.estimates.to_vec();
        let mut candidates: Vec<Option<(Time, Time)>> = vec![None; n];
        let mut offers = vec![(start as usize, 0)];
        loop {
            for (head, time) in offers.drain(..) {
                let ahead = self.estimate(unit, &order, &mut estimates, head);
                let key = self.sums[3].sum(time, ahead);
                let sooner = candidates[head].is_none_or(|(_, old)| time < old);
                if time != NONE && elapsed[head] == NONE && sooner {
                    self.keys[(key < self.most) as usize] += 1;
                    candidates[head] = (key < self.most).then_some((key, time));
                }
            }
            let waiting = (0..).zip(&candidates).filter_map(|(at, &keyed)| Some((keyed?, at)));
            let Some(((_, time), junction)) = waiting.min() else { break };
            (elapsed[junction as usize], candidates[junction as usize]) = (time, None);
            log.push(junction);
            if junction == unit.header.target {
                break;
            }
            for road in open_from(unit, class, junction) {
                let head = road_on(unit, road).expect("a road of the map")[1] as usize;
                offers.push((head, self.sums[2].sum(time, unit.live[road as usize])));
            }
        }
        (log, elapsed, estimates)
    }

    /// A go logs what it is to, its times are sums that fit, and its roads take its total.
    fn check_go(
        &mut self,
        before: &Unit,
        after: &Unit,
        call: Call,
        lent: &LentAreas,
        answer: Answer,
    ) {
        let Call::Go { class, start, .. } = call else { panic!("no go") };
        let (log, elapsed, estimates) = self.search(before, class, start);
        assert_eq!(lent.log[..count_of(answer)], log, "{call:?}");
        same("elapsed", &after.elapsed, &elapsed);
        same("estimates", &after.estimates, &estimates);
        let total = elapsed[before.header.target as usize];
        let Ok(Accepted::Trip(trip)) = answer else {
            assert_eq!(total, NONE, "{call:?}: {answer:?}");
            return;
        };
        let (mut at, mut sum) = (start, 0);
        for &road in &lent.route[..trip.roads as usize] {
            let mut roads = open_from(before, class, at);
            assert!(roads.any(|other| other == road), "{call:?}: road {road} from {at}");
            sum += u128::from(before.live[road as usize]);
            at = road_on(before, road).expect("a road of the map")[1];
        }
        assert_eq!((at, sum), (before.header.target, trip.total.into()), "{call:?}");
        assert_eq!(trip.total, total, "{call:?}");
        self.trips += 1;
    }

    /// A preview beside two goes, the second at that time.
    fn check_preview(&mut self, before: &Unit, after: &Unit, call: Call, answer: Answer) {
        let Call::Preview { class, road, time, start, .. } = call else { panic!("no preview") };
        let Ok(Accepted::Previewed(Previewed { present, new, .. })) = answer else { return };
        let mut unit = before.clone();
        let n = unit.header.n as usize;
        let total = |unit: &mut Unit| {
            let trip = unit.go(class, start, &mut vec![0; n], &mut vec![0; n]).ok()?;
            Some(trip.total).filter(|&total| total < 1 << 63)
        };
        let now = total(&mut unit);
        unit.live[road as usize] = time;
        let then = total(&mut unit);
        assert_eq!((present, new), (now, then), "{call:?}: a preview (left), two goes (right)");
        assert!(unit.estimates == after.estimates, "{call:?}: other estimates than by two goes");
        self.previews[now.is_none() as usize] += 1;
    }

    /// Makes a call, and compares what it answers and leaves.
    fn call(&mut self, unit: &mut Unit, call: Call, met: &mut Met) {
        let before = unit.clone();
        let Made { answer, lent } = free_call(unit, call, met);
        match (call, answer) {
            (Call::Aim { junction }, Ok(_)) => {
                let totals = self.down_totals(&before, junction);
                same("down totals", &unit.down, &totals);
            }
            (Call::Estimate { junction }, Ok(answer)) => {
                let (order, mut estimates) = (order_of(&before), before.estimates.to_vec());
                let want = self.estimate(&before, &order, &mut estimates, junction as usize);
                assert_eq!(answer, Accepted::Estimate(want), "{call:?}");
                same("estimates", &unit.estimates, &estimates);
            }
            (Call::Go { .. }, Ok(_) | Err(Refusal::NoPath(_))) => {
                self.check_go(&before, unit, call, &lent, answer);
            }
            (Call::Preview { .. }, _) => self.check_preview(&before, unit, call, answer),
            _ => (),
        }
    }
}

/// The roads of a junction's group that are open for a class.
fn open_from(unit: &Unit, class: u32, junction: u32) -> impl Iterator<Item = u32> + '_ {
    let [a, b] = [0, 1].map(|next| unit.groups[junction as usize + next] as usize);
    unit.leaving[a..b].iter().copied().filter(move |&road| {
        let access = body(&unit.card, 2).get(road as usize);
        access.is_none_or(|byte| byte >> class & 1 == 1) && unit.live[road as usize] != CLOSED
    })
}

/// The junctions by rank.
fn order_of(unit: &Unit) -> Vec<usize> {
    let mut order = vec![0; unit.ranks.len()];
    for (junction, &rank) in unit.ranks.iter().enumerate() {
        order[rank as usize] = junction;
    }
    order
}

/// Makes calls on one unit after another.
fn free_calls(seed: usize, calls: usize, make: impl Fn(&mut Random) -> Unit) -> Met {
    let mut random = Random::new((setting("CALLS_SEED", 0) + seed) as u64);
    let mut met = Met::default();
    while met.refusals.iter().sum::<usize>() < calls {
        let mut unit = make(&mut random);
        for _ in 0..=random.below(12) {
            let call = call(&mut random, &unit);
            free_call(&mut unit, call, &mut met);
        }
    }
    met
}

#[test]
fn noise_in_every_area() {
    with_stack(|| {
        let calls = setting("CALLS_LENGTH", 80_000);
        let met = free_calls(1, calls, forge);
        let [accepted, no_junction, no_path] = [0, 12, 15].map(|number| met.refusals[number]);
        let enough = accepted > calls / 4 && no_junction > calls / 20 && no_path > calls / 100;
        let kept = [met.kept_by_estimates, met.kept_by_goes, met.kept_by_previews];
        assert!(enough && kept.iter().all(|&kept| kept > 4 * calls), "{met:?}");
        met.groups.at_least(calls / 500);
        let Previews { refusals, changes, absent } = met.previews;
        let refused = [9, 10, 11, 12, 13, 18].map(|number| refusals[number]);
        assert!(
            refusals[0] > calls / 50
                && refused.iter().all(|&met| met > calls / 500)
                && changes[1] > calls / 1_000
                && absent[2] > calls / 100,
            "{met:?}"
        );
        let Lists { refusals, lost, found } = met.lists;
        let refused = [12, 14, 16, 18].map(|number| refusals[number]);
        let met_each = refused.iter().all(|&met| met > calls / 200);
        let made = [lost[0] / 100, lost[1], found[0]];
        assert!(met_each && made.iter().all(|&met| met > calls / 2_000), "{met:?}");
    });
}

#[test]
fn damaged_states() {
    with_stack(|| {
        let calls = setting("CALLS_LENGTH", 60_000);
        let met = free_calls(2, calls, damage);
        let enough = met.refusals[0] > calls / 3 && met.refusals[15] > calls / 50;
        let kept = [met.kept_by_estimates, met.kept_by_goes, met.kept_by_previews];
        assert!(enough && kept.iter().all(|&kept| kept > calls), "{met:?}");
        let Previews { refusals, changes, absent } = met.previews;
        let met_each = changes.iter().chain(&absent).all(|&met| met > calls / 5_000);
        assert!(refusals[0] > calls / 20 && met_each, "{met:?}");
        let Lists { refusals, lost, found } = met.lists;
        let met_each = found.iter().chain(&lost).all(|&met| met > calls / 200);
        assert!(refusals[0] > calls / 50 && met_each, "{met:?}");
    });
}

/// Areas that are lent to a script on a unit: of any words, mostly with room for each of its calls.
fn any_lent(random: &mut Random, n: usize) -> LentAreas {
    let [mut route, mut log] = [3 * n + random.below(5), n + random.below(3)].map(Area::<u32>::new);
    for word in route.iter_mut().chain(log.iter_mut()) {
        *word = random.word();
    }
    let mut work = Area::new(2 * n + random.pick(&[0, 0, 0, 0, 0, 1, n]));
    for word in work.iter_mut() {
        *word = random.bits();
    }
    LentAreas { route, log, work }
}

/// A script on such a state, with room for some of its answers or for more than it has: it is the same calls one by one,
/// from any header and areas. Ranks, pairs, their times, the roads by tail and the card are as they were; so is what
/// stands beside and behind what is written of out, route and log. The answers' numbers, by the call.
fn free_script(random: &mut Random, unit: &mut Unit, met: &mut [[usize; Refusal::NUMBERS]; 6]) {
    let n = unit.header.n as usize;
    let mut lent = any_lent(random, n);
    let calls: Vec<Call> = (0..random.below(12)).map(|_| call(random, unit)).collect();
    let mut out: Area<u64> = Area::new(random.below(ANSWER_WORDS * (calls.len() + 2)));

    let (before, mut single, mut one_by_one) = (unit.clone(), unit.clone(), lent.clone());
    let mut want: Area<u64> = Area::new(out.len());
    single.header = handed(single.header);
    let mut previewed = false;
    for (&call, words) in calls.iter().zip(want.chunks_exact_mut(ANSWER_WORDS)) {
        let call = lent.made(call);
        let answer = single.call(call, one_by_one.lend_to(call));
        words.copy_from_slice(&answer_words(answer));
        met[which(call)][answer.map_or_else(|refusal| refusal.number() as usize, |_| 0)] += 1;
        previewed |= matches!(answer, Ok(Accepted::Previewed(_)));
    }

    unit.replay(lent.lend(), &spelled(&calls), &mut out);
    assert!(unit.guarded() && lent.guarded() && out.guarded(), "{calls:?} alter guard words");
    assert!(unit.card == before.card, "{calls:?} alter the card");
    for ((name, area), (_, old)) in unit.areas().into_iter().zip(before.areas()) {
        let written = ["live times", "down totals", "estimates", "elapsed"].contains(&name);
        assert!(written || area == old, "{calls:?} alter {name}");
    }
    same("out", &out, &want);
    assert!(*unit == single, "{calls:?} leave another unit than one by one");
    assert!(lent.route == one_by_one.route && lent.log == one_by_one.log, "{calls:?}");
    assert!(previewed || lent.work == one_by_one.work, "{calls:?}, without a preview");
}

/// Scripts on noise, on damaged states and on such whose times alone are forged.
#[test]
fn scripts() {
    with_stack(|| {
        let mut random = Random::new((setting("CALLS_SEED", 0) + 9) as u64);
        let mut met = [[0; Refusal::NUMBERS]; 6];
        let calls = setting("CALLS_LENGTH", 30_000);
        while met.as_flattened().iter().sum::<usize>() < calls {
            let make = random.pick(&[forge, damage, damage_table, damage_groups, forge_times]);
            let mut unit = make(&mut random);
            for _ in 0..1 + random.below(3) {
                free_script(&mut random, &mut unit, &mut met);
            }
        }
        // Accepted, refused by 9, and by a question of the call's own.
        for (of_call, own) in met.iter().zip([11, 12, 12, 15, 18, 17]) {
            let enough = [0, 9, own].iter().all(|&number| of_call[number] > calls / 1_000);
            assert!(enough, "{met:?}");
        }
    });
}

/// All is as it is to be, but for times: no sum wraps, and none of a mark is a time.
#[test]
fn forged_times() {
    with_stack(|| {
        let calls = setting("CALLS_LENGTH", 60_000);
        let mut random = Random::new((setting("CALLS_SEED", 0) + 5) as u64);
        let (mut met, mut forged) = (Met::default(), Forged::new());
        while met.refusals.iter().sum::<usize>() < calls {
            let mut unit = forge_times(&mut random);
            forged.count_words(&unit);
            for _ in 0..=random.below(6) {
                let call = call(&mut random, &unit);
                forged.call(&mut unit, call, &mut met);
            }
        }
        assert!(met.refusals[0] > calls / 3 && met.refusals[15] > calls / 50, "{met:?}");
        assert!(forged.words.iter().all(|&met| met > calls), "{forged:?}");
        let Forged { sums, keys, trips, previews, .. } = &forged;
        let enough = |sums: &Sums, least| sums.all().iter().all(|&met| met > least);
        assert!(sums.iter().all(|sums| enough(sums, calls / 5_000)), "{forged:?}");
        let wrapping = sums.map(|sums| sums.wrapping);
        assert!(wrapping.iter().all(|&met| met > calls / 60), "{forged:?}");
        assert!(keys.iter().all(|&met| met > calls / 10), "{forged:?}");
        assert!(
            *trips > calls / 100 && previews.iter().all(|&met| met > calls / 200),
            "{forged:?}"
        );
    });
}

/// A whole map's times just below what a search's words have room for, and just past it: with times of 2^38 and more no
/// junction but the start is logged, or what is logged has its sums.
#[test]
fn times_at_the_end_of_a_word() {
    with_stack(|| {
        let map = maps::line(40);
        let (n, m) = (map.n(), map.m());
        let mut prepared =
            Unit::new(&map.card().expect("a map in range"), n, m, order::pairs(&map));
        prepared.prepare().expect("room for the pairs");
        prepared.aim(n as u32 - 1).expect("a junction");
        let (mut met, mut forged) = (Met::default(), Forged::new());
        for bits in [31, 32, 36, 37, 38, 39, 49, 50, 51, 62, 63] {
            for by in [-2_i64, -1, 0, 1, 2] {
                let time = (1_u64 << bits).wrapping_add_signed(by);
                for (live, estimates) in [(time, 0), (time, time), (time / 40, 7), (LONGEST, time)]
                {
                    let mut unit = prepared.clone();
                    unit.live.fill(live);
                    unit.estimates.fill(estimates);
                    for call in [
                        Call::Go { class: 0, start: 0, route: n, log: n },
                        Call::Preview { class: 0, road: 3, time: CLOSED, start: 0, work: 2 * n },
                        Call::Stops {
                            class: 0,
                            stops: StopList::of(&[0, 39, 0]),
                            route: 3 * n,
                            log: n,
                        },
                    ] {
                        forged.call(&mut unit, call, &mut met);
                    }
                }
            }
        }
        assert!(
            met.refusals[0] > 100 && met.refusals[15] > 50 && forged.trips > 50,
            "{met:?}, {forged:?}"
        );
    });
}

/// All is as it is to be, but for one word of the roads by tail or of where their groups start.
#[test]
fn damaged_groups() {
    with_stack(|| {
        let calls = setting("CALLS_LENGTH", 60_000);
        let met = free_calls(3, calls, damage_groups);
        let enough = met.refusals[0] > calls / 3 && met.refusals[15] > calls / 50;
        assert!(enough, "{met:?}");
        met.groups.at_least(calls / 500);
    });
}

/// All is as it is to be, but for the card's table or its length, on the card or in the header.
#[test]
fn damaged_tables() {
    with_stack(|| {
        let calls = setting("CALLS_LENGTH", 60_000);
        let met = free_calls(4, calls, damage_table);
        assert!(met.unnamed.iter().all(|&met| met > calls / 50), "{met:?}");
        let [found, refused] = met.elsewhere;
        assert!(found > calls / 50 && refused > calls / 50, "{met:?}");
        assert!(met.refusals[0] > calls / 20 && met.refusals[15] > calls / 500, "{met:?}");
    });
}

/// Map P's card, with a byte for each road and without, and each word of its table made each of many. Where it names
/// no bodies of 60, 16 and 5 bytes inside the card, every call is refused by 9; else it is refused as ever, or made.
#[test]
fn each_word_of_the_table() {
    let mut met = Met::default();
    let (mut cards, mut unnamed) = (0, 0);
    for map in [maps::map_p(), maps::map_p_with_classes()] {
        let card = map.card().expect("a map in range");
        let mut prepared = Unit::new(&card, 4, 5, 5);
        prepared.prepare().expect("room for the pairs");
        prepared.aim(3).expect("a junction");
        let len = card.len() as u32;
        for place in 0..card::table_len(if map.admits_all() { 2 } else { 3 }) / 4 {
            let near = [1 << 31, u32::MAX, u32::MAX - 28, 65_536 + len];
            for word in (0..=len + 2).chain(near) {
                let mut unit = prepared.clone();
                put(&mut unit.card, place, word);
                cards += 1;
                unnamed += !named(&unit) as usize;
                for call in [
                    Call::Set { road: 1, time: 60 },
                    Call::Aim { junction: 0 },
                    Call::Estimate { junction: 0 },
                    Call::Go { class: 0, start: 0, route: 4, log: 4 },
                    Call::Go { class: 8, start: 0, route: 4, log: 4 },
                    Call::Preview { class: 1, road: 1, time: CLOSED, start: 0, work: 8 },
                    Call::Stops { class: 1, stops: StopList::of(&[0, 3, 0]), route: 12, log: 4 },
                ] {
                    free_call(&mut unit, call, &mut met);
                }
            }
        }
    }
    assert!(met.unnamed.iter().all(|&met| met > 500) && met.refusals[0] > 1_000, "{met:?}");
    assert!(cards > 1_500 && unnamed > 500 && cards - unnamed > 500, "{cards}, {unnamed}");
}

/// The smallest cards, of a junction and no road: a body without bytes must be named, too, or have no entry at all.
#[test]
fn each_word_of_the_smallest_tables() {
    let mut met = Met::default();
    let (mut cards, mut unnamed, mut beyond) = (0, 0, 0);
    for sections in [2, 3] {
        let card = [
            &[sections, 1, 4 + 12 * sections, 0, 2, 4 + 12 * sections, 4][..],
            &[3, 8 + 12 * sections, 0][..if sections == 3 { 3 } else { 0 }],
            &[0][..],
        ];
        let card: Vec<u8> =
            card.concat().iter().flat_map(|word: &u32| word.to_le_bytes()).collect();
        let mut prepared = Unit::new(&card, 1, 0, 0);
        prepared.prepare().expect("no pairs");
        prepared.aim(0).expect("a junction");
        for place in 0..1 + 3 * sections as usize {
            for word in (0..=card.len() as u32 + 2).chain([1 << 31, u32::MAX]) {
                let mut unit = prepared.clone();
                put(&mut unit.card, place, word);
                cards += 1;
                unnamed += !named(&unit) as usize;
                beyond += (place == 3 && word > card.len() as u32) as usize;
                for call in [
                    Call::Set { road: 0, time: 60 },
                    Call::Aim { junction: 0 },
                    Call::Estimate { junction: 0 },
                    Call::Go { class: 0, start: 0, route: 1, log: 1 },
                    Call::Preview { class: 0, road: 0, time: 60, start: 0, work: 2 },
                    Call::Stops { class: 0, stops: StopList::of(&[0, 0]), route: 2, log: 1 },
                ] {
                    free_call(&mut unit, call, &mut met);
                }
            }
        }
    }
    assert!(
        cards > 500 && unnamed > 150 && cards - unnamed > 100 && beyond > 5,
        "{cards}, {unnamed}, {beyond}"
    );
}

/// Every other junction's group is all roads, and those between end before they start. No road to the target is
/// open, so each junction that has an estimate is gone on from.
#[test]
fn all_roads_from_every_other_junction() {
    with_stack(|| {
        let map = maps::largest_town(&mut Random::new(5));
        let (n, m) = (map.n(), map.m());
        let card = map.card().expect("a map in range");
        let mut unit = Unit::new(&card, n, m, order::pairs(&map));
        unit.prepare().expect("room for the pairs");
        unit.aim(0).expect("a junction");
        for (road, _) in (0..).zip(&map.roads).filter(|(_, road)| road.head == 0) {
            unit.set(road, CLOSED).expect("a road");
        }
        let mut met = Met::default();
        for even in [0, m as u32] {
            for (junction, start) in unit.groups.iter_mut().enumerate() {
                *start = if junction % 2 == 0 { even } else { m as u32 - even };
            }
            for start in [1, 2] {
                free_call(&mut unit, Call::Go { class: 0, start, route: n, log: n }, &mut met);
                let preview = Call::Preview { class: 0, road: 0, time: CLOSED, start, work: 2 * n };
                free_call(&mut unit, preview, &mut met);
                let stops = StopList::of(&[start, 0, start]);
                free_call(
                    &mut unit,
                    Call::Stops { class: 0, stops, route: 3 * n, log: n },
                    &mut met,
                );
            }
        }
        assert!(met.groups.crossed > 1_000 && met.groups.stray > 10_000_000, "{met:?}");
    });
}

/// Two records up from each rank, whose walks would be doubled at each if an estimate that comes out as
/// the mark unasked were asked again.
#[test]
fn no_entry_is_asked_twice() {
    with_stack(|| {
        let n = MOST_JUNCTIONS;
        let map = maps::line(n);
        let mut unit = Unit::new(&map.card().expect("a map in range"), n, map.m(), 2 * n);
        unit.prepare().expect("room for the pairs");
        unit.aim(0).expect("a junction");
        for (i, ranks) in unit.pairs.as_chunks_mut().0.iter_mut().enumerate() {
            *ranks = [i as u32 / 2, i as u32 / 2 + 1 + i as u32 % 2];
        }
        unit.times.as_chunks_mut().0.fill([0, NONE]);
        unit.header.pairs = 2 * n as u32;
        let mut met = Met::default();
        for estimate in [UNASKED, UNASKED - 1, NONE] {
            unit.down.fill(estimate);
            unit.estimates.fill(UNASKED);
            free_call(&mut unit, Call::Estimate { junction: 0 }, &mut met);
            unit.estimates.fill(UNASKED);
            free_call(&mut unit, Call::Go { class: 0, start: 0, route: n, log: n }, &mut met);
            unit.estimates.fill(UNASKED);
            let preview = Call::Preview { class: 0, road: 0, time: CLOSED, start: 0, work: 2 * n };
            free_call(&mut unit, preview, &mut met);
            let stops = StopList::of(&[0, n as u32 - 1, 0]);
            free_call(&mut unit, Call::Stops { class: 0, stops, route: 3 * n, log: n }, &mut met);
        }
    });
}

/// Numbers of a header of any size: where the lengths do not fit, 9, and nothing is altered. Products of
/// some of them wrap in 32 bits to lengths that fit.
#[test]
fn headers_of_any_size() {
    let mut random = Random::new(3);
    let map = maps::town(&mut random, 10, 20, Streets::USUAL);
    let room = order::pairs(&map) + 10;
    let mut prepared = Unit::new(&map.card().expect("a map in range"), map.n(), map.m(), room);
    prepared.prepare().expect("room for the pairs");
    prepared.aim(7).expect("a junction");
    let right = prepared.header;
    let (mut refusals, mut by_card) = (0, 0);
    let mut met = Met::default();
    for i in 0..20_000 {
        let mut other = |old: u32| {
            let word = random.word();
            random.pick(&[
                old,
                old,
                old,
                old + 1,
                old.wrapping_sub(1),
                old + (1 << 30),
                old + (1 << 31),
                0,
                4_097,
                16_385,
                65_537,
                1 << 30,
                u32::MAX,
                word,
            ])
        };
        let header = match i % 3 {
            0 => Header { pairs: other(right.pairs), ..right },
            1 => Header { card: other(right.card), ..right },
            _ => {
                Header { n: other(right.n), m: other(right.m), pairs: other(right.pairs), ..right }
            }
        };
        let fits = (header.n, header.m, header.card) == (right.n, right.m, right.card)
            && header.pairs as usize <= room;
        by_card += (header.card != right.card) as usize;
        let mut unit = Unit { header, ..prepared.clone() };
        let n = map.n();
        for call in [
            Call::Set { road: 0, time: CLOSED },
            Call::Aim { junction: 0 },
            Call::Estimate { junction: 0 },
            Call::Go { class: 0, start: 0, route: n, log: n },
            Call::Preview { class: 0, road: 0, time: CLOSED, start: 0, work: 2 * n },
            // With the length that the header calls for.
            Call::Preview {
                class: 0,
                road: 0,
                time: CLOSED,
                start: 0,
                work: 2 * header.n.min(9_999) as usize,
            },
            Call::Stops { class: 0, stops: StopList::of(&[0, 7, 0]), route: 3 * n, log: n },
            Call::Stops { class: 0, stops: StopList::of(&[u32::MAX]), route: 0, log: 0 },
        ] {
            if fits {
                free_call(&mut unit, call, &mut met);
                continue;
            }
            let mut lent = LentAreas::of(call);
            let answer = unit.call(call, lent.lend());
            assert_eq!(answer.err(), Some(Refusal::Lengths), "{header:?}");
            assert!(lent == LentAreas::of(call), "{header:?}: a lent area is altered");
            refusals += 1;
        }
        if !fits {
            assert!(unit == Unit { header, ..prepared.clone() }, "{header:?}: altered");
        }
    }
    assert!(refusals > 20_000 && by_card > 4_000, "{refusals} refusals, {by_card} headers");
}

/// More junctions, roads or pairs than a unit takes, with a card and areas of just the lengths that the header
/// calls for: 9, and nothing is altered.
#[test]
fn headers_out_of_range() {
    let mut random = Random::new(4);
    let most = [MOST_JUNCTIONS, MOST_ROADS, MOST_PAIRS];
    let mut refused = [0; 3];
    for i in 0..90 {
        let which = i % 3;
        let mut sizes = most.map(|most| size(&mut random, most));
        sizes[which] = most[which] + 1 + random.pick(&[0, 0, 1, 255, 4_096]);
        let [n, m, room] = sizes;
        let card = any_card(&mut random, n, m);
        let mut unit = forge_on(&mut random, &card, [n, m], room);
        assert!(named(&unit), "{:?}", unit.header);
        let header = Header { pairs: room as u32, ..unit.header };
        let [aimed, target] = random.pick(&[[0, 0], [1, 0], [1, n as u32]]);
        unit.header = Header { aimed, target, ..header };
        let before = unit.clone();
        for _ in 0..10 {
            let call = call(&mut random, &unit);
            let mut lent = LentAreas::of(call);
            let answer = unit.call(call, lent.lend());
            assert_eq!(answer.err(), Some(Refusal::Lengths), "{call:?}, {:?}", unit.header);
            assert!(unit == before, "{call:?} alters the unit");
            assert!(lent == LentAreas::of(call), "{call:?} alters a lent area");
            refused[which] += 1;
        }
    }
    assert_eq!(refused, [300; 3]);
}

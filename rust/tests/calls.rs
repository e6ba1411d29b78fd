//! Lists of random calls on the proved unit, beside the plain machine of documents 01 and 02 and the plain router.
//!
//! With another seed and as many calls as you like, from the repository's root:
//!
//! ```text
//! CALLS_SEED=7 CALLS_LENGTH=1000000 CALLS_SECONDS=3600 cargo test --release --offline --manifest-path rust/Cargo.toml --target-dir target/cargo --test calls --test forged
//! ```

use harness::both::{with_stack, Both};
use harness::by_tail::Listed;
use harness::calls::{
    Accepted, Answer, Call, Calls, Previewed, Refusal, StopList, Stopped, CLASSES, MOST_STOPS,
};
use harness::card::{EVERY_CLASS, LONGEST, MOST_JUNCTIONS, MOST_ROADS};
use harness::machine::Machine;
use harness::maps::{self, Map, Streets};
use harness::order::{self, MOST_PAIRS};
use harness::random::{setting, Random};
use harness::time::{Time, CLOSED, NONE, UNASKED};
use harness::unit::{
    answer_words, spelled, Area, Header, LentAreas, Unit, ANSWER_WORDS, AREAS, RECORD,
};
use std::thread;

/// How often each call was answered with each number, 0 for accepted, and estimates with none.
#[derive(Debug, Default)]
struct Tally {
    set: [usize; Refusal::NUMBERS],
    aim: [usize; Refusal::NUMBERS],
    estimate: [usize; Refusal::NUMBERS],
    go: [usize; Refusal::NUMBERS],
    preview: [usize; Refusal::NUMBERS],
    stops: [usize; Refusal::NUMBERS],
    none: usize,
    previews: Previews,
    classes: Classes,
    /// How often each area had a wrong length, both of the pairs' areas the same one, and at last the card.
    lengths: [usize; AREAS + 2],
    /// Estimates, goes, previews and lists of stops that are answered with a total of 2^32 and more.
    past_32_bits: [usize; 4],
    /// The roads by tail, which are compared after every call.
    listed: Listed,
}

impl Tally {
    fn count(&mut self, call: Call, answer: Answer) {
        let met = match call {
            Call::Set { .. } => &mut self.set,
            Call::Aim { .. } => &mut self.aim,
            Call::Estimate { .. } => &mut self.estimate,
            Call::Go { .. } => &mut self.go,
            Call::Preview { .. } => &mut self.preview,
            Call::Stops { .. } => &mut self.stops,
        };
        met[answer.map_or_else(|refusal| refusal.number() as usize, |_| 0)] += 1;
        self.none += (answer == Ok(Accepted::Estimate(NONE))) as usize;
        self.previews.count(answer);
        let past = |total: Time| total >> 32 > 0 && total != NONE;
        match answer {
            Ok(Accepted::Estimate(time)) => self.past_32_bits[0] += past(time) as usize,
            Ok(Accepted::Trip(trip)) => self.past_32_bits[1] += past(trip.total) as usize,
            Ok(Accepted::Previewed(Previewed { present, new, .. })) => {
                self.past_32_bits[2] += [present, new].into_iter().flatten().any(past) as usize;
            }
            Ok(Accepted::Stopped(stopped)) => {
                self.past_32_bits[3] += stopped.totals.into_iter().any(past) as usize;
            }
            _ => (),
        }
    }

    fn calls(&self) -> usize {
        let all = [self.set, self.aim, self.estimate, self.go, self.preview, self.stops];
        all.iter().flatten().sum()
    }

    /// Each answer that a call can have was met at least so often.
    fn at_least(&self, least: usize) {
        let met = |met: &[usize; Refusal::NUMBERS], numbers: &[usize]| {
            numbers.iter().all(|&i| met[i] >= least)
        };
        assert!(
            met(&self.set, &[0, 9, 10, 11])
                && met(&self.aim, &[0, 9, 12])
                && met(&self.estimate, &[0, 9, 12, 13])
                && met(&self.go, &[0, 9, 12, 13, 14, 15, 18])
                && met(&self.preview, &[0, 9, 10, 11, 12, 13, 18])
                && met(&self.stops, &[0, 9, 12, 14, 16, 17, 18])
                && self.none >= least
                && self.lengths.iter().all(|&met| met >= least),
            "too few of one kind: {self:?}"
        );
    }
}

/// How often a preview had each outcome.
#[derive(Debug, Default)]
struct Previews {
    less: usize,
    as_much: usize,
    more: usize,
    /// No chain now, with the time set, and either way.
    opened: usize,
    closed: usize,
    neither: usize,
}

impl Previews {
    fn count(&mut self, answer: Answer) {
        let Ok(Accepted::Previewed(Previewed { present, new, change })) = answer else { return };
        *match (present, new) {
            (Some(_), Some(_)) => match change.expect("a change where both totals exist") {
                ..0 => &mut self.less,
                0 => &mut self.as_much,
                1.. => &mut self.more,
            },
            (None, Some(_)) => &mut self.opened,
            (Some(_), None) => &mut self.closed,
            (None, None) => &mut self.neither,
        } += 1;
    }

    fn all(&self) -> [usize; 6] {
        let Previews { less, as_much, more, opened, closed, neither } = *self;
        [less, as_much, more, opened, closed, neither]
    }
}

/// How often classes were met.
#[derive(Debug, Default)]
struct Classes {
    /// Calls by class, below 8.
    calls: [usize; CLASSES as usize],
    /// Goes, previews and lists of stops, with a class that some road bars, that are answered otherwise than if
    /// every road let every class in.
    told: [usize; 3],
    /// Maps where every class passes, on cards without bytes and with them; and others.
    maps: [usize; 3],
}

impl Classes {
    fn count(&mut self, call: Call, otherwise: bool) {
        let (which, class) = match call {
            Call::Go { class, .. } => (0, class),
            Call::Preview { class, .. } => (1, class),
            Call::Stops { class, .. } => (2, class),
            _ => return,
        };
        if let Some(met) = self.calls.get_mut(class as usize) {
            *met += 1;
        }
        self.told[which] += otherwise as usize;
    }

    fn all(&self) -> Vec<usize> {
        [&self.calls[..], &self.told, &self.maps].concat()
    }
}

/// The map with every road open to every class.
fn opened(map: &Map) -> Map {
    let mut map = map.clone();
    map.roads.iter_mut().for_each(|road| road.access = EVERY_CLASS);
    map
}

/// A class below 8, or now and then one that is not.
fn class(random: &mut Random) -> u32 {
    match random.below(24) {
        0 => random.pick(&[8, 9, 16, 255, 256, 1 << 31, u32::MAX - 7, u32::MAX]),
        1..12 => 0,
        _ => random.below(CLASSES as usize) as u32,
    }
}

/// A number below `n`, or now and then one that is not.
fn number(random: &mut Random, n: usize) -> u32 {
    if n == 0 || random.chance(4) {
        let n = n as u32;
        let word = random.word();
        return random.pick(&[n, n + 1, n + 256, n + 65_536, u32::MAX, u32::MAX - 1, word]).max(n);
    }
    random.below(n) as u32
}

/// A time for a road: often an allowed one.
fn time(random: &mut Random, base: Time) -> Time {
    match random.below(20) {
        0 => base - 1,
        1 => random.pick(&[0, 1, LONGEST + 1, UNASKED, CLOSED - 2, 1 << 31]),
        // With an allowed time, or with the lower half of closed, in its lowest 32 bits.
        2 => random.pick(&[(1 << 32) - 1, (1 << 32) + base, CLOSED - (1 << 32), CLOSED << 32]),
        3 => random.bits(),
        4 => LONGEST,
        5..9 => CLOSED,
        9..13 => base,
        _ => LONGEST.min(base + random.within(0..=base)),
    }
}

/// A length for an area that is to have at least n entries.
fn lent(random: &mut Random, n: usize) -> usize {
    match random.below(40) {
        0 => n - 1,
        1 => random.below(n),
        2..10 => n + random.below(40),
        _ => n,
    }
}

/// A length for a work area, which is to have just 2n entries.
fn work(random: &mut Random, n: usize) -> usize {
    match random.below(30) {
        0 => random.pick(&[0, 1, n, 2 * n - 1, 2 * n + 1, 3 * n + 1, 4 * n]),
        1 => random.below(4 * n),
        _ => 2 * n,
    }
}

/// A list of stops: mostly few, since each is a search, and now and then too few or too many.
fn stops(random: &mut Random, n: usize) -> Call {
    let count = match random.below(60) {
        0 => random.pick(&[0, 1, MOST_STOPS + 1, StopList::MOST]),
        1 => MOST_STOPS,
        2 => 2 + random.below(MOST_STOPS - 1),
        _ => 2 + random.below(3),
    };
    let mut stops: Vec<u32> = (0..count).map(|_| random.below(n) as u32).collect();
    if let Some(last) = stops.last_mut() {
        *last = number(random, n);
    }
    let (more, less) = (random.below(8) * random.below(8), random.below(20) / 19);
    let route = (count * n + more).saturating_sub(less * (more + 1));
    let class = class(random);
    Call::Stops { class, stops: StopList::of(&stops), route, log: lent(random, n) }
}

/// A road, and a time for it. Where a junction is given, often one that leaves it.
fn change(random: &mut Random, map: &Map, near: Option<u32>) -> (u32, Time) {
    let leaves = |road: &u32| Some(map.roads[*road as usize].tail) == near;
    let roads: Vec<u32> = (0..map.m() as u32).filter(leaves).collect();
    let road = match roads.is_empty() || random.chance(30) {
        true => number(random, map.m()),
        false => random.pick(&roads),
    };
    let base = map.roads.get(road as usize).map_or(1, |road| road.base);
    (road, time(random, base))
}

fn random_call(random: &mut Random, map: &Map) -> Call {
    let n = map.n();
    match random.below(106) {
        0..35 => {
            let (road, time) = change(random, map, None);
            Call::Set { road, time }
        }
        35..45 => Call::Aim { junction: number(random, n) },
        45..60 => Call::Estimate { junction: number(random, n) },
        60..80 => {
            let (class, start) = (class(random), number(random, n));
            Call::Go { class, start, route: lent(random, n), log: lent(random, n) }
        }
        100.. => stops(random, n),
        _ => {
            let start = number(random, n);
            let (road, time) = change(random, map, Some(start));
            Call::Preview { class: class(random), road, time, start, work: work(random, n) }
        }
    }
}

/// Another length for one of the unit's areas, for both of the pairs' areas, or for the card. Which of them.
fn wrong_length(random: &mut Random, unit: &mut Unit) -> usize {
    let which = random.below(AREAS + 2);
    match which {
        ..AREAS => {
            let area = &mut unit.areas_mut()[which];
            let len = area.len();
            area.resize(match len > 0 && random.chance(50) {
                true => random.pick(&[0, len / 2, len - 1]),
                false => random.pick(&[len + 1, len + 2, len + 4, 2 * len + 1]),
            });
        }
        AREAS => {
            let (len, most) = (unit.pairs.len(), RECORD * MOST_PAIRS);
            let least = RECORD * unit.header.pairs as usize;
            let other = match least > 0 && random.chance(50) {
                true => random.pick(&[0, least - 2, least - 1]),
                false => random.pick(&[len + 1, len + 3, most + 1, most + 2]),
            };
            unit.pairs.resize(other);
            unit.times.resize(other);
        }
        _ => {
            let len = unit.card.len();
            let other = random.pick(&[0, 28, len - 4, len - 1, len + 1, len + 4, 2 * len]);
            unit.card.resize(if other == len { len + 12 } else { other }, 0);
        }
    }
    which
}

/// Question 9: the call is refused, and nothing is altered.
fn refused_lengths(unit: &mut Unit, call: Call) -> Answer {
    let before = unit.clone();
    let mut lent = LentAreas::of(call);
    let answer = unit.call(call, lent.lend());
    assert_eq!(answer, Err(Refusal::Lengths), "{call:?}");
    assert!(*unit == before, "{call:?} with wrong lengths alters the unit");
    assert!(lent == LentAreas::of(call), "{call:?} with wrong lengths alters a lent area");
    answer
}

/// Prepares a map and makes a list of calls. Every answer, route and log is the machine's; the header
/// and every area after every call, the plain router's. Some calls get a card or an area of a wrong
/// length, some lists begin anew on the areas as they are.
fn run_list(random: &mut Random, map: &Map, calls: usize, tally: &mut Tally) {
    let pairs = order::pairs(map);
    let room = random.pick(&[pairs, pairs + 1, pairs + 100, MOST_PAIRS]).min(MOST_PAIRS);
    let with_access = random.chance(30);
    let mut both = match with_access {
        true => Both::prepare_with_access(map, room),
        false => Both::prepare(map, room),
    }
    .unwrap();
    let mut machine = Machine::new(map);
    let open = opened(map);
    tally.listed.count(map);
    tally.classes.maps[if open == *map { with_access as usize } else { 2 }] += 1;
    for _ in 0..calls {
        let call = random_call(random, map);
        if random.chance(3) {
            let mut unit = both.unit.clone();
            tally.lengths[wrong_length(random, &mut unit)] += 1;
            tally.count(call, refused_lengths(&mut unit, call));
            continue;
        }
        if random.below(400) == 0 {
            both = Both::prepare_on(both.unit).unwrap();
            machine = Machine::new(map);
        }
        let without = (map.n() <= 200).then(|| machine.on(&open).answer(call));
        let reply = both.call(call);
        assert_eq!(reply, machine.answer(call), "{call:?}: proved (left), machine (right)");
        tally.classes.count(call, without.is_some_and(|without| without != reply));
        tally.count(call, reply.answer);
    }
}

/// A map of up to `most` junctions whose pairs fit; most have roads that bar classes.
fn random_map(random: &mut Random, most: usize) -> Map {
    loop {
        let n = 1 + random.below(most);
        let side = 1 + random.below((most as f64).sqrt() as usize);
        let mut map = match random.below(8) {
            0 => maps::even_grid(random, side, n.div_ceil(side).min(most / side)),
            1 => maps::line(n),
            2 => maps::ring(n.max(2)),
            3 => maps::star(n),
            4 => maps::small(random),
            5 => {
                let m = (n + random.below(n)).min(MOST_ROADS);
                let longest = random.pick(&[1, 60, LONGEST]);
                let mut map = maps::random(random, n, m, longest);
                map.order = order::least_degree(map.n(), &map.roads);
                map
            }
            _ => {
                let streets = random.pick(&[Streets::USUAL, Streets::DENSE]);
                maps::town(random, side, n.div_ceil(side).min(most / side), streets)
            }
        };
        if order::pairs(&map) <= MOST_PAIRS {
            if random.chance(70) {
                maps::bar(random, &mut map);
            }
            return map;
        }
    }
}

/// A map with totals past 2^32; a few roads bar classes.
fn slow_road(random: &mut Random) -> Map {
    let (n, less) = (1_500 + random.below(1_000), random.pick(&[0, 2, 1_000]));
    let mut map = maps::slow_road(random, n, less);
    for _ in 0..random.below(4) {
        let road = random.below(map.m());
        map.roads[road].access = random.word() as u8;
    }
    map
}

/// Most of the calls on maps of a few junctions, the rest on larger ones, up to the largest.
#[test]
fn lists() {
    with_stack(|| {
        let seed = setting("CALLS_SEED", 1);
        let length = setting("CALLS_LENGTH", 200_000);
        let mut random = Random::new(seed as u64);
        let mut tally = Tally::default();
        while tally.calls() < length {
            let (most, calls) = match random.below(200) {
                0 => (MOST_JUNCTIONS, 100),
                1..5 => (1_000, 200),
                5..30 => (200, 200),
                _ => (12, 60),
            };
            let map = match random.below(40) {
                0 => slow_road(&mut random),
                _ => random_map(&mut random, most),
            };
            run_list(&mut random, &map, calls, &mut tally);
        }
        // The rarest answer comes about once in 1,000 calls; other seeds meet this count too.
        tally.at_least(length / 1_500);
        assert!(tally.previews.all().iter().all(|&met| met > length / 1_000), "{tally:?}");
        assert!(tally.classes.all().iter().all(|&met| met > length / 1_000), "{tally:?}");
        assert!(tally.past_32_bits.iter().all(|&met| met > length / 5_000), "{tally:?}");
        let Listed { empty, several, moved, not_by_head, .. } = tally.listed;
        assert!(
            empty.iter().all(|&met| met > length / 2_000)
                && several > length / 100
                && moved > length / 100
                && not_by_head > length / 200,
            "{:?}",
            tally.listed
        );
    });
}

#[test]
fn lists_on_the_largest_maps() {
    with_stack(|| {
        let mut random = Random::new(2);
        let n = MOST_JUNCTIONS;
        let mut tally = Tally::default();
        for (map, calls) in [
            (maps::town(&mut random, 64, 64, Streets::USUAL), 1_000),
            (maps::largest_town(&mut random), 1_000),
            (maps::even_grid(&mut random, 60, 60), 500),
            (maps::line(n), 50),
            (maps::star(n), 300),
            (maps::ring(n), 50),
            (maps::ring_with_bypass(n), 50),
            (maps::slow_road(&mut random, n, 7), 100),
            (maps::random(&mut random, n, 0, 1), 100),
            (maps::random(&mut random, 2, MOST_ROADS, LONGEST), 500),
            (maps::random(&mut random, 1, 0, 1), 500),
        ] {
            let mut barred = map.clone();
            maps::bar(&mut random, &mut barred);
            run_list(&mut random, &map, calls, &mut tally);
            run_list(&mut random, &barred, calls, &mut tally);
        }
        tally.at_least(5);
        assert!(tally.past_32_bits.iter().all(|&met| met >= 3), "{:?}", tally.past_32_bits);
    });
}

/// An area of any words.
fn any_area(random: &mut Random, len: usize) -> Area {
    Area::of(&(0..len).map(|_| random.word()).collect::<Vec<u32>>())
}

/// A work area of any words.
fn any_work(random: &mut Random, len: usize) -> Area<Time> {
    Area::of(&(0..len).map(|_| random.bits()).collect::<Vec<Time>>())
}

/// How the gos of scripts were answered, and how many scripts have gos of both kinds.
#[derive(Debug, Default)]
struct Gos {
    calls: usize,
    refused_by_14: usize,
    found: usize,
    lost: usize,
    mixed: usize,
}

impl Gos {
    fn count(&mut self, answers: &[(Call, Answer)]) {
        let gos = |wanted: fn(Answer) -> bool| {
            let go = |&&(call, answer): &&(Call, Answer)| {
                matches!(call, Call::Go { .. }) && wanted(answer)
            };
            answers.iter().filter(go).count()
        };
        let refused = gos(|answer| answer == Err(Refusal::LentLengths));
        let found = gos(|answer| answer.is_ok());
        let lost = gos(|answer| matches!(answer, Err(Refusal::NoPath(_))));
        self.calls += answers.len();
        self.refused_by_14 += refused;
        self.found += found;
        self.lost += lost;
        self.mixed += (refused > 0 && found + lost > 0) as usize;
    }
}

/// What follows the calls of a script, of which none is made.
#[derive(Clone, Copy, Debug)]
enum Tail {
    Nothing,
    /// The first words of a call.
    Cut,
    /// A kind that no call has, and calls behind it.
    Unknown,
}

impl Tail {
    const ALL: [Tail; 3] = [Tail::Nothing, Tail::Cut, Tail::Unknown];

    fn words(self, random: &mut Random, map: &Map) -> Vec<u32> {
        match self {
            Tail::Nothing => Vec::new(),
            Tail::Cut => {
                let mut words = spelled(&[random_call(random, map)]);
                words.truncate(1 + random.below(words.len() - 1));
                words
            }
            Tail::Unknown => {
                let any = random.word().max(6);
                let kind = random.pick(&[6, 7, 256, 65_536, 1 << 31, u32::MAX, any]);
                let behind: Vec<Call> = (0..3).map(|_| random_call(random, map)).collect();
                [vec![kind], spelled(&behind)].concat()
            }
        }
    }
}

/// A script of calls and other words behind them, through the one function that makes all the calls, as many as `room`
/// words of answers hold. It starts from what preparing left, or from what the calls `before` left, which are made one by
/// one. The answers, routes and logs are the machine's; the header, every area, and route and log, beyond what was lent
/// too, are those that the same calls leave when they are made one by one. The work area is as it was where every preview
/// is refused.
fn run_script(
    map: &Map,
    before: &[Call],
    calls: &[Call],
    tail: &[u32],
    mut lent: LentAreas,
    room: usize,
) -> Vec<(Call, Answer)> {
    let script = [&spelled(calls)[..], tail].concat();
    let mut out = vec![u64::MAX - 5; room];
    let (mut want_out, mut want, mut one_by_one) = (out.clone(), lent.clone(), lent.clone());

    let mut both = Both::prepare(map, order::pairs(map)).unwrap();
    let mut machine = Machine::new(map);
    for &call in before {
        assert_eq!(
            both.call(call),
            machine.answer(call),
            "{call:?}: proved (left), machine (right)"
        );
    }
    let (mut unit, mut single) = (both.unit.clone(), both.unit.clone());
    let mut answers = Vec::new();
    for (&call, words) in calls.iter().zip(want_out.chunks_exact_mut(ANSWER_WORDS)) {
        let call = lent.made(call);
        let reply = both.call(call);
        assert_eq!(reply, machine.answer(call), "{call:?}: proved (left), machine (right)");
        want.route[..reply.route.len()].copy_from_slice(&reply.route);
        want.log[..reply.log.len()].copy_from_slice(&reply.log);
        assert_eq!(single.call(call, one_by_one.lend_to(call)), reply.answer, "{call:?}");
        words.copy_from_slice(&answer_words(reply.answer));
        answers.push((call, reply.answer));
    }
    unit.replay(lent.lend(), &script, &mut out);
    assert_eq!(out, want_out, "{before:?}, then {calls:?} and the words {tail:?}");
    assert!(unit == single && unit == both.unit, "the unit is left otherwise than by single calls");
    if answers.iter().any(|(_, answer)| matches!(answer, Ok(Accepted::Previewed(_)))) {
        assert!(lent.guarded() && lent.work.len() == want.work.len(), "words beside the work area");
        for work in [&mut want.work, &mut one_by_one.work] {
            work.copy_from_slice(&lent.work);
        }
    }
    assert!(lent == want, "what is lent is left otherwise than by the machine");
    assert!(lent == one_by_one, "what is lent is left otherwise than by single calls");
    answers
}

/// A number of entries that a call asks for, of an area of `len`, where it needs n: often fewer, or more than
/// there are.
fn asked(random: &mut Random, n: usize, len: usize) -> usize {
    match random.below(12) {
        0 => 0,
        1 => n.saturating_sub(1),
        2 => random.below(n.max(1)),
        3 | 4 => n,
        5 | 6 => len,
        7 => len + 1,
        8 => random.pick(&[u32::MAX, u32::MAX - 1, 1 << 31]) as usize,
        _ => n + random.below(9),
    }
}

/// Areas to lend, of any words, and so many calls: a go and a list of stops often ask for fewer entries than they need, or
/// for more than there are.
fn any_script(random: &mut Random, map: &Map, len: usize) -> (LentAreas, Vec<Call>) {
    let n = map.n();
    let [route, log] = [5, 1].map(|times| {
        let (n, more) = (n * random.pick(&[1, times]), random.below(9));
        let len = random.pick(&[n - 1, n, n, n, n + 1, n + more, n + more, 2 * n]);
        any_area(random, len)
    });
    let len_of_work = work(random, n);
    let lent = LentAreas { route, log, work: any_work(random, len_of_work) };
    let calls = (0..len).map(|_| match random_call(random, map) {
        Call::Go { class, start, .. } => {
            let [route, log] = [&lent.route, &lent.log].map(|area| asked(random, n, area.len()));
            Call::Go { class, start, route, log }
        }
        Call::Stops { class, stops, .. } => {
            let route = asked(random, stops.len() * n, lent.route.len());
            let log = asked(random, n, lent.log.len());
            Call::Stops { class, stops, route, log }
        }
        call => call,
    });
    let calls = calls.collect();
    (lent, calls)
}

#[test]
fn scripts() {
    with_stack(|| {
        let mut random = Random::new(4);
        let mut gos = Gos::default();
        let mut previews = Previews::default();
        let (mut foreseen, mut refused_by_9) = (0, 0);
        // Lists of stops, by the number of their answer.
        let mut stopped = [0; Refusal::NUMBERS];
        // How many scripts of each tail were made to their last call, with room for an answer more.
        let mut ended = [0; 3];
        // How many began with what preparing left, and with what calls left.
        let mut starts = [0; 2];
        for most in [12; 400].into_iter().chain([200; 20]).chain([MOST_JUNCTIONS]) {
            let map = random_map(&mut random, most);
            let (n, len) = (map.n(), random.below(80));
            let (lent, calls) = any_script(&mut random, &map, len);
            let right = lent.work.len() == 2 * n;
            // From what preparing left, or from what other calls leave of it.
            let count = random.pick(&[0, 1, 4, 20]);
            let before: Vec<Call> = (0..count).map(|_| random_call(&mut random, &map)).collect();
            starts[(count > 0) as usize] += 1;
            let tail = random.pick(&Tail::ALL);
            let room = match random.chance(75) {
                true => ANSWER_WORDS * len + random.below(5 * ANSWER_WORDS),
                false => random.below(ANSWER_WORDS * len + 1),
            };
            ended[tail as usize] += (room >= ANSWER_WORDS * (len + 1)) as usize;
            let tail = tail.words(&mut random, &map);
            let answers = run_script(&map, &before, &calls, &tail, lent, room);
            gos.count(&answers);
            for &(call, answer) in &answers {
                if matches!(call, Call::Preview { .. }) {
                    assert_eq!(answer == Err(Refusal::Lengths), !right, "{call:?}: {answer:?}");
                    *if right { &mut foreseen } else { &mut refused_by_9 } += 1;
                }
                if matches!(call, Call::Stops { .. }) {
                    stopped[answer.map_or_else(|refusal| refusal.number() as usize, |_| 0)] += 1;
                }
                previews.count(answer);
            }
        }
        let enough = [0, 12, 14, 16, 17, 18].iter().all(|&number| stopped[number] >= 5);
        assert!(enough, "lists of stops by their answers: {stopped:?}");
        assert!(
            foreseen > 1_000 && refused_by_9 > 50 && previews.all().iter().all(|&met| met > 10),
            "{foreseen}, {refused_by_9}, {previews:?}"
        );
        assert!(
            gos.calls > 10_000
                && gos.refused_by_14 > 1_000
                && gos.found > 600
                && gos.lost > 150
                && gos.mixed > 150,
            "too few of one kind: {gos:?}"
        );
        assert!(ended.iter().all(|&met| met > 60), "too few of one end: {ended:?}");
        assert!(starts.iter().all(|&met| met > 60), "too few of one start: {starts:?}");
    });
}

/// A list of calls in one script is that list in several, one after the other: header and areas carry all from one to
/// the next.
#[test]
fn scripts_in_parts() {
    with_stack(|| {
        let mut random = Random::new(6);
        let mut found = 0;
        // How many scripts were cut into one, two .. parts.
        let mut cut = [0; 5];
        for most in [12; 300].into_iter().chain([200; 20]) {
            let map = random_map(&mut random, most);
            let len = random.below(60);
            let (mut lent, calls) = any_script(&mut random, &map, len);
            let mut unit = Unit::new(&map.card().unwrap(), map.n(), map.m(), order::pairs(&map));
            unit.prepare().unwrap();
            let (mut other, mut other_lent) = (unit.clone(), lent.clone());

            let mut out = vec![7; ANSWER_WORDS * len];
            unit.replay(lent.lend(), &spelled(&calls), &mut out);
            let mut other_out = vec![8; ANSWER_WORDS * len];
            let (mut calls_left, mut out_left, mut parts) = (&calls[..], &mut other_out[..], 0);
            while parts == 0 || !calls_left.is_empty() {
                let most = calls_left.len();
                let count = if parts == 4 { most } else { random.below(most + 1) };
                let (part, rest) = calls_left.split_at(count);
                let (part_out, rest_out) = out_left.split_at_mut(ANSWER_WORDS * count);
                other.replay(other_lent.lend(), &spelled(part), part_out);
                (calls_left, out_left, parts) = (rest, rest_out, parts + 1);
            }
            cut[parts - 1] += 1;
            assert_eq!(out, other_out, "{calls:?} in {parts} parts");
            assert!(unit == other, "{calls:?} in {parts} parts: the unit is left otherwise");
            assert!(lent.route == other_lent.route && lent.log == other_lent.log);
            assert!(unit.guarded() && lent.guarded() && other_lent.guarded());
            for (call, words) in calls.iter().zip(out.as_chunks::<ANSWER_WORDS>().0) {
                found += (matches!(call, Call::Go { .. }) && words[0] == 0) as usize;
            }
        }
        assert!(found > 200, "{found} gos found a route");
        assert!(cut.iter().all(|&met| met > 10), "{cut:?}");
    });
}

/// After a refused preparing the calls of a script are made on its header of zeros, which an empty card fits alone; each of
/// them is refused.
#[test]
fn script_after_a_refused_preparing() {
    let list =
        |class, stops: &[u32]| Call::Stops { class, stops: StopList::of(stops), route: 0, log: 0 };
    let preview = |class, work| Call::Preview { class, road: 0, time: 0, start: 0, work };
    let calls = [
        Call::Set { road: 0, time: 0 },
        Call::Aim { junction: 0 },
        Call::Estimate { junction: 0 },
        Call::Go { class: 7, start: 0, route: 0, log: 0 },
        Call::Go { class: 8, start: 0, route: 0, log: 0 },
        preview(0, 0),
        preview(8, 0),
        list(0, &[0, 0]),
        list(8, &[0, 0]),
        list(8, &[0]),
    ];
    let nine = [9; 10];
    for (card, refusal, work, numbers) in [
        (&[][..], Refusal::Short, 0, [10, 12, 12, 12, 18, 10, 18, 12, 18, 16]),
        (&[], Refusal::Short, 1, [10, 12, 12, 12, 18, 9, 9, 12, 18, 16]),
        (&[0; 3], Refusal::Short, 0, nine),
        (&[0; 28], Refusal::Kinds, 0, nine),
        (&[2, 0, 0, 0], Refusal::Short, 0, nine),
    ] {
        let mut refused = Unit::new(card, 0, 0, 0);
        let mut lent = LentAreas::of(preview(0, work));
        let mut out = [1; 10 * ANSWER_WORDS];
        let answer = refused.prepare();
        refused.replay(lent.lend(), &spelled(&calls), &mut out);
        let mut want = [0; 10 * ANSWER_WORDS];
        for (call, number) in numbers.into_iter().enumerate() {
            want[ANSWER_WORDS * call] = number;
        }
        assert_eq!((answer, out), (Err(refusal), want), "{card:?}");
        assert_eq!(refused.header, Header::default());
    }
}

/// A go of each pair of lengths, in one script: none, too few by one, n, more than n, all, more than there
/// are. Each is refused by 14 exactly if one of the two is below n; so the next is not, or is. On small
/// maps the script is run to each of its calls, so that what each leaves is seen.
#[test]
fn scripts_of_each_length() {
    with_stack(|| {
        let mut random = Random::new(5);
        let mut gos = Gos::default();
        let mut maps = 0;
        for most in [12; 40].into_iter().chain([200; 5]) {
            let map = random_map(&mut random, most);
            let n = map.n();
            let [route_len, log_len] = [n + 3, n + 4];
            let [route, log] = [route_len, log_len].map(|len| any_area(&mut random, len));
            let lent = LentAreas { route, log, work: Area::new(0) };
            let lengths = |len: usize| [0, n - 1, n, n + 1, len, len + 1, u32::MAX as usize];
            let mut calls = vec![Call::Aim { junction: random.below(n) as u32 }];
            for route in lengths(route_len) {
                for log in lengths(log_len) {
                    let class = random.below(CLASSES as usize) as u32;
                    calls.push(Call::Go { class, start: random.below(n) as u32, route, log });
                }
            }
            let last = ANSWER_WORDS * calls.len();
            let rooms = (0..=last).step_by(ANSWER_WORDS);
            for room in if most > 12 { vec![last] } else { rooms.collect() } {
                let answers = run_script(&map, &[], &calls, &[], lent.clone(), room);
                for (call, answer) in answers.iter().copied() {
                    if let Call::Go { route, log, .. } = call {
                        let short = answer == Err(Refusal::LentLengths);
                        assert_eq!(short, route < n || log < n, "{call:?}: {answer:?}");
                    }
                }
                if room == last {
                    gos.count(&answers);
                    maps += 1;
                }
            }
        }
        assert_eq!((maps, gos.mixed, gos.refused_by_14), (45, 45, 45 * 24));
        assert_eq!(gos.found + gos.lost, 45 * 25);
        assert!(gos.found > 400 && gos.lost > 50, "too few of one kind: {gos:?}");
    });
}

/// A script of every kind of call, cut off after each of its words; and with each of its kinds, in turn, made
/// one that no call has. The calls that stand whole before that are made, and none from there on.
#[test]
fn scripts_that_end_early() {
    let map = maps::map_p();
    let go = |start, route, log| Call::Go { class: 1, start, route, log };
    let list = |stops: &[u32], route, log| Call::Stops {
        class: 7,
        stops: StopList::of(stops),
        route,
        log,
    };
    let calls = [
        Call::Estimate { junction: 0 },
        Call::Aim { junction: 3 },
        go(0, 4, 4),
        Call::Set { road: 1, time: CLOSED },
        go(0, 4, 3),
        Call::Estimate { junction: 0 },
        Call::Set { road: 0, time: 9 },
        go(0, 9, 4),
        Call::Preview { class: 2, road: 1, time: 15, start: 0, work: 8 },
        Call::Aim { junction: 1 },
        go(3, 4, 4),
        Call::Preview { class: 8, road: 4, time: CLOSED, start: 3, work: 8 },
        list(&[3, 0, 2, 2], 16, 4),
        list(&[], 16, 4),
        list(&[3, 0, 3], 16, 4),
        list(&[0], 0, 0),
        Call::Aim { junction: 2 },
    ];
    let script = spelled(&calls);
    assert_eq!(script.len(), 2 * 4 + 5 * 2 + 4 * 5 + 2 * 6 + 4 * 5 + 8);
    let lent = || LentAreas { route: Area::new(16), log: Area::new(5), work: Area::new(8) };
    let room = ANSWER_WORDS * (calls.len() + 1);
    let (mut cuts, mut kinds, mut lists, mut made) = (0, 0, 0, 0);
    for whole in 0..=calls.len() {
        let (before, behind) = calls.split_at(whole);
        let rest = spelled(behind);
        let next = behind.first().map_or(1, |&call| spelled(&[call]).len());
        for cut in 0..next {
            made += run_script(&map, &[], before, &rest[..cut], lent(), room).len();
            cuts += 1;
        }
        for kind in [6, 7, 261, 65_541, u32::MAX] {
            let tail = [&[kind][..], rest.get(1..).unwrap_or(&[])].concat();
            made += run_script(&map, &[], before, &tail, lent(), room).len();
            kinds += 1;
        }
        // A list of more stops than there are words.
        for count in [rest.len() as u32 + 1, rest.len() as u32 + 9, u32::MAX - 3, u32::MAX] {
            let tail = [&[5, 0, count, 16, 4][..], &rest].concat();
            made += run_script(&map, &[], before, &tail, lent(), room).len();
            lists += 1;
        }
    }
    assert_eq!((cuts, kinds, lists), (script.len() + 1, 18 * 5, 18 * 4));
    assert_eq!(made, 9 * 153 + 719);
}

/// A time of a script is two words, the lower first, in a set and in a preview: all 64 bits count.
#[test]
fn times_in_scripts() {
    const MAX: u32 = u32::MAX;
    let map = maps::map_p();
    // Road 1 of map P, from 10 to 10,000,000 or closed; the trip takes 20 with it at 10 and 25 round it.
    for ([low, high], taken, total) in [
        ([10, 0], true, 20),
        ([12, 0], true, 22),
        ([60, 0], true, 25),
        ([10_000_000, 0], true, 25),
        ([MAX, MAX], true, 25),
        ([9, 0], false, 0),
        ([10_000_001, 0], false, 0),
        ([10, 1], false, 0),
        ([12, MAX], false, 0),
        ([0, 10], false, 0),
        ([MAX, 0], false, 0),
        ([MAX - 1, 0], false, 0),
        ([0, MAX], false, 0),
        ([MAX - 1, MAX], false, 0),
        ([MAX, MAX - 1], false, 0),
    ] {
        let mut unit = Unit::new(&map.card().unwrap(), 4, 5, 5);
        let go = [3, 0, 0, 4, 4];
        let aim = [1, 3];
        let script = [&aim[..], &[4, 0, 1, low, high, 0], &[0, 1, low, high], &go].concat();
        let mut out = [7; 4 * ANSWER_WORDS];
        let work = Area::new(8);
        let mut lent = LentAreas { route: Area::new(4), log: Area::new(4), work };
        unit.prepare().unwrap();
        unit.replay(lent.lend(), &script, &mut out);
        let first = |call: usize| &out[ANSWER_WORDS * call..][..4];
        assert_eq!(first(0), [0; 4]);
        let time = Time::from(low) + (Time::from(high) << 32);
        if taken {
            let change = total - 20;
            assert_eq!(first(1), [0, 20, total, change], "a preview with {time}");
            assert_eq!(first(2), [0; 4], "a set to {time}");
            assert_eq!(first(3)[1], total, "a go after {time}");
            assert_eq!(unit.live[1], time);
        } else {
            assert_eq!(first(1), [11, 0, 0, 0], "a preview with {time}");
            assert_eq!(first(2), [11, 0, 0, 0], "a set to {time}");
            assert_eq!(first(3)[1], 20, "a go after {time}");
            assert_eq!(unit.live[1], 10);
        }
    }
}

/// Changes to lengths, each of which question 9 refuses, by the call's header.
fn wrong_lengths(unit: &Unit) -> Vec<(&'static str, Unit)> {
    let mut units = Vec::new();
    let len = unit.card.len();
    for other in [0, 27, 28, len - 12, len - 4, len - 1, len + 1, len + 4, len + 12, 2 * len] {
        let mut unit = unit.clone();
        unit.card.resize(other, 0);
        units.push(("card", unit));
    }
    // Of the pairs' two areas, one alone has another length,
    for (which, (name, area)) in unit.areas().into_iter().enumerate() {
        let len = area.len();
        for other in [0, len / 2, len - 1, len + 1, len + 2, len + 4, 2 * len, len + 65_536] {
            let mut unit = unit.clone();
            unit.areas_mut()[which].resize(other);
            units.push((name, unit));
        }
    }
    // or both the same one, which is odd, too little or too much.
    let (pairs, most) = (RECORD * unit.header.pairs as usize, RECORD * MOST_PAIRS);
    for other in [0, pairs - 2, pairs - 1, pairs + 1, pairs + 3, pairs + 5, most - 1, most + 2] {
        let mut unit = unit.clone();
        unit.pairs.resize(other);
        unit.times.resize(other);
        units.push(("pairs", unit));
    }
    units
}

/// Question 9 by each length in turn, with arguments that pass the later questions and with others,
/// with a target and without.
#[test]
fn wrong_lengths_are_refused_first() {
    let mut random = Random::new(3);
    let mut refusals = 0;
    for map in [
        maps::map_p(),
        maps::map_p_with_classes(),
        maps::random(&mut random, 9, 20, 7),
        maps::town(&mut random, 20, 20, Streets::USUAL),
    ] {
        let mut both = Both::prepare(&map, order::pairs(&map)).unwrap();
        for _ in 0..2 {
            for (_, mut unit) in wrong_lengths(&both.unit) {
                let n = map.n();
                for [road, junction, entries, work, class] in
                    [[0, 0, n, 2 * n, 0], [map.m(), n, n - 1, 0, 8]]
                {
                    let [road, junction, class] = [road, junction, class].map(|word| word as u32);
                    let list = |count| StopList::of(&vec![junction; count]);
                    for call in [
                        Call::Set { road, time: CLOSED },
                        Call::Set { road, time: 0 },
                        Call::Aim { junction },
                        Call::Estimate { junction },
                        Call::Go { class, start: junction, route: entries, log: entries },
                        Call::Preview { class, road, time: CLOSED, start: junction, work },
                        Call::Stops { class, stops: list(3), route: 3 * entries, log: entries },
                        Call::Stops { class, stops: list(1), route: entries, log: entries },
                    ] {
                        refused_lengths(&mut unit, call).unwrap_err();
                        refusals += 1;
                    }
                }
            }
            both.call(Call::Aim { junction: 1 });
        }
    }
    assert_eq!(refusals, 4 * 2 * (10 + (AREAS + 1) * 8) * 2 * 8);
}

/// The deepest map, a line in rank order, with no more stack than c/route_unit.h says.
#[test]
fn on_a_small_stack() {
    let calls = || {
        let map = maps::line(MOST_JUNCTIONS);
        let (first, last) = (map.order[0], map.order[MOST_JUNCTIONS - 1]);
        let pairs = order::pairs(&map);
        let mut unit = Unit::new(&map.card().unwrap(), map.n(), map.m(), pairs);
        unit.prepare().unwrap();
        for _ in 0..2 {
            unit.aim(last).unwrap();
            let (mut route, mut log) = (vec![0; map.n()], vec![0; map.n()]);
            let trip = unit.go(0, first, &mut route, &mut log).unwrap();
            assert_eq!((trip.count, trip.roads), (4_096, 4_095));
            unit.aim(last).unwrap();
            assert_eq!(unit.estimate(first).unwrap(), trip.total);
            unit.aim(last).unwrap();
            let mut work = vec![0; 2 * map.n()];
            let previewed = unit.preview(0, 0, CLOSED, first, &mut work).unwrap();
            let want = Previewed { present: Some(trip.total), new: None, change: None };
            assert_eq!(previewed, want, "a line without its first road");
            let mut route = vec![0; 3 * map.n()];
            let stopped = unit.stops(0, &[first, last, first], &mut route, &mut log).unwrap();
            assert_eq!(stopped, Stopped::of(&[(trip.total, 4_095); 2]));
        }
    };
    thread::Builder::new().stack_size(2 << 20).spawn(calls).unwrap().join().unwrap();
}

/// A refused preparing leaves a header of zeros, the card's length too. An empty card and empty areas fit it, with one
/// word for where groups start: the plain questions answer. With another number of words, or bytes of a card, 9.
#[test]
fn after_a_refused_preparing() {
    for room in [0, 1, MOST_PAIRS] {
        let mut unit = Unit::new(&[], 0, 0, room);
        assert_eq!(unit.prepare(), Err(Refusal::Short));
        assert_eq!(unit.header, Header::default());
        let before = unit.clone();
        for argument in [0, 1, u32::MAX] {
            assert_eq!(unit.set(argument, CLOSED), Err(Refusal::NoRoad));
            assert_eq!(unit.aim(argument), Err(Refusal::NoJunction));
            assert_eq!(unit.estimate(argument), Err(Refusal::NoJunction));
            for (class, question) in [
                (0, None),
                (7, None),
                (8, Some(Refusal::NoClass)),
                (u32::MAX, Some(Refusal::NoClass)),
            ] {
                let or = |refusal| Some(question.unwrap_or(refusal));
                let go = unit.go(class, argument, &mut [], &mut []);
                assert_eq!(go.err(), or(Refusal::NoJunction));
                let preview = unit.preview(class, argument, CLOSED, argument, &mut []);
                assert_eq!(preview.err(), or(Refusal::NoRoad));
                let preview = unit.preview(class, argument, CLOSED, argument, &mut [1, 2]);
                assert_eq!(preview, Err(Refusal::Lengths));
                let stops = unit.stops(class, &[argument; 2], &mut [], &mut []);
                assert_eq!(stops.err(), or(Refusal::NoJunction));
                let stops = unit.stops(class, &[argument], &mut [], &mut []);
                assert_eq!(stops, Err(Refusal::StopCount));
            }
        }
        assert!(unit == before, "a refused call alters the unit");
        let other = |len: usize, card: &[u8]| {
            let mut unit = unit.clone();
            unit.groups.resize(len);
            unit.card = card.to_vec();
            unit
        };
        for mut unit in [other(0, &[]), other(2, &[]), other(1, &[0]), other(1, &[0; 28])] {
            for call in [
                Call::Set { road: 0, time: CLOSED },
                Call::Aim { junction: 0 },
                Call::Estimate { junction: 0 },
                Call::Go { class: 0, start: 0, route: 0, log: 0 },
                Call::Go { class: 8, start: 0, route: 0, log: 0 },
                Call::Preview { class: 0, road: 0, time: CLOSED, start: 0, work: 0 },
                Call::Stops { class: 0, stops: StopList::of(&[0, 0]), route: 0, log: 0 },
                Call::Stops { class: 8, stops: StopList::of(&[]), route: 0, log: 0 },
            ] {
                refused_lengths(&mut unit, call).unwrap_err();
            }
        }
    }
}

/// Case P9, and the ends of the range of allowed times for each road.
#[test]
fn allowed_times() {
    let mut both = Both::prepare(&maps::map_p(), 5).unwrap();
    for (road, base) in (0..).zip(maps::map_p().base()) {
        for (time, allowed) in [
            (0, false),
            (base - 1, false),
            (base, true),
            (base + 1, true),
            (LONGEST, true),
            (LONGEST + 1, false),
            (1 << 31, false),
            ((1 << 32) - 2, false),
            ((1 << 32) - 1, false),
            ((1 << 32) + base, false),
            (CLOSED - (1 << 32), false),
            (CLOSED - 2, false),
            (UNASKED, false),
            (CLOSED, true),
        ] {
            let want = if allowed { Ok(Accepted::Done) } else { Err(Refusal::NotAllowed) };
            assert_eq!(both.call(Call::Set { road, time }).answer, want, "road {road} to {time}");
        }
    }
    assert_eq!(both.unit.live[..], [CLOSED; 5]);
    let reply = both.call(Call::Set { road: 5, time: CLOSED });
    assert_eq!(reply.answer, Err(Refusal::NoRoad));
}

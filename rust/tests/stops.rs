//! A list of stops of the proved unit (document 02, A3, with A6's classes) beside one that is written from the documents alone:
//! leg by leg an aim and a go of `literal`. The lists stand among the other five calls, which are made in the
//! same way, so that every word of every area, of what is lent and of the header is known after every call. The
//! whole total is compared with every chain that meets the stops, on maps that are small enough for that.

use harness::both::{with_stack, Both};
use harness::brute;
use harness::calls::{
    Accepted, Answer, Call, Calls, Previewed, Refusal, StopList, Stopped, Trip, CLASSES, MOST_LEGS,
    MOST_STOPS,
};
use harness::card::{LONGEST, MOST_JUNCTIONS};
use harness::literal::{Literal, Searched};
use harness::maps::{self, Map, Road, Streets};
use harness::order;
use harness::random::Random;
use harness::time::{Time, CLOSED, NONE, UNASKED};
use harness::traffic;
use harness::unit::{same, Area, Header, LentAreas, Unit};

/// The documents' unit: it has the areas and the header of a prepared one, and makes the calls on them by
/// their sentences.
struct Paper {
    literal: Literal,
    unit: Unit,
}

impl Paper {
    fn n(&self) -> usize {
        self.literal.map.n()
    }

    fn target(&self) -> Option<u32> {
        (self.unit.header.aimed == 1).then_some(self.unit.header.target)
    }

    /// The questions that refuse, in order; 9 only of a work area.
    fn refusals(&self, call: Call) -> Vec<Refusal> {
        let n = self.n();
        let below = |junction: u32| ((junction as usize) < n, Refusal::NoJunction);
        let aimed = (self.target().is_some(), Refusal::NoTarget);
        let below_8 = |class: u32| (class < 8, Refusal::NoClass);
        let base = |road: u32| self.literal.map.roads.get(road as usize).map(|road| road.base);
        let road = |number: u32| (base(number).is_some(), Refusal::NoRoad);
        let time = |number: u32, time: Time| {
            let allowed = |base| time == CLOSED || (base <= time && time <= LONGEST);
            (base(number).is_none_or(allowed), Refusal::NotAllowed)
        };
        let questions = match call {
            Call::Set { road: number, time: new } => vec![road(number), time(number, new)],
            Call::Aim { junction } => vec![below(junction)],
            Call::Estimate { junction } => vec![below(junction), aimed],
            Call::Go { class, start, route, log } => vec![
                below_8(class),
                below(start),
                aimed,
                (route >= n && log >= n, Refusal::LentLengths),
            ],
            Call::Preview { class, road: number, time: new, start, work } => vec![
                (work == 2 * n, Refusal::Lengths),
                below_8(class),
                road(number),
                time(number, new),
                below(start),
                aimed,
            ],
            Call::Stops { class, stops, route, log } => vec![
                (2 <= stops.len() && stops.len() <= 32, Refusal::StopCount),
                below_8(class),
                (stops.iter().all(|&stop| below(stop).0), Refusal::NoJunction),
                (route >= stops.len() * n && log >= n, Refusal::LentLengths),
            ],
        };
        questions.into_iter().filter(|(passes, _)| !passes).map(|(_, refusal)| refusal).collect()
    }

    /// What a call answers, which no question refuses; what it leaves is left.
    fn made(&mut self, call: Call, lent: &mut LentAreas) -> Answer {
        match call {
            Call::Set { road, time } => self.unit.live[road as usize] = time,
            Call::Aim { junction } => self.aim(junction),
            Call::Estimate { junction } => {
                let estimates = self.literal.estimates(self.unit.header.target);
                for &above in self.literal.above(junction) {
                    self.unit.estimates[above as usize] = estimates[above as usize];
                }
                return Ok(Accepted::Estimate(estimates[junction as usize]));
            }
            Call::Go { class, start, .. } => {
                let Searched { total, route, log, .. } = self.go(class, start);
                lent.log[..log.len()].copy_from_slice(&log);
                lent.route[..route.len()].copy_from_slice(&route);
                let count = log.len() as u32;
                let total = total.ok_or(Refusal::NoPath(count))?;
                return Ok(Accepted::Trip(Trip { total, count, roads: route.len() as u32 }));
            }
            Call::Preview { class, road, time, start, .. } => {
                let mut replaced = self.unit.live.to_vec();
                replaced[road as usize] = time;
                let [present, new] = [self.unit.live.to_vec(), replaced].map(|live| {
                    let target = self.unit.header.target;
                    let searched = self.literal.search(class, &live, start, target);
                    self.fill(&searched);
                    searched.total
                });
                let change = present.zip(new).map(|(present, new)| new as i64 - present as i64);
                return Ok(Accepted::Previewed(Previewed { present, new, change }));
            }
            Call::Stops { class, stops, .. } => return self.journey(class, &stops, lent),
        }
        Ok(Accepted::Done)
    }

    fn aim(&mut self, junction: u32) {
        self.unit.header = Header { aimed: 1, target: junction, ..self.unit.header };
        self.unit.down.copy_from_slice(&self.literal.down_totals(junction));
        self.unit.estimates.fill(UNASKED);
    }

    fn fill(&mut self, searched: &Searched) {
        let least = self.literal.estimates(self.unit.header.target);
        for (junction, _) in searched.fills.iter().enumerate().filter(|(_, &fills)| fills) {
            self.unit.estimates[junction] = least[junction];
        }
    }

    fn go(&mut self, class: u32, start: u32) -> Searched {
        let target = self.unit.header.target;
        let searched = self.literal.search(class, &self.unit.live, start, target);
        self.fill(&searched);
        self.unit.elapsed.copy_from_slice(&searched.elapsed);
        searched
    }

    /// "Each leg is an aim and a go": each log from the area's beginning, the roads one after the other.
    fn journey(&mut self, class: u32, stops: &[u32], lent: &mut LentAreas) -> Answer {
        let (mut legs, mut roads) = (Vec::new(), Vec::new());
        for leg in 0..stops.len() - 1 {
            self.aim(stops[leg + 1]);
            let Searched { total, route, log, .. } = self.go(class, stops[leg]);
            lent.log[..log.len()].copy_from_slice(&log);
            let total = total.ok_or(Refusal::NoLeg(leg as u32))?;
            legs.push((total, route.len() as u32));
            roads.extend(route);
            lent.route[..roads.len()].copy_from_slice(&roads);
        }
        let whole = legs.iter().map(|leg| leg.0).sum();
        let (mut totals, mut numbers) = ([0; 31], [0; 31]);
        for (leg, &(total, number)) in legs.iter().enumerate() {
            (totals[leg], numbers[leg]) = (total, number);
        }
        let legs = legs.len() as u32;
        Ok(Accepted::Stopped(Stopped { legs, whole, totals, roads: numbers }))
    }
}

/// The proved unit and the documents'.
struct Trial {
    unit: Unit,
    paper: Paper,
}

impl Trial {
    fn new(map: Map) -> Trial {
        let mut unit = Unit::new(&map.card().unwrap(), map.n(), map.m(), order::pairs(&map));
        unit.prepare().unwrap();
        Trial { paper: Paper { literal: Literal::new(map), unit: unit.clone() }, unit }
    }

    /// Makes a call on areas of any words by both, and compares all that it answers and leaves.
    fn call(&mut self, random: &mut Random, call: Call, met: &mut Met) -> Answer {
        let mut lent = LentAreas::of(call);
        for area in [&mut lent.route, &mut lent.log] {
            area.iter_mut().for_each(|word| *word = random.word());
        }
        lent.work.iter_mut().for_each(|word| *word = random.bits());
        let mut want = lent.clone();
        let before = self.paper.unit.clone();
        let answer = self.unit.call(call, lent.lend());
        let questions = self.paper.refusals(call);
        let due = match questions.first() {
            Some(&refusal) => Err(refusal),
            None => self.paper.made(call, &mut want),
        };
        assert_eq!(answer, due, "{call:?}: proved (left), documents (right)");
        if matches!(answer, Ok(Accepted::Previewed(_))) {
            assert!(lent.guarded() && lent.work.len() == want.work.len(), "beside the work area");
            want.work.copy_from_slice(&lent.work);
        }
        for ((name, area), (_, want)) in self.unit.areas().into_iter().zip(self.paper.unit.areas())
        {
            area.same(name, want);
        }
        assert_eq!(self.unit.header, self.paper.unit.header, "{call:?}");
        assert!(self.unit == self.paper.unit, "{call:?}: card or guard words");
        same("the route area", &lent.route, &want.route);
        same("the log area", &lent.log, &want.log);
        assert!(lent == want, "{call:?}: what is lent, or guard words");
        met.count(call, answer, &questions, &before, &self.paper);
        answer
    }
}

/// How often what is worth meeting was met.
#[derive(Debug, Default)]
struct Met {
    /// Of each other call: accepted, and refused.
    others: [[usize; 2]; 5],
    /// Found, by the number of legs.
    legs: [usize; MOST_STOPS],
    /// 17 with the only leg, the first, one between, and the last.
    lost: [usize; 4],
    /// 17 with roads of the legs before, and after an empty log.
    lost_with_roads: usize,
    lost_at_once: usize,
    /// Found, with equal neighbours, with a stop that comes again later, and with neither of them.
    equal: usize,
    again: usize,
    distinct: usize,
    /// Several legs that have roads.
    roads: usize,
    /// An earlier leg's log is longer than the last one's.
    longer_log: usize,
    /// With no target before, with another one, and where it is the first leg's end and estimates are filled.
    targets: [usize; 3],
    /// At times that are not the base times.
    changed: usize,
    /// Areas of just the lengths, and longer ones.
    lengths: [usize; 2],
    /// Refused with each number.
    refusals: [usize; Refusal::NUMBERS],
    /// 16 with no stop, one, 33, and more.
    counts: [usize; 4],
    /// 12 by the last stop alone.
    last_stop: usize,
    /// 14 by one entry of the route area, and of the log area.
    by_one: [usize; 2],
    /// Where a later question would refuse too: 16 and 12, 12 and 14, 16 and 18, 18 and 12, 18 and 14.
    both: [usize; 5],
    /// Found, with a leg's total of 2^32 and more, and with such a whole of smaller ones.
    past_32_bits: [usize; 2],
    /// Made with a class that some road bars: found otherwise than if none did, and 17 where there would be a chain.
    round_barred: usize,
    lost_to_bars: usize,
}

impl Met {
    fn count(
        &mut self,
        call: Call,
        answer: Answer,
        questions: &[Refusal],
        before: &Unit,
        paper: &Paper,
    ) {
        let which = match call {
            Call::Set { .. } => 0,
            Call::Aim { .. } => 1,
            Call::Estimate { .. } => 2,
            Call::Go { .. } => 3,
            Call::Preview { .. } => 4,
            Call::Stops { class, stops, route, log } => {
                match answer {
                    Ok(Accepted::Stopped(stopped)) => self.found(&stops, stopped, before),
                    Err(Refusal::NoLeg(leg)) => self.lost(&stops, leg, &paper.unit, before),
                    Err(_) => self.refused(&stops, [route, log], questions, paper.n()),
                    Ok(answer) => panic!("{answer:?}"),
                }
                if questions.is_empty() {
                    let last = match answer {
                        Err(Refusal::NoLeg(leg)) => leg as usize + 1,
                        _ => stops.len() - 1,
                    };
                    self.searched(class, &stops, last, [route, log], before, paper);
                    self.barred(class, &stops[..=last], answer, before, paper);
                }
                return;
            }
        };
        self.others[which][answer.is_err() as usize] += 1;
    }

    fn found(&mut self, stops: &[u32], stopped: Stopped, before: &Unit) {
        self.legs[stopped.legs as usize] += 1;
        let equal = stops.windows(2).any(|ends| ends[0] == ends[1]);
        let again = (2..stops.len()).any(|i| stops[..i - 1].contains(&stops[i]));
        self.equal += equal as usize;
        self.again += again as usize;
        self.distinct += (!equal && !again && stops.len() > 2) as usize;
        self.roads += (stopped.roads.iter().filter(|&&roads| roads > 0).count() > 1) as usize;
        let far = |total: Time| total >> 32 > 0;
        let leg = stopped.totals.iter().any(|&total| far(total));
        self.past_32_bits[0] += leg as usize;
        self.past_32_bits[1] += (!leg && far(stopped.whole)) as usize;
        let filled = before.estimates.iter().any(|&estimate| estimate != UNASKED);
        match (before.header.aimed, before.header.target == stops[1]) {
            (0, _) => self.targets[0] += 1,
            (_, false) => self.targets[1] += 1,
            (_, true) => self.targets[2] += filled as usize,
        }
    }

    fn lost(&mut self, stops: &[u32], leg: u32, after: &Unit, before: &Unit) {
        let (leg, legs) = (leg as usize, stops.len() - 1);
        self.lost[match leg {
            0 if legs == 1 => 0,
            0 => 1,
            _ if leg < legs - 1 => 2,
            _ => 3,
        }] += 1;
        self.lost_with_roads += stops[..=leg].windows(2).any(|ends| ends[0] != ends[1]) as usize;
        self.lost_at_once += after.elapsed.iter().all(|&time| time == NONE) as usize;
        assert_eq!((after.header.aimed, after.header.target), (1, stops[leg + 1]));
        assert!(after.live == before.live, "live times stay");
    }

    /// A list that was made up to a stop with a class that some road bars, beside its legs' totals if none did.
    fn barred(&mut self, class: u32, stops: &[u32], answer: Answer, before: &Unit, paper: &Paper) {
        let map = &paper.literal.map;
        if map.roads.iter().all(|road| road.admits(class)) {
            return;
        }
        let least = |ends: &[u32]| brute::least(map, &before.live, ends[0])[ends[1] as usize];
        match answer {
            Ok(Accepted::Stopped(stopped)) => {
                let whole: Time = stops.windows(2).map(least).sum();
                assert!(whole <= stopped.whole);
                self.round_barred += (whole < stopped.whole) as usize;
            }
            _ => self.lost_to_bars += (least(&stops[stops.len() - 2..]) != NONE) as usize,
        }
    }

    /// A list that was made up to a stop.
    fn searched(
        &mut self,
        class: u32,
        stops: &[u32],
        last: usize,
        lengths: [usize; 2],
        before: &Unit,
        paper: &Paper,
    ) {
        let n = paper.n();
        self.changed += (before.live[..] != paper.literal.map.base()) as usize;
        let least = [stops.len() * n, n];
        self.lengths[0] += (lengths == least) as usize;
        self.lengths[1] += (lengths[0] > least[0] && lengths[1] > least[1]) as usize;
        let count =
            |ends: &[u32]| paper.literal.search(class, &before.live, ends[0], ends[1]).log.len();
        let last_count = count(&stops[last - 1..=last]);
        self.longer_log += stops[..last].windows(2).any(|ends| count(ends) > last_count) as usize;
    }

    fn refused(
        &mut self,
        stops: &[u32],
        [route, log]: [usize; 2],
        questions: &[Refusal],
        n: usize,
    ) {
        self.refusals[questions[0].number() as usize] += 1;
        match questions[0] {
            Refusal::StopCount => {
                self.counts[match stops.len() {
                    0 => 0,
                    1 => 1,
                    33 => 2,
                    _ => 3,
                }] += 1
            }
            Refusal::NoJunction => {
                let first = stops.iter().position(|&stop| stop as usize >= n);
                self.last_stop += (first == Some(stops.len() - 1)) as usize;
            }
            Refusal::NoClass => (),
            _ => {
                self.by_one[0] += (route + 1 == stops.len() * n && log >= n) as usize;
                self.by_one[1] += (log + 1 == n && route >= stops.len() * n) as usize;
            }
        }
        for (met, two) in self.both.iter_mut().zip([
            [Refusal::StopCount, Refusal::NoJunction],
            [Refusal::NoJunction, Refusal::LentLengths],
            [Refusal::StopCount, Refusal::NoClass],
            [Refusal::NoClass, Refusal::NoJunction],
            [Refusal::NoClass, Refusal::LentLengths],
        ]) {
            *met += questions.starts_with(&two) as usize;
        }
    }

    /// Everything that a list can answer was met at least so often.
    fn outcomes_at_least(&self, least: usize) {
        let some = [
            self.lost_with_roads,
            self.lost_at_once,
            self.equal,
            self.again,
            self.distinct,
            self.roads,
            self.longer_log,
            self.changed,
            self.round_barred,
            self.lost_to_bars,
        ];
        let rows = [&self.lost[..], &some, &self.targets, &self.lengths, &self.others.concat()];
        assert!(rows.concat().iter().all(|&met| met >= least), "{self:?}");
    }

    /// And so was every refusal.
    fn refusals_at_least(&self, least: usize) {
        let refusals = [12, 14, 16, 18].map(|number| self.refusals[number]);
        let rows = [&refusals[..], &self.counts, &[self.last_stop], &self.by_one, &self.both];
        assert!(rows.concat().iter().all(|&met| met >= least), "{self:?}");
        assert_eq!(self.refusals.iter().sum::<usize>(), refusals.iter().sum(), "{self:?}");
    }
}

/// A number of stops: mostly few, now and then up to the most, or a wrong number.
fn count(random: &mut Random) -> usize {
    match random.below(40) {
        0 => 0,
        1 => 1,
        2 => MOST_STOPS + 1,
        3 => StopList::MOST,
        4 => MOST_STOPS,
        5..9 => 2 + random.below(MOST_STOPS - 1),
        9..14 => 2,
        _ => 2 + random.below(5),
    }
}

/// So many stops: now and then the one before again, an earlier one, or one that is no junction.
fn stops(random: &mut Random, n: usize, count: usize, wrong: u32) -> Vec<u32> {
    let mut stops: Vec<u32> = Vec::new();
    for _ in 0..count {
        let stop = match (random.below(8), stops.last()) {
            (0, Some(&last)) => last,
            (1, Some(_)) => random.pick(&stops),
            _ => random.below(n) as u32,
        };
        stops.push(stop);
    }
    if count > 0 && random.chance(wrong) {
        let any = random.below(count);
        let place = random.pick(&[0, any, count - 1]);
        stops[place] = random.pick(&[n as u32, n as u32 + 1, u32::MAX]);
    }
    stops
}

fn list(random: &mut Random, n: usize) -> Call {
    let count = count(random);
    let stops = stops(random, n, count, 12);
    let (least, more) = (count * n, random.below(9));
    let route = match random.below(16) {
        0 if least > 0 => least - 1,
        1 => least.saturating_sub(n),
        2 => random.below(least + 1),
        3..8 => least + 1 + more,
        _ => least,
    };
    let log = match random.below(16) {
        0 => n - 1,
        1 => random.below(n),
        2..10 => n + 1 + more,
        _ => n,
    };
    Call::Stops { class: class(random), stops: StopList::of(&stops), route, log }
}

/// A class: mostly one.
fn class(random: &mut Random) -> u32 {
    match random.below(12) {
        0 => random.pick(&[8, 9, 255, 256, u32::MAX]),
        _ => random.below(CLASSES as usize) as u32,
    }
}

/// A time for a road: mostly an allowed one.
fn time(random: &mut Random, base: Time) -> Time {
    match random.below(12) {
        0 => base - 1,
        1 => random.pick(&[0, LONGEST + 1, UNASKED, (1 << 32) - 1, (1 << 32) + base]),
        2..4 => CLOSED,
        4..9 => base,
        _ => LONGEST.min(base + random.within(1..=4)),
    }
}

/// Any of the six calls.
fn any_call(random: &mut Random, map: &Map) -> Call {
    let (n, m) = (map.n(), map.m());
    let (more_junctions, more_roads) = (random.chance(12), m == 0 || random.chance(10));
    let junction = random.below(n + more_junctions as usize) as u32;
    let road = random.below(m + more_roads as usize) as u32;
    let base = map.roads.get(road as usize).map_or(1, |road| road.base);
    let time = time(random, base);
    let (less, class) = (random.below(8) / 7, class(random));
    match random.below(20) {
        0..3 => Call::Set { road, time },
        3..5 => Call::Aim { junction },
        5..7 => Call::Estimate { junction },
        7..10 => Call::Go { class, start: junction, route: n + 2 - 3 * less, log: n + 1 - less },
        10..12 => Call::Preview { class, road, time, start: junction, work: 2 * n - less },
        _ => list(random, n),
    }
}

/// A list of calls on one map, whose roads are delayed and closed at first; often some bar classes.
fn run(random: &mut Random, mut map: Map, calls: usize, met: &mut Met) {
    if random.chance(60) {
        maps::bar(random, &mut map);
    }
    let live = traffic::live_times(random, &map);
    let mut trial = Trial::new(map);
    for (road, time) in (0..).zip(live) {
        trial.unit.set(road, time).unwrap();
        trial.paper.unit.live[road as usize] = time;
    }
    for _ in 0..calls {
        let call = any_call(random, &trial.paper.literal.map);
        trial.call(random, call, met).ok();
    }
}

#[test]
fn small_maps() {
    let mut random = Random::new(1);
    let mut met = Met::default();
    for _ in 0..2_000 {
        let mut map = maps::small(&mut random);
        random.shuffle(&mut map.order);
        run(&mut random, map, 30, &mut met);
    }
    met.outcomes_at_least(100);
    met.refusals_at_least(40);
}

#[test]
fn towns() {
    with_stack(|| {
        let mut random = Random::new(2);
        let mut met = Met::default();
        for i in 0..40 {
            let (width, height) = (2 + random.below(9), 2 + random.below(9));
            let map = match i % 4 {
                0 => maps::even_grid(&mut random, width, height),
                1 => maps::line(2 + random.below(60)),
                _ => maps::town(&mut random, width, height, Streets::USUAL),
            };
            run(&mut random, map, 150, &mut met);
        }
        met.outcomes_at_least(3);
        met.refusals_at_least(2);
    });
}

/// Slow roads, on which a leg, or all of them together, take 2^32 tenths and more.
#[test]
fn totals_past_32_bits() {
    with_stack(|| {
        let mut random = Random::new(7);
        let mut met = Met::default();
        for i in 0..12 {
            let n = if i % 2 == 0 { 900 + random.below(100) } else { 100 + random.below(100) };
            let map = match i % 3 {
                0 => maps::line(n),
                1 => maps::ring(n),
                _ => maps::slow_road(&mut random, n, 30),
            };
            let mut trial = Trial::new(map);
            for _ in 0..12 {
                let count = if i % 2 == 0 { 2 + random.below(3) } else { MOST_STOPS };
                let stops = stops(&mut random, n, count, 0);
                let stops = StopList::of(&stops);
                let call = Call::Stops { class: 0, stops, route: count * n, log: n };
                trial.call(&mut random, call, &mut met).ok();
            }
        }
        assert!(met.past_32_bits.iter().all(|&met| met > 10), "{met:?}");
    });
}

/// Each number of legs, found; and each of them failing at every leg in turn.
#[test]
fn every_number_of_legs() {
    let mut random = Random::new(3);
    let mut met = Met::default();
    // All are reached from all, but for the last junction, which no road leads to.
    let mut map = maps::even_grid(&mut random, 4, 4);
    map.roads.push(Road::new(16, 3, 2));
    map.order.insert(5, 16);
    let mut trial = Trial::new(map);
    let mut failed = 0;
    for legs in 1..=MOST_LEGS {
        let list = |stops: &[u32]| Call::Stops {
            class: 0,
            stops: StopList::of(stops),
            route: 17 * stops.len(),
            log: 17,
        };
        let found = stops(&mut random, 16, legs + 1, 0);
        let answer = trial.call(&mut random, list(&found), &mut met);
        assert!(
            matches!(answer, Ok(Accepted::Stopped(Stopped { legs: made, .. })) if made as usize == legs)
        );
        for leg in 0..legs {
            // An end that no road leads to.
            let mut lost = found.clone();
            lost[leg + 1] = 16;
            let answer = trial.call(&mut random, list(&lost), &mut met);
            assert_eq!(answer, Err(Refusal::NoLeg(leg as u32)));
            failed += 1;
        }
    }
    assert_eq!(failed, 31 * 32 / 2);
    assert_eq!(met.legs[1..], [1; 31]);
    assert_eq!(met.lost, [1, 30, 435, 30]);
}

/// Refused by the first that says no of 16, 18, 12 and 14, with nothing altered, whatever the others would say.
#[test]
fn refusals_in_order() {
    let (mut random, mut met) = (Random::new(4), Met::default());
    let mut refused = 0;
    for map in
        [maps::map_p(), maps::random(&mut random, 7, 20, 9), maps::random(&mut random, 1, 0, 1)]
    {
        let n = map.n();
        for aimed in [false, true] {
            let mut trial = Trial::new(map.clone());
            if aimed {
                trial.call(&mut random, Call::Aim { junction: 0 }, &mut met).unwrap();
                let go = Call::Go { class: 0, start: n as u32 - 1, route: n, log: n };
                trial.call(&mut random, go, &mut met).ok();
            }
            let mut refuse = |class: u32, stops: &[u32], route: usize, log: usize, question| {
                let before = trial.unit.clone();
                let call = Call::Stops { class, stops: StopList::of(stops), route, log };
                let answer = trial.call(&mut random, call, &mut met);
                assert_eq!(answer, Err(question), "{call:?}");
                assert!(trial.unit == before, "{call:?}, refused, alters the unit");
                refused += 1;
            };
            let bad = n as u32;
            for count in [0, 1, 33, 34, 36] {
                for stop in [0, bad] {
                    for (route, log) in [(count * n, n), (0, 0)] {
                        for class in [0, 8] {
                            refuse(class, &vec![stop; count], route, log, Refusal::StopCount);
                        }
                    }
                }
            }
            for count in [2, 3, 32] {
                for place in 0..count {
                    for (route, log) in [(count * n, n), (0, n), (count * n, 0), (0, 0)] {
                        let mut stops = vec![0; count];
                        stops[place] = bad + place as u32;
                        refuse(0, &stops, route, log, Refusal::NoJunction);
                        refuse(8, &stops, route, log, Refusal::NoClass);
                    }
                }
                for route in [0, n - 1, n, (count - 1) * n, count * n - 1, count * n, 4 * count * n]
                {
                    for log in [0, n - 1, n, 3 * n] {
                        if route < count * n || log < n {
                            refuse(7, &vec![0; count], route, log, Refusal::LentLengths);
                            refuse(8, &vec![0; count], route, log, Refusal::NoClass);
                        }
                    }
                }
            }
            // With one entry more each, it is made.
            let call =
                Call::Stops { class: 0, stops: StopList::of(&[0; 32]), route: 32 * n, log: n };
            assert_eq!(
                trial.call(&mut random, call, &mut met),
                Ok(Accepted::Stopped(Stopped::of(&[(0, 0); 31])))
            );
        }
    }
    met.refusals_at_least(6);
    assert_eq!(refused, 3 * 2 * 2 * (20 + 4 * 37 + 3 * 24));
}

/// The lists on map P, with the router beside them.
#[test]
fn stops_of_map_p() {
    let call = |stops: &[u32]| Call::Stops {
        class: 0,
        stops: StopList::of(stops),
        route: 4 * stops.len(),
        log: 4,
    };
    let mut both = Both::prepare(&maps::map_p(), 5).unwrap();
    let reply = both.call(call(&[0, 3, 0]));
    assert_eq!(reply.answer, Ok(Accepted::Stopped(Stopped::of(&[(20, 2), (20, 1)]))));
    assert_eq!((&reply.route[..], &reply.log[..]), (&[0, 1, 4][..], &[3, 0, 3][..]));
    assert_eq!((both.unit.header.aimed, both.unit.header.target), (1, 0));
    let Ok(Accepted::Stopped(stopped)) = reply.answer else { panic!("{reply:?}") };
    assert_eq!((stopped.legs, stopped.whole), (2, 40));
    let reply = both.call(call(&[0, 0]));
    assert_eq!(reply.answer, Ok(Accepted::Stopped(Stopped::of(&[(0, 0)]))));
    assert_eq!((&reply.route[..], &reply.log[..]), (&[][..], &[0][..]));

    both.call(Call::Set { road: 4, time: CLOSED });
    both.call(Call::Aim { junction: 3 });
    let reply = both.call(call(&[0, 3, 0]));
    assert_eq!(reply.answer, Err(Refusal::NoLeg(1)));
    assert_eq!((&reply.route[..], &reply.log[..]), (&[0, 1][..], &[3, 1, 3][..]));
    assert_eq!((both.unit.header.aimed, both.unit.header.target), (1, 0));
    assert_eq!(both.unit.elapsed[..], [NONE, NONE, NONE, 0]);
}

/// Map P with road 1 barred to class 0: there and back by the other roads, or by it; with road 2 closed too, 17 for
/// that class alone. 18 comes after 16, and before 12 and 14.
#[test]
fn stops_of_classes() {
    let call = |class, stops: &[u32]| {
        let stops = StopList::of(stops);
        Call::Stops { class, stops, route: 4 * stops.len(), log: 4 }
    };
    let found = |legs: &[(Time, u32)]| Ok(Accepted::Stopped(Stopped::of(legs)));
    let mut both = Both::prepare(&maps::map_p_with_classes(), 5).unwrap();
    for _ in 0..2 {
        let reply = both.call(call(0, &[0, 3, 0]));
        assert_eq!(reply.answer, found(&[(25, 2), (20, 1)]));
        assert_eq!((&reply.route[..], &reply.log[..]), (&[2, 3, 4][..], &[3, 0, 2, 3][..]));
        let reply = both.call(call(1, &[0, 3, 0]));
        assert_eq!(reply.answer, found(&[(20, 2), (20, 1)]));
        assert_eq!((&reply.route[..], &reply.log[..]), (&[0, 1, 4][..], &[3, 0, 3][..]));
        assert_eq!(both.unit.live[..], maps::map_p().base());
    }
    both.call(Call::Set { road: 2, time: CLOSED });
    let reply = both.call(call(0, &[3, 0, 3]));
    assert_eq!(reply.answer, Err(Refusal::NoLeg(1)));
    assert_eq!((&reply.route[..], &reply.log[..]), (&[4][..], &[0, 1][..]));
    assert_eq!(both.call(call(7, &[3, 0, 3])).answer, found(&[(20, 1), (20, 2)]));
    for class in [8, 9, 255, u32::MAX] {
        for stops in [&[0, 3][..], &[4, 9], &[0; 32]] {
            assert_eq!(both.call(call(class, stops)).answer, Err(Refusal::NoClass));
            let stops = StopList::of(stops);
            let short = Call::Stops { class, stops, route: 0, log: 0 };
            assert_eq!(both.call(short).answer, Err(Refusal::NoClass));
        }
        for stops in [&[][..], &[0], &[4; 33]] {
            assert_eq!(both.call(call(class, stops)).answer, Err(Refusal::StopCount));
        }
    }
}

/// The chains of at most so many open roads.
struct Chains<'a> {
    roads: &'a [Road],
    live: &'a [Time],
    longest: usize,
}

impl Chains<'_> {
    /// Tells of each chain that goes on from these junctions, itself first, its junctions and its total.
    fn each(&self, met: &mut Vec<u32>, total: Time, told: &mut impl FnMut(&[u32], Time)) {
        told(met, total);
        if met.len() > self.longest {
            return;
        }
        for (road, &live) in self.roads.iter().zip(self.live) {
            if live != CLOSED && met.last() == Some(&road.tail) {
                met.push(road.head);
                self.each(met, total + live, told);
                met.pop();
            }
        }
    }
}

/// There are places, each from the one before it on, where the chain meets the stops.
fn meets(chain: &[u32], stops: &[u32]) -> bool {
    let mut places = chain.iter().peekable();
    stops.iter().all(|stop| {
        while places.next_if(|&met| met != stop).is_some() {}
        places.peek().is_some()
    })
}

/// On tiny maps, the whole is at most the total of every chain, with any beginning and any end, that meets the
/// stops in that order, and one has it; 17 names the first leg that no chain leads along.
#[test]
fn at_most_every_chain_that_meets_the_stops() {
    assert!(meets(&[4, 0, 1, 2, 5], &[0, 2]) && meets(&[0], &[0, 0]) && !meets(&[0, 1], &[1, 0]));
    let mut random = Random::new(5);
    let (mut chains, mut longer, mut found, mut lost, mut equal) = (0, 0, 0, 0, 0);
    for _ in 0..4_000 {
        let n = 1 + random.below(4);
        let m = if n == 1 { 0 } else { random.below(8) };
        let mut map = maps::random(&mut random, n, m, 3);
        let class = random.below(CLASSES as usize) as u32;
        if random.chance(50) {
            maps::bar(&mut random, &mut map);
        }
        let live = traffic::live_times(&mut random, &map);
        let count = 2 + random.below(3);
        let stops = stops(&mut random, n, count, 0);
        let mut unit = Unit::new(&map.card().unwrap(), n, map.m(), order::pairs(&map));
        unit.prepare().unwrap();
        for (road, &time) in (0..).zip(&live) {
            unit.set(road, time).unwrap();
        }
        let (mut route, mut log) = (Area::new(count * n), Area::new(n));
        let answer = unit.stops(class, &stops, &mut route, &mut log);
        let live = map.met_by(class, &live);

        // Each leg of the answer has at most n - 1 roads; a chain of more may meet the stops too.
        let all = Chains { roads: &map.roads, live: &live, longest: (count - 1) * (n - 1) + 1 };
        let (mut least, mut legs) = (None::<Time>, vec![false; count - 1]);
        for start in 0..n as u32 {
            all.each(&mut vec![start], 0, &mut |met, total| {
                chains += 1;
                for (leg, ends) in stops.windows(2).enumerate() {
                    legs[leg] |= meets(met, ends);
                }
                if meets(met, &stops) {
                    least = Some(least.map_or(total, |least| least.min(total)));
                    longer += (answer.is_ok_and(|stopped| stopped.whole < total)) as usize;
                }
            });
        }
        match answer {
            Ok(stopped) => {
                assert_eq!(Some(stopped.whole), least, "{map:?}, {live:?}, {stops:?}");
                equal += stops.windows(2).any(|ends| ends[0] == ends[1]) as usize;
                found += 1;
            }
            Err(refusal) => {
                let first = legs.iter().position(|led| !led).expect("a leg without a chain");
                assert_eq!(refusal, Refusal::NoLeg(first as u32), "{map:?}, {live:?}, {stops:?}");
                assert_eq!(least, None);
                lost += 1;
            }
        }
    }
    assert!(
        chains > 100_000 && longer > 10_000 && found > 1_000 && lost > 1_000 && equal > 300,
        "{chains} chains, {longer} longer; {found} found, {equal} with equal neighbours, {lost} lost"
    );
}

/// The largest whole: 31 legs of 40,950,000,000, each once round the largest ring but for one road.
#[test]
fn the_largest_whole() {
    with_stack(|| {
        let n = MOST_JUNCTIONS;
        let map = maps::ring(n);
        let mut both = Both::prepare(&map, order::pairs(&map)).unwrap();
        let stops: Vec<u32> = (0..MOST_STOPS).rev().map(|stop| stop as u32).collect();
        let call =
            Call::Stops { class: 0, stops: StopList::of(&stops), route: MOST_STOPS * n, log: n };
        let reply = both.call(call);
        let want = Stopped::of(&[(40_950_000_000, 4_095); MOST_LEGS]);
        assert_eq!(reply.answer, Ok(Accepted::Stopped(want)));
        assert_eq!(want.whole, 1_269_450_000_000);
        let roads: Vec<u32> = stops
            .windows(2)
            .flat_map(|ends| (0..n as u32 - 1).map(move |i| (ends[0] + i) % n as u32))
            .collect();
        assert_eq!(reply.route, roads);
        assert_eq!(both.unit.header.target, 0);
    });
}

/// On the largest town: lists of any number of stops, with roads closed and without.
#[test]
fn the_largest_town() {
    with_stack(|| {
        let mut random = Random::new(6);
        let mut map = maps::largest_town(&mut random);
        // One in 20 roads bars some classes.
        for i in 0..map.m() / 20 {
            map.roads[20 * i].access = random.word() as u8;
        }
        let n = map.n();
        let mut both = Both::prepare(&map, order::pairs(&map)).unwrap();
        let (mut found, mut lost) = (0, 0);
        for percent in [0, 10, 60, 80] {
            for (road, time) in traffic::changes(&mut random, &map, percent) {
                both.router.set(road, time).unwrap();
                both.unit.set(road, time).unwrap();
            }
            for count in [2, 3, 9, 17, MOST_STOPS] {
                let stops = stops(&mut random, n, count, 0);
                let class = random.below(CLASSES as usize) as u32;
                let (stop_list, route) = (StopList::of(&stops), count * n);
                let call = Call::Stops { class, stops: stop_list, route, log: n };
                let mut single = both.unit.clone();
                let reply = both.call(call);
                // The same leg by leg through the calls of document 01.
                let (mut route, mut log) = (vec![0; n], vec![0; n]);
                let (mut legs, mut roads) = (Vec::new(), Vec::new());
                let mut due = None;
                for (leg, ends) in (0..).zip(stops.windows(2)) {
                    single.aim(ends[1]).unwrap();
                    match single.go(class, ends[0], &mut route, &mut log) {
                        Ok(trip) => {
                            roads.extend(&route[..trip.roads as usize]);
                            legs.push((trip.total, trip.roads));
                        }
                        Err(_) => {
                            due = Some(Refusal::NoLeg(leg));
                            break;
                        }
                    }
                }
                let want = due.map_or(Ok(Accepted::Stopped(Stopped::of(&legs))), Err);
                assert_eq!(reply.answer, want, "{stops:?}");
                assert_eq!(reply.route, roads, "{stops:?}");
                assert!(single == both.unit, "{stops:?}: left otherwise than by aims and goes");
                *if reply.answer.is_ok() { &mut found } else { &mut lost } += 1;
            }
        }
        assert!(found > 8 && lost > 4, "{found} found, {lost} lost");
    });
}

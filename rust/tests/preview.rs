//! Preview of the proved unit (document 02, A2, with A6's classes) beside one that is written from the documents alone, with the
//! searches of `literal`.

use harness::both::{with_stack, Both};
use harness::brute;
use harness::calls::{Accepted, Call, Calls, Previewed, Refusal, CLASSES};
use harness::card::{LONGEST, MOST_JUNCTIONS};
use harness::literal::{Literal, Searched};
use harness::maps::{self, Map, Road, Streets};
use harness::order;
use harness::random::Random;
use harness::time::{Time, CLOSED, NONE, UNASKED};
use harness::traffic;
use harness::unit::{same, Area, LentAreas, Unit};

/// A preview's arguments.
#[derive(Clone, Copy, Debug)]
struct Asked {
    class: u32,
    road: u32,
    time: Time,
    start: u32,
    work: usize,
}

/// A unit, and beside it the live times and the target that it is to have.
struct Trial {
    literal: Literal,
    unit: Unit,
    live: Vec<Time>,
    target: Option<u32>,
}

impl Trial {
    fn new(map: Map) -> Trial {
        let room = order::pairs(&map);
        let card = map.card().unwrap();
        let mut unit = Unit::new(&card, map.n(), map.m(), room);
        unit.prepare().unwrap();
        Trial { live: map.base(), target: None, unit, literal: Literal::new(map) }
    }

    /// Some call between previews, which is right by other tests.
    fn other_call(&mut self, random: &mut Random) {
        let (n, m) = (self.literal.map.n(), self.literal.map.m());
        let junction = random.below(n) as u32;
        match random.below(10) {
            0..4 if m > 0 => {
                let road = random.below(m);
                let base = self.literal.map.roads[road].base;
                self.set(road as u32, time(random, base));
            }
            0..6 => self.aim(junction),
            6 => drop(self.unit.estimate(junction)),
            _ => {
                let class = random.below(CLASSES as usize) as u32;
                let _ = self.unit.go(class, junction, &mut vec![0; n], &mut vec![0; n]);
            }
        }
    }

    fn set(&mut self, road: u32, time: Time) {
        if self.unit.set(road, time).is_ok() {
            self.live[road as usize] = time;
        }
    }

    fn aim(&mut self, junction: u32) {
        self.unit.aim(junction).unwrap();
        self.target = Some(junction);
    }

    /// Makes a preview on a work area of any words, and looks at all that it answers and leaves.
    fn preview(&mut self, random: &mut Random, asked: Asked, met: &mut Met) -> Option<Previewed> {
        let Asked { class, road, time, start, work } = asked;
        let mut words = Area::of(&(0..work).map(|_| random.bits()).collect::<Vec<Time>>());
        let (before, words_before) = (self.unit.clone(), words.clone());
        let answer = self.unit.preview(class, road, time, start, &mut words);
        assert!(words.guarded(), "{asked:?} alters words beside its work area");
        let questions = self.refusals(asked);
        if let Some(&refusal) = questions.first() {
            assert_eq!(answer, Err(refusal), "{asked:?}");
            assert!(self.unit == before, "{asked:?}, refused, alters the unit");
            assert!(words == words_before, "{asked:?}, refused, alters its work area");
            met.refused(asked, self.literal.map.n(), &questions);
            return None;
        }
        let target = self.target.expect("a target, by 13");
        let mut replaced = self.live.clone();
        replaced[road as usize] = time;
        let [now, then] =
            [&self.live, &replaced].map(|live| self.literal.search(class, live, start, target));
        let (present, new) = (now.total, then.total);
        let change = present.zip(new).map(|(present, new)| new as i64 - present as i64);
        let want = Previewed { present, new, change };
        assert_eq!(answer, Ok(want), "{asked:?}");

        let least = self.literal.estimates(target);
        let mut estimates = before.estimates.to_vec();
        for junction in 0..self.literal.map.n() {
            if now.fills[junction] || then.fills[junction] {
                estimates[junction] = least[junction];
            }
        }
        same("estimates", &self.unit.estimates, &estimates);
        let left = Unit { estimates: Area::of(&estimates), ..before.clone() };
        assert!(self.unit == left, "{asked:?} alters more than estimates");
        met.answered(self, asked, &before.estimates, [&now, &then], want);
        Some(want)
    }

    /// The questions that refuse, in order.
    fn refusals(&self, Asked { class, road, time, start, work }: Asked) -> Vec<Refusal> {
        let n = self.literal.map.n();
        let base = self.literal.map.roads.get(road as usize).map(|road| road.base);
        let allowed = |base| time == CLOSED || (base <= time && time <= LONGEST);
        let questions = [
            (work == 2 * n, Refusal::Lengths),
            (class <= 7, Refusal::NoClass),
            (base.is_some(), Refusal::NoRoad),
            (base.is_none_or(allowed), Refusal::NotAllowed),
            ((start as usize) < n, Refusal::NoJunction),
            (self.target.is_some(), Refusal::NoTarget),
        ];
        questions.into_iter().filter(|(passes, _)| !passes).map(|(_, refusal)| refusal).collect()
    }
}

/// How often what is worth meeting was met.
#[derive(Debug, Default)]
struct Met {
    /// Change below 0, 0 and above.
    changes: [usize; 3],
    /// No chain now, with the time set, and either way.
    absent: [usize; 3],
    /// The present time once more, with a total and without.
    again: [usize; 2],
    from_the_target: usize,
    /// The road is closed and would be open, or the other way round, or stays closed.
    opening: usize,
    closing: usize,
    shut: usize,
    /// A time below the live one, which is from the base time on.
    below_live: usize,
    /// Estimates that only the first search fills, only the second, and both,
    filled: [usize; 3],
    /// only the second, where the first finds no chain,
    filled_after_none: usize,
    /// those that are left unasked, and those that were filled before.
    unasked: usize,
    kept: usize,
    /// Elapsed has times, which stay.
    elapsed: usize,
    /// Refused with each number;
    refusals: [usize; Refusal::NUMBERS],
    /// by 9 with too short a work area, and too long a one,
    lengths: [usize; 2],
    /// where a later question would refuse too: 9 and 10, 10 and 12, 11 and 12, 12 and 13, 9 and 18, 18 and 10, 18 and
    /// 11, 18 and 12, 18 and 13,
    both: [usize; 9],
    /// and 11 where the live time is above the base time.
    below_base: usize,
    /// A road that bars the class, of which both totals are the same; and one that lets it in beside others that do not,
    /// with a change.
    barred: usize,
    beside_barred: usize,
    /// Where a road bars the class, another outcome than if none did.
    otherwise: usize,
    /// Totals of 2^32 and more: now, and with the time set; and a change by as much.
    past_32_bits: [usize; 3],
}

impl Met {
    fn refused(&mut self, asked: Asked, n: usize, questions: &[Refusal]) {
        self.refusals[questions[0].number() as usize] += 1;
        if questions[0] == Refusal::Lengths {
            self.lengths[(asked.work > 2 * n) as usize] += 1;
        }
        for (met, two) in self.both.iter_mut().zip([
            [Refusal::Lengths, Refusal::NoRoad],
            [Refusal::NoRoad, Refusal::NoJunction],
            [Refusal::NotAllowed, Refusal::NoJunction],
            [Refusal::NoJunction, Refusal::NoTarget],
            [Refusal::Lengths, Refusal::NoClass],
            [Refusal::NoClass, Refusal::NoRoad],
            [Refusal::NoClass, Refusal::NotAllowed],
            [Refusal::NoClass, Refusal::NoJunction],
            [Refusal::NoClass, Refusal::NoTarget],
        ]) {
            *met += questions.starts_with(&two) as usize;
        }
    }

    fn answered(
        &mut self,
        trial: &Trial,
        Asked { class, road, time, start, .. }: Asked,
        before: &[Time],
        [now, then]: [&Searched; 2],
        Previewed { present, new, change }: Previewed,
    ) {
        match change {
            Some(change) => self.changes[(1 + change.signum()) as usize] += 1,
            None => {
                self.absent[if new.is_some() { 0 } else { 1 + present.is_none() as usize }] += 1
            }
        }
        let far = |total: Option<Time>| total.is_some_and(|total| total >> 32 > 0) as usize;
        let by = change.map(|change| change.unsigned_abs());
        for (met, far) in self.past_32_bits.iter_mut().zip([far(present), far(new), far(by)]) {
            *met += far;
        }
        let map = &trial.literal.map;
        if !map.roads[road as usize].admits(class) {
            assert_eq!(present, new, "a road that bars the class");
            self.barred += 1;
        } else {
            let bars = map.roads.iter().any(|road| !road.admits(class));
            self.beside_barred += (bars && change.is_some_and(|change| change != 0)) as usize;
        }
        if map.n() < 300 && !map.admits_all() {
            let target = trial.target.expect("a target, by 13");
            let open = brute::least(map, &trial.live, start)[target as usize];
            self.otherwise += (present != (open != NONE).then_some(open)) as usize;
        }
        let live = trial.live[road as usize];
        self.again[present.is_none() as usize] += (time == live) as usize;
        self.from_the_target += (Some(start) == trial.target) as usize;
        self.opening += (live == CLOSED && time != CLOSED) as usize;
        self.closing += (live != CLOSED && time == CLOSED) as usize;
        self.shut += (live == CLOSED && time == CLOSED) as usize;
        self.below_live += (time < live && live != CLOSED) as usize;
        self.elapsed += trial.unit.elapsed.iter().any(|&time| time != NONE) as usize;
        for (junction, &old) in before.iter().enumerate() {
            match (old == UNASKED, now.fills[junction], then.fills[junction]) {
                (false, ..) => self.kept += 1,
                (true, false, false) => self.unasked += 1,
                (true, true, false) => self.filled[0] += 1,
                (true, true, true) => self.filled[2] += 1,
                (true, false, true) => {
                    self.filled[1] += 1;
                    self.filled_after_none += present.is_none() as usize;
                }
            }
        }
    }

    /// Everything that a preview can answer was met at least so often.
    fn outcomes_at_least(&self, least: usize) {
        let some = [
            self.from_the_target,
            self.opening,
            self.closing,
            self.shut,
            self.below_live,
            self.filled_after_none,
            self.unasked,
            self.kept,
            self.elapsed,
            self.barred,
            self.beside_barred,
            self.otherwise,
        ];
        let rows = [&self.changes[..], &self.absent, &self.again, &self.filled, &some];
        assert!(rows.concat().iter().all(|&met| met >= least), "{self:?}");
    }

    /// And so was every refusal.
    fn refusals_at_least(&self, least: usize) {
        let refusals = [9, 10, 11, 12, 13, 18].map(|number| self.refusals[number]);
        let rows = [&refusals[..], &self.lengths, &self.both, &[self.below_base]];
        assert!(rows.concat().iter().all(|&met| met >= least), "{self:?}");
        assert_eq!(self.refusals[14] + self.refusals[15], 0, "{self:?}");
    }
}

/// A time for a road: mostly an allowed one.
fn time(random: &mut Random, base: Time) -> Time {
    match random.below(12) {
        0 => base - 1,
        1 => random.pick(&[0, LONGEST + 1, UNASKED, 1 << 31, (1 << 32) - 1, (1 << 32) + base]),
        2..5 => CLOSED,
        5..8 => base,
        8 => LONGEST,
        _ => LONGEST.min(base + random.within(1..=4)),
    }
}

/// Arguments, of which each is now and then one to refuse.
fn asked(random: &mut Random, trial: &Trial, met: &mut Met) -> Asked {
    let (n, m) = (trial.literal.map.n(), trial.literal.map.m());
    let start = match random.below(12) {
        0 => random.pick(&[n as u32, n as u32 + 1, u32::MAX]),
        1 => trial.target.unwrap_or(0),
        _ => random.below(n) as u32,
    };
    let near: Vec<u32> = (0..)
        .zip(&trial.literal.map.roads)
        .filter(|(_, road)| road.tail == start)
        .map(|(i, _)| i)
        .collect();
    let road = match random.below(12) {
        0 => random.pick(&[m as u32, m as u32 + 1, u32::MAX]),
        _ if m == 0 => 0,
        1..6 if !near.is_empty() => random.pick(&near),
        _ => random.below(m) as u32,
    };
    let base = trial.literal.map.roads.get(road as usize).map_or(1, |road| road.base);
    let live = trial.live.get(road as usize).copied().unwrap_or(CLOSED);
    let time = if random.chance(15) { live } else { time(random, base) };
    let work = match random.below(20) {
        0 => random.pick(&[0, n, 2 * n - 1]),
        1 => random.pick(&[2 * n + 1, 2 * n + 2, 4 * n]),
        _ => 2 * n,
    };
    let class = match random.below(12) {
        0 => random.pick(&[8, 9, 255, 256, u32::MAX]),
        _ => random.below(CLASSES as usize) as u32,
    };
    let asked = Asked { class, road, time, start, work };
    let refused = trial.refusals(asked).first() == Some(&Refusal::NotAllowed);
    met.below_base += (refused && time < base && live > base) as usize;
    asked
}

/// A list of previews and other calls on one map, whose roads are delayed and closed at first; often some bar classes.
fn run(random: &mut Random, mut map: Map, calls: usize, met: &mut Met) {
    if random.chance(60) {
        maps::bar(random, &mut map);
    }
    let live = traffic::live_times(random, &map);
    let mut trial = Trial::new(map);
    for (road, time) in (0..).zip(live) {
        trial.set(road, time);
    }
    for _ in 0..calls {
        if random.chance(50) {
            trial.other_call(random);
        } else {
            let asked = asked(random, &trial, met);
            trial.preview(random, asked, met);
        }
    }
}

#[test]
fn small_maps() {
    let mut random = Random::new(1);
    let mut met = Met::default();
    for _ in 0..3_000 {
        let mut map = maps::small(&mut random);
        random.shuffle(&mut map.order);
        run(&mut random, map, 30, &mut met);
    }
    met.outcomes_at_least(40);
    met.refusals_at_least(100);
}

#[test]
fn towns() {
    with_stack(|| {
        let mut random = Random::new(2);
        let mut met = Met::default();
        for i in 0..60 {
            let (width, height) = (1 + random.below(16), 1 + random.below(16));
            let map = match i % 4 {
                0 => maps::even_grid(&mut random, width, height),
                1 => maps::line(2 + random.below(100)),
                _ => maps::town(&mut random, width, height, Streets::USUAL),
            };
            run(&mut random, map, 60, &mut met);
        }
        met.outcomes_at_least(3);
        met.refusals_at_least(3);
    });
}

/// On slow roads of about a thousand junctions, whose least totals pass 2^32; some with a short road from one end to the
/// other, without which a trip takes as much longer.
#[test]
fn totals_past_32_bits() {
    with_stack(|| {
        let mut random = Random::new(5);
        let mut met = Met::default();
        for i in 0..8 {
            let n = 900 + random.below(300);
            let mut map = match i % 4 {
                0 => maps::ring(n),
                1 => maps::line(n),
                _ => maps::slow_road(&mut random, n, 20),
            };
            if i % 2 == 1 {
                map.roads.push(Road::new(0, n as u32 - 1, 1));
            }
            let mut trial = Trial::new(map);
            for _ in 0..50 {
                let [start, target] = [random.below(n / 10), n - 1 - random.below(n / 10)];
                trial.aim(target as u32);
                let roads = &trial.literal.map.roads;
                let road = match random.chance(40) {
                    true => roads.len() - 1,
                    false => random.below(roads.len()),
                };
                let base = roads[road].base;
                let time = time(&mut random, base);
                let (road, start) = (road as u32, start as u32);
                let asked = Asked { class: 0, road, time, start, work: 2 * n };
                trial.preview(&mut random, asked, &mut met);
                // Open for the most part, so that there are chains.
                let time = if random.chance(70) { base } else { time };
                trial.set(road, time);
            }
        }
        assert!(met.past_32_bits.iter().all(|&met| met > 10), "{met:?}");
    });
}

/// Which estimates are filled, where only one of the two searches asks for that of junction 3.
#[test]
fn both_searches_run_to_their_end() {
    // From 0, road 0 leads to the target 1; road 1 to 2, and on to 3, from where roads lead to 1.
    let road = |(tail, head, base)| Road::new(tail, head, base);
    let roads = [(0, 1, 1), (0, 2, 1), (2, 3, 1), (3, 1, 1)].map(road).to_vec();
    let map = Map { roads, order: vec![3, 0, 1, 2] };
    let filled = |trial: &Trial| -> Vec<u32> {
        (0..4).filter(|&junction| trial.unit.estimates[junction as usize] != UNASKED).collect()
    };
    let asked = |road, time| Asked { class: 0, road, time, start: 0, work: 8 };
    let (mut random, mut met) = (Random::new(3), Met::default());
    let mut trial = |changes: &[(u32, Time)], road, time| {
        let mut trial = Trial::new(map.clone());
        trial.aim(1);
        for &(road, time) in changes {
            trial.set(road, time);
        }
        let answer = trial.preview(&mut random, asked(road, time), &mut met).unwrap();
        (answer.present, answer.new, filled(&trial))
    };
    let all = || vec![0, 1, 2, 3];
    // Both searches end at once.
    assert_eq!(trial(&[], 3, CLOSED), (Some(1), Some(1), vec![0, 1, 2]));
    assert_eq!(trial(&[], 0, 1), (Some(1), Some(1), vec![0, 1, 2]));
    // The first does, and the second goes round.
    assert_eq!(trial(&[], 0, CLOSED), (Some(1), Some(3), all()));
    assert_eq!(trial(&[], 0, 9), (Some(1), Some(3), all()));
    // The first goes round, or finds no chain; the second ends at once.
    assert_eq!(trial(&[(0, CLOSED)], 0, 1), (Some(3), Some(1), all()));
    assert_eq!(trial(&[(0, CLOSED), (3, CLOSED)], 0, 1), (None, Some(1), all()));
    // Neither finds a chain, and only one of them gets to 3.
    let closed = |roads: &[u32]| roads.iter().map(|&road| (road, CLOSED)).collect::<Vec<_>>();
    assert_eq!(trial(&closed(&[0, 2, 3]), 2, 1), (None, None, all()));
    assert_eq!(trial(&closed(&[0, 3]), 2, CLOSED), (None, None, all()));
    assert_eq!(trial(&closed(&[0, 2, 3]), 2, CLOSED), (None, None, vec![0, 1, 2]));
}

/// The previews of map P, with the machine and the router beside them.
#[test]
fn previews_of_map_p() {
    for (closed, road, time, present, new, change) in [
        (&[][..], 1, 15, Some(20), Some(25), Some(5)),
        (&[], 4, 30, Some(20), Some(20), Some(0)),
        (&[1], 1, 10, Some(25), Some(20), Some(-5)),
        (&[1], 2, CLOSED, Some(25), None, None),
        (&[1, 2], 2, 15, None, Some(25), None),
    ] {
        let mut both = Both::prepare(&maps::map_p(), 5).unwrap();
        both.call(Call::Aim { junction: 3 });
        for &road in closed {
            both.call(Call::Set { road, time: CLOSED });
        }
        let reply = both.call(Call::Preview { class: 0, road, time, start: 0, work: 8 });
        let want = Previewed { present, new, change };
        assert_eq!(reply.answer, Ok(Accepted::Previewed(want)), "{closed:?}, {road} at {time}");
        let reply = both.call(Call::Preview { class: 0, road, time, start: 3, work: 8 });
        let want = Previewed { present: Some(0), new: Some(0), change: Some(0) };
        assert_eq!(reply.answer, Ok(Accepted::Previewed(want)), "start 3, target 3");
    }
}

/// Map P with road 1 barred to class 0: what is set of it changes nothing for that class, and all for another. With
/// road 2 closed too there is no chain for it.
#[test]
fn previews_of_classes() {
    for (closed, class, road, time, present, new, change) in [
        (&[][..], 0, 1, 15, Some(25), Some(25), Some(0)),
        (&[], 0, 1, CLOSED, Some(25), Some(25), Some(0)),
        (&[], 1, 1, 15, Some(20), Some(25), Some(5)),
        (&[], 0, 2, CLOSED, Some(25), None, None),
        (&[], 7, 2, CLOSED, Some(20), Some(20), Some(0)),
        (&[1], 1, 1, 10, Some(25), Some(20), Some(-5)),
        (&[1], 0, 1, 10, Some(25), Some(25), Some(0)),
        (&[2], 0, 1, 10, None, None, None),
        (&[2], 0, 2, 15, None, Some(25), None),
    ] {
        let mut both = Both::prepare(&maps::map_p_with_classes(), 5).unwrap();
        both.call(Call::Aim { junction: 3 });
        for &road in closed {
            both.call(Call::Set { road, time: CLOSED });
        }
        let live = both.unit.live.clone();
        let reply = both.call(Call::Preview { class, road, time, start: 0, work: 8 });
        let want = Ok(Accepted::Previewed(Previewed { present, new, change }));
        assert_eq!(reply.answer, want, "class {class}, {closed:?}, {road} at {time}");
        assert_eq!(both.unit.live, live);
        for (class, work, refusal) in
            [(8, 8, Refusal::NoClass), (8, 7, Refusal::Lengths), (7, 8, Refusal::NoRoad)]
        {
            let reply = both.call(Call::Preview { class, road: 5, time: 0, start: 4, work });
            assert_eq!(reply.answer, Err(refusal));
        }
    }
}

/// The largest totals: 40,950,000,000 now or then, and none or the least one the other way round.
#[test]
fn the_largest_changes() {
    with_stack(|| {
        let n = MOST_JUNCTIONS as u32;
        // A ring, and a road of a tenth of a second from 1, where it starts, to 0, where it ends.
        let mut map = maps::ring(MOST_JUNCTIONS);
        map.roads.push(Road::new(1, 0, 1));
        let mut both = Both::prepare(&map, order::pairs(&map)).unwrap();
        both.call(Call::Aim { junction: 0 });
        let longest = 40_950_000_000;
        let mut ask = |road, time, present, new, change| {
            let call = Call::Preview { class: 0, road, time, start: 1, work: 2 * MOST_JUNCTIONS };
            let answer = both.call(call).answer;
            assert_eq!(answer, Ok(Accepted::Previewed(Previewed { present, new, change })));
            both.call(Call::Set { road, time });
        };
        ask(n, CLOSED, Some(1), Some(longest), Some(longest as i64 - 1));
        ask(n, 1, Some(longest), Some(1), Some(1 - longest as i64));
        ask(5, CLOSED, Some(1), Some(1), Some(0));
        ask(n, CLOSED, Some(1), None, None);
        ask(5, LONGEST, None, Some(longest), None);
        ask(n, CLOSED, Some(longest), Some(longest), Some(0));
    });
}

/// On the largest town: every word beside the estimates stays.
#[test]
fn the_largest_town() {
    with_stack(|| {
        let mut random = Random::new(4);
        let map = maps::largest_town(&mut random);
        let (n, m) = (map.n(), map.m());
        let mut both = Both::prepare(&map, order::pairs(&map)).unwrap();
        let (mut more, mut found) = (0, 0);
        for _ in 0..20 {
            let (start, target) = (random.below(n) as u32, random.below(n) as u32);
            both.call(Call::Aim { junction: target });
            let trip = both.call(Call::Go { class: 0, start, route: n, log: n });
            for _ in 0..4 {
                let road = match trip.route.is_empty() {
                    true => random.below(m) as u32,
                    false => random.pick(&trip.route),
                };
                let time = random.pick(&[CLOSED, LONGEST]);
                let call = Call::Preview { class: 0, road, time, start, work: 2 * n };
                let mut lent = LentAreas::of(call);
                let before = both.unit.clone();
                let reply = both.call(call);
                let Ok(Accepted::Previewed(Previewed { present, change, .. })) = reply.answer
                else {
                    panic!("{call:?}: {reply:?}")
                };
                found += present.is_some() as usize;
                more += change.is_some_and(|change| change > 0) as usize;
                let left = Unit { estimates: both.unit.estimates.clone(), ..before };
                assert!(left == both.unit, "more than estimates");
                // Once more, with all estimates known that it asks for.
                let again = both.unit.clone();
                let answer = both.unit.call(call, lent.lend());
                assert_eq!(answer, reply.answer);
                assert!(both.unit == again && lent.guarded());
            }
        }
        assert!(found > 60 && more > 30, "{found} found, {more} longer");
    });
}

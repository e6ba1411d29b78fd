//! How far one radio report moves a trip of the proved unit (document 02, A8): its own answers to a go, a preview of the report, the
//! report and a go after it, in turn, after lists of all six calls. The rules are those of docs/REPORTS.md. Every answer is the
//! machine's too, and every go's total the least one by rounds over all roads, on large maps by Dijkstra's: two goes that are wrong
//! alike do not pass.

use harness::both::{with_stack, Both};
use harness::brute;
use harness::calls::{Accepted, Call, Calls, Previewed, Refusal, StopList, Stopped, CLASSES};
use harness::card::{LONGEST, MOST_JUNCTIONS};
use harness::dijkstra;
use harness::graph::Graph;
use harness::machine::{Machine, Reply};
use harness::maps::{self, Map, Road, Streets};
use harness::order;
use harness::random::Random;
use harness::time::{Time, CLOSED, NONE, UNASKED};
use harness::traffic;
use harness::unit::{LentAreas, Unit};
use std::cmp::Ordering;
use std::fs;
use std::path::Path;

/// A report on a road, and the trip that is looked at.
#[derive(Clone, Copy, Debug)]
struct Report {
    class: u32,
    start: u32,
    road: u32,
    /// The road's live time before the report, and the one that is reported.
    old: Time,
    time: Time,
    /// Does the road bar the class?
    barred: bool,
}

/// What it does to the road.
#[derive(Clone, Copy, Debug, PartialEq, Eq)]
enum Kind {
    Up,
    Down,
    Again,
    Closes,
    Opens,
}

/// The totals of the goes before it and after it, and what the preview answers.
#[derive(Clone, Copy, Debug, PartialEq, Eq)]
struct Told {
    now: Option<Time>,
    new: Option<Time>,
    preview: Previewed,
}

impl Kind {
    fn of(old: Time, time: Time) -> Kind {
        match (old, time) {
            _ if old == time => Kind::Again,
            (_, CLOSED) => Kind::Closes,
            (CLOSED, _) => Kind::Opens,
            _ if old < time => Kind::Up,
            _ => Kind::Down,
        }
    }
}

impl Report {
    fn kind(self) -> Kind {
        Kind::of(self.old, self.time)
    }

    /// The d of a road that is open and stays so.
    fn by(self) -> Time {
        self.old.abs_diff(self.time)
    }

    /// A go, a preview of the report, the report and a go after it, in turn. What they answer obeys the rules.
    fn turn(self, n: usize, mut call: impl FnMut(Call) -> Reply) -> Told {
        let Report { class, start, road, time, barred, .. } = self;
        let go = Call::Go { class, start, route: n, log: n };
        let before = call(go);
        let reply = call(Call::Preview { class, road, time, start, work: 2 * n });
        let Ok(Accepted::Previewed(preview)) = reply.answer else { panic!("{self:?}: {reply:?}") };
        assert_eq!(call(Call::Set { road, time }).answer, Ok(Accepted::Done), "{self:?}");
        let after = call(go);
        if barred {
            assert_eq!(before, after, "{self:?}: a road that bars the class");
        }
        let told = Told { now: total(&before), new: total(&after), preview };
        self.obeyed(told);
        told
    }

    /// The rules of one report.
    fn obeyed(self, told: Told) {
        let Told { now, new, preview } = told;
        // Both totals exist and the trip changes by from `low` to `high`, or none exists.
        let moves = |low: i64, high: i64| match (now, new) {
            (Some(now), Some(new)) => (low..=high).contains(&(new as i64 - now as i64)),
            (None, None) => true,
            _ => false,
        };
        let obeys = match self.kind() {
            Kind::Up => moves(0, self.by() as i64),
            Kind::Down => moves(-(self.by() as i64), 0),
            Kind::Again => moves(0, 0),
            Kind::Closes => new.is_none() || moves(0, i64::MAX),
            Kind::Opens => now.is_none() || moves(i64::MIN, 0),
        };
        assert!(obeys, "{self:?} moves the trip otherwise: {told:?}");
        let change = now.zip(new).map(|(now, new)| new as i64 - now as i64);
        let foretold = Previewed { present: now, new, change };
        assert_eq!(preview, foretold, "{self:?}: preview (left), goes (right)");
    }
}

/// A go's total, or none where it answers 15.
fn total(reply: &Reply) -> Option<Time> {
    match reply.answer {
        Ok(Accepted::Trip(trip)) => Some(trip.total),
        Err(Refusal::NoPath(_)) => None,
        _ => panic!("no answer of a go: {reply:?}"),
    }
}

/// A unit, and the machine that is fed the same calls.
struct Trial<'a> {
    map: &'a Map,
    graph: Graph,
    machine: Machine<'a>,
    unit: Unit,
    /// The live times and the target that the calls have left.
    live: Vec<Time>,
    target: Option<u32>,
    /// 0 where the card has no section of kind 3, 1 where its bytes are all 255, else 2.
    card: usize,
}

impl Trial<'_> {
    fn new(map: &Map, with_access: bool) -> Trial<'_> {
        let card = if with_access { map.card_with_access() } else { map.card() }.unwrap();
        let mut unit = Unit::new(&card, map.n(), map.m(), order::pairs(map));
        unit.prepare().unwrap();
        Trial {
            map,
            graph: Graph::new(map),
            machine: Machine::new(map),
            unit,
            live: map.base(),
            target: None,
            card: if map.admits_all() { with_access as usize } else { 2 },
        }
    }

    /// Makes a call, which the machine answers alike.
    fn call(&mut self, call: Call) -> Reply {
        let mut lent = LentAreas::of(call);
        let answer = self.unit.call(call, lent.lend());
        let want = self.machine.answer(call);
        let route = lent.route[..want.route.len()].to_vec();
        let log = lent.log[..want.log.len()].to_vec();
        let reply = Reply { answer, route, log };
        assert_eq!(reply, want, "{call:?}: proved (left), machine (right)");
        assert!(lent.guarded() && self.unit.guarded(), "{call:?}: guard words");
        match (call, answer) {
            (Call::Set { road, time }, Ok(_)) => self.live[road as usize] = time,
            (Call::Aim { junction }, Ok(_)) => self.target = Some(junction),
            (Call::Stops { stops, .. }, Ok(_)) => self.target = stops.last().copied(),
            (Call::Stops { stops, .. }, Err(Refusal::NoLeg(leg))) => {
                self.target = Some(stops[leg as usize + 1]);
            }
            (Call::Go { class, start, .. }, Ok(_) | Err(Refusal::NoPath(_))) => {
                let least = self.least(&self.map.met_by(class, &self.live), start);
                assert_eq!(total(&reply), least, "{call:?}: proved (left), least (right)");
            }
            _ => (),
        }
        reply
    }

    /// The least total of open roads, at the times that a class meets.
    fn least(&self, met: &[Time], start: u32) -> Option<Time> {
        let target = self.target.expect("a target");
        let total = match self.map.n() {
            ..100 => brute::least(self.map, met, start)[target as usize],
            _ => dijkstra::between(&self.graph, met, start, target).0,
        };
        (total != NONE).then_some(total)
    }

    /// The roads of the trip, by the machine alone.
    fn route(&mut self, class: u32, start: u32) -> Vec<u32> {
        let n = self.map.n();
        self.machine.answer(Call::Go { class, start, route: n, log: n }).route
    }

    fn report(&self, class: u32, start: u32, road: u32, time: Time) -> Report {
        let barred = !self.map.roads[road as usize].admits(class);
        Report { class, start, road, old: self.live[road as usize], time, barred }
    }

    /// Any calls, after which there is a target.
    fn list(&mut self, random: &mut Random, calls: usize, met: &mut Met) {
        for _ in 0..calls {
            let (call, live) = (any_call(random, self.map), self.live.clone());
            let refused = self.call(call).answer.is_err();
            met.lists[kind_of(call)][refused as usize] += 1;
            if let (Call::Set { road, time }, false) = (call, refused) {
                met.sets[Kind::of(live[road as usize], time) as usize] += 1;
            }
        }
        if self.target.is_none() {
            self.call(Call::Aim { junction: random.below(self.map.n()) as u32 });
        }
    }

    /// Goes, estimates and previews: calls that leave live times and target as they are.
    fn between(&mut self, random: &mut Random, met: &mut Met) {
        while random.chance(25) {
            let call = any_call(random, self.map);
            if let Call::Go { .. } | Call::Estimate { .. } | Call::Preview { .. } = call {
                self.call(call);
                met.between += 1;
            }
        }
    }

    /// A report, with calls between those that are looked at, and an estimate before it and after it.
    fn turn(&mut self, random: &mut Random, report: Report, met: &mut Met) -> Told {
        let n = self.map.n();
        let junction = if random.chance(30) { report.start } else { random.below(n) as u32 };
        let ask = Call::Estimate { junction };
        let estimate = self.call(ask).answer;
        let known = self.unit.estimates.to_vec();
        let (live, target) = (self.live.clone(), self.target);
        let told = report.turn(n, |call| {
            self.between(random, met);
            self.call(call)
        });
        for (&known, &now) in known.iter().zip(&*self.unit.estimates) {
            assert!(known == UNASKED || known == now, "{report:?} moves an estimate");
        }
        assert_eq!(self.call(ask).answer, estimate, "{report:?} moves an estimate");
        let mut due = live.clone();
        due[report.road as usize] = report.time;
        assert!(self.live == due && self.unit.live[..] == due, "{report:?} sets something else");
        assert_eq!([self.target, Some(self.unit.header.target)], [target; 2], "{report:?}");

        // The totals if the road let the class in.
        let admitted = [&live, &self.live].map(|live| {
            let mut met = self.map.met_by(report.class, live);
            met[report.road as usize] = live[report.road as usize];
            self.least(&met, report.start)
        });
        met.count(report, told, admitted);
        let moved = told.now != told.new;
        let stays_open = matches!(report.kind(), Kind::Up | Kind::Down);
        met.cards[self.card] += (moved && stays_open) as usize;
        met.at_other_times += (live != self.map.base()) as usize;
        met.from_the_target += (Some(report.start) == target) as usize;
        let Ok(Accepted::Estimate(estimate)) = estimate else { panic!("{estimate:?}") };
        met.estimates[if estimate == NONE { 0 } else { 1 + moved as usize }] += 1;
        told
    }

    /// A road to report on: of the trip, of another class's trip, one that was reported before, or any.
    fn road(&mut self, random: &mut Random, class: u32, start: u32) -> u32 {
        let other_class = random.below(CLASSES as usize) as u32;
        let roads: Vec<u32> = match random.below(8) {
            0..3 => self.route(class, start),
            3..5 => self.route(other_class, start),
            5..7 => {
                let roads = (0..).zip(&self.map.roads).zip(&self.live);
                let changed = roads.filter(|((_, road), &live)| live != road.base);
                changed.map(|((number, _), _)| number).collect()
            }
            _ => Vec::new(),
        };
        match roads.is_empty() {
            true => random.below(self.map.m()) as u32,
            false => random.pick(&roads),
        }
    }

    /// Reports on one road, each after the other, of one trip.
    fn any_reports(&mut self, random: &mut Random, class: u32, start: u32, met: &mut Met) {
        let road = self.road(random, class, start);
        loop {
            let (base, old) = (self.map.roads[road as usize].base, self.live[road as usize]);
            let report = self.report(class, start, road, reported(random, base, old));
            self.turn(random, report, met);
            if random.chance(40) {
                break;
            }
        }
    }

    /// Reports on roads that are open and stay so, with goes between them or without: the trip gets longer by at most what went up
    /// together, and shorter by at most what went down.
    fn several(&mut self, random: &mut Random, met: &mut Met) {
        let n = self.map.n();
        let (class, start) = (random.below(CLASSES as usize) as u32, random.below(n) as u32);
        let go = Call::Go { class, start, route: n, log: n };
        let now = total(&self.call(go));
        let (asked, way) = (random.chance(50), random.below(3));
        let (mut up, mut down, mut largest, mut count) = (0, 0, 0, 0);
        for _ in 0..2 + random.below(5) {
            let (base, live) = (self.map.base(), self.live.clone());
            let open = |&road: &u32| live[road as usize] != CLOSED;
            let delayed = |&road: &u32| open(&road) && live[road as usize] > base[road as usize];
            let route = self.route(class, start);
            let all: Vec<u32> = (0..self.map.m() as u32).collect();
            let from = if random.chance(60) { &route } else { &all };
            // Up alone, down alone, or both.
            let lowers = way == 1 || (way == 2 && random.chance(50));
            let roads: Vec<u32> = match lowers {
                true => from.iter().copied().filter(delayed).collect(),
                false => from.iter().copied().filter(open).collect(),
            };
            if roads.is_empty() {
                continue;
            }
            let road = random.pick(&roads);
            let (base, old) = (base[road as usize], live[road as usize]);
            let time = if lowers { shorter(random, base, old) } else { longer(random, old) };
            let report = self.report(class, start, road, time);
            if asked {
                self.turn(random, report, met);
            } else {
                self.call(Call::Set { road, time });
                self.between(random, met);
            }
            up += time.saturating_sub(old);
            down += old.saturating_sub(time);
            largest = largest.max(report.by());
            count += 1;
        }
        let new = total(&self.call(go));
        let within = match (now, new) {
            (Some(now), Some(new)) => new <= now + up && now <= new + down,
            (None, None) => true,
            _ => false,
        };
        assert!(within, "from {now:?} to {new:?}, with {up} up and {down} down");
        if count > 1 {
            met.several[asked as usize].count(now, new, [up, down], largest);
        }
    }
}

/// How often what is worth meeting was met. Reports on roads that bar the class stand apart.
#[derive(Debug, Default)]
struct Met {
    /// A road gets slower by d, and the trip by 0, by more and less than d, and by d; no route before and after.
    up: [usize; 4],
    /// The same of one that gets faster.
    down: [usize; 4],
    /// The same time again, with a route and without.
    again: [usize; 2],
    /// A road is closed: the total stays, is larger, is lost, was none.
    closes: [usize; 4],
    /// A road is opened: the total stays, is smaller, is found, is none.
    opens: [usize; 4],
    /// On a road that bars the class: slower, faster, the same, closed, opened;
    barred: [usize; 5],
    /// and where the trip would change if the class were let in.
    kept_out: usize,
    /// A road that is open and stays so changes the trip, by class; slower and faster.
    classes: [[usize; 2]; CLASSES as usize],
    /// And by card.
    cards: [usize; 3],
    /// Of `up` and `down` those with a route, where both totals are 2^32 and more.
    past_32_bits: [[usize; 3]; 2],
    /// An estimate that is none; one that is a total, where the trip stays, and where it changes.
    estimates: [usize; 3],
    from_the_target: usize,
    /// With other live times before than the base times.
    at_other_times: usize,
    /// Calls in the lists before: accepted, and refused;
    lists: [[usize; 2]; 6],
    /// and of the sets among them: slower, faster, the same, closed, opened.
    sets: [usize; 5],
    /// Calls between those that are looked at.
    between: usize,
    /// Several reports, without a go between them and with goes.
    several: [Several; 2],
}

#[derive(Debug, Default)]
struct Several {
    /// No route, the same total, longer, shorter; by all that went up, by all that went down,
    none: usize,
    same: usize,
    longer: usize,
    shorter: usize,
    all_up: usize,
    all_down: usize,
    /// where some went up and some down, with another total,
    both_ways: usize,
    /// and by more than the largest of them.
    beyond_one: usize,
}

impl Several {
    fn count(
        &mut self,
        now: Option<Time>,
        new: Option<Time>,
        [up, down]: [Time; 2],
        largest: Time,
    ) {
        let (Some(now), Some(new)) = (now, new) else {
            self.none += 1;
            return;
        };
        match new.cmp(&now) {
            Ordering::Equal => self.same += 1,
            Ordering::Greater if new == now + up => self.all_up += 1,
            Ordering::Greater => self.longer += 1,
            Ordering::Less if now == new + down => self.all_down += 1,
            Ordering::Less => self.shorter += 1,
        }
        self.both_ways += (up > 0 && down > 0 && now != new) as usize;
        self.beyond_one += (now.abs_diff(new) > largest) as usize;
    }

    fn all(&self) -> [usize; 8] {
        let Several { none, same, longer, shorter, all_up, all_down, both_ways, beyond_one } =
            *self;
        [none, same, longer, shorter, all_up, all_down, both_ways, beyond_one]
    }
}

impl Met {
    fn count(&mut self, report: Report, told: Told, admitted: [Option<Time>; 2]) {
        let (kind, Told { now, new, .. }) = (report.kind(), told);
        if report.barred {
            self.barred[kind as usize] += 1;
            self.kept_out += (admitted[0] != admitted[1]) as usize;
            return;
        }
        assert_eq!(admitted, [now, new], "the class is let in");
        let far = |total: Option<Time>| total.is_some_and(|total| total >> 32 > 0);
        let moved = now.zip(new).map(|(now, new)| now.abs_diff(new));
        match kind {
            Kind::Up | Kind::Down => {
                let lowers = (kind == Kind::Down) as usize;
                let case = match moved {
                    None => 3,
                    Some(0) => 0,
                    Some(by) if by < report.by() => 1,
                    Some(_) => 2,
                };
                let row = if kind == Kind::Up { &mut self.up } else { &mut self.down };
                row[case] += 1;
                if far(now) && far(new) {
                    self.past_32_bits[lowers][case] += 1;
                }
                self.classes[report.class as usize][lowers] += (now != new) as usize;
            }
            Kind::Again => self.again[moved.is_none() as usize] += 1,
            Kind::Closes => {
                self.closes[match (now, new) {
                    (Some(now), Some(new)) => (now < new) as usize,
                    (Some(_), None) => 2,
                    _ => 3,
                }] += 1
            }
            Kind::Opens => {
                self.opens[match (now, new) {
                    (Some(now), Some(new)) => (new < now) as usize,
                    (None, Some(_)) => 2,
                    _ => 3,
                }] += 1
            }
        }
    }

    /// Every case of one report was met at least so often, on every card and with every class.
    fn cases_at_least(&self, least: usize) {
        let some = [self.kept_out, self.from_the_target, self.at_other_times, self.between];
        let rows = [
            &self.up[..],
            &self.down,
            &self.again,
            &self.closes,
            &self.opens,
            &self.barred,
            &self.classes.concat(),
            &self.cards,
            &self.estimates,
            &self.lists.concat(),
            &self.sets,
            &some,
        ];
        assert!(rows.concat().iter().all(|&met| met >= least), "{self:?}");
    }

    /// And so was every case of several.
    fn several_at_least(&self, least: usize) {
        let several = self.several.iter().flat_map(Several::all);
        assert!(several.min() >= Some(least), "{self:?}");
    }
}

/// The place of a call in `Met`.
fn kind_of(call: Call) -> usize {
    match call {
        Call::Set { .. } => 0,
        Call::Aim { .. } => 1,
        Call::Estimate { .. } => 2,
        Call::Go { .. } => 3,
        Call::Preview { .. } => 4,
        Call::Stops { .. } => 5,
    }
}

/// A longer time, if there is one: by a little, by up to a quarter or as much again, or the longest.
fn longer(random: &mut Random, time: Time) -> Time {
    let by = match random.below(8) {
        0 => LONGEST,
        1..4 => random.within(1..=4),
        4..6 => random.within(1..=time / 4 + 1),
        _ => random.within(1..=time.max(8)),
    };
    LONGEST.min(time + by)
}

/// A shorter time that is allowed, if there is one: the base time, hardly more, hardly shorter, or any.
fn shorter(random: &mut Random, base: Time, time: Time) -> Time {
    match random.below(8) {
        _ if time == base => base,
        0..3 => base,
        3..5 => random.within(base..=base + 4).min(time - 1),
        5 => time - 1,
        _ => random.within(base..=time - 1),
    }
}

/// What is reported of a road: longer, shorter if it was delayed, the same again, or closed; opened if it was closed.
fn reported(random: &mut Random, base: Time, old: Time) -> Time {
    match random.below(16) {
        0..8 if old == CLOSED => base,
        _ if old == CLOSED => longer(random, base),
        0 => old,
        1..4 => CLOSED,
        4..12 if old > base => shorter(random, base, old),
        _ => longer(random, old),
    }
}

/// Any of the six calls, now and then with an argument to refuse.
fn any_call(random: &mut Random, map: &Map) -> Call {
    let (n, m) = (map.n(), map.m());
    let [junction, road, class] = [n, m, CLASSES as usize].map(|count| match random.chance(5) {
        true => count as u32,
        false => random.below(count) as u32,
    });
    let (less, wrong) = (random.chance(5) as usize, random.chance(5));
    let base = map.roads.get(road as usize).map_or(1, |road| road.base);
    let time = match random.below(12) {
        _ if wrong => random.pick(&[0, base - 1, LONGEST + 1, UNASKED]),
        0 => CLOSED,
        1..5 => base,
        _ => longer(random, base),
    };
    match random.below(20) {
        0..9 => Call::Set { road, time },
        9..11 => Call::Aim { junction },
        11..13 => Call::Estimate { junction },
        13..16 => Call::Go { class, start: junction, route: n - less, log: n },
        16..18 => Call::Preview { class, road, time, start: junction, work: 2 * n - less },
        _ => {
            let count = 2 + random.below(3);
            let mut stops: Vec<u32> = (0..count).map(|_| random.below(n) as u32).collect();
            stops[count - 1] = junction;
            Call::Stops { class, stops: StopList::of(&stops), route: count * n, log: n - less }
        }
    }
}

/// Lists of calls on one map, with reports after each: on one road, or on several. Roads are delayed and closed at first; often
/// some bar classes.
fn run(random: &mut Random, mut map: Map, reports: usize, met: &mut Met) {
    if map.m() == 0 {
        return;
    }
    if random.chance(60) {
        maps::bar(random, &mut map);
    }
    let live = traffic::live_times(random, &map);
    let mut trial = Trial::new(&map, random.chance(50));
    for (road, time) in (0..).zip(live) {
        trial.call(Call::Set { road, time });
    }
    for i in 0..reports {
        let calls = random.below(8);
        trial.list(random, calls, met);
        let class = random.below(CLASSES as usize) as u32;
        let start = random.below(map.n()) as u32;
        match i % 4 {
            3 => trial.several(random, met),
            _ => trial.any_reports(random, class, start, met),
        }
    }
}

#[test]
fn small_maps() {
    let mut random = Random::new(1);
    let mut met = Met::default();
    for _ in 0..4_000 {
        let mut map = maps::small(&mut random);
        random.shuffle(&mut map.order);
        run(&mut random, map, 12, &mut met);
    }
    met.cases_at_least(400);
    met.several_at_least(80);
}

#[test]
fn towns() {
    with_stack(|| {
        let mut random = Random::new(2);
        let mut met = Met::default();
        for i in 0..100 {
            let (width, height) = (2 + random.below(12), 2 + random.below(12));
            let map = match i % 3 {
                0 => maps::even_grid(&mut random, width, height),
                _ => maps::town(&mut random, width, height, Streets::USUAL),
            };
            run(&mut random, map, 40, &mut met);
        }
        met.cases_at_least(12);
        met.several_at_least(10);
    });
}

/// Base times from the least on for the roads of a map, with so many more roads beside them.
fn uneven(random: &mut Random, mut map: Map, more: usize, least: Time) -> Map {
    for _ in 0..more {
        let road = random.pick(&map.roads);
        map.roads.push(road);
    }
    for road in &mut map.roads {
        road.base = random.within(least..=LONGEST);
    }
    random.shuffle(&mut map.roads);
    map
}

/// Lines, rings and stars, with the longest times and with any; every two junctions a pair, and estimates within estimates.
#[test]
fn hostile_maps() {
    with_stack(|| {
        let mut random = Random::new(3);
        let mut met = Met::default();
        for i in 0..240 {
            let n = 6 + random.below(40);
            let mut map = match i % 8 {
                0 => maps::line(n),
                1 => maps::star(n),
                2 => maps::ring(n),
                3 => maps::ring_with_bypass(n),
                4 => maps::wide_keys(n),
                5 => maps::wide_sums(n)[i % 3].clone(),
                6 => maps::slow_road(&mut random, n, LONGEST - 1),
                _ => maps::random(&mut random, n, 4 * n, LONGEST),
            };
            if i % 3 > 0 {
                let more = map.m() / 3;
                map = uneven(&mut random, map, more, 1);
            }
            if i % 5 == 0 {
                map.order.reverse();
            }
            run(&mut random, map, 24, &mut met);
        }
        met.cases_at_least(25);
        met.several_at_least(10);
    });
}

/// On slow roads and rings whose least totals pass 2^32.
#[test]
fn totals_past_32_bits() {
    with_stack(|| {
        let mut random = Random::new(4);
        let mut met = Met::default();
        for i in 0..12 {
            let map = match i % 3 {
                0 => uneven(&mut random, maps::ring(640), 640, 3 * LONGEST / 4),
                1 => uneven(&mut random, maps::line(640), 1_280, 3 * LONGEST / 4),
                _ => maps::slow_road(&mut random, 900, LONGEST / 4),
            };
            let n = map.n();
            let mut trial = Trial::new(&map, i % 2 == 0);
            for _ in 0..6 {
                // All are open, some are delayed.
                for (road, &Road { base, .. }) in (0..).zip(&map.roads) {
                    let time = if random.chance(30) { longer(&mut random, base) } else { base };
                    trial.call(Call::Set { road, time });
                }
                let [start, target] = [random.below(n / 10), n - 1 - random.below(n / 10)];
                trial.call(Call::Aim { junction: target as u32 });
                let class = random.below(CLASSES as usize) as u32;
                for _ in 0..3 {
                    trial.any_reports(&mut random, class, start as u32, &mut met);
                }
            }
        }
        assert!(met.past_32_bits.concat().iter().all(|&met| met >= 10), "{met:?}");
    });
}

/// The unit and the router, with the machine beside them.
struct Three<'a> {
    map: &'a Map,
    both: Both,
    machine: Machine<'a>,
}

impl Three<'_> {
    /// Aimed at a target.
    fn at(map: &Map, junction: u32) -> Three<'_> {
        let both = Both::prepare(map, order::pairs(map)).unwrap();
        let mut three = Three { map, both, machine: Machine::new(map) };
        three.call(Call::Aim { junction });
        three
    }

    fn call(&mut self, call: Call) -> Reply {
        let reply = self.both.call(call);
        assert_eq!(reply, self.machine.answer(call), "{call:?}");
        reply
    }

    fn turn(&mut self, class: u32, start: u32, road: u32, time: Time) -> Told {
        let old = self.both.unit.live[road as usize];
        let barred = !self.map.roads[road as usize].admits(class);
        let report = Report { class, start, road, old, time, barred };
        report.turn(self.map.n(), |call| self.call(call))
    }
}

/// What is told of a report, in two totals and a change.
fn told(now: Option<Time>, new: Option<Time>, change: Option<i64>) -> Told {
    Told { now, new, preview: Previewed { present: now, new, change } }
}

/// The tables of docs/REPORTS.md, worked through by hand; and that their rows say so.
#[test]
fn reports_of_map_p() {
    let document = Path::new(env!("CARGO_MANIFEST_DIR")).join("../docs/REPORTS.md");
    let document = fs::read_to_string(document).unwrap();
    let mut rows: Vec<&str> = document.lines().filter(|line| line.starts_with("| ")).collect();
    rows.retain(|row| !row.starts_with("| The report |"));
    let map = maps::map_p();
    // Road 2 is at 17 in the first table; and road 1 at 30 in the second.
    let (first, second) = (&[(2, 17)][..], &[(2, 17), (1, 30)][..]);
    let cases = [
        ("road 1 from 10 to 14: d = 4", first, 1, 14, told(Some(20), Some(24), Some(4))),
        ("road 1 from 10 to 20: d = 10", first, 1, 20, told(Some(20), Some(27), Some(7))),
        ("road 4 from 20 to 30: d = 10", first, 4, 30, told(Some(20), Some(20), Some(0))),
        ("road 1 from 10 to 10: d = 0", first, 1, 10, told(Some(20), Some(20), Some(0))),
        ("road 1 closed", first, 1, CLOSED, told(Some(20), Some(27), Some(7))),
        (
            "after the first report of this table: road 0 from 10 to 20",
            &[(2, 17), (1, 14)],
            0,
            20,
            told(Some(24), Some(27), Some(3)),
        ),
        ("road 2 from 17 to 15: d = 2", second, 2, 15, told(Some(27), Some(25), Some(-2))),
        ("road 1 from 30 to 10: d = 20", second, 1, 10, told(Some(27), Some(20), Some(-7))),
        ("road 1 from 30 to 25: d = 5", second, 1, 25, told(Some(27), Some(27), Some(0))),
        (
            "road 1 closed before: opened at 10",
            &[(2, 17), (1, CLOSED)],
            1,
            10,
            told(Some(27), Some(20), Some(-7)),
        ),
        (
            "road 1 closed before: road 2 closed too",
            &[(2, 17), (1, CLOSED)],
            2,
            CLOSED,
            told(Some(27), None, None),
        ),
        (
            "both closed before: road 0 from 10 to 12",
            &[(2, CLOSED), (1, CLOSED)],
            0,
            12,
            told(None, None, None),
        ),
        (
            "both closed before: road 2 opened at 17",
            &[(2, CLOSED), (1, CLOSED)],
            2,
            17,
            told(None, Some(27), None),
        ),
    ];
    assert_eq!(rows.len(), cases.len());
    for ((text, sets, road, time, want), row) in cases.into_iter().zip(rows) {
        let mut three = Three::at(&map, 3);
        for &(road, time) in sets {
            three.call(Call::Set { road, time });
        }
        let estimate = Call::Estimate { junction: 0 };
        assert_eq!(three.call(estimate).answer, Ok(Accepted::Estimate(20)), "{text}");
        assert_eq!(three.turn(0, 0, road, time), want, "{text}");
        assert_eq!(three.call(estimate).answer, Ok(Accepted::Estimate(20)), "{text}");

        let go = |total: Option<Time>| total.map_or("15 (no route)".into(), |t| t.to_string());
        let shown = |total: Option<Time>| total.map_or("none".into(), |t| t.to_string());
        let change = match want.preview.change {
            None => "no change".into(),
            Some(0) => "change 0".into(),
            Some(by) => format!("change {by:+}").replace('-', "\u{2212}"),
        };
        let Told { now, new, .. } = want;
        let preview = format!("{}, {}, {change}", shown(now), shown(new));
        let says = format!("| {text} | {} | {preview} | {} | ", go(now), go(new));
        assert!(row.starts_with(&says), "{row:?}: not {says:?}");
    }
}

/// Map P with road 1 barred to class 0, and road 2 at 17: of each class, road 1 from 10 to 20 and back, closed and opened.
#[test]
fn reports_of_classes() {
    let map = maps::map_p_with_classes();
    let mut three = Three::at(&map, 3);
    three.call(Call::Set { road: 2, time: 17 });
    for class in 0..CLASSES {
        for (time, now, new, change) in
            [(20, 20, 27, 7), (10, 27, 20, -7), (CLOSED, 20, 27, 7), (10, 27, 20, -7)]
        {
            let want = match class {
                0 => told(Some(27), Some(27), Some(0)),
                _ => told(Some(now), Some(new), Some(change)),
            };
            assert_eq!(three.turn(class, 0, 1, time), want, "class {class}, {time}");
        }
    }
    // Class 0 depends on road 2.
    assert_eq!(three.turn(0, 0, 2, 15), told(Some(27), Some(25), Some(-2)));
    assert_eq!(three.turn(0, 0, 2, CLOSED), told(Some(25), None, None));
    assert_eq!(three.turn(0, 0, 1, 12), told(None, None, None));
    assert_eq!(three.turn(1, 0, 2, 15), told(Some(22), Some(22), Some(0)));
}

/// A total that passes 2^32 = 4,294,967,296: 429 roads of 10,000,000, then one of 4,000,000 beside one of 7,000,000, and one of
/// 1,000,000 that bars class 0.
#[test]
fn across_2_to_the_32() {
    with_stack(|| {
        let mut map = maps::ring(431);
        map.roads.truncate(429);
        let last = [4_000_000, 7_000_000, 1_000_000].map(|base| Road::new(429, 430, base));
        map.roads.extend(last);
        map.roads[431].access = 254;
        let mut three = Three::at(&map, 430);
        for (road, time, now, new, change) in [
            // Up by 900,000, below 2^32.
            (429, 4_900_000, 4_294_000_000, 4_294_900_000, 900_000),
            // By 600,000: all of it, across.
            (429, 5_500_000, 4_294_900_000, 4_295_500_000, 600_000),
            // By 4,500,000, of which the trip feels 1,500,000.
            (429, LONGEST, 4_295_500_000, 4_297_000_000, 1_500_000),
            (429, 9_000_000, 4_297_000_000, 4_297_000_000, 0),
            // Down by 5,000,000, of which it gains 3,000,000, across.
            (429, 4_000_000, 4_297_000_000, 4_294_000_000, -3_000_000),
            (429, 6_000_000, 4_294_000_000, 4_296_000_000, 2_000_000),
            (429, 4_967_296, 4_296_000_000, 4_294_967_296, -1_032_704),
            (429, 4_967_295, 4_294_967_296, 4_294_967_295, -1),
            (429, 4_967_295, 4_294_967_295, 4_294_967_295, 0),
            (429, 4_967_296, 4_294_967_295, 4_294_967_296, 1),
            (429, CLOSED, 4_294_967_296, 4_297_000_000, 2_032_704),
            (431, LONGEST, 4_297_000_000, 4_297_000_000, 0),
            (431, CLOSED, 4_297_000_000, 4_297_000_000, 0),
            (429, 4_000_000, 4_297_000_000, 4_294_000_000, -3_000_000),
        ] {
            let want = told(Some(now), Some(new), Some(change));
            assert_eq!(three.turn(0, 0, road, time), want, "road {road} at {time}");
        }
        // Class 1 is let in, and opens it.
        let want = told(Some(4_294_000_000), Some(4_291_000_000), Some(-3_000_000));
        assert_eq!(three.turn(1, 0, 431, 1_000_000), want);
    });
}

/// The largest total, by the largest report: once round the largest ring, but for one road. Road 5 takes a tenth of a second or the
/// longest time.
#[test]
fn the_largest_report() {
    with_stack(|| {
        let mut map = maps::ring(MOST_JUNCTIONS);
        map.roads[5].base = 1;
        let mut three = Three::at(&map, 0);
        let (small, large, d) = (40_940_000_001, 40_950_000_000, 9_999_999);
        let up = three.turn(7, 1, 5, LONGEST);
        assert_eq!(up, told(Some(small), Some(large), Some(d)));
        let down = three.turn(7, 1, 5, 1);
        assert_eq!(down, told(Some(large), Some(small), Some(-d)));
        assert_eq!(three.turn(7, 1, 0, CLOSED), told(Some(small), Some(small), Some(0)));
        assert_eq!(three.turn(7, 1, 5, CLOSED), told(Some(small), None, None));
        assert_eq!(three.turn(7, 1, 7, LONGEST), told(None, None, None));
        assert_eq!(three.turn(7, 1, 5, LONGEST), told(None, Some(large), None));
    });
}

/// Reports that add up past 2^32: on each road of a ring of 500, from a tenth of a second to the longest time and back, with no go between.
#[test]
fn reports_that_add_up_past_32_bits() {
    with_stack(|| {
        let mut map = maps::ring(500);
        map.roads.iter_mut().for_each(|road| road.base = 1);
        let mut three = Three::at(&map, 0);
        let go = Call::Go { class: 3, start: 1, route: 500, log: 500 };
        assert_eq!(total(&three.call(go)), Some(499));
        for (time, sum) in [(LONGEST, 4_990_000_000), (1, 499)] {
            for road in 0..500 {
                three.call(Call::Set { road, time });
            }
            // By 9,999,999 on each of the trip's 499 roads, and by nothing on the last one.
            assert_eq!(total(&three.call(go)), Some(sum));
        }
    });
}

/// On the largest town, where one in 20 roads bars some classes.
#[test]
fn the_largest_town() {
    with_stack(|| {
        let mut random = Random::new(5);
        let mut map = maps::largest_town(&mut random);
        for i in 0..map.m() / 20 {
            map.roads[20 * i].access = random.word() as u8;
        }
        let (n, graph) = (map.n(), Graph::new(&map));
        let mut both = Both::prepare(&map, order::pairs(&map)).unwrap();
        for (road, time) in traffic::changes(&mut random, &map, 20) {
            both.call(Call::Set { road, time });
        }
        let mut met = Met::default();
        for _ in 0..30 {
            let (start, target) = (random.below(n) as u32, random.below(n) as u32);
            let class = random.below(CLASSES as usize) as u32;
            both.call(Call::Aim { junction: target });
            let trip = both.call(Call::Go { class, start, route: n, log: n });
            let road = match trip.route.is_empty() || random.chance(20) {
                true => random.below(map.m()) as u32,
                false => random.pick(&trip.route),
            };
            for _ in 0..6 {
                let Road { base, .. } = map.roads[road as usize];
                let old = both.unit.live[road as usize];
                let time = reported(&mut random, base, old);
                let barred = !map.roads[road as usize].admits(class);
                let report = Report { class, start, road, old, time, barred };
                let before = both.unit.live.to_vec();
                let told = report.turn(n, |call| both.call(call));
                let least = [&before, &both.unit.live.to_vec()].map(|live| {
                    let live = map.met_by(class, live);
                    let total = dijkstra::between(&graph, &live, start, target).0;
                    (total != NONE).then_some(total)
                });
                assert_eq!([told.now, told.new], least, "{report:?}");
                met.count(report, told, least);
            }
        }
        let moved = [&met.up[..3], &met.down[..3], &met.closes[..2], &met.opens[..2]].concat();
        assert!(moved.iter().all(|&met| met >= 5), "{met:?}");
    });
}

/// A list of stops may feel a report on each leg, and so by more than d in all; each leg by no more than d.
#[test]
fn lists_of_stops() {
    // Map P with road 2 at 17: road 0 from 10 to 14 is on two of three legs.
    let map = maps::map_p();
    let mut three = Three::at(&map, 3);
    three.call(Call::Set { road: 2, time: 17 });
    let stops = StopList::of(&[0, 3, 0, 3]);
    let call = Call::Stops { class: 0, stops, route: 16, log: 4 };
    let found = |legs: &[(Time, u32)]| Ok(Accepted::Stopped(Stopped::of(legs)));
    assert_eq!(three.call(call).answer, found(&[(20, 2), (20, 1), (20, 2)]));
    three.call(Call::Set { road: 0, time: 14 });
    assert_eq!(three.call(call).answer, found(&[(24, 2), (20, 1), (24, 2)]));

    let mut random = Random::new(6);
    let (mut met, mut more, mut lost) = ([0; 3], [0; 2], 0);
    for _ in 0..3_000 {
        let mut map = maps::small(&mut random);
        if map.m() == 0 {
            continue;
        }
        if random.chance(50) {
            maps::bar(&mut random, &mut map);
        }
        let live = traffic::live_times(&mut random, &map);
        let mut trial = Trial::new(&map, random.chance(50));
        for (road, time) in (0..).zip(live) {
            trial.call(Call::Set { road, time });
        }
        let class = random.below(CLASSES as usize) as u32;
        let (n, count) = (map.n(), 2 + random.below(5));
        let stops: Vec<u32> = (0..count).map(|_| random.below(n) as u32).collect();
        let list = Call::Stops { class, stops: StopList::of(&stops), route: count * n, log: n };
        trial.call(Call::Aim { junction: stops[1] });
        let road = trial.road(&mut random, class, stops[0]) as usize;
        for _ in 0..6 {
            let (base, old) = (map.roads[road].base, trial.live[road]);
            if old == CLOSED {
                break;
            }
            let time = match random.chance(50) {
                true => longer(&mut random, old),
                false => shorter(&mut random, base, old),
            };
            let now = trial.call(list).answer;
            trial.call(Call::Set { road: road as u32, time });
            let new = trial.call(list).answer;
            let d = time as i64 - old as i64;
            let range = d.min(0)..=d.max(0);
            match (now, new) {
                (Ok(Accepted::Stopped(now)), Ok(Accepted::Stopped(new))) => {
                    for (now, new) in now.totals.iter().zip(new.totals) {
                        assert!(range.contains(&(new as i64 - *now as i64)), "{now} to {new}: {d}");
                    }
                    let by = new.whole as i64 - now.whole as i64;
                    assert!(by.abs() <= now.legs as i64 * d.abs(), "{by} by {d}");
                    met[(1 + by.signum()) as usize] += 1;
                    more[(d > 0) as usize] += (by.abs() > d.abs()) as usize;
                }
                // The same leg is lost.
                (Err(now), Err(new)) => {
                    assert_eq!(now, new);
                    lost += 1;
                }
                answers => panic!("{answers:?}"),
            }
        }
    }
    let all = [&met[..], &more, &[lost]].concat();
    assert!(all.iter().all(|&met| met >= 100), "{met:?}, {more:?} by more than d, {lost} lost");
}

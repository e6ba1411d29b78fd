//! The search effort of the proved unit as an exact figure (document 02, A5), with no search: least times from the
//! start over open roads of the class (A6) and estimates over all roads, by rounds over all roads. A found route's log is the junctions whose two add up to no more than
//! the total, by key, time and number; where no chain exists, those that have both. Roads, times and filled estimates
//! follow from that log; only what lies above a junction is shared, with `Literal`. Beside it stands the search of document 01, equal keys by number alone, to count how often
//! the two part.

use harness::areas;
use harness::both::{with_stack, Both};
use harness::brute;
use harness::calls::{
    Accepted, Answer, Call, Calls, Previewed, Refusal, StopList, Stopped, Trip, CLASSES,
};
use harness::graph::Graph;
use harness::literal::{Literal, Searched};
use harness::machine::{Machine, Reply};
use harness::maps::{self, Map, Road};
use harness::order;
use harness::random::Random;
use harness::search::search;
use harness::time::{Time, CLOSED, NONE, UNASKED};
use harness::traffic;
use harness::unit::{same, LentAreas, Unit};

/// A map, and what searches on it are to find, log and fill.
struct Chart {
    /// What lies above a junction is taken from it. Its searches are compared with the figure.
    literal: Literal,
    /// The map with every road turned round.
    turned: Map,
}

impl Chart {
    fn new(map: Map) -> Chart {
        let turn = |road: &Road| Road { tail: road.head, head: road.tail, ..*road };
        let turned = Map { roads: map.roads.iter().map(turn).collect(), order: map.order.clone() };
        Chart { literal: Literal::new(map), turned }
    }

    fn map(&self) -> &Map {
        &self.literal.map
    }

    /// Each junction's least base total to a target.
    fn estimates(&self, target: u32) -> Vec<Time> {
        brute::least(&self.turned, &self.turned.base(), target)
    }

    /// The times that a class meets: each of its roads is one that stands in the list of those that let it in.
    fn met_by(&self, class: u32, live: &[Time]) -> Vec<Time> {
        let lets_in =
            |access: u8| (0..8).filter(|bit| access >> bit & 1 == 1).any(|bit| bit == class);
        let roads = self.map().roads.iter().zip(live);
        roads.map(|(road, &live)| if lets_in(road.access) { live } else { CLOSED }).collect()
    }

    /// What A5's figure says of a search.
    fn figure(&self, live: &[Time], start: u32, target: u32) -> Searched {
        let times = brute::least(self.map(), live, start);
        let total = times[target as usize];
        let mut due = Vec::new();
        for ((junction, &time), estimate) in (0..).zip(&times).zip(self.estimates(target)) {
            if time == NONE || estimate == NONE {
                continue;
            }
            let key = time + estimate;
            if total == NONE || key <= total {
                due.push((key, time, junction));
            }
        }
        due.sort();
        let log: Vec<(u32, Time)> =
            due.into_iter().map(|(_, time, junction)| (junction, time)).collect();
        self.left(live, start, target, &log)
    }

    /// The search of document 01: its candidates are made anew before each choice, and of equal keys the smaller
    /// number is logged.
    fn by_number(&self, live: &[Time], start: u32, target: u32) -> Searched {
        let estimates = self.estimates(target);
        let (mut log, mut times) = (Vec::new(), vec![NONE; self.map().n()]);
        while times[target as usize] == NONE {
            let first = log.is_empty().then_some((start, 0));
            let on = |road: &Road| {
                times[road.tail as usize] != NONE && times[road.head as usize] == NONE
            };
            let others = self.open(live).filter(|(_, road, _)| on(road));
            let others =
                others.map(|(_, road, live)| (road.head, times[road.tail as usize] + live));
            let choice = first
                .into_iter()
                .chain(others)
                .filter(|&(junction, _)| estimates[junction as usize] != NONE)
                .min_by_key(|&(junction, time)| (time + estimates[junction as usize], junction));
            let Some((junction, time)) = choice else { break };
            times[junction as usize] = time;
            log.push((junction, time));
        }
        self.left(live, start, target, &log)
    }

    /// The roads, with their numbers and live times, that are open.
    fn open<'a>(&'a self, live: &'a [Time]) -> impl Iterator<Item = (u32, &'a Road, Time)> {
        let roads = (0..).zip(&self.map().roads).zip(live);
        let open = roads.filter(|(_, &live)| live != CLOSED);
        open.map(|((number, road), &live)| (number, road, live))
    }

    /// What a search leaves that logs these junctions with these times.
    fn left(&self, live: &[Time], start: u32, target: u32, log: &[(u32, Time)]) -> Searched {
        let n = self.map().n();
        let (mut elapsed, mut places) = (vec![NONE; n], vec![None; n]);
        for (place, &(junction, time)) in log.iter().enumerate() {
            (elapsed[junction as usize], places[junction as usize]) = (time, Some(place));
        }
        let total = places[target as usize].map(|place: usize| log[place].1);
        // Back from the target: into each junction, the smallest-numbered open road from an earlier one that gives
        // its time.
        let mut route = Vec::new();
        let mut junction = if total.is_some() { target } else { start };
        while junction != start {
            let gives = |&(_, road, live): &(u32, &Road, Time)| {
                road.head == junction
                    && places[road.tail as usize]
                        .is_some_and(|tail| Some(tail) < places[junction as usize])
                    && elapsed[road.tail as usize] + live == elapsed[junction as usize]
            };
            let (number, road, _) = self.open(live).find(gives).expect("a road gives the time");
            route.insert(0, number);
            junction = road.tail;
        }
        // The start, the heads of open roads from logged junctions but the target, and those above.
        let mut fills = vec![false; n];
        let on = |road: &Road| road.tail != target && places[road.tail as usize].is_some();
        let heads = self.open(live).filter(|(_, road, _)| on(road)).map(|(_, road, _)| road.head);
        for asked in heads.chain([start]) {
            for &above in self.literal.above(asked) {
                fills[above as usize] = true;
            }
        }
        let log = log.iter().map(|&(junction, _)| junction).collect();
        Searched { total, route, log, elapsed, fills }
    }
}

/// A unit, and what it is to hold.
struct Trial {
    chart: Chart,
    unit: Unit,
    live: Vec<Time>,
    target: u32,
    estimates: Vec<Time>,
    elapsed: Vec<Time>,
}

impl Trial {
    /// Prepared, and aimed at a target.
    fn new(map: Map, target: u32) -> Trial {
        let (n, live) = (map.n(), map.base());
        let mut unit = Unit::new(&map.card().unwrap(), n, map.m(), order::pairs(&map));
        unit.prepare().unwrap();
        unit.aim(target).unwrap();
        let (estimates, elapsed) = (vec![UNASKED; n], vec![NONE; n]);
        Trial { chart: Chart::new(map), unit, live, target, estimates, elapsed }
    }

    /// Makes a call that only 15 or 17 may refuse; what it answers and leaves is what the figure says.
    fn call(&mut self, call: Call, met: &mut Met) {
        let mut lent = LentAreas::of(call);
        let mut want = lent.clone();
        let answer = self.unit.call(call, lent.lend());
        let due = self.due(call, &mut want, met);
        assert_eq!(answer, due, "{call:?}: proved (left), figure (right)");
        same("the log area", &lent.log, &want.log);
        same("the route area", &lent.route, &want.route);
        same("estimates", &self.unit.estimates, &self.estimates);
        same("elapsed", &self.unit.elapsed, &self.elapsed);
        assert_eq!(self.unit.header.target, self.target, "{call:?}");
        assert!(lent.guarded() && self.unit.guarded(), "no call alters guard words");
    }

    fn due(&mut self, call: Call, lent: &mut LentAreas, met: &mut Met) -> Answer {
        match call {
            Call::Set { road, time } => self.live[road as usize] = time,
            Call::Aim { junction } => self.aim(junction),
            Call::Estimate { junction } => {
                let mut fills = vec![false; self.chart.map().n()];
                for &above in self.chart.literal.above(junction) {
                    fills[above as usize] = true;
                }
                self.fill(&fills);
                return Ok(Accepted::Estimate(self.estimates[junction as usize]));
            }
            Call::Go { class, start, .. } => {
                let [new, old] = self.searches(class, &self.live, start);
                let live = self.chart.met_by(class, &self.live);
                met.go.count(&self.chart, &live, self.target, &new, &old);
                met.bars.count(&self.chart, &self.live, class, start, self.target, &new);
                met.go.other_fills += self.shown(&new.fills, &old.fills) as usize;
                met.changed += (self.live != self.chart.map().base()) as usize;
                met.past_32_bits += new.total.is_some_and(|total| total >> 32 > 0) as usize;
                met.closed += self.live.contains(&CLOSED) as usize;
                met.asked += self.estimates.iter().any(|&estimate| estimate != UNASKED) as usize;
                self.made(&new, lent, 0);
                let (count, roads) = (new.log.len() as u32, new.route.len() as u32);
                let total = new.total.ok_or(Refusal::NoPath(count))?;
                return Ok(Accepted::Trip(Trip { total, count, roads }));
            }
            Call::Preview { class, road, time, start, .. } => {
                let mut replaced = self.live.clone();
                replaced[road as usize] = time;
                let [now, then] =
                    [&self.live, &replaced].map(|live| self.searches(class, live, start));
                let [new, old] = [0, 1].map(|order| {
                    let fills = now[order].fills.iter().zip(&then[order].fills);
                    fills.map(|(now, then)| now | then).collect::<Vec<bool>>()
                });
                met.previews += 1;
                met.other_fills += self.shown(&new, &old) as usize;
                self.fill(&new);
                let [present, new] = [now, then].map(|[new, _]| new.total);
                let change = present.zip(new).map(|(present, new)| new as i64 - present as i64);
                return Ok(Accepted::Previewed(Previewed { present, new, change }));
            }
            Call::Stops { class, stops, .. } => return self.journey(class, &stops, lent, met),
        }
        Ok(Accepted::Done)
    }

    fn aim(&mut self, junction: u32) {
        self.target = junction;
        self.estimates.fill(UNASKED);
    }

    /// A search of a class by A5's figure, and by document 01's order of ties.
    fn searches(&self, class: u32, live: &[Time], start: u32) -> [Searched; 2] {
        let literal = self.chart.literal.search(class, live, start, self.target);
        let live = self.chart.met_by(class, live);
        let new = self.chart.figure(&live, start, self.target);
        assert_eq!(literal, new, "as the sentences have it (left), figure (right)");
        [new, self.chart.by_number(&live, start, self.target)]
    }

    /// Would the estimates be left otherwise?
    fn shown(&self, new: &[bool], old: &[bool]) -> bool {
        let unasked = self.estimates.iter().map(|&estimate| estimate == UNASKED);
        unasked.zip(new.iter().zip(old)).any(|(unasked, (new, old))| unasked && new != old)
    }

    fn fill(&mut self, fills: &[bool]) {
        let least = self.chart.estimates(self.target);
        for (junction, _) in fills.iter().enumerate().filter(|(_, &fills)| fills) {
            self.estimates[junction] = least[junction];
        }
    }

    /// What a search leaves, its roads from a place on.
    fn made(&mut self, searched: &Searched, lent: &mut LentAreas, from: usize) {
        let Searched { route, log, elapsed, fills, .. } = searched;
        self.fill(fills);
        self.elapsed.clone_from(elapsed);
        lent.log[..log.len()].copy_from_slice(log);
        lent.route[from..from + route.len()].copy_from_slice(route);
    }

    /// Each leg is an aim and a go; the last one's log is the last to be written.
    fn journey(
        &mut self,
        class: u32,
        stops: &[u32],
        lent: &mut LentAreas,
        met: &mut Met,
    ) -> Answer {
        let (mut legs, mut roads) = (Vec::new(), 0);
        for (leg, ends) in (0..).zip(stops.windows(2)) {
            self.aim(ends[1]);
            let [new, old] = self.searches(class, &self.live, ends[0]);
            if new.total.is_none() || leg as usize == stops.len() - 2 {
                let live = self.chart.met_by(class, &self.live);
                met.last_leg.count(&self.chart, &live, self.target, &new, &old);
                met.last_leg.other_fills += self.shown(&new.fills, &old.fills) as usize;
            }
            self.made(&new, lent, roads);
            let total = new.total.ok_or(Refusal::NoLeg(leg))?;
            legs.push((total, new.route.len() as u32));
            roads += new.route.len();
        }
        Ok(Accepted::Stopped(Stopped::of(&legs)))
    }
}

/// How often what is worth meeting was met.
#[derive(Debug, Default)]
struct Met {
    go: Searches,
    /// Goes at other times than the base times, with a closed road, and where estimates are filled.
    changed: usize,
    closed: usize,
    asked: usize,
    /// Goes whose total is 2^32 or more.
    past_32_bits: usize,
    /// Of lists of stops, the last leg or the failing one.
    last_leg: Searches,
    previews: usize,
    /// Previews that would fill other estimates by document 01's order.
    other_fills: usize,
    bars: Bars,
}

/// How often roads that bar the class of a go tell.
#[derive(Debug, Default)]
struct Bars {
    /// Of the goes where some do: a larger total than if none did, and no chain where there would be one.
    longer: usize,
    lost: usize,
    /// With the same total, a log of fewer junctions, of other ones as many or more, and other roads.
    fewer: usize,
    other_log: usize,
    other_roads: usize,
    /// More junctions are logged, with a larger total.
    more: usize,
    /// Fewer estimates are filled, if all were unasked.
    fewer_fills: usize,
    /// The start's estimate, which is over all roads, is below the least base total of the class, or this has none.
    below: usize,
}

impl Bars {
    fn count(
        &mut self,
        chart: &Chart,
        live: &[Time],
        class: u32,
        start: u32,
        target: u32,
        new: &Searched,
    ) {
        let met = chart.met_by(class, live);
        if met == live {
            return;
        }
        let open = chart.figure(live, start, target);
        match (open.total, new.total) {
            (Some(open), Some(new)) if open < new => self.longer += 1,
            (Some(_), None) => self.lost += 1,
            _ => {
                self.fewer += (new.log.len() < open.log.len()) as usize;
                self.other_log += (new.log.len() >= open.log.len() && new.log != open.log) as usize;
                self.other_roads += (new.route != open.route) as usize;
            }
        }
        self.more += (new.log.len() > open.log.len()) as usize;
        let fills = |searched: &Searched| searched.fills.iter().filter(|&&fills| fills).count();
        self.fewer_fills += (fills(new) < fills(&open)) as usize;
        let estimates = chart.estimates(target);
        let base = chart.met_by(class, &chart.map().base());
        let of_class = |junction: u32| brute::least(chart.map(), &base, junction)[target as usize];
        let first = new.log.first();
        self.below +=
            first.is_some_and(|&first| estimates[first as usize] < of_class(first)) as usize;
    }

    /// Each was met at least so often; another log as long, which is rare, a tenth as often.
    fn at_least(&self, least: usize) -> bool {
        let Bars { longer, lost, fewer, other_log, other_roads, more, fewer_fills, below } = *self;
        let all = [longer, lost, fewer, 10 * other_log, other_roads, more, fewer_fills, below];
        all.iter().all(|&met| met >= least)
    }
}

#[derive(Debug, Default)]
struct Searches {
    found: usize,
    lost: usize,
    /// No chain: an empty log, since the start has no estimate, and more than one logged.
    empty: usize,
    lost_late: usize,
    /// Neighbours in the log with equal keys that the time tells apart, and that the number does.
    by_time: usize,
    by_number: usize,
    /// Found, with another junction whose key is the total.
    at_the_total: usize,
    /// By document 01's order: a shorter log, another one with a chain and without, another route, other estimates
    /// filled.
    fewer: usize,
    other_log: usize,
    other_log_lost: usize,
    other_route: usize,
    other_fills: usize,
}

impl Searches {
    fn count(&mut self, chart: &Chart, live: &[Time], target: u32, new: &Searched, old: &Searched) {
        let estimates = chart.estimates(target);
        let time = |junction: u32| new.elapsed[junction as usize];
        let key = |junction: u32| time(junction) + estimates[junction as usize];
        for two in new.log.windows(2).filter(|two| key(two[0]) == key(two[1])) {
            self.by_time += (time(two[0]) < time(two[1])) as usize;
            self.by_number += (time(two[0]) == time(two[1])) as usize;
        }
        assert_eq!(new.total, old.total);
        let other_log = (old.log != new.log) as usize;
        match new.total {
            Some(total) => {
                let tied = new.log.iter().filter(|&&junction| key(junction) == total).count();
                assert!(new.log.last() == Some(&target) && old.log.len() <= new.log.len());
                self.found += 1;
                self.at_the_total += (tied > 1) as usize;
                self.fewer += (old.log.len() < new.log.len()) as usize;
                self.other_log += other_log;
                self.other_route += (old.route != new.route) as usize;
            }
            None => {
                self.lost += 1;
                self.empty += new.log.is_empty() as usize;
                self.lost_late += (new.log.len() > 1) as usize;
                self.other_log_lost += other_log;
            }
        }
        // Every open road that gives a logged junction its time comes from an earlier logged one.
        let mut places = vec![None; estimates.len()];
        for (place, &junction) in new.log.iter().enumerate() {
            places[junction as usize] = Some(place);
        }
        for (_, road, live) in chart.open(live) {
            if let [Some(tail), Some(head)] = [road.tail, road.head].map(|end| places[end as usize])
            {
                assert!(tail < head || time(road.tail) + live > time(road.head), "{road:?}");
            }
        }
    }

    fn all(&self) -> [usize; 12] {
        [
            self.found,
            self.lost,
            self.empty,
            self.lost_late,
            self.by_time,
            self.by_number,
            self.at_the_total,
            self.fewer,
            self.other_log,
            self.other_log_lost,
            self.other_route,
            self.other_fills,
        ]
    }

    /// Each was met at least as often as the one here.
    fn at_least(&self, least: Searches) -> bool {
        self.all().iter().zip(least.all()).all(|(met, least)| *met >= least)
    }
}

/// A map on which many keys are equal: times of 1 to 3, whole grids of one time, parallel roads.
fn tied_map(random: &mut Random, side: usize) -> Map {
    let (width, height) = (1 + random.below(side), 1 + random.below(side));
    let n = 2 + random.below(side * side - 1);
    let mut map = match random.below(5) {
        0 => maps::small(random),
        1 => maps::even_grid(random, width, height),
        2 => {
            let mut map = maps::even_grid(random, width, height);
            map.roads.iter_mut().for_each(|road| road.base = 1);
            map
        }
        kind => {
            let m = n + random.below(2 * n);
            let longest = random.pick(&[1, 2, 3]);
            let mut map = maps::random(random, n, m, longest);
            if kind == 3 {
                map.order = order::least_degree(n, &map.roads);
            }
            map
        }
    };
    for _ in 0..random.below(1 + map.m() / 3) {
        let road = random.pick(&map.roads);
        map.roads.push(Road { base: road.base + random.pick(&[0, 0, 1]), ..road });
    }
    random.shuffle(&mut map.roads);
    if random.chance(50) {
        maps::bar(random, &mut map);
    }
    map
}

/// An allowed time for a road: its base time, a little more, or closed.
fn time(random: &mut Random, base: Time) -> Time {
    match random.below(8) {
        0..2 => CLOSED,
        2..5 => base,
        _ => base + random.within(1..=3),
    }
}

/// A trial on a map at live times.
fn at_times(map: Map, live: Vec<Time>, target: u32, met: &mut Met) -> Trial {
    let mut trial = Trial::new(map, target);
    for (road, time) in (0..).zip(live) {
        trial.call(Call::Set { road, time }, met);
    }
    trial
}

/// From every start to every target.
#[test]
fn every_trip() {
    let mut random = Random::new(1);
    let mut met = Met::default();
    for _ in 0..600 {
        let map = tied_map(&mut random, 4);
        let live = traffic::live_times(&mut random, &map);
        let n = map.n();
        let mut trial = at_times(map, live, 0, &mut met);
        for junction in 0..n as u32 {
            for start in 0..n as u32 {
                trial.call(Call::Aim { junction }, &mut met);
                let class = random.below(CLASSES as usize) as u32;
                trial.call(Call::Go { class, start, route: n, log: n }, &mut met);
            }
        }
    }
    let least = Searches {
        found: 20_000,
        lost: 8_000,
        empty: 6_000,
        lost_late: 800,
        by_time: 40_000,
        by_number: 6_000,
        at_the_total: 15_000,
        fewer: 2_500,
        other_log: 3_500,
        other_log_lost: 120,
        other_route: 1_000,
        other_fills: 1_200,
    };
    assert!(met.go.at_least(least), "{met:?}");
    assert!(met.bars.at_least(400), "{met:?}");
}

/// Any of the six calls, which no question before 15 and 17 refuses.
fn any_call(random: &mut Random, map: &Map) -> Call {
    let n = map.n();
    let junction = random.below(n) as u32;
    let road = random.below(map.m().max(1)) as u32;
    let time = time(random, map.roads.get(road as usize).map_or(1, |road| road.base));
    let class = random.below(CLASSES as usize) as u32;
    match random.below(20) {
        0..5 if map.m() > 0 => Call::Set { road, time },
        5..8 => Call::Aim { junction },
        8 => Call::Estimate { junction },
        9..12 if map.m() > 0 => Call::Preview { class, road, time, start: junction, work: 2 * n },
        12..14 => {
            let count = 2 + random.below(4);
            let stops: Vec<u32> = (0..count).map(|_| random.below(n) as u32).collect();
            Call::Stops { class, stops: StopList::of(&stops), route: count * n, log: n }
        }
        _ => Call::Go { class, start: junction, route: n, log: n },
    }
}

/// Lists of calls: times set and closed, targets, estimates, previews and lists of stops between the goes.
#[test]
fn lists() {
    let mut random = Random::new(2);
    let mut met = Met::default();
    for i in 0..3_000 {
        let map = tied_map(&mut random, if i % 30 == 0 { 9 } else { 4 });
        let live = traffic::live_times(&mut random, &map);
        let mut trial = at_times(map, live, 0, &mut met);
        for _ in 0..40 {
            let call = any_call(&mut random, trial.chart.map());
            trial.call(call, &mut met);
        }
    }
    let least = Searches {
        found: 20_000,
        lost: 6_000,
        empty: 4_000,
        lost_late: 1_000,
        by_time: 20_000,
        by_number: 3_000,
        at_the_total: 10_000,
        fewer: 1_200,
        other_log: 1_600,
        other_log_lost: 100,
        other_route: 500,
        other_fills: 200,
    };
    assert!(met.go.at_least(least), "{met:?}");
    let least = Searches {
        found: 5_000,
        lost: 3_000,
        empty: 2_000,
        lost_late: 500,
        by_time: 6_000,
        by_number: 1_000,
        at_the_total: 3_000,
        fewer: 400,
        other_log: 500,
        other_log_lost: 50,
        other_route: 150,
        other_fills: 150,
    };
    assert!(met.last_leg.at_least(least), "{met:?}");
    assert!(met.bars.at_least(200), "{met:?}");
    assert!(
        met.changed > 20_000
            && met.closed > 15_000
            && met.asked > 15_000
            && met.previews > 10_000
            && met.other_fills > 100,
        "{met:?}"
    );
}

/// On grids of up to 3,600 junctions; at last with every road to the target closed.
#[test]
fn grids() {
    with_stack(|| {
        let mut random = Random::new(3);
        let mut met = Met::default();
        for (side, trips) in [(20, 20), (30, 10), (60, 2)] {
            let map = maps::even_grid(&mut random, side, side);
            let n = map.n();
            let mut live = map.base();
            for (road, time) in traffic::changes(&mut random, &map, 2) {
                live[road as usize] = time;
            }
            let roads = map.roads.clone();
            let mut trial = at_times(map, live, 0, &mut met);
            for trip in 0..=trips {
                let [junction, start] = [(); 2].map(|()| random.below(n) as u32);
                trial.call(Call::Aim { junction }, &mut met);
                for (road, _) in (0..).zip(&roads).filter(|(_, road)| road.head == junction) {
                    if trip == trips {
                        trial.call(Call::Set { road, time: CLOSED }, &mut met);
                    }
                }
                trial.call(Call::Go { class: 0, start, route: n, log: n }, &mut met);
            }
        }
        let least = Searches {
            found: 32,
            lost: 3,
            lost_late: 3,
            by_time: 500,
            by_number: 500,
            at_the_total: 25,
            fewer: 15,
            other_log: 20,
            other_log_lost: 3,
            other_route: 15,
            other_fills: 10,
            ..Searches::default()
        };
        assert!(met.go.at_least(least), "{met:?}");
    });
}

/// On slow roads: totals and keys have more than 32 bits, and with all times the same nearly all of them tie.
#[test]
fn totals_past_32_bits() {
    with_stack(|| {
        let mut random = Random::new(4);
        let mut met = Met::default();
        for less in [0, 0, 3] {
            let map = maps::slow_road(&mut random, 900, less);
            let live = map.base();
            let mut trial = at_times(map, live, 0, &mut met);
            for _ in 0..6 {
                let [junction, start] =
                    [random.below(60), 840 + random.below(60)].map(|at| at as u32);
                let ends = random.pick(&[[junction, start], [start, junction]]);
                trial.call(Call::Aim { junction: ends[0] }, &mut met);
                trial.call(Call::Go { class: 0, start: ends[1], route: 900, log: 900 }, &mut met);
            }
        }
        let Searches { found, by_time, by_number, at_the_total, .. } = met.go;
        assert!(met.past_32_bits > 12 && found > 15 && by_time > 1_000, "{met:?}");
        assert!(by_number > 100 && at_the_total > 8, "{met:?}");
    });
}

/// Roads by number, in an order that ranks junction 0 highest.
fn map(n: u32, roads: &[(u32, u32, Time)]) -> Map {
    let road = |&(tail, head, base): &(u32, u32, Time)| Road::new(tail, head, base);
    Map { roads: roads.iter().map(road).collect(), order: (0..n).rev().collect() }
}

/// The unit and the router, aimed at a target.
fn aimed(map: &Map, junction: u32) -> Both {
    let mut both = Both::prepare(map, order::pairs(map)).unwrap();
    both.call(Call::Aim { junction });
    both
}

/// Roads u-v 1, s-v 2, s-u 1, v-t 1 with s, v, u, t = 0, 1, 2, 3: all keys are 3. The proved unit and every
/// reference have log 0, 2, 1, 3 and roads 2, 0, 3; by document 01's order it was log 0, 1, 2, 3 and roads 1, 3.
#[test]
fn a_tie_that_changes_the_route() {
    let map = map(4, &[(2, 1, 1), (0, 1, 2), (0, 2, 1), (1, 3, 1)]);
    let (log, route) = (vec![0, 2, 1, 3], vec![2, 0, 3]);
    let (mut both, mut machine) = (aimed(&map, 3), Machine::new(&map));
    machine.answer(Call::Aim { junction: 3 });
    let go = Call::Go { class: 0, start: 0, route: 4, log: 4 };
    let stops = Call::Stops { class: 0, stops: StopList::of(&[0, 3]), route: 8, log: 4 };
    let stopped = Stopped::of(&[(3, 3)]);
    for (call, answer) in [
        (go, Accepted::Trip(Trip { total: 3, count: 4, roads: 3 })),
        (stops, Accepted::Stopped(stopped)),
    ] {
        let want = Reply { answer: Ok(answer), route: route.clone(), log: log.clone() };
        assert_eq!(both.call(call), want);
        assert_eq!(machine.answer(call), want);
    }
    let mut lent = LentAreas::of(stops);
    let answer = areas::stops(&mut both.unit, 0, &[0, 3], &mut lent.route, &mut lent.log);
    assert_eq!(answer, Ok(stopped));
    assert_eq!((&lent.route[..3], &lent.log[..]), (&route[..], &log[..]));

    let chart = Chart::new(map);
    let (live, estimates) = (chart.map().base(), chart.estimates(3));
    let time = |road: u32| live[road as usize];
    let by_heap = search(&Graph::new(chart.map()), time, 0, 3, |at| estimates[at as usize]);
    assert_eq!((by_heap.log, by_heap.found), (log.clone(), Some((3, route.clone()))));
    for searched in [chart.figure(&live, 0, 3), chart.literal.search(0, &live, 0, 3)] {
        assert_eq!((searched.log, searched.route), (log.clone(), route.clone()));
    }
    let old = chart.by_number(&live, 0, 3);
    assert_eq!((old.log, old.route), (vec![0, 1, 2, 3], vec![1, 3]));
}

/// Map P with road 1 barred to class 0 and road 3 to class 1. The count is the number of junctions whose least time over
/// open roads of the class plus estimate is within the total; the estimates are over all roads.
#[test]
fn effort_of_classes() {
    let mut map = maps::map_p_with_classes();
    map.roads[3].access = !2;
    let mut both = aimed(&map, 3);
    let chart = Chart::new(map);
    for (class, start, total, log) in [
        // 1 and 2 have the keys 20 and 25.
        (0, 0, Some(25), &[0, 1, 2, 3][..]),
        (1, 0, Some(20), &[0, 1, 3]),
        (2, 0, Some(20), &[0, 1, 3]),
        // From 1 and from 2 one class alone gets on; the estimate of 10 stays.
        (0, 1, None, &[1]),
        (1, 1, Some(10), &[1, 3]),
        (0, 2, Some(10), &[2, 3]),
        (1, 2, None, &[2]),
    ] {
        let reply = both.call(Call::Go { class, start, route: 4, log: 4 });
        assert_eq!(reply.log, log, "class {class} from {start}");
        let found = match reply.answer {
            Ok(Accepted::Trip(trip)) => Some(trip.total),
            Err(Refusal::NoPath(count)) if count as usize == log.len() => None,
            answer => panic!("{answer:?}"),
        };
        assert_eq!(found, total, "class {class} from {start}");
        let live = chart.met_by(class, &chart.map().base());
        assert_eq!(chart.figure(&live, start, 3).log, log);
        assert_eq!(chart.estimates(3), [20, 10, 10, 0]);
    }
    assert_eq!(both.unit.estimates[..], [20, 10, 10, 0]);
}

/// From 3 by 1 or by 2 to 0: all keys are 2, and both are logged before the target, which has the smallest number.
/// So the estimate of 4, where a road from 2 leads, is asked by a go, by a preview and by a list of stops.
#[test]
fn a_tie_that_fills_an_estimate() {
    let map = map(5, &[(3, 1, 1), (1, 0, 1), (3, 2, 1), (2, 0, 1), (2, 4, 1)]);
    let go = Call::Go { class: 0, start: 3, route: 5, log: 5 };
    let reply = aimed(&map, 0).call(go);
    assert_eq!(reply.answer, Ok(Accepted::Trip(Trip { total: 2, count: 4, roads: 2 })));
    assert_eq!((&reply.route[..], &reply.log[..]), (&[0, 1][..], &[3, 1, 2, 0][..]));
    for call in [
        go,
        Call::Preview { class: 0, road: 4, time: 2, start: 3, work: 10 },
        Call::Preview { class: 0, road: 1, time: CLOSED, start: 3, work: 10 },
        Call::Stops { class: 0, stops: StopList::of(&[3, 0]), route: 10, log: 5 },
    ] {
        let mut both = aimed(&map, 0);
        both.call(call);
        assert_eq!(both.unit.estimates[..], [0, 1, 1, 2, NONE], "{call:?}");
    }
    let chart = Chart::new(map);
    let live = chart.map().base();
    let [new, old] = [chart.figure(&live, 3, 0), chart.by_number(&live, 3, 0)];
    assert_eq!((new.log, new.fills[4]), (vec![3, 1, 2, 0], true));
    assert_eq!((old.log, old.fills[4]), (vec![3, 1, 0], false));
}

/// The roads to the target 3 are closed. From 0, open roads reach 1, 2 and 5, which has no estimate; 2 has the key
/// of 1 and the smaller time. From 4 they reach 5; neither has an estimate.
#[test]
fn without_a_chain() {
    let roads = [(0, 1, 2), (0, 2, 1), (1, 3, 1), (2, 3, 2), (3, 4, 1), (4, 5, 1), (2, 5, 1)];
    let map = map(6, &roads);
    let mut both = aimed(&map, 3);
    for road in [2, 3] {
        both.call(Call::Set { road, time: CLOSED });
    }
    for (start, log) in [(0, vec![0, 2, 1]), (4, vec![]), (1, vec![1]), (5, vec![])] {
        let answer = Err(Refusal::NoPath(log.len() as u32));
        let want = Reply { answer, route: vec![], log };
        assert_eq!(both.call(Call::Go { class: 0, start, route: 6, log: 6 }), want);
        let want = Reply { answer: Err(Refusal::NoLeg(0)), ..want };
        let stops = StopList::of(&[start, 3]);
        assert_eq!(both.call(Call::Stops { class: 0, stops, route: 12, log: 6 }), want);
    }
    let chart = Chart::new(map);
    let live = both.unit.live.to_vec();
    assert_eq!(chart.figure(&live, 0, 3).log, [0, 2, 1]);
    assert_eq!(chart.by_number(&live, 0, 3).log, [0, 1, 2]);
}

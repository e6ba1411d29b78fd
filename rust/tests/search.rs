//! Go of the proved unit, beside the plain router, A* with least base totals from Dijkstra's algorithm,
//! and Dijkstra's algorithm itself.

use harness::both::{with_stack, Both};
use harness::by_tail::ByTail;
use harness::calls::{Accepted, Call, Refusal, Trip, CLASSES};
use harness::card::{LONGEST, MOST_JUNCTIONS};
use harness::dijkstra;
use harness::graph::Graph;
use harness::machine::Reply;
use harness::maps::{self, Map, Road, Streets};
use harness::order;
use harness::random::Random;
use harness::search::{search, Search};
use harness::time::{Time, CLOSED, NONE, UNASKED};
use harness::traffic;
use harness::unit::same;

/// A prepared unit that is aimed and has heard live times.
struct Journey {
    map: Map,
    graph: Graph,
    live: Vec<Time>,
    target: u32,
    both: Both,
}

impl Journey {
    fn new(map: Map, live: Vec<Time>, target: u32) -> Journey {
        let mut both = Both::prepare(&map, order::pairs(&map)).unwrap();
        for ((road, &time), base) in (0..).zip(&live).zip(map.base()) {
            if time != base {
                assert_eq!(both.call(Call::Set { road, time }).answer, Ok(Accepted::Done));
            }
        }
        assert_eq!(both.call(Call::Aim { junction: target }).answer, Ok(Accepted::Done));
        Journey { graph: Graph::new(&map), map, live, target, both }
    }

    /// Goes from a start, as class 0.
    fn go(&mut self, start: u32, spare: usize) -> Search {
        self.go_as(0, start, spare)
    }

    /// Goes from a start, and compares what is answered and left with searches of their own, over roads that let the
    /// class in.
    fn go_as(&mut self, class: u32, start: u32, spare: usize) -> Search {
        let before = self.both.unit.estimates.to_vec();
        let (n, base) = (self.map.n(), self.map.base());
        let reply = self.both.call(Call::Go { class, start, route: n + spare, log: n + spare / 2 });

        let least = dijkstra::to(&self.graph, &base, self.target);
        let live = self.map.met_by(class, &self.live);
        let time = |road: u32| live[road as usize];
        let want = search(&self.graph, time, start, self.target, |at| least[at as usize]);
        self.check_reply(&reply, &want);
        same("elapsed", &self.both.unit.elapsed, &want.elapsed);
        let total = dijkstra::from(&self.graph, &live, start)[self.target as usize];
        assert_eq!(want.found.as_ref().map_or(NONE, |found| found.0), total);

        let filled = self.filled(&live, start, &want.log);
        let word = |junction: usize| {
            if filled[self.both.unit.ranks[junction] as usize] {
                least[junction]
            } else {
                before[junction]
            }
        };
        let estimates: Vec<Time> = (0..n).map(word).collect();
        same("estimates", &self.both.unit.estimates, &estimates);
        want
    }

    fn check_reply(&self, reply: &Reply, want: &Search) {
        assert_eq!(reply.log, want.log);
        let count = want.log.len() as u32;
        match &want.found {
            Some((total, route)) => {
                assert_eq!(reply.route, *route);
                let trip = Trip { total: *total, count, roads: route.len() as u32 };
                assert_eq!(reply.answer, Ok(Accepted::Trip(trip)));
            }
            None => assert_eq!(reply.answer, Err(Refusal::NoPath(count))),
        }
    }

    /// Which estimates a go fills, by rank: the start's, those of heads of open roads from logged
    /// junctions other than the target, and those above them.
    fn filled(&self, live: &[Time], start: u32, log: &[u32]) -> Vec<bool> {
        let unit = &self.both.unit;
        let rank = |junction: u32| unit.ranks[junction as usize] as usize;
        let mut filled = vec![false; self.map.n()];
        filled[rank(start)] = true;
        for &junction in log.iter().filter(|&&junction| junction != self.target) {
            for arc in self.graph.out.of(junction) {
                filled[rank(arc.end)] |= live[arc.road as usize] != CLOSED;
            }
        }
        // Records ascend, so one pass follows each chain upwards.
        for (low, high, up, _) in unit.records() {
            filled[high as usize] |= filled[low as usize] && up != NONE;
        }
        filled
    }
}

/// How often what is worth meeting was met.
#[derive(Debug, Default)]
struct Tally {
    found: usize,
    missing: usize,
    /// Logs without an entry.
    empty: usize,
    /// Trips that take longer than at base times.
    delayed: usize,
    unasked: usize,
    /// Trips that take longer than if every road let the class in, and such that have no chain for that reason.
    round_barred: usize,
    lost_to_bars: usize,
    /// Junctions logged right after one with the same key: with the same time, and with a larger one,
    ties: [usize; 2],
    /// of the latter, those with a smaller number.
    falling: usize,
    /// Roads of a route that stand first, or last, among several that leave their tail.
    ends_of_groups: [usize; 2],
    /// Totals of 2^32 and more, and keys of logged junctions.
    past_32_bits: [usize; 2],
}

impl Tally {
    /// Makes three trips on a map, to one target, each as some class.
    fn trips(&mut self, random: &mut Random, map: Map, live: Vec<Time>) {
        let target = random.below(map.n()) as u32;
        let mut journey = Journey::new(map, live, target);
        let base = dijkstra::to(&journey.graph, &journey.map.base(), target);
        let by_tail = ByTail::new(&journey.map);
        for _ in 0..3 {
            let start = random.below(journey.map.n()) as u32;
            let class = random.below(CLASSES as usize) as u32;
            let search = journey.go_as(class, start, random.below(20));
            let open = dijkstra::from(&journey.graph, &journey.live, start)[target as usize];
            match &search.found {
                Some((total, _)) => self.round_barred += (*total > open) as usize,
                None => self.lost_to_bars += (open != NONE) as usize,
            }
            match &search.found {
                Some((total, route)) => {
                    self.found += 1;
                    self.past_32_bits[0] += (total >> 32 > 0) as usize;
                    self.delayed += (*total > base[start as usize]) as usize;
                    for road in route {
                        let group = by_tail.group(journey.map.roads[*road as usize].tail);
                        let ends = [group.first(), group.last()];
                        for (met, end) in self.ends_of_groups.iter_mut().zip(ends) {
                            *met += (group.len() > 1 && end == Some(road)) as usize;
                        }
                    }
                }
                None => self.missing += 1,
            }
            self.empty += search.log.is_empty() as usize;
            let time = |junction: u32| search.elapsed[junction as usize];
            let key = |junction: u32| time(junction) + base[junction as usize];
            self.past_32_bits[1] += search.log.iter().filter(|&&at| key(at) >> 32 > 0).count();
            for two in search.log.windows(2).filter(|two| key(two[0]) == key(two[1])) {
                let later = time(two[0]) < time(two[1]);
                assert!(later || time(two[0]) == time(two[1]) && two[0] < two[1], "{two:?}");
                self.ties[later as usize] += 1;
                self.falling += (two[1] < two[0]) as usize;
            }
        }
        let estimates = journey.both.unit.estimates.iter();
        self.unasked += estimates.filter(|&&word| word == UNASKED).count();
    }
}

#[test]
fn small_maps() {
    let mut random = Random::new(1);
    let mut tally = Tally::default();
    for _ in 0..6_000 {
        let mut map = maps::small(&mut random);
        if random.chance(60) {
            maps::bar(&mut random, &mut map);
        }
        let live = traffic::live_times(&mut random, &map);
        tally.trips(&mut random, map, live);
    }
    let Tally { found, missing, empty, delayed, unasked, ties, falling, ends_of_groups, .. } =
        tally;
    assert!(
        tally.round_barred > 300 && tally.lost_to_bars > 700,
        "{} round barred roads, {} lost to them",
        tally.round_barred,
        tally.lost_to_bars
    );
    assert!(
        found > 10_000
            && missing > 3_000
            && empty > 2_000
            && delayed > 500
            && unasked > 5_000
            && ties[0] > 400
            && ties[1] > 10_000
            && falling > 3_000
            && ends_of_groups.iter().all(|&met| met > 1_000),
        "{tally:?}"
    );
}

#[test]
fn towns() {
    let mut random = Random::new(2);
    let mut tally = Tally::default();
    for i in 0..60 {
        let (width, height) = (1 + random.below(30), 1 + random.below(30));
        let mut map = match i {
            0 => maps::town(&mut random, 64, 64, Streets::USUAL),
            1 => maps::largest_town(&mut random),
            _ if i % 3 == 0 => maps::even_grid(&mut random, width, height),
            _ => maps::town(&mut random, width, height, Streets::USUAL),
        };
        if i % 2 == 0 {
            for road in &mut map.roads {
                if random.chance(12) {
                    road.access = random.word() as u8;
                }
            }
        }
        let percent = random.pick(&[0, 1, 5, 20, 50]);
        let mut live = map.base();
        for (road, time) in traffic::changes(&mut random, &map, percent) {
            live[road as usize] = time;
        }
        tally.trips(&mut random, map, live);
    }
    let Tally { found, missing, delayed, unasked, ties, ends_of_groups, round_barred, .. } = tally;
    assert!(
        round_barred > 15
            && found > 100
            && missing > 10
            && delayed > 20
            && unasked > 1_000
            && ties[0] > 100
            && ties[1] > 1_000
            && ends_of_groups.iter().all(|&met| met > 200),
        "{tally:?}"
    );
}

/// Slow roads, whose totals and keys pass 2^32, with delays and closures.
#[test]
fn totals_past_32_bits() {
    with_stack(|| {
        let mut random = Random::new(5);
        let mut tally = Tally::default();
        for i in 0..24 {
            let n = 1_000 + random.below(if i == 0 { MOST_JUNCTIONS - 1_000 } else { 500 });
            let mut map = maps::slow_road(&mut random, n, [0, 3, 500][i % 3]);
            // A closed road may leave no way on; a few are closed, more are delayed.
            let mut live = map.base();
            for _ in 0..random.below(4) {
                live[random.below(map.m())] = random.pick(&[CLOSED, LONGEST, LONGEST]);
            }
            if i % 4 == 0 {
                map.roads[random.below(n)].access = random.word() as u8;
            }
            tally.trips(&mut random, map, live);
        }
        assert!(
            tally.past_32_bits[0] > 15 && tally.past_32_bits[1] > 5_000 && tally.found > 30,
            "{tally:?}"
        );
    });
}

/// Map P with road 1 barred to class 0 (document 02, A6). The class of a go holds for that go alone.
#[test]
fn classes_of_map_p() {
    let map = maps::map_p_with_classes();
    let mut journey = Journey::new(map.clone(), map.base(), 3);
    let round = (Some((25, vec![2, 3])), vec![0, 1, 2, 3]);
    let straight = (Some((20, vec![0, 1])), vec![0, 1, 3]);
    for (class, want) in
        [(0, &round), (1, &straight), (0, &round), (7, &straight), (4, &straight), (0, &round)]
    {
        let search = journey.go_as(class, 0, 1);
        assert_eq!((search.found, search.log), *want, "class {class}");
        assert_eq!(journey.both.unit.live[..], map.base(), "no live time is altered");
    }
    // Closed by the radio, it is so for every class.
    journey.live[1] = CLOSED;
    journey.both.call(Call::Set { road: 1, time: CLOSED });
    for class in [0, 1] {
        let search = journey.go_as(class, 0, 0);
        assert_eq!((search.found, search.log), round);
    }
}

/// Each class has the one road whose byte has its bit alone, and no other has any: bits from the lowest.
#[test]
fn a_road_for_each_class() {
    let mut roads: Vec<Road> = (0..CLASSES)
        .map(|class| Road { access: 1 << class, ..Road::new(0, 1, 10 * Time::from(class + 1)) })
        .collect();
    roads.push(Road { access: 0, ..Road::new(0, 1, 1) });
    let map = Map { roads, order: vec![0, 1] };
    let mut journey = Journey::new(map.clone(), map.base(), 1);
    for class in (0..CLASSES).rev().chain(0..CLASSES) {
        let search = journey.go_as(class, 0, 0);
        assert_eq!(search.found, Some((10 * Time::from(class + 1), vec![class])));
    }
    let reply = journey.both.call(Call::Estimate { junction: 0 });
    assert_eq!(reply.answer, Ok(Accepted::Estimate(1)), "by the road that no class may use");
}

/// 18 comes before 12, 13 and 14, whether or not the card has bytes for classes; no class is taken modulo 8.
#[test]
fn no_such_class() {
    let mut refused = 0;
    for map in [maps::map_p(), maps::map_p_with_classes()] {
        for aimed in [false, true] {
            let mut both = Both::prepare(&map, 5).unwrap();
            if aimed {
                both.call(Call::Aim { junction: 3 });
            }
            for class in [8, 9, 15, 16, 255, 256, 1 << 31, u32::MAX - 7, u32::MAX] {
                for (start, route, log) in [(0, 4, 4), (4, 4, 4), (0, 3, 4), (0, 4, 3), (9, 0, 0)] {
                    let reply = both.call(Call::Go { class, start, route, log });
                    assert_eq!(reply.answer, Err(Refusal::NoClass), "{class}, {start}");
                    refused += 1;
                }
            }
            let reply = both.call(Call::Go { class: 7, start: 4, route: 0, log: 0 });
            assert_eq!(reply.answer, Err(Refusal::NoJunction));
        }
    }
    assert_eq!(refused, 2 * 2 * 9 * 5);
}

/// All times equal: nearly every choice is one among equal keys.
#[test]
fn ties() {
    let mut random = Random::new(3);
    let mut tally = Tally::default();
    for i in 0..600 {
        let n = 2 + random.below(if i < 10 { 120 } else { 30 });
        let mut map = maps::random(&mut random, n, 2 * n, 1);
        map.order = order::least_degree(n, &map.roads);
        let live = map.base();
        tally.trips(&mut random, map, live);
    }
    let Tally { found, ties, falling, .. } = tally;
    assert!(ties[0] > 100 && ties[1] > 2_000 && falling > 500 && found > 300, "{tally:?}");
}

/// Into 1, roads 0 and 1 give the time. Road 0 comes from 2, which is logged before 1: its key is the same, its
/// time smaller.
#[test]
fn equal_keys_by_time() {
    let road = |(tail, head, base)| Road::new(tail, head, base);
    let roads = [(2, 1, 1), (0, 1, 2), (0, 2, 1), (1, 3, 1)].map(road).to_vec();
    let map = Map { roads, order: vec![0, 1, 2, 3] };
    let search = Journey::new(map.clone(), map.base(), 3).go(0, 0);
    assert_eq!(search.log, [0, 2, 1, 3]);
    assert_eq!(search.found, Some((3, vec![2, 0, 3])));
}

/// The largest key of all stands beside the target's, which is smaller, but not in 32 bits.
#[test]
fn the_largest_key() {
    with_stack(|| {
        let n = MOST_JUNCTIONS as u32;
        let map = maps::ring_with_bypass(MOST_JUNCTIONS);
        let mut journey = Journey::new(map.clone(), map.base(), 0);
        let search = journey.go(2, 3);
        assert_eq!(search.found.map(|found| found.0), Some(Time::from(n - 2) * LONGEST));
        assert_eq!(search.log.len() as u32, n - 1);
        assert_eq!(search.elapsed[1], NONE, "the junction with the largest key is not logged");

        // With the target's only road closed, it is: time 40,940,000,000 and estimate 40,950,000,000.
        let mut live = map.base();
        live[n as usize - 1] = CLOSED;
        let mut journey = Journey::new(map, live, 0);
        let search = journey.go(2, 3);
        assert_eq!((search.found, search.log.last()), (None, Some(&1)));
        let unit = &journey.both.unit;
        assert_eq!(unit.elapsed[1] + unit.estimates[1], 81_890_000_000);
    });
}

#[test]
fn keys_past_32_bits_before_a_detour() {
    with_stack(|| {
        let n = MOST_JUNCTIONS as u32;
        let map = maps::wide_keys(MOST_JUNCTIONS);
        let mut live = map.base();
        live[n as usize - 3] = CLOSED;
        let search = Journey::new(map, live, n - 2).go(1, 0);
        assert_eq!(search.elapsed[0], NONE, "the junction with the larger key is not logged");
        assert_eq!(search.found.map(|found| found.0), Some(Time::from(n - 2) * LONGEST));
    });
}

/// The longest routes: n - 1 roads, in areas of just n entries.
#[test]
fn the_longest_routes() {
    with_stack(|| {
        let n = MOST_JUNCTIONS as u32;
        for (map, start, target) in [
            (maps::line(MOST_JUNCTIONS), 0, n - 1),
            (maps::line(MOST_JUNCTIONS), n - 1, 0),
            (maps::ring(MOST_JUNCTIONS), 1, 0),
        ] {
            let search = Journey::new(map.clone(), map.base(), target).go(start, 0);
            let (total, route) = search.found.unwrap();
            assert_eq!((total, route.len() as u32), (40_950_000_000, n - 1));
            assert_eq!(search.log.len() as u32, n);
        }
    });
}

/// No chain: the count and the log, and the route area untouched (the plain router leaves it so).
#[test]
fn no_chain() {
    let mut random = Random::new(4);
    let mut counts = Vec::new();
    for map in [
        maps::map_p(),
        maps::town(&mut random, 20, 30, Streets::USUAL),
        maps::even_grid(&mut random, 9, 9),
        maps::line(300),
        maps::ring(300),
    ] {
        let target = map.roads[random.below(map.m())].head;
        // Every road to the target is closed; then every road from the start as well.
        let mut live = map.base();
        for (road, live) in map.roads.iter().zip(&mut live) {
            if road.head == target {
                *live = CLOSED;
            }
        }
        let start = (target + 1) % map.n() as u32;
        for _ in 0..2 {
            let search = Journey::new(map.clone(), live.clone(), target).go(start, 5);
            assert_eq!(search.found, None);
            counts.push(search.log.len());
            for (road, live) in map.roads.iter().zip(&mut live) {
                if road.tail == start {
                    *live = CLOSED;
                }
            }
        }
    }
    assert!(counts.iter().max() > Some(&250) && counts.contains(&1), "{counts:?}");
}

/// A start without an estimate: nothing is logged, and only the start and those above it are filled.
#[test]
fn no_estimate() {
    let road = |(tail, head)| Road::new(tail, head, 5);
    let roads = [(0, 1), (1, 2), (3, 2)].map(road).to_vec();
    let map = Map { roads, order: vec![2, 1, 0, 3] };
    let mut journey = Journey::new(map.clone(), map.base(), 0);
    let search = journey.go(2, 4);
    assert_eq!((search.found, search.log.len()), (None, 0));
    assert_eq!(journey.both.unit.elapsed[..], [NONE; 4]);
    assert_eq!(journey.both.unit.estimates[..], [UNASKED, UNASKED, NONE, UNASKED]);
}

/// The cases of map P that make a trip.
#[test]
fn trips_of_map_p() {
    let trip = |changes: &[(u32, Time)], start, target| {
        let map = maps::map_p();
        let mut live = map.base();
        for &(road, time) in changes {
            live[road as usize] = time;
        }
        let search = Journey::new(map, live, target).go(start, 0);
        (search.found, search.log)
    };
    assert_eq!(trip(&[], 0, 3), (Some((20, vec![0, 1])), vec![0, 1, 3]));
    assert_eq!(trip(&[(1, CLOSED)], 0, 3), (Some((25, vec![2, 3])), vec![0, 1, 2, 3]));
    assert_eq!(trip(&[(1, 15)], 0, 3), (Some((25, vec![0, 1])), vec![0, 1, 2, 3]));
    assert_eq!(trip(&[], 3, 3), (Some((0, vec![])), vec![3]));
    assert_eq!(trip(&[(1, CLOSED), (2, CLOSED)], 0, 3), (None, vec![0, 1]));
}

//! The search log: A* with a binary heap over live times, and the route read back from it. Equal keys go by time,
//! then by number (document 02, A5).

use crate::graph::Graph;
use crate::time::{Time, CLOSED, NONE};
use std::cmp::Reverse;
use std::collections::BinaryHeap;

/// What a search leaves.
#[derive(Clone, Debug, PartialEq, Eq)]
pub struct Search {
    /// The logged junctions in turn.
    pub log: Vec<u32>,
    /// Logged junctions' times, otherwise none.
    pub elapsed: Vec<Time>,
    /// The least total and the route's roads, if there is a chain.
    pub found: Option<(Time, Vec<u32>)>,
}

/// Searches from a start to a target, over the roads whose time is not closed. Asks for the estimates of the start
/// and of every head of an open road from a logged junction other than the target, and for no others.
pub fn search(
    graph: &Graph,
    live: impl Fn(u32) -> Time + Copy,
    start: u32,
    target: u32,
    estimate: impl FnMut(u32) -> Time,
) -> Search {
    let (log, elapsed) = logged(graph, live, start, target, estimate);
    let total = elapsed[target as usize];
    let found = (total != NONE).then(|| (total, route(graph, live, &log, &elapsed, target)));
    Search { log, elapsed, found }
}

/// The total alone of the same search, if there is a chain.
pub fn total(
    graph: &Graph,
    live: impl Fn(u32) -> Time,
    start: u32,
    target: u32,
    estimate: impl FnMut(u32) -> Time,
) -> Option<Time> {
    let total = logged(graph, live, start, target, estimate).1[target as usize];
    (total != NONE).then_some(total)
}

/// The log, and the times of what is logged.
fn logged(
    graph: &Graph,
    live: impl Fn(u32) -> Time,
    start: u32,
    target: u32,
    mut estimate: impl FnMut(u32) -> Time,
) -> (Vec<u32>, Vec<Time>) {
    let mut log = Vec::new();
    let mut elapsed = vec![NONE; graph.n()];
    // Times of candidates. One is queued again whenever its time falls; the first to come up counts.
    let mut times = vec![NONE; graph.n()];
    let mut queue = BinaryHeap::new();
    let entry =
        |time: Time, estimate: Time, junction: u32| Reverse((time + estimate, time, junction));

    let ahead = estimate(start);
    if ahead != NONE {
        times[start as usize] = 0;
        queue.push(entry(0, ahead, start));
    }
    while let Some(Reverse((_, time, junction))) = queue.pop() {
        if elapsed[junction as usize] != NONE {
            continue;
        }
        elapsed[junction as usize] = time;
        log.push(junction);
        if junction == target {
            break;
        }
        for arc in graph.out.of(junction) {
            let live = live(arc.road);
            if live == CLOSED {
                continue;
            }
            let ahead = estimate(arc.end);
            if ahead != NONE && time + live < times[arc.end as usize] {
                times[arc.end as usize] = time + live;
                queue.push(entry(time + live, ahead, arc.end));
            }
        }
    }
    (log, elapsed)
}

/// Back from the target: into each junction, the smallest-numbered open road from an earlier logged
/// one that gives its time.
fn route(
    graph: &Graph,
    live: impl Fn(u32) -> Time,
    log: &[u32],
    elapsed: &[Time],
    target: u32,
) -> Vec<u32> {
    let mut places = vec![usize::MAX; graph.n()];
    for (place, &junction) in log.iter().enumerate() {
        places[junction as usize] = place;
    }
    let mut route = Vec::new();
    let mut junction = target;
    while junction != log[0] {
        let place = places[junction as usize];
        let time = elapsed[junction as usize];
        let leads = |road: u32, tail: u32| {
            let live = live(road);
            live != CLOSED && places[tail as usize] < place && elapsed[tail as usize] + live == time
        };
        let arc = graph.into.of(junction).iter().find(|arc| leads(arc.road, arc.end));
        let arc = arc.expect("each logged junction but the first has its time from an earlier one");
        route.push(arc.road);
        junction = arc.end;
    }
    route.reverse();
    route
}

#[cfg(test)]
mod tests {
    use super::*;
    use crate::hierarchy::Hierarchy;
    use crate::maps::{self, Map, Road, Streets};
    use crate::random::Random;
    use crate::time::UNASKED;
    use crate::{brute, card, dijkstra, traffic};

    struct Trip {
        map: Map,
        live: Vec<Time>,
        start: u32,
        target: u32,
    }

    impl Trip {
        fn random(random: &mut Random, map: Map) -> Trip {
            let live = traffic::live_times(random, &map);
            let (start, target) = (random.below(map.n()) as u32, random.below(map.n()) as u32);
            Trip { map, live, start, target }
        }

        /// The search, and the estimates that it fills as it asks for them.
        fn go(&self) -> (Search, Vec<Time>) {
            let hierarchy = Hierarchy::new(&self.map);
            let down = hierarchy.down_totals(self.target);
            let mut estimates = vec![UNASKED; self.map.n()];
            let graph = Graph::new(&self.map);
            let live = |road: u32| self.live[road as usize];
            let search = search(&graph, live, self.start, self.target, |junction| {
                hierarchy.estimate(&down, &mut estimates, junction)
            });
            (search, estimates)
        }

        /// Each junction's least base total to the target.
        fn estimates(&self) -> Vec<Time> {
            dijkstra::to(&Graph::new(&self.map), &self.map.base(), self.target)
        }

        /// The open roads, with their numbers and live times.
        fn open(&self) -> impl Iterator<Item = (u32, &Road, Time)> {
            let roads = (0..).zip(&self.map.roads).zip(&self.live);
            roads
                .map(|((number, road), &live)| (number, road, live))
                .filter(|road| road.2 != CLOSED)
        }

        /// The search as it is defined, all candidates made anew before each is logged.
        fn literal(&self) -> Search {
            let estimates = self.estimates();
            let mut log = Vec::new();
            let mut elapsed = vec![NONE; self.map.n()];
            while !log.contains(&self.target) {
                let mut candidates = Vec::new();
                if log.is_empty() {
                    candidates.push((self.start, 0));
                }
                for (_, road, live) in self.open() {
                    if log.contains(&road.tail) && !log.contains(&road.head) {
                        candidates.push((road.head, elapsed[road.tail as usize] + live));
                    }
                }
                candidates.retain(|&(junction, _)| estimates[junction as usize] != NONE);
                let key = |&(junction, time): &(u32, Time)| {
                    (time + estimates[junction as usize], time, junction)
                };
                let Some((junction, time)) = candidates.into_iter().min_by_key(key) else {
                    break;
                };
                elapsed[junction as usize] = time;
                log.push(junction);
            }
            let found = log
                .contains(&self.target)
                .then(|| (elapsed[self.target as usize], self.literal_route(&log, &elapsed)));
            Search { log, elapsed, found }
        }

        /// The route as it is defined.
        fn literal_route(&self, log: &[u32], elapsed: &[Time]) -> Vec<u32> {
            let mut route = Vec::new();
            let mut junction = self.target;
            while junction != self.start {
                let end = log.iter().position(|&logged| logged == junction).unwrap();
                let (number, road, _) = self
                    .open()
                    .find(|(_, road, live)| {
                        road.head == junction
                            && log[..end].contains(&road.tail)
                            && elapsed[road.tail as usize] + live == elapsed[junction as usize]
                    })
                    .unwrap();
                route.insert(0, number);
                junction = road.tail;
            }
            route
        }

        /// Which estimates are to be filled: the start's, those of heads of open roads from logged
        /// junctions other than the target, and those above them.
        fn filled(&self, log: &[u32]) -> Vec<bool> {
            let hierarchy = Hierarchy::new(&self.map);
            let rank = |junction: u32| hierarchy.ranks()[junction as usize] as usize;
            let mut filled = vec![false; self.map.n()];
            filled[rank(self.start)] = true;
            for (_, road, _) in self.open() {
                filled[rank(road.head)] |= road.tail != self.target && log.contains(&road.tail);
            }
            // Records ascend, so one pass follows each chain upwards.
            for (low, high, up, _) in hierarchy.records() {
                filled[high as usize] |= filled[low as usize] && up != NONE;
            }
            (0..self.map.n() as u32).map(|junction| filled[rank(junction)]).collect()
        }

        /// The open roads that give a logged junction its time all come from earlier logged ones. How
        /// many there are beyond one for each junction.
        fn choices(&self, Search { log, elapsed, .. }: &Search) -> usize {
            let place = |junction| log.iter().position(|&logged| logged == junction);
            let mut ways = vec![0; self.map.n()];
            for (_, road, live) in self.open() {
                let [tail, head] = [road.tail, road.head].map(place);
                let (Some(tail), Some(head)) = (tail, head) else { continue };
                if elapsed[road.tail as usize] + live == elapsed[road.head as usize] {
                    assert!(tail < head, "{:?}, {:?}: {road:?}", self.map, self.live);
                    ways[road.head as usize] += 1_usize;
                }
            }
            ways.into_iter().map(|ways| ways.saturating_sub(1)).sum()
        }
    }

    #[test]
    fn as_defined() {
        let mut random = Random::new(1);
        let (mut found, mut missing, mut unasked, mut choices) = (0, 0, 0, 0);
        for i in 0..10_000 {
            let map = match i % 50 {
                0 => maps::even_grid(&mut random, 8, 8),
                _ => maps::small(&mut random),
            };
            let trip = Trip::random(&mut random, map);
            let (search, estimates) = trip.go();
            assert_eq!(search, trip.literal(), "{:?}, {:?}", trip.map, trip.live);
            let filled = trip.filled(&search.log);
            for ((estimate, least), filled) in estimates.iter().zip(trip.estimates()).zip(filled) {
                assert_eq!(*estimate, if filled { least } else { UNASKED });
                unasked += !filled as usize;
            }
            *if search.found.is_some() { &mut found } else { &mut missing } += 1;
            choices += trip.choices(&search);
        }
        assert!(
            found > 6_000 && missing > 2_000 && unasked > 20_000 && choices > 1_000,
            "{found} found, {missing} not, {unasked} unasked, {choices} roads to choose from"
        );
    }

    /// The log is the junctions whose least time plus estimate is no more than the total or, where there
    /// is no chain, those that have both, by key, time and number.
    #[test]
    fn a_least_chain_and_its_effort() {
        let mut random = Random::new(2);
        let (mut found, mut missing, mut at_the_total) = (0, 0, 0);
        for _ in 0..10_000 {
            let map = maps::small(&mut random);
            let trip = Trip::random(&mut random, map);
            let times = brute::least(&trip.map, &trip.live, trip.start);
            let (search, _) = trip.go();
            let mut due: Vec<(Time, Time, u32)> = (0..)
                .zip(times.iter().zip(trip.estimates()))
                .filter(|&(_, (&time, estimate))| time != NONE && estimate != NONE)
                .map(|(at, (&time, estimate))| (time + estimate, time, at))
                .collect();
            let most = search.found.as_ref().map_or(NONE, |found| found.0);
            due.retain(|&(key, ..)| key <= most);
            due.sort();
            assert!(due.iter().map(|&(_, _, at)| at).eq(search.log.iter().copied()));
            let Some((total, route)) = search.found else {
                assert_eq!(times[trip.target as usize], NONE);
                missing += 1;
                continue;
            };
            assert_eq!(total, times[trip.target as usize]);
            let mut end = trip.start;
            for &number in &route {
                assert_eq!(trip.map.roads[number as usize].tail, end);
                end = trip.map.roads[number as usize].head;
            }
            assert_eq!(end, trip.target);
            assert_eq!(route.iter().map(|&number| trip.live[number as usize]).sum::<Time>(), total);
            found += 1;
            at_the_total += due.iter().filter(|&&(key, ..)| key == most).count() - 1;
        }
        assert!(
            found > 6_000 && missing > 2_000 && at_the_total > 5_000,
            "{found} found, {missing} not, {at_the_total} more with the total as their key"
        );
    }

    /// The cases of map P that make a trip.
    #[test]
    fn trips_of_map_p() {
        let trip = |changes: &[(usize, Time)], start, target| {
            let map = maps::map_p();
            let mut live = map.base();
            for &(road, time) in changes {
                live[road] = time;
            }
            let (search, _) = Trip { map, live, start, target }.go();
            (search.found, search.log)
        };
        assert_eq!(trip(&[], 0, 3), (Some((20, vec![0, 1])), vec![0, 1, 3]));
        assert_eq!(trip(&[(1, CLOSED)], 0, 3), (Some((25, vec![2, 3])), vec![0, 1, 2, 3]));
        assert_eq!(trip(&[(1, 15)], 0, 3), (Some((25, vec![0, 1])), vec![0, 1, 2, 3]));
        assert_eq!(trip(&[], 3, 3), (Some((0, vec![])), vec![3]));
        assert_eq!(trip(&[(1, CLOSED), (2, CLOSED)], 0, 3), (None, vec![0, 1]));
    }

    /// All keys are 3. Junction 2 has the smaller time and is logged before 1; so road 0 leads into 1.
    #[test]
    fn equal_keys_by_time() {
        let road = |(tail, head, base)| Road::new(tail, head, base);
        let roads = [(2, 1, 1), (0, 1, 2), (0, 2, 1), (1, 3, 1)].map(road).to_vec();
        let map = Map { roads, order: vec![0, 1, 2, 3] };
        let (search, _) = Trip { live: map.base(), map, start: 0, target: 3 }.go();
        assert_eq!(search.log, [0, 2, 1, 3]);
        assert_eq!(search.found, Some((3, vec![2, 0, 3])));
    }

    #[test]
    fn keys_past_32_bits() {
        let n = card::MOST_JUNCTIONS as u32;
        let map = maps::wide_keys(n as usize);
        let mut live = map.base();
        live[n as usize - 3] = CLOSED;
        let (search, _) = Trip { map, live, start: 1, target: n - 2 }.go();
        assert_eq!(search.elapsed[0], NONE, "the junction with the larger key is not logged");
        assert_eq!(search.log.len() as u32, n - 1);
        assert_eq!(search.found.unwrap().0, Time::from(n - 2) * card::LONGEST);
    }

    #[test]
    fn trips_through_towns() {
        let mut random = Random::new(3);
        let mut found = 0;
        for _ in 0..50 {
            let map = maps::town(&mut random, 32, 32, Streets::USUAL);
            let trip = Trip::random(&mut random, map);
            let total = trip.go().0.found.map_or(NONE, |(total, _)| total);
            let graph = Graph::new(&trip.map);
            assert_eq!(total, dijkstra::between(&graph, &trip.live, trip.start, trip.target).0);
            found += (total != NONE) as usize;
        }
        assert!(found > 40, "{found} found");
    }
}

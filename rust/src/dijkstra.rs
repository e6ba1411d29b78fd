//! Least totals by Dijkstra's algorithm with a binary heap.

use crate::graph::{Adjacency, Graph};
use crate::time::{Time, CLOSED, NONE};
use std::cmp::Reverse;
use std::collections::BinaryHeap;

/// The least totals over open roads from a start to each junction. With base times in place of
/// live ones, the least base totals; likewise below.
pub fn from(graph: &Graph, live: &[Time], start: u32) -> Vec<Time> {
    all(&graph.out, live, start)
}

/// The least totals over open roads from each junction to a target.
pub fn to(graph: &Graph, live: &[Time], target: u32) -> Vec<Time> {
    all(&graph.into, live, target)
}

/// The least total over open roads from a start to a target, and the number of junctions that were
/// settled for it.
pub fn between(graph: &Graph, live: &[Time], start: u32, target: u32) -> (Time, usize) {
    let mut queue = Queue::new(&graph.out, live);
    queue.offer(start, 0);
    let mut settled = 0;
    while let Some((junction, total)) = queue.settle() {
        settled += 1;
        if junction == target {
            break;
        }
        queue.relax(junction, total);
    }
    (queue.totals[target as usize], settled)
}

/// The least totals from a start to each junction of chains of at least one open road whose inner
/// junctions are all `inner`.
pub fn from_within(
    graph: &Graph,
    live: &[Time],
    start: u32,
    inner: impl Fn(u32) -> bool,
) -> Vec<Time> {
    within(&graph.out, live, start, inner)
}

/// The least totals from each junction to a target, likewise.
pub fn to_within(
    graph: &Graph,
    live: &[Time],
    target: u32,
    inner: impl Fn(u32) -> bool,
) -> Vec<Time> {
    within(&graph.into, live, target, inner)
}

fn all(arcs: &Adjacency, live: &[Time], start: u32) -> Vec<Time> {
    let mut queue = Queue::new(arcs, live);
    queue.offer(start, 0);
    while let Some((junction, total)) = queue.settle() {
        queue.relax(junction, total);
    }
    queue.totals
}

fn within(arcs: &Adjacency, live: &[Time], start: u32, inner: impl Fn(u32) -> bool) -> Vec<Time> {
    let mut queue = Queue::new(arcs, live);
    queue.relax(start, 0);
    while let Some((junction, total)) = queue.settle() {
        if inner(junction) {
            queue.relax(junction, total);
        }
    }
    queue.totals
}

/// The least totals found so far, and the junctions to settle. One is queued again whenever its total
/// falls.
struct Queue<'a> {
    arcs: &'a Adjacency,
    live: &'a [Time],
    totals: Vec<Time>,
    heap: BinaryHeap<Reverse<(Time, u32)>>,
}

impl Queue<'_> {
    fn new<'a>(arcs: &'a Adjacency, live: &'a [Time]) -> Queue<'a> {
        Queue { arcs, live, totals: vec![NONE; arcs.n()], heap: BinaryHeap::new() }
    }

    fn offer(&mut self, junction: u32, total: Time) {
        if total < self.totals[junction as usize] {
            self.totals[junction as usize] = total;
            self.heap.push(Reverse((total, junction)));
        }
    }

    /// The junction with the least total that is not settled yet.
    fn settle(&mut self) -> Option<(u32, Time)> {
        while let Some(Reverse((total, junction))) = self.heap.pop() {
            if total == self.totals[junction as usize] {
                return Some((junction, total));
            }
        }
        None
    }

    /// Offers totals along the open roads of a junction.
    fn relax(&mut self, junction: u32, total: Time) {
        let arcs = self.arcs;
        for arc in arcs.of(junction) {
            let time = self.live[arc.road as usize];
            // No sum passes 40,960,000,000: `total` is that of a chain that meets no junction twice.
            if time != CLOSED {
                self.offer(arc.end, total + time);
            }
        }
    }
}

#[cfg(test)]
mod tests {
    use super::*;
    use crate::maps::{self, Streets};
    use crate::random::Random;
    use crate::{brute, card, traffic};

    #[test]
    fn as_by_rounds_over_all_roads() {
        let mut random = Random::new(1);
        let (mut found, mut missing) = (0, 0);
        for _ in 0..2_000 {
            let map = maps::small(&mut random);
            let live = traffic::live_times(&mut random, &map);
            let graph = Graph::new(&map);
            let want: Vec<_> = (0..map.n() as u32).map(|s| brute::least(&map, &live, s)).collect();
            for (a, want) in want.iter().enumerate() {
                assert_eq!(from(&graph, &live, a as u32), *want);
                for (b, &want) in want.iter().enumerate() {
                    assert_eq!(to(&graph, &live, b as u32)[a], want);
                    assert_eq!(between(&graph, &live, a as u32, b as u32).0, want);
                    *if want == NONE { &mut missing } else { &mut found } += 1;
                }
            }
        }
        assert!(found > 30_000 && missing > 20_000, "{found} chains, {missing} missing");
    }

    #[test]
    fn within_as_by_rounds() {
        let mut random = Random::new(2);
        let (mut found, mut missing) = (0, 0);
        for _ in 0..2_000 {
            let map = maps::small(&mut random);
            let live = traffic::live_times(&mut random, &map);
            let graph = Graph::new(&map);
            let allowed: Vec<_> = (0..map.n()).map(|_| random.chance(50)).collect();
            let inner = |junction: u32| allowed[junction as usize];
            for start in 0..map.n() as u32 {
                let want = brute::least_within(&map, &live, start, inner);
                assert_eq!(from_within(&graph, &live, start, inner), want);
                for (end, &want) in (0..).zip(&want) {
                    assert_eq!(to_within(&graph, &live, end, inner)[start as usize], want);
                    *if want == NONE { &mut missing } else { &mut found } += 1;
                }
            }
        }
        assert!(found > 20_000 && missing > 20_000, "{found} chains, {missing} missing");
    }

    #[test]
    fn the_largest_least_total() {
        let n = card::MOST_JUNCTIONS;
        let (line, ring) = (maps::line(n), maps::ring(n));
        let largest = (40_950_000_000, n);
        assert_eq!(between(&Graph::new(&line), &line.base(), 0, n as u32 - 1), largest);
        assert_eq!(between(&Graph::new(&ring), &ring.base(), 1, 0), largest);
    }

    #[test]
    fn most_of_a_town_can_be_reached() {
        for seed in 0..4 {
            let map = maps::town(&mut Random::new(seed), 64, 64, Streets::USUAL);
            let graph = Graph::new(&map);
            for totals in [from(&graph, &map.base(), 2_080), to(&graph, &map.base(), 2_080)] {
                let reached = totals.iter().filter(|&&total| total != NONE).count();
                assert!(reached > 3_800, "{reached}");
            }
        }
    }
}

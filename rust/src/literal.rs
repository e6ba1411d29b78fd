//! Aim and go as document 01's sentences have them, with document 02's A5 for equal keys and A6 for classes: a search's
//! log by making its candidates anew before each choice, the route back from it by trying every road. Which estimates lie
//! above a junction and the down totals come from the chains that define a pair, found by Dijkstra's searches over
//! lower ranks; estimates by Dijkstra's too. The least total of a go by rounds over all roads, from 300 junctions on by Dijkstra's.

use crate::brute;
use crate::dijkstra;
use crate::graph::Graph;
use crate::maps::{Map, Road};
use crate::time::{Time, CLOSED, NONE};

pub struct Literal {
    pub map: Map,
    graph: Graph,
    /// Of each junction those that up times lead to, one after the other, itself among them.
    above: Vec<Vec<u32>>,
    /// Of each junction the lower ones that it has down times to, and these.
    down: Vec<Vec<(u32, Time)>>,
}

/// What a search finds, logs and fills.
#[derive(Clone, Debug, PartialEq, Eq)]
pub struct Searched {
    /// The least total, if there is a chain.
    pub total: Option<Time>,
    /// The route's roads, if there is one.
    pub route: Vec<u32>,
    pub log: Vec<u32>,
    /// By junction: the time of a logged one, else none.
    pub elapsed: Vec<Time>,
    /// By junction: the start, the heads of open roads from logged junctions but the target, and all above.
    pub fills: Vec<bool>,
}

impl Literal {
    /// A chain whose inner junctions all rank below both ends gives a pair its times.
    pub fn new(map: Map) -> Literal {
        let graph = Graph::new(&map);
        let mut rank = vec![0; map.n()];
        for (place, &junction) in map.order.iter().enumerate() {
            rank[junction as usize] = place;
        }
        let mut above: Vec<Vec<u32>> = vec![Vec::new(); map.n()];
        let mut down = vec![Vec::new(); map.n()];
        for &low in map.order.iter().rev() {
            let below = |junction: u32| rank[junction as usize] < rank[low as usize];
            let up_times = dijkstra::from_within(&graph, &map.base(), low, below);
            let down_times = dijkstra::to_within(&graph, &map.base(), low, below);
            let mut reached = vec![low];
            for high in map.order[rank[low as usize] + 1..].iter().map(|&high| high as usize) {
                if up_times[high] != NONE {
                    reached.extend(&above[high]);
                }
                if down_times[high] != NONE {
                    down[high].push((low, down_times[high]));
                }
            }
            reached.sort();
            reached.dedup();
            above[low as usize] = reached;
        }
        Literal { map, graph, above, down }
    }

    /// Each junction's least base total to a target.
    pub fn estimates(&self, target: u32) -> Vec<Time> {
        dijkstra::to(&self.graph, &self.map.base(), target)
    }

    /// A junction and all above it.
    pub fn above(&self, junction: u32) -> &[u32] {
        &self.above[junction as usize]
    }

    /// Each junction's least total over chains of down times, descending in rank to the target.
    pub fn down_totals(&self, target: u32) -> Vec<Time> {
        let mut totals: Vec<Option<Time>> = vec![None; self.map.n()];
        totals[target as usize] = Some(0);
        // Ascending, so that each junction comes after those that it descends to.
        for &junction in &self.map.order {
            for &(low, time) in &self.down[junction as usize] {
                let Some(below) = totals[low as usize] else { continue };
                let total = time + below;
                let old = &mut totals[junction as usize];
                *old = Some(old.map_or(total, |old| old.min(total)));
            }
        }
        totals.into_iter().map(|total| total.unwrap_or(NONE)).collect()
    }

    /// The roads, with their numbers and live times, that are open.
    fn open<'a>(&'a self, live: &'a [Time]) -> impl Iterator<Item = (u32, &'a Road, Time)> {
        let roads = (0..).zip(&self.map.roads).zip(live);
        roads
            .filter(|(_, &live)| live != CLOSED)
            .map(|((number, road), &live)| (number, road, live))
    }

    /// "A road barred to it counts as closed for that call": bit c is what is left of the byte without the c lowest.
    fn for_that_call(&self, class: u32, live: &[Time]) -> Vec<Time> {
        let roads = self.map.roads.iter().zip(live);
        let lets_in = |byte: u8| u32::from(byte) / 2_u32.pow(class) % 2 == 1;
        roads.map(|(road, &live)| if lets_in(road.access) { live } else { CLOSED }).collect()
    }

    /// The search of a go with a class.
    pub fn search(&self, class: u32, live: &[Time], start: u32, target: u32) -> Searched {
        let live = &self.for_that_call(class, live)[..];
        let n = self.map.n();
        let estimates = self.estimates(target);
        let mut times: Vec<Option<Time>> = vec![None; n];
        let mut log = Vec::new();
        while times[target as usize].is_none() {
            let first = log.is_empty().then_some((start, 0));
            let others = self.open(live).filter_map(|(_, road, live)| {
                let from = times[road.tail as usize]?;
                let waits = times[road.head as usize].is_none();
                waits.then_some((road.head, from + live))
            });
            let candidates = first.into_iter().chain(others);
            let has_estimate = |&(junction, _): &(u32, Time)| estimates[junction as usize] != NONE;
            let key = |&(junction, time): &(u32, Time)| {
                (time + estimates[junction as usize], time, junction)
            };
            let Some((junction, time)) = candidates.filter(has_estimate).min_by_key(key) else {
                break;
            };
            times[junction as usize] = Some(time);
            log.push(junction);
        }

        let mut fills = vec![false; n];
        let from = |road: &Road| road.tail != target && times[road.tail as usize].is_some();
        let heads = self.open(live).filter(|(_, road, _)| from(road)).map(|(_, road, _)| road.head);
        for junction in heads.chain([start]) {
            for &above in self.above(junction) {
                fills[above as usize] = true;
            }
        }
        let least = match n {
            ..300 => brute::least(&self.map, live, start)[target as usize],
            _ => dijkstra::from(&self.graph, live, start)[target as usize],
        };
        let total = (least != NONE).then_some(least);
        assert_eq!(times[target as usize], total, "the log's total (left), the least (right)");
        let route = total.map_or(Vec::new(), |_| self.route(live, &log, &times));
        let elapsed = times.into_iter().map(|total| total.unwrap_or(NONE)).collect();
        Searched { total, route, log, elapsed, fills }
    }

    /// Back from the log's end: into each junction, the smallest-numbered open road from an earlier logged one
    /// that gives its time.
    fn route(&self, live: &[Time], log: &[u32], times: &[Option<Time>]) -> Vec<u32> {
        let mut route = Vec::new();
        let mut place = log.len() - 1;
        while place > 0 {
            let (earlier, junction) = (&log[..place], log[place]);
            let leads = |&(_, road, live): &(u32, &Road, Time)| {
                road.head == junction
                    && earlier.contains(&road.tail)
                    && times[road.tail as usize].map(|time| time + live) == times[junction as usize]
            };
            let (number, road, _) =
                self.open(live).find(leads).expect("a road that gives the time");
            route.insert(0, number);
            place = log.iter().position(|&logged| logged == road.tail).expect("a logged one");
        }
        route
    }
}

//! Contraction in the map's order with no witness test, and least base totals from it.
//!
//! Ranks stay inside: what goes in and comes out is by junction, but for the records.

use crate::maps::{Map, Road};
use crate::time::{add, Time, NONE, UNASKED};

/// A kept pair: rank of low, rank of high, up time, down time.
pub type Record = (u32, u32, Time, Time);

/// A junction of higher rank, with the least base totals from the low one to it and back over
/// junctions that rank below both.
#[derive(Clone, Copy, Debug)]
struct Pair {
    high: u32,
    up: Time,
    down: Time,
}

#[derive(Clone, Debug)]
pub struct Hierarchy {
    ranks: Vec<u32>,
    order: Vec<u32>,
    rows: Rows,
}

impl Hierarchy {
    pub fn new(map: &Map) -> Hierarchy {
        Hierarchy::within(map, usize::MAX).expect("room for any number of pairs")
    }

    /// The hierarchy, if it has no more than `room` pairs.
    pub fn within(map: &Map, room: usize) -> Option<Hierarchy> {
        let mut ranks = vec![0; map.n()];
        for (rank, &junction) in (0..).zip(&map.order) {
            ranks[junction as usize] = rank;
        }
        let rows = contract(map, &ranks, room)?;
        Some(Hierarchy { ranks, order: map.order.clone(), rows })
    }

    /// Each junction's rank.
    pub fn ranks(&self) -> &[u32] {
        &self.ranks
    }

    /// The number of kept pairs.
    pub fn pairs(&self) -> usize {
        self.rows.pairs.len()
    }

    /// The kept pairs, ascending.
    pub fn records(&self) -> Vec<Record> {
        let records = |low: usize| {
            self.rows.of(low).iter().map(move |pair| (low as u32, pair.high, pair.up, pair.down))
        };
        (0..self.order.len()).flat_map(records).collect()
    }

    /// Each junction's least total over chains of down times, descending in rank to the target.
    pub fn down_totals(&self, target: u32) -> Vec<Time> {
        let mut totals = vec![NONE; self.ranks.len()];
        totals[target as usize] = 0;
        let lowest = self.ranks[target as usize] as usize;
        for rank in lowest..self.order.len() {
            let below = totals[self.order[rank] as usize];
            for pair in self.rows.of(rank) {
                let total = &mut totals[self.order[pair.high as usize] as usize];
                *total = add(pair.down, below).min(*total);
            }
        }
        totals
    }

    /// Each junction's least base total to the target of the down totals, from the highest rank
    /// downwards.
    pub fn estimates(&self, down: &[Time]) -> Vec<Time> {
        let mut estimates = vec![UNASKED; self.ranks.len()];
        for &junction in self.order.iter().rev() {
            self.estimate(down, &mut estimates, junction);
        }
        estimates
    }

    /// A junction's estimate, asked of those above it in turn. Fills those that were unasked.
    pub fn estimate(&self, down: &[Time], estimates: &mut [Time], junction: u32) -> Time {
        let known = estimates[junction as usize];
        if known != UNASKED {
            return known;
        }
        let mut least = down[junction as usize];
        for pair in self.rows.of(self.ranks[junction as usize] as usize) {
            if pair.up != NONE {
                let above = self.estimate(down, estimates, self.order[pair.high as usize]);
                least = add(pair.up, above).min(least);
            }
        }
        estimates[junction as usize] = least;
        least
    }
}

/// The pairs by low rank, then high.
#[derive(Clone, Debug)]
struct Rows {
    /// Where the pairs of each rank begin, and where the last ones end.
    starts: Vec<usize>,
    pairs: Vec<Pair>,
}

impl Rows {
    fn of(&self, low: usize) -> &[Pair] {
        &self.pairs[self.starts[low]..self.starts[low + 1]]
    }
}

/// The pairs row by row, if there are no more than `room`: the times of a row come from its roads and,
/// by way of each lower rank that has a pair with it, from that rank's pairs with higher ones.
fn contract(map: &Map, ranks: &[u32], room: usize) -> Option<Rows> {
    let n = map.n();
    let roads = road_pairs(map, ranks);
    let mut rows = Rows { starts: vec![0], pairs: Vec::new() };
    let mut row = Row::new(n);
    let mut fronts = Fronts::new(n);
    for rank in 0..n {
        for pair in roads.of(rank) {
            row.relax(pair.high, pair.up, pair.down);
        }
        let mut below = fronts.first[rank];
        while below != NOBODY {
            let (low, place) = (below as usize, fronts.place[below as usize]);
            below = fronts.after[low];
            let via = rows.pairs[place];
            let rest = &rows.pairs[place + 1..rows.starts[low + 1]];
            for pair in rest {
                row.relax(pair.high, add(via.down, pair.up), add(pair.down, via.up));
            }
            fronts.wait(low, place + 1, rest.first());
        }
        let start = rows.pairs.len();
        row.empty_into(&mut rows.pairs);
        if rows.pairs.len() > room {
            return None;
        }
        rows.starts.push(rows.pairs.len());
        fronts.wait(rank, start, rows.pairs.get(start));
    }
    Some(rows)
}

/// The roads as pairs of their ends, by low rank.
fn road_pairs(map: &Map, ranks: &[u32]) -> Rows {
    let pair = |road: &Road| {
        let (tail, head) = (ranks[road.tail as usize], ranks[road.head as usize]);
        if tail < head {
            (tail as usize, Pair { high: head, up: road.base, down: NONE })
        } else {
            (head as usize, Pair { high: tail, up: NONE, down: road.base })
        }
    };
    let mut starts = vec![0; map.n() + 1];
    for road in &map.roads {
        starts[pair(road).0 + 1] += 1;
    }
    for rank in 0..map.n() {
        starts[rank + 1] += starts[rank];
    }
    let mut places = starts.clone();
    let mut pairs = vec![Pair { high: 0, up: NONE, down: NONE }; map.m()];
    for road in &map.roads {
        let (low, pair) = pair(road);
        pairs[places[low]] = pair;
        places[low] += 1;
    }
    Rows { starts, pairs }
}

/// No rank, at the end of a list of ranks.
const NOBODY: u32 = u32::MAX;

/// Of each rank, the place of its first pair with a rank that is not contracted yet. Ranks whose pairs
/// there are with the same one are listed.
struct Fronts {
    place: Vec<usize>,
    /// By high rank, the first of the list.
    first: Vec<u32>,
    /// By low rank, the next one of the list.
    after: Vec<u32>,
}

impl Fronts {
    fn new(n: usize) -> Fronts {
        Fronts { place: vec![0; n], first: vec![NOBODY; n], after: vec![NOBODY; n] }
    }

    /// Has a rank wait at its pair in a place, if there is one.
    fn wait(&mut self, low: usize, place: usize, pair: Option<&Pair>) {
        if let Some(pair) = pair {
            self.place[low] = place;
            self.after[low] = std::mem::replace(&mut self.first[pair.high as usize], low as u32);
        }
    }
}

/// The times between one rank and each above it.
struct Row {
    /// Up and down times by high rank.
    times: Vec<[Time; 2]>,
    /// Which of them are kept: a bit for each high rank.
    kept: Vec<u64>,
}

impl Row {
    fn new(n: usize) -> Row {
        Row { times: vec![[NONE; 2]; n], kept: vec![0; n.div_ceil(64)] }
    }

    fn relax(&mut self, high: u32, up: Time, down: Time) {
        let high = high as usize;
        let times = &mut self.times[high];
        *times = [up.min(times[0]), down.min(times[1])];
        self.kept[high / 64] |= u64::from(up != NONE || down != NONE) << (high % 64);
    }

    /// Appends the kept pairs, ascending, and is empty then.
    fn empty_into(&mut self, pairs: &mut Vec<Pair>) {
        for (i, word) in self.kept.iter_mut().enumerate() {
            while *word != 0 {
                let high = 64 * i + word.trailing_zeros() as usize;
                let [up, down] = std::mem::replace(&mut self.times[high], [NONE; 2]);
                pairs.push(Pair { high: high as u32, up, down });
                *word &= *word - 1;
            }
        }
    }
}

#[cfg(test)]
mod tests {
    use super::*;
    use crate::graph::Graph;
    use crate::maps::{self, Streets};
    use crate::random::Random;
    use crate::{brute, card, dijkstra, order};

    /// The pairs by their definition.
    fn pairs(map: &Map) -> Vec<Record> {
        let ranks = Hierarchy::new(map).ranks;
        let base = map.base();
        let mut records = Vec::new();
        for low in 0..map.n() {
            let below = |junction: u32| ranks[junction as usize] < low as u32;
            let least = |junction| brute::least_within(map, &base, junction, below);
            let ups = least(map.order[low]);
            for high in low + 1..map.n() {
                let up = ups[map.order[high] as usize];
                let down = least(map.order[high])[map.order[low] as usize];
                if up != NONE || down != NONE {
                    records.push((low as u32, high as u32, up, down));
                }
            }
        }
        records
    }

    #[test]
    fn pairs_are_as_defined() {
        let mut random = Random::new(1);
        let mut kept = 0;
        for _ in 0..2_000 {
            let map = maps::small(&mut random);
            let records = Hierarchy::new(&map).records();
            assert_eq!(records, pairs(&map), "{map:?}");
            assert_eq!(records.len(), order::pairs(&map));
            kept += records.len();
        }
        assert!(kept > 10_000, "{kept} pairs");
    }

    /// A down total is also the least base total of chains whose other junctions rank below the first.
    #[test]
    fn down_totals_are_as_defined() {
        let mut random = Random::new(2);
        let (mut found, mut missing) = (0, 0);
        for _ in 0..2_000 {
            let map = maps::small(&mut random);
            let hierarchy = Hierarchy::new(&map);
            let rank = |junction: u32| hierarchy.ranks[junction as usize];
            for target in 0..map.n() as u32 {
                let totals = hierarchy.down_totals(target);
                for junction in 0..map.n() as u32 {
                    let below = |other| rank(other) < rank(junction);
                    let want = match junction {
                        _ if junction == target => 0,
                        _ if !below(target) => NONE,
                        _ => {
                            brute::least_within(&map, &map.base(), junction, below)[target as usize]
                        }
                    };
                    assert_eq!(totals[junction as usize], want, "{map:?}, {target}, {junction}");
                    *if want == NONE { &mut missing } else { &mut found } += 1;
                }
            }
        }
        assert!(found > 10_000 && missing > 10_000, "{found} totals, {missing} missing");
    }

    #[test]
    fn estimates_are_least_base_totals() {
        let mut random = Random::new(3);
        let (mut found, mut missing) = (0, 0);
        for _ in 0..2_000 {
            let map = maps::small(&mut random);
            let (graph, hierarchy) = (Graph::new(&map), Hierarchy::new(&map));
            for target in 0..map.n() as u32 {
                let down = hierarchy.down_totals(target);
                let want = dijkstra::to(&graph, &map.base(), target);
                assert_eq!(hierarchy.estimates(&down), want, "{map:?}, {target}");
                missing += want.iter().filter(|&&total| total == NONE).count();
                found += want.iter().filter(|&&total| total != NONE).count();
            }
        }
        assert!(found > 30_000 && missing > 10_000, "{found} estimates, {missing} missing");
    }

    #[test]
    fn an_estimate_fills_what_up_times_reach() {
        let mut random = Random::new(4);
        let (mut filled, mut unasked) = (0, 0);
        for _ in 0..2_000 {
            let map = maps::small(&mut random);
            let hierarchy = Hierarchy::new(&map);
            let down = hierarchy.down_totals(random.below(map.n()) as u32);
            let all = hierarchy.estimates(&down);
            let mut estimates = vec![UNASKED; map.n()];
            let mut reached = vec![false; map.n()];
            for _ in 0..2 {
                let junction = random.below(map.n()) as u32;
                let answer = hierarchy.estimate(&down, &mut estimates, junction);
                assert_eq!(answer, all[junction as usize]);
                reached[hierarchy.ranks[junction as usize] as usize] = true;
            }
            // Records ascend, so one pass follows each chain upwards.
            for (low, high, up, _) in hierarchy.records() {
                reached[high as usize] |= reached[low as usize] && up != NONE;
            }
            for (&rank, (&estimate, &all)) in hierarchy.ranks.iter().zip(estimates.iter().zip(&all))
            {
                let reached = reached[rank as usize];
                assert_eq!(estimate, if reached { all } else { UNASKED });
                *if reached { &mut filled } else { &mut unasked } += 1;
            }
        }
        assert!(filled > 4_000 && unasked > 2_000, "{filled} filled, {unasked} unasked");
    }

    #[test]
    fn map_p() {
        let hierarchy = Hierarchy::new(&maps::map_p());
        let records = [
            (0, 2, NONE, 10),
            (0, 3, 10, NONE),
            (1, 2, NONE, 15),
            (1, 3, 10, NONE),
            (2, 3, 20, 20),
        ];
        assert_eq!(hierarchy.records(), records);
        assert_eq!(hierarchy.estimates(&hierarchy.down_totals(3)), [20, 10, 10, 0]);
        assert_eq!(hierarchy.estimates(&hierarchy.down_totals(1))[3], 30);
    }

    #[test]
    fn large_maps() {
        let n = card::MOST_JUNCTIONS;
        let mut random = Random::new(5);
        let mut maps = vec![
            maps::line(n),
            maps::star(n),
            maps::ring(n),
            maps::wide_keys(n),
            maps::town(&mut random, 64, 64, Streets::USUAL),
            maps::largest_town(&mut random),
        ];
        maps.extend(maps::wide_sums(n));
        for map in maps {
            let (graph, hierarchy) = (Graph::new(&map), Hierarchy::new(&map));
            assert_eq!(hierarchy.records().len(), order::pairs(&map));
            for target in [0, 1, n as u32 / 2, n as u32 - 2, n as u32 - 1] {
                let down = hierarchy.down_totals(target);
                let want = dijkstra::to(&graph, &map.base(), target);
                assert_eq!(hierarchy.estimates(&down), want);
                // From the lowest rank, one within the other.
                let mut estimates = vec![UNASKED; n];
                let lowest = map.order[0];
                let answer = hierarchy.estimate(&down, &mut estimates, lowest);
                assert_eq!(answer, want[lowest as usize]);
            }
        }
    }
}

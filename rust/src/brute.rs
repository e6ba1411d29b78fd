//! Least totals straight from their definition.

use crate::maps::Map;
use crate::time::{Time, CLOSED, NONE};

/// The least totals from `start` of chains of open roads, the empty one among them.
pub fn least(map: &Map, live: &[Time], start: u32) -> Vec<Time> {
    let mut totals = least_within(map, live, start, |_| true);
    totals[start as usize] = 0;
    totals
}

/// The least totals from `start` of chains of at least one open road whose inner junctions are all
/// `inner`: those of one road, then n - 1 times those of up to one road more.
pub fn least_within(
    map: &Map,
    live: &[Time],
    start: u32,
    inner: impl Fn(u32) -> bool,
) -> Vec<Time> {
    let open = || map.roads.iter().zip(live).filter(|(_, &live)| live != CLOSED);
    let mut totals = vec![NONE; map.n()];
    for (road, &live) in open().filter(|(road, _)| road.tail == start) {
        let total = &mut totals[road.head as usize];
        *total = live.min(*total);
    }
    for _ in 1..map.n() {
        for (road, &live) in open().filter(|(road, _)| inner(road.tail)) {
            // From where no chain leads, none leads on.
            let longer = totals[road.tail as usize].saturating_add(live);
            let total = &mut totals[road.head as usize];
            *total = longer.min(*total);
        }
    }
    totals
}

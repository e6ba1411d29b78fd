//! Live times of roads: delays and closures.

use crate::card::LONGEST;
use crate::maps::Map;
use crate::random::Random;
use crate::time::{Time, CLOSED};

/// Live times for a map: in some all base times, else of each road its base time, one a little
/// longer, or closed.
pub fn live_times(random: &mut Random, map: &Map) -> Vec<Time> {
    if random.chance(30) {
        return map.base();
    }
    let live = |base| match random.below(6) {
        0 => CLOSED,
        1 => LONGEST.min(base + random.within(1..=4)),
        _ => base,
    };
    map.base().into_iter().map(live).collect()
}

/// Changes to so many percent of the roads, no road twice: half of them closed, half delayed to two to
/// ten times their base time.
pub fn changes(random: &mut Random, map: &Map, percent: usize) -> Vec<(u32, Time)> {
    let mut roads: Vec<u32> = (0..map.m() as u32).collect();
    random.shuffle(&mut roads);
    roads.truncate(map.m() * percent / 100);
    let change = |road: u32| {
        let delayed = map.roads[road as usize].base.saturating_mul(random.within(2..=10));
        (road, if random.chance(50) { CLOSED } else { LONGEST.min(delayed) })
    };
    roads.into_iter().map(change).collect()
}

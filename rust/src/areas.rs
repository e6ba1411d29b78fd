//! Aim, estimate, set, preview and stops in plain Rust over the unit's areas, and nothing else: records of two
//! ranks in one slice and two times in another, with no place for where each rank's begin. Each is a function with
//! the arguments, the answer and the questions of its export: a header by value that is handed back, and ten slices,
//! of a preview its work area too, of a list of stops route, log and stops. Each finds the card's bodies by its table.
#![allow(improper_ctypes_definitions, clippy::too_many_arguments)]

use crate::calls::{Previewed, Refusal, Stopped, CLASSES, FEWEST_STOPS, MOST_STOPS};
use crate::card::{table_len, LONGEST, MOST_JUNCTIONS, MOST_ROADS};
use crate::order::MOST_PAIRS;
use crate::time::{add, Time, CLOSED, NONE, UNASKED};
use crate::unit::{Header, Returned, ReturnedStops, Unit, RECORD};
use std::cmp::{Ordering, Reverse};
use std::collections::BinaryHeap;

/// Lends a unit's areas to a function.
macro_rules! lend {
    ($function:ident($unit:ident, $live:expr, $down:expr, $estimates:expr, $($last:ident),+)) => {{
        let returned = $function(
            $unit.header, &$unit.card, &$unit.ranks, &$unit.pairs, &$unit.times, $live, $down, $estimates,
            &$unit.elapsed, &$unit.leaving, &$unit.groups, $($last),+
        );
        $unit.hand_back(returned)
    }};
}

pub fn aim(unit: &mut Unit, target: u32) -> Result<(), Refusal> {
    lend!(aim_on(unit, &unit.live, &mut unit.down, &mut unit.estimates, target))?.done()
}

pub fn estimate(unit: &mut Unit, junction: u32) -> Result<Time, Refusal> {
    lend!(estimate_on(unit, &unit.live, &unit.down, &mut unit.estimates, junction))?.estimate()
}

pub fn set(unit: &mut Unit, road: u32, time: Time) -> Result<(), Refusal> {
    lend!(set_on(unit, &mut unit.live, &unit.down, &unit.estimates, road, time))?.done()
}

pub fn preview(
    unit: &mut Unit,
    class: u32,
    road: u32,
    time: Time,
    start: u32,
    work: &mut [Time],
) -> Result<Previewed, Refusal> {
    let (live, down) = (&unit.live, &unit.down);
    lend!(preview_on(unit, live, down, &mut unit.estimates, work, class, road, time, start))?
        .previewed()
}

pub fn stops(
    unit: &mut Unit,
    class: u32,
    stops: &[u32],
    route: &mut [u32],
    log: &mut [u32],
) -> Result<Stopped, Refusal> {
    let returned = stops_on(
        unit.header,
        &unit.card,
        &unit.ranks,
        &unit.pairs,
        &unit.times,
        &unit.live,
        &mut unit.down,
        &mut unit.estimates,
        &mut unit.elapsed,
        &unit.leaving,
        &unit.groups,
        route,
        log,
        class,
        stops,
    );
    unit.header = returned.header;
    returned.stopped()
}

/// The header as the unit hands it back: any `aimed` but 0 is 1, and the target is 0 where there is none.
fn handed(header: Header) -> Header {
    let aimed = header.aimed != 0;
    Header { aimed: aimed.into(), target: if aimed { header.target } else { 0 }, ..header }
}

fn answer(header: Header, question: u32) -> Returned {
    Returned { header: handed(header), question, ..Returned::default() }
}

/// What the card's table names.
#[derive(Clone, Copy)]
struct Bodies<'a> {
    /// Tail, head and base time of each.
    roads: &'a [[[u8; 4]; 3]],
    /// The junctions from lowest rank to highest.
    order: &'a [[u8; 4]],
    /// A byte for each road; none if every class passes.
    access: &'a [u8],
}

impl Bodies<'_> {
    /// Those of n junctions and m roads, if the table names such inside the card.
    fn of(card: &[u8], n: usize, m: usize) -> Option<Bodies<'_>> {
        let words: &[[u8; 4]] = card.as_chunks().0;
        let sections = words.first().map_or(0, |&word| u32::from_le_bytes(word)) as usize;
        // Nothing where there is no such entry; none where what it names lies past the card's end.
        let body = |i: usize| {
            let Some(entry) = card.get(table_len(i)..table_len(i + 1)).filter(|_| i < sections)
            else {
                return Some(&card[..0]);
            };
            let words: &[[u8; 4]] = entry.as_chunks().0;
            let [start, len] = [words[1], words[2]].map(|word| u32::from_le_bytes(word) as usize);
            card.get(start..start + len)
        };
        let (roads, order, access) = (body(0)?, body(1)?, body(2)?);
        let third = sections <= 2 || card.len() >= table_len(3) && access.len() == m;
        let fits = roads.len() == 12 * m && order.len() == 4 * n && third;
        let (roads, _): (&[[u8; 4]], _) = roads.as_chunks();
        fits.then_some(Bodies { roads: roads.as_chunks().0, order: order.as_chunks().0, access })
    }
}

/// Question 9, and the bodies: the lengths of the pairs' two areas, of those with a word for each junction and for each
/// road, and of the groups.
fn fits(
    header: Header,
    card: &[u8],
    pairs: [usize; 2],
    of_n: [usize; 4],
    of_m: [usize; 2],
    groups: usize,
) -> Option<Bodies<'_>> {
    let (n, m) = (header.n as usize, header.m as usize);
    let fits = n <= MOST_JUNCTIONS
        && m <= MOST_ROADS
        && card.len() == header.card as usize
        && of_n == [n; 4]
        && of_m == [m; 2]
        && groups == n + 1
        && pairs[0] == pairs[1]
        && pairs[0].is_multiple_of(RECORD)
        && (RECORD * header.pairs as usize..=RECORD * MOST_PAIRS).contains(&pairs[0]);
    fits.then(|| Bodies::of(card, n, m)).flatten()
}

/// The kept pairs: low and high rank of each, and its up and down time.
#[derive(Clone, Copy)]
struct Records<'a> {
    ranks: &'a [[u32; RECORD]],
    times: &'a [[Time; RECORD]],
}

impl<'a> Records<'a> {
    fn of(pairs: &'a [u32], times: &'a [Time], header: Header) -> Records<'a> {
        let count = header.pairs as usize;
        Records { ranks: &pairs.as_chunks().0[..count], times: &times.as_chunks().0[..count] }
    }

    /// Those of a rank with higher ones, and all after them.
    fn from(self, rank: u32) -> impl Iterator<Item = (&'a [u32; RECORD], &'a [Time; RECORD])> {
        let first = self.ranks.partition_point(|ranks| ranks[0] < rank);
        self.ranks[first..].iter().zip(&self.times[first..])
    }
}

fn junction_at(order: &[[u8; 4]], rank: u32) -> usize {
    u32::from_le_bytes(order[rank as usize]) as usize
}

#[inline(never)]
extern "C" fn aim_on(
    header: Header,
    card: &[u8],
    ranks: &[u32],
    pairs: &[u32],
    times: &[Time],
    live: &[Time],
    down: &mut [Time],
    estimates: &mut [Time],
    elapsed: &[Time],
    leaving: &[u32],
    groups: &[u32],
    target: u32,
) -> Returned {
    let of_n = [ranks.len(), down.len(), estimates.len(), elapsed.len()];
    let of_m = [live.len(), leaving.len()];
    let Some(bodies) = fits(header, card, [pairs.len(), times.len()], of_n, of_m, groups.len())
    else {
        return answer(header, 9);
    };
    if target >= header.n {
        return answer(header, 12);
    }
    descend(bodies.order, ranks, Records::of(pairs, times, header), down, target);
    estimates.fill(UNASKED);
    answer(Header { aimed: 1, target, ..header }, 0)
}

/// The down totals of a target.
fn descend(order: &[[u8; 4]], ranks: &[u32], records: Records, down: &mut [Time], target: u32) {
    down.fill(NONE);
    down[target as usize] = 0;
    for (&[low, high], &[_, time]) in records.from(ranks[target as usize]) {
        let below = down[junction_at(order, low)];
        let total = &mut down[junction_at(order, high)];
        *total = add(time, below).min(*total);
    }
}

#[inline(never)]
extern "C" fn estimate_on(
    header: Header,
    card: &[u8],
    ranks: &[u32],
    pairs: &[u32],
    times: &[Time],
    live: &[Time],
    down: &[Time],
    estimates: &mut [Time],
    elapsed: &[Time],
    leaving: &[u32],
    groups: &[u32],
    junction: u32,
) -> Returned {
    let of_n = [ranks.len(), down.len(), estimates.len(), elapsed.len()];
    let of_m = [live.len(), leaving.len()];
    let Some(bodies) = fits(header, card, [pairs.len(), times.len()], of_n, of_m, groups.len())
    else {
        return answer(header, 9);
    };
    if junction >= header.n {
        return answer(header, 12);
    }
    if header.aimed == 0 {
        return answer(header, 13);
    }
    let (order, records) = (bodies.order, Records::of(pairs, times, header));
    let prepared = Prepared { order, ranks, records, down };
    let total = prepared.estimate(estimates, junction as usize);
    Returned { total, ..answer(header, 0) }
}

/// What an estimate reads.
struct Prepared<'a> {
    order: &'a [[u8; 4]],
    ranks: &'a [u32],
    records: Records<'a>,
    down: &'a [Time],
}

impl Prepared<'_> {
    fn estimate(&self, estimates: &mut [Time], at: usize) -> Time {
        if estimates[at] != UNASKED {
            return estimates[at];
        }
        let rank = self.ranks[at];
        let mut least = self.down[at];
        for (&[low, high], &[up, _]) in self.records.from(rank) {
            if low != rank {
                break;
            }
            if up != NONE {
                let above = self.estimate(estimates, junction_at(self.order, high));
                least = add(up, above).min(least);
            }
        }
        estimates[at] = least;
        least
    }
}

#[inline(never)]
extern "C" fn set_on(
    header: Header,
    card: &[u8],
    ranks: &[u32],
    pairs: &[u32],
    times: &[Time],
    live: &mut [Time],
    down: &[Time],
    estimates: &[Time],
    elapsed: &[Time],
    leaving: &[u32],
    groups: &[u32],
    road: u32,
    time: Time,
) -> Returned {
    let of_n = [ranks.len(), down.len(), estimates.len(), elapsed.len()];
    let of_m = [live.len(), leaving.len()];
    let Some(bodies) = fits(header, card, [pairs.len(), times.len()], of_n, of_m, groups.len())
    else {
        return answer(header, 9);
    };
    if let Some(question) = refused_time(bodies, road, time) {
        return answer(header, question);
    }
    live[road as usize] = time;
    answer(header, 0)
}

/// Questions 10 and 11.
fn refused_time(bodies: Bodies, road: u32, time: Time) -> Option<u32> {
    let Some(&[_, _, base]) = bodies.roads.get(road as usize) else {
        return Some(10);
    };
    let base = u32::from_le_bytes(base).into();
    (time != CLOSED && !(base..=LONGEST).contains(&time)).then_some(11)
}

#[inline(never)]
extern "C" fn preview_on(
    header: Header,
    card: &[u8],
    ranks: &[u32],
    pairs: &[u32],
    times: &[Time],
    live: &[Time],
    down: &[Time],
    estimates: &mut [Time],
    elapsed: &[Time],
    leaving: &[u32],
    groups: &[u32],
    work: &mut [Time],
    class: u32,
    road: u32,
    time: Time,
    start: u32,
) -> Returned {
    let of_n = [ranks.len(), down.len(), estimates.len(), elapsed.len()];
    let of_m = [live.len(), leaving.len()];
    let bodies = fits(header, card, [pairs.len(), times.len()], of_n, of_m, groups.len());
    let Some(bodies) = bodies.filter(|_| work.len() == 2 * header.n as usize) else {
        return answer(header, 9);
    };
    if class >= CLASSES {
        return answer(header, 18);
    }
    if let Some(question) = refused_time(bodies, road, time) {
        return answer(header, question);
    }
    if start >= header.n {
        return answer(header, 12);
    }
    if header.aimed == 0 {
        return answer(header, 13);
    }
    let records = Records::of(pairs, times, header);
    let prepared = Prepared { order: bodies.order, ranks, records, down };
    let target = header.target;
    let ways = Ways { prepared, bodies, class, live, leaving, groups, target };
    let [total, then] =
        [live[road as usize], time].map(|time| ways.total(estimates, work, start, road, time));
    let compared = total != NONE && then != NONE;
    let change = if compared { then as i64 - total as i64 } else { 0 };
    Returned { total, then, compared: compared.into(), change, ..answer(header, 0) }
}

/// What a search reads.
struct Ways<'a> {
    prepared: Prepared<'a>,
    bodies: Bodies<'a>,
    class: u32,
    live: &'a [Time],
    leaving: &'a [u32],
    groups: &'a [u32],
    target: u32,
}

impl Ways<'_> {
    /// The total of a go with a road's time replaced, or none. The work area has the candidates' times, then
    /// those of the logged junctions.
    fn total(
        &self,
        estimates: &mut [Time],
        work: &mut [Time],
        start: u32,
        changed: u32,
        time: Time,
    ) -> Time {
        let (times, logged) = work.split_at_mut(work.len() / 2);
        let live = |road| if road == changed { time } else { self.live[road as usize] };
        self.run(estimates, times, logged, start, live, |_| (), |_, _, _| ());
        logged[self.target as usize]
    }

    /// A go: its total and number of roads, if there is a chain; roads and log stand first in the lent areas.
    /// `times` and `by` are words to work on, for each junction one.
    fn go(
        &self,
        estimates: &mut [Time],
        elapsed: &mut [Time],
        times: &mut [Time],
        by: &mut [u32],
        route: &mut [u32],
        log: &mut [u32],
        start: u32,
    ) -> Option<(Time, u32)> {
        let mut count = 0;
        let logs = |junction| {
            log[count] = junction;
            count += 1;
        };
        // The smallest-numbered road that gives a candidate's time.
        let leads = |road: u32, head: u32, order: Ordering| {
            let old = &mut by[head as usize];
            *old = if order.is_lt() { road } else { road.min(*old) };
        };
        let live = |road| self.live[road as usize];
        self.run(estimates, times, elapsed, start, live, logs, leads);
        let total = elapsed[self.target as usize];
        if total == NONE {
            return None;
        }
        let (mut roads, mut junction) = (0, self.target);
        while junction != start {
            let road = by[junction as usize];
            route[roads] = road;
            roads += 1;
            junction = u32::from_le_bytes(self.bodies.roads[road as usize][0]);
        }
        route[..roads].reverse();
        Some((total, roads as u32))
    }

    /// Does it let the class in?
    fn admits(&self, road: u32) -> bool {
        self.bodies.access.get(road as usize).is_none_or(|byte| byte >> self.class & 1 == 1)
    }

    /// Logs one junction after the other, up to the target, by key, time and number: `times` has the candidates'
    /// times, `logged` those of the logged. Each that is logged is told, and each road that gives a candidate its
    /// time, a smaller one than before or the same.
    fn run(
        &self,
        estimates: &mut [Time],
        times: &mut [Time],
        logged: &mut [Time],
        start: u32,
        live: impl Fn(u32) -> Time,
        mut logs: impl FnMut(u32),
        mut leads: impl FnMut(u32, u32, Ordering),
    ) {
        times.fill(NONE);
        logged.fill(NONE);
        let mut queue = BinaryHeap::new();
        let ahead = self.prepared.estimate(estimates, start as usize);
        if ahead != NONE {
            times[start as usize] = 0;
            queue.push(Reverse((ahead, 0, start)));
        }
        while let Some(Reverse((_, time, junction))) = queue.pop() {
            let at = junction as usize;
            if logged[at] != NONE {
                continue;
            }
            logged[at] = time;
            logs(junction);
            if junction == self.target {
                break;
            }
            for &road in &self.leaving[self.groups[at] as usize..self.groups[at + 1] as usize] {
                let live = live(road);
                if live == CLOSED || !self.admits(road) {
                    continue;
                }
                let head = u32::from_le_bytes(self.bodies.roads[road as usize][1]);
                let ahead = self.prepared.estimate(estimates, head as usize);
                if ahead == NONE {
                    continue;
                }
                let sum = time + live;
                let order = sum.cmp(&times[head as usize]);
                if order.is_lt() {
                    times[head as usize] = sum;
                    queue.push(Reverse((sum + ahead, sum, head)));
                }
                if order.is_le() && logged[head as usize] == NONE {
                    leads(road, head, order);
                }
            }
        }
    }
}

#[inline(never)]
extern "C" fn stops_on(
    header: Header,
    card: &[u8],
    ranks: &[u32],
    pairs: &[u32],
    times: &[Time],
    live: &[Time],
    down: &mut [Time],
    estimates: &mut [Time],
    elapsed: &mut [Time],
    leaving: &[u32],
    groups: &[u32],
    route: &mut [u32],
    log: &mut [u32],
    class: u32,
    stops: &[u32],
) -> ReturnedStops {
    let of_n = [ranks.len(), down.len(), estimates.len(), elapsed.len()];
    let of_m = [live.len(), leaving.len()];
    let mut answer = ReturnedStops { header: handed(header), ..ReturnedStops::default() };
    let Some(bodies) = fits(header, card, [pairs.len(), times.len()], of_n, of_m, groups.len())
    else {
        return ReturnedStops { question: 9, ..answer };
    };
    if let Some(question) = refused_stops(header, class, stops, route.len(), log.len()) {
        return ReturnedStops { question, ..answer };
    }
    let (order, records) = (bodies.order, Records::of(pairs, times, header));
    let (mut candidates, mut by) = (vec![NONE; header.n as usize], vec![0; header.n as usize]);
    let mut at = 0;
    for (leg, ends) in stops.windows(2).enumerate() {
        let [start, target] = [ends[0], ends[1]];
        descend(order, ranks, records, down, target);
        estimates.fill(UNASKED);
        answer.header = Header { aimed: 1, target, ..header };
        let prepared = Prepared { order, ranks, records, down };
        let ways = Ways { prepared, bodies, class, live, leaving, groups, target };
        let found =
            ways.go(estimates, elapsed, &mut candidates, &mut by, &mut route[at..], log, start);
        let Some((total, roads)) = found else {
            let leg = leg as u32;
            let header = answer.header;
            return ReturnedStops { header, question: 17, leg, ..ReturnedStops::default() };
        };
        answer.totals[leg] = total;
        answer.roads[leg] = roads;
        answer.whole += total;
        answer.legs += 1;
        at += roads as usize;
    }
    answer
}

/// Questions 16, 18, 12 and 14.
fn refused_stops(
    header: Header,
    class: u32,
    stops: &[u32],
    route: usize,
    log: usize,
) -> Option<u32> {
    let n = header.n as usize;
    if !(FEWEST_STOPS..=MOST_STOPS).contains(&stops.len()) {
        Some(16)
    } else if class >= CLASSES {
        Some(18)
    } else if stops.iter().any(|&stop| stop >= header.n) {
        Some(12)
    } else {
        (route < stops.len() * n || log < n).then_some(14)
    }
}

#[cfg(test)]
mod tests {
    use super::*;
    use crate::both::Both;
    use crate::calls::Calls;
    use crate::maps::{self, Streets};
    use crate::order;
    use crate::random::Random;
    use crate::unit::AREAS;

    /// Answers and areas are the proved unit's.
    #[test]
    fn as_the_unit() {
        let mut random = Random::new(1);
        let mut maps: Vec<_> = (0..200).map(|_| maps::small(&mut random)).collect();
        maps.push(maps::town(&mut random, 20, 25, Streets::USUAL));
        let mut met = [0; Refusal::NUMBERS];
        for (i, mut map) in maps.into_iter().enumerate() {
            maps::bar(&mut random, &mut map);
            let pairs = order::pairs(&map);
            let both = match i % 2 {
                0 => Both::prepare(&map, pairs),
                _ => Both::prepare_with_access(&map, pairs),
            };
            let mut unit = both.unwrap().unit;
            let mut plain = unit.clone();
            for _ in 0..20 {
                let [target, asked] = [(); 2].map(|()| random.below(map.n() + 1) as u32);
                let road = random.below(map.m() + 1) as u32;
                let time = random.pick(&[1, 5, 60, LONGEST, LONGEST + 1, CLOSED]);
                let class = random.below(9) as u32;
                if random.chance(10) {
                    let (which, len) = (random.below(AREAS), random.below(60));
                    unit.areas_mut()[which].resize(len);
                    plain.areas_mut()[which].resize(len);
                }
                if random.chance(50) {
                    assert_eq!(unit.aim(target), aim(&mut plain, target));
                }
                assert_eq!(unit.estimate(asked), estimate(&mut plain, asked));
                assert_eq!(unit.set(road, time), set(&mut plain, road, time));
                let mut work = vec![NONE; (2 * map.n()).saturating_sub(random.below(8) / 7)];
                assert_eq!(
                    unit.preview(class, road, time, asked, &mut work.clone()),
                    preview(&mut plain, class, road, time, asked, &mut work)
                );
                let road = random.below(map.m() + 1) as u32;
                assert_eq!(
                    unit.preview(class, road, CLOSED, asked, &mut work.clone()),
                    preview(&mut plain, class, road, CLOSED, asked, &mut work)
                );
                let list: Vec<u32> = (0..random.below(6))
                    .map(|_| random.below(map.n()) as u32)
                    .chain([asked])
                    .collect();
                let entries = list.len() * map.n() - random.below(8) / 7;
                let [mut route, mut other_route] = [(); 2].map(|()| vec![7; entries]);
                let [mut log, mut other_log] = [(); 2].map(|()| vec![7; map.n()]);
                let answer = unit.stops(class, &list, &mut route, &mut log);
                let other = stops(&mut plain, class, &list, &mut other_route, &mut other_log);
                assert_eq!(answer, other, "{list:?}");
                assert!(route == other_route && log == other_log, "{list:?}: what is lent differs");
                met[answer.map_or_else(|refusal| refusal.number() as usize, |_| 0)] += 1;
                assert!(unit == plain, "the areas differ");
            }
        }
        assert!([0, 9, 12, 14, 16, 17, 18].iter().all(|&number| met[number] > 50), "{met:?}");
    }
}

//! Preparing, aim and estimate of the proved unit, beside the plain router and Dijkstra searches.

use harness::both::{with_stack, Both};
use harness::by_tail::Listed;
use harness::calls::{Accepted, Call, Calls, Refusal};
use harness::card::{self, LONGEST, MOST_JUNCTIONS};
use harness::damage::{CardDamage, Layout};
use harness::dijkstra;
use harness::graph::Graph;
use harness::hierarchy::Record;
use harness::maps::{self, Map, Road, Streets};
use harness::order::{self, MOST_PAIRS};
use harness::random::Random;
use harness::time::{Time, NONE, UNASKED};
use harness::unit::{same, Header, Unit, AREAS, RECORD};

/// The records of a map, and for each target the down totals: by searches from and to each junction over
/// junctions that rank below it.
fn by_searches(map: &Map, targets: &[u32]) -> (Vec<Record>, Vec<Vec<Time>>) {
    let (graph, base) = (Graph::new(map), map.base());
    let mut ranks = vec![0; map.n()];
    for (rank, &junction) in map.order.iter().enumerate() {
        ranks[junction as usize] = rank;
    }
    let mut records = Vec::new();
    let mut down = vec![vec![NONE; map.n()]; targets.len()];
    for (low, &junction) in map.order.iter().enumerate() {
        let below = |other: u32| ranks[other as usize] < low;
        let ups = dijkstra::from_within(&graph, &base, junction, below);
        let downs = dijkstra::to_within(&graph, &base, junction, below);
        for (high, &other) in map.order.iter().enumerate().skip(low + 1) {
            let (up, down) = (ups[other as usize], downs[other as usize]);
            if up != NONE || down != NONE {
                records.push((low as u32, high as u32, up, down));
            }
        }
        for (&target, down) in targets.iter().zip(&mut down) {
            if target == junction {
                down[junction as usize] = 0;
            } else if below(target) {
                down[junction as usize] = ups[target as usize];
            }
        }
    }
    (records, down)
}

/// How many times of pairs, down totals and estimates are 2^32 or more, and no mark.
fn past_32_bits(unit: &Unit) -> [usize; 3] {
    let past =
        |area: &[Time]| area.iter().filter(|&&time| time >> 32 > 0 && time < UNASKED).count();
    [past(&unit.times), past(&unit.down), past(&unit.estimates)]
}

/// Prepares a map with room for just its pairs, which are those that searches find. Then, for each
/// target, aims and asks for all estimates, from the lowest rank first and then in any order. How many of the times
/// that it then holds pass 2^32.
fn check_map(random: &mut Random, map: &Map, targets: &[u32]) -> [usize; 3] {
    let mut past = [0; 3];
    let (records, down) = by_searches(map, targets);
    assert_eq!(records.len(), order::pairs(map));
    let mut both = Both::prepare(map, records.len()).unwrap();
    assert!(both.unit.records() == records, "other records than by searches");
    same("live times", &both.unit.live, &map.base());
    let graph = Graph::new(map);
    for (&target, down) in targets.iter().zip(&down) {
        assert_eq!(both.call(Call::Aim { junction: target }).answer, Ok(Accepted::Done));
        same("down totals", &both.unit.down, down);
        let least = dijkstra::to(&graph, &map.base(), target);
        let mut junctions = map.order.clone();
        random.shuffle(&mut junctions[1..]);
        for junction in junctions {
            assert_eq!(both.unit.estimate(junction), Ok(least[junction as usize]));
            both.router.estimate(junction).unwrap();
        }
        same("estimates", &both.unit.estimates, &least);
        both.check();
        for (sum, past) in past.iter_mut().zip(past_32_bits(&both.unit)) {
            *sum += past;
        }
    }
    past
}

/// Targets of the lowest, of a middling and of the highest rank, and any other.
fn targets(random: &mut Random, map: &Map) -> [u32; 4] {
    let any = random.below(map.n());
    [0, map.n() / 2, map.n() - 1, any].map(|rank| map.order[rank])
}

#[test]
fn towns() {
    let mut random = Random::new(1);
    let mut most = 0;
    for (width, height, streets) in [
        (25, 40, Streets::USUAL),
        (40, 50, Streets::DENSE),
        (64, 48, Streets::USUAL),
        (64, 64, Streets::USUAL),
    ] {
        let map = maps::town(&mut random, width, height, streets);
        let targets = targets(&mut random, &map);
        check_map(&mut random, &map, &targets);
        most = most.max(order::pairs(&map));
    }
    assert!(most > 35_000, "{most} pairs");
}

#[test]
fn the_largest_town() {
    let mut random = Random::new(2);
    let map = maps::largest_town(&mut random);
    let targets = targets(&mut random, &map);
    check_map(&mut random, &map, &targets);
    let pairs = order::pairs(&map);
    assert!(pairs > 55_000, "{pairs} pairs");
}

#[test]
fn small_maps() {
    let mut random = Random::new(3);
    for _ in 0..1_000 {
        let map = maps::small(&mut random);
        let targets: Vec<u32> = (0..map.n() as u32).collect();
        check_map(&mut random, &map, &targets);
    }
}

#[test]
fn hostile_maps() {
    with_stack(|| {
        let mut random = Random::new(4);
        let n = MOST_JUNCTIONS;
        let mut maps = vec![
            maps::line(n),
            maps::star(n),
            maps::ring(n),
            maps::ring_with_bypass(n),
            maps::wide_keys(n),
            maps::slow_road(&mut random, n, 9),
            maps::slow_road(&mut random, n - 1_000, LONGEST / 2),
        ];
        maps.extend(maps::wide_sums(n));
        let mut past = [0; 3];
        for map in maps {
            let n = map.n() as u32;
            let met = check_map(&mut random, &map, &[0, n - 2, n - 1]);
            for (sum, past) in past.iter_mut().zip(met) {
                *sum += past;
            }
        }
        assert!(past[0] > 50_000 && past[1] > 5_000 && past[2] > 50_000, "{past:?} past 2^32");
    });
}

/// On the line and round the ring, the largest least total; it is in the areas.
#[test]
fn the_largest_least_total() {
    with_stack(|| {
        let n = MOST_JUNCTIONS as u32;
        let largest = Time::from(n - 1) * LONGEST;
        for (map, target, lowest) in [
            (maps::line(MOST_JUNCTIONS), n - 1, 0),
            (maps::line(MOST_JUNCTIONS), 0, n - 1),
            (maps::ring(MOST_JUNCTIONS), 0, 1),
        ] {
            let mut both = Both::prepare(&map, order::pairs(&map)).unwrap();
            both.call(Call::Aim { junction: target });
            let reply = both.call(Call::Estimate { junction: lowest });
            assert_eq!(reply.answer, Ok(Accepted::Estimate(largest)));
            assert_eq!(both.unit.estimates[lowest as usize], 40_950_000_000);
        }
    });
}

/// A sum of two times passes 32 bits beside the least total: in a pair's time, in a down total, in an
/// estimate.
#[test]
fn sums_past_32_bits() {
    with_stack(|| {
        let n = MOST_JUNCTIONS as u32;
        let (a, b) = (n - 3, n - 1);
        let least = Time::from(n - 2) * LONGEST;
        let both = maps::wide_sums(MOST_JUNCTIONS).map(|map| {
            let mut both = Both::prepare(&map, order::pairs(&map)).unwrap();
            both.call(Call::Aim { junction: b });
            let reply = both.call(Call::Estimate { junction: a });
            assert_eq!(reply.answer, Ok(Accepted::Estimate(least)));
            both.unit
        });
        assert_eq!(both[0].records().last(), Some(&(n - 2, n - 1, least, NONE)));
        assert_eq!(both[1].down[a as usize], least);
        assert_eq!(both[2].down[a as usize], NONE, "the third's is left to the estimate");
    });
}

/// Cases P1 to P4, and the roads by tail.
#[test]
fn map_p() {
    let map = maps::map_p();
    assert_eq!(Both::prepare(&map, 4).err(), Some(Refusal::Room));
    let mut both = Both::prepare(&map, 5).unwrap();
    assert_eq!(both.unit.pairs[..], [0, 2, 0, 3, 1, 2, 1, 3, 2, 3]);
    assert_eq!(both.unit.times[..], [NONE, 10, 10, NONE, NONE, 15, 10, NONE, 20, 20]);
    assert_eq!(both.unit.leaving[..], [0, 2, 1, 3, 4]);
    assert_eq!(both.unit.groups[..], [0, 2, 3, 4, 5]);
    assert_eq!(both.unit.header, Header { n: 4, m: 5, pairs: 5, card: 104, aimed: 0, target: 0 });
    both.call(Call::Aim { junction: 3 });
    for (junction, estimate) in [(0, 20), (1, 10), (2, 10), (3, 0)] {
        let reply = both.call(Call::Estimate { junction });
        assert_eq!(reply.answer, Ok(Accepted::Estimate(estimate)));
    }
    both.call(Call::Aim { junction: 1 });
    assert_eq!(both.unit.estimates[..], [UNASKED; 4]);
    let reply = both.call(Call::Estimate { junction: 3 });
    assert_eq!(reply.answer, Ok(Accepted::Estimate(30)));
}

/// What preparing builds and estimates answer is over all roads: with bytes that bar some or all, the areas are as
/// without them. The header has the card's length.
#[test]
fn classes_change_no_estimate() {
    let mut random = Random::new(12);
    let (mut barred, mut shut) = (0, 0);
    for i in 0..400 {
        let open = match i % 100 {
            0 => maps::town(&mut random, 12, 12, Streets::USUAL),
            _ => maps::small(&mut random),
        };
        let mut map = open.clone();
        match i % 3 {
            0 => map.roads.iter_mut().for_each(|road| road.access = 0),
            _ => maps::bar(&mut random, &mut map),
        }
        barred += map.access().iter().filter(|&&byte| byte != 255).count();
        shut += map.access().iter().filter(|&&byte| byte == 0).count();
        let pairs = order::pairs(&open);
        let mut without = Both::prepare(&open, pairs).unwrap();
        let mut with = Both::prepare_with_access(&map, pairs).unwrap();
        let len = card::len_with_access(map.n(), map.m()) as u32;
        assert_eq!(with.unit.header, Header { card: len, ..without.unit.header });
        for junction in 0..map.n() as u32 {
            for both in [&mut without, &mut with] {
                both.call(Call::Aim { junction });
            }
            for junction in 0..map.n() as u32 {
                let estimate = Call::Estimate { junction };
                assert_eq!(with.call(estimate), without.call(estimate));
            }
            for ((name, area), (_, want)) in with.unit.areas().into_iter().zip(without.unit.areas())
            {
                area.same(name, want);
            }
        }
    }
    assert!(barred > 2_000 && shut > 1_500, "{barred} roads bar a class, {shut} all");
}

/// After each estimate, the entries of the junctions asked and of all that up times reach from them hold
/// least base totals, and the others are unasked.
#[test]
fn which_entries_an_estimate_fills() {
    let mut random = Random::new(5);
    let (mut filled, mut untouched, mut missing) = (0, 0, 0);
    for i in 0..600 {
        let map = match i % 100 {
            0 => maps::town(&mut random, 20, 20, Streets::USUAL),
            1 => maps::even_grid(&mut random, 12, 12),
            _ => maps::small(&mut random),
        };
        let target = random.below(map.n()) as u32;
        let least = dijkstra::to(&Graph::new(&map), &map.base(), target);
        let mut both = Both::prepare(&map, order::pairs(&map)).unwrap();
        both.call(Call::Aim { junction: target });
        let mut reached = vec![false; map.n()];
        for _ in 0..4 {
            let junction = random.below(map.n()) as u32;
            both.call(Call::Estimate { junction });
            // Records ascend, so one pass follows each chain upwards.
            let rank = both.unit.ranks[junction as usize] as usize;
            reached[rank] = true;
            for (low, high, up, _) in both.unit.records() {
                reached[high as usize] |= reached[low as usize] && up != NONE;
            }
            let word = |junction: usize| match reached[both.unit.ranks[junction] as usize] {
                true => least[junction],
                false => UNASKED,
            };
            let want: Vec<Time> = (0..map.n()).map(word).collect();
            same("estimates", &both.unit.estimates, &want);
            untouched += want.iter().filter(|&&word| word == UNASKED).count();
            missing += want.iter().filter(|&&word| word == NONE).count();
            filled += want.iter().filter(|&&word| word < UNASKED).count();
        }
    }
    assert!(
        filled > 5_000 && untouched > 10_000 && missing > 1_000,
        "{filled} filled, {untouched} untouched, {missing} without a chain"
    );
}

/// The roads by tail, which preparing lists whatever the areas held: maps of the same lengths are prepared
/// one after the other on the same areas. Roads leave all junctions, or the first ones alone, or the last.
#[test]
fn roads_by_tail() {
    let mut random = Random::new(10);
    let mut listed = Listed::default();
    for i in 0..400 {
        let (n, m) = match i {
            0 => (MOST_JUNCTIONS, MOST_JUNCTIONS),
            1 => (2, card::MOST_ROADS),
            2..20 => (500, random.below(600)),
            _ => (2 + random.below(12), random.below(40)),
        };
        let mut unit = Unit::new(&[], n, m, MOST_PAIRS);
        for _ in 0..3 {
            let tails = match random.below(4) {
                0 => 0..1 + random.below(n),
                1 => random.below(n)..n,
                _ => 0..n,
            };
            let mut roads = maps::random(&mut random, n, m, LONGEST).roads;
            for road in &mut roads {
                let tail = (tails.start + random.below(tails.len())) as u32;
                if tail != road.head {
                    road.tail = tail;
                }
            }
            let map = Map::in_good_order(n, roads);
            unit.card = map.card().unwrap();
            unit = Both::prepare_on(unit).unwrap().unit;
            listed.count(&map);
        }
    }
    let Listed { maps, empty, several, moved, not_by_head } = listed;
    assert!(
        maps == 1_200
            && empty.iter().all(|&met| met > 200)
            && several > 5_000
            && moved > 20_000
            && not_by_head > 1_000,
        "{listed:?}"
    );
}

/// Two-way spokes from the lowest rank, so that every two of 362 junctions are a pair, and then a line:
/// just so many pairs in all.
fn map_with_pairs(pairs: usize) -> Map {
    let mut map = maps::star(362);
    map.order.reverse();
    let end = 362 + (pairs - 362 * 361 / 2) as u32;
    let road = |tail| Road::new(tail, tail + 1, 1);
    map.roads.extend((362..end).map(road));
    map.order.extend(362..=end);
    map
}

#[test]
fn room_for_the_pairs() {
    let mut random = Random::new(6);
    let mut maps: Vec<Map> = (0..200).map(|_| maps::small(&mut random)).collect();
    maps.extend([
        maps::town(&mut random, 10, 20, Streets::USUAL),
        maps::town(&mut random, 64, 64, Streets::DENSE),
        maps::line(MOST_JUNCTIONS),
        maps::star(MOST_JUNCTIONS),
        map_with_pairs(MOST_PAIRS - 1),
        map_with_pairs(MOST_PAIRS),
    ]);
    let (mut fit, mut more) = (0, 0);
    for map in maps {
        let pairs = order::pairs(&map);
        for room in [0, pairs / 2, pairs.saturating_sub(1), pairs, pairs + 1, MOST_PAIRS] {
            let answer = Both::prepare(&map, room.min(MOST_PAIRS));
            assert_eq!(answer.is_ok(), pairs <= room, "{pairs} pairs, room for {room}");
            *if answer.is_ok() { &mut fit } else { &mut more } += 1;
        }
    }
    assert!(fit > 500 && more > 300, "{fit} fit, {more} do not");
}

#[test]
fn more_pairs_than_any_unit_holds() {
    let mut random = Random::new(7);
    let mut star = maps::star(MOST_JUNCTIONS);
    star.order.reverse();
    for map in [
        map_with_pairs(MOST_PAIRS + 1),
        star,
        maps::random(&mut random, 1_000, 4_000, LONGEST),
        maps::random(&mut random, MOST_JUNCTIONS, card::MOST_ROADS, LONGEST),
    ] {
        assert_eq!(Both::prepare(&map, MOST_PAIRS).err(), Some(Refusal::Room));
    }
}

/// Prepares a unit that is refused by a question before 8: header of zeros, areas unaltered.
fn refused(mut unit: Unit) -> Refusal {
    unit.header = Header { n: 7, m: 7, pairs: 7, card: 7, aimed: 1, target: 7 };
    let before = unit.clone();
    let refusal = unit.prepare().unwrap_err();
    assert_eq!(unit.header, Header::default());
    unit.header = before.header;
    assert!(unit == before, "{refusal:?} alters an area or the card");
    refusal
}

/// Question 7, by each area in turn. Those of the pairs have one length.
#[test]
fn areas_of_another_length() {
    let mut random = Random::new(8);
    let mut refusals = [0; AREAS];
    for map in [
        maps::map_p(),
        maps::random(&mut random, 1, 0, 1),
        maps::random(&mut random, 9, 20, 7),
        maps::town(&mut random, 32, 32, Streets::USUAL),
    ] {
        let (card, room) = (map.card().unwrap(), order::pairs(&map));
        let unit = Unit::new(&card, map.n(), map.m(), room);
        for (area, refusals) in refusals.iter_mut().enumerate() {
            let len = unit.areas()[area].1.len();
            let all =
                [len.wrapping_sub(4), len.wrapping_sub(1), len + 1, len + 2, len + 3, len + 4];
            let most = RECORD * MOST_PAIRS;
            for other in all.into_iter().chain([0, most - 1, most, most + 1, most + 2]) {
                if other == len || other > 1 << 30 {
                    continue;
                }
                let mut unit = unit.clone();
                unit.areas_mut()[area].resize(other);
                assert_eq!(refused(unit), Refusal::AreaLengths, "area {area}: {other} for {len}");
                *refusals += 1;
            }
        }
    }
    assert!(refusals.iter().all(|&met| met > 25), "{refusals:?} refusals");
}

/// Question 7 by the areas of the pairs: they have room for the same whole number of pairs, up to 65,536. Where they
/// have, all is as it is to be, or there is too little room.
#[test]
fn room_of_the_two_areas_of_pairs() {
    let (mut fit, mut odd, mut unlike, mut over) = (0, 0, 0, 0);
    for map in [maps::map_p(), maps::random(&mut Random::new(13), 9, 20, 7)] {
        let (card, pairs, most) = (map.card().unwrap(), order::pairs(&map), RECORD * MOST_PAIRS);
        let least = RECORD * pairs;
        let near = [least - 2, least - 1, least, least + 1, least + 2, 2 * least];
        let lengths = [&near[..], &[0, 1, 2, 3, 4, most - 2, most - 1, most, most + 1, most + 2]];
        let lengths = lengths.concat();
        for &ranks in &lengths {
            // Most of the wrong ones beside each other, and all beside the right ones and the same.
            for &times in lengths.iter().filter(|&&times| times == ranks || times.min(ranks) < 100)
            {
                let mut unit = Unit::new(&card, map.n(), map.m(), 0);
                unit.pairs.resize(ranks);
                unit.times.resize(times);
                if ranks == times && ranks % RECORD == 0 && ranks <= most {
                    let answer = Both::prepare_on(unit);
                    assert_eq!(answer.err(), (ranks < least).then_some(Refusal::Room));
                    fit += 1;
                } else {
                    assert_eq!(refused(unit), Refusal::AreaLengths, "{ranks} and {times}");
                    unlike += (ranks != times) as usize;
                    odd += (ranks == times && ranks % RECORD != 0) as usize;
                    over += (ranks == times && ranks > most) as usize;
                }
            }
        }
    }
    assert!(fit > 15 && odd > 8 && unlike > 200 && over > 3, "{fit}, {odd}, {unlike}, {over}");
}

/// Questions 7 and 9, where the roads by tail and the starts of their groups have each other's lengths.
#[test]
fn areas_of_each_others_lengths() {
    let map = maps::random(&mut Random::new(11), 9, 20, 7);
    let mut unit = Both::prepare(&map, order::pairs(&map)).unwrap().unit;
    std::mem::swap(&mut unit.leaving, &mut unit.groups);
    assert_eq!(refused(unit.clone()), Refusal::AreaLengths);
    assert_eq!(unit.set(0, LONGEST), Err(Refusal::Lengths));
    assert_eq!(unit.aim(0), Err(Refusal::Lengths));
    assert_eq!(unit.estimate(0), Err(Refusal::Lengths));
    assert_eq!(unit.go(0, 0, &mut [0; 9], &mut [0; 9]), Err(Refusal::Lengths));
    assert_eq!(unit.stops(0, &[0, 0], &mut [0; 18], &mut [0; 9]), Err(Refusal::Lengths));
}

/// A card that is refused, in areas of its map's lengths and in others.
#[test]
fn damaged_cards() {
    let mut random = Random::new(9);
    let mut met = [0; 9];
    for i in 0..20_000 {
        let mut map = maps::small(&mut random);
        if random.chance(60) {
            maps::bar(&mut random, &mut map);
        }
        let mut card = map.card().unwrap();
        let damage = CardDamage::ALL[i % CardDamage::ALL.len()];
        damage.apply(&mut random, &mut card, Layout::of(&map));
        let mut unit = Unit::new(&card, map.n(), map.m(), 20);
        let also = random.chance(20);
        if also {
            let area = &mut unit.areas_mut()[random.below(AREAS)];
            area.resize(area.len() + 1);
        }
        let number = match card::read(&card) {
            Err(refusal) => {
                assert_eq!(refused(unit), refusal);
                refusal.number()
            }
            Ok((n, m)) if also || (n, m) != (map.n() as u32, map.m() as u32) => {
                assert_eq!(refused(unit), Refusal::AreaLengths);
                7
            }
            Ok(_) => Both::prepare_on(unit).map_or_else(|refusal| refusal.number(), |_| 0),
        };
        met[number as usize] += 1;
    }
    let enough = met.iter().zip([1_000, 500, 1_000, 1_000, 500, 1_000, 1_000, 200, 50]);
    assert!(enough.into_iter().all(|(&met, least)| met >= least), "met {met:?}");
}

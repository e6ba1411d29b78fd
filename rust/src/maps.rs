//! Maps to test and to measure with.

use crate::calls::Refusal;
use crate::card::{self, EVERY_CLASS, LONGEST, MOST_ROADS};
use crate::order;
use crate::random::Random;
use crate::time::{Time, CLOSED};

/// A second is ten tenths.
pub const SECOND: Time = 10;

#[derive(Clone, Copy, Debug, PartialEq, Eq)]
pub struct Road {
    pub tail: u32,
    pub head: u32,
    /// In tenths of a second.
    pub base: Time,
    /// Bit c, from the lowest, lets class c in.
    pub access: u8,
}

impl Road {
    /// A road that lets every class in.
    pub fn new(tail: u32, head: u32, base: Time) -> Road {
        Road { tail, head, base, access: EVERY_CLASS }
    }

    /// Does it let a class in, of 0 to 7?
    pub fn admits(&self, class: u32) -> bool {
        self.access & 1 << class != 0
    }
}

/// Roads by number, and the junctions from lowest rank to highest.
#[derive(Clone, Debug, PartialEq, Eq)]
pub struct Map {
    pub roads: Vec<Road>,
    pub order: Vec<u32>,
}

impl Map {
    pub fn n(&self) -> usize {
        self.order.len()
    }

    pub fn m(&self) -> usize {
        self.roads.len()
    }

    /// Each road's base time.
    pub fn base(&self) -> Vec<Time> {
        self.roads.iter().map(|road| road.base).collect()
    }

    /// Each road's byte.
    pub fn access(&self) -> Vec<u8> {
        self.roads.iter().map(|road| road.access).collect()
    }

    /// Does every road let every class in?
    pub fn admits_all(&self) -> bool {
        self.roads.iter().all(|road| road.access == EVERY_CLASS)
    }

    /// Live times as a class meets them: a road that it is barred from counts as closed.
    pub fn met_by(&self, class: u32, live: &[Time]) -> Vec<Time> {
        let roads = self.roads.iter().zip(live);
        roads.map(|(road, &live)| if road.admits(class) { live } else { CLOSED }).collect()
    }

    /// The map as two rows of words, as the writer of cards is lent it.
    pub fn rows(&self) -> (Vec<u32>, Vec<u32>) {
        let words = |road: &Road| [road.tail, road.head, road.base.try_into().expect("a word")];
        (self.roads.iter().flat_map(words).collect(), self.order.clone())
    }

    /// The map that a card holds.
    pub fn of_card(card: &[u8]) -> Result<Map, Refusal> {
        let (roads, order, access) = card::map(card)?;
        let road = |(&[tail, head, base], &access): (&[u32; 3], &u8)| {
            let base = base.into();
            Road { tail, head, base, access }
        };
        Ok(Map { roads: roads.as_chunks().0.iter().zip(&access).map(road).collect(), order })
    }

    /// The map's card, with bytes for classes only if a road bars one.
    pub fn card(&self) -> Result<Vec<u8>, Refusal> {
        if !self.admits_all() {
            return self.card_with_access();
        }
        let (roads, order) = self.rows();
        let mut card = vec![0; card::len(self.n(), self.m())];
        card::write(&roads, &order, &mut card)?;
        Ok(card)
    }

    /// The map's card with bytes for classes, whatever they are.
    pub fn card_with_access(&self) -> Result<Vec<u8>, Refusal> {
        let (roads, order) = self.rows();
        let mut card = vec![0; card::len(self.n(), self.m())];
        card::write(&roads, &order, &mut card)?;
        Ok(card::with_access(&card, &self.access()))
    }

    /// Roads over `n` junctions in a good order.
    pub fn in_good_order(n: usize, roads: Vec<Road>) -> Map {
        let order = order::least_degree(n, &roads);
        Map { roads, order }
    }
}

/// Document 01's example.
pub fn map_p() -> Map {
    let road = |(tail, head, base)| Road::new(tail, head, base);
    let roads = [(0, 1, 10), (1, 3, 10), (0, 2, 15), (2, 3, 10), (3, 0, 20)];
    Map { roads: roads.map(road).to_vec(), order: vec![1, 2, 0, 3] }
}

/// The same with road 1 barred to class 0 (document 02, A6).
pub fn map_p_with_classes() -> Map {
    let mut map = map_p();
    map.roads[1].access = 254;
    map
}

/// Bytes for the roads of a map: in some every class passes, in others every road bars some, or a few bar nearly all.
pub fn bar(random: &mut Random, map: &mut Map) {
    let style = random.below(6);
    for road in &mut map.roads {
        road.access = match style {
            0 => EVERY_CLASS,
            1 => random.word() as u8,
            2 if random.chance(85) => EVERY_CLASS,
            2 => random.pick(&[0, 1, 128, 254, 127]),
            3 => random.pick(&[255, 255, 255, 254, 1, 0]),
            4 => !(1 << random.below(8)) as u8,
            _ => random.word() as u8 | random.word() as u8 | random.word() as u8,
        };
    }
}

/// `m` roads with base times to `longest` between any of `n` junctions, parallel ones among them,
/// in any order. Where n is 1 there are none.
pub fn random(random: &mut Random, n: usize, m: usize, longest: Time) -> Map {
    let mut order: Vec<u32> = (0..n as u32).collect();
    random.shuffle(&mut order);
    let road = |_| {
        let tail = random.below(n);
        let head = (tail + 1 + random.below(n - 1)) % n;
        Road::new(tail as u32, head as u32, random.within(1..=longest))
    };
    let roads = (0..if n < 2 { 0 } else { m }).map(road).collect();
    Map { roads, order }
}

/// A map of up to 12 junctions, with base times so short that many totals are equal.
pub fn small(random: &mut Random) -> Map {
    if random.chance(30) {
        let (width, height) = (1 + random.below(4), 1 + random.below(3));
        return even_grid(random, width, height);
    }
    let n = 1 + random.below(10);
    let m = random.below(4 * n + 1);
    let longest = random.pick(&[1, 3, 10]);
    self::random(random, n, m, longest)
}

/// The streets of a town, in percent of the grid's.
#[derive(Clone, Copy, Debug, PartialEq, Eq)]
pub struct Streets {
    pub missing: u32,
    pub one_way: u32,
}

impl Streets {
    /// As in most towns.
    pub const USUAL: Streets = Streets { missing: 15, one_way: 25 };
    /// Nearly the whole grid, and both ways.
    pub const DENSE: Streets = Streets { missing: 3, one_way: 0 };
}

/// A town: a grid of streets, one way in alternate directions or both ways, each eighth line a
/// main road. A block takes 10 to 40 seconds each way, on main roads a third of it. The roads are
/// numbered in any order, the order is a good one.
pub fn town(random: &mut Random, width: usize, height: usize, streets: Streets) -> Map {
    let mut roads = Vec::new();
    for (line, [a, b]) in blocks(width, height) {
        let main = line % 8 == 3;
        if !main && random.chance(streets.missing) {
            continue;
        }
        let [tail, head] = if line.is_multiple_of(2) { [a, b] } else { [b, a] };
        let base = SECOND * (random.within(10..=40) / if main { 3 } else { 1 });
        roads.push(Road::new(tail, head, base));
        if main || !random.chance(streets.one_way) {
            roads.push(Road::new(head, tail, base + SECOND * random.within(0..=5)));
        }
    }
    random.shuffle(&mut roads);
    Map::in_good_order(width * height, roads)
}

/// The largest dense town: 4,096 junctions, and 16,384 roads with the parallel ones.
pub fn largest_town(random: &mut Random) -> Map {
    let mut map = town(random, 64, 64, Streets::DENSE);
    while map.m() < MOST_ROADS {
        let road = random.pick(&map.roads);
        map.roads.push(Road { base: SECOND * random.within(1..=60), ..road });
    }
    map
}

/// A two-way grid with base times of 1 and a few of 2, junctions and roads numbered in any order:
/// many totals and keys are equal. The order is a good one.
pub fn even_grid(random: &mut Random, width: usize, height: usize) -> Map {
    let mut numbers: Vec<u32> = (0..(width * height) as u32).collect();
    random.shuffle(&mut numbers);
    let mut roads = Vec::new();
    for (_, ends) in blocks(width, height) {
        let [a, b] = ends.map(|end| numbers[end as usize]);
        for [tail, head] in [[a, b], [b, a]] {
            roads.push(Road::new(tail, head, random.pick(&[1, 1, 1, 2])));
        }
    }
    random.shuffle(&mut roads);
    Map::in_good_order(width * height, roads)
}

/// The blocks of a grid with the number of their line, across or down, and the junctions at their
/// ends, which are numbered line by line.
fn blocks(width: usize, height: usize) -> impl Iterator<Item = (usize, [u32; 2])> {
    let at = move |x, y| (y * width + x) as u32;
    let across = move |y| (1..width).map(move |x| (y, [at(x - 1, y), at(x, y)]));
    let down = move |x| (1..height).map(move |y| (x, [at(x, y - 1), at(x, y)]));
    (0..height).flat_map(across).chain((0..width).flat_map(down))
}

/// A two-way line of junctions with the longest base times, its order from one end to the other:
/// the largest least total, and an estimate that asks for all the others one within the other.
pub fn line(n: usize) -> Map {
    let roads = (1..n).flat_map(|i| both_ways(i - 1, i)).collect();
    Map { roads, order: (0..n as u32).collect() }
}

/// Two-way spokes from junction 0 with the longest base times, the centre ranking highest. In the
/// reverse order, the centre lowest, every two junctions are a pair.
pub fn star(n: usize) -> Map {
    let roads = (1..n).flat_map(|i| both_ways(0, i)).collect();
    Map { roads, order: (1..n as u32).chain([0]).collect() }
}

/// A one-way ring with the longest base times, its order once round.
pub fn ring(n: usize) -> Map {
    let roads = (0..n).map(|i| long(i, (i + 1) % n)).collect();
    Map { roads, order: (0..n as u32).collect() }
}

/// The same with a road past junction 0, from n - 1 to 1. The search from 2 to 0 has two candidates at
/// last: 1 with a key of 2n - 3 roads, in the largest map the largest key of all, 81,890,000,000, and 0
/// with one of n - 2 roads, which would be the larger one if keys had 32 bits.
pub fn ring_with_bypass(n: usize) -> Map {
    let mut map = ring(n);
    map.roads.push(long(n - 1, 1));
    map
}

/// A one-way line 0, 1 .. n - 2 with the longest base times; and from n - 3 roads back to 0 and, by
/// way of n - 1, on to n - 2. With road n - 3, the line's last, closed, the search from 1 to n - 2 has
/// two candidates at last: 0 with a key of 2n - 5 roads, 81,870,000,000 in the largest map, and n - 1
/// with one of n - 2 roads, which would be the larger one if keys had 32 bits.
pub fn wide_keys(n: usize) -> Map {
    let mut roads: Vec<Road> = (0..n - 2).map(|i| long(i, i + 1)).collect();
    roads.extend([long(n - 3, 0), long(n - 3, n - 1), long(n - 1, n - 2)]);
    Map { roads, order: (0..n as u32).collect() }
}

/// Three maps alike but for the order: a one-way line 0, 1 .. n - 4 with the longest base times, roads
/// from a = n - 3 and x = n - 2 to its first junction, and from its last to x and b = n - 1. The chain
/// from a to b has n - 2 roads, and that by way of x 2(n - 2), in the largest map 81,880,000,000: the
/// smaller one if it had 32 bits. The two are compared by contraction with the first order, by the down
/// totals for b with the second, by the estimate of a for b with the third.
pub fn wide_sums(n: usize) -> [Map; 3] {
    let (a, x, b) = (n - 3, n - 2, n - 1);
    let mut roads: Vec<Road> = (0..n - 4).map(|i| long(i, i + 1)).collect();
    roads.extend([long(a, 0), long(x, 0), long(n - 4, x), long(n - 4, b)]);
    [[x, a, b], [b, x, a], [a, x, b]].map(|last| {
        let order = (0..n - 3).chain(last).map(|junction| junction as u32).collect();
        Map { roads: roads.clone(), order }
    })
}

/// A slow road: a two-way line of junctions, some of which a road passes over on its way, with base times up to `less`
/// below the longest. With a thousand junctions there are least totals past 2^32, each with chains to choose from.
pub fn slow_road(random: &mut Random, n: usize, less: Time) -> Map {
    let mut roads: Vec<Road> = (1..n).flat_map(|i| both_ways(i - 1, i)).collect();
    for ends in (2..n).flat_map(|i| [[i - 2, i], [i, i - 2]]) {
        if random.chance(40) {
            roads.push(long(ends[0], ends[1]));
        }
    }
    for road in &mut roads {
        road.base -= random.within(0..=less);
    }
    random.shuffle(&mut roads);
    Map { roads, order: (0..n as u32).collect() }
}

fn both_ways(a: usize, b: usize) -> [Road; 2] {
    [long(a, b), long(b, a)]
}

fn long(tail: usize, head: usize) -> Road {
    Road::new(tail as u32, head as u32, LONGEST)
}

#[cfg(test)]
mod tests {
    use super::*;
    use crate::card::MOST_JUNCTIONS;
    use crate::dijkstra;
    use crate::graph::Graph;
    use crate::order::{pairs, MOST_PAIRS};

    #[test]
    fn every_kind_has_a_card() {
        let mut r = Random::new(1);
        for map in [
            map_p(),
            random(&mut r, 1, 7, LONGEST),
            random(&mut r, MOST_JUNCTIONS, MOST_ROADS, LONGEST),
            town(&mut r, 10, 20, Streets::USUAL),
            largest_town(&mut r),
            even_grid(&mut r, 20, 20),
            line(MOST_JUNCTIONS),
            star(MOST_JUNCTIONS),
            ring(MOST_JUNCTIONS),
            ring_with_bypass(MOST_JUNCTIONS),
            wide_keys(MOST_JUNCTIONS),
            wide_sums(MOST_JUNCTIONS)[0].clone(),
            slow_road(&mut r, MOST_JUNCTIONS, LONGEST - 1),
        ] {
            let card = map.card().unwrap();
            let (roads, order) = map.rows();
            assert_eq!(card::map(&card), Ok((roads, order, vec![EVERY_CLASS; map.m()])));
            assert_eq!(Map::of_card(&card), Ok(map));
        }
    }

    /// Least totals from end to end have more than 32 bits, and most junctions have several roads to choose from.
    #[test]
    fn slow_roads() {
        for (n, less) in [(1_000, 0), (1_000, 1_000), (MOST_JUNCTIONS, LONGEST / 2)] {
            let map = slow_road(&mut Random::new(3), n, less);
            assert!(map.roads.iter().all(|road| (LONGEST - less..=LONGEST).contains(&road.base)));
            assert!(map.m() > 5 * n / 2 && map.m() <= MOST_ROADS && pairs(&map) < 2 * n);
            let total = dijkstra::between(&Graph::new(&map), &map.base(), 0, n as u32 - 1).0;
            assert!(total > 1 << 32 && total < n as Time * LONGEST, "{n}, {less}: {total}");
        }
    }

    /// With bytes, and with bytes of 255, which a map's own card has not.
    #[test]
    fn cards_with_classes() {
        let mut random = Random::new(2);
        let (mut plain, mut with) = (0, 0);
        for i in 0..600 {
            let mut map = match i {
                0 => map_p(),
                1 => self::random(&mut random, MOST_JUNCTIONS, MOST_ROADS, LONGEST),
                _ => small(&mut random),
            };
            bar(&mut random, &mut map);
            let [card, full] = [map.card(), map.card_with_access()].map(Result::unwrap);
            assert_eq!(full.len(), card::len_with_access(map.n(), map.m()));
            for card in [&card, &full] {
                assert_eq!(Map::of_card(card).as_ref(), Ok(&map));
            }
            *if card == full { &mut with } else { &mut plain } += 1;
            assert_eq!(card == full, !map.admits_all());
        }
        assert!(plain > 100 && with > 300, "{plain} plain, {with} with classes");
    }

    /// Bit c from the lowest.
    #[test]
    fn bits_from_the_lowest() {
        for (access, classes) in [
            (0, vec![]),
            (1, vec![0]),
            (128, vec![7]),
            (254, vec![1, 2, 3, 4, 5, 6, 7]),
            (0b1010, vec![1, 3]),
        ] {
            let road = Road { access, ..Road::new(0, 1, 5) };
            assert_eq!((0..8).filter(|&class| road.admits(class)).collect::<Vec<_>>(), classes);
        }
        let map = map_p_with_classes();
        assert_eq!(map.access(), [255, 254, 255, 255, 255]);
        assert_eq!(map.met_by(0, &map.base()), [10, CLOSED, 15, 10, 20]);
        assert_eq!(map.met_by(1, &map.base()), map.base());
    }

    #[test]
    fn towns_keep_few_pairs() {
        for (width, height, streets, roads, most) in [
            (10, 20, Streets::USUAL, 500, 1_000),
            (10, 20, Streets::DENSE, 680, 1_500),
            (32, 32, Streets::USUAL, 2_900, 8_000),
            (64, 64, Streets::USUAL, 12_000, 45_000),
            (64, 64, Streets::DENSE, 15_500, MOST_PAIRS),
            (128, 32, Streets::DENSE, 15_500, MOST_PAIRS),
        ] {
            for seed in 0..4 {
                let map = town(&mut Random::new(seed), width, height, streets);
                assert_eq!(map.n(), width * height);
                assert!(map.m() >= roads, "{width}, {height}, {streets:?}: {} roads", map.m());
                let kept = pairs(&map);
                assert!(kept <= most, "{width}, {height}, {streets:?}: {kept} pairs");
            }
        }
        let map = largest_town(&mut Random::new(1));
        assert_eq!((map.n(), map.m()), (MOST_JUNCTIONS, MOST_ROADS));
        assert!(pairs(&map) <= MOST_PAIRS);
    }
}

//! Orders of contraction, and how many pairs an order keeps.

use crate::maps::{Map, Road};

/// Most pairs that a unit has room for.
pub const MOST_PAIRS: usize = 65_536;

/// The number of pairs that contraction keeps in the map's order.
pub fn pairs(map: &Map) -> usize {
    let mut rest = Rest::of(map.n(), &map.roads);
    map.order.iter().map(|&junction| rest.contract(junction as usize).len()).sum()
}

/// Always the junction next that has the fewest neighbours left, on a tie the smallest: few pairs.
pub fn least_degree(n: usize, roads: &[Road]) -> Vec<u32> {
    let mut rest = Rest::of(n, roads);
    let mut degrees: Vec<usize> = (0..n).map(|junction| rest.neighbours(junction).len()).collect();
    let mut left: Vec<usize> = (0..n).collect();
    let mut order = Vec::with_capacity(n);
    while let Some(place) = (0..left.len()).min_by_key(|&place| degrees[left[place]]) {
        let junction = left.remove(place);
        for neighbour in rest.contract(junction) {
            degrees[neighbour] = rest.neighbours(neighbour).len();
        }
        order.push(junction as u32);
    }
    order
}

/// What contraction has left of a map: to and from which junctions each has a road or a shortcut.
struct Rest {
    out: Bits,
    into: Bits,
}

impl Rest {
    fn of(n: usize, roads: &[Road]) -> Rest {
        let mut rest = Rest { out: Bits::new(n), into: Bits::new(n) };
        for road in roads {
            rest.out.set(road.tail as usize, road.head as usize, true);
            rest.into.set(road.head as usize, road.tail as usize, true);
        }
        rest
    }

    /// The junctions left to or from which this one has a road or a shortcut.
    fn neighbours(&self, junction: usize) -> Vec<usize> {
        let (out, into) = (self.out.row(junction), self.into.row(junction));
        ones(out.iter().zip(into).map(|(out, into)| out | into))
    }

    /// Takes a junction away, with a shortcut from each that led into it to each that it led to.
    /// The junctions that were its neighbours.
    fn contract(&mut self, junction: usize) -> Vec<usize> {
        let (out, into) = (self.out.row(junction).to_vec(), self.into.row(junction).to_vec());
        for tail in ones(into.iter().copied()) {
            self.out.join(tail, &out);
            self.out.set(tail, tail, false);
            self.out.set(tail, junction, false);
        }
        for head in ones(out.iter().copied()) {
            self.into.join(head, &into);
            self.into.set(head, head, false);
            self.into.set(head, junction, false);
        }
        self.neighbours(junction)
    }
}

/// A square of bits.
struct Bits {
    words: Vec<u64>,
    width: usize,
}

impl Bits {
    fn new(n: usize) -> Bits {
        let width = n.div_ceil(64);
        Bits { words: vec![0; n * width], width }
    }

    fn row(&self, row: usize) -> &[u64] {
        &self.words[row * self.width..][..self.width]
    }

    fn set(&mut self, row: usize, column: usize, to: bool) {
        let word = &mut self.words[row * self.width + column / 64];
        let bit = 1 << (column % 64);
        *word = if to { *word | bit } else { *word & !bit };
    }

    /// Sets each bit of a row that `with` has set.
    fn join(&mut self, row: usize, with: &[u64]) {
        let words = &mut self.words[row * self.width..][..self.width];
        for (word, with) in words.iter_mut().zip(with) {
            *word |= with;
        }
    }
}

/// The places of the bits that are set, ascending.
fn ones(words: impl Iterator<Item = u64>) -> Vec<usize> {
    let mut places = Vec::new();
    for (i, mut word) in words.enumerate() {
        while word != 0 {
            places.push(64 * i + word.trailing_zeros() as usize);
            word &= word - 1;
        }
    }
    places
}

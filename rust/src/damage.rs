//! Random damage to cards and to maps, of named kinds.

use crate::card::{self, LONGEST};
use crate::maps::Map;
use crate::random::Random;

/// Where the words of a card stand.
#[derive(Clone, Copy, Debug, PartialEq, Eq)]
pub struct Layout {
    pub n: usize,
    pub m: usize,
    /// With a byte for each road.
    pub access: bool,
}

impl Layout {
    /// That of a map's card.
    pub fn of(map: &Map) -> Layout {
        Layout { n: map.n(), m: map.m(), access: !map.admits_all() }
    }

    fn sections(self) -> usize {
        2 + self.access as usize
    }

    /// Words of the table.
    fn table(self) -> usize {
        card::table_len(self.sections()) / 4
    }

    /// Words of the table, the roads and the order.
    fn words(self) -> usize {
        self.table() + 3 * self.m + self.n
    }

    /// Bytes of the bodies.
    fn lengths(self) -> Vec<usize> {
        let lengths = [12 * self.m, 4 * self.n, self.m];
        lengths[..self.sections()].to_vec()
    }

    fn len(self) -> usize {
        card::table_len(self.sections()) + self.lengths().iter().sum::<usize>()
    }
}

/// A kind of damage to a card.
#[derive(Clone, Copy, Debug, PartialEq, Eq)]
pub enum CardDamage {
    /// A bit turned over.
    Bit,
    /// Another word somewhere.
    Word,
    /// Another word in the table of contents.
    TableWord,
    /// Another word in the roads.
    RoadWord,
    /// Another word in the order.
    OrderWord,
    /// Another byte of a road.
    AccessByte,
    /// Another number of sections.
    Count,
    /// Two words somewhere changed about.
    Swap,
    /// Two words of the table changed about.
    TableSwap,
    /// Bytes missing at the end.
    Cut,
    /// Bytes added at the end.
    Extension,
    /// A body of another length, with a table that says so.
    Resized,
    /// A third section more, of m bytes or of a few more or less, with a table that says so; or one less.
    Section,
}

impl CardDamage {
    pub const ALL: [CardDamage; 13] = [
        CardDamage::Bit,
        CardDamage::Word,
        CardDamage::TableWord,
        CardDamage::RoadWord,
        CardDamage::OrderWord,
        CardDamage::AccessByte,
        CardDamage::Count,
        CardDamage::Swap,
        CardDamage::TableSwap,
        CardDamage::Cut,
        CardDamage::Extension,
        CardDamage::Resized,
        CardDamage::Section,
    ];

    /// Damages a card that was made with this layout, and may have been damaged since. Where what is to be
    /// changed is not there, it stays.
    pub fn apply(self, random: &mut Random, card: &mut Vec<u8>, layout: Layout) {
        let Layout { n, m, .. } = layout;
        let (table, words) = (layout.table(), layout.words());
        match self {
            CardDamage::Bit => flip(card, random.below(8 * layout.len())),
            CardDamage::Word => change(random, card, 0, words, n),
            CardDamage::TableWord => change(random, card, 0, table, n),
            CardDamage::RoadWord => change(random, card, table, 3 * m, n),
            CardDamage::OrderWord => change(random, card, table + 3 * m, n, n),
            CardDamage::AccessByte => {
                if layout.access && m > 0 {
                    let other = random.word() as u8;
                    if let Some(byte) = card.get_mut(4 * words + random.below(m)) {
                        *byte = if *byte == other { !other } else { other };
                    }
                }
            }
            CardDamage::Count => {
                let count = random.pick(&[0, 1, 2, 3, 4, 5, 255, 256, 1 << 31, u32::MAX]);
                put(card, 0, count);
            }
            CardDamage::Swap => swap(card, random.below(words), random.below(words)),
            CardDamage::TableSwap => swap(card, random.below(table), random.below(table)),
            CardDamage::Cut => {
                let most = random.pick(&[4, 4 * table, card.len(), card.len()]);
                card.truncate(random.below(most.max(1)));
            }
            CardDamage::Extension => {
                let more = 1 + random.below(24);
                card.extend((0..more).map(|_| random.word() as u8));
            }
            CardDamage::Resized => resize(random, card, layout),
            CardDamage::Section => section(random, card, layout),
        }
    }
}

/// What a writer of cards is lent: a map as two rows of words, and an area of some bytes.
#[derive(Clone, Debug, PartialEq, Eq)]
pub struct Lent {
    pub roads: Vec<u32>,
    pub order: Vec<u32>,
    /// More or fewer bytes than the card's.
    pub excess: isize,
}

impl Lent {
    /// The area's length.
    pub fn area_len(&self) -> usize {
        card::len(0, 0).saturating_add_signed(self.excess)
            + 4 * (self.roads.len() + self.order.len())
    }
}

/// A kind of damage to what a writer is lent.
#[derive(Clone, Copy, Debug, PartialEq, Eq)]
pub enum MapDamage {
    /// Another word in the roads.
    RoadWord,
    /// Another word in the order.
    OrderWord,
    /// Words added to the roads or taken off.
    Roads,
    /// Words added to the order or taken off.
    Order,
    /// An area of another length than the card's.
    Area,
}

impl MapDamage {
    pub const ALL: [MapDamage; 5] = [
        MapDamage::RoadWord,
        MapDamage::OrderWord,
        MapDamage::Roads,
        MapDamage::Order,
        MapDamage::Area,
    ];

    /// Damages what is lent. An empty row has no word to change.
    pub fn apply(self, random: &mut Random, lent: &mut Lent) {
        let n = lent.order.len();
        match self {
            MapDamage::RoadWord => change_word(random, &mut lent.roads, n),
            MapDamage::OrderWord => change_word(random, &mut lent.order, n),
            MapDamage::Roads => lengthen(random, &mut lent.roads, n),
            MapDamage::Order => lengthen(random, &mut lent.order, n),
            MapDamage::Area => lent.excess = random.pick(&[-28, -12, -4, -1, 1, 4, 12, 4_096]),
        }
    }
}

/// A word in the place of another: often near it, or where a range of the format ends.
fn other(random: &mut Random, old: u32, n: usize) -> u32 {
    let n = n as u32;
    let ends = [0, 1, 2, 3, 4, 27, 28, 29, 39, 40, 41, n.wrapping_sub(1), n];
    // Where the range of base times ends, and where it ended before document 02's A7.
    let longest = LONGEST as u32;
    let times = [1_000_000, 1_000_001, longest, longest + 1, u32::MAX];
    let ends = [&ends[..], &times].concat();
    match random.below(7) {
        0 => random.word(),
        1 => random.below(n as usize + 1) as u32,
        2 => old.wrapping_add(1),
        3 => old.wrapping_sub(1),
        4 => old ^ 1 << random.below(32),
        5 => old.swap_bytes(),
        _ => random.pick(&ends),
    }
}

fn change_word(random: &mut Random, row: &mut [u32], n: usize) {
    if !row.is_empty() {
        let place = random.below(row.len());
        row[place] = other(random, row[place], n);
    }
}

/// Up to four words more or less at the end of a row.
fn lengthen(random: &mut Random, row: &mut Vec<u32>, n: usize) {
    let by = 1 + random.below(4);
    if random.chance(50) {
        row.truncate(row.len().saturating_sub(by));
    } else {
        row.extend((0..by).map(|_| other(random, n as u32, n)));
    }
}

fn flip(card: &mut [u8], bit: usize) {
    if let Some(byte) = card.get_mut(bit / 8) {
        *byte ^= 1 << (bit % 8);
    }
}

/// Changes one of `count` words from word `first` on.
fn change(random: &mut Random, card: &mut [u8], first: usize, count: usize, n: usize) {
    if count == 0 {
        return;
    }
    let words = card.as_chunks_mut().0;
    if let Some(word) = words.get_mut(first + random.below(count)) {
        *word = other(random, u32::from_le_bytes(*word), n).to_le_bytes();
    }
}

fn swap(card: &mut [u8], a: usize, b: usize) {
    let words = card.as_chunks_mut::<4>().0;
    if a.max(b) < words.len() {
        words.swap(a, b);
    }
}

/// Another word, if the card has it.
fn put(card: &mut [u8], place: usize, to: u32) {
    if let Some(word) = card.as_chunks_mut().0.get_mut(place) {
        *word = to.to_le_bytes();
    }
}

/// Starts and lengths of bodies that follow one another.
fn put_table(card: &mut [u8], lengths: &[usize]) {
    let mut at = card::table_len(lengths.len());
    for (i, &len) in lengths.iter().enumerate() {
        put(card, 2 + 3 * i, at as u32);
        put(card, 3 + 3 * i, len as u32);
        at += len;
    }
}

/// Adds bytes at the end of a body or takes them off, and says so in the table.
fn resize(random: &mut Random, card: &mut Vec<u8>, layout: Layout) {
    let (n, mut lengths) = (layout.n, layout.lengths());
    if card.len() != layout.len() {
        return;
    }
    let body = random.below(lengths.len());
    let end = 4 * layout.table() + lengths[..=body].iter().sum::<usize>();
    let by = random.pick(&[1, 2, 3, 4, 8, 12, 24]).min(lengths[body]);
    if random.chance(50) {
        card.drain(end - by..end);
        lengths[body] -= by;
    } else {
        card.splice(end..end, (0..by).map(|_| random.below(n + 1) as u8));
        lengths[body] += by;
    }
    put_table(card, &lengths);
}

/// Adds a third section of about a byte for each road, or takes it off.
fn section(random: &mut Random, card: &mut Vec<u8>, layout: Layout) {
    if card.len() != layout.len() {
        return;
    }
    let mut lengths = layout.lengths();
    if layout.access {
        card.truncate(card.len() - layout.m);
        card.drain(28..40);
        lengths.pop();
    } else {
        let by = random.pick(&[-1, 0, 0, 0, 0, 1, 3 * layout.m as isize]);
        let bytes = layout.m.saturating_add_signed(by);
        card.splice(28..28, [0; 12]);
        card.extend((0..bytes).map(|_| random.word() as u8));
        put(card, 7, 3);
        lengths.push(bytes);
    }
    put(card, 0, lengths.len() as u32);
    put_table(card, &lengths);
}

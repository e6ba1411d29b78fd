//! The proved functions. The only `unsafe` of the package.
//!
//! The declarations stand in the order of `unit_c`'s exports. The header file for C has the same, with the same
//! assertions on layout; `tests/c.rs` compares that one with `unit_c`.

use crate::calls::{
    Accepted, Answer, Call, Calls, Lent, Previewed, Refusal, Stopped, Trip, MOST_LEGS,
};
use crate::hierarchy::Record;
use crate::time::{self, Time, NONE};
use std::fmt::{Debug, Display};
use std::mem::offset_of;
use std::ops::{Deref, DerefMut};

/// The header that each call is handed and hands back.
#[repr(C)]
#[derive(Clone, Copy, Debug, Default, PartialEq, Eq)]
pub struct Header {
    pub n: u32,
    pub m: u32,
    pub pairs: u32,
    /// The card's length in bytes.
    pub card: u32,
    /// 1 if there is a target, else 0.
    pub aimed: u32,
    /// 0 if there is none.
    pub target: u32,
}

/// What preparing and the calls but stops return. A word that has nothing to say is 0.
#[repr(C)]
#[derive(Clone, Copy, Debug, Default, PartialEq, Eq)]
pub(crate) struct Returned {
    pub header: Header,
    /// 0 for accepted.
    pub question: u32,
    pub place: u32,
    /// 1 if a preview has a change.
    pub compared: u32,
    /// A go's total, an estimate, or a preview's present total.
    pub total: Time,
    pub count: u32,
    pub roads: u32,
    pub then: Time,
    pub change: i64,
}

/// What a list of stops returns. A word that has nothing to say is 0.
#[repr(C)]
#[derive(Clone, Copy, Debug, Default, PartialEq, Eq)]
pub(crate) struct ReturnedStops {
    pub header: Header,
    /// 0 for accepted.
    pub question: u32,
    pub leg: u32,
    pub legs: u32,
    pub whole: Time,
    pub totals: [Time; MOST_LEGS],
    pub roads: [u32; MOST_LEGS],
}

const _: () = assert!(
    size_of::<Header>() == 24 && offset_of!(Header, card) == 12 && offset_of!(Header, target) == 20
);
const _: () = assert!(
    size_of::<Returned>() == 72
        && offset_of!(Returned, question) == 24
        && offset_of!(Returned, place) == 28
        && offset_of!(Returned, compared) == 32
        && offset_of!(Returned, total) == 40
        && offset_of!(Returned, count) == 48
        && offset_of!(Returned, roads) == 52
        && offset_of!(Returned, then) == 56
        && offset_of!(Returned, change) == 64
);
const _: () = assert!(
    size_of::<ReturnedStops>() == 424
        && offset_of!(ReturnedStops, question) == 24
        && offset_of!(ReturnedStops, leg) == 28
        && offset_of!(ReturnedStops, legs) == 32
        && offset_of!(ReturnedStops, whole) == 40
        && offset_of!(ReturnedStops, totals) == 48
        && offset_of!(ReturnedStops, roads) == 296
);

extern "C" {
    fn card_read(card: *const u8, len: usize, first: *mut u32, second: *mut u32) -> u32;
    fn card_write(
        roads: *const u32,
        roads_len: usize,
        order: *const u32,
        order_len: usize,
        area: *mut u8,
        area_len: usize,
        place: *mut u32,
    ) -> u32;
}

/// Declares exports that take a header or none, slices, words, and a list or none. Each slice is a pointer and a
/// length.
macro_rules! exports {
    ($(
        fn $export:ident(
            $($header:ident)?; $($slice:ident: $access:tt $word:ty),+; $($last:ident: $kind:ty),*
            $(; $list:ident: $item:ty)?
        ) -> $returned:ident;
    )+) => {
        extern "C" {
            $(
                fn $export(
                    $($header: Header,)?
                    $($slice: *$access $word, _: usize,)+
                    $($last: $kind,)*
                    $($list: *const $item, _: usize,)?
                ) -> $returned;
            )+
        }
    };
}

exports! {
    fn unit_prepare(
        ;
        card: const u8,
        ranks: mut u32,
        pairs: mut u32,
        times: mut Time,
        live: mut Time,
        down: mut Time,
        estimates: mut Time,
        elapsed: mut Time,
        leaving: mut u32,
        groups: mut u32;
    ) -> Returned;
    fn unit_set(
        header;
        card: const u8,
        ranks: const u32,
        pairs: const u32,
        times: const Time,
        live: mut Time,
        down: const Time,
        estimates: const Time,
        elapsed: const Time,
        leaving: const u32,
        groups: const u32;
        road: u32,
        time: Time
    ) -> Returned;
    fn unit_aim(
        header;
        card: const u8,
        ranks: const u32,
        pairs: const u32,
        times: const Time,
        live: const Time,
        down: mut Time,
        estimates: mut Time,
        elapsed: const Time,
        leaving: const u32,
        groups: const u32;
        junction: u32
    ) -> Returned;
    fn unit_estimate(
        header;
        card: const u8,
        ranks: const u32,
        pairs: const u32,
        times: const Time,
        live: const Time,
        down: const Time,
        estimates: mut Time,
        elapsed: const Time,
        leaving: const u32,
        groups: const u32;
        junction: u32
    ) -> Returned;
    fn unit_go(
        header;
        card: const u8,
        ranks: const u32,
        pairs: const u32,
        times: const Time,
        live: const Time,
        down: const Time,
        estimates: mut Time,
        elapsed: mut Time,
        leaving: const u32,
        groups: const u32,
        route: mut u32,
        log: mut u32;
        class: u32,
        start: u32
    ) -> Returned;
    fn unit_preview(
        header;
        card: const u8,
        ranks: const u32,
        pairs: const u32,
        times: const Time,
        live: const Time,
        down: const Time,
        estimates: mut Time,
        elapsed: const Time,
        leaving: const u32,
        groups: const u32,
        work: mut Time;
        class: u32,
        road: u32,
        time: Time,
        start: u32
    ) -> Returned;
    fn unit_stops(
        header;
        card: const u8,
        ranks: const u32,
        pairs: const u32,
        times: const Time,
        live: const Time,
        down: mut Time,
        estimates: mut Time,
        elapsed: mut Time,
        leaving: const u32,
        groups: const u32,
        route: mut u32,
        log: mut u32;
        class: u32;
        stops: u32
    ) -> ReturnedStops;
    fn unit_replay(
        header;
        card: const u8,
        ranks: const u32,
        pairs: const u32,
        times: const Time,
        live: mut Time,
        down: mut Time,
        estimates: mut Time,
        elapsed: mut Time,
        leaving: const u32,
        groups: const u32,
        route: mut u32,
        log: mut u32,
        work: mut Time,
        script: const u32,
        out: mut u64;
    ) -> Header;
}

/// How many words of a script's answers there are for each call.
pub const ANSWER_WORDS: usize = 4 + 2 * MOST_LEGS;

/// A word of an area: of 32 bits, or a time.
pub trait Word: Copy + Debug + Display + Eq {
    /// What it holds before a call that is to write it.
    const UNWRITTEN: Self;
    /// What stands before an area and behind it.
    const GUARD: Self;
}

impl Word for u32 {
    const UNWRITTEN: u32 = 0xa5a5_a5a5;
    const GUARD: u32 = 0x6a7d_6a7d;
}

impl Word for Time {
    const UNWRITTEN: Time = 0xa5a5_a5a5_a5a5_a5a5;
    const GUARD: Time = 0x6a7d_6a7d_6a7d_6a7d;
}

/// No road or junction, so what was written to an area of these can be told from what was not.
pub const UNWRITTEN: u32 = <u32 as Word>::UNWRITTEN;

/// Questions 1 to 6: the numbers of junctions and of roads, or the first refusal.
pub fn read(card: &[u8]) -> Result<(u32, u32), Refusal> {
    let (mut first, mut second) = (UNWRITTEN, UNWRITTEN);
    // SAFETY: the card is as long as is said, and the two words are there to be written.
    let number = unsafe { card_read(card.as_ptr(), card.len(), &mut first, &mut second) };
    match (number, first, second) {
        (0, n, m) => Ok((n, m)),
        (number, place, 0) => Err(refusal(number, place, 0)),
        (number, place, m) => panic!("refusal {number} with the words {place} and {m}"),
    }
}

/// Questions 4 to 7: makes the card of a map in `area`, or leaves it unaltered.
pub fn write(roads: &[u32], order: &[u32], area: &mut [u8]) -> Result<(), Refusal> {
    let mut place = UNWRITTEN;
    // SAFETY: the rows and the area are as long as is said, and `place` is the word that is written.
    let number = unsafe {
        card_write(
            roads.as_ptr(),
            roads.len(),
            order.as_ptr(),
            order.len(),
            area.as_mut_ptr(),
            area.len(),
            &mut place,
        )
    };
    match (number, place) {
        (0, 0) => Ok(()),
        (0, place) => panic!("accepted, with the place {place}"),
        (number, place) => Err(refusal(number, place, 0)),
    }
}

/// The refusal of a number, with a place and a count, which are 0 where there is none.
fn refusal(number: u32, place: u32, count: u32) -> Refusal {
    match (number, place, count) {
        (1, 0, 0) => Refusal::Short,
        (2, 0, 0) => Refusal::Kinds,
        (3, 0, 0) => Refusal::Starts,
        (4, 0, 0) => Refusal::Sizes,
        (5, road, 0) => Refusal::Road(road),
        (6, place, 0) => Refusal::Place(place),
        (7, 0, 0) => Refusal::AreaLengths,
        (8, 0, 0) => Refusal::Room,
        (9, 0, 0) => Refusal::Lengths,
        (10, 0, 0) => Refusal::NoRoad,
        (11, 0, 0) => Refusal::NotAllowed,
        (12, 0, 0) => Refusal::NoJunction,
        (13, 0, 0) => Refusal::NoTarget,
        (14, 0, 0) => Refusal::LentLengths,
        (15, 0, count) => Refusal::NoPath(count),
        (16, 0, 0) => Refusal::StopCount,
        (17, leg, 0) => Refusal::NoLeg(leg),
        (18, 0, 0) => Refusal::NoClass,
        _ => panic!("no refusal has the number {number}, the place {place} and the count {count}"),
    }
}

/// An area of words, with guard words before and behind it.
#[derive(Clone, Debug, PartialEq, Eq)]
pub struct Area<W: Word = u32> {
    words: Vec<W>,
}

impl<W: Word> Area<W> {
    const GUARDS: [W; 16] = [W::GUARD; 16];

    /// An area that nothing was written to.
    pub fn new(len: usize) -> Area<W> {
        Area::of(&vec![W::UNWRITTEN; len])
    }

    pub fn of(words: &[W]) -> Area<W> {
        Area { words: [&Self::GUARDS, words, &Self::GUARDS].concat() }
    }

    /// Words that nothing was written to are added at the end, or words there taken off.
    pub fn resize(&mut self, len: usize) {
        let mut words = self.to_vec();
        words.resize(len, W::UNWRITTEN);
        *self = Area::of(&words);
    }

    /// Are the guard words as they were?
    pub fn guarded(&self) -> bool {
        self.words.starts_with(&Self::GUARDS) && self.words.ends_with(&Self::GUARDS)
    }
}

impl<W: Word> Deref for Area<W> {
    type Target = [W];

    fn deref(&self) -> &[W] {
        &self.words[Self::GUARDS.len()..self.words.len() - Self::GUARDS.len()]
    }
}

impl<W: Word> DerefMut for Area<W> {
    fn deref_mut(&mut self) -> &mut [W] {
        let end = self.words.len() - Self::GUARDS.len();
        &mut self.words[Self::GUARDS.len()..end]
    }
}

/// One of a unit's areas.
#[derive(Clone, Copy, Debug, PartialEq, Eq)]
pub enum Held<'a> {
    Words(&'a Area),
    Times(&'a Area<Time>),
}

impl Held<'_> {
    #[allow(clippy::len_without_is_empty)]
    pub fn len(self) -> usize {
        match self {
            Held::Words(area) => area.len(),
            Held::Times(area) => area.len(),
        }
    }

    /// Bytes of a word.
    pub fn width(self) -> usize {
        match self {
            Held::Words(_) => size_of::<u32>(),
            Held::Times(_) => size_of::<Time>(),
        }
    }

    /// Is every word 0?
    pub fn zero(self) -> bool {
        match self {
            Held::Words(area) => area.iter().all(|&word| word == 0),
            Held::Times(area) => area.iter().all(|&word| word == 0),
        }
    }

    /// Are the guard words as they were?
    pub fn guarded(self) -> bool {
        match self {
            Held::Words(area) => area.guarded(),
            Held::Times(area) => area.guarded(),
        }
    }

    /// Two areas are the same, word by word.
    pub fn same(self, name: &str, want: Held) {
        match (self, want) {
            (Held::Words(area), Held::Words(want)) => same(name, area, want),
            (Held::Times(area), Held::Times(want)) => same(name, area, want),
            _ => panic!("{name}: words beside times"),
        }
    }
}

/// Two rows of words are the same, word by word.
pub fn same<W: Word>(name: &str, area: &[W], want: &[W]) {
    if area != want {
        assert_eq!(area.len(), want.len(), "{name}: the lengths differ");
        let place = area.iter().zip(want).position(|(word, want)| word != want);
        let place = place.expect("a word that differs");
        panic!("{name}: {} in place {place}, not {}", area[place], want[place]);
    }
}

/// One of a unit's areas, to be altered.
#[derive(Debug)]
pub enum HeldMut<'a> {
    Words(&'a mut Area),
    Times(&'a mut Area<Time>),
}

impl HeldMut<'_> {
    #[allow(clippy::len_without_is_empty)]
    pub fn len(&self) -> usize {
        match self {
            HeldMut::Words(area) => area.len(),
            HeldMut::Times(area) => area.len(),
        }
    }

    /// Words that nothing was written to are added at the end, or words there taken off.
    pub fn resize(&mut self, len: usize) {
        match self {
            HeldMut::Words(area) => area.resize(len),
            HeldMut::Times(area) => area.resize(len),
        }
    }
}

/// The areas that are lent with a call.
#[derive(Clone, Debug, PartialEq, Eq)]
pub struct LentAreas {
    pub route: Area,
    pub log: Area,
    pub work: Area<Time>,
}

impl LentAreas {
    /// Areas that nothing was written to, of the lengths that a call says; those that it does not take are
    /// empty.
    pub fn of(call: Call) -> LentAreas {
        let (route, log, work) = match call {
            Call::Go { route, log, .. } | Call::Stops { route, log, .. } => (route, log, 0),
            Call::Preview { work, .. } => (0, 0, work),
            _ => (0, 0, 0),
        };
        LentAreas { route: Area::new(route), log: Area::new(log), work: Area::new(work) }
    }

    pub fn lend(&mut self) -> Lent<'_> {
        Lent { route: &mut self.route, log: &mut self.log, work: &mut self.work }
    }

    /// A call of a script as it is made with these areas: a go and a list of stops are lent what they ask for of route
    /// and log, or all there is, a preview the whole work area.
    pub fn made(&self, call: Call) -> Call {
        let entries =
            |route: usize, log: usize| [route.min(self.route.len()), log.min(self.log.len())];
        match call {
            Call::Go { class, start, route, log } => {
                let [route, log] = entries(route, log);
                Call::Go { class, start, route, log }
            }
            Call::Stops { class, stops, route, log } => {
                let [route, log] = entries(route, log);
                Call::Stops { class, stops, route, log }
            }
            Call::Preview { class, road, time, start, .. } => {
                Call::Preview { class, road, time, start, work: self.work.len() }
            }
            call => call,
        }
    }

    /// What such a call is lent: the first entries of route and log.
    pub fn lend_to(&mut self, call: Call) -> Lent<'_> {
        let Lent { route, log, work } = self.lend();
        match call {
            Call::Go { route: r, log: l, .. } | Call::Stops { route: r, log: l, .. } => {
                Lent { route: &mut route[..r], log: &mut log[..l], work }
            }
            _ => Lent { route, log, work },
        }
    }

    /// Are the guard words as they were?
    pub fn guarded(&self) -> bool {
        self.route.guarded() && self.log.guarded() && self.work.guarded()
    }
}

/// A script of calls: of each its kind, and as many words as that call has, a time two. The lengths of a go and of a
/// list of stops are those that it asks for; a preview has none.
pub fn spelled(calls: &[Call]) -> Vec<u32> {
    let entries = |len: usize| u32::try_from(len).expect("a length of 32 bits");
    let mut words = Vec::new();
    for &call in calls {
        match call {
            Call::Set { road, time } => {
                let [low, high] = time::words(time);
                words.extend([0, road, low, high]);
            }
            Call::Aim { junction } => words.extend([1, junction]),
            Call::Estimate { junction } => words.extend([2, junction]),
            Call::Go { class, start, route, log } => {
                words.extend([3, class, start, entries(route), entries(log)]);
            }
            Call::Preview { class, road, time, start, .. } => {
                let [low, high] = time::words(time);
                words.extend([4, class, road, low, high, start]);
            }
            Call::Stops { class, stops, route, log } => {
                words.extend([5, class, entries(stops.len()), entries(route), entries(log)]);
                words.extend(&*stops);
            }
        }
    }
    words
}

/// An answer in a script's words: four, and behind them of each of 31 legs its total and its number of roads.
pub fn answer_words(answer: Answer) -> [u64; ANSWER_WORDS] {
    let mut words = [0; ANSWER_WORDS];
    words[..4].copy_from_slice(&match answer {
        Ok(Accepted::Done) => [0; 4],
        Ok(Accepted::Estimate(estimate)) => [0, estimate, 0, 0],
        Ok(Accepted::Trip(trip)) => [0, trip.total, trip.count.into(), trip.roads.into()],
        Ok(Accepted::Previewed(Previewed { present, new, change })) => {
            let [present, new] = [present, new].map(|total| total.unwrap_or(NONE));
            [0, present, new, change.unwrap_or(0) as u64]
        }
        Ok(Accepted::Stopped(Stopped { legs, whole, .. })) => [0, whole, 0, legs.into()],
        Err(Refusal::NoPath(count)) => [15, 0, count.into(), 0],
        Err(Refusal::NoLeg(leg)) => [17, leg.into(), 0, 0],
        Err(refusal) => [refusal.number().into(), 0, 0, 0],
    });
    if let Ok(Accepted::Stopped(Stopped { legs, totals, roads, .. })) = answer {
        for leg in 0..legs as usize {
            words[4 + 2 * leg] = totals[leg];
            words[5 + 2 * leg] = roads[leg].into();
        }
    }
    words
}

/// A unit has so many areas.
pub const AREAS: usize = 9;

/// Words of a pair, in the one area and in the other.
pub const RECORD: usize = 2;

/// A unit: its card, its header and its areas.
#[derive(Clone, Debug, PartialEq, Eq)]
pub struct Unit {
    pub card: Vec<u8>,
    pub header: Header,
    pub ranks: Area,
    /// Of each pair its two ranks, low and high,
    pub pairs: Area,
    /// and its two times, up and down.
    pub times: Area<Time>,
    pub live: Area<Time>,
    pub down: Area<Time>,
    pub estimates: Area<Time>,
    pub elapsed: Area<Time>,
    /// Road numbers by tail.
    pub leaving: Area,
    /// Where each tail's group starts.
    pub groups: Area,
}

/// Calls an export. Each slice is handed on as a pointer and a length.
macro_rules! lend {
    ($export:ident(
        $($first:expr)?; $($slice:expr => $pointer:ident),+; $($last:expr),* $(; $list:expr)?
    )) => {
        // SAFETY: each pointer and length are those of one slice, which is lent to be written where the
        // export writes; no two overlap.
        unsafe {
            $export(
                $($first,)?
                $($slice.$pointer(), $slice.len(),)+
                $($last,)*
                $($list.as_ptr(), $list.len(),)?
            )
        }
    };
}

impl Unit {
    /// A unit that is not prepared, with areas for `n` junctions, `m` roads and `room` pairs.
    pub fn new(card: &[u8], n: usize, m: usize, room: usize) -> Unit {
        Unit {
            card: card.to_vec(),
            header: Header::default(),
            ranks: Area::new(n),
            pairs: Area::new(RECORD * room),
            times: Area::new(RECORD * room),
            live: Area::new(m),
            down: Area::new(n),
            estimates: Area::new(n),
            elapsed: Area::new(n),
            leaving: Area::new(m),
            groups: Area::new(n + 1),
        }
    }

    /// The areas and their names.
    pub fn areas(&self) -> [(&'static str, Held<'_>); AREAS] {
        [
            ("ranks", Held::Words(&self.ranks)),
            ("pairs", Held::Words(&self.pairs)),
            ("pair times", Held::Times(&self.times)),
            ("live times", Held::Times(&self.live)),
            ("down totals", Held::Times(&self.down)),
            ("estimates", Held::Times(&self.estimates)),
            ("elapsed", Held::Times(&self.elapsed)),
            ("leaving", Held::Words(&self.leaving)),
            ("groups", Held::Words(&self.groups)),
        ]
    }

    pub fn areas_mut(&mut self) -> [HeldMut<'_>; AREAS] {
        [
            HeldMut::Words(&mut self.ranks),
            HeldMut::Words(&mut self.pairs),
            HeldMut::Times(&mut self.times),
            HeldMut::Times(&mut self.live),
            HeldMut::Times(&mut self.down),
            HeldMut::Times(&mut self.estimates),
            HeldMut::Times(&mut self.elapsed),
            HeldMut::Words(&mut self.leaving),
            HeldMut::Words(&mut self.groups),
        ]
    }

    /// The records of all pairs that there is room for: rank of low, rank of high, up time, down time.
    pub fn records(&self) -> Vec<Record> {
        let (ranks, times) = (self.pairs.as_chunks().0, self.times.as_chunks().0);
        let record = |(&[low, high], &[up, down]): (&[u32; 2], &[Time; 2])| (low, high, up, down);
        ranks.iter().zip(times).map(record).collect()
    }

    /// Are the guard words of all areas as they were?
    pub fn guarded(&self) -> bool {
        self.areas().iter().all(|(_, area)| area.guarded())
    }

    pub fn prepare(&mut self) -> Result<(), Refusal> {
        let returned = lend!(unit_prepare(
            ;
            self.card => as_ptr,
            self.ranks => as_mut_ptr,
            self.pairs => as_mut_ptr,
            self.times => as_mut_ptr,
            self.live => as_mut_ptr,
            self.down => as_mut_ptr,
            self.estimates => as_mut_ptr,
            self.elapsed => as_mut_ptr,
            self.leaving => as_mut_ptr,
            self.groups => as_mut_ptr;
        ));
        self.hand_back(returned)?.done()
    }

    /// Makes the calls of a script, as [`spelled`] has them, from the header and the areas as preparing, or calls, left
    /// them; a go and a list of stops are lent the first entries of route and log, as many as two of its words say, or
    /// all, and a preview all of the work area. The answers go to `out`, as [`answer_words`] has them.
    pub fn replay(&mut self, Lent { route, log, work }: Lent, script: &[u32], out: &mut [u64]) {
        self.header = lend!(unit_replay(
            self.header;
            self.card => as_ptr,
            self.ranks => as_ptr,
            self.pairs => as_ptr,
            self.times => as_ptr,
            self.live => as_mut_ptr,
            self.down => as_mut_ptr,
            self.estimates => as_mut_ptr,
            self.elapsed => as_mut_ptr,
            self.leaving => as_ptr,
            self.groups => as_ptr,
            route => as_mut_ptr,
            log => as_mut_ptr,
            work => as_mut_ptr,
            script => as_ptr,
            out => as_mut_ptr;
        ));
    }

    /// Takes the header back, and an answer that refuses.
    pub(crate) fn hand_back(&mut self, returned: Returned) -> Result<Returned, Refusal> {
        self.header = returned.header;
        let Returned { question, place, count, .. } = returned;
        if question == 0 {
            return Ok(returned);
        }
        returned.says(Returned { question, place, count, ..Returned::default() });
        Err(refusal(question, place, count))
    }
}

impl Returned {
    /// There are these words beside the header, and none that have nothing to say.
    fn says(self, words: Returned) {
        assert_eq!(self, Returned { header: self.header, ..words }, "more than it has to say");
    }

    pub(crate) fn done(self) -> Result<(), Refusal> {
        self.says(Returned::default());
        Ok(())
    }

    pub(crate) fn estimate(self) -> Result<Time, Refusal> {
        let total = self.total;
        self.says(Returned { total, ..Returned::default() });
        Ok(total)
    }

    fn trip(self) -> Result<Trip, Refusal> {
        let Returned { total, count, roads, .. } = self;
        self.says(Returned { total, count, roads, ..Returned::default() });
        Ok(Trip { total, count, roads })
    }

    pub(crate) fn previewed(self) -> Result<Previewed, Refusal> {
        let Returned { compared, total, then, change, .. } = self;
        let [present, new] = [total, then].map(|total| (total != NONE).then_some(total));
        let both = present.is_some() && new.is_some();
        let change = if both { change } else { 0 };
        assert_eq!(compared, both.into(), "compared where both totals exist: {self:?}");
        self.says(Returned { compared, total, then, change, ..Returned::default() });
        Ok(Previewed { present, new, change: both.then_some(change) })
    }
}

impl ReturnedStops {
    /// The legs, or a refusal; the words that have nothing to say are 0.
    pub(crate) fn stopped(self) -> Result<Stopped, Refusal> {
        let ReturnedStops { header, question, leg, legs, whole, totals, roads } = self;
        if question != 0 {
            let refused = ReturnedStops { header, question, leg, ..ReturnedStops::default() };
            assert_eq!(self, refused, "more than it has to say");
            return Err(refusal(question, leg, 0));
        }
        let (past_totals, past_roads) = (&totals[legs as usize..], &roads[legs as usize..]);
        let rest = past_totals.iter().copied().chain(past_roads.iter().map(|&k| k.into()));
        assert!(leg == 0 && rest.max().unwrap_or(0) == 0, "more than it has to say: {self:?}");
        Ok(Stopped { legs, whole, totals, roads })
    }
}

impl Calls for Unit {
    fn set(&mut self, road: u32, time: Time) -> Result<(), Refusal> {
        let returned = lend!(unit_set(
            self.header;
            self.card => as_ptr,
            self.ranks => as_ptr,
            self.pairs => as_ptr,
            self.times => as_ptr,
            self.live => as_mut_ptr,
            self.down => as_ptr,
            self.estimates => as_ptr,
            self.elapsed => as_ptr,
            self.leaving => as_ptr,
            self.groups => as_ptr;
            road,
            time
        ));
        self.hand_back(returned)?.done()
    }

    fn aim(&mut self, junction: u32) -> Result<(), Refusal> {
        let returned = lend!(unit_aim(
            self.header;
            self.card => as_ptr,
            self.ranks => as_ptr,
            self.pairs => as_ptr,
            self.times => as_ptr,
            self.live => as_ptr,
            self.down => as_mut_ptr,
            self.estimates => as_mut_ptr,
            self.elapsed => as_ptr,
            self.leaving => as_ptr,
            self.groups => as_ptr;
            junction
        ));
        self.hand_back(returned)?.done()
    }

    fn estimate(&mut self, junction: u32) -> Result<Time, Refusal> {
        let returned = lend!(unit_estimate(
            self.header;
            self.card => as_ptr,
            self.ranks => as_ptr,
            self.pairs => as_ptr,
            self.times => as_ptr,
            self.live => as_ptr,
            self.down => as_ptr,
            self.estimates => as_mut_ptr,
            self.elapsed => as_ptr,
            self.leaving => as_ptr,
            self.groups => as_ptr;
            junction
        ));
        self.hand_back(returned)?.estimate()
    }

    fn go(
        &mut self,
        class: u32,
        start: u32,
        route: &mut [u32],
        log: &mut [u32],
    ) -> Result<Trip, Refusal> {
        let returned = lend!(unit_go(
            self.header;
            self.card => as_ptr,
            self.ranks => as_ptr,
            self.pairs => as_ptr,
            self.times => as_ptr,
            self.live => as_ptr,
            self.down => as_ptr,
            self.estimates => as_mut_ptr,
            self.elapsed => as_mut_ptr,
            self.leaving => as_ptr,
            self.groups => as_ptr,
            route => as_mut_ptr,
            log => as_mut_ptr;
            class,
            start
        ));
        self.hand_back(returned)?.trip()
    }

    fn preview(
        &mut self,
        class: u32,
        road: u32,
        time: Time,
        start: u32,
        work: &mut [Time],
    ) -> Result<Previewed, Refusal> {
        let returned = lend!(unit_preview(
            self.header;
            self.card => as_ptr,
            self.ranks => as_ptr,
            self.pairs => as_ptr,
            self.times => as_ptr,
            self.live => as_ptr,
            self.down => as_ptr,
            self.estimates => as_mut_ptr,
            self.elapsed => as_ptr,
            self.leaving => as_ptr,
            self.groups => as_ptr,
            work => as_mut_ptr;
            class,
            road,
            time,
            start
        ));
        self.hand_back(returned)?.previewed()
    }

    fn stops(
        &mut self,
        class: u32,
        stops: &[u32],
        route: &mut [u32],
        log: &mut [u32],
    ) -> Result<Stopped, Refusal> {
        let returned = lend!(unit_stops(
            self.header;
            self.card => as_ptr,
            self.ranks => as_ptr,
            self.pairs => as_ptr,
            self.times => as_ptr,
            self.live => as_ptr,
            self.down => as_mut_ptr,
            self.estimates => as_mut_ptr,
            self.elapsed => as_mut_ptr,
            self.leaving => as_ptr,
            self.groups => as_ptr,
            route => as_mut_ptr,
            log => as_mut_ptr;
            class;
            stops
        ));
        self.header = returned.header;
        returned.stopped()
    }
}

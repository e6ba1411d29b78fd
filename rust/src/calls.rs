//! The calls of the unit and what they answer, in the terms of documents 01 and 02.

use crate::time::{add, Time};
use std::ops::Deref;

/// A list of stops has so many, and a leg less.
pub const FEWEST_STOPS: usize = 2;
pub const MOST_STOPS: usize = 32;
pub const MOST_LEGS: usize = MOST_STOPS - 1;

/// There are so many vehicle classes, numbered from 0.
pub const CLASSES: u32 = 8;

/// The question that refuses, under the names that `crates/network` has for them.
#[derive(Clone, Copy, Debug, PartialEq, Eq)]
pub enum Refusal {
    /// 1: the card is shorter than its first word, or than the table of contents that this asks for.
    Short,
    /// 2: it has another number of sections than 2 or 3, or other kinds.
    Kinds,
    /// 3: the bodies do not follow the table one after the other, up to the card's end.
    Starts,
    /// 4: a body's length is out of range or no multiple of an entry's, or there is not a byte for each road.
    Sizes,
    /// 5, with the first road that fails.
    Road(u32),
    /// 6, with the first place of the order that fails.
    Place(u32),
    /// 7: a lent area has another length than its own.
    AreaLengths,
    /// 8: the kept pairs do not fit.
    Room,
    /// 9: the card, an area or preview's work area has another length than the header calls for.
    Lengths,
    /// 10: the road is not below m.
    NoRoad,
    /// 11: the time is not allowed.
    NotAllowed,
    /// 12: the junction, or a stop, is not below n.
    NoJunction,
    /// 13: there is no target.
    NoTarget,
    /// 14: the route or the log area has fewer than n entries, or the route area of a list of stops fewer than
    /// n for each.
    LentLengths,
    /// 15: no chain of open roads exists. With the count.
    NoPath(u32),
    /// 16: there are not 2 to 32 stops.
    StopCount,
    /// 17, with the first leg, from 0, that no chain of open roads exists for.
    NoLeg(u32),
    /// 18: the class is not below 8.
    NoClass,
}

impl Refusal {
    /// A number for each question, and 0 for none.
    pub const NUMBERS: usize = 19;

    /// The question's number.
    pub fn number(self) -> u32 {
        match self {
            Refusal::Short => 1,
            Refusal::Kinds => 2,
            Refusal::Starts => 3,
            Refusal::Sizes => 4,
            Refusal::Road(_) => 5,
            Refusal::Place(_) => 6,
            Refusal::AreaLengths => 7,
            Refusal::Room => 8,
            Refusal::Lengths => 9,
            Refusal::NoRoad => 10,
            Refusal::NotAllowed => 11,
            Refusal::NoJunction => 12,
            Refusal::NoTarget => 13,
            Refusal::LentLengths => 14,
            Refusal::NoPath(_) => 15,
            Refusal::StopCount => 16,
            Refusal::NoLeg(_) => 17,
            Refusal::NoClass => 18,
        }
    }

    /// The road, the place or the leg that fails, after 5, 6 and 17.
    pub fn place(self) -> Option<u32> {
        match self {
            Refusal::Road(place) | Refusal::Place(place) | Refusal::NoLeg(place) => Some(place),
            _ => None,
        }
    }
}

/// Go's answer. The roads themselves and the log stand in the lent areas.
#[derive(Clone, Copy, Debug, PartialEq, Eq)]
pub struct Trip {
    pub total: Time,
    /// The number of logged junctions.
    pub count: u32,
    /// The number of roads.
    pub roads: u32,
}

/// Preview's answer: go's total now and with the time set. Where both exist, the change is the new one less
/// the present one.
#[derive(Clone, Copy, Debug, PartialEq, Eq)]
pub struct Previewed {
    pub present: Option<Time>,
    pub new: Option<Time>,
    pub change: Option<i64>,
}

impl Previewed {
    /// Two totals and their change.
    pub fn of(present: Option<Time>, new: Option<Time>) -> Previewed {
        let change = |(new, present): (Time, Time)| new as i64 - present as i64;
        Previewed { present, new, change: new.zip(present).map(change) }
    }
}

/// The answer to a list of stops: each leg's total and number of roads, and the whole total. What lies
/// past the last leg is 0.
#[derive(Clone, Copy, Debug, PartialEq, Eq)]
pub struct Stopped {
    /// How many legs there are.
    pub legs: u32,
    pub whole: Time,
    pub totals: [Time; MOST_LEGS],
    pub roads: [u32; MOST_LEGS],
}

impl Stopped {
    /// Legs, each a total and a number of roads.
    pub fn of(legs: &[(Time, u32)]) -> Stopped {
        let (mut totals, mut roads) = ([0; MOST_LEGS], [0; MOST_LEGS]);
        for (i, &(total, number)) in legs.iter().enumerate() {
            (totals[i], roads[i]) = (total, number);
        }
        let whole = totals.iter().copied().fold(0, add);
        Stopped { legs: legs.len() as u32, whole, totals, roads }
    }
}

/// The stops of a list, in their order: at most [`StopList::MOST`], which is more than a unit takes.
#[derive(Clone, Copy, Debug, PartialEq, Eq)]
pub struct StopList {
    len: usize,
    stops: [u32; StopList::MOST],
}

impl StopList {
    pub const MOST: usize = MOST_STOPS + 4;

    pub fn of(list: &[u32]) -> StopList {
        let mut stops = [0; StopList::MOST];
        stops[..list.len()].copy_from_slice(list);
        StopList { len: list.len(), stops }
    }
}

impl Deref for StopList {
    type Target = [u32];

    fn deref(&self) -> &[u32] {
        &self.stops[..self.len]
    }
}

/// A call with its arguments.
#[derive(Clone, Copy, Debug, PartialEq, Eq)]
#[allow(clippy::large_enum_variant)]
pub enum Call {
    Set {
        road: u32,
        time: Time,
    },
    Aim {
        junction: u32,
    },
    Estimate {
        junction: u32,
    },
    /// With the lengths of the two areas that are lent.
    Go {
        class: u32,
        start: u32,
        route: usize,
        log: usize,
    },
    /// With the length of the work area that is lent.
    Preview {
        class: u32,
        road: u32,
        time: Time,
        start: u32,
        work: usize,
    },
    /// With the lengths of the two areas that are lent.
    Stops {
        class: u32,
        stops: StopList,
        route: usize,
        log: usize,
    },
}

/// What is lent with a call beside the unit's areas: route and log of a go and of a list of stops, and
/// preview's work area. What a call does not take may have any length.
pub struct Lent<'a> {
    pub route: &'a mut [u32],
    pub log: &'a mut [u32],
    pub work: &'a mut [Time],
}

/// What an accepted call answers.
#[derive(Clone, Copy, Debug, PartialEq, Eq)]
#[allow(clippy::large_enum_variant)]
pub enum Accepted {
    /// Of set and aim.
    Done,
    Estimate(Time),
    Trip(Trip),
    Previewed(Previewed),
    Stopped(Stopped),
}

pub type Answer = Result<Accepted, Refusal>;

/// Whatever can be called as the unit is.
pub trait Calls {
    fn set(&mut self, road: u32, time: Time) -> Result<(), Refusal>;
    fn aim(&mut self, junction: u32) -> Result<(), Refusal>;
    fn estimate(&mut self, junction: u32) -> Result<Time, Refusal>;
    fn go(
        &mut self,
        class: u32,
        start: u32,
        route: &mut [u32],
        log: &mut [u32],
    ) -> Result<Trip, Refusal>;
    fn preview(
        &mut self,
        class: u32,
        road: u32,
        time: Time,
        start: u32,
        work: &mut [Time],
    ) -> Result<Previewed, Refusal>;
    fn stops(
        &mut self,
        class: u32,
        stops: &[u32],
        route: &mut [u32],
        log: &mut [u32],
    ) -> Result<Stopped, Refusal>;

    /// Makes a call. What is lent has the lengths that the call says.
    fn call(&mut self, call: Call, Lent { route, log, work }: Lent) -> Answer {
        match call {
            Call::Set { road, time } => self.set(road, time).map(|()| Accepted::Done),
            Call::Aim { junction } => self.aim(junction).map(|()| Accepted::Done),
            Call::Estimate { junction } => self.estimate(junction).map(Accepted::Estimate),
            Call::Go { class, start, .. } => self.go(class, start, route, log).map(Accepted::Trip),
            Call::Preview { class, road, time, start, .. } => {
                self.preview(class, road, time, start, work).map(Accepted::Previewed)
            }
            Call::Stops { class, stops, .. } => {
                self.stops(class, &stops, route, log).map(Accepted::Stopped)
            }
        }
    }
}

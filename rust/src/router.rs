//! The unit as one would write it in plain Rust: the same algorithms, over structures of its own.

use crate::calls::{Calls, Previewed, Refusal, Stopped, Trip, CLASSES, FEWEST_STOPS, MOST_STOPS};
use crate::card::LONGEST;
use crate::graph::Graph;
use crate::hierarchy::Hierarchy;
use crate::maps::Map;
use crate::search;
use crate::time::{Time, CLOSED, NONE, UNASKED};
use std::mem;

#[derive(Clone, Debug)]
pub struct Router {
    graph: Graph,
    pub hierarchy: Hierarchy,
    base: Vec<Time>,
    /// Of each road the classes that it lets in, a bit for each.
    access: Vec<u8>,
    pub live: Vec<Time>,
    pub target: Option<u32>,
    pub down: Vec<Time>,
    pub estimates: Vec<Time>,
    pub elapsed: Vec<Time>,
}

impl Router {
    /// Questions 1 to 6 and 8: prepares a card, with room for so many pairs.
    pub fn new(card: &[u8], room: usize) -> Result<Router, Refusal> {
        let map = Map::of_card(card)?;
        let n = map.n();
        Ok(Router {
            hierarchy: Hierarchy::within(&map, room).ok_or(Refusal::Room)?,
            graph: Graph::new(&map),
            base: map.base(),
            access: map.access(),
            live: map.base(),
            target: None,
            down: vec![NONE; n],
            estimates: vec![UNASKED; n],
            elapsed: vec![NONE; n],
        })
    }

    fn check_junction(&self, junction: u32) -> Result<(), Refusal> {
        if (junction as usize) < self.graph.n() {
            Ok(())
        } else {
            Err(Refusal::NoJunction)
        }
    }

    /// Question 18.
    fn check_class(&self, class: u32) -> Result<(), Refusal> {
        if class < CLASSES {
            Ok(())
        } else {
            Err(Refusal::NoClass)
        }
    }

    /// Questions 10 and 11.
    fn check_time(&self, road: u32, time: Time) -> Result<(), Refusal> {
        let base = *self.base.get(road as usize).ok_or(Refusal::NoRoad)?;
        if time == CLOSED || (base..=LONGEST).contains(&time) {
            Ok(())
        } else {
            Err(Refusal::NotAllowed)
        }
    }

    /// The total of a go at the times in force, with the estimates that it asks for.
    fn total(&mut self, class: u32, start: u32, target: u32) -> Option<Time> {
        let live = times(&self.live, &self.access, class);
        search::total(&self.graph, live, start, target, |junction| {
            self.hierarchy.estimate(&self.down, &mut self.estimates, junction)
        })
    }
}

/// Each road's time as a class meets it.
fn times<'a>(
    live: &'a [Time],
    access: &'a [u8],
    class: u32,
) -> impl Fn(u32) -> Time + Copy + use<'a> {
    move |road| match access[road as usize] >> class & 1 {
        1 => live[road as usize],
        _ => CLOSED,
    }
}

impl Calls for Router {
    fn set(&mut self, road: u32, time: Time) -> Result<(), Refusal> {
        self.check_time(road, time)?;
        self.live[road as usize] = time;
        Ok(())
    }

    fn aim(&mut self, junction: u32) -> Result<(), Refusal> {
        self.check_junction(junction)?;
        self.target = Some(junction);
        self.down = self.hierarchy.down_totals(junction);
        self.estimates.fill(UNASKED);
        Ok(())
    }

    fn estimate(&mut self, junction: u32) -> Result<Time, Refusal> {
        self.check_junction(junction)?;
        self.target.ok_or(Refusal::NoTarget)?;
        Ok(self.hierarchy.estimate(&self.down, &mut self.estimates, junction))
    }

    fn go(
        &mut self,
        class: u32,
        start: u32,
        route: &mut [u32],
        log: &mut [u32],
    ) -> Result<Trip, Refusal> {
        self.check_class(class)?;
        self.check_junction(start)?;
        let target = self.target.ok_or(Refusal::NoTarget)?;
        if route.len().min(log.len()) < self.graph.n() {
            return Err(Refusal::LentLengths);
        }
        let live = times(&self.live, &self.access, class);
        let search = search::search(&self.graph, live, start, target, |junction| {
            self.hierarchy.estimate(&self.down, &mut self.estimates, junction)
        });
        self.elapsed = search.elapsed;
        log[..search.log.len()].copy_from_slice(&search.log);
        let count = search.log.len() as u32;
        let (total, roads) = search.found.ok_or(Refusal::NoPath(count))?;
        route[..roads.len()].copy_from_slice(&roads);
        Ok(Trip { total, count, roads: roads.len() as u32 })
    }

    /// It needs no work area, and asks for its length alone.
    fn preview(
        &mut self,
        class: u32,
        road: u32,
        time: Time,
        start: u32,
        work: &mut [Time],
    ) -> Result<Previewed, Refusal> {
        if work.len() != 2 * self.graph.n() {
            return Err(Refusal::Lengths);
        }
        self.check_class(class)?;
        self.check_time(road, time)?;
        self.check_junction(start)?;
        let target = self.target.ok_or(Refusal::NoTarget)?;
        let present = self.total(class, start, target);
        let old = mem::replace(&mut self.live[road as usize], time);
        let new = self.total(class, start, target);
        self.live[road as usize] = old;
        Ok(Previewed::of(present, new))
    }

    fn stops(
        &mut self,
        class: u32,
        stops: &[u32],
        route: &mut [u32],
        log: &mut [u32],
    ) -> Result<Stopped, Refusal> {
        let n = self.graph.n();
        if !(FEWEST_STOPS..=MOST_STOPS).contains(&stops.len()) {
            return Err(Refusal::StopCount);
        }
        self.check_class(class)?;
        stops.iter().try_for_each(|&stop| self.check_junction(stop))?;
        if route.len() < stops.len() * n || log.len() < n {
            return Err(Refusal::LentLengths);
        }
        let (mut legs, mut at) = (Vec::new(), 0);
        for (leg, ends) in (0..).zip(stops.windows(2)) {
            self.aim(ends[1])?;
            let trip = self.go(class, ends[0], &mut route[at..], log);
            let trip = trip.map_err(|_| Refusal::NoLeg(leg))?;
            legs.push((trip.total, trip.roads));
            at += trip.roads as usize;
        }
        Ok(Stopped::of(&legs))
    }
}

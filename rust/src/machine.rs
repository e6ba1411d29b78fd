//! The plain machine that document 01 compares the unit with: a live time of its own for each road, and
//! a target. It is fed the map, each call's arguments and the lengths of what is lent with it. Of equal keys
//! the smaller time is logged first, then the smaller number (document 02, A5). It is fed a class, too, and
//! takes a road barred to it as closed for that call (A6). Times are tenths of a second, and have no
//! width but that of [`Time`] (A7).

use crate::calls::{
    Accepted, Answer, Call, Previewed, Refusal, Stopped, Trip, CLASSES, FEWEST_STOPS, MOST_STOPS,
};
use crate::card::LONGEST;
use crate::dijkstra;
use crate::graph::Graph;
use crate::maps::Map;
use crate::time::{Time, CLOSED, NONE};

#[derive(Clone, Debug)]
pub struct Machine<'a> {
    map: &'a Map,
    graph: Graph,
    live: Vec<Time>,
    target: Option<u32>,
}

/// An answer, and what stands first in the route and the log area.
#[derive(Clone, Debug, PartialEq, Eq)]
pub struct Reply {
    pub answer: Answer,
    pub route: Vec<u32>,
    pub log: Vec<u32>,
}

impl Machine<'_> {
    pub fn new(map: &Map) -> Machine<'_> {
        Machine { map, graph: Graph::new(map), live: map.base(), target: None }
    }

    /// The same times and the same target on another map of these junctions and roads.
    pub fn on<'b>(&self, map: &'b Map) -> Machine<'b> {
        Machine { map, graph: self.graph.clone(), live: self.live.clone(), target: self.target }
    }

    pub fn answer(&mut self, call: Call) -> Reply {
        let answer = match call {
            Call::Set { road, time } => self.set(road, time).map(|()| Accepted::Done),
            Call::Aim { junction } => self.aim(junction).map(|()| Accepted::Done),
            Call::Estimate { junction } => self.estimate(junction).map(Accepted::Estimate),
            Call::Go { class, start, route, log } => {
                match self.go_refusal(class, start, route, log) {
                    Ok(target) => return self.go(class, start, target),
                    Err(refusal) => Err(refusal),
                }
            }
            Call::Preview { class, road, time, start, work } => {
                self.preview(class, road, time, start, work).map(Accepted::Previewed)
            }
            Call::Stops { class, stops, route, log } => {
                match self.stops_refusal(class, &stops, route, log) {
                    Ok(()) => return self.stops(class, &stops),
                    Err(refusal) => Err(refusal),
                }
            }
        };
        Reply { answer, route: Vec::new(), log: Vec::new() }
    }

    fn set(&mut self, road: u32, time: Time) -> Result<(), Refusal> {
        self.ask_time(road, time)?;
        self.live[road as usize] = time;
        Ok(())
    }

    /// Questions 10 and 11.
    fn ask_time(&self, road: u32, time: Time) -> Result<(), Refusal> {
        let road = road as usize;
        if road >= self.map.m() {
            return Err(Refusal::NoRoad);
        }
        if time != CLOSED && (time < self.map.roads[road].base || time > LONGEST) {
            return Err(Refusal::NotAllowed);
        }
        Ok(())
    }

    fn aim(&mut self, junction: u32) -> Result<(), Refusal> {
        self.ask_junction(junction)?;
        self.target = Some(junction);
        Ok(())
    }

    fn estimate(&self, junction: u32) -> Result<Time, Refusal> {
        self.ask_junction(junction)?;
        let target = self.target.ok_or(Refusal::NoTarget)?;
        Ok(self.estimates(target)[junction as usize])
    }

    /// The least totals at the times in force, and at these with one replaced.
    fn preview(
        &self,
        class: u32,
        road: u32,
        time: Time,
        start: u32,
        work: usize,
    ) -> Result<Previewed, Refusal> {
        if work != 2 * self.map.n() {
            return Err(Refusal::Lengths);
        }
        self.ask_class(class)?;
        self.ask_time(road, time)?;
        self.ask_junction(start)?;
        let target = self.target.ok_or(Refusal::NoTarget)?;
        let mut replaced = self.live.clone();
        replaced[road as usize] = time;
        let [present, new] = [&self.live, &replaced].map(|live| {
            let live = self.in_force(live, class);
            let total = dijkstra::between(&self.graph, &live, start, target).0;
            (total != NONE).then_some(total)
        });
        Ok(Previewed::of(present, new))
    }

    /// Question 18.
    fn ask_class(&self, class: u32) -> Result<(), Refusal> {
        if class >= CLASSES {
            return Err(Refusal::NoClass);
        }
        Ok(())
    }

    /// The times of a call with a class: closed where its bit, counted from the lowest, is 0.
    fn in_force(&self, live: &[Time], class: u32) -> Vec<Time> {
        let roads = self.map.roads.iter().zip(live);
        roads.map(|(road, &live)| [CLOSED, live][road.access as usize >> class & 1]).collect()
    }

    /// Question 12.
    fn ask_junction(&self, junction: u32) -> Result<(), Refusal> {
        if junction as usize >= self.map.n() {
            return Err(Refusal::NoJunction);
        }
        Ok(())
    }

    /// Questions 18 and 12 to 14; the target if they pass.
    fn go_refusal(&self, class: u32, start: u32, route: usize, log: usize) -> Result<u32, Refusal> {
        self.ask_class(class)?;
        self.ask_junction(start)?;
        let target = self.target.ok_or(Refusal::NoTarget)?;
        if route < self.map.n() || log < self.map.n() {
            return Err(Refusal::LentLengths);
        }
        Ok(target)
    }

    /// Questions 16, 18, 12 and 14.
    fn stops_refusal(
        &self,
        class: u32,
        stops: &[u32],
        route: usize,
        log: usize,
    ) -> Result<(), Refusal> {
        if stops.len() < FEWEST_STOPS || stops.len() > MOST_STOPS {
            return Err(Refusal::StopCount);
        }
        self.ask_class(class)?;
        for &stop in stops {
            self.ask_junction(stop)?;
        }
        if route < stops.len() * self.map.n() || log < self.map.n() {
            return Err(Refusal::LentLengths);
        }
        Ok(())
    }

    /// For each leg an aim and a go. The roads follow one another; each log goes over those before it.
    fn stops(&mut self, class: u32, stops: &[u32]) -> Reply {
        let (mut route, mut log, mut legs) = (Vec::new(), Vec::new(), Vec::new());
        for leg in 0..stops.len() - 1 {
            let (start, end) = (stops[leg], stops[leg + 1]);
            self.target = Some(end);
            let made = self.go(class, start, end);
            let longer = log.split_off(made.log.len().min(log.len()));
            log = [made.log, longer].concat();
            let Ok(Accepted::Trip(trip)) = made.answer else {
                return Reply { answer: Err(Refusal::NoLeg(leg as u32)), route, log };
            };
            route.extend(made.route);
            legs.push((trip.total, trip.roads));
        }
        Reply { answer: Ok(Accepted::Stopped(Stopped::of(&legs))), route, log }
    }

    /// The estimates that the machine would answer: least base totals over roads, open or closed.
    fn estimates(&self, target: u32) -> Vec<Time> {
        dijkstra::to(&self.graph, &self.map.base(), target)
    }

    fn go(&self, class: u32, start: u32, target: u32) -> Reply {
        let live = self.in_force(&self.live, class);
        let (log, times) = self.log(&live, start, target);
        let count = log.len() as u32;
        if log.last() != Some(&target) {
            return Reply { answer: Err(Refusal::NoPath(count)), route: Vec::new(), log };
        }
        let route = self.route(&live, &log, &times);
        let trip = Trip { total: times[log.len() - 1], count, roads: route.len() as u32 };
        Reply { answer: Ok(Accepted::Trip(trip)), route, log }
    }

    /// The search log, and the time of each entry.
    fn log(&self, live: &[Time], start: u32, target: u32) -> (Vec<u32>, Vec<Time>) {
        let estimates = self.estimates(target);
        // Candidates' times, by junction; those of logged ones are taken away.
        let mut candidates = vec![None; self.map.n()];
        let mut logged = vec![false; self.map.n()];
        let (mut log, mut times) = (Vec::new(), Vec::new());
        if estimates[start as usize] != NONE {
            candidates[start as usize] = Some(0);
        }
        while log.last() != Some(&target) {
            let key = |((junction, time), &estimate): ((u32, &Option<Time>), &Time)| {
                let time = (*time)?;
                Some((time + estimate, time, junction))
            };
            let keys = (0..).zip(&candidates).zip(&estimates).filter_map(key);
            let Some((_, time, junction)) = keys.min() else { break };
            candidates[junction as usize] = None;
            logged[junction as usize] = true;
            log.push(junction);
            times.push(time);
            for arc in self.graph.out.of(junction) {
                let (live, head) = (live[arc.road as usize], arc.end as usize);
                if live != CLOSED && !logged[head] && estimates[head] != NONE {
                    let time = time + live;
                    candidates[head] = Some(candidates[head].map_or(time, |old| time.min(old)));
                }
            }
        }
        (log, times)
    }

    /// Back from the log's last entry: into each junction, the smallest-numbered open road from an
    /// earlier logged one that gives its time.
    fn route(&self, live: &[Time], log: &[u32], times: &[Time]) -> Vec<u32> {
        let mut places = vec![None; self.map.n()];
        for (place, &junction) in log.iter().enumerate() {
            places[junction as usize] = Some(place);
        }
        let mut route = Vec::new();
        let mut place = log.len() - 1;
        while place > 0 {
            let earlier = |road: usize| {
                let tail = places[self.map.roads[road].tail as usize]?;
                let gives = live[road] != CLOSED
                    && self.map.roads[road].head == log[place]
                    && tail < place
                    && times[tail] + live[road] == times[place];
                gives.then_some((road, tail))
            };
            let (road, tail) = (0..self.map.m()).find_map(earlier).expect("a road gives the time");
            route.push(road as u32);
            place = tail;
        }
        route.reverse();
        route
    }
}

#[cfg(test)]
mod tests {
    use super::*;
    use crate::calls::{Calls, StopList};
    use crate::maps;
    use crate::random::Random;
    use crate::router::Router;
    use crate::unit::LentAreas;

    /// Cases P3 to P10, each from a machine of map P.
    #[test]
    fn cases_of_map_p() {
        let map = maps::map_p();
        let run = |calls: &[Call]| {
            let mut machine = Machine::new(&map);
            let replies: Vec<Reply> = calls.iter().map(|&call| machine.answer(call)).collect();
            replies.into_iter().last().unwrap()
        };
        let aim = |junction| Call::Aim { junction };
        let set = |road, time| Call::Set { road, time };
        let go = |start| Call::Go { class: 0, start, route: 4, log: 4 };
        let trip = |total, route: &[u32], log: &[u32]| {
            let (count, roads) = (log.len() as u32, route.len() as u32);
            let answer = Ok(Accepted::Trip(Trip { total, count, roads }));
            Reply { answer, route: route.to_vec(), log: log.to_vec() }
        };
        for (junction, estimate) in [(0, 20), (1, 10), (2, 10), (3, 0)] {
            let answer = run(&[aim(3), Call::Estimate { junction }]).answer;
            assert_eq!(answer, Ok(Accepted::Estimate(estimate)));
        }
        let answer = run(&[aim(1), Call::Estimate { junction: 3 }]).answer;
        assert_eq!(answer, Ok(Accepted::Estimate(30)));
        assert_eq!(run(&[aim(3), go(0)]), trip(20, &[0, 1], &[0, 1, 3]));
        assert_eq!(run(&[aim(3), set(1, CLOSED), go(0)]), trip(25, &[2, 3], &[0, 1, 2, 3]));
        assert_eq!(run(&[aim(3), set(1, 15), go(0)]), trip(25, &[0, 1], &[0, 1, 2, 3]));
        assert_eq!(run(&[aim(3), go(3)]), trip(0, &[], &[3]));
        assert_eq!(run(&[set(0, 9)]).answer, Err(Refusal::NotAllowed));
        assert_eq!(run(&[set(0, 10)]).answer, Ok(Accepted::Done));
        assert_eq!(run(&[set(0, 10_000_001)]).answer, Err(Refusal::NotAllowed));
        let lost = run(&[aim(3), set(1, CLOSED), set(2, CLOSED), go(0)]);
        assert_eq!((lost.answer, &lost.log[..]), (Err(Refusal::NoPath(2)), &[0, 1][..]));
    }

    /// The previews of map P that document 02's reading has, each after some roads are closed.
    #[test]
    fn previews_of_map_p() {
        let map = maps::map_p();
        for (closed, road, time, present, new, change) in [
            (&[][..], 1, 15, Some(20), Some(25), Some(5)),
            (&[], 4, 30, Some(20), Some(20), Some(0)),
            (&[1], 1, 10, Some(25), Some(20), Some(-5)),
            (&[1], 2, CLOSED, Some(25), None, None),
            (&[1, 2], 2, 15, None, Some(25), None),
            (&[1, 2], 4, CLOSED, None, None, None),
        ] {
            let mut machine = Machine::new(&map);
            machine.answer(Call::Aim { junction: 3 });
            for &road in closed {
                machine.answer(Call::Set { road, time: CLOSED });
            }
            let (live, target) = (machine.live.clone(), machine.target);
            let preview = Call::Preview { class: 0, road, time, start: 0, work: 8 };
            let answer = machine.answer(preview).answer;
            assert_eq!(answer, Ok(Accepted::Previewed(Previewed { present, new, change })));
            assert_eq!((machine.live, machine.target), (live, target));
        }
    }

    /// The lists of stops on map P that document 02's reading has.
    #[test]
    fn stops_of_map_p() {
        let map = maps::map_p();
        let call = |stops: &[u32]| Call::Stops {
            class: 0,
            stops: StopList::of(stops),
            route: 4 * stops.len(),
            log: 4,
        };
        let found = |legs: &[(Time, u32)], route: &[u32], log: &[u32]| {
            let answer = Ok(Accepted::Stopped(Stopped::of(legs)));
            Reply { answer, route: route.to_vec(), log: log.to_vec() }
        };
        let mut machine = Machine::new(&map);
        let reply = machine.answer(call(&[0, 3, 0]));
        assert_eq!(reply, found(&[(20, 2), (20, 1)], &[0, 1, 4], &[3, 0, 3]));
        assert_eq!(machine.target, Some(0));
        let Ok(Accepted::Stopped(stopped)) = reply.answer else { panic!("{reply:?}") };
        assert_eq!((stopped.legs, stopped.whole), (2, 40));
        assert_eq!(machine.answer(call(&[0, 0])), found(&[(0, 0)], &[], &[0]));
        machine.answer(Call::Set { road: 4, time: CLOSED });
        let lost = machine.answer(call(&[0, 3, 0]));
        let answer = Err(Refusal::NoLeg(1));
        assert_eq!(lost, Reply { answer, route: vec![0, 1], log: vec![3, 1, 3] });
        assert_eq!(machine.target, Some(0));
    }

    /// Map P with road 1 barred to class 0 (document 02, A6): the road stays open, and is so for class 1.
    #[test]
    fn classes_of_map_p() {
        let map = maps::map_p_with_classes();
        let mut machine = Machine::new(&map);
        let go = |class| Call::Go { class, start: 0, route: 4, log: 4 };
        let asked = machine.answer(go(8));
        assert_eq!(asked.answer, Err(Refusal::NoClass), "18 before 13");
        machine.answer(Call::Aim { junction: 3 });
        let live = machine.live.clone();
        for (class, total, route, log) in [
            (0, 25, &[2, 3], &[0, 1, 2, 3][..]),
            (1, 20, &[0, 1], &[0, 1, 3]),
            (7, 20, &[0, 1], &[0, 1, 3]),
            (0, 25, &[2, 3], &[0, 1, 2, 3]),
        ] {
            let trip = Trip { total, count: log.len() as u32, roads: 2 };
            let (route, log) = (route.to_vec(), log.to_vec());
            assert_eq!(
                machine.answer(go(class)),
                Reply { answer: Ok(Accepted::Trip(trip)), route, log }
            );
        }
        let estimate = machine.answer(Call::Estimate { junction: 0 }).answer;
        assert_eq!(estimate, Ok(Accepted::Estimate(20)), "over all roads");
        let preview = Call::Preview { class: 0, road: 1, time: 60, start: 0, work: 8 };
        let same = Previewed { present: Some(25), new: Some(25), change: Some(0) };
        assert_eq!(machine.answer(preview).answer, Ok(Accepted::Previewed(same)), "a barred road");
        assert_eq!(machine.live, live);
    }

    #[test]
    fn as_the_router_answers() {
        let mut random = Random::new(1);
        let (mut accepted, mut refused) = (0, 0);
        for _ in 0..2_000 {
            let mut map = maps::small(&mut random);
            maps::bar(&mut random, &mut map);
            let n = map.n();
            let mut machine = Machine::new(&map);
            let mut router = Router::new(&map.card().unwrap(), usize::MAX).unwrap();
            for _ in 0..20 {
                let junction = random.below(n + 1) as u32;
                let road = random.below(map.m() + 1) as u32;
                let time = random.pick(&[1, 3, 12, LONGEST, LONGEST + 1, CLOSED]);
                let less = random.below(8) / 7;
                let class = random.below(9) as u32;
                let call = match random.below(6) {
                    0 => Call::Set { road, time },
                    1 => Call::Aim { junction },
                    2 => Call::Estimate { junction },
                    3 => Call::Preview { class, road, time, start: junction, work: 2 * n - less },
                    4 => {
                        let mut stops: Vec<u32> =
                            (0..random.below(5)).map(|_| random.below(n) as u32).collect();
                        stops.push(junction);
                        let (stops, entries) = (StopList::of(&stops), stops.len() * n);
                        Call::Stops { class, stops, route: entries - less, log: n }
                    }
                    _ => Call::Go { class, start: junction, route: n, log: n - less },
                };
                let mut lent = LentAreas::of(call);
                let answer = router.call(call, lent.lend());
                let reply = machine.answer(call);
                assert_eq!(answer, reply.answer);
                assert!(lent.route.starts_with(&reply.route) && lent.log.starts_with(&reply.log));
                *if answer.is_ok() { &mut accepted } else { &mut refused } += 1;
            }
        }
        assert!(accepted > 15_000 && refused > 10_000, "{accepted} accepted, {refused} refused");
    }
}

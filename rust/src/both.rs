//! The proved unit beside the plain router: each call is made on both, and the answers, the header and
//! every word of every area are compared.

use crate::by_tail::ByTail;
use crate::calls::{Call, Calls, Refusal};
use crate::hierarchy::Record;
use crate::machine::Reply;
use crate::maps::Map;
use crate::random::setting;
use crate::router::Router;
use crate::time::Time;
use crate::unit::{same, Header, LentAreas, Unit, RECORD, UNWRITTEN};
use std::panic::resume_unwind;
use std::sync::mpsc::{self, RecvTimeoutError};
use std::thread;
use std::time::Duration;

#[derive(Clone, Debug)]
pub struct Both {
    pub unit: Unit,
    pub router: Router,
    card: Vec<u8>,
    /// What the areas of ranks, of pairs, of their times and of roads by tail are to hold throughout.
    ranks: Vec<u32>,
    pairs: Vec<u32>,
    times: Vec<Time>,
    by_tail: ByTail,
}

impl Both {
    /// Prepares the card of a map by both, with room for so many pairs.
    pub fn prepare(map: &Map, room: usize) -> Result<Both, Refusal> {
        let card = map.card().expect("a map that a card can hold");
        let unit = Unit::new(&card, map.n(), map.m(), room);
        Both::prepare_on(unit)
    }

    /// The same with bytes for classes on the card, whatever they are.
    pub fn prepare_with_access(map: &Map, room: usize) -> Result<Both, Refusal> {
        let card = map.card_with_access().expect("a map that a card can hold");
        Both::prepare_on(Unit::new(&card, map.n(), map.m(), room))
    }

    /// Prepares a unit's card by both, on the unit's areas, which have their lengths.
    pub fn prepare_on(mut unit: Unit) -> Result<Both, Refusal> {
        let card = unit.card.clone();
        let router = Router::new(&card, unit.pairs.len() / RECORD);
        let answer = unit.prepare();
        assert_eq!(answer.err(), router.as_ref().err().copied(), "proved (left), plain (right)");
        assert!(unit.card == card, "preparing alters no byte of the card");
        assert!(unit.guarded(), "preparing alters guard words");
        let router = router.inspect_err(|&refusal| {
            assert_eq!(unit.header, Header::default());
            let zeroed = unit.areas().iter().all(|(_, area)| area.zero());
            assert!(refusal != Refusal::Room || zeroed, "8 fills every area with 0");
        })?;
        let records = router.hierarchy.records();
        let ranks_of = |&(low, high, _, _): &Record| [low, high];
        let times_of = |&(_, _, up, down): &Record| [up, down];
        let mut pairs: Vec<u32> = records.iter().flat_map(ranks_of).collect();
        let mut times: Vec<Time> = records.iter().flat_map(times_of).collect();
        pairs.resize(unit.pairs.len(), 0);
        times.resize(unit.pairs.len(), 0);
        let by_tail = ByTail::new(&Map::of_card(&card)?);
        let ranks = router.hierarchy.ranks().to_vec();
        let both = Both { unit, router, card, ranks, pairs, times, by_tail };
        both.check();
        Ok(both)
    }

    /// Makes a call on both, which answer and leave the same.
    pub fn call(&mut self, call: Call) -> Reply {
        let mut lent = LentAreas::of(call);
        let mut plain = lent.clone();
        let answer = self.unit.call(call, lent.lend());
        let want = self.router.call(call, plain.lend());
        assert_eq!(answer, want, "{call:?}: proved (left), plain (right)");
        // The plain one writes the route and the log and nothing else; so of the work area, whose words are
        // free after a preview that is accepted, it says what a refusal leaves.
        same("the route area", &lent.route, &plain.route);
        same("the log area", &lent.log, &plain.log);
        if answer.is_err() {
            same("the work area", &lent.work, &plain.work);
        }
        assert!(lent.guarded(), "no call alters guard words");
        self.check();
        Reply { answer, route: written(&lent.route), log: written(&lent.log) }
    }

    /// Header, areas and card are as they are to be.
    pub fn check(&self) {
        let (unit, router) = (&self.unit, &self.router);
        let header = Header {
            n: self.ranks.len() as u32,
            m: router.live.len() as u32,
            pairs: router.hierarchy.pairs() as u32,
            card: self.card.len() as u32,
            aimed: router.target.is_some() as u32,
            target: router.target.unwrap_or(0),
        };
        assert_eq!(unit.header, header, "proved (left), plain (right)");
        assert!(unit.card == self.card, "no call alters the card");
        assert!(unit.guarded(), "no call alters guard words");
        same("ranks", &unit.ranks, &self.ranks);
        same("pairs", &unit.pairs, &self.pairs);
        same("pair times", &unit.times, &self.times);
        same("live times", &unit.live, &router.live);
        same("down totals", &unit.down, &router.down);
        same("estimates", &unit.estimates, &router.estimates);
        same("elapsed", &unit.elapsed, &router.elapsed);
        same("leaving", &unit.leaving, &self.by_tail.leaving);
        same("groups", &unit.groups, &self.by_tail.groups);
    }
}

/// What was written first in an area that nothing was written to; no road or junction is [`UNWRITTEN`].
fn written(area: &[u32]) -> Vec<u32> {
    area.iter().copied().take_while(|&word| word != UNWRITTEN).collect()
}

/// Runs a test with more stack than a test's thread has, since an estimate may ask for 4,095 others, one
/// within the other; and fails if it has not ended after two minutes, or as many seconds as `CALLS_SECONDS`
/// says.
pub fn with_stack(test: impl FnOnce() + Send + 'static) {
    let (sender, receiver) = mpsc::channel::<()>();
    let test = move || {
        let _sender = sender;
        test()
    };
    let thread = thread::Builder::new().stack_size(16 << 20).spawn(test).expect("a thread");
    // Nothing is sent: the sender is dropped when the test ends.
    let limit = Duration::from_secs(setting("CALLS_SECONDS", 120) as u64);
    let ended = receiver.recv_timeout(limit);
    assert_eq!(ended, Err(RecvTimeoutError::Disconnected), "the test does not end");
    if let Err(panic) = thread.join() {
        resume_unwind(panic);
    }
}

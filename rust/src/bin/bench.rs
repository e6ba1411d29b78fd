//! Times the proved unit beside plain Rust, in towns and on the maps of files: tables whose ratios are of
//! times of one run. With `--write`, they go to docs/BENCHMARK.md too.

use harness::areas;
use harness::both::Both;
use harness::calls::{Call, Calls, Previewed, Refusal, Stopped};
use harness::card::{self, LONGEST, MOST_JUNCTIONS, MOST_ROADS};
use harness::dijkstra;
use harness::graph::Graph;
use harness::maps::{self, Map, Streets};
use harness::order::{self, MOST_PAIRS};
use harness::random::Random;
use harness::router::Router;
use harness::search::{search, Search};
use harness::text;
use harness::time::{Time, NONE};
use harness::traffic;
use harness::unit::{self, LentAreas, Unit};
use std::ffi::OsString;
use std::fmt::{self, Display, Formatter};
use std::hint::black_box;
use std::path::{Path, PathBuf};
use std::time::{Duration, Instant, SystemTime, UNIX_EPOCH};
use std::{array, env, fs, process, slice, thread};

const USAGE: &str = "\
bench [--write] [MAP..]   times the unit in five towns, then on each map: a file of lines as make-card reads them
--write                   writes the report to docs/BENCHMARK.md too";

/// Grids of the towns that are measured.
const TOWNS: [(usize, usize); 5] = [(10, 20), (20, 25), (25, 40), (40, 50), (64, 64)];
/// How long the functions of a line are run in turn, and at least how often.
const BUDGET: Duration = Duration::from_secs(1);
const ROUNDS: usize = 20;
/// Trips, targets, and lists of stops, on each map.
const TRIPS: usize = 20;
/// Stops of a list.
const STOPS: usize = 8;
/// The class of every call.
const CLASS: u32 = 0;

fn main() {
    let asked = Asked::of(env::args_os().skip(1)).unwrap_or_else(refuse);
    if asked.help {
        println!("{USAGE}");
        return;
    }
    // All files are read before anything is measured.
    let files: Result<Vec<_>, String> = asked.files.iter().map(|file| map_of(file)).collect();
    let files = files.unwrap_or_else(refuse);
    let report = Report {
        towns: TOWNS.map(|(width, height)| Measured::town(width, height)),
        files: files.into_iter().map(Measured::file).collect(),
    };
    println!("{report}");
    if asked.write {
        let path = Path::new(env!("CARGO_MANIFEST_DIR")).join("../docs/BENCHMARK.md");
        if let Err(error) = fs::write(&path, report.to_string()) {
            eprintln!("bench: docs/BENCHMARK.md: {error}");
            process::exit(1);
        }
    }
}

fn refuse<T>(message: String) -> T {
    eprintln!("bench: {message}");
    process::exit(2)
}

/// What the arguments ask for.
#[derive(Debug, Default, PartialEq, Eq)]
struct Asked {
    write: bool,
    help: bool,
    files: Vec<PathBuf>,
}

impl Asked {
    /// Options and files in any order; what begins with `-` is no file.
    fn of(arguments: impl IntoIterator<Item = OsString>) -> Result<Asked, String> {
        let mut asked = Asked::default();
        for argument in arguments {
            match argument.to_str() {
                Some("--write") => asked.write = true,
                Some("--help") => asked.help = true,
                _ if argument.as_encoded_bytes().starts_with(b"-") => {
                    let other = argument.display();
                    return Err(format!("{other} is no option; --write and --help are"));
                }
                _ => asked.files.push(argument.into()),
            }
        }
        Ok(asked)
    }
}

/// The name and the map of a file.
fn map_of(file: &Path) -> Result<(String, Map), String> {
    let text = fs::read(file).map_err(|error| error.to_string());
    let map = text.and_then(|text| fitting(&text));
    Ok((name(file), map.map_err(|what| format!("{}: {what}", file.display()))?))
}

/// A file's name in the report: without folder and extension.
fn name(file: &Path) -> String {
    file.file_stem().unwrap_or_default().to_string_lossy().into_owned()
}

/// The map of a text, if the unit has room for it and it has a road to set.
fn fitting(text: &[u8]) -> Result<Map, String> {
    let map = text::parse(text).map_err(|fault| fault.to_string())?;
    if map.m() == 0 {
        return Err("no road, so none to set".to_string());
    }
    let pairs = order::pairs(&map);
    if pairs > MOST_PAIRS {
        return Err(format!("a unit has room for {MOST_PAIRS} pairs, and the map has {pairs}"));
    }
    Ok(map)
}

/// A line of the table: µs of the proved function and of others.
struct Line {
    step: String,
    proved: f64,
    plain: f64,
    areas: Option<f64>,
    go: Option<Go>,
}

impl Line {
    fn with_areas(step: &str, [proved, plain, areas]: [f64; 3]) -> Line {
        Line { step: step.to_string(), proved, plain, areas: Some(areas), go: None }
    }
}

/// What a go is measured beside: µs, and the mean numbers of junctions that are settled.
struct Go {
    dijkstra: f64,
    free: f64,
    count: f64,
    settled: f64,
}

/// A map and its lines of the table.
struct Measured {
    map: Map,
    pairs: usize,
    lines: Vec<Line>,
}

impl Measured {
    fn town(width: usize, height: usize) -> Measured {
        let map = maps::town(&mut Random::new(1), width, height, Streets::USUAL);
        eprintln!("a town of {} junctions ..", map.n());
        Measured::new(map)
    }

    fn file((name, map): (String, Map)) -> (String, Measured) {
        eprintln!("{name}, {} junctions ..", map.n());
        (name, Measured::new(map))
    }

    fn new(map: Map) -> Measured {
        let pairs = order::pairs(&map);
        let mut bench = Bench {
            map: &map,
            both: Both::prepare(&map, pairs).expect("room for the pairs"),
            random: Random::new(2),
            lines: Vec::new(),
        };
        bench.card();
        bench.preparing();
        bench.aim();
        bench.estimates();
        bench.set();
        bench.preview();
        bench.stops();
        for percent in [0, 1, 5] {
            bench.go(percent);
        }
        bench.barred_go(10);
        Measured { lines: bench.lines, map, pairs }
    }
}

/// The measurements on one map.
struct Bench<'a> {
    map: &'a Map,
    both: Both,
    random: Random,
    lines: Vec<Line>,
}

impl Bench<'_> {
    fn line(&mut self, step: &str, [proved, plain]: [f64; 2]) {
        self.lines.push(Line { step: step.to_string(), proved, plain, areas: None, go: None });
    }

    fn line_with_areas(&mut self, step: &str, times: [f64; 3]) {
        self.lines.push(Line::with_areas(step, times));
    }

    fn junctions(&mut self) -> Vec<u32> {
        (0..TRIPS).map(|_| self.random.below(self.map.n()) as u32).collect()
    }

    fn card(&mut self) {
        let (roads, order) = self.map.rows();
        let card = self.both.unit.card.clone();
        let mut areas = [vec![0; card.len()], vec![0; card.len()]];
        let [area, other] = &mut areas;
        // Often enough for the clock.
        let calls = 1 + 10_000 / self.map.n() as u32;
        let times = measure(
            1,
            [&mut |_| repeated(calls, || unit::read(black_box(&card))), &mut |_| {
                repeated(calls, || card::read(black_box(&card)))
            }],
        );
        self.line("read", times);
        let times = measure(
            1,
            [
                &mut |_| repeated(calls, || unit::write(black_box(&roads), &order, area)),
                &mut |_| repeated(calls, || card::write(black_box(&roads), &order, other)),
            ],
        );
        self.line("write", times);
        assert!(areas.iter().all(|area| *area == card), "another card is written");
    }

    fn preparing(&mut self) {
        let Both { unit, router, .. } = &mut self.both;
        let (card, room) = (unit.card.clone(), router.hierarchy.pairs());
        let times = measure(
            1,
            [&mut |_| timed(|| unit.prepare()), &mut |_| timed(|| Router::new(&card, room))],
        );
        self.line("prepare", times);
    }

    fn aim(&mut self) {
        let targets = self.junctions();
        let mut areas = self.both.unit.clone();
        let Both { unit, router, .. } = &mut self.both;
        let times = measure(
            TRIPS,
            [
                &mut |i| timed(|| unit.aim(targets[i])),
                &mut |i| timed(|| router.aim(targets[i])),
                &mut |i| timed(|| areas::aim(&mut areas, targets[i])),
            ],
        );
        assert!(areas == *unit, "the areas differ");
        self.line_with_areas("aim", times);
    }

    fn estimates(&mut self) {
        let (starts, targets) = (self.junctions(), self.junctions());
        let all = 0..self.map.n() as u32;
        let one = |i: usize| starts[i]..starts[i] + 1;
        let mut areas = self.both.unit.clone();
        let Both { unit, router, .. } = &mut self.both;
        let of_one = measure(
            TRIPS,
            [
                &mut |i| timed_estimates(unit, targets[i], one(i)),
                &mut |i| timed_estimates(router, targets[i], one(i)),
                &mut |i| timed_estimates_on_areas(&mut areas, targets[i], one(i)),
            ],
        );
        let of_all = measure(
            TRIPS,
            [
                &mut |i| timed_estimates(unit, targets[i], all.clone()),
                &mut |i| timed_estimates(router, targets[i], all.clone()),
                &mut |i| timed_estimates_on_areas(&mut areas, targets[i], all.clone()),
            ],
        );
        assert!(areas == *unit, "the areas differ");
        self.line_with_areas("one estimate after aim", of_one);
        self.line_with_areas("all n estimates after aim", of_all);
    }

    /// A thousand roads are set to the longest time and back, so that all is as it was.
    fn set(&mut self) {
        let road = |_| self.random.below(self.map.m()) as u32;
        let roads: Vec<u32> = (0..1_000).map(road).collect();
        let base = self.map.base();
        let mut areas = self.both.unit.clone();
        let Both { unit, router, .. } = &mut self.both;
        let times = measure(
            1,
            [
                &mut |_| timed_sets(|road, time| unit.set(road, time), &roads, &base),
                &mut |_| timed_sets(|road, time| router.set(road, time), &roads, &base),
                &mut |_| timed_sets(|road, time| areas::set(&mut areas, road, time), &roads, &base),
            ],
        );
        assert!(areas == *unit, "the areas differ");
        self.line_with_areas("set", times.map(|time| time / 2_000.0));
    }

    /// Previews of a trip, each with a road of its way taking ten times its base time: right after an aim, so
    /// with no estimate known, and again, with those known that it asks for.
    fn preview(&mut self) {
        let (starts, targets) = (self.junctions(), self.junctions());
        let trips = starts.into_iter().zip(targets);
        let asked: Vec<Outlook> =
            trips.map(|(start, target)| self.outlook(start, target)).collect();
        let mut areas = self.both.unit.clone();
        let Both { unit, router, .. } = &mut self.both;
        for asked in &asked {
            asked.answered(unit, router, &mut areas);
        }
        for (step, before) in [("preview", 0), ("preview again", 1)] {
            let times = measure(
                TRIPS,
                [
                    &mut |i| asked[i].previewed(unit, before).0,
                    &mut |i| asked[i].previewed(router, before).0,
                    &mut |i| asked[i].previewed_on_areas(&mut areas, before).0,
                ],
            );
            self.lines.push(Line::with_areas(step, times));
        }
    }

    /// A trip, and the middle road of its way, or any road where it has none.
    fn outlook(&mut self, start: u32, target: u32) -> Outlook {
        let unit = &mut self.both.unit;
        unit.aim(target).expect("a junction");
        let (mut route, mut log) = ([0; MOST_JUNCTIONS], [0; MOST_JUNCTIONS]);
        let trip = unit.go(CLASS, start, &mut route, &mut log);
        let roads = trip.map_or(0, |trip| trip.roads as usize);
        let road = match roads {
            0 => self.random.below(self.map.m()) as u32,
            _ => route[roads / 2],
        };
        let time = LONGEST.min(10 * self.map.roads[road as usize].base);
        Outlook { n: self.map.n(), road, time, start, target }
    }

    /// Lists of stops. Each leg aims for itself, so no estimate is known to it.
    fn stops(&mut self) {
        let lists: Vec<[u32; STOPS]> = (0..TRIPS).map(|_| self.list()).collect();
        let mut areas = self.both.unit.clone();
        let Both { unit, router, .. } = &mut self.both;
        for list in &lists {
            stopped(unit, router, &mut areas, list);
        }
        let [lent, plain, other] = &mut Lent::three(self.map.n());
        let times = measure(
            TRIPS,
            [
                &mut |i| timed(|| unit.stops(CLASS, &lists[i], &mut lent.route, &mut lent.log)),
                &mut |i| timed(|| router.stops(CLASS, &lists[i], &mut plain.route, &mut plain.log)),
                &mut |i| {
                    let (route, log) = (&mut other.route, &mut other.log);
                    timed(|| areas::stops(&mut areas, CLASS, &lists[i], route, log))
                },
            ],
        );
        self.line_with_areas("stops", times);
    }

    fn list(&mut self) -> [u32; STOPS] {
        array::from_fn(|_| self.random.below(self.map.n()) as u32)
    }

    /// Trips with so many percent of the roads changed.
    fn go(&mut self, percent: usize) {
        let base = (0..).zip(self.map.base());
        for (road, time) in base.chain(traffic::changes(&mut self.random, self.map, percent)) {
            self.both.unit.set(road, time).expect("an allowed time");
            self.both.router.set(road, time).expect("an allowed time");
        }
        self.trips(&format!("{percent} % of roads changed"));
    }

    /// Trips at base times, on a card with a byte for each road, so many percent of which bar the class.
    fn barred_go(&mut self, percent: usize) {
        let map = barred(&mut self.random, self.map, percent);
        let both = Both::prepare(&map, order::pairs(&map)).expect("room for the pairs");
        let mut bench = Bench { map: &map, both, random: Random::new(3), lines: Vec::new() };
        bench.trips(&format!("{percent} % of roads barred"));
        self.lines.append(&mut bench.lines);
    }

    /// Trips right after an aim, so with no estimate known, and again, with those known that they ask for.
    fn trips(&mut self, roads: &str) {
        let (starts, targets) = (self.junctions(), self.junctions());
        let (graph, base) = (Graph::new(self.map), self.map.base());
        let least = |target| dijkstra::to(&graph, &base, target);
        let potentials: Vec<Vec<Time>> = targets.iter().map(|&target| least(target)).collect();
        let Both { unit, router, .. } = &mut self.both;
        let live = self.map.met_by(CLASS, &router.live);
        let dijkstra = |i: usize| dijkstra::between(&graph, &live, starts[i], targets[i]);
        let free = |i: usize| {
            let live = |road: u32| live[road as usize];
            search(&graph, live, starts[i], targets[i], |at| potentials[i][at as usize])
        };

        let (mut count, mut settled) = (0, 0);
        for i in 0..TRIPS {
            let Search { log, found, .. } = free(i);
            let (total, junctions) = dijkstra(i);
            assert!(logged(unit, starts[i], targets[i]) == log, "the logs differ");
            assert_eq!(found.map_or(NONE, |found| found.0), total);
            count += log.len();
            settled += junctions;
        }
        let [count, settled] = [count, settled].map(|sum| sum as f64 / TRIPS as f64);
        for (name, before) in [("go", 0), ("again", 1)] {
            let [proved, plain, dijkstra, free] = measure(
                TRIPS,
                [
                    &mut |i| timed_go(unit, starts[i], targets[i], before),
                    &mut |i| timed_go(router, starts[i], targets[i], before),
                    &mut |i| timed_again(|| dijkstra(i)),
                    &mut |i| timed_again(|| free(i)),
                ],
            );
            let step = format!("{name}, {roads}");
            let go = Some(Go { dijkstra, free, count, settled });
            self.lines.push(Line { step, proved, plain, areas: None, go });
        }
    }
}

/// A preview after an aim.
struct Outlook {
    n: usize,
    road: u32,
    time: Time,
    start: u32,
    target: u32,
}

impl Outlook {
    /// Its time and its answer, after so many others like it.
    fn previewed(&self, unit: &mut impl Calls, before: usize) -> (Duration, Option<Previewed>) {
        let &Outlook { road, time, start, target, .. } = self;
        unit.aim(target).expect("a junction");
        self.timed(before, |work| unit.preview(CLASS, road, time, start, work))
    }

    /// The answer, which is the same by all three.
    fn answered(
        &self,
        unit: &mut Unit,
        router: &mut Router,
        areas: &mut Unit,
    ) -> Option<Previewed> {
        let answer = self.previewed(unit, 0).1;
        assert_eq!(answer, self.previewed(router, 0).1, "proved (left), plain (right)");
        assert_eq!(answer, self.previewed_on_areas(areas, 0).1, "proved (left), areas (right)");
        assert!(areas == unit, "the areas differ");
        answer
    }

    fn previewed_on_areas(&self, unit: &mut Unit, before: usize) -> (Duration, Option<Previewed>) {
        let &Outlook { road, time, start, target, .. } = self;
        areas::aim(unit, target).expect("a junction");
        self.timed(before, |work| areas::preview(unit, CLASS, road, time, start, work))
    }

    fn timed(
        &self,
        before: usize,
        mut preview: impl FnMut(&mut [Time]) -> Result<Previewed, Refusal>,
    ) -> (Duration, Option<Previewed>) {
        let mut work = [0; 2 * MOST_JUNCTIONS];
        let work = &mut work[..2 * self.n];
        for _ in 0..before {
            let _ = preview(work);
        }
        let start = Instant::now();
        let answer = black_box(preview(work));
        (start.elapsed(), answer.ok())
    }
}

/// What is lent to a list of stops.
#[derive(Clone, PartialEq, Eq)]
struct Lent {
    route: Vec<u32>,
    log: Vec<u32>,
}

impl Lent {
    fn three(n: usize) -> [Lent; 3] {
        [(); 3].map(|()| Lent { route: vec![0; STOPS * n], log: vec![0; n] })
    }
}

/// The answer to a list of stops, which is the same by all three, as are roads, log and areas.
fn stopped(
    unit: &mut Unit,
    router: &mut Router,
    areas: &mut Unit,
    stops: &[u32],
) -> Option<Stopped> {
    let [mut lent, mut plain, mut other] = Lent::three(unit.ranks.len());
    let answer = unit.stops(CLASS, stops, &mut lent.route, &mut lent.log);
    let by_router = router.stops(CLASS, stops, &mut plain.route, &mut plain.log);
    assert_eq!(answer, by_router, "proved (left), plain (right)");
    let by_areas = areas::stops(areas, CLASS, stops, &mut other.route, &mut other.log);
    assert_eq!(answer, by_areas, "proved (left), areas (right)");
    assert!(lent == plain && lent == other, "what is lent differs");
    assert!(areas == unit, "the areas differ");
    answer.ok()
}

/// A map of which so many percent of the roads, and at least one, bar the class, and let the others in.
fn barred(random: &mut Random, map: &Map, percent: usize) -> Map {
    let mut map = map.clone();
    let mut roads: Vec<usize> = (0..map.m()).collect();
    random.shuffle(&mut roads);
    for &road in &roads[..(map.m() * percent / 100).max(1)] {
        map.roads[road].access = !(1 << CLASS);
    }
    map
}

/// The estimates of some junctions, right after an aim.
fn timed_estimates(
    unit: &mut impl Calls,
    target: u32,
    junctions: impl Iterator<Item = u32>,
) -> Duration {
    unit.aim(target).expect("a junction");
    timed(|| {
        for junction in junctions {
            black_box(unit.estimate(junction)).expect("a target");
        }
    })
}

fn timed_estimates_on_areas(
    unit: &mut Unit,
    target: u32,
    junctions: impl Iterator<Item = u32>,
) -> Duration {
    areas::aim(unit, target).expect("a junction");
    timed(|| {
        for junction in junctions {
            black_box(areas::estimate(unit, junction)).expect("a target");
        }
    })
}

fn timed_sets(
    mut set: impl FnMut(u32, Time) -> Result<(), Refusal>,
    roads: &[u32],
    base: &[Time],
) -> Duration {
    timed(|| {
        for &road in roads {
            set(road, LONGEST).expect("an allowed time");
        }
        for &road in roads {
            set(road, base[road as usize]).expect("an allowed time");
        }
    })
}

/// A go after an aim and so many others like it.
fn timed_go(unit: &mut impl Calls, start: u32, target: u32, before: usize) -> Duration {
    unit.aim(target).expect("a junction");
    let (mut route, mut log) = ([0; MOST_JUNCTIONS], [0; MOST_JUNCTIONS]);
    for _ in 0..before {
        let _ = unit.go(CLASS, start, &mut route, &mut log);
    }
    timed(|| unit.go(CLASS, start, &mut route, &mut log))
}

/// The log of a go.
fn logged(unit: &mut Unit, start: u32, target: u32) -> Vec<u32> {
    unit.aim(target).expect("a junction");
    let (mut route, mut log) = ([0; MOST_JUNCTIONS], [0; MOST_JUNCTIONS]);
    let count = match unit.go(CLASS, start, &mut route, &mut log) {
        Ok(trip) => trip.count,
        Err(Refusal::NoPath(count)) => count,
        Err(refusal) => panic!("{refusal:?}"),
    };
    log[..count as usize].to_vec()
}

fn timed<T>(function: impl FnOnce() -> T) -> Duration {
    let start = Instant::now();
    black_box(function());
    start.elapsed()
}

/// The time of a second call: what it reads lies at hand, as it does for a go after its aim.
fn timed_again<T>(function: impl Fn() -> T) -> Duration {
    black_box(function());
    timed(function)
}

/// The time of one call, out of so many.
fn repeated<T>(calls: u32, mut function: impl FnMut() -> T) -> Duration {
    timed(|| (0..calls).for_each(|_| drop(black_box(function())))) / calls
}

/// µs that some functions take for a case: of each case the least of all runs, the functions in turn.
fn measure<const N: usize>(
    cases: usize,
    mut functions: [&mut dyn FnMut(usize) -> Duration; N],
) -> [f64; N] {
    let mut least = vec![[Duration::MAX; N]; cases];
    let start = Instant::now();
    let mut rounds = 0;
    while rounds < ROUNDS || start.elapsed() < BUDGET {
        for (case, least) in least.iter_mut().enumerate() {
            for (function, least) in functions.iter_mut().zip(least) {
                *least = function(case).min(*least);
            }
        }
        rounds += 1;
    }
    array::from_fn(|i| {
        let sum: Duration = least.iter().map(|least| least[i]).sum();
        sum.as_secs_f64() * 1e6 / cases as f64
    })
}

struct Report {
    towns: [Measured; TOWNS.len()],
    /// Each with its name.
    files: Vec<(String, Measured)>,
}

const ABOUT: &str = "\
The proved unit beside plain Rust, in towns of 200 to 4,096 junctions: grids with missing and one-way streets, in least-degree
orders. Times of roads are 64-bit words in all of these programs alike (A7); the unit tests of each sum that it fits before it adds, the
others add. What is told are µs a call; a ratio is the unit's time divided by the one before it, both of this run: the functions are called in
turn, and of each case the least of many runs counts. Made by

    (cd crates/unit_c && rt lib) && cargo run --release --offline --manifest-path rust/Cargo.toml --target-dir target/cargo --bin bench -- --write

A map file that is named behind it, text as make-card reads it, is measured after the towns, in the order that it gives or, if it gives
none, in a least-degree one, and has a table of its own at the end, under its name.

- **Rust**: the same step as one would write it in Rust (`rust/src/router.rs`), over structures of its own. It lists the roads by tail in
  `prepare`, as the unit does; the rest the unit's areas have no place for: heads beside these roads, the roads by head, where the pairs of
  each rank begin, a list of the lower ranks that a row has pairs with, a binary heap.
- **areas**: the same step in Rust over the unit's areas and nothing else (`rust/src/areas.rs`): two ranks of each record in one
  slice, where a bisection finds those of a rank, and its two times in another; the order read from the card. With the arguments, the answer
  and the questions of the unit's function: a header that goes in by value and comes back, so that a call waits for the one before; ten
  slices; question 9 on their lengths. Of a `set`, which stores one word, that is nearly all; the methods under *Rust* are inlined and have none of it. Both
  hand the header's words back as the header file says.
- **Dijkstra**: Dijkstra's algorithm with a binary heap, which finds the total alone.
- **A\\***: A\\* with each junction's least base total to the target handed to it free. It logs what the unit logs.
- **go**: 20 trips between any two junctions, each right after an aim, so with no estimate known; **again**: the same trips once more.
  Of the changed roads, half are closed and half delayed to two to ten times their base time. All are of class 0. In the lines with **roads
  barred** the card has a byte for each road, and a tenth of the roads bar that class; unit and Rust look at the byte of each road that they
  come to, while Dijkstra's algorithm and A\\* are handed these roads as closed ones.
- **preview**: 20 trips in the same way, no road changed, each with a road from the middle of its way previewed at ten times its base time, so
  two searches; **preview again**: the same once more. Under *areas* in Rust too over the unit's areas, the work area and a binary heap.
- **stops**: 20 lists of 8 stops between any two junctions, no road changed, so 7 aims and 7 goes each. Under *areas* likewise.
- **settled**: how many junctions the unit logs in a trip, and how many Dijkstra's algorithm settles; means.

";

/// A profile, taken by hand; to be taken again when the search changes.
const GOES_INTO: &str = "
What the time of a second go goes into: a profile (perf, 2026-11-17), in percent, on Liechtenstein with 0 % and 5 % of the roads changed,
then in the towns of 2,000 at 0 % and of 4,096 at 5 %.

- Filling the room and elapsed: 11, 5; 18, 12.
- The first reading of a junction's group, roads, live times, heads and estimates, in `ask`: 22, 27; 24, 33.
- Log, elapsed, offers and labels: 23, 27; 19, 23.
- Climbs in the queue: of candidates 22, 22; 21, 18, of logged junctions 10, 15; 8, 8. Times looked up at equal keys and parts: at most 0.2.
- The way back: 10, 3; 8, 5. The questions: 1, 1; 2, 1.

Of a first go on Liechtenstein the estimates that it asks for are 58 and 54. Jumps at pairs of equal keys, often guessed wrong, were a third
of a second go there at 5 % (34 µs, then 22 µs), until the words of the queue had a part of the time (DECISIONS, the next candidate).
";

/// Counts, taken by hand; to be taken again when the questions of a set change.
const SET_GOES_INTO: &str = "
What a `set` goes into: instructions a call (callgrind, 2026-11-17, at landing 16, before A7's ninth area; all sets of a round in the town of
200; the same in that of 4,096).

|  | unit, landing 15 | unit | Rust on the areas |
|:--|--:|--:|--:|
| The caller lays out header and nine slices: `Unit::set`, `areas::set` | 128 | 128 | 114 |
| `unit_set`, `set_on` | 100 | 101 | 68 |
| What these call: `fits`; `usable`; `fits` | 112 | 54 | 108 |
| The caller reads the answer: `hand_back`, `done` | 76 | 76 | 76 |
| All | 416 | 359 | 366 |

- Landing 15's `fits` was lent the lengths in memory and made a flag of each of 21 tests. Now `unit_set` compares the lengths where they are
  handed to it, each with a jump, and calls `usable` for what the card's table names.
- Past 9, the body of the roads is not looked up again in full: 16 instructions fewer in `unit_set`.
- The number of sections, for which up to six look-ups ask, was loaded once already: LLVM joins the look-ups. Handed on from `named`, tried on
  LLVM's input alone, it made 77 or 81 of 79 instructions by the form of `named`, and was left as it is.
- The twin's caller hands it three pointers fewer: LLVM leaves out those of areas that it does not read, which it cannot for an export.
";

/// Two runs of landing 17, kept: the tree before it and the tree with it.
const A7_COSTS: &str = "
What A7's width costs: microseconds of the unit before A7 (landing 16) and since, in two runs one after the other on one machine.

| step | 200 | 1,000 | 4,096 | Liechtenstein |
|:--|--:|--:|--:|--:|
| read | 0.548 to 0.548 | 2.62 to 2.62 | 10.8 to 10.8 | 4.81 to 4.81 |
| write | 0.660 to 0.669 | 3.40 to 3.40 | 14.2 to 14.1 | 6.22 to 6.26 |
| prepare | 21.3 to 22.9 | 373 to 394 | 3336 to 3450 | 525 to 548 |
| aim | 0.667 to 0.720 | 4.61 to 4.95 | 30.6 to 32.6 | 3.30 to 3.54 |
| one estimate after aim | 0.810 to 0.861 | 3.18 to 3.49 | 19.4 to 22.1 | 1.23 to 1.31 |
| all n estimates after aim | 17.8 to 20.3 | 99.4 to 111 | 530 to 582 | 208 to 231 |
| set | 0.0305 to 0.0320 | 0.0305 to 0.0321 | 0.0305 to 0.0321 | 0.0305 to 0.0321 |
| preview | 3.90 to 4.00 | 14.1 to 15.0 | 67.3 to 73.4 | 28.5 to 29.7 |
| preview again | 1.80 to 1.86 | 3.82 to 4.04 | 10.4 to 11.1 | 11.8 to 12.4 |
| stops | 23.4 to 24.5 | 103 to 110 | 561 to 631 | 126 to 131 |
| go, 0 % of roads changed | 2.97 to 3.03 | 10.8 to 11.5 | 51.4 to 56.5 | 16.3 to 16.9 |
| again, 0 % of roads changed | 0.890 to 0.929 | 1.84 to 1.97 | 4.35 to 4.70 | 5.03 to 5.23 |
| go, 1 % of roads changed | 2.94 to 3.03 | 12.0 to 12.8 | 71.3 to 73.4 | 21.1 to 21.9 |
| again, 1 % of roads changed | 0.926 to 0.963 | 2.23 to 2.38 | 7.86 to 8.33 | 6.91 to 7.16 |
| go, 5 % of roads changed | 4.33 to 4.46 | 14.6 to 15.3 | 67.4 to 72.4 | 55.0 to 56.7 |
| again, 5 % of roads changed | 1.90 to 2.00 | 3.25 to 3.44 | 9.74 to 10.2 | 22.4 to 23.4 |
| go, 10 % of roads barred | 2.84 to 2.99 | 20.7 to 21.5 | 118 to 123 | 73.2 to 74.8 |
| again, 10 % of roads barred | 0.898 to 0.934 | 5.21 to 5.39 | 25.8 to 26.2 | 31.6 to 32.3 |
";

/// The largest town's ratios as earlier landings left them, in the columns of `Report::landings`.
#[rustfmt::skip]
const BEFORE: [[&str; 8]; 7] = [
    ["8, before A1", "1.52", "2.65 (3.90)", "1.98 (2.84)", "1.57 (2.33)", "", "", ""],
    ["9, A1", "1.53", "0.892 (1.35)", "0.853 (1.30)", "0.833 (1.26)", "", "", ""],
    ["10, A2", "1.43", "0.889 (1.37)", "0.857 (1.25)", "0.775 (1.06)", "", "1.16 (1.20)", ""],
    ["11, A3", "1.47", "0.910 (1.48)", "0.790 (1.19)", "0.803 (1.16)", "", "1.14 (1.18)", "1.03 (0.819)"],
    ["12, A4", "1.54", "0.857 (1.27)", "0.820 (1.20)", "0.818 (1.19)", "", "1.05 (1.08)", "0.957 (0.758)"],
    ["13, A5", "1.57", "0.976 (1.45)", "1.00 (1.53)", "1.03 (1.56)", "", "1.30 (1.33)", "0.962 (0.764)"],
    ["15, A6", "1.57", "0.895 (1.31)", "0.824 (1.25)", "0.815 (1.21)", "0.801 (1.12)", "1.17 (1.21)", "0.954 (0.755)"],
];

impl Display for Report {
    fn fmt(&self, f: &mut Formatter) -> fmt::Result {
        let processors = thread::available_parallelism().map_or(1, usize::from);
        let (arch, os) = (env::consts::ARCH, env::consts::OS);
        write!(f, "# Benchmark\n\n{}; {arch}, {os}, {processors} processors.\n\n", date())?;
        f.write_str(ABOUT)?;
        Report::table(f, &self.towns)?;
        self.growth(f)?;
        f.write_str(GOES_INTO)?;
        f.write_str(SET_GOES_INTO)?;
        f.write_str(A7_COSTS)?;
        self.landings(f)?;
        Report::memory(f)?;
        for (name, file) in &self.files {
            let (n, m, pairs) = (file.map.n(), file.map.m(), file.pairs);
            write!(f, "\n## {name}\n\n{n} junctions, {m} roads, {pairs} pairs.\n\n")?;
            Report::table(f, slice::from_ref(file))?;
        }
        Ok(())
    }
}

impl Report {
    fn table(f: &mut Formatter, maps: &[Measured]) -> fmt::Result {
        let heads = [
            "junctions",
            "step",
            "unit",
            "Rust",
            "ratio",
            "areas",
            "ratio",
            "Dijkstra",
            "ratio",
            "A\\*",
            "ratio",
            "settled",
        ];
        row(f, &heads)?;
        f.write_str("|--:|:--|--:|--:|--:|--:|--:|--:|--:|--:|--:|--:|\n")?;
        for Measured { map, lines, .. } in maps {
            for line in lines {
                let mut cells = vec![map.n().to_string(), line.step.clone()];
                let beside = |time: f64| [digits(time), digits(line.proved / time)];
                cells.push(digits(line.proved));
                cells.extend(beside(line.plain));
                cells.extend(line.areas.map_or([String::new(), String::new()], beside));
                if let Some(go) = &line.go {
                    cells.extend(beside(go.dijkstra));
                    cells.extend(beside(go.free));
                    cells.push(format!("{:.0} : {:.0}", go.count, go.settled));
                }
                cells.resize(heads.len(), String::new());
                row(f, &cells)?;
            }
        }
        Ok(())
    }

    fn growth(&self, f: &mut Formatter) -> fmt::Result {
        let [_, _, small, _, large] = &self.towns;
        let (from, to) = (small.map.n(), large.map.n());
        write!(f, "\nHow many times as long from {from} to {to} junctions:\n\n")?;
        row(f, &["", "step", "unit", "Rust"])?;
        f.write_str("|--:|:--|--:|--:|\n")?;
        for (small, large) in small.lines.iter().zip(&large.lines) {
            let proved = digits(large.proved / small.proved);
            let plain = digits(large.plain / small.plain);
            row(f, &["", &small.step, &proved, &plain])?;
        }
        f.write_str("\nThe larger town has")?;
        for (what, small, large, end) in [
            ("junctions", from, to, ","),
            ("roads", small.map.m(), large.map.m(), " and"),
            ("pairs", small.pairs, large.pairs, ".\n"),
        ] {
            write!(f, " {} times the {what} ({large}){end}", digits(large as f64 / small as f64))?;
        }
        Ok(())
    }
}

impl Report {
    /// The largest town's ratios, under those of the landings before.
    fn landings(&self, f: &mut Formatter) -> fmt::Result {
        let large = &self.towns[TOWNS.len() - 1];
        let ratio = |step: &str| {
            let Some(line) = large.lines.iter().find(|line| line.step == step) else {
                return String::new();
            };
            let beside = line.go.as_ref().map(|go| go.free).or(line.areas);
            let beside = beside.map(|time| format!(" ({})", digits(line.proved / time)));
            digits(line.proved / line.plain) + &beside.unwrap_or_default()
        };
        let n = large.map.n();
        write!(f, "\nRatios at {n} junctions by landing, to Rust and in brackets to A\\*, ")?;
        f.write_str("of a preview (A2) and a list of stops (A3) to Rust on the areas:\n\n")?;
        f.write_str("| landing | prepare | again, 0 % | 1 % | 5 % ")?;
        f.write_str("| 10 % barred | preview again | stops |\n")?;
        f.write_str("|:--|--:|--:|--:|--:|--:|--:|--:|\n")?;
        for cells in BEFORE {
            writeln!(f, "| {} |", cells.join(" | "))?;
        }
        let again = ["0 % of roads changed", "1 % of roads changed", "5 % of roads changed"];
        let again = again.into_iter().chain(["10 % of roads barred"]);
        let again: Vec<String> = again.map(|roads| ratio(&format!("again, {roads}"))).collect();
        let [prepare, preview, stops] = ["prepare", "preview again", "stops"].map(ratio);
        writeln!(f, "| this run | {prepare} | {} | {preview} | {stops} |", again.join(" | "))
    }

    /// What the areas of the largest unit take, and what they took before A7.
    fn memory(f: &mut Formatter) -> fmt::Result {
        let (n, m) = (MOST_JUNCTIONS, MOST_ROADS);
        f.write_str("\nBytes of the areas of a unit with room for all that a card may have (4,096 junctions, 16,384 roads, ")?;
        f.write_str("65,536 pairs), before A7\nand since. Until then all words had 32 bits, and a pair's four stood in one area.\n\n")?;
        f.write_str("| area | words | bits | bytes | before A7 |\n|:--|--:|--:|--:|--:|\n")?;
        let unit = Unit::new(&[], n, m, MOST_PAIRS);
        let work =
            LentAreas::of(Call::Preview { class: 0, road: 0, time: 0, start: 0, work: 2 * n });
        let mut sums = [0; 2];
        let areas = unit.areas().map(|(name, area)| (name, area.len(), area.width()));
        let lent = ("work area of a preview", work.work.len(), size_of::<Time>());
        for (i, (name, len, width)) in areas.into_iter().chain([lent]).enumerate() {
            let before = match name {
                "pairs" => 4 * 2 * len,
                "pair times" => 0,
                _ => 4 * len,
            };
            let bytes = width * len;
            if i == areas.len() {
                let [now, then] = sums.map(grouped);
                writeln!(f, "| the unit's | | | {now} | {then} |")?;
            }
            let [words, now, then] = [len, bytes, before].map(grouped);
            writeln!(f, "| {name} | {words} | {} | {now} | {then} |", 8 * width)?;
            sums = [sums[0] + bytes, sums[1] + before];
        }
        Ok(())
    }
}

/// A number with a comma before each three digits.
fn grouped(number: usize) -> String {
    let digits = number.to_string();
    let (mut text, len) = (String::new(), digits.len());
    for (i, digit) in digits.chars().enumerate() {
        if i > 0 && (len - i) % 3 == 0 {
            text.push(',');
        }
        text.push(digit);
    }
    text
}

/// A row of a table: a number, a step and numbers, the last of them two.
fn row(f: &mut Formatter, cells: &[impl Display]) -> fmt::Result {
    for (i, cell) in cells.iter().enumerate() {
        match i {
            0 | 11 => write!(f, "| {cell:>10} ")?,
            1 => write!(f, "| {cell:<27} ")?,
            _ => write!(f, "| {cell:>8} ")?,
        }
    }
    f.write_str("|\n")
}

/// A number in three digits, or more before the point.
fn digits(number: f64) -> String {
    let places = (2.0 - number.log10().floor()).clamp(0.0, 6.0) as usize;
    format!("{number:.places$}")
}

/// Today, by the Gregorian calendar.
fn date() -> String {
    let now = SystemTime::now().duration_since(UNIX_EPOCH).expect("a clock after 1970");
    let mut day = now.as_secs() / 86_400;
    let leap = |year: u64| {
        let leap =
            year.is_multiple_of(4) && (!year.is_multiple_of(100) || year.is_multiple_of(400));
        u64::from(leap)
    };
    let mut year = 1970;
    while day >= 365 + leap(year) {
        day -= 365 + leap(year);
        year += 1;
    }
    let mut month = 1;
    for days in [31, 28 + leap(year), 31, 30, 31, 30, 31, 31, 30, 31, 30] {
        if day < days {
            break;
        }
        day -= days;
        month += 1;
    }
    format!("{year}-{month:02}-{:02}", day + 1)
}

#[cfg(test)]
mod tests {
    use super::*;

    fn asked(arguments: &[&str]) -> Result<Asked, String> {
        Asked::of(arguments.iter().map(OsString::from))
    }

    #[test]
    fn options_and_files_in_any_order() {
        let want = |write, help, files: &[&str]| {
            Ok(Asked { write, help, files: files.iter().map(PathBuf::from).collect() })
        };
        assert_eq!(asked(&[]), want(false, false, &[]));
        assert_eq!(asked(&["--write"]), want(true, false, &[]));
        assert_eq!(asked(&["--help"]), want(false, true, &[]));
        assert_eq!(asked(&["b.map", "a.map"]), want(false, false, &["b.map", "a.map"]));
        for arguments in [["--write", "a", "b"], ["a", "--write", "b"], ["a", "b", "--write"]] {
            assert_eq!(asked(&arguments), want(true, false, &["a", "b"]));
        }
        assert_eq!(asked(&["./--write"]), want(false, false, &["./--write"]));
    }

    #[test]
    fn other_options() {
        for other in ["--writes", "--Write", "-w", "-", "--"] {
            let message = format!("{other} is no option; --write and --help are");
            for arguments in [[other, "a"], ["a", other], ["--write", other], ["--help", other]] {
                assert_eq!(asked(&arguments), Err(message.clone()));
            }
        }
    }

    #[test]
    fn names() {
        for (file, want) in [
            ("my.map", "my"),
            ("my", "my"),
            ("/home/me/maps/my.map", "my"),
            ("../my.small.map", "my.small"),
        ] {
            assert_eq!(name(Path::new(file)), want);
        }
    }

    #[test]
    fn maps_that_fit() {
        let roads = b"road 0 1 5\nroad 2 1 5\nroad 2 0 5\nroad 3 0 5\n";
        let map = fitting(roads).unwrap();
        assert_eq!((map.n(), map.m()), (4, 4));
        assert_eq!(map.order, order::least_degree(4, &map.roads), "no order of its own");
        let map = fitting(&[&roads[..], b"order 0 1 2 3"].concat()).unwrap();
        assert_eq!(map.order, [0, 1, 2, 3], "its own order");

        // In this order every two junctions are a pair.
        let star = |n| {
            let mut map = maps::star(n);
            map.order.reverse();
            text::print(&map)
        };
        assert_eq!(fitting(star(362).as_bytes()).map(|map| order::pairs(&map)), Ok(65_341));
        let message = "a unit has room for 65536 pairs, and the map has 65703";
        assert_eq!(fitting(star(363).as_bytes()), Err(message.to_string()));
        for (text, message) in [
            ("order 0 1", "no road, so none to set"),
            ("", "no road and no order, so no junction"),
            ("road 0 1 5\nroad 1 0", "line 2: a road has 3 numbers: TAIL HEAD TENTHS, not 2"),
            ("road 0 4096 5", "line 1: junction 4096 is not below 4096"),
        ] {
            assert_eq!(fitting(text.as_bytes()), Err(message.to_string()), "{text:?}");
        }
        let many = "road 0 1 5\n".repeat(MOST_ROADS + 1);
        let message = "line 16385: a map has no more than 16384 roads";
        assert_eq!(fitting(many.as_bytes()), Err(message.to_string()));
    }

    /// What is previewed delays the trip for the most part, and all three answer alike.
    #[test]
    fn outlooks() {
        let map = maps::town(&mut Random::new(1), 20, 25, Streets::USUAL);
        let both = Both::prepare(&map, order::pairs(&map)).unwrap();
        let mut bench = Bench { map: &map, both, random: Random::new(2), lines: Vec::new() };
        let mut longer = 0;
        for (start, target) in bench.junctions().into_iter().zip(bench.junctions()) {
            let asked = bench.outlook(start, target);
            let mut areas = bench.both.unit.clone();
            let Both { unit, router, .. } = &mut bench.both;
            let answer = asked.answered(unit, router, &mut areas);
            longer += answer.unwrap().change.is_some_and(|change| change > 0) as usize;
        }
        assert!(longer > TRIPS / 2, "{longer} of {TRIPS}");
    }

    /// Most lists lead all the way, and all three answer alike.
    #[test]
    fn lists_of_stops() {
        let map = maps::town(&mut Random::new(1), 20, 25, Streets::USUAL);
        let both = Both::prepare(&map, order::pairs(&map)).unwrap();
        let mut bench = Bench { map: &map, both, random: Random::new(2), lines: Vec::new() };
        let mut areas = bench.both.unit.clone();
        let mut found = 0;
        for _ in 0..TRIPS {
            let list = bench.list();
            let Both { unit, router, .. } = &mut bench.both;
            found += stopped(unit, router, &mut areas, &list).is_some() as usize;
        }
        assert!(found > TRIPS / 2, "{found} of {TRIPS}");
    }

    /// A tenth of the roads bar the class, and no other; with them some trips are longer, and all answer alike.
    #[test]
    fn barred_roads() {
        let map = maps::town(&mut Random::new(1), 20, 25, Streets::USUAL);
        let barred = barred(&mut Random::new(2), &map, 10);
        let bars = |class| barred.roads.iter().filter(|road| !road.admits(class)).count();
        assert_eq!((bars(CLASS), bars(7)), (map.m() / 10, 0));
        let [both, with] =
            [&map, &barred].map(|map| Both::prepare(map, order::pairs(map)).unwrap());
        assert_eq!(with.unit.card.len(), card::len_with_access(map.n(), map.m()));
        let mut longer = 0;
        for target in 0..TRIPS as u32 {
            let [direct, round] = [both.clone(), with.clone()].map(|mut both| {
                let go = Call::Go { class: CLASS, start: 400, route: map.n(), log: map.n() };
                both.call(Call::Aim { junction: target });
                both.call(go).answer
            });
            longer += (direct != round) as usize;
        }
        assert!(longer > TRIPS / 3, "{longer} of {TRIPS}");
    }

    /// The landings' table has a column for each step of it, one for previews and one for lists of stops.
    #[test]
    fn landings_in_the_report() {
        let steps = ["prepare", "again, 0 % of roads changed", "preview again", "stops"];
        let towns = TOWNS.map(|(width, _)| {
            let lines = steps.map(|step| Line::with_areas(step, [3.0, 2.0, 6.0])).into();
            Measured { map: maps::line(width), pairs: width - 1, lines }
        });
        let report = Report { towns, files: vec![] }.to_string();
        let (_, table) = report.split_once("by landing").unwrap();
        let (table, _) = table.split_once("\nBytes of the areas").unwrap();
        let rows: Vec<&str> = table.lines().filter(|line| line.starts_with('|')).collect();
        let columns = rows.iter().map(|row| row.matches('|').count());
        assert_eq!(columns.collect::<Vec<_>>(), [9; 3 + BEFORE.len()], "{table}");
        let last =
            "| this run | 1.50 (0.500) | 1.50 (0.500) |  |  |  | 1.50 (0.500) | 1.50 (0.500) |";
        assert_eq!(rows.last(), Some(&last));
    }

    /// 64-bit words for times, and 32-bit ones for all else; before A7 all had 32 bits.
    #[test]
    fn memory_in_the_report() {
        struct Memory;
        impl Display for Memory {
            fn fmt(&self, f: &mut Formatter) -> fmt::Result {
                Report::memory(f)
            }
        }
        let table = Memory.to_string();
        let rows: Vec<&str> = table.lines().filter(|line| line.starts_with('|')).skip(2).collect();
        let want = [
            "| ranks | 4,096 | 32 | 16,384 | 16,384 |",
            "| pairs | 131,072 | 32 | 524,288 | 1,048,576 |",
            "| pair times | 131,072 | 64 | 1,048,576 | 0 |",
            "| live times | 16,384 | 64 | 131,072 | 65,536 |",
            "| down totals | 4,096 | 64 | 32,768 | 16,384 |",
            "| estimates | 4,096 | 64 | 32,768 | 16,384 |",
            "| elapsed | 4,096 | 64 | 32,768 | 16,384 |",
            "| leaving | 16,384 | 32 | 65,536 | 65,536 |",
            "| groups | 4,097 | 32 | 16,388 | 16,388 |",
            "| the unit's | | | 1,900,548 | 1,261,572 |",
            "| work area of a preview | 8,192 | 64 | 65,536 | 32,768 |",
        ];
        assert_eq!(rows, want);
    }

    /// Files come after the towns and the growth, each with its name once and its own rows.
    #[test]
    fn files_in_the_report() {
        let measured = |n, step: &str| {
            let (step, map) = (step.to_string(), maps::line(n));
            let lines = vec![Line { step, proved: 3.0, plain: 2.0, areas: None, go: None }];
            Measured { map, pairs: n - 1, lines }
        };
        let towns = || [10, 20, 30, 40, 50].map(|n| measured(n, "in a town"));
        let printed = |files| {
            let report = Report { towns: towns(), files }.to_string();
            report.split_once(ABOUT).unwrap().1.to_string()
        };
        let files = [(7, "one"), (60, "other")];
        let files = Vec::from(files.map(|(n, name)| (name.to_string(), measured(n, "on a file"))));
        let (alone, report) = (printed(vec![]), printed(files));

        let rest = report.strip_prefix(&alone).expect("towns and growth as without files");
        let found: Vec<_> = rest.lines().filter(|line| line.starts_with("## ")).collect();
        assert_eq!(found, ["## one", "## other"]);
        let (one, other) = rest.split_once("## other").unwrap();
        for (table, n, sizes) in [
            (one, "7", "\n7 junctions, 12 roads, 6 pairs.\n"),
            (other, "60", "\n60 junctions, 118 roads, 59 pairs.\n"),
        ] {
            assert!(table.contains(sizes), "{table}");
            let rows: Vec<Vec<_>> = table
                .lines()
                .filter(|line| line.contains("on a file"))
                .map(|line| line.split('|').map(str::trim).collect())
                .collect();
            assert_eq!(rows.len(), 1, "{table}");
            assert_eq!(rows[0][1..6], [n, "on a file", "3.00", "2.00", "1.50"]);
        }
    }
}

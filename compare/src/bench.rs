//! Work to be counted and timed: prepared scripts, put to one side again and again.

use crate::generate::{Branch, Draft, State};
use crate::plain::books::Windows;
use crate::plain::part::{self, Accepted, Kind as Side};
use crate::plain::session::{Event, Session};
use crate::plain::{self, read};
use crate::proved;
use crate::random::Random;
use crate::script::{Call, Case, Kind};
use std::hint::black_box;
use std::time::{Duration, Instant};

const ANY: u8 = 255;
/// The calls of the shorter script of a couple; the longer has twice as many.
const CALLS: usize = 2000;

/// A figure of the table: what one unit costs is the cost of `top` less that of `base`, divided by `units`.
pub struct Figure {
    pub name: &'static str,
    pub top: &'static str,
    pub base: Option<&'static str>,
    pub units: usize,
}

const fn whole(name: &'static str, top: &'static str) -> Figure {
    Figure { name, top, base: None, units: 1 }
}

const fn parting(name: &'static str, top: &'static str, base: &'static str) -> Figure {
    Figure { name, top, base: Some(base), units: 1 }
}

const fn call(name: &'static str, top: &'static str, base: &'static str) -> Figure {
    Figure { name, top, base: Some(base), units: CALLS }
}

pub const FIGURES: [Figure; 16] = [
    whole("reading, small sheet", "read-small"),
    whole("reading, typical sheet", "read-typical"),
    whole("reading, largest sheet", "read-largest"),
    parting("parting, small sheet", "part-small", "read-small"),
    parting("parting, typical sheet", "part-typical", "read-typical"),
    parting("parting, largest sheet", "part-largest", "read-largest"),
    call("event that passes, small sheet", "pass-small-2", "pass-small-1"),
    call("event that passes, largest sheet", "pass-largest-2", "pass-largest-1"),
    call("event stopped by 43", "stop-43-2", "stop-43-1"),
    call("event stopped by 44", "stop-44-2", "stop-44-1"),
    call("event stopped by 47", "stop-47-2", "stop-47-1"),
    call("forecast, windows", "forecast-windows-2", "forecast-windows-1"),
    call("forecast, slots", "forecast-slots-2", "forecast-slots-1"),
    call("forecast, margin over windows", "forecast-margin-windows-2", "forecast-margin-windows-1"),
    call("forecast, margin over slots", "forecast-margin-slots-2", "forecast-margin-slots-1"),
    call("forecast, two margins over windows", "forecast-two-margins-2", "forecast-two-margins-1"),
];

fn branch(label: u8, next: u8, send: u8, take: u8, resets: u8) -> Branch {
    Branch { label, next, send, take, resets }
}

fn state(sender: u8, receiver: u8, branches: Vec<Branch>) -> State {
    State { sender, receiver, branches }
}

/// The oven of the documents.
pub fn oven() -> Draft {
    let mut draft = Draft::named(&["MAIN", "OVEN"], &["HEAT", "HOT", "FAULT"], 2);
    draft.states = vec![
        state(0, 1, vec![branch(0, 1, ANY, 0, 3)]),
        state(1, 0, vec![branch(1, 2, 1, ANY, 0), branch(2, 2, ANY, ANY, 0)]),
        State::default(),
    ];
    draft
}

/// An oven that is told to heat again and again.
fn oven_again() -> Draft {
    let mut draft = oven();
    for branch in &mut draft.states[1].branches {
        branch.next = 0;
    }
    draft
}

/// A main board and three others: two rounds of orders and answers, then all are told to go on or to end.
pub fn typical() -> Draft {
    let labels = ["MOVE", "WARM", "LOOK", "DONE", "FAIL", "AGAIN", "REST", "SLOW"];
    let mut draft = Draft::named(&["MAIN", "FEED", "OVEN", "CAMERA"], &labels, 8);
    for round in 0..2 {
        for other in 1..4 {
            let order = 6 * round + 2 * (other - 1);
            draft.states.push(state(0, other, vec![branch(other - 1, order + 1, other, other + 1, 3)]));
            let answers = vec![branch(3, order + 2, other, ANY, 0), branch(4, order + 2, ANY, ANY, 2)];
            draft.states.push(state(other, 0, answers));
        }
    }
    draft.states.push(state(0, 1, vec![branch(5, 13, 0, 1, 3), branch(6, 15, ANY, ANY, 0)]));
    draft.states.push(state(0, 2, vec![branch(5, 14, 5, 6, 3)]));
    draft.states.push(state(0, 3, vec![branch(5, 0, 5, 6, 3)]));
    draft.states.push(state(0, 2, vec![branch(6, 16, ANY, ANY, 0)]));
    draft.states.push(state(0, 3, vec![branch(6, 17, ANY, ANY, 0)]));
    draft.states.push(State::default());
    draft
}

/// Every count and every piece as large as the format allows: three couples, each with 8 labels and a third of the
/// states of its own. A couple goes about in its third, and every fifth state has a branch to the next third.
pub fn largest() -> Draft {
    let long = |letter: char, count: usize| (0..count).map(|n| format!("{letter}{n:011}").into_bytes()).collect();
    let mut draft = Draft { modules: long('M', 6), labels: long('L', 32), states: Vec::new(), rows: 64 };
    let mut random = Random::new(0);
    let thirds = [(0u64, 21u64), (21, 21), (42, 22)];
    for number in 0..64 {
        let couple = (number / 21).min(2) as usize;
        let (first, length) = thirds[couple];
        let branches = (0..8)
            .map(|way| {
                let label = 4 * way + couple as u8;
                let next = if way == 0 {
                    first + (number - first + 1) % length
                } else if way == 7 && (number - first) % 5 == 4 {
                    thirds[(couple + 1) % 3].0
                } else {
                    first + random.number() % length
                };
                branch(label, next as u8, 2 * label, 2 * label + 1, label % 4)
            })
            .collect();
        draft.states.push(state(2 * couple as u8, 2 * couple as u8 + 1, branches));
    }
    draft
}

fn sized(size: &str) -> Option<Draft> {
    Some(match size {
        "small" => oven(),
        "typical" => typical(),
        "largest" => largest(),
        _ => return None,
    })
}

/// Windows that hold every value.
fn wide_book(rows: u8) -> Vec<u8> {
    [0, 0, 0, 0, 255, 255, 255, 255].repeat(rows.into())
}

fn base(draft: &Draft, book: Vec<u8>) -> Case {
    let sheet = draft.encode();
    Case { sheet, kind: Kind::Windows, book, margins: Vec::new(), opening: 100, depth: 8, calls: Vec::new() }
}

/// Events that pass, one tick after the other: what can be taken is taken first.
fn passing(case: &mut Case, count: usize) {
    let sheet = read::read(&case.sheet).expect("a good sheet");
    let mut accepted = Accepted::EMPTY;
    part::part(&sheet, &mut accepted).expect("an accepted sheet");
    let book = Windows::read(&case.book).expect("a good book");
    let mut session = Session::open(&accepted, book, case.opening, case.depth).expect("a good opening");
    while case.calls.len() < count {
        let tick = session.latest() + 1;
        let mut events = (0..accepted.modules).filter_map(|module| {
            let set = session.set(module);
            let label = session.oldest(set.partner, module).filter(|_| set.kind == Side::Receiving)?;
            Some(Event { module, direction: 1, partner: set.partner, label, tick })
        });
        let sends = || {
            let turn = case.calls.len();
            let sending = (0..accepted.modules).filter(|&module| session.set(module).kind == Side::Sending);
            let among: Vec<u8> = sending.collect();
            let module = among[turn % among.len()];
            let set = session.set(module);
            let labels: Vec<u8> = (0..32).filter(|label| set.labels >> label & 1 == 1).collect();
            Event { module, direction: 0, partner: set.partner, label: labels[turn / 2 % labels.len()], tick }
        };
        let event = events.next().unwrap_or_else(sends);
        session.event(&event).expect("an event that passes");
        case.calls.push(Call::Event(event));
    }
}

/// The prepared case of a name.
pub fn prepared(what: &str) -> Option<Case> {
    if let Some(size) = what.strip_prefix("read-") {
        // A book that is no whole row: the work ends after reading.
        return Some(base(&sized(size)?, vec![0]));
    }
    if let Some(size) = what.strip_prefix("part-") {
        // An empty book, and depth 0: the work ends after parting.
        return Some(Case { depth: 0, ..base(&sized(size)?, Vec::new()) });
    }
    let (what, twice) = what.rsplit_once('-')?;
    let count = CALLS * twice.parse::<usize>().ok().filter(|twice| (1..=2).contains(twice))?;
    let event =
        |module, direction, partner, label, tick| Call::Event(Event { module, direction, partner, label, tick });
    Some(match what {
        "pass-small" => {
            let mut case = base(&oven_again(), wide_book(2));
            passing(&mut case, count);
            case
        }
        "pass-largest" => {
            let mut case = base(&sized("largest")?, wide_book(64));
            passing(&mut case, count);
            case
        }
        "stop-43" => Case { calls: vec![event(0, 0, 1, 0, 99); count], ..base(&oven(), wide_book(2)) },
        "stop-44" => Case { calls: vec![event(0, 1, 1, 0, 100); count], ..base(&oven(), wide_book(2)) },
        "stop-47" => {
            let book = [[0u32, 5], [20, 40]].concat().into_iter().flat_map(u32::to_be_bytes).collect();
            let mut case = base(&oven(), book);
            case.calls.push(event(0, 0, 1, 0, 103));
            case.calls.extend(vec![event(1, 1, 0, 0, 106); count]);
            case
        }
        _ => {
            let (kind, margins) = match what.strip_prefix("forecast-")? {
                "windows" => (Kind::Windows, vec![]),
                "slots" => (Kind::Slots, vec![]),
                "margin-windows" => (Kind::Windows, vec![3]),
                "margin-slots" => (Kind::Slots, vec![3]),
                "two-margins" => (Kind::Windows, vec![3, 4]),
                _ => return None,
            };
            // One state with 8 labels, each with a row of its own, none of which is open yet.
            let mut draft = Draft::named(&["A", "B"], &["A", "B", "C", "D", "E", "F", "G", "H"], 8);
            draft.states.push(state(0, 1, (0..8).map(|label| branch(label, 0, label, ANY, 0)).collect()));
            let rows = (0..8u32).flat_map(|row| match kind {
                Kind::Windows => vec![1000 - 10 * row, 2000],
                Kind::Slots => vec![1000, 500 - 10 * row, 20],
            });
            let book = rows.flat_map(u32::to_be_bytes).collect();
            Case { kind, margins, calls: vec![Call::Forecast(0); count], ..base(&draft, book) }
        }
    })
}

type Replay = fn(&[u8], &mut [u8]) -> usize;

struct Work {
    script: Vec<u8>,
    output: Vec<u8>,
}

impl Work {
    fn new(what: &str) -> Option<Work> {
        let case = prepared(what)?;
        Some(Work { script: case.encode(), output: vec![0; 8 * case.calls.len() + 32] })
    }

    fn run(&mut self, replay: Replay, times: u64) {
        for _ in 0..times {
            let length = replay(black_box(&self.script), black_box(&mut self.output));
            assert!(black_box(length) > 0, "the side answers no bytes");
        }
    }
}

pub fn bench(words: &[&str]) -> Result<(), String> {
    match *words {
        ["--list"] => {
            for figure in &FIGURES {
                println!("{}\t{}\t{}\t{}", figure.name, figure.top, figure.base.unwrap_or("-"), figure.units);
            }
            Ok(())
        }
        ["--side", side, "--what", what, "--times", times] => {
            let replay: Replay = match side {
                "plain" => plain::replay,
                "proved" if proved::LINKED => proved::replay,
                "proved" => return Err("the proved library is not linked".into()),
                _ => return Err(format!("{side} is no side")),
            };
            let mut work = Work::new(what).ok_or(format!("{what} is no kind of work"))?;
            work.run(replay, times.parse().map_err(|_| "--times needs a number")?);
            Ok(())
        }
        _ => Err("bench needs --list, or --side, --what and --times".into()),
    }
}

/// The least time of one replay, over many rounds, for each side.
fn least(what: &str, sides: &[Replay]) -> Vec<Duration> {
    let mut work = Work::new(what).expect("a figure's work");
    let mut least = vec![Duration::MAX; sides.len()];
    let start = Instant::now();
    work.run(sides[0], 3);
    let once = (start.elapsed() / 3).max(Duration::from_nanos(50));
    let times = (Duration::from_micros(500).as_nanos() / once.as_nanos()).clamp(1, 10_000) as u32;
    for _ in 0..40 {
        for (side, least) in sides.iter().zip(&mut least) {
            let start = Instant::now();
            work.run(*side, times.into());
            *least = (*least).min(start.elapsed() / times);
        }
    }
    least
}

/// Prints the times of both sides, taken in turn in this process.
pub fn time() {
    let sides: &[Replay] = if proved::LINKED { &[proved::replay, plain::replay] } else { &[plain::replay] };
    if !proved::LINKED {
        println!("The proved library is not linked: times of the plain side alone.\n");
        println!("| nanoseconds of one | plain |\n|---|---|");
    } else {
        println!("| nanoseconds of one | proved | plain | ratio |\n|---|---|---|---|");
    }
    for figure in &FIGURES {
        let top = least(figure.top, sides);
        let base = figure.base.map(|base| least(base, sides));
        let cost = |side: usize| {
            let base = base.as_ref().map_or(0.0, |base| base[side].as_secs_f64());
            1e9 * (top[side].as_secs_f64() - base) / figure.units as f64
        };
        if proved::LINKED {
            println!("| {} | {:.1} | {:.1} | {:.2} |", figure.name, cost(0), cost(1), cost(0) / cost(1));
        } else {
            println!("| {} | {:.1} |", figure.name, cost(0));
        }
    }
}

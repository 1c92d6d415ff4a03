//! The plain side on the examples of the documents, on its own bounds, and against slower definitions.

use crate::bench;
use crate::generate::{self, Draft, State};
use crate::plain::books::{Margin, Slots, TimeBook, Windows};
use crate::plain::part::{self, Accepted};
use crate::plain::session::Event;
use crate::plain::{self, read, Stop};
use crate::random::Random;
use crate::script::{Answer, Call, Case, Kind, Line};

const ANY: u8 = 255;
const MAX: u32 = u32::MAX;

/// The oven sheet, byte by byte as the format's page has it.
const OVEN: [u8; 76] = [
    0x01, 0x02, 0x03, 0x03, 0x02, 0x00, 0x25, 0x00, 0x04, 0x00, 0x29, 0x00, 0x04, 0x00, 0x2D, 0x00, 0x04, 0x00, 0x31,
    0x00, 0x03, 0x00, 0x34, 0x00, 0x05, 0x00, 0x39, 0x00, 0x07, 0x00, 0x40, 0x00, 0x0C, 0x00, 0x4C, 0x00, 0x00, 0x4D,
    0x41, 0x49, 0x4E, 0x4F, 0x56, 0x45, 0x4E, 0x48, 0x45, 0x41, 0x54, 0x48, 0x4F, 0x54, 0x46, 0x41, 0x55, 0x4C, 0x54,
    0x00, 0x01, 0x00, 0x01, 0xFF, 0x00, 0x03, 0x01, 0x00, 0x01, 0x02, 0x01, 0xFF, 0x00, 0x02, 0x02, 0xFF, 0xFF, 0x00,
];

fn words(words: &[u32]) -> Vec<u8> {
    words.iter().flat_map(|word| word.to_be_bytes()).collect()
}

fn event(module: u8, direction: u8, partner: u8, label: u8, tick: u32) -> Call {
    Call::Event(Event { module, direction, partner, label, tick })
}

fn answer(case: &Case) -> Answer {
    let mut output = vec![0; 8 * case.calls.len() + 32];
    let length = plain::replay(&case.encode(), &mut output);
    Answer::decode(&output[..length]).expect("an answer")
}

fn oven_case(calls: Vec<Call>) -> Case {
    let book = words(&[0, 5, 20, 40]);
    Case { sheet: OVEN.to_vec(), kind: Kind::Windows, book, margins: vec![], opening: 100, depth: 8, calls }
}

fn passed(value: u32) -> Line {
    Line { tag: 0, number: 0, first: 0, second: 0, value }
}

fn stopped(number: u8, first: u8, second: u8) -> Line {
    Line { tag: 1, number, first, second, value: 0 }
}

fn at(value: u32) -> Line {
    Line { tag: 2, number: 0, first: 0, second: 0, value }
}

const NONE: Line = Line { tag: 3, number: 0, first: 0, second: 0, value: 0 };
const COMPLETE: Line = Line { tag: 4, number: 0, first: 0, second: 0, value: 0 };

fn early(module: u8) -> Line {
    Line { tag: 4, number: 51, first: module, second: 0, value: 0 }
}

fn refused(number: u8, layer: u8, first: u64, second: u64) -> Answer {
    Answer::Refused { number, layer, first, second }
}

fn ran(case: &Case) -> (Vec<Line>, Line) {
    match answer(case) {
        Answer::Ran { calls, closing, .. } => (calls, closing),
        refused => panic!("{refused:?}"),
    }
}

#[test]
fn oven_is_what_the_format_says() {
    assert_eq!(bench::oven().encode(), OVEN);
    let sheet = read::read(&OVEN).expect("the oven");
    assert_eq!((sheet.modules, sheet.labels, sheet.states, sheet.rows), (2, 3, 3, 2));
}

#[test]
fn oven_parts_are_as_printed() {
    let mut accepted = Accepted::EMPTY;
    part::part(&read::read(&OVEN).expect("the oven"), &mut accepted).expect("accepted");
    let print = |module: u8| -> String {
        let part = accepted.part(module);
        let mut text = String::new();
        for (number, states) in part.states().iter().enumerate() {
            let set = part.set(number as u8);
            text += &format!("{number} {states:b} {:?} {}\n", set.kind, set.partner);
            for label in 0..32 {
                if let Some(step) = set.step(label) {
                    text += &format!("  {label} {} {} {}\n", step.row, step.reset, step.next);
                }
            }
        }
        text
    };
    let main = "0 1 Sending 1\n  0 255 true 1\n1 10 Receiving 1\n  1 255 false 2\n  2 255 false 2\n2 100 Finished 0\n";
    let oven = "0 1 Receiving 0\n  0 0 true 1\n1 10 Sending 0\n  1 1 false 2\n  2 255 false 2\n2 100 Finished 0\n";
    assert_eq!((print(0).as_str(), print(1).as_str()), (main, oven));
}

#[test]
fn oven_call_by_call() {
    let calls = vec![
        Call::Forecast(0),
        Call::Forecast(1),
        event(0, 0, 1, 0, 103),
        Call::Forecast(1),
        event(1, 1, 0, 0, 106),
        event(1, 1, 0, 0, 105),
        Call::Forecast(1),
        Call::Forecast(0),
        event(1, 0, 0, 1, 124),
        event(1, 0, 0, 1, 125),
        event(0, 1, 1, 2, 130),
        event(0, 1, 1, 1, 130),
    ];
    let lines = vec![
        at(100),
        NONE,
        passed(1),
        at(103),
        stopped(47, 1, 0),
        passed(2),
        at(105),
        NONE,
        stopped(47, 1, 1),
        passed(1),
        stopped(45, 0, 2),
        passed(5),
    ];
    let case = oven_case(calls);
    assert_eq!(answer(&case), Answer::Ran { counts: [2, 3, 3, 2], calls: lines.clone(), closing: COMPLETE });
    // The same with the slot book of the programs' page.
    let slots = Case { kind: Kind::Slots, book: words(&[100, 0, 6, 100, 20, 21]), ..case };
    assert_eq!(ran(&slots), (lines, COMPLETE));
    assert_eq!(ran(&oven_case(vec![])), (vec![], early(0)));
}

#[test]
fn oven_lists_that_are_no_runs() {
    let last = |calls: Vec<Call>| ran(&oven_case(calls)).0.pop();
    assert_eq!(last(vec![event(0, 0, 1, 0, 103), event(1, 1, 0, 0, 102)]), Some(stopped(43, 1, 0)));
    assert_eq!(last(vec![event(1, 1, 0, 0, 103)]), Some(stopped(45, 1, 0)));
    assert_eq!(last(vec![event(1, 0, 0, 1, 103)]), Some(stopped(44, 1, 1)));
    assert_eq!(last(vec![event(0, 0, 1, 0, 103), event(1, 1, 0, 0, 106)]), Some(stopped(47, 1, 0)));
    let hot = vec![event(0, 0, 1, 0, 103), event(1, 1, 0, 0, 105), event(1, 0, 0, 1, 124)];
    assert_eq!(last(hot), Some(stopped(47, 1, 1)));
    // Both the unfinished module and the order of the stops of one event.
    let first_five = vec![event(0, 0, 1, 0, 103), event(1, 1, 0, 0, 105), event(1, 0, 0, 1, 125)];
    assert_eq!(ran(&oven_case(first_five)).1, early(0));
    assert_eq!(last(vec![event(200, 9, 1, 77, 0)]), Some(stopped(41, 200, 77)));
    assert_eq!(last(vec![event(0, 0, 0, 0, 0)]), Some(stopped(41, 0, 0)));
    assert_eq!(last(vec![event(0, 2, 1, 0, 0)]), Some(stopped(42, 0, 0)));
    assert_eq!(last(vec![event(0, 0, 1, 3, 0)]), Some(stopped(42, 0, 3)));
    assert_eq!(last(vec![event(0, 0, 1, 0, 99)]), Some(stopped(43, 0, 0)));
    assert_eq!(last(vec![Call::Forecast(2)]), Some(stopped(41, 2, 0)));
}

#[test]
fn refusals_of_the_pages() {
    let good = oven_case(vec![]);
    let sheet = |change: &dyn Fn(&mut Vec<u8>)| {
        let mut case = good.clone();
        change(&mut case.sheet);
        answer(&case)
    };
    assert_eq!(sheet(&|bytes| bytes.clear()), refused(1, 0, 0, 0));
    assert_eq!(sheet(&|bytes| bytes.truncate(4)), refused(1, 0, 4, 0));
    assert_eq!(sheet(&|bytes| bytes.truncate(36)), refused(1, 0, 36, 0));
    assert_eq!(sheet(&|bytes| bytes[0] = 2), refused(2, 0, 0, 0));
    assert_eq!(sheet(&|bytes| (bytes[2], bytes[4]) = (33, 65)), refused(3, 0, 2, 0));
    assert_eq!(sheet(&|bytes| bytes.truncate(37)), refused(4, 0, 0, 0));
    assert_eq!(sheet(&|bytes| bytes.truncate(75)), refused(4, 0, 6, 0));
    assert_eq!(sheet(&|bytes| bytes.push(0)), refused(4, 0, 8, 0));
    assert_eq!(sheet(&|bytes| bytes[38] = 0x20), refused(5, 0, 38, 0));
    assert_eq!(sheet(&|bytes| bytes.copy_within(37..41, 41)), refused(6, 0, 1, 0));
    assert_eq!(sheet(&|bytes| bytes.copy_within(37..41, 45)), answer(&good));
    assert_eq!(sheet(&|bytes| bytes[63] = 4), refused(7, 0, 63, 0));
    assert_eq!(sheet(&|bytes| bytes[58] = 0), refused(7, 0, 58, 0));
    assert_eq!(sheet(&|bytes| bytes[71] = 1), refused(7, 0, 71, 0));
    let book = |book: Vec<u8>, depth: u8| answer(&Case { book, depth, ..good.clone() });
    assert_eq!(book(good.book[..15].to_vec(), 8), refused(11, 1, 15, 0));
    assert_eq!(book(vec![0; 520], 8), refused(11, 1, 520, 0));
    assert_eq!(book(words(&[6, 5, 20, 40]), 8), refused(12, 1, 0, 0));
    assert_eq!(book(vec![], 0), refused(31, 3, 0, 0));
    assert_eq!(book(good.book.clone(), 0), refused(32, 3, 0, 0));
    assert_eq!(book(good.book.clone(), 9), refused(32, 3, 9, 0));
    assert_eq!(ran(&Case { book: vec![0; 512], ..good.clone() }).1, early(0));
}

fn branch(label: u8, next: u8) -> generate::Branch {
    generate::Branch { label, next, send: ANY, take: ANY, resets: 0 }
}

fn exchange(sender: u8, receiver: u8, branches: &[generate::Branch]) -> State {
    State { sender, receiver, branches: branches.to_vec() }
}

fn parted(draft: &Draft) -> Result<Accepted, Stop> {
    let mut accepted = Accepted::EMPTY;
    part::part(&read::read(&draft.encode()).expect("a valid sheet"), &mut accepted).map(|()| accepted)
}

fn fault(draft: &Draft) -> Option<(u8, u64, u64)> {
    parted(draft).err().map(|stop| (stop.number, stop.first, stop.second))
}

#[test]
fn untold() {
    let mut draft = Draft::named(&["A", "B", "C"], &["GO", "NO"], 0);
    draft.states =
        vec![exchange(0, 1, &[branch(0, 1), branch(1, 2)]), exchange(1, 2, &[branch(0, 2)]), State::default()];
    assert_eq!(fault(&draft), Some((24, 2, 0)));
}

#[test]
fn each_fault_of_parting() {
    // After A's choice, C acts in both ways.
    let draft = |left: State, right: State| {
        let mut draft = Draft::named(&["A", "B", "C"], &["X", "Y"], 1);
        draft.states = vec![exchange(0, 1, &[branch(0, 1), branch(1, 2)]), left, right, State::default()];
        fault(&draft)
    };
    let say = |sender, receiver, label| exchange(sender, receiver, &[branch(label, 3)]);
    assert_eq!(draft(say(1, 2, 0), say(1, 2, 1)), None);
    assert_eq!(draft(say(1, 2, 0), say(1, 2, 0)), None);
    assert_eq!(draft(say(1, 2, 0), say(0, 2, 1)), Some((21, 2, 0)));
    assert_eq!(draft(say(2, 1, 0), say(1, 2, 0)), Some((21, 2, 0)));
    assert_eq!(draft(say(2, 1, 0), say(2, 1, 1)), Some((22, 2, 0)));
    let mut late = say(1, 2, 0);
    late.branches[0].take = 0;
    assert_eq!(draft(say(1, 2, 0), late), Some((23, 2, 0)));
    // The partner's row and reset may differ.
    let mut other = say(1, 2, 0);
    (other.branches[0].send, other.branches[0].resets) = (0, 1);
    assert_eq!(draft(say(1, 2, 0), other), None);
    let mut other = say(2, 1, 0);
    (other.branches[0].take, other.branches[0].resets) = (0, 2);
    assert_eq!(draft(say(2, 1, 0), other), None);
}

#[test]
fn thirty_two_sets_and_one_more() {
    let chain = |count: u8| {
        let mut draft = Draft::named(&["A", "B"], &["X"], 0);
        draft.states = (0..count).map(|state| exchange(0, 1, &[branch(0, (state + 1) % count)])).collect();
        fault(&draft)
    };
    assert_eq!(chain(32), None);
    assert_eq!(chain(33), Some((25, 0, 31)));
}

#[test]
fn channel_fills() {
    let mut draft = Draft::named(&["A", "B"], &["X"], 0);
    draft.states = vec![exchange(0, 1, &[branch(0, 0)])];
    let mut calls = vec![event(0, 0, 1, 0, 7); 9];
    calls.extend([Call::Forecast(0), event(1, 1, 0, 0, 9), event(0, 0, 1, 0, 9)]);
    let case = Case { sheet: draft.encode(), book: vec![], opening: 0, ..oven_case(calls) };
    let mut lines: Vec<Line> = (1..=8).map(passed).collect();
    lines.extend([stopped(46, 0, 0), NONE, passed(2), passed(8)]);
    assert_eq!(ran(&case), (lines, early(0)));
}

#[test]
fn worked_books() {
    let slots = Slots::read(&words(&[100, 10, 5])).expect("slots");
    assert_eq!([9, 14, 15].map(|value| slots.next(0, value)), [Some(10), Some(14), Some(110)]);
    assert_eq!(slots.next(0, 4_294_967_280), None);
    let windows = Margin::over(Windows::read(&words(&[20, 40])).expect("windows"), 2);
    assert_eq!([17, 18, 42, 43].map(|value| windows.holds(0, value)), [false, true, true, false]);
    assert_eq!(Margin::over(slots, 3).next(0, 18), Some(107));
}

/// Every book against its rows' plain meaning, at both ends of the range.
#[test]
fn books_mean_their_rows() {
    let mut random = Random::new(7);
    let ends: Vec<u32> = (0..60).chain(MAX - 60..=MAX).collect();
    for _ in 0..300 {
        let period = random.within(1, 40) as u32;
        let first = random.below(period as usize) as u32;
        let width = random.within(1, (period - first) as usize) as u32;
        let (one, two) = (random.pick(&ends), random.pick(&ends));
        let (low, high) = (one.min(two), one.max(two));
        let by = random.below(9) as u32;
        let slots = Slots::read(&words(&[period, first, width])).expect("slots");
        let windows = Windows::read(&words(&[low, high])).expect("windows");
        let in_slot = |value: u32| (first..first + width).contains(&(value % period));
        let in_window = |value: u32| (low..=high).contains(&value);
        let near = |inside: &dyn Fn(u32) -> bool, by: u32, value: u32| {
            (value.saturating_sub(by)..=value.saturating_add(by)).any(inside)
        };
        let slots_margin = Margin::over(Margin::over(slots.clone(), by), 2);
        let windows_margin = Margin::over(windows.clone(), by);
        let books: [(&dyn TimeBook, &dyn Fn(u32) -> bool); 4] = [
            (&slots, &in_slot),
            (&windows, &in_window),
            (&slots_margin, &|value| near(&in_slot, by + 2, value)),
            (&windows_margin, &|value| near(&in_window, by, value)),
        ];
        for (book, inside) in books {
            for &value in &ends {
                assert_eq!(book.holds(0, value), inside(value));
                assert!(!book.holds(1, value) && book.next(1, value).is_none());
                let next = book.next(0, value);
                let searched = (value..=value.saturating_add(70)).find(|&value| inside(value));
                if searched.is_some() || value > MAX - 60 {
                    assert_eq!(next, searched);
                } else {
                    assert!(next.is_none_or(|next| next > value + 70 && inside(next) && !inside(next - 1)));
                }
            }
        }
    }
}

#[test]
fn sheets_of_the_bench() {
    let sets = |draft: &Draft| -> Vec<usize> {
        let accepted = parted(draft).expect("accepted");
        (0..accepted.modules).map(|module| accepted.part(module).states().len()).collect()
    };
    let largest = bench::largest();
    assert_eq!(largest.encode().len(), 3557);
    assert!(sets(&largest).iter().all(|&count| count > 20));
    assert_eq!(sets(&bench::typical()).len(), 4);
    for figure in &bench::FIGURES {
        for what in [Some(figure.top), figure.base].into_iter().flatten() {
            let case = bench::prepared(what).expect("prepared");
            let good = match answer(&case) {
                Answer::Refused { number, .. } => number == if what.starts_with("read") { 11 } else { 31 },
                Answer::Ran { calls, .. } => {
                    let last = calls.last().expect("calls");
                    match what.split('-').nth(1).and_then(|word| word.parse().ok()) {
                        Some(number) => calls.iter().skip(1).all(|line| line.number == number),
                        None if what.starts_with("pass") => calls.iter().all(|line| line.tag == 0),
                        None => last.tag == 2 && last.value > case.opening,
                    }
                }
            };
            assert!(good, "{what}");
        }
    }
}

/// What a forecast tells is the first tick at which some event of the module passes: tried event by event.
#[test]
fn forecasts_are_the_least() {
    let mut random = Random::new(11);
    let mut tried = 0;
    for _ in 0..3000 {
        let mut case = generate::case(&mut random);
        let Answer::Ran { counts: [modules, labels, ..], calls, .. } = answer(&case) else {
            continue;
        };
        let latest = case
            .calls
            .iter()
            .zip(&calls)
            .filter_map(|(call, line)| match call {
                Call::Event(event) if line.tag == 0 => Some(event.tick),
                _ => None,
            })
            .fold(case.opening, |_, tick| tick);
        let module = random.below(modules.into()) as u8;
        case.calls.push(Call::Forecast(module));
        let forecast = ran(&case).0.pop().expect("a line");
        case.calls.pop();
        let mut passes = |tick: u32| {
            (0..modules).any(|partner| {
                (0..labels).any(|label| {
                    (0..2).any(|direction| {
                        case.calls.push(event(module, direction, partner, label, tick));
                        let line = ran(&case).0.pop().expect("a line");
                        case.calls.pop();
                        line.tag == 0
                    })
                })
            })
        };
        if labels > 4 || modules > 3 {
            continue;
        }
        tried += 1;
        for tick in latest..=latest.saturating_add(12) {
            let foretold = forecast.tag == 2 && tick == forecast.value;
            assert_eq!(passes(tick), foretold);
            if foretold {
                break;
            }
        }
    }
    assert!(tried > 100);
}

//! How often each stop and each kind of pass was met.

use crate::plain::session::DEPTH;
use crate::script::{Answer, Call, Calls, Script};
use std::collections::BTreeMap;

/// The stops that a script can meet. 61 belongs to the programs.
const STOPS: [u8; 25] = [1, 2, 3, 4, 5, 6, 7, 11, 12, 21, 22, 23, 24, 25, 31, 32, 41, 42, 43, 44, 45, 46, 47, 51, 61];

const WORDS: [&str; 25] = [
    "SHORT", "EDITION", "COUNT", "PAIR", "BYTE", "TWICE", "STATE", "ROWS", "ROW", "CROSSED", "OFFER", "CLASH",
    "UNTOLD", "SETS", "BOOK", "DEPTH", "WHO", "WHAT", "BACK", "TURN", "LINE", "FULL", "TIME", "EARLY", "CUT",
];

#[derive(Default)]
pub struct Tally {
    pub cases: u64,
    pub unanswered: u64,
    opened: u64,
    events: u64,
    passed: u64,
    most_passed: u64,
    stops: BTreeMap<u8, u64>,
    sent: [u64; DEPTH + 1],
    taken_at_once: u64,
    taken_later: u64,
    forecast_now: u64,
    forecast_later: u64,
    forecast_none: u64,
    forecast_stopped: u64,
    complete: u64,
}

impl Tally {
    fn stop(&mut self, number: u8) {
        *self.stops.entry(number).or_default() += 1;
    }

    fn met(&self, number: u8) -> u64 {
        self.stops.get(&number).copied().unwrap_or(0)
    }

    /// Counts what a case met. An error says how the answer does not fit the script.
    pub fn count(&mut self, script: &[u8], answer: &[u8]) -> Result<(), String> {
        self.cases += 1;
        let script = Script::decode(script).ok_or("the script is malformed")?;
        let answer = Answer::decode(answer).ok_or("the answer is malformed")?;
        let (calls, closing) = match answer {
            Answer::Refused { number, .. } => {
                self.stop(number);
                return Ok(());
            }
            Answer::Ran { calls, closing, .. } => (calls, closing),
        };
        self.opened += 1;
        let mut latest = script.opening;
        let mut lines = calls.iter();
        let mut passed = 0;
        for call in Calls::new(script.calls) {
            let line = lines.next().ok_or("a call has no answer")?;
            match (call, line.tag) {
                (Call::Event(event), 0) => {
                    passed += 1;
                    latest = event.tick;
                    match (event.direction, line.value) {
                        (0, length) => {
                            *self.sent.get_mut(length as usize).ok_or("a channel is longer than 8")? += 1;
                        }
                        (_, 0) => self.taken_at_once += 1,
                        _ => self.taken_later += 1,
                    }
                }
                (Call::Forecast(_), 2) if line.value == latest => self.forecast_now += 1,
                (Call::Forecast(_), 2) => self.forecast_later += 1,
                (Call::Forecast(_), 3) => self.forecast_none += 1,
                (Call::Event(_), 1) => self.stop(line.number),
                (Call::Forecast(_), 1) => {
                    self.stop(line.number);
                    self.forecast_stopped += 1;
                }
                _ => return Err("an answer does not fit its call".into()),
            }
            self.events += u64::from(matches!(call, Call::Event(_)));
        }
        if lines.next().is_some() {
            return Err("an answer has no call".into());
        }
        self.passed += passed;
        self.most_passed = self.most_passed.max(passed);
        if closing.number == 0 {
            self.complete += 1;
        } else {
            self.stop(closing.number);
        }
        Ok(())
    }

    fn lines(&self) -> Vec<(String, u64)> {
        let mut lines = Vec::new();
        for (number, word) in STOPS.iter().zip(WORDS) {
            if *number != 61 {
                lines.push((format!("stop {number} {word}"), self.met(*number)));
            }
        }
        lines.push(("stop 41 of a forecast".into(), self.forecast_stopped));
        for (length, count) in self.sent.iter().enumerate().skip(1) {
            lines.push((format!("sending, new length {length}"), *count));
        }
        lines.push(("taking, 0 ticks under way".into(), self.taken_at_once));
        lines.push(("taking, more ticks under way".into(), self.taken_later));
        lines.push(("forecast, at the latest tick".into(), self.forecast_now));
        lines.push(("forecast, later".into(), self.forecast_later));
        lines.push(("forecast, none".into(), self.forecast_none));
        lines.push(("closing, 0".into(), self.complete));
        lines
    }

    /// Prints the table; answers how many of its lines were never met.
    pub fn print(&self) -> usize {
        println!(
            "{} cases, of which {} opened a session; {} scripts besides answered no bytes",
            self.cases, self.opened, self.unanswered
        );
        println!(
            "{} events, of which {} passed; the most in one session {}",
            self.events, self.passed, self.most_passed
        );
        println!();
        let mut never = 0;
        for (name, count) in self.lines() {
            let note = if count == 0 { "  NEVER MET" } else { "" };
            println!("{name:<32}{count:>10}{note}");
            never += usize::from(count == 0);
        }
        println!("stop 61 CUT belongs to the programs, and no script meets it");
        let known = |number: &u8| *number != 61 && STOPS.contains(number);
        let unknown =
            self.stops.iter().filter(|(number, _)| !known(number)).map(|(_, count)| count).sum::<u64>() + self.sent[0];
        if unknown > 0 {
            println!("{unknown} answers have a stop or a length that no script can meet");
        }
        println!();
        never + usize::from(unknown > 0)
    }
}

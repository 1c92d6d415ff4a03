//! Parting: one local protocol for each module, by the sets of states that it cannot tell apart.

use super::read::{Branch, Sheet, LABELS, MODULES, STATES};
use super::{Layer, Stop};

/// The most sets that a part may have.
pub const SETS: usize = 32;

#[derive(Clone, Copy, PartialEq, Eq, Debug)]
pub enum Kind {
    Finished,
    Sending,
    Receiving,
}

/// What a label does in a set. It says something only where the set has the label.
#[derive(Clone, Copy, Debug)]
pub struct Move {
    pub row: u8,
    pub reset: bool,
    /// The number of the set that follows.
    pub next: u8,
}

#[derive(Clone, Copy, Debug)]
pub struct Set {
    pub kind: Kind,
    /// The partner, where the module is not finished.
    pub partner: u8,
    /// The labels that the set has, as bits.
    pub labels: u32,
    moves: [Move; LABELS],
}

impl Set {
    const EMPTY: Set =
        Set { kind: Kind::Finished, partner: 0, labels: 0, moves: [Move { row: 0, reset: false, next: 0 }; LABELS] };

    /// The move with a label, or none where the set has none.
    #[inline]
    pub fn step(&self, label: u8) -> Option<Move> {
        let label = usize::from(label);
        (label < LABELS && self.labels >> label & 1 == 1).then(|| self.moves[label])
    }
}

/// The local protocol of one module. Set 0 is its start.
#[derive(Clone, Debug)]
pub struct Part {
    count: usize,
    states: [u64; SETS],
    sets: [Set; SETS],
}

impl Part {
    const EMPTY: Part = Part { count: 0, states: [0; SETS], sets: [Set::EMPTY; SETS] };

    #[inline]
    pub fn set(&self, number: u8) -> &Set {
        &self.sets[usize::from(number)]
    }

    /// The sets' states, as bits, by number.
    #[cfg(test)]
    pub fn states(&self) -> &[u64] {
        &self.states[..self.count]
    }
}

/// The parts of a sheet's modules, and the sheet's counts.
#[derive(Clone, Debug)]
pub struct Accepted {
    pub modules: u8,
    pub labels: u8,
    pub states: u8,
    pub rows: u8,
    parts: [Part; MODULES],
}

impl Accepted {
    /// Tables of no sheet, for `part` to fill.
    pub const EMPTY: Accepted = Accepted { modules: 0, labels: 0, states: 0, rows: 0, parts: [Part::EMPTY; MODULES] };

    #[inline]
    pub fn part(&self, module: u8) -> &Part {
        &self.parts[usize::from(module)]
    }

    pub fn counts(&self) -> [u8; 4] {
        [self.modules, self.labels, self.states, self.rows]
    }
}

/// The sheet's states in tables.
struct Graph {
    sender: [u8; STATES],
    receiver: [u8; STATES],
    labels: [u32; STATES],
    branches: [(u16, u16); STATES],
    all: [Branch; STATES * 8],
    /// The states that follow a state, and those that it follows, as bits.
    after: [u64; STATES],
    before: [u64; STATES],
    /// The states in which a module is sender or receiver, as bits.
    acting: [u64; MODULES],
}

impl Graph {
    fn of(sheet: &Sheet<'_>) -> Graph {
        let none = Branch { label: 0, next: 0, send_row: 0, take_row: 0, resets: 0 };
        let mut graph = Graph {
            sender: [0; STATES],
            receiver: [0; STATES],
            labels: [0; STATES],
            branches: [(0, 0); STATES],
            all: [none; STATES * 8],
            after: [0; STATES],
            before: [0; STATES],
            acting: [0; MODULES],
        };
        let mut count = 0;
        for state in 0..usize::from(sheet.states) {
            let Some(exchange) = sheet.state(state) else {
                continue;
            };
            let bit = 1 << state;
            graph.sender[state] = exchange.sender;
            graph.receiver[state] = exchange.receiver;
            graph.acting[usize::from(exchange.sender)] |= bit;
            graph.acting[usize::from(exchange.receiver)] |= bit;
            let first = count;
            for branch in exchange.branches() {
                graph.labels[state] |= 1 << branch.label;
                graph.after[state] |= 1 << branch.next;
                graph.before[usize::from(branch.next)] |= bit;
                graph.all[count] = branch;
                count += 1;
            }
            graph.branches[state] = (first as u16, count as u16);
        }
        graph
    }

    fn branches(&self, state: usize) -> &[Branch] {
        let (first, end) = self.branches[state];
        &self.all[usize::from(first)..usize::from(end)]
    }
}

/// The numbers of the bits that are set, rising.
fn bits(mut mask: u64) -> impl Iterator<Item = usize> {
    std::iter::from_fn(move || {
        (mask != 0).then(|| {
            let bit = mask.trailing_zeros() as usize;
            mask &= mask - 1;
            bit
        })
    })
}

/// The states reached from a set through steps of the states in `through`.
fn closure(set: u64, through: u64, steps: &[u64; STATES]) -> u64 {
    let mut reached = set;
    let mut waiting = set & through;
    while waiting != 0 {
        let state = waiting.trailing_zeros() as usize;
        waiting &= waiting - 1;
        let found = steps[state] & !reached;
        reached |= found;
        waiting |= found & through;
    }
    reached
}

/// Parts a sheet into tables that are handed in, whatever they held. After a stop they are of no use.
pub fn part(sheet: &Sheet<'_>, tables: &mut Accepted) -> Result<(), Stop> {
    let graph = Graph::of(sheet);
    tables.modules = sheet.modules;
    tables.labels = sheet.labels;
    tables.states = sheet.states;
    tables.rows = sheet.rows;
    for (module, part) in (0..sheet.modules).zip(&mut tables.parts) {
        part_of(&graph, module, part)?;
    }
    Ok(())
}

fn part_of(graph: &Graph, module: u8, part: &mut Part) -> Result<(), Stop> {
    let acting = graph.acting[usize::from(module)];
    let told = closure(acting, u64::MAX, &graph.before);
    part.states[0] = closure(1, !acting, &graph.after);
    part.count = 1;
    // By label: the next states of its branches. It says something only for the labels of the set at hand.
    let mut targets = [0u64; LABELS];
    let mut number = 0;
    while number < part.count {
        let stop =
            |stop| Err(Stop { number: stop, layer: Layer::Parting, first: module.into(), second: number as u64 });
        let states = part.states[number];
        let acts = states & acting;
        let set = &mut part.sets[number];
        if acts == 0 {
            (set.kind, set.partner, set.labels) = (Kind::Finished, 0, 0);
            number += 1;
            continue;
        }
        let first = acts.trailing_zeros() as usize;
        let sends = graph.sender[first] == module;
        let (sender, receiver) = (graph.sender[first], graph.receiver[first]);
        if bits(acts).any(|state| graph.sender[state] != sender || graph.receiver[state] != receiver) {
            return stop(21);
        }
        let unlike = if sends { 22 } else { 23 };
        let mut labels = 0u32;
        for state in bits(acts) {
            if sends && graph.labels[state] != graph.labels[first] {
                return stop(22);
            }
            for branch in graph.branches(state) {
                let label = usize::from(branch.label);
                let (row, reset) = if sends {
                    (branch.send_row, branch.resets & 1 != 0)
                } else {
                    (branch.take_row, branch.resets & 2 != 0)
                };
                let step = &mut set.moves[label];
                if labels >> label & 1 == 0 {
                    labels |= 1 << label;
                    (step.row, step.reset) = (row, reset);
                    targets[label] = 1 << branch.next;
                } else if (step.row, step.reset) != (row, reset) {
                    return stop(unlike);
                } else {
                    targets[label] |= 1 << branch.next;
                }
            }
        }
        if states & !told != 0 {
            return stop(24);
        }
        set.labels = labels;
        (set.kind, set.partner) = if sends { (Kind::Sending, receiver) } else { (Kind::Receiving, sender) };
        for label in bits(labels.into()) {
            let successor = closure(targets[label], !acting, &graph.after);
            let known = part.states[..part.count].iter().position(|&states| states == successor);
            let next = match known {
                Some(next) => next,
                None if part.count < SETS => {
                    part.states[part.count] = successor;
                    part.count += 1;
                    part.count - 1
                }
                None => return stop(25),
            };
            set.moves[label].next = next as u8;
        }
        number += 1;
    }
    Ok(())
}

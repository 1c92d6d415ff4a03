//! Random cases: sheets that are woven so that most are accepted, sheets with a flaw, damaged and cut sheets, books
//! of every kind, and calls that mostly follow what the plain monitor says could come next.

use crate::plain::books::{Margin, Slots, TimeBook, Windows};
use crate::plain::part::{self, Accepted, Kind as Side};
use crate::plain::read;
use crate::plain::session::{Event, Session};
use crate::random::Random;
use crate::script::{Call, Case, Kind};

const ANY: u8 = 255;
const MAX: u32 = u32::MAX;

#[derive(Clone, Copy, PartialEq, Eq, Debug)]
pub struct Branch {
    pub label: u8,
    pub next: u8,
    pub send: u8,
    pub take: u8,
    pub resets: u8,
}

/// A state; without branches it is an end.
#[derive(Clone, Debug, Default)]
pub struct State {
    pub sender: u8,
    pub receiver: u8,
    pub branches: Vec<Branch>,
}

/// A sheet before it is bytes.
#[derive(Clone, Debug)]
pub struct Draft {
    pub modules: Vec<Vec<u8>>,
    pub labels: Vec<Vec<u8>>,
    pub states: Vec<State>,
    pub rows: u8,
}

impl Draft {
    pub fn named(modules: &[&str], labels: &[&str], rows: u8) -> Draft {
        let bytes = |names: &[&str]| names.iter().map(|name| name.as_bytes().to_vec()).collect();
        Draft { modules: bytes(modules), labels: bytes(labels), states: Vec::new(), rows }
    }

    pub fn encode(&self) -> Vec<u8> {
        let mut pieces: Vec<Vec<u8>> = self.modules.iter().chain(&self.labels).cloned().collect();
        for state in &self.states {
            let mut piece = Vec::new();
            if !state.branches.is_empty() {
                piece.extend([state.sender, state.receiver]);
                for b in &state.branches {
                    piece.extend([b.label, b.next, b.send, b.take, b.resets]);
                }
            }
            pieces.push(piece);
        }
        let counts = [self.modules.len(), self.labels.len(), self.states.len()].map(|count| count as u8);
        let mut out = vec![1, counts[0], counts[1], counts[2], self.rows];
        let mut offset = out.len() + 4 * pieces.len();
        for piece in &pieces {
            out.extend((offset as u16).to_be_bytes());
            out.extend((piece.len() as u16).to_be_bytes());
            offset += piece.len();
        }
        out.extend(pieces.concat());
        out
    }
}

/// Names that differ from each other: random bytes, and a number where there is room.
fn names(random: &mut Random, count: usize) -> Vec<Vec<u8>> {
    let mut names: Vec<Vec<u8>> = Vec::with_capacity(count);
    while names.len() < count {
        let length = if random.chance(70) { random.within(1, 5) } else { random.within(1, 12) };
        let name: Vec<u8> = (0..length).map(|_| random.within(0x21, 0x7E) as u8).collect();
        if !names.contains(&name) {
            names.push(name);
        }
    }
    names
}

struct Weaver<'a> {
    random: &'a mut Random,
    modules: usize,
    labels: usize,
    rows: usize,
    most: usize,
    states: Vec<State>,
    /// How often, of 100, a row is any time.
    free: usize,
}

impl Weaver<'_> {
    fn row(&mut self) -> u8 {
        if self.rows == 0 || self.random.chance(self.free) {
            ANY
        } else {
            self.random.below(self.rows) as u8
        }
    }

    fn branch(&mut self, label: u8, next: usize) -> Branch {
        let (send, take) = (self.row(), self.row());
        Branch { label, next: next as u8, send, take, resets: self.random.below(4) as u8 }
    }

    fn alloc(&mut self) -> usize {
        self.states.push(State::default());
        self.states.len() - 1
    }

    fn room(&self) -> usize {
        self.most - self.states.len()
    }

    /// Two different modules below `among`.
    fn couple(&mut self, among: usize) -> (u8, u8) {
        let sender = self.random.below(among);
        let receiver = (sender + 1 + self.random.below(among - 1)) % among;
        (sender as u8, receiver as u8)
    }

    /// Different labels, rising, at most `count` and 8.
    fn some_labels(&mut self, count: usize) -> Vec<u8> {
        let count = count.min(self.labels).min(8);
        let mut chosen: Vec<u8> = Vec::new();
        while chosen.len() < count {
            let label = self.random.below(self.labels) as u8;
            if !chosen.contains(&label) {
                chosen.push(label);
            }
        }
        chosen.sort_unstable();
        chosen
    }

    /// One label and no choice, from one state to another.
    fn step(&mut self, entry: usize, exit: usize) {
        let (sender, receiver) = self.couple(self.modules);
        let label = self.random.below(self.labels) as u8;
        let branch = self.branch(label, exit);
        self.states[entry] = State { sender, receiver, branches: vec![branch] };
    }

    /// A choice of `ways`, of which the others are told one after the other, each by one that knows; a way then leads
    /// to one of the `exits`, and ways with different exits are told with different labels.
    fn choice(&mut self, entry: usize, exits: &[usize], tell_all: bool) {
        let (sender, receiver) = self.couple(self.modules);
        let ways = self.random.within(exits.len(), exits.len() + 2).min(self.labels).max(1);
        let labels = self.some_labels(ways);
        let ways = labels.len();
        let mut knowing = vec![sender, receiver];
        let mut tells: Vec<(u8, u8, Vec<u8>, Branch)> = Vec::new();
        let mut order: Vec<u8> = (0..self.modules as u8).filter(|m| !knowing.contains(m)).collect();
        for at in (1..order.len()).rev() {
            order.swap(at, self.random.below(at + 1));
        }
        for module in order {
            if !(tell_all || self.random.chance(40)) || (tells.len() + 1) * ways > self.room() {
                continue;
            }
            let teller = self.random.pick(&knowing);
            let told = if tell_all || self.random.chance(60) {
                let mut told = self.some_labels(ways);
                if told.len() < ways {
                    told.resize(ways, 0);
                }
                told
            } else {
                vec![self.random.below(self.labels) as u8; ways]
            };
            if tell_all || told.windows(2).all(|pair| pair[0] != pair[1]) {
                knowing.push(module);
            }
            let timing = self.branch(0, 0);
            tells.push((teller, module, told, timing));
        }
        let uneven = self.random.chance(4);
        let mut branches = Vec::new();
        for (way, &label) in labels.iter().enumerate() {
            let exit = exits[way % exits.len()];
            let mut next = exit;
            for (teller, module, told, timing) in tells.iter().rev() {
                let state = self.alloc();
                let timing = if uneven { self.branch(0, 0) } else { *timing };
                let branch = Branch { label: told[way], next: next as u8, ..timing };
                self.states[state] = State { sender: *teller, receiver: *module, branches: vec![branch] };
                next = state;
            }
            branches.push(self.branch(label, next));
        }
        self.states[entry] = State { sender, receiver, branches };
    }

    /// Fills what lies between two states with blocks, one after the other or within each other.
    fn weave(&mut self, entry: usize, exit: usize, nested: usize) {
        let dice = self.random.below(100);
        if self.room() < 2 || nested > 6 || dice < 12 {
            self.step(entry, exit);
        } else if dice < 60 {
            let between = self.alloc();
            self.weave(entry, between, nested + 1);
            self.weave(between, exit, nested + 1);
        } else if dice < 80 {
            let all = self.random.chance(30);
            self.choice(entry, &[exit], all);
        } else {
            // A loop: some ways go through the body and back, the others leave.
            let body = self.alloc();
            self.choice(entry, &[body, exit], true);
            if self.room() > 0 {
                self.weave(body, entry, nested + 2);
            } else {
                self.step(body, entry);
            }
        }
    }

    fn woven(&mut self) {
        let start = self.alloc();
        let end = self.alloc();
        self.weave(start, end, 0);
        if self.random.chance(25) {
            // The end becomes a step back to the start, or a loop of its own.
            let back = if self.random.chance(70) { start } else { end };
            self.step(end, back);
        }
    }

    /// Steps without a choice, and at last an end or a way back.
    fn chain(&mut self, length: usize) {
        let fixed = self.random.chance(50).then(|| self.couple(self.modules));
        let back = self.random.chance(60);
        for _ in 0..length {
            self.alloc();
        }
        for state in 0..length {
            let last = state + 1 == length;
            if last && !back {
                break;
            }
            let next = if last { self.random.below(length) } else { state + 1 };
            self.step(state, next);
            if let Some((sender, receiver)) = fixed {
                if self.random.chance(90) {
                    (self.states[state].sender, self.states[state].receiver) = (sender, receiver);
                }
            }
        }
    }

    /// Two modules that see everything, in any graph at all.
    fn duo(&mut self, count: usize, reach: usize) {
        let (one, two) = self.couple(self.modules);
        let one_way = self.random.chance(40);
        for _ in 0..count {
            self.alloc();
        }
        for state in 0..count {
            if self.random.chance(6) && (state > 0 || self.random.chance(10)) {
                continue;
            }
            let (sender, receiver) = if one_way || self.random.chance(60) { (one, two) } else { (two, one) };
            let ways = if self.random.chance(60) { self.random.within(1, 3) } else { self.random.within(1, 8) };
            let labels = self.some_labels(ways);
            let branches = labels
                .into_iter()
                .map(|label| {
                    let next =
                        if self.random.chance(50) { (state + 1) % count } else { self.random.below(count.min(reach)) };
                    self.branch(label, next)
                })
                .collect();
            self.states[state] = State { sender, receiver, branches };
        }
    }

    /// Couples that each have their own side, labels and rows wherever they act, in any graph at all.
    fn couples(&mut self, count: usize) {
        let couples = self.modules / 2;
        let ways = self.random.within(1, 8);
        let offers: Vec<Vec<Branch>> = (0..couples)
            .map(|_| {
                let labels = self.some_labels(ways);
                labels.into_iter().map(|label| self.branch(label, 0)).collect()
            })
            .collect();
        let near = self.random.chance(50);
        for _ in 0..count {
            self.alloc();
        }
        for state in 0..count {
            let couple = if state < couples { state } else { self.random.below(couples) };
            let branches = offers[couple]
                .iter()
                .map(|branch| {
                    let next = if near { (state + 1 + self.random.below(3)) % count } else { self.random.below(count) };
                    Branch { next: next as u8, ..*branch }
                })
                .collect();
            self.states[state] = State { sender: 2 * couple as u8, receiver: 2 * couple as u8 + 1, branches };
        }
    }

    /// Valid, and nothing more.
    fn wild(&mut self, count: usize) {
        for _ in 0..count {
            self.alloc();
        }
        for state in 0..count {
            if self.random.chance(15) {
                continue;
            }
            let (sender, receiver) = self.couple(self.modules);
            let ways = self.random.within(1, 4);
            let labels = self.some_labels(ways);
            let branches = labels
                .into_iter()
                .map(|label| {
                    let next = self.random.below(count);
                    self.branch(label, next)
                })
                .collect();
            self.states[state] = State { sender, receiver, branches };
        }
    }

    /// Changes one thing, so that the sheet stays valid.
    fn flaw(&mut self) {
        let state = self.random.below(self.states.len());
        let couple = self.couple(self.modules);
        let (row, next, reset) = (self.row(), self.random.below(self.states.len()) as u8, self.random.below(4) as u8);
        let dice = self.random.below(6);
        let here = &mut self.states[state];
        if here.branches.is_empty() {
            return;
        }
        let at = self.random.below(here.branches.len());
        match dice {
            0 => (here.sender, here.receiver) = couple,
            1 => here.branches[at].send = row,
            2 => here.branches[at].take = row,
            3 => here.branches[at].resets = reset,
            4 => here.branches[at].next = next,
            _ => {
                here.branches.remove(at);
            }
        }
    }
}

pub fn draft(random: &mut Random) -> Draft {
    let modules = random.within(2, 6);
    let labels = match random.below(10) {
        0 => 1,
        1..=5 => random.within(2, 8),
        6..=8 => random.within(4, 20),
        _ => 32,
    };
    let rows = match random.below(10) {
        0 | 1 => 0,
        2..=7 => random.within(1, 8),
        8 => random.within(1, 64),
        _ => 64,
    };
    let most = match random.below(10) {
        0..=5 => random.within(8, 24),
        6..=8 => random.within(16, 48),
        _ => 64,
    };
    let free = random.pick(&[0, 20, 50, 80]);
    let mut weaver = Weaver { random, modules, labels, rows, most, states: Vec::new(), free };
    match weaver.random.below(100) {
        0..=44 => weaver.woven(),
        45..=54 => {
            let length = weaver.random.within(1, most.min(40));
            weaver.chain(length);
        }
        55..=76 => {
            let count = weaver.random.within(1, 20);
            weaver.duo(count, count);
        }
        77..=88 => {
            let count = weaver.random.within(1, most).max(modules / 2);
            weaver.couples(count);
        }
        89..=92 => {
            // Around the bound of 32 sets, and far past it.
            let count =
                if weaver.random.chance(50) { weaver.random.within(31, 34) } else { weaver.random.within(34, 64) };
            weaver.duo(count, 32);
        }
        _ => {
            let count = weaver.random.within(1, 12);
            weaver.wild(count);
        }
    }
    if weaver.random.chance(12) {
        for _ in 0..weaver.random.within(1, 3) {
            weaver.flaw();
        }
    }
    let states = weaver.states;
    let (modules, labels) = (names(random, modules), names(random, labels));
    Draft { modules, labels, states, rows: rows as u8 }
}

/// A fault that leaves the pairs whole, or a piece of a length that its kind cannot have.
fn spoil(random: &mut Random, draft: &mut Draft) {
    let at_label = random.below(draft.labels.len());
    let at_module = random.below(draft.modules.len());
    let at_state = random.below(draft.states.len());
    match random.below(8) {
        0 => draft.labels[at_label] = draft.labels[random.below(at_label + 1)].clone(),
        1 => draft.modules[at_module] = draft.modules[random.below(at_module + 1)].clone(),
        2 | 3 => {
            let name = if random.chance(50) { &mut draft.labels[at_label] } else { &mut draft.modules[at_module] };
            if !name.is_empty() {
                let at = random.below(name.len());
                name[at] = random.pick(&[0, 0x1F, 0x20, 0x7F, 0x80, 0xFF]);
            }
        }
        4..=6 => {
            let (rows, labels, states) = (draft.rows, draft.labels.len() as u8, draft.states.len() as u8);
            let modules = draft.modules.len() as u8;
            let state = &mut draft.states[at_state];
            if state.branches.is_empty() {
                return;
            }
            let at = random.below(state.branches.len());
            let above = state.branches[at.saturating_sub(1)].label;
            let branch = &mut state.branches[at];
            let near = |random: &mut Random, bound: u8| if random.chance(50) { bound } else { random.byte() };
            match random.below(9) {
                0 => state.sender = near(random, modules),
                1 => state.receiver = near(random, modules),
                2 => state.receiver = state.sender,
                3 => branch.label = near(random, labels),
                4 => branch.label = above,
                5 => branch.next = near(random, states),
                6 => branch.send = near(random, rows),
                7 => branch.take = near(random, rows),
                _ => branch.resets = near(random, 4),
            }
        }
        _ => match random.below(4) {
            0 => draft.labels[at_label].clear(),
            1 => draft.labels[at_label].resize(random.within(12, 14), b'x'),
            2 => draft.modules[at_module].resize(random.within(12, 14), b'y'),
            _ => {
                let branches = &mut draft.states[at_state].branches;
                branches.resize(9, Branch { label: 0, next: 0, send: ANY, take: ANY, resets: 0 });
            }
        },
    }
}

/// Damages or cuts a good sheet, in one place or in several.
fn damage(random: &mut Random, mut draft: Draft) -> Vec<u8> {
    if random.chance(55) {
        for _ in 0..random.pick(&[1, 1, 2, 4]) {
            spoil(random, &mut draft);
        }
        if random.chance(80) {
            return draft.encode();
        }
    }
    let mut bytes = draft.encode();
    let body = 5 + 4 * (draft.modules.len() + draft.labels.len() + draft.states.len());
    for _ in 0..random.pick(&[1, 1, 1, 3]) {
        let last = bytes.len().max(1) - 1;
        let (low, high) = match random.below(8) {
            0 => {
                bytes.truncate(random.below(bytes.len() + 1));
                continue;
            }
            1 => {
                bytes.truncate(random.below(body + 1));
                continue;
            }
            2 => {
                bytes.extend((0..random.within(1, 5)).map(|_| 0x41));
                continue;
            }
            3 | 4 => (0, 4),
            5 => (5, body - 1),
            6 => (body, last),
            _ => (0, last),
        };
        if low <= high && high < bytes.len() {
            let at = random.within(low, high);
            bytes[at] = match random.below(4) {
                0 => random.byte(),
                1 => bytes[at].wrapping_add(1),
                2 => bytes[at].wrapping_sub(1),
                _ => bytes[at] ^ 1 << random.below(8),
            };
        }
    }
    if random.chance(3) {
        bytes = (0..random.below(40)).map(|_| random.byte()).collect();
    }
    bytes
}

/// A number of 32 bits, often at one of the ends of the range.
fn number(random: &mut Random) -> u32 {
    match random.below(8) {
        0 => random.below(4) as u32,
        1..=3 => random.below(100) as u32,
        4 => random.below(100_000) as u32,
        5 => MAX - random.below(100) as u32,
        6 => MAX - random.below(3) as u32,
        _ => random.word(),
    }
}

fn window(random: &mut Random) -> (u32, u32) {
    match random.below(10) {
        0 | 1 => (0, MAX),
        2 | 3 => (0, random.below(200) as u32 + 20),
        4 => (random.below(30) as u32, MAX - random.below(50) as u32),
        5..=7 => {
            let low = random.below(60) as u32;
            (low, low + random.below(300) as u32)
        }
        _ => {
            let (one, two) = (number(random), number(random));
            (one.min(two), one.max(two))
        }
    }
}

fn slot(random: &mut Random) -> (u32, u32, u32) {
    let period = match random.below(10) {
        0 => 1,
        1..=6 => random.within(2, 200) as u32,
        7 => random.within(2, 100_000) as u32,
        _ => number(random).max(1),
    };
    let first = random.below(period as usize) as u32;
    let most = period - first;
    let width =
        if random.chance(60) { random.within(1, most as usize) as u32 } else { most.min(1 + random.below(5) as u32) };
    (period, first, width)
}

/// The bytes of a book for a sheet with so many rows.
fn book(random: &mut Random, kind: Kind, rows: usize) -> Vec<u8> {
    let count = match random.below(20) {
        0 if rows > 0 => random.below(rows),
        1 => random.within(rows, 64),
        2 => random.within(60, 66),
        _ => rows,
    };
    let bad = random.chance(3);
    let mut bytes = Vec::new();
    for _ in 0..count {
        match kind {
            Kind::Windows => {
                let (mut low, mut high) = window(random);
                if bad && random.chance(30) {
                    (low, high) = (high, low);
                }
                bytes.extend(low.to_be_bytes());
                bytes.extend(high.to_be_bytes());
            }
            Kind::Slots => {
                let (mut period, mut first, mut width) = slot(random);
                if bad && random.chance(30) {
                    match random.below(5) {
                        0 => period = 0,
                        1 => width = 0,
                        2 => width = period.wrapping_sub(first).wrapping_add(1),
                        3 => (first, width) = (MAX, 2),
                        _ => first = number(random),
                    }
                }
                bytes.extend(period.to_be_bytes());
                bytes.extend(first.to_be_bytes());
                bytes.extend(width.to_be_bytes());
            }
        }
    }
    if random.chance(2) {
        let length = if random.chance(50) { random.below(bytes.len() + 1) } else { bytes.len() + random.within(1, 11) };
        bytes.resize(length, 0);
    }
    bytes
}

/// Calls that mostly follow what could come next in a session of this case.
fn calls(random: &mut Random, session: &mut Session<'_, &dyn TimeBook>, case: &Case) -> Vec<Call> {
    let (modules, labels, depth) = (case.sheet[1], case.sheet[2], case.depth);
    let count = match random.below(10) {
        0 => random.below(4),
        1..=6 => random.within(4, 40),
        7 | 8 => random.within(20, 90),
        _ => random.within(60, 250),
    };
    let forecasts = random.pick(&[0, 10, 25, 60]);
    let strays = random.pick(&[0, 4, 12, 35]);
    // A flood prefers what sends, a drain what takes.
    let flood = random.below(3);
    let patient = random.chance(50);
    let jumps = random.pick(&[0, 0, 1, 10]);
    let stuck = random.pick(&[0, 20, 50, 80]);
    let mut calls = Vec::with_capacity(count);
    while calls.len() < count {
        if random.chance(forecasts) {
            let module = if random.chance(96) { random.below(modules.into()) as u8 } else { random.byte() };
            calls.push(Call::Forecast(module));
            continue;
        }
        // Where no module can do anything, few more calls are of use.
        if (0..modules).all(|module| session.forecast(module) == Ok(None)) && random.chance(stuck) {
            break;
        }
        let mut module = random.below(modules.into()) as u8;
        for _ in 0..8 {
            let set = session.set(module);
            let fits = match set.kind {
                Side::Finished => false,
                Side::Sending if flood == 2 => random.chance(30),
                Side::Sending => session.waiting(module, set.partner) < depth || random.chance(30),
                Side::Receiving if flood == 1 && !random.chance(15) => false,
                Side::Receiving => session.oldest(set.partner, module).is_some(),
            };
            if fits {
                break;
            }
            module = random.below(modules.into()) as u8;
        }
        let set = session.set(module);
        let of_set = |random: &mut Random| {
            let mut bits = set.labels;
            for _ in 0..random.below(bits.count_ones().max(1) as usize) {
                bits &= bits - 1;
            }
            if bits == 0 {
                random.below(labels.into()) as u8
            } else {
                bits.trailing_zeros() as u8
            }
        };
        let (direction, label) = match set.kind {
            Side::Receiving => {
                let oldest = session.oldest(set.partner, module).filter(|_| random.chance(92));
                (1, oldest.unwrap_or_else(|| of_set(random)))
            }
            _ => (0, of_set(random)),
        };
        let partner = if set.kind == Side::Finished { random.below(modules.into()) as u8 } else { set.partner };
        let latest = session.latest();
        let soon = latest.saturating_add(random.below(8) as u32);
        let tick = match session.label_tick(module, label) {
            Some(tick) if random.chance(if patient { 95 } else { 75 }) => {
                if random.chance(60) {
                    tick
                } else {
                    tick.saturating_add(random.below(6) as u32)
                }
            }
            _ if random.chance(40) => latest,
            _ => soon,
        };
        let mut event = Event { module, direction, partner, label, tick };
        if random.chance(jumps) {
            event.tick = latest.saturating_add(number(random));
        }
        let changes = if random.chance(strays) { random.pick(&[1, 1, 1, 2, 3]) } else { 0 };
        for _ in 0..changes {
            match random.below(12) {
                0 => event.module = random.byte(),
                1 => event.module = random.below(modules.into()) as u8,
                2 => event.partner = random.byte(),
                3 => event.partner = random.below(modules.into()) as u8,
                4 => event.direction = random.pick(&[2, 3, 128, 255]),
                5 => event.direction ^= 1,
                6 => event.label = random.byte(),
                7 => event.label = random.below(labels.into()) as u8,
                8 => event.tick = latest.saturating_sub(1 + random.below(5) as u32),
                9 => event.tick = number(random),
                10 => event.tick = event.tick.saturating_sub(1).max(latest),
                _ => {
                    event.module = random.below(modules as usize + 1) as u8;
                    event.partner = random.below(modules as usize + 1) as u8;
                    event.direction = random.below(3) as u8;
                    event.label = random.below(labels as usize + 1) as u8;
                }
            }
        }
        let _ = session.event(&event);
        calls.push(Call::Event(event));
    }
    calls
}

/// Calls that follow nothing: for cases that do not open, and some that do.
fn any_calls(random: &mut Random) -> Vec<Call> {
    (0..random.below(6))
        .map(|_| {
            if random.chance(40) {
                return Call::Forecast(random.below(7) as u8);
            }
            let (module, direction) = (random.below(7) as u8, random.below(3) as u8);
            let (partner, label) = (random.below(7) as u8, random.below(34) as u8);
            Call::Event(Event { module, direction, partner, label, tick: number(random) })
        })
        .collect()
}

/// The calls of a case that opens, as if its session ran.
fn driven(random: &mut Random, case: &Case) -> Option<Vec<Call>> {
    let sheet = read::read(&case.sheet).ok()?;
    let bottom: Box<dyn TimeBook> = match case.kind {
        Kind::Windows => Box::new(Windows::read(&case.book).ok()?),
        Kind::Slots => Box::new(Slots::read(&case.book).ok()?),
    };
    let mut accepted = Accepted::EMPTY;
    part::part(&sheet, &mut accepted).ok()?;
    let bottom: &dyn TimeBook = &*bottom;
    let (inner, outer);
    let mut book = bottom;
    if let Some(&by) = case.margins.first() {
        inner = Margin::over(book, by);
        book = &inner;
    }
    if let Some(&by) = case.margins.get(1) {
        outer = Margin::over(book, by);
        book = &outer;
    }
    let mut session = Session::open(&accepted, book, case.opening, case.depth).ok()?;
    Some(calls(random, &mut session, case))
}

/// One random case.
pub fn case(random: &mut Random) -> Case {
    let draft = draft(random);
    let kind = if random.chance(50) { Kind::Windows } else { Kind::Slots };
    let book = book(random, kind, draft.rows.into());
    let sheet = if random.chance(15) { damage(random, draft) } else { draft.encode() };
    let margins = (0..random.pick(&[0, 0, 1, 2]))
        .map(|_| if random.chance(60) { random.below(12) as u32 } else { number(random) })
        .collect();
    let opening = match random.below(10) {
        0 | 1 => 0,
        2..=4 => random.below(200) as u32,
        5 => MAX,
        6 | 7 => MAX - random.below(300) as u32,
        _ => number(random),
    };
    let depth = match random.below(20) {
        0 => random.pick(&[0, 9, 10, 128, 255]),
        1..=5 => 8,
        _ => random.within(1, 8) as u8,
    };
    let mut case = Case { sheet, kind, book, margins, opening, depth, calls: Vec::new() };
    case.calls = match driven(random, &case) {
        Some(calls) => calls,
        None => any_calls(random),
    };
    case
}

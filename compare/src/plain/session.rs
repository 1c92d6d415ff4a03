//! Sessions: events and forecasts over an accepted sheet and a time book. What an event or a forecast costs does not
//! grow with the sheet.

use super::books::TimeBook;
use super::part::{Accepted, Kind, Move, Set};
use super::read::{ANY, MODULES};
use super::{Layer, Stop};

/// The most messages that a channel may hold.
pub const DEPTH: usize = 8;

#[derive(Clone, Copy, PartialEq, Eq, Debug)]
pub struct Event {
    pub module: u8,
    /// 0 sends, 1 takes.
    pub direction: u8,
    pub partner: u8,
    pub label: u8,
    pub tick: u32,
}

/// Messages under way from one module to another, first in, first out: a ring.
#[derive(Clone, Copy)]
struct Channel {
    first: u8,
    length: u8,
    labels: [u8; DEPTH],
    ticks: [u32; DEPTH],
}

impl Channel {
    const EMPTY: Channel = Channel { first: 0, length: 0, labels: [0; DEPTH], ticks: [0; DEPTH] };

    /// The label and the tick of the oldest message.
    #[inline]
    fn oldest(&self) -> Option<(u8, u32)> {
        let first = usize::from(self.first) % DEPTH;
        (self.length > 0).then(|| (self.labels[first], self.ticks[first]))
    }

    #[inline]
    fn put(&mut self, label: u8, tick: u32) {
        let last = usize::from(self.first + self.length) % DEPTH;
        self.labels[last] = label;
        self.ticks[last] = tick;
        self.length += 1;
    }

    #[inline]
    fn take(&mut self) {
        self.first = (self.first + 1) % DEPTH as u8;
        self.length -= 1;
    }
}

/// What a session keeps of a module.
#[derive(Clone, Copy)]
struct Record {
    set: u8,
    /// The tick of its last reset; never above the latest tick.
    reset: u32,
}

pub struct Session<'a, B> {
    accepted: &'a Accepted,
    book: B,
    depth: u8,
    latest: u32,
    records: [Record; MODULES],
    /// By sender, then by receiver.
    channels: [[Channel; MODULES]; MODULES],
}

fn stop<T>(number: u8, first: u64, second: u64) -> Result<T, Stop> {
    Err(Stop { number, layer: Layer::Session, first, second })
}

impl<'a, B: TimeBook> Session<'a, B> {
    pub fn open(accepted: &'a Accepted, book: B, opening: u32, depth: u8) -> Result<Self, Stop> {
        if book.rows() < usize::from(accepted.rows) {
            return stop(31, book.rows() as u64, 0);
        }
        if !(1..=DEPTH).contains(&usize::from(depth)) {
            return stop(32, depth.into(), 0);
        }
        Ok(Session {
            accepted,
            book,
            depth,
            latest: opening,
            records: [Record { set: 0, reset: opening }; MODULES],
            channels: [[Channel::EMPTY; MODULES]; MODULES],
        })
    }

    /// Passes an event, with its answer, or stops it and changes nothing.
    #[inline]
    pub fn event(&mut self, event: &Event) -> Result<u32, Stop> {
        let Event { module, direction, partner, label, tick } = *event;
        let stopped = |number| stop(number, module.into(), label.into());
        let modules = self.accepted.modules;
        if module >= modules || partner >= modules || module == partner {
            return stopped(41);
        }
        if label >= self.accepted.labels || direction > 1 {
            return stopped(42);
        }
        if tick < self.latest {
            return stopped(43);
        }
        let record = &mut self.records[usize::from(module)];
        let set = self.accepted.part(module).set(record.set);
        let side = if direction == 0 { Kind::Sending } else { Kind::Receiving };
        if set.kind != side || set.partner != partner {
            return stopped(44);
        }
        let Some(step) = set.step(label) else {
            return stopped(44);
        };
        let (from, to) = if direction == 0 { (module, partner) } else { (partner, module) };
        let channel = &mut self.channels[usize::from(from)][usize::from(to)];
        let mut under_way = 0;
        if direction == 1 {
            match channel.oldest() {
                Some((oldest, sent)) if oldest == label => under_way = tick - sent,
                _ => return stopped(45),
            }
        } else if channel.length >= self.depth {
            return stopped(46);
        }
        if step.row != ANY && !self.book.holds(step.row, tick - record.reset) {
            return stopped(47);
        }
        record.set = step.next;
        if step.reset {
            record.reset = tick;
        }
        self.latest = tick;
        if direction == 0 {
            channel.put(label, tick);
            Ok(channel.length.into())
        } else {
            channel.take();
            Ok(under_way)
        }
    }

    /// The least tick, from the latest on, at which some event of the module would pass next.
    #[inline]
    pub fn forecast(&self, module: u8) -> Result<Option<u32>, Stop> {
        if module >= self.accepted.modules {
            return stop(41, module.into(), 0);
        }
        let set = self.set(module);
        let mut labels = match set.kind {
            Kind::Finished => 0,
            Kind::Sending if self.waiting(module, set.partner) >= self.depth => 0,
            Kind::Sending => set.labels,
            Kind::Receiving => self.oldest(set.partner, module).map_or(0, |label| set.labels & 1 << label),
        };
        let mut least = None;
        while labels != 0 {
            let label = labels.trailing_zeros() as u8;
            labels &= labels - 1;
            match set.step(label).and_then(|step| self.tick_of(module, step)) {
                // No tick is less than the latest.
                Some(tick) if tick == self.latest => return Ok(Some(tick)),
                Some(tick) if least.is_none_or(|least| tick < least) => least = Some(tick),
                _ => {}
            }
        }
        Ok(least)
    }

    /// The least tick from the latest on at which the module's clock is in the row of a move.
    #[inline]
    fn tick_of(&self, module: u8, step: Move) -> Option<u32> {
        if step.row == ANY {
            return Some(self.latest);
        }
        let reset = self.records[usize::from(module)].reset;
        let value = self.book.next(step.row, self.latest - reset)?;
        reset.checked_add(value)
    }

    /// The least tick at which the clock of a module below M is in the row of a label's move, whatever the channels
    /// hold.
    pub fn label_tick(&self, module: u8, label: u8) -> Option<u32> {
        self.tick_of(module, self.set(module).step(label)?)
    }

    /// Ends the session: the lowest module that is not finished, or none.
    pub fn close(self) -> Option<u8> {
        (0..self.accepted.modules).find(|&module| self.set(module).kind != Kind::Finished)
    }

    /// The set in which a module below M is.
    #[inline]
    pub fn set(&self, module: u8) -> &'a Set {
        self.accepted.part(module).set(self.records[usize::from(module)].set)
    }

    pub fn latest(&self) -> u32 {
        self.latest
    }

    /// How many messages are under way between two modules below M.
    pub fn waiting(&self, from: u8, to: u8) -> u8 {
        self.channels[usize::from(from)][usize::from(to)].length
    }

    /// The label of the oldest message under way between two modules below M.
    pub fn oldest(&self, from: u8, to: u8) -> Option<u8> {
        self.channels[usize::from(from)][usize::from(to)].oldest().map(|(label, _)| label)
    }
}

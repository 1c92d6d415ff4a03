//! The script of one case and the answer to it, encoded and decoded. Numbers have the high byte first.
//!
//! A script: u16 and the sheet's bytes; u8 kind of book, u16 and the book's bytes; u8 count of margins, u32 for each,
//! innermost first; u32 opening tick; u8 depth; then calls to the end: 0 and an event's 8 bytes, or 1 and a
//! forecast's module.
//!
//! An answer: 1, a stop's number, its layer and two places of 8 bytes; or 0 and the four counts, then 8 bytes for each
//! call and 8 for closing. A malformed script answers no bytes.

use crate::plain::session::Event;
use crate::plain::Stop;

#[derive(Clone, Copy, PartialEq, Eq, Debug)]
pub enum Kind {
    Windows,
    Slots,
}

#[derive(Clone, Copy, PartialEq, Eq, Debug)]
pub enum Call {
    Event(Event),
    Forecast(u8),
}

/// A script, taken apart.
#[derive(Clone, Debug)]
pub struct Script<'a> {
    pub sheet: &'a [u8],
    pub kind: Kind,
    pub book: &'a [u8],
    margins: [u32; 2],
    margin_count: usize,
    pub opening: u32,
    pub depth: u8,
    pub calls: &'a [u8],
}

fn take<const N: usize>(bytes: &mut &[u8]) -> Option<[u8; N]> {
    let (head, rest) = bytes.split_first_chunk::<N>()?;
    *bytes = rest;
    Some(*head)
}

fn take_piece<'a>(bytes: &mut &'a [u8]) -> Option<&'a [u8]> {
    let length = usize::from(u16::from_be_bytes(take(bytes)?));
    let (piece, rest) = bytes.split_at_checked(length)?;
    *bytes = rest;
    Some(piece)
}

impl<'a> Script<'a> {
    /// None where the script is malformed.
    pub fn decode(mut bytes: &'a [u8]) -> Option<Script<'a>> {
        let rest = &mut bytes;
        let sheet = take_piece(rest)?;
        let kind = match take(rest)? {
            [0] => Kind::Windows,
            [1] => Kind::Slots,
            _ => return None,
        };
        let book = take_piece(rest)?;
        let [margin_count] = take(rest)?;
        let margin_count = usize::from(margin_count);
        let mut margins = [0; 2];
        for margin in margins.get_mut(..margin_count)? {
            *margin = u32::from_be_bytes(take(rest)?);
        }
        let opening = u32::from_be_bytes(take(rest)?);
        let [depth] = take(rest)?;
        let calls = *rest;
        let mut walk = Calls::new(calls);
        walk.by_ref().for_each(drop);
        walk.rest.is_empty().then_some(Script { sheet, kind, book, margins, margin_count, opening, depth, calls })
    }

    /// The margins, innermost first.
    pub fn margins(&self) -> &[u32] {
        &self.margins[..self.margin_count]
    }
}

/// The calls of a script, one by one. Where the bytes are no call, it ends and leaves them.
pub struct Calls<'a> {
    rest: &'a [u8],
}

impl<'a> Calls<'a> {
    pub fn new(rest: &'a [u8]) -> Calls<'a> {
        Calls { rest }
    }
}

impl Iterator for Calls<'_> {
    type Item = Call;

    #[inline]
    fn next(&mut self) -> Option<Call> {
        match *self.rest {
            [0, module, direction, partner, label, a, b, c, d, ref rest @ ..] => {
                self.rest = rest;
                let tick = u32::from_be_bytes([a, b, c, d]);
                Some(Call::Event(Event { module, direction, partner, label, tick }))
            }
            [1, module, ref rest @ ..] => {
                self.rest = rest;
                Some(Call::Forecast(module))
            }
            _ => None,
        }
    }
}

/// One case, as it is made.
#[derive(Clone, Debug)]
pub struct Case {
    pub sheet: Vec<u8>,
    pub kind: Kind,
    pub book: Vec<u8>,
    pub margins: Vec<u32>,
    pub opening: u32,
    pub depth: u8,
    pub calls: Vec<Call>,
}

impl Case {
    /// The script. Sheet and book have fewer than 65,536 bytes, and margins are at most two.
    pub fn encode(&self) -> Vec<u8> {
        let mut out = Vec::with_capacity(self.sheet.len() + self.book.len() + 9 * self.calls.len() + 32);
        let piece = |out: &mut Vec<u8>, bytes: &[u8]| {
            out.extend(u16::try_from(bytes.len()).expect("a piece has a length of 16 bits").to_be_bytes());
            out.extend(bytes);
        };
        piece(&mut out, &self.sheet);
        out.push(self.kind as u8);
        piece(&mut out, &self.book);
        out.push(self.margins.len() as u8);
        for margin in &self.margins {
            out.extend(margin.to_be_bytes());
        }
        out.extend(self.opening.to_be_bytes());
        out.push(self.depth);
        for call in &self.calls {
            match *call {
                Call::Event(event) => {
                    out.extend([0, event.module, event.direction, event.partner, event.label]);
                    out.extend(event.tick.to_be_bytes());
                }
                Call::Forecast(module) => out.extend([1, module]),
            }
        }
        out
    }
}

/// Writes an answer into memory that is handed in. What does not fit makes the whole answer empty.
pub struct Writer<'a> {
    output: &'a mut [u8],
    length: usize,
    fits: bool,
}

impl<'a> Writer<'a> {
    pub fn new(output: &'a mut [u8]) -> Writer<'a> {
        Writer { output, length: 0, fits: true }
    }

    #[inline]
    fn put<const N: usize>(&mut self, bytes: [u8; N]) {
        match self.output[self.length..].first_chunk_mut::<N>() {
            Some(place) => {
                *place = bytes;
                self.length += N;
            }
            None => self.fits = false,
        }
    }

    #[inline]
    fn line(&mut self, tag: u8, number: u8, first: u8, second: u8, value: u32) {
        let [a, b, c, d] = value.to_be_bytes();
        self.put([tag, number, first, second, a, b, c, d]);
    }

    pub fn refusal(&mut self, stop: &Stop) {
        self.put([1, stop.number, stop.layer as u8]);
        self.put(stop.first.to_be_bytes());
        self.put(stop.second.to_be_bytes());
    }

    pub fn opened(&mut self, [modules, labels, states, rows]: [u8; 4]) {
        self.put([0, modules, labels, states, rows]);
    }

    #[inline]
    pub fn passed(&mut self, answer: u32) {
        self.line(0, 0, 0, 0, answer);
    }

    /// A stop of a call: both of its places are bytes.
    #[inline]
    pub fn stopped(&mut self, stop: &Stop) {
        self.line(1, stop.number, stop.first as u8, stop.second as u8, 0);
    }

    #[inline]
    pub fn forecast(&mut self, tick: Option<u32>) {
        match tick {
            Some(tick) => self.line(2, 0, 0, 0, tick),
            None => self.line(3, 0, 0, 0, 0),
        }
    }

    pub fn closed(&mut self, unfinished: Option<u8>) {
        match unfinished {
            Some(module) => self.line(4, 51, module, 0, 0),
            None => self.line(4, 0, 0, 0, 0),
        }
    }

    /// The number of bytes written.
    pub fn finish(self) -> usize {
        if self.fits {
            self.length
        } else {
            0
        }
    }
}

/// What one call, or closing, was answered.
#[derive(Clone, Copy, PartialEq, Eq, Debug)]
pub struct Line {
    pub tag: u8,
    pub number: u8,
    pub first: u8,
    pub second: u8,
    pub value: u32,
}

/// An answer, taken apart.
#[derive(Clone, PartialEq, Eq, Debug)]
pub enum Answer {
    Refused { number: u8, layer: u8, first: u64, second: u64 },
    Ran { counts: [u8; 4], calls: Vec<Line>, closing: Line },
}

impl Answer {
    /// None where the bytes are no answer.
    pub fn decode(mut bytes: &[u8]) -> Option<Answer> {
        let rest = &mut bytes;
        match take(rest)? {
            [1] => {
                let [number, layer] = take(rest)?;
                let first = u64::from_be_bytes(take(rest)?);
                let second = u64::from_be_bytes(take(rest)?);
                rest.is_empty().then_some(Answer::Refused { number, layer, first, second })
            }
            [0] => {
                let counts = take(rest)?;
                let mut calls = Vec::with_capacity(rest.len() / 8);
                while !rest.is_empty() {
                    let [tag, number, first, second, a, b, c, d] = take(rest)?;
                    calls.push(Line { tag, number, first, second, value: u32::from_be_bytes([a, b, c, d]) });
                }
                let closing = calls.pop()?;
                (closing.tag == 4 && calls.iter().all(|line| line.tag < 4)).then_some(Answer::Ran {
                    counts,
                    calls,
                    closing,
                })
            }
            _ => None,
        }
    }
}

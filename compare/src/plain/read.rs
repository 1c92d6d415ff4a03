//! Reading: bytes that are a sheet, or the first stop in the documents' order.

use super::{Layer, Stop};

pub const MODULES: usize = 6;
pub const LABELS: usize = 32;
pub const STATES: usize = 64;
pub const ROWS: usize = 64;
/// The row that holds every value.
pub const ANY: u8 = 255;

const HEADER: usize = 5;
const PAIR: usize = 4;
const LONGEST_NAME: usize = 12;
const MOST_BRANCHES: usize = 8;
/// The bytes of a branch.
const BRANCH: usize = 5;
/// The bytes of an exchange before its branches.
const ENDS: usize = 2;

/// A sheet that keeps every rule of the format. It borrows its bytes.
#[derive(Clone, Copy, Debug)]
pub struct Sheet<'a> {
    bytes: &'a [u8],
    pub modules: u8,
    pub labels: u8,
    pub states: u8,
    pub rows: u8,
}

/// An exchange, with its branches still in bytes.
#[derive(Clone, Copy, Debug)]
pub struct Exchange<'a> {
    pub sender: u8,
    pub receiver: u8,
    branches: &'a [u8],
}

#[derive(Clone, Copy, Debug)]
pub struct Branch {
    pub label: u8,
    pub next: u8,
    pub send_row: u8,
    pub take_row: u8,
    pub resets: u8,
}

impl<'a> Exchange<'a> {
    pub fn branches(&self) -> impl Iterator<Item = Branch> + 'a {
        self.branches.chunks_exact(BRANCH).map(|bytes| Branch {
            label: bytes[0],
            next: bytes[1],
            send_row: bytes[2],
            take_row: bytes[3],
            resets: bytes[4],
        })
    }
}

impl<'a> Sheet<'a> {
    /// The exchange of a state below the count, or none where it is an end.
    pub fn state(&self, state: usize) -> Option<Exchange<'a>> {
        let pair = usize::from(self.modules) + usize::from(self.labels) + state;
        match self.piece(pair).1 {
            [sender, receiver, branches @ ..] => Some(Exchange { sender: *sender, receiver: *receiver, branches }),
            _ => None,
        }
    }

    /// A piece and its offset.
    fn piece(&self, pair: usize) -> (usize, &'a [u8]) {
        let at = HEADER + PAIR * pair;
        let offset = wide(self.bytes, at);
        (offset, &self.bytes[offset..offset + wide(self.bytes, at + 2)])
    }
}

fn wide(bytes: &[u8], at: usize) -> usize {
    usize::from(u16::from_be_bytes([bytes[at], bytes[at + 1]]))
}

fn stop<T>(number: u8, place: usize) -> Result<T, Stop> {
    Err(Stop { number, layer: Layer::Reading, first: place as u64, second: 0 })
}

pub fn read(bytes: &[u8]) -> Result<Sheet<'_>, Stop> {
    let [edition, modules, labels, states, rows, ..] = *bytes else {
        return stop(1, bytes.len());
    };
    if edition != 1 {
        return stop(2, 0);
    }
    let ranges = [(modules, 2, MODULES), (labels, 1, LABELS), (states, 1, STATES), (rows, 0, ROWS)];
    for (place, (count, low, high)) in (1..).zip(ranges) {
        if !(low..=high).contains(&usize::from(count)) {
            return stop(3, place);
        }
    }
    let sheet = Sheet { bytes, modules, labels, states, rows };
    judge_pairs(&sheet)?;
    judge_names(&sheet)?;
    judge_states(&sheet)?;
    Ok(sheet)
}

fn judge_pairs(sheet: &Sheet<'_>) -> Result<(), Stop> {
    let bytes = sheet.bytes;
    let names = usize::from(sheet.modules) + usize::from(sheet.labels);
    let pairs = names + usize::from(sheet.states);
    let body = HEADER + PAIR * pairs;
    if bytes.len() < body {
        return stop(1, bytes.len());
    }
    let mut end = body;
    for (number, pair) in bytes[HEADER..body].chunks_exact(PAIR).enumerate() {
        let (offset, length) = (wide(pair, 0), wide(pair, 2));
        let kind_has = if number < names {
            (1..=LONGEST_NAME).contains(&length)
        } else {
            length == 0
                || ((ENDS + BRANCH..=ENDS + BRANCH * MOST_BRANCHES).contains(&length)
                    && (length - ENDS).is_multiple_of(BRANCH))
        };
        if offset != end || !kind_has || offset + length > bytes.len() {
            return stop(4, number);
        }
        end += length;
    }
    if end != bytes.len() {
        return stop(4, pairs);
    }
    Ok(())
}

fn judge_names(sheet: &Sheet<'_>) -> Result<(), Stop> {
    let modules = usize::from(sheet.modules);
    // A name as one number. No byte of a name is 0, so two names are the same exactly when their numbers are.
    let mut keys = [0u128; MODULES + LABELS];
    for pair in 0..modules + usize::from(sheet.labels) {
        let (offset, name) = sheet.piece(pair);
        let mut key = 0;
        for (place, &byte) in (offset..).zip(name) {
            if !(0x21..=0x7E).contains(&byte) {
                return stop(5, place);
            }
            key = key << 8 | u128::from(byte);
        }
        let first_of_kind = if pair < modules { 0 } else { modules };
        if keys[first_of_kind..pair].contains(&key) {
            return stop(6, pair);
        }
        keys[pair] = key;
    }
    Ok(())
}

fn judge_states(sheet: &Sheet<'_>) -> Result<(), Stop> {
    let first = usize::from(sheet.modules) + usize::from(sheet.labels);
    let row_good = |row: u8| row < sheet.rows || row == ANY;
    for pair in first..first + usize::from(sheet.states) {
        let (offset, piece) = sheet.piece(pair);
        let [sender, receiver, branches @ ..] = piece else {
            continue;
        };
        if *sender >= sheet.modules {
            return stop(7, offset);
        }
        if *receiver >= sheet.modules || receiver == sender {
            return stop(7, offset + 1);
        }
        let mut least_label = 0;
        for (number, branch) in branches.chunks_exact(BRANCH).enumerate() {
            let good = [
                branch[0] >= least_label && branch[0] < sheet.labels,
                branch[1] < sheet.states,
                row_good(branch[2]),
                row_good(branch[3]),
                branch[4] <= 3,
            ];
            if let Some(bad) = good.iter().position(|good| !good) {
                return stop(7, offset + ENDS + BRANCH * number + bad);
            }
            least_label = branch[0] + 1;
        }
    }
    Ok(())
}

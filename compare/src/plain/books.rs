//! Time books: windows, slots, and margins over any book.

use super::read::ROWS;
use super::{Layer, Stop};

/// Rows, each a set of clock values. A row at or past the count has the empty set.
pub trait TimeBook {
    fn rows(&self) -> usize;
    /// Whether the value is in the row's set.
    fn holds(&self, row: u8, value: u32) -> bool;
    /// The least value of the row's set at or above the one named.
    fn next(&self, row: u8, value: u32) -> Option<u32>;
}

impl<B: TimeBook + ?Sized> TimeBook for &B {
    fn rows(&self) -> usize {
        (**self).rows()
    }

    fn holds(&self, row: u8, value: u32) -> bool {
        (**self).holds(row, value)
    }

    fn next(&self, row: u8, value: u32) -> Option<u32> {
        (**self).next(row, value)
    }
}

fn stop(number: u8, place: usize) -> Stop {
    Stop { number, layer: Layer::Books, first: place as u64, second: 0 }
}

/// A table of rows, decoded once.
#[derive(Clone, Debug)]
struct Table<R> {
    count: usize,
    rows: [R; ROWS],
}

impl<R: Copy> Table<R> {
    /// Reads rows of `SIZE` bytes; `decode` answers none where the row breaks its rule.
    fn read<const SIZE: usize>(
        bytes: &[u8],
        empty: R,
        decode: impl Fn(&[u8; SIZE]) -> Option<R>,
    ) -> Result<Self, Stop> {
        let (rows, rest) = bytes.as_chunks::<SIZE>();
        if !rest.is_empty() || rows.len() > ROWS {
            return Err(stop(11, bytes.len()));
        }
        let mut table = Table { count: rows.len(), rows: [empty; ROWS] };
        for (number, (slot, row)) in table.rows.iter_mut().zip(rows).enumerate() {
            *slot = decode(row).ok_or(stop(12, number))?;
        }
        Ok(table)
    }

    fn row(&self, row: u8) -> Option<&R> {
        self.rows.get(..self.count)?.get(usize::from(row))
    }
}

fn number(bytes: &[u8], at: usize) -> u32 {
    u32::from_be_bytes([bytes[at], bytes[at + 1], bytes[at + 2], bytes[at + 3]])
}

#[derive(Clone, Copy, Debug)]
struct Window {
    low: u32,
    high: u32,
}

/// Each row is the values from low to high.
#[derive(Clone, Debug)]
pub struct Windows(Table<Window>);

impl Windows {
    pub fn read(bytes: &[u8]) -> Result<Windows, Stop> {
        let empty = Window { low: 0, high: 0 };
        Table::read(bytes, empty, |row: &[u8; 8]| {
            let window = Window { low: number(row, 0), high: number(row, 4) };
            (window.low <= window.high).then_some(window)
        })
        .map(Windows)
    }
}

impl TimeBook for Windows {
    fn rows(&self) -> usize {
        self.0.count
    }

    fn holds(&self, row: u8, value: u32) -> bool {
        self.0.row(row).is_some_and(|window| (window.low..=window.high).contains(&value))
    }

    fn next(&self, row: u8, value: u32) -> Option<u32> {
        let window = self.0.row(row)?;
        (value <= window.high).then(|| value.max(window.low))
    }
}

#[derive(Clone, Copy, Debug)]
struct Slot {
    period: u32,
    first: u32,
    width: u32,
}

/// Each row is the values whose remainder by the period is at least first and below first + width.
#[derive(Clone, Debug)]
pub struct Slots(Table<Slot>);

impl Slots {
    pub fn read(bytes: &[u8]) -> Result<Slots, Stop> {
        let empty = Slot { period: 1, first: 0, width: 1 };
        Table::read(bytes, empty, |row: &[u8; 12]| {
            let slot = Slot { period: number(row, 0), first: number(row, 4), width: number(row, 8) };
            let fits = slot.first.checked_add(slot.width).is_some_and(|end| end <= slot.period);
            (slot.width >= 1 && fits).then_some(slot)
        })
        .map(Slots)
    }
}

impl TimeBook for Slots {
    fn rows(&self) -> usize {
        self.0.count
    }

    fn holds(&self, row: u8, value: u32) -> bool {
        // A remainder below first wraps around to a number that is at least the width.
        self.0.row(row).is_some_and(|slot| (value % slot.period).wrapping_sub(slot.first) < slot.width)
    }

    fn next(&self, row: u8, value: u32) -> Option<u32> {
        let slot = self.0.row(row)?;
        let remainder = value % slot.period;
        if remainder < slot.first {
            value.checked_add(slot.first - remainder)
        } else if remainder - slot.first < slot.width {
            Some(value)
        } else {
            value.checked_add(slot.period - remainder)?.checked_add(slot.first)
        }
    }
}

/// Each row is the values at most `by` away from some value of the row below.
#[derive(Clone, Debug)]
pub struct Margin<B> {
    below: B,
    by: u32,
}

impl<B: TimeBook> Margin<B> {
    pub fn over(below: B, by: u32) -> Margin<B> {
        Margin { below, by }
    }
}

impl<B: TimeBook> TimeBook for Margin<B> {
    fn rows(&self) -> usize {
        self.below.rows()
    }

    fn holds(&self, row: u8, value: u32) -> bool {
        // Of the values below that are not too far down, the least is the nearest or within reach.
        self.below
            .next(row, value.saturating_sub(self.by))
            .is_some_and(|nearest| nearest <= value.saturating_add(self.by))
    }

    fn next(&self, row: u8, value: u32) -> Option<u32> {
        let nearest = self.below.next(row, value.saturating_sub(self.by))?;
        Some(value.max(nearest.saturating_sub(self.by)))
    }
}

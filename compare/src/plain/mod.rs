//! The monitor in plain safe Rust, written from the documents alone: reading a sheet, time books, parting and
//! sessions. All tables are fixed arrays; nothing is allocated.
#![forbid(unsafe_code)]

pub mod books;
pub mod part;
pub mod read;
pub mod session;

use crate::script::{self, Call, Calls, Script, Writer};
use books::{Margin, Slots, TimeBook, Windows};
use part::Accepted;
use read::Sheet;
use session::Session;

#[derive(Clone, Copy, PartialEq, Eq, Debug)]
#[repr(u8)]
pub enum Layer {
    Reading = 0,
    Books = 1,
    Parting = 2,
    Session = 3,
}

/// A refusal: its number, the layer that refuses, and two places.
#[derive(Clone, Copy, PartialEq, Eq, Debug)]
pub struct Stop {
    pub number: u8,
    pub layer: Layer,
    pub first: u64,
    pub second: u64,
}

/// Puts a whole script to the monitor; answers the number of bytes written, or 0 where the script is malformed or
/// the output too small.
pub fn replay(input: &[u8], output: &mut [u8]) -> usize {
    let Some(script) = Script::decode(input) else {
        return 0;
    };
    let mut writer = Writer::new(output);
    if let Err(stop) = run(&script, &mut writer) {
        writer.refusal(&stop);
    }
    writer.finish()
}

fn run(script: &Script<'_>, writer: &mut Writer<'_>) -> Result<(), Stop> {
    let sheet = read::read(script.sheet)?;
    match script.kind {
        script::Kind::Windows => over(script, writer, &sheet, Windows::read(script.book)?),
        script::Kind::Slots => over(script, writer, &sheet, Slots::read(script.book)?),
    }
}

/// Parts the sheet, and lays the margins over the book.
fn over<B: TimeBook>(script: &Script<'_>, writer: &mut Writer<'_>, sheet: &Sheet<'_>, book: B) -> Result<(), Stop> {
    let mut accepted = Accepted::EMPTY;
    part::part(sheet, &mut accepted)?;
    let accepted = &accepted;
    match *script.margins() {
        [] => watch(script, writer, accepted, book),
        [inner] => watch(script, writer, accepted, Margin::over(book, inner)),
        [inner, outer, ..] => watch(script, writer, accepted, Margin::over(Margin::over(book, inner), outer)),
    }
}

fn watch<B: TimeBook>(script: &Script<'_>, writer: &mut Writer<'_>, accepted: &Accepted, book: B) -> Result<(), Stop> {
    let mut session = Session::open(accepted, book, script.opening, script.depth)?;
    writer.opened(accepted.counts());
    for call in Calls::new(script.calls) {
        match call {
            Call::Event(event) => match session.event(&event) {
                Ok(answer) => writer.passed(answer),
                Err(stop) => writer.stopped(&stop),
            },
            Call::Forecast(module) => match session.forecast(module) {
                Ok(tick) => writer.forecast(tick),
                Err(stop) => writer.stopped(&stop),
            },
        }
    }
    writer.closed(session.close());
    Ok(())
}

//! Compares two monitors: the proved library, and one in plain Rust that was written from the documents alone.

mod bench;
mod generate;
mod plain;
mod proved;
mod random;
mod script;
mod tally;
#[cfg(test)]
mod tests;

use random::Random;
use std::process::ExitCode;
use tally::Tally;

const CASES: u64 = 100_000;
const SEED: u64 = 0x5EED_0F5C_A1E5;

const USAGE: &str = "\
compare [--cases N] [--seed S] [--plain-only]
    compares both sides on N random cases and prints what was met
compare bench --list
compare bench --side plain|proved --what NAME --times N
    does one kind of work N times, to be counted from outside
compare time
    takes the times of both sides in one process";

fn main() -> ExitCode {
    let arguments: Vec<String> = std::env::args().skip(1).collect();
    let words: Vec<&str> = arguments.iter().map(String::as_str).collect();
    let done = match *words {
        ["--help"] => {
            println!("{USAGE}");
            Ok(true)
        }
        ["bench", ref rest @ ..] => bench::bench(rest).map(|()| true),
        ["time"] => {
            bench::time();
            Ok(true)
        }
        ref rest => options(rest).map(|(cases, seed, plain_only)| compare(cases, seed, plain_only)),
    };
    match done {
        Ok(true) => ExitCode::SUCCESS,
        Ok(false) => ExitCode::FAILURE,
        Err(message) => {
            eprintln!("{message}\n{USAGE}");
            ExitCode::FAILURE
        }
    }
}

fn options(words: &[&str]) -> Result<(u64, u64, bool), String> {
    let (mut cases, mut seed, mut plain_only) = (CASES, SEED, false);
    let mut words = words.iter();
    while let Some(&word) = words.next() {
        match word {
            "--plain-only" => plain_only = true,
            "--cases" => cases = value(word, words.next())?,
            "--seed" => seed = value(word, words.next())?,
            _ => return Err(format!("{word} is no option")),
        }
    }
    Ok((cases, seed, plain_only))
}

fn value(name: &str, word: Option<&&str>) -> Result<u64, String> {
    word.and_then(|word| word.parse().ok()).ok_or(format!("{name} needs a number"))
}

/// The numbers of one case. They depend on the seed and the case's number alone.
fn numbers(seed: u64, case: u64) -> Random {
    Random::new(Random::new(seed ^ case.wrapping_mul(0xD134_2543_DE82_EF95)).number())
}

fn compare(cases: u64, seed: u64, plain_only: bool) -> bool {
    let both = proved::LINKED && !plain_only;
    if !both && !plain_only {
        eprintln!("The proved library is not linked, so nothing is compared: build with REKDEUY_LIB naming its archive, or run with --plain-only.");
        return false;
    }
    let mut tally = Tally::default();
    for number in 0..cases {
        let mut random = numbers(seed, number);
        let case = generate::case(&mut random);
        let script = case.encode();
        let answer = match answer(&script, 8 * case.calls.len() + 32, both) {
            Ok(answer) => answer,
            Err(difference) => {
                println!("case {number} of seed {seed}: the answers differ\n{difference}");
                return false;
            }
        };
        if let Err(message) = tally.count(&script, &answer) {
            println!("case {number} of seed {seed}: {message}\nscript {}\nanswer {}", hex(&script), hex(&answer));
            return false;
        }
        // Scripts with a fault of their own, and outputs that may be too small.
        if number % 16 == 0 {
            let mut odd = script;
            if random.chance(60) {
                odd.truncate(random.below(odd.len() + 1));
            } else {
                let at = random.below(odd.len());
                odd[at] = random.byte();
            }
            let room = if random.chance(70) { 8 * odd.len() + 32 } else { random.below(answer.len() + 2) };
            match self::answer(&odd, room, both) {
                Ok(answer) => tally.unanswered += u64::from(answer.is_empty()),
                Err(difference) => {
                    println!("case {number} of seed {seed}, with a fault: the answers differ\n{difference}");
                    return false;
                }
            }
        }
    }
    let never = tally.print();
    if never > 0 {
        println!("{never} lines of the table fail");
    } else if both {
        println!("no answer differs");
    } else {
        println!("plain side alone: nothing was compared");
    }
    never == 0
}

/// The answer of both sides, or of the plain one alone; an error tells how they differ.
fn answer(script: &[u8], room: usize, both: bool) -> Result<Vec<u8>, String> {
    let mut plain = vec![0xAA; room];
    let length = plain::replay(script, &mut plain);
    plain.truncate(length);
    if both {
        let mut proved = vec![0x55; room];
        let length = proved::replay(script, &mut proved);
        if length > room {
            return Err(format!(
                "the proved side tells of {length} bytes in an output of {room}\nscript {}",
                hex(script)
            ));
        }
        proved.truncate(length);
        if plain != proved {
            let common = plain.iter().zip(&proved).take_while(|(one, other)| one == other).count();
            return Err(format!(
                "first difference at byte {common} of the answer{}\nscript {}\nplain  {}\nproved {}",
                place(common, plain.first().or(proved.first()).copied()),
                hex(script),
                hex(&plain),
                hex(&proved)
            ));
        }
    }
    Ok(plain)
}

/// Where in an answer a byte lies.
fn place(byte: usize, first: Option<u8>) -> String {
    if first == Some(0) && byte >= 5 {
        format!(", in the line of call {} (closing comes last), byte {} of it", (byte - 5) / 8, (byte - 5) % 8)
    } else {
        String::new()
    }
}

fn hex(bytes: &[u8]) -> String {
    bytes.iter().map(|byte| format!("{byte:02x}")).collect()
}

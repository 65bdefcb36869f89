//! The second program: document 01 said once more, in plain Rust, to be compared with the proved registry.
//! It is written from document 01 and its readings alone and shares no code with the registry.

mod answer;
mod build;
mod correction;
mod desk;
mod dictionary;
mod gen;
mod named;
mod procedures;
mod protocol;
mod random;
mod reader;
mod registry;
mod request;
mod table;
mod tally;
#[cfg(test)]
mod tests;

use dictionary::Dictionary;
use std::io::{self, BufReader, BufWriter, Read, StdinLock, Write};

const USAGE: &str =
    "usage: second cases | desk | read | hosts | gen SEED COUNT | corrections SEED COUNT | runs SEED RUNS STEPS \
    | desks SEED | widened SEED PAIRS | widened-mandatory SEED PAIRS | tally | named FILE | expected FILE";

fn main() {
    let words: Vec<String> = std::env::args().skip(1).collect();
    let words: Vec<&str> = words.iter().map(String::as_str).collect();
    let status = match Dictionary::load() {
        Ok(dictionary) => run(&dictionary, &words).unwrap_or_else(|error| complain(&error.to_string())),
        Err(error) => complain(&error),
    };
    std::process::exit(status);
}

fn complain(error: &str) -> i32 {
    eprintln!("second: {error}");
    2
}

/// Carries out one subcommand; the exit status.
fn run(dictionary: &Dictionary, words: &[&str]) -> io::Result<i32> {
    let stdin = io::stdin();
    let mut input = BufReader::with_capacity(1 << 16, stdin.lock());
    let stdout = io::stdout();
    let mut out = BufWriter::with_capacity(1 << 16, stdout.lock());
    match words {
        ["cases"] => cases(dictionary, &mut input, &mut out)?,
        ["desk"] => desk::run(dictionary, &mut input, &mut out)?,
        ["read"] => read(dictionary, &mut input, &mut out)?,
        ["hosts"] => hosts(dictionary, &mut input, &mut out)?,
        ["gen", seed, count] => gen::run(dictionary, whole(seed)?, whole(count)?, &mut out)?,
        ["corrections", seed, count] => gen::corrections(whole(seed)?, whole(count)?, &mut out)?,
        ["runs", seed, runs, steps] => gen::runs(dictionary, whole(seed)?, whole(runs)?, whole(steps)?, &mut out)?,
        ["widened", seed, pairs] => gen::widened(dictionary, whole(seed)?, whole(pairs)?, false, &mut out)?,
        ["widened-mandatory", seed, pairs] => gen::widened(dictionary, whole(seed)?, whole(pairs)?, true, &mut out)?,
        ["desks", seed] => gen::desks(dictionary, whole(seed)?, &mut out)?,
        ["tally"] => return Ok(tally::run(dictionary, &mut input)),
        ["named", file] => named::emit(dictionary, file)?,
        ["expected", file] => return Ok(named::compare(dictionary, file, &mut input)),
        _ => return Err(io::Error::new(io::ErrorKind::InvalidInput, USAGE)),
    }
    out.flush()?;
    Ok(0)
}

fn whole(word: &str) -> io::Result<u64> {
    word.parse().map_err(|_| io::Error::new(io::ErrorKind::InvalidInput, format!("{word} is no number")))
}

/// `second cases`: the case protocol. A result leaves before more input is waited for.
fn cases(dictionary: &Dictionary, input: &mut BufReader<StdinLock>, out: &mut impl Write) -> io::Result<()> {
    while let Some(case) = protocol::read_case(input)? {
        protocol::write_outcome(out, &registry::judge(dictionary, &case).outcome)?;
        if input.buffer().is_empty() {
            out.flush()?;
        }
    }
    Ok(())
}

/// `second read`: a field in, what the reader says of that message out.
fn read(dictionary: &Dictionary, input: &mut impl Read, out: &mut impl Write) -> io::Result<()> {
    while let Some(message) = protocol::next_field(input)? {
        for number in reader::verdict(dictionary, &message) {
            out.write_all(&number.to_be_bytes())?;
        }
    }
    Ok(())
}

/// `second hosts`: a field in, the Origin-Host of that message out, as a field.
fn hosts(dictionary: &Dictionary, input: &mut impl Read, out: &mut impl Write) -> io::Result<()> {
    while let Some(message) = protocol::next_field(input)? {
        protocol::write_field(out, &reader::origin_host(dictionary, &message))?;
    }
    Ok(())
}

//! Named cases: files under tests/cases that say, case by case, what document 01 means.
//! `emit` writes the calls of a file in the case protocol; `compare` reads the results that some program gave to
//! them and tells where they differ from the file. Only result bytes are looked at, so any program can be judged.

#[path = "named_bytes.rs"]
mod bytes;
#[path = "named_case.rs"]
mod case;
#[path = "named_show.rs"]
mod show;
#[path = "named_table.rs"]
mod table;
#[cfg(test)]
#[path = "named_test.rs"]
mod test;
#[path = "named_text.rs"]
mod text;

use crate::dictionary::Dictionary;
use crate::protocol::{read_outcome, write_case, Case};
use bytes::Words;
use case::Named;
use std::collections::HashMap;
use std::io::{self, BufWriter, Read, Write};
use text::{Fault, Line};

fn cases_of(dictionary: &Dictionary, lines: &[Line]) -> Result<Vec<Named>, Fault> {
    let mut words = Words { dictionary, usual: HashMap::new(), answers: HashMap::new() };
    case::read(&mut words, lines)
}

fn load(dictionary: &Dictionary, path: &str) -> Result<Vec<Named>, Fault> {
    cases_of(dictionary, &text::load(path)?)
}

/// `second named FILE`: the file's calls, in its order, to standard output.
pub fn emit(dictionary: &Dictionary, path: &str) -> io::Result<()> {
    let cases =
        load(dictionary, path).map_err(|fault| io::Error::new(io::ErrorKind::InvalidData, fault.to_string()))?;
    let mut out = BufWriter::new(io::stdout());
    for named in &cases {
        write_case(&mut out, &named.case)?;
    }
    out.flush()
}

/// `second expected FILE`: compares results with the file, prints each difference and at last how many cases differ.
/// The exit status is 0 exactly if none does.
pub fn compare(dictionary: &Dictionary, path: &str, input: &mut impl Read) -> i32 {
    let cases = match load(dictionary, path) {
        Ok(cases) => cases,
        Err(fault) => {
            eprintln!("{fault}");
            return 1;
        }
    };
    let (lines, differ) = compared(dictionary, &cases, input);
    for line in lines {
        println!("{line}");
    }
    println!("{} named cases, {differ} differ", cases.len());
    i32::from(differ != 0 || cases.is_empty())
}

/// A line for each difference, and how many cases have one. Bytes after the last result count as one more.
fn compared(dictionary: &Dictionary, cases: &[Named], input: &mut impl Read) -> (Vec<String>, usize) {
    let mut lines = Vec::new();
    let mut differ = 0;
    for named in cases {
        let op = if let Case::Request { .. } = named.case { 1 } else { 2 };
        let found = match read_outcome(op, input) {
            Ok(got) => show::differences(dictionary, &named.expected, &got),
            Err(error) => vec![format!("no result: {error}")],
        };
        differ += usize::from(!found.is_empty());
        lines.extend(found.iter().map(|line| format!("{}: {line}", named.name)));
    }
    let mut more = Vec::new();
    if input.read_to_end(&mut more).is_err() || !more.is_empty() {
        differ += 1;
        lines.push(format!("{} bytes after the last result", more.len()));
    }
    (lines, differ)
}

//! The desk program of document 01: frames from one stream, a line for each on another.

use crate::correction;
use crate::dictionary::Dictionary;
use crate::registry::{answer_request, Call, Reply};
use crate::table;
use std::io::{self, Read, Write};

pub const HOST: &[u8] = b"hss.example";
pub const REALM: &[u8] = b"example";
/// "at first the empty table"
pub const EMPTY_TABLE: [u8; 8] = [0, 0, 0, 8, 1, 0, 0, 0];

/// "A frame cut short, over 65,536 bytes, under 6, or of another version or kind" is none of the three.
enum Frame {
    Table(Vec<u8>),
    Request(Vec<u8>),
    Correction(Vec<u8>),
    Bad,
}

pub fn run(dictionary: &Dictionary, input: &mut impl Read, out: &mut impl Write) -> io::Result<()> {
    let mut table = EMPTY_TABLE.to_vec();
    let mut number: u64 = 0;
    // "Input that ends where a frame would start ends the run without a line."
    while let Some(frame) = next_frame(input)? {
        number += 1;
        writeln!(out, "{number} {}", line(dictionary, &mut table, &frame))?;
        out.flush()?;
        if let Frame::Bad = frame {
            break;
        }
    }
    Ok(())
}

/// "Each line: frame number, letter T, R or C, code (E before an Experimental one, 0 for a table taken), answer
/// length, entries listed."
fn line(dictionary: &Dictionary, table: &mut Vec<u8>, frame: &Frame) -> String {
    match frame {
        // "A table not valid prints code 4 and keeps the old."
        Frame::Table(data) if table::broken_rule(data).is_some() => "T 4 0 0".to_string(),
        Frame::Table(data) => {
            *table = data.clone();
            "T 0 0 0".to_string()
        }
        Frame::Request(data) => request_line(dictionary, table, data),
        Frame::Correction(data) => format!("C {} 0 0", correction::correct(table, data, &mut Vec::new())),
        Frame::Bad => "X 0 0 0".to_string(),
    }
}

fn request_line(dictionary: &Dictionary, table: &mut [u8], request: &[u8]) -> String {
    let (mut answer, mut cancel) = ([0; 4352], [0; 136]);
    let call = Call { table, request, host: HOST, realm: REALM, answer: &mut answer, cancel: &mut cancel };
    match answer_request(dictionary, call, &mut Vec::new()) {
        Reply::Refused(number) => format!("R {number} 0 0"),
        Reply::Answered { code, length, entries } => format!("R {code} {length} {entries}"),
    }
}

/// "whole length (4), version 1, kind (1 table, 2 request, 3 correction), data"
fn next_frame(input: &mut impl Read) -> io::Result<Option<Frame>> {
    let length = read_up_to(input, 4)?;
    if length.is_empty() {
        return Ok(None);
    }
    let whole = table::number(&length) as usize;
    if length.len() < 4 || !(6..=65536).contains(&whole) {
        return Ok(Some(Frame::Bad));
    }
    let rest = read_up_to(input, whole - 4)?;
    if rest.len() < whole - 4 {
        return Ok(Some(Frame::Bad));
    }
    let data = rest[2..].to_vec();
    Ok(Some(match (rest[0], rest[1]) {
        (1, 1) => Frame::Table(data),
        (1, 2) => Frame::Request(data),
        (1, 3) => Frame::Correction(data),
        _ => Frame::Bad,
    }))
}

fn read_up_to(input: &mut impl Read, length: usize) -> io::Result<Vec<u8>> {
    let mut bytes = Vec::with_capacity(length);
    input.take(length as u64).read_to_end(&mut bytes)?;
    Ok(bytes)
}

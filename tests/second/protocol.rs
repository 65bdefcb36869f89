//! The case protocol of the design paper: a run of cases on one stream, a result for each on another.
//! Numbers are big-endian; a field is a 4-byte length and that many bytes.

use std::io::{self, Read, Write};

pub enum Case {
    Request { table: Vec<u8>, request: Vec<u8>, host: Vec<u8>, realm: Vec<u8>, answer: Vec<u8>, cancel: Vec<u8> },
    Correction { table: Vec<u8>, frame: Vec<u8> },
}

#[derive(Clone, PartialEq, Eq, Debug)]
pub enum Outcome {
    Request { number: u32, length: u32, table: Vec<u8>, answer: Vec<u8>, cancel: Vec<u8> },
    Correction { number: u32, table: Vec<u8> },
}

const REQUEST: u8 = 1;
const CORRECTION: u8 = 2;

/// The next case; `None` where the input ends before one starts.
pub fn read_case(input: &mut impl Read) -> io::Result<Option<Case>> {
    let mut op = Vec::new();
    input.by_ref().take(1).read_to_end(&mut op)?;
    match op.first() {
        None => Ok(None),
        Some(&REQUEST) => Ok(Some(Case::Request {
            table: read_field(input)?,
            request: read_field(input)?,
            host: read_field(input)?,
            realm: read_field(input)?,
            answer: read_field(input)?,
            cancel: read_field(input)?,
        })),
        Some(&CORRECTION) => Ok(Some(Case::Correction { table: read_field(input)?, frame: read_field(input)? })),
        Some(&op) => Err(no_such_op(op)),
    }
}

pub fn write_case(out: &mut impl Write, case: &Case) -> io::Result<()> {
    match case {
        Case::Request { table, request, host, realm, answer, cancel } => {
            out.write_all(&[REQUEST])?;
            for field in [table, request, host, realm, answer, cancel] {
                write_field(out, field)?;
            }
            Ok(())
        }
        Case::Correction { table, frame } => {
            out.write_all(&[CORRECTION])?;
            write_field(out, table)?;
            write_field(out, frame)
        }
    }
}

pub fn read_outcome(op: u8, input: &mut impl Read) -> io::Result<Outcome> {
    match op {
        REQUEST => Ok(Outcome::Request {
            number: read_number(input)?,
            length: read_number(input)?,
            table: read_field(input)?,
            answer: read_field(input)?,
            cancel: read_field(input)?,
        }),
        CORRECTION => Ok(Outcome::Correction { number: read_number(input)?, table: read_field(input)? }),
        op => Err(no_such_op(op)),
    }
}

pub fn write_outcome(out: &mut impl Write, outcome: &Outcome) -> io::Result<()> {
    match outcome {
        Outcome::Request { number, length, table, answer, cancel } => {
            out.write_all(&number.to_be_bytes())?;
            out.write_all(&length.to_be_bytes())?;
            write_field(out, table)?;
            write_field(out, answer)?;
            write_field(out, cancel)
        }
        Outcome::Correction { number, table } => {
            out.write_all(&number.to_be_bytes())?;
            write_field(out, table)
        }
    }
}

/// A field where one may start; `None` where the input ends.
pub fn next_field(input: &mut impl Read) -> io::Result<Option<Vec<u8>>> {
    let mut length = Vec::with_capacity(4);
    input.by_ref().take(4).read_to_end(&mut length)?;
    match length.as_slice() {
        [] => Ok(None),
        &[a, b, c, d] => read_bytes(input, u32::from_be_bytes([a, b, c, d])).map(Some),
        _ => Err(cut_short()),
    }
}

fn read_field(input: &mut impl Read) -> io::Result<Vec<u8>> {
    let length = read_number(input)?;
    read_bytes(input, length)
}

/// A length field is not believed: room is made as bytes come.
fn read_bytes(input: &mut impl Read, length: u32) -> io::Result<Vec<u8>> {
    let mut bytes = Vec::with_capacity(length.min(1 << 16) as usize);
    let read = input.by_ref().take(u64::from(length)).read_to_end(&mut bytes)?;
    if read == length as usize {
        Ok(bytes)
    } else {
        Err(cut_short())
    }
}

fn read_number(input: &mut impl Read) -> io::Result<u32> {
    let mut bytes = [0; 4];
    input.read_exact(&mut bytes)?;
    Ok(u32::from_be_bytes(bytes))
}

pub fn write_field(out: &mut impl Write, bytes: &[u8]) -> io::Result<()> {
    out.write_all(&(bytes.len() as u32).to_be_bytes())?;
    out.write_all(bytes)
}

fn cut_short() -> io::Error {
    io::Error::new(io::ErrorKind::UnexpectedEof, "a case is cut short")
}

fn no_such_op(op: u8) -> io::Error {
    io::Error::new(io::ErrorKind::InvalidData, format!("no op {op}"))
}

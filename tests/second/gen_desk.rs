// `second desks SEED`: the input of one run of the desk. Tables, requests and corrections, each over the table that the
// frames before it left; half of the runs end oddly, some with a frame behind that nobody may read.

use super::keys::Keys;
use super::{after, correction, damage, request, table};
use crate::build;
use crate::desk::{EMPTY_TABLE, HOST, REALM};
use crate::dictionary::Dictionary;
use crate::protocol::Case;
use crate::random::Random;

const TABLE: u8 = 1;
const REQUEST: u8 = 2;
const CORRECTION: u8 = 3;

/// "whole length (4), version 1, kind (1 table, 2 request, 3 correction), data"
fn frame(kind: u8, data: &[u8]) -> Vec<u8> {
    let mut bytes = ((6 + data.len()) as u32).to_be_bytes().to_vec();
    bytes.extend_from_slice(&[1, kind]);
    bytes.extend_from_slice(data);
    bytes
}

pub fn run(random: &mut Random, dictionary: &Dictionary, keys: &Keys) -> Vec<u8> {
    let mut input = Vec::new();
    let mut held = EMPTY_TABLE.to_vec();
    if random.chance(7, 8) {
        let count = random.within(1, 4);
        held = build::table(&table::records_of(random, count));
        input.extend(frame(TABLE, &held));
    }
    for _ in 0..random.within(0, 24) {
        input.extend(next(random, dictionary, keys, &mut held));
    }
    if random.chance(1, 2) {
        let last = next(random, dictionary, keys, &mut held);
        let behind = next(random, dictionary, keys, &mut held);
        input.extend(spoiled(random, last, behind));
    }
    input
}

/// A frame over the table, which becomes the one that the frame leaves.
fn next(random: &mut Random, dictionary: &Dictionary, keys: &Keys, held: &mut Vec<u8>) -> Vec<u8> {
    let records = build::records(held);
    match random.below(16) {
        0 => {
            *held = build::table(&table::records(random));
            frame(TABLE, held)
        }
        1 => frame(TABLE, &table::damaged(random)),
        2..=5 => framed(dictionary, correction::over(random, &records), held),
        _ => {
            let mut plan = request::over(random, keys, &records);
            if random.chance(1, 4) {
                damage::apply(random, keys, &mut plan);
            }
            framed(dictionary, plan.case(random), held)
        }
    }
}

/// The case's request or correction as a frame of the desk.
fn framed(dictionary: &Dictionary, case: Case, held: &mut Vec<u8>) -> Vec<u8> {
    let (kind, data, case) = match case {
        Case::Request { request, .. } => (REQUEST, request.clone(), at_the_desk(held, request)),
        Case::Correction { frame, .. } => (CORRECTION, frame.clone(), Case::Correction { table: held.clone(), frame }),
    };
    *held = after(dictionary, &case);
    frame(kind, &data)
}

/// The request with the desk's own table, names and buffers.
fn at_the_desk(table: &[u8], request: Vec<u8>) -> Case {
    Case::Request {
        table: table.to_vec(),
        request,
        host: HOST.to_vec(),
        realm: REALM.to_vec(),
        answer: vec![0; 4352],
        cancel: vec![0; 136],
    }
}

/// "A frame cut short, over 65,536 bytes, under 6, or of another version or kind": the first ends the input, and behind the others stands a frame more.
fn spoiled(random: &mut Random, mut frame: Vec<u8>, behind: Vec<u8>) -> Vec<u8> {
    let fault = random.below(6);
    match fault {
        0 => frame.truncate(random.within(1, 3)),
        1 => frame.truncate(random.below(frame.len())),
        2 => frame[4] = random.pick(&[0, 2, 0x81, 0xFF]),
        3 => frame[5] = random.pick(&[0, 4, 5, 0x81, 0xFF]),
        4 => lengthen(random, &mut frame),
        _ => frame[0..4].copy_from_slice(&random.pick(&[0u32, 1, 4, 5]).to_be_bytes()),
    }
    if fault > 1 {
        frame.extend(behind);
    }
    frame
}

/// A length field over 65,536, with as many bytes behind it as it says or with fewer; or one of 65,536 itself, which is right.
fn lengthen(random: &mut Random, frame: &mut Vec<u8>) {
    let size: u32 = random.pick(&[65_536, 65_537, 65_542, 0x0100_0000, 0xFFFF_FFFF]);
    frame[0..4].copy_from_slice(&size.to_be_bytes());
    if size < 70_000 {
        frame.resize(size as usize, random.byte());
    }
}

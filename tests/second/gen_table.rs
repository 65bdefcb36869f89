// Tables: valid ones of many sizes, and tables with one rule of document 01's "The table" broken.

use crate::build::{table, table_of, Record, RECORD};
use crate::random::Random;
use std::collections::BTreeSet;

/// "Table at most 240 records."
const MOST: usize = 240;

/// Few networks, so that lists and requests often agree. The zero one looks like an unused place.
pub const PLMNS: [[u8; 3]; 6] =
    [[0x00, 0xF1, 0x10], [0x62, 0xF2, 0x10], [0x62, 0xF2, 0x20], [0x13, 0x00, 0x14], [0x01, 0xF1, 0x10], [0, 0, 0]];

/// Records with different IMSIs: nine times in ten at most 8, else up to 240.
pub fn records(random: &mut Random) -> Vec<Record> {
    let count = if random.chance(9, 10) {
        random.pick(&[0, 1, 1, 1, 2, 2, 3, 4, 5, 6, 7, 8])
    } else if random.chance(1, 6) {
        MOST
    } else {
        random.within(9, MOST)
    };
    records_of(random, count)
}

pub fn records_of(random: &mut Random, count: usize) -> Vec<Record> {
    let mut records = Vec::new();
    let mut taken = BTreeSet::new();
    while records.len() < count {
        let imsi = imsi(random, &records);
        if taken.insert(imsi.clone()) {
            records.push(record(random, imsi));
        }
    }
    records
}

/// An IMSI of 6 to 15 digits, often close to one that is there.
fn imsi(random: &mut Random, records: &[Record]) -> String {
    if !records.is_empty() && random.chance(1, 4) {
        let place = random.below(records.len());
        return near_digits(random, &records[place].imsi);
    }
    let length = if random.chance(1, 2) { 15 } else { random.within(6, 15) };
    digits(random, length)
}

/// Digits that differ from these in one digit or in their number, 6 to 15 of them.
pub fn near_digits(random: &mut Random, given: &str) -> String {
    let mut near = given.to_string();
    match random.below(3) {
        0 if near.len() > 6 => drop(near.pop()),
        1 if near.len() < 15 => near.push('0'),
        _ => {
            let place = random.below(near.len());
            let other = if near[place..].starts_with('9') { "0" } else { "9" };
            near.replace_range(place..place + 1, other);
        }
    }
    near
}

pub fn digits(random: &mut Random, count: usize) -> String {
    (0..count).map(|_| (b'0' + random.below(10) as u8) as char).collect()
}

fn record(random: &mut Random, imsi: String) -> Record {
    let mme = optional_name(random);
    let sgsn = if random.chance(1, 5) { mme.clone() } else { optional_name(random) };
    let named = u8::from(!mme.is_empty()) | u8::from(!sgsn.is_empty()) << 1;
    let length = random.pick(&[0, 0, 14, 15]);
    Record {
        imsi,
        change: change(random),
        subscription: random.pick(&[0, 1, 1, 2, 2, 3, 3, 3]),
        restriction: restriction(random),
        plmns: plmns(random),
        purged: random.byte() & random.pick(&[0, 3]) & named,
        mme,
        sgsn,
        uplink: random.number() >> random.below(32),
        downlink: random.pick(&[0, 1, 50_000_000, 0xFFFF_FFFF]),
        imei: digits(random, length),
    }
}

/// A change number, often at the edges.
pub fn change(random: &mut Random) -> u32 {
    let other = random.number();
    random.pick(&[0, 1, 0xFFFF_FFFF, 0xFFFF_FFFE, 0xFF, other, other])
}

pub fn restriction(random: &mut Random) -> u32 {
    match random.below(8) {
        0 => random.number(),
        1 | 2 => 1 << random.below(6),
        3 => random.below(32) as u32,
        4 => 1 << random.below(32),
        _ => 0,
    }
}

pub fn plmns(random: &mut Random) -> Vec<[u8; 3]> {
    let count = random.pick(&[0, 0, 0, 0, 1, 2, 3, 4, 5, 7, 8]);
    (0..count).map(|_| random.pick(&PLMNS)).collect()
}

fn optional_name(random: &mut Random) -> Vec<u8> {
    if random.chance(1, 4) {
        Vec::new()
    } else {
        name(random)
    }
}

/// A name of 1 to 64 name bytes, "0x21 to 0x7E".
pub fn name(random: &mut Random) -> Vec<u8> {
    let length = match random.below(8) {
        0 => 1,
        1 => 64,
        2 => random.within(1, 64),
        _ => random.within(2, 16),
    };
    (0..length).map(|_| random.within(0x21, 0x7E) as u8).collect()
}

/// A name that differs from this one, not empty, in one byte or in its length.
pub fn near_name(random: &mut Random, given: &[u8]) -> Vec<u8> {
    let mut near = given.to_vec();
    match random.below(4) {
        0 if near.len() > 1 => drop(near.pop()),
        1 if near.len() < 64 => near.push(random.within(0x21, 0x7E) as u8),
        2 if near[0].is_ascii_alphabetic() => near[0] ^= 0x20,
        _ => {
            let place = random.below(near.len());
            near[place] = if near[place] == 0x7E { 0x21 } else { near[place] + 1 };
        }
    }
    near
}

/// A table with one rule broken, each rule about as often as another.
pub fn damaged(random: &mut Random) -> Vec<u8> {
    let rule = random.below(HEADER_RULES + RECORD_RULES);
    loop {
        let count = if random.chance(1, 16) { random.within(1, MOST) } else { random.pick(&[1, 1, 2, 3, 5, 8]) };
        let mut bytes = table(&records_of(random, count));
        let spoiled = if rule < HEADER_RULES {
            spoil_header(random, &mut bytes, rule)
        } else {
            spoil_one_record(random, &mut bytes, rule - HEADER_RULES)
        };
        if spoiled {
            return bytes;
        }
    }
}

const HEADER_RULES: usize = 7;

/// The length, the header and the order. False where the table gives no room for the damage.
fn spoil_header(random: &mut Random, bytes: &mut Vec<u8>, rule: usize) -> bool {
    let count = (bytes.len() - 8) / RECORD;
    match rule {
        0 => bytes.truncate(random.below(8)),
        1 => {
            let wrong =
                (bytes.len() as u32).wrapping_add(random.pick(&[1, 0xFFFF_FFFF, 256, 0x0001_0000, 0x0100_0000]));
            bytes[0..4].copy_from_slice(&wrong.to_be_bytes());
        }
        2 => bytes[4] = random.pick(&[0, 2, 3, 0x81, 0xFF]),
        3 => bytes[5] = random.pick(&[1, 2, 0x80, 0xFF]),
        4 => spoil_count(random, bytes),
        5 => spoil_size(random, bytes, count),
        _ => return spoil_order(random, bytes, count),
    }
    true
}

/// More records than 240: in truth, or by the count alone.
fn spoil_count(random: &mut Random, bytes: &mut Vec<u8>) {
    if random.chance(1, 2) {
        *bytes = table(&records_of(random, MOST + 1));
    } else {
        let wrong: u16 = random.pick(&[241, 255, 256, 257, 0x0100, 0x8001, 0xFFFF]);
        bytes[6..8].copy_from_slice(&wrong.to_be_bytes());
    }
}

/// A length that is not 8 + 256 × count: by the count, or by bytes more or less.
fn spoil_size(random: &mut Random, bytes: &mut Vec<u8>, count: usize) {
    if random.chance(1, 2) {
        let wrong = if random.chance(1, 2) { count - 1 } else { (count + 1) % (MOST + 1) };
        bytes[6..8].copy_from_slice(&(wrong as u16).to_be_bytes());
        return;
    }
    let length = bytes.len();
    let wrong = random.pick(&[length - 1, length - 4, length - 256, length + 1, length + 4, length + 256]);
    bytes.resize(wrong, 0);
    bytes[0..4].copy_from_slice(&(wrong as u32).to_be_bytes());
}

/// Two neighbours that change places, or have one IMSI.
fn spoil_order(random: &mut Random, bytes: &mut Vec<u8>, count: usize) -> bool {
    if count < 2 {
        return false;
    }
    let mut records: Vec<Vec<u8>> = bytes[8..].chunks(RECORD).map(<[u8]>::to_vec).collect();
    let place = random.below(count - 1);
    if random.chance(1, 2) {
        records.swap(place, place + 1);
    } else {
        let imsi = records[place][0..16].to_vec();
        records[place + 1][0..16].copy_from_slice(&imsi);
    }
    *bytes = table_of(&records);
    true
}

/// One record, which mostly moves to where its bytes 0–15 belong, so that no other rule is broken.
fn spoil_one_record(random: &mut Random, bytes: &mut Vec<u8>, rule: usize) -> bool {
    let mut records: Vec<Vec<u8>> = bytes[8..].chunks(RECORD).map(<[u8]>::to_vec).collect();
    let place = random.below(records.len());
    let spoiled = spoil_record(random, &mut records[place], rule);
    if random.chance(3, 4) {
        records.sort_by(|a, b| a[0..16].cmp(&b[0..16]));
    }
    *bytes = table_of(&records);
    spoiled
}

const RECORD_RULES: usize = 18;

/// A field with a count, its room, the counts it may not have, and bytes it may not hold.
struct Counted {
    at: usize,
    room: usize,
    counts: &'static [u8],
    bytes: &'static [u8],
}

const IMSI: Counted = Counted { at: 0, room: 15, counts: &[0, 1, 5, 5, 16, 16, 17, 255], bytes: NO_DIGIT };
const MME: Counted = Counted { at: 64, room: 64, counts: &[65, 65, 66, 128, 255], bytes: NO_NAME_BYTE };
const SGSN: Counted = Counted { at: 129, room: 64, counts: &[65, 65, 66, 128, 255], bytes: NO_NAME_BYTE };
const IMEI: Counted = Counted { at: 204, room: 15, counts: &[1, 13, 13, 16, 16, 255], bytes: NO_DIGIT };
const NO_DIGIT: &[u8] = &[0, 0x2F, 0x3A, 0x20, 0x41, 0xB5, 0xFF];
const NO_NAME_BYTE: &[u8] = &[0, 0x0A, 0x20, 0x7F, 0x80, 0xA1, 0xFF];

/// "other unused bits, unlisted bytes ... are zero".
const UNLISTED: [(usize, usize); 5] = [(21, 23), (29, 31), (57, 63), (194, 195), (220, 255)];

fn spoil_record(random: &mut Random, record: &mut [u8], rule: usize) -> bool {
    match rule {
        0..=2 => return spoil_counted(random, record, &IMSI, rule),
        3..=5 => return spoil_counted(random, record, &MME, rule - 3),
        6..=8 => return spoil_counted(random, record, &SGSN, rule - 6),
        9..=11 => return spoil_counted(random, record, &IMEI, rule - 9),
        12 => record[20] |= 1 << random.within(2, 7),
        13 => {
            let (first, last) = random.pick(&UNLISTED);
            record[random.within(first, last)] = random.pick(&[1, 2, 0x30, 0x80, 0xFF]);
        }
        14 => record[28] = random.pick(&[9, 10, 0x80, 0xFF]),
        15 if record[28] < 8 => record[random.within(32 + 3 * record[28] as usize, 55)] = random.pick(&[1, 0xF1, 0xFF]),
        16 => record[56] |= 1 << random.within(2, 7),
        17 if record[64] == 0 && record[129] == 0 => record[56] = random.pick(&[1, 2, 3]),
        17 if record[64] == 0 => record[56] |= 1,
        17 if record[129] == 0 => record[56] |= 2,
        _ => return false,
    }
    true
}

/// A count that is not allowed, the bytes it covers and the end past them mostly in order.
fn spoil_only_count(random: &mut Random, record: &mut [u8], field: &Counted) {
    let count = random.pick(field.counts);
    record[field.at] = count;
    if random.chance(3, 4) {
        for place in 1..=field.room {
            record[field.at + place] = if place <= count as usize { b'7' } else { 0 };
        }
    }
}

/// The count, then a byte that it covers, then a byte past it.
fn spoil_counted(random: &mut Random, record: &mut [u8], field: &Counted, part: usize) -> bool {
    let count = record[field.at] as usize;
    match part {
        0 => spoil_only_count(random, record, field),
        1 if count > 0 => record[field.at + random.within(1, count)] = random.pick(field.bytes),
        2 if count < field.room => {
            record[field.at + random.within(count + 1, field.room)] = random.pick(&[1, 0x30, 0x61, 0xFF])
        }
        _ => return false,
    }
    true
}

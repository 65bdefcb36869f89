// Corrections: frames that document 01's "Corrections" takes, and frames damaged in each field.

use super::table;
use crate::build::{self, imsi_field, Record};
use crate::protocol::Case;
use crate::random::Random;

/// A frame as planned. `length_field` and `kept` spoil the finished bytes.
struct Frame {
    kind: u8,
    imsi: [u8; 16],
    seen: u32,
    value: Vec<u8>,
    version: u8,
    length_field: Option<u16>,
    kept: Option<usize>,
}

pub fn case(random: &mut Random) -> Case {
    let records = table::records(random);
    let mut bytes = build::table(&records);
    let mut frame = ordinary(random, &records);
    if random.chance(1, 2) {
        for _ in 0..random.pick(&[1, 1, 1, 2]) {
            damage(random, &mut frame);
        }
        if random.chance(1, 5) {
            bytes = table::damaged(random);
        }
    }
    Case::Correction { table: bytes, frame: finished(frame) }
}

/// A correction over these records, one in four of them damaged.
pub fn over(random: &mut Random, records: &[Record]) -> Case {
    let mut frame = ordinary(random, records);
    if random.chance(1, 4) {
        damage(random, &mut frame);
    }
    Case::Correction { table: build::table(records), frame: finished(frame) }
}

fn finished(frame: Frame) -> Vec<u8> {
    let mut bytes = build::correction(frame.kind, &frame.imsi, frame.seen, &frame.value);
    bytes[2] = frame.version;
    if let Some(length) = frame.length_field {
        bytes[0..2].copy_from_slice(&length.to_be_bytes());
    }
    if let Some(kept) = frame.kept {
        bytes.truncate(kept);
    }
    bytes
}

/// A frame for a record that is there, with the change number it has.
fn ordinary(random: &mut Random, records: &[Record]) -> Frame {
    let place = random.below(records.len().max(1));
    let (imsi, seen) = match records.get(place) {
        Some(record) => (record.imsi.clone(), record.change),
        None => (table::digits(random, 15), table::change(random)),
    };
    let kind = random.within(1, 4) as u8;
    Frame {
        kind,
        imsi: imsi_field(&imsi),
        seen,
        value: value(random, kind),
        version: 1,
        length_field: None,
        kept: None,
    }
}

/// "Kinds: 1 byte 20; 2 bytes 24–27; 3 byte 28 and 32–55 (25 bytes); 4 bytes 196–203."
fn value(random: &mut Random, kind: u8) -> Vec<u8> {
    match kind {
        1 => vec![random.below(4) as u8],
        2 => table::restriction(random).to_be_bytes().to_vec(),
        3 => {
            let plmns = table::plmns(random);
            let mut value = vec![plmns.len() as u8];
            value.extend(plmns.concat());
            value.resize(25, 0);
            value
        }
        _ => random.bytes(8),
    }
}

fn damage(random: &mut Random, frame: &mut Frame) {
    match random.below(16) {
        0 => frame.kept = Some(random.pick(&[0, 1, 2, 4, 20, 23, 23])),
        1 => short_with_right_length(random, frame),
        2 | 3 => frame.length_field = Some(wrong_length(random, frame)),
        4 => frame.version = random.pick(&[0, 2, 0x81, 0xFF]),
        5 => frame.kind = random.pick(&[0, 5, 6, 0x81, 0xFF]),
        6 | 7 => wrong_for_kind(random, frame),
        8 | 9 => spoil_value(random, frame),
        10 => spoil_list(random, frame),
        11 | 12 => spoil_imsi(random, frame),
        13 | 14 => spoil_seen(random, frame),
        _ => frame.kind = random.within(1, 4) as u8,
    }
}

/// Under 24 bytes with a length field that says so.
fn short_with_right_length(random: &mut Random, frame: &mut Frame) {
    let kept = random.within(2, 23);
    frame.kept = Some(kept);
    frame.length_field = Some(kept as u16);
}

fn wrong_length(random: &mut Random, frame: &Frame) -> u16 {
    let right = (24 + frame.value.len()) as u16;
    right.wrapping_add(random.pick(&[1, 0xFFFF, 0x100, 0x8000, 24, 0u16.wrapping_sub(right)]))
}

/// A value one byte off, of another kind's size, or so long that two bytes cannot say it.
fn wrong_for_kind(random: &mut Random, frame: &mut Frame) {
    let right = frame.value.len();
    let size = if random.chance(1, 12) {
        random.pick(&[65_511, 65_512, 65_536 + right, 65_536 + right])
    } else {
        random.pick(&[0, 1, 4, 8, 25, 24, right.saturating_sub(1), right + 1])
    };
    frame.value.resize(size, 0);
}

/// "value not valid in a table": unused bits for kind 1; for kind 3 a count over 8.
fn spoil_value(random: &mut Random, frame: &mut Frame) {
    frame.kind = random.pick(&[1, 3]);
    frame.value = value(random, frame.kind);
    if frame.kind == 1 {
        frame.value[0] |= 1 << random.within(2, 7);
    } else {
        frame.value[0] = random.pick(&[9, 10, 0x80, 0xFF]);
    }
}

/// For kind 3, a byte past the counted PLMNs that is not zero.
fn spoil_list(random: &mut Random, frame: &mut Frame) {
    frame.kind = 3;
    frame.value = value(random, 3);
    let counted = random.below(8);
    frame.value[0] = counted as u8;
    frame.value[random.within(1 + 3 * counted, 24)] = random.pick(&[1, 0xF1, 0xFF]);
}

/// An IMSI that is not there, or is none at all.
fn spoil_imsi(random: &mut Random, frame: &mut Frame) {
    if random.chance(1, 3) {
        let length = random.within(6, 15);
        frame.imsi = imsi_field(&table::digits(random, length));
        return;
    }
    let place = if random.chance(1, 4) { 0 } else { random.below(16) };
    frame.imsi[place] = random.pick(&[0, 5, 16, b'0', b'9', 0xFF]);
}

fn spoil_seen(random: &mut Random, frame: &mut Frame) {
    frame.seen = match random.below(3) {
        0 => frame.seen.wrapping_add(random.pick(&[1, 0xFFFF_FFFF, 0x100, 0x8000_0000])),
        1 => frame.seen.swap_bytes(),
        _ => table::change(random),
    };
}

//! "Corrections" of document 01: a frame changes one field of one record.

use crate::table;
use std::ops::Range;

/// Length (2), version, kind, IMSI (16), change number seen (4).
const HEAD: usize = 24;

/// The stretches of a record that a kind stores, in the value's order.
fn stretches(kind: u8) -> Option<&'static [Range<usize>]> {
    match kind {
        // "1 byte 20; 2 bytes 24–27; 3 byte 28 and 32–55 (25 bytes); 4 bytes 196–203"
        1 => Some(&[table::SUBSCRIPTION..table::SUBSCRIPTION + 1]),
        2 => Some(&[table::RESTRICTION]),
        3 => Some(&[table::PLMN_COUNT..table::PLMN_COUNT + 1, table::PLMNS]),
        4 => Some(&[table::UPLINK, table::DOWNLINK]),
        _ => None,
    }
}

/// "15 value not valid in a table": the note of what is not valid.
fn value_fault(kind: u8, value: &[u8]) -> Option<&'static str> {
    match kind {
        1 if !table::subscription_valid(value[0]) => Some("correction 15 kind 1"),
        3 if !table::plmn_count_valid(value[0]) => Some("correction 15 kind 3 count"),
        3 if !table::plmn_end_valid(value[0], &value[1..]) => Some("correction 15 kind 3 end"),
        _ => None,
    }
}

/// A frame that no number from 11 to 15 refuses.
struct Frame<'a> {
    kind: u8,
    stretches: &'static [Range<usize>],
    imsi: &'a [u8],
    seen: u32,
    value: &'a [u8],
}

type Refused = (u32, String);

/// The number of a correction; 0 leaves the table changed, any other as it was.
pub fn correct(table: &mut [u8], frame: &[u8], notes: &mut Vec<String>) -> u32 {
    match try_correct(table, frame) {
        Ok(stored) => {
            notes.extend(stored);
            0
        }
        Err((number, note)) => {
            if number == 4 {
                notes.extend(table::broken_rule(table).map(|rule| format!("table {rule}")));
            }
            notes.push(note);
            number
        }
    }
}

/// "Numbers, in order, nothing changed"
fn try_correct(table: &mut [u8], frame: &[u8]) -> Result<Vec<String>, Refused> {
    // "4 table"
    if table::broken_rule(table).is_some() {
        return Err((4, "correction 4".to_string()));
    }
    let frame = read(frame)?;
    // "16 no such IMSI"
    let place = table::find(table, frame.imsi).ok_or((16, "correction 16".to_string()))?;
    let record = &mut table[place];
    // "17 change number differs"
    if table::number(&record[table::CHANGE]) != frame.seen {
        return Err((17, "correction 17".to_string()));
    }
    Ok(store(record, &frame))
}

fn read(frame: &[u8]) -> Result<Frame<'_>, Refused> {
    // "11 under 24 bytes or length field wrong"
    if frame.len() < HEAD {
        return Err((11, "correction 11 short".to_string()));
    }
    if table::number(&frame[0..2]) as usize != frame.len() {
        return Err((11, "correction 11 length".to_string()));
    }
    // "12 version"
    if frame[2] != 1 {
        return Err((12, "correction 12".to_string()));
    }
    // "13 kind"
    let kind = frame[3];
    let stretches = stretches(kind).ok_or((13, "correction 13".to_string()))?;
    // "14 length wrong for the kind"
    let value = &frame[HEAD..];
    if value.len() != stretches.iter().map(|stretch| stretch.len()).sum::<usize>() {
        return Err((14, "correction 14".to_string()));
    }
    // "15 value not valid in a table"
    match value_fault(kind, value) {
        Some(note) => Err((15, note.to_string())),
        None => Ok(Frame { kind, stretches, imsi: &frame[4..20], seen: table::number(&frame[20..24]), value }),
    }
}

/// "stores the value and adds 1 to the change number, 4,294,967,295 going to 0"
fn store(record: &mut [u8], frame: &Frame) -> Vec<String> {
    let mut value = frame.value;
    for stretch in frame.stretches {
        let (part, rest) = value.split_at(stretch.len());
        record[stretch.clone()].copy_from_slice(part);
        value = rest;
    }
    let change = frame.seen.wrapping_add(1);
    record[table::CHANGE].copy_from_slice(&change.to_be_bytes());
    let mut notes = vec![format!("correction 0 kind {}", frame.kind)];
    if change == 0 {
        notes.push("correction 0 wrapped".to_string());
    }
    notes
}

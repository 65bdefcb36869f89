//! Where a result differs from what a named case expects, in words a reader can act on.
//! The answer is taken apart here by itself: an AVP a line, the lines of a group deeper.

use crate::dictionary::{Dictionary, Kind};
use crate::protocol::Outcome;

/// One line for each part of the result that differs.
pub fn differences(dictionary: &Dictionary, expected: &Outcome, got: &Outcome) -> Vec<String> {
    let mut lines = Vec::new();
    match (expected, got) {
        (
            Outcome::Request { number, length, table, answer, cancel },
            Outcome::Request { number: number2, length: length2, table: table2, answer: answer2, cancel: cancel2 },
        ) => {
            unequal(&mut lines, "number", *number, *number2);
            unequal(&mut lines, "answer length", *length, *length2);
            let sizes = (*length as usize, *length2 as usize);
            lines.extend(answers(dictionary, (answer, sizes.0), (answer2, sizes.1)));
            lines.extend(places("cancel buffer", cancel, cancel2));
            lines.extend(places("table", table, table2));
        }
        (Outcome::Correction { number, table }, Outcome::Correction { number: number2, table: table2 }) => {
            unequal(&mut lines, "number", *number, *number2);
            lines.extend(places("table", table, table2));
        }
        _ => lines.push("a result of the other operation".to_string()),
    }
    lines
}

fn unequal(lines: &mut Vec<String>, what: &str, expected: u32, got: u32) {
    if expected != got {
        lines.push(format!("{what}: expected {expected}, got {got}"));
    }
}

/// Where two buffers differ first; a place in the table is told by record and offset too.
fn places(what: &str, expected: &[u8], got: &[u8]) -> Option<String> {
    if expected.len() != got.len() {
        return Some(format!("{what}: expected {} bytes, got {}", expected.len(), got.len()));
    }
    let place = (0..expected.len()).find(|&i| expected[i] != got[i])?;
    let record = match place.checked_sub(8) {
        Some(offset) if what == "table" => format!(" (record {}, offset {})", offset / 256, offset % 256),
        _ => String::new(),
    };
    let (e, g) = (expected[place], got[place]);
    Some(format!("{what}: byte {place}{record}: expected {e:02X}, got {g:02X}"))
}

/// How two answer buffers differ: by AVPs inside the answers, by place after them.
fn answers(dictionary: &Dictionary, expected: (&[u8], usize), got: (&[u8], usize)) -> Vec<String> {
    let differ = match places("answer buffer", expected.0, got.0) {
        Some(line) => line,
        None => return Vec::new(),
    };
    let shown = |(buffer, length): (&[u8], usize)| lines_of(dictionary, &buffer[..length.min(buffer.len())]);
    let (expected, got) = (shown(expected), shown(got));
    let mut lines = vec![differ];
    for i in 0..expected.len().max(got.len()) {
        let pair = (expected.get(i), got.get(i));
        if pair.0 != pair.1 {
            lines.push(format!("  expected {}", pair.0.map_or("no more", |line| line.as_str())));
            lines.push(format!("  got      {}", pair.1.map_or("no more", |line| line.as_str())));
        }
    }
    lines
}

fn four(bytes: &[u8], from: usize) -> u32 {
    (from..from + 4).fold(0, |number, i| number << 8 | u32::from(bytes.get(i).copied().unwrap_or(0)))
}

fn hex(bytes: &[u8]) -> String {
    bytes.iter().map(|byte| format!("{byte:02X}")).collect()
}

/// The header on a line, then each AVP on one.
fn lines_of(dictionary: &Dictionary, message: &[u8]) -> Vec<String> {
    if message.len() < 20 {
        return vec![hex(message)];
    }
    let mut lines = vec![format!("header {}", hex(&message[..20]))];
    avps(dictionary, &message[20..], 1, &mut lines);
    lines
}

fn avps(dictionary: &Dictionary, mut list: &[u8], depth: usize, lines: &mut Vec<String>) {
    let indent = "  ".repeat(depth);
    while !list.is_empty() {
        let (code, flags, length) = (four(list, 0), four(list, 4) >> 24, (four(list, 4) & 0xFF_FFFF) as usize);
        let header = if flags & 0x80 != 0 { 12 } else { 8 };
        let vendor = if header == 12 { four(list, 8) } else { 0 };
        if length < header || length > list.len() {
            lines.push(format!("{indent}no AVP: {}", hex(list)));
            return;
        }
        let name = dictionary.name(vendor, code).unwrap_or("unknown");
        let head = format!("{indent}{name} ({vendor}, {code}) flags {flags:02X} length {length}");
        let data = &list[header..length];
        if dictionary.kind(vendor, code) == Some(Kind::Group) || code == 279 && vendor == 0 {
            lines.push(head);
            avps(dictionary, data, depth + 1, lines);
        } else {
            lines.push(format!("{head} {}", hex(data)));
        }
        let end = list.len().min((length + 3) / 4 * 4);
        if list[length..end].iter().any(|&byte| byte != 0) {
            lines.push(format!("{indent}padding {}", hex(&list[length..end])));
        }
        list = &list[end..];
    }
}

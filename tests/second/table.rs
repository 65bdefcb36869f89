//! "The table" of document 01: its layout, when it is valid, and the fields of a record.

use crate::build::RECORD;
use std::ops::{Range, RangeInclusive};

const HEADER: usize = 8;
/// "Table at most 240 records."
const MOST: usize = 240;

// Offsets in a record.
pub const IMSI: Range<usize> = 0..16;
pub const CHANGE: Range<usize> = 16..20;
pub const SUBSCRIPTION: usize = 20;
pub const RESTRICTION: Range<usize> = 24..28;
pub const PLMN_COUNT: usize = 28;
pub const PLMNS: Range<usize> = 32..56;
const PURGED: usize = 56;
pub const UPLINK: Range<usize> = 196..200;
pub const DOWNLINK: Range<usize> = 200..204;
const IMEI: Range<usize> = 204..220;
const UNLISTED: [Range<usize>; 5] = [21..24, 29..32, 57..64, 194..196, 220..256];

// Byte 20.
pub const EPS: u8 = 0x01;
pub const GPRS: u8 = 0x02;

/// One of the two nodes of a record. "Length 0 means not registered".
pub struct Node {
    /// The number in the cancel buffer: "1 MME or 2 SGSN".
    pub number: u8,
    /// Its bit in byte 56, which is its bit in PUR-Flags and PUA-Flags too.
    pub purge: u8,
    length: usize,
}

pub const MME: Node = Node { number: 1, purge: 0x01, length: 64 };
pub const SGSN: Node = Node { number: 2, purge: 0x02, length: 129 };
const NAME: usize = 64;

impl Node {
    pub fn name<'a>(&self, record: &'a [u8]) -> &'a [u8] {
        let start = self.length + 1;
        &record[start..start + usize::from(record[self.length])]
    }

    pub fn registered(&self, record: &[u8]) -> bool {
        record[self.length] != 0
    }

    pub fn purged(&self, record: &[u8]) -> bool {
        record[PURGED] & self.purge != 0
    }

    pub fn store(&self, record: &mut [u8], name: &[u8]) {
        store_counted(&mut record[self.length..self.length + 1 + NAME], name);
    }

    pub fn set_purge_bit(&self, record: &mut [u8]) {
        record[PURGED] |= self.purge;
    }

    pub fn clear_purge_bit(&self, record: &mut [u8]) {
        record[PURGED] &= !self.purge;
    }
}

pub fn store_imei(record: &mut [u8], digits: &[u8]) {
    store_counted(&mut record[IMEI], digits);
}

/// A count, the bytes, zeros.
fn store_counted(field: &mut [u8], bytes: &[u8]) {
    field.fill(0);
    field[0] = bytes.len() as u8;
    field[1..1 + bytes.len()].copy_from_slice(bytes);
}

/// "All numbers are big-endian."
pub fn number(bytes: &[u8]) -> u32 {
    bytes.iter().fold(0, |n, byte| (n << 8) | u32::from(*byte))
}

/// "A name byte is 0x21 to 0x7E; names hold no other."
pub fn name_byte(byte: &u8) -> bool {
    (0x21..=0x7E).contains(byte)
}

/// 1 to 64 name bytes.
pub fn is_name(bytes: &[u8]) -> bool {
    (1..=NAME).contains(&bytes.len()) && bytes.iter().all(name_byte)
}

pub fn are_digits(bytes: &[u8], counts: RangeInclusive<usize>) -> bool {
    counts.contains(&bytes.len()) && bytes.iter().all(u8::is_ascii_digit)
}

/// The IMSI of a User-Name of 6 to 15 digits, as stored.
pub fn imsi_as_stored(digits: &[u8]) -> [u8; 16] {
    let mut imsi = [0; 16];
    store_counted(&mut imsi, digits);
    imsi
}

/// Where the record of an IMSI stands in a valid table. Equal are all 16 bytes.
pub fn find(table: &[u8], imsi: &[u8]) -> Option<Range<usize>> {
    let records = table.get(HEADER..).unwrap_or(&[]).chunks_exact(RECORD);
    let place = records.map(|record| &record[IMSI]).position(|stored| stored == imsi)?;
    let start = HEADER + RECORD * place;
    Some(start..start + RECORD)
}

/// The rule that a table breaks first, by name; a table that breaks none is valid.
pub fn broken_rule(table: &[u8]) -> Option<&'static str> {
    if table.len() < HEADER {
        return Some("length short");
    }
    let (header, records) = table.split_at(HEADER);
    first_broken(&header_rules(header, table.len()))
        .or_else(|| if ascending(records) { None } else { Some("order") })
        .or_else(|| records.chunks_exact(RECORD).find_map(|record| first_broken(&record_rules(record))))
}

fn first_broken(rules: &[(&'static str, bool)]) -> Option<&'static str> {
    rules.iter().find(|(_, holds)| !holds).map(|(name, _)| *name)
}

/// "Eight bytes: whole length (4), version 1, one zero, record count (2)."; "its count is at most 240 and its
/// length field equals the buffer's length and 8 + 256 × count"
fn header_rules(header: &[u8], length: usize) -> [(&'static str, bool); 5] {
    let count = number(&header[6..8]) as usize;
    [
        ("length field", number(&header[0..4]) as usize == length),
        ("version", header[4] == 1),
        ("zero byte", header[5] == 0),
        ("count", count <= MOST),
        ("size", length == HEADER + RECORD * count),
    ]
}

/// "Then 256 bytes a record, strictly ascending by bytes 0–15."
fn ascending(records: &[u8]) -> bool {
    let imsis = || records.chunks_exact(RECORD).map(|record| &record[IMSI]);
    imsis().zip(imsis().skip(1)).all(|(before, after)| before < after)
}

/// The rules of one record. "other unused bits, unlisted bytes and unused ends of fields are zero"
fn record_rules(record: &[u8]) -> [(&'static str, bool); 18] {
    let imsi = Counted::of(&record[IMSI]);
    let mme = Counted::of(&record[64..129]);
    let sgsn = Counted::of(&record[129..194]);
    let imei = Counted::of(&record[IMEI]);
    let purge_has_name = |node: &Node| !node.purged(record) || node.registered(record);
    [
        // "IMSI: digit count 6–15, ASCII digits, then zeros"
        ("IMSI count", (6..=15).contains(&imsi.count)),
        ("IMSI digit", imsi.used.iter().all(u8::is_ascii_digit)),
        ("IMSI end", zero(imsi.end)),
        // "bit 0 EPS subscription, bit 1 GPRS subscription"
        ("subscription bits", subscription_valid(record[SUBSCRIPTION])),
        ("unlisted byte", UNLISTED.iter().all(|bytes| zero(&record[bytes.clone()]))),
        // "count 0–8 of PLMNs; 32–55 hold them, 3 bytes each"
        ("PLMN count", plmn_count_valid(record[PLMN_COUNT])),
        ("PLMN end", plmn_end_valid(record[PLMN_COUNT], &record[PLMNS])),
        // "bit 0 purged in MME, bit 1 purged in SGSN"
        ("purge bits", record[PURGED] & !(MME.purge | SGSN.purge) == 0),
        // "MME name length 0–64, name"
        ("MME length", mme.count <= NAME),
        ("MME byte", mme.used.iter().all(name_byte)),
        ("MME end", zero(mme.end)),
        // "SGSN name length 0–64, name"
        ("SGSN length", sgsn.count <= NAME),
        ("SGSN byte", sgsn.used.iter().all(name_byte)),
        ("SGSN end", zero(sgsn.end)),
        // "IMEI digit count 0, 14 or 15, ASCII digits"
        ("IMEI count", [0, 14, 15].contains(&imei.count)),
        ("IMEI digit", imei.used.iter().all(u8::is_ascii_digit)),
        ("IMEI end", zero(imei.end)),
        // "a purge bit needs a name"
        ("purge without name", purge_has_name(&MME) && purge_has_name(&SGSN)),
    ]
}

/// A field that is a count, that many bytes, and an unused end.
struct Counted<'a> {
    count: usize,
    used: &'a [u8],
    end: &'a [u8],
}

impl<'a> Counted<'a> {
    fn of(field: &'a [u8]) -> Counted<'a> {
        let count = usize::from(field[0]);
        let (used, end) = field[1..].split_at(count.min(field.len() - 1));
        Counted { count, used, end }
    }
}

fn zero(bytes: &[u8]) -> bool {
    bytes.iter().all(|byte| *byte == 0)
}

pub fn subscription_valid(byte: u8) -> bool {
    byte & !(EPS | GPRS) == 0
}

pub fn plmn_count_valid(count: u8) -> bool {
    count <= 8
}

pub fn plmn_end_valid(count: u8, plmns: &[u8]) -> bool {
    zero(plmns.get(3 * usize::from(count)..).unwrap_or(&[]))
}

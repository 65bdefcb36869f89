// Bytes built by hand: AVPs and messages (RFC 6733 sections 3 and 4), records, tables and
// correction frames (document 01, "The table" and "Corrections"). Nothing is checked here, so
// that tests can build what is not valid as well as what is.

/// AVP flag V: the vendor field is there.
pub const V: u8 = 0x80;
/// AVP flag M: mandatory.
pub const M: u8 = 0x40;

/// "Then 256 bytes a record".
pub const RECORD: usize = 256;

/// One AVP with its right length and zero padding. `flags` stand as given; the vendor field is
/// written exactly if they have V.
pub fn avp(code: u32, flags: u8, vendor: u32, data: &[u8]) -> Vec<u8> {
    let header = if flags & V != 0 { 12 } else { 8 };
    let length = (header + data.len()) as u32;
    let mut bytes = Vec::with_capacity(header + data.len() + 3);
    bytes.extend_from_slice(&code.to_be_bytes());
    bytes.extend_from_slice(&(u32::from(flags) << 24 | length & 0x00FF_FFFF).to_be_bytes());
    if flags & V != 0 {
        bytes.extend_from_slice(&vendor.to_be_bytes());
    }
    bytes.extend_from_slice(data);
    while bytes.len() % 4 != 0 {
        bytes.push(0);
    }
    bytes
}

/// A message of version 1 with its right length: the 20-byte header, then `avps` as they are.
pub fn message(flags: u8, command: u32, application: u32, hop: u32, end: u32, avps: &[u8]) -> Vec<u8> {
    let length = (20 + avps.len()) as u32;
    let mut bytes = Vec::with_capacity(20 + avps.len());
    bytes.extend_from_slice(&(1 << 24 | length & 0x00FF_FFFF).to_be_bytes());
    bytes.extend_from_slice(&(u32::from(flags) << 24 | command & 0x00FF_FFFF).to_be_bytes());
    bytes.extend_from_slice(&application.to_be_bytes());
    bytes.extend_from_slice(&hop.to_be_bytes());
    bytes.extend_from_slice(&end.to_be_bytes());
    bytes.extend_from_slice(avps);
    bytes
}

/// A record of the table, field by field in document 01's order.
#[derive(Clone)]
pub struct Record {
    pub imsi: String,
    pub change: u32,
    pub subscription: u8,
    pub restriction: u32,
    pub plmns: Vec<[u8; 3]>,
    pub purged: u8,
    pub mme: Vec<u8>,
    pub sgsn: Vec<u8>,
    pub uplink: u32,
    pub downlink: u32,
    pub imei: String,
}

impl Record {
    /// Change number 7, both subscriptions, and no restriction, PLMN, node or IMEI.
    pub fn plain(imsi: &str) -> Record {
        Record {
            imsi: imsi.to_string(),
            change: 7,
            subscription: 3,
            restriction: 0,
            plmns: Vec::new(),
            purged: 0,
            mme: Vec::new(),
            sgsn: Vec::new(),
            uplink: 1000,
            downlink: 2000,
            imei: String::new(),
        }
    }
}

impl Record {
    /// The 256 bytes. Counts are written as they are; what does not fit its field is left out.
    pub fn bytes(&self) -> Vec<u8> {
        let mut bytes = vec![0; RECORD];
        bytes[0..16].copy_from_slice(&imsi_field(&self.imsi));
        bytes[16..20].copy_from_slice(&self.change.to_be_bytes());
        bytes[20] = self.subscription;
        bytes[24..28].copy_from_slice(&self.restriction.to_be_bytes());
        bytes[28] = self.plmns.len() as u8;
        for (place, plmn) in self.plmns.iter().take(8).enumerate() {
            bytes[32 + 3 * place..35 + 3 * place].copy_from_slice(plmn);
        }
        bytes[56] = self.purged;
        counted(&mut bytes[64..129], &self.mme);
        counted(&mut bytes[129..194], &self.sgsn);
        bytes[196..200].copy_from_slice(&self.uplink.to_be_bytes());
        bytes[200..204].copy_from_slice(&self.downlink.to_be_bytes());
        counted(&mut bytes[204..220], self.imei.as_bytes());
        bytes
    }

    /// The record that the 256 bytes of a valid table hold.
    pub fn read(bytes: &[u8]) -> Record {
        let number = |at: usize| u32::from_be_bytes([bytes[at], bytes[at + 1], bytes[at + 2], bytes[at + 3]]);
        let held = |at: usize| bytes[at + 1..at + 1 + bytes[at] as usize].to_vec();
        let text = |at: usize| String::from_utf8_lossy(&held(at)).into_owned();
        Record {
            imsi: text(0),
            change: number(16),
            subscription: bytes[20],
            restriction: number(24),
            plmns: bytes[32..].chunks(3).take(bytes[28] as usize).map(|plmn| [plmn[0], plmn[1], plmn[2]]).collect(),
            purged: bytes[56],
            mme: held(64),
            sgsn: held(129),
            uplink: number(196),
            downlink: number(200),
            imei: text(204),
        }
    }
}

/// The records of a valid table.
pub fn records(table: &[u8]) -> Vec<Record> {
    table[8..].chunks(RECORD).map(Record::read).collect()
}

/// A count byte, then the content, then zeros, as the table holds IMSI, names and IMEI.
fn counted(field: &mut [u8], content: &[u8]) {
    field[0] = content.len() as u8;
    for (byte, given) in field[1..].iter_mut().zip(content) {
        *byte = *given;
    }
}

/// Bytes 0–15 of a record: "digit count 6–15, ASCII digits, then zeros".
pub fn imsi_field(digits: &str) -> [u8; 16] {
    let mut field = [0; 16];
    counted(&mut field, digits.as_bytes());
    field
}

/// The table of these records, sorted by bytes 0–15, with its right header.
pub fn table(records: &[Record]) -> Vec<u8> {
    let mut sorted: Vec<Vec<u8>> = records.iter().map(Record::bytes).collect();
    sorted.sort_by(|a, b| a[0..16].cmp(&b[0..16]));
    table_of(&sorted)
}

/// The table of these records in the order given, with its right header.
pub fn table_of(records: &[Vec<u8>]) -> Vec<u8> {
    let length = (8 + RECORD * records.len()) as u32;
    let mut bytes = Vec::with_capacity(length as usize);
    bytes.extend_from_slice(&length.to_be_bytes());
    bytes.extend_from_slice(&[1, 0]);
    bytes.extend_from_slice(&(records.len() as u16).to_be_bytes());
    for record in records {
        bytes.extend_from_slice(record);
    }
    bytes
}

/// "Frame: whole length (2), version 1, kind, IMSI (16, as stored), change number seen (4), value."
pub fn correction(kind: u8, imsi: &[u8; 16], seen: u32, value: &[u8]) -> Vec<u8> {
    let length = 24 + value.len();
    let mut bytes = Vec::with_capacity(length);
    bytes.extend_from_slice(&(length as u16).to_be_bytes());
    bytes.extend_from_slice(&[1, kind]);
    bytes.extend_from_slice(imsi);
    bytes.extend_from_slice(&seen.to_be_bytes());
    bytes.extend_from_slice(value);
    bytes
}

// A request as the generator plans it, before it becomes bytes, and the ordinary one: well formed,
// with a sender, flags and a subscriber chosen so that each Experimental result and each effect
// of document 01 comes up often.

use super::avp::{all_bytes, insert, sample, unknown, Piece};
use super::keys::{Key, Keys};
use super::table;
use crate::build::{message, Record};
use crate::protocol::Case;
use crate::random::Random;
use crate::request::Command;

/// "application 16777251".
const S6A: u32 = 16_777_251;

/// A request and all that goes with it. What follows `avps` says how the finished bytes are
/// spoiled: a tail after the last AVP, another version or length field, a cut, changed bytes.
pub struct Plan {
    pub kind: Command,
    pub table: Vec<u8>,
    pub host: Vec<u8>,
    pub realm: Vec<u8>,
    pub answer: Vec<u8>,
    pub cancel: Vec<u8>,
    pub flags: u8,
    pub command: u32,
    pub application: u32,
    pub avps: Vec<Piece>,
    pub tail: Vec<u8>,
    pub version: u8,
    pub length_field: Option<u32>,
    pub kept: Option<usize>,
    pub changed: usize,
}

impl Plan {
    /// Bytes that the request has as long as nothing is cut.
    pub fn size(&self) -> usize {
        20 + all_bytes(&self.avps).len() + self.tail.len()
    }

    pub fn case(self, random: &mut Random) -> Case {
        let mut stretch = all_bytes(&self.avps);
        stretch.extend_from_slice(&self.tail);
        let (hop, end) = (random.number(), random.number());
        let mut request = message(self.flags, self.command, self.application, hop, end, &stretch);
        request[0] = self.version;
        if let Some(kept) = self.kept {
            request.truncate(kept);
        }
        if let Some(length) = self.length_field {
            put_length(&mut request, length);
        }
        for _ in 0..self.changed.min(request.len()) {
            let place = random.below(request.len());
            request[place] = random.byte();
        }
        let Plan { table, host, realm, answer, cancel, .. } = self;
        Case::Request { table, request, host, realm, answer, cancel }
    }
}

fn put_length(request: &mut [u8], length: u32) {
    for (byte, given) in request.iter_mut().skip(1).zip(&length.to_be_bytes()[1..]) {
        *byte = *given;
    }
}

pub fn ordinary(random: &mut Random, keys: &Keys) -> Plan {
    let records = table::records(random);
    over(random, keys, &records)
}

/// An ordinary request over these records.
pub fn over(random: &mut Random, keys: &Keys, records: &[Record]) -> Plan {
    let kind = random.pick(&[Command::Ulr, Command::Ulr, Command::Ulr, Command::Pur, Command::Nor]);
    let mut avps = required(random, keys, kind, records);
    optional(random, keys, kind, &mut avps);
    if random.chance(1, 8) {
        random.shuffle(&mut avps);
    }
    let (longer, further) = (random.pick(&[0, 0, 1, 4, 33]), random.pick(&[0, 0, 1, 4, 68]));
    Plan {
        kind,
        table: crate::build::table(records),
        host: own_name(random, b"hss.example"),
        realm: own_name(random, b"example"),
        answer: random.bytes(4352 + longer),
        cancel: random.bytes(136 + further),
        flags: 0x80 | random.byte() & random.pick(&[0x40, 0x40, 0x5F]),
        command: kind.code(),
        application: S6A,
        avps,
        tail: Vec::new(),
        version: 1,
        length_field: None,
        kept: None,
        changed: 0,
    }
}

fn own_name(random: &mut Random, usual: &[u8]) -> Vec<u8> {
    if random.chance(3, 4) {
        usual.to_vec()
    } else {
        table::name(random)
    }
}

/// The AVPs that document 01 requires, in its order.
fn required(random: &mut Random, keys: &Keys, kind: Command, records: &[Record]) -> Vec<Piece> {
    let place = random.below(records.len().max(1));
    let subscriber = records.get(place);
    let mut avps = Vec::new();
    for name in kind.required() {
        let data = match *name {
            "Session-Id" => session_id(random),
            "Origin-Host" => sender(random, subscriber),
            "Origin-Realm" | "Destination-Realm" => any_bytes(random, b"epc.mnc001.mcc001.example"),
            "User-Name" => user_name(random, subscriber),
            "RAT-Type" => rat_type(random).to_be_bytes().to_vec(),
            "ULR-Flags" => ulr_flags(random).to_be_bytes().to_vec(),
            "Visited-PLMN-Id" => visited(random, subscriber).to_vec(),
            _ => random.pick(&[0u32, 1, 1, 1, 2, 0xFFFF_FFFF]).to_be_bytes().to_vec(),
        };
        avps.push(Piece::of(random, keys.named(name), &data));
    }
    avps
}

fn session_id(random: &mut Random) -> Vec<u8> {
    let session = random.number() >> random.below(32);
    any_bytes(random, format!("mme.example;{session};1").as_bytes())
}

/// Mostly this text; sometimes no bytes, or any bytes whatever.
fn any_bytes(random: &mut Random, usual: &[u8]) -> Vec<u8> {
    match random.below(12) {
        0 => Vec::new(),
        1 => {
            let size = random.within(1, 40);
            random.bytes(size)
        }
        _ => usual.to_vec(),
    }
}

/// The subscriber's IMSI, sometimes one close to it, sometimes another.
fn user_name(random: &mut Random, subscriber: Option<&Record>) -> Vec<u8> {
    let imsi = match subscriber {
        Some(record) if random.chance(11, 12) => record.imsi.clone(),
        Some(record) if random.chance(2, 3) => table::near_digits(random, &record.imsi),
        _ => {
            let length = random.pick(&[6, 7, 14, 15, 15]);
            table::digits(random, length)
        }
    };
    imsi.into_bytes()
}

/// The node that sends: one that is stored, one whose name is close to it, or another.
fn sender(random: &mut Random, subscriber: Option<&Record>) -> Vec<u8> {
    let stored = match subscriber {
        Some(record) if random.chance(1, 2) => &record.mme[..],
        Some(record) => &record.sgsn[..],
        None => &[],
    };
    match random.below(12) {
        _ if stored.is_empty() => table::name(random),
        0..=6 => stored.to_vec(),
        7 | 8 => table::near_name(random, stored),
        _ => table::name(random),
    }
}

/// Mostly 1000 to 1005, with the numbers around them and some whose low bits look right.
fn rat_type(random: &mut Random) -> u32 {
    match random.below(20) {
        0 => random.pick(&[999, 1006, 1007, 0, 5, 0xFFFF_FFFF]),
        1 => 1000 + random.below(6) as u32 | 1 << random.within(10, 31),
        2 => random.number(),
        _ => 1000 + random.below(6) as u32,
    }
}

/// Single-Registration 0, S6a/S6d-Indicator 1, Skip-Subscriber-Data 2, Initial-Attach 5; the
/// unused bits are zero half of the time.
fn ulr_flags(random: &mut Random) -> u32 {
    let unused = random.number() & random.pick(&[0, 0xFFFF_FFD8]);
    let single = random.pick(&[0, 0, 1]);
    unused | single | (random.number() & 0x22) | random.pick(&[0, 0, 0, 4])
}

/// A visited network that the subscriber's list has, or one of few.
fn visited(random: &mut Random, subscriber: Option<&Record>) -> [u8; 3] {
    let list = subscriber.map_or(&[][..], |record| &record.plmns[..]);
    if !list.is_empty() && random.chance(3, 5) {
        random.pick(list)
    } else {
        random.pick(&table::PLMNS)
    }
}

/// What may be there besides: the AVPs that the command uses when there, usual companions of a
/// request, known AVPs without effect, unknown ones without M.
fn optional(random: &mut Random, keys: &Keys, kind: Command, avps: &mut Vec<Piece>) {
    for name in kind.used_when_there() {
        if random.chance(3, 5) {
            let piece = optional_avp(random, keys, name);
            insert(random, avps, piece, false);
        }
    }
    for name in ["Vendor-Specific-Application-Id", "Supported-Features", "Destination-Host", "Route-Record"] {
        if random.chance(1, 3) {
            let piece = sample(random, keys, keys.named(name), 3);
            avps.push(piece);
        }
    }
    for _ in 0..random.pick(&[0, 0, 0, 1, 2, 3]) {
        let piece = proxy_info(random, keys);
        insert(random, avps, piece, false);
    }
    for _ in 0..random.pick(&[0, 0, 1, 3]) {
        let key = keys.unused(random, kind);
        let piece = sample(random, keys, key, 4);
        insert(random, avps, piece, false);
    }
    for _ in 0..random.pick(&[0, 0, 0, 1, 2]) {
        let piece = unknown(random, keys, false);
        let deep = random.chance(1, 2);
        insert(random, avps, piece, deep);
    }
}

fn optional_avp(random: &mut Random, keys: &Keys, name: &str) -> Piece {
    if name == "Terminal-Information" {
        return terminal_information(random, keys);
    }
    let used = random.below(4) as u32;
    let unused = random.number() & random.pick(&[0, 0xFFFF_FFFC]);
    Piece::of(random, keys.named(name), &(used | unused).to_be_bytes())
}

/// IMEI mostly there, with the Software-Version beside it or another known AVP.
pub fn terminal_information(random: &mut Random, keys: &Keys) -> Piece {
    let mut inner = Vec::new();
    if random.chance(4, 5) {
        inner.push(imei(random, keys));
    }
    if random.chance(1, 2) {
        let version = table::digits(random, 2);
        inner.push(Piece::of(random, keys.named("Software-Version"), version.as_bytes()));
    }
    if random.chance(1, 6) {
        let key = other_than(random, keys, "IMEI");
        let piece = sample(random, keys, key, 2);
        insert(random, &mut inner, piece, false);
    }
    Piece::group(random, keys.named("Terminal-Information"), inner)
}

pub fn imei(random: &mut Random, keys: &Keys) -> Piece {
    let length = random.pick(&[14, 15]);
    let digits = table::digits(random, length);
    Piece::of(random, keys.named("IMEI"), digits.as_bytes())
}

fn other_than(random: &mut Random, keys: &Keys, name: &str) -> Key {
    loop {
        let key = random.pick(&keys.known);
        if !keys.is(key, name) {
            return key;
        }
    }
}

/// Proxy-Host and Proxy-State, or junk: its data is never looked into.
pub fn proxy_info(random: &mut Random, keys: &Keys) -> Piece {
    let mut data = if random.chance(1, 3) {
        let size = random.below(30);
        random.bytes(size)
    } else {
        let host = Piece::of(random, keys.named("Proxy-Host"), b"proxy.example");
        let size = random.below(9);
        let state = random.bytes(size);
        all_bytes(&[host, Piece::of(random, keys.named("Proxy-State"), &state)])
    };
    if random.chance(1, 8) {
        data.truncate(random.below(data.len() + 1));
    }
    Piece::of(random, keys.named("Proxy-Info"), &data)
}

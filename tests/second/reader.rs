//! "The reader" of document 01: the header and AVPs of RFC 6733 sections 3 and 4, and the visit.

use crate::build::{M, V};
use crate::dictionary::{Dictionary, Kind};

// Header flags, RFC 6733 section 3; T and the reserved bits are ignored.
pub const R: u8 = 0x80;
pub const P: u8 = 0x40;
pub const E: u8 = 0x20;

pub const HEADER: usize = 20;
/// "inside eight others"
const DEEPEST: usize = 8;

/// `width` bytes from `at`, big-endian; bytes from `end` on read as 0.
fn number(bytes: &[u8], at: usize, width: usize, end: usize) -> u32 {
    let byte = |i: usize| if i < end { bytes.get(i).copied().unwrap_or(0) } else { 0 };
    (at..at + width).fold(0, |n, i| (n << 8) | u32::from(byte(i)))
}

pub struct Header {
    pub version: u8,
    pub length: u32,
    pub flags: u8,
    pub command: u32,
    pub application: u32,
    pub hop: u32,
    pub end: u32,
}

impl Header {
    pub fn read(message: &[u8]) -> Header {
        let field = |at, width| number(message, at, width, HEADER);
        Header {
            version: field(0, 1) as u8,
            length: field(1, 3),
            flags: field(4, 1) as u8,
            command: field(5, 3),
            application: field(8, 4),
            hop: field(12, 4),
            end: field(16, 4),
        }
    }
}

/// Bytes of an AVP's header: 8, 12 with V.
pub fn head_size(flags: u8) -> usize {
    if flags & V != 0 {
        12
    } else {
        8
    }
}

/// One AVP of a message: where it starts, where what encloses it ends, and its header.
#[derive(Clone, Copy, PartialEq, Eq, Debug)]
pub struct Avp {
    pub at: usize,
    pub end: usize,
    pub code: u32,
    pub flags: u8,
    pub length: usize,
    pub vendor: u32,
}

impl Avp {
    /// "header bytes past the end of what encloses it read as 0"
    pub fn read(message: &[u8], at: usize, end: usize) -> Avp {
        let field = |offset, width| number(message, at + offset, width, end);
        let flags = field(4, 1) as u8;
        let vendor = if flags & V != 0 { field(8, 4) } else { 0 };
        Avp { at, end, code: field(0, 4), flags, length: field(5, 3) as usize, vendor }
    }

    /// "An AVP's key is (vendor, code), vendor 0 without V."
    pub fn key(&self) -> (u32, u32) {
        (self.vendor, self.code)
    }

    pub fn mandatory(&self) -> bool {
        self.flags & M != 0
    }

    pub fn head(&self) -> usize {
        head_size(self.flags)
    }

    /// The length with padding: an AVP of length 23 takes 24 bytes.
    pub fn padded(&self) -> usize {
        (self.length + 3) / 4 * 4
    }

    /// "Its length is at least 8 (12 with V), and with padding it lies inside what encloses it."
    pub fn length_right(&self) -> bool {
        self.length >= self.head() && self.padded() <= self.end - self.at
    }

    /// Too few bytes are left for its header.
    fn stump(&self) -> bool {
        self.end - self.at < self.head()
    }

    /// The data of an AVP whose length is right.
    pub fn data<'a>(&self, message: &'a [u8]) -> &'a [u8] {
        message.get(self.at + self.head()..self.at + self.length).unwrap_or(&[])
    }
}

/// The AVPs of one stretch in order, groups not entered, up to the first whose length is wrong.
pub fn list(message: &[u8], from: usize, end: usize) -> Vec<Avp> {
    let mut avps = Vec::new();
    let mut at = from;
    while at < end {
        let avp = Avp::read(message, at, end);
        if !avp.length_right() {
            break;
        }
        avps.push(avp);
        at += avp.padded();
    }
    avps
}

/// The AVPs directly in a group whose length is right.
pub fn members(message: &[u8], group: &Avp) -> Vec<Avp> {
    list(message, group.at + group.head(), group.at + group.length)
}

/// "Origin-Host, once found, is handed on": its data in any message, empty where there is none.
pub fn origin_host(dictionary: &Dictionary, message: &[u8]) -> Vec<u8> {
    let key = dictionary.key("Origin-Host");
    let found = list(message, HEADER, message.len()).into_iter().find(|avp| avp.key() == key);
    found.map_or(Vec::new(), |avp| avp.data(message).to_vec())
}

/// "first fault of the visit: wrong length or data size / an entered group, its length right, inside eight others"
#[derive(Clone, Copy, PartialEq, Eq, Debug)]
pub enum Fault {
    Stump,
    Length,
    Size,
    Depth,
}

impl Fault {
    pub fn code(self) -> u32 {
        match self {
            Fault::Stump | Fault::Length | Fault::Size => 5014,
            Fault::Depth => 5004,
        }
    }

    pub fn name(self) -> &'static str {
        match self {
            Fault::Stump => "stump",
            Fault::Length => "length",
            Fault::Size => "size",
            Fault::Depth => "depth",
        }
    }
}

/// A visited AVP that is unknown and has M set; `depth` counts the groups around it.
#[derive(Clone, Copy, PartialEq, Eq, Debug)]
pub struct Unknown {
    pub avp: Avp,
    pub depth: usize,
}

pub struct Visit<'a> {
    dictionary: &'a Dictionary,
    message: &'a [u8],
    pub fault: Option<(Fault, Avp)>,
    pub unknown: Option<Unknown>,
}

/// "The reader visits AVPs in message order": all that stands after the header.
pub fn visit<'a>(dictionary: &'a Dictionary, message: &'a [u8]) -> Visit<'a> {
    let mut visit = Visit { dictionary, message, fault: None, unknown: None };
    visit.fault = visit.list(HEADER, message.len(), 0).err();
    visit
}

impl Visit<'_> {
    /// "a list of AVPs holds groups, and a group holds a list again"; "A group's data is filled exactly."
    fn list(&mut self, from: usize, end: usize, depth: usize) -> Result<(), (Fault, Avp)> {
        let mut at = from;
        while at < end {
            let avp = Avp::read(self.message, at, end);
            self.one(&avp, depth)?;
            at += avp.padded();
        }
        Ok(())
    }

    /// At one AVP: length, then data size, then depth, then its contents.
    fn one(&mut self, avp: &Avp, depth: usize) -> Result<(), (Fault, Avp)> {
        if avp.stump() {
            return Err((Fault::Stump, *avp));
        }
        if !avp.length_right() {
            return Err((Fault::Length, *avp));
        }
        let size = avp.length - avp.head();
        match self.dictionary.kind(avp.vendor, avp.code) {
            Some(Kind::Four) if size != 4 => Err((Fault::Size, *avp)),
            Some(Kind::Eight) if size != 8 => Err((Fault::Size, *avp)),
            Some(Kind::Group) if depth == DEEPEST => Err((Fault::Depth, *avp)),
            Some(Kind::Group) => self.list(avp.at + avp.head(), avp.at + avp.length, depth + 1),
            Some(_) => Ok(()),
            // "Unknown AVPs are not entered."
            None => {
                if avp.mandatory() && self.unknown.is_none() {
                    self.unknown = Some(Unknown { avp: *avp, depth });
                }
                Ok(())
            }
        }
    }
}

/// What the reader says of any message: code (0, 5014, 5004 or 5001), the AVP's place, the end of what encloses it.
pub fn verdict(dictionary: &Dictionary, message: &[u8]) -> [u32; 3] {
    let visit = visit(dictionary, message);
    let place = |code: u32, avp: Avp| [code, avp.at as u32, avp.end as u32];
    match (visit.fault, visit.unknown) {
        (Some((fault, avp)), _) => place(fault.code(), avp),
        (None, Some(unknown)) => place(5001, unknown.avp),
        (None, None) => [0, 0, 0],
    }
}

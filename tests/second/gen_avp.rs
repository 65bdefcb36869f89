// AVPs as the generator holds them before they become bytes: a tree in which any AVP can be
// reached and changed, with a length field that may lie.

use super::keys::{Key, Keys};
use crate::build::{avp, M, V};
use crate::dictionary::Kind;
use crate::random::Random;
use crate::reader::head_size;

#[derive(Clone)]
pub enum Body {
    Data(Vec<u8>),
    Group(Vec<Piece>),
}

/// One AVP. `stated` is the length field where it is not the right one; `padding` is the byte
/// that fills up to a multiple of 4.
#[derive(Clone)]
pub struct Piece {
    pub code: u32,
    pub flags: u8,
    pub vendor: u32,
    pub body: Body,
    pub stated: Option<u32>,
    pub padding: u8,
}

impl Piece {
    /// V as the vendor asks, M mostly set, the ignored bits and the padding sometimes junk.
    pub fn new(random: &mut Random, vendor: u32, code: u32, body: Body) -> Piece {
        let mut flags = if vendor == 0 { 0 } else { V };
        if random.chance(5, 6) {
            flags |= M;
        }
        if random.chance(1, 6) {
            flags |= random.byte() & 0x3F;
        }
        let padding = if random.chance(1, 4) { random.byte() } else { 0 };
        Piece { code, flags, vendor, body, stated: None, padding }
    }

    pub fn of(random: &mut Random, key: Key, data: &[u8]) -> Piece {
        Piece::new(random, key.vendor, key.code, Body::Data(data.to_vec()))
    }

    pub fn group(random: &mut Random, key: Key, inner: Vec<Piece>) -> Piece {
        Piece::new(random, key.vendor, key.code, Body::Group(inner))
    }

    /// Vendor and code in the reader's sense: vendor 0 without V.
    pub fn key(&self) -> (u32, u32) {
        let vendor = if self.flags & V != 0 { self.vendor } else { 0 };
        (vendor, self.code)
    }

    pub fn has(&self, key: Key) -> bool {
        self.key() == (key.vendor, key.code)
    }

    pub fn data(&self) -> Vec<u8> {
        match &self.body {
            Body::Data(data) => data.clone(),
            Body::Group(inner) => all_bytes(inner),
        }
    }

    pub fn header(&self) -> usize {
        head_size(self.flags)
    }

    pub fn bytes(&self) -> Vec<u8> {
        let data = self.data();
        let mut bytes = avp(self.code, self.flags, self.vendor, &data);
        for byte in &mut bytes[self.header() + data.len()..] {
            *byte = self.padding;
        }
        if let Some(length) = self.stated {
            bytes[5..8].copy_from_slice(&length.to_be_bytes()[1..]);
        }
        bytes
    }
}

pub fn all_bytes(pieces: &[Piece]) -> Vec<u8> {
    pieces.iter().flat_map(Piece::bytes).collect()
}

/// The way to an AVP at any depth, or none where there is no AVP.
pub fn any_path(random: &mut Random, pieces: &[Piece]) -> Option<Vec<usize>> {
    if pieces.is_empty() {
        return None;
    }
    let place = random.below(pieces.len());
    let mut path = vec![place];
    if let Body::Group(inner) = &pieces[place].body {
        if random.chance(3, 4) {
            path.extend(any_path(random, inner).unwrap_or_default());
        }
    }
    Some(path)
}

/// The way to a group at any depth.
pub fn any_group(random: &mut Random, pieces: &[Piece]) -> Option<Vec<usize>> {
    let groups: Vec<usize> = (0..pieces.len()).filter(|place| matches!(pieces[*place].body, Body::Group(_))).collect();
    if groups.is_empty() {
        return None;
    }
    let place = random.pick(&groups);
    let mut path = vec![place];
    if let Body::Group(inner) = &pieces[place].body {
        if random.chance(1, 2) {
            path.extend(any_group(random, inner).unwrap_or_default());
        }
    }
    Some(path)
}

pub fn at<'a>(pieces: &'a mut [Piece], path: &[usize]) -> &'a mut Piece {
    let piece = &mut pieces[path[0]];
    if path.len() == 1 {
        return piece;
    }
    match &mut piece.body {
        Body::Group(inner) => at(inner, &path[1..]),
        Body::Data(_) => panic!("a path leads through groups"),
    }
}

/// Puts an AVP anywhere: at the top level, or inside a group if `deep` and there is one.
pub fn insert(random: &mut Random, pieces: &mut Vec<Piece>, piece: Piece, deep: bool) {
    if deep {
        if let Some(path) = any_group(random, pieces) {
            if let Body::Group(inner) = &mut at(pieces, &path).body {
                let place = random.below(inner.len() + 1);
                inner.insert(place, piece);
                return;
            }
        }
    }
    let place = random.below(pieces.len() + 1);
    pieces.insert(place, piece);
}

/// An AVP of this key with data of its type; groups hold up to `depth` further levels.
pub fn sample(random: &mut Random, keys: &Keys, key: Key, depth: usize) -> Piece {
    let size = match key.kind {
        Kind::Four => 4,
        Kind::Eight => 8,
        _ => random.pick(&[0, 1, 2, 3, 4, 5, 7, 8, 11, 20]),
    };
    if key.kind != Kind::Group {
        let data = random.bytes(size);
        return Piece::of(random, key, &data);
    }
    let count = if depth == 0 { 0 } else { random.below(4) };
    let mut inner = Vec::new();
    for _ in 0..count {
        let next = random.pick(&keys.known);
        inner.push(sample(random, keys, next, depth - 1));
    }
    Piece::group(random, key, inner)
}

/// An AVP of no row. What it holds is never looked at, so it may look like AVPs, damaged or not.
pub fn unknown(random: &mut Random, keys: &Keys, mandatory: bool) -> Piece {
    let (vendor, code) = keys.unknown(random);
    let size = random.pick(&[0, 1, 3, 4, 8, 17]);
    let mut data = random.bytes(size);
    if random.chance(1, 4) {
        data = avp(code, M, 0, &data);
        data.truncate(random.within(4, data.len()));
    }
    let mut piece = Piece::new(random, vendor, code, Body::Data(data));
    piece.flags = piece.flags & !M | if mandatory { M } else { 0 };
    if vendor == 0 && random.chance(1, 5) {
        piece.flags |= V;
    }
    piece
}

/// `depth` groups of the dictionary, one inside the other, the innermost holding `inner`.
pub fn nest(random: &mut Random, keys: &Keys, depth: usize, inner: Vec<Piece>) -> Vec<Piece> {
    let mut pieces = inner;
    for _ in 0..depth {
        let key = random.pick(&keys.groups);
        pieces = vec![Piece::group(random, key, pieces)];
    }
    pieces
}

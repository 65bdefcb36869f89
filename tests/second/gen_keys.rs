// The dictionary as the generator draws from it: every key with its kind, the keys by kind, and
// those that a command does not use.

use crate::dictionary::{Dictionary, Kind};
use crate::random::Random;
use crate::request::Command;
use std::collections::BTreeMap;

/// The vendor of TS 29.272.
pub const TGPP: u32 = 10415;

/// No code of the dictionary is as large.
const CODES: u32 = 5000;

/// Vendors of which the dictionary has no AVP.
const STRANGERS: [u32; 5] = [1, 9, 10416, 13019, 0xFFFF_FFFF];

#[derive(Clone, Copy)]
pub struct Key {
    pub vendor: u32,
    pub code: u32,
    pub kind: Kind,
}

pub struct Keys {
    pub known: Vec<Key>,
    /// Groups that the reader enters.
    pub groups: Vec<Key>,
    /// Proxy-Info and Failed-AVP, which it does not enter.
    pub closed: Vec<Key>,
    /// AVPs of 4 bytes, and of 8.
    pub fours: Vec<Key>,
    pub eights: Vec<Key>,
    names: BTreeMap<String, Key>,
    kinds: BTreeMap<(u32, u32), Kind>,
}

impl Keys {
    pub fn new(dictionary: &Dictionary) -> Keys {
        let mut known = Vec::new();
        let mut names = BTreeMap::new();
        for vendor in [0, TGPP] {
            for code in 0..CODES {
                if let (Some(kind), Some(name)) = (dictionary.kind(vendor, code), dictionary.name(vendor, code)) {
                    known.push(Key { vendor, code, kind });
                    names.insert(name.to_string(), Key { vendor, code, kind });
                }
            }
        }
        let of = |kind| known.iter().filter(|key| key.kind == kind).copied().collect();
        Keys {
            groups: of(Kind::Group),
            closed: of(Kind::Closed),
            fours: of(Kind::Four),
            eights: of(Kind::Eight),
            kinds: known.iter().map(|key| ((key.vendor, key.code), key.kind)).collect(),
            names,
            known,
        }
    }

    /// The key with this name, which is one of the dictionary's.
    pub fn named(&self, name: &str) -> Key {
        self.names[name]
    }

    /// The kind of a (vendor, code), if it has a row.
    pub fn kind(&self, pair: (u32, u32)) -> Option<Kind> {
        self.kinds.get(&pair).copied()
    }

    /// Any known key that the command neither uses nor copies.
    pub fn unused(&self, random: &mut Random, command: Command) -> Key {
        loop {
            let key = random.pick(&self.known);
            let mut used = command.required().iter().chain(command.used_when_there());
            if !used.any(|name| self.is(key, name)) && !self.is(key, "Proxy-Info") {
                return key;
            }
        }
    }

    pub fn is(&self, key: Key, name: &str) -> bool {
        let named = self.named(name);
        (named.vendor, named.code) == (key.vendor, key.code)
    }

    /// A key of no row: a free code, a vendor of which there is nothing, or a known code under
    /// the other vendor.
    pub fn unknown(&self, random: &mut Random) -> (u32, u32) {
        loop {
            let near = random.pick(&self.known);
            let pair = match random.below(6) {
                0 => (0, random.within(0, CODES as usize) as u32),
                1 => (TGPP, random.within(0, CODES as usize) as u32),
                2 => (random.pick(&STRANGERS), near.code),
                3 => (TGPP - near.vendor, near.code),
                4 => (near.vendor, near.code.wrapping_add(random.pick(&[1, 0xFFFF_FFFF, 0x0100_0000]))),
                _ => (random.pick(&[0, TGPP]), random.number()),
            };
            if self.kind(pair).is_none() {
                return pair;
            }
        }
    }
}

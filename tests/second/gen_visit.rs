// Damages that the visit of document 01's "The reader" meets: lengths, flags, vendors, data sizes,
// cuts inside groups, stumps, and groups inside groups.

use super::avp::{any_group, any_path, at, insert, nest, sample, unknown, Body, Piece};
use super::keys::{Keys, TGPP};
use super::request::Plan;
use crate::build::{M, V};
use crate::random::Random;

/// Changes one AVP at any depth.
fn change(random: &mut Random, plan: &mut Plan, how: impl FnOnce(&mut Random, &mut Piece)) {
    if let Some(path) = any_path(random, &plan.avps) {
        how(random, at(&mut plan.avps, &path));
    }
}

/// A length field near the right one, or far from it.
pub fn length_wrong(random: &mut Random, _: &Keys, plan: &mut Plan) {
    change(random, plan, |random, piece| {
        let right = piece.header() + piece.data().len();
        let wrong = match random.below(4) {
            0 => right + random.within(1, 12),
            1 => right.saturating_sub(random.within(1, 12)),
            2 => right + random.pick(&[0x100, 0x1_0000, 0x80_0000]),
            _ => random.pick(&[0xFF_FFFF, 0xFF_FFFC, 0xFF_FFFD, 4096, 20]),
        };
        piece.stated = Some(wrong as u32);
    });
}

/// "Its length is at least 8 (12 with V)".
pub fn length_under_header(random: &mut Random, _: &Keys, plan: &mut Plan) {
    change(random, plan, |random, piece| {
        let least = piece.header();
        piece.stated = Some(random.pick(&[0, 1, 4, 7, least - 1, least - 4, least, least]) as u32);
    });
}

/// Any flags: V takes a vendor field in or away, the ignored bits change nothing.
pub fn flags_any(random: &mut Random, _: &Keys, plan: &mut Plan) {
    change(random, plan, |random, piece| {
        piece.flags = match random.below(3) {
            0 => random.byte(),
            1 => piece.flags ^ random.pick(&[V, M]),
            _ => piece.flags ^ (random.byte() & 0x3F),
        };
    });
}

/// V with vendor 0: the key of an AVP without V.
pub fn vendor_zero(random: &mut Random, keys: &Keys, plan: &mut Plan) {
    if random.chance(1, 3) {
        let key = random.pick(&keys.known);
        let mut piece = sample(random, keys, key, 2);
        piece.flags |= V;
        piece.vendor = 0;
        let deep = random.chance(1, 2);
        return insert(random, &mut plan.avps, piece, deep);
    }
    let plain: Vec<usize> = (0..plan.avps.len()).filter(|place| plan.avps[*place].vendor == 0).collect();
    if !plain.is_empty() {
        plan.avps[random.pick(&plain)].flags |= V;
    }
}

/// The same code under another vendor.
pub fn vendor_other(random: &mut Random, _: &Keys, plan: &mut Plan) {
    change(random, plan, |random, piece| {
        piece.vendor = random.pick(&[TGPP, TGPP + 1, 1, 0x0100_0000 + TGPP, 0]);
        piece.flags |= V;
    });
}

/// "Unsigned32, Integer32, Enumerated and Time carry 4 bytes; 64-bit types 8".
pub fn size_wrong(random: &mut Random, keys: &Keys, plan: &mut Plan) {
    let key = match random.below(5) {
        0 => keys.named(random.pick(&["Auth-Session-State", "RAT-Type", "ULR-Flags", "PUR-Flags", "NOR-Flags"])),
        1 => random.pick(&keys.eights),
        _ => random.pick(&keys.fours),
    };
    let mut piece = sample(random, keys, key, 0);
    let size = random.pick(&[0, 1, 3, 4, 4, 5, 7, 8, 8, 9, 12]);
    piece.body = Body::Data(random.bytes(size));
    let same = plan.avps.iter().position(|other| other.has(key));
    match same {
        Some(place) => plan.avps[place] = piece,
        None => {
            let deep = random.chance(2, 3);
            insert(random, &mut plan.avps, piece, deep);
        }
    }
}

/// A group whose last bytes are missing, perhaps only padding, its own length right for what is
/// left.
pub fn group_cut(random: &mut Random, keys: &Keys, plan: &mut Plan) {
    if random.chance(1, 2) {
        let key = random.pick(&keys.groups);
        let piece = sample(random, keys, key, 3);
        insert(random, &mut plan.avps, piece, true);
    }
    if let Some(path) = any_group(random, &plan.avps) {
        let group = at(&mut plan.avps, &path);
        let mut data = group.data();
        let most = if random.chance(1, 2) { 3 } else { data.len() };
        data.truncate(data.len().saturating_sub(random.below(most + 1)));
        group.body = Body::Data(data);
    }
}

/// Too few bytes for a header, behind the AVPs of a group or of the message.
pub fn stump(random: &mut Random, _: &Keys, plan: &mut Plan) {
    let size = random.pick(&[1, 3, 4, 5, 7, 8, 11]);
    let mut bytes = random.bytes(size);
    if size > 4 {
        bytes[4] = random.pick(&[V, V | M, bytes[4]]);
    }
    if random.chance(1, 2) {
        if let Some(path) = any_group(random, &plan.avps) {
            let group = at(&mut plan.avps, &path);
            let mut data = group.data();
            data.extend_from_slice(&bytes);
            group.body = Body::Data(data);
            return;
        }
    }
    bytes.resize(random.pick(&[4, 8]), 0);
    plan.tail = bytes;
}

/// The message cut at a multiple of 4, its length field right for what is left.
pub fn message_cut(random: &mut Random, _: &Keys, plan: &mut Plan) {
    let kept = 20 + 4 * random.below((plan.size() - 20) / 4 + 1);
    plan.kept = Some(kept);
    plan.length_field = Some(kept as u32);
}

/// "an entered group, its length right, inside eight others": 7 to 10 deep, the innermost empty
/// or not, now and then with a group between that is not entered.
pub fn nested(random: &mut Random, keys: &Keys, plan: &mut Plan) {
    let mut inner = Vec::new();
    if random.chance(1, 3) {
        let key = random.pick(&keys.known);
        inner.push(sample(random, keys, key, 0));
    }
    if random.chance(1, 4) {
        let mandatory = random.chance(1, 2);
        inner.push(unknown(random, keys, mandatory));
    }
    let mut pieces = innermost(random, keys, inner);
    let depth = random.within(6, 9);
    pieces = nest(random, keys, depth, pieces);
    if random.chance(1, 8) {
        let key = random.pick(&keys.closed);
        let shut = vec![Piece::group(random, key, pieces)];
        let outer = random.below(8);
        pieces = nest(random, keys, outer, shut);
    }
    for piece in pieces {
        insert(random, &mut plan.avps, piece, false);
    }
}

/// One group around `inner`, now and then with a wrong length or a stump in it.
fn innermost(random: &mut Random, keys: &Keys, inner: Vec<Piece>) -> Vec<Piece> {
    let mut pieces = nest(random, keys, 1, inner);
    match random.below(8) {
        0 => pieces[0].stated = Some(random.pick(&[7, 8, 11, 12, 13, 16, 64])),
        1 => {
            let size = random.within(1, 8);
            pieces[0].body = Body::Data(random.bytes(size));
        }
        _ => {}
    }
    pieces
}

// Damages to the AVPs themselves: a second one, one missing, another order, unknown ones with and
// without M, known ones without effect, values that document 01 refuses or only just takes.

use super::avp::{all_bytes, insert, nest, sample, unknown, Body, Piece};
use super::keys::{Key, Keys};
use super::request::{imei, proxy_info, terminal_information, Plan};
use super::table;
use crate::build::{M, V};
use crate::random::Random;
use crate::request::Command;

/// The first top-level AVP of this key.
fn find(plan: &mut Plan, key: Key) -> Option<&mut Piece> {
    plan.avps.iter_mut().find(|piece| piece.has(key))
}

/// The names of the AVPs that the command uses; those that may be absent stand twice, to be drawn
/// as often as the others.
fn used(plan: &Plan) -> Vec<&'static str> {
    [plan.kind.required(), plan.kind.used_when_there(), plan.kind.used_when_there()].concat()
}

/// A second of one or two AVPs that the command uses, alike or with other data, the key perhaps
/// written with V and vendor 0.
pub fn used_twice(random: &mut Random, keys: &Keys, plan: &mut Plan) {
    for _ in 0..random.pick(&[1, 1, 1, 2]) {
        let name = random.pick(&used(plan));
        let key = keys.named(name);
        let first = find(plan, key).cloned();
        let missing = first.is_none();
        let mut piece = match first {
            Some(piece) if random.chance(1, 2) => piece,
            _ if name == "Terminal-Information" => terminal_information(random, keys),
            _ => sample(random, keys, key, 1),
        };
        if missing {
            plan.avps.push(piece.clone());
        }
        if key.vendor == 0 && random.chance(1, 6) {
            piece.flags |= V;
            piece.vendor = 0;
        }
        insert(random, &mut plan.avps, piece, false);
    }
}

/// A second IMEI in Terminal-Information: beside the first, or deeper, where it is none. Another
/// second may stand before it or after.
pub fn imei_twice(random: &mut Random, keys: &Keys, plan: &mut Plan) {
    let key = keys.named("Terminal-Information");
    if find(plan, key).is_none() {
        let piece = terminal_information(random, keys);
        insert(random, &mut plan.avps, piece, false);
    }
    let mut more = vec![imei(random, keys), imei(random, keys)];
    if random.chance(1, 5) {
        let deeper = vec![more.remove(0)];
        more.extend(nest(random, keys, 1, deeper));
    }
    if let Some(Piece { body: Body::Group(inner), .. }) = find(plan, key) {
        inner.extend(more);
        random.shuffle(inner);
    }
    match random.below(6) {
        0 => plan.avps.push(terminal_information(random, keys)),
        1 => used_twice(random, keys, plan),
        _ => {}
    }
}

/// "Proxy-Info excepted": again, the same or another.
pub fn proxy_info_again(random: &mut Random, keys: &Keys, plan: &mut Plan) {
    for _ in 0..random.within(1, 4) {
        let first = find(plan, keys.named("Proxy-Info")).cloned();
        let piece = match first {
            Some(piece) if random.chance(1, 2) => piece,
            _ => proxy_info(random, keys),
        };
        insert(random, &mut plan.avps, piece, false);
    }
}

/// Two of an unknown AVP without M.
pub fn unknown_twice(random: &mut Random, keys: &Keys, plan: &mut Plan) {
    let piece = unknown(random, keys, false);
    insert(random, &mut plan.avps, piece.clone(), false);
    insert(random, &mut plan.avps, piece, false);
}

/// One or two of an AVP that only another command uses: it has no effect here.
pub fn used_by_others(random: &mut Random, keys: &Keys, plan: &mut Plan) {
    let commands = [Command::Ulr, Command::Pur, Command::Nor];
    let all = commands.map(|kind| [kind.required(), kind.used_when_there()].concat()).concat();
    let mine = used(plan);
    let others: Vec<&str> = all.into_iter().filter(|name| !mine.contains(name)).collect();
    let name = random.pick(&others);
    for _ in 0..random.pick(&[1, 2, 2]) {
        let piece = match name {
            "Terminal-Information" => terminal_information(random, keys),
            _ => sample(random, keys, keys.named(name), 0),
        };
        insert(random, &mut plan.avps, piece, false);
    }
}

/// One required AVP absent, or two; sometimes it stands inside a group, where nobody looks.
pub fn required_missing(random: &mut Random, keys: &Keys, plan: &mut Plan) {
    for _ in 0..random.pick(&[1, 1, 1, 2]) {
        let key = keys.named(random.pick(plan.kind.required()));
        let gone = plan.avps.iter().position(|piece| piece.has(key));
        if let Some(place) = gone {
            let piece = plan.avps.remove(place);
            if random.chance(1, 5) {
                let pieces = nest(random, keys, 1, vec![piece]);
                plan.avps.extend(pieces);
            }
        }
    }
}

pub fn reordered(random: &mut Random, _: &Keys, plan: &mut Plan) {
    random.shuffle(&mut plan.avps);
}

/// An unknown AVP with M, at the top level or inside up to eight groups.
pub fn unknown_mandatory(random: &mut Random, keys: &Keys, plan: &mut Plan) {
    unknown_at_depth(random, keys, plan, true);
}

pub fn unknown_optional(random: &mut Random, keys: &Keys, plan: &mut Plan) {
    unknown_at_depth(random, keys, plan, false);
}

fn unknown_at_depth(random: &mut Random, keys: &Keys, plan: &mut Plan, mandatory: bool) {
    for _ in 0..random.pick(&[1, 1, 2]) {
        let piece = unknown(random, keys, mandatory);
        let depth = random.pick(&[0, 0, 0, 0, 1, 1, 2, 3, 5, 7, 8]);
        for piece in nest(random, keys, depth, vec![piece]) {
            let deep = random.chance(1, 3);
            insert(random, &mut plan.avps, piece, deep);
        }
    }
}

/// "A known AVP unused by the command has no effect."
pub fn known_unused(random: &mut Random, keys: &Keys, plan: &mut Plan) {
    for _ in 0..random.within(1, 6) {
        let key = keys.unused(random, plan.kind);
        let piece = sample(random, keys, key, 6);
        let deep = random.chance(1, 2);
        insert(random, &mut plan.avps, piece, deep);
    }
}

/// A used AVP where it is not looked for: inside a group, or IMEI outside Terminal-Information.
pub fn used_elsewhere(random: &mut Random, keys: &Keys, plan: &mut Plan) {
    if random.chance(1, 3) {
        let piece = imei(random, keys);
        return insert(random, &mut plan.avps, piece, false);
    }
    let key = keys.named(random.pick(&used(plan)));
    let piece = sample(random, keys, key, 1);
    let depth = random.within(1, 3);
    for piece in nest(random, keys, depth, vec![piece]) {
        insert(random, &mut plan.avps, piece, false);
    }
}

/// Proxy-Info or Failed-AVP, at the top level or in a group, holding junk or AVPs that would be
/// refused outside.
pub fn closed_group(random: &mut Random, keys: &Keys, plan: &mut Plan) {
    let key = random.pick(&keys.closed);
    let held = [unknown(random, keys, true), sample(random, keys, keys.named("Session-Id"), 0)];
    let mut data = all_bytes(&held);
    data.truncate(random.below(data.len() + 1));
    let piece = Piece::of(random, key, &data);
    let deep = random.chance(1, 3);
    insert(random, &mut plan.avps, piece, deep);
}

/// Values at the edge of what document 01 takes, or past it: one or several, for their order.
pub fn values_odd(random: &mut Random, keys: &Keys, plan: &mut Plan) {
    for _ in 0..random.pick(&[1, 1, 1, 2, 4]) {
        value_odd(random, keys, plan);
    }
}

fn value_odd(random: &mut Random, keys: &Keys, plan: &mut Plan) {
    let (name, data) = match random.below(5) {
        0 => ("User-Name", odd_digits(random, &[0, 5, 5, 6, 15, 16, 16, 17], &[6, 10, 15])),
        1 => ("Origin-Host", odd_name(random)),
        2 => {
            let size = random.pick(&[0, 1, 2, 4, 6]);
            ("Visited-PLMN-Id", random.bytes(size))
        }
        _ => return imei_odd(random, keys, plan),
    };
    let key = keys.named(name);
    match find(plan, key) {
        Some(piece) => piece.body = Body::Data(data),
        None => {
            let piece = Piece::of(random, key, &data);
            insert(random, &mut plan.avps, piece, false);
        }
    }
}

/// Digits of one of these numbers; or of a good number, with one byte that is no digit.
fn odd_digits(random: &mut Random, counts: &[usize], good: &[usize]) -> Vec<u8> {
    if random.chance(3, 5) {
        let count = random.pick(counts);
        return table::digits(random, count).into_bytes();
    }
    let count = random.pick(good);
    let mut bytes = table::digits(random, count).into_bytes();
    let place = random.below(count);
    bytes[place] = random.pick(&[0x2F, 0x3A, 0, 0x20, 0xB1, b'a']);
    bytes
}

/// 0, 1, 64 or 65 bytes and more, or a byte that is no name byte.
pub fn odd_name(random: &mut Random) -> Vec<u8> {
    let size = random.pick(&[0, 1, 64, 65, 66, 200]);
    if random.chance(1, 2) {
        return (0..size).map(|_| random.within(0x21, 0x7E) as u8).collect();
    }
    let mut bytes = table::name(random);
    let place = random.below(bytes.len());
    bytes[place] = random.pick(&[0x20, 0x7F, 0, 0x80, 0xC1, 0x0A, 0xFF]);
    bytes
}

/// "IMEI not 14 or 15 digits", in a Terminal-Information that is there or put there.
fn imei_odd(random: &mut Random, keys: &Keys, plan: &mut Plan) {
    let mut piece = imei(random, keys);
    piece.body = Body::Data(odd_digits(random, &[0, 1, 13, 14, 15, 16], &[14, 15]));
    if random.chance(1, 4) {
        piece.flags ^= M;
    }
    let key = keys.named("Terminal-Information");
    let group = Piece::group(random, key, vec![piece]);
    match find(plan, key) {
        Some(there) => *there = group,
        None => insert(random, &mut plan.avps, group, false),
    }
}

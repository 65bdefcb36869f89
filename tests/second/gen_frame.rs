// Damages around the AVPs: the header, the request's size, the buffers, own host and realm, the
// table, and bytes changed anywhere.

use super::avp::{unknown, Body, Piece};
use super::content::odd_name;
use super::damage::Damage;
use super::keys::Keys;
use super::request::{proxy_info, Plan};
use super::table;
use crate::random::Random;

/// "Answer buffer at least 4,352 bytes".
pub fn answer_short(random: &mut Random, _: &Keys, plan: &mut Plan) {
    plan.answer.truncate(random.pick(&[0, 1, 20, 4096, 4292, 4350, 4351, 4352]));
}

/// "Cancel buffer at least 136."
pub fn cancel_short(random: &mut Random, _: &Keys, plan: &mut Plan) {
    plan.cancel.truncate(random.pick(&[0, 1, 68, 134, 135, 135, 136]));
}

pub fn own_host_odd(random: &mut Random, _: &Keys, plan: &mut Plan) {
    plan.host = odd_name(random);
}

pub fn own_realm_odd(random: &mut Random, _: &Keys, plan: &mut Plan) {
    plan.realm = odd_name(random);
}

pub fn table_damaged(random: &mut Random, _: &Keys, plan: &mut Plan) {
    plan.table = table::damaged(random);
}

/// Requests of 19 bytes and fewer, of 20, and of 4,096 and more.
pub fn size_odd(random: &mut Random, _: &Keys, plan: &mut Plan) {
    match random.below(6) {
        0 => plan.kept = Some(random.pick(&[0, 1, 3, 4, 18, 19, 19])),
        1 => plan.avps.clear(),
        2 => fill(random, plan, 4096),
        3 => fill(random, plan, 4092),
        4 => fill(random, plan, 4100),
        _ => {
            fill(random, plan, 4096);
            let size = random.pick(&[1, 2, 3, 4, 900]);
            plan.tail = random.bytes(size);
        }
    }
}

/// Lengthens one top-level AVP until the request has `size` bytes.
fn fill(random: &mut Random, plan: &mut Plan, size: usize) {
    let missing = size.saturating_sub(plan.size());
    // Data of 4 bytes is a number mostly, and would only be of a wrong size.
    let open = |piece: &Piece| matches!(&piece.body, Body::Data(data) if data.len() != 4);
    let open: Vec<usize> = (0..plan.avps.len()).filter(|place| open(&plan.avps[*place])).collect();
    if open.is_empty() {
        return;
    }
    let place = random.pick(&open);
    if let Body::Data(data) = &mut plan.avps[place].body {
        data.extend(random.bytes(missing));
    }
}

/// A request that an answer repeats almost whole: Session-Id, Proxy-Info and perhaps an unknown
/// AVP with M, 4,096 bytes of them, and own names of 64 bytes.
pub fn longest(random: &mut Random, keys: &Keys, plan: &mut Plan) {
    plan.host = vec![b'h'; 64];
    plan.realm = vec![b'r'; 64];
    plan.avps = vec![Piece::of(random, keys.named("Session-Id"), b"s;1")];
    for _ in 0..random.pick(&[0, 1, 2, 20]) {
        plan.avps.push(proxy_info(random, keys));
    }
    if random.chance(1, 3) {
        plan.avps.push(unknown(random, keys, true));
    }
    fill(random, plan, 4096);
}

pub fn flag_r_clear(_: &mut Random, _: &Keys, plan: &mut Plan) {
    plan.flags &= 0x7F;
}

pub fn flag_e_set(_: &mut Random, _: &Keys, plan: &mut Plan) {
    plan.flags |= 0x20;
}

pub fn version_odd(random: &mut Random, _: &Keys, plan: &mut Plan) {
    plan.version = random.pick(&[0, 2, 3, 0x81, 0xFF]);
}

/// "length field not the bytes given, or no multiple of 4".
pub fn length_field_wrong(random: &mut Random, _: &Keys, plan: &mut Plan) {
    if random.chance(1, 2) {
        let size = random.within(1, 3);
        plan.tail = random.bytes(size);
        return;
    }
    let right = plan.size() as u32;
    let wrong = random.pick(&[right + 4, right - 4, right + 1, right - 1, 0, 20, right + 0x1_0000, 0xFF_FFFF]);
    plan.length_field = Some(wrong);
}

/// "application not 16777251".
pub fn application_other(random: &mut Random, _: &Keys, plan: &mut Plan) {
    plan.application = random.pick(&[0, 16_777_250, 16_777_252, 16_777_216, 0xFFFF_FFFF, 35]);
}

/// "command not 316, 321, 323": others of S6a, and numbers beside the three.
pub fn command_other(random: &mut Random, _: &Keys, plan: &mut Plan) {
    plan.command = random.pick(&[317, 318, 319, 320, 322, 324, 315, 0, 257, 316 + 0x1_0000, 0xFF_FFFF]);
}

/// Several faults of the header at once: the first that applies is to be told.
pub fn header_several(random: &mut Random, keys: &Keys, plan: &mut Plan) {
    let of_flags = [flag_r_clear, flag_e_set, version_odd];
    several(random, keys, plan, &of_flags);
    let of_fields = [size_odd, length_field_wrong, application_other, command_other];
    several(random, keys, plan, &of_fields);
}

/// Several faults of what the caller gives at once.
pub fn caller_several(random: &mut Random, keys: &Keys, plan: &mut Plan) {
    let of_buffers = [answer_short, cancel_short, table_damaged];
    several(random, keys, plan, &of_buffers);
    let of_others = [own_host_odd, own_realm_odd, size_odd, flag_r_clear];
    several(random, keys, plan, &of_others);
}

fn several(random: &mut Random, keys: &Keys, plan: &mut Plan, faults: &[Damage]) {
    for fault in faults {
        if random.chance(1, 3) {
            fault(random, keys, plan);
        }
    }
}

pub fn bytes_changed(random: &mut Random, _: &Keys, plan: &mut Plan) {
    plan.changed = random.within(1, 3);
}

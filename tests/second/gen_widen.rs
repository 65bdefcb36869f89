// `second widened SEED PAIRS`: requests over the same table, names and buffers in pairs. The first is answered with success
// or an Experimental-Result; the second is that request as a newer node might send it, by reading 16 of document 01.
// With `second widened-mandatory` an unknown AVP with M is among what the newer node puts in.

use super::avp::{insert, nest, sample, unknown, Body, Piece};
use super::draft::{uses, Draft, Level};
use super::keys::Keys;
use super::{request, table};
use crate::build::{M, V};
use crate::dictionary::{Dictionary, Kind};
use crate::protocol::Case;
use crate::random::Random;
use crate::request::Command;

/// "Request 20 to 4,096 bytes."
const MOST: usize = 4096;

/// A request and its widening.
pub fn pair(random: &mut Random, keys: &Keys, dictionary: &Dictionary, mandatory: bool) -> (Case, Case) {
    loop {
        let count = random.pick(&[0, 1, 1, 2, 3, 8]);
        let records = table::records_of(random, count);
        let mut plan = request::over(random, keys, &records);
        companions(random, keys, &mut plan);
        let mut draft = Draft { kind: plan.kind, flags: plan.flags, avps: plan.avps.clone() };
        let first = plan.case(random);
        if accepted(dictionary, &first) && widen(random, keys, &mut draft, mandatory) {
            let second = draft.case(&first);
            if request_of(&second) != request_of(&first) {
                return (first, second);
            }
        }
    }
}

/// What nodes of today send beside the AVPs that the command uses: features, and flag words.
fn companions(random: &mut Random, keys: &Keys, plan: &mut request::Plan) {
    if random.chance(1, 4) {
        let piece = supported_features(random, keys);
        insert(random, &mut plan.avps, piece, false);
    }
    if random.chance(1, 8) {
        let piece = sample(random, keys, keys.named("DSR-Flags"), 0);
        insert(random, &mut plan.avps, piece, true);
    }
}

fn supported_features(random: &mut Random, keys: &Keys) -> Piece {
    let inner = ["Vendor-Id", "Feature-List-ID", "Feature-List"].map(|name| sample(random, keys, keys.named(name), 0));
    Piece::group(random, keys.named("Supported-Features"), inner.to_vec())
}

fn request_of(case: &Case) -> &[u8] {
    match case {
        Case::Request { request, .. } => request,
        Case::Correction { .. } => &[],
    }
}

/// No Result-Code refuses it; a request planned without damage is never refused without an answer.
fn accepted(dictionary: &Dictionary, case: &Case) -> bool {
    let request = request_of(case);
    request.len() <= MOST && crate::request::read(dictionary, request).1.is_ok()
}

type Widening = fn(&mut Random, &Keys, &mut Draft);

/// Each with its weight: how often it is drawn beside the others.
const WIDENINGS: [(usize, Widening); 12] = [
    (6, unknown_put_in),
    (3, unknown_nested),
    (1, unknown_twice),
    (3, header_bit),
    (6, ignored_bit),
    (6, mandatory_bit),
    (4, spare_bits),
    (3, unseen_value),
    (6, known_put_in),
    (4, taken_out),
    (3, padding),
    (2, vendor_zero),
];

/// Some widenings, then the unknown AVPs with M, then now and then an unknown AVP that fills the request up. False where no AVP
/// with M found a place.
fn widen(random: &mut Random, keys: &Keys, draft: &mut Draft, mandatory: bool) -> bool {
    for _ in 0..random.within(1, 12) {
        let widening = drawn(random);
        fitting(random, keys, draft, widening);
    }
    let with_m = if mandatory { random.pick(&[1, 1, 2, 3]) } else { 0 };
    for _ in 0..with_m {
        let widening: Widening = if random.chance(1, 8) { mandatory_twice } else { mandatory_put_in };
        fitting(random, keys, draft, widening);
    }
    if random.chance(1, 12) {
        let mandatory = mandatory && random.chance(1, 2);
        let filler = unknown(random, keys, mandatory);
        fill(random, keys, draft, filler);
    }
    let unsupported = |_, piece: &Piece| piece.flags & M != 0 && keys.kind(piece.key()).is_none();
    !mandatory || !draft.found(keys, unsupported).is_empty()
}

fn drawn(random: &mut Random) -> Widening {
    let weighted = WIDENINGS.iter().flat_map(|(weight, widening)| vec![*widening; *weight]);
    random.pick(&weighted.collect::<Vec<Widening>>())
}

/// A widening, undone where the request has become too long.
fn fitting(random: &mut Random, keys: &Keys, draft: &mut Draft, widening: Widening) {
    let before = draft.clone();
    widening(random, keys, draft);
    if draft.size() > MOST {
        *draft = before;
    }
}

fn unknown_put_in(random: &mut Random, keys: &Keys, draft: &mut Draft) {
    let piece = unknown(random, keys, false);
    draft.put(random, keys, piece);
}

fn unknown_nested(random: &mut Random, keys: &Keys, draft: &mut Draft) {
    let piece = unknown(random, keys, false);
    put_nested(random, keys, draft, piece);
}

/// An AVP inside one to eight groups of its own.
fn put_nested(random: &mut Random, keys: &Keys, draft: &mut Draft, inner: Piece) {
    let depth = random.pick(&[1, 2, 3, 5, 7, 8]);
    for piece in nest(random, keys, depth, vec![inner]) {
        draft.put(random, keys, piece);
    }
}

/// Two alike: an unknown AVP is no second of anything.
fn unknown_twice(random: &mut Random, keys: &Keys, draft: &mut Draft) {
    let piece = unknown(random, keys, false);
    draft.put(random, keys, piece.clone());
    draft.put(random, keys, piece);
}

fn mandatory_put_in(random: &mut Random, keys: &Keys, draft: &mut Draft) {
    let piece = unknown(random, keys, true);
    if random.chance(1, 4) {
        put_nested(random, keys, draft, piece);
    } else {
        draft.put(random, keys, piece);
    }
}

/// Two of one key with other data: the first is to be shown.
fn mandatory_twice(random: &mut Random, keys: &Keys, draft: &mut Draft) {
    let mut piece = unknown(random, keys, true);
    draft.put(random, keys, piece.clone());
    piece.body = Body::Data(random.bytes(5));
    draft.put(random, keys, piece);
}

/// "Reserved header bits, T, .. are ignored."
fn header_bit(random: &mut Random, _: &Keys, draft: &mut Draft) {
    draft.flags ^= 1 << random.below(5);
}

/// "reserved AVP bits, P in an AVP, .. are ignored"
fn ignored_bit(random: &mut Random, keys: &Keys, draft: &mut Draft) {
    draft.change(random, keys, |_, _| true, |random, piece| piece.flags ^= 1 << random.below(6));
}

/// M of a known AVP.
fn mandatory_bit(random: &mut Random, keys: &Keys, draft: &mut Draft) {
    draft.change(random, keys, |_, piece| keys.kind(piece.key()).is_some(), |_, piece| piece.flags ^= M);
}

/// Bits without a use of the command's own flag word. "Used: ULR Single-Registration, S6a/S6d-Indicator (set means S6a),
/// Skip-Subscriber-Data, Initial-Attach; NOR Single-Registration; PUR's two."
fn spare_bits(random: &mut Random, keys: &Keys, draft: &mut Draft) {
    let (name, used) = match draft.kind {
        Command::Ulr => ("ULR-Flags", 0x27),
        Command::Pur => ("PUR-Flags", 0x03),
        Command::Nor => ("NOR-Flags", 0x01),
    };
    let own = |level, piece: &Piece| level == Level::Top && piece.has(keys.named(name));
    draft.change(random, keys, own, |random, piece| {
        let flipped = random.number() & !used;
        let data = piece.data().iter().zip(flipped.to_be_bytes()).map(|(byte, bits)| byte ^ bits).collect();
        piece.body = Body::Data(data);
    });
}

/// The data of an AVP that the command does not use: flag words of other commands, and whatever else.
fn unseen_value(random: &mut Random, keys: &Keys, draft: &mut Draft) {
    let kind = draft.kind;
    let unseen = |level, piece: &Piece| !uses(kind, keys, level, piece) && matches!(piece.body, Body::Data(_));
    draft.change(random, keys, unseen, |random, piece| {
        let size = match keys.kind(piece.key()) {
            Some(Kind::Four) => 4,
            Some(Kind::Eight) => 8,
            _ => random.within(0, 20),
        };
        piece.body = Body::Data(random.bytes(size));
    });
}

/// "A known AVP unused by the command has no effect."
fn known_put_in(random: &mut Random, keys: &Keys, draft: &mut Draft) {
    const NAMES: [&str; 12] = [
        "Feature-List",
        "DSR-Flags",
        "Supported-Features",
        "ULR-Flags",
        "PUR-Flags",
        "NOR-Flags",
        "RAT-Type",
        "Terminal-Information",
        "IMEI",
        "User-Name",
        "Proxy-Info",
        "Failed-AVP",
    ];
    let key = if random.chance(1, 3) { random.pick(&keys.known) } else { keys.named(random.pick(&NAMES)) };
    let piece = sample(random, keys, key, 3);
    draft.put(random, keys, piece);
}

/// An AVP that the command does not use, known or not.
fn taken_out(random: &mut Random, keys: &Keys, draft: &mut Draft) {
    draft.take(random, keys);
}

/// "padding [is] ignored"
fn padding(random: &mut Random, keys: &Keys, draft: &mut Draft) {
    let padded = |_, piece: &Piece| piece.data().len() % 4 != 0;
    draft.change(random, keys, padded, |random, piece| piece.padding ^= random.within(1, 255) as u8);
}

/// V with vendor 0 keeps the key.
fn vendor_zero(random: &mut Random, keys: &Keys, draft: &mut Draft) {
    let plain = |_, piece: &Piece| piece.flags & V == 0;
    draft.change(random, keys, plain, |_, piece| {
        piece.flags |= V;
        piece.vendor = 0;
    });
}

/// This AVP, with so much data that the request has 4,096 bytes.
fn fill(random: &mut Random, keys: &Keys, draft: &mut Draft, mut piece: Piece) {
    let missing = MOST - draft.size();
    let size = missing.saturating_sub(piece.header() + random.below(4));
    if size > 0 {
        piece.body = Body::Data(random.bytes(size));
        draft.put(random, keys, piece);
    }
}

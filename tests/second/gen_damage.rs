// The damages a request may take, each with its weight: how often it is drawn beside the others.

use super::keys::Keys;
use super::request::Plan;
use super::{content, frame, visit};
use crate::random::Random;

pub type Damage = fn(&mut Random, &Keys, &mut Plan);

const DAMAGES: [(usize, Damage); 39] = [
    // What the visit finds.
    (5, visit::length_wrong),
    (3, visit::length_under_header),
    (3, visit::flags_any),
    (2, visit::vendor_zero),
    (2, visit::vendor_other),
    (5, visit::size_wrong),
    (3, visit::group_cut),
    (4, visit::stump),
    (2, visit::message_cut),
    (5, visit::nested),
    // AVPs too many, too few, in another order, or with other values.
    (14, content::used_twice),
    (2, content::imei_twice),
    (1, content::proxy_info_again),
    (1, content::unknown_twice),
    (5, content::used_by_others),
    (13, content::required_missing),
    (1, content::reordered),
    (5, content::unknown_mandatory),
    (2, content::unknown_optional),
    (2, content::known_unused),
    (1, content::used_elsewhere),
    (2, content::closed_group),
    (6, content::values_odd),
    // The header, the sizes and what else the caller gives.
    (2, frame::answer_short),
    (2, frame::cancel_short),
    (4, frame::own_host_odd),
    (4, frame::own_realm_odd),
    (12, frame::table_damaged),
    (4, frame::size_odd),
    (3, frame::longest),
    (1, frame::flag_r_clear),
    (1, frame::flag_e_set),
    (1, frame::version_odd),
    (2, frame::length_field_wrong),
    (2, frame::application_other),
    (2, frame::command_other),
    (3, frame::header_several),
    (3, frame::caller_several),
    (3, frame::bytes_changed),
];

/// One damage, or two, now and then three.
pub fn apply(random: &mut Random, keys: &Keys, plan: &mut Plan) {
    let total = DAMAGES.iter().map(|(weight, _)| weight).sum();
    for _ in 0..random.pick(&[1, 1, 1, 1, 2, 2, 3]) {
        let mut drawn = random.below(total);
        for (weight, damage) in DAMAGES {
            if drawn < weight {
                damage(random, keys, plan);
                break;
            }
            drawn -= weight;
        }
    }
}

// `second gen SEED COUNT`: cases made from a seed. Four in five are requests, the others
// corrections; half of either are then damaged in one place or two. The same seed gives the
// same cases everywhere.

#[path = "gen_avp.rs"]
mod avp;
#[path = "gen_content.rs"]
mod content;
#[path = "gen_correction.rs"]
mod correction;
#[path = "gen_damage.rs"]
mod damage;
#[path = "gen_desk.rs"]
mod desk;
#[path = "gen_draft.rs"]
mod draft;
#[path = "gen_frame.rs"]
mod frame;
#[path = "gen_keys.rs"]
mod keys;
#[path = "gen_request.rs"]
mod request;
#[path = "gen_table.rs"]
mod table;
#[path = "gen_visit.rs"]
mod visit;
#[path = "gen_widen.rs"]
mod widen;

use crate::build::Record;
use crate::dictionary::Dictionary;
use crate::protocol::{write_case, Case, Outcome};
use crate::random::Random;
use crate::registry;
use keys::Keys;
use std::io::{self, Write};

pub fn run(dictionary: &Dictionary, seed: u64, count: u64, out: &mut impl Write) -> io::Result<()> {
    let keys = Keys::new(dictionary);
    let mut random = Random::new(seed);
    for _ in 0..count {
        let case = case(&mut random, &keys);
        write_case(out, &case)?;
    }
    Ok(())
}

/// `second corrections SEED COUNT`: corrections alone.
pub fn corrections(seed: u64, count: u64, out: &mut impl Write) -> io::Result<()> {
    let mut random = Random::new(seed);
    for _ in 0..count {
        write_case(out, &correction::case(&mut random))?;
    }
    Ok(())
}

/// `second runs SEED RUNS STEPS`: runs of requests and corrections in a row. The table of a step is the one that the step before left, so a registry that
/// gives the same results as `second cases` has kept the same table all along.
pub fn runs(dictionary: &Dictionary, seed: u64, runs: u64, steps: u64, out: &mut impl Write) -> io::Result<()> {
    let keys = Keys::new(dictionary);
    let mut random = Random::new(seed);
    for _ in 0..runs {
        let count = random.within(1, 4);
        let mut records = table::records_of(&mut random, count);
        for _ in 0..steps {
            let case = step(&mut random, &keys, &records);
            write_case(out, &case)?;
            records = crate::build::records(&after(dictionary, &case));
        }
    }
    Ok(())
}

/// `second widened SEED PAIRS`, `second widened-mandatory SEED PAIRS`: requests, each followed by a widening of it.
pub fn widened(
    dictionary: &Dictionary,
    seed: u64,
    pairs: u64,
    mandatory: bool,
    out: &mut impl Write,
) -> io::Result<()> {
    let keys = Keys::new(dictionary);
    let mut random = Random::new(seed);
    for _ in 0..pairs {
        let (first, second) = widen::pair(&mut random, &keys, dictionary, mandatory);
        write_case(out, &first)?;
        write_case(out, &second)?;
    }
    Ok(())
}

/// `second desks SEED`: the input of one run of the desk.
pub fn desks(dictionary: &Dictionary, seed: u64, out: &mut impl Write) -> io::Result<()> {
    out.write_all(&desk::run(&mut Random::new(seed), dictionary, &Keys::new(dictionary)))
}

fn step(random: &mut Random, keys: &Keys, records: &[Record]) -> Case {
    if random.chance(1, 4) {
        return correction::over(random, records);
    }
    let mut plan = request::over(random, keys, records);
    if random.chance(1, 8) {
        damage::apply(random, keys, &mut plan);
        plan.table = crate::build::table(records);
    }
    plan.case(random)
}

/// The table that a case leaves.
fn after(dictionary: &Dictionary, case: &Case) -> Vec<u8> {
    match registry::judge(dictionary, case).outcome {
        Outcome::Request { table, .. } | Outcome::Correction { table, .. } => table,
    }
}

fn case(random: &mut Random, keys: &Keys) -> Case {
    if random.chance(1, 5) {
        return correction::case(random);
    }
    let mut plan = request::ordinary(random, keys);
    if random.chance(1, 2) {
        damage::apply(random, keys, &mut plan);
    }
    plan.case(random)
}

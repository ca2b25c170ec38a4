//! The plain engine and the proved library agree with the plain machine on lists, and with the
//! document's outcome of every call, byte for byte, on damaged images.
//!
//! `LANTHEWG_SEED` sets another seed; run with `--nocapture` for the seeds and the table.

use comparison::compare;
use comparison::plain::Controller;
use comparison::proved::Proved;

fn first_seed() -> u64 {
    let set = std::env::var("LANTHEWG_SEED").ok();
    set.map_or(1, |seed| seed.parse().expect("LANTHEWG_SEED is a number"))
}

#[test]
fn plain_engine_agrees() {
    compare::agree(&Controller::clone, first_seed());
}

#[test]
fn proved_library_agrees() {
    compare::agree(&Proved::from_record, first_seed());
}

//! Drawings with Majority gates: loads with every question, runs and looks, which are
//! compared with the plain coding alone.

use super::drawing::{any_profile, boxes_profile, drawing, file_of, running_profile, Profile};
use super::random::Random;
use super::Stream;
use super::{load, look, rounds};
use std::io::{Result, Write};

pub fn one<W: Write>(random: &mut Random, stream: &mut Stream<W>) -> Result<()> {
    let what = random.below(4);
    let profile = match what {
        0 => any_profile(random),
        1 => boxes_profile(random),
        _ => running_profile(random),
    };
    let drawn = drawing(random, Profile { votes: true, ..profile });
    match what {
        0 => load::load(random, stream, file_of(&drawn)),
        1 => look::boxes(random, stream, &drawn),
        _ => rounds::run(random, stream, file_of(&drawn)),
    }
}

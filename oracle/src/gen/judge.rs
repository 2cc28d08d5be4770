//! Files to judge: accepted drawings, damaged copies, and noise.

use super::damage::{damaged, noise};
use super::drawing::{any_profile, drawing, file_of, voting};
use super::random::Random;
use super::Stream;
use crate::command::Command;
use crate::plain::drawing::Record;
use std::io::{Result, Write};

/// A file to judge, one in four by the host's two calls as well.
pub fn one<W: Write>(random: &mut Random, stream: &mut Stream<W>) -> Result<()> {
    let file = any_file(random);
    stream.put(Command::Judge(file.clone()))?;
    if random.once_in(4) {
        stream.put(Command::Host(file))?;
    }
    Ok(())
}

/// Three in ten accepted, six damaged, one noise; Majority gates in one of three.
pub fn any_file(random: &mut Random) -> Vec<u8> {
    match random.below(10) {
        0 => noise(random),
        1..=3 => file_of(&any_drawing(random)),
        _ => {
            let records = any_drawing(random);
            damaged(random, records)
        }
    }
}

pub fn any_drawing(random: &mut Random) -> Vec<Record> {
    let profile = any_profile(random);
    let profile = voting(random, 3, profile);
    drawing(random, profile)
}

/// An accepted drawing of the kinds that logix has.
pub fn good_file(random: &mut Random) -> Vec<u8> {
    let profile = any_profile(random);
    file_of(&drawing(random, profile))
}

/// A damaged copy of one.
pub fn bad_file(random: &mut Random) -> Vec<u8> {
    let profile = any_profile(random);
    let records = drawing(random, profile);
    damaged(random, records)
}

//! Loads, each with rounds, edits of both ways, runs until calm and the question of calm; after each, satisfied or not;
//! now and then the table of a round's bits, and too little of it lent.

use super::drawing::{drawing, file_of, running_profile};
use super::evaluate::past;
use super::judge::bad_file;
use super::random::Random;
use super::Stream;
use crate::command::Command;
use crate::plain::kinds::{greatest, WIDTH_MAX};
use crate::plain::net::entries;
use crate::tables::{Tables, MOVED, WIRES};
use std::io::{Result, Write};

pub fn one<W: Write>(random: &mut Random, stream: &mut Stream<W>) -> Result<()> {
    let profile = running_profile(random);
    let file = file_of(&drawing(random, profile));
    run(random, stream, file)
}

/// One accepted file, and calls on it.
pub fn run<W: Write>(random: &mut Random, stream: &mut Stream<W>, file: Vec<u8>) -> Result<()> {
    stream.put_all([Command::Load(file), Command::Satisfied, Command::State])?;
    let mut time = first_time(random);
    for _ in 0..random.between(3, 25) {
        time = next_time(random, time);
        let command = step(random, &stream.program.tables, time);
        let rounds = matches!(command, Command::Round { .. } | Command::Run { .. });
        stream.put_all([command, Command::Satisfied, Command::State])?;
        if random.once_in(10) {
            edits_in_a_row(random, stream)?;
        }
        if rounds && random.once_in(8) {
            stream.put(BITS)?;
        }
        if random.once_in(20) {
            bits_lent_less(random, stream, time)?;
        }
        if random.once_in(40) {
            stream.put(Command::All)?;
        }
    }
    Ok(())
}

/// Some edits with no round between, of either way, half of them of one component.
fn edits_in_a_row<W: Write>(random: &mut Random, stream: &mut Stream<W>) -> Result<()> {
    let mut last = edit(random, &stream.program.tables);
    for _ in 0..random.between(2, 5) {
        stream.put_all([last.clone(), Command::State])?;
        last = match (random.below(2), &last) {
            (0, Command::Edit { index, number }) => either_way(random, *index, *number ^ 1),
            (0, Command::EditFirst { index, number }) => either_way(random, *index, *number ^ 1),
            _ => edit(random, &stream.program.tables),
        };
    }
    stream.put(Command::Satisfied)
}

/// The table of a round's bits.
const BITS: Command = Command::Table { table: MOVED as u8 };

/// Rounds that are lent too little of the table of bits; a run until calm and an edit do not
/// mind. Then it is whole again.
fn bits_lent_less<W: Write>(random: &mut Random, stream: &mut Stream<W>, time: u64) -> Result<()> {
    let words = random.pick(&[0, 1, 255, 255, 256]);
    stream.put(Command::Lend { table: MOVED as u8, words })?;
    stream.put_all([Command::Round { time }, Command::State])?;
    let other = match random.below(3) {
        0 => edit(random, &stream.program.tables),
        1 => Command::Run { time, limit: random.pick(&[1, 2, 16]) },
        _ => Command::Calm,
    };
    stream.put_all([other, Command::Round { time }, BITS])?;
    stream.put(Command::Lend { table: MOVED as u8, words: random.pick(&[256, 257, 65_535]) })?;
    stream.put_all([Command::Round { time }, BITS, Command::State])
}

pub fn first_time(random: &mut Random) -> u64 {
    match random.below(3) {
        0 => random.pick(&[u64::MAX, u64::MAX - 5, 1 << 63, 1 << 62]),
        1 => random.any_size(),
        _ => 0,
    }
}

/// Time mostly goes on by a little; it may stand, go back, leap or wrap.
pub fn next_time(random: &mut Random, time: u64) -> u64 {
    match random.below(8) {
        0 => time,
        1 => time.wrapping_sub(random.between(1, 30)),
        2 => random.any_size(),
        _ => time.wrapping_add(random.between(1, 9)),
    }
}

/// One command; now and then a load that is refused.
pub fn step(random: &mut Random, tables: &Tables, time: u64) -> Command {
    match random.below(20) {
        0..=9 => Command::Round { time },
        10..=14 => edit(random, tables),
        15..=17 => Command::Run { time, limit: random.pick(&[0, 1, 2, 3, 16, 40, 300]) },
        18 => Command::Calm,
        _ => Command::Load(bad_file(random)),
    }
}

/// Mostly an edit that is taken; else of any component, with any number. Either way.
pub fn edit(random: &mut Random, tables: &Tables) -> Command {
    let open = editable(tables);
    let (index, width) = match (open.is_empty(), random.below(5)) {
        (false, 0..=3) => random.pick(&open),
        _ => (any_index(random, tables), random.pick(&[1, 1, 4, 32, 64])),
    };
    let past = past(width);
    let number = match random.below(8) {
        0 => random.pick(&[past, past.saturating_add(1), 1 << 32, 1 << 63, u64::MAX]),
        1 | 2 => greatest(width),
        3 | 4 => 0,
        _ => random.any() & greatest(width),
    };
    either_way(random, index, number)
}

/// An edit that goes first, or one of the old way.
pub fn either_way(random: &mut Random, index: u16, number: u64) -> Command {
    match random.below(2) {
        0 => Command::Edit { index, number },
        _ => Command::EditFirst { index, number },
    }
}

fn any_index(random: &mut Random, tables: &Tables) -> u16 {
    let count = tables.counts[0].min(256);
    match random.below(6) {
        0 => random.pick(&[count, 255, 256, 65_535]) as u16,
        _ => random.between(0, count) as u16,
    }
}

/// Switches, and Inputs that no wire enters, with the width of what an edit sets.
fn editable(tables: &Tables) -> Vec<(u16, u64)> {
    if !tables.counts_within() {
        return vec![];
    }
    let entered = |index: u64| tables.used(WIRES).chunks_exact(4).any(|wire| wire[2] == index);
    let mut found = vec![];
    for (index, entry) in entries(tables).iter().enumerate() {
        match entry.fields.kind {
            7 => found.push((index as u16, 1)),
            8 if !entered(index as u64) => {
                found.push((index as u16, entry.fields.parameter.clamp(1, WIDTH_MAX)))
            }
            _ => {}
        }
    }
    found
}

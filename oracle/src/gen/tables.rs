//! Tables changed by hand after a load: one fault, or another net, then every
//! call on it. The next one begins with a load that repairs.

use super::drawing::{drawing, file_of, running_profile, voting, Profile};
use super::evaluate::past;
use super::full::full_net;
use super::look::any_path;
use super::random::Random;
use super::rounds::edit;
use super::Stream;
use crate::command::Command;
use crate::plain::drawing::records;
use crate::plain::kinds::{greatest, PERIOD_MAX};
use crate::plain::net::{entries, Entry};
use crate::program::Program;
use crate::tables::{
    Tables, ANSWER, COMPONENTS, CURRENT, DROPPED, ENTRY_WORDS, FULL_ENTRIES, FULL_WORDS, INPUTS, MOVED,
    NUMBERS, OUTPUTS, SLOW_INPUTS, STANDING, WIDTHS, WIRES,
};
use std::io::{Result, Write};

pub fn one<W: Write>(random: &mut Random, stream: &mut Stream<W>) -> Result<()> {
    let file = small_file(random);
    stream.put_all([Command::Keep(file.clone()), Command::Load(file)])?;
    for _ in 0..random.below(4) {
        stream.put(Command::Round { time: random.below(40) })?;
    }
    match random.below(12) {
        0 => lend_less(random, stream),
        1 => other_net(random, stream),
        _ => {
            let commands = fault(random, &stream.program.tables);
            stream.put_all(commands)?;
            every_call(random, stream)
        }
    }
}

/// A drawing small enough to be written word by word, one in four with Majority gates.
fn small_file(random: &mut Random) -> Vec<u8> {
    let components = random.between(3, 40) as usize;
    let profile = Profile {
        components,
        wide: false,
        fill_inputs: false,
        fill_outputs: false,
        chain: false,
        ..running_profile(random)
    };
    let profile = voting(random, 4, profile);
    file_of(&drawing(random, profile))
}

/// Each call once, in any order, and the tables afterwards.
fn every_call<W: Write>(random: &mut Random, stream: &mut Stream<W>) -> Result<()> {
    let count = stream.program.tables.counts[COMPONENTS].min(300);
    let index = random.between(0, count) as u16;
    let port = random.below(3) as u16;
    let time = random.any_size();
    let id = match random.below(4) {
        0 => random.any_size(),
        _ => stream.program.tables.words[COMPONENTS][8 * random.below(3) as usize + 1],
    };
    let mut calls = vec![
        Command::Round { time },
        edit(random, &stream.program.tables),
        edit(random, &stream.program.tables),
        Command::Run { time, limit: random.pick(&[0, 1, 5]) },
        Command::Calm,
        Command::Satisfied,
        Command::Index { id: id as u32 },
        Command::Value { side: random.below(2) as u8, index, port },
        Command::Sources { index },
        Command::Targets { index },
        Command::Look { path: any_path(random, &records(&stream.program.kept)) },
        Command::Mend,
    ];
    while !calls.is_empty() {
        let at = random.below(calls.len() as u64) as usize;
        stream.put(calls.swap_remove(at))?;
    }
    if random.once_in(4) {
        stream.put_all([Command::Net, Command::State])?;
    }
    stream.put(Command::All)?;
    stream.put(Command::Table { table: random.pick(&[ANSWER, NUMBERS, WIDTHS, MOVED, MOVED, DROPPED]) as u8 })
}

/// Every table but the slow engine's one word short, or empty, or lent past its full size.
pub fn lend_less<W: Write>(random: &mut Random, stream: &mut Stream<W>) -> Result<()> {
    let table = random.below(SLOW_INPUTS as u64) as usize;
    let full = FULL_WORDS[table] as u16;
    let words = random.pick(&[full - 1, full - 1, 0, full, full + 1, 65_535]);
    stream.put(Command::Lend { table: table as u8, words })?;
    if random.once_in(4) {
        stream.put_all(fault(random, &stream.program.tables))?;
    }
    every_call(random, stream)?;
    stream.put(Command::Judge(small_file(random)))?;
    stream.put(Command::Load(small_file(random)))?;
    stream.put(Command::Load(vec![1; random.pick(&[0, 23, 24, 30_000])]))?;
    stream.put(Command::Lend { table: table as u8, words: 65_535 })?;
    every_call(random, stream)
}

/// A net that no load made, written word by word, then every call and some rounds.
fn other_net<W: Write>(random: &mut Random, stream: &mut Stream<W>) -> Result<()> {
    let mut tables = match random.below(8) {
        0 => full_net(random),
        _ => changed_net(random),
    };
    change_values(random, &mut tables);
    let count = tables.counts[COMPONENTS];
    for list in CURRENT..=STANDING {
        let any = random.between(0, count);
        let length = random.pick(&[count, any, any]);
        let words = some_components(random, count, length);
        tables.put(list, &words);
    }
    for table in 0..7 {
        for (place, word) in tables.used(table).iter().enumerate() {
            stream.put(write(table, place as u64, *word))?;
        }
        stream.put(Command::SetCount { which: table as u8, number: tables.counts[table] })?;
    }
    stream.put_all([Command::Net, Command::State])?;
    every_call(random, stream)?;
    for _ in 0..random.below(6) {
        stream.put_all([Command::Round { time: random.below(30) }, Command::Satisfied, Command::State])?;
    }
    Ok(())
}

/// The net of another drawing, its wires in another order, some of them gone.
fn changed_net(random: &mut Random) -> Tables {
    let mut other = Program::new();
    other.answer(&Command::Load(small_file(random)), &mut String::new());
    change_wires(random, &mut other.tables);
    other.tables
}

/// Any values that fit; a Const keeps its own.
pub fn change_values(random: &mut Random, tables: &mut Tables) {
    for entry in entries(tables) {
        for port in 0..entry.fields.inputs {
            let value = random.any() & greatest(entry.fields.input_width());
            tables.words_mut(INPUTS)[(entry.first_input + port) as usize] = value;
        }
        for port in 0..entry.fields.outputs {
            let value = random.any() & greatest(entry.fields.output_width());
            if entry.fields.kind != 13 {
                tables.words_mut(OUTPUTS)[(entry.first_output + port) as usize] = value;
            }
        }
    }
}

/// The wires in another order, some of them gone.
fn change_wires(random: &mut Random, tables: &mut Tables) {
    let mut wires: Vec<Vec<u64>> = tables.used(WIRES).chunks_exact(4).map(|wire| wire.to_vec()).collect();
    let mut kept = vec![];
    while !wires.is_empty() {
        let wire = wires.swap_remove(random.below(wires.len() as u64) as usize);
        if !random.once_in(10) {
            kept.extend(wire);
        }
    }
    tables.put(WIRES, &kept);
}

/// So many components, in any order.
fn some_components(random: &mut Random, count: u64, length: u64) -> Vec<u64> {
    let mut left: Vec<u64> = (0..count).collect();
    let mut list = vec![];
    for _ in 0..length {
        list.push(left.swap_remove(random.below(left.len() as u64) as usize));
    }
    list
}

/// One fault, as a rule: a clause of the net for each arm.
pub fn fault(random: &mut Random, tables: &Tables) -> Vec<Command> {
    match random.below(13) {
        0 | 1 => vec![count_fault(random, tables)],
        2..=5 => component_fault(random, tables),
        6 => value_fault(random, tables),
        7 => const_fault(random, tables),
        8 | 9 => wire_fault(random, tables),
        10 => width_fault(random, tables),
        _ => list_fault(random, tables),
    }
}

fn write(table: usize, place: u64, word: u64) -> Command {
    Command::WriteWord { table: table as u8, place: place as u16, word }
}

/// "counts are within these limits", and the totals of the ports.
pub fn count_fault(random: &mut Random, tables: &Tables) -> Command {
    let which = random.below(7) as usize;
    let (count, full) = (tables.counts[which], FULL_ENTRIES[which]);
    let number = match random.below(4) {
        0 => count + 1,
        1 => count.saturating_sub(1),
        2 => random.pick(&[0, full, full + 1, full * ENTRY_WORDS[which] as u64 + 1]),
        _ => random.pick(&[1 << 16, (1 << 32) + count, 1 << 61, 1 << 63, u64::MAX, u64::MAX - full]),
    };
    Command::SetCount { which: which as u8, number }
}

/// "kinds 1 to 13", and 15, "obey the table of kinds and have distinct ids, ports follow
/// each other without gaps": one word of one component.
fn component_fault(random: &mut Random, tables: &Tables) -> Vec<Command> {
    let entries = entries(tables);
    if entries.is_empty() {
        return vec![count_fault(random, tables)];
    }
    let at = random.below(entries.len() as u64);
    let field = random.below(8);
    let old = tables.words[COMPONENTS][(8 * at + field) as usize];
    let other = random.pick(&entries);
    let word = match field {
        0 => random.pick(&[0, 14, 15, 16, 255, 256 + old, 271, 1 << 32 | old, u64::MAX, other.fields.kind]),
        1 => random.pick(&[other.id, other.id, 1 << 32, 1 << 32 | old, u64::MAX, old ^ 1, u32::MAX as u64]),
        2 => random.pick(&[0, 1, 32, 33, 63, 64, 65, 1 << 16 | old, 1 << 32 | old, u64::MAX]),
        3 => parameter(random, &entries[at as usize]),
        4 | 5 => random.pick(&[0, 1, old + 1, old.wrapping_sub(1), 64, 65, 1 << 32 | old, u64::MAX]),
        _ => random.pick(&[0, old + 1, old.wrapping_sub(1), 1 << 16 | old, 1 << 32 | old, u64::MAX]),
    };
    vec![write(COMPONENTS, 8 * at + field, word)]
}

/// Parameters that break the table of kinds, and some that do not.
fn parameter(random: &mut Random, entry: &Entry) -> u64 {
    let (old, width) = (entry.fields.parameter, entry.fields.width);
    match entry.fields.kind {
        12 => random.pick(&[0, 1, PERIOD_MAX, PERIOD_MAX + 1, u64::MAX, old + 1]),
        13 => random.pick(&[0, old ^ 1, greatest(width), past(width), u64::MAX]),
        _ => random.pick(&[0, 1, 32, 33, 63, 64, 65, old + 1, 1 << 32 | old, u64::MAX]),
    }
}

/// "obey the table of kinds": how many bits a component has, up to the limit and past it.
fn width_fault(random: &mut Random, tables: &Tables) -> Vec<Command> {
    let entries = entries(tables);
    let of_bits: Vec<usize> = (0..entries.len()).filter(|at| entries[*at].fields.is_of_bits()).collect();
    if of_bits.is_empty() {
        return component_fault(random, tables);
    }
    let at = random.pick(&of_bits);
    let field = if entries[at].fields.kind == 13 { 2 } else { 3 };
    let word = random.pick(&[0, 1, 32, 33, 63, 64, 64, 65, 65, 66, (1 << 32) + 64]);
    vec![write(COMPONENTS, 8 * at as u64 + field, word)]
}

/// "values fit, each Const's output is its value".
pub fn value_fault(random: &mut Random, tables: &Tables) -> Vec<Command> {
    let entries = entries(tables);
    let side = random.pick(&[INPUTS, OUTPUTS]);
    let has_ports = |entry: &&Entry| if side == INPUTS { entry.fields.inputs > 0 } else { true };
    let having: Vec<Entry> = entries.iter().filter(has_ports).copied().collect();
    if having.is_empty() {
        return vec![count_fault(random, tables)];
    }
    let entry = random.pick(&having);
    let (first, ports, width) = match side {
        INPUTS => (entry.first_input, entry.fields.inputs, entry.fields.input_width()),
        _ => (entry.first_output, entry.fields.outputs, entry.fields.output_width()),
    };
    let (past, greatest) = (past(width), greatest(width));
    let next = past.saturating_add(1);
    let word = random.pick(&[past, past, next, greatest, 0, 1, 1 << 32, 1 << 63, u64::MAX]);
    vec![write(side, first + random.below(ports), word)]
}

/// "each Const's output is its value": the one or the other changes, and fits.
pub fn const_fault(random: &mut Random, tables: &Tables) -> Vec<Command> {
    let entries = entries(tables);
    let consts: Vec<usize> = (0..entries.len()).filter(|at| entries[*at].fields.kind == 13).collect();
    if consts.is_empty() {
        return value_fault(random, tables);
    }
    let at = random.pick(&consts);
    let other = entries[at].fields.parameter ^ (1 << random.below(entries[at].fields.width));
    match random.below(2) {
        0 => vec![write(COMPONENTS, 8 * at as u64 + 3, other)],
        _ => vec![write(OUTPUTS, entries[at].first_output, other)],
    }
}

/// "wires have ends that exist and equal widths, no input has two wires".
fn wire_fault(random: &mut Random, tables: &Tables) -> Vec<Command> {
    let wires: Vec<&[u64]> = tables.used(WIRES).chunks_exact(4).collect();
    if wires.is_empty() {
        return vec![count_fault(random, tables)];
    }
    let at = random.below(wires.len() as u64);
    let (wire, other) = (wires[at as usize], random.pick(&wires));
    let count = tables.counts[COMPONENTS];
    let existing = random.below(count);
    let component = random.pick(&[count, count + 1, 256, 65_535, existing]);
    let port = random.pick(&[wire[1] + 1, 1, 64, 65_535]);
    match random.below(7) {
        0 => vec![write(WIRES, 4 * at, component)],
        1 => vec![write(WIRES, 4 * at + 1, port)],
        2 => vec![write(WIRES, 4 * at + 2, component)],
        3 => vec![write(WIRES, 4 * at + 3, port)],
        4 => vec![write(WIRES, 4 * at, other[0]), write(WIRES, 4 * at + 1, other[1])],
        5 => unequal_source(random, tables, at, wire),
        _ => vec![write(WIRES, 4 * at + 2, other[2]), write(WIRES, 4 * at + 3, other[3])],
    }
}

/// The wire comes from an output of another width, where there is one.
fn unequal_source(random: &mut Random, tables: &Tables, at: u64, wire: &[u64]) -> Vec<Command> {
    let entries = entries(tables);
    let width = entries[wire[2] as usize].fields.input_width();
    let unequal = |index: &usize| entries[*index].fields.output_width() != width;
    let others: Vec<usize> = (0..entries.len()).filter(unequal).collect();
    if others.is_empty() {
        return vec![];
    }
    vec![write(WIRES, 4 * at, random.pick(&others) as u64), write(WIRES, 4 * at + 1, 0)]
}

/// "each list names existing components without repeats".
pub fn list_fault(random: &mut Random, tables: &Tables) -> Vec<Command> {
    let list = random.between(CURRENT as u64, STANDING as u64) as usize;
    let count = tables.counts[COMPONENTS];
    let length = tables.counts[list];
    let wrong = random.pick(&[count, count + 1, 256, 65_535]);
    let at = random.below(length.max(1));
    let named = tables.words[list][random.below(length.max(1)) as usize];
    let longer = Command::SetCount { which: list as u8, number: length + 1 };
    match random.below(5) {
        0 => vec![write(list, at, wrong)],
        1 => vec![write(list, at, named)],
        2 => vec![write(list, length.min(255), named), longer],
        3 => vec![write(list, length.min(255), random.below(count.max(1))), longer],
        _ => vec![write(list, length.min(255), wrong), longer],
    }
}

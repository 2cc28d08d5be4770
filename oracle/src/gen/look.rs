//! Looks: at boxes of the drawing that is loaded, after rounds and edits; with the
//! file of another drawing, with damaged tables or a damaged file, with too little lent.

use super::damage::damaged;
use super::drawing::{blank, boxes_profile, drawing, file_of};
use super::judge::bad_file;
use super::random::Random;
use super::rounds::step;
use super::tables::{change_values, fault};
use super::Stream;
use crate::command::{Command, PATH_MAX};
use crate::plain::drawing::{records, Id, Record, COMPONENT, CONNECTION, INPUT_MAP};
use crate::plain::net::entries;
use crate::tables::{
    Tables, ALL, ANSWER, COMPONENTS, FULL_WORDS, INPUTS, MOVED, NUMBERS, OUTPUTS, WIDTHS, WIRES,
};
use std::io::{Result, Write};

pub fn one<W: Write>(random: &mut Random, stream: &mut Stream<W>) -> Result<()> {
    let profile = boxes_profile(random);
    let drawn = drawing(random, profile);
    boxes(random, stream, &drawn)
}

/// One accepted drawing, and looks at its boxes.
pub fn boxes<W: Write>(random: &mut Random, stream: &mut Stream<W>, drawn: &[Record]) -> Result<()> {
    let file = file_of(drawn);
    for _ in 0..random.between(1, 3) {
        stream.put_all([Command::Keep(file.clone()), Command::Load(file.clone())])?;
        steps(random, stream)?;
        if random.once_in(2) {
            other_values(random, stream)?;
        }
        looks(random, stream)?;
        otherwise(random, stream, drawn)?;
        looks(random, stream)?;
    }
    let table = random.pick(&[NUMBERS, NUMBERS, WIDTHS, WIDTHS, ANSWER, MOVED, INPUTS, ALL]);
    stream.put(Command::Table { table: table as u8 })
}

/// Something else is lent from now on.
fn otherwise<W: Write>(random: &mut Random, stream: &mut Stream<W>, drawn: &[Record]) -> Result<()> {
    match random.below(12) {
        0 => steps(random, stream),
        1 => other_values(random, stream),
        2 | 3 => stream.put(Command::Keep(file_of(&other_drawing(random, drawn.to_vec())))),
        4 => stream.put(Command::Load(file_of(&other_drawing(random, drawn.to_vec())))),
        5 | 6 => stream.put(Command::Keep(damaged(random, drawn.to_vec()))),
        7 => stream.put_all(fault(random, &stream.program.tables)),
        8 | 9 => stream.put_all(other_net(random, &stream.program.tables)),
        10 => lent_less(random, stream),
        _ => lists_written(random, stream),
    }
}

/// Some rounds and edits.
fn steps<W: Write>(random: &mut Random, stream: &mut Stream<W>) -> Result<()> {
    let mut time = random.any_size();
    for _ in 0..random.below(7) {
        time = time.wrapping_add(random.between(1, 9));
        let command = step(random, &stream.program.tables, time);
        stream.put(command)?;
    }
    Ok(())
}

/// Looks along several paths of the kept file.
fn looks<W: Write>(random: &mut Random, stream: &mut Stream<W>) -> Result<()> {
    let kept = records(&stream.program.kept);
    for _ in 0..random.between(1, 5) {
        stream.put(Command::Look { path: any_path(random, &kept) })?;
    }
    Ok(())
}

// ---- Paths.

/// A path along a drawing's ids: mostly one that leads to a component.
pub fn any_path(random: &mut Random, records: &[Record]) -> Vec<Id> {
    let components: Vec<usize> = (0..records.len()).filter(|at| records[*at].kind == COMPONENT).collect();
    if components.is_empty() {
        return vec![Id(random.any_size() as u32)];
    }
    let composites: Vec<usize> =
        components.iter().copied().filter(|at| records[*at].is_composite()).collect();
    let target = match random.below(3) {
        0 => random.pick(&components),
        _ if composites.is_empty() => random.pick(&components),
        _ => random.pick(&composites),
    };
    let mut path = path_to(records, target);
    let some_id = |random: &mut Random| Id(records[random.pick(&components)].id);
    match random.below(20) {
        0 => path.clear(),
        1 | 2 => wrong_id(random, records, &mut path),
        3 => path.insert(0, Id(records[0].id)),
        4 | 5 => path.push(some_id(random)),
        6 => {
            let length = random.pick(&[16, 17, 64, 255, 256]);
            while path.len() < length {
                path.push(some_id(random));
            }
        }
        7 if !path.is_empty() => drop(path.remove(0)),
        8 => path.reverse(),
        _ => {}
    }
    path.truncate(PATH_MAX);
    path
}

/// The ids from below the root to a component. Owners that rise are left out: only a
/// refused file has them.
pub fn path_to(records: &[Record], component: usize) -> Vec<Id> {
    let mut path = vec![];
    let mut at = component;
    while at > 0 {
        path.insert(0, Id(records[at].id));
        at = (records[at].owner as usize).min(at - 1);
    }
    path
}

/// One id becomes another: one of another component, a number that is no id but a
/// component's, a child's or a primitive's place, one with a bit flipped, any.
fn wrong_id(random: &mut Random, records: &[Record], path: &mut [Id]) {
    if path.is_empty() {
        return;
    }
    let at = random.below(path.len() as u64) as usize;
    let old = path[at];
    let number = records.iter().position(|record| Id(record.id) == old).unwrap_or(0);
    let same_owner = |record: &&Record| record.owner == records[number].owner;
    let child = records[..number].iter().skip(1).filter(same_owner).count();
    let index = records[..number].iter().filter(|record| !record.is_composite()).count();
    let other = records[random.below(records.len() as u64) as usize].id;
    path[at] = Id(match random.below(6) {
        0 => number as u32,
        1 => child as u32,
        2 => index as u32,
        3 => old.0 ^ (1 << random.below(32)),
        4 => random.any_size() as u32,
        _ => other,
    });
}

// ---- What else is lent.

/// Any values that fit, written over those of the net: the tables go on matching.
fn other_values<W: Write>(random: &mut Random, stream: &mut Stream<W>) -> Result<()> {
    let mut tables = stream.program.tables.clone();
    change_values(random, &mut tables);
    for table in [INPUTS, OUTPUTS] {
        let words = tables.used(table).to_vec();
        stream.put(Command::WriteWords { table: table as u8, place: 0, words })?;
    }
    Ok(())
}

/// Another drawing, or this one but for one thing; some of these still match.
pub fn other_drawing(random: &mut Random, mut records: Vec<Record>) -> Vec<Record> {
    let profile = boxes_profile(random);
    let count = records.iter().filter(|record| record.kind == COMPONENT).count();
    let any = random.below(count as u64) as usize;
    let new_id = random.any() as u32;
    let room = count < 256 && records[0].is_composite() && records.len() < 1_024;
    match random.below(12) {
        0 => return drawing(random, profile),
        1 => records[0].id = new_id,
        2 => records[any].id = new_id,
        3 if room => records.insert(count, Record { id: new_id, ..blank(COMPONENT) }),
        4 if room => {
            records.insert(count, Record { id: new_id, component_kind: 7, b: 1, ..blank(COMPONENT) })
        }
        5 | 6 => other_primitive(random, &mut records),
        7 => one_of(random, &mut records, CONNECTION, remove),
        8 => records = without_last(records, CONNECTION),
        9 => one_of(random, &mut records, INPUT_MAP, remove),
        10 => one_of(random, &mut records, CONNECTION, swap_with_next),
        _ => one_of(random, &mut records, INPUT_MAP, swap_with_next),
    }
    records
}

/// A primitive becomes another with the same ports.
fn other_primitive(random: &mut Random, records: &mut [Record]) {
    let primitives: Vec<usize> = (0..records.len())
        .filter(|at| records[*at].kind == COMPONENT && !records[*at].is_composite())
        .collect();
    if primitives.is_empty() {
        return;
    }
    let record = &mut records[random.pick(&primitives)];
    let gates = random.pick(&[1, 2, 4, 5]);
    match record.component_kind {
        1 | 2 | 4 | 5 => record.component_kind = gates,
        8 => record.component_kind = 9,
        9 => record.component_kind = 8,
        12 => record.parameter = record.parameter / 2 + 1,
        13 => record.parameter ^= 1 << random.below(record.c as u64),
        _ => record.id ^= 1 << random.below(32),
    }
}

fn without_last(mut records: Vec<Record>, kind: u8) -> Vec<Record> {
    if let Some(last) = records.iter().rposition(|record| record.kind == kind) {
        records.remove(last);
    }
    records
}

/// Words that make another net of the tables: it goes on being one, and does not match.
fn other_net(random: &mut Random, tables: &Tables) -> Vec<Command> {
    let entries = entries(tables);
    if !tables.counts_within() || entries.is_empty() {
        return vec![];
    }
    let at = random.below(entries.len() as u64);
    let word = |field, word| {
        vec![Command::WriteWord { table: COMPONENTS as u8, place: (8 * at + field) as u16, word }]
    };
    let wires = tables.counts[WIRES];
    let kind = random.pick(&[1, 2, 4, 5]);
    match (entries[at as usize].fields.kind, random.below(4)) {
        (_, 0) => word(1, random.any() as u32 as u64),
        (_, 1) if wires > 0 => vec![Command::SetCount { which: WIRES as u8, number: wires - 1 }],
        (_, 2) if wires > 1 => swapped_wires(tables, 4 * random.below(wires - 1) as usize),
        (1 | 2 | 4 | 5, _) => word(0, kind),
        (8, _) => word(0, 9),
        (9, _) => word(0, 8),
        (12, _) => word(3, entries[at as usize].fields.parameter / 2 + 1),
        _ => word(1, entries[at as usize].id ^ (1 << random.below(32))),
    }
}

/// Two neighbours among the wires change places.
fn swapped_wires(tables: &Tables, place: usize) -> Vec<Command> {
    let mut words = tables.words[WIRES][place..place + 8].to_vec();
    words.rotate_left(4);
    vec![Command::WriteWords { table: WIRES as u8, place: place as u16, words }]
}

/// Does something to a record of a kind, where there is one.
fn one_of(random: &mut Random, records: &mut Vec<Record>, kind: u8, act: fn(&mut Vec<Record>, usize)) {
    let all: Vec<usize> = (0..records.len()).filter(|at| records[*at].kind == kind).collect();
    if !all.is_empty() {
        act(records, random.pick(&all));
    }
}

fn remove(records: &mut Vec<Record>, at: usize) {
    records.remove(at);
}

/// A record and the next change places, where both have one owner and one kind.
fn swap_with_next(records: &mut Vec<Record>, at: usize) {
    let next = at + 1;
    let same = |next: &Record| (next.kind, next.owner) == (records[at].kind, records[at].owner);
    if records.get(next).is_some_and(same) {
        records.swap(at, next);
    }
}

/// A table or a list one word short, or lent not at all, or past its full size.
fn lent_less<W: Write>(random: &mut Random, stream: &mut Stream<W>) -> Result<()> {
    let table = random.pick(&[0, 1, 2, 3, 4, 5, 6, ANSWER, NUMBERS, NUMBERS, WIDTHS, WIDTHS, MOVED]);
    let full = FULL_WORDS[table] as u16;
    let words = random.pick(&[full - 1, full - 1, 0, full, full + 1, 65_535]);
    stream.put(Command::Lend { table: table as u8, words })?;
    looks(random, stream)?;
    match random.below(4) {
        0 => stream.put(Command::Keep(vec![1; random.pick(&[0, 23, 24, 48, 30_000, 30_001])]))?,
        1 => stream.put_all(fault(random, &stream.program.tables))?,
        2 => stream.put(Command::Keep(bad_file(random)))?,
        _ => {}
    }
    looks(random, stream)?;
    stream.put_all([Command::Table { table: NUMBERS as u8 }, Command::Table { table: WIDTHS as u8 }])?;
    stream.put(Command::Lend { table: table as u8, words: 65_535 })
}

/// Words written into the lists for answers, past their ends too, and shown.
fn lists_written<W: Write>(random: &mut Random, stream: &mut Stream<W>) -> Result<()> {
    let table = random.pick(&[ANSWER, NUMBERS, WIDTHS, MOVED, ALL]) as u8;
    let place = random.pick(&[0, 1, 5, 250, 255, 256, 65_535]);
    let words = (0..random.below(12)).map(|_| random.pick(&[0, 7, 65_535, 65_536, u64::MAX])).collect();
    stream.put(Command::WriteWords { table, place, words })?;
    stream.put(Command::WriteWord { table, place: random.below(300) as u16, word: random.any_size() })?;
    stream.put(Command::Table { table })
}

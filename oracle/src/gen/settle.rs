//! Drawings without Clocks whose wires form no cycle. Each is loaded twice, and after a load rounds are run, in the
//! stored order and in others, at any times, some past the number after which it must be calm; calm and satisfied are
//! asked after each, and the state is shown at the end. Then rounds from any other values on, which must come to the
//! same. `tests/settled` reads the commands and the answers.

use super::drawing::{blank, boxes_profile, drawing, file_of, running_profile, voting};
use super::nest::nest;
use super::order::{round_in_none, round_in_order, shuffle};
use super::random::Random;
use super::rounds::{first_time, next_time};
use super::tables::change_values;
use super::Stream;
use crate::command::Command;
use crate::plain::chains::{longest_chain, rounds_until_calm};
use crate::plain::drawing::{Drawing, Port, Record, COMPONENT, CONNECTION, INPUT_MAP, OUTPUT_MAP};
use crate::plain::judge::judge;
use crate::plain::net::entries;
use crate::plain::running::wires;
use crate::tables::{Tables, COMPONENTS, CURRENT, INPUTS, OUTPUTS};
use std::io::{Result, Write};

const NOT: u8 = 3;
const SWITCH: u8 = 7;
const INPUT: u8 = 8;
const OUTPUT: u8 = 9;
const CLOCK: u8 = 12;
const CONST: u8 = 13;

pub fn one<W: Write>(random: &mut Random, stream: &mut Stream<W>) -> Result<()> {
    let file = file_of(&settling(random));
    assert_eq!(judge(&file), Ok(()), "a drawing made here is accepted");
    for _ in 0..2 {
        stream.put_all([Command::Load(file.clone()), Command::Net, Command::Calm])?;
        let longest = longest_chain(&stream.program.tables).expect("no cycle is left");
        let mut time = first_time(random);
        for _ in 0..rounds_until_calm(longest) + random.between(1, 3) {
            time = next_time(random, time);
            one_round(random, stream, time)?;
            stream.put_all([Command::Calm, Command::Satisfied])?;
        }
        stream.put(Command::State)?;
    }
    from_other_values(random, stream)
}

/// Any values but at the outputs of Switches and at inputs without a wire, every component listed, and as many rounds as
/// the longest chain asks for.
fn from_other_values<W: Write>(random: &mut Random, stream: &mut Stream<W>) -> Result<()> {
    let settled = &stream.program.tables;
    let longest = longest_chain(settled).expect("no cycle is left");
    let mut other = settled.clone();
    change_values(random, &mut other);
    keep_undriven(settled, &mut other);
    other.put(CURRENT, &(0..settled.counts[COMPONENTS]).collect::<Vec<u64>>());
    for table in [INPUTS, OUTPUTS, CURRENT] {
        let words = other.used(table).to_vec();
        stream.put(Command::WriteWords { table: table as u8, place: 0, words })?;
    }
    stream.put(Command::SetCount { which: CURRENT as u8, number: other.counts[CURRENT] })?;
    for _ in 0..longest {
        one_round(random, stream, 0)?;
    }
    stream.put_all([Command::Calm, Command::State])
}

/// The outputs of Switches, and inputs without a wire, hold in one what they hold in the other.
fn keep_undriven(from: &Tables, to: &mut Tables) {
    let wires = wires(from);
    for (index, entry) in entries(from).iter().enumerate() {
        if entry.fields.kind == SWITCH as u64 {
            to.words_mut(OUTPUTS)[entry.first_output as usize] =
                from.words[OUTPUTS][entry.first_output as usize];
        }
        for port in 0..entry.fields.inputs {
            if !wires.iter().any(|wire| (wire[2], wire[3]) == (index as u64, port)) {
                let place = (entry.first_input + port) as usize;
                to.words_mut(INPUTS)[place] = from.words[INPUTS][place];
            }
        }
    }
}

/// A round in the stored order or in another; now and then one before it that is refused, and counts for nothing.
fn one_round<W: Write>(random: &mut Random, stream: &mut Stream<W>, time: u64) -> Result<()> {
    if random.once_in(30) {
        round_in_none(random, stream, time)?;
        return stream.put(Command::Round { time });
    }
    match random.once_in(4) {
        true => stream.put(Command::Round { time }),
        false => round_in_order(random, stream, time),
    }
}

/// A drawing that settles.
fn settling(random: &mut Random) -> Vec<Record> {
    let votes = random.once_in(4);
    let drawn = match random.below(10) {
        0 => unwired(random),
        1..=3 => chain(random),
        4 => nest(random, votes),
        5 | 6 => {
            let profile = boxes_profile(random);
            let profile = voting(random, 4, profile);
            drawing(random, profile)
        }
        _ => {
            let profile = running_profile(random);
            let profile = voting(random, 4, profile);
            drawing(random, profile)
        }
    };
    without_cycles(drawn.into_iter().map(without_clock).collect())
}

/// A Clock becomes a Switch, which has the same ports.
fn without_clock(record: Record) -> Record {
    match (record.kind, record.component_kind) {
        (COMPONENT, CLOCK) => Record { component_kind: SWITCH, parameter: 0, ..record },
        _ => record,
    }
}

/// Without the connections that close a cycle with those before them.
fn without_cycles(records: Vec<Record>) -> Vec<Record> {
    let drawing = Drawing::new(records.clone());
    let mut leading = vec![vec![]; records.len()];
    let stays = |record: &Record| record.kind != CONNECTION || join(&mut leading, &drawing.wires_of(record));
    records.into_iter().filter(stays).collect()
}

/// Adds the wires of a connection, which all leave one output, to those that lead from each component; where one would
/// close a cycle, none. Whether they are added.
fn join(leading: &mut [Vec<usize>], wires: &[(Port, Port)]) -> bool {
    if wires.iter().any(|((from, _), (to, _))| leads(leading, *to, *from)) {
        return false;
    }
    wires.iter().for_each(|((from, _), (to, _))| leading[*from].push(*to));
    true
}

/// Whether wires lead from one component to another.
fn leads(leading: &[Vec<usize>], from: usize, to: usize) -> bool {
    let mut seen = vec![false; leading.len()];
    let mut open = vec![from];
    while let Some(at) = open.pop() {
        if at == to {
            return true;
        }
        if !std::mem::replace(&mut seen[at], true) {
            open.extend(&leading[at]);
        }
    }
    false
}

// ---- Chains of any length.

/// A component of one bit below an owner.
fn part(component_kind: u8, owner: u16, id: u32) -> Record {
    let inputs = ![SWITCH, CONST].contains(&component_kind) as u16;
    let (c, parameter) = match component_kind {
        CONST => (1, id as u64 % 2),
        INPUT | OUTPUT => (0, 1),
        _ => (0, 0),
    };
    Record { component_kind, owner, a: inputs, b: 1, c, id, parameter, ..blank(COMPONENT) }
}

/// No wire: nobody, or some of one kind or of several.
fn unwired(random: &mut Random) -> Vec<Record> {
    let kinds = random.pick(&[
        [CONST; 3],
        [CONST; 3],
        [SWITCH; 3],
        [NOT; 3],
        [CONST, SWITCH, NOT],
        [INPUT, OUTPUT, CONST],
    ]);
    let how_many = random.pick(&[0, 1, 1, 2, 3, 12, 255]);
    let parts = (0..how_many).map(|id| part(random.pick(&kinds), 0, id));
    std::iter::once(Record { id: 1_000, ..blank(COMPONENT) }).chain(parts).collect()
}

/// Components of one bit in a row, each leading to the next: in the file they stand along the row, against it, or in
/// any order, each below the root or in a box of its own. What else there is room for is led to from any of the row.
fn chain(random: &mut Random) -> Vec<Record> {
    let boxed = random.once_in(3);
    let most = if boxed { 127 } else { 255 };
    let length = match random.below(7) {
        0 => most,
        1 => random.between(most / 2, most),
        2 | 3 => random.between(8, 50),
        _ => random.between(1, 9),
    } as usize;
    let beside = random.pick(&[0, 0, 0, 1, 5, 40]).min(most as usize - length);
    let mut kinds: Vec<u8> = (0..length + beside).map(|_| link(random)).collect();
    kinds[0] = random.pick(&[NOT, NOT, NOT, CONST, CONST, SWITCH, INPUT, OUTPUT]);
    let mut ends: Vec<(usize, usize)> = (1..length).map(|to| (to - 1, to)).collect();
    ends.extend((length..length + beside).map(|to| (random.below(length as u64) as usize, to)));
    shuffle(random, &mut ends);
    let mut places: Vec<usize> = (0..length + beside).collect();
    match random.below(4) {
        0 => {}
        1 => shuffle(random, &mut places),
        _ => places.reverse(),
    }
    laid(&kinds, &ends, &places, boxed)
}

/// A kind with one input and one output, of one bit; a Not, as a rule.
fn link(random: &mut Random) -> u8 {
    match random.below(6) {
        0 => random.pick(&[1, 2, 4, 5, 6, INPUT, OUTPUT, 15]),
        _ => NOT,
    }
}

/// The records of components of these kinds, each standing as that child of the root, or in the box that does, and of
/// connections between them.
fn laid(kinds: &[u8], ends: &[(usize, usize)], places: &[usize], boxed: bool) -> Vec<Record> {
    let mut lists = [vec![Record { id: 1_000, ..blank(COMPONENT) }], vec![], vec![], vec![]];
    for place in 0..kinds.len() {
        let at = places.iter().position(|other| *other == place).expect("each place is somebody's");
        let one = part(kinds[at], 0, at as u32);
        if boxed {
            let number = lists[0].len() as u16;
            lists[0].push(Record { a: one.a, b: 1, id: 2_000 + at as u32, ..blank(COMPONENT) });
            lists[2].extend((0..one.a).map(|_| Record { owner: number, ..blank(INPUT_MAP) }));
            lists[3].push(Record { owner: number, ..blank(OUTPUT_MAP) });
            lists[0].push(Record { owner: number, ..one });
        } else {
            lists[0].push(one);
        }
    }
    let child = |at: usize| places[at] as u16;
    lists[1].extend(ends.iter().map(|(from, to)| Record {
        a: child(*from),
        c: child(*to),
        ..blank(CONNECTION)
    }));
    lists.concat()
}

//! Damaged copies of accepted drawings, each aimed at one of the numbers.
//!
//! An aim may miss: the oracle says what the file is worth.

use super::drawing::{blank, file_of};
use super::evaluate::past;
use super::random::Random;
use crate::plain::drawing::{Drawing, Port, Record, COMPONENT, CONNECTION, INPUT_MAP, OUTPUT_MAP};
use crate::plain::judge::{judge, CONNECTION_AND_MAP, RECORDS_MAX, TWO_CONNECTIONS, TWO_MAPS};
use crate::plain::kinds::{greatest, PERIOD_MAX, WIDTH_MAX};

/// The numbers that damage aims at, those that are often missed more than once.
const AIMS: [u64; 23] = [1, 3, 4, 5, 5, 6, 7, 8, 9, 9, 10, 11, 11, 12, 13, 14, 15, 15, 15, 22, 22, 23, 23];

/// The kind that logix has none of.
const MAJORITY: u8 = 15;

/// A damaged file, with one fault or two.
pub fn damaged(random: &mut Random, mut records: Vec<Record>) -> Vec<u8> {
    let mut length_aim = false;
    for _ in 0..random.pick(&[1, 1, 1, 2]) {
        let aim = random.pick(&AIMS);
        length_aim |= aim == 1;
        damage(random, &mut records, aim);
    }
    let mut file = file_of(&records);
    if length_aim {
        damage_length(random, &mut file);
    }
    file
}

fn damage(random: &mut Random, records: &mut Vec<Record>, aim: u64) {
    match aim {
        3 => damage_form(random, records),
        4 => damage_order(random, records),
        5 => damage_owner(random, records),
        6 => too_many_or_deep(random, records),
        7 => component(random, records).component_kind = 14,
        8 => component(random, records).component_kind = random.pick(&[16, 17, 100, 255]),
        9 => damage_fields(random, records),
        10 => repeat_id(random, records),
        11 => too_many_ports(random, records),
        12 => damage_place(random, records),
        TWO_CONNECTIONS | CONNECTION_AND_MAP | TWO_MAPS => meetings(random, records, aim),
        14 => damage_outputs(random, records),
        15 => damage_width(random, records),
        _ => {}
    }
}

/// Aims at 1: empty, cut, a few bytes more, or over 1,024 records.
fn damage_length(random: &mut Random, file: &mut Vec<u8>) {
    match random.below(5) {
        0 => file.clear(),
        1 => file.truncate(random.below(file.len() as u64) as usize),
        2 => file.extend(vec![0; random.between(1, 23) as usize]),
        3 => file.resize(1_025 * 24, 0),
        _ => file.resize(random.pick(&[24_577, 24_599, 24_600, 29_999, 30_000, 30_001, 40_000]), 2),
    }
}

pub fn positions(records: &[Record], wanted: impl Fn(&Record) -> bool) -> Vec<usize> {
    (0..records.len()).filter(|at| wanted(&records[*at])).collect()
}

/// Any component; there is at least the root, unless it was damaged before.
fn component<'a>(random: &mut Random, records: &'a mut [Record]) -> &'a mut Record {
    let mut all = positions(records, |record| record.kind == COMPONENT);
    if all.is_empty() {
        all.push(0);
    }
    &mut records[random.pick(&all)]
}

pub fn any_record<'a>(random: &mut Random, records: &'a mut [Record]) -> &'a mut Record {
    &mut records[random.below(records.len() as u64) as usize]
}

/// Aims at 3: a field that must be 0 is not, or a record kind is none.
fn damage_form(random: &mut Random, records: &mut [Record]) {
    let record = any_record(random, records);
    let small = random.pick(&[1, 2, 256, 65_535]);
    match (record.kind, random.below(6)) {
        (_, 0) => record.kind = random.pick(&[0, 5, 6, 129, 255]),
        (COMPONENT, _) => record.d = small,
        (_, 1) => record.component_kind = random.pick(&[1, 14, 255]),
        (_, 2) => record.id = random.pick(&[1, 256, 65_536, 1 << 24, u32::MAX]),
        (_, 3) => record.parameter = 1 << random.below(64),
        (INPUT_MAP, _) => record.b = small,
        (OUTPUT_MAP, 4) => record.c = small,
        (OUTPUT_MAP, _) => record.d = small,
        _ => record.component_kind = 1,
    }
}

/// Aims at 4: two neighbours change places, or a kind changes.
fn damage_order(random: &mut Random, records: &mut [Record]) {
    let last = records.len() - 1;
    match random.below(6) {
        0 => records[0].kind = random.between(2, 4) as u8,
        1 => any_record(random, records).kind = random.between(1, 4) as u8,
        2 => records.swap(0, random.below(last as u64 + 1) as usize),
        _ => {
            let edges = |at: &usize| {
                let (one, next) = (&records[*at], &records[*at + 1]);
                one.kind != next.kind || (one.kind != COMPONENT && one.owner != next.owner)
            };
            let edges: Vec<usize> = (0..last).filter(edges).collect();
            if !edges.is_empty() {
                let at = random.pick(&edges);
                records.swap(at, at + 1);
            }
        }
    }
}

/// Aims at 5: the owner is itself, a primitive, a composite that is closed, or none.
fn damage_owner(random: &mut Random, records: &mut [Record]) {
    let composites = positions(records, Record::is_composite);
    let primitives = positions(records, |record| record.kind == COMPONENT && !record.is_composite());
    let count = composites.len() + primitives.len();
    let at = match random.below(4) {
        0 => 0,
        1 => random.below(records.len() as u64) as usize,
        _ => random.below(count.max(1) as u64) as usize,
    };
    let owner = match random.below(6) {
        0 if !composites.is_empty() => random.pick(&composites),
        1 if !composites.is_empty() => random.pick(&composites),
        2 if !primitives.is_empty() => random.pick(&primitives),
        3 => at,
        4 => at + 1,
        _ => random.pick(&[1, count, records.len(), 256, 1_023, 1_024, 65_535]),
    };
    records[at].owner = owner as u16;
}

/// Puts components in behind the last one, below the root.
fn append_components(records: &mut Vec<Record>, added: Vec<Record>) {
    let end = positions(records, |record| record.kind == COMPONENT).len();
    records.splice(end..end, added);
}

/// An id that is most likely new.
fn new_id(random: &mut Random) -> u32 {
    random.any() as u32
}

/// Aims at 6: more than 256 components, or a chain deeper than 16.
fn too_many_or_deep(random: &mut Random, records: &mut Vec<Record>) {
    let count = positions(records, |record| record.kind == COMPONENT).len();
    let mut added = vec![];
    if random.once_in(2) {
        let missing = (257 + random.pick(&[0, 0, 1, 50])).max(count + 1) - count;
        for _ in 0..missing {
            added.push(Record { component_kind: 7, b: 1, id: new_id(random), ..blank(COMPONENT) });
        }
    } else {
        for depth in 2..=random.pick(&[16, 17, 17, 17, 18]) {
            let owner = if depth == 2 { 0 } else { count + depth - 3 };
            added.push(Record { owner: owner as u16, id: new_id(random), ..blank(COMPONENT) });
        }
    }
    append_components(records, added);
    records.truncate(1_024);
}

/// Aims at 9: one field breaks the table of kinds, or a component has too many bits.
fn damage_fields(random: &mut Random, records: &mut [Record]) {
    let of_bits = positions(records, |record| record.kind == COMPONENT && record.fields().is_of_bits());
    if !of_bits.is_empty() && random.once_in(3) {
        return widen(&mut records[random.pick(&of_bits)], random.pick(&[64, 65, 65, 66, 255]));
    }
    // A drawing of the kinds that logix has stays one.
    let votes = records.iter().any(|record| record.component_kind == MAJORITY);
    let record = component(random, records);
    let past = match record.component_kind {
        12 => random.pick(&[0, PERIOD_MAX + 1, u64::MAX]),
        13 => random.pick(&[past((record.c as u64).clamp(1, WIDTH_MAX)), u64::MAX]),
        _ => random.pick(&[0, 1, 64, 65, 66, 255, 1 << 32, u64::MAX]),
    };
    match random.below(6) {
        0 => record.a = random.pick(&[0, 1, 2, record.a.saturating_add(1), 64, 65, 65_535]),
        1 => record.b = random.pick(&[0, 1, 2, record.b.saturating_add(1), 64, 65, 65_535]),
        2 => record.c = random.pick(&[0, 1, 32, 64, 65, 66, 255, 65_535]),
        3 if votes && random.once_in(3) => record.component_kind = MAJORITY,
        3 => record.component_kind = random.below(14) as u8,
        _ => record.parameter = past,
    }
}

/// A component has so many bits, with its ports to match.
fn widen(record: &mut Record, bits: u16) {
    match record.component_kind {
        8 | 9 => record.parameter = bits as u64,
        10 => (record.b, record.parameter) = (bits, bits as u64),
        11 => (record.a, record.parameter) = (bits, bits as u64),
        13 => record.c = bits,
        _ => {}
    }
}

/// Aims at 10: a component has another's id.
fn repeat_id(random: &mut Random, records: &mut [Record]) {
    let id = component(random, records).id;
    component(random, records).id = id;
}

/// Aims at 11: gates or Splitters until there are over 1,024 ports on a side.
fn too_many_ports(random: &mut Random, records: &mut Vec<Record>) {
    let primitives = records.iter().filter(|r| r.kind == COMPONENT && !r.is_composite());
    let inputs: usize = primitives.clone().map(|r| r.a as usize).sum();
    let outputs: usize = primitives.map(|r| r.b as usize).sum();
    let gate = Record { component_kind: 2, a: 64, b: 1, ..blank(COMPONENT) };
    let bits = random.pick(&[32, 64]);
    let splitter = Record { component_kind: 10, a: 1, b: bits, parameter: bits as u64, ..blank(COMPONENT) };
    let past = random.below(2) as usize;
    let (kind, missing) = match random.below(2) {
        0 => (gate, 1_024usize.saturating_sub(inputs) / 64 + past),
        _ => (splitter, 1_024usize.saturating_sub(outputs) / bits as usize + past),
    };
    let added = (0..missing).map(|_| Record { id: new_id(random), ..kind }).collect();
    append_components(records, added);
    records.truncate(1_024);
}

/// Any record of kinds 2 to 4.
fn line<'a>(random: &mut Random, records: &'a mut [Record]) -> Option<&'a mut Record> {
    let lines = positions(records, |record| record.kind > COMPONENT);
    match lines.is_empty() {
        true => None,
        false => Some(&mut records[random.pick(&lines)]),
    }
}

/// Aims at 12: a child or a port one too high, or far too high.
fn damage_place(random: &mut Random, records: &mut Vec<Record>) {
    let Some(record) = line(random, records) else {
        return records.push(Record { kind: CONNECTION, ..blank(CONNECTION) });
    };
    let more = random.pick(&[1, 1, 2, 3, 64, 256]);
    let field = match (record.kind, random.below(4)) {
        (CONNECTION | OUTPUT_MAP, 0) => &mut record.b,
        (CONNECTION | OUTPUT_MAP, 1) => &mut record.a,
        (OUTPUT_MAP, _) => &mut record.b,
        (INPUT_MAP, 0) => &mut record.a,
        (_, 2) => &mut record.c,
        _ => &mut record.d,
    };
    *field = if random.once_in(8) { 65_535 } else { field.saturating_add(more) };
}

/// Aims at 13, 22 or 23: two records that meet; now and then more of any kinds, of
/// which the first in file order decides.
fn meetings(random: &mut Random, records: &mut Vec<Record>, aim: u64) {
    meet(random, records, aim);
    for _ in 0..random.pick(&[0, 0, 1, 3]) {
        let other =
            random.pick(&[TWO_CONNECTIONS, CONNECTION_AND_MAP, CONNECTION_AND_MAP, TWO_MAPS, TWO_MAPS]);
        meet(random, records, other);
    }
}

/// An input that is entered is entered again, now and then twice.
pub fn meet(random: &mut Random, records: &mut Vec<Record>, aim: u64) {
    let (entered, entering) = match (aim, random.below(2)) {
        (TWO_CONNECTIONS, _) => (CONNECTION, CONNECTION),
        (TWO_MAPS, _) => (INPUT_MAP, INPUT_MAP),
        (_, 0) => (CONNECTION, INPUT_MAP),
        _ => (INPUT_MAP, CONNECTION),
    };
    let entered = positions(records, |record| record.kind == entered);
    if entered.is_empty() {
        return;
    }
    let entered = records[random.pick(&entered)];
    for _ in 0..random.pick(&[1, 1, 1, 2]) {
        enter(random, records, &entered, entering);
    }
}

/// Puts in a record of a kind that enters the input of another record, from the same
/// place or any, before or behind it; or leads one to it that is there.
fn enter(random: &mut Random, records: &mut Vec<Record>, entered: &Record, kind: u8) {
    let (owner, c, d) = (entered.owner, entered.c, entered.d);
    let list = positions(records, |record| (record.kind, record.owner) == (kind, owner));
    let others: Vec<usize> =
        list.iter().copied().filter(|at| (records[*at].c, records[*at].d) != (c, d)).collect();
    let full = records.len() >= RECORDS_MAX;
    if !others.is_empty() && (full || random.once_in(4)) {
        let moved = random.pick(&others);
        (records[moved].c, records[moved].d) = (c, d);
        return;
    }
    let origins = origins(records, kind, owner);
    if full || origins.is_empty() {
        return;
    }
    let (a, b) = match entered.kind == kind && random.once_in(3) {
        true => (entered.a, entered.b),
        false => random.pick(&origins),
    };
    let first = records.iter().position(|record| (record.kind, record.owner) >= (kind, owner));
    let first = first.unwrap_or(records.len()) as u64;
    let place = random.between(first, first + list.len() as u64) as usize;
    records.insert(place, Record { owner, a, b, c, d, ..blank(kind) });
}

/// What a record of a kind may lead from below an owner, as its A and B: the owner's
/// inputs, or the outputs of its children.
fn origins(records: &[Record], kind: u8, owner: u16) -> Vec<(u16, u16)> {
    let drawing = Drawing::new(records.to_vec());
    let Some(holder) = drawing.component(owner as usize) else {
        return vec![];
    };
    if kind == INPUT_MAP {
        return (0..holder.a).map(|input| (input, 0)).collect();
    }
    let children = drawing.children[owner as usize].iter().enumerate();
    let outputs = |(child, number): (usize, &usize)| {
        (0..records[*number].b).map(move |output| (child as u16, output)).collect::<Vec<_>>()
    };
    children.flat_map(outputs).collect()
}

/// Aims at 14: an output map more or less, or another number of outputs.
fn damage_outputs(random: &mut Random, records: &mut Vec<Record>) {
    let maps = positions(records, |record| record.kind == OUTPUT_MAP);
    let composites = positions(records, Record::is_composite);
    match random.below(3) {
        0 if !maps.is_empty() => drop(records.remove(random.pick(&maps))),
        1 if !maps.is_empty() && records.len() < 1_024 => {
            let at = random.pick(&maps);
            records.insert(at, records[at]);
        }
        _ if !composites.is_empty() => {
            let composite = &mut records[random.pick(&composites)];
            let fewer = composite.b > 0 && random.once_in(2);
            composite.b = if fewer { composite.b - 1 } else { composite.b.saturating_add(1) }.min(64);
        }
        _ => {}
    }
}

/// Aims at 15: a connection gets a source of another width, or a component
/// gets other bits.
fn damage_width(random: &mut Random, records: &mut [Record]) {
    let wide = positions(records, |r| r.kind == COMPONENT && matches!(r.component_kind, 8 | 9 | 13));
    let swaps = unequal_sources(records);
    if !swaps.is_empty() && (wide.is_empty() || !random.once_in(3)) {
        let (at, a, b) = random.pick(&swaps);
        (records[at].a, records[at].b) = (a, b);
    } else if !wide.is_empty() {
        let record = &mut records[random.pick(&wide)];
        let bits = random.between(1, WIDTH_MAX);
        match record.component_kind {
            13 => (record.c, record.parameter) = (bits as u16, random.any() & greatest(bits)),
            _ => record.parameter = bits,
        }
    }
}

/// Connections and sources that they could have instead, of another width. None
/// where the drawing is damaged already.
fn unequal_sources(records: &[Record]) -> Vec<(usize, u16, u16)> {
    let mut found = vec![];
    if judge(&file_of(records)).is_err() {
        return found;
    }
    let drawing = Drawing::new(records.to_vec());
    let width = |(component, _): Port| records[component].fields().output_width();
    for (at, record) in records.iter().enumerate().filter(|(_, record)| record.kind == CONNECTION) {
        let Some((source, _)) = drawing.wires_of(record).first().copied() else {
            continue;
        };
        for child in 0..drawing.children[record.owner as usize].len() as u16 {
            let other = drawing.source_of(record.owner, child, 0);
            if other.is_some_and(|other| width(other) != width(source)) {
                found.push((at, child, 0));
            }
        }
    }
    found
}

/// Bytes that were never a drawing.
pub fn noise(random: &mut Random) -> Vec<u8> {
    let records = random.pick(&[0, 1, 2, 5, 20, 100]);
    match random.below(3) {
        0 => (0..random.between(0, records * 24 + 30)).map(|_| random.any() as u8).collect(),
        1 => (0..records * 24).map(|_| random.pick(&[0, 0, 0, 0, 1, 1, 2, 3, 4])).collect(),
        _ => file_of(&(0..records).map(|at| noise_record(random, at)).collect::<Vec<_>>()),
    }
}

/// A record that is nearly one: kinds in order, small fields.
fn noise_record(random: &mut Random, at: u64) -> Record {
    let kind = if at < 4 { COMPONENT } else { random.between(1, 4) as u8 };
    let mut record = blank(kind);
    record.owner = random.below(at.clamp(1, 4)) as u16;
    (record.a, record.b) = (random.below(3) as u16, random.below(2) as u16);
    if kind == COMPONENT {
        record.component_kind = random.pick(&[0, 0, 7, 7, 1, 3, 14, 15]);
        record.id = at as u32;
    }
    if kind == CONNECTION || kind == INPUT_MAP {
        (record.c, record.d) = (random.below(3) as u16, random.below(2) as u16);
    }
    record
}

//! Loads, rounds, edits and questions on the tables, of files and nets that no check
//! refuses ("Flattening" and "Rounds"). Everything is worked out on the words of the
//! tables, with a look at all wires for each component.

use super::drawing::Drawing;
use super::flat::{component_words, is_primitive, wire_words};
use super::net::{entries, Entry};
use super::rules::{moved, outputs_after};
use crate::tables::{Tables, COMPONENTS, CURRENT, FOLLOWING, INPUTS, OUTPUTS, STANDING, WIRES};

const SWITCH: u64 = 7;
const CLOCK: u64 = 12;
const CONST: u64 = 13;

/// "At load all ports are 0, a Const's output its value. The standing list has every
/// Const and Clock, ascending; the following list is a copy; the current list has all
/// components."
pub fn load(drawing: &Drawing, tables: &mut Tables) {
    let primitives: Vec<_> = drawing.records.iter().filter(|record| is_primitive(record)).collect();
    let inputs = primitives.iter().map(|record| record.a as usize).sum();
    let outputs = primitives.iter().flat_map(|record| match record.component_kind as u64 {
        CONST => vec![record.parameter],
        _ => vec![0; record.b as usize],
    });
    tables.put(COMPONENTS, &component_words(drawing));
    tables.put(WIRES, &wire_words(drawing));
    tables.put(INPUTS, &vec![0; inputs]);
    tables.put(OUTPUTS, &outputs.collect::<Vec<u64>>());
    let all = 0..primitives.len() as u64;
    let stands = |index: &u64| [CONST, CLOCK].contains(&(primitives[*index as usize].component_kind as u64));
    let standing: Vec<u64> = all.clone().filter(stands).collect();
    tables.put(CURRENT, &all.collect::<Vec<u64>>());
    tables.put(FOLLOWING, &standing);
    tables.put(STANDING, &standing);
}

/// One round: "for each component of the current list: evaluate; unless it is a Clock,
/// strike it from the standing list; then for each of its wires, in order, if output and
/// input differ, write the input and append the target to the following list unless there.
/// .. At the end current becomes following, and following becomes a copy of standing."
/// The lists are put into the tables at the end alone. Gives the bits of each component
/// evaluated, in list order.
pub fn round(tables: &mut Tables, time: u64) -> Vec<u64> {
    let stored = wires(tables);
    round_along(tables, &stored, time)
}

/// The same with "an order of all wires, which each component's wires follow".
pub fn round_ordered(tables: &mut Tables, time: u64) -> Vec<u64> {
    let stored = wires(tables);
    let ordered: Vec<[u64; 4]> = tables.order().iter().map(|wire| stored[*wire as usize]).collect();
    round_along(tables, &ordered, time)
}

/// A round in which each component's wires stand in the order of all that are handed in.
fn round_along(tables: &mut Tables, wires: &[[u64; 4]], time: u64) -> Vec<u64> {
    let mut following = tables.used(FOLLOWING).to_vec();
    let mut standing = tables.used(STANDING).to_vec();
    let mut bits = vec![];
    for index in tables.used(CURRENT).to_vec() {
        bits.push(evaluate(tables, index, time));
        if entry(tables, index).fields.kind != CLOCK {
            standing.retain(|other| *other != index);
        }
        for wire in wires.iter().filter(|wire| wire[0] == index) {
            send(tables, wire, &mut following);
        }
    }
    tables.put(CURRENT, &following);
    tables.put(FOLLOWING, &standing);
    tables.put(STANDING, &standing);
    bits
}

/// Evaluates a component: its bits.
fn evaluate(tables: &mut Tables, index: u64, time: u64) -> u64 {
    let first_output = entry(tables, index).first_output as usize;
    let after = evaluated(tables, index, time);
    let outputs = &mut tables.words_mut(OUTPUTS)[first_output..][..after.len()];
    let bits = moved(outputs, &after);
    outputs.copy_from_slice(&after);
    bits
}

/// The outputs that an evaluation of a component gives.
fn evaluated(tables: &Tables, index: u64, time: u64) -> Vec<u64> {
    let Entry { fields, first_input, first_output, .. } = entry(tables, index);
    let inputs = &tables.words[INPUTS][first_input as usize..][..fields.inputs as usize];
    let outputs = &tables.words[OUTPUTS][first_output as usize..][..fields.outputs as usize];
    outputs_after(&fields, inputs, outputs, time)
}

fn send(tables: &mut Tables, wire: &[u64; 4], following: &mut Vec<u64>) {
    let output = tables.words[OUTPUTS][(entry(tables, wire[0]).first_output + wire[1]) as usize];
    let place = (entry(tables, wire[2]).first_input + wire[3]) as usize;
    if tables.words[INPUTS][place] != output {
        tables.words_mut(INPUTS)[place] = output;
        append(following, wire[2]);
    }
}

/// The two ways of an edit.
#[derive(Clone, Copy, PartialEq)]
pub enum Way {
    /// "an edit appends the component to the current list, unless there, and not to the
    /// standing list"
    First,
    /// "appends the component to the standing list unless there"
    Standing,
}

/// "an edit sets a Switch's output, or an undriven Input's input, and appends the
/// component" to the list of its way.
pub fn edit(tables: &mut Tables, way: Way, index: u64, number: u64) {
    let Entry { fields, first_input, first_output, .. } = entry(tables, index);
    match fields.kind {
        SWITCH => tables.words_mut(OUTPUTS)[first_output as usize] = number,
        _ => tables.words_mut(INPUTS)[first_input as usize] = number,
    }
    let list = match way {
        Way::First => CURRENT,
        Way::Standing => STANDING,
    };
    let mut names = tables.used(list).to_vec();
    append(&mut names, index);
    tables.put(list, &names);
}

/// Appends a component to a list, unless there.
fn append(list: &mut Vec<u64>, index: u64) {
    if !list.contains(&index) {
        list.push(index);
    }
}

/// "a state is calm when all three lists name only Clocks"
pub fn calm(tables: &Tables) -> bool {
    let only_clocks =
        |list: usize| tables.used(list).iter().all(|index| entry(tables, *index).fields.kind == CLOCK);
    [CURRENT, FOLLOWING, STANDING].into_iter().all(only_clocks)
}

/// Which components are judged, and with them the wires that leave them.
#[derive(Clone, Copy, PartialEq)]
pub enum Judged {
    /// "components named in the three lists"
    Named,
    All,
}

/// "every wire agrees and every component other than a Switch or Clock has the outputs of
/// its function", of those that are judged.
pub fn satisfied(tables: &Tables, judged: Judged) -> bool {
    let named =
        |index: u64| [CURRENT, FOLLOWING, STANDING].iter().any(|list| tables.used(*list).contains(&index));
    let judged = |index: u64| judged == Judged::All || named(index);
    let aside = |index: u64| [SWITCH, CLOCK].contains(&entry(tables, index).fields.kind);
    wires(tables).iter().all(|wire| !judged(wire[0]) || agrees(tables, wire))
        && (0..tables.counts[COMPONENTS])
            .all(|index| !judged(index) || aside(index) || follows(tables, index, 0))
}

/// Whether each Clock has its output at a time.
pub fn clocks_follow(tables: &Tables, time: u64) -> bool {
    (0..tables.counts[COMPONENTS])
        .filter(|index| entry(tables, *index).fields.kind == CLOCK)
        .all(|index| follows(tables, index, time))
}

fn agrees(tables: &Tables, wire: &[u64; 4]) -> bool {
    let output = entry(tables, wire[0]).first_output + wire[1];
    let input = entry(tables, wire[2]).first_input + wire[3];
    tables.words[OUTPUTS][output as usize] == tables.words[INPUTS][input as usize]
}

fn follows(tables: &Tables, index: u64, time: u64) -> bool {
    let after = evaluated(tables, index, time);
    tables.words[OUTPUTS][entry(tables, index).first_output as usize..][..after.len()] == after
}

/// The index of an id that exists.
pub fn index_of(tables: &Tables, id: u32) -> u64 {
    let index = entries(tables).iter().position(|entry| entry.id == id as u64);
    index.expect("a component has the id") as u64
}

/// Number and width of a port that exists; side 0 is the inputs.
pub fn value(tables: &Tables, side: u8, index: u64, port: u64) -> (u64, u64) {
    let Entry { fields, first_input, first_output, .. } = entry(tables, index);
    match side {
        0 => (tables.words[INPUTS][(first_input + port) as usize], fields.input_width()),
        _ => (tables.words[OUTPUTS][(first_output + port) as usize], fields.output_width()),
    }
}

/// "Sources and targets of a component (`deps`, `inv_deps`) are ascending, without repeats."
pub fn sources(tables: &Tables, index: u64) -> Vec<u64> {
    let components = 0..tables.counts[COMPONENTS];
    components
        .filter(|other| wires(tables).iter().any(|wire| wire[0] == *other && wire[2] == index))
        .collect()
}

pub fn targets(tables: &Tables, index: u64) -> Vec<u64> {
    let components = 0..tables.counts[COMPONENTS];
    components
        .filter(|other| wires(tables).iter().any(|wire| wire[0] == index && wire[2] == *other))
        .collect()
}

fn entry(tables: &Tables, index: u64) -> Entry {
    Entry::of(&tables.used(COMPONENTS)[8 * index as usize..][..8])
}

pub fn wires(tables: &Tables) -> Vec<[u64; 4]> {
    tables.used(WIRES).chunks_exact(4).map(|wire| wire.try_into().expect("four words")).collect()
}

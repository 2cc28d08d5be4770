//! The slow engine: loads, rounds, edits and runs until calm "straight from the drawing file ..
//! with no wire table".
//!
//! Every call reads the file anew. Where an output leads is worked out each time it is asked: up
//! through the output maps to the connections that come from it, and from each of these down
//! through the input maps. Whether an Input is driven is worked out up through the input maps.
//! `drawing` and `flat`, which lay wires, go the other way.

use super::calls::{lent_short, load_verdict_with};
use super::drawing::{records, Port, Record, COMPONENT, CONNECTION, INPUT_MAP, OUTPUT_MAP};
use super::flat::is_primitive;
use super::judge::{Refusal, Verdict};
use super::kinds::{fits, Fields};
use super::rules::{moved, outputs_after};
use super::running::Way;
use crate::tables::{
    Tables, FULL_WORDS, MOVED, SLOW, SLOW_CURRENT, SLOW_FOLLOWING, SLOW_INPUTS, SLOW_OUTPUTS, SLOW_STANDING,
};
use std::ops::Range;

const SWITCH: u64 = 7;
const INPUT: u64 = 8;
const CLOCK: u64 = 12;
const CONST: u64 = 13;

// ---- The numbers: "a load's own; then, where 16 stood, 20"; then 17, 18 and 19 for edits.

/// Check 2, of the five tables.
pub fn short(tables: &Tables) -> bool {
    SLOW.into_iter().any(|table| lent_short(tables, table))
}

/// A load: checks 1, 2, 3 to 15.
pub fn load_verdict(tables: &Tables, file: &[u8]) -> Verdict {
    load_verdict_with(file, short(tables))
}

/// Run until calm: these, then 20.
pub fn run_verdict(tables: &Tables, file: &[u8]) -> Verdict {
    load_verdict(tables, file)?;
    right(tables, file)
}

/// A round: the same; it is lent the table of bits besides.
pub fn round_verdict(tables: &Tables, file: &[u8]) -> Verdict {
    load_verdict_with(file, short(tables) || lent_short(tables, MOVED))?;
    right(tables, file)
}

/// An edit, of either way: then 17, 18, 19.
pub fn edit_verdict(tables: &Tables, file: &[u8], index: u16, number: u64) -> Verdict {
    run_verdict(tables, file)?;
    match Drawn::new(file).edit_failing(index, number).first() {
        Some(refused) => Err(Refusal::of(*refused)),
        None => Ok(()),
    }
}

/// Check 20, of a file that is accepted.
fn right(tables: &Tables, file: &[u8]) -> Verdict {
    match Drawn::new(file).broken(tables) {
        Some(_) => Err(Refusal::of(20)),
        None => Ok(()),
    }
}

// ---- A drawing, read anew for each call.

/// A primitive: its component's number, its fields, and the places of its first ports.
struct Part {
    number: usize,
    fields: Fields,
    first_input: usize,
    first_output: usize,
}

/// An accepted file.
pub struct Drawn {
    records: Vec<Record>,
    /// The primitives, in file order: a flat index is a place here.
    parts: Vec<Part>,
}

/// What is broken, in words, or nothing.
type Broken = Option<&'static str>;

/// The three lists, and what may be wrong with each.
const LISTS: [(usize, [&str; 2]); 3] = [
    (SLOW_CURRENT, ["a current one that is none", "current repeats"]),
    (SLOW_FOLLOWING, ["a following one that is none", "following repeats"]),
    (SLOW_STANDING, ["a standing one that is none", "standing repeats"]),
];

impl Drawn {
    pub fn new(file: &[u8]) -> Drawn {
        let records = records(file);
        let mut parts = vec![];
        let (mut first_input, mut first_output) = (0, 0);
        for (number, record) in records.iter().enumerate().filter(|(_, record)| is_primitive(record)) {
            parts.push(Part { number, fields: record.fields(), first_input, first_output });
            first_input += record.a as usize;
            first_output += record.b as usize;
        }
        Drawn { records, parts }
    }

    /// How many inputs and outputs the primitives have.
    fn ports(&self) -> [u64; 2] {
        let sum = |side: fn(&Fields) -> u64| self.parts.iter().map(|part| side(&part.fields)).sum();
        [sum(|fields| fields.inputs), sum(|fields| fields.outputs)]
    }

    // ---- 20.

    /// The first clause of 20 that does not hold: "its ports are the file's, values fit, each
    /// Const's output is its value and lists name primitives without repeats"; "a list's count
    /// over 256 is 20".
    pub fn broken(&self, tables: &Tables) -> Broken {
        self.counts_broken(tables)
            .or_else(|| self.values_broken(tables))
            .or_else(|| self.consts_broken(tables))
            .or_else(|| LISTS.iter().find_map(|(list, words)| self.list_broken(tables, *list, *words)))
    }

    fn counts_broken(&self, tables: &Tables) -> Broken {
        let [inputs, outputs] = self.ports();
        let past = |list: usize| tables.count(list) > FULL_WORDS[list] as u64;
        let clauses = [
            (tables.count(SLOW_INPUTS) != inputs, "count of inputs"),
            (tables.count(SLOW_OUTPUTS) != outputs, "count of outputs"),
            (past(SLOW_CURRENT), "count of current"),
            (past(SLOW_FOLLOWING), "count of following"),
            (past(SLOW_STANDING), "count of standing"),
        ];
        clauses.into_iter().find(|(fails, _)| *fails).map(|(_, clause)| clause)
    }

    fn values_broken(&self, tables: &Tables) -> Broken {
        let (inputs, outputs) = (tables.used(SLOW_INPUTS), tables.used(SLOW_OUTPUTS));
        let misfit = |values: &[u64], width: u64| values.iter().any(|value| !fits(*value, width));
        self.parts.iter().find_map(|part| {
            if misfit(part.inputs_in(inputs), part.fields.input_width()) {
                return Some("an input's value");
            }
            misfit(part.outputs_in(outputs), part.fields.output_width()).then_some("an output's value")
        })
    }

    fn consts_broken(&self, tables: &Tables) -> Broken {
        let outputs = tables.used(SLOW_OUTPUTS);
        let mut consts = self.parts.iter().filter(|part| part.fields.kind == CONST);
        consts.any(|part| part.outputs_in(outputs) != [part.fields.parameter]).then_some("a Const's output")
    }

    fn list_broken(&self, tables: &Tables, list: usize, [none, repeat]: [&'static str; 2]) -> Broken {
        let names = tables.used(list);
        names.iter().enumerate().find_map(|(place, name)| {
            if *name >= self.parts.len() as u64 {
                return Some(none);
            }
            names[..place].contains(name).then_some(repeat)
        })
    }

    // ---- 17, 18, 19.

    /// Which of 17, 18 and 19 fail at an edit. Of a component that is not there only 17 is asked.
    pub fn edit_failing(&self, index: u16, number: u64) -> Vec<u64> {
        let Some(part) = self.parts.get(index as usize) else {
            return vec![17];
        };
        let (settable, width) = match part.fields.kind {
            SWITCH => (true, part.fields.output_width()),
            INPUT => (!self.is_led_into((part.number, 0)), part.fields.input_width()),
            _ => (false, part.fields.output_width()),
        };
        let checks = [(18, !settable), (19, !fits(number, width))];
        checks.into_iter().filter(|(_, fails)| *fails).map(|(refused, _)| refused).collect()
    }

    /// Whether a connection leads into the primitive of an index, if there is one.
    pub fn is_driven(&self, index: u16) -> bool {
        let ports =
            |part: &Part| (0..part.fields.inputs as usize).any(|port| self.is_led_into((part.number, port)));
        self.parts.get(index as usize).is_some_and(ports)
    }

    /// The Inputs, by flat index, and whether an input map enters each.
    pub fn inputs(&self) -> Vec<(u16, bool)> {
        let inputs = (0..self.parts.len()).filter(|index| self.parts[*index].fields.kind == INPUT);
        inputs.map(|index| (index as u16, self.is_mapped(self.parts[index].number))).collect()
    }

    /// Whether an input map enters input 0 of a component.
    fn is_mapped(&self, component: usize) -> bool {
        if component == 0 {
            return false;
        }
        let (owner, child) = (self.records[component].owner, self.child_number(component));
        let mut maps = self.owned(INPUT_MAP, owner).map(|at| &self.records[at]);
        maps.any(|map| (map.c, map.d) == (child, 0))
    }

    // ---- The maps.

    /// The positions of an owner's connections, input maps or output maps. They stand together:
    /// check 4.
    fn owned(&self, kind: u8, owner: u16) -> Range<usize> {
        let before =
            |than: (u8, u16)| self.records.partition_point(|record| (record.kind, record.owner) < than);
        let first = before((kind, owner));
        let own =
            self.records[first..].iter().take_while(|record| (record.kind, record.owner) == (kind, owner));
        first..first + own.count()
    }

    /// Which child of its owner a component is; it is not the root.
    fn child_number(&self, component: usize) -> u16 {
        let owner = self.records[component].owner;
        self.records[1..component].iter().filter(|record| record.owner == owner).count() as u16
    }

    /// The component that is an owner's child of a number.
    fn child(&self, owner: u16, child: u16) -> usize {
        let is_child = |at: &usize| self.records[*at].kind == COMPONENT && self.records[*at].owner == owner;
        (1..self.records.len()).filter(is_child).nth(child as usize).expect("check 12: the child exists")
    }

    /// The positions of the connections that come from an output: those that name it, and those
    /// that come from an output of the owner that it is mapped to.
    fn connections_from(&self, (component, port): Port) -> Vec<usize> {
        if component == 0 {
            return vec![];
        }
        let (owner, child) = (self.records[component].owner, self.child_number(component));
        let names = |at: &usize| (self.records[*at].a, self.records[*at].b) == (child, port as u16);
        let mut found: Vec<usize> = self.owned(CONNECTION, owner).filter(names).collect();
        for (output, _) in self.owned(OUTPUT_MAP, owner).enumerate().filter(|(_, at)| names(at)) {
            found.extend(self.connections_from((owner as usize, output)));
        }
        found
    }

    /// The primitives' inputs that an input reaches, "in the order of the maps, all that one map
    /// reaches before the next".
    fn reached_from(&self, (component, port): Port) -> Vec<Port> {
        if !self.records[component].is_composite() {
            return vec![(component, port)];
        }
        let owner = component as u16;
        let maps = self.owned(INPUT_MAP, owner).map(|at| &self.records[at]);
        maps.filter(|map| map.a as usize == port)
            .flat_map(|map| self.reached_from((self.child(owner, map.c), map.d as usize)))
            .collect()
    }

    /// Whether a connection leads into an input, itself or through the inputs that are mapped to it.
    fn is_led_into(&self, (component, port): Port) -> bool {
        if component == 0 {
            return false;
        }
        let (owner, child) = (self.records[component].owner, self.child_number(component));
        let enters = |at: &usize| (self.records[*at].c, self.records[*at].d) == (child, port as u16);
        let mut maps = self.owned(INPUT_MAP, owner).filter(enters);
        self.owned(CONNECTION, owner).any(|at| enters(&at))
            || maps.any(|at| self.is_led_into((owner as usize, self.records[at].a as usize)))
    }

    /// Where the outputs of a primitive lead, "in the order of their connections": the output, and
    /// the input that is reached.
    fn leads(&self, part: &Part) -> Vec<(usize, Port)> {
        let mut lines = vec![];
        for port in 0..part.fields.outputs as usize {
            lines.extend(self.connections_from((part.number, port)).into_iter().map(|at| (at, port)));
        }
        lines.sort();
        let mut leads = vec![];
        for (at, port) in lines {
            let line = &self.records[at];
            let entered = (self.child(line.owner, line.c), line.d as usize);
            leads.extend(self.reached_from(entered).into_iter().map(|reached| (port, reached)));
        }
        leads
    }

    /// The flat index of a component that is a primitive.
    fn index(&self, number: usize) -> usize {
        self.parts.iter().position(|part| part.number == number).expect("a primitive")
    }

    // ---- Calls, on tables that are right.

    /// "A load leaves every port at 0, but the output of a Const at its value. The standing list
    /// has every Const and every Clock, ascending; the following list is a copy of it; the current
    /// list has all components."
    pub fn load(&self, tables: &mut Tables) {
        let kind = |index: &u64| self.parts[*index as usize].fields.kind;
        let all: Vec<u64> = (0..self.parts.len() as u64).collect();
        let standing: Vec<u64> =
            all.iter().copied().filter(|index| [CONST, CLOCK].contains(&kind(index))).collect();
        let [inputs, outputs] = self.ports().map(|ports| vec![0; ports as usize]);
        let mut state = State { inputs, outputs, current: all, following: standing.clone(), standing };
        for part in self.parts.iter().filter(|part| part.fields.kind == CONST) {
            state.outputs[part.first_output] = part.fields.parameter;
        }
        state.put(tables);
    }

    /// A round: the bits of each component evaluated, in list order.
    pub fn round(&self, tables: &mut Tables, time: u64) -> Vec<u64> {
        let mut state = State::of(tables);
        let current = state.current.clone();
        let bits = current.iter().map(|index| self.visit(&mut state, *index, time)).collect();
        state.current = state.following;
        state.following = state.standing.clone();
        state.put(tables);
        bits
    }

    /// "evaluate it; strike it from the standing list, unless it is a Clock; then, for each of its
    /// wires in order, if output and input differ, write the input and append the target to the
    /// following list unless it is there": its bits.
    fn visit(&self, state: &mut State, index: u64, time: u64) -> u64 {
        let part = &self.parts[index as usize];
        let before = part.outputs_in(&state.outputs).to_vec();
        let after = outputs_after(&part.fields, part.inputs_in(&state.inputs), &before, time);
        state.outputs[part.first_output..][..after.len()].copy_from_slice(&after);
        if part.fields.kind != CLOCK {
            state.standing.retain(|other| *other != index);
        }
        for (port, (number, input)) in self.leads(part) {
            let target = self.index(number);
            let place = self.parts[target].first_input + input;
            if state.inputs[place] != after[port] {
                state.inputs[place] = after[port];
                append(&mut state.following, target as u64);
            }
        }
        moved(&before, &after)
    }

    /// An edit that no check refuses.
    pub fn edit(&self, tables: &mut Tables, way: Way, index: u64, number: u64) {
        let mut state = State::of(tables);
        let part = &self.parts[index as usize];
        match part.fields.kind {
            SWITCH => state.outputs[part.first_output] = number,
            _ => state.inputs[part.first_input] = number,
        }
        match way {
            Way::First => append(&mut state.current, index),
            Way::Standing => append(&mut state.standing, index),
        }
        state.put(tables);
    }

    /// "all three lists name only Clocks"
    pub fn calm(&self, tables: &Tables) -> bool {
        let mut names = LISTS.iter().flat_map(|(list, _)| tables.used(*list));
        names.all(|index| self.parts[*index as usize].fields.kind == CLOCK)
    }
}

impl Part {
    /// The primitive's own among all inputs.
    fn inputs_in<'a>(&self, inputs: &'a [u64]) -> &'a [u64] {
        &inputs[self.first_input..][..self.fields.inputs as usize]
    }

    /// Its own among all outputs.
    fn outputs_in<'a>(&self, outputs: &'a [u64]) -> &'a [u64] {
        &outputs[self.first_output..][..self.fields.outputs as usize]
    }
}

/// Ports and lists, as far as they are in use.
struct State {
    inputs: Vec<u64>,
    outputs: Vec<u64>,
    current: Vec<u64>,
    following: Vec<u64>,
    standing: Vec<u64>,
}

impl State {
    fn of(tables: &Tables) -> State {
        let [inputs, outputs, current, following, standing] = SLOW.map(|table| tables.used(table).to_vec());
        State { inputs, outputs, current, following, standing }
    }

    fn put(&self, tables: &mut Tables) {
        let all = [&self.inputs, &self.outputs, &self.current, &self.following, &self.standing];
        for (table, words) in SLOW.into_iter().zip(all) {
            tables.put(table, words);
        }
    }
}

/// Appends a component to a list, unless it is there.
fn append(list: &mut Vec<u64>, index: u64) {
    if !list.contains(&index) {
        list.push(index);
    }
}

//! Looking at a box: checks 1; 2; 3 to 15 with their position; 16; 20; 21.
//!
//! "Technicians at the gate want the port values of a composite, named by the path
//! of ids below the root (empty: the root itself)".

use super::calls::{lent_short, load_verdict_with, table_short};
use super::drawing::{records, Drawing, Id, Port};
use super::flat::{component_words, index, is_primitive, wire_words};
use super::judge::Refusal;
use super::net::{entries, is_net};
use super::single::PortValue;
use crate::tables::{Tables, COMPONENTS, INPUTS, NUMBERS, OUTPUTS, WIDTHS, WIRES};

/// What a box shows.
#[derive(Debug, PartialEq)]
pub struct Shown {
    pub inputs: Vec<PortValue>,
    pub outputs: Vec<PortValue>,
}

/// What is shown, or why the look is refused.
pub fn look(tables: &Tables, file: &[u8], path: &[Id]) -> Result<Shown, Refusal> {
    let short = table_short(tables) || lent_short(tables, NUMBERS) || lent_short(tables, WIDTHS);
    load_verdict_with(file, short)?;
    if !is_net(tables) {
        return Err(Refusal::of(16));
    }
    let drawing = Drawing::new(records(file));
    let component = named(&drawing, path).filter(|_| matches(&drawing, tables)).ok_or(Refusal::of(20))?;
    shown(&drawing, tables, component).ok_or(Refusal::of(21))
}

/// The component that the path leads to: each id is that of a component with the
/// one before as its owner. A primitive owns nothing.
fn named(drawing: &Drawing, path: &[Id]) -> Option<usize> {
    let mut at = 0;
    for id in path {
        at = *drawing.children[at].iter().find(|child| Id(drawing.records[**child].id) == *id)?;
    }
    Some(at)
}

/// "File and tables match when the tables hold the components and wires that a load
/// of the file gives."
fn matches(drawing: &Drawing, tables: &Tables) -> bool {
    tables.used(COMPONENTS) == component_words(drawing) && tables.used(WIRES) == wire_words(drawing)
}

/// The values of a component's ports; none where an input of it reaches nothing.
fn shown(drawing: &Drawing, tables: &Tables, component: usize) -> Option<Shown> {
    let record = &drawing.records[component];
    let inputs = (0..record.a).map(|port| {
        let reached = last_reached(drawing, (component, port as usize))?;
        Some(value(drawing, tables, INPUTS, reached))
    });
    let outputs = (0..record.b).map(|port| {
        let source = drawing.source_below((component, port as usize))?;
        Some(value(drawing, tables, OUTPUTS, source))
    });
    Some(Shown { inputs: inputs.collect::<Option<_>>()?, outputs: outputs.collect::<Option<_>>()? })
}

/// "An input shows the primitive input that its maps reach last": what the last of
/// its maps reaches last, or, where that reaches nothing, the map before it.
fn last_reached(drawing: &Drawing, (component, port): Port) -> Option<Port> {
    if is_primitive(&drawing.records[component]) {
        return Some((component, port));
    }
    let maps = drawing.input_maps[component].iter().rev().filter(|map| map.a as usize == port);
    maps.filter_map(|map| Some((drawing.child(component as u16, map.c)?, map.d as usize)))
        .find_map(|inner| last_reached(drawing, inner))
}

/// The value that the tables hold for a primitive's port on a side.
fn value(drawing: &Drawing, tables: &Tables, side: usize, (number, port): Port) -> PortValue {
    let entry = entries(tables)[index(drawing, number)];
    let (first, width) = match side {
        INPUTS => (entry.first_input, entry.fields.input_width()),
        _ => (entry.first_output, entry.fields.output_width()),
    };
    PortValue { number: tables.words[side][first as usize + port], width }
}

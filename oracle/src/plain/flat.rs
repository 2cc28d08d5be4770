//! The components and wires of an accepted drawing, as a load lays them ("Flattening").

use super::drawing::{Drawing, Record, COMPONENT, CONNECTION};

pub fn is_primitive(record: &Record) -> bool {
    record.kind == COMPONENT && !record.is_composite()
}

/// The flat index of a primitive: "Primitives keep file order".
pub fn index(drawing: &Drawing, number: usize) -> usize {
    drawing.records[..number].iter().filter(|record| is_primitive(record)).count()
}

/// The words of the components table after a load of the drawing.
pub fn component_words(drawing: &Drawing) -> Vec<u64> {
    let mut words = vec![];
    let (mut inputs, mut outputs) = (0, 0);
    for record in drawing.records.iter().filter(|record| is_primitive(record)) {
        let (own_inputs, own_outputs) = (record.a as u64, record.b as u64);
        words.extend([record.component_kind as u64, record.id as u64, record.c as u64, record.parameter]);
        words.extend([own_inputs, own_outputs, inputs, outputs]);
        inputs += own_inputs;
        outputs += own_outputs;
    }
    words
}

/// The words of the wires table after a load: "Wires stand in order of their connection."
pub fn wire_words(drawing: &Drawing) -> Vec<u64> {
    let connections = drawing.records.iter().filter(|record| record.kind == CONNECTION);
    let wires = connections.flat_map(|record| drawing.wires_of(record));
    let ends = wires.flat_map(|(source, target)| [source, target]);
    ends.flat_map(|(number, port)| [index(drawing, number), port]).map(|word| word as u64).collect()
}

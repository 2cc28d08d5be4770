//! A net at every limit at once, which no load can make: 256 components, 1,024
//! inputs and outputs, 1,024 wires.

use super::random::Random;
use crate::plain::kinds::{greatest, Fields};
use crate::plain::net::{broken, entries};
use crate::tables::{Tables, COMPONENTS, INPUTS, OUTPUTS, WIRES};

/// The net, its values 0 and its lists empty.
pub fn full_net(random: &mut Random) -> Tables {
    let mut tables = Tables::new();
    put_components(random, &mut tables);
    put_wires(random, &mut tables);
    assert_eq!(broken(&tables), None, "a net made here is one");
    assert_eq!(tables.counts, [256, 1_024, 1_024, 1_024, 0, 0, 0]);
    tables
}

/// Splitters of 32 bits, or of 64, and one of fewer, with a Const for each of the two widths; and
/// gates of four and five inputs, Majority among them in one net of two.
fn rows(random: &mut Random) -> Vec<Fields> {
    let row = |kind, inputs, outputs, width, parameter| Fields { kind, inputs, outputs, width, parameter };
    let (bits, splitters, fewer, gates_of_five) = random.pick(&[(32, 24, 25, 83), (64, 12, 13, 47)]);
    let mut rows = vec![row(10, 1, bits, 0, bits); splitters];
    rows.push(row(10, 1, fewer, 0, fewer));
    for width in [bits, fewer] {
        rows.push(row(13, 0, 1, width, random.any() & greatest(width)));
    }
    let gates: &[u64] = if random.once_in(2) { &[1, 2, 4, 5, 6, 15] } else { &[1, 2, 4, 5, 6] };
    for gate in 0..256 - rows.len() {
        let inputs = if gate < gates_of_five { 5 } else { 4 };
        rows.push(row(random.pick(gates), inputs, 1, 0, 0));
    }
    rows
}

/// The components in any order, each with an id of its own.
fn put_components(random: &mut Random, tables: &mut Tables) {
    let mut rows = rows(random);
    let first_id = random.below(1 << 31);
    let (mut words, mut outputs, mut first_input) = (vec![], vec![], 0);
    while !rows.is_empty() {
        let row = rows.swap_remove(random.below(rows.len() as u64) as usize);
        let id = first_id + rows.len() as u64;
        words.extend([row.kind, id, row.width, row.parameter]);
        words.extend([row.inputs, row.outputs, first_input, outputs.len() as u64]);
        first_input += row.inputs;
        outputs.extend(vec![row.parameter * (row.kind == 13) as u64; row.outputs as usize]);
    }
    tables.put(COMPONENTS, &words);
    tables.put(INPUTS, &vec![0; first_input as usize]);
    tables.put(OUTPUTS, &outputs);
}

/// A wire into every input, from any output of its width, in any order.
fn put_wires(random: &mut Random, tables: &mut Tables) {
    let entries = entries(tables);
    let mut open = vec![];
    let mut sources = vec![];
    for (index, entry) in entries.iter().enumerate() {
        let fields = &entry.fields;
        open.extend((0..fields.inputs).map(|port| (index as u64, port, fields.input_width())));
        sources.extend((0..fields.outputs).map(|port| (index as u64, port, fields.output_width())));
    }
    let mut wires = vec![];
    while !open.is_empty() {
        let (to, port, width) = open.swap_remove(random.below(open.len() as u64) as usize);
        let equal: Vec<_> = sources.iter().filter(|source| source.2 == width).copied().collect();
        let (from, out, _) = random.pick(&equal);
        wires.extend([from, out, to, port]);
    }
    tables.put(WIRES, &wires);
}

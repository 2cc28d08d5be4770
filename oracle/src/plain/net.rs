//! Check 16: "Tables are a net when ..", clause by clause.
//!
//! Fields are compared as whole words, and only words below the counts are
//! looked at. A clause answers what is broken, if anything; it may lean on the
//! clauses before it.

use super::kinds::{fits, Fields};
use crate::tables::{Tables, COMPONENTS, CURRENT, FOLLOWING, FULL_ENTRIES, INPUTS, OUTPUTS, STANDING, WIRES};

/// An id is a 32-bit number.
const ID_MAX: u64 = u32::MAX as u64;

/// What is broken, in words, or nothing.
type Broken = Option<&'static str>;

/// One entry of the components table.
#[derive(Clone, Copy)]
pub struct Entry {
    pub fields: Fields,
    pub id: u64,
    pub first_input: u64,
    pub first_output: u64,
}

/// The components below the count, which is within the table.
pub fn entries(tables: &Tables) -> Vec<Entry> {
    tables.used(COMPONENTS).chunks_exact(8).map(Entry::of).collect()
}

impl Entry {
    /// The entry of eight words.
    pub fn of(words: &[u64]) -> Entry {
        let fields = Fields {
            kind: words[0],
            inputs: words[4],
            outputs: words[5],
            width: words[2],
            parameter: words[3],
        };
        Entry { fields, id: words[1], first_input: words[6], first_output: words[7] }
    }
}

pub fn is_net(tables: &Tables) -> bool {
    broken(tables).is_none()
}

/// The first clause that does not hold.
pub fn broken(tables: &Tables) -> Broken {
    if let Some(count) = counts_broken(tables) {
        return Some(count);
    }
    let entries = entries(tables);
    kinds_broken(&entries)
        .or_else(|| ids_broken(&entries))
        .or_else(|| ports_broken(tables, &entries))
        .or_else(|| values_broken(tables, &entries))
        .or_else(|| consts_broken(tables, &entries))
        .or_else(|| wires_broken(tables, &entries))
        .or_else(|| inputs_broken(tables, &entries))
        .or_else(|| list_broken(tables, CURRENT, ["a current one that is none", "current repeats"]))
        .or_else(|| list_broken(tables, FOLLOWING, ["a following one that is none", "following repeats"]))
        .or_else(|| list_broken(tables, STANDING, ["a standing one that is none", "standing repeats"]))
}

/// "counts are within these limits"
fn counts_broken(tables: &Tables) -> Broken {
    const NAMES: [&str; 7] = [
        "count of components",
        "count of inputs",
        "count of outputs",
        "count of wires",
        "count of current",
        "count of following",
        "count of standing",
    ];
    let past = (0..7).find(|table| tables.counts[*table] > FULL_ENTRIES[*table]);
    past.map(|table| NAMES[table])
}

/// "components are of kinds 1 to 13, obey the table of kinds"; "9 and 16 cover the new kind", 15.
fn kinds_broken(entries: &[Entry]) -> Broken {
    if entries.iter().any(|entry| !entry.fields.is_primitive()) {
        return Some("a kind not 1 to 13, nor 15");
    }
    let obeyed = entries.iter().all(|entry| entry.fields.obey_the_table());
    (!obeyed).then_some("the table of kinds")
}

/// "and have distinct ids"; a word of 2^32 or more is no id.
fn ids_broken(entries: &[Entry]) -> Broken {
    let mut ids: Vec<u64> = entries.iter().map(|entry| entry.id).collect();
    if ids.iter().any(|id| *id > ID_MAX) {
        return Some("an id that is none");
    }
    ids.sort_unstable();
    ids.windows(2).any(|pair| pair[0] == pair[1]).then_some("two equal ids")
}

/// "ports follow each other without gaps": the first starts at 0, each starts
/// where the one before ends, and the totals are the counts.
fn ports_broken(tables: &Tables, entries: &[Entry]) -> Broken {
    let (mut inputs, mut outputs) = (0, 0);
    for entry in entries {
        if entry.first_input != inputs {
            return Some("a gap in the inputs");
        }
        if entry.first_output != outputs {
            return Some("a gap in the outputs");
        }
        // No overflow: at most 64 ports on a side by the table of kinds.
        inputs += entry.fields.inputs;
        outputs += entry.fields.outputs;
    }
    if inputs != tables.counts[INPUTS] {
        return Some("the total of the inputs");
    }
    (outputs != tables.counts[OUTPUTS]).then_some("the total of the outputs")
}

/// "values fit"
fn values_broken(tables: &Tables, entries: &[Entry]) -> Broken {
    for entry in entries {
        let inputs = ports(tables.used(INPUTS), entry.first_input, entry.fields.inputs);
        if !inputs.iter().all(|value| fits(*value, entry.fields.input_width())) {
            return Some("an input's value");
        }
        let outputs = ports(tables.used(OUTPUTS), entry.first_output, entry.fields.outputs);
        if !outputs.iter().all(|value| fits(*value, entry.fields.output_width())) {
            return Some("an output's value");
        }
    }
    None
}

fn ports(values: &[u64], first: u64, how_many: u64) -> &[u64] {
    &values[first as usize..(first + how_many) as usize]
}

/// "each Const's output is its value"
fn consts_broken(tables: &Tables, entries: &[Entry]) -> Broken {
    let holds = |entry: &Entry| tables.words[OUTPUTS][entry.first_output as usize] == entry.fields.parameter;
    let mut consts = entries.iter().filter(|entry| entry.fields.kind == 13);
    (!consts.all(holds)).then_some("a Const's output")
}

/// "wires have ends that exist and equal widths"
fn wires_broken(tables: &Tables, entries: &[Entry]) -> Broken {
    tables.used(WIRES).chunks_exact(4).find_map(|wire| wire_broken(wire, entries))
}

fn wire_broken(wire: &[u64], entries: &[Entry]) -> Broken {
    let Some(from) = entries.get(wire[0] as usize) else {
        return Some("a wire from no component");
    };
    if wire[1] >= from.fields.outputs {
        return Some("a wire from no port");
    }
    let Some(to) = entries.get(wire[2] as usize) else {
        return Some("a wire to no component");
    };
    if wire[3] >= to.fields.inputs {
        return Some("a wire to no port");
    }
    (from.fields.output_width() != to.fields.input_width()).then_some("a wire of two widths")
}

/// "no input has two wires"
fn inputs_broken(tables: &Tables, entries: &[Entry]) -> Broken {
    let mut entered = vec![false; tables.counts[INPUTS] as usize];
    for wire in tables.used(WIRES).chunks_exact(4) {
        let input = (entries[wire[2] as usize].first_input + wire[3]) as usize;
        if std::mem::replace(&mut entered[input], true) {
            return Some("an input with two wires");
        }
    }
    None
}

/// "each list names existing components without repeats"
fn list_broken(tables: &Tables, list: usize, [none, repeat]: [&'static str; 2]) -> Broken {
    let mut named = vec![false; tables.counts[COMPONENTS] as usize];
    for index in tables.used(list) {
        match named.get_mut(*index as usize) {
            None => return Some(none),
            Some(true) => return Some(repeat),
            Some(there) => *there = true,
        }
    }
    None
}

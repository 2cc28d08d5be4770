//! The numbers of loads, rounds, edits and questions: "2, 16, 17, 18, 19 in that
//! order, as far as each applies", and 24 "after 16". Those of looks are in `look`, those of
//! mending in `mend`.

use super::judge::{check_1, judge_records, Refusal, Verdict};
use super::kinds::fits;
use super::net::{entries, is_net, Entry};
use crate::tables::{Tables, ANSWER, FULL_WORDS, MOVED, ORDER, WIRES};

/// A load: checks 1, 2, 3 to 15.
pub fn load_verdict(tables: &Tables, file: &[u8]) -> Verdict {
    load_verdict_with(file, table_short(tables))
}

/// The same, where it is known whether check 2 fails.
pub fn load_verdict_with(file: &[u8], short: bool) -> Verdict {
    if check_1(file) {
        Err(Refusal::of(1))
    } else if short {
        Err(Refusal::of(2))
    } else {
        judge_records(file)
    }
}

/// A round: checks 2, here with the table of bits, and 16.
pub fn round_number(tables: &Tables) -> u64 {
    if lent_short(tables, MOVED) {
        return 2;
    }
    net_number(tables)
}

/// A round that is handed an order: checks 2, here with the table of bits and that of the order,
/// 16, 24.
pub fn ordered_number(tables: &Tables) -> u64 {
    if lent_short(tables, ORDER) {
        return 2;
    }
    match round_number(tables) {
        0 if !is_order(tables) => 24,
        number => number,
    }
}

/// Check 24, of tables that are a net: "an order that is not each wire once".
pub fn is_order(tables: &Tables) -> bool {
    let order = tables.order();
    (0..tables.counts[WIRES]).all(|wire| order.iter().filter(|word| **word == wire).count() == 1)
}

/// Run until calm, the questions of calm and of satisfied: checks 2 and 16.
pub fn net_number(tables: &Tables) -> u64 {
    if table_short(tables) {
        2
    } else if !is_net(tables) {
        16
    } else {
        0
    }
}

/// An edit, of either way: checks 2, 16, 17, 18, 19.
pub fn edit_number(tables: &Tables, index: u16, number: u64) -> u64 {
    on_component(tables, index, |entry| match entry.fields.kind {
        7 => number_fits(number, entry.fields.output_width()),
        8 if !is_entered(tables, index) => number_fits(number, entry.fields.input_width()),
        _ => 18,
    })
}

/// The index of an id: checks 2, 16, 17.
pub fn index_number(tables: &Tables, id: u32) -> u64 {
    let refused = net_number(tables);
    if refused != 0 {
        return refused;
    }
    let known = entries(tables).iter().any(|entry| entry.id == id as u64);
    if known {
        0
    } else {
        17
    }
}

/// A port's value: checks 2, 16, 17. Side 0 is the inputs.
pub fn value_number(tables: &Tables, side: u8, index: u16, port: u16) -> u64 {
    on_component(tables, index, |entry| {
        let ports = if side == 0 { entry.fields.inputs } else { entry.fields.outputs };
        if (port as u64) < ports {
            0
        } else {
            17
        }
    })
}

/// Sources and targets: checks 2, here with the list for the answer, 16, 17.
pub fn neighbours_number(tables: &Tables, index: u16) -> u64 {
    if lent_short(tables, ANSWER) {
        return 2;
    }
    on_component(tables, index, |_| 0)
}

/// Checks 2, 16 and 17 (no component of that index), then what the call asks of it.
fn on_component(tables: &Tables, index: u16, then: impl Fn(&Entry) -> u64) -> u64 {
    let refused = net_number(tables);
    if refused != 0 {
        return refused;
    }
    entries(tables).get(index as usize).map_or(17, then)
}

/// Check 2: a lent table is shorter than full size.
pub fn table_short(tables: &Tables) -> bool {
    (0..7).any(|table| lent_short(tables, table))
}

/// Whether one table, or one list for an answer, is lent shorter than full size.
pub fn lent_short(tables: &Tables, table: usize) -> bool {
    tables.lent[table] < FULL_WORDS[table]
}

/// Whether a wire enters an input of the component.
pub fn is_entered(tables: &Tables, index: u16) -> bool {
    tables.used(WIRES).chunks_exact(4).any(|wire| wire[2] == index as u64)
}

/// Check 19.
fn number_fits(number: u64, width: u64) -> u64 {
    if fits(number, width) {
        0
    } else {
        19
    }
}

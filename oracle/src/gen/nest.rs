//! Boxes in one another, one in each, down to any depth: an input goes to several places on its way
//! down, an output comes up through several boxes. All ports have one width.

use super::drawing::{blank, file_of};
use super::random::Random;
use crate::plain::drawing::{Record, COMPONENT, CONNECTION, DEPTH_MAX, INPUT_MAP, OUTPUT_MAP};
use crate::plain::judge::judge;
use crate::plain::kinds::greatest;

/// A port of a child of the box at hand.
type Inner = (u16, u16);

/// An accepted drawing, with Majority gates or without.
pub fn nest(random: &mut Random, votes: bool) -> Vec<Record> {
    let boxes = random.between(1, DEPTH_MAX as u64 - 2);
    let width = random.pick(&[1, 1, 1, 1, 2, 33, 64]);
    let mut lists = [vec![], vec![], vec![], vec![]];
    let mut ports = (0, 0);
    let mut owner = 0;
    for left in (0..=boxes).rev() {
        let number = lists[0].len() as u16;
        put(&mut lists[0], Record { owner, a: ports.0, b: ports.1, ..blank(COMPONENT) });
        let parts = parts(random, width, votes);
        for part in &parts {
            put(&mut lists[0], Record { owner: number, ..*part });
        }
        let below =
            if left > 0 { (random.between(1, 3) as u16, random.between(1, 2) as u16) } else { (0, 0) };
        let sides = parts.iter().map(|part| (part.a, part.b)).chain([below]);
        let (inputs, outputs) = inner_ports(sides);
        enter(random, &mut lists, number, ports.0, &inputs, &outputs);
        for _ in 0..ports.1 {
            let last = outputs[outputs.len() - 1];
            let (a, b) = if random.once_in(2) { last } else { random.pick(&outputs) };
            lists[3].push(Record { owner: number, a, b, ..blank(OUTPUT_MAP) });
        }
        (owner, ports) = (number, below);
    }
    let records = lists.concat();
    assert_eq!(judge(&file_of(&records)), Ok(()), "a nest made here is accepted");
    records
}

/// Appends a component, its id the next one.
fn put(components: &mut Vec<Record>, record: Record) {
    let id = components.len() as u32 + 1_000;
    components.push(Record { id, ..record });
}

/// Primitives of a width, an Input first.
fn parts(random: &mut Random, width: u64, votes: bool) -> Vec<Record> {
    let mut parts = vec![part(8, 1, 0, width)];
    for _ in 0..random.below(4) {
        let gate = if votes { 15 } else { random.pick(&[1, 2, 4, 5, 6]) };
        let (kind, inputs) = match (random.below(8), width) {
            (0 | 1, _) => (8, 1),
            (2, _) => (9, 1),
            (3, _) => (13, 0),
            (4, 1) => (random.pick(&[7, 12]), 0),
            (_, 1) => (gate, random.between(1, 3) as u16),
            _ => (random.pick(&[8, 9]), 1),
        };
        parts.push(match kind {
            8 | 9 => part(kind, inputs, 0, width),
            12 => part(kind, inputs, 0, random.between(1, 5)),
            13 => part(kind, inputs, width as u16, random.any() & greatest(width)),
            _ => part(kind, inputs, 0, 0),
        });
    }
    parts
}

/// A primitive with one output.
fn part(component_kind: u8, a: u16, c: u16, parameter: u64) -> Record {
    Record { component_kind, a, b: 1, c, parameter, ..blank(COMPONENT) }
}

/// Every input and every output of children that have so many each.
fn inner_ports(sides: impl Iterator<Item = (u16, u16)>) -> (Vec<Inner>, Vec<Inner>) {
    let (mut inputs, mut outputs) = (vec![], vec![]);
    for (child, (entering, leaving)) in sides.enumerate() {
        inputs.extend((0..entering).map(|port| (child as u16, port)));
        outputs.extend((0..leaving).map(|port| (child as u16, port)));
    }
    (inputs, outputs)
}

/// Enters most of the inner inputs, from an input of the box or from an inner output.
fn enter(
    random: &mut Random,
    lists: &mut [Vec<Record>; 4],
    owner: u16,
    own: u16,
    inputs: &[Inner],
    outputs: &[Inner],
) {
    for (c, d) in inputs.iter().copied() {
        match random.below(10) {
            0..=5 if own > 0 => {
                let a = random.below(own as u64) as u16;
                lists[2].push(Record { owner, a, c, d, ..blank(INPUT_MAP) });
            }
            0..=7 => {
                let (a, b) = random.pick(outputs);
                lists[1].push(Record { owner, a, b, c, d, ..blank(CONNECTION) });
            }
            _ => {}
        }
    }
}

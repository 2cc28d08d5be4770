//! Single evaluations: about seven in ten right, the rest with a fault or two.

use super::random::Random;
use super::Stream;
use crate::command::{Command, Single};
use crate::plain::kinds::{greatest, Fields, PERIOD_MAX, WIDTH_MAX};
use crate::plain::rules::outputs_after;
use crate::plain::single::{single_number, PortValue};
use std::io::{Result, Write};

pub fn one<W: Write>(random: &mut Random, stream: &mut Stream<W>) -> Result<()> {
    let mut single = right(random);
    assert_eq!(single_number(&single.fields, &single.inputs, &single.outputs), 0);
    if random.below(10) >= 7 {
        for _ in 0..random.between(1, 2) {
            damage(random, &mut single);
        }
    }
    stream.put(Command::Evaluate(single))
}

/// A component of any kind, with values that fit, and now and then more of them.
fn right(random: &mut Random) -> Single {
    let fields = fields(random);
    let time = match fields.kind {
        12 => time_near(random, fields.parameter),
        _ => random.any_size(),
    };
    let mut inputs = inputs(random, &fields);
    let mut outputs = outputs(random, &fields, &inputs, time);
    if random.once_in(4) {
        more(random, &mut inputs);
    }
    if random.once_in(4) {
        more(random, &mut outputs);
    }
    Single { fields, time, inputs, outputs }
}

/// Fields that obey the table of kinds, each kind as likely as another.
pub fn fields(random: &mut Random) -> Fields {
    let kind = random.pick(&[1, 2, 3, 4, 5, 6, 7, 8, 9, 10, 11, 12, 13, 15]);
    let bits = bits(random);
    let mut fields = Fields { kind, inputs: 0, outputs: 1, width: 0, parameter: 0 };
    match kind {
        1 | 2 | 4 | 5 => fields.inputs = gate_inputs(random),
        3 => fields.inputs = 1,
        6 | 15 => fields.inputs = gate_inputs(random).max(1),
        8 | 9 => (fields.inputs, fields.parameter) = (1, bits),
        10 => (fields.inputs, fields.outputs, fields.parameter) = (1, bits, bits),
        11 => (fields.inputs, fields.parameter) = (bits, bits),
        12 => fields.parameter = period(random),
        13 => (fields.width, fields.parameter) = (bits, fitting(random, bits).number),
        _ => {}
    }
    fields
}

fn bits(random: &mut Random) -> u64 {
    match random.below(3) {
        0 => random.pick(&[1, 2, 3, 31, 32, 33, 48, 63, 64]),
        _ => random.between(1, WIDTH_MAX),
    }
}

fn gate_inputs(random: &mut Random) -> u64 {
    match random.below(3) {
        0 => random.pick(&[0, 1, 2, 3, 31, 32, 33, 63, 64]),
        1 => random.between(0, 5),
        _ => random.between(0, 64),
    }
}

fn period(random: &mut Random) -> u64 {
    match random.below(3) {
        0 => random.pick(&[1, 2, 3, 10, 1000, PERIOD_MAX - 1, PERIOD_MAX]),
        1 => random.between(1, 20),
        _ => random.any_size().clamp(1, PERIOD_MAX),
    }
}

/// A time at or next to a multiple of the period, or any time.
fn time_near(random: &mut Random, period: u64) -> u64 {
    let times = random.between(0, u64::MAX / period);
    let near = match random.below(3) {
        0 => random.between(0, 4),
        _ => times,
    };
    let multiple = near.min(u64::MAX / period) * period;
    match random.below(6) {
        0 => multiple,
        1 => multiple.wrapping_add(1),
        2 => multiple.wrapping_sub(1),
        3 => random.pick(&[0, 1, u64::MAX, u64::MAX - 1, 1 << 63, (1 << 63) + 1]),
        4 => multiple.wrapping_add(random.below(period)),
        _ => random.any_size(),
    }
}

/// A value of that width: 0, the greatest, one bit, or any.
pub fn fitting(random: &mut Random, width: u64) -> PortValue {
    let number = match random.below(5) {
        0 => 0,
        1 => greatest(width),
        2 => 1 << random.below(width),
        _ => random.any() & greatest(width),
    };
    PortValue { number, width }
}

/// The least number that does not fit a width; at 64 bits, where every number fits, the greatest.
pub fn past(width: u64) -> u64 {
    greatest(width).saturating_add(1)
}

/// Inputs that try a gate: all one level, one apart from the others, or any.
fn inputs(random: &mut Random, fields: &Fields) -> Vec<PortValue> {
    let width = fields.input_width();
    if width > 1 || random.once_in(3) {
        return (0..fields.inputs).map(|_| fitting(random, width)).collect();
    }
    if fields.kind == 15 && random.once_in(2) {
        return nearly_half(random, fields.inputs);
    }
    let level = random.below(2);
    let mut values = vec![PortValue { number: level, width: 1 }; fields.inputs as usize];
    for _ in 0..random.below(3) {
        if !values.is_empty() {
            let at = random.below(fields.inputs) as usize;
            values[at].number = 1 - level;
        }
    }
    values
}

/// What the outputs hold before: about half of them what the evaluation leaves there, and once
/// in five all of them.
fn outputs(random: &mut Random, fields: &Fields, inputs: &[PortValue], time: u64) -> Vec<PortValue> {
    let numbers = |values: &[PortValue]| values.iter().map(|value| value.number).collect::<Vec<u64>>();
    let mut outputs: Vec<PortValue> =
        (0..fields.outputs).map(|_| fitting(random, fields.output_width())).collect();
    let after = outputs_after(fields, &numbers(inputs), &numbers(&outputs), time);
    let all_kept = random.once_in(5);
    for (value, left) in outputs.iter_mut().zip(after) {
        if all_kept || random.once_in(2) {
            value.number = left;
        } else if value.number == left {
            value.number ^= 1;
        }
    }
    outputs
}

/// Half of the inputs high, or one more, or one less, anywhere among them.
fn nearly_half(random: &mut Random, inputs: u64) -> Vec<PortValue> {
    let wanted = (inputs / 2 + random.below(3)).saturating_sub(1).min(inputs);
    let mut values = vec![PortValue { number: 0, width: 1 }; inputs as usize];
    let mut low: Vec<usize> = (0..inputs as usize).collect();
    for _ in 0..wanted {
        let at = low.swap_remove(random.below(low.len() as u64) as usize);
        values[at].number = 1;
    }
    values
}

/// Values past the component's ports, of any width and number.
fn more(random: &mut Random, values: &mut Vec<PortValue>) {
    let room = 256 - values.len() as u64;
    let added = match random.below(8) {
        0 => room,
        _ => random.between(1, 5).min(room),
    };
    for _ in 0..added {
        values.push(PortValue { number: random.any_size(), width: random.below(256) });
    }
}

/// One fault, as a rule.
fn damage(random: &mut Random, single: &mut Single) {
    let fields = &mut single.fields;
    match random.below(11) {
        0 => fields.kind = random.pick(&[0, 0, 14, 14, 15, 16, 17, 255]),
        1 => fields.kind = random.below(256),
        2 => fields.inputs = wrong_ports(random, fields.inputs),
        3 => fields.outputs = wrong_ports(random, fields.outputs),
        4 => fields.width = random.pick(&[0, 1, 2, 31, 32, 33, 63, 64, 65, 256, 65_535]),
        5 => fields.parameter = wrong_parameter(random, fields),
        6 => drop(single.inputs.pop()),
        7 => drop(single.outputs.pop()),
        8 => misfit(random, &mut single.inputs, single.fields.inputs),
        9 => misfit(random, &mut single.outputs, single.fields.outputs),
        _ => too_wide(random, single),
    }
}

fn wrong_ports(random: &mut Random, ports: u64) -> u64 {
    match random.below(3) {
        0 => (ports + 1).min(65_535),
        1 => ports.saturating_sub(1),
        _ => random.pick(&[0, 1, 2, 32, 33, 63, 64, 65, 256, 257, 65_535]),
    }
}

fn wrong_parameter(random: &mut Random, fields: &Fields) -> u64 {
    let high = (1 << 32) + fields.parameter.min(1 << 31);
    let width = fields.width.clamp(1, WIDTH_MAX);
    match fields.kind {
        13 => random.pick(&[past(width), greatest(width), high, u64::MAX]),
        12 => random.pick(&[0, 1, PERIOD_MAX, PERIOD_MAX + 1, 1 << 63, u64::MAX]),
        _ => random.pick(&[0, 1, 2, 32, 33, 63, 64, 65, 66, 1 << 32, high, PERIOD_MAX, u64::MAX]),
    }
}

/// A component has more bits than 64, with ports and values to match.
fn too_wide(random: &mut Random, single: &mut Single) {
    let bits = random.pick(&[65, 65, 66, 96, 128, 255]);
    let Fields { kind, parameter, .. } = single.fields;
    let row = |inputs, outputs, width, parameter| Fields { kind, inputs, outputs, width, parameter };
    let fields = match kind {
        8 | 9 => row(1, 1, 0, bits),
        10 => row(1, bits, 0, bits),
        11 => row(bits, 1, 0, bits),
        13 => row(0, 1, bits, parameter),
        _ => return,
    };
    let values = |ports: u64, width: u64| vec![PortValue { number: 1, width }; ports as usize];
    single.inputs = values(fields.inputs, fields.input_width());
    single.outputs = values(fields.outputs, fields.output_width());
    single.fields = fields;
}

/// Another width, or a number that does not fit, at one of the own ports.
fn misfit(random: &mut Random, values: &mut [PortValue], ports: u64) {
    let own = (values.len() as u64).min(ports);
    if own == 0 {
        return;
    }
    let value = &mut values[random.below(own) as usize];
    let past = past(value.width.clamp(1, WIDTH_MAX));
    let next = past.saturating_add(1);
    match random.below(6) {
        0 => value.width += 1,
        1 => value.width = value.width.saturating_sub(1),
        2 => value.width = random.pick(&[0, 1, 32, 33, 63, 64, 65, 255]),
        3 => value.number = past,
        4 => value.number = random.pick(&[past, next, 2, 1 << 32, (1 << 32) + 1, 1 << 63, u64::MAX]),
        _ => value.number |= random.any() << value.width.min(63),
    }
    value.width = value.width.min(255);
}

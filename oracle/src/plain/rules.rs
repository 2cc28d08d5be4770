//! What an evaluation leaves at a component's outputs (the specification, "Rounds"), kind by kind.

use super::kinds::Fields;

/// The outputs after an evaluation of a component that obeys the table of kinds, from
/// the numbers at its inputs and at its outputs before.
pub fn outputs_after(fields: &Fields, inputs: &[u64], outputs: &[u64], time: u64) -> Vec<u64> {
    let level = |high: bool| vec![high as u64];
    match fields.kind {
        1 => level(inputs.iter().all(is_high)),
        2 => level(inputs.iter().any(is_high)),
        3 => level(!is_high(&inputs[0])),
        4 => level(!inputs.iter().all(is_high)),
        5 => level(!inputs.iter().any(is_high)),
        6 => level(inputs.iter().fold(false, |odd, input| odd != is_high(input))),
        7 | 13 => outputs.to_vec(),
        8 | 9 => vec![inputs[0]],
        10 => (0..fields.outputs).map(|bit| inputs[0] >> bit & 1).collect(),
        11 => vec![(0..inputs.len()).map(|bit| inputs[bit] << bit).sum()],
        12 => level(clock_is_high(fields.parameter, time)),
        15 => level(most_are_high(inputs)),
        kind => unreachable!("kind {kind} is no primitive"),
    }
}

/// "which of its outputs changed, one bit for each port": bit i for output i.
pub fn moved(before: &[u64], after: &[u64]) -> u64 {
    let changed = before.iter().zip(after).map(|(before, after)| (before != after) as u64);
    changed.rev().fold(0, |bits, bit| 2 * bits + bit)
}

fn is_high(input: &u64) -> bool {
    *input != 0
}

/// "Clock is high when time mod (2 * period) > period".
fn clock_is_high(period: u64, time: u64) -> bool {
    time as u128 % (2 * period as u128) > period as u128
}

/// "high when twice the number of high inputs exceeds the number of inputs": more of
/// them are high than low.
fn most_are_high(inputs: &[u64]) -> bool {
    let (high, low): (Vec<&u64>, Vec<&u64>) = inputs.iter().partition(|input| is_high(input));
    high.len() > low.len()
}

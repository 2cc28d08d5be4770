//! Evaluating a single component: checks 7, 8, 9, 2, 19, in that order.

use super::kinds::{fits, Fields, CUSTOM, NO_KIND};

/// A value as it is handed in: any number with any width.
#[derive(Clone, Copy, Debug, PartialEq)]
pub struct PortValue {
    pub number: u64,
    pub width: u64,
}

/// The number given back, 0 where the component is evaluated.
pub fn single_number(fields: &Fields, inputs: &[PortValue], outputs: &[PortValue]) -> u64 {
    let checks = [
        (7, fields.kind == CUSTOM),
        (8, fields.kind >= NO_KIND),
        (9, fields.kind == 0 || !fields.obey_the_table()),
        (2, too_few(fields, inputs, outputs)),
        (19, misfits(fields, inputs, outputs)),
    ];
    let first = checks.iter().find(|(_, fails)| *fails);
    first.map_or(0, |(number, _)| *number)
}

/// Check 2: fewer values than its ports.
fn too_few(fields: &Fields, inputs: &[PortValue], outputs: &[PortValue]) -> bool {
    (inputs.len() as u64) < fields.inputs || (outputs.len() as u64) < fields.outputs
}

/// Check 19, of the component's own ports: values past them are not looked at.
fn misfits(fields: &Fields, inputs: &[PortValue], outputs: &[PortValue]) -> bool {
    let own_inputs = inputs.iter().take(fields.inputs as usize);
    let own_outputs = outputs.iter().take(fields.outputs as usize);
    own_inputs.clone().any(|value| misfit(value, fields.input_width()))
        || own_outputs.clone().any(|value| misfit(value, fields.output_width()))
}

/// Another width, or not below 2^width.
fn misfit(value: &PortValue, width: u64) -> bool {
    value.width != width || !fits(value.number, width)
}

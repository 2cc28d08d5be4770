//! Between component fields and logix's primitives. logix has the kinds 1 to 13.

use crate::command::Single;
use crate::plain::kinds::Fields;
use crate::plain::single::PortValue;
use logix::primitives::primitive::{Primitive, PrimitiveComponent};
use logix::Data;

/// Whether logix has the kind.
pub fn in_logix(fields: &Fields) -> bool {
    (1..=13).contains(&fields.kind)
}

/// logix's primitive for fields that obey the table of kinds, of a kind that it has.
pub fn primitive(fields: &Fields) -> Primitive {
    let bits = fields.parameter as usize;
    match fields.kind {
        1 => Primitive::AndGate,
        2 => Primitive::OrGate,
        3 => Primitive::NotGate,
        4 => Primitive::NandGate,
        5 => Primitive::NorGate,
        6 => Primitive::XorGate,
        7 => Primitive::Switch,
        8 => Primitive::Input { bits },
        9 => Primitive::Output { bits },
        10 => Primitive::Splitter { bits },
        11 => Primitive::Joiner { bits },
        12 => Primitive::Clock { period: fields.parameter as u128 },
        13 => Primitive::Const { value: Data::new(bits, fields.width as usize) },
        kind => unreachable!("logix has no kind {kind}"),
    }
}

/// Kind, C and parameter of logix's primitive.
pub fn kind_words(primitive: &Primitive) -> (u64, u64, u64) {
    match primitive {
        Primitive::AndGate => (1, 0, 0),
        Primitive::OrGate => (2, 0, 0),
        Primitive::NotGate => (3, 0, 0),
        Primitive::NandGate => (4, 0, 0),
        Primitive::NorGate => (5, 0, 0),
        Primitive::XorGate => (6, 0, 0),
        Primitive::Switch => (7, 0, 0),
        Primitive::Input { bits } => (8, 0, *bits as u64),
        Primitive::Output { bits } => (9, 0, *bits as u64),
        Primitive::Splitter { bits } => (10, 0, *bits as u64),
        Primitive::Joiner { bits } => (11, 0, *bits as u64),
        Primitive::Clock { period } => (12, 0, *period as u64),
        Primitive::Const { value } => (13, value.bits as u64, value.value as u64),
        Primitive::Custom { .. } => unreachable!("no Custom component exists"),
    }
}

/// The outputs of a component whose fields and values were found right, of a kind that logix has,
/// and its bits.
pub fn evaluated(single: &Single) -> (Vec<u64>, u64) {
    let mut component = PrimitiveComponent {
        id: 0,
        name: String::new(),
        prim_type: primitive(&single.fields),
        inputs: own_values(&single.inputs, single.fields.inputs),
        outputs: own_values(&single.outputs, single.fields.outputs),
    };
    let before = component.outputs.clone();
    component.update(single.time as u128);
    let bits = bits_between(&before, &component.outputs);
    (component.outputs.iter().map(|data| data.value as u64).collect(), bits)
}

/// Bit i is set where output i is another value after an update than before.
pub fn bits_between(before: &[Data], after: &[Data]) -> u64 {
    assert_eq!(before.len(), after.len(), "an update keeps the outputs' number");
    let changed = (0..before.len()).filter(|port| before[*port] != after[*port]);
    changed.fold(0, |bits, port| bits | 1 << port)
}

/// The values of the component's own ports.
fn own_values(values: &[PortValue], ports: u64) -> Vec<Data> {
    let own = &values[..ports as usize];
    own.iter().map(|value| Data::new(value.number as usize, value.width as usize)).collect()
}

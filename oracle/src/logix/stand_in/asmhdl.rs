//! Stand-in for the crate asmhdl, which is not part of the source text.
//!
//! `Data` is written from the specification: "A port's value is a number with its
//! width, 1 to 64 bits, and lies below 2^width. Bit 0 is the lowest;
//! complement flips exactly the width's bits."

use std::collections::HashMap;
use std::convert::Infallible;
use std::ops::Not;

/// A number of 64 bits must find room in `usize`.
const _: () = assert!(usize::BITS == 64, "logix keeps its numbers in usize");

/// A port's value. Two values are equal when number and width are.
#[derive(Debug, Clone, Copy, PartialEq, Eq)]
pub struct Data {
    pub value: usize,
    pub bits: usize,
}

impl Data {
    /// A value of `bits` bits. What lies above the width is cut off.
    pub fn new(value: usize, bits: usize) -> Data {
        assert!((1..=64).contains(&bits), "a width is 1 to 64 bits");
        Data { value: value & mask(bits), bits }
    }

    /// The one-bit value 0.
    pub fn low() -> Data {
        Data::new(0, 1)
    }

    /// The level of a one-bit value.
    pub fn as_bool(&self) -> bool {
        self.value != 0
    }

    /// Whether bit `index` is set.
    pub fn get_bit(&self, index: usize) -> bool {
        index < self.bits && (self.value >> index) & 1 == 1
    }

    /// Becomes 1 or 0; the width stays.
    pub fn set_from_bool(&mut self, level: bool) {
        self.set_value(level as usize);
    }

    /// Takes another number; the width stays.
    pub fn set_value(&mut self, value: usize) {
        *self = Data::new(value, self.bits);
    }
}

impl Not for Data {
    type Output = Data;

    fn not(self) -> Data {
        Data::new(!self.value, self.bits)
    }
}

/// The number whose lowest `bits` bits are set, 1 to 64 of them.
fn mask(bits: usize) -> usize {
    usize::MAX >> (64 - bits)
}

/// When a `Custom` component is updated.
#[derive(Debug, Clone)]
pub enum AsmProgramUpdateType {
    Always,
    InputChanges,
}

/// A `Custom` component's text. `Custom` is left behind: no value exists.
#[derive(Debug, Clone)]
pub struct AsmComponent {
    pub inputs: Vec<(String, usize)>,
    pub outputs: Vec<(String, usize)>,
    pub update_type: AsmProgramUpdateType,
    _none: Infallible,
}

/// A `Custom` component's state. `Custom` is left behind: no value exists.
#[derive(Debug, Clone)]
pub struct AsmProgramState {
    pub vars: HashMap<String, Data>,
    _none: Infallible,
}

impl AsmProgramState {
    pub fn run(&mut self, _time: u128) {}
}

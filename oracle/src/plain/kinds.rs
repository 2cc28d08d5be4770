//! The table of kinds (the specification, "The drawing file"), and widths of ports.

/// The greatest period of a Clock.
pub const PERIOD_MAX: u64 = 1 << 62;
/// The greatest width of a port.
pub const WIDTH_MAX: u64 = 64;
/// "component kind 14, kept for `Custom`".
pub const CUSTOM: u64 = 14;
/// "8 now starts at kind 16".
pub const NO_KIND: u64 = 16;
/// The most ports that a gate or a composite has on one side.
pub const PORTS_MAX: u64 = 64;

/// The fields of a component that the table of kinds speaks of, as whole words.
#[derive(Clone, Copy, Debug, PartialEq)]
pub struct Fields {
    pub kind: u64,
    pub inputs: u64,
    pub outputs: u64,
    /// The field C: a Const's width.
    pub width: u64,
    pub parameter: u64,
}

impl Fields {
    /// "Inputs / outputs" and "C, parameter": whether this component obeys its row.
    pub fn obey_the_table(&self) -> bool {
        match self.kind {
            0 => self.ports_up_to_64() && self.outputs <= PORTS_MAX && self.bare(),
            1 | 2 | 4 | 5 => self.ports_up_to_64() && self.outputs == 1 && self.bare(),
            3 => self.ports(1, 1) && self.bare(),
            6 => self.inputs >= 1 && self.ports_up_to_64() && self.outputs == 1 && self.bare(),
            7 => self.ports(0, 1) && self.bare(),
            8 | 9 => self.ports(1, 1) && self.has_bits(),
            10 => self.ports(1, self.parameter) && self.has_bits(),
            11 => self.ports(self.parameter, 1) && self.has_bits(),
            12 => self.ports(0, 1) && self.has_period(),
            13 => self.ports(0, 1) && self.has_const_value(),
            15 => self.inputs >= 1 && self.ports_up_to_64() && self.outputs == 1 && self.bare(),
            _ => false,
        }
    }

    /// Of kinds 1 to 13, or 15.
    pub fn is_primitive(&self) -> bool {
        (1..NO_KIND).contains(&self.kind) && self.kind != CUSTOM
    }

    /// Of a kind that has bits: an Input, an Output, a Splitter, a Joiner or a Const.
    pub fn is_of_bits(&self) -> bool {
        matches!(self.kind, 8..=11 | 13)
    }

    fn ports(&self, inputs: u64, outputs: u64) -> bool {
        self.inputs == inputs && self.outputs == outputs
    }

    fn ports_up_to_64(&self) -> bool {
        self.inputs <= PORTS_MAX
    }

    /// C and parameter are both 0.
    fn bare(&self) -> bool {
        self.width == 0 && self.parameter == 0
    }

    /// C is 0, the parameter is `bits`.
    fn has_bits(&self) -> bool {
        self.width == 0 && (1..=WIDTH_MAX).contains(&self.parameter)
    }

    /// C is 0, the parameter is a period.
    fn has_period(&self) -> bool {
        self.width == 0 && (1..=PERIOD_MAX).contains(&self.parameter)
    }

    /// C is a width, the parameter a value below 2^width.
    fn has_const_value(&self) -> bool {
        (1..=WIDTH_MAX).contains(&self.width) && fits(self.parameter, self.width)
    }

    /// "Both ports of 8 and 9, the Splitter's input .. have `bits` bits".
    pub fn input_width(&self) -> u64 {
        match self.kind {
            8..=10 => self.parameter,
            _ => 1,
        }
    }

    /// ".. and the Joiner's output have `bits` bits, a Const's output its width".
    pub fn output_width(&self) -> u64 {
        match self.kind {
            8 | 9 | 11 => self.parameter,
            13 => self.width,
            _ => 1,
        }
    }
}

/// Whether the number lies below 2^width.
pub fn fits(number: u64, width: u64) -> bool {
    width >= 64 || number >> width == 0
}

/// The greatest number of a width, which is 1 to 64.
pub fn greatest(width: u64) -> u64 {
    u64::MAX >> (64 - width)
}

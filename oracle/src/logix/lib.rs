//! The four files of logix, patched, and stand-ins for what they import.
//!
//! Every changed line in the four files is marked; `check-patches` turns the
//! marks back and compares with `original/`. What the files import from other
//! crates is found at this crate's root, under the names below, so that their
//! `use` lines stay as they were.

extern crate self as asmhdl;
extern crate self as log;
extern crate self as logix_core;
extern crate self as serde;

mod stand_in {
    pub mod asmhdl;
    pub mod errors;
}

/// asmhdl: `Data`, and the types of `Custom`, of which no value exists.
pub use stand_in::asmhdl::{AsmComponent, AsmProgramState, AsmProgramUpdateType, Data};

/// The error types that `flatten` names.
pub use stand_in::errors;

/// serde's two names; nothing is saved here.
pub trait Serialize {}
pub trait Deserialize {}
impl<T> Serialize for T {}

/// log's macro; nothing is logged here.
#[macro_export]
macro_rules! debug {
    ($($words:tt)*) => {};
}

/// What `logix_core::prelude` hands on.
pub mod prelude {
    pub use crate::component::*;
}

#[allow(dead_code, unused_imports)]
#[rustfmt::skip]
pub mod component;

#[allow(dead_code, unused_imports)]
#[rustfmt::skip]
pub mod primitive;

/// The path under which `flatten` and `simulator` look for `primitive`.
pub mod primitives {
    pub use crate::primitive;

    pub mod prelude {
        pub use crate::primitive::*;
    }
}

#[allow(dead_code, unused_imports, unused_mut, unused_variables)]
#[rustfmt::skip]
pub mod flatten;

/// flatten.rs as it came, with its call of `fix_inputs_data_addrs`: the tests say where
/// what it shows is another.
#[allow(dead_code, unused_imports, unused_mut, unused_variables)]
#[rustfmt::skip]
#[path = "../../original/flatten.rs"]
pub mod original_flatten;

#[allow(dead_code, unused_imports, unused_mut, unused_variables, unused_assignments)]
#[rustfmt::skip]
pub mod simulator;

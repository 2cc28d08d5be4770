//! A plain second coding of the specification, written from its text alone.
//!
//! The numbers given back are total: any bytes, any tables and any counts get an
//! answer. `rules`, `flat`, `running` and `slow` do what logix does, on what no check refuses;
//! where logix has a component's kind, the program holds the two against each other.

pub mod calls;
pub mod chains;
pub mod drawing;
pub mod flat;
pub mod host;
pub mod judge;
pub mod kinds;
pub mod look;
pub mod mend;
pub mod net;
pub mod rules;
pub mod running;
pub mod single;
pub mod slow;

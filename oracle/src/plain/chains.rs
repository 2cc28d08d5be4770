//! Chains of wires: "let D be the most primitives on any chain of wires", of drawings "whose wires
//! form no cycle".

use super::running::wires;
use crate::tables::{Tables, COMPONENTS};

/// "calm .. after max(D, 2) rounds"
pub const ROUNDS_LEAST: u64 = 2;

/// D of tables that are a net; none where the wires form a cycle.
pub fn longest_chain(tables: &Tables) -> Option<u64> {
    let ends: Vec<(usize, usize)> =
        wires(tables).iter().map(|wire| (wire[0] as usize, wire[2] as usize)).collect();
    longest(tables.counts[COMPONENTS] as usize, &ends)
}

/// The most components on a chain, of so many components and of wires by the two that each joins.
/// A look at all wires makes chains longer by a component at least, as long as one can be made
/// longer: where that does not end with the components, the wires form a cycle.
fn longest(components: usize, wires: &[(usize, usize)]) -> Option<u64> {
    let mut ending_at = vec![1; components];
    for _ in 0..=components {
        let before = ending_at.clone();
        for (from, to) in wires {
            ending_at[*to] = ending_at[*to].max(ending_at[*from] + 1);
        }
        if ending_at == before {
            return Some(ending_at.into_iter().max().unwrap_or(0));
        }
    }
    None
}

/// After how many rounds without an edit a drawing of that D, without Clocks, is calm.
pub fn rounds_until_calm(longest: u64) -> u64 {
    longest.max(ROUNDS_LEAST)
}

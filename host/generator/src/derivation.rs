//! Derivations in prefix form.

use crate::term::Term;

/// The most levels of a derivation.
pub const MAX_DEPTH: u32 = 32;

/// The most nodes of an argument.
pub const MAX_NODES: usize = 31;

/// A derivation's bytes and its levels.
#[derive(Clone, Debug, PartialEq, Eq)]
pub struct Derivation {
    /// The bytes.
    pub bytes: Vec<u8>,
    /// How many levels there are.
    pub depth: u32,
}

/// A rule without an argument.
pub fn rule(number: u8, premises: &[&Derivation]) -> Derivation {
    with_bytes(vec![number], premises)
}

/// Rule 0.
pub fn assumption(index: usize) -> Derivation {
    let [low, high] = (index as u16).to_le_bytes();
    with_bytes(vec![0, low, high], &[])
}

/// Rule 22 or 23.
pub fn region(number: u8, region: u8, premises: &[&Derivation]) -> Derivation {
    with_bytes(vec![number, region], premises)
}

/// A rule with the argument m; nothing if m has too many nodes.
pub fn by_way_of(number: u8, m: &Term, premises: &[&Derivation]) -> Option<Derivation> {
    if m.size() > MAX_NODES {
        return None;
    }
    let mut bytes = vec![number];
    m.encode(&mut bytes);
    Some(with_bytes(bytes, premises))
}

fn with_bytes(mut bytes: Vec<u8>, premises: &[&Derivation]) -> Derivation {
    for premise in premises {
        bytes.extend(&premise.bytes);
    }
    let depth = premises.iter().map(|premise| premise.depth).max().unwrap_or(0) + 1;
    Derivation { bytes, depth }
}

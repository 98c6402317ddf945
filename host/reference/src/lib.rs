//! The loader of document 01, with S-1 to S-5 of document 02, in plain Rust.
//!
//! [`check`] judges a policy and a package, [`run`] executes a package on the machine and
//! [`find_proof`] finds a package's proof section. The crate is written from these documents
//! and shares nothing with the proved library, so that the two can be compared.

#![forbid(unsafe_code)]
#![warn(missing_docs)]

mod derivation;
mod evaluation;
mod expression;
mod machine;
mod package;
mod policy;
mod reader;
mod term;

use package::Layout;

/// Words of workspace that [`check`] asks for.
pub const WORKSPACE_WORDS: usize = 16_384;

/// The checker's answer.
#[derive(Clone, Copy, Debug, PartialEq, Eq)]
pub struct Verdict {
    /// 0 for accepted, else the number of the check that refuses.
    pub number: u32,
    /// Where: a byte, an index or a region, as the number has it.
    pub place: usize,
    /// The goals fully derived by then.
    pub goals: usize,
}

/// The runner's answer.
#[derive(Clone, Copy, Debug, PartialEq, Eq)]
pub struct Outcome {
    /// 0 for returned, 20 to 22 for a run that ended otherwise, else the check that refuses.
    pub number: u32,
    /// The counter after a run, else the place of the refusal.
    pub place: usize,
    /// The steps run.
    pub steps: u32,
}

/// The finder's answer: a part of the package, and why it is empty if check 7 refuses.
#[derive(Clone, Copy, Debug, PartialEq, Eq)]
pub struct Finding {
    /// 0, or 7 if the header or the length is wrong.
    pub number: u32,
    /// The place of the refusal, 0 if there is none.
    pub place: usize,
    /// Where the proof section starts, 0 after a refusal.
    pub start: usize,
    /// How many bytes it has.
    pub length: usize,
}

/// A check that refuses.
#[derive(Clone, Copy, Debug, PartialEq, Eq)]
struct Refusal {
    number: u32,
    place: usize,
}

impl Refusal {
    fn new(number: u32, place: usize) -> Self {
        Refusal { number, place }
    }
}

/// Judges `package` under `policy`.
///
/// A workspace of fewer than [`WORKSPACE_WORDS`] words is refused and left as it was; any other
/// is left all zero.
pub fn check(workspace: &mut [u32], policy: &[u8], package: &[u8]) -> Verdict {
    if workspace.len() < WORKSPACE_WORDS {
        return Verdict { number: 1, place: 0, goals: 0 };
    }
    workspace.fill(0);
    let mut goals = 0;
    match evaluation::judge(policy, package, &mut goals) {
        Ok(()) => Verdict { number: 0, place: 0, goals },
        Err(Refusal { number, place }) => Verdict { number, place, goals },
    }
}

/// Runs `package` for at most `budget` steps, from the registers and the memory given.
///
/// They hold the machine's state afterwards, and are left as they were if a check refuses.
pub fn run(
    policy: &[u8],
    package: &[u8],
    registers: &mut [u32],
    memory: &mut [u32],
    budget: u32,
) -> Outcome {
    match machine::prepare(policy, package, registers, memory) {
        Ok(machine) => machine.run(budget),
        Err(Refusal { number, place }) => Outcome { number, place, steps: 0 },
    }
}

/// Finds the proof section of a package that passes check 7.
pub fn find_proof(package: &[u8]) -> Finding {
    match Layout::read(package) {
        Ok(layout) => Finding {
            number: 0,
            place: 0,
            start: layout.proof,
            length: package.len() - layout.proof,
        },
        Err(Refusal { number, place }) => Finding { number, place, start: 0, length: 0 },
    }
}

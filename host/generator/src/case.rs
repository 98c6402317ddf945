//! Cases: inputs for checker, finder and runner, one after the other without end.

use std::collections::VecDeque;

use crate::assemble::{package, Instruction, Policy};
use crate::damage::{damaged_package, damaged_policy, every_change, every_repaired_change};
use crate::damage::{redirected, reordered};
use crate::hostile::hostile_cases;
use crate::paths::{path_case, path_cases};
use crate::random::Random;
use crate::regions::table_case;
use crate::routine::{long_sample, sample};
use crate::shapes::shape_case;
use crate::term::{Comparison, Term};
use crate::worst::worst_cases;

/// A start of the runner.
#[derive(Clone, Debug)]
pub struct Start {
    /// The registers, 16 words if they are to be taken.
    pub registers: Vec<u32>,
    /// The memory, as many words as the policy says if it is to be taken.
    pub memory: Vec<u32>,
    /// The budget.
    pub budget: u32,
}

/// One case.
#[derive(Clone, Debug)]
pub struct Case {
    /// What it is.
    pub name: String,
    /// The policy.
    pub policy: Vec<u8>,
    /// The package.
    pub package: Vec<u8>,
    /// Words of workspace for the checker.
    pub workspace: usize,
    /// Starts of the runner.
    pub starts: Vec<Start>,
}

/// How many steps a run takes at most while its exact length is sought.
const LONG: u32 = 20_000;

/// Samples whose package is at most this long are damaged in every place.
const SHORT: usize = 400;

/// All cases of a seed: first the fixed ones (limits and worst cases), then random samples with
/// damage, single rules, and tables. One sample of some is damaged in every place.
#[derive(Debug)]
pub struct Cases {
    random: Random,
    queue: VecDeque<(String, Vec<u8>, Vec<u8>)>,
    samples: usize,
}

impl Cases {
    /// The cases of a seed.
    pub fn new(seed: u64) -> Self {
        let mut queue: VecDeque<_> = hostile_cases().into();
        for limit in path_cases() {
            queue.push_back((limit.name, limit.policy, limit.package));
        }
        for worst in worst_cases() {
            queue.push_back((worst.name.to_string(), worst.policy, worst.package));
        }
        Cases { random: Random::new(seed), queue, samples: 0 }
    }

    /// Puts a random sample and its damage into the queue.
    fn refill(&mut self) {
        let random = &mut self.random;
        self.samples += 1;
        let number = self.samples;
        let segments = match random.below(8) {
            0 => random.below(2),
            1..=4 => 1 + random.below(4),
            5 | 6 => 4 + random.below(8),
            _ => 12 + random.below(12),
        };
        let sample =
            if number.is_multiple_of(8) { long_sample(random) } else { sample(random, segments) };
        let (policy, bytes) = (sample.policy_bytes(), sample.package_bytes());
        let name = |what: &str| format!("sample {number}, {what}");
        self.queue.push_back((name("whole"), policy.clone(), bytes.clone()));
        for _ in 0..20 {
            let damaged = damaged_package(&bytes, random);
            let again = random.chance(1, 5).then(|| damaged_package(&damaged, random));
            self.queue.push_back((
                name("damaged package"),
                policy.clone(),
                again.unwrap_or(damaged),
            ));
        }
        for _ in 0..6 {
            let damaged = damaged_policy(&policy, random);
            self.queue.push_back((name("damaged policy"), damaged, bytes.clone()));
        }
        for _ in 0..3 {
            let reordered = reordered(&sample, random);
            self.queue.push_back((name("derivations in another order"), policy.clone(), reordered));
            let redirected = redirected(&sample, random);
            self.queue.push_back((name("a jump elsewhere"), policy.clone(), redirected));
        }
        self.queue.extend((0..24).map(|_| shape_case(random)));
        self.queue.extend((0..12).map(|_| table_case(random)));
        self.queue.extend((0..12).map(|_| path_case(random)));
        self.queue.push_back((name("noise"), policy.clone(), noise(random)));
        self.queue.push_back((name("code"), policy.clone(), random_code(&sample.policy, random)));
        if bytes.len() <= SHORT && number.is_multiple_of(16) {
            for changed in every_change(&policy) {
                self.queue.push_back((name("changed policy"), changed, bytes.clone()));
            }
            let repaired = every_repaired_change(&bytes);
            for changed in every_change(&bytes).chain(repaired) {
                self.queue.push_back((name("changed package"), policy.clone(), changed));
            }
        }
    }
}

impl Iterator for Cases {
    type Item = Case;

    fn next(&mut self) -> Option<Case> {
        while self.queue.is_empty() {
            self.refill();
        }
        let (name, policy, package) = self.queue.pop_front()?;
        let workspace = match self.random.below(64) {
            0 => self.random.below(reference::WORKSPACE_WORDS),
            1 => reference::WORKSPACE_WORDS - 1,
            2 => reference::WORKSPACE_WORDS + self.random.below(100),
            _ => reference::WORKSPACE_WORDS,
        };
        let starts = starts(&policy, &package, &mut self.random);
        Some(Case { name, policy, package, workspace, starts })
    }
}

/// Random bytes, some with the header of a package.
fn noise(random: &mut Random) -> Vec<u8> {
    let length = random.below(200);
    let bytes: Vec<u8> = (0..length).map(|_| random.byte() % 30).collect();
    if random.chance(1, 2) {
        return bytes;
    }
    package(&[Instruction::Return], 0, &[], &bytes)
}

/// Random instructions, most of whose jumps are forward: the runner takes them, the checker seldom.
fn random_code(policy: &Policy, random: &mut Random) -> Vec<u8> {
    let count = 1 + random.below(20);
    let code: Vec<Instruction> = (0..count)
        .map(|index| {
            let [d, a, b] = std::array::from_fn(|_| random.below(4) as u8);
            let i = match random.below(3) {
                0 => random.word(),
                _ => random.below(policy.memory as usize + 1) as u32,
            };
            let target = match random.below(3) {
                0 => random.below(count) as u32,
                _ => (index + 1 + random.below(count - index)).min(count - 1) as u32,
            };
            match random.below(14) {
                0 | 1 => Instruction::Constant { d, i },
                2 => Instruction::Add { d, a, b },
                3 => Instruction::AddConstant { d, a, i },
                4 => Instruction::Subtract { d, a, b },
                5 | 6 => Instruction::Load { d, a, i },
                7 | 8 => Instruction::Store { d, a, i },
                9 => Instruction::Jump { target },
                10 => Instruction::JumpIfLess { a, b, target },
                11 => Instruction::Mask { d, a, i },
                12 => Instruction::Shift { d, a, i: random.below(32) as u32 },
                _ if random.chance(1, 3) => Instruction::Return,
                _ => Instruction::JumpIfEqual { a, b, target },
            }
        })
        .collect();
    let proof = vec![3; random.below(40)];
    package(&code, 0, &[], &proof)
}

/// Starts of a run: with sizes that fit and some that do not, and with budgets of 0, 1, the exact
/// number of steps, one less, one more, and many.
fn starts(policy: &[u8], package: &[u8], random: &mut Random) -> Vec<Start> {
    let memory_words = match policy.get(4..8) {
        Some(&[a, b, c, d]) => u32::from_le_bytes([a, b, c, d]).min(16_384) as usize,
        _ => 1,
    };
    let mut registers: Vec<u32> = (0..16).map(|_| random.word()).collect();
    if random.chance(3, 4) {
        meet_precondition(policy, &mut registers);
    }
    let mut memory: Vec<u32> = (0..memory_words.min(200)).map(|_| random.word()).collect();
    memory.resize(memory_words, 0x0123_4567);
    match random.below(40) {
        0 => registers.truncate(random.below(16)),
        1 => registers.push(0),
        2 => memory.push(0),
        3 => memory.truncate(memory.len().saturating_sub(1)),
        4 => memory.clear(),
        _ => {}
    }
    let outcome =
        reference::run(policy, package, &mut registers.clone(), &mut memory.clone(), LONG);
    let mut budgets = vec![random.below(6) as u32, outcome.steps];
    budgets.push(outcome.steps.saturating_sub(1));
    budgets.push(outcome.steps + 1 + random.below(100) as u32);
    if outcome.number != 20 {
        budgets.push(u32::MAX);
        budgets.push(random.below(outcome.steps as usize + 1) as u32);
    }
    budgets.sort_unstable();
    budgets.dedup();
    if memory_words > 1_000 || random.chance(3, 4) {
        random.shuffle(&mut budgets);
        budgets.truncate(2);
    }
    budgets
        .into_iter()
        .map(|budget| Start { registers: registers.clone(), memory: memory.clone(), budget })
        .collect()
}

/// Sets registers so that atoms of the precondition with one register on the left are true, as far
/// as they can be read.
fn meet_precondition(policy: &[u8], registers: &mut [u32]) {
    let Some(&[regions, atoms, ..]) = policy.first_chunk::<4>() else { return };
    let mut rest = policy.get(12 + 8 * usize::from(regions)..).unwrap_or_default();
    for _ in 0..atoms {
        let Some((&tag, after)) = rest.split_first() else { return };
        let Some((left, after)) = read_term(after, 32) else { return };
        let Some((right, after)) = read_term(after, 32) else { return };
        rest = after;
        let value = right.value_over(registers);
        let comparison =
            [Comparison::Equal, Comparison::Unequal, Comparison::Less, Comparison::AtMost];
        if let (Term::Variable(number), Some(comparison)) =
            (&left, comparison.get(usize::from(tag)))
        {
            let Some(register) = registers.get_mut(usize::from(*number)) else { return };
            match comparison {
                Comparison::Equal => *register = value,
                Comparison::Unequal => *register = value.wrapping_add(1),
                Comparison::Less => *register = (*register).min(value.saturating_sub(1)),
                Comparison::AtMost => *register = (*register).min(value),
            }
        }
    }
}

fn read_term(bytes: &[u8], depth: u32) -> Option<(Term, &[u8])> {
    let (&tag, rest) = bytes.split_first()?;
    match tag {
        0 => {
            let (value, rest) = rest.split_first_chunk()?;
            Some((Term::Constant(u32::from_le_bytes(*value)), rest))
        }
        1 => {
            let (number, rest) = rest.split_first_chunk()?;
            Some((Term::Variable(u16::from_le_bytes(*number)), rest))
        }
        2..=4 => {
            let (left, rest) = read_term(rest, depth.checked_sub(1)?)?;
            let (right, rest) = read_term(rest, depth - 1)?;
            let pair = [Term::Sum, Term::Difference, Term::Mask][usize::from(tag) - 2];
            Some((pair(left.into(), right.into()), rest))
        }
        5 => {
            let (&count, rest) = rest.split_first()?;
            let (part, rest) = read_term(rest, depth.checked_sub(1)?)?;
            (count < 32).then(|| (Term::Shift(count, part.into()), rest))
        }
        _ => None,
    }
}

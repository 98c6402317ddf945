//! Policies, routines and packages, and their bytes.

use std::rc::Rc;

use crate::term::{Atom, Term};

/// The right to load.
pub const READ: u32 = 1;
/// The right to store.
pub const WRITE: u32 = 2;

/// A part of the memory with its rights.
#[derive(Clone, Copy, Debug)]
pub struct Region {
    /// The first word.
    pub base: u32,
    /// How many words there are.
    pub length: u32,
    /// [`READ`], [`WRITE`] or both.
    pub rights: u32,
}

impl Region {
    /// Whether a word is in the region.
    pub fn contains(&self, address: u32) -> bool {
        (self.base..self.base + self.length).contains(&address)
    }

    /// Whether rule 22 (for the right to load) or 23 (to store) may name the region: it has the
    /// right and, to store, shares no word with one of the policy's regions that lacks it.
    pub fn fits(&self, right: u32, regions: &[Region]) -> bool {
        let shares = |other: &Region| {
            self.base < other.base + other.length && other.base < self.base + self.length
        };
        let lacks = |region: &Region| region.rights & right == 0;
        !lacks(self)
            && (right == READ || !regions.iter().any(|other| lacks(other) && shares(other)))
    }
}

/// A policy.
#[derive(Clone, Debug)]
pub struct Policy {
    /// Words of memory.
    pub memory: u32,
    /// The step limit.
    pub limit: u32,
    /// The regions.
    pub regions: Vec<Region>,
    /// What holds of the registers at the start.
    pub precondition: Vec<Atom>,
    /// What is to hold of them at the return.
    pub postcondition: Vec<Atom>,
}

impl Policy {
    /// The policy's bytes.
    pub fn encode(&self) -> Vec<u8> {
        let counts = [self.regions.len(), self.precondition.len(), self.postcondition.len(), 0];
        let mut bytes: Vec<u8> = counts.iter().map(|&count| count as u8).collect();
        bytes.extend(self.memory.to_le_bytes());
        bytes.extend(self.limit.to_le_bytes());
        for region in &self.regions {
            bytes.extend(region.base.to_le_bytes());
        }
        for region in &self.regions {
            bytes.extend((4 * region.length + region.rights).to_le_bytes());
        }
        for atom in self.precondition.iter().chain(&self.postcondition) {
            atom.encode(&mut bytes);
        }
        bytes
    }
}

/// An instruction. Registers are numbered 0 to 15.
#[derive(Clone, Copy, Debug, PartialEq, Eq)]
#[allow(missing_docs)]
pub enum Instruction {
    Constant { d: u8, i: u32 },
    Add { d: u8, a: u8, b: u8 },
    AddConstant { d: u8, a: u8, i: u32 },
    Subtract { d: u8, a: u8, b: u8 },
    Load { d: u8, a: u8, i: u32 },
    Store { d: u8, a: u8, i: u32 },
    Jump { target: u32 },
    JumpIfLess { a: u8, b: u8, target: u32 },
    JumpIfEqual { a: u8, b: u8, target: u32 },
    Return,
    Mask { d: u8, a: u8, i: u32 },
    Shift { d: u8, a: u8, i: u32 },
}

impl Instruction {
    /// The operation word and the immediate word.
    pub fn encode(self) -> ([u8; 4], u32) {
        match self {
            Instruction::Constant { d, i } => ([0, d, 0, 0], i),
            Instruction::Add { d, a, b } => ([1, d, a, b], 0),
            Instruction::AddConstant { d, a, i } => ([2, d, a, 0], i),
            Instruction::Subtract { d, a, b } => ([3, d, a, b], 0),
            Instruction::Load { d, a, i } => ([4, d, a, 0], i),
            Instruction::Store { d, a, i } => ([5, d, a, 0], i),
            Instruction::Jump { target } => ([6, 0, 0, 0], target),
            Instruction::JumpIfLess { a, b, target } => ([7, 0, a, b], target),
            Instruction::JumpIfEqual { a, b, target } => ([8, 0, a, b], target),
            Instruction::Return => ([9, 0, 0, 0], 0),
            Instruction::Mask { d, a, i } => ([10, d, a, 0], i),
            Instruction::Shift { d, a, i } => ([11, d, a, 0], i),
        }
    }

    /// Where a jump leads to.
    pub fn target_mut(&mut self) -> Option<&mut u32> {
        match self {
            Instruction::Jump { target }
            | Instruction::JumpIfLess { target, .. }
            | Instruction::JumpIfEqual { target, .. } => Some(target),
            _ => None,
        }
    }
}

/// An annotation.
#[derive(Clone, Debug)]
pub struct Annotation {
    /// The index of its instruction.
    pub index: usize,
    /// The steps that are left there, at most.
    pub credit: Rc<Term>,
    /// What holds there.
    pub atoms: Vec<Atom>,
}

/// Code with annotations.
#[derive(Clone, Debug, Default)]
pub struct Routine {
    /// The instructions.
    pub code: Vec<Instruction>,
    /// The annotations, by rising index.
    pub annotations: Vec<Annotation>,
}

impl Routine {
    /// The bytes of a package of the routine with a proof.
    pub fn encode(&self, proof: &[u8]) -> Vec<u8> {
        let mut section = Vec::new();
        for annotation in &self.annotations {
            section.extend((annotation.index as u16).to_le_bytes());
            section.push(annotation.atoms.len() as u8);
            annotation.credit.encode(&mut section);
            for atom in &annotation.atoms {
                atom.encode(&mut section);
            }
        }
        package(&self.code, self.annotations.len(), &section, proof)
    }
}

/// A package of parts that need not fit.
pub fn package(code: &[Instruction], annotations: usize, section: &[u8], proof: &[u8]) -> Vec<u8> {
    let mut bytes = Vec::with_capacity(12 + 8 * code.len() + section.len() + proof.len());
    bytes.extend((code.len() as u16).to_le_bytes());
    bytes.extend((annotations as u16).to_le_bytes());
    bytes.extend((section.len() as u32).to_le_bytes());
    bytes.extend((proof.len() as u32).to_le_bytes());
    for instruction in code {
        bytes.extend(instruction.encode().0);
    }
    for instruction in code {
        bytes.extend(instruction.encode().1.to_le_bytes());
    }
    bytes.extend(section);
    bytes.extend(proof);
    bytes
}

//! Decisions whose ways join with an annotation or without, unreached parts, exits.

use crate::assemble::{Instruction, Routine};
use crate::random::Random;
use crate::term::Atom;

use super::{register, Builder, Way};

impl Builder<'_> {
    /// Whether the next join has no annotation.
    pub(super) fn joins_freely(&mut self) -> bool {
        self.kind.joins && self.paths <= self.most_paths && self.random.chance(3, 4)
    }

    /// Goes on from where another way parted.
    pub(super) fn take(&mut self, way: Way) {
        self.facts = way.facts;
        self.ranges = way.ranges;
        self.spent = way.spent;
        self.paths = way.paths;
    }

    pub(super) fn decision(&mut self, depth: u32) {
        match self.random.below(12) {
            0..=4 => self.either(depth),
            5..=7 => self.smaller(),
            8 => self.hop(),
            9 => self.both_to_the_next(),
            10 if self.exits.len() < 2 => self.exit(),
            _ => self.early_return(),
        }
    }

    /// One of two parts is run.
    fn either(&mut self, depth: u32) {
        let jump = self.branch();
        let other = self.way();
        self.part(depth);
        let returns = self.random.chance(1, 6);
        let over = self.code.len();
        self.emit(if returns { Instruction::Return } else { Instruction::Jump { target: 0 } });
        let first = self.way();
        self.take(other);
        self.aim(jump, self.code.len());
        self.part(depth);
        if !returns {
            self.join(over, &first);
        }
    }

    /// One way of a decision.
    fn part(&mut self, depth: u32) {
        for _ in 0..self.random.within(0..=2) {
            match self.random.below(10) {
                0..=3 => self.access(),
                4..=6 => self.arithmetic(),
                7 if depth > 0 && self.has_room() => self.segment(depth - 1),
                8 if self.has_room() => self.decision(depth),
                _ => self.access(),
            }
        }
    }

    /// A register becomes the smaller of two others.
    fn smaller(&mut self) {
        let Some(d) = self.free_register() else { return };
        let (a, b) = (self.any_register(), self.any_register());
        if d == a || d == b {
            return;
        }
        self.emit(Instruction::AddConstant { d, a, i: 0 });
        let jump = self.code.len();
        self.emit(Instruction::JumpIfLess { a, b, target: 0 });
        let below = [a, b].map(|other| Atom::at_most(&register(d), &register(other)));
        let mut way = self.way();
        way.facts.extend_from_slice(&below);
        self.emit(Instruction::AddConstant { d, a: b, i: 0 });
        self.facts.extend(below);
        self.join(jump, &way);
    }

    /// An unconditional jump over instructions that no path reaches.
    fn hop(&mut self) {
        let jump = self.code.len();
        self.emit(Instruction::Jump { target: 0 });
        for _ in 0..self.random.below(3) {
            let target = self.code.len() as u32 + 1;
            let [d, a] = [self.any_register(), self.any_register()];
            let i = self.random.word();
            let unreached = [
                Instruction::Jump { target },
                Instruction::JumpIfEqual { a, b: d, target },
                Instruction::Load { d, a, i },
                Instruction::Add { d, a, b: a },
                Instruction::Return,
            ];
            self.code.push(*self.random.pick(&unreached));
        }
        self.aim(jump, self.code.len());
    }

    /// A branch to the next index: what follows is evaluated for both edges.
    fn both_to_the_next(&mut self) {
        let jump = self.branch();
        let way = self.way();
        self.join(jump, &way);
    }

    /// A branch to the return at the end.
    fn exit(&mut self) {
        let jump = self.branch();
        self.exits.push(jump);
    }
}

/// Aims one or two forward jumps at other higher indices.
pub(super) fn scatter(routine: &mut Routine, random: &mut Random) {
    let count = routine.code.len();
    for _ in 0..=random.below(2) {
        let index = random.below(count);
        let room = count - 1 - index;
        if let Some(target) = routine.code[index].target_mut() {
            if *target as usize > index {
                *target = (index + 1 + random.below(room.min(20))) as u32;
            }
        }
    }
}

//! Symbolic evaluation: the goals of each block in order (checks 13, 14 and 23), and the whole
//! judgement.

use crate::derivation::{Atom, Goal, Prover};
use crate::expression::{Builder, Comparison, Expressions, Formula, Operation};
use crate::package::{read_code, Annotation, Annotations, Instruction, Layout, Register};
use crate::policy::Policy;
use crate::term::{Term, Terms};
use crate::Refusal;

const MAX_REGISTER_NODES: u32 = 255;
const MAX_EVALUATED: u32 = 4_096;

/// Makes checks 3 to 19 and 23 and counts the goals derived.
pub fn judge(policy: &[u8], package: &[u8], goals: &mut usize) -> Result<(), Refusal> {
    let policy = Policy::read(policy)?;
    let layout = Layout::read(package)?;
    let code = read_code(package, &layout)?;
    let annotations = Annotations::read(package, &layout)?;
    annotations.cover(&code)?;

    let mut evaluation = Evaluation {
        policy: &policy,
        code: &code,
        annotations: &annotations,
        prover: Prover::new(policy.regions(), package, layout.proof),
        registers: Terms::registers(),
        evaluated: 0,
        goals,
    };
    evaluation.entry_block()?;
    for annotation in &annotations.list {
        evaluation.annotated_block(annotation)?;
    }
    match evaluation.prover.left() {
        Some(place) => Err(Refusal::new(19, place)),
        None => Ok(()),
    }
}

struct Evaluation<'a> {
    policy: &'a Policy,
    code: &'a [Instruction],
    annotations: &'a Annotations,
    prover: Prover<'a>,
    registers: [Term; 16],
    /// The instructions evaluated in the block, on all its paths.
    evaluated: u32,
    goals: &'a mut usize,
}

impl Evaluation<'_> {
    /// The block at instruction 0.
    fn entry_block(&mut self) -> Result<(), Refusal> {
        let policy = self.policy;
        self.start_block(&policy.expressions, &policy.precondition);
        let credit = self.prover.terms.constant(policy.step_limit);
        match self.annotations.at(0) {
            Some(annotation) => self.arrive(annotation, credit, 0),
            None => self.block(0, credit),
        }
    }

    /// The block at an annotation.
    fn annotated_block(&mut self, annotation: &Annotation) -> Result<(), Refusal> {
        let annotations = self.annotations;
        let atoms = &annotations.atoms[annotation.atoms.clone()];
        self.start_block(&annotations.expressions, atoms);
        let credit = self.instance(annotations.expressions.tokens(annotation.credit));
        self.block(annotation.index, credit)
    }

    fn start_block(&mut self, expressions: &Expressions, assumptions: &[Formula]) {
        self.registers = Terms::registers();
        self.prover.terms.forget(self.registers.len());
        self.prover.variables = self.registers.len() as u16;
        self.prover.assumptions.clear();
        for &formula in assumptions {
            let atom = self.atom(expressions, formula);
            self.prover.assumptions.push(atom);
        }
    }

    /// Evaluates a block: all paths from its start to a return or an annotated index.
    fn block(&mut self, start: usize, credit: Term) -> Result<(), Refusal> {
        self.evaluated = 0;
        self.path(start, credit, 0)
    }

    /// Evaluates from `index` on with `run` instructions run, and the taken edges of branches on
    /// the way.
    fn path(&mut self, mut index: usize, credit: Term, mut run: u32) -> Result<(), Refusal> {
        let (code, annotations) = (self.code, self.annotations);
        loop {
            if run > 0 {
                if let Some(annotation) = annotations.at(index) {
                    return self.arrive(annotation, credit, run);
                }
            }
            let &instruction = code.get(index).ok_or(Refusal::new(13, code.len()))?;
            if self.evaluated == MAX_EVALUATED {
                return Err(Refusal::new(23, index));
            }
            self.evaluated += 1;
            run += 1;
            match instruction {
                Instruction::Jump { target } => {
                    index = target as usize;
                    continue;
                }
                Instruction::JumpIfLess { a, b, target } => {
                    let (a, b) = (self.get(a), self.get(b));
                    let condition = Atom::new(Comparison::Less, a, b);
                    let opposite = Atom::new(Comparison::AtMost, b, a);
                    self.branch(condition, opposite, target, credit, run)?;
                }
                Instruction::JumpIfEqual { a, b, target } => {
                    let (a, b) = (self.get(a), self.get(b));
                    let condition = Atom::new(Comparison::Equal, a, b);
                    let opposite = Atom::new(Comparison::Unequal, a, b);
                    self.branch(condition, opposite, target, credit, run)?;
                }
                Instruction::Return => return self.finish(credit, run),
                other => self.step(other, index)?,
            }
            index += 1;
        }
    }

    /// Evaluates an instruction that goes on to the next.
    fn step(&mut self, instruction: Instruction, index: usize) -> Result<(), Refusal> {
        match instruction {
            Instruction::Constant { d, i } => {
                let term = self.prover.terms.constant(i);
                self.set(d, term);
            }
            Instruction::Add { d, a, b } => {
                let term = self.prover.terms.pair(Operation::Sum, self.get(a), self.get(b));
                self.set_counted(d, term, index)?;
            }
            Instruction::AddConstant { d, a, i } => {
                let term = self.with_constant(Operation::Sum, a, i);
                self.set_counted(d, term, index)?;
            }
            Instruction::Subtract { d, a, b } => {
                let term = self.prover.terms.pair(Operation::Difference, self.get(a), self.get(b));
                self.set_counted(d, term, index)?;
            }
            Instruction::Load { d, a, i } => {
                let address = self.with_constant(Operation::Sum, a, i);
                self.derive(Goal::Readable(address))?;
                let loaded = self.prover.terms.variable(self.prover.variables);
                self.prover.variables += 1;
                self.set(d, loaded);
            }
            Instruction::Store { d: _, a, i } => {
                let address = self.with_constant(Operation::Sum, a, i);
                self.derive(Goal::Writable(address))?;
            }
            Instruction::Mask { d, a, i } => {
                let term = self.with_constant(Operation::Mask, a, i);
                self.set_counted(d, term, index)?;
            }
            Instruction::Shift { d, a, count } => {
                let term = self.prover.terms.shift(count, self.get(a));
                self.set_counted(d, term, index)?;
            }
            _ => unreachable!("jumps and returns do not go on to the next"),
        }
        Ok(())
    }

    fn get(&self, register: Register) -> Term {
        self.registers[usize::from(register)]
    }

    fn set(&mut self, register: Register, term: Term) {
        self.registers[usize::from(register)] = term;
    }

    /// Sets a register unless its term is too large (check 14).
    fn set_counted(&mut self, d: Register, term: Term, index: usize) -> Result<(), Refusal> {
        if self.prover.terms.size(term) > MAX_REGISTER_NODES {
            return Err(Refusal::new(14, index));
        }
        self.set(d, term);
        Ok(())
    }

    /// An operation on a register's term and a constant.
    fn with_constant(&mut self, operation: Operation, a: Register, i: u32) -> Term {
        let constant = self.prover.terms.constant(i);
        self.prover.terms.pair(operation, self.get(a), constant)
    }

    /// The taken edge with all that follows from it, then back to the branch under the opposite
    /// condition.
    fn branch(
        &mut self,
        condition: Atom,
        opposite: Atom,
        target: u32,
        credit: Term,
        run: u32,
    ) -> Result<(), Refusal> {
        let (registers, variables) = (self.registers, self.prover.variables);
        let (terms, edge) = (self.prover.terms.count(), self.prover.assumptions.len());
        self.prover.assumptions.push(condition);
        self.path(target as usize, credit, run)?;
        self.registers = registers;
        self.prover.variables = variables;
        self.prover.terms.forget(terms);
        self.prover.assumptions.truncate(edge);
        self.prover.assumptions.push(opposite);
        Ok(())
    }

    /// The goals on arriving at an annotated index with `run` instructions run.
    fn arrive(&mut self, annotation: &Annotation, credit: Term, run: u32) -> Result<(), Refusal> {
        let annotations = self.annotations;
        let atoms = &annotations.atoms[annotation.atoms.clone()];
        self.derive_all(&annotations.expressions, atoms)?;
        let count = self.prover.terms.count();
        let run = self.derive_run(credit, run)?;
        let next = self.instance(annotations.expressions.tokens(annotation.credit));
        let left = self.prover.terms.pair(Operation::Difference, credit, run);
        self.derive(Goal::Atom(Atom::new(Comparison::AtMost, next, left)))?;
        self.prover.terms.forget(count);
        Ok(())
    }

    /// The goals on a return, which is counted in `run`.
    fn finish(&mut self, credit: Term, run: u32) -> Result<(), Refusal> {
        let policy = self.policy;
        self.derive_all(&policy.expressions, &policy.postcondition)?;
        self.derive_run(credit, run)?;
        Ok(())
    }

    fn derive_all(
        &mut self,
        expressions: &Expressions,
        formulas: &[Formula],
    ) -> Result<(), Refusal> {
        for &formula in formulas {
            let count = self.prover.terms.count();
            let atom = self.atom(expressions, formula);
            self.derive(Goal::Atom(atom))?;
            self.prover.terms.forget(count);
        }
        Ok(())
    }

    /// The goal that the instructions run are at most the credit; hands back their number's term.
    fn derive_run(&mut self, credit: Term, run: u32) -> Result<Term, Refusal> {
        let run = self.prover.terms.constant(run);
        self.derive(Goal::Atom(Atom::new(Comparison::AtMost, run, credit)))?;
        Ok(run)
    }

    fn derive(&mut self, goal: Goal) -> Result<(), Refusal> {
        self.prover.derive(goal)?;
        *self.goals += 1;
        Ok(())
    }

    fn atom(&mut self, expressions: &Expressions, formula: Formula) -> Atom {
        let left = self.instance(expressions.tokens(formula.left));
        let right = self.instance(expressions.tokens(formula.right));
        Atom::new(formula.comparison, left, right)
    }

    fn instance(&mut self, expression: &[crate::expression::Token]) -> Term {
        self.prover.terms.instance(expression, &self.registers)
    }
}

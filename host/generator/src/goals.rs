//! Symbolic evaluation: the goals of a routine in order, each with what may be assumed.

use std::rc::Rc;

use crate::assemble::{Annotation, Instruction, Policy, Routine};
use crate::term::{constant, difference, mask, shift, sum, variable, Atom, Goal, Term};

/// Where a goal comes from.
#[derive(Clone, Copy, Debug, PartialEq, Eq)]
pub enum Origin {
    /// An atom of an annotation that the path arrives at: numbers of annotation and atom.
    Annotation(usize, usize),
    /// An atom of the postcondition.
    Postcondition(usize),
    /// A load or a store.
    Access,
    /// A credit.
    Credit,
}

/// A goal, with the assumptions and the variables of its path.
#[derive(Clone, Debug)]
pub struct Task {
    /// What is to be derived.
    pub goal: Goal,
    /// Where it comes from.
    pub origin: Origin,
    /// The assumptions in order.
    pub assumptions: Rc<Vec<Atom>>,
    /// How many variables exist.
    pub variables: u16,
}

/// The most instructions that a block may evaluate, on all its paths.
pub const MAX_EVALUATED: usize = 4_096;

/// The goals of a routine, or nothing if a path runs past the last instruction, a jump to its own
/// index or a lower one has no annotation at its target, a register's term has more than 255 nodes,
/// or a block evaluates too many instructions.
pub fn goals(policy: &Policy, routine: &Routine) -> Option<Vec<Task>> {
    let mut block = Block { tasks: Vec::new(), evaluated: 0 };
    evaluate_blocks(policy, routine, &mut block)?;
    Some(block.tasks)
}

/// The goals of a routine, or those that come before what evaluation refuses.
pub fn goals_so_far(policy: &Policy, routine: &Routine) -> Vec<Task> {
    let mut block = Block { tasks: Vec::new(), evaluated: 0 };
    let _ = evaluate_blocks(policy, routine, &mut block);
    block.tasks
}

fn evaluate_blocks(policy: &Policy, routine: &Routine, block: &mut Block) -> Option<()> {
    let entry = Path::new(routine, policy, 0, constant(policy.limit), &policy.precondition);
    entry.evaluate(true, block)?;
    for annotation in &routine.annotations {
        block.evaluated = 0;
        let credit = Rc::clone(&annotation.credit);
        let path = Path::new(routine, policy, annotation.index, credit, &annotation.atoms);
        path.evaluate(false, block)?;
    }
    Some(())
}

/// The goals so far, and the instructions that the block has evaluated.
struct Block {
    tasks: Vec<Task>,
    evaluated: usize,
}

#[derive(Clone)]
struct Path<'a> {
    routine: &'a Routine,
    policy: &'a Policy,
    counter: usize,
    run: u32,
    credit: Rc<Term>,
    assumptions: Rc<Vec<Atom>>,
    registers: Vec<Rc<Term>>,
    variables: u16,
}

impl<'a> Path<'a> {
    fn new(
        routine: &'a Routine,
        policy: &'a Policy,
        counter: usize,
        credit: Rc<Term>,
        assumptions: &[Atom],
    ) -> Self {
        Path {
            routine,
            policy,
            counter,
            run: 0,
            credit,
            assumptions: Rc::new(assumptions.to_vec()),
            registers: (0..16).map(variable).collect(),
            variables: 16,
        }
    }

    fn evaluate(mut self, stop_at_once: bool, block: &mut Block) -> Option<()> {
        let routine = self.routine;
        loop {
            if self.run > 0 || stop_at_once {
                if let Some(number) = self.annotation_at(self.counter) {
                    self.arrive(number, &mut block.tasks);
                    return Some(());
                }
            }
            let instruction = *routine.code.get(self.counter)?;
            block.evaluated += 1;
            if block.evaluated > MAX_EVALUATED {
                return None;
            }
            self.run += 1;
            match instruction {
                Instruction::Constant { d, i } => self.set(d, constant(i))?,
                Instruction::Add { d, a, b } => self.set(d, sum(self.get(a), self.get(b)))?,
                Instruction::AddConstant { d, a, i } => {
                    self.set(d, sum(self.get(a), &constant(i)))?;
                }
                Instruction::Subtract { d, a, b } => {
                    self.set(d, difference(self.get(a), self.get(b)))?;
                }
                Instruction::Load { d, a, i } => {
                    let address = sum(self.get(a), &constant(i));
                    block.tasks.push(self.task(Goal::Readable(address), Origin::Access));
                    self.set(d, variable(self.variables))?;
                    self.variables += 1;
                }
                Instruction::Store { d: _, a, i } => {
                    let address = sum(self.get(a), &constant(i));
                    block.tasks.push(self.task(Goal::Writable(address), Origin::Access));
                }
                Instruction::Jump { target } => {
                    self.counter = self.landing(target)?;
                    continue;
                }
                Instruction::JumpIfLess { a, b, target } => {
                    let (a, b) = (self.get(a), self.get(b));
                    let (condition, opposite) = (Atom::less(a, b), Atom::at_most(b, a));
                    self.branch(condition, opposite, target, block)?;
                }
                Instruction::JumpIfEqual { a, b, target } => {
                    let (a, b) = (self.get(a), self.get(b));
                    let (condition, opposite) = (Atom::equal(a, b), Atom::unequal(a, b));
                    self.branch(condition, opposite, target, block)?;
                }
                Instruction::Return => {
                    for (number, atom) in self.policy.postcondition.iter().enumerate() {
                        let goal = Goal::Atom(self.current(atom));
                        block.tasks.push(self.task(goal, Origin::Postcondition(number)));
                    }
                    let goal = Goal::Atom(Atom::at_most(&constant(self.run), &self.credit));
                    block.tasks.push(self.task(goal, Origin::Credit));
                    return Some(());
                }
                Instruction::Mask { d, a, i } => self.set(d, mask(self.get(a), &constant(i)))?,
                Instruction::Shift { d, a, i } => self.set(d, shift(i as u8, self.get(a)))?,
            }
            self.counter += 1;
        }
    }

    fn branch(
        &mut self,
        condition: Atom,
        opposite: Atom,
        target: u32,
        block: &mut Block,
    ) -> Option<()> {
        let counter = self.landing(target)?;
        let before = Rc::clone(&self.assumptions);
        let with = |atom| {
            let mut assumptions = before.to_vec();
            assumptions.push(atom);
            Rc::new(assumptions)
        };
        let taken = Path { counter, assumptions: with(condition), ..self.clone() };
        taken.evaluate(true, block)?;
        self.assumptions = with(opposite);
        Some(())
    }

    /// The target of the jump at the counter, if it is higher or annotated.
    fn landing(&self, target: u32) -> Option<usize> {
        let target = target as usize;
        (target > self.counter || self.annotation_at(target).is_some()).then_some(target)
    }

    fn arrive(&self, number: usize, tasks: &mut Vec<Task>) {
        let annotation: &Annotation = &self.routine.annotations[number];
        for (position, atom) in annotation.atoms.iter().enumerate() {
            let goal = Goal::Atom(self.current(atom));
            tasks.push(self.task(goal, Origin::Annotation(number, position)));
        }
        let run = constant(self.run);
        let goal = Goal::Atom(Atom::at_most(&run, &self.credit));
        tasks.push(self.task(goal, Origin::Credit));
        let next = annotation.credit.replaced(&|register| self.current_register(register));
        let goal = Goal::Atom(Atom::at_most(&next, &difference(&self.credit, &run)));
        tasks.push(self.task(goal, Origin::Credit));
    }

    fn annotation_at(&self, index: usize) -> Option<usize> {
        self.routine.annotations.iter().position(|annotation| annotation.index == index)
    }

    fn task(&self, goal: Goal, origin: Origin) -> Task {
        let assumptions = Rc::clone(&self.assumptions);
        Task { goal, origin, assumptions, variables: self.variables }
    }

    fn current(&self, atom: &Atom) -> Atom {
        atom.replaced(&|register| self.current_register(register))
    }

    fn current_register(&self, register: u16) -> Rc<Term> {
        Rc::clone(&self.registers[usize::from(register)])
    }

    fn get(&self, register: u8) -> &Rc<Term> {
        &self.registers[usize::from(register)]
    }

    fn set(&mut self, register: u8, term: Rc<Term>) -> Option<()> {
        if term.size() > 255 {
            return None;
        }
        self.registers[usize::from(register)] = term;
        Some(())
    }
}

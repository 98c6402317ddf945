//! Random policies and routines with annotations and, for most, a proof.
//!
//! A routine is put together from segments: arithmetic, loads and stores, skipped parts, loops
//! with falling credit, branches that are never taken, early returns, decisions whose ways join with
//! an annotation or without. Along the way the builder keeps facts that should hold of the registers;
//! annotations take some of them. What cannot be derived is taken out of the annotations and the
//! postcondition until all the rest can.

mod decisions;

use std::rc::Rc;

use crate::assemble::{Annotation, Instruction, Policy, Region, Routine, READ, WRITE};
use crate::goals::{goals, Origin};
use crate::random::Random;
use crate::regions::{any_regions, table_regions};
use crate::search::{search_all, Found};
use crate::term::{balanced_sum, constant, difference, mask, shift, sum, variable};
use crate::term::{Atom, Comparison, Term};

const REGISTERS: u8 = 16;
const MAX_CODE: usize = 480;
const MAX_NOTES: usize = 60;
const MAX_FACTS: usize = 24;
const MAX_GOALS: usize = 2_000;

/// A policy and a package.
#[derive(Clone, Debug)]
pub struct Sample {
    /// The policy.
    pub policy: Policy,
    /// The routine.
    pub routine: Routine,
    /// The proof.
    pub proof: Vec<u8>,
    /// Where each goal's derivation starts in the proof.
    pub starts: Vec<usize>,
    /// Whether a derivation of every goal was found, so that the checker should accept.
    pub proved: bool,
}

impl Sample {
    /// The policy's bytes.
    pub fn policy_bytes(&self) -> Vec<u8> {
        self.policy.encode()
    }

    /// The package's bytes.
    pub fn package_bytes(&self) -> Vec<u8> {
        self.routine.encode(&self.proof)
    }
}

/// What a random sample may have.
#[derive(Clone, Copy, Debug)]
struct Kind {
    /// Masks and shifts.
    fields: bool,
    /// Tables with protected words, which most stores leave alone.
    tables: bool,
    /// Words past a register that differ from each other.
    distances: bool,
    /// Decisions whose ways join without an annotation.
    joins: bool,
    /// Assignments before each segment.
    stretch: usize,
}

const PLAIN: Kind =
    Kind { fields: false, tables: false, distances: false, joins: false, stretch: 0 };

/// A random sample of about so many segments.
pub fn sample(random: &mut Random, segments: usize) -> Sample {
    let kind = Kind { fields: true, tables: true, distances: true, joins: true, stretch: 0 };
    sample_with(random, segments, kind)
}

/// A random sample of about so many segments, with masks and shifts and with tables.
pub fn table_sample(random: &mut Random, segments: usize) -> Sample {
    sample_with(random, segments, Kind { fields: true, tables: true, ..PLAIN })
}

/// A random sample of about so many segments, with masks and shifts and with any regions.
pub fn field_sample(random: &mut Random, segments: usize) -> Sample {
    sample_with(random, segments, Kind { fields: true, ..PLAIN })
}

/// A random sample of about so many segments, without masks and shifts and with any regions.
pub fn plain_sample(random: &mut Random, segments: usize) -> Sample {
    sample_with(random, segments, PLAIN)
}

/// A random sample of up to some hundreds of instructions, most of them assignments.
pub fn long_sample(random: &mut Random) -> Sample {
    let kind = Kind { fields: true, tables: true, distances: true, joins: true, stretch: 12 };
    let segments = 20 + random.below(20);
    sample_with(random, segments, kind)
}

fn sample_with(random: &mut Random, segments: usize, kind: Kind) -> Sample {
    loop {
        let mut builder = Builder::new(random, kind);
        builder.segments(segments, 2);
        let (mut policy, mut routine) = builder.finish();
        if kind.joins && random.chance(1, 8) {
            decisions::scatter(&mut routine, random);
        }
        if let Some(Proof { bytes: proof, starts, proved }) =
            prove(&mut policy, &mut routine, random)
        {
            let length = 12 + 8 * routine.code.len() + 4_000 + proof.len();
            if length <= 65_536 {
                return Sample { policy, routine, proof, starts, proved };
            }
        }
    }
}

/// A loop over three columns of so many rows, side by side: tallies, codes, which are protected, and
/// the last codes seen.
pub fn protected_table(rows: u32) -> Sample {
    let region = |number, rights| Region { base: number * rows, length: rows, rights };
    let mut policy = Policy {
        memory: 3 * rows,
        limit: 8 * rows + 4,
        regions: vec![region(0, READ | WRITE), region(1, READ), region(2, READ | WRITE)],
        precondition: Vec::new(),
        postcondition: vec![Atom::equal(&register(0), &constant(rows))],
    };
    let code = vec![
        Instruction::Constant { d: 0, i: 0 },
        Instruction::Constant { d: 1, i: rows },
        Instruction::JumpIfEqual { a: 0, b: 1, target: 10 },
        Instruction::Load { d: 2, a: 0, i: rows },
        Instruction::Load { d: 3, a: 0, i: 0 },
        Instruction::Add { d: 3, a: 3, b: 2 },
        Instruction::Store { d: 3, a: 0, i: 0 },
        Instruction::Store { d: 2, a: 0, i: 2 * rows },
        Instruction::AddConstant { d: 0, a: 0, i: 1 },
        Instruction::Jump { target: 2 },
        Instruction::Return,
    ];
    let (index, all) = (register(0), constant(rows));
    let each = balanced_sum(&vec![Rc::clone(&index); 8]).expect("at least one");
    let credit = difference(&constant(8 * rows + 2), &each);
    let atoms = vec![Atom::at_most(&index, &all), Atom::equal(&register(1), &all)];
    let end = vec![Atom::equal(&index, &all)];
    let annotations = vec![
        Annotation { index: 2, credit, atoms },
        Annotation { index: 10, credit: constant(1), atoms: end },
    ];
    let mut routine = Routine { code, annotations };
    let found = prove(&mut policy, &mut routine, &mut Random::new(1));
    let Proof { bytes: proof, starts, proved } = found.expect("evaluation refuses nothing");
    Sample { policy, routine, proof, starts, proved }
}

/// A proof, where each goal's derivation starts in it, and whether all goals are derived.
struct Proof {
    bytes: Vec<u8>,
    starts: Vec<usize>,
    proved: bool,
}

/// Searches a proof and takes out the atoms that have none. Nothing if evaluation refuses the
/// routine or has very many goals.
fn prove(policy: &mut Policy, routine: &mut Routine, random: &mut Random) -> Option<Proof> {
    loop {
        let tasks = goals(policy, routine).filter(|tasks| tasks.len() <= MAX_GOALS)?;
        let found = search_all(&tasks, &policy.regions, random);
        let mut atoms: Vec<(Option<usize>, usize)> = Vec::new();
        for (task, derivation) in tasks.iter().zip(&found) {
            match (derivation, task.origin) {
                (Found::Nothing, Origin::Annotation(number, atom)) => {
                    atoms.push((Some(number), atom));
                }
                (Found::Nothing, Origin::Postcondition(atom)) => atoms.push((None, atom)),
                _ => {}
            }
        }
        if atoms.is_empty() || random.chance(1, 40) {
            let mut proof = Proof { bytes: Vec::new(), starts: Vec::new(), proved: true };
            for found in found {
                proof.starts.push(proof.bytes.len());
                proof.proved &= matches!(found, Found::Derived(_));
                match found {
                    Found::Derived(derivation) | Found::Misnamed(derivation) => {
                        proof.bytes.extend(derivation.bytes);
                    }
                    Found::Nothing => proof.bytes.push(random.below(29) as u8),
                }
            }
            return Some(proof);
        }
        atoms.sort_unstable();
        atoms.dedup();
        for &(number, atom) in atoms.iter().rev() {
            match number {
                Some(number) => routine.annotations[number].atoms.remove(atom),
                None => policy.postcondition.remove(atom),
            };
        }
    }
}

/// The part of a credit that depends on a register: the credit falls or grows by `times` for
/// each 1 of it.
#[derive(Clone, Copy, Debug)]
struct Share {
    register: u8,
    times: u32,
    falls: bool,
}

/// An annotation whose credit is not known yet: it is the step limit less `spent`, and the share.
#[derive(Clone, Debug)]
struct Note {
    index: usize,
    atoms: Vec<Atom>,
    spent: u32,
    share: Option<Share>,
}

struct Builder<'a> {
    random: &'a mut Random,
    kind: Kind,
    memory: u32,
    regions: Vec<Region>,
    precondition: Vec<Atom>,
    code: Vec<Instruction>,
    notes: Vec<Note>,
    /// What should hold of the registers at this point.
    facts: Vec<Atom>,
    /// The bounds of the registers at this point, where they are known.
    ranges: Vec<Option<(u32, u32)>>,
    /// Registers that must keep their values.
    locked: Vec<bool>,
    /// Atoms that every annotation needs.
    needed: Vec<Atom>,
    spent: u32,
    share: Option<Share>,
    /// How many paths of a block come here, about.
    paths: usize,
    /// How many paths may come to a join without an annotation.
    most_paths: usize,
    /// Branches to the return at the end.
    exits: Vec<usize>,
}

/// What is known on a way to a join.
#[derive(Clone, Debug)]
struct Way {
    facts: Vec<Atom>,
    ranges: Vec<Option<(u32, u32)>>,
    spent: u32,
    paths: usize,
}

fn register(number: u8) -> Rc<Term> {
    variable(u16::from(number))
}

impl<'a> Builder<'a> {
    fn new(random: &'a mut Random, kind: Kind) -> Self {
        let memory = match random.below(5) {
            0 => random.within(1..=4),
            1 => random.within(1_000..=16_384),
            _ => random.within(8..=80),
        };
        let regions = if kind.tables && random.chance(1, 2) {
            table_regions(random, memory)
        } else {
            any_regions(random, memory)
        };
        let mut builder = Builder {
            random,
            kind,
            memory,
            regions,
            precondition: Vec::new(),
            code: Vec::new(),
            notes: Vec::new(),
            facts: Vec::new(),
            ranges: vec![None; usize::from(REGISTERS)],
            locked: vec![false; usize::from(REGISTERS)],
            needed: Vec::new(),
            spent: 0,
            share: None,
            paths: 1,
            most_paths: 0,
            exits: Vec::new(),
        };
        if kind.joins {
            builder.most_paths = *builder.random.pick(&[2, 4, 4, 8, 8, 16]);
        }
        builder.set_precondition();
        builder
    }

    fn set_precondition(&mut self) {
        for _ in 0..self.random.below(7) {
            let d = self.any_register();
            let bound = self.random.word();
            let term = register(d);
            let atom = match self.random.below(if self.kind.fields { 7 } else { 6 }) {
                0 | 1 => {
                    self.ranges[usize::from(d)] = Some((0, bound));
                    Atom::at_most(&term, &constant(bound))
                }
                2 => {
                    self.ranges[usize::from(d)] = Some((bound, bound));
                    Atom::equal(&term, &constant(bound))
                }
                3 => Atom::less(&term, &register(self.any_register())),
                4 => Atom::unequal(&constant(bound), &term),
                5 => {
                    let other = register(self.any_register());
                    Atom::equal(&term, &sum(&other, &constant(bound)))
                }
                _ => {
                    let field = self.field(&term);
                    Atom::at_most(&field, &constant(bound))
                }
            };
            self.precondition.push(atom);
        }
        self.facts = self.precondition.clone();
    }

    fn finish(mut self) -> (Policy, Routine) {
        let mut postcondition: Vec<Atom> = Vec::new();
        let mut candidates = self.facts.clone();
        candidates.extend(self.range_facts());
        candidates.extend(self.kind.fields.then(|| self.field_fact()));
        self.random.shuffle(&mut candidates);
        postcondition.extend(candidates.into_iter().take(self.random.below(6)));
        for jump in std::mem::take(&mut self.exits) {
            self.aim(jump, self.code.len());
        }
        self.emit(Instruction::Return);
        let slack = match self.random.below(4) {
            0 => u32::MAX - self.spent,
            1 => self.random.below(100) as u32,
            _ => 0,
        };
        let limit = self.spent + slack;
        let annotations = self.notes.iter().map(|note| self.annotation(note, limit)).collect();
        let policy = Policy {
            memory: self.memory,
            limit,
            regions: self.regions,
            precondition: self.precondition,
            postcondition,
        };
        (policy, Routine { code: self.code, annotations })
    }

    fn annotation(&self, note: &Note, limit: u32) -> Annotation {
        // inside a loop that counts down, the share makes up for what is below zero here
        let left = constant(limit.wrapping_sub(note.spent));
        let credit = match note.share {
            None => left,
            Some(Share { register: number, times, falls }) => {
                let each = vec![register(number); times as usize];
                let nested = |total: Rc<Term>, each: &Rc<Term>| sum(each, &total);
                let total = if note.index.is_multiple_of(3) {
                    each[1..].iter().fold(Rc::clone(&each[0]), nested)
                } else {
                    balanced_sum(&each).expect("at least one")
                };
                if falls {
                    difference(&left, &total)
                } else {
                    sum(&total, &left)
                }
            }
        };
        Annotation { index: note.index, credit, atoms: note.atoms.clone() }
    }

    fn any_register(&mut self) -> u8 {
        self.random.below(usize::from(REGISTERS)) as u8
    }

    /// A register that may be written, if there is one.
    fn free_register(&mut self) -> Option<u8> {
        let free: Vec<u8> =
            (0..REGISTERS).filter(|&number| !self.locked[usize::from(number)]).collect();
        (!free.is_empty()).then(|| *self.random.pick(&free))
    }

    fn has_room(&self) -> bool {
        self.code.len() < MAX_CODE && self.notes.len() < MAX_NOTES
    }

    // ---- instructions

    /// Adds an instruction and what it makes true.
    fn emit(&mut self, instruction: Instruction) {
        self.code.push(instruction);
        self.spent += 1;
        let range = |number: u8| self.ranges[usize::from(number)];
        match instruction {
            Instruction::Constant { d, i } => {
                self.assign(d, Some((i, i)), Some(constant(i)));
            }
            Instruction::Add { d, a, b } => {
                let bounds = range(a).zip(range(b)).and_then(|((low, high), (least, most))| {
                    Some((low.checked_add(least)?, high.checked_add(most)?))
                });
                let term = (d != a && d != b).then(|| sum(&register(a), &register(b)));
                self.assign(d, bounds, term);
            }
            Instruction::AddConstant { d, a, i } => {
                let bounds = range(a).and_then(|(low, high)| {
                    let wraps = i.wrapping_neg();
                    if i >= 1 << 31 && low >= wraps {
                        return Some((low - wraps, high - wraps));
                    }
                    Some((low.checked_add(i)?, high.checked_add(i)?))
                });
                if d == a {
                    self.shift(d, i);
                    self.ranges[usize::from(d)] = bounds;
                } else {
                    self.assign(d, bounds, Some(sum(&register(a), &constant(i))));
                }
            }
            Instruction::Subtract { d, a, b } => {
                let bounds = range(a).zip(range(b)).and_then(|((low, high), (least, most))| {
                    (low >= most).then(|| (low - most, high - least))
                });
                let term = (d != a && d != b).then(|| difference(&register(a), &register(b)));
                self.assign(d, bounds, term);
            }
            Instruction::Load { d, .. } => self.assign(d, None, None),
            Instruction::Mask { d, a, i } => {
                let term = (d != a).then(|| mask(&register(a), &constant(i)));
                self.assign(d, Some((0, i)), term);
            }
            Instruction::Shift { d, a, i } => {
                let most = range(a).map_or(u32::MAX, |(_, high)| high).min(u32::MAX >> i);
                let term = (d != a).then(|| shift(i as u8, &register(a)));
                self.assign(d, Some((0, most)), term);
            }
            _ => {}
        }
    }

    fn assign(&mut self, d: u8, range: Option<(u32, u32)>, term: Option<Rc<Term>>) {
        self.facts.retain(|fact| !fact.mentions(u16::from(d)));
        self.ranges[usize::from(d)] = range;
        if let Some(term) = term {
            self.add_fact(Atom::equal(&register(d), &term));
        }
    }

    /// After `d := d + i` the old value is d - i.
    fn shift(&mut self, d: u8, i: u32) {
        let old = difference(&register(d), &constant(i));
        let replaced = |number: u16| {
            if number == u16::from(d) {
                Rc::clone(&old)
            } else {
                variable(number)
            }
        };
        let facts: Vec<Atom> = self.facts.iter().map(|fact| fact.replaced(&replaced)).collect();
        self.facts = facts;
        self.facts.retain(|fact| fact.left.size() <= 11 && fact.right.size() <= 11);
    }

    fn add_fact(&mut self, fact: Atom) {
        if self.facts.len() >= MAX_FACTS {
            let gone = self.random.below(self.facts.len());
            self.facts.remove(gone);
        }
        self.facts.push(fact);
    }

    fn arithmetic(&mut self) {
        let Some(d) = self.free_register() else { return };
        let (a, b) = (self.any_register(), self.any_register());
        let i = self.random.word();
        let instruction = match self.random.below(if self.kind.fields { 9 } else { 6 }) {
            0 | 1 => Instruction::Constant { d, i },
            2 => Instruction::Add { d, a, b },
            3 => Instruction::AddConstant { d, a, i },
            4 => Instruction::AddConstant { d, a: d, i: i % 7 },
            5 => Instruction::Subtract { d, a, b },
            6 => Instruction::Mask { d, a, i },
            7 => Instruction::Mask { d, a, i: self.low_bits() },
            _ => Instruction::Shift { d, a, i: self.random.within(0..=31) },
        };
        self.emit(instruction);
    }

    /// A word whose ones are its lowest bits.
    fn low_bits(&mut self) -> u32 {
        u32::MAX >> self.random.within(0..=31)
    }

    /// A part of a term's bits: it masked, shifted, or both.
    fn field(&mut self, term: &Rc<Term>) -> Rc<Term> {
        let masked = mask(term, &constant(self.low_bits()));
        let count = self.random.below(32) as u8;
        match self.random.below(4) {
            0 | 1 => masked,
            2 => shift(count, term),
            _ => shift(count, &masked),
        }
    }

    /// What is true of the bits of any register.
    fn field_fact(&mut self) -> Atom {
        let term = register(self.any_register());
        let field = self.field(&term);
        let other = register(self.any_register());
        match (&*field, self.random.below(3)) {
            (Term::Mask(_, second), 0) => Atom::at_most(&field, second),
            (Term::Shift(_, part), 0) => Atom::at_most(&field, part),
            (Term::Shift(count, _), 1) => Atom::at_most(&field, &constant(u32::MAX >> count)),
            (_, 1) => Atom::at_most(&mask(&term, &other), &other),
            _ => {
                let sums = [sum(&term, &other), sum(&other, &term)];
                let [left, right] = sums.map(|sum| mask(&sum, &constant(255)));
                Atom::equal(&left, &right)
            }
        }
    }

    /// Whether the builder stores into a region; into one that does not fit it does so seldom.
    fn stores_into(&mut self, region: &Region) -> bool {
        let heeds = self.kind.tables && self.random.chance(19, 20);
        region.rights & WRITE != 0 && (!heeds || region.fits(WRITE, &self.regions))
    }

    /// A load or a store at an address that is known to be in a region.
    fn access(&mut self) {
        let region = *self.random.pick(&self.regions);
        let Region { base, length, rights } = region;
        let fitting: Vec<(u8, u32, u32)> = (0..REGISTERS)
            .filter_map(|number| {
                let (low, high) = self.ranges[usize::from(number)]?;
                (high - low < length).then_some((number, low, high))
            })
            .collect();
        let spare: Vec<u8> =
            (0..REGISTERS).filter(|&number| !self.locked[usize::from(number)]).collect();
        let (a, low, high) = if fitting.is_empty() {
            if spare.is_empty() {
                return;
            }
            let a = *self.random.pick(&spare);
            let i = self.random.word();
            self.emit(Instruction::Constant { d: a, i });
            (a, i, i)
        } else {
            *self.random.pick(&fitting)
        };
        let room = length - 1 - (high - low);
        let i = (base + self.random.within(0..=room)).wrapping_sub(low);
        let stores = self.stores_into(&region);
        let load = rights & READ != 0 && (!stores || self.random.chance(1, 2));
        if load && !spare.is_empty() {
            let d = *self.random.pick(&spare);
            self.emit(Instruction::Load { d, a, i });
        } else if stores {
            let d = self.any_register();
            self.emit(Instruction::Store { d, a, i });
        }
    }

    // ---- facts and annotations

    /// Atoms that follow from the bounds of the registers.
    fn range_facts(&mut self) -> Vec<Atom> {
        let known: Vec<(u8, u32, u32)> = (0..REGISTERS)
            .filter_map(|number| {
                let (low, high) = self.ranges[usize::from(number)]?;
                Some((number, low, high))
            })
            .collect();
        let mut facts = Vec::new();
        for &(number, low, high) in &known {
            let term = register(number);
            match self.random.below(4) {
                0 if low == high => facts.push(Atom::equal(&term, &constant(low))),
                1 if high < u32::MAX => facts.push(Atom::less(&term, &constant(high + 1))),
                _ => facts.push(Atom::at_most(&term, &constant(high))),
            }
            if low > 0 && self.random.chance(2, 3) {
                facts.push(Atom::at_most(&constant(low), &term));
            }
            let &(other, least, most) = self.random.pick(&known);
            let second = register(other);
            match self.random.below(if self.kind.distances { 9 } else { 8 }) {
                0 => {
                    if let Some(total) = high.checked_add(most) {
                        facts.push(Atom::at_most(&sum(&term, &second), &constant(total)));
                    }
                }
                1 if high.checked_add(most).is_some() => {
                    facts.push(Atom::at_most(&constant(low + least), &sum(&term, &second)));
                }
                2 if low >= most => {
                    let bound = constant(high - least);
                    facts.push(Atom::at_most(&difference(&term, &second), &bound));
                }
                3 if high < least => facts.push(Atom::less(&term, &second)),
                4 if high < least => facts.push(Atom::unequal(&second, &term)),
                5 if high < u32::MAX => {
                    facts.push(Atom::unequal(&term, &constant(high + 1)));
                }
                6 if high.checked_add(most).is_some() => {
                    facts.push(Atom::at_most(&term, &sum(&term, &second)));
                }
                8 => {
                    let [far, near] = [12, 8].map(|distance| sum(&term, &constant(distance)));
                    facts.push(Atom::unequal(&far, &near));
                }
                _ => {}
            }
        }
        facts
    }

    /// Annotates the next instruction, which is not annotated yet, with needed atoms and some
    /// facts; what is known afterwards is what the annotation says.
    fn note(&mut self) {
        if self.notes.last().is_some_and(|note| note.index == self.code.len()) {
            return;
        }
        let mut candidates = self.facts.clone();
        candidates.extend(self.range_facts());
        if self.kind.fields {
            candidates.extend((0..self.random.below(3)).map(|_| self.field_fact()));
        }
        self.random.shuffle(&mut candidates);
        let most = 16 - self.needed.len().min(16);
        let count = self.random.below(most + 1).max(self.random.below(most + 1));
        let mut atoms = self.needed.clone();
        atoms.extend(candidates.into_iter().take(count));
        atoms.truncate(16);
        self.notes.push(Note {
            index: self.code.len(),
            atoms: atoms.clone(),
            spent: self.spent,
            share: self.share,
        });
        self.paths = 1;
        self.learn(atoms);
    }

    /// Knows these atoms and nothing else.
    fn learn(&mut self, atoms: Vec<Atom>) {
        let mut ranges: Vec<Option<(u32, u32)>> = vec![None; usize::from(REGISTERS)];
        for atom in &atoms {
            match (atom.comparison, &*atom.left, &*atom.right) {
                (Comparison::Equal, Term::Variable(number), Term::Constant(value)) => {
                    ranges[usize::from(*number)] = Some((*value, *value));
                }
                (Comparison::AtMost, Term::Variable(number), Term::Constant(value)) => {
                    let range = ranges[usize::from(*number)].get_or_insert((0, *value));
                    range.1 = range.1.min(*value);
                }
                (Comparison::Less, Term::Variable(number), Term::Constant(value)) => {
                    let range = ranges[usize::from(*number)].get_or_insert((0, *value - 1));
                    range.1 = range.1.min(*value - 1);
                }
                _ => {}
            }
        }
        for atom in &atoms {
            if let (Comparison::AtMost, Term::Constant(value), Term::Variable(number)) =
                (atom.comparison, &*atom.left, &*atom.right)
            {
                if let Some(range) = &mut ranges[usize::from(*number)] {
                    range.0 = range.0.max(*value);
                }
            }
        }
        for range in &mut ranges {
            *range = range.filter(|(low, high)| low <= high);
        }
        self.ranges = ranges;
        self.facts = atoms;
    }

    // ---- segments

    fn segments(&mut self, count: usize, depth: u32) {
        for _ in 0..count {
            if self.has_room() {
                for _ in 0..self.kind.stretch {
                    self.arithmetic();
                }
                self.segment(depth);
            }
        }
    }

    fn segment(&mut self, depth: u32) {
        if self.kind.joins && self.random.chance(1, 4) {
            return self.decision(depth);
        }
        match self.random.below(if depth == 0 { 8 } else { 16 }) {
            0..=2 => {
                for _ in 0..self.random.within(1..=4) {
                    self.arithmetic();
                }
            }
            3..=5 => self.access(),
            6 => self.note(),
            7 => self.dead_branch(),
            8 | 9 => self.skip(depth),
            10 => self.guarded_access(),
            11 => self.early_return(),
            _ if self.share.is_none() => self.counted_loop(depth),
            _ => self.access(),
        }
    }

    /// `if a < b` or `if a = b` over random registers; the target comes later.
    fn branch(&mut self) -> usize {
        let (a, b) = (self.any_register(), self.any_register());
        let place = self.code.len();
        let instruction = if self.random.chance(1, 2) {
            Instruction::JumpIfLess { a, b, target: 0 }
        } else {
            Instruction::JumpIfEqual { a, b, target: 0 }
        };
        self.emit(instruction);
        place
    }

    fn aim(&mut self, jump: usize, target: usize) {
        *self.code[jump].target_mut().expect("a jump") = target as u32;
    }

    fn way(&self) -> Way {
        let (facts, ranges) = (self.facts.clone(), self.ranges.clone());
        Way { facts, ranges, spent: self.spent, paths: self.paths }
    }

    /// An index where a jump by another way arrives too, annotated or not.
    fn join(&mut self, jump: usize, way: &Way) {
        self.facts.retain(|fact| way.facts.contains(fact));
        for (range, other) in self.ranges.iter_mut().zip(&way.ranges) {
            *range = match (*range, *other) {
                (Some((low, high)), Some((least, most))) => Some((low.min(least), high.max(most))),
                _ => None,
            };
        }
        self.spent = self.spent.max(way.spent);
        self.paths += way.paths;
        if !self.joins_freely() {
            if self.notes.last().is_some_and(|note| note.index == self.code.len()) {
                self.arithmetic_or_constant();
            }
            self.note();
        }
        self.aim(jump, self.code.len());
    }

    fn arithmetic_or_constant(&mut self) {
        match self.free_register() {
            Some(d) => self.emit(Instruction::AddConstant { d, a: d, i: 0 }),
            None => self.emit(Instruction::AddConstant { d: 0, a: 0, i: 0 }),
        }
    }

    /// A part that is run or not.
    fn skip(&mut self, depth: u32) {
        let jump = self.branch();
        let way = self.way();
        let count = self.random.below(4);
        self.segments(count, depth - 1);
        self.join(jump, &way);
    }

    /// Loads an index, and uses it where it is in range.
    fn guarded_access(&mut self) {
        self.access();
        let (Some(index), Some(bound)) = (self.free_register(), self.free_register()) else {
            return;
        };
        if index == bound {
            return;
        }
        let Region { length, .. } = *self.random.pick(&self.regions.clone());
        self.emit(Instruction::Constant { d: bound, i: length - 1 });
        let jump = self.code.len();
        self.emit(Instruction::JumpIfLess { a: bound, b: index, target: 0 });
        let way = self.way();
        self.ranges[usize::from(index)] = Some((0, length - 1));
        self.access();
        self.access();
        self.join(jump, &way);
    }

    /// A branch whose condition is false, to an annotation that is there already.
    fn dead_branch(&mut self) {
        let Some(target) = self.notes.iter().map(|note| note.index as u32).min_by_key(|_| {
            // a random one of them
            self.random.number()
        }) else {
            return;
        };
        let known: Vec<(u8, u32, u32)> = (0..REGISTERS)
            .filter_map(|number| {
                let (low, high) = self.ranges[usize::from(number)]?;
                Some((number, low, high))
            })
            .collect();
        let a = self.any_register();
        if known.len() < 2 || self.random.chance(1, 3) {
            self.emit(Instruction::JumpIfLess { a, b: a, target });
            return;
        }
        let &(a, low, high) = self.random.pick(&known);
        let &(b, least, most) = self.random.pick(&known);
        if low >= most {
            self.emit(Instruction::JumpIfLess { a, b, target });
        } else if high < least {
            self.emit(Instruction::JumpIfEqual { a, b, target });
        }
    }

    fn early_return(&mut self) {
        let jump = self.branch();
        let way = self.way();
        self.emit(Instruction::Return);
        self.take(Way { paths: 0, ..way.clone() });
        self.join(jump, &way);
    }

    /// A loop that counts a register up to a bound or down to zero. Each round takes at most
    /// `times` steps, which is what its credit falls by.
    fn counted_loop(&mut self, depth: u32) {
        let free: Vec<u8> =
            (0..REGISTERS).filter(|&number| !self.locked[usize::from(number)]).collect();
        if free.len() < 6 {
            return;
        }
        let mut free = free;
        self.random.shuffle(&mut free);
        let (index, bound) = (free[0], free[1]);
        let rounds = match self.random.below(6) {
            0 => 1,
            1 => self.random.within(100..=100_000),
            _ => self.random.within(1..=self.memory.min(40)),
        };
        let times = self.random.within(5..=14);
        let kind = self.random.below(4);
        let (first, limit) = match kind {
            0 => (0, rounds),     // up, until index = bound
            1 => (0, rounds - 1), // up, until bound < index
            2 => (0, rounds),     // up, while index < bound, tested at the end
            _ => (rounds, 0),     // down, until index = bound = 0
        };
        self.emit(Instruction::Constant { d: index, i: first });
        self.emit(Instruction::Constant { d: bound, i: limit });
        // The body may write the other free registers: nothing is known of them.
        let body: Vec<u8> = free[2..].iter().copied().take(self.random.below(6) + 1).collect();
        for &number in &body {
            self.facts.retain(|fact| !fact.mentions(u16::from(number)));
            self.ranges[usize::from(number)] = None;
        }
        let (counter, end) = (register(index), register(bound));
        self.facts.retain(|fact| !fact.mentions(u16::from(index)));
        let highest = if kind == 2 { rounds - 1 } else { rounds };
        let old_needed = self.needed.clone();
        self.needed.push(Atom::at_most(&counter, &constant(highest)));
        self.needed.push(Atom::equal(&end, &constant(limit)));
        let locked = self.locked.clone();
        for number in 0..REGISTERS {
            self.locked[usize::from(number)] |= !body.contains(&number);
        }
        if kind == 3 {
            self.spent += times * rounds;
        }
        self.share = Some(Share { register: index, times, falls: kind != 3 });
        if self.notes.last().is_some_and(|note| note.index == self.code.len()) {
            self.emit(Instruction::AddConstant { d: body[0], a: body[0], i: 0 });
        }
        self.ranges[usize::from(index)] = Some((0, highest));
        let header = self.code.len();
        let before = self.spent;
        self.note();

        let exit = self.code.len();
        match kind {
            0 | 3 => self.emit(Instruction::JumpIfEqual { a: index, b: bound, target: 0 }),
            1 => self.emit(Instruction::JumpIfLess { a: bound, b: index, target: 0 }),
            _ => {}
        }
        let inside = match kind {
            3 => (1, rounds),
            _ => (0, rounds - 1),
        };
        self.ranges[usize::from(index)] = Some(inside);
        // At annotations inside the loop the index is within these bounds.
        let (needed_of_header, body_needed) = (self.needed.clone(), {
            let mut needed = old_needed.clone();
            needed.push(Atom::at_most(&counter, &constant(inside.1)));
            needed.push(Atom::at_most(&constant(inside.0), &counter));
            needed.push(Atom::equal(&end, &constant(limit)));
            needed
        });
        self.needed = body_needed;
        while self.spent - before + 5 < times && self.random.chance(7, 8) {
            let (code, notes) = (self.code.len(), self.notes.len());
            let (way, exits) = (self.way(), self.exits.len());
            self.segment(depth.min(1) - 1);
            if self.spent - before + 3 > times {
                self.code.truncate(code);
                self.notes.truncate(notes);
                self.exits.truncate(exits);
                self.take(way);
            }
        }
        self.needed = needed_of_header;
        let step = if kind == 3 { u32::MAX } else { 1 };
        self.emit(Instruction::AddConstant { d: index, a: index, i: step });
        if kind == 2 {
            let target = header as u32;
            self.emit(Instruction::JumpIfLess { a: index, b: bound, target });
        } else {
            self.emit(Instruction::Jump { target: header as u32 });
        }

        // After the loop.
        self.needed = old_needed;
        self.locked = locked;
        self.share = None;
        self.facts.retain(|fact| !fact.mentions(u16::from(index)));
        self.ranges[usize::from(index)] = Some(match kind {
            3 => (0, 0),
            _ => (rounds, rounds),
        });
        self.spent = match kind {
            0 | 1 => before + times * rounds + 1,
            2 => before + times * rounds,
            _ => before + 1,
        };
        if kind != 2 {
            self.note();
            self.aim(exit, self.code.len());
            if self.random.chance(1, 2) {
                let value = if kind == 3 { 0 } else { rounds };
                self.add_fact(Atom::equal(&counter, &constant(value)));
            }
        }
    }
}

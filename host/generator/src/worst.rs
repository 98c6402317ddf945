//! Large packages, each as costly for one rule as its 65,536 bytes allow.

mod ways;

use std::rc::Rc;

use crate::assemble::{Annotation, Instruction, Policy, Region, Routine, READ, WRITE};
use crate::term::{balanced, balanced_sum, constant, difference, mask, shift, sum, variable};
use crate::term::{Atom, Term};

/// A named policy and package, with the checker's number for them.
#[derive(Clone, Debug)]
pub struct Worst {
    /// What it is about.
    pub name: &'static str,
    /// The policy.
    pub policy: Vec<u8>,
    /// The package.
    pub package: Vec<u8>,
    /// The number that the checker answers.
    pub number: u32,
}

/// A routine of some instructions and then branches, which all lead to one annotated return. The
/// annotation's atoms are derived again on every edge.
#[derive(Clone, Debug, Default)]
struct Frame {
    setup: Vec<Instruction>,
    setup_proof: Vec<u8>,
    precondition: Vec<Atom>,
    /// The annotation's atoms, each with its derivation.
    atoms: Vec<(Atom, Vec<u8>)>,
    /// What takes the place of the proof's last derivation.
    last: Option<Vec<u8>>,
}

/// The registers that the branches compare.
const LEFT: u8 = 14;
const RIGHT: u8 = 15;

const MAX_PACKAGE: usize = 65_536;
const MAX_INSTRUCTIONS: usize = 512;

impl Frame {
    /// As many branches as fit.
    fn build(&self, name: &'static str, number: u32) -> Worst {
        let atoms: Vec<Atom> = self.atoms.iter().map(|(atom, _)| atom.clone()).collect();
        let derived: Vec<u8> = self.atoms.iter().flat_map(|(_, bytes)| bytes.clone()).collect();
        let mut section = Vec::new();
        for atom in &atoms {
            atom.encode(&mut section);
        }
        // header, code, annotation; then a branch with its edge's derivations
        let fixed = 12 + 8 * (self.setup.len() + 1) + section.len() + 8 + self.setup_proof.len();
        let edge = derived.len() + 2;
        let room = (MAX_PACKAGE - fixed - edge - 40) / (8 + edge);
        let branches = room.min(MAX_INSTRUCTIONS - self.setup.len() - 1);

        let end = self.setup.len() + branches;
        let mut code = self.setup.clone();
        let target = end as u32;
        code.resize(end, Instruction::JumpIfEqual { a: LEFT, b: RIGHT, target });
        code.push(Instruction::Return);
        let mut proof = self.setup_proof.clone();
        for _ in 0..=branches {
            proof.extend(&derived);
            proof.extend([3, 3]);
        }
        proof.extend(self.last.as_deref().unwrap_or(&[2]));
        let policy = Policy { precondition: self.precondition.clone(), ..frame_policy() };
        let annotations = vec![Annotation { index: end, credit: constant(1), atoms }];
        let package = Routine { code, annotations }.encode(&proof);
        Worst { name, policy: policy.encode(), package, number }
    }

    fn atoms(mut self, count: usize, atom: &Atom, derivation: &[u8]) -> Self {
        self.atoms.extend((0..count).map(|_| (atom.clone(), derivation.to_vec())));
        self
    }
}

fn frame_policy() -> Policy {
    Policy {
        memory: 64,
        limit: 1_000_000,
        regions: vec![Region { base: 0, length: 64, rights: READ | WRITE }],
        precondition: Vec::new(),
        postcondition: Vec::new(),
    }
}

fn register(number: u16) -> Rc<Term> {
    variable(number)
}

/// Sets a register to a sum of 255 nodes without a variable, all zeros.
fn closed(d: u8) -> Vec<Instruction> {
    let mut code = vec![Instruction::Constant { d, i: 0 }];
    code.resize(8, Instruction::Add { d, a: d, b: d });
    code
}

/// Sets a register to a sum of 255 nodes over register 0, whose linear form is zero.
fn cancelled(d: u8) -> Vec<Instruction> {
    let mut code = vec![Instruction::Subtract { d, a: 0, b: 0 }];
    code.resize(7, Instruction::Add { d, a: d, b: d });
    code
}

/// Sets a register to a sum of 255 nodes, all register 0.
fn doubled(d: u8) -> Vec<Instruction> {
    let mut code = vec![Instruction::Add { d, a: 0, b: 0 }];
    code.resize(7, Instruction::Add { d, a: d, b: d });
    code
}

/// Sets each of some registers to the same term of 255 nodes over register 0 whose linear form is
/// zero. A hint, by which the proved checker knows a constant again, is taken here by another
/// constant between two of them; so it knows that they are the same by notes, or not but by
/// comparing them.
fn built_apart(registers: &[u8]) -> Vec<Instruction> {
    let mut code = Vec::new();
    for &d in registers {
        code.extend(apart(d));
        code.push(Instruction::Subtract { d, a: d, b: d });
        code.resize(code.len() + 5, Instruction::Add { d, a: d, b: d });
    }
    code
}

/// Sets a register to the sum of register 0 and a constant, new to the proved checker's hints.
pub(crate) fn apart(d: u8) -> [Instruction; 2] {
    let i = 1;
    let taken = (i + 1..).find(|&other| hint(other) == hint(i)).expect("many have the same hint");
    [Instruction::Constant { d, i: taken }, Instruction::AddConstant { d, a: 0, i }]
}

/// The number of a constant's hint in the proved checker (crates/terms): constants of one number
/// take each other's place.
fn hint(constant: u32) -> u64 {
    // the facts of a constant: tag 0, closed, without mask or shift, one node
    let facts = 8 + 16 + 32;
    let mixed = u64::from(constant) * 60_493 + facts * 9_973;
    (mixed / 65_536 + mixed) % 1_024
}

/// A sum of so many leaves, all one register.
fn leaves(number: u16, count: usize) -> Rc<Term> {
    balanced_sum(&vec![register(number); count]).expect("at least one")
}

/// c ≤ c + d with c = c1 + c2. By rule 14 it follows from c1 ≤ c, c2 ≤ d and from itself, so that
/// 31 levels of one derivation can ask for the first two.
fn spine(c1: &Rc<Term>, c2: &Rc<Term>, d: &Rc<Term>, each: &[u8], end: &[u8]) -> (Atom, Vec<u8>) {
    let c = sum(c1, c2);
    let mut derivation = Vec::new();
    // the end is a chain of rules, one level each
    for _ in 0..32 - end.len() {
        derivation.push(14);
        derivation.extend(each);
    }
    derivation.extend(end);
    (Atom::at_most(&c, &sum(&c, d)), derivation)
}

/// The packages.
pub fn worst_cases() -> Vec<Worst> {
    let mut cases = vec![
        same_terms(),
        last_leaf(),
        evaluation(),
        linear_forms(),
        linear_forms_of_many_variables(),
        linear_forms_apart(),
        linear_forms_of_many_variables_apart(),
        same_terms_again_and_again(),
        assumptions(),
        hundreds_of_assumptions(),
        longest_path("0: a path of loads and branches", 256, Instruction::Return, 0),
        longest_path("0: a path of 512 branches", 0, back_to_start(), 13),
        longest_path("0: a path of 511 loads", 511, Instruction::Return, 0),
        parts(),
        sums_and_differences(),
        growing_terms(),
        accesses(),
        stores_under_regions_over_the_word(),
        stores_beside_regions_without_the_right(),
        last_store_in_a_region_partly_protected(),
        contradiction(),
        wide_chains(),
        long_arguments("5: arguments of 31 nodes", &leaves(0, 16)),
        long_arguments("5: arguments of 30 shifts", &shifts(&register(0))),
        long_arguments("5: arguments of 15 masks", &masks(0, 16)),
        annotations_of_shifts(),
        closed_shifts(),
        closed_masks(),
        masked_terms_at_two_nodes(),
        masked_terms_of_three_nodes(),
        shifted_terms_of_each_goal(),
        masked_field(),
        masks_and_shifts_in_parts(),
        masks_at_most(),
        shifts_at_most(),
        shifts_at_most_constants(),
        full_length_spare_proof(),
        late_refusal(),
    ];
    cases.extend(deep_chains());
    cases.extend(ways::cases());
    cases
}

/// Rule 1: two sums of 4,095 nodes, built apart.
fn same_terms() -> Worst {
    let setup = [doubled(1), doubled(2)].concat();
    let atom = Atom::equal(&leaves(1, 16), &leaves(2, 16));
    Frame { setup, ..Frame::default() }
        .atoms(16, &atom, &[1])
        .build("1: equal terms of 4,095 nodes", 0)
}

/// Rule 1 on sums that differ in the very last leaf.
fn last_leaf() -> Worst {
    let setup = [doubled(1), doubled(2)].concat();
    let last = |number: u16| sum(&leaves(number, 15), &register(2 + number));
    let same = Atom::equal(&leaves(1, 16), &leaves(2, 16));
    let different = Atom::equal(&last(1), &last(2));
    let mut frame = Frame { setup, ..Frame::default() }.atoms(15, &same, &[1]);
    frame.atoms.push((different, vec![1]));
    frame.build("1: terms that differ in the last leaf", 16)
}

/// Rule 3 on sums of thousands of nodes, 62 times in each derivation.
fn evaluation() -> Worst {
    let setup = [closed(1), closed(2)].concat();
    let (atom, derivation) = spine(&leaves(1, 5), &leaves(2, 5), &leaves(1, 6), &[3, 3], &[3]);
    Frame { setup, ..Frame::default() }
        .atoms(16, &atom, &derivation)
        .build("3: evaluation of thousands of nodes", 0)
}

/// Rule 12 on sums of thousands of nodes, 62 times in each derivation.
fn linear_forms() -> Worst {
    let setup = [cancelled(1), cancelled(2)].concat();
    let (atom, derivation) =
        spine(&leaves(1, 5), &leaves(2, 5), &leaves(1, 6), &[10, 12, 10, 12], &[10, 12]);
    Frame { setup, ..Frame::default() }
        .atoms(16, &atom, &derivation)
        .build("12: linear forms of thousands of nodes", 0)
}

/// Sets register 1 to the sum of 60 loaded words, (0 - 0) + v16 + v17 + ..
fn sum_of_loads() -> Frame {
    let mut setup =
        vec![Instruction::Constant { d: 3, i: 0 }, Instruction::Subtract { d: 1, a: 3, b: 3 }];
    for word in 0..60 {
        setup.push(Instruction::Load { d: 4, a: 3, i: word });
        setup.push(Instruction::Add { d: 1, a: 1, b: 4 });
    }
    Frame { setup, setup_proof: [22, 0, 3, 3].repeat(60), ..Frame::default() }
}

/// Rule 12 on sums of 60 loaded words.
fn linear_forms_of_many_variables() -> Worst {
    let mut frame = sum_of_loads();
    frame.setup.push(Instruction::Subtract { d: 2, a: 1, b: 1 });
    let (atom, derivation) =
        spine(&leaves(2, 5), &leaves(2, 5), &leaves(2, 6), &[10, 12, 10, 12], &[10, 12]);
    frame.atoms(16, &atom, &derivation).build("12: linear forms of 60 variables", 0)
}

/// Rule 28 on sums of thousands of nodes.
fn linear_forms_apart() -> Worst {
    let setup = [cancelled(1), cancelled(2)].concat();
    let atom = Atom::unequal(&leaves(1, 16), &sum(&leaves(2, 15), &constant(1)));
    Frame { setup, ..Frame::default() }
        .atoms(16, &atom, &[28])
        .build("28: linear forms of thousands of nodes", 0)
}

/// Rule 28 on sums of 60 loaded words.
fn linear_forms_of_many_variables_apart() -> Worst {
    let atom = Atom::unequal(&leaves(1, 15), &sum(&leaves(1, 15), &constant(1)));
    sum_of_loads().atoms(16, &atom, &[28]).build("28: linear forms of 60 variables", 0)
}

/// Rule 2 on sums of 1,530 nodes, 31 times in each derivation: 0 + c ≤ (0 + c) + c.
fn same_terms_again_and_again() -> Worst {
    let setup = [cancelled(1), cancelled(2)].concat();
    let (atom, derivation) = spine(&constant(0), &leaves(1, 7), &leaves(2, 7), &[13, 2], &[10, 12]);
    Frame { setup, ..Frame::default() }
        .atoms(16, &atom, &derivation)
        .build("2: equal terms, 30 times a goal", 0)
}

/// Rule 0 on an assumption over two sums of 255 nodes, 30 times in each derivation.
fn assumptions() -> Worst {
    let mut setup = [cancelled(1), cancelled(2)].concat();
    // after this branch register 1 ≤ register 2; its target is set later
    setup.push(Instruction::JumpIfLess { a: 2, b: 1, target: 0 });
    let (atom, derivation) =
        spine(&constant(0), &register(1), &register(2), &[13, 0, 0, 0], &[10, 12]);
    let frame = Frame { setup, ..Frame::default() }.atoms(16, &atom, &derivation);
    with_assumption_branches(frame, "0: assumptions over 255 nodes")
}

/// The frame with the branches of its setup led to its return as well, and their edges derived.
fn with_assumption_branches(mut frame: Frame, name: &'static str) -> Worst {
    // On the edge of a branch of the setup the condition has the number that the opposite has
    // afterwards; the atoms are derived there by their linear forms.
    let on_edge: Vec<u8> = frame.atoms.iter().flat_map(|_| [10, 12]).chain([3, 3]).collect();
    let branches = frame.setup.iter().filter(|instruction| {
        matches!(instruction, Instruction::JumpIfLess { .. } | Instruction::JumpIfEqual { .. })
    });
    let edges = branches.count();
    frame.setup_proof.extend(on_edge.repeat(edges));
    let worst = frame.build(name, 0);
    aimed(worst)
}

/// A package of a frame with all jumps led to its return, the last instruction.
fn aimed(mut worst: Worst) -> Worst {
    let count = usize::from(u16::from_le_bytes([worst.package[0], worst.package[1]]));
    for index in 0..count {
        if (6..=8).contains(&worst.package[12 + 4 * index]) {
            let immediate = 12 + 4 * count + 4 * index;
            let target = (count - 1) as u32;
            worst.package[immediate..immediate + 4].copy_from_slice(&target.to_le_bytes());
        }
    }
    worst
}

/// Rule 0 with an index of more than two hundred.
fn hundreds_of_assumptions() -> Worst {
    let mut setup = cancelled(1);
    setup.extend(cancelled(2));
    setup.resize(setup.len() + 150, Instruction::JumpIfLess { a: 13, b: 12, target: 0 });
    setup.push(Instruction::JumpIfLess { a: 2, b: 1, target: 0 });
    let precondition = vec![Atom::at_most(&register(5), &register(6)); 16];
    let index = 16 + 150;
    let (atom, derivation) =
        spine(&constant(0), &register(1), &register(2), &[13, 0, index, 0], &[10, 12]);
    let frame = Frame { setup, precondition, ..Frame::default() }.atoms(16, &atom, &derivation);
    with_assumption_branches(frame, "0: hundreds of assumptions")
}

/// A branch to the first instruction, on what always holds.
fn back_to_start() -> Instruction {
    Instruction::JumpIfEqual { a: 0, b: 0, target: 0 }
}

/// One path of 512 instructions: so many loads, then branches to its start, then the last. Its
/// start has sixteen atoms that never hold, from which any goal is derived; on the edge of each
/// branch one goal is derived by way of the path's last variable and last assumption.
fn longest_path(name: &'static str, loads: u16, last: Instruction, number: u32) -> Worst {
    let never = Atom::less(&constant(0), &constant(0));
    let mut code = vec![Instruction::Load { d: 0, a: 0, i: 0 }; usize::from(loads)];
    code.resize(MAX_INSTRUCTIONS - 1, back_to_start());
    code.push(last);
    let branches = MAX_INSTRUCTIONS as u16 - loads - u16::from(number == 0);

    let by_assumption = |index: u16| [&[0], &index.to_le_bytes()[..]].concat();
    let variable = if loads == 0 { 0 } else { 15 + loads };
    let argument = [&[1], &variable.to_le_bytes()[..]].concat();
    let any = [&[24, 0, 0, 0, 0, 0][..], &by_assumption(0)].concat();
    let atoms = by_assumption(0).repeat(16);
    let mut proof = [&atoms[..], &any, &any, &any.repeat(usize::from(loads))].concat();
    for branch in 0..branches {
        let by_last =
            [&[24][..], &argument, &[7], &argument, &any, &[10], &by_assumption(16 + branch)];
        proof.extend([&atoms[..], &any, &by_last.concat()].concat());
    }
    proof.extend([&[24][..], &argument, &any].concat());
    let policy = Policy { precondition: vec![never.clone(); 16], ..frame_policy() };
    let annotations = vec![Annotation { index: 0, credit: constant(0), atoms: vec![never; 16] }];
    let package = Routine { code, annotations }.encode(&proof);
    Worst { name, policy: policy.encode(), package, number }
}

/// Rule 11 down to every leaf of two sums of 4,095 nodes.
fn parts() -> Worst {
    let setup = [doubled(1), doubled(2)].concat();
    let atom = Atom::equal(&leaves(1, 16), &leaves(2, 16));
    let mut bytes = Vec::new();
    full_tree(11, 11, 1, &mut bytes);
    Frame { setup, ..Frame::default() }.atoms(1, &atom, &bytes).build("11: down to the leaves", 0)
}

/// A derivation of so many levels of a rule with two premises, and of another rule below them.
fn full_tree(rule: u8, levels: u32, end: u8, bytes: &mut Vec<u8>) {
    if levels == 0 {
        return bytes.push(end);
    }
    bytes.push(rule);
    full_tree(rule, levels - 1, end, bytes);
    full_tree(rule, levels - 1, end, bytes);
}

/// Rules 14, 15 and 18 on sums and differences.
fn sums_and_differences() -> Worst {
    let setup = closed(1);
    let zero = register(1);
    let both = difference(&sum(&zero, &zero), &sum(&zero, &zero));
    let atom = Atom::at_most(&sum(&both, &both), &sum(&both, &both));
    // a - b ≤ c - d from a ≤ c, d ≤ b, b ≤ a, each by rule 14, the last premise of which by 18
    let part = [14, 3, 3, 18, 3];
    let one: Vec<u8> = [&[15][..], &part, &part, &part].concat();
    let derivation: Vec<u8> = [&[14][..], &one, &one, &[18, 3]].concat();
    Frame { setup, ..Frame::default() }
        .atoms(16, &atom, &derivation)
        .build("14, 15, 18: sums and differences", 0)
}

/// Rules 17 and 19 in turn: a ≤ b, b + 1, (b + 1) + 1 and so on.
fn growing_terms() -> Worst {
    let setup = closed(1);
    let atom = Atom::at_most(&leaves(1, 16), &leaves(1, 15));
    // a ≤ b from a < b + 1 from a ≤ b + 1 and a ≠ b + 1
    let mut derivation = Vec::new();
    for _ in 0..15 {
        derivation.extend([17, 19]);
    }
    derivation.push(3);
    derivation.extend([3; 15]);
    Frame { setup, ..Frame::default() }
        .atoms(16, &atom, &derivation)
        .build("17, 19: growing terms", 0)
}

/// Loads and stores, each by rule 22 or 23 with chains.
fn accesses() -> Worst {
    let mut code = vec![Instruction::Constant { d: 1, i: 0 }];
    let mut proof = Vec::new();
    for index in 0..314u32 {
        let (rule, instruction) = if index % 2 == 0 {
            (22, Instruction::Load { d: 2, a: 1, i: index % 64 })
        } else {
            (23, Instruction::Store { d: 2, a: 1, i: index % 64 })
        };
        code.push(instruction);
        // 0 ≤ t and t < 64, both by way of constants
        proof.extend([rule, 7]);
        proof.extend(chain_of_closed(6, 14));
        proof.extend(chain_of_closed(8, 14));
    }
    code.push(Instruction::Return);
    proof.push(3);
    let policy = Policy {
        memory: 64,
        limit: 1_000,
        regions: vec![Region { base: 0, length: 64, rights: READ | WRITE }; 8],
        precondition: Vec::new(),
        postcondition: Vec::new(),
    };
    let package = Routine { code, annotations: Vec::new() }.encode(&proof);
    Worst { name: "22, 23: loads and stores", policy: policy.encode(), package, number: 0 }
}

/// Rule 23 for as many stores as a package can have. The first number is the region of all but the
/// last of them, whose region has the second.
fn stores(name: &'static str, regions: Vec<Region>, named: [u8; 2], number: u32) -> Worst {
    let i = 3;
    let address = sum(&register(0), &constant(i));
    let Region { base, length, .. } = regions[usize::from(named[0])];
    let precondition = vec![
        Atom::at_most(&constant(base), &address),
        Atom::less(&address, &constant(base + length)),
    ];
    let mut code = vec![Instruction::Store { d: 2, a: 0, i }; MAX_INSTRUCTIONS - 1];
    code.push(Instruction::Return);
    let by_region = |region| [23, region, 0, 0, 0, 0, 1, 0];
    let mut proof = by_region(named[0]).repeat(MAX_INSTRUCTIONS - 2);
    proof.extend(by_region(named[1]));
    proof.push(3);
    let policy =
        Policy { memory: 64, limit: 1_000, regions, precondition, postcondition: Vec::new() };
    let package = Routine { code, annotations: Vec::new() }.encode(&proof);
    Worst { name, policy: policy.encode(), package, number }
}

/// Rule 23 under eight regions, all over one another.
fn stores_under_regions_over_the_word() -> Worst {
    let regions = vec![Region { base: 0, length: 64, rights: READ | WRITE }; 8];
    stores("23: eight regions over the word", regions, [7, 7], 0)
}

/// Rule 23 with a region that seven others without the right touch.
fn stores_beside_regions_without_the_right() -> Worst {
    let mut regions = vec![Region { base: 8, length: 8, rights: READ | WRITE }];
    for number in 1..8 {
        let (base, length) = if number % 2 == 0 { (0, 8) } else { (16, 48) };
        regions.push(Region { base, length, rights: READ });
    }
    stores("23: seven regions beside it lack the right", regions, [0, 0], 0)
}

/// Rule 23 whose last region shares a word with the last of eight, which lacks the right.
fn last_store_in_a_region_partly_protected() -> Worst {
    let mut regions = vec![Region { base: 0, length: 32, rights: READ | WRITE }; 7];
    regions[1].length = 64;
    regions.push(Region { base: 63, length: 1, rights: READ });
    stores("23: the last region is partly protected", regions, [0, 1], 16)
}

/// A chain of rule 6 or 8 over constants: each link has the argument 0 and is left by evaluation.
fn chain_of_closed(rule: u8, links: usize) -> Vec<u8> {
    let mut bytes = Vec::new();
    match rule {
        // 0 ≤ t by way of 0, again and again on the left
        6 => {
            for _ in 0..links {
                bytes.extend([6, 0, 0, 0, 0, 0]);
            }
            bytes.extend(vec![3; links + 1]);
        }
        // t < 64 by way of 63: t ≤ 63 and 63 < 64, the latter again and again
        _ => {
            for _ in 0..links {
                bytes.extend([8, 0, 63, 0, 0, 0, 3]);
            }
            bytes.push(3);
        }
    }
    bytes
}

/// Rule 24 for every goal, from an assumption v0 < v0.
fn contradiction() -> Worst {
    let setup = doubled(1);
    let precondition = vec![Atom::less(&register(0), &register(0))];
    let atom = Atom::less(&leaves(1, 16), &leaves(1, 15));
    let mut derivation = vec![24, 1, 0, 0];
    derivation.extend([8, 1, 0, 0, 2].repeat(25));
    derivation.extend([0, 0, 0]);
    Frame { setup, precondition, ..Frame::default() }
        .atoms(16, &atom, &derivation)
        .build("24, 8: contradiction", 0)
}

/// Rule 6 as a full tree of 12 levels.
fn wide_chains() -> Worst {
    fn derivation(levels: u32, bytes: &mut Vec<u8>) {
        if levels == 0 {
            bytes.push(2);
            return;
        }
        bytes.extend([6, 1, 0, 0]);
        derivation(levels - 1, bytes);
        derivation(levels - 1, bytes);
    }
    let mut bytes = Vec::new();
    derivation(12, &mut bytes);
    let atom = Atom::at_most(&register(0), &register(0));
    Frame::default().atoms(1, &atom, &bytes).build("6: wide chains", 0)
}

/// Rule 5 with arguments of 31 nodes.
fn long_arguments(name: &'static str, m: &Rc<Term>) -> Worst {
    let mut bytes = Vec::new();
    for _ in 0..31 {
        bytes.push(5);
        m.encode(&mut bytes);
    }
    bytes.extend([1; 32]);
    let atom = Atom::equal(m, m);
    Frame::default().atoms(1, &atom, &bytes).build(name, 0)
}

/// 30 shifts of a term.
fn shifts(term: &Rc<Term>) -> Rc<Term> {
    (0..30).fold(Rc::clone(term), |term, count| shift(count, &term))
}

/// Masks of so many leaves, all one register.
fn masks(number: u16, count: usize) -> Rc<Term> {
    balanced(&vec![register(number); count], mask).expect("at least one")
}

/// Annotations of 31 nodes a side, as many as a package holds.
fn annotations_of_shifts() -> Worst {
    let m = shifts(&register(0));
    let atoms = vec![Atom::equal(&m, &m); 15];
    let mut routine = Routine::default();
    let mut proof = Vec::new();
    for index in 0..33 {
        routine.code.push(Instruction::Shift { d: 0, a: 0, i: 1 });
        proof.extend([1; 15]);
        proof.extend([3, 3]);
        let credit = constant(1_000 - index as u32);
        routine.annotations.push(Annotation { index, credit, atoms: atoms.clone() });
    }
    routine.code.push(Instruction::Return);
    proof.push(3);
    let policy = Policy { limit: 1_000, ..frame_policy() }.encode();
    let package = routine.encode(&proof);
    Worst { name: "1: annotations of 30 shifts", policy, package, number: 0 }
}

/// Rule 3 on a < b, three or four times in each derivation: a < b from a ≤ b and a ≠ b, a ≤ b from
/// a < b, and so on. With more, fewer branches would fit.
fn evaluated_again_and_again(
    setup: Vec<Instruction>,
    a: Option<Rc<Term>>,
    b: &Rc<Term>,
    name: &'static str,
) -> Worst {
    let atom = Atom::less(&a.expect("at least one"), b);
    let derivation = |more: usize| [&[19][..], &[9, 19].repeat(more), &vec![3; 2 + more]].concat();
    Frame { setup, ..Frame::default() }
        .atoms(8, &atom, &derivation(1))
        .atoms(8, &atom, &derivation(2))
        .build(name, 0)
}

/// Rule 3 on sums of shifts: 4,095 nodes, nearly all of which are or hold a shift.
fn closed_shifts() -> Worst {
    let mut setup = vec![Instruction::Constant { d: 1, i: 1 }];
    setup.resize(15, Instruction::Shift { d: 1, a: 1, i: 0 });
    setup.resize(19, Instruction::Add { d: 1, a: 1, b: 1 });
    let nothing = balanced_sum(&vec![difference(&register(1), &register(1)); 8]);
    let name = "3: closed shifts of thousands of nodes";
    evaluated_again_and_again(setup, nothing, &leaves(1, 16), name)
}

/// Rule 3 on masks of sums of masks.
fn closed_masks() -> Worst {
    let mut setup = vec![
        Instruction::Constant { d: 1, i: u32::MAX },
        Instruction::Mask { d: 1, a: 1, i: u32::MAX },
    ];
    setup.resize(8, Instruction::Add { d: 1, a: 1, b: 1 });
    let nothing = balanced(&vec![difference(&register(1), &register(1)); 8], mask);
    let name = "3: closed masks of thousands of nodes";
    evaluated_again_and_again(setup, nothing, &masks(1, 16), name)
}

/// Where [`sums_of_masked_terms`] puts a term before it is added.
const TERM: u8 = 15;

/// The code that sets ten registers to sums of masked terms: so many terms in the first five, the
/// same in the other five, the last first. `masked` sets a register to the term of a number, for
/// the first time or again.
fn sums_of_masked_terms(
    terms: u32,
    masked: impl Fn(u8, u32, bool) -> Instruction,
) -> Vec<Instruction> {
    let each = terms.div_ceil(5);
    let mut code = Vec::new();
    for place in 0..2 * terms {
        let (again, at) = (place >= terms, place % terms);
        let number = if again { terms - 1 - at } else { at };
        let total = (at / each) as u8 + if again { 5 } else { 0 };
        if at % each == 0 {
            code.push(masked(total, number, again));
        } else {
            code.push(masked(TERM, number, again));
            code.push(Instruction::Add { d: total, a: total, b: TERM });
        }
    }
    code
}

/// Rule 12 on registers 0 to 4 less registers 5 to 9, 61 times in each derivation.
fn cancelled_sums(setup: Vec<Instruction>, name: &'static str) -> Worst {
    let total = |numbers: std::ops::Range<u16>| {
        balanced_sum(&numbers.map(register).collect::<Vec<_>>()).expect("at least one")
    };
    let nothing = difference(&total(0..5), &total(5..10));
    let zero = constant(0);
    let (atom, derivation) = spine(&zero, &nothing, &zero, &[10, 12, 10, 12], &[10, 12]);
    Frame { setup, ..Frame::default() }.atoms(16, &atom, &derivation).build(name, 0)
}

/// Rule 12 on 54 masked terms, each at two nodes that the proved checker's hints do not take for
/// the same: masks of five registers that are the same term of 19 nodes, built apart. To find the
/// other node of a term is to compare these 19 nodes with those of most others.
fn masked_terms_at_two_nodes() -> Worst {
    const FIRST_COPY: u8 = 10;
    let mut setup = Vec::new();
    for copy in 0..5 {
        let d = FIRST_COPY + copy;
        setup.extend(apart(d));
        setup.push(Instruction::Shift { d, a: d, i: 1 });
        setup.resize(setup.len() + 2, Instruction::Add { d, a: d, b: d });
    }
    setup.extend(sums_of_masked_terms(54, |d, number, again| {
        let copy = (number + u32::from(again)) % 5;
        Instruction::Mask { d, a: FIRST_COPY + copy as u8, i: number }
    }));
    cancelled_sums(setup, "12: masked terms at two nodes each")
}

/// Rule 12 on 112 masks of register 10 with constants that take each other's hint, each at two nodes.
fn masked_terms_of_three_nodes() -> Worst {
    const TERMS: u32 = 112;
    let constants: Vec<u32> =
        (0..).filter(|&constant| hint(constant) == hint(0)).take(TERMS as usize).collect();
    let setup = sums_of_masked_terms(TERMS, |d, number, _| Instruction::Mask {
        d,
        a: 10,
        i: constants[number as usize],
    });
    cancelled_sums(setup, "12: masked registers at two nodes each")
}

/// Rule 12 on seven shifted terms of 256 nodes a side, which are the same and built apart: they
/// are new nodes in each goal, and differ from each other in the last leaf alone.
fn shifted_terms_of_each_goal() -> Worst {
    const COPIES: [u8; 2] = [14, 15];
    let mut setup = Vec::new();
    for d in COPIES {
        // 3 nodes, 4, 6; 13, 14 and so on; 253
        setup.extend(apart(d));
        let shifted = Instruction::Shift { d, a: d, i: 1 };
        setup.extend([shifted, Instruction::AddConstant { d, a: d, i: 1 }]);
        let doubled = Instruction::Add { d, a: d, b: d };
        setup.extend([doubled, shifted].repeat(4));
        setup.push(doubled);
    }
    for number in 0..14 {
        let a = COPIES[usize::from(number) / 7];
        setup.push(Instruction::AddConstant { d: number, a, i: u32::from(number) % 7 });
    }
    let side = |numbers: &mut dyn Iterator<Item = u16>| {
        let terms: Vec<_> = numbers.map(|number| shift(0, &register(number))).collect();
        balanced_sum(&terms).expect("at least one")
    };
    let atom = Atom::equal(&side(&mut (0..7)), &side(&mut (7..14).rev()));
    Frame { setup, ..Frame::default() }
        .atoms(16, &atom, &[12])
        .build("12: shifted terms new in each goal", 0)
}

/// Rule 12 on a masked field and a constant, eight times in each derivation.
fn masked_field() -> Worst {
    let setup = vec![Instruction::Mask { d: 1, a: 0, i: 255 }];
    let (field, one) = (register(1), constant(1));
    let eight = |part| balanced_sum(&vec![part; 8]).expect("at least one");
    let atom = Atom::equal(&eight(sum(&field, &one)), &eight(sum(&one, &field)));
    let mut bytes = Vec::new();
    full_tree(11, 3, 12, &mut bytes);
    Frame { setup, ..Frame::default() }
        .atoms(16, &atom, &bytes)
        .build("12: a masked field and a constant", 0)
}

/// Rule 11 through masks, sums and shifts down to the leaves.
fn masks_and_shifts_in_parts() -> Worst {
    let mut setup = Vec::new();
    for d in [1, 2] {
        setup.extend(apart(d));
        for _ in 0..5 {
            setup.push(Instruction::Shift { d, a: d, i: 1 });
            setup.push(Instruction::Add { d, a: d, b: d });
        }
    }
    let atom = Atom::equal(&masks(1, 16), &masks(2, 16));
    // four masks, then five sums of shifts, then the sum that was built apart
    fn derivation(masks: u32, shifts: u32, bytes: &mut Vec<u8>) {
        let parts = match (masks, shifts) {
            (0, 0) => return bytes.push(1),
            (0, _) => (0, shifts - 1),
            _ => (masks - 1, shifts),
        };
        bytes.push(11);
        for _ in 0..2 {
            bytes.extend((masks == 0).then_some(11));
            derivation(parts.0, parts.1, bytes);
        }
    }
    let mut bytes = Vec::new();
    derivation(4, 5, &mut bytes);
    Frame { setup, ..Frame::default() }
        .atoms(1, &atom, &bytes)
        .build("11: masks and shifts down to the leaves", 0)
}

/// Rule 25, 30 times in each derivation: a masked with b ≤ b', where b and b' are built apart.
fn masks_at_most() -> Worst {
    let masked = mask(&register(0), &leaves(1, 7));
    let (atom, derivation) = spine(&constant(0), &masked, &leaves(2, 7), &[13, 25], &[10, 12]);
    Frame { setup: built_apart(&[1, 2]), ..Frame::default() }
        .atoms(16, &atom, &derivation)
        .build("25: masks with terms of 1,791 nodes", 0)
}

/// Rule 26, 30 times in each derivation: a shifted ≤ a', where a and a' are built apart.
fn shifts_at_most() -> Worst {
    let shifted = shift(1, &leaves(1, 7));
    let (atom, derivation) = spine(&constant(0), &shifted, &leaves(2, 7), &[13, 26], &[10, 12]);
    Frame { setup: built_apart(&[1, 2]), ..Frame::default() }
        .atoms(16, &atom, &derivation)
        .build("26: shifts of terms of 1,791 nodes", 0)
}

/// Rule 27 on eight shifts, summed up by rule 14.
fn shifts_at_most_constants() -> Worst {
    let each = shift(28, &register(1));
    let [left, right] = [each, constant(15)].map(|part| balanced_sum(&vec![part; 8]));
    let atom = Atom::at_most(&left.expect("at least one"), &right.expect("at least one"));
    fn derivation(levels: u32, bytes: &mut Vec<u8>) {
        if levels == 0 {
            return bytes.push(27);
        }
        bytes.push(14);
        derivation(levels - 1, bytes);
        derivation(levels - 1, bytes);
        bytes.push(3);
    }
    let mut bytes = Vec::new();
    derivation(3, &mut bytes);
    Frame { setup: built_apart(&[1]), ..Frame::default() }
        .atoms(16, &atom, &bytes)
        .build("27: shifts and constants", 0)
}

/// A proof that is over with its first byte, in a package of the full length.
fn full_length_spare_proof() -> Worst {
    let policy = Policy {
        memory: 1,
        limit: 1,
        regions: vec![Region { base: 0, length: 1, rights: READ }],
        precondition: Vec::new(),
        postcondition: Vec::new(),
    };
    let routine = Routine { code: vec![Instruction::Return], annotations: Vec::new() };
    let package = routine.encode(&vec![2; MAX_PACKAGE - 20]);
    Worst { name: "19: spare proof", policy: policy.encode(), package, number: 19 }
}

/// A long proof whose last derivation is wrong.
fn late_refusal() -> Worst {
    let setup = [cancelled(1), cancelled(2)].concat();
    let atom = Atom::equal(&leaves(1, 4), &leaves(2, 4));
    let mut frame = Frame { setup, ..Frame::default() }.atoms(16, &atom, &[12]);
    frame.last = Some(vec![9]);
    frame.build("15: refused at the very end", 15)
}

/// Chains of one rule, of the full depth where the rule allows it.
fn deep_chains() -> Vec<Worst> {
    let zero = register(1);
    let one = constant(1);
    let chain = |name, atom: &Atom, derivation: &[u8]| {
        Frame { setup: closed(1), ..Frame::default() }.atoms(16, atom, derivation).build(name, 0)
    };
    let repeated = |part: &[u8], times: usize, end: &[u8]| [&part.repeat(times)[..], end].concat();
    // 0 + 0 = 0 + 0
    let sums = Atom::equal(&leaves(1, 16), &leaves(1, 16));
    let unequal = Atom::unequal(&leaves(1, 16), &one);
    let at_most = Atom::at_most(&zero, &zero);
    let nested = (0..15).fold(Rc::clone(&zero), |term, _| difference(&term, &zero));
    let differences = Atom::at_most(&nested, &nested);
    vec![
        chain("4: 32 levels", &sums, &repeated(&[4], 31, &[1])),
        chain("21: 32 levels", &unequal, &repeated(&[21], 31, &[3])),
        chain("17: evaluated at once", &at_most, &[17, 3]),
        chain(
            "15: nested differences",
            &differences,
            &[&[15].repeat(15)[..], &[2], &[3, 3].repeat(15)].concat(),
        ),
    ]
}

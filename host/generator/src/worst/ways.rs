//! The costliest packages whose branches lead on without an annotation (S-5): a block evaluates up
//! to 4,096 instructions, and has seventeen goals each time that its return is reached, each with
//! one byte of proof.

use std::rc::Rc;

use super::{frame_policy, hint, leaves, register, Worst, LEFT, MAX_INSTRUCTIONS};
use super::{MAX_PACKAGE, RIGHT};
use crate::assemble::{Annotation, Instruction, Policy, Routine};
use crate::term::{balanced, balanced_sum, constant, mask, shift, Atom, Term};

/// Instructions that a block may evaluate.
const MAX_EVALUATED: usize = 4_096;

/// A routine of some instructions and then branches whose both ways lead on to one return, which is
/// reached again and again, each time with the postcondition's atoms as goals. It has two blocks
/// over the same code.
#[derive(Clone, Debug, Default)]
struct Ways {
    setup: Vec<Instruction>,
    precondition: Vec<Atom>,
    /// The postcondition's atoms.
    atoms: Vec<Atom>,
    /// The rule by which each of them is derived.
    rule: u8,
}

impl Ways {
    /// As many ways as a block may evaluate, and as fit.
    fn build(&self, name: &'static str) -> Worst {
        let goals = self.atoms.len() + 1;
        // two instructions before the setup and a return; at most 24 branches, an annotation
        let fixed = 12 + 8 * (self.setup.len() + 3 + 24) + 8 + 2;
        let evaluated = (MAX_EVALUATED - self.setup.len()) / 2;
        let ways = evaluated.min((MAX_PACKAGE - fixed) / (2 * goals));

        let mut code = vec![branch(2), Instruction::Jump { target: 2 }];
        code.extend(&self.setup);
        code.extend(branches(code.len(), ways));
        code.push(Instruction::Return);
        let mut each = vec![self.rule; self.atoms.len()];
        each.push(3);
        let block = each.repeat(ways);
        let proof = [&block[..], &[3, 3], &block].concat();
        let policy = Policy {
            precondition: self.precondition.clone(),
            postcondition: self.atoms.clone(),
            ..frame_policy()
        };
        let annotation = Annotation { index: 1, credit: constant(10_000), atoms: Vec::new() };
        let package = Routine { code, annotations: vec![annotation] }.encode(&proof);
        Worst { name, policy: policy.encode(), package, number: 0 }
    }
}

fn branch(target: usize) -> Instruction {
    Instruction::JumpIfEqual { a: LEFT, b: RIGHT, target: target as u32 }
}

/// Branches from an index on, by which the instruction after them is reached so many times. A
/// branch whose both ways lead to the next doubles the ways that are left; before the row of these
/// come some that lead into it.
fn branches(start: usize, ways: usize) -> Vec<Instruction> {
    let doublings = ways.ilog2();
    let more: Vec<u32> = (0..doublings).rev().filter(|bit| ways >> bit & 1 == 1).collect();
    let row = start + more.len();
    let into = |left: u32| branch(row + (doublings - left) as usize);
    more.iter().map(|&left| into(left)).chain((0..doublings).rev().map(into)).collect()
}

/// The packages.
pub(super) fn cases() -> Vec<Worst> {
    vec![
        most_evaluated(),
        most_blocks(),
        equal_terms(),
        closed_terms(),
        thousands_of_nodes(),
        masks_in_any_order(),
        shifts_in_any_order(),
        masks_with_constants(),
        shifted_masks(),
        masks_at_most(),
    ]
}

/// Two blocks of 4,096 instructions, nearly all of them branches and returns.
fn most_evaluated() -> Worst {
    Ways::default().build("ways: two blocks of 4,096 instructions")
}

/// 64 blocks over the same long code, each of which goes through it eight times.
fn most_blocks() -> Worst {
    const BLOCKS: usize = 64;
    const TIMES: u32 = 8;
    let mut code = vec![branch(BLOCKS); BLOCKS - 1];
    code.push(Instruction::Jump { target: BLOCKS as u32 });
    code.extend(branches(BLOCKS, TIMES as usize));
    for place in code.len()..MAX_INSTRUCTIONS - 1 {
        let (d, i) = ((place % 16) as u8, place as u32);
        code.push(match place % 9 {
            0 => Instruction::Constant { d, i },
            _ => Instruction::AddConstant { d, a: d, i },
        });
    }
    code.push(Instruction::Return);
    // the second way of a block's first branch leads to the next annotation
    let block = [&[3; TIMES as usize][..], &[3, 3]].concat();
    let mut proof = block.repeat(BLOCKS - 1);
    proof.extend([3; TIMES as usize]);
    let annotation = |index| {
        let credit = constant(10_000 - index as u32);
        Annotation { index, credit, atoms: Vec::new() }
    };
    let annotations = (1..BLOCKS).map(annotation).collect();
    let package = Routine { code, annotations }.encode(&proof);
    let name = "ways: 64 blocks of thousands of instructions";
    Worst { name, policy: frame_policy().encode(), package, number: 0 }
}

/// Sets each register to a term of 253 nodes: registers 0 to 7 to terms that differ in the last
/// leaf alone, the others to the same eight terms, built apart: a term begins with a constant whose
/// hint another constant takes in the term before.
fn eight_terms_twice() -> Vec<Instruction> {
    let constants = constants_of_one_hint(2);
    let mut code = Vec::new();
    // register 0 last: the others are built on it
    for d in (0..16).rev() {
        let one_more = Instruction::AddConstant { d, a: d, i: constants[1] };
        let doubled = Instruction::Add { d, a: d, b: d };
        // 3 nodes, 29; 59, 61; 123, 125; 251, 253
        code.push(Instruction::AddConstant { d, a: 0, i: constants[0] });
        code.resize(code.len() + 13, one_more);
        code.extend([doubled, one_more, doubled, one_more, doubled]);
        code.push(Instruction::AddConstant { d, a: d, i: 20 + u32::from(d) % 8 });
    }
    code
}

fn sum_of(parts: impl IntoIterator<Item = Rc<Term>>) -> Rc<Term> {
    balanced_sum(&parts.into_iter().collect::<Vec<_>>()).expect("at least one")
}

/// Rule 1 on sums of 4,063 nodes, none of which is known to be equal to another.
fn equal_terms() -> Worst {
    let side = |from: u16| sum_of((0..16).map(|leaf| register(from + leaf / 2)));
    let atoms = vec![Atom::equal(&side(0), &side(8)); 16];
    Ways { setup: eight_terms_twice(), atoms, rule: 1, ..Ways::default() }
        .build("ways: 1: equal terms built apart")
}

/// Rule 3 on masks of all registers, each a mask or sum without a variable at 25 nodes of its own.
fn closed_terms() -> Worst {
    let mut setup = Vec::new();
    for d in 0..16 {
        setup.push(Instruction::Constant { d, i: u32::from(d) });
        setup.extend((0..14).map(|i| Instruction::Mask { d, a: d, i: 4_000_000 + i }));
        setup.extend((0..9).map(|i| Instruction::AddConstant { d, a: d, i }));
        setup.resize(setup.len() + 2, Instruction::Add { d, a: d, b: d });
    }
    let side = |from: u16| {
        let parts: Vec<_> = (0..16).map(|leaf| register((from + leaf) % 16)).collect();
        balanced(&parts, mask).expect("at least one")
    };
    let atoms = vec![Atom::equal(&side(0), &side(8)); 16];
    Ways { setup, atoms, rule: 3, ..Ways::default() }.build("ways: 3: closed masks")
}

/// Rule 12 on sums over nearly as many nodes of the table as a path can have.
fn thousands_of_nodes() -> Worst {
    let mut setup = Vec::new();
    for d in 0..16 {
        let more = |count| (0..count).map(move |i| Instruction::AddConstant { d, a: d, i });
        let doubled = Instruction::Add { d, a: d, b: d };
        setup.push(Instruction::Mask { d, a: d, i: 4_000_000 + u32::from(d) });
        setup.extend(more(15).chain([doubled]).chain(more(9)).chain([doubled]).chain(more(2)));
    }
    let constants = sum_of((0..16).map(|leaf| constant(5_000 + leaf)));
    let precondition = vec![Atom::at_most(&constants, &leaves(0, 16)); 16];
    let side = |from: u16| sum_of((0..16).map(|leaf| register((from + leaf) % 16)));
    let atoms = vec![Atom::equal(&side(0), &side(8)); 16];
    Ways { setup, precondition, atoms, rule: 12 }.build("ways: 12: thousands of nodes")
}

/// Rule 12 on sums of so many terms a side, those of the left side in order, those of the right
/// side in another order in each of the sixteen atoms. `term` makes a term of its number, on the
/// first eight registers or on the others.
fn in_any_order(name: &'static str, terms: usize, term: impl Fn(bool, usize) -> Rc<Term>) -> Worst {
    let atom = |number: usize| {
        let left = sum_of((0..terms).map(|place| term(false, place)));
        let right = sum_of((0..terms).map(|place| {
            let turned = if number % 2 == 0 { place } else { terms - 1 - place };
            term(true, (turned + number) % terms)
        }));
        Atom::equal(&left, &right)
    };
    let atoms = (0..16).map(atom).collect();
    Ways { setup: eight_terms_twice(), atoms, rule: 12, ..Ways::default() }.build(name)
}

/// The register of one of the eight terms, the first or the second that has it.
fn copy(second: bool, number: usize) -> Rc<Term> {
    register((number % 8) as u16 + if second { 8 } else { 0 })
}

/// Rule 12 on masks of 507 nodes.
fn masks_in_any_order() -> Worst {
    in_any_order("ways: 12: masks in any order", 8, |second, number| {
        mask(&copy(second, number), &copy(second, number + 1))
    })
}

/// Rule 12 on shifts of 254 nodes.
fn shifts_in_any_order() -> Worst {
    in_any_order("ways: 12: shifts in any order", 10, |second, number| {
        shift((number / 8) as u8, &copy(second, number))
    })
}

/// Constants that take each other's hint, so that each is new wherever it stands in a goal.
fn constants_of_one_hint(count: usize) -> Vec<u32> {
    (0..).filter(|&constant| hint(constant) == hint(0)).take(count).collect()
}

/// Rule 12 on masks with constants that take each other's hint.
fn masks_with_constants() -> Worst {
    let constants = constants_of_one_hint(8);
    in_any_order("ways: 12: masks with constants", 8, |second, number| {
        mask(&copy(second, number), &constant(constants[number]))
    })
}

/// Rule 12 on shifts of masks with shifts of such constants.
fn shifted_masks() -> Worst {
    let constants = constants_of_one_hint(5);
    in_any_order("ways: 12: shifted masks with constants", 5, |second, number| {
        shift(0, &mask(&copy(second, number), &shift(0, &constant(constants[number]))))
    })
}

/// Rule 25 on sums of 3,809 nodes built apart.
fn masks_at_most() -> Worst {
    let side = |from: u16| sum_of((0..14).map(|leaf| register(from + leaf / 2)));
    let atoms = vec![Atom::at_most(&mask(&register(0), &side(0)), &side(8)); 16];
    Ways { setup: eight_terms_twice(), atoms, rule: 25, ..Ways::default() }
        .build("ways: 25: masks with terms built apart")
}

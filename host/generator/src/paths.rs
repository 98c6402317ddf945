//! Sizes at the limit of what a block evaluates, and deeply nested branches (document 02, S-5).

use crate::assemble::{Annotation, Instruction, Policy, Region, Routine, READ, WRITE};
use crate::goals::{goals, goals_so_far, Origin};
use crate::hostile::Named;
use crate::random::Random;
use crate::term::{constant, variable, Atom, Goal};

/// A policy and a package, with the answer that they are made for.
#[derive(Clone, Debug)]
pub struct Limit {
    /// What it is.
    pub name: String,
    /// The policy.
    pub policy: Vec<u8>,
    /// The package.
    pub package: Vec<u8>,
    /// Number, place and goals.
    pub answer: [usize; 3],
}

const RETURN: Instruction = Instruction::Return;
const CONSTANT: Instruction = Instruction::Constant { d: 9, i: 7 };
const DOUBLE: Instruction = Instruction::Add { d: 1, a: 1, b: 1 };
const LOAD: Instruction = Instruction::Load { d: 9, a: 3, i: 0 };

fn branch_to(target: usize) -> Instruction {
    Instruction::JumpIfLess { a: 1, b: 2, target: target as u32 }
}

fn jump_to(target: usize) -> Instruction {
    Instruction::Jump { target: target as u32 }
}

fn policy() -> Policy {
    Policy {
        memory: 1,
        limit: 1_000_000,
        regions: vec![Region { base: 0, length: 1, rights: READ | WRITE }],
        precondition: Vec::new(),
        postcondition: Vec::new(),
    }
}

/// The cases.
pub fn path_cases() -> Vec<Limit> {
    let mut cases = Vec::new();
    evaluated(&mut cases);
    loads(&mut cases);
    last_paths(&mut cases);
    two_blocks(&mut cases);
    nested_branches(&mut cases);
    targets(&mut cases);
    cases
}

/// Random code with forward jumps in any order, and derivations by rules 3, 22 and 23, which fit
/// unless a step limit or a credit is passed: at which goal it is depends on the order.
pub fn path_case(random: &mut Random) -> Named {
    let count = match random.below(8) {
        0 => 40 + random.below(200),
        _ => 2 + random.below(38),
    };
    let each = *random.pick(&[2, 3, 4, 8, 16]);
    let mut code: Vec<Instruction> =
        (0..count).map(|index| any_instruction(index, count, each, random)).collect();
    let indices: Vec<usize> = (1..count).filter(|_| random.chance(1, 30)).take(8).collect();
    for &start in [0].iter().chain(&indices) {
        code[start] = Instruction::Constant { d: 3, i: 0 };
    }
    if random.chance(15, 16) {
        code[count - 1] = RETURN;
    }
    let annotations = indices
        .into_iter()
        .map(|index| {
            let credit = constant(200_000 - 300 * index as u32);
            Annotation { index, credit, atoms: Vec::new() }
        })
        .collect();
    let routine = Routine { code, annotations };
    let steps = count - random.below(count / 2 + 1);
    let limit = if random.chance(1, 4) { steps as u32 } else { 200_000 };
    let policy = Policy { limit, ..policy() };
    let mut proof: Vec<u8> = goals_so_far(&policy, &routine)
        .iter()
        .flat_map(|task| match (task.origin, &task.goal) {
            (Origin::Access, Goal::Readable(_)) => vec![22, 0, 3, 3],
            (Origin::Access, _) => vec![23, 0, 3, 3],
            _ => vec![3],
        })
        .collect();
    match random.below(8) {
        0 => proof.push(3),
        1 => proof.truncate(random.below(proof.len() + 1)),
        _ => {}
    }
    ("paths in any order".into(), policy.encode(), routine.encode(&proof))
}

/// An instruction of [`path_case`]: about one of `each` is a branch.
fn any_instruction(index: usize, count: usize, each: usize, random: &mut Random) -> Instruction {
    let rest = count - 1 - index;
    let target = match random.below(200) {
        0 => random.below(index + 1),
        1..=90 => index + 1,
        91..=150 => index + 1 + random.below(rest.min(4)),
        _ => index + 1 + random.below(rest),
    };
    let target = target.min(count - 1);
    let [a, b] = std::array::from_fn(|_| random.below(3) as u8);
    if random.chance(1, each) {
        return match random.below(2) {
            0 => Instruction::JumpIfLess { a, b, target: target as u32 },
            _ => Instruction::JumpIfEqual { a, b, target: target as u32 },
        };
    }
    match random.below(32) {
        0 | 1 => jump_to(target),
        2 => RETURN,
        3..=9 => Instruction::Add { d: a, a, b },
        10..=13 => DOUBLE,
        14..=17 => LOAD,
        18 | 19 => Instruction::Load { d: a, a: 3, i: 0 },
        20 | 21 => Instruction::Store { d: a, a: 3, i: 0 },
        _ => CONSTANT,
    }
}

fn add(cases: &mut Vec<Limit>, name: &str, routine: &Routine, proof: &[u8], answer: [usize; 3]) {
    let (name, policy, package) = (name.to_string(), policy().encode(), routine.encode(proof));
    cases.push(Limit { name, policy, package, answer });
}

fn without_annotations(code: Vec<Instruction>) -> Routine {
    Routine { code, annotations: Vec::new() }
}

/// Instructions from index `at` on of which a block evaluates `total`, each path ending in `last`,
/// which is counted; and how many paths there are. Branches lead to the next index, so that all
/// that follows is evaluated twice, until no more than `straight` instructions are left.
fn tree(at: usize, total: usize, straight: usize, last: Instruction) -> (Vec<Instruction>, usize) {
    let (mut code, mut left, mut paths) = (Vec::new(), total, 1);
    while left > straight {
        if left % 2 == 1 {
            code.push(branch_to(at + code.len() + 1));
            left /= 2;
            paths *= 2;
        } else {
            code.push(CONSTANT);
            left -= 1;
        }
    }
    code.resize(code.len() + left - 1, CONSTANT);
    code.push(last);
    (code, paths)
}

/// 4,095 to 4,098 evaluated instructions, by few paths and by many, to returns.
fn evaluated(cases: &mut Vec<Limit>) {
    for straight in [1, 2, 3, 30, 100, 450] {
        for total in 4_095..=4_098 {
            let (code, paths) = tree(0, total, straight, RETURN);
            let last = code.len() - 1;
            let name = format!("{total} evaluated, {paths} paths");
            // the last path's return is the last instruction evaluated, its goal the last
            let answer = match (total, code[last - 1]) {
                (..=4_096, _) => [0, 0, paths],
                (4_097, _) => [23, last, paths - 1],
                (_, CONSTANT) => [23, last - 1, paths - 1],
                // a branch to the return: it was the one before, too
                _ => [23, last, paths - 2],
            };
            add(cases, &name, &without_annotations(code), &vec![3; paths], answer);
        }
    }
}

/// Loads on all paths. Of each path the last is asked for by its variable's number.
fn loads(cases: &mut Vec<Limit>) {
    for (total, straight) in [(4_095, 31), (4_095, 200), (2_049, 60)] {
        let (mut code, paths) = tree(1, total, straight, RETURN);
        for instruction in &mut code {
            if *instruction == CONSTANT {
                *instruction = LOAD;
            }
        }
        code.insert(0, Instruction::Constant { d: 3, i: 0 });
        let on_a_path = code.iter().filter(|&&instruction| instruction == LOAD).count();
        let value = variable(9);
        let policy = Policy { postcondition: vec![Atom::equal(&value, &value)], ..policy() };
        let routine = without_annotations(code);
        let tasks = goals(&policy, &routine).expect("no more than 4,096 are evaluated");
        for (further, number) in [(0, 0), (1, 18)] {
            let [low, high] = (16 + on_a_path as u16 - 1 + further).to_le_bytes();
            let proof: Vec<u8> = tasks
                .iter()
                .flat_map(|task| match task.origin {
                    Origin::Access => vec![22, 0, 3, 3],
                    Origin::Postcondition(_) => vec![5, 1, low, high, 1, 1],
                    _ => vec![3],
                })
                .collect();
            let place = routine.encode(&[]).len() + 4 * on_a_path + 2;
            let answer = if number == 0 { [0, 0, tasks.len()] } else { [18, place, on_a_path] };
            let name = format!("{total} evaluated with loads, {paths} paths, {number}");
            let (policy, package) = (policy.encode(), routine.encode(&proof));
            cases.push(Limit { name, policy, package, answer });
        }
    }
}

/// A path behind `total` evaluated instructions and their goals: it starts with an instruction
/// more, the jump to it, and is `tail`.
fn last_path(total: usize, tail: &[Instruction]) -> (Vec<Instruction>, usize) {
    // a branch, the jump, and the tree that the branch leads to
    let (tree, paths) = tree(2, total - 2, 31, RETURN);
    let mut code = vec![branch_to(2), jump_to(2 + tree.len())];
    code.extend(tree);
    code.extend(tail);
    (code, paths)
}

/// What stands at the end of the last path, with so many instructions evaluated before it.
fn last_paths(cases: &mut Vec<Limit>) {
    for before in 4_093..=4_097 {
        let mut tails = |what: &str, tail: &[Instruction], number: usize, at: usize| {
            let (code, paths) = last_path(before + 1 - at, tail);
            let (start, count) = (code.len() - tail.len(), code.len());
            let routine = without_annotations(code);
            let length = routine.encode(&vec![3; paths]).len();
            let place = match number {
                13 => count,
                15 => length,
                _ => start + at - 1,
            };
            let answer = match before {
                ..=4_095 => [number, place, paths],
                4_096 if number == 13 => [13, place, paths],
                _ => [23, (start + at - 1) - (before - 4_096), paths],
            };
            let name = format!("{what} behind {before} evaluated");
            add(cases, &name, &routine, &vec![3; paths], answer);
        };
        tails("a term of 511 nodes", &[DOUBLE; 8], 14, 8);
        tails("a load without a proof", &[CONSTANT, CONSTANT, LOAD, RETURN], 15, 3);
        tails("a return without a proof", &[CONSTANT, CONSTANT, RETURN], 15, 3);
        tails("the end of the code", &[CONSTANT; 2], 13, 3);
    }
}

/// A block that evaluates `first` instructions up to an annotated index, and its block, which
/// evaluates `second`; with one wrong byte at the end, if asked for.
fn two_blocks(cases: &mut Vec<Limit>) {
    for (first, second) in
        [(2_049, 2_049), (4_096, 4_096), (4_097, 1), (4_096, 4_097), (4_095, 4_098)]
    {
        let (mut code, arrivals) = tree(0, first, 31, RETURN);
        let start = code.len();
        // the arrival is no instruction: the path goes on there after its last constant
        code[start - 1] = CONSTANT;
        let (rest, returns) = tree(start, second, 31, RETURN);
        code.extend(rest);
        let credit = constant(1_000);
        let annotations = vec![Annotation { index: start, credit, atoms: Vec::new() }];
        let answer = match (first, second) {
            (4_097, _) => [23, start - 1, 2 * (arrivals - 1)],
            (_, 4_097) => [23, code.len() - 1, 2 * arrivals + returns - 1],
            (_, 4_098) => [23, code.len() - 2, 2 * arrivals + returns - 1],
            _ => [0, 0, 2 * arrivals + returns],
        };
        let proof = vec![3; 2 * arrivals + returns];
        let name = format!("blocks of {first} and {second} evaluated");
        add(cases, &name, &Routine { code, annotations }, &proof, answer);
    }
}

/// Branches whose taken edges nest.
fn nested_branches(cases: &mut Vec<Limit>) {
    // each to the next but one, the other edge returns at once
    let mut code: Vec<Instruction> =
        (0..255).flat_map(|number| [branch_to(2 * number + 2), RETURN]).collect();
    code.push(RETURN);
    let routine = without_annotations(code);
    add(cases, "255 nested branches", &routine, &[3; 256], [0, 0, 256]);
    // the same with a wrong proof of the innermost return
    add(cases, "255 nested branches, 2 for 3", &routine, &[2; 256], [16, 12 + 8 * 511, 0]);
    // each to the next index: 511 nested, and the innermost are gone through again
    let mut code: Vec<Instruction> = (1..512).map(branch_to).collect();
    code.push(RETURN);
    let (place, goals) = evaluated_of_nested(511);
    let routine = without_annotations(code);
    add(cases, "511 nested branches", &routine, &vec![3; goals + 1], [23, place, goals]);
    // each to the next, the last to an annotated index, from where the path runs past the end
    let mut code: Vec<Instruction> = (1..512).map(branch_to).collect();
    code.push(Instruction::JumpIfLess { a: 1, b: 1, target: 0 });
    let annotations = vec![Annotation { index: 0, credit: constant(9), atoms: Vec::new() }];
    // 512 ≤ 9 and 9 ≤ 9 - 512 from v1 < v1, which is assumption 511
    let never = [24, 1, 1, 0, 0, 255, 1];
    let proof = [&[3, 3][..], &never, &never].concat();
    let name = "512 nested branches";
    add(cases, name, &Routine { code, annotations }, &proof, [13, 512, 4]);
}

/// Where the 4,097th instruction is evaluated if `count` branches lead to the next index each and
/// the last to a return; and how many returns were evaluated before it.
fn evaluated_of_nested(count: usize) -> (usize, usize) {
    let (mut evaluated, mut returns) = (0, 0);
    // indices from which paths go on, the last one first
    let mut waiting = vec![0];
    while let Some(mut index) = waiting.pop() {
        loop {
            evaluated += 1;
            if evaluated > 4_096 {
                return (index, returns);
            }
            if index == count {
                returns += 1;
                break;
            }
            waiting.push(index + 1);
            index += 1;
        }
    }
    unreachable!("there are more paths")
}

/// Targets above, at and below the jump's own index, annotated or not.
fn targets(cases: &mut Vec<Limit>) {
    for index in 0..3 {
        for target in 0..5 {
            for (conditional, reached) in [(false, true), (true, true), (false, false)] {
                if !reached && index == 0 {
                    continue;
                }
                let mut code = vec![CONSTANT; 4];
                code[index] = if conditional { branch_to(target) } else { jump_to(target) };
                code[3] = RETURN;
                if !reached {
                    code[0] = RETURN;
                }
                let answer = answer_to(&code, index, target);
                let name = format!("from {index} to {target}, {conditional}, {reached}");
                add(cases, &name, &without_annotations(code), &[3, 3], answer);
            }
        }
    }
}

/// The answer for a jump without annotations and with a proof of two goals.
fn answer_to(code: &[Instruction], index: usize, target: usize) -> [usize; 3] {
    let goals = match code {
        [Instruction::Return, ..] => 1,
        _ if matches!(code[index], Instruction::Jump { .. }) => 1,
        _ => 2,
    };
    match target {
        4.. => [9, index, 0],
        _ if target <= index => [12, index, 0],
        _ if goals == 1 => [19, 12 + 8 * 4 + 1, 1],
        _ => [0, 0, 2],
    }
}

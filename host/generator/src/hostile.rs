//! Sizes at and just past every limit of documents 01 and 02.

use std::rc::Rc;

use crate::assemble::{package, Annotation, Instruction, Policy, Region, Routine, READ, WRITE};
use crate::term::{constant, mask, shift, sum, variable, Atom, Term};
use crate::worst::apart;

/// A named policy and package.
pub type Named = (String, Vec<u8>, Vec<u8>);

fn policy() -> Policy {
    Policy {
        memory: 4,
        limit: 1_000_000,
        regions: vec![Region { base: 0, length: 4, rights: READ | WRITE }],
        precondition: Vec::new(),
        postcondition: Vec::new(),
    }
}

fn returning(proof: &[u8]) -> Vec<u8> {
    package(&[Instruction::Return], 0, &[], proof)
}

/// A sum of so many leaves, nested to the left or to the right.
fn nested(count: usize, to_the_left: bool) -> Rc<Term> {
    let leaf = variable(3);
    (1..count).fold(Rc::clone(&leaf), |term, _| {
        if to_the_left {
            sum(&term, &leaf)
        } else {
            sum(&leaf, &term)
        }
    })
}

/// The cases.
pub fn hostile_cases() -> Vec<Named> {
    let mut cases = Vec::new();
    policies(&mut cases);
    protected_words(&mut cases);
    packages(&mut cases);
    annotations(&mut cases);
    expressions(&mut cases);
    shifted_expressions(&mut cases);
    deep_terms(&mut cases);
    derivations(&mut cases);
    register_terms(&mut cases);
    cases
}

fn policies(cases: &mut Vec<Named>) {
    let sound = returning(&[3]);
    for memory in [0, 1, 4, 16_384, 16_385, u32::MAX] {
        let policy = Policy { memory, ..policy() };
        cases.push((format!("memory of {memory}"), policy.encode(), sound.clone()));
    }
    for limit in [0, 1, 2, u32::MAX] {
        let policy = Policy { limit, ..policy() };
        cases.push((format!("step limit {limit}"), policy.encode(), sound.clone()));
    }
    for count in [0, 1, 8, 9, 255] {
        let regions = vec![Region { base: 1, length: 2, rights: READ }; count];
        let policy = Policy { regions, ..policy() };
        cases.push((format!("{count} regions"), policy.encode(), sound.clone()));
    }
    for (base, extent) in [
        (0, 0u32),
        (0, 3),
        (0, 4),
        (0, 16),
        (0, 19),
        (0, 23),
        (3, 7),
        (4, 7),
        (u32::MAX, 7),
        (u32::MAX - 3, 16),
        (0, u32::MAX),
        (2, u32::MAX),
    ] {
        let mut bytes = policy().encode();
        bytes[12..16].copy_from_slice(&u32::to_le_bytes(base));
        bytes[16..20].copy_from_slice(&extent.to_le_bytes());
        cases.push((format!("region {base} {extent}"), bytes, sound.clone()));
    }
    let atom = Atom::equal(&constant(1), &constant(1));
    for (before, after) in [(16, 0), (17, 0), (0, 16), (0, 17), (16, 16), (17, 17)] {
        let precondition = vec![atom.clone(); before];
        let postcondition = vec![atom.clone(); after];
        let policy = Policy { precondition, postcondition, ..policy() };
        let package = returning(&vec![3; after + 1]);
        cases.push((format!("{before} and {after} atoms"), policy.encode(), package));
    }
    let mut bytes = policy().encode();
    bytes[3] = 1;
    cases.push(("no zero byte".into(), bytes, sound.clone()));
    let mut bytes = policy().encode();
    bytes.resize(70_000, 0);
    cases.push(("a long policy".into(), bytes, sound));
    cases.push(("nothing".into(), Vec::new(), Vec::new()));
}

/// A region in every position to another one, and one of eight that lacks the right to store.
fn protected_words(cases: &mut Vec<Named>) {
    let mut add = |name: String, regions: Vec<Region>, words: &[u32], number: usize| {
        let policy = Policy { memory: 6, regions, ..policy() };
        cases.push((name, policy.encode(), storing(words, number as u8)));
    };
    let table = Region { base: 2, length: 2, rights: READ | WRITE };
    for (base, length) in (0..6).flat_map(|base| (1..=6 - base).map(move |length| (base, length))) {
        for rights in READ..=READ | WRITE {
            let other = Region { base, length, rights };
            let name = format!("a table and a region {base} {length} {rights}");
            add(name.clone(), vec![table, other], &[2, 3], 0);
            add(name, vec![other, table], &[2, 3], 1);
        }
    }
    let table = Region { base: 1, length: 4, rights: WRITE };
    for (lacking, number) in (0..8).flat_map(|lacking| (0..8).map(move |number| (lacking, number)))
    {
        // over the last word, and behind it
        for base in [4, 5] {
            let mut regions = vec![table; 8];
            regions[lacking] = Region { base, length: 1, rights: READ };
            let name = format!("region {number} of 8, {lacking} for loads from {base}");
            add(name, regions, &[1, 3, 4], number);
        }
    }
}

/// Stores at some words, each by rule 23 with one region.
fn storing(words: &[u32], region: u8) -> Vec<u8> {
    let stores = words.iter().flat_map(|&word| {
        [Instruction::Constant { d: 1, i: word }, Instruction::Store { d: 2, a: 1, i: 0 }]
    });
    let code: Vec<Instruction> = stores.chain([Instruction::Return]).collect();
    let mut proof = [23, region, 3, 3].repeat(words.len());
    proof.push(3);
    package(&code, 0, &[], &proof)
}

fn packages(cases: &mut Vec<Named>) {
    let policy = policy().encode();
    for count in [0, 1, 255, 256, 257, 511, 512, 513, 65_535] {
        let code = vec![Instruction::Return; count];
        let bytes = package(&code, 0, &[], &[3]);
        cases.push((format!("{count} instructions"), policy.clone(), bytes));
    }
    for length in [65_535, 65_536, 65_537, 70_000] {
        let bytes = returning(&vec![3; length - 20]);
        cases.push((format!("package of {length} bytes"), policy.clone(), bytes));
    }
    for (section, proof) in
        [(u32::MAX, 1), (1, u32::MAX), (u32::MAX, u32::MAX), (u32::MAX, 2), (1, 0), (0, 65_516)]
    {
        let mut bytes = returning(&[3]);
        bytes[4..8].copy_from_slice(&u32::to_le_bytes(section));
        bytes[8..12].copy_from_slice(&u32::to_le_bytes(proof));
        cases.push((format!("sections {section} and {proof}"), policy.clone(), bytes));
    }
    for length in 0..13 {
        let bytes = returning(&[3])[..length].to_vec();
        cases.push((format!("header of {length} bytes"), policy.clone(), bytes));
    }
    for op in 0..=13 {
        for field in 0..7 {
            let mut bytes = package(&[Instruction::Return; 2], 0, &[], &[3]);
            bytes[12] = op;
            match field {
                0 => bytes[13..16].copy_from_slice(&[15, 15, 15]),
                1 => bytes[14] = 16,
                2 => bytes[20..24].copy_from_slice(&1u32.to_le_bytes()),
                3 => bytes[20..24].copy_from_slice(&2u32.to_le_bytes()),
                4 => bytes[20..24].copy_from_slice(&31u32.to_le_bytes()),
                5 => bytes[20..24].copy_from_slice(&32u32.to_le_bytes()),
                _ => bytes[20..24].copy_from_slice(&256u32.to_le_bytes()),
            }
            cases.push((format!("operation {op}, variant {field}"), policy.clone(), bytes));
        }
    }
    // a load of every word of the memory, and one more
    for count in [254usize, 255, 510, 511] {
        let mut code = vec![Instruction::Constant { d: 1, i: 0 }];
        code.extend((1..count).map(|_| Instruction::Load { d: 2, a: 1, i: 3 }));
        code.push(Instruction::Return);
        for variable in [count as u16 + 14, count as u16 + 15] {
            // the last goal by way of the last variable that exists, and of the one after it
            let mut proof = [22, 0, 3, 3].repeat(count - 1);
            proof.push(6);
            proof.push(1);
            proof.extend(variable.to_le_bytes());
            proof.extend([3, 3]);
            let bytes = package(&code, 0, &[], &proof);
            cases.push((format!("{count}: variable {variable}"), policy.clone(), bytes));
        }
    }
}

fn annotations(cases: &mut Vec<Named>) {
    let policy = policy().encode();
    for count in [63usize, 64, 65] {
        let mut code = vec![Instruction::AddConstant { d: 1, a: 1, i: 0 }; count];
        code.push(Instruction::Return);
        let annotations = (0..count)
            .map(|index| {
                let credit = constant((count - index + 1) as u32);
                Annotation { index: index + 1, credit, atoms: Vec::new() }
            })
            .collect();
        let proof = vec![3; 2 * count + 1];
        let bytes = Routine { code, annotations }.encode(&proof);
        cases.push((format!("{count} annotations"), policy.clone(), bytes));
    }
    for count in [15, 16, 17] {
        let atoms = vec![Atom::equal(&constant(1), &constant(1)); count];
        let annotations = vec![Annotation { index: 0, credit: constant(1), atoms }];
        let routine = Routine { code: vec![Instruction::Return], annotations };
        let bytes = routine.encode(&vec![3; count + 3]);
        cases.push((format!("annotation of {count} atoms"), policy.clone(), bytes));
    }
    for index in [0, 1, 2, 65_535] {
        let annotations = vec![Annotation { index, credit: constant(9), atoms: Vec::new() }];
        let routine = Routine { code: vec![Instruction::Return; 2], annotations };
        cases.push((format!("annotation at {index}"), policy.clone(), routine.encode(&[3; 3])));
    }
    // as many annotations with as many atoms as 65,536 bytes hold, all reached
    let wide = Atom::equal(&nested(16, true), &nested(16, false));
    let mut routine = Routine::default();
    let mut proof = Vec::new();
    for index in 0..60 {
        routine.code.push(Instruction::AddConstant { d: 1, a: 1, i: 0 });
        let atoms = vec![wide.clone(); if index < 32 { 15 } else { 0 }];
        proof.extend(vec![12; atoms.len()]);
        proof.extend([3, 3]);
        routine.annotations.push(Annotation {
            index,
            credit: constant(1_000 - index as u32),
            atoms,
        });
    }
    routine.code.push(Instruction::Return);
    proof.push(3);
    cases.push(("annotations of 31 nodes".into(), policy, routine.encode(&proof)));
}

fn expressions(cases: &mut Vec<Named>) {
    for to_the_left in [false, true] {
        for leaves in [15, 16, 17] {
            let nodes = 2 * leaves - 1;
            let term = nested(leaves, to_the_left);
            in_every_place(&term, &format!("{nodes} nodes, left {to_the_left}"), cases);
            let credit = sum(&term, &constant(0));
            in_every_place(&credit, &format!("{nodes} nodes and two, left {to_the_left}"), cases);
        }
    }
    // the 32nd node is met where a part is missing
    for (name, tag) in [("sums", 2), ("masks", 4)] {
        for count in [30, 31, 32, 33] {
            let mut proof = vec![24];
            proof.resize(1 + count, tag);
            cases.push((format!("{count} open {name}"), policy().encode(), returning(&proof)));
            proof.push(0);
            let name = format!("{count} open {name} and a tag");
            cases.push((name, policy().encode(), returning(&proof)));
        }
    }
}

/// A term as a side of an atom, as a credit and as an argument.
fn in_every_place(term: &Rc<Term>, what: &str, cases: &mut Vec<Named>) {
    let name = |part| format!("{part} of {what}");
    let atom = Atom::equal(term, term);
    let with_atoms =
        Policy { precondition: vec![atom.clone()], postcondition: vec![atom], ..policy() };
    cases.push((name("policy"), with_atoms.encode(), returning(&[1, 3])));

    let annotations = vec![Annotation { index: 0, credit: Rc::clone(term), atoms: Vec::new() }];
    let routine = Routine { code: vec![Instruction::Return], annotations };
    cases.push((name("credit"), policy().encode(), routine.encode(&[3; 3])));

    let mut proof = vec![6];
    term.encode(&mut proof);
    proof.extend([3, 3]);
    cases.push((name("argument"), policy().encode(), returning(&proof)));
}

/// Even numbers of nodes, and counts that are too large or not there.
fn shifted_expressions(cases: &mut Vec<Named>) {
    for (name, bottom) in [("a leaf", nested(1, true)), ("sums", nested(8, false))] {
        let mut term = bottom;
        while term.size() < 33 {
            term = shift((term.size() % 32) as u8, &term);
            if term.size() >= 30 {
                in_every_place(&term, &format!("{} nodes, shifts of {name}", term.size()), cases);
            }
        }
    }
    let masked = mask(&shift(31, &nested(7, true)), &shift(0, &nested(7, false)));
    in_every_place(&masked, "a mask of two shifts", cases);
    for count in [0, 1, 30, 31, 32, 33, 64, 128, 255] {
        in_every_place(&shift(count, &variable(3)), &format!("a shift by {count}"), cases);
        // the operand unknown, or missing with all that follows
        for operand in [&[6][..], &[]] {
            let proof = [&[24, 5, count][..], operand].concat();
            let name = format!("a shift by {count} of {operand:?}");
            cases.push((name, policy().encode(), returning(&proof)));
        }
    }
    // a count that is missing or too large at the 31st node and at the 32nd
    for shifts in [29, 30, 31] {
        for end in [&[5][..], &[5, 32], &[5, 31]] {
            let proof = [&[24][..], &[5, 1].repeat(shifts), end].concat();
            let name = format!("{shifts} open shifts and {end:?}");
            cases.push((name, policy().encode(), returning(&proof)));
        }
    }
}

/// Terms as deep as they can be, to be evaluated and to be compared.
fn deep_terms(cases: &mut Vec<Named>) {
    let shifted = |d, first: &[Instruction], shifts: usize| {
        let more = vec![Instruction::Shift { d, a: d, i: 0 }; shifts];
        [first, &more].concat()
    };
    let evaluated = shifted(1, &[Instruction::Constant { d: 1, i: 7 }], 254);
    let compared = [shifted(1, &apart(1), 125), shifted(2, &apart(2), 125)].concat();
    let deep =
        |number, first| (0..29).fold(shift(first, &variable(number)), |term, _| shift(0, &term));
    for (name, code, right, rule) in [
        ("evaluated", &evaluated, constant(7), 3),
        ("evaluated, wrong", &evaluated, constant(8), 3),
        ("compared", &compared, deep(2, 0), 1),
        ("compared by its linear form", &compared, deep(2, 0), 12),
        ("compared, wrong", &compared, deep(2, 1), 1),
        ("compared by its linear form, wrong", &compared, deep(2, 1), 12),
    ] {
        let postcondition = vec![Atom::equal(&deep(1, 0), &right)];
        let policy = Policy { postcondition, ..policy() };
        let code = [&code[..], &[Instruction::Return]].concat();
        let bytes = package(&code, 0, &[], &[rule, 3]);
        cases.push((format!("a deep term {name}"), policy.encode(), bytes));
    }
}

fn derivations(cases: &mut Vec<Named>) {
    let policy = Policy { limit: 1, ..policy() }.encode();
    for depth in [31, 32, 33, 34] {
        for end in [&[1u8][..], &[], &[28], &[12, 12]] {
            let mut proof = vec![10];
            proof.resize(depth - 1, 4);
            proof.extend(end);
            cases.push((format!("depth {depth}, end {end:?}"), policy.clone(), returning(&proof)));
        }
    }
    for rule in 0..=255u8 {
        for rest in [&[][..], &[0], &[0, 0], &[0, 0, 0, 0, 0, 3, 3, 3], &[1, 0, 0, 2, 2, 2]] {
            let mut proof = vec![rule];
            proof.extend(rest);
            cases.push((format!("rule {rule} {rest:?}"), policy.clone(), returning(&proof)));
            if rule > 30 && rule < 250 {
                break;
            }
        }
    }
}

fn register_terms(cases: &mut Vec<Named>) {
    let double = Instruction::Add { d: 1, a: 1, b: 1 };
    let more = Instruction::AddConstant { d: 1, a: 1, i: 1 };
    let other = Instruction::Subtract { d: 1, a: 1, b: 2 };
    let load = Instruction::Load { d: 2, a: 1, i: 0 };
    let masked = Instruction::Mask { d: 1, a: 1, i: 255 };
    let shifted = Instruction::Shift { d: 1, a: 1, i: 31 };
    for (name, code) in [
        ("255 nodes", vec![double; 7]),
        ("511 nodes", vec![double; 8]),
        ("257 nodes", [vec![double; 7], vec![more]].concat()),
        ("257 nodes by a difference", [vec![double; 7], vec![other]].concat()),
        ("253 and 255 nodes", [vec![double; 6], vec![more; 64]].concat()),
        ("257 nodes in steps", [vec![double; 6], vec![more; 65]].concat()),
        ("address of 257 nodes", [vec![double; 7], vec![load]].concat()),
        ("256 nodes by a shift", [vec![double; 7], vec![shifted]].concat()),
        ("257 nodes by a mask", [vec![double; 7], vec![masked]].concat()),
        ("255 nodes, 128 of them shifts", [vec![double; 6], vec![shifted; 128]].concat()),
        ("256 nodes, 129 of them shifts", [vec![double; 6], vec![shifted; 129]].concat()),
        ("255 nodes by masks", vec![masked; 127]),
        ("257 nodes by masks", vec![masked; 128]),
        ("255 nodes by shifts", vec![shifted; 254]),
        ("256 nodes by shifts", vec![shifted; 255]),
    ] {
        let code = [code, vec![Instruction::Return]].concat();
        for proof in [&[3][..], &[22, 0, 13, 24, 1, 0, 0, 0, 0, 0, 3], &[]] {
            let bytes = package(&code, 0, &[], proof);
            cases.push((format!("{name}, proof {proof:?}"), policy().encode(), bytes));
            let precondition = vec![Atom::less(&variable(0), &variable(0))];
            let policy = Policy { precondition, ..policy() };
            let bytes = package(&code, 0, &[], proof);
            cases.push((format!("{name}, absurd, proof {proof:?}"), policy.encode(), bytes));
        }
    }
}

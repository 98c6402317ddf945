//! Random samples whose proofs were found are accepted, with all their goals; many are.

use std::collections::BTreeMap;

use generator::assemble::{Instruction, Region, Routine, WRITE};
use generator::case::Cases;
use generator::damage::reordered;
use generator::goals::{goals, Origin};
use generator::paths::{path_case, path_cases};
use generator::random::Random;
use generator::routine::{protected_table, sample};
use generator::shapes::shape_case;

#[test]
fn proofs_are_accepted() {
    let mut random = Random::new(7);
    let mut workspace = vec![0; reference::WORKSPACE_WORDS];
    let (mut accepted, mut most_goals) = (0, 0);
    let mut with_fields = [0; 2];
    for number in 0..60 {
        let sample = sample(&mut random, number % 10);
        let (policy, package) = (sample.policy_bytes(), sample.package_bytes());
        let verdict = reference::check(&mut workspace, &policy, &package);
        if sample.proved {
            let expected = goals(&sample.policy, &sample.routine).unwrap().len();
            assert_eq!((verdict.number, verdict.goals), (0, expected), "sample {number}");
        }
        accepted += usize::from(verdict.number == 0);
        if verdict.number == 0 {
            let code = &sample.routine.code;
            let has = |op: fn(&Instruction) -> bool| usize::from(code.iter().any(op));
            with_fields[0] += has(|instruction| matches!(instruction, Instruction::Mask { .. }));
            with_fields[1] += has(|instruction| matches!(instruction, Instruction::Shift { .. }));
        }
        most_goals = most_goals.max(verdict.goals);
    }
    assert!(accepted >= 30, "{accepted} of 60 accepted");
    assert!(most_goals >= 100, "at most {most_goals} goals");
    assert!(with_fields.iter().all(|&count| count >= 10), "masks, shifts: {with_fields:?}");
}

/// How many jumps of a routine lead to unannotated instructions.
fn free_jumps(routine: &Routine) -> usize {
    let annotated =
        |index: usize| routine.annotations.iter().any(|annotation| annotation.index == index);
    let targets = routine.code.iter().filter_map(|&instruction| match instruction {
        Instruction::Jump { target }
        | Instruction::JumpIfLess { target, .. }
        | Instruction::JumpIfEqual { target, .. } => Some(target as usize),
        _ => None,
    });
    targets.filter(|&target| !annotated(target)).count()
}

#[test]
fn joins_without_annotations_are_accepted() {
    let mut random = Random::new(11);
    let mut workspace = vec![0; reference::WORKSPACE_WORDS];
    // accepted; of these with unannotated targets, with three of them, with a store or a load for
    // which more than one goal is derived; in another order refused, and still accepted
    let mut counts = [0; 6];
    for number in 0..400 {
        let sample = sample(&mut random, 1 + number % 8);
        let (policy, package) = (sample.policy_bytes(), sample.package_bytes());
        if reference::check(&mut workspace, &policy, &package).number != 0 {
            continue;
        }
        let free = free_jumps(&sample.routine);
        let accesses = sample.routine.code.iter().filter(|instruction| {
            matches!(instruction, Instruction::Load { .. } | Instruction::Store { .. })
        });
        let goals = goals(&sample.policy, &sample.routine).unwrap();
        let derived = goals.iter().filter(|task| task.origin == Origin::Access).count();
        counts[0] += 1;
        counts[1] += usize::from(free > 0);
        counts[2] += usize::from(free >= 3);
        counts[3] += usize::from(derived > accesses.count());
        let package = reordered(&sample, &mut random);
        let verdict = reference::check(&mut workspace, &policy, &package);
        counts[if verdict.number == 0 { 5 } else { 4 }] += 1;
    }
    println!("{counts:?}");
    let least = [250, 180, 100, 60, 60, 5];
    assert!(counts.iter().zip(least).all(|(&count, least)| count >= least), "{counts:?}");
}

#[test]
fn accepted_runs_return_within_the_limit() {
    let mut random = Random::new(8);
    let mut workspace = vec![0; reference::WORKSPACE_WORDS];
    for number in 0..40 {
        let sample = sample(&mut random, number % 6);
        let (policy, package) = (sample.policy_bytes(), sample.package_bytes());
        if reference::check(&mut workspace, &policy, &package).number != 0 {
            continue;
        }
        for _ in 0..20 {
            let mut registers: Vec<u32> = (0..16).map(|_| random.word()).collect();
            if !sample.policy.precondition.iter().all(|atom| atom.holds(&registers)) {
                continue;
            }
            let mut memory: Vec<u32> = (0..sample.policy.memory).map(|_| random.word()).collect();
            let budget = sample.policy.limit;
            let outcome = reference::run(&policy, &package, &mut registers, &mut memory, budget);
            assert_eq!(outcome.number, 0, "sample {number}: {outcome:?}");
            assert!(sample.policy.postcondition.iter().all(|atom| atom.holds(&registers)));
        }
    }
}

#[test]
fn cases_depend_on_the_seed_alone() {
    let digest = |seed| {
        let mut digest = 0u64;
        for case in Cases::new(seed).take(2_000) {
            for &byte in case.policy.iter().chain(&case.package) {
                digest = digest.wrapping_mul(31).wrapping_add(u64::from(byte));
            }
            for start in &case.starts {
                digest = digest.wrapping_mul(31).wrapping_add(u64::from(start.budget));
            }
        }
        digest
    };
    assert_eq!(digest(1), digest(1));
    assert_ne!(digest(1), digest(2));
}

#[test]
fn cases_meet_every_answer() {
    let mut numbers: BTreeMap<u32, usize> = BTreeMap::new();
    let mut ends: BTreeMap<u32, usize> = BTreeMap::new();
    for case in Cases::new(3).take(6_000) {
        let mut workspace = vec![1; case.workspace];
        let verdict = reference::check(&mut workspace, &case.policy, &case.package);
        *numbers.entry(verdict.number).or_default() += 1;
        for start in case.starts {
            let (mut registers, mut memory) = (start.registers, start.memory);
            let outcome = reference::run(
                &case.policy,
                &case.package,
                &mut registers,
                &mut memory,
                start.budget,
            );
            *ends.entry(outcome.number).or_default() += 1;
        }
    }
    println!("checks {numbers:?}");
    println!("runs {ends:?}");
    for number in (0..20).filter(|&number| number != 2).chain([23]) {
        assert!(numbers.contains_key(&number), "no check answers {number}");
    }
    for number in [0, 2, 3, 4, 5, 6, 7, 8, 9, 20, 21, 22] {
        assert!(ends.contains_key(&number), "no run answers {number}");
    }
}

/// The regions of a policy that is not refused.
fn regions(policy: &[u8]) -> Vec<Region> {
    let count = usize::from(policy[0]);
    let word = |index: usize| {
        let bytes = policy[12 + 4 * index..].first_chunk().expect("four bytes");
        u32::from_le_bytes(*bytes)
    };
    (0..count)
        .map(|number| {
            let extent = word(count + number);
            Region { base: word(number), length: extent / 4, rights: extent % 4 }
        })
        .collect()
}

/// The operation of an instruction of a package, and its address over some registers.
fn access(package: &[u8], index: usize, registers: &[u32]) -> (u8, u32) {
    let count = usize::from(package[0]) + 256 * usize::from(package[1]);
    let operation = &package[12 + 4 * index..];
    let immediate = package[12 + 4 * (count + index)..].first_chunk().expect("four bytes");
    let base = registers[usize::from(operation[2])];
    (operation[0], base.wrapping_add(u32::from_le_bytes(*immediate)))
}

#[test]
fn cases_meet_protected_words() {
    let lacks = |region: &Region| region.rights & WRITE == 0;
    // checks: a store beside protected words accepted, rule 23 refused; runs: a store into words
    // that some region gives and another protects, a store into words of no writable region
    let mut counts = [0; 4];
    for case in Cases::new(4).take(6_000) {
        let mut workspace = vec![1; case.workspace];
        let verdict = reference::check(&mut workspace, &case.policy, &case.package);
        if verdict.number == 0 && regions(&case.policy).iter().any(lacks) {
            let count = usize::from(case.package[0]);
            let mut operations = case.package[12..].chunks(4).take(count);
            counts[0] += usize::from(operations.any(|operation| operation[0] == 5));
        }
        counts[1] += usize::from(verdict.number == 16 && case.package[verdict.place] == 23);
        for start in case.starts {
            let (mut registers, mut memory) = (start.registers, start.memory);
            let (policy, package, budget) = (&case.policy, &case.package, start.budget);
            let outcome = reference::run(policy, package, &mut registers, &mut memory, budget);
            if outcome.number != 21 {
                continue;
            }
            let (operation, address) = access(package, outcome.place, &registers);
            if operation == 5 {
                let given =
                    regions(policy).iter().any(|region| !lacks(region) && region.contains(address));
                counts[if given { 2 } else { 3 }] += 1;
            }
        }
    }
    println!("{counts:?}");
    assert!(counts.iter().all(|&count| count >= 100), "{counts:?}");
}

#[test]
fn protected_words_are_left_alone() {
    let sample = protected_table(20);
    let (policy, package) = (sample.policy_bytes(), sample.package_bytes());
    let mut workspace = vec![0; reference::WORKSPACE_WORDS];
    assert!(sample.proved);
    assert_eq!(reference::check(&mut workspace, &policy, &package).number, 0);
    let (mut registers, mut memory) = ([0; 16], (0..60).collect::<Vec<u32>>());
    let outcome = reference::run(&policy, &package, &mut registers, &mut memory, 164);
    assert_eq!((outcome.number, outcome.steps), (0, 164));
    assert!((20..40).eq(memory[20..40].iter().copied()));
    assert!((20..40).eq(memory[40..].iter().copied()));
}

#[test]
fn single_rules_are_accepted_and_refused() {
    let mut random = Random::new(9);
    let mut workspace = vec![0; reference::WORKSPACE_WORDS];
    let mut counts: BTreeMap<String, [usize; 2]> = BTreeMap::new();
    for _ in 0..20_000 {
        let (name, policy, package) = shape_case(&mut random);
        let verdict = reference::check(&mut workspace, &policy, &package);
        assert!(matches!(verdict.number, 0 | 15 | 16 | 18 | 19), "{name}: {verdict:?}");
        counts.entry(name).or_default()[usize::from(verdict.number > 0)] += 1;
    }
    println!("{counts:?}");
    // rules 0 to 28
    assert_eq!(counts.len(), 29);
    for (name, [accepted, refused]) in counts {
        assert!(accepted > 50 && refused > 50, "{name}: {accepted}, {refused}");
    }
}

#[test]
fn paths_in_any_order() {
    let mut random = Random::new(12);
    let mut workspace = vec![0; reference::WORKSPACE_WORDS];
    let mut counts: BTreeMap<u32, usize> = BTreeMap::new();
    let mut most_goals = 0;
    for _ in 0..4_000 {
        let (_, policy, package) = path_case(&mut random);
        let verdict = reference::check(&mut workspace, &policy, &package);
        *counts.entry(verdict.number).or_default() += 1;
        if verdict.number == 0 {
            most_goals = most_goals.max(verdict.goals);
        }
    }
    println!("{counts:?}, at most {most_goals} goals");
    assert!(most_goals >= 500, "at most {most_goals} goals");
    for number in [0, 12, 13, 14, 15, 16, 19, 23] {
        let count = counts.get(&number).copied().unwrap_or(0);
        assert!(count >= 50, "{number}: {count}");
    }
}

#[test]
fn limits_of_evaluation() {
    let mut workspace = vec![0; reference::WORKSPACE_WORDS];
    let mut wrong = Vec::new();
    for limit in path_cases() {
        let verdict = reference::check(&mut workspace, &limit.policy, &limit.package);
        let answer = [verdict.number as usize, verdict.place, verdict.goals];
        if answer != limit.answer {
            wrong.push(format!("{}: {answer:?}, not {:?}", limit.name, limit.answer));
        }
    }
    assert!(wrong.is_empty(), "{}", wrong.join("\n"));
}

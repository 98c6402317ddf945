//! The commissioning samples of document 01, edges of document 02, and the sample folders of the
//! repository.

mod common;

use common::{check, hex, run};
use reference::{find_proof, Finding, Verdict, WORKSPACE_WORDS};

/// A policy of one region over one word, with the step limit and the memory given.
fn policy(limit: u32, memory: u32) -> Vec<u8> {
    let mut bytes = hex("01 00 00 00");
    bytes.extend(memory.to_le_bytes());
    bytes.extend(limit.to_le_bytes());
    bytes.extend(hex("00 00 00 00 07 00 00 00"));
    bytes
}

/// A package of instructions given as (operation, immediate).
fn package(code: &[([u8; 4], u32)], annotations: &[&[u8]], proof: &[u8]) -> Vec<u8> {
    let section = annotations.concat();
    let mut bytes = Vec::new();
    bytes.extend((code.len() as u16).to_le_bytes());
    bytes.extend((annotations.len() as u16).to_le_bytes());
    bytes.extend((section.len() as u32).to_le_bytes());
    bytes.extend((proof.len() as u32).to_le_bytes());
    for (operation, _) in code {
        bytes.extend(operation);
    }
    for (_, immediate) in code {
        bytes.extend(immediate.to_le_bytes());
    }
    bytes.extend(section);
    bytes.extend(proof);
    bytes
}

const RETURN: ([u8; 4], u32) = ([9, 0, 0, 0], 0);
const DOUBLE: ([u8; 4], u32) = ([1, 1, 1, 1], 0);

fn start(budget: u32, words: usize) -> Vec<u8> {
    let mut bytes = budget.to_le_bytes().to_vec();
    bytes.resize(4 * (1 + words), 0);
    bytes
}

#[test]
fn sample_s() {
    let (policy, package) = (policy(1, 1), package(&[RETURN], &[], &[2]));
    assert_eq!(policy, hex("0100000001000000010000000000000007000000"));
    assert_eq!(package, hex("010000000000000001000000090000000000000002"));
    assert_eq!(check(&policy, &package), [0, 0, 1]);
    assert_eq!(run(&policy, &package, &start(1, 17)).0, [0, 0, 1]);
    assert_eq!(run(&policy, &package, &start(0, 17)).0, [20, 0, 0]);
}

#[test]
fn step_limits() {
    let package_2 = package(&[RETURN], &[], &[2]);
    assert_eq!(check(&policy(0, 1), &package_2), [16, 20, 0]);
    assert_eq!(check(&policy(2, 1), &package_2), [16, 20, 0]);
    assert_eq!(check(&policy(2, 1), &package(&[RETURN], &[], &[3])), [0, 0, 1]);
}

#[test]
fn proofs_too_short_and_too_long() {
    assert_eq!(check(&policy(1, 1), &package(&[RETURN], &[], &[])), [15, 20, 0]);
    assert_eq!(check(&policy(1, 1), &package(&[RETURN], &[], &[2, 2])), [19, 21, 1]);
}

#[test]
fn jump_to_itself() {
    let annotation = hex("00 00 00 00 05 00 00 00");
    let package = package(&[([6, 0, 0, 0], 0)], &[&annotation], &[3; 4]);
    assert_eq!(check(&policy(5, 1), &package), [16, 31, 3]);
}

#[test]
fn instruction_counts() {
    assert_eq!(check(&policy(1, 1), &package(&[], &[], &[])), [7, 0, 0]);
    let mut code = vec![RETURN; 512];
    assert_eq!(check(&policy(1, 1), &package(&code, &[], &[2])), [0, 0, 1]);
    code.push(RETURN);
    assert_eq!(check(&policy(1, 1), &package(&code, &[], &[2])), [7, 0, 0]);
}

#[test]
fn register_nodes() {
    assert_eq!(check(&policy(1, 1), &package(&[DOUBLE; 8], &[], &[])), [14, 7, 0]);
    assert_eq!(check(&policy(1, 1), &package(&[DOUBLE; 7], &[], &[])), [13, 7, 0]);
}

#[test]
fn register_nodes_by_shifts() {
    // 255 nodes and 256, by doublings and by shifts alone
    let shift = ([11, 1, 1, 0], 1);
    let code = [&[DOUBLE; 6][..], &[shift; 128]].concat();
    assert_eq!(check(&policy(1, 1), &package(&code, &[], &[])), [13, 134, 0]);
    let code = [&[DOUBLE; 6][..], &[shift; 129]].concat();
    assert_eq!(check(&policy(1, 1), &package(&code, &[], &[])), [14, 134, 0]);
    let code = [&[DOUBLE; 7][..], &[shift]].concat();
    assert_eq!(check(&policy(1, 1), &package(&code, &[], &[])), [14, 7, 0]);
    assert_eq!(check(&policy(1, 1), &package(&[shift; 254], &[], &[])), [13, 254, 0]);
    assert_eq!(check(&policy(1, 1), &package(&[shift; 255], &[], &[])), [14, 254, 0]);
}

#[test]
fn masks_and_shifts_run() {
    // register 1 := register 1 masked, register 2 := register 1 shifted
    let run_with = |word: u32, i: u32, count: u32| {
        let code = [([10, 1, 1, 0], i), ([11, 2, 1, 0], count), RETURN];
        let mut start = start(3, 17);
        start[8..12].copy_from_slice(&word.to_le_bytes());
        let (answer, registers, _) = run(&policy(1, 1), &package(&code, &[], &[]), &start);
        (answer, registers[1], registers[2])
    };
    assert_eq!(run_with(0xdead_beef, 0x00ff_ff00, 8), ([0, 2, 3], 0x00ad_be00, 0xadbe));
    assert_eq!(run_with(u32::MAX, u32::MAX, 31), ([0, 2, 3], u32::MAX, 1));
    assert_eq!(run_with(12, 10, 0), ([0, 2, 3], 8, 8));
    assert_eq!(run_with(12, 10, 32), ([8, 1, 0], 12, 0));
}

/// A policy of four words with the regions given as (base, length, rights).
fn policy_of(regions: &[(u32, u32, u32)]) -> Vec<u8> {
    let mut bytes = vec![regions.len() as u8, 0, 0, 0, 4, 0, 0, 0, 3, 0, 0, 0];
    bytes.extend(regions.iter().flat_map(|(base, _, _)| base.to_le_bytes()));
    let extents = regions.iter().map(|(_, length, rights)| 4 * length + rights);
    bytes.extend(extents.flat_map(u32::to_le_bytes));
    bytes
}

/// Loads and stores at every word under every two regions, by the sets of their words.
#[test]
fn pairs_of_regions() {
    let bases = (0..4).flat_map(|base| (1..=4 - base).map(move |length| (base, length)));
    let regions: Vec<_> = bases
        .flat_map(|(base, length)| (1..=3).map(move |rights| (base, length, rights)))
        .collect();
    for pair in regions.iter().flat_map(|&first| regions.iter().map(move |&other| [first, other])) {
        let policy = policy_of(&pair);
        for (op, rule, right) in [(4, 22, 1), (5, 23, 2)] {
            let words = |(base, length, _)| ((1u32 << length) - 1) << base;
            let over = |has: bool| {
                let regions = pair.into_iter().filter(|region| (region.2 & right != 0) == has);
                regions.fold(0, |all, region| all | words(region))
            };
            let protected = if op == 5 { over(false) } else { 0 };
            for address in 0..4 {
                let code = [([0, 1, 0, 0], address), ([op, 2, 1, 0], 0), RETURN];
                let allowed = over(true) & !protected & 1 << address != 0;
                let expected = if allowed { [0, 2, 3] } else { [21, 1, 1] };
                let bytes = package(&code, &[], &[]);
                assert_eq!(run(&policy, &bytes, &start(9, 20)).0, expected, "{pair:?} {address}");
                for (number, region) in (0..).zip(pair) {
                    let (base, length, rights) = region;
                    let bytes = package(&code, &[], &[rule, number, 3, 3, 3]);
                    let expected = if rights & right == 0 || words(region) & protected != 0 {
                        [16, 36, 0]
                    } else if address < base {
                        [16, 38, 0]
                    } else if address >= base + length {
                        [16, 39, 0]
                    } else {
                        [0, 0, 2]
                    };
                    assert_eq!(check(&policy, &bytes), expected, "{pair:?} {address} {number}");
                }
            }
        }
    }
}

#[test]
fn memory_sizes() {
    let package = package(&[RETURN], &[], &[2]);
    assert_eq!(check(&policy(1, 16_384), &package), [0, 0, 1]);
    assert_eq!(check(&policy(1, 16_385), &package), [4, 4, 0]);
    assert_eq!(run(&policy(1, 16_384), &package, &start(1, 16 + 16_384)).0, [0, 0, 1]);
    assert_eq!(run(&policy(1, 16_384), &package, &start(1, 16 + 16_383)).0, [2, 0, 0]);
}

#[test]
fn depths() {
    // 1 ≤ 1 by rule 10, then rule 4 again and again, then rule 1.
    let proof = |levels: usize| {
        let mut proof = vec![10];
        proof.resize(levels - 1, 4);
        proof.push(1);
        proof
    };
    assert_eq!(check(&policy(1, 1), &package(&[RETURN], &[], &proof(32))), [0, 0, 1]);
    assert_eq!(check(&policy(1, 1), &package(&[RETURN], &[], &proof(33))), [17, 52, 0]);
}

#[test]
fn workspaces() {
    let (policy, package) = (policy(1, 1), package(&[RETURN], &[], &[2]));
    let mut small = vec![7; WORKSPACE_WORDS - 1];
    let verdict = reference::check(&mut small, &policy, &package);
    assert_eq!(verdict, Verdict { number: 1, place: 0, goals: 0 });
    assert!(small.iter().all(|&word| word == 7));
    for (policy, number) in [(&policy[..], 0), (&[], 3)] {
        let mut large = vec![7; WORKSPACE_WORDS + 5];
        assert_eq!(reference::check(&mut large, policy, &package).number, number);
        assert!(large.iter().all(|&word| word == 0));
    }
}

#[test]
fn found_proofs() {
    let bytes = package(&[RETURN], &[&[1, 2, 3]], &[4, 5]);
    let found = Finding { number: 0, place: 0, start: 23, length: 2 };
    assert_eq!(find_proof(&bytes), found);
    let bytes = package(&[RETURN], &[], &[]);
    let found = Finding { number: 0, place: 0, start: 20, length: 0 };
    assert_eq!(find_proof(&bytes), found);
    let refused = Finding { number: 7, place: 19, start: 0, length: 0 };
    assert_eq!(find_proof(&bytes[..19]), refused);
}

#[test]
fn longest_package() {
    let proof = vec![2; 65_536 - 20];
    let mut bytes = package(&[RETURN], &[], &proof);
    assert_eq!(check(&policy(1, 1), &bytes), [19, 21, 1]);
    bytes.push(2);
    assert_eq!(check(&policy(1, 1), &bytes), [7, 65_536, 0]);
}

#[test]
fn folders() {
    let folders = concat!(env!("CARGO_MANIFEST_DIR"), "/../../samples");
    let mut compared = 0;
    for folder in std::fs::read_dir(folders).unwrap() {
        let folder = folder.unwrap().path();
        let Ok(expected) = std::fs::read_to_string(folder.join("expected")) else {
            continue;
        };
        let read = |name| std::fs::read(folder.join(name)).unwrap();
        let (policy, package) = (read("policy.bin"), read("routine.bin"));
        let [number, place, goals] = check(&policy, &package);
        let mut answers = format!("verdict={number} place={place} goals={goals}\n");
        let [number, place, steps] = run(&policy, &package, &read("start.bin")).0;
        answers += &format!("run={number} place={place} steps={steps}\n");
        assert_eq!(answers, expected, "{}", folder.display());
        compared += 1;
    }
    assert!(compared > 0);
}

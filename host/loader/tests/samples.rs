//! The library through the safe interface: sample S of document 01, and the sample folders.

use loader::{check, find_proof, run, Routine, Verdict, Workspace, WORKSPACE_WORDS};

const POLICY: [u8; 20] = [1, 0, 0, 0, 1, 0, 0, 0, 1, 0, 0, 0, 0, 0, 0, 0, 7, 0, 0, 0];
const PACKAGE: [u8; 21] = [1, 0, 0, 0, 0, 0, 0, 0, 1, 0, 0, 0, 9, 0, 0, 0, 0, 0, 0, 0, 2];

#[test]
fn sample_s() {
    let mut workspace = Workspace::new();
    let routine = Routine::load(&mut workspace, &POLICY, &PACKAGE).unwrap();
    assert_eq!((routine.goals(), routine.proof()), (1, &[2][..]));
    let outcome = routine.run(&mut [0; 16], &mut [0], 1);
    assert!(outcome.has_returned());
    assert_eq!((outcome.place, outcome.steps), (0, 1));
    assert_eq!(routine.run(&mut [0; 16], &mut [0], 0).number, 20);
}

#[test]
fn refusals() {
    let mut workspace = Workspace::new();
    let refused = Routine::load(&mut workspace, &POLICY, &PACKAGE[..20]).unwrap_err();
    assert_eq!(refused, Verdict { number: 7, place: 20, goals: 0 });
    let mut small = vec![5; WORKSPACE_WORDS - 1];
    assert_eq!(check(&mut small, &POLICY, &PACKAGE).number, 1);
    assert!(small.iter().all(|&word| word == 5));
    let finding = find_proof(&PACKAGE[..11]);
    assert_eq!((finding.number, finding.place, finding.proof), (7, 11, &[][..]));
    assert_eq!(run(&[], &[], &mut [], &mut [], 1).number, 3);
}

#[test]
fn folders() {
    let folders = concat!(env!("CARGO_MANIFEST_DIR"), "/../../samples");
    for folder in std::fs::read_dir(folders).unwrap() {
        let folder = folder.unwrap().path();
        if !folder.is_dir() {
            continue;
        }
        let read = |name| std::fs::read(folder.join(name)).unwrap();
        let (policy, package) = (read("policy.bin"), read("routine.bin"));
        let verdict = check(&mut vec![1; WORKSPACE_WORDS], &policy, &package);
        let expected = reference::check(&mut vec![1; WORKSPACE_WORDS], &policy, &package);
        assert_eq!(verdict.number, expected.number, "{}", folder.display());
        assert_eq!((verdict.place, verdict.goals), (expected.place, expected.goals));
    }
}

//! The worst cases have the answers that they are made for, and fill their packages.

use generator::worst::worst_cases;

#[test]
fn answers() {
    let mut workspace = vec![0; reference::WORKSPACE_WORDS];
    for case in worst_cases() {
        let verdict = reference::check(&mut workspace, &case.policy, &case.package);
        println!("{}: {verdict:?}, {} bytes", case.name, case.package.len());
        assert!(case.package.len() <= 65_536, "{}: {} bytes", case.name, case.package.len());
        assert_eq!(verdict.number, case.number, "{}: {verdict:?}", case.name);
    }
}

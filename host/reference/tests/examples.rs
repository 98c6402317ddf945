//! The example lines of `examples.txt`, which settle the open points of documents 01 and 02.

mod common;

use common::{check, hex, run};

const POLICY_S: &str = "01 00 00 00 01 00 00 00 01 00 00 00 00 00 00 00 07 00 00 00";
const PACKAGE_S: &str = "01 00 00 00 00 00 00 00 01 00 00 00 09 00 00 00 00 00 00 00 02";

fn field(text: &str) -> Vec<u8> {
    match text.trim() {
        "PS" => hex(POLICY_S),
        "KS" => hex(PACKAGE_S),
        "-" => Vec::new(),
        bytes => hex(bytes),
    }
}

#[test]
fn examples() {
    let mut compared = 0;
    let mut wrong = Vec::new();
    for line in include_str!("examples.txt").lines() {
        let line = line.split(';').next().unwrap().trim();
        if line.is_empty() || line.starts_with('#') {
            continue;
        }
        let (input, expected) = line.split_once("->").expect("an arrow");
        let expected: Vec<u64> =
            expected.split_whitespace().map(|number| number.parse().unwrap()).collect();
        let (program, parts) = input.trim().split_once(' ').expect("a program");
        let parts: Vec<Vec<u8>> = parts.split('|').map(field).collect();
        let answer = match (program, parts.as_slice()) {
            ("check", [policy, package]) => check(policy, package),
            ("run", [policy, package, start]) => run(policy, package, start).0,
            _ => panic!("no such example: {line}"),
        };
        compared += 1;
        if answer != expected[..] {
            wrong.push(format!("{line}\n  answer {answer:?}"));
        }
    }
    assert!(compared > 0);
    assert!(wrong.is_empty(), "{} of {compared} differ:\n{}", wrong.len(), wrong.join("\n"));
}

//! The vectors of the file that the environment variable `PCC_VECTORS` names: one JSON object to a
//! line, with policy, package and start in hexadecimal and the answers expected; the memory left may
//! be given by its digest, `sha256:` and 64 digits. Skipped without it.

mod common;

use common::digest::sha256;
use common::{check, hex, run};

/// The text behind `"key": ` up to the end of its value: a string, a list of numbers or null.
fn value<'a>(line: &'a str, key: &str) -> &'a str {
    let key = format!("\"{key}\": ");
    let start = line.find(&key).unwrap_or_else(|| panic!("no {key} in {line}")) + key.len();
    let rest = &line[start..];
    let end = match rest.as_bytes()[0] {
        b'"' => rest[1..].find('"').unwrap() + 2,
        b'[' => rest.find(']').unwrap() + 1,
        _ => rest.find([',', '}']).unwrap(),
    };
    &rest[..end]
}

fn bytes(line: &str, key: &str) -> Option<Vec<u8>> {
    let text = value(line, key);
    (text != "null").then(|| hex(text.trim_matches('"')))
}

fn numbers(line: &str, key: &str) -> Option<Vec<u64>> {
    let text = value(line, key);
    (text != "null").then(|| {
        text.trim_matches(['[', ']'])
            .split(',')
            .filter(|number| !number.trim().is_empty())
            .map(|number| number.trim().parse().unwrap())
            .collect()
    })
}

#[test]
fn vectors() {
    let Some(path) = std::env::var_os("PCC_VECTORS") else {
        eprintln!("PCC_VECTORS names no file: skipped");
        return;
    };
    let text = std::fs::read_to_string(&path).unwrap();
    let mut compared = 0;
    let mut wrong = Vec::new();
    for line in text.lines().filter(|line| !line.trim().is_empty()) {
        let name = value(line, "name");
        let policy = bytes(line, "policy").unwrap();
        let package = bytes(line, "package").unwrap();
        if let Some(expected) = numbers(line, "check") {
            let answer = check(&policy, &package);
            compared += 1;
            if answer != expected[..] {
                wrong.push(format!("{name}: check gives {answer:?}, not {expected:?}"));
            }
        }
        if let Some(start) = bytes(line, "start") {
            let (answer, registers, memory) = run(&policy, &package, &start);
            let expected = numbers(line, "run").unwrap();
            compared += 1;
            if answer != expected[..] {
                wrong.push(format!("{name}: run gives {answer:?}, not {expected:?}"));
            }
            let registers: Vec<u64> = registers.into_iter().map(u64::from).collect();
            if numbers(line, "regs_after").is_some_and(|expected| expected != registers) {
                wrong.push(format!("{name}: registers {registers:?}"));
            }
            let memory: Vec<u8> = memory.into_iter().flat_map(u32::to_le_bytes).collect();
            let expected = value(line, "mem_after").trim_matches('"');
            let same = match expected.strip_prefix("sha256:") {
                Some(digest) => hex(digest) == sha256(&memory),
                None => expected == "null" || hex(expected) == memory,
            };
            if !same {
                wrong.push(format!("{name}: memory {memory:02x?}"));
            }
        }
    }
    println!("{compared} compared, {} different", wrong.len());
    assert!(compared > 0);
    assert!(wrong.is_empty(), "{} differ:\n{}", wrong.len(), wrong.join("\n"));
}

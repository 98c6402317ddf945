//! What the tests share: bytes in hexadecimal, start files, answers as three numbers.
#![allow(dead_code)]

pub mod digest;

/// The bytes of a text in hexadecimal, with or without spaces.
pub fn hex(text: &str) -> Vec<u8> {
    let digits: Vec<u32> =
        text.chars().filter(|c| !c.is_whitespace()).map(|c| c.to_digit(16).unwrap()).collect();
    assert!(digits.len().is_multiple_of(2), "half a byte: {text}");
    digits.chunks(2).map(|pair| (pair[0] * 16 + pair[1]) as u8).collect()
}

/// The checker's answer; the workspace must be left all zero.
pub fn check(policy: &[u8], package: &[u8]) -> [u64; 3] {
    let mut workspace = vec![0xdead_beef; reference::WORKSPACE_WORDS];
    let verdict = reference::check(&mut workspace, policy, package);
    assert!(workspace.iter().all(|&word| word == 0));
    [u64::from(verdict.number), verdict.place as u64, verdict.goals as u64]
}

/// The whole words of a start file.
pub fn words(bytes: &[u8]) -> Vec<u32> {
    bytes.as_chunks().0.iter().map(|&word| u32::from_le_bytes(word)).collect()
}

/// The runner's answer for a start file, and the registers and memory left.
pub fn run(policy: &[u8], package: &[u8], start: &[u8]) -> ([u64; 3], Vec<u32>, Vec<u32>) {
    let words = words(start);
    let budget = words.first().copied().unwrap_or(0);
    let state = words.get(1..).unwrap_or_default();
    let (registers, memory) = state.split_at(state.len().min(16));
    let (mut registers, mut memory) = (registers.to_vec(), memory.to_vec());
    let outcome = reference::run(policy, package, &mut registers, &mut memory, budget);
    let answer = [u64::from(outcome.number), outcome.place as u64, u64::from(outcome.steps)];
    (answer, registers, memory)
}

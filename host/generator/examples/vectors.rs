//! Prints generated cases with the reference's answers, one JSON object to a line, for programs
//! that read policy.bin, routine.bin and start.bin: `vectors SEED COUNT [SKIP]`.

use generator::case::{Case, Cases, Start};

/// Memories of more words are left out: their start files are long.
const MOST_WORDS: usize = 1_000;

fn main() {
    let mut arguments = std::env::args().skip(1).map(|argument| argument.parse().unwrap());
    let mut next = |default: u64| arguments.next().unwrap_or(default);
    let (seed, count, skip) = (next(1), next(100), next(0));
    let cases = Cases::new(seed).enumerate().skip(skip as usize).take(count as usize);
    for (number, case) in cases {
        println!("{}", line(number, &case));
    }
}

fn line(number: usize, case: &Case) -> String {
    let mut workspace = vec![0; reference::WORKSPACE_WORDS];
    let verdict = reference::check(&mut workspace, &case.policy, &case.package);
    let fits = |start: &&Start| start.registers.len() == 16 && start.memory.len() <= MOST_WORDS;
    let run = case.starts.iter().find(fits).map(|start| {
        let (mut registers, mut memory) = (start.registers.clone(), start.memory.clone());
        let (policy, package, budget) = (&case.policy, &case.package, start.budget);
        let outcome = reference::run(policy, package, &mut registers, &mut memory, budget);
        let words = [&[budget][..], &start.registers, &start.memory].concat();
        format!(
            "\"start\": \"{}\", \"run\": [{}, {}, {}], \"regs_after\": {registers:?}, \
             \"mem_after\": \"{}\"",
            hex(&bytes(&words)),
            outcome.number,
            outcome.place,
            outcome.steps,
            hex(&bytes(&memory)),
        )
    });
    let none = "\"start\": null, \"run\": null, \"regs_after\": null, \"mem_after\": null";
    format!(
        "{{\"name\": \"{number:05} {}\", \"policy\": \"{}\", \"package\": \"{}\", \
         \"check\": [{}, {}, {}], {}}}",
        case.name.replace(['"', '\\'], ""),
        hex(&case.policy),
        hex(&case.package),
        verdict.number,
        verdict.place,
        verdict.goals,
        run.as_deref().unwrap_or(none),
    )
}

fn bytes(words: &[u32]) -> Vec<u8> {
    words.iter().flat_map(|word| word.to_le_bytes()).collect()
}

fn hex(bytes: &[u8]) -> String {
    bytes.iter().map(|byte| format!("{byte:02x}")).collect()
}

//! Compares the proved library with the reference: `differential SEED COUNT`.
//!
//! For each of COUNT generated cases the answers of checker, finder and runner are compared, and
//! the workspace, the registers and the memory that they leave. Prints the first differences with
//! their bytes in hexadecimal and at the end `N compared, M different`; the exit status is 1 if
//! there is a difference or nothing was compared.
//!
//! With `PCC_TRACE` set, the name of each case goes to standard error before it is tried.

use std::fmt::Debug;
use std::panic::{catch_unwind, AssertUnwindSafe};
use std::process::ExitCode;

use generator::case::{Case, Cases, Start};

/// How many differences are printed.
const SHOWN: usize = 10;

/// Words before and behind each part that is lent, which must keep their values.
const MARGIN: usize = 8;
const MARK: u32 = 0x5afe_c0de;

fn main() -> ExitCode {
    let arguments: Vec<u64> =
        std::env::args().skip(1).map_while(|argument| argument.parse().ok()).collect();
    let [seed, count] = arguments[..] else {
        eprintln!("usage: differential SEED COUNT");
        return ExitCode::from(2);
    };
    let trace = std::env::var_os("PCC_TRACE").is_some();
    let (mut compared, mut different) = (0u64, 0usize);
    for case in Cases::new(seed).take(count as usize) {
        if trace {
            eprintln!("case {compared}: {}", case.name);
        }
        // An answer that the loader cannot take (a proof outside the package) makes it panic.
        let differences = catch_unwind(AssertUnwindSafe(|| compare(&case)))
            .unwrap_or_else(|_| vec!["panicked".into()]);
        if !differences.is_empty() {
            different += 1;
            if different <= SHOWN {
                println!("case {compared} of seed {seed}: {}", case.name);
                println!("  policy  {}", hex(&case.policy));
                println!("  package {}", hex(&case.package));
                for difference in differences {
                    println!("  {difference}");
                }
            }
        }
        compared += 1;
    }
    println!("{compared} compared, {different} different");
    ExitCode::from(u8::from(different > 0 || compared == 0))
}

/// What is different.
fn compare(case: &Case) -> Vec<String> {
    let mut differences = Vec::new();
    let kept = (case.policy.clone(), case.package.clone());
    compare_check(case, &mut differences);
    compare_find(case, &mut differences);
    for start in &case.starts {
        compare_run(case, start, &mut differences);
    }
    if (&case.policy, &case.package) != (&kept.0, &kept.1) {
        differences.push("policy or package changed".into());
    }
    differences
}

fn compare_check(case: &Case, differences: &mut Vec<String>) {
    let words: Vec<u32> =
        (0..case.workspace as u32).map(|word| word.wrapping_mul(77) | 1).collect();
    let mut lent = Lent::new(&words);
    let verdict = loader::check(lent.part(), &case.policy, &case.package);
    let mut workspace = words;
    let expected = reference::check(&mut workspace, &case.policy, &case.package);
    let answer = (verdict.number, verdict.place, verdict.goals);
    note("check", &answer, &(expected.number, expected.place, expected.goals), differences);
    if lent.part() != workspace {
        differences.push(format!("check leaves another workspace ({} words)", case.workspace));
    }
    lent.margins("workspace", differences);
}

fn compare_find(case: &Case, differences: &mut Vec<String>) {
    let finding = loader::find_proof(&case.package);
    let expected = reference::find_proof(&case.package);
    note(
        "find_proof",
        &(finding.number, finding.place, finding.proof.len()),
        &(expected.number, expected.place, expected.length),
        differences,
    );
    // Document 01 leaves open where the empty part lies.
    if !finding.proof.is_empty() && finding.start != expected.start {
        differences.push(format!("proof at {}, not at {}", finding.start, expected.start));
    }
}

fn compare_run(case: &Case, start: &Start, differences: &mut Vec<String>) {
    let Start { registers, memory, budget } = start;
    let (mut lent_registers, mut lent_memory) = (Lent::new(registers), Lent::new(memory));
    let outcome = loader::run(
        &case.policy,
        &case.package,
        lent_registers.part(),
        lent_memory.part(),
        *budget,
    );
    let (mut registers, mut memory) = (registers.clone(), memory.clone());
    let expected =
        reference::run(&case.policy, &case.package, &mut registers, &mut memory, *budget);
    let before = differences.len();
    let answer = (outcome.number, outcome.place, outcome.steps);
    note("run", &answer, &(expected.number, expected.place, expected.steps), differences);
    note("registers", &lent_registers.part(), &&mut registers[..], differences);
    if lent_memory.part() != memory {
        let place = (0..memory.len()).find(|&place| lent_memory.part()[place] != memory[place]);
        differences.push(format!("memory differs, first at {place:?}"));
    }
    lent_registers.margins("registers", differences);
    lent_memory.margins("memory", differences);
    if differences.len() > before {
        let words = |words: &[u32]| -> Vec<u8> {
            words.iter().flat_map(|word| word.to_le_bytes()).collect()
        };
        differences.push(format!(
            "start: budget {budget}, registers {}, memory {}",
            hex(&words(&start.registers)),
            hex(&words(&start.memory)),
        ));
    }
}

fn note<T: PartialEq + Debug>(what: &str, answer: &T, expected: &T, differences: &mut Vec<String>) {
    if answer != expected {
        differences.push(format!("{what}: library {answer:?}, reference {expected:?}"));
    }
}

/// Words that are lent, with margins.
struct Lent {
    words: Vec<u32>,
}

impl Lent {
    fn new(words: &[u32]) -> Self {
        let margin = [MARK; MARGIN];
        Lent { words: [&margin[..], words, &margin].concat() }
    }

    fn part(&mut self) -> &mut [u32] {
        let end = self.words.len() - MARGIN;
        &mut self.words[MARGIN..end]
    }

    fn margins(&self, what: &str, differences: &mut Vec<String>) {
        let behind = self.words.len() - MARGIN;
        let margins = self.words[..MARGIN].iter().chain(&self.words[behind..]);
        if margins.into_iter().any(|&word| word != MARK) {
            differences.push(format!("words beside the {what} are written"));
        }
    }
}

fn hex(bytes: &[u8]) -> String {
    if bytes.is_empty() {
        return "-".into();
    }
    bytes.iter().map(|byte| format!("{byte:02x}")).collect()
}

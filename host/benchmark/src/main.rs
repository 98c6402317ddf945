//! Times of the proved library and of the reference on the same inputs, in one run.
//!
//! `benchmark [PART]` measures the inputs whose name contains PART, all without it. The two are
//! called in turn; a row has the medians, the spread (half the distance of the quartiles, as a part
//! of the median) and the ratio of the medians, proved / reference. Times are the processor's for
//! this thread, so that other programs disturb them little. Rows of checks and runs also have the
//! bytes of stack that the proved call takes. Nothing is asserted of them.

use std::hint::black_box;
use std::time::Duration;

use generator::assemble::{package, Instruction, Policy, Region, READ, WRITE};
use generator::paths::path_cases;
use generator::random::Random;
use generator::routine::{field_sample, plain_sample, protected_table, table_sample, Sample};
use generator::worst::worst_cases;

mod stack;

/// How long one measurement should take at least, by as many calls as that needs.
const LEAST: Duration = Duration::from_micros(500);

/// How long a row may take, more or less.
const MOST: Duration = Duration::from_millis(1_500);

/// Measurements of each of the two, if there is time.
const MEASUREMENTS: usize = 101;

fn main() {
    let part = std::env::args().nth(1).unwrap_or_default();
    let heading = ["reference", "spread", "proved", "spread", "ratio"];
    let heading = row(&heading.map(String::from));
    println!("{:<52} {:>6} {:>7} {:>6} {heading}   stack", "checks", "bytes", "answer", "goals");
    for input in checks().iter().filter(|input| input.name.contains(&part)) {
        measure_check(input);
    }
    println!();
    println!("{:<52} {:>13} {:>7} {heading}", "finds", "bytes", "answer");
    for input in finds().iter().filter(|input| input.name.contains(&part)) {
        measure_find(input);
    }
    println!();
    println!("{:<52} {:>13} {:>7} {heading}   stack", "runs, a step", "steps", "answer");
    for input in runs().iter().filter(|input| input.name.contains(&part)) {
        measure_run(input);
    }
}

/// A policy and a package to be checked.
struct Check {
    name: String,
    policy: Vec<u8>,
    package: Vec<u8>,
}

fn checks() -> Vec<Check> {
    let mut inputs = Vec::new();
    let mut add = |name: &str, policy: &[u8], package: &[u8]| {
        inputs.push(Check {
            name: name.into(),
            policy: policy.to_vec(),
            package: package.to_vec(),
        });
    };
    let policy = plain_policy(1, 1).encode();
    add("accepted: a return", &policy, &package(&[Instruction::Return], 0, &[], &[2]));
    for segments in [1, 2, 4, 8, 12, 16, 20, 24, 48] {
        if let Some(sample) = accepted(plain_sample, |_| true, segments) {
            let name = format!("accepted: random routine, segments: {segments}");
            add(&name, &sample.policy_bytes(), &sample.package_bytes());
        }
    }
    for segments in [1, 4, 12, 24] {
        if let Some(sample) = accepted(field_sample, |_| true, segments) {
            let name = format!("accepted: with masks and shifts, segments: {segments}");
            add(&name, &sample.policy_bytes(), &sample.package_bytes());
        }
    }
    for segments in [8, 16, 24] {
        if let Some(sample) = accepted(table_sample, stores_beside_protected, segments) {
            let name = format!("accepted: with protected words, segments: {segments}");
            add(&name, &sample.policy_bytes(), &sample.package_bytes());
        }
    }
    let table = protected_table(1_000);
    let name = "accepted: farm codes between writable words";
    add(name, &table.policy_bytes(), &table.package_bytes());
    for worst in worst_cases() {
        let kind = if worst.number == 0 { "accepted" } else { "refused" };
        add(&format!("{kind}: {}", worst.name), &worst.policy, &worst.package);
    }
    for nested in path_cases().iter().filter(|case| case.name.ends_with("nested branches")) {
        let kind = if nested.answer[0] == 0 { "accepted" } else { "refused" };
        add(&format!("{kind}: {}", nested.name), &nested.policy, &nested.package);
    }
    let returns = vec![Instruction::Return; 256];
    let long = package(&returns, 0, &[], &vec![2; 60_000]);
    add("refused: no policy", &[], &long);
    add("refused: short header", &policy, &long[..11]);
    add("refused: length", &policy, &long[..60_000]);
    let mut wrong = long.clone();
    wrong[12 + 4 * 255] = 12;
    add("refused: last instruction", &policy, &wrong);
    inputs
}

/// The first of some random routines that is wanted and accepted.
fn accepted(
    make: fn(&mut Random, usize) -> Sample,
    wanted: fn(&Sample) -> bool,
    segments: usize,
) -> Option<Sample> {
    let mut random = Random::new(segments as u64);
    let mut workspace = vec![0; reference::WORKSPACE_WORDS];
    (0..200).map(|_| make(&mut random, segments)).find(|sample| {
        let (policy, package) = (sample.policy_bytes(), sample.package_bytes());
        wanted(sample) && reference::check(&mut workspace, &policy, &package).number == 0
    })
}

/// Whether a routine stores, under a policy with a region that lacks the right to.
fn stores_beside_protected(sample: &Sample) -> bool {
    let store = |instruction: &Instruction| matches!(instruction, Instruction::Store { .. });
    sample.policy.regions.iter().any(|region| region.rights == READ)
        && sample.routine.code.iter().any(store)
}

fn plain_policy(memory: u32, regions: usize) -> Policy {
    Policy {
        memory,
        limit: 1,
        regions: vec![Region { base: 0, length: memory, rights: READ | WRITE }; regions],
        precondition: Vec::new(),
        postcondition: Vec::new(),
    }
}

fn measure_check(input: &Check) {
    let mut workspace = vec![0; reference::WORKSPACE_WORDS];
    let verdict = reference::check(&mut workspace, &input.policy, &input.package);
    let proved = loader::check(&mut workspace, &input.policy, &input.package);
    let agree = (verdict.number, verdict.place, verdict.goals)
        == (proved.number, proved.place, proved.goals);
    let mut other = workspace.clone();
    let times = measure(
        || {
            black_box(reference::check(&mut workspace, &input.policy, &input.package));
        },
        || {
            black_box(loader::check(&mut other, &input.policy, &input.package));
        },
    );
    let stack = stack::stack_of(&mut || {
        black_box(loader::check(&mut other, &input.policy, &input.package));
    });
    println!(
        "{:<52} {:>6} {:>7} {:>6} {} {stack:>7}{}",
        input.name,
        input.package.len(),
        verdict.number,
        verdict.goals,
        times.row(1),
        if agree { "" } else { "  ANSWERS DIFFER" },
    );
}

fn finds() -> Vec<Check> {
    let whole = package(&[Instruction::Return; 256], 0, &[], &[2; 60_000]);
    let cut = whole[..whole.len() - 1].to_vec();
    let find = |name: &str, package| Check { name: name.into(), policy: Vec::new(), package };
    vec![find("proof of 60,000 bytes", whole), find("wrong length", cut)]
}

fn measure_find(input: &Check) {
    let finding = reference::find_proof(&input.package);
    let proved = loader::find_proof(&input.package);
    let agree = (finding.number, finding.place, finding.length)
        == (proved.number, proved.place, proved.proof.len());
    let times = measure(
        || {
            black_box(reference::find_proof(black_box(&input.package)));
        },
        || {
            black_box(loader::find_proof(black_box(&input.package)));
        },
    );
    println!(
        "{:<52} {:>13} {:>7} {}{}",
        input.name,
        input.package.len(),
        finding.number,
        times.row(1),
        if agree { "" } else { "  ANSWERS DIFFER" },
    );
}

/// A package to be run.
struct Run {
    name: String,
    policy: Vec<u8>,
    package: Vec<u8>,
    memory: usize,
    registers: [u32; 16],
}

fn runs() -> Vec<Run> {
    let mut inputs = Vec::new();
    let mut add = |name: &str, policy: &Policy, code: &[Instruction], rounds: u32| {
        let mut registers = [0; 16];
        registers[1] = rounds;
        inputs.push(Run {
            name: name.into(),
            policy: policy.encode(),
            package: package(code, 0, &[], &[]),
            memory: policy.memory as usize,
            registers,
        });
    };
    let small = plain_policy(64, 1);
    for steps in [1, 10, 64, 65, 256, 512] {
        let mut straight = vec![Instruction::AddConstant { d: 2, a: 2, i: 3 }; steps - 1];
        straight.push(Instruction::Return);
        let name = if steps == 1 { "a return".into() } else { format!("straight, {steps} steps") };
        add(&name, &small, &straight, 0);
    }
    // register 0 counts up to register 1
    let counting = |body: &[Instruction]| {
        let mut code = vec![Instruction::JumpIfEqual { a: 0, b: 1, target: 0 }];
        code.extend(body);
        code.push(Instruction::AddConstant { d: 0, a: 0, i: 1 });
        code.push(Instruction::Jump { target: 0 });
        code[0] = Instruction::JumpIfEqual { a: 0, b: 1, target: code.len() as u32 };
        code.push(Instruction::Return);
        code
    };
    let arithmetic = [
        Instruction::Add { d: 2, a: 2, b: 0 },
        Instruction::Subtract { d: 3, a: 2, b: 1 },
        Instruction::AddConstant { d: 4, a: 3, i: 77 },
        Instruction::Constant { d: 5, i: 9 },
    ];
    let accesses = [
        Instruction::Load { d: 2, a: 6, i: 5 },
        Instruction::Add { d: 2, a: 2, b: 0 },
        Instruction::Store { d: 2, a: 6, i: 63 },
    ];
    let fields = [
        Instruction::Mask { d: 2, a: 0, i: 255 },
        Instruction::Shift { d: 3, a: 0, i: 8 },
        Instruction::Mask { d: 4, a: 3, i: 0xff00_ff00 },
        Instruction::Shift { d: 5, a: 4, i: 31 },
    ];
    for rounds in [10, 1_000, 200_000] {
        add(&format!("arithmetic, {rounds} rounds"), &small, &counting(&arithmetic), rounds);
        add(&format!("masks and shifts, {rounds} rounds"), &small, &counting(&fields), rounds);
        add(&format!("memory, {rounds} rounds"), &small, &counting(&accesses), rounds);
    }
    // the word is only in the last of eight regions
    let mut regions = plain_policy(16_384, 8);
    for (number, region) in regions.regions.iter_mut().enumerate() {
        *region = Region { base: 1_000 - 100 * number as u32, length: 90, rights: READ | WRITE };
    }
    let far = [
        Instruction::Load { d: 2, a: 6, i: 310 },
        Instruction::Add { d: 2, a: 2, b: 0 },
        Instruction::Store { d: 2, a: 6, i: 389 },
    ];
    add("memory, 8 regions, 200000 rounds", &regions, &counting(&far), 200_000);
    // all eight are over the word, or seven of them lack the right and are elsewhere
    let stores = [
        Instruction::Store { d: 2, a: 6, i: 310 },
        Instruction::Store { d: 3, a: 6, i: 330 },
        Instruction::Store { d: 4, a: 6, i: 389 },
    ];
    let over = plain_policy(16_384, 8);
    add("stores, 8 regions over the word, 200000 rounds", &over, &counting(&stores), 200_000);
    for region in &mut regions.regions[..7] {
        region.rights = READ;
    }
    let name = "stores, 7 regions for loads elsewhere, 200000 rounds";
    add(name, &regions, &counting(&stores), 200_000);
    let table = protected_table(1_000);
    add("farm codes between writable words", &table.policy, &table.routine.code, 0);
    inputs
}

fn measure_run(input: &Run) {
    let start = (input.registers, vec![1u32; input.memory]);
    let (mut registers, mut memory) = start.clone();
    let outcome =
        reference::run(&input.policy, &input.package, &mut registers, &mut memory, u32::MAX);
    let (mut other_registers, mut other_memory) = start.clone();
    let proved = loader::run(
        &input.policy,
        &input.package,
        &mut other_registers,
        &mut other_memory,
        u32::MAX,
    );
    let agree = (outcome.number, outcome.place, outcome.steps)
        == (proved.number, proved.place, proved.steps)
        && (&registers, &memory) == (&other_registers, &other_memory);
    let mut proved = || {
        let mut registers = input.registers;
        black_box(loader::run(
            &input.policy,
            &input.package,
            &mut registers,
            &mut other_memory,
            u32::MAX,
        ));
    };
    let stack = stack::stack_of(&mut proved);
    let times = measure(
        || {
            let mut registers = input.registers;
            black_box(reference::run(
                &input.policy,
                &input.package,
                &mut registers,
                &mut memory,
                u32::MAX,
            ));
        },
        proved,
    );
    println!(
        "{:<52} {:>13} {:>7} {} {stack:>7}{}",
        input.name,
        outcome.steps,
        outcome.number,
        times.row(outcome.steps.max(1)),
        if agree { "" } else { "  ANSWERS DIFFER" },
    );
}

/// Nanoseconds of a call, sorted, of the reference and of the proved library.
struct Times {
    reference: Vec<f64>,
    proved: Vec<f64>,
}

impl Times {
    fn row(&self, steps: u32) -> String {
        let part = |times: &[f64], quarter: usize| times[(times.len() - 1) * quarter / 4];
        let median = |times: &[f64]| part(times, 2);
        let spread = |times: &[f64]| (part(times, 3) - part(times, 1)) / 2.0 / median(times);
        let (left, right) = (median(&self.reference), median(&self.proved));
        row(&[
            duration(left / f64::from(steps)),
            format!("{:.0}%", 100.0 * spread(&self.reference)),
            duration(right / f64::from(steps)),
            format!("{:.0}%", 100.0 * spread(&self.proved)),
            format!("{:.2}", right / left),
        ])
    }
}

/// The cells of a row, right-aligned.
fn row(cells: &[String; 5]) -> String {
    let [a, b, c, d, e] = cells;
    format!("{a:>12} {b:>7} {c:>12} {d:>7} {e:>9}")
}

fn duration(nanoseconds: f64) -> String {
    match nanoseconds {
        time if time < 1e3 => format!("{time:.1} ns"),
        time if time < 1e6 => format!("{:.2} us", time / 1e3),
        time if time < 1e9 => format!("{:.2} ms", time / 1e6),
        time => format!("{:.2} s", time / 1e9),
    }
}

/// Calls the two in turn and takes their times.
fn measure(mut reference: impl FnMut(), mut proved: impl FnMut()) -> Times {
    let calls = [calls_for(&mut reference), calls_for(&mut proved)];
    let mut times = Times { reference: Vec::new(), proved: Vec::new() };
    let start = now();
    for measurement in 0..MEASUREMENTS {
        times.reference.push(time(&mut reference, calls[0]));
        times.proved.push(time(&mut proved, calls[1]));
        if now() - start > MOST && measurement >= 4 {
            break;
        }
    }
    times.reference.sort_unstable_by(f64::total_cmp);
    times.proved.sort_unstable_by(f64::total_cmp);
    times
}

/// How many calls one measurement needs.
fn calls_for(call: &mut impl FnMut()) -> u32 {
    let mut calls = 1;
    loop {
        let taken = time(call, calls) * f64::from(calls);
        if taken >= LEAST.as_nanos() as f64 || calls >= 1 << 20 {
            return calls;
        }
        calls *= 2;
    }
}

/// The nanoseconds of one of so many calls.
fn time(call: &mut impl FnMut(), calls: u32) -> f64 {
    let start = now();
    for _ in 0..calls {
        call();
    }
    (now() - start).as_nanos() as f64 / f64::from(calls)
}

/// The processor's time for this thread, from the C library that every program here is linked with
/// (x86-64 Linux, as the proved library).
fn now() -> Duration {
    #[repr(C)]
    struct Time {
        seconds: i64,
        nanoseconds: i64,
    }
    unsafe extern "C" {
        fn clock_gettime(clock: i32, time: *mut Time) -> i32;
    }
    const CLOCK_THREAD_CPUTIME_ID: i32 = 3;
    let mut time = Time { seconds: 0, nanoseconds: 0 };
    // SAFETY: the time is written where the pointer leads to, and nothing else is.
    let status = unsafe { clock_gettime(CLOCK_THREAD_CPUTIME_ID, &mut time) };
    assert_eq!(status, 0, "no clock of the thread");
    Duration::new(time.seconds as u64, time.nanoseconds as u32)
}

//! Prints how the reference answers random samples: `survey SEED COUNT SEGMENTS`.

use std::collections::BTreeMap;

use generator::random::Random;
use generator::routine::sample;

fn main() {
    let mut arguments = std::env::args().skip(1).map(|argument| argument.parse().unwrap());
    let mut next = |default: u64| arguments.next().unwrap_or(default);
    let (seed, count, segments) = (next(1), next(100), next(8));
    let mut random = Random::new(seed);
    let mut answers: BTreeMap<u32, usize> = BTreeMap::new();
    let (mut goals, mut bytes, mut most_goals) = (0, 0, 0);
    let mut workspace = vec![0; reference::WORKSPACE_WORDS];
    let mut rules = [0usize; 29];
    for _ in 0..count {
        let sample = sample(&mut random, segments as usize);
        let (policy, package) = (sample.policy_bytes(), sample.package_bytes());
        let verdict = reference::check(&mut workspace, &policy, &package);
        if sample.proved && verdict.number != 0 {
            println!("proved, but {verdict:?}");
        }
        *answers.entry(verdict.number).or_default() += 1;
        if verdict.number == 0 {
            goals += verdict.goals;
            most_goals = most_goals.max(verdict.goals);
            bytes += package.len();
            for &byte in &sample.proof {
                if let Some(rule) = rules.get_mut(usize::from(byte)) {
                    *rule += 1;
                }
            }
        }
    }
    let accepted = answers.get(&0).copied().unwrap_or(0).max(1);
    println!(
        "answers {answers:?}; of the accepted: goals {} on average, {most_goals} at most, {} bytes",
        goals / accepted,
        bytes / accepted
    );
    println!("bytes 0 to 28 of their proofs: {rules:?}");
}

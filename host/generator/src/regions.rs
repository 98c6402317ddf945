//! Regions side by side and over one another, and loads and stores in them and at their edges.

use crate::assemble::{package, Instruction, Policy, Region, READ, WRITE};
use crate::hostile::Named;
use crate::random::Random;

/// Regions anywhere in a memory.
pub fn any_regions(random: &mut Random, memory: u32) -> Vec<Region> {
    let count = random.within(1..=4).max(if random.chance(1, 8) { 8 } else { 1 });
    (0..count).map(|_| any_region(random, memory)).collect()
}

fn any_region(random: &mut Random, memory: u32) -> Region {
    let base = random.within(0..=memory - 1);
    let length = random.within(1..=memory - base);
    Region { base, length, rights: any_rights(random) }
}

fn any_rights(random: &mut Random) -> u32 {
    if random.chance(1, 2) {
        READ | WRITE
    } else {
        random.within(1..=3)
    }
}

/// The regions of a table, some of them without the right to store.
pub fn table_regions(random: &mut Random, memory: u32) -> Vec<Region> {
    let mut regions =
        if random.chance(1, 2) { pieces(random, memory) } else { protected(random, memory) };
    if random.chance(1, 3) {
        regions.push(any_region(random, memory));
    }
    random.shuffle(&mut regions);
    regions
}

/// The memory cut into at most seven regions that touch.
fn pieces(random: &mut Random, memory: u32) -> Vec<Region> {
    let mut cuts: Vec<u32> = (0..random.below(7)).map(|_| random.within(0..=memory)).collect();
    cuts.extend([0, memory]);
    cuts.sort_unstable();
    cuts.dedup();
    let ends = cuts.windows(2).map(|ends| (ends[0], ends[1]));
    ends.map(|(base, end)| Region { base, length: end - base, rights: any_rights(random) })
        .collect()
}

/// A writable region over all, protected words in it, and mostly the words on either side of them
/// as regions of their own.
fn protected(random: &mut Random, memory: u32) -> Vec<Region> {
    let base = random.within(0..=memory - 1);
    let end = random.within(base + 1..=memory);
    let mut regions = vec![
        Region { base: 0, length: memory, rights: READ | WRITE },
        Region { base, length: end - base, rights: READ },
    ];
    for (base, end) in [(0, base), (end, memory)] {
        if base < end && random.chance(3, 4) {
            let rights = *random.pick(&[WRITE, READ | WRITE]);
            regions.push(Region { base, length: end - base, rights });
        }
    }
    regions
}

/// Loads and stores in the regions of a small table and at their edges, by rules 22 and 23; most
/// of the regions named fit.
pub fn table_case(random: &mut Random) -> Named {
    let memory = random.within(2..=12);
    let regions = if random.chance(1, 4) {
        any_regions(random, memory)
    } else {
        table_regions(random, memory)
    };
    let (mut code, mut proof) = (Vec::new(), Vec::new());
    for _ in 0..random.within(1..=4) {
        let (rule, right) = if random.chance(1, 4) { (22, READ) } else { (23, WRITE) };
        let number = region_for(right, &regions, random);
        let address = word_near(regions.get(number).unwrap_or(&regions[0]), random);
        let i = random.word();
        code.push(Instruction::Constant { d: 1, i: address.wrapping_sub(i) });
        code.push(match rule {
            22 => Instruction::Load { d: 2, a: 1, i },
            _ => Instruction::Store { d: 3, a: 1, i },
        });
        proof.extend([rule, number as u8, 3, 3]);
    }
    code.push(Instruction::Return);
    proof.push(3);
    let policy =
        Policy { memory, limit: 9, regions, precondition: Vec::new(), postcondition: Vec::new() };
    ("loads and stores of a table".into(), policy.encode(), package(&code, 0, &[], &proof))
}

/// The number of a region that fits, now and then of any, or one past the last.
fn region_for(right: u32, regions: &[Region], random: &mut Random) -> usize {
    let fitting: Vec<usize> =
        (0..regions.len()).filter(|&number| regions[number].fits(right, regions)).collect();
    if fitting.is_empty() || random.chance(1, 8) {
        let past = usize::from(random.chance(1, 8));
        return random.below(regions.len() + past);
    }
    *random.pick(&fitting)
}

/// A word of a region, now and then the one before it or the one behind it.
fn word_near(region: &Region, random: &mut Random) -> u32 {
    let Region { base, length, .. } = *region;
    match random.below(16) {
        0 => base.wrapping_sub(1),
        1 => base + length,
        2 | 3 => base,
        4 | 5 => base + length - 1,
        _ => base + random.within(0..=length - 1),
    }
}

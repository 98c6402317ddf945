//! Damage: packages and policies that are nearly right.

use crate::assemble::Routine;
use crate::random::Random;
use crate::routine::Sample;

/// The proof's first byte and the annotation section's, as the header of a package has it; nothing
/// if the header does not fit the package.
fn sections(package: &[u8]) -> Option<(usize, usize)> {
    let half = |at: usize| Some(u16::from_le_bytes(*package.get(at..)?.first_chunk()?));
    let word = |at: usize| Some(u32::from_le_bytes(*package.get(at..)?.first_chunk()?));
    let section = 12 + 8 * usize::from(half(0)?);
    let proof = section.checked_add(word(4)? as usize)?;
    (proof <= package.len()).then_some((section, proof))
}

/// Makes the header's lengths fit a package whose annotation section ends at `proof`.
fn repair(package: &mut [u8], section: usize, proof: usize) {
    let annotations = (proof - section) as u32;
    let rest = (package.len() - proof) as u32;
    package[4..8].copy_from_slice(&annotations.to_le_bytes());
    package[8..12].copy_from_slice(&rest.to_le_bytes());
}

/// Values that a byte is changed to in every place.
fn byte_values(byte: u8) -> [u8; 6] {
    [byte.wrapping_add(1), byte.wrapping_sub(1), byte ^ 0x80, 0, 0xff, byte ^ 0x15]
}

/// All truncations, and all changes of one byte, a few values each.
pub fn every_change(bytes: &[u8]) -> impl Iterator<Item = Vec<u8>> + '_ {
    let truncations = (0..bytes.len()).map(move |length| bytes[..length].to_vec());
    let changes = (0..bytes.len()).flat_map(move |place| {
        let values = byte_values(bytes[place]);
        values.into_iter().filter(move |&value| value != bytes[place]).map(move |value| {
            let mut changed = bytes.to_vec();
            changed[place] = value;
            changed
        })
    });
    truncations.chain(changes)
}

/// All truncations of the proof, and all removals and doublings of one byte behind the code, with
/// the lengths in the header set right.
pub fn every_repaired_change(package: &[u8]) -> Vec<Vec<u8>> {
    let Some((section, proof)) = sections(package) else { return Vec::new() };
    let mut changed = Vec::new();
    for length in proof..package.len() {
        let mut bytes = package[..length].to_vec();
        repair(&mut bytes, section, proof);
        changed.push(bytes);
    }
    for place in section..package.len() {
        let in_section = usize::from(place < proof);
        let mut bytes = package.to_vec();
        bytes.remove(place);
        repair(&mut bytes, section, proof - in_section);
        changed.push(bytes);
        let mut bytes = package.to_vec();
        bytes.insert(place, package[place]);
        repair(&mut bytes, section, proof + in_section);
        changed.push(bytes);
    }
    changed
}

/// A package with random damage.
pub fn damaged_package(package: &[u8], random: &mut Random) -> Vec<u8> {
    let mut bytes = package.to_vec();
    let Some((section, proof)) = sections(package) else {
        return damaged_bytes(package, random);
    };
    let annotations = section..proof;
    let derivations = proof..package.len();
    match random.below(15) {
        0 | 1 => return damaged_bytes(package, random),
        // a byte of the annotations or of the proof
        2 | 3 if !derivations.is_empty() => {
            let place = derivations.start + random.below(derivations.len());
            bytes[place] = *random.pick(&byte_values(bytes[place]));
        }
        4 if !annotations.is_empty() => {
            let place = annotations.start + random.below(annotations.len());
            bytes[place] = *random.pick(&byte_values(bytes[place]));
        }
        // another rule
        5 if !derivations.is_empty() => {
            let place = derivations.start + random.below(derivations.len());
            bytes[place] = random.below(29) as u8;
        }
        // an instruction
        6 | 7 => {
            let count = (section - 12) / 8;
            let index = random.below(count);
            let field = random.below(4);
            bytes[12 + 4 * index + field] = random.below(if field == 0 { 13 } else { 17 }) as u8;
            if random.chance(1, 2) {
                let immediate = 12 + 4 * count + 4 * index;
                bytes[immediate..immediate + 4].copy_from_slice(&random.word().to_le_bytes());
            }
        }
        // a shorter proof
        8 => {
            bytes.truncate(derivations.start + random.below(derivations.len()));
            repair(&mut bytes, section, proof);
        }
        // bytes put in, taken out, or copied
        9 => {
            let place = section + random.below(package.len() - section + 1);
            let put_in: Vec<u8> = (0..=random.below(4)).map(|_| random.byte() % 29).collect();
            let moved = if place < proof { put_in.len() } else { 0 };
            bytes.splice(place..place, put_in);
            if bytes.len() <= 65_536 {
                repair(&mut bytes, section, proof + moved);
            }
        }
        10 if !derivations.is_empty() => {
            let place = derivations.start + random.below(derivations.len());
            let end = (place + 1 + random.below(6)).min(package.len());
            bytes.drain(place..end);
            repair(&mut bytes, section, proof);
        }
        11 if !derivations.is_empty() => {
            let from = derivations.start + random.below(derivations.len());
            let to = derivations.start + random.below(derivations.len());
            let length = (1 + random.below(24)).min(package.len() - from.max(to));
            bytes.copy_within(from..from + length, to);
        }
        // a part of the proof put in at another place
        12 if !derivations.is_empty() => {
            let from = derivations.start + random.below(derivations.len());
            let end = (from + 1 + random.below(24)).min(package.len());
            let to = derivations.start + random.below(derivations.len());
            bytes.splice(to..to, package[from..end].iter().copied());
            repair(&mut bytes, section, proof);
        }
        // a constant behind a tag
        13 => {
            let tags: Vec<usize> =
                (section..package.len().saturating_sub(4)).filter(|&at| bytes[at] == 0).collect();
            if !tags.is_empty() {
                let tag = *random.pick(&tags);
                bytes[tag + 1..tag + 5].copy_from_slice(&random.word().to_le_bytes());
            }
        }
        // another region behind rule 22 or 23
        14 => {
            let rules: Vec<usize> = (proof..package.len().saturating_sub(1))
                .filter(|&at| matches!(bytes[at], 22 | 23))
                .collect();
            if !rules.is_empty() {
                bytes[*random.pick(&rules) + 1] = random.below(6) as u8;
            }
        }
        _ => return damaged_bytes(package, random),
    }
    bytes
}

/// The package of a sample with some derivations behind others that come after them.
pub fn reordered(sample: &Sample, random: &mut Random) -> Vec<u8> {
    let Sample { routine, proof, starts, .. } = sample;
    let mut cuts: Vec<usize> = (0..3).map(|_| random.below(starts.len() + 1)).collect();
    if random.chance(1, 2) {
        // a few derivations, as an edge of a small decision has
        cuts[1] = cuts[0] + 1 + random.below(4);
        cuts[2] = cuts[1] + 1 + random.below(4);
    }
    cuts.sort_unstable();
    let place = |cut: usize| starts.get(cut).copied().unwrap_or(proof.len());
    let [first, middle, last] = [place(cuts[0]), place(cuts[1]), place(cuts[2])];
    let mut proof = proof.clone();
    proof[first..last].rotate_left(middle - first);
    routine.encode(&proof)
}

/// The package of a sample with a jump aimed at its own index, a lower one, or any; or with an
/// annotation less.
pub fn redirected(sample: &Sample, random: &mut Random) -> Vec<u8> {
    let Routine { mut code, mut annotations } = sample.routine.clone();
    let count = code.len();
    let jumps: Vec<usize> =
        (0..count).filter(|&index| code[index].target_mut().is_some()).collect();
    if random.chance(1, 4) && !annotations.is_empty() {
        annotations.remove(random.below(annotations.len()));
    } else if !jumps.is_empty() {
        let index = *random.pick(&jumps);
        let target = match random.below(6) {
            0 => index,
            1 => random.below(index + 1),
            2 => (index + 1).min(count - 1),
            3 | 4 => (index + 1 + random.below(8)).min(count - 1),
            _ => random.below(count + 1),
        };
        *code[index].target_mut().expect("a jump") = target as u32;
    }
    Routine { code, annotations }.encode(&sample.proof)
}

/// A policy with random damage.
pub fn damaged_policy(policy: &[u8], random: &mut Random) -> Vec<u8> {
    let mut bytes = policy.to_vec();
    // memory, step limit, a base or an extent a little different
    if bytes.len() >= 20 && random.chance(1, 2) {
        let fields = 2 + 2 * usize::from(bytes[0].min(8));
        let place = 4 + 4 * random.below(fields);
        if let Some(field) = bytes.get_mut(place..place + 4) {
            let word = u32::from_le_bytes([field[0], field[1], field[2], field[3]]);
            let word = match random.below(4) {
                0 => word.wrapping_add(1),
                1 => word.wrapping_sub(1),
                2 => word.wrapping_add(4),
                _ => random.word(),
            };
            field.copy_from_slice(&word.to_le_bytes());
            return bytes;
        }
    }
    damaged_bytes(policy, random)
}

/// Bytes with a change, a truncation or an end added.
fn damaged_bytes(bytes: &[u8], random: &mut Random) -> Vec<u8> {
    let mut changed = bytes.to_vec();
    match random.below(8) {
        0 => changed.truncate(random.below(bytes.len() + 1)),
        1 => changed.extend((0..=random.below(3)).map(|_| random.byte())),
        2 => {
            for _ in 0..3 {
                if !changed.is_empty() {
                    let place = random.below(changed.len());
                    changed[place] = random.byte();
                }
            }
        }
        _ if changed.is_empty() => changed.push(random.byte()),
        _ => {
            let place = random.below(changed.len());
            changed[place] = *random.pick(&byte_values(changed[place]));
        }
    }
    changed
}

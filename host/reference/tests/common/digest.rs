//! The digest SHA-256.

/// The first 32 bits behind the point of a prime's square root (degree 2) or cube root (degree 3).
fn root(prime: u128, degree: u32) -> u32 {
    let power = prime << (32 * degree);
    let add = |root: u128, bit: u32| {
        let larger = root | 1 << bit;
        if larger.pow(degree) <= power {
            larger
        } else {
            root
        }
    };
    (0..37).rev().fold(0, add) as u32
}

fn primes() -> impl Iterator<Item = u128> {
    (2u128..).filter(|&number| (2..number).all(|part| number % part != 0))
}

/// The digest of some bytes.
pub fn sha256(bytes: &[u8]) -> Vec<u8> {
    let mut state: Vec<u32> = primes().take(8).map(|prime| root(prime, 2)).collect();
    let constants: Vec<u32> = primes().take(64).map(|prime| root(prime, 3)).collect();
    let mut message = bytes.to_vec();
    message.push(0x80);
    message.resize((message.len() + 8).next_multiple_of(64) - 8, 0);
    message.extend((8 * bytes.len() as u64).to_be_bytes());
    for block in message.as_chunks::<64>().0 {
        let words = block.as_chunks::<4>().0.iter();
        let mut words: Vec<u32> = words.map(|&word| u32::from_be_bytes(word)).collect();
        let turned = |word: u32, by: [u32; 3]| by.map(|count| word.rotate_right(count));
        for at in 16..64 {
            let [a, b, _] = turned(words[at - 15], [7, 18, 0]);
            let [c, d, _] = turned(words[at - 2], [17, 19, 0]);
            let small = [a ^ b ^ words[at - 15] >> 3, c ^ d ^ words[at - 2] >> 10];
            let parts = [words[at - 16], words[at - 7], small[0], small[1]];
            words.push(parts.into_iter().fold(0, u32::wrapping_add));
        }
        let mut work = state.clone();
        for (constant, word) in constants.iter().zip(words) {
            let [a, b, c, _, e, f, g, last] = work[..] else { unreachable!("eight words") };
            let mixed = |by| turned(e, by).into_iter().fold(0, |mixed, turned| mixed ^ turned);
            let parts = [last, mixed([6, 11, 25]), e & f ^ !e & g, *constant, word];
            let first = parts.into_iter().fold(0, u32::wrapping_add);
            let mixed = turned(a, [2, 13, 22]).into_iter().fold(0, |mixed, turned| mixed ^ turned);
            let second = mixed.wrapping_add(a & b ^ a & c ^ b & c);
            work.rotate_right(1);
            work[4] = work[4].wrapping_add(first);
            work[0] = first.wrapping_add(second);
        }
        for (word, worked) in state.iter_mut().zip(work) {
            *word = word.wrapping_add(worked);
        }
    }
    state.into_iter().flat_map(u32::to_be_bytes).collect()
}

//! The policy: checks 3 to 6.

use crate::expression::{Expressions, Fault, Formula};
use crate::reader::Reader;
use crate::Refusal;

const MAX_REGIONS: u8 = 8;
const MAX_ATOMS: u8 = 16;
const MAX_MEMORY: u32 = 16_384;

/// A part of the memory, with its rights.
#[derive(Clone, Copy, Debug, Default)]
pub struct Region {
    pub base: u32,
    pub length: u32,
    pub readable: bool,
    pub writable: bool,
}

impl Region {
    /// Whether an address is in the region.
    pub fn contains(&self, address: u32) -> bool {
        address.wrapping_sub(self.base) < self.length
    }

    /// Whether some word is in both regions: then the base of one of them is in the other.
    pub fn overlaps(&self, other: &Region) -> bool {
        self.contains(other.base) || other.contains(self.base)
    }

    /// Whether the region has the write right and overlaps no region of the policy without it.
    pub fn is_wholly_writable(&self, regions: &[Region]) -> bool {
        let in_the_way = |other: &Region| !other.writable && self.overlaps(other);
        self.writable && !regions.iter().any(in_the_way)
    }
}

/// A policy that passes checks 3 to 6.
#[derive(Debug)]
pub struct Policy {
    pub memory_words: u32,
    pub step_limit: u32,
    pub expressions: Expressions,
    pub precondition: Vec<Formula>,
    pub postcondition: Vec<Formula>,
    regions: [Region; MAX_REGIONS as usize],
    region_count: usize,
}

impl Policy {
    /// The regions in order.
    pub fn regions(&self) -> &[Region] {
        &self.regions[..self.region_count]
    }

    /// Reads a policy.
    pub fn read(bytes: &[u8]) -> Result<Policy, Refusal> {
        let missing = || Refusal::new(3, bytes.len());
        let mut reader = Reader::new(bytes, 0);

        let count = |reader: &mut Reader, least: u8, most: u8| {
            let place = reader.position();
            let count = reader.byte().ok_or_else(missing)?;
            if count < least || count > most {
                return Err(Refusal::new(4, place));
            }
            Ok(usize::from(count))
        };
        let region_count = count(&mut reader, 1, MAX_REGIONS)?;
        let precondition_count = count(&mut reader, 0, MAX_ATOMS)?;
        let postcondition_count = count(&mut reader, 0, MAX_ATOMS)?;
        count(&mut reader, 0, 0)?;
        let place = reader.position();
        let memory_words = reader.word().ok_or_else(missing)?;
        if memory_words == 0 || memory_words > MAX_MEMORY {
            return Err(Refusal::new(4, place));
        }
        let step_limit = reader.word().ok_or_else(missing)?;

        let mut regions = [Region::default(); MAX_REGIONS as usize];
        for region in &mut regions[..region_count] {
            region.base = reader.word().ok_or_else(missing)?;
        }
        for region in &mut regions[..region_count] {
            let extent = reader.word().ok_or_else(missing)?;
            region.length = extent >> 2;
            region.readable = extent & 1 != 0;
            region.writable = extent & 2 != 0;
        }
        for (number, region) in regions[..region_count].iter().enumerate() {
            let end = u64::from(region.base) + u64::from(region.length);
            let has_right = region.readable || region.writable;
            if !has_right || region.length == 0 || end > u64::from(memory_words) {
                return Err(Refusal::new(5, number));
            }
        }

        let mut expressions = Expressions::default();
        let mut atoms = |reader: &mut Reader, count: usize| {
            (0..count)
                .map(|_| expressions.read_formula(reader))
                .collect::<Result<Vec<_>, _>>()
                .map_err(|fault| match fault {
                    Fault::Missing => missing(),
                    Fault::Bad(place) => Refusal::new(6, place),
                })
        };
        let precondition = atoms(&mut reader, precondition_count)?;
        let postcondition = atoms(&mut reader, postcondition_count)?;
        if !reader.is_at_end() {
            return Err(Refusal::new(3, reader.position()));
        }
        Ok(Policy {
            memory_words,
            step_limit,
            expressions,
            precondition,
            postcondition,
            regions,
            region_count,
        })
    }
}

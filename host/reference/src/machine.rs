//! The machine and its runner.

use crate::package::{read_code, Instruction, Layout, Register};
use crate::policy::{Policy, Region};
use crate::{Outcome, Refusal};

const REGISTERS: usize = 16;

/// A machine that is ready to run.
#[derive(Debug)]
pub struct Machine<'a> {
    code: Vec<Instruction>,
    readable: Rights,
    writable: Rights,
    protected: Rights,
    registers: &'a mut [u32; REGISTERS],
    memory: &'a mut [u32],
}

/// The regions that give a right, or that lack one.
#[derive(Debug, Default)]
struct Rights {
    regions: [Region; 8],
    count: usize,
}

impl Rights {
    fn new(policy: &Policy, belongs: impl Fn(&&Region) -> bool) -> Self {
        let mut rights = Rights::default();
        for &region in policy.regions().iter().filter(belongs) {
            rights.regions[rights.count] = region;
            rights.count += 1;
        }
        rights
    }

    fn cover(&self, address: u32) -> bool {
        self.regions[..self.count].iter().any(|region| region.contains(address))
    }
}

/// Makes checks 3 to 6, 2, 7, 8 and 9.
pub fn prepare<'a>(
    policy: &[u8],
    package: &[u8],
    registers: &'a mut [u32],
    memory: &'a mut [u32],
) -> Result<Machine<'a>, Refusal> {
    let policy = Policy::read(policy)?;
    let registers: &mut [u32; REGISTERS] = registers.try_into().map_err(|_| Refusal::new(2, 0))?;
    if memory.len() != policy.memory_words as usize {
        return Err(Refusal::new(2, 0));
    }
    let layout = Layout::read(package)?;
    let code = read_code(package, &layout)?;
    let readable = Rights::new(&policy, |region| region.readable);
    let writable = Rights::new(&policy, |region| region.writable);
    let protected = Rights::new(&policy, |region| !region.writable);
    Ok(Machine { code, readable, writable, protected, registers, memory })
}

impl Machine<'_> {
    /// Runs from instruction 0 for at most `budget` steps.
    pub fn run(self, budget: u32) -> Outcome {
        let Machine { code, readable, writable, protected, registers, memory } = self;
        let mut state = Registers(*registers);
        let mut counter = 0;
        let mut steps = 0;
        let number = loop {
            if steps == budget {
                break 20;
            }
            let Some(&instruction) = code.get(counter) else {
                break 22;
            };
            let mut next = counter + 1;
            match instruction {
                Instruction::Constant { d, i } => state.set(d, i),
                Instruction::Add { d, a, b } => {
                    state.set(d, state.get(a).wrapping_add(state.get(b)));
                }
                Instruction::AddConstant { d, a, i } => {
                    state.set(d, state.get(a).wrapping_add(i));
                }
                Instruction::Subtract { d, a, b } => {
                    state.set(d, state.get(a).wrapping_sub(state.get(b)));
                }
                Instruction::Load { d, a, i } => {
                    let address = state.get(a).wrapping_add(i);
                    if !readable.cover(address) {
                        break 21;
                    }
                    state.set(d, memory[address as usize]);
                }
                Instruction::Store { d, a, i } => {
                    let address = state.get(a).wrapping_add(i);
                    if !writable.cover(address) || protected.cover(address) {
                        break 21;
                    }
                    memory[address as usize] = state.get(d);
                }
                Instruction::Jump { target } => next = target as usize,
                Instruction::JumpIfLess { a, b, target } => {
                    if state.get(a) < state.get(b) {
                        next = target as usize;
                    }
                }
                Instruction::JumpIfEqual { a, b, target } => {
                    if state.get(a) == state.get(b) {
                        next = target as usize;
                    }
                }
                Instruction::Return => {
                    steps += 1;
                    break 0;
                }
                Instruction::Mask { d, a, i } => state.set(d, state.get(a) & i),
                Instruction::Shift { d, a, count } => state.set(d, state.get(a) >> count),
            }
            counter = next;
            steps += 1;
        };
        *registers = state.0;
        Outcome { number, place: counter, steps }
    }
}

/// The registers of a run. Their numbers are below 16, so that the mask changes nothing; it
/// spares the test of the index.
struct Registers([u32; REGISTERS]);

impl Registers {
    fn get(&self, register: Register) -> u32 {
        self.0[usize::from(register) % REGISTERS]
    }

    fn set(&mut self, register: Register, value: u32) {
        self.0[usize::from(register) % REGISTERS] = value;
    }
}

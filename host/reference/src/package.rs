//! The package: its layout (check 7), instructions (8, 9), annotations (10, 11) and jump
//! targets (12).

use crate::expression::{Expression, Expressions, Fault, Formula, MAX_COUNT};
use crate::reader::Reader;
use crate::Refusal;

const HEADER: usize = 12;
const MAX_LENGTH: usize = 65_536;
const MAX_INSTRUCTIONS: usize = 512;
const MAX_ANNOTATIONS: usize = 64;
const MAX_ATOMS: u8 = 16;
const LAST_REGISTER: u8 = 15;

/// Where the parts of a package are.
#[derive(Clone, Copy, Debug)]
pub struct Layout {
    /// The instruction count.
    pub instructions: usize,
    /// The annotation count.
    pub annotations: usize,
    /// The annotation section's first byte.
    pub section: usize,
    /// The proof's first byte, which is the annotation section's end.
    pub proof: usize,
}

impl Layout {
    /// Check 7.
    pub fn read(package: &[u8]) -> Result<Layout, Refusal> {
        let refuse = |place| Err(Refusal::new(7, place));
        let mut reader = Reader::new(package, 0);
        let header = (|| Some((reader.half()?, reader.half()?, reader.word()?, reader.word()?)))();
        let Some((instructions, annotations, section_length, proof_length)) = header else {
            return refuse(package.len());
        };
        let instructions = usize::from(instructions);
        let annotations = usize::from(annotations);
        if instructions == 0 || instructions > MAX_INSTRUCTIONS {
            return refuse(0);
        }
        if annotations > MAX_ANNOTATIONS {
            return refuse(2);
        }
        let section = HEADER + 8 * instructions;
        let total = section as u64 + u64::from(section_length) + u64::from(proof_length);
        if package.len() > MAX_LENGTH || total != package.len() as u64 {
            return refuse(package.len().min(MAX_LENGTH));
        }
        let proof = section + section_length as usize;
        Ok(Layout { instructions, annotations, section, proof })
    }
}

/// A register's number, 0 to 15.
pub type Register = u8;

/// A decoded instruction.
#[derive(Clone, Copy, Debug, PartialEq, Eq)]
pub enum Instruction {
    Constant { d: Register, i: u32 },
    Add { d: Register, a: Register, b: Register },
    AddConstant { d: Register, a: Register, i: u32 },
    Subtract { d: Register, a: Register, b: Register },
    Load { d: Register, a: Register, i: u32 },
    Store { d: Register, a: Register, i: u32 },
    Jump { target: u32 },
    JumpIfLess { a: Register, b: Register, target: u32 },
    JumpIfEqual { a: Register, b: Register, target: u32 },
    Return,
    Mask { d: Register, a: Register, i: u32 },
    Shift { d: Register, a: Register, count: u8 },
}

impl Instruction {
    /// Decodes an instruction, if its operation is known, its registers exist, its unused fields
    /// are zero and a word is not shifted by more bits than it may be.
    fn decode([op, d, a, b]: [u8; 4], i: u32) -> Option<Instruction> {
        let register = |field: u8| field <= LAST_REGISTER;
        match op {
            0 if register(d) && a == 0 && b == 0 => Some(Instruction::Constant { d, i }),
            1 if register(d) && register(a) && register(b) && i == 0 => {
                Some(Instruction::Add { d, a, b })
            }
            2 if register(d) && register(a) && b == 0 => Some(Instruction::AddConstant { d, a, i }),
            3 if register(d) && register(a) && register(b) && i == 0 => {
                Some(Instruction::Subtract { d, a, b })
            }
            4 if register(d) && register(a) && b == 0 => Some(Instruction::Load { d, a, i }),
            5 if register(d) && register(a) && b == 0 => Some(Instruction::Store { d, a, i }),
            6 if d == 0 && a == 0 && b == 0 => Some(Instruction::Jump { target: i }),
            7 if d == 0 && register(a) && register(b) => {
                Some(Instruction::JumpIfLess { a, b, target: i })
            }
            8 if d == 0 && register(a) && register(b) => {
                Some(Instruction::JumpIfEqual { a, b, target: i })
            }
            9 if d == 0 && a == 0 && b == 0 && i == 0 => Some(Instruction::Return),
            10 if register(d) && register(a) && b == 0 => Some(Instruction::Mask { d, a, i }),
            11 if register(d) && register(a) && b == 0 && i <= u32::from(MAX_COUNT) => {
                Some(Instruction::Shift { d, a, count: i as u8 })
            }
            _ => None,
        }
    }

    /// The target of a jump.
    pub fn target(self) -> Option<u32> {
        match self {
            Instruction::Jump { target }
            | Instruction::JumpIfLess { target, .. }
            | Instruction::JumpIfEqual { target, .. } => Some(target),
            _ => None,
        }
    }
}

/// Checks 8 and 9.
pub fn read_code(package: &[u8], layout: &Layout) -> Result<Vec<Instruction>, Refusal> {
    let (operations, immediates) =
        package[HEADER..layout.section].split_at(4 * layout.instructions);
    let operations = operations.as_chunks::<4>().0;
    let immediates = immediates.as_chunks::<4>().0;
    let mut code = Vec::with_capacity(layout.instructions);
    for (index, (&operation, &immediate)) in operations.iter().zip(immediates).enumerate() {
        let instruction = Instruction::decode(operation, u32::from_le_bytes(immediate))
            .ok_or(Refusal::new(8, index))?;
        if instruction.target().is_some_and(|target| target as usize >= layout.instructions) {
            return Err(Refusal::new(9, index));
        }
        code.push(instruction);
    }
    Ok(code)
}

/// An annotation: what holds whenever its instruction is about to be run.
#[derive(Debug)]
pub struct Annotation {
    pub index: usize,
    pub credit: Expression,
    /// Its atoms, in [`Annotations::atoms`].
    pub atoms: std::ops::Range<usize>,
}

/// The annotations, by rising index.
#[derive(Debug)]
pub struct Annotations {
    pub list: Vec<Annotation>,
    pub atoms: Vec<Formula>,
    pub expressions: Expressions,
    /// For each instruction its annotation's number, [`NONE`] if it has none.
    at: [u8; MAX_INSTRUCTIONS],
}

const NONE: u8 = u8::MAX;

impl Annotations {
    /// Checks 10 and 11.
    pub fn read(package: &[u8], layout: &Layout) -> Result<Annotations, Refusal> {
        let missing = || Refusal::new(11, layout.proof);
        let refuse = |fault| match fault {
            Fault::Missing => missing(),
            Fault::Bad(place) => Refusal::new(11, place),
        };
        let mut reader = Reader::new(&package[..layout.proof], layout.section);
        let mut annotations = Annotations {
            list: Vec::with_capacity(layout.annotations),
            atoms: Vec::new(),
            expressions: Expressions::default(),
            at: [NONE; MAX_INSTRUCTIONS],
        };
        let mut least_index = 0;
        for number in 0..layout.annotations {
            let place = reader.position();
            let index = usize::from(reader.half().ok_or_else(missing)?);
            if index < least_index || index >= layout.instructions {
                return Err(Refusal::new(10, place));
            }
            least_index = index + 1;
            let place = reader.position();
            let count = reader.byte().ok_or_else(missing)?;
            if count > MAX_ATOMS {
                return Err(Refusal::new(10, place));
            }
            let credit = annotations.expressions.read(&mut reader).map_err(refuse)?;
            let first = annotations.atoms.len();
            for _ in 0..count {
                let atom = annotations.expressions.read_formula(&mut reader).map_err(refuse)?;
                annotations.atoms.push(atom);
            }
            let atoms = first..annotations.atoms.len();
            annotations.list.push(Annotation { index, credit, atoms });
            annotations.at[index] = number as u8;
        }
        if !reader.is_at_end() {
            return Err(Refusal::new(11, reader.position()));
        }
        Ok(annotations)
    }

    /// The annotation at an index.
    pub fn at(&self, index: usize) -> Option<&Annotation> {
        self.list.get(usize::from(*self.at.get(index)?))
    }

    /// Check 12: jumps to their own index or a lower one.
    pub fn cover(&self, code: &[Instruction]) -> Result<(), Refusal> {
        let uncovered = |&(index, instruction): &(usize, &Instruction)| {
            let target = instruction.target().map(|target| target as usize);
            target.is_some_and(|target| target <= index && self.at(target).is_none())
        };
        match code.iter().enumerate().find(uncovered) {
            Some((index, _)) => Err(Refusal::new(12, index)),
            None => Ok(()),
        }
    }
}

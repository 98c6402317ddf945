//! Expressions and atoms over the registers, as policies and packages hold them.

use crate::reader::Reader;

/// The most nodes that an expression may have.
const MAX_NODES: u32 = 31;

/// The most bits that a word may be shifted by.
pub const MAX_COUNT: u8 = 31;

/// The number of registers, which are the variables of policies and annotations.
pub const REGISTERS: u16 = 16;

/// What is wrong with an expression or an atom.
#[derive(Clone, Copy, Debug, PartialEq, Eq)]
pub enum Fault {
    /// A field's bytes are not all there.
    Missing,
    /// The field at this place is faulty.
    Bad(usize),
}

/// The comparison of an atom.
#[derive(Clone, Copy, Debug, PartialEq, Eq)]
pub enum Comparison {
    Equal,
    Unequal,
    Less,
    AtMost,
}

impl Comparison {
    /// Whether it is true of two words.
    pub fn holds(self, left: u32, right: u32) -> bool {
        match self {
            Comparison::Equal => left == right,
            Comparison::Unequal => left != right,
            Comparison::Less => left < right,
            Comparison::AtMost => left <= right,
        }
    }
}

/// An operation on two words.
#[derive(Clone, Copy, Debug, PartialEq, Eq)]
pub enum Operation {
    Sum,
    Difference,
    Mask,
}

impl Operation {
    /// Its result.
    pub fn apply(self, left: u32, right: u32) -> u32 {
        match self {
            Operation::Sum => left.wrapping_add(right),
            Operation::Difference => left.wrapping_sub(right),
            Operation::Mask => left & right,
        }
    }
}

/// What an expression is read into, from the leaves up.
pub trait Builder {
    /// A part that is read.
    type Part: Copy;
    /// A constant.
    fn constant(&mut self, value: u32) -> Self::Part;
    /// A variable.
    fn variable(&mut self, number: u16) -> Self::Part;
    /// An operation on two parts.
    fn pair(&mut self, operation: Operation, left: Self::Part, right: Self::Part) -> Self::Part;
    /// A part shifted right by 0 to 31 bits.
    fn shift(&mut self, count: u8, part: Self::Part) -> Self::Part;
}

/// Reads an expression over the variables below `variables`.
pub fn read_expression<B: Builder>(
    reader: &mut Reader,
    variables: u16,
    builder: &mut B,
) -> Result<B::Part, Fault> {
    read_node(reader, variables, &mut MAX_NODES.clone(), builder)
}

fn read_node<B: Builder>(
    reader: &mut Reader,
    variables: u16,
    nodes_left: &mut u32,
    builder: &mut B,
) -> Result<B::Part, Fault> {
    let place = reader.position();
    let tag = reader.byte().ok_or(Fault::Missing)?;
    *nodes_left = nodes_left.checked_sub(1).ok_or(Fault::Bad(place))?;
    let mut pair = |operation| {
        let left = read_node(reader, variables, nodes_left, builder)?;
        let right = read_node(reader, variables, nodes_left, builder)?;
        Ok(builder.pair(operation, left, right))
    };
    match tag {
        0 => {
            let value = reader.word().ok_or(Fault::Missing)?;
            Ok(builder.constant(value))
        }
        1 => {
            let place = reader.position();
            let number = reader.half().ok_or(Fault::Missing)?;
            if number >= variables {
                return Err(Fault::Bad(place));
            }
            Ok(builder.variable(number))
        }
        2 => pair(Operation::Sum),
        3 => pair(Operation::Difference),
        4 => pair(Operation::Mask),
        5 => {
            let place = reader.position();
            let count = reader.byte().ok_or(Fault::Missing)?;
            if count > MAX_COUNT {
                return Err(Fault::Bad(place));
            }
            let part = read_node(reader, variables, nodes_left, builder)?;
            Ok(builder.shift(count, part))
        }
        _ => Err(Fault::Bad(place)),
    }
}

/// A step of evaluating an expression on a stack.
#[derive(Clone, Copy, Debug, PartialEq, Eq)]
pub enum Token {
    /// Pushes a constant.
    Constant(u32),
    /// Pushes a register.
    Register(u8),
    /// Replaces the upper two by an operation on them.
    Pair(Operation),
    /// Replaces the uppermost by it shifted right.
    Shift(u8),
}

/// An expression over the registers: its tokens in an [`Expressions`].
#[derive(Clone, Copy, Debug)]
pub struct Expression {
    start: u32,
    end: u32,
}

/// An atom over the registers.
#[derive(Clone, Copy, Debug)]
pub struct Formula {
    pub comparison: Comparison,
    pub left: Expression,
    pub right: Expression,
}

/// The expressions of a policy or of the annotations, in postfix form one after the other.
#[derive(Debug, Default)]
pub struct Expressions {
    tokens: Vec<Token>,
}

impl Expressions {
    /// The tokens of an expression.
    pub fn tokens(&self, expression: Expression) -> &[Token] {
        &self.tokens[expression.start as usize..expression.end as usize]
    }

    /// Reads an expression over the registers.
    pub fn read(&mut self, reader: &mut Reader) -> Result<Expression, Fault> {
        let start = self.tokens.len() as u32;
        read_expression(reader, REGISTERS, &mut self.tokens)?;
        Ok(Expression { start, end: self.tokens.len() as u32 })
    }

    /// Reads an atom over the registers.
    pub fn read_formula(&mut self, reader: &mut Reader) -> Result<Formula, Fault> {
        let place = reader.position();
        let comparison = match reader.byte().ok_or(Fault::Missing)? {
            0 => Comparison::Equal,
            1 => Comparison::Unequal,
            2 => Comparison::Less,
            3 => Comparison::AtMost,
            _ => return Err(Fault::Bad(place)),
        };
        let left = self.read(reader)?;
        let right = self.read(reader)?;
        Ok(Formula { comparison, left, right })
    }
}

impl Builder for Vec<Token> {
    type Part = ();

    fn constant(&mut self, value: u32) {
        self.push(Token::Constant(value));
    }

    fn variable(&mut self, number: u16) {
        self.push(Token::Register(number as u8));
    }

    fn pair(&mut self, operation: Operation, (): (), (): ()) {
        self.push(Token::Pair(operation));
    }

    fn shift(&mut self, count: u8, (): ()) {
        self.push(Token::Shift(count));
    }
}

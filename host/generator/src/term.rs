//! Terms, atoms and goals as trees, and their bytes.

use std::collections::BTreeMap;
use std::rc::Rc;

/// A term, and an expression where its variables are registers.
#[derive(Clone, Debug, PartialEq, Eq, PartialOrd, Ord)]
pub enum Term {
    /// A constant.
    Constant(u32),
    /// A variable: 0 to 15 are registers, the others loaded words.
    Variable(u16),
    /// A sum modulo 2^32.
    Sum(Rc<Term>, Rc<Term>),
    /// A difference modulo 2^32.
    Difference(Rc<Term>, Rc<Term>),
    /// The one masked with the other bit by bit.
    Mask(Rc<Term>, Rc<Term>),
    /// A term shifted right by 0 to 31 bits.
    Shift(u8, Rc<Term>),
}

use Term::{Constant, Difference, Mask, Shift, Sum, Variable};

/// A constant.
pub fn constant(value: u32) -> Rc<Term> {
    Rc::new(Constant(value))
}

/// A variable.
pub fn variable(number: u16) -> Rc<Term> {
    Rc::new(Variable(number))
}

/// A sum.
pub fn sum(left: &Rc<Term>, right: &Rc<Term>) -> Rc<Term> {
    Rc::new(Sum(Rc::clone(left), Rc::clone(right)))
}

/// A difference.
pub fn difference(left: &Rc<Term>, right: &Rc<Term>) -> Rc<Term> {
    Rc::new(Difference(Rc::clone(left), Rc::clone(right)))
}

/// A mask.
pub fn mask(left: &Rc<Term>, right: &Rc<Term>) -> Rc<Term> {
    Rc::new(Mask(Rc::clone(left), Rc::clone(right)))
}

/// A shift.
pub fn shift(count: u8, part: &Rc<Term>) -> Rc<Term> {
    Rc::new(Shift(count, Rc::clone(part)))
}

/// The sum of some terms, as flat a tree as can be; nothing if there are none.
pub fn balanced_sum(terms: &[Rc<Term>]) -> Option<Rc<Term>> {
    balanced(terms, sum)
}

/// Some terms put together two by two, as flat a tree as can be; nothing if there are none.
pub fn balanced(
    terms: &[Rc<Term>],
    pair: fn(&Rc<Term>, &Rc<Term>) -> Rc<Term>,
) -> Option<Rc<Term>> {
    match terms {
        [] => None,
        [term] => Some(Rc::clone(term)),
        _ => {
            let (left, right) = terms.split_at(terms.len() / 2);
            Some(pair(&balanced(left, pair)?, &balanced(right, pair)?))
        }
    }
}

impl Term {
    /// The terms that it is put together from.
    fn parts(&self) -> impl Iterator<Item = &Rc<Term>> {
        let parts = match self {
            Constant(_) | Variable(_) => [None, None],
            Sum(left, right) | Difference(left, right) | Mask(left, right) => {
                [Some(left), Some(right)]
            }
            Shift(_, part) => [Some(part), None],
        };
        parts.into_iter().flatten()
    }

    /// The nodes of the tree.
    pub fn size(&self) -> usize {
        1 + self.parts().map(|part| part.size()).sum::<usize>()
    }

    /// The value, if there is no variable.
    pub fn value(&self) -> Option<u32> {
        self.value_by(&|_| None)
    }

    /// The value over registers.
    pub fn value_over(&self, registers: &[u32]) -> u32 {
        let value = |number| Some(registers.get(usize::from(number)).copied().unwrap_or(0));
        self.value_by(&value).expect("each variable has a value")
    }

    /// The value, if each variable that occurs has one.
    fn value_by(&self, value: &dyn Fn(u16) -> Option<u32>) -> Option<u32> {
        match self {
            Constant(value) => Some(*value),
            Variable(number) => value(*number),
            Sum(left, right) => Some(left.value_by(value)?.wrapping_add(right.value_by(value)?)),
            Difference(left, right) => {
                Some(left.value_by(value)?.wrapping_sub(right.value_by(value)?))
            }
            Mask(left, right) => Some(left.value_by(value)? & right.value_by(value)?),
            Shift(count, part) => Some(part.value_by(value)? >> count),
        }
    }

    /// Whether a variable occurs.
    pub fn mentions(&self, number: u16) -> bool {
        *self == Variable(number) || self.parts().any(|part| part.mentions(number))
    }

    /// The term with each variable replaced.
    pub fn replaced(self: &Rc<Term>, by: &dyn Fn(u16) -> Rc<Term>) -> Rc<Term> {
        match &**self {
            Variable(number) => by(*number),
            _ => self.with_parts(&mut |part| part.replaced(by)),
        }
    }

    /// The term with each of its parts, the left one first, replaced.
    pub fn with_parts(self: &Rc<Term>, by: &mut dyn FnMut(&Rc<Term>) -> Rc<Term>) -> Rc<Term> {
        match &**self {
            Constant(_) | Variable(_) => Rc::clone(self),
            Sum(left, right) => sum(&by(left), &by(right)),
            Difference(left, right) => difference(&by(left), &by(right)),
            Mask(left, right) => mask(&by(left), &by(right)),
            Shift(count, part) => shift(*count, &by(part)),
        }
    }

    /// The constant and the coefficients modulo 2^32.
    pub fn form(self: &Rc<Term>) -> Form {
        let mut form = Form::default();
        self.weigh(1, &mut form);
        form.coefficients.retain(|_, coefficient| *coefficient != 0);
        form
    }

    fn weigh(self: &Rc<Term>, weight: u32, form: &mut Form) {
        match &**self {
            Constant(value) => {
                form.constant = form.constant.wrapping_add(weight.wrapping_mul(*value));
            }
            Variable(_) | Mask(..) | Shift(..) => {
                let coefficient = form.coefficients.entry(Rc::clone(self)).or_default();
                *coefficient = coefficient.wrapping_add(weight);
            }
            Sum(left, right) => {
                left.weigh(weight, form);
                right.weigh(weight, form);
            }
            Difference(left, right) => {
                left.weigh(weight, form);
                right.weigh(weight.wrapping_neg(), form);
            }
        }
    }

    /// Writes the expression's bytes.
    pub fn encode(&self, bytes: &mut Vec<u8>) {
        match self {
            Constant(value) => {
                bytes.push(0);
                bytes.extend(value.to_le_bytes());
            }
            Variable(number) => {
                bytes.push(1);
                bytes.extend(number.to_le_bytes());
            }
            Sum(..) => bytes.push(2),
            Difference(..) => bytes.push(3),
            Mask(..) => bytes.push(4),
            Shift(count, _) => bytes.extend([5, *count]),
        }
        for part in self.parts() {
            part.encode(bytes);
        }
    }
}

/// A linear form modulo 2^32; no coefficient is 0.
#[derive(Clone, Debug, Default, PartialEq, Eq)]
pub struct Form {
    /// The constant.
    pub constant: u32,
    /// The coefficients of the variables, and of the masked and shifted terms.
    pub coefficients: BTreeMap<Rc<Term>, u32>,
}

impl Form {
    /// Whether the other has the same coefficients and another constant.
    pub fn differs_by_constant(&self, other: &Form) -> bool {
        self.coefficients == other.coefficients && self.constant != other.constant
    }
}

/// A comparison.
#[derive(Clone, Copy, Debug, PartialEq, Eq)]
pub enum Comparison {
    /// Equal.
    Equal,
    /// Unequal.
    Unequal,
    /// Less, unsigned.
    Less,
    /// At most, unsigned.
    AtMost,
}

/// A comparison of two terms.
#[derive(Clone, Debug, PartialEq, Eq)]
pub struct Atom {
    /// The comparison.
    pub comparison: Comparison,
    /// The left term.
    pub left: Rc<Term>,
    /// The right term.
    pub right: Rc<Term>,
}

impl Atom {
    /// left = right
    pub fn equal(left: &Rc<Term>, right: &Rc<Term>) -> Self {
        Atom::new(Comparison::Equal, left, right)
    }

    /// left ≠ right
    pub fn unequal(left: &Rc<Term>, right: &Rc<Term>) -> Self {
        Atom::new(Comparison::Unequal, left, right)
    }

    /// left < right
    pub fn less(left: &Rc<Term>, right: &Rc<Term>) -> Self {
        Atom::new(Comparison::Less, left, right)
    }

    /// left ≤ right
    pub fn at_most(left: &Rc<Term>, right: &Rc<Term>) -> Self {
        Atom::new(Comparison::AtMost, left, right)
    }

    /// An atom.
    pub fn new(comparison: Comparison, left: &Rc<Term>, right: &Rc<Term>) -> Self {
        Atom { comparison, left: Rc::clone(left), right: Rc::clone(right) }
    }

    /// The atom with each variable replaced.
    pub fn replaced(&self, by: &dyn Fn(u16) -> Rc<Term>) -> Self {
        Atom::new(self.comparison, &self.left.replaced(by), &self.right.replaced(by))
    }

    /// Whether a variable occurs.
    pub fn mentions(&self, number: u16) -> bool {
        self.left.mentions(number) || self.right.mentions(number)
    }

    /// Whether it is true of registers.
    pub fn holds(&self, registers: &[u32]) -> bool {
        let (left, right) = (self.left.value_over(registers), self.right.value_over(registers));
        compare(self.comparison, left, right)
    }

    /// Writes the atom's bytes.
    pub fn encode(&self, bytes: &mut Vec<u8>) {
        bytes.push(self.comparison as u8);
        self.left.encode(bytes);
        self.right.encode(bytes);
    }
}

/// Whether a comparison is true of two words.
pub fn compare(comparison: Comparison, left: u32, right: u32) -> bool {
    match comparison {
        Comparison::Equal => left == right,
        Comparison::Unequal => left != right,
        Comparison::Less => left < right,
        Comparison::AtMost => left <= right,
    }
}

/// What a routine has to have derived.
#[derive(Clone, Debug, PartialEq, Eq)]
pub enum Goal {
    /// An atom.
    Atom(Atom),
    /// The address may be loaded from.
    Readable(Rc<Term>),
    /// The address may be stored to.
    Writable(Rc<Term>),
}

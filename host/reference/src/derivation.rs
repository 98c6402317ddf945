//! Derivations: goals, assumptions and the rules (checks 15 to 18).

use crate::expression::{read_expression, Builder, Comparison, Fault, Operation};
use crate::policy::Region;
use crate::reader::Reader;
use crate::term::{Shape, Term, Terms};
use crate::Refusal;

use Comparison::{AtMost, Equal, Less, Unequal};
use Operation::{Difference, Mask, Sum};

const MAX_DEPTH: u32 = 32;

/// A comparison of two terms.
#[derive(Clone, Copy, Debug, PartialEq, Eq)]
pub struct Atom {
    pub comparison: Comparison,
    pub left: Term,
    pub right: Term,
}

impl Atom {
    /// The atom that compares two terms.
    pub fn new(comparison: Comparison, left: Term, right: Term) -> Self {
        Atom { comparison, left, right }
    }
}

/// What is to be derived.
#[derive(Clone, Copy, Debug, PartialEq, Eq)]
pub enum Goal {
    Atom(Atom),
    Readable(Term),
    Writable(Term),
}

impl Goal {
    fn new(comparison: Comparison, left: Term, right: Term) -> Self {
        Goal::Atom(Atom::new(comparison, left, right))
    }
}

/// What a derivation is checked against, and the proof that it is read from.
#[derive(Debug)]
pub struct Prover<'a> {
    pub terms: Terms,
    pub assumptions: Vec<Atom>,
    /// How many variables exist on the path.
    pub variables: u16,
    regions: &'a [Region],
    proof: Reader<'a>,
}

impl<'a> Prover<'a> {
    /// A prover for the proof that starts at `start` of the package.
    pub fn new(regions: &'a [Region], package: &'a [u8], start: usize) -> Self {
        Prover {
            terms: Terms::new(),
            assumptions: Vec::new(),
            variables: 0,
            regions,
            proof: Reader::new(package, start),
        }
    }

    /// The first byte of the proof that is left, if there is one.
    pub fn left(&self) -> Option<usize> {
        (!self.proof.is_at_end()).then(|| self.proof.position())
    }

    /// Checks the derivation of a goal that comes next in the proof.
    pub fn derive(&mut self, goal: Goal) -> Result<(), Refusal> {
        let count = self.terms.count();
        self.derive_at(1, goal)?;
        self.terms.forget(count);
        Ok(())
    }

    fn derive_at(&mut self, level: u32, goal: Goal) -> Result<(), Refusal> {
        let place = self.proof.position();
        if level > MAX_DEPTH {
            return Err(Refusal::new(17, place));
        }
        let misfit = Refusal::new(16, place);
        let fit = |fits: bool| if fits { Ok(()) } else { Err(misfit) };
        // The two terms of a goal with the comparison asked for.
        let sides = |comparison: Comparison| match goal {
            Goal::Atom(atom) if atom.comparison == comparison => Ok((atom.left, atom.right)),
            _ => Err(misfit),
        };
        let rule = self.proof.byte().ok_or_else(|| self.missing())?;
        let level = level + 1;
        match rule {
            0 => {
                let index = usize::from(self.proof.half().ok_or_else(|| self.missing())?);
                match (self.assumptions.get(index), goal) {
                    (Some(assumption), Goal::Atom(atom)) => fit(*assumption == atom),
                    _ => Err(misfit),
                }
            }
            1 => {
                let (a, b) = sides(Equal)?;
                fit(a == b)
            }
            2 => {
                let (a, b) = sides(AtMost)?;
                fit(a == b)
            }
            3 => match goal {
                Goal::Atom(Atom { comparison, left, right }) => {
                    match (self.terms.value(left), self.terms.value(right)) {
                        (Some(left), Some(right)) => fit(comparison.holds(left, right)),
                        _ => Err(misfit),
                    }
                }
                _ => Err(misfit),
            },
            4 => {
                let (a, b) = sides(Equal)?;
                self.derive_at(level, Goal::new(Equal, b, a))
            }
            5 => {
                let m = self.argument()?;
                let (a, c) = sides(Equal)?;
                self.derive_at(level, Goal::new(Equal, a, m))?;
                self.derive_at(level, Goal::new(Equal, m, c))
            }
            6 => {
                let m = self.argument()?;
                let (a, c) = sides(AtMost)?;
                self.derive_at(level, Goal::new(AtMost, a, m))?;
                self.derive_at(level, Goal::new(AtMost, m, c))
            }
            7 => {
                let m = self.argument()?;
                let (a, c) = sides(Less)?;
                self.derive_at(level, Goal::new(Less, a, m))?;
                self.derive_at(level, Goal::new(AtMost, m, c))
            }
            8 => {
                let m = self.argument()?;
                let (a, c) = sides(Less)?;
                self.derive_at(level, Goal::new(AtMost, a, m))?;
                self.derive_at(level, Goal::new(Less, m, c))
            }
            9 => {
                let (a, b) = sides(AtMost)?;
                self.derive_at(level, Goal::new(Less, a, b))
            }
            10 => {
                let (a, b) = sides(AtMost)?;
                self.derive_at(level, Goal::new(Equal, a, b))
            }
            11 => {
                let (left, right) = sides(Equal)?;
                match (self.terms.shape(left), self.terms.shape(right)) {
                    (Shape::Pair(first, a, b), Shape::Pair(second, c, d)) if first == second => {
                        self.derive_at(level, Goal::new(Equal, a, c))?;
                        self.derive_at(level, Goal::new(Equal, b, d))
                    }
                    (Shape::Shift(first, a), Shape::Shift(second, c)) if first == second => {
                        self.derive_at(level, Goal::new(Equal, a, c))
                    }
                    _ => Err(misfit),
                }
            }
            12 => {
                let (a, b) = sides(Equal)?;
                fit(self.terms.form_difference(a, b) == Some(0))
            }
            13 => {
                let (zero, _) = sides(AtMost)?;
                fit(self.terms.shape(zero) == Shape::Constant(0))
            }
            14 => {
                let (left, right) = sides(AtMost)?;
                match (self.terms.shape(left), self.terms.shape(right)) {
                    (Shape::Pair(Sum, a, b), Shape::Pair(Sum, c, d)) => {
                        self.derive_at(level, Goal::new(AtMost, a, c))?;
                        self.derive_at(level, Goal::new(AtMost, b, d))?;
                        self.derive_at(level, Goal::new(AtMost, c, right))
                    }
                    _ => Err(misfit),
                }
            }
            15 => {
                let (left, right) = sides(AtMost)?;
                match (self.terms.shape(left), self.terms.shape(right)) {
                    (Shape::Pair(Difference, a, b), Shape::Pair(Difference, c, d)) => {
                        self.derive_at(level, Goal::new(AtMost, a, c))?;
                        self.derive_at(level, Goal::new(AtMost, d, b))?;
                        self.derive_at(level, Goal::new(AtMost, b, a))
                    }
                    _ => Err(misfit),
                }
            }
            16 => {
                let (left, b) = sides(AtMost)?;
                match self.terms.shape(left) {
                    Shape::Pair(Sum, a, one) if self.terms.shape(one) == Shape::Constant(1) => {
                        self.derive_at(level, Goal::new(Less, a, b))
                    }
                    _ => Err(misfit),
                }
            }
            17 => {
                let (a, b) = sides(AtMost)?;
                let one = self.terms.constant(1);
                let next = self.terms.pair(Sum, b, one);
                self.derive_at(level, Goal::new(Less, a, next))
            }
            18 => {
                let (a, right) = sides(AtMost)?;
                match self.terms.shape(right) {
                    Shape::Pair(Sum, same, b) if same == a => {
                        let largest = self.terms.constant(u32::MAX);
                        let room = self.terms.pair(Difference, largest, b);
                        self.derive_at(level, Goal::new(AtMost, a, room))
                    }
                    _ => Err(misfit),
                }
            }
            19 => {
                let (a, b) = sides(Less)?;
                self.derive_at(level, Goal::new(AtMost, a, b))?;
                self.derive_at(level, Goal::new(Unequal, a, b))
            }
            20 => {
                let (a, b) = sides(Unequal)?;
                self.derive_at(level, Goal::new(Less, a, b))
            }
            21 => {
                let (a, b) = sides(Unequal)?;
                self.derive_at(level, Goal::new(Unequal, b, a))
            }
            22 | 23 => {
                let number = usize::from(self.proof.byte().ok_or_else(|| self.missing())?);
                let region = *self.regions.get(number).ok_or(misfit)?;
                let (address, has_right) = match (rule, goal) {
                    (22, Goal::Readable(address)) => (address, region.readable),
                    (23, Goal::Writable(address)) => {
                        (address, region.is_wholly_writable(self.regions))
                    }
                    _ => return Err(misfit),
                };
                fit(has_right)?;
                let base = self.terms.constant(region.base);
                self.derive_at(level, Goal::new(AtMost, base, address))?;
                let end = self.terms.constant(region.base + region.length);
                self.derive_at(level, Goal::new(Less, address, end))
            }
            24 => {
                let m = self.argument()?;
                self.derive_at(level, Goal::new(Less, m, m))
            }
            25 => {
                let (left, b) = sides(AtMost)?;
                fit(matches!(self.terms.shape(left), Shape::Pair(Mask, _, second) if second == b))
            }
            26 => {
                let (left, a) = sides(AtMost)?;
                fit(matches!(self.terms.shape(left), Shape::Shift(_, part) if part == a))
            }
            27 => {
                let (left, c) = sides(AtMost)?;
                match self.terms.shape(left) {
                    Shape::Shift(count, _) => {
                        fit(self.terms.shape(c) == Shape::Constant(u32::MAX >> count))
                    }
                    _ => Err(misfit),
                }
            }
            28 => {
                let (a, b) = sides(Unequal)?;
                fit(self.terms.form_difference(a, b).is_some_and(|difference| difference != 0))
            }
            _ => Err(misfit),
        }
    }

    /// Reads the argument m.
    fn argument(&mut self) -> Result<Term, Refusal> {
        read_expression(&mut self.proof, self.variables, &mut self.terms).map_err(|fault| {
            match fault {
                Fault::Missing => self.missing(),
                Fault::Bad(place) => Refusal::new(18, place),
            }
        })
    }

    fn missing(&self) -> Refusal {
        Refusal::new(15, self.proof.end())
    }
}

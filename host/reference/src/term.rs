//! Terms: constants, variables, sums, differences, masks and shifts, each kept once.
//!
//! Two terms are the same tree exactly if they have the same number, so that the rules compare
//! numbers. A term's parts have smaller numbers than the term.

use crate::expression::{Builder, Operation, Token, REGISTERS};

/// A term's number in its [`Terms`].
#[derive(Clone, Copy, Debug, PartialEq, Eq)]
pub struct Term(u32);

/// What a term is.
#[derive(Clone, Copy, Debug, PartialEq, Eq)]
pub enum Shape {
    Constant(u32),
    Variable(u16),
    Pair(Operation, Term, Term),
    Shift(u8, Term),
}

/// What is known of a term.
#[derive(Clone, Copy, Debug)]
struct Facts {
    /// The nodes of the tree written out.
    nodes: u32,
    /// The value, if there is no variable in the term.
    value: Option<u32>,
    /// Whether there is a mask or a shift in the term.
    opaque: bool,
}

#[derive(Clone, Copy, Debug)]
struct Node {
    shape: Shape,
    facts: Facts,
    /// The place in the table.
    slot: u32,
}

/// Terms, and a table that finds the number of a shape.
#[derive(Debug)]
pub struct Terms {
    nodes: Vec<Node>,
    /// Numbers by hash with linear probing, [`FREE`] where there is none. Terms are forgotten in
    /// the opposite order of their making, so that no probe ever passes a slot given back.
    table: Vec<u32>,
    /// For [`Terms::form_difference`]: the weight of each term, zero between calls.
    weights: Vec<u32>,
    /// For [`Terms::form_difference`]: one bit for each term still to be weighed.
    pending: Vec<u64>,
}

const FREE: u32 = u32::MAX;
const FIRST_TABLE: usize = 256;

impl Terms {
    /// The terms of the registers alone.
    pub fn new() -> Self {
        let mut terms = Terms {
            nodes: Vec::with_capacity(FIRST_TABLE / 2),
            table: vec![FREE; FIRST_TABLE],
            weights: Vec::new(),
            pending: Vec::new(),
        };
        for register in 0..REGISTERS {
            terms.variable(register);
        }
        terms
    }

    /// The registers' terms at the start of a block: they are the first that there are.
    pub fn registers() -> [Term; REGISTERS as usize] {
        std::array::from_fn(|number| Term(number as u32))
    }

    /// How many terms there are, for [`Terms::forget`].
    pub fn count(&self) -> usize {
        self.nodes.len()
    }

    /// Forgets all terms but the first `count`.
    pub fn forget(&mut self, count: usize) {
        for node in self.nodes.drain(count..) {
            self.table[node.slot as usize] = FREE;
        }
    }

    /// What a term is.
    pub fn shape(&self, term: Term) -> Shape {
        self.nodes[term.0 as usize].shape
    }

    /// The nodes of a term written out.
    pub fn size(&self, term: Term) -> u32 {
        self.facts(term).nodes
    }

    /// The value of a term without variables.
    pub fn value(&self, term: Term) -> Option<u32> {
        self.facts(term).value
    }

    /// The term that an expression is over the registers' terms given.
    pub fn instance(&mut self, expression: &[Token], registers: &[Term; 16]) -> Term {
        if let [token] = *expression {
            return self.leaf(token, registers);
        }
        let mut stack = [Term(0); 16];
        let mut height = 0;
        for &token in expression {
            let term = match token {
                Token::Pair(operation) => {
                    height -= 2;
                    self.pair(operation, stack[height], stack[height + 1])
                }
                Token::Shift(count) => {
                    height -= 1;
                    self.shift(count, stack[height])
                }
                leaf => self.leaf(leaf, registers),
            };
            stack[height] = term;
            height += 1;
        }
        stack[0]
    }

    fn leaf(&mut self, token: Token, registers: &[Term; 16]) -> Term {
        match token {
            Token::Constant(value) => self.constant(value),
            Token::Register(number) => registers[usize::from(number)],
            Token::Pair(_) | Token::Shift(_) => unreachable!("no leaf"),
        }
    }

    /// The left term's constant less the right's, if each variable has the same coefficient in
    /// both, a masked or shifted term being one more variable.
    ///
    /// Weighs the left term by 1 and the right by -1 and hands each weight down to the parts of
    /// sums and differences, whole terms before their parts; nothing but constants may be left.
    /// Each term is weighed once, however often it is part of the two.
    pub fn form_difference(&mut self, left: Term, right: Term) -> Option<u32> {
        if left == right {
            return Some(0);
        }
        let count = self.nodes.len();
        if self.weights.len() < count {
            self.weights.resize(self.table.len(), 0);
            self.pending.resize(self.table.len() / 64, 0);
        }
        self.weigh(left, 1);
        self.weigh(right, 1u32.wrapping_neg());
        let mut constant = 0u32;
        let mut same = true;
        for group in (0..=left.0.max(right.0) as usize / 64).rev() {
            while self.pending[group] != 0 {
                let bit = self.pending[group].ilog2();
                self.pending[group] ^= 1 << bit;
                let number = group * 64 + bit as usize;
                let weight = std::mem::take(&mut self.weights[number]);
                if weight == 0 || !same {
                    continue;
                }
                let Node { shape, facts, .. } = self.nodes[number];
                match (facts.value, shape) {
                    (Some(value), _) if !facts.opaque => {
                        constant = constant.wrapping_add(weight.wrapping_mul(value));
                    }
                    (_, Shape::Pair(Operation::Sum, left, right)) => {
                        self.weigh(left, weight);
                        self.weigh(right, weight);
                    }
                    (_, Shape::Pair(Operation::Difference, left, right)) => {
                        self.weigh(left, weight);
                        self.weigh(right, weight.wrapping_neg());
                    }
                    _ => same = false,
                }
            }
        }
        same.then_some(constant)
    }

    fn weigh(&mut self, term: Term, weight: u32) {
        let number = term.0 as usize;
        self.weights[number] = self.weights[number].wrapping_add(weight);
        self.pending[number / 64] |= 1 << (number % 64);
    }

    /// The number of a shape, new if it is not there yet.
    fn intern(&mut self, shape: Shape, describe: impl FnOnce(&Self) -> Facts) -> Term {
        let mask = self.table.len() - 1;
        let mut slot = hash(shape) as usize & mask;
        loop {
            match self.table[slot] {
                FREE => break,
                number if self.nodes[number as usize].shape == shape => return Term(number),
                _ => slot = (slot + 1) & mask,
            }
        }
        let number = self.nodes.len() as u32;
        let facts = describe(self);
        self.nodes.push(Node { shape, facts, slot: slot as u32 });
        self.table[slot] = number;
        if self.nodes.len() > self.table.len() / 2 {
            self.grow();
        }
        Term(number)
    }

    fn grow(&mut self) {
        let mask = 4 * self.table.len() - 1;
        self.table.clear();
        self.table.resize(mask + 1, FREE);
        for (number, node) in self.nodes.iter_mut().enumerate() {
            let mut slot = hash(node.shape) as usize & mask;
            while self.table[slot] != FREE {
                slot = (slot + 1) & mask;
            }
            self.table[slot] = number as u32;
            node.slot = slot as u32;
        }
    }

    fn facts(&self, term: Term) -> &Facts {
        &self.nodes[term.0 as usize].facts
    }
}

impl Builder for Terms {
    type Part = Term;

    fn constant(&mut self, value: u32) -> Term {
        let facts = Facts { nodes: 1, value: Some(value), opaque: false };
        self.intern(Shape::Constant(value), |_| facts)
    }

    fn variable(&mut self, number: u16) -> Term {
        let facts = Facts { nodes: 1, value: None, opaque: false };
        self.intern(Shape::Variable(number), |_| facts)
    }

    fn pair(&mut self, operation: Operation, left: Term, right: Term) -> Term {
        self.intern(Shape::Pair(operation, left, right), |terms| {
            let (left, right) = (terms.facts(left), terms.facts(right));
            Facts {
                nodes: left.nodes + right.nodes + 1,
                value: match (left.value, right.value) {
                    (Some(left), Some(right)) => Some(operation.apply(left, right)),
                    _ => None,
                },
                opaque: left.opaque || right.opaque || operation == Operation::Mask,
            }
        })
    }

    fn shift(&mut self, count: u8, part: Term) -> Term {
        self.intern(Shape::Shift(count, part), |terms| {
            let &Facts { nodes, value, .. } = terms.facts(part);
            let value = value.map(|value| value >> count);
            Facts { nodes: nodes + 1, value, opaque: true }
        })
    }
}

fn hash(shape: Shape) -> u32 {
    let (kind, left, right) = match shape {
        Shape::Constant(value) => (0, value, 0),
        Shape::Variable(number) => (1, u32::from(number), 0),
        Shape::Pair(operation, left, right) => (2 + operation as u64, left.0, right.0),
        Shape::Shift(count, part) => (5, part.0, u32::from(count)),
    };
    let mixed = (u64::from(left) << 32 | u64::from(right)).wrapping_add(kind << 30);
    (mixed.wrapping_mul(0x9e37_79b9_7f4a_7c15) >> 32) as u32
}

#[cfg(test)]
mod tests {
    use std::collections::BTreeMap;

    use super::*;

    /// A random number below `limit`, by a linear congruence.
    fn random(state: &mut u64, limit: u64) -> u64 {
        *state =
            state.wrapping_mul(6_364_136_223_846_793_005).wrapping_add(1_442_695_040_888_963_407);
        (*state >> 33) % limit
    }

    /// A term written out.
    fn text(terms: &Terms, term: Term) -> String {
        match terms.shape(term) {
            Shape::Constant(value) => value.to_string(),
            Shape::Variable(number) => format!("v{number}"),
            Shape::Pair(operation, left, right) => {
                format!("{operation:?}({}, {})", text(terms, left), text(terms, right))
            }
            Shape::Shift(count, part) => format!("Shift{count}({})", text(terms, part)),
        }
    }

    /// The constant, under the name of a 1, and the coefficients that are not 0, part by part.
    fn form(terms: &Terms, term: Term) -> BTreeMap<String, u32> {
        let (name, weight) = match terms.shape(term) {
            Shape::Constant(value) => ("1".into(), value),
            Shape::Pair(operation, left, right) if operation != Operation::Mask => {
                let mut form = form(terms, left);
                for (name, weight) in self::form(terms, right) {
                    let sum = form.entry(name).or_default();
                    *sum = operation.apply(*sum, weight);
                }
                form.retain(|_, weight| *weight != 0);
                return form;
            }
            _ => (text(terms, term), 1),
        };
        BTreeMap::from_iter((weight != 0).then_some((name, weight)))
    }

    #[test]
    fn forms_agree_with_coefficients() {
        let mut state = 1;
        let (mut same, mut apart) = (0, 0);
        for _ in 0..50 {
            let mut terms = Terms::new();
            let mut made = Terms::registers()[..3].to_vec();
            for _ in 0..40 {
                let [left, right] =
                    std::array::from_fn(|_| made[random(&mut state, made.len() as u64) as usize]);
                let small = terms.size(left) + terms.size(right) < 200;
                made.push(match random(&mut state, 8) {
                    0 => terms.constant([0, 1, u32::MAX][random(&mut state, 3) as usize]),
                    1 | 2 if small => terms.pair(Operation::Sum, left, right),
                    3 | 4 if small => terms.pair(Operation::Difference, left, right),
                    5 if small => terms.pair(Operation::Mask, left, right),
                    6 => terms.shift(random(&mut state, 2) as u8, left),
                    _ => terms.variable(random(&mut state, 19) as u16),
                });
            }
            let forms: Vec<_> = made
                .iter()
                .map(|&term| {
                    let mut form = form(&terms, term);
                    (form.remove("1").unwrap_or(0), form)
                })
                .collect();
            for (&left, (first, weights)) in made.iter().zip(&forms) {
                for (&right, (second, others)) in made.iter().zip(&forms) {
                    let expected = (weights == others).then(|| first.wrapping_sub(*second));
                    assert_eq!(terms.form_difference(left, right), expected);
                    same += usize::from(expected == Some(0) && left != right);
                    apart += usize::from(!matches!(expected, None | Some(0)));
                }
            }
            assert!(terms.weights.iter().all(|&weight| weight == 0));
            assert!(terms.pending.iter().all(|&group| group == 0));
        }
        assert!(same > 100 && apart > 100, "{same}, {apart}");
    }

    #[test]
    fn forgotten_terms_leave_the_others() {
        let mut state = 2;
        let mut terms = Terms::new();
        let mut shapes = Vec::new();
        for _ in 0..2_000 {
            for _ in 0..random(&mut state, 60) {
                let count = terms.count() as u64;
                let left = Term(random(&mut state, count) as u32);
                let right = Term(random(&mut state, count) as u32);
                match random(&mut state, 4) {
                    0 => terms.shift((count % 32) as u8, left),
                    1 => terms.pair(Operation::Mask, left, right),
                    _ => terms.pair(Operation::Sum, left, right),
                };
            }
            shapes.clear();
            shapes.extend(terms.nodes.iter().map(|node| node.shape));
            for (number, &shape) in shapes.iter().enumerate() {
                let found = terms.intern(shape, |_| unreachable!("{shape:?} is there"));
                assert_eq!(found, Term(number as u32));
            }
            let count = terms.count() as u64;
            terms.forget(16.max(random(&mut state, count + 1)) as usize);
        }
        terms.forget(16);
        let numbers = terms.table.iter().filter(|&&number| number != FREE).count();
        assert_eq!(numbers, 16);
    }
}

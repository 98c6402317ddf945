//! Single rules: an instance of a rule with its premises as the precondition and its conclusion as
//! the postcondition, whole or a little wrong.

use std::rc::Rc;

use crate::assemble::{package, Instruction, Policy, Region, READ, WRITE};
use crate::derivation::MAX_NODES;
use crate::hostile::Named;
use crate::random::Random;
use crate::term::{constant, difference, mask, shift, sum, variable};
use crate::term::{Atom, Comparison, Term};

use Comparison::{AtMost, Equal, Less, Unequal};

/// A conclusion, the argument if the rule has one, and the premises.
struct Instance {
    conclusion: Atom,
    argument: Option<Rc<Term>>,
    premises: Vec<Atom>,
}

/// A random instance of a random rule; half of them are changed in one place.
pub fn shape_case(random: &mut Random) -> Named {
    if random.chance(1, 6) {
        return access_case(random);
    }
    // rules 22 and 23 need an access
    let rule =
        if random.chance(5, 27) { 24 + random.below(5) as u8 } else { random.below(22) as u8 };
    let mut instance = instance(rule, random);
    let mut byte = rule;
    let mut order: Vec<usize> = (0..instance.premises.len()).collect();
    match random.below(12) {
        0 | 1 => instance.conclusion = changed_atom(&instance.conclusion, random),
        2 | 3 if !instance.premises.is_empty() => {
            let premise = random.below(instance.premises.len());
            instance.premises[premise] = changed_atom(&instance.premises[premise], random);
        }
        4 => instance.argument = instance.argument.map(|term| changed(&term, random)),
        5 => random.shuffle(&mut order),
        6 => byte = random.below(30) as u8,
        _ => {}
    }
    let mut proof = vec![byte];
    if rule == 0 {
        proof.extend([random.below(2) as u8, 0]);
    }
    if let Some(argument) = &instance.argument {
        argument.encode(&mut proof);
    }
    if rule != 0 {
        for premise in order {
            proof.extend([0, premise as u8, 0]);
        }
    }
    proof.push(2);
    let policy = Policy {
        memory: 1,
        limit: 1,
        regions: vec![Region { base: 0, length: 1, rights: READ }],
        precondition: instance.premises,
        postcondition: vec![instance.conclusion],
    };
    let bytes = package(&[Instruction::Return], 0, &[], &proof);
    (format!("rule {rule}"), policy.encode(), bytes)
}

fn instance(rule: u8, random: &mut Random) -> Instance {
    let [a, b, c, d, m] = std::array::from_fn(|_| small_term(random, 2));
    let new = |conclusion, premises: Vec<Atom>| Instance { conclusion, argument: None, premises };
    let through = |conclusion, premises: Vec<Atom>| Instance {
        conclusion,
        argument: Some(Rc::clone(&m)),
        premises,
    };
    match rule {
        0 => new(Atom::less(&a, &b), vec![Atom::less(&a, &b)]),
        1 => new(Atom::equal(&a, &a), vec![]),
        2 => new(Atom::at_most(&a, &a), vec![]),
        3 => {
            let [a, b] = [a, b].map(|term| term.replaced(&|_| constant(7)));
            new(Atom::new(any_comparison(random), &a, &b), vec![])
        }
        4 => new(Atom::equal(&a, &b), vec![Atom::equal(&b, &a)]),
        5 => through(Atom::equal(&a, &c), vec![Atom::equal(&a, &m), Atom::equal(&m, &c)]),
        6 => through(Atom::at_most(&a, &c), vec![Atom::at_most(&a, &m), Atom::at_most(&m, &c)]),
        7 => through(Atom::less(&a, &c), vec![Atom::less(&a, &m), Atom::at_most(&m, &c)]),
        8 => through(Atom::less(&a, &c), vec![Atom::at_most(&a, &m), Atom::less(&m, &c)]),
        9 => new(Atom::at_most(&a, &b), vec![Atom::less(&a, &b)]),
        10 => new(Atom::at_most(&a, &b), vec![Atom::equal(&a, &b)]),
        11 if random.chance(1, 4) => {
            let count = small_count(random);
            let other = if random.chance(1, 8) { small_count(random) } else { count };
            new(Atom::equal(&shift(count, &a), &shift(other, &b)), vec![Atom::equal(&a, &b)])
        }
        11 => {
            let pair = random.pick(&[sum, difference, mask]);
            let conclusion = Atom::equal(&pair(&a, &b), &pair(&c, &d));
            new(conclusion, vec![Atom::equal(&a, &c), Atom::equal(&b, &d)])
        }
        12 if random.chance(1, 4) => {
            // right unless there is a mask or a shift, whose value rule 12 does not see
            let a = a.replaced(&|_| constant(7));
            new(Atom::equal(&a, &constant(a.value().expect("no variable"))), vec![])
        }
        12 => new(Atom::equal(&a, &rearranged(&a, random)), vec![]),
        13 => new(Atom::at_most(&constant(0), &a), vec![]),
        14 => {
            let right = sum(&c, &d);
            let premises =
                vec![Atom::at_most(&a, &c), Atom::at_most(&b, &d), Atom::at_most(&c, &right)];
            new(Atom::at_most(&sum(&a, &b), &right), premises)
        }
        15 => {
            let conclusion = Atom::at_most(&difference(&a, &b), &difference(&c, &d));
            let premises =
                vec![Atom::at_most(&a, &c), Atom::at_most(&d, &b), Atom::at_most(&b, &a)];
            new(conclusion, premises)
        }
        16 => new(Atom::at_most(&sum(&a, &constant(1)), &b), vec![Atom::less(&a, &b)]),
        17 => new(Atom::at_most(&a, &b), vec![Atom::less(&a, &sum(&b, &constant(1)))]),
        18 => {
            let room = difference(&constant(u32::MAX), &b);
            new(Atom::at_most(&a, &sum(&a, &b)), vec![Atom::at_most(&a, &room)])
        }
        19 => new(Atom::less(&a, &b), vec![Atom::at_most(&a, &b), Atom::unequal(&a, &b)]),
        20 => new(Atom::unequal(&a, &b), vec![Atom::less(&a, &b)]),
        21 => new(Atom::unequal(&a, &b), vec![Atom::unequal(&b, &a)]),
        25 => new(Atom::at_most(&mask(&a, &b), &b), vec![]),
        26 => new(Atom::at_most(&shift(small_count(random), &a), &a), vec![]),
        27 => {
            let count = small_count(random);
            let bound = u32::MAX >> if random.chance(1, 8) { small_count(random) } else { count };
            new(Atom::at_most(&shift(count, &a), &constant(bound)), vec![])
        }
        28 => {
            // right unless the two constants are the same
            let [first, second] = [(); 2].map(|()| constant(small_constant(random)));
            let other = sum(&rearranged(&a, random), &first);
            new(Atom::unequal(&sum(&a, &second), &other), vec![])
        }
        _ => through(Atom::new(any_comparison(random), &a, &b), vec![Atom::less(&m, &m)]),
    }
}

fn any_comparison(random: &mut Random) -> Comparison {
    *random.pick(&[Equal, Unequal, Less, AtMost])
}

fn small_count(random: &mut Random) -> u8 {
    *random.pick(&[0, 1, 1, 2, 30, 31])
}

fn small_constant(random: &mut Random) -> u32 {
    *random.pick(&[0, 1, 2, 5, u32::MAX, 0x8000_0000])
}

fn small_term(random: &mut Random, depth: u32) -> Rc<Term> {
    match random.below(if depth == 0 { 4 } else { 9 }) {
        0 => constant(small_constant(random)),
        1..=3 => variable(random.below(4) as u16),
        4 | 5 => sum(&small_term(random, depth - 1), &small_term(random, depth - 1)),
        6 => mask(&small_term(random, depth - 1), &small_term(random, depth - 1)),
        7 => shift(small_count(random), &small_term(random, depth - 1)),
        _ => difference(&small_term(random, depth - 1), &small_term(random, depth - 1)),
    }
}

/// A term with the same linear form.
fn rearranged(term: &Rc<Term>, random: &mut Random) -> Rc<Term> {
    let other = small_term(random, 1);
    match (random.below(5), &**term) {
        (0, Term::Sum(left, right)) => sum(right, left),
        (1, _) => sum(&difference(term, &other), &other),
        (2, _) => difference(&sum(&other, term), &other),
        (3, _) => difference(term, &difference(&other, &other)),
        _ => sum(&constant(0), term),
    }
}

/// A term that is nearly the same: another form of the same value, or another value.
fn changed(term: &Rc<Term>, random: &mut Random) -> Rc<Term> {
    match (&**term, random.below(5)) {
        (Term::Sum(left, right), 0) => return sum(right, left),
        (Term::Difference(left, right), 0) => return difference(right, left),
        (Term::Mask(left, right), 0) => return mask(right, left),
        (Term::Shift(count, part), 0) => return shift((count + 1) % 32, part),
        (Term::Sum(left, right) | Term::Mask(left, right), 1) => return difference(left, right),
        (Term::Difference(left, right), 1) => return sum(left, right),
        (Term::Shift(count, part), 1) => return mask(part, &constant(u32::MAX >> count)),
        (Term::Sum(..) | Term::Difference(..) | Term::Mask(..), choice @ (2 | 3)) => {
            // the left part or the right
            let mut left = choice == 2;
            return term.with_parts(&mut |part| {
                let changed = if left { changed(part, random) } else { Rc::clone(part) };
                left = !left;
                changed
            });
        }
        (Term::Shift(..), 2 | 3) => return term.with_parts(&mut |part| changed(part, random)),
        _ => {}
    }
    let changed = match (&**term, random.below(4)) {
        (Term::Constant(value), 0) => constant(value.wrapping_add(1)),
        (Term::Constant(value), 1) => sum(&constant(*value), &constant(0)),
        (Term::Constant(value), 2) => difference(&constant(value.wrapping_add(5)), &constant(5)),
        (Term::Variable(number), 0) => variable((number + 1) % 4),
        (Term::Variable(_), 1) => constant(1),
        (Term::Mask(..) | Term::Shift(..), 0 | 1) => constant(term.value().unwrap_or(1)),
        (_, 2) => sum(term, &constant(0)),
        _ => rearranged(term, random),
    };
    if changed.size() > MAX_NODES {
        Rc::clone(term)
    } else {
        changed
    }
}

fn changed_atom(atom: &Atom, random: &mut Random) -> Atom {
    let Atom { comparison, left, right } = atom;
    match random.below(6) {
        0 => Atom::new(*comparison, right, left),
        1 => Atom::new(any_comparison(random), left, right),
        2 | 3 => Atom::new(*comparison, &changed(left, random), right),
        _ => Atom::new(*comparison, left, &changed(right, random)),
    }
}

/// A load or a store with the premises of rule 22 or 23 as the precondition, whole or a little
/// wrong.
fn access_case(random: &mut Random) -> Named {
    let regions: Vec<Region> = (0..1 + random.below(3))
        .map(|_| {
            let base = random.within(0..=3);
            let rights = random.within(1..=READ | WRITE);
            Region { base, length: random.within(1..=4 - base), rights }
        })
        .collect();
    let load = random.chance(1, 2);
    let past = usize::from(random.chance(1, 8));
    let number = random.below(regions.len() + past);
    let Region { base, length, .. } = *regions.get(number).unwrap_or(&regions[0]);
    let i = random.word();
    let address = sum(&variable(1), &constant(i));
    let mut premises = vec![
        Atom::at_most(&constant(base), &address),
        Atom::less(&address, &constant(base + length)),
    ];
    let mut rule = if load { 22 } else { 23 };
    match random.below(6) {
        0 => {
            let premise = random.below(2);
            premises[premise] = changed_atom(&premises[premise], random);
        }
        1 if random.chance(1, 2) => rule = 45 - rule,
        1 => premises.swap(0, 1),
        _ => {}
    }
    let mut code = vec![];
    let mut proof = vec![];
    // a load before makes variable 16, which may be named in the second goal and not in its own
    let loads = random.below(3);
    for _ in 0..loads {
        code.push(Instruction::Constant { d: 2, i: regions[0].base });
        code.push(Instruction::Load { d: 3, a: 2, i: 0 });
        proof.extend([22, 0, 3, 3]);
    }
    code.push(if load {
        Instruction::Load { d: 2, a: 1, i }
    } else {
        Instruction::Store { d: 2, a: 1, i }
    });
    code.push(Instruction::Return);
    proof.extend([rule, number as u8]);
    if random.chance(1, 3) {
        // the first premise by way of itself, or by way of a variable near the last
        proof.push(6);
        if random.chance(1, 2) {
            constant(base).encode(&mut proof);
            proof.push(2);
        } else {
            variable((14 + loads + random.below(4)) as u16).encode(&mut proof);
            proof.push(13);
        }
    }
    proof.extend([0, 0, 0, 0, 1, 0, 3]);
    let policy =
        Policy { memory: 4, limit: 9, regions, precondition: premises, postcondition: Vec::new() };
    (format!("rule {rule} at an access"), policy.encode(), package(&code, 0, &[], &proof))
}

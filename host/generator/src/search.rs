//! A small search for derivations: assumptions, evaluation, linear forms, bounds of sums,
//! differences, masks and shifts, chains, and contradictions. Where several derivations are at hand it picks one.

use std::collections::HashMap;
use std::rc::Rc;

use crate::assemble::{Region, READ, WRITE};
use crate::derivation::{assumption, by_way_of, region, rule, Derivation, MAX_DEPTH, MAX_NODES};
use crate::goals::Task;
use crate::random::Random;
use crate::term::{balanced_sum, compare, constant, difference, sum};
use crate::term::{Atom, Comparison, Form, Goal, Term};

use Comparison::{AtMost, Equal, Less, Unequal};

/// How often the search of one goal may try something.
const FUEL: u32 = 3_000;

/// How many assumptions one after the other a chain may use.
const EFFORT: u32 = 3;

/// What the search has for a goal.
#[derive(Clone, Debug)]
pub enum Found {
    /// A derivation.
    Derived(Derivation),
    /// A derivation by rule 23 but for the region that it names, which does not fit.
    Misnamed(Derivation),
    /// Nothing.
    Nothing,
}

/// Searches derivations of all goals.
pub fn search_all(tasks: &[Task], regions: &[Region], random: &mut Random) -> Vec<Found> {
    let mut search: Option<Search> = None;
    let mut current: Option<&Rc<Vec<Atom>>> = None;
    let mut found = Vec::with_capacity(tasks.len());
    for task in tasks {
        let known = current.is_some_and(|known| Rc::ptr_eq(known, &task.assumptions));
        if !known {
            search = Some(Search::new(&task.assumptions, regions, random.number()));
            current = Some(&task.assumptions);
        }
        found.push(search.as_mut().map_or(Found::Nothing, |search| search.find(&task.goal)));
    }
    found
}

#[derive(Clone, Debug)]
struct Fact {
    atom: Atom,
    derivation: Derivation,
}

/// How many terms' bounds may be searched at once.
const MAX_OPEN: usize = 24;

/// A bound of a term.
#[derive(Clone, Debug)]
struct Bound {
    /// A term without variables.
    term: Rc<Term>,
    value: u32,
    /// The derivation of what it bounds ≤ `term`, or of `term` ≤ what it bounds.
    derivation: Derivation,
}

impl Bound {
    fn new(term: &Rc<Term>, derivation: Derivation) -> Option<Bound> {
        Some(Bound { term: Rc::clone(term), value: term.value()?, derivation })
    }

    /// A term without variables as its own bound.
    fn itself(term: &Rc<Term>) -> Option<Bound> {
        if term.size() <= MAX_CLOSED {
            return Bound::new(term, rule(2, &[]));
        }
        Bound::new(&constant(term.value()?), rule(3, &[]))
    }

    /// An upper bound, as a constant if its term is large.
    fn small_above(self) -> Option<Bound> {
        if self.term.size() <= MAX_CLOSED {
            return Some(self);
        }
        let derivation = by_way_of(6, &self.term, &[&self.derivation, &rule(3, &[])])?;
        Bound::new(&constant(self.value), derivation)
    }

    /// A lower bound, as a constant if its term is large.
    fn small_below(self) -> Option<Bound> {
        if self.term.size() <= MAX_CLOSED {
            return Some(self);
        }
        let derivation = by_way_of(6, &self.term, &[&rule(3, &[]), &self.derivation])?;
        Bound::new(&constant(self.value), derivation)
    }
}

/// The most nodes of a bound's term.
const MAX_CLOSED: usize = 15;

struct Search<'a> {
    regions: &'a [Region],
    facts: Rc<Vec<Fact>>,
    /// m < m, from contradictory assumptions.
    contradiction: Option<(Rc<Term>, Derivation)>,
    uppers: HashMap<u16, Option<Bound>>,
    lowers: HashMap<u16, Option<Bound>>,
    /// The terms whose bounds are being searched.
    open: Vec<Rc<Term>>,
    random: Random,
    fuel: u32,
}

impl<'a> Search<'a> {
    fn new(assumptions: &[Atom], regions: &'a [Region], seed: u64) -> Self {
        let facts: Vec<Fact> = assumptions
            .iter()
            .enumerate()
            .map(|(index, atom)| Fact { atom: atom.clone(), derivation: assumption(index) })
            .collect();
        let mut search = Search {
            regions,
            facts: Rc::new(facts),
            contradiction: None,
            uppers: HashMap::new(),
            lowers: HashMap::new(),
            open: Vec::new(),
            random: Random::new(seed),
            fuel: FUEL,
        };
        search.add_strict_facts();
        search.contradiction = search.find_contradiction();
        search
    }

    /// From x ≠ y and x ≤ y, or y ≤ x, the strict comparison.
    fn add_strict_facts(&mut self) {
        let facts = Rc::clone(&self.facts);
        let mut strict = Vec::new();
        for fact in &*facts {
            let Atom { comparison: Unequal, left, right } = &fact.atom else { continue };
            self.fuel = FUEL / 4;
            if let Some(at_most) = self.at_most(left, right, 2) {
                let derivation = rule(19, &[&at_most, &fact.derivation]);
                strict.push(Fact { atom: Atom::less(left, right), derivation });
            }
            self.fuel = FUEL / 4;
            if let Some(at_most) = self.at_most(right, left, 2) {
                let derivation = rule(19, &[&at_most, &rule(21, &[&fact.derivation])]);
                strict.push(Fact { atom: Atom::less(right, left), derivation });
            }
        }
        drop(facts);
        Rc::make_mut(&mut self.facts).extend(strict);
        self.uppers.clear();
        self.lowers.clear();
    }

    fn find_contradiction(&mut self) -> Option<(Rc<Term>, Derivation)> {
        let facts = Rc::clone(&self.facts);
        for Fact { atom: Atom { comparison, left: x, right: y }, derivation } in &*facts {
            self.fuel = FUEL / 8;
            let found = match comparison {
                // x < y, y ≤ x
                Less if x == y => Some((Rc::clone(x), derivation.clone())),
                Less => self
                    .at_most(y, x, 1)
                    .and_then(|back| Some((Rc::clone(x), by_way_of(7, y, &[derivation, &back])?))),
                // y < x, x ≤ y
                AtMost => self
                    .less(y, x, 1)
                    .and_then(|back| Some((Rc::clone(y), by_way_of(7, x, &[&back, derivation])?))),
                // x < y, y ≤ x by x = y; or y < x, x ≤ y
                Equal => {
                    let forth = self.less(x, y, 1).and_then(|forth| {
                        let back = rule(10, &[&rule(4, &[derivation])]);
                        Some((Rc::clone(x), by_way_of(7, y, &[&forth, &back])?))
                    });
                    forth.or_else(|| {
                        let back = self.less(y, x, 1)?;
                        let forth = rule(10, &[derivation]);
                        Some((Rc::clone(y), by_way_of(7, x, &[&back, &forth])?))
                    })
                }
                // x ≤ y by x = y, so x < y, and y ≤ x
                Unequal => self.equal(x, y, 1).and_then(|same| {
                    let less = rule(19, &[&rule(10, &[&same]), derivation]);
                    let back = rule(10, &[&rule(4, &[&same])]);
                    Some((Rc::clone(x), by_way_of(7, y, &[&less, &back])?))
                }),
            };
            let usable = |(m, derivation): &(Rc<Term>, Derivation)| {
                m.size() <= MAX_NODES && derivation.depth < MAX_DEPTH
            };
            if found.as_ref().is_some_and(usable) {
                return found;
            }
        }
        None
    }

    fn find(&mut self, goal: &Goal) -> Found {
        match self.derive(goal) {
            Some(derivation) => Found::Derived(derivation),
            None => self.misnamed(goal).map_or(Found::Nothing, Found::Misnamed),
        }
    }

    /// Searches a derivation of a goal.
    fn derive(&mut self, goal: &Goal) -> Option<Derivation> {
        if self.random.chance(1, 3) {
            if let Some(derivation) = self.by_contradiction() {
                return Some(derivation);
            }
        }
        for _ in 0..3 {
            self.fuel = FUEL;
            let found = match goal {
                Goal::Atom(atom) => {
                    let found = self.atom(atom, EFFORT);
                    found.map(|derivation| self.varied(atom, derivation))
                }
                Goal::Readable(address) => self.access(22, address, true),
                Goal::Writable(address) => self.access(23, address, true),
            };
            if let Some(derivation) = found {
                if derivation.depth <= MAX_DEPTH {
                    return Some(derivation);
                }
            }
        }
        self.by_contradiction()
    }

    fn by_contradiction(&self) -> Option<Derivation> {
        let (m, derivation) = self.contradiction.as_ref()?;
        by_way_of(24, m, &[derivation])
    }

    /// A store by a region that does not fit.
    fn misnamed(&mut self, goal: &Goal) -> Option<Derivation> {
        let Goal::Writable(address) = goal else { return None };
        self.access(23, address, false).filter(|derivation| derivation.depth <= MAX_DEPTH)
    }

    /// Rule 22 or 23 with a region that fits, or with one that does not.
    fn access(&mut self, number: u8, address: &Rc<Term>, fitting: bool) -> Option<Derivation> {
        let right = if number == 22 { READ } else { WRITE };
        let mut numbers: Vec<usize> = (0..self.regions.len()).collect();
        self.random.shuffle(&mut numbers);
        numbers.into_iter().find_map(|candidate| {
            let named = self.regions[candidate];
            if named.fits(right, self.regions) != fitting {
                return None;
            }
            let Region { base, length, .. } = named;
            self.fuel = FUEL;
            let low = self.at_most(&constant(base), address, EFFORT)?;
            let high = self.less(address, &constant(base + length), EFFORT)?;
            Some(region(number, candidate as u8, &[&low, &high]))
        })
    }

    fn atom(&mut self, atom: &Atom, effort: u32) -> Option<Derivation> {
        let Atom { comparison, left, right } = atom;
        match comparison {
            Equal => self.equal(left, right, effort),
            Unequal => self.unequal(left, right, effort),
            Less => self.less(left, right, effort),
            AtMost => self.at_most(left, right, effort),
        }
    }

    /// Takes a longer way to the same atom, now and then.
    fn varied(&mut self, atom: &Atom, derivation: Derivation) -> Derivation {
        if derivation.depth + 3 > MAX_DEPTH || !self.random.chance(1, 4) {
            return derivation;
        }
        let Atom { comparison, left, right } = atom;
        let (same, at_most_itself) = (rule(1, &[]), rule(2, &[]));
        let choice = self.random.below(3);
        let longer = match (comparison, choice) {
            (Equal, 0) => Some(rule(4, &[&rule(4, &[&derivation])])),
            (Equal, 1) => by_way_of(5, left, &[&same, &derivation]),
            (Equal, _) => by_way_of(5, right, &[&derivation, &same]),
            (AtMost, 0) => by_way_of(6, left, &[&at_most_itself, &derivation]),
            (AtMost, 1) => by_way_of(6, right, &[&derivation, &at_most_itself]),
            // a < b + 1 from a ≤ b, by way of b: b < b + 1 wants an evaluation.
            (AtMost, _) => right.value().filter(|&value| value < u32::MAX).and_then(|_| {
                let strict = by_way_of(8, right, &[&derivation, &rule(3, &[])])?;
                Some(rule(17, &[&strict]))
            }),
            (Less, 0) => by_way_of(8, left, &[&at_most_itself, &derivation]),
            (Less, 1) => by_way_of(7, right, &[&derivation, &at_most_itself]),
            (Less, _) => Some(rule(19, &[&rule(9, &[&derivation]), &rule(20, &[&derivation])])),
            (Unequal, _) => Some(rule(21, &[&rule(21, &[&derivation])])),
        };
        longer.unwrap_or(derivation)
    }

    /// One of the derivations of an atom that need no search. The second answer is that the atom
    /// is false, so that a search makes no sense.
    fn direct(&mut self, atom: &Atom) -> Result<Option<Derivation>, ()> {
        let Atom { comparison, left, right } = atom;
        let mut found = Vec::new();
        for fact in &*self.facts {
            let (known, derivation) = (&fact.atom, &fact.derivation);
            if known == atom {
                found.push(derivation.clone());
            }
            let forth = known.left == *left && known.right == *right;
            let back = known.left == *right && known.right == *left;
            match (known.comparison, comparison) {
                (Equal, Equal) if back => found.push(rule(4, &[derivation])),
                (Equal, AtMost) if forth => found.push(rule(10, &[derivation])),
                (Equal, AtMost) if back => found.push(rule(10, &[&rule(4, &[derivation])])),
                (Less, AtMost) if forth => found.push(rule(9, &[derivation])),
                (Less, Unequal) if forth => found.push(rule(20, &[derivation])),
                (Less, Unequal) if back => found.push(rule(21, &[&rule(20, &[derivation])])),
                (Unequal, Unequal) if back => found.push(rule(21, &[derivation])),
                _ => {}
            }
        }
        if let (Some(left), Some(right)) = (left.value(), right.value()) {
            if compare(*comparison, left, right) {
                found.push(rule(3, &[]));
            } else if found.is_empty() {
                return Err(());
            }
        }
        match comparison {
            Equal if left == right => found.push(rule(1, &[])),
            AtMost if left == right => found.push(rule(2, &[])),
            _ => {}
        }
        if matches!(comparison, Equal | AtMost) && left.form() == right.form() {
            let linear = rule(12, &[]);
            found.push(if *comparison == Equal { linear } else { rule(10, &[&linear]) });
        }
        if *comparison == AtMost {
            let by_form = match (&**left, &**right) {
                (Term::Constant(0), _) => Some(13),
                (Term::Mask(_, second), _) if second == right => Some(25),
                (Term::Shift(_, part), _) if part == right => Some(26),
                (Term::Shift(count, _), Term::Constant(c)) if *c == u32::MAX >> count => Some(27),
                _ => None,
            };
            found.extend(by_form.map(|number| rule(number, &[])));
        }
        if found.is_empty() {
            let apart = *comparison == Unequal && left.form().differs_by_constant(&right.form());
            return Ok(apart.then(|| rule(28, &[])));
        }
        Ok(Some(found.swap_remove(self.random.below(found.len()))))
    }

    fn spend(&mut self) -> Option<()> {
        self.fuel = self.fuel.checked_sub(1)?;
        Some(())
    }

    fn equal(&mut self, a: &Rc<Term>, b: &Rc<Term>, effort: u32) -> Option<Derivation> {
        self.spend()?;
        if let Some(found) = self.direct(&Atom::equal(a, b)).ok()? {
            return Some(found);
        }
        // Part by part.
        match (&**a, &**b) {
            (Term::Sum(a, b), Term::Sum(c, d))
            | (Term::Difference(a, b), Term::Difference(c, d))
            | (Term::Mask(a, b), Term::Mask(c, d)) => {
                if let Some(left) = self.equal(a, c, effort) {
                    if let Some(right) = self.equal(b, d, effort) {
                        return Some(rule(11, &[&left, &right]));
                    }
                }
            }
            (Term::Shift(count, a), Term::Shift(same, b)) if count == same => {
                if let Some(part) = self.equal(a, b, effort) {
                    return Some(rule(11, &[&part]));
                }
            }
            _ => {}
        }
        if effort == 0 {
            return None;
        }
        // By way of an assumption about the whole.
        let facts = Rc::clone(&self.facts);
        for fact in &*facts {
            let Atom { comparison: Equal, left: x, right: y } = &fact.atom else { continue };
            for (x, y, known) in
                [(x, y, fact.derivation.clone()), (y, x, rule(4, &[&fact.derivation]))]
            {
                if a == x && a != y {
                    let rest = self.equal(y, b, effort - 1);
                    let found = rest.and_then(|rest| by_way_of(5, y, &[&known, &rest]));
                    if found.is_some() {
                        return found;
                    }
                }
            }
        }
        // By putting what variables are equal to in their places.
        if let Some((replaced, known)) = self.rewritten(a) {
            if let Some(rest) = self.equal(&replaced, b, effort - 1) {
                return by_way_of(5, &replaced, &[&known, &rest]);
            }
        }
        if let Some((replaced, known)) = self.rewritten(b) {
            if let Some(rest) = self.equal(a, &replaced, effort - 1) {
                return by_way_of(5, &replaced, &[&rest, &rule(4, &[&known])]);
            }
        }
        None
    }

    /// A term with variables replaced by what they are assumed to be equal to, and the derivation
    /// that it is equal to the term.
    fn rewritten(&mut self, term: &Rc<Term>) -> Option<(Rc<Term>, Derivation)> {
        let (replaced, derivation) = self.rewritten_part(term);
        (replaced != *term && replaced.size() <= MAX_NODES).then_some((replaced, derivation))
    }

    fn rewritten_part(&mut self, term: &Rc<Term>) -> (Rc<Term>, Derivation) {
        match &**term {
            Term::Variable(_) => {
                for fact in &*self.facts {
                    if let Atom { comparison: Equal, left, right } = &fact.atom {
                        if left == term && !matches!(**right, Term::Variable(_)) {
                            return (Rc::clone(right), fact.derivation.clone());
                        }
                        if right == term && !matches!(**left, Term::Variable(_)) {
                            return (Rc::clone(left), rule(4, &[&fact.derivation]));
                        }
                    }
                }
                (Rc::clone(term), rule(1, &[]))
            }
            _ => {
                let mut derivations = Vec::new();
                let replaced = term.with_parts(&mut |part| {
                    let (part, derivation) = self.rewritten_part(part);
                    derivations.push(derivation);
                    part
                });
                if replaced == *term {
                    (replaced, rule(1, &[]))
                } else {
                    let premises: Vec<&Derivation> = derivations.iter().collect();
                    (replaced, rule(11, &premises))
                }
            }
        }
    }

    fn unequal(&mut self, a: &Rc<Term>, b: &Rc<Term>, effort: u32) -> Option<Derivation> {
        self.spend()?;
        if let Some(found) = self.direct(&Atom::unequal(a, b)).ok()? {
            return Some(found);
        }
        if let Some(less) = self.less(a, b, effort) {
            return Some(rule(20, &[&less]));
        }
        let less = self.less(b, a, effort)?;
        Some(rule(21, &[&rule(20, &[&less])]))
    }

    fn less(&mut self, a: &Rc<Term>, b: &Rc<Term>, effort: u32) -> Option<Derivation> {
        self.spend()?;
        if let Some(found) = self.direct(&Atom::less(a, b)).ok()? {
            return Some(found);
        }
        if let Some(found) = self.less_by_bounds(a, b, effort) {
            return Some(found);
        }
        if effort == 0 {
            return None;
        }
        let facts = Rc::clone(&self.facts);
        for Fact { atom: Atom { comparison, left: x, right: y }, derivation } in &*facts {
            match comparison {
                Less => {
                    if let Some(start) = self.close(a, x) {
                        if let Some(end) = self.at_most(y, b, effort - 1) {
                            let strict = by_way_of(7, y, &[derivation, &end])?;
                            if a == x {
                                return Some(strict);
                            }
                            return by_way_of(8, x, &[&start, &strict]);
                        }
                    }
                }
                AtMost if a == x => {
                    if let Some(rest) = self.less(y, b, effort - 1) {
                        return by_way_of(8, y, &[derivation, &rest]);
                    }
                }
                Equal if a == x => {
                    if let Some(rest) = self.less(y, b, effort - 1) {
                        return by_way_of(8, y, &[&rule(10, &[derivation]), &rest]);
                    }
                }
                _ => {}
            }
        }
        if let Some((replaced, known)) = self.rewritten(a) {
            let rest = self.less(&replaced, b, effort - 1)?;
            return by_way_of(8, &replaced, &[&rule(10, &[&known]), &rest]);
        }
        let (replaced, known) = self.rewritten(b)?;
        let rest = self.less(a, &replaced, effort - 1)?;
        by_way_of(7, &replaced, &[&rest, &rule(10, &[&rule(4, &[&known])])])
    }

    /// a ≤ high < low ≤ b
    fn less_by_bounds(&mut self, a: &Rc<Term>, b: &Rc<Term>, effort: u32) -> Option<Derivation> {
        let high = self.upper(a, effort)?;
        let low = self.lower(b, effort)?;
        if high.value >= low.value {
            return None;
        }
        let evaluation = rule(3, &[]);
        if b.value().is_some() {
            return by_way_of(8, &high.term, &[&high.derivation, &evaluation]);
        }
        let rest = by_way_of(7, &low.term, &[&evaluation, &low.derivation])?;
        if a.value().is_some() {
            return Some(rest);
        }
        by_way_of(8, &high.term, &[&high.derivation, &rest])
    }

    /// a ≤ x where it needs no search.
    fn close(&mut self, a: &Rc<Term>, x: &Rc<Term>) -> Option<Derivation> {
        if a == x {
            return Some(rule(2, &[]));
        }
        (a.form() == x.form()).then(|| rule(10, &[&rule(12, &[])]))
    }

    fn at_most(&mut self, a: &Rc<Term>, b: &Rc<Term>, effort: u32) -> Option<Derivation> {
        self.spend()?;
        if let Some(found) = self.direct(&Atom::at_most(a, b)).ok()? {
            return Some(found);
        }
        if let Some(found) = self.at_most_by_bounds(a, b, effort) {
            return Some(found);
        }
        if effort == 0 {
            return None;
        }
        if let Some(found) = self.at_most_by_distance(a, b, effort) {
            return Some(found);
        }
        if let Some(found) = self.at_most_by_parts(a, b, effort) {
            return Some(found);
        }
        let facts = Rc::clone(&self.facts);
        for Fact { atom: Atom { comparison, left: x, right: y }, derivation } in &*facts {
            let step = match comparison {
                AtMost => derivation.clone(),
                Less => rule(9, &[derivation]),
                Equal => rule(10, &[derivation]),
                Unequal => continue,
            };
            if let Some(start) = self.close(a, x) {
                if let Some(end) = self.at_most(y, b, effort - 1) {
                    let rest = by_way_of(6, y, &[&step, &end])?;
                    return if a == x { Some(rest) } else { by_way_of(6, x, &[&start, &rest]) };
                }
            }
        }
        if let Some((replaced, known)) = self.rewritten(a) {
            if let Some(rest) = self.at_most(&replaced, b, effort - 1) {
                return by_way_of(6, &replaced, &[&rule(10, &[&known]), &rest]);
            }
        }
        if let Some((replaced, known)) = self.rewritten(b) {
            if let Some(rest) = self.at_most(a, &replaced, effort - 1) {
                return by_way_of(6, &replaced, &[&rest, &rule(10, &[&rule(4, &[&known])])]);
            }
        }
        let same = self.equal(a, b, effort - 1)?;
        Some(rule(10, &[&same]))
    }

    /// a ≤ high ≤ low ≤ b
    fn at_most_by_bounds(&mut self, a: &Rc<Term>, b: &Rc<Term>, effort: u32) -> Option<Derivation> {
        let high = self.upper(a, effort)?;
        let low = self.lower(b, effort)?;
        if high.value > low.value {
            return None;
        }
        let evaluation = rule(3, &[]);
        if b.value().is_some() {
            return by_way_of(6, &high.term, &[&high.derivation, &evaluation]);
        }
        if a.value().is_some() {
            return by_way_of(6, &low.term, &[&evaluation, &low.derivation]);
        }
        if high.term == low.term {
            return by_way_of(6, &low.term, &[&high.derivation, &low.derivation]);
        }
        let rest = by_way_of(6, &low.term, &[&evaluation, &low.derivation])?;
        by_way_of(6, &high.term, &[&high.derivation, &rest])
    }

    /// b is a plus a constant: a ≤ a + d = b by rule 18, or a = b - d ≤ b - 0 = b by rule 15,
    /// with simpler terms of the same linear form in the places of a and b.
    fn at_most_by_distance(
        &mut self,
        a: &Rc<Term>,
        b: &Rc<Term>,
        effort: u32,
    ) -> Option<Derivation> {
        let (from, to) = (a.form(), b.form());
        if from.coefficients != to.coefficients {
            return None;
        }
        let distance = to.constant.wrapping_sub(from.constant);
        let linear = rule(10, &[&rule(12, &[])]);
        for start in same_form(a) {
            let Some(high) = self.upper(&start, effort) else { continue };
            if high.value <= u32::MAX - distance {
                let added = sum(&start, &constant(distance));
                let room = by_way_of(6, &high.term, &[&high.derivation, &rule(3, &[])])?;
                let mut derivation = rule(18, &[&room]);
                if added != *b {
                    derivation = by_way_of(6, &added, &[&derivation, &linear])?;
                }
                if start != *a {
                    derivation = by_way_of(6, &start, &[&linear, &derivation])?;
                }
                return Some(derivation);
            }
        }
        for end in same_form(b) {
            let Some(low) = self.lower(&end, effort) else { continue };
            if low.value >= distance {
                let enough = by_way_of(6, &low.term, &[&rule(3, &[]), &low.derivation])?;
                let step = rule(15, &[&rule(2, &[]), &rule(13, &[]), &enough]);
                let rest = by_way_of(6, &difference(&end, &constant(0)), &[&step, &linear])?;
                return by_way_of(6, &difference(&end, &constant(distance)), &[&linear, &rest]);
            }
        }
        None
    }

    /// Rules 14, 15, 16, 18, 25 and 26, as the two terms have it.
    fn at_most_by_parts(&mut self, a: &Rc<Term>, b: &Rc<Term>, effort: u32) -> Option<Derivation> {
        if let (Term::Sum(x, y), Term::Sum(c, d)) = (&**a, &**b) {
            let derivations = self.at_most(x, c, effort - 1).and_then(|first| {
                let second = self.at_most(y, d, effort - 1)?;
                let third = self.at_most(c, b, effort - 1)?;
                Some((first, second, third))
            });
            if let Some((first, second, third)) = derivations {
                return Some(rule(14, &[&first, &second, &third]));
            }
        }
        if let (Term::Difference(x, y), Term::Difference(c, d)) = (&**a, &**b) {
            let derivations = self.at_most(x, c, effort - 1).and_then(|first| {
                let second = self.at_most(d, y, effort - 1)?;
                let third = self.at_most(y, x, effort - 1)?;
                Some((first, second, third))
            });
            if let Some((first, second, third)) = derivations {
                return Some(rule(15, &[&first, &second, &third]));
            }
        }
        if let Term::Sum(x, one) = &**a {
            if **one == Term::Constant(1) {
                if let Some(less) = self.less(x, b, effort - 1) {
                    return Some(rule(16, &[&less]));
                }
            }
        }
        if let Term::Sum(same, d) = &**b {
            if same == a {
                let room = difference(&constant(u32::MAX), d);
                let derivation = self.at_most(a, &room, effort - 1)?;
                return Some(rule(18, &[&derivation]));
            }
        }
        let (above, number) = above(a)?;
        let rest = self.at_most(above, b, effort - 1)?;
        by_way_of(6, above, &[&rule(number, &[]), &rest])
    }

    /// The least upper bound that is found.
    fn upper(&mut self, term: &Rc<Term>, effort: u32) -> Option<Bound> {
        if let Some(bound) = Bound::itself(term) {
            return Some(bound);
        }
        self.spend()?;
        if self.open.contains(term) || self.open.len() > MAX_OPEN {
            return None;
        }
        if let Term::Variable(number) = **term {
            if let Some(known) = self.uppers.get(&number) {
                return known.clone();
            }
        }
        self.open.push(Rc::clone(term));
        let found = self.search_upper(term, effort);
        self.open.pop();
        if let Term::Variable(number) = **term {
            if !self.open.iter().any(|term| matches!(**term, Term::Variable(_))) {
                self.uppers.insert(number, found.clone());
            }
        }
        found
    }

    fn search_upper(&mut self, term: &Rc<Term>, effort: u32) -> Option<Bound> {
        let mut found: Vec<Bound> = Vec::new();
        let facts = Rc::clone(&self.facts);
        for Fact { atom: Atom { comparison, left, right }, derivation } in &*facts {
            let (other, step) = match comparison {
                AtMost if left == term => (right, derivation.clone()),
                Equal if left == term => (right, rule(10, &[derivation])),
                Equal if right == term => (left, rule(10, &[&rule(4, &[derivation])])),
                Less if left == term => {
                    found.extend(self.upper_by_less(right, derivation, effort));
                    continue;
                }
                _ => continue,
            };
            found.extend(self.upper(other, effort).and_then(|bound| {
                if other.value().is_some() {
                    return Bound::new(other, step);
                }
                Bound::new(&bound.term, by_way_of(6, other, &[&step, &bound.derivation])?)
            }));
        }
        match &**term {
            Term::Sum(left, right) => found.extend(self.upper_of_sum(left, right, effort)),
            Term::Difference(left, right) => {
                found.extend(self.upper_of_difference(left, right, effort));
            }
            Term::Shift(count, _) => {
                found.extend(Bound::new(&constant(u32::MAX >> count), rule(27, &[])));
            }
            _ => {}
        }
        if let Some((above, number)) = above(term) {
            found.extend(self.upper(above, effort).and_then(|bound| {
                if above.value().is_some() {
                    return Bound::new(above, rule(number, &[]));
                }
                let step = rule(number, &[]);
                Bound::new(&bound.term, by_way_of(6, above, &[&step, &bound.derivation])?)
            }));
        }
        for simple in simpler(term) {
            found.extend(self.upper(&simple, effort).and_then(|bound| {
                let linear = rule(10, &[&rule(12, &[])]);
                Bound::new(&bound.term, by_way_of(6, &simple, &[&linear, &bound.derivation])?)
            }));
        }
        found.into_iter().min_by_key(|bound| (bound.value, bound.derivation.bytes.len()))
    }

    /// From term < other ≤ high the bound high - 1, by rule 17.
    fn upper_by_less(
        &mut self,
        other: &Rc<Term>,
        known: &Derivation,
        effort: u32,
    ) -> Option<Bound> {
        let high = self.upper(other, effort)?;
        let below = constant(high.value.checked_sub(1)?);
        let evaluation = rule(3, &[]);
        let end = if other.value().is_some() {
            evaluation
        } else {
            by_way_of(6, &high.term, &[&high.derivation, &evaluation])?
        };
        Bound::new(&below, rule(17, &[&by_way_of(7, other, &[known, &end])?]))
    }

    fn upper_of_sum(&mut self, left: &Rc<Term>, right: &Rc<Term>, effort: u32) -> Option<Bound> {
        let first = self.upper(left, effort)?;
        let second = self.upper(right, effort)?;
        first.value.checked_add(second.value)?;
        let summed = rule(14, &[&first.derivation, &second.derivation, &rule(3, &[])]);
        Bound::new(&sum(&first.term, &second.term), summed)?.small_above()
    }

    fn upper_of_difference(
        &mut self,
        left: &Rc<Term>,
        right: &Rc<Term>,
        effort: u32,
    ) -> Option<Bound> {
        let first = self.upper(left, effort)?;
        let second = self.lower(right, effort)?;
        first.value.checked_sub(second.value)?;
        let third = self.at_most(right, left, effort.saturating_sub(1))?;
        let subtracted = rule(15, &[&first.derivation, &second.derivation, &third]);
        Bound::new(&difference(&first.term, &second.term), subtracted)?.small_above()
    }

    /// The greatest lower bound that is found.
    fn lower(&mut self, term: &Rc<Term>, effort: u32) -> Option<Bound> {
        if let Some(bound) = Bound::itself(term) {
            return Some(bound);
        }
        let zero = Bound::new(&constant(0), rule(13, &[]));
        self.spend()?;
        if self.open.contains(term) || self.open.len() > MAX_OPEN {
            return zero;
        }
        if let Term::Variable(number) = **term {
            if let Some(known) = self.lowers.get(&number) {
                return known.clone();
            }
        }
        self.open.push(Rc::clone(term));
        let found = self.search_lower(term, effort);
        self.open.pop();
        let found = found.filter(|bound| bound.value > 0).or(zero);
        if let Term::Variable(number) = **term {
            if !self.open.iter().any(|term| matches!(**term, Term::Variable(_))) {
                self.lowers.insert(number, found.clone());
            }
        }
        found
    }

    fn search_lower(&mut self, term: &Rc<Term>, effort: u32) -> Option<Bound> {
        let mut found: Vec<Bound> = Vec::new();
        let facts = Rc::clone(&self.facts);
        for Fact { atom: Atom { comparison, left, right }, derivation } in &*facts {
            let (other, step) = match comparison {
                AtMost if right == term => (left, derivation.clone()),
                Equal if right == term => (left, rule(10, &[derivation])),
                Equal if left == term => (right, rule(10, &[&rule(4, &[derivation])])),
                Less if right == term => {
                    found.extend(self.lower_by_less(left, derivation, effort));
                    continue;
                }
                _ => continue,
            };
            found.extend(self.lower(other, effort).and_then(|bound| {
                if other.value().is_some() {
                    return Bound::new(other, step);
                }
                Bound::new(&bound.term, by_way_of(6, other, &[&bound.derivation, &step])?)
            }));
        }
        match &**term {
            Term::Sum(left, right) => found.extend(self.lower_of_sum(left, right, effort)),
            Term::Difference(left, right) => {
                found.extend(self.lower_of_difference(left, right, effort));
            }
            _ => {}
        }
        for simple in simpler(term) {
            found.extend(self.lower(&simple, effort).and_then(|bound| {
                let linear = rule(10, &[&rule(12, &[])]);
                Bound::new(&bound.term, by_way_of(6, &simple, &[&bound.derivation, &linear])?)
            }));
        }
        found
            .into_iter()
            .max_by_key(|bound| (bound.value, std::cmp::Reverse(bound.derivation.bytes.len())))
    }

    /// From low ≤ other < term the bound low + 1, by rule 16.
    fn lower_by_less(
        &mut self,
        other: &Rc<Term>,
        known: &Derivation,
        effort: u32,
    ) -> Option<Bound> {
        let low = self.lower(other, effort)?;
        low.value.checked_add(1)?;
        let strict = if other.value().is_some() {
            known.clone()
        } else {
            by_way_of(8, other, &[&low.derivation, known])?
        };
        let start = if other.value().is_some() { other } else { &low.term };
        Bound::new(&sum(start, &constant(1)), rule(16, &[&strict]))?.small_below()
    }

    fn lower_of_sum(&mut self, left: &Rc<Term>, right: &Rc<Term>, effort: u32) -> Option<Bound> {
        let first = self.lower(left, effort)?;
        let second = self.lower(right, effort)?;
        let high_left = self.upper(left, effort)?;
        let high_right = self.upper(right, effort)?;
        high_left.value.checked_add(high_right.value)?;
        let evaluation = rule(3, &[]);
        // left ≤ high_left ≤ 4294967295 - high_right ≤ 4294967295 - right
        let rest = rule(15, &[&rule(2, &[]), &high_right.derivation, &evaluation]);
        let closed = difference(&constant(u32::MAX), &high_right.term);
        let room = by_way_of(6, &closed, &[&evaluation, &rest])?;
        let room = by_way_of(6, &high_left.term, &[&high_left.derivation, &room])?;
        let premises = [&first.derivation, &second.derivation, &rule(18, &[&room])];
        Bound::new(&sum(&first.term, &second.term), rule(14, &premises))?.small_below()
    }

    fn lower_of_difference(
        &mut self,
        left: &Rc<Term>,
        right: &Rc<Term>,
        effort: u32,
    ) -> Option<Bound> {
        let first = self.lower(left, effort)?;
        let second = self.upper(right, effort)?;
        first.value.checked_sub(second.value)?;
        let subtracted = rule(15, &[&first.derivation, &second.derivation, &rule(3, &[])]);
        Bound::new(&difference(&first.term, &second.term), subtracted)?.small_below()
    }
}

/// The part of a masked or shifted term that it is at most, and the rule that says so.
fn above(term: &Term) -> Option<(&Rc<Term>, u8)> {
    match term {
        Term::Mask(_, second) => Some((second, 25)),
        Term::Shift(_, part) => Some((part, 26)),
        _ => None,
    }
}

/// Terms that the linear form of a term stands for, smaller than the term if it has more than
/// three nodes.
fn simpler(term: &Rc<Term>) -> Vec<Rc<Term>> {
    let mut simple = written_out(term);
    simple.retain(|simple| simple.size() < term.size().max(4) && simple != term);
    simple
}

/// A small enough term itself, and the terms that its linear form stands for.
fn same_form(term: &Rc<Term>) -> Vec<Rc<Term>> {
    let mut terms = written_out(term);
    if term.size() + 2 <= MAX_NODES {
        terms.insert(0, Rc::clone(term));
    }
    terms.dedup();
    terms
}

/// The linear form of a term written out, with its constant added and with its negative
/// subtracted.
fn written_out(term: &Rc<Term>) -> Vec<Rc<Term>> {
    if matches!(**term, Term::Variable(_) | Term::Constant(_)) {
        return Vec::new();
    }
    let Form { constant: value, coefficients } = term.form();
    let mut plus: Vec<Rc<Term>> = Vec::new();
    let mut minus: Vec<Rc<Term>> = Vec::new();
    for (indeterminate, coefficient) in coefficients {
        let (side, times) = if coefficient < 1 << 31 {
            (&mut plus, coefficient)
        } else {
            (&mut minus, coefficient.wrapping_neg())
        };
        if times as usize > MAX_NODES {
            return Vec::new();
        }
        side.extend((0..times).map(|_| Rc::clone(&indeterminate)));
    }
    if plus.len() + minus.len() + 1 > MAX_NODES / 2 {
        return Vec::new();
    }
    let both = |plus: &[Rc<Term>], minus: &[Rc<Term>]| {
        let plus = balanced_sum(plus)?;
        Some(balanced_sum(minus).map_or(Rc::clone(&plus), |minus| difference(&plus, &minus)))
    };
    let mut written = Vec::new();
    if value == 0 && !plus.is_empty() {
        written.extend(both(&plus, &minus));
    } else {
        if value >= 1 << 31 && !plus.is_empty() {
            let mut minus = minus.clone();
            minus.push(constant(value.wrapping_neg()));
            written.extend(both(&plus, &minus));
        }
        plus.push(constant(value));
        written.extend(both(&plus, &minus));
    }
    written
}

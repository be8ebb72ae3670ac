//! Well-typed random formulas from a small stock, so that formulas meet often.

use super::bytes::*;
use super::meaning::{Valuation, Value};

/// v0 and v1 are integers, v2 a truth value, v3 and v4 sets.
pub(super) const TYPES: [u8; 5] = [INTEGER, INTEGER, BOOLEAN, SET, SET];

pub(super) struct Dice(pub(super) u64);

impl Dice {
    /// xorshift, from 0 to `below` − 1.
    pub(super) fn roll(&mut self, below: u64) -> u64 {
        self.0 ^= self.0 << 13;
        self.0 ^= self.0 >> 7;
        self.0 ^= self.0 << 17;
        (self.0 >> 11) % below
    }

    fn many<T>(&mut self, least: u64, most: u64, mut make: impl FnMut(&mut Dice) -> T) -> Vec<T> {
        let n = least + self.roll(most - least + 1);
        (0..n).map(|_| make(self)).collect()
    }

    /// `depth` levels more at most; `scope` variables are in reach.
    pub(super) fn predicate(&mut self, depth: u64, scope: u8) -> Vec<u8> {
        if depth == 0 {
            return self.relation(0, scope);
        }
        match self.roll(14) {
            0 => not(self.predicate(depth - 1, scope)),
            1 => and(&self.many(2, 3, |d| d.predicate(depth - 1, scope))),
            2 => or(&self.many(2, 3, |d| d.predicate(depth - 1, scope))),
            3 => imp(self.predicate(depth - 1, scope), self.predicate(depth - 1, scope)),
            4 => rel(0x07, self.predicate(depth - 1, scope), self.predicate(depth - 1, scope)),
            5 => self.quantified(depth - 1, scope),
            6 => vec![1 + self.roll(2) as u8],
            _ => self.relation(depth - 1, scope),
        }
    }

    pub(super) fn quantified(&mut self, depth: u64, scope: u8) -> Vec<u8> {
        let n = 1 + self.roll(3) as u8;
        let body = self.predicate(depth, scope + n);
        if self.roll(2) == 0 { forall(n, body) } else { exists(n, body) }
    }

    pub(super) fn relation(&mut self, depth: u64, scope: u8) -> Vec<u8> {
        match self.roll(12) {
            0..=4 => {
                let code = EQ + self.roll(5) as u8;
                rel(code, self.integer(depth, scope), self.integer(depth, scope))
            }
            5 => in_naturals(self.integer(depth, scope)),
            6 => in_naturals1(self.integer(depth, scope)),
            7 => rel(0x15, self.integer(depth, scope), self.set(depth, scope)),
            8 => rel([0x10, 0x16, 0x17][self.roll(3) as usize], self.set(depth, scope), self.set(depth, scope)),
            9 => eq(self.truth_value(depth, scope), self.truth_value(depth, scope)),
            _ => eq(
                maplet(self.integer(depth, scope), self.integer(depth, scope)),
                maplet(self.integer(depth, scope), self.integer(depth, scope)),
            ),
        }
    }

    fn integer(&mut self, depth: u64, scope: u8) -> Vec<u8> {
        if scope > 0 && self.roll(2) == 0 {
            return bound(self.roll(scope.into()) as u8);
        }
        match self.roll(if depth == 0 { 6 } else { 9 }) {
            0..=3 => id(self.roll(2) as u8),
            4 | 5 => lit(self.roll(5) as i64 - 2),
            6 => minus(self.integer(depth - 1, scope)),
            7 => plus(&self.many(2, 3, |d| d.integer(depth - 1, scope))),
            _ => rel(0x28, self.integer(depth - 1, scope), self.integer(depth - 1, scope)),
        }
    }

    fn set(&mut self, depth: u64, scope: u8) -> Vec<u8> {
        match self.roll(if depth == 0 { 5 } else { 9 }) {
            0..=3 => id(3 + self.roll(2) as u8),
            4 => vec![0x23],
            5 => [vec![0x2d, 1], self.integer(depth - 1, scope)].concat(),
            6 => [vec![0x2a, 2], self.set(depth - 1, scope), self.set(depth - 1, scope)].concat(),
            7 => rel(0x2c, self.set(depth - 1, scope), self.set(depth - 1, scope)),
            _ => [vec![0x30, 1], self.predicate(depth - 1, scope + 1), self.integer(depth - 1, scope + 1)].concat(),
        }
    }

    fn truth_value(&mut self, depth: u64, scope: u8) -> Vec<u8> {
        match self.roll(if depth == 0 { 4 } else { 6 }) {
            0 | 1 => id(2),
            2 => vec![0x31],
            3 => vec![0x32],
            _ => [vec![0x2e], self.predicate(depth - 1, scope)].concat(),
        }
    }

    /// Hypotheses and goal reuse each other's formulas, because keys match whole predicates.
    pub(super) fn sequent(&mut self) -> Vec<u8> {
        let stock: Vec<Vec<u8>> = self.many(2, 4, |d| d.relation(0, 0));
        let mut hyps: Vec<(u8, Vec<u8>)> = Vec::new();
        for hyp in self.many(1, 5, |d| d.mixed(&stock)) {
            if hyps.iter().all(|(_, earlier)| *earlier != hyp) {
                hyps.push((self.roll(3) as u8, hyp));
            }
        }
        let goal = self.mixed(&stock);
        sequent(&TYPES, &hyps, goal)
    }

    fn mixed(&mut self, stock: &[Vec<u8>]) -> Vec<u8> {
        let pick = |d: &mut Dice| stock[d.roll(stock.len() as u64) as usize].clone();
        match self.roll(7) {
            0 => pick(self),
            1 => not(pick(self)),
            2 => or(&[pick(self), pick(self)]),
            3 => imp(pick(self), pick(self)),
            4 => forall(1, imp(pick(self), self.predicate(1, 1))),
            5 => eq([vec![0x2e], pick(self)].concat(), id(2)),
            _ => self.predicate(2, 0),
        }
    }

    pub(super) fn valuation(&mut self) -> Valuation {
        let set = |d: &mut Dice| Value::Set((-1..=1).filter(|_| d.roll(2) == 0).collect());
        let integers = [Value::Integer(self.roll(7) as i128 - 3), Value::Integer(self.roll(7) as i128 - 3)];
        let [x, y] = integers;
        let identifiers = vec![x, y, Value::Truth(self.roll(2) == 0), set(self), set(self)];
        Valuation { low: -1, high: 1, identifiers, chosen: Vec::new() }
    }
}

//! Random well-typed formulas over a vocabulary and a stock of predicates that recur.

use paper::codes::*;
use paper::tree::{Tree, binder, bound, leaf, literal, node, not, truth, two};
use paper::types::{Type, type_of};

use super::dice::Dice;
use super::words::Words;

const ORDERS: [u8; 5] = [EQUAL, LESS, LESS_EQUAL, GREATER, GREATER_EQUAL];
const INCLUSIONS: [u8; 3] = [EQUAL, SUBSET, SUBSET_EQUAL];

/// Writes formulas; `depth` levels more at most, `enclosing` variables in reach.
pub struct Writer<'a> {
    pub dice: &'a mut Dice,
    pub words: &'a Words,
    /// Closed predicates that are used again and again.
    pub stock: Vec<Tree>,
}

impl Writer<'_> {
    pub fn number(&mut self, depth: usize, enclosing: usize) -> Tree {
        if enclosing > 0 && self.dice.once_in(2) {
            return bound(self.dice.under(enclosing) as i64);
        }
        if depth == 0 || !self.dice.once_in(3) {
            return self.dice.pick(&self.words.numbers);
        }
        let mut more = |least: usize| {
            let count = self.dice.between(least, 3);
            (0..count).map(|_| self.number(depth - 1, enclosing)).collect::<Vec<Tree>>()
        };
        let operands = more(2);
        match self.dice.under(4) {
            0 => node(PLUS, operands),
            1 => node(TIMES, operands),
            2 => two(MINUS, &operands[0], &operands[1]),
            _ => node(NEGATIVE, operands[..1].to_vec()),
        }
    }

    pub fn set(&mut self, depth: usize, enclosing: usize) -> Tree {
        if depth == 0 || !self.dice.once_in(3) {
            return self.dice.pick(&self.words.sets);
        }
        let (first, second) = (self.set(depth - 1, enclosing), self.set(depth - 1, enclosing));
        match self.dice.under(5) {
            0 => {
                let count = self.dice.between(1, 3);
                node(EXTENSION, (0..count).map(|_| self.number(depth - 1, enclosing)).collect())
            }
            1 => {
                let variables = self.dice.between(1, 2);
                let guard = self.predicate(depth - 1, enclosing + variables);
                let value = self.number(depth - 1, enclosing + variables);
                binder(COMPREHENSION, variables, vec![guard, value])
            }
            2 => node(UNION, vec![first, second]),
            3 => node(INTERSECTION, vec![first, second]),
            _ => two(DIFFERENCE, &first, &second),
        }
    }

    fn truth_value(&mut self, depth: usize, enclosing: usize) -> Tree {
        if depth > 0 && self.dice.once_in(3) {
            return node(BOOL, vec![self.predicate(depth - 1, enclosing)]);
        }
        self.dice.pick(&self.words.truths)
    }

    /// A number, a set, a truth value or a pair of these.
    pub fn of_kind(&mut self, kind: usize, depth: usize, enclosing: usize) -> Tree {
        match kind {
            0 => self.number(depth, enclosing),
            1 => self.set(depth, enclosing),
            2 => self.truth_value(depth, enclosing),
            _ => {
                let (left, right) = (kind % 3, kind / 3 % 3);
                let first = self.of_kind(left, depth.min(1), enclosing);
                two(MAPLET, &first, &self.of_kind(right, depth.min(1), enclosing))
            }
        }
    }

    pub fn relation(&mut self, depth: usize, enclosing: usize) -> Tree {
        let (order, inclusion) = (self.dice.pick(&ORDERS), self.dice.pick(&INCLUSIONS));
        let natural = leaf(self.dice.pick(&[NATURAL, NATURAL1]));
        match self.dice.under(12) {
            0..=4 => two(order, &self.number(depth, enclosing), &self.number(depth, enclosing)),
            5 | 6 => two(IN, &self.number(depth, enclosing), &natural),
            7 => two(IN, &self.number(depth, enclosing), &self.set(depth, enclosing)),
            8 | 9 => two(inclusion, &self.set(depth, enclosing), &self.set(depth, enclosing)),
            10 => two(EQUAL, &self.truth_value(depth, enclosing), &self.truth_value(depth, enclosing)),
            _ => {
                let kind = self.dice.between(3, 11);
                let left = self.of_kind(kind, depth, enclosing);
                two(EQUAL, &left, &self.of_kind(kind, depth, enclosing))
            }
        }
    }

    pub fn predicate(&mut self, depth: usize, enclosing: usize) -> Tree {
        if !self.stock.is_empty() && self.dice.once_in(3) {
            return self.related();
        }
        if depth == 0 || self.dice.once_in(4) {
            return if self.dice.once_in(10) {
                truth(self.dice.once_in(2))
            } else {
                self.relation(depth, enclosing)
            };
        }
        let first = self.predicate(depth - 1, enclosing);
        let second = self.predicate(depth - 1, enclosing);
        match self.dice.under(8) {
            0 => not(&first),
            1 => node(AND, self.operands(first, second, depth, enclosing)),
            2 | 3 => node(OR, self.operands(first, second, depth, enclosing)),
            4 => two(IMPLIES, &first, &second),
            5 => two(IFF, &first, &second),
            _ => self.quantified(depth - 1, enclosing),
        }
    }

    fn operands(&mut self, first: Tree, second: Tree, depth: usize, enclosing: usize) -> Vec<Tree> {
        let mut out = vec![first, second];
        if self.dice.once_in(4) {
            out.push(self.predicate(depth - 1, enclosing));
        }
        out
    }

    pub fn quantified(&mut self, depth: usize, enclosing: usize) -> Tree {
        let variables = self.dice.between(1, 2);
        let code = self.dice.pick(&[FORALL, EXISTS]);
        binder(code, variables, vec![self.predicate(depth, enclosing + variables)])
    }

    /// A predicate of the stock, or a relation that may say much of one.
    pub fn related(&mut self) -> Tree {
        let picked = self.dice.pick(&self.stock);
        let made = if picked.is_relation() && !self.dice.once_in(3) { self.cousin(&picked) } else { picked };
        if self.dice.once_in(5) { not(&made) } else { made }
    }

    /// Like sides under another code, perhaps turned, or one side with 0, ℕ, ℕ1 or a near number.
    fn cousin(&mut self, of: &Tree) -> Tree {
        let (mut l, mut r) = (of.operands[0].clone(), of.operands[1].clone());
        let (order, inclusion) = (self.dice.pick(&ORDERS), self.dice.pick(&INCLUSIONS));
        let kind = type_of(&l, &self.words.types);
        if self.dice.once_in(2) && of.code != IN {
            (l, r) = (r, l);
        }
        match kind {
            Type::Integer if of.code == IN || self.dice.once_in(3) => {
                let natural = leaf(self.dice.pick(&[NATURAL, NATURAL1]));
                let near = literal(self.dice.pick(&[0, 1, -1]));
                match self.dice.under(3) {
                    0 => two(IN, &l, &natural),
                    1 => two(order, &near, &l),
                    _ => two(order, &l, &near),
                }
            }
            Type::Integer => two(order, &self.near(&l), &r),
            Type::Set => two(inclusion, &l, &r),
            _ => two(EQUAL, &l, &r),
        }
    }

    /// A literal at times moved by one, as `made` by a parser.
    fn near(&mut self, expression: &Tree) -> Tree {
        if expression.code != LITERAL || !self.dice.once_in(2) {
            return expression.clone();
        }
        let moved = expression.number.saturating_add(self.dice.pick(&[1, -1]));
        if moved < 0 && moved != i64::MIN && self.dice.once_in(2) {
            return node(NEGATIVE, vec![literal(-moved)]);
        }
        literal(moved)
    }
}

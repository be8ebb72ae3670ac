//! Random formulas from a fixed seed.

use crate::codes::*;
use crate::tree::{binder, bound, identifier, leaf, literal, node, not, truth, two, Tree};

/// The identifiers of random formulas: two integers, two sets and a truth value.
pub const TYPES: [u8; 5] = [0, 0, 2, 2, 1];

/// An xorshift generator.
pub struct Random(pub u64);

impl Random {
    pub fn next(&mut self) -> u64 {
        self.0 ^= self.0 << 13;
        self.0 ^= self.0 >> 7;
        self.0 ^= self.0 << 17;
        self.0
    }

    /// A number under the limit.
    pub fn under(&mut self, limit: usize) -> usize {
        ((self.next() >> 20) % limit as u64) as usize
    }

    pub fn pick<T: Clone>(&mut self, of: &[T]) -> T {
        of[self.under(of.len())].clone()
    }

    /// An integer expression under `enclosing` variables.
    pub fn number(&mut self, depth: usize, enclosing: usize) -> Tree {
        let simple = depth == 0 || self.under(3) > 0;
        if simple && enclosing > 0 && self.under(2) == 0 {
            return bound(self.under(enclosing) as i64);
        }
        if simple {
            return if self.under(2) == 0 {
                identifier(self.under(2) as i64)
            } else {
                literal(self.under(3) as i64 - 1)
            };
        }
        let (left, right) = (self.number(depth - 1, enclosing), self.number(depth - 1, enclosing));
        match self.under(4) {
            0 => node(PLUS, vec![left, right]),
            1 => node(TIMES, vec![left, right]),
            2 => two(MINUS, &left, &right),
            _ => node(NEGATIVE, vec![left]),
        }
    }

    pub fn set(&mut self, depth: usize, enclosing: usize) -> Tree {
        if depth == 0 || self.under(2) > 0 {
            return if self.under(4) == 0 { leaf(EMPTY) } else { identifier(2 + self.under(2) as i64) };
        }
        match self.under(5) {
            0 => node(EXTENSION, vec![self.number(depth - 1, enclosing)]),
            1 => {
                let guard = self.predicate(depth - 1, enclosing + 1);
                binder(COMPREHENSION, 1, vec![guard, self.number(depth - 1, enclosing + 1)])
            }
            2 => node(UNION, vec![self.set(depth - 1, enclosing), self.set(depth - 1, enclosing)]),
            3 => node(INTERSECTION, vec![self.set(depth - 1, enclosing), self.set(depth - 1, enclosing)]),
            _ => two(DIFFERENCE, &self.set(depth - 1, enclosing), &self.set(depth - 1, enclosing)),
        }
    }

    fn boolean(&mut self, depth: usize, enclosing: usize) -> Tree {
        match self.under(4) {
            0 if depth > 0 => node(BOOL, vec![self.predicate(depth - 1, enclosing)]),
            1 => leaf(TRUE),
            2 => leaf(FALSE),
            _ => identifier(4),
        }
    }

    /// A relation of any kind.
    pub fn relation(&mut self, depth: usize, enclosing: usize) -> Tree {
        let order = self.pick(&[EQUAL, LESS, LESS_EQUAL, GREATER, GREATER_EQUAL]);
        let inclusion = self.pick(&[EQUAL, SUBSET, SUBSET_EQUAL]);
        let natural = self.pick(&[NATURAL, NATURAL1]);
        match self.under(10) {
            0..=3 => two(order, &self.number(depth, enclosing), &self.number(depth, enclosing)),
            4..=6 => two(inclusion, &self.set(depth, enclosing), &self.set(depth, enclosing)),
            7 => two(IN, &self.number(depth, enclosing), &leaf(natural)),
            8 => two(IN, &self.number(depth, enclosing), &self.set(depth, enclosing)),
            _ => self.other_equality(depth, enclosing),
        }
    }

    fn other_equality(&mut self, depth: usize, enclosing: usize) -> Tree {
        if self.under(2) == 0 {
            return two(EQUAL, &self.boolean(depth, enclosing), &self.boolean(depth, enclosing));
        }
        let mut pair = || {
            let first = self.number(depth.min(1), enclosing);
            two(MAPLET, &first, &self.number(depth.min(1), enclosing))
        };
        two(EQUAL, &pair(), &pair())
    }

    pub fn predicate(&mut self, depth: usize, enclosing: usize) -> Tree {
        if depth == 0 || self.under(3) == 0 {
            return if self.under(8) == 0 {
                truth(self.under(2) == 0)
            } else {
                self.relation(depth, enclosing)
            };
        }
        let first = self.predicate(depth - 1, enclosing);
        let second = self.predicate(depth - 1, enclosing);
        match self.under(7) {
            0 => not(&first),
            1 => node(AND, vec![first, second]),
            2 => node(OR, vec![first, second]),
            3 => two(IMPLIES, &first, &second),
            4 => two(IFF, &first, &second),
            5 => binder(FORALL, 1, vec![self.predicate(depth - 1, enclosing + 1)]),
            _ => binder(EXISTS, 1, vec![self.predicate(depth - 1, enclosing + 1)]),
        }
    }
}

#[test]
fn random_formulas_are_read_back() {
    let mut random = Random(0x9e37_79b9_7f4a_7c15);
    let mut read = 0;
    for _ in 0..5000 {
        let formula = random.predicate(5, 0);
        if formula.size() <= 1024 {
            let bytes = formula.bytes();
            assert_eq!(crate::read::predicate(&bytes, 0, &TYPES), Ok((formula, bytes.len())));
            read += 1;
        }
    }
    assert!(read > 4000);
}

/// Any bytes get an answer, and a file that is read is written back as it was.
#[test]
fn any_bytes_are_answered() {
    let mut random = Random(77);
    let mut good = 0;
    for _ in 0..20_000 {
        let hypotheses: Vec<(u8, Tree)> =
            (0..random.under(4)).map(|_| (random.under(3) as u8, random.predicate(2, 0))).collect();
        let mut bytes = super::file(&TYPES, &hypotheses, &random.predicate(2, 0));
        for _ in 0..random.under(3) {
            let place = random.under(bytes.len());
            bytes[place] = random.pick(&[0, 1, 2, 3, 4, 9, 0x10, 0x20, 0x21, 0x25, 0x2f, 0x30, 0x33, 0xff]);
        }
        if random.under(8) == 0 {
            bytes.truncate(random.under(bytes.len()));
        }
        if let Ok(sequent) = crate::file::read(&bytes) {
            assert_eq!(crate::file::write(&sequent, bytes.len()), Ok(bytes));
            good += 1;
        }
    }
    assert!(good > 4000);
}

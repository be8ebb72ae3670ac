//! Random formulas and damaged copies for the agreement, and the shapes that are timed.

/// The types of the identifiers: an integer, a truth value, a set and an integer.
pub const TYPES: [u8; 4] = [0, 1, 2, 0];

pub struct Random(pub u64);

impl Random {
    pub fn next(&mut self) -> u64 {
        self.0 ^= self.0 << 13;
        self.0 ^= self.0 >> 7;
        self.0 ^= self.0 << 17;
        self.0
    }

    pub fn below(&mut self, n: usize) -> usize {
        (self.next() % n as u64) as usize
    }

    fn byte(&mut self, from: u8, n: usize) -> u8 {
        from + self.below(n) as u8
    }
}

#[derive(Clone, Copy)]
pub enum Kind {
    Predicate,
    Integer,
    Truth,
    Set,
    Pair,
    Naturals,
}

use Kind::{Integer, Naturals, Pair, Predicate, Set, Truth};

/// A formula of at most so many levels; one node in 400 is of a kind that does not fit.
pub fn formula(random: &mut Random, kind: Kind, levels: usize) -> Vec<u8> {
    let mut maker = Maker { random, bytes: vec![] };
    maker.node(kind, 0, levels);
    maker.bytes
}

struct Maker<'a> {
    random: &'a mut Random,
    bytes: Vec<u8>,
}

impl Maker<'_> {
    fn node(&mut self, kind: Kind, bound: u8, levels: usize) {
        let slips = self.random.below(400) == 0;
        let kind = if slips { self.any(6) } else { kind };
        let leaf = levels <= 1 || self.random.below(10) < 2;
        let below = levels.saturating_sub(1);
        match (kind, leaf) {
            (Predicate, true) => self.code(0x01, 2),
            (Predicate, false) => self.predicate(bound, below),
            (Integer, true) => self.integer_leaf(bound),
            (Integer, false) => self.integer(bound, below),
            (Truth, true) => self.either(&[0x20, 1], &[0x31]),
            (Truth, false) => self.fixed(0x2e, &[Predicate], bound, below),
            (Set, true) => self.either(&[0x20, 2], &[0x23]),
            (Set, false) => self.set(bound, below),
            (Pair, _) => {
                let (l, r) = (self.value(3), self.value(if levels > 2 { 4 } else { 3 }));
                self.fixed(0x2f, &[l, r], bound, below);
            }
            (Naturals, _) => self.code(0x24, 2),
        }
    }

    fn predicate(&mut self, bound: u8, below: usize) {
        match self.random.below(12) {
            0 => self.fixed(0x03, &[Predicate], bound, below),
            1 | 2 => self.counted(0x04, 2, 2, Predicate, bound, below),
            3 => self.one_of(0x06, 2, &[Predicate, Predicate], bound, below),
            4 | 5 => self.binder(0x08, 2, &[Predicate], bound, below),
            6 | 7 => {
                let side = self.value(4);
                self.fixed(0x10, &[side, side], bound, below);
            }
            8 | 9 => self.one_of(0x11, 4, &[Integer, Integer], bound, below),
            10 => {
                let right = if self.random.below(2) == 0 { Set } else { Naturals };
                self.fixed(0x15, &[Integer, right], bound, below);
            }
            _ => self.one_of(0x16, 2, &[Set, Set], bound, below),
        }
    }

    fn integer_leaf(&mut self, bound: u8) {
        match self.random.below(4) {
            0 | 1 => self.bytes.extend([0x20, 0]),
            2 if bound > 0 => {
                let index = self.random.byte(0, bound.into());
                self.bytes.extend([0x21, index]);
            }
            _ => {
                let word = self.random.next();
                self.bytes.push(0x22);
                self.bytes.extend(word.to_le_bytes());
            }
        }
    }

    fn integer(&mut self, bound: u8, below: usize) {
        match self.random.below(4) {
            0 => self.counted(0x26, 2, 2, Integer, bound, below),
            1 => self.fixed(0x28, &[Integer, Integer], bound, below),
            2 => self.fixed(0x29, &[Integer], bound, below),
            _ => self.integer_leaf(bound),
        }
    }

    fn set(&mut self, bound: u8, below: usize) {
        match self.random.below(4) {
            0 => self.counted(0x2a, 2, 2, Set, bound, below),
            1 => self.fixed(0x2c, &[Set, Set], bound, below),
            2 => self.counted(0x2d, 1, 1, Integer, bound, below),
            _ => self.binder(0x30, 1, &[Predicate, Integer], bound, below),
        }
    }

    fn any(&mut self, n: usize) -> Kind {
        [Predicate, Integer, Truth, Set, Pair, Naturals][self.random.below(n)]
    }

    fn value(&mut self, n: usize) -> Kind {
        [Integer, Truth, Set, Pair][self.random.below(n)]
    }

    fn code(&mut self, from: u8, n: usize) {
        let code = self.random.byte(from, n);
        self.bytes.push(code);
    }

    fn either(&mut self, a: &[u8], b: &[u8]) {
        let chosen = if self.random.below(2) == 0 { a } else { b };
        self.bytes.extend(chosen);
    }

    fn operands(&mut self, kinds: &[Kind], bound: u8, below: usize) {
        for &kind in kinds {
            self.node(kind, bound, below);
        }
    }

    fn fixed(&mut self, code: u8, kinds: &[Kind], bound: u8, below: usize) {
        self.one_of(code, 1, kinds, bound, below);
    }

    fn one_of(&mut self, from: u8, codes: usize, kinds: &[Kind], bound: u8, below: usize) {
        self.code(from, codes);
        self.operands(kinds, bound, below);
    }

    fn counted(&mut self, from: u8, codes: usize, least: u8, kind: Kind, bound: u8, below: usize) {
        self.code(from, codes);
        let n = self.random.byte(least, 3);
        self.bytes.push(n);
        self.operands(&vec![kind; n.into()], bound, below);
    }

    fn binder(&mut self, from: u8, codes: usize, kinds: &[Kind], bound: u8, below: usize) {
        self.code(from, codes);
        let n = self.random.byte(1, 3);
        self.bytes.push(n);
        self.operands(kinds, bound + n, below);
    }
}

/// Cuts the bytes off, changes one, or leaves them whole.
pub fn damage(random: &mut Random, bytes: &mut Vec<u8>) {
    let k = random.below(bytes.len());
    match random.below(6) {
        0 => bytes.truncate(k),
        1 => bytes[k] = random.byte(0, 60),
        2 => bytes[k] = random.byte(0, 256),
        _ => {}
    }
}

fn and(parts: &[Vec<u8>]) -> Vec<u8> {
    let mut bytes = vec![0x04, parts.len() as u8];
    for part in parts {
        bytes.extend(part);
    }
    bytes
}

/// ∧ of ∧ of so many leaves each, near 1,024 bytes.
fn tree(leaf: &[u8], leaves: usize) -> Vec<u8> {
    let group = and(&vec![leaf.to_vec(); leaves]);
    let n = (1022 / group.len()).min(32);
    and(&vec![group; n])
}

fn flat_sum() -> Vec<u8> {
    let mut bytes = vec![0x10, 0x26, 32];
    for k in 0..32 {
        bytes.extend([0x20, if k % 2 == 0 { 0 } else { 3 }]);
    }
    bytes.extend([0x20, 0]);
    bytes
}

fn negations() -> Vec<u8> {
    let mut bytes = vec![0x03; 29];
    bytes.push(0x01);
    bytes
}

/// x=1
const EQUALITY: [u8; 12] = [0x10, 0x20, 0, 0x22, 1, 0, 0, 0, 0, 0, 0, 0];

/// x<y
const RELATION: [u8; 5] = [0x11, 0x20, 0, 0x20, 3];

/// (x↦p)↦(s↦y) = (x↦p)↦(s↦y)
const PAIRS: [u8; 23] = [
    0x10, 0x2f, 0x2f, 0x20, 0, 0x20, 1, 0x2f, 0x20, 2, 0x20, 3, 0x2f, 0x2f, 0x20, 0, 0x20, 1, 0x2f, 0x20, 2,
    0x20, 3,
];

/// ∀a,b·(b∈ℕ ⇒ a+x ≤ x−b)
const QUANTIFIED: [u8; 19] =
    [0x08, 2, 0x06, 0x15, 0x21, 0, 0x24, 0x12, 0x26, 2, 0x21, 1, 0x20, 0, 0x28, 0x20, 0, 0x21, 0];

/// The shapes that are timed.
pub fn shapes() -> Vec<(&'static str, Vec<u8>)> {
    vec![
        ("flat sums", and(&vec![flat_sum(); 14])),
        ("relations", tree(&RELATION, 6)),
        ("literals", tree(&EQUALITY, 2)),
        ("quantified", tree(&QUANTIFIED, 2)),
        ("pairs", tree(&PAIRS, 3)),
        ("chains of ¬", and(&vec![negations(); 32])),
        ("x=1 alone", EQUALITY.to_vec()),
    ]
}

//! Random formulas from a fixed seed, damaged copies of them, and equality.

use crate::parts::*;
use crate::{Cases, TYPES};

const SEED: u64 = 0x9e37_79b9_7f4a_7c15;

pub fn print(cases: &mut Cases) {
    let mut random = Random(SEED);
    let mut kept: Vec<Vec<u8>> = Vec::new();
    while kept.len() < 400 {
        let depth = 1 + random.under(6);
        let bytes = random.predicate(depth, 0);
        if bytes.len() <= 100 {
            cases.formula(&bytes);
            kept.push(bytes);
        }
    }
    for _ in 0..200 {
        let depth = random.under(5);
        let bytes = random.expression(depth, 0);
        cases.expression(&bytes[..bytes.len().min(100)]);
    }
    large(cases, &mut random);
    for bytes in &kept {
        damaged(cases, &mut random, bytes);
    }
    noise(cases, &mut random);
    equality(cases, &mut random, &kept);
}

/// Some that are large, accepted or not.
fn large(cases: &mut Cases, random: &mut Random) {
    let mut left = 8;
    while left > 0 {
        let bytes = random.predicate(9, 0);
        if (400..1500).contains(&bytes.len()) {
            cases.formula(&bytes);
            left -= 1;
        }
    }
}

/// Copies with one or two bytes changed, one byte left out or put in, or an end cut off.
fn damaged(cases: &mut Cases, random: &mut Random, bytes: &[u8]) {
    for _ in 0..3 {
        let mut other = bytes.to_vec();
        let place = random.under(other.len());
        match random.under(6) {
            0 => other.truncate(place),
            1 => drop(other.remove(place)),
            2 => other.insert(place, random.byte()),
            3 => {
                other[place] = random.byte();
                let second = random.under(other.len());
                other[second] = random.byte();
            }
            _ => other[place] = random.byte(),
        }
        cases.formula(&other);
    }
}

/// Bytes that are mostly codes.
fn noise(cases: &mut Cases, random: &mut Random) {
    for _ in 0..200 {
        let length = random.under(24);
        let bytes: Vec<u8> = (0..length).map(|_| random.byte()).collect();
        cases.formula(&bytes);
        cases.expression(&bytes);
    }
}

/// Equal copies, and pairs that differ in the first, the last or another byte.
fn equality(cases: &mut Cases, random: &mut Random, formulas: &[Vec<u8>]) {
    let good =
        |bytes: &[u8]| paper::read::predicate(bytes, 0, &TYPES).is_ok_and(|read| read.1 == bytes.len());
    for bytes in formulas.iter().filter(|bytes| good(bytes)).take(100) {
        cases.equal(bytes, bytes);
        for place in [0, bytes.len() - 1, random.under(bytes.len())] {
            for change in [1, 2, 3, 0xff, 0x80] {
                let mut other = bytes.clone();
                other[place] = other[place].wrapping_add(change);
                if good(&other) {
                    cases.equal(bytes, &other);
                    break;
                }
            }
        }
    }
    let large = filler(1024);
    let mut other = large.clone();
    other[1023] = 2;
    cases.equal(&large, &large);
    cases.equal(&large, &other);
    cases.equal(TOP, TOP);
    cases.equal(TOP, &[2]);
}

/// An xorshift generator.
struct Random(u64);

impl Random {
    fn next(&mut self) -> u64 {
        self.0 ^= self.0 << 13;
        self.0 ^= self.0 >> 7;
        self.0 ^= self.0 << 17;
        self.0
    }

    /// A number under the limit.
    fn under(&mut self, limit: usize) -> usize {
        ((self.next() >> 20) % limit as u64) as usize
    }

    /// A code, a small number, or any byte.
    fn byte(&mut self) -> u8 {
        match self.under(8) {
            0 => self.under(256) as u8,
            1 | 2 => self.under(5) as u8,
            3 => 0x10 + self.under(8) as u8,
            4 => self.under(10) as u8,
            _ => 0x20 + self.under(19) as u8,
        }
    }

    fn predicate(&mut self, depth: usize, enclosing: usize) -> Vec<u8> {
        if depth == 0 {
            return vec![1 + self.under(2) as u8];
        }
        let below = depth - 1;
        match self.under(11) {
            0 => cat(&[&[3], &self.predicate(below, enclosing)]),
            code @ 1..=2 => {
                let operands = 2 + self.under(3);
                let parts: Vec<Vec<u8>> = (0..operands).map(|_| self.predicate(below, enclosing)).collect();
                cat(&[&[3 + code as u8, operands as u8], &parts.concat()])
            }
            code @ 3..=4 => {
                let first = self.predicate(below, enclosing);
                cat(&[&[3 + code as u8], &first, &self.predicate(below, enclosing)])
            }
            code @ 5..=6 => {
                let variables = 1 + self.under(3);
                cat(&[&[3 + code as u8, variables as u8], &self.predicate(below, enclosing + variables)])
            }
            _ => self.relation(below, enclosing),
        }
    }

    fn relation(&mut self, depth: usize, enclosing: usize) -> Vec<u8> {
        let code = 0x10 + self.under(8) as u8;
        let (first, second) = match code {
            0x10 => {
                let both = self.under(4);
                (both, both)
            }
            0x15 => (0, [2, 4][self.under(2)]),
            0x16 | 0x17 => (2, 2),
            _ => (0, 0),
        };
        let left = self.of_type(first, depth, enclosing);
        cat(&[&[code], &left, &self.of_type(second, depth, enclosing)])
    }

    /// Of any type.
    fn expression(&mut self, depth: usize, enclosing: usize) -> Vec<u8> {
        let wanted = self.under(4);
        self.of_type(wanted, depth, enclosing)
    }

    /// An integer, truth value, set, pair or ℕ by number; now and then of another type.
    fn of_type(&mut self, wanted: usize, depth: usize, enclosing: usize) -> Vec<u8> {
        let wanted = if self.under(60) == 0 { self.under(5) } else { wanted };
        match wanted {
            0 => self.integer(depth, enclosing),
            1 if depth > 0 && self.under(2) == 0 => cat(&[&[0x2e], &self.predicate(depth - 1, enclosing)]),
            1 => [&[0x20, 1][..], &[0x31], &[0x32]][self.under(3)].to_vec(),
            2 => self.set(depth, enclosing),
            3 => {
                let (first, below) = (self.under(2), depth.saturating_sub(1));
                let left = self.of_type(first, below, enclosing);
                cat(&[&[0x2f], &left, &self.of_type(2, below, enclosing)])
            }
            _ => vec![0x24 + self.under(2) as u8],
        }
    }

    fn integer(&mut self, depth: usize, enclosing: usize) -> Vec<u8> {
        if depth == 0 || self.under(2) == 0 {
            return match self.under(3) {
                0 if enclosing > 0 => vec![0x21, self.under(enclosing) as u8],
                1 => cat(&[&[0x22], &self.next().to_le_bytes()]),
                _ => vec![0x20, [0, 3][self.under(2)]],
            };
        }
        let left = self.of_type(0, depth - 1, enclosing);
        match self.under(4) {
            0 => cat(&[&[0x29], &left]),
            1 => cat(&[&[0x28], &left, &self.of_type(0, depth - 1, enclosing)]),
            code => cat(&[&[0x24 + code as u8, 2], &left, &self.of_type(0, depth - 1, enclosing)]),
        }
    }

    fn set(&mut self, depth: usize, enclosing: usize) -> Vec<u8> {
        if depth == 0 {
            return [&[0x23][..], &[0x20, 2]][self.under(2)].to_vec();
        }
        match self.under(5) {
            0 => cat(&[&[0x2d, 1], &self.of_type(0, depth - 1, enclosing)]),
            1 => {
                let variables = 1 + self.under(3);
                let guard = self.predicate(depth - 1, enclosing + variables);
                let value = self.of_type(0, depth - 1, enclosing + variables);
                cat(&[&[0x30, variables as u8], &guard, &value])
            }
            2 => {
                let left = self.of_type(2, depth - 1, enclosing);
                cat(&[&[0x2c], &left, &self.of_type(2, depth - 1, enclosing)])
            }
            code => {
                let left = self.of_type(2, depth - 1, enclosing);
                cat(&[&[0x27 + code as u8, 2], &left, &self.of_type(2, depth - 1, enclosing)])
            }
        }
    }
}

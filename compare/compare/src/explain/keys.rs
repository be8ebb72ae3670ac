//! The substitutes of a source, as the given variations.rs has them, each departure from document 01
//! behind the switch of its class. With no switch they are document 01's.

use paper::codes::*;
use paper::tree::{Tree, leaf, literal, node, not, truth, two};
use paper::types::{Type, type_of};

use super::class::{Class, Switches};

/// A predicate and the truth value that stands for it.
pub type Substitute = (Tree, bool);

/// The lists under some switches, for the identifiers of one sequent.
pub struct Keys<'a> {
    pub on: Switches,
    pub types: &'a [u8],
}

impl Keys<'_> {
    /// The substitutes of a source in order; hypotheses start true, goals false.
    pub fn of(&self, source: &Tree, starts: bool) -> Vec<Substitute> {
        let (mut source, mut holds) = (source, starts);
        while source.code == NOT {
            (source, holds) = (&source.operands[0], !holds);
        }
        let (first, second) = if holds { self.of_true(source) } else { self.of_false(source) };
        let mut out = Vec::new();
        add(&mut out, first, holds);
        add(&mut out, second, !holds);
        out
    }

    /// What follows from the source, and what cannot hold beside it.
    fn of_true(&self, source: &Tree) -> (Vec<Tree>, Vec<Tree>) {
        let Some((code, l, r)) = relation(source) else {
            return (vec![source.clone()], Vec::new());
        };
        let mut shared = self.equivalent(code, l, r);
        shared.extend(self.weaker(code, l, r));
        let above = if matches!(code, LESS | LESS_EQUAL) && self.value(l).is_some_and(|value| value > 0) {
            self.natural_forms(r)
        } else {
            Vec::new()
        };
        let mut second: Vec<Tree> = shared.iter().map(opposite).collect();
        if self.on.has(Class::AbovePositive) {
            second.extend(above.iter().map(opposite));
        }
        shared.extend(above);
        (shared, second)
    }

    /// What the source follows from, and what follows from its negation.
    fn of_false(&self, source: &Tree) -> (Vec<Tree>, Vec<Tree>) {
        let Some((code, l, r)) = relation(source) else {
            return (vec![source.clone()], Vec::new());
        };
        let mut shared = self.equivalent(code, l, r);
        shared.extend(self.stronger(code, l, r));
        let below = if matches!(code, LESS | LESS_EQUAL) && self.value(l).is_some_and(|value| value < 0) {
            self.natural_forms(r)
        } else {
            Vec::new()
        };
        let mut second: Vec<Tree> = shared.iter().map(opposite).collect();
        if self.on.has(Class::BelowNegative) {
            second.extend(below.iter().map(opposite));
        }
        if code == IN && r.code == NATURAL && !self.on.has(Class::NotNaturalNotZero) {
            let zero = literal(0);
            second.extend([not(&two(EQUAL, l, &zero)), not(&two(EQUAL, &zero, l))]);
        }
        shared.extend(below);
        (shared, second)
    }

    /// E+ of x∈ℕ and of x∈ℕ1.
    fn natural_forms(&self, x: &Tree) -> Vec<Tree> {
        let mut out = self.equivalent(IN, x, &leaf(NATURAL));
        out.extend(self.equivalent(IN, x, &leaf(NATURAL1)));
        out
    }

    fn weaker(&self, code: u8, l: &Tree, r: &Tree) -> Vec<Tree> {
        match code {
            EQUAL => self.weaker_than_equal(l, r),
            LESS => vec![
                two(LESS_EQUAL, l, r),
                two(GREATER_EQUAL, r, l),
                not(&two(EQUAL, l, r)),
                not(&two(EQUAL, r, l)),
            ],
            SUBSET => vec![
                two(SUBSET_EQUAL, l, r),
                not(&two(EQUAL, l, r)),
                not(&two(EQUAL, r, l)),
                not(&two(SUBSET, r, l)),
                not(&two(SUBSET_EQUAL, r, l)),
            ],
            SUBSET_EQUAL => vec![not(&two(SUBSET, r, l))],
            IN if r.code == NATURAL1 => {
                let mut out = self.equivalent(IN, l, &leaf(NATURAL));
                out.extend([not(&two(EQUAL, l, &literal(0))), not(&two(EQUAL, &literal(0), l))]);
                out
            }
            _ => Vec::new(),
        }
    }

    fn weaker_than_equal(&self, l: &Tree, r: &Tree) -> Vec<Tree> {
        match type_of(r, self.types) {
            Type::Set => vec![
                two(SUBSET_EQUAL, l, r),
                two(SUBSET_EQUAL, r, l),
                not(&two(SUBSET, l, r)),
                not(&two(SUBSET, r, l)),
            ],
            Type::Integer => {
                let mut out = vec![two(LESS_EQUAL, l, r), two(GREATER_EQUAL, r, l)];
                out.extend([two(LESS_EQUAL, r, l), two(GREATER_EQUAL, l, r)]);
                for (side, other) in [(r, l), (l, r)] {
                    if self.value(side) == Some(0) {
                        out.extend(self.not_natural1(other));
                    }
                }
                out
            }
            _ => Vec::new(),
        }
    }

    /// E− of x∈ℕ1.
    fn not_natural1(&self, x: &Tree) -> Vec<Tree> {
        let mut out = vec![not(&two(IN, x, &leaf(NATURAL1)))];
        out.extend(self.equivalent(GREATER_EQUAL, &literal(0), x));
        out
    }

    fn stronger(&self, code: u8, l: &Tree, r: &Tree) -> Vec<Tree> {
        match code {
            LESS_EQUAL => vec![two(LESS, l, r), two(GREATER, r, l), two(EQUAL, l, r), two(EQUAL, r, l)],
            SUBSET_EQUAL => vec![two(SUBSET, l, r), two(EQUAL, l, r), two(EQUAL, r, l)],
            IN if r.code == NATURAL => self.equivalent(IN, l, &leaf(NATURAL1)),
            _ => Vec::new(),
        }
    }

    /// E+.
    fn equivalent(&self, code: u8, l: &Tree, r: &Tree) -> Vec<Tree> {
        let mut out = vec![two(code, l, r)];
        match (code, r.code) {
            (EQUAL, _) => {
                out.push(two(EQUAL, r, l));
                out.extend(self.other_truth(l, r));
            }
            (LESS | LESS_EQUAL | GREATER | GREATER_EQUAL, _) => {
                out.push(two(mirrored(code), r, l));
                out.extend(self.beside_left(code, l, r));
                out.extend(self.beside_left(mirrored(code), r, l));
            }
            (IN, NATURAL) => out.extend(self.equivalent(LESS_EQUAL, &literal(0), l)),
            (IN, NATURAL1) => out.extend(self.equivalent(LESS, &literal(0), l)),
            _ => {}
        }
        out
    }

    /// What is TRUE is not FALSE, and the other way round.
    fn other_truth(&self, l: &Tree, r: &Tree) -> Vec<Tree> {
        let mut out = Vec::new();
        if !self.on.has(Class::TrueFalse) {
            return out;
        }
        for (side, other) in [(l, r), (r, l)] {
            let opposite = match side.code {
                TRUE => leaf(FALSE),
                FALSE => leaf(TRUE),
                _ => continue,
            };
            out.extend([not(&two(EQUAL, &opposite, other)), not(&two(EQUAL, other, &opposite))]);
        }
        out
    }

    /// What an order with a literal on its left also says: ℕ and ℕ1, and the literal moved by one.
    fn beside_left(&self, code: u8, l: &Tree, r: &Tree) -> Vec<Tree> {
        let mut out = Vec::new();
        let Some(value) = self.value(l) else {
            return out;
        };
        let (naturals, ones, moved, moved_code) = match code {
            LESS => (-1, 0, value + 1, LESS_EQUAL),
            LESS_EQUAL => (0, 1, value - 1, LESS),
            GREATER => (0, 1, value - 1, GREATER_EQUAL),
            _ => (-1, 0, value + 1, GREATER),
        };
        if self.on.has(Class::ZeroForms) {
            let natural = [(naturals, NATURAL), (ones, NATURAL1)].into_iter().find(|form| form.0 == value);
            let member = natural.map(|form| two(IN, r, &leaf(form.1)));
            let upwards = matches!(code, LESS | LESS_EQUAL);
            out.extend(member.map(|member| if upwards { member } else { not(&member) }));
        }
        let class = if moved < 0 { Class::MovedBelowZero } else { Class::LiteralMoved };
        if let Some(literal) = made(moved).filter(|_| self.on.has(class)) {
            out.extend([two(moved_code, &literal, r), two(mirrored(moved_code), r, &literal)]);
        }
        out
    }

    /// A literal's value; one below a unary minus only where the given Rust sees it.
    fn value(&self, expression: &Tree) -> Option<i128> {
        if expression.code == LITERAL {
            return Some(i128::from(expression.number));
        }
        let below = expression.operands.first().filter(|below| below.code == LITERAL)?;
        let seen = expression.code == NEGATIVE && self.on.has(Class::MinusLiteral);
        seen.then(|| -i128::from(below.number))
    }
}

/// A literal as the given Rust makes it; none where eight bytes do not hold it, so that no formula is it.
fn made(value: i128) -> Option<Tree> {
    if value < 0 {
        return Some(node(NEGATIVE, vec![literal(i64::try_from(-value).ok()?)]));
    }
    Some(literal(i64::try_from(value).ok()?))
}

fn mirrored(code: u8) -> u8 {
    match code {
        LESS => GREATER,
        LESS_EQUAL => GREATER_EQUAL,
        GREATER => LESS,
        _ => LESS_EQUAL,
    }
}

/// `makeNegRelational`: ¬ is taken off or put on, and orders are turned instead.
fn opposite(predicate: &Tree) -> Tree {
    let turned = match predicate.code {
        NOT => return predicate.operands[0].clone(),
        LESS => GREATER_EQUAL,
        LESS_EQUAL => GREATER,
        GREATER => LESS_EQUAL,
        GREATER_EQUAL => LESS,
        _ => return not(predicate),
    };
    two(turned, &predicate.operands[0], &predicate.operands[1])
}

/// l≥r is treated as r≤l, l>r as r<l; none for a predicate that is no relation.
fn relation(predicate: &Tree) -> Option<(u8, &Tree, &Tree)> {
    if !predicate.is_relation() {
        return None;
    }
    let (l, r) = (&predicate.operands[0], &predicate.operands[1]);
    Some(match predicate.code {
        GREATER => (LESS, r, l),
        GREATER_EQUAL => (LESS_EQUAL, r, l),
        code => (code, l, r),
    })
}

/// A key under ¬ loses it and its value flips; literals never are keys.
fn add(out: &mut Vec<Substitute>, list: Vec<Tree>, value: bool) {
    for predicate in list {
        let (key, value) = match predicate.code {
            NOT => (predicate.operands[0].clone(), !value),
            _ => (predicate, value),
        };
        if key != truth(true) && key != truth(false) {
            out.push((key, value));
        }
    }
}

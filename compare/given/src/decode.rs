//! Document 01's bytes to the stand-in's formulas. What document 01 refuses while reading gives
//! none here; the number and place are not this program's business.

use crate::big_int::BigInt;
use crate::formula::tag::*;
use crate::formula::{BoundIdentDecl, Expression, FormulaFactory, Predicate, Type};

const LONGEST_SEQUENT: usize = 60_000;
const LONGEST_FORMULA: usize = 1_024;
const DEEPEST_LEVEL: u32 = 32;
const MOST: usize = 64;

pub(crate) struct Hypothesis {
    pub(crate) flag: u8,
    pub(crate) pred: Predicate,
}

pub(crate) struct SequentFile {
    /// The type bytes, which an answer repeats.
    pub(crate) types: Vec<u8>,
    pub(crate) hyps: Vec<Hypothesis>,
    pub(crate) goal: Predicate,
}

/// Where a node stands: its level and the variables around it.
#[derive(Clone, Copy)]
struct Site {
    level: u32,
    bound: u32,
}

impl Site {
    const ROOT: Site = Site { level: 1, bound: 0 };

    fn below(self, declared: u32) -> Site {
        Site { level: self.level + 1, bound: self.bound + declared }
    }
}

struct Reader<'a> {
    bytes: &'a [u8],
    at: usize,
    /// Where the formula in hand starts.
    start: usize,
    types: &'a [u8],
}

pub(crate) fn type_of(byte: u8) -> Option<Type> {
    match byte {
        0 => Some(Type::Int),
        1 => Some(Type::Bool),
        2 => Some(Type::integer_set()),
        _ => None,
    }
}

/// The name under which identifier `k` goes into the type environment.
pub(crate) fn name_of(k: usize) -> String {
    format!("v{k}")
}

pub(crate) fn types(bytes: &[u8]) -> Option<&[u8]> {
    (bytes.len() <= MOST && bytes.iter().all(|&byte| byte <= 2)).then_some(bytes)
}

pub(crate) fn sequent(bytes: &[u8]) -> Option<SequentFile> {
    if bytes.len() < 8 || bytes.len() > LONGEST_SEQUENT || bytes[..5] != *b"SQT\x01\x00" || bytes[7] != 0 {
        return None;
    }
    let (t, h) = (bytes[5] as usize, bytes[6] as usize);
    if h > MOST {
        return None;
    }
    let types = types(bytes.get(8..8 + t)?)?;
    let mut reader = Reader { bytes, at: 8 + t, start: 0, types };
    let mut hyps: Vec<Hypothesis> = Vec::with_capacity(h);
    for _ in 0..h {
        let flag = reader.byte().filter(|&flag| flag <= 2)?;
        let pred = reader.formula()?;
        if hyps.iter().any(|earlier| earlier.pred == pred) {
            return None;
        }
        hyps.push(Hypothesis { flag, pred });
    }
    let goal = reader.formula()?;
    reader.ended().then(|| SequentFile { types: types.to_vec(), hyps, goal })
}

/// One predicate and nothing after it.
pub(crate) fn predicate(bytes: &[u8], types: &[u8]) -> Option<Predicate> {
    let mut reader = Reader { bytes, at: 0, start: 0, types };
    let pred = reader.formula()?;
    reader.ended().then_some(pred)
}

/// A count, at most `most`, and its predicates.
pub(crate) fn list(bytes: &[u8], types: &[u8], most: usize) -> Option<Vec<Predicate>> {
    let mut reader = Reader { bytes, at: 0, start: 0, types };
    let count = reader.byte().filter(|&count| count as usize <= most)?;
    let list = (0..count).map(|_| reader.formula()).collect::<Option<Vec<Predicate>>>()?;
    reader.ended().then_some(list)
}

impl Reader<'_> {
    fn byte(&mut self) -> Option<u8> {
        let byte = *self.bytes.get(self.at)?;
        self.at += 1;
        Some(byte)
    }

    fn ended(&self) -> bool {
        self.at == self.bytes.len()
    }

    fn formula(&mut self) -> Option<Predicate> {
        self.start = self.at;
        self.predicate(Site::ROOT).filter(Predicate::is_type_checked)
    }

    /// A node's code; its level is asked here, its length once its own bytes are read.
    fn code(&mut self, site: Site) -> Option<u8> {
        let code = self.byte()?;
        (site.level <= DEEPEST_LEVEL && self.fits()).then_some(code)
    }

    fn fits(&self) -> bool {
        self.at - self.start <= LONGEST_FORMULA
    }

    /// The byte after a code, between its limits.
    fn count(&mut self, least: u8, most: u8) -> Option<u8> {
        self.byte().filter(|&n| least <= n && n <= most && self.fits())
    }

    fn predicates(&mut self, site: Site, n: u8) -> Option<Vec<Predicate>> {
        (0..n).map(|_| self.predicate(site.below(0))).collect()
    }

    fn expressions(&mut self, site: Site, n: u8) -> Option<Vec<Expression>> {
        (0..n).map(|_| self.expression(site.below(0))).collect()
    }

    fn predicate(&mut self, site: Site) -> Option<Predicate> {
        let code = self.code(site)?;
        let ff = FormulaFactory;
        Some(match code {
            0x01 => ff.literal_predicate(LiteralPredOp::BTrue, None),
            0x02 => ff.literal_predicate(LiteralPredOp::BFalse, None),
            0x03 => ff.not_predicate(self.predicate(site.below(0))?, None),
            0x04 | 0x05 => {
                let n = self.count(2, 32)?;
                let op = if code == 0x04 { AssocPredOp::LAnd } else { AssocPredOp::LOr };
                ff.associative_predicate(op, self.predicates(site, n)?, None)
            }
            0x06 | 0x07 => {
                let op = if code == 0x06 { BinaryPredOp::LImp } else { BinaryPredOp::LEqv };
                let left = self.predicate(site.below(0))?;
                ff.binary_predicate(op, left, self.predicate(site.below(0))?, None)
            }
            0x08 | 0x09 => {
                let n = self.count(1, 8)?;
                let op = if code == 0x08 { QuantPredOp::ForAll } else { QuantPredOp::Exists };
                let body = self.predicate(site.below(n.into()))?;
                ff.quantified_predicate(op, vec![BoundIdentDecl; n.into()], body, None)
            }
            _ => self.relation(site, relational_op(code)?)?,
        })
    }

    /// ℕ and ℕ1 may stand at the right of ∈ and nowhere else.
    fn relation(&mut self, site: Site, op: RelationalOp) -> Option<Predicate> {
        let left = self.expression(site.below(0))?;
        let right =
            if op == RelationalOp::In { self.membership_set(site.below(0))? } else { self.expression(site.below(0))? };
        Some(FormulaFactory.relational_predicate(op, left, right, None))
    }

    fn membership_set(&mut self, site: Site) -> Option<Expression> {
        let op = match self.bytes.get(self.at)? {
            0x24 => AtomicOp::Natural,
            0x25 => AtomicOp::Natural1,
            _ => return self.expression(site),
        };
        self.code(site)?;
        Some(FormulaFactory.atomic_expression(op, None, None))
    }

    fn expression(&mut self, site: Site) -> Option<Expression> {
        let code = self.code(site)?;
        let ff = FormulaFactory;
        Some(match code {
            0x20 => self.identifier()?,
            0x21 => {
                let index = self.count(0, u8::MAX).filter(|&i| u32::from(i) < site.bound)?;
                ff.bound_identifier(index.into(), None, Some(Type::Int))
            }
            0x22 => self.literal()?,
            0x23 => ff.atomic_expression(AtomicOp::EmptySet, None, None),
            0x26 | 0x27 | 0x2a | 0x2b => {
                let n = self.count(2, 32)?;
                ff.associative_expression(associative_op(code), self.expressions(site, n)?, None)
            }
            0x28 | 0x2c | 0x2f => {
                let left = self.expression(site.below(0))?;
                ff.binary_expression(binary_op(code), left, self.expression(site.below(0))?, None)
            }
            0x29 => ff.unary_expression(UnaryExprOp::UnMinus, self.expression(site.below(0))?, None),
            0x2d => {
                let n = self.count(1, 32)?;
                ff.set_extension(self.expressions(site, n)?, None)
            }
            0x2e => ff.bool_expression(self.predicate(site.below(0))?, None),
            0x30 => self.comprehension(site)?,
            0x31 => ff.atomic_expression(AtomicOp::True, None, None),
            0x32 => ff.atomic_expression(AtomicOp::False, None, None),
            _ => return None,
        })
    }

    fn identifier(&mut self) -> Option<Expression> {
        let k = self.count(0, u8::MAX)? as usize;
        let ty = type_of(*self.types.get(k)?)?;
        Some(FormulaFactory.free_identifier(&name_of(k), None, Some(ty)))
    }

    fn literal(&mut self) -> Option<Expression> {
        let eight = self.bytes.get(self.at..self.at + 8)?;
        self.at += 8;
        let value = i64::from_le_bytes(eight.try_into().ok()?);
        self.fits().then(|| FormulaFactory.integer_literal(BigInt::from(value), None))
    }

    fn comprehension(&mut self, site: Site) -> Option<Expression> {
        let n = self.count(1, 8)?;
        let below = site.below(n.into());
        let guard = self.predicate(below)?;
        let value = self.expression(below)?;
        let decls = vec![BoundIdentDecl; n.into()];
        Some(FormulaFactory.quantified_expression(
            QuantExprOp::CSet,
            decls,
            guard,
            value,
            None,
            QuantExprForm::Explicit,
        ))
    }
}

fn relational_op(code: u8) -> Option<RelationalOp> {
    use RelationalOp::*;
    [Equal, Lt, Le, Gt, Ge, In, Subset, SubsetEq].get(usize::from(code.checked_sub(0x10)?)).copied()
}

fn associative_op(code: u8) -> AssocExprOp {
    match code {
        0x26 => AssocExprOp::Plus,
        0x27 => AssocExprOp::Mul,
        0x2a => AssocExprOp::BUnion,
        _ => AssocExprOp::BInter,
    }
}

fn binary_op(code: u8) -> BinaryExprOp {
    match code {
        0x28 => BinaryExprOp::Minus,
        0x2c => BinaryExprOp::SetMinus,
        _ => BinaryExprOp::Mapsto,
    }
}

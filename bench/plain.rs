//! A plain reader of document 01's formulas: the same rules in everyday Rust, with no table and no proof.

use Type::{Bool, Int, Nat, Nat1, Pair, Prop, Set};

#[derive(Clone, Copy, PartialEq, Eq, Debug)]
pub enum Sort {
    Predicate,
    Expression,
}

/// Document 01's number and place.
#[derive(Clone, Copy, PartialEq, Eq, Debug)]
pub struct Refusal {
    pub number: usize,
    pub place: usize,
}

#[derive(PartialEq)]
enum Type {
    Prop,
    Int,
    Bool,
    Set,
    Nat,
    Nat1,
    Pair(Box<(Type, Type)>),
}

impl Type {
    /// ℕ and ℕ1 stand right of ∈ alone.
    fn is_value(&self) -> bool {
        matches!(self, Int | Bool | Set | Pair(_))
    }
}

/// The bytes of a node after its code: a count, an index or a literal.
fn own_bytes(code: u8) -> usize {
    match code {
        0x04 | 0x05 | 0x08 | 0x09 | 0x20 | 0x21 | 0x26 | 0x27 | 0x2a | 0x2b | 0x2d | 0x30 => 1,
        0x22 => 8,
        _ => 0,
    }
}

fn sort_of(code: u8) -> Option<Sort> {
    match code {
        0x01..=0x09 | 0x10..=0x17 => Some(Sort::Predicate),
        0x20..=0x32 => Some(Sort::Expression),
        _ => None,
    }
}

struct Reader<'a> {
    bytes: &'a [u8],
    types: &'a [u8],
    limit: usize,
    next: usize,
    wrong: Option<usize>,
}

impl Reader<'_> {
    fn node(&mut self, sort: Sort, bound: usize, levels: usize) -> Result<Type, Refusal> {
        let at = self.next;
        let refuse = |number, place| Err(Refusal { number, place });
        let Some(&code) = self.bytes.get(at) else { return refuse(1, self.bytes.len()) };
        let own = own_bytes(code);
        if at + own >= self.bytes.len() {
            return refuse(1, self.bytes.len());
        }
        if sort_of(code) != Some(sort) {
            return refuse(7, at);
        }
        let n = if own > 0 { usize::from(self.bytes[at + 1]) } else { 0 };
        if !self.in_range(code, n, bound) {
            return refuse(7, at);
        }
        if levels == 0 || at + own >= self.limit {
            return refuse(9, at);
        }
        self.next = at + own + 1;
        // A wrong node comes before those below it, and after those already read.
        let earlier = self.wrong;
        let (ty, right) = self.operands(code, n, bound, levels - 1)?;
        if !right && earlier.is_none() {
            self.wrong = Some(at);
        }
        Ok(ty)
    }

    fn in_range(&self, code: u8, n: usize, bound: usize) -> bool {
        match code {
            0x04 | 0x05 | 0x26 | 0x27 | 0x2a | 0x2b => (2..=32).contains(&n),
            0x2d => (1..=32).contains(&n),
            0x08 | 0x09 | 0x30 => (1..=8).contains(&n),
            0x20 => n < self.types.len(),
            0x21 => n < bound,
            _ => true,
        }
    }

    /// The type of a node, and whether its direct operands have theirs.
    #[inline(always)]
    fn operands(&mut self, code: u8, n: usize, bound: usize, levels: usize) -> Result<(Type, bool), Refusal> {
        Ok(match code {
            0x03 => (Prop, self.predicates(1, bound, levels)?),
            0x04 | 0x05 => (Prop, self.predicates(n, bound, levels)?),
            0x06 | 0x07 => (Prop, self.predicates(2, bound, levels)?),
            0x08 | 0x09 => (Prop, self.predicates(1, bound + n, levels)?),
            0x10 => {
                let (l, r) = self.two(bound, levels)?;
                (Prop, l.is_value() && l == r)
            }
            0x11..=0x14 => (Prop, self.all(Int, 2, bound, levels)?),
            0x15 => {
                let (l, r) = self.two(bound, levels)?;
                (Prop, l == Int && matches!(r, Set | Nat | Nat1))
            }
            0x16 | 0x17 => (Prop, self.all(Set, 2, bound, levels)?),
            0x20 => match self.types[n] {
                0 => (Int, true),
                1 => (Bool, true),
                _ => (Set, true),
            },
            0x21 | 0x22 => (Int, true),
            0x23 => (Set, true),
            0x24 => (Nat, true),
            0x25 => (Nat1, true),
            0x26 | 0x27 => (Int, self.all(Int, n, bound, levels)?),
            0x28 => (Int, self.all(Int, 2, bound, levels)?),
            0x29 => (Int, self.all(Int, 1, bound, levels)?),
            0x2a | 0x2b => (Set, self.all(Set, n, bound, levels)?),
            0x2c => (Set, self.all(Set, 2, bound, levels)?),
            0x2d => (Set, self.all(Int, n, bound, levels)?),
            0x2e => (Bool, self.predicates(1, bound, levels)?),
            0x2f => {
                let (l, r) = self.two(bound, levels)?;
                let right = l.is_value() && r.is_value();
                (Pair(Box::new((l, r))), right)
            }
            0x30 => {
                self.predicates(1, bound + n, levels)?;
                (Set, self.all(Int, 1, bound + n, levels)?)
            }
            0x31 | 0x32 => (Bool, true),
            _ => (Prop, true),
        })
    }

    #[inline(always)]
    fn predicates(&mut self, n: usize, bound: usize, levels: usize) -> Result<bool, Refusal> {
        for _ in 0..n {
            self.node(Sort::Predicate, bound, levels)?;
        }
        Ok(true)
    }

    #[inline(always)]
    fn all(&mut self, ty: Type, n: usize, bound: usize, levels: usize) -> Result<bool, Refusal> {
        let mut right = true;
        for _ in 0..n {
            right &= self.node(Sort::Expression, bound, levels)? == ty;
        }
        Ok(right)
    }

    #[inline(always)]
    fn two(&mut self, bound: usize, levels: usize) -> Result<(Type, Type), Refusal> {
        let l = self.node(Sort::Expression, bound, levels)?;
        let r = self.node(Sort::Expression, bound, levels)?;
        Ok((l, r))
    }
}

/// The end of the formula that starts at `start`, or why it is refused.
pub fn read_formula(s: &[u8], types: &[u8], sort: Sort, start: usize) -> Result<usize, Refusal> {
    let limit = start.saturating_add(1024);
    let mut reader = Reader { bytes: s, types, limit, next: start, wrong: None };
    reader.node(sort, 0, 32)?;
    match reader.wrong {
        Some(place) => Err(Refusal { number: 8, place }),
        None => Ok(reader.next),
    }
}

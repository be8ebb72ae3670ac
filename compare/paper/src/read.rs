//! Reading one formula from any bytes: refusals 1, 7, 9, then 8.

use answers::Refusal;

use crate::codes::{self, Own, Row, Sort};
use crate::tree::Tree;
use crate::types;

pub const MOST_LEVELS: usize = 32;
pub const MOST_FORMULA_BYTES: usize = 1024;

/// The refusal with this number at this place.
pub fn refuse<T>(number: u8, place: usize) -> Result<T, Refusal> {
    Err(Refusal { number, place })
}

/// The bytes end inside an item: the place is the whole buffer's length.
pub fn short<T>(bytes: &[u8]) -> Result<T, Refusal> {
    refuse(1, bytes.len())
}

/// The predicate at `start` and the place after it; bytes further on are not looked at.
pub fn predicate(bytes: &[u8], start: usize, types: &[u8]) -> Result<(Tree, usize), Refusal> {
    formula(bytes, start, types, Sort::Predicate)
}

/// The same for an expression, of any type.
pub fn expression(bytes: &[u8], start: usize, types: &[u8]) -> Result<(Tree, usize), Refusal> {
    formula(bytes, start, types, Sort::Expression)
}

fn formula(bytes: &[u8], start: usize, types: &[u8], sort: Sort) -> Result<(Tree, usize), Refusal> {
    let mut reading = Reading { bytes, start, at: start, identifiers: types.len() };
    let tree = reading.node(sort, 1, 0)?;
    match types::first_wrong(&tree, start, types) {
        Some(place) => refuse(8, place),
        None => Ok((tree, reading.at)),
    }
}

struct Reading<'a> {
    bytes: &'a [u8],
    /// The formula's first byte.
    start: usize,
    at: usize,
    identifiers: usize,
}

impl Reading<'_> {
    /// The node here, at this level, with `enclosing` variables declared around it.
    fn node(&mut self, wanted: Sort, level: usize, enclosing: usize) -> Result<Tree, Refusal> {
        let (row, number) = self.head(wanted, level, enclosing)?;
        self.at += row.own_bytes();
        let counted = matches!(row.own, Own::Operands { .. });
        let declared = if matches!(row.own, Own::Variables { .. }) { number as usize } else { 0 };
        let mut operands = Vec::new();
        for sort in row.operand_sorts(number as usize) {
            operands.push(self.node(sort, level + 1, enclosing + declared)?);
        }
        // A counted node's number is how many operands it has.
        Ok(Tree { code: row.code, number: if counted { 0 } else { number }, operands })
    }

    /// The row and number of the node here; at one node 1 comes before 7, and 7 before 9.
    fn head(&self, wanted: Sort, level: usize, enclosing: usize) -> Result<(&'static Row, i64), Refusal> {
        let place = self.at;
        let Some(&code) = self.bytes.get(place) else {
            return short(self.bytes);
        };
        let Some(row) = codes::row(code) else {
            return refuse(7, place);
        };
        let Some(own) = self.bytes.get(place + 1..place + row.own_bytes()) else {
            return short(self.bytes);
        };
        let number = own_number(row, own);
        if row.sort != wanted || !self.in_range(row, number, enclosing) {
            return refuse(7, place);
        }
        let end_in_formula = place - self.start + row.own_bytes();
        if level > MOST_LEVELS || end_in_formula > MOST_FORMULA_BYTES {
            return refuse(9, place);
        }
        Ok((row, number))
    }

    fn in_range(&self, row: &Row, number: i64, enclosing: usize) -> bool {
        match row.own {
            Own::Nothing | Own::Literal => true,
            Own::Identifier => number < self.identifiers as i64,
            Own::Bound => number < enclosing as i64,
            Own::Operands { least, most } | Own::Variables { least, most } => {
                (i64::from(least)..=i64::from(most)).contains(&number)
            }
        }
    }
}

/// What the own bytes after the code say.
fn own_number(row: &Row, own: &[u8]) -> i64 {
    match row.own {
        Own::Nothing => 0,
        Own::Literal => i64::from_le_bytes(own.try_into().expect("a literal has eight bytes")),
        _ => i64::from(own[0]),
    }
}

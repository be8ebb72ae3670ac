//! Formulas as bytes, put together from smaller ones.

use paper::codes::{self, Operands, Own, Row, Sort, AND, COMPREHENSION, EXISTS, FORALL, IN, NOT};

/// An integer, a truth value, a set, a pair, ℕ and ℕ1: an expression of each type.
pub const INTEGER: &[u8] = &[0x20, 0];
pub const TRUE: &[u8] = &[0x31];
pub const SET: &[u8] = &[0x23];
pub const PAIR: &[u8] = &[0x2f, 0x20, 0, 0x31];
pub const NATURAL: &[u8] = &[0x24];
pub const NATURAL1: &[u8] = &[0x25];
pub const TOP: &[u8] = &[1];
pub const LITERAL: &[u8] = &[0x22, 1, 2, 3, 4, 5, 6, 7, 0x80];

pub fn cat(parts: &[&[u8]]) -> Vec<u8> {
    parts.concat()
}

/// `front` so many times, then `last`.
pub fn chain(front: &[u8], times: usize, last: &[u8]) -> Vec<u8> {
    cat(&[&front.repeat(times), last])
}

/// A counted node over so many copies of one operand.
pub fn counted(code: u8, count: u8, operand: &[u8]) -> Vec<u8> {
    chain(&[code, count], 1, &operand.repeat(usize::from(count)))
}

/// A true predicate of so many bytes, from 1 to 1,090.
pub fn filler(size: usize) -> Vec<u8> {
    match size {
        1..=3 => chain(&[NOT], size - 1, TOP),
        4..=34 => counted(AND, (size - 2) as u8, TOP),
        _ => {
            let operands = (size - 2).div_ceil(34).max(2);
            let mut out = vec![AND, operands as u8];
            for index in 0..operands {
                let share = (size - 2) / operands + usize::from(index < (size - 2) % operands);
                out.extend(filler(share));
            }
            out
        }
    }
}

/// A conjunction whose second operand starts at this byte.
pub fn behind(start: usize, second: &[u8]) -> Vec<u8> {
    cat(&[&[AND, 2], &filler(start - 2), second])
}

/// An operand that may stand under this code at this index.
pub fn good_operand(row: &Row, index: usize) -> &'static [u8] {
    match row.code {
        FORALL | EXISTS => TOP,
        COMPREHENSION if index == 0 => TOP,
        COMPREHENSION => &[0x21, 0],
        0x2e => TOP,
        IN if index == 1 => SET,
        0x16 | 0x17 | 0x2a | 0x2b | 0x2c => SET,
        _ if row.sort == Sort::Predicate && row.code < 0x10 => TOP,
        _ => INTEGER,
    }
}

/// The node of this row with these own bytes, over operands that may stand there.
pub fn node(row: &Row, own: &[u8], count: usize) -> Vec<u8> {
    let operands: Vec<&[u8]> = (0..count).map(|index| good_operand(row, index)).collect();
    cat(&[&[row.code], own, &operands.concat()])
}

/// The smallest node of this row; a bound variable is not enclosed here.
pub fn smallest(row: &Row) -> Vec<u8> {
    match row.own {
        Own::Nothing => node(row, &[], fixed(row)),
        Own::Identifier | Own::Bound => node(row, &[0], 0),
        Own::Literal => LITERAL.to_vec(),
        Own::Operands { least, .. } => node(row, &[least], usize::from(least)),
        Own::Variables { least, .. } => node(row, &[least], fixed(row)),
    }
}

/// How many operands a row has that counts none.
pub fn fixed(row: &Row) -> usize {
    match row.operands {
        Operands::Fixed(sorts) => sorts.len(),
        Operands::Counted(_) => 0,
    }
}

/// A predicate over one expression, of the type of the row's nodes.
pub fn around(row: &Row, expression: &[u8]) -> Vec<u8> {
    match row.code {
        codes::BOUND => cat(&[&[FORALL, 1, codes::LESS], expression, INTEGER]),
        codes::NATURAL | codes::NATURAL1 => cat(&[&[IN], INTEGER, expression]),
        codes::BOOL | codes::TRUE | codes::FALSE => cat(&[&[codes::EQUAL], expression, TRUE]),
        codes::MAPLET => cat(&[&[codes::EQUAL], expression, expression]),
        codes::EMPTY | codes::UNION..=codes::EXTENSION | COMPREHENSION => {
            cat(&[&[codes::SUBSET], expression, SET])
        }
        _ => cat(&[&[codes::LESS], expression, INTEGER]),
    }
}

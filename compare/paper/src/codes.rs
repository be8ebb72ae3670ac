//! The node codes of formulas, in one fixed table.

pub const TRUTH: u8 = 0x01;
pub const FALSITY: u8 = 0x02;
pub const NOT: u8 = 0x03;
pub const AND: u8 = 0x04;
pub const OR: u8 = 0x05;
pub const IMPLIES: u8 = 0x06;
pub const IFF: u8 = 0x07;
pub const FORALL: u8 = 0x08;
pub const EXISTS: u8 = 0x09;
pub const EQUAL: u8 = 0x10;
pub const LESS: u8 = 0x11;
pub const LESS_EQUAL: u8 = 0x12;
pub const GREATER: u8 = 0x13;
pub const GREATER_EQUAL: u8 = 0x14;
pub const IN: u8 = 0x15;
pub const SUBSET: u8 = 0x16;
pub const SUBSET_EQUAL: u8 = 0x17;

pub const IDENTIFIER: u8 = 0x20;
pub const BOUND: u8 = 0x21;
pub const LITERAL: u8 = 0x22;
pub const EMPTY: u8 = 0x23;
pub const NATURAL: u8 = 0x24;
pub const NATURAL1: u8 = 0x25;
pub const PLUS: u8 = 0x26;
pub const TIMES: u8 = 0x27;
pub const MINUS: u8 = 0x28;
pub const NEGATIVE: u8 = 0x29;
pub const UNION: u8 = 0x2A;
pub const INTERSECTION: u8 = 0x2B;
pub const DIFFERENCE: u8 = 0x2C;
pub const EXTENSION: u8 = 0x2D;
pub const BOOL: u8 = 0x2E;
pub const MAPLET: u8 = 0x2F;
pub const COMPREHENSION: u8 = 0x30;
pub const TRUE: u8 = 0x31;
pub const FALSE: u8 = 0x32;

/// The two sorts of nodes.
#[derive(Clone, Copy, PartialEq, Eq, Debug)]
pub enum Sort {
    Predicate,
    Expression,
}

/// What follows the code among a node's own bytes.
#[derive(Clone, Copy, PartialEq, Eq, Debug)]
pub enum Own {
    Nothing,
    /// The byte k of an identifier.
    Identifier,
    /// The byte i of a bound variable.
    Bound,
    /// Eight bytes, two's complement, little-endian.
    Literal,
    /// The byte n of operands, within these limits.
    Operands {
        least: u8,
        most: u8,
    },
    /// The byte n of declared integer variables, within these limits.
    Variables {
        least: u8,
        most: u8,
    },
}

/// The operands of a node: a fixed row of sorts, or n of one sort.
#[derive(Clone, Copy, PartialEq, Eq, Debug)]
pub enum Operands {
    Fixed(&'static [Sort]),
    Counted(Sort),
}

/// One row of the table.
#[derive(Clone, Copy, PartialEq, Eq, Debug)]
pub struct Row {
    pub code: u8,
    pub sort: Sort,
    pub own: Own,
    pub operands: Operands,
}

impl Row {
    /// How many bytes belong to the node itself.
    pub fn own_bytes(&self) -> usize {
        match self.own {
            Own::Nothing => 1,
            Own::Literal => 9,
            Own::Identifier | Own::Bound | Own::Operands { .. } | Own::Variables { .. } => 2,
        }
    }

    /// The sort of each operand, where a counted node has `count` of them.
    pub fn operand_sorts(&self, count: usize) -> Vec<Sort> {
        match self.operands {
            Operands::Fixed(sorts) => sorts.to_vec(),
            Operands::Counted(sort) => vec![sort; count],
        }
    }
}

const P: Sort = Sort::Predicate;
const E: Sort = Sort::Expression;
const SEVERAL: Own = Own::Operands { least: 2, most: 32 };
const SOME: Own = Own::Operands { least: 1, most: 32 };
const VARIABLES: Own = Own::Variables { least: 1, most: 8 };

const fn fixed(code: u8, sort: Sort, own: Own, sorts: &'static [Sort]) -> Row {
    Row { code, sort, own, operands: Operands::Fixed(sorts) }
}

const fn counted(code: u8, sort: Sort, own: Own) -> Row {
    Row { code, sort, own, operands: Operands::Counted(sort) }
}

/// All known codes, in rising order.
pub const TABLE: [Row; 36] = [
    fixed(TRUTH, P, Own::Nothing, &[]),
    fixed(FALSITY, P, Own::Nothing, &[]),
    fixed(NOT, P, Own::Nothing, &[P]),
    counted(AND, P, SEVERAL),
    counted(OR, P, SEVERAL),
    fixed(IMPLIES, P, Own::Nothing, &[P, P]),
    fixed(IFF, P, Own::Nothing, &[P, P]),
    fixed(FORALL, P, VARIABLES, &[P]),
    fixed(EXISTS, P, VARIABLES, &[P]),
    fixed(EQUAL, P, Own::Nothing, &[E, E]),
    fixed(LESS, P, Own::Nothing, &[E, E]),
    fixed(LESS_EQUAL, P, Own::Nothing, &[E, E]),
    fixed(GREATER, P, Own::Nothing, &[E, E]),
    fixed(GREATER_EQUAL, P, Own::Nothing, &[E, E]),
    fixed(IN, P, Own::Nothing, &[E, E]),
    fixed(SUBSET, P, Own::Nothing, &[E, E]),
    fixed(SUBSET_EQUAL, P, Own::Nothing, &[E, E]),
    fixed(IDENTIFIER, E, Own::Identifier, &[]),
    fixed(BOUND, E, Own::Bound, &[]),
    fixed(LITERAL, E, Own::Literal, &[]),
    fixed(EMPTY, E, Own::Nothing, &[]),
    fixed(NATURAL, E, Own::Nothing, &[]),
    fixed(NATURAL1, E, Own::Nothing, &[]),
    counted(PLUS, E, SEVERAL),
    counted(TIMES, E, SEVERAL),
    fixed(MINUS, E, Own::Nothing, &[E, E]),
    fixed(NEGATIVE, E, Own::Nothing, &[E]),
    counted(UNION, E, SEVERAL),
    counted(INTERSECTION, E, SEVERAL),
    fixed(DIFFERENCE, E, Own::Nothing, &[E, E]),
    counted(EXTENSION, E, SOME),
    fixed(BOOL, E, Own::Nothing, &[P]),
    fixed(MAPLET, E, Own::Nothing, &[E, E]),
    fixed(COMPREHENSION, E, VARIABLES, &[P, E]),
    fixed(TRUE, E, Own::Nothing, &[]),
    fixed(FALSE, E, Own::Nothing, &[]),
];

/// The row of a code, or none where the code is unknown.
pub fn row(code: u8) -> Option<&'static Row> {
    TABLE.binary_search_by_key(&code, |row| row.code).ok().map(|index| &TABLE[index])
}

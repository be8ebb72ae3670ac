//! Formulas as trees, and their prefix coding.

use crate::codes::{self, Own, Row};

/// One node with its operands. Two formulas are equal exactly when their codings are.
#[derive(Clone, PartialEq, Eq, Hash, Debug)]
pub struct Tree {
    pub code: u8,
    /// k, i, the literal's value or the number of declared variables; 0 for other nodes.
    pub number: i64,
    pub operands: Vec<Tree>,
}

impl Tree {
    /// The table's row of this node.
    pub fn row(&self) -> &'static Row {
        codes::row(self.code).expect("trees hold known codes only")
    }

    /// How many variables this node declares over its operands.
    pub fn declares(&self) -> usize {
        match self.row().own {
            Own::Variables { .. } => self.number as usize,
            _ => 0,
        }
    }

    /// The length of the coding.
    pub fn size(&self) -> usize {
        self.row().own_bytes() + self.operands.iter().map(Tree::size).sum::<usize>()
    }

    /// How many levels there are; a leaf alone has one.
    pub fn levels(&self) -> usize {
        1 + self.operands.iter().map(Tree::levels).max().unwrap_or(0)
    }

    /// The same node over other operands.
    pub fn with_operands(&self, operands: Vec<Tree>) -> Tree {
        Tree { code: self.code, number: self.number, operands }
    }

    /// The prefix coding.
    pub fn bytes(&self) -> Vec<u8> {
        let mut out = Vec::new();
        self.write(&mut out);
        out
    }

    fn write(&self, out: &mut Vec<u8>) {
        out.push(self.code);
        match self.row().own {
            Own::Nothing => {}
            Own::Literal => out.extend(self.number.to_le_bytes()),
            Own::Operands { .. } => out.push(byte(self.operands.len() as i64)),
            Own::Identifier | Own::Bound | Own::Variables { .. } => out.push(byte(self.number)),
        }
        for operand in &self.operands {
            operand.write(out);
        }
    }

    pub fn is_quantifier(&self) -> bool {
        self.code == codes::FORALL || self.code == codes::EXISTS
    }

    pub fn is_relation(&self) -> bool {
        (codes::EQUAL..=codes::SUBSET_EQUAL).contains(&self.code)
    }
}

fn byte(number: i64) -> u8 {
    u8::try_from(number).expect("numbers within the format's limits fit a byte")
}

/// A node without a number of its own.
pub fn node(code: u8, operands: Vec<Tree>) -> Tree {
    Tree { code, number: 0, operands }
}

pub fn leaf(code: u8) -> Tree {
    node(code, Vec::new())
}

pub fn identifier(k: i64) -> Tree {
    Tree { code: codes::IDENTIFIER, number: k, operands: Vec::new() }
}

pub fn bound(i: i64) -> Tree {
    Tree { code: codes::BOUND, number: i, operands: Vec::new() }
}

pub fn literal(value: i64) -> Tree {
    Tree { code: codes::LITERAL, number: value, operands: Vec::new() }
}

/// ∀, ∃ or a comprehension over `variables` declared integers.
pub fn binder(code: u8, variables: usize, operands: Vec<Tree>) -> Tree {
    Tree { code, number: variables as i64, operands }
}

/// A node of two operands.
pub fn two(code: u8, left: &Tree, right: &Tree) -> Tree {
    node(code, vec![left.clone(), right.clone()])
}

pub fn not(predicate: &Tree) -> Tree {
    node(codes::NOT, vec![predicate.clone()])
}

/// ⊤ or ⊥.
pub fn truth(value: bool) -> Tree {
    leaf(if value { codes::TRUTH } else { codes::FALSITY })
}

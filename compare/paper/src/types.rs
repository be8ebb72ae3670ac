//! The type rules: refusal 8.

use crate::codes;
use crate::tree::Tree;

#[derive(Clone, PartialEq, Eq, Debug)]
pub enum Type {
    Integer,
    Boolean,
    Set,
    /// ℕ and ℕ1 stand only to the right of ∈, and are not the type of one another.
    Natural,
    Natural1,
    Pair(Box<Type>, Box<Type>),
}

/// The type an identifier's type byte stands for.
fn of_byte(byte: u8) -> Type {
    match byte {
        0 => Type::Integer,
        1 => Type::Boolean,
        _ => Type::Set,
    }
}

/// An expression's type is read off its code, whether or not its own operands are right.
pub fn type_of(expression: &Tree, types: &[u8]) -> Type {
    match expression.code {
        codes::IDENTIFIER => of_byte(types[expression.number as usize]),
        codes::BOUND | codes::LITERAL => Type::Integer,
        codes::PLUS | codes::TIMES | codes::MINUS | codes::NEGATIVE => Type::Integer,
        codes::NATURAL => Type::Natural,
        codes::NATURAL1 => Type::Natural1,
        codes::BOOL | codes::TRUE | codes::FALSE => Type::Boolean,
        codes::MAPLET => Type::Pair(
            Box::new(type_of(&expression.operands[0], types)),
            Box::new(type_of(&expression.operands[1], types)),
        ),
        _ => Type::Set,
    }
}

fn is_natural(found: &Type) -> bool {
    matches!(found, Type::Natural | Type::Natural1)
}

/// Whether each direct operand has a type that may stand there.
fn operands_fit(tree: &Tree, types: &[u8]) -> bool {
    let operand = |index: usize| type_of(&tree.operands[index], types);
    let all = |wanted: Type| tree.operands.iter().all(|o| type_of(o, types) == wanted);
    match tree.code {
        codes::EQUAL => operand(0) == operand(1) && !is_natural(&operand(0)),
        codes::LESS | codes::LESS_EQUAL | codes::GREATER | codes::GREATER_EQUAL => all(Type::Integer),
        codes::IN => operand(0) == Type::Integer && (operand(1) == Type::Set || is_natural(&operand(1))),
        codes::SUBSET | codes::SUBSET_EQUAL => all(Type::Set),
        codes::PLUS | codes::TIMES | codes::MINUS | codes::NEGATIVE => all(Type::Integer),
        codes::UNION | codes::INTERSECTION | codes::DIFFERENCE => all(Type::Set),
        codes::EXTENSION => all(Type::Integer),
        codes::MAPLET => !is_natural(&operand(0)) && !is_natural(&operand(1)),
        // The guard is a predicate by its sort; the value alone is asked.
        codes::COMPREHENSION => operand(1) == Type::Integer,
        _ => true,
    }
}

/// The place of the first node in prefix order with a wrong direct operand, the root being at `at`.
pub fn first_wrong(tree: &Tree, at: usize, types: &[u8]) -> Option<usize> {
    if !operands_fit(tree, types) {
        return Some(at);
    }
    let mut operand_at = at + tree.row().own_bytes();
    for operand in &tree.operands {
        let wrong = first_wrong(operand, operand_at, types);
        if wrong.is_some() {
            return wrong;
        }
        operand_at += operand.size();
    }
    None
}

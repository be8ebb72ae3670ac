//! What formulas mean: identifiers have values, bound variables range over lo..hi.

use std::collections::BTreeSet;

use crate::codes::*;
use crate::sequent::Sequent;
use crate::tree::Tree;

#[derive(Clone, PartialEq, Eq, Debug)]
pub enum Value {
    Number(i128),
    Truth(bool),
    Set(BTreeSet<i128>),
    Pair(Box<Value>, Box<Value>),
}

/// An interval lo..hi with lo ≤ hi, and a value for each identifier.
#[derive(Clone, PartialEq, Eq, Debug)]
pub struct Valuation {
    pub lo: i128,
    pub hi: i128,
    pub identifiers: Vec<Value>,
}

/// Whole numbers never overflow, but the numbers of this program do.
#[derive(Clone, Copy, PartialEq, Eq, Debug)]
pub struct TooLarge;

/// Whether a closed, well-typed predicate holds.
pub fn holds(valuation: &Valuation, predicate: &Tree) -> Result<bool, TooLarge> {
    Evaluation { valuation, chosen: Vec::new() }.predicate(predicate)
}

/// The value of a well-typed expression; `chosen` are the variables around it, the outermost first.
pub fn value(valuation: &Valuation, chosen: &[i128], expression: &Tree) -> Result<Value, TooLarge> {
    Evaluation { valuation, chosen: chosen.to_vec() }.expression(expression)
}

/// Whether all hypotheses, hidden ones too, hold and the goal does not.
pub fn refutes(valuation: &Valuation, sequent: &Sequent) -> Result<bool, TooLarge> {
    for hypothesis in &sequent.hypotheses {
        if !holds(valuation, &hypothesis.predicate)? {
            return Ok(false);
        }
    }
    Ok(!holds(valuation, &sequent.goal)?)
}

/// All choices of `count` variables within lo..hi, each with the first declared one first.
pub fn choices(valuation: &Valuation, count: usize) -> Vec<Vec<i128>> {
    let mut out = vec![Vec::new()];
    for _ in 0..count {
        let mut longer = Vec::new();
        for choice in &out {
            for next in valuation.lo..=valuation.hi {
                let mut choice = choice.clone();
                choice.push(next);
                longer.push(choice);
            }
        }
        out = longer;
    }
    out
}

struct Evaluation<'a> {
    valuation: &'a Valuation,
    /// The values of the bound variables, the outermost first.
    chosen: Vec<i128>,
}

impl Evaluation<'_> {
    fn predicate(&mut self, tree: &Tree) -> Result<bool, TooLarge> {
        let operands = &tree.operands;
        match tree.code {
            TRUTH => Ok(true),
            FALSITY => Ok(false),
            NOT => Ok(!self.predicate(&operands[0])?),
            AND => self.every(operands),
            OR => self.some(operands),
            IMPLIES => Ok(!self.predicate(&operands[0])? || self.predicate(&operands[1])?),
            IFF => Ok(self.predicate(&operands[0])? == self.predicate(&operands[1])?),
            FORALL => self.for_all(tree),
            EXISTS => self.exists(tree),
            EQUAL => Ok(self.expression(&operands[0])? == self.expression(&operands[1])?),
            IN => self.membership(&operands[0], &operands[1]),
            SUBSET | SUBSET_EQUAL => self.inclusion(tree),
            _ => self.order(tree),
        }
    }

    fn every(&mut self, operands: &[Tree]) -> Result<bool, TooLarge> {
        for operand in operands {
            if !self.predicate(operand)? {
                return Ok(false);
            }
        }
        Ok(true)
    }

    fn some(&mut self, operands: &[Tree]) -> Result<bool, TooLarge> {
        for operand in operands {
            if self.predicate(operand)? {
                return Ok(true);
            }
        }
        Ok(false)
    }

    /// A tree under one choice of the variables declared over it.
    fn under<T>(
        &mut self,
        choice: &[i128],
        what: impl FnOnce(&mut Self) -> Result<T, TooLarge>,
    ) -> Result<T, TooLarge> {
        self.chosen.extend(choice);
        let out = what(self);
        self.chosen.truncate(self.chosen.len() - choice.len());
        out
    }

    fn for_all(&mut self, tree: &Tree) -> Result<bool, TooLarge> {
        for choice in choices(self.valuation, tree.declares()) {
            if !self.under(&choice, |inner| inner.predicate(&tree.operands[0]))? {
                return Ok(false);
            }
        }
        Ok(true)
    }

    fn exists(&mut self, tree: &Tree) -> Result<bool, TooLarge> {
        for choice in choices(self.valuation, tree.declares()) {
            if self.under(&choice, |inner| inner.predicate(&tree.operands[0]))? {
                return Ok(true);
            }
        }
        Ok(false)
    }

    fn order(&mut self, tree: &Tree) -> Result<bool, TooLarge> {
        let left = self.number(&tree.operands[0])?;
        let right = self.number(&tree.operands[1])?;
        Ok(match tree.code {
            LESS => left < right,
            LESS_EQUAL => left <= right,
            GREATER => left > right,
            GREATER_EQUAL => left >= right,
            code => panic!("code {code:02x} is no predicate"),
        })
    }

    fn membership(&mut self, member: &Tree, set: &Tree) -> Result<bool, TooLarge> {
        let member = self.number(member)?;
        Ok(match set.code {
            NATURAL => member >= 0,
            NATURAL1 => member >= 1,
            _ => self.set(set)?.contains(&member),
        })
    }

    /// ⊂ is strict.
    fn inclusion(&mut self, tree: &Tree) -> Result<bool, TooLarge> {
        let left = self.set(&tree.operands[0])?;
        let right = self.set(&tree.operands[1])?;
        let strict = tree.code == SUBSET;
        Ok(left.is_subset(&right) && !(strict && left == right))
    }

    fn expression(&mut self, tree: &Tree) -> Result<Value, TooLarge> {
        Ok(match tree.code {
            IDENTIFIER => self.valuation.identifiers[tree.number as usize].clone(),
            BOUND | LITERAL | PLUS | TIMES | MINUS | NEGATIVE => Value::Number(self.arithmetic(tree)?),
            BOOL => Value::Truth(self.predicate(&tree.operands[0])?),
            TRUE => Value::Truth(true),
            FALSE => Value::Truth(false),
            MAPLET => Value::Pair(
                Box::new(self.expression(&tree.operands[0])?),
                Box::new(self.expression(&tree.operands[1])?),
            ),
            _ => Value::Set(self.set_made_by(tree)?),
        })
    }

    fn number(&mut self, tree: &Tree) -> Result<i128, TooLarge> {
        match self.expression(tree)? {
            Value::Number(number) => Ok(number),
            other => panic!("{other:?} is no number"),
        }
    }

    fn set(&mut self, tree: &Tree) -> Result<BTreeSet<i128>, TooLarge> {
        match self.expression(tree)? {
            Value::Set(set) => Ok(set),
            other => panic!("{other:?} is no set"),
        }
    }

    fn arithmetic(&mut self, tree: &Tree) -> Result<i128, TooLarge> {
        if tree.code == BOUND {
            // Index 0 is the innermost, the last declared.
            return Ok(self.chosen[self.chosen.len() - 1 - tree.number as usize]);
        }
        if tree.code == LITERAL {
            return Ok(i128::from(tree.number));
        }
        let mut numbers = Vec::new();
        for operand in &tree.operands {
            numbers.push(self.number(operand)?);
        }
        let combined = match tree.code {
            PLUS => numbers.iter().try_fold(0i128, |sum, number| sum.checked_add(*number)),
            TIMES => product(&numbers),
            MINUS => numbers[0].checked_sub(numbers[1]),
            _ => numbers[0].checked_neg(),
        };
        combined.ok_or(TooLarge)
    }

    fn set_made_by(&mut self, tree: &Tree) -> Result<BTreeSet<i128>, TooLarge> {
        if tree.code == EMPTY {
            return Ok(BTreeSet::new());
        }
        if tree.code == EXTENSION {
            return tree.operands.iter().map(|member| self.number(member)).collect();
        }
        if tree.code == COMPREHENSION {
            return self.comprehension(tree);
        }
        let mut sets = Vec::new();
        for operand in &tree.operands {
            sets.push(self.set(operand)?);
        }
        let combine: fn(BTreeSet<i128>, &BTreeSet<i128>) -> BTreeSet<i128> = match tree.code {
            UNION => |left, right| &left | right,
            INTERSECTION => |left, right| &left & right,
            DIFFERENCE => |left, right| &left - right,
            code => panic!("code {code:02x} has no value"),
        };
        let first = sets.remove(0);
        Ok(sets.iter().fold(first, combine))
    }

    /// The values of e over all choices where p holds.
    fn comprehension(&mut self, tree: &Tree) -> Result<BTreeSet<i128>, TooLarge> {
        let mut out = BTreeSet::new();
        for choice in choices(self.valuation, tree.declares()) {
            if self.under(&choice, |inner| inner.predicate(&tree.operands[0]))? {
                out.insert(self.under(&choice, |inner| inner.number(&tree.operands[1]))?);
            }
        }
        Ok(out)
    }
}

/// A product is 0 as soon as one factor is, however large the others.
fn product(numbers: &[i128]) -> Option<i128> {
    if numbers.contains(&0) {
        return Some(0);
    }
    numbers.iter().try_fold(1i128, |product, number| product.checked_mul(*number))
}

//! One-point inference: a variable that must equal an expression is replaced by it.

use answers::Refusal;

use crate::codes::*;
use crate::read::{refuse, MOST_FORMULA_BYTES, MOST_LEVELS};
use crate::tree::{binder, bound, node, not, truth, two, Tree};

/// The result predicate, and the replacement in the indices of the quantified body.
#[derive(Clone, PartialEq, Eq, Debug)]
pub struct Inferred {
    pub result: Tree,
    pub replacement: Tree,
}

/// Refusals 15, 16, 17, then 14 for a result over a formula's limits.
pub fn infer(predicate: &Tree) -> Result<Inferred, Refusal> {
    let (find, body) = instantiated(predicate)?;
    let result = close(predicate, &find, body)?;
    if !within_limits(&result) {
        return refuse(14, 0);
    }
    Ok(Inferred { result, replacement: find.replacement })
}

/// The find, and the body that it leaves with its variable gone.
pub fn instantiated(predicate: &Tree) -> Result<(Find, Tree), Refusal> {
    if !predicate.is_quantifier() {
        return refuse(15, 0);
    }
    let polarity = predicate.code == EXISTS;
    let mut scan = Scan { variables: predicate.declares(), find: None };
    let left = scan.simplify(&predicate.operands[0], polarity);
    let Some(find) = scan.find else {
        return refuse(16, 0);
    };
    let remaining = left.unwrap_or_else(|| truth(polarity));
    let body = put_in(&remaining, 0, &find);
    Ok((find, body))
}

/// Variable `index` of the body must equal the replacement.
pub struct Find {
    pub index: i64,
    pub replacement: Tree,
}

/// The scan for the first fitting equality.
struct Scan {
    variables: usize,
    find: Option<Find>,
}

impl Scan {
    /// What is left of a predicate; none where it was the find itself.
    fn simplify(&mut self, predicate: &Tree, polarity: bool) -> Option<Tree> {
        if self.find.is_some() {
            return Some(predicate.clone());
        }
        match (predicate.code, polarity) {
            (AND, true) | (OR, false) => self.several(predicate, polarity),
            (IMPLIES, false) => self.implication(predicate),
            (NOT, _) => {
                let child = self.simplify(&predicate.operands[0], !polarity)?;
                Some(negate(&child))
            }
            (EQUAL, true) => self.equality(predicate),
            _ => Some(predicate.clone()),
        }
    }

    /// One operand left stands alone.
    fn several(&mut self, predicate: &Tree, polarity: bool) -> Option<Tree> {
        let mut left = Vec::new();
        for operand in &predicate.operands {
            left.extend(self.simplify(operand, polarity));
        }
        if left.len() <= 1 {
            return left.pop();
        }
        Some(node(predicate.code, left))
    }

    fn implication(&mut self, predicate: &Tree) -> Option<Tree> {
        let left = self.simplify(&predicate.operands[0], true);
        let right = self.simplify(&predicate.operands[1], false);
        match (left, right) {
            (None, right) => right,
            (Some(left), None) => Some(negate(&left)),
            (Some(left), Some(right)) => Some(two(IMPLIES, &left, &right)),
        }
    }

    fn equality(&mut self, predicate: &Tree) -> Option<Tree> {
        let (left, right) = (&predicate.operands[0], &predicate.operands[1]);
        if left.code == MAPLET && right.code == MAPLET {
            let mut leaves = Vec::new();
            split(left, right, &mut leaves);
            return self.several(&node(AND, leaves), true);
        }
        match fitting_replacement(left, right, self.variables) {
            None => Some(predicate.clone()),
            found => {
                self.find = found;
                None
            }
        }
    }
}

/// Maplet equalities split all the way down, leaves in order.
fn split(left: &Tree, right: &Tree, leaves: &mut Vec<Tree>) {
    if left.code == MAPLET && right.code == MAPLET {
        split(&left.operands[0], &right.operands[0], leaves);
        split(&left.operands[1], &right.operands[1], leaves);
    } else {
        leaves.push(two(EQUAL, left, right));
    }
}

/// Strips a ¬ rather than stacking a second one.
fn negate(predicate: &Tree) -> Tree {
    if predicate.code == NOT {
        predicate.operands[0].clone()
    } else {
        not(predicate)
    }
}

/// The variable an equality names: the smaller of two, else the right one, else the left one.
fn named_variable(left: &Tree, right: &Tree) -> Option<Find> {
    let (index, replacement) = match (left.code, right.code) {
        (BOUND, BOUND) if left.number < right.number => (left.number, right),
        (_, BOUND) => (right.number, left),
        (BOUND, _) => (left.number, right),
        _ => return None,
    };
    Some(Find { index, replacement: replacement.clone() })
}

/// A find fits if the variable is the block's, and all the replacement mentions is further out.
fn fitting_replacement(left: &Tree, right: &Tree, variables: usize) -> Option<Find> {
    let find = named_variable(left, right)?;
    let own_variable = find.index < variables as i64;
    let fits = own_variable && free_indices(&find.replacement, 0).iter().all(|free| *free > find.index);
    fits.then_some(find)
}

/// The bound indices that point out of the tree, as seen from its root.
pub fn free_indices(tree: &Tree, depth: i64) -> Vec<i64> {
    if tree.code == BOUND {
        let free = tree.number - depth;
        return if free >= 0 { vec![free] } else { Vec::new() };
    }
    let inside = depth + tree.declares() as i64;
    tree.operands.iter().flat_map(|operand| free_indices(operand, inside)).collect()
}

/// Moves the indices that point out of the tree by a signed amount.
fn shift(tree: &Tree, depth: i64, amount: i64) -> Tree {
    if tree.code == BOUND {
        let free = tree.number >= depth;
        return bound(if free { tree.number + amount } else { tree.number });
    }
    let inside = depth + tree.declares() as i64;
    tree.with_operands(tree.operands.iter().map(|operand| shift(operand, inside, amount)).collect())
}

/// The find's variable becomes its replacement and higher indices drop by one, under `depth` variables.
fn put_in(tree: &Tree, depth: i64, find: &Find) -> Tree {
    if tree.code == BOUND {
        let seen_from_body = tree.number - depth;
        return match seen_from_body.cmp(&find.index) {
            std::cmp::Ordering::Less => tree.clone(),
            // The replacement loses the removed variable and gains those around this place.
            std::cmp::Ordering::Equal => shift(&find.replacement, 0, depth - 1),
            std::cmp::Ordering::Greater => bound(tree.number - 1),
        };
    }
    let inside = depth + tree.declares() as i64;
    tree.with_operands(tree.operands.iter().map(|operand| put_in(operand, inside, find)).collect())
}

/// The body under the variables that stay; only where the innermost one went may two blocks join.
pub fn close(predicate: &Tree, find: &Find, body: Tree) -> Result<Tree, Refusal> {
    let stay = predicate.declares() - 1;
    if stay == 0 {
        return Ok(body);
    }
    if find.index == 0 && body.is_quantifier() {
        if body.code != predicate.code {
            return refuse(17, 0);
        }
        return Ok(binder(predicate.code, stay + body.declares(), body.operands));
    }
    Ok(binder(predicate.code, stay, vec![body]))
}

/// 1,024 bytes, 32 levels, 32 operands of one node and 8 variables of one block.
fn within_limits(result: &Tree) -> bool {
    result.size() <= MOST_FORMULA_BYTES && result.levels() <= MOST_LEVELS && nodes_within_limits(result)
}

fn nodes_within_limits(tree: &Tree) -> bool {
    tree.operands.len() <= 32 && tree.declares() <= 8 && tree.operands.iter().all(nodes_within_limits)
}

//! Differences of one-point inference: blocks of unlike kinds, and limits.

use answers::{Answer, Part};
use paper::tree::{Tree, binder};
use paper::{lent, one_point};

use super::class::Class;
use super::is_refusal;
use crate::request::Request;

/// Where document 01 refuses with 17 or 14, the Rust must answer what these refuse, byte for byte.
/// Beyond the limits is what cannot be read again.
pub fn explained(request: &Request, paper: &Answer, given: &Answer) -> Option<Vec<Class>> {
    let types = lent::types(&request.buffers[0]).ok()?;
    let predicate = lent::formula(&request.buffers[1], &types).ok()?;
    let (find, body) = one_point::instantiated(&predicate).ok()?;
    let (number, result) = match one_point::close(&predicate, &find, body.clone()) {
        Ok(result) => (14, result),
        Err(_) => (17, joined(&predicate, body)),
    };
    let result = result.bytes();
    let mut classes = Vec::new();
    classes.extend((number == 17).then_some(Class::JoinUnlike));
    classes.extend(lent::formula(&result, &types).is_err().then_some(Class::Limits));
    let made = Ok(vec![Part::Bytes(result), Part::Bytes(find.replacement.bytes())]);
    (is_refusal(paper, number) && made == *given && !classes.is_empty()).then_some(classes)
}

/// The inner block's variables under the outer quantifier, whatever the inner kind.
fn joined(predicate: &Tree, body: Tree) -> Tree {
    let variables = predicate.declares() - 1 + body.declares();
    binder(predicate.code, variables, body.operands)
}

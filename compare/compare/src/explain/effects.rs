//! What a difference in the keys comes to, beyond one side replacing more.

use answers::{Answer, Part};
use paper::codes::{FALSITY, TRUTH};
use paper::tree::Tree;

use crate::loose;

#[derive(Clone, Copy, PartialEq, Eq, Debug)]
pub enum Effect {
    /// One predicate became ⊤ on one side and ⊥ on the other.
    OtherValue,
    /// The same sequent, and another report.
    OtherOrigin,
    Other,
}

/// The effect seen in the answers of two genMP steps.
pub fn effect(ours: &Answer, theirs: &Answer) -> Effect {
    let (Ok(ours), Ok(theirs)) = (ours, theirs) else {
        return Effect::Other;
    };
    match (ours.as_slice(), theirs.as_slice()) {
        ([Part::Bytes(a), Part::Bytes(ra)], [Part::Bytes(b), Part::Bytes(rb)]) if a == b && ra != rb => {
            Effect::OtherOrigin
        }
        ([Part::Bytes(a), Part::Bytes(ra)], [Part::Bytes(b), Part::Bytes(rb)])
            if is_other((a, ra), (b, rb)) =>
        {
            Effect::OtherValue
        }
        _ => Effect::Other,
    }
}

/// A sequent and its report.
type Step<'a> = (&'a [u8], &'a [u8]);

fn is_other(ours: Step, theirs: Step) -> bool {
    let (Some(ours), Some(theirs)) = (results(ours), results(theirs)) else {
        return false;
    };
    let met = |position: &Option<u8>| theirs.iter().find(|other| other.0 == *position);
    ours.iter().any(|(position, tree)| met(position).is_some_and(|other| opposed(tree, &other.1)))
}

/// The new goal, under none, and the formula inferred from each rewritten hypothesis.
fn results((sequent, report): Step) -> Option<Vec<(Option<u8>, Tree)>> {
    let sequent = loose::sequent(sequent)?;
    let mut out = vec![(None, sequent.goal)];
    let mut at = 2 + usize::from(*report.get(1)?);
    let acts = *report.get(at)?;
    at += 1;
    for _ in 0..acts {
        let sources = usize::from(*report.get(at + 1)?);
        let inferred = usize::from(*report.get(at + 2 + sources)?);
        let formula = sequent.hypotheses.get(inferred)?.predicate.clone();
        out.push((Some(report[at]), formula));
        at += 3 + sources;
    }
    Some(out)
}

/// Whether ⊤ stands in one formula where ⊥ stands in the other.
fn opposed(a: &Tree, b: &Tree) -> bool {
    match (a.code, b.code) {
        (TRUTH, FALSITY) | (FALSITY, TRUTH) => true,
        (left, right) if left == right && a.operands.len() == b.operands.len() => {
            a.operands.iter().zip(&b.operands).any(|(a, b)| opposed(a, b))
        }
        _ => false,
    }
}

//! Every small body under every quantifier of one or two variables, for one-point inference.

use paper::codes::*;
use paper::tree::{Tree, binder, bound, identifier, node, not, two};

use crate::request::Request;

const CONNECTIVES: [u8; 3] = [AND, OR, IMPLIES];

/// An equality that fits, one between variables, one to be split, a block of each kind, and no equality.
fn atoms(variables: i64) -> Vec<Tree> {
    let (inner, outer, v) = (bound(0), bound(variables - 1), identifier(0));
    vec![
        two(EQUAL, &inner, &v),
        two(EQUAL, &outer, &inner),
        two(EQUAL, &two(MAPLET, &outer, &v), &two(MAPLET, &v, &inner)),
        binder(EXISTS, 1, vec![two(LESS, &bound(0), &bound(1))]),
        binder(FORALL, 1, vec![two(LESS, &bound(variables), &bound(0))]),
        two(LESS, &outer, &v),
    ]
}

fn connected(left: &[Tree], right: &[Tree]) -> Vec<Tree> {
    let mut out = Vec::new();
    for code in CONNECTIVES {
        for l in left {
            out.extend(right.iter().map(|r| node(code, vec![l.clone(), r.clone()])));
        }
    }
    out
}

/// Atoms, one connective over them, and two: ¬ counts as one.
fn bodies(variables: i64) -> Vec<Tree> {
    let atoms = atoms(variables);
    let mut one = connected(&atoms, &atoms);
    one.extend(atoms.iter().map(not));
    let mut out = [connected(&one, &atoms), connected(&atoms, &one)].concat();
    out.extend(one.iter().map(not));
    [atoms, one, out].concat()
}

pub fn requests() -> Vec<Request> {
    let mut out = Vec::new();
    for variables in [1, 2] {
        for body in bodies(variables) {
            for code in [FORALL, EXISTS] {
                let predicate = binder(code, variables as usize, vec![body.clone()]);
                out.push(Request::ample("onepoint", vec![vec![0], predicate.bytes()]));
            }
        }
    }
    out
}

#[cfg(test)]
mod tests {
    use super::*;
    use crate::programs::Program;

    /// Every number of the act and success are among them.
    #[test]
    fn bodies_meet_every_outcome() {
        let mut numbers = std::collections::BTreeSet::new();
        for request in requests() {
            let answer = Program::Paper.answer(&request).expect("a known act");
            numbers.insert(answer.map_or_else(|refusal| refusal.number, |_| 0));
        }
        assert_eq!(numbers.into_iter().collect::<Vec<u8>>(), [0, 16, 17]);
    }
}

//! Each act with each of its buffers refused for each number that document 01 has for such a buffer.

use paper::codes::*;
use paper::tree::{Tree, identifier, leaf, not, truth, two};

use super::limits::of_size;
use super::{acts, equals, file};
use crate::request::Request;

/// In one buffer at a time: the others are accepted.
pub fn all() -> Vec<Request> {
    let mut out = Vec::new();
    // Reading a formula alone has no bytes left over.
    for good in acts::good().iter().filter(|good| good.act != "formula") {
        for index in 0..good.buffers.len() {
            for bad in refused(&good.act, index) {
                let mut request = good.clone();
                request.buffers[index] = bad;
                out.push(request);
            }
        }
    }
    out
}

/// Refused contents for an act's buffer.
fn refused(act: &str, index: usize) -> Vec<Vec<u8>> {
    match (act, index) {
        ("onepoint", 0) => vec![vec![0; 65], vec![3; 65], vec![3], vec![0, 1, 2, 255, 3]],
        (_, 0) => sequents(),
        ("modify" | "forward" | "rewrite", _) => lists(),
        _ => formulas(),
    }
}

/// ¬ over ¬ to level 33, whose node is the last byte.
fn deep() -> Tree {
    (0..32).fold(truth(true), |tree, _| not(&tree))
}

/// Formulas that are refused as 7, 8 and 9, over one integer.
fn wrong() -> Vec<Vec<u8>> {
    let natural = leaf(NATURAL);
    vec![
        vec![0x0a],
        identifier(0).bytes(),
        vec![AND, 33],
        two(EQUAL, &identifier(0), &identifier(1)).bytes(),
        two(LESS, &natural, &identifier(0)).bytes(),
        not(&two(EQUAL, &natural, &natural)).bytes(),
        deep().bytes(),
        of_size(1_025).bytes(),
    ]
}

fn formulas() -> Vec<Vec<u8>> {
    let good = equals(1).bytes();
    let mut out = wrong();
    out.extend([
        vec![],
        vec![NOT],
        good[..5].to_vec(),
        [&good[..], &[1]].concat(),
        [good, vec![0; 9]].concat(),
    ]);
    out
}

/// Each wrong formula alone and behind a good one; counts, cuts and bytes left over.
fn lists() -> Vec<Vec<u8>> {
    let good = equals(1).bytes();
    let mut out = vec![vec![], vec![65], vec![255, 1], vec![1], [&[1], &good[..7]].concat()];
    out.extend([vec![0, 0], [&[1], &good[..], &[10]].concat()]);
    for bad in wrong() {
        out.push([&[1], &bad[..]].concat());
        out.push([&[2], &good[..], &bad].concat());
    }
    out
}

/// A sequent with each byte of its header wrong, with a wrong formula at each place, and the rest.
fn sequents() -> Vec<Vec<u8>> {
    let hypotheses = [(0, equals(1)), (2, equals(2))];
    let good = file(&[0, 2], &hypotheses, &equals(3));
    let changed = |place: usize, value: u8| {
        let mut bytes = good.clone();
        bytes[place] = value;
        bytes
    };
    let mut out = vec![vec![], good[..7].to_vec(), good[..8].to_vec(), good[..good.len() - 1].to_vec()];
    out.extend(
        [(0, 0), (2, 0), (3, 2), (4, 1), (5, 65), (6, 65), (7, 1), (8, 3), (9, 3)]
            .map(|(p, v)| changed(p, v)),
    );
    out.extend([changed(10, 3), changed(23, 255), [&good[..], &[0]].concat()]);
    for bad in wrong() {
        // In the place of the first hypothesis, and of the goal.
        out.push([&good[..11], &bad[..], &good[23..]].concat());
        out.push([&good[..36], &bad[..]].concat());
    }
    for repeated in [&[1, 1][..], &[1, 2, 1], &[1, 2, 2], &[1, 2, 3, 3], &[1, 2, 3, 4, 1]] {
        let flagged = repeated.iter().zip([0, 1, 2, 0, 1]);
        let hypotheses: Vec<(u8, Tree)> = flagged.map(|(value, flag)| (flag, equals(*value))).collect();
        out.push(file(&[0, 2], &hypotheses, &equals(1)));
    }
    out
}

#[cfg(test)]
mod tests {
    use super::*;
    use crate::programs::Program;

    #[test]
    fn each_is_refused() {
        for request in all() {
            let answer = Program::Paper.answer(&request);
            assert!(matches!(answer, Some(Err(_))), "{}", request.line());
        }
    }
}

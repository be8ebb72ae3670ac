//! Edges of the acts: empty and overfull buffers, lists, sources, selection and "changed".

use paper::codes::*;
use paper::tree::{Tree, not, truth, two};

use super::{equals, file, request, x};
use crate::loose::list_bytes;
use crate::request::Request;

const FLAG_ACTS: [&str; 4] = ["select", "deselect", "hide", "show"];

pub fn chapters() -> Vec<Vec<Request>> {
    let spoiled = good().iter().flat_map(spoiled).collect();
    vec![spoiled, good(), flag_acts(), modifies(), inferences(), list_counts()]
}

fn list(values: &[i64]) -> Vec<u8> {
    list_bytes(&values.iter().map(|value| equals(*value)).collect::<Vec<Tree>>())
}

/// Plain 1, hidden 2, selected 3, goal 4.
fn three() -> Vec<u8> {
    file(&[0], &[(0, equals(1)), (1, equals(2)), (2, equals(3))], &equals(4))
}

/// One accepted request of each act.
pub fn good() -> Vec<Request> {
    let mut out: Vec<Request> =
        FLAG_ACTS.iter().map(|act| request(act, &[three(), equals(1).bytes()])).collect();
    out.push(request("read", &[three()]));
    out.push(request("genmp", &[file(&[0], &[(0, equals(1))], &equals(1))]));
    out.push(request("modify", &[three(), list(&[1, 5]), list(&[5]), list(&[6])]));
    out.push(request("forward", &[three(), list(&[3]), list(&[5])]));
    out.push(request("rewrite", &[three(), list(&[3]), list(&[5]), list(&[3])]));
    out.push(request("onepoint", &[vec![0], vec![EXISTS, 1, EQUAL, BOUND, 0, IDENTIFIER, 0]]));
    out.push(request("formula", &[vec![0], equals(1).bytes()]));
    out
}

/// Each buffer empty, cut, overfull, and ill typed, alone and together with a later one.
fn spoiled(good: &Request) -> Vec<Request> {
    let spoil: [fn(&mut Vec<u8>); 5] = [
        |bytes| bytes.clear(),
        |bytes| bytes.truncate(bytes.len() - 1),
        |bytes| bytes.push(1),
        |bytes| bytes.extend([10, 10]),
        |bytes| bytes[0] = bytes[0].wrapping_add(1),
    ];
    let mut out = Vec::new();
    for first in 0..good.buffers.len() {
        for how in spoil {
            let mut once = good.clone();
            how(&mut once.buffers[first]);
            for second in first + 1..good.buffers.len() {
                for later in spoil {
                    let mut twice = once.clone();
                    later(&mut twice.buffers[second]);
                    out.push(twice);
                }
            }
            out.push(once);
        }
    }
    out
}

/// Each act on a formula of each flag, on an absent one, and on the goal.
fn flag_acts() -> Vec<Request> {
    let formulas = [equals(1), equals(2), equals(3), equals(4), equals(9), not(&equals(1))];
    let of = |act: &&str| formulas.each_ref().map(|formula| request(act, &[three(), formula.bytes()]));
    FLAG_ACTS.iter().flat_map(of).collect()
}

fn modifies() -> Vec<Request> {
    let added: [&[i64]; 7] = [&[], &[1], &[2], &[3], &[9], &[1, 2, 3, 9], &[9, 9, 1, 1]];
    let unselected: [&[i64]; 6] = [&[], &[1], &[2], &[3], &[9], &[9, 9]];
    let goals = [list(&[]), list(&[4]), list(&[5]), list(&[5, 5]), vec![2], vec![]];
    let mut out = Vec::new();
    for added in added {
        for unselected in unselected {
            for goal in &goals {
                out.push(request("modify", &[three(), list(added), list(unselected), goal.clone()]));
            }
        }
    }
    out
}

/// Sources of every flag and number against inferred formulas of every flag.
fn inferences() -> Vec<Request> {
    let sources: [&[i64]; 10] =
        [&[], &[1], &[2], &[3], &[1, 2], &[2, 2], &[2, 3], &[8], &[3, 8], &[1, 1, 2, 3]];
    let inferred: [&[i64]; 8] = [&[], &[1], &[2], &[3], &[7], &[7, 7], &[1, 2, 3, 7], &[4]];
    let hides: [&[i64]; 5] = [&[], &[3], &[7], &[1, 1, 8], &[2]];
    let mut out = Vec::new();
    for sources in sources {
        for inferred in inferred {
            out.push(request("forward", &[three(), list(sources), list(inferred)]));
            for hide in hides {
                out.push(request("rewrite", &[three(), list(sources), list(inferred), list(hide)]));
            }
        }
    }
    out
}

/// Lists of 63, 64 and 65, and count bytes that nothing follows.
fn list_counts() -> Vec<Request> {
    let mut out = Vec::new();
    for count in [63usize, 64, 65, 255] {
        let many: Vec<Tree> = (0..count).map(|index| equals(index as i64 % 60)).collect();
        let long = list_bytes(&many);
        out.push(request("forward", &[three(), long.clone(), list(&[])]));
        out.push(request("forward", &[three(), list(&[]), long.clone()]));
        out.push(request("modify", &[three(), long.clone(), long.clone(), vec![0]]));
        out.push(request("rewrite", &[three(), list(&[3]), list(&[3]), long]));
        out.push(request("forward", &[three(), vec![count as u8], vec![0]]));
    }
    let typed = list_bytes(&[two(IN, &x(), &x())]);
    out.push(request("forward", &[three(), typed.clone(), vec![]]));
    out.push(request("forward", &[three(), list_bytes(&[truth(true)]), typed]));
    out
}

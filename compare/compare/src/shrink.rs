//! Finds a small request that still shows what a large one showed.

use std::collections::HashMap;
use std::rc::Rc;

use paper::codes::*;
use paper::sequent::Flag;
use paper::tree::{Tree, identifier, leaf, literal, truth};
use paper::types::{Type, type_of};

use crate::parts::{Lent, Parts};
use crate::request::Request;

/// How many bytes of candidates are tried in all: enough for every small request, and an end to large ones.
const MOST_BYTES: usize = 20_000_000;

/// The smallest request reached by single steps that each keep what `keeps` asks.
pub fn shrink(request: &Request, keeps: &mut dyn FnMut(&Request) -> bool) -> Request {
    shrink_within(MOST_BYTES, request, keeps)
}

fn shrink_within(mut left: usize, request: &Request, keeps: &mut dyn FnMut(&Request) -> bool) -> Request {
    let mut best = request.clone();
    loop {
        let least = measure(&best);
        let next = candidates(&best)
            .take_while(|candidate| {
                left = left.saturating_sub(candidate.size());
                left > 0
            })
            .filter(|candidate| candidate.size() <= least.0 && measure(candidate) < least)
            .find(|candidate| keeps(candidate));
        match next {
            Some(next) => best = next,
            None => return best,
        }
    }
}

/// Fewer bytes first, then the earlier text.
pub fn measure(request: &Request) -> (usize, String) {
    (request.size(), request.line())
}

/// One after the other, because all those of a large request do not fit into memory.
fn candidates(request: &Request) -> Box<dyn Iterator<Item = Request> + '_> {
    let Some(parts) = Parts::of(request) else {
        return Box::new(fewer_bytes(request).into_iter());
    };
    let edits = [fewer(&parts), fewer_identifiers(&parts)].concat();
    let nodes = nodes(&parts);
    let repeated = repeated(&parts);
    let parts = Rc::new(parts);
    let (here, everywhere) = (parts.clone(), parts.clone());
    let all = edits
        .into_iter()
        .map(move |edit| edit.on(&parts))
        .chain(nodes.into_iter().flat_map(move |node| simpler(here.clone(), node)))
        .chain(repeated.into_iter().flat_map(move |tree| simpler_everywhere(everywhere.clone(), tree)));
    Box::new(all.map(|parts| parts.request(request)))
}

/// A change that takes something away.
#[derive(Clone, Copy)]
enum Edit {
    /// Without this hypothesis.
    Hypothesis(usize),
    /// Without this formula of this lent list.
    Lent(usize, usize),
    /// With the flag of this hypothesis plain.
    Flag(usize),
    /// Without this identifier, which occurs nowhere.
    Identifier(usize),
    /// With the second identifier, of the same type, in the place of the first.
    Merged(usize, usize),
}

impl Edit {
    fn on(self, parts: &Parts) -> Parts {
        let mut changed = parts.clone();
        match self {
            Edit::Hypothesis(index) => drop(changed.hypotheses.remove(index)),
            Edit::Lent(at, index) => {
                if let Lent::List(formulas) = &mut changed.lent[at] {
                    formulas.remove(index);
                }
            }
            Edit::Flag(index) => changed.hypotheses[index].flag = Flag::Plain,
            Edit::Identifier(k) => {
                changed.types.remove(k);
                renamed(&mut changed, &|other| if other > k as i64 { other - 1 } else { other });
            }
            Edit::Merged(k, earlier) => {
                renamed(&mut changed, &|other| if other == k as i64 { earlier as i64 } else { other });
            }
        }
        changed
    }
}

/// Without one hypothesis, one lent formula or one flag.
fn fewer(parts: &Parts) -> Vec<Edit> {
    let mut out: Vec<Edit> = (0..parts.hypotheses.len()).map(Edit::Hypothesis).collect();
    for (at, lent) in parts.lent.iter().enumerate() {
        if let Lent::List(formulas) = lent {
            out.extend((0..formulas.len()).map(|index| Edit::Lent(at, index)));
        }
    }
    out.extend((0..parts.hypotheses.len()).map(Edit::Flag));
    out
}

/// Without an identifier that occurs nowhere, or with one in the place of another of its type.
fn fewer_identifiers(parts: &Parts) -> Vec<Edit> {
    let mut out = Vec::new();
    for k in 0..parts.types.len() {
        if !parts.formulas().iter().any(|formula| mentions(formula, k as i64)) {
            out.push(Edit::Identifier(k));
        }
        let alike = (0..k).filter(|earlier| parts.types[*earlier] == parts.types[k]);
        out.extend(alike.map(|earlier| Edit::Merged(k, earlier)));
    }
    out
}

fn renamed(parts: &mut Parts, to: &impl Fn(i64) -> i64) {
    parts.formulas_mut().into_iter().for_each(|formula| rename(formula, to));
}

fn mentions(tree: &Tree, k: i64) -> bool {
    (tree.code == IDENTIFIER && tree.number == k) || tree.operands.iter().any(|operand| mentions(operand, k))
}

fn rename(tree: &mut Tree, to: &impl Fn(i64) -> i64) {
    if tree.code == IDENTIFIER {
        tree.number = to(tree.number);
    }
    tree.operands.iter_mut().for_each(|operand| rename(operand, to));
}

/// The place of a node: its formula, and how many nodes stand before it there.
type Place = (usize, usize);

fn nodes(parts: &Parts) -> Vec<Place> {
    let formulas = parts.formulas();
    let of =
        |(index, formula): (usize, &&Tree)| (0..size_in_nodes(formula)).map(move |before| (index, before));
    formulas.iter().enumerate().flat_map(of).collect()
}

fn size_in_nodes(tree: &Tree) -> usize {
    1 + tree.operands.iter().map(size_in_nodes).sum::<usize>()
}

/// The node before which so many stand.
fn node_at(tree: &mut Tree, mut before: usize) -> &mut Tree {
    if before == 0 {
        return tree;
    }
    before -= 1;
    for operand in &mut tree.operands {
        let nodes = size_in_nodes(operand);
        if before < nodes {
            return node_at(operand, before);
        }
        before -= nodes;
    }
    unreachable!("a formula has its nodes")
}

/// With one subformula replaced by a smaller one.
fn simpler(parts: Rc<Parts>, (formula, before): Place) -> impl Iterator<Item = Parts> {
    let mut whole = parts.formulas()[formula].clone();
    let smaller = smaller_at_root(node_at(&mut whole, before), &parts.types);
    smaller.into_iter().map(move |smaller| {
        let mut changed = (*parts).clone();
        *node_at(changed.formulas_mut().swap_remove(formula), before) = smaller;
        changed
    })
}

/// The subformulas that stand at several places.
fn repeated(parts: &Parts) -> Vec<Tree> {
    let mut met: HashMap<&Tree, usize> = HashMap::new();
    parts.formulas().into_iter().for_each(|formula| count(formula, &mut met));
    let mut repeated: Vec<Tree> =
        met.iter().filter(|(_, times)| **times > 1).map(|(tree, _)| (*tree).clone()).collect();
    // In an order of their own, so that the outcome is the same each time.
    repeated.sort_by_cached_key(|tree| tree.bytes());
    repeated
}

/// With every occurrence of one repeated subformula replaced by the same smaller one.
fn simpler_everywhere(parts: Rc<Parts>, tree: Tree) -> impl Iterator<Item = Parts> {
    let smaller = smaller_at_root(&tree, &parts.types);
    smaller.into_iter().map(move |smaller| {
        let mut changed = (*parts).clone();
        changed.formulas_mut().into_iter().for_each(|formula| replace(formula, &tree, &smaller));
        changed
    })
}

fn count<'a>(tree: &'a Tree, met: &mut HashMap<&'a Tree, usize>) {
    *met.entry(tree).or_default() += 1;
    tree.operands.iter().for_each(|operand| count(operand, met));
}

fn replace(tree: &mut Tree, old: &Tree, new: &Tree) {
    if tree == old {
        *tree = new.clone();
    } else {
        tree.operands.iter_mut().for_each(|operand| replace(operand, old, new));
    }
}

/// A leaf, an operand in the node's place, or the node without one of its counted operands.
fn smaller_at_root(tree: &Tree, types: &[u8]) -> Vec<Tree> {
    let sort = tree.row().sort;
    let mut out = match sort {
        Sort::Predicate => vec![truth(true), truth(false)],
        Sort::Expression => smaller_leaves(tree, types),
    };
    out.extend(tree.operands.iter().filter(|operand| operand.row().sort == sort).cloned());
    if matches!(tree.row().own, Own::Operands { least, .. } if tree.operands.len() > usize::from(least)) {
        for index in 0..tree.operands.len() {
            let mut operands = tree.operands.clone();
            operands.remove(index);
            out.push(tree.with_operands(operands));
        }
    }
    // A quantifier's variable may go; the reading refuses where it was still used.
    if tree.declares() > 1 {
        out.push(Tree { number: tree.number - 1, ..tree.clone() });
    }
    out.retain(|smaller| smaller != tree && smaller.size() <= tree.size());
    out
}

fn smaller_leaves(tree: &Tree, types: &[u8]) -> Vec<Tree> {
    let kind = type_of(tree, types);
    let byte = match kind {
        Type::Integer => 0,
        Type::Boolean => 1,
        Type::Set => 2,
        _ => return Vec::new(),
    };
    let named = types.iter().position(|other| *other == byte).map(|k| identifier(k as i64));
    let mut out: Vec<Tree> = named.into_iter().collect();
    match kind {
        Type::Integer if tree.code == LITERAL => {
            out.extend([0, 1, -1, tree.number / 2, tree.number.saturating_neg()].map(literal));
        }
        Type::Integer => out.push(literal(0)),
        Type::Boolean => out.push(leaf(TRUE)),
        _ => out.push(leaf(EMPTY)),
    }
    out
}

/// Bytes that cannot be read as formulas lose a half, an eighth, or one byte.
fn fewer_bytes(request: &Request) -> Vec<Request> {
    let mut out = Vec::new();
    for (index, buffer) in request.buffers.iter().enumerate() {
        for length in [buffer.len() / 2, buffer.len() / 8, 1] {
            if length == 0 {
                continue;
            }
            for start in (0..buffer.len()).step_by(length.max(buffer.len() / 256)) {
                let mut changed = request.clone();
                changed.buffers[index].drain(start..(start + length).min(buffer.len()));
                out.push(changed);
            }
        }
    }
    out
}

#[cfg(test)]
mod tests {
    use super::*;
    use paper::tree::{node, not, two};

    fn genmp(hex: &str) -> Request {
        Request::ample("genmp", vec![answers::unhex(hex).expect("hex")])
    }

    fn holds_node(tree: &Tree, code: u8) -> bool {
        tree.code == code || tree.operands.iter().any(|operand| holds_node(operand, code))
    }

    #[test]
    fn what_is_not_needed_goes() {
        // Three hypotheses, two identifiers, and one ℕ1 among them.
        let words = "5351540100020300 0000 00 10 2000 2001 02 15 2000 25 01 03 01 04 02 01 02";
        let request = genmp(&words.replace(' ', ""));
        let mut keeps = |request: &Request| {
            Parts::of(request).is_some_and(|parts| {
                parts.hypotheses.iter().any(|hypothesis| holds_node(&hypothesis.predicate, NATURAL1))
            })
        };
        assert!(keeps(&request));
        assert_eq!(shrink(&request, &mut keeps), genmp("535154010001010000001520002501"));
    }

    #[test]
    fn unreadable_bytes_shrink_too() {
        let request = Request::ample("read", vec![vec![7; 100]]);
        let small = shrink(&request, &mut |request| request.size() >= 3);
        assert_eq!(small.size(), 3);
    }

    #[test]
    fn repeated_formulas_shrink_together() {
        // x=x is hypothesis and goal; only both at once may change.
        let request = genmp("53515401000101000000102000200010 20002000".replace(' ', "").as_str());
        let mut keeps = |request: &Request| {
            Parts::of(request).is_some_and(|parts| {
                parts.hypotheses.len() == 1 && parts.formulas()[0] == parts.formulas()[1]
            })
        };
        assert!(keeps(&request));
        assert_eq!(shrink(&request, &mut keeps), genmp("5351540100000100000101"));
    }

    #[test]
    fn nothing_smaller_stays_as_it_is() {
        let request = genmp("535154010000000001");
        assert_eq!(shrink(&request, &mut |_| true), request);
    }

    #[test]
    fn each_candidate_differs_at_one_node() {
        let x = identifier(0);
        let tree = not(&node(AND, vec![two(LESS, &x, &literal(3)), truth(true), truth(false)]));
        let request = Request::ample("onepoint", vec![vec![0], tree.bytes()]);
        let made: Vec<Tree> = candidates(&request)
            .filter_map(|candidate| crate::loose::predicate(&candidate.buffers[1]))
            .collect();
        assert!(made.contains(&not(&node(AND, vec![truth(true), truth(false)]))));
        assert!(made.contains(&node(AND, tree.operands[0].operands.clone())));
        assert!(made.iter().all(|other| *other != tree && other.size() <= tree.size()));
    }

    /// Where nothing can go, a full file is given up after a while.
    #[test]
    fn a_full_file_comes_to_an_end() {
        let request = Request::ample("read", vec![crate::edges::full_file(60_000)]);
        let mut tries = 0;
        let mut keeps = |smaller: &Request| {
            tries += 1;
            smaller.size() >= 60_000
        };
        assert_eq!(shrink_within(1_000_000, &request, &mut keeps), request);
        assert!(tries > 0 && tries < 20, "{tries}");
    }
}

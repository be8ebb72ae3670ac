//! The stand-in and the two codecs.

use super::bytes::*;
use super::random::{Dice, TYPES};
use crate::formula::{Predicate, PredicateKind};
use crate::{Variant, decode, encode, run};

fn body(pred: &Predicate) -> Predicate {
    match pred.kind() {
        PredicateKind::Quantified { pred, .. } => pred.clone(),
        _ => panic!("no quantifier"),
    }
}

#[test]
fn formulas_come_back_as_they_were() {
    let mut dice = Dice(7);
    for _ in 0..2_000 {
        let formula = dice.predicate(4, 0);
        if formula.len() <= 1_024 {
            let pred = decode::predicate(&formula, &TYPES).expect("well typed");
            assert_eq!(encode::predicate(&pred), Some(formula));
        }
    }
}

#[test]
fn equality_is_that_of_the_bytes() {
    let mut dice = Dice(8);
    let formulas: Vec<Vec<u8>> = (0..150).map(|_| dice.relation(1, 0)).collect();
    let read: Vec<Predicate> = formulas.iter().map(|f| decode::predicate(f, &TYPES).unwrap()).collect();
    for i in 0..formulas.len() {
        for j in 0..formulas.len() {
            assert_eq!(read[i] == read[j], formulas[i] == formulas[j]);
        }
    }
}

#[test]
fn outward_indices() {
    let formula = forall(3, exists(1, and(&[lt(bound(0), bound(3)), lt(bound(1), bound(3))])));
    let inner = body(&decode::predicate(&formula, &[]).unwrap());
    assert_eq!(inner.dangling_bound_indices(), [0, 2]);
    assert_eq!(body(&inner).dangling_bound_indices(), [0, 1, 3]);
}

/// ∃a,b,c·∀d·a+b<c+d with b := the variable outside: a and c stay, in a block of two.
#[test]
fn instantiation_below_binders() {
    let sum = |i: u8, j: u8| plus(&[bound(i), bound(j)]);
    let formula = forall(1, exists(3, forall(1, lt(sum(3, 2), sum(1, 0)))));
    let block = body(&decode::predicate(&formula, &[]).unwrap());
    let outside = crate::formula::FormulaFactory.bound_identifier(0, None, Some(crate::formula::Type::Int));
    let result = block.instantiate(&[None, Some(outside), None]);
    assert_eq!(encode::predicate(&result), Some(exists(2, forall(1, lt(sum(2, 3), sum(1, 0))))));
}

fn is_accepted(act: &str, buffers: &[Vec<u8>]) -> bool {
    let lent: Vec<&[u8]> = buffers.iter().map(Vec::as_slice).collect();
    run(Variant::Cut, act, &lent, &[]).is_some()
}

/// One spoiled sequent for each refusal of the reader.
#[test]
fn refused_sequents_have_no_answer() {
    let good = sequent(&[INTEGER], &[(0, eq(id(0), lit(1)))], truth());
    assert!(is_accepted("read", &[good.clone()]));
    for (place, byte) in
        [(0, 0), (3, 2), (5, 65), (6, 65), (7, 1), (8, 3), (9, 3), (10, 0x18), (10, 0x20), (12, 1), (10, 0x16)]
    {
        let mut bad = good.clone();
        bad[place] = byte;
        assert!(!is_accepted("read", &[bad]), "{place} {byte}");
    }
    let hyp = (0, truth());
    assert!(!is_accepted("read", &[sequent(&[], &[hyp.clone(), hyp], truth())]));
    assert!(!is_accepted("read", &[[good.clone(), vec![1]].concat()]));
    assert!(!is_accepted("read", &[good[..good.len() - 1].to_vec()]));
}

#[test]
fn limits_of_formulas() {
    let deep = |n: usize| sequent(&[], &[], [vec![0x03; n - 1], truth()].concat());
    assert!(is_accepted("read", &[deep(32)]) && !is_accepted("read", &[deep(33)]));
    // Thirty conjunctions of 34 bytes and a head of two are 1,022 bytes; each ¬ is one more.
    let wide =
        |negations: usize| sequent(&[], &[], [vec![0x03; negations], and(&vec![and(&vec![truth(); 32]); 30])].concat());
    assert!(is_accepted("read", &[wide(2)]) && !is_accepted("read", &[wide(3)]));
    let conjuncts = |n: u8| sequent(&[], &[], [vec![0x04, n], vec![1; n.into()]].concat());
    assert_eq!([1, 2, 32, 33].map(|n| is_accepted("read", &[conjuncts(n)])), [false, true, true, false]);
}

/// ℕ and ℕ1 stand at the right of ∈ alone.
#[test]
fn naturals_have_one_place() {
    let naturals = vec![0x24];
    let read = |goal: Vec<u8>| is_accepted("read", &[sequent(&[SET], &[], goal)]);
    assert!(read(in_naturals(lit(1))));
    assert!(!read(eq(naturals.clone(), naturals.clone())));
    assert!(!read(rel(0x17, id(0), naturals.clone())));
    assert!(!read(eq(maplet(naturals.clone(), lit(1)), maplet(naturals, lit(1)))));
}

#[test]
fn unknown_acts_and_wrong_numbers_of_buffers_have_no_answer() {
    let good = sequent(&[], &[], truth());
    assert!(!is_accepted("reed", &[good.clone()]));
    assert!(!is_accepted("read", &[good.clone(), good.clone()]));
    assert!(!is_accepted("modify", &[good.clone(), list(&[]), list(&[]), list(&[truth(), truth()])]));
    assert!(!is_accepted("select", &[good, vec![]]));
}

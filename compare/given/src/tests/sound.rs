//! Truth, by running: what a step of either variant keeps, and where one-point does not.

use super::answer;
use super::bytes::*;
use super::meaning::{Valuation, Value};
use super::random::{Dice, TYPES};
use crate::Variant;
use crate::decode;
use crate::formula::{FormulaRef, Predicate, PredicateKind};
use answers::Part;

fn read(formula: &[u8], types: &[u8]) -> Predicate {
    decode::predicate(formula, types).expect("an accepted formula")
}

fn bytes_of(part: &Part) -> &[u8] {
    match part {
        Part::Bytes(bytes) => bytes,
        Part::Number(_) => panic!("no bytes"),
    }
}

fn is_refuted(valuation: &Valuation, sequent: &[u8]) -> bool {
    let file = decode::sequent(sequent).expect("an accepted sequent");
    file.hyps.iter().all(|hyp| valuation.holds(&hyp.pred)) && !valuation.holds(&file.goal)
}

/// Duty 3's law, and that enough of the random steps do something.
fn assert_refutations_stay(variant: Variant) {
    let mut dice = Dice(0x5eed);
    let mut steps = 0;
    for _ in 0..1_000 {
        let before = dice.sequent();
        let Ok(parts) = answer(variant, "genmp", &[before.clone()]) else {
            continue;
        };
        steps += 1;
        for _ in 0..30 {
            let valuation = dice.valuation();
            assert_eq!(is_refuted(&valuation, &before), is_refuted(&valuation, bytes_of(&parts[0])), "{before:02x?}");
        }
    }
    assert!(steps > 300, "{steps}");
}

#[test]
fn genmp_keeps_refuting_valuations() {
    assert_refutations_stay(Variant::Unchanged);
    assert_refutations_stay(Variant::Cut);
}

/// Integer relations over x, y and literals, some of them a unary minus over one.
fn relations() -> Vec<Vec<u8>> {
    let terms = [id(0), id(1), lit(0), lit(1), lit(2), lit(-1), minus(lit(1)), minus(lit(0))];
    let mut all = Vec::new();
    for l in &terms {
        for r in &terms {
            all.extend([EQ, LT, LE, GT, GE].map(|code| rel(code, l.clone(), r.clone())));
        }
        all.extend([in_naturals(l.clone()), in_naturals1(l.clone())]);
    }
    all
}

/// Each source, true and false, against each relation: a value put in its place is its value
/// wherever the source holds.
fn assert_keys_are_sound(variant: Variant) {
    let integers = [INTEGER, INTEGER];
    let targets = relations();
    for source in relations().into_iter().flat_map(|p| [p.clone(), not(p)]) {
        for some in targets.chunks(32) {
            let before = sequent(&integers, &[(0, source.clone())], and(some));
            let Ok(parts) = answer(variant, "genmp", &[before.clone()]) else {
                continue;
            };
            let after = decode::sequent(bytes_of(&parts[0])).unwrap();
            let before = decode::sequent(&before).unwrap();
            assert_same_under_hypothesis(&before.hyps[0].pred, &before.goal, &after.goal);
        }
    }
}

fn assert_same_under_hypothesis(source: &Predicate, before: &Predicate, after: &Predicate) {
    for (x, y) in (-3..=3).flat_map(|x| (-3..=3).map(move |y| (x, y))) {
        let valuation =
            Valuation { low: 0, high: 0, identifiers: vec![Value::Integer(x), Value::Integer(y)], chosen: Vec::new() };
        if valuation.holds(source) {
            for (old, new) in conjuncts(before).iter().zip(conjuncts(after)) {
                assert_eq!(valuation.holds(old), valuation.holds(new), "{source:?}: {old:?}, {new:?}");
            }
        }
    }
}

fn conjuncts(pred: &Predicate) -> &[Predicate] {
    match pred.kind() {
        PredicateKind::Associative { children, .. } => children,
        _ => panic!("no conjunction"),
    }
}

#[test]
fn every_key_is_sound() {
    assert_keys_are_sound(Variant::Unchanged);
    assert_keys_are_sound(Variant::Cut);
}

/// How many of ∀ and ∃ occur.
fn kinds_of_quantifiers(pred: &Predicate) -> usize {
    let mut kinds = std::collections::HashSet::new();
    pred.positions(&mut |node| {
        if let FormulaRef::Pred(p) = node
            && let PredicateKind::Quantified { op, .. } = p.kind()
        {
            kinds.insert(*op);
        }
        false
    });
    kinds.len()
}

fn declared(pred: &Predicate) -> usize {
    match pred.kind() {
        PredicateKind::Quantified { decls, .. } => decls.len(),
        _ => 0,
    }
}

/// A quantifier whose scan has a good chance to find an equality.
fn one_point_formula(dice: &mut Dice) -> Vec<u8> {
    let n = 1 + dice.roll(3) as u8;
    let equality = eq(
        bound(dice.roll(n.into()) as u8),
        [id(0), lit(1), bound(dice.roll(n.into()) as u8)][dice.roll(3) as usize].clone(),
    );
    let other =
        [dice.predicate(1, n), not(not(dice.predicate(1, n))), dice.quantified(1, n)][dice.roll(3) as usize].clone();
    match dice.roll(4) {
        0 => exists(n, and(&[equality, other])),
        1 => exists(n, and(&[other, equality])),
        2 => forall(n, imp(equality, other)),
        _ => forall(n, or(&[other, not(equality)])),
    }
}

/// Document 01's premise: the replacement lies in the interval for every choice of the variables.
fn premise(valuation: &Valuation, variables: usize, replacement: &crate::formula::Expression) -> bool {
    let within = |v: &Valuation| matches!(v.value(replacement), Value::Integer(n) if v.low <= n && n <= v.high);
    valuation.choices(variables).iter().all(within)
}

/// Truth stays unless unlike blocks are joined; that they are is D-JOIN-UNLIKE.
#[test]
fn one_point_keeps_truth_where_it_does_not_join() {
    let mut dice = Dice(0xface);
    let (mut found, mut broken) = (0, 0);
    for _ in 0..1_200 {
        let formula = one_point_formula(&mut dice);
        let before = read(&formula, &TYPES);
        let Some((after, replacement)) = crate::reasoners::one_point::one_point_inference_with_replacement(&before)
        else {
            continue;
        };
        found += 1;
        let variables = declared(&before);
        for _ in 0..10 {
            let valuation = dice.valuation();
            if premise(&valuation, variables, &replacement) && valuation.holds(&before) != valuation.holds(&after) {
                let may_join_unlike = declared(&after) >= variables && kinds_of_quantifiers(&before) == 2;
                assert!(may_join_unlike, "another truth value: {formula:02x?}");
                broken += 1;
            }
        }
    }
    assert!(found > 600 && broken > 0, "{found} {broken}");
}

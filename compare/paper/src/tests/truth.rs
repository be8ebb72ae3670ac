//! The meaning, and what the two reasoners keep of it, by brute force.

use std::collections::BTreeSet;

use super::random::{Random, TYPES};
use super::*;
use crate::meaning::{choices, holds, refutes, value, TooLarge, Valuation, Value};
use crate::sequent::{Flag, Hypothesis, Sequent};
use crate::tree::{binder, bound, leaf, not, truth};
use crate::{genmp, one_point};

fn set(members: &[i128]) -> Value {
    Value::Set(members.iter().copied().collect::<BTreeSet<_>>())
}

fn valuation(lo: i128, hi: i128, identifiers: Vec<Value>) -> Valuation {
    Valuation { lo, hi, identifiers }
}

fn is(expected: bool, valuation: &Valuation, predicate: &Tree) {
    assert_eq!(holds(valuation, predicate), Ok(expected), "{predicate:?}");
}

#[test]
fn the_first_declared_variable_is_the_outermost() {
    let here = valuation(0, 2, vec![]);
    // ∃a·∀b·(a=0∨b=5), with a as index 1 and b as 0; then the two exchanged.
    let body = |a: i64, b: i64| or(&[equals(&bound(a), 0), equals(&bound(b), 5)]);
    let nested = |body: Tree| binder(EXISTS, 1, vec![binder(FORALL, 1, vec![body])]);
    is(true, &here, &nested(body(1, 0)));
    is(false, &here, &nested(body(0, 1)));
}

#[test]
fn a_comprehension_collects_over_all_choices() {
    // {a,b · a<b ∣ b−a} over 0..2 is {1,2}.
    let here = valuation(0, 2, vec![set(&[1, 2])]);
    let difference = two(MINUS, &bound(0), &bound(1));
    let made = binder(COMPREHENSION, 2, vec![two(LESS, &bound(1), &bound(0)), difference]);
    is(true, &here, &two(EQUAL, &made, &identifier(0)));
}

fn some_sets() -> Valuation {
    valuation(0, 0, vec![set(&[1, 2]), set(&[1, 2]), set(&[1]), Value::Number(0)])
}

fn s(k: i64) -> Tree {
    identifier(k)
}

#[test]
fn relations_of_sets() {
    let here = some_sets();
    is(false, &here, &two(SUBSET, &s(0), &s(1)));
    is(true, &here, &two(SUBSET_EQUAL, &s(0), &s(1)));
    is(true, &here, &two(SUBSET, &s(2), &s(1)));
    is(false, &here, &two(SUBSET, &s(1), &s(2)));
    is(true, &here, &two(SUBSET, &leaf(EMPTY), &s(2)));
    is(true, &here, &two(IN, &s(3), &leaf(NATURAL)));
    is(false, &here, &two(IN, &s(3), &leaf(NATURAL1)));
}

#[test]
fn expressions_of_sets_truth_and_pairs() {
    let here = some_sets();
    is(true, &here, &two(EQUAL, &two(DIFFERENCE, &s(0), &s(2)), &node(EXTENSION, vec![literal(2)])));
    is(true, &here, &two(EQUAL, &node(INTERSECTION, vec![s(0), s(2), s(1)]), &s(2)));
    is(true, &here, &two(EQUAL, &node(UNION, vec![leaf(EMPTY), s(2), s(1)]), &s(0)));
    is(true, &here, &two(EQUAL, &node(BOOL, vec![truth(false)]), &leaf(FALSE)));
    is(false, &here, &two(EQUAL, &two(MAPLET, &s(3), &s(0)), &two(MAPLET, &s(3), &s(2))));
}

#[test]
fn arithmetic_does_not_wrap() {
    let here = valuation(0, 0, vec![]);
    let large = literal(i64::MIN);
    is(true, &here, &two(LESS, &node(PLUS, vec![large.clone(), large.clone()]), &large));
    is(true, &here, &two(LESS, &literal(i64::MAX), &node(NEGATIVE, vec![large.clone()])));
    let huge = node(TIMES, vec![large.clone(), large.clone(), large]);
    assert_eq!(value(&here, &[], &huge), Err(TooLarge));
}

#[test]
fn a_valuation_refutes_by_all_hypotheses() {
    let hypothesis = |flag: Flag, predicate: Tree| Hypothesis { flag, predicate };
    let hypotheses = vec![hypothesis(Flag::Hidden, equals(&x(), 1)), hypothesis(Flag::Plain, truth(true))];
    let sequent = Sequent { types: vec![0], hypotheses, goal: equals(&x(), 2) };
    let with = |number: i128| refutes(&valuation(0, 0, vec![Value::Number(number)]), &sequent);
    assert_eq!([with(0), with(1), with(2)], [Ok(false), Ok(true), Ok(false)]);
}

/// Valuations of the random formulas' identifiers.
fn valuations() -> Vec<Valuation> {
    let sets = [set(&[]), set(&[0]), set(&[0, 1]), set(&[-1])];
    let mut out = Vec::new();
    for first in -2..=2 {
        for second in -2..=2 {
            for (index, left) in sets.iter().enumerate() {
                for right in &sets {
                    let truth = Value::Truth((first + second + index as i128) % 2 == 0);
                    let (lo, hi) = [(0, 1), (-1, 1), (1, 1)][out.len() % 3];
                    let identifiers =
                        vec![Value::Number(first), Value::Number(second), left.clone(), right.clone(), truth];
                    out.push(valuation(lo, hi, identifiers));
                }
            }
        }
    }
    out
}

/// A relation that may say much of another: like sides, other code, perhaps turned or under ¬.
fn cousin(random: &mut Random, of: &Tree) -> Tree {
    let (l, r) = (of.operands[0].clone(), of.operands[1].clone());
    let zero = literal(0);
    let natural = leaf(random.pick(&[NATURAL, NATURAL1]));
    let order = random.pick(&[EQUAL, LESS, LESS_EQUAL, GREATER, GREATER_EQUAL]);
    let inclusion = random.pick(&[EQUAL, SUBSET, SUBSET_EQUAL]);
    let made = match crate::types::type_of(&l, &TYPES) {
        crate::types::Type::Integer if of.code == IN || random.under(4) == 0 => match random.under(3) {
            0 => two(IN, &l, &natural),
            1 => two(order, &zero, &l),
            _ => two(order, &l, &zero),
        },
        crate::types::Type::Integer if random.under(2) == 0 => two(order, &l, &r),
        crate::types::Type::Integer => two(order, &r, &l),
        crate::types::Type::Set if random.under(2) == 0 => two(inclusion, &l, &r),
        crate::types::Type::Set => two(inclusion, &r, &l),
        _ => two(EQUAL, &r, &l),
    };
    if random.under(4) == 0 {
        not(&made)
    } else {
        made
    }
}

/// A predicate around cousins of the given relations.
fn around(random: &mut Random, relations: &[Tree]) -> Tree {
    let picked = random.pick(relations);
    let first = cousin(random, &picked);
    let picked = random.pick(relations);
    let second = cousin(random, &picked);
    let flag = two(EQUAL, &node(BOOL, vec![first.clone()]), &identifier(4));
    match random.under(8) {
        0 => and(&[first, second]),
        1 => or(&[first, second]),
        2 => implies(&first, &second),
        3 => two(IFF, &first, &second),
        4 => binder(EXISTS, 1, vec![and(&[second, two(LESS_EQUAL, &bound(0), &x())])]),
        5 => flag,
        _ => first,
    }
}

fn random_sequent(random: &mut Random) -> Sequent {
    let relations: Vec<Tree> = (0..2).map(|_| random.relation(1, 0)).collect();
    let mut hypotheses: Vec<Hypothesis> = Vec::new();
    for _ in 0..random.under(5) {
        let predicate = around(random, &relations);
        let flag = random.pick(&[Flag::Plain, Flag::Plain, Flag::Selected, Flag::Hidden]);
        if !hypotheses.iter().any(|hypothesis| hypothesis.predicate == predicate) {
            hypotheses.push(Hypothesis { flag, predicate });
        }
    }
    Sequent { types: TYPES.to_vec(), hypotheses, goal: around(random, &relations) }
}

#[test]
fn genmp_keeps_exactly_the_refuting_valuations() {
    let mut random = Random(2024);
    let valuations = valuations();
    let mut steps = 0;
    let mut refuted = 0;
    for _ in 0..6000 {
        let before = random_sequent(&mut random);
        let Ok(step) = genmp::step(&before) else {
            continue;
        };
        steps += 1;
        for valuation in &valuations {
            let refuting = refutes(valuation, &before).expect("small numbers");
            refuted += usize::from(refuting);
            assert_eq!(refutes(valuation, &step.sequent), Ok(refuting), "{before:?} {valuation:?}");
        }
    }
    assert!(steps > 1500 && refuted > 10_000, "{steps} steps, {refuted} refuted");
}

/// A body in which a variable is often equal to something, at either polarity.
fn random_body(random: &mut Random, depth: usize, variables: usize) -> Tree {
    let number = random.number(1, variables);
    let equality = two(EQUAL, &bound(random.under(variables) as i64), &number);
    if depth == 0 {
        return if random.under(2) == 0 { equality } else { random.predicate(1, variables) };
    }
    let first = random_body(random, depth - 1, variables);
    let second = random_body(random, depth - 1, variables);
    let other = random.number(0, variables);
    match random.under(7) {
        0 => not(&first),
        1 => and(&[first, second]),
        2 => or(&[first, second]),
        3 => implies(&first, &second),
        4 => binder(random.pick(&[FORALL, EXISTS]), 1, vec![random.predicate(1, variables + 1)]),
        5 => two(EQUAL, &two(MAPLET, &bound(0), &number), &two(MAPLET, &other, &number)),
        _ => not(&not(&second)),
    }
}

/// A body that leaves a quantifier alone once its find is gone.
fn joining_body(random: &mut Random, kind: u8, variables: usize) -> Tree {
    let inner_kind = random.pick(&[kind, FORALL, EXISTS]);
    let inner = binder(inner_kind, 1, vec![random.predicate(2, variables + 1)]);
    let find = two(EQUAL, &bound(0), &random.number(1, variables));
    if kind == EXISTS {
        and(&[inner, find])
    } else {
        implies(&find, &inner)
    }
}

/// Whether the replacement lies in lo..hi for all choices of the variables.
fn premise(valuation: &Valuation, variables: usize, replacement: &Tree) -> bool {
    choices(valuation, variables).iter().all(|chosen| match value(valuation, chosen, replacement) {
        Ok(Value::Number(number)) => (valuation.lo..=valuation.hi).contains(&number),
        other => panic!("{other:?}"),
    })
}

#[test]
fn one_point_keeps_truth_under_its_premise() {
    let mut random = Random(4711);
    let valuations: Vec<Valuation> = valuations().into_iter().step_by(7).collect();
    let (mut finds, mut kept, mut joins) = (0, 0, 0);
    for _ in 0..12_000 {
        let variables = 1 + random.under(3);
        let kind = random.pick(&[FORALL, EXISTS]);
        let body = match random.under(4) {
            0 => joining_body(&mut random, kind, variables),
            _ => random_body(&mut random, 2, variables),
        };
        let predicate = binder(kind, variables, vec![body]);
        let Ok(inferred) = one_point::infer(&predicate) else {
            continue;
        };
        finds += 1;
        joins += usize::from(variables > 1 && inferred.result.declares() >= variables);
        assert!(crate::read::predicate(&inferred.result.bytes(), 0, &TYPES).is_ok());
        for valuation in &valuations {
            if premise(valuation, variables, &inferred.replacement) {
                kept += 1;
                assert_eq!(holds(valuation, &predicate), holds(valuation, &inferred.result), "{predicate:?}");
            }
        }
    }
    assert!(finds > 2000 && kept > 20_000 && joins > 200, "{finds} finds, {kept} kept, {joins} joins");
}

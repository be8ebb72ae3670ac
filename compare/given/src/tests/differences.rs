//! The classes of docs/DIFFERENCES.md, by running: what the cut lists (document 01) and the unchanged
//! files answer. The page's own blocks are run by the crate `compare`.

use super::bytes::*;
use super::meaning::Valuation;
use super::{answer, changed, pair, refused};
use crate::formula::PredicateKind;
use crate::{Variant, decode, encode};
use answers::Part;

const TYPES: [u8; 2] = [INTEGER, BOOLEAN];

fn x() -> Vec<u8> {
    id(0)
}

/// The new goal of one step from one plain hypothesis, none where the step is refused with 13.
fn goal_after(variant: Variant, hyp: &[u8], goal: &[u8]) -> Option<Vec<u8>> {
    let before = sequent(&TYPES, &[(0, hyp.to_vec())], goal.to_vec());
    let answer = answer(variant, "genmp", &[before]);
    if answer == refused(13) {
        return None;
    }
    let Ok([Part::Bytes(sequent), _]) = answer.as_deref() else {
        panic!("no step: {answer:?}");
    };
    Some(sequent[8 + TYPES.len() + 1 + hyp.len()..].to_vec())
}

/// Document 01 gives `cut` for the goal and the given files `unchanged`.
fn assert_differs(hyp: Vec<u8>, goal: Vec<u8>, cut: Option<u8>, unchanged: Option<u8>) {
    let of = |literal: Option<u8>| literal.map(|byte| vec![byte]);
    assert_eq!(goal_after(Variant::Cut, &hyp, &goal), of(cut), "01: {hyp:02x?} {goal:02x?}");
    assert_eq!(goal_after(Variant::Unchanged, &hyp, &goal), of(unchanged), "Rust: {hyp:02x?} {goal:02x?}");
}

/// D-JOIN-UNLIKE: ∀x,y·(y=x⇒∃z·z∈ℕ1) is true over −1..1; joined, ∀x,z·z∈ℕ1, it is false.
#[test]
fn unlike_blocks_are_joined() {
    let before = forall(2, imp(eq(bound(0), bound(1)), exists(1, in_naturals1(bound(0)))));
    let after = forall(2, in_naturals1(bound(0)));
    assert_eq!(answer(Variant::Unchanged, "onepoint", &[vec![], before.clone()]), pair(after.clone(), bound(1)));
    let valuation = Valuation { low: -1, high: 1, identifiers: vec![], chosen: vec![] };
    let holds = |formula: &[u8]| valuation.holds(&decode::predicate(formula, &[]).unwrap());
    assert_eq!([holds(&before), holds(&after)], [true, false]);
}

/// D-NOT-NATURAL-NOT-ZERO: only document 01 draws x≠0 from x∉ℕ.
#[test]
fn not_natural_is_not_zero() {
    for goal in [eq(x(), lit(0)), eq(lit(0), x())] {
        assert_differs(not(in_naturals(x())), goal, Some(FALSITY), None);
    }
}

/// D-ZERO-FORMS: only the Rust takes x∈ℕ and x∈ℕ1 from comparisons with 0, 1 and −1.
#[test]
fn zero_forms() {
    let natural = [rel(LE, lit(0), x()), rel(GE, x(), lit(0)), lt(lit(-1), x()), rel(GT, x(), lit(-1))];
    for hyp in natural {
        assert_differs(hyp, in_naturals(x()), None, Some(TRUTH));
    }
    for hyp in [lt(lit(0), x()), rel(GT, x(), lit(0))] {
        assert_differs(hyp, in_naturals1(x()), None, Some(TRUTH));
    }
    for hyp in [lt(x(), lit(0)), rel(LE, x(), lit(-1)), rel(GT, lit(0), x()), rel(GE, lit(-1), x())] {
        assert_differs(hyp, in_naturals(x()), None, Some(FALSITY));
    }
    for hyp in [lt(x(), lit(1)), rel(LE, x(), lit(0)), rel(GT, lit(1), x()), rel(GE, lit(0), x())] {
        assert_differs(hyp, in_naturals1(x()), None, Some(FALSITY));
    }
}

/// D-LITERAL-MOVED: only the Rust moves an order's literal by one.
#[test]
fn literals_moved_by_one() {
    assert_differs(lt(x(), lit(3)), rel(LE, x(), lit(2)), None, Some(TRUTH));
    assert_differs(rel(LE, x(), lit(2)), lt(x(), lit(3)), None, Some(TRUTH));
    assert_differs(rel(LE, lit(3), x()), lt(lit(2), x()), None, Some(TRUTH));
    assert_differs(lt(x(), lit(3)), rel(GT, x(), lit(2)), None, Some(FALSITY));
    assert_differs(in_naturals1(x()), rel(LE, lit(1), x()), None, Some(TRUTH));
    assert_differs(eq(x(), lit(0)), lt(x(), lit(1)), None, Some(TRUTH));
}

/// D-MOVED-BELOW-ZERO: the Rust makes a negative literal as a unary minus, so that it misses node 22.
#[test]
fn negative_literals_are_made_as_unary_minus() {
    assert_differs(lt(x(), lit(0)), rel(LE, x(), minus(lit(1))), None, Some(TRUTH));
    assert_differs(lt(x(), lit(0)), rel(LE, x(), lit(-1)), None, None);
}

/// D-MINUS-LITERAL: only the Rust sees a literal below a unary minus.
#[test]
fn unary_minus_over_a_literal() {
    assert_differs(eq(x(), minus(lit(0))), in_naturals1(x()), None, Some(FALSITY));
    assert_differs(not(lt(minus(lit(5)), x())), in_naturals(x()), None, Some(FALSITY));
    assert_differs(lt(minus(lit(-5)), x()), in_naturals(x()), None, Some(TRUTH));
}

/// D-ABOVE-POSITIVE: only the Rust's ⊥ list of l≤x, l<x with l positive knows that x is not below 1.
#[test]
fn above_a_positive_literal() {
    for hyp in [rel(LE, lit(5), x()), lt(lit(5), x()), rel(GE, x(), lit(5)), rel(GT, x(), lit(5))] {
        for goal in [lt(x(), lit(0)), rel(GT, lit(0), x()), rel(LE, x(), lit(0)), rel(GE, lit(0), x())] {
            assert_differs(hyp.clone(), goal, None, Some(FALSITY));
        }
        assert_differs(hyp, in_naturals1(x()), Some(TRUTH), Some(TRUTH));
    }
}

/// D-BELOW-NEGATIVE: its mirror, ¬(l≤x), ¬(l<x) with l negative.
#[test]
fn not_above_a_negative_literal() {
    for hyp in [rel(LE, lit(-5), x()), lt(lit(-5), x()), rel(GE, x(), lit(-5)), rel(GT, x(), lit(-5))] {
        for goal in [lt(x(), lit(0)), rel(GT, lit(0), x()), rel(LE, x(), lit(0)), rel(GE, lit(0), x())] {
            assert_differs(not(hyp.clone()), goal, None, Some(TRUTH));
        }
        assert_differs(not(hyp), in_naturals(x()), Some(FALSITY), Some(FALSITY));
    }
}

/// D-TRUE-FALSE: only the Rust knows that what is TRUE is not FALSE.
#[test]
fn truth_values_exclude_each_other() {
    let (b, yes, no) = (id(1), vec![0x31], vec![0x32]);
    assert_differs(eq(b.clone(), yes.clone()), eq(b.clone(), no.clone()), None, Some(FALSITY));
    assert_differs(not(eq(b.clone(), yes.clone())), eq(no.clone(), b.clone()), None, Some(TRUTH));
    assert_differs(eq(no, b.clone()), eq(yes, b), None, Some(FALSITY));
}

/// D-OTHER-VALUE: below a hypothesis that cannot hold, the two orders of keys put different values.
#[test]
fn first_entry_of_an_impossible_hypothesis() {
    assert_differs(rel(LE, lit(1), lit(0)), lt(lit(0), lit(1)), Some(FALSITY), Some(TRUTH));
    let minus_one = minus(lit(1));
    assert_differs(not(lt(minus_one.clone(), lit(0))), rel(LE, lit(0), minus_one), Some(TRUTH), Some(FALSITY));
}

/// D-LIMITS: the Rust has no limits; document 01 answers 14.
#[test]
fn results_beyond_the_limits() {
    let hyps: Vec<(u8, Vec<u8>)> = (0..65).map(|i| (u8::from(i == 64), eq(x(), lit(i)))).collect();
    let before = sequent(&TYPES, &hyps[..64], falsity());
    let forward = answer(Variant::Unchanged, "forward", &[before, list(&[]), list(&[hyps[64].1.clone()])]);
    assert_eq!(forward, changed(1, sequent(&TYPES, &hyps, falsity())));
    let nine = exists(2, and(&[eq(bound(0), bound(1)), exists(8, truth())]));
    assert_eq!(answer(Variant::Unchanged, "onepoint", &[vec![], nine]), pair(exists(9, truth()), bound(1)));
    let wide = exists(1, eq(maplet(bound(0), maplets(5)), maplet(lit(1), maplets(5))));
    let split = and(&vec![eq(vec![0x31], vec![0x31]); 32]);
    assert_eq!(answer(Variant::Unchanged, "onepoint", &[vec![], wide]), pair(split, lit(1)));
    let wider = exists(1, eq(maplet(bound(0), maplets(6)), maplet(lit(1), maplets(6))));
    let split = and(&vec![eq(vec![0x31], vec![0x31]); 64]);
    assert_eq!(answer(Variant::Unchanged, "onepoint", &[vec![], wider]), pair(split, lit(1)));
}

/// A balanced tree of ↦ over TRUE.
fn maplets(levels: u32) -> Vec<u8> {
    if levels == 0 { vec![0x31] } else { maplet(maplets(levels - 1), maplets(levels - 1)) }
}

/// Relations between two terms of one sort, an identifier among them.
fn relations() -> Vec<Vec<u8>> {
    let integers = [x(), lit(0), lit(1), lit(2), lit(-1), lit(-2), minus(lit(1)), minus(lit(0))];
    let sets = [id(2), id(3), vec![0x23]];
    let truth_values = [id(1), vec![0x31], vec![0x32]];
    let sorts: [(&[Vec<u8>], &[u8]); 3] =
        [(&integers, &[EQ, LT, LE, GT, GE]), (&sets, &[EQ, 0x16, 0x17]), (&truth_values, &[EQ])];
    let mut all = vec![in_naturals(x()), in_naturals1(x())];
    for (terms, codes) in sorts {
        for (l, r) in terms.iter().flat_map(|l| terms.iter().map(move |r| (l, r))) {
            if l[0] == 0x20 || r[0] == 0x20 {
                all.extend(codes.iter().map(|code| rel(*code, l.clone(), r.clone())));
            }
        }
    }
    all
}

/// The goal's conjuncts after a step from one hypothesis, as they were where it is refused.
fn conjuncts_after(variant: Variant, hyp: &[u8], conjuncts: &[Vec<u8>]) -> Vec<Vec<u8>> {
    let types = [INTEGER, BOOLEAN, SET, SET];
    let before = sequent(&types, &[(0, hyp.to_vec())], and(conjuncts));
    let Ok(parts) = answer(variant, "genmp", &[before]) else {
        return conjuncts.to_vec();
    };
    let [Part::Bytes(after), _] = parts.as_slice() else {
        panic!("no sequent");
    };
    match decode::sequent(after).unwrap().goal.kind() {
        PredicateKind::Associative { children, .. } => {
            children.iter().map(|child| encode::predicate(child).unwrap()).collect()
        }
        other => panic!("no conjunction: {other:?}"),
    }
}

/// D-NOT-NATURAL-NOT-ZERO again: everywhere else, what the cut lists replace the Rust replaces, with one value.
#[test]
fn document_01_adds_one_pair_of_keys() {
    let targets = relations();
    let mut added = Vec::new();
    for source in targets.iter().flat_map(|source| [source.clone(), not(source.clone())]) {
        for some in targets.chunks(32) {
            let cut = conjuncts_after(Variant::Cut, &source, some);
            let unchanged = conjuncts_after(Variant::Unchanged, &source, some);
            for ((target, ours), theirs) in some.iter().zip(cut).zip(unchanged) {
                if ours != *target && ours != theirs {
                    added.push((source.clone(), target.clone()));
                }
            }
        }
    }
    let not_natural = not(in_naturals(x()));
    assert_eq!(added, [(not_natural.clone(), eq(x(), lit(0))), (not_natural, eq(lit(0), x()))]);
}

//! The easy slips of the genMP step, each by an input that tells it apart.

use super::*;
use crate::tree::{leaf, not, truth};

/// Keys come from the hypotheses as they were, not as an earlier act left them.
#[test]
fn keys_are_taken_at_the_start() {
    // Hypothesis 1 is rewritten to ⊤⇒y=2, yet its old form is the key that hypothesis 2 meets.
    let first = equals(&x(), 1);
    let second = implies(&first, &equals(&y(), 2));
    let third = or(&[second.clone(), truth(false)]);
    let fourth = or(&[implies(&truth(true), &equals(&y(), 2)), truth(false)]);
    let hypotheses = [(0, first.clone()), (0, second.clone()), (0, third.clone()), (0, fourth.clone())];
    let (sequent, report) = both("genmp", &[&file(&[0, 0], &hypotheses, &truth(false))]);
    let after = [
        (0, first),
        (1, second),
        (1, third),
        (0, fourth),
        (0, implies(&truth(true), &equals(&y(), 2))),
        (0, or(&[truth(true), truth(false)])),
    ];
    assert_eq!(sequent, file(&[0, 0], &after, &truth(false)));
    assert_eq!(report, unhex("03 00 02 01 02 00 01 04 02 02 01 02 05"));
}

/// Below a blocked match children are still visited.
#[test]
fn children_of_a_blocked_match_are_visited() {
    let hypothesis = not(&or(&[equals(&x(), 1), equals(&x(), 2)]));
    let (sequent, report) = both("genmp", &[&file(&[0], &[(0, hypothesis.clone())], &equals(&x(), 2))]);
    let inferred = not(&or(&[equals(&x(), 1), truth(false)]));
    assert_eq!(sequent, file(&[0], &[(1, hypothesis), (0, inferred)], &equals(&x(), 2)));
    assert_eq!(report, unhex("02 00 01 00 01 00 01"));
}

/// Goal entries are blocked in the goal, and a later hypothesis entry is not tried instead.
#[test]
fn goal_entries_are_not_used_in_the_goal() {
    let goal = or(&[equals(&x(), 1), equals(&x(), 1)]);
    assert_eq!(refused("genmp", &[&file(&[0], &[], &goal)], &[ROOM, ROOM]), (13, 0));
}

/// The first entry wins for good: where it is blocked, the goal's entry for the same key is not used.
#[test]
fn a_blocked_first_entry_hides_later_ones() {
    let hypothesis = equals(&x(), 1);
    let goal = not(&or(&[equals(&x(), 1), equals(&x(), 2)]));
    let (sequent, report) = both("genmp", &[&file(&[0], &[(0, hypothesis.clone())], &goal)]);
    // Neither the root of hypothesis 0 nor anything in it changes; x=2 is no key of x=1.
    assert_eq!(sequent, file(&[0], &[(0, hypothesis)], &not(&or(&[truth(true), equals(&x(), 2)]))));
    assert_eq!(report, unhex("01 01 00 00"));
}

/// Hidden hypotheses give no keys and are not rewritten.
#[test]
fn hidden_hypotheses_take_no_part() {
    let hidden = equals(&x(), 1);
    let also_hidden = or(&[equals(&x(), 2), equals(&x(), 1)]);
    let before = file(&[0], &[(1, hidden), (1, also_hidden)], &equals(&x(), 1));
    assert_eq!(refused("genmp", &[&before], &[ROOM, ROOM]), (13, 0));
}

/// An inferred formula equal to a hidden hypothesis is not appended and stays hidden.
#[test]
fn an_inferred_formula_may_be_there_already() {
    let less = two(LESS, &x(), &y());
    let less_equal = two(LESS_EQUAL, &x(), &y());
    let hypotheses = [(1, truth(true)), (2, less.clone()), (0, less_equal.clone())];
    let (sequent, report) = both("genmp", &[&file(&[0, 0], &hypotheses, &truth(false))]);
    let after = [(1, truth(true)), (2, less), (1, less_equal)];
    assert_eq!(sequent, file(&[0, 0], &after, &truth(false)));
    assert_eq!(report, unhex("03 00 01 02 02 01 02 00"));
}

/// Predicates inside bool and inside a comprehension's guard and value are visited.
#[test]
fn predicates_inside_expressions_are_visited() {
    let known = equals(&x(), 1);
    let inside = two(EQUAL, &node(BOOL, vec![known.clone()]), &leaf(TRUE));
    let (sequent, _) = both("genmp", &[&file(&[0], &[(0, known.clone())], &inside)]);
    let goal = two(EQUAL, &node(BOOL, vec![truth(true)]), &leaf(TRUE));
    assert_eq!(sequent, file(&[0], &[(0, known.clone())], &goal));
    let set =
        |guard: &Tree| crate::tree::binder(COMPREHENSION, 1, vec![guard.clone(), crate::tree::bound(0)]);
    let member = |guard: &Tree| two(IN, &x(), &set(guard));
    let (sequent, _) = both("genmp", &[&file(&[0], &[(0, known.clone())], &member(&known))]);
    assert_eq!(sequent, file(&[0], &[(0, known)], &member(&truth(true))));
}

/// Origins come in the order met, without repeats, and are not sorted.
#[test]
fn origins_come_in_the_order_met() {
    let (first, second) = (equals(&x(), 1), equals(&y(), 2));
    let goal = and(&[second.clone(), first.clone(), second.clone()]);
    let (_, report) = both("genmp", &[&file(&[0, 0], &[(0, first), (0, second)], &goal)]);
    assert_eq!(report, unhex("01 02 01 00 00"));
}

/// The first of two hypotheses for one key is the origin.
#[test]
fn the_first_entry_for_a_predicate_wins() {
    let (equal, mirrored) = (two(EQUAL, &x(), &y()), two(EQUAL, &y(), &x()));
    let goal = two(LESS_EQUAL, &x(), &y());
    let hypotheses = [(0, equal), (0, mirrored)];
    let (_, report) = both("genmp", &[&file(&[0, 0], &hypotheses, &goal)]);
    // Hypothesis 1 becomes ⊤ by hypothesis 0; hypothesis 0 meets its own entry first.
    assert_eq!(report, unhex("01 01 00 01 01 02 00 01 02"));
}

/// Each disjunct of the goal is a source of its own, the goal as a whole is none.
#[test]
fn a_disjunctive_goal_counts_by_its_disjuncts() {
    let goal = or(&[equals(&x(), 1), equals(&x(), 2)]);
    let hypothesis = implies(&goal, &equals(&x(), 2));
    let (sequent, _) = both("genmp", &[&file(&[0], &[(0, hypothesis.clone())], &goal)]);
    let inferred = implies(&or(&[truth(false), truth(false)]), &truth(false));
    assert_eq!(sequent, file(&[0], &[(1, hypothesis), (0, inferred)], &goal));
}

//! A few answers of each act, worked out by hand from the given files.

use super::bytes::*;
use super::{changed, cut, pair, refused};
use answers::{Answer, Part};

const PLAIN: u8 = 0;
const HIDDEN: u8 = 1;
const SELECTED: u8 = 2;

fn x_is(value: i64) -> Vec<u8> {
    eq(id(0), lit(value))
}

/// Hypotheses x=0, x=1, .. with these flags, and goal ⊥.
fn with_flags(flags: &[u8]) -> Vec<u8> {
    let hyps: Vec<(u8, Vec<u8>)> = flags.iter().enumerate().map(|(i, flag)| (*flag, x_is(i as i64))).collect();
    sequent(&[INTEGER], &hyps, falsity())
}

fn assert_flag(act: &str, before: u8, after: u8) {
    let answer = cut(act, &[with_flags(&[PLAIN, before]), x_is(1)]);
    assert_eq!(answer, changed((before != after).into(), with_flags(&[PLAIN, after])), "{act} {before}");
}

#[test]
fn read_counts() {
    let answer = cut("read", &[with_flags(&[HIDDEN, SELECTED, PLAIN, SELECTED, SELECTED])]);
    assert_eq!(answer, Ok([1, 3, 4].map(Part::Number).to_vec()));
}

#[test]
fn flags_by_act() {
    for before in [PLAIN, HIDDEN, SELECTED] {
        assert_flag("select", before, SELECTED);
        assert_flag("deselect", before, if before == SELECTED { PLAIN } else { before });
        assert_flag("hide", before, HIDDEN);
        assert_flag("show", before, if before == HIDDEN { PLAIN } else { before });
    }
}

#[test]
fn no_hypothesis_no_change() {
    for act in ["select", "deselect", "hide", "show"] {
        let before = with_flags(&[HIDDEN, SELECTED]);
        assert_eq!(cut(act, &[before.clone(), x_is(7)]), changed(0, before));
    }
}

fn modify(flags: &[u8], added: &[i64], unselected: &[i64], goal: &[Vec<u8>]) -> Answer {
    let of = |values: &[i64]| list(&values.iter().map(|v| x_is(*v)).collect::<Vec<_>>());
    cut("modify", &[with_flags(flags), of(added), of(unselected), list(goal)])
}

#[test]
fn modify_appends_shows_and_selects() {
    let answer = modify(&[HIDDEN, PLAIN], &[0, 2, 3, 2], &[3], &[]);
    assert_eq!(answer, changed(1, with_flags(&[SELECTED, PLAIN, SELECTED, PLAIN])));
}

#[test]
fn modify_keeps_the_selection_of_unselected() {
    let answer = modify(&[SELECTED, HIDDEN], &[0, 1], &[0, 1], &[]);
    assert_eq!(answer, changed(1, with_flags(&[SELECTED, PLAIN])));
}

#[test]
fn modify_goal() {
    assert_eq!(modify(&[SELECTED], &[0], &[], &[falsity()]), changed(0, with_flags(&[SELECTED])));
    let after = sequent(&[INTEGER], &[(SELECTED, x_is(0))], truth());
    assert_eq!(modify(&[SELECTED], &[], &[], &[truth()]), changed(1, after));
}

#[test]
fn modify_unselected_must_be_added() {
    assert_eq!(modify(&[PLAIN], &[1], &[0], &[]), refused(18));
}

fn forward(flags: &[u8], sources: &[i64], inferred: &[i64]) -> Answer {
    let of = |values: &[i64]| list(&values.iter().map(|v| x_is(*v)).collect::<Vec<_>>());
    cut("forward", &[with_flags(flags), of(sources), of(inferred)])
}

#[test]
fn forward_flags_of_appended() {
    assert_eq!(forward(&[SELECTED, HIDDEN], &[0, 1], &[2, 2]), changed(1, with_flags(&[SELECTED, HIDDEN, SELECTED])));
    assert_eq!(forward(&[HIDDEN, HIDDEN], &[0, 1], &[2]), changed(1, with_flags(&[HIDDEN, HIDDEN, HIDDEN])));
    assert_eq!(forward(&[PLAIN, HIDDEN], &[0, 1], &[2]), changed(1, with_flags(&[PLAIN, HIDDEN, PLAIN])));
    assert_eq!(forward(&[PLAIN], &[], &[1]), changed(1, with_flags(&[PLAIN, HIDDEN])));
}

#[test]
fn forward_reselects_visible_ones() {
    assert_eq!(
        forward(&[SELECTED, PLAIN, HIDDEN], &[0], &[1, 2]),
        changed(1, with_flags(&[SELECTED, SELECTED, HIDDEN]))
    );
    assert_eq!(forward(&[SELECTED], &[0], &[0]), changed(1, with_flags(&[SELECTED])));
    assert_eq!(forward(&[SELECTED, HIDDEN], &[0], &[1]), changed(0, with_flags(&[SELECTED, HIDDEN])));
    assert_eq!(forward(&[PLAIN, PLAIN], &[0], &[1]), changed(0, with_flags(&[PLAIN, PLAIN])));
}

#[test]
fn forward_without_its_source() {
    assert_eq!(forward(&[SELECTED], &[0, 5], &[1]), changed(0, with_flags(&[SELECTED])));
}

fn rewrite(flags: &[u8], sources: &[i64], inferred: &[i64], to_hide: &[i64]) -> Answer {
    let of = |values: &[i64]| list(&values.iter().map(|v| x_is(*v)).collect::<Vec<_>>());
    cut("rewrite", &[with_flags(flags), of(sources), of(inferred), of(to_hide)])
}

#[test]
fn rewrite_hides_after_inferring() {
    assert_eq!(rewrite(&[SELECTED, PLAIN], &[0], &[2], &[0, 2]), changed(1, with_flags(&[HIDDEN, PLAIN, HIDDEN])));
    assert_eq!(rewrite(&[SELECTED, HIDDEN], &[0], &[1], &[]), changed(0, with_flags(&[SELECTED, HIDDEN])));
    assert_eq!(rewrite(&[SELECTED], &[0], &[0], &[]), changed(1, with_flags(&[SELECTED])));
}

#[test]
fn rewrite_without_its_source_hides_nothing() {
    assert_eq!(rewrite(&[SELECTED], &[5], &[1], &[0]), changed(0, with_flags(&[SELECTED])));
}

#[test]
fn genmp_leaves_hidden_hypotheses_alone() {
    let before = sequent(&[INTEGER], &[(HIDDEN, x_is(1))], x_is(1));
    assert_eq!(cut("genmp", &[before]), refused(13));
}

/// A blocked match is not replaced, but what stands inside it is.
#[test]
fn genmp_goes_below_a_blocked_match() {
    let inner = [vec![0x2e], x_is(1)].concat();
    let outer = eq(inner, vec![0x31]);
    let before = sequent(&[INTEGER], &[(PLAIN, outer.clone()), (PLAIN, x_is(1))], falsity());
    let result = eq(vec![0x2e, TRUTH], vec![0x31]);
    let after = sequent(&[INTEGER], &[(HIDDEN, outer), (PLAIN, x_is(1)), (PLAIN, result)], falsity());
    assert_eq!(cut("genmp", &[before]), pair(after, vec![3, 0, 1, 0, 2, 1, 0, 2]));
}

/// Predicates in a comprehension's guard are replaced too.
#[test]
fn genmp_goes_into_comprehensions() {
    let set = |guard: Vec<u8>| [vec![0x30, 1], guard, bound(0)].concat();
    let goal = |guard: Vec<u8>| rel(0x17, set(guard), vec![0x23]);
    let before = sequent(&[INTEGER], &[(SELECTED, x_is(1))], goal(x_is(1)));
    let after = sequent(&[INTEGER], &[(SELECTED, x_is(1))], goal(truth()));
    assert_eq!(cut("genmp", &[before]), pair(after, vec![1, 1, 0, 0]));
}

fn one_point(formula: Vec<u8>) -> Answer {
    cut("onepoint", &[vec![INTEGER], formula])
}

#[test]
fn one_point_refusals() {
    assert_eq!(one_point(not(exists(1, eq(bound(0), lit(1))))), refused(15));
    assert_eq!(one_point(exists(1, lt(bound(0), lit(1)))), refused(16));
    assert_eq!(one_point(exists(2, eq(bound(1), plus(&[bound(0), lit(1)])))), refused(16));
}

/// The middle variable of three goes; outer indices drop, also below a binder, inner ones stay.
#[test]
fn one_point_moves_indices() {
    let under = |a: u8, b: u8| forall(1, lt(bound(a), bound(b)));
    let body = and(&[eq(bound(1), bound(2)), under(1, 3), under(2, 0)]);
    let after = exists(2, and(&[under(1, 2), under(2, 0)]));
    assert_eq!(one_point(exists(3, body)), pair(after, bound(2)));
}

#[test]
fn one_point_joins_like_blocks() {
    let body = and(&[eq(bound(0), id(0)), exists(1, lt(bound(1), bound(0)))]);
    assert_eq!(one_point(exists(2, body)), pair(exists(2, lt(id(0), bound(0))), id(0)));
    let alone = and(&[eq(bound(0), id(0)), exists(1, lt(bound(1), bound(0)))]);
    assert_eq!(one_point(exists(1, alone)), pair(exists(1, lt(id(0), bound(0))), id(0)));
}

/// Before the find a maplet equality is split and ¬¬ vanishes; after it both stay.
#[test]
fn one_point_splits_before_the_find() {
    let maplets = eq(maplet(id(0), lit(1)), maplet(lit(2), lit(3)));
    let double = not(not(x_is(4)));
    let find = eq(bound(0), lit(5));
    let split = and(&[eq(id(0), lit(2)), eq(lit(1), lit(3))]);
    let early = exists(1, and(&[maplets.clone(), double.clone(), find.clone()]));
    assert_eq!(one_point(early), pair(and(&[split, x_is(4)]), lit(5)));
    let late = exists(1, and(&[find, maplets.clone(), double.clone()]));
    assert_eq!(one_point(late), pair(and(&[maplets, double]), lit(5)));
}

/// A ¬ that closes over what is left takes a ¬ off it.
#[test]
fn one_point_negates_what_is_left() {
    let find = eq(bound(0), lit(5));
    assert_eq!(one_point(forall(1, not(and(&[find.clone(), not(x_is(1))])))), pair(x_is(1), lit(5)));
    assert_eq!(one_point(forall(1, imp(not(x_is(1)), not(find)))), pair(x_is(1), lit(5)));
}

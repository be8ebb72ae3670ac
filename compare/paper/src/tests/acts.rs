//! The seven acts on hypotheses.

use super::*;
use crate::tree::truth;

fn p(number: i64) -> Tree {
    equals(&x(), number)
}

fn of(hypotheses: &[(u8, Tree)]) -> Vec<u8> {
    file(&[0], hypotheses, &truth(false))
}

/// The act on hypothesis 1 of three with this flag gives that flag.
fn flag_act(act: &str, before: u8, after: u8) {
    let start = of(&[(0, p(0)), (before, p(1)), (2, p(2))]);
    let end = of(&[(0, p(0)), (after, p(1)), (2, p(2))]);
    assert_eq!(changed(act, &[&start, &p(1).bytes()]), (before != after, end));
    assert_eq!(changed(act, &[&start, &p(9).bytes()]), (false, start));
}

#[test]
fn flag_acts() {
    // What plain, hidden and selected become.
    let acts = [("select", [2, 2, 2]), ("deselect", [0, 1, 0]), ("hide", [1, 1, 1]), ("show", [0, 0, 2])];
    for (act, afters) in acts {
        for (before, after) in afters.into_iter().enumerate() {
            flag_act(act, before as u8, after);
        }
    }
}

#[test]
fn read_counts_hidden_selected_visible() {
    let before = of(&[(0, p(0)), (1, p(1)), (2, p(2)), (2, p(3)), (1, p(4)), (1, p(5))]);
    let counts = answer("read", &[&before], &[]).expect("a success");
    assert_eq!(counts, vec![Part::Number(3), Part::Number(2), Part::Number(3)]);
}

#[test]
fn modify_appends_shows_and_selects() {
    let before = of(&[(0, p(0)), (1, p(1)), (2, p(2)), (1, p(3))]);
    let added = list(&[p(5), p(1), p(3), p(2), p(6), p(5)]);
    let unselected = list(&[p(3), p(6), p(2), p(3)]);
    let after = [(0, p(0)), (2, p(1)), (2, p(2)), (0, p(3)), (2, p(5)), (0, p(6))];
    let expected = file(&[0], &after, &p(7));
    assert_eq!(changed("modify", &[&before, &added, &unselected, &list(&[p(7)])]), (true, expected));
}

#[test]
fn modify_may_change_nothing() {
    let before = of(&[(0, p(0)), (2, p(1))]);
    let same_goal = list(&[truth(false)]);
    let answer = changed("modify", &[&before, &list(&[p(0), p(1)]), &list(&[p(0)]), &same_goal]);
    assert_eq!(answer, (false, before.clone()));
    let (empty, no_goal) = (list(&[]), list(&[]));
    assert_eq!(changed("modify", &[&before, &empty, &empty, &no_goal]), (false, before));
}

fn forward(before: &[(u8, Tree)], sources: &[Tree], inferred: &[Tree], after: &[(u8, Tree)], differs: bool) {
    let answer = changed("forward", &[&of(before), &list(sources), &list(inferred)]);
    assert_eq!(answer, (differs, of(after)));
}

#[test]
fn forward_flags_what_it_appends() {
    let start = [(0, p(0)), (1, p(1)), (2, p(2))];
    let with = |flag: u8| [(0, p(0)), (1, p(1)), (2, p(2)), (flag, p(5))];
    forward(&start, &[], &[p(5)], &with(1), true);
    forward(&start, &[p(0)], &[p(5)], &with(0), true);
    forward(&start, &[p(1)], &[p(5)], &with(1), true);
    forward(&start, &[p(1), p(0)], &[p(5)], &with(0), true);
    forward(&start, &[p(1), p(2)], &[p(5), p(5)], &with(2), true);
    forward(&start, &[p(1), p(9)], &[p(5)], &start, false);
    forward(&start, &[], &[], &start, false);
}

#[test]
fn forward_reselects_what_is_present_and_visible() {
    let start = [(0, p(0)), (1, p(1)), (2, p(2))];
    forward(&start, &[p(2)], &[p(0)], &[(2, p(0)), (1, p(1)), (2, p(2))], true);
    forward(&start, &[p(2)], &[p(2)], &start, true);
    forward(&start, &[p(2)], &[p(1)], &start, false);
    forward(&start, &[p(0)], &[p(2), p(0), p(1)], &start, false);
    forward(&start, &[p(1)], &[p(0), p(2)], &start, false);
}

fn rewrite(sources: &[Tree], inferred: &[Tree], to_hide: &[Tree], after: &[(u8, Tree)], differs: bool) {
    let before = of(&[(0, p(0)), (1, p(1)), (2, p(2))]);
    let buffers: [&[u8]; 4] = [&before, &list(sources), &list(inferred), &list(to_hide)];
    assert_eq!(changed("rewrite", &buffers), (differs, of(after)));
}

#[test]
fn rewrite_infers_then_hides() {
    let same = [(0, p(0)), (1, p(1)), (2, p(2))];
    rewrite(&[p(2)], &[p(5)], &[p(2)], &[(0, p(0)), (1, p(1)), (1, p(2)), (2, p(5))], true);
    // What was just inferred may be hidden.
    rewrite(&[p(2)], &[p(5)], &[p(5), p(8)], &[(0, p(0)), (1, p(1)), (2, p(2)), (1, p(5))], true);
    rewrite(&[p(9)], &[p(5)], &[p(0)], &same, false);
    rewrite(&[p(0)], &[p(1)], &[p(1), p(9)], &same, false);
    // A reselection says "changed" even where the sequent stays.
    rewrite(&[p(2)], &[p(2)], &[p(1)], &same, true);
    rewrite(&[p(2)], &[p(0)], &[p(0)], &[(1, p(0)), (1, p(1)), (2, p(2))], true);
}

//! Choosing some of each stratum: of one act and one kind of answer.

use std::collections::{BTreeMap, BTreeSet};

use super::Line;
use super::kinds::Kind;

/// At most so many successes and so many refusals of each act and kind, in the order of `lines`.
pub fn chosen(lines: Vec<Line>, most: [usize; 2]) -> Vec<Line> {
    let mut strata: BTreeMap<(String, Kind), Vec<(usize, Line)>> = BTreeMap::new();
    for (index, line) in lines.into_iter().enumerate() {
        strata.entry((line.request.act.clone(), line.kind)).or_default().push((index, line));
    }
    let mut kept = Vec::new();
    for ((_, kind), stratum) in strata {
        kept.extend(varied(stratum, if kind.is_success() { most[0] } else { most[1] }));
    }
    kept.sort_by_key(|(index, _)| *index);
    kept.into_iter().map(|(_, line)| line).collect()
}

/// Those with a place or size of their own come before more of the same.
fn varied(stratum: Vec<(usize, Line)>, most: usize) -> Vec<(usize, Line)> {
    let mut seen = BTreeSet::new();
    let (first, more): (Vec<_>, Vec<_>) = stratum.into_iter().partition(|(_, line)| seen.insert(mark(line)));
    let left = most.saturating_sub(first.len());
    [evenly(first, most), evenly(more, left)].concat()
}

/// Where a buffer is refused, or how much is lent.
fn mark(line: &Line) -> usize {
    match (&line.answer, line.kind) {
        (Err(refusal), Kind::Unread { .. }) => refusal.place,
        _ => line.request.size(),
    }
}

/// So many, evenly spaced.
fn evenly<T: Clone>(of: Vec<T>, most: usize) -> Vec<T> {
    if of.len() <= most {
        return of;
    }
    (0..most).map(|number| of[number * of.len() / most].clone()).collect()
}

//! The genMP step under some switches, without document 01's limits on results.

use std::collections::HashMap;

use paper::codes::OR;
use paper::sequent::{Sequent, rewrite};
use paper::tree::{Tree, truth};

use super::class::Switches;
use super::keys::Keys;

/// The position of a hypothesis, or none for the goal.
type Origin = Option<usize>;
type Table = HashMap<Tree, (bool, Origin)>;

pub struct Stepped {
    pub sequent: Sequent,
    pub report: Vec<u8>,
}

/// None where nothing changes.
pub fn step(sequent: &Sequent, on: Switches) -> Option<Stepped> {
    let table = table(sequent, on);
    let goal = pass(&table, None, &sequent.goal);
    let changed: Vec<(usize, Passed)> = sequent
        .visible()
        .into_iter()
        .map(|position| (position, pass(&table, Some(position), &sequent.hypotheses[position].predicate)))
        .filter(|(position, passed)| passed.formula != sequent.hypotheses[*position].predicate)
        .collect();
    let goal_changed = goal.formula != sequent.goal;
    if !goal_changed && changed.is_empty() {
        return None;
    }
    let used_goal = changed.iter().any(|(_, passed)| passed.used_goal);
    let kind = if goal_changed { 1 } else { 3 - u8::from(used_goal) };
    let mut report = vec![kind, goal.used.len() as u8];
    report.extend(goal.used.iter().map(|position| *position as u8));
    report.push(changed.len() as u8);
    let mut after = Sequent { goal: goal.formula, ..sequent.clone() };
    for (position, passed) in &changed {
        after = act(&after, *position, passed, &mut report);
    }
    Some(Stepped { sequent: after, report })
}

/// The first entry for a predicate wins.
fn table(sequent: &Sequent, on: Switches) -> Table {
    let keys = Keys { on, types: &sequent.types };
    let mut table = Table::new();
    let mut add = |source: &Tree, origin: Origin| {
        for (key, value) in keys.of(source, origin.is_some()) {
            table.entry(key).or_insert((value, origin));
        }
    };
    for position in sequent.visible() {
        add(&sequent.hypotheses[position].predicate, Some(position));
    }
    if sequent.goal.code == OR {
        sequent.goal.operands.iter().for_each(|disjunct| add(disjunct, None));
    } else {
        add(&sequent.goal, None);
    }
    table
}

/// A formula after its pass, and what the pass used.
struct Passed {
    formula: Tree,
    used: Vec<usize>,
    used_goal: bool,
}

fn pass(table: &Table, here: Origin, formula: &Tree) -> Passed {
    let mut passed = Passed { formula: formula.clone(), used: Vec::new(), used_goal: false };
    passed.formula = over(table, here, formula, &mut passed);
    passed
}

fn over(table: &Table, here: Origin, tree: &Tree, passed: &mut Passed) -> Tree {
    if let Some((value, origin)) = table.get(tree).filter(|entry| entry.1 != here) {
        match origin {
            None => passed.used_goal = true,
            Some(position) if passed.used.contains(position) => {}
            Some(position) => passed.used.push(*position),
        }
        return truth(*value);
    }
    tree.with_operands(tree.operands.iter().map(|operand| over(table, here, operand, passed)).collect())
}

fn act(sequent: &Sequent, position: usize, passed: &Passed, report: &mut Vec<u8>) -> Sequent {
    let mut sources = passed.used.clone();
    sources.push(position);
    let formulas: Vec<Tree> =
        sources.iter().map(|source| sequent.hypotheses[*source].predicate.clone()).collect();
    let itself = [sequent.hypotheses[position].predicate.clone()];
    let after = rewrite(sequent, &formulas, std::slice::from_ref(&passed.formula), &itself).sequent;
    let inferred = after.position(&passed.formula).expect("an inferred formula is a hypothesis");
    report.extend([position as u8, sources.len() as u8]);
    report.extend(sources.iter().map(|source| *source as u8));
    report.push(inferred as u8);
    after
}

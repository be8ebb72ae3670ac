//! The genMP step: occurrences of what is known true or false become ⊤ or ⊥.

use answers::Refusal;

use crate::codes::OR;
use crate::read::refuse;
use crate::sequent::{rewrite, Sequent};
use crate::tree::{truth, Tree};
use crate::variations::{substitutes, Substitute};

/// Which formula an entry came from, or which is being rewritten.
#[derive(Clone, Copy, PartialEq, Eq, Debug)]
pub enum Origin {
    Hypothesis(usize),
    Goal,
}

/// One entry of the table.
#[derive(Clone, PartialEq, Eq, Debug)]
struct Entry {
    substitute: Substitute,
    origin: Origin,
}

/// What the step did, before it is put into bytes.
pub struct Step {
    pub sequent: Sequent,
    pub report: Vec<u8>,
}

/// Visible hypotheses in order, then the goal, each disjunct apart if it is ∨.
fn table(sequent: &Sequent) -> Vec<Entry> {
    let mut entries = Vec::new();
    for position in sequent.visible() {
        let source = &sequent.hypotheses[position].predicate;
        add_entries(&mut entries, sequent, source, Origin::Hypothesis(position));
    }
    if sequent.goal.code == OR {
        for disjunct in &sequent.goal.operands {
            add_entries(&mut entries, sequent, disjunct, Origin::Goal);
        }
    } else {
        add_entries(&mut entries, sequent, &sequent.goal, Origin::Goal);
    }
    entries
}

fn add_entries(entries: &mut Vec<Entry>, sequent: &Sequent, source: &Tree, origin: Origin) {
    let starts = origin != Origin::Goal;
    for substitute in substitutes(source, starts, &sequent.types) {
        entries.push(Entry { substitute, origin });
    }
}

/// One pass over one formula with the table made at the start.
struct Pass<'a> {
    table: &'a [Entry],
    /// The formula being rewritten.
    here: Origin,
    /// The positions of the hypotheses used, in the order met, without repeats.
    used: Vec<usize>,
    used_goal: bool,
}

impl Pass<'_> {
    /// The formula after the pass; an expression is passed for the predicates inside it.
    fn over(&mut self, tree: &Tree) -> Tree {
        // The first entry wins for good: if it is blocked, no later one is tried.
        let first = self.table.iter().find(|entry| entry.substitute.key == *tree);
        if let Some(entry) = first {
            if entry.origin != self.here {
                self.note(entry.origin);
                return truth(entry.substitute.value);
            }
        }
        let operands = tree.operands.iter().map(|operand| self.over(operand)).collect();
        tree.with_operands(operands)
    }

    fn note(&mut self, origin: Origin) {
        match origin {
            Origin::Goal => self.used_goal = true,
            Origin::Hypothesis(position) if self.used.contains(&position) => {}
            Origin::Hypothesis(position) => self.used.push(position),
        }
    }
}

/// A formula after its pass, and what the pass used.
struct Passed {
    formula: Tree,
    used: Vec<usize>,
    used_goal: bool,
}

fn pass(table: &[Entry], here: Origin, formula: &Tree) -> Passed {
    let mut pass = Pass { table, here, used: Vec::new(), used_goal: false };
    let formula = pass.over(formula);
    Passed { formula, used: pass.used, used_goal: pass.used_goal }
}

/// A hypothesis that its pass changed.
struct Change {
    position: usize,
    passed: Passed,
}

/// The changed hypotheses in order, all by the table made at the start.
fn changes(sequent: &Sequent, table: &[Entry]) -> Vec<Change> {
    let mut out = Vec::new();
    for position in sequent.visible() {
        let hypothesis = &sequent.hypotheses[position].predicate;
        let passed = pass(table, Origin::Hypothesis(position), hypothesis);
        if passed.formula != *hypothesis {
            out.push(Change { position, passed });
        }
    }
    out
}

/// One step, or 13 where the goal and all visible hypotheses stay as they are.
pub fn step(sequent: &Sequent) -> Result<Step, Refusal> {
    let table = table(sequent);
    let goal = pass(&table, Origin::Goal, &sequent.goal);
    let changes = changes(sequent, &table);
    let goal_changed = goal.formula != sequent.goal;
    if !goal_changed && changes.is_empty() {
        return refuse(13, 0);
    }
    let used_goal = changes.iter().any(|change| change.passed.used_goal);
    let mut report = vec![kind(goal_changed, used_goal)];
    add_positions(&mut report, &goal.used);
    report.push(changes.len() as u8);
    let mut after = sequent.clone();
    after.goal = goal.formula;
    for change in &changes {
        after = act(&after, change, &mut report);
    }
    Ok(Step { sequent: after, report })
}

fn kind(goal_changed: bool, used_goal: bool) -> u8 {
    match (goal_changed, used_goal) {
        (true, _) => 1,
        (false, true) => 2,
        (false, false) => 3,
    }
}

/// A count byte and the positions.
fn add_positions(report: &mut Vec<u8>, positions: &[usize]) {
    report.push(positions.len() as u8);
    report.extend(positions.iter().map(|position| *position as u8));
}

/// The rewrite act of one changed hypothesis, on the sequent as the acts before it left it.
fn act(sequent: &Sequent, change: &Change, report: &mut Vec<u8>) -> Sequent {
    let formula_at = |position: usize| sequent.hypotheses[position].predicate.clone();
    let mut sources = change.passed.used.clone();
    // An entry is blocked in its own hypothesis, so this is no repeat.
    sources.push(change.position);
    let source_formulas: Vec<Tree> = sources.iter().map(|source| formula_at(*source)).collect();
    let inferred = [change.passed.formula.clone()];
    let itself = [formula_at(change.position)];
    let after = rewrite(sequent, &source_formulas, &inferred, &itself).sequent;
    let inferred_at = after.position(&inferred[0]).expect("an inferred formula is a hypothesis afterwards");
    report.push(change.position as u8);
    add_positions(report, &sources);
    report.push(inferred_at as u8);
    after
}

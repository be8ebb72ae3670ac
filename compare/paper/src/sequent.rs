//! Sequents with ordered hypotheses and flags, and the acts on them.

use crate::tree::Tree;

/// How a hypothesis is shown; it is never both hidden and selected.
#[derive(Clone, Copy, PartialEq, Eq, Debug)]
pub enum Flag {
    Plain,
    Hidden,
    Selected,
}

#[derive(Clone, PartialEq, Eq, Debug)]
pub struct Hypothesis {
    pub flag: Flag,
    pub predicate: Tree,
}

#[derive(Clone, PartialEq, Eq, Debug)]
pub struct Sequent {
    /// One type byte for each identifier.
    pub types: Vec<u8>,
    pub hypotheses: Vec<Hypothesis>,
    pub goal: Tree,
}

/// A sequent and whether the act answers "changed".
#[derive(Clone, PartialEq, Eq, Debug)]
pub struct Done {
    pub changed: bool,
    pub sequent: Sequent,
}

impl Sequent {
    /// The position of the hypothesis that is this formula.
    pub fn position(&self, formula: &Tree) -> Option<usize> {
        self.hypotheses.iter().position(|hypothesis| hypothesis.predicate == *formula)
    }

    /// The flag of the hypothesis that is this formula.
    pub fn flag(&self, formula: &Tree) -> Option<Flag> {
        self.position(formula).map(|position| self.hypotheses[position].flag)
    }

    /// How many hypotheses carry this flag.
    pub fn count(&self, flag: Flag) -> usize {
        self.hypotheses.iter().filter(|hypothesis| hypothesis.flag == flag).count()
    }

    /// The positions of the hypotheses that are not hidden.
    pub fn visible(&self) -> Vec<usize> {
        let is_visible = |position: &usize| self.hypotheses[*position].flag != Flag::Hidden;
        (0..self.hypotheses.len()).filter(is_visible).collect()
    }

    /// Sets the flag of one formula from its old flag; nothing for a formula that is no hypothesis.
    fn reflag(&mut self, formula: &Tree, new: impl Fn(Flag) -> Flag) {
        if let Some(position) = self.position(formula) {
            let hypothesis = &mut self.hypotheses[position];
            hypothesis.flag = new(hypothesis.flag);
        }
    }

    /// Appends a formula unless it is a hypothesis already.
    fn append(&mut self, formula: &Tree, flag: Flag) {
        if self.position(formula).is_none() {
            self.hypotheses.push(Hypothesis { flag, predicate: formula.clone() });
        }
    }
}

/// "Changed" means that the sequent differs.
fn compared(before: &Sequent, after: Sequent) -> Done {
    Done { changed: *before != after, sequent: after }
}

fn selected(_: Flag) -> Flag {
    Flag::Selected
}

fn deselected(old: Flag) -> Flag {
    if old == Flag::Selected {
        Flag::Plain
    } else {
        old
    }
}

fn hidden(_: Flag) -> Flag {
    Flag::Hidden
}

fn shown(old: Flag) -> Flag {
    if old == Flag::Hidden {
        Flag::Plain
    } else {
        old
    }
}

fn reflagged(sequent: &Sequent, formula: &Tree, new: fn(Flag) -> Flag) -> Done {
    let mut after = sequent.clone();
    after.reflag(formula, new);
    compared(sequent, after)
}

pub fn select(sequent: &Sequent, formula: &Tree) -> Done {
    reflagged(sequent, formula, selected)
}

pub fn deselect(sequent: &Sequent, formula: &Tree) -> Done {
    reflagged(sequent, formula, deselected)
}

pub fn hide(sequent: &Sequent, formula: &Tree) -> Done {
    reflagged(sequent, formula, hidden)
}

pub fn show(sequent: &Sequent, formula: &Tree) -> Done {
    reflagged(sequent, formula, shown)
}

/// Adds formulas and may replace the goal; none where an unselected formula is not among those added.
pub fn modify(sequent: &Sequent, added: &[Tree], unselected: &[Tree], goal: Option<&Tree>) -> Option<Done> {
    if !unselected.iter().all(|formula| added.contains(formula)) {
        return None;
    }
    let mut after = sequent.clone();
    for formula in added {
        after.append(formula, Flag::Plain);
        // One named unselected keeps the selection it had.
        let new = if unselected.contains(formula) { shown } else { selected };
        after.reflag(formula, new);
    }
    if let Some(goal) = goal {
        after.goal = goal.clone();
    }
    Some(compared(sequent, after))
}

/// What forward inference came to.
enum Inference {
    SourceAbsent,
    /// `reselected`: a present visible formula was selected under S, even if it was so before.
    Done {
        sequent: Sequent,
        reselected: bool,
    },
}

/// The flag of an absent inferred formula: selected under S, hidden under D.
fn inferred_flag(sequent: &Sequent, sources: &[Tree]) -> Flag {
    if sources.iter().any(|source| sequent.flag(source) == Some(Flag::Selected)) {
        Flag::Selected
    } else if sources.iter().all(|source| sequent.flag(source) == Some(Flag::Hidden)) {
        Flag::Hidden
    } else {
        Flag::Plain
    }
}

fn infer(sequent: &Sequent, sources: &[Tree], inferred: &[Tree]) -> Inference {
    if sources.iter().any(|source| sequent.position(source).is_none()) {
        return Inference::SourceAbsent;
    }
    let new = inferred_flag(sequent, sources);
    let mut after = sequent.clone();
    let mut reselected = false;
    for formula in inferred {
        // Absence and visibility are judged before the act.
        match sequent.flag(formula) {
            None => after.append(formula, new),
            Some(Flag::Hidden) => {}
            Some(_) => {
                if new == Flag::Selected {
                    after.reflag(formula, selected);
                    reselected = true;
                }
            }
        }
    }
    Inference::Done { sequent: after, reselected }
}

pub fn forward(sequent: &Sequent, sources: &[Tree], inferred: &[Tree]) -> Done {
    rewrite(sequent, sources, inferred, &[])
}

/// Forward inference, then hide, unless a source was absent.
pub fn rewrite(sequent: &Sequent, sources: &[Tree], inferred: &[Tree], to_hide: &[Tree]) -> Done {
    match infer(sequent, sources, inferred) {
        Inference::SourceAbsent => Done { changed: false, sequent: sequent.clone() },
        Inference::Done { sequent: mut after, reselected } => {
            for formula in to_hide {
                after.reflag(formula, hidden);
            }
            Done { changed: reselected || *sequent != after, sequent: after }
        }
    }
}

//! Random sequents within document 01's limits, and the formulas lent with acts on them.

use paper::codes::*;
use paper::read::{MOST_FORMULA_BYTES, MOST_LEVELS};
use paper::sequent::{Flag, Hypothesis, Sequent};
use paper::tree::{Tree, binder, node, not, two};

use super::dice::Dice;
use super::formulas::Writer;
use super::words::Words;

/// A formula within the limits of a formula.
pub fn fits(tree: &Tree) -> bool {
    tree.size() <= MOST_FORMULA_BYTES && tree.levels() <= MOST_LEVELS
}

/// A writer over a vocabulary, with a stock of some relations.
pub fn writer<'a>(dice: &'a mut Dice, words: &'a Words) -> Writer<'a> {
    let mut writer = Writer { dice, words, stock: Vec::new() };
    for _ in 0..writer.dice.between(1, 4) {
        let depth = if writer.dice.once_in(4) { 2 } else { 0 };
        let relation = writer.relation(depth, 0);
        writer.stock.push(relation);
    }
    writer
}

/// A predicate in which the stock stands in many kinds of places.
pub fn mixed(writer: &mut Writer) -> Tree {
    let (first, second) = (writer.related(), writer.related());
    let made = match writer.dice.under(12) {
        0..=2 => first,
        3 => not(&not(&first)),
        4 => node(OR, vec![first, second]),
        5 => node(AND, vec![first, second, writer.related()]),
        6 => two(IMPLIES, &first, &second),
        7 => two(IFF, &first, &second),
        8 => {
            let inner = writer.predicate(1, 1);
            binder(writer.dice.pick(&[FORALL, EXISTS]), 1, vec![two(IMPLIES, &first, &inner)])
        }
        9 => {
            let truth = writer.dice.pick(&writer.words.truths);
            two(EQUAL, &node(BOOL, vec![first]), &truth)
        }
        10 => {
            let value = writer.number(0, 1);
            let set = writer.dice.pick(&writer.words.sets);
            two(SUBSET_EQUAL, &binder(COMPREHENSION, 1, vec![first, value]), &set)
        }
        _ => writer.predicate(3, 0),
    };
    if fits(&made) { made } else { writer.stock[0].clone() }
}

/// A sequent of up to `most` hypotheses over the writer's stock.
pub fn sequent(writer: &mut Writer, most: usize) -> Sequent {
    let mut hypotheses: Vec<Hypothesis> = Vec::new();
    for _ in 0..writer.dice.between(0, most) {
        let predicate = mixed(writer);
        let flag = writer.dice.pick(&[Flag::Plain, Flag::Plain, Flag::Selected, Flag::Hidden]);
        if hypotheses.iter().all(|earlier| earlier.predicate != predicate) {
            hypotheses.push(Hypothesis { flag, predicate });
        }
    }
    Sequent { types: writer.words.types.clone(), hypotheses, goal: mixed(writer) }
}

/// A formula to lend: most often one that is a hypothesis.
pub fn lent_formula(writer: &mut Writer, sequent: &Sequent) -> Tree {
    if sequent.hypotheses.is_empty() || writer.dice.once_in(3) {
        return mixed(writer);
    }
    writer.dice.pick(&sequent.hypotheses).predicate
}

/// A list to lend, at times with repeats.
pub fn lent_list(writer: &mut Writer, sequent: &Sequent, most: usize) -> Vec<Tree> {
    let count = writer.dice.between(0, most);
    let mut out: Vec<Tree> = (0..count).map(|_| lent_formula(writer, sequent)).collect();
    if !out.is_empty() && writer.dice.once_in(6) {
        out.push(writer.dice.pick(&out));
    }
    out
}

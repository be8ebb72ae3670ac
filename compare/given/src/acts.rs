//! Document 01's acts over the given files: bytes in, the given functions, bytes out.

use answers::{Answer, Part, Refusal};

use crate::builder::{Reasoner, ReplayHints};
use crate::confidence::Confidence;
use crate::decode::{self, SequentFile};
use crate::encode;
use crate::formula::{Predicate, PredicateKind, SealedTypeEnvironment};
use crate::hyp_action::HypAction;
use crate::reasoners::genmp::GenMPL4;
use crate::reasoners::one_point::one_point_inference_with_replacement;
use crate::registry;
use crate::rule::Rule;
use crate::sequent::ProverSequent;
use crate::skeleton::{StoredInput, StoredRule};

const LIST: usize = 64;
const GOAL_LIST: usize = 1;

/// A sequent of the given Rust, with the type bytes that its answers repeat.
struct Lent {
    types: Vec<u8>,
    seq: ProverSequent,
}

pub(crate) fn run(act: &str, buffers: &[&[u8]]) -> Option<Answer> {
    match (act, buffers) {
        ("read", [sequent]) => read(sequent),
        ("select" | "deselect" | "hide" | "show", [sequent, formula]) => flag(act, sequent, formula),
        ("modify", [sequent, added, unselected, goal]) => modify(sequent, added, unselected, goal),
        ("forward", [sequent, sources, inferred]) => forward(sequent, sources, inferred),
        ("rewrite", [sequent, sources, inferred, to_hide]) => rewrite(sequent, sources, inferred, to_hide),
        ("genmp", [sequent]) => genmp(sequent),
        ("onepoint", [types, formula]) => one_point(types, formula),
        _ => None,
    }
}

/// The acts' own refusals have place 0.
fn refuse(number: u8) -> Option<Answer> {
    Some(Err(Refusal { number, place: 0 }))
}

fn environment(types: &[u8]) -> Option<SealedTypeEnvironment> {
    let mut builder = SealedTypeEnvironment::default().to_builder();
    for (k, &byte) in types.iter().enumerate() {
        builder.insert(&decode::name_of(k), decode::type_of(byte)?);
    }
    Some(builder.into_snapshot())
}

/// All hypotheses of a file are global; what an act appends becomes local, so that
/// `hyp_iter` gives the file's order and then the order of appending.
fn lent(bytes: &[u8]) -> Option<Lent> {
    let SequentFile { types, hyps, goal } = decode::sequent(bytes)?;
    let flagged = |flag: u8| hyps.iter().filter(move |hyp| hyp.flag == flag).map(|hyp| hyp.pred.clone());
    let all = hyps.iter().map(|hyp| hyp.pred.clone());
    let seq = ProverSequent::new(environment(&types)?, all, flagged(1), flagged(2), goal);
    Some(Lent { types, seq })
}

fn flag_of(seq: &ProverSequent, hyp: &Predicate) -> u8 {
    // Both at once is no flag of document 01; the sum 3 would show in a comparison.
    u8::from(seq.is_hidden(hyp)) + 2 * u8::from(seq.is_selected(hyp))
}

fn sequent_bytes(types: &[u8], seq: &ProverSequent) -> Option<Vec<u8>> {
    let count = encode::byte(seq.hyp_iter().count())?;
    let mut out = b"SQT\x01\x00".to_vec();
    out.extend([encode::byte(types.len())?, count, 0]);
    out.extend(types);
    for hyp in seq.hyp_iter() {
        out.push(flag_of(seq, hyp));
        out.extend(encode::predicate(hyp)?);
    }
    out.extend(encode::predicate(seq.goal())?);
    Some(out)
}

/// "Changed" is the Rust's own signal: another sequent object came back.
fn changed_answer(lent: &Lent, after: &ProverSequent) -> Option<Answer> {
    let changed = !ProverSequent::ptr_eq(&lent.seq, after);
    let bytes = sequent_bytes(&lent.types, after)?;
    Some(Ok(vec![Part::Number(changed.into()), Part::Bytes(bytes)]))
}

fn read(sequent: &[u8]) -> Option<Answer> {
    let Lent { seq, .. } = lent(sequent)?;
    let counts = [seq.hidden_hyp_iter().count(), seq.selected_hyp_iter().count(), seq.visible_hyp_iter().count()];
    Some(Ok(counts.map(|n| Part::Number(n as u64)).to_vec()))
}

fn flag(act: &str, sequent: &[u8], formula: &[u8]) -> Option<Answer> {
    let lent = lent(sequent)?;
    let formulas = [decode::predicate(formula, &lent.types)?];
    let after = match act {
        "select" => lent.seq.select_hypotheses(&formulas),
        "deselect" => lent.seq.deselect_hypotheses(&formulas),
        "hide" => lent.seq.hide_hypotheses(&formulas),
        _ => lent.seq.show_hypotheses(&formulas),
    };
    changed_answer(&lent, &after)
}

fn modify(sequent: &[u8], added: &[u8], unselected: &[u8], goal: &[u8]) -> Option<Answer> {
    let lent = lent(sequent)?;
    let added = decode::list(added, &lent.types, LIST)?;
    let unselected = decode::list(unselected, &lent.types, LIST)?;
    let goal = decode::list(goal, &lent.types, GOAL_LIST)?;
    // Read formulas are typed, closed and free of predicate variables, so that the Rust has one
    // reason left to answer none: an unselected formula that is not among those added.
    match lent.seq.modify(&[], &added, &unselected, goal.first()) {
        Some(after) => changed_answer(&lent, &after),
        None => refuse(18),
    }
}

fn forward(sequent: &[u8], sources: &[u8], inferred: &[u8]) -> Option<Answer> {
    let lent = lent(sequent)?;
    let sources = decode::list(sources, &lent.types, LIST)?;
    let inferred = decode::list(inferred, &lent.types, LIST)?;
    let after = lent.seq.perform_fwd_inf(&sources, &[], &inferred);
    changed_answer(&lent, &after)
}

fn rewrite(sequent: &[u8], sources: &[u8], inferred: &[u8], to_hide: &[u8]) -> Option<Answer> {
    let lent = lent(sequent)?;
    let sources = decode::list(sources, &lent.types, LIST)?;
    let inferred = decode::list(inferred, &lent.types, LIST)?;
    let to_hide = decode::list(to_hide, &lent.types, LIST)?;
    let after = lent.seq.perform_rewrite(&sources, &[], &inferred, &to_hide);
    changed_answer(&lent, &after)
}

/// genMP takes nothing from the stored rule but the reasoner's name.
fn stored_rule() -> StoredRule {
    let rule = Rule {
        reasoner: registry::resolve("org.eventb.core.seqprover.genMPL4"),
        goal: None,
        needed_hyps: Vec::new(),
        confidence: Confidence::PENDING,
        display: String::new(),
        antecedents: Vec::new(),
    };
    StoredRule { rule, input: StoredInput::default() }
}

fn genmp(sequent: &[u8]) -> Option<Answer> {
    let lent = lent(sequent)?;
    let rule = match GenMPL4.replay(&lent.seq, &stored_rule(), &ReplayHints) {
        Ok(rule) => rule,
        Err(why) if why == "generalized MP no more applicable" => return refuse(13),
        Err(why) => panic!("document 01 calls this unreachable: {why}"),
    };
    let children = rule.apply(&lent.seq).expect("the rule applies to the sequent that it was made from");
    let [after] = children.as_slice() else {
        panic!("genMP has one antecedent");
    };
    let report = report(&rule, &lent.seq, after)?;
    Some(Ok(vec![Part::Bytes(sequent_bytes(&lent.types, after)?), Part::Bytes(report)]))
}

fn position(seq: &ProverSequent, hyp: &Predicate) -> Option<u8> {
    encode::byte(seq.hyp_iter().position(|other| other == hyp)?)
}

fn put_positions(seq: &ProverSequent, hyps: &[Predicate], out: &mut Vec<u8>) -> Option<()> {
    out.push(encode::byte(hyps.len())?);
    for hyp in hyps {
        out.push(position(seq, hyp)?);
    }
    Some(())
}

/// Document 01's report, read off the rule that genmp.rs returned: the kind off its goal and its
/// antecedent's, the origins used in the goal are its needed hypotheses (as genmp.rs leaves them,
/// in order met), and each act is one of the antecedent's rewrite actions, in their order.
fn report(rule: &Rule, before: &ProverSequent, after: &ProverSequent) -> Option<Vec<u8>> {
    let [antecedent] = rule.antecedents.as_slice() else {
        return None;
    };
    let kind = match (&rule.goal, &antecedent.goal) {
        (Some(old), Some(new)) if old != new => 1,
        // The rule names the goal that it keeps exactly when a goal entry was used.
        (Some(_), Some(_)) => 2,
        _ => 3,
    };
    let mut out = vec![kind];
    put_positions(before, &rule.needed_hyps, &mut out)?;
    out.push(encode::byte(antecedent.hyp_actions.len())?);
    for action in &antecedent.hyp_actions {
        put_act(action, before, after, &mut out)?;
    }
    Some(out)
}

/// The rewritten hypothesis is the one that the action hides, the sources are its `hyps`, and the
/// inferred formula is looked up in the child sequent.
fn put_act(action: &HypAction, before: &ProverSequent, after: &ProverSequent, out: &mut Vec<u8>) -> Option<()> {
    let HypAction::Rewrite { hyps, inferred, disappearing, .. } = action else {
        return None;
    };
    let ([rewritten], [result]) = (disappearing.as_slice(), inferred.as_slice()) else {
        return None;
    };
    out.push(position(before, rewritten)?);
    put_positions(before, hyps, out)?;
    out.push(position(after, result)?);
    Some(())
}

fn one_point(types: &[u8], formula: &[u8]) -> Option<Answer> {
    let pred = decode::predicate(formula, decode::types(types)?)?;
    // The Rust answers none for both; what kind of predicate it was tells them apart.
    if !matches!(pred.kind(), PredicateKind::Quantified { .. }) {
        return refuse(15);
    }
    let Some((result, replacement)) = one_point_inference_with_replacement(&pred) else {
        return refuse(16);
    };
    Some(Ok(vec![Part::Bytes(encode::predicate(&result)?), Part::Bytes(encode::expression(&replacement)?)]))
}

//! `compare laws`: what genMP and one-point promise of truth, by brute force on small valuations.

pub mod valuations;

use std::collections::BTreeMap;

use answers::Answer;
use given::Variant;
use paper::meaning::{Valuation, Value, choices, holds, refutes, value};
use paper::tree::Tree;
use paper::{codes, file, lent};

use crate::absent::{Without, told};
use crate::explain::{Verdict, compared};
use crate::listed;
use crate::loose;
use crate::make::dice::Dice;
use crate::make::requests;
use crate::programs::Program;
use crate::progress::Progress;
use crate::request::Request;
use crate::run::bodies;
use crate::run::exhaustive::{self, Case};
use crate::shrink::{measure, shrink};
use crate::workers::shared;

/// How often a law of one program is shrunk anew.
const SHRINKS: usize = 6;

/// With more variables in each other's reach, a formula has too many choices to try.
const VARIABLES: usize = 5;

/// A law broken by a program: how often, and by what.
pub struct Broken {
    pub count: usize,
    pub smallest: Request,
    /// The classes of the difference there, or UNEXPLAINED.
    pub classes: String,
}

/// What the valuations say of one answer.
#[derive(Clone, Copy, PartialEq, Eq, Debug)]
pub enum Judged {
    Kept,
    Broken,
    /// Too many variables, or no valuation within the premise and the evaluator's numbers.
    Untried,
}

/// One law as one program keeps it.
#[derive(Default)]
pub struct Kept {
    pub tried: usize,
    pub untried: usize,
    pub broken: Option<Broken>,
}

/// Under each law and program.
#[derive(Default)]
pub struct Laws(pub BTreeMap<(&'static str, &'static str), Kept>);

const PROGRAMS: [Program; 3] = [Program::Ours, Program::Paper, Program::Given];
/// Each act that has a law, and its law.
const LAWS: [(&str, &str); 2] =
    [("genmp", "genMP keeps refuting valuations"), ("onepoint", "one-point keeps truth")];

/// Tries every source against its keys, every small body, and random requests.
pub fn run(seed: u64, count: usize) -> Laws {
    let (cases, bodies) = (exhaustive::cases(false), bodies::requests());
    let mut laws = Laws::default();
    let found = shared(|worker, workers| share((&cases, &bodies), seed, count, (worker, workers)));
    found.into_iter().for_each(|found| laws.merge(found));
    laws
}

/// One worker's share; a random request depends on its number alone, and not on the worker.
fn share(
    (cases, bodies): (&[Case], &[Request]),
    seed: u64,
    count: usize,
    (worker, workers): (usize, usize),
) -> Laws {
    let mut laws = Laws::default();
    let mut progress = Progress::new("laws");
    let mut step = |done: usize| {
        if worker == 0 {
            progress.show(done, cases.len() + count);
        }
    };
    for (index, case) in cases.iter().enumerate().skip(worker).step_by(workers) {
        laws.examine_keys(case, seed);
        step(index);
    }
    bodies.iter().skip(worker).step_by(workers).for_each(|request| laws.examine(request, seed));
    for number in (worker..count).step_by(workers) {
        let mut dice = Dice::new(seed).branch(number);
        let request =
            if dice.once_in(3) { requests::genmp(&mut dice) } else { requests::one_point(&mut dice) };
        laws.examine(&request, dice.next());
        step(cases.len() + number);
    }
    laws
}

impl Laws {
    /// Takes in what another worker found.
    fn merge(&mut self, other: Laws) {
        for (key, found) in other.0 {
            let kept = self.0.entry(key).or_default();
            kept.tried += found.tried;
            kept.untried += found.untried;
            kept.broken = match (kept.broken.take(), found.broken) {
                (Some(one), Some(two)) => Some(one.with(two)),
                (one, two) => one.or(two),
            };
        }
    }

    /// Each key alone, because a wrong value hides among targets that are false beside it.
    fn examine_keys(&mut self, case: &Case, seed: u64) {
        let request = case.request();
        if !PROGRAMS.iter().any(|program| matches!(program.answer(&request), Some(Ok(_)))) {
            return;
        }
        match case.halves() {
            None => self.examine(&request, seed),
            Some(halves) => halves.iter().for_each(|half| self.examine_keys(half, seed)),
        }
    }

    fn examine(&mut self, request: &Request, seed: u64) {
        let law = LAWS[usize::from(request.act != "genmp")].1;
        for program in PROGRAMS {
            let Some(answer @ Ok(_)) = program.answer(request) else {
                continue;
            };
            let kept = self.0.entry((law, program.name())).or_default();
            let judged = judged_so(request, &answer, seed);
            *(if judged == Judged::Untried { &mut kept.untried } else { &mut kept.tried }) += 1;
            if judged == Judged::Broken {
                kept.note(program, request, seed);
            }
        }
    }
}

impl Broken {
    /// Both counts, and the smaller input.
    fn with(self, other: Broken) -> Broken {
        let count = self.count + other.count;
        let smaller = if measure(&other.smallest) < measure(&self.smallest) { other } else { self };
        Broken { count, ..smaller }
    }
}

impl Kept {
    fn note(&mut self, program: Program, request: &Request, seed: u64) {
        let count = self.broken.as_ref().map_or(0, |broken| broken.count) + 1;
        let mut smallest = self.broken.as_ref().map_or(request.clone(), |broken| broken.smallest.clone());
        if count <= SHRINKS {
            let found = shrink(request, &mut |smaller| judged(program, smaller, seed) == Judged::Broken);
            smallest = if count == 1 || measure(&found) < measure(&smallest) { found } else { smallest };
        }
        let classes = classes(program, &smallest);
        self.broken = Some(Broken { count, smallest, classes });
    }
}

/// Only what the given Rust alone does can be explained.
fn classes(program: Program, request: &Request) -> String {
    match compared(request, Variant::Unchanged) {
        Some((_, _, Verdict::Explained(classes))) if program == Program::Given => {
            classes.iter().map(|class| class.name()).collect::<Vec<_>>().join(" ")
        }
        _ => "UNEXPLAINED".to_string(),
    }
}

/// Whether some small valuation shows that the program's answer breaks its law.
pub fn judged(program: Program, request: &Request, seed: u64) -> Judged {
    program.answer(request).map_or(Judged::Untried, |answer| judged_so(request, &answer, seed))
}

fn judged_so(request: &Request, answer: &Answer, seed: u64) -> Judged {
    let judged = match request.act.as_str() {
        "genmp" => refutations_kept(request, answer, seed),
        _ => truth_kept(request, answer, seed),
    };
    judged.unwrap_or(Judged::Untried)
}

fn first_bytes(answer: &Answer) -> Option<&[u8]> {
    answer.as_ref().ok()?.first()?.bytes()
}

fn refutations_kept(request: &Request, answer: &Answer, seed: u64) -> Option<Judged> {
    let before = file::read(&request.buffers[0]).ok()?;
    let after = loose::sequent(first_bytes(answer)?)?;
    let formulas = before.hypotheses.iter().map(|hypothesis| &hypothesis.predicate).chain([&before.goal]);
    if formulas.map(most_variables).max() > Some(VARIABLES) {
        return None;
    }
    let alike = |valuation: &Valuation| {
        let (before, after) = (refutes(valuation, &before).ok()?, refutes(valuation, &after).ok()?);
        Some(before == after)
    };
    Some(over(&valuations::of(&before.types, &mut Dice::new(seed)), &alike))
}

fn truth_kept(request: &Request, answer: &Answer, seed: u64) -> Option<Judged> {
    let types = lent::types(&request.buffers[0]).ok()?;
    let before = lent::formula(&request.buffers[1], &types).ok()?;
    let after = loose::predicate(first_bytes(answer)?)?;
    if most_variables(&before).max(most_variables(&after)) > VARIABLES {
        return None;
    }
    let replacement = answer.as_ref().ok()?.get(1)?.bytes()?;
    let (replacement, _) = loose::formula(replacement, 0, codes::Sort::Expression)?;
    let alike = |valuation: &Valuation| {
        if !premise(valuation, before.declares(), &replacement) {
            return None;
        }
        Some(holds(valuation, &before).ok()? == holds(valuation, &after).ok()?)
    };
    Some(over(&valuations::of(&types, &mut Dice::new(seed)), &alike))
}

/// The verdict over some valuations, of which those that say nothing are left out.
fn over(valuations: &[Valuation], alike: &dyn Fn(&Valuation) -> Option<bool>) -> Judged {
    let mut judged = Judged::Untried;
    for kept in valuations.iter().filter_map(alike) {
        if !kept {
            return Judged::Broken;
        }
        judged = Judged::Kept;
    }
    judged
}

/// How many variables are in reach at the place where most are.
fn most_variables(tree: &Tree) -> usize {
    tree.declares() + tree.operands.iter().map(most_variables).max().unwrap_or(0)
}

/// Whether the replacement lies in lo..hi for all choices of the variables.
fn premise(valuation: &Valuation, variables: usize, replacement: &Tree) -> bool {
    choices(valuation, variables).iter().all(|chosen| {
        let found = value(valuation, chosen, replacement);
        matches!(found, Ok(Value::Number(number)) if (valuation.lo..=valuation.hi).contains(&number))
    })
}

/// Each law has to be tried on each program, but for what is named as missing; that must not be there.
fn absences(laws: &Laws, without: &Without) -> Vec<String> {
    let mut out = without.faults();
    for (act, law) in LAWS {
        for program in PROGRAMS {
            let tried = laws.0.get(&(law, program.name())).is_some_and(|kept| kept.tried > 0);
            if tried == without.names(program, act) {
                let so = if tried { "tried, and named as absent" } else { "never tried" };
                out.push(format!("{law}: {} is {so}", program.name()));
            }
        }
    }
    out
}

/// The summary, and whether only listed classes of the given Rust break a law, and none was left out.
pub fn report(laws: &Laws, without: &Without) -> (String, bool) {
    let mut out = format!("{:<34}{:<8}{:>8}{:>10}{:>8}\n", "law", "program", "tried", "not tried", "broken");
    let mut good = true;
    for ((law, program), Kept { tried, untried, broken }) in &laws.0 {
        let count = broken.as_ref().map_or(0, |broken| broken.count);
        out.push_str(&format!("{law:<34}{program:<8}{tried:>8}{untried:>10}{count:>8}\n"));
        let Some(Broken { smallest, classes, .. }) = broken else { continue };
        let listed = classes.split(' ').all(listed::is_listed);
        good &= listed;
        let mark = if listed { "" } else { " NOT LISTED" };
        out.push_str(&format!("    {classes}{mark}: {}\n", smallest.line()));
    }
    let absences = absences(laws, without);
    out.push_str(&told(&absences));
    let verdict = if good { "no law is broken but by listed classes" } else { "a law is broken" };
    out.push_str(&format!("{verdict}\n"));
    (out, good && absences.is_empty())
}

#[cfg(test)]
mod tests {
    use super::*;
    use answers::Part;

    #[test]
    fn joining_unlike_blocks_changes_truth() {
        let request = Request::parse("onepoint - 0802061021002101090115210025 100 100").expect("a request");
        assert_ne!(judged(Program::Paper, &request, 1), Judged::Broken);
        if given::missing().is_none() {
            assert_eq!(judged(Program::Given, &request, 1), Judged::Broken);
        }
    }

    #[test]
    fn a_wrong_step_is_seen() {
        // x=1, goal x=2; ⊤ for the goal loses the refuting valuation x=1.
        let (one, two) = ("220100000000000000", "220200000000000000");
        let before = format!("5351540100010100 00 00 10 2000{one} 10 2000{two}").replace(' ', "");
        let after = format!("5351540100010100 00 00 10 2000{one} 01").replace(' ', "");
        let bytes = |text: &str| answers::unhex(text).expect("hex");
        let request = Request::ample("genmp", vec![bytes(&before)]);
        let answer = |after: &str| Ok(vec![Part::Bytes(bytes(after)), Part::Bytes(vec![1, 1, 0, 0])]);
        assert_eq!(refutations_kept(&request, &answer(&after), 1), Some(Judged::Broken));
        assert_eq!(refutations_kept(&request, &answer(&before), 1), Some(Judged::Kept));
    }

    #[test]
    fn an_answer_outside_the_premise_is_not_tried() {
        // ∃x·x=9 gives ⊤, and 9 is in no interval that is tried.
        let request = Request::parse("onepoint - 0901102100220900000000000000 100 100").expect("a request");
        assert_eq!(judged(Program::Paper, &request, 1), Judged::Untried);
    }

    #[test]
    fn a_law_that_was_never_tried_is_no_success() {
        let missing: Vec<&str> = [Program::Ours, Program::Given]
            .into_iter()
            .filter(|program| program.missing().is_some())
            .map(Program::name)
            .collect();
        let without = Without::parse(Some(&missing.join(",")), None).expect("programs");
        let mut laws = Laws::default();
        assert!(!report(&laws, &without).1);
        for (act, law) in LAWS {
            for program in PROGRAMS.into_iter().filter(|program| !without.names(*program, act)) {
                laws.0.insert((law, program.name()), Kept { tried: 1, ..Kept::default() });
            }
        }
        assert!(report(&laws, &without).1);
        laws.0.insert((LAWS[0].1, "paper"), Kept { untried: 1, ..Kept::default() });
        assert!(!report(&laws, &without).1);
    }

    /// Every source meets some of its keys alone, under some valuation.
    #[test]
    fn keys_are_tried_alone() {
        let mut laws = Laws::default();
        let cases = exhaustive::cases(false);
        cases.iter().step_by(100).for_each(|case| laws.examine_keys(case, 1));
        let tried = laws.0.values().map(|kept| kept.tried).sum::<usize>();
        assert!(tried > cases.len() / 100, "{tried}");
        assert!(laws.0.values().all(|kept| kept.broken.is_none()));
    }
}

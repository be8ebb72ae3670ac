//! `compare bench`: genMP from bytes to bytes, and reading alone, by each program in one process.

use std::time::{Duration, Instant};

use paper::codes::*;
use paper::sequent::{Flag, Hypothesis, Sequent};
use paper::tree::{Tree, identifier, leaf, literal, node, truth, two};

use crate::edges::filler;
use crate::loose::sequent_bytes;
use crate::make::dice::Dice;
use crate::programs::Program;
use crate::request::Request;

/// The programs in the order of the columns.
const COLUMNS: [Program; 3] = [Program::Ours, Program::Paper, Program::Given];
/// How many times the fastest of is taken.
const ROUNDS: usize = 5;
/// From 1 KB to a full file.
const GROWING: [usize; 7] = [1_000, 2_000, 4_000, 8_000, 16_000, 32_000, 60_000];

/// Where a sequent's formulas meet.
#[derive(Clone, Copy, PartialEq, Eq, Debug)]
pub enum Matches {
    /// All relations come from a few, so that hypotheses are rewritten too.
    Everywhere,
    /// The goal repeats what hypotheses say.
    InGoal,
    /// One relation of the goal is a hypothesis.
    One,
}

/// Makes relations for formulas.
type Relations<'a> = &'a mut dyn FnMut(&mut Dice) -> Tree;

/// A sequent of exactly so many bytes, on which genMP succeeds.
pub fn input(bytes: usize, hypotheses: usize, matches: Matches) -> Vec<u8> {
    let (mut dice, mut next) = (Dice::new(7), 1000);
    let mut fresh = |dice: &mut Dice| {
        next += 2;
        order(dice, next)
    };
    let relations: Relations = if matches == Matches::Everywhere { &mut shared } else { &mut fresh };
    // As many as can be are relations alone, because those give most keys.
    let long = (bytes / 980 + 1).max(hypotheses * 3 / 4).min(hypotheses - 1);
    let share = (bytes - 30 - 13 * (hypotheses - long)).div_ceil(long + 1) - 1;
    let mut formulas: Vec<Tree> = Vec::new();
    while formulas.len() < hypotheses {
        let made = match formulas.len() < long {
            true => of_size(&mut dice, relations, share),
            false => relations(&mut dice),
        };
        if !formulas.contains(&made) {
            formulas.push(made);
        }
    }
    let known = formulas[long..].to_vec();
    let mut repeated = |dice: &mut Dice| dice.pick(&known);
    let mut first = vec![known[0].clone()];
    let mut once = |dice: &mut Dice| first.pop().unwrap_or_else(|| relations(dice));
    let of_goal: Relations = if matches == Matches::InGoal { &mut repeated } else { &mut once };
    let plain = |predicate: Tree| Hypothesis { flag: Flag::Plain, predicate };
    let hypotheses = formulas.into_iter().map(plain).collect();
    let mut sequent = Sequent { types: vec![0, 0, 2], hypotheses, goal: truth(true) };
    let left = bytes + 1 - sequent_bytes(&sequent).len();
    sequent.goal = of_size(&mut dice, of_goal, left);
    sequent_bytes(&sequent)
}

/// Connectives over relations, and ⊤ to fill up to so many bytes.
fn of_size(dice: &mut Dice, relation: Relations, bytes: usize) -> Tree {
    let mut parts = vec![relation(dice)];
    // A part has at most 25 bytes, and a connective two for each eight parts.
    while parts.iter().map(|part| part.size() + 1).sum::<usize>() + 30 < bytes {
        let made = relation(dice);
        parts.push(if dice.once_in(3) { two(IMPLIES, &made, &relation(dice)) } else { made });
    }
    while parts.len() > 1 {
        let groups = parts.chunks(8).map(|some| match some {
            [alone] => alone.clone(),
            several => node(dice.pick(&[AND, OR]), several.to_vec()),
        });
        parts = groups.collect();
    }
    let made = parts.remove(0);
    let filler = filler(bytes - 2 - made.size());
    node(AND, vec![made, filler])
}

fn order(dice: &mut Dice, number: i64) -> Tree {
    let code = dice.pick(&[EQUAL, LESS, LESS_EQUAL, GREATER, GREATER_EQUAL]);
    two(code, &identifier(dice.under(2) as i64), &literal(number))
}

/// One of a few relations.
fn shared(dice: &mut Dice) -> Tree {
    if dice.once_in(3) {
        return two(IN, &identifier(dice.under(2) as i64), &leaf(dice.pick(&[NATURAL, NATURAL1])));
    }
    let number = dice.under(6) as i64;
    order(dice, number)
}

/// The time of one answer: the fastest of some rounds, each long enough to be measured.
fn time(program: Program, request: &Request) -> Option<Duration> {
    let _ = program.answer(request)?;
    let once = Instant::now();
    program.answer(request);
    let repeats =
        (Duration::from_millis(30).as_nanos() / once.elapsed().as_nanos().max(1)).clamp(1, 100_000) as u32;
    let round = || {
        let start = Instant::now();
        for _ in 0..repeats {
            std::hint::black_box(program.answer(std::hint::black_box(request)));
        }
        start.elapsed() / repeats
    };
    (0..ROUNDS).map(|_| round()).min()
}

/// One row: microseconds by program, and beside each what `beside` makes of its time and the first's.
fn row(what: &str, request: &Request, beside: impl Fn(f64, f64) -> f64) -> String {
    // Rooms of exactly the result's size, so that no program is charged for clearing more.
    let request = request.exact().unwrap_or_else(|| request.clone());
    let times = COLUMNS.map(|program| time(program, &request).map(|time| time.as_secs_f64() * 1e6));
    let first = times.iter().flatten().next().copied().unwrap_or(1.0);
    let mut out = format!("{what:<48}");
    for found in times {
        out.push_str(&match found {
            Some(found) => format!("{found:>12.2} {:>9.2}", beside(found, first)),
            None => format!("{:>12} {:>9}", "absent", ""),
        });
    }
    out.push('\n');
    out
}

fn heading(what: &str, beside: &str) -> String {
    let mut out = format!("{what:<48}");
    COLUMNS.iter().for_each(|program| out.push_str(&format!("{:>12} {beside:>9}", program.name())));
    out.push('\n');
    out
}

/// How many times longer than the first program that is there.
fn ratio(found: f64, first: f64) -> f64 {
    found / first.max(1e-6)
}

/// The inputs besides growth. At 64 hypotheses none can be added, so that only the goal may match.
const INPUTS: [(usize, usize, Matches, &str); 5] = [
    (3_000, 20, Matches::Everywhere, "many matches"),
    (3_000, 20, Matches::InGoal, "in the goal"),
    (3_000, 20, Matches::One, "one match"),
    (60_000, 64, Matches::InGoal, "in the goal"),
    (60_000, 64, Matches::One, "one match"),
];

pub fn run() -> String {
    let mut out = heading("microseconds; ratio to the first there", "ratio");
    for act in ["genmp", "read"] {
        for (bytes, hypotheses, matches, words) in INPUTS {
            let what = format!("{act:<5} {bytes} bytes, {hypotheses} hypotheses, {words}");
            let request = Request::ample(act, vec![input(bytes, hypotheses, matches)]);
            out.push_str(&row(&what, &request, ratio));
        }
    }
    let formula = of_size(&mut Dice::new(3), &mut shared, 1_000).bytes();
    let what = format!("formula {} bytes", formula.len());
    out.push_str(&row(&what, &Request::ample("formula", vec![vec![0, 0, 2], formula]), ratio));
    out.push('\n');
    out.push_str(&growth());
    out
}

/// How many hypotheses go with so many bytes where cost is to be seen growing.
fn in_step(bytes: usize) -> usize {
    4 + bytes / 1_000
}

/// genMP and reading from 1 KB to 60 KB, with hypotheses in step.
fn growth() -> String {
    let mut out = heading("how cost grows; microseconds, and per KB", "per KB");
    for act in ["genmp", "read"] {
        for bytes in GROWING {
            let what = format!("{act:<5} {bytes} bytes, {} hypotheses", in_step(bytes));
            let request = Request::ample(act, vec![input(bytes, in_step(bytes), Matches::InGoal)]);
            out.push_str(&row(&what, &request, |found, _| found * 1e3 / bytes as f64));
        }
    }
    out
}

#[cfg(test)]
mod tests {
    use super::*;

    /// Exactly so many bytes and hypotheses, and a step that succeeds; its report tells the matches.
    #[test]
    fn inputs_are_what_they_are_called() {
        let growing = GROWING.map(|bytes| (bytes, in_step(bytes), Matches::InGoal, ""));
        for (bytes, hypotheses, matches, _) in [&INPUTS[..], &growing].concat() {
            let sequent = input(bytes, hypotheses, matches);
            assert_eq!((sequent.len(), usize::from(sequent[6])), (bytes, hypotheses));
            let answer = Program::Paper.answer(&Request::ample("genmp", vec![sequent]));
            let report = match &answer {
                Some(Ok(parts)) => parts[1].bytes().expect("a report"),
                refused => panic!("{bytes} bytes, {matches:?}: {refused:?}"),
            };
            let (origins, acts) = (report[1], report[2 + usize::from(report[1])]);
            match matches {
                Matches::Everywhere => assert!(acts > 10, "{report:?}"),
                Matches::InGoal => assert!(origins > 0 && acts == 0, "{report:?}"),
                Matches::One => assert_eq!((origins, acts), (1, 0)),
            }
        }
    }
}

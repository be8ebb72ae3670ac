//! `compare run`: all programs against each other on edges, small vocabularies and random requests.

pub mod bodies;
pub mod exhaustive;
pub mod tally;

use std::panic::{AssertUnwindSafe, catch_unwind};

use crate::absent::{Without, told};
use crate::edges;
use crate::listed;
use crate::make::dice::Dice;
use crate::make::requests;
use crate::programs::Program;
use crate::progress::Progress;
use crate::request::Request;
use crate::sample::kinds::ACTS;
use crate::workers::shared;
use tally::Tally;

/// All that is examined besides random requests.
struct Fixed {
    requests: Vec<Request>,
    cases: Vec<exhaustive::Case>,
}

/// Examines everything; the summary is written by `report`.
pub fn run(seed: u64, count: usize, wide: bool) -> Tally {
    let requests = [of_page(), edges::all(), bodies::requests()].concat();
    let fixed = Fixed { requests, cases: exhaustive::cases(wide) };
    let mut tally = Tally::default();
    let found = shared(|worker, workers| share(&fixed, seed, count, worker, workers));
    found.into_iter().for_each(|found| tally.merge(found));
    tally
}

/// The requests that docs/DIFFERENCES.md shows.
fn of_page() -> Vec<Request> {
    let entries = listed::entries(listed::PAGE);
    let blocks = entries.iter().flat_map(|entry| &entry.blocks);
    blocks.filter_map(|block| Request::parse(&block.request)).collect()
}

/// One worker's share; a random request depends on its number alone, and not on the worker.
fn share(fixed: &Fixed, seed: u64, count: usize, worker: usize, workers: usize) -> Tally {
    let mut tally = Tally::default();
    let of = fixed.requests.len() + fixed.cases.len() + count;
    let (mut done, mut progress) = (worker, Progress::new("requests"));
    let mut step = |done: &mut usize| {
        if worker == 0 {
            progress.show(*done, of);
        }
        *done += workers;
    };
    for request in fixed.requests.iter().skip(worker).step_by(workers) {
        caught(&mut tally, request, |tally| tally.examine(request));
        step(&mut done);
    }
    for case in fixed.cases.iter().skip(worker).step_by(workers) {
        caught(&mut tally, &case.request(), |tally| exhaustive::examine(tally, case));
        step(&mut done);
    }
    for number in (worker..count).step_by(workers) {
        let request = requests::any(&mut Dice::new(seed).branch(number));
        caught(&mut tally, &request, |tally| tally.examine(&request));
        step(&mut done);
    }
    tally
}

/// A program that panics is a fault with its request, and the run goes on.
fn caught(tally: &mut Tally, request: &Request, examine: impl FnOnce(&mut Tally)) {
    if catch_unwind(AssertUnwindSafe(|| examine(tally))).is_err() {
        tally.panicked(request);
    }
}

/// What was not there, or not asked, and should have been.
fn absences(tally: &Tally, without: &Without) -> Vec<String> {
    let mut out = without.faults();
    out.extend(tally.ours.unasked(&[&ACTS[..], &["formula", "expression"]].concat()));
    if !without.programs.contains(&Program::Ours) {
        out.extend(tally.ours.faults(&without.acts));
    }
    if !without.programs.contains(&Program::Given) && tally.given.min(tally.cut).min(tally.accepted) == 0 {
        out.push("nothing was answered by given".to_string());
    }
    out
}

/// The summary, and whether nothing is unexplained or missing.
pub fn report(tally: &Tally, without: &Without) -> (String, bool) {
    let mut out = format!("{} requests\n", tally.requests);
    out.push_str(&format!("{} answered by ours and by paper, rooms varied\n", tally.ours.answers()));
    out.push_str(&format!("{} accepted requests answered by paper and by given-cut\n", tally.cut));
    let (given, accepted) = (tally.given, tally.accepted);
    out.push_str(&format!(
        "{given} accepted requests answered by paper and by given, {accepted} with success\n"
    ));
    out.push_str(&format!(
        "{} differences between paper and given, by class with its smallest input:\n",
        tally.differing
    ));
    let mut unlisted = 0;
    for (class, found) in &tally.classes {
        let listed = if listed::is_listed(class.name()) {
            ""
        } else {
            unlisted += 1;
            " NOT LISTED in docs/DIFFERENCES.md"
        };
        out.push_str(&format!("{:>8}  {}{listed}\n", found.count, class.name()));
        out.push_str(&format!("          {}\n", found.smallest.line()));
    }
    for fault in &tally.faults {
        let [first, second] = &fault.answers;
        out.push_str(&format!("UNEXPLAINED between {}: {}\n", fault.between, fault.request.line()));
        out.push_str(&format!("    {first}\n    {second}\n"));
    }
    let absences = absences(tally, without);
    out.push_str(&told(&absences));
    out.push_str(&format!("{} unexplained, {unlisted} classes not listed\n", tally.fault_count));
    (out, tally.fault_count == 0 && unlisted == 0 && absences.is_empty())
}

#[cfg(test)]
mod tests {
    use super::*;

    /// A tally in which every act was asked, and answered where it is none of these.
    fn tally(absent: &[&str]) -> Tally {
        let mut tally = Tally { requests: 9, given: 4, cut: 4, accepted: 2, ..Tally::default() };
        for act in ACTS.into_iter().chain(["formula", "expression"]) {
            tally.ours.note(act, !absent.contains(&act));
        }
        tally
    }

    /// Only what the tally says; whether programs are there is asked elsewhere.
    fn faults(tally: &Tally, acts: &str) -> usize {
        let without = Without::parse(None, Some(acts)).expect("acts");
        absences(tally, &without).len() - without.faults().len()
    }

    #[test]
    fn acts_of_ours_are_absent_exactly_if_they_are_named() {
        assert_eq!(faults(&tally(&[]), ""), 0);
        assert_eq!(faults(&tally(&["genmp"]), "genmp"), 0);
        assert_eq!(faults(&tally(&["genmp"]), ""), 1);
        assert_eq!(faults(&tally(&[]), "genmp"), 1);
    }

    #[test]
    fn a_run_that_asks_nothing_is_no_success() {
        assert!(!report(&Tally::default(), &Without::default()).1);
        let every = Without::parse(Some("ours,given"), None).expect("programs");
        assert!(!report(&Tally::default(), &every).1);
        let nothing_given = Tally { given: 0, ..tally(&[]) };
        assert_eq!(faults(&nothing_given, ""), 1);
    }

    /// Without a library and without the given Rust, a run says so and fails.
    #[test]
    fn a_missing_program_is_no_success() {
        let missing =
            [Program::Ours, Program::Given].iter().filter(|program| program.missing().is_some()).count();
        assert_eq!(Without::default().faults().len(), missing);
        assert_eq!(Without::parse(Some("ours,given"), None).expect("programs").faults().len(), 2 - missing);
    }
}

//! What a run found: differences by class with their smallest inputs, and everything unexplained.

use std::collections::BTreeMap;

use answers::{Answer, Part};
use given::Variant;

use crate::absent::Answered;
use crate::explain::class::Class;
use crate::explain::{Verdict, beside, compared, is_reading};
use crate::programs::Program;
use crate::request::{AMPLE, Request, answer_line};
use crate::shrink::{measure, shrink};

/// How often a class is shrunk anew; more often finds nothing smaller.
const SHRINKS: usize = 4;
/// How many unexplained differences are shown.
const SHOWN: usize = 10;

/// A class's differences.
pub struct Found {
    pub count: usize,
    pub smallest: Request,
    /// How many classes the smallest input needs.
    classes: usize,
    shrinks: usize,
}

/// Which two programs disagreed, and on what.
pub struct Fault {
    pub between: &'static str,
    pub request: Request,
    pub answers: [String; 2],
}

#[derive(Default)]
pub struct Tally {
    pub requests: usize,
    /// What ours was asked, and what it answered beside paper.
    pub ours: Answered,
    /// Accepted requests answered by given and given-cut.
    pub given: usize,
    pub cut: usize,
    pub accepted: usize,
    pub differing: usize,
    pub classes: BTreeMap<Class, Found>,
    pub faults: Vec<Fault>,
    pub fault_count: usize,
}

impl Tally {
    /// Holds all programs against each other on one request. Document 01's program, the slowest, is asked
    /// no more often than need be.
    pub fn examine(&mut self, request: &Request) {
        self.requests += 1;
        let paper = Program::Paper.answer(request);
        let is_ours = self.against_ours(request, &paper);
        self.against_reading(request, &paper);
        let ample = request.with_rooms(vec![AMPLE; request.rooms.len()]);
        let paper = if ample.rooms == request.rooms { paper } else { Program::Paper.answer(&ample) };
        let Some(paper) = paper else { return };
        self.against_rooms(&ample, &paper, is_ours);
        self.against_given(&ample, &paper, Variant::Cut);
        self.against_given(&ample, &paper, Variant::Unchanged);
    }

    /// Whether the given Rust differs on a request with ample rooms, which is not classed; the others are
    /// held as ever.
    pub fn differs(&mut self, request: &Request) -> bool {
        self.requests += 1;
        let Some(paper) = Program::Paper.answer(request) else {
            return false;
        };
        let given = Program::Given.answer(request);
        self.given += usize::from(given.is_some());
        self.accepted += usize::from(given.is_some() && paper.is_ok());
        self.against_given(request, &paper, Variant::Cut);
        let paper = Some(paper);
        self.against_ours(request, &paper);
        given.is_some() && given != paper
    }

    /// Takes in what another worker found.
    pub fn merge(&mut self, other: Tally) {
        self.requests += other.requests;
        self.ours.merge(other.ours);
        self.given += other.given;
        self.cut += other.cut;
        self.accepted += other.accepted;
        self.differing += other.differing;
        self.fault_count += other.fault_count;
        self.faults.extend(other.faults);
        for (class, found) in other.classes {
            let count = found.count;
            self.note(class, found.smallest, found.classes, found.shrinks);
            if let Some(known) = self.classes.get_mut(&class) {
                known.count += count - 1;
            }
        }
    }

    /// Whether ours has the act.
    fn against_ours(&mut self, request: &Request, paper: &Option<Answer>) -> bool {
        let ours = Program::Ours.answer(request);
        self.ours.note(&request.act, ours.is_some());
        if ours.is_some() && ours != *paper {
            let mut keeps = |smaller: &Request| {
                let ours = Program::Ours.answer(smaller);
                ours.is_some() && ours != Program::Paper.answer(smaller)
            };
            self.fault("ours and paper", request, [Program::Ours, Program::Paper], &mut keeps);
        }
        ours.is_some()
    }

    /// Exact rooms suffice for what was answered with ample ones, and a room one byte short is 14.
    fn against_rooms(&mut self, request: &Request, paper: &Answer, is_ours: bool) {
        // Without ours this only asks the paper program of itself, so that a few requests will do.
        let due = is_ours || self.requests.is_multiple_of(8);
        let (Ok(parts), true) = (paper, due && !request.rooms.is_empty()) else {
            return;
        };
        let lengths: Vec<usize> = parts.iter().filter_map(Part::bytes).map(<[u8]>::len).collect();
        self.in_rooms(&request.with_rooms(lengths.clone()), &answers::line(paper));
        for index in 0..lengths.len() {
            for short in [0, lengths[index] - 1] {
                let mut rooms = lengths.clone();
                rooms[index] = short;
                self.in_rooms(&request.with_rooms(rooms), "refuse 14 0");
            }
        }
    }

    /// Both programs in these rooms, of which paper has to say this.
    fn in_rooms(&mut self, request: &Request, expected: &str) {
        let paper = Program::Paper.answer(request);
        let found = answer_line(&paper);
        if found != expected {
            self.add("paper and its rooms", request, [found, expected.to_string()]);
        }
        self.against_ours(request, &paper);
    }

    /// A result is within the limits: document 01's program reads what it wrote.
    fn against_reading(&mut self, request: &Request, paper: &Option<Answer>) {
        let Some(Ok(parts)) = paper else { return };
        let Some(written) = parts.iter().find_map(Part::bytes) else { return };
        let again = if request.has_sequent() {
            Request::ample("read", vec![written.to_vec()])
        } else {
            Request::ample("formula", vec![request.buffers[0].clone(), written.to_vec()])
        };
        let read = Program::Paper.answer(&again);
        if !matches!(read, Some(Ok(_))) {
            self.add("paper and its reading", request, [answer_line(paper), answer_line(&read)]);
        }
    }

    /// The request has ample rooms.
    fn against_given(&mut self, request: &Request, paper: &Answer, variant: Variant) {
        let Some((_, verdict)) = beside(request, paper, variant) else {
            return;
        };
        let is_accepted = !matches!(paper, Err(refusal) if is_reading(refusal));
        match variant {
            Variant::Cut => self.cut += usize::from(is_accepted),
            Variant::Unchanged => {
                self.accepted += usize::from(is_accepted && paper.is_ok());
                self.given += usize::from(is_accepted);
            }
        }
        match verdict {
            Verdict::Same => {}
            Verdict::Explained(classes) if variant == Variant::Unchanged => self.explained(request, &classes),
            // The cut lists are document 01's, so that only joining and limits may differ.
            Verdict::Explained(_) => {}
            Verdict::Unexplained => self.unexplained(request, variant),
        }
    }

    fn unexplained(&mut self, request: &Request, variant: Variant) {
        let mut keeps = |smaller: &Request| {
            compared(smaller, variant).is_some_and(|(_, _, verdict)| verdict == Verdict::Unexplained)
        };
        let (between, program) = match variant {
            Variant::Cut => ("paper and given-cut", Program::GivenCut),
            Variant::Unchanged => ("paper and given", Program::Given),
        };
        self.fault(between, request, [Program::Paper, program], &mut keeps);
    }

    fn explained(&mut self, request: &Request, classes: &[Class]) {
        self.differing += 1;
        for class in classes {
            let known = self.classes.get(class);
            let shrinks = known.map_or(0, |found| found.shrinks);
            let smaller = known.is_none_or(|found| measure(request) < measure(&found.smallest));
            let (small, needed, shrinks) = if shrinks < SHRINKS || smaller {
                let (small, needed) = smallest_of_class(request, *class, classes.len());
                (small, needed, shrinks + 1)
            } else {
                (request.clone(), classes.len(), shrinks)
            };
            self.note(*class, small, needed, shrinks);
        }
    }

    fn note(&mut self, class: Class, small: Request, needed: usize, shrinks: usize) {
        let Some(found) = self.classes.get_mut(&class) else {
            self.classes.insert(class, Found { count: 1, smallest: small, classes: needed, shrinks });
            return;
        };
        found.count += 1;
        found.shrinks = shrinks;
        if (needed, measure(&small)) < (found.classes, measure(&found.smallest)) {
            (found.smallest, found.classes) = (small, needed);
        }
    }

    fn fault(
        &mut self,
        between: &'static str,
        request: &Request,
        programs: [Program; 2],
        keeps: &mut dyn FnMut(&Request) -> bool,
    ) {
        let shown = self.faults.len() < SHOWN;
        let small = if shown { shrink(request, keeps) } else { request.clone() };
        self.add(between, &small, programs.map(|program| answer_line(&program.answer(&small))));
    }

    /// Every fault counts, and the first few are shown.
    fn add(&mut self, between: &'static str, request: &Request, answers: [String; 2]) {
        self.fault_count += 1;
        if self.faults.len() < SHOWN {
            self.faults.push(Fault { between, request: request.clone(), answers });
        }
    }

    /// A request on which a program did not come to an answer at all.
    pub fn panicked(&mut self, request: &Request) {
        let words = ["no answer: a program panicked".to_string(), "an answer".to_string()];
        self.add("a program and its end", request, words);
    }
}

/// The smallest input that still shows the class, needing no more classes than before.
pub fn smallest_of_class(request: &Request, class: Class, classes: usize) -> (Request, usize) {
    let mut needed = classes;
    let mut keeps = |smaller: &Request| match compared(smaller, Variant::Unchanged) {
        Some((_, _, Verdict::Explained(found))) if found.contains(&class) && found.len() <= needed => {
            needed = found.len();
            true
        }
        _ => false,
    };
    let small = shrink(request, &mut keeps);
    (small, needed)
}

#[cfg(test)]
mod tests {
    use super::*;

    #[test]
    fn a_class_is_shrunk_to_its_heart() {
        if given::missing().is_some() {
            return;
        }
        // 0≤x∧⊤ beside 0≤x and an idle hypothesis, goal x∈ℕ∨⊥.
        let zero = "220000000000000000";
        let file = format!("5351540100010300000012{zero}20000202010402 12{zero}2000 01 0502 152000 24 02");
        let bytes = answers::unhex(&file.replace(' ', "")).expect("hex");
        let mut tally = Tally::default();
        tally.examine(&Request::ample("genmp", vec![bytes]));
        let found = tally.classes.get(&Class::ZeroForms).expect("the class of zero forms");
        let heart = "genmp 5351540100010100000012220000000000000000200015200024 60000 60000";
        assert_eq!(found.smallest.line(), heart);
        assert!(tally.faults.is_empty());
    }
}

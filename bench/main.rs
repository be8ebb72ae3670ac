//! Holds the proved formula reader against a plain one in Rust: that they agree, then how fast they are.

mod formulas;
mod ours;
mod plain;

use formulas::{damage, formula, shapes, Kind, Random, TYPES};
use plain::{Refusal, Sort};
use std::collections::BTreeMap;
use std::hint::black_box;
use std::process::ExitCode;
use std::time::Instant;

type Read = fn(&[u8], &[u8], Sort, usize) -> Result<usize, Refusal>;

/// How many times each answer came (0: read), and how many differ.
#[derive(Default)]
struct Agreement {
    answers: BTreeMap<usize, usize>,
    differ: usize,
}

impl Agreement {
    fn ask(&mut self, s: &[u8], types: &[u8], sort: Sort, start: usize) {
        let (ours, plain) =
            (ours::read_formula(s, types, sort, start), plain::read_formula(s, types, sort, start));
        *self.answers.entry(plain.map_or_else(|r| r.number, |_| 0)).or_default() += 1;
        if ours != plain {
            self.differ += 1;
            if self.differ <= 3 {
                println!("DIFFER: ours {ours:?}, plain {plain:?}, {sort:?} at {start} of {s:02x?}");
            }
        }
    }

    /// An agreement that never met one of the answers would show little.
    fn holds(&self) -> bool {
        self.differ == 0 && [0, 1, 7, 8, 9].iter().all(|number| self.answers.contains_key(number))
    }
}

fn random_sort(random: &mut Random) -> Sort {
    if random.below(4) == 0 {
        Sort::Expression
    } else {
        Sort::Predicate
    }
}

fn random_kind(random: &mut Random, sort: Sort) -> Kind {
    match sort {
        Sort::Predicate => Kind::Predicate,
        Sort::Expression => [Kind::Integer, Kind::Truth, Kind::Set, Kind::Pair][random.below(4)],
    }
}

/// Most formulas are small; some reach level 33 and 1,025 bytes.
fn random_levels(random: &mut Random) -> usize {
    let deepest = if random.below(50) == 0 { 36 } else { 8 };
    2 + random.below(deepest - 2)
}

fn agreement(formulas: usize) -> Agreement {
    let mut random = Random(88172645463325252);
    let mut found = Agreement::default();
    for _ in 0..formulas {
        let sort = random_sort(&mut random);
        let (kind, levels) = (random_kind(&mut random, sort), random_levels(&mut random));
        let mut bytes = formula(&mut random, kind, levels);
        bytes.truncate(4096);
        damage(&mut random, &mut bytes);
        let start = random.below(8).min(bytes.len());
        let types = &TYPES[..4 - random.below(8) / 7];
        found.ask(&bytes, types, sort, 0);
        found.ask(&bytes, types, sort, start);
    }
    found
}

fn seconds(read: Read, s: &[u8], times: usize) -> f64 {
    let begin = Instant::now();
    for _ in 0..times {
        let _ = black_box(read(black_box(s), black_box(&TYPES), Sort::Predicate, 0));
    }
    begin.elapsed().as_secs_f64() / times as f64
}

/// A shape, and the best time of each reader on it.
struct Race {
    name: &'static str,
    bytes: Vec<u8>,
    ours: f64,
    plain: f64,
}

impl Race {
    fn new((name, bytes): (&'static str, Vec<u8>)) -> Race {
        Race { name, bytes, ours: f64::MAX, plain: f64::MAX }
    }

    fn round(&mut self) {
        let times = 150_000 / self.bytes.len().max(50);
        self.ours = self.ours.min(seconds(ours::read_formula, &self.bytes, times));
        self.plain = self.plain.min(seconds(plain::read_formula, &self.bytes, times));
    }

    fn print(&self) {
        let rate = |time: f64| self.bytes.len() as f64 / time / 1e6;
        println!(
            "{:12}{:6}{:12.1}{:9.1}{:12.1}{:9.1}{:8.2}",
            self.name,
            self.bytes.len(),
            self.ours * 1e9,
            rate(self.ours),
            self.plain * 1e9,
            rate(self.plain),
            self.plain / self.ours
        );
    }
}

/// Many short rounds, each over every shape and both readers, so that a busy machine slows all alike.
fn races() -> Vec<Race> {
    const ROUNDS: usize = 300;
    let mut races: Vec<Race> = shapes().into_iter().map(Race::new).collect();
    for _ in 0..ROUNDS {
        races.iter_mut().for_each(Race::round);
    }
    races
}

fn main() -> ExitCode {
    let formulas = std::env::args().nth(1).map_or(300_000, |n| n.parse().expect("a number of formulas"));
    let found = agreement(formulas);
    println!("{} differ; times each answer came (0: read): {:?}", found.differ, found.answers);
    if !found.holds() {
        println!("refused: the readers differ, or an answer never came");
        return ExitCode::FAILURE;
    }
    println!(
        "{:12}{:>6}{:>12}{:>9}{:>12}{:>9}{:>8}",
        "best of each", "bytes", "ours ns", "MB/s", "plain ns", "MB/s", "ratio"
    );
    races().iter().for_each(Race::print);
    ExitCode::SUCCESS
}

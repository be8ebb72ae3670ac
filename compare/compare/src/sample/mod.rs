//! `compare sample`: a stored sample of the oracle's answers, for a program that replays them. The
//! requests come from the makers of `compare run`. Of each chapter (an edge of document 01, or what the
//! seed gives), act and kind of answer a fixed number is kept, so that no rare kind is lost.

pub mod kinds;
pub mod planted;
mod strata;
#[cfg(test)]
mod tests;

use std::collections::{BTreeMap, BTreeSet};

use answers::Answer;
use given::Variant;

use crate::edges;
use crate::explain::{Verdict, compared};
use crate::make::dice::Dice;
use crate::make::requests;
use crate::programs::Program;
use crate::request::{Request, answer_line};
use kinds::{ACTS, Kind, headings};

/// The seed of the sample that is stored.
pub const SEED: u64 = 1;
/// How many random requests there are to choose from.
const RANDOM: usize = 20_000;
/// Of these, how many are kept of an act and a kind: of successes and of refusals.
const OF_RANDOM: [usize; 2] = [70, 10];
/// The same of each chapter of edges that is not kept whole.
const OF_EDGES: [usize; 2] = [10, 6];
/// A chapter of edges that has no more requests is kept whole.
const WHOLE: usize = 170;
/// How many successes of an act and a kind are asked again with other rooms.
const OF_ROOMS: usize = 5;
/// How many bytes a random request and an edge may lend; of longer ones there are those of
/// `edges::longest` alone.
const MOST_BYTES: [usize; 2] = [160, 2_500];

/// A request with document 01's answer.
#[derive(Clone, Debug)]
pub struct Line {
    pub request: Request,
    pub answer: Answer,
    pub kind: Kind,
}

impl Line {
    fn of(request: Request) -> Option<Line> {
        let answer = Program::Paper.answer(&request)?;
        let kind = Kind::of(&request, &answer);
        Some(Line { request, answer, kind })
    }

    pub fn text(&self) -> String {
        format!("{} -> {}", self.request.line(), answers::line(&self.answer))
    }
}

/// The sample, or the first line on which the given Rust over document 01's lists differs.
pub fn sample(seed: u64) -> Result<Vec<Line>, String> {
    let mut out = lines([edges::examples(), edges::longest()].concat());
    for chapter in edges::chapters() {
        let chapter = lines(short(chapter, MOST_BYTES[1]));
        out.extend(if chapter.len() <= WHOLE { chapter } else { strata::chosen(chapter, OF_EDGES) });
    }
    let random = random(seed).take(RANDOM).collect();
    let random = strata::chosen(lines(short(random, MOST_BYTES[0])), OF_RANDOM);
    out.extend(strata::chosen(random.clone(), [OF_ROOMS, 0]).iter().flat_map(with_rooms));
    out.extend(random);
    let mut seen = BTreeSet::new();
    out.retain(|line| seen.insert(line.request.clone()));
    out.iter().try_for_each(held)?;
    Ok(out)
}

/// As `compare run` makes them.
fn random(seed: u64) -> impl Iterator<Item = Request> {
    (0..).map(move |number| requests::any(&mut Dice::new(seed).branch(number)))
}

/// Requests of the sample's acts that lend no more bytes than this.
fn short(requests: Vec<Request>, most: usize) -> Vec<Request> {
    let fits = |request: &Request| ACTS.contains(&request.act.as_str()) && request.size() <= most;
    requests.into_iter().filter(fits).collect()
}

fn lines(requests: Vec<Request>) -> Vec<Line> {
    requests.into_iter().filter_map(Line::of).collect()
}

/// A success asked again with rooms of exactly its lengths, of a byte more, of a byte less, and of none.
fn with_rooms(line: &Line) -> Vec<Line> {
    let Some(exact) = line.request.exact().filter(|exact| !exact.rooms.is_empty()) else {
        return Vec::new();
    };
    let mut out = vec![exact.clone(), exact.with_rooms(exact.rooms.iter().map(|room| room + 1).collect())];
    for index in 0..exact.rooms.len() {
        for room in [exact.rooms[index] - 1, 0] {
            let mut rooms = exact.rooms.clone();
            rooms[index] = room;
            out.push(exact.with_rooms(rooms));
        }
    }
    lines(out)
}

/// Where the given Rust is there, it has to agree over document 01's lists.
fn held(line: &Line) -> Result<(), String> {
    match compared(&line.request, Variant::Cut) {
        Some((paper, given, verdict)) if !is_agreed(&paper, &verdict) => {
            let given = answer_line(&given);
            Err(format!("paper and given-cut differ: {}, but given-cut says {given}", line.text()))
        }
        _ => Ok(()),
    }
}

/// The given Rust has no limits and joins unlike blocks, so that it may accept what document 01 refuses.
fn is_agreed(paper: &Answer, verdict: &Verdict) -> bool {
    *verdict == Verdict::Same || (paper.is_err() && *verdict != Verdict::Unexplained)
}

/// How many lines there are of each act and kind, as a table.
pub fn table(lines: &[Line]) -> String {
    let mut counts: BTreeMap<(&str, String), usize> = BTreeMap::new();
    for line in lines {
        *counts.entry((line.request.act.as_str(), line.kind.heading())).or_default() += 1;
    }
    let row = |name: &str, cell: &dyn Fn(&String) -> String| {
        let cells: Vec<String> = headings().iter().map(|heading| format!("{:>10}", cell(heading))).collect();
        format!("{name:<9}{}\n", cells.concat().trim_end())
    };
    let mut out = row("", &String::clone);
    for act in ACTS {
        let count = |heading: &String| counts.get(&(act, heading.clone())).map(usize::to_string);
        out.push_str(&row(act, &|heading| count(heading).unwrap_or_default()));
    }
    let planted = planted::lines(lines).len();
    out.push_str(&format!("{} lines, and {planted} planted wrong ones\n", lines.len()));
    out
}

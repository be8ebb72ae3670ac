//! `compare drift`: replays an archive of sequents on two programs and lists where they part.

pub mod archive;
pub mod csv;
pub mod html;
pub mod told;

use std::collections::BTreeSet;
use std::fs;
use std::io;
use std::path::{Path, PathBuf};

use answers::Answer;
use given::Variant;

use crate::absent::{Answered, told as told_faults};
use crate::explain::{self, Verdict};
use crate::listed;
use crate::programs::Program;
use crate::progress::Progress;
use crate::request::{AMPLE, Request};

/// What one file of an archive may have; a sequent has 60,000 at most, and an act's line some more.
const MOST_BYTES: u64 = 1 << 24;

/// One act on one file, and what became of it.
pub struct Obligation {
    pub file: String,
    pub request: Request,
    /// The program that is held to the given Rust: ours, if no other is named.
    pub by: Program,
    pub first: Option<Answer>,
    /// What the given Rust gave.
    pub second: Option<Answer>,
    pub outcome: Outcome,
}

#[derive(Clone, PartialEq, Eq, PartialOrd, Ord, Debug)]
pub enum Outcome {
    Unexplained,
    /// Why there is nothing to compare.
    NotCompared(String),
    /// The first program has no such act.
    Absent,
    /// The entries of docs/DIFFERENCES.md.
    Drift(Vec<String>),
    Same,
}

impl Outcome {
    pub fn words(&self) -> String {
        match self {
            Outcome::Same => "same".to_string(),
            Outcome::Drift(names) => names.join(" "),
            Outcome::Unexplained => "UNEXPLAINED".to_string(),
            Outcome::NotCompared(why) => format!("not compared: {why}"),
            Outcome::Absent => "absent: the act is not there".to_string(),
        }
    }
}

/// A file, or a line of one, that could not be replayed.
pub struct Unread {
    pub file: String,
    pub why: String,
}

#[derive(Default)]
pub struct Drift {
    pub obligations: Vec<Obligation>,
    pub unread: Vec<Unread>,
    /// What was absent and not named, or named and there.
    pub faults: Vec<String>,
}

/// Replays every *.sqt of a folder and of the folders in it by one program, which may lack these acts.
pub fn run(folder: &Path, by: Program, absent: &BTreeSet<String>) -> io::Result<Drift> {
    let mut files: Vec<PathBuf> = Vec::new();
    collect(folder, &mut files)?;
    if files.is_empty() {
        return Err(io::Error::new(io::ErrorKind::NotFound, "no sequent file (*.sqt) in this folder"));
    }
    files.sort();
    let (mut drift, mut answered) = (Drift::default(), Answered::default());
    let mut progress = Progress::new("files");
    for (index, path) in files.iter().enumerate() {
        replay(folder, path, by, &mut drift);
        progress.show(index, files.len());
    }
    for obligation in &drift.obligations {
        answered.note(&obligation.request.act, obligation.first.is_some());
    }
    drift.faults = answered.faults(absent);
    Ok(drift)
}

/// Links to folders are not followed, because they may lead round in a circle.
fn collect(folder: &Path, files: &mut Vec<PathBuf>) -> io::Result<()> {
    for entry in fs::read_dir(folder)? {
        let entry = entry?;
        let path = entry.path();
        if entry.file_type()?.is_dir() {
            collect(&path, files)?;
        } else if path.extension().is_some_and(|ending| ending == "sqt") {
            files.push(path);
        }
    }
    Ok(())
}

/// A file that is far too long for a sequent is not taken in.
fn bytes_of(path: &Path) -> io::Result<Vec<u8>> {
    let length = fs::metadata(path)?.len();
    if length > MOST_BYTES {
        return Err(io::Error::other(format!("{length} bytes are too many")));
    }
    fs::read(path)
}

/// read and genMP on one file, and the acts listed beside it; what cannot be read is noted.
fn replay(folder: &Path, path: &Path, by: Program, drift: &mut Drift) {
    let name = |path: &Path| path.strip_prefix(folder).unwrap_or(path).to_string_lossy().into_owned();
    let mut unread = |path: &Path, why: String| drift.unread.push(Unread { file: name(path), why });
    let sequent = match bytes_of(path) {
        Ok(sequent) => sequent,
        Err(why) => return unread(path, why.to_string()),
    };
    let mut requests = ["read", "genmp"].map(|act| Request::ample(act, vec![sequent.clone()])).to_vec();
    let acts = path.with_extension("acts");
    match bytes_of(&acts) {
        Ok(text) => {
            let text = String::from_utf8_lossy(&text);
            for (index, line) in text.lines().enumerate().filter(|(_, line)| !line.trim().is_empty()) {
                match act_on(&sequent, line) {
                    Some(request) => requests.push(request),
                    None => unread(&acts, format!("line {} is no act", index + 1)),
                }
            }
        }
        Err(why) if why.kind() == io::ErrorKind::NotFound => {}
        Err(why) => unread(&acts, why.to_string()),
    }
    let file = name(path);
    drift.obligations.extend(requests.into_iter().map(|request| obligation(&file, by, request)));
}

/// A line of an `.acts` file: a request without its sequent. One that is whole, such as one-point's,
/// stands as it is.
fn act_on(sequent: &[u8], line: &str) -> Option<Request> {
    let (act, rest) = line.trim().split_once(' ').unwrap_or((line.trim(), ""));
    if !matches!(
        act,
        "read" | "select" | "deselect" | "hide" | "show" | "modify" | "forward" | "rewrite" | "genmp"
    ) {
        return Request::parse(line);
    }
    Request::parse(&format!("{act} {} {rest}", answers::hex(sequent)))
}

/// Rooms are ample, because the given Rust has none.
fn obligation(file: &str, by: Program, request: Request) -> Obligation {
    let request = request.with_rooms(vec![AMPLE; request.rooms.len()]);
    let (first, second) = (by.answer(&request), Program::Given.answer(&request));
    let outcome = outcome(&request, &first);
    Obligation { file: file.to_string(), request, by, first, second, outcome }
}

fn outcome(request: &Request, first: &Option<Answer>) -> Outcome {
    if first.is_none() {
        return Outcome::Absent;
    }
    let Some((paper, _, verdict)) = explain::compared(request, Variant::Unchanged) else {
        let missing = Program::Given.missing().map(|_| "the given Rust is not there");
        return Outcome::NotCompared(missing.unwrap_or("the given Rust has no such act").to_string());
    };
    // The classes explain document 01's answer, so the first program has to give that one.
    if first.as_ref() != Some(&paper) {
        return Outcome::Unexplained;
    }
    match (verdict, paper) {
        (Verdict::Same, Err(refusal)) if explain::is_reading(&refusal) => {
            Outcome::NotCompared("refused while it was read".to_string())
        }
        (Verdict::Same, _) => Outcome::Same,
        (Verdict::Unexplained, _) => Outcome::Unexplained,
        (Verdict::Explained(classes), _) => {
            let names: Vec<String> = classes.iter().map(|class| class.name().to_string()).collect();
            let listed = names.iter().all(|name| listed::is_listed(name));
            if listed { Outcome::Drift(names) } else { Outcome::Unexplained }
        }
    }
}

/// How many obligations came out so.
pub struct Counts {
    pub all: usize,
    pub same: usize,
    pub drift: usize,
    pub unexplained: usize,
    pub not_compared: usize,
    pub absent: usize,
}

impl Drift {
    pub fn counts(&self) -> Counts {
        let of = |wanted: &dyn Fn(&Outcome) -> bool| {
            self.obligations.iter().filter(|obligation| wanted(&obligation.outcome)).count()
        };
        Counts {
            all: self.obligations.len(),
            same: of(&|outcome| *outcome == Outcome::Same),
            drift: of(&|outcome| matches!(outcome, Outcome::Drift(_))),
            unexplained: of(&|outcome| *outcome == Outcome::Unexplained),
            not_compared: of(&|outcome| matches!(outcome, Outcome::NotCompared(_))),
            absent: of(&|outcome| *outcome == Outcome::Absent),
        }
    }

    /// A few lines for each obligation that drifts, and the counts on the last.
    pub fn text(&self, all: bool) -> String {
        let mut out = String::new();
        for obligation in &self.obligations {
            if all || obligation.outcome != Outcome::Same {
                out.push_str(&text_of(obligation));
            }
        }
        for Unread { file, why } in &self.unread {
            out.push_str(&format!("{file}: {why}\n"));
        }
        out.push_str(&format!("{}{}\n", told_faults(&self.faults), self.last_line()));
        out
    }

    pub fn last_line(&self) -> String {
        let Counts { all, same, drift, unexplained, not_compared, absent } = self.counts();
        let unread = self.unread.len();
        let compared = format!("{all} obligations: {same} same, {drift} drift, {unexplained} UNEXPLAINED");
        let rest = format!("{not_compared} not compared, {absent} absent");
        format!("{compared}, {rest}; {unread} files or lines not readable")
    }

    /// Whether every obligation was compared or may be absent, and every drift is listed.
    pub fn is_good(&self) -> bool {
        let counts = self.counts();
        counts.unexplained == 0
            && counts.not_compared == 0
            && self.unread.is_empty()
            && self.faults.is_empty()
    }
}

/// The act and its outcome, then of each answer what the other lacks.
fn text_of(obligation: &Obligation) -> String {
    let Obligation { file, request, by, first, second, outcome } = obligation;
    let mut out = format!("{file} {}: {}\n", request.act, outcome.words());
    for (program, answer, other) in [(*by, first, second), (Program::Given, second, first)] {
        let lines = told::apart(request, answer, other).join("\n           ");
        out.push_str(&format!("    {:<6} {lines}\n", program.name()));
    }
    out
}

#[cfg(test)]
mod tests;

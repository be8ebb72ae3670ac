//! The programs that are compared, behind one function.

use answers::Answer;
use given::Variant;

use crate::ours;
use crate::request::Request;

#[derive(Clone, Copy, PartialEq, Eq, Debug)]
pub enum Program {
    /// The proved library.
    Ours,
    /// The program written from document 01.
    Paper,
    /// The given Rust as it is.
    Given,
    /// The given Rust over document 01's lists.
    GivenCut,
}

impl Program {
    pub const ALL: [Program; 4] = [Program::Ours, Program::Paper, Program::Given, Program::GivenCut];

    pub fn name(self) -> &'static str {
        match self {
            Program::Ours => "ours",
            Program::Paper => "paper",
            Program::Given => "given",
            Program::GivenCut => "given-cut",
        }
    }

    pub fn parse(name: &str) -> Option<Program> {
        Program::ALL.into_iter().find(|program| program.name() == name)
    }

    /// Why this program answers nothing at all, where it does not.
    pub fn missing(self) -> Option<String> {
        match self {
            Program::Ours => ours::missing(),
            Program::Paper => None,
            Program::Given | Program::GivenCut => given::missing(),
        }
    }

    /// None where the program cannot answer.
    pub fn answer(self, request: &Request) -> Option<Answer> {
        let (act, lent, rooms) = (request.act.as_str(), request.lent(), &request.rooms);
        match self {
            Program::Ours => ours::run(act, &lent, rooms),
            Program::Paper => paper::run(act, &lent, rooms),
            Program::Given => given::run(Variant::Unchanged, act, &lent, rooms),
            Program::GivenCut => given::run(Variant::Cut, act, &lent, rooms),
        }
    }
}

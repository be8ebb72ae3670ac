//! Every edge that document 01 names, as requests.

mod acts;
mod genmp;
mod limits;
mod marked;
mod one_point;
mod reading;
mod refused;

use paper::sequent::{Flag, Hypothesis, Sequent};
use paper::tree::{Tree, identifier, literal, two};

use crate::loose::sequent_bytes;
use crate::request::Request;

pub fn all() -> Vec<Request> {
    chapters().concat()
}

/// The same, those about one thing together.
pub fn chapters() -> Vec<Vec<Request>> {
    [
        marked::chapters(),
        reading::chapters(),
        limits::chapters(),
        acts::chapters(),
        genmp::chapters(),
        one_point::chapters(),
        vec![refused::all()],
    ]
    .concat()
}

pub use limits::{file_of_size as full_file, longest, of_size as filler};
pub use marked::{examples, files as marked_files};

/// The file of these parts, whatever their number.
fn file(types: &[u8], hypotheses: &[(u8, Tree)], goal: &Tree) -> Vec<u8> {
    let flags = [Flag::Plain, Flag::Hidden, Flag::Selected];
    let of = |(flag, predicate): &(u8, Tree)| {
        let flag = flags[usize::from(*flag)];
        Hypothesis { flag, predicate: predicate.clone() }
    };
    let hypotheses = hypotheses.iter().map(of).collect();
    sequent_bytes(&Sequent { types: types.to_vec(), hypotheses, goal: goal.clone() })
}

/// A goal alone.
fn goal(types: &[u8], goal: &Tree) -> Vec<u8> {
    file(types, &[], goal)
}

fn x() -> Tree {
    identifier(0)
}

/// v0 = value.
fn equals(value: i64) -> Tree {
    two(paper::codes::EQUAL, &x(), &literal(value))
}

fn request(act: &str, buffers: &[Vec<u8>]) -> Request {
    Request::ample(act, buffers.to_vec())
}

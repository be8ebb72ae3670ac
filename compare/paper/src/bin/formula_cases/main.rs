//! Prints test lines of the formula reader, the same at every run:
//! `formula TYPES BYTES -> ANSWER`, `expression TYPES BYTES -> ANSWER`, `equal TYPES BYTES BYTES -> ANSWER`.

mod limits;
mod nodes;
mod parts;
mod random;
mod typing;

use std::collections::HashSet;

/// An integer, a truth value, a set and an integer.
const TYPES: [u8; 4] = [0, 1, 2, 0];

/// The lines printed so far: no line comes twice.
struct Cases(HashSet<String>);

impl Cases {
    fn ask(&mut self, act: &str, buffers: &[&[u8]]) {
        let answer = paper::run(act, buffers, &[]).expect("a known act with its buffers");
        let words: Vec<String> = buffers.iter().map(|bytes| answers::hex(bytes)).collect();
        let line = format!("{act} {} -> {}", words.join(" "), answers::line(&answer));
        if self.0.insert(line.clone()) {
            println!("{line}");
        }
    }

    fn formula(&mut self, bytes: &[u8]) {
        self.ask("formula", &[&TYPES, bytes]);
    }

    fn expression(&mut self, bytes: &[u8]) {
        self.ask("expression", &[&TYPES, bytes]);
    }

    /// Two predicates of one length.
    fn equal(&mut self, left: &[u8], right: &[u8]) {
        assert_eq!(left.len(), right.len());
        self.ask("equal", &[&TYPES, left, right]);
    }
}

fn main() {
    let mut cases = Cases(HashSet::new());
    nodes::print(&mut cases);
    limits::print(&mut cases);
    typing::print(&mut cases);
    random::print(&mut cases);
}

//! The acts of the rule document over bytes, written as plainly as the document says them.

pub mod codes;
pub mod file;
pub mod genmp;
pub mod lent;
pub mod meaning;
pub mod one_point;
pub mod read;
pub mod sequent;
pub mod tree;
pub mod types;
pub mod variations;

#[cfg(test)]
mod tests;

use answers::{Answer, Part, Refusal};

use crate::sequent::{Done, Flag, Sequent};
use crate::tree::Tree;

/// How many buffers and rooms each act takes.
const SHAPES: [(&str, usize, usize); 13] = [
    ("read", 1, 0),
    ("select", 2, 1),
    ("deselect", 2, 1),
    ("hide", 2, 1),
    ("show", 2, 1),
    ("modify", 4, 1),
    ("forward", 3, 1),
    ("rewrite", 4, 1),
    ("genmp", 1, 2),
    ("onepoint", 2, 2),
    ("formula", 2, 0),
    ("expression", 2, 0),
    ("equal", 3, 0),
];

/// How many buffers and rooms an act takes, or none where it is unknown.
pub fn shape(act: &str) -> Option<(usize, usize)> {
    SHAPES.iter().find(|shape| shape.0 == act).map(|shape| (shape.1, shape.2))
}

/// The answer of an act; none for an unknown act or a wrong number of buffers or rooms.
pub fn run(act: &str, buffers: &[&[u8]], rooms: &[usize]) -> Option<Answer> {
    if shape(act)? != (buffers.len(), rooms.len()) {
        return None;
    }
    Some(match act {
        "read" => run_read(buffers),
        "select" => run_flag_act(sequent::select, buffers, rooms),
        "deselect" => run_flag_act(sequent::deselect, buffers, rooms),
        "hide" => run_flag_act(sequent::hide, buffers, rooms),
        "show" => run_flag_act(sequent::show, buffers, rooms),
        "modify" => run_modify(buffers, rooms),
        "forward" => run_forward(buffers, rooms),
        "rewrite" => run_rewrite(buffers, rooms),
        "genmp" => run_genmp(buffers, rooms),
        "onepoint" => run_one_point(buffers, rooms),
        "formula" => run_formula(buffers),
        "expression" => run_expression(buffers),
        "equal" => run_equal(buffers),
        _ => return None,
    })
}

fn number(value: usize) -> Part {
    Part::Number(value as u64)
}

/// How many hypotheses are hidden, selected and visible.
fn run_read(buffers: &[&[u8]]) -> Answer {
    let sequent = file::read(buffers[0])?;
    let visible = sequent.visible().len();
    Ok(vec![number(sequent.count(Flag::Hidden)), number(sequent.count(Flag::Selected)), number(visible)])
}

/// "Changed" and the whole sequent, also where it equals the input.
fn written(done: Done, room: usize) -> Answer {
    let bytes = file::write(&done.sequent, room)?;
    Ok(vec![Part::Number(u64::from(done.changed)), Part::Bytes(bytes)])
}

fn run_flag_act(act: fn(&Sequent, &Tree) -> Done, buffers: &[&[u8]], rooms: &[usize]) -> Answer {
    let sequent = file::read(buffers[0])?;
    let formula = lent::formula(buffers[1], &sequent.types)?;
    written(act(&sequent, &formula), rooms[0])
}

fn run_modify(buffers: &[&[u8]], rooms: &[usize]) -> Answer {
    let sequent = file::read(buffers[0])?;
    let added = lent::list(buffers[1], &sequent.types)?;
    let unselected = lent::list(buffers[2], &sequent.types)?;
    let goal = lent::goal(buffers[3], &sequent.types)?;
    match sequent::modify(&sequent, &added, &unselected, goal.as_ref()) {
        None => Err(Refusal { number: 18, place: 0 }),
        Some(done) => written(done, rooms[0]),
    }
}

fn run_forward(buffers: &[&[u8]], rooms: &[usize]) -> Answer {
    let sequent = file::read(buffers[0])?;
    let sources = lent::list(buffers[1], &sequent.types)?;
    let inferred = lent::list(buffers[2], &sequent.types)?;
    written(sequent::forward(&sequent, &sources, &inferred), rooms[0])
}

fn run_rewrite(buffers: &[&[u8]], rooms: &[usize]) -> Answer {
    let sequent = file::read(buffers[0])?;
    let sources = lent::list(buffers[1], &sequent.types)?;
    let inferred = lent::list(buffers[2], &sequent.types)?;
    let to_hide = lent::list(buffers[3], &sequent.types)?;
    written(sequent::rewrite(&sequent, &sources, &inferred, &to_hide), rooms[0])
}

/// The rewritten sequent and the report.
fn run_genmp(buffers: &[&[u8]], rooms: &[usize]) -> Answer {
    let sequent = file::read(buffers[0])?;
    let step = genmp::step(&sequent)?;
    let bytes = file::write(&step.sequent, rooms[0])?;
    let report = file::fitting(step.report, rooms[1])?;
    Ok(vec![Part::Bytes(bytes), Part::Bytes(report)])
}

/// The result predicate and the replacement.
fn run_one_point(buffers: &[&[u8]], rooms: &[usize]) -> Answer {
    let types = lent::types(buffers[0])?;
    let predicate = lent::formula(buffers[1], &types)?;
    let inferred = one_point::infer(&predicate)?;
    let result = file::fitting(inferred.result.bytes(), rooms[0])?;
    let replacement = file::fitting(inferred.replacement.bytes(), rooms[1])?;
    Ok(vec![Part::Bytes(result), Part::Bytes(replacement)])
}

/// The length of the predicate at the first byte; the type bytes are taken as they are.
fn run_formula(buffers: &[&[u8]]) -> Answer {
    let (_, end) = read::predicate(buffers[1], 0, buffers[0])?;
    Ok(vec![number(end)])
}

/// The same for an expression.
fn run_expression(buffers: &[&[u8]]) -> Answer {
    let (_, end) = read::expression(buffers[1], 0, buffers[0])?;
    Ok(vec![number(end)])
}

/// 1 where the predicates of two buffers are one formula, else 0.
fn run_equal(buffers: &[&[u8]]) -> Answer {
    let (left, _) = read::predicate(buffers[1], 0, buffers[0])?;
    let (right, _) = read::predicate(buffers[2], 0, buffers[0])?;
    Ok(vec![Part::Number(u64::from(left == right))])
}

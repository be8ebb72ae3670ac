//! Random requests of every act.

use crate::loose::{list_bytes, sequent_bytes};
use crate::request::Request;

use super::dice::Dice;
use super::words::Words;
use super::{damage, one_points, sequents};

const FLAG_ACTS: [&str; 4] = ["select", "deselect", "hide", "show"];

/// One request of any act and any condition.
pub fn any(dice: &mut Dice) -> Request {
    let request = match dice.under(20) {
        0..=7 => genmp(dice),
        8..=11 => one_point(dice),
        12 => read(dice),
        13 => formula(dice),
        14 => return damage::fuzz(dice),
        _ => on_hypotheses(dice),
    };
    if dice.once_in(6) { damage::damaged(dice, &request) } else { request }
}

pub fn genmp(dice: &mut Dice) -> Request {
    let words = Words::random(dice);
    let most = if dice.once_in(20) { 20 } else { 6 };
    let sequent = sequents::sequent(&mut sequents::writer(dice, &words), most);
    Request::ample("genmp", vec![sequent_bytes(&sequent)])
}

fn read(dice: &mut Dice) -> Request {
    Request { act: "read".to_string(), rooms: Vec::new(), ..genmp(dice) }
}

pub fn one_point(dice: &mut Dice) -> Request {
    let words = Words::random(dice);
    let predicate = one_points::predicate(&mut sequents::writer(dice, &words));
    Request::ample("onepoint", vec![words.types.clone(), predicate.bytes()])
}

/// A predicate or an expression; bytes after it are allowed here.
fn formula(dice: &mut Dice) -> Request {
    let words = Words::random(dice);
    let mut writer = sequents::writer(dice, &words);
    let depth = writer.dice.under(6);
    let (act, mut bytes) = if writer.dice.once_in(2) {
        ("formula", writer.predicate(depth, 0).bytes())
    } else {
        let kind = writer.dice.under(12);
        ("expression", writer.of_kind(kind, depth, 0).bytes())
    };
    bytes.extend(dice.many(0, 2, |dice| dice.under(256) as u8));
    Request::ample(act, vec![words.types, bytes])
}

/// One of the seven acts.
pub fn on_hypotheses(dice: &mut Dice) -> Request {
    let words = Words::random(dice);
    let mut writer = sequents::writer(dice, &words);
    let sequent = sequents::sequent(&mut writer, 5);
    let mut list = |most: usize| sequents::lent_list(&mut writer, &sequent, most);
    let (first, second, third) = (list(4), list(3), list(2));
    let act = writer.dice.under(10);
    let (name, lent) = match act {
        0 | 1 => {
            let mut unselected: Vec<_> = first.iter().filter(|_| writer.dice.once_in(2)).cloned().collect();
            if writer.dice.once_in(10) {
                unselected.extend(second);
            }
            let goal = &third[..third.len().min(1)];
            ("modify", vec![list_bytes(&first), list_bytes(&unselected), list_bytes(goal)])
        }
        2 | 3 => ("forward", vec![list_bytes(&second), list_bytes(&first)]),
        4 | 5 => ("rewrite", vec![list_bytes(&second), list_bytes(&first), list_bytes(&third)]),
        other => {
            let formula = sequents::lent_formula(&mut writer, &sequent);
            (FLAG_ACTS[other - 6], vec![formula.bytes()])
        }
    };
    Request::ample(name, [vec![sequent_bytes(&sequent)], lent].concat())
}

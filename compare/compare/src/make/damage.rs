//! Damaged copies of requests, and bytes of no meaning.

use paper::codes::TABLE;

use super::dice::Dice;
use crate::request::Request;

/// The request with one or more of its buffers damaged.
pub fn damaged(dice: &mut Dice, request: &Request) -> Request {
    let mut out = request.clone();
    for _ in 0..dice.between(1, 2) {
        let index = dice.under(out.buffers.len());
        damage(dice, &mut out.buffers[index]);
    }
    out
}

/// A byte that means something at many places.
fn telling_byte(dice: &mut Dice) -> u8 {
    match dice.under(3) {
        0 => dice.pick(&TABLE).code,
        1 => dice.pick(&[0, 1, 2, 3, 8, 9, 31, 32, 33, 63, 64, 65, 0x18, 0x1f, 0x33, 0x7f, 0x80, 0xff]),
        _ => dice.under(256) as u8,
    }
}

fn damage(dice: &mut Dice, bytes: &mut Vec<u8>) {
    if bytes.is_empty() {
        bytes.push(telling_byte(dice));
        return;
    }
    let place = dice.under(bytes.len());
    match dice.under(8) {
        0..=2 => bytes[place] = telling_byte(dice),
        3 => bytes.insert(place, telling_byte(dice)),
        4 => drop(bytes.remove(place)),
        5 => bytes.truncate(place),
        6 => bytes.push(telling_byte(dice)),
        _ => {
            let end = dice.between(place, bytes.len());
            let copy = bytes[place..end].to_vec();
            let at = dice.under(bytes.len() + 1);
            bytes.splice(at..at, copy);
        }
    }
}

/// Any bytes at any act, often behind a good header.
pub fn fuzz(dice: &mut Dice) -> Request {
    let acts = ["read", "select", "deselect", "hide", "show", "modify", "forward", "rewrite", "genmp"];
    let alone = ["onepoint", "formula", "expression"];
    let act = if dice.once_in(4) { dice.pick(&alone) } else { dice.pick(&acts) };
    let (buffers, _) = paper::shape(act).expect("a known act");
    let mut buffers: Vec<Vec<u8>> = (0..buffers).map(|_| dice.many(0, 40, telling_byte)).collect();
    if !alone.contains(&act) && !dice.once_in(4) {
        let counts = [dice.under(4) as u8, dice.under(4) as u8, 0];
        let types = dice.many(3, 3, |dice| dice.under(3) as u8);
        let types = &types[..usize::from(counts[0])];
        buffers[0] = [b"SQT\x01\x00", &counts[..], types, &buffers[0]].concat();
    }
    if alone.contains(&act) {
        buffers[0].iter_mut().for_each(|byte| *byte %= 3);
    }
    Request::ample(act, buffers)
}

//! The small vocabulary that the formulas of one request share, so that they meet often.

use paper::codes::*;
use paper::tree::{Tree, identifier, leaf, literal, node};

use super::dice::Dice;

/// Type bytes, and the simplest expressions of each type.
#[derive(Clone, Debug)]
pub struct Words {
    pub types: Vec<u8>,
    pub numbers: Vec<Tree>,
    pub sets: Vec<Tree>,
    pub truths: Vec<Tree>,
}

const COMMON: [i64; 5] = [0, 1, -1, 2, -2];
const RARE: [i64; 6] = [3, -3, 5, 255, i64::MAX, i64::MIN];

impl Words {
    pub fn random(dice: &mut Dice) -> Words {
        let (integers, sets, truths) = (dice.between(1, 2), dice.under(3), dice.under(2));
        let mut types = [vec![0; integers], vec![2; sets], vec![1; truths]].concat();
        for index in 1..types.len() {
            types.swap(index, dice.under(index + 1));
        }
        let literals = dice.many(1, 3, literal_leaf);
        Words::of(types, literals)
    }

    /// The vocabulary over these identifiers and literals.
    pub fn of(types: Vec<u8>, literals: Vec<Tree>) -> Words {
        let of_type = |wanted: u8| {
            let places = types.iter().enumerate().filter(move |(_, byte)| **byte == wanted);
            places.map(|(k, _)| identifier(k as i64)).collect::<Vec<Tree>>()
        };
        let numbers = [of_type(0), literals].concat();
        let sets = [of_type(2), vec![leaf(EMPTY)]].concat();
        let truths = [of_type(1), vec![leaf(TRUE), leaf(FALSE)]].concat();
        Words { numbers, sets, truths, types }
    }
}

/// A literal, at times below a unary minus.
fn literal_leaf(dice: &mut Dice) -> Tree {
    let value = if dice.once_in(8) { dice.pick(&RARE) } else { dice.pick(&COMMON) };
    if dice.once_in(5) { node(NEGATIVE, vec![literal(value)]) } else { literal(value) }
}

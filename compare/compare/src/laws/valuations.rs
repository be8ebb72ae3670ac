//! Small valuations of some identifiers: all of them where they are few, else some.

use paper::meaning::{Valuation, Value};

use crate::make::dice::Dice;

const MOST: usize = 400;
const INTERVALS: [(i128, i128); 3] = [(0, 1), (-1, 1), (1, 1)];

/// The values tried for an identifier of this type.
fn values(byte: u8) -> Vec<Value> {
    match byte {
        // One beyond the literals of the probes on either side.
        0 => (-3..=3).map(Value::Number).collect(),
        1 => vec![Value::Truth(false), Value::Truth(true)],
        _ => {
            let members: [&[i128]; 5] = [&[], &[0], &[1], &[-1, 0], &[0, 1]];
            members.map(|members| Value::Set(members.iter().copied().collect())).to_vec()
        }
    }
}

pub fn of(types: &[u8], dice: &mut Dice) -> Vec<Valuation> {
    let values: Vec<Vec<Value>> = types.iter().map(|byte| values(*byte)).collect();
    let all = values.iter().map(Vec::len).product::<usize>() * INTERVALS.len();
    let numbers: Vec<usize> =
        if all <= MOST { (0..all).collect() } else { dice.many(MOST, MOST, |dice| dice.under(all)) };
    numbers.into_iter().map(|number| numbered(number, &values)).collect()
}

/// The valuation of this number, as digits of mixed bases.
fn numbered(number: usize, values: &[Vec<Value>]) -> Valuation {
    let (lo, hi) = INTERVALS[number % INTERVALS.len()];
    let mut left = number / INTERVALS.len();
    let mut identifiers = Vec::new();
    for choices in values {
        identifiers.push(choices[left % choices.len()].clone());
        left /= choices.len();
    }
    Valuation { lo, hi, identifiers }
}

#[cfg(test)]
mod tests {
    use super::*;

    #[test]
    fn few_valuations_are_all_tried() {
        let tried = of(&[0, 1], &mut Dice::new(1));
        assert_eq!(tried.len(), 7 * 2 * 3);
        assert!(tried.iter().enumerate().all(|(index, one)| !tried[..index].contains(one)));
    }
}

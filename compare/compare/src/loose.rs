//! Sequents and formulas in bytes without document 01's limits: what the given Rust may answer.

use paper::codes::{self, Own, Sort};
use paper::sequent::{Flag, Hypothesis, Sequent};
use paper::tree::Tree;

/// The bytes of a sequent, however many hypotheses and bytes it has.
pub fn sequent_bytes(sequent: &Sequent) -> Vec<u8> {
    let mut out = b"SQT\x01\x00".to_vec();
    out.extend([sequent.types.len() as u8, sequent.hypotheses.len() as u8, 0]);
    out.extend(&sequent.types);
    for hypothesis in &sequent.hypotheses {
        out.push(match hypothesis.flag {
            Flag::Plain => 0,
            Flag::Hidden => 1,
            Flag::Selected => 2,
        });
        out.extend(hypothesis.predicate.bytes());
    }
    out.extend(sequent.goal.bytes());
    out
}

/// A list as acts are lent it.
pub fn list_bytes(formulas: &[Tree]) -> Vec<u8> {
    let mut out = vec![formulas.len() as u8];
    formulas.iter().for_each(|formula| out.extend(formula.bytes()));
    out
}

/// The sequent of bytes that `sequent_bytes` wrote.
pub fn sequent(bytes: &[u8]) -> Option<Sequent> {
    let (&t, &h) = (bytes.get(5)?, bytes.get(6)?);
    let types = bytes.get(8..8 + usize::from(t))?.to_vec();
    let mut at = 8 + types.len();
    let mut hypotheses = Vec::new();
    for _ in 0..h {
        let flag = match bytes.get(at)? {
            0 => Flag::Plain,
            1 => Flag::Hidden,
            2 => Flag::Selected,
            _ => return None,
        };
        let (predicate, end) = formula(bytes, at + 1, Sort::Predicate)?;
        hypotheses.push(Hypothesis { flag, predicate });
        at = end;
    }
    let (goal, end) = formula(bytes, at, Sort::Predicate)?;
    (end == bytes.len()).then_some(Sequent { types, hypotheses, goal })
}

/// The formula at `at` and the place after it; counts and depth are as they come.
pub fn formula(bytes: &[u8], at: usize, sort: Sort) -> Option<(Tree, usize)> {
    let row = codes::row(*bytes.get(at)?).filter(|row| row.sort == sort)?;
    let own = bytes.get(at + 1..at + row.own_bytes())?;
    let number = match row.own {
        Own::Nothing => 0,
        Own::Literal => i64::from_le_bytes(own.try_into().ok()?),
        _ => i64::from(own[0]),
    };
    let mut end = at + row.own_bytes();
    let mut operands = Vec::new();
    for sort in row.operand_sorts(number as usize) {
        let (operand, after) = formula(bytes, end, sort)?;
        operands.push(operand);
        end = after;
    }
    let counted = matches!(row.own, Own::Operands { .. });
    Some((Tree { code: row.code, number: if counted { 0 } else { number }, operands }, end))
}

/// A whole predicate.
pub fn predicate(bytes: &[u8]) -> Option<Tree> {
    formula(bytes, 0, Sort::Predicate).filter(|(_, end)| *end == bytes.len()).map(|(tree, _)| tree)
}

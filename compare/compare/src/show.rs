//! Formulas in the usual symbols, for people: v0, v1 for identifiers, b0, b1 for bound variables from
//! the outermost block inwards, parentheses round every compound operand.

use paper::codes::*;
use paper::sequent::{Flag, Sequent};
use paper::tree::Tree;

pub fn formula(tree: &Tree) -> String {
    show(tree, 0)
}

/// A formula that stands below so many declared variables.
pub fn show(tree: &Tree, declared: usize) -> String {
    let operand = |index: usize| enclosed(&tree.operands[index], declared);
    match tree.code {
        TRUTH => "⊤".to_string(),
        FALSITY => "⊥".to_string(),
        EMPTY => "∅".to_string(),
        NATURAL => "ℕ".to_string(),
        NATURAL1 => "ℕ1".to_string(),
        TRUE => "TRUE".to_string(),
        FALSE => "FALSE".to_string(),
        IDENTIFIER => format!("v{}", tree.number),
        BOUND => format!("b{}", declared as i64 - 1 - tree.number),
        LITERAL => tree.number.to_string(),
        NOT => format!("¬{}", operand(0)),
        NEGATIVE => format!("−{}", operand(0)),
        BOOL => format!("bool({})", show(&tree.operands[0], declared)),
        EXTENSION => format!("{{{}}}", joined(tree, declared, ", ")),
        FORALL | EXISTS | COMPREHENSION => bound_by(tree, declared),
        code => joined(tree, declared, &format!(" {} ", sign(code))),
    }
}

fn joined(tree: &Tree, declared: usize, between: &str) -> String {
    let operands: Vec<String> = tree.operands.iter().map(|operand| enclosed(operand, declared)).collect();
    operands.join(between)
}

fn bound_by(tree: &Tree, declared: usize) -> String {
    let inside = declared + tree.declares();
    let names: Vec<String> = (declared..inside).map(|index| format!("b{index}")).collect();
    let (names, body) = (names.join(","), enclosed(&tree.operands[0], inside));
    match tree.code {
        FORALL => format!("∀{names}·{body}"),
        EXISTS => format!("∃{names}·{body}"),
        _ => format!("{{{names}·{body} ∣ {}}}", enclosed(&tree.operands[1], inside)),
    }
}

/// With parentheses, unless it is a leaf or has brackets of its own.
fn enclosed(tree: &Tree, declared: usize) -> String {
    let shown = show(tree, declared);
    let bracketed = matches!(tree.code, BOOL | EXTENSION | COMPREHENSION);
    let negative_literal = tree.code == LITERAL && tree.number < 0;
    if (tree.operands.is_empty() && !negative_literal) || bracketed { shown } else { format!("({shown})") }
}

fn sign(code: u8) -> &'static str {
    match code {
        AND => "∧",
        OR => "∨",
        IMPLIES => "⇒",
        IFF => "⇔",
        EQUAL => "=",
        LESS => "<",
        LESS_EQUAL => "≤",
        GREATER => ">",
        GREATER_EQUAL => "≥",
        IN => "∈",
        SUBSET => "⊂",
        SUBSET_EQUAL => "⊆",
        PLUS => "+",
        TIMES => "×",
        MINUS => "−",
        UNION => "∪",
        INTERSECTION => "∩",
        DIFFERENCE => "∖",
        _ => "↦",
    }
}

/// One line for each hypothesis, with its position, then the goal.
pub fn sequent(sequent: &Sequent) -> Vec<String> {
    let mut out = Vec::new();
    for (position, hypothesis) in sequent.hypotheses.iter().enumerate() {
        let flag = match hypothesis.flag {
            Flag::Plain => "",
            Flag::Hidden => " hidden",
            Flag::Selected => " selected",
        };
        out.push(format!("{position}{flag}: {}", formula(&hypothesis.predicate)));
    }
    out.push(format!("⊢ {}", formula(&sequent.goal)));
    out
}

#[cfg(test)]
mod tests {
    use super::*;

    fn shown(hex: &str) -> String {
        let bytes = answers::unhex(&hex.replace(' ', "")).expect("hex");
        formula(&crate::loose::predicate(&bytes).expect("a predicate"))
    }

    #[test]
    fn formulas_are_shown_with_names() {
        assert_eq!(shown("0802 06 10 2100 2101 0901 15 2100 25"), "∀b0,b1·((b1 = b0) ⇒ (∃b2·(b2 ∈ ℕ1)))");
        let minus_one = "22ffffffffffffffff";
        assert_eq!(shown(&format!("12 29{minus_one} 2000")), "(−(-1)) ≤ v0");
        assert_eq!(shown("17 30 01 01 2100 2d01 2003"), "{b0·⊤ ∣ b0} ⊆ {v3}");
        assert_eq!(shown("10 2e 0402 01 02 31"), "bool(⊤ ∧ ⊥) = TRUE");
    }
}

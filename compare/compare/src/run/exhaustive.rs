//! Every source against every key over small vocabularies of relations.

use paper::codes::*;
use paper::sequent::{Flag, Hypothesis, Sequent};
use paper::tree::{Tree, identifier, leaf, literal, node, not, truth, two};

use super::tally::Tally;
use crate::loose::sequent_bytes;
use crate::request::Request;

/// As many targets as one ∧ holds.
const TOGETHER: usize = 32;

/// One sort of terms with the relations between them.
struct Probe {
    types: Vec<u8>,
    relations: Vec<Tree>,
}

fn between(terms: &[Tree], codes: &[u8]) -> Vec<Tree> {
    let mut out = Vec::new();
    for left in terms {
        for right in terms {
            out.extend(codes.iter().map(|code| two(*code, left, right)));
        }
    }
    out
}

/// All integer relations between these terms, ∈ℕ and ∈ℕ1 among them.
fn integers(terms: &[Tree]) -> Probe {
    let mut relations = between(terms, &[EQUAL, LESS, LESS_EQUAL, GREATER, GREATER_EQUAL]);
    for term in terms {
        relations.extend([NATURAL, NATURAL1].map(|set| two(IN, term, &leaf(set))));
    }
    Probe { types: vec![0], relations }
}

/// An identifier and near literals, some below a unary minus; all in one probe if it is to be wide.
fn numbers(wide: bool) -> Vec<Probe> {
    let minus = |value: i64| node(NEGATIVE, vec![literal(value)]);
    let x = identifier(0);
    let near = [x.clone(), literal(0), literal(1), literal(-1), minus(0), minus(1)];
    let far = [x, literal(2), literal(-2), minus(-1), minus(2)];
    if wide {
        vec![integers(&[&near[..], &far[1..]].concat())]
    } else {
        vec![integers(&near), integers(&far)]
    }
}

/// The ends of the eight-byte literals, where a literal moved by one has no eight bytes.
fn ends() -> Probe {
    let (least, most) = (literal(i64::MIN), literal(i64::MAX));
    let minus = |of: &Tree| node(NEGATIVE, vec![of.clone()]);
    integers(&[identifier(0), minus(&least), minus(&most), least, most])
}

/// Integers by name alone, where no literal plays a part.
fn names() -> Probe {
    let terms = [identifier(0), identifier(1)];
    let relations = between(&terms, &[EQUAL, LESS, LESS_EQUAL, GREATER, GREATER_EQUAL]);
    Probe { types: vec![0, 0], relations }
}

fn sets() -> Probe {
    let terms = [identifier(0), identifier(1), leaf(EMPTY), node(EXTENSION, vec![identifier(2)])];
    let mut relations = between(&terms, &[EQUAL, SUBSET, SUBSET_EQUAL]);
    relations.extend(terms.iter().map(|set| two(IN, &identifier(2), set)));
    Probe { types: vec![2, 2, 0], relations }
}

fn truth_values() -> Probe {
    let terms = [identifier(0), leaf(TRUE), leaf(FALSE), node(BOOL, vec![truth(true)])];
    let pair = |left: &Tree| two(MAPLET, left, left);
    let mut relations = between(&terms, &[EQUAL]);
    relations.extend(between(&terms.each_ref().map(pair), &[EQUAL]));
    relations.extend([truth(true), truth(false), node(OR, vec![truth(true), truth(false)])]);
    Probe { types: vec![1], relations }
}

/// A source and some targets, over these identifiers.
pub struct Case {
    types: Vec<u8>,
    source: Tree,
    targets: Vec<Tree>,
    /// Whether the source is the goal behind the targets, and not a hypothesis before them.
    source_is_goal: bool,
}

impl Case {
    pub fn request(&self) -> Request {
        let together = match self.targets.as_slice() {
            [alone] => alone.clone(),
            several => node(AND, several.to_vec()),
        };
        let (predicate, goal) = if self.source_is_goal {
            (together, self.source.clone())
        } else {
            (self.source.clone(), together)
        };
        let hypotheses = vec![Hypothesis { flag: Flag::Plain, predicate }];
        let sequent = Sequent { types: self.types.clone(), hypotheses, goal };
        Request::ample("genmp", vec![sequent_bytes(&sequent)])
    }

    /// The same source against each half of the targets; none for a target alone.
    pub fn halves(&self) -> Option<[Case; 2]> {
        let (left, right) = self.targets.split_at(self.targets.len() / 2);
        let of = |targets: &[Tree]| Case {
            types: self.types.clone(),
            source: self.source.clone(),
            targets: targets.to_vec(),
            ..*self
        };
        (!left.is_empty()).then(|| [of(left), of(right)])
    }
}

/// Every source, true and false, as a hypothesis and as a goal, against every target.
pub fn cases(wide: bool) -> Vec<Case> {
    let mut out = Vec::new();
    for Probe { types, relations } in
        numbers(wide).into_iter().chain([ends(), names(), sets(), truth_values()])
    {
        for source in relations.iter().flat_map(|relation| [relation.clone(), not(relation)]) {
            for targets in relations.chunks(TOGETHER) {
                for source_is_goal in [false, true] {
                    let (types, targets) = (types.clone(), targets.to_vec());
                    out.push(Case { types, source: source.clone(), targets, source_is_goal });
                }
            }
        }
    }
    out
}

/// Targets together are only held alike or not; where they differ, by halves down to single ones.
pub fn examine(tally: &mut Tally, case: &Case) {
    match case.halves() {
        None => tally.examine(&case.request()),
        Some(halves) => {
            if tally.differs(&case.request()) {
                halves.iter().for_each(|half| examine(tally, half));
            }
        }
    }
}

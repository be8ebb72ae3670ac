//! A readable request as its formulas, so that it can be changed and written again.

use paper::sequent::{Hypothesis, Sequent};
use paper::tree::Tree;
use paper::{file, lent};

use crate::loose::{list_bytes, sequent_bytes};
use crate::request::Request;

#[derive(Clone, PartialEq, Eq, Debug)]
pub enum Lent {
    One(Tree),
    List(Vec<Tree>),
}

#[derive(Clone, PartialEq, Eq, Debug)]
pub struct Parts {
    pub types: Vec<u8>,
    pub hypotheses: Vec<Hypothesis>,
    /// None where the request has no sequent.
    pub goal: Option<Tree>,
    pub lent: Vec<Lent>,
}

impl Parts {
    /// None for a request that is refused while it is read.
    pub fn of(request: &Request) -> Option<Parts> {
        let buffers = &request.buffers;
        if !request.has_sequent() {
            let types = lent::types(&buffers[0]).ok()?;
            let lent = vec![Lent::One(lent::formula(&buffers[1], &types).ok()?)];
            return Some(Parts { types, hypotheses: Vec::new(), goal: None, lent });
        }
        let Sequent { types, hypotheses, goal } = file::read(&buffers[0]).ok()?;
        let single = matches!(request.act.as_str(), "select" | "deselect" | "hide" | "show");
        let mut lent = Vec::new();
        for buffer in &buffers[1..] {
            lent.push(if single {
                Lent::One(lent::formula(buffer, &types).ok()?)
            } else {
                Lent::List(lent::list(buffer, &types).ok()?)
            });
        }
        Some(Parts { types, hypotheses, goal: Some(goal), lent })
    }

    /// The same act and rooms over these parts.
    pub fn request(&self, like: &Request) -> Request {
        let first = match &self.goal {
            None => self.types.clone(),
            Some(goal) => {
                let (types, hypotheses) = (self.types.clone(), self.hypotheses.clone());
                sequent_bytes(&Sequent { types, hypotheses, goal: goal.clone() })
            }
        };
        let lent = self.lent.iter().map(|lent| match lent {
            Lent::One(formula) => formula.bytes(),
            Lent::List(formulas) => list_bytes(formulas),
        });
        Request { buffers: std::iter::once(first).chain(lent).collect(), ..like.clone() }
    }

    pub fn formulas(&self) -> Vec<&Tree> {
        let hypotheses = self.hypotheses.iter().map(|hypothesis| &hypothesis.predicate);
        let lent = self.lent.iter().flat_map(|lent| match lent {
            Lent::One(formula) => std::slice::from_ref(formula),
            Lent::List(formulas) => formulas.as_slice(),
        });
        hypotheses.chain(&self.goal).chain(lent).collect()
    }

    /// All formulas in the order of `formulas`, to be changed in place.
    pub fn formulas_mut(&mut self) -> Vec<&mut Tree> {
        let hypotheses = self.hypotheses.iter_mut().map(|hypothesis| &mut hypothesis.predicate);
        let lent = self.lent.iter_mut().flat_map(|lent| match lent {
            Lent::One(formula) => std::slice::from_mut(formula),
            Lent::List(formulas) => formulas.as_mut_slice(),
        });
        hypotheses.chain(&mut self.goal).chain(lent).collect()
    }
}

//! The switch between the given variations and document 01's lists.
//! genmp.rs says `crate::variations`, which one crate can have only once; so that it stays unchanged,
//! this module has the public interface of variations.rs and hands each call on.

use std::cell::Cell;

use crate::formula::Predicate;
use crate::{Variant, cut_variations, given_variations};

thread_local! {
    static CHOSEN: Cell<Variant> = const { Cell::new(Variant::Unchanged) };
}

/// Does `work` with the variations of `variant`.
pub(crate) fn under<T>(variant: Variant, work: impl FnOnce() -> T) -> T {
    CHOSEN.set(variant);
    work()
}

type List = fn(&Predicate) -> Vec<Predicate>;

fn choose(unchanged: List, cut: List, pred: &Predicate) -> Vec<Predicate> {
    match CHOSEN.get() {
        Variant::Unchanged => unchanged(pred),
        Variant::Cut => cut(pred),
    }
}

pub(crate) fn stronger_positive(pred: &Predicate) -> Vec<Predicate> {
    choose(given_variations::stronger_positive, cut_variations::stronger_positive, pred)
}

pub(crate) fn stronger_negative(pred: &Predicate) -> Vec<Predicate> {
    choose(given_variations::stronger_negative, cut_variations::stronger_negative, pred)
}

pub(crate) fn weaker_positive(pred: &Predicate) -> Vec<Predicate> {
    choose(given_variations::weaker_positive, cut_variations::weaker_positive, pred)
}

pub(crate) fn weaker_negative(pred: &Predicate) -> Vec<Predicate> {
    choose(given_variations::weaker_negative, cut_variations::weaker_negative, pred)
}

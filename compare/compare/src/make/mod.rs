//! Requests made from a seed.

pub mod damage;
pub mod dice;
pub mod formulas;
pub mod one_points;
pub mod requests;
pub mod sequents;
pub mod words;

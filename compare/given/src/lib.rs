//! The oracle: the given files sequent.rs, variations.rs, genmp.rs and one_point.rs, compiled
//! unchanged over a stand-in for what they lean on, and run on document 01's bytes.

#![cfg_attr(rossi_absent, allow(dead_code, unused_imports))]

// The given files name their outside crates; both are stood in for by this one.
extern crate self as num_bigint;
extern crate self as rossi;

mod big_int;
mod decode;
mod encode;
mod formula;

#[cfg(not(rossi_absent))]
mod acts;
#[cfg(not(rossi_absent))]
mod builder;
#[cfg(not(rossi_absent))]
mod cut_variations;
#[cfg(not(rossi_absent))]
mod variations;

#[cfg(not(rossi_absent))]
include!(concat!(env!("OUT_DIR"), "/given_tree.rs"));

#[cfg(all(test, not(rossi_absent)))]
mod tests;

#[cfg(not(rossi_absent))]
pub(crate) use big_int::BigInt;

/// Which variations genMP takes its keys from.
#[derive(Clone, Copy, PartialEq, Eq, Debug)]
pub enum Variant {
    /// All given files as they are.
    Unchanged,
    /// Document 01's lists in the place of variations.rs.
    Cut,
}

/// Why the given files are not compiled in, where they are not.
pub fn missing() -> Option<String> {
    cfg!(rossi_absent).then(|| {
        let asked = env!("ROSSI_SRC_ASKED");
        let remedy = "set ROSSI_SRC to a folder with crates/rossi-prove/src and build again";
        format!("the given Rust files were not found in {asked}; {remedy}")
    })
}

/// What the given files answer. None where the given files are missing, the act is unknown, or the
/// buffers are not accepted input; a step that the given files fail has document 01's number and
/// place 0. Rooms and limits of results are not the given files' business and are not looked at.
pub fn run(variant: Variant, act: &str, buffers: &[&[u8]], _rooms: &[usize]) -> Option<answers::Answer> {
    #[cfg(not(rossi_absent))]
    return variations::under(variant, || acts::run(act, buffers));
    #[cfg(rossi_absent)]
    {
        let _ = (variant, act, buffers);
        None
    }
}

mod acts;
mod bytes;
mod differences;
mod marked;
mod meaning;
mod random;
mod sound;
mod stand_in;

use crate::{Variant, run};
use answers::{Answer, Part, Refusal};

/// The answer to accepted buffers.
fn answer(variant: Variant, act: &str, buffers: &[Vec<u8>]) -> Answer {
    let lent: Vec<&[u8]> = buffers.iter().map(Vec::as_slice).collect();
    run(variant, act, &lent, &[]).expect("the buffers are accepted")
}

fn cut(act: &str, buffers: &[Vec<u8>]) -> Answer {
    answer(Variant::Cut, act, buffers)
}

fn refused(number: u8) -> Answer {
    Err(Refusal { number, place: 0 })
}

/// "Changed" and the sequent.
fn changed(flag: u64, sequent: Vec<u8>) -> Answer {
    Ok(vec![Part::Number(flag), Part::Bytes(sequent)])
}

/// The two byte parts of genMP or one-point.
fn pair(first: Vec<u8>, second: Vec<u8>) -> Answer {
    Ok(vec![Part::Bytes(first), Part::Bytes(second)])
}

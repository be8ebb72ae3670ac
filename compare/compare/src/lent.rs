//! What is lent to the proved library: buffers and numbers that show every change to them, so that an
//! answer counts only if nothing else was written. The rest of what an act does is its result.

use answers::{Answer, Part, Refusal};

/// No number of document 01: something was written that the answer may not write.
pub const STRAY: u8 = 255;
/// What a lent number holds before the act: no count, length or place of document 01.
pub const UNTOLD: usize = 0xa5a5_a5a5;
/// Bytes kept on either side of what is lent.
const MARGIN: usize = 64;

/// So many bytes of 128 to 254, which no code, count or flag is, and none like its neighbours, so that
/// a byte copied from elsewhere in the buffer is seen too.
fn pattern(length: usize) -> Vec<u8> {
    let block: Vec<u8> = (128..255).collect();
    let mut out = block.repeat(length / block.len() + 1);
    out.truncate(length);
    out
}

/// A buffer of some room with a margin on either side, and what both held before the act.
pub struct Lent {
    bytes: Vec<u8>,
    before: Vec<u8>,
    room: usize,
}

impl Lent {
    pub fn new(room: usize) -> Lent {
        let before = pattern(room + 2 * MARGIN);
        Lent { bytes: before.clone(), before, room }
    }

    /// The part that is lent.
    pub fn lend(&mut self) -> &mut [u8] {
        &mut self.bytes[MARGIN..MARGIN + self.room]
    }

    /// The first `length` bytes, if no other byte was written.
    pub fn written(&self, length: usize) -> Result<Vec<u8>, Refusal> {
        let end = MARGIN + length.min(self.room);
        match self.changed(0, MARGIN).or_else(|| self.changed(end, self.bytes.len())) {
            Some(place) => Err(Refusal { number: STRAY, place }),
            None if length > self.room => Err(Refusal { number: STRAY, place: length }),
            None => Ok(self.bytes[MARGIN..end].to_vec()),
        }
    }

    /// The first byte of these places that was written.
    fn changed(&self, from: usize, to: usize) -> Option<usize> {
        // Most often none was, which is fastest asked of all at once.
        if self.bytes[from..to] == self.before[from..to] {
            return None;
        }
        (from..to).find(|place| self.bytes[*place] != self.before[*place])
    }
}

/// The numbers that a function tells besides that of its refusal.
pub struct Told {
    pub first: usize,
    pub second: usize,
    pub third: usize,
    pub place: usize,
}

impl Told {
    pub fn nothing() -> Told {
        Told { first: UNTOLD, second: UNTOLD, third: UNTOLD, place: UNTOLD }
    }
}

fn kept(numbers: &[usize]) -> Result<(), Refusal> {
    match numbers.iter().find(|number| **number != UNTOLD) {
        Some(told) => Err(Refusal { number: STRAY, place: *told }),
        None => Ok(()),
    }
}

pub fn number(value: usize) -> Part {
    Part::Number(value as u64)
}

/// A refusal: every lent byte, and every number but the place, must be as it was.
pub fn refused(refusal: usize, told: &Told, lent: &[&Lent]) -> Answer {
    for buffer in lent {
        buffer.written(0)?;
    }
    kept(&[told.first, told.second, told.third])?;
    Err(Refusal { number: u8::try_from(refusal).unwrap_or(STRAY), place: told.place })
}

/// An act that tells three numbers.
pub fn telling(call: impl FnOnce(&mut Told) -> usize) -> Answer {
    let mut told = Told::nothing();
    match call(&mut told) {
        0 => {
            kept(&[told.place])?;
            Ok([told.first, told.second, told.third].map(number).to_vec())
        }
        refusal => refused(refusal, &told, &[]),
    }
}

/// An act that answers "changed" and writes a sequent.
pub fn writing_one(room: usize, call: impl FnOnce(&mut [u8], &mut Told) -> usize) -> Answer {
    let (mut out, mut told) = (Lent::new(room), Told::nothing());
    match call(out.lend(), &mut told) {
        0 => {
            kept(&[told.place])?;
            Ok(vec![number(told.first), Part::Bytes(out.written(told.second)?)])
        }
        refusal => refused(refusal, &told, &[&out]),
    }
}

/// An act that writes into two buffers.
pub fn writing_two(rooms: [usize; 2], call: impl FnOnce(&mut [u8], &mut [u8], &mut Told) -> usize) -> Answer {
    let (mut out, mut beside) = (Lent::new(rooms[0]), Lent::new(rooms[1]));
    let mut told = Told::nothing();
    match call(out.lend(), beside.lend(), &mut told) {
        0 => {
            kept(&[told.place])?;
            Ok(vec![Part::Bytes(out.written(told.first)?), Part::Bytes(beside.written(told.second)?)])
        }
        refusal => refused(refusal, &told, &[&out, &beside]),
    }
}

#[cfg(test)]
mod tests {
    use super::*;

    fn stray(place: usize) -> Answer {
        Err(Refusal { number: STRAY, place })
    }

    /// An act that writes two bytes, says so, and then does something more.
    fn accepting(more: impl FnOnce(&mut [u8], &mut Told)) -> Answer {
        writing_one(9, |out, told| {
            out[..2].copy_from_slice(&[1, 2]);
            (told.first, told.second) = (1, 2);
            more(out, told);
            0
        })
    }

    /// An act that is refused with 7 at 3 and then does something more to both buffers.
    fn refusing(more: impl FnOnce(&mut [u8], &mut [u8], &mut Told)) -> Answer {
        writing_two([9, 5], |out, beside, told| {
            told.place = 3;
            more(out, beside, told);
            7
        })
    }

    #[test]
    fn no_two_neighbours_are_alike() {
        let lent = Lent::new(1_000);
        assert!(
            (1..127)
                .all(|apart| (apart..lent.bytes.len()).all(|at| lent.bytes[at] != lent.bytes[at - apart]))
        );
    }

    #[test]
    fn a_success_writes_its_length_alone() {
        assert_eq!(accepting(|_, _| ()), Ok(vec![Part::Number(1), Part::Bytes(vec![1, 2])]));
        for place in 2..9 {
            assert_eq!(accepting(|out, _| out[place] = 0), stray(MARGIN + place));
        }
        // Bytes of the buffer itself, moved by one.
        assert_eq!(accepting(|out, _| out.copy_within(3..5, 2)), stray(MARGIN + 2));
        assert_eq!(accepting(|_, told| told.second = 1), stray(MARGIN + 1));
        assert_eq!(accepting(|_, told| told.second = 10), stray(10));
        assert_eq!(accepting(|_, told| told.place = 0), stray(0));
    }

    #[test]
    fn a_refusal_writes_nothing() {
        assert_eq!(refusing(|_, _, _| ()), Err(Refusal { number: 7, place: 3 }));
        for place in 0..9 {
            assert_eq!(refusing(|out, _, _| out[place] = 0), stray(MARGIN + place));
        }
        for place in 0..5 {
            assert_eq!(refusing(|_, beside, _| beside[place] = 0), stray(MARGIN + place));
        }
        assert_eq!(refusing(|_, _, told| told.first = 1), stray(1));
        assert_eq!(refusing(|_, _, told| told.second = 0), stray(0));
    }

    #[test]
    fn both_results_have_their_own_lengths() {
        let answer = |lengths: [usize; 2], place: usize| {
            writing_two([4, 4], |out, beside, told| {
                (out[0], beside[0], beside[1]) = (1, 2, 3);
                ([told.first, told.second], told.place) = (lengths, place);
                0
            })
        };
        assert_eq!(answer([1, 2], UNTOLD), Ok(vec![Part::Bytes(vec![1]), Part::Bytes(vec![2, 3])]));
        assert_eq!(answer([0, 2], UNTOLD), stray(MARGIN));
        assert_eq!(answer([1, 1], UNTOLD), stray(MARGIN + 1));
        assert_eq!(answer([1, 2], 5), stray(5));
    }

    #[test]
    fn numbers_are_told_or_kept() {
        let answer = |refusal: usize, place: usize| {
            telling(|told| {
                *told = Told { first: 1, second: 2, third: 3, place };
                refusal
            })
        };
        assert_eq!(answer(0, UNTOLD), Ok([1, 2, 3].map(number).to_vec()));
        assert_eq!(answer(0, 4), stray(4));
        assert_eq!(answer(7, 4), stray(1));
    }

    #[test]
    fn the_margins_are_kept() {
        for place in [0, MARGIN - 1, MARGIN + 4, MARGIN + 4 + MARGIN - 1] {
            let mut lent = Lent::new(4);
            lent.bytes[place] = 0;
            assert_eq!(lent.written(4), Err(Refusal { number: STRAY, place }));
        }
    }
}

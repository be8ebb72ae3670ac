//! The proved reader, called as C calls it.

use crate::plain::{Refusal, Sort};

extern "C" {
    fn cofferdrift_read_formula(
        s: *const u8,
        s_len: usize,
        types: *const u8,
        types_len: usize,
        expression: usize,
        start: usize,
        place: *mut usize,
    ) -> usize;
}

/// The end of the formula that starts at `start`, or why it is refused.
pub fn read_formula(s: &[u8], types: &[u8], sort: Sort, start: usize) -> Result<usize, Refusal> {
    let expression = usize::from(sort == Sort::Expression);
    let mut place = 0;
    // Both slices outlive the call, and `place` is no part of them.
    let number = unsafe {
        cofferdrift_read_formula(
            s.as_ptr(),
            s.len(),
            types.as_ptr(),
            types.len(),
            expression,
            start,
            &mut place,
        )
    };
    if number == 0 {
        Ok(place)
    } else {
        Err(Refusal { number, place })
    }
}

//! The proved library. A slice passes as a pointer and a length; a function returns 0 or the number of
//! its refusal, and tells the rest in numbers. exports.rs says which functions the library has to have;
//! an act without its function is not answered.

#![cfg_attr(
    not(all(ours_formula, ours_read, ours_genmp, ours_onepoint)),
    allow(dead_code, unreachable_code, unused_imports, unused_macros, unused_variables)
)]

use answers::Answer;

use crate::lent::{Told, number, refused, telling, writing_one, writing_two};

/// Why no act is there, where none is.
pub fn missing() -> Option<String> {
    (!cfg!(ours_present)).then(|| {
        let asked = env!("COFFERDRIFT_LIB_ASKED");
        format!(
            "the proved library was not found at {asked}; make it with `rt lib` in crates/c_api and build again"
        )
    })
}

type In = *const u8;
type Out = *mut u8;
type Num = *mut usize;

/// The acts on one formula: the sequent, the formula, the result, "changed", its length, and the place.
type FlagAct = unsafe extern "C" fn(In, usize, In, usize, Out, usize, Num, Num, Num) -> usize;

// As include/cofferdrift.h declares them.
#[rustfmt::skip]
unsafe extern "C" {
    fn cofferdrift_read_formula(
        s: In, n: usize, types: In, t: usize, expression: usize, start: usize, place: Num,
    ) -> usize;
    fn cofferdrift_read(s: In, n: usize, hidden: Num, selected: Num, visible: Num, place: Num) -> usize;
    fn cofferdrift_select(s: In, n: usize, p: In, m: usize, o: Out, r: usize, c: Num, l: Num, w: Num) -> usize;
    fn cofferdrift_deselect(s: In, n: usize, p: In, m: usize, o: Out, r: usize, c: Num, l: Num, w: Num) -> usize;
    fn cofferdrift_hide(s: In, n: usize, p: In, m: usize, o: Out, r: usize, c: Num, l: Num, w: Num) -> usize;
    fn cofferdrift_show(s: In, n: usize, p: In, m: usize, o: Out, r: usize, c: Num, l: Num, w: Num) -> usize;
    fn cofferdrift_modify(
        s: In, n: usize, added: In, an: usize, unselected: In, un: usize, goal: In, gn: usize,
        out: Out, on: usize, changed: Num, length: Num, place: Num,
    ) -> usize;
    fn cofferdrift_forward(
        s: In, n: usize, sources: In, sn: usize, inferred: In, im: usize,
        out: Out, on: usize, changed: Num, length: Num, place: Num,
    ) -> usize;
    fn cofferdrift_rewrite(
        s: In, n: usize, sources: In, sn: usize, inferred: In, im: usize, to_hide: In, hn: usize,
        out: Out, on: usize, changed: Num, length: Num, place: Num,
    ) -> usize;
    fn cofferdrift_genmp(
        s: In, n: usize, out: Out, on: usize, report: Out, rn: usize,
        length: Num, reported: Num, place: Num,
    ) -> usize;
    fn cofferdrift_one_point(
        types: In, t: usize, p: In, pn: usize, out: Out, on: usize, replacement: Out, rn: usize,
        length: Num, replaced: Num, place: Num,
    ) -> usize;
}

/// Calls an act with what it reads, what it writes, and the two numbers and the place that it tells.
macro_rules! call {
    ($act:expr, [$($read:expr),+], [$($lent:expr),+], $told:expr) => {
        // SAFETY: each length is that of its slice; slices and numbers outlive the call.
        unsafe {
            $act(
                $($read.as_ptr(), $read.len(),)+
                $($lent.as_mut_ptr(), $lent.len(),)+
                &mut $told.first, &mut $told.second, &mut $told.place,
            )
        }
    };
}

/// None for an act that the library does not have.
pub fn run(act: &str, buffers: &[&[u8]], rooms: &[usize]) -> Option<Answer> {
    if let (Some(act), &[sequent, formula], &[room]) = (flag_act(act), buffers, rooms) {
        return Some(writing_one(room, |out, told| call!(act, [sequent, formula], [out], told)));
    }
    Some(match (act, buffers, rooms) {
        #[cfg(ours_formula)]
        ("formula", &[types, bytes], []) => formula(bytes, types, 0),
        #[cfg(ours_formula)]
        ("expression", &[types, bytes], []) => formula(bytes, types, 1),
        #[cfg(ours_read)]
        ("read", &[sequent], []) => read(sequent),
        #[cfg(ours_modify)]
        ("modify", &[sequent, added, unselected, goal], &[room]) => writing_one(room, |out, told| {
            call!(cofferdrift_modify, [sequent, added, unselected, goal], [out], told)
        }),
        #[cfg(ours_forward)]
        ("forward", &[sequent, sources, inferred], &[room]) => writing_one(room, |out, told| {
            call!(cofferdrift_forward, [sequent, sources, inferred], [out], told)
        }),
        #[cfg(ours_rewrite)]
        ("rewrite", &[sequent, sources, inferred, hides], &[room]) => writing_one(room, |out, told| {
            call!(cofferdrift_rewrite, [sequent, sources, inferred, hides], [out], told)
        }),
        #[cfg(ours_genmp)]
        ("genmp", &[sequent], &[room, report]) => writing_two([room, report], |out, report, told| {
            call!(cofferdrift_genmp, [sequent], [out, report], told)
        }),
        #[cfg(ours_onepoint)]
        ("onepoint", &[types, predicate], &[room, beside]) => {
            writing_two([room, beside], |out, beside, told| {
                call!(cofferdrift_one_point, [types, predicate], [out, beside], told)
            })
        }
        _ => return None,
    })
}

/// The act that sets or clears a flag, by its name.
fn flag_act(act: &str) -> Option<FlagAct> {
    Some(match act {
        #[cfg(ours_select)]
        "select" => cofferdrift_select,
        #[cfg(ours_deselect)]
        "deselect" => cofferdrift_deselect,
        #[cfg(ours_hide)]
        "hide" => cofferdrift_hide,
        #[cfg(ours_show)]
        "show" => cofferdrift_show,
        _ => return None,
    })
}

/// The length of the formula at the first byte: a predicate, or an expression where `expression` is 1.
fn formula(bytes: &[u8], types: &[u8], expression: usize) -> Answer {
    let mut told = Told::nothing();
    let (s, n, t, k) = (bytes.as_ptr(), bytes.len(), types.as_ptr(), types.len());
    // SAFETY: the slices and the number outlive the call.
    match unsafe { cofferdrift_read_formula(s, n, t, k, expression, 0, &mut told.place) } {
        0 => Ok(vec![number(told.place)]),
        refusal => refused(refusal, &told, &[]),
    }
}

/// How many hypotheses are hidden, selected and visible.
fn read(s: &[u8]) -> Answer {
    // SAFETY: the slice and the numbers outlive the call.
    telling(|t| unsafe {
        cofferdrift_read(s.as_ptr(), s.len(), &mut t.first, &mut t.second, &mut t.third, &mut t.place)
    })
}

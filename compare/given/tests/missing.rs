//! Holds with and without the given files: the crate either runs or says what it misses.

use given::{Variant, missing, run};

#[test]
fn runs_or_says_why_not() {
    let goal_true = b"SQT\x01\x00\x00\x00\x00\x01";
    for variant in [Variant::Unchanged, Variant::Cut] {
        let answer = run(variant, "read", &[goal_true], &[]);
        assert_eq!(answer.is_some(), missing().is_none(), "{:?}", missing());
    }
}

//! The 32 levels and the 1,024 bytes, from both sides, and the order of 1, 7 and 9.

use paper::codes::{Own, TABLE};

use crate::parts::*;
use crate::Cases;

pub fn print(cases: &mut Cases) {
    levels(cases);
    order_at_level_33(cases);
    bytes(cases);
    order_past_the_last_byte(cases);
    straddled(cases);
    first_in_reading_order(cases);
    trailing(cases);
}

/// Chains whose last node is at levels 31 to 34.
fn levels(cases: &mut Cases) {
    for level in 31..=34 {
        let above = level - 1;
        for front in [&[3u8][..], &[6, 1], &[7, 2], &[4, 2, 1], &[5, 3, 1, 2], &[8, 1], &[9, 8]] {
            cases.formula(&chain(front, above, TOP));
            cases.formula(&cat(&[&chain(front, above, TOP), &[1; 40]]));
        }
        for front in [&[6u8][..], &[7], &[4, 2], &[5, 2]] {
            // The deep operand is the first: the others follow outwards.
            cases.formula(&cat(&[&chain(front, above, TOP), &[2].repeat(above)]));
        }
        deep_expressions(cases, above);
        deep_binders(cases, above);
        mixed(cases, above);
    }
}

fn deep_expressions(cases: &mut Cases, above: usize) {
    let minus = chain(&[0x29], above - 1, INTEGER);
    cases.formula(&cat(&[&[0x10], &minus, INTEGER]));
    cases.formula(&cat(&[&[0x10], INTEGER, &minus]));
    cases.formula(&cat(&[&[0x11], LITERAL, &minus]));
    cases.expression(&chain(&[0x29], above, LITERAL));
    cases.expression(&chain(&[0x26, 2, 0x20, 0], above, INTEGER));
    cases.expression(&chain(&[0x28, 0x20, 3], above, INTEGER));
    cases.expression(&chain(&[0x2a, 2, 0x23], above, SET));
    cases.expression(&cat(&[&chain(&[0x2c], above, SET), &SET.repeat(above)]));
    cases.expression(&cat(&[&chain(&[0x2f], above, TRUE), &TRUE.repeat(above)]));
    cases.expression(&chain(&[0x2f, 0x31], above, TRUE));
    cases.expression(&cat(&[&chain(&[0x2d, 1], above - 1, &[0x29]), INTEGER]));
}

fn deep_binders(cases: &mut Cases, above: usize) {
    for variables in [1, 8] {
        let enclosed = variables * (above - 2);
        for index in [0, enclosed - 1, enclosed] {
            let relation = [0x11, 0x21, index as u8, 0x20, 0];
            cases.formula(&chain(&[8, variables as u8], above - 2, &relation));
            cases.formula(&chain(&[9, variables as u8], above - 1, &relation));
        }
    }
}

/// Through truth values, and through guards: two levels at a time.
fn mixed(cases: &mut Cases, above: usize) {
    let odd = &[3u8][..above % 2];
    let pairs = above / 2;
    let core = cat(&[odd, TOP]);
    cases.formula(&cat(&[&chain(&[0x10, 0x2e], pairs, &core), &TRUE.repeat(pairs)]));
    cases.formula(&chain(&[0x10, 0x31, 0x2e], pairs, &core));
    let after = [0x21, 0].repeat(pairs);
    cases.formula(&cat(&[&chain(&[0x15, 0x20, 0, 0x30, 1], pairs, &core), &after]));
    let set_after = cat(&[&[0x21, 0], SET]).repeat(pairs);
    cases.formula(&cat(&[&chain(&[0x17, 0x30, 8], pairs, &core), &set_after]));
    let value = chain(&[0x29], above - 2, &[0x21, 0]);
    cases.formula(&cat(&[&[0x16, 0x30, 1, 1], &value, SET]));
    cases.formula(&cat(&[&[0x15, 0x20, 0, 0x30, 2, 1], &value]));
}

fn order_at_level_33(cases: &mut Cases) {
    for last in deep_ends() {
        cases.formula(&chain(&[3], 32, &last));
        cases.formula(&chain(&[8, 1], 32, &last));
        cases.formula(&cat(&[&[0x11], &chain(&[0x29], 31, &last)]));
        cases.expression(&chain(&[0x2f, 0x31], 32, &last));
        cases.formula(&cat(&[&[4, 2], &chain(&[3], 31, &last), &[0]]));
    }
}

/// What may stand where a node is too deep or too far: known and unknown, whole and cut.
fn deep_ends() -> Vec<Vec<u8>> {
    let mut ends: Vec<Vec<u8>> = vec![vec![], vec![0], vec![0x0a], vec![0x33], vec![0xff]];
    for row in &TABLE {
        let whole = smallest(row);
        ends.push(whole[..row.own_bytes()].to_vec());
        ends.push(whole[..1].to_vec());
    }
    let more: [&[u8]; 9] =
        [&[4, 1], &[4, 33], &[8, 0], &[8, 9], &[0x20, 4], &[0x21, 255], &[0x26, 1], &[0x2d, 0], &[0x30, 9]];
    ends.extend(more.iter().map(|end| end.to_vec()));
    ends
}

/// Each kind of last node, ending before, at and after the 1,024th byte.
fn bytes(cases: &mut Cases) {
    for size in [1024, 1025, 1026] {
        cases.formula(&filler(size));
        let ends: [&[u8]; 5] = [
            &[0x11, 0x20, 0, 0x20, 3],
            &[0x16, 0x23, 0x23],
            &[0x15, 0x20, 0, 0x25],
            &[8, 1, 0x11, 0x20, 0, 0x21, 0],
            &[0x10, 0x31, 0x2e, 1],
        ];
        for end in ends {
            cases.formula(&behind(size - end.len(), end));
        }
        cases.formula(&cat(&[&behind(size - 5, &[0x11, 0x20, 0, 0x20, 3]), &[0; 20]]));
    }
    let ending = cat(&[&[0x10, 0x20, 0], LITERAL]);
    for size in 1023..=1035 {
        let whole = behind(size - ending.len(), &ending);
        cases.formula(&whole);
        if size > 1024 {
            // Bytes that end inside the literal come first.
            cases.formula(&whole[..size - 1]);
        }
    }
}

/// At the 1,025th byte: first 1, then 7, then 9.
fn order_past_the_last_byte(cases: &mut Cases) {
    for last in [&[][..], &[0], &[1], &[4], &[4, 1], &[4, 2], &[8, 9], &[0x20], &[0x20, 0], &[0x22], &[0xff]]
    {
        cases.formula(&behind(1024, last));
    }
    let relation = [0x11, 0x20, 0];
    for last in
        [&[][..], &[1], &[0x20, 4], &[0x20, 3], &[0x21, 0], &[0x22, 0], &[0x25], &[0x26, 33], &[0x30, 8]]
    {
        cases.formula(&cat(&[&behind(1024 - relation.len(), &relation), last]));
    }
    // Too deep and too far at once, and too deep before too far.
    let deep = |start: usize, last: &[u8]| behind(start - 31, &chain(&[3], 31, last));
    for start in [1022, 1023, 1024] {
        for last in [TOP, &[0], &[4, 2], &[4, 33], &[]] {
            cases.formula(&deep(start, last));
        }
    }
    // A wrong type is not asked of what is too long.
    cases.formula(&cat(&[&[6, 0x11, 0x31, 0x31], &filler(1021)]));
    cases.formula(&cat(&[&[6, 0x11, 0x31, 0x31], &filler(1020)]));
}

/// Own bytes on both sides of the limit.
fn straddled(cases: &mut Cases) {
    for row in &TABLE {
        let counts = matches!(row.own, Own::Operands { .. } | Own::Variables { .. });
        if !counts {
            continue;
        }
        let whole = smallest(row);
        let front: &[u8] = if row.code < 0x10 { &[3] } else { &[0x10, 0x20, 0] };
        for start in [1022, 1023] {
            let bytes = cat(&[&behind(start - front.len(), front), &whole, INTEGER]);
            cases.formula(&bytes);
            cases.formula(&bytes[..start + 1]);
        }
    }
}

/// Of several refusals the first that is met, whatever its number is.
fn first_in_reading_order(cases: &mut Cases) {
    let deep = chain(&[3], 32, TOP);
    cases.formula(&cat(&[&[4, 3], &[0], &deep]));
    cases.formula(&cat(&[&[4, 3], &deep, &[0]]));
    cases.formula(&cat(&[&[4, 3], &deep[1..], &[0]]));
    cases.formula(&cat(&[&[4, 3], &deep[1..], &[1]]));
    cases.formula(&cat(&[&[4, 3, 0x11, 0x31, 0x31], &deep]));
    cases.formula(&cat(&[&[4, 3, 0x11, 0x31, 0x31], &[0x11, 0x20, 9, 0]]));
    cases.formula(&cat(&[&[4, 3, 0x11, 0x31, 0x31], &[0x11, 0x20, 0]]));
    cases.formula(&cat(&[&[4, 3, 0x11, 0x31, 0x31], &[0x11, 0x20, 0, 0x20]]));
    cases.formula(&cat(&[&[4, 3, 0x11, 0x31, 0x31], &[0x11, 0x31, 0x31, 1]]));
}

/// Bytes after the formula are not looked at.
fn trailing(cases: &mut Cases) {
    for row in &TABLE {
        let whole = smallest(row);
        for after in [&[0u8][..], &[1], &[0xff; 5], &[0x22; 12]] {
            cases.formula(&cat(&[&whole, after]));
            cases.expression(&cat(&[&whole, after]));
        }
    }
    cases.formula(&cat(&[TOP, &[0xff; 1100]]));
    cases.formula(&cat(&[TOP, &[1; 1100]]));
    cases.formula(&cat(&[&[3], &[0; 1100]]));
    cases.formula(&cat(&[&filler(1024), &[0xff; 3]]));
    cases.formula(&cat(&[&filler(1024), &[1; 100]]));
    cases.formula(&cat(&[&filler(1025), &[1; 100]]));
    cases.expression(&cat(&[LITERAL, &filler(1020)]));
}

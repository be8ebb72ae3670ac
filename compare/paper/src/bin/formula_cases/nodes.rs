//! One node at a time: its code, own bytes, sort, count and index.

use paper::codes::{Own, Row, Sort, TABLE};

use crate::parts::*;
use crate::Cases;

pub fn print(cases: &mut Cases) {
    each_code_alone(cases);
    each_code_damaged(cases);
    each_code_in_the_other_place(cases);
    each_count(cases);
    each_number_of_variables(cases);
    identifiers(cases);
    bound_variables(cases);
}

/// Both sorts are asked of the same bytes.
fn both(cases: &mut Cases, bytes: &[u8]) {
    cases.formula(bytes);
    cases.expression(bytes);
}

fn each_code_alone(cases: &mut Cases) {
    both(cases, &[]);
    for code in 0..=255 {
        both(cases, &[code]);
        both(cases, &cat(&[&[code], &[0; 10]]));
        both(cases, &cat(&[&[code], &[1; 10]]));
    }
}

/// Every byte replaced, and the bytes cut at every length.
fn damaged(bytes: &[u8], mut ask: impl FnMut(&[u8])) {
    ask(bytes);
    for place in 0..bytes.len() {
        for byte in [0, 1, 0x7f, 0xff, bytes[place].wrapping_add(1)] {
            let mut other = bytes.to_vec();
            other[place] = byte;
            ask(&other);
        }
        ask(&bytes[..place]);
    }
}

fn each_code_damaged(cases: &mut Cases) {
    for row in &TABLE {
        let bytes = smallest(row);
        match row.sort {
            Sort::Predicate => damaged(&bytes, |b| cases.formula(b)),
            Sort::Expression => {
                damaged(&bytes, |b| cases.expression(b));
                damaged(&around(row, &bytes), |b| cases.formula(b));
            }
        }
    }
}

/// A code of the other sort is 7 where its own bytes are there, and 1 where they are cut off.
fn each_code_in_the_other_place(cases: &mut Cases) {
    for row in &TABLE {
        let bytes = smallest(row);
        let own = row.own_bytes();
        let fronts: &[&[u8]] = match row.sort {
            Sort::Predicate => &[&[0x10], &[0x26, 2, 0x20, 0], &[0x15, 0x20, 0]],
            Sort::Expression => &[&[3], &[4, 2, 1], &[8, 1], &[0x15, 0x20, 0, 0x30, 1]],
        };
        for front in fronts {
            cases.formula(&cat(&[front, &bytes]));
            for length in 1..=own {
                cases.formula(&cat(&[front, &bytes[..length]]));
            }
        }
        for length in 0..=own {
            both(cases, &bytes[..length]);
        }
    }
}

/// As a predicate, whatever the row's sort is.
fn asked(cases: &mut Cases, row: &Row, bytes: &[u8]) {
    match row.sort {
        Sort::Predicate => cases.formula(bytes),
        Sort::Expression => {
            cases.formula(&around(row, bytes));
            cases.expression(bytes);
        }
    }
}

/// All operands there, one missing, and none.
fn each_count(cases: &mut Cases) {
    for row in TABLE.iter().filter(|row| matches!(row.own, Own::Operands { .. })) {
        for count in [0, 1, 2, 3, 31, 32, 33, 34, 255] {
            let all = counted(row.code, count, good_operand(row, 0));
            asked(cases, row, &all);
            if count < 40 {
                let lacking = usize::from(count).saturating_sub(1);
                asked(cases, row, &node(row, &[count], lacking));
            }
            asked(cases, row, &all[..2]);
        }
    }
}

fn each_number_of_variables(cases: &mut Cases) {
    for row in TABLE.iter().filter(|row| matches!(row.own, Own::Variables { .. })) {
        for count in [0, 1, 2, 7, 8, 9, 10, 255] {
            asked(cases, row, &node(row, &[count], fixed(row)));
            asked(cases, row, &[row.code, count]);
            for index in [0, count.wrapping_sub(1), count, count.wrapping_add(1)] {
                let guard = [0x11, 0x21, index, 0x20, 0];
                let value: &[u8] = if row.sort == Sort::Expression { &[0x21, index] } else { &[] };
                asked(cases, row, &cat(&[&[row.code, count], TOP, value]));
                asked(cases, row, &cat(&[&[row.code, count], &guard, value]));
            }
        }
    }
}

/// The last identifier and the one after it.
fn identifiers(cases: &mut Cases) {
    for t in [0usize, 1, 2, 3, 64] {
        for kinds in [[0, 0, 0], [0, 1, 2], [2, 2, 2], [1, 0, 1]] {
            let types: Vec<u8> = kinds.into_iter().cycle().take(t).collect();
            for k in [0, 1, t.wrapping_sub(1) as u8, t as u8, 255] {
                cases.ask("expression", &[&types, &[0x20, k]]);
                cases.ask("formula", &[&types, &[0x10, 0x20, k, 0x20, k]]);
                cases.ask("formula", &[&types, &[0x10, 0x20, 0, 0x20, k]]);
                cases.ask("formula", &[&types, &[0x11, 0x22, 0, 0, 0, 0, 0, 0, 0, 0, 0x20, k]]);
                cases.ask("formula", &[&types, &[0x17, 0x20, k, 0x23]]);
                cases.ask("formula", &[&types, &[0x10, 0x20, k, 0x32]]);
            }
        }
    }
}

fn bound_variables(cases: &mut Cases) {
    // Blocks of variables around one index: at the enclosed depth and past it.
    for blocks in [&[1u8][..], &[2], &[8], &[1, 1], &[3, 2], &[8, 8], &[1, 2, 3], &[8, 8, 8, 8]] {
        let depth: u8 = blocks.iter().sum();
        for index in [0, depth - 1, depth, depth + 1, 255] {
            let relation = [0x12, 0x21, index, 0x20, 3];
            let quantified: Vec<u8> = blocks.iter().flat_map(|&n| [8 + n % 2, n]).collect();
            cases.formula(&cat(&[&quantified, &relation]));
            let through_bool: Vec<u8> = blocks.iter().flat_map(|&n| [8, n, 0x10, 0x31, 0x2e]).collect();
            cases.formula(&cat(&[&through_bool, &relation]));
            comprehended(cases, blocks, &relation);
        }
    }
    variables_end_with_their_node(cases);
}

/// The index in the guard, and in the value, of comprehensions within guards.
fn comprehended(cases: &mut Cases, blocks: &[u8], relation: &[u8]) {
    let (mut guards, mut values) = (relation.to_vec(), relation[1..3].to_vec());
    for &n in blocks.iter().rev() {
        guards = cat(&[&[0x15, 0x20, 0, 0x30, n], &guards, &[0x21, n - 1]]);
        values = cat(&[&[0x30, n, 0x15, 0x21, n - 1], SET, &values]);
        cases.expression(&guards[3..]);
        // An inner value is a set where an integer should be: 8, unless an index comes first.
        cases.expression(&values);
    }
    cases.formula(&guards);
}

fn variables_end_with_their_node(cases: &mut Cases) {
    let own = [0x11, 0x21, 0, 0x21, 0];
    cases.formula(&cat(&[&[6, 8, 1], &own, &own]));
    cases.formula(&cat(&[&[4, 3, 8, 1], &own, &[9, 2], &own, TOP]));
    cases.formula(&cat(&[&[8, 1, 6, 9, 1], &own, &own]));
    cases.formula(&[8, 1, 6, 9, 1, 0x11, 0x21, 1, 0x21, 0, 0x11, 0x21, 1, 0x21, 0]);
    cases.formula(&[0x16, 0x30, 1, 1, 0x21, 0, 0x2d, 1, 0x21, 0]);
    cases.formula(&[8, 1, 0x16, 0x30, 1, 1, 0x21, 1, 0x2d, 1, 0x21, 0]);
    cases.formula(&[8, 1, 0x16, 0x30, 1, 1, 0x21, 1, 0x2d, 1, 0x21, 1]);
    cases.formula(&[8, 2, 0x16, 0x30, 8, 0x11, 0x21, 9, 0x21, 8, 0x21, 9, 0x23]);
    cases.formula(&[8, 2, 0x16, 0x30, 8, 0x11, 0x21, 9, 0x21, 8, 0x21, 10, 0x23]);
    cases.formula(&[8, 2, 0x16, 0x30, 8, 0x11, 0x21, 10, 0x21, 8, 0x21, 9, 0x23]);
}

//! Stands in for `num_bigint::BigInt`: literals have 64 bits and the given files move them by one,
//! so 128 bits never overflow.

use std::ops::{Add, Neg, Sub};

#[derive(Clone, Copy, Debug, PartialEq, Eq, PartialOrd, Ord, Hash)]
pub struct BigInt(i128);

impl BigInt {
    pub const ZERO: BigInt = BigInt(0);

    /// The value as an eight-byte literal, where it is one.
    pub(crate) fn to_i64(self) -> Option<i64> {
        i64::try_from(self.0).ok()
    }

    #[cfg(test)]
    pub(crate) fn value(self) -> i128 {
        self.0
    }
}

impl From<i32> for BigInt {
    fn from(value: i32) -> BigInt {
        BigInt(value.into())
    }
}

impl From<i64> for BigInt {
    fn from(value: i64) -> BigInt {
        BigInt(value.into())
    }
}

impl Add<i32> for BigInt {
    type Output = BigInt;
    fn add(self, other: i32) -> BigInt {
        BigInt(self.0 + i128::from(other))
    }
}

impl Sub<i32> for BigInt {
    type Output = BigInt;
    fn sub(self, other: i32) -> BigInt {
        BigInt(self.0 - i128::from(other))
    }
}

impl Neg for BigInt {
    type Output = BigInt;
    fn neg(self) -> BigInt {
        BigInt(-self.0)
    }
}

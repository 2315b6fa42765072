//! "Weights are the whole numbers 0 to 65536, added and multiplied modulo the prime 65537."

pub type Weight = u32;

pub const MODULUS: Weight = 65_537;

/// "The eighth root is 16, i is 256, root two is 61457, and its inverse h is 63497."
pub const ROOT: Weight = 16;
pub const I: Weight = 256;
pub const ROOT_TWO: Weight = 61_457;
pub const H: Weight = 63_497;

pub fn plus(a: Weight, b: Weight) -> Weight {
    (a + b) % MODULUS
}

pub fn minus(a: Weight) -> Weight {
    (MODULUS - a) % MODULUS
}

pub fn times(a: Weight, b: Weight) -> Weight {
    (u64::from(a) * u64::from(b) % u64::from(MODULUS)) as Weight
}

pub fn power(a: Weight, exponent: u32) -> Weight {
    (0..32).rev().fold(1, |r, bit| {
        let square = times(r, r);
        if exponent >> bit & 1 == 1 {
            times(square, a)
        } else {
            square
        }
    })
}

/// "A nonzero weight has one inverse."
pub fn inverse(a: Weight) -> Weight {
    assert_ne!(a, 0, "0 has no inverse");
    power(a, MODULUS - 2)
}

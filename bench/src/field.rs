//! Weights: whole numbers modulo the prime 65537.

pub const MODULUS: u32 = 65537;

pub fn add(a: u32, b: u32) -> u32 {
    let s = a + b;
    if s < MODULUS {
        s
    } else {
        s - MODULUS
    }
}

pub fn neg(a: u32) -> u32 {
    if a == 0 {
        0
    } else {
        MODULUS - a
    }
}

/// 65536 is -1, so the upper part of the product is taken from its lower part.
pub fn mul(a: u32, b: u32) -> u32 {
    let p = u64::from(a) * u64::from(b);
    let low = (p & 0xffff) as u32;
    let high = (p >> 16) as u32;
    let d = low.wrapping_sub(high);
    if low < high {
        d.wrapping_add(MODULUS)
    } else {
        d
    }
}

/// 2 to the power n.
pub fn power_of_two(n: u32) -> u32 {
    let p = 1 << (n % 16);
    match n / 16 % 2 {
        0 => p,
        _ => neg(p),
    }
}

/// The inverses of the nonzero weights, each less 1 so that it takes two bytes and every place is in range.
pub struct Inverses(Box<[u16; 65536]>);

impl Inverses {
    pub fn new() -> Self {
        let mut table = Box::new([0u16; 65536]);
        for i in 2..MODULUS {
            let rest = MODULUS % i;
            let known = u32::from(table[rest as usize - 1]) + 1;
            table[i as usize - 1] = (neg(mul(MODULUS / i, known)) - 1) as u16;
        }
        Inverses(table)
    }

    pub fn of(&self, w: u32) -> u32 {
        u32::from(self.0[usize::from((w.wrapping_sub(1)) as u16)]) + 1
    }
}

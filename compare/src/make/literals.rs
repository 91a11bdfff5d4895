//! Values of literals, with many that are equal or nearly so.
use super::Maker;
use crate::tree::Value;

/// Magnitude, high byte first, no leading zero byte.
pub fn integer(n: u128) -> Value {
    let bytes = n.to_be_bytes();
    let zeros = bytes.iter().take_while(|b| **b == 0).count();
    (3, bytes[zeros..].to_vec())
}

pub fn float(x: f64) -> Value {
    (4, x.to_bits().to_le_bytes().to_vec())
}

/// Around 0, a byte, i32, 2^53, u64, and what the last bits of a float lose.
const WHOLE: [u128; 22] = [
    0,
    1,
    2,
    3,
    10,
    255,
    256,
    65535,
    65536,
    2147483646,
    2147483647,
    2147483648,
    2147483649,
    4294967295,
    4294967296,
    10000000000,
    9007199254740991,
    9007199254740992,
    9007199254740993,
    9223372036854775807,
    18446744073709551615,
    18446744073709551616,
];

const FLOATS: [f64; 12] = [
    0.5,
    1.5,
    2147483647.5,
    2147483646.5,
    0.1,
    1e300,
    f64::INFINITY,
    f64::MIN_POSITIVE,
    5e-324,
    f64::MAX,
    4503599627370495.5,
    1e-9,
];

/// The same number, or nearly, in the other form; other values as they are.
fn other_form(value: &Value) -> Value {
    match value.0 {
        3 if value.1.len() <= 16 => float(value.1.iter().fold(0, |n, b| n << 8 | u128::from(*b)) as f64),
        4 => {
            let number = f64::from_bits(u64::from_le_bytes(value.1[..].try_into().expect("eight bytes")));
            if number < 1e30 {
                integer(number as u128)
            } else {
                value.clone()
            }
        }
        _ => value.clone(),
    }
}

impl Maker<'_> {
    pub fn literal(&mut self) -> Value {
        if self.style.floats && self.r.percent(80) {
            return self.number();
        }
        match self.r.below(10) {
            0 | 1 => (1, self.text()),
            2 => (2, self.text()),
            3..=5 => self.whole(),
            6 | 7 => {
                let few = self.r.percent(60);
                let n = if few { self.r.below(4) as u128 } else { *self.r.pick(&WHOLE) };
                float(n as f64)
            }
            8 => float(*self.r.pick(&FLOATS)),
            _ => float(f64::from_bits(self.r.next() >> 1).abs().min(f64::MAX)),
        }
    }

    /// What stands again as a key where a number stood.
    pub fn otherwise(&mut self, value: &Value) -> Value {
        if self.style.floats {
            self.beside(value)
        } else {
            other_form(value)
        }
    }

    fn whole(&mut self) -> Value {
        match self.r.below(20) {
            0 => (3, vec![self.r.range(1, 255) as u8; self.r.range(9, 64)]),
            1..=11 => integer(self.r.below(4) as u128),
            _ => integer(*self.r.pick(&WHOLE)),
        }
    }

    fn text(&mut self) -> Vec<u8> {
        match self.r.below(12) {
            0 => vec![],
            1 => self.name(),
            2 => vec![b'z'; self.r.range(1, 255)],
            3 => vec![self.r.below(256) as u8],
            _ => self.r.pick(&["a", "b", "k", "doc"]).as_bytes().to_vec(),
        }
    }
}

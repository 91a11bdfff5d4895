//! Whole floats of every size beside their integers (02, §2), and numbers that are nearly equal.
use super::literals::float;
use super::Maker;
use crate::tree::Value;

/// No integer of a file has more bytes.
const LONGEST: usize = 64;
/// The bits of a float's mantissa.
const MANTISSA: usize = 53;
/// The last shift with which a mantissa is finite, and the last with which 64 bytes hold it.
const FINITE: usize = 971;
const HELD: usize = 8 * LONGEST - MANTISSA;
/// Powers of two where programs may part: a mantissa, words, 64 bytes, the largest floats.
const POWERS: [usize; 11] = [53, 54, 63, 64, 127, 128, 256, 511, 512, 1023, 1024];

const ODD: [f64; 6] = [f64::INFINITY, f64::MAX, f64::MIN_POSITIVE, 5e-324, 2.225073858507201e-308, 0.5];

/// mantissa · 2^shift, a float where the mantissa has no more bits than it may.
#[derive(Clone, Copy)]
struct Whole {
    mantissa: u64,
    shift: usize,
}

impl Whole {
    /// A float without what stands after its point; an infinity as 2^1024.
    fn below(x: f64) -> Whole {
        let (exponent, fraction) = ((x.to_bits() >> 52) as usize, x.to_bits() & ((1 << 52) - 1));
        let mantissa = fraction | 1 << 52;
        match exponent.checked_sub(1075) {
            Some(shift) => Whole { mantissa, shift },
            None => Whole { mantissa: mantissa.checked_shr(1075 - exponent as u32).unwrap_or(0), shift: 0 },
        }
    }

    /// An integer without the bits that no float of its size has.
    fn leading(magnitude: &[u8]) -> Whole {
        let head = magnitude.len().min(8);
        let mantissa = magnitude[..head].iter().fold(0, |n, b| n << 8 | u64::from(*b));
        let lost = (64 - mantissa.leading_zeros() as usize).saturating_sub(MANTISSA);
        Whole { mantissa: mantissa >> lost, shift: 8 * (magnitude.len() - head) + lost }
    }

    fn float(self) -> Value {
        float(self.mantissa as f64 * 2f64.powi(self.shift as i32))
    }

    /// With a mantissa that is one off.
    fn beside(self, up: bool) -> Whole {
        let mantissa = if up { self.mantissa + 1 } else { self.mantissa.saturating_sub(1) };
        Whole { mantissa, ..self }
    }

    /// High byte first.
    fn magnitude(self) -> Vec<u8> {
        let mut out = (self.mantissa << (self.shift % 8)).to_be_bytes().to_vec();
        out.extend(vec![0; self.shift / 8]);
        out
    }
}

/// The integer of these bytes, high byte first; of more than 64 the first, as where the rest is lost.
fn integer(bytes: &[u8]) -> Value {
    let zeros = bytes.iter().take_while(|b| **b == 0).count();
    (3, bytes[zeros..].iter().copied().take(LONGEST).collect())
}

/// One more, or one less where there is one, in as many bytes.
fn one_off(magnitude: &[u8], up: bool) -> Vec<u8> {
    let (mut out, one, carried) = (magnitude.to_vec(), if up { 1 } else { 255 }, if up { 0 } else { 255 });
    for byte in out.iter_mut().rev() {
        *byte = byte.wrapping_add(one);
        if *byte != carried {
            return out;
        }
    }
    magnitude.to_vec()
}

impl Maker<'_> {
    /// A number of any size in either form.
    pub fn number(&mut self) -> Value {
        match self.r.below(20) {
            0..=6 => self.sized().float(),
            7..=13 => integer(&self.sized().magnitude()),
            14 => {
                let length = self.r.range(1, LONGEST);
                integer(&self.bytes(length))
            }
            15 | 16 => float(*self.r.pick(&ODD)),
            17 => float((self.r.next() >> self.r.range(12, 63)) as f64 + 0.5),
            _ => integer(&[self.r.below(3) as u8]),
        }
    }

    fn sized(&mut self) -> Whole {
        let random = (self.r.next() >> 11 | 1 << 52) & (u64::MAX << self.r.below(MANTISSA));
        match self.r.below(4) {
            0 | 1 => self.near_a_power(),
            2 => Whole { mantissa: random, shift: self.r.range(0, HELD) },
            _ => Whole { mantissa: random, shift: self.r.range(0, FINITE) },
        }
    }

    /// A power of two, or the float on one of its sides.
    fn near_a_power(&mut self) -> Whole {
        let power = *self.r.pick(&POWERS);
        let below = Whole { mantissa: (1 << MANTISSA) - 1, shift: power - MANTISSA };
        let at = Whole { mantissa: 1 << 52, shift: power - 52 };
        match self.r.below(3) {
            0 => below,
            _ if power == 1024 => below,
            1 => at,
            _ => at.beside(true),
        }
    }

    fn bytes(&mut self, length: usize) -> Vec<u8> {
        (0..length).map(|_| self.r.below(256) as u8).collect()
    }

    /// A number in its other form, or one that is nearly equal; other values as they are.
    pub fn beside(&mut self, value: &Value) -> Value {
        match value.0 {
            3 => self.beside_integer(&value.1),
            4 => {
                let number = f64::from_bits(u64::from_le_bytes(value.1[..].try_into().expect("eight bytes")));
                self.beside_float(number)
            }
            _ => value.clone(),
        }
    }

    fn beside_integer(&mut self, magnitude: &[u8]) -> Value {
        let (whole, up) = (Whole::leading(magnitude), self.r.percent(50));
        match self.r.below(10) {
            0..=6 => whole.float(),
            7 => whole.beside(up).float(),
            _ => self.beside_magnitude(magnitude),
        }
    }

    fn beside_float(&mut self, x: f64) -> Value {
        let bytes = Whole::below(x).magnitude();
        match self.r.below(10) {
            0..=5 => integer(&bytes),
            // As where the first bytes are lost.
            6 => integer(&bytes[bytes.len().saturating_sub(LONGEST)..]),
            _ => self.beside_magnitude(&bytes),
        }
    }

    /// One off, or with other bytes at its end.
    fn beside_magnitude(&mut self, magnitude: &[u8]) -> Value {
        let mut bytes = magnitude.to_vec();
        match self.r.below(3) {
            0 => return integer(&one_off(magnitude, self.r.percent(50))),
            1 => bytes.extend(self.bytes(1)),
            _ => {
                let kept = self.r.below(bytes.len() + 1);
                let last = self.bytes(bytes.len() - kept);
                bytes.splice(kept.., last);
            }
        }
        integer(&bytes)
    }
}

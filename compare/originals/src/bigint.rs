//! Stand-ins for num_bigint, num_traits and anyhow. Real are: making a number
//! from bytes, equality, hash, order of size. Arithmetic, which int_or_big.rs
//! has and no lint calls, stops the program.
use std::cmp::Ordering;
use std::fmt;

#[derive(Clone, Copy, Debug, PartialEq, Eq, Hash)]
pub enum Sign {
    Minus,
    NoSign,
    Plus,
}

/// Not below 0: the tree file has magnitudes only. High byte first, no leading 0.
#[derive(Clone, Debug, PartialEq, Eq, Hash)]
pub struct BigInt(Vec<u8>);

impl BigInt {
    pub fn from_bytes_be(sign: Sign, bytes: &[u8]) -> BigInt {
        assert!(sign == Sign::Plus);
        let zeros = bytes.iter().take_while(|b| **b == 0).count();
        BigInt(bytes[zeros..].to_vec())
    }
    pub fn to_u128(&self) -> Option<u128> {
        (self.0.len() <= 16).then(|| self.0.iter().fold(0, |n, b| n << 8 | u128::from(*b)))
    }
    pub fn sign(&self) -> Sign {
        if self.0.is_empty() {
            Sign::NoSign
        } else {
            Sign::Plus
        }
    }
}

impl fmt::Display for BigInt {
    fn fmt(&self, f: &mut fmt::Formatter<'_>) -> fmt::Result {
        f.write_str("0x")?;
        self.0.iter().try_for_each(|b| write!(f, "{b:02x}"))
    }
}

impl PartialOrd for BigInt {
    fn partial_cmp(&self, other: &Self) -> Option<Ordering> {
        Some(self.cmp(other))
    }
}

impl Ord for BigInt {
    fn cmp(&self, other: &Self) -> Ordering {
        (self.0.len(), &self.0).cmp(&(other.0.len(), &other.0))
    }
}

macro_rules! from {
    ($($t:ty)*) => {$(
        impl From<$t> for BigInt {
            fn from(x: $t) -> BigInt {
                BigInt::from_bytes_be(Sign::Plus, &u128::try_from(x).expect("below 0").to_be_bytes())
            }
        }
    )*};
}
from!(i32 u32 i64 u64 isize usize);

macro_rules! never {
    ($($op:ident $f:ident $a:ty, $b:ty;)*) => {$(
        impl std::ops::$op<$b> for $a {
            type Output = BigInt;
            fn $f(self, _: $b) -> BigInt {
                unimplemented!("no lint does arithmetic")
            }
        }
    )*};
}
never! {
    Add add BigInt, BigInt; Add add BigInt, &BigInt;
    Sub sub BigInt, BigInt; Sub sub BigInt, i32;
    Mul mul BigInt, i32; Mul mul &BigInt, i32; Mul mul &BigInt, &BigInt;
    Div div &BigInt, &BigInt; Rem rem &BigInt, &BigInt;
    Shl shl BigInt, u64; Shr shr &BigInt, u64;
    BitAnd bitand BigInt, BigInt; BitOr bitor BigInt, BigInt; BitXor bitxor BigInt, BigInt;
}

impl std::ops::Neg for BigInt {
    type Output = BigInt;
    fn neg(self) -> BigInt {
        unimplemented!("no lint does arithmetic")
    }
}

impl std::ops::Not for BigInt {
    type Output = BigInt;
    fn not(self) -> BigInt {
        unimplemented!("no lint does arithmetic")
    }
}

impl std::str::FromStr for BigInt {
    type Err = fmt::Error;
    fn from_str(_: &str) -> Result<BigInt, fmt::Error> {
        unimplemented!("literals come as bytes")
    }
}

// num_traits

pub trait FromPrimitive: Sized {
    fn from_f64(f: f64) -> Option<Self>;
}

pub trait ToPrimitive {
    fn to_u64(&self) -> Option<u64>;
    fn to_f64(&self) -> Option<f64>;
}

pub trait Signed {
    fn is_negative(&self) -> bool;
    fn abs(&self) -> Self;
}

pub trait Zero {
    fn is_zero(&self) -> bool;
}

impl FromPrimitive for BigInt {
    fn from_f64(_: f64) -> Option<BigInt> {
        unimplemented!("no lint does arithmetic")
    }
}

impl ToPrimitive for BigInt {
    fn to_u64(&self) -> Option<u64> {
        self.to_u128().and_then(|n| n.try_into().ok())
    }
    fn to_f64(&self) -> Option<f64> {
        unimplemented!("no lint does arithmetic")
    }
}

impl Signed for BigInt {
    fn is_negative(&self) -> bool {
        false
    }
    fn abs(&self) -> BigInt {
        self.clone()
    }
}

impl Zero for BigInt {
    fn is_zero(&self) -> bool {
        self.0.is_empty()
    }
}

//! The few items of `num-traits` that spade names, for f32 and f64.

use core::ops::{Add, Div, Mul, Neg, Rem, Sub};

pub trait Zero: Sized + Add<Self, Output = Self> {
    fn zero() -> Self;
    fn is_zero(&self) -> bool;
}

pub trait One: Sized + Mul<Self, Output = Self> {
    fn one() -> Self;
}

pub fn zero<T: Zero>() -> T {
    T::zero()
}

pub trait Num: PartialEq + Zero + One + Sub<Output = Self> + Div<Output = Self> + Rem<Output = Self> {}

pub trait Signed: Num + Neg<Output = Self> {
    fn abs(&self) -> Self;
}

pub trait ToPrimitive {
    fn to_f64(&self) -> Option<f64>;
}

pub trait NumCast: Sized + ToPrimitive {
    fn from<T: ToPrimitive>(n: T) -> Option<Self>;
}

pub trait Float: Num + Copy + NumCast + PartialOrd + Neg<Output = Self> {
    fn infinity() -> Self;
}

macro_rules! float {
    ($t:ident) => {
        impl Zero for $t {
            fn zero() -> Self {
                0.0
            }
            fn is_zero(&self) -> bool {
                *self == 0.0
            }
        }
        impl One for $t {
            fn one() -> Self {
                1.0
            }
        }
        impl Num for $t {}
        impl Signed for $t {
            fn abs(&self) -> Self {
                $t::abs(*self)
            }
        }
        impl ToPrimitive for $t {
            fn to_f64(&self) -> Option<f64> {
                Some(*self as f64)
            }
        }
        impl NumCast for $t {
            fn from<T: ToPrimitive>(n: T) -> Option<Self> {
                n.to_f64().map(|n| n as $t)
            }
        }
        impl Float for $t {
            fn infinity() -> Self {
                $t::INFINITY
            }
        }
    };
}

float!(f32);
float!(f64);

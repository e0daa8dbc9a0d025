// Scalars and vectors, as the cones' files use them. The rules are document 01's, "Numbers".
use std::iter::zip;
use std::ops::{Add, AddAssign, Div, Mul, MulAssign, Neg, Sub, SubAssign};

// ---- scalars: f64, with Rust's own operations

pub trait FloatT:
    Copy
    + PartialOrd
    + Add<Output = Self>
    + Sub<Output = Self>
    + Mul<Output = Self>
    + Div<Output = Self>
    + Neg<Output = Self>
    + AddAssign
    + SubAssign
    + MulAssign
    + 'static
{
    fn of(x: f64) -> Self;
    fn zero() -> Self;
    fn one() -> Self;
    fn infinity() -> Self;
    fn SQRT_2() -> Self;
    fn FRAC_1_SQRT_2() -> Self;
    fn is_zero(&self) -> bool;
    fn sqrt(self) -> Self;
    fn recip(self) -> Self;
    fn min(self, other: Self) -> Self;
    fn max(self, other: Self) -> Self;
    // Only the barrier calls it, which is not ported.
    fn logsafe(self) -> Self;
}

// With --cfg akm_root the root is the proved one, so that a time can be told without the roots' share.
#[cfg(akm_root)]
extern "C" {
    fn akm_sqrt(x: f64) -> f64;
}

// On Arm Rust's least and greatest of a signalling NaN and a number are NaN, elsewhere the number. With --cfg one_nan
// every NaN goes in as the quiet one, since document 01 counts NaN as one number.
fn missing(x: f64) -> f64 {
    if cfg!(one_nan) && x.is_nan() {
        f64::NAN
    } else {
        x
    }
}

// Of two opposite zeros Rust's least and greatest may be either. With --cfg two_zeros it is the first,
// or, where SECOND is set, the second: a program that runs a call both ways knows whether it matters.
#[cfg(two_zeros)]
pub static SECOND: std::sync::atomic::AtomicBool = std::sync::atomic::AtomicBool::new(false);

#[cfg(two_zeros)]
fn either(a: f64, b: f64) -> f64 {
    match SECOND.load(std::sync::atomic::Ordering::Relaxed) {
        true => b,
        false => a,
    }
}

impl FloatT for f64 {
    fn of(x: f64) -> f64 {
        x
    }
    fn zero() -> f64 {
        0.0
    }
    fn one() -> f64 {
        1.0
    }
    fn infinity() -> f64 {
        f64::INFINITY
    }
    fn SQRT_2() -> f64 {
        std::f64::consts::SQRT_2
    }
    fn FRAC_1_SQRT_2() -> f64 {
        std::f64::consts::FRAC_1_SQRT_2
    }
    fn is_zero(&self) -> bool {
        *self == 0.0
    }
    #[cfg(not(akm_root))]
    fn sqrt(self) -> f64 {
        f64::sqrt(self)
    }
    #[cfg(akm_root)]
    fn sqrt(self) -> f64 {
        unsafe { akm_sqrt(self) }
    }
    fn recip(self) -> f64 {
        1.0 / self
    }
    fn min(self, other: f64) -> f64 {
        #[cfg(two_zeros)]
        if self == other {
            return either(self, other);
        }
        f64::min(missing(self), missing(other))
    }
    fn max(self, other: f64) -> f64 {
        #[cfg(two_zeros)]
        if self == other {
            return either(self, other);
        }
        f64::max(missing(self), missing(other))
    }
    fn logsafe(self) -> f64 {
        if self <= 0.0 {
            f64::NEG_INFINITY
        } else {
            self.ln()
        }
    }
}

pub trait AsFloatT<T> {
    fn as_T(&self) -> T;
}

impl<T: FloatT> AsFloatT<T> for f64 {
    fn as_T(&self) -> T {
        T::of(*self)
    }
}

// ---- vectors

pub trait VectorMath<T> {
    fn copy_from(&mut self, x: &Self) -> &mut Self;
    fn scalarop_from(&mut self, op: impl Fn(T) -> T, x: &Self) -> &mut Self;
    fn set(&mut self, a: T) -> &mut Self;
    fn translate(&mut self, a: T) -> &mut Self;
    fn scale(&mut self, a: T) -> &mut Self;
    fn recip(&mut self) -> &mut Self;
    fn axpby(&mut self, a: T, x: &Self, b: T) -> &mut Self;
    fn waxpby(&mut self, a: T, x: &Self, b: T, y: &Self) -> &mut Self;
    fn dot(&self, y: &Self) -> T;
    fn sumsq(&self) -> T;
    fn norm(&self) -> T;
    fn norm_shifted(&self, dz: &Self, a: T) -> T;
    fn minimum(&self) -> T;
    // Only the equilibration calls it, which is not ported.
    fn mean(&self) -> T;
}

impl<T: FloatT> VectorMath<T> for [T] {
    fn copy_from(&mut self, x: &[T]) -> &mut [T] {
        self.copy_from_slice(x);
        self
    }
    fn scalarop_from(&mut self, op: impl Fn(T) -> T, x: &[T]) -> &mut [T] {
        zip(&mut *self, x).for_each(|(y, x)| *y = op(*x));
        self
    }
    fn set(&mut self, a: T) -> &mut [T] {
        self.fill(a);
        self
    }
    fn translate(&mut self, a: T) -> &mut [T] {
        self.iter_mut().for_each(|y| *y = *y + a);
        self
    }
    fn scale(&mut self, a: T) -> &mut [T] {
        self.iter_mut().for_each(|y| *y = a * *y);
        self
    }
    fn recip(&mut self) -> &mut [T] {
        self.iter_mut().for_each(|y| *y = y.recip());
        self
    }
    fn axpby(&mut self, a: T, x: &[T], b: T) -> &mut [T] {
        assert_eq!(self.len(), x.len());
        zip(&mut *self, x).for_each(|(y, x)| *y = a * *x + b * *y);
        self
    }
    fn waxpby(&mut self, a: T, x: &[T], b: T, y: &[T]) -> &mut [T] {
        assert_eq!(self.len(), x.len());
        assert_eq!(self.len(), y.len());
        zip(&mut *self, zip(x, y)).for_each(|(w, (x, y))| *w = a * *x + b * *y);
        self
    }
    fn dot(&self, y: &[T]) -> T {
        assert_eq!(self.len(), y.len());
        zip(self, y).fold(T::zero(), |s, (x, y)| s + *x * *y)
    }
    fn sumsq(&self) -> T {
        self.dot(self)
    }
    fn norm(&self) -> T {
        self.sumsq().sqrt()
    }
    fn norm_shifted(&self, dz: &[T], a: T) -> T {
        assert_eq!(self.len(), dz.len());
        let square = |(z, dz): (&T, &T)| (*z + a * *dz) * (*z + a * *dz);
        zip(self, dz)
            .map(square)
            .fold(T::zero(), |s, x| s + x)
            .sqrt()
    }
    fn minimum(&self) -> T {
        self.iter()
            .fold(T::infinity(), |least, x| T::min(least, *x))
    }
    fn mean(&self) -> T {
        self.iter().fold(T::zero(), |s, x| s + *x) / T::of(self.len() as f64)
    }
}

// ---- what the products are told and do not use

pub enum MatrixShape {
    N,
    T,
}

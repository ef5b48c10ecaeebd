//! The part of `std::simd` that is used, on arrays, which LLVM keeps in registers.

use super::index::proved;
#[cfg(not(target_arch = "x86_64"))]
use super::plain as arch;
#[cfg(target_arch = "x86_64")]
use super::x86 as arch;
use arch::Op;
use core::ops::{Add, BitAnd, BitOr, Mul, Rem, Shl, Shr, Sub};

/// What `use std::simd::prelude::*` imports.
pub mod prelude {
    pub use super::{
        Lane, Mask, Simd, u8x4, u8x8, u8x16, u8x32, u8x64, u16x4, u16x8, u16x16, u32x4, u32x8,
        u32x16,
    };
}

/// Lanes of one type.
#[derive(Clone, Copy, Debug, PartialEq, Eq)]
#[repr(transparent)]
pub struct Simd<T, const N: usize>([T; N]);

/// A choice for each lane: 0 or -1, as many bits wide as the lanes that were compared.
#[derive(Clone, Copy, Debug, PartialEq, Eq)]
#[repr(transparent)]
pub struct Mask<T, const N: usize>([T; N]);

macro_rules! names {
    ($($name:ident $lane:ident $count:literal)*) => {
        $(#[allow(non_camel_case_types)] pub type $name = Simd<$lane, $count>;)*
    };
}

names! {
    u8x4 u8 4 u8x8 u8 8 u8x16 u8 16 u8x32 u8 32 u8x64 u8 64
    u16x4 u16 4 u16x8 u16 8 u16x16 u16 16
    u32x4 u32 4 u32x8 u32 8 u32x16 u32 16
}

/// The type of a lane.
pub trait Lane: Copy + Ord {
    /// The type of a choice.
    type Choice: Choice;
    const ZERO: Self;
    fn adds(self, other: Self) -> Self;
    fn subs(self, other: Self) -> Self;
    fn muls(self, other: Self) -> Self;
    fn rems(self, other: Self) -> Self;
    fn shls(self, other: Self) -> Self;
    fn shrs(self, other: Self) -> Self;
    fn ands(self, other: Self) -> Self;
    fn ors(self, other: Self) -> Self;
    fn saturating_adds(self, other: Self) -> Self;
    fn saturating_subs(self, other: Self) -> Self;
    fn to_u64(self) -> u64;
    fn of_u64(number: u64) -> Self;
    fn chosen(choice: Self::Choice, yes: Self, no: Self) -> Self;
}

/// The type of a choice: 0 or -1.
pub trait Choice: Copy {
    fn of(chosen: bool) -> Self;
    fn is(self) -> bool;
}

macro_rules! lanes {
    ($($lane:ident $choice:ident)*) => {
        $(
            impl Lane for $lane {
                type Choice = $choice;
                const ZERO: $lane = 0;
                #[inline(always)]
                fn adds(self, other: $lane) -> $lane { self.wrapping_add(other) }
                #[inline(always)]
                fn subs(self, other: $lane) -> $lane { self.wrapping_sub(other) }
                #[inline(always)]
                fn muls(self, other: $lane) -> $lane { self.wrapping_mul(other) }
                #[inline(always)]
                fn rems(self, other: $lane) -> $lane { self % other }
                #[inline(always)]
                fn shls(self, other: $lane) -> $lane { self.wrapping_shl(other as u32) }
                #[inline(always)]
                fn shrs(self, other: $lane) -> $lane { self.wrapping_shr(other as u32) }
                #[inline(always)]
                fn ands(self, other: $lane) -> $lane { self & other }
                #[inline(always)]
                fn ors(self, other: $lane) -> $lane { self | other }
                #[inline(always)]
                fn saturating_adds(self, other: $lane) -> $lane { self.saturating_add(other) }
                #[inline(always)]
                fn saturating_subs(self, other: $lane) -> $lane { self.saturating_sub(other) }
                #[inline(always)]
                fn to_u64(self) -> u64 { self as u64 }
                #[inline(always)]
                fn of_u64(number: u64) -> $lane { number as $lane }
                #[inline(always)]
                fn chosen(choice: $choice, yes: $lane, no: $lane) -> $lane {
                    yes & choice as $lane | no & !(choice as $lane)
                }
            }
            impl Choice for $choice {
                #[inline(always)]
                fn of(chosen: bool) -> $choice { -(chosen as $choice) }
                #[inline(always)]
                fn is(self) -> bool { self != 0 }
            }
        )*
    };
}

lanes! { u8 i8 u16 i16 u32 i32 }

impl<T: Lane, const N: usize> Simd<T, N> {
    #[inline(always)]
    pub fn splat(lane: T) -> Simd<T, N> {
        Simd([lane; N])
    }

    #[inline(always)]
    pub fn from_array(lanes: [T; N]) -> Simd<T, N> {
        Simd(lanes)
    }

    #[inline(always)]
    pub fn to_array(self) -> [T; N] {
        self.0
    }

    /// The lanes at the front of a slice.
    #[inline(always)]
    pub fn from_slice(slice: &[T]) -> Simd<T, N> {
        proved(slice.len() >= N);
        let mut lanes = [T::ZERO; N];
        lanes.copy_from_slice(&slice[..N]);
        Simd(lanes)
    }

    /// Writes the lanes to the front of a slice.
    #[inline(always)]
    pub fn copy_to_slice(self, slice: &mut [T]) {
        proved(slice.len() >= N);
        slice[..N].copy_from_slice(&self.0);
    }

    #[inline(always)]
    fn map<U: Lane>(self, f: impl Fn(T) -> U) -> Simd<U, N> {
        let mut lanes = [U::ZERO; N];
        for i in 0..N {
            lanes[i] = f(self.0[i]);
        }
        Simd(lanes)
    }

    #[inline(always)]
    fn zip(self, op: Op, other: Simd<T, N>, f: impl Fn(T, T) -> T) -> Simd<T, N> {
        if let Some(lanes) = arch::zip(op, &self.0, &other.0) {
            return Simd(lanes);
        }
        self.each(other, f)
    }

    #[inline(always)]
    fn each(self, other: Simd<T, N>, f: impl Fn(T, T) -> T) -> Simd<T, N> {
        let mut lanes = [T::ZERO; N];
        for i in 0..N {
            lanes[i] = f(self.0[i], other.0[i]);
        }
        Simd(lanes)
    }

    #[inline(always)]
    fn compare(
        self,
        op: Op,
        other: Simd<T, N>,
        f: impl Fn(T, T) -> bool,
    ) -> Mask<T::Choice, N> {
        if let Some(lanes) = arch::zip(op, &self.0, &other.0) {
            return Mask(lanes);
        }
        let mut lanes = [T::Choice::of(false); N];
        for i in 0..N {
            lanes[i] = T::Choice::of(f(self.0[i], other.0[i]));
        }
        Mask(lanes)
    }

    /// The lanes in another type, without the bits that it has no place for.
    #[inline(always)]
    pub fn cast<U: Lane>(self) -> Simd<U, N> {
        if let Some(lanes) = arch::cast(&self.0) {
            return Simd(lanes);
        }
        self.map(|lane| U::of_u64(lane.to_u64()))
    }

    /// `COUNT` lanes from `FROM` on.
    #[inline(always)]
    pub fn extract<const FROM: usize, const COUNT: usize>(self) -> Simd<T, COUNT> {
        let mut lanes = [T::ZERO; COUNT];
        for i in 0..COUNT {
            lanes[i] = self.0[FROM + i];
        }
        Simd(lanes)
    }

    #[inline(always)]
    pub fn saturating_add(self, other: Simd<T, N>) -> Simd<T, N> {
        self.zip(Op::SaturatingAdd, other, T::saturating_adds)
    }

    #[inline(always)]
    pub fn saturating_sub(self, other: Simd<T, N>) -> Simd<T, N> {
        self.zip(Op::SaturatingSub, other, T::saturating_subs)
    }

    #[inline(always)]
    pub fn simd_min(self, other: Simd<T, N>) -> Simd<T, N> {
        self.zip(Op::Min, other, |a, b| if a < b { a } else { b })
    }

    #[inline(always)]
    pub fn simd_max(self, other: Simd<T, N>) -> Simd<T, N> {
        self.zip(Op::Max, other, |a, b| if a > b { a } else { b })
    }

    #[inline(always)]
    pub fn simd_eq(self, other: Simd<T, N>) -> Mask<T::Choice, N> {
        self.compare(Op::Equal, other, |a, b| a == b)
    }

    #[inline(always)]
    pub fn simd_ne(self, other: Simd<T, N>) -> Mask<T::Choice, N> {
        self.simd_eq(other).inverted()
    }

    #[inline(always)]
    pub fn simd_lt(self, other: Simd<T, N>) -> Mask<T::Choice, N> {
        self.compare(Op::Less, other, |a, b| a < b)
    }

    #[inline(always)]
    pub fn simd_gt(self, other: Simd<T, N>) -> Mask<T::Choice, N> {
        other.simd_lt(self)
    }

    /// A shift by one number in all lanes is one instruction.
    #[inline(always)]
    fn shifted_right(self, by: Simd<T, N>) -> Simd<T, N> {
        let first = by.0[0].to_u64();
        if first < 8 * size_of::<T>() as u64
            && by.0.iter().all(|it| it.to_u64() == first)
            && let Some(lanes) = arch::shift_right(&self.0, first)
        {
            return Simd(lanes);
        }
        self.each(by, T::shrs)
    }

    #[inline(always)]
    pub fn reduce_or(self) -> T {
        let mut all = T::ZERO;
        for i in 0..N {
            all = all.ors(self.0[i]);
        }
        all
    }
}

impl<C: Choice, const N: usize> Mask<C, N> {
    #[inline(always)]
    fn inverted(self) -> Mask<C, N> {
        Mask(arch::inverted(&self.0).unwrap_or_else(|| self.0.map(|choice| C::of(!choice.is()))))
    }

    /// The choices as bits, the first one in the lowest.
    #[inline(always)]
    pub fn to_bitmask(self) -> u64 {
        if let Some(bits) = arch::bits(&self.0) {
            return bits;
        }
        let mut bits = 0;
        for i in 0..N {
            bits |= (self.0[i].is() as u64) << i;
        }
        bits
    }

    /// The choices for lanes of another width.
    #[inline(always)]
    pub fn cast<D: Choice>(self) -> Mask<D, N> {
        if let Some(lanes) = arch::narrowed(&self.0) {
            return Mask(lanes);
        }
        let mut lanes = [D::of(false); N];
        for i in 0..N {
            lanes[i] = D::of(self.0[i].is());
        }
        Mask(lanes)
    }

    /// The first lane where it is chosen, and else the second one.
    #[inline(always)]
    pub fn select<T: Lane<Choice = C>>(self, yes: Simd<T, N>, no: Simd<T, N>) -> Simd<T, N> {
        if let Some(lanes) = arch::select(&self.0, &yes.0, &no.0) {
            return Simd(lanes);
        }
        let mut lanes = no.0;
        for i in 0..N {
            lanes[i] = T::chosen(self.0[i], yes.0[i], no.0[i]);
        }
        Simd(lanes)
    }
}

macro_rules! operators {
    ($($operator:ident $name:ident: |$a:ident, $b:ident| $body:expr;)*) => {
        $(
            impl<T: Lane, const N: usize> $operator for Simd<T, N> {
                type Output = Simd<T, N>;

                #[inline(always)]
                fn $name(self, other: Simd<T, N>) -> Simd<T, N> {
                    let ($a, $b) = (self, other);
                    $body
                }
            }
        )*
    };
}

operators! {
    Add add: |a, b| a.zip(Op::Add, b, T::adds);
    Sub sub: |a, b| a.zip(Op::Sub, b, T::subs);
    Mul mul: |a, b| a.zip(Op::Mul, b, T::muls);
    Rem rem: |a, b| a.each(b, T::rems);
    Shl shl: |a, b| a.each(b, T::shls);
    Shr shr: |a, b| a.shifted_right(b);
    BitAnd bitand: |a, b| a.each(b, T::ands);
    BitOr bitor: |a, b| a.each(b, T::ors);
}

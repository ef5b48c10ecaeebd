//! Lanes where no instructions are named for them: the compiler finds its own.

use super::simd::Lane;

/// What two vectors of lanes give.
pub enum Op {
    Add,
    Sub,
    Mul,
    Min,
    Max,
    SaturatingAdd,
    SaturatingSub,
    Equal,
    Less,
}

#[inline(always)]
pub fn zip<T: Lane, R, const N: usize>(_op: Op, _a: &[T; N], _b: &[T; N]) -> Option<[R; N]> {
    None
}

#[inline(always)]
pub fn select<C, T, const N: usize>(_: &[C; N], _yes: &[T; N], _no: &[T; N]) -> Option<[T; N]> {
    None
}

#[inline(always)]
pub fn inverted<C, const N: usize>(_choice: &[C; N]) -> Option<[C; N]> {
    None
}

#[inline(always)]
pub fn shift_right<T, const N: usize>(_lanes: &[T; N], _by: u64) -> Option<[T; N]> {
    None
}

#[inline(always)]
pub fn cast<T, U, const N: usize>(_lanes: &[T; N]) -> Option<[U; N]> {
    None
}

#[inline(always)]
pub fn narrowed<C, D, const N: usize>(_choices: &[C; N]) -> Option<[D; N]> {
    None
}

#[inline(always)]
pub fn bits<C, const N: usize>(_choices: &[C; N]) -> Option<u64> {
    None
}

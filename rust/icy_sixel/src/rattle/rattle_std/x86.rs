//! Lanes in the vectors of x86-64: 16 bytes at once, or the 8 or 4 that there are.

use super::simd::Lane;
use core::arch::x86_64::*;
use core::mem::MaybeUninit;

pub type Block = __m128i;

/// What two vectors of lanes give.
#[derive(Clone, Copy, PartialEq, Eq)]
pub enum Op {
    Add,
    Sub,
    Mul,
    Min,
    Max,
    SaturatingAdd,
    SaturatingSub,
    Equal,
    Less,
}

/// Block `i` of the lanes, with zeros behind the last lane.
#[inline(always)]
fn load<T, const N: usize>(lanes: &[T; N], i: usize) -> Block {
    let start: *const T = lanes.as_ptr();
    // What is read is inside of the lanes.
    unsafe {
        match size_of::<[T; N]>() {
            4 => _mm_cvtsi32_si128(start.cast::<i32>().read_unaligned()),
            8 => _mm_loadl_epi64(start.cast()),
            _ => _mm_loadu_si128(start.cast::<Block>().add(i)),
        }
    }
}

#[inline(always)]
fn store<T, const N: usize>(lanes: &mut MaybeUninit<[T; N]>, i: usize, block: Block) {
    let start: *mut [T; N] = lanes.as_mut_ptr();
    // What is written is inside of the lanes.
    unsafe {
        match size_of::<[T; N]>() {
            4 => start.cast::<i32>().write_unaligned(_mm_cvtsi128_si32(block)),
            8 => _mm_storel_epi64(start.cast(), block),
            _ => _mm_storeu_si128(start.cast::<Block>().add(i), block),
        }
    }
}

/// The number of blocks, if the lanes fill them.
#[inline(always)]
const fn blocks<T, const N: usize>() -> usize {
    match size_of::<[T; N]>() {
        4 | 8 => 1,
        bytes if bytes % 16 == 0 => bytes / 16,
        _ => 0,
    }
}

/// The lanes that an operation gives, as lanes of the same width.
#[inline(always)]
pub fn zip<T: Lane, R, const N: usize>(op: Op, a: &[T; N], b: &[T; N]) -> Option<[R; N]> {
    if blocks::<T, N>() == 0 || size_of::<T>() != size_of::<R>() {
        return None;
    }
    let mut out = MaybeUninit::<[R; N]>::uninit();
    for i in 0..blocks::<T, N>() {
        store(&mut out, i, block(op, size_of::<T>(), load(a, i), load(b, i))?);
    }
    // Each byte was written, and any are lanes.
    Some(unsafe { out.assume_init() })
}

#[inline(always)]
fn block(op: Op, width: usize, a: Block, b: Block) -> Option<Block> {
    let has_more = cfg!(target_feature = "sse4.1");
    // SSE2 is part of x86-64, and SSE4.1 was asked for.
    Some(unsafe {
        match (op, width) {
            (Op::Add, 1) => _mm_add_epi8(a, b),
            (Op::Add, 2) => _mm_add_epi16(a, b),
            (Op::Add, 4) => _mm_add_epi32(a, b),
            (Op::Sub, 1) => _mm_sub_epi8(a, b),
            (Op::Sub, 2) => _mm_sub_epi16(a, b),
            (Op::Sub, 4) => _mm_sub_epi32(a, b),
            (Op::Mul, 2) => _mm_mullo_epi16(a, b),
            (Op::Mul, 4) if has_more => _mm_mullo_epi32(a, b),
            (Op::Min, 1) => _mm_min_epu8(a, b),
            (Op::Max, 1) => _mm_max_epu8(a, b),
            (Op::Min, 2) if has_more => _mm_min_epu16(a, b),
            (Op::Max, 2) if has_more => _mm_max_epu16(a, b),
            (Op::Min, 4) if has_more => _mm_min_epu32(a, b),
            (Op::Max, 4) if has_more => _mm_max_epu32(a, b),
            (Op::Min, 4) => chosen(less(a, b), a, b),
            (Op::Max, 4) => chosen(less(a, b), b, a),
            (Op::SaturatingAdd, 1) => _mm_adds_epu8(a, b),
            (Op::SaturatingAdd, 2) => _mm_adds_epu16(a, b),
            (Op::SaturatingSub, 1) => _mm_subs_epu8(a, b),
            (Op::SaturatingSub, 2) => _mm_subs_epu16(a, b),
            (Op::Equal, 1) => _mm_cmpeq_epi8(a, b),
            (Op::Equal, 2) => _mm_cmpeq_epi16(a, b),
            (Op::Equal, 4) => _mm_cmpeq_epi32(a, b),
            // a < b where b is not the lesser one of both
            (Op::Less, 1) => not(_mm_cmpeq_epi8(_mm_min_epu8(a, b), b)),
            (Op::Less, 4) => less(a, b),
            _ => return None,
        }
    })
}

#[inline(always)]
unsafe fn less(a: Block, b: Block) -> Block {
    unsafe {
        let top = _mm_set1_epi32(i32::MIN);
        _mm_cmpgt_epi32(_mm_xor_si128(b, top), _mm_xor_si128(a, top))
    }
}

#[inline(always)]
unsafe fn not(a: Block) -> Block {
    unsafe { _mm_xor_si128(a, _mm_set1_epi8(-1)) }
}

#[inline(always)]
unsafe fn chosen(choice: Block, yes: Block, no: Block) -> Block {
    unsafe { _mm_or_si128(_mm_and_si128(choice, yes), _mm_andnot_si128(choice, no)) }
}

/// The lanes of one or the other.
#[inline(always)]
pub fn select<C, T, const N: usize>(choice: &[C; N], yes: &[T; N], no: &[T; N]) -> Option<[T; N]> {
    if blocks::<T, N>() == 0 || size_of::<T>() != size_of::<C>() {
        return None;
    }
    let mut out = MaybeUninit::<[T; N]>::uninit();
    for i in 0..blocks::<T, N>() {
        let block = unsafe { chosen(load(choice, i), load(yes, i), load(no, i)) };
        store(&mut out, i, block);
    }
    // Each byte was written, and any are lanes.
    Some(unsafe { out.assume_init() })
}

/// The lanes without a choice.
#[inline(always)]
pub fn inverted<C, const N: usize>(choice: &[C; N]) -> Option<[C; N]> {
    if blocks::<C, N>() == 0 {
        return None;
    }
    let mut out = MaybeUninit::<[C; N]>::uninit();
    for i in 0..blocks::<C, N>() {
        store(&mut out, i, unsafe { not(load(choice, i)) });
    }
    // Each byte was written, and any are choices.
    Some(unsafe { out.assume_init() })
}

/// The lanes shifted right by one number of bits.
#[inline(always)]
pub fn shift_right<T, const N: usize>(lanes: &[T; N], by: u64) -> Option<[T; N]> {
    if blocks::<T, N>() == 0 || size_of::<T>() == 1 {
        return None;
    }
    let mut out = MaybeUninit::<[T; N]>::uninit();
    for i in 0..blocks::<T, N>() {
        let block = load(lanes, i);
        let count = unsafe { _mm_cvtsi64_si128(by as i64) };
        let block = unsafe {
            if size_of::<T>() == 2 { _mm_srl_epi16(block, count) } else { _mm_srl_epi32(block, count) }
        };
        store(&mut out, i, block);
    }
    // Each byte was written, and any are lanes.
    Some(unsafe { out.assume_init() })
}

/// Lanes of another width: wider ones with zeros, and narrower ones of a few lanes.
#[inline(always)]
pub fn cast<T, U, const N: usize>(lanes: &[T; N]) -> Option<[U; N]> {
    let mut out = MaybeUninit::<[U; N]>::uninit();
    unsafe {
        let zero = _mm_setzero_si128();
        match (size_of::<T>(), size_of::<U>(), N) {
            (1, 2, 4 | 8) => store(&mut out, 0, _mm_unpacklo_epi8(load(lanes, 0), zero)),
            (1, 4, 4) => {
                let block = _mm_unpacklo_epi8(load(lanes, 0), zero);
                store(&mut out, 0, _mm_unpacklo_epi16(block, zero));
            }
            (2, 4, 4) => store(&mut out, 0, _mm_unpacklo_epi16(load(lanes, 0), zero)),
            (2, 4, 8 | 16) => {
                for i in 0..N / 8 {
                    let block = load(lanes, i);
                    store(&mut out, 2 * i, _mm_unpacklo_epi16(block, zero));
                    store(&mut out, 2 * i + 1, _mm_unpackhi_epi16(block, zero));
                }
            }
            (2, 1, 4) => {
                let low = _mm_and_si128(load(lanes, 0), _mm_set1_epi16(255));
                store(&mut out, 0, _mm_packus_epi16(low, zero));
            }
            _ => return None,
        }
        // Each byte was written, and any are lanes.
        Some(out.assume_init())
    }
}

/// Eight choices of 32 bits, in eight bits each.
#[inline(always)]
pub fn narrowed<C, D, const N: usize>(choices: &[C; N]) -> Option<[D; N]> {
    if (size_of::<C>(), size_of::<D>(), N) != (4, 1, 8) {
        return None;
    }
    let mut out = MaybeUninit::<[D; N]>::uninit();
    unsafe {
        let words = _mm_packs_epi32(load(choices, 0), load(choices, 1));
        store(&mut out, 0, _mm_packs_epi16(words, words));
        // Each byte was written, and any are choices.
        Some(out.assume_init())
    }
}

/// The choices as bits, for lanes of 8 bits, or eight of 16 bits.
#[inline(always)]
pub fn bits<C, const N: usize>(choices: &[C; N]) -> Option<u64> {
    if blocks::<C, N>() == 0 || N > 64 {
        return None;
    }
    unsafe {
        if size_of::<C>() == 1 {
            let mut bits = 0;
            for i in 0..blocks::<C, N>() {
                bits |= (_mm_movemask_epi8(load(choices, i)) as u64) << (16 * i);
            }
            Some(bits)
        } else if size_of::<C>() == 2 && N == 8 {
            let packed = _mm_packs_epi16(load(choices, 0), _mm_setzero_si128());
            Some(_mm_movemask_epi8(packed) as u64)
        } else {
            None
        }
    }
}

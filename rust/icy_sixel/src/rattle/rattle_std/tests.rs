//! Each operation on lanes against a loop over them, and vectors whose allocations fail.

extern crate std;

use super::alloc::Global;
use super::prelude::{Proved, String, Vec, required};
use super::simd::{Choice, Lane, Mask, Simd};
use std::panic::catch_unwind;
use std::vec::Vec as Items;

const ROUNDS: usize = 200;

/// The numbers of the generator SplitMix64.
struct Numbers(u64);

impl Numbers {
    fn next(&mut self) -> u64 {
        self.0 = self.0.wrapping_add(0x9e37_79b9_7f4a_7c15);
        let word = (self.0 ^ self.0 >> 30).wrapping_mul(0xbf58_476d_1ce4_e5b9);
        let word = (word ^ word >> 27).wrapping_mul(0x94d0_49bb_1331_11eb);
        word ^ word >> 31
    }

    /// Lanes of any value, of which many are equal, zero or the greatest one.
    fn lanes<T: Lane, const N: usize>(&mut self) -> [T; N] {
        std::array::from_fn(|_| match self.next() % 6 {
            0 => T::of_u64(0),
            1 => T::of_u64(u64::MAX),
            2 => T::of_u64(7),
            3 => T::of_u64(u64::MAX >> 1 >> 8 * (8 - size_of::<T>())),
            _ => T::of_u64(self.next()),
        })
    }
}

/// Checks an operation on two vectors of lanes.
fn check<T: Lane, R: PartialEq + std::fmt::Debug, const N: usize>(
    name: &str,
    (a, b): ([T; N], [T; N]),
    found: [R; N],
    expected: impl Fn(u64, u64) -> R,
) {
    let lanes = a.iter().zip(&b).map(|(a, b)| expected(a.to_u64(), b.to_u64()));
    assert_eq!(Items::from(found), lanes.collect::<Items<R>>(), "{name} {N}");
}

/// The choices, which are 0 or have all bits set.
fn chosen<C: Choice, const N: usize>(mask: Mask<C, N>) -> [u64; N] {
    let zero = Simd::<u8, N>::splat(0);
    mask.cast::<i8>().select(Simd::splat(1), zero).to_array().map(u64::from)
}

macro_rules! test_lanes {
    ($($test:ident: $lane:ident, $choice:ident, [$($count:literal)*];)*) => {
        $(
            #[test]
            fn $test() {
                $(test_count::<$lane, $choice, $count>(|n| n as $lane);)*
            }
        )*
    };
}

test_lanes! {
    lanes_of_8_bits: u8, i8, [4 8 16 32 64];
    lanes_of_16_bits: u16, i16, [4 8 16];
    lanes_of_32_bits: u32, i32, [4 8 16];
}

/// Checks all operations on vectors of `N` lanes, whose numbers `of` truncates.
fn test_count<T, C, const N: usize>(of: impl Fn(u64) -> T + Copy)
where
    T: Lane<Choice = C> + std::fmt::Debug,
    C: Choice,
{
    let bits = 8 * size_of::<T>() as u64;
    let most = u64::MAX >> (64 - bits);
    let mut numbers = Numbers(bits + N as u64);
    for _ in 0..ROUNDS {
        let pair @ (a, b) = (numbers.lanes::<T, N>(), numbers.lanes::<T, N>());
        let (x, y) = (Simd::from_array(a), Simd::from_slice(&b));
        check("add", pair, (x + y).to_array(), |a, b| of(a.wrapping_add(b)));
        check("sub", pair, (x - y).to_array(), |a, b| of(a.wrapping_sub(b)));
        check("mul", pair, (x * y).to_array(), |a, b| of(a.wrapping_mul(b)));
        check("and", pair, (x & y).to_array(), |a, b| of(a & b));
        check("or", pair, (x | y).to_array(), |a, b| of(a | b));
        check("min", pair, x.simd_min(y).to_array(), |a, b| of(a.min(b)));
        check("max", pair, x.simd_max(y).to_array(), |a, b| of(a.max(b)));
        check("saturating_add", pair, x.saturating_add(y).to_array(), |a, b| of((a + b).min(most)));
        let rest = x.saturating_sub(y).to_array();
        check("saturating_sub", pair, rest, |a, b| of(a.saturating_sub(b)));
        check("eq", pair, chosen(x.simd_eq(y)), |a, b| u64::from(a == b));
        check("ne", pair, chosen(x.simd_ne(y)), |a, b| u64::from(a != b));
        check("lt", pair, chosen(x.simd_lt(y)), |a, b| u64::from(a < b));
        check("gt", pair, chosen(x.simd_gt(y)), |a, b| u64::from(a > b));
        check("u8", pair, x.cast::<u8>().to_array(), |a, _| a as u8);
        check("u16", pair, x.cast::<u16>().to_array(), |a, _| a as u16);
        check("u32", pair, x.cast::<u32>().to_array(), |a, _| a as u32);
        let select = x.simd_lt(y).select(x, Simd::splat(of(3)));
        check("select", pair, select.to_array(), |a, b| of(if a < b { a } else { 3 }));
        let bits_set = x.simd_lt(y).to_bitmask();
        let lanes = std::array::from_fn(|i| bits_set >> i & 1);
        check::<T, u64, N>("to_bitmask", pair, lanes, |a, b| u64::from(a < b));
        let all = a.iter().fold(0, |all, lane| all | lane.to_u64());
        assert_eq!(x.reduce_or().to_u64(), all);

        let by = numbers.next() % bits;
        let (one, each) = (Simd::splat(of(by)), b.map(|lane| of(lane.to_u64() % bits)));
        check("shr by one", pair, (x >> one).to_array(), |a, _| of(a >> by));
        check("shr", (a, each), (x >> Simd::from_array(each)).to_array(), |a, by| of(a >> by));
        check("shl", (a, each), (x << Simd::from_array(each)).to_array(), |a, by| of(a << by));
        let divisors = b.map(|lane| of(lane.to_u64().max(1)));
        let rest = x % Simd::from_array(divisors);
        check("rem", (a, divisors), rest.to_array(), |a, b| of(a % b));

        let mut slice = [of(9); 65];
        x.copy_to_slice(&mut slice);
        assert!(slice[..N] == a && slice[N..].iter().all(|lane| *lane == of(9)));
        assert!(x.extract::<0, 4>().to_array() == a[..4]);
    }
}

#[test]
fn lanes_are_extracted() {
    let lanes = Simd::<u8, 8>::from_array([1, 2, 3, 4, 5, 6, 7, 8]);
    assert_eq!(lanes.extract::<4, 4>().to_array(), [5, 6, 7, 8]);
}

/// An index out of range panics, as a wrong length does, where indices are checked.
#[cfg(any(not(feature = "unchecked"), debug_assertions))]
#[test]
fn indices_are_checked() {
    let items: &[u8] = &[1, 2];
    assert!(catch_unwind(|| items[Proved(items.len())]).is_err());
    required(items.len() == 2);
    assert!(catch_unwind(|| required(items.len() > 2)).is_err());
}

/// A vector of more bytes than there are fails, and is as it was.
#[test]
fn allocations_fail() {
    let many = isize::MAX as usize / 2;
    let mut items = Vec::from_slice(Global, &[1_u16, 2]).unwrap();
    assert!(items.reserve(many).is_err() && items.reserve_exact(usize::MAX).is_err());
    assert!(items.resize(many, 3).is_err() && items.as_slice() == [1, 2]);
    assert!(Vec::<u16>::with_capacity(Global, many).is_err());
    assert!(Vec::from_elem(Global, 0_u16, many).is_err());
    items.push(3).unwrap();
    items.extend_from_slice(&[4, 5]).unwrap();
    items.shrink_to_fit();
    assert!(items.as_slice() == [1, 2, 3, 4, 5] && items.capacity() == 5);
    assert_eq!(items.into_exact().unwrap(), [1, 2, 3, 4, 5]);
}

/// A formatted text is written piece by piece.
#[test]
fn texts_are_formatted() {
    let mut text = String::of_arguments(Global, format_args!("{}-{:02x}", 7, 255)).unwrap();
    text.push('é').unwrap();
    text.push_str("!").unwrap();
    assert_eq!(text.into_exact().unwrap(), "7-ffé!");
}

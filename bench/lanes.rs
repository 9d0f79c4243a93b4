//! Times loops of the crate lane_kernels against the same work in lanes of `std::simd`, over samples of each type, and prints ratios of
//! medians, lanes to loop: below 1 the lanes are faster. Which of the two the crate has is said in docs/decisions-speed.md. What a proof
//! shows to lie within a slice is read here without a test, as in the program. Usage: lanes [SAMPLES]
#![feature(portable_simd)]
use std::hint::black_box;
use std::simd::prelude::*;
use std::time::Instant;

#[derive(Clone, Copy, PartialEq, Debug)]
enum Kind {
    Int8,
    UInt8,
    Int16,
    UInt16,
    Int32,
    UInt32,
}
use Kind::*;

impl Kind {
    #[inline(always)]
    const fn width(self) -> usize {
        match self {
            Int8 | UInt8 => 1,
            Int16 | UInt16 => 2,
            Int32 | UInt32 => 4,
        }
    }
}

/// The `N` bytes from an index on.
#[inline(always)]
fn part<const N: usize>(bytes: &[u8], at: usize) -> [u8; N] {
    debug_assert!(at + N <= bytes.len());
    unsafe { *bytes.as_ptr().add(at).cast() }
}

#[inline(always)]
fn pair_at(bytes: &[u8], at: usize) -> u16 {
    u16::from_be_bytes(part(bytes, at))
}

#[inline(always)]
fn word_at(bytes: &[u8], at: usize) -> u32 {
    u32::from_be_bytes(part(bytes, at))
}

/// The sample at a place.
#[inline(always)]
fn sample_at(kind: Kind, bytes: &[u8], place: usize) -> i64 {
    let at = place * kind.width();
    match kind {
        Int8 => i64::from(i8::from_be_bytes(part(bytes, at))),
        UInt8 => i64::from(part::<1>(bytes, at)[0]),
        Int16 => i64::from(pair_at(bytes, at).cast_signed()),
        UInt16 => i64::from(pair_at(bytes, at)),
        Int32 => i64::from(word_at(bytes, at).cast_signed()),
        UInt32 => i64::from(word_at(bytes, at)),
    }
}

#[inline(always)]
fn sum_from(kind: Kind, bytes: &[u8], place: usize) -> i64 {
    let mut sum = 0;
    for k in place..bytes.len() / kind.width() {
        sum += sample_at(kind, bytes, k);
    }
    sum
}

#[inline(always)]
fn loop_sum(kind: Kind, bytes: &[u8]) -> i64 {
    let count = bytes.len() / kind.width();
    if kind.width() == 4 {
        return sum_from(kind, bytes, 0);
    }
    let (mut sum, mut done) = (0i64, 0);
    while done < count {
        let size = (count - done).min(8192);
        let mut block = 0i32;
        for k in 0..size {
            block += sample_at(kind, bytes, done + k) as i32;
        }
        sum += i64::from(block);
        done += size;
    }
    sum
}

#[inline(always)]
fn swapped_pairs(bytes: &[u8], at: usize) -> u8x16 {
    simd_swizzle!(u8x16::from_array(part(bytes, at)), [1, 0, 3, 2, 5, 4, 7, 6, 9, 8, 11, 10, 13, 12, 15, 14])
}

#[inline(always)]
fn swapped_words(bytes: &[u8], at: usize) -> u8x16 {
    simd_swizzle!(u8x16::from_array(part(bytes, at)), [3, 2, 1, 0, 7, 6, 5, 4, 11, 10, 9, 8, 15, 14, 13, 12])
}

/// Eight samples of at most 16 bits.
#[inline(always)]
fn narrow_row(kind: Kind, bytes: &[u8], place: usize) -> i32x8 {
    let at = place * kind.width();
    match kind {
        Int8 => (u8x8::from_array(part(bytes, at)) + u8x8::splat(128)).cast::<i32>() - i32x8::splat(128),
        UInt8 => u8x8::from_array(part(bytes, at)).cast(),
        Int16 => i16x8::from_le_bytes(swapped_pairs(bytes, at)).cast(),
        _ => u16x8::from_le_bytes(swapped_pairs(bytes, at)).cast(),
    }
}

/// Four samples of 32 bits.
#[inline(always)]
fn wide_row(kind: Kind, bytes: &[u8], place: usize) -> i64x4 {
    let row = swapped_words(bytes, place * 4);
    if kind == Int32 {
        i32x4::from_le_bytes(row).cast()
    } else {
        u32x4::from_le_bytes(row).cast()
    }
}

#[inline(always)]
fn lane_sum(kind: Kind, bytes: &[u8]) -> i64 {
    let rows = bytes.len() / kind.width() / 8;
    let mut sum = 0i64;
    if kind.width() == 4 {
        let mut sums = i64x4::splat(0);
        for k in 0..rows {
            sums += wide_row(kind, bytes, k * 8) + wide_row(kind, bytes, k * 8 + 4);
        }
        sum = sums.reduce_sum();
    } else {
        let mut done = 0;
        while done < rows {
            let size = (rows - done).min(1024);
            let mut sums = i32x8::splat(0);
            for k in done..done + size {
                sums += narrow_row(kind, bytes, k * 8);
            }
            sum += i64::from(sums.reduce_sum());
            done += size;
        }
    }
    sum + sum_from(kind, bytes, rows * 8)
}

#[inline(always)]
fn squares_from(kind: Kind, bytes: &[u8], place: usize) -> u64 {
    let mut sum = 0;
    for k in place..bytes.len() / kind.width() {
        let bits = sample_at(kind, bytes, k).cast_unsigned();
        sum += bits.wrapping_mul(bits);
    }
    sum
}

#[inline(always)]
fn loop_squares(kind: Kind, bytes: &[u8]) -> u128 {
    let count = bytes.len() / kind.width();
    match kind.width() {
        1 => {
            let (mut sum, mut done) = (0u64, 0);
            while done < count {
                let size = (count - done).min(8192);
                let mut block = 0u32;
                for k in 0..size {
                    let size = (sample_at(kind, bytes, done + k) as i32).unsigned_abs();
                    block += size * size;
                }
                sum += u64::from(block);
                done += size;
            }
            u128::from(sum)
        }
        2 => u128::from(squares_from(kind, bytes, 0)),
        _ => {
            let (mut whole, mut high) = (0u64, 0u64);
            for k in 0..count {
                let bits = sample_at(kind, bytes, k).cast_unsigned();
                let square = bits.wrapping_mul(bits);
                whole = whole.wrapping_add(square);
                high += square / 0x10_0000_0000;
            }
            u128::from(whole.wrapping_sub(high.wrapping_mul(0x10_0000_0000))) + u128::from(high) * 0x10_0000_0000
        }
    }
}

#[inline(always)]
fn lane_squares(kind: Kind, bytes: &[u8]) -> u128 {
    match kind {
        Int8 | UInt8 => {
            let rows = bytes.len() / 16;
            let (mut sum, mut done) = (0u64, 0);
            while done < rows {
                let size = (rows - done).min(512);
                let mut sums = i32x8::splat(0);
                for k in done..done + size {
                    let (one, two) = (narrow_row(kind, bytes, k * 16), narrow_row(kind, bytes, k * 16 + 8));
                    sums += one * one + two * two;
                }
                sum += sums.reduce_sum() as u64;
                done += size;
            }
            u128::from(sum + squares_from(kind, bytes, rows * 16))
        }
        Int16 | UInt16 => {
            let rows = bytes.len() / 16;
            let mut sums = i64x8::splat(0);
            for k in 0..rows {
                let row = narrow_row(kind, bytes, k * 8);
                sums += if kind == Int16 {
                    (row * row).cast::<i64>()
                } else {
                    (row.cast::<u32>() * row.cast::<u32>()).cast::<i64>()
                };
            }
            u128::from(sums.reduce_sum() as u64 + squares_from(kind, bytes, rows * 8))
        }
        Int32 | UInt32 => {
            let rows = bytes.len() / 16;
            let (mut low, mut high) = (u64x4::splat(0), u64x4::splat(0));
            for k in 0..rows {
                let row = wide_row(kind, bytes, k * 4).cast::<u64>();
                let square = row * row;
                low += square & u64x4::splat(0xffff_ffff);
                high += square >> u64x4::splat(32);
            }
            let rest = (rows * 4..bytes.len() / 4)
                .map(|k| sample_at(kind, bytes, k).unsigned_abs())
                .map(|v| u128::from(v * v));
            u128::from(low.reduce_sum()) + (u128::from(high.reduce_sum()) << 32) + rest.sum::<u128>()
        }
    }
}

/// The sum and the squares of unsigned samples of 16 bits in one pass, two out of one word.
#[inline(always)]
fn loop_both(_kind: Kind, bytes: &[u8]) -> (u64, u64) {
    let count = bytes.len() / 4;
    let (mut sum, mut squares, mut done) = (0u64, 0u64, 0);
    while done < count {
        let size = (count - done).min(4096);
        let (mut more, mut low, mut high) = (0u32, 0u32, 0u32);
        for k in done..done + size {
            let word = word_at(bytes, k * 4);
            let flipped = (word ^ 0x8000).wrapping_add(0x8000_0000);
            let (upper, lower) = (flipped.cast_signed() >> 16, i32::from(flipped as u16 as i16));
            let around = (upper * upper).cast_unsigned() + (lower * lower).cast_unsigned();
            more += word / 0x1_0000 + word % 0x1_0000;
            low += around % 0x1_0000;
            high += around / 0x1_0000;
        }
        sum += u64::from(more);
        squares += u64::from(low) + (u64::from(high) + u64::from(more)) * 0x1_0000 - size as u64 * 0x8000_0000;
        done += size;
    }
    (
        sum + sum_from(UInt16, bytes, count * 2) as u64,
        squares + squares_from(UInt16, bytes, count * 2),
    )
}

#[inline(always)]
fn lane_both(_kind: Kind, bytes: &[u8]) -> (u64, u64) {
    let rows = bytes.len() / 16;
    let (mut sum, mut squares, mut done) = (0u64, 0u64, 0);
    while done < rows {
        let size = (rows - done).min(1024);
        let (mut sums, mut low, mut high) = (u32x4::splat(0), u32x4::splat(0), u32x4::splat(0));
        for k in done..done + size {
            let row = u16x8::from_le_bytes(swapped_pairs(bytes, k * 16));
            let near = (row ^ u16x8::splat(0x8000)).cast::<i16>();
            let first: i32x4 = simd_swizzle!(near, [0, 2, 4, 6]).cast();
            let second: i32x4 = simd_swizzle!(near, [1, 3, 5, 7]).cast();
            let around = (first * first + second * second).cast::<u32>();
            let words = u32x4::from_le_bytes(row.to_le_bytes());
            sums += (words >> u32x4::splat(16)) + (words & u32x4::splat(0xffff));
            low += around & u32x4::splat(0xffff);
            high += around >> u32x4::splat(16);
        }
        let more = u64::from(sums.reduce_sum());
        sum += more;
        squares += u64::from(low.reduce_sum()) + (u64::from(high.reduce_sum()) + more) * 0x1_0000 - size as u64 * 0x2_0000_0000;
        done += size;
    }
    (sum + sum_from(UInt16, bytes, rows * 8) as u64, squares + squares_from(UInt16, bytes, rows * 8))
}

#[inline(always)]
fn loop_extremes(kind: Kind, bytes: &[u8]) -> (i64, i64) {
    let count = bytes.len() / kind.width();
    if kind.width() <= 2 {
        let offset = if kind == UInt16 { 0x8000 } else { 0 };
        let lane = |k: usize| match kind {
            Int16 | UInt16 => pair_at(bytes, k * 2).wrapping_add(offset).cast_signed(),
            _ => sample_at(kind, bytes, k) as i16,
        };
        let (mut low, mut high) = (lane(0), lane(0));
        for k in 0..count {
            low = low.min(lane(k));
            high = high.max(lane(k));
        }
        (i64::from(low) + i64::from(offset), i64::from(high) + i64::from(offset))
    } else {
        let offset = if kind == UInt32 { 0x8000_0000 } else { 0 };
        let lane = |k: usize| word_at(bytes, k * 4).wrapping_add(offset).cast_signed();
        let (mut low, mut high) = (lane(0), lane(0));
        for k in 0..count {
            low = low.min(lane(k));
            high = high.max(lane(k));
        }
        (i64::from(low) + i64::from(offset), i64::from(high) + i64::from(offset))
    }
}

/// The extremes of rows of sixteen bytes, of which `$row` makes lanes that lack `$offset`, and of the samples behind them.
macro_rules! extremes {
    ($kind:ident, $bytes:ident, $offset:expr, $row:expr) => {{
        let (rows, offset): (usize, i64) = ($bytes.len() / 16, $offset);
        let first = sample_at($kind, $bytes, 0);
        let mut ends = (first, first);
        if rows > 0 {
            let (mut lows, mut highs) = ($row(0), $row(0));
            for k in 1..rows {
                let row = $row(k * 16);
                lows = lows.simd_min(row);
                highs = highs.simd_max(row);
            }
            ends = (i64::from(lows.reduce_min()) + offset, i64::from(highs.reduce_max()) + offset);
        }
        for k in rows * 16 / $kind.width()..$bytes.len() / $kind.width() {
            let sample = sample_at($kind, $bytes, k);
            ends = (ends.0.min(sample), ends.1.max(sample));
        }
        ends
    }};
}

#[inline(always)]
fn lane_extremes(kind: Kind, bytes: &[u8]) -> (i64, i64) {
    match kind {
        Int8 => extremes!(kind, bytes, -128, |at| u8x16::from_array(part(bytes, at)) + u8x16::splat(128)),
        UInt8 => extremes!(kind, bytes, 0, |at| u8x16::from_array(part(bytes, at))),
        Int16 => extremes!(kind, bytes, 0, |at| i16x8::from_le_bytes(swapped_pairs(bytes, at))),
        UInt16 => extremes!(kind, bytes, 0x8000, |at| i16x8::from_le_bytes(swapped_pairs(bytes, at))
            + i16x8::splat(i16::MIN)),
        Int32 => extremes!(kind, bytes, 0, |at| i32x4::from_le_bytes(swapped_words(bytes, at))),
        UInt32 => extremes!(kind, bytes, 0, |at| u32x4::from_le_bytes(swapped_words(bytes, at))),
    }
}

/// How far a value is looked for that no sample has, chunk by chunk of 64.
#[inline(always)]
fn loop_place(kind: Kind, bytes: &[u8], low: i32) -> usize {
    let mut place = 0;
    while bytes.len() / kind.width() - place >= 64 {
        let mut found = false;
        for k in place..place + 64 {
            found |= sample_at(kind, bytes, k) as i32 == low;
        }
        if found {
            break;
        }
        place += 64;
    }
    place
}

#[inline(always)]
fn lane_place(kind: Kind, bytes: &[u8], low: i32) -> usize {
    let mut place = 0;
    while bytes.len() / kind.width() - place >= 64 {
        let mut found = false;
        if kind.width() == 4 {
            let mut mask = mask32x4::splat(false);
            for k in 0..16 {
                mask |= i32x4::from_le_bytes(swapped_words(bytes, (place + k * 4) * 4)).simd_eq(i32x4::splat(low));
            }
            found |= mask.any();
        } else {
            let mut mask = mask32x8::splat(false);
            for k in 0..8 {
                mask |= narrow_row(kind, bytes, place + k * 8).simd_eq(i32x8::splat(low));
            }
            found |= mask.any();
        }
        if found {
            break;
        }
        place += 64;
    }
    place
}

/// Adds each two samples to a sum of 32 bits.
#[inline(always)]
fn loop_bins(kind: Kind, bytes: &[u8], sums: &mut [i32]) {
    for (k, sum) in sums.iter_mut().enumerate() {
        let at = k * 2 * kind.width();
        *sum = sum.wrapping_add(match kind {
            UInt8 => i32::from(pair_at(bytes, at) / 0x100 + pair_at(bytes, at) % 0x100),
            UInt16 => (word_at(bytes, at) / 0x1_0000 + word_at(bytes, at) % 0x1_0000) as i32,
            _ => (sample_at(kind, bytes, k * 2) as i32).wrapping_add(sample_at(kind, bytes, k * 2 + 1) as i32),
        });
    }
}

#[inline(always)]
fn lane_bins(kind: Kind, bytes: &[u8], sums: &mut [i32]) {
    let rows = sums.len() / 8;
    for k in 0..rows {
        let more = if kind.width() == 1 {
            let turn = if kind == Int8 { 128 } else { 0 };
            let row = u8x16::from_array(part(bytes, k * 16)) + u8x16::splat(turn);
            let first = simd_swizzle!(row, [0, 2, 4, 6, 8, 10, 12, 14]).cast::<u16>();
            let second = simd_swizzle!(row, [1, 3, 5, 7, 9, 11, 13, 15]).cast::<u16>();
            (first + second).cast::<i32>() - i32x8::splat(i32::from(turn) * 2)
        } else if kind == Int16 {
            let pair_sums = |at: usize| {
                let row = i32x4::from_le_bytes(swapped_words(bytes, at));
                ((row << i32x4::splat(16)) >> i32x4::splat(16)) + (row >> i32x4::splat(16))
            };
            simd_swizzle!(pair_sums(k * 32), pair_sums(k * 32 + 16), [0, 1, 2, 3, 4, 5, 6, 7])
        } else {
            let row = |place: usize| -> i32x8 {
                if kind.width() == 2 {
                    return narrow_row(kind, bytes, place);
                }
                let (one, two) = (swapped_words(bytes, place * 4), swapped_words(bytes, place * 4 + 16));
                simd_swizzle!(i32x4::from_le_bytes(one), i32x4::from_le_bytes(two), [0, 1, 2, 3, 4, 5, 6, 7])
            };
            let (one, two) = (row(k * 16), row(k * 16 + 8));
            simd_swizzle!(one, two, [0, 2, 4, 6, 8, 10, 12, 14]) + simd_swizzle!(one, two, [1, 3, 5, 7, 9, 11, 13, 15])
        };
        let part: &mut [i32; 8] = unsafe { &mut *sums.as_mut_ptr().add(k * 8).cast() };
        *part = (i32x8::from_array(*part) + more).to_array();
    }
    loop_bins(kind, &bytes[rows * 16 * kind.width()..], &mut sums[rows * 8..]);
}

/// The ratio of medians of the second to the first, over the same samples in turn.
fn ratio(samples: usize, mut first: impl FnMut(), mut second: impl FnMut()) -> f64 {
    let calls = (1 << 19) / samples + 1;
    let time = |work: &mut dyn FnMut()| {
        let start = Instant::now();
        (0..calls).for_each(|_| work());
        start.elapsed().as_secs_f64()
    };
    let mut times: Vec<(f64, f64)> = (0..51).map(|_| (time(&mut first), time(&mut second))).collect();
    times.sort_by(|a, b| a.0.total_cmp(&b.0));
    let loops = times[25].0;
    times.sort_by(|a, b| a.1.total_cmp(&b.1));
    times[25].1 / loops
}

/// A column of the table: both forms, made for the type, give the same, and their ratio.
macro_rules! column {
    ($kind:ident, $bytes:ident, $loop:expr, $lanes:expr) => {{
        #[inline(never)]
        fn one(bytes: &[u8]) -> impl PartialEq + std::fmt::Debug {
            $loop($kind, bytes)
        }
        #[inline(never)]
        fn two(bytes: &[u8]) -> impl PartialEq + std::fmt::Debug {
            $lanes($kind, bytes)
        }
        assert_eq!(format!("{:?}", one($bytes)), format!("{:?}", two($bytes)));
        let count = $bytes.len() / $kind.width();
        print!(
            "{:>10.2}",
            ratio(count, || drop(black_box(one(black_box($bytes)))), || drop(black_box(two(black_box($bytes)))))
        );
    }};
}

macro_rules! row {
    ($kind:ident, $data:ident, $samples:ident) => {{
        let bytes = &$data[..$samples * $kind.width()];
        print!("{:8}", format!("{:?}", $kind));
        column!($kind, bytes, loop_sum, lane_sum);
        column!($kind, bytes, loop_squares, lane_squares);
        column!($kind, bytes, loop_extremes, lane_extremes);
        column!($kind, bytes, |kind, bytes| loop_place(kind, bytes, black_box(0x7fff_1234)), |kind, bytes| {
            lane_place(kind, bytes, black_box(0x7fff_1234))
        });
        let (mut one, mut two) = (vec![0i32; $samples / 2], vec![0i32; $samples / 2]);
        loop_bins($kind, bytes, &mut one);
        lane_bins($kind, bytes, &mut two);
        assert_eq!(one, two);
        print!(
            "{:>10.2}",
            ratio(
                $samples,
                || loop_bins($kind, black_box(bytes), black_box(&mut one)),
                || lane_bins($kind, black_box(bytes), black_box(&mut two))
            )
        );
        if $kind == UInt16 {
            column!($kind, bytes, loop_both, lane_both);
        }
        println!();
    }};
}

fn main() {
    let samples: usize = std::env::args().nth(1).map_or(4096, |word| word.parse().expect("a number of samples"));
    let mut state = 1u32;
    let mut byte = || {
        state ^= state << 13;
        state ^= state >> 17;
        state ^= state << 5;
        state as u8
    };
    let data: Vec<u8> = (0..samples * 4).map(|_| byte()).collect();
    println!("{samples} samples: lanes to loop");
    println!(
        "{:8}{:>10}{:>10}{:>10}{:>10}{:>10}{:>10}",
        "", "sum", "squares", "extremes", "place", "bins of 2", "one pass"
    );
    row!(Int8, data, samples);
    row!(UInt8, data, samples);
    row!(Int16, data, samples);
    row!(UInt16, data, samples);
    row!(Int32, data, samples);
    row!(UInt32, data, samples);
}

//! The same transform in Rust, and the same million blocks in each direction and of sparse inverses.

use std::time::Instant;

// A million blocks, in slices short enough that some of them run undisturbed.
const SLICES: u32 = 50;
const BLOCKS: u32 = 20_000;

#[rustfmt::skip]
static BY_FREQUENCY: [[i16; 8]; 8] = [
    [2896,  2896,  2896,  2896,  2896,  2896,  2896,  2896],
    [4017,  3406,  2276,   799,  -799, -2276, -3406, -4017],
    [3784,  1567, -1567, -3784, -3784, -1567,  1567,  3784],
    [3406,  -799, -4017, -2276,  2276,  4017,   799, -3406],
    [2896, -2896, -2896,  2896,  2896, -2896, -2896,  2896],
    [2276, -4017,   799,  3406, -3406,  -799,  4017, -2276],
    [1567, -3784,  3784, -1567, -1567,  3784, -3784,  1567],
    [ 799, -2276,  3406, -4017,  4017, -3406,  2276,  -799],
];

fn weight(u: usize, x: usize) -> i64 {
    i64::from(BY_FREQUENCY[u][x])
}

fn inverse_of_line(line: &[i16; 8]) -> [i32; 8] {
    let term = |u: usize, x: usize| i32::from(BY_FREQUENCY[u][x]) * i32::from(line[u]);
    let mut sums = [0; 8];
    for x in 0..4 {
        let even = (term(0, x) + term(2, x)) + (term(4, x) + term(6, x));
        let odd = (term(1, x) + term(3, x)) + (term(5, x) + term(7, x));
        sums[x] = even + odd;
        sums[7 - x] = even - odd;
    }
    sums
}

fn forward_of_line(line: &[i64; 8]) -> [i64; 8] {
    let even = |u: usize, x: usize| weight(u, x) * (line[x] + line[7 - x]);
    let odd = |u: usize, x: usize| weight(u, x) * (line[x] - line[7 - x]);
    let mut sums = [0; 8];
    for k in 0..4 {
        let (e, o) = (2 * k, 2 * k + 1);
        sums[e] = (even(e, 0) + even(e, 1)) + (even(e, 2) + even(e, 3));
        sums[o] = (odd(o, 0) + odd(o, 1)) + (odd(o, 2) + odd(o, 3));
    }
    sums
}

fn of_rows<A: Copy + Default, B: Copy>(block: &[A; 64], turned: &mut [B; 64], of_line: impl Fn(&[A; 8]) -> [B; 8]) {
    for row in 0..8 {
        let mut line = [A::default(); 8];
        line.copy_from_slice(&block[8 * row..8 * row + 8]);
        let line = of_line(&line);
        for k in 0..8 {
            turned[8 * k + row] = line[k];
        }
    }
}

fn widened(block: &[i16; 64]) -> [i64; 64] {
    let mut wide = [0; 64];
    for k in 0..64 {
        wide[k] = i64::from(block[k]);
    }
    wide
}

fn rounded(sum: i64) -> i64 {
    (sum + 0x200_0000) >> 26
}

fn parts(sums: &[i32; 64], part: impl Fn(i32) -> i32) -> [i16; 64] {
    let mut parts = [0; 64];
    for k in 0..64 {
        parts[k] = part(sums[k]) as i16;
    }
    parts
}

fn rounded_parts(high: i32, low: i32) -> i32 {
    (high + ((low + 0x200_0000) >> 15)) >> 11
}

fn inverse(c: &[i16; 64]) -> [i16; 64] {
    let mut others = *c;
    others[0] = 0;
    let mut size = 0;
    for k in 0..64 {
        size += u32::from(others[k].unsigned_abs());
    }
    if size <= 124 { inverse_of_sparse(c, &others) } else { inverse_of_dense(c) }
}

fn row_of(block: &[i16; 64], row: usize) -> [i16; 8] {
    let mut line = [0; 8];
    line.copy_from_slice(&block[8 * row..8 * row + 8]);
    line
}

fn add_line(sums: &mut [i32; 32], v: usize, line: &[i16; 8]) {
    if line.iter().all(|value| *value == 0) {
        return;
    }
    add_row(sums, v, &inverse_of_line(line));
}

#[inline(never)]
fn add_row(sums: &mut [i32; 32], v: usize, line: &[i32; 8]) {
    for y in 0..4 {
        let weight = i32::from(BY_FREQUENCY[v][y]);
        for x in 0..8 {
            sums[8 * y + x] += weight * line[x];
        }
    }
}

fn sums_of_last_row(line: &[i16; 8]) -> [i32; 32] {
    let mut sums = [0; 32];
    if *line == [0, 0, 0, 0, 0, 0, 0, 1] {
        for k in 0..32 {
            sums[k] = i32::from(BY_FREQUENCY[7][k / 8]) * i32::from(BY_FREQUENCY[7][k % 8]);
        }
    } else {
        add_line(&mut sums, 7, line);
    }
    sums
}

fn sums_of_even_rows(block: &[i16; 64]) -> [i32; 32] {
    let mut sums = [0; 32];
    for k in 0..4 {
        add_line(&mut sums, 2 * k, &row_of(block, 2 * k));
    }
    sums
}

fn sums_of_odd_rows(block: &[i16; 64]) -> [i32; 32] {
    let mut sums = sums_of_last_row(&row_of(block, 7));
    for k in 0..3 {
        add_line(&mut sums, 2 * k + 1, &row_of(block, 2 * k + 1));
    }
    sums
}

fn unfolded(even: &[i32; 32], odd: &[i32; 32]) -> [i32; 64] {
    let mut sums = [0; 64];
    for y in 0..4 {
        for x in 0..8 {
            let (e, o) = (even[8 * y + x], odd[8 * y + x]);
            sums[8 * y + x] = e + o;
            sums[8 * (7 - y) + x] = e - o;
        }
    }
    sums
}

fn inverse_of_sparse(c: &[i16; 64], others: &[i16; 64]) -> [i16; 64] {
    let sums = unfolded(&sums_of_even_rows(others), &sums_of_odd_rows(others));
    let whole = 8_386_816 * i64::from(c[0]) + 0x200_0000;
    let high = (whole >> 26) as i32;
    let low = (whole - 0x400_0000 * i64::from(high)) as i32;
    let mut samples = [0; 64];
    for k in 0..64 {
        samples[k] = (high + ((low + sums[k]) >> 26)).min(255).max(-256) as i16;
    }
    samples
}

fn inverse_of_dense(c: &[i16; 64]) -> [i16; 64] {
    let mut turned = [0; 64];
    let mut high = [0; 64];
    let mut low = [0; 64];
    of_rows(c, &mut turned, inverse_of_line);
    of_rows(&parts(&turned, |sum| sum >> 15), &mut high, inverse_of_line);
    of_rows(&parts(&turned, |sum| sum - 0x8000 * (sum >> 15)), &mut low, inverse_of_line);
    let mut samples = [0; 64];
    for k in 0..64 {
        samples[k] = rounded_parts(high[k], low[k]).min(255).max(-256) as i16;
    }
    samples
}

fn forward(s: &[i16; 64]) -> [i16; 64] {
    let mut sums = widened(s);
    let mut turned = [0; 64];
    of_rows(&sums, &mut turned, forward_of_line);
    of_rows(&turned, &mut sums, forward_of_line);
    let mut coefficients = [0; 64];
    for k in 0..64 {
        coefficients[k] = rounded(sums[k]) as i16;
    }
    coefficients
}

fn total(block: &[i16; 64]) -> u64 {
    let mut total = 0u64;
    for value in block {
        total = total.wrapping_add(u64::from(value.unsigned_abs()));
    }
    total
}

// Transforms blocks of which each differs from the one before in a value, from -low to range - low - 1.
fn of_blocks(range: u32, low: i16, transform: impl Fn(&[i16; 64]) -> [i16; 64]) -> u64 {
    let mut block = [0; 64];
    let mut sum = 0u64;
    for i in 0..BLOCKS {
        block[i as usize % 64] = (i.wrapping_mul(2_654_435_761) % range) as i16 - low;
        sum = sum.wrapping_add(total(&transform(&block)));
    }
    sum
}

fn coefficient(i: u32) -> i16 {
    (i.wrapping_mul(2_654_435_761) % 4096) as i16 - 2048
}

fn small(i: u32) -> i16 {
    (i.wrapping_mul(2_654_435_761) / 512 % 31) as i16 - 15
}

fn sparse_block(i: u32) -> [i16; 64] {
    let others = [0, 0, 0, 1, 1, 2, 5, 8];
    let mut block = [0; 64];
    block[0] = coefficient(i);
    block[63] = (i / 8 % 2) as i16;
    for k in 0..others[i as usize % 8] {
        block[8 * (k % 3) + k / 3 + 1] = small(i.wrapping_mul(8).wrapping_add(k as u32));
    }
    block
}

fn of_sparse_blocks() -> u64 {
    let mut sum = 0u64;
    for i in 0..BLOCKS {
        sum = sum.wrapping_add(total(&inverse(&sparse_block(i))));
    }
    sum
}

fn timed(direction: &str, work: impl Fn() -> u64) {
    let start = Instant::now();
    let sum = work();
    println!("{direction} {} {sum}", start.elapsed().as_nanos());
}

fn main() {
    for _ in 0..SLICES {
        timed("inverse", || of_blocks(4096, 2048, inverse));
        timed("sparse", of_sparse_blocks);
        timed("forward", || of_blocks(511, 255, forward));
    }
}

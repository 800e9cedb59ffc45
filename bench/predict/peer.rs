//! The same prediction in Rust, of the same million macroblocks of each sort, and copies of as many
//! bytes as it writes.

use std::hint::black_box;
use std::time::Instant;

// A million macroblocks, in slices short enough that some of them run undisturbed.
const SLICES: u32 = 50;
const ROUNDS: u32 = 20;

const MB_WIDE: usize = 45;
const MB_HIGH: usize = 36;
const COLUMNS: usize = 40;
const ROWS: usize = 25;

type Lines = [[u8; 16]; 8];
type Blocks = [[i16; 64]; 6];

#[derive(Clone, Copy, PartialEq, Eq)]
enum Plane {
    Y,
    Cb,
}

#[derive(Clone, Copy)]
struct Vector {
    x: i16,
    y: i16,
}

const STILL: Vector = Vector { x: 0, y: 0 };

struct Decision {
    forward: bool,
    backward: bool,
    field_dct: bool,
    field_motion: bool,
    selects: [[bool; 2]; 2],
    vectors: [[Vector; 2]; 2],
}

const NONE: Decision = Decision {
    forward: false,
    backward: false,
    field_dct: false,
    field_motion: false,
    selects: [[false; 2]; 2],
    vectors: [[STILL; 2]; 2],
};

struct Picture {
    mb_wide: usize,
    mb_high: usize,
    samples: Vec<u8>,
}

impl Picture {
    fn width(&self, plane: Plane) -> usize {
        match plane {
            Plane::Y => 16 * self.mb_wide,
            Plane::Cb => 8 * self.mb_wide,
        }
    }
}

/// Where four lines of two times eight samples begin, how far their halves and the lines lie apart,
/// and how far the samples with which each is averaged.
#[derive(Clone, Copy)]
struct Places {
    at: usize,
    apart: usize,
    stride: usize,
    right: usize,
    down: usize,
}

fn places(
    pic: &Picture,
    plane: Plane,
    x: usize,
    y: usize,
    step: usize,
    d: &Decision,
    s: usize,
) -> Places {
    let has_vectors = if s == 0 { d.forward } else { d.backward };
    let (field, v, line) = if !has_vectors {
        (None, STILL, y)
    } else if d.field_motion {
        (Some(d.selects[s][y % 2]), d.vectors[s][y % 2], y / 2)
    } else {
        (None, d.vectors[s][0], y)
    };
    let v = match plane {
        Plane::Y => v,
        Plane::Cb => Vector {
            x: v.x / 2,
            y: v.y / 2,
        },
    };
    let across = (x as i32 + i32::from(v.x >> 1)) as usize;
    let down = (line as i32 + i32::from(v.y >> 1)) as usize;
    let row = field.map_or(down, |bottom| 2 * down + usize::from(bottom));
    let distance = if field.is_some() { 2 } else { 1 } * pic.width(plane);
    let macroblocks = pic.mb_wide * pic.mb_high;
    let (before, apart) = match plane {
        Plane::Y => (0, 8),
        Plane::Cb => (256 * macroblocks, 64 * macroblocks),
    };
    Places {
        at: before + row * pic.width(plane) + across,
        apart,
        stride: 2 * step * pic.width(plane),
        right: usize::from(v.x & 1 == 1),
        down: if v.y & 1 == 1 { distance } else { 0 },
    }
}

/// Eight samples from each of two places, of four lines.
#[inline(always)]
fn fetch(samples: &[u8], p: &Places, off: usize) -> [[u8; 16]; 4] {
    let mut lines = [[0; 16]; 4];
    for k in 0..4 {
        let at = p.at + k * p.stride + off;
        lines[k][..8].copy_from_slice(&samples[at..at + 8]);
        lines[k][8..].copy_from_slice(&samples[at + p.apart..at + p.apart + 8]);
    }
    lines
}

#[inline(always)]
fn mean(a: u8, b: u8) -> u8 {
    ((u16::from(a) + u16::from(b) + 1) / 2) as u8
}

#[inline(always)]
fn quarter(a: u8, b: u8, c: u8, d: u8) -> u8 {
    let (first, second) = (mean(a, b), mean(c, d));
    mean(first, second) - (((a ^ b) % 2 | (c ^ d) % 2) & (first ^ second) % 2)
}

#[inline(always)]
fn means(a: &[u8; 16], b: &[u8; 16]) -> [u8; 16] {
    let mut row = [0; 16];
    for k in 0..16 {
        row[k] = mean(a[k], b[k]);
    }
    row
}

#[inline(always)]
fn quarters(a: &[u8; 16], b: &[u8; 16], c: &[u8; 16], d: &[u8; 16]) -> [u8; 16] {
    let mut row = [0; 16];
    for k in 0..16 {
        row[k] = quarter(a[k], b[k], c[k], d[k]);
    }
    row
}

#[inline(always)]
fn four_lines(samples: &[u8], p: &Places, first: usize, out: &mut Lines) {
    let a = fetch(samples, p, 0);
    match (p.right, p.down) {
        (0, 0) => {
            for k in 0..4 {
                out[2 * k + first] = a[k];
            }
        }
        (0, off) | (off, 0) => {
            let b = fetch(samples, p, off);
            for k in 0..4 {
                out[2 * k + first] = means(&a[k], &b[k]);
            }
        }
        (right, down) => {
            let b = fetch(samples, p, right);
            let c = fetch(samples, p, down);
            let d = fetch(samples, p, right + down);
            for k in 0..4 {
                out[2 * k + first] = quarters(&a[k], &b[k], &c[k], &d[k]);
            }
        }
    }
}

fn predict_lines(
    pic: &Picture,
    plane: Plane,
    x: usize,
    y: usize,
    step: usize,
    d: &Decision,
    s: usize,
    out: &mut Lines,
) {
    let even = places(pic, plane, x, y, step, d, s);
    let has_vectors = if s == 0 { d.forward } else { d.backward };
    let odd = if has_vectors && d.field_motion {
        places(pic, plane, x, y + step, step, d, s)
    } else {
        Places {
            at: even.at + even.stride / 2,
            ..even
        }
    };
    four_lines(&pic.samples, &even, 0, out);
    four_lines(&pic.samples, &odd, 1, out);
}

fn predict_pair(
    refs: &[&Picture; 2],
    plane: Plane,
    x: usize,
    y: usize,
    step: usize,
    d: &Decision,
    b: usize,
    out: &mut Blocks,
) {
    let mut lines = [[0; 16]; 8];
    if d.forward {
        predict_lines(refs[0], plane, x, y, step, d, 0, &mut lines);
        if d.backward {
            let mut other = [[0; 16]; 8];
            predict_lines(refs[1], plane, x, y, step, d, 1, &mut other);
            for (line, other) in lines.iter_mut().zip(&other) {
                *line = means(line, other);
            }
        }
    } else if d.backward {
        predict_lines(refs[1], plane, x, y, step, d, 1, &mut lines);
    }
    for half in 0..2 {
        for row in 0..8 {
            for col in 0..8 {
                out[b + half][8 * row + col] = i16::from(lines[row][8 * half + col]);
            }
        }
    }
}

#[inline(never)]
fn predict(refs: &[&Picture; 2], d: &Decision, mb_x: usize, mb_y: usize, out: &mut Blocks) {
    let (step, lower) = if d.field_dct { (2, 1) } else { (1, 8) };
    predict_pair(refs, Plane::Y, 16 * mb_x, 16 * mb_y, step, d, 0, out);
    predict_pair(
        refs,
        Plane::Y,
        16 * mb_x,
        16 * mb_y + lower,
        step,
        d,
        2,
        out,
    );
    predict_pair(refs, Plane::Cb, 8 * mb_x, 8 * mb_y, 1, d, 4, out);
}

fn drawn(seed: u32) -> Picture {
    let mut state = seed;
    let draw = || {
        state = state.wrapping_mul(1_664_525).wrapping_add(1_013_904_223);
        (state >> 24) as u8
    };
    let samples = std::iter::repeat_with(draw)
        .take(384 * MB_WIDE * MB_HIGH)
        .collect();
    Picture {
        mb_wide: MB_WIDE,
        mb_high: MB_HIGH,
        samples,
    }
}

/// The sum of one sample of each prediction.
fn predictions(mut each: impl FnMut(usize, usize, &mut Blocks)) -> u64 {
    let mut out = [[0; 64]; 6];
    let (mut sum, mut place) = (0u64, 0usize);
    for _ in 0..ROUNDS {
        for mb_y in 0..ROWS {
            for mb_x in 0..COLUMNS {
                each(mb_x + 2, mb_y + 2, &mut out);
                place = place.wrapping_add(1);
                sum = sum
                    .wrapping_mul(31)
                    .wrapping_add(out[place % 6][place % 64] as u64);
            }
        }
    }
    sum
}

fn time(name: &str, each: impl FnMut(usize, usize, &mut Blocks)) {
    let start = Instant::now();
    let sum = predictions(each);
    println!("{name} {} {sum}", start.elapsed().as_nanos());
}

fn vectors(forward: [Vector; 2], backward: [Vector; 2]) -> [[Vector; 2]; 2] {
    [forward, backward]
}

fn main() {
    let (forward, backward) = (drawn(1), drawn(2));
    let refs = [&forward, &backward];
    let of = |x: i16, y: i16| Vector { x, y };
    let ahead = |v: Vector| Decision {
        forward: true,
        vectors: vectors([v, STILL], [STILL; 2]),
        ..NONE
    };
    let sorts = [
        ("whole", ahead(of(8, -4))),
        ("half", ahead(of(8, -7))),
        ("both", ahead(of(7, -7))),
        (
            "field",
            Decision {
                field_motion: true,
                selects: [[false, true], [false, false]],
                vectors: vectors([of(8, -4), of(-7, 4)], [STILL; 2]),
                ..ahead(STILL)
            },
        ),
        (
            "two",
            Decision {
                backward: true,
                vectors: vectors([of(8, -4), STILL], [of(7, -4), STILL]),
                ..ahead(STILL)
            },
        ),
    ];
    let whole = [[1; 64]; 6];
    for _ in 0..SLICES {
        for (name, d) in &sorts {
            time(name, |mb_x, mb_y, out| {
                predict(&refs, black_box(d), mb_x, mb_y, out)
            });
        }
        time("copy", |_, _, out| *out = *black_box(&whole));
    }
}

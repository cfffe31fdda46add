//! The square root over whole numbers, step by step as the Rattle library has it, held to the
//! machine's own root on every pattern that is not negative.
use std::thread;
use std::time::Instant;

/// A whole number near the root of x, by two steps of Heron's rule from a parabola.
fn guess(x: u64) -> u64 {
    let v = x as f64;
    let a = (6.270524152877852e-8 - v * 6.69835564680521e-23) * v + 4349951.5;
    let b = (a + v / a) * 0.5;
    let t = (b + v / b) * 0.5 + 4503599627370496.0;
    if t.is_nan() {
        0
    } else {
        f64::to_bits(t) % 33554432
    }
}

/// The whole number nearest to the root of x, from the one at or below it.
fn from_floor(x: u64) -> u64 {
    let floor = x.isqrt();
    if floor * floor + floor < x {
        floor + 1
    } else {
        floor
    }
}

/// The same: the guess, if it is the one.
fn near_root(x: u64) -> u64 {
    let g = guess(x);
    if (8388608..16777216).contains(&g) {
        let s = g * g;
        if s < x + g && x <= s + g {
            return g;
        }
    }
    from_floor(x)
}

/// t of the smallest f32, as (m, f) with m of 24 binary digits: m * 2^(f - 214).
fn lifted(t: u32) -> (u32, u32) {
    let places = t.leading_zeros() - 8;
    (t << places, 65 - places)
}

/// The bit pattern of the root of m * 2^(f - 214).
#[allow(clippy::manual_div_ceil)]
fn root_bits(m: u32, f: u32) -> u32 {
    let w = u64::from(m);
    let n = if f % 2 == 0 {
        w * 16777216
    } else {
        w * 8388608
    };
    let q = near_root(n);
    ((f + 1) / 2 + 30) * 8388608 + (q as u32)
}

/// The root of x. +0, -0 and +inf are their own roots.
fn sqrt(x: f32) -> f32 {
    let b = f32::to_bits(x);
    if b == 0 || b >= 2139095040 {
        return x;
    }
    let e = b / 8388608;
    let t = b % 8388608;
    if e == 0 {
        let (m, f) = lifted(t);
        return f32::from_bits(root_bits(m, f));
    }
    f32::from_bits(root_bits(t + 8388608, e + 64))
}

/// The root of x, or `None` (refusal 12) for a NaN and for a number below zero.
pub fn square_root(x: f32) -> Option<f32> {
    if x.is_nan() || x < 0.0 {
        return None;
    }
    Some(sqrt(x))
}

/// True where the two roots differ. A NaN has no root on either side.
pub fn differs(bits: u32) -> bool {
    let x = f32::from_bits(bits);
    let machine = x.sqrt();
    match square_root(x) {
        Some(root) => root.to_bits() != machine.to_bits(),
        None => !machine.is_nan(),
    }
}

fn differences(from: u32, to: u32) -> u64 {
    (from..to).filter(|bits| differs(*bits)).count() as u64
}

/// Compares all 2^31 patterns, in two threads. Gives the number of differences.
pub fn compare_all() -> u64 {
    const HALF: u32 = 1 << 30;
    let began = Instant::now();
    let upper = thread::spawn(|| differences(HALF, 2 * HALF));
    let lower = differences(0, HALF);
    let found = lower + upper.join().expect("the thread ends");
    println!(
        "{} patterns, {} differences, {:.1} s",
        1u64 << 31,
        found,
        began.elapsed().as_secs_f64()
    );
    found
}

//! The sine and the cosine of an angle in degrees over whole numbers, step by step as the Rattle
//! library has them. No C library is called, so every machine has the same bits.

/// One term more of a Taylor sum, in units of 2^-32: 1 - z / n * h. The divisions of all terms wait
/// for none but z.
fn step(z: u64, h: u64, n: u64) -> u64 {
    4294967296 - z / n * h / 4294967296
}

/// sin r / r for z = r * r.
fn sine_part(z: u64) -> u64 {
    let a = step(z, 4294967296, 110);
    let b = step(z, a, 72);
    let c = step(z, b, 42);
    let d = step(z, c, 20);
    step(z, d, 6)
}

/// cos r for z = r * r.
fn cosine_part(z: u64) -> u64 {
    let a = step(z, 4294967296, 90);
    let b = step(z, a, 56);
    let c = step(z, b, 30);
    let d = step(z, c, 12);
    step(z, d, 2)
}

/// The square of m / (2^k * 2^18) degrees, in radians, in units of 2^-32.
fn square(m: u64, k: u64) -> u64 {
    if 30 <= k {
        return 0;
    }
    let a = (m * 64) >> k;
    a * a / 134217728 * 2679443160 / 4294967296
}

/// The sine of m / (2^k * 2^18) degrees, in units of 1 / (2^k * 2^63).
fn sine_long(m: u64, k: u64) -> u64 {
    let f = 2398762259 * sine_part(square(m, k)) / 16777216;
    m * f
}

/// The same rounded to an f32, as its bit pattern. m has 24 digits, unless the sine is below 2^-125.
#[allow(clippy::manual_div_ceil)]
fn sine_bits(m: u64, k: u64) -> u32 {
    let p = sine_long(m, k);
    if 126 <= k {
        let u = ((p >> (k - 87)) + 1) / 2;
        return u as u32;
    }
    if p < 9223372036854775808 {
        let q = (p + 274877906944) / 549755813888;
        return ((125 - k) * 8388608 + q) as u32;
    }
    let q = (p + 549755813888) / 1099511627776;
    ((126 - k) * 8388608 + q) as u32
}

/// The cosine of m / (2^k * 2^18) degrees, as its bit pattern.
fn cosine_bits(m: u64, k: u64) -> u32 {
    let q = (cosine_part(square(m, k)) + 128) / 256;
    (1048576000 + q) as u32
}

/// A sine and a cosine.
pub type Pair = (f32, f32);

/// The two of m / (2^k * 2^18) degrees, at most 45.
fn small_pair(m: u64, k: u64) -> Pair {
    let s = sine_bits(m, k);
    let c = cosine_bits(m, k);
    (f32::from_bits(s), f32::from_bits(c))
}

/// y of 2^-18 degree, as (m, k) with m of 24 binary digits: m / (2^k * 2^18) degrees.
fn lifted(y: u64) -> (u64, u64) {
    if y == 0 {
        return (0, 131);
    }
    let k = y.leading_zeros() - 40;
    (y << k, u64::from(k))
}

/// The pair of y of 2^-18 degree, at most 45 degrees.
fn near(y: u64) -> Pair {
    let (m, k) = lifted(y);
    small_pair(m, k)
}

/// How far y of 2^-18 degree, from 45 to 180 degrees, is from the nearest of 90 and 180 degrees.
fn left(y: u64) -> u64 {
    if y <= 23592960 {
        return 23592960 - y;
    }
    if y <= 35389440 {
        return y - 23592960;
    }
    47185920 - y
}

/// The pair of y of 2^-18 degree, from 45 to 180 degrees. The quadrant is asked for after the sums,
/// which need not wait for it.
fn far_pair(y: u64) -> Pair {
    let (s, c) = near(left(y));
    if y <= 23592960 {
        return (c, s);
    }
    if y <= 35389440 {
        return (c, -s);
    }
    (s, -c)
}

/// The pair of the angle with the bit pattern b, from 0 to 180 degrees: by the angle from the
/// nearest of 0, 90 and 180 degrees.
fn pair_of(b: u32) -> Pair {
    let e = b / 8388608;
    let t = b % 8388608;
    if e == 0 {
        return small_pair(u64::from(t), 131);
    }
    let w = u64::from(t + 8388608);
    if b <= 1110704128 {
        return small_pair(w, u64::from(132 - e));
    }
    far_pair(w << (e - 132))
}

/// The sine and the cosine of x degrees, or `None` (refusal 16) for a NaN and outside of -180 to 180.
pub fn sine_and_cosine(x: f32) -> Option<Pair> {
    if !(-180.0..=180.0).contains(&x) {
        return None;
    }
    let b = x.to_bits();
    let (s, c) = pair_of(b % 2147483648);
    if b < 2147483648 {
        return Some((s, c));
    }
    Some((-s, c))
}

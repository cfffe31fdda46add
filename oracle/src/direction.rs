//! The angle of two numbers in degrees, an arctangent over whole numbers, step by step as the Rattle
//! library has it. Angles are counted in units of 2^-24 degree.

/// One term more of the arctangent's Taylor sum, in units of 2^-30: 1 - j * z / (j + 2) * h.
fn arc_step(z: u64, h: u64, j: u64) -> u64 {
    1073741824 - j * z / (j + 2) * h / 1073741824
}

/// arctan r / r for z = r * r.
fn arc_part(z: u64) -> u64 {
    let a = arc_step(z, 1073741824, 13);
    let b = arc_step(z, a, 11);
    let c = arc_step(z, b, 9);
    let d = arc_step(z, c, 7);
    let e = arc_step(z, d, 5);
    let f = arc_step(z, e, 3);
    arc_step(z, f, 1)
}

/// The arctangent of r, at most 5 / 12.
fn arc(r: u64) -> u64 {
    let h = arc_part(r * r / 1073741824);
    (r * h / 1073741824 * 961263669 + 536870912) / 1073741824
}

/// n / d, in units of 2^-30.
fn ratio(n: u64, d: u64) -> u64 {
    n * 1073741824 / d
}

/// A float's size is m * 2^(e - 1) of the smallest f32: this is m.
fn digits(b: u32) -> u64 {
    if b < 8388608 {
        return u64::from(b);
    }
    u64::from(b % 8388608 + 8388608)
}

/// And this is e.
fn place(b: u32) -> u32 {
    if b < 8388608 {
        return 1;
    }
    b / 8388608
}

/// The angle of (d, n), from 0 to 45 degrees.
fn eighth(d: u64, n: u64) -> u64 {
    if 12 * n <= 5 * d {
        return arc(ratio(n, d));
    }
    754974720 - arc(ratio(d - n, d + n))
}

/// The same of two sizes by their bit patterns. What is below 2^-30 of the larger one counts as
/// zero.
fn octant(p: u32, q: u32) -> u64 {
    let k = place(p) - place(q);
    if 32 <= k {
        return 0;
    }
    eighth(digits(p) << k, digits(q))
}

/// From 0 to 90 degrees.
fn quadrant(p: u32, q: u32) -> u64 {
    if q <= p {
        return octant(p, q);
    }
    1509949440 - octant(q, p)
}

/// g, or 180 degrees less g.
fn half_turn(left: bool, g: u64) -> u64 {
    if left {
        return 3019898880 - g;
    }
    g
}

/// j of 2^-24 degree. Both parts are floats without a rounding, so that only the sum is rounded.
fn degrees(j: u64) -> f32 {
    let high = (j / 4096) as f32;
    let low = (j % 4096) as f32;
    high / 4096.0 + low / 16777216.0
}

/// The angle of a finite x and y.
fn angle(x: f32, y: f32) -> f32 {
    if y == 0.0 {
        if x < 0.0 {
            return 180.0;
        }
        return 0.0;
    }
    let p = x.to_bits() % 2147483648;
    let q = y.to_bits() % 2147483648;
    let d = degrees(half_turn(x < 0.0, quadrant(p, q)));
    if y < 0.0 {
        return -d;
    }
    d
}

/// The angle from the x axis to the y axis, from -180 to 180 degrees. A NaN where x or y is not
/// finite.
pub fn direction(x: f32, y: f32) -> f32 {
    if !x.is_finite() || !y.is_finite() {
        return f32::NAN;
    }
    angle(x, y)
}

//! The samples of fields whose directions are measured: X, Y and Z, of either sign in every part.
use oracle::cases::Rng;

pub struct Sample {
    pub name: &'static str,
    pub count: usize,
    /// The field at a place of one half of the sample.
    pub field: fn(&mut Rng, usize) -> [f32; 3],
}

/// The largest component.
const LARGEST: f32 = 1152921504606846976.0;
/// The exponents of two from the smallest f32 to the largest component.
const LOWEST: i32 = -149;
const POWERS: usize = 60 + 149 + 1;

pub const SAMPLES: [Sample; 8] = [
    Sample {
        name: "X, Y and Z evenly from -70000 to 70000 nT",
        count: 6_000_000,
        field: |rng, _| [0; 3].map(|_| rng.between(-70000.0, 70000.0) as f32),
    },
    Sample {
        name: "even angles, sizes from 20000 to 70000 nT",
        count: 4_000_000,
        field: even_angles,
    },
    Sample {
        name: "every two exponents from -149 to 60, so ratios from 2^-209 to 2^209",
        count: 2 * 64 * POWERS * POWERS,
        field: two_exponents,
    },
    Sample {
        name: "all subnormal",
        count: 2_000_000,
        field: |rng, _| [0; 3].map(|_| subnormal(rng)),
    },
    Sample {
        name: "X subnormal, Y and Z of any size",
        count: 2_000_000,
        field: |rng, _| [subnormal(rng), any(rng), any(rng)],
    },
    Sample {
        name: "Y and Z at 2^60, X of any size",
        count: 1_000_000,
        field: |rng, _| [any(rng), rng.sign() * LARGEST, rng.sign() * LARGEST],
    },
    Sample {
        name: "X at 2^60, Y and Z of any size",
        count: 1_000_000,
        field: |rng, _| [rng.sign() * LARGEST, any(rng), any(rng)],
    },
    Sample {
        name: "Y beside X and beside 5/12 of it, Z so beside H",
        count: 4_000_000,
        field: beside,
    },
];

/// 2^exponent, with digits after the first one.
fn scaled(rng: &mut Rng, exponent: i32) -> f32 {
    let size = f64::from(exponent).exp2() * rng.between(1.0, 2.0);
    rng.sign() * (size as f32).min(LARGEST)
}

fn any(rng: &mut Rng) -> f32 {
    let exponent = rng.whole(LOWEST, 60);
    scaled(rng, exponent)
}

fn subnormal(rng: &mut Rng) -> f32 {
    rng.sign() * f32::from_bits(rng.bits() >> 9)
}

/// A vector of even declination and even inclination.
fn even_angles(rng: &mut Rng, _: usize) -> [f32; 3] {
    let f = rng.between(20000.0, 70000.0);
    let (s, c) = rng.between(-180.0, 180.0).to_radians().sin_cos();
    let (down, level) = rng.between(-90.0, 90.0).to_radians().sin_cos();
    [f * level * c, f * level * s, f * down].map(|part| part as f32)
}

/// X and Y of the two exponents at a place, Z of any.
fn two_exponents(rng: &mut Rng, place: usize) -> [f32; 3] {
    let [first, second] = [place / POWERS % POWERS, place % POWERS].map(|at| LOWEST + at as i32);
    [scaled(rng, first), scaled(rng, second), any(rng)]
}

/// A number some steps beside `x`, or beside 5/12 or 12/5 of it, where it can be had.
fn near(rng: &mut Rng, x: f32) -> f32 {
    let times = rng.pick(&[1.0, 5.0 / 12.0, 12.0 / 5.0]);
    let size = ((f64::from(x.abs()) * times) as f32).clamp(f32::from_bits(8), LARGEST / 2.0);
    let bits = size.to_bits().wrapping_add_signed(rng.whole(-4, 4));
    rng.sign() * f32::from_bits(bits)
}

fn beside(rng: &mut Rng, _: usize) -> [f32; 3] {
    let exponent = rng.whole(LOWEST, 58);
    let x = scaled(rng, exponent);
    let y = near(rng, x);
    let z = near(rng, (x * x + y * y).sqrt());
    [x, y, z]
}

//! Pairs (sine, cosine): on the circle, just on it, just off it, far off it.
use super::rng::Rng;
use super::values::{step, NOT_FINITE, SMALL};
use crate::field::{geodetic_to_geocentric, NEAR_POLE_SIN_THETA_MIN};
use std::f64::consts::PI;

/// Ends of the circle test: 1 - 2^-20 and 1 + 2^-20.
const LOW: f32 = 1.0 - 1.0 / 1048576.0;
const HIGH: f32 = 1.0 + 1.0 / 1048576.0;

/// Sine and cosine of a random angle, rounded to f32.
pub fn random_pair(rng: &mut Rng) -> (f32, f32) {
    let angle = rng.between(-PI, PI);
    (angle.sin() as f32, angle.cos() as f32)
}

/// A pair whose s*s + c*c, each step rounded, is exactly `sum`.
fn with_sum(rng: &mut Rng, sum: f32) -> (f32, f32) {
    loop {
        let s = random_pair(rng).0;
        let c = (f64::from(sum) - f64::from(s) * f64::from(s))
            .max(0.0)
            .sqrt() as f32;
        for k in 0..48 {
            let c = step(c, if k % 2 == 0 { k / 2 } else { -k / 2 });
            if s * s + c * c == sum {
                return (s, rng.sign() * c);
            }
        }
    }
}

fn not_finite(rng: &mut Rng) -> f32 {
    f32::from_bits(rng.pick(&NOT_FINITE))
}

fn small(rng: &mut Rng) -> f32 {
    rng.sign() * f32::from_bits(rng.pick(&SMALL))
}

/// Ways for a pair to stand at, or one step beside, the edge of the circle test, or off it.
pub const EDGES: usize = 24;

pub fn edge_pair(rng: &mut Rng, way: usize) -> (f32, f32) {
    let (s, c) = random_pair(rng);
    match way {
        0 => with_sum(rng, LOW),
        1 => with_sum(rng, HIGH),
        2 => with_sum(rng, step(LOW, 1)),
        3 => with_sum(rng, step(HIGH, -1)),
        4 => with_sum(rng, step(LOW, -1)),
        5 => with_sum(rng, step(HIGH, 1)),
        6 => (not_finite(rng), c),
        7 => (s, not_finite(rng)),
        8 => (not_finite(rng), not_finite(rng)),
        9 => (f32::NAN, 1.0),
        10 => (0.0, f32::NAN),
        11 => (f32::INFINITY, 0.0),
        12 => (0.0, f32::NEG_INFINITY),
        13 => (0.0, -0.0),
        14 => (small(rng), small(rng)),
        15 => (s * 2.0, c * 2.0),
        16 => (s * 0.5, c * 0.5),
        17 => (1.0, 1.0),
        18 => (f32::MAX, 0.0),
        19 => (s, 1.8446744e19), // its square is infinite
        20 => (s * (1.0 + 3e-7), c * (1.0 + 3e-7)),
        21 => (s * (1.0 - 3e-7), c * (1.0 - 3e-7)),
        22 => (step(s, rng.whole(-9, 9)), step(c, rng.whole(-9, 9))),
        _ => (f32::from_bits(rng.bits()), f32::from_bits(rng.bits())),
    }
}

/// Pairs on the axes and very near to them, all on the circle.
pub const AXES: usize = 16;

pub fn axis_pair(rng: &mut Rng, way: usize) -> (f32, f32) {
    let sign = if way & 1 == 0 { 1.0 } else { -1.0 };
    let zero = if way & 2 == 0 { 0.0 } else { -0.0 };
    match way / 2 {
        0 | 1 => (zero, sign),
        2 | 3 => (sign, zero),
        4 => (small(rng), sign),
        5 => (sign, small(rng)),
        6 => (rng.sign() * 1e-20, sign),
        _ => (sign, rng.sign() * 1e-6),
    }
}

/// Ways for a longitude pair (sine, cosine). The first ones, the axes, are on the circle.
pub const LONGITUDES: usize = AXES + EDGES;

pub fn longitude(rng: &mut Rng, way: Option<usize>) -> (f32, f32) {
    match way {
        None => random_pair(rng),
        Some(way) if way < AXES => axis_pair(rng, way),
        Some(way) => edge_pair(rng, way - AXES),
    }
}

/// Sizes of sin theta at and near the limit of the near-pole sum, and far below it.
const NEAR: usize = 12;

fn near_size(way: usize) -> f32 {
    match way {
        0..=6 => step(NEAR_POLE_SIN_THETA_MIN, way as i32 - 3),
        7 => 5e-4,
        8 => 1e-6,
        9 => 1e-20,
        10 => f32::from_bits(1),
        _ => 0.0,
    }
}

/// Ways for a colatitude pair (cosine, sine).
pub const COLATITUDES: usize = 4 * NEAR + AXES + EDGES;

pub fn colatitude(rng: &mut Rng, way: Option<usize>) -> (f32, f32) {
    let (sine, cosine) = match way {
        None if rng.once_in(8) => {
            let sine = rng.between(-0.003, 0.003);
            (sine as f32, rng.sign() * (1.0 - sine * sine).sqrt() as f32)
        }
        None => random_pair(rng),
        Some(way) if way < 4 * NEAR => {
            let size = near_size(way / 4);
            let sine = if way & 1 == 0 { size } else { -size };
            let cosine = (1.0 - f64::from(size) * f64::from(size)).sqrt() as f32;
            let cosine = step(cosine, rng.whole(-3, 3));
            (sine, if way & 2 == 0 { cosine } else { -cosine })
        }
        Some(way) if way < 4 * NEAR + AXES => axis_pair(rng, way - 4 * NEAR),
        Some(way) => edge_pair(rng, way - 4 * NEAR - AXES),
    };
    (cosine, sine)
}

/// Cosines of the latitude near a pole: the f32 cosine of 90 degrees (b33bbd2e), 2^-20 below
/// zero, and their neighbours.
const POLAR: [u32; 11] = [
    0xb33b_bd2e,
    0xb33b_bd2d,
    0xb33b_bd2f,
    0x333b_bd2e,
    0xb580_0000,
    0xb57f_ffff,
    0xb580_0001,
    0xb600_0000,
    0x3580_0000,
    0x0000_0001,
    0x8000_0001,
];

/// A latitude at which sin theta is `sine`, for this height.
fn with_sin_theta(rng: &mut Rng, height: f32, sine: f32) -> (f32, f32) {
    let sin_phi = rng.sign();
    let (r, _, _) = geodetic_to_geocentric(height, 1.0, 0.0);
    let guess = f64::from(sine) * f64::from(r) / (6_399_593.6 + f64::from(height));
    for k in 0..400 {
        let cos_phi = step(guess as f32, if k % 2 == 0 { k / 2 } else { -k / 2 });
        let (_, _, sin_theta) = geodetic_to_geocentric(height, sin_phi, cos_phi);
        if sin_theta == sine {
            return (sin_phi, cos_phi);
        }
    }
    (sin_phi, guess as f32)
}

/// Ways for a latitude pair (sine, cosine). The first ones are near a pole, then comes one beyond it,
/// then the axes. All these are on the circle. The others are at its edge or off it.
pub const NEAR_POLES: usize = 2 * POLAR.len() + 7;
const AXES_FROM: usize = NEAR_POLES + 1;
pub const ROUND_LATITUDES: usize = AXES_FROM + AXES;
pub const LATITUDES: usize = ROUND_LATITUDES + EDGES;
/// Those of them that are exactly at a pole, and exactly on the equator.
pub const POLES: [usize; 4] = [AXES_FROM + 4, AXES_FROM + 5, AXES_FROM + 6, AXES_FROM + 7];
pub const EQUATORS: [usize; 2] = [AXES_FROM, AXES_FROM + 2];

pub fn latitude(rng: &mut Rng, height: f32, way: Option<usize>) -> (f32, f32) {
    let way = match way {
        None => {
            let from_pole = if rng.once_in(6) { 0.002 } else { PI };
            let angle = PI / 2.0 - rng.between(0.0, from_pole);
            let sine = if rng.once_in(2) {
                -angle.sin()
            } else {
                angle.sin()
            };
            return (sine as f32, angle.cos() as f32);
        }
        Some(way) => way,
    };
    let polar = 2 * POLAR.len();
    if way < polar {
        let sine = if way & 1 == 0 { 1.0 } else { -1.0 };
        (sine, f32::from_bits(POLAR[way / 2]))
    } else if way < NEAR_POLES {
        let sine = step(NEAR_POLE_SIN_THETA_MIN, (way - polar) as i32 - 3);
        let inside = (-1000.0..=850000.0).contains(&height);
        with_sin_theta(rng, if inside { height } else { 0.0 }, sine)
    } else if way < AXES_FROM {
        let (s, c) = random_pair(rng);
        (s, -c.abs()) // on the circle, and beyond the pole
    } else if way < ROUND_LATITUDES {
        axis_pair(rng, way - AXES_FROM)
    } else {
        let (s, c) = edge_pair(rng, way - ROUND_LATITUDES);
        (s, if rng.once_in(4) { c } else { c.abs() })
    }
}

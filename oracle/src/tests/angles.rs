//! Sines, cosines and angles of our own: exact ends, distances from double precision, refusals.
use crate::angles::{declination, field_declination, inclination, sine_and_cosine, DegreePlace};
use crate::entries::{components, off_the_circle, Refusal, Set};
use crate::models::model_by_epoch_year;

const LARGEST: f32 = 1152921504606846976.0;

/// The bits of a pair.
fn pair(degrees: f32) -> [u32; 2] {
    let (sine, cosine) = sine_and_cosine(degrees).unwrap();
    [sine.to_bits(), cosine.to_bits()]
}

#[test]
fn ends_are_exact() {
    let (one, root) = (0x3f80_0000, 0x3f35_04f3);
    let minus = 0x8000_0000;
    for (degrees, sine, cosine) in [
        (0.0, 0, one),
        (-0.0, minus, one),
        (45.0, root, root),
        (-45.0, minus | root, root),
        (90.0, one, 0),
        (-90.0, minus | one, 0),
        (135.0, root, minus | root),
        (180.0, 0, minus | one),
        (-180.0, minus, minus | one),
        (60.0, 0x3f5d_b3d7, 0x3f00_0000),
        // the smallest sizes have a sine of zero, and the next ones a small one
        (f32::from_bits(1), 0, one),
        (f32::from_bits(57), 1, one),
    ] {
        assert_eq!(pair(degrees), [sine, cosine], "{degrees:?}");
    }
}

/// The sine and the cosine in double precision, by the angle from the nearest multiple of 90 degrees.
fn in_double(degrees: f32) -> (f64, f64) {
    let quarter = (f64::from(degrees) / 90.0).round();
    let (s, c) = (f64::from(degrees) - 90.0 * quarter).to_radians().sin_cos();
    match quarter as i32 {
        0 => (s, c),
        1 => (c, -s),
        -1 => (-c, s),
        _ => (-s, -c),
    }
}

#[test]
fn pairs_are_near_and_on_the_circle() {
    const UNIT: f64 = 1.0 / 4194304.0; // 2^-22
    for bits in (0..=0x4334_0000u32).step_by(997).chain([0x4334_0000]) {
        let degrees = f32::from_bits(bits);
        let (s, c) = sine_and_cosine(degrees).unwrap();
        let (sine, cosine) = in_double(degrees);
        assert!((f64::from(s) - sine).abs() < UNIT, "{degrees:?}");
        assert!((f64::from(c) - cosine).abs() < UNIT, "{degrees:?}");
        assert!(!off_the_circle(s, c), "{degrees:?}");
        // the sine is odd, the cosine even
        assert_eq!(sine_and_cosine(-degrees).unwrap(), (-s, c));
    }
}

#[test]
fn angles_out_of_range_are_refused() {
    for bits in [
        0x4334_0001u32,
        0x43b4_0000,
        0x7f7f_ffff,
        0x7f80_0000,
        0x7f80_0001,
        0x7fc0_0000,
    ] {
        for bits in [bits, bits | 0x8000_0000] {
            let answer = sine_and_cosine(f32::from_bits(bits));
            assert_eq!(answer, Err(Refusal::Angle), "{bits:08x}");
        }
    }
}

#[test]
fn directions_at_the_axes() {
    let tiny = f32::from_bits(1);
    for (x, y, degrees) in [
        (0.0, 0.0, 0.0),
        (-0.0, -0.0, 0.0),
        (1.0, -0.0, 0.0),
        (-1.0, 0.0, 180.0),
        (-1.0, -0.0, 180.0),
        (-tiny, -0.0, 180.0),
        (0.0, tiny, 90.0),
        (-0.0, -tiny, -90.0),
        (1.0, 1.0, 45.0),
        (-tiny, tiny, 135.0),
        (-LARGEST, -LARGEST, -135.0),
        (LARGEST, -LARGEST, -45.0),
        (LARGEST, tiny, 0.0),
        (tiny, -LARGEST, -90.0),
    ] {
        let found = declination(x, y).unwrap();
        assert_eq!(found, degrees, "{x:?} {y:?}");
        // a field of the same X and Y, whatever its Z
        assert_eq!(field_declination(&components([x, y, -7.0])), Ok(found));
    }
    // Y = -0 is no angle to the west; a Y below zero is, also where the angle rounds to zero
    assert_eq!(declination(1.0, -0.0).unwrap().to_bits(), 0);
    let west = declination(LARGEST, -tiny).unwrap();
    assert_eq!(west.to_bits(), 0x8000_0000);
}

#[test]
fn directions_are_near() {
    const UNIT: f64 = 1.0 / 32768.0; // 2^-15
    let scales = [-149, -140, -126, -60, -31, -15, 0, 1, 20, 58].map(|e| f64::from(e).exp2());
    for a in scales {
        for b in scales {
            for part in 0..64 {
                let x = (a * (1.0 + f64::from(part) / 40.0)) as f32;
                let y = (b * (3.0 - f64::from(part) / 50.0)) as f32;
                for (x, y) in [(x, y), (-x, y), (x, -y), (-x, -y)] {
                    let exact = f64::from(y).atan2(f64::from(x)).to_degrees();
                    let found = f64::from(declination(x, y).unwrap());
                    assert!((found - exact).abs() < UNIT, "{x:?} {y:?}");
                }
            }
        }
    }
}

#[test]
fn inclinations() {
    for (xyz, degrees) in [
        ([0.0, 0.0, 0.0], 0.0),
        ([0.0, -0.0, -0.0], 0.0),
        ([0.0, 0.0, 1.0], 90.0),
        ([-0.0, 0.0, -1.0], -90.0),
        // the squares of these are zero, and so is H
        ([1e-30, -1e-30, 1e-40], 90.0),
        ([-3.0, 4.0, 5.0], 45.0),
        ([3.0, -4.0, -5.0], -45.0),
        ([LARGEST, LARGEST, 0.0], 0.0),
    ] {
        assert_eq!(inclination(&components(xyz)), Ok(degrees), "{xyz:?}");
    }
}

#[test]
fn components_are_refused() {
    let over = f32::from_bits(LARGEST.to_bits() + 1);
    for bad in [over, -over, f32::INFINITY, f32::NEG_INFINITY, f32::NAN] {
        assert_eq!(declination(bad, 1.0), Err(Refusal::Unusable));
        assert_eq!(declination(1.0, bad), Err(Refusal::Unusable));
        for at in 0..3 {
            let mut xyz = [1.0; 3];
            xyz[at] = bad;
            let field = components(xyz);
            assert_eq!(field_declination(&field), Err(Refusal::Unusable));
            assert_eq!(inclination(&field), Err(Refusal::Unusable));
        }
    }
}

/// The number of an answer of Field in degrees, by the set of 2025.
fn number(height: f32, latitude_deg: f32, longitude_deg: f32, day: i32) -> u32 {
    let place = DegreePlace {
        height,
        latitude_deg,
        longitude_deg,
        year: 2025,
        day,
    };
    let set = Set::of(model_by_epoch_year(2025).unwrap());
    let answer = place.field(&set);
    if let (Ok(field), Ok(with_pairs)) = (&answer, place.with_pairs()) {
        assert_eq!(with_pairs.field(&set).as_ref(), Ok(field));
    }
    answer.map_or_else(|refusal| refusal.number(), |_| 0)
}

#[test]
fn field_in_degrees_has_16_before_all() {
    for latitude in [-90.0, 0.0, 55.5, 90.0] {
        for longitude in [-180.0, 0.0, 180.0] {
            assert_eq!(number(0.0, latitude, longitude, 1), 0);
        }
    }
    assert_eq!(number(f32::NAN, 180.5, 0.0, 0), 16);
    assert_eq!(number(f32::NAN, 0.0, f32::INFINITY, 0), 16);
    assert_eq!(number(f32::NAN, 91.0, 0.0, 0), 1);
    assert_eq!(number(0.0, 91.0, 0.0, 0), 2);
    assert_eq!(number(0.0, -180.0, 0.0, 0), 2);
    assert_eq!(number(0.0, 0.0, 180.0, 0), 4);
    // the cosine is below zero, and not below -2^-20
    assert_eq!(number(0.0, f32::from_bits(0x42b4_0001), 0.0, 1), 0);
}

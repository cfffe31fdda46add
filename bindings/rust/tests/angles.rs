//! Angles in degrees: sines and cosines, declination and inclination, and the field at a place in
//! degrees. tools/test-library runs it.
use njerumoy::{
    declination, field, field_in_degrees, published, sine_and_cosine, Day, Errors, Field, List,
    Pair, Refusal, Set,
};

const SET: Set = published::WMM2025;
const DAY: Day = day(2025, 200);
const LEAST: f32 = f32::from_bits(1);

const fn day(year: i32, day_of_year: i32) -> Day {
    Day { year, day_of_year }
}

fn no_angles() -> [f32; 7] {
    let (inf, beyond) = (f32::INFINITY, f32::from_bits(180f32.to_bits() + 1));
    [f32::NAN, inf, -inf, beyond, -beyond, 360.0, f32::MIN]
}

fn no_components() -> [f32; 5] {
    let beyond = f32::from_bits(2f32.powi(60).to_bits() + 1);
    [f32::NAN, f32::INFINITY, f32::NEG_INFINITY, beyond, -beyond]
}

fn components(x: f32, y: f32, z: f32) -> Field {
    Field {
        x,
        y,
        z,
        epoch_year: 2025,
        errors: Errors::default(),
    }
}

fn bits(x: Result<f32, Refusal>) -> Result<u32, Refusal> {
    x.map(f32::to_bits)
}

fn pair_bits(degrees: f32) -> (u32, u32) {
    let Pair { sin, cos } = sine_and_cosine(degrees).unwrap();
    (sin.to_bits(), cos.to_bits())
}

/// Every eighth of a degree.
fn round() -> impl Iterator<Item = f32> {
    (-8 * 180..=8 * 180).map(|i| i as f32 / 8.0)
}

#[test]
fn pairs_by_their_bits() {
    let rows = [
        (0.0, 0x0000_0000, 0x3f80_0000),
        (-0.0, 0x8000_0000, 0x3f80_0000),
        (90.0, 0x3f80_0000, 0x0000_0000),
        (-90.0, 0xbf80_0000, 0x0000_0000),
        (180.0, 0x0000_0000, 0xbf80_0000),
        (-180.0, 0x8000_0000, 0xbf80_0000),
        (30.0, 0x3f00_0000, 0x3f5d_b3d7),
        (-135.0, 0xbf35_04f3, 0xbf35_04f3),
        (80.0, 0x3f7c_1c5c, 0x3e31_d0d4),
        (52.2, 0x3f4a_4799, 0x3f1c_e77a),
        (1e-20, 0x1b52_ff53, 0x3f80_0000),
        (f32::MIN_POSITIVE, 0x0002_3be9, 0x3f80_0000),
        (LEAST, 0x0000_0000, 0x3f80_0000),
    ];
    for (degrees, sin, cos) in rows {
        assert_eq!(pair_bits(degrees), (sin, cos), "{degrees}");
    }
}

#[test]
fn pairs_are_near_and_on_the_circle() {
    let here = sine_and_cosine(12.5).unwrap();
    for degrees in round() {
        let pair = sine_and_cosine(degrees).unwrap();
        let (sin, cos) = f64::from(degrees).to_radians().sin_cos();
        let most = 2f64.powi(-22);
        assert!((f64::from(pair.sin) - sin).abs() <= most, "{degrees}");
        assert!((f64::from(pair.cos) - cos).abs() <= most, "{degrees}");
        assert!(field(0.0, here, pair, DAY, &SET).is_ok(), "{degrees}");
        let as_latitude = field(0.0, pair, here, DAY, &SET).err();
        let beyond = (degrees.abs() > 90.0).then_some(Refusal::Latitude);
        assert_eq!(as_latitude, beyond, "{degrees}");
    }
}

#[test]
fn angles_that_are_none() {
    for degrees in no_angles() {
        assert_eq!(sine_and_cosine(degrees), Err(Refusal::Angle), "{degrees}");
    }
    assert_eq!(Refusal::Angle.number(), 16);
    assert_eq!(
        Refusal::Angle.to_string(),
        "the angle is not finite, or not from -180 to 180 degrees"
    );
}

#[test]
fn ends_of_the_declination() {
    for size in [LEAST, f32::MIN_POSITIVE, 1.0, 54791.5, 2f32.powi(60)] {
        for zero in [0.0f32, -0.0] {
            let rows = [
                (size, zero, 0.0f32),
                (-size, zero, 180.0),
                (zero, size, 90.0),
                (zero, -size, -90.0),
                (zero, 0.0, 0.0),
                (zero, -0.0, 0.0),
                (size, size, 45.0),
                (-size, size, 135.0),
                (size, -size, -45.0),
                (-size, -size, -135.0),
            ];
            for (x, y, d) in rows {
                assert_eq!(bits(declination(x, y)), Ok(d.to_bits()), "{x:e} {y:e}");
            }
        }
    }
}

#[test]
fn declinations_are_near() {
    for degrees in round() {
        let (sin, cos) = f64::from(degrees).to_radians().sin_cos();
        for strength in [1e-20, 30000.0, 1e18] {
            let (x, y) = ((strength * cos) as f32, (strength * sin) as f32);
            let d = f64::from(declination(x, y).unwrap());
            let exact = f64::from(y).atan2(f64::from(x)).to_degrees();
            assert!((d - exact).abs() <= 2f64.powi(-15), "{x:e} {y:e}");
            let of_field = components(x, y, -7.0).declination();
            assert_eq!(bits(of_field), bits(declination(x, y)), "{x:e} {y:e}");
        }
    }
}

#[test]
fn inclinations() {
    let of = |x, y, z| components(x, y, z).inclination();
    assert_eq!(of(-3.0, 4.0, 5.0), Ok(45.0));
    assert_eq!(of(3.0, -4.0, -5.0), Ok(-45.0));
    for zero in [0.0f32, -0.0] {
        assert_eq!(bits(of(3.0, -4.0, zero)), Ok(0));
        assert_eq!(bits(of(0.0, zero, zero)), Ok(0));
        assert_eq!(of(zero, -0.0, LEAST), Ok(90.0));
        assert_eq!(of(0.0, zero, -1.0), Ok(-90.0));
    }
    for z in round() {
        let f = components(12.5, -30.0, z);
        let by_h = declination(f.h().unwrap(), z);
        assert_eq!(bits(f.inclination()), bits(by_h), "{z}");
    }
}

#[test]
fn components_that_cannot_be_used() {
    for bad in no_components() {
        assert_eq!(declination(bad, 1.0), Err(Refusal::Unusable), "{bad}");
        assert_eq!(declination(1.0, bad), Err(Refusal::Unusable), "{bad}");
        for place in 0..3 {
            let mut f = components(3.0, -4.0, 50000.0);
            *[&mut f.x, &mut f.y, &mut f.z][place] = bad;
            assert_eq!(f.declination(), Err(Refusal::Unusable), "{place} {bad}");
            assert_eq!(f.inclination(), Err(Refusal::Unusable), "{place} {bad}");
        }
    }
}

/// X, Y and Z by their bits: -0 is not 0 here.
fn to_the_bit(f: Result<Field, Refusal>) -> Result<([u32; 3], Field), Refusal> {
    f.map(|f| ([f.x, f.y, f.z].map(f32::to_bits), f))
}

#[test]
fn in_degrees_as_of_the_made_pairs() {
    for i in -24..=24 {
        for j in -8..=8 {
            let (latitude, longitude) = (i as f32 * 7.5, j as f32 * 22.5);
            let made = sine_and_cosine(latitude).and_then(|phi| {
                let lambda = sine_and_cosine(longitude)?;
                field(1234.5, phi, lambda, DAY, &SET)
            });
            let told = field_in_degrees(1234.5, latitude, longitude, DAY, &SET);
            assert_eq!(told.is_ok(), latitude.abs() <= 90.0, "{latitude}");
            assert_eq!(to_the_bit(told), to_the_bit(made), "{latitude} {longitude}");
        }
    }
}

#[test]
fn the_published_row_in_degrees() {
    let f = field_in_degrees(0.0, 80.0, 0.0, day(2025, 1), &SET).unwrap();
    let printed = [f.x, f.y, f.z].map(|x| format!("{x:.1}"));
    assert_eq!(printed, ["6521.6", "145.9", "54791.5"]);
    let printed = [f.declination(), f.inclination()].map(|d| format!("{:.2}", d.unwrap()));
    assert_eq!(printed, ["1.28", "83.21"]);
}

fn refused(latitude: f32, longitude: f32, height: f32, on: Day, set: &Set) -> Refusal {
    field_in_degrees(height, latitude, longitude, on, set).unwrap_err()
}

/// From the last refusal to the first, here and below: each hides those after it.
#[test]
fn refusals_of_the_set() {
    let mut rates = SET.h_dot.to_vec();
    rates[89] = -4097.0;
    let other = published::WMM2020;
    let over_cap = Set {
        h_dot: &rates,
        ..other
    };
    let short = Set {
        g_dot: &SET.g_dot[..89],
        ..over_cap
    };
    let years = Refusal::OtherEpoch {
        of_day: 2025,
        of_set: 2020,
    };
    let entry = Refusal::Coefficient {
        list: List::HDot,
        index: 89,
    };
    assert_eq!(refused(80.0, 0.0, 0.0, DAY, &other), years);
    assert_eq!(refused(80.0, 0.0, 0.0, DAY, &over_cap), entry);
    assert_eq!(refused(80.0, 0.0, 0.0, DAY, &short), Refusal::Length);
}

#[test]
fn refusals_of_the_day_and_the_place() {
    let set = Set {
        epoch_year: 2021,
        g: &[],
        ..SET
    };
    let no_day = day(2025, 366);
    assert_eq!(refused(80.0, 0.0, 0.0, DAY, &set).number(), 5);
    assert_eq!(refused(80.0, 0.0, 0.0, no_day, &set), Refusal::DayOfYear);
    assert_eq!(refused(-91.0, 0.0, 0.0, no_day, &set), Refusal::Latitude);
    assert_eq!(refused(-91.0, 0.0, -1001.0, no_day, &set).number(), 1);
    for bad in no_angles() {
        for (latitude, longitude) in [(-91.0, bad), (bad, 0.0), (bad, bad)] {
            let refusal = refused(latitude, longitude, -1001.0, no_day, &set);
            assert_eq!(refusal, Refusal::Angle, "{latitude} {longitude}");
        }
    }
}

//! Yearly rates: by hand, where H is zero or next to it, beside double precision, and beside the
//! differences of the published test values.
use super::double::There;
use super::set_of;
use crate::entries::{components as components_of, Place, Refusal, Set};
use crate::models::{model_by_epoch_year, years_since_epoch};
use crate::published::{lent, parse_row};
use crate::rates::{rates, FieldAndRates};
use crate::tables::coeff_index;

type Pair = (f32, f32);

/// The smallest f32.
const SMALLEST: f32 = f32::from_bits(1);
/// The first of 2020: the offset is zero.
const FIRST: (i32, i32) = (2020, 1);
const EQUATOR: Pair = (0.0, 1.0);
const NORTH: Pair = (1.0, 0.0);
const SOUTH: Pair = (-1.0, 0.0);
const NULL: Pair = (0.0, 1.0);
const EAST: Pair = (1.0, 0.0);

fn place((sin_phi, cos_phi): Pair, (sin_lambda, cos_lambda): Pair, day: (i32, i32)) -> Place {
    Place {
        height: 0.0,
        sin_phi,
        cos_phi,
        sin_lambda,
        cos_lambda,
        year: day.0,
        day: day.1,
    }
}

/// The indices of degree 1: of order 0 and of order 1.
fn first_degree() -> [usize; 2] {
    [coeff_index(1, 0), coeff_index(1, 1)]
}

#[test]
fn a_degree_is_one_product() {
    let factor = f32::from_bits(0x4265_2ee1);
    assert_eq!(factor, 57.29578);
    assert_eq!(1.0_f32.to_degrees().to_bits(), factor.to_bits());
    for bits in (0..0x7f00_0000_u32).step_by(65521) {
        let x = f32::from_bits(bits);
        assert_eq!(x.to_degrees().to_bits(), (x * factor).to_bits());
        assert_eq!((-x).to_degrees().to_bits(), (-x * factor).to_bits());
    }
}

/// X, Y, Z and their rates, and what is worked out of them: declination, inclination, H and F. All by
/// their bits, as exact fractions that were rounded at each step, apart from this program. Of 17 other
/// ways to write the formulas (a step fused, x * x + y * y for h * h, two divisions by h, degrees by pi,
/// F by the rate of H) each gives other bits in one of the first two rows.
const WORKED_OUT: [([u32; 6], [u32; 4]); 4] = [
    (
        [
            0xc59d_2984,
            0xc592_2b93,
            0x4715_2f4d,
            0x4228_9619,
            0xc1f5_7b0c,
            0xc20c_0431,
        ],
        [0x3eda_91e8, 0x3bae_b9f5, 0xc11f_6d47, 0xc210_dc37],
    ),
    (
        [
            0xc68d_2427,
            0x4548_acb2,
            0xc6bb_9f19,
            0xc22f_bcba,
            0x420b_db77,
            0x428c_82ee,
        ],
        [0xbdaa_fb69, 0x3e1e_f6dd, 0x4245_7f9d, 0xc1ce_cb49],
    ),
    // sizes about 2^-75, with and without a large Z
    (
        [
            0x1a8c_cccd,
            0x9a26_6666,
            0x1a19_999a,
            0x457a_0000,
            0xc4fa_0000,
            0x40e0_0000,
        ],
        [0x6b6e_bb7f, 0xec9b_c3a4, 0x4591_703e, 0x457c_17a9],
    ),
    (
        [
            0x1a8c_cccd,
            0x9a26_6666,
            0xc743_5000,
            0x457a_0000,
            0xc4fa_0000,
            0x40e0_0000,
        ],
        [0x6b6e_bb7f, 0x40aa_a8f8, 0x4591_703e, 0xc0e0_0000],
    ),
];

#[test]
fn formulas_by_their_bits() {
    for (components, expected) in WORKED_OUT {
        let [x, y, z, x_rate, y_rate, z_rate] = components.map(f32::from_bits);
        let found = FieldAndRates {
            field: components_of([x, y, z]),
            x_rate,
            y_rate,
            z_rate,
        };
        let seven = found.all().unwrap().map(f32::to_bits);
        assert_eq!(seven[..3], components[3..]);
        assert_eq!(seven[3..], expected);
    }
}

/// On the equator g_1^0 makes X alone, h_1^1 at longitude 0 Y alone, g_1^1 Z alone, twice as large.
#[test]
fn a_thousandth_of_a_radian() {
    let [axis, east] = first_degree();
    let set = set_of(&[
        (0, axis, -30000.0),
        (3, east, -30.0),
        (2, east, 15.0),
        (2, axis, -60.0),
    ]);
    let there = place(EQUATOR, NULL, FIRST);
    let field = there.field(&set).unwrap();
    assert_eq!((field.y, field.z), (0.0, 0.0));
    let [x, y, z, declination, inclination, h, f] = rates(&there, &set).unwrap();
    // the field falls with the third power of the distance
    let scale = field.x / 30000.0;
    assert!((scale - 0.99674).abs() < 1e-5, "{scale}");
    let near = |x: f32, expected: f32| (x - expected).abs() <= expected.abs() * 1e-6;
    assert!(near(y, 30.0 * scale) && near(z, -30.0 * scale));
    assert!(near(x, 60.0 * scale) && near(h, 60.0 * scale) && near(f, 60.0 * scale));
    assert!(near(declination, 0.001_f32.to_degrees()));
    assert!(near(inclination, -0.001_f32.to_degrees()));
}

/// A field that grows by a part of itself: strengths by that part, and no angle.
#[test]
fn growing() {
    let mut set = Set::of(model_by_epoch_year(2020).unwrap());
    for list in 0..2 {
        set.lists[list + 2] = set.lists[list].iter().map(|x| x / 128.0).collect();
    }
    for latitude in [(0.6, 0.8), (-0.8, 0.6), EQUATOR, NORTH, SOUTH] {
        let there = place(latitude, (0.28, -0.96), FIRST);
        let field = there.field(&set).unwrap();
        let [x, y, z, declination, inclination, h, f] = rates(&there, &set).unwrap();
        assert_eq!([x, y, z], [field.x, field.y, field.z].map(|x| x / 128.0));
        assert_eq!(declination, 0.0);
        assert!(inclination.abs() < 1e-6, "{inclination}");
        assert!((h * 128.0 / field.h() - 1.0).abs() < 3e-7);
        assert!((f * 128.0 / field.f() - 1.0).abs() < 3e-7);
    }
}

#[test]
fn component_rates_are_a_field_of_the_rates() {
    for (epoch_year, sin_phi) in [(2020, 0.6), (2025, -0.28), (2020, 0.99999994), (2025, -1.0)] {
        let set = Set::of(model_by_epoch_year(epoch_year).unwrap());
        let [_, _, g_dot, h_dot] = set.lists.clone();
        let as_main = Set {
            epoch_year,
            lists: [g_dot, h_dot, vec![0.0; 90], vec![0.0; 90]],
        };
        let cos_phi = (1.0_f64 - f64::from(sin_phi) * f64::from(sin_phi)).sqrt() as f32;
        let latitude = (sin_phi, cos_phi);
        let found = rates(&place(latitude, (0.8, -0.6), (epoch_year + 3, 77)), &set).unwrap();
        let expected = place(latitude, (0.8, -0.6), (epoch_year, 1))
            .field(&as_main)
            .unwrap();
        let expected = [expected.x, expected.y, expected.z].map(f32::to_bits);
        assert_eq!([found[0], found[1], found[2]].map(f32::to_bits), expected);
    }
}

#[test]
fn no_field() {
    let [axis, east] = first_degree();
    let still = set_of(&[]);
    let changing = set_of(&[(2, axis, 4096.0), (3, east, -4096.0)]);
    for set in [&still, &changing] {
        for latitude in [(0.6, 0.8), EQUATOR, NORTH, SOUTH] {
            let found = rates(&place(latitude, (0.6, 0.8), FIRST), set);
            assert_eq!(found, Err(Refusal::ZeroDivisor));
        }
    }
    let later = place(EQUATOR, NULL, (2020, 2));
    assert_eq!(rates(&later, &still), Err(Refusal::ZeroDivisor));
    assert!(rates(&later, &changing).is_ok());
    // what the rates add by the day takes all of the main field away
    let (year, day) = (2023, 201);
    let offset = years_since_epoch(year, day, 2020);
    let gone = set_of(&[(0, axis, -offset * 4096.0), (2, axis, 4096.0)]);
    let found = rates(&place(EQUATOR, NULL, (year, day)), &gone);
    assert_eq!(found, Err(Refusal::ZeroDivisor));
    assert!(rates(&place(EQUATOR, NULL, (year, day - 1)), &gone).is_ok());
}

/// H is zero, and Z is not.
#[test]
fn no_horizontal_field() {
    let [axis, east] = first_degree();
    let upright = set_of(&[(0, axis, -30000.0), (2, east, 1.0)]);
    for sin_phi in [1.0, -1.0] {
        for cos_phi in [0.0, -0.0] {
            let there = place((sin_phi, cos_phi), NULL, FIRST);
            assert_eq!(there.field(&upright).unwrap().h(), 0.0);
            assert!(there.field(&upright).unwrap().f() > 59000.0);
            assert_eq!(rates(&there, &upright), Err(Refusal::ZeroDivisor));
        }
        // the f32 cosine of 90 degrees, and the smallest one
        for cos_phi in [f32::from_bits(0xb33b_bd2e), 1e-20] {
            assert!(rates(&place((sin_phi, cos_phi), NULL, FIRST), &upright).is_ok());
        }
    }
    // on the equator, on the general path
    let lying = set_of(&[(0, east, 1000.0)]);
    let there = place(EQUATOR, NULL, FIRST);
    assert!(there.field(&lying).unwrap().z < -1990.0);
    assert_eq!(rates(&there, &lying), Err(Refusal::ZeroDivisor));
    assert!(rates(&place(EQUATOR, EAST, FIRST), &lying).is_ok());
}

/// The smallest H is the root of the smallest f32: below it the square of Y rounds to zero.
#[test]
fn next_to_no_horizontal_field() {
    let [axis, east] = first_degree();
    let there = place(EQUATOR, NULL, FIRST);
    let set = |h_1_1: u32| set_of(&[(1, east, f32::from_bits(h_1_1)), (2, axis, -4096.0)]);
    let is_refused = |h_1_1: u32| rates(&there, &set(h_1_1)) == Err(Refusal::ZeroDivisor);
    // from 2^-75 and 2^-74 on to two that are next to each other
    let [mut below, mut above] = [0x1a00_0000, 0x1a80_0000];
    assert!(is_refused(below) && !is_refused(above));
    while above - below > 1 {
        let middle = (below + above) / 2;
        *(if is_refused(middle) {
            &mut below
        } else {
            &mut above
        }) = middle;
    }
    let refused = there.field(&set(below)).unwrap();
    assert!(refused.y < 0.0 && refused.y * refused.y == 0.0 && refused.h() == 0.0);
    let set = set(above);
    let field = there.field(&set).unwrap();
    assert_eq!((field.x, field.y * field.y, field.z), (0.0, SMALLEST, 0.0));
    assert_eq!((field.h(), field.f()), (SMALLEST.sqrt(), SMALLEST.sqrt()));
    let [x, y, z, declination, inclination, h, f] = rates(&there, &set).unwrap();
    assert!(x > 4082.0 && y == 0.0 && z == 0.0);
    assert_eq!([inclination, h, f], [0.0; 3]);
    // about 2^-75 times 2^12, by 2^-149, in degrees
    let expected = f64::from(field.y) * f64::from(x) / -f64::from(SMALLEST);
    let expected = expected.to_degrees();
    assert!(declination > 4e27 && (f64::from(declination) / expected - 1.0).abs() < 3e-7);
}

/// A grid of places, no pole among them, on a day of either epoch and on the first of one. Rates of angles
/// are compared as what they move H and F by.
#[test]
fn beside_double_precision() {
    let pair = |degrees: f64| {
        let (sin, cos) = degrees.to_radians().sin_cos();
        (sin as f32, cos as f32)
    };
    for (epoch_year, year, day) in [(2020, 2020, 1), (2020, 2023, 300), (2025, 2027, 60)] {
        let set = Set::of(model_by_epoch_year(epoch_year).unwrap());
        let offset = f64::from(years_since_epoch(year, day, epoch_year));
        for at in 0..11 * 13 {
            let there = There {
                height: f64::from(at % 3) * 400_000.0,
                latitude_deg: f64::from(at / 13 - 5) * 17.0,
                longitude_deg: f64::from(at % 13) * 27.0 - 170.0,
            };
            let (latitude, longitude) = (pair(there.latitude_deg), pair(there.longitude_deg));
            let lent = Place {
                height: there.height as f32,
                ..place(latitude, longitude, (year, day))
            };
            let field = lent.field(&set).unwrap();
            let arc = |strength: f32| f64::from(strength).to_radians();
            let scales = [1.0, 1.0, 1.0, arc(field.h()), arc(field.f()), 1.0, 1.0];
            let (found, expected) = (rates(&lent, &set).unwrap(), there.rates(&set, offset));
            for (i, scale) in scales.into_iter().enumerate() {
                let difference = scale * (f64::from(found[i]) - expected[i]).abs();
                assert!(difference < 4e-4, "{there:?} {i}: {difference} nT a year");
            }
        }
    }
}

/// No rates were published with the values that could be had. But rows of one place two and a half years
/// apart differ by the rates of those years.
#[test]
fn beside_the_published_values() {
    let text = include_str!("../../test-values.txt");
    let rows: Vec<_> = text.lines().filter_map(parse_row).collect();
    let mut compared = 0;
    for first in &rows {
        let is_later = |row: &&crate::published::Row| {
            row.date == first.date + 2.5 && lent(row) == lent(first) && row.model == first.model
        };
        let Some(second) = rows.iter().find(is_later) else {
            continue;
        };
        let [height, sin_phi, cos_phi, sin_lambda, cos_lambda] = lent(first);
        // a year and a quarter after the first
        let day = (first.date as i32 + 1, 92);
        let there = Place {
            height,
            ..place((sin_phi, cos_phi), (sin_lambda, cos_lambda), day)
        };
        let set = Set::of(model_by_epoch_year(first.model).unwrap());
        let [x, y, z, declination, inclination, h, f] = rates(&there, &set).unwrap();
        let ours = [declination, inclination, h, x, y, z, f];
        for (i, ours) in ours.into_iter().enumerate() {
            let listed = (second.listed[i] - first.listed[i]) / 2.5;
            // two listed values, each rounded to 0.01 degrees or 0.1 nT
            let rounded = if i < 2 { 0.01 } else { 0.1 } / 2.5;
            let difference = (f64::from(ours) - listed).abs();
            assert!(difference < 1.05 * rounded, "{i}: {ours} and {listed}");
        }
        compared += 1;
    }
    assert_eq!(compared, 6);
}

//! P1 to P12 of document 01, the constants by their bits, and the root.
use super::set_of;
use crate::entries::{epoch, field, horizontal, sum, uncertainty, zone, Refusal, Set};
use crate::field::*;
use crate::models::{error_model_by_epoch_year, model_by_epoch_year, WMM_ERROR_MODELS};
use crate::roots::differs;
use crate::synthesis::coeff_at_t;
use crate::tables::*;

fn sum_bits(cos_theta: f32, sin_theta: f32, set: &Set) -> [u32; 3] {
    let (x, y, z) = sum(cos_theta, sin_theta, 0.0, 1.0, 1.0, 0.0, &set.lists).unwrap();
    [x, y, z].map(f32::to_bits)
}

fn record(x: f32, y: f32, z: f32) -> GeomagneticField {
    let error_model = WMM_ERROR_MODELS[0];
    GeomagneticField {
        x,
        y,
        z,
        error_model,
    }
}

const OUTSIDE: Refusal = Refusal::EpochYear {
    first: (2020, 1),
    last: (2029, 365),
};

#[test]
fn p1_to_p3_sum() {
    let axis = set_of(&[(0, coeff_index(1, 0), -30000.0)]);
    let east = set_of(&[(1, coeff_index(1, 1), 4500.0)]);
    // every zero is +0
    assert_eq!(sum_bits(0.0, 1.0, &axis), [(-30000.0f32).to_bits(), 0, 0]);
    assert_eq!(sum_bits(1.0, 0.0, &axis), [0, 0, (-60000.0f32).to_bits()]);
    assert_eq!(sum_bits(0.0, 1.0, &east), [0, (-4500.0f32).to_bits(), 0]);
}

#[test]
fn p4_coefficient_at_a_date() {
    assert_eq!(coeff_at_t(100.0, 10.0, 4.5), 145.0);
}

#[test]
fn p5_to_p7_epoch() {
    assert_eq!(epoch(2024, 184), Ok((2020, 4.5)));
    assert_eq!(epoch(2019, 365), Err(OUTSIDE));
    assert_eq!(epoch(2030, 1), Err(OUTSIDE));
    assert_eq!(epoch(2020, 1), Ok((2020, 0.0)));
    assert_eq!(epoch(2029, 365).map(|found| found.0), Ok(2025));
    assert_eq!(epoch(2025, 366), Err(Refusal::DayOfYear));
    assert_eq!(epoch(2024, 366).map(|found| found.0), Ok(2020));
}

#[test]
fn p8_zone() {
    let seen = |x, y| {
        let field = record(x, y, 0.0);
        (horizontal(&field).unwrap(), zone(&field).unwrap())
    };
    assert_eq!(
        seen(1200.0, 1600.0),
        (2000.0, Some(WarningZone::CautionZone))
    );
    assert_eq!(seen(3600.0, 4800.0), (6000.0, None));
    assert_eq!(seen(0.0, 1999.0), (1999.0, Some(WarningZone::BlackoutZone)));
}

#[test]
fn p9_uncertainty_without_h() {
    for year in [2020, 2025] {
        assert_eq!(uncertainty(&record(0.0, 0.0, 50000.0), year), Ok(180.0));
        assert_eq!(uncertainty(&record(0.0, 1e-40, 0.0), year), Ok(180.0));
    }
}

#[test]
fn p10_wrap() {
    assert_eq!(
        [190.0, -190.0, 180.0, -180.0].map(wrap_to_180),
        [-170.0, 170.0, 180.0, -180.0]
    );
    // the last answer by Wish 5 of document 02
    assert_eq!(
        [190.0, -190.0, 180.0, -180.0].map(|deg| one_south(wrap_to_180(deg))),
        [-170.0, 170.0, 180.0, 180.0]
    );
}

#[test]
fn p11_set_of_another_epoch() {
    let set = Set::of(model_by_epoch_year(2020).unwrap());
    assert_eq!(
        field(0.0, 0.0, 1.0, 0.0, 1.0, 2025, 1, &set),
        Err(Refusal::OtherEpoch {
            of_day: 2025,
            of_set: 2020
        })
    );
}

#[test]
fn p12_table() {
    assert_eq!(
        SCHMIDT_SEMI_NORM[legendre_index(12, 12)].to_bits(),
        0x3f11593d
    );
}

#[test]
fn k_is_the_nearest() {
    for n in 0..=N_MAX {
        for m in 0..=n {
            let k = LEGENDRE_K[legendre_index(n, m)];
            if n >= 2 && m <= n - 2 {
                let (n, m) = (n as f64, m as f64);
                let exact = ((n - 1.0) * (n - 1.0) - m * m) / ((2.0 * n - 1.0) * (2.0 * n - 3.0));
                assert_eq!(k, exact as f32);
            } else {
                assert_eq!(k.to_bits(), 0);
            }
        }
    }
}

/// The division that the library makes, from n - 1 and m; `square` is (n - 1)^2.
fn divided(square: f32, order: f32) -> (f32, f32) {
    let top = square - order * order;
    let under = if 0.0 < square {
        4.0 * square - 1.0
    } else {
        1.0
    };
    (if 0.0 < top { top } else { 0.0 }, under)
}

#[test]
fn k_is_one_division() {
    for n in 1..=N_MAX {
        for m in 0..=n {
            let below = (n - 1) as f32;
            let (top, under) = divided(below * below, m as f32);
            let stored = LEGENDRE_K[legendre_index(n, m)];
            assert_eq!((top / under).to_bits(), stored.to_bits(), "{n} {m}");
        }
    }
}

/// What the wrong versions of that division would give.
#[test]
fn wrong_divisions_differ() {
    let first = LEGENDRE_K[legendre_index(2, 0)];
    let (top, under) = divided(1.0 * 2.0, 0.0);
    assert_eq!(top / under, 2.0 / 7.0);
    assert_ne!(top / under, first);
    let (top, under) = divided(1.0, 0.0);
    assert_eq!(under / top, 3.0);
    assert_ne!(under / top, first);
    assert_ne!(1.0 / (3.0 * 1.0 - 1.0), first);
    let (top, under) = divided(1.0, 1.0);
    let zero = LEGENDRE_K[legendre_index(2, 1)];
    assert_eq!((top / under).to_bits(), zero.to_bits());
    assert_ne!((-0.0f32 / under).to_bits(), zero.to_bits());
}

#[test]
fn constants_by_their_bits() {
    let found = [
        WGS84_A,
        WGS84_F,
        2.0 - WGS84_F,
        WGS84_E2,
        1.0 - WGS84_E2,
        WMM_A,
        NEAR_POLE_SIN_THETA_MIN,
        MIN_HEIGHT_M,
        MAX_HEIGHT_M,
    ];
    let bits = [
        0x4ac2a532, 0x3b5bbad4, 0x3fff9223, 0x3bdb5c88, 0x3f7e4947, 0x4ac26f00, 0x3a83126f,
        0xc47a0000, 0x494f8500,
    ];
    assert_eq!(found.map(f32::to_bits), bits);
    let figures = |year| {
        let record = error_model_by_epoch_year(year).unwrap();
        [
            record.declination_sigma_c,
            record.declination_sigma_v,
            record.inclination_uncertainty,
            record.f_uncertainty,
            record.h_uncertainty,
            record.x_uncertainty,
            record.y_uncertainty,
            record.z_uncertainty,
        ]
    };
    let of_2020 = [0.26, 5625.0, 0.21, 145.0, 128.0, 131.0, 94.0, 157.0];
    let of_2025 = [0.26, 5417.0, 0.20, 138.0, 133.0, 137.0, 89.0, 141.0];
    assert_eq!(figures(2020), of_2020);
    assert_eq!(figures(2025), of_2025);
}

#[test]
fn near_pole_limit_is_strict() {
    // order 2 counts on the general path alone
    let set = set_of(&[(0, coeff_index(2, 2), 2000.0)]);
    let below = f32::from_bits(0x3a83126e);
    for sign in [1.0, -1.0] {
        assert_eq!(sum_bits(1.0, sign * below, &set), [0, 0, 0]);
        assert_ne!(sum_bits(1.0, sign * 1e-3, &set)[0], 0);
    }
}

#[test]
fn root_of_many_patterns() {
    for bits in (0..1u32 << 31).step_by(65521) {
        assert!(!differs(bits), "{bits:08x}");
    }
    for bits in [0, 1, 0x7fffff, 0x800000, 0x7f7fffff, 0x7f800000, 0x7f800001] {
        assert!(!differs(bits), "{bits:08x}");
    }
}

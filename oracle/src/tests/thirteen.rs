//! Degree 13: the new factors over whole numbers, single coefficients by hand, fields beside double
//! precision, and beside degree 12 where the new entries are zero.
use super::double::There;
use crate::cases::Rng;
use crate::entries::{sum, Place, Set, CAPS};
use crate::models::{model_by_epoch_year, years_since_epoch};
use crate::rates::rates;
use crate::tables::*;

/// A normal f32 above zero as digits * 2^-places.
fn parts(x: f32) -> (u128, u32) {
    let digits = x.to_bits() % (1 << 23) + (1 << 23);
    (digits.into(), 150 - (x.to_bits() >> 23))
}

fn gcd(a: u128, b: u128) -> u128 {
    if b == 0 {
        a
    } else {
        gcd(b, a % b)
    }
}

/// The square of Schmidt's factor: (2n - 1)!!^2 over (n + m)! (n - m)!, twice that where m is not 0.
fn schmidt_squared(n: u128, m: u128) -> (u128, u128) {
    let odd: u128 = (1..=n).map(|i| 2 * i - 1).product();
    let factorial = |k: u128| -> u128 { (1..=k).product() };
    let over = odd * odd * if m == 0 { 1 } else { 2 };
    let under = factorial(n + m) * factorial(n - m);
    let common = gcd(over, under);
    (over / common, under / common)
}

/// The root lies between the middles to the f32 below and above.
#[test]
fn new_schmidt_factors_are_the_nearest() {
    for m in 0..=N_MAX {
        let (over, under) = schmidt_squared(13, m as u128);
        let (digits, places) = parts(SCHMIDT_SEMI_NORM[legendre_index(N_MAX, m)]);
        let [below, above] = [2 * digits - 1, 2 * digits + 1].map(|twice| twice * twice * under);
        let squared = over << (2 * (places + 1));
        assert!(below < squared && squared < above, "order {m}");
    }
}

#[test]
fn all_k_are_the_nearest() {
    for n in 2..=N_MAX {
        for m in 0..=n - 2 {
            let over = ((n - 1) * (n - 1) - m * m) as u128;
            let under = ((2 * n - 1) * (2 * n - 3)) as u128;
            let (digits, places) = parts(LEGENDRE_K[legendre_index(n, m)]);
            let twice = over << (places + 1);
            let [below, above] = [2 * digits - 1, 2 * digits + 1].map(|twice| twice * under);
            assert!(below < twice && twice < above, "{n} {m}");
        }
    }
    for m in [N_MAX - 1, N_MAX] {
        assert_eq!(LEGENDRE_K[legendre_index(N_MAX, m)].to_bits(), 0);
    }
}

/// A set of 2020 with lists of 104, each entry made by `entry(list, index)`.
fn longer(mut entry: impl FnMut(usize, usize) -> f32) -> Set {
    let mut list = |list| (0..N_COEFF_MAX).map(|i| entry(list, i)).collect();
    Set {
        epoch_year: 2020,
        lists: [list(0), list(1), list(2), list(3)],
    }
}

/// The same with one entry that is not zero, of degree 13.
fn alone(list: usize, order: usize, value: f32) -> Set {
    let at = (list, coeff_index(N_MAX, order));
    longer(|list, index| if (list, index) == at { value } else { 0.0 })
}

#[test]
fn single_coefficients() {
    let near = |x: f32, expected: f64| (f64::from(x) - expected).abs() < 1e-5 * expected.abs();
    // at a pole a function of order 0 is 1, or -1 in the south
    for cos_theta in [1.0, -1.0] {
        let lists = alone(0, 0, 1000.0).lists;
        let (x, y, z) = sum(cos_theta, 0.0, 0.6, 0.8, 1.0, 0.0, &lists).unwrap();
        assert_eq!((x, y), (0.0, 0.0));
        assert!(near(z, 14000.0 * f64::from(cos_theta)), "{z}");
    }
    // on the equator one of order 13 is its factor
    let (over, under) = schmidt_squared(13, 13);
    let factor = (over as f64 / under as f64).sqrt();
    let equator =
        |list, sin, cos| sum(0.0, 1.0, sin, cos, 1.0, 2.5, &alone(list, 13, 1000.0).lists).unwrap();
    let (x, y, z) = equator(0, 0.0, 1.0);
    assert!(x == 0.0 && y == 0.0 && near(z, 14000.0 * factor), "{z}");
    let (_, y, _) = equator(1, 0.0, 1.0);
    assert!(near(y, -13000.0 * factor), "{y}");
    let (_, y, _) = equator(3, 0.0, 1.0);
    assert!(near(y, -2.5 * 13000.0 * factor), "{y}");
    // a thirteenth of a half turn on, the sign has changed
    let (sin, cos) = (std::f64::consts::PI / 13.0).sin_cos();
    let (_, _, z) = equator(0, sin as f32, cos as f32);
    assert!(near(z, -14000.0 * factor), "{z}");
}

/// A grid of places, no pole among them, in both forms.
pub fn places(year: i32, day: i32) -> Vec<(There, Place)> {
    let pair = |degrees: f64| {
        let (sin, cos) = degrees.to_radians().sin_cos();
        (sin as f32, cos as f32)
    };
    let place = |at: i32| {
        let there = There {
            height: f64::from(at % 3) * 400_000.0,
            latitude_deg: f64::from(at / 13 - 5) * 17.0,
            longitude_deg: f64::from(at % 13) * 27.0 - 170.0,
        };
        let (sin_phi, cos_phi) = pair(there.latitude_deg);
        let (sin_lambda, cos_lambda) = pair(there.longitude_deg);
        let lent = Place {
            height: there.height as f32,
            sin_phi,
            cos_phi,
            sin_lambda,
            cos_lambda,
            year,
            day,
        };
        (there, lent)
    };
    (0..11 * 13).map(place).collect()
}

/// The largest difference of X, Y and Z from double precision, and of their rates.
fn beside_double_precision(set: &Set) -> (f64, f64) {
    let mut largest = (0.0, 0.0);
    let (year, day) = (2023, 300);
    let offset = f64::from(years_since_epoch(year, day, set.epoch_year));
    for (there, lent) in places(year, day) {
        let field = lent.field(set).unwrap();
        let found = [field.x, field.y, field.z];
        for (found, expected) in found.into_iter().zip(there.xyz(set, offset)) {
            largest.0 = f64::max(largest.0, (f64::from(found) - expected).abs());
        }
        let found = rates(&lent, set).unwrap();
        for (found, expected) in found.into_iter().zip(there.rates(set, offset)).take(3) {
            largest.1 = f64::max(largest.1, (f64::from(found) - expected).abs());
        }
    }
    largest
}

/// The published set of 2020 with lists of 104; each new entry is made by `entry(list)`.
fn published(mut entry: impl FnMut(usize) -> f32) -> Set {
    let set = Set::of(model_by_epoch_year(2020).unwrap());
    longer(|list, index| match set.lists[list].get(index) {
        Some(x) => *x,
        None => entry(list),
    })
}

#[test]
fn fields_of_degree_13() {
    let mut rng = Rng::new(13);
    let mut new_entry = |list: usize, size: f64| {
        let entry = rng.between(-size, size) as f32;
        entry / if list < 2 { 1.0 } else { 16.0 }
    };
    let sets = [
        // new entries of the size that they have on Earth, and a hundred times that
        (published(|list| new_entry(list, 1.0)), 0.04),
        (published(|list| new_entry(list, 100.0)), 0.04),
        // nothing but the new degree
        (
            longer(|list, index| match index {
                N_COEFF.. => new_entry(list, 100.0),
                _ => 0.0,
            }),
            0.008,
        ),
    ];
    for (set, allowed) in &sets {
        let (field, rate) = beside_double_precision(set);
        assert!(field < *allowed && rate < 6e-4, "{field}, {rate}");
    }
}

/// A sine and a cosine of a colatitude, one in three of the near-pole path.
fn colatitude(rng: &mut Rng) -> (f32, f32) {
    let end = if rng.once_in(3) { 1e-3 } else { 3.0 };
    let (sin, cos) = rng.between(0.0, end).sin_cos();
    (sin as f32, cos as f32)
}

/// With zeros for the new entries all is as in degree 12, but for the sign of a zero.
#[test]
fn zeros_are_degree_12() {
    let mut rng = Rng::new(7);
    for (at, (_, place)) in places(2022, 7).into_iter().cycle().take(2000).enumerate() {
        let mut set = Set::of(model_by_epoch_year(2020).unwrap());
        if at % 2 == 0 {
            for (list, cap) in set.lists.iter_mut().zip(CAPS) {
                list.fill_with(|| cap * rng.between(-1.0, 1.0) as f32);
            }
        }
        let mut with_zeros = set.clone();
        for list in &mut with_zeros.lists {
            list.resize_with(N_COEFF_MAX, || rng.sign() * 0.0);
        }
        let (sin_theta, cos_theta) = colatitude(&mut rng);
        let [s, c] = [place.sin_lambda, place.cos_lambda];
        let sum_of = |set: &Set| sum(cos_theta, sin_theta, s, c, 0.9375, 1.5, &set.lists);
        assert!(sum_of(&set).is_ok() && place.field(&set).is_ok());
        assert_eq!(sum_of(&set), sum_of(&with_zeros));
        assert_eq!(place.field(&set), place.field(&with_zeros));
        assert_eq!(rates(&place, &set), rates(&place, &with_zeros));
    }
}

//! The yearly rates: by hand, beside `field`, where there are none, and in which order they are refused.
//! tools/test-library runs it.
use njerumoy::{
    field, published, rates, sine_and_cosine, Day, Field, List, Pair, Rates, Refusal, Set,
    LIST_LENGTH,
};

const LATITUDE: Pair = Pair { sin: 0.6, cos: 0.8 };
const LONGITUDE: Pair = Pair {
    sin: -0.8,
    cos: 0.6,
};
const OFF_CIRCLE: Pair = Pair { sin: 0.5, cos: 0.5 };
const ZERO: Pair = Pair { sin: 0.0, cos: 1.0 };
const SET: Set = published::WMM2025;
const NONE: [f32; LIST_LENGTH] = [0.0; LIST_LENGTH];
/// A set without a field.
const NIL: Set = Set {
    epoch_year: 2025,
    g: &NONE,
    h: &NONE,
    g_dot: &NONE,
    h_dot: &NONE,
};

fn day(year: i32, day_of_year: i32) -> Day {
    Day { year, day_of_year }
}

/// The coefficients of degree 1, orders 0 and 1.
fn degree_1(order_0: f32, order_1: f32) -> [f32; LIST_LENGTH] {
    let mut list = NONE;
    list[..2].copy_from_slice(&[order_0, order_1]);
    list
}

fn all(r: &Rates) -> [f32; 7] {
    [r.x, r.y, r.z, r.declination, r.inclination, r.h, r.f]
}

/// Those of X, Y and Z by their bits: -0 is not 0 here.
fn components(r: &Rates) -> [u32; 3] {
    [r.x, r.y, r.z].map(f32::to_bits)
}

fn near(told: f32, exact: f64, most: f64) -> bool {
    (f64::from(told) - exact).abs() <= most
}

/// Degree 1 alone, at the equator and longitude 0. There each coefficient is one component: with k the
/// cube of the radius ratio X is -g_1^0 k, Y is -h_1^1 k and Z is -2 g_1^1 k. The field is
/// (30000, 40000, 120000) k, so that H is 50000 k and F is 130000 k; its rates are (50, 100, 52) k.
#[test]
fn by_hand() {
    let set = Set {
        g: &degree_1(-30000.0, -60000.0),
        h: &degree_1(0.0, -40000.0),
        g_dot: &degree_1(-50.0, -26.0),
        h_dot: &degree_1(0.0, -100.0),
        ..NIL
    };
    for height in [-1000.0, 0.0, 850000.0] {
        let told = rates(height, ZERO, ZERO, day(2025, 1), &set).unwrap();
        let k = (6371200.0 / (6378137.0 + f64::from(height))).powi(3);
        let rows = [
            (told.x, 50.0 * k),
            (told.y, 100.0 * k),
            (told.z, 52.0 * k),
            (told.declination, (1000.0 / 2.5e6f64).to_degrees()),
            (told.inclination, (-10600.0 / 1.69e7f64).to_degrees()),
            (told.h, 110.0 * k),
            (told.f, 11740.0 / 130.0 * k),
        ];
        for (rate, exact) in rows {
            assert!(near(rate, exact, 1e-6 * exact.abs()), "{rate} {exact}");
        }
    }
}

/// To the bit, and whatever the day: the field of a set whose coefficients are the rates, on the first
/// day of its epoch.
fn assert_as_of_rates(told: &Rates, height: f32, latitude: Pair, longitude: Pair) {
    let of_rates = Set {
        g: SET.g_dot,
        h: SET.h_dot,
        ..SET
    };
    let f = field(height, latitude, longitude, day(2025, 1), &of_rates).unwrap();
    assert_eq!(components(told), [f.x, f.y, f.z].map(f32::to_bits));
}

/// To the bit, from the field of the day: as the Rust crate world_magnetic_model works them out.
fn assert_as_of_field(told: &Rates, field: &Field) {
    let (x, y, z) = (field.x, field.y, field.z);
    let (h, f) = (field.h().unwrap(), field.f().unwrap());
    let h_rate = (x * told.x + y * told.y) / h;
    let by_field = [
        ((told.y * x - y * told.x) / (h * h)).to_degrees(),
        ((told.z * h - z * h_rate) / (f * f)).to_degrees(),
        h_rate,
        (x * told.x + y * told.y + z * told.z) / f,
    ];
    let others = [told.declination, told.inclination, told.h, told.f];
    assert_eq!(others.map(f32::to_bits), by_field.map(f32::to_bits));
}

#[test]
fn beside_field() {
    let on = day(2028, 200);
    for latitude in [-90.0, -89.95, -60.0, -7.25, 0.0, 45.0, 80.0, 89.94, 90.0] {
        for j in -8..=8 {
            let (phi, lambda) = (
                sine_and_cosine(latitude).unwrap(),
                sine_and_cosine(22.5 * j as f32).unwrap(),
            );
            let told = rates(1234.5, phi, lambda, on, &SET).unwrap();
            assert_as_of_rates(&told, 1234.5, phi, lambda);
            assert_as_of_field(&told, &field(1234.5, phi, lambda, on, &SET).unwrap());
        }
    }
}

/// X, Y and Z change by the same on all days of the epoch, to the bit; the other four do not, since the
/// field is another.
#[test]
fn days_of_the_epoch() {
    let ask = |on: Day| rates(0.0, LATITUDE, LONGITUDE, on, &SET).unwrap();
    let (first, last) = (ask(day(2025, 1)), ask(day(2029, 365)));
    for year in 2025..2030 {
        for day_of_year in 1..=365 {
            assert_eq!(components(&ask(day(year, day_of_year))), components(&first));
        }
    }
    for (a, b) in all(&first).into_iter().zip(all(&last)).skip(3) {
        assert_ne!(a, b);
    }
}

/// What is shown two years later less what is shown two years before, over four.
#[test]
fn differences_of_fields() {
    let shown = |year| {
        let f = field(0.0, LATITUDE, LONGITUDE, day(year, 1), &SET).unwrap();
        let (d, i) = (f.declination().unwrap(), f.inclination().unwrap());
        [f.x, f.y, f.z, d, i, f.h().unwrap(), f.f().unwrap()].map(f64::from)
    };
    let (before, after) = (shown(2025), shown(2029));
    let told = all(&rates(0.0, LATITUDE, LONGITUDE, day(2027, 1), &SET).unwrap());
    let most = [0.02, 0.02, 0.02, 0.0001, 0.0001, 0.02, 0.02];
    for i in 0..7 {
        let change = (after[i] - before[i]) / 4.0;
        assert!(near(told[i], change, most[i]), "{i} {} {change}", told[i]);
    }
}

/// At a pole g_1^0 alone is down: H is zero. A little of g_1^1 or h_1^1 is an H, and then all are told.
#[test]
fn no_horizontal_strength() {
    let no_field = rates(0.0, LATITUDE, LONGITUDE, day(2025, 1), &NIL);
    assert_eq!(no_field, Err(Refusal::ZeroDivisor));
    let (down, little) = (degree_1(-30000.0, 0.0), degree_1(-30000.0, 1e-20));
    let east = degree_1(0.0, 1e-20);
    let set = |g, h| Set { g, h, ..SET };
    for sin in [-1.0, 1.0] {
        let pole = Pair { sin, cos: 0.0 };
        let ask = |set: &Set| rates(0.0, pole, LONGITUDE, day(2025, 1), set);
        assert_eq!(ask(&set(&down, &NONE)), Err(Refusal::ZeroDivisor));
        for set in [set(&little, &NONE), set(&down, &east)] {
            let told = ask(&set).unwrap();
            let f = field(0.0, pole, LONGITUDE, day(2025, 1), &set).unwrap();
            assert_as_of_rates(&told, 0.0, pole, LONGITUDE);
            assert_as_of_field(&told, &f);
        }
    }
}

/// A field of one small number, down to the least: refused exactly where H is zero.
#[test]
fn small_fields() {
    let mut refused = 0;
    for power in -149..=0 {
        let set = Set {
            g: &degree_1(2f64.powi(power) as f32, 0.0),
            g_dot: &[4096.0; LIST_LENGTH],
            h_dot: &[-4096.0; LIST_LENGTH],
            ..NIL
        };
        let h = field(0.0, ZERO, ZERO, day(2025, 1), &set).unwrap().h();
        match rates(0.0, ZERO, ZERO, day(2025, 1), &set) {
            Ok(told) => assert!(h != Ok(0.0) && all(&told).into_iter().all(f32::is_finite)),
            Err(refusal) => {
                refused += 1;
                assert_eq!((refusal, h), (Refusal::ZeroDivisor, Ok(0.0)));
            }
        }
    }
    assert!((50..100).contains(&refused));
}

/// Of a set without a field, from the first refusal to the last: each hides those after it, and 21.
#[test]
fn refusals_of_field_come_first() {
    let mut bad = NONE;
    bad[40] = f32::NAN;
    let (first, no_day) = (day(2025, 1), day(2025, 366));
    let other = Set {
        epoch_year: 2020,
        ..NIL
    };
    let entry = Set {
        h_dot: &bad,
        ..other
    };
    let short = Set {
        h: &NONE[..89],
        ..entry
    };
    let unknown = Set {
        epoch_year: 2021,
        ..short
    };
    let rows = [
        (1, -1001.0, OFF_CIRCLE, OFF_CIRCLE, no_day, unknown),
        (2, 0.0, OFF_CIRCLE, OFF_CIRCLE, no_day, unknown),
        (3, 0.0, LATITUDE, OFF_CIRCLE, no_day, unknown),
        (4, 0.0, LATITUDE, LONGITUDE, no_day, unknown),
        (5, 0.0, LATITUDE, LONGITUDE, day(2030, 1), short),
        (5, 0.0, LATITUDE, LONGITUDE, first, unknown),
        (6, 0.0, LATITUDE, LONGITUDE, first, short),
        (7, 0.0, LATITUDE, LONGITUDE, first, entry),
        (8, 0.0, LATITUDE, LONGITUDE, first, other),
    ];
    for (number, height, latitude, longitude, on, set) in rows {
        let plain = field(height, latitude, longitude, on, &set).unwrap_err();
        assert_eq!(plain.number(), number);
        assert_eq!(rates(height, latitude, longitude, on, &set), Err(plain));
    }
}

#[test]
fn carried() {
    let mut bad = NONE;
    bad[89] = f32::NAN;
    let ask = |set: &Set| rates(0.0, LATITUDE, LONGITUDE, day(2025, 1), set).unwrap_err();
    let over = |list| Refusal::Coefficient { list, index: 89 };
    assert_eq!(ask(&Set { g_dot: &bad, ..SET }), over(List::GDot));
    assert_eq!(ask(&Set { h_dot: &bad, ..SET }), over(List::HDot));
    let years = Refusal::OtherEpoch {
        of_day: 2025,
        of_set: 2020,
    };
    assert_eq!(ask(&published::WMM2020), years);
}

#[test]
fn words() {
    assert_eq!(Refusal::ZeroDivisor.number(), 21);
    assert_eq!(
        Refusal::ZeroDivisor.to_string(),
        "there is no yearly change, since H is zero"
    );
}

//! The IGRF profile: beside the oracle's numbers, what is not looked at, and each refusal with what it
//! carries. bindings/c/test_igrf.c, test_igrf_allowance.c and test_igrf_rates.c ask more.
//! tools/test-library runs it.
use njerumoy::{
    allowance, igrf, igrf_allowance, igrf_rates, published, Allowances, Day, IgrfField, List, Pair,
    Rates, Refusal, Set, Zone, LIST_LENGTH,
};

const LATITUDE: Pair = Pair { sin: 0.6, cos: 0.8 };
const LONGITUDE: Pair = Pair {
    sin: -0.28,
    cos: 0.96,
};
const OFF_CIRCLE: Pair = Pair { sin: 0.5, cos: 0.5 };
const NANS: [f32; LIST_LENGTH] = [f32::NAN; LIST_LENGTH];
/// The two published sets, at the ends of five years. The rates are not to be looked at.
const FIRST: Set = Set {
    g_dot: &NANS,
    h_dot: &NANS,
    ..published::WMM2020
};
const SECOND: Set = Set {
    g_dot: &[],
    h_dot: &NANS,
    ..published::WMM2025
};
/// What may be lent as the second set from 2025 on.
const NOTHING: Set = Set {
    epoch_year: 0,
    g: &[],
    h: &NANS,
    ..SECOND
};

fn day(year: i32, day_of_year: i32) -> Day {
    Day { year, day_of_year }
}

fn at(day: Day, first: &Set, second: &Set) -> Result<IgrfField, Refusal> {
    igrf(1000.0, LATITUDE, LONGITUDE, day, first, second)
}

fn rates_at(day: Day, first: &Set, second: &Set) -> Result<Rates, Refusal> {
    igrf_rates(1000.0, LATITUDE, LONGITUDE, day, first, second)
}

fn allowances_at(day: Day, first: &Set, second: &Set) -> Result<Allowances, Refusal> {
    igrf_allowance(1000.0, LATITUDE, LONGITUDE, day, first, second)
}

/// Rates that are zero above degree 8.
fn up_to_eight(list: &[f32]) -> [f32; LIST_LENGTH] {
    let mut rates = [0.0; LIST_LENGTH];
    rates[..44].copy_from_slice(&list[..44]);
    rates
}

fn rates_of_2025() -> ([f32; LIST_LENGTH], [f32; LIST_LENGTH]) {
    let published = published::WMM2025;
    (up_to_eight(published.g_dot), up_to_eight(published.h_dot))
}

fn forecast<'a>(g_dot: &'a [f32], h_dot: &'a [f32]) -> Set<'a> {
    Set {
        g_dot,
        h_dot,
        ..published::WMM2025
    }
}

fn spoilt(list: &[f32], index: usize, by: f32) -> [f32; LIST_LENGTH] {
    let mut spoilt = [0.0; LIST_LENGTH];
    spoilt.copy_from_slice(list);
    spoilt[index] = by;
    spoilt
}

fn bits(field: IgrfField) -> [u32; 3] {
    [field.x, field.y, field.z].map(f32::to_bits)
}

fn rate_bits(r: Rates) -> [u32; 7] {
    [r.x, r.y, r.z, r.declination, r.inclination, r.h, r.f].map(f32::to_bits)
}

/// The bits are those of `igrf` and `igrf_rates` of the oracle (oracle/src/igrf.rs) for the same questions.
#[test]
fn beside_the_oracle() {
    let told = at(day(2022, 200), &FIRST, &SECOND).unwrap();
    assert_eq!(bits(told), [0x46d6075f, 0xc4ec9b7c, 0x47003f6b]);
    let told = rates_at(day(2022, 200), &FIRST, &SECOND).unwrap();
    let (of_xyz, of_angles) = (
        [0x4202b89f, 0x429c04aa, 0xc128275b],
        [0x3e2b1588, 0xbd177980],
    );
    assert_eq!(rate_bits(told)[..3], of_xyz);
    assert_eq!(rate_bits(told)[3..5], of_angles);
    assert_eq!(rate_bits(told)[5..], [0x41d9cdc7, 0x41167ecd]);
    let (g_dot, h_dot) = rates_of_2025();
    let forecast = forecast(&g_dot, &h_dot);
    let told = at(day(2029, 365), &forecast, &NOTHING).unwrap();
    assert_eq!(bits(told), [0x46d7a96d, 0xc4a3d33b, 0x46fff188]);
    let told = rates_at(day(2029, 365), &forecast, &NOTHING).unwrap();
    let (of_xyz, of_angles) = (
        [0x41ce30cd, 0x429c63f9, 0xc10f9896],
        [0x3e286ab9, 0xbcf7d494],
    );
    assert_eq!(rate_bits(told)[..3], of_xyz);
    assert_eq!(rate_bits(told)[3..5], of_angles);
    assert_eq!(rate_bits(told)[5..], [0x41b04abf, 0x40eb2a4a]);
}

/// The strengths of an answer beside double precision, and 12 for a component that is no number.
#[test]
fn strengths() {
    let told = at(day(2022, 200), &FIRST, &SECOND).unwrap();
    let (x, y, z) = (f64::from(told.x), f64::from(told.y), f64::from(told.z));
    let near = |shown: Result<f32, Refusal>, exact: f64, by: f64| {
        let shown = f64::from(shown.unwrap());
        assert!((shown - exact).abs() < by, "{shown} for {exact}");
    };
    near(told.h(), x.hypot(y), 0.01);
    near(told.f(), x.hypot(y).hypot(z), 0.01);
    near(told.declination(), y.atan2(x).to_degrees(), 1e-4);
    near(told.inclination(), z.atan2(x.hypot(y)).to_degrees(), 1e-4);
    assert_eq!(told.zone(), Ok(None));
    let weak = IgrfField {
        x: 1500.0,
        y: 0.0,
        ..told
    };
    assert_eq!(weak.zone(), Ok(Some(Zone::Blackout)));
    let spoilt = IgrfField {
        z: f32::NAN,
        ..told
    };
    for refused in [
        spoilt.h(),
        spoilt.f(),
        spoilt.declination(),
        spoilt.inclination(),
    ] {
        assert_eq!(refused, Err(Refusal::Unusable));
    }
    assert_eq!(spoilt.zone(), Err(Refusal::Unusable));
}

/// Before 2025 each allowance is at least the proved bound and at most 1.01 times as much; the majorants
/// are those of bindings/c/test_igrf_allowance.c, worked out in double precision. From 2025 on it is that of
/// the first set.
#[test]
fn allowances() {
    let told = allowances_at(day(2022, 200), &FIRST, &SECOND).unwrap();
    let majorants = [633070.68, 78033.85, 638794.62];
    for (shown, majorant) in [told.x, told.y, told.z].into_iter().zip(majorants) {
        let bound = majorant / 131072.0 + 1.0 / 1048576.0;
        assert!((bound..=1.01 * bound).contains(&f64::from(shown)));
    }
    let (g_dot, h_dot) = rates_of_2025();
    let (last, set) = (day(2029, 365), forecast(&g_dot, &h_dot));
    let told = allowances_at(last, &set, &NOTHING);
    assert!(told.is_ok());
    assert_eq!(told, allowance(1000.0, LATITUDE, LONGITUDE, last, &set));
}

/// Those of the place and the day.
#[test]
fn of_the_place() {
    let (on, high) = (day(2022, 200), 850001.0);
    let ask = |height, latitude, longitude, day| {
        let refusal = igrf(height, latitude, longitude, day, &FIRST, &SECOND).unwrap_err();
        let of_rates = igrf_rates(height, latitude, longitude, day, &FIRST, &SECOND);
        assert_eq!(of_rates, Err(refusal));
        let of_allowance = igrf_allowance(height, latitude, longitude, day, &FIRST, &SECOND);
        assert_eq!(of_allowance, Err(refusal));
        refusal
    };
    let limits = Refusal::Height {
        min_km: -1.0,
        max_km: 850.0,
    };
    assert_eq!(ask(high, LATITUDE, LONGITUDE, on), limits);
    let refusal = ask(0.0, OFF_CIRCLE, LONGITUDE, on);
    assert_eq!(refusal, Refusal::Latitude);
    let refusal = ask(0.0, LATITUDE, OFF_CIRCLE, on);
    assert_eq!(refusal, Refusal::Longitude);
    let refusal = ask(0.0, LATITUDE, LONGITUDE, day(2022, 366));
    assert_eq!(refusal, Refusal::DayOfYear);
    let served = Refusal::EpochYear {
        first: day(2000, 1),
        last: day(2029, 365),
    };
    for outside in [day(1999, 365), day(2030, 1)] {
        assert_eq!(ask(0.0, LATITUDE, LONGITUDE, outside), served);
    }
}

/// Those of the two sets.
#[test]
fn of_the_sets() {
    let ask = |first: Set, second: Set| {
        let refusal = at(day(2022, 200), &first, &second).unwrap_err();
        assert_eq!(rates_at(day(2022, 200), &first, &second), Err(refusal));
        assert_eq!(allowances_at(day(2022, 200), &first, &second), Err(refusal));
        refusal
    };
    let (g, h) = (
        spoilt(SECOND.g, 3, f32::INFINITY),
        spoilt(SECOND.h, 89, -65537.0),
    );
    let (short, long) = (&g[1..], [0.0; 104]);
    assert_eq!(ask(Set { g: short, ..FIRST }, SECOND), Refusal::Length);
    assert_eq!(ask(FIRST, Set { h: &long, ..SECOND }), Refusal::Degree);
    let entry = |list, index| Refusal::Coefficient { list, index };
    assert_eq!(ask(Set { h: &h, ..FIRST }, SECOND), entry(List::H, 89));
    let (in_g, in_h) = (entry(List::SecondG, 3), entry(List::SecondH, 89));
    assert_eq!(ask(FIRST, Set { g: &g, ..SECOND }), in_g);
    assert_eq!(ask(FIRST, Set { h: &h, ..SECOND }), in_h);
    let years = |of_day, of_set| Refusal::OtherEpoch { of_day, of_set };
    assert_eq!(ask(SECOND, SECOND), years(2020, 2025));
    assert_eq!(ask(FIRST, FIRST), years(2025, 2020));
}

/// The published rates go on to degree 12.
#[test]
fn above_degree_eight() {
    let refusal = at(day(2025, 1), &published::WMM2025, &SECOND).unwrap_err();
    assert_eq!(refusal, Refusal::RateAboveEight);
    let of_allowance = allowances_at(day(2025, 1), &published::WMM2025, &SECOND);
    assert_eq!(of_allowance, Err(refusal));
    assert_eq!(refusal.number(), 22);
    assert_eq!(refusal.to_string(), "a rate above degree 8 is not zero");
}

/// Without a field H is zero, and it has its allowance; a little of g_1^0 is an H.
#[test]
fn no_horizontal_strength() {
    let (none, little) = ([0.0; LIST_LENGTH], spoilt(&[0.0; LIST_LENGTH], 0, 1e-12));
    let nil = |epoch_year| Set {
        epoch_year,
        g: &none,
        h: &none,
        g_dot: &none,
        h_dot: &none,
    };
    for (on, epoch_year) in [(day(2000, 1), 2000), (day(2025, 1), 2025)] {
        let (first, second) = (nil(epoch_year), nil(epoch_year + 5));
        assert_eq!(rates_at(on, &first, &second), Err(Refusal::ZeroDivisor));
        assert!(allowances_at(on, &first, &second).is_ok());
        let some = Set {
            g: &little,
            ..first
        };
        assert!(rates_at(on, &some, &second).is_ok());
    }
}

//! The wrapper's answers, its refusals with what they carry, and their words. tools/test-library runs
//! it.
use njerumoy::{
    allowance, epoch, field, grid_variation, published, square_root, sum, Day, Errors, Field, List,
    Pair, Refusal, Set, Zone,
};

const FIRST_OF_2025: Day = Day {
    year: 2025,
    day_of_year: 1,
};

fn pair(degrees: f32) -> Pair {
    let (sin, cos) = degrees.to_radians().sin_cos();
    Pair { sin, cos }
}

fn day(year: i32, day_of_year: i32) -> Day {
    Day { year, day_of_year }
}

fn components(x: f32, y: f32, z: f32) -> Field {
    Field {
        x,
        y,
        z,
        epoch_year: 2025,
        errors: Errors::default(),
    }
}

#[test]
fn the_published_row() {
    let f = field(
        0.0,
        pair(80.0),
        pair(0.0),
        FIRST_OF_2025,
        &published::WMM2025,
    )
    .unwrap();
    let printed = [f.x, f.y, f.z, f.h().unwrap(), f.f().unwrap()].map(|x| format!("{x:.1}"));
    assert_eq!(printed, ["6521.6", "145.9", "54791.5", "6523.2", "55178.5"]);
    let errors = Errors {
        declination_sigma_c: 0.26,
        declination_sigma_v: 5417.0,
        inclination: 0.20,
        f: 138.0,
        h: 133.0,
        x: 137.0,
        y: 89.0,
        z: 141.0,
    };
    assert_eq!(f.errors, errors);
    assert_eq!(f.zone(), Ok(None));
}

/// Root of sigma_c and sigma_v / H, each squared, as the record's own figures give it.
fn by_own_figures(f: &Field) -> f32 {
    let (c, v) = (f.errors.declination_sigma_c, f.errors.declination_sigma_v);
    let v = v / f.h().unwrap();
    (c * c + v * v).sqrt()
}

#[test]
fn uncertainty_of_its_own_year() {
    let ask = |on: Day, set: &Set| field(0.0, pair(80.0), pair(0.0), on, set).unwrap();
    let last = ask(day(2024, 366), &published::WMM2020);
    let first = ask(FIRST_OF_2025, &published::WMM2025);
    assert_eq!((last.epoch_year, first.epoch_year), (2020, 2025));
    for f in [last, first] {
        assert_eq!(f.declination_uncertainty(), Ok(by_own_figures(&f)));
    }
    // of another edition, by hand: the figures of 2020 for the field of 2025
    let other = Field {
        epoch_year: 2020,
        ..first
    };
    let figures_of_2020 = Field {
        errors: last.errors,
        ..first
    };
    let asked = other.declination_uncertainty();
    assert_eq!(asked, Ok(by_own_figures(&figures_of_2020)));
    assert_ne!(asked, first.declination_uncertainty());
}

#[test]
fn allowances() {
    let ask = |set: &Set| allowance(0.0, pair(80.0), pair(0.0), FIRST_OF_2025, set).unwrap();
    let v = ask(&published::WMM2025);
    for shown in [v.x, v.y, v.z] {
        assert!(shown > 0.0 && shown < 6.0);
    }
    let none = [0.0f32; 90];
    let v = ask(&Set {
        epoch_year: 2025,
        g: &none,
        h: &none,
        g_dot: &none,
        h_dot: &none,
    });
    for shown in [v.x, v.y, v.z] {
        let parts = f64::from(shown) * 1048576.0;
        assert!((1.0..=1.01).contains(&parts));
    }
}

#[test]
fn refusals_of_field_in_their_order() {
    let ask = |height: f32, latitude: Pair, longitude: Pair, on: Day, set: &Set| {
        let refusal = field(height, latitude, longitude, on, set).unwrap_err();
        let other = allowance(height, latitude, longitude, on, set).unwrap_err();
        assert_eq!(refusal, other);
        refusal
    };
    let good = published::WMM2025;
    let (phi, lambda) = (pair(80.0), pair(0.0));
    let off = Pair { sin: 0.5, cos: 0.5 };
    let unknown = Refusal::EpochYear {
        first: day(2020, 1),
        last: day(2029, 365),
    };
    let height = Refusal::Height {
        min_km: -1.0,
        max_km: 850.0,
    };
    assert_eq!(ask(f32::NAN, off, off, day(2025, 0), &good), height);
    assert_eq!(ask(0.0, off, off, day(2025, 0), &good), Refusal::Latitude);
    assert_eq!(ask(0.0, phi, off, day(2025, 0), &good), Refusal::Longitude);
    assert_eq!(
        ask(0.0, phi, lambda, day(2025, 366), &good),
        Refusal::DayOfYear
    );
    assert_eq!(ask(0.0, phi, lambda, day(2030, 1), &good), unknown);
    let short = Set {
        g: &good.g[..89],
        ..good
    };
    let of_no_epoch = Set {
        epoch_year: 2021,
        ..short
    };
    assert_eq!(ask(0.0, phi, lambda, FIRST_OF_2025, &of_no_epoch), unknown);
    assert_eq!(
        ask(0.0, phi, lambda, FIRST_OF_2025, &short),
        Refusal::Length
    );
    let mut rates = good.h_dot.to_vec();
    rates[40] = f32::INFINITY;
    let bad_entry = Set {
        h_dot: &rates,
        epoch_year: 2020,
        ..good
    };
    let entry = Refusal::Coefficient {
        list: List::HDot,
        index: 40,
    };
    assert_eq!(ask(0.0, phi, lambda, FIRST_OF_2025, &bad_entry), entry);
    let years = Refusal::OtherEpoch {
        of_day: 2025,
        of_set: 2020,
    };
    assert_eq!(
        ask(0.0, phi, lambda, FIRST_OF_2025, &published::WMM2020),
        years
    );
}

#[test]
fn sums_of_one_coefficient() {
    let mut g = [0.0f32; 90];
    g[0] = -30000.0;
    let none = [0.0f32; 90];
    let set = Set {
        epoch_year: 0,
        g: &g,
        h: &none,
        g_dot: &none,
        h_dot: &none,
    };
    let (equator, pole) = (Pair { sin: 1.0, cos: 0.0 }, Pair { sin: 0.0, cos: 1.0 });
    let greenwich = Pair { sin: 0.0, cos: 1.0 };
    let v = sum(equator, greenwich, 1.0, 0.0, &set).unwrap();
    assert_eq!([v.x, v.y, v.z], [-30000.0, 0.0, 0.0]);
    let v = sum(pole, greenwich, 1.0, 0.0, &set).unwrap();
    assert_eq!([v.x, v.y, v.z], [0.0, 0.0, -60000.0]);
    let off = Pair { sin: 0.5, cos: 0.5 };
    let refused =
        |theta, lambda, ratio, offset| sum(theta, lambda, ratio, offset, &set).unwrap_err();
    assert_eq!(refused(off, off, 0.0, 6.0), Refusal::Colatitude);
    assert_eq!(refused(pole, off, 0.0, 6.0), Refusal::Longitude);
    assert_eq!(refused(pole, greenwich, 0.0, 6.0), Refusal::Ratio);
    assert_eq!(refused(pole, greenwich, 1.0, 6.0), Refusal::Offset);
}

#[test]
fn epochs() {
    let e = epoch(day(2024, 184)).unwrap();
    assert_eq!((e.year, e.offset), (2020, 4.5));
    assert_eq!(epoch(day(2025, 366)), Err(Refusal::DayOfYear));
    assert_eq!(epoch(day(i32::MIN, 1)).unwrap_err().number(), 5);
}

#[test]
fn strengths_and_zones() {
    assert_eq!(components(1200.0, 1600.0, 0.0).h(), Ok(2000.0));
    assert_eq!(components(1200.0, 1600.0, 1500.0).f(), Ok(2500.0));
    let zone = |x, y| components(x, y, 0.0).zone();
    assert_eq!(zone(0.0, 1999.0), Ok(Some(Zone::Blackout)));
    assert_eq!(zone(1200.0, 1600.0), Ok(Some(Zone::Caution)));
    assert_eq!(zone(3600.0, 4800.0), Ok(None));
    let nowhere = components(0.0, 0.0, 50000.0);
    assert_eq!(nowhere.declination_uncertainty(), Ok(180.0));
    let of_no_epoch = Field {
        epoch_year: 2024,
        ..nowhere
    };
    assert_eq!(
        of_no_epoch.declination_uncertainty().unwrap_err().number(),
        5
    );
    assert_eq!(
        components(0.0, f32::NAN, 0.0).zone(),
        Err(Refusal::Unusable)
    );
}

#[test]
fn grid_and_root() {
    assert_eq!(grid_variation(60.0, -100.0, 90.0), Ok(Some(-170.0)));
    assert_eq!(grid_variation(60.0, 180.0, 0.0), Ok(Some(180.0)));
    assert_eq!(grid_variation(-60.0, -180.0, 0.0), Ok(Some(180.0)));
    assert_eq!(grid_variation(60.0, -180.0, 0.0), Ok(Some(180.0)));
    assert_eq!(grid_variation(54.0, 10.0, 30.0), Ok(None));
    assert_eq!(grid_variation(91.0, 0.0, 0.0), Err(Refusal::Latitude));
    assert_eq!(square_root(2.0), Ok(2.0f32.sqrt()));
    assert_eq!(square_root(-1.0), Err(Refusal::Unusable));
}

#[test]
fn words() {
    let k = Refusal::Coefficient {
        list: List::GDot,
        index: 3,
    };
    assert_eq!(
        k.to_string(),
        "the coefficient at index 3 of g_dot is not finite or is too large"
    );
    let k = epoch(day(2030, 1)).unwrap_err();
    assert_eq!(
        k.to_string(),
        "no model serves that day or that epoch year: the models serve from day 1 of 2020 to day 365 of 2029"
    );
}

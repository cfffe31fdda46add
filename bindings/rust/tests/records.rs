//! Error figures from a lent list: which record is used, which figures are refused, and in which order.
//! tools/test-library runs it.
use core::mem::{align_of, offset_of, size_of};
use njerumoy::{
    field, field_listed, published, Day, ErrorRecord, Errors, Field, Pair, Refusal, Set,
};

const LATITUDE: Pair = Pair { sin: 0.6, cos: 0.8 };
const LONGITUDE: Pair = Pair {
    sin: -0.8,
    cos: 0.6,
};
const OFF_CIRCLE: Pair = Pair { sin: 0.5, cos: 0.5 };
const SET: Set = published::WMM2025;

/// The figures of both editions that are built in.
const OF_2020: ErrorRecord = record(2020, [0.26, 5625.0, 0.21, 145.0, 128.0, 131.0, 94.0, 157.0]);
const OF_2025: ErrorRecord = record(2025, [0.26, 5417.0, 0.20, 138.0, 133.0, 137.0, 89.0, 141.0]);

const fn record(epoch_year: i32, figures: [f32; 8]) -> ErrorRecord {
    let [declination_sigma_c, declination_sigma_v, inclination, f, h, x, y, z] = figures;
    let figures = Errors {
        declination_sigma_c,
        declination_sigma_v,
        inclination,
        f,
        h,
        x,
        y,
        z,
    };
    ErrorRecord {
        epoch_year,
        figures,
    }
}

/// Eight figures that are all different.
fn made(epoch_year: i32, first: f32) -> ErrorRecord {
    record(epoch_year, core::array::from_fn(|i| first + i as f32 / 8.0))
}

fn with_figure(epoch_year: i32, place: usize, figure: f32) -> ErrorRecord {
    let mut figures = [1.0; 8];
    figures[place] = figure;
    record(epoch_year, figures)
}

fn bits(e: &Errors) -> [u32; 8] {
    let figures = [
        e.declination_sigma_c,
        e.declination_sigma_v,
        e.inclination,
        e.f,
        e.h,
        e.x,
        e.y,
        e.z,
    ];
    figures.map(f32::to_bits)
}

fn day(year: i32, day_of_year: i32) -> Day {
    Day { year, day_of_year }
}

fn ask(records: &[ErrorRecord]) -> Result<Field, Refusal> {
    field_listed(0.0, LATITUDE, LONGITUDE, day(2025, 1), &SET, records)
}

/// H is 5 here.
fn components(epoch_year: i32) -> Field {
    Field {
        x: 3.0,
        y: -4.0,
        z: 50000.0,
        epoch_year,
        errors: Errors::default(),
    }
}

/// What the definition says of H.
fn by_figures(r: &ErrorRecord, h: f32) -> f32 {
    let (c, v) = (
        r.figures.declination_sigma_c,
        r.figures.declination_sigma_v / h,
    );
    (c * c + v * v).sqrt()
}

/// The field as without a list, but for its figures, which are the record's to the bit.
fn assert_used(records: &[ErrorRecord], used: &ErrorRecord) {
    let (listed, plain) = (
        ask(records).unwrap(),
        field(0.0, LATITUDE, LONGITUDE, day(2025, 1), &SET).unwrap(),
    );
    assert_eq!(bits(&listed.errors), bits(&used.figures));
    let errors = plain.errors;
    assert_eq!(Field { errors, ..listed }, plain);
    let h = listed.h().unwrap();
    let expected = by_figures(used, h).min(180.0);
    let uncertainty = listed.declination_uncertainty_listed(records);
    assert_eq!(uncertainty, Ok(expected));
}

#[test]
fn layout_of_a_record() {
    assert_eq!(
        (size_of::<ErrorRecord>(), align_of::<ErrorRecord>()),
        (36, 4)
    );
    assert_eq!((size_of::<Errors>(), align_of::<Errors>()), (32, 4));
    assert_eq!(offset_of!(ErrorRecord, epoch_year), 0);
    assert_eq!(offset_of!(ErrorRecord, figures), 4);
    let places = [
        offset_of!(Errors, declination_sigma_c),
        offset_of!(Errors, declination_sigma_v),
        offset_of!(Errors, inclination),
        offset_of!(Errors, f),
        offset_of!(Errors, h),
        offset_of!(Errors, x),
        offset_of!(Errors, y),
        offset_of!(Errors, z),
    ];
    assert_eq!(places, [0, 4, 8, 12, 16, 20, 24, 28]);
}

#[test]
fn the_built_in_figures_as_a_list() {
    let list = [OF_2020, OF_2025];
    for set in [published::WMM2020, published::WMM2025] {
        for on in [day(2020, 1), day(2024, 366), day(2025, 1), day(2030, 1)] {
            let plain = field(1234.5, LATITUDE, LONGITUDE, on, &set);
            let listed = field_listed(1234.5, LATITUDE, LONGITUDE, on, &set, &list);
            assert_eq!(listed, plain);
            if let Ok(f) = plain {
                let uncertainty = f.declination_uncertainty();
                assert!(uncertainty.is_ok());
                assert_eq!(f.declination_uncertainty_listed(&list), uncertainty);
            }
        }
    }
}

#[test]
fn the_first_record_of_the_year_wins() {
    for first in 0..20 {
        let year = |i: usize| match i {
            i if i < first => 2000 + i as i32,
            i if i % 2 == first % 2 => 2025,
            _ => 2020,
        };
        let list: [ErrorRecord; 20] = core::array::from_fn(|i| made(year(i), 1.0 + i as f32));
        assert_used(&list, &list[first]);
        assert_eq!(ask(&list[..first]), Err(Refusal::NoErrorRecord));
    }
}

#[test]
fn no_record_of_the_year() {
    let bad = with_figure(2020, 0, f32::NAN);
    for list in [&[][..], &[OF_2020], &[bad]] {
        assert_eq!(ask(list), Err(Refusal::NoErrorRecord));
        let uncertainty = components(2025).declination_uncertainty_listed(list);
        assert_eq!(uncertainty, Err(Refusal::NoErrorRecord));
    }
    assert_eq!(Refusal::NoErrorRecord.number(), 15);
    assert_eq!(
        Refusal::NoErrorRecord.to_string(),
        "the lent list has no error record of that epoch year"
    );
}

#[test]
fn figures_that_cannot_be_used() {
    let (inf, least) = (f32::INFINITY, f32::from_bits(1));
    for place in 0..8 {
        for figure in [f32::NAN, inf, -inf, -1.0, -least, f32::MIN] {
            let list = [with_figure(2025, place, figure), OF_2025];
            assert_eq!(ask(&list), Err(Refusal::Unusable), "{place} {figure}");
            let uncertainty = components(2025).declination_uncertainty_listed(&list);
            assert_eq!(uncertainty, Err(Refusal::Unusable), "{place} {figure}");
        }
        for figure in [0.0, -0.0, least, f32::MIN_POSITIVE, f32::MAX] {
            let taken = with_figure(2025, place, figure);
            assert_used(&[taken], &taken);
        }
    }
}

#[test]
fn figures_of_other_records_are_not_looked_at() {
    for place in 0..8 {
        let bad = |year| with_figure(year, place, f32::NAN);
        assert_used(&[bad(2020), bad(i32::MIN), OF_2025, bad(2025)], &OF_2025);
    }
}

/// Each refusal of `field`, whatever the list.
#[test]
fn refusals_of_field_come_first() {
    let mut rates = SET.h_dot.to_vec();
    rates[40] = f32::INFINITY;
    let (h_dot, short) = (&rates[..], &SET.g[..89]);
    let first = day(2025, 1);
    let of_2030 = Set {
        epoch_year: 2030,
        ..SET
    };
    let rows = [
        (1, -1001.0, LATITUDE, LONGITUDE, first, SET),
        (2, 0.0, OFF_CIRCLE, LONGITUDE, first, SET),
        (3, 0.0, LATITUDE, OFF_CIRCLE, first, SET),
        (4, 0.0, LATITUDE, LONGITUDE, day(2025, 366), SET),
        (5, 0.0, LATITUDE, LONGITUDE, day(2030, 1), SET),
        (5, 0.0, LATITUDE, LONGITUDE, day(2030, 1), of_2030),
        (6, 0.0, LATITUDE, LONGITUDE, first, Set { g: short, ..SET }),
        (7, 0.0, LATITUDE, LONGITUDE, first, Set { h_dot, ..SET }),
        (8, 0.0, LATITUDE, LONGITUDE, first, published::WMM2020),
    ];
    let lists = [
        &[][..],
        &[OF_2025],
        &[made(2030, 1.0)],
        &[with_figure(2025, 7, -1.0)],
    ];
    for (number, height, latitude, longitude, on, set) in rows {
        let plain = field(height, latitude, longitude, on, &set).unwrap_err();
        assert_eq!(plain.number(), number);
        for list in lists {
            let listed = field_listed(height, latitude, longitude, on, &set, list);
            assert_eq!(listed, Err(plain), "{list:?}");
        }
    }
}

#[test]
fn uncertainty_of_any_year() {
    for year in [i32::MIN, -1, 0, 2024, 2030, i32::MAX] {
        let list = [OF_2020, OF_2025, made(year, 3.0)];
        let uncertainty = components(year).declination_uncertainty_listed(&list);
        assert_eq!(uncertainty, Ok(by_figures(&list[2], 5.0)));
        assert_eq!(
            components(year).declination_uncertainty_listed(&list[..2]),
            Err(Refusal::NoErrorRecord)
        );
    }
}

#[test]
fn uncertainty_where_h_is_zero_or_no_number() {
    let nowhere = Field {
        x: 0.0,
        y: 0.0,
        ..components(2025)
    };
    for sigma_v in [0.0, -0.0, f32::from_bits(1), f32::MAX] {
        let list = [with_figure(2025, 1, sigma_v)];
        let uncertainty = nowhere.declination_uncertainty_listed(&list);
        assert_eq!(uncertainty, Ok(180.0), "{sigma_v}");
    }
    for bad in [f32::NAN, f32::INFINITY, -1.2e18] {
        for place in 0..3 {
            let mut f = components(2025);
            *[&mut f.x, &mut f.y, &mut f.z][place] = bad;
            let unusable = f.declination_uncertainty_listed(&[OF_2025]);
            assert_eq!(unusable, Err(Refusal::Unusable), "{place} {bad}");
            let none = f.declination_uncertainty_listed(&[OF_2020]);
            assert_eq!(none, Err(Refusal::NoErrorRecord), "{place} {bad}");
        }
    }
}

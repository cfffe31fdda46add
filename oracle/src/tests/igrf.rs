//! The IGRF profile: the order of its refusals, what it does not look at, and its fields and rates beside
//! Field and beside double precision.
use super::double::rates_by;
use super::thirteen::places;
use crate::cases::Rng;
use crate::entries::{Place, Refusal, Set};
use crate::igrf::{igrf, igrf_rates};
use crate::models::{days_in_year, model_by_epoch_year, years_since_epoch};
use crate::rates::rates;
use crate::tables::{coeff_index, N_COEFF, N_COEFF_MAX};

/// What is asked.
#[derive(Clone)]
struct Asked {
    place: Place,
    first: Set,
    second: Set,
}

impl Asked {
    fn field(&self) -> Result<[f32; 3], Refusal> {
        igrf(&self.place, &self.first, &self.second)
    }

    fn rates(&self) -> Result<[f32; 7], Refusal> {
        igrf_rates(&self.place, &self.first, &self.second)
    }

    /// The field and the rates by their bits.
    fn bits(&self) -> ([u32; 3], [u32; 7]) {
        let (field, rates) = (self.field().unwrap(), self.rates().unwrap());
        (field.map(f32::to_bits), rates.map(f32::to_bits))
    }
}

/// A set like the published ones, each entry moved by up to 50 nT, or half a nT a year. Its rates are zero
/// above degree 8.
pub fn like_published(rng: &mut Rng, epoch_year: i32, length: usize) -> Set {
    let mut set = Set::of(model_by_epoch_year(2020).unwrap());
    set.epoch_year = epoch_year;
    for (list, size) in set.lists.iter_mut().zip([50.0, 50.0, 0.5, 0.5]) {
        list.resize(length, 0.0);
        for x in list.iter_mut() {
            *x += rng.between(-size, size) as f32;
        }
    }
    for rates in &mut set.lists[2..] {
        rates[44..].fill(0.0);
    }
    set
}

/// Good sets and a day of the profile, at a place of the grid.
fn asked(rng: &mut Rng, length: usize, (year, day): (i32, i32)) -> Asked {
    let epoch_year = year / 5 * 5;
    let grid = places(year, day);
    Asked {
        place: grid[rng.below(grid.len())].1,
        first: like_published(rng, epoch_year, length),
        second: like_published(rng, epoch_year + 5, length),
    }
}

/// A fault and its refusal.
type Fault = (fn(&mut Asked), Refusal);

const OUTSIDE: Refusal = Refusal::EpochYear {
    first: (2000, 1),
    last: (2029, 365),
};

fn entry(list: usize, index: usize) -> Refusal {
    Refusal::Coefficient { list, index }
}

fn years(of_day: i32, of_set: i32) -> Refusal {
    Refusal::OtherEpoch { of_day, of_set }
}

/// Those of the place and the day.
fn place_faults() -> [Fault; 5] {
    let height = Refusal::Height {
        min_km: -1.0,
        max_km: 850.0,
    };
    [
        (|asked| asked.place.height = f32::NAN, height),
        (|asked| asked.place.sin_phi = 2.0, Refusal::Latitude),
        (|asked| asked.place.cos_lambda = -2.0, Refusal::Longitude),
        (|asked| asked.place.day = 367, Refusal::DayOfYear),
        (|asked| asked.place.year = 1999, OUTSIDE),
    ]
}

/// Those of the sets, with a day of 2012.
fn faults_before_2025() -> [Fault; 13] {
    [
        (|asked| asked.first.lists[0].truncate(89), Refusal::Length),
        (|asked| asked.first.lists[1].clear(), Refusal::Length),
        (|asked| asked.second.lists[0].push(0.0), Refusal::Length),
        (|asked| asked.second.lists[1].push(0.0), Refusal::Length),
        (|asked| asked.first.lists[1].truncate(90), Refusal::Degree),
        (|asked| asked.second.lists[0].truncate(90), Refusal::Degree),
        (|asked| asked.first.lists[0][3] = f32::NAN, entry(0, 3)),
        (|asked| asked.first.lists[1][2] = 65537.0, entry(1, 2)),
        (|asked| asked.second.lists[0][1] = -65537.0, entry(4, 1)),
        (
            |asked| asked.second.lists[1][0] = f32::INFINITY,
            entry(5, 0),
        ),
        (|asked| asked.first.epoch_year = 2015, years(2010, 2015)),
        (|asked| asked.second.epoch_year = 2010, years(2015, 2010)),
        (no_field, Refusal::ZeroDivisor),
    ]
}

/// Those of the first set, with a day of 2027.
fn faults_from_2025() -> [Fault; 14] {
    [
        (|asked| asked.first.lists[0].truncate(89), Refusal::Length),
        (|asked| asked.first.lists[3].push(0.0), Refusal::Length),
        (|asked| asked.first.lists[0].truncate(90), Refusal::Degree),
        (|asked| asked.first.lists[3].truncate(90), Refusal::Degree),
        (
            |asked| asked.first.lists[2][44] = f32::from_bits(1),
            Refusal::RateAboveEight,
        ),
        (
            |asked| asked.first.lists[3][89] = f32::NAN,
            Refusal::RateAboveEight,
        ),
        (|asked| asked.first.lists[0][88] = -65537.0, entry(0, 88)),
        (|asked| asked.first.lists[1][5] = f32::NAN, entry(1, 5)),
        (|asked| asked.first.lists[2][43] = 4097.0, entry(2, 43)),
        (|asked| asked.first.lists[3][0] = f32::INFINITY, entry(3, 0)),
        (|asked| asked.first.epoch_year = 2020, years(2025, 2020)),
        (no_field, Refusal::ZeroDivisor),
        // these do no harm: the second set is not read
        (|asked| asked.second = Set::default(), Refusal::ZeroDivisor),
        (|asked| asked.second.lists[0][0] = 1e9, Refusal::ZeroDivisor),
    ]
}

/// No field and no rates, with the rates of a set left as they are.
fn no_field(asked: &mut Asked) {
    for set in [&mut asked.first, &mut asked.second] {
        set.lists.iter_mut().for_each(|list| list.fill(0.0));
    }
}

/// Each fault alone, and beside each later one.
fn in_order(good: &Asked, faults: &[Fault]) {
    for (at, (spoil, refusal)) in faults.iter().enumerate() {
        for (later, _) in &faults[at..] {
            let mut asked = good.clone();
            later(&mut asked);
            spoil(&mut asked);
            assert_eq!(asked.rates(), Err(*refusal), "{at}");
            if *refusal == Refusal::ZeroDivisor {
                assert!(asked.field().unwrap().iter().all(|x| *x == 0.0));
            } else {
                assert_eq!(asked.field(), Err(*refusal), "{at}");
            }
        }
    }
}

#[test]
fn refusals_in_order() {
    let mut rng = Rng::new(1);
    let before = asked(&mut rng, N_COEFF_MAX, (2012, 100));
    let before_faults = [&place_faults()[..], &faults_before_2025()].concat();
    assert!(before.field().is_ok() && before.rates().is_ok());
    in_order(&before, &before_faults);
    let after = asked(&mut rng, N_COEFF_MAX, (2027, 100));
    let after_faults = [&place_faults()[..], &faults_from_2025()[..12]].concat();
    assert!(after.field().is_ok() && after.rates().is_ok());
    in_order(&after, &after_faults);
    for (spoil, _) in &faults_from_2025()[12..] {
        let mut spoilt = after.clone();
        spoil(&mut spoilt);
        assert_eq!(spoilt.bits(), after.bits());
    }
}

#[test]
fn days() {
    let mut rng = Rng::new(2);
    let last = |year: i32| (year, days_in_year(year));
    for (year, day) in [(2000, 1), last(2000), last(2024), (2025, 1), (2029, 365)] {
        let asked = asked(&mut rng, N_COEFF_MAX, (year, day));
        assert!(asked.field().is_ok() && asked.rates().is_ok(), "{year}");
    }
    let good = asked(&mut rng, N_COEFF_MAX, (2000, 1));
    let on = |year: i32, day: i32| {
        let mut asked = good.clone();
        (asked.place.year, asked.place.day) = (year, day);
        asked.field()
    };
    for (year, day) in [(1999, 365), (2030, 1), (0, 1), (i32::MIN, 1), (i32::MAX, 1)] {
        assert_eq!(on(year, day), Err(OUTSIDE), "{year}");
    }
    for (year, day) in [(2000, 0), (2000, 367), (2001, 366), (1999, 366), (2030, -1)] {
        assert_eq!(on(year, day), Err(Refusal::DayOfYear), "{year} {day}");
    }
    // the sets of 2000 and 2005 on any other day of the profile
    assert_eq!(on(2005, 1), Err(years(2005, 2000)));
    assert_eq!(on(2024, 366), Err(years(2020, 2000)));
    assert_eq!(on(2025, 1), Err(years(2025, 2000)));
}

/// All that is not looked at may hold anything, and nothing changes.
#[test]
fn what_is_not_looked_at() {
    let mut rng = Rng::new(3);
    for (year, unread) in [
        (2003, &[(0, 2), (0, 3), (1, 2), (1, 3)][..]),
        (2027, &[(1, 0), (1, 1), (1, 2), (1, 3)]),
    ] {
        for length in [N_COEFF, N_COEFF_MAX] {
            let good = asked(&mut rng, length, (year, 45));
            for (set, list) in unread {
                for other in [0, 1, 89, 90, 91, 103, 104, 105, 500] {
                    let mut other_lists = good.clone();
                    let sets = [&mut other_lists.first, &mut other_lists.second];
                    sets[*set].lists[*list].clear();
                    sets[*set].lists[*list].resize(other, f32::NAN);
                    assert_eq!(other_lists.bits(), good.bits());
                }
            }
        }
    }
    let good = asked(&mut rng, N_COEFF_MAX, (2025, 1));
    for year in [2025, 2020, 0, i32::MIN, i32::MAX] {
        let mut other_year = good.clone();
        other_year.second.epoch_year = year;
        assert_eq!(other_year.bits(), good.bits());
    }
}

#[test]
fn rates_above_degree_8() {
    assert_eq!(coeff_index(9, 0), 44);
    let mut rng = Rng::new(4);
    for length in [N_COEFF, N_COEFF_MAX] {
        let good = asked(&mut rng, length, (2026, 200));
        let with = |list: usize, index: usize, rate: f32| {
            let mut asked = good.clone();
            asked.first.lists[list][index] = rate;
            asked.field().err()
        };
        for list in [2, 3] {
            for index in 44..length {
                assert_eq!(with(list, index, 0.0), None);
                assert_eq!(with(list, index, -0.0), None);
                for rate in [1e-45, -1e-45, 0.1, -4096.0, 4097.0, f32::INFINITY, f32::NAN] {
                    let refusal = with(list, index, rate);
                    assert_eq!(refusal, Some(Refusal::RateAboveEight));
                }
            }
            for index in 0..44 {
                assert_eq!(with(list, index, 4096.0), None);
                assert_eq!(with(list, index, f32::NAN), Some(entry(list, index)));
                assert_eq!(with(list, index, -4097.0), Some(entry(list, index)));
            }
        }
    }
}

/// Caps are those of g and h, in both sets, with both ends.
#[test]
fn caps_before_2025() {
    let mut rng = Rng::new(5);
    for length in [N_COEFF, N_COEFF_MAX] {
        let good = asked(&mut rng, length, (2019, 365));
        for (list, number) in [(0, 0), (1, 1), (0, 4), (1, 5)] {
            for index in 0..length {
                let with = |value: f32| {
                    let mut asked = good.clone();
                    let sets = [&mut asked.first, &mut asked.second];
                    sets[number / 4].lists[list][index] = value;
                    asked.field().err()
                };
                assert_eq!([with(65536.0), with(-65536.0)], [None; 2]);
                for value in [65536.01, -65536.01, f32::NAN, f32::NEG_INFINITY] {
                    assert_eq!(with(value), Some(entry(number, index)));
                }
            }
        }
    }
}

/// By its bits Field, on the days that both have: with rates that are the set's own, or between the sets.
#[test]
fn beside_field() {
    let mut rng = Rng::new(6);
    for at in 0..1000 {
        let (year, length) = (2020 + at % 10, [N_COEFF, N_COEFF_MAX][rng.below(2)]);
        let day = rng.whole(1, days_in_year(year));
        let mut asked = asked(&mut rng, length, (year, day));
        if at % 3 == 0 {
            asked.second.lists = asked.first.lists.clone();
        }
        let mut set = asked.first.clone();
        if year < 2025 {
            for list in 0..2 {
                let both = asked.first.lists[list]
                    .iter()
                    .zip(&asked.second.lists[list]);
                set.lists[2 + list] = both.map(|(first, second)| (second - first) / 5.0).collect();
                let still = set.lists[2 + list].iter().all(|rate| *rate == 0.0);
                assert_eq!(still, at % 3 == 0);
            }
        }
        let field = asked.place.field(&set).unwrap();
        let seven = rates(&asked.place, &set).unwrap();
        let expected = (
            [field.x, field.y, field.z].map(f32::to_bits),
            seven.map(f32::to_bits),
        );
        assert_eq!(asked.bits(), expected);
    }
}

/// The sets of any epoch are read in one way: only the offset counts.
#[test]
fn every_epoch_alike() {
    let mut rng = Rng::new(7);
    // 2000 and 2020 are leap years, and so are 2004 and 2024
    for (year, day) in [(2020, 1), (2020, 366), (2022, 200), (2024, 366)] {
        let later = asked(&mut rng, N_COEFF_MAX, (year, day));
        let mut earlier = later.clone();
        earlier.place.year -= 20;
        earlier.first.epoch_year -= 20;
        earlier.second.epoch_year -= 20;
        assert_eq!(earlier.bits(), later.bits());
    }
}

/// On the first day it is the first set, and on the last all but the second.
#[test]
fn five_years() {
    let mut rng = Rng::new(8);
    for epoch_year in [2000, 2005, 2010, 2015, 2020] {
        let mut first_day = asked(&mut rng, N_COEFF_MAX, (epoch_year, 1));
        let mut last_day = first_day.clone();
        (last_day.place.year, last_day.place.day) = (epoch_year + 4, days_in_year(epoch_year + 4));
        assert!(years_since_epoch(last_day.place.year, last_day.place.day, epoch_year) > 4.997);
        let mut next_day = first_day.clone();
        next_day.place.year += 5;
        next_day.first = first_day.second.clone();
        next_day.second.epoch_year += 5;
        let (last, next) = (last_day.field().unwrap(), next_day.field().unwrap());
        let rates = last_day.rates().unwrap();
        for i in 0..3 {
            let expected = f64::from(rates[i]) / f64::from(days_in_year(last_day.place.year));
            let step = f64::from(next[i]) - f64::from(last[i]);
            assert!((step - expected).abs() < 0.06, "{step} {expected}");
        }
        let by_first = first_day.field().unwrap();
        first_day.second = first_day.first.clone();
        first_day.second.epoch_year += 5;
        assert_eq!(first_day.field().unwrap(), by_first);
    }
}

/// The coefficients in double precision so many years after the first of two sets.
fn between(first: &Set, second: &Set, list: usize, offset: f64) -> Vec<f64> {
    let both = first.lists[list].iter().zip(&second.lists[list]);
    let both = both.map(|(first, second)| (f64::from(*first), f64::from(*second)));
    both.map(|(first, second)| first + offset * ((second - first) / 5.0))
        .collect()
}

#[test]
fn beside_double_precision() {
    let mut rng = Rng::new(9);
    // in nT, and in nT a year
    let mut largest = (0.0, 0.0);
    for (year, day) in [(2000, 1), (2003, 300), (2014, 365), (2024, 366)] {
        let Asked { first, second, .. } = asked(&mut rng, N_COEFF_MAX, (year, day));
        let offset = f64::from(years_since_epoch(year, day, first.epoch_year));
        for (there, place) in places(year, day) {
            let xyz = |offset: f64| {
                let [g, h] = [0, 1].map(|list| between(&first, &second, list, offset));
                there.sums(&g, &h)
            };
            let found = igrf(&place, &first, &second).unwrap();
            for (found, expected) in found.into_iter().zip(xyz(offset)) {
                largest.0 = f64::max(largest.0, (f64::from(found) - expected).abs());
            }
            let found = igrf_rates(&place, &first, &second).unwrap();
            for (found, expected) in found.into_iter().zip(rates_by(offset, xyz)).take(3) {
                largest.1 = f64::max(largest.1, (f64::from(found) - expected).abs());
            }
        }
    }
    assert!(largest.0 < 0.06 && largest.1 < 0.004, "{largest:?}");
}

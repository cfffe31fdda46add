//! The IGRF-14 profile: the field and its yearly rates from two lent sets, on days from 2000-01-01 to
//! 2029-12-31. Before 2025 each coefficient lies between those of the two sets, five years apart, and no
//! list of rates is looked at. From 2025 on the first set alone is read, and its rates are zero above
//! degree 8. The sums and the rotation are Field's. There is no error record.
use crate::coefficients::{check_entries, check_lengths, check_list, Lists};
use crate::entries::{components, Place, Refusal, Set, CAPS};
use crate::models::{date_to_epoch_year, days_in_year, years_since_epoch};
use crate::rates::FieldAndRates;
use crate::tables::coeff_index;

/// First and last day that the profile answers for, each as (year, day of year).
pub const IGRF_VALIDITY_RANGE: ((i32, i32), (i32, i32)) = ((2000, 1), (2029, 365));
/// The epoch of the last set. From its first day on no second set is read.
pub const LAST_EPOCH_YEAR: i32 = 2025;
/// Years from one set to the next.
const INTERVAL_YEARS: i32 = 5;
/// Rates of a higher degree are zero.
const RATES_MAX_DEGREE: usize = 8;

/// IGRF: X, Y, Z in nT. Refusals 1, 2, 3, 4, 5, 6, 23, 22, 7, 8.
pub fn igrf(place: &Place, first: &Set, second: &Set) -> Result<[f32; 3], Refusal> {
    with_lists(place, first, second, |lists, offset| {
        let (x, y, z) = place.geocentric().field_at_offset(lists, offset);
        Ok([x, y, z])
    })
}

/// The yearly rates of X, Y and Z [nT/year], of declination and inclination [degrees/year], and of H and
/// F [nT/year]. The refusals of `igrf`, then 21: H or F is zero.
pub fn igrf_rates(place: &Place, first: &Set, second: &Set) -> Result<[f32; 7], Refusal> {
    with_lists(place, first, second, |lists, offset| {
        let there = place.geocentric();
        let (x, y, z) = there.field_at_offset(lists, offset);
        // the rates as the main field, at offset zero
        let (x_rate, y_rate, z_rate) = there.field_at_offset(lists.rates_as_main(), 0.0);
        let found = FieldAndRates {
            field: components([x, y, z]),
            x_rate,
            y_rate,
            z_rate,
        };
        found.all()
    })
}

/// Makes the checks. Then hands on the lists that the sums take, main and rates, with the offset: the
/// coefficient at the date is main + offset * rate, two roundings, in either part of the profile.
fn with_lists<T>(
    place: &Place,
    first: &Set,
    second: &Set,
    answer: impl FnOnce(Lists, f32) -> Result<T, Refusal>,
) -> Result<T, Refusal> {
    place.check_place()?;
    let (epoch_year, offset) = epoch(place.year, place.day)?;
    if epoch_year == LAST_EPOCH_YEAR {
        return answer(check_last(first)?, offset);
    }
    match check_both(epoch_year, first, second)? {
        Lists::Degree12([g, h, later_g, later_h]) => {
            let rates = [yearly(g, later_g), yearly(h, later_h)];
            answer(Lists::Degree12([g, h, &rates[0], &rates[1]]), offset)
        }
        Lists::Degree13([g, h, later_g, later_h]) => {
            let rates = [yearly(g, later_g), yearly(h, later_h)];
            answer(Lists::Degree13([g, h, &rates[0], &rates[1]]), offset)
        }
    }
}

/// The day's epoch year and its offset. Refusals 4, 5: the day's alone.
fn epoch(year: i32, day: i32) -> Result<(i32, f32), Refusal> {
    if day < 1 || day > days_in_year(year) {
        return Err(Refusal::DayOfYear);
    }
    let (first, last) = IGRF_VALIDITY_RANGE;
    if year < first.0 || year > last.0 {
        return Err(Refusal::EpochYear { first, last });
    }
    let epoch_year = date_to_epoch_year(year);
    Ok((epoch_year, years_since_epoch(year, day, epoch_year)))
}

/// The rates between two sets: (second - first) / 5, two roundings.
fn yearly<const LENGTH: usize>(first: &[f32; LENGTH], second: &[f32; LENGTH]) -> [f32; LENGTH] {
    std::array::from_fn(|i| (second[i] - first[i]) / INTERVAL_YEARS as f32)
}

/// g and h of the first set, then of the second. Refusals 6, 23, 7, 8.
fn check_both<'a>(epoch_year: i32, first: &'a Set, second: &'a Set) -> Result<Lists<'a>, Refusal> {
    let [g, h, ..] = first.slices();
    let [later_g, later_h, ..] = second.slices();
    let lists = check_lengths([g, h, later_g, later_h])?;
    // the second set's numbers go on after the four lists of the first
    for (list, entries) in [(0, g), (1, h), (4, later_g), (5, later_h)] {
        check_list(list, CAPS[0], entries)?;
    }
    check_year(epoch_year, first)?;
    check_year(epoch_year + INTERVAL_YEARS, second)?;
    Ok(lists)
}

/// The four lists of the last set. Refusals 6, 23, 22, 7, 8.
fn check_last(set: &Set) -> Result<Lists<'_>, Refusal> {
    let lists = check_lengths(set.slices())?;
    let above = coeff_index(RATES_MAX_DEGREE + 1, 0);
    let is_zero = |rate: &f32| *rate == 0.0;
    if !set.lists[2..]
        .iter()
        .all(|rates| rates[above..].iter().all(is_zero))
    {
        return Err(Refusal::RateAboveEight);
    }
    match lists {
        Lists::Degree12(lists) => check_entries(lists)?,
        Lists::Degree13(lists) => check_entries(lists)?,
    }
    check_year(LAST_EPOCH_YEAR, set)?;
    Ok(lists)
}

/// Refusal 8: the set is of another year than the one that is read.
fn check_year(read: i32, set: &Set) -> Result<(), Refusal> {
    if set.epoch_year != read {
        return Err(Refusal::OtherEpoch {
            of_day: read,
            of_set: set.epoch_year,
        });
    }
    Ok(())
}

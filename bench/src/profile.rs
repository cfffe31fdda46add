//! The rows of the IGRF profile, at the places of the row Field and of degree 13: between two sets, and with
//! the last set alone.
use crate::cases::{longer_sets, Both, FieldCase};
use crate::{bits, place, refused, Bits};
use bench::timing::row;
use njerumoy::Day;
use oracle::cases::igrf_sets::ABOVE;
use oracle::igrf::{igrf, LAST_EPOCH_YEAR};

fn ours(case: &FieldCase, first: &Both, second: &Both) -> Bits {
    njerumoy::igrf(
        case.height,
        case.phi,
        case.lambda,
        case.day,
        &first.ours,
        &second.ours,
    )
    .map_err(|k| k.number())
    .and_then(|v| bits(v.x, v.y, v.z))
}

fn rust(case: &FieldCase, first: &Both, second: &Both) -> Bits {
    igrf(&place(case), &first.rust, &second.rust)
        .map_err(refused)
        .and_then(|[x, y, z]| bits(x, y, z))
}

/// The cases, each on a day of the five years of an epoch.
fn in_years(epoch_year: i32, fields: &[FieldCase]) -> Vec<FieldCase> {
    let dated = |case: &FieldCase| FieldCase {
        day: Day {
            year: epoch_year + case.day.year % 5,
            ..case.day
        },
        ..*case
    };
    fields.iter().map(dated).collect()
}

/// The set with zeros for the rates that the profile refuses.
fn forecast(set: &Both) -> Both {
    let mut rust = set.rust.clone();
    for rates in &mut rust.lists[2..] {
        rates[ABOVE..].fill(0.0);
    }
    Both::of(rust)
}

/// Gives whether our bits are the oracle's.
pub fn rows(rounds: usize, fields: &[FieldCase]) -> bool {
    let [first, second] = longer_sets();
    let last = forecast(&second);
    let same = [
        row(
            "IGRF, before 2025",
            rounds,
            &in_years(first.rust.epoch_year, fields),
            |c| ours(c, &first, &second),
            |c| rust(c, &first, &second),
        ),
        // the second set is not looked at
        row(
            "IGRF, from 2025 on",
            rounds,
            &in_years(LAST_EPOCH_YEAR, fields),
            |c| ours(c, &last, &first),
            |c| rust(c, &last, &first),
        ),
    ];
    same.iter().all(|same| *same)
}

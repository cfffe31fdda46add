//! The proved library beside the oracle's Rust, which makes the same checks: each row's answers are
//! compared bit for bit, then timed in turn. The rows in degrees are timed beside the machine's C library.
//!
//!   bench [ROUNDS]
mod angles;
mod cases;
mod profile;
mod storing;

use bench::listed::{self, List};
use bench::reading::{COF, LENGTH};
use bench::timing::{print_head, row};
use cases::{longer_sets, sets, Both, Components, FieldCase, Random, SumCase};
use njerumoy::Field;
use oracle::entries::{self, Place};
use oracle::field::WarningZone;
use oracle::layout::published_file;
use oracle::models::{WmmErrorModel, WMM_ERROR_MODELS};
use oracle::rates::rates;
use std::env;
use std::process::ExitCode;

pub const CASES: usize = 1000;
/// A file takes longer than any other case.
const FILES: usize = 100;
const ROUNDS: usize = 301;

/// An answer as bits. No case is refused; a refusal would be its number, and no bits.
pub type Bits = Result<[u32; 3], u32>;

pub fn bits(x: f32, y: f32, z: f32) -> Bits {
    Ok([x.to_bits(), y.to_bits(), z.to_bits()])
}

/// The number of a refusal of the oracle.
pub fn refused(refusal: entries::Refusal) -> u32 {
    refusal.number()
}

fn our_sum(case: &SumCase, sets: &[Both]) -> Bits {
    let set = &sets[case.set].ours;
    njerumoy::sum(case.theta, case.lambda, case.ratio, case.offset, set)
        .map_err(|k| k.number())
        .and_then(|v| bits(v.x, v.y, v.z))
}

fn rust_sum(case: &SumCase, sets: &[Both]) -> Bits {
    let (theta, lambda) = (case.theta, case.lambda);
    let lists = &sets[case.set].rust.lists;
    entries::sum(
        theta.cos,
        theta.sin,
        lambda.sin,
        lambda.cos,
        case.ratio,
        case.offset,
        lists,
    )
    .map_err(refused)
    .and_then(|(x, y, z)| bits(x, y, z))
}

fn our_field(case: &FieldCase, sets: &[Both]) -> Bits {
    njerumoy::field(
        case.height,
        case.phi,
        case.lambda,
        case.day,
        &sets[case.set].ours,
    )
    .map_err(|k| k.number())
    .and_then(|v| bits(v.x, v.y, v.z))
}

fn rust_field(case: &FieldCase, sets: &[Both]) -> Bits {
    let (phi, lambda, day) = (case.phi, case.lambda, case.day);
    let set = &sets[case.set].rust;
    entries::field(
        case.height,
        phi.sin,
        phi.cos,
        lambda.sin,
        lambda.cos,
        day.year,
        day.day_of_year,
        set,
    )
    .map_err(refused)
    .and_then(|v| bits(v.x, v.y, v.z))
}

fn our_rates(case: &FieldCase, sets: &[Both]) -> Result<[u32; 7], u32> {
    let set = &sets[case.set].ours;
    njerumoy::rates(case.height, case.phi, case.lambda, case.day, set)
        .map_err(|k| k.number())
        .map(|v| [v.x, v.y, v.z, v.declination, v.inclination, v.h, v.f].map(f32::to_bits))
}

fn rust_rates(case: &FieldCase, sets: &[Both]) -> Result<[u32; 7], u32> {
    rates(&place(case), &sets[case.set].rust)
        .map_err(refused)
        .map(|seven| seven.map(f32::to_bits))
}

fn our_strengths(case: &Components) -> Bits {
    let [x, y, z] = *case;
    let (epoch_year, errors) = (2020, njerumoy::Errors::default());
    let field = Field {
        x,
        y,
        z,
        epoch_year,
        errors,
    };
    let told = |k: njerumoy::Refusal| k.number();
    let zone = match field.zone().map_err(told)? {
        None => 0,
        Some(njerumoy::Zone::Blackout) => 1,
        Some(njerumoy::Zone::Caution) => 2,
    };
    let (h, f) = (field.h().map_err(told)?, field.f().map_err(told)?);
    Ok([h.to_bits(), f.to_bits(), zone])
}

fn rust_strengths(case: &Components) -> Bits {
    let field = entries::components(*case);
    let zone = match entries::zone(&field).map_err(refused)? {
        None => 0,
        Some(WarningZone::BlackoutZone) => 1,
        Some(WarningZone::CautionZone) => 2,
    };
    let h = entries::horizontal(&field).map_err(refused)?;
    let f = entries::total(&field).map_err(refused)?;
    Ok([h.to_bits(), f.to_bits(), zone])
}

fn our_root(x: &f32) -> Bits {
    njerumoy::square_root(*x)
        .map_err(|k| k.number())
        .and_then(|r| bits(r, 0.0, 0.0))
}

fn rust_root(x: &f32) -> Bits {
    entries::square_root(*x)
        .map_err(refused)
        .and_then(|r| bits(r, 0.0, 0.0))
}

/// The place and the day of a case.
fn place(case: &FieldCase) -> Place {
    Place {
        height: case.height,
        sin_phi: case.phi.sin,
        cos_phi: case.phi.cos,
        sin_lambda: case.lambda.sin,
        cos_lambda: case.lambda.cos,
        year: case.day.year,
        day: case.day.day_of_year,
    }
}

/// Error records of so many years, for each set a list in which its year stands last.
fn error_lists(count: i32) -> [List; 2] {
    WMM_ERROR_MODELS.map(|last| {
        let others = (1..count).map(|i| WmmErrorModel {
            epoch_year: last.epoch_year - 5 * i,
            ..last
        });
        List::of(others.chain([last]).collect(), last.epoch_year)
    })
}

/// The places after a call that answered, or its refusal.
fn answered<P>((number, places): (u32, P)) -> Result<P, u32> {
    match number {
        0 => Ok(places),
        _ => Err(number),
    }
}

/// The row of Field with lists of `count` error records.
fn field_listed(
    name: &str,
    count: i32,
    rounds: usize,
    fields: &[FieldCase],
    sets: &[Both],
) -> bool {
    let lists = error_lists(count);
    let places: Vec<(Place, usize)> = fields.iter().map(|c| (place(c), c.set)).collect();
    row(
        name,
        rounds,
        &places,
        |(place, at)| answered(listed::our_field(place, &sets[*at].rust, &lists[*at])),
        |(place, at)| answered(listed::rust_field(place, &sets[*at].rust, &lists[*at])),
    )
}

/// The row of the yearly rates, on the cases of the row Field.
fn yearly_rates(rounds: usize, fields: &[FieldCase], sets: &[Both]) -> bool {
    row(
        "Rates",
        rounds,
        fields,
        |c| our_rates(c, sets),
        |c| rust_rates(c, sets),
    )
}

/// The rows of degree 13, on the cases of the rows Sum, general and Field.
fn thirteen(rounds: usize, sums: &[SumCase], fields: &[FieldCase]) -> bool {
    let sets = longer_sets();
    let same = [
        row(
            "Sum, degree 13",
            rounds,
            sums,
            |c| our_sum(c, &sets),
            |c| rust_sum(c, &sets),
        ),
        row(
            "Field, degree 13",
            rounds,
            fields,
            |c| our_field(c, &sets),
            |c| rust_field(c, &sets),
        ),
    ];
    same.iter().all(|same| *same)
}

fn main() -> ExitCode {
    let rounds = match env::args().nth(1).map(|word| word.parse()) {
        None => ROUNDS,
        Some(Ok(rounds)) if rounds > 0 => rounds,
        Some(_) => {
            eprintln!("bench [ROUNDS]");
            return ExitCode::from(2);
        }
    };
    let sets = sets();
    let mut random = Random::new();
    let general = random.sums(CASES, 0.1, 179.9);
    let near_pole = random.sums(CASES, 0.0, 0.05);
    let fields = random.fields(CASES);
    let components = random.components(CASES);
    let numbers = random.numbers(CASES);
    let files = vec![published_file(2025).expect("a published epoch"); FILES];
    print_head();
    let same = [
        row(
            "Sum, general",
            rounds,
            &general,
            |c| our_sum(c, &sets),
            |c| rust_sum(c, &sets),
        ),
        row(
            "Sum, near the pole",
            rounds,
            &near_pole,
            |c| our_sum(c, &sets),
            |c| rust_sum(c, &sets),
        ),
        row(
            "Field",
            rounds,
            &fields,
            |c| our_field(c, &sets),
            |c| rust_field(c, &sets),
        ),
        thirteen(rounds, &general, &fields),
        profile::rows(rounds, &fields),
        yearly_rates(rounds, &fields, &sets),
        field_listed("Field, 2 records", 2, rounds, &fields, &sets),
        field_listed("Field, 20 records", 20, rounds, &fields, &sets),
        row(
            "H, F and zone",
            rounds,
            &components,
            our_strengths,
            rust_strengths,
        ),
        row("square root", rounds, &numbers, our_root, rust_root),
        row(
            "a file of 93 lines",
            rounds,
            &files,
            |text| answered(COF.ours(text, [LENGTH; 4])),
            |text| answered(COF.rust(text, [LENGTH; 4])),
        ),
        storing::rows(rounds, &fields, &sets),
        angles::rows(&mut random, rounds, &sets),
    ];
    if same.iter().all(|same| *same) {
        ExitCode::SUCCESS
    } else {
        println!("bench: the bits are not the same");
        ExitCode::FAILURE
    }
}

//! Compares the oracle with the whole crate world_magnetic_model. README.md says how it is run.
#![allow(dead_code)]

#[path = "../../oracle/src/coefficients.rs"]
mod coefficients;
mod compare;
#[path = "../../oracle/src/entries.rs"]
mod entries;
#[path = "../../oracle/src/field.rs"]
mod field;
mod limits;
#[path = "../../oracle/src/models.rs"]
mod models;
#[path = "../../oracle/src/refusal.rs"]
mod refusal;
#[path = "../../oracle/src/cases/rng.rs"]
mod rng;
#[path = "../../oracle/src/sets.rs"]
mod sets;
#[path = "../../oracle/src/synthesis.rs"]
mod synthesis;
#[path = "../../oracle/src/tables.rs"]
mod tables;
mod tally;

use compare::{compare, Place};
use entries::Set;
use rng::Rng;
use std::env;
use std::process::ExitCode;
use std::time::Instant;
use tally::{Tally, Value};

/// All days of 2020 to 2029.
fn days() -> Vec<(i32, i32)> {
    (2020..2030)
        .flat_map(|year| (1..=models::days_in_year(year)).map(move |day| (year, day)))
        .collect()
}

/// A random place. With `ends`, most of its parts are ends of ranges, or near a pole.
fn place(rng: &mut Rng, (year, day): (i32, i32), ends: bool) -> Place {
    let mut place = Place {
        height: rng.between(-1000.0, 850000.0) as f32,
        latitude: rng.between(-90.0, 90.0) as f32,
        longitude: rng.between(-180.0, 180.0) as f32,
        year,
        day,
    };
    if ends {
        let near_pole = 90.0 - rng.between(0.0, 0.12) as f32;
        let heights = [-1000.0, 0.0, 850000.0, place.height];
        let latitudes = [90.0, near_pole, near_pole, 55.0, 0.0, place.latitude];
        let longitudes = [180.0, 90.0, 0.0, place.longitude, place.longitude];
        place.height = rng.pick(&heights);
        place.latitude = rng.sign() * rng.pick(&latitudes);
        place.longitude = rng.sign() * rng.pick(&longitudes);
    }
    place
}

/// Compares at so many places, with the days in turn.
fn run(rng: &mut Rng, count: u64, ends: bool, sets: &[Set; 2]) -> Tally {
    let days = days();
    let mut tally = Tally::default();
    for (i, day) in (1..=count).zip(days.iter().cycle()) {
        let place = place(rng, *day, ends);
        let set = &sets[usize::from(place.year >= sets[1].epoch_year)];
        if compare(&place, set, &mut tally).is_none() {
            tally.refused += 1;
        }
        tally.keep_first(|| format!("{place:?}"));
        if i % 10_000_000 == 0 {
            eprintln!("{i} places so far");
        }
    }
    tally
}

fn main() -> ExitCode {
    let words: Vec<String> = env::args().skip(1).collect();
    let numbers: Vec<u64> = words.iter().filter_map(|word| word.parse().ok()).collect();
    let [seed, count] = numbers[..] else {
        eprintln!("whole-crate SEED COUNT");
        return ExitCode::from(2);
    };
    let sets = sets::WMM_MODELS.map(|model| Set::of(&model));
    let began = Instant::now();
    let mut rng = Rng::new(seed);
    println!("\n{count} random places");
    let random = run(&mut rng, count, false, &sets);
    random.print();
    println!(
        "\n{} places near a pole or at an end of a range",
        count / 16
    );
    let ends = run(&mut rng, count / 16, true, &sets);
    ends.print();
    println!("\nlimits");
    let (zones, presences) = limits::limits(&sets[1]);

    let both = |value: Value| random.differ(value) + ends.differ(value);
    let xyz = both(Value::XStored) + both(Value::YStored) + both(Value::ZStored);
    let zones = zones + both(Value::Zone);
    let presences = presences + both(Value::HasGridVariation);
    let unexplained = random.unexplained() + ends.unexplained();
    println!(
        "\nseed {seed}, {} places, {:.0} s",
        count + count / 16,
        began.elapsed().as_secs_f64()
    );
    println!(
        "differences: {xyz} in X, Y, Z as stored, {zones} in the zone, {presences} in whether there \
         is a grid variation, {unexplained} unexplained"
    );
    if xyz + zones + presences + unexplained == 0 {
        ExitCode::SUCCESS
    } else {
        ExitCode::FAILURE
    }
}

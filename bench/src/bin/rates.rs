//! The proved Rates beside the oracle's: both must give the same number and write the same places, to the
//! bit, and no others. First planned questions: all days, special places, special sets, sets whose field is
//! zero or next to it, and every two faults. Then random ones.
//!
//!   rates [COUNT]     COUNT random questions (1500000)
use bench::questions::{bad_places, bad_sets, good_place, published, random_count};
use bench::rates::{our_rates, rust_rates};
use bench::tally::Tally;
use oracle::cases::rates::{weak_set, WEAK_SETS};
use oracle::cases::stored::{set, WRITE_WAYS};
use oracle::cases::{Generator, Rng, AXES, LATITUDES, LONGITUDES, ROUND_LATITUDES};
use oracle::entries::{within, Place, Set, CAPS};
use oracle::format::{put_case, Case};
use oracle::models::{date_to_epoch_year, days_in_year};
use oracle::tables::N_COEFF;
use std::process::ExitCode;

/// How many random questions are compared.
const RANDOM: usize = 1_500_000;
const SEED: u64 = 1;
/// How often each way to make a set is taken.
const ROUNDS: usize = 4;
/// The longest list that is lent.
const LONGEST: usize = 128;

/// Compares a call.
fn compare(tally: &mut Tally, name: &str, place: &Place, set: &Set) {
    let (ours, rust) = (our_rates(place, set), rust_rates(place, set));
    tally.count(rust.number, ours == rust, || {
        let mut line = Vec::new();
        put_case(&mut line, &Case::Rates(*place));
        let line = String::from_utf8_lossy(&line);
        format!("{name}: {line}\n  ours {ours:08x?}\n  Rust {rust:08x?}")
    });
}

/// Both published sets on every day of ten years, each at places of its own.
fn days(tally: &mut Tally) {
    let mut generator = Generator::new(SEED);
    for year in 2020..2030 {
        let epoch_year = date_to_epoch_year(year);
        let set = published(epoch_year);
        for day in 1..=days_in_year(year) {
            for _ in 0..ROUNDS {
                let place = generator.place_by([None; 5], Some((year, day)));
                compare(tally, "a day", &place, &set);
            }
        }
    }
    tally.group("every day of ten years");
}

/// Every special latitude with every special longitude, near and at the poles and off the circle.
fn places(tally: &mut Tally) {
    let mut generator = Generator::new(SEED);
    for (epoch_year, day) in [(2020, (2020, 1)), (2025, (2029, 365))] {
        let set = published(epoch_year);
        for way in 0..LATITUDES * LONGITUDES {
            let (latitude, longitude) = (Some(way / LONGITUDES), Some(way % LONGITUDES));
            for _ in 0..ROUNDS {
                let ways = [None, latitude, longitude, None, None];
                let place = generator.place_by(ways, Some(day));
                compare(tally, "a special place", &place, &set);
            }
        }
    }
    tally.group("special latitudes and longitudes");
}

/// Sets with a field that is zero or next to it, at every special latitude on the circle, and at special
/// longitudes and others.
fn weak_sets(tally: &mut Tally) {
    let (mut generator, mut rng) = (Generator::new(SEED), Rng::new(SEED));
    for way in (0..WEAK_SETS).cycle().take(ROUNDS * WEAK_SETS) {
        let (set, day) = weak_set(&mut rng, N_COEFF, way);
        for latitude in 0..ROUND_LATITUDES {
            for longitude in [None, Some(rng.below(AXES)), Some(rng.below(AXES))] {
                let ways = [None, Some(latitude), longitude, None, None];
                let place = generator.place_by(ways, Some(day));
                compare(tally, &format!("weak set {way}"), &place, &set);
            }
        }
    }
    tally.group("a field that is zero or next to it");
}

/// Lists of every length, entries that are spoilt at each place, and special sets of any year.
fn sets(tally: &mut Tally) {
    let place = good_place(2027);
    for list in 0..4 {
        for length in 0..=LONGEST {
            let mut set = published(2025);
            set.lists[list].resize(length, 0.0);
            compare(tally, &format!("list {list} of {length}"), &place, &set);
        }
    }
    tally.group("lists of other lengths");
    for (list, cap) in CAPS.into_iter().enumerate() {
        let beyond = f32::from_bits(cap.to_bits() + 1);
        for index in 0..N_COEFF {
            for entry in [
                f32::NAN,
                f32::INFINITY,
                f32::NEG_INFINITY,
                beyond,
                -beyond,
                cap,
                -cap,
            ] {
                let mut set = published(2025);
                set.lists[list][index] = entry;
                compare(tally, &format!("list {list}, index {index}"), &place, &set);
            }
        }
    }
    tally.group("a special entry");
    let mut rng = Rng::new(SEED);
    let [_, years, ways] = WRITE_WAYS;
    for way in (0..years * ways).cycle().take(ROUNDS * years * ways) {
        let set = set(&mut rng, Some(way / ways), Some(way % ways));
        let name = format!("year {} and lists {}", set.epoch_year, way % ways);
        compare(tally, &name, &place, &set);
    }
    tally.group("special years and lists");
}

/// The same set without its field: all entries zero but those that are refused.
fn without_field(set: &Set) -> Set {
    let mut set = set.clone();
    for (list, cap) in set.lists.iter_mut().zip(CAPS) {
        for entry in list.iter_mut().filter(|entry| within(**entry, -cap, cap)) {
            *entry = 0.0;
        }
    }
    set
}

/// Each fault of a place and a day beside each fault of a set, with a field and without one.
fn faults(tally: &mut Tally) {
    let places = [bad_places(), vec![good_place(2027)]].concat();
    let sets = [bad_sets(), vec![published(2025)]].concat();
    for place in &places {
        for set in &sets {
            compare(tally, "faults", place, set);
            compare(tally, "faults and no field", place, &without_field(set));
        }
    }
    tally.group("every two faults");
}

/// Random questions. One seed gives the same ones again.
fn random(tally: &mut Tally, count: usize) {
    let mut generator = Generator::new(SEED);
    let mut lines = Vec::new();
    for number in 0..count {
        lines.clear();
        let place = generator.rates_place(&mut lines);
        let name = format!("random question {number}");
        compare(tally, &name, &place, generator.set());
    }
    tally.group("random sets and places");
}

fn main() -> ExitCode {
    let Some(count) = random_count("rates", RANDOM) else {
        return ExitCode::from(2);
    };
    let mut tally = Tally::default();
    days(&mut tally);
    places(&mut tally);
    weak_sets(&mut tally);
    sets(&mut tally);
    faults(&mut tally);
    random(&mut tally, count);
    tally.end()
}

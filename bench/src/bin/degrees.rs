//! The proved Sum, Field in its three forms and Rates beside the oracle's, with sets of degree 13 and with
//! lists of both degrees: both must give the same number and write the same places, to the bit, and no
//! others. First planned questions: all days, special places, every length of each list, and a special
//! entry at each place. Then random ones. The readers and the writer of sets know degree 12 alone: they
//! are asked with lists of both lengths too.
//!
//!   degrees [COUNT]     COUNT random questions (1500000)
use bench::calls::compare;
use bench::questions::{good_place, published, random_count};
use bench::reading::{COF, STORED};
use bench::stored::{our_write, rust_write, told};
use bench::tally::Tally;
use oracle::angles::DegreePlace;
use oracle::cases::stored::tagged;
use oracle::cases::{Generator, Kind, Rng, LATITUDES, LONGITUDES};
use oracle::degrees::InDegrees;
use oracle::entries::{Place, Set, CAPS};
use oracle::format::Case;
use oracle::layout::published_file;
use oracle::listed::{Asked, Listed};
use oracle::models::{date_to_epoch_year, days_in_year, WMM_ERROR_MODELS};
use oracle::stored::STORED_LENGTH;
use oracle::tables::{N_COEFF, N_COEFF_MAX};
use std::process::ExitCode;

/// How many random questions are compared.
const RANDOM: usize = 1_500_000;
const SEED: u64 = 1;
/// How often each day and each special place is taken.
const ROUNDS: usize = 4;
/// The longest list that is lent.
const LONGEST: usize = 128;
/// The kinds of random questions, in turn.
const KINDS: [Kind; 5] = [
    Kind::Sum13,
    Kind::Field13,
    Kind::Rates13,
    Kind::Flist13,
    Kind::Fdeg13,
];

/// A published set with lists of 104. The entries of degree 13 are of the size that they have on Earth.
fn longer(rng: &mut Rng, epoch_year: i32) -> Set {
    let mut set = published(epoch_year);
    for (list, size) in set.lists.iter_mut().zip([1.0, 1.0, 0.1, 0.1]) {
        list.resize_with(N_COEFF_MAX, || rng.between(-size, size) as f32);
    }
    set
}

/// A place and a day as a question to each call. Sum has the pair of the latitude as its colatitude, and
/// Field in degrees a place of its own.
fn questions(place: Place) -> [Case<'static>; 5] {
    let in_degrees = DegreePlace {
        height: place.height,
        latitude_deg: -33.5,
        longitude_deg: 151.25,
        year: place.year,
        day: place.day,
    };
    [
        Case::Sum {
            cos_theta: place.sin_phi,
            sin_theta: place.cos_phi,
            sin_lambda: place.sin_lambda,
            cos_lambda: place.cos_lambda,
            ratio: 0.9375,
            offset: 2.5,
        },
        Case::Field(place),
        Case::Rates(place),
        Case::Listed(Listed {
            asked: Asked::Field(place),
            records: WMM_ERROR_MODELS.to_vec(),
        }),
        Case::InDegrees(InDegrees::Fdeg(in_degrees)),
    ]
}

/// Compares a question to each call.
fn compare_all(tally: &mut Tally, name: &str, place: Place, set: &Set) {
    for case in &questions(place) {
        compare(tally, name, case, set);
    }
}

/// A set of degree 13 on every day of ten years, each at places of its own.
fn days(tally: &mut Tally) {
    let (mut generator, mut rng) = (Generator::new(SEED), Rng::new(SEED));
    for year in 2020..2030 {
        let set = longer(&mut rng, date_to_epoch_year(year));
        for day in 1..=days_in_year(year) {
            for _ in 0..ROUNDS {
                let place = generator.place_by([None; 5], Some((year, day)));
                compare_all(tally, "a day", place, &set);
            }
        }
    }
    tally.group("every day of ten years");
}

/// Every special latitude with every special longitude, near and at the poles and off the circle.
fn places(tally: &mut Tally) {
    let (mut generator, mut rng) = (Generator::new(SEED), Rng::new(SEED));
    for (epoch_year, day) in [(2020, (2020, 1)), (2025, (2029, 365))] {
        let set = longer(&mut rng, epoch_year);
        for way in 0..LATITUDES * LONGITUDES {
            let (latitude, longitude) = (Some(way / LONGITUDES), Some(way % LONGITUDES));
            for _ in 0..ROUNDS {
                let ways = [None, latitude, longitude, None, None];
                let place = generator.place_by(ways, Some(day));
                compare_all(tally, "a special place", place, &set);
            }
        }
    }
    tally.group("special latitudes and longitudes");
}

/// 90 or 104 for each list, by the bits of a number.
fn lengths_of(mix: usize) -> [usize; 4] {
    [0, 1, 2, 3].map(|list| [N_COEFF, N_COEFF_MAX][mix >> list & 1])
}

/// A set with its lists cut, or with zeros at their ends.
fn resized(set: &Set, lengths: [usize; 4]) -> Set {
    let mut set = set.clone();
    for (list, length) in set.lists.iter_mut().zip(lengths) {
        list.resize(length, 0.0);
    }
    set
}

/// Every length of each list, beside lists of 90, of 104 and of both; with good entries, and with a spoilt
/// one in each list.
fn lengths(tally: &mut Tally) {
    let good = longer(&mut Rng::new(SEED), 2025);
    let mut spoilt = good.clone();
    for list in &mut spoilt.lists {
        list[7] = f32::NAN;
    }
    for way in 0..16 * 4 * (LONGEST + 1) {
        let mut lengths = lengths_of(way % 16);
        lengths[way / 16 % 4] = way / 64;
        for set in [&good, &spoilt] {
            let name = format!("lists of {lengths:?}");
            compare_all(tally, &name, good_place(2027), &resized(set, lengths));
        }
    }
    tally.group("lists of every length");
}

/// The readers and the writer with lists of 90, of 104 and of both: only the first are taken.
fn stored(tally: &mut Tally) {
    let good = longer(&mut Rng::new(SEED), 2025);
    let file = published_file(2025).expect("a published epoch");
    let bytes = tagged(&published(2025));
    for mix in 0..16 {
        let lengths = lengths_of(mix);
        let name = format!("lists of {lengths:?}");
        COF.compare(tally, &name, &file, lengths);
        STORED.compare(tally, &name, &bytes, lengths);
        let set = resized(&good, lengths);
        let (ours, rust) = (
            our_write(&set, STORED_LENGTH),
            rust_write(&set, STORED_LENGTH),
        );
        tally.count(rust.0, ours == rust, || {
            format!("{name}:\n  ours {}\n  Rust {}", told(&ours), told(&rust))
        });
    }
    tally.group("sets that are read and stored");
}

/// A special entry at each place of each list of 104.
fn entries(tally: &mut Tally) {
    let good = longer(&mut Rng::new(SEED), 2025);
    for (list, cap) in CAPS.into_iter().enumerate() {
        let beyond = f32::from_bits(cap.to_bits() + 1);
        let [inf, nan] = [f32::INFINITY, f32::NAN];
        for index in 0..N_COEFF_MAX {
            for entry in [nan, -nan, inf, -inf, beyond, -beyond, cap, -cap] {
                let mut set = good.clone();
                set.lists[list][index] = entry;
                let name = format!("list {list}, index {index}");
                compare_all(tally, &name, good_place(2027), &set);
            }
        }
    }
    tally.group("a special entry");
}

/// Random questions. One seed gives the same ones again.
fn random(tally: &mut Tally, count: usize) {
    let mut generator = Generator::new(SEED);
    let mut lines = Vec::new();
    for number in 0..count {
        lines.clear();
        let case = generator.question(KINDS[number % KINDS.len()], &mut lines);
        let name = format!("random question {number}");
        compare(tally, &name, &case, generator.set());
    }
    tally.group("random sets and places");
}

fn main() -> ExitCode {
    let Some(count) = random_count("degrees", RANDOM) else {
        return ExitCode::from(2);
    };
    let mut tally = Tally::default();
    days(&mut tally);
    places(&mut tally);
    lengths(&mut tally);
    stored(&mut tally);
    entries(&mut tally);
    random(&mut tally, count);
    tally.end()
}

//! The proved Field and Uncertainty with a lent list of error records beside the oracle's: both must
//! give the same number and write the same places, to the bit, and no others. First planned lists:
//! each with a good question, with each fault of a question, and for many years. Then random
//! questions with random lists. Then the calls without a list beside those with the two built-in
//! records.
//!
//!   lists [COUNT]     COUNT random questions to each of the two (1500000)
use bench::kinds::Kinds;
use bench::listed::{
    our_field, our_field_alone, our_uncertainty, our_uncertainty_alone, rust_field,
    rust_uncertainty, told, List,
};
use bench::questions::{faults, good_place, published, random_count};
use bench::tally::Tally;
use oracle::cases::records::GROUPS;
use oracle::cases::{Generator, Kind, TURNS};
use oracle::entries::Set;
use oracle::listed::{Asked, Listed};
use oracle::models::{date_to_epoch_year, WmmErrorModel, WMM_ERROR_MODELS};
use std::process::ExitCode;

/// How many random questions are compared.
const RANDOM: usize = 1_500_000;
const SEED: u64 = 1;

/// Years that Uncertainty is asked for.
const YEARS: [i32; 8] = [2020, 2025, 2030, 0, -1, -2025, i32::MIN, i32::MAX];
/// Components that are taken: common ones, H = 0, H = 0 by its squares, the largest.
const TAKEN: [[f32; 3]; 4] = [
    [20000.0, -1000.0, 40000.0],
    [0.0, -0.0, 1.0],
    [1e-30, 1e-30, 0.0],
    [1152921504606846976.0; 3],
];
/// What no component may be. The last two are a step over 2^60 in size.
const REFUSED: [u32; 5] = [
    0x7fc0_0000,
    0x7f80_0000,
    0xff80_0000,
    0x5d80_0001,
    0xdd80_0001,
];

/// The epoch year whose record is looked for.
fn year_of(asked: &Asked) -> i32 {
    match *asked {
        Asked::Field(place) => date_to_epoch_year(place.year),
        Asked::Uncertainty { epoch_year, .. } => epoch_year,
    }
}

/// Compares a call. Gives its number, and whether both sides are the same.
fn compare(tally: &mut Tally, listed: &Listed, set: &Set) -> (u32, bool) {
    let list = List::of(listed.records.clone(), year_of(&listed.asked));
    let (ours, rust) = match listed.asked {
        Asked::Field(place) => (
            our_field(&place, set, &list),
            rust_field(&place, set, &list),
        ),
        Asked::Uncertainty { xyz, epoch_year } => (
            our_uncertainty(xyz, epoch_year, &list),
            rust_uncertainty(xyz, epoch_year, &list),
        ),
    };
    let same = ours == rust;
    tally.count(rust.0, same, || {
        let mut line = Vec::new();
        listed.put(&mut line);
        let line = String::from_utf8_lossy(&line);
        format!("{line}\n  ours {}\n  Rust {}", told(&ours), told(&rust))
    });
    (rust.0, same)
}

/// Field with the planned list at a place: two good questions.
fn fields(tally: &mut Tally, generator: &mut Generator, place: usize) {
    for (year, epoch_year) in [(2024, 2020), (2027, 2025)] {
        let records = generator.records(Some(place), epoch_year);
        let asked = Asked::Field(good_place(year));
        compare(tally, &Listed { asked, records }, &published(epoch_year));
    }
}

/// Field with the planned list at a place: every fault.
fn refused_fields(tally: &mut Tally, generator: &mut Generator, place: usize) {
    for (asked, set) in faults() {
        let records = generator.records(Some(place), date_to_epoch_year(asked.year));
        let asked = Asked::Field(asked);
        compare(tally, &Listed { asked, records }, &set);
    }
}

/// Uncertainty with the planned list at a place: all years, with components that are taken and that
/// are refused.
fn uncertainties(tally: &mut Tally, generator: &mut Generator, place: usize) {
    let mut components = TAKEN.to_vec();
    for at in 0..3 {
        for bits in REFUSED {
            let mut xyz = TAKEN[0];
            xyz[at] = f32::from_bits(bits);
            components.push(xyz);
        }
    }
    for epoch_year in YEARS {
        for xyz in &components {
            let records = generator.records(Some(place), epoch_year);
            let asked = Asked::Uncertainty {
                xyz: *xyz,
                epoch_year,
            };
            compare(tally, &Listed { asked, records }, &Set::default());
        }
    }
}

/// Every planned list, group by group.
fn planned(tally: &mut Tally, generator: &mut Generator) {
    type Ask = fn(&mut Tally, &mut Generator, usize);
    let asks: [(&str, Ask); 3] = [
        ("Field", fields),
        ("Field 1 to 8", refused_fields),
        ("Uncertainty", uncertainties),
    ];
    for (entry, ask) in asks {
        let mut place = 0;
        for (_, name, lists) in GROUPS {
            for _ in 0..lists {
                ask(tally, generator, place);
                place += 1;
            }
            tally.group(&format!("{entry}: {name}"));
        }
    }
    for place in 0..TURNS {
        for epoch_year in YEARS {
            let listed = generator.turning(place, epoch_year);
            compare(tally, &listed, &Set::default());
        }
    }
    tally.group("Uncertainty: H = 0, 180, and ends");
    long_lists(tally);
}

/// Lists of many records: the year in the first place, in the last one, and nowhere.
fn long_lists(tally: &mut Tally) {
    for count in [21, 1000, 100_000] {
        for year_at in [Some(0), Some(count - 1), None] {
            let record = |at: usize| {
                let year = if Some(at) == year_at {
                    2025
                } else {
                    at as i32 - 200_000
                };
                WmmErrorModel::of(year, [at as f32; 8])
            };
            let records: Vec<WmmErrorModel> = (0..count).map(record).collect();
            let (xyz, epoch_year) = (TAKEN[0], 2025);
            for asked in [
                Asked::Field(good_place(2027)),
                Asked::Uncertainty { xyz, epoch_year },
            ] {
                let records = records.clone();
                compare(tally, &Listed { asked, records }, &published(2025));
            }
        }
    }
    tally.group("both: lists of up to 100000 records");
}

/// Random questions of a kind. One seed gives the same ones again.
fn random(kind: Kind, count: usize, mut each: impl FnMut(Listed, &Set)) {
    let mut generator = Generator::new(SEED);
    let mut lines = Vec::new();
    for _ in 0..count {
        lines.clear();
        let listed = generator.listed(kind, &mut lines);
        each(listed, generator.set());
    }
}

/// The call without a list beside the one with the two built-in records. The two differ in one thing:
/// where Uncertainty without a list refuses by 5, it refuses by 15 with one.
fn compare_alone(tally: &mut Tally, listed: Listed, set: &Set) {
    let built_in = &List::of(WMM_ERROR_MODELS.to_vec(), year_of(&listed.asked));
    let (alone, mut with) = match listed.asked {
        Asked::Field(place) => (
            our_field_alone(&place, set),
            our_field(&place, set, built_in),
        ),
        Asked::Uncertainty { xyz, epoch_year } => (
            our_uncertainty_alone(xyz, epoch_year),
            our_uncertainty(xyz, epoch_year, built_in),
        ),
    };
    if let (Asked::Uncertainty { .. }, 15) = (listed.asked, with.0) {
        with.0 = 5;
    }
    tally.count(alone.0, alone == with, || {
        let asked = listed.asked;
        format!(
            "{asked:?}\n  alone {}\n  with {}",
            told(&alone),
            told(&with)
        )
    });
}

fn main() -> ExitCode {
    let Some(count) = random_count("lists", RANDOM) else {
        return ExitCode::from(2);
    };
    let mut tally = Tally::default();
    planned(&mut tally, &mut Generator::new(SEED));
    let kinds = [(Kind::Flist, "Field"), (Kind::Ulist, "Uncertainty")];
    for (kind, entry) in kinds {
        let mut met = Kinds::default();
        random(kind, count, |listed, set| {
            let (number, same) = compare(&mut tally, &listed, set);
            met.count(&listed.records, year_of(&listed.asked), number, same);
        });
        tally.group(&format!("{entry}: random lists"));
        met.print();
    }
    for (kind, entry) in kinds {
        random(kind, count, |listed, set| {
            compare_alone(&mut tally, listed, set)
        });
        tally.group(&format!("{entry}: alone, and with the two"));
    }
    tally.end()
}

//! What the comparisons ask: good questions, questions with one fault, and how many random ones.
use oracle::entries::{Place, Set};
use oracle::models::model_by_epoch_year;
use std::env;

/// The number of random cases: the word after the program's name, or `usual` where there is none. Where it
/// is no number, this prints how the program is called.
pub fn random_count(program: &str, usual: usize) -> Option<usize> {
    let Some(word) = env::args().nth(1) else {
        return Some(usual);
    };
    let count = word.parse().ok();
    if count.is_none() {
        eprintln!("{program} [COUNT]");
    }
    count
}

pub fn good_place(year: i32) -> Place {
    Place {
        height: 1000.0,
        sin_phi: 0.6,
        cos_phi: 0.8,
        sin_lambda: -0.28,
        cos_lambda: 0.96,
        year,
        day: 100,
    }
}

pub fn published(epoch_year: i32) -> Set {
    Set::of(model_by_epoch_year(epoch_year).expect("a published epoch"))
}

/// Places and days that are refused by 1 to 5 with a set of 2025, each by one fault.
pub fn bad_places() -> Vec<Place> {
    type Fault = fn(&mut Place);
    let faults: [Fault; 10] = [
        |place| place.height = f32::NAN,
        |place| place.height = -1001.0,
        |place| place.height = 850001.0,
        |place| place.cos_phi = 0.9,
        |place| place.cos_phi = -0.8,
        |place| place.sin_lambda = f32::NEG_INFINITY,
        |place| place.day = 0,
        |place| place.day = 367,
        |place| place.year = 2019,
        |place| place.year = 2030,
    ];
    let spoilt = faults.map(|spoil| {
        let mut place = good_place(2027);
        spoil(&mut place);
        place
    });
    spoilt.to_vec()
}

/// Sets that are refused by 5 to 8 on a day of 2027, each by one fault.
pub fn bad_sets() -> Vec<Set> {
    let mut sets = Vec::new();
    for epoch_year in [2020, 2021, -2025] {
        let lists = published(2025).lists;
        sets.push(Set { epoch_year, lists });
    }
    for list in 0..4 {
        for length in [0, 89, 91] {
            let mut set = published(2025);
            set.lists[list].resize(length, 0.0);
            sets.push(set);
        }
        for (index, entry) in [(0, f32::NAN), (89, -65537.0)] {
            let mut set = published(2025);
            set.lists[list][index] = entry;
            sets.push(set);
        }
    }
    sets
}

/// Questions that are refused by 1 to 8, each by one fault.
pub fn faults() -> Vec<(Place, Set)> {
    let places = bad_places()
        .into_iter()
        .map(|place| (place, published(2025)));
    let sets = bad_sets().into_iter().map(|set| (good_place(2027), set));
    places.chain(sets).collect()
}

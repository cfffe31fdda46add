//! Lists of error records: planned ones, in groups, and random ones. Each is made for the year that
//! will be asked for.
use super::rng::Rng;
use super::values::{any_scale, common, step, SMALL};
use crate::listed::MAX_RECORDS;
use crate::models::{WmmErrorModel, WMM_ERROR_MODELS};

pub const FIGURES: usize = 8;
/// The number of special figures.
pub const SPECIAL: usize = 27;

/// Special figures: what every pool has. Half of them can be used.
pub fn special_figures() -> Vec<f32> {
    common()
}

/// Lists of 1 to 20 records, with each of their places.
const PLACES: usize = MAX_RECORDS * (MAX_RECORDS + 1) / 2;

/// What a planned list is about.
#[derive(Copy, Clone, Debug, PartialEq)]
pub enum Group {
    /// 0 to 20 records, none of the year.
    Absent,
    /// 1 to 20 records, one of the year, at each place.
    OnePlace,
    /// 2 to 20 records: one of the year at each place but the last, and more of the year after it.
    Repeated,
    /// A special figure at each place of the record that is found.
    Found,
    /// The same in a record of another year that stands before it.
    EarlierOther,
    /// The same in a record of another year that stands after it.
    LaterOther,
    /// The same in a later record of the year.
    LaterSame,
    /// 2 to 20 records, of which only the one that is found can be used, at each place.
    OthersBad,
}

/// Every group, its name, and the number of its lists.
pub const GROUPS: [(Group, &str, usize); 8] = [
    (Group::Absent, "no record of the year", MAX_RECORDS + 1),
    (Group::OnePlace, "the year in one place", PLACES),
    (Group::Repeated, "the year repeated", PLACES - MAX_RECORDS),
    (Group::Found, "a figure of the found one", FIGURES * SPECIAL),
    (
        Group::EarlierOther,
        "a figure of an earlier one",
        FIGURES * SPECIAL,
    ),
    (
        Group::LaterOther,
        "a figure of a later one",
        FIGURES * SPECIAL,
    ),
    (
        Group::LaterSame,
        "a figure of the year's next",
        FIGURES * SPECIAL,
    ),
    (Group::OthersBad, "all others bad", PLACES - 1),
];

/// The number of planned lists.
pub fn planned_lists() -> usize {
    GROUPS.iter().map(|(_, _, ways)| ways).sum()
}

/// The group and the way at a place of all planned lists.
pub fn group_at(mut place: usize) -> (Group, usize) {
    for (group, _, ways) in GROUPS {
        if place < ways {
            return (group, place);
        }
        place -= ways;
    }
    unreachable!("there are fewer planned lists")
}

/// A year that is not this one: often near to it, or the same in part of its bits.
fn other_year(rng: &mut Rng, year: i32) -> i32 {
    loop {
        let other = match rng.below(8) {
            0 => year.wrapping_add(rng.pick(&[-5, -1, 1, 5])),
            1 => year.wrapping_neg(),
            2 => year ^ (1 << rng.below(32)),
            3 => year.wrapping_add(rng.pick(&[-65536, 65536, 1 << 24])),
            4 => rng.pick(&[i32::MIN, i32::MIN + 1, -1, 0, 1, i32::MAX]),
            5 => rng.bits() as i32,
            _ => rng.pick(&[2015, 2020, 2025, 2030]),
        };
        if other != year {
            return other;
        }
    }
}

/// A figure that can be used, of any size.
fn good_figure(rng: &mut Rng) -> f32 {
    match rng.below(8) {
        0 => rng.pick(&[0.0, -0.0, f32::MAX, 1e30]),
        1 => f32::from_bits(rng.pick(&SMALL)),
        2 => f32::from_bits(rng.bits() >> 9), // zero and the subnormals
        3 => any_scale(rng, -150.0, 127.9).abs(),
        4 => rng.between(0.0, 1.0) as f32,
        _ => rng.between(0.0, 6000.0) as f32,
    }
}

/// A record that can be used: a built-in one under this year, or any.
fn good_record(rng: &mut Rng, epoch_year: i32) -> WmmErrorModel {
    if rng.once_in(4) {
        let model = rng.pick(&WMM_ERROR_MODELS);
        return WmmErrorModel {
            epoch_year,
            ..model
        };
    }
    let mut figures = [0; FIGURES].map(|_| good_figure(rng));
    // the uncertainty is seldom below 180 where sigma_c is any number
    if rng.once_in(2) {
        figures[0] = rng.between(0.0, 1.0) as f32;
    }
    WmmErrorModel::of(epoch_year, figures)
}

/// So many good records, the one at `found` of this year and all others of other years.
fn good_list(rng: &mut Rng, year: i32, count: usize, found: Option<usize>) -> Vec<WmmErrorModel> {
    let record = |at: usize| {
        let of_it = if Some(at) == found {
            year
        } else {
            other_year(rng, year)
        };
        good_record(rng, of_it)
    };
    (0..count).map(record).collect()
}

/// Good records, one of them of this year.
pub fn found_list(rng: &mut Rng, year: i32) -> Vec<WmmErrorModel> {
    let (count, found) = place_of(rng.below(PLACES));
    good_list(rng, year, count, Some(found))
}

/// Puts a value in the place of a figure.
pub fn put_figure(record: &mut WmmErrorModel, place: usize, value: f32) {
    let mut figures = record.figures();
    figures[place] = value;
    *record = WmmErrorModel::of(record.epoch_year, figures);
}

/// A count from 1 on, and one of its places.
fn place_of(way: usize) -> (usize, usize) {
    let (mut count, mut place) = (1, way);
    while place >= count {
        place -= count;
        count += 1;
    }
    (count, place)
}

/// A count, and two of its places, the lower one first.
fn two_places(rng: &mut Rng) -> (usize, usize, usize) {
    let count = 2 + rng.below(MAX_RECORDS - 1);
    let first = rng.below(count - 1);
    let second = first + 1 + rng.below(count - 1 - first);
    (count, first, second)
}

/// The planned list of a group, for a year.
pub fn planned(rng: &mut Rng, group: Group, way: usize, year: i32) -> Vec<WmmErrorModel> {
    match group {
        Group::Absent => good_list(rng, year, way, None),
        Group::OnePlace => {
            let (count, found) = place_of(way);
            good_list(rng, year, count, Some(found))
        }
        Group::Repeated => repeated(rng, way, year),
        Group::OthersBad => others_bad(rng, way, year),
        _ => one_special(rng, group, way, year),
    }
}

/// A list with a special figure in one record.
fn one_special(rng: &mut Rng, group: Group, way: usize, year: i32) -> Vec<WmmErrorModel> {
    let (count, first, second) = two_places(rng);
    let (count, found, special) = match group {
        Group::Found => {
            let (count, found) = place_of(rng.below(PLACES));
            (count, found, found)
        }
        Group::EarlierOther => (count, second, first),
        _ => (count, first, second),
    };
    let mut list = good_list(rng, year, count, Some(found));
    if group == Group::LaterSame {
        list[special].epoch_year = year;
    }
    let figure = special_figures()[way / FIGURES];
    put_figure(&mut list[special], way % FIGURES, figure);
    list
}

/// One good record of the year. All others are bad in every figure, and after it some of them are of
/// the year too.
fn others_bad(rng: &mut Rng, way: usize, year: i32) -> Vec<WmmErrorModel> {
    let (count, found) = place_of(way + 1);
    let mut list = good_list(rng, year, count, Some(found));
    let bad = [f32::NAN, f32::INFINITY, f32::NEG_INFINITY, -1.0];
    for (at, record) in list.iter_mut().enumerate().filter(|(at, _)| *at != found) {
        let same = at > found && rng.once_in(2);
        let epoch_year = if same { year } else { record.epoch_year };
        *record = WmmErrorModel::of(epoch_year, [0; FIGURES].map(|_| rng.pick(&bad)));
    }
    list
}

/// The year at each place but the last of each count, and again after it: in the last place, with
/// other figures, and in half of those between.
fn repeated(rng: &mut Rng, way: usize, year: i32) -> Vec<WmmErrorModel> {
    let (before, first) = place_of(way);
    let mut list = good_list(rng, year, before + 1, Some(first));
    for (later, record) in list.iter_mut().enumerate().skip(first + 1) {
        if later == before || rng.once_in(2) {
            record.epoch_year = year;
        }
    }
    let place = way % FIGURES;
    let other = step(list[first].figures()[place], 1);
    put_figure(&mut list[before], place, other);
    list
}

/// A random list, for a year. The year comes never, seldom, often or in the last place alone, and
/// special figures never, seldom or often.
pub fn random_list(rng: &mut Rng, year: i32) -> Vec<WmmErrorModel> {
    let count = rng.below(MAX_RECORDS + 1);
    let last = if count > 0 && rng.once_in(2) {
        Some(count - 1)
    } else {
        None
    };
    let mut list = good_list(rng, year, count, last);
    let of_year = rng.pick(&[0, 8, 4, 2]);
    let special = rng.pick(&[0, 0, 64, 8]);
    for record in &mut list {
        if of_year > 0 && rng.once_in(of_year) {
            record.epoch_year = year;
        }
        for place in 0..FIGURES {
            if special > 0 && rng.once_in(special) {
                put_figure(record, place, rng.pick(&special_figures()));
            }
        }
    }
    list
}

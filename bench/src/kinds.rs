//! What kinds of lists the random ones are.
use oracle::models::WmmErrorModel;
use oracle::records::{is_figure, record};
use std::collections::BTreeMap;

/// For each kind the calls with such a list, and how many of them differ.
#[derive(Default)]
pub struct Kinds(BTreeMap<&'static str, (u64, u64)>);

impl Kinds {
    /// Counts a call with a list of which the record of this year is asked for.
    pub fn count(&mut self, records: &[WmmErrorModel], year: i32, number: u32, same: bool) {
        for kind in kinds_of(records, year, number) {
            let (calls, differing) = self.0.entry(kind).or_default();
            *calls += 1;
            *differing += u64::from(!same);
        }
    }

    /// Prints a line for each kind.
    pub fn print(&self) {
        for (kind, (calls, differing)) in &self.0 {
            println!("    {kind:<40} {calls:>8} calls, {differing} differences");
        }
    }
}

fn kinds_of(records: &[WmmErrorModel], year: i32, number: u32) -> Vec<&'static str> {
    let mut kinds = Vec::new();
    let mut kind = |is_one: bool, name: &'static str| kinds.extend(is_one.then_some(name));
    let count = records.len();
    kind(count == 0, "no records");
    kind(count == 1, "1 record");
    kind(count == 20, "20 records");
    kind(
        records.iter().any(|model| model.epoch_year < 0),
        "a year below zero",
    );
    let is_end = |model: &WmmErrorModel| [i32::MIN, i32::MAX].contains(&model.epoch_year);
    kind(records.iter().any(is_end), "a year at an end of i32");
    kind(
        number < 9 && number > 0 && record(records, year).is_err(),
        "refused by 1 to 8, and by the list",
    );
    let Some(at) = records.iter().position(|model| model.epoch_year == year) else {
        kind(count > 0, "records, and none of the year");
        return kinds;
    };
    kind(
        count > 1 && at == count - 1,
        "the year in the last place alone",
    );
    let is_again = |model: &WmmErrorModel| {
        model.epoch_year == year && model.figures() != records[at].figures()
    };
    kind(
        records[at + 1..].iter().any(is_again),
        "the year again, with other figures",
    );
    let is_bad = |model: &WmmErrorModel| !model.figures().into_iter().all(is_figure);
    let others = [&records[..at], &records[at + 1..]].concat();
    kind(
        number == 0 && others.iter().any(is_bad),
        "answered, with a bad figure elsewhere",
    );
    kinds.extend(figures_of(&records[at]));
    kinds
}

/// What figures a record has.
fn figures_of(found: &WmmErrorModel) -> Vec<&'static str> {
    type Is = fn(f32) -> bool;
    let kinds: [(Is, &str); 7] = [
        (|x| x.is_nan(), "found: a NaN"),
        (|x| x == f32::INFINITY, "found: infinity"),
        (|x| x == f32::NEG_INFINITY, "found: minus infinity"),
        (
            |x| x < 0.0 && x.is_finite(),
            "found: below zero, and finite",
        ),
        (|x| x == 0.0 && x.is_sign_negative(), "found: -0"),
        (|x| x > 0.0 && x.is_subnormal(), "found: a subnormal"),
        (
            |x| x >= 1e30 && x.is_finite(),
            "found: 1e30 or more, and finite",
        ),
    ];
    let figures = found.figures();
    let has = |kind: &&(Is, &'static str)| figures.into_iter().any(kind.0);
    kinds.iter().filter(has).map(|kind| kind.1).collect()
}

//! What the generated lines of IGRF and IRATES meet.
use crate::cases::igrf_sets::{read_lists, ABOVE, EPOCHS};
use crate::cases::{write_cases, Kind};
use crate::entries::{off_the_circle, within, Place, Set, CAPS, CIRCLE_SLACK};
use crate::format::{parse_case, parse_second_set, parse_set, Case};
use crate::models::{date_to_epoch_year, days_in_year};
use crate::profile::InProfile;
use crate::replay::answer;
use std::collections::BTreeSet;

/// A question that can be read, with the sets in force and its answer.
struct Met {
    place: Place,
    sets: [Set; 2],
    said: String,
}

impl Met {
    fn number(&self) -> &str {
        self.said.split(' ').next().unwrap()
    }
}

/// Hands on generated cases. They come back as they are.
fn generated(seed: u64, count: u64, kind: Kind, mut met: impl FnMut(Met)) {
    let mut text = Vec::new();
    write_cases(seed, count, &[kind], &mut text).unwrap();
    let mut output = Vec::new();
    answer(&mut &text[..], &mut output).unwrap();
    assert!(output == text, "cases come back");
    let mut sets = [Set::default(), Set::default()];
    let mut questions = 0;
    for line in text.split(|byte| *byte == b'\n') {
        if let Some(at) = line.windows(3).position(|part| part == b" = ") {
            questions += 1;
            if let Some(Case::InProfile(asked)) = parse_case(&line[..at]) {
                assert_eq!(matches!(asked, InProfile::Rates(_)), kind == Kind::Irates);
                met(Met {
                    place: *asked.place(),
                    sets: sets.clone(),
                    said: String::from_utf8_lossy(&line[at + 3..]).into_owned(),
                });
            }
        } else if let Some(set) = parse_set(line) {
            sets[0] = set;
        } else if let Some(set) = parse_second_set(line) {
            sets[1] = set;
        }
    }
    assert_eq!(questions, count);
}

/// The epoch of which the day reads the sets, also for days outside.
fn epoch_of(place: &Place) -> i32 {
    date_to_epoch_year(place.year).min(2025)
}

/// Every fault of a case, not only the one that is answered. 21 counts where all entries that are good are
/// zero.
fn faults(met: &Met, rates: bool) -> Vec<&'static str> {
    let (place, epoch_year) = (&met.place, epoch_of(&met.place));
    let before = epoch_year < 2025;
    let read = read_lists(epoch_year).map(|i| (i, &met.sets[i / 4].lists[i % 4]));
    let cap = |i: usize| CAPS[i % 4];
    let any = |first: bool, test: &dyn Fn(usize, &[f32]) -> bool| {
        let mut of_set = read.iter().filter(|list| (list.0 < 4) == first);
        of_set.any(|(i, list)| test(*i, list))
    };
    let length = |_: usize, list: &[f32]| ![90, 104].contains(&list.len());
    let spoilt = |i: usize, list: &[f32]| list.iter().any(|x| !within(*x, -cap(i), cap(i)));
    let has = |length: usize| read.iter().any(|list| list.1.len() == length);
    let high = |list: &Vec<f32>| list.iter().skip(ABOVE).any(|x| *x != 0.0);
    let zero = |(i, list): &(usize, &Vec<f32>)| {
        list.iter()
            .all(|x| *x == 0.0 || !within(*x, -cap(*i), cap(*i)))
    };
    let tests = [
        ("1", !within(place.height, -1000.0, 850000.0)),
        ("2", off_the_circle(place.sin_phi, place.cos_phi)),
        ("2 cosine", place.cos_phi < -CIRCLE_SLACK),
        ("3", off_the_circle(place.sin_lambda, place.cos_lambda)),
        ("4", place.day < 1 || place.day > days_in_year(place.year)),
        ("5", !(2000..=2029).contains(&place.year)),
        ("6 first", any(true, &length)),
        ("6 second", any(false, &length)),
        ("23", has(90) && has(104)),
        ("22", !before && met.sets[0].lists[2..].iter().any(high)),
        ("7 first", any(true, &spoilt)),
        ("7 second", any(false, &spoilt)),
        ("8 first", met.sets[0].epoch_year != epoch_year),
        (
            "8 second",
            before && met.sets[1].epoch_year != epoch_year + 5,
        ),
        ("21", rates && read.iter().all(zero)),
    ];
    let found = tests.into_iter().filter(|test| test.1);
    found.map(|test| test.0).collect()
}

/// The faults of either part.
const BEFORE: [&str; 13] = [
    "1", "2", "2 cosine", "3", "4", "5", "6 first", "6 second", "23", "7 first", "7 second",
    "8 first", "8 second",
];
const FROM_2025: [&str; 11] = [
    "1", "2", "2 cosine", "3", "4", "5", "6 first", "23", "22", "7 first", "8 first",
];

fn meets_every_pair(kind: Kind, own: &[&'static str]) {
    let mut pairs = BTreeSet::new();
    generated(11, 100_000, kind, |met| {
        let found = faults(&met, kind == Kind::Irates);
        let first = found
            .first()
            .map_or("0", |fault| &fault[..fault.len().min(2)]);
        // the first of them is answered; 21 counts also where a rate alone is there
        if found != ["21"] && !(found.is_empty() && met.number() == "21") {
            assert_eq!(met.number(), first.trim_end(), "{found:?}");
        }
        let before = epoch_of(&met.place) < 2025;
        if let [only] = found[..] {
            pairs.insert((before, only, only));
        }
        for first in &found {
            let others = found.iter().filter(|second| *second != first);
            pairs.extend(others.map(|second| (before, *first, *second)));
        }
    });
    for (before, names) in [(true, &BEFORE[..]), (false, &FROM_2025)] {
        let names = [names, own].concat();
        for first in &names {
            for second in &names {
                // the year of a set is another than that of a day outside
                if first == second && *first == "5" {
                    continue;
                }
                let pair = (before, *first, *second);
                assert!(pairs.contains(&pair), "{kind:?}: never met: {pair:?}");
            }
        }
    }
}

#[test]
fn fields_meet_every_pair_of_faults() {
    meets_every_pair(Kind::Igrf, &[]);
}

#[test]
fn rates_meet_every_pair_of_faults() {
    meets_every_pair(Kind::Irates, &["21"]);
}

/// What is not looked at in a case that is answered.
fn unread(met: &Met) -> Vec<String> {
    let epoch_year = epoch_of(&met.place);
    let mut kinds = Vec::new();
    for i in (0..8).filter(|i| !read_lists(epoch_year).contains(i)) {
        let list = &met.sets[i / 4].lists[i % 4];
        let last = epoch_year == 2025;
        if list.iter().any(|x| x.is_nan()) {
            kinds.push(format!("NaN {last} {i}"));
        }
        kinds.push(format!("length {last} {i} {}", list.len()));
    }
    kinds
}

fn rate_kinds(met: &Met) -> Vec<String> {
    let [_, _, g_dot, h_dot] = &met.sets[0].lists;
    let mut kinds = Vec::new();
    for (list, rates) in [(2, g_dot), (3, h_dot)] {
        for index in [43, 44, 89, 103] {
            let Some(rate) = rates.get(index) else {
                continue;
            };
            let kind = match rate.to_bits() {
                0 => "0",
                0x8000_0000 => "-0",
                1 | 0x8000_0001 => "smallest",
                _ if rate.is_nan() => "NaN",
                _ => "other",
            };
            kinds.push(format!("{} rate {list} {index} {kind}", met.number()));
        }
    }
    kinds
}

/// Everything that must be met, by what is said of it.
fn expected_kinds() -> Vec<String> {
    let mut expected = Vec::new();
    for list in 2..4 {
        for index in [44, 89, 103] {
            for kind in [
                "0 rate L I 0",
                "0 rate L I -0",
                "22 rate L I smallest",
                "22 rate L I NaN",
            ] {
                expected.push(
                    kind.replace('L', &list.to_string())
                        .replace('I', &index.to_string()),
                );
            }
        }
        expected.push(format!("7 rate {list} 43 NaN"));
        expected.push(format!("0 rate {list} 43 other"));
        expected.push(format!("0 rate {list} 43 smallest"));
    }
    for (last, lists) in [(false, [2, 3, 6, 7]), (true, [4, 5, 6, 7])] {
        for i in lists {
            expected.push(format!("NaN {last} {i}"));
            for length in [0, 1, 44, 89, 90, 91, 103, 104, 105, 128] {
                expected.push(format!("length {last} {i} {length}"));
            }
        }
    }
    for day in [
        "2000 1", "2024 366", "2025 1", "2029 365", "2004 366", "2005 1",
    ] {
        expected.push(format!("0 on {day}"));
    }
    expected.extend(["5 on 1999 365", "5 on 2030 1", "4 on 2029 366"].map(String::from));
    for (list, last) in [103, 103, 43, 43, 103, 103].into_iter().enumerate() {
        expected.extend([0, last].map(|index| format!("7 {list} {index}")));
    }
    for year in EPOCHS {
        expected.push(format!("0 of {year}"));
    }
    expected
}

#[test]
fn cases_meet_every_kind() {
    for kind in [Kind::Igrf, Kind::Irates] {
        let mut kinds = BTreeSet::new();
        let mut numbers = BTreeSet::new();
        generated(5, 100_000, kind, |met| {
            let number = met.number().to_string();
            let Place { year, day, .. } = met.place;
            kinds.insert(format!("{number} on {year} {day}"));
            if number == "0" {
                kinds.insert(format!("0 of {}", epoch_of(&met.place)));
                kinds.extend(unread(&met));
            }
            if (2025..=2029).contains(&year) {
                kinds.extend(rate_kinds(&met));
            }
            if number == "7" {
                kinds.insert(met.said.clone());
            }
            numbers.insert(number.parse::<u32>().unwrap());
        });
        for expected in expected_kinds() {
            assert!(kinds.contains(&expected), "{kind:?}: never met: {expected}");
        }
        let own: &[u32] = if kind == Kind::Irates { &[21] } else { &[] };
        let expected = [0, 1, 2, 3, 4, 5, 6, 7, 8, 22, 23].iter().chain(own);
        assert_eq!(numbers, expected.copied().collect());
    }
}

/// Beside other kinds each takes sets of its own.
#[test]
fn beside_other_kinds() {
    let kinds = [Kind::Igrf, Kind::Field, Kind::Rates13, Kind::Irates];
    let mut text = Vec::new();
    write_cases(3, 20_000, &kinds, &mut text).unwrap();
    let mut output = Vec::new();
    answer(&mut &text[..], &mut output).unwrap();
    assert!(output == text, "cases come back");
    let text = String::from_utf8_lossy(&text);
    for name in ["IGRF", "FIELD", "RATES", "IRATES"] {
        let is_answered = |line: &&str| line.starts_with(name) && line.contains(" = 0 ");
        let answered = text.lines().filter(is_answered).count();
        assert!(answered > 1000, "{name}: {answered}");
    }
}

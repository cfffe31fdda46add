//! Generated cases come back as they are, and meet what they are meant to meet.
use crate::cases::{write_cases, Kind, KINDS};
use crate::entries::{off_the_circle, within, Place, Set, CAPS, CIRCLE_SLACK};
use crate::field::{geodetic_to_geocentric, NEAR_POLE_SIN_THETA_MIN};
use crate::format::{parse_case, parse_set, Case};
use crate::layout::published_file;
use crate::models::{date_to_epoch_year, days_in_year};
use crate::replay::{answer, LONGEST};
use std::collections::BTreeSet;

fn generated(seed: u64, count: u64) -> Vec<u8> {
    let kinds: Vec<Kind> = KINDS.iter().map(|entry| entry.0).collect();
    let mut text = Vec::new();
    write_cases(seed, count, &kinds, &mut text).unwrap();
    text
}

#[test]
fn cases_come_back() {
    for seed in 0..4 {
        let text = generated(seed, 5000);
        let mut output = Vec::new();
        answer(&mut &text[..], &mut output).unwrap();
        assert!(output == text, "seed {seed}");
        let sets = text
            .split(|byte| *byte == b'\n')
            .filter(|line| line.starts_with(b"SET ") && !line.ends_with(b" = malformed"));
        let lines = text.iter().filter(|byte| **byte == b'\n').count();
        assert_eq!(lines - sets.count(), 5000);
        assert!(
            text == generated(seed, 5000),
            "the same seed, the same cases"
        );
    }
}

#[test]
fn cases_meet_every_edge() {
    let text = generated(7, 300_000);
    let mut met = BTreeSet::new();
    for line in text.split(|byte| *byte == b'\n') {
        let line = String::from_utf8_lossy(line);
        let Some((question, answer)) = line.split_once(" = ") else {
            continue;
        };
        let Some(case) = parse_case(question.as_bytes()) else {
            met.insert("malformed".to_string());
            continue;
        };
        let kind = question.split(' ').next().unwrap();
        met.insert(format!("{kind} {}", answer.split(' ').next().unwrap()));
        let near = |sine: f32| (sine.to_bits() & 0x7fff_ffff) as i32 - 0x3a83126f;
        match case {
            Case::Sum {
                cos_theta,
                sin_theta,
                sin_lambda,
                cos_lambda,
                ..
            } => {
                if near(sin_theta).abs() <= 1 && answer.starts_with('0') {
                    met.insert(format!("near {} {}", near(sin_theta), sin_theta > 0.0));
                }
                for (s, c) in [(sin_theta, cos_theta), (sin_lambda, cos_lambda)] {
                    met.insert(format!("circle {:08x}", (s * s + c * c).to_bits()));
                }
            }
            Case::Field(Place {
                height,
                sin_phi,
                cos_phi,
                year,
                day,
                ..
            }) if answer.starts_with(['0', '8']) => {
                let (_, _, sin_theta) = geodetic_to_geocentric(height, sin_phi, cos_phi);
                if near(sin_theta).abs() <= 1 {
                    met.insert(format!("field near {}", near(sin_theta)));
                }
                if sin_theta < 0.0 && -NEAR_POLE_SIN_THETA_MIN < sin_theta {
                    met.insert("field behind the pole".to_string());
                }
                let answer = &answer[..1];
                met.insert(format!("day {year} {day} {answer}"));
            }
            Case::Str { .. } if answer.starts_with('0') => {
                let h = answer.split(' ').nth(1).unwrap();
                met.insert(format!("h {h}"));
            }
            _ => {}
        }
    }
    let days: usize = met.iter().filter(|text| text.starts_with("day ")).count();
    assert!(days > 2 * 3653 * 9 / 10, "{days}");
    let numbers = [
        ("SUM", &[0, 3, 6, 7, 9, 10, 11][..]),
        ("FIELD", &[0, 1, 2, 3, 4, 5, 6, 7, 8]),
        ("EPOCH", &[0, 4, 5]),
        ("STR", &[0, 12]),
        ("GV", &[0, 2, 3, 12]),
        ("SQRT", &[0, 12]),
        ("DEC", &[0, 13]),
        ("WHOLE", &[0, 13]),
        ("COF", &[0, 7, 13, 14]),
    ];
    let mut expected: Vec<String> = vec!["malformed".into(), "field behind the pole".into()];
    for (kind, numbers) in numbers {
        expected.extend(numbers.iter().map(|number| format!("{kind} {number}")));
    }
    for near in -1..=1 {
        expected.push(format!("near {near} true"));
        expected.push(format!("near {near} false"));
        expected.push(format!("field near {near}"));
    }
    for sum in [
        "3f7fffef", "3f7ffff0", "3f7ffff1", "3f800007", "3f800008", "3f800009",
    ] {
        expected.push(format!("circle {sum}"));
    }
    for h in [
        "44f9ffff", "44fa0000", "44fa0001", "45bb7fff", "45bb8000", "45bb8001",
    ] {
        expected.push(format!("h {h}"));
    }
    for edge in expected {
        assert!(met.contains(&edge), "never met: {edge}");
    }
}

/// Every fault of a SUM, FIELD or RATES case, not only the one that is answered. A day's and a set's
/// epoch count as two faults, and 23 counts beside a list of a third length too. Of RATES 21 counts where
/// all entries that are good are zero.
fn faults(case: &Case, set: &Set) -> Vec<&'static str> {
    let lists = &set.lists;
    let spoilt = |i: usize| lists[i].iter().any(|x| !within(*x, -CAPS[i], CAPS[i]));
    let lengths = lists.each_ref().map(Vec::len);
    let both = lengths.contains(&90) && lengths.contains(&104);
    let mut tests = vec![
        (
            "6",
            lengths.iter().any(|length| ![90, 104].contains(length)),
        ),
        ("23", both),
        ("7", (0..4).any(spoilt)),
    ];
    match *case {
        Case::Sum {
            cos_theta,
            sin_theta,
            sin_lambda,
            cos_lambda,
            ratio,
            offset,
        } => tests.extend([
            ("9", off_the_circle(sin_theta, cos_theta)),
            ("3", off_the_circle(sin_lambda, cos_lambda)),
            ("10", !within(ratio, 0.875, 1.015625)),
            ("11", !within(offset, 0.0, 5.0)),
        ]),
        Case::Field(place) => tests.extend(place_faults(&place, set)),
        Case::Rates(place) => {
            let zero = |i: usize| {
                lists[i]
                    .iter()
                    .all(|x| *x == 0.0 || !within(*x, -CAPS[i], CAPS[i]))
            };
            tests.extend(place_faults(&place, set));
            tests.push(("21", (0..4).all(zero)));
        }
        _ => return vec![],
    }
    let found = tests.iter().filter(|test| test.1);
    found.map(|test| test.0).collect()
}

/// Those of a place and a day, and of the set's year.
fn place_faults(place: &Place, set: &Set) -> [(&'static str, bool); 8] {
    let of_day = date_to_epoch_year(place.year);
    let good = |epoch| epoch == 2020 || epoch == 2025;
    [
        ("1", !within(place.height, -1000.0, 850000.0)),
        ("2", off_the_circle(place.sin_phi, place.cos_phi)),
        ("2 cosine", place.cos_phi < -CIRCLE_SLACK),
        ("3", off_the_circle(place.sin_lambda, place.cos_lambda)),
        ("4", place.day < 1 || place.day > days_in_year(place.year)),
        ("5 day", !good(of_day)),
        ("5 set", !good(set.epoch_year)),
        ("8", set.epoch_year != of_day),
    ]
}

/// What FIELD can be refused for.
pub const OF_FIELD: [&str; 10] = [
    "1", "2", "2 cosine", "3", "4", "5 day", "5 set", "6", "7", "8",
];

/// The first byte of a line with two of its faults, or with the only one twice.
pub fn met_faults(text: &[u8]) -> BTreeSet<(u8, &'static str, &'static str)> {
    let mut met = BTreeSet::new();
    let mut set = Set::default();
    for line in text.split(|byte| *byte == b'\n') {
        if let Some(found) = parse_set(line) {
            set = found;
            continue;
        }
        let end = line.windows(3).position(|part| part == b" = ");
        let Some(case) = end.and_then(|at| parse_case(&line[..at])) else {
            continue;
        };
        let kind = line[0];
        let found = faults(&case, &set);
        if let [only] = found[..] {
            met.insert((kind, only, only));
        }
        for first in &found {
            for second in &found {
                if first != second {
                    met.insert((kind, *first, *second));
                }
            }
        }
    }
    met
}

#[test]
fn cases_meet_every_pair_of_faults() {
    let met = met_faults(&generated(11, 200_000));
    let of_sum = ["9", "3", "10", "11", "6", "7"];
    for (kind, names) in [(b'S', &of_sum[..]), (b'F', &OF_FIELD[..])] {
        for first in names {
            for second in names {
                // a bad epoch year is also another one
                if first == second && first.starts_with('5') {
                    continue;
                }
                assert!(
                    met.contains(&(kind, first, second)),
                    "never met: {kind} {first} {second}"
                );
            }
        }
    }
}

/// What each answer to a file is, without its sums: whole, or a refusal with what it carries.
fn file_answers(seed: u64, count: u64) -> Vec<(Vec<u8>, Vec<u32>)> {
    let mut text = Vec::new();
    write_cases(seed, count, &[Kind::Cof], &mut text).unwrap();
    let lines = text
        .split(|byte| *byte == b'\n')
        .filter(|line| !line.is_empty());
    let answers = lines.map(|line| {
        assert!(line.len() <= LONGEST);
        let at = line.windows(3).position(|part| part == b" = ").unwrap();
        let said = String::from_utf8(line[at + 3..].to_vec()).unwrap();
        let mut words: Vec<&str> = said.split(' ').collect();
        words.truncate(words.len() - 2);
        // the year of a whole file does not matter here
        words.truncate(if words[0] == "0" { 1 } else { 3 });
        let words = words.iter().map(|word| word.parse().unwrap()).collect();
        (line[4..at].to_vec(), words)
    });
    answers.collect()
}

#[test]
fn files_meet_every_refusal() {
    let answers = file_answers(3, 10_000);
    let met: BTreeSet<Vec<u32>> = answers.iter().map(|answer| answer.1.clone()).collect();
    let count = |number: u32| {
        answers
            .iter()
            .filter(|answer| answer.1[0] == number)
            .count()
    };
    for number in [0, 7, 13, 14] {
        assert!(count(number) > 100, "{number}: {}", count(number));
    }
    // each of the coefficient lines malformed and out of order, and an entry of each list
    for line in 1..=92 {
        assert!(met.contains(&vec![13, line]), "never met: 13 {line}");
    }
    for line in 1..=91 {
        assert!(met.contains(&vec![14, line]), "never met: 14 {line}");
    }
    for list in 0..4 {
        assert!(met.iter().any(|said| said[0] == 7 && said[1] == list));
    }
    let texts: BTreeSet<&Vec<u8>> = answers.iter().map(|answer| &answer.0).collect();
    assert!(texts.len() > 8000, "{}", texts.len());
    for epoch_year in [2020, 2025] {
        let mut whole = published_file(epoch_year).unwrap();
        for byte in whole.iter_mut().filter(|byte| **byte == b'\n') {
            *byte = b';';
        }
        assert!(texts.contains(&whole));
    }
}

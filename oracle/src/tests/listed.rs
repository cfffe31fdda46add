//! The lines FLIST and ULIST: what can be read, and what the generated ones meet.
use super::format::answered;
use crate::cases::records::{planned_lists, special_figures, Group, GROUPS, SPECIAL};
use crate::cases::{write_cases, Generator, Kind};
use crate::entries::Set;
use crate::format::{parse_case, parse_set, put_case, put_set, Case};
use crate::listed::{Asked, Listed, MAX_RECORDS};
use crate::models::{date_to_epoch_year, error_model_in, model_by_epoch_year, WmmErrorModel};
use crate::records::record;
use crate::replay::{answer, LONGEST};
use std::collections::HashSet;

const RECORD: &str = "3e851eb8 45a94800 3e4ccccd 430a0000 43050000 43090000 42b20000 430d0000";
const PLACE: &str = "00000000 00000000 3f800000 00000000 3f800000 2025 1";
const XYZ: &str = "469c4000 00000000 00000000";

#[test]
fn questions_round_trip() {
    let full = format!(" -2147483648 {RECORD}").repeat(MAX_RECORDS);
    for line in [
        format!("FLIST {PLACE} 0"),
        format!("FLIST {PLACE} 2 2025 {RECORD} -5 {RECORD}"),
        format!("FLIST {PLACE} 20{full}"),
        format!("ULIST {XYZ} -2147483648 20{full}"),
        "ULIST 7fc00000 ff800001 80000000 2147483647 0".to_string(),
    ] {
        let mut written = Vec::new();
        put_case(&mut written, &parse_case(line.as_bytes()).unwrap());
        assert_eq!(String::from_utf8(written).unwrap(), line);
        assert!(line.len() < LONGEST);
    }
}

#[test]
fn malformed_lines() {
    let full = format!(" 2025 {RECORD}").repeat(MAX_RECORDS + 1);
    let short = &RECORD[9..];
    let lines = [
        "FLIST".to_string(),
        "ULIST ".to_string(),
        format!("FLIST {PLACE}"),
        format!("FLIST {PLACE} "),
        format!("FLIST {PLACE} 0 "),
        format!("FLIST {PLACE} 0 0"),
        format!("FLIST {PLACE} -0"),
        format!("FLIST {PLACE} 1"),
        format!("FLIST {PLACE} 1 2025 {short}"),
        format!("FLIST {PLACE} 1 2025 {RECORD} 2020"),
        format!("FLIST {PLACE} 2 2025 {RECORD}"),
        format!("FLIST {PLACE} 0 2025 {RECORD}"),
        format!("FLIST {PLACE} 1 2147483648 {RECORD}"),
        format!("FLIST {PLACE} 1 {RECORD} 2025"),
        format!("FLIST {PLACE} 21{full}"),
        format!("FLIST {PLACE} 0001 2025 {RECORD}"),
        format!("ULIST {XYZ} 0"),
        format!("ULIST {XYZ} 2025 1 2025  {RECORD}"),
        format!("ulist {XYZ} 2025 0"),
        format!("ULIST {XYZ} 2025 21{full}"),
    ];
    for line in lines {
        let expected = format!("{line} = malformed\n");
        assert_eq!(answered(format!("{line} = 0\n").as_bytes()), expected);
    }
}

#[test]
fn answers() {
    let cases = [
        (format!("ULIST {XYZ} 2025 000"), "15"),
        (format!("ULIST {XYZ} 7 1 0000000007 {RECORD}"), "0 3ec03a76"),
        (
            format!(
                "ULIST 00000000 80000000 00000000 -0 1 0 00000000 00000000{}",
                &RECORD[17..]
            ),
            "0 43340000",
        ),
        (
            format!("ULIST {XYZ} 7 2 8 {RECORD} 7 7FC00000{}", &RECORD[8..]),
            "12",
        ),
        (format!("ULIST 7f800000{} 7 1 7 {RECORD}", &XYZ[8..]), "12"),
        // the set before any SET line has no epoch
        (format!("FLIST {PLACE} 0"), "5 2020 1 2029 365"),
    ];
    for (question, said) in cases {
        let line = format!("{question} = x\n");
        assert_eq!(answered(line.as_bytes()), format!("{question} = {said}\n"));
    }
}

#[test]
fn a_field_has_the_figures_of_the_list() {
    let mut input = Vec::new();
    put_set(&mut input, &Set::of(model_by_epoch_year(2025).unwrap()));
    let figures = "80000000 00000001 7f7fffff 00000000 3f800000 40000000 40400000 40800000";
    let lists = ["0".to_string(), format!("2 2025 {figures} 2025 {RECORD}")];
    let questions = lists.map(|list| format!("\nFLIST {PLACE} {list}"));
    input.extend_from_slice(format!("\nFIELD {PLACE}{}", questions.concat()).as_bytes());
    let said = answered(&input);
    let said: Vec<&str> = said.lines().collect();
    assert!(said[2].ends_with(" 0 = 15"));
    let without = said[1].split_once(" = 0 ").unwrap().1;
    let with = said[3].split_once(" = 0 ").unwrap().1;
    // X, Y and Z are Field's
    assert_eq!(with[..27], without[..27]);
    assert_eq!(&with[27..], figures);
}

/// Generated cases of one kind, each with the set that was in force.
fn generated(seed: u64, count: u64, kind: Kind) -> Vec<(Listed, Set)> {
    let mut text = Vec::new();
    write_cases(seed, count, &[kind], &mut text).unwrap();
    let mut output = Vec::new();
    answer(&mut &text[..], &mut output).unwrap();
    assert!(output == text, "cases come back");
    let mut set = Set::default();
    let mut cases = Vec::new();
    for line in text.split(|byte| *byte == b'\n') {
        let end = line.windows(3).position(|part| part == b" = ");
        match end.and_then(|at| parse_case(&line[..at])) {
            Some(Case::Listed(listed)) => cases.push((listed, set.clone())),
            _ => set = parse_set(line).unwrap_or(set),
        }
    }
    assert!(cases.len() as u64 > count * 9 / 10 && (cases.len() as u64) < count);
    cases
}

/// Something that was met: its name, and two numbers that say more.
type Met = HashSet<(&'static str, usize, u32)>;

/// What a list is to the year that is asked for.
fn meet(met: &mut Met, records: &[WmmErrorModel], year: i32) {
    let count = records.len();
    for model in records {
        met.insert(("year", 0, model.epoch_year as u32));
    }
    let Some(at) = records.iter().position(|model| model.epoch_year == year) else {
        met.insert(("absent of", count, 0));
        return;
    };
    met.insert(("found", count, at as u32));
    for (i, model) in records.iter().enumerate() {
        let name = match (i == at, model.epoch_year == year) {
            (true, _) => "figure of the found one",
            (_, true) => "figure of the same year",
            _ if i < at => "figure of an earlier one",
            _ => "figure of a later one",
        };
        for (place, figure) in model.figures().into_iter().enumerate() {
            met.insert((name, place, figure.to_bits()));
        }
        if model.epoch_year == year && model.figures() != records[at].figures() {
            met.insert(("again", i, 0));
        }
    }
}

/// All that the lists of either kind must meet.
fn expected_lists() -> Met {
    let mut expected = Met::new();
    for count in 0..=MAX_RECORDS {
        expected.insert(("absent of", count, 0));
        expected.extend((0..count).map(|at| ("found", count, at as u32)));
    }
    expected.extend((1..MAX_RECORDS).map(|at| ("again", at, 0)));
    for year in [i32::MIN, -2025, -1, 0, i32::MAX] {
        expected.insert(("year", 0, year as u32));
    }
    let special = special_figures();
    assert_eq!(special.len(), SPECIAL);
    for name in [
        "figure of the found one",
        "figure of the same year",
        "figure of an earlier one",
        "figure of a later one",
    ] {
        for figure in &special {
            expected.extend((0..8).map(|place| (name, place, figure.to_bits())));
        }
    }
    expected
}

#[test]
fn lists_meet_every_kind() {
    // the answer beside what the list alone would say: a component is refused after the list
    let of_field: Vec<(usize, u32)> = (1..=8).flat_map(|n| [(n, 0), (n, 12), (n, 15)]).collect();
    for (kind, own) in [(Kind::Flist, &of_field[..]), (Kind::Ulist, &[(12, 0)])] {
        let mut met = Met::new();
        for (listed, set) in generated(3, 12_000, kind) {
            let year = match listed.asked {
                Asked::Field(place) => date_to_epoch_year(place.year),
                Asked::Uncertainty { epoch_year, .. } => epoch_year,
            };
            meet(&mut met, &listed.records, year);
            let of_list = record(&listed.records, year).map_or_else(|k| k.number(), |_| 0);
            let answer = listed.put_result(&mut Vec::new(), &set);
            let answer = answer.map_or_else(|k| k.number(), |_| 0);
            met.insert(("answer", answer as usize, of_list));
        }
        let mut expected = expected_lists();
        for (answer, of_list) in [(0, 0), (12, 12), (15, 15)].iter().chain(own) {
            expected.insert(("answer", *answer, *of_list));
        }
        for kind in expected {
            assert!(met.contains(&kind), "never met: {kind:?}");
        }
    }
}

#[test]
fn planned_lists_are_what_they_are_called() {
    let mut generator = Generator::new(9);
    let mut place = 0;
    for (group, name, ways) in GROUPS {
        for _ in 0..ways {
            for year in [2020, 2025, i32::MIN, -1] {
                let list = generator.records(Some(place), year);
                let found = error_model_in(&list, year).is_some();
                assert_eq!(found, group != Group::Absent, "{name}: {list:?}");
                assert!(list.len() <= MAX_RECORDS);
            }
            place += 1;
        }
    }
    assert_eq!(place, planned_lists());
}

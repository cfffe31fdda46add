//! The lines IGRF, IRATES and SET2: what can be read, and what is answered.
use super::format::answered;
use super::igrf::like_published;
use crate::cases::Rng;
use crate::entries::{Place, Set};
use crate::format::{
    parse_case, parse_second_set, parse_set, put_case, put_second_set, put_set, Case,
};
use crate::igrf::{igrf, igrf_rates};

const PLACE: &str = "00000000 00000000 3f800000 00000000 3f800000";

#[test]
fn questions_round_trip() {
    for name in ["IGRF", "IRATES"] {
        for line in [
            format!("{name} 494f8500 3f800000 b33bbd2e 7fc00000 ff800001 -2147483648 2147483647"),
            format!("{name} {PLACE} 2000 1"),
        ] {
            let mut written = Vec::new();
            let case = parse_case(line.as_bytes()).unwrap();
            assert!(matches!(case, Case::InProfile(_)));
            put_case(&mut written, &case);
            assert_eq!(String::from_utf8(written).unwrap(), line);
        }
    }
    let line = b"SET2 -5 0 0 1 7fc00000 2 00000001 80000000";
    let mut written = Vec::new();
    put_second_set(&mut written, &parse_second_set(line).unwrap());
    assert_eq!(written, line);
    assert_eq!(parse_set(line), None);
    assert_eq!(parse_second_set(b"SET 5 0 0 0 0"), None);
}

#[test]
fn malformed_lines() {
    for line in [
        "IGRF",
        "IRATES ",
        "IGRF 00000000 00000000 3f800000 00000000 3f800000 2000",
        "IGRF 00000000 00000000 3f800000 00000000 3f800000 2000 1 ",
        "IRATES 00000000 00000000 3f800000 00000000 3f800000 2000 1 1",
        "IRATES 00000000 00000000 3f800000 00000000 3f80000 2000 1",
        "IGRF 00000000 00000000 3f800000 00000000 3f800000 2147483648 1",
        "IGRF14 00000000 00000000 3f800000 00000000 3f800000 2000 1",
        "irates 00000000 00000000 3f800000 00000000 3f800000 2000 1",
        "SET2",
        "SET2 2005 0 0 0",
        "SET2 2005 0 0 0 0 0",
        "SET2 2005 0 0 0 129",
        "SET2  2005 0 0 0 0",
        "SET22 2005 0 0 0 0",
        "SET2 2005 0 0 0 0 ",
        "set2 2005 0 0 0 0",
        "SET3 2005 0 0 0 0",
    ] {
        let expected = format!("{line} = malformed\n");
        assert_eq!(answered(format!("{line}\n").as_bytes()), expected);
        assert_eq!(answered(format!("{line} = 0\n").as_bytes()), expected);
    }
    let marked = "SET2 2005 0 0 0 0 = 0\n";
    assert_eq!(
        answered(marked.as_bytes()),
        "SET2 2005 0 0 0 0 = malformed\n"
    );
}

/// The lines of two sets.
fn set_lines(first: &Set, second: &Set) -> Vec<u8> {
    let mut lines = Vec::new();
    put_set(&mut lines, first);
    lines.push(b'\n');
    put_second_set(&mut lines, second);
    lines.push(b'\n');
    lines
}

/// The answers to IGRF and IRATES on a day, after these lines.
fn said(lines: &[u8], day: &str) -> [String; 2] {
    ["IGRF", "IRATES"].map(|name| {
        let question = format!("{name} {PLACE} {day}");
        let output = answered(&[lines, question.as_bytes()].concat());
        assert!(
            output.as_bytes().starts_with(lines),
            "sets are written back"
        );
        let (asked, said) = output.lines().last().unwrap().split_once(" = ").unwrap();
        assert_eq!(asked, question);
        said.to_string()
    })
}

/// The same answer to either question.
fn both(answer: &str) -> [String; 2] {
    [answer.to_string(), answer.to_string()]
}

#[test]
fn answers() {
    let mut rng = Rng::new(1);
    let [first, second] = [2005, 2010].map(|year| like_published(&mut rng, year, 104));
    let place = Place {
        height: 0.0,
        sin_phi: 0.0,
        cos_phi: 1.0,
        sin_lambda: 0.0,
        cos_lambda: 1.0,
        year: 2007,
        day: 100,
    };
    let lines = set_lines(&first, &second);
    let hex = |floats: &[f32]| -> String {
        let words = floats.iter().map(|x| format!(" {:08x}", x.to_bits()));
        format!("0{}", words.collect::<String>())
    };
    let expected = [
        hex(&igrf(&place, &first, &second).unwrap()),
        hex(&igrf_rates(&place, &first, &second).unwrap()),
    ];
    assert_eq!(said(&lines, "2007 100"), expected);
    assert_eq!(said(&lines, "2007 366"), both("4"));
    assert_eq!(said(&lines, "1999 1"), both("5 2000 1 2029 365"));
    assert_eq!(said(&lines, "2030 1"), both("5 2000 1 2029 365"));
    assert_eq!(said(&lines, "2004 366"), both("8 2000 2005"));
    assert_eq!(said(&lines, "2025 1"), both("8 2025 2005"));
}

#[test]
fn answers_by_the_sets() {
    let mut rng = Rng::new(1);
    let [first, second] = [2005, 2010].map(|year| like_published(&mut rng, year, 104));
    let lines = set_lines(&first, &second);
    // no SET2 line yet, and no set at all
    let alone = &lines[..lines.iter().position(|byte| *byte == b'\n').unwrap() + 1];
    assert_eq!(said(alone, "2007 100"), both("6"));
    assert_eq!(said(b"", "2007 100"), both("6"));
    assert_eq!(said(b"", "2025 1"), both("6"));
    let swapped = set_lines(&second, &first);
    assert_eq!(said(&swapped, "2007 100"), both("8 2005 2010"));
    let again = set_lines(&first, &first);
    assert_eq!(said(&again, "2007 100"), both("8 2010 2005"));
    let mut spoilt = second.clone();
    spoilt.lists[1][103] = f32::NAN;
    assert_eq!(
        said(&set_lines(&first, &spoilt), "2007 100"),
        both("7 5 103")
    );
    spoilt.lists[0].truncate(90);
    assert_eq!(said(&set_lines(&first, &spoilt), "2007 100"), both("23"));
    let mut last = like_published(&mut rng, 2025, 90);
    assert_eq!(said(&set_lines(&last, &spoilt), "2029 365")[0][..2], *"0 ");
    last.lists[3][89] = f32::from_bits(1);
    assert_eq!(said(&set_lines(&last, &spoilt), "2029 365"), both("22"));
}

/// A SET2 line that cannot be read leaves the old one in force, and other lines do not see it.
#[test]
fn the_second_set_stays() {
    let mut rng = Rng::new(2);
    let [first, second] = [2005, 2010].map(|year| like_published(&mut rng, year, 104));
    let lines = set_lines(&first, &second);
    let question = format!(
        "IGRF {PLACE} 2007 100\nSUM {} 3f800000 00000000\n",
        &PLACE[9..]
    );
    let asked = |between: &str| {
        let output = answered(&[&lines[..], between.as_bytes(), question.as_bytes()].concat());
        let lines: Vec<String> = output.lines().map(String::from).collect();
        lines[lines.len() - 2..].to_vec()
    };
    let good = asked("");
    assert!(
        good[0].contains(" = 0 ") && good[1].contains(" = 0 "),
        "{good:?}"
    );
    assert_eq!(asked("SET2 2010 0 0 0\n"), good);
    assert_eq!(asked("SET2 2010 0 0 0 0 = 0\n"), good);
    let empty = asked("SET2 2010 0 0 0 0\n");
    assert!(
        empty[0].ends_with(" = 6") && empty[1] == good[1],
        "{empty:?}"
    );
}

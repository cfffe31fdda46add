//! The kinds of degree 13: what their sets and their lines meet, and that the others have no such set.
use super::generated::{met_faults, OF_FIELD};
use crate::cases::{write_cases, Kind, KINDS, NAMED_KINDS};
use crate::entries::Set;
use crate::format::{parse_case, parse_set};
use crate::replay::answer;
use std::collections::BTreeSet;

/// The kinds, each with the numbers of its answers.
const THIRTEEN: [(Kind, &[u32]); 5] = [
    (Kind::Sum13, &[0, 3, 6, 7, 9, 10, 11, 23]),
    (Kind::Field13, &[0, 1, 2, 3, 4, 5, 6, 7, 8, 23]),
    (Kind::Flist13, &[0, 1, 2, 3, 4, 5, 6, 7, 8, 12, 15, 23]),
    (Kind::Fdeg13, &[0, 1, 2, 4, 5, 6, 7, 8, 16, 23]),
    (Kind::Rates13, &[0, 1, 2, 3, 4, 5, 6, 7, 8, 21, 23]),
];

fn generated(seed: u64, count: u64, kinds: &[Kind]) -> Vec<u8> {
    let mut text = Vec::new();
    write_cases(seed, count, kinds, &mut text).unwrap();
    text
}

fn lines(text: &[u8]) -> impl Iterator<Item = &[u8]> {
    text.split(|byte| *byte == b'\n')
}

fn sets(text: &[u8]) -> Vec<Set> {
    lines(text).filter_map(parse_set).collect()
}

fn lengths(set: &Set) -> [usize; 4] {
    set.lists.each_ref().map(Vec::len)
}

/// The answers to lines that can be read.
fn answers(text: &[u8]) -> BTreeSet<String> {
    let said = lines(text).filter_map(|line| {
        let at = line.windows(3).position(|part| part == b" = ")?;
        parse_case(&line[..at])?;
        Some(String::from_utf8_lossy(&line[at + 3..]).into_owned())
    });
    said.collect()
}

#[test]
fn every_number_is_met() {
    for (kind, expected) in THIRTEEN {
        let text = generated(5, 20_000, &[kind]);
        let mut output = Vec::new();
        answer(&mut &text[..], &mut output).unwrap();
        assert!(output == text, "cases come back");
        let number = |said: String| said.split(' ').next().unwrap().parse().unwrap();
        let met: BTreeSet<u32> = answers(&text).into_iter().map(number).collect();
        assert_eq!(met, expected.iter().copied().collect(), "{kind:?}");
    }
}

#[test]
fn sets_of_every_kind() {
    let sets = sets(&generated(3, 80_000, &[Kind::Sum13]));
    let count = |length: usize| {
        let whole = |set: &&Set| lengths(set) == [length; 4];
        sets.iter().filter(whole).count()
    };
    assert!(count(104) > sets.len() / 3 && count(90) > sets.len() / 16);
    let met: BTreeSet<[usize; 4]> = sets.iter().map(lengths).collect();
    let mixes = met.iter().filter(|set| {
        let of_two = set.iter().all(|length| [90, 104].contains(length));
        of_two && **set != [90; 4] && **set != [104; 4]
    });
    assert_eq!(mixes.count(), 14);
    // each wrong length in each list, and one beside lists of both lengths
    for list in 0..4 {
        let wrong = [0, 1, 89, 91, 103, 105, 128];
        for length in wrong {
            let mut alone = [104; 4];
            alone[list] = length;
            assert!(met.contains(&alone), "never met: {alone:?}");
        }
        let beside = |set: &[usize; 4]| {
            wrong.contains(&set[list]) && set.contains(&90) && set.contains(&104)
        };
        assert!(met.iter().any(beside), "never met: list {list}");
    }
}

/// Every two faults are met, and 7 by each entry of degree 13.
fn meets_every_fault(kind: Kind, first_byte: u8, names: &[&'static str]) {
    let text = generated(11, 200_000, &[kind]);
    let met = met_faults(&text);
    for first in names {
        for second in names {
            // a bad epoch year is also another one
            if first == second && first.starts_with('5') {
                continue;
            }
            assert!(
                met.contains(&(first_byte, *first, *second)),
                "{kind:?}: never met: {first} {second}"
            );
        }
    }
    let (met, sets) = (answers(&text), sets(&text));
    for list in 0..4 {
        for index in 90..104 {
            let said = format!("7 {list} {index}");
            assert!(met.contains(&said), "{kind:?}: never met: {said}");
        }
        let nan = |set: &Set| set.lists[list].iter().skip(90).any(|x| x.is_nan());
        assert!(sets.iter().any(nan), "{kind:?}");
    }
}

#[test]
fn sums_meet_every_fault() {
    let names = ["9", "3", "10", "11", "6", "23", "7"];
    meets_every_fault(Kind::Sum13, b'S', &names);
}

#[test]
fn fields_meet_every_fault() {
    let names = [&OF_FIELD[..], &["23"]].concat();
    meets_every_fault(Kind::Field13, b'F', &names);
}

#[test]
fn rates_meet_every_fault() {
    let names = [&OF_FIELD[..], &["23", "21"]].concat();
    meets_every_fault(Kind::Rates13, b'R', &names);
}

/// So their lines are what they were before there was a degree more.
#[test]
fn the_other_kinds_have_lists_of_90() {
    let others = KINDS.into_iter().chain(NAMED_KINDS).map(|kind| kind.0);
    let longer = [Kind::Igrf, Kind::Irates];
    let longer: Vec<Kind> = THIRTEEN
        .map(|kind| kind.0)
        .into_iter()
        .chain(longer)
        .collect();
    let is_other = |kind: &Kind| !longer.contains(kind);
    let others: Vec<Kind> = others.filter(is_other).collect();
    assert_eq!(others.len(), 20);
    let sets = sets(&generated(2, 30_000, &others));
    assert!(sets.len() > 300);
    assert!(sets.iter().all(|set| !lengths(set).contains(&104)));
}

/// The writer of stored sets takes no set of degree 13.
#[test]
fn sets_of_degree_13_are_not_stored() {
    let text = generated(4, 10_000, &[Kind::Sum13, Kind::Swrite]);
    let (mut set, mut refused) = (Set::default(), 0);
    for line in lines(&text) {
        set = parse_set(line).unwrap_or(set);
        if line.starts_with(b"SWRITE ") && lengths(&set).contains(&104) {
            let line = String::from_utf8_lossy(line);
            let said = line.split_once(" = ").unwrap().1;
            assert!(said.starts_with("6 ") || said == "malformed", "{line}");
            refused += 1;
        }
    }
    assert!(refused > 500, "{refused}");
}

//! The lines RATES: what can be read, what is answered, and what the generated ones meet.
use super::format::answered;
use super::generated::{met_faults, OF_FIELD};
use crate::cases::rates::{weak_set, WEAK_SETS};
use crate::cases::{write_cases, Kind, Rng};
use crate::entries::{Place, Set, CAPS};
use crate::field::{GeomagneticField, NEAR_POLE_SIN_THETA_MIN};
use crate::format::{parse_case, parse_set, put_case, put_set, Case};
use crate::models::{model_by_epoch_year, years_since_epoch};
use crate::rates::rates;
use crate::replay::answer;
use crate::synthesis::coeff_at_t;
use std::collections::{BTreeMap, BTreeSet};

#[test]
fn questions_round_trip() {
    for line in [
        "RATES 494f8500 3f800000 b33bbd2e 7fc00000 ff800001 -2147483648 2147483647",
        "RATES 00000000 00000000 3f800000 00000000 3f800000 2020 1",
    ] {
        let mut written = Vec::new();
        let case = parse_case(line.as_bytes()).unwrap();
        assert!(matches!(case, Case::Rates(_)));
        put_case(&mut written, &case);
        assert_eq!(String::from_utf8(written).unwrap(), line);
    }
}

#[test]
fn malformed_lines() {
    for line in [
        "RATES",
        "RATES ",
        "RATES 00000000 00000000 3f800000 00000000 3f800000 2020",
        "RATES 00000000 00000000 3f800000 00000000 3f800000 2020 1 ",
        "RATES 00000000 00000000 3f800000 00000000 3f800000 2020 1 1",
        "RATES 00000000 00000000 3f800000 00000000 3f800000 3f800000 2020 1",
        "RATES 00000000 00000000 3f800000 00000000  3f800000 2020 1",
        "RATES 00000000 00000000 3f800000 00000000 3f80000 2020 1",
        "RATES 00000000 00000000 3f800000 00000000 3f800000 2147483648 1",
        "RATE 00000000 00000000 3f800000 00000000 3f800000 2020 1",
        "RATESS 00000000 00000000 3f800000 00000000 3f800000 2020 1",
        "rates 00000000 00000000 3f800000 00000000 3f800000 2020 1",
        " RATES 00000000 00000000 3f800000 00000000 3f800000 2020 1",
    ] {
        let expected = format!("{line} = malformed\n");
        assert_eq!(answered(format!("{line} = 0\n").as_bytes()), expected);
    }
}

/// The answer to a question on the equator at longitude 0, with a set or with none.
fn said(set: Option<&Set>, height: &str, day: &str) -> String {
    let mut input = Vec::new();
    if let Some(set) = set {
        put_set(&mut input, set);
        input.push(b'\n');
    }
    let question = format!("RATES {height} 00000000 3f800000 00000000 3f800000 {day}");
    input.extend_from_slice(question.as_bytes());
    let output = answered(&input);
    let (asked, said) = output.lines().last().unwrap().split_once(" = ").unwrap();
    assert_eq!(asked, question);
    said.to_string()
}

#[test]
fn answers() {
    let mut set = Set::of(model_by_epoch_year(2025).unwrap());
    let place = Place {
        height: 0.0,
        sin_phi: 0.0,
        cos_phi: 1.0,
        sin_lambda: 0.0,
        cos_lambda: 1.0,
        year: 2027,
        day: 100,
    };
    let seven = rates(&place, &set)
        .unwrap()
        .map(|x| format!(" {:08x}", x.to_bits()));
    let good = said(Some(&set), "00000000", "2027 100");
    assert_eq!(good, format!("0{}", seven.concat()));
    // the set before any SET line: epoch 0, four empty lists
    assert_eq!(said(None, "00000000", "2025 1"), "5 2020 1 2029 365");
    assert_eq!(
        said(Some(&set), "7fc00000", "2027 100"),
        "1 bf800000 44548000"
    );
    assert_eq!(said(Some(&set), "00000000", "2024 1"), "8 2020 2025");
    for list in &mut set.lists {
        list.fill(-0.0);
    }
    assert_eq!(said(Some(&set), "00000000", "2027 100"), "21");
    assert_eq!(said(Some(&set), "00000000", "2024 1"), "8 2020 2025");
    set.lists[2][89] = 4096.5;
    assert_eq!(said(Some(&set), "00000000", "2027 100"), "7 2 89");
}

/// Whether all coefficients of a set are zero at an offset.
fn is_zero(set: &Set, offset: f32) -> bool {
    let [g, h, g_dot, h_dot] = &set.lists;
    let mains = g.iter().chain(h).zip(g_dot.iter().chain(h_dot));
    let mut at = mains.map(|(main, rate)| coeff_at_t(*main, *rate, offset));
    at.all(|x| x == 0.0)
}

#[test]
fn weak_sets_are_weak() {
    for length in [90, 104] {
        weak_sets_of(length);
    }
}

fn weak_sets_of(length: usize) {
    let mut rng = Rng::new(9);
    // by the kind of field: the sets that are zero on the day, and those on another than the first
    let mut zeros = BTreeMap::new();
    for way in (0..WEAK_SETS).cycle().take(8 * WEAK_SETS) {
        let (set, (year, day)) = weak_set(&mut rng, length, way);
        for (list, cap) in CAPS.into_iter().enumerate() {
            assert_eq!(set.lists[list].len(), length);
            assert!(set.lists[list].iter().all(|x| x.abs() <= cap), "{way}");
        }
        let offset = years_since_epoch(year, day, set.epoch_year);
        assert!((0.0..5.0).contains(&offset));
        let (all, later) = zeros.entry(way / 16).or_insert((0, 0));
        *all += u32::from(is_zero(&set, offset));
        *later += u32::from(is_zero(&set, offset) && offset > 0.0);
    }
    assert_eq!(zeros.len(), 14);
    for kind in 0..3 {
        let (all, later) = zeros[&kind];
        assert!(all > 60 && later > 20, "{kind}: {all}, {later}");
    }
    // one entry, or more, stay
    for kind in [3, 6, 7, 8] {
        assert_eq!(zeros[&kind], (0, 0), "{kind}");
    }
}

/// Generated cases that can be read, each with the set in force and its answer's number.
fn generated(seed: u64, count: u64) -> Vec<(Place, Set, u32)> {
    let mut text = Vec::new();
    write_cases(seed, count, &[Kind::Rates], &mut text).unwrap();
    let mut output = Vec::new();
    answer(&mut &text[..], &mut output).unwrap();
    assert!(output == text, "cases come back");
    let mut set = Set::default();
    let mut cases = Vec::new();
    for line in String::from_utf8_lossy(&text).lines() {
        match line.split_once(" = ") {
            None => set = parse_set(line.as_bytes()).unwrap(),
            Some((question, said)) => {
                if let Some(Case::Rates(place)) = parse_case(question.as_bytes()) {
                    let number = said.split(' ').next().unwrap().parse().unwrap();
                    cases.push((place, set.clone(), number));
                }
            }
        }
    }
    assert!(cases.len() as u64 > count * 9 / 10 && (cases.len() as u64) < count);
    cases
}

/// What the field of a case with 21 is like.
fn refused_kinds(field: &GeomagneticField, near_pole: bool) -> Vec<&'static str> {
    let GeomagneticField { x, y, z, .. } = *field;
    let no_total = field.f() == 0.0;
    let kinds = [
        (z != 0.0 && near_pole, "21: no H, and a Z, near a pole"),
        (z != 0.0 && !near_pole, "21: no H, and a Z, elsewhere"),
        (no_total && [x, y, z] == [0.0; 3], "21: no field"),
        (x != 0.0 && y != 0.0, "21: X and Y, and no H"),
        (no_total && z != 0.0, "21: a Z, and no F"),
    ];
    kinds
        .into_iter()
        .filter(|kind| kind.0)
        .map(|kind| kind.1)
        .collect()
}

/// What an answered or refused case is like.
fn kinds_of(place: &Place, set: &Set, number: u32) -> Vec<&'static str> {
    let mut kinds = Vec::new();
    let mut kind = |is_one: bool, name: &'static str| kinds.extend(is_one.then_some(name));
    let field = place.field(set).unwrap();
    let (h, z, sin_theta) = (field.h(), field.z, place.geocentric().sin_theta());
    let near_pole = sin_theta.abs() < NEAR_POLE_SIN_THETA_MIN;
    if number == 21 {
        return refused_kinds(&field, near_pole);
    }
    let published = *set == Set::of(model_by_epoch_year(set.epoch_year).unwrap());
    kind(published && !near_pole, "0: a published set");
    kind(published && near_pole, "0: a published set near a pole");
    kind(near_pole && sin_theta < 0.0, "0: behind a pole");
    kind(near_pole && sin_theta == 0.0, "0: at a pole");
    kind(
        sin_theta.abs() == NEAR_POLE_SIN_THETA_MIN,
        "0: at the limit of the path",
    );
    kind(h * h < f32::MIN_POSITIVE, "0: the square of H is subnormal");
    kind(
        h * h == f32::from_bits(1),
        "0: the square of H is the smallest f32",
    );
    kind(
        h * h < f32::MIN_POSITIVE && z.abs() > 1.0,
        "0: H next to zero, and a Z",
    );
    let found = rates(place, set).unwrap();
    kind(found[3].abs() > 1e28, "0: a very large rate of declination");
    kind(found == [0.0; 7], "0: no rates");
    kind(
        found.iter().any(|x| *x == 0.0 && x.is_sign_negative()),
        "0: a rate of -0",
    );
    kind(found[0].abs() > 1e5, "0: large rates");
    kinds
}

#[test]
fn rates_meet_every_kind() {
    let mut numbers = BTreeSet::new();
    let mut met = BTreeMap::new();
    for (place, set, number) in generated(3, 40_000) {
        numbers.insert(number);
        if [0, 21].contains(&number) {
            for kind in kinds_of(&place, &set, number) {
                *met.entry(kind).or_insert(0) += 1;
            }
        }
        if let Ok(seven) = rates(&place, &set) {
            assert!(seven.iter().all(|x| x.is_finite()), "{place:?}");
        }
    }
    assert_eq!(numbers, BTreeSet::from([0, 1, 2, 3, 4, 5, 6, 7, 8, 21]));
    assert_eq!(met.len(), 17, "{met:?}");
    assert!(met.values().all(|count| *count > 10), "{met:?}");
}

#[test]
fn rates_meet_every_pair_of_faults() {
    let mut text = Vec::new();
    write_cases(11, 200_000, &[Kind::Rates], &mut text).unwrap();
    let met = met_faults(&text);
    let names: Vec<&str> = OF_FIELD.into_iter().chain(["21"]).collect();
    for first in &names {
        for second in &names {
            // a bad epoch year is also another one
            if first == second && first.starts_with('5') {
                continue;
            }
            assert!(
                met.contains(&(b'R', *first, *second)),
                "never met: {first} {second}"
            );
        }
    }
}

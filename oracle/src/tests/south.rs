//! Due south: our rule beside the crate's, and the cases that are made for it.
use crate::cases::{write_cases, Kind};
use crate::field::{one_south, wrap_to_180};
use crate::format::{parse_case, Case};
use crate::south::{beside_crate, Beside};
use std::collections::BTreeSet;

fn beside(lines: &str) -> Beside {
    beside_crate(&mut lines.as_bytes()).unwrap()
}

/// The f32 next to x, away from zero and towards it.
fn out(x: f32) -> f32 {
    f32::from_bits(x.to_bits() + 1)
}

fn inward(x: f32) -> f32 {
    f32::from_bits(x.to_bits() - 1)
}

#[test]
fn one_result_changes() {
    let ours = |deg| one_south(wrap_to_180(deg));
    assert_eq!(wrap_to_180(-180.0), -180.0);
    assert_eq!(ours(-180.0), 180.0);
    for deg in [
        180.0,
        out(180.0),
        inward(180.0),
        out(-180.0),
        inward(-180.0),
        360.0,
        -360.0,
        inward(360.0),
        inward(-360.0),
        0.0,
        -0.0,
        f32::NAN,
    ] {
        assert_eq!(ours(deg).to_bits(), wrap_to_180(deg).to_bits(), "{deg:?}");
    }
}

/// The crate's rule with "at most -180" for "below -180".
fn half_open(deg: f32) -> f32 {
    if deg > 180.0 {
        deg - 360.0
    } else if deg <= -180.0 {
        deg + 360.0
    } else {
        deg
    }
}

#[test]
fn the_half_open_range() {
    let ours = |deg| one_south(wrap_to_180(deg));
    // the same wherever a sum of two angles can lie
    for bits in (0..=360.0_f32.to_bits()).step_by(9973) {
        for deg in [f32::from_bits(bits), -f32::from_bits(bits)] {
            assert_eq!(ours(deg).to_bits(), half_open(deg).to_bits(), "{deg:?}");
        }
    }
    assert_eq!(half_open(-180.0), 180.0);
    // and farther out it would leave a -180
    assert_eq!(wrap_to_180(-540.0), -180.0);
    assert_eq!([ours(-540.0), half_open(-540.0)], [180.0, -180.0]);
}

#[test]
fn lines_beside_the_crate() {
    let counted = |question: &str, answer: &str| {
        let beside = beside(&format!("{question} = {answer}\n"));
        [beside.answers, beside.unlike, beside.south]
    };
    // latitude 60, longitude 180, declination 0: the crate gives -180
    let south = "GV 42700000 43340000 00000000";
    assert_eq!(counted(south, "0 P 43340000"), [1, 1, 1]);
    assert_eq!(counted(south, "0 P c3340000"), [1, 0, 0]);
    assert_eq!(counted(south, "0 P 43340001"), [1, 1, 0]);
    assert_eq!(counted(south, "0 N"), [1, 1, 0]);
    assert_eq!(counted(south, "12"), [0, 0, 0]);
    // a declination of -0 beside no longitude keeps its sign
    let zero = "GV 42700000 00000000 80000000";
    assert_eq!(counted(zero, "0 P 80000000"), [1, 0, 0]);
    assert_eq!(counted(zero, "0 P 00000000"), [1, 1, 0]);
}

#[test]
fn cases_meet_their_sums() {
    let mut text = Vec::new();
    write_cases(5, 30_000, &[Kind::South], &mut text).unwrap();
    let text = String::from_utf8_lossy(&text);
    let mut met = BTreeSet::new();
    for line in text.lines() {
        let (question, answer) = line.split_once(" = ").unwrap();
        if let Some(Case::Gv {
            latitude_deg,
            longitude_deg,
            declination_deg,
        }) = parse_case(question.as_bytes())
        {
            let sum = if latitude_deg > 0.0 {
                declination_deg - longitude_deg
            } else {
                declination_deg + longitude_deg
            };
            let given = answer.starts_with("0 P");
            met.insert((latitude_deg > 0.0, sum.to_bits(), given));
        }
    }
    for north in [true, false] {
        for end in [180.0, -180.0] {
            for sum in [inward(end), end, out(end)] {
                assert!(met.contains(&(north, sum.to_bits(), true)), "{sum:?}");
            }
        }
        for end in [360.0, -360.0] {
            for sum in [inward(end), end] {
                assert!(met.contains(&(north, sum.to_bits(), true)), "{sum:?}");
            }
            // beyond it no two angles add up: one of them is refused
            assert!(met.contains(&(north, out(end).to_bits(), false)));
        }
        for sum in [0.0_f32, -0.0, f32::from_bits(1), -f32::from_bits(1)] {
            assert!(met.contains(&(north, sum.to_bits(), true)), "{sum:?}");
        }
    }
    let counted = beside(&text);
    assert!(
        counted.answers > 20_000 && counted.south > 1_000,
        "{counted:?}"
    );
    assert_eq!(counted.unlike, counted.south);
}

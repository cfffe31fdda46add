//! The lines TRIG, DECL, DIR and FDEG: what can be read, and what the generated ones meet.
use super::format::answered;
use crate::cases::{write_cases, Kind};
use crate::degrees::InDegrees;
use crate::entries::Set;
use crate::format::{parse_case, parse_set, put_case, Case};
use crate::replay::answer;
use std::collections::BTreeSet;

#[test]
fn questions_round_trip() {
    for line in [
        "TRIG 7fc00000",
        "DECL 80000000 5d800001",
        "DIR 00000001 ff800001 80000000",
        "FDEG 494f8500 42b40000 c3340000 -2147483648 2147483647",
    ] {
        let mut written = Vec::new();
        put_case(&mut written, &parse_case(line.as_bytes()).unwrap());
        assert_eq!(String::from_utf8(written).unwrap(), line);
    }
}

#[test]
fn malformed_lines() {
    for line in [
        "TRIG",
        "TRIG ",
        "TRIG 4334000",
        "TRIG 43340000 ",
        "TRIG 43340000 00000000",
        "trig 43340000",
        "DECL 43340000",
        "DECL 43340000 43340000 43340000",
        "DIR 43340000 43340000",
        "DIR 43340000  43340000 43340000",
        "DIRS 43340000 43340000 43340000",
        "FDEG 00000000 00000000 00000000 2025",
        "FDEG 00000000 00000000 00000000 00000000 2025 1",
        "FDEG 00000000 00000000 00000000 2025 2147483648",
    ] {
        let expected = format!("{line} = malformed\n");
        assert_eq!(answered(format!("{line} = 0\n").as_bytes()), expected);
    }
}

#[test]
fn answers() {
    for (question, said) in [
        ("TRIG 42B40000", "0 3f800000 00000000"),
        ("TRIG c3340000", "0 80000000 bf800000"),
        ("TRIG 43340001", "16"),
        ("TRIG 7fc00000", "16"),
        ("DECL bf800000 80000000", "0 43340000"),
        ("DECL 00000000 80000001", "0 c2b40000"),
        ("DECL 5d800001 00000000", "12"),
        ("DIR 3f800000 3f800000 00000000", "0 42340000 00000000"),
        ("DIR 3f800000 3f800000 7f800000", "12"),
        // the set before any SET line has no epoch, and is looked at after the angles
        ("FDEG 00000000 43340001 00000000 2025 1", "16"),
        ("FDEG 00000000 42c80000 00000000 2025 1", "2"),
        (
            "FDEG 00000000 42b40000 43340000 2025 1",
            "5 2020 1 2029 365",
        ),
    ] {
        let line = format!("{question} = x\n");
        assert_eq!(answered(line.as_bytes()), format!("{question} = {said}\n"));
    }
}

/// Generated cases of one kind, each with its answer's number.
fn generated(kind: Kind, count: u64) -> Vec<(InDegrees, u32)> {
    let mut text = Vec::new();
    write_cases(5, count, &[kind], &mut text).unwrap();
    let mut output = Vec::new();
    answer(&mut &text[..], &mut output).unwrap();
    assert!(output == text, "cases come back");
    let mut set = Set::default();
    let mut cases = Vec::new();
    for line in text.split(|byte| *byte == b'\n') {
        let end = line.windows(3).position(|part| part == b" = ");
        match end.and_then(|at| parse_case(&line[..at])) {
            Some(Case::InDegrees(asked)) => {
                let answer = asked.put_result(&mut Vec::new(), &set);
                let number = answer.map_or_else(|refusal| refusal.number(), |()| 0);
                cases.push((asked, number));
            }
            _ => set = parse_set(line).unwrap_or(set),
        }
    }
    assert!(cases.len() as u64 > count * 9 / 10 && (cases.len() as u64) < count);
    cases
}

/// The numbers that the answers of a kind have.
fn numbers(cases: &[(InDegrees, u32)]) -> Vec<u32> {
    let numbers: BTreeSet<u32> = cases.iter().map(|case| case.1).collect();
    numbers.into_iter().collect()
}

#[test]
fn angles_meet_every_kind() {
    let cases = generated(Kind::Trig, 20_000);
    assert_eq!(numbers(&cases), [0, 16]);
    let mut met = BTreeSet::new();
    for (asked, _) in cases {
        if let InDegrees::Trig { degrees } = asked {
            met.insert(degrees.to_bits());
        }
    }
    for degrees in -180..=180 {
        assert!(met.contains(&(degrees as f32).to_bits()), "{degrees}");
    }
    for size in [0x4234_0000, 0x42b4_0000, 0x4307_0000, 0x4334_0000u32] {
        for bits in size - 2..=size + 2 {
            assert!(met.contains(&bits) && met.contains(&(bits | 0x8000_0000)));
        }
    }
    for bits in [0, 1, 0x007f_ffff, 0x0080_0000, 0x7f7f_ffff, 0x7f80_0000] {
        assert!(met.contains(&bits) && met.contains(&(bits | 0x8000_0000)));
    }
}

/// The octant of a direction, and with its quarter whether its sides are equal or 5 to 12.
fn directed_as(x: f32, y: f32) -> [(u32, &'static str); 2] {
    let (a, b) = (f64::from(x.abs()), f64::from(y.abs()));
    let octant = u32::from(x < 0.0) + 2 * u32::from(y < 0.0) + 4 * u32::from(a < b);
    let kind = match (a, b) {
        _ if a == 0.0 || b == 0.0 => "an axis",
        _ if a == b => "equal",
        _ if 5.0 * a == 12.0 * b || 12.0 * a == 5.0 * b => "5 to 12",
        _ if a.min(b) < a.max(b) / 1e9 => "far apart",
        _ => "other",
    };
    [(octant, "octant"), (octant % 4, kind)]
}

/// What the directions of one kind of cases meet. `sides` are the two numbers whose angle is asked
/// for, and `quarters` those that they can lie in.
fn directions_meet(kind: Kind, sides: fn(InDegrees) -> Option<[f32; 2]>, quarters: &[u32]) {
    let cases = generated(kind, 30_000);
    assert_eq!(numbers(&cases), [0, 12]);
    let answered = cases.into_iter().filter(|case| case.1 == 0);
    let directed = answered.filter_map(|case| sides(case.0));
    let met: BTreeSet<(u32, &str)> = directed.flat_map(|[x, y]| directed_as(x, y)).collect();
    for quarter in quarters {
        for kind in ["equal", "5 to 12", "far apart", "other"] {
            assert!(met.contains(&(*quarter, kind)), "never met: {kind}");
        }
        assert!(met.contains(&(*quarter, "octant")));
        assert!(met.contains(&(*quarter + 4, "octant")));
    }
}

#[test]
fn declinations_meet_every_kind() {
    let sides = |asked| match asked {
        InDegrees::Decl { x, y } => Some([x, y]),
        _ => None,
    };
    directions_meet(Kind::Decl, sides, &[0, 1, 2, 3]);
}

#[test]
fn inclinations_meet_every_kind() {
    let sides = |asked| match asked {
        InDegrees::Dir { xyz: [x, y, z] } => Some([(x * x + y * y).sqrt(), z]),
        _ => None,
    };
    directions_meet(Kind::Dir, sides, &[0, 2]);
}

#[test]
fn fields_meet_every_refusal() {
    let cases = generated(Kind::Fdeg, 20_000);
    assert_eq!(numbers(&cases), [0, 1, 2, 4, 5, 6, 7, 8, 16]);
    for (asked, number) in cases {
        if let InDegrees::Fdeg(place) = asked {
            // 2 comes only beyond 90 degrees
            assert!(number != 2 || place.latitude_deg.abs() > 90.0, "{place:?}");
        }
    }
}

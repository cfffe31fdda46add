//! The lines SREAD and SWRITE: what can be read, what is answered, and what the generated ones meet.
use super::format::answered;
use crate::cases::stored::{planned, tagged, Group, GROUPS, ROOMS, STARTS};
use crate::cases::{write_cases, Kind, Rng};
use crate::entries::{Refusal, Set, CAPS};
use crate::format::{parse_case, parse_set, put_case, put_set, Case, MAX_STORED};
use crate::models::model_by_epoch_year;
use crate::replay::{answer, LONGEST};
use crate::stored::{read_stored, write_stored, STORED_LENGTH};
use std::collections::{BTreeMap, BTreeSet};

/// The sums of lists that were left alone and of those of 2025, worked out apart from this program.
const ALONE: &str = "86d4cb65 8fcaf65d";
const OF_2025: &str = "ed1d7aeb ad739b64";

fn published() -> Set {
    Set::of(model_by_epoch_year(2025).unwrap())
}

fn hex(bytes: &[u8]) -> String {
    bytes.iter().map(|byte| format!("{byte:02x}")).collect()
}

/// The number of the answer to bytes.
fn number(bytes: &[u8]) -> u32 {
    let mut lists = [[0.0; 90]; 4];
    let [g, h, g_dot, h_dot] = &mut lists;
    read_stored(bytes, g, h, g_dot, h_dot).map_or_else(|refusal| refusal.number(), |_| 0)
}

#[test]
fn questions_round_trip() {
    let full = "a5".repeat(MAX_STORED);
    for line in [
        "SREAD ".to_string(),
        "SREAD 0102ff".to_string(),
        format!("SREAD {full}"),
        "SWRITE 0".to_string(),
        "SWRITE 4000".to_string(),
    ] {
        let mut written = Vec::new();
        put_case(&mut written, &parse_case(line.as_bytes()).unwrap());
        assert_eq!(String::from_utf8(written).unwrap(), line);
        assert!(line.len() + " = 19 4000 ".len() + ALONE.len() <= LONGEST);
    }
}

#[test]
fn malformed_lines() {
    let longer = format!("SREAD {}", "00".repeat(MAX_STORED + 1));
    for line in [
        "SREAD",
        "SREAD 0",
        "SREAD 010",
        "SREAD 0g",
        "SREAD g0",
        "SREAD +1",
        "SREAD 0x01",
        "SREAD  01",
        "SREAD 01 ",
        "SREAD 01 02",
        "SREAD\t01",
        " SREAD 01",
        "sread 01",
        &longer,
        "SWRITE",
        "SWRITE ",
        "SWRITE 4001",
        "SWRITE 9999",
        "SWRITE 00000",
        "SWRITE -0",
        "SWRITE +1",
        "SWRITE a",
        "SWRITE 1457.0",
        "SWRITE 1457 ",
        "SWRITE 1457 1",
        "SWRITE  1457",
        "swrite 1457",
    ] {
        let expected = format!("{line} = malformed\n");
        assert_eq!(answered(format!("{line} = 0\n").as_bytes()), expected);
    }
}

#[test]
fn answers_to_bytes() {
    let good = tagged(&published());
    let whole = hex(&good);
    let mut spoilt = good.clone();
    spoilt[11] = 0xff;
    let cases = [
        (String::new(), format!("19 0 {ALONE}")),
        ("02".into(), format!("17 0 {ALONE}")),
        ("0102".into(), format!("19 2 {ALONE}")),
        ("010300".into(), format!("18 1 {ALONE}")),
        (whole[..2912].into(), format!("19 1456 {ALONE}")),
        (format!("{whole}00"), format!("19 1457 {ALONE}")),
        (hex(&spoilt), format!("7 0 0 {ALONE}")),
        (whole.to_uppercase(), format!("0 000007e9 {OF_2025}")),
        (whole.clone(), format!("0 000007e9 {OF_2025}")),
        (
            whole.replacen("e907", "ffff", 1),
            format!("0 0000ffff {OF_2025}"),
        ),
    ];
    for (bytes, said) in cases {
        let line = format!("SREAD {bytes} = x\n");
        let expected = format!("SREAD {bytes} = {said}\n");
        assert_eq!(answered(line.as_bytes()), expected);
    }
}

#[test]
fn answers_to_rooms() {
    // the sums worked out apart from this program; before any SET line the lists are empty
    let cases = [
        (None, "0", "6 cbf29ce4 84222325"),
        (None, "1457", "6 04cca5d2 b149e690"),
        (Some(2025), "0", "20 cbf29ce4 84222325"),
        (Some(2025), "0001", "20 af64184c 86025280"),
        (Some(2025), "1456", "20 1b0989fb 30139795"),
        (Some(2025), "1457", "0 a2ff70c0 31987ca6"),
        (Some(2025), "1458", "0 90889994 461ab919"),
        (Some(2025), "4000", "0 db4516d1 454bc057"),
        (Some(65536), "1458", "20 71a3fa03 40922c0f"),
        (Some(-1), "4000", "20 06a9e4dd 3550f705"),
    ];
    for (epoch_year, room, said) in cases {
        let mut input = Vec::new();
        if let Some(epoch_year) = epoch_year {
            let lists = published().lists;
            put_set(&mut input, &Set { epoch_year, lists });
            input.push(b'\n');
        }
        input.extend_from_slice(format!("SWRITE {room}").as_bytes());
        let expected = format!("SWRITE {room} = {said}");
        assert_eq!(answered(&input).lines().last(), Some(&expected[..]));
    }
}

#[test]
fn tagged_sets_are_what_is_written() {
    let set = published();
    let mut bytes = vec![0; STORED_LENGTH];
    let [g, h, g_dot, h_dot] = set.slices();
    write_stored(2025, g, h, g_dot, h_dot, &mut bytes).unwrap();
    assert_eq!(tagged(&set), bytes);
}

/// The bytes of a group.
fn group(wanted: Group) -> Vec<Vec<u8>> {
    let (mut rng, good) = (Rng::new(3), tagged(&published()));
    let (_, _, ways) = GROUPS.into_iter().find(|group| group.0 == wanted).unwrap();
    (0..ways)
        .map(|way| planned(&mut rng, &good, wanted, way))
        .collect()
}

#[test]
fn planned_bytes_are_what_they_are_called() {
    let good = tagged(&published());
    for (length, bytes) in group(Group::Length).iter().enumerate() {
        assert_eq!(bytes.len(), length);
        assert_eq!(number(bytes), if length == 1457 { 0 } else { 19 });
    }
    // each value of each byte that is changed, and how many bits that changes
    let mut heads = BTreeSet::new();
    for bytes in group(Group::Head) {
        let at = (0..1457).find(|at| bytes[*at] != good[*at]).unwrap();
        assert_eq!(bytes[at + 1..], good[at + 1..]);
        assert!(STARTS[..5]
            .iter()
            .any(|start| (*start..start + 3).contains(&at)));
        heads.insert((at, bytes[at]));
    }
    assert_eq!(heads.len(), 15 * 255);
    let bits: BTreeSet<Vec<u8>> = group(Group::Bit).into_iter().collect();
    assert_eq!(bits.len(), 11_656);
    for bytes in &bits {
        let changed = bytes
            .iter()
            .zip(&good)
            .map(|(byte, other)| (byte ^ other).count_ones());
        assert_eq!((bytes.len(), changed.sum()), (1457, 1));
    }
    // five left out, ten swapped, none swapped, and 5 times 5 with a field again
    let fields: BTreeSet<Vec<u8>> = group(Group::Field).into_iter().collect();
    assert_eq!(fields.len(), 5 + 10 + 1 + 25);
    let longer = group(Group::Longer);
    assert_eq!(longer.iter().filter(|bytes| bytes.len() == 1681).count(), 2);
    assert!(longer
        .iter()
        .all(|bytes| [17, 18, 19].contains(&number(bytes))));
}

#[test]
fn planned_entries_and_faults() {
    let mut met = BTreeMap::new();
    for bytes in group(Group::Entry) {
        let mut lists = [[0.0; 90]; 4];
        let [g, h, g_dot, h_dot] = &mut lists;
        match read_stored(&bytes, g, h, g_dot, h_dot) {
            Err(Refusal::Coefficient { list, index }) => {
                *met.entry((list, index)).or_insert(0) += 1
            }
            Err(other) => panic!("{other:?}"),
            Ok(_) => assert!((0..4).all(|list| lists[list].iter().all(|x| x.abs() <= CAPS[list]))),
        }
    }
    // eight of the special entries are refused, at each place
    assert_eq!(met.len(), 360);
    assert!(met.values().all(|count| *count == 8));
    let numbers = |wanted| -> BTreeSet<u32> { group(wanted).iter().map(|b| number(b)).collect() };
    assert_eq!(numbers(Group::Set), BTreeSet::from([0, 7, 18]));
    assert_eq!(numbers(Group::Faults), BTreeSet::from([7, 17, 18, 19]));
}

/// Generated cases of one kind that can be read, each with the set in force and its answer's words.
fn generated(seed: u64, count: u64, kind: Kind) -> Vec<(Case<'static>, Set, Vec<String>)> {
    let mut text = Vec::new();
    write_cases(seed, count, &[kind], &mut text).unwrap();
    let mut output = Vec::new();
    answer(&mut &text[..], &mut output).unwrap();
    assert!(output == text, "cases come back");
    let mut set = Set::default();
    let mut cases = Vec::new();
    for line in String::from_utf8_lossy(&text).lines() {
        assert!(line.len() <= LONGEST);
        let Some((question, said)) = line.split_once(" = ") else {
            set = parse_set(line.as_bytes()).unwrap();
            continue;
        };
        let case = match parse_case(question.as_bytes()) {
            Some(Case::Sread { stored }) => Case::Sread { stored },
            Some(Case::Swrite { room }) => Case::Swrite { room },
            _ => continue,
        };
        let words = said.split(' ').map(String::from).collect();
        cases.push((case, set.clone(), words));
    }
    assert!(cases.len() as u64 > count * 9 / 10 && (cases.len() as u64) < count);
    cases
}

#[test]
fn bytes_meet_every_refusal() {
    let mut met = BTreeMap::new();
    for (_, _, words) in generated(3, 4000, Kind::Sread) {
        // the number and what it carries, but no year and no sums
        let told = if words[0] == "0" { 1 } else { words.len() - 2 };
        *met.entry(words[..told].join(" ")).or_insert(0) += 1;
    }
    let begins = |start: &str| -> usize {
        let those = met.iter().filter(|(said, _)| said.starts_with(start));
        those.map(|(_, count)| *count).sum()
    };
    for start in ["0", "7 0 ", "7 1 ", "7 2 ", "7 3 ", "17 ", "18 ", "19 "] {
        assert!(begins(start) > 20, "{start}: {}", begins(start));
    }
    for start in &STARTS[..5] {
        assert!(met.contains_key(&format!("17 {start}")));
        assert!(met.contains_key(&format!("18 {}", start + 1)));
    }
    assert!(met[&format!("19 {STORED_LENGTH}")] > 100);
}

#[test]
fn rooms_meet_every_refusal() {
    // the number, beside what a room and a year would be refused for; and which of these were taken
    let mut met = BTreeSet::new();
    let mut rooms = BTreeSet::new();
    let mut years = BTreeSet::new();
    for (case, set, words) in generated(3, 5600, Kind::Swrite) {
        let Case::Swrite { room } = case else {
            continue;
        };
        let taken = words[0] == "0";
        let out_of_range = u16::try_from(set.epoch_year).is_err();
        met.insert((words[0].clone(), room < STORED_LENGTH, out_of_range));
        rooms.insert((room, taken));
        years.insert((set.epoch_year, taken));
    }
    for (number, short, out_of_range) in [
        ("0", false, false),
        ("6", false, false),
        ("6", false, true),
        ("6", true, false),
        ("7", false, false),
        ("7", false, true),
        ("7", true, false),
        ("20", false, true),
        ("20", true, false),
        ("20", true, true),
    ] {
        assert!(met.contains(&(number.to_string(), short, out_of_range)));
    }
    for room in ROOMS {
        assert!(rooms.contains(&(room, room >= STORED_LENGTH)), "{room}");
    }
    for year in [-1, 0, 65535, 65536, i32::MIN, i32::MAX] {
        let taken = (0..=65535).contains(&year);
        assert!(years.contains(&(year, taken)), "{year}");
    }
}

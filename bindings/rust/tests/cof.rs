//! Coefficient files: the two published sets as files, and each refusal with what it carries.
//! tools/test-library runs it.
use njerumoy::{field, published, Day, List, OwnedSet, Pair, Refusal, Set};

const FILE_2020: &[u8] = include_bytes!("../../../data/WMM2020.COF");
const FILE_2025: &[u8] = include_bytes!("../../../data/WMM2025.COF");

fn bits(list: &[f32]) -> Vec<u32> {
    list.iter().map(|x| x.to_bits()).collect()
}

/// All four lists bit for bit, and the year.
fn assert_same(read: &Set, published: &Set) {
    assert_eq!(read.epoch_year, published.epoch_year);
    assert_eq!(bits(read.g), bits(published.g));
    assert_eq!(bits(read.h), bits(published.h));
    assert_eq!(bits(read.g_dot), bits(published.g_dot));
    assert_eq!(bits(read.h_dot), bits(published.h_dot));
}

/// The file of 2025 with its line `number`, counted from 1, in other words.
fn with_line(number: usize, words: &str) -> Vec<u8> {
    let text = std::str::from_utf8(FILE_2025).unwrap();
    let mut lines: Vec<&str> = text.lines().collect();
    lines[number - 1] = words;
    lines.join("\n").into_bytes()
}

fn refusal(text: &[u8]) -> Refusal {
    OwnedSet::read_cof(text).unwrap_err()
}

#[test]
fn the_published_sets() {
    let of_2020 = OwnedSet::read_cof(FILE_2020).unwrap();
    let of_2025 = OwnedSet::read_cof(FILE_2025).unwrap();
    assert_same(&of_2020.as_set(), &published::WMM2020);
    assert_same(&of_2025.as_set(), &published::WMM2025);
    assert_eq!((of_2020.epoch_year, of_2025.epoch_year), (2020, 2025));
}

#[test]
fn a_read_set_answers_for_its_epoch() {
    let set = OwnedSet::read_cof(FILE_2020).unwrap();
    let pole = Pair { sin: 1.0, cos: 0.0 };
    let greenwich = Pair { sin: 0.0, cos: 1.0 };
    let ask = |year, set: &Set| {
        let day = Day {
            year,
            day_of_year: 1,
        };
        field(0.0, pole, greenwich, day, set)
    };
    assert_eq!(ask(2024, &set.as_set()), ask(2024, &published::WMM2020));
    assert!(ask(2024, &set.as_set()).is_ok());
    let years = Refusal::OtherEpoch {
        of_day: 2025,
        of_set: 2020,
    };
    assert_eq!(ask(2025, &set.as_set()), Err(years));
    let later = OwnedSet::read_cof(&with_line(1, "2030.0")).unwrap();
    assert_eq!(later.epoch_year, 2030);
    assert_eq!(ask(2025, &later.as_set()).unwrap_err().number(), 5);
}

#[test]
fn malformed_lines() {
    let at_37 = Refusal::Malformed { line: 37 };
    for word in ["+5", ".5", "5.", "1e3", "1234567890", "", "5 5"] {
        let text = with_line(37, &format!("8 0 {word} 0.0 0.0 0.0"));
        assert_eq!(refusal(&text), at_37, "{word}");
    }
    assert_eq!(at_37.number(), 13);
    assert_eq!(
        at_37.to_string(),
        "line 37 is not what a coefficient file has there"
    );
    let header = Refusal::Malformed { line: 1 };
    assert_eq!(refusal(&with_line(1, "2025.5")), header);
    assert_eq!(refusal(b"\n"), header);
    let end = Refusal::Malformed { line: 93 };
    assert_eq!(refusal(&with_line(93, "the end")), end);
}

#[test]
fn lines_out_of_order() {
    let at_37 = Refusal::OutOfOrder { line: 37 };
    for line in ["8 1 0 0 0 0", "999999"] {
        assert_eq!(refusal(&with_line(37, line)), at_37, "{line}");
    }
    assert_eq!(at_37.number(), 14);
    assert_eq!(
        at_37.to_string(),
        "line 37 of the coefficient file is out of order or missing"
    );
    assert_eq!(refusal(b""), Refusal::OutOfOrder { line: 1 });
    assert_eq!(refusal(b"2025.0"), Refusal::OutOfOrder { line: 2 });
}

#[test]
fn coefficients_over_their_cap() {
    let over = |list, index| Refusal::Coefficient { list, index };
    assert_eq!(
        refusal(&with_line(37, "8 0 65537 0 0 0")),
        over(List::G, 35)
    );
    assert_eq!(
        refusal(&with_line(91, "12 12 0 0 0 -4096.5")),
        over(List::HDot, 89)
    );
    assert!(OwnedSet::read_cof(&with_line(37, "8 0 -65536 65536 4096 -4096")).is_ok());
}

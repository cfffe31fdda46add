//! Lines: what can be read, what cannot, and how each is written back.
use crate::entries::Set;
use crate::format::{parse_case, parse_set, put_case, put_set};
use crate::layout::published_file;
use crate::models::model_by_epoch_year;
use crate::replay::{answer, LONGEST};
use std::io::BufReader;

/// What the oracle writes for an input, read in small parts.
pub fn answered(input: &[u8]) -> String {
    let mut output = Vec::new();
    let mut input = BufReader::with_capacity(7, input);
    answer(&mut input, &mut output).unwrap();
    String::from_utf8_lossy(&output).into_owned()
}

#[test]
fn questions_round_trip() {
    let lines: [&[u8]; 13] = [
        b"SUM 00000000 3f800000 80000000 bf800000 3f600000 40a00000",
        b"FIELD 494f8500 3f800000 b33bbd2e 7fc00000 ff800001 -2147483648 2147483647",
        b"EPOCH 0 -1",
        b"STR 44960000 44c80000 00000001",
        b"GV 425c0000 c3340000 43340000",
        b"SQRT ffffffff",
        b"SQRT 7f800001",
        b"DEC -29351.8",
        b"DEC ;\t\r\0\xff",
        b"WHOLE 2025.0",
        b"COF ",
        b"COF  \t2025.0  x\r;  1  0 ; ",
        b"COF ;\0\xff",
    ];
    for line in lines {
        let mut written = Vec::new();
        put_case(&mut written, &parse_case(line).unwrap());
        assert_eq!(written, line);
    }
}

#[test]
fn sets_round_trip() {
    let mut full = b"SET 2025".to_vec();
    for _ in 0..4 {
        full.extend_from_slice(b" 128");
        full.extend_from_slice(&b" deadbeef".repeat(128));
    }
    for line in [b"SET -5 0 0 1 7fc00000 2 00000001 80000000".to_vec(), full] {
        let mut written = Vec::new();
        put_set(&mut written, &parse_set(&line).unwrap());
        assert_eq!(written, line);
        assert!(line.len() <= LONGEST);
    }
}

#[test]
fn answers() {
    let cases = [
        ("SQRT 40800000 = ", "SQRT 40800000 = 0 40000000\n"),
        ("SQRT 40800000", "SQRT 40800000 = 0 40000000\n"),
        (
            "SQRT 40800000 = what = ever\n",
            "SQRT 40800000 = 0 40000000\n",
        ),
        ("SQRT ffc00000\n", "SQRT ffc00000 = 12\n"),
        ("SQRT 80000001\n", "SQRT 80000001 = 12\n"),
        ("SQRT 80000000\n", "SQRT 80000000 = 0 80000000\n"),
        ("SQRT 7F800000\n", "SQRT 7F800000 = 0 7f800000\n"),
        ("EPOCH 2024 184\n", "EPOCH 2024 184 = 0 2020 40900000\n"),
        ("EPOCH 0000002024 -0\n", "EPOCH 0000002024 -0 = 4\n"),
        ("EPOCH 2030 1\n", "EPOCH 2030 1 = 5 2020 1 2029 365\n"),
        (
            "STR 44960000 44c80000 00000000\n",
            "STR 44960000 44c80000 00000000 = 0 44fa0000 44fa0000 2 4034c47b 402e240e\n",
        ),
        ("STR 7fc00000 0 0\n", "STR 7fc00000 0 0 = malformed\n"),
        (
            "GV 00000000 00000000 00000000\n",
            "GV 00000000 00000000 00000000 = 0 N\n",
        ),
        (
            "GV 42b40000 c3340000 41200000\n",
            "GV 42b40000 c3340000 41200000 = 0 P c32a0000\n",
        ),
        // the set before any SET line: epoch 0, four empty lists
        (
            "SUM 00000000 3f800000 00000000 3f800000 3f800000 00000000",
            "SUM 00000000 3f800000 00000000 3f800000 3f800000 00000000 = 6\n",
        ),
        (
            "FIELD 00000000 00000000 3f800000 00000000 3f800000 2020 1",
            "FIELD 00000000 00000000 3f800000 00000000 3f800000 2020 1 = 5 2020 1 2029 365\n",
        ),
        (
            "FIELD 7fc00000 00000000 3f800000 00000000 3f800000 2020 1",
            "FIELD 7fc00000 00000000 3f800000 00000000 3f800000 2020 1 = 1 bf800000 44548000\n",
        ),
    ];
    for (line, expected) in cases {
        assert_eq!(answered(line.as_bytes()), expected, "{line:?}");
    }
}

#[test]
fn a_field_comes_with_its_error_figures() {
    // document 01's table, by its bits
    let rows = [
        (
            2020,
            "3e851eb8 45afc800 3e570a3d 43110000 43000000 43030000 42bc0000 431d0000",
        ),
        (
            2025,
            "3e851eb8 45a94800 3e4ccccd 430a0000 43050000 43090000 42b20000 430d0000",
        ),
    ];
    for (year, figures) in rows {
        let mut input = Vec::new();
        put_set(&mut input, &Set::of(model_by_epoch_year(year).unwrap()));
        let question = format!("FIELD 00000000 00000000 3f800000 00000000 3f800000 {year} 1");
        input.extend_from_slice(format!("\n{question}\n").as_bytes());
        let said = answered(&input);
        let (_, said) = said.split_once(" = 0 ").unwrap();
        let words: Vec<&str> = said.trim_end().split(' ').collect();
        assert_eq!(words.len(), 11);
        assert_eq!(words[3..].join(" "), figures);
    }
}

#[test]
fn malformed_lines() {
    let lines = [
        "",
        " ",
        "SQRT",
        "SQRT ",
        "SQRT 4080000",
        "SQRT 408000000",
        "SQRT 4080000g",
        "SQRT  40800000",
        " SQRT 40800000",
        "SQRT 40800000 ",
        "SQRT 40800000\r",
        "SQRT 40800000 0",
        "SQRT\t40800000",
        "sqrt 40800000",
        "SQRTS 40800000",
        "EPOCH 2147483648 1",
        "EPOCH -2147483649 1",
        "EPOCH +2020 1",
        "EPOCH 2020",
        "EPOCH 2020 ",
        "EPOCH - 1",
        "EPOCH --1 1",
        "EPOCH 00000002020 1",
        "EPOCH 2020.0 1",
        "SET",
        "SET 2020",
        "SET 2020 0 0 0",
        "SET 2020 0 0 0 0 0",
        "SET 2020 0 0 0 0 ",
        "SET 2020 1 0 0 0",
        "SET 2020 129 0 0 0",
        "SET 2020 0000 0 0 0",
        "SET 2020 -0 0 0 0",
        "SET 2147483648 0 0 0 0",
        "SUM 1 2 3",
        "DEC",
        "DEC ",
        "DEC  5",
        "DEC 5 ",
        "DEC 5 5",
        "dec 5",
        "WHOLE",
        "WHOLE ",
        "WHOLE 5 0",
        " WHOLE 5",
        "COF",
        " COF 2025.0",
        "COF\t2025.0",
        "COF;2025.0",
        "cof 2025.0",
        "malformed",
    ];
    for line in lines {
        let expected = format!("{line} = malformed\n");
        assert_eq!(answered(format!("{line}\n").as_bytes()), expected);
        assert_eq!(answered(format!("{line} = 0 1\n").as_bytes()), expected);
        assert_eq!(answered(expected.as_bytes()), expected);
    }
    // a SET line with a mark cannot be read
    assert_eq!(
        answered(b"SET 2020 0 0 0 0 = x\n"),
        "SET 2020 0 0 0 0 = malformed\n"
    );
    // bytes that are no text, and an odd mark
    assert_eq!(
        answered(b"\0\xff\n").as_bytes(),
        "\0\u{fffd} = malformed\n".as_bytes()
    );
    assert_eq!(
        answered(b"SQRT 40800000 =\n"),
        "SQRT 40800000 = = malformed\n"
    );
    assert_eq!(answered(b"= = = =\n"), "= = malformed\n");
}

#[test]
fn a_malformed_set_changes_nothing() {
    let question = "FIELD 00000000 00000000 3f800000 00000000 3f800000 2020 1";
    let input = format!("SET 2020 0 0 0 0\nSET 2020 0 0 0\n{question}\n");
    let output = format!("SET 2020 0 0 0 0\nSET 2020 0 0 0 = malformed\n{question} = 6\n");
    assert_eq!(answered(input.as_bytes()), output);
}

#[test]
fn ends_of_input_and_long_lines() {
    assert_eq!(answered(b""), "");
    assert_eq!(answered(b"\n"), " = malformed\n");
    assert_eq!(answered(b"\n\n"), " = malformed\n = malformed\n");
    assert_eq!(
        answered(b"SQRT 0\nSQRT"),
        "SQRT 0 = malformed\nSQRT = malformed\n"
    );

    let question = "SQRT 40800000 = ";
    let long = |length: usize| format!("{question}{}", "7".repeat(length - question.len()));
    let next = "\nSQRT 3f800000\n";
    let after = "SQRT 3f800000 = 0 3f800000\n";
    assert_eq!(
        answered(format!("{}{next}", long(LONGEST)).as_bytes()),
        format!("SQRT 40800000 = 0 40000000\n{after}")
    );
    for length in [LONGEST + 1, LONGEST + 2, 3 * LONGEST] {
        let line = long(length);
        assert_eq!(
            answered(format!("{line}{next}").as_bytes()),
            format!("{} = malformed\n{after}", &line[..64])
        );
    }
}

#[test]
fn words() {
    let cases = [
        ("DEC 16777217", "0 4b800000"),
        ("DEC -0.0", "0 80000000"),
        ("DEC 999999999", "0 4e6e6b28"),
        ("DEC 1234567890", "13"),
        ("DEC +5", "13"),
        ("DEC 5\t", "13"),
        ("DEC ;", "13"),
        ("WHOLE 2025.0", "0 000007e9"),
        ("WHOLE -5", "0 fffffffb"),
        ("WHOLE -0", "0 00000000"),
        ("WHOLE 999999999", "0 3b9ac9ff"),
        ("WHOLE -999999999", "0 c4653601"),
        ("WHOLE 2025.5", "13"),
        ("WHOLE 5.", "13"),
    ];
    for (question, said) in cases {
        let expected = format!("{question} = {said}\n");
        assert_eq!(answered(question.as_bytes()), expected);
        assert_eq!(answered(format!("{question} = 0 \n").as_bytes()), expected);
    }
}

/// The sums of lists that were left alone and of those of 2025, worked out apart from this program.
const ALONE: &str = "86d4cb65 8fcaf65d";
const OF_2025: &str = "ed1d7aeb ad739b64";

#[test]
fn files() {
    let lines = |text: &[u8]| String::from_utf8(text.to_vec()).unwrap().replace('\n', ";");
    let whole = lines(&published_file(2025).unwrap());
    let cases = [
        // an empty file, and one with nothing but a space
        (String::new(), format!("14 1 {ALONE}")),
        (" ".into(), format!("13 1 {ALONE}")),
        ("2025.0".into(), format!("14 2 {ALONE}")),
        (" 2025.0;;".into(), format!("13 2 {ALONE}")),
        ("2025.0 ;\t9 ".into(), format!("14 2 {ALONE}")),
        (whole.replace("2025.0", "2025.5"), format!("13 1 {ALONE}")),
        (
            whole.replace("  4545.4", " 65536.1"),
            format!("7 1 1 {ALONE}"),
        ),
        (format!("{whole};"), format!("13 94 {ALONE}")),
        (
            whole.replace("2025.0", "-1"),
            format!("0 ffffffff {OF_2025}"),
        ),
        (whole.replace(';', "\r;"), format!("0 000007e9 {OF_2025}")),
        (whole.clone(), format!("0 000007e9 {OF_2025}")),
    ];
    for (text, said) in cases {
        let expected = format!("COF {text} = {said}\n");
        assert_eq!(answered(format!("COF {text}\n").as_bytes()), expected);
        assert_eq!(answered(format!("COF {text} = 0 = 1").as_bytes()), expected);
    }
    // the first mark ends the text
    assert_eq!(answered(b"COF = 5\n"), "COF = malformed\n");
    assert_eq!(
        answered(b"COF 5 = 6;7 = 8\n"),
        format!("COF 5 = 14 2 {ALONE}\n")
    );
    let long = format!("COF {}", " ".repeat(LONGEST - 4));
    assert_eq!(
        answered(long.as_bytes()),
        format!("{long} = 13 1 {ALONE}\n")
    );
    let longer = format!("{long} ");
    assert_eq!(
        answered(longer.as_bytes()),
        format!("{} = malformed\n", &long[..64])
    );
}

//! The reader of the agency's file: numbers, whole numbers, lines, their order, and what is kept.
use crate::agency::{number, read_cof, whole};
use crate::cases::decimals::NO_NUMBERS;
use crate::entries::{Refusal, Set};
use crate::layout::published_file;
use crate::models::model_by_epoch_year;

/// What stands in the lists before a file is read.
const UNREAD: f32 = -12345.0;

/// The epoch year and the lists of a file, or the refusal. A refused file leaves the lists alone.
fn read(text: &[u8]) -> Result<(i32, [[f32; 90]; 4]), Refusal> {
    let mut lists = [[UNREAD; 90]; 4];
    let [g, h, g_dot, h_dot] = &mut lists;
    let answer = read_cof(text, g, h, g_dot, h_dot);
    if answer.is_err() {
        assert_eq!(lists, [[UNREAD; 90]; 4], "the lists were written");
    }
    answer.map(|epoch_year| (epoch_year, lists))
}

fn malformed(line: usize) -> Result<(i32, [[f32; 90]; 4]), Refusal> {
    Err(Refusal::Malformed { line })
}

fn out_of_order(line: usize) -> Result<(i32, [[f32; 90]; 4]), Refusal> {
    Err(Refusal::OutOfOrder { line })
}

/// The 93 lines of the file of 2025.
fn lines() -> Vec<Vec<u8>> {
    let text = published_file(2025).unwrap();
    let lines = text.strip_suffix(b"\n").unwrap().split(|b| *b == b'\n');
    lines.map(<[u8]>::to_vec).collect()
}

/// The file with line `number` (from 1) written anew.
fn with_line(number: usize, line: &[u8]) -> Vec<u8> {
    let mut lines = lines();
    lines[number - 1] = line.to_vec();
    lines.join(&b'\n')
}

/// The file without its last two lines, and then these bytes.
fn ended_by(end: &[u8]) -> Vec<u8> {
    let mut text = lines()[..91].join(&b'\n');
    text.push(b'\n');
    text.extend_from_slice(end);
    text
}

#[test]
fn the_published_files_read_back() {
    for epoch_year in [2020, 2025] {
        let text = published_file(epoch_year).unwrap();
        let (year, lists) = read(&text).unwrap();
        assert_eq!(year, epoch_year);
        let set = Set::of(model_by_epoch_year(epoch_year).unwrap());
        for (read, list) in lists.iter().zip(&set.lists) {
            let bits = |list: &[f32]| -> Vec<u32> { list.iter().map(|x| x.to_bits()).collect() };
            assert_eq!(bits(read), bits(list));
        }
    }
    assert_eq!(published_file(2021), None);
}

#[test]
fn the_layout() {
    let lines = lines();
    assert_eq!(lines.len(), 93);
    let shown = |at: usize| String::from_utf8(lines[at].clone()).unwrap();
    assert_eq!(shown(0), "    2025.0            WMM-2025     11/13/2024");
    assert_eq!(shown(1), "  1  0  -29351.8       0.0       12.0        0.0");
    assert_eq!(
        shown(90),
        " 12 12      -0.7       0.2       -0.1       -0.1"
    );
    assert_eq!(shown(91), "9".repeat(48));
    assert_eq!(shown(92), "9".repeat(48));
    let of_2020 = published_file(2020).unwrap();
    assert!(of_2020.starts_with(b"    2020.0            WMM-2020     12/10/2019\n  1  0  -29404.5"));
}

#[test]
fn what_is_no_number() {
    let more: [&[u8]; 3] = [b"", b"-5-", b"1.000000000"];
    for word in NO_NUMBERS.into_iter().chain(more) {
        assert_eq!(number(word), None, "{word:?}");
        assert_eq!(whole(word), None, "{word:?}");
        // in a file: the header, and each of the six places. A space keeps a CR in its word.
        if word.is_empty() {
            continue;
        }
        let spaced = [word, b" "].concat();
        assert_eq!(read(&with_line(1, &spaced)), malformed(1));
        for place in 0..6 {
            let mut words: Vec<&[u8]> = vec![b"1 ", b"0 ", b"1.5 ", b"0 ", b"-2.5 ", b"0.0 "];
            words[place] = &spaced;
            assert_eq!(read(&with_line(2, &words.concat())), malformed(2));
        }
    }
}

#[test]
fn whole_numbers() {
    let good: [(&[u8], i32); 11] = [
        (b"0", 0),
        (b"-0", 0),
        (b"-0.0", 0),
        (b"3", 3),
        (b"3.0", 3),
        (b"0003.00", 3),
        (b"2025.0", 2025),
        (b"-5", -5),
        (b"-5.0000", -5),
        (b"999999999", 999999999),
        (b"-999999999", -999999999),
    ];
    for (word, value) in good {
        assert_eq!(whole(word), Some(value), "{word:?}");
        assert_eq!(read(&with_line(1, word)).map(|read| read.0), Ok(value));
    }
    for word in [&b"2025.5"[..], b"0.00000001", b"3.10", b"-0.5"] {
        assert!(number(word).is_some());
        assert_eq!(whole(word), None, "{word:?}");
        assert_eq!(read(&with_line(1, word)), malformed(1));
        assert_eq!(
            read(&with_line(2, &[word, b" 0 0 0 0 0"].concat())),
            malformed(2)
        );
    }
}

#[test]
fn headers() {
    let year = |line: &[u8]| read(&with_line(1, line)).map(|read| read.0);
    assert_eq!(year(b"2025"), Ok(2025));
    assert_eq!(year(b"\t \t2020.0 2021 \r \0 \xff +5"), Ok(2020));
    assert_eq!(year(b"2025.0\tWMM"), Ok(2025));
    assert_eq!(year(b"2025\r"), Ok(2025));
    for line in [
        &b""[..],
        b" ",
        b"\t",
        b"WMM 2025",
        b"2025.0,",
        b"2025\r\r",
        b"\r2025",
    ] {
        assert_eq!(read(&with_line(1, line)), malformed(1));
    }
    assert_eq!(read(b""), out_of_order(1));
    assert_eq!(read(b"\n"), malformed(1));
    assert_eq!(read(b"\r\n"), malformed(1));
    assert_eq!(read(b"2025.0"), out_of_order(2));
    assert_eq!(read(b"2025.0\n"), out_of_order(2));
    assert_eq!(read(b"2025.0\n\n"), malformed(2));
    assert_eq!(read(&b"9".repeat(48)), malformed(1));
}

#[test]
fn ends_of_lines() {
    let whole = read(&published_file(2025).unwrap());
    assert!(whole.is_ok());
    // no newline at the end; CR before each LF; one line with it
    assert_eq!(read(&lines().join(&b'\n')), whole);
    assert_eq!(
        read(&[lines().join(&b"\r\n"[..]), b"\r\n".to_vec()].concat()),
        whole
    );
    assert_eq!(
        read(&with_line(91, &[&lines()[90], &b"\r"[..]].concat())),
        whole
    );
    // two CR, or one that no LF follows, are part of a word
    assert_eq!(
        read(&with_line(91, &[&lines()[90], &b"\r\r"[..]].concat())),
        malformed(91)
    );
    assert_eq!(read(&with_line(93, b"999\r")), malformed(93));
    assert_eq!(read(&ended_by(b"999\r\n")), whole);
    assert_eq!(read(&ended_by(b"\r")), malformed(92));
    // a CR alone ends no line
    assert_eq!(read(&lines().join(&b'\r')), out_of_order(2));
}

#[test]
fn coefficient_lines() {
    let first = |line: &[u8]| read(&with_line(2, line)).map(|(_, lists)| lists.map(|list| list[0]));
    assert_eq!(first(b"1 0 -1.5 2 3.25 -4"), Ok([-1.5, 2.0, 3.25, -4.0]));
    assert_eq!(
        first(b"\t1.0\t-0.00   1 2\t \t3 4  \t"),
        Ok([1.0, 2.0, 3.0, 4.0])
    );
    for line in [
        &b""[..],
        b" ",
        b"1 0 1 2 3",
        b"1 0 1 2 3 4 5",
        b"1 0 1 2 3 4 x",
        b"1.5 0 1 2 3 4",
        b"1 0.5 1 2 3 4",
        b"1 0 1 2\x0b3 4",
        b"1,0,1,2,3,4",
        b"1 0 1 2 3 4\0",
        b"1 0 1 2 3 0000000000",
        b"99 9 98",
        b"9 9 9 9 9 9.",
        b"99 -9",
        b"\xff",
    ] {
        assert_eq!(read(&with_line(2, line)), malformed(2), "{line:?}");
    }
    // of the form, or nines, but not the next one
    for line in [
        &b"1 1 1 2 3 4"[..],
        b"0 0 1 2 3 4",
        b"-1 0 1 2 3 4",
        b"1 -1 1 2 3 4",
        b"12 12 1 2 3 4",
        b"999999999 999999999 1 2 3 4",
        b"9 9 9 9 9 9",
        b"9",
        b"99 9",
        b" 9\t99 ",
        b"9 9 9 9 9 9 9",
        b"9999999999 9 9 9 9 9",
        b"999999999999999999999999999999999999999999999999",
    ] {
        assert_eq!(read(&with_line(2, line)), out_of_order(2), "{line:?}");
    }
}

#[test]
fn six_nines_at_degree_nine_and_order_nine() {
    // degree 9 and order 9 stand at 9 * 10 / 2 + 9 - 1, in line 2 more
    let (_, lists) = read(&with_line(55, b"9 9 9 9 9 9")).unwrap();
    assert_eq!(lists.map(|list| list[53]), [9.0; 4]);
    assert_eq!(read(&with_line(55, b"9 9 9 9 9")), out_of_order(55));
    assert_eq!(read(&with_line(55, b"9 9 9 9 9 8 9")), malformed(55));
    assert_eq!(read(&with_line(54, b"9 9 9 9 9 9")), out_of_order(54));
    // the caps come after the lines
    assert_eq!(
        read(&with_line(55, b"9 9 99999 9 9 9")),
        Err(Refusal::Coefficient { list: 0, index: 53 })
    );
}

#[test]
fn the_order_of_lines() {
    for number in 2..=91 {
        let mut dropped = lines();
        let line = dropped.remove(number - 1);
        assert_eq!(read(&dropped.join(&b'\n')), out_of_order(number));
        let mut doubled = lines();
        doubled.insert(number - 1, line.clone());
        let expected = if number == 91 {
            malformed(92)
        } else {
            out_of_order(number + 1)
        };
        assert_eq!(read(&doubled.join(&b'\n')), expected);
        assert_eq!(
            read(&lines()[..number - 1].join(&b'\n')),
            out_of_order(number)
        );
        assert_eq!(read(&with_line(number, b"")), malformed(number));
    }
    // the first of two faults is told
    let mut both = lines();
    both[5] = b"9".to_vec();
    both[6] = b"x".to_vec();
    assert_eq!(read(&both.join(&b'\n')), out_of_order(6));
    both.swap(5, 6);
    assert_eq!(read(&both.join(&b'\n')), malformed(6));
}

#[test]
fn after_the_coefficients() {
    let whole = read(&published_file(2025).unwrap());
    for end in [&b""[..], b"9", b"9\n", b"9 99\t9\n \t9999999999\t\n9"] {
        assert_eq!(read(&ended_by(end)), whole, "{end:?}");
    }
    for end in [
        &b"\n"[..],
        b" ",
        b"\t\n",
        b"8",
        b"9.",
        b"9.0",
        b"-9",
        b"+9",
        b"9 8",
        b"99999x",
        b"9\r",
        b"9\0",
        b"1 0 1 2 3 4",
        b"12 13 1 2 3 4",
        b"13 0 1 2 3 4\n9",
        b"\n9\n",
    ] {
        assert_eq!(read(&ended_by(end)), malformed(92), "{end:?}");
        assert_eq!(
            read(&ended_by(&[b"9\n99\n", end].concat())),
            malformed(94),
            "{end:?}"
        );
    }
}

#[test]
fn caps() {
    let numbers = |line: usize, numbers: &str| {
        let (degree, order) = if line == 2 { (1, 0) } else { (12, 12) };
        read(&with_line(
            line,
            format!("{degree} {order} {numbers}").as_bytes(),
        ))
    };
    let first = |said: Result<(i32, [[f32; 90]; 4]), Refusal>| said.map(|read| read.1[0][0]);
    let over = |list, index| Err(Refusal::Coefficient { list, index });
    assert_eq!(first(numbers(2, "65536 -65536 4096 -4096.0")), Ok(65536.0));
    // nearer to the cap than to the next f32, and halfway: the even one
    assert_eq!(
        first(numbers(2, "65536.003 -65536.003 4096.0002 -4096.0002")),
        Ok(65536.0)
    );
    assert_eq!(numbers(2, "65536.01 0 0 0"), over(0, 0));
    assert_eq!(numbers(2, "-65536.01 0 0 0"), over(0, 0));
    assert_eq!(numbers(2, "0 999999999 0 0"), over(1, 0));
    assert_eq!(numbers(2, "0 0 4096.01 5000"), over(2, 0));
    assert_eq!(numbers(91, "0 0 65536 -4096.01"), over(2, 89));
    assert_eq!(numbers(91, "0 0 0 -4096.01"), over(3, 89));
    // by list, then by index; and only after all lines are read
    let mut text = lines();
    text[1] = b"1 0 0 0 0 9999".to_vec();
    text[30] = [&text[30][..6], b" 1 77777 1 1"].concat();
    text[90] = b"12 12 0 88888 0 0".to_vec();
    assert_eq!(read(&text.join(&b'\n')), over(1, 29));
    text[92] = b"x".to_vec();
    assert_eq!(read(&text.join(&b'\n')), malformed(93));
}

#[test]
fn lengths_come_first() {
    for text in [published_file(2025).unwrap(), b"x".to_vec(), vec![]] {
        for wrong in 0..4 {
            for length in [0, 1, 89, 91, 180] {
                let mut lists = [90; 4].map(|length| vec![UNREAD; length]);
                lists[wrong].resize(length, UNREAD);
                let before = lists.clone();
                let [g, h, g_dot, h_dot] = &mut lists;
                assert_eq!(read_cof(&text, g, h, g_dot, h_dot), Err(Refusal::Length));
                assert_eq!(lists, before);
            }
        }
    }
}

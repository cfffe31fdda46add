//! Words as numbers: by hand, and every planned word by exact arithmetic over whole numbers.
use crate::agency::{number, whole};
use crate::cases::planned_words;
use std::collections::BTreeSet;

#[test]
fn numbers() {
    let good: [(&str, u32); 17] = [
        ("0", 0),
        ("-0", 0x8000_0000),
        ("-0.0", 0x8000_0000),
        ("000000000", 0),
        ("1", 0x3f80_0000),
        ("-29351.8", 0xc6e5_4f9a),
        ("0.1", 0x3dcc_cccd),
        ("00.5", 0x3f00_0000),
        ("0.00000001", 0x322b_cc77),
        ("999999999", 0x4e6e_6b28),
        ("99999999.9", 0x4cbe_bc20),
        ("12345678.9", 0x4b3c_614f),
        // halfway between two f32: the even one, below or above
        ("16777217", 0x4b80_0000),
        ("16777219", 0x4b80_0002),
        ("-16777217.0", 0xcb80_0000),
        ("8388608.5", 0x4b00_0000),
        ("8388609.5", 0x4b00_0002),
    ];
    for (word, bits) in good {
        assert_eq!(
            number(word.as_bytes()).map(f32::to_bits),
            Some(bits),
            "{word}"
        );
    }
}

/// Ten to the digits after the point of a word, and its digits as one whole number; by the rule, with
/// no other reader of numbers.
fn parts(word: &[u8]) -> Option<(u128, u128)> {
    let size = word.strip_prefix(b"-").unwrap_or(word);
    let sides: Vec<&[u8]> = size.split(|byte| *byte == b'.').collect();
    let digits = sides.concat();
    let good = sides.len() <= 2
        && sides.iter().all(|side| !side.is_empty())
        && digits.len() <= 9
        && digits.iter().all(u8::is_ascii_digit);
    let value = |digits: &[u8]| {
        let next = |value, digit: &u8| 10 * value + u128::from(digit - b'0');
        digits.iter().fold(0, next)
    };
    let after = sides.get(1).map_or(0, |side| side.len());
    good.then(|| (10u128.pow(after as u32), value(&digits)))
}

/// An f32 of at least 2^-40, times 2^63: a whole number.
fn scaled(x: f32) -> u128 {
    let (bits, exponent) = (x.to_bits(), x.to_bits() >> 23);
    u128::from(bits % (1 << 23) + (1 << 23)) << (exponent - 87)
}

/// How an f32 lies to a number above zero, size / ten: whether no neighbour is nearer, and whether
/// one is as near.
fn nearest(x: f32, size: u128, ten: u128) -> (bool, bool) {
    let distance = |bits: u32| (scaled(f32::from_bits(bits)) * ten).abs_diff(size << 63);
    let own = distance(x.to_bits());
    let others = [x.to_bits() - 1, x.to_bits() + 1].map(distance);
    (
        others.iter().all(|other| own <= *other),
        others.contains(&own),
    )
}

#[test]
fn planned_words_read_as_the_nearest() {
    let words = planned_words();
    let mut halfway = BTreeSet::new();
    let mut refused = 0;
    for word in &words {
        let shown = String::from_utf8_lossy(word);
        let Some((ten, size)) = parts(word) else {
            assert_eq!(number(word), None, "{shown}");
            assert_eq!(whole(word), None, "{shown}");
            refused += 1;
            continue;
        };
        let x = number(word).unwrap();
        let minus = word[0] == b'-';
        assert_eq!(x.is_sign_negative(), minus, "{shown}");
        let value = (size % ten == 0).then_some((size / ten) as i32);
        assert_eq!(
            whole(word),
            value.map(|value| if minus { -value } else { value }),
            "{shown}"
        );
        if size == 0 {
            assert_eq!(x, 0.0, "{shown}");
            continue;
        }
        let (near, tie) = nearest(x.abs(), size, ten);
        assert!(near, "{shown}");
        if tie {
            assert_eq!(x.to_bits() % 2, 0, "{shown}");
            // the kind: digits after the point, the exponent, which f32 is the even one, the sign
            let upward = scaled(x.abs()) * ten > size << 63;
            halfway.insert((ten, x.abs().to_bits() >> 23, upward, minus));
        }
    }
    assert!(refused > 100 && words.len() > 1000);
    every_kind_is_met(&halfway);
}

/// Takes the lowest four middles of two f32 of every exponent, with 0 to 8 digits after the point.
/// Where one is a number of nine digits, a planned word of its kind was met. There are twelve kinds,
/// but for the sign and for which f32 is even.
fn every_kind_is_met(met: &BTreeSet<(u128, u32, bool, bool)>) {
    let mut kinds = 0;
    for places in 0..=8 {
        let ten = 10u128.pow(places);
        for exponent in 100..=156u32 {
            for step in 0..4 {
                let bits = (exponent << 23) + step;
                let middle = (scaled(f32::from_bits(bits)) + scaled(f32::from_bits(bits + 1))) / 2;
                let whole_number = middle * ten % (1 << 63) == 0;
                if whole_number && (middle * ten) >> 63 < 1_000_000_000 {
                    let upward = step % 2 == 1;
                    kinds += 1;
                    for minus in [false, true] {
                        let kind = (ten, exponent, upward, minus);
                        assert!(met.contains(&kind), "never met: {kind:?}");
                    }
                }
            }
        }
    }
    assert_eq!(kinds, 4 * 12);
}

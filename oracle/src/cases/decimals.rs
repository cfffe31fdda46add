//! Words for DEC and WHOLE: numbers of every shape, halfway between two f32 and beside, and words
//! that are no number.
use super::rng::Rng;
use super::values::step;
use crate::layout::SPOILING;

/// Above every number of nine digits, taken without its point.
const LIMIT: u64 = 1_000_000_000;
/// The most digits that can stand after the point.
const MOST_PLACES: usize = 8;
/// Halfway between two f32 lies an odd number of 25 bits, times a power of two.
const HALFWAY_MIN: u64 = (1 << 24) + 1;
const HALFWAY_MAX: u64 = (1 << 25) - 1;

/// Numbers, as they are.
const NUMBERS: [&[u8]; 26] = [
    b"-0",
    b"-0.0",
    b"0.00",
    b"-0.00000000",
    b"2025.0",
    b"2020.0",
    b"2025.5",
    b"2025.05",
    b"3.0",
    b"03",
    b"3.00",
    b"-3.0",
    b"-12",
    b"12.10",
    b"1.00000001",
    b"65536",
    b"65536.01",
    b"65536.0039",
    b"4096.0002",
    b"-4096.0003",
    b"0000.0001",
    b"000000001",
    b"-000000001",
    b"0.1",
    b"-29351.8",
    b"12345678.0",
];

/// Words that are no number.
pub const NO_NUMBERS: [&[u8]; 34] = [
    b"1234567890",
    b"0000000000",
    b"0000000001",
    b"0.000000000",
    b"123456789.0",
    b"99999999999999999999",
    b"-",
    b".",
    b"-.",
    b"+5",
    b"+",
    b"-+5",
    b".5",
    b"-.5",
    b"5.",
    b"-5.",
    b"1e3",
    b"1E3",
    b"1.5e0",
    b"--5",
    b"5-",
    b"1-2",
    b"1.-2",
    b"1.2.3",
    b"1..2",
    b"x",
    b"5x",
    b"0x5",
    b"inf",
    b"NaN",
    b"1,5",
    b"5\r",
    b"5\0",
    b"\xff",
];

/// A number without its point, and how many of its digits stand after it.
type Decimal = (u64, usize);

/// The word of a number, with zeros before it up to `width` digits.
fn written(minus: bool, (size, places): Decimal, width: usize) -> Vec<u8> {
    let width = width.max(places + 1);
    let mut word = format!("{size:0width$}").into_bytes();
    if places > 0 {
        word.insert(word.len() - places, b'.');
    }
    if minus {
        word.insert(0, b'-');
    }
    word
}

/// The kinds of numbers halfway between two f32: odd · unit / 10^places is halfway for every odd
/// number of 25 bits. Gives unit and places: 5^places, and twice, four times that and so on.
fn halfway_kinds() -> Vec<Decimal> {
    let mut kinds = Vec::new();
    for places in 0..=MOST_PLACES {
        let mut unit = 5u64.pow(places as u32);
        while unit * HALFWAY_MIN < LIMIT {
            kinds.push((unit, places));
            unit *= 2;
        }
    }
    kinds
}

/// The largest odd number of a kind that nine digits can say.
fn last_odd(unit: u64) -> u64 {
    let most = HALFWAY_MAX.min((LIMIT - 1) / unit);
    most - (most + 1) % 2
}

/// Of each kind the two lowest and the two highest: the f32 below is even, or odd.
fn halfway() -> Vec<Decimal> {
    let mut found = Vec::new();
    for (unit, places) in halfway_kinds() {
        let last = last_odd(unit);
        for odd in [HALFWAY_MIN, HALFWAY_MIN + 2, last - 2, last] {
            found.push((odd * unit, places));
        }
    }
    found
}

/// Words of every length from 1 to 10 digits with every place of the point, filled in six ways.
fn shapes(minus: bool) -> Vec<Vec<u8>> {
    let mut words = Vec::new();
    for length in 1..=10 {
        let end = 10u64.pow(length as u32);
        for places in 0..length {
            for size in [0, 1, end / 10, end / 10 - 1, end - 1, 1234567891 % end] {
                words.push(written(minus, (size, places), length));
            }
        }
    }
    words
}

/// The planned words, each once.
pub fn planned_words() -> Vec<Vec<u8>> {
    let as_they_are = NUMBERS.iter().chain(&NO_NUMBERS);
    let mut words: Vec<Vec<u8>> = as_they_are.map(|word| word.to_vec()).collect();
    for minus in [false, true] {
        for (size, places) in halfway() {
            for near in [size - 1, size, size + 1] {
                words.push(written(minus, (near, places), 0));
            }
            words.push(written(minus, (size, places), 9));
        }
        words.extend(shapes(minus));
    }
    words.sort();
    words.dedup();
    words
}

/// A random number of at most `most` digits, often with zeros or nines in it.
fn any_number(rng: &mut Rng, most: usize) -> Vec<u8> {
    let length = 1 + rng.below(most);
    let digits = rng.pick(&[&b"0123456789"[..], b"0123456789", b"09", b"05", b"00000001"]);
    let mut word: Vec<u8> = (0..length).map(|_| rng.pick(digits)).collect();
    let places = rng.below(length);
    if places > 0 {
        word.insert(length - places, b'.');
    }
    if rng.once_in(2) {
        word.insert(0, b'-');
    }
    word
}

/// A random number exactly halfway between two f32.
fn any_halfway(rng: &mut Rng) -> Vec<u8> {
    let (unit, places) = rng.pick(&halfway_kinds());
    let odds = (last_odd(unit) - HALFWAY_MIN) / 2 + 1;
    let odd = HALFWAY_MIN + 2 * rng.below(odds as usize) as u64;
    let width = rng.below(10);
    written(rng.once_in(2), (odd * unit, places), width)
}

/// A number that lies next to an f32, or next to the middle of two.
fn near_a_step(rng: &mut Rng) -> Vec<u8> {
    let places = rng.below(MOST_PLACES + 1);
    let largest = LIMIT as f64 / 10f64.powi(places as i32);
    let x = (largest * rng.between(-27.0, 0.0).exp2()) as f32;
    let point = (f64::from(x) + f64::from(step(x, rng.whole(0, 1)))) / 2.0;
    let size = (point * 10f64.powi(places as i32)).round() as i64 + i64::from(rng.whole(-1, 1));
    let size = size.clamp(0, LIMIT as i64 - 1) as u64;
    written(rng.once_in(2), (size, places), 0)
}

/// A byte that can stand in a word of a case line.
fn word_byte(rng: &mut Rng) -> u8 {
    loop {
        let byte = rng.pick(&SPOILING);
        if !matches!(byte, b' ' | b'\n') {
            return byte;
        }
    }
}

/// A random word: of a known shape, near an f32, or spoilt by one byte.
pub fn any_word(rng: &mut Rng, planned: &[Vec<u8>]) -> Vec<u8> {
    match rng.below(16) {
        0..=4 => any_number(rng, 9),
        5..=7 => any_halfway(rng),
        8..=10 => near_a_step(rng),
        // one place after the point, as the agency writes it
        11 => {
            let size = rng.below(700_000) as u64;
            written(rng.once_in(2), (size, 1), 0)
        }
        // a whole number, with zeros after the point
        12 => {
            let places = rng.below(MOST_PLACES + 1);
            let digits = 10usize.pow((MOST_PLACES - places + 1) as u32);
            let size = rng.below(digits) as u64 * 10u64.pow(places as u32);
            written(rng.once_in(2), (size, places), 0)
        }
        13 => any_number(rng, 12),
        14 => (0..1 + rng.below(11)).map(|_| word_byte(rng)).collect(),
        _ => {
            let mut word = planned[rng.below(planned.len())].clone();
            let at = rng.below(word.len());
            match rng.below(3) {
                0 if word.len() > 1 => drop(word.remove(at)),
                1 => word.insert(at, word_byte(rng)),
                _ => word[at] = word_byte(rng),
            }
            word
        }
    }
}

//! The time of a call, ours and another side's in turn.
use std::cell::RefCell;
use std::hint::black_box;
use std::time::Instant;

/// A line of the cache has 64 bytes, and a stack frame begins at a multiple of 16.
const POSITIONS: usize = 4;

/// Nanoseconds a call, over all cases once.
fn time<T, A>(cases: &[T], call: impl Fn(&T) -> Result<A, u32>) -> f64 {
    let began = Instant::now();
    for case in cases {
        let _ = black_box(call(black_box(case)));
    }
    began.elapsed().as_nanos() as f64 / cases.len() as f64
}

/// The time of a call with N bytes more of the stack in use.
#[inline(never)]
fn with_room<const N: usize>(call: &dyn Fn() -> f64) -> f64 {
    let room = black_box([0u8; N]);
    let time = call();
    black_box(&room);
    time
}

/// The same, at one of the positions that a frame can have in a line of the cache. Which it is moves a call
/// by some percent, and a program's own luck decides it: so all are timed.
fn at(position: usize, call: &dyn Fn() -> f64) -> f64 {
    match position {
        0 => with_room::<16>(call),
        1 => with_room::<32>(call),
        2 => with_room::<48>(call),
        _ => with_room::<64>(call),
    }
}

fn median(times: &mut [f64]) -> f64 {
    times.sort_by(f64::total_cmp);
    times[times.len() / 2]
}

/// The mean of the medians at each position.
fn overall(mut times: [Vec<f64>; POSITIONS]) -> f64 {
    let medians = times.iter_mut().filter(|t| !t.is_empty());
    let medians: Vec<f64> = medians.map(|t| median(t)).collect();
    medians.iter().sum::<f64>() / medians.len() as f64
}

/// Compares the bits, then times both sides. Gives whether the bits agree.
pub fn row<T, A: PartialEq>(
    name: &str,
    rounds: usize,
    cases: &[T],
    ours: impl Fn(&T) -> Result<A, u32>,
    rust: impl Fn(&T) -> Result<A, u32>,
) -> bool {
    row_beside(name, rounds, cases, &ours, &rust, &rust)
}

/// The same where the side that is timed has other bits: ours are compared with `same`, and timed
/// beside `other`.
pub fn row_beside<T, A: PartialEq>(
    name: &str,
    rounds: usize,
    cases: &[T],
    ours: impl Fn(&T) -> Result<A, u32>,
    same: impl Fn(&T) -> Result<A, u32>,
    other: impl Fn(&T) -> Result<A, u32>,
) -> bool {
    let differing = cases
        .iter()
        .filter(|case| ours(case).is_err() || ours(case) != same(case))
        .count();
    let times = both(rounds, &|| time(cases, &ours), &|| time(cases, &other));
    print_row(name, times, differing, cases.len())
}

/// The same where a call writes much: to compare, each call has places of its own; in time, one after
/// the other has the same ones.
pub fn row_lent<T, P: PartialEq>(
    name: &str,
    rounds: usize,
    cases: &[T],
    unwritten: impl Fn() -> P,
    ours: impl Fn(&T, &mut P) -> u32,
    rust: impl Fn(&T, &mut P) -> u32,
) -> bool {
    let differs = |case: &&T| {
        let [mut of_ours, mut of_rust] = [unwritten(), unwritten()];
        let numbers = [ours(case, &mut of_ours), rust(case, &mut of_rust)];
        numbers != [0, 0] || of_ours != of_rust
    };
    let differing = cases.iter().filter(differs).count();
    let lent = RefCell::new(unwritten());
    let call = |case: &T, side: &dyn Fn(&T, &mut P) -> u32| {
        let places = &mut *lent.borrow_mut();
        let number = side(case, places);
        black_box(places);
        Ok(number)
    };
    let times = both(rounds, &|| time(cases, |case| call(case, &ours)), &|| {
        time(cases, |case| call(case, &rust))
    });
    print_row(name, times, differing, cases.len())
}

/// Prints a row. Gives whether no case differs.
fn print_row(name: &str, [ours, other]: [f64; 2], differing: usize, cases: usize) -> bool {
    let ratio = ours / other;
    println!("{name:<20} {ours:>9.1} {other:>9.1} {ratio:>7.3}   {differing} of {cases} differ");
    differing == 0
}

/// Times both sides in turn, the first of the two changing from round to round, and the position of
/// the stack every second round.
fn both(rounds: usize, ours: &dyn Fn() -> f64, other: &dyn Fn() -> f64) -> [f64; 2] {
    let sides = [ours, other];
    let mut times = [(); 2].map(|()| [(); POSITIONS].map(|()| Vec::new()));
    for round in 0..rounds {
        let position = round / 2 % POSITIONS;
        for side in [round % 2, 1 - round % 2] {
            times[side][position].push(at(position, sides[side]));
        }
    }
    times.map(overall)
}

/// The line over the rows.
pub fn print_head() {
    println!(
        "{:<20} {:>9} {:>9} {:>7}   bits",
        "", "ours ns", "Rust ns", "ratio"
    );
}

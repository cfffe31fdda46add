//! The definitive sets of 2000, 2005 and 2010: fields of the years between them, beside double precision
//! with coefficients as they are written.
use super::double::There;
use crate::entries::{Place, Set};
use crate::igrf::{igrf, igrf_rates};
use crate::models::days_in_year;
use crate::tables::{coeff_index, N_COEFF_MAX, N_MAX};

/// g and h of a year as they are written.
struct Definitive {
    year: i32,
    lists: [Vec<f64>; 2],
}

impl Definitive {
    fn read(line: &str) -> Definitive {
        let mut words = line.split(' ');
        let year = words.next().unwrap().parse().unwrap();
        let mut number = || -> f64 { words.next().unwrap().parse().unwrap() };
        let mut lists = [vec![0.0; N_COEFF_MAX], vec![0.0; N_COEFF_MAX]];
        for n in 1..=N_MAX {
            for m in 0..=n {
                lists[0][coeff_index(n, m)] = number();
                if m > 0 {
                    lists[1][coeff_index(n, m)] = number();
                }
            }
        }
        assert_eq!(words.next(), None);
        Definitive { year, lists }
    }

    /// The set as it is lent: the nearest f32. Its rates are not looked at.
    fn set(&self) -> Set {
        let [g, h] = &self.lists;
        let nearest = |list: &Vec<f64>| list.iter().map(|x| *x as f32).collect();
        Set {
            epoch_year: self.year,
            lists: [nearest(g), nearest(h), vec![], vec![]],
        }
    }
}

/// The sets, in the order of their years.
fn definitive() -> Vec<Definitive> {
    let lines = include_str!("../../dgrf.txt").lines();
    let lines = lines.filter(|line| !line.starts_with('#'));
    lines.map(Definitive::read).collect()
}

/// Latitude and longitude in degrees, height in metres, year and day.
type Row = (f64, f64, f64, i32, i32);

const ROWS: [Row; 20] = [
    (51.5, -0.1, 0.0, 2000, 1),
    (40.7, -74.0, 10.0, 2000, 183),
    (-33.9, 151.2, 50.0, 2001, 1),
    (35.7, 139.7, 0.0, 2001, 256),
    (-22.9, -43.2, 100.0, 2002, 77),
    (64.1, -21.9, 0.0, 2002, 365),
    (-54.8, -68.3, 30.0, 2003, 150),
    (30.0, 31.2, 75.0, 2003, 301),
    (71.3, -156.8, 0.0, 2004, 60),
    (-77.85, 166.7, 20.0, 2004, 366),
    (19.4, -99.1, 2240.0, 2005, 1),
    (55.75, 37.6, 150.0, 2005, 200),
    (28.6, 77.2, 216.0, 2006, 32),
    (-1.3, 36.8, 1795.0, 2006, 333),
    (89.0, 120.0, 0.0, 2007, 91),
    (-89.5, -45.0, 2835.0, 2007, 274),
    (0.0, 0.0, 400_000.0, 2008, 60),
    (-25.0, -50.0, 850_000.0, 2008, 366),
    (78.2, 15.6, 400_000.0, 2009, 15),
    (-45.0, 179.9, -1000.0, 2009, 365),
];

/// X, Y and Z of a row: ours, and in double precision throughout, sines and coefficients too.
fn compared(sets: &[Definitive], row: &Row) -> ([f32; 3], [f64; 3]) {
    let (latitude_deg, longitude_deg, height, year, day) = *row;
    let pair = |degrees: f64| {
        let (sin, cos) = degrees.to_radians().sin_cos();
        (sin as f32, cos as f32)
    };
    let (sin_phi, cos_phi) = pair(latitude_deg);
    let (sin_lambda, cos_lambda) = pair(longitude_deg);
    let place = Place {
        height: height as f32,
        sin_phi,
        cos_phi,
        sin_lambda,
        cos_lambda,
        year,
        day,
    };
    let at = sets.iter().rposition(|set| set.year <= year).unwrap();
    let [first, second] = [&sets[at], &sets[at + 1]];
    let found = igrf(&place, &first.set(), &second.set()).unwrap();
    let offset = f64::from(year - first.year) + f64::from(day - 1) / f64::from(days_in_year(year));
    let lists = [0, 1].map(|list| -> Vec<f64> {
        let both = first.lists[list].iter().zip(&second.lists[list]);
        both.map(|(first, second)| first + offset * ((second - first) / 5.0))
            .collect()
    });
    let there = There {
        height,
        latitude_deg,
        longitude_deg,
    };
    (found, there.sums(&lists[0], &lists[1]))
}

/// Prints the rows of a table: `cargo test --release dgrf -- --nocapture`. `tools/igrf-places/run` makes
/// docs/IGRF-PLACES.md of them.
#[test]
fn twenty_places() {
    let sets = definitive();
    let mut largest: f64 = 0.0;
    for row in &ROWS {
        let (found, expected) = compared(&sets, row);
        let (latitude, longitude, height, year, day) = row;
        let mut line = format!("| {latitude} | {longitude} | {height} | {year} | {day} |");
        for (found, expected) in found.into_iter().zip(expected) {
            let difference = f64::from(found) - expected;
            line += &format!(" {found:.3} | {expected:.3} | {difference:+.4} |");
            assert!(difference.abs() < 0.1, "{line}");
            largest = largest.max(difference.abs());
        }
        println!("{line}");
    }
    println!("largest difference {largest:.4} nT");
}

/// The file is read in its order: so the field has 20,000 to 70,000 nT at each place on the ground.
#[test]
fn strengths_of_the_earth() {
    let sets = definitive();
    assert_eq!(sets.len(), 3);
    assert_eq!([0, 1, 2].map(|at| sets[at].year), [2000, 2005, 2010]);
    for row in ROWS.iter().filter(|row| row.2 < 5000.0) {
        let (_, [x, y, z]) = compared(&sets, row);
        let f = x.hypot(y).hypot(z);
        assert!((20_000.0..70_000.0).contains(&f), "{row:?}: {f}");
    }
}

/// From the last day of 2004 to the first of 2005: a day's step, with other sets.
#[test]
fn from_one_set_to_the_next() {
    let sets = definitive();
    let [first, second, third] = [0, 1, 2].map(|at| sets[at].set());
    for (_, mut place) in super::thirteen::places(2004, 366) {
        let last = igrf(&place, &first, &second).unwrap();
        let rates = igrf_rates(&place, &first, &second).unwrap();
        (place.year, place.day) = (2005, 1);
        let next = igrf(&place, &second, &third).unwrap();
        for i in 0..3 {
            let step = next[i] - last[i];
            assert!((step - rates[i] / 366.0).abs() < 0.06, "{place:?} {step}");
            assert!(step.abs() < 0.6, "{place:?} {step}");
        }
    }
}

//! Cases with angles in degrees: TRIG, DECL, DIR and FDEG. As for lists of error records, their
//! planned cases and their walks are apart from those of the other kinds.
use super::rng::{plan, plans, random_plan, Rng, Walk};
use super::values::{any_scale, around, step};
use super::{Generator, Kind};
use crate::angles::DegreePlace;
use crate::degrees::InDegrees;
use crate::entries::MAX_COMPONENT;

/// The exponents of two from the smallest f32 to the largest component.
const LOWEST: i32 = -149;
const POWERS: usize = 60 + 149 + 1;
/// Steps beside a number that are tried: -2 to 2.
const STEPS: usize = 5;

/// 2^exponent, also where it is subnormal.
fn power(exponent: i32) -> f32 {
    f64::from(exponent).exp2() as f32
}

/// The power of two at a place, and a number of steps.
fn power_at(place: usize) -> (f32, i32) {
    let exponent = LOWEST + (place / STEPS % POWERS) as i32;
    (power(exponent), (place % STEPS) as i32 - 2)
}

/// Special angles: every multiple of 45 degrees and where its steps change, with neighbours.
fn turns() -> Vec<f32> {
    around(&[
        180.0, -180.0, 135.0, -135.0, 90.0, -90.0, 45.0, -45.0, 32.0, -64.0, 128.0, 360.0, -270.0,
    ])
}

/// The special angles of TRIG: also all whole degrees, and powers of two with their neighbours.
fn all_angles() -> Vec<f32> {
    let mut angles = turns();
    angles.extend((-180..=180).map(|degrees| degrees as f32));
    for place in 0..STEPS * POWERS {
        let (size, steps) = power_at(place);
        if size < 256.0 {
            angles.extend([step(size, steps), -step(size, steps)]);
        }
    }
    angles
}

/// Special components: the largest one with its neighbours, and the sides of small triangles.
fn sides() -> Vec<f32> {
    let mut sides = around(&[MAX_COMPONENT, -MAX_COMPONENT]);
    sides.extend([5.0, -5.0, 12.0, -12.0, 3.0, -4.0, 0.41666666, 1e-22, -1e-19]);
    sides
}

/// The walks over the planned cases of each kind, and what they walk over.
pub struct Walks {
    angles: Vec<f32>,
    turns: Vec<f32>,
    sides: Vec<f32>,
    trig: Walk,
    decl: Walk,
    dir: Walk,
    fdeg: Walk,
    /// The number of special values of X, Y and Z.
    side_ways: [usize; 3],
    /// Of height, latitude, longitude, year and day.
    place_ways: [usize; 5],
}

/// Planned pairs of numbers beside the plans: equal sizes and 5 to 12 at every power of two, each
/// with neighbours, and every two powers of two.
const EQUAL: usize = STEPS * POWERS;
const TWELFTHS: usize = 2 * STEPS * POWERS;
const PAIRS: usize = EQUAL + TWELFTHS + POWERS * POWERS;

impl Walks {
    pub fn new(seed: u64, heights: usize, years: usize, days: usize) -> Walks {
        // numbers of their own: those of the other walks stay as they are
        let mut rng = Rng::new(seed.rotate_left(32));
        let (angles, turns, sides) = (all_angles(), turns(), sides());
        let side_ways = [sides.len(); 3];
        let place_ways = [heights, turns.len(), turns.len(), years, days];
        let two_ways = [sides.len(); 2];
        Walks {
            trig: Walk::new(angles.len(), &mut rng),
            decl: Walk::new(plans(&two_ways) + PAIRS, &mut rng),
            dir: Walk::new(plans(&side_ways) + PAIRS, &mut rng),
            fdeg: Walk::new(plans(&place_ways), &mut rng),
            angles,
            turns,
            sides,
            side_ways,
            place_ways,
        }
    }
}

/// The planned pair of sizes at a place, of either order and signs.
fn sizes(rng: &mut Rng, place: usize) -> [f32; 2] {
    let pair = if place < EQUAL {
        let (size, steps) = power_at(place);
        let size = size * rng.between(1.0, 2.0) as f32;
        [size, step(size, steps)]
    } else if place < EQUAL + TWELFTHS {
        let place = place - EQUAL;
        let (size, steps) = power_at(place / 2);
        // a whole number of twelfths, where there are digits for it
        let size = size * rng.pick(&[1.0, 3.0, 7.0, 1023.0]);
        let pair = [step(12.0 * size, steps), 5.0 * size];
        [pair[place % 2], pair[1 - place % 2]]
    } else {
        let place = (place - EQUAL - TWELFTHS) as i32;
        let [first, second] = [place / POWERS as i32, place % POWERS as i32];
        [power(LOWEST + first), power(LOWEST + second)]
    };
    pair.map(|size| rng.sign() * size)
}

/// A random angle: even, of any size, or near a multiple of 45 degrees.
fn angle(rng: &mut Rng) -> f32 {
    match rng.below(8) {
        0 => any_scale(rng, -150.0, 8.0),
        1 => f32::from_bits(rng.bits()),
        2 => rng.sign() * f32::from_bits(rng.bits() >> 9), // zero and the subnormals
        3 => step(45.0 * rng.whole(-4, 4) as f32, rng.whole(-500, 500)),
        4 => (f64::from(45 * rng.whole(-4, 4)) + f64::from(any_scale(rng, -20.0, 2.0))) as f32,
        _ => rng.between(-180.0, 180.0) as f32,
    }
}

/// Two random numbers: common strengths, of any size, nearly of one size, nearly 5 to 12.
fn numbers(rng: &mut Rng) -> [f32; 2] {
    match rng.below(8) {
        0 => [0; 2].map(|_| any_scale(rng, -150.0, 60.0)),
        1 => [0; 2].map(|_| f32::from_bits(rng.bits())),
        2 => [0; 2].map(|_| rng.sign() * f32::from_bits(rng.bits() >> 9)),
        3 | 4 => {
            let place = rng.below(PAIRS);
            sizes(rng, place)
        }
        5 => {
            let first = any_scale(rng, -100.0, 59.0);
            let ratio = any_scale(rng, -34.0, 0.0);
            [first, first * ratio]
        }
        _ => [0; 2].map(|_| rng.between(-70000.0, 70000.0) as f32),
    }
}

impl Generator {
    /// A case of a kind in degrees. Before it stands a SET line where another set's turn has come.
    pub fn in_degrees(&mut self, kind: Kind, out: &mut Vec<u8>) -> InDegrees {
        let walks = &mut self.degree_walks;
        let walk = match kind {
            Kind::Trig => &mut walks.trig,
            Kind::Decl => &mut walks.decl,
            Kind::Dir => &mut walks.dir,
            _ => &mut walks.fdeg,
        };
        let place = walk.turn(&mut self.rng);
        match kind {
            Kind::Trig => self.trig(place),
            Kind::Decl => self.decl(place),
            Kind::Dir => self.dir(place),
            _ => InDegrees::Fdeg(self.degree_place(place, out)),
        }
    }

    fn trig(&mut self, place: Option<usize>) -> InDegrees {
        let degrees = match place {
            Some(place) => self.degree_walks.angles[place],
            None => angle(&mut self.rng),
        };
        InDegrees::Trig { degrees }
    }

    fn decl(&mut self, place: Option<usize>) -> InDegrees {
        let sides = &self.degree_walks.sides;
        let ways = [sides.len(); 2];
        let ways = match place {
            Some(place) if place >= plans(&ways) => {
                let [x, y] = sizes(&mut self.rng, place - plans(&ways));
                return InDegrees::Decl { x, y };
            }
            Some(place) => plan(&ways, place),
            None => random_plan(&ways, 16, &mut self.rng),
        };
        let [x, y] = numbers(&mut self.rng);
        let x = ways[0].map_or(x, |way| sides[way]);
        let y = ways[1].map_or(y, |way| sides[way]);
        InDegrees::Decl { x, y }
    }

    fn dir(&mut self, place: Option<usize>) -> InDegrees {
        let walks = &self.degree_walks;
        let ways = match place {
            Some(place) if place >= plans(&walks.side_ways) => {
                let place = place - plans(&walks.side_ways);
                let xyz = inclined(&mut self.rng, place);
                return InDegrees::Dir { xyz };
            }
            Some(place) => plan(&walks.side_ways, place),
            None => random_plan(&walks.side_ways, 16, &mut self.rng),
        };
        let [x, y] = numbers(&mut self.rng);
        let [z, _] = numbers(&mut self.rng);
        let mut xyz = [x, y, z];
        for (part, way) in xyz.iter_mut().zip(ways) {
            *part = way.map_or(*part, |way| walks.sides[way]);
        }
        InDegrees::Dir { xyz }
    }

    /// A place and a day of FDEG. The set, and what is not planned, are those of a FIELD case.
    fn degree_place(&mut self, place: Option<usize>, out: &mut Vec<u8>) -> DegreePlace {
        let usual = self.place(None, out);
        let walks = &self.degree_walks;
        let rng = &mut self.rng;
        let ways = match place {
            Some(place) => plan(&walks.place_ways, place),
            None => random_plan(&walks.place_ways, 16, rng),
        };
        let latitude_deg = match ways[1] {
            Some(way) => walks.turns[way],
            None if rng.once_in(8) => angle(rng),
            None if rng.once_in(4) => rng.sign() * (90.0 - rng.between(-0.02, 0.1)) as f32,
            None => rng.between(-90.0, 90.0) as f32,
        };
        let longitude_deg = match ways[2] {
            Some(way) => walks.turns[way],
            None if rng.once_in(8) => angle(rng),
            None => rng.between(-180.0, 180.0) as f32,
        };
        let pools = &self.pools;
        DegreePlace {
            height: ways[0].map_or(usual.height, |way| pools.height[way]),
            latitude_deg,
            longitude_deg,
            year: ways[3].map_or(usual.year, |way| pools.year[way]),
            day: ways[4].map_or(usual.day, |way| pools.day[way]),
        }
    }
}

/// X, Y and Z whose H and Z are the planned pair of sizes at a place, where H can be had.
fn inclined(rng: &mut Rng, place: usize) -> [f32; 3] {
    let [h, z] = sizes(rng, place);
    match rng.below(3) {
        0 => [h, 0.0, z],
        1 => [-0.0, h, z],
        _ => [0.6 * h, 0.8 * h, z],
    }
}

//! Cases of single numbers: STR, GV and SQRT.
use super::rng::{plan, plans, random_plan};
use super::values::{any_scale, step, turning_strengths};
use super::{pairs, Generator};
use crate::format::Case;

/// Planned cases beside the plans: turning strengths with -8 to 8 steps, wraps with -3 to 3.
pub const STRENGTHS: usize = 4 * 17;
pub const WRAPS: usize = 4 * 7;

impl Generator {
    pub fn str_case(&mut self, place: Option<usize>) -> Case<'static> {
        let planned = plans(&self.str_ways);
        let ways = match place {
            Some(place) if place < planned => plan(&self.str_ways, place),
            Some(place) => return self.turning_case(place - planned),
            None if self.rng.once_in(4) => {
                let place = self.rng.below(STRENGTHS);
                return self.turning_case(place);
            }
            None => random_plan(&self.str_ways, 6, &mut self.rng),
        };
        let style = self.rng.below(4);
        let rng = &mut self.rng;
        let [x, y, z] = ways.map(|way| match way {
            Some(way) => self.pools.component[way],
            None => match style {
                0 => any_scale(rng, -150.0, 60.0),
                1 => any_scale(rng, -5.0, 15.0),
                2 => rng.between(-70000.0, 70000.0) as f32,
                _ => f32::from_bits(rng.bits()),
            },
        });
        Case::Str { x, y, z }
    }

    /// Components whose H is exactly a turning strength, or a few steps beside it.
    fn turning_case(&mut self, place: usize) -> Case<'static> {
        let rng = &mut self.rng;
        let h = step(turning_strengths()[place % 4], place as i32 / 4 - 8);
        let z = rng.between(-70000.0, 70000.0) as f32;
        loop {
            let x = (f64::from(h) * pairs::random_pair(rng).0 as f64) as f32;
            let y = (f64::from(h) * f64::from(h) - f64::from(x) * f64::from(x)).max(0.0);
            for k in -4..=4 {
                let y = step(y.sqrt() as f32, k);
                if (x * x + y * y).sqrt() == h {
                    let y = rng.sign() * y;
                    return Case::Str { x, y, z };
                }
            }
        }
    }

    pub fn gv_case(&mut self, place: Option<usize>) -> Case<'static> {
        let planned = plans(&self.gv_ways);
        let ways = match place {
            Some(place) if place < planned => plan(&self.gv_ways, place),
            Some(place) => return self.wrap_case(place - planned),
            None if self.rng.once_in(4) => {
                let place = self.rng.below(WRAPS);
                return self.wrap_case(place);
            }
            None => random_plan(&self.gv_ways, 6, &mut self.rng),
        };
        let rng = &mut self.rng;
        let latitude_deg = match ways[0] {
            Some(way) => self.pools.latitude_deg[way],
            None => rng.between(-90.0, 90.0) as f32,
        };
        let longitude_deg = match ways[1] {
            Some(way) => self.pools.longitude_deg[way],
            None if rng.once_in(16) => any_scale(rng, -150.0, 7.0),
            None => rng.between(-180.0, 180.0) as f32,
        };
        let declination_deg = match ways[2] {
            Some(way) => self.pools.declination_deg[way],
            None if rng.once_in(16) => any_scale(rng, -150.0, 7.0),
            None => rng.between(-180.0, 180.0) as f32,
        };
        Case::Gv {
            latitude_deg,
            longitude_deg,
            declination_deg,
        }
    }

    /// Grid variation at 180 or -180, or a few steps beside it, before the wrap.
    fn wrap_case(&mut self, place: usize) -> Case<'static> {
        let rng = &mut self.rng;
        let north = place & 1 == 0;
        let end: f32 = if place & 2 == 0 { 180.0 } else { -180.0 };
        let steps = place as i32 / 4 - 3;
        // where declination minus longitude is the end, in the north
        let longitude = -end.signum() * rng.between(0.0, 180.0) as f32;
        let declination = step(end + longitude, steps);
        Case::Gv {
            latitude_deg: rng.between(55.0, 90.0) as f32 * if north { 1.0 } else { -1.0 },
            longitude_deg: if north { longitude } else { -longitude },
            declination_deg: declination,
        }
    }

    pub fn sqrt_case(&mut self, place: Option<usize>) -> Case<'static> {
        let rng = &mut self.rng;
        let x = match place {
            Some(place) => self.pools.root[place],
            None => match rng.below(8) {
                0..=2 => f32::from_bits(rng.bits() >> 1),
                3 => f32::from_bits(rng.bits()),
                4 => f32::from_bits(rng.bits() >> 9), // zero and the subnormals
                // an exact square, or a step beside it
                5 => {
                    let root = rng.below(4096) as f32;
                    let scale = (rng.whole(-74, 51) as f32).exp2();
                    step(root * root * scale * scale, rng.whole(-1, 1))
                }
                // next to the square of a number halfway between two f32
                6 => {
                    let half = (8388608 + rng.below(8388608)) as f64 + 0.5;
                    let scale = f64::from(2 * rng.whole(-97, 39)).exp2();
                    step((half * half * scale) as f32, rng.whole(-1, 1))
                }
                // next to a power of two
                _ => step((rng.whole(-149, 127) as f32).exp2(), rng.whole(-3, 3)),
            },
        };
        Case::Sqrt { x }
    }
}

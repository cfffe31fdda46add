//! Cases of grid variation whose sum, before the wrap, is 180, 360 or 0 of either sign, or next to it.
use super::values::step;
use super::Generator;
use crate::format::Case;

const SUMS: [f32; 6] = [180.0, -180.0, 360.0, -360.0, 0.0, -0.0];
/// What share of a sum of 180 or -180 the longitude has, where it is not a random one.
const SHARES: [f32; 6] = [0.0, 1.0, 0.5, 0.25, 1e-6, 1e-30];

impl Generator {
    /// Two angles that add up to one of `SUMS`, each moved by a step at most. The second is the
    /// longitude, with a minus in the north.
    pub fn south_case(&mut self) -> Case<'static> {
        let rng = &mut self.rng;
        let sum = rng.pick(&SUMS);
        let second = match sum.abs() as u32 {
            0 if sum.is_sign_negative() || rng.once_in(4) => sum,
            0 => rng.between(-180.0, 180.0) as f32,
            180 if rng.once_in(2) => sum * rng.pick(&SHARES),
            180 => sum * rng.between(0.0, 1.0) as f32,
            _ => sum / 2.0,
        };
        // -0 takes nothing away from -0
        let first = if second == 0.0 { sum } else { sum - second };
        let [first, second] = [first, second].map(|angle| match rng.whole(-2, 2) {
            -2 => step(angle, -1),
            2 => step(angle, 1),
            _ => angle,
        });
        let north = rng.once_in(2);
        let latitude = match rng.below(4) {
            0 => 55.0,
            1 => 90.0,
            _ => rng.between(55.0, 90.0) as f32,
        };
        Case::Gv {
            latitude_deg: if north { latitude } else { -latitude },
            longitude_deg: if north { -second } else { second },
            declination_deg: first,
        }
    }
}

//! The field in double precision, by other steps than the crate's: Schmidt's functions by recursions of
//! their own, and rates as differences in time.
use crate::entries::Set;
use crate::tables::{coeff_index, M_LEN_MAX, N_MAX};

type Table = [[f64; M_LEN_MAX]; M_LEN_MAX];

/// Schmidt's functions of the colatitude, by degree and order, and their derivatives.
fn schmidt(theta: f64) -> (Table, Table) {
    let (sin, cos) = theta.sin_cos();
    let mut p = [[0.0; M_LEN_MAX]; M_LEN_MAX];
    let mut dp = [[0.0; M_LEN_MAX]; M_LEN_MAX];
    p[0][0] = 1.0;
    for n in 1..=N_MAX {
        for m in 0..=n {
            let (degree, order) = (n as f64, m as f64);
            let root = (degree * degree - order * order).sqrt();
            p[n][m] = match (n, m) {
                (1, 1) => sin,
                _ if n == m => {
                    ((2.0 * degree - 1.0) / (2.0 * degree)).sqrt() * sin * p[n - 1][m - 1]
                }
                _ => {
                    let below = (degree - 1.0) * (degree - 1.0) - order * order;
                    let second = if n > 1 { p[n - 2][m] } else { 0.0 };
                    ((2.0 * degree - 1.0) * cos * p[n - 1][m] - below.max(0.0).sqrt() * second)
                        / root
                }
            };
            dp[n][m] = (degree * cos * p[n][m] - root * p[n - 1][m]) / sin;
        }
    }
    (p, dp)
}

/// A place that is no pole: height in metres, latitude and longitude in degrees.
#[derive(Copy, Clone, Debug)]
pub struct There {
    pub height: f64,
    pub latitude_deg: f64,
    pub longitude_deg: f64,
}

impl There {
    /// Radius, colatitude, and the geocentric latitude less the geodetic one.
    fn geocentric(&self) -> (f64, f64, f64) {
        let phi = self.latitude_deg.to_radians();
        let f: f64 = 1.0 / 298.257223563;
        let e2 = f * (2.0 - f);
        let curvature = 6378137.0 / (1.0 - e2 * phi.sin() * phi.sin()).sqrt();
        let out = (curvature + self.height) * phi.cos();
        let up = (curvature * (1.0 - e2) + self.height) * phi.sin();
        let theta = out.atan2(up);
        (
            out.hypot(up),
            theta,
            std::f64::consts::FRAC_PI_2 - theta - phi,
        )
    }

    /// X, Y and Z so many years after the epoch of the set.
    pub fn xyz(&self, set: &Set, offset: f64) -> [f64; 3] {
        let at = |list: usize| -> Vec<f64> {
            let mains = set.lists[list].iter().zip(&set.lists[list + 2]);
            let at = |(main, rate): (&f32, &f32)| f64::from(*main) + offset * f64::from(*rate);
            mains.map(at).collect()
        };
        self.sums(&at(0), &at(1))
    }

    /// X, Y and Z of these coefficients.
    pub fn sums(&self, g: &[f64], h: &[f64]) -> [f64; 3] {
        let (r, theta, turn) = self.geocentric();
        let (p, dp) = schmidt(theta);
        let [mut north, mut east, mut down] = [0.0; 3];
        // a list ends with its highest degree
        let degrees = (1..=N_MAX).take_while(|n| coeff_index(*n, *n) < g.len());
        for n in degrees {
            let scale = (6371200.0 / r).powi(n as i32 + 2);
            for m in 0..=n {
                let (g, h) = (g[coeff_index(n, m)], h[coeff_index(n, m)]);
                let (sin, cos) = (m as f64 * self.longitude_deg.to_radians()).sin_cos();
                north += scale * (g * cos + h * sin) * dp[n][m];
                east += scale * m as f64 * (g * sin - h * cos) * p[n][m] / theta.sin();
                down -= scale * (n as f64 + 1.0) * (g * cos + h * sin) * p[n][m];
            }
        }
        let (sin, cos) = turn.sin_cos();
        [north * cos - down * sin, east, north * sin + down * cos]
    }

    /// The yearly rates of X, Y, Z, declination, inclination, H and F.
    pub fn rates(&self, set: &Set, offset: f64) -> [f64; 7] {
        rates_by(offset, |offset| self.xyz(set, offset))
    }
}

/// The yearly rates of what has these X, Y and Z: half of the difference of what is a small time later and
/// what is as much earlier, by that time.
pub fn rates_by(offset: f64, xyz: impl Fn(f64) -> [f64; 3]) -> [f64; 7] {
    let small = 1e-3;
    let [later, earlier] = [small, -small].map(|time| seven(xyz(offset + time)));
    std::array::from_fn(|i| (later[i] - earlier[i]) / (2.0 * small))
}

/// X, Y, Z, declination and inclination in degrees, H and F.
fn seven([x, y, z]: [f64; 3]) -> [f64; 7] {
    let h = x.hypot(y);
    let declination = y.atan2(x).to_degrees();
    let inclination = z.atan2(h).to_degrees();
    [x, y, z, declination, inclination, h, h.hypot(z)]
}

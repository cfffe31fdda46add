//! The geocentric step, the rotation and the strengths, as in the crate's `src/lib.rs`.
//! Sines and cosines are lent, and the unit conversions are taken out: strengths stay in nT and
//! angles in degrees. `f32::sqrt` is correctly rounded, as `sqrtf` is. The source's `powi(2)` is
//! one product.
use crate::coefficients::Lists;
use crate::models::WmmErrorModel;
use crate::synthesis::{sin_cos_m_lambda, synthesize_near_pole, synthesize_xyz_prime};
use crate::tables::{M_LEN, M_LEN_MAX, N_COEFF, N_COEFF_MAX};

/// The field at a place and day.
#[derive(Copy, Clone, Debug, PartialEq)]
pub struct GeomagneticField {
    /// North [nT].
    pub x: f32,
    /// East [nT].
    pub y: f32,
    /// Down [nT].
    pub z: f32,
    pub error_model: WmmErrorModel,
}

#[derive(Debug, Copy, Clone, PartialEq)]
pub enum WarningZone {
    /// H below 2000 nT.
    BlackoutZone,
    /// H from 2000 nT on, and below 6000 nT.
    CautionZone,
}

pub const MIN_HEIGHT_KM: f32 = -1.0;
pub const MAX_HEIGHT_KM: f32 = 850.0;
/// The same two limits in metres. The entry takes metres.
pub const MIN_HEIGHT_M: f32 = -1000.0;
pub const MAX_HEIGHT_M: f32 = 850000.0;
pub const MIN_LATITUDE_DEG: f32 = -90.0;
pub const MAX_LATITUDE_DEG: f32 = 90.0;
pub const MIN_LONGITUDE_DEG: f32 = -180.0;
pub const MAX_LONGITUDE_DEG: f32 = 180.0;
const MAX_DECLINATION_UNCERTAINTY_DEG: f32 = 180.0;
const BLACKOUT_ZONE_H_NT: f32 = 2000.0;
const CAUTION_ZONE_H_NT: f32 = 6000.0;
const GRID_VARIATION_MIN_ABS_LATITUDE_DEG: f32 = 55.0;

// WGS 84 ellipsoid.
pub const WGS84_A: f32 = 6378137.0; // Semi-major axis [m]
pub const WGS84_F: f32 = (1.0_f64 / 298.257223563) as f32;
pub const WGS84_E2: f32 = WGS84_F * (2.0 - WGS84_F); // First eccentricity squared

/// Reference radius of the model [m].
pub const WMM_A: f32 = 6371200.0;

/// Strictly below this |sin theta| the near-pole sum is taken.
pub const NEAR_POLE_SIN_THETA_MIN: f32 = 1e-3;

/// Height [m] and lent latitude pair to radius, cos theta and sin theta (geocentric).
pub fn geodetic_to_geocentric(height: f32, sin_phi: f32, cos_phi: f32) -> (f32, f32, f32) {
    let r_c = WGS84_A / (1.0 - WGS84_E2 * sin_phi * sin_phi).sqrt(); // prime vertical radius of curvature
    let p = (r_c + height) * cos_phi; // geocentric cylindrical radius
    let z = (r_c * (1.0 - WGS84_E2) + height) * sin_phi;
    let r = (p * p + z * z).sqrt();
    let cos_theta = z / r;
    let sin_theta = p / r;
    (r, cos_theta, sin_theta)
}

/// X', east Y and Z' in the crate's sign. Near the poles Y comes from the Q recurrence, and is not
/// divided by sin theta.
#[allow(clippy::too_many_arguments)]
fn synthesize_geocentric_xyz<const M: usize, const LENGTH: usize>(
    cos_theta: f32,
    sin_theta: f32,
    sin_lambda: f32,
    cos_lambda: f32,
    ratio: f32,
    g: &[f32; LENGTH],
    h: &[f32; LENGTH],
    g_dot: &[f32; LENGTH],
    h_dot: &[f32; LENGTH],
    time_delta: f32,
) -> (f32, f32, f32) {
    if sin_theta.abs() < NEAR_POLE_SIN_THETA_MIN {
        synthesize_near_pole::<M, LENGTH>(
            cos_theta, sin_theta, sin_lambda, cos_lambda, ratio, g, h, g_dot, h_dot, time_delta,
        )
    } else {
        let (sin_m, cos_m) = sin_cos_m_lambda::<M>(sin_lambda, cos_lambda);
        let (x_prime, y_prime, z_prime) = synthesize_xyz_prime(
            cos_theta, sin_theta, &sin_m, &cos_m, ratio, g, h, g_dot, h_dot, time_delta,
        );
        (x_prime, y_prime / sin_theta, z_prime)
    }
}

/// The same by the degree of the lists.
// inlined, since Sum and Field are timed
#[inline]
pub fn synthesize_lists(
    cos_theta: f32,
    sin_theta: f32,
    sin_lambda: f32,
    cos_lambda: f32,
    ratio: f32,
    lists: Lists,
    time_delta: f32,
) -> (f32, f32, f32) {
    match lists {
        Lists::Degree12([g, h, g_dot, h_dot]) => synthesize_geocentric_xyz::<M_LEN, N_COEFF>(
            cos_theta, sin_theta, sin_lambda, cos_lambda, ratio, g, h, g_dot, h_dot, time_delta,
        ),
        Lists::Degree13([g, h, g_dot, h_dot]) => {
            synthesize_geocentric_xyz::<M_LEN_MAX, N_COEFF_MAX>(
                cos_theta, sin_theta, sin_lambda, cos_lambda, ratio, g, h, g_dot, h_dot, time_delta,
            )
        }
    }
}

/// From the geocentric frame to the geodetic one: X and Z of X' and Z'.
pub fn rotation(
    cos_theta: f32,
    sin_theta: f32,
    sin_phi: f32,
    cos_phi: f32,
    x_prime: f32,
    z_prime: f32,
) -> (f32, f32) {
    let sin_dphi = cos_theta * cos_phi - sin_theta * sin_phi;
    let cos_dphi = sin_theta * cos_phi + cos_theta * sin_phi;
    let x = -x_prime * cos_dphi + z_prime * sin_dphi;
    let z = -x_prime * sin_dphi - z_prime * cos_dphi;
    (x, z)
}

/// A place in the geocentric frame, with the pairs that it was lent.
#[derive(Copy, Clone, Debug, PartialEq)]
pub struct Geocentric {
    sin_phi: f32,
    cos_phi: f32,
    sin_lambda: f32,
    cos_lambda: f32,
    cos_theta: f32,
    sin_theta: f32,
    ratio: f32,
}

impl Geocentric {
    /// The first step of `GeomagneticField::new` after its checks.
    pub fn of(height: f32, sin_phi: f32, cos_phi: f32, sin_lambda: f32, cos_lambda: f32) -> Self {
        let (r, cos_theta, sin_theta) = geodetic_to_geocentric(height, sin_phi, cos_phi);
        Geocentric {
            sin_phi,
            cos_phi,
            sin_lambda,
            cos_lambda,
            cos_theta,
            sin_theta,
            ratio: WMM_A / r,
        }
    }

    /// Below a limit in size the near-pole sum is taken.
    pub fn sin_theta(&self) -> f32 {
        self.sin_theta
    }

    /// The steps after that one, with the offset lent: X, Y and Z of the lists.
    // inlined, since Field is timed
    #[inline]
    pub fn field_at_offset(&self, lists: Lists, time_delta: f32) -> (f32, f32, f32) {
        let (cos_theta, sin_theta) = (self.cos_theta, self.sin_theta);
        let (x_prime, y, z_prime) = synthesize_lists(
            cos_theta,
            sin_theta,
            self.sin_lambda,
            self.cos_lambda,
            self.ratio,
            lists,
            time_delta,
        );
        let (sin_phi, cos_phi) = (self.sin_phi, self.cos_phi);
        let (x, z) = rotation(cos_theta, sin_theta, sin_phi, cos_phi, x_prime, z_prime);
        (x, y, z)
    }
}

impl GeomagneticField {
    /// Horizontal strength H.
    pub fn h(&self) -> f32 {
        (self.x * self.x + self.y * self.y).sqrt()
    }

    /// Total strength F.
    pub fn f(&self) -> f32 {
        (self.h() * self.h() + self.z * self.z).sqrt()
    }

    /// Warning zone, if there is one.
    pub fn declination_warning(&self) -> Option<WarningZone> {
        if self.h() < BLACKOUT_ZONE_H_NT {
            Some(WarningZone::BlackoutZone)
        } else if self.h() < CAUTION_ZONE_H_NT {
            Some(WarningZone::CautionZone)
        } else {
            None
        }
    }

    /// Uncertainty of declination [degrees], by the figures of `error_model`.
    pub fn declination_uncertainty(&self) -> f32 {
        let sigma_c = self.error_model.declination_sigma_c;
        let sigma_v = self.error_model.declination_sigma_v / self.h();
        let uncertainty = (sigma_c * sigma_c + sigma_v * sigma_v).sqrt();

        if uncertainty < MAX_DECLINATION_UNCERTAINTY_DEG {
            return uncertainty;
        }
        MAX_DECLINATION_UNCERTAINTY_DEG
    }
}

/// The crate's grid variation [degrees], or `None` where |latitude| is below 55.
pub fn grid_variation(latitude_deg: f32, longitude_deg: f32, declination_deg: f32) -> Option<f32> {
    let gv = if latitude_deg >= GRID_VARIATION_MIN_ABS_LATITUDE_DEG {
        declination_deg - longitude_deg
    } else if latitude_deg <= -GRID_VARIATION_MIN_ABS_LATITUDE_DEG {
        declination_deg + longitude_deg
    } else {
        return None;
    };
    Some(wrap_to_180(gv))
}

/// The crate's rule: brings an angle to -180..=180, by one step at most.
pub fn wrap_to_180(deg: f32) -> f32 {
    if deg > 180.0 {
        deg - 360.0
    } else if deg < -180.0 {
        deg + 360.0
    } else {
        deg
    }
}

/// Our rule above it: due south has one name, so the crate's -180 is 180.
pub fn one_south(wrapped_deg: f32) -> f32 {
    if wrapped_deg == -180.0 {
        180.0
    } else {
        wrapped_deg
    }
}

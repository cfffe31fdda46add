//! Years, epochs and error records, as in the crate's `src/wmm_models.rs`. A date is a year and a
//! day of that year, each an i32. Every i32 year has a length, by the Gregorian rule.
use crate::sets::WMM_MODELS;
use crate::tables::N_COEFF;

const NUMBER_OF_MODELS: usize = WMM_MODELS.len();
/// Years from one epoch to the next.
const WMM_EPOCH_INTERVAL_YEARS: i32 = 5;

/// A published set. `entries::Set` is the lent form, with lists of any length.
#[derive(Debug, PartialEq)]
pub struct WmmModel {
    pub epoch_year: i32,
    /// Coefficients g and h [nT].
    pub g: [f32; N_COEFF],
    pub h: [f32; N_COEFF],
    /// Their rates [nT/year].
    pub g_dot: [f32; N_COEFF],
    pub h_dot: [f32; N_COEFF],
}

#[derive(Copy, Clone, Debug, PartialEq)]
pub struct WmmErrorModel {
    pub epoch_year: i32,
    /// sigma_c [degrees] of the declination error.
    pub declination_sigma_c: f32,
    /// sigma_v [nT degrees] of the declination error.
    pub declination_sigma_v: f32,
    pub inclination_uncertainty: f32,
    pub f_uncertainty: f32,
    pub h_uncertainty: f32,
    pub x_uncertainty: f32,
    pub y_uncertainty: f32,
    pub z_uncertainty: f32,
}

impl WmmErrorModel {
    /// A record of a year, with its figures in the order of `figures`.
    pub fn of(epoch_year: i32, figures: [f32; 8]) -> WmmErrorModel {
        let [declination_sigma_c, declination_sigma_v, inclination_uncertainty, f, h, x, y, z] =
            figures;
        WmmErrorModel {
            epoch_year,
            declination_sigma_c,
            declination_sigma_v,
            inclination_uncertainty,
            f_uncertainty: f,
            h_uncertainty: h,
            x_uncertainty: x,
            y_uncertainty: y,
            z_uncertainty: z,
        }
    }

    /// The eight figures, in document 01's order: sigma_c, sigma_v, I, F, H, X, Y, Z.
    pub fn figures(&self) -> [f32; 8] {
        [
            self.declination_sigma_c,
            self.declination_sigma_v,
            self.inclination_uncertainty,
            self.f_uncertainty,
            self.h_uncertainty,
            self.x_uncertainty,
            self.y_uncertainty,
            self.z_uncertainty,
        ]
    }
}

pub const WMM_ERROR_MODELS: [WmmErrorModel; NUMBER_OF_MODELS] = [
    WmmErrorModel {
        epoch_year: 2020,
        declination_sigma_c: 0.26,
        declination_sigma_v: 5625.0,
        inclination_uncertainty: 0.21,
        f_uncertainty: 145.0,
        h_uncertainty: 128.0,
        x_uncertainty: 131.0,
        y_uncertainty: 94.0,
        z_uncertainty: 157.0,
    },
    WmmErrorModel {
        epoch_year: 2025,
        declination_sigma_c: 0.26,
        declination_sigma_v: 5417.0,
        inclination_uncertainty: 0.20,
        f_uncertainty: 138.0,
        h_uncertainty: 133.0,
        x_uncertainty: 137.0,
        y_uncertainty: 89.0,
        z_uncertainty: 141.0,
    },
];

/// First and last day that the two epochs answer for, each as (year, day of year).
pub const BUNDLED_MODELS_VALIDITY_RANGE: ((i32, i32), (i32, i32)) = ((2020, 1), (2029, 365));

/// Length of a year, for every i32 year, also 0 and below.
pub fn days_in_year(year: i32) -> i32 {
    if year.rem_euclid(4) == 0 && (year.rem_euclid(100) != 0 || year.rem_euclid(400) == 0) {
        366
    } else {
        365
    }
}

/// Five-year epoch of a year, the division cut toward zero (2024 -> 2020, 2019 -> 2015, -1 -> 0).
pub fn date_to_epoch_year(year: i32) -> i32 {
    year / WMM_EPOCH_INTERVAL_YEARS * WMM_EPOCH_INTERVAL_YEARS
}

/// Years from the epoch to the day: whole years, plus the part of the year.
pub fn years_since_epoch(year: i32, day: i32, epoch_year: i32) -> f32 {
    (year - epoch_year) as f32 + (day - 1) as f32 / (days_in_year(year) as f32)
}

/// The first record of an epoch year in a list, if there is one.
pub fn error_model_in(records: &[WmmErrorModel], epoch_year: i32) -> Option<&WmmErrorModel> {
    records.iter().find(|model| model.epoch_year == epoch_year)
}

/// The built-in error record of an epoch year, if there is one.
pub fn error_model_by_epoch_year(epoch_year: i32) -> Option<&'static WmmErrorModel> {
    error_model_in(&WMM_ERROR_MODELS, epoch_year)
}

/// The published set of an epoch year, if there is one.
pub fn model_by_epoch_year(epoch_year: i32) -> Option<&'static WmmModel> {
    WMM_MODELS
        .iter()
        .find(|model| model.epoch_year == epoch_year)
}

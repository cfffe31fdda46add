//! The functions of the library, as include/njerumoy.h and include/njerumoy_igrf.h declare them. A
//! list, a text or stored bytes are a pointer and a length; what C declares as an array is a reference
//! to one.
use crate::ErrorRecord;

extern "C" {
    pub fn njerumoy_sine_and_cosine(degrees: f32, sine: &mut f32, cosine: &mut f32) -> u32;

    pub fn njerumoy_field(
        height: f32,
        sin_phi: f32,
        cos_phi: f32,
        sin_lambda: f32,
        cos_lambda: f32,
        year: i32,
        day_of_year: i32,
        epoch_year: i32,
        g: *const f32,
        g_length: usize,
        h: *const f32,
        h_length: usize,
        g_dot: *const f32,
        g_dot_length: usize,
        h_dot: *const f32,
        h_dot_length: usize,
        xyz: &mut [f32; 3],
        errors: &mut [f32; 8],
        entry: &mut [usize; 2],
        years: &mut [i32; 2],
    ) -> u32;

    pub fn njerumoy_field_in_degrees(
        height: f32,
        latitude_deg: f32,
        longitude_deg: f32,
        year: i32,
        day_of_year: i32,
        epoch_year: i32,
        g: *const f32,
        g_length: usize,
        h: *const f32,
        h_length: usize,
        g_dot: *const f32,
        g_dot_length: usize,
        h_dot: *const f32,
        h_dot_length: usize,
        xyz: &mut [f32; 3],
        errors: &mut [f32; 8],
        entry: &mut [usize; 2],
        years: &mut [i32; 2],
    ) -> u32;

    pub fn njerumoy_field_listed(
        height: f32,
        sin_phi: f32,
        cos_phi: f32,
        sin_lambda: f32,
        cos_lambda: f32,
        year: i32,
        day_of_year: i32,
        epoch_year: i32,
        g: *const f32,
        g_length: usize,
        h: *const f32,
        h_length: usize,
        g_dot: *const f32,
        g_dot_length: usize,
        h_dot: *const f32,
        h_dot_length: usize,
        records: *const ErrorRecord,
        records_length: usize,
        xyz: &mut [f32; 3],
        errors: &mut [f32; 8],
        entry: &mut [usize; 2],
        years: &mut [i32; 2],
    ) -> u32;

    pub fn njerumoy_allowance(
        height: f32,
        sin_phi: f32,
        cos_phi: f32,
        sin_lambda: f32,
        cos_lambda: f32,
        year: i32,
        day_of_year: i32,
        epoch_year: i32,
        g: *const f32,
        g_length: usize,
        h: *const f32,
        h_length: usize,
        g_dot: *const f32,
        g_dot_length: usize,
        h_dot: *const f32,
        h_dot_length: usize,
        allowances: &mut [f32; 3],
        entry: &mut [usize; 2],
        years: &mut [i32; 2],
    ) -> u32;

    pub fn njerumoy_rates(
        height: f32,
        sin_phi: f32,
        cos_phi: f32,
        sin_lambda: f32,
        cos_lambda: f32,
        year: i32,
        day_of_year: i32,
        epoch_year: i32,
        g: *const f32,
        g_length: usize,
        h: *const f32,
        h_length: usize,
        g_dot: *const f32,
        g_dot_length: usize,
        h_dot: *const f32,
        h_dot_length: usize,
        rates: &mut [f32; 7],
        entry: &mut [usize; 2],
        years: &mut [i32; 2],
    ) -> u32;

    pub fn njerumoy_igrf(
        height: f32,
        sin_phi: f32,
        cos_phi: f32,
        sin_lambda: f32,
        cos_lambda: f32,
        year: i32,
        day_of_year: i32,
        epoch_year: i32,
        g: *const f32,
        g_length: usize,
        h: *const f32,
        h_length: usize,
        g_dot: *const f32,
        g_dot_length: usize,
        h_dot: *const f32,
        h_dot_length: usize,
        second_epoch_year: i32,
        second_g: *const f32,
        second_g_length: usize,
        second_h: *const f32,
        second_h_length: usize,
        xyz: &mut [f32; 3],
        entry: &mut [usize; 2],
        years: &mut [i32; 2],
    ) -> u32;

    pub fn njerumoy_igrf_allowance(
        height: f32,
        sin_phi: f32,
        cos_phi: f32,
        sin_lambda: f32,
        cos_lambda: f32,
        year: i32,
        day_of_year: i32,
        epoch_year: i32,
        g: *const f32,
        g_length: usize,
        h: *const f32,
        h_length: usize,
        g_dot: *const f32,
        g_dot_length: usize,
        h_dot: *const f32,
        h_dot_length: usize,
        second_epoch_year: i32,
        second_g: *const f32,
        second_g_length: usize,
        second_h: *const f32,
        second_h_length: usize,
        allowances: &mut [f32; 3],
        entry: &mut [usize; 2],
        years: &mut [i32; 2],
    ) -> u32;

    pub fn njerumoy_igrf_rates(
        height: f32,
        sin_phi: f32,
        cos_phi: f32,
        sin_lambda: f32,
        cos_lambda: f32,
        year: i32,
        day_of_year: i32,
        epoch_year: i32,
        g: *const f32,
        g_length: usize,
        h: *const f32,
        h_length: usize,
        g_dot: *const f32,
        g_dot_length: usize,
        h_dot: *const f32,
        h_dot_length: usize,
        second_epoch_year: i32,
        second_g: *const f32,
        second_g_length: usize,
        second_h: *const f32,
        second_h_length: usize,
        rates: &mut [f32; 7],
        entry: &mut [usize; 2],
        years: &mut [i32; 2],
    ) -> u32;

    pub fn njerumoy_sum(
        cos_theta: f32,
        sin_theta: f32,
        sin_lambda: f32,
        cos_lambda: f32,
        ratio: f32,
        offset: f32,
        g: *const f32,
        g_length: usize,
        h: *const f32,
        h_length: usize,
        g_dot: *const f32,
        g_dot_length: usize,
        h_dot: *const f32,
        h_dot_length: usize,
        xyz: &mut [f32; 3],
        entry: &mut [usize; 2],
    ) -> u32;

    pub fn njerumoy_epoch(
        year: i32,
        day_of_year: i32,
        epoch_year: &mut i32,
        offset: &mut f32,
    ) -> u32;

    pub fn njerumoy_read_cof(
        text: *const u8,
        text_length: usize,
        g: *mut f32,
        g_length: usize,
        h: *mut f32,
        h_length: usize,
        g_dot: *mut f32,
        g_dot_length: usize,
        h_dot: *mut f32,
        h_dot_length: usize,
        epoch_year: &mut i32,
        entry: &mut [usize; 2],
        line: &mut usize,
    ) -> u32;

    pub fn njerumoy_read_stored(
        stored: *const u8,
        stored_length: usize,
        g: *mut f32,
        g_length: usize,
        h: *mut f32,
        h_length: usize,
        g_dot: *mut f32,
        g_dot_length: usize,
        h_dot: *mut f32,
        h_dot_length: usize,
        epoch_year: &mut i32,
        entry: &mut [usize; 2],
        place: &mut usize,
    ) -> u32;

    pub fn njerumoy_write_stored(
        epoch_year: i32,
        g: *const f32,
        g_length: usize,
        h: *const f32,
        h_length: usize,
        g_dot: *const f32,
        g_dot_length: usize,
        h_dot: *const f32,
        h_dot_length: usize,
        stored: *mut u8,
        stored_length: usize,
        entry: &mut [usize; 2],
    ) -> u32;

    pub fn njerumoy_read_stored_either(
        stored: *const u8,
        stored_length: usize,
        g: *mut f32,
        g_length: usize,
        h: *mut f32,
        h_length: usize,
        g_dot: *mut f32,
        g_dot_length: usize,
        h_dot: *mut f32,
        h_dot_length: usize,
        epoch_year: &mut i32,
        entry: &mut [usize; 2],
        place: &mut usize,
    ) -> u32;

    pub fn njerumoy_write_stored_either(
        epoch_year: i32,
        g: *const f32,
        g_length: usize,
        h: *const f32,
        h_length: usize,
        g_dot: *const f32,
        g_dot_length: usize,
        h_dot: *const f32,
        h_dot_length: usize,
        stored: *mut u8,
        stored_length: usize,
        entry: &mut [usize; 2],
    ) -> u32;

    pub fn njerumoy_field_stored(
        stored: *const u8,
        stored_length: usize,
        height: f32,
        sin_phi: f32,
        cos_phi: f32,
        sin_lambda: f32,
        cos_lambda: f32,
        year: i32,
        day_of_year: i32,
        xyz: &mut [f32; 3],
        errors: &mut [f32; 8],
        entry: &mut [usize; 2],
        years: &mut [i32; 2],
        place: &mut usize,
    ) -> u32;

    pub fn njerumoy_field_stored_either(
        stored: *const u8,
        stored_length: usize,
        height: f32,
        sin_phi: f32,
        cos_phi: f32,
        sin_lambda: f32,
        cos_lambda: f32,
        year: i32,
        day_of_year: i32,
        xyz: &mut [f32; 3],
        errors: &mut [f32; 8],
        entry: &mut [usize; 2],
        years: &mut [i32; 2],
        place: &mut usize,
    ) -> u32;

    pub fn njerumoy_horizontal(x: f32, y: f32, z: f32, h: &mut f32) -> u32;

    pub fn njerumoy_total(x: f32, y: f32, z: f32, f: &mut f32) -> u32;

    pub fn njerumoy_zone(x: f32, y: f32, z: f32, zone: &mut u32) -> u32;

    pub fn njerumoy_declination(x: f32, y: f32, declination: &mut f32) -> u32;

    pub fn njerumoy_field_declination(x: f32, y: f32, z: f32, declination: &mut f32) -> u32;

    pub fn njerumoy_inclination(x: f32, y: f32, z: f32, inclination: &mut f32) -> u32;

    pub fn njerumoy_declination_uncertainty(
        x: f32,
        y: f32,
        z: f32,
        epoch_year: i32,
        uncertainty: &mut f32,
    ) -> u32;

    pub fn njerumoy_declination_uncertainty_listed(
        x: f32,
        y: f32,
        z: f32,
        epoch_year: i32,
        records: *const ErrorRecord,
        records_length: usize,
        uncertainty: &mut f32,
    ) -> u32;

    pub fn njerumoy_grid_variation(
        latitude_deg: f32,
        longitude_deg: f32,
        declination_deg: f32,
        given: &mut u32,
        variation: &mut f32,
    ) -> u32;

    pub fn njerumoy_square_root(x: f32, root: &mut f32) -> u32;
}

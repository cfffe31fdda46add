//! Pools of single values: the ends of every range with their neighbours, zeros, subnormals,
//! huge numbers, infinities and NaNs.
use super::rng::Rng;

/// Patterns that are not finite: quiet and signalling NaNs of either sign, and the infinities.
pub const NOT_FINITE: [u32; 8] = [
    0x7fc0_0000,
    0xffc0_0000,
    0x7f80_0001,
    0xff80_0001,
    0x7fff_ffff,
    0xffff_ffff,
    0x7f80_0000,
    0xff80_0000,
];

/// The smallest subnormal, the largest, the smallest normal.
pub const SMALL: [u32; 5] = [1, 2, 0x007f_fffe, 0x007f_ffff, 0x0080_0000];

/// x moved by k steps of f32. The two zeros count as one.
pub fn step(x: f32, k: i32) -> f32 {
    let bits = x.to_bits();
    let size = i64::from(bits & 0x7fff_ffff);
    let place = if bits >> 31 == 1 { -size } else { size } + i64::from(k);
    if place < 0 {
        f32::from_bits(0x8000_0000 | (-place) as u32)
    } else {
        f32::from_bits(place as u32)
    }
}

/// What every pool has: zeros, small and huge numbers of either sign, NaNs and infinities.
pub fn common() -> Vec<f32> {
    let mut pool = vec![0.0, -0.0, 1.0, -1.0, f32::MAX, f32::MIN, 1e30, -1e30, 1e-30];
    for bits in SMALL {
        pool.push(f32::from_bits(bits));
        pool.push(-f32::from_bits(bits));
    }
    pool.extend(NOT_FINITE.map(f32::from_bits));
    pool
}

/// The common pool, and each of `ends` with its neighbours up to two steps away.
pub fn around(ends: &[f32]) -> Vec<f32> {
    let mut pool = common();
    for end in ends {
        for k in -2..=2 {
            pool.push(step(*end, k));
        }
    }
    pool
}

pub struct Pools {
    pub height: Vec<f32>,
    pub ratio: Vec<f32>,
    pub offset: Vec<f32>,
    pub component: Vec<f32>,
    pub latitude_deg: Vec<f32>,
    pub longitude_deg: Vec<f32>,
    pub declination_deg: Vec<f32>,
    pub root: Vec<f32>,
    pub year: Vec<i32>,
    pub day: Vec<i32>,
    pub epoch_year: Vec<i32>,
}

/// The strengths around which the answers change: the zones' ends, and where the uncertainty of
/// 2020 and of 2025 reaches 180.
pub fn turning_strengths() -> [f32; 4] {
    let ends = |sigma_v: f64| (sigma_v / (180.0f64 * 180.0 - 0.26 * 0.26).sqrt()) as f32;
    [2000.0, 6000.0, ends(5625.0), ends(5417.0)]
}

impl Pools {
    pub fn new() -> Pools {
        let largest = 1152921504606846976.0; // 2^60
        let mut component = around(&[largest, -largest, 2000.0, -2000.0, 6000.0]);
        component.extend([
            1200.0, 1600.0, 3600.0, 4800.0, 1999.0, 5999.0, 1e-16, 3e-16, -1e-19,
        ]);
        component.extend(turning_strengths());
        let mut year: Vec<i32> = (2013..=2036).collect();
        year.extend([
            i32::MIN,
            i32::MIN + 1,
            -2025,
            -2024,
            -2020,
            -2019,
            -400,
            -101,
            -100,
            -99,
        ]);
        year.extend([
            -5, -4, -3, -1, 0, 1, 4, 5, 20, 25, 99, 100, 400, 1600, 1900, 2000, 2100,
        ]);
        year.extend([
            2400,
            2025 - 65536,
            2020 + 65536,
            2025 + 65536,
            i32::MAX - 1,
            i32::MAX,
        ]);
        let mut day: Vec<i32> = vec![i32::MIN, i32::MIN + 1, -65535, -366, -365, -2, -1, 0, 1, 2];
        day.extend([
            31, 32, 59, 60, 61, 183, 184, 255, 256, 257, 363, 364, 365, 366, 367, 368,
        ]);
        day.extend([511, 512, 65535, 65536, 65537, i32::MAX - 1, i32::MAX]);
        Pools {
            height: around(&[-1000.0, 850000.0, 100.0, -6356752.5, -6378137.0]),
            ratio: around(&[0.875, 1.0, 1.015625]),
            offset: around(&[5.0, 2.5, -5.0]),
            component,
            latitude_deg: around(&[55.0, -55.0, 90.0, -90.0]),
            longitude_deg: around(&[180.0, -180.0, 90.0, 125.0]),
            declination_deg: around(&[180.0, -180.0, 90.0, -55.0]),
            root: around(&[
                0.25,
                2.0,
                3.0,
                4.0,
                65536.0,
                1.8446743e19,
                f32::MIN_POSITIVE,
            ]),
            year,
            day,
            epoch_year: vec![
                2020,
                2025,
                2015,
                2030,
                2019,
                2021,
                2024,
                2029,
                0,
                2000,
                -2020,
                i32::MIN,
                i32::MAX,
            ],
        }
    }
}

/// A number with a random exponent, its size from 2^low to 2^high, of either sign.
pub fn any_scale(rng: &mut Rng, low: f64, high: f64) -> f32 {
    let size = rng.between(low, high).exp2() * rng.between(0.5, 1.0);
    rng.sign() * size as f32
}

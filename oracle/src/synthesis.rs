//! The sums over degree and order, as in the crate's `src/synthesis.rs`.
//! The order of every sum and product is the source's. Sine and cosine of the longitude are lent.
//! There are M orders, from 0 to the highest degree, and LENGTH coefficients. Both are known when this
//! is compiled, so that each degree has code of its own, as fast as the crate's, which knows one degree.
use crate::tables::{coeff_index, legendre_index, legendre_k, SCHMIDT_SEMI_NORM};

/// After degree n: current -> prev1, prev1 -> prev2, prev2 -> scratch.
#[inline]
fn rotate_row_indices(i_prev2: &mut usize, i_prev1: &mut usize, i_cur: &mut usize) {
    let next = *i_prev2;
    *i_prev2 = *i_prev1;
    *i_prev1 = *i_cur;
    *i_cur = next;
}

/// Gauss-normalized P and its derivative by colatitude, from the rows n-1 and n-2.
/// A row is indexed by m. P_0^0 = 1 stands in the first prev1 row.
#[inline]
#[allow(clippy::too_many_arguments)]
fn gauss_norm_p_dp<const M: usize>(
    n: usize,
    m: usize,
    cos_theta: f32,
    sin_theta: f32,
    p_prev1: &[f32; M],
    p_prev2: &[f32; M],
    dp_prev1: &[f32; M],
    dp_prev2: &[f32; M],
) -> (f32, f32) {
    if n == m {
        (
            sin_theta * p_prev1[m - 1],
            sin_theta * dp_prev1[m - 1] + cos_theta * p_prev1[m - 1],
        )
    } else if n == 1 && m == 0 {
        (cos_theta, -sin_theta)
    } else if m > n - 2 {
        (
            cos_theta * p_prev1[m],
            cos_theta * dp_prev1[m] - sin_theta * p_prev1[m],
        )
    } else {
        let k = legendre_k(n, m);
        (
            cos_theta * p_prev1[m] - k * p_prev2[m],
            cos_theta * dp_prev1[m] - sin_theta * p_prev1[m] - k * dp_prev2[m],
        )
    }
}

/// A coefficient at a date: main + offset * rate.
#[inline]
pub fn coeff_at_t(main: f32, secular: f32, time_delta: f32) -> f32 {
    main + time_delta * secular
}

/// The general sum: X', Y' and Z' in the crate's sign. Y' is Y times sin theta.
/// `ratio` is a/r. `sin_m` and `cos_m` are sine and cosine of m lambda, m = 0..=M - 1.
#[allow(clippy::too_many_arguments)]
pub fn synthesize_xyz_prime<const M: usize, const LENGTH: usize>(
    cos_theta: f32,
    sin_theta: f32,
    sin_m: &[f32; M],
    cos_m: &[f32; M],
    ratio: f32,
    g: &[f32; LENGTH],
    h: &[f32; LENGTH],
    g_dot: &[f32; LENGTH],
    h_dot: &[f32; LENGTH],
    time_delta: f32,
) -> (f32, f32, f32) {
    // Slots: prev2, prev1, current. P_0^0 in starting prev1. Rotate, do not copy rows.
    let mut p = [[0.0f32; M]; 3];
    let mut dp = [[0.0f32; M]; 3];
    p[1][0] = 1.0;
    let mut i_prev2 = 0usize;
    let mut i_prev1 = 1usize;
    let mut i_cur = 2usize;

    // (a/r)^(n+2): it starts at n = 1, so (a/r)^3.
    let mut a_over_r_n2 = ratio * ratio * ratio;
    let mut x_prime = 0.0;
    let mut y_prime = 0.0;
    let mut z_prime = 0.0;

    for n in 1..=M - 1 {
        let mut x_tmp = 0.0;
        let mut y_tmp = 0.0;
        let mut z_tmp = 0.0;

        for m in 0..=n {
            let (p_nm, dp_nm) = gauss_norm_p_dp(
                n,
                m,
                cos_theta,
                sin_theta,
                &p[i_prev1],
                &p[i_prev2],
                &dp[i_prev1],
                &dp[i_prev2],
            );
            p[i_cur][m] = p_nm;
            dp[i_cur][m] = dp_nm;

            let s = SCHMIDT_SEMI_NORM[legendre_index(n, m)];
            let psn = s * p_nm;
            let dpsn = -s * dp_nm;
            let ix = coeff_index(n, m);
            let g_t = coeff_at_t(g[ix], g_dot[ix], time_delta);
            let h_t = coeff_at_t(h[ix], h_dot[ix], time_delta);
            let g_c_h_s = g_t * cos_m[m] + h_t * sin_m[m];
            let g_s_h_c = g_t * sin_m[m] - h_t * cos_m[m];
            x_tmp += g_c_h_s * dpsn;
            y_tmp += m as f32 * g_s_h_c * psn;
            z_tmp += g_c_h_s * psn;
        }

        x_prime += a_over_r_n2 * x_tmp;
        y_prime += a_over_r_n2 * y_tmp;
        z_prime += (n as f32 + 1.0) * a_over_r_n2 * z_tmp;
        a_over_r_n2 *= ratio;
        rotate_row_indices(&mut i_prev2, &mut i_prev1, &mut i_cur);
    }
    (x_prime, y_prime, z_prime)
}

/// The sum near a pole: X', east Y itself (by the Q recurrence) and Z'. Only orders 0 and 1.
#[allow(clippy::too_many_arguments)]
pub fn synthesize_near_pole<const M: usize, const LENGTH: usize>(
    cos_theta: f32,
    sin_theta: f32,
    sin_l: f32,
    cos_l: f32,
    ratio: f32,
    g: &[f32; LENGTH],
    h: &[f32; LENGTH],
    g_dot: &[f32; LENGTH],
    h_dot: &[f32; LENGTH],
    time_delta: f32,
) -> (f32, f32, f32) {
    let mut p = [[0.0f32; M]; 3];
    let mut dp = [[0.0f32; M]; 3];
    p[1][0] = 1.0;
    let mut i_prev2 = 0usize;
    let mut i_prev1 = 1usize;
    let mut i_cur = 2usize;

    let mut a_over_r_n2 = ratio * ratio * ratio;
    let mut x_prime = 0.0;
    let mut y = 0.0;
    let mut z_prime = 0.0;
    // Q_0 = 1, Q_1 = P_1^1 / sin theta = 1.
    let mut q_prev2 = 1.0f32;
    let mut q_prev1 = 1.0f32;

    for n in 1..=M - 1 {
        let mut x_tmp = 0.0;
        let mut z_tmp = 0.0;

        let q = if n == 1 {
            1.0
        } else {
            cos_theta * q_prev1 - legendre_k(n, 1) * q_prev2
        };

        for m in 0..=1 {
            let (p_nm, dp_nm) = gauss_norm_p_dp(
                n,
                m,
                cos_theta,
                sin_theta,
                &p[i_prev1],
                &p[i_prev2],
                &dp[i_prev1],
                &dp[i_prev2],
            );
            p[i_cur][m] = p_nm;
            dp[i_cur][m] = dp_nm;

            let s = SCHMIDT_SEMI_NORM[legendre_index(n, m)];
            let psn = s * p_nm;
            let dpsn = -s * dp_nm;
            let ix = coeff_index(n, m);
            let g_t = coeff_at_t(g[ix], g_dot[ix], time_delta);
            let h_t = coeff_at_t(h[ix], h_dot[ix], time_delta);
            let (sin_m, cos_m) = if m == 0 { (0.0, 1.0) } else { (sin_l, cos_l) };
            let g_c_h_s = g_t * cos_m + h_t * sin_m;
            x_tmp += g_c_h_s * dpsn;
            z_tmp += g_c_h_s * psn;
            if m == 1 {
                y += a_over_r_n2 * (g_t * sin_m - h_t * cos_m) * q * s;
            }
        }

        x_prime += a_over_r_n2 * x_tmp;
        z_prime += (n as f32 + 1.0) * a_over_r_n2 * z_tmp;
        a_over_r_n2 *= ratio;
        q_prev2 = q_prev1;
        q_prev1 = q;
        rotate_row_indices(&mut i_prev2, &mut i_prev1, &mut i_cur);
    }
    (x_prime, y, z_prime)
}

/// Sine and cosine of m lambda, m = 0..=M - 1, by angle addition.
pub fn sin_cos_m_lambda<const M: usize>(sin_l: f32, cos_l: f32) -> ([f32; M], [f32; M]) {
    let mut sin_m = [0.0f32; M];
    let mut cos_m = [0.0f32; M];
    cos_m[0] = 1.0;
    for m in 1..=M - 1 {
        sin_m[m] = sin_m[m - 1] * cos_l + cos_m[m - 1] * sin_l;
        cos_m[m] = cos_m[m - 1] * cos_l - sin_m[m - 1] * sin_l;
    }
    (sin_m, cos_m)
}

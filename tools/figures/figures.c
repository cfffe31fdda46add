/* The measured figures that the documents cite: tools/figures/run prints them. Nothing here is
 * proved. The model is worked out a second time, in double precision and in the report's own form:
 * all orders, exact Schmidt factors, angles in degrees. It shares no code and no table with the
 * library. */
#include <math.h>
#include <stdio.h>
#include <stdlib.h>
#include <string.h>

#include "njerumoy_published.h"

#define DEGREES 12
#define RADIAN 0.017453292519943295769

static const struct njerumoy_set *const SETS[2] = {&NJERUMOY_WMM2020, &NJERUMOY_WMM2025};

/* The last day of each epoch: the offset there is the largest. */
static const int32_t LAST[2][2] = {{2024, 366}, {2029, 365}};

/* ---- the model in double precision */

struct three {
    double x, y, z;
};

/* A place as seen from the earth's centre: cosine and sine of the colatitude, radius in metres. */
struct centre {
    double cosine, sine, radius;
};

/* P and dP / d colatitude, Schmidt's normalisation, without the Condon-Shortley sign. */
struct legendre {
    double p[DEGREES + 1][DEGREES + 1], dp[DEGREES + 1][DEGREES + 1];
};

static void legendre(double c, double s, struct legendre *l) {
    memset(l, 0, sizeof *l);
    l->p[0][0] = 1.0;
    for (int n = 1; n <= DEGREES; n++) {
        const double last = n == 1 ? 1.0 : sqrt((2.0 * n - 1.0) / (2.0 * n));
        l->p[n][n] = last * s * l->p[n - 1][n - 1];
        l->dp[n][n] = last * (c * l->p[n - 1][n - 1] + s * l->dp[n - 1][n - 1]);
        for (int m = 0; m < n; m++) {
            const double by = sqrt((double)(n * n - m * m)), a = (2.0 * n - 1.0) / by;
            const double b = m < n - 1 ? sqrt((n - 1.0) * (n - 1.0) - m * m) / by : 0.0;
            const double p2 = n > 1 ? l->p[n - 2][m] : 0.0, dp2 = n > 1 ? l->dp[n - 2][m] : 0.0;
            l->p[n][m] = a * c * l->p[n - 1][m] - b * p2;
            l->dp[n][m] = a * (c * l->dp[n - 1][m] - s * l->p[n - 1][m]) - b * dp2;
        }
    }
}

/* North, east and down along the geocentric axes, summed over the orders from `first` to `last`. */
static struct three sum(const struct njerumoy_set *set, struct centre at, double lon_deg,
                        double years, int first, int last) {
    struct legendre l;
    struct three v = {0.0, 0.0, 0.0};
    legendre(at.cosine, at.sine, &l);
    for (int n = 1; n <= DEGREES; n++) {
        const double power = pow(6371200.0 / at.radius, n + 2);
        for (int m = first; m <= n && m <= last; m++) {
            const int i = n * (n + 1) / 2 + m - 1;
            const double g = (double)set->g[i] + years * (double)set->g_dot[i];
            const double h = (double)set->h[i] + years * (double)set->h_dot[i];
            const double c = cos(m * lon_deg * RADIAN), s = sin(m * lon_deg * RADIAN);
            v.x += power * (g * c + h * s) * l.dp[n][m];
            if (m > 0) v.y += power * m * (g * s - h * c) * l.p[n][m] / at.sine;
            v.z -= power * (n + 1) * (g * c + h * s) * l.p[n][m];
        }
    }
    return v;
}

static struct centre centre_of(double height, double lat_deg) {
    const double a = 6378137.0, f = 1.0 / 298.257223563, e2 = f * (2.0 - f);
    const double s = sin(lat_deg * RADIAN), c = cos(lat_deg * RADIAN);
    const double curve = a / sqrt(1.0 - e2 * s * s);
    const double p = (curve + height) * c, z = (curve * (1.0 - e2) + height) * s;
    const double r = sqrt(p * p + z * z);
    const struct centre at = {z / r, p / r, r};
    return at;
}

/* X, Y and Z along the geodetic axes. */
static struct three model(const struct njerumoy_set *set, double height, double lat, double lon,
                          double years, int last_order) {
    const struct centre at = centre_of(height, lat);
    const struct three v = sum(set, at, lon, years, 0, last_order);
    const double turn = atan2(at.cosine, at.sine) - lat * RADIAN;
    const struct three w = {v.x * cos(turn) - v.z * sin(turn), v.y,
                            v.x * sin(turn) + v.z * cos(turn)};
    return w;
}

/* ---- what is measured */

/* Upward to so many digits: what is printed as the largest is none too small. */
static double upward(double x, int digits) {
    const double scale = pow(10.0, digits);
    return ceil(x * scale) / scale;
}

static void widen(struct three *most, double x, double y, double z) {
    most->x = fmax(most->x, fabs(x));
    most->y = fmax(most->y, fabs(y));
    most->z = fmax(most->z, fabs(z));
}

static struct njerumoy_place place_of(double height, double lat, double lon) {
    const struct njerumoy_place place = {(float)height,
                                         {(float)sin(lat * RADIAN), (float)cos(lat * RADIAN)},
                                         {(float)sin(lon * RADIAN), (float)cos(lon * RADIAN)}};
    return place;
}

/* The rows of oracle/test-values.txt. Each printed number must come out, to its last digit. */
static int rows(const char *path) {
    FILE *file = fopen(path, "r");
    char line[256], said[7][16];
    int count = 0, other = 0, epoch;
    double date, km, lat, lon;
    if (file == NULL) return -1;
    while (fgets(line, sizeof line, file) != NULL) {
        if (line[0] == '#') continue;
        if (sscanf(line, "%d %lf %lf %lf %lf %15s %15s %15s %15s %15s %15s %15s", &epoch, &date, &km,
                   &lat, &lon, said[0], said[1], said[2], said[3], said[4], said[5], said[6]) != 12)
            return -1;
        const struct three v =
            model(SETS[epoch == 2025], km * 1000.0, lat, lon, date - epoch, DEGREES);
        const double h = hypot(v.x, v.y), angles[2] = {atan2(v.y, v.x), atan2(v.z, h)};
        const double strengths[5] = {h, v.x, v.y, v.z, hypot(h, v.z)};
        char ours[16];
        for (int i = 0; i < 7; i++) {
            if (i < 2)
                snprintf(ours, sizeof ours, "%.2f", angles[i] / RADIAN);
            else
                snprintf(ours, sizeof ours, "%.1f", strengths[i - 2]);
            if (strcmp(ours, said[i]) != 0) other++;
        }
        count++;
    }
    fclose(file);
    printf("published rows, in double precision: %d rows, %d printed numbers that differ\n", count,
           other);
    return other;
}

/* The largest of orders 2 and above, every half degree of longitude, at both ends of the epoch. */
static struct three higher_orders(const struct njerumoy_set *set, struct centre at) {
    struct three most = {0.0, 0.0, 0.0};
    for (int i = 0; i < 720; i++) {
        for (int years = 0; years <= 5; years += 5) {
            const struct three v = sum(set, at, 0.5 * i, years, 2, DEGREES);
            widen(&most, v.x, v.y, v.z);
        }
    }
    return most;
}

/* The set whose field is the yearly change of another's: X, Y and Z change evenly. */
static struct njerumoy_set rates_of(const struct njerumoy_set *set) {
    static const float none[NJERUMOY_LIST_LENGTH];
    struct njerumoy_set rates = *set;
    rates.g = set->g_dot;
    rates.h = set->h_dot;
    rates.g_dot = rates.h_dot = none;
    return rates;
}

/* Where the sine of the colatitude is 0.000999. `side` is 1 at the north pole and -1 at the south. */
static void left_out(double height, double side) {
    for (int k = 0; k < 2; k++) {
        const double s = 0.000999, radius = 6356752.0 + height;
        const struct centre at = {side * sqrt(1.0 - s * s), s, radius};
        const struct njerumoy_set rates = rates_of(SETS[k]);
        const struct three v = higher_orders(SETS[k], at), w = higher_orders(&rates, at);
        printf("left out near the %s pole, %d, height %.0f km: X' %.2f  Y %.2f  Z' %.3f nT; ",
               side > 0.0 ? "north" : "south", (int)SETS[k]->epoch_year, height / 1000.0,
               upward(v.x, 2), upward(v.y, 2), upward(v.z, 3));
        printf("of the rates: %.3f  %.3f  %.4f nT a year\n", upward(w.x, 3), upward(w.y, 3),
               upward(w.z, 4));
    }
}

static void one_place(double lat, double lon) {
    const struct three all = model(SETS[0], 0.0, lat, lon, 4.0, DEGREES);
    const struct three few = model(SETS[0], 0.0, lat, lon, 4.0, 1);
    printf("left out at %.3f north %.1f east, height 0, day 1 of 2024: X %.2f  Y %.2f  Z %.3f nT\n",
           lat, lon, all.x - few.x, all.y - few.y, all.z - few.z);
}

/* What Allowance gives on the last day of the epoch at height 0, every half degree of latitude and
 * every third degree of longitude. */
static void allowances(void) {
    for (int k = 0; k < 2; k++) {
        struct three most = {0.0, 0.0, 0.0};
        float v[3];
        size_t entry[2];
        int32_t years[2];
        for (int i = 0; i <= 360; i++) {
            for (int j = 0; j < 120; j++) {
                const struct njerumoy_place at = place_of(0.0, 0.5 * i - 90.0, 3.0 * j - 180.0);
                const int32_t year = LAST[k][0], day = LAST[k][1];
                if (njerumoy_allowance_with(SETS[k], at, year, day, v, entry, years) != 0) exit(1);
                widen(&most, v[0], v[1], v[2]);
            }
        }
        printf("largest allowance, %d: X %.2f  Y %.2f  Z %.2f nT\n", (int)SETS[k]->epoch_year,
               upward(most.x, 2), upward(most.y, 2), upward(most.z, 2));
    }
}

/* A number from 0 to 1: the same ones in each run. */
static double next(void) {
    static uint64_t seed = 1;
    seed = seed * 6364136223846793005u + 1442695040888963407u;
    return (double)(seed >> 11) / 9007199254740992.0;
}

/* How far Field lies from the model in double precision, all roundings taken together, those of the
 * lent sines too: `count` places at height 0 that are not near a pole, on days of the epoch. */
static void distances(int count) {
    for (int k = 0; k < 2; k++) {
        struct three most = {0.0, 0.0, 0.0}, part = {0.0, 0.0, 0.0};
        float v[3], a[3], errors[8];
        size_t entry[2];
        int32_t years[2];
        for (int i = 0; i < count;) {
            const double lat = 180.0 * next() - 90.0, lon = 360.0 * next() - 180.0;
            const int32_t past = (int32_t)(5.0 * next()), day = 1 + (int32_t)(365.0 * next());
            const int32_t year = SETS[k]->epoch_year + past;
            const double offset = past + (day - 1) / (year % 4 == 0 ? 366.0 : 365.0);
            const struct njerumoy_place at = place_of(0.0, lat, lon);
            if (centre_of(0.0, lat).sine < 0.00101) continue;
            i++;
            if (njerumoy_field_with(SETS[k], at, year, day, v, errors, entry, years) != 0 ||
                njerumoy_allowance_with(SETS[k], at, year, day, a, entry, years) != 0)
                exit(1);
            const struct three w = model(SETS[k], 0.0, lat, lon, offset, DEGREES);
            const struct three d = {v[0] - w.x, v[1] - w.y, v[2] - w.z};
            widen(&most, d.x, d.y, d.z);
            widen(&part, d.x / a[0], d.y / a[1], d.z / a[2]);
        }
        printf(
            "largest distance, %d, %d places: X %.3f  Y %.3f  Z %.3f nT; over its allowance: "
            "%.3f  %.3f  %.3f\n",
            (int)SETS[k]->epoch_year, count, upward(most.x, 3), upward(most.y, 3), upward(most.z, 3),
            upward(part.x, 3), upward(part.y, 3), upward(part.z, 3));
    }
}

int main(int count, char **words) {
    if (count != 2 || rows(words[1]) != 0) return 1;
    left_out(0.0, 1.0);
    left_out(0.0, -1.0);
    left_out(100000.0, 1.0);
    left_out(850000.0, 1.0);
    one_place(89.944, 176.6);
    allowances();
    distances(100000);
    return 0;
}

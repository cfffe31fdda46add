/* The field at a place and a day, for people. The command ./wmm builds and runs it; ./wmm --help says
 * what its words mean. Every number is worked out by the proved library, and none by a C library's
 * mathematics; the sets are the published ones, or the set of a coefficient file or a stored set, or
 * of the IGRF profile those of a table. */
#include <errno.h>
#include <stdio.h>
#include <stdlib.h>
#include <string.h>

#include "cof.h"
#include "igrf_table.h"
#include "njerumoy_published.h"
#include "stored_file.h"

static const char USAGE[] =
    "usage: ./wmm [--cof FILE | --set FILE | --igrf FILE] LAT LON HEIGHT_M YEAR DAY\n"
    "       ./wmm --store FILE --cof FILE                   (./wmm --help says more)\n";

static const char *const WORDS[] = {
    "an answer",
    "the height is not from -1 to 850 km",
    "the latitude is no latitude",
    "the longitude is no longitude",
    "that year has no such day",
    "no model serves that day: the models serve from day 1 of 2020 to day 365 of 2029",
    "a list of coefficients is not 90 long, nor 104 where that is taken",
    "a coefficient is not finite or is too large",
    "the set of coefficients belongs to another epoch than the day",
    "the colatitude is no colatitude",
    "the radius ratio is not from 0.875 to 1.015625",
    "the offset is not from 0 to 5 years",
    "a number cannot be used: not finite, or out of range",
    "a line of the coefficient file is not what the file has there",
    "a line of the coefficient file is out of order or missing",
    "the list of error records has none of the epoch year",
    "the angle is not finite, or not from -180 to 180 degrees",
    "a tag of the stored set is not the one that is due",
    "a length in the stored set is not that of its field",
    "the stored set is cut short, or bytes are left over",
    "there is no room for the stored set, or its epoch year is not from 0 to 65535",
    "there is no yearly change, since H is zero",
    "a yearly rate of a degree above 8 is not zero",
    [NJERUMOY_DEGREE] = "some lists of coefficients are 90 long, the others 104",
};

/* What is asked: degrees, metres, and a day. */
struct question {
    float lat, lon, height;
    int32_t year, day;
};

/* What is printed. `changing` says whether there are rates, and `with_errors` whether error figures. */
struct shown {
    float xyz[3], errors[8], allowances[3], rates[7], h, f, d, d_uncertainty, i, variation;
    uint32_t zone, given;
    int32_t years[2];
    int near_pole, changing, with_errors;
};

static int read_float(const char *word, float *number) {
    char *end;
    *number = strtof(word, &end);
    return end != word && *end == '\0';
}

/* A number that no int32_t holds is none. */
static int read_whole(const char *word, int32_t *number) {
    char *end;
    errno = 0;
    const long long wide = strtoll(word, &end, 10);
    if (end == word || *end != '\0' || errno != 0 || wide < INT32_MIN || INT32_MAX < wide) return 0;
    *number = (int32_t)wide;
    return 1;
}

static int read_question(char **words, struct question *q) {
    return read_float(words[0], &q->lat) && read_float(words[1], &q->lon) &&
           read_float(words[2], &q->height) && read_whole(words[3], &q->year) &&
           read_whole(words[4], &q->day);
}

/* The epoch year of the day, or 0 where it has none. */
static int32_t epoch_of(const struct question *q) {
    int32_t epoch_year = 0;
    float offset;
    njerumoy_epoch(q->year, q->day, &epoch_year, &offset);
    return epoch_year;
}

/* The published set of the day's epoch. Where the day has none, the set does not matter: Field's own
 * refusal of the day comes before it looks at the set. */
static struct njerumoy_set published_set(const struct question *q) {
    return epoch_of(q) == NJERUMOY_WMM2020.epoch_year ? NJERUMOY_WMM2020 : NJERUMOY_WMM2025;
}

/* Whether orders 2 and above are left out at this place. Field itself is asked, with a set of one
 * number, g of degree 2 and order 2: the field of that is zero exactly where order 2 is left out. It
 * is the place alone that decides, so the day can be any. */
static int near_pole(const struct question *q) {
    static const float none[NJERUMOY_LIST_LENGTH], one[NJERUMOY_LIST_LENGTH] = {[4] = 1.0f};
    struct njerumoy_set order_2 = NJERUMOY_WMM2025;
    float xyz[3] = {0.0f, 0.0f, 0.0f}, errors[8];
    size_t entry[2];
    int32_t years[2];

    order_2.g = one;
    order_2.h = order_2.g_dot = order_2.h_dot = none;
    njerumoy_field_in_degrees_with(&order_2, q->height, q->lat, q->lon, order_2.epoch_year, 1, xyz,
                                   errors, entry, years);
    return xyz[0] == 0.0f && xyz[1] == 0.0f && xyz[2] == 0.0f;
}

/* The allowance, the rates and the profile take the latitude and the longitude as pairs. */
static uint32_t place_at(const struct question *q, struct njerumoy_place *place) {
    place->height = q->height;
    const uint32_t refusal = njerumoy_sine_and_cosine_into(&place->latitude, q->lat);
    return refusal != 0 ? refusal : njerumoy_sine_and_cosine_into(&place->longitude, q->lon);
}

/* Where there is no yearly change, the field is shown without one. `refusal` is what the rates said. */
static uint32_t changing(struct shown *s, uint32_t refusal) {
    s->changing = refusal == 0;
    return refusal == NJERUMOY_ZERO_DIVISOR ? 0 : refusal;
}

static uint32_t field_at(const struct question *q, const struct njerumoy_set *set, struct shown *s) {
    struct njerumoy_place place;
    size_t entry[2];

    uint32_t refusal = njerumoy_field_in_degrees_with(set, q->height, q->lat, q->lon, q->year, q->day,
                                                      s->xyz, s->errors, entry, s->years);
    if (refusal == 0) refusal = place_at(q, &place);
    if (refusal == 0) {
        refusal =
            njerumoy_allowance_with(set, place, q->year, q->day, s->allowances, entry, s->years);
    }
    if (refusal == 0) {
        refusal = changing(
            s, njerumoy_rates_with(set, place, q->year, q->day, s->rates, entry, s->years));
    }
    if (refusal == 0) {
        refusal = njerumoy_declination_uncertainty_with(set, s->xyz, &s->d_uncertainty);
    }
    s->with_errors = 1;
    return refusal;
}

/* What follows from X, Y and Z and the place. */
static uint32_t strengths(const struct question *q, struct shown *s) {
    const float x = s->xyz[0], y = s->xyz[1], z = s->xyz[2];
    uint32_t refusal = njerumoy_horizontal(x, y, z, &s->h);
    if (refusal == 0) refusal = njerumoy_total(x, y, z, &s->f);
    if (refusal == 0) refusal = njerumoy_zone(x, y, z, &s->zone);
    if (refusal == 0) refusal = njerumoy_field_declination(x, y, z, &s->d);
    if (refusal == 0) refusal = njerumoy_inclination(x, y, z, &s->i);
    if (refusal == 0) {
        refusal = njerumoy_grid_variation(q->lat, q->lon, s->d, &s->given, &s->variation);
    }
    s->near_pole = near_pole(q);
    return refusal;
}

/* Two digits after the point, upward: what is printed is still a bound. The product is exact, and the
 * cast cuts off what is behind its point. */
static double upward(float bound) {
    const double hundredths = (double)bound * 100.0;
    const int64_t below = (int64_t)hundredths;
    return (double)(below + ((double)below < hundredths)) / 100.0;
}

/* Two digits after the point would show what is next to due south as -180.00, a second name for it. */
static double one_south(float variation) {
    const double deg = (double)variation;
    return deg < -179.995 ? deg + 360.0 : deg;
}

/* A row: what is shown, its uncertainty and its yearly change, where there are such. The uncertainty is
 * given its room only where something follows. The unit of a strength is a letter shorter than that of
 * an angle: without uncertainties its change has one more place, and all changes end alike. */
static void print_strength(const struct shown *s, char name, float strength, int error, int rate) {
    printf("%c  %9.1f nT", name, (double)strength);
    if (s->with_errors) printf("  +- %*.0f", s->changing ? -6 : 0, (double)s->errors[error]);
    if (s->changing) printf(" %+*.1f nT/yr", s->with_errors ? 8 : 9, (double)s->rates[rate]);
    putchar('\n');
}

/* The change of an angle has a digit more than the angle: five years of it, as long as a set serves,
 * are then still right to the angle's last digit. */
static void print_angle(const struct shown *s, char name, float angle, float uncertainty, int rate) {
    printf("%c  %9.2f deg", name, (double)angle);
    if (s->with_errors) printf(" +- %*.2f", s->changing ? -6 : 0, (double)uncertainty);
    if (s->changing) printf(" %+8.3f deg/yr", (double)s->rates[rate]);
    putchar('\n');
}

static void print_rows(const struct shown *s) {
    print_strength(s, 'X', s->xyz[0], NJERUMOY_ERROR_X, NJERUMOY_RATE_X);
    print_strength(s, 'Y', s->xyz[1], NJERUMOY_ERROR_Y, NJERUMOY_RATE_Y);
    print_strength(s, 'Z', s->xyz[2], NJERUMOY_ERROR_Z, NJERUMOY_RATE_Z);
    print_strength(s, 'H', s->h, NJERUMOY_ERROR_H, NJERUMOY_RATE_H);
    print_strength(s, 'F', s->f, NJERUMOY_ERROR_F, NJERUMOY_RATE_F);
    print_angle(s, 'D', s->d, s->d_uncertainty, NJERUMOY_RATE_DECLINATION);
    print_angle(s, 'I', s->i, s->errors[NJERUMOY_ERROR_INCLINATION], NJERUMOY_RATE_INCLINATION);
    if (!s->changing) {
        printf("rates  refusal %d: %s\n", NJERUMOY_ZERO_DIVISOR, WORDS[NJERUMOY_ZERO_DIVISOR]);
    }
}

static void print_zone(const struct shown *s) {
    const char *const zones[] = {"none", "blackout", "caution"};
    printf("zone   %s\n", zones[s->zone]);
    if (s->given) printf("grid   %.2f deg\n", one_south(s->variation));
}

static void print_sums(const struct shown *s) {
    printf("sums   X, Y, Z within %.2f, %.2f, %.2f nT of the exact sums\n", upward(s->allowances[0]),
           upward(s->allowances[1]), upward(s->allowances[2]));
}

static void print(const struct njerumoy_set *set, const struct shown *s) {
    print_rows(s);
    print_zone(s);
    printf("epoch  %d\n", (int)set->epoch_year);
    print_sums(s);
    if (s->near_pole) {
        puts("pole   orders 2 and above are left out this near to it: up to 11 nT more in X and Y");
    }
}

/* Refusal 5 is of the day or of the set: a day that has an epoch is not what was refused. */
static void print_refusal(uint32_t refusal, const struct question *q, const struct njerumoy_set *set,
                          const struct shown *s) {
    printf("refusal %u: ", (unsigned)refusal);
    if (refusal == NJERUMOY_EPOCH_YEAR && epoch_of(q) != 0) {
        printf("no model has the epoch year of these coefficients, %d: there are 2020 and 2025\n",
               (int)set->epoch_year);
    } else if (refusal == NJERUMOY_OTHER_EPOCH) {
        printf("the day belongs to the epoch %d, and these coefficients to the epoch %d\n",
               (int)s->years[0], (int)s->years[1]);
    } else {
        puts(WORDS[refusal]);
    }
}

/* The exit status. */
static int answer(const struct question *q, const struct njerumoy_set *set) {
    struct shown s;
    uint32_t refusal = field_at(q, set, &s);
    if (refusal == 0) refusal = strengths(q, &s);
    if (refusal != 0) {
        print_refusal(refusal, q, set, &s);
        return 1;
    }
    print(set, &s);
    return 0;
}

/* ---- the IGRF profile */

static uint32_t profile_at(const struct question *q, const struct igrf_sets *sets, struct shown *s,
                           size_t entry[2]) {
    const struct njerumoy_set first = lent_of_table(sets, &sets->first);
    const struct njerumoy_set second = lent_of_table(sets, &sets->second);
    struct njerumoy_place place;
    uint32_t refusal = place_at(q, &place);
    if (refusal == 0) {
        refusal = njerumoy_igrf_with(&first, &second, place, q->year, q->day, s->xyz, entry, s->years);
    }
    if (refusal == 0) {
        refusal = njerumoy_igrf_allowance_with(&first, &second, place, q->year, q->day,
                                               s->allowances, entry, s->years);
    }
    if (refusal != 0) return refusal;
    return changing(s, njerumoy_igrf_rates_with(&first, &second, place, q->year, q->day, s->rates,
                                                entry, s->years));
}

static void print_profile(const struct igrf_sets *sets, const struct shown *s) {
    const int degree = sets->length == NJERUMOY_LIST_LENGTH ? 12 : 13;
    print_rows(s);
    print_zone(s);
    printf("sets   %d and ", (int)sets->first.epoch_year);
    if (has_rates(sets)) {
        printf("its yearly rates");
    } else {
        printf("%d", (int)sets->second.epoch_year);
    }
    printf(", degree %d\n", degree);
    print_sums(s);
    if (s->near_pole) puts("pole   orders 2 and above are left out this near to it");
}

/* Lists 4 and 5 are g and h of the second set. */
static void print_profile_refusal(uint32_t refusal, const struct igrf_sets *sets,
                                  const size_t entry[2]) {
    printf("refusal %u: ", (unsigned)refusal);
    if (refusal == NJERUMOY_EPOCH_YEAR) {
        puts("no set serves that day: IGRF serves from day 1 of 2000 to day 365 of 2029");
    } else if (refusal == NJERUMOY_COEFFICIENT) {
        const int second = entry[0] > 3;
        const size_t own[2] = {second ? entry[0] - 4 : entry[0], entry[1]};
        printf("the set of %d has too much ",
               (int)(second ? sets->second.epoch_year : sets->first.epoch_year));
        show_cap(own);
        putchar('\n');
    } else {
        puts(WORDS[refusal]);
    }
}

/* The exit status. The library is asked twice. At first with lists of no length: what it then refuses
 * by another number than theirs, no table can answer, and none is read. */
static int answer_by_table(const struct question *q, const char *path) {
    static struct igrf_sets sets;
    struct shown s = {.changing = 0, .with_errors = 0};
    size_t entry[2];
    uint32_t refusal = profile_at(q, &sets, &s, entry);
    if (refusal == NJERUMOY_LENGTH) {
        const int status = read_igrf_table(path, q->year, &sets);
        if (status != 0) return status;
        refusal = profile_at(q, &sets, &s, entry);
    }
    if (refusal == 0) refusal = strengths(q, &s);
    if (refusal != 0) {
        print_profile_refusal(refusal, &sets, entry);
        return 1;
    }
    print_profile(&sets, &s);
    return 0;
}

/* ---- the words of the command */

static int usage(void) {
    fputs(USAGE, stderr);
    return 2;
}

/* The two options in either order. The output is not touched before the set is there. */
static int store(char **words) {
    const int first = strcmp(words[0], "--store") == 0;
    char **const to = first ? words : words + 2, **const from = first ? words + 2 : words;
    struct njerumoy_owned_set own;

    if (strcmp(to[0], "--store") != 0 || strcmp(from[0], "--cof") != 0) return usage();
    const int status = read_cof_file(from[1], &own);
    return status != 0 ? status : write_stored_file(to[1], &own);
}

typedef int reader(const char *path, struct njerumoy_owned_set *set);

/* How the file of an option is read; NULL where the word is no such option. */
static reader *reader_of(const char *word) {
    if (strcmp(word, "--cof") == 0) return read_cof_file;
    if (strcmp(word, "--set") == 0) return read_stored_file;
    return NULL;
}

int main(int count, char **words) {
    const int by_table = count == 8 && strcmp(words[1], "--igrf") == 0;
    reader *const of_file = count == 8 ? reader_of(words[1]) : NULL;
    struct njerumoy_owned_set own;
    struct njerumoy_set set;
    struct question q;

    if (count == 5) return store(words + 1);
    if (count != (by_table || of_file != NULL ? 8 : 6)) return usage();
    if (!read_question(words + count - 5, &q)) return usage();
    if (by_table) return answer_by_table(&q, words[2]);
    if (of_file == NULL) {
        set = published_set(&q);
    } else {
        const int status = of_file(words[2], &own);
        if (status != 0) return status;
        set = njerumoy_lent(&own);
    }
    return answer(&q, &set);
}

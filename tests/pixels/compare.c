/* Document 01, "What a pixel goes through", written again in C from its sentences, and compared bit for bit with the proved code
   on random pixels: subnormal, minus zero, huge, tiny, infinite and NaN values among them. All NaN count as one.
   Build with -O2 -ffp-contract=off and link libpixel_export.a; compare.sh does both. With the argument "speed" it measures instead. */
#include <math.h>
#include <stdbool.h>
#include <stdint.h>
#include <stdio.h>
#include <stdlib.h>
#include <string.h>
#include <time.h>
#include "random.h"

/* ---- the proved code: a slice is a pointer and a length */
void rt_range(double *, size_t, double, double, double, double, bool);
void rt_matrix(double *, size_t, const double *, size_t, bool);
void rt_cdl(double *, size_t, const double *, size_t, bool, double, double);
void rt_lut1d(double *, size_t, const int64_t *, size_t, const int8_t *, size_t, size_t, size_t, size_t, double);
size_t rt_first_not_finite(const double *, size_t);

/* ---- the paper again */
static double hold(double x, double lo, double hi) {
    return x > hi ? hi : x > lo ? x : lo;
}

static double fraction(double x, double scale) {
    return scale == 1 ? x : x / scale;
}

static void c_range(double *p, size_t n, double min_in, double max_in, double min_out, double max_out, bool clamp) {
    for (size_t i = 0; i < n / 3 * 3; i++) {
        double s = (max_out - min_out) / (max_in - min_in);
        double out = p[i] * s + (min_out - min_in * s);
        p[i] = clamp ? hold(out, min_out, max_out) : out;
    }
}

static void c_matrix(double *p, size_t n, const double *m, bool wide) {
    for (size_t i = 0; i + 3 <= n; i += 3) {
        double out[3];
        for (int j = 0; j < 3; j++) {
            out[j] = p[i] * m[4 * j] + p[i + 1] * m[4 * j + 1];
            out[j] = out[j] + p[i + 2] * m[4 * j + 2];
            if (wide) out[j] = out[j] + m[4 * j + 3];
        }
        memcpy(p + i, out, sizeof out);
    }
}

static void c_cdl(double *p, size_t n, const double *m, bool clamp, double in_scale, double out_scale) {
    double sat = m[9];
    for (size_t i = 0; i + 3 <= n; i += 3) {
        double x[3];
        for (int j = 0; j < 3; j++) {
            x[j] = fraction(p[i + j], in_scale) * m[j] + m[3 + j];
            if (clamp) x[j] = hold(x[j], 0, 1);
        }
        if (sat != 1) {
            double luma = 0.2126 * x[0] + 0.7152 * x[1] + 0.0722 * x[2];
            for (int j = 0; j < 3; j++) {
                x[j] = luma + sat * (x[j] - luma);
                if (clamp) x[j] = hold(x[j], 0, 1);
            }
        }
        for (int j = 0; j < 3; j++) p[i + j] = out_scale == 1 ? x[j] : x[j] * out_scale;
    }
}

/* the f64 of a number: coefficient and power are small enough that it is the nearest, which strtod gives */
static double number(int64_t coefficient, int8_t power) {
    char text[64];
    snprintf(text, sizeof text, "%llde%d", (long long)coefficient, power);
    return strtod(text, 0);
}

/* e: the table's f64, entry by entry */
static void c_lut1d(double *p, size_t len, const double *e, size_t n, size_t columns, double in_scale) {
    for (size_t k = 0; k < len / 3 * 3; k++) {
        size_t column = columns == 3 ? k % 3 : 0;
        double place = hold(fraction(p[k], in_scale), 0, 1) * (double)(n - 1);
        size_t lo = 0, hi = n - 1; /* the largest index with (double)index <= place, by halving */
        while (lo < hi) {
            size_t mid = (lo + hi + 1) / 2;
            if ((double)mid <= place) lo = mid;
            else hi = mid - 1;
        }
        double f = place - (double)lo, a = e[lo * columns + column];
        if (lo == n - 1 || f == 0) {
            p[k] = a;
            continue;
        }
        double b = e[(lo + 1) * columns + column];
        double y = a + f * (b - a);
        p[k] = hold(y, fmin(a, b), fmax(a, b));
    }
}

/* ---- random values */

static double value(double scale) {
    switch (rnd() % 16) {
    case 0: return bits(rnd());                                      /* any pattern, NaN and infinities too */
    case 1: return bits(rnd() & 0x800fffffffffffffu);                /* subnormal */
    case 2: return rnd() % 2 ? 0.0 : -0.0;
    case 3: return (rnd() % 2 ? 1 : -1) * 1e308 * unit();
    case 4: return (rnd() % 2 ? 1 : -1) * 1e-308 * unit();
    case 5: return (double)(rnd() % 66000);                          /* a whole code value */
    case 6: return scale * (double)(rnd() % 65) / 64;                /* an exact part of full scale */
    case 7: return nextafter(scale * (double)(rnd() % 5) / 4, rnd() % 2 ? 1e9 : -1e9);
    case 8: return (unit() - 0.5) * 1e6;
    default: return scale * (unit() * 1.6 - 0.3);
    }
}
static double parameter(void) {
    switch (rnd() % 6) {
    case 0: return 0;
    case 1: return 1;
    case 2: return (double)(int64_t)(rnd() % 2001) - 1000;
    case 3: return value(1);
    default: return (unit() - 0.4) * 4;
    }
}
static const double scales[6] = {255, 1023, 4095, 65535, 1, 1};

/* ---- comparison */
enum { PIXELS = 5000, LENGTH = 3 * PIXELS };
static double in[LENGTH + 2], got[LENGTH + 2], want[LENGTH + 2];
static unsigned long compared, differing;

static size_t fill(double scale) {
    size_t n = LENGTH + rnd() % 3; /* one or two components left over stay as they are */
    for (size_t i = 0; i < n; i++) in[i] = value(scale);
    memcpy(got, in, n * 8);
    memcpy(want, in, n * 8);
    return n;
}
static void check(const char *what, size_t n) {
    for (size_t i = 0; i < n; i++) {
        compared++;
        if (memcmp(&got[i], &want[i], 8) && !(isnan(got[i]) && isnan(want[i]))) {
            if (differing++ < 10) printf("%s differs at %zu: %a gives %a, want %a\n", what, i, in[i], got[i], want[i]);
        }
    }
}

static int64_t coefficients[200000];
static int8_t powers[200000];
static double entries[200000];

static void try_lut1d(void) {
    size_t most = rnd() % 4 ? 70 : 65537, n = 2 + rnd() % (most - 1), columns = rnd() % 2 ? 1 : 3, at = rnd() % 100;
    if (n > 65536) n = 65536;
    size_t room = at + n * columns + rnd() % 3, kind = rnd() % 3;
    if (room > 200000) room = 200000;
    double scale = scales[rnd() % 6];
    for (size_t i = 0; i < room; i++) {
        coefficients[i] = kind == 0 ? (int64_t)(rnd() % 1999999999999999u) - 999999999999999 : kind == 1 ? (int64_t)(i * 37 % 100000) : (int64_t)(rnd() % 2001) - 1000;
        powers[i] = kind == 0 ? (int8_t)((int)(rnd() % 45) - 22) : kind == 1 ? -5 : (int8_t)(rnd() % 7) - 3;
    }
    for (size_t i = 0; i < n * columns; i++) entries[i] = number(coefficients[at + i], powers[at + i]);
    size_t len = fill(scale);
    rt_lut1d(got, len, coefficients, room, powers, room, at, n, columns, scale);
    c_lut1d(want, len, entries, n, columns, scale);
    check("LUT1D", len);
}

/* a table that is not one, or that the room does not hold, changes nothing */
static void try_no_table(void) {
    static const size_t odd[] = {0, 1, 2, 4, 65537, SIZE_MAX, SIZE_MAX / 3 + 1};
    size_t n = odd[rnd() % 7], columns = rnd() % 5, at = odd[rnd() % 7], room = rnd() % 12, shorter = rnd() % 12;
    size_t length = room < shorter ? room : shorter;
    if (n >= 2 && n <= 65536 && (columns == 1 || columns == 3) && at <= length && n * columns <= length - at) return;
    size_t len = fill(1);
    rt_lut1d(got, len, coefficients, room, powers, shorter, at, n, columns, 1);
    check("no LUT1D", len);
}

static void try_first(void) {
    size_t n = rnd() % 40, first = n;
    for (size_t i = 0; i < n; i++) in[i] = rnd() % 20 ? value(1) : rnd() % 2 ? NAN : -INFINITY;
    for (size_t i = n; i-- > 0;)
        if (!isfinite(in[i])) first = i;
    compared++;
    if (rt_first_not_finite(in, n) != first) differing++, printf("first not finite differs\n");
}

static void report(const char *what) {
    printf("%-12s %9lu values compared, %lu differ\n", what, compared, differing);
    compared = 0;
}

/* ---- speed, one core, a million pixels, best of nine */
static double clock_now(void) {
    struct timespec t;
    clock_gettime(CLOCK_MONOTONIC, &t);
    return t.tv_sec + 1e-9 * t.tv_nsec;
}
static void speed(void) {
    size_t count = 1000000, n = 3 * count;
    double *a = malloc(n * 8), *o = malloc(n * 8);
    static const double m[12] = {0.9, 0.05, 0.05, 0.01, 0.02, 0.95, 0.03, -0.01, 0.01, 0.02, 0.97, 0.0};
    double cdl[10] = {1.1, 1.0, 0.9, -0.02, 0.01, 0.0, 1, 1, 1, 1};
    for (size_t i = 0; i < n; i++) o[i] = unit() * 1.4 - 0.2;
    for (size_t i = 0; i < 3 * 4096; i++) coefficients[i] = (int64_t)(i * 20345052083.0), powers[i] = -14;
    static const char *names[] = {"Range Clamp", "Range noClamp", "Matrix 3x3", "Matrix 3x4", "ASC_CDL 32f sat 1", "ASC_CDL 32f sat .8", "ASC_CDL 10i sat 1", "ASC_CDL 10i sat .8", "LUT1D 4096x1 32f", "LUT1D 4096x3 32f", "LUT1D 4096x3 10i"};
    for (int t = 0; t < 11; t++) {
        double best = 1e9, scale = t == 6 || t == 7 || t == 10 ? 1023 : 1;
        cdl[9] = t % 2 ? 0.8 : 1;
        for (int k = 0; k < 9; k++) {
            for (size_t i = 0; i < n; i++) a[i] = o[i] * scale;
            double start = clock_now();
            if (t < 2) rt_range(a, n, 0, 1, 0, 0.5, t == 0);
            else if (t < 4) rt_matrix(a, n, m, 12, t == 3);
            else if (t < 8) rt_cdl(a, n, cdl, 10, true, scale, scale);
            else rt_lut1d(a, n, coefficients, 3 * 4096, powers, 3 * 4096, 0, 4096, t == 8 ? 1 : 3, scale);
            double took = clock_now() - start;
            if (took < best) best = took;
        }
        printf("%-20s %6.1f million pixels/s\n", names[t], count / best / 1e6);
    }
}

int main(int argc, char **argv) {
    if (argc > 1 && !strcmp(argv[1], "speed")) {
        speed();
        return 0;
    }
    for (int k = 0; k < 210; k++) {
        double p[4];
        for (int j = 0; j < 4; j++) p[j] = parameter();
        bool clamp = rnd() % 2;
        size_t n = fill(scales[rnd() % 6]);
        rt_range(got, n, p[0], p[1], p[2], p[3], clamp);
        c_range(want, n, p[0], p[1], p[2], p[3], clamp);
        check("Range", n);
    }
    report("Range");
    for (int k = 0; k < 210; k++) {
        double m[12];
        for (int j = 0; j < 12; j++) m[j] = parameter();
        bool wide = rnd() % 2;
        size_t n = fill(scales[rnd() % 6]);
        rt_matrix(got, n, m, 12, wide);
        c_matrix(want, n, m, wide);
        check("Matrix", n);
    }
    report("Matrix");
    for (int k = 0; k < 210; k++) {
        double m[10];
        for (int j = 0; j < 10; j++) m[j] = parameter();
        if (rnd() % 3 == 0) m[9] = 1;
        bool clamp = rnd() % 2;
        double in_scale = scales[rnd() % 6], out_scale = scales[rnd() % 6];
        size_t n = fill(in_scale);
        rt_cdl(got, n, m, 10, clamp, in_scale, out_scale);
        c_cdl(want, n, m, clamp, in_scale, out_scale);
        check("ASC_CDL", n);
    }
    report("ASC_CDL");
    for (int k = 0; k < 210; k++) try_lut1d();
    report("LUT1D");
    for (int k = 0; k < 210; k++) try_no_table();
    report("no table");
    for (int k = 0; k < 100000; k++) try_first();
    report("not finite");
    return differing != 0;
}

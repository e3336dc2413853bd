/* LUT3D (document 02, W-201), written again in C from its sentences, and compared bit for bit with the proved code.

     cube                        a million pixels for each size and method through clf_apply (needs the archive target/staticlib/libclf_c.a)
     cube lines LINES ANSWERS    writes protocol lines (PROTOCOL.md) to the file LINES, an R and an X for each cube, and the answers that the
                                 X lines are to get to the file ANSWERS: so any program that speaks the protocol can be compared

   Build with -O2 -ffp-contract=off; -DNO_ARCHIVE leaves the first out. cube.sh does all of it. Components are finite, since 15 refuses others:
   outside the scale, huge, tiny, subnormal, minus zero, on the grid, next to it, and with equal remainders. */
#ifndef NO_ARCHIVE
#include "../../capi/clf.h"
#endif

#include <math.h>
#include <stdarg.h>
#include <stdbool.h>
#include <stdint.h>
#include <stdio.h>
#include <stdlib.h>
#include <string.h>
#include "random.h"

/* ---- the paper again */
enum { RED, GREEN, BLUE };

/* n entries along each axis, three numbers an entry, blue fastest, red slowest */
struct cube {
    size_t n;
    bool tetrahedral;
    double in_scale;
    double *e;
};

/* where a component stands on its axis: index and remainder */
struct spot {
    size_t i;
    double f;
};

static double hold(double x, double lo, double hi) { return x > hi ? hi : x > lo ? x : lo; }

/* 'Axes get fraction, position and index as LUT1D does' */
static struct spot spot_of(const struct cube *c, double x) {
    double fraction = hold(c->in_scale == 1 ? x : x / c->in_scale, 0, 1);
    double p = fraction * (double)(c->n - 1);
    struct spot s = {0, 0};
    while (s.i + 1 < c->n && (double)(s.i + 1) <= p) s.i++;
    s.f = p - (double)s.i;
    return s;
}

static double entry(const struct cube *c, size_t r, size_t g, size_t b, int component) {
    return c->e[3 * (b + c->n * (g + c->n * r)) + (size_t)component];
}

/* LUT1D's step between two entries, with its hold */
static double step(double e, double e2, double f) {
    double y = f * (e2 - e);
    y = e + y;
    return e < e2 ? hold(y, e, e2) : hold(y, e2, e);
}

static bool whole(const struct cube *c, struct spot s) { return s.i == c->n - 1 || s.f == 0; }

/* 'Trilinear works along blue, then green, then red' */
static double along_blue(const struct cube *c, size_t r, size_t g, struct spot b, int k) {
    double e = entry(c, r, g, b.i, k);
    return whole(c, b) ? e : step(e, entry(c, r, g, b.i + 1, k), b.f);
}
static double along_green(const struct cube *c, size_t r, struct spot g, struct spot b, int k) {
    double e = along_blue(c, r, g.i, b, k);
    return whole(c, g) ? e : step(e, along_blue(c, r, g.i + 1, b, k), g.f);
}
static double along_red(const struct cube *c, struct spot r, struct spot g, struct spot b, int k) {
    double e = along_green(c, r.i, g, b, k);
    return whole(c, r) ? e : step(e, along_green(c, r.i + 1, g, b, k), r.f);
}

/* 'takes the axes by falling remainder f, ties red, green, blue' */
static void order(double r, double g, double b, int axes[3]) {
    static const int all[6][3] = {{RED, GREEN, BLUE}, {RED, BLUE, GREEN}, {BLUE, RED, GREEN}, {GREEN, RED, BLUE}, {GREEN, BLUE, RED}, {BLUE, GREEN, RED}};
    int which;
    if (r >= g) which = g >= b ? 0 : r >= b ? 1 : 2;
    else which = r >= b ? 3 : g >= b ? 4 : 5;
    memcpy(axes, all[which], sizeof all[which]);
}

/* 'c0 + f1·(c1 − c0) + f2·(c2 − c1) + f3·(c3 − c2), left to right. A term whose f is 0 is left out with its corner. The sum is held between
   the smallest and largest of the corners used.' */
static double tetrahedral(const struct cube *c, const struct spot s[3], const int axes[3], int k) {
    size_t at[3] = {s[RED].i, s[GREEN].i, s[BLUE].i};
    double corner[4], sum, lo, hi;
    int used = 1;
    corner[0] = sum = entry(c, at[RED], at[GREEN], at[BLUE], k);
    for (int j = 0; j < 3; j++) {
        double f = s[axes[j]].f, term;
        if (f == 0) continue;
        at[axes[j]]++;
        corner[used] = entry(c, at[RED], at[GREEN], at[BLUE], k);
        term = f * (corner[used] - corner[used - 1]);
        sum = sum + term;
        used++;
    }
    lo = hi = corner[0];
    for (int j = 1; j < used; j++) {
        if (corner[j] < lo) lo = corner[j];
        if (corner[j] > hi) hi = corner[j];
    }
    return hold(sum, lo, hi);
}

static void c_lut3d(const struct cube *c, double *p, size_t components) {
    for (size_t i = 0; i + 3 <= components; i += 3) {
        struct spot s[3];
        double out[3];
        int axes[3];
        for (int k = 0; k < 3; k++) s[k] = spot_of(c, p[i + (size_t)k]);
        order(s[RED].f, s[GREEN].f, s[BLUE].f, axes);
        for (int k = 0; k < 3; k++) out[k] = c->tetrahedral ? tetrahedral(c, s, axes, k) : along_red(c, s[RED], s[GREEN], s[BLUE], k);
        memcpy(p + i, out, sizeof out);
    }
}

/* ---- random values */
static double sign(void) { return rnd() % 2 ? 1 : -1; }

static double component(size_t n, double scale) {
    double x;
    switch (rnd() % 16) {
    case 0: x = bits(rnd()); return isfinite(x) ? x : scale;                              /* any finite pattern */
    case 1: return bits(rnd() & 0x800fffffffffffffu);                                     /* subnormal */
    case 2: return rnd() % 2 ? 0.0 : -0.0;
    case 3: return sign() * 1e308 * unit();
    case 4: return sign() * 1e-300 * unit();
    case 5: return (double)(rnd() % 66000);                                               /* a whole code value */
    case 6: return scale * (double)(rnd() % n) / (double)(n - 1);                         /* on the grid */
    case 7: return nextafter(scale * (double)(rnd() % n) / (double)(n - 1), sign() * 1e9); /* next to it */
    case 8: return scale * ((double)(rnd() % (64 * (n - 1) + 1)) / 64) / (double)(n - 1); /* a remainder that others have too */
    case 9: return scale * (unit() * 4 - 1.5);
    default: return scale * unit();
    }
}

/* a pixel: components of their own, or two or all three with the same remainder */
static void pixel(size_t n, double scale, double *p) {
    double f, steps = (double)(n - 1);
    int odd;
    for (int k = 0; k < 3; k++) p[k] = component(n, scale);
    switch (rnd() % 8) {
    case 0: p[1] = p[2] = p[0]; return;                                   /* a grey */
    case 1: p[rnd() % 3] = p[rnd() % 3]; return;                          /* two alike */
    case 2:                                                              /* one remainder on several axes, of 53 bits or of few */
        f = rnd() % 2 ? unit() : (double)(rnd() % 32) / 32;
        odd = (int)(rnd() % 6);
        for (int k = 0; k < 3; k++)
            if (k != odd) p[k] = scale * (((double)(rnd() % (n - 1)) + f) / steps);
        return;
    case 3: p[rnd() % 3] = scale * (double)(rnd() % n) / steps; return;   /* one on the grid: a remainder of 0 */
    case 4:                                                              /* remainders next to 1, and 0: where the sum of the tetrahedral can step past its corners */
        for (int k = 0; k < 3; k++) p[k] = scale * (((double)(rnd() % 2 ? 1 : 1 + rnd() % (n - 1)) * (rnd() % 3 ? 1 - (double)(1 + rnd() % 4) * 0x1p-53 : 1)) / steps);
        return;
    default: return;
    }
}

/* ---- a cube as a file */
static const struct { const char *name; double scale; } depths[6] = {{"8i", 255}, {"10i", 1023}, {"12i", 4095}, {"16i", 65535}, {"16f", 1}, {"32f", 1}};

enum { MOST_N = 33, MOST_NUMBERS = 3 * MOST_N * MOST_N * MOST_N, MOST_TEXT = 40 * MOST_NUMBERS, WILD = 0, KINDS = 5 };
static double entries[MOST_NUMBERS];
#include "text.h"

/* one number as text, and its f64: the nearest to the decimal, which strtod gives */
static double number(int kind, size_t i, size_t numbers) {
    const size_t start = length;
    switch (kind) {
    case WILD: put("%llde%d", ((long long)(rnd() % 1999999999999999u) - 999999999999999) | 1, (int)(rnd() % 45) - 22); break; /* of all sizes; no last 0, which would move the power */
    case 1: put("%zue-5", i * 99999 / numbers); break; /* rising */
    case 2: put("%de%d", (int)(rnd() % 2001) - 1000, (int)(rnd() % 7) - 3); break;
    case 3: put("%de-1", (int)(rnd() % 11) - 5); break; /* tenths of both signs: their sums round, and step past a corner without the hold */
    default: put("%llu", (unsigned long long)(rnd() % 2)); break;             /* many alike */
    }
    return strtod(text + start, 0);
}

/* a cube of n with entries of this kind: its file in text, its floats in entries */
static struct cube make(size_t n, bool tetra, int kind) {
    const size_t numbers = 3 * n * n * n, in = rnd() % 6, out = rnd() % 6;
    struct cube c = {n, tetra, depths[in].scale, entries};
    length = 0;
    put("<?xml version=\"1.0\" encoding=\"UTF-8\"?><ProcessList id=\"a\" compCLFversion=\"3.0\"><LUT3D inBitDepth=\"%s\" outBitDepth=\"%s\"%s>", depths[in].name, depths[out].name,
        tetra ? " interpolation=\"tetrahedral\"" : rnd() % 2 ? "" : " interpolation=\"trilinear\"");
    put("<Array dim=\"%zu %zu %zu 3\">", n, n, n);
    for (size_t i = 0; i < numbers; i++) {
        entries[i] = number(kind, i, numbers);
        put(i + 1 < numbers ? " " : "</Array></LUT3D></ProcessList>");
    }
    return c;
}

static const size_t sizes[] = {2, 17, 33};

/* ---- lines for another program */
static void lines(const char *lines_name, const char *answers_name) {
    enum { PIXELS = 900 };
    static double p[3 * PIXELS];
    FILE *l = fopen(lines_name, "w"), *a = fopen(answers_name, "w");
    unsigned long count = 0;
    if (!l || !a) exit(2);
    for (size_t s = 0; s < 3; s++)
        for (int tetra = 0; tetra < 2; tetra++)
            for (int kind = sizes[s] == 33 ? 1 : 0; kind < KINDS; kind++) { /* wild numbers of 33 make a longer line than our console reads */
                struct cube c = make(sizes[s], tetra, kind);
                fprintf(l, "R %zu ", 3 * c.n * c.n * c.n);
                for (size_t i = 0; i < length; i++) fprintf(l, "%02x", (unsigned char)text[i]);
                fprintf(l, "\nX");
                for (size_t i = 0; i < PIXELS; i++) pixel(c.n, c.in_scale, p + 3 * i);
                for (size_t i = 0; i < 3 * PIXELS; i++) {
                    uint64_t w;
                    memcpy(&w, p + i, 8);
                    fprintf(l, " %016llx", (unsigned long long)w);
                }
                fprintf(l, "\n");
                c_lut3d(&c, p, 3 * PIXELS);
                fprintf(a, "0 0");
                for (size_t i = 0; i < 3 * PIXELS; i++) {
                    uint64_t w;
                    memcpy(&w, p + i, 8);
                    fprintf(a, " %016llx", (unsigned long long)w);
                }
                fprintf(a, "\n");
                count += PIXELS;
            }
    if (fclose(l) || fclose(a)) exit(2);
    printf("%lu pixels\n", count);
}

/* ---- comparison with the archive */
#ifndef NO_ARCHIVE
enum { ROUNDS = 10, PICTURE = 100000 };
static double in[3 * PICTURE], got[3 * PICTURE], want[3 * PICTURE];
static int64_t coefficients[MOST_NUMBERS];
static int8_t powers[MOST_NUMBERS];

static int compare(void) {
    unsigned long differing = 0;
    for (size_t s = 0; s < 3; s++)
        for (int tetra = 0; tetra < 2; tetra++) {
            unsigned long compared = 0, changed = 0;
            for (int round = 0; round < ROUNDS; round++) {
                struct cube c = make(sizes[s], tetra, round % KINDS);
                const size_t numbers = 3 * c.n * c.n * c.n;
                for (size_t i = 0; i < PICTURE; i++) pixel(c.n, c.in_scale, in + 3 * i);
                memcpy(got, in, sizeof in);
                memcpy(want, in, sizeof in);
                const struct clf_check r = clf_apply((const uint8_t *)text, length, coefficients, numbers, powers, numbers, got, 3 * PICTURE);
                if (r.number != 0) {
                    printf("a cube of %zu is refused: %llu at %llu\n", c.n, (unsigned long long)r.number, (unsigned long long)r.place);
                    return 1;
                }
                c_lut3d(&c, want, 3 * PICTURE);
                for (size_t i = 0; i < 3 * PICTURE; i++) {
                    compared++;
                    if (memcmp(&got[i], &want[i], 8)) {
                        const size_t at = i / 3 * 3;
                        if (differing++ < 10)
                            printf("%s of %zu, component %zu: %a %a %a gives %a, want %a\n", tetra ? "tetrahedral" : "trilinear", c.n, i % 3, in[at], in[at + 1], in[at + 2], got[i], want[i]);
                    }
                    changed += got[i] != in[i];
                }
            }
            printf("%-11s n = %2zu  %9lu pixels compared, %lu values changed, %lu differ so far\n", tetra ? "tetrahedral" : "trilinear", sizes[s], compared / 3, changed, differing);
        }
    return differing != 0;
}
#endif

int main(int argc, char **argv) {
    if (argc == 4 && !strcmp(argv[1], "lines")) {
        lines(argv[2], argv[3]);
        return 0;
    }
#ifndef NO_ARCHIVE
    if (argc == 1) return compare();
#endif
    fprintf(stderr, "cube [lines LINES ANSWERS]\n");
    return 2;
}

/* A Range with one end (document 02, W-202), written again in C from its sentences, and compared bit for bit with the proved code.

     one_end                        a million pixels for each end and limit through clf_apply (needs the archive target/staticlib/libclf_c.a)
     one_end lines LINES ANSWERS    writes protocol lines (PROTOCOL.md) to the file LINES, an R and an X for each look, and the answers that the
                                    X lines are to get to the file ANSWERS: so any program that speaks the protocol can be compared

   Build with -O2 -ffp-contract=off; -DNO_ARCHIVE leaves the first out. one_end.sh does all of it. Components of a picture are finite, since 15
   refuses others; infinities and NaN arise inside, in a Matrix before the Range whose entries are large. One NaN counts as any other. What the
   Range was given is counted by its cases, and a case that never came is a failure like a difference. */
#ifndef NO_ARCHIVE
#include "../../capi/clf.h"
#endif

#include <math.h>
#include <stdarg.h>
#include <stdbool.h>
#include <stdint.h>
#include <stdio.h>
#include <stdlib.h>
#include <string.h>
#include "random.h"

/* ---- the paper again */

/* 'x beyond the limit (-0 is not beyond 0), or NaN, becomes the limit' */
static double limited(bool minimum, double limit, double x) {
    if (isnan(x)) return limit;
    if (minimum && x < limit) return limit;
    if (!minimum && x > limit) return limit;
    return x;
}

/* document 01's Matrix: three rows of three, no scaling */
static void c_matrix(const double *m, double *p) {
    double out[3];
    for (size_t j = 0; j < 3; j++) {
        out[j] = p[0] * m[3 * j] + p[1] * m[3 * j + 1];
        out[j] = out[j] + p[2] * m[3 * j + 2];
    }
    memcpy(p, out, sizeof out);
}

/* ---- a look: the Range alone, behind a Matrix, or between two */
enum { ALONE, BEHIND, BETWEEN, FORMS };
struct look {
    bool minimum;
    int form;
    double limit, before[9], behind[9];
};

/* the limits as texts, for the in value and for the out value: equal as f64, not always byte by byte */
static const char *const limits[][2] = {{"0", "0"},     {"-0", "-0.0e5"},       {"0.5", "5e-1"}, {"1023", "1.023E3"}, {"-1.5", "-15e-1"},       {"1e22", "10000000000000000000000"},
                                        {"-1e22", "-1e22"}, {"1e-22", "10e-23"}, {".1", "0.10"},  {"-1e-22", "-1e-22"}, {"999999999999999e22", "999999999999999e22"}, {"+64.", "64"}};
enum { LIMITS = sizeof limits / sizeof limits[0] };

/* what the Range was given, by its cases */
enum { BEYOND, AT, MINUS_ZERO, WITHIN, NOT_A_NUMBER, INFINITE_BEYOND, INFINITE_WITHIN, CASES };
static const char *const case_names[CASES] = {"beyond", "at the limit", "-0 at 0", "within", "NaN", "infinite beyond", "infinite within"};
static unsigned long counts[CASES];

static int case_of(const struct look *l, double x) {
    if (isnan(x)) return NOT_A_NUMBER;
    if (isinf(x)) return (x < 0) == l->minimum ? INFINITE_BEYOND : INFINITE_WITHIN;
    if (x == 0 && l->limit == 0 && signbit(x)) return MINUS_ZERO;
    if (x == l->limit) return AT;
    return (x < l->limit) == l->minimum ? BEYOND : WITHIN;
}

static void c_look(const struct look *l, double *p, size_t components) {
    for (size_t i = 0; i + 3 <= components; i += 3) {
        if (l->form != ALONE) c_matrix(l->before, p + i);
        for (size_t k = i; k < i + 3; k++) {
            counts[case_of(l, p[k])]++;
            p[k] = limited(l->minimum, l->limit, p[k]);
        }
        if (l->form == BETWEEN) c_matrix(l->behind, p + i);
    }
}

/* whether every case has come: minus zero at 0 needs a limit of 0 */
static bool all_came(const struct look *l) {
    for (int k = 0; k < CASES; k++)
        if (counts[k] == 0 && (k != MINUS_ZERO || l->limit == 0)) {
            printf("no component was %s\n", case_names[k]);
            return false;
        }
    return true;
}

/* ---- random values */
static double sign(void) { return rnd() % 2 ? 1 : -1; }

static double component(double limit) {
    double x;
    switch (rnd() % 16) {
    case 0: x = bits(rnd()); return isfinite(x) ? x : limit; /* any finite pattern */
    case 1: return bits(rnd() & 0x800fffffffffffffu);       /* subnormal */
    case 2: return 0.0;
    case 3: return -0.0;
    case 4:
    case 5: return sign() * 1e308 * unit();                 /* a Matrix of large entries makes it infinite */
    case 6: return limit;
    case 7: return -limit;
    case 8: return nextafter(limit, INFINITY);
    case 9: return nextafter(limit, -INFINITY);
    case 10: return (double)(rnd() % 66000);                /* a whole code value */
    case 11: return limit * (unit() * 4 - 1);
    case 12: return sign() * 1e-300 * unit();
    default: return unit() * 4 - 1.5;
    }
}

static void picture(const struct look *l, double *p, size_t pixels) {
    for (size_t i = 0; i < 3 * pixels; i++) p[i] = component(l->limit);
}

/* ---- a look as a file */
static const char *const depths[6] = {"8i", "10i", "12i", "16i", "16f", "32f"};
enum { MOST_TEXT = 2000 };
#include "text.h"

static void put_matrix(double *m, bool large, const char *in, const char *out) {
    static const char *const small_entries[] = {"1", "0", "0", "-1", "0.5"}, *const large_entries[] = {"1", "0", "0", "1e22", "-1e22", "999999999999999e22", "-1e21"};
    put("<Matrix inBitDepth=\"%s\" outBitDepth=\"%s\"><Array dim=\"3 3\">", in, out);
    for (size_t i = 0; i < 9; i++) {
        const char *const entry = large ? large_entries[rnd() % 7] : small_entries[rnd() % 5];
        m[i] = strtod(entry, 0);
        put("%s ", entry);
    }
    put("</Array></Matrix>");
}

/* the file in text, and what the code above needs. The depths are free: a Range with one end asks only that its two are equal, and nothing scales */
static struct look make(bool minimum, size_t which, int form) {
    const char *const end = minimum ? "min" : "max", *const d = depths[rnd() % 6];
    const bool out_first = rnd() % 2;
    struct look l = {minimum, form, strtod(limits[which][0], 0), {0}, {0}};
    if (l.limit == 0) l.limit = 0.0; /* 01: minus zero is zero */
    length = 0;
    put("<?xml version=\"1.0\" encoding=\"UTF-8\"?><ProcessList id=\"a\" compCLFversion=\"3.0\">");
    if (form != ALONE) put_matrix(l.before, true, depths[rnd() % 6], d);
    put("<Range inBitDepth=\"%s\" outBitDepth=\"%s\"%s>", d, d, rnd() % 2 ? " style=\"Clamp\"" : "");
    for (int k = 0; k < 2; k++) {
        const bool out = (k == 0) == out_first;
        const char *const name = out ? "OutValue" : "InValue";
        put("<%s%s>%s</%s%s>", end, name, limits[which][out], end, name);
    }
    put("</Range>");
    if (form == BETWEEN) put_matrix(l.behind, false, d, depths[rnd() % 6]);
    put("</ProcessList>");
    return l;
}

static size_t numbers_of(const struct look *l) { return l->form == ALONE ? 2 : l->form == BEHIND ? 11 : 20; }

/* ---- lines for another program */
static void put_words(FILE *f, const double *p, size_t count) {
    for (size_t i = 0; i < count; i++) {
        uint64_t w;
        memcpy(&w, p + i, 8);
        fprintf(f, " %016llx", isnan(p[i]) ? 0x7ff8000000000000u : (unsigned long long)w);
    }
    fprintf(f, "\n");
}

static int lines(const char *lines_name, const char *answers_name) {
    enum { PIXELS = 900 };
    static double p[3 * PIXELS];
    FILE *l = fopen(lines_name, "w"), *a = fopen(answers_name, "w");
    unsigned long count = 0;
    bool came = true;
    if (!l || !a) return 2;
    for (int minimum = 0; minimum < 2; minimum++)
        for (size_t which = 0; which < LIMITS; which++) {
            struct look look;
            memset(counts, 0, sizeof counts);
            for (int form = 0; form < FORMS; form++) {
                look = make(minimum, which, form);
                picture(&look, p, PIXELS);
                fprintf(l, "R %zu ", numbers_of(&look));
                for (size_t i = 0; i < length; i++) fprintf(l, "%02x", (unsigned char)text[i]);
                fprintf(l, "\nX");
                put_words(l, p, 3 * PIXELS);
                c_look(&look, p, 3 * PIXELS);
                fprintf(a, "0 0");
                put_words(a, p, 3 * PIXELS);
                count += PIXELS;
            }
            came = all_came(&look) && came;
        }
    if (fclose(l) || fclose(a)) return 2;
    printf("%lu pixels\n", count);
    return came ? 0 : 1;
}

/* ---- comparison with the archive */
#ifndef NO_ARCHIVE
enum { ROUNDS = 10, PICTURE = 100000 };
static double in[3 * PICTURE], got[3 * PICTURE], want[3 * PICTURE];
static int64_t coefficients[20];
static int8_t powers[20];

static bool same(double a, double b) { return memcmp(&a, &b, 8) == 0 || (isnan(a) && isnan(b)); }

static int compare(void) {
    unsigned long differing = 0;
    bool came = true;
    for (int minimum = 1; minimum >= 0; minimum--)
        for (size_t which = 0; which < LIMITS; which++) {
            unsigned long compared = 0;
            struct look l;
            memset(counts, 0, sizeof counts);
            for (int round = 0; round < ROUNDS; round++) {
                l = make(minimum, which, round % FORMS);
                picture(&l, in, PICTURE);
                memcpy(got, in, sizeof in);
                memcpy(want, in, sizeof in);
                const size_t numbers = numbers_of(&l);
                const struct clf_check r = clf_apply((const uint8_t *)text, length, coefficients, numbers, powers, numbers, got, 3 * PICTURE);
                if (r.number != 0) {
                    printf("refused, %llu at %llu: %s\n", (unsigned long long)r.number, (unsigned long long)r.place, text);
                    return 1;
                }
                c_look(&l, want, 3 * PICTURE);
                for (size_t i = 0; i < 3 * PICTURE; i++) {
                    compared++;
                    if (!same(got[i], want[i]) && differing++ < 10) {
                        const size_t at = i / 3 * 3;
                        printf("component %zu: %a %a %a gives %a, want %a, by %s\n", i % 3, in[at], in[at + 1], in[at + 2], got[i], want[i], text);
                    }
                }
            }
            printf("%s %-18s %lu pixels compared; given to the Range:", minimum ? "minimum" : "maximum", limits[which][0], compared / 3);
            for (int k = 0; k < CASES; k++) printf("%s %s %lu", k ? "," : "", case_names[k], counts[k]);
            printf("; %lu differ so far\n", differing);
            came = all_came(&l) && came;
        }
    return differing != 0 || !came;
}
#endif

int main(int argc, char **argv) {
    if (argc == 4 && !strcmp(argv[1], "lines")) return lines(argv[2], argv[3]);
#ifndef NO_ARCHIVE
    if (argc == 1) return compare();
#endif
    fprintf(stderr, "one_end [lines LINES ANSWERS]\n");
    return 2;
}

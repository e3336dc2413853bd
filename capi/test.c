/* Calls the functions of libclf_c.a from C and compares their answers with those of document 01. Run by tests/capi. */
#include "clf.h"

#include <stdio.h>
#include <stdlib.h>
#include <string.h>

#define MOST_BYTES 16777216u

static const char EXAMPLE[] =
    "<?xml version=\"1.0\" encoding=\"UTF-8\"?>\n"
    "<ProcessList id=\"a\" compCLFversion=\"3.0\">\n"
    "<Range inBitDepth=\"32f\" outBitDepth=\"32f\" style=\"Clamp\">\n"
    "<minInValue>0</minInValue>\n"
    "<maxInValue>1</maxInValue>\n"
    "<minOutValue>0</minOutValue>\n"
    "<maxOutValue>5e-1</maxOutValue>\n"
    "</Range>\n"
    "</ProcessList>\n";

static int failures = 0;

static void expect(const char *what, int holds)
{
    if (!holds) {
        printf("failed: %s\n", what);
        failures += 1;
    }
}

static void checks(const char *what, const void *file, size_t length, uint64_t number, uint64_t place)
{
    const struct clf_check c = clf_check_file(file, length);
    if (c.number != number || c.place != place) {
        printf("failed: %s: %llu at %llu, and not %llu at %llu\n", what, (unsigned long long)c.number, (unsigned long long)c.place,
               (unsigned long long)number, (unsigned long long)place);
        failures += 1;
    }
}

static int all_zero(const int64_t *coefficients, const int8_t *powers, size_t from, size_t to)
{
    for (size_t i = from; i < to; ++i)
        if (coefficients[i] != 0 || powers[i] != 0) return 0;
    return 1;
}

static int all_same(const int64_t *coefficients, const int8_t *powers, size_t count, int64_t coefficient, int8_t power)
{
    for (size_t i = 0; i < count; ++i)
        if (coefficients[i] != coefficient || powers[i] != power) return 0;
    return 1;
}

static void reads(void)
{
    int64_t coefficients[16];
    int8_t powers[16];
    const uint8_t *file = (const uint8_t *)EXAMPLE;
    const size_t length = strlen(EXAMPLE);
    for (size_t i = 0; i < 16; ++i) coefficients[i] = 77, powers[i] = 7;
    struct clf_read r = clf_read_file(file, length, coefficients, 16, powers, 12);
    expect("the example is accepted", r.number == 0 && r.place == 0 && r.nodes == 1 && r.numbers == 4);
    expect("its coefficients", coefficients[0] == 0 && coefficients[1] == 1 && coefficients[2] == 0 && coefficients[3] == 5);
    expect("its powers", powers[0] == 0 && powers[1] == 0 && powers[2] == 0 && powers[3] == -1);
    expect("the rest of the room is zero", all_zero(coefficients, powers, 4, 12));
    expect("nothing behind the room is written", coefficients[12] == 77 && coefficients[15] == 77 && powers[12] == 7 && powers[15] == 7);

    r = clf_read_file(file, length, coefficients, 4, powers, 4);
    expect("room equal to the numbers", r.number == 0 && r.numbers == 4 && coefficients[3] == 5);
    r = clf_read_file(file, length, coefficients, 4, powers, 3);
    expect("one less is 13", r.number == 13 && r.place == 0 && r.nodes == 0 && r.numbers == 0);
    expect("a refused reading zeroes the room", all_zero(coefficients, powers, 0, 3));
    expect("and nothing behind it", coefficients[3] == 5);

    for (size_t i = 0; i < 16; ++i) coefficients[i] = 77, powers[i] = 7;
    r = clf_read_file(file, length - 20, coefficients, 16, powers, 16);
    expect("a file cut short is 1 at its length", r.number == 1 && r.place == length - 20 && r.nodes == 0);
    expect("and its room is zeroed", all_zero(coefficients, powers, 0, 16));
}

/* A typo in the last value is 9 and a number that is too large 25, both at its first byte; the room is zeroed. */
static void tokens(void)
{
    char file[sizeof EXAMPLE];
    const size_t length = strlen(EXAMPLE);
    const size_t place = (size_t)(strstr(EXAMPLE, "5e-1") - EXAMPLE);
    int64_t coefficients[4] = {77, 77, 77, 77};
    int8_t powers[4] = {7, 7, 7, 7};
    double pixels[3] = {0.5, 0.5, 0.5};
    memcpy(file, EXAMPLE, sizeof EXAMPLE);
    memcpy(file + place, "5e-x", 4);
    checks("a typo is 9", file, length, 9, place);
    memcpy(file + place, "5e99", 4);
    checks("a number that is too large is 25", file, length, 25, place);
    const struct clf_read r = clf_read_file((const uint8_t *)file, length, coefficients, 4, powers, 4);
    expect("reading it is 25", r.number == 25 && r.place == place && r.nodes == 0 && r.numbers == 0);
    expect("and its room is zeroed", all_zero(coefficients, powers, 0, 4));
    const struct clf_check c = clf_apply((const uint8_t *)file, length, coefficients, 4, powers, 4, pixels, 3);
    expect("applying it is 25", c.number == 25 && c.place == place && pixels[0] == 0.5 && pixels[1] == 0.5 && pixels[2] == 0.5);
    memcpy(file + place, "5e22", 4);
    checks("the largest power is held", file, length, 0, 0);
}

/* Every beginning of the example is 1 at its length, but for those that lack only white space behind the root. */
static void beginnings(void)
{
    const size_t length = strlen(EXAMPLE);
    for (size_t n = 0; n + 1 < length; ++n) checks("a beginning", EXAMPLE, n, 1, n);
    checks("without the last line feed", EXAMPLE, length - 1, 0, 0);
}

static void sizes(void)
{
    uint8_t *file = malloc(MOST_BYTES + 1);
    if (file == NULL) {
        expect("memory", 0);
        return;
    }
    memset(file, ' ', MOST_BYTES + 1);
    checks("16 MiB of spaces", file, MOST_BYTES, 3, 0);
    memcpy(file, EXAMPLE, strlen(EXAMPLE));
    checks("16 MiB", file, MOST_BYTES, 0, 0);
    checks("16 MiB and a byte", file, MOST_BYTES + 1, 4, 0);
    int64_t coefficients[4] = {1, 2, 3, 4};
    int8_t powers[4] = {1, 2, 3, 4};
    struct clf_read r = clf_read_file(file, MOST_BYTES, coefficients, 4, powers, 4);
    expect("reading 16 MiB", r.number == 0 && r.nodes == 1 && coefficients[3] == 5);
    r = clf_read_file(file, MOST_BYTES + 1, coefficients, 4, powers, 4);
    expect("reading 16 MiB and a byte", r.number == 4 && r.place == 0 && all_zero(coefficients, powers, 0, 4));
    memset(file, 'x', MOST_BYTES + 1);
    checks("16 MiB and a byte of no CLF", file, MOST_BYTES + 1, 4, 0);
    free(file);
}

/* The example clamps to 0 and 1 and halves. */
static void applies(void)
{
    int64_t coefficients[8];
    int8_t powers[8];
    const uint8_t *file = (const uint8_t *)EXAMPLE;
    const size_t length = strlen(EXAMPLE);
    double pixels[7] = {0.0, 0.25, 0.5, 1.0, 3.0, -2.0, 9.0};
    for (size_t i = 0; i < 8; ++i) coefficients[i] = 77, powers[i] = 7;
    struct clf_check c = clf_apply(file, length, coefficients, 8, powers, 8, pixels, 6);
    expect("applying the example", c.number == 0 && c.place == 0);
    expect("its first pixel", pixels[0] == 0.0 && pixels[1] == 0.125 && pixels[2] == 0.25);
    expect("its second pixel", pixels[3] == 0.5 && pixels[4] == 0.5 && pixels[5] == 0.0);
    expect("nothing behind the pixels is written", pixels[6] == 9.0);
    expect("the room holds the numbers", coefficients[1] == 1 && coefficients[3] == 5 && powers[3] == -1);
    expect("and zeros behind them", all_zero(coefficients, powers, 4, 8));

    c = clf_apply(file, length, coefficients, 8, powers, 8, pixels, 0);
    expect("no pixels", c.number == 0 && c.place == 0);
    for (size_t i = 0; i < 8; ++i) coefficients[i] = 77, powers[i] = 7;
    c = clf_apply(file, length, coefficients, 8, powers, 8, pixels, 7);
    expect("seven components are 14", c.number == 14 && c.place == 0 && pixels[1] == 0.125);
    expect("and the room stays as it was", all_same(coefficients, powers, 8, 77, 7));
    pixels[4] = 1e308 * 10.0;
    c = clf_apply(file, length, coefficients, 8, powers, 8, pixels, 6);
    expect("an infinite component is 15 at its index", c.number == 15 && c.place == 4);
    expect("and no pixel changes", pixels[1] == 0.125 && pixels[3] == 0.5);
    expect("nor the room", all_same(coefficients, powers, 8, 77, 7));
    c = clf_apply(file, length, coefficients, 8, powers, 8, pixels, 7);
    expect("14 comes before 15", c.number == 14 && c.place == 0);
    c = clf_apply(file, length - 20, coefficients, 8, powers, 8, pixels, 6);
    expect("15 comes before the file's refusal", c.number == 15 && c.place == 4 && all_same(coefficients, powers, 8, 77, 7));
    pixels[4] = 0.5;
    c = clf_apply(file, length - 20, coefficients, 8, powers, 8, pixels, 7);
    expect("14 comes before the file's refusal", c.number == 14 && c.place == 0 && all_same(coefficients, powers, 8, 77, 7));
    c = clf_apply(file, length - 20, coefficients, 8, powers, 8, pixels, 6);
    expect("a file cut short is 1", c.number == 1 && c.place == length - 20);
    expect("and no pixel changes then", pixels[1] == 0.125 && pixels[4] == 0.5);
    expect("and its room is zeroed", all_zero(coefficients, powers, 0, 8));
    c = clf_apply(file, length, coefficients, 3, powers, 8, pixels, 6);
    expect("too little room is 13", c.number == 13 && c.place == 0 && pixels[1] == 0.125);
}

int main(void)
{
    checks("the example", EXAMPLE, strlen(EXAMPLE), 0, 0);
    checks("no bytes", EXAMPLE, 0, 1, 0);
    checks("no declaration", "x", 1, 3, 0);
    checks("another root", "<?xml version=\"1.0\" encoding=\"UTF-8\"?><a>", 41, 5, 38);
    reads();
    tokens();
    applies();
    beginnings();
    sizes();
    if (failures == 0) printf("all answers are as expected\n");
    return failures == 0 ? 0 : 1;
}

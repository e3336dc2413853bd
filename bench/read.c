/* read FILE..: how fast libclf_c.a reads each file, and beside it a plain loop over the same bytes that counts tokens (runs of bytes that
   are no white space). Figures are of processor time; each is the best of five runs of at least a quarter of a second. */
#include "../capi/clf.h"

#include <stdio.h>
#include <stdlib.h>
#include <time.h>

#define ROOM 262144

static int64_t coefficients[ROOM];
static int8_t powers[ROOM];
static volatile size_t kept;

static double now(void)
{
    struct timespec t;
    clock_gettime(CLOCK_PROCESS_CPUTIME_ID, &t);
    return (double)t.tv_sec + 1e-9 * (double)t.tv_nsec;
}

static size_t tokens(const uint8_t *file, size_t length)
{
    size_t count = 0;
    int inside = 0;
    for (size_t i = 0; i < length; ++i) {
        const uint8_t b = file[i];
        const int space = b == ' ' || b == '\t' || b == '\r' || b == '\n';
        if (!space && !inside) count += 1;
        inside = !space;
    }
    return count;
}

static void once(int what, const uint8_t *file, size_t length)
{
    if (what == 0)
        kept = clf_read_file(file, length, coefficients, ROOM, powers, ROOM).number;
    else if (what == 1)
        kept = clf_check_file(file, length).number;
    else
        kept = tokens(file, length);
}

/* seconds for one run */
static double best(int what, const uint8_t *file, size_t length)
{
    double least = 0;
    for (int k = 0; k < 5; ++k) {
        const double start = now();
        double spent = 0;
        unsigned long runs = 0;
        do {
            once(what, file, length);
            runs += 1;
            spent = now() - start;
        } while (spent < 0.25);
        const double each = spent / (double)runs;
        if (k == 0 || each < least) least = each;
    }
    return least;
}

int main(int argc, char **argv)
{
    printf("%-22s %9s %18s %16s %16s %16s\n", "file", "bytes", "answer", "read", "check", "token loop");
    for (int i = 1; i < argc; ++i) {
        FILE *f = fopen(argv[i], "rb");
        if (f == NULL) {
            perror(argv[i]);
            return 1;
        }
        uint8_t *file = malloc(16777217);
        const size_t length = fread(file, 1, 16777217, f);
        fclose(f);
        const struct clf_read r = clf_read_file(file, length, coefficients, ROOM, powers, ROOM);
        char answer[64];
        snprintf(answer, sizeof answer, "%llu at %llu", (unsigned long long)r.number, (unsigned long long)r.place);
        printf("%-22s %9zu %18s", argv[i], length, answer);
        for (int what = 0; what < 3; ++what) {
            const double s = best(what, file, length);
            printf("  %6.0f MB/s %4.1f ns", (double)length / s / 1e6, s / (double)length * 1e9);
        }
        printf("\n");
        fflush(stdout);
        free(file);
    }
    return 0;
}

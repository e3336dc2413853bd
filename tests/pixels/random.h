/* Random values for the comparisons: xorshift, the same each time. */
#include <stdint.h>
#include <string.h>

static uint64_t state = 88172645463325252u;
static uint64_t rnd(void) {
    state ^= state << 13;
    state ^= state >> 7;
    state ^= state << 17;
    return state;
}
static double unit(void) { return (double)(rnd() >> 11) * 0x1p-53; }
static double bits(uint64_t b) {
    double d;
    memcpy(&d, &b, 8);
    return d;
}

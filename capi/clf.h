/* Reading Common LUT Format files and running pixels through them: the functions of libclf_c.a (capi/build). */
#ifndef CLF_H
#define CLF_H

#include <stddef.h>
#include <stdint.h>

#ifdef __cplusplus
extern "C" {
#endif

/* The refusal number, 0 for accepted, and its place in the file (for the refusals 10, 11 and 23 the number of a node, from 1). */
struct clf_check {
    uint64_t number;
    uint64_t place;
};

/* The same, and how many nodes and numbers the list has; none where the reading is refused. */
struct clf_read {
    uint64_t number;
    uint64_t place;
    uint64_t nodes;
    uint64_t numbers;
};

/* Checks a file of `length` bytes. Nothing is kept and nothing is written; refusal 13 means over 262,144 numbers. Here and below no
   pointer may be null, also where a length is 0. */
struct clf_check clf_check_file(const uint8_t *file, size_t length);

/* Reads a file into the table room: number i of the list is coefficients[i] times 10 to the power powers[i]. The room ends with the
   shorter of the two arrays; its unused rest is zeroed, and all of it where the reading is refused. The arrays may not overlap each
   other or the file. */
struct clf_read clf_read_file(const uint8_t *file, size_t length, int64_t *coefficients, size_t coefficient_count, int8_t *powers,
                              size_t power_count);

/* Runs a file's list over the pixels: three components a pixel, code values. Judged in this order: `pixel_count` is no multiple of three
   (14, place 0); a component is a NaN or infinite (15, its place is the lowest such component's index); then the file, which is read into
   the table room as clf_read_file does. Refused with 14 or 15, neither the room nor a pixel changes and the file is not read. Refused by
   the reading, with its number and place, the room is zeroed and no pixel changes. 0 means that all pixels are overwritten and that the
   room holds the list's numbers. The arrays may not overlap each other or the file. */
struct clf_check clf_apply(const uint8_t *file, size_t length, int64_t *coefficients, size_t coefficient_count, int8_t *powers,
                           size_t power_count, double *pixels, size_t pixel_count);

#ifdef __cplusplus
}
#endif

#endif

// The cheapest seam in C with no promise, written for speed, by sums of two types, and the seam by marks.
#ifndef FENCED_H
#define FENCED_H

#include "costs.h"

// As floating point: whole numbers up to 2^24 are exact, more than a seam of the largest picture costs, and every x86-64 has one
// instruction for the lesser of two, four at once, which it hasn't for 32-bit integers.
#define SUM float
#define SUM_END ((float)(1 << 24))
#define AT_MOST(x) (x)
#define MARK_ROW(marks, w, own) (void)0
#define NAMED(x) fenced_##x
#include "sums.h"

// In 16 bits, eight at once. A sum that is larger than they hold stays at an end that a cost can still be added to. A seam that costs less
// than the end is found as by larger numbers, since all sums on its way are exact; any other is found again by those.
enum { SHORT_END = INT16_MAX - MOST_COST };

#define SUM int16_t
#define SUM_END SHORT_END
#define AT_MOST(x) short_lesser(x, SHORT_END)
#define MARK_ROW(marks, w, own) (void)0
#define NAMED(x) short_##x
#include "sums.h"

static inline uint64_t short_or_fenced_find(const uint8_t *picture, const uint8_t *marks, int w, int h, size_t distance, int channels,
                                            int energy, uint16_t *seam) {
    uint64_t cost = short_find(picture, marks, w, h, distance, channels, energy, seam);
    return cost < SHORT_END ? cost : fenced_find(picture, marks, w, h, distance, channels, energy, seam);
}

// By marks, in whole numbers of 32 bits. A pixel that is kept, that isn't marked 2, adds more than a seam costs, and the sum of a protected
// one, marked 1, is the end, whatever it would be else: below it 512 kept pixels have room, and above it as many.
enum { KEPT = 1 << 20, MARKED_END = 1 << 30 };

static inline void mark_row(const uint8_t *restrict marks, int w, int32_t *restrict own) {
    for (int c = 0; c < w; c++) own[c] = marks[c] == 1 ? MARKED_END : own[c] + (marks[c] == 2 ? 0 : KEPT);
}

#define SUM int32_t
#define SUM_END MARKED_END
#define AT_MOST(x) (x)
#define MARK_ROW mark_row
#define NAMED(x) marked_##x
#include "sums.h"

#endif

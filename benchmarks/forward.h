// Finding the cheapest seam by forward, in C with no promise: every cost and every sum is worked out anew. Each row of sums
// stands between two numbers larger than every sum, so that no column is asked whether it is the first or the last. The rows
// of the picture lie `distance` bytes apart. Where the number of channels is a constant, its loop is unrolled.
#ifndef FORWARD_H
#define FORWARD_H

#include <stddef.h>
#include <stdint.h>
#include <stdlib.h>

enum { FORWARD_SIDE = 512 };

// Larger than every sum, and with a cost added to it still a number of 32 bits.
static const uint32_t FENCE = 1u << 31;
static uint32_t forward_sums[FORWARD_SIDE][FORWARD_SIDE + 2];

// What coming to a pixel costs from its left in the row above, from straight above and from its right.
typedef struct {
    uint32_t left, up, right;
} Steps;

static inline uint32_t forward_apart(const uint8_t *a, const uint8_t *b, int channels) {
    uint32_t sum = 0;
    for (int k = 0; k < channels; k++) sum += abs(a[k] - b[k]);
    return sum;
}

static inline Steps steps_of(const uint8_t *before, const uint8_t *after, const uint8_t *above, int channels) {
    uint32_t up = forward_apart(before, after, channels);
    return (Steps){up + forward_apart(above, before, channels), up, up + forward_apart(above, after, channels)};
}

// The same of column c, where a neighbour past the side is the pixel itself.
static inline Steps steps_at(const uint8_t *row, const uint8_t *above, int c, int w, int channels) {
    const uint8_t *before = row + (c > 0 ? c - 1 : c) * channels, *after = row + (c + 1 < w ? c + 1 : c) * channels;
    return steps_of(before, after, above + c * channels, channels);
}

static inline uint32_t least_sum(const uint32_t *sums, Steps steps) {
    uint32_t left = sums[-1] + steps.left, up = sums[0] + steps.up, right = sums[1] + steps.right;
    uint32_t least = left < up ? left : up;
    return least < right ? least : right;
}

static inline void forward_row(const uint8_t *row, const uint8_t *above, const uint32_t *restrict sums, int w, int channels,
                               uint32_t *restrict own) {
    own[0] = least_sum(sums, steps_at(row, above, 0, w, channels));
    for (int c = 1; c + 1 < w; c++) {
        const uint8_t *it = row + c * channels;
        own[c] = least_sum(sums + c, steps_of(it - channels, it + channels, above + c * channels, channels));
    }
    own[w - 1] = least_sum(sums + w - 1, steps_at(row, above, w - 1, w, channels));
}

// The column above from which the least sum comes to column c, the leftmost of equals.
static inline int forward_above(const uint32_t *sums, Steps steps, int c) {
    uint32_t left = sums[c - 1] + steps.left, up = sums[c] + steps.up, right = sums[c + 1] + steps.right;
    if (left <= up && left <= right) return c - 1;
    return up <= right ? c : c + 1;
}

static inline void forward_all_sums(const uint8_t *picture, int w, int h, int channels, size_t distance) {
    for (int r = 0; r < h; r++) {
        uint32_t *own = forward_sums[r] + 1;
        const uint8_t *row = picture + r * distance;
        own[-1] = own[w] = FENCE;
        if (r > 0)
            forward_row(row, row - distance, forward_sums[r - 1] + 1, w, channels, own);
        else
            for (int c = 0; c < w; c++) own[c] = steps_at(row, row, c, w, channels).up;
    }
}

// Puts the seam into its space and gives its cost.
static inline uint64_t forward_find(const uint8_t *picture, int w, int h, int channels, size_t distance, uint16_t *seam) {
    forward_all_sums(picture, w, h, channels, distance);
    const uint32_t *last = forward_sums[h - 1] + 1;
    int c = 0;
    for (int k = 1; k < w; k++)
        if (last[k] < last[c]) c = k;
    uint64_t cost = last[c];
    for (int r = h - 1; r > 0; r--) {
        const uint8_t *row = picture + r * distance;
        seam[r] = c;
        c = forward_above(forward_sums[r - 1] + 1, steps_at(row, row - distance, c, w, channels), c);
    }
    seam[0] = c;
    return cost;
}

#endif

// What the pixels of a picture cost, by each energy, in planes of 16-bit numbers; in C with no promise, written for speed. A row is worked
// out by its samples first, so that it becomes vectors; one pixel from its neighbours. Where the number of channels and the energy are
// constants, no turn of a loop asks for them.
#ifndef COSTS_H
#define COSTS_H

#include <multisize.h>
#include <stddef.h>
#include <stdint.h>
#include <stdlib.h>

enum { COST_SIDE = 512, MOST_COST = 6 * 255 };

// What coming to each pixel costs: from its left in the row above, from straight above, from its right. By edge and by flat the three are
// alike, and only the second plane is used.
static uint16_t cost_left[COST_SIDE * COST_SIDE], cost_up[COST_SIDE * COST_SIDE], cost_right[COST_SIDE * COST_SIDE];

static inline int cost_apart(const uint8_t *a, const uint8_t *b, int channels) {
    int sum = 0;
    for (int k = 0; k < channels; k++) sum += abs(a[k] - b[k]);
    return sum;
}

// A pixel and its neighbours, NULL where there is none.
typedef struct {
    const uint8_t *it, *left, *right, *above, *below;
} Pixel;

// Puts what one pixel costs at its place in the planes.
static inline void cost_pixel(Pixel p, int channels, int energy, size_t at) {
    if (energy == MULTISIZE_FORWARD) {
        const uint8_t *before = p.left ? p.left : p.it, *after = p.right ? p.right : p.it;
        int up = cost_apart(before, after, channels);
        cost_left[at] = up + (p.above ? cost_apart(p.above, before, channels) : 0);
        cost_up[at] = up;
        cost_right[at] = up + (p.above ? cost_apart(p.above, after, channels) : 0);
        return;
    }
    const uint8_t *beside = p.right ? p.right : p.left, *next = p.below ? p.below : p.above;
    if (energy == MULTISIZE_FLAT) beside = p.right, next = p.below;
    cost_up[at] = (beside ? cost_apart(beside, p.it, channels) : 0) + (next ? cost_apart(next, p.it, channels) : 0);
}

// The pixel in row r and column c of a picture whose rows lie `distance` pixels apart.
static inline Pixel pixel_of(const uint8_t *picture, int r, int c, int w, int h, size_t distance, int channels) {
    const uint8_t *it = picture + (r * distance + c) * channels;
    Pixel pixel = {it, NULL, NULL, NULL, NULL};
    if (c > 0) pixel.left = it - channels;
    if (c + 1 < w) pixel.right = it + channels;
    if (r > 0) pixel.above = it - distance * channels;
    if (r + 1 < h) pixel.below = it + distance * channels;
    return pixel;
}

static inline uint8_t sample_apart(uint8_t a, uint8_t b) { return a > b ? a - b : b - a; }

// Adds the samples of each pixel. In rgb the sums of any three that follow each other become vectors; every third of them is a pixel's.
static inline void add_samples(const uint16_t *restrict samples, int pixels, uint16_t *restrict out) {
    uint16_t threes[3 * COST_SIDE];
    for (int k = 0; k < 3 * pixels; k++) threes[k] = samples[k] + samples[k + 1] + samples[k + 2];
    for (int k = 0; k < pixels; k++) out[k] = threes[3 * k];
}

// How far the pixels of a row are from those of two others, added. `samples` has room for two more than the row has.
static inline void cost_pixels(const uint8_t *restrict it, const uint8_t *restrict beside, const uint8_t *restrict next, int pixels,
                               int channels, uint16_t *restrict out) {
    uint16_t samples[3 * COST_SIDE + 2], *restrict to = channels == 1 ? out : samples;
    int n = pixels * channels;
    for (int k = 0; k < n; k++) to[k] = sample_apart(beside[k], it[k]) + sample_apart(next[k], it[k]);
    samples[n] = samples[n + 1] = 0;
    if (channels == 3) add_samples(samples, pixels, out);
}

// The costs of coming to the pixels of a row, from those before and after them and those above.
static inline void step_pixels(const uint8_t *restrict before, const uint8_t *restrict after, const uint8_t *restrict above,
                               int pixels, int channels, size_t at) {
    uint16_t samples[3][3 * COST_SIDE + 2];
    uint16_t *restrict left = channels == 1 ? cost_left + at : samples[0], *restrict up = channels == 1 ? cost_up + at : samples[1];
    uint16_t *restrict right = channels == 1 ? cost_right + at : samples[2];
    int n = pixels * channels;
    for (int k = 0; k < n; k++) {
        uint16_t across = sample_apart(after[k], before[k]);
        left[k] = across + sample_apart(above[k], before[k]);
        up[k] = across;
        right[k] = across + sample_apart(above[k], after[k]);
    }
    if (channels == 1) return;
    for (int i = 0; i < 3; i++) samples[i][n] = samples[i][n + 1] = 0;
    add_samples(samples[0], pixels, cost_left + at);
    add_samples(samples[1], pixels, cost_up + at);
    add_samples(samples[2], pixels, cost_right + at);
}

// Puts what the pixels of row r of a picture cost into the planes, from place `at` on. In the first row only the costs from straight above
// count.
static inline void cost_row(const uint8_t *picture, int r, int w, int h, size_t distance, int channels, int energy, size_t at) {
    cost_pixel(pixel_of(picture, r, 0, w, h, distance, channels), channels, energy, at);
    cost_pixel(pixel_of(picture, r, w - 1, w, h, distance, channels), channels, energy, at + w - 1);
    if (w < 3) return;
    const uint8_t *row = picture + r * distance * channels, *it = row + channels, *after = it + channels;
    const uint8_t *above = r > 0 ? it - distance * channels : it, *below = r + 1 < h ? it + distance * channels : NULL;
    if (energy == MULTISIZE_FORWARD)
        step_pixels(row, after, above, w - 2, channels, at + 1);
    else
        cost_pixels(it, after, below ? below : energy == MULTISIZE_FLAT ? it : above, w - 2, channels, cost_up + at + 1);
}

#endif

// Building the map of a picture in C with no promise, written for speed. What pixels cost is worked out once and kept: where a seam is cut,
// the costs are closed up along it, and only those of the two pixels beside it are worked out anew. So are the first columns of the pixels
// kept; by these a pixel is read where it stood at first, and the picture is never moved. Rows keep their distance.
#ifndef KEPT_H
#define KEPT_H

#include "fenced.h"
#include <string.h>

static uint16_t first_columns[COST_SIDE * COST_SIDE];

// Works out anew what the pixel in row r and column c of the w left costs.
static inline void renew_cost(const uint8_t *picture, int r, int c, int w, int h, size_t distance, int channels, int energy) {
    size_t at = r * distance + c;
    const uint16_t *own = first_columns + at;
    const uint8_t *row = picture + r * distance * channels;
    Pixel pixel = {row + own[0] * channels, NULL, NULL, NULL, NULL};
    if (c > 0) pixel.left = row + own[-1] * channels;
    if (c + 1 < w) pixel.right = row + own[1] * channels;
    if (r > 0) pixel.above = row - distance * channels + *(own - distance) * channels;
    if (r + 1 < h) pixel.below = row + distance * channels + own[distance] * channels;
    cost_pixel(pixel, channels, energy, at);
}

// Closes up a row of w numbers from place c on.
static inline void close_up(uint16_t *row, int c, int w) { memmove(row + c, row + c + 1, (w - 1 - c) * sizeof *row); }

// Writes the seam's number at the columns where its pixels stood, and cuts it out of the w columns left.
static inline void cut_kept(const uint8_t *picture, const uint16_t *seam, int number, int w, int h, size_t distance, int channels,
                            int energy, uint16_t *map) {
    for (int r = 0; r < h; r++) {
        size_t at = r * distance;
        map[at + first_columns[at + seam[r]]] = number;
        close_up(first_columns + at, seam[r], w);
        close_up(cost_up + at, seam[r], w);
        if (energy == MULTISIZE_FORWARD) close_up(cost_left + at, seam[r], w), close_up(cost_right + at, seam[r], w);
    }
    for (int r = 0; r < h; r++) {
        if (seam[r] > 0) renew_cost(picture, r, seam[r] - 1, w - 1, h, distance, channels, energy);
        if (seam[r] < w - 1) renew_cost(picture, r, seam[r], w - 1, h, distance, channels, energy);
    }
}

// What all pixels cost at first, and where they stand.
static inline void keep_first(const uint8_t *picture, int width, int h, int channels, int energy) {
    for (int r = 0; r < h; r++) {
        cost_row(picture, r, width, h, width, channels, energy, r * width);
        for (int c = 0; c < width; c++) first_columns[r * width + c] = c;
    }
}

// The whole map, by sums of either type.
__attribute__((always_inline)) static inline void keep_map(const uint8_t *picture, int width, int h, int channels, int energy,
                                                           int in_16_bits, uint16_t *map) {
    uint16_t seam[COST_SIDE];
    keep_first(picture, width, h, channels, energy);
    memset(map, 0, width * h * sizeof *map);
    for (int number = 1; number < width; number++) {
        int w = width + 1 - number;
        if (in_16_bits)
            short_or_fenced_find(NULL, NULL, w, h, width, channels, energy, seam);
        else
            fenced_find(NULL, NULL, w, h, width, channels, energy, seam);
        cut_kept(picture, seam, number, w, h, width, channels, energy, map);
    }
}

#endif

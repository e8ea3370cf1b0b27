// A course picture: land seen from above, lit from the upper left. A valley with a stream and woods on its sides, two ridges
// of rock, and fields of snow between them. The snow is almost flat, so that the seams take it first and the ridges stay.
// Whole numbers alone, so that every machine makes the same bytes.
#ifndef TERRAIN_H
#define TERRAIN_H

#include <stddef.h>
#include <stdint.h>
#include <stdlib.h>

// The land has this side, whatever the size of the picture. So far from its middle reach the stream, the meadow and the
// woods.
enum { TERRAIN_SIDE = 4096, TERRAIN_BANK = 52, TERRAIN_MEADOW = 260, TERRAIN_WOODS = 520 };

// A number from 0 to 255 for each corner of a grid.
static inline int terrain_corner(int x, int y) {
    uint32_t n = (uint32_t)x * 374761393u + (uint32_t)y * 668265263u;
    n = (n ^ n >> 13) * 1274126177u;
    return n >> 24;
}

// The way from a to b, of which t of 256 are gone, slower at both ends.
static inline int terrain_between(int a, int b, int t) {
    int eased = t * t * (768 - 2 * t) >> 16;
    return a + (b - a) * eased / 256;
}

// A smooth number from -128 to 127 at a place, from a grid whose cells have this side.
static inline int terrain_waves(int x, int y, int side) {
    int column = x / side, row = y / side, right = x % side * 256 / side, down = y % side * 256 / side;
    int above = terrain_between(terrain_corner(column, row), terrain_corner(column + 1, row), right);
    int below = terrain_between(terrain_corner(column, row + 1), terrain_corner(column + 1, row + 1), right);
    return terrain_between(above, below, down) - 128;
}

// How far a place is from the stream.
static inline int terrain_off_stream(int x, int y) {
    return abs(x - 760 - (y - 2048) / 8 - 2 * terrain_waves(0, y, 1100) - terrain_waves(0, y, 400) / 2);
}

// How far a place is inside the ridge nearest to it: 0 where there is none. The edges of a ridge are ragged.
static inline int terrain_ridge(int x, int y) {
    int first = 330 - abs(x - 2250 - (y - 2048) / 6 - 2 * terrain_waves(900, y, 700) - terrain_waves(900, y, 210) / 2);
    int second = 260 - abs(x - 3500 - (y - 2048) / 9 - 2 * terrain_waves(2700, y, 800) - terrain_waves(2700, y, 230) / 2);
    int over = (first > second ? first : second) + terrain_waves(x, y, 260) / 2 + terrain_waves(x, y, 90) / 3;
    return over > 0 ? over : 0;
}

// The height of the land at a place: the sides of the valley, the ridges, cut by gullies from their crests downward, and
// drifts of snow.
static inline int terrain_height(int x, int y) {
    int off = terrain_off_stream(x, y), ridge = terrain_ridge(x, y);
    int slope = off < TERRAIN_MEADOW ? 0 : off < TERRAIN_WOODS ? (off - TERRAIN_MEADOW) * 2 / 5 : 104;
    int woods = off > TERRAIN_MEADOW && off < TERRAIN_WOODS ? terrain_waves(x, y, 120) / 4 : 0;
    int gullies = abs(terrain_waves(x / 2, y, 300)) + abs(terrain_waves(x / 2, y, 110)) / 2;
    return slope + woods + ridge * 3 / 2 - gullies * (ridge < 200 ? ridge : 200) / 200 + terrain_waves(x, y, 900) / 4;
}

// The ground at a place.
enum terrain_ground { TERRAIN_STREAM, TERRAIN_GRASS, TERRAIN_TREES, TERRAIN_ROCK, TERRAIN_SNOW };

static inline enum terrain_ground terrain_ground_at(int x, int y) {
    int off = terrain_off_stream(x, y), ragged = off + terrain_waves(x, y, 300) / 2;
    if (off < TERRAIN_BANK) return TERRAIN_STREAM;
    if (terrain_ridge(x, y) > 0) return TERRAIN_ROCK;
    return ragged < TERRAIN_MEADOW ? TERRAIN_GRASS : ragged < TERRAIN_WOODS ? TERRAIN_TREES : TERRAIN_SNOW;
}

// One sample: the ground's colour, lit by the slope, with some grain.
static inline uint8_t terrain_sample(int x, int y, size_t channel, int grain) {
    static const struct {
        uint8_t colour[3], grain;
    } grounds[] = {{{58, 112, 158}, 7}, {{132, 164, 88}, 3}, {{58, 98, 62}, 9}, {{140, 130, 122}, 9}, {{222, 229, 240}, 3}};
    enum terrain_ground ground = terrain_ground_at(x, y);
    int light = ground == TERRAIN_STREAM ? 0 : (terrain_height(x + 40, y + 40) - terrain_height(x, y)) * 5 / 2;
    int sample = grounds[ground].colour[channel] * (256 + light) / 256;
    sample += grain % grounds[ground].grain - grounds[ground].grain / 2;
    return sample < 0 ? 0 : sample > 255 ? 255 : sample;
}

static inline void fill_terrain(uint8_t *picture, size_t width, size_t height, size_t channels) {
    uint32_t state = 1;
    for (size_t r = 0; r < height; r++)
        for (size_t c = 0; c < width; c++) {
            state = state * 1664525 + 1013904223;
            for (size_t k = 0; k < channels; k++)
                *picture++ = terrain_sample(c * TERRAIN_SIDE / width, r * TERRAIN_SIDE / height, k, state >> 24);
        }
}

#endif

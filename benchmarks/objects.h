// Removing objects in C with no promise, written for speed: seam after seam by marks, until no pixel is marked 2, the width is 1, or every
// seam meets a protected pixel. Every cost is worked out anew for each seam, or costs are kept (kept.h). Rows keep their distance until
// the last seam is cut.
#ifndef OBJECTS_H
#define OBJECTS_H

#include "kept.h"

// Cuts the seam out of the w columns left, of so many bytes each.
static inline void cut_bytes(uint8_t *rows, const uint16_t *seam, int w, int h, size_t distance, int each) {
    for (int r = 0; r < h; r++) {
        uint8_t *it = rows + (r * distance + seam[r]) * each;
        memmove(it, it + each, (w - 1 - seam[r]) * each);
    }
}

// Packs rows of which w bytes are left; those freed are 0.
static inline void pack(uint8_t *rows, int w, int h, size_t distance) {
    for (int r = 1; r < h; r++) memmove(rows + r * w, rows + r * distance, w);
    memset(rows + h * w, 0, h * (distance - w));
}

// Puts the pixels that are left, which were never moved, beside each other.
static inline void gather(uint8_t *picture, int w, int h, size_t distance, int channels) {
    for (int r = 0; r < h; r++)
        for (int c = 0; c < w; c++)
            memmove(picture + (r * distance + c) * channels, picture + (r * distance + first_columns[r * distance + c]) * channels,
                    channels);
}

// Removes what is marked, and gives the number of seams cut.
__attribute__((always_inline)) static inline int remove_objects(uint8_t *picture, uint8_t *marks, int width, int h, int channels,
                                                                int energy, int keep) {
    static uint16_t unread_map[COST_SIDE * COST_SIDE];
    uint16_t seam[COST_SIDE];
    int w = width, objects = 0;
    for (int i = 0; i < width * h; i++) objects += marks[i] == 2;
    if (keep) keep_first(picture, width, h, channels, energy);
    for (; objects > 0 && w > 1; w--) {
        if (marked_find(keep ? NULL : picture, marks, w, h, width, channels, energy, seam) == MARKED_END) break;
        for (int r = 0; r < h; r++) objects -= marks[r * width + seam[r]] == 2;
        cut_bytes(marks, seam, w, h, width, 1);
        if (keep)
            cut_kept(picture, seam, 1, w, h, width, channels, energy, unread_map);
        else
            cut_bytes(picture, seam, w, h, width, channels);
    }
    if (keep) gather(picture, w, h, width, channels);
    pack(picture, w * channels, h, width * channels), pack(marks, w, h, width);
    return width - w;
}

#endif

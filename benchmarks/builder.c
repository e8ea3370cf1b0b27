// A builder of multi-size files in C, with no promise: it works out every energy anew for each seam, by edge, by flat or by
// forward, and prints the same text as the library, digit by digit (text.h). Rows keep their distance in the buffers while the
// picture narrows. Beside it the same file by a map whose costs are kept from one seam to the next (kept.h).
#include "forward.h"
#include "kept.h"
#include "shared.h"
#include "text.h"

enum { SIDE = 512 };

// The picture left and, for each of its pixels, the column where it stood in the original.
static uint8_t left[SIDE * SIDE * 3];
static uint16_t origins[SIDE * SIDE], map[SIDE * SIDE];
// Each row of sums stands between two numbers larger than every sum.
static uint32_t sums[SIDE][SIDE + 2];

static inline uint32_t apart(const uint8_t *a, const uint8_t *b, int channels) {
    uint32_t sum = 0;
    for (int k = 0; k < channels; k++) sum += abs(a[k] - b[k]);
    return sum;
}

// The energies of a row of w pixels, at least 2: a seam is cut only where a column stays. The last pixel's neighbour is
// the left one, and by flat there is none.
static inline void row_energies(const uint8_t *row, const uint8_t *below, int w, int channels, int by_flat,
                                uint32_t *energies) {
    for (int c = 0; c + 1 < w; c++) {
        const uint8_t *it = row + c * channels;
        energies[c] = apart(it + channels, it, channels) + apart(below + c * channels, it, channels);
    }
    const uint8_t *last = row + (w - 1) * channels;
    const uint8_t *beside = by_flat ? last : last - channels;
    energies[w - 1] = apart(beside, last, channels) + apart(below + (w - 1) * channels, last, channels);
}

static inline void all_sums(int w, int h, int channels, int by_flat, size_t distance) {
    uint32_t energies[SIDE];
    for (int r = 0; r < h; r++) {
        const uint8_t *row = left + r * distance;
        // The last row has the row above for the one below, or itself by flat and where there is no other.
        const uint8_t *below = r + 1 < h ? row + distance : r > 0 && !by_flat ? row - distance : row;
        row_energies(row, below, w, channels, by_flat, energies);
        uint32_t *own = sums[r] + 1;
        own[-1] = own[w] = UINT32_MAX;
        if (r == 0) {
            memcpy(own, energies, w * sizeof *own);
            continue;
        }
        const uint32_t *above = sums[r - 1] + 1;
        for (int c = 0; c < w; c++) {
            uint32_t least = above[c - 1] < above[c] ? above[c - 1] : above[c];
            least = above[c + 1] < least ? above[c + 1] : least;
            own[c] = least + energies[c];
        }
    }
}

// The first of the cheapest paths, from the bottom row upward; the leftmost of equals.
static void find_seam(int w, int h, uint16_t *seam) {
    const uint32_t *row = sums[h - 1] + 1;
    int c = 0;
    for (int k = 1; k < w; k++)
        if (row[k] < row[c]) c = k;
    seam[h - 1] = c;
    for (int r = h - 2; r >= 0; r--) {
        row = sums[r] + 1;
        int best = c - 1;
        if (row[c] < row[best]) best = c;
        if (row[c + 1] < row[best]) best = c + 1;
        seam[r] = c = best;
    }
}

// Writes the seam's number at the columns where its pixels stood, and closes the rows up.
static inline void take_seam(const uint16_t *seam, int number, int w, Size z, int channels) {
    for (size_t r = 0; r < z.height; r++) {
        int c = seam[r], behind = w - 1 - c;
        uint16_t *own = origins + r * z.width;
        uint8_t *row = left + r * z.width * channels;
        map[r * z.width + own[c]] = number;
        memmove(own + c, own + c + 1, behind * sizeof *own);
        memmove(row + c * channels, row + (c + 1) * channels, behind * channels);
    }
}

__attribute__((always_inline)) static inline void build_map(Size z, int channels, int energy) {
    uint16_t seam[SIDE];
    for (size_t i = 0; i < z.width * z.height; i++) origins[i] = i % z.width, map[i] = 0;
    for (size_t number = 1; number < z.width; number++) {
        int w = z.width + 1 - number;
        if (energy == MULTISIZE_FORWARD) {
            forward_find(left, w, z.height, channels, z.width * channels, seam);
        } else {
            all_sums(w, z.height, channels, energy == MULTISIZE_FLAT, z.width * channels);
            find_seam(w, z.height, seam);
        }
        take_seam(seam, number, w, z, channels);
    }
}

static size_t put_file(const uint8_t *picture, Size z, multisize_method method, uint8_t *out) {
    multisize_file_answer head = {0, library_size(z), method, z.width - 1, z.width / 2};
    return print_text(picture, map, head, 0, out);
}

// The file of full depth and growth; gives its length. The map is compiled for each number of channels and each energy, so
// that the loops over channels are unrolled.
size_t build_in_c(const uint8_t *picture, Size size, multisize_method method, uint8_t *out) {
    memcpy(left, picture, size.width * size.height * size.channels);
    switch (method.energy) {
    case MULTISIZE_EDGE: size.channels == 3 ? build_map(size, 3, MULTISIZE_EDGE) : build_map(size, 1, MULTISIZE_EDGE); break;
    case MULTISIZE_FLAT: size.channels == 3 ? build_map(size, 3, MULTISIZE_FLAT) : build_map(size, 1, MULTISIZE_FLAT); break;
    default: size.channels == 3 ? build_map(size, 3, MULTISIZE_FORWARD) : build_map(size, 1, MULTISIZE_FORWARD);
    }
    return put_file(picture, size, method, out);
}

// The same file where costs are kept, by sums of either type.
__attribute__((always_inline)) static inline size_t keep_file(const uint8_t *p, Size z, multisize_method method, int in_16_bits,
                                                               uint8_t *out) {
    int w = z.width, h = z.height, rgb = z.channels == 3;
    switch (method.energy) {
    case MULTISIZE_EDGE:
        rgb ? keep_map(p, w, h, 3, MULTISIZE_EDGE, in_16_bits, map) : keep_map(p, w, h, 1, MULTISIZE_EDGE, in_16_bits, map);
        break;
    case MULTISIZE_FLAT:
        rgb ? keep_map(p, w, h, 3, MULTISIZE_FLAT, in_16_bits, map) : keep_map(p, w, h, 1, MULTISIZE_FLAT, in_16_bits, map);
        break;
    default:
        rgb ? keep_map(p, w, h, 3, MULTISIZE_FORWARD, in_16_bits, map) : keep_map(p, w, h, 1, MULTISIZE_FORWARD, in_16_bits, map);
    }
    return put_file(p, z, method, out);
}

size_t build_kept_in_c(const uint8_t *picture, Size size, multisize_method method, uint8_t *out) {
    return keep_file(picture, size, method, 0, out);
}

size_t build_kept_in_16_bits(const uint8_t *picture, Size size, multisize_method method, uint8_t *out) {
    return keep_file(picture, size, method, 1, out);
}

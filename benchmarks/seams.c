// Times the library's find and cut against the reference, and against plain C that does the same work with no promise:
// energies, sums, the way back. Fenced C does it in vectors throughout (fenced.h). Each figure is the best of the rounds; the
// buffers are not cleared between them, but the library clears its work space. With an argument, 0 or 1, find runs once at the
// first or the second size, by the library and by all ways in C, without and with marks, so that the instructions of each can be
// counted. What is found is found by edge, but where flat or forward is named, as a second argument does.
#include "fenced.h"
#include "forward.h"
#include "shared.h"

enum { SIDE = 512, ROUNDS = 40 };
static const Size sizes[] = {{480, 480, 3}, {512, 512, 1}};

uint64_t reference_find(Lent *lent);
uint64_t reference_find_marked(Lent *lent);

static uint32_t energies[SIDE * SIDE], sums[SIDE * SIDE];

// The energy of a pixel, by the distances of the neighbour beside it and of the one below it in the picture.
static inline uint32_t energy(const uint8_t *it, int beside, int below, int channels) {
    uint32_t sum = 0;
    for (int k = 0; k < channels; k++) sum += abs(it[k + beside] - it[k]) + abs(it[k + below] - it[k]);
    return sum;
}

// By edge the neighbour of the last column is the left one, that of the last row the upper one, and a side of 1 has none; by
// flat there is none in either.
static void plain_energies(const uint8_t *p, int w, int h, int channels, int by_flat) {
    for (int r = 0; r < h; r++) {
        const uint8_t *row = p + r * w * channels;
        int below = r + 1 < h ? w * channels : r > 0 && !by_flat ? -w * channels : 0;
        for (int c = 0; c + 1 < w; c++) energies[r * w + c] = energy(row + c * channels, channels, below, channels);
        energies[r * w + w - 1] = energy(row + (w - 1) * channels, w > 1 && !by_flat ? -channels : 0, below, channels);
    }
}

static void plain_sums(int w, int h) {
    memcpy(sums, energies, w * sizeof *sums);
    for (int r = 1; r < h; r++) {
        const uint32_t *above = sums + (r - 1) * w;
        for (int c = 0; c < w; c++) {
            uint32_t least = above[c];
            if (c > 0 && above[c - 1] < least) least = above[c - 1];
            if (c + 1 < w && above[c + 1] < least) least = above[c + 1];
            sums[r * w + c] = least + energies[r * w + c];
        }
    }
}

static uint64_t plain_find(const uint8_t *p, int w, int h, int channels, int energy, uint16_t *seam) {
    if (energy == MULTISIZE_FORWARD) return forward_find(p, w, h, channels, w * channels, seam);
    plain_energies(p, w, h, channels, energy == MULTISIZE_FLAT);
    plain_sums(w, h);
    const uint32_t *row = sums + (h - 1) * w;
    int c = 0;
    for (int k = 1; k < w; k++)
        if (row[k] < row[c]) c = k;
    uint64_t cost = row[c];
    for (int r = h - 1; r > 0; r--) {
        seam[r] = c;
        const uint32_t *above = sums + (r - 1) * w;
        int best = c;
        if (c > 0 && above[c - 1] <= above[best]) best = c - 1;
        if (c + 1 < w && above[c + 1] < above[best]) best = c + 1;
        c = best;
    }
    seam[0] = c;
    return cost;
}

// The ways of finding: each puts the seam into the lent space and gives its cost.
static uint64_t by_library(Lent *lent) {
    Size z = lent->size;
    size_t pixels = z.width * z.height;
    return multisize_find(lent->picture, pixels * z.channels, library_size(z), lent->method, MULTISIZE_VERTICAL, lent->seam,
                          z.height, lent->work, 32 * pixels)
        .value;
}

static uint64_t by_library_marked(Lent *lent) {
    Size z = lent->size;
    size_t pixels = z.width * z.height;
    return multisize_find_marked(lent->picture, pixels * z.channels, lent->marks, pixels, library_size(z), lent->method,
                                 MULTISIZE_VERTICAL, lent->seam, z.height, lent->work, 32 * pixels)
        .value;
}

__attribute__((noinline)) static uint64_t by_plain_c(Lent *lent) {
    Size z = lent->size;
    return plain_find(lent->picture, z.width, z.height, z.channels, lent->method.energy, lent->seam);
}

// The same, compiled for each number of channels: the loop over them is unrolled, and the rest becomes vectors.
__attribute__((noinline)) static uint64_t by_unrolled_c(Lent *lent) {
    Size z = lent->size;
    int energy = lent->method.energy;
    return z.channels == 3 ? plain_find(lent->picture, z.width, z.height, 3, energy, lent->seam)
                           : plain_find(lent->picture, z.width, z.height, 1, energy, lent->seam);
}

// The same in vectors, by sums of either type; compiled for each number of channels and each energy.
typedef uint64_t FencedFind(const uint8_t *, const uint8_t *, int, int, size_t, int, int, uint16_t *);

__attribute__((always_inline)) static inline uint64_t fenced(Lent *lent, FencedFind *find) {
    const uint8_t *p = lent->picture, *m = lent->marks;
    uint16_t *seam = lent->seam;
    int w = lent->size.width, h = lent->size.height, rgb = lent->size.channels == 3;
    switch (lent->method.energy) {
    case MULTISIZE_EDGE: return rgb ? find(p, m, w, h, w, 3, MULTISIZE_EDGE, seam) : find(p, m, w, h, w, 1, MULTISIZE_EDGE, seam);
    case MULTISIZE_FLAT: return rgb ? find(p, m, w, h, w, 3, MULTISIZE_FLAT, seam) : find(p, m, w, h, w, 1, MULTISIZE_FLAT, seam);
    default: return rgb ? find(p, m, w, h, w, 3, MULTISIZE_FORWARD, seam) : find(p, m, w, h, w, 1, MULTISIZE_FORWARD, seam);
    }
}

__attribute__((noinline)) static uint64_t by_fenced_c(Lent *lent) { return fenced(lent, fenced_find); }

__attribute__((noinline)) static uint64_t by_fenced_c_in_16_bits(Lent *lent) { return fenced(lent, short_or_fenced_find); }

// By marks; all but the last 20 bits of the sum count the pixels kept.
__attribute__((noinline)) static uint64_t by_fenced_c_marked(Lent *lent) { return fenced(lent, marked_find) % KEPT; }

static void fill(Lent *lent) {
    int w = lent->size.width, h = lent->size.height;
    fill_picture(lent->picture, lent->size);
    // An area to be removed, one that is protected, and the rest plain.
    for (int r = 0; r < h; r++)
        for (int c = 0; c < w; c++) {
            int removed = r > h / 4 && r < h / 2 && c > w / 4 && c < w / 2;
            int guarded = r > h / 3 && r < h * 3 / 4 && c > w * 2 / 3;
            lent->marks[r * w + c] = removed ? 2 : guarded ? 1 : 0;
        }
}

typedef uint64_t Find(Lent *);

// The best times of two ways of finding, which take turns and must agree.
static void compare(Lent *lent, const char *name, Find *one, const char *other_name, Find *other) {
    size_t bytes = lent->size.height * sizeof *lent->seam;
    uint16_t seam[SIDE];
    double best = 1e9, other_best = 1e9;
    for (int i = 0; i < ROUNDS; i++) {
        double t = seconds();
        uint64_t cost = one(lent);
        keep_least(&best, t);
        memcpy(seam, lent->seam, bytes);
        t = seconds();
        uint64_t other_cost = other(lent);
        keep_least(&other_best, t);
        if (cost != other_cost || memcmp(seam, lent->seam, bytes)) puts("the seams differ"), exit(1);
    }
    printf("  %s %.3f ms, %s %.3f ms, ratio %.2f\n", name, best * 1e3, other_name, other_best * 1e3, best / other_best);
}

static double cut_time(Lent *lent, int axis) {
    Size z = lent->size;
    size_t pixels = z.width * z.height, bytes = pixels * z.channels;
    static uint8_t copy[SIDE * SIDE * 3];
    double best = 1e9;
    for (int i = 0; i < ROUNDS; i++) {
        memcpy(copy, lent->picture, bytes);
        double t = seconds();
        multisize_cut(copy, bytes, library_size(z), usual, axis, lent->seam, SIDE, lent->work, 32 * pixels);
        keep_least(&best, t);
    }
    return best;
}

// What each call of the library also does at its end.
static double clear_time(Lent *lent) {
    double best = 1e9;
    for (int i = 0; i < ROUNDS; i++) {
        double t = seconds();
        memset(lent->work, 0, 32 * lent->size.width * lent->size.height);
        keep_least(&best, t);
    }
    return best;
}

static Lent lend(Size size) {
    size_t pixels = size.width * size.height;
    Lent lent = {malloc(pixels * size.channels), malloc(pixels), malloc(SIDE * sizeof(uint16_t)), malloc(32 * pixels), size,
                 usual};
    fill(&lent);
    return lent;
}

static void times(Size size) {
    Lent lent = lend(size);
    printf("%zu by %zu, %zu channels\n", size.width, size.height, size.channels);
    compare(&lent, "find", by_library, "plain C", by_plain_c);
    compare(&lent, "find", by_library, "unrolled C", by_unrolled_c);
    compare(&lent, "find", by_library, "fenced C", by_fenced_c);
    compare(&lent, "find", by_library, "fenced C in 16 bits", by_fenced_c_in_16_bits);
    compare(&lent, "find", by_library, "reference", reference_find);
    compare(&lent, "find_marked", by_library_marked, "fenced C", by_fenced_c_marked);
    compare(&lent, "find_marked", by_library_marked, "reference", reference_find_marked);
    printf("  cut %.3f ms, horizontal cut %.3f ms\n", cut_time(&lent, MULTISIZE_VERTICAL) * 1e3,
           cut_time(&lent, MULTISIZE_HORIZONTAL) * 1e3);
    printf("  of each, the work space cleared %.3f ms\n", clear_time(&lent) * 1e3);
    lent.method = flat;
    compare(&lent, "find by flat", by_library, "unrolled C", by_unrolled_c);
    compare(&lent, "find by flat", by_library, "fenced C", by_fenced_c);
    compare(&lent, "find by flat", by_library, "fenced C in 16 bits", by_fenced_c_in_16_bits);
    compare(&lent, "find by flat", by_library, "reference", reference_find);
    lent.method = forward;
    compare(&lent, "find by forward", by_library, "plain C", by_plain_c);
    compare(&lent, "find by forward", by_library, "unrolled C", by_unrolled_c);
    compare(&lent, "find by forward", by_library, "fenced C", by_fenced_c);
    compare(&lent, "find by forward", by_library, "fenced C in 16 bits", by_fenced_c_in_16_bits);
    compare(&lent, "find by forward", by_library, "reference", reference_find);
    compare(&lent, "find_marked by forward", by_library_marked, "fenced C", by_fenced_c_marked);
    compare(&lent, "find_marked by forward", by_library_marked, "reference", reference_find_marked);
}

static void once(Size size, multisize_method method) {
    Lent lent = lend(size);
    lent.method = method;
    by_library(&lent);
    by_plain_c(&lent);
    by_unrolled_c(&lent);
    by_fenced_c(&lent);
    by_fenced_c_in_16_bits(&lent);
    by_library_marked(&lent);
    by_fenced_c_marked(&lent);
}

int main(int count, char **words) {
    if (count > 1)
        once(sizes[atoi(words[1]) == 1], named(count > 2 ? words[2] : "edge"));
    else
        times(sizes[0]), times(sizes[1]);
}

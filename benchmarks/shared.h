// What the benchmarks share: sizes, lent buffers, a picture, and times.
#include <multisize.h>
#include <stdio.h>
#include <stdlib.h>
#include <string.h>
#include <time.h>

typedef struct {
    size_t width, height, channels;
} Size;

// Returns the size as the library takes it.
static inline multisize_size library_size(Size z) {
    return (multisize_size){z.width, z.height, z.channels == 3 ? MULTISIZE_RGB : MULTISIZE_GREY};
}

static const multisize_method usual = {0}, flat = {MULTISIZE_FLAT}, forward = {MULTISIZE_FORWARD};

// A picture, the spaces for its seam, and the method, as the reference takes them.
typedef struct {
    uint8_t *picture, *marks;
    uint16_t *seam;
    uint8_t *work;
    Size size;
    multisize_method method;
} Lent;

static inline void fill_picture(uint8_t *picture, Size size) {
    int w = size.width, h = size.height, channels = size.channels;
    srand(1);
    for (int i = 0; i < w * h * channels; i++)
        picture[i] = (i / channels % w / 7 * 13 + i / channels / w / 5 * 7 + rand() % 16) & 255;
}

// Returns the method whose energy has this name.
static inline multisize_method named(const char *energy) {
    return strcmp(energy, "forward") == 0 ? forward : strcmp(energy, "flat") == 0 ? flat : usual;
}

static inline double seconds(void) {
    struct timespec t;
    clock_gettime(CLOCK_MONOTONIC, &t);
    return t.tv_sec + t.tv_nsec * 1e-9;
}

static inline void keep_least(double *best, double since) {
    double t = seconds() - since;
    if (t < *best) *best = t;
}

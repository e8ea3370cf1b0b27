// Times the library's operations on multi-size files: building the full map against builders in C and against the
// reference, checking against building, and one width shown; by flat and by forward, building against the builders in C. All
// texts must agree. Each figure is the best of the rounds. With an argument, 1 or 3 channels, the files of 128 by 128 are
// built and checked once, by edge or by what a second argument names, so that the instructions can be counted.
#include "../pictures/terrain.h"
#include "shared.h"

uint64_t reference_build(Lent *lent, uint8_t *out, size_t room);
uint64_t reference_check(Lent *lent, const uint8_t *file, size_t bytes);
uint64_t reference_show(Lent *lent, const uint8_t *file, size_t bytes, size_t wanted, uint8_t *out);

// The builders in C: one that works out everything anew for each seam, and two that keep costs.
typedef size_t Build(const uint8_t *picture, Size size, multisize_method method, uint8_t *out);

Build build_in_c, build_kept_in_c, build_kept_in_16_bits;

static const struct {
    const char *name;
    Build *build;
} builders[] = {{"unrolled C", build_in_c}, {"kept C", build_kept_in_c}, {"kept C in 16 bits", build_kept_in_16_bits}};

enum { WANTED = 176, BUILDERS = sizeof builders / sizeof *builders };

// The room that every text of a picture fits in.
static size_t text_room(Size z) { return multisize_file_bytes(library_size(z)); }

static void differ(const char *name, Size z) {
    printf("%s differs at %zu by %zu, %zu channels\n", name, z.width, z.height, z.channels), exit(1);
}

static size_t build_by_library(Lent *lent, uint8_t *out) {
    Size z = lent->size;
    size_t pixels = z.width * z.height;
    multisize_answer answer = multisize_build(lent->picture, pixels * z.channels, library_size(z), lent->method,
                                              z.width - 1, z.width / 2, out, text_room(z), lent->work, 32 * pixels);
    if (answer.number) differ("build", z);
    return answer.value;
}

static void check_by_library(Lent *lent, const uint8_t *file, size_t length) {
    Size z = lent->size;
    if (multisize_check(file, length, lent->work, 32 * z.width * z.height).number) differ("check", z);
}

static Lent lend(Size size) {
    size_t pixels = size.width * size.height;
    Lent lent = {malloc(pixels * size.channels), NULL, NULL, malloc(32 * pixels), size, usual};
    fill_terrain(lent.picture, size.width, size.height, size.channels);
    return lent;
}

static void give_back(Lent *lent) { free(lent->picture), free(lent->work); }

static void show(Lent *lent, const uint8_t *file, size_t length, int rounds) {
    Size z = lent->size;
    size_t bytes = WANTED * z.height * z.channels;
    uint8_t *out = malloc(bytes), *other = malloc(bytes);
    double best = 1e9, other_best = 1e9;
    for (int i = 0; i < rounds; i++) {
        double t = seconds();
        multisize_size_answer answer = multisize_show(file, length, WANTED, out, bytes, lent->work, 32 * z.width * z.height);
        keep_least(&best, t);
        t = seconds();
        if (i == 0) reference_show(lent, file, length, WANTED, other), keep_least(&other_best, t);
        if (answer.number || memcmp(out, other, bytes)) differ("show", z);
    }
    printf("  shown at %d: %.1f ms, reference %.1f ms, ratio %.3f\n", WANTED, best * 1e3, other_best * 1e3, best / other_best);
    free(out), free(other);
}

// Builds by each builder in C, whose text must be the library's, and keeps the least times.
static void build_in_each(Lent *lent, const uint8_t *file, size_t length, uint8_t *other, double *best) {
    for (int i = 0; i < BUILDERS; i++) {
        double t = seconds();
        size_t other_length = builders[i].build(lent->picture, lent->size, lent->method, other);
        keep_least(&best[i], t);
        if (length != other_length || memcmp(file, other, length)) differ(builders[i].name, lent->size);
    }
}

static void print_each(const char *what, double built, const double *in_c) {
    for (int i = 0; i < BUILDERS; i++)
        printf("  %s %.1f ms, %s %.1f ms, ratio %.2f\n", what, built * 1e3, builders[i].name, in_c[i] * 1e3, built / in_c[i]);
}

static void build_by(Lent *lent, const char *energy, uint8_t *file, uint8_t *other, int rounds) {
    double built = 1e9, in_c[BUILDERS] = {1e9, 1e9, 1e9};
    char what[32];
    snprintf(what, sizeof what, "build by %s", energy);
    lent->method = named(energy);
    for (int i = 0; i < rounds; i++) {
        double t = seconds();
        size_t length = build_by_library(lent, file);
        keep_least(&built, t);
        build_in_each(lent, file, length, other, in_c);
    }
    print_each(what, built, in_c);
}

// The reference takes part in the first round alone.
static void times(Size size, int rounds) {
    Lent lent = lend(size);
    uint8_t *file = malloc(text_room(size)), *other = malloc(text_room(size));
    double built = 1e9, in_c[BUILDERS] = {1e9, 1e9, 1e9}, by_reference = 1e9, checked = 1e9, checked_by_reference = 1e9;
    size_t length = 0;
    for (int i = 0; i < rounds; i++) {
        double t = seconds();
        length = build_by_library(&lent, file);
        keep_least(&built, t);
        build_in_each(&lent, file, length, other, in_c);
        t = seconds();
        check_by_library(&lent, file, length);
        keep_least(&checked, t);
        if (i > 0) continue;
        t = seconds();
        size_t other_length = reference_build(&lent, other, text_room(size));
        keep_least(&by_reference, t);
        if (length != other_length || memcmp(file, other, length)) differ("build by the reference", size);
        t = seconds();
        reference_check(&lent, file, length);
        keep_least(&checked_by_reference, t);
    }
    printf("%zu by %zu, %zu channels, %zu bytes\n", size.width, size.height, size.channels, length);
    print_each("build", built, in_c);
    printf("  build %.1f ms, reference %.1f ms, ratio %.3f\n", built * 1e3, by_reference * 1e3, built / by_reference);
    printf("  check %.1f ms, build %.1f ms, ratio %.2f\n", checked * 1e3, built * 1e3, checked / built);
    printf("  check %.1f ms, reference %.1f ms, ratio %.3f\n", checked * 1e3, checked_by_reference * 1e3,
           checked / checked_by_reference);
    if (size.width == 480) show(&lent, file, length, rounds);
    build_by(&lent, "flat", file, other, rounds);
    build_by(&lent, "forward", file, other, rounds);
    free(file), free(other), give_back(&lent);
}

static void once(size_t channels, multisize_method method) {
    Size size = {128, 128, channels};
    Lent lent = lend(size);
    lent.method = method;
    uint8_t *file = malloc(text_room(size));
    size_t length = build_by_library(&lent, file);
    check_by_library(&lent, file, length);
    for (int i = 0; i < BUILDERS; i++) builders[i].build(lent.picture, size, method, file);
    free(file), give_back(&lent);
}

int main(int count, char **words) {
    static const struct {
        size_t width, height;
        int rounds;
    } sizes[] = {{64, 64, 40}, {128, 128, 10}, {256, 256, 4}, {480, 320, 2}, {512, 512, 2}};
    if (count > 1) {
        once(atoi(words[1]) == 3 ? 3 : 1, named(count > 2 ? words[2] : "edge"));
        return 0;
    }
    for (size_t i = 0; i < sizeof sizes / sizeof *sizes; i++)
        for (size_t channels = 1; channels <= 3; channels += 2)
            times((Size){sizes[i].width, sizes[i].height, channels}, sizes[i].rounds);
}

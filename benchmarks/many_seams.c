// Times the library's object removal against C that does the same (objects.h) and against the reference, and retargeting against the
// reference. Each figure is the best of the rounds, in which all take turns and must agree. With an argument the object is removed once, by
// the library and in C, so that the instructions can be counted.
#include "objects.h"
#include "shared.h"

uint64_t reference_remove(Lent *lent);
uint64_t reference_retarget(Lent *lent, size_t rows, size_t columns, uint8_t *out);

enum { REMOVALS = 20, RETARGETS = 5, ALL = 65535, ROWS = 16, COLUMNS = 16 };
static const Size whole = {256, 256, 3}, retargeted = {128, 128, 3};

static void differ(const char *name) { printf("the answers of %s differ\n", name), exit(1); }

static Lent lend(Size size, size_t room) {
    size_t pixels = size.width * size.height;
    Lent lent = {malloc(pixels * size.channels), calloc(pixels, 1), NULL, malloc(room), size, usual};
    fill_picture(lent.picture, size);
    return lent;
}

// The ways of removing: each gives the number of seams cut.
static uint64_t remove_by_library(Lent *lent) {
    size_t pixels = lent->size.width * lent->size.height;
    return multisize_remove(lent->picture, pixels * lent->size.channels, lent->marks, pixels, library_size(lent->size), usual, ALL,
                            lent->work, 32 * pixels)
        .count;
}

__attribute__((noinline)) static uint64_t remove_in_c(Lent *lent) {
    return remove_objects(lent->picture, lent->marks, lent->size.width, lent->size.height, 3, MULTISIZE_EDGE, 0);
}

__attribute__((noinline)) static uint64_t remove_kept_in_c(Lent *lent) {
    return remove_objects(lent->picture, lent->marks, lent->size.width, lent->size.height, 3, MULTISIZE_EDGE, 1);
}

static const struct {
    const char *name;
    uint64_t (*remove)(Lent *);
} ways[] = {{"library", remove_by_library}, {"C", remove_in_c}, {"kept C", remove_kept_in_c}, {"reference", reference_remove}};

enum { WAYS = sizeof ways / sizeof *ways };

// A block of 40 by 60 pixels is marked, and each of the first ways removes it from a copy.
static void removal(int count, int rounds) {
    size_t pixels = whole.width * whole.height, bytes = pixels * whole.channels;
    Lent lent = lend(whole, 0), copies[WAYS];
    for (int i = 0; i < count; i++) copies[i] = lend(whole, 32 * pixels);
    for (int r = 90; r < 150; r++) memset(lent.marks + r * whole.width + 100, 2, 40);
    double best[WAYS] = {1e9, 1e9, 1e9, 1e9};
    uint64_t seams[WAYS];
    for (int round = 0; round < rounds; round++)
        for (int i = 0; i < count; i++) {
            memcpy(copies[i].picture, lent.picture, bytes), memcpy(copies[i].marks, lent.marks, pixels);
            double t = seconds();
            seams[i] = ways[i].remove(&copies[i]);
            keep_least(&best[i], t);
            if (seams[i] != seams[0] || memcmp(copies[i].picture, copies->picture, bytes) ||
                memcmp(copies[i].marks, copies->marks, pixels))
                differ(ways[i].name);
        }
    printf("256 by 256, 3 channels, 40 by 60 pixels marked: %d seams cut\n", (int)seams[0]);
    for (int i = 1; i < count; i++)
        printf("  remove %.3f ms, %s %.3f ms, ratio %.3f\n", best[0] * 1e3, ways[i].name, best[i] * 1e3, best[0] / best[i]);
}

static void retarget(void) {
    Size z = retargeted;
    size_t bytes = z.width * z.height * z.channels, room = multisize_retarget_work_bytes(library_size(z));
    size_t left = multisize_retarget_bytes(library_size(z), ROWS, COLUMNS);
    Lent lent = lend(z, room);
    uint8_t *out = malloc(left), *other_out = malloc(left);
    double best = 1e9, other_best = 1e9;
    for (int i = 0; i < RETARGETS; i++) {
        double t = seconds();
        multisize_answer answer = multisize_retarget(lent.picture, bytes, library_size(z), usual, ROWS, COLUMNS, out, left,
                                                     lent.work, room);
        keep_least(&best, t);
        t = seconds();
        uint64_t total = reference_retarget(&lent, ROWS, COLUMNS, other_out);
        keep_least(&other_best, t);
        if (answer.number || answer.value != total || memcmp(out, other_out, left)) differ("retarget");
    }
    printf("128 by 128, 3 channels, %d rows and %d columns less\n", ROWS, COLUMNS);
    printf("  retarget %.3f ms, reference %.3f ms, ratio %.3f\n", best * 1e3, other_best * 1e3, best / other_best);
}

int main(int count, char **words) {
    (void)words;
    if (count > 1)
        removal(WAYS - 1, 1);
    else
        removal(WAYS, REMOVALS), retarget();
}

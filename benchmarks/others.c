// Times carving the course picture, 480 by 320 rgb, to 176 columns: by the library in three ways, and by liblqr. Each figure
// is the best of the rounds. What is carved differs, since liblqr's energy does: only the sizes are the same. With a
// number, that way runs once, so that its instructions can be counted.
#include "../pictures/terrain.h"
#include "shared.h"
#include <lqr.h>

enum { WIDTH = 480, HEIGHT = 320, WANTED = 176, CHANNELS = 3, BYTES = WIDTH * HEIGHT * CHANNELS, ROUNDS = 5 };

static const multisize_size whole = {WIDTH, HEIGHT, MULTISIZE_RGB};
static uint8_t picture[BYTES], out[BYTES], work[32 * WIDTH * HEIGHT];
static uint8_t *file;
static size_t file_room;

static void must(int served, const char *what) {
    if (!served) printf("%s failed\n", what), exit(1);
}

// A file is built and its picture at the wanted width shown, for which the file is checked.
static void by_file(size_t depth, size_t growth) {
    multisize_answer built = multisize_build(picture, BYTES, whole, usual, depth, growth, file, file_room, work,
                                             sizeof work);
    must(!built.number, "build");
    must(!multisize_show(file, built.value, WANTED, out, sizeof out, work, sizeof work).number, "show");
}

static void full_file(void) { by_file(WIDTH - 1, WIDTH / 2); }

static void file_of_that_depth(void) { by_file(WIDTH - WANTED, 0); }

// No file: WIDTH - WANTED seams are cut one after the other.
static void cuts(void) {
    uint16_t seam[HEIGHT];
    memcpy(out, picture, BYTES);
    for (multisize_size left = whole; left.width > WANTED; left.width--)
        must(!multisize_cut(out, multisize_picture_bytes(left), left, usual, MULTISIZE_VERTICAL, seam, HEIGHT, work,
                            multisize_work_bytes(left))
                  .number,
             "cut");
}

// The energy of liblqr that is nearest to the library's: the absolute differences in both directions, of the brightness.
static void by_liblqr(void) {
    guchar *lent = g_malloc(BYTES), *samples;
    memcpy(lent, picture, BYTES);
    LqrCarver *carver = lqr_carver_new(lent, WIDTH, HEIGHT, CHANNELS);
    must(carver && lqr_carver_init(carver, 1, 0) == LQR_OK, "lqr_carver_init");
    must(lqr_carver_set_energy_function_builtin(carver, LQR_EF_GRAD_SUMABS) == LQR_OK, "lqr energy");
    must(lqr_carver_resize(carver, WANTED, HEIGHT) == LQR_OK, "lqr_carver_resize");
    gint column, row;
    lqr_carver_scan_reset(carver);
    while (lqr_carver_scan(carver, &column, &row, &samples))
        memcpy(out + (row * WANTED + column) * CHANNELS, samples, CHANNELS);
    lqr_carver_destroy(carver);
}

static const struct {
    const char *name;
    void (*carve)(void);
} ways[] = {{"file with every width, shown at 176", full_file},
            {"file of depth 304, shown at 176", file_of_that_depth},
            {"304 seams cut, no file", cuts},
            {"liblqr, 304 seams", by_liblqr}};

int main(int count, char **words) {
    fill_terrain(picture, WIDTH, HEIGHT, CHANNELS);
    file_room = multisize_file_bytes(whole);
    file = malloc(file_room);
    must(file != NULL, "malloc");
    if (count > 1) {
        ways[atoi(words[1]) & 3].carve();
        return 0;
    }
    for (size_t i = 0; i < sizeof ways / sizeof *ways; i++) {
        double best = 1e9;
        for (int round = 0; round < ROUNDS; round++) {
            double t = seconds();
            ways[i].carve();
            keep_least(&best, t);
        }
        printf("  %-36s %7.1f ms\n", ways[i].name, best * 1e3);
    }
}

// Times printing and reading the text of multi-size files, a byte, against C that does the same (text.h), and showing further widths of a
// file once read. In a file of depth 0 no seam is looked for: building prints, checking reads, and each clears the work space twice, which
// is timed too. Of a file of full depth, what reading takes more than checking is given. All texts, pictures and maps must agree. Each
// figure is the best of the rounds. With an argument, 1 or 3 channels, each is done once with a file of 128 by 128 and depth 0, so that the
// instructions can be counted.
#include "../pictures/terrain.h"
#include "shared.h"
#include "text.h"

enum { NARROW = 176, WIDE = 600 };

// A picture, its file by the library and by C, and what each reads from it.
static multisize_size size;
static uint8_t *picture, *file, *other_file, *read, *other_read, *shown, *work;
static uint16_t *map, *other_map;
static size_t pixels, bytes, room;

static void must(int agreed, const char *what) {
    if (!agreed) printf("%s differs at %zu by %zu\n", what, size.width, size.height), exit(1);
}

// A 0 has to stand after a file that C reads.
static void lend(Size z) {
    size = library_size(z);
    pixels = multisize_pixels(size), bytes = multisize_picture_bytes(size), room = multisize_file_bytes(size);
    picture = malloc(bytes), read = malloc(bytes), other_read = malloc(bytes), shown = malloc(multisize_shown_bytes(size, WIDE));
    file = calloc(room + 1, 1), other_file = malloc(room), work = malloc(32 * pixels);
    map = malloc(pixels * sizeof *map), other_map = malloc(pixels * sizeof *map);
    fill_terrain(picture, z.width, z.height, z.channels);
}

static void give_back(void) {
    free(picture), free(read), free(other_read), free(shown), free(file), free(other_file), free(work), free(map), free(other_map);
}

static multisize_answer build(size_t depth, size_t growth) {
    return multisize_build(picture, bytes, size, usual, depth, growth, file, room, work, 32 * pixels);
}

static multisize_file_answer read_file(size_t length) {
    return multisize_read(file, length, read, bytes, map, pixels, work, 32 * pixels);
}

__attribute__((noipa)) static size_t print_in_c(multisize_file_answer head) {
    return print_text(picture, map, head, 0, other_file);
}

__attribute__((noipa)) static size_t print_by_table(multisize_file_answer head) {
    return print_text(picture, map, head, 1, other_file);
}

__attribute__((noipa)) static multisize_file_answer read_in_c(size_t length) {
    return read_text(file, length, other_read, other_map);
}

__attribute__((noipa)) static void clear(void) { memset(work, 0, 32 * pixels); }

// The rows of a file that is read, one after the other, at this width.
static void show_rows(size_t wanted) {
    size_t each = multisize_channels(size.kind), to = wanted * each, from = size.width * each;
    for (size_t r = 0; r < size.height; r++)
        must(multisize_row_at(read + r * from, from, size.kind, map + r * size.width, size.width, wanted, shown + r * to, to).value == to,
             "a row shown");
}

typedef struct {
    double build, check, read, show, clear, print_in_c, print_by_table, read_in_c, rows;
} Times;

static const Times NONE = {1e9, 1e9, 1e9, 1e9, 1e9, 1e9, 1e9, 1e9, 1e9};

#define TIMED(name, call) (since = seconds(), call, keep_least(&best->name, since))

// Each once, with a file of this depth: its length. The answers are compared where no time is taken.
static size_t round_of(Times *best, size_t depth, size_t growth) {
    double since;
    multisize_answer built;
    multisize_file_answer checked, head, other_head;
    size_t length, other_length;
    TIMED(build, built = build(depth, growth));
    length = built.value, file[length] = 0;
    TIMED(check, checked = multisize_check(file, length, work, 32 * pixels));
    TIMED(read, head = read_file(length));
    TIMED(print_in_c, other_length = print_in_c(head));
    must(length == other_length && !memcmp(file, other_file, length), "the text in C");
    TIMED(print_by_table, other_length = print_by_table(head));
    must(length == other_length && !memcmp(file, other_file, length), "the text by a table");
    TIMED(read_in_c, other_head = read_in_c(length));
    TIMED(clear, (clear(), clear()));
    must(!built.number && !checked.number && !head.number && !memcmp(read, picture, bytes), "the library");
    must(!other_head.number && !memcmp(read, other_read, bytes) && !memcmp(map, other_map, pixels * sizeof *map), "reading in C");
    return length;
}

static void print_ratio(const char *what, double t, const char *other, double other_t, size_t length) {
    printf("  %s %.2f ns, %s %.2f ns, ratio %.2f\n", what, t / length * 1e9, other, other_t / length * 1e9, t / other_t);
}

static void depth_0(Size z, int rounds) {
    Times least = NONE;
    size_t length = 0;
    lend(z);
    for (int i = 0; i < rounds; i++) length = round_of(&least, 0, 0);
    printf("%zu by %zu, %zu channels: a byte of the %zu of a file of depth 0\n", z.width, z.height, z.channels, length);
    print_ratio("build", least.build, "printing in C", least.print_in_c, length);
    print_ratio("build", least.build, "printing by a table", least.print_by_table, length);
    print_ratio("check", least.check, "reading in C", least.read_in_c, length);
    print_ratio("read", least.read, "reading in C", least.read_in_c, length);
    printf("  of each, the work space cleared twice %.2f ns\n", least.clear / length * 1e9);
    give_back();
}

static void full_depth(Size z, int rounds) {
    Times least = NONE;
    size_t length = 0;
    lend(z);
    for (int i = 0; i < rounds; i++) length = round_of(&least, z.width - 1, z.width / 2);
    printf("%zu by %zu, %zu channels: a byte of the %zu of a file of full depth\n", z.width, z.height, z.channels, length);
    print_ratio("read, less check,", least.read - least.check, "reading in C", least.read_in_c, length);
    printf("  printing in C %.2f ns, by a table %.2f ns\n", least.print_in_c / length * 1e9, least.print_by_table / length * 1e9);
    give_back();
}

// The rows of a file that is read must be those that showing the file gives.
static void width(size_t length, size_t wanted, int rounds) {
    Times least = NONE, *best = &least;
    double since;
    size_t bytes_shown = multisize_shown_bytes(size, wanted);
    uint8_t *whole = malloc(bytes_shown);
    for (int i = 0; i < rounds; i++) {
        TIMED(show, multisize_show(file, length, wanted, whole, bytes_shown, work, 32 * pixels));
        TIMED(rows, show_rows(wanted));
        must(!memcmp(shown, whole, bytes_shown), "a width");
    }
    printf("  shown at %zu %.1f ms, once read %.3f ms\n", wanted, least.show * 1e3, least.rows * 1e3);
    free(whole);
}

static void widths(Size z, int rounds) {
    lend(z);
    size_t length = build(z.width - 1, z.width / 2).value;
    must(!read_file(length).number, "the library");
    printf("%zu by %zu, %zu channels\n", z.width, z.height, z.channels);
    width(length, NARROW, rounds), width(length, WIDE, rounds);
    give_back();
}

static void once(size_t channels) {
    Times unused = NONE;
    lend((Size){128, 128, channels});
    round_of(&unused, 0, 0);
    give_back();
}

int main(int count, char **words) {
    if (count > 1) {
        once(atoi(words[1]) == 3 ? 3 : 1);
        return 0;
    }
    for (size_t channels = 1; channels <= 3; channels += 2) {
        depth_0((Size){128, 128, channels}, 40);
        depth_0((Size){480, 320, channels}, 40);
        depth_0((Size){512, 512, channels}, 40);
        full_depth((Size){128, 128, channels}, 40);
        widths((Size){480, 320, channels}, 10);
    }
}

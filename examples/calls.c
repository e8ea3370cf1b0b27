// Calls every function of the archive by its declaration in multisize.h, on grey rows 10 10 40 and 10 50 40, and checks
// the answers and the sizes of the spaces. Says which line is wrong.
#include <multisize.h>
#include <stdio.h>
#include <stdlib.h>
#include <string.h>

enum { WIDTH = 3, HEIGHT = 2, PIXELS = 6, WORK = 32 * PIXELS, LARGE = 512 };

static const multisize_size size = {WIDTH, HEIGHT, MULTISIZE_GREY};
static const multisize_method usual = {0}, flat = {MULTISIZE_FLAT}, forward = {MULTISIZE_FORWARD};
static const uint8_t brought[PIXELS] = {10, 10, 40, 10, 50, 40};
#define HEAD "(multi\n(size 3 2 grey)\n(range 2 1)\n"
#define ROWS "(row 10 10 40)\n(row 10 50 40)\n"
static const char text[] = HEAD "(energy edge)\n" ROWS "(map 1 0 2)\n(map 1 0 2)\n)\n";
static const char flat_text[] = HEAD "(energy flat)\n" ROWS "(map 2 0 1)\n(map 0 2 1)\n)\n";
static const char forward_text[] = HEAD "(energy forward)\n" ROWS "(map 1 2 0)\n(map 2 1 0)\n)\n";
static uint8_t picture[PIXELS], marks[PIXELS], out[200], work[WORK + 66 * PIXELS];
static uint16_t seam[WIDTH], map[PIXELS];

static void need(int line, int holds) {
    if (!holds) printf("examples/calls.c: line %d doesn't hold\n", line), exit(1);
}
#define NEED(holds) need(__LINE__, holds)

static int bytes_are(const uint8_t *bytes, uint8_t a, uint8_t b, uint8_t c, uint8_t d) {
    return bytes[0] == a && bytes[1] == b && bytes[2] == c && bytes[3] == d;
}

static void rows(void) {
    uint32_t energies[WIDTH];
    NEED(multisize_energies(brought, PIXELS, size, usual, 0, energies, WIDTH) == MULTISIZE_SERVED);
    NEED(energies[0] == 0 && energies[1] == 70 && energies[2] == 30);
    NEED(multisize_energies(brought, PIXELS, size, flat, 1, energies, WIDTH) == MULTISIZE_SERVED);
    NEED(energies[0] == 40 && energies[1] == 10 && energies[2] == 0);
    NEED(multisize_energies(brought, PIXELS, size, forward, 1, energies, WIDTH) == MULTISIZE_SERVED);
    NEED(energies[0] == 40 && energies[1] == 30 && energies[2] == 10);
    NEED(multisize_row(brought, PIXELS, size, 1, out, WIDTH).value == WIDTH);
    NEED(!memcmp(out, brought + WIDTH, WIDTH));
    NEED(multisize_row(brought, PIXELS, size, 1, out, 2).number == MULTISIZE_REFUSED_SPACE);
}

static int costs_are(const uint32_t *costs, uint32_t a, uint32_t b, uint32_t c) {
    return costs[0] == a && costs[1] == b && costs[2] == c;
}

// Works out the step costs of a row into three spaces of this length.
static uint64_t steps(multisize_method method, size_t row, uint32_t spaces[3][WIDTH], size_t length) {
    return multisize_step_costs(brought, PIXELS, size, method, row, spaces[0], WIDTH, spaces[1], WIDTH, spaces[2], length);
}

static void step_costs(void) {
    uint32_t costs[3][WIDTH];
    NEED(steps(forward, 0, costs, WIDTH) == MULTISIZE_SERVED);
    NEED(costs_are(costs[0], 0, 30, 30) && costs_are(costs[1], 0, 30, 30) && costs_are(costs[2], 0, 30, 30));
    NEED(steps(forward, 1, costs, WIDTH) == MULTISIZE_SERVED);
    NEED(costs_are(costs[0], 40, 30, 20) && costs_are(costs[1], 40, 30, 10) && costs_are(costs[2], 80, 60, 10));
    NEED(steps(usual, 1, costs, WIDTH) == MULTISIZE_SERVED);
    NEED(costs_are(costs[0], 40, 50, 10) && costs_are(costs[1], 40, 50, 10) && costs_are(costs[2], 40, 50, 10));
    NEED(steps(forward, 1, costs, WIDTH - 1) == MULTISIZE_REFUSED_SPACE);
    NEED(steps(forward, HEIGHT, costs, WIDTH) == MULTISIZE_REFUSED_LENGTH);
    NEED(costs_are(costs[0], 40, 50, 10) && costs_are(costs[1], 40, 50, 10) && costs_are(costs[2], 40, 50, 10));
}

static void seams(void) {
    multisize_size row = {WIDTH, 1, MULTISIZE_GREY};
    multisize_answer a = multisize_find(brought, PIXELS, size, usual, MULTISIZE_VERTICAL, seam, HEIGHT, work, WORK);
    NEED(a.number == 0 && a.value == 40 && seam[0] == 0 && seam[1] == 0);
    memcpy(picture, brought, PIXELS);
    a = multisize_cut(picture, PIXELS, size, usual, MULTISIZE_HORIZONTAL, seam, WIDTH, work, WORK);
    NEED(a.number == 0 && a.value == 60 && seam[0] == 0 && seam[1] == 1 && seam[2] == 1);
    NEED(bytes_are(picture, 10, 10, 40, 0));
    a = multisize_cut(picture, WIDTH, row, usual, MULTISIZE_HORIZONTAL, seam, WIDTH, work, WORK);
    NEED(a.number == MULTISIZE_REFUSED_LAST);
}

// By flat the last column goes first.
static void flat_seams(void) {
    multisize_size left = {WIDTH - 1, HEIGHT, MULTISIZE_GREY};
    multisize_answer a = multisize_find(brought, PIXELS, size, flat, MULTISIZE_VERTICAL, seam, HEIGHT, work, WORK);
    NEED(a.number == 0 && a.value == 0 && seam[0] == 2 && seam[1] == 2);
    memcpy(picture, brought, PIXELS);
    a = multisize_cut(picture, PIXELS, size, flat, MULTISIZE_VERTICAL, seam, HEIGHT, work, WORK);
    NEED(a.number == 0 && a.value == 0 && seam[0] == 2 && seam[1] == 2 && bytes_are(picture, 10, 10, 10, 50));
    a = multisize_find(picture, multisize_picture_bytes(left), left, flat, MULTISIZE_VERTICAL, seam, HEIGHT, work, WORK);
    NEED(a.number == 0 && a.value == 0 && seam[0] == 0 && seam[1] == 1);
}

// By forward columns 0, 1 go first: what comes to stand beside each other then differs least.
static void forward_seams(void) {
    multisize_size left = {WIDTH - 1, HEIGHT, MULTISIZE_GREY};
    multisize_answer a = multisize_find(brought, PIXELS, size, forward, MULTISIZE_HORIZONTAL, seam, WIDTH, work, WORK);
    NEED(a.number == 0 && a.value == 40 && seam[0] == 0 && seam[1] == 0 && seam[2] == 0);
    memcpy(picture, brought, PIXELS);
    a = multisize_cut(picture, PIXELS, size, forward, MULTISIZE_VERTICAL, seam, HEIGHT, work, WORK);
    NEED(a.number == 0 && a.value == 30 && seam[0] == 0 && seam[1] == 1 && bytes_are(picture, 10, 40, 10, 40));
    a = multisize_find(picture, multisize_picture_bytes(left), left, forward, MULTISIZE_VERTICAL, seam, HEIGHT, work, WORK);
    NEED(a.number == 0 && a.value == 60 && seam[0] == 0 && seam[1] == 0);
    a = multisize_retarget(brought, PIXELS, size, forward, 1, 1, out, 2, work, sizeof work);
    NEED(a.number == 0 && a.value == 30 && out[0] == 10 && out[1] == 40);
}

static void marked(void) {
    static const uint8_t brought_marks[PIXELS] = {0, 2, 1, 0, 0, 0};
    memcpy(picture, brought, PIXELS), memcpy(marks, brought_marks, PIXELS);
    multisize_answer a = multisize_find_marked(picture, PIXELS, marks, PIXELS, size, usual, MULTISIZE_VERTICAL, seam,
                                               HEIGHT, work, WORK);
    NEED(a.number == 0 && a.value == 80 && seam[0] == 1 && seam[1] == 2);
    a = multisize_cut_marked(picture, PIXELS, marks, PIXELS, size, usual, MULTISIZE_VERTICAL, seam, HEIGHT, work, WORK);
    NEED(a.number == 0 && a.value == 80);
    NEED(bytes_are(picture, 10, 40, 10, 50) && bytes_are(marks, 0, 1, 0, 0));
    memcpy(picture, brought, PIXELS), memcpy(marks, brought_marks, PIXELS);
    multisize_ended e = multisize_remove(picture, PIXELS, marks, PIXELS, size, usual, 0, work, WORK);
    NEED(e.number == 0 && e.ending == MULTISIZE_SPENT && e.count == 0 && !memcmp(picture, brought, PIXELS));
    e = multisize_remove(picture, PIXELS, marks, PIXELS, size, usual, 9, work, WORK);
    NEED(e.number == 0 && e.ending == MULTISIZE_DONE && e.count == 1 && bytes_are(picture, 10, 40, 10, 50));
}

static void retargets(void) {
    size_t left = multisize_retarget_bytes(size, 1, 2), room = multisize_retarget_work_bytes(size);
    multisize_answer a = multisize_retarget(brought, PIXELS, size, usual, 1, 2, out, left, work, room);
    NEED(left == 1 && room == sizeof work && a.number == 0);
    a = multisize_retarget(brought, PIXELS, size, usual, 2, 1, out, left, work, room);
    NEED(a.number == MULTISIZE_REFUSED_WANTED);
    a = multisize_retarget(brought, PIXELS, size, usual, 1, 2, out, left, work, room - 1);
    NEED(a.number == MULTISIZE_REFUSED_SPACE);
}

static void files(void) {
    const uint8_t *file = (const uint8_t *)text;
    size_t length = sizeof text - 1;
    multisize_answer a = multisize_build(brought, PIXELS, size, usual, 2, 1, out, multisize_file_bytes(size), work, WORK);
    NEED(a.number == 0 && a.value == length && !memcmp(out, file, length));
    multisize_file_answer f = multisize_check(file, length, work, WORK);
    NEED(f.number == 0 && f.size.width == 3 && f.size.height == 2 && f.size.kind == MULTISIZE_GREY);
    NEED(f.method.energy == MULTISIZE_EDGE && f.depth == 2 && f.growth == 1);
    memset(picture, 0, PIXELS);
    f = multisize_read(file, length, picture, PIXELS, map, PIXELS, work, WORK);
    NEED(f.number == 0 && !memcmp(picture, brought, PIXELS) && map[0] == 1 && map[2] == 2 && map[4] == 0);
    // What was read is passed on as it is: the file is built again.
    a = multisize_build(picture, PIXELS, f.size, f.method, f.depth, f.growth, out, sizeof out, work, WORK);
    NEED(a.number == 0 && a.value == length && !memcmp(out, file, length));
    multisize_size_answer z = multisize_show(file, length, 4, out, multisize_shown_bytes(f.size, 4), work, WORK);
    NEED(z.number == 0 && z.size.width == 4 && z.size.height == 2 && z.size.kind == MULTISIZE_GREY);
    NEED(bytes_are(out, 10, 10, 10, 40) && bytes_are(out + 4, 10, 30, 50, 40));
}

// A file by another energy than the usual one: what it says of itself, and its rows at width 4. The map of another file is
// refused under its word.
static void file_by(multisize_method method, const char *own, const uint8_t *shown, const char *other) {
    const uint8_t *file = (const uint8_t *)own;
    size_t length = strlen(own);
    multisize_answer a = multisize_build(brought, PIXELS, size, method, 2, 1, out, multisize_file_bytes(size), work, WORK);
    NEED(a.number == 0 && a.value == length && !memcmp(out, file, length));
    multisize_file_answer f = multisize_check(file, length, work, WORK);
    NEED(f.number == 0 && f.method.energy == method.energy && f.depth == 2 && f.growth == 1);
    multisize_size_answer z = multisize_show(file, length, 4, out, sizeof out, work, WORK);
    NEED(z.number == 0 && !memcmp(out, shown, 8));
    NEED(multisize_check((const uint8_t *)other, strlen(other), work, WORK).number == MULTISIZE_REFUSED_OTHER);
}

static void files_by_others(void) {
    static const uint8_t by_flat[] = {10, 10, 25, 40, 10, 50, 45, 40}, by_forward[] = {10, 10, 10, 40, 10, 50, 45, 40};
    file_by(flat, flat_text, by_flat, HEAD "(energy flat)\n" ROWS "(map 1 0 2)\n(map 1 0 2)\n)\n");
    file_by(forward, forward_text, by_forward, HEAD "(energy forward)\n" ROWS "(map 1 0 2)\n(map 1 0 2)\n)\n");
    // The map by flat is refused in a file that names edge, too.
    static const char edge[] = HEAD "(energy edge)\n" ROWS "(map 2 0 1)\n(map 0 2 1)\n)\n";
    NEED(multisize_check((const uint8_t *)edge, sizeof edge - 1, work, WORK).number == MULTISIZE_REFUSED_OTHER);
}

// A refused answer is the number alone.
static void refused_files(void) {
    multisize_file_answer f = multisize_check(brought, PIXELS, work, WORK);
    NEED(f.number == MULTISIZE_REFUSED_FORM && f.size.width == 0 && f.size.height == 0 && f.size.kind == 0);
    NEED(f.method.energy == 0 && f.depth == 0 && f.growth == 0);
    // A file that names no energy breaks its form.
    static const char unnamed[] = HEAD ROWS "(map 1 0 2)\n(map 1 0 2)\n)\n";
    NEED(multisize_check((const uint8_t *)unnamed, sizeof unnamed - 1, work, WORK).number == MULTISIZE_REFUSED_FORM);
    multisize_size_answer z = multisize_show((const uint8_t *)text, sizeof text - 1, 5, out, sizeof out, work, WORK);
    NEED(z.number == MULTISIZE_REFUSED_WANTED && z.size.width == 0 && z.size.height == 0 && z.size.kind == 0);
}

// Calls every function on a picture, ten of them, with this size, method and axis, and returns how many refuse by 1.
static int refused_by_form(multisize_size z, multisize_method method, uint8_t axis) {
    static uint32_t energies[WIDTH], up[WIDTH], right[WIDTH];
    uint64_t numbers[] = {
        multisize_energies(brought, PIXELS, z, method, 0, energies, WIDTH),
        multisize_step_costs(brought, PIXELS, z, method, 0, energies, WIDTH, up, WIDTH, right, WIDTH),
        multisize_row(brought, PIXELS, z, 0, out, WIDTH).number,
        multisize_find(brought, PIXELS, z, method, axis, seam, WIDTH, work, WORK).number,
        multisize_cut(picture, PIXELS, z, method, axis, seam, WIDTH, work, WORK).number,
        multisize_find_marked(brought, PIXELS, marks, PIXELS, z, method, axis, seam, WIDTH, work, WORK).number,
        multisize_cut_marked(picture, PIXELS, marks, PIXELS, z, method, axis, seam, WIDTH, work, WORK).number,
        multisize_remove(picture, PIXELS, marks, PIXELS, z, method, 0, work, WORK).number,
        multisize_retarget(brought, PIXELS, z, method, 0, 0, out, PIXELS, work, sizeof work).number,
        multisize_build(brought, PIXELS, z, method, 2, 1, out, sizeof out, work, WORK).number};
    int count = 0;
    for (size_t i = 0; i < sizeof numbers / sizeof *numbers; i++) count += numbers[i] == MULTISIZE_REFUSED_FORM;
    return count;
}

// A number that names no kind, no axis or no energy is refused by 1, by every function that takes it. A row has no method,
// and four functions take an axis.
static void unknown_names(void) {
    multisize_size no_kind = {WIDTH, HEIGHT, 2};
    multisize_method no_energy = {3}, nor_this = {255};
    memcpy(picture, brought, PIXELS), memset(marks, 0, PIXELS);
    NEED(refused_by_form(no_kind, usual, MULTISIZE_VERTICAL) == 10);
    NEED(refused_by_form(size, no_energy, MULTISIZE_VERTICAL) == 9);
    NEED(refused_by_form(size, nor_this, MULTISIZE_HORIZONTAL) == 9);
    NEED(refused_by_form(size, usual, 2) == 4 && refused_by_form(size, flat, 2) == 4);
    NEED(refused_by_form(size, forward, 2) == 4);
}

static void row_at_widths(void) {
    // Not the example's numbers: the last column is doubled, to its left.
    static const uint16_t numbers[WIDTH] = {0, 2, 1};
    multisize_answer a = multisize_row_at(brought + WIDTH, WIDTH, MULTISIZE_GREY, numbers, WIDTH, 4, out, 4);
    NEED(a.number == 0 && a.value == 4 && bytes_are(out, 10, 50, 45, 40));
    a = multisize_row_at(brought + WIDTH, WIDTH, MULTISIZE_GREY, numbers, WIDTH, 1, out, 1);
    NEED(a.number == 0 && a.value == 1 && bytes_are(out, 10, 50, 45, 40));
    a = multisize_row_at(brought, WIDTH, MULTISIZE_RGB, numbers, 1, (size_t)-1, out, WIDTH);
    NEED(a.number == 0 && a.value == WIDTH && !memcmp(out, brought, WIDTH));
    NEED(multisize_row_at(brought, WIDTH, 2, numbers, WIDTH, 4, out, 4).number == MULTISIZE_REFUSED_FORM);
    NEED(multisize_row_at(brought, 2, MULTISIZE_GREY, numbers, WIDTH, 4, out, 4).number == MULTISIZE_REFUSED_LENGTH);
    NEED(multisize_row_at(brought, WIDTH, MULTISIZE_GREY, numbers, WIDTH, 4, out, 3).number == MULTISIZE_REFUSED_SPACE);
}

// The longest file of a kind: the largest size, all samples 255, the greatest range, the energy with the longest word. It is
// as long as the header says, but for the numbers of the map with fewer than three digits, 10 of one and 90 of two in each
// row, and for the word of rgb, which is a letter shorter.
static void longest(uint8_t kind) {
    multisize_size largest = {LARGE, LARGE, kind};
    size_t bytes = multisize_picture_bytes(largest), room = multisize_file_bytes(largest);
    uint8_t *large = (uint8_t *)malloc(bytes), *file = (uint8_t *)malloc(room);
    uint8_t *space = (uint8_t *)malloc(MULTISIZE_LARGEST_WORK);
    memset(large, 255, bytes);
    NEED(multisize_work_bytes(largest) == MULTISIZE_LARGEST_WORK);
    multisize_answer a = multisize_build(large, bytes, largest, forward, LARGE - 1, LARGE / 2, file, room, space,
                                         MULTISIZE_LARGEST_WORK);
    NEED(a.number == 0 && a.value == room - LARGE * (2 * 10 + 90) - (kind == MULTISIZE_RGB));
    free(large), free(file), free(space);
}

// A size that is refused by 3 whatever is lent, and a width that no file offers, need no space.
static void no_space(void) {
    multisize_size vast = {(size_t)-1, 9, MULTISIZE_RGB};
    NEED(multisize_work_bytes(vast) == 0 && multisize_file_bytes(vast) == 0 && multisize_retarget_bytes(vast, 0, 1) == 0);
    NEED(multisize_shown_bytes(size, 769) == 0 && multisize_retarget_bytes(size, 3, 0) == 0);
}

int main(void) {
    rows(), step_costs(), seams(), flat_seams(), forward_seams(), marked(), retargets();
    files(), files_by_others(), refused_files(), row_at_widths(), unknown_names();
    longest(MULTISIZE_GREY), longest(MULTISIZE_RGB), no_space();
    puts("every function answers as multisize.h says");
    return 0;
}

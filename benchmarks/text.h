// The text of a multi-size file (docs/FILE.md) printed from picture and map, and read back into them, in C with no promise, written for
// speed. Where the number of channels and the way of printing numbers are constants, no turn of a loop asks for them.
#ifndef TEXT_H
#define TEXT_H

#include <multisize.h>
#include <stdio.h>
#include <string.h>

static const char *const kind_words[] = {"grey", "rgb"}, *const energy_words[] = {"edge", "flat", "forward"};

// Each number that a file has with the blank before it, and the length of both.
static struct {
    uint8_t text[4];
    uint32_t length;
} items[MULTISIZE_LARGEST_SIDE + 1];

// Puts a number and the blank before it, digit by digit or by the table. By the table four bytes are written, and those too many are
// written over by what follows.
static inline uint8_t *put_item(uint8_t *at, unsigned number, int by_table) {
    if (by_table) return memcpy(at, items[number].text, sizeof items[number].text), at + items[number].length;
    uint8_t digits[5];
    int count = 0;
    *at++ = ' ';
    do digits[count++] = '0' + number % 10;
    while (number /= 10);
    while (count) *at++ = digits[--count];
    return at;
}

static inline void fill_items(void) {
    for (int n = 0; n <= MULTISIZE_LARGEST_SIDE; n++) items[n].length = put_item(items[n].text, n, 0) - items[n].text;
}

// A pixel of three samples is a form: its bracket stands in place of the first one's blank.
static inline uint8_t *put_pixel(uint8_t *at, const uint8_t *pixel, int channels, int by_table) {
    if (channels == 1) return put_item(at, *pixel, by_table);
    *at++ = ' ';
    uint8_t *opening = at;
    for (int k = 0; k < channels; k++) at = put_item(at, pixel[k], by_table);
    *opening = '(';
    *at++ = ')';
    return at;
}

static inline uint8_t *put_word(uint8_t *at, const char *word) {
    while (*word) *at++ = *word++;
    return at;
}

static inline uint8_t *put_row(uint8_t *at, const uint8_t *row, size_t width, int channels, int by_table) {
    at = put_word(at, "(row");
    for (size_t c = 0; c < width; c++) at = put_pixel(at, row + c * channels, channels, by_table);
    return put_word(at, ")\n");
}

static inline uint8_t *put_map_row(uint8_t *at, const uint16_t *row, size_t width, int by_table) {
    at = put_word(at, "(map");
    for (size_t c = 0; c < width; c++) at = put_item(at, row[c], by_table);
    return put_word(at, ")\n");
}

// Prints a file and gives its length.
static inline size_t print_text(const uint8_t *picture, const uint16_t *map, multisize_file_answer head, int by_table, uint8_t *out) {
    size_t w = head.size.width, h = head.size.height;
    int rgb = head.size.kind == MULTISIZE_RGB;
    if (by_table && items[0].length == 0) fill_items();
    uint8_t *at = out + sprintf((char *)out, "(multi\n(size %zu %zu %s)\n(range %d %d)\n(energy %s)\n", w, h,
                                kind_words[head.size.kind], (int)head.depth, (int)head.growth,
                                energy_words[head.method.energy]);
    for (size_t r = 0; r < h; r++)
        at = rgb ? put_row(at, picture + r * w * 3, w, 3, by_table) : put_row(at, picture + r * w, w, 1, by_table);
    for (size_t r = 0; r < h; r++) at = put_map_row(at, map + r * w, w, by_table);
    return put_word(at, ")\n") - out;
}

// Reading goes from place to place; NULL is none, where something else stands than what is looked for. Past this word:
static inline const uint8_t *past(const uint8_t *at, const char *word) {
    while (at && *word) at = *at == (uint8_t)*word++ ? at + 1 : NULL;
    return at;
}

// Past one of the words, whose number is given.
static inline const uint8_t *past_one(const uint8_t *at, const char *const *words, int count, uint8_t *number) {
    const uint8_t *after = NULL;
    for (int i = 0; i < count && !after; i++) after = past(at, words[i]), *number = i;
    return after;
}

// Past a number up to the largest allowed, which has no leading zero: after a 0 no digit is looked for.
static inline const uint8_t *past_number(const uint8_t *at, unsigned most, unsigned *number) {
    if (!at) return NULL;
    unsigned n = *at++ - '0', digit;
    if (n > 9) return NULL;
    if (n > 0)
        while ((digit = *at - '0') <= 9 && n <= most) n = n * 10 + digit, at++;
    *number = n;
    return n <= most ? at : NULL;
}

static inline const uint8_t *past_head(const uint8_t *at, multisize_file_answer *head) {
    unsigned width = 0, height = 0, depth = 0, growth = 0;
    at = past_number(past(at, "(multi\n(size "), MULTISIZE_LARGEST_SIDE, &width);
    at = past_number(past(at, " "), MULTISIZE_LARGEST_SIDE, &height);
    at = past_one(past(at, " "), kind_words, 2, &head->size.kind);
    at = past_number(past(at, ")\n(range "), MULTISIZE_LARGEST_SIDE, &depth);
    at = past_number(past(at, " "), MULTISIZE_LARGEST_SIDE, &growth);
    at = past_one(past(at, ")\n(energy "), energy_words, 3, &head->method.energy);
    head->size.width = width, head->size.height = height, head->depth = depth, head->growth = growth;
    return width && height && depth < width && growth <= depth && growth <= width / 2 ? past(at, ")\n") : NULL;
}

static inline const uint8_t *past_row(const uint8_t *at, size_t width, int channels, uint8_t *row) {
    unsigned sample = 0;
    at = past(at, "(row");
    for (size_t c = 0; at && c < width; c++) {
        if (channels == 3) at = past(at, " (");
        for (int k = 0; k < channels; k++) {
            if (channels == 1 || k > 0) at = past(at, " ");
            at = past_number(at, 255, &sample);
            *row++ = sample;
        }
        if (channels == 3) at = past(at, ")");
    }
    return past(at, ")\n");
}

static inline const uint8_t *past_map_row(const uint8_t *at, size_t width, size_t depth, uint16_t *row) {
    unsigned number = 0;
    at = past(at, "(map");
    for (size_t c = 0; at && c < width; c++) at = past_number(past(at, " "), depth, &number), row[c] = number;
    return past(at, ")\n");
}

// Whether a row of the map, none of whose numbers is larger than the depth, holds each of 1 to the depth once.
static inline int is_numbered(const uint16_t *row, size_t width, size_t depth) {
    uint8_t seen[MULTISIZE_LARGEST_SIDE] = {0};
    size_t count = 0;
    for (size_t c = 0; c < width; c++) {
        if (row[c] == 0) continue;
        if (seen[row[c]]) return 0;
        seen[row[c]] = 1, count++;
    }
    return count == depth;
}

// Reads a file, after which a 0 stands, into picture and map. The seams aren't judged; any other fault is refused by 1.
static inline multisize_file_answer read_text(const uint8_t *text, size_t length, uint8_t *picture, uint16_t *map) {
    multisize_file_answer head = {0}, refused = {.number = 1};
    const uint8_t *at = past_head(text, &head);
    size_t w = head.size.width, h = head.size.height;
    for (size_t r = 0; at && r < h; r++)
        at = head.size.kind == MULTISIZE_RGB ? past_row(at, w, 3, picture + r * w * 3) : past_row(at, w, 1, picture + r * w);
    for (size_t r = 0; at && r < h; r++) {
        at = past_map_row(at, w, head.depth, map + r * w);
        if (at && !is_numbered(map + r * w, w, head.depth)) return refused;
    }
    at = past(at, ")\n");
    return at && at == text + length ? head : refused;
}

#endif

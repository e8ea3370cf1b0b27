// Carves a picture to a width: reads a Netpbm file (P5 or P6, samples up to 255), builds its multi-size file, checks
// it, shows it at the wanted width and writes that as Netpbm.
//   cc -O2 -Iinclude examples/carve.c lib/x86_64-linux/libmultisize.a -o carve
//   ./carve picture.ppm 176 carved.ppm
// Exit status: 0 carved, 1 refused or failed, 2 called wrongly.
#include <multisize.h>
#include <stdio.h>
#include <stdlib.h>

typedef struct {
    multisize_size size;
    uint8_t *bytes;  // the whole file that was read
    size_t start;    // where the samples begin in it
    size_t length;   // how many bytes there are from there on
} Picture;

static void fail(const char *what, const char *why) {
    fprintf(stderr, "carve: %s: %s\n", what, why);
    exit(1);
}

static void served(const char *what, uint64_t number) {
    if (number == MULTISIZE_SERVED) return;
    fprintf(stderr, "carve: %s: refused by %d: %s\n", what, (int)number, multisize_words(number));
    exit(1);
}

// A space to lend. Its pointer is valid also where no bytes are asked for.
static uint8_t *space(size_t bytes) {
    uint8_t *lent = malloc(bytes ? bytes : 1);
    if (!lent) fail("space to lend", "there is not enough memory");
    return lent;
}

static uint8_t *read_whole(const char *path, size_t *length) {
    FILE *file = fopen(path, "rb");
    if (!file) perror(path), exit(1);
    size_t room = 1 << 16;
    uint8_t *bytes = space(room);
    for (*length = 0;;) {
        *length += fread(bytes + *length, 1, room - *length, file);
        if (*length < room) break;
        bytes = realloc(bytes, room *= 2);
        if (!bytes) fail(path, "there is not enough memory");
    }
    if (ferror(file)) perror(path), exit(1);
    fclose(file);
    return bytes;
}

// A number of a Netpbm header: blanks, line ends and comments, then digits.
static size_t header_number(const char *path, const Picture *picture, size_t length, size_t *at) {
    const uint8_t *bytes = picture->bytes;
    size_t number = 0, digits = 0;
    while (*at < length && (bytes[*at] == ' ' || (bytes[*at] >= 9 && bytes[*at] <= 13) || bytes[*at] == '#')) {
        if (bytes[*at] == '#')
            while (*at < length && bytes[*at] != '\n') ++*at;
        else
            ++*at;
    }
    for (; *at < length && bytes[*at] >= '0' && bytes[*at] <= '9' && digits < 6; ++*at, ++digits)
        number = number * 10 + (bytes[*at] - '0');
    if (digits == 0 || digits == 6) fail(path, "a number of the Netpbm header is missing or too large");
    return number;
}

// Only the header is judged here. Whether size and samples fit each other is for the library to say.
static Picture read_picture(const char *path) {
    Picture picture = {0};
    size_t length, at = 2;
    picture.bytes = read_whole(path, &length);
    if (length < 3 || picture.bytes[0] != 'P' || (picture.bytes[1] != '5' && picture.bytes[1] != '6'))
        fail(path, "this is no Netpbm picture of form P5 or P6");
    picture.size.kind = picture.bytes[1] == '6' ? MULTISIZE_RGB : MULTISIZE_GREY;
    picture.size.width = header_number(path, &picture, length, &at);
    picture.size.height = header_number(path, &picture, length, &at);
    if (header_number(path, &picture, length, &at) != 255) fail(path, "its largest sample isn't 255");
    picture.start = at < length ? at + 1 : length;
    picture.length = length - picture.start;
    return picture;
}

static void write_picture(const char *path, multisize_size size, const uint8_t *samples) {
    size_t bytes = multisize_shown_bytes(size, size.width);
    FILE *file = fopen(path, "wb");
    if (!file) perror(path), exit(1);
    fprintf(file, "P%c\n%d %d\n255\n", size.kind == MULTISIZE_RGB ? '6' : '5', (int)size.width, (int)size.height);
    int whole = fwrite(samples, 1, bytes, file) == bytes;
    if (fclose(file) || !whole) perror(path), remove(path), exit(1);
}

// Builds the picture's file with every width from 1 to half as wide again, by the usual method, and returns its length.
static size_t build(const Picture *picture, uint8_t *file, size_t room, uint8_t *work, size_t work_length) {
    size_t width = picture->size.width, depth = width ? width - 1 : 0, growth = width / 2;
    multisize_method usual = {0};
    multisize_answer built = multisize_build(picture->bytes + picture->start, picture->length, picture->size, usual, depth,
                                             growth, file, room, work, work_length);
    served("building the file", built.number);
    return built.value;
}

int main(int count, char **words) {
    char *end = NULL;
    size_t wanted = count == 4 ? strtoul(words[2], &end, 10) : 0;
    if (count != 4 || words[2][0] < '0' || words[2][0] > '9' || *end) {
        fputs("usage: carve PICTURE WIDTH CARVED, both Netpbm files\n", stderr);
        return 2;
    }
    Picture picture = read_picture(words[1]);
    size_t room = multisize_file_bytes(picture.size), work_length = multisize_work_bytes(picture.size);
    size_t shown_length = multisize_shown_bytes(picture.size, wanted);
    uint8_t *file = space(room), *work = space(work_length), *shown = space(shown_length);

    size_t length = build(&picture, file, room, work, work_length);
    multisize_file_answer checked = multisize_check(file, length, work, work_length);
    served("checking the file", checked.number);
    multisize_size_answer carved = multisize_show(file, length, wanted, shown, shown_length, work, work_length);
    if (carved.number == MULTISIZE_REFUSED_WANTED)
        fprintf(stderr, "carve: widths %d to %d are offered\n", (int)(checked.size.width - checked.depth),
                (int)(checked.size.width + checked.growth));
    served("showing the file", carved.number);
    write_picture(words[3], carved.size, shown);
    free(picture.bytes), free(file), free(work), free(shown);
    return 0;
}

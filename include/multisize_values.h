// The numbers and structs that hosts pass and get, and the sizes of the spaces to lend. Included by multisize.h.
#ifndef MULTISIZE_VALUES_H
#define MULTISIZE_VALUES_H

#include <stddef.h>
#include <stdint.h>

// A picture's kind: 1 byte a pixel, or 3 with red first.
enum multisize_kind { MULTISIZE_GREY = 0, MULTISIZE_RGB = 1 };

// What a pixel of a seam costs. By the first two it is the pixel's energy: its differences to the right and to the lower
// neighbour, as multisize_energies says; the two differ at the edges of the picture. By the third it is what its removal
// adds, as multisize_step_costs says. A file names its energy by a word.
enum multisize_energy {
    MULTISIZE_EDGE = 0,   // `edge`: in the last column to the left neighbour, in the last row to the upper one
    MULTISIZE_FLAT = 1,   // `flat`: a difference that would reach past the edge is 0
    MULTISIZE_FORWARD = 2 // `forward`: the differences of the pixels that come to stand beside each other
};

// The size of a picture: its sides, and its kind (enum multisize_kind).
typedef struct multisize_size {
    size_t width, height;
    uint8_t kind;
} multisize_size;

// The method that seams are found by: what a pixel costs (enum multisize_energy). More fields may come, at the end,
// and 0 in a new one will mean what is done without it. So a method whose fields are all 0, as the initializer {0} makes
// it, is the usual one and stays it, and no function gets another parameter. A method is passed by value: a program is
// compiled with the header that came with its archive.
typedef struct multisize_method {
    uint8_t energy;
} multisize_method;

// A seam's axis: a vertical seam has one column for each row, a horizontal one a row for each column.
enum multisize_axis { MULTISIZE_VERTICAL = 0, MULTISIZE_HORIZONTAL = 1 };

// A pixel's mark.
enum multisize_mark { MULTISIZE_PLAIN = 0, MULTISIZE_PROTECTED = 1, MULTISIZE_TO_BE_REMOVED = 2 };

// How an object removal ended, asked in this order before each cut. 0 stands beside a refusal.
enum multisize_ending {
    MULTISIZE_DONE = 1,    // no pixel marked 2 is left
    MULTISIZE_NARROW = 2,  // the width is 1
    MULTISIZE_SPENT = 3,   // as many seams are cut as the budget allows
    MULTISIZE_BLOCKED = 4  // every seam meets a protected pixel
};

// The numbers of the refusals. Of several, the smallest is given.
enum multisize_refusal {
    MULTISIZE_SERVED = 0,             // nothing is refused
    MULTISIZE_REFUSED_FORM = 1,       // a file's text breaks its form, as one without its energy line does; or a number
                                      // names no kind, no axis or no energy
    MULTISIZE_REFUSED_EMPTY = 2,      // width or height 0
    MULTISIZE_REFUSED_LARGE = 3,      // width or height over MULTISIZE_LARGEST_SIDE
    MULTISIZE_REFUSED_LENGTH = 4,     // a buffer's length, or a file's number of rows, samples or map numbers, isn't
                                      // what the size says
    MULTISIZE_REFUSED_MARK = 5,       // a mark over 2
    MULTISIZE_REFUSED_RANGE = 6,      // depth over width - 1, growth over the depth or over half the width
    MULTISIZE_REFUSED_WANTED = 7,     // wanted width not offered; or a retarget to less than 1 row or column, or by
                                      // more than MULTISIZE_LARGEST_COUNT
    MULTISIZE_REFUSED_SPACE = 8,      // an output space shorter than the answer, or a work space too short
    MULTISIZE_REFUSED_NUMBERING = 9,  // a map row lacks one of 1 to the depth, repeats one, or holds a larger number
    MULTISIZE_REFUSED_BROKEN = 10,    // a recorded seam isn't connected in the picture left before it
    MULTISIZE_REFUSED_OTHER = 11,     // a recorded seam isn't the one found
    MULTISIZE_REFUSED_PROTECTED = 12, // every seam along the axis meets a protected pixel
    MULTISIZE_REFUSED_LAST = 13       // a cut of the last column or row
};

// Returns a number's meaning in words, for messages.
static inline const char *multisize_words(uint64_t number) {
    switch (number) {
    case MULTISIZE_SERVED: return "served";
    case MULTISIZE_REFUSED_FORM: return "the text breaks its form, or a number names no kind, axis or energy";
    case MULTISIZE_REFUSED_EMPTY: return "width or height is 0";
    case MULTISIZE_REFUSED_LARGE: return "width or height is over 512";
    case MULTISIZE_REFUSED_LENGTH: return "there are more or fewer bytes, rows, samples or map numbers than the size says";
    case MULTISIZE_REFUSED_MARK: return "a mark is over 2";
    case MULTISIZE_REFUSED_RANGE: return "depth or growth isn't allowed at this width";
    case MULTISIZE_REFUSED_WANTED: return "the width isn't offered, or the retarget goes too far";
    case MULTISIZE_REFUSED_SPACE: return "an output space or the work space is too short";
    case MULTISIZE_REFUSED_NUMBERING: return "a map row lacks a seam's number, repeats one, or holds one over the depth";
    case MULTISIZE_REFUSED_BROKEN: return "a recorded seam isn't connected";
    case MULTISIZE_REFUSED_OTHER: return "a recorded seam isn't the one found";
    case MULTISIZE_REFUSED_PROTECTED: return "every seam meets a protected pixel";
    case MULTISIZE_REFUSED_LAST: return "the last column or row can't be cut";
    default: return "no refusal has this number";
    }
}

// Limits: a picture's sides, the widest picture shown (a file of the largest side grows by half), a retarget's counts.
enum {
    MULTISIZE_LARGEST_SIDE = 512,
    MULTISIZE_WIDEST_SHOWN = MULTISIZE_LARGEST_SIDE + MULTISIZE_LARGEST_SIDE / 2,
    MULTISIZE_LARGEST_COUNT = 64
};

// Work bytes that serve every file and every picture, except in a retarget: for files whose size isn't known yet.
#define MULTISIZE_LARGEST_WORK ((size_t)32 * MULTISIZE_LARGEST_SIDE * MULTISIZE_LARGEST_SIDE)

// The sizes of the spaces. A size that is refused by 3 whatever is lent gives 0, so that no product overflows.

// Returns the samples of a pixel.
static inline size_t multisize_channels(uint8_t kind) { return kind == MULTISIZE_RGB ? 3 : 1; }

// Returns the pixels of a picture: the length of its marks, and of a map read from its file.
static inline size_t multisize_pixels(multisize_size size) {
    return size.width > MULTISIZE_LARGEST_SIDE || size.height > MULTISIZE_LARGEST_SIDE ? 0 : size.width * size.height;
}

// Returns the bytes of a picture.
static inline size_t multisize_picture_bytes(multisize_size size) {
    return multisize_pixels(size) * multisize_channels(size.kind);
}

// Returns the columns or rows of a seam: the length of the space that it is put into.
static inline size_t multisize_seam_length(multisize_size size, uint8_t axis) {
    return axis == MULTISIZE_HORIZONTAL ? size.width : size.height;
}

// Returns the bytes of work space for every operation on a picture or a file of this size but a retarget.
static inline size_t multisize_work_bytes(multisize_size size) { return 32 * multisize_pixels(size); }

// Returns the bytes of work space for a retarget.
static inline size_t multisize_retarget_work_bytes(multisize_size size) {
    return multisize_work_bytes(size) + 66 * multisize_picture_bytes(size);
}

// Returns the bytes of the picture that a retarget by this many rows and columns leaves.
static inline size_t multisize_retarget_bytes(multisize_size size, size_t rows, size_t columns) {
    if (rows > size.height || columns > size.width) return 0;
    size.width -= columns, size.height -= rows;
    return multisize_picture_bytes(size);
}

// Returns the bytes that every file of this size fits in, whatever its samples, its range and its energy: 62 in the lines
// that each file has, 6 a row line and 6 a map line, and for each pixel its samples of three digits and its map number of
// three, with their blanks and brackets.
static inline size_t multisize_file_bytes(multisize_size size) {
    size_t pixels = multisize_pixels(size);
    return pixels ? 62 + 12 * size.height + pixels * (size.kind == MULTISIZE_RGB ? 18 : 8) : 0;
}

// Returns the bytes of the picture that a file of this size shows at the wanted width; 0 where every file refuses it by 7.
static inline size_t multisize_shown_bytes(multisize_size size, size_t wanted) {
    if (wanted > MULTISIZE_WIDEST_SHOWN || size.height > MULTISIZE_LARGEST_SIDE) return 0;
    return wanted * size.height * multisize_channels(size.kind);
}

#endif

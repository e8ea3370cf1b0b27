// Multi-size course pictures: the functions of lib/x86_64-linux/libmultisize.a, for C99 and C++.
//
// What is said here is the contract that crates/exports proves of each function, for all inputs, in words. That these
// declarations match the archive is tested (examples/test). No function allocates or keeps anything between calls.
//
// A buffer is a pointer and the number of its elements. It must be valid for that many elements, also where there are
// none, and no two buffers of a call may overlap. All else the functions judge themselves: any number may be passed.
//
// A picture has a size: width and height 1 to MULTISIZE_LARGEST_SIDE, and a kind. Rows run from the top, pixels from the
// left, without padding, and its buffer has exactly the bytes that the size says (multisize_picture_bytes). Marks have one
// byte a pixel. Output spaces and work spaces may be longer than needed. Size and method are structs, passed by value; those
// of an answer can be passed on to the next call as they are.
//
// What stands in the buffers after a call, by the number that it gives:
//   0        served: the answer stands at the front of each output space, what lies after it keeps its elements; the
//            work space is zero, all of it
//   1 to 8   all buffers are unchanged
//   9 to 13  pictures, marks and output spaces are unchanged; the work space is zero, all of it
// A refused answer is the number alone: all its other fields are 0. Of several numbers, the smallest is given. Every
// function that takes a kind, an axis or a method is refused by 1 where a number passed names no kind, axis or energy.
#ifndef MULTISIZE_H
#define MULTISIZE_H

#include "multisize_values.h"

#ifdef __cplusplus
extern "C" {
#endif

// A number (enum multisize_refusal), and the value that the function names.
typedef struct multisize_answer {
    uint64_t number, value;
} multisize_answer;

// How an object removal ended (enum multisize_ending), and how many seams it cut.
typedef struct multisize_ended {
    uint64_t number, ending, count;
} multisize_ended;

// Size, method and range of a file. It offers the widths size.width - depth to size.width + growth.
typedef struct multisize_file_answer {
    uint64_t number;
    multisize_size size;
    multisize_method method;
    uint64_t depth, growth;
} multisize_file_answer;

// The size of a picture shown.
typedef struct multisize_size_answer {
    uint64_t number;
    multisize_size size;
} multisize_size_answer;

// Works out the energies of a row, writes one for each column to the front of out and returns the number. A pixel has
// |right neighbour - it| + |lower neighbour - it|, the channels added. At the edges, by the energy of the method:
//   MULTISIZE_EDGE  in the last column the left neighbour is taken, in the last row the upper one; at width 1 the first
//                   difference is 0, at height 1 the second
//   MULTISIZE_FLAT  in the last column the first difference is 0, in the last row the second
// By MULTISIZE_FORWARD it is what the pixel costs a seam that comes to it from straight above (multisize_step_costs).
// Refused by 1, 2, 3, 4 (also a row not below the height), 8 (out shorter than the width).
uint64_t multisize_energies(const uint8_t *picture, size_t picture_length, multisize_size size, multisize_method method,
                            size_t row, uint32_t *out, size_t out_length);

// Works out what coming to each pixel of a row costs a vertical seam, writes three numbers for each column, one to the front
// of each space, and returns the number: from the column to its left in the row above (left), from straight above (up) and
// from the column to its right (right). By MULTISIZE_EDGE and MULTISIZE_FLAT all three are the pixel's energy. By
// MULTISIZE_FORWARD, the channels added, a neighbour past the side edge being the pixel itself:
//   up     |right neighbour - left neighbour|
//   left   that, and |pixel above - left neighbour|
//   right  that, and |pixel above - right neighbour|
// In row 0, where no pixel is above, all three are the first. What a horizontal seam costs is this in the picture with rows
// and columns exchanged.
// Refused by 1, 2, 3, 4 (also a row not below the height), 8 (one of the spaces shorter than the width).
uint64_t multisize_step_costs(const uint8_t *picture, size_t picture_length, multisize_size size, multisize_method method,
                              size_t row, uint32_t *left, size_t left_length, uint32_t *up, size_t up_length,
                              uint32_t *right, size_t right_length);

// Copies a row to the front of out and returns the number of its bytes. It has none, and isn't refused, where there is no
// such row or where 2, 3 or 4 would refuse the picture. Refused by 1, 8 (out shorter than the row).
multisize_answer multisize_row(const uint8_t *picture, size_t picture_length, multisize_size size, size_t row, uint8_t *out,
                               size_t out_length);

// Finds the cheapest seam along the axis, by the energy of the method; among equals the one whose columns, read from the
// bottom row upward, come first in dictionary order (of a horizontal seam the rows, read from the right). Writes its columns
// from the top row, or its rows from the left column, to the front of seam (multisize_seam_length) and returns its cost: the
// sum of what its steps cost, by MULTISIZE_EDGE and MULTISIZE_FLAT the sum of its energies.
// Refused by 1, 2, 3, 4, 8 (seam too short, work under multisize_work_bytes).
multisize_answer multisize_find(const uint8_t *picture, size_t picture_length, multisize_size size, multisize_method method,
                                uint8_t axis, uint16_t *seam, size_t seam_length, uint8_t *work, size_t work_length);

// Cuts out the seam that multisize_find gives, writes it to the front of seam and returns its cost. The picture left, one
// column or row smaller, lies packed at the front of picture, and the bytes freed at its end are 0.
// Refused as multisize_find, and by 13 at the last column or row.
multisize_answer multisize_cut(uint8_t *picture, size_t picture_length, multisize_size size, multisize_method method,
                               uint8_t axis, uint16_t *seam, size_t seam_length, uint8_t *work, size_t work_length);

// Finds the seam by marks: it touches no protected pixel; among those left it has the most pixels marked 2, then the least
// cost, then it is the first as above. Writes it to the front of seam and returns its cost, as multisize_find does.
// Refused by 1, 2, 3, 4 (picture or marks), 5, 8 as multisize_find, 12.
multisize_answer multisize_find_marked(const uint8_t *picture, size_t picture_length, const uint8_t *marks,
                                       size_t marks_length, multisize_size size, multisize_method method, uint8_t axis,
                                       uint16_t *seam, size_t seam_length, uint8_t *work, size_t work_length);

// Cuts the seam that multisize_find_marked gives out of the picture and of the marks alike, writes it to the front of seam
// and returns its cost; both are left packed as by multisize_cut.
// Refused as multisize_find_marked, and by 13 at the last column or row.
multisize_answer multisize_cut_marked(uint8_t *picture, size_t picture_length, uint8_t *marks, size_t marks_length,
                                      multisize_size size, multisize_method method, uint8_t axis, uint16_t *seam,
                                      size_t seam_length, uint8_t *work, size_t work_length);

// Removes marked objects: cuts vertical seams by marks, at most budget of them, until one of the endings, and returns the
// ending and the number of cuts. Picture and marks are left packed as after that many cuts, and the freed bytes are 0.
// Refused by 1, 2, 3, 4 (picture or marks), 5, 8 (work under multisize_work_bytes). Blocked is an ending, no refusal.
multisize_ended multisize_remove(uint8_t *picture, size_t picture_length, uint8_t *marks, size_t marks_length,
                                 multisize_size size, multisize_method method, uint16_t budget, uint8_t *work,
                                 size_t work_length);

// Removes rows and columns, each 0 to MULTISIZE_LARGEST_COUNT. Of every number of rows and columns less one picture is
// kept: the one with the smaller total, on a tie the one by the vertical cut. Writes the picture left to the front of out
// (multisize_retarget_bytes) and returns the total of its seams' costs; the lent picture stays as it was.
// Refused by 1, 2, 3, 4, 7, 8 (out too short, work under multisize_retarget_work_bytes).
multisize_answer multisize_retarget(const uint8_t *picture, size_t picture_length, multisize_size size,
                                    multisize_method method, size_t rows, size_t columns, uint8_t *out, size_t out_length,
                                    uint8_t *work, size_t work_length);

// Builds the multi-size file of a picture, with its map of depth seams and room to grow by growth columns, writes its text
// to the front of out and returns its length. The text names the energy of the method. Allowed: depth up to width - 1,
// growth up to the depth and up to half the width. multisize_file_bytes is always enough, and 8 is decided by the file's
// own length.
// Refused by 1, 2, 3, 4, 6, 8 (out shorter than the file, work under multisize_work_bytes).
multisize_answer multisize_build(const uint8_t *picture, size_t picture_length, multisize_size size,
                                 multisize_method method, size_t depth, size_t growth, uint8_t *out, size_t out_length,
                                 uint8_t *work, size_t work_length);

// Checks a file, any bytes, and returns its size, method and range. It is judged by the energy that its text names. Accepted
// are the files that multisize_build gives, and no others.
// Refused by 1, 2, 3, 4, 6, 8 (work under multisize_work_bytes of the file's size), 9, 10, 11.
multisize_file_answer multisize_check(const uint8_t *file, size_t file_length, uint8_t *work, size_t work_length);

// Checks a file and reads it: writes its picture to the front of picture, and to the front of map one number a pixel, that
// of the seam that takes it or 0. Returns what multisize_check does.
// Refused by 1, 2, 3, 4, 6, 8 (picture, map or work too short), 9, 10, 11.
multisize_file_answer multisize_read(const uint8_t *file, size_t file_length, uint8_t *picture, size_t picture_length,
                                     uint16_t *map, size_t map_length, uint8_t *work, size_t work_length);

// Checks a file and shows it at the wanted width: writes that picture to the front of out (multisize_shown_bytes) and
// returns its size: the wanted width, the file's height and kind.
// Refused by 1, 2, 3, 4, 6, 7, 8 (out too short, work under multisize_work_bytes of the file's size), 9, 10, 11.
multisize_size_answer multisize_show(const uint8_t *file, size_t file_length, size_t wanted, uint8_t *out,
                                     size_t out_length, uint8_t *work, size_t work_length);

// Shows a row of a picture at the wanted width by its row of the map: writes it to the front of out and returns the number
// of its bytes. With the rows that multisize_read gives and a width that the file offers, these are the rows of what
// multisize_show writes, each wanted * multisize_channels(kind) long, without another check. Any row is served, of as
// many pixels as there are numbers, and at any width: narrower by t it is left without the pixels numbered 1 to t, wider by
// u those numbered 1 to u are doubled. Twice the row's bytes are always enough for out.
// Refused by 1, 4 (samples and numbers don't agree), 8 (out shorter than what is shown).
multisize_answer multisize_row_at(const uint8_t *samples, size_t samples_length, uint8_t kind, const uint16_t *numbers,
                                  size_t numbers_length, size_t wanted, uint8_t *out, size_t out_length);

#ifdef __cplusplus
}
#endif

#endif

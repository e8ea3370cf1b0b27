// Writes a picture of a ridge line as Netpbm (P5) on standard output, 240 by 120: snow on the left, rock on the right, and
// between them a line that runs aslant, one column to the left in each row. The lower snow and the upper rock are rougher
// than the rest, so that seams are drawn across the line.
//   cc -O2 pictures/ridge.c -o ridge
//   ./ridge >ridge.pgm
#include <stdint.h>
#include <stdio.h>

enum { WIDTH = 240, HEIGHT = 120, TOP = 180, SNOW = 225, ROCK = 125, SMOOTH = 3, ROUGH = 9 };

int main(void) {
    uint32_t state = 1;
    printf("P5\n%d %d\n255\n", WIDTH, HEIGHT);
    for (int r = 0; r < HEIGHT; r++)
        for (int c = 0; c < WIDTH; c++) {
            int is_snow = c < TOP - r, is_low = r >= HEIGHT / 2;
            int grain = is_snow == is_low ? ROUGH : SMOOTH;
            state = state * 1664525 + 1013904223;
            putchar((is_snow ? SNOW : ROCK) + (int)((state >> 24) % grain) - grain / 2);
        }
    return fflush(stdout) || ferror(stdout);
}

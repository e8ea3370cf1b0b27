// Writes the course picture of terrain.h as Netpbm (P6) on standard output, in any size up to 512 by 512.
//   cc -O2 pictures/terrain.c -o terrain
//   ./terrain 480 320 >terrain.ppm
#include "terrain.h"
#include <stdio.h>

enum { LARGEST_SIDE = 512, CHANNELS = 3 };

int main(int count, char **words) {
    static uint8_t picture[LARGEST_SIDE * LARGEST_SIDE * CHANNELS];
    int width = count == 3 ? atoi(words[1]) : 0, height = count == 3 ? atoi(words[2]) : 0;
    if (width < 1 || width > LARGEST_SIDE || height < 1 || height > LARGEST_SIDE) {
        fputs("usage: terrain WIDTH HEIGHT, each 1 to 512\n", stderr);
        return 2;
    }
    size_t bytes = (size_t)width * height * CHANNELS;
    fill_terrain(picture, width, height, CHANNELS);
    printf("P6\n%d %d\n255\n", width, height);
    if (fwrite(picture, 1, bytes, stdout) != bytes || fflush(stdout)) {
        perror("terrain");
        return 1;
    }
    return 0;
}

// Reads a picture of the ridge line of ridge.c, carved or not, as Netpbm (P5) on standard input, and says how much of the
// line is bent. In a row the line stands at the first sample that is nearer to rock than to snow. As it was drawn it moves
// one column to the left from each row to the next; where it moves otherwise it is bent.
#include <stdio.h>
#include <stdlib.h>

enum { BETWEEN = 175 };

static int line_of(int width) {
    int place = width;
    for (int c = 0; c < width; c++) {
        int sample = getchar();
        if (sample == EOF) fputs("bends: the picture is too short\n", stderr), exit(1);
        if (sample < BETWEEN && place == width) place = c;
    }
    return place;
}

int main(void) {
    int width, height, bent = 0;
    if (scanf("P5 %d %d 255", &width, &height) != 2 || getchar() != '\n') {
        fputs("bends: no Netpbm picture (P5)\n", stderr);
        return 1;
    }
    int above = line_of(width);
    for (int r = 1; r < height; r++) {
        int place = line_of(width);
        bent += above - place != 1;
        above = place;
    }
    printf("%d of %d steps of the line are bent\n", bent, height - 1);
    return 0;
}

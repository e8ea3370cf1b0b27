// The cheapest seam by the planes of costs.h, in C with no promise, written for speed. A row of sums stands between two numbers that no sum
// is less than, so that no column is asked whether it is the first or the last, and a row becomes vectors. The way back compares sums.
// Included once for each type of sums: SUM; SUM_END, from which on sums are not told apart; AT_MOST(x), x or SUM_END where that is less
// and x could grow past the type; MARK_ROW(marks, w, own), which puts the marks of a row into its sums; and NAMED(x) for its names.
static SUM NAMED(sums)[COST_SIDE * (COST_SIDE + 2)];

static inline SUM NAMED(lesser)(SUM a, SUM b) { return a < b ? a : b; }

// A row of sums from the one above it, where a pixel has one cost.
static inline void NAMED(row)(const SUM *restrict above, const uint16_t *restrict cost, int w, SUM *restrict own) {
    for (int c = 0; c < w; c++) {
        SUM least = NAMED(lesser)(NAMED(lesser)(above[c - 1], above[c]), above[c + 1]);
        own[c] = AT_MOST(least) + (SUM)cost[c];
    }
}

// The same where it has three.
static inline void NAMED(step_row)(const SUM *restrict above, const uint16_t *restrict left, const uint16_t *restrict up,
                                   const uint16_t *restrict right, int w, SUM *restrict own) {
    for (int c = 0; c < w; c++) {
        SUM from_left = AT_MOST(above[c - 1]) + (SUM)left[c];
        SUM from_above = AT_MOST(above[c]) + (SUM)up[c];
        SUM from_right = AT_MOST(above[c + 1]) + (SUM)right[c];
        own[c] = NAMED(lesser)(NAMED(lesser)(from_left, from_above), from_right);
    }
}

// The column above from which the least sum comes to column c, the leftmost of equals; `at` is its place in the planes.
static inline int NAMED(above)(const SUM *sums, int c, int energy, size_t at) {
    SUM left = sums[c - 1], up = sums[c], right = sums[c + 1];
    if (energy == MULTISIZE_FORWARD) left += (SUM)cost_left[at], up += (SUM)cost_up[at], right += (SUM)cost_right[at];
    if (left <= up && left <= right) return c - 1;
    return up <= right ? c : c + 1;
}

// Puts the seam into its space and gives its cost. Where a picture is given, what its pixels cost is worked out row by row, and again on
// the way back, and the planes hold one row; else they hold all costs. Where the cost would be SUM_END or more, it is SUM_END and no seam
// is found.
static inline uint64_t NAMED(find)(const uint8_t *picture, const uint8_t *marks, int w, int h, size_t distance, int channels,
                                   int energy, uint16_t *seam) {
    SUM *own = NAMED(sums) + 1;
    for (int r = 0; r < h; r++) {
        size_t at = picture ? 0 : r * distance;
        if (picture) cost_row(picture, r, w, h, distance, channels, energy, at);
        const SUM *above = own;
        if (r > 0) own += w + 2;
        if (r == 0)
            for (int c = 0; c < w; c++) own[c] = cost_up[c];
        else if (energy == MULTISIZE_FORWARD)
            NAMED(step_row)(above, cost_left + at, cost_up + at, cost_right + at, w, own);
        else
            NAMED(row)(above, cost_up + at, w, own);
        if (marks) MARK_ROW(marks + r * distance, w, own);
        own[-1] = own[w] = SUM_END;
    }
    int c = 0;
    for (int k = 1; k < w; k++)
        if (own[k] < own[c]) c = k;
    if (own[c] >= SUM_END) return SUM_END;
    uint64_t cost = own[c];
    for (int r = h - 1; r > 0; r--) {
        size_t at = picture ? 0 : r * distance + c;
        if (picture && energy == MULTISIZE_FORWARD)
            cost_pixel(pixel_of(picture, r, c, w, h, distance, channels), channels, energy, at);
        seam[r] = c;
        own -= w + 2;
        c = NAMED(above)(own, c, energy, at);
    }
    seam[0] = c;
    return cost;
}

#undef SUM
#undef SUM_END
#undef AT_MOST
#undef MARK_ROW
#undef NAMED

/* Pile six: a query for hot readings, and which of three files it may skip.
 *
 * A reading has x and y on the site, its depth as z and its degrees as m. Each file keeps one record
 * of its readings; a reader that trusts the records opens only the files that may match. */
#include "johikape.h"

#include <stdio.h>
#include <string.h>

enum { FILES = 3 };

static const char *const names[FILES] = {"monday.parquet", "tuesday.parquet", "wednesday.parquet"};

/* Two records of each file: a box (x, y, z, m), the summed width and height of envelopes. */
static const double doubles[2 * FILES][10] = {
    {12.0, 18.0, 40.0, 44.0, 0.2, 1.1, 31.5, 48.0, 6.0, 4.0},
    {13.5, 19.0, 41.0, 45.0, 0.2, 1.4, 33.0, 51.5, 5.5, 4.0},
    {12.5, 18.5, 40.5, 44.5, 0.3, 1.2, 36.0, 52.0, 6.0, 4.0},
    {14.0, 17.0, 41.0, 43.0, 0.9, 1.6, 49.0, 63.5, 3.0, 2.0},
    {52.0, 58.0, 40.0, 44.0, 0.2, 1.1, 57.0, 66.0, 6.0, 4.0},
    {53.0, 57.5, 41.0, 43.5, 0.4, 1.3, 55.5, 64.0, 4.5, 2.5},
};
static const int64_t totals[2 * FILES][7] = {
    {240, 0, 240, 240, 0, 0, 0}, {180, 0, 180, 180, 0, 0, 0}, {220, 0, 220, 220, 0, 0, 0},
    {36, 0, 36, 36, 0, 0, 0},    {250, 0, 250, 250, 0, 0, 0}, {190, 0, 190, 190, 0, 0, 0},
};
static const uint32_t types[2 * FILES] = {0};

int main(void) {
    const uint32_t known = JOHIKAPE_BOX | JOHIKAPE_Z | JOHIKAPE_M | JOHIKAPE_TOTAL_POINTS;
    const uint32_t flags[2] = {known, known};
    const double above_55[8] = {10.0, 20.0, 38.0, 46.0, 0.0, 0.0, 55.0, 120.0};
    const uint8_t literal_flags[1] = {JOHIKAPE_BOX | JOHIKAPE_M};
    const uint32_t filter[4] = {JOHIKAPE_INTERSECTS, 0, 6, 0};

    puts("Wanted: readings above 55 degrees in pile six, x 10 to 20 and y 38 to 46.");
    for (int file = 0; file < FILES; file++) {
        double folded[10];
        int64_t folded_totals[7];
        uint32_t folded_types, folded_flags;
        uint32_t number =
            johikape_fold(doubles[2 * file], 20, totals[2 * file], 14, &types[2 * file], 2, flags,
                          2, folded, folded_totals, &folded_types, &folded_flags);
        if (number != JOHIKAPE_OK) {
            printf("%s: the fold is refused by %u\n", names[file], (unsigned)number);
            return 1;
        }
        const uint8_t record_flags[1] = {(uint8_t)(folded_flags % 8)};
        const uint8_t types_known[1] = {(folded_flags & JOHIKAPE_TYPES) != 0};
        uint32_t answer = johikape_evaluate_by_position(filter, 4, above_55, 8, literal_flags, 1,
                                                        folded, 8, record_flags, 1,
                                                        &folded_types, 1, types_known, 1);
        printf("%-18s %3lld readings, %.1f to %.1f degrees: %s\n", names[file],
               (long long)folded_totals[2], folded[6], folded[7],
               answer == JOHIKAPE_MAY_MATCH      ? "may match, read it"
               : answer == JOHIKAPE_CANNOT_MATCH ? "cannot match, skip it"
                                                 : "refused");
    }

    double box[8];
    uint8_t box_flags;
    if (johikape_filter_bbox(filter, 4, above_55, 8, literal_flags, 1, 6, box, &box_flags) == 0)
        printf("The index is asked for x %g to %g, y %g to %g, from %g degrees on.\n", box[0],
               box[1], box[2], box[3], box[6]);
    return 0;
}

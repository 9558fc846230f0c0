/* Johikape: which files of a spatial archive a query may skip.
 *
 * C's side of a library each of whose functions is proved to give what its definition says.
 *
 * No function keeps state or a pointer, allocates, or writes anywhere but where its comment says, so
 * any number of threads may call any of them at once, on data that nobody changes meanwhile. What is
 * lent stays the caller's. A list is a pointer and its count; with a count of 0 the pointer may be
 * NULL. What is written must not overlap another argument. A pointer must be good for what its type
 * and count say; behind it every value is allowed, and a bad one gets its number (below). Where a
 * function answers the number of a refusal, it has written nothing.
 *
 * STACK, measured on the library as bindings/build compiles it, and not proved: a filter call takes at
 * most 136 KB, johikape_filter_bbox 150 KB. That is of 1,023 nodes, each And or Or with a leaf and the
 * next And or Or; a balanced tree of as many takes 7 KB. The other calls measured take at most 12 KB.
 *
 * A BOX is eight doubles, low and high of x, y, z and m, and flags: JOHIKAPE_BOX, with JOHIKAPE_Z
 * and JOHIKAPE_M where z and m are known. Ends of what is not known are not read, and are written as
 * 0. An x may have its low above its high: it wraps around then. Ends may be infinite or NaN.
 *
 * A ZERO at an end of an interval or a box, or in a `bbox` array, is given and written as +0, so that
 * two boxes without NaN that are equal as numbers, with the same flags, have the same bytes. -0 may be
 * lent: it is read as 0, and stays where a call is refused. The two sums of a record are no ends: their
 * zeros are as IEEE 754 adds them.
 *
 * A RECORD is ten doubles (the eight of its box, then the summed width and height of envelopes),
 * seven totals (geometries, bytes, points, and the counts of puntal, lineal, polygonal and
 * collection geometries), a set of geometry types as 32 bits, and flags that say what is known. A
 * type's bit is 1 for a point, 2 a line string, 3 a polygon, 4 to 6 their multiples, 7 a collection;
 * 8 more with z, 16 more with m, 24 more with both.
 *
 * A FILTER is a list of nodes, four words each; the last is the root. The words are a kind and
 *     JOHIKAPE_INTERSECTS, JOHIKAPE_COVERS    column index, name number, literal number
 *     JOHIKAPE_HAS_Z                          column index, name number, unread
 *     JOHIKAPE_AND, JOHIKAPE_OR               left node, right node (both below it), unread
 *     JOHIKAPE_LITERAL_FALSE, JOHIKAPE_UNKNOWN    three words unread
 * Literals and the columns' records are lists of boxes: eight doubles each, and a list of flags. A
 * record has a type set too, and a known byte, 1 where its types are known, else 0. A HasZ may match
 * unless the record's z is known and empty, or its types are known and none of them has z (bits 8 to
 * 15 and 24 to 31). */
#ifndef JOHIKAPE_H
#define JOHIKAPE_H

#include <stdbool.h>
#include <stddef.h>
#include <stdint.h>

#ifdef __cplusplus
extern "C" {
#endif

/* The numbers that refuse a call. */
enum johikape_number {
    JOHIKAPE_OK = 0,
    JOHIKAPE_TWO_PARTS = 1,    /* the intersection of two x has two parts */
    JOHIKAPE_OVERFLOW = 3,     /* a total leaves the range of an int64_t */
    JOHIKAPE_WORDS = 4,        /* node words none, not in fours, or over 4,096 */
    JOHIKAPE_UNKNOWN_KIND = 5, /* a kind over 6 */
    JOHIKAPE_BAD_TREE = 7,     /* a child not below its parent, or a node but the root not used once */
    JOHIKAPE_BOXES = 8,        /* bad flags or known bytes, or lists whose lengths do not fit */
    JOHIKAPE_NO_LITERAL = 9,   /* a literal number that is not lent */
    JOHIKAPE_NO_COLUMN = 10,   /* by position: a column index that is not lent */
    JOHIKAPE_NAME_TWICE = 11,  /* by name: a name number twice among the records */
    JOHIKAPE_BBOX_LENGTH = 12, /* an array of neither four nor six numbers */
    JOHIKAPE_KNOWN_M = 13,     /* a known m, for which an array has no place */
    JOHIKAPE_BAD_NUMBERS = 14, /* a NaN or an infinity, or a low above its high in y or z */
    JOHIKAPE_WKB_LENGTH = 15,  /* bytes too few, left over, or over 65,536 */
    JOHIKAPE_WKB_CODE = 16,    /* an unknown byte order, or a wrong type code */
    JOHIKAPE_WKB_DEPTH = 17,   /* a collection more than 32 deep */
    JOHIKAPE_BAD_SIZE = 18,    /* a size or the sum missing, negative or over 2^40, or over 1,000 sizes */
    JOHIKAPE_BAD_RATE = 19     /* a rate over 10,000 cents */
};

/* What a test answers, where it is not refused. */
enum johikape_answer {
    JOHIKAPE_NO = 0,
    JOHIKAPE_YES = 1
};

/* What a filter answers, where it is not refused. */
enum johikape_evaluation {
    JOHIKAPE_CANNOT_MATCH = 0,
    JOHIKAPE_MAY_MATCH = 1
};

/* Flags of a box: 1, 3, 5 or 7; of a column's record 0 too, for none. */
enum johikape_box_flag {
    JOHIKAPE_BOX = 1,
    JOHIKAPE_Z = 2,
    JOHIKAPE_M = 4
};

/* Flags of a record: those of its box, or 0 for none, and these. */
enum johikape_record_flag {
    JOHIKAPE_TYPES = 8,
    JOHIKAPE_TOTAL_GEOMETRIES = 16,
    JOHIKAPE_TOTAL_SIZE_BYTES = 32,
    JOHIKAPE_TOTAL_POINTS = 64,
    JOHIKAPE_PUNTAL_COUNT = 128,
    JOHIKAPE_LINEAL_COUNT = 256,
    JOHIKAPE_POLYGONAL_COUNT = 512,
    JOHIKAPE_COLLECTION_COUNT = 1024,
    JOHIKAPE_TOTAL_ENVELOPE_WIDTH = 2048,
    JOHIKAPE_TOTAL_ENVELOPE_HEIGHT = 4096
};

/* Kinds of nodes. */
enum johikape_kind {
    JOHIKAPE_INTERSECTS = 0,
    JOHIKAPE_COVERS = 1,
    JOHIKAPE_HAS_Z = 2,
    JOHIKAPE_AND = 3,
    JOHIKAPE_OR = 4,
    JOHIKAPE_LITERAL_FALSE = 5,
    JOHIKAPE_UNKNOWN = 6
};

/* ---- filters */

/* Whether a file may have a row that the filter wants: JOHIKAPE_CANNOT_MATCH or JOHIKAPE_MAY_MATCH;
 * or the number that refuses the filter, 4, 5 or 7 to 10. A leaf's column index picks its record. */
uint32_t johikape_evaluate_by_position(const uint32_t *nodes, size_t nodes_count,
                                       const double *literals, size_t literals_count,
                                       const uint8_t *literal_flags, size_t literal_flags_count,
                                       const double *records, size_t records_count,
                                       const uint8_t *record_flags, size_t record_flags_count,
                                       const uint32_t *record_types, size_t record_types_count,
                                       const uint8_t *types_known, size_t types_known_count);

/* The same; or 4, 5, 7 to 9 or 11. A leaf's name number is sought among the names, one for each
 * record; one that is not there counts as a record without a box and without types. */
uint32_t johikape_evaluate_by_name(const uint32_t *nodes, size_t nodes_count,
                                   const double *literals, size_t literals_count,
                                   const uint8_t *literal_flags, size_t literal_flags_count,
                                   const double *records, size_t records_count,
                                   const uint8_t *record_flags, size_t record_flags_count,
                                   const uint32_t *record_types, size_t record_types_count,
                                   const uint8_t *types_known, size_t types_known_count,
                                   const uint32_t *names, size_t names_count);

/* Whether a name number is among the names: the search by name that johikape_evaluate_by_name makes
 * at each leaf. It compares from the first name on and ends at the first hit. The hit's place counted
 * from 0 goes into place, names_count where there is none; how many names were compared into
 * compared: the hit's place counted from 1, or all of them. Nothing is refused, not even a name twice. */
bool johikape_find_name(const uint32_t *names, size_t names_count, uint32_t name, size_t *place,
                        size_t *compared);

/* The filter's box for the column of a name number, into ends and flags: what an index scan looks
 * up. 0, or 4, 5 or 7 to 9. */
uint32_t johikape_filter_bbox(const uint32_t *nodes, size_t nodes_count,
                              const double *literals, size_t literals_count,
                              const uint8_t *literal_flags, size_t literal_flags_count,
                              uint32_t name, double ends[8], uint8_t *flags);

/* ---- records */

/* Merges another record into one: boxes and types around both, totals added where both know them.
 * 0; or JOHIKAPE_OVERFLOW or JOHIKAPE_BOXES, and the record stays as it was. */
uint32_t johikape_merge(double doubles[10], int64_t totals[7], uint32_t *types, uint32_t *flags,
                        const double other_doubles[10], const int64_t other_totals[7],
                        uint32_t other_types, uint32_t other_flags);

/* Folds records in their order into one: ten doubles, seven totals, a type set and flags each. Of no
 * records nothing is known. 0; or JOHIKAPE_OVERFLOW, or JOHIKAPE_BOXES where the lists do not fit or
 * flags are bad. */
uint32_t johikape_fold(const double *doubles, size_t doubles_count,
                       const int64_t *totals, size_t totals_count,
                       const uint32_t *types, size_t types_count,
                       const uint32_t *flags, size_t flags_count,
                       double out_doubles[10], int64_t out_totals[7], uint32_t *out_types,
                       uint32_t *out_flags);

/* ---- fees, for bytes of files that a filter does not rule out: those up to 64 GiB at a first rate,
 *      those above that to 512 GiB at a second, the rest at a third, each in whole cents for a GiB (2^30
 *      bytes), at most 10,000. The bands are added exactly, then rounded once to the cent, halves upward:
 *      2^29 bytes at 1 cent cost 1 cent. At most 2^40 bytes have a fee */

/* The fee of a record, by its total of bytes, at three rates, into cents. 0; or JOHIKAPE_BOXES where
 * flags are bad; then JOHIKAPE_BAD_SIZE where the total is missing, negative or over 2^40; then
 * JOHIKAPE_BAD_RATE; and nothing is written. */
uint32_t johikape_fee_of_record(const double doubles[10], const int64_t totals[7], uint32_t types,
                                uint32_t flags, uint32_t first, uint32_t second, uint32_t third,
                                uint64_t *cents);

/* The fee of the sum of at most 1,000 sizes, 0 of none, at three rates, into cents. Each size has a known
 * byte, 1 where it is known, 0 where it is missing and its number is not read. 0; or JOHIKAPE_BOXES
 * where the counts differ or a known byte is bad; then JOHIKAPE_BAD_SIZE where a size or the sum is
 * missing, negative or over 2^40, or there are more sizes; then JOHIKAPE_BAD_RATE; and nothing is
 * written. */
uint32_t johikape_fee_of_sizes(const int64_t *sizes, size_t sizes_count,
                               const uint8_t *known, size_t known_count,
                               uint32_t first, uint32_t second, uint32_t third, uint64_t *cents);

/* ---- boxes */

/* JOHIKAPE_YES or JOHIKAPE_NO; or JOHIKAPE_BOXES where flags are bad. z and m are looked at only
 * where both boxes know them; what an x contains, johikape_x_contains says. */
uint32_t johikape_box_intersects(const double a[8], uint8_t a_flags, const double b[8],
                                 uint8_t b_flags);
uint32_t johikape_box_contains(const double a[8], uint8_t a_flags, const double b[8],
                               uint8_t b_flags);

/* The first box becomes one around both; or what both hold; or itself moved outward in x and y. 0;
 * or JOHIKAPE_BOXES; of the intersection also JOHIKAPE_TWO_PARTS; and the box stays as it was. */
uint32_t johikape_box_merge(double a[8], uint8_t *a_flags, const double b[8], uint8_t b_flags);
uint32_t johikape_box_intersection(double a[8], uint8_t *a_flags, const double b[8],
                                   uint8_t b_flags);
uint32_t johikape_box_expand_by(double a[8], uint8_t *a_flags, double distance);

/* ---- a box as GeoParquet's `bbox` array: (xmin, ymin, xmax, ymax), or with z known (xmin, ymin, zmin,
 *      xmax, ymax, zmax); xmin above xmax where it crosses the antimeridian */

/* The array of a box, into array, with 0 behind it, and its length, 4 or 6, into count. 0; or
 * JOHIKAPE_BOXES, JOHIKAPE_KNOWN_M or JOHIKAPE_BAD_NUMBERS, and nothing is written. */
uint32_t johikape_box_to_geoparquet(const double ends[8], uint8_t flags, double array[6],
                                    size_t *count);

/* The box of an array, into ends and flags; turned back, it has the same numbers, +0 for zero. 0; or
 * JOHIKAPE_BBOX_LENGTH or JOHIKAPE_BAD_NUMBERS, and nothing is written. */
uint32_t johikape_box_from_geoparquet(const double *array, size_t array_count, double ends[8],
                                      uint8_t *flags);

/* ---- a box from well-known binary: OGC 06-103r4 with ISO's type codes, 1 to 7, and 1000 more with z,
 *      2000 more with m, 3000 more with both; each part in a byte order of its own */

/* The box of a geometry, into ends and flags, and a type set of one bit, the outermost geometry's,
 * into types. z and m are known where the type has them. NaN is passed over, infinities are not. An x
 * never wraps around. A dimension without a number is empty, (inf, -inf). 0; or JOHIKAPE_WKB_LENGTH,
 * JOHIKAPE_WKB_CODE or JOHIKAPE_WKB_DEPTH, by the first fault from the front, and nothing is written;
 * of more than 65,536 bytes none is read. Wrong are also the type codes of curves, surfaces and TINs,
 * those with EWKB's flags, and that of a part with other dimensions than its whole, or of a type that
 * its whole does not take. */
uint32_t johikape_box_from_wkb(const uint8_t *bytes, size_t bytes_count, double ends[8],
                               uint8_t *flags, uint32_t *types);

/* ---- intervals: plain ones, as y, z and m are, and x, which may wrap around */

typedef struct johikape_interval {
    double lo;
    double hi;
} johikape_interval;

bool johikape_interval_accepts(johikape_interval a, double value);
bool johikape_interval_intersects(johikape_interval a, johikape_interval b);
bool johikape_interval_contains(johikape_interval a, johikape_interval b);
bool johikape_interval_is_empty(johikape_interval a);
double johikape_interval_width(johikape_interval a);
double johikape_interval_mid(johikape_interval a);
johikape_interval johikape_interval_merge(johikape_interval a, johikape_interval b);
johikape_interval johikape_interval_merge_value(johikape_interval a, double value);
johikape_interval johikape_interval_intersection(johikape_interval a, johikape_interval b);
johikape_interval johikape_interval_expand_by(johikape_interval a, double distance);

bool johikape_x_wraps(johikape_interval a);
bool johikape_x_accepts(johikape_interval a, double value);
bool johikape_x_intersects(johikape_interval a, johikape_interval b);
/* Whether each piece of b that is not empty lies inside a piece of a. A wrapped x has two pieces,
 * (-inf, hi) and (lo, inf), any other itself alone. So (170, -170) contains (175, 178), and (-180, 180)
 * does not contain (170, -170). An empty b is contained by all, one with NaN by none. */
bool johikape_x_contains(johikape_interval a, johikape_interval b);
bool johikape_x_is_empty(johikape_interval a);
double johikape_x_width(johikape_interval a);
double johikape_x_mid(johikape_interval a);
johikape_interval johikape_x_merge(johikape_interval a, johikape_interval b);
johikape_interval johikape_x_merge_value(johikape_interval a, double value);
johikape_interval johikape_x_expand_by(johikape_interval a, double distance);

/* What both hold, into lo and hi. 0; or JOHIKAPE_TWO_PARTS, and nothing is written. */
uint32_t johikape_x_intersection(johikape_interval a, johikape_interval b, double *lo, double *hi);

#ifdef __cplusplus
}
#endif
#endif

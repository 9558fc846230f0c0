/* Hands garbage of every length to each function: garbage ROUNDS
 *
 * Each list and each output lies alone, in memory that is exactly as long as the call is told, so that
 * a memory checker sees every byte that is read or written beside it (bindings/c/run says how). What
 * is seen without one: each call ends, gives an answer or a number of its own, and writes nothing where
 * it is refused. */
#include "johikape.h"

#include <stdio.h>
#include <stdlib.h>
#include <string.h>

enum { MOST_NODES = 1026, MOST_BYTES = 65536, NUMBERS = 20 };

/* Of the tariff: the most sizes, the highest rate, and what 2^40 bytes, or 1,024 GiB, cost at it. */
enum { MOST_SIZES = 1000, HIGHEST_RATE = 10000, HIGHEST_FEE = 1024 * HIGHEST_RATE };
static const size_t LARGEST_SIZE = (size_t)1 << 40;

/* Types of geometries in well-known binary. */
enum { POINT = 1, LINE_STRING = 2, POLYGON = 3, COLLECTION = 7 };

static uint64_t state = 1;
static unsigned long counts[NUMBERS];
static uint8_t written[MOST_BYTES + 100];
static size_t written_count;

/* The next 64 bits (splitmix64). */
static uint64_t bits(void) {
    uint64_t z = state += 0x9e3779b97f4a7c15;
    z = (z ^ (z >> 30)) * 0xbf58476d1ce4e5b9;
    z = (z ^ (z >> 27)) * 0x94d049bb133111eb;
    return z ^ (z >> 31);
}

static size_t below(size_t bound) {
    return (size_t)(bits() % bound);
}

/* How long a list is: mostly as long as it should be. */
static size_t length(size_t fitting) {
    return below(8) ? fitting : below(2 * fitting + 20);
}

/* The memory that a round has taken, the last first. */
struct room {
    void *memory;
    struct room *before;
};
static struct room *last_room;

/* Memory of its own, until the round ends. */
static void *room(size_t size) {
    struct room *made = malloc(sizeof *made);
    void *memory = malloc(size);
    if (made == NULL || (memory == NULL && size > 0)) {
        fputs("no room\n", stderr);
        exit(2);
    }
    *made = (struct room){memory, last_room};
    last_room = made;
    return memory;
}

static void free_rooms(void) {
    while (last_room != NULL) {
        struct room *const freed = last_room;
        last_room = freed->before;
        free(freed->memory);
        free(freed);
    }
}

static void *copy(const void *from, size_t size) {
    return memcpy(room(size), from, size);
}

static double number(void) {
    static const double of_note[] = {0.0, -0.0, 1e308, -1e308, 0x1p-1074, 180.0, -180.0, 170.0};
    const uint64_t any = bits();
    double value;
    switch (below(4)) {
    case 0:
        memcpy(&value, &any, sizeof value);
        return value;
    case 1:
        return of_note[below(8)] * (below(8) ? 1.0 : 1e308);
    default:
        return (double)below(41) - 20.0;
    }
}

static double *doubles(size_t count) {
    double *list = room(count * sizeof *list);
    for (size_t i = 0; i < count; i++)
        list[i] = number();
    return list;
}

static int64_t *totals(size_t count) {
    int64_t *list = room(count * sizeof *list);
    for (size_t i = 0; i < count; i++)
        list[i] = below(4) ? (int64_t)below(1000) : (int64_t)bits();
    return list;
}

/* Sizes whose sum is near the largest size, now and then of any bits. */
static int64_t *sizes(size_t count) {
    int64_t *list = room(count * sizeof *list);
    for (size_t i = 0; i < count; i++)
        list[i] = (int64_t)(below(50 + 4 * count) ? below(2 * LARGEST_SIZE / count) : bits());
    return list;
}

/* Words below a bound, now and then of any bits. */
static uint32_t *words(size_t count, size_t bound) {
    uint32_t *list = room(count * sizeof *list);
    for (size_t i = 0; i < count; i++)
        list[i] = (uint32_t)(below(200) ? below(bound) : bits());
    return list;
}

/* Flags of boxes, now and then of any bits; a long list has hardly more of these than a short one. */
static uint8_t *flags(size_t count) {
    uint8_t *list = room(count);
    for (size_t i = 0; i < count; i++)
        list[i] = (uint8_t)(below(50 + 4 * count) ? 2 * below(4) + 1 : bits());
    return list;
}

/* Known bytes, now and then of any bits. */
static uint8_t *known(size_t count) {
    uint8_t *list = room(count);
    for (size_t i = 0; i < count; i++)
        list[i] = (uint8_t)(below(50 + 4 * count) ? below(2) : bits());
    return list;
}

/* Names that differ, either dense or alike in their low bits; now and then the last ones do not. */
static uint32_t *different_names(size_t count) {
    uint32_t *list = words(count, 8);
    const size_t different = below(4) ? count : below(count + 1);
    const unsigned shift = below(2) ? 16 : 0;
    for (size_t i = 0; i < different; i++)
        list[i] = (uint32_t)i << shift;
    return list;
}

static bool has_twice(const uint32_t *names, size_t count) {
    for (size_t i = 0; i < count; i++)
        for (size_t j = 0; j < i; j++)
            if (names[i] == names[j])
                return true;
    return false;
}

/* A chain of leaves with a word or two of garbage, and cut anywhere. */
static uint32_t *filter(size_t count) {
    static const uint32_t kinds[] = {JOHIKAPE_INTERSECTS, JOHIKAPE_COVERS, JOHIKAPE_HAS_Z,
                                     JOHIKAPE_LITERAL_FALSE, JOHIKAPE_UNKNOWN};
    uint32_t *list = words(count, 4);
    for (size_t i = 0; i + 4 <= count; i += 4) {
        const uint32_t node = (uint32_t)(i / 4);
        list[i] = kinds[below(5)];
        if (node > 0 && node % 2 == 0) {
            list[i] = below(2) ? JOHIKAPE_AND : JOHIKAPE_OR;
            list[i + 1] = node - 2;
            list[i + 2] = node - 1;
        }
    }
    for (size_t faults = below(3); count > 0 && faults > 0; faults--)
        list[below(count)] = (uint32_t)(below(2) ? below(9) : bits());
    return list;
}

/* The bytes of a number. Those for which there is no place are left out. */
static void put(uint64_t value, size_t size, bool low_first) {
    for (size_t i = 0; i < size && written_count < sizeof written; i++)
        written[written_count++] = (uint8_t)(value >> 8 * (low_first ? i : size - 1 - i));
}

static void put_numbers(size_t count, bool low_first) {
    for (size_t i = 0; i < count; i++) {
        const double value = number();
        uint64_t its_bits;
        memcpy(&its_bits, &value, sizeof value);
        put(its_bits, sizeof value, low_first);
    }
}

/* A count: mostly small, now and then some thousands, about as many as the bytes may hold. */
static size_t put_count(bool low_first) {
    const size_t count = below(below(2000) ? 4 : 8000);
    put(count, 4, low_first);
    return count;
}

/* A byte order, which is answered, and a type code. */
static bool put_head(uint32_t code) {
    const bool low_first = below(2);
    put(low_first, 1, low_first);
    put(code, 4, low_first);
    return low_first;
}

/* A geometry of a type; thousands are 1 with z, 2 with m, 3 with both. */
static void put_geometry(uint32_t type, uint32_t thousands) {
    const bool low_first = put_head(1000 * thousands + type);
    const size_t dimensions = 2 + thousands % 2 + thousands / 2;
    const size_t count = type == POINT ? 1 : put_count(low_first);
    for (size_t i = 0; i < count; i++)
        if (type <= LINE_STRING)
            put_numbers(dimensions, low_first);
        else if (type == POLYGON)
            put_numbers(dimensions * put_count(low_first), low_first);
        else
            put_geometry(type == COLLECTION ? (uint32_t)below(COLLECTION) + 1 : type - POLYGON, thousands);
}

/* A geometry, now and then in many collections, and how many bytes it has. */
static size_t write_geometry(void) {
    const uint32_t thousands = (uint32_t)below(4);
    for (size_t collections = below(8) ? 0 : below(40); collections > 0; collections--)
        put(1, 4, put_head(1000 * thousands + COLLECTION));
    put_geometry((uint32_t)below(COLLECTION) + 1, thousands);
    return written_count;
}

/* What is written, and garbage behind it; with a byte or two of garbage, mostly near the front. */
static uint8_t *bytes(size_t count) {
    uint8_t *list = room(count);
    for (size_t i = 0; i < count; i++)
        list[i] = i < written_count ? written[i] : (uint8_t)bits();
    for (size_t faults = below(3); count > 0 && faults > 0; faults--)
        list[below(below(count) + 1)] = (uint8_t)(below(2) ? below(9) : bits());
    return list;
}

static void fail(const char *name, const char *what) {
    fprintf(stderr, "%s: %s\n", name, what);
    exit(1);
}

/* A number is one that the call can give: 2 and 6 are given by none. */
static void gives(const char *name, uint32_t given, uint32_t most) {
    if (given > most || given >= NUMBERS || given == 2 || given == 6)
        fail(name, "a number that it cannot give");
    counts[given]++;
}

/* A call that is refused leaves what it was lent as it was. */
static void leaves(const char *name, uint32_t given, const void *before, const void *after, size_t size) {
    if (given != JOHIKAPE_OK && memcmp(before, after, size) != 0)
        fail(name, "refused, and yet it wrote");
}

static void tests(const char *name, bool given) {
    uint8_t byte;
    memcpy(&byte, &given, 1);
    gives(name, byte, JOHIKAPE_YES);
}

static void intervals(void) {
    const johikape_interval a = {number(), number()}, b = {number(), number()};
    const double value = number();
    double *lo = doubles(1), *hi = doubles(1);
    const double before[2] = {*lo, *hi};
    tests("interval_accepts", johikape_interval_accepts(a, value));
    tests("interval_intersects", johikape_interval_intersects(a, b));
    tests("interval_contains", johikape_interval_contains(a, b));
    tests("interval_is_empty", johikape_interval_is_empty(a));
    tests("x_wraps", johikape_x_wraps(a));
    tests("x_accepts", johikape_x_accepts(a, value));
    tests("x_intersects", johikape_x_intersects(a, b));
    tests("x_contains", johikape_x_contains(a, b));
    tests("x_is_empty", johikape_x_is_empty(a));
    volatile double sink = johikape_interval_width(a) + johikape_interval_mid(a) + johikape_x_width(a) +
                           johikape_x_mid(a) + johikape_interval_merge(a, b).lo +
                           johikape_interval_merge_value(a, value).hi +
                           johikape_interval_intersection(a, b).lo +
                           johikape_interval_expand_by(a, value).hi + johikape_x_merge(a, b).lo +
                           johikape_x_merge_value(a, value).hi + johikape_x_expand_by(a, value).lo;
    (void)sink;
    const uint32_t given = johikape_x_intersection(a, b, lo, hi);
    gives("x_intersection", given, JOHIKAPE_TWO_PARTS);
    leaves("x_intersection", given, &before[0], lo, sizeof *lo);
    leaves("x_intersection", given, &before[1], hi, sizeof *hi);
}

static void boxes(void) {
    const double *b = doubles(8), distance = number();
    const uint8_t b_flags = *flags(1);
    gives("box_intersects", johikape_box_intersects(doubles(8), *flags(1), b, b_flags), JOHIKAPE_BOXES);
    gives("box_contains", johikape_box_contains(doubles(8), *flags(1), b, b_flags), JOHIKAPE_BOXES);
    for (int call = 0; call < 3; call++) {
        double *a = doubles(8);
        uint8_t *a_flags = flags(1);
        const void *a_before = copy(a, 8 * sizeof *a), *flags_before = copy(a_flags, 1);
        const uint32_t given = call == 0   ? johikape_box_merge(a, a_flags, b, b_flags)
                               : call == 1 ? johikape_box_intersection(a, a_flags, b, b_flags)
                                           : johikape_box_expand_by(a, a_flags, distance);
        gives("a box's change", given, JOHIKAPE_BOXES);
        leaves("a box's change", given, a_before, a, 8 * sizeof *a);
        leaves("a box's change", given, flags_before, a_flags, 1);
    }
}

static void layouts(void) {
    const size_t count = below(3) ? 4 + 2 * below(2) : below(10);
    const double *from = doubles(count);
    double *ends = doubles(8), *array = doubles(6);
    uint8_t *out_flags = flags(1);
    size_t *out_count = room(sizeof *out_count);
    *out_count = (size_t)bits();
    const void *ends_before = copy(ends, 8 * sizeof *ends), *flags_before = copy(out_flags, 1);
    const void *array_before = copy(array, 6 * sizeof *array);
    const size_t count_before = *out_count;
    uint32_t given = johikape_box_to_geoparquet(doubles(8), *flags(1), array, out_count);
    gives("box_to_geoparquet", given, JOHIKAPE_BAD_NUMBERS);
    leaves("box_to_geoparquet", given, array_before, array, 6 * sizeof *array);
    leaves("box_to_geoparquet", given, &count_before, out_count, sizeof count_before);
    if (given == JOHIKAPE_OK && *out_count != 4 && *out_count != 6)
        fail("box_to_geoparquet", "a length that no array has");
    given = johikape_box_from_geoparquet(from, count, ends, out_flags);
    gives("box_from_geoparquet", given, JOHIKAPE_BAD_NUMBERS);
    leaves("box_from_geoparquet", given, ends_before, ends, 8 * sizeof *ends);
    leaves("box_from_geoparquet", given, flags_before, out_flags, 1);
}

static void geometries(void) {
    written_count = 0;
    const size_t count = length(below(8) ? write_geometry() : below(100));
    double *ends = doubles(8);
    uint8_t *out_flags = flags(1);
    uint32_t *types = words(1, 128);
    const void *ends_before = copy(ends, 8 * sizeof *ends), *flags_before = copy(out_flags, 1);
    const uint32_t types_before = *types;
    const uint32_t given = johikape_box_from_wkb(bytes(count), count, ends, out_flags, types);
    gives("box_from_wkb", given, JOHIKAPE_WKB_DEPTH);
    leaves("box_from_wkb", given, ends_before, ends, 8 * sizeof *ends);
    leaves("box_from_wkb", given, flags_before, out_flags, 1);
    leaves("box_from_wkb", given, &types_before, types, sizeof types_before);
    if (given == JOHIKAPE_OK && (*types == 0 || (*types & (*types - 1)) != 0))
        fail("box_from_wkb", "a type set that is not one bit");
    if (given != JOHIKAPE_WKB_LENGTH && count > MOST_BYTES)
        fail("box_from_wkb", "more bytes than it may read");
}

static void records(void) {
    double *out = doubles(10);
    int64_t *out_totals = totals(7);
    uint32_t *out_types = words(1, 128), *out_flags = words(1, 8192);
    if (below(2))
        *out_flags = below(2) ? *out_flags | 1 : *out_flags & ~7u;
    const void *before = copy(out, 10 * sizeof *out), *before_totals = copy(out_totals, 7 * sizeof *out_totals);
    const uint32_t before_types = *out_types, before_flags = *out_flags;
    const size_t count = below(12);
    const size_t lengths[4] = {length(10 * count), length(7 * count), length(count), length(count)};
    uint32_t *record_flags = words(lengths[3], 1024);
    for (size_t i = 0; i < lengths[3] && below(50); i++)
        record_flags[i] = 8 * (record_flags[i] % 1024) + (uint32_t)(2 * below(4) + 1);
    const bool is_merge = below(2);
    const uint32_t given =
        is_merge ? johikape_merge(out, out_totals, out_types, out_flags, doubles(10), totals(7),
                                  (uint32_t)bits(), (uint32_t)below(8192))
                 : johikape_fold(doubles(lengths[0]), lengths[0], totals(lengths[1]), lengths[1],
                                 words(lengths[2], 128), lengths[2], record_flags, lengths[3], out,
                                 out_totals, out_types, out_flags);
    const char *name = is_merge ? "merge" : "fold";
    gives(name, given, JOHIKAPE_BOXES);
    leaves(name, given, before, out, 10 * sizeof *out);
    leaves(name, given, before_totals, out_totals, 7 * sizeof *out_totals);
    leaves(name, given, &before_types, out_types, sizeof before_types);
    leaves(name, given, &before_flags, out_flags, sizeof before_flags);
}

/* Three rates, now and then too high. */
static uint32_t *rates(void) {
    return words(3, HIGHEST_RATE + 2);
}

/* What has a fee costs no more than the largest size at the highest rate. */
static void costs(const char *name, uint32_t given, uint64_t before, uint64_t after) {
    gives(name, given, JOHIKAPE_BAD_RATE);
    leaves(name, given, &before, &after, sizeof before);
    if (given == JOHIKAPE_OK && after > HIGHEST_FEE)
        fail(name, "a fee that is too high");
}

static void fees_of_records(void) {
    const uint32_t *at = rates(), *record_flags = words(1, 8192);
    int64_t *record_totals = totals(7);
    uint64_t *cents = room(sizeof *cents);
    const uint64_t before = *cents = bits();
    if (below(4))
        record_totals[1] = *sizes(1);
    const uint32_t given = johikape_fee_of_record(doubles(10), record_totals, (uint32_t)bits(),
                                                  *record_flags, at[0], at[1], at[2], cents);
    costs("fee_of_record", given, before, *cents);
}

static void fees_of_sizes(void) {
    const size_t count = below(50) ? below(12) : MOST_SIZES - 4 + below(8);
    const size_t s = length(count), k = length(count);
    const uint32_t *at = rates();
    uint8_t *sizes_known = known(k);
    /* Mostly all of them are. */
    for (size_t i = 0; i < k && below(4 * k); i++)
        sizes_known[i] = 1;
    uint64_t *cents = room(sizeof *cents);
    const uint64_t before = *cents = bits();
    const uint32_t given = johikape_fee_of_sizes(sizes(s), s, sizes_known, k, at[0], at[1], at[2], cents);
    costs("fee_of_sizes", given, before, *cents);
    if (s != k && given != JOHIKAPE_BOXES)
        fail("fee_of_sizes", "lists that do not fit");
    if (s > MOST_SIZES && given != JOHIKAPE_BOXES && given != JOHIKAPE_BAD_SIZE)
        fail("fee_of_sizes", "more sizes than it may take");
}

static void filters(void) {
    const size_t most = below(100) ? 12 : MOST_NODES;
    const size_t columns = below(50) ? 4 + below(4) : below(1000), literals = 4 + below(4);
    const size_t n = length(4 * (2 * below(most / 2) + 1)), l = length(8 * literals), lf = length(literals);
    const size_t r = length(8 * columns), rf = length(columns), rt = length(columns);
    const size_t tk = length(columns), names_count = length(columns);
    const uint32_t *nodes = filter(n);
    const double *literal_ends = doubles(l), *record_ends = doubles(r);
    const uint8_t *literal_flags = flags(lf), *record_flags = flags(rf), *types_known = known(tk);
    /* Half of the lists have hardly a type with z. */
    const uint32_t *record_types = words(rt, below(2) ? 256 : UINT32_MAX);
    const uint32_t *names = different_names(names_count);
    double *ends = doubles(8);
    uint8_t *out_flags = flags(1);
    const void *before = copy(ends, 8 * sizeof *ends), *before_flags = copy(out_flags, 1);
    gives("evaluate_by_position",
          johikape_evaluate_by_position(nodes, n, literal_ends, l, literal_flags, lf, record_ends, r,
                                        record_flags, rf, record_types, rt, types_known, tk),
          JOHIKAPE_NO_COLUMN);
    uint32_t given = johikape_evaluate_by_name(nodes, n, literal_ends, l, literal_flags, lf, record_ends, r,
                                               record_flags, rf, record_types, rt, types_known, tk, names,
                                               names_count);
    gives("evaluate_by_name", given, JOHIKAPE_NAME_TWICE);
    if (has_twice(names, names_count) ? given <= JOHIKAPE_MAY_MATCH : given == JOHIKAPE_NAME_TWICE)
        fail("evaluate_by_name", "wrong about a name twice");
    given = johikape_filter_bbox(nodes, n, literal_ends, l, literal_flags, lf, (uint32_t)below(8), ends,
                                 out_flags);
    gives("filter_bbox", given, JOHIKAPE_NO_LITERAL);
    leaves("filter_bbox", given, before, ends, 8 * sizeof *ends);
    leaves("filter_bbox", given, before_flags, out_flags, 1);
}

/* A name that is among names or not. */
static void searches(void) {
    const size_t count = below(50) ? below(12) : below(1000);
    const uint32_t *names = below(2) ? different_names(count) : words(count, below(2) ? 8 : UINT32_MAX);
    const uint32_t name = count > 0 && below(2) ? names[below(count)] : *words(1, 8);
    size_t *place = room(sizeof *place), *compared = room(sizeof *compared), first = 0;
    *place = *compared = (size_t)bits();
    while (first < count && names[first] != name)
        first++;
    const bool hit = first < count, given = johikape_find_name(names, count, name, place, compared);
    tests("find_name", given);
    if (given != hit || *place != first || *compared != first + hit)
        fail("find_name", "another answer than a plain loop's");
}

int main(int count, char **arguments) {
    const unsigned long rounds = count == 2 ? strtoul(arguments[1], NULL, 10) : 1000;
    for (unsigned long i = 0; i < rounds; i++) {
        intervals();
        boxes();
        layouts();
        geometries();
        records();
        fees_of_records();
        fees_of_sizes();
        filters();
        searches();
        free_rooms();
    }
    printf("%lu rounds of garbage to 37 functions; answers and numbers:", rounds);
    for (int i = 0; i < NUMBERS; i++)
        if (counts[i] > 0)
            printf(" %d: %lu", i, counts[i]);
    puts("");
    return 0;
}

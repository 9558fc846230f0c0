/* Measures how many bytes of stack the deepest calls use: stack
 *
 * Each call runs on a stack of its own that was filled with a pattern. It used what lies from the lowest
 * word that has changed to the top, less what an empty call uses there. A call is made with several
 * inputs, and the largest number is printed. Every answer is checked, so that no refused call is measured.
 * The exit code is 1 where a number is above its limit or an answer is wrong. */
#define _XOPEN_SOURCE 700
#include "johikape.h"

#include <math.h>
#include <stdio.h>
#include <stdlib.h>
#include <string.h>
#include <ucontext.h>

/* The largest tree of leaves and pairs that a filter can be. */
enum { LEAVES = 512, NODES = 2 * LEAVES - 1 };

enum { NAMES = 900, RECORDS = 1000, COLLECTIONS = 32 };

/* The most bytes of stack that a call may use, as johikape.h says. */
enum { EVALUATE_LIMIT = 136000, FILTER_BBOX_LIMIT = 150000, OTHER_LIMIT = 12000 };

/* ---- what is lent */

static uint32_t nodes[NODES][4];
static uint32_t nodes_count;

/* A leaf of a record that is near may match, and one of a record that is far cannot, whatever its kind. */
static const double literal[8] = {1.0, 2.0, 1.0, 2.0, 1.0, 2.0, 1.0, 2.0};
static const double near[8] = {0.0, 9.0, 0.0, 9.0, 0.0, 9.0, 0.0, 9.0};
static const double far[8] = {20.0, 30.0, 20.0, 30.0, INFINITY, -INFINITY, 20.0, 30.0};
static const uint8_t all_known[1] = {JOHIKAPE_BOX | JOHIKAPE_Z | JOHIKAPE_M};

static double records[NAMES][8];
static uint8_t record_flags[NAMES];
static uint32_t record_types[NAMES];
static uint8_t types_known[NAMES];
static uint32_t names[NAMES];
static size_t columns;

static double doubles[RECORDS][10];
static int64_t totals[RECORDS][7];
static uint32_t types[RECORDS];
static uint32_t flags[RECORDS];

static uint8_t bytes[400];
static size_t bytes_count;

/* ---- what is answered */

static uint32_t right_answer;
static const double *right_box;

static const double full[8] = {-INFINITY, INFINITY, -INFINITY, INFINITY, 0.0, 0.0, 0.0, 0.0};

static double out[10];
static int64_t out_totals[7];
static uint32_t out_types, out_flags;
static uint8_t out_box_flags;
static size_t place, compared;

/* ---- calls, which say whether the answer is right */

static bool nothing(void) {
    return true;
}

static bool evaluate_by_position(void) {
    return johikape_evaluate_by_position(nodes[0], 4 * nodes_count, literal, 8, all_known, 1,
                                         records[0], 8 * columns, record_flags, columns,
                                         record_types, columns, types_known,
                                         columns) == right_answer;
}

static bool evaluate_by_name(void) {
    return johikape_evaluate_by_name(nodes[0], 4 * nodes_count, literal, 8, all_known, 1,
                                     records[0], 8 * columns, record_flags, columns, record_types,
                                     columns, types_known, columns, names,
                                     columns) == right_answer;
}

static bool filter_bbox(void) {
    return johikape_filter_bbox(nodes[0], 4 * nodes_count, literal, 8, all_known, 1, names[0], out,
                                &out_box_flags) == JOHIKAPE_OK &&
           memcmp(out, right_box, sizeof full) == 0;
}

static bool find_name(void) {
    return johikape_find_name(names, columns, names[columns - 1], &place, &compared) &&
           compared == columns;
}

static bool fold(void) {
    return johikape_fold(doubles[0], 10 * RECORDS, totals[0], 7 * RECORDS, types, RECORDS, flags,
                         RECORDS, out, out_totals, &out_types, &out_flags) == JOHIKAPE_OK &&
           out_totals[0] == RECORDS;
}

static bool box_from_wkb(void) {
    return johikape_box_from_wkb(bytes, bytes_count, out, &out_box_flags, &out_types) ==
               JOHIKAPE_OK &&
           out_types == 1u << 7;
}

/* ---- a stack of its own */

static const uint64_t PATTERN = 0x5bd1e995a7c3f16d;

static _Alignas(64) uint64_t stack[1 << 17];
static ucontext_t here, there;
static bool (*call)(void);
static bool is_right;

static void enter(void) {
    is_right = call();
}

static void must(bool holds, const char *otherwise) {
    if (!holds) {
        fprintf(stderr, "%s\n", otherwise);
        exit(1);
    }
}

/* Bytes from the top that a call has changed. It is made on the usual stack first, so that the loader
 * has nothing left to do in it. */
static size_t changed(bool (*wanted)(void)) {
    const size_t words = sizeof stack / sizeof *stack;
    call = wanted;
    enter();
    must(is_right, "a wrong answer");
    for (size_t i = 0; i < words; i++)
        stack[i] = PATTERN;
    must(getcontext(&there) == 0, "no context");
    there.uc_stack.ss_sp = stack;
    there.uc_stack.ss_size = sizeof stack;
    there.uc_link = &here;
    makecontext(&there, enter, 0);
    must(swapcontext(&here, &there) == 0 && is_right, "a wrong answer on a stack of its own");
    size_t lowest = 0;
    while (stack[lowest] == PATTERN)
        lowest++;
    must(lowest > 0, "the stack is too small");
    return (words - lowest) * sizeof *stack;
}

static size_t used(bool (*wanted)(void)) {
    return changed(wanted) - changed(nothing);
}

static bool is_above;

static void report(const char *name, const char *input, size_t number, size_t limit) {
    printf("%s, %s: %zu bytes%s\n", name, input, number, number > limit ? ", ABOVE ITS LIMIT" : "");
    is_above = is_above || number > limit;
}

/* ---- filters */

/* The leaves of a tree are all alike: a kind, and the column that they want. */
struct tree {
    uint32_t pair, kind, column;
};

static uint32_t add(uint32_t kind, uint32_t a, uint32_t b) {
    const uint32_t node[4] = {kind, a, b, 0};
    memcpy(nodes[nodes_count], node, sizeof node);
    return nodes_count++;
}

static uint32_t leaf(struct tree tree) {
    return add(tree.kind, tree.column, names[tree.column]);
}

static uint32_t to_the_left(struct tree tree, int leaves) {
    if (leaves == 1)
        return leaf(tree);
    const uint32_t chain = to_the_left(tree, leaves - 1);
    return add(tree.pair, chain, leaf(tree));
}

static uint32_t to_the_right(struct tree tree, int leaves) {
    if (leaves == 1)
        return leaf(tree);
    const uint32_t chain = to_the_right(tree, leaves - 1);
    return add(tree.pair, leaf(tree), chain);
}

static uint32_t balanced(struct tree tree, int leaves) {
    if (leaves == 1)
        return leaf(tree);
    const uint32_t left = balanced(tree, leaves / 2);
    return add(tree.pair, left, balanced(tree, leaves - leaves / 2));
}

/* Columns with different names that do not ascend, all far but one. */
static void lend_columns(size_t count, size_t near_one) {
    columns = count;
    for (size_t i = 0; i < count; i++) {
        memcpy(records[i], i == near_one ? near : far, sizeof near);
        record_flags[i] = all_known[0];
        names[i] = (uint32_t)(i * 367 % NAMES);
    }
}

/* The most that a call uses over trees of one shape: of each pair and kind, and with both answers. */
static size_t most_used(bool (*wanted)(void), uint32_t (*shape)(struct tree, int)) {
    size_t most = 0;
    lend_columns(2, 0);
    for (uint32_t pair = JOHIKAPE_AND; pair <= JOHIKAPE_OR; pair++)
        for (uint32_t kind = JOHIKAPE_INTERSECTS; kind <= JOHIKAPE_HAS_Z; kind++)
            for (uint32_t column = 0; column < 2; column++) {
                nodes_count = 0;
                shape((struct tree){pair, kind, column}, LEAVES);
                right_answer = column == 0 ? JOHIKAPE_MAY_MATCH : JOHIKAPE_CANNOT_MATCH;
                right_box = column == 0 && kind != JOHIKAPE_HAS_Z ? literal : full;
                const size_t bytes_used = used(wanted);
                most = bytes_used > most ? bytes_used : most;
            }
    return most;
}

static const struct {
    const char *name;
    uint32_t (*make)(struct tree, int);
} shapes[] = {
    {"1,023 nodes in a row to the left", to_the_left},
    {"1,023 nodes in a row to the right", to_the_right},
    {"1,023 nodes in a balanced tree", balanced},
};

static const struct {
    const char *name;
    bool (*call)(void);
    size_t limit;
} filters[] = {
    {"evaluate_by_position", evaluate_by_position, EVALUATE_LIMIT},
    {"evaluate_by_name", evaluate_by_name, EVALUATE_LIMIT},
    {"filter_bbox", filter_bbox, FILTER_BBOX_LIMIT},
};

static void report_filters(void) {
    for (size_t i = 0; i < sizeof shapes / sizeof *shapes; i++)
        for (size_t j = 0; j < sizeof filters / sizeof *filters; j++)
            report(filters[j].name, shapes[i].name, most_used(filters[j].call, shapes[i].make),
                   filters[j].limit);
}

static void report_names(void) {
    const uint32_t middle = NAMES / 2;
    lend_columns(NAMES, middle);
    nodes_count = 0;
    leaf((struct tree){0, JOHIKAPE_INTERSECTS, middle});
    right_answer = JOHIKAPE_MAY_MATCH;
    report("evaluate_by_name", "900 names that do not ascend", used(evaluate_by_name), OTHER_LIMIT);
    report("find_name", "900 names", used(find_name), OTHER_LIMIT);
}

/* ---- records and bytes */

static void report_fold(void) {
    for (size_t i = 0; i < RECORDS; i++) {
        memcpy(doubles[i], near, sizeof near);
        totals[i][0] = 1;
        flags[i] = 8191;
    }
    report("fold", "1,000 records", used(fold), OTHER_LIMIT);
}

/* A head with a count of 1, low byte first. */
static void write_head(uint8_t type) {
    const uint8_t head[9] = {1, type, 0, 0, 0, 1, 0, 0, 0};
    memcpy(bytes + bytes_count, head, sizeof head);
    bytes_count += sizeof head;
}

/* In the innermost collection is a MultiPolygon of one ring with one point, (0, 0). */
static void report_wkb(void) {
    enum { POLYGON = 3, MULTI_POLYGON = 6, COLLECTION = 7 };
    for (int i = 0; i < COLLECTIONS; i++)
        write_head(COLLECTION);
    write_head(MULTI_POLYGON);
    write_head(POLYGON);
    bytes[bytes_count] = 1;
    bytes_count += 4 + 16;
    report("box_from_wkb", "32 nested collections", used(box_from_wkb), OTHER_LIMIT);
}

int main(void) {
    report_filters();
    report_names();
    report_fold();
    report_wkb();
    return is_above ? 1 : 0;
}

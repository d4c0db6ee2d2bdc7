/* Meets every refusal, 1 to 18 and 22, through the C library, and the limits of teakpool.h from both sides. */
#include "teakpool.h"
#include "bytes.h"

#include <math.h>
#include <string.h>

#define ENTRIES 8u
#define EACH(i, rows) (size_t i = 0; i < sizeof rows / sizeof rows[0]; i++)

/* The numbers that were returned so far. */
static int met[TEAKPOOL_SHARED_POINT + 1];

static void expect_number(uint32_t code, uint32_t number, const char *what)
{
    if (code <= TEAKPOOL_SHARED_POINT) {
        met[code] = 1;
    }
    if (code != number) {
        printf("not as expected: %s: %u, and not %u\n", what, code, number);
        failures++;
    }
}

static int is_filled(const void *bytes, size_t length, int byte)
{
    const uint8_t *at = bytes;
    for (size_t i = 0; i < length; i++) {
        if (at[i] != byte) {
            return 0;
        }
    }
    return 1;
}

/* Tables of zeros. G and D are only read, so they may be the same memory. */
static double table[TEAKPOOL_MAX_TABLE + 1];

/* Priors of (0,9), without children, and of (1,7), whose chain is (0,7), (0,9). The third child record is a chain of its own. */
static uint8_t nodes[2 * TEAKPOOL_RECORD_SIZE];
static uint8_t children[3 * TEAKPOOL_RECORD_SIZE];
static int32_t prior_floor = INT32_MIN;

/* A tracker of window 1 to which (1,7), (0,9) is added. Its entries: the ending of (0,9), the ending of (1,7), (0,9) under (1,7). */
static uint32_t state[3];
static uint8_t book[ENTRIES * TEAKPOOL_ENTRY_SIZE];
static uint8_t queue[TEAKPOOL_PLACE_SIZE];
static uint8_t path[2 * TEAKPOOL_STEP_SIZE];

/* A list of paths, and a tracker's memory for single adds. */
static uint8_t list[3 * TEAKPOOL_PLACE_SIZE];
static uint32_t single_state[3];
static uint8_t single_book[sizeof book], single_queue[sizeof queue];

/* Outputs. */
static uint8_t addresses[2 * TEAKPOOL_STEP_SIZE];
static double figures[2];
static uint32_t counts[2], places;
static double ending;
static int32_t node_scale;
static uint32_t node_point;

/* What trainings are lent. Every place of `sequences` has the length 0, so the first path stops a training with 10. */
static uint8_t sequences[(TEAKPOOL_MAX_SEQUENCE_PATHS + 1) * TEAKPOOL_PLACE_SIZE];
static uint8_t one_path[TEAKPOOL_PLACE_SIZE];
static uint32_t knots[TEAKPOOL_MAX_KNOTS + 1];
static double values[(TEAKPOOL_MAX_KNOTS + 1) * TEAKPOOL_KNOT_VALUES];

/* Memory at the limits and a step past them. */
static uint8_t large_nodes[(TEAKPOOL_MAX_NODES + 1) * TEAKPOOL_RECORD_SIZE];
static uint8_t large_children[(TEAKPOOL_MAX_CHILDREN + 1) * TEAKPOOL_RECORD_SIZE];
static uint8_t large_book[(TEAKPOOL_MAX_ENTRIES + 1) * TEAKPOOL_ENTRY_SIZE];
static uint8_t large_queue[TEAKPOOL_MAX_WINDOW * TEAKPOOL_PLACE_SIZE];

static void lend_priors(void)
{
    prior_floor = INT32_MIN;
    put_record(nodes, 0, 9, 1, 0);
    put_record(nodes + 16, 1, 7, 1, 1);
    put_record(children, 0, 7, 2, 2);
    put_record(children + 16, 0, 9, 3, 0);
    put_record(children + 32, 0, 7, 2, 0);
}

static void open_and_add(void)
{
    put_address(path, 1, 7);
    put_address(path + 8, 0, 9);
    expect_number(teakpool_open(1, book, sizeof book, queue, sizeof queue, state), TEAKPOOL_DONE, "an opening");
    expect_number(teakpool_add_path(state, book, sizeof book, queue, sizeof queue, path, sizeof path), TEAKPOOL_DONE, "an add");
}

/* ---- 1 and 2 */

static void table_lengths(void)
{
    static const struct {
        size_t g_length, d_length;
        uint32_t number;
        const char *what;
    } rows[] = {
        {1, 1, TEAKPOOL_TABLE_LENGTHS, "tables of one entry"},
        {2, 2, TEAKPOOL_DONE, "tables of two entries"},
        {2, 3, TEAKPOOL_TABLE_LENGTHS, "tables of two lengths"},
        {TEAKPOOL_MAX_TABLE, TEAKPOOL_MAX_TABLE, TEAKPOOL_DONE, "the longest tables"},
        {TEAKPOOL_MAX_TABLE + 1, TEAKPOOL_MAX_TABLE + 1, TEAKPOOL_TABLE_LENGTHS, "tables past the longest"},
    };
    for EACH(i, rows) {
        expect_number(teakpool_check_tables(table, rows[i].g_length, table, rows[i].d_length), rows[i].number, rows[i].what);
    }
}

static void table_entries(void)
{
    static const struct {
        double entries[2];
        uint32_t number;
        const char *what;
    } rows[] = {
        {{NAN, 0.0}, TEAKPOOL_DONE, "a NaN at index 0, which is not read"},
        {{0.0, NAN}, TEAKPOOL_TABLE_ENTRY, "a NaN at index 1"},
        {{0.0, 1099511627776.0}, TEAKPOOL_DONE, "an entry of 2^40"},
        {{0.0, 1099511627777.0}, TEAKPOOL_TABLE_ENTRY, "an entry past 2^40"},
        {{0.0, -1099511627776.0}, TEAKPOOL_DONE, "an entry of -2^40"},
        {{0.0, -1099511627777.0}, TEAKPOOL_TABLE_ENTRY, "an entry below -2^40"},
    };
    for EACH(i, rows) {
        expect_number(teakpool_check_tables(rows[i].entries, 2, table, 2), rows[i].number, rows[i].what);
        expect_number(teakpool_check_tables(table, 2, rows[i].entries, 2), rows[i].number, rows[i].what);
    }
}

/* ---- 3 to 7 and 22 */

/* The look-up of a child refuses what the check refuses, and leaves both numbers then. */
static uint32_t check_priors_of(const uint8_t *its_nodes, size_t nodes_length, const uint8_t *its_children, size_t children_length,
                                int32_t floor)
{
    uint32_t count = 77, read = 78;
    uint32_t code = teakpool_check_priors(its_nodes, nodes_length, its_children, children_length, floor);
    uint32_t found = teakpool_child(its_nodes, nodes_length, its_children, children_length, floor, 1, 7, 0, 9, &count, &read);
    if (code == TEAKPOOL_DONE) {
        expect((found == TEAKPOOL_DONE || (found == TEAKPOOL_NONE && count == 77)) && read != 78, "a child of priors as they should be");
    } else {
        expect(found == code && count == 77 && read == 78, "a child of priors that are refused");
    }
    return code;
}

static uint32_t check_priors(void)
{
    return check_priors_of(nodes, sizeof nodes, children, sizeof children, prior_floor);
}

static void prior_records(void)
{
    static const struct {
        uint8_t *at;
        uint32_t word, number;
        const char *what;
    } rows[] = {
        {nodes, 0xffffffffu, TEAKPOOL_DONE, "a first node of scale -1"},
        {nodes, 1, TEAKPOOL_NODE_ORDER, "nodes that do not ascend"},
        {nodes + 28, 4, TEAKPOOL_LINKS, "a first link past the last record"},
        {children + 12, 1, TEAKPOOL_LINKS, "a next link that does not rise"},
        {children + 28, 4, TEAKPOOL_LINKS, "a next link past the last record"},
        {children + 44, 3, TEAKPOOL_LINKS, "a next link that does not rise, in a record out of reach"},
        {children + 4, 9, TEAKPOOL_CHAIN_ORDER, "a chain that does not ascend"},
        {children + 8, 0, TEAKPOOL_ZERO_PRIOR, "a child count of 0"},
        {children + 40, 0, TEAKPOOL_ZERO_PRIOR, "a child count of 0, in a record out of reach"},
        {nodes + 8, 0, TEAKPOOL_ZERO_PRIOR, "a node total of 0"},
    };
    expect_number(check_priors(), TEAKPOOL_DONE, "priors");
    for EACH(i, rows) {
        put_word(rows[i].at, rows[i].word);
        expect_number(check_priors(), rows[i].number, rows[i].what);
        lend_priors();
    }
}

/* The points of the nodes are 9 and 7; with 7 in the first record's place they are one. */
static void shared_points(void)
{
    static const struct {
        uint32_t point;
        int32_t floor;
        uint32_t number;
        const char *what;
    } rows[] = {
        {9, INT32_MAX, TEAKPOOL_DONE, "two points below the floor"},
        {7, INT32_MIN, TEAKPOOL_DONE, "one point, and no floor"},
        {7, 0, TEAKPOOL_DONE, "one point, and the lower record at the floor"},
        {7, 1, TEAKPOOL_DONE, "one point, and the higher record at the floor"},
        {7, 2, TEAKPOOL_SHARED_POINT, "one point below the floor"},
        {7, INT32_MAX, TEAKPOOL_SHARED_POINT, "one point below the greatest floor"},
    };
    uint8_t apart[3 * TEAKPOOL_RECORD_SIZE];
    for EACH(i, rows) {
        put_word(nodes + 4, rows[i].point);
        prior_floor = rows[i].floor;
        expect_number(check_priors(), rows[i].number, rows[i].what);
    }
    put_word(nodes + 8, 0);
    expect_number(check_priors(), TEAKPOOL_ZERO_PRIOR, "a node total of 0 as well: 7 before 22");
    lend_priors();
    for (uint32_t i = 0; i < 3; i++) {
        put_record(apart + 16 * i, (int32_t)i - 3, i % 2, 1, 0);
    }
    expect_number(check_priors_of(apart, sizeof apart, children, sizeof children, -1), TEAKPOOL_DONE,
                  "the second of one point at the floor");
    expect_number(check_priors_of(apart, sizeof apart, children, sizeof children, 0), TEAKPOOL_SHARED_POINT,
                  "one point, and another record between the two");
}

static void prior_sizes(void)
{
    static const struct {
        size_t nodes_length, children_length;
        uint32_t number;
        const char *what;
    } rows[] = {
        {0, 0, TEAKPOOL_DONE, "no priors"},
        {15, 0, TEAKPOOL_PRIOR_SIZES, "a part of a node record"},
        {0, 17, TEAKPOOL_PRIOR_SIZES, "a part of a child record"},
        {TEAKPOOL_MAX_NODES * 16, TEAKPOOL_MAX_CHILDREN * 16, TEAKPOOL_DONE, "the most records"},
        {(TEAKPOOL_MAX_NODES + 1) * 16, 0, TEAKPOOL_PRIOR_SIZES, "a node record too many"},
        {0, (TEAKPOOL_MAX_CHILDREN + 1) * 16, TEAKPOOL_PRIOR_SIZES, "a child record too many"},
    };
    for (uint32_t i = 0; i <= TEAKPOOL_MAX_NODES; i++) {
        put_record(large_nodes + 16 * i, 0, i, 1, 0);
    }
    for (uint32_t i = 0; i <= TEAKPOOL_MAX_CHILDREN; i++) {
        put_record(large_children + 16 * i, 0, i, 1, 0);
    }
    for EACH(i, rows) {
        for (int32_t floor = 0; floor <= 1; floor++) {
            expect_number(check_priors_of(large_nodes, rows[i].nodes_length, large_children, rows[i].children_length, floor),
                          rows[i].number, rows[i].what);
        }
    }
    put_word(large_nodes, 0xffffffffu);
    put_word(large_nodes + 4, TEAKPOOL_MAX_NODES - 1);
    expect_number(check_priors_of(large_nodes, TEAKPOOL_MAX_NODES * 16, large_children, 0, 1), TEAKPOOL_SHARED_POINT,
                  "the first and the last of the most records with one point");
}

/* One chain of 65 records: from its second record on it has 64. */
static void prior_chains(void)
{
    uint8_t node[16];
    size_t length = (TEAKPOOL_MAX_CHAIN + 1) * 16;
    for (uint32_t i = 0; i <= TEAKPOOL_MAX_CHAIN; i++) {
        put_record(large_children + 16 * i, 0, i, 1, i == TEAKPOOL_MAX_CHAIN ? 0 : i + 2);
    }
    put_record(node, 1, 7, 0, 2);
    expect_number(check_priors_of(node, sizeof node, large_children, length, INT32_MIN), TEAKPOOL_DONE, "the longest chain");
    put_record(node, 1, 7, 0, 1);
    expect_number(check_priors_of(node, sizeof node, large_children, length, INT32_MIN), TEAKPOOL_LINKS,
                  "a chain past the longest");
}

/* ---- 8 to 12 */

static void openings(void)
{
    static const struct {
        uint32_t window;
        size_t book_length, queue_length;
        uint32_t number;
        const char *what;
    } rows[] = {
        {0, 24, 0, TEAKPOOL_DONE, "the least book"},
        {0, 0, 0, TEAKPOOL_FORM, "an empty book"},
        {0, 25, 0, TEAKPOOL_FORM, "a book of a byte too many"},
        {1, 24, 515, TEAKPOOL_FORM, "a queue of a byte too few"},
        {TEAKPOOL_MAX_WINDOW, TEAKPOOL_MAX_ENTRIES * 24, TEAKPOOL_MAX_WINDOW * 516, TEAKPOOL_DONE, "the largest opening"},
        {TEAKPOOL_MAX_WINDOW, (TEAKPOOL_MAX_ENTRIES + 1) * 24, TEAKPOOL_MAX_WINDOW * 516, TEAKPOOL_FORM, "an entry too many"},
        {TEAKPOOL_MAX_WINDOW + 1, 24, TEAKPOOL_MAX_WINDOW * 516, TEAKPOOL_WINDOW, "a window over 1,024: 8 before 9"},
    };
    for EACH(i, rows) {
        uint32_t own[3] = {77, 77, 77};
        uint32_t code = teakpool_open(rows[i].window, large_book, rows[i].book_length, large_queue, rows[i].queue_length, own);
        expect_number(code, rows[i].number, rows[i].what);
        expect(own[0] == (code == TEAKPOOL_DONE ? rows[i].window : 77), "an opening's state");
    }
}

static void path_lengths(void)
{
    static const uint8_t zeros[(TEAKPOOL_MAX_STEPS + 1) * TEAKPOOL_STEP_SIZE];
    static const struct {
        size_t length;
        uint32_t number;
        const char *what;
    } rows[] = {
        {0, TEAKPOOL_PATH_LENGTH, "an empty path"},
        {7, TEAKPOOL_PATH_LENGTH, "a part of a step"},
        {8, TEAKPOOL_DONE, "a path of one step"},
        {TEAKPOOL_MAX_STEPS * 8, TEAKPOOL_DONE, "the longest path"},
        {(TEAKPOOL_MAX_STEPS + 1) * 8, TEAKPOOL_PATH_LENGTH, "a path past the longest"},
    };
    for EACH(i, rows) {
        open_and_add();
        expect_number(teakpool_add_path(state, book, sizeof book, queue, sizeof queue, zeros, rows[i].length), rows[i].number,
                      rows[i].what);
    }
}

static void full_trackers(void)
{
    open_and_add();
    state[2] = TEAKPOOL_MAX_PATHS_ACCEPTED - 1;
    expect_number(teakpool_add_path(state, book, sizeof book, queue, sizeof queue, path, sizeof path), TEAKPOOL_DONE,
                  "the last path");
    expect(state[2] == TEAKPOOL_MAX_PATHS_ACCEPTED, "all paths are accepted");
    expect_number(teakpool_add_path(state, book, sizeof book, queue, sizeof queue, path, sizeof path), TEAKPOOL_PATHS_FULL,
                  "a path past the last");
    expect_number(teakpool_open(0, book, 48, queue, 0, state), TEAKPOOL_DONE, "a book of two entries");
    expect_number(teakpool_add_path(state, book, 48, queue, 0, path, sizeof path), TEAKPOOL_BOOK_FULL, "it is too small");
    expect(state[2] == 0 && is_filled(book, 48, 0), "a refused add leaves state and book");
}

/* Places whose paths have so many steps, all of them (0,0). Bytes after the steps are not zeros. */
static void put_list(const uint32_t steps[3])
{
    memset(list, 170, sizeof list);
    for (size_t i = 0; i < 3; i++) {
        put_word(list + i * TEAKPOOL_PLACE_SIZE, steps[i]);
        memset(list + i * TEAKPOOL_PLACE_SIZE + 4, 0, (steps[i] < TEAKPOOL_MAX_STEPS ? steps[i] : TEAKPOOL_MAX_STEPS) * 8);
    }
}

/* Adds the list to the tracker with its first bytes, and what it takes of it by single adds to a copy. */
static void add_list(size_t book_length, size_t length, uint32_t number, uint32_t paths, const char *what)
{
    uint32_t taken = 77;
    memcpy(single_state, state, sizeof state);
    memcpy(single_book, book, sizeof book);
    memcpy(single_queue, queue, sizeof queue);
    expect_number(teakpool_add_paths(state, book, book_length, queue, sizeof queue, list, length, &taken), number, what);
    expect(taken == paths, what);
    for (size_t i = 0; i < paths; i++) {
        const uint8_t *at = list + i * TEAKPOOL_PLACE_SIZE;
        expect_number(teakpool_add_path(single_state, single_book, book_length, single_queue, sizeof single_queue, at + 4,
                                        word_at(at) * TEAKPOOL_STEP_SIZE),
                      TEAKPOOL_DONE, what);
    }
    expect(memcmp(single_state, state, sizeof state) == 0 && memcmp(single_book, book, sizeof book) == 0 &&
               memcmp(single_queue, queue, sizeof queue) == 0,
           what);
}

static void list_lengths(void)
{
    static const struct {
        size_t length;
        uint32_t steps[3], number, taken;
        const char *what;
    } rows[] = {
        {0, {1, 1, 1}, TEAKPOOL_DONE, 0, "no places"},
        {1, {1, 1, 1}, TEAKPOOL_PATH_LENGTH, 0, "a byte of a place"},
        {12, {1, 1, 1}, TEAKPOOL_PATH_LENGTH, 0, "a place cut off after its only step"},
        {515, {1, 1, 1}, TEAKPOOL_PATH_LENGTH, 0, "a byte of it too few"},
        {516, {0, 1, 1}, TEAKPOOL_PATH_LENGTH, 0, "a path of no steps"},
        {516, {1, 1, 1}, TEAKPOOL_DONE, 1, "a path of one step"},
        {516, {TEAKPOOL_MAX_STEPS, 1, 1}, TEAKPOOL_DONE, 1, "the longest path"},
        {516, {TEAKPOOL_MAX_STEPS + 1, 1, 1}, TEAKPOOL_PATH_LENGTH, 0, "a path past the longest"},
        {516, {0x80000001u, 1, 1}, TEAKPOOL_PATH_LENGTH, 0, "the greatest bit in a length"},
        {1032, {2, 1, 1}, TEAKPOOL_DONE, 2, "two paths"},
        {1033, {2, 1, 1}, TEAKPOOL_PATH_LENGTH, 2, "a byte of a third place: the two before it stay in"},
        {1547, {1, 0, 1}, TEAKPOOL_PATH_LENGTH, 1, "a path of no steps before a cut-off place"},
        {1548, {2, 0, 1}, TEAKPOOL_PATH_LENGTH, 1, "a path of no steps between two: the third is not tried"},
        {1548, {2, 1, 3}, TEAKPOOL_DONE, 3, "three paths"},
    };
    for EACH(i, rows) {
        open_and_add();
        put_list(rows[i].steps);
        add_list(sizeof book, rows[i].length, rows[i].number, rows[i].taken, rows[i].what);
    }
}

/* The first place that is refused decides, and in it the lowest number. */
static void list_order(void)
{
    static const struct {
        uint32_t accepted;
        size_t entries;
        uint32_t steps[3], number, taken;
        const char *what;
    } rows[] = {
        {TEAKPOOL_MAX_PATHS_ACCEPTED - 2, ENTRIES, {1, 1, 1}, TEAKPOOL_PATHS_FULL, 2, "the last two paths, and one more"},
        {TEAKPOOL_MAX_PATHS_ACCEPTED, ENTRIES, {0, 1, 1}, TEAKPOOL_PATH_LENGTH, 0, "10 before 11"},
        {TEAKPOOL_MAX_PATHS_ACCEPTED, 3, {1, 1, 1}, TEAKPOOL_PATHS_FULL, 0, "11 before 12"},
        {1, 4, {0, 2, 1}, TEAKPOOL_PATH_LENGTH, 0, "10 before 12"},
        {1, 4, {1, 2, 1}, TEAKPOOL_BOOK_FULL, 1, "no room for the transition of the second path: the third is not tried"},
        {1, 4, {1, 2, 0}, TEAKPOOL_BOOK_FULL, 1, "12 of a place before 10 of a later one"},
        {1, 5, {1, 2, 0}, TEAKPOOL_PATH_LENGTH, 2, "with an entry more there is only that 10"},
    };
    for EACH(i, rows) {
        open_and_add();
        state[2] = rows[i].accepted;
        put_list(rows[i].steps);
        add_list(rows[i].entries * TEAKPOOL_ENTRY_SIZE, sizeof list, rows[i].number, rows[i].taken, rows[i].what);
    }
}

/* A count at 2^30 does not stop a list, though it stops the second of single adds. */
static void list_past_counts(void)
{
    static const uint32_t steps[3] = {1, 1, 1};
    uint32_t taken = 77;
    put_list(steps);
    expect_number(teakpool_open(0, book, sizeof book, queue, 0, state), TEAKPOOL_DONE, "an opening with a window of 0");
    expect_number(teakpool_add_path(state, book, sizeof book, queue, 0, list + 4, 8), TEAKPOOL_DONE, "a path");
    put_word(book + 20, TEAKPOOL_MAX_COUNT);
    expect_number(teakpool_add_paths(state, book, sizeof book, queue, 0, list, sizeof list, &taken), TEAKPOOL_DONE,
                  "counts past 2^30");
    expect(taken == 3 && state[2] == 4 && word_at(book + 20) == TEAKPOOL_MAX_COUNT + 3, "all three are counted");
    expect_number(teakpool_add_paths(state, book, sizeof book, queue, 0, list, 0, &taken), TEAKPOOL_FORM, "the next call gets 9");
    expect(taken == 0 && state[2] == 4, "and takes nothing");
    put_word(book + 20, TEAKPOOL_MAX_COUNT);
    expect_number(teakpool_add_path(state, book, sizeof book, queue, 0, list + 4, 8), TEAKPOOL_DONE, "a single add past 2^30");
    expect_number(teakpool_add_path(state, book, sizeof book, queue, 0, list + 4, 8), TEAKPOOL_FORM, "a second one");
}

/* Any reading tests the form. So does a tidy, which leaves all where it is refused, and so do lists of paths, of none too. */
static uint32_t read_form(size_t book_length, size_t queue_length)
{
    uint32_t own[3], taken = 77;
    uint8_t own_book[sizeof book];
    memcpy(own, state, sizeof own);
    memcpy(own_book, book, sizeof own_book);
    uint32_t code = teakpool_evidence_prob_vector(state, book, book_length, queue, queue_length, 1, 7, addresses, sizeof addresses,
                                                  figures, 2, &places, &ending);
    uint32_t tidied = teakpool_tidy(own, own_book, book_length, queue, queue_length);
    expect(tidied == code, "a tidy refuses what a reading refuses by the form");
    if (tidied != TEAKPOOL_DONE) {
        expect(memcmp(own, state, sizeof own) == 0 && memcmp(own_book, book, sizeof own_book) == 0, "a tidy that is refused");
        memcpy(single_queue, queue, sizeof queue);
        expect(teakpool_add_paths(own, own_book, book_length, single_queue, queue_length, one_path, sizeof one_path, &taken) == code,
               "a list refuses what a reading refuses by the form");
        expect(taken == 0 && memcmp(own, state, sizeof own) == 0 && memcmp(own_book, book, sizeof own_book) == 0 &&
                   memcmp(single_queue, queue, sizeof queue) == 0,
               "a list that is refused by the form");
    }
    taken = 77;
    expect(teakpool_add_paths(state, book, book_length, queue, queue_length, one_path, 0, &taken) == code && taken == 0,
           "so does a list of no paths");
    return code;
}

static void form_of_state(void)
{
    static const struct {
        size_t index;
        uint32_t value, number;
        const char *what;
    } rows[] = {
        {0, 2, TEAKPOOL_FORM, "a window past the queue"},
        {0, TEAKPOOL_MAX_WINDOW + 1, TEAKPOOL_FORM, "a window over 1,024 in a state: 9, and not 8"},
        {1, ENTRIES + 1, TEAKPOOL_FORM, "more entries used than there are"},
        {2, TEAKPOOL_MAX_PATHS_ACCEPTED, TEAKPOOL_DONE, "the most paths accepted"},
        {2, TEAKPOOL_MAX_PATHS_ACCEPTED + 1, TEAKPOOL_FORM, "more paths accepted"},
    };
    for EACH(i, rows) {
        open_and_add();
        state[rows[i].index] = rows[i].value;
        expect_number(read_form(sizeof book, sizeof queue), rows[i].number, rows[i].what);
    }
    open_and_add();
    expect_number(read_form(sizeof book - 1, sizeof queue), TEAKPOOL_FORM, "a part of an entry");
    expect_number(read_form(sizeof book, sizeof queue - 1), TEAKPOOL_FORM, "a queue that is too short");
}

static void form_of_bytes(void)
{
    static const struct {
        uint8_t *at;
        uint32_t word, number;
        const char *what;
    } rows[] = {
        {book + 8, 1, TEAKPOOL_FORM, "a first entry that is no ending"},
        {book + 56, 2, TEAKPOOL_FORM, "an entry of kind 2"},
        {book + 12, 1, TEAKPOOL_FORM, "an ending's child address that is not zeros"},
        {book, 1, TEAKPOOL_FORM, "entries that do not ascend"},
        {book + 48, 2, TEAKPOOL_FORM, "a node that does not begin with its ending"},
        {book + 68, TEAKPOOL_MAX_COUNT, TEAKPOOL_DONE, "a count of 2^30"},
        {book + 68, TEAKPOOL_MAX_COUNT + 1, TEAKPOOL_FORM, "a count past 2^30"},
        {book + 72, 5, TEAKPOOL_DONE, "a byte past the used entries"},
        {queue, 0, TEAKPOOL_FORM, "a path of no steps in the queue"},
        {queue, TEAKPOOL_MAX_STEPS, TEAKPOOL_DONE, "a path of 64 steps in the queue"},
        {queue, TEAKPOOL_MAX_STEPS + 1, TEAKPOOL_FORM, "a path of 65 steps in the queue"},
        {queue + 4, 5, TEAKPOOL_DONE, "a step in the queue"},
    };
    for EACH(i, rows) {
        open_and_add();
        put_word(rows[i].at, rows[i].word);
        expect_number(read_form(sizeof book, sizeof queue), rows[i].number, rows[i].what);
    }
}

/* ---- 13 */

static uint32_t read_all(size_t table_length, size_t nodes_length, size_t addresses_length, size_t figures_length)
{
    return teakpool_all_node_kl(state, book, sizeof book, queue, sizeof queue, nodes, nodes_length, children, sizeof children,
                                prior_floor, table, table_length, table, table_length, addresses, addresses_length, figures,
                                figures_length, counts, &node_scale, &node_point);
}

static uint32_t read_stats(size_t table_length)
{
    static double four[4];
    static uint64_t three[3];
    return teakpool_kl_div_stats(state, book, sizeof book, queue, sizeof queue, nodes, sizeof nodes, children, sizeof children,
                                 prior_floor, table, table_length, table, table_length, four, three, &node_scale, &node_point);
}

/* Of (1,7). */
static uint32_t read_divergence(size_t table_length)
{
    static double value;
    return teakpool_posterior_kl_divergence(state, book, sizeof book, queue, sizeof queue, nodes, sizeof nodes, children,
                                            sizeof children, prior_floor, table, table_length, table, table_length, 1, 7, &value);
}

/* Of (1,7). */
static uint32_t read_vector(size_t addresses_length, size_t figures_length)
{
    return teakpool_prob_vector(state, book, sizeof book, queue, sizeof queue, nodes, sizeof nodes, children, sizeof children,
                                prior_floor, 1, 7, addresses, addresses_length, figures, figures_length, &places, &ending);
}

static void short_outputs(void)
{
    static const struct {
        size_t addresses_length, figures_length;
        uint32_t number;
        const char *what;
    } rows[] = {
        {16, 2, TEAKPOOL_DONE, "two places"},
        {15, 2, TEAKPOOL_OUTPUT_SHORT, "an address too few"},
        {16, 1, TEAKPOOL_OUTPUT_SHORT, "a figure too few"},
    };
    open_and_add();
    for EACH(i, rows) {
        size_t a = rows[i].addresses_length, f = rows[i].figures_length;
        expect_number(read_all(8, sizeof nodes, a, f), rows[i].number, rows[i].what);
        expect_number(read_vector(a, f), rows[i].number, rows[i].what);
        expect_number(teakpool_evidence_prob_vector(state, book, sizeof book, queue, sizeof queue, 1, 7, addresses, a - 8, figures,
                                                    f - 1, &places, &ending),
                      rows[i].number, rows[i].what);
    }
    expect_number(teakpool_evidence_prob_vector(state, book, sizeof book, queue, sizeof queue, 0, 7, addresses, 0, figures, 0,
                                                &places, &ending),
                  TEAKPOOL_NONE, "none needs no place");
}

/* Everything is wrong, and is put right from the lowest number on. */
static void lowest_first(void)
{
    open_and_add();
    state[1] = ENTRIES + 1;
    put_word(nodes + 4, 7);
    prior_floor = 2;
    expect_number(read_all(1, 15, 0, 0), TEAKPOOL_TABLE_LENGTHS, "tables first");
    expect_number(read_all(2, 15, 0, 0), TEAKPOOL_PRIOR_SIZES, "then priors");
    expect_number(read_all(2, sizeof nodes, 0, 0), TEAKPOOL_SHARED_POINT, "then points below the floor");
    expect_number(read_stats(2), TEAKPOOL_SHARED_POINT, "the same in the statistics");
    expect_number(read_divergence(2), TEAKPOOL_SHARED_POINT, "the same in a divergence");
    expect_number(read_vector(0, 0), TEAKPOOL_SHARED_POINT, "the same in probabilities");
    lend_priors();
    expect_number(read_all(2, sizeof nodes, 0, 0), TEAKPOOL_FORM, "then the form");
    state[1] = 3;
    expect_number(read_all(2, sizeof nodes, 0, 0), TEAKPOOL_OUTPUT_SHORT, "then the output");
    expect_number(read_all(2, sizeof nodes, 16, 2), TEAKPOOL_PAST_TABLE, "then 14 and 15");
    expect_number(read_all(8, sizeof nodes, 16, 2), TEAKPOOL_DONE, "then nothing");
}

/* ---- 10, 12, 13 and 16 of a training, and its order */

struct lengths {
    size_t book, knots, values;
};

static const struct lengths ample = {sizeof book, TEAKPOOL_MAX_KNOTS, TEAKPOOL_MAX_KNOTS * TEAKPOOL_KNOT_VALUES};

static uint32_t train(size_t table_length, const uint8_t *lent, size_t length, uint32_t s, uint32_t n, uint32_t rate,
                      struct lengths out)
{
    return teakpool_train(table, table_length, table, table_length, nodes, sizeof nodes, children, sizeof children, prior_floor,
                          lent, length, s, n, rate, book, out.book, knots, out.knots, values, out.values, counts, &node_scale,
                          &node_point);
}

static void fill_training(void)
{
    memset(book, 170, sizeof book);
    memset(knots, 170, sizeof knots);
    memset(values, 170, sizeof values);
    counts[0] = 77;
}

/* What was lent beside the training's input is as it was, or, where it was stopped, all zero. */
static void expect_left(int byte, const char *what)
{
    expect(is_filled(book, sizeof book, byte) && is_filled(knots, ample.knots * sizeof knots[0], byte) &&
               is_filled(values, ample.values * sizeof values[0], byte) && counts[0] == 77,
           what);
}

static void training_input(void)
{
    static const struct {
        uint32_t s, n, rate;
        size_t length;
        uint32_t number;
        const char *what;
    } rows[] = {
        {0, 0, 1, 0, TEAKPOOL_TRAINING_INPUT, "no sequences"},
        {TEAKPOOL_MAX_SEQUENCES, 0, 1, 0, TEAKPOOL_DONE, "the most sequences, of no paths"},
        {TEAKPOOL_MAX_SEQUENCES + 1, 0, 1, 0, TEAKPOOL_TRAINING_INPUT, "more sequences"},
        {1, 0, 0, 0, TEAKPOOL_TRAINING_INPUT, "a rate of 0"},
        {1, 1, 1, 515, TEAKPOOL_TRAINING_INPUT, "a byte too few"},
        {1, 1, 1, 517, TEAKPOOL_TRAINING_INPUT, "a byte too many"},
        {1, TEAKPOOL_MAX_SEQUENCE_PATHS, 64, TEAKPOOL_MAX_SEQUENCE_PATHS * 516, TEAKPOOL_PATH_LENGTH, "the most paths"},
        {1, TEAKPOOL_MAX_SEQUENCE_PATHS + 1, 65, (TEAKPOOL_MAX_SEQUENCE_PATHS + 1) * 516, TEAKPOOL_TRAINING_INPUT, "more paths"},
        {1, TEAKPOOL_MAX_KNOTS, 1, TEAKPOOL_MAX_KNOTS * 516, TEAKPOOL_PATH_LENGTH, "the most knots"},
        {1, TEAKPOOL_MAX_KNOTS + 1, 1, (TEAKPOOL_MAX_KNOTS + 1) * 516, TEAKPOOL_TRAINING_INPUT, "more knots"},
    };
    for EACH(i, rows) {
        fill_training();
        uint32_t code = train(8, sequences, rows[i].length, rows[i].s, rows[i].n, rows[i].rate, ample);
        expect_number(code, rows[i].number, rows[i].what);
        if (code != TEAKPOOL_DONE) {
            expect_left(code == TEAKPOOL_TRAINING_INPUT ? 170 : 0, "a training refused or stopped");
        }
    }
}

static void training_order(void)
{
    static const struct {
        struct lengths out;
        uint32_t rate, number;
        const char *what;
    } rows[] = {
        {{0, 0, 0}, 0, TEAKPOOL_FORM, "an empty book: 9 before 16"},
        {{24, 0, 0}, 0, TEAKPOOL_TRAINING_INPUT, "a rate of 0: 16 before 13"},
        {{24, 0, 10}, 1, TEAKPOOL_OUTPUT_SHORT, "a knot too few"},
        {{24, 1, 9}, 1, TEAKPOOL_OUTPUT_SHORT, "a value too few"},
        {{48, 1, 10}, 1, TEAKPOOL_BOOK_FULL, "a book of two entries"},
        {{72, 1, 10}, 1, TEAKPOOL_DONE, "a book of three entries"},
    };
    put_word(nodes + 4, 7);
    prior_floor = 2;
    fill_training();
    expect_number(train(8, one_path, sizeof one_path, 1, 1, 0, rows[0].out), TEAKPOOL_SHARED_POINT, "22 before 9");
    expect_left(170, "a training refused by 22");
    lend_priors();
    for EACH(i, rows) {
        expect_number(train(8, one_path, sizeof one_path, 1, 1, rows[i].rate, rows[i].out), rows[i].number, rows[i].what);
    }
}

/* ---- 14 and 15, by all that tell them */

static void expect_named(uint32_t code, uint32_t number, int32_t scale, uint32_t point, const char *what)
{
    expect_number(code, number, what);
    expect(node_scale == scale && node_point == point, what);
    node_scale = -5;
    node_point = 5;
}

static void divergences_refused(void)
{
    static const struct {
        uint32_t link;   /* first link of (1,7): 1 for the chain (0,7), (0,9), 3 for (0,7) alone */
        size_t last;     /* last index of the tables */
        uint32_t number; /* where all nodes are read, with the node that it names */
        int32_t scale;
        uint32_t point;
        uint32_t alone;  /* where (1,7) alone is read */
        const char *what;
    } rows[] = {
        {1, 7, TEAKPOOL_DONE, -5, 5, TEAKPOOL_DONE, "no node is refused"},
        {1, 6, TEAKPOOL_PAST_TABLE, 1, 7, TEAKPOOL_PAST_TABLE, "a total past the table"},
        {1, 1, TEAKPOOL_PAST_TABLE, 0, 9, TEAKPOOL_PAST_TABLE, "two totals past the table: the lower node"},
        {3, 7, TEAKPOOL_MISSING_CHILD, 1, 7, TEAKPOOL_MISSING_CHILD, "a missing child"},
        {3, 2, TEAKPOOL_MISSING_CHILD, 1, 7, TEAKPOOL_MISSING_CHILD, "both in one node: 14"},
        {3, 1, TEAKPOOL_PAST_TABLE, 0, 9, TEAKPOOL_MISSING_CHILD, "15 in a lower node comes before 14"},
    };
    node_scale = -5;
    node_point = 5;
    for EACH(i, rows) {
        size_t size = rows[i].last + 1;
        put_word(nodes + 28, rows[i].link);
        open_and_add();
        expect_named(read_all(size, sizeof nodes, 16, 2), rows[i].number, rows[i].scale, rows[i].point, rows[i].what);
        expect_named(read_stats(size), rows[i].number, rows[i].scale, rows[i].point, rows[i].what);
        expect_number(read_divergence(size), rows[i].alone, rows[i].what);
        fill_training();
        expect_named(train(size, one_path, sizeof one_path, 1, 1, 1, ample), rows[i].number, rows[i].scale, rows[i].point,
                     rows[i].what);
        if (rows[i].number != TEAKPOOL_DONE) {
            expect_left(0, "a training stopped by 14 or 15");
        }
    }
    lend_priors();
}

/* ---- 17 and 18 */

static void baselines(void)
{
    static const struct {
        size_t knots_length, values_length;
        uint32_t s, length, number;
        const char *what;
    } rows[] = {
        {0, 0, 1, 7, TEAKPOOL_DONE, "no knots"},
        {2, 20, 0, 1, TEAKPOOL_BASELINE_INPUT, "no sequences"},
        {2, 20, TEAKPOOL_MAX_SEQUENCES, 1, TEAKPOOL_DONE, "the most sequences"},
        {2, 20, TEAKPOOL_MAX_SEQUENCES + 1, 1, TEAKPOOL_BASELINE_INPUT, "more sequences"},
        {2, 19, 1, 1, TEAKPOOL_BASELINE_INPUT, "a value too few"},
        {2, 21, 1, 1, TEAKPOOL_BASELINE_INPUT, "a value too many"},
        {TEAKPOOL_MAX_KNOTS, TEAKPOOL_MAX_KNOTS * 10, 1, 9999, TEAKPOOL_DONE, "the most knots"},
        {TEAKPOOL_MAX_KNOTS + 1, (TEAKPOOL_MAX_KNOTS + 1) * 10, 1, 1, TEAKPOOL_BASELINE_INPUT, "more knots"},
        {1, 10, 1, 1, TEAKPOOL_DONE, "at the only knot"},
        {1, 10, 1, 2, TEAKPOOL_ONE_KNOT, "past the only knot"},
    };
    double ten[10];
    memset(values, 0, sizeof values);
    for (uint32_t k = 0; k <= TEAKPOOL_MAX_KNOTS; k++) {
        knots[k] = k + 1;
    }
    for EACH(i, rows) {
        expect_number(teakpool_stats(knots, rows[i].knots_length, values, rows[i].values_length, rows[i].s, rows[i].length, ten),
                      rows[i].number, rows[i].what);
    }
    knots[1] = knots[0];
    expect_number(teakpool_stats(knots, 2, values, 20, 1, 1, ten), TEAKPOOL_BASELINE_INPUT, "knots that do not rise");
}

int main(void)
{
    lend_priors();
    put_word(one_path, 2);
    put_address(one_path + 4, 1, 7);
    put_address(one_path + 12, 0, 9);
    table_lengths();
    table_entries();
    prior_records();
    shared_points();
    prior_sizes();
    prior_chains();
    openings();
    path_lengths();
    full_trackers();
    list_lengths();
    list_order();
    list_past_counts();
    form_of_state();
    form_of_bytes();
    short_outputs();
    lowest_first();
    training_input();
    training_order();
    divergences_refused();
    baselines();
    for (uint32_t number = TEAKPOOL_TABLE_LENGTHS; number <= TEAKPOOL_SHARED_POINT; number++) {
        if (met[number] != (number <= TEAKPOOL_ONE_KNOT || number == TEAKPOOL_SHARED_POINT)) {
            printf("not as expected: %u is %sreturned\n", number, met[number] ? "" : "never ");
            failures++;
        }
    }
    if (failures == 0) {
        printf("refusals: every number, 1 to 18 and 22, is returned where it should be\n");
    }
    return failures == 0 ? 0 : 1;
}

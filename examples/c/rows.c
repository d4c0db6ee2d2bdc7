/* The plain functions on two paths, without a floor. Every answer is held against the figure that follows by hand from tables with
 * G(k) = k * k and D(k) = 4k, figures by their bits. */
#include "teakpool.h"
#include "bytes.h"

#include <string.h>

#define ENTRIES 8u

/* What the watch is lent beside the tracker. */
static double g[8];
static double d[8];
static uint8_t nodes[TEAKPOOL_RECORD_SIZE];
static uint8_t children[2 * TEAKPOOL_RECORD_SIZE];

/* A tracker. */
static uint32_t state[3];
static uint8_t book[ENTRIES * TEAKPOOL_ENTRY_SIZE];
static uint8_t queue[TEAKPOOL_PLACE_SIZE];

static void lend(void)
{
    for (uint32_t k = 0; k < 8; k++) {
        g[k] = (double)(k * k);
        d[k] = (double)(4 * k);
    }
    put_record(nodes, 1, 7, 1, 1);
    put_record(children, 0, 7, 2, 2);
    put_record(children + TEAKPOOL_RECORD_SIZE, 0, 9, 3, 0);
    expect(teakpool_check_tables(g, 8, d, 8) == TEAKPOOL_DONE, "tables keep their rules");
    expect(teakpool_check_tables(g, 8, d, 7) == TEAKPOOL_TABLE_LENGTHS, "tables of two lengths");
    expect(teakpool_check_priors(nodes, sizeof nodes, children, sizeof children, INT32_MIN) == TEAKPOOL_DONE,
           "priors keep their rules");
    expect(teakpool_check_priors(nodes, 15, children, sizeof children, INT32_MIN) == TEAKPOOL_PRIOR_SIZES, "a part of a record");
}

/* The chain of (1,7) is (0,7) with 2, (0,9) with 3. */
static void look_children_up(void)
{
    static const struct {
        int32_t scale;
        uint32_t point;
        int32_t child_scale;
        uint32_t child_point, code, count, read;
        const char *what;
    } rows[] = {
        {1, 7, 0, 7, TEAKPOOL_DONE, 2, 1, "the first child"},
        {1, 7, 0, 9, TEAKPOOL_DONE, 3, 2, "the last child"},
        {1, 7, -1, 9, TEAKPOOL_NONE, 77, 1, "a child before the first: none, and the count is not written"},
        {1, 7, 0, 8, TEAKPOOL_NONE, 77, 2, "a child between the two"},
        {1, 7, 1, 0, TEAKPOOL_NONE, 77, 2, "a child past the last"},
        {0, 9, 0, 7, TEAKPOOL_NONE, 77, 0, "a child of a node without a prior: none, and nothing is read"},
    };
    for (size_t i = 0; i < sizeof rows / sizeof rows[0]; i++) {
        uint32_t count = 77, read = 78;
        uint32_t code = teakpool_child(nodes, sizeof nodes, children, sizeof children, INT32_MIN, rows[i].scale, rows[i].point,
                                       rows[i].child_scale, rows[i].child_point, &count, &read);
        expect(code == rows[i].code && count == rows[i].count && read == rows[i].read, rows[i].what);
    }
}

static void open_tracker(void)
{
    memset(book, 170, sizeof book);
    memset(queue, 170, sizeof queue);
    state[0] = state[1] = state[2] = 77;
    expect(teakpool_open(1025, book, sizeof book, queue, sizeof queue, state) == TEAKPOOL_WINDOW, "a window over 1,024");
    expect(state[0] == 77 && state[1] == 77 && state[2] == 77, "a refused opening writes no state");
    expect(book[0] == 170 && queue[0] == 170, "a refused opening writes no byte");
    expect(teakpool_open(1, book, sizeof book, queue, sizeof queue, state) == TEAKPOOL_DONE, "an opening");
    expect(state[0] == 1 && state[1] == 0 && state[2] == 0, "the fresh state");
    expect(book[sizeof book - 1] == 0 && queue[sizeof queue - 1] == 0, "book and queue are zeroed");
}

static void add(const uint8_t *path, size_t length, uint32_t used, uint32_t accepted)
{
    expect(teakpool_add_path(state, book, sizeof book, queue, sizeof queue, path, length) == TEAKPOOL_DONE, "an add");
    expect(state[0] == 1 && state[1] == used && state[2] == accepted, "the state after an add");
}

/* The ending of (1,7) has a count, its child and the ending of (0,9) have none. */
static void tidy(void)
{
    static const uint8_t ending_of_1_7[TEAKPOOL_ENTRY_SIZE] = {1, 0, 0, 0, 7, [20] = 1};
    uint8_t before[sizeof queue];
    memcpy(before, queue, sizeof queue);
    expect(teakpool_tidy(state, book, sizeof book, queue, sizeof queue) == TEAKPOOL_DONE, "a tidy");
    expect(state[0] == 1 && state[1] == 1 && state[2] == 2, "the state after a tidy");
    expect(memcmp(book, ending_of_1_7, sizeof ending_of_1_7) == 0, "the entry that is kept");
    for (size_t i = TEAKPOOL_ENTRY_SIZE; i < sizeof book; i++) {
        expect(book[i] == 0, "zeros behind it");
    }
    expect(memcmp(queue, before, sizeof queue) == 0, "the queue");
}

static void small_books(const uint8_t *path, size_t length)
{
    uint8_t small[3 * TEAKPOOL_ENTRY_SIZE];
    uint32_t own[3];
    size_t two = 2 * TEAKPOOL_ENTRY_SIZE;
    expect(teakpool_open(0, small, two, queue, 0, own) == TEAKPOOL_DONE, "a window of 0 needs no queue");
    expect(teakpool_add_path(own, small, two, queue, 0, path, length) == TEAKPOOL_BOOK_FULL, "a book of two entries");
    expect(own[1] == 0 && own[2] == 0, "a refused add leaves the state");
    expect(teakpool_open(0, small, sizeof small, queue, 0, own) == TEAKPOOL_DONE, "a book of three entries");
    expect(teakpool_add_path(own, small, sizeof small, queue, 0, path, length) == TEAKPOOL_DONE, "it takes the path");
    expect(own[1] == 3 && own[2] == 1, "three entries used");
}

static void read_one_divergence(double divergence)
{
    double value = -1.0;
    uint32_t code = teakpool_posterior_kl_divergence(state, book, sizeof book, queue, sizeof queue, nodes, sizeof nodes, children,
                                                     sizeof children, INT32_MIN, g, 8, d, 8, 1, 7, &value);
    expect(code == TEAKPOOL_DONE && same(value, divergence), "the divergence of (1,7)");
    code = teakpool_posterior_kl_divergence(state, book, sizeof book, queue, sizeof queue, nodes, sizeof nodes, children,
                                            sizeof children, INT32_MIN, g, 8, d, 8, 0, 9, &value);
    expect(code == TEAKPOOL_NONE && same(value, divergence), "(0,9) has no prior: none, and nothing is written");
}

static void read_all_divergences(double divergence, uint32_t skipped)
{
    uint8_t addresses[2 * TEAKPOOL_STEP_SIZE];
    double figures[2] = {-1.0, -1.0};
    uint32_t counts[2] = {9, 9};
    int32_t node_scale = -5;
    uint32_t node_point = 5;
    uint32_t code = teakpool_all_node_kl(state, book, sizeof book, queue, sizeof queue, nodes, sizeof nodes, children,
                                         sizeof children, INT32_MIN, g, 8, d, 8, addresses, sizeof addresses, figures, 2, counts,
                                         &node_scale, &node_point);
    expect(code == TEAKPOOL_DONE, "the divergences of all nodes");
    expect(counts[0] == 1 && counts[1] == skipped, "one place filled, and nodes skipped");
    expect(is_address(addresses, 1, 7) && same(figures[0], divergence) && same(figures[1], -1.0), "the place of (1,7)");
    expect(node_scale == -5 && node_point == 5, "no node is named");
}

static void read_statistics(double divergence, uint32_t skipped)
{
    double figures[4] = {0.0, 0.0, 0.0, 0.0};
    uint64_t counts[3] = {9, 9, 9};
    int32_t node_scale = -5;
    uint32_t node_point = 5;
    uint32_t code = teakpool_kl_div_stats(state, book, sizeof book, queue, sizeof queue, nodes, sizeof nodes, children,
                                          sizeof children, INT32_MIN, g, 8, d, 8, figures, counts, &node_scale, &node_point);
    expect(code == TEAKPOOL_DONE, "the statistics");
    expect(same(figures[0], divergence) && same(figures[1], divergence), "maximum and minimum");
    expect(same(figures[2], divergence) && same(figures[3], divergence * divergence), "sum and sum of squares");
    expect(counts[0] == 1 && counts[1] == 1 && counts[2] == skipped, "one above 1.0e-10, of length 1, and nodes skipped");
    expect(node_scale == -5 && node_point == 5, "no node is named");
}

static void read_short_tables(void)
{
    double figures[4] = {0.0, 0.0, 0.0, 0.0};
    uint64_t counts[3] = {9, 9, 9};
    int32_t node_scale = -5;
    uint32_t node_point = 5;
    uint32_t code = teakpool_kl_div_stats(state, book, sizeof book, queue, sizeof queue, nodes, sizeof nodes, children,
                                          sizeof children, INT32_MIN, g, 7, d, 7, figures, counts, &node_scale, &node_point);
    expect(code == TEAKPOOL_PAST_TABLE, "tables that end at 6");
    expect(node_scale == 1 && node_point == 7, "the node that 15 names");
    expect(same(figures[0], 0.0) && counts[0] == 9, "no statistics are written");
}

static void read_probabilities(void)
{
    uint8_t addresses[2 * TEAKPOOL_STEP_SIZE];
    double figures[2];
    uint32_t places = 9;
    double ending = -1.0;
    uint32_t code = teakpool_prob_vector(state, book, sizeof book, queue, sizeof queue, nodes, sizeof nodes, children,
                                         sizeof children, INT32_MIN, 1, 7, addresses, sizeof addresses, figures, 2, &places,
                                         &ending);
    expect(code == TEAKPOOL_DONE && places == 2, "the probabilities at (1,7)");
    expect(same(figures[0], 2.0 / 7.0) && same(figures[1], 3.0 / 7.0) && same(ending, 2.0 / 7.0), "2/7, 3/7, ending 2/7");
    expect(is_address(addresses, 0, 7) && is_address(addresses + TEAKPOOL_STEP_SIZE, 0, 9), "the children ascend");
    code = teakpool_evidence_prob_vector(state, book, sizeof book, queue, sizeof queue, 0, 9, addresses, sizeof addresses, figures,
                                         2, &places, &ending);
    expect(code == TEAKPOOL_NONE && places == 2, "the evidence of (0,9), listed with a total of 0 or not listed: none");
}

/* The two paths once more in a fresh tracker, by one call: the same bytes. */
static void add_both(const uint8_t *path)
{
    uint8_t places[2 * TEAKPOOL_PLACE_SIZE], own_book[sizeof book], own_queue[sizeof queue];
    uint32_t own[3], taken = 9;
    memset(places, 170, sizeof places);
    put_word(places, 2);
    memcpy(places + 4, path, 2 * TEAKPOOL_STEP_SIZE);
    put_word(places + TEAKPOOL_PLACE_SIZE, 1);
    memcpy(places + TEAKPOOL_PLACE_SIZE + 4, path, TEAKPOOL_STEP_SIZE);
    expect(teakpool_open(1, own_book, sizeof own_book, own_queue, sizeof own_queue, own) == TEAKPOOL_DONE, "one more opening");
    expect(teakpool_add_paths(own, own_book, sizeof own_book, own_queue, sizeof own_queue, places, sizeof places, &taken) ==
                   TEAKPOOL_DONE &&
               taken == 2,
           "both paths by one call");
    expect(memcmp(own, state, sizeof own) == 0 && memcmp(own_book, book, sizeof book) == 0 &&
               memcmp(own_queue, queue, sizeof queue) == 0,
           "state, book and queue as by two adds");
}

/* What is read after the second path, and once more when the book is tidied: but for the nodes skipped it is the same. */
static void read_second(uint32_t skipped)
{
    read_one_divergence(10.0);
    read_all_divergences(10.0, skipped);
    read_statistics(10.0, skipped);
    read_short_tables();
    read_probabilities();
}

/* Four paths in a tracker of window 0, all from (1,7): to (0,9), to (-1,3), one of a single step, and to (0,9) again. */
static void read_evidence(void)
{
    static const struct {
        size_t steps;
        int32_t scale;
        uint32_t point;
    } next[] = {{2, 0, 9}, {2, -1, 3}, {1, 0, 0}, {2, 0, 9}};
    uint8_t path[2 * TEAKPOOL_STEP_SIZE];
    uint8_t addresses[3 * TEAKPOOL_STEP_SIZE];
    double figures[3] = {-1.0, -1.0, -1.0};
    uint32_t own[3], places = 9;
    double ending = -1.0;
    expect(teakpool_open(0, book, sizeof book, queue, 0, own) == TEAKPOOL_DONE, "an opening with a window of 0");
    put_address(path, 1, 7);
    for (size_t i = 0; i < sizeof next / sizeof next[0]; i++) {
        put_address(path + TEAKPOOL_STEP_SIZE, next[i].scale, next[i].point);
        expect(teakpool_add_path(own, book, sizeof book, queue, 0, path, next[i].steps * TEAKPOOL_STEP_SIZE) == TEAKPOOL_DONE,
               "an add without a queue");
    }
    uint32_t code = teakpool_evidence_prob_vector(own, book, sizeof book, queue, 0, 1, 7, addresses, sizeof addresses, figures, 3,
                                                  &places, &ending);
    expect(code == TEAKPOOL_DONE && places == 2, "the evidence of (1,7)");
    expect(is_address(addresses, -1, 3) && is_address(addresses + TEAKPOOL_STEP_SIZE, 0, 9), "the children ascend by signed scale");
    expect(same(figures[0], 1.0 / 4.0) && same(figures[1], 2.0 / 4.0) && same(ending, 1.0 / 4.0), "1/4, 2/4, ending 1/4");
    expect(same(figures[2], -1.0), "the place past the answer keeps what it held");
}

static void train_and_ask(void)
{
    uint8_t sequences[2 * TEAKPOOL_PLACE_SIZE];
    uint8_t work[ENTRIES * TEAKPOOL_ENTRY_SIZE];
    uint32_t knots[1];
    double values[TEAKPOOL_KNOT_VALUES];
    uint32_t count = 9;
    int32_t node_scale = -5;
    uint32_t node_point = 5;
    double figures[10];
    memset(sequences, 0, sizeof sequences);
    put_word(sequences, 2);
    put_address(sequences + 4, 1, 7);
    put_address(sequences + 12, 0, 9);
    put_word(sequences + TEAKPOOL_PLACE_SIZE, 1);
    put_address(sequences + TEAKPOOL_PLACE_SIZE + 4, 1, 7);
    uint32_t code = teakpool_train(g, 8, d, 8, nodes, sizeof nodes, children, sizeof children, INT32_MIN, sequences,
                                   sizeof sequences, 2, 1, 1, work, sizeof work, knots, 1, values, TEAKPOOL_KNOT_VALUES, &count,
                                   &node_scale, &node_point);
    expect(code == TEAKPOOL_DONE, "training on two sequences of one path");
    expect(count == 1 && knots[0] == 1, "one knot, of length 1");
    expect(teakpool_stats(knots, 1, values, TEAKPOOL_KNOT_VALUES, 2, 1, figures) == TEAKPOOL_DONE, "the baseline at length 1");
    expect(same(figures[0], 8.0) && same(figures[1], 4.0), "maxima 6 and 10: mean 8, variance 4");
    expect(teakpool_stats(knots, 1, values, TEAKPOOL_KNOT_VALUES, 2, 2, figures) == TEAKPOOL_ONE_KNOT, "past the only knot");
}

/* A knot's values: sum and squares of the maxima, and zeros for the other figures. */
static void put_knot(double *at, double sum, double squares)
{
    memset(at, 0, TEAKPOOL_KNOT_VALUES * sizeof at[0]);
    at[0] = sum;
    at[1] = squares;
}

/* Minus zero comes out of a baseline that holds it, or that rounds to it, and never below the first knot. */
static void minus_zeros(void)
{
    expect(!same(0.0, -0.0) && same(-0.0, -0.0), "the zeros are two figures");
    static const struct {
        double sum, squares;
        uint32_t s;
        double mean, variance;
    } at_knot[] = {{-0.0, 0.0, 1, -0.0, 0.0}, {-0x1p-1074, 0.0, 2, -0.0, 0.0}, {0.0, -0.0, 1, 0.0, -0.0}, {-0.0, -0.0, 1, -0.0, -0.0}};
    static const struct {
        double right;
        uint32_t length;
        double mean;
    } along[] = {{-0x1p-1074, 2, -0.0}, {-0.0, 1, -0.0}, {-0.0, 5, -0.0}, {-0.0, 0, 0.0}, {-0.0, 2, 0.0}, {-0.0, 9, 0.0}};
    static const uint32_t knots[2] = {1, 5};
    double values[2 * TEAKPOOL_KNOT_VALUES], figures[10];
    for (size_t i = 0; i < sizeof at_knot / sizeof at_knot[0]; i++) {
        put_knot(values, at_knot[i].sum, at_knot[i].squares);
        expect(teakpool_stats(knots, 1, values, TEAKPOOL_KNOT_VALUES, at_knot[i].s, 1, figures) == TEAKPOOL_DONE, "a lent baseline");
        expect(same(figures[0], at_knot[i].mean) && same(figures[1], at_knot[i].variance), "the sign of zero at a knot");
    }
    for (size_t i = 0; i < sizeof along / sizeof along[0]; i++) {
        put_knot(values, -0.0, 0.0);
        put_knot(values + TEAKPOOL_KNOT_VALUES, along[i].right, 0.0);
        expect(teakpool_stats(knots, 2, values, 2 * TEAKPOOL_KNOT_VALUES, 1, along[i].length, figures) == TEAKPOOL_DONE,
               "two knots of minus zero");
        expect(same(figures[0], along[i].mean) && same(figures[1], 0.0), "the sign of zero at, between, below and past knots");
    }
}

int main(void)
{
    uint8_t path[2 * TEAKPOOL_STEP_SIZE];
    put_address(path, 1, 7);
    put_address(path + TEAKPOOL_STEP_SIZE, 0, 9);
    lend();
    look_children_up();
    open_tracker();
    add(path, sizeof path, 3, 1);
    read_one_divergence(6.0);
    read_all_divergences(6.0, 1);
    read_statistics(6.0, 1);
    add(path, TEAKPOOL_STEP_SIZE, 3, 2);
    read_second(1);
    add_both(path);
    tidy();
    read_second(0);
    small_books(path, sizeof path);
    read_evidence();
    train_and_ask();
    minus_zeros();
    if (failures == 0) {
        printf("rows: every answer is as expected\n");
    }
    return failures == 0 ? 0 : 1;
}

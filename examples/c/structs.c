/* The calls over structs: each answers what its plain function answers, NULL stands for a slice of length 0 and is refused with
 * another, and a tracker or a baseline is refused until it is opened or trained. Tables with G(k) = k * k and D(k) = 4k make every
 * divergence a whole number. */
#include "teakpool.h"
#include "bytes.h"

#include <string.h>

#define ENTRIES 8u
#define LENGTH 16u

static double g[LENGTH], d[LENGTH];
static uint8_t nodes[2 * TEAKPOOL_RECORD_SIZE], children[3 * TEAKPOOL_RECORD_SIZE];
static uint8_t book_bytes[ENTRIES * TEAKPOOL_ENTRY_SIZE], queue_bytes[3 * TEAKPOOL_PLACE_SIZE];
static uint8_t path_bytes[3 * TEAKPOOL_STEP_SIZE];
static uint8_t sequence_bytes[2 * TEAKPOOL_PLACE_SIZE];
static uint8_t trial[TEAKPOOL_PATH_ENTRIES * TEAKPOOL_ENTRY_SIZE];

static struct teakpool_tables tables;
static struct teakpool_priors priors;
static struct teakpool_tracker tracker;
static struct teakpool_sequences sequences;
static struct teakpool_address node;

/* (1,7), (0,point), (-1,3). */
static struct teakpool_path path_by(uint32_t point)
{
    teakpool_put_address(path_bytes, node);
    teakpool_put_address(path_bytes + TEAKPOOL_STEP_SIZE, teakpool_make_address(0, point));
    teakpool_put_address(path_bytes + 2 * TEAKPOOL_STEP_SIZE, teakpool_make_address(-1, 3));
    return teakpool_make_path(path_bytes, sizeof path_bytes);
}

/* Tables up to index `last`; priors of (0,9) with singleton 1 and (-1,3) with 1, and of (1,7) with singleton 1, (0,7) with 2 and
 * (0,9) with 3; and two sequences of one path. A path by (0,9) gives (1,7) a divergence of 6 and (0,9) one of 2; one that ends at
 * (1,7) gives it 10. */
static void lend(size_t last)
{
    for (uint32_t k = 0; k < LENGTH; k++) {
        g[k] = (double)(k * k);
        d[k] = (double)(4 * k);
    }
    node = teakpool_make_address(1, 7);
    teakpool_put_record(nodes, teakpool_make_address(0, 9), 1, 3);
    teakpool_put_record(nodes + TEAKPOOL_RECORD_SIZE, node, 1, 1);
    teakpool_put_record(children, teakpool_make_address(0, 7), 2, 2);
    teakpool_put_record(children + TEAKPOOL_RECORD_SIZE, teakpool_make_address(0, 9), 3, 0);
    teakpool_put_record(children + 2 * TEAKPOOL_RECORD_SIZE, teakpool_make_address(-1, 3), 1, 0);
    teakpool_put_word(sequence_bytes, 3);
    memcpy(sequence_bytes + 4, path_by(9).at, sizeof path_bytes);
    teakpool_put_word(sequence_bytes + TEAKPOOL_PLACE_SIZE, 1);
    memcpy(sequence_bytes + TEAKPOOL_PLACE_SIZE + 4, path_bytes, TEAKPOOL_STEP_SIZE);
    tables = teakpool_make_tables(teakpool_make_g(g, last + 1), teakpool_make_d(d, last + 1));
    priors = teakpool_make_priors(teakpool_make_nodes(nodes, sizeof nodes), teakpool_make_children(children, sizeof children));
    sequences = teakpool_make_sequences(sequence_bytes, sizeof sequence_bytes, teakpool_make_s(2), teakpool_make_n(1),
                                        teakpool_make_rate(1));
}

/* Three paths: that by (0,point), and twice (-1,3) alone, which has no prior. */
static void open_and_add(uint32_t point)
{
    struct teakpool_path path = path_by(point);
    struct teakpool_path end = teakpool_make_path(path_bytes + 2 * TEAKPOOL_STEP_SIZE, TEAKPOOL_STEP_SIZE);
    tracker = teakpool_make_tracker(teakpool_make_book(book_bytes, sizeof book_bytes),
                                    teakpool_make_queue(queue_bytes, sizeof queue_bytes));
    uint32_t taken = 77;
    expect(teakpool_tracker_add_path(&tracker, path) == TEAKPOOL_FORM, "an add to a tracker that is not open");
    expect(teakpool_tracker_add_paths(&tracker, teakpool_make_places(NULL, 0), &taken) == TEAKPOOL_FORM && taken == 0,
           "a list of none to a tracker that is not open");
    expect(teakpool_tracker_tidy(&tracker) == TEAKPOOL_FORM, "a tidy of a tracker that is not open");
    expect(teakpool_tracker_open(&tracker, 3) == TEAKPOOL_DONE, "an opening");
    expect(teakpool_tracker_add_path(&tracker, path) == TEAKPOOL_DONE, "an add");
    expect(teakpool_tracker_add_path(&tracker, end) == TEAKPOOL_DONE, "a second add");
    expect(teakpool_tracker_add_path(&tracker, end) == TEAKPOOL_DONE, "a third add");
    expect(tracker.state[0] == 3 && tracker.state[1] == 5 && tracker.state[2] == 3, "the state after the adds");
}

static void checks(void)
{
    expect(teakpool_tables_check(tables) == TEAKPOOL_DONE, "tables keep their rules");
    expect(teakpool_tables_check(teakpool_make_tables(teakpool_make_g(g, 3), teakpool_make_d(d, 2))) == TEAKPOOL_TABLE_LENGTHS,
           "tables of two lengths");
    expect(teakpool_priors_check(priors) == TEAKPOOL_DONE, "priors keep their rules");
    expect(teakpool_priors_check(teakpool_make_priors(priors.nodes, teakpool_make_children(children, 15))) == TEAKPOOL_PRIOR_SIZES,
           "a part of a child record");
}

static void children_found(void)
{
    struct teakpool_child_found found = {9, 9};
    struct teakpool_address child = teakpool_make_address(0, 9);
    uint32_t plain_count = 8, plain_read = 8;
    expect(teakpool_priors_child(priors, node, child, &found) == TEAKPOOL_DONE, "a child in a prior");
    expect(teakpool_child(nodes, sizeof nodes, children, sizeof children, INT32_MIN, 1, 7, 0, 9, &plain_count, &plain_read) ==
               TEAKPOOL_DONE,
           "the same, plain");
    expect(found.count == 3 && found.count == plain_count && found.read == 2 && found.read == plain_read, "its count, in two reads");
    expect(teakpool_priors_child(priors, child, node, &found) == TEAKPOOL_NONE && found.count == 3 && found.read == 1,
           "the two in each other's place: none leaves the count, and tells what was read");
    expect(teakpool_priors_child(teakpool_priors_with_floor(priors, teakpool_make_floor(2)), teakpool_make_address(-4, 7), child,
                                 &found) == TEAKPOOL_DONE &&
               found.count == 3,
           "the floor is handed on");
}

static void vectors(void)
{
    uint8_t addresses[2 * TEAKPOOL_STEP_SIZE], plain_addresses[sizeof addresses];
    double figures[2], plain_figures[2], plain_ending;
    struct teakpool_output output = teakpool_make_output(addresses, figures, 2);
    struct teakpool_vector vector;
    uint32_t plain_places;
    expect(teakpool_tracker_prob_vector(&tracker, priors, node, output, &vector) == TEAKPOOL_DONE, "the probabilities");
    expect(teakpool_prob_vector(tracker.state, book_bytes, sizeof book_bytes, queue_bytes, sizeof queue_bytes, nodes, sizeof nodes,
                                children, sizeof children, INT32_MIN, 1, 7, plain_addresses, sizeof plain_addresses,
                                plain_figures, 2, &plain_places, &plain_ending) == TEAKPOOL_DONE,
           "the same, plain");
    expect(vector.places == 2 && vector.places == plain_places && vector.ending == plain_ending, "the vector");
    expect(memcmp(addresses, plain_addresses, sizeof addresses) == 0 && memcmp(figures, plain_figures, sizeof figures) == 0,
           "the vector's places");
    expect(teakpool_tracker_evidence_prob_vector(&tracker, node, output, &vector) == TEAKPOOL_DONE, "the evidence");
    expect(vector.places == 1 && same(vector.ending, 0.0) && figures[0] == 1.0, "all of it goes to (0,9)");
    output.places = 0;
    expect(teakpool_tracker_evidence_prob_vector(&tracker, node, output, &vector) == TEAKPOOL_OUTPUT_SHORT, "no place");
    expect(teakpool_tracker_prob_vector(&tracker, priors, teakpool_make_address(-1, 3), output, &vector) == TEAKPOOL_NONE,
           "no prior");
    expect(vector.places == 1, "what is not carried out leaves the answer");
}

static void divergences(void)
{
    uint8_t addresses[2 * TEAKPOOL_STEP_SIZE];
    double figures[2], value = -1.0;
    struct teakpool_list list = {9, 9, {-5, 5}};
    struct teakpool_statistics now;
    memset(&now, 0, sizeof now);
    expect(teakpool_tracker_posterior_kl_divergence(&tracker, priors, tables, node, &value) == TEAKPOOL_DONE && value == 6.0,
           "the divergence of (1,7)");
    expect(teakpool_tracker_all_node_kl(&tracker, priors, tables, teakpool_make_output(addresses, figures, 1), &list) ==
                   TEAKPOOL_OUTPUT_SHORT &&
               list.places == 9 && list.skipped == 9,
           "a place too few");
    expect(teakpool_tracker_all_node_kl(&tracker, priors, tables, teakpool_make_output(addresses, figures, 2), &list) ==
               TEAKPOOL_DONE,
           "the divergences of all nodes");
    expect(list.places == 2 && list.skipped == 1 && list.node.scale == -5 && list.node.point == 5,
           "two places, one skipped, none named");
    expect(is_address(addresses, 0, 9) && is_address(addresses + 8, 1, 7) && figures[0] == 2.0 && figures[1] == 6.0, "the places");
    expect(teakpool_tracker_kl_div_stats(&tracker, priors, tables, &now) == TEAKPOOL_DONE, "the statistics");
    expect(now.maximum == 6.0 && now.minimum == 2.0 && now.sum == 8.0 && now.sum_of_squares == 40.0, "their figures");
    expect(now.number == 2 && now.sequence_length == 3 && now.skipped == 1, "their counts");
}

/* What names a node leaves the rest of the answer. */
static void named(uint32_t number, const char *what)
{
    uint8_t addresses[2 * TEAKPOOL_STEP_SIZE];
    double figures[2];
    struct teakpool_list list = {9, 9, {-5, 5}};
    struct teakpool_statistics now;
    memset(&now, 0, sizeof now);
    expect(teakpool_tracker_all_node_kl(&tracker, priors, tables, teakpool_make_output(addresses, figures, 2), &list) == number,
           what);
    expect(list.node.scale == 1 && list.node.point == 7 && list.places == 9 && list.skipped == 9, "the node in a list");
    expect(teakpool_tracker_kl_div_stats(&tracker, priors, tables, &now) == number, what);
    expect(now.node.scale == 1 && now.node.point == 7 && same(now.maximum, 0.0) && now.skipped == 0, "the node in statistics");
}

/* The training's two paths: that by (0,9), and (1,7) alone. */
static void added_together(void)
{
    struct teakpool_places places = teakpool_make_places(sequence_bytes, sizeof sequence_bytes), rest;
    uint8_t plain_book[sizeof book_bytes], plain_queue[sizeof queue_bytes];
    uint32_t plain_state[3], taken = 77, plain_taken = 78;
    open_and_add(9);
    memcpy(plain_book, book_bytes, sizeof plain_book);
    memcpy(plain_queue, queue_bytes, sizeof plain_queue);
    memcpy(plain_state, tracker.state, sizeof plain_state);
    expect(teakpool_tracker_add_paths(&tracker, places, &taken) == TEAKPOOL_DONE && taken == 2, "a list of two paths");
    expect(teakpool_add_paths(plain_state, plain_book, sizeof plain_book, plain_queue, sizeof plain_queue, sequence_bytes,
                              sizeof sequence_bytes, &plain_taken) == TEAKPOOL_DONE &&
               plain_taken == 2,
           "the same, plain");
    expect(tracker.state[0] == 3 && tracker.state[1] == 5 && tracker.state[2] == 5, "the state after a list");
    expect(memcmp(plain_state, tracker.state, sizeof plain_state) == 0 && memcmp(plain_book, book_bytes, sizeof plain_book) == 0 &&
               memcmp(plain_queue, queue_bytes, sizeof plain_queue) == 0,
           "the state, the book and the queue");
    places.length--;
    expect(teakpool_tracker_add_paths(&tracker, places, &taken) == TEAKPOOL_PATH_LENGTH && taken == 1, "the second place cut off");
    expect(tracker.state[2] == 6, "the first is taken");
    rest = teakpool_places_from(places, taken);
    expect(rest.at == sequence_bytes + TEAKPOOL_PLACE_SIZE && rest.length == TEAKPOOL_PLACE_SIZE - 1, "the refused place");
    rest = teakpool_places_from(places, taken + 1);
    expect(rest.at == sequence_bytes + places.length && rest.length == 0, "nothing after it");
    expect(teakpool_places_from(places, 0).at == places.at && teakpool_places_from(places, 0).length == places.length, "all places");
    expect(teakpool_places_from(places, SIZE_MAX).length == 0, "no places from the greatest number on");
}

/* Of the three paths the first leaves the window, and nothing but (-1,3) is left in it. */
static void tidied(void)
{
    uint8_t plain_book[sizeof book_bytes];
    uint32_t plain_state[3];
    open_and_add(9);
    expect(teakpool_tracker_add_path(&tracker, teakpool_make_path(path_bytes + 2 * TEAKPOOL_STEP_SIZE, TEAKPOOL_STEP_SIZE)) ==
               TEAKPOOL_DONE,
           "a fourth add");
    memcpy(plain_book, book_bytes, sizeof plain_book);
    memcpy(plain_state, tracker.state, sizeof plain_state);
    expect(teakpool_tracker_tidy(&tracker) == TEAKPOOL_DONE, "a tidy");
    expect(teakpool_tidy(plain_state, plain_book, sizeof plain_book, queue_bytes, sizeof queue_bytes) == TEAKPOOL_DONE,
           "the same, plain");
    expect(tracker.state[0] == 3 && tracker.state[1] == 1 && tracker.state[2] == 4, "one entry of five is kept");
    expect(memcmp(plain_state, tracker.state, sizeof plain_state) == 0 && memcmp(plain_book, book_bytes, sizeof plain_book) == 0,
           "the state and the book");
}

static void tried(size_t entries, struct teakpool_path path, uint32_t number, int names, const char *what)
{
    struct teakpool_address at = {-5, 5};
    memset(trial, 170, sizeof trial);
    expect(teakpool_try_path(priors, tables, path, teakpool_make_book(trial, entries * TEAKPOOL_ENTRY_SIZE), &at) == number, what);
    expect(names ? at.scale == 1 && at.point == 7 : at.scale == -5 && at.point == 5, what);
}

static void trials(void)
{
    uint8_t longest[TEAKPOOL_MAX_STEPS * TEAKPOOL_STEP_SIZE];
    for (uint32_t i = 0; i < TEAKPOOL_MAX_STEPS; i++) {
        teakpool_put_address(longest + i * TEAKPOOL_STEP_SIZE, teakpool_make_address(-1, i));
    }
    struct teakpool_path whole = teakpool_make_path(longest, sizeof longest);
    tried(TEAKPOOL_PATH_ENTRIES, path_by(9), TEAKPOOL_DONE, 0, "a path that the prior knows");
    tried(TEAKPOOL_PATH_ENTRIES, path_by(8), TEAKPOOL_MISSING_CHILD, 1, "a transition that it does not know");
    tried(TEAKPOOL_PATH_ENTRIES, whole, TEAKPOOL_DONE, 0, "the longest path of nodes without a prior");
    tried(TEAKPOOL_PATH_ENTRIES - 1, whole, TEAKPOOL_BOOK_FULL, 0, "a book too small for it");
    tried(0, whole, TEAKPOOL_FORM, 0, "no book");
    tried(TEAKPOOL_PATH_ENTRIES, teakpool_make_path(NULL, 0), TEAKPOOL_PATH_LENGTH, 0, "no path");
    lend(6);
    tried(TEAKPOOL_PATH_ENTRIES, path_by(9), TEAKPOOL_PAST_TABLE, 1, "tables too short for prior and path");
    lend(LENGTH - 1);
}

static void baselines(void)
{
    uint8_t work[ENTRIES * TEAKPOOL_ENTRY_SIZE];
    uint32_t knots[1] = {77};
    double values[TEAKPOOL_KNOT_VALUES] = {0.0};
    struct teakpool_book work_book = teakpool_make_book(work, sizeof work);
    struct teakpool_baseline baseline = teakpool_make_baseline(knots, values, 1);
    struct teakpool_usual usual;
    expect(teakpool_baseline_stats(&baseline, 1, &usual) == TEAKPOOL_BASELINE_INPUT, "a baseline that is not trained");
    expect(teakpool_baseline_train(&baseline, priors, tables, sequences, work_book) == TEAKPOOL_DONE, "a training");
    expect(baseline.s == 2 && baseline.count == 1 && knots[0] == 1, "one knot of two sequences");
    expect(teakpool_baseline_stats(&baseline, 1, &usual) == TEAKPOOL_DONE, "at the knot");
    expect(usual.maximum.mean == 8.0 && usual.maximum.variance == 4.0, "maxima 6 and 10");
    expect(usual.minimum.mean == 6.0 && usual.minimum.variance == 16.0, "minima 2 and 10");
    expect(usual.number.mean == 1.5 && usual.number.variance == 0.25, "numbers 2 and 1");
    expect(usual.sum.mean == 9.0 && usual.sum.variance == 1.0, "sums 8 and 10");
    expect(usual.sum_of_squares.mean == 70.0 && usual.sum_of_squares.variance == 900.0, "sums of squares 40 and 100");
    expect(teakpool_baseline_stats(&baseline, 2, &usual) == TEAKPOOL_ONE_KNOT && usual.maximum.mean == 8.0, "past the only knot");
    sequences.rate.number = 0;
    expect(teakpool_baseline_train(&baseline, priors, tables, sequences, work_book) == TEAKPOOL_TRAINING_INPUT, "a rate of 0");
    expect(baseline.s == 2 && baseline.count == 1, "a training that is refused before its work leaves the baseline");
    lend(6);
    expect(teakpool_baseline_train(&baseline, priors, tables, sequences, work_book) == TEAKPOOL_PAST_TABLE, "tables that end at 6");
    expect(baseline.node.scale == 1 && baseline.node.point == 7, "the node in a baseline");
    expect(teakpool_baseline_stats(&baseline, 0, &usual) == TEAKPOOL_BASELINE_INPUT, "a training that was stopped");
    lend(LENGTH - 1);
}

/* NULL for every slice that may be empty. */
static void nothing_lent(void)
{
    struct teakpool_priors no_priors = teakpool_make_priors(teakpool_make_nodes(NULL, 0), teakpool_make_children(NULL, 0));
    struct teakpool_output no_output = teakpool_make_output(NULL, NULL, 0);
    struct teakpool_baseline baseline = teakpool_make_baseline(NULL, NULL, 0);
    struct teakpool_list list = {9, 9, {0, 0}};
    struct teakpool_usual usual;
    struct teakpool_child_found found = {9, 9};
    uint32_t taken = 77;
    expect(teakpool_priors_check(no_priors) == TEAKPOOL_DONE, "no priors");
    expect(teakpool_priors_child(no_priors, node, node, &found) == TEAKPOOL_NONE && found.count == 9 && found.read == 0,
           "no child in no priors");
    expect(teakpool_tables_check(teakpool_make_tables(teakpool_make_g(NULL, 0), teakpool_make_d(NULL, 0))) ==
               TEAKPOOL_TABLE_LENGTHS,
           "no tables");
    tracker = teakpool_make_tracker(teakpool_make_book(NULL, 0), teakpool_make_queue(NULL, 0));
    expect(teakpool_tracker_open(&tracker, 0) == TEAKPOOL_FORM, "no book");
    tracker = teakpool_make_tracker(teakpool_make_book(book_bytes, sizeof book_bytes), teakpool_make_queue(NULL, 0));
    expect(teakpool_tracker_open(&tracker, 0) == TEAKPOOL_DONE, "no queue");
    expect(teakpool_tracker_add_path(&tracker, teakpool_make_path(NULL, 0)) == TEAKPOOL_PATH_LENGTH, "no path");
    expect(teakpool_tracker_add_path(&tracker, path_by(9)) == TEAKPOOL_DONE, "an add without a queue");
    expect(teakpool_tracker_add_paths(&tracker, teakpool_make_places(NULL, 0), &taken) == TEAKPOOL_DONE && taken == 0, "no places");
    expect(teakpool_tracker_tidy(&tracker) == TEAKPOOL_DONE && tracker.state[1] == 5, "a tidy without a queue: nothing leaves");
    expect(teakpool_tracker_all_node_kl(&tracker, no_priors, tables, no_output, &list) == TEAKPOOL_DONE, "no output");
    expect(list.places == 0 && list.skipped == 3, "every node is skipped");
    sequences = teakpool_make_sequences(NULL, 0, teakpool_make_s(1), teakpool_make_n(0), teakpool_make_rate(1));
    expect(teakpool_baseline_train(&baseline, no_priors, tables, sequences, tracker.book) == TEAKPOOL_DONE,
           "a training on no paths");
    expect(teakpool_baseline_stats(&baseline, 7, &usual) == TEAKPOOL_DONE && same(usual.sum.mean, 0.0), "a baseline without knots");
    lend(LENGTH - 1);
}

/* NULL with a length, as an allocation that failed leaves it: every call that needs what is missing refuses it. */
static void something_missing(void)
{
    uint8_t addresses[2 * TEAKPOOL_STEP_SIZE];
    uint32_t knots[1];
    double figures[2], values[TEAKPOOL_KNOT_VALUES];
    struct teakpool_vector vector;
    struct teakpool_child_found found = {9, 8};
    uint32_t taken = 77;
    struct teakpool_book no_book = teakpool_make_book(NULL, sizeof book_bytes);
    struct teakpool_queue queue = teakpool_make_queue(queue_bytes, sizeof queue_bytes);
    struct teakpool_baseline baseline = teakpool_make_baseline(knots, values, 1);
    expect(teakpool_tables_check(teakpool_make_tables(teakpool_make_g(NULL, LENGTH), teakpool_make_d(NULL, LENGTH))) ==
               TEAKPOOL_TABLE_LENGTHS,
           "missing tables");
    expect(teakpool_tables_check(teakpool_make_tables(teakpool_make_g(NULL, LENGTH), tables.d)) == TEAKPOOL_TABLE_LENGTHS,
           "a missing table of ln gamma");
    expect(teakpool_tables_check(teakpool_make_tables(tables.g, teakpool_make_d(NULL, LENGTH))) == TEAKPOOL_TABLE_LENGTHS,
           "a missing table of digamma");
    expect(teakpool_priors_check(teakpool_make_priors(teakpool_make_nodes(NULL, sizeof nodes), priors.children)) ==
               TEAKPOOL_PRIOR_SIZES,
           "missing node records");
    expect(teakpool_priors_check(teakpool_make_priors(priors.nodes, teakpool_make_children(NULL, sizeof children))) ==
               TEAKPOOL_PRIOR_SIZES,
           "missing child records");
    expect(teakpool_priors_child(teakpool_make_priors(priors.nodes, teakpool_make_children(NULL, sizeof children)), node, node,
                                 &found) == TEAKPOOL_PRIOR_SIZES &&
               found.count == 9 && found.read == 8,
           "a child where its records are missing");
    tracker = teakpool_make_tracker(no_book, queue);
    expect(teakpool_tracker_open(&tracker, 1) == TEAKPOOL_FORM, "a missing book");
    tracker.state[0] = 0;
    expect(teakpool_tracker_tidy(&tracker) == TEAKPOOL_FORM && tracker.state[0] == 0, "no book to tidy");
    expect(teakpool_baseline_train(&baseline, priors, tables, sequences, no_book) == TEAKPOOL_FORM, "no book to train in");
    tracker = teakpool_make_tracker(teakpool_make_book(book_bytes, sizeof book_bytes),
                                    teakpool_make_queue(NULL, sizeof queue_bytes));
    expect(teakpool_tracker_open(&tracker, 1) == TEAKPOOL_FORM, "a missing queue");
    expect(teakpool_tracker_open(&tracker, 0) == TEAKPOOL_DONE, "a missing queue that is not needed");
    expect(teakpool_tracker_add_path(&tracker, teakpool_make_path(NULL, sizeof path_bytes)) == TEAKPOOL_PATH_LENGTH,
           "a missing path");
    expect(teakpool_tracker_add_paths(&tracker, teakpool_make_places(NULL, sizeof sequence_bytes), &taken) == TEAKPOOL_PATH_LENGTH &&
               taken == 0,
           "missing places");
    open_and_add(9);
    expect(teakpool_tracker_prob_vector(&tracker, priors, node, teakpool_make_output(NULL, figures, 2), &vector) ==
               TEAKPOOL_OUTPUT_SHORT,
           "missing addresses");
    expect(teakpool_tracker_prob_vector(&tracker, priors, node, teakpool_make_output(addresses, NULL, 2), &vector) ==
               TEAKPOOL_OUTPUT_SHORT,
           "missing figures");
    struct teakpool_sequences none =
        teakpool_make_sequences(NULL, sizeof sequence_bytes, sequences.s, sequences.n, sequences.rate);
    expect(teakpool_baseline_train(&baseline, priors, tables, none, tracker.book) == TEAKPOOL_TRAINING_INPUT, "missing sequences");
    baseline = teakpool_make_baseline(NULL, values, 1);
    expect(teakpool_baseline_train(&baseline, priors, tables, sequences, tracker.book) == TEAKPOOL_OUTPUT_SHORT, "missing knots");
    baseline = teakpool_make_baseline(knots, NULL, 1);
    expect(teakpool_baseline_train(&baseline, priors, tables, sequences, tracker.book) == TEAKPOOL_OUTPUT_SHORT, "missing values");
    expect(teakpool_make_g(NULL, 2).length == 1 && teakpool_make_d(NULL, 2).length == 1, "the length of a missing table");
    expect(no_book.length == 1 && teakpool_make_path(NULL, 8).length == 1 && none.length == 1, "of a book, a path and sequences");
    expect(teakpool_make_places(NULL, TEAKPOOL_PLACE_SIZE).length == 1, "of places");
    expect(teakpool_make_queue(NULL, sizeof queue_bytes).length == 0, "of a queue");
    expect(teakpool_make_output(NULL, figures, 2).places == 0 && baseline.room == 0, "no places, and no room");
}

static void fields(void)
{
    uint8_t bytes[TEAKPOOL_RECORD_SIZE];
    static const uint8_t expected[TEAKPOOL_RECORD_SIZE] = {254, 255, 255, 255, 4, 3, 2, 1, 8, 7, 6, 5, 12, 11, 10, 9};
    teakpool_put_record(bytes, teakpool_make_address(-2, 0x01020304u), 0x05060708u, 0x090a0b0cu);
    expect(memcmp(bytes, expected, sizeof bytes) == 0, "a record's bytes");
    expect(teakpool_address_at(bytes).scale == -2 && teakpool_address_at(bytes).point == 0x01020304u, "an address from its bytes");
}

int main(void)
{
    fields();
    lend(LENGTH - 1);
    checks();
    children_found();
    open_and_add(9);
    vectors();
    divergences();
    lend(6);
    named(TEAKPOOL_PAST_TABLE, "tables that end at 6");
    lend(LENGTH - 1);
    open_and_add(8);
    named(TEAKPOOL_MISSING_CHILD, "a child that the prior does not have");
    added_together();
    tidied();
    trials();
    baselines();
    nothing_lent();
    something_missing();
    if (failures == 0) {
        printf("structs: every call answers as its plain function\n");
    }
    return failures == 0 ? 0 : 1;
}

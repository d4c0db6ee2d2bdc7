/* The calls over structs, each with a function in the archive's place that writes down what it is handed: every argument is another
 * number or address, so that two in each other's place, or one taken from the wrong field, show. What the functions write is other
 * numbers again, which must come out in the right fields. This program is built without the archive. */
#include "teakpool.h"
#include "bytes.h"

#include <string.h>

/* What is lent. Nothing is read here or written: lengths are numbers to tell by. */
static double g[1], d[1], figures[1], values[1];
static uint8_t book[1], queue[1], path[1], paths[1], nodes[1], children[1], addresses[1], sequences[1];
static uint32_t knots[1];

static uint64_t seen[64];
static size_t many;
static uint32_t answer;
static const void *last_state;

static void number(uint64_t value)
{
    if (many < sizeof seen / sizeof seen[0]) {
        seen[many] = value;
    }
    many++;
}

static uint64_t place(const volatile void *at)
{
    return (uint64_t)(uintptr_t)at;
}

static void slice(const volatile void *at, size_t length)
{
    number(place(at));
    number(length);
}

static void tracker_seen(const uint32_t *state, const uint8_t *its_book, size_t book_length, const uint8_t *its_queue,
                         size_t queue_length)
{
    last_state = state;
    number(place(state));
    slice(its_book, book_length);
    slice(its_queue, queue_length);
}

static void priors_seen(const uint8_t *its_nodes, size_t nodes_length, const uint8_t *its_children, size_t children_length,
                        int32_t floor)
{
    slice(its_nodes, nodes_length);
    slice(its_children, children_length);
    number((uint64_t)(int64_t)floor);
}

static void node_named(int32_t *node_scale, uint32_t *node_point)
{
    if (answer == TEAKPOOL_MISSING_CHILD || answer == TEAKPOOL_PAST_TABLE) {
        *node_scale = -43;
        *node_point = 44;
    }
}

/* ---- In the archive's place */

uint32_t teakpool_check_tables(const double *g_at, size_t g_length, const double *d_at, size_t d_length)
{
    slice(g_at, g_length);
    slice(d_at, d_length);
    return answer;
}

uint32_t teakpool_check_priors(const uint8_t *nodes_at, size_t nodes_length, const uint8_t *children_at, size_t children_length,
                               int32_t floor)
{
    priors_seen(nodes_at, nodes_length, children_at, children_length, floor);
    return answer;
}

uint32_t teakpool_child(const uint8_t *nodes_at, size_t nodes_length, const uint8_t *children_at, size_t children_length,
                        int32_t floor, int32_t scale, uint32_t point, int32_t child_scale, uint32_t child_point, uint32_t *count,
                        uint32_t *read)
{
    priors_seen(nodes_at, nodes_length, children_at, children_length, floor);
    number((uint64_t)(int64_t)scale);
    number(point);
    number((uint64_t)(int64_t)child_scale);
    number(child_point);
    number(place(count));
    number(place(read));
    return answer;
}

uint32_t teakpool_open(uint32_t window, uint8_t *book_at, size_t book_length, uint8_t *queue_at, size_t queue_length,
                       uint32_t state[3])
{
    number(window);
    tracker_seen(state, book_at, book_length, queue_at, queue_length);
    return answer >= TEAKPOOL_MISSING_CHILD ? TEAKPOOL_DONE : answer;
}

uint32_t teakpool_add_path(uint32_t state[3], uint8_t *book_at, size_t book_length, uint8_t *queue_at, size_t queue_length,
                           const uint8_t *path_at, size_t path_length)
{
    tracker_seen(state, book_at, book_length, queue_at, queue_length);
    slice(path_at, path_length);
    return answer >= TEAKPOOL_MISSING_CHILD ? TEAKPOOL_DONE : answer;
}

uint32_t teakpool_add_paths(uint32_t state[3], uint8_t *book_at, size_t book_length, uint8_t *queue_at, size_t queue_length,
                            const uint8_t *places_at, size_t places_length, uint32_t *taken)
{
    tracker_seen(state, book_at, book_length, queue_at, queue_length);
    slice(places_at, places_length);
    *taken = 45;
    return answer;
}

uint32_t teakpool_tidy(uint32_t state[3], uint8_t *book_at, size_t book_length, const uint8_t *queue_at, size_t queue_length)
{
    tracker_seen(state, book_at, book_length, queue_at, queue_length);
    return answer;
}

/* What both readings of probabilities take last. */
static void vector_seen(int32_t scale, uint32_t point, uint8_t *addresses_at, size_t addresses_length, double *figures_at,
                        size_t figures_length, uint32_t *places, double *ending)
{
    number((uint64_t)(int64_t)scale);
    number(point);
    slice(addresses_at, addresses_length);
    slice(figures_at, figures_length);
    number(place(places));
    number(place(ending));
}

uint32_t teakpool_prob_vector(const uint32_t state[3], const uint8_t *book_at, size_t book_length, const uint8_t *queue_at,
                              size_t queue_length, const uint8_t *nodes_at, size_t nodes_length, const uint8_t *children_at,
                              size_t children_length, int32_t floor, int32_t scale, uint32_t point, uint8_t *addresses_at,
                              size_t addresses_length, double *figures_at, size_t figures_length, uint32_t *places, double *ending)
{
    tracker_seen(state, book_at, book_length, queue_at, queue_length);
    priors_seen(nodes_at, nodes_length, children_at, children_length, floor);
    vector_seen(scale, point, addresses_at, addresses_length, figures_at, figures_length, places, ending);
    return answer;
}

uint32_t teakpool_evidence_prob_vector(const uint32_t state[3], const uint8_t *book_at, size_t book_length,
                                       const uint8_t *queue_at, size_t queue_length, int32_t scale, uint32_t point,
                                       uint8_t *addresses_at, size_t addresses_length, double *figures_at, size_t figures_length,
                                       uint32_t *places, double *ending)
{
    tracker_seen(state, book_at, book_length, queue_at, queue_length);
    vector_seen(scale, point, addresses_at, addresses_length, figures_at, figures_length, places, ending);
    return answer;
}

uint32_t teakpool_posterior_kl_divergence(const uint32_t state[3], const uint8_t *book_at, size_t book_length,
                                          const uint8_t *queue_at, size_t queue_length, const uint8_t *nodes_at,
                                          size_t nodes_length, const uint8_t *children_at, size_t children_length, int32_t floor,
                                          const double *g_at, size_t g_length, const double *d_at, size_t d_length, int32_t scale,
                                          uint32_t point, double *value)
{
    tracker_seen(state, book_at, book_length, queue_at, queue_length);
    priors_seen(nodes_at, nodes_length, children_at, children_length, floor);
    slice(g_at, g_length);
    slice(d_at, d_length);
    number((uint64_t)(int64_t)scale);
    number(point);
    number(place(value));
    return answer;
}

uint32_t teakpool_all_node_kl(const uint32_t state[3], const uint8_t *book_at, size_t book_length, const uint8_t *queue_at,
                              size_t queue_length, const uint8_t *nodes_at, size_t nodes_length, const uint8_t *children_at,
                              size_t children_length, int32_t floor, const double *g_at, size_t g_length, const double *d_at,
                              size_t d_length, uint8_t *addresses_at, size_t addresses_length, double *figures_at,
                              size_t figures_length, uint32_t counts[2], int32_t *node_scale, uint32_t *node_point)
{
    tracker_seen(state, book_at, book_length, queue_at, queue_length);
    priors_seen(nodes_at, nodes_length, children_at, children_length, floor);
    slice(g_at, g_length);
    slice(d_at, d_length);
    slice(addresses_at, addresses_length);
    slice(figures_at, figures_length);
    number(place(node_scale));
    number(place(node_point));
    if (answer == TEAKPOOL_DONE) {
        counts[0] = 41;
        counts[1] = 42;
    }
    node_named(node_scale, node_point);
    return answer;
}

uint32_t teakpool_kl_div_stats(const uint32_t state[3], const uint8_t *book_at, size_t book_length, const uint8_t *queue_at,
                               size_t queue_length, const uint8_t *nodes_at, size_t nodes_length, const uint8_t *children_at,
                               size_t children_length, int32_t floor, const double *g_at, size_t g_length, const double *d_at,
                               size_t d_length, double four[4], uint64_t counts[3], int32_t *node_scale, uint32_t *node_point)
{
    tracker_seen(state, book_at, book_length, queue_at, queue_length);
    priors_seen(nodes_at, nodes_length, children_at, children_length, floor);
    slice(g_at, g_length);
    slice(d_at, d_length);
    if (answer == TEAKPOOL_DONE) {
        for (int i = 0; i < 4; i++) {
            four[i] = 51.0 + i;
        }
        for (uint32_t i = 0; i < 3; i++) {
            counts[i] = 61 + i;
        }
    }
    node_named(node_scale, node_point);
    return answer;
}

uint32_t teakpool_train(const double *g_at, size_t g_length, const double *d_at, size_t d_length, const uint8_t *nodes_at,
                        size_t nodes_length, const uint8_t *children_at, size_t children_length, int32_t floor,
                        const uint8_t *sequences_at, size_t sequences_length, uint32_t s, uint32_t n, uint32_t rate,
                        uint8_t *book_at, size_t book_length, uint32_t *knots_at, size_t knots_length, double *values_at,
                        size_t values_length, uint32_t *count, int32_t *node_scale, uint32_t *node_point)
{
    slice(g_at, g_length);
    slice(d_at, d_length);
    priors_seen(nodes_at, nodes_length, children_at, children_length, floor);
    slice(sequences_at, sequences_length);
    number(s);
    number(n);
    number(rate);
    slice(book_at, book_length);
    slice(knots_at, knots_length);
    slice(values_at, values_length);
    number(place(count));
    number(place(node_scale));
    number(place(node_point));
    if (answer == TEAKPOOL_DONE) {
        *count = 71;
    }
    node_named(node_scale, node_point);
    return answer;
}

uint32_t teakpool_stats(const uint32_t *knots_at, size_t knots_length, const double *values_at, size_t values_length, uint32_t s,
                        uint32_t length, double ten[10])
{
    slice(knots_at, knots_length);
    slice(values_at, values_length);
    number(s);
    number(length);
    if (answer == TEAKPOOL_DONE) {
        for (int i = 0; i < 10; i++) {
            ten[i] = 81.0 + i;
        }
    }
    return answer;
}

/* ---- The calls over structs */

/* The functions were called as often and handed as much as this, in this order. */
static void handed(const char *what, const uint64_t *expected, size_t count)
{
    expect(many == count && memcmp(seen, expected, count * sizeof seen[0]) == 0, what);
    many = 0;
}
#define HANDED(what, ...)                                             \
    do {                                                              \
        const uint64_t expected[] = {__VA_ARGS__};                    \
        handed(what, expected, sizeof expected / sizeof expected[0]); \
    } while (0)

#define TABLES place(g), 11, place(d), 12
#define PRIORS place(nodes), 13, place(children), 14, (uint64_t)(int64_t)-27
#define TRACKER place(tracker.state), place(book), 15, place(queue), 16
#define NODE (uint64_t)(int64_t)-18, 19
#define OUTPUT place(addresses), 8 * 20, place(figures), 20

static struct teakpool_tables tables;
static struct teakpool_priors priors;
static struct teakpool_tracker tracker;
static struct teakpool_output output;
static struct teakpool_address node;

static void lend(void)
{
    tables = teakpool_make_tables(teakpool_make_g(g, 11), teakpool_make_d(d, 12));
    priors = teakpool_make_priors(teakpool_make_nodes(nodes, 13), teakpool_make_children(children, 14));
    priors = teakpool_priors_with_floor(priors, teakpool_make_floor(-27));
    tracker = teakpool_make_tracker(teakpool_make_book(book, 15), teakpool_make_queue(queue, 16));
    output = teakpool_make_output(addresses, figures, 20);
    node = teakpool_make_address(-18, 19);
    expect(tracker.state[0] > TEAKPOOL_MAX_WINDOW && tracker.state[1] == 0 && tracker.state[2] == 0, "a tracker is not open as made");
}

static void on_priors_and_trackers(void)
{
    struct teakpool_vector vector;
    struct teakpool_child_found found;
    uint32_t taken = 0;
    double value;
    expect(teakpool_tables_check(tables) == answer, "teakpool_tables_check");
    HANDED("what teakpool_check_tables is handed", TABLES);
    expect(teakpool_priors_check(priors) == answer, "teakpool_priors_check");
    HANDED("what teakpool_check_priors is handed", PRIORS);
    expect(teakpool_priors_child(priors, node, teakpool_make_address(-28, 29), &found) == answer, "teakpool_priors_child");
    HANDED("what teakpool_child is handed", PRIORS, NODE, (uint64_t)(int64_t)-28, 29, place(&found.count), place(&found.read));
    expect(teakpool_tracker_add_paths(&tracker, teakpool_make_places(paths, 30), &taken) == answer, "teakpool_tracker_add_paths");
    HANDED("what teakpool_add_paths is handed", TRACKER, place(paths), 30);
    expect(taken == 45, "the number of paths taken, whatever the answer");
    expect(teakpool_tracker_tidy(&tracker) == answer, "teakpool_tracker_tidy");
    HANDED("what teakpool_tidy is handed", TRACKER);
    expect(teakpool_tracker_prob_vector(&tracker, priors, node, output, &vector) == answer, "teakpool_tracker_prob_vector");
    HANDED("what teakpool_prob_vector is handed", TRACKER, PRIORS, NODE, OUTPUT, place(&vector.places), place(&vector.ending));
    expect(teakpool_tracker_evidence_prob_vector(&tracker, node, output, &vector) == answer, "teakpool_tracker_evidence_prob_vector");
    HANDED("what teakpool_evidence_prob_vector is handed", TRACKER, NODE, OUTPUT, place(&vector.places), place(&vector.ending));
    expect(teakpool_tracker_posterior_kl_divergence(&tracker, priors, tables, node, &value) == answer,
           "teakpool_tracker_posterior_kl_divergence");
    HANDED("what teakpool_posterior_kl_divergence is handed", TRACKER, PRIORS, TABLES, NODE, place(&value));
}

static void openings_and_adds(void)
{
    expect(teakpool_tracker_open(&tracker, 21) == TEAKPOOL_DONE, "teakpool_tracker_open");
    HANDED("what teakpool_open is handed", 21, TRACKER);
    expect(teakpool_tracker_add_path(&tracker, teakpool_make_path(path, 17)) == TEAKPOOL_DONE, "teakpool_tracker_add_path");
    HANDED("what teakpool_add_path is handed", TRACKER, place(path), 17);
}

static void lists(void)
{
    struct teakpool_list list = {1, 2, {3, 4}};
    int named = answer == TEAKPOOL_MISSING_CHILD || answer == TEAKPOOL_PAST_TABLE;
    expect(teakpool_tracker_all_node_kl(&tracker, priors, tables, output, &list) == answer, "teakpool_tracker_all_node_kl");
    HANDED("what teakpool_all_node_kl is handed", TRACKER, PRIORS, TABLES, OUTPUT, place(&list.node.scale), place(&list.node.point));
    expect(answer == TEAKPOOL_DONE ? list.places == 41 && list.skipped == 42 : list.places == 1 && list.skipped == 2,
           "a list's counts");
    expect(named ? list.node.scale == -43 && list.node.point == 44 : list.node.scale == 3 && list.node.point == 4, "a list's node");
}

static void statistics(void)
{
    struct teakpool_statistics now = {1.0, 2.0, 3.0, 4.0, 5, 6, 7, {8, 9}};
    int named = answer == TEAKPOOL_MISSING_CHILD || answer == TEAKPOOL_PAST_TABLE;
    expect(teakpool_tracker_kl_div_stats(&tracker, priors, tables, &now) == answer, "teakpool_tracker_kl_div_stats");
    HANDED("what teakpool_kl_div_stats is handed", TRACKER, PRIORS, TABLES);
    if (answer == TEAKPOOL_DONE) {
        expect(now.maximum == 51.0 && now.minimum == 52.0 && now.sum == 53.0 && now.sum_of_squares == 54.0,
               "the statistics' figures");
        expect(now.number == 61 && now.sequence_length == 62 && now.skipped == 63, "the statistics' counts");
    } else {
        expect(now.maximum == 1.0 && now.minimum == 2.0 && now.sum == 3.0 && now.sum_of_squares == 4.0, "figures that are left");
        expect(now.number == 5 && now.sequence_length == 6 && now.skipped == 7, "counts that are left");
    }
    expect(named ? now.node.scale == -43 && now.node.point == 44 : now.node.scale == 8 && now.node.point == 9,
           "the statistics' node");
}

/* An opening, an add and a reading of one tracker, as far as nothing is refused. */
static void trials(void)
{
    struct teakpool_address at = {3, 4};
    uint64_t none = place(teakpool_nowhere());
    int named = answer == TEAKPOOL_MISSING_CHILD || answer == TEAKPOOL_PAST_TABLE;
    expect(teakpool_try_path(priors, tables, teakpool_make_path(path, 17), teakpool_make_book(book, 15), &at) == answer,
           "teakpool_try_path");
    if (answer == TEAKPOOL_DONE || answer >= TEAKPOOL_MISSING_CHILD) {
        HANDED("what a trial hands on", 0, place(last_state), place(book), 15, none, 0, place(last_state), place(book), 15, none, 0,
               place(path), 17, place(last_state), place(book), 15, none, 0, PRIORS, TABLES);
    } else {
        HANDED("what a trial hands on until it is refused", 0, place(last_state), place(book), 15, none, 0);
    }
    expect(named ? at.scale == -43 && at.point == 44 : at.scale == 3 && at.point == 4, "a trial's node");
}

static void baselines(void)
{
    struct teakpool_baseline baseline = teakpool_make_baseline(knots, values, 25);
    struct teakpool_usual usual;
    int named = answer == TEAKPOOL_MISSING_CHILD || answer == TEAKPOOL_PAST_TABLE;
    expect(baseline.s == 0 && baseline.count == 0 && baseline.node.scale == 0 && baseline.node.point == 0, "a baseline as made");
    baseline.s = 31;
    baseline.count = 32;
    expect(teakpool_baseline_train(&baseline, priors, tables,
                                   teakpool_make_sequences(sequences, 22, teakpool_make_s(23), teakpool_make_n(24),
                                                           teakpool_make_rate(26)),
                                   teakpool_make_book(book, 15)) == answer,
           "teakpool_baseline_train");
    HANDED("what teakpool_train is handed", TABLES, PRIORS, place(sequences), 22, 23, 24, 26, place(book), 15, place(knots), 25,
           place(values), 250, place(&baseline.count), place(&baseline.node.scale), place(&baseline.node.point));
    if (answer == TEAKPOOL_DONE) {
        expect(baseline.s == 23 && baseline.count == 71, "a trained baseline");
    } else if (named || answer == TEAKPOOL_PATH_LENGTH || answer == TEAKPOOL_BOOK_FULL) {
        expect(baseline.s == 0 && baseline.count == 0, "a training that was stopped");
    } else {
        expect(baseline.s == 31 && baseline.count == 32, "a training that was refused");
    }
    baseline.s = 31;
    baseline.count = 32;
    memset(&usual, 0, sizeof usual);
    expect(teakpool_baseline_stats(&baseline, 33, &usual) == answer, "teakpool_baseline_stats");
    HANDED("what teakpool_stats is handed", place(knots), 32, place(values), 320, 31, 33);
    double first = answer == TEAKPOOL_DONE ? 81.0 : 0.0, step = answer == TEAKPOOL_DONE ? 1.0 : 0.0;
    const double ten[10] = {usual.maximum.mean,         usual.maximum.variance, usual.minimum.mean,
                            usual.minimum.variance,     usual.number.mean,      usual.number.variance,
                            usual.sum.mean,             usual.sum.variance,     usual.sum_of_squares.mean,
                            usual.sum_of_squares.variance};
    for (int i = 0; i < 10; i++) {
        expect(ten[i] == first + step * i, "a baseline's figures");
    }
}

int main(void)
{
    lend();
    openings_and_adds();
    for (answer = TEAKPOOL_DONE; answer <= TEAKPOOL_SHARED_POINT; answer++) {
        on_priors_and_trackers();
        lists();
        statistics();
        trials();
        baselines();
    }
    if (failures == 0) {
        printf("arguments: every call over structs hands on what it is handed, in its place\n");
    }
    return failures == 0 ? 0 : 1;
}

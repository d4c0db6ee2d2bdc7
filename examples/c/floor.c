/* Priors with a floor: below it a node is found by its point, at and above it by its address. Tables with G(k) = k * k and D(k) = 4k
 * make every divergence a whole number. */
#include "teakpool.h"
#include "bytes.h"

#include <string.h>

#define ENTRIES 8u
#define PLACES 3u

static double g[8], d[8];
static uint8_t nodes[2 * TEAKPOOL_RECORD_SIZE], children[3 * TEAKPOOL_RECORD_SIZE];
static uint8_t book[ENTRIES * TEAKPOOL_ENTRY_SIZE];
static uint8_t addresses[PLACES * TEAKPOOL_STEP_SIZE];
static double figures[PLACES];

static struct teakpool_tracker tracker;

/* Priors of (-5,7): singleton 1, (-6,7) with 2, (-6,9) with 3; and of (-3,9): singleton 1, (-9,9) with 2. */
static struct teakpool_priors priors_with(int32_t floor)
{
    teakpool_put_record(nodes, teakpool_make_address(-5, 7), 1, 1);
    teakpool_put_record(nodes + TEAKPOOL_RECORD_SIZE, teakpool_make_address(-3, 9), 1, 3);
    teakpool_put_record(children, teakpool_make_address(-6, 7), 2, 2);
    teakpool_put_record(children + TEAKPOOL_RECORD_SIZE, teakpool_make_address(-6, 9), 3, 0);
    teakpool_put_record(children + 2 * TEAKPOOL_RECORD_SIZE, teakpool_make_address(-9, 9), 2, 0);
    struct teakpool_priors priors =
        teakpool_make_priors(teakpool_make_nodes(nodes, sizeof nodes), teakpool_make_children(children, sizeof children));
    return teakpool_priors_with_floor(priors, teakpool_make_floor(floor));
}

static struct teakpool_tables tables_to(uint32_t last)
{
    for (uint32_t k = 0; k < 8; k++) {
        g[k] = (double)(k * k);
        d[k] = (double)(4 * k);
    }
    return teakpool_make_tables(teakpool_make_g(g, last + 1), teakpool_make_d(d, last + 1));
}

/* From (-4,7) to this node. */
static void add_path_to(int32_t scale, uint32_t point)
{
    uint8_t path[2 * TEAKPOOL_STEP_SIZE];
    put_address(path, -4, 7);
    put_address(path + TEAKPOOL_STEP_SIZE, scale, point);
    expect(teakpool_tracker_add_path(&tracker, teakpool_make_path(path, sizeof path)) == TEAKPOOL_DONE, "an add");
}

static void open_tracker(void)
{
    tracker = teakpool_make_tracker(teakpool_make_book(book, sizeof book), teakpool_make_queue(NULL, 0));
    expect(teakpool_tracker_open(&tracker, 0) == TEAKPOOL_DONE, "an opening");
}

/* (-4,7) and (-6,9) are listed. The divergence of the first is 6 by the prior of (-5,7), that of the second 4 by that of (-3,9); one
 * that has no prior is skipped, and has a divergence of -1 here. */
static void floors(void)
{
    static const struct {
        int32_t floor;
        double of_4_7, of_6_9;
        const char *what;
    } rows[] = {
        {INT32_MIN, -1.0, -1.0, "no floor: no address is exact"},
        {-6, -1.0, -1.0, "a floor below both records"},
        {-5, -1.0, -1.0, "a record at the floor is not found from below"},
        {-4, -1.0, -1.0, "a node at the floor does not find a record below"},
        {-3, 6.0, -1.0, "one record below the floor, one at it"},
        {-2, 6.0, 4.0, "both records below the floor"},
        {INT32_MAX, 6.0, 4.0, "the greatest floor"},
    };
    open_tracker();
    add_path_to(-6, 9);
    for (size_t i = 0; i < sizeof rows / sizeof rows[0]; i++) {
        struct teakpool_list list = {9, 9, {-5, 5}};
        struct teakpool_priors priors = priors_with(rows[i].floor);
        uint32_t found = (rows[i].of_6_9 >= 0.0) + (uint32_t)(rows[i].of_4_7 >= 0.0);
        expect(teakpool_priors_check(priors) == TEAKPOOL_DONE, rows[i].what);
        expect(teakpool_tracker_all_node_kl(&tracker, priors, tables_to(7), teakpool_make_output(addresses, figures, found), &list) ==
                   TEAKPOOL_DONE,
               rows[i].what);
        expect(list.places == found && list.skipped == 2 - found, rows[i].what);
        expect(found < 2 || (is_address(addresses, -6, 9) && same(figures[0], rows[i].of_6_9)), rows[i].what);
        expect(found < 1 || (is_address(addresses + 8 * (found - 1), -4, 7) && same(figures[found - 1], rows[i].of_4_7)),
               rows[i].what);
    }
}

/* With a floor of -3. */
static void one_node(void)
{
    static const struct {
        int32_t scale;
        uint32_t point, number;
        const char *what;
    } rows[] = {
        {-5, 7, TEAKPOOL_DONE, "a record below the floor by its own address"},
        {INT32_MIN, 7, TEAKPOOL_DONE, "it by its point alone"},
        {-3, 7, TEAKPOOL_NONE, "its point at the floor"},
        {-3, 9, TEAKPOOL_DONE, "a record at the floor by its own address"},
        {-4, 9, TEAKPOOL_NONE, "its point below the floor"},
        {-2, 9, TEAKPOOL_NONE, "its point above the floor"},
    };
    struct teakpool_vector vector;
    double value = -1.0;
    struct teakpool_output output = teakpool_make_output(addresses, figures, PLACES);
    open_tracker();
    add_path_to(-6, 9);
    for (size_t i = 0; i < sizeof rows / sizeof rows[0]; i++) {
        struct teakpool_address node = teakpool_make_address(rows[i].scale, rows[i].point);
        expect(teakpool_tracker_prob_vector(&tracker, priors_with(-3), node, output, &vector) == rows[i].number, rows[i].what);
    }
    struct teakpool_address listed = teakpool_make_address(-4, 7);
    expect(teakpool_tracker_prob_vector(&tracker, priors_with(-3), listed, output, &vector) == TEAKPOOL_DONE && vector.places == 2,
           "prior and evidence of a node that is found by its point");
    expect(is_address(addresses, -6, 7) && same(figures[0], 2.0 / 7.0) && is_address(addresses + 8, -6, 9) &&
               same(figures[1], 4.0 / 7.0) && same(vector.ending, 1.0 / 7.0),
           "2/7, 4/7, ending 1/7");
    expect(teakpool_tracker_posterior_kl_divergence(&tracker, priors_with(-3), tables_to(7), listed, &value) == TEAKPOOL_DONE &&
               same(value, 6.0),
           "the divergence of a node that is found by its point");
    listed.scale = -5;
    expect(teakpool_tracker_posterior_kl_divergence(&tracker, priors_with(-3), tables_to(7), listed, &value) == TEAKPOOL_NONE,
           "evidence is not found by point");
}

/* (-5,7) ends, (-4,7) goes on to (-6,9): one prior, and a divergence each. */
static void one_prior_for_two(void)
{
    uint8_t step[TEAKPOOL_STEP_SIZE];
    struct teakpool_list list;
    struct teakpool_statistics now;
    struct teakpool_priors priors = priors_with(-3);
    open_tracker();
    add_path_to(-6, 9);
    put_address(step, -5, 7);
    expect(teakpool_tracker_add_path(&tracker, teakpool_make_path(step, sizeof step)) == TEAKPOOL_DONE, "a path of one step");
    expect(teakpool_tracker_all_node_kl(&tracker, priors, tables_to(7), teakpool_make_output(addresses, figures, 1), &list) ==
               TEAKPOOL_OUTPUT_SHORT,
           "a place is wanted for each of two nodes with one prior");
    expect(teakpool_tracker_all_node_kl(&tracker, priors, tables_to(7), teakpool_make_output(addresses, figures, 2), &list) ==
               TEAKPOOL_DONE,
           "two nodes with one prior");
    expect(list.places == 2 && list.skipped == 1, "two places, and (-6,9) is skipped");
    expect(is_address(addresses, -5, 7) && same(figures[0], 10.0) && is_address(addresses + 8, -4, 7) && same(figures[1], 6.0),
           "each has its own evidence");
    expect(teakpool_tracker_kl_div_stats(&tracker, priors, tables_to(7), &now) == TEAKPOOL_DONE && now.number == 2 &&
               same(now.sum, 16.0) && same(now.sum_of_squares, 136.0),
           "both enter the statistics");
}

/* 14 and 15 name (-4,7), and not (-5,7), whose record is found. */
static void named(void)
{
    static const struct {
        int32_t scale;
        uint32_t point, last, number;
        const char *what;
    } rows[] = {
        {-6, 8, 7, TEAKPOOL_MISSING_CHILD, "a child that the prior does not have"},
        {-5, 9, 7, TEAKPOOL_MISSING_CHILD, "a child that it has at another scale: children are not found by point"},
        {-6, 9, 6, TEAKPOOL_PAST_TABLE, "tables that end at 6"},
    };
    for (size_t i = 0; i < sizeof rows / sizeof rows[0]; i++) {
        struct teakpool_list list = {9, 9, {-5, 5}};
        struct teakpool_statistics now;
        now.node = list.node;
        open_tracker();
        add_path_to(rows[i].scale, rows[i].point);
        expect(teakpool_tracker_all_node_kl(&tracker, priors_with(-3), tables_to(rows[i].last),
                                            teakpool_make_output(addresses, figures, PLACES), &list) == rows[i].number,
               rows[i].what);
        expect(list.node.scale == -4 && list.node.point == 7, rows[i].what);
        expect(teakpool_tracker_kl_div_stats(&tracker, priors_with(-3), tables_to(rows[i].last), &now) == rows[i].number,
               rows[i].what);
        expect(now.node.scale == -4 && now.node.point == 7, rows[i].what);
    }
}

/* A training on one path from (-4,7) to (-6,9) has the maximum 6, and without a floor none. */
static void trained(void)
{
    uint8_t sequence[TEAKPOOL_PLACE_SIZE];
    uint32_t knots[1];
    double values[TEAKPOOL_KNOT_VALUES];
    struct teakpool_baseline baseline = teakpool_make_baseline(knots, values, 1);
    struct teakpool_usual usual;
    memset(sequence, 0, sizeof sequence);
    put_word(sequence, 2);
    put_address(sequence + 4, -4, 7);
    put_address(sequence + 4 + TEAKPOOL_STEP_SIZE, -6, 9);
    struct teakpool_sequences one =
        teakpool_make_sequences(sequence, sizeof sequence, teakpool_make_s(1), teakpool_make_n(1), teakpool_make_rate(1));
    for (int with = 0; with <= 1; with++) {
        struct teakpool_priors priors = priors_with(with ? -3 : INT32_MIN);
        expect(teakpool_baseline_train(&baseline, priors, tables_to(7), one, teakpool_make_book(book, sizeof book)) == TEAKPOOL_DONE,
               "a training");
        expect(teakpool_baseline_stats(&baseline, 1, &usual) == TEAKPOOL_DONE, "its figures");
        expect(same(usual.number.mean, (double)with) && same(usual.sum.mean, 6.0 * with), "a divergence of 6 with the floor alone");
    }
}

/* A struct filled with zeros has no floor, and neither have priors as they are made. */
static void made(void)
{
    static const int32_t scales[] = {INT32_MIN, INT32_MIN + 1, -1, 0, 1, INT32_MAX};
    struct teakpool_priors zeros;
    memset(&zeros, 0, sizeof zeros);
    expect(teakpool_floor_scale(zeros.floor) == INT32_MIN, "the floor of zeros");
    zeros = teakpool_make_priors(teakpool_make_nodes(nodes, sizeof nodes), teakpool_make_children(children, sizeof children));
    expect(teakpool_floor_scale(zeros.floor) == INT32_MIN, "the floor of priors as made");
    for (size_t i = 0; i < sizeof scales / sizeof scales[0]; i++) {
        expect(teakpool_floor_scale(teakpool_priors_with_floor(zeros, teakpool_make_floor(scales[i])).floor) == scales[i],
               "a floor keeps its scale");
    }
}

int main(void)
{
    made();
    floors();
    one_node();
    one_prior_for_two();
    named();
    trained();
    if (failures == 0) {
        printf("floor: below it nodes are found by their points\n");
    }
    return failures == 0 ? 0 : 1;
}

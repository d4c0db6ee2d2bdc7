/* The watch in a terminal, from its tables to drift: fills the tables, lends priors, opens a tracker, tries each path before it is
 * added, reads how far the node (1,7) has moved, and holds the day against a baseline of two good days.
 *
 * The prior of (1,7): paths ended there once, went on to (0,7) twice and to (0,9) three times. Compiles as C99, C11 and C++11. */
#include "teakpool.h"
#include "teakpool_tables.h"

#include <stdio.h>
#include <string.h>

/* The greatest prior total is 6. With a window of 4, paths of at most 2 steps and none that meets a node twice, 6 + 4 + 1 entries
 * are enough. */
#define TABLE_LENGTH 11u
#define WINDOW 4u
#define ENTRIES 8u
#define NODES_WITH_PRIOR 1u

#define LN_2 0.69314718055994530942
#define LN_6 1.79175946922805500081

static double g[TABLE_LENGTH], d[TABLE_LENGTH];
static uint8_t node_records[NODES_WITH_PRIOR * TEAKPOOL_RECORD_SIZE], child_records[2 * TEAKPOOL_RECORD_SIZE];
static uint8_t book[ENTRIES * TEAKPOOL_ENTRY_SIZE], queue[WINDOW * TEAKPOOL_PLACE_SIZE];
static uint8_t trial_book[TEAKPOOL_PATH_ENTRIES * TEAKPOOL_ENTRY_SIZE];

static int failures = 0;

/* Figures here follow by hand from ln gamma and digamma, up to rounding. */
static int is_near(double value, double expected)
{
    return value - expected < 1.0e-14 && expected - value < 1.0e-14;
}

static int expect(int holds, const char *what)
{
    if (!holds) {
        printf("not as expected: %s\n", what);
        failures++;
    }
    return holds;
}

static struct teakpool_priors make_priors(void)
{
    teakpool_put_record(node_records, teakpool_make_address(1, 7), 1, 1);
    teakpool_put_record(child_records, teakpool_make_address(0, 7), 2, 2);
    teakpool_put_record(child_records + TEAKPOOL_RECORD_SIZE, teakpool_make_address(0, 9), 3, 0);
    return teakpool_make_priors(teakpool_make_nodes(node_records, sizeof node_records),
                                teakpool_make_children(child_records, sizeof child_records));
}

/* A path of two steps: from (1,7) to (0, point). */
static struct teakpool_path path_to(uint8_t *bytes, uint32_t point)
{
    teakpool_put_address(bytes, teakpool_make_address(1, 7));
    teakpool_put_address(bytes + TEAKPOOL_STEP_SIZE, teakpool_make_address(0, point));
    return teakpool_make_path(bytes, 2 * TEAKPOOL_STEP_SIZE);
}

/* Adds a path, unless its prior has never seen a transition in it: that is a finding of its own. */
static uint32_t watch_path(struct teakpool_tracker *tracker, struct teakpool_priors priors, struct teakpool_tables tables,
                           struct teakpool_path path)
{
    struct teakpool_address node;
    uint32_t code = teakpool_try_path(priors, tables, path, teakpool_make_book(trial_book, sizeof trial_book), &node);
    if (code == TEAKPOOL_MISSING_CHILD) {
        printf("never seen before: a path goes on from (%ld,%lu) in a new way\n", (long)node.scale, (unsigned long)node.point);
    }
    return code == TEAKPOOL_DONE ? teakpool_tracker_add_path(tracker, path) : code;
}

static void read_divergences(const struct teakpool_tracker *tracker, struct teakpool_priors priors, struct teakpool_tables tables)
{
    uint8_t addresses[NODES_WITH_PRIOR * TEAKPOOL_STEP_SIZE];
    double figures[NODES_WITH_PRIOR];
    struct teakpool_output output = teakpool_make_output(addresses, figures, NODES_WITH_PRIOR);
    struct teakpool_list list;
    uint32_t code = teakpool_tracker_all_node_kl(tracker, priors, tables, output, &list);
    uint32_t i;
    if (!expect(code == TEAKPOOL_DONE, "the divergences of all nodes")) {
        return;
    }
    for (i = 0; i < list.places; i++) {
        struct teakpool_address node = teakpool_address_at(addresses + i * TEAKPOOL_STEP_SIZE);
        printf("divergence of (%ld,%lu): %.6f\n", (long)node.scale, (unsigned long)node.point, figures[i]);
    }
    /* (0,9) is listed too, and has no prior. For (1,7): G(6) - G(3) - G(7) + G(4) + D(6) - D(3). */
    expect(list.places == 1 && list.skipped == 1, "one node with a prior, one without");
    expect(is_near(figures[0], 47.0 / 60.0 - LN_2), "47/60 - ln 2");
}

/* Two good days of one path each: to (0,9), and one that ends at (1,7). */
static void hold_against_baseline(const struct teakpool_tracker *tracker, struct teakpool_priors priors,
                                  struct teakpool_tables tables)
{
    uint8_t places[2 * TEAKPOOL_PLACE_SIZE], work[ENTRIES * TEAKPOOL_ENTRY_SIZE], step[2 * TEAKPOOL_STEP_SIZE];
    uint32_t knots[1];
    double values[TEAKPOOL_KNOT_VALUES];
    struct teakpool_baseline baseline = teakpool_make_baseline(knots, values, 1);
    struct teakpool_sequences sequences =
        teakpool_make_sequences(places, sizeof places, teakpool_make_s(2), teakpool_make_n(1), teakpool_make_rate(1));
    struct teakpool_path path = path_to(step, 9);
    struct teakpool_statistics now;
    struct teakpool_usual usual;
    uint32_t code;
    memset(places, 0, sizeof places);
    teakpool_put_word(places, 2);
    memcpy(places + 4, path.at, path.length);
    teakpool_put_word(places + TEAKPOOL_PLACE_SIZE, 1);
    memcpy(places + TEAKPOOL_PLACE_SIZE + 4, path.at, TEAKPOOL_STEP_SIZE);
    code = teakpool_baseline_train(&baseline, priors, tables, sequences, teakpool_make_book(work, sizeof work));
    if (!expect(code == TEAKPOOL_DONE, "a training") ||
        !expect(teakpool_tracker_kl_div_stats(tracker, priors, tables, &now) == TEAKPOOL_DONE, "the statistics") ||
        !expect(teakpool_baseline_stats(&baseline, (uint32_t)now.sequence_length, &usual) == TEAKPOOL_DONE, "the baseline")) {
        return;
    }
    printf("maximum at length %lu: %.6f; usual: %.6f\n", (unsigned long)now.sequence_length, now.maximum, usual.maximum.mean);
    /* The first day's maximum is that of above; the second day's is G(6) - G(7) + D(6) - D(1). */
    expect(is_near(usual.maximum.mean, (47.0 / 60.0 - LN_2 + 137.0 / 60.0 - LN_6) / 2.0), "the mean of two days");
}

int main(void)
{
    struct teakpool_tables tables = teakpool_gamma_tables(g, d, TABLE_LENGTH);
    struct teakpool_priors priors = make_priors();
    struct teakpool_tracker tracker =
        teakpool_make_tracker(teakpool_make_book(book, sizeof book), teakpool_make_queue(queue, sizeof queue));
    uint8_t bytes[2 * TEAKPOOL_STEP_SIZE];
    if (teakpool_version() != TEAKPOOL_VERSION) {
        printf("the archive is of another version than the header\n");
        return 1;
    }
    expect(teakpool_tables_check(tables) == TEAKPOOL_DONE, "tables keep their rules");
    expect(teakpool_priors_check(priors) == TEAKPOOL_DONE, "priors keep their rules");
    expect(teakpool_tracker_open(&tracker, WINDOW) == TEAKPOOL_DONE, "an opening");
    expect(watch_path(&tracker, priors, tables, path_to(bytes, 9)) == TEAKPOOL_DONE, "a path that the prior knows");
    expect(watch_path(&tracker, priors, tables, path_to(bytes, 8)) == TEAKPOOL_MISSING_CHILD, "one that it does not know");
    read_divergences(&tracker, priors, tables);
    hold_against_baseline(&tracker, priors, tables);
    if (failures == 0) {
        printf("drift: every answer is as expected\n");
    }
    return failures == 0 ? 0 : 1;
}

/* Runs the lines of the README's example for C, which test.sh takes from there: a path that the prior knows is added and read, one
 * that it does not know is told and stays out, and more different paths are added than the book holds. */
#include "teakpool.h"
#include "bytes.h"

uint32_t begin(struct teakpool_tracker *tracker, struct teakpool_tables *tables);
uint32_t watch(struct teakpool_tracker *tracker, struct teakpool_priors priors, struct teakpool_tables tables,
               struct teakpool_path path, struct teakpool_statistics *now);

int main(void)
{
    uint8_t nodes[TEAKPOOL_RECORD_SIZE], children[2 * TEAKPOOL_RECORD_SIZE], steps[2 * TEAKPOOL_STEP_SIZE];
    struct teakpool_address node = teakpool_make_address(1, 7);
    struct teakpool_priors priors =
        teakpool_make_priors(teakpool_make_nodes(nodes, sizeof nodes), teakpool_make_children(children, sizeof children));
    struct teakpool_path path = teakpool_make_path(steps, sizeof steps);
    struct teakpool_tracker tracker;
    struct teakpool_tables tables;
    struct teakpool_statistics now;
    double expected = 47.0 / 60.0 - 0.69314718055994531;
    teakpool_put_record(nodes, node, 1, 1);
    teakpool_put_record(children, teakpool_make_address(0, 7), 2, 2);
    teakpool_put_record(children + TEAKPOOL_RECORD_SIZE, teakpool_make_address(0, 9), 3, 0);
    teakpool_put_address(steps, node);
    teakpool_put_address(steps + TEAKPOOL_STEP_SIZE, teakpool_make_address(0, 9));

    expect(begin(&tracker, &tables) == TEAKPOOL_DONE, "a beginning");
    expect(tables.g.length == 4096 && tables.d.length == 4096 && tracker.state[0] == 8, "tables and a window");
    expect(watch(&tracker, priors, tables, path, &now) == TEAKPOOL_DONE && tracker.state[2] == 1, "a path that the prior knows");
    expect(now.number == 1 && now.sequence_length == 1 && now.skipped == 1, "one divergence after one path");
    expect(now.sum - expected < 1.0e-14 && expected - now.sum < 1.0e-14, "the divergence of docs/RULES.md");
    teakpool_put_address(steps + TEAKPOOL_STEP_SIZE, teakpool_make_address(0, 8));
    expect(watch(&tracker, priors, tables, path, &now) == TEAKPOOL_MISSING_CHILD, "a transition that it does not know");
    expect(now.node.scale == 1 && now.node.point == 7 && tracker.state[2] == 1, "its node is told, and the path is not added");
    /* Two nodes without a prior and a transition each: the book has room for 20 of these, and again when it is tidied. */
    for (uint32_t i = 1; i <= 100; i++) {
        teakpool_put_address(steps, teakpool_make_address(3, i));
        teakpool_put_address(steps + TEAKPOOL_STEP_SIZE, teakpool_make_address(2, i));
        expect(watch(&tracker, priors, tables, path, &now) == TEAKPOOL_DONE && tracker.state[2] == 1 + i, "one more path");
        expect(now.number == (i < 8 ? 1u : 0u), "the first path leaves the window");
    }
    /* The last of the tidies made room for path 99. */
    expect(tracker.state[1] == 3 * (8 + 2) && now.skipped == 2 * (8 + 2), "the window's eight paths before it, and two more");
    if (failures == 0) {
        printf("readme: the README's lines for C do what they say\n");
    }
    return failures == 0 ? 0 : 1;
}

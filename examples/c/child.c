/* A child in a prior: its count, or none, and how many records of its chain were read. The chain ascends, so that a look-up ends at
 * the first record that is not below the child. */
#include "teakpool.h"
#include "bytes.h"

#define PLACES TEAKPOOL_MAX_CHAIN
#define NODES 4u
#define KEPT 77u

static uint8_t nodes[NODES * TEAKPOOL_RECORD_SIZE], children[(PLACES + 2) * TEAKPOOL_RECORD_SIZE];

/* The child of (40,0) at this place, from 0. Its count is 100 more than the place. */
static struct teakpool_address child_at(uint32_t place)
{
    return teakpool_make_address((int32_t)place - 32, 10);
}

/* Priors of (40,0), the root, with 64 children; of (40,1), whose chain is the last four of them; of (2,8), without children; and of
 * (-5,7) with (-6,7) and (-6,9). */
static struct teakpool_priors priors_with(int32_t floor)
{
    for (uint32_t place = 0; place < PLACES; place++) {
        teakpool_put_record(children + place * TEAKPOOL_RECORD_SIZE, child_at(place), 100 + place,
                            place + 1 < PLACES ? place + 2 : 0);
    }
    teakpool_put_record(children + PLACES * TEAKPOOL_RECORD_SIZE, teakpool_make_address(-6, 7), 2, PLACES + 2);
    teakpool_put_record(children + (PLACES + 1) * TEAKPOOL_RECORD_SIZE, teakpool_make_address(-6, 9), 3, 0);
    teakpool_put_record(nodes, teakpool_make_address(-5, 7), 1, PLACES + 1);
    teakpool_put_record(nodes + TEAKPOOL_RECORD_SIZE, teakpool_make_address(2, 8), 1, 0);
    teakpool_put_record(nodes + 2 * TEAKPOOL_RECORD_SIZE, teakpool_make_address(40, 0), 1, 1);
    teakpool_put_record(nodes + 3 * TEAKPOOL_RECORD_SIZE, teakpool_make_address(40, 1), 1, PLACES - 3);
    struct teakpool_priors priors =
        teakpool_make_priors(teakpool_make_nodes(nodes, sizeof nodes), teakpool_make_children(children, sizeof children));
    return teakpool_priors_with_floor(priors, teakpool_make_floor(floor));
}

/* A child with this count, or none where it is 0, after so many records. None keeps the count that was there. */
static void looked_up(struct teakpool_priors priors, struct teakpool_address node, struct teakpool_address child, uint32_t count,
                      uint32_t read, const char *what)
{
    struct teakpool_child_found found = {KEPT, KEPT};
    expect(teakpool_priors_child(priors, node, child, &found) == (count != 0 ? TEAKPOOL_DONE : TEAKPOOL_NONE), what);
    expect(found.count == (count != 0 ? count : KEPT) && found.read == read, what);
}

struct row {
    struct teakpool_address node, child;
    uint32_t count, read;
    const char *what;
};

static void all_looked_up(struct teakpool_priors priors, const struct row *rows, size_t number)
{
    for (size_t i = 0; i < number; i++) {
        looked_up(priors, rows[i].node, rows[i].child, rows[i].count, rows[i].read, rows[i].what);
    }
}

static void in_a_chain(void)
{
    static const struct row rows[] = {
        {{40, 0}, {-32, 10}, 100, 1, "the first child of 64"},
        {{40, 0}, {0, 10}, 132, 33, "the child of scale 0: those of negative scales are below it"},
        {{40, 0}, {31, 10}, 163, 64, "the last child"},
        {{40, 0}, {INT32_MIN, UINT32_MAX}, 0, 1, "before the first, by its scale"},
        {{40, 0}, {-32, 9}, 0, 1, "before the first, by its point"},
        {{40, 0}, {-32, 11}, 0, 2, "between the first and the second"},
        {{40, 0}, {31, 9}, 0, 64, "between the last two"},
        {{40, 0}, {31, 11}, 0, 64, "past the last, by its point"},
        {{40, 0}, {INT32_MAX, 0}, 0, 64, "past the last, by its scale"},
        {{40, 1}, {28, 10}, 160, 1, "the first of a shared tail: it is counted from the node's own first link"},
        {{40, 1}, {-32, 10}, 0, 1, "a child of the root alone"},
        {{40, 1}, {32, 10}, 0, 4, "past the last of four"},
        {{2, 8}, {1, 8}, 0, 0, "an empty chain"},
        {{3, 8}, {1, 8}, 0, 0, "a node without a prior"},
    };
    struct teakpool_priors priors = priors_with(INT32_MIN);
    struct teakpool_address root = teakpool_make_address(40, 0);
    all_looked_up(priors, rows, sizeof rows / sizeof rows[0]);
    for (uint32_t place = 0; place < PLACES; place++) {
        struct teakpool_address child = child_at(place);
        looked_up(priors, root, child, 100 + place, place + 1, "a child at its place");
        child.point--;
        looked_up(priors, root, child, 0, place + 1, "an address right before it");
        child.point += 2;
        looked_up(priors, root, child, 0, place + 2 < PLACES ? place + 2 : PLACES, "an address right after it");
    }
}

/* The node is found by its point below the floor, its child by the exact address. */
static void below_a_floor(void)
{
    static const struct row without[] = {
        {{-5, 7}, {-6, 9}, 3, 2, "no floor: the record's own address"},
        {{-4, 7}, {-6, 9}, 0, 0, "no floor: another scale has no prior"},
    };
    static const struct row with[] = {
        {{-5, 7}, {-6, 9}, 3, 2, "the record's own address"},
        {{-4, 7}, {-6, 9}, 3, 2, "its point below the floor"},
        {{INT32_MIN, 7}, {-6, 7}, 2, 1, "its point at the least scale"},
        {{-3, 7}, {-6, 9}, 0, 0, "its point at the floor has no prior"},
        {{-4, 7}, {-7, 9}, 0, 1, "the child's point at a scale below its own"},
        {{-4, 7}, {-5, 9}, 0, 2, "the child's point at a scale above its own"},
    };
    all_looked_up(priors_with(INT32_MIN), without, sizeof without / sizeof without[0]);
    all_looked_up(priors_with(-3), with, sizeof with / sizeof with[0]);
}

/* A refusal leaves both numbers. */
static void refused(struct teakpool_priors priors, uint32_t number, const char *what)
{
    struct teakpool_child_found found = {KEPT, KEPT + 1};
    expect(teakpool_priors_child(priors, teakpool_make_address(40, 0), child_at(0), &found) == number, what);
    expect(found.count == KEPT && found.read == KEPT + 1, what);
}

static void refusals(void)
{
    struct teakpool_priors priors = priors_with(INT32_MIN);
    teakpool_put_word(children + 12, 1);
    refused(priors, TEAKPOOL_LINKS, "a next link that does not rise");
    priors = priors_with(INT32_MIN);
    teakpool_put_address(children + (PLACES - 1) * TEAKPOOL_RECORD_SIZE, child_at(0));
    refused(priors, TEAKPOOL_CHAIN_ORDER, "a chain that does not ascend, past the child asked for");
    priors = priors_with(3);
    teakpool_put_address(nodes + TEAKPOOL_RECORD_SIZE, teakpool_make_address(2, 7));
    refused(priors, TEAKPOOL_SHARED_POINT, "one point below the floor");
}

/* 14 names the node that a path leaves in a way never seen before; a look-up tells the child. */
static void never_seen(void)
{
    static const struct teakpool_address steps[] = {{40, 0}, {0, 10}, {40, 0}, {0, 11}, {40, 0}};
    static const double table[2] = {0.0, 0.0};
    uint8_t path[sizeof steps / sizeof steps[0] * TEAKPOOL_STEP_SIZE], book[TEAKPOOL_PATH_ENTRIES * TEAKPOOL_ENTRY_SIZE];
    struct teakpool_tables tables = teakpool_make_tables(teakpool_make_g(table, 2), teakpool_make_d(table, 2));
    struct teakpool_priors priors = priors_with(INT32_MIN);
    struct teakpool_address node = {0, 0};
    struct teakpool_child_found found;
    uint32_t unseen = 0;
    for (size_t i = 0; i < sizeof steps / sizeof steps[0]; i++) {
        teakpool_put_address(path + i * TEAKPOOL_STEP_SIZE, steps[i]);
    }
    expect(teakpool_try_path(priors, tables, teakpool_make_path(path, sizeof path), teakpool_make_book(book, sizeof book), &node) ==
               TEAKPOOL_MISSING_CHILD,
           "a path with a transition never seen before");
    for (size_t i = 0; i + 1 < sizeof steps / sizeof steps[0]; i++) {
        if (steps[i].scale == node.scale && steps[i].point == node.point &&
            teakpool_priors_child(priors, node, steps[i + 1], &found) == TEAKPOOL_NONE) {
            expect(steps[i + 1].point == 11, "the child that the prior does not have");
            unseen++;
        }
    }
    expect(unseen == 1, "one transition never seen before");
}

int main(void)
{
    in_a_chain();
    below_a_floor();
    refusals();
    never_seen();
    if (failures == 0) {
        printf("child: counts in priors, with the records that each look-up read\n");
    }
    return failures == 0 ? 0 : 1;
}

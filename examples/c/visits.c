/* Visits: a node's evidence total, read from the book, is how often the paths of the window come to the node; all counts together are
 * the steps of these paths. */
#include "teakpool.h"
#include "bytes.h"

#define WINDOW 2u
#define MOST_STEPS 4u

static uint8_t book[12 * TEAKPOOL_ENTRY_SIZE], queue[WINDOW * TEAKPOOL_PLACE_SIZE];

/* Entry i of the book: node, kind, child address, count. */
static const uint8_t *entry_at(const struct teakpool_tracker *tracker, uint32_t i)
{
    return tracker->book.at + i * TEAKPOOL_ENTRY_SIZE;
}

/* A node's evidence total: the counts of its ending and of its children. */
static uint64_t evidence_total(const struct teakpool_tracker *tracker, struct teakpool_address node)
{
    uint64_t total = 0;
    for (uint32_t i = 0; i < tracker->state[1]; i++) {
        const uint8_t *entry = entry_at(tracker, i);
        if (is_address(entry, node.scale, node.point)) {
            total += word_at(entry + 20);
        }
    }
    return total;
}

static uint64_t all_counts(const struct teakpool_tracker *tracker)
{
    uint64_t sum = 0;
    for (uint32_t i = 0; i < tracker->state[1]; i++) {
        sum += word_at(entry_at(tracker, i) + 20);
    }
    return sum;
}

/* A path over the nodes (3,0), (2,1) and (1,2), which are written 3, 2 and 1 here, and what comes out: the visits of each in the last
 * two paths taken, and the steps of these. */
struct row {
    const char *steps;
    uint32_t code;
    uint64_t visits[3], window_steps;
    const char *what;
};

static struct teakpool_address node_of(char written)
{
    return teakpool_make_address(written - '0', (uint32_t)('3' - written));
}

static uint32_t add(struct teakpool_tracker *tracker, const char *steps)
{
    uint8_t path[MOST_STEPS * TEAKPOOL_STEP_SIZE];
    size_t length = 0;
    for (; steps[length] != '\0'; length++) {
        teakpool_put_address(path + length * TEAKPOOL_STEP_SIZE, node_of(steps[length]));
    }
    return teakpool_tracker_add_path(tracker, teakpool_make_path(path, length * TEAKPOOL_STEP_SIZE));
}

int main(void)
{
    static const struct row rows[] = {
        {"321", TEAKPOOL_DONE, {1, 1, 1}, 3, "each node once: 3 as the beginning, 2 and 1 as children"},
        {"3232", TEAKPOOL_DONE, {3, 3, 1}, 7, "a path that comes to 3 and to 2 twice visits them twice"},
        {"", TEAKPOOL_PATH_LENGTH, {3, 3, 1}, 7, "a refused add visits nothing"},
        {"22", TEAKPOOL_DONE, {2, 4, 0}, 6, "from 2 to 2; the first path has left the window, where 3 began and 1 was met"},
        {"1", TEAKPOOL_DONE, {0, 2, 1}, 3, "3 is still listed and has no visits; 1 begins and ends"},
    };
    struct teakpool_tracker tracker =
        teakpool_make_tracker(teakpool_make_book(book, sizeof book), teakpool_make_queue(queue, sizeof queue));
    expect(teakpool_tracker_open(&tracker, WINDOW) == TEAKPOOL_DONE, "an opening");
    expect(all_counts(&tracker) == 0, "no counts");
    for (size_t i = 0; i < sizeof rows / sizeof rows[0]; i++) {
        expect(add(&tracker, rows[i].steps) == rows[i].code, rows[i].what);
        for (uint32_t node = 0; node < 3; node++) {
            expect(evidence_total(&tracker, node_of("321"[node])) == rows[i].visits[node], rows[i].what);
        }
        expect(all_counts(&tracker) == rows[i].window_steps, rows[i].what);
    }
    if (failures == 0) {
        printf("visits: read from the book, of each node and of all together\n");
    }
    return failures == 0 ? 0 : 1;
}

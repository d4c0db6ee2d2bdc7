/* A full book tidied: entries that no path of the window counts in are dropped, and the next path has room. The figure stays, and a
 * 14 goes whose path has left the window. Tables with G(k) = k * k and D(k) = 4k make every divergence a whole number. */
#include "teakpool.h"
#include "bytes.h"

#define LAST 7u
#define ENTRIES 5u

static double g[LAST + 1], d[LAST + 1];
static uint8_t nodes[TEAKPOOL_RECORD_SIZE], children[2 * TEAKPOOL_RECORD_SIZE];
static uint8_t book[ENTRIES * TEAKPOOL_ENTRY_SIZE], queue[TEAKPOOL_PLACE_SIZE];

/* A tidy, or an add of the path from (1,7) to (0,point), or of (1,7) alone; and what comes of it: the entries used, and what the
 * statistics then answer. Their sum is the divergence of (1,7), the one node that has a prior: the others are skipped. */
enum call { TIDY, TO_POINT, ALONE };

struct row {
    enum call call;
    uint32_t point, code, used, reading;
    double sum;
    uint64_t skipped;
    const char *what;
};

/* The prior of (1,7): paths ended there once, went on to (0,7) twice and to (0,9) three times. */
static struct teakpool_priors lend(void)
{
    for (uint32_t k = 0; k <= LAST; k++) {
        g[k] = (double)(k * k);
        d[k] = (double)(4 * k);
    }
    teakpool_put_record(nodes, teakpool_make_address(1, 7), 1, 1);
    teakpool_put_record(children, teakpool_make_address(0, 7), 2, 2);
    teakpool_put_record(children + TEAKPOOL_RECORD_SIZE, teakpool_make_address(0, 9), 3, 0);
    return teakpool_make_priors(teakpool_make_nodes(nodes, sizeof nodes), teakpool_make_children(children, sizeof children));
}

static uint32_t carry_out(struct teakpool_tracker *tracker, const struct row *row)
{
    uint8_t path[2 * TEAKPOOL_STEP_SIZE];
    if (row->call == TIDY) {
        return teakpool_tracker_tidy(tracker);
    }
    teakpool_put_address(path, teakpool_make_address(1, 7));
    teakpool_put_address(path + TEAKPOOL_STEP_SIZE, teakpool_make_address(0, row->point));
    return teakpool_tracker_add_path(tracker, teakpool_make_path(path, (row->call == ALONE ? 1 : 2) * TEAKPOOL_STEP_SIZE));
}

/* The bytes past the used entries are zero. */
static int tail_is_zero(const struct teakpool_tracker *tracker)
{
    size_t i = tracker->state[1] * TEAKPOOL_ENTRY_SIZE;
    while (i < sizeof book && book[i] == 0) {
        i++;
    }
    return i == sizeof book;
}

int main(void)
{
    static const struct row rows[] = {
        {TO_POINT, 9, TEAKPOOL_DONE, 3, TEAKPOOL_DONE, 6.0, 1, "two nodes and a transition"},
        {TO_POINT, 7, TEAKPOOL_DONE, 5, TEAKPOOL_DONE, 8.0, 2, "the book is full; the entries of (0,9) have counts of 0"},
        {TO_POINT, 8, TEAKPOOL_BOOK_FULL, 5, TEAKPOOL_DONE, 8.0, 2, "so there is no room for (0,8)"},
        {TIDY, 0, TEAKPOOL_DONE, 3, TEAKPOOL_DONE, 8.0, 1, "tidied: the figure stays, and (0,9) is skipped no more"},
        {TO_POINT, 8, TEAKPOOL_DONE, 5, TEAKPOOL_MISSING_CHILD, 0.0, 0, "now there is room; the prior does not have (0,8)"},
        {TIDY, 0, TEAKPOOL_DONE, 3, TEAKPOOL_MISSING_CHILD, 0.0, 0, "the path is in the window, and what it holds stays"},
        {ALONE, 0, TEAKPOOL_DONE, 3, TEAKPOOL_MISSING_CHILD, 0.0, 0, "it has left the window, and its entries are still there"},
        {TIDY, 0, TEAKPOOL_DONE, 1, TEAKPOOL_DONE, 10.0, 0, "tidied: (1,7) is left, and 14 is gone"},
        {TIDY, 0, TEAKPOOL_DONE, 1, TEAKPOOL_DONE, 10.0, 0, "a second tidy changes nothing"},
    };
    struct teakpool_priors priors = lend();
    struct teakpool_tables tables = teakpool_make_tables(teakpool_make_g(g, LAST + 1), teakpool_make_d(d, LAST + 1));
    struct teakpool_tracker tracker =
        teakpool_make_tracker(teakpool_make_book(book, sizeof book), teakpool_make_queue(queue, sizeof queue));
    uint32_t accepted = 0;
    expect(teakpool_tracker_open(&tracker, 1) == TEAKPOOL_DONE, "an opening with a window of one path");
    for (size_t i = 0; i < sizeof rows / sizeof rows[0]; i++) {
        struct teakpool_statistics now;
        uint32_t code = carry_out(&tracker, &rows[i]);
        accepted += rows[i].call != TIDY && code == TEAKPOOL_DONE;
        expect(code == rows[i].code && tracker.state[1] == rows[i].used && tail_is_zero(&tracker), rows[i].what);
        expect(tracker.state[0] == 1 && tracker.state[2] == accepted, "window and paths accepted");
        code = teakpool_tracker_kl_div_stats(&tracker, priors, tables, &now);
        expect(code == rows[i].reading, rows[i].what);
        if (code == TEAKPOOL_DONE) {
            expect(same(now.sum, rows[i].sum) && now.skipped == rows[i].skipped && now.sequence_length == 1, rows[i].what);
        }
    }
    if (failures == 0) {
        printf("tidy: a full book has room again, and a transition that has left the window is forgotten\n");
    }
    return failures == 0 ? 0 : 1;
}

/* A recorded day added by lists of paths. A call ends at a path that is refused: where the book is full it is tidied, and the next
 * call goes on from that path; else the path is left out, and it goes on after it. What is left is what single adds leave. */
#include "teakpool.h"
#include "bytes.h"

#include <string.h>

#define PATHS 9u
#define ENTRIES 5u

/* A tracker with a window of one path, and what it works in. */
struct memory {
    struct teakpool_tracker tracker;
    uint8_t book[ENTRIES * TEAKPOOL_ENTRY_SIZE], queue[TEAKPOOL_PLACE_SIZE];
};

static struct memory together, one_by_one;

/* The day: paths from (1,7) to (0,point), but the one without steps. Any two points fill the book. */
static const struct {
    uint32_t steps, point;
} day[PATHS] = {{2, 9}, {2, 9}, {2, 7}, {2, 8}, {0, 0}, {2, 8}, {2, 7}, {2, 6}, {1, 0}};

/* The calls that the day takes: what each answers, the paths that it takes, and the entries used then. */
static const struct {
    uint32_t code, taken, used;
    const char *what;
} calls[] = {
    {TEAKPOOL_BOOK_FULL, 3, 5, "two paths to (0,9) and one to (0,7); the book has no room for (0,8)"},
    {TEAKPOOL_PATH_LENGTH, 1, 5, "tidied, it has; the next path has no steps"},
    {TEAKPOOL_BOOK_FULL, 2, 5, "without it the call goes on, until there is no room for (0,6)"},
    {TEAKPOOL_DONE, 2, 5, "tidied again, it takes the rest"},
};

static void open_in(struct memory *memory)
{
    memory->tracker = teakpool_make_tracker(teakpool_make_book(memory->book, sizeof memory->book),
                                            teakpool_make_queue(memory->queue, sizeof memory->queue));
    expect(teakpool_tracker_open(&memory->tracker, 1) == TEAKPOOL_DONE, "an opening with a window of one path");
}

/* A path of the day as a place. What lies after its steps is not read. */
static void put_place(uint8_t *at, size_t i)
{
    memset(at, 170, TEAKPOOL_PLACE_SIZE);
    teakpool_put_word(at, day[i].steps);
    teakpool_put_address(at + 4, teakpool_make_address(1, 7));
    if (day[i].steps == 2) {
        teakpool_put_address(at + 4 + TEAKPOOL_STEP_SIZE, teakpool_make_address(0, day[i].point));
    }
}

/* Adds the places. Gives the number of paths left out. */
static uint32_t add_all(struct teakpool_tracker *tracker, struct teakpool_places places)
{
    uint32_t left_out = 0;
    for (size_t call = 0; call < sizeof calls / sizeof calls[0]; call++) {
        uint32_t taken, code = teakpool_tracker_add_paths(tracker, places, &taken), used = tracker->state[1];
        expect(code == calls[call].code && taken == calls[call].taken && used == calls[call].used, calls[call].what);
        if (code == TEAKPOOL_DONE) {
            break;
        }
        places = teakpool_places_from(places, taken);
        if (code != TEAKPOOL_BOOK_FULL || teakpool_tracker_tidy(tracker) != TEAKPOOL_DONE || tracker->state[1] == used) {
            places = teakpool_places_from(places, 1);
            left_out++;
        }
    }
    return left_out;
}

/* The same by single adds. */
static uint32_t add_each(struct teakpool_tracker *tracker, const uint8_t *places)
{
    uint32_t left_out = 0;
    for (size_t i = 0; i < PATHS; i++) {
        struct teakpool_path path =
            teakpool_make_path(places + i * TEAKPOOL_PLACE_SIZE + 4, day[i].steps * TEAKPOOL_STEP_SIZE);
        uint32_t code = teakpool_tracker_add_path(tracker, path);
        if (code == TEAKPOOL_BOOK_FULL && teakpool_tracker_tidy(tracker) == TEAKPOOL_DONE) {
            code = teakpool_tracker_add_path(tracker, path);
        }
        left_out += code != TEAKPOOL_DONE;
    }
    return left_out;
}

int main(void)
{
    static uint8_t places[PATHS * TEAKPOOL_PLACE_SIZE];
    for (size_t i = 0; i < PATHS; i++) {
        put_place(places + i * TEAKPOOL_PLACE_SIZE, i);
    }
    open_in(&together);
    open_in(&one_by_one);
    expect(add_all(&together.tracker, teakpool_make_places(places, sizeof places)) == 1, "one path is left out");
    expect(add_each(&one_by_one.tracker, places) == 1, "one of the single adds is refused");
    expect(together.tracker.state[2] == PATHS - 1, "the others are taken");
    expect(memcmp(together.tracker.state, one_by_one.tracker.state, sizeof together.tracker.state) == 0, "the states are the same");
    expect(memcmp(together.book, one_by_one.book, sizeof together.book) == 0, "the books are the same");
    expect(memcmp(together.queue, one_by_one.queue, sizeof together.queue) == 0, "the queues are the same");
    if (failures == 0) {
        printf("batch: %u paths by %u calls, as by single adds\n", PATHS - 1, (unsigned)(sizeof calls / sizeof calls[0]));
    }
    return failures == 0 ? 0 : 1;
}

/* How large a book has to be: recorded paths run through a large one, and the entries that they use are the least capacity that
 * takes them, in any order and whatever the window is. With one entry less, one of these paths is answered 12. Where a full book is
 * tidied fewer entries are enough, for this order and this window: as many as any path needs with those of the window before it. */
#include "teakpool.h"
#include "bytes.h"

#define WINDOW 2u
#define MOST_STEPS 4u

static uint8_t book[TEAKPOOL_MAX_ENTRIES * TEAKPOOL_ENTRY_SIZE], queue[WINDOW * TEAKPOOL_PLACE_SIZE];

/* The recorded paths, over the nodes (3,0), (2,1), (1,2) and (0,3), which are written 3, 2, 1 and 0 here. */
static const char *const recorded[] = {"321", "3210", "320", "321", "22", "212", "3"};

#define PATHS (sizeof recorded / sizeof recorded[0])

static uint32_t add(struct teakpool_tracker *tracker, const char *steps)
{
    uint8_t path[MOST_STEPS * TEAKPOOL_STEP_SIZE];
    size_t length = 0;
    for (; steps[length] != '\0'; length++) {
        struct teakpool_address node = teakpool_make_address(steps[length] - '0', (uint32_t)('3' - steps[length]));
        teakpool_put_address(path + length * TEAKPOOL_STEP_SIZE, node);
    }
    return teakpool_tracker_add_path(tracker, teakpool_make_path(path, length * TEAKPOOL_STEP_SIZE));
}

/* A tracker in a book of so many entries. */
static struct teakpool_tracker opened(uint32_t entries)
{
    struct teakpool_tracker tracker = teakpool_make_tracker(teakpool_make_book(book, entries * TEAKPOOL_ENTRY_SIZE),
                                                            teakpool_make_queue(queue, sizeof queue));
    expect(teakpool_tracker_open(&tracker, WINDOW) == TEAKPOOL_DONE, "an opening");
    return tracker;
}

enum how { FORWARDS, BACKWARDS, TIDIED };

/* Adds all paths to a book of so many entries: from the first to the last, backwards, or forwards with a tidy and the same add again
 * after a 12. Gives the entries used at the end, and in `refused` how many paths were not taken. */
static uint32_t run(uint32_t entries, enum how how, uint32_t *refused)
{
    struct teakpool_tracker tracker = opened(entries);
    *refused = 0;
    for (size_t i = 0; i < PATHS; i++) {
        const char *steps = recorded[how == BACKWARDS ? PATHS - 1 - i : i];
        uint32_t code = add(&tracker, steps);
        if (code == TEAKPOOL_BOOK_FULL && how == TIDIED) {
            expect(teakpool_tracker_tidy(&tracker) == TEAKPOOL_DONE, "a tidy");
            code = add(&tracker, steps);
        }
        expect(code == TEAKPOOL_DONE || code == TEAKPOOL_BOOK_FULL, steps);
        if (code == TEAKPOOL_BOOK_FULL) {
            printf("  %s: no room for it among %lu entries\n", steps, (unsigned long)entries);
            (*refused)++;
        }
    }
    return tracker.state[1];
}

/* With a tidy before each add, a large book has the paths of the window and the one that is added, and no others. */
static uint32_t most_after_a_tidy(void)
{
    struct teakpool_tracker tracker = opened(TEAKPOOL_MAX_ENTRIES);
    uint32_t most = 0;
    for (size_t i = 0; i < PATHS; i++) {
        expect(teakpool_tracker_tidy(&tracker) == TEAKPOOL_DONE && add(&tracker, recorded[i]) == TEAKPOOL_DONE, recorded[i]);
        most = tracker.state[1] > most ? tracker.state[1] : most;
    }
    return most;
}

int main(void)
{
    uint32_t refused, used, least = run(TEAKPOOL_MAX_ENTRIES, FORWARDS, &refused), tidied = most_after_a_tidy();
    size_t steps = 0;
    for (size_t i = 0; i < PATHS; i++) {
        steps += strlen(recorded[i]);
    }
    /* Four nodes, and the transitions 32, 21, 10, 20, 22 and 12. */
    expect(refused == 0 && least == 10, "the entries that the recorded paths use");
    printf("%lu paths of %lu steps use %lu entries, %lu bytes; ", (unsigned long)PATHS, (unsigned long)steps, (unsigned long)least,
           (unsigned long)least * TEAKPOOL_ENTRY_SIZE);
    printf("by their number and length alone it would be up to %lu\n", (unsigned long)(2 * steps - PATHS));
    used = run(least, FORWARDS, &refused);
    expect(refused == 0 && used == least, "all are taken by a book of that size");
    used = run(least, BACKWARDS, &refused);
    expect(refused == 0 && used == least, "all are taken by a book of that size, backwards");
    printf("a book of that size takes all of them, backwards too\n");
    used = run(least - 1, BACKWARDS, &refused);
    expect(refused == 1 && used < least, "one path is refused in a smaller book, and the others are taken");
    /* The first three: four nodes, and the transitions 32, 21, 10 and 20. */
    expect(tidied == 8, "the entries that three paths in a row use at most");
    used = run(tidied, TIDIED, &refused);
    expect(refused == 0 && used == 7, "all are taken by a book that is tidied where it is full");
    printf("tidied where it is full, one of %lu entries takes all of them\n", (unsigned long)tidied);
    used = run(tidied - 1, TIDIED, &refused);
    expect(refused == 3 && used == 7, "with an entry less the third is refused, tidied or not, and two of the others");
    if (failures == 0) {
        printf("memory: a book sized to the entry by recorded paths\n");
    }
    return failures == 0 ? 0 : 1;
}

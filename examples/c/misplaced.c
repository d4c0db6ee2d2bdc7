/* CASE 0 has everything in its place and compiles. In every other case one thing is misplaced, and the compiler must refuse it, with -Wall
 * -Wextra -Werror where C only warns. */
#include "teakpool.h"

uint32_t misplaced(struct teakpool_tracker *tracker, struct teakpool_priors priors, struct teakpool_tables tables,
                   struct teakpool_output output, struct teakpool_list *list, struct teakpool_sequences *sequences,
                   struct teakpool_address node, struct teakpool_child_found *found, struct teakpool_places places, uint32_t *taken);

uint32_t misplaced(struct teakpool_tracker *tracker, struct teakpool_priors priors, struct teakpool_tables tables,
                   struct teakpool_output output, struct teakpool_list *list, struct teakpool_sequences *sequences,
                   struct teakpool_address node, struct teakpool_child_found *found, struct teakpool_places places, uint32_t *taken)
{
    (void)sequences, (void)node, (void)found, (void)places, (void)taken;
#if CASE == 0
    tables = teakpool_make_tables(tables.g, tables.d);
    priors = teakpool_priors_with_floor(teakpool_make_priors(priors.nodes, priors.children), teakpool_make_floor(-3));
    *tracker = teakpool_make_tracker(tracker->book, tracker->queue);
    output = teakpool_make_output(output.addresses, output.figures, output.places);
    *sequences = teakpool_make_sequences(sequences->at, sequences->length, sequences->s, sequences->n, sequences->rate);
    if (teakpool_priors_child(priors, node, node, found) != TEAKPOOL_DONE || teakpool_tracker_tidy(tracker) != TEAKPOOL_DONE ||
        teakpool_tracker_add_paths(tracker, teakpool_places_from(places, 1), taken) != TEAKPOOL_DONE) {
        return TEAKPOOL_NONE;
    }
#elif CASE == 1  /* the two tables */
    tables = teakpool_make_tables(tables.d, tables.g);
#elif CASE == 2  /* node records and child records */
    priors = teakpool_make_priors(priors.children, priors.nodes);
#elif CASE == 3  /* book and queue */
    *tracker = teakpool_make_tracker(tracker->queue, tracker->book);
#elif CASE == 4  /* addresses and figures */
    output = teakpool_make_output(output.figures, output.addresses, output.places);
#elif CASE == 5  /* a table that is only read, as a book */
    tracker->book = teakpool_make_book(tables.g.at, tables.g.length);
#elif CASE == 6  /* records that are only read, as a book */
    tracker->book = teakpool_make_book(priors.nodes.at, priors.nodes.length);
#elif CASE == 7  /* priors and tables */
    return teakpool_tracker_all_node_kl(tracker, tables, priors, output, list);
#elif CASE == 8  /* an answer that nobody looks at */
    teakpool_tracker_open(tracker, 1);
#elif CASE == 9  /* the same of a plain function */
    teakpool_open(1, tracker->book.at, tracker->book.length, tracker->queue.at, tracker->queue.length, tracker->state);
#elif CASE == 10 /* NULL where a plain function wants a slice */
    return teakpool_open(0, tracker->book.at, tracker->book.length, NULL, 0, tracker->state);
#elif CASE == 11 /* NULL where an answer goes */
    return teakpool_tracker_all_node_kl(tracker, priors, tables, output, NULL);
#elif CASE == 12 /* a training's sequences and the paths of each */
    *sequences = teakpool_make_sequences(sequences->at, sequences->length, sequences->n, sequences->s, sequences->rate);
#elif CASE == 13 /* the paths of each sequence and the rate */
    *sequences = teakpool_make_sequences(sequences->at, sequences->length, sequences->s, sequences->rate, sequences->n);
#elif CASE == 14 /* numbers that do not say what they are */
    *sequences = teakpool_make_sequences(sequences->at, sequences->length, 2, 1, 1);
#elif CASE == 15 /* a floor that does not say what it is */
    priors = teakpool_priors_with_floor(priors, -3);
#elif CASE == 16 /* priors with a floor that nobody takes */
    teakpool_priors_with_floor(priors, teakpool_make_floor(-3));
#elif CASE == 17 /* priors and a node */
    return teakpool_priors_child(node, priors, node, found);
#elif CASE == 18 /* a list where a child's count goes */
    return teakpool_priors_child(priors, node, node, list);
#elif CASE == 19 /* a child's count, whether there is one or not */
    teakpool_priors_child(priors, node, node, found);
#elif CASE == 20 /* a tidy that may have been refused */
    teakpool_tracker_tidy(tracker);
#elif CASE == 21 /* a book, and not its tracker, to be tidied */
    return teakpool_tracker_tidy(&tracker->book);
#elif CASE == 22 /* a tracker that is only to be read */
    return teakpool_tracker_tidy((const struct teakpool_tracker *)tracker);
#elif CASE == 23 /* no queue in a plain tidy */
    return teakpool_tidy(tracker->state, tracker->book.at, tracker->book.length, NULL, 0);
#elif CASE == 24 /* paths of which some may have been refused */
    teakpool_tracker_add_paths(tracker, places, taken);
#elif CASE == 25 /* a path's steps where places go */
    return teakpool_tracker_add_paths(tracker, teakpool_make_path(places.at, places.length), taken);
#elif CASE == 26 /* places where a path's steps go */
    return teakpool_tracker_add_path(tracker, places);
#elif CASE == 27 /* nowhere for the number of paths taken */
    return teakpool_tracker_add_paths(tracker, places, NULL);
#elif CASE == 28 /* the number itself */
    return teakpool_tracker_add_paths(tracker, places, *taken);
#elif CASE == 29 /* the rest of the places, which nobody takes */
    teakpool_places_from(places, 1);
#elif CASE == 30 /* no places in a plain call */
    return teakpool_add_paths(tracker->state, tracker->book.at, tracker->book.length, tracker->queue.at, tracker->queue.length,
                              NULL, 0, taken);
#else
#error "there is no such case"
#endif
    return teakpool_tracker_all_node_kl(tracker, priors, tables, output, list);
}

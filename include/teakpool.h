/* The drift watch as a C library: paths through a tree are counted over a window, and the counts are held against priors.
 *
 * Link libteakpool.a, which is for x86-64 Linux. Beside it the archive wants memset of the C library, and nothing else. The rules
 * of the watch are in docs/RULES.md, installed as share/doc/teakpool/RULES.md: what addresses, priors, book and queue are, each
 * figure's formula, and what to do about each refusal.
 *
 * Every call but teakpool_version is declared twice. The plain functions come first; they are what the archive has, and take each
 * slice as a pointer and a length. After them the same calls take structs, one for each group of things lent, and are `static inline`
 * over the plain ones. In these a slice, a group or a training's number that was made for another place does not compile; NULL
 * stands for a slice of length 0, and with another length leads to a refusal. What a slice is made of is the caller's word: -Wall
 * -Wextra -Werror has the compiler refuse wrong elements there.
 *
 * What every function but teakpool_version returns
 *   TEAKPOOL_DONE (0)    the call is carried out and its answer is written;
 *   TEAKPOOL_NONE (100)  there is no answer: the node asked for has no prior, is not listed or is listed with a total of 0, which is
 *                        goko's None, or its prior does not have the child asked for, which goko counts as 0. Each function that can
 *                        return it says when. Nothing is written, but that teakpool_child tells how many records it read;
 *   1 to 18, 22          the call is refused, by the numbers of `enum teakpool_refusal`. Nothing is written, but 14 and 15 write
 *                        node_scale and node_point where the call has them, a training that 10, 12, 14 or 15 stops leaves its
 *                        book, knots and values all zero to their ends, and teakpool_add_paths keeps the paths that it took before
 *                        the refused one and tells how many they are.
 * Where several numbers hold the lowest is returned, with four exceptions. 22 comes right after 7. 14 and 15 go by node: the first
 * listed node, ascending, that has one of them decides, and in that node 14 comes before 15. Training tests 16 after 9 and 13 after
 * 16, and then returns the first of 10, 12, 14 and 15 that its work meets. After 9 teakpool_add_paths goes by place: the first that
 * has 10, 11 or 12 decides.
 *
 * Memory. The caller owns all of it. The library allocates nothing, keeps no pointer and no state after a call, prints nothing and
 * never ends the program. A tracker is what stands in `state`, `book` and `queue`: it may be copied, saved and moved as bytes. Calls
 * on different memory may run at the same time on different threads; tables and priors that nobody writes meanwhile may be lent to
 * several of them at once.
 *
 * What the caller promises. The proof of the library starts behind this border, and no call can test these:
 *   - no pointer is NULL, also where its length is 0 (any aligned address that is not NULL serves there; the calls over structs put
 *     one in NULL's place);
 *   - double and uint64_t are aligned to 8 bytes, uint32_t and int32_t to 4, bytes to 1;
 *   - a length is true: that many elements can be read, and written where the parameter is not const. Lengths count elements, so
 *     bytes where the elements are uint8_t. An array parameter such as state[3] has that many elements;
 *   - nothing that a call writes has a byte in common with anything else that it is lent. It writes where its parameters are not
 *     const. What it only reads may overlap: g and d may be one table;
 *   - no other thread writes what a call is lent, nor reads what it writes, while it runs.
 * Every content of the memory is allowed. What breaks a rule is refused by its number, or read as docs/RULES.md says of memory
 * altered by others, and never out of bounds.
 *
 * Stack. teakpool_add_paths takes up to TEAKPOOL_STACK_ADD_PATHS bytes, beside what memset takes: it notes in tables of 98,336 bytes
 * where entries stand. No other plain function takes more than TEAKPOOL_STACK, and no other that is lent no priors more than
 * TEAKPOOL_STACK_WITHOUT_PRIORS: 22 is tested with 16,384 bytes, which the calls that are lent priors take with a floor and without.
 * examples/c/test.sh measures this in the archive's machine code, prints it for each function and fails past these three. It counts,
 * along the deepest chain of calls, every push and every `sub` on the stack pointer of each function, the return addresses, and the
 * 128 bytes below the stack pointer that the last function of the chain may use without moving it. There is no recursion and no call
 * through a pointer. The calls over structs add the frame that the compiler gives them, teakpool_try_path the largest. That the
 * stack is there no call can test.
 *
 * Byte forms. Fields are 32 bits, little-endian. An address is a scale (i32) and a point (u32), 8 bytes; addresses ascend by scale
 * as a signed number, then by point.
 *   path            1 to 64 steps, each an address
 *   node records    16 bytes each: address, singleton count, first link; at most 4,096
 *   child records   16 bytes each: address, count, next link; numbered from 1; at most 16,384. A node's first link starts its
 *                   chain, a link of 0 ends it; chains may share a tail
 *   book            24 bytes an entry, 1 to 16,384 entries: node, kind (0 ending, 1 child), child address (zeros for an ending),
 *                   count. Its capacity is its length / 24
 *   queue           516 bytes a place, at least `window` places: length in steps, steps, zeros. A window of 0 needs none
 *   sequences       516 bytes a path, as in a queue; bytes after its steps are not read
 *   places          the same, of any number of paths; the last may be cut off, and is then refused
 *   tables          g[k] is ln gamma at k and d[k] is digamma at k; index 0 is never read
 *
 * Floor. Priors are lent with a floor, which is a scale. A node whose scale is below the floor has the prior of the node record that
 * is below the floor too and has its point, whatever the scale of that record is; every other node has that of the record with its
 * exact address. Below is strictly below: the scale of the floor itself is exact. So a record at or above the floor is never found
 * from below, nor one below it from above, and two records below it may not have one point (22). Listed nodes below the floor that
 * have one point share a prior, each with its own evidence and its own place in an answer; 14 and 15 name the listed node. Children
 * in a chain and entries of a book go by exact address, whatever the floor is. INT32_MIN is no floor: every look-up is exact.
 * goko puts all scales under its tree's `min_res_index` into one layer, where the point alone finds a node. So whoever has a goko
 * tree lends its min_res_index as the floor; otherwise nodes may be skipped that goko finds.
 *
 * Figures. They are the same where their 64 bits are, and any NaN is the same as any NaN: plus zero and minus zero are two figures.
 * No reading tells minus zero: not as a divergence, nor as a probability, nor in the statistics. Divergences and probabilities are not
 * below 0 either, so their 64 bits, as unsigned numbers, ascend as the figures do. teakpool_stats can give minus zero, of values that
 * hold it or that round to it; docs/RULES.md, section 9, says where. Values that are all zero are all plus zero.
 *
 * The form of a tracker. Every call on a tracker but an opening tests it; 9 says that it is broken. It asks for
 *   - a book of 1 to 16,384 whole entries, and a queue of at least as many places as the window in `state`;
 *   - a window up to 1,024, entries used up to the capacity, paths accepted up to 16,777,216;
 *   - used entries of kind 0 or 1 with a count up to 2^30, an ending's child address being zeros; they ascend strictly by node,
 *     then kind, then child, and each node begins with its ending;
 *   - lengths of 1 to 64 in the filled places of the queue, the lesser of window and paths accepted.
 * The test reads nothing else. In memory altered by others that has the form, an add that takes away from a count of 0 leaves 0 and
 * passes over an entry that is missing, and a tidy goes by the counts alone. teakpool_add_paths tests the form when it begins. Its
 * adds keep it, but that in altered memory they may take counts past 2^30; where one is so at the end, the next call gives 9.
 *
 * Visits. A node's evidence total is the counts of its used entries together, its ending's and its children's. From an accepted
 * opening on, and after any openings, adds of one path or of many, tidies and readings, refused ones included, it may be read as
 * the node's visits: how often the paths of the window come to it, each path that begins at it being one, and each step to it from
 * another or from itself one more. So a path that meets a node twice visits it twice, and a listed node's total is 0 exactly where
 * no path of the window holds it; one that is not listed has no visits. All counts of the book together are the steps of the
 * window's paths. These are the last paths accepted since the last accepted opening, up to its window, or all of them where that is
 * 0: a path that has left the window no longer counts. examples/c/visits.c reads visits from a book.
 * The total may not be read so where anything else wrote into state, book or queue, a training that was lent the book included, or
 * where a call gets them otherwise than the last one left them: the form does not hold counts against the queue, and every count is
 * taken as it stands. The bytes of all three, saved together and put back together, go on as if nothing had come between; a copy of
 * struct teakpool_tracker saves the state alone.
 *
 * How to live with 14 and 15. Both come up in a reading, after the path that brings them was added.
 *   14  The node went on to a child that its prior does not have. A transition never seen in the prior is the strongest drift there
 *       is: its divergence would be infinite. Once the path is in the book, every later teakpool_all_node_kl and
 *       teakpool_kl_div_stats is refused, even when the path has left the window, because a zero count keeps its entry. A
 *       teakpool_tidy helps when no path of the window has the transition any more, an opening anew at once. So try each path by
 *       itself before it is added (teakpool_try_path below does it), report 14 with its node as a finding, and do not add the path;
 *       teakpool_child, asked for each step that comes right after the node, tells which one its prior does not have. Where a
 *       transition is rare but known, give it a count of 1 in the prior.
 *   15  The tables end before a node's prior total plus its evidence total. Each occurrence of a node in the window is 1 of its
 *       evidence total. So with T the greatest prior total, W the window and L the steps of the longest path, a table needs
 *       T + W x L + 1 entries, index 0 included; T + W + 1 if no path meets a node twice. With a window of 0, and in a training, the
 *       number of paths stands for W. The last index is at most 1,048,575, so keep prior totals well below that.
 */
#ifndef TEAKPOOL_H
#define TEAKPOOL_H

#include <stddef.h>
#include <stdint.h>

/* The version of this header; teakpool_version() tells that of the archive. CHANGELOG.md says what counts as a break. */
#define TEAKPOOL_VERSION_MAJOR 0u
#define TEAKPOOL_VERSION_MINOR 5u
#define TEAKPOOL_VERSION_PATCH 0u
#define TEAKPOOL_VERSION_STRING "0.5.0"
#define TEAKPOOL_VERSION (1000000u * TEAKPOOL_VERSION_MAJOR + 1000u * TEAKPOOL_VERSION_MINOR + TEAKPOOL_VERSION_PATCH)

/* A call's answer is to be looked at, and none of its pointers is NULL. */
#ifdef __GNUC__
#define TEAKPOOL_CALL __attribute__((warn_unused_result, nonnull))
#else
#define TEAKPOOL_CALL
#endif

#ifdef __cplusplus
extern "C" {
#endif

#define TEAKPOOL_DONE 0u
#define TEAKPOOL_NONE 100u

/* Bytes of stack that teakpool_add_paths does not pass; that no other call passes; and that of these none passes which is lent no
 * priors. */
#define TEAKPOOL_STACK_ADD_PATHS 102400u
#define TEAKPOOL_STACK 17408u
#define TEAKPOOL_STACK_WITHOUT_PRIORS 1024u

#define TEAKPOOL_MAX_WINDOW 1024u
#define TEAKPOOL_MAX_PATHS_ACCEPTED 16777216u
#define TEAKPOOL_MAX_STEPS 64u
#define TEAKPOOL_STEP_SIZE 8u
#define TEAKPOOL_ENTRY_SIZE 24u
#define TEAKPOOL_MAX_ENTRIES 16384u
#define TEAKPOOL_MAX_COUNT 1073741824u
#define TEAKPOOL_PLACE_SIZE 516u
#define TEAKPOOL_RECORD_SIZE 16u
#define TEAKPOOL_MAX_NODES 4096u
#define TEAKPOOL_MAX_CHILDREN 16384u
#define TEAKPOOL_MAX_CHAIN 64u
#define TEAKPOOL_MAX_TABLE 1048576u
#define TEAKPOOL_MAX_SEQUENCES 64u
#define TEAKPOOL_MAX_SEQUENCE_PATHS 65536u
#define TEAKPOOL_MAX_KNOTS 1024u
#define TEAKPOOL_KNOT_VALUES 10u

enum teakpool_refusal {
    TEAKPOOL_TABLE_LENGTHS = 1,   /* table lengths unequal, under 2 or over 1,048,576 */
    TEAKPOOL_TABLE_ENTRY = 2,     /* an entry from index 1 on not within -2^40 to 2^40 */
    TEAKPOOL_PRIOR_SIZES = 3,     /* bytes no multiple of 16; over 4,096 nodes or 16,384 children */
    TEAKPOOL_NODE_ORDER = 4,      /* nodes not strictly ascending */
    TEAKPOOL_LINKS = 5,           /* link past the last record or not rising; chain over 64 */
    TEAKPOOL_CHAIN_ORDER = 6,     /* chain not strictly ascending */
    TEAKPOOL_ZERO_PRIOR = 7,      /* child count 0, or node total 0 */
    TEAKPOOL_WINDOW = 8,          /* window asked of an opening over 1,024 */
    TEAKPOOL_FORM = 9,            /* book no multiple of 24, empty or over 16,384 entries; queue under 516 x window bytes; form broken */
    TEAKPOOL_PATH_LENGTH = 10,    /* path not 1 to 64 whole steps */
    TEAKPOOL_PATHS_FULL = 11,     /* 16,777,216 paths accepted */
    TEAKPOOL_BOOK_FULL = 12,      /* listed nodes plus transitions would exceed capacity */
    TEAKPOOL_OUTPUT_SHORT = 13,   /* output holds fewer places than the answer */
    TEAKPOOL_MISSING_CHILD = 14,  /* evidence child, zero count included, not in the prior */
    TEAKPOOL_PAST_TABLE = 15,     /* prior total plus evidence total past the last table index */
    TEAKPOOL_TRAINING_INPUT = 16, /* rate 0; s, n or byte count wrong; over 1,024 knots */
    TEAKPOOL_BASELINE_INPUT = 17, /* s not 1 to 64; knots not rising or over 1,024; values not ten a knot */
    TEAKPOOL_ONE_KNOT = 18,       /* one knot and a length past it */
    TEAKPOOL_SHARED_POINT = 22    /* two node records below the floor have one point */
};

/* The version of the archive, as TEAKPOOL_VERSION has it. Where they differ, this header is another version's. */
uint32_t teakpool_version(void);

/* Tests tables. teakpool_tables.h fills tables with ln gamma and digamma.
 * Limits: g_length and d_length equal, 2 to 1,048,576; every entry from index 1 on within -2^40 to 2^40, both ends in, and no NaN.
 * Refused: 1 for the lengths, 2 for an entry. */
TEAKPOOL_CALL
uint32_t teakpool_check_tables(const double *g, size_t g_length, const double *d, size_t d_length);

/* Tests prior records with their floor. Both slices may be empty.
 * Limits: at most 4,096 node records and 16,384 child records of 16 bytes; at most 64 records in a node's chain.
 * Refused, each number over all records before the next:
 *   3  a length that is no multiple of 16, or too many records;
 *   4  nodes not strictly ascending;
 *   5  a first link past the last child record; a next link that is past it, or is not 0 and does not exceed the number of its own
 *      record; a node's chain of over 64 records;
 *   6  a node's chain not strictly ascending;
 *   7  a child count of 0; a node whose singleton count and chain's counts add up to 0;
 *   22 two node records below the floor that have one point.
 * Links and child counts are tested in every record, whether a node's chain reaches it or not. */
TEAKPOOL_CALL
uint32_t teakpool_check_priors(const uint8_t *nodes, size_t nodes_length, const uint8_t *children, size_t children_length,
                               int32_t floor);

/* The count of a child in a node's prior. The node is looked up as every node is, below the floor by its point; the child in its
 * chain, always by its exact address. Since chains ascend, the look-up ends at the first record that is not below the child's
 * address, and read tells how many child records it read: those below that address, and one more if the chain goes on.
 *   empty chain                              0
 *   before the first record                  1
 *   equal to the record at place p, from 0   p + 1
 *   between the places p - 1 and p           p + 1
 *   past the last of n records               n
 * So read is at most 64. The node's record, and what the tests of the priors read, do not count; as in every call that is lent priors
 * these tests go over all records first, whatever is asked.
 * None if the node has no prior, or its prior does not have the child. Then count is as it was, and read is written all the same; it
 * is 0 if the node has no prior.
 * Limits: those of teakpool_check_priors; node and child may be any two addresses.
 * Refused: 3 to 7 and 22 as in teakpool_check_priors. Then count and read are as they were. */
TEAKPOOL_CALL
uint32_t teakpool_child(const uint8_t *nodes, size_t nodes_length, const uint8_t *children, size_t children_length, int32_t floor,
                        int32_t scale, uint32_t point, int32_t child_scale, uint32_t child_point, uint32_t *count, uint32_t *read);

/* Opens a tracker. Book and queue are zeroed to their ends, whatever they held; state becomes window, 0, 0. A window of 0 keeps
 * every path counted.
 * How large a book must be: an entry for each different node and one for each different transition of the paths that are added after
 * the opening, those that have left the window included. Nodes differ by exact address, whatever the floor; from a to b is another
 * transition than from b to a. Of one or more accepted paths this is the least that serves: a book of exactly so many entries takes
 * them in any order and with any window; in a smaller one that has an entry or more some path is answered 12, whatever their order.
 * To size a book, add the paths of recorded days to one of 393,216 bytes and read the entries used, state[1]: it is that number.
 * Paths that are answered 10 need no entry; where 12 comes, no book takes all of them. For a watch that goes on from day to day add
 * all days after one opening; one that is opened anew each day needs the greatest number of any day. For p paths of s steps in all
 * it is at most 2s - p. examples/c/memory.c sizes a book.
 * All this is of adds alone. With tidies less may serve, and state[1] no longer tells what all paths need. Where a tidy follows each
 * 12 and the path is added again, a book needs the entries of W + 1 paths in a row, wherever these need most, W being the window, 1
 * or more; docs/RULES.md, section 10, says how to find that number.
 * Limits: window 0 to 1,024; book_length a multiple of 24, 24 to 393,216; queue_length at least 516 x window.
 * Refused: 8 for the window; 9 for book_length or queue_length. The state before a refused opening stands. */
TEAKPOOL_CALL
uint32_t teakpool_open(uint32_t window, uint8_t *book, size_t book_length, uint8_t *queue, size_t queue_length, uint32_t state[3]);

/* Adds a path and takes the oldest past the window away. Each neighbouring pair of steps adds 1 to that child under that node, the
 * last step adds 1 to its node's ending. A zero count keeps its entry until a tidy. state is window, entries used, paths accepted.
 * Limits: path_length a multiple of 8, 8 to 512; at most 16,777,216 paths accepted after an opening.
 * Refused: 9 if the form is broken; 10 for path_length; 11 if 16,777,216 paths are accepted; 12 if the listed nodes and transitions,
 * those of the path included, would exceed the capacity. Where paths have left the window, a tidy may make room. */
TEAKPOOL_CALL
uint32_t teakpool_add_path(uint32_t state[3], uint8_t *book, size_t book_length, uint8_t *queue, size_t queue_length,
                           const uint8_t *path, size_t path_length);

/* Adds a list of paths, as of a recorded day, each as teakpool_add_path adds it, from the first place on and up to the first that is
 * refused. taken becomes the number of paths added, in every case. State, book and queue are left as that many single adds leave
 * them, and the answer is the refused path's: 11 and 12 as a single add would then get them, the paths taken before it counting.
 * A place is 516 bytes: the path's length in steps, and its steps. Bytes after these are not read; in the queue zeros stand there.
 * A refused path lies at places + 516 x taken, worked out in size_t: 32 bits do not hold every such product. What was taken before
 * stays in, and the places after it are not tried. To go on, call again with the places from there on, after a tidy where it was 12,
 * or leave the path out and call again with those after it. examples/c/batch.c does both.
 * The form is tested when the call begins, and not for each path. So only in memory altered by others a count can pass 2^30 within a
 * call, where the next of the single adds would get 9; here the next call does, where a count is still past it.
 * The call is for long lists. It zeroes its tables each time, and from 100 places on fills them from the book, so that it is cheap
 * from some 100 places on. It takes more stack than any other, TEAKPOOL_STACK_ADD_PATHS. goko has no such call.
 * Limits: any places_length, 0 too; the length of each path 1 to 64; at most 16,777,216 paths accepted after an opening.
 * Refused: 9 if the form is broken, whether there are places or not; then taken is 0, and nothing else is written. For each place in
 * turn: 10 if under 516 bytes are left, though the path's steps may all be there, or if its length is not 1 to 64; 11 and 12 as in
 * teakpool_add_path. */
TEAKPOOL_CALL
uint32_t teakpool_add_paths(uint32_t state[3], uint8_t *book, size_t book_length, uint8_t *queue, size_t queue_length,
                            const uint8_t *places, size_t places_length, uint32_t *taken);

/* Tidies a book: drops every child entry with a count of 0 and every node whose ending and children are all 0, closes the gaps, and
 * zeroes the book from there to its end. state[1], entries used, becomes the number kept. The window, the paths accepted, the
 * sequence length and all counts stay; the queue is only read, for the form. Later paths may use the places.
 * From an accepted opening on, a node with its ending, or a child entry, is then listed exactly where that node or transition stood
 * in the window at the last tidy or stands in a path accepted since, and 12 counts what is listed that way. So after an opening with
 * a window of 0 a tidy changes nothing, and neither does a second one right after the first.
 * Readings afterwards: a child that was dropped has no place in teakpool_evidence_prob_vector, and in teakpool_prob_vector only the
 * prior's. A node that was dropped is neither among the divergences nor skipped. A 14 for such a child or a 15 for such a node is
 * gone, and other figures may differ by rounding, since terms that cancelled are gone too. goko has no such call. examples/c/tidy.c
 * tidies a full book.
 * Limits: those of the form.
 * Refused: 9 if the form is broken. */
TEAKPOOL_CALL
uint32_t teakpool_tidy(uint32_t state[3], uint8_t *book, size_t book_length, const uint8_t *queue, size_t queue_length);

/* The readings below change no tracker. A place of an output is an address, 8 bytes of `addresses`, and a figure, one of `figures`;
 * 13 tests the slice with fewer whole places. An answer fills places from 0 up; places past it keep what they held. */

/* The probabilities of a node's children and of its ending, of prior and evidence together: each count divided by the total. The
 * children of both fill the places, ascending, zero counts included; places is their number, ending the ending's probability.
 * None if the node has no prior. One that is not listed has no evidence, and is answered by its prior.
 * Refused: 3 to 7 and 22 as in teakpool_check_priors; 9 if the form is broken; 13 if there are fewer places than children. */
TEAKPOOL_CALL
uint32_t teakpool_prob_vector(const uint32_t state[3], const uint8_t *book, size_t book_length, const uint8_t *queue,
                              size_t queue_length, const uint8_t *nodes, size_t nodes_length, const uint8_t *children,
                              size_t children_length, int32_t floor, int32_t scale, uint32_t point, uint8_t *addresses,
                              size_t addresses_length, double *figures, size_t figures_length, uint32_t *places, double *ending);

/* The same of the evidence alone. None if the node is not listed, or is listed and its total is 0.
 * Refused: 9 if the form is broken; 13 if there are fewer places than children. */
TEAKPOOL_CALL
uint32_t teakpool_evidence_prob_vector(const uint32_t state[3], const uint8_t *book, size_t book_length, const uint8_t *queue,
                                       size_t queue_length, int32_t scale, uint32_t point, uint8_t *addresses,
                                       size_t addresses_length, double *figures, size_t figures_length, uint32_t *places,
                                       double *ending);

/* The divergence of one node's evidence from its prior. None if the node is not listed or has no prior.
 * Refused: 1 and 2 as in teakpool_check_tables; 3 to 7 and 22 as in teakpool_check_priors; 9 if the form is broken; 14 if a child
 * listed under the node, zero count included, is not in its prior; 15 if its prior total plus its evidence total exceeds
 * g_length - 1. These two are of the node asked for, so none is named. */
TEAKPOOL_CALL
uint32_t teakpool_posterior_kl_divergence(const uint32_t state[3], const uint8_t *book, size_t book_length, const uint8_t *queue,
                                          size_t queue_length, const uint8_t *nodes, size_t nodes_length,
                                          const uint8_t *children, size_t children_length, int32_t floor, const double *g,
                                          size_t g_length, const double *d, size_t d_length, int32_t scale, uint32_t point,
                                          double *value);

/* The divergences of all listed nodes that have a prior, ascending, a place each. counts is places filled, nodes skipped because
 * they have no prior.
 * Refused: 1 and 2 as in teakpool_check_tables; 3 to 7 and 22 as in teakpool_check_priors; 9 if the form is broken; 13 if there are
 * fewer places than listed nodes with a prior; then 14 and 15 as in teakpool_posterior_kl_divergence, by node ascending, with the
 * node in node_scale and node_point. */
TEAKPOOL_CALL
uint32_t teakpool_all_node_kl(const uint32_t state[3], const uint8_t *book, size_t book_length, const uint8_t *queue,
                              size_t queue_length, const uint8_t *nodes, size_t nodes_length, const uint8_t *children,
                              size_t children_length, int32_t floor, const double *g, size_t g_length, const double *d,
                              size_t d_length, uint8_t *addresses, size_t addresses_length, double *figures, size_t figures_length,
                              uint32_t counts[2], int32_t *node_scale, uint32_t *node_point);

/* The statistics of those divergences that lie strictly above 1.0e-10. figures is maximum, minimum, sum, sum of squares; counts is
 * their number, the sequence length, nodes skipped. With none above: -DBL_MAX, DBL_MAX, 0, 0 and number 0.
 * Refused: as in teakpool_all_node_kl, without 13. */
TEAKPOOL_CALL
uint32_t teakpool_kl_div_stats(const uint32_t state[3], const uint8_t *book, size_t book_length, const uint8_t *queue,
                               size_t queue_length, const uint8_t *nodes, size_t nodes_length, const uint8_t *children,
                               size_t children_length, int32_t floor, const double *g, size_t g_length, const double *d,
                               size_t d_length, double figures[4], uint64_t counts[3], int32_t *node_scale, uint32_t *node_point);

/* Trains a baseline on s sequences of n paths, which lie one sequence after the other. Each sequence runs through a fresh tracker of
 * window 0 in the book; after path i, from 0, where i mod rate is 0, the statistics enter the knot of sequence length i + 1. A knot
 * is a length in `knots` and ten of `values`: for maximum, minimum, number, sum and sum of squares in turn, the sum over the
 * sequences and the sum of squares. Statistics with none above 1.0e-10 enter their -DBL_MAX and DBL_MAX too, and squares become
 * infinite, as in goko. count is the number of knots, n / rate rounded up; knots and values past it keep what they held. The book
 * may hold anything before, and is all zero afterwards. It needs what teakpool_open says of the sequence that needs most.
 * Limits: s 1 to 64; n 0 to 65,536; rate at least 1; sequences_length exactly 516 x s x n; at most 1,024 knots; book_length a
 * multiple of 24, 24 to 393,216; knots_length at least the number of knots and values_length at least ten times that; the length of
 * each path 1 to 64.
 * Refused before the work, in this order, and nothing changes: 1 and 2 as in teakpool_check_tables; 3 to 7 and 22 as in
 * teakpool_check_priors; 9 for book_length; 16 for s, n, rate, sequences_length or the number of knots; 13 for knots_length or
 * values_length.
 * Stopped in the work: for each path 10 for its length, then 12 if the book is too small for it, then, at a knot, 14 and 15 as in
 * teakpool_all_node_kl. Book, knots and values are then all zero to their ends, and count is as it was. */
TEAKPOOL_CALL
uint32_t teakpool_train(const double *g, size_t g_length, const double *d, size_t d_length, const uint8_t *nodes,
                        size_t nodes_length, const uint8_t *children, size_t children_length, int32_t floor,
                        const uint8_t *sequences, size_t sequences_length, uint32_t s, uint32_t n, uint32_t rate, uint8_t *book,
                        size_t book_length, uint32_t *knots, size_t knots_length, double *values, size_t values_length,
                        uint32_t *count, int32_t *node_scale, uint32_t *node_point);

/* A baseline's figures at a sequence length: mean and variance of maximum, minimum, number, sum and sum of squares. Between two
 * knots they lie on the straight line through them, past the last on the line through the last two; below the first, and with no
 * knots, they are plus zero.
 * Limits: s 1 to 64, that of the training; at most 1,024 knots, strictly rising; values_length exactly 10 x knots_length. So both
 * slices are lent as long as the training's count says.
 * Refused: 17 for s, the knots or values_length; 18 if there is one knot and the length is past it. */
TEAKPOOL_CALL
uint32_t teakpool_stats(const uint32_t *knots, size_t knots_length, const double *values, size_t values_length, uint32_t s,
                        uint32_t length, double figures[10]);

/* ---- The same calls over structs
 *
 * Each struct of things lent has a making function, teakpool_make_ and its name. Make every such struct by it: a field that a later
 * version adds then has its right value, and NULL with a length of 0 becomes an address that the plain functions take. A struct only
 * points at what is lent, which has to live as long as the struct is used.
 *
 * NULL with another length, as an allocation that failed gives it, is refused by the calls that need what is missing: 1 for a table,
 * 3 for records, 9 for a book, 10 for a path and for places, 16 for sequences. The slice then has a length of 1, which none of these
 * may have. A queue that is missing has a length of 0, so that an opening with any window but 0 gives 9; output and baseline have no
 * places and no room, so that an answer or a training with any gives 13. */

/* An address that is not NULL, for a slice that is empty or missing. Nothing is written there. */
static inline void *teakpool_nowhere(void)
{
    static double nowhere;
    return &nowhere;
}

/* A slice that is lent: where it begins, and its length in elements. Each has a type of its own, so that one in another's place does
 * not compile. `missing` is the length of one that is not there, though one is spoken of. */
#define TEAKPOOL_SLICE(name, element, missing)                                            \
    struct teakpool_##name {                                                              \
        element *at;                                                                      \
        size_t length;                                                                    \
    };                                                                                    \
    static inline struct teakpool_##name teakpool_make_##name(element *at, size_t length) \
    {                                                                                     \
        struct teakpool_##name slice;                                                     \
        slice.at = at != NULL ? at : (element *)teakpool_nowhere();                       \
        slice.length = at != NULL || length == 0 ? length : missing;                      \
        return slice;                                                                     \
    }

TEAKPOOL_SLICE(g, const double, 1)         /* ln gamma */
TEAKPOOL_SLICE(d, const double, 1)         /* digamma */
TEAKPOOL_SLICE(nodes, const uint8_t, 1)    /* node records */
TEAKPOOL_SLICE(children, const uint8_t, 1) /* child records */
TEAKPOOL_SLICE(book, uint8_t, 1)
TEAKPOOL_SLICE(queue, uint8_t, 0)
TEAKPOOL_SLICE(path, const uint8_t, 1)   /* a path's steps */
TEAKPOOL_SLICE(places, const uint8_t, 1) /* paths, 516 bytes each */
#undef TEAKPOOL_SLICE

/* The places from that with this number on, counted from 0; none where there are not so many. From taken on they begin with the
 * refused one, from taken + 1 on with the next. */
TEAKPOOL_CALL
static inline struct teakpool_places teakpool_places_from(struct teakpool_places places, size_t number)
{
    size_t before = number <= places.length / TEAKPOOL_PLACE_SIZE ? number * TEAKPOOL_PLACE_SIZE : places.length;
    places.at += before;
    places.length -= before;
    return places;
}

/* The tables of ln gamma and digamma. */
struct teakpool_tables {
    struct teakpool_g g;
    struct teakpool_d d;
};

static inline struct teakpool_tables teakpool_make_tables(struct teakpool_g g, struct teakpool_d d)
{
    struct teakpool_tables tables;
    tables.g = g;
    tables.d = d;
    return tables;
}

/* The floor of priors. It is kept as the distance of its scale from INT32_MIN, so that a struct filled with zeros has no floor, and
 * not unnoticed the floor 0. */
struct teakpool_floor {
    uint32_t above_least;
};

static inline struct teakpool_floor teakpool_make_floor(int32_t scale)
{
    struct teakpool_floor made;
    made.above_least = (uint32_t)((int64_t)scale - INT32_MIN);
    return made;
}

/* The scale of a floor, INT32_MIN for none. */
static inline int32_t teakpool_floor_scale(struct teakpool_floor floor)
{
    return (int32_t)((int64_t)floor.above_least + INT32_MIN);
}

/* The priors: node records and child records, and a floor. */
struct teakpool_priors {
    struct teakpool_nodes nodes;
    struct teakpool_children children;
    struct teakpool_floor floor;
};

/* Priors as they are made have no floor; teakpool_priors_with_floor gives them one. */
static inline struct teakpool_priors teakpool_make_priors(struct teakpool_nodes nodes, struct teakpool_children children)
{
    struct teakpool_priors priors;
    priors.nodes = nodes;
    priors.children = children;
    priors.floor = teakpool_make_floor(INT32_MIN);
    return priors;
}

/* The same priors with this floor, which is min_res_index where they are those of a goko tree. */
TEAKPOOL_CALL
static inline struct teakpool_priors teakpool_priors_with_floor(struct teakpool_priors priors, struct teakpool_floor floor)
{
    priors.floor = floor;
    return priors;
}

/* A tracker: its state and the book and queue that it works in. The state is window, entries used, paths accepted. As it is made, a
 * tracker is not open: every call on it but an opening gives 9. To go on with one that was saved, put its three numbers into state.
 * A copy of this struct works in the same book and queue, so that only one of the two may go on. */
struct teakpool_tracker {
    uint32_t state[3];
    struct teakpool_book book;
    struct teakpool_queue queue;
};

static inline struct teakpool_tracker teakpool_make_tracker(struct teakpool_book book, struct teakpool_queue queue)
{
    struct teakpool_tracker tracker;
    tracker.state[0] = UINT32_MAX;
    tracker.state[1] = 0;
    tracker.state[2] = 0;
    tracker.book = book;
    tracker.queue = queue;
    return tracker;
}

/* The output of a reading: 8 bytes of addresses and one of figures for each of `places` places. */
struct teakpool_output {
    uint8_t *addresses;
    double *figures;
    size_t places;
};

static inline struct teakpool_output teakpool_make_output(uint8_t *addresses, double *figures, size_t places)
{
    struct teakpool_output output;
    output.addresses = addresses != NULL ? addresses : (uint8_t *)teakpool_nowhere();
    output.figures = figures != NULL ? figures : (double *)teakpool_nowhere();
    output.places = addresses != NULL && figures != NULL ? places : 0;
    return output;
}

/* A node's address. */
struct teakpool_address {
    int32_t scale;
    uint32_t point;
};

static inline struct teakpool_address teakpool_make_address(int32_t scale, uint32_t point)
{
    struct teakpool_address address;
    address.scale = scale;
    address.point = point;
    return address;
}

/* The numbers of a training: how many sequences, how many paths each has, and every how many paths there is a knot. Each has a type
 * of its own: s and n in each other's place fit the same bytes, and no call could tell. */
#define TEAKPOOL_NUMBER(name)                                                  \
    struct teakpool_##name {                                                   \
        uint32_t number;                                                       \
    };                                                                         \
    static inline struct teakpool_##name teakpool_make_##name(uint32_t number) \
    {                                                                          \
        struct teakpool_##name made;                                           \
        made.number = number;                                                  \
        return made;                                                           \
    }

TEAKPOOL_NUMBER(s)
TEAKPOOL_NUMBER(n)
TEAKPOOL_NUMBER(rate)
#undef TEAKPOOL_NUMBER

/* A training's sequences: s sequences of n paths, 516 bytes a path, and a knot at every rate-th path. */
struct teakpool_sequences {
    const uint8_t *at;
    size_t length;
    struct teakpool_s s;
    struct teakpool_n n;
    struct teakpool_rate rate;
};

static inline struct teakpool_sequences teakpool_make_sequences(const uint8_t *at, size_t length, struct teakpool_s s,
                                                                struct teakpool_n n, struct teakpool_rate rate)
{
    struct teakpool_sequences sequences;
    sequences.at = at != NULL ? at : (const uint8_t *)teakpool_nowhere();
    sequences.length = at != NULL || length == 0 ? length : 1;
    sequences.s = s;
    sequences.n = n;
    sequences.rate = rate;
    return sequences;
}

/* A baseline: room for knots, with ten values for each, then what a training filled: `count` knots, of s sequences. As it is made,
 * and after a training that was stopped, it is not trained, and teakpool_baseline_stats gives 17. */
struct teakpool_baseline {
    uint32_t *knots;
    double *values;
    size_t room;
    uint32_t s, count;
    struct teakpool_address node; /* named by 14 and 15 */
};

static inline struct teakpool_baseline teakpool_make_baseline(uint32_t *knots, double *values, size_t room)
{
    struct teakpool_baseline baseline;
    baseline.knots = knots != NULL ? knots : (uint32_t *)teakpool_nowhere();
    baseline.values = values != NULL ? values : (double *)teakpool_nowhere();
    baseline.room = knots != NULL && values != NULL ? room : 0;
    baseline.s = 0;
    baseline.count = 0;
    baseline.node = teakpool_make_address(0, 0);
    return baseline;
}

/* Answers. A call that is not carried out leaves them as they were, but 14 and 15 write the node, teakpool_priors_child writes read
 * where it gives none, and teakpool_tracker_add_paths writes taken in every case. */

/* Of teakpool_child: the child's count in the prior, and how many child records were read. */
struct teakpool_child_found {
    uint32_t count;
    uint32_t read;
};

/* Of a probability vector: places filled, and the ending's probability. */
struct teakpool_vector {
    uint32_t places;
    double ending;
};

/* Of teakpool_all_node_kl: places filled, and nodes skipped because they have no prior. */
struct teakpool_list {
    uint32_t places, skipped;
    struct teakpool_address node; /* named by 14 and 15 */
};

/* Of teakpool_kl_div_stats. */
struct teakpool_statistics {
    double maximum, minimum, sum, sum_of_squares;
    uint64_t number, sequence_length, skipped;
    struct teakpool_address node; /* named by 14 and 15 */
};

/* Of teakpool_stats: mean and variance of each of the five figures. */
struct teakpool_mean_variance {
    double mean, variance;
};

struct teakpool_usual {
    struct teakpool_mean_variance maximum, minimum, number, sum, sum_of_squares;
};

TEAKPOOL_CALL
static inline uint32_t teakpool_tables_check(struct teakpool_tables tables)
{
    return teakpool_check_tables(tables.g.at, tables.g.length, tables.d.at, tables.d.length);
}

TEAKPOOL_CALL
static inline uint32_t teakpool_priors_check(struct teakpool_priors priors)
{
    return teakpool_check_priors(priors.nodes.at, priors.nodes.length, priors.children.at, priors.children.length,
                                 teakpool_floor_scale(priors.floor));
}

TEAKPOOL_CALL
static inline uint32_t teakpool_priors_child(struct teakpool_priors priors, struct teakpool_address node,
                                             struct teakpool_address child, struct teakpool_child_found *found)
{
    return teakpool_child(priors.nodes.at, priors.nodes.length, priors.children.at, priors.children.length,
                          teakpool_floor_scale(priors.floor), node.scale, node.point, child.scale, child.point, &found->count,
                          &found->read);
}

TEAKPOOL_CALL
static inline uint32_t teakpool_tracker_open(struct teakpool_tracker *tracker, uint32_t window)
{
    return teakpool_open(window, tracker->book.at, tracker->book.length, tracker->queue.at, tracker->queue.length, tracker->state);
}

TEAKPOOL_CALL
static inline uint32_t teakpool_tracker_add_path(struct teakpool_tracker *tracker, struct teakpool_path path)
{
    return teakpool_add_path(tracker->state, tracker->book.at, tracker->book.length, tracker->queue.at, tracker->queue.length,
                             path.at, path.length);
}

TEAKPOOL_CALL
static inline uint32_t teakpool_tracker_add_paths(struct teakpool_tracker *tracker, struct teakpool_places places, uint32_t *taken)
{
    return teakpool_add_paths(tracker->state, tracker->book.at, tracker->book.length, tracker->queue.at, tracker->queue.length,
                              places.at, places.length, taken);
}

TEAKPOOL_CALL
static inline uint32_t teakpool_tracker_tidy(struct teakpool_tracker *tracker)
{
    return teakpool_tidy(tracker->state, tracker->book.at, tracker->book.length, tracker->queue.at, tracker->queue.length);
}

TEAKPOOL_CALL
static inline uint32_t teakpool_tracker_prob_vector(const struct teakpool_tracker *tracker, struct teakpool_priors priors,
                                                    struct teakpool_address node, struct teakpool_output output,
                                                    struct teakpool_vector *vector)
{
    return teakpool_prob_vector(tracker->state, tracker->book.at, tracker->book.length, tracker->queue.at, tracker->queue.length,
                                priors.nodes.at, priors.nodes.length, priors.children.at, priors.children.length,
                                teakpool_floor_scale(priors.floor), node.scale, node.point, output.addresses,
                                TEAKPOOL_STEP_SIZE * output.places, output.figures, output.places, &vector->places,
                                &vector->ending);
}

TEAKPOOL_CALL
static inline uint32_t teakpool_tracker_evidence_prob_vector(const struct teakpool_tracker *tracker, struct teakpool_address node,
                                                             struct teakpool_output output, struct teakpool_vector *vector)
{
    return teakpool_evidence_prob_vector(tracker->state, tracker->book.at, tracker->book.length, tracker->queue.at,
                                         tracker->queue.length, node.scale, node.point, output.addresses,
                                         TEAKPOOL_STEP_SIZE * output.places, output.figures, output.places, &vector->places,
                                         &vector->ending);
}

TEAKPOOL_CALL
static inline uint32_t teakpool_tracker_posterior_kl_divergence(const struct teakpool_tracker *tracker,
                                                                struct teakpool_priors priors, struct teakpool_tables tables,
                                                                struct teakpool_address node, double *value)
{
    return teakpool_posterior_kl_divergence(tracker->state, tracker->book.at, tracker->book.length, tracker->queue.at,
                                            tracker->queue.length, priors.nodes.at, priors.nodes.length, priors.children.at,
                                            priors.children.length, teakpool_floor_scale(priors.floor), tables.g.at,
                                            tables.g.length, tables.d.at, tables.d.length, node.scale, node.point, value);
}

TEAKPOOL_CALL
static inline uint32_t teakpool_tracker_all_node_kl(const struct teakpool_tracker *tracker, struct teakpool_priors priors,
                                                    struct teakpool_tables tables, struct teakpool_output output,
                                                    struct teakpool_list *list)
{
    uint32_t counts[2];
    uint32_t code = teakpool_all_node_kl(
        tracker->state, tracker->book.at, tracker->book.length, tracker->queue.at, tracker->queue.length, priors.nodes.at,
        priors.nodes.length, priors.children.at, priors.children.length, teakpool_floor_scale(priors.floor), tables.g.at,
        tables.g.length, tables.d.at, tables.d.length, output.addresses, TEAKPOOL_STEP_SIZE * output.places, output.figures,
        output.places, counts, &list->node.scale, &list->node.point);
    if (code == TEAKPOOL_DONE) {
        list->places = counts[0];
        list->skipped = counts[1];
    }
    return code;
}

TEAKPOOL_CALL
static inline uint32_t teakpool_tracker_kl_div_stats(const struct teakpool_tracker *tracker, struct teakpool_priors priors,
                                                     struct teakpool_tables tables, struct teakpool_statistics *statistics)
{
    double figures[4];
    uint64_t counts[3];
    uint32_t code = teakpool_kl_div_stats(tracker->state, tracker->book.at, tracker->book.length, tracker->queue.at,
                                          tracker->queue.length, priors.nodes.at, priors.nodes.length, priors.children.at,
                                          priors.children.length, teakpool_floor_scale(priors.floor), tables.g.at,
                                          tables.g.length, tables.d.at, tables.d.length, figures, counts, &statistics->node.scale,
                                          &statistics->node.point);
    if (code == TEAKPOOL_DONE) {
        statistics->maximum = figures[0];
        statistics->minimum = figures[1];
        statistics->sum = figures[2];
        statistics->sum_of_squares = figures[3];
        statistics->number = counts[0];
        statistics->sequence_length = counts[1];
        statistics->skipped = counts[2];
    }
    return code;
}

/* The entries that a book for teakpool_try_path needs: those of a path of 64 steps. */
#define TEAKPOOL_PATH_ENTRIES 127u

/* Tries a path by itself, in a book of TEAKPOOL_PATH_ENTRIES entries or more that is for this alone: returns what
 * teakpool_kl_div_stats returns for a tracker that has this path and no other. 14 names a node of the path that goes on to a child
 * which its prior does not have; 15 names one for which the tables are too short even with this path alone.
 * Refused: as in teakpool_open, teakpool_add_path and teakpool_kl_div_stats, in this order. */
TEAKPOOL_CALL
static inline uint32_t teakpool_try_path(struct teakpool_priors priors, struct teakpool_tables tables, struct teakpool_path path,
                                         struct teakpool_book book, struct teakpool_address *node)
{
    struct teakpool_tracker tracker = teakpool_make_tracker(book, teakpool_make_queue(NULL, 0));
    struct teakpool_statistics statistics;
    uint32_t code = teakpool_tracker_open(&tracker, 0);
    if (code == TEAKPOOL_DONE) {
        code = teakpool_tracker_add_path(&tracker, path);
    }
    if (code == TEAKPOOL_DONE) {
        code = teakpool_tracker_kl_div_stats(&tracker, priors, tables, &statistics);
    }
    if (code == TEAKPOOL_MISSING_CHILD || code == TEAKPOOL_PAST_TABLE) {
        *node = statistics.node;
    }
    return code;
}

/* teakpool_train into the baseline's room. The book is for the work alone. */
TEAKPOOL_CALL
static inline uint32_t teakpool_baseline_train(struct teakpool_baseline *baseline, struct teakpool_priors priors,
                                               struct teakpool_tables tables, struct teakpool_sequences sequences,
                                               struct teakpool_book book)
{
    uint32_t code = teakpool_train(tables.g.at, tables.g.length, tables.d.at, tables.d.length, priors.nodes.at, priors.nodes.length,
                                   priors.children.at, priors.children.length, teakpool_floor_scale(priors.floor), sequences.at,
                                   sequences.length, sequences.s.number, sequences.n.number, sequences.rate.number, book.at,
                                   book.length, baseline->knots, baseline->room, baseline->values,
                                   TEAKPOOL_KNOT_VALUES * baseline->room, &baseline->count, &baseline->node.scale,
                                   &baseline->node.point);
    if (code == TEAKPOOL_DONE) {
        baseline->s = sequences.s.number;
    } else if (code == TEAKPOOL_PATH_LENGTH || code == TEAKPOOL_BOOK_FULL || code == TEAKPOOL_MISSING_CHILD ||
               code == TEAKPOOL_PAST_TABLE) {
        baseline->s = 0;
        baseline->count = 0;
    }
    return code;
}

TEAKPOOL_CALL
static inline uint32_t teakpool_baseline_stats(const struct teakpool_baseline *baseline, uint32_t length,
                                               struct teakpool_usual *usual)
{
    double figures[10];
    struct teakpool_mean_variance *const parts[5] = {&usual->maximum, &usual->minimum, &usual->number, &usual->sum,
                                                     &usual->sum_of_squares};
    uint32_t code = teakpool_stats(baseline->knots, baseline->count, baseline->values, TEAKPOOL_KNOT_VALUES * baseline->count,
                                   baseline->s, length, figures);
    if (code == TEAKPOOL_DONE) {
        for (int i = 0; i < 5; i++) {
            parts[i]->mean = figures[2 * i];
            parts[i]->variance = figures[2 * i + 1];
        }
    }
    return code;
}

/* ---- Fields in bytes: a word, an address (8 bytes) and a prior record (16 bytes) */

static inline void teakpool_put_word(uint8_t *at, uint32_t word)
{
    at[0] = (uint8_t)(word & 255u);
    at[1] = (uint8_t)(word >> 8 & 255u);
    at[2] = (uint8_t)(word >> 16 & 255u);
    at[3] = (uint8_t)(word >> 24);
}

static inline uint32_t teakpool_word_at(const uint8_t *at)
{
    return (uint32_t)at[0] | (uint32_t)at[1] << 8 | (uint32_t)at[2] << 16 | (uint32_t)at[3] << 24;
}

static inline void teakpool_put_address(uint8_t *at, struct teakpool_address address)
{
    teakpool_put_word(at, (uint32_t)address.scale);
    teakpool_put_word(at + 4, address.point);
}

static inline struct teakpool_address teakpool_address_at(const uint8_t *at)
{
    return teakpool_make_address((int32_t)teakpool_word_at(at), teakpool_word_at(at + 4));
}

/* A node record has the singleton count and the first link, a child record the count and the next link. */
static inline void teakpool_put_record(uint8_t *at, struct teakpool_address address, uint32_t count, uint32_t link)
{
    teakpool_put_address(at, address);
    teakpool_put_word(at + 8, count);
    teakpool_put_word(at + 12, link);
}

#ifdef __cplusplus
}
#endif

#endif

/* Functorial data migration of inspection records: the calls of the static library libmigration.a.
 *
 * A sheet is a byte string, lent as a pointer and a length; it may have any length and any content, and it is never changed.
 * A tray is where a result is written; a call that refuses changes no byte of it, and bytes beyond the result keep their values. The two calls
 * that change a run, migration_add_row and migration_withdraw_row, are lent the run itself in a tray.
 * A sheet is bit fields, most significant bit first, then 0 bits to the byte's end, then nothing; by the bits of each field:
 *   schema      nodes 5, edges 6, attributes 5, equations 6; each edge: source 4, target 4; each attribute: node 4, kind 4;
 *               each equation: two paths
 *   path        start 4, length 4, edges 5 each
 *   mapping     each node's image 4; each edge's image: length 4, edges 5 each; each attribute's image 4
 *   instance    each table's row count 10; for each edge, each source row's target row 9; for each attribute, each row's value 32
 *   row         of one table: for each edge from it, in the order of edge numbers, the target row 9; for each attribute at it, in the order of
 *               attribute numbers, the value 32; a table with neither has the empty sheet; at most 100 bytes
 *   matching    for each row, tables in order, the row of its partner 9
 *   chain       steps 8; each step: equation 5, direction 1 (0 left side to right, 1 back), edges before the replaced part 4, counted in
 *               the path as it stands before that step
 * Everything is numbered from 0. The tool `sheet` makes sheets from readable text (docs/sheet/commands.md).
 *
 * The kinds of attributes, each with its smallest and its largest value:
 *    0 plain                          0 to 4294967295         8 pressure in kPa              0 to 25000
 *    1 station in mm                  0 to 4294967295         9 temperature in 0.1 K         0 to 4000
 *    2 clock in minutes               1 to 720               10 day                          0 to 65535
 *    3 depth in thousandths of wall   0 to 1000              11 second in seconds of day     0 to 86399
 *    4 length in mm                   0 to 20000             12 speed in mm/s                0 to 10000
 *    5 width in mm                    0 to 5000              13 identifier                   0 to 4294967295
 *    6 wall in 0.01 mm                0 to 5000              14 flag                         0 to 1
 *    7 diameter in mm                 0 to 1600              15 unused                       0 to 0
 * On a clock 720 is twelve o'clock, 14 is 12:14, and 0 is off scale.
 *
 * A pointer may be null only where its length is 0. Two lent byte strings may overlap, unless one of them is a tray.
 *
 * Every call gives a 64-bit number:
 *   below 2^32                      accepted: the byte length of the result; 0 for a check, and for migration_path_chain 0 unequal; for a change
 *                                   two byte lengths, 65536 * the run's + the pushed sheet's
 *   2^32 + 256 * number + place     refused: number says why (below), place is the sheet's, counted from 1 in the order of the
 *                                   parameters; 0 where the condition is one of all sheets together, or a test of the change itself
 *
 * The calls have no state, keep no pointer and allocate nothing: they may run side by side.
 */
#ifndef MIGRATION_H
#define MIGRATION_H

#include <stddef.h>
#include <stdint.h>

#ifdef __cplusplus
extern "C" {
#endif

/* Why a sheet is sent back. The number is the first that applies. Sheets are judged in the order of their places, and a sheet in this order:
 *   schema      1 inside the leading counts, 3, 1 in the rest, 2, 4, 5, 6
 *   mapping     1, 2, 7, 8
 *   instance    1 inside the row counts, 3, 1 in the rest, 2, 9, 10, 11
 *   path        1, 2, 4
 * Then come the conditions of all sheets together, at place 0: 12, 13, 14, 15, of migration_query 13, 14, 12, 15; then a list of partners:
 * 1, 2, 17; last, at place 0, 16. Of a change 12 is followed by the tests of the change itself, all at place 0: of an added row 18, then of its
 * sheet 1, 2, 9, 10, 11, then 15; of a row to be withdrawn 18, 19; last 16.
 */
enum {
    MIGRATION_CUT = 1,          /* the bits end before the last field does */
    MIGRATION_TAIL = 2,         /* a filling bit is 1, or a byte follows */
    MIGRATION_COUNT = 3,        /* a count, or the sum of the row counts, beyond its limit, or no node */
    MIGRATION_STRAY = 4,        /* a missing node or edge is named, edges do not join, an equation's sides differ in start or end */
    MIGRATION_RING = 5,         /* the edges form a loop */
    MIGRATION_CROWD = 6,        /* more than 256 paths */
    MIGRATION_MISFIT = 7,       /* an image is missing, does not join, has the wrong end, another kind or another node */
    MIGRATION_BROKEN_RULE = 8,  /* an equation of the schema that is mapped has unequal images in the other */
    MIGRATION_DANGLING = 9,     /* a target row at or beyond its table's count */
    MIGRATION_OFF_SCALE = 10,   /* a value below its kind's smallest or above its largest */
    MIGRATION_BENT_ROW = 11,    /* a row where the two sides of an equation lead to different rows */
    MIGRATION_UNEVEN = 12,      /* Sigma, a checker, a turning or a change, and the mapping is not even; the query, and H is not */
    MIGRATION_UNPAIRED = 13,    /* Pi or the query, and the attribute mapping (of G) is not a bijection */
    MIGRATION_WIDE = 14,        /* Pi or the query, and a table has more than 64 components (of G) */
    MIGRATION_OVERFULL = 15,    /* a migrated instance has more than 512 rows; a row is added to 512 */
    MIGRATION_SMALL_TRAY = 16,  /* the result, of a change either result, needs more bytes than were lent */
    MIGRATION_NO_MATCH = 17,    /* the list is not a matching */
    MIGRATION_ABSENT = 18,      /* the table, or the row, that a change names does not exist */
    MIGRATION_STILL_HELD = 19   /* a link of another row leads to the row that is to be withdrawn */
};

/* A tray of this many bytes holds every instance sheet, of this many every matching sheet, of this many every path sheet, of this many every
 * chain sheet, and of this many every mapping sheet. */
enum {
    MIGRATION_INSTANCE_BYTES = 51220,
    MIGRATION_MATCHING_BYTES = 576,
    MIGRATION_PATH_BYTES = 11,
    MIGRATION_CHAIN_BYTES = 320,
    MIGRATION_MAPPING_BYTES = 332
};

/* The calls have their working arrays on the stack. A call needs at most so many bytes of it, whatever it is lent, below the frame that makes it;
 * a thread that makes the call needs them besides what its own code needs. */
enum {
    MIGRATION_STACK_CHECK_SCHEMA = 16384,
    MIGRATION_STACK_CHECK_MAPPING = 24576,
    MIGRATION_STACK_CHECK_INSTANCE = 122880,
    MIGRATION_STACK_FIRST_PATH = 20480,
    MIGRATION_STACK_PATH_CHAIN = 32768,
    MIGRATION_STACK_DELTA = 253952,
    MIGRATION_STACK_SIGMA = 262144,
    MIGRATION_STACK_PI = 524288,
    MIGRATION_STACK_QUERY = 688128,
    MIGRATION_STACK_COMPOSE = 40960,
    MIGRATION_STACK_MATCHINGS = 401408, /* each of the four calls with a list of partners */
    MIGRATION_STACK_CHANGES = 258048    /* each of the two calls that change a run */
};

/* Taking an answer apart; number and place are those of a refusal. */
static inline int migration_accepted(uint64_t answer) { return answer >> 32 == 0; }
static inline unsigned migration_number(uint64_t answer) { return (unsigned)(answer >> 8 & 0xff); }
static inline unsigned migration_place(uint64_t answer) { return (unsigned)(answer & 0xff); }

/* The two byte lengths that an accepted change gives. */
static inline size_t migration_run_length(uint64_t answer) { return (size_t)(answer >> 16); }
static inline size_t migration_pushed_length(uint64_t answer) { return (size_t)(answer & 0xffff); }

/* Checks a schema sheet (place 1). */
uint64_t migration_check_schema(const uint8_t *s, size_t s_len);

/* Checks schemas S and T (places 1, 2) and a mapping from S to T (place 3). */
uint64_t migration_check_mapping(const uint8_t *s, size_t s_len, const uint8_t *t, size_t t_len, const uint8_t *f, size_t f_len);

/* Checks a schema (place 1) and an instance of it (place 2). */
uint64_t migration_check_instance(const uint8_t *s, size_t s_len, const uint8_t *i, size_t i_len);

/* The first path that is equal to a path (place 2) by the equations of its schema (place 1), in the order of length, then start node, then edge
 * numbers from the left: a path sheet, written to the tray. Two paths are equal exactly where these sheets are the same bytes, so that paths
 * with another start or another end have other sheets. A path sheet has at least one byte: the answer is never 0. At place 0: 16. */
uint64_t migration_first_path(const uint8_t *s, size_t s_len, const uint8_t *p, size_t p_len, uint8_t *tray, size_t tray_len);

/* Which equations make two paths (places 2, 3) of a schema (place 1) equal: a chain of steps from the first path to the second, each of which
 * replaces one side of an equation, standing in the path, by the other. The chain has the fewest steps possible, and among those it is the first
 * in the order of its numbers. It is a chain sheet, written to the tray; where both paths are the same list it has 0 steps, which is one byte 0.
 * The answer is 0 where the paths are unequal, and nowhere else; then nothing is written, and the tray may have any length. At place 0: 16. */
uint64_t migration_path_chain(const uint8_t *s, size_t s_len, const uint8_t *p, size_t p_len, const uint8_t *q, size_t q_len,
                              uint8_t *tray, size_t tray_len);

/* Delta along a mapping from S to T (places 1 to 3) of an instance of T (place 4): an instance sheet of S, written to the tray.
 * At place 0: 15, 16. */
uint64_t migration_delta(const uint8_t *s, size_t s_len, const uint8_t *t, size_t t_len, const uint8_t *f, size_t f_len,
                         const uint8_t *j, size_t j_len, uint8_t *tray, size_t tray_len);

/* Sigma along an even mapping from S to T (places 1 to 3) of an instance of S (place 4): an instance sheet of T, written to the tray.
 * At place 0: 12, 16; the result has as many rows as the run, so it is never overfull. */
uint64_t migration_sigma(const uint8_t *s, size_t s_len, const uint8_t *t, size_t t_len, const uint8_t *f, size_t f_len,
                         const uint8_t *i, size_t i_len, uint8_t *tray, size_t tray_len);

/* Pi along a mapping from S to T (places 1 to 3) of an instance of S (place 4): an instance sheet of T, written to the tray.
 * At place 0: 13, 14, 15, 16. Joins as people have them take time in proportion to their rows. Sheets can be made on which Pi takes longer than
 * anyone waits, since what it asks is NP-hard: who takes sheets from strangers gives the call a limit of time. All this holds of migration_query
 * too, which joins by Pi. The other calls have work in proportion to their sheets, and to the paths of their schemas. */
uint64_t migration_pi(const uint8_t *s, size_t s_len, const uint8_t *t, size_t t_len, const uint8_t *f, size_t f_len,
                      const uint8_t *i, size_t i_len, uint8_t *tray, size_t tray_len);

/* Project, join, unite: Sigma along H of Pi along G of Delta along F of a run. Of four schemas (places 1 to 4), F (place 5) goes from the second
 * to the first, G (place 6) from the second to the third, and H (place 7), which is even, from the third to the fourth; the run (place 8) is an
 * instance of the first. The result is an instance sheet of the fourth, written to the tray.
 * At place 0: 13 and 14 for G, 12 for H, then 15 where Delta's result has more than 512 rows, 15 where Pi's has; last 16. Sigma's result has as many
 * rows as Pi's, so it is never overfull. 13, 14 and 12 come before either 15, whatever the run.
 * It accepts exactly where migration_delta(s2, s1, f, run), migration_pi(s2, s3, g, ..) and migration_sigma(s3, s4, h, ..), each lent the result of
 * the one before, all accept, with this tray for the last and trays that hold every instance sheet for the others; and it writes the same bytes.
 * Where they do not, which refusal is given may differ: the query judges all sheets, and 13, 14 and 12, before it migrates. */
uint64_t migration_query(const uint8_t *s1, size_t s1_len, const uint8_t *s2, size_t s2_len, const uint8_t *s3, size_t s3_len,
                         const uint8_t *s4, size_t s4_len, const uint8_t *f, size_t f_len, const uint8_t *g, size_t g_len,
                         const uint8_t *h, size_t h_len, const uint8_t *run, size_t run_len, uint8_t *tray, size_t tray_len);

/* Two hops in one: of a mapping F from S to T and a mapping G from T to U the composed mapping from S to U. Schemas S, T and U are at places 1 to 3,
 * F at place 4, G at place 5. Each node and each attribute goes to its image's image, each edge to the images of its image's edges, joined in their
 * order as they are: of equal paths none is put in another's place. The result is a mapping sheet, written to the tray. It is accepted as a mapping
 * from S to U, and it is even where F and G are. At place 0: 16.
 * Delta along it gives the same bytes as Delta along G and then Delta along F, wherever all three calls accept. Delta along G alone may be overfull
 * (15). Three mappings composed give the same bytes, whichever two are composed first; a mapping composed with an identity, on either side, gives its
 * own bytes. */
uint64_t migration_compose(const uint8_t *s, size_t s_len, const uint8_t *t, size_t t_len, const uint8_t *u, size_t u_len,
                           const uint8_t *f, size_t f_len, const uint8_t *g, size_t g_len, uint8_t *tray, size_t tray_len);

/* Rows that come and go, along an even mapping from S to T (places 1 to 3): a run over S (place 4) is changed where it stands, and its pushed sheet
 * is made anew.
 * `run, run_len` is a whole tray. The run is the sheet that its first `run_length` bytes are, or the whole tray where run_length is beyond it.
 * run_len is the tray's length, run_length the run's own.
 * `pushed, pushed_len` is another tray, whose old bytes are not read.
 * An accepted change leaves at the start of the run's tray the sheet of the changed run, and at the start of the pushed tray what migration_sigma
 * gives for it; the bytes beyond each keep their values. The answer has both lengths: migration_run_length(answer) and
 * migration_pushed_length(answer). The run's is what the next change of this run is lent as run_length. A refused change leaves both trays as they
 * were.
 * Trays of MIGRATION_INSTANCE_BYTES hold every result. They may not overlap each other, nor any lent sheet.
 * Nothing is cut off a number before it is compared: table 2^32 does not exist.
 *
 *   uint8_t run[MIGRATION_INSTANCE_BYTES] = {..}, pushed[MIGRATION_INSTANCE_BYTES];
 *   uint64_t length = ..;
 *   for (each row that is added) {
 *       uint64_t answer = migration_add_row(s, s_len, t, t_len, f, f_len, run, sizeof run, length, table, row, row_len, pushed, sizeof pushed);
 *       if (migration_accepted(answer)) {
 *           length = migration_run_length(answer);
 *           .. the pushed sheet is the first migration_pushed_length(answer) bytes of pushed ..
 *       }
 *   }
 */

/* Adds a row at the end of a table, with the links and values of a row sheet. At place 0: 12; 18 where the table is no node of S; 1, 2, 9, 10, 11 of
 * the row; 15 where the run has 512 rows already; 16 where either tray is too small for its result. */
uint64_t migration_add_row(const uint8_t *s, size_t s_len, const uint8_t *t, size_t t_len, const uint8_t *f, size_t f_len,
                           uint8_t *run, size_t run_len, uint64_t run_length, uint64_t table, const uint8_t *row, size_t row_len,
                           uint8_t *pushed, size_t pushed_len);

/* Withdraws a row, by its number in its table: later rows of that table move down by one, and so do the links to them. At place 0: 12; 18 where the
 * table is no node of S or has no such row; 19 where some row's link leads to it; 16 where the pushed tray is too small. The changed run is never
 * longer than the run was. */
uint64_t migration_withdraw_row(const uint8_t *s, size_t s_len, const uint8_t *t, size_t t_len, const uint8_t *f, size_t f_len,
                                uint8_t *run, size_t run_len, uint64_t run_length, uint64_t table, uint64_t row,
                                uint8_t *pushed, size_t pushed_len);

/* Matchings along an even mapping from S to T (places 1 to 3), of a run over S (place 4) and a book over T (place 5).
 * The list (place 6) is a matching sheet: for each row of the side's first instance, tables in order, the row of its partner in 9 bits.
 *   pushed side    from Sigma of the run to the book
 *   raw side       from the run to Delta of the book
 * Both sides have as many rows as the run, so their lists have the same byte length, at most MIGRATION_MATCHING_BYTES.
 * All four calls make the same tests: the sheets at places 1 to 5, then 12 and 15 at place 0, then the list: 1, 2, 17; a turning last 16.
 */

/* Whether the list is a matching of the pushed side. */
uint64_t migration_check_pushed(const uint8_t *s, size_t s_len, const uint8_t *t, size_t t_len, const uint8_t *f, size_t f_len,
                                const uint8_t *run, size_t run_len, const uint8_t *book, size_t book_len,
                                const uint8_t *list, size_t list_len);

/* Whether the list is a matching of the raw side. */
uint64_t migration_check_raw(const uint8_t *s, size_t s_len, const uint8_t *t, size_t t_len, const uint8_t *f, size_t f_len,
                             const uint8_t *run, size_t run_len, const uint8_t *book, size_t book_len,
                             const uint8_t *list, size_t list_len);

/* Turns a matching of the pushed side into the one of the raw side in which each row of the run meets the same row of the book: a matching
 * sheet, written to the tray. */
uint64_t migration_pushed_to_raw(const uint8_t *s, size_t s_len, const uint8_t *t, size_t t_len, const uint8_t *f, size_t f_len,
                                 const uint8_t *run, size_t run_len, const uint8_t *book, size_t book_len,
                                 const uint8_t *list, size_t list_len, uint8_t *tray, size_t tray_len);

/* The way back: turns a matching of the raw side into the one of the pushed side. Turned there and back, a list is the same byte for byte. */
uint64_t migration_raw_to_pushed(const uint8_t *s, size_t s_len, const uint8_t *t, size_t t_len, const uint8_t *f, size_t f_len,
                                 const uint8_t *run, size_t run_len, const uint8_t *book, size_t book_len,
                                 const uint8_t *list, size_t list_len, uint8_t *tray, size_t tray_len);

#ifdef __cplusplus
}
#endif

#endif

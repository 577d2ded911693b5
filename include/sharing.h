/*
 * Ternary set-sharing tables, positive and negative: the calls of the analyser. The library is for
 * x86-64 Linux. sharing_util.h has what most callers write around these calls; docs/COMPILER.md,
 * installed as share/doc/sharing/COMPILER.md, has recipes for a compiler of clauses.
 *
 * Tables
 *   A table speaks of the program variables X1 to Xl, l from 1 to 32, and has 0 to 256 entries in
 *   order. An entry is a string of l positions, each 0, 1 or * (either). A group is a string of 0
 *   and 1 with at least one 1. A positive table stands for the groups that some entry covers, a
 *   negative table for the groups that no entry covers. A set of variables is a word of 32 bits:
 *   bit i - 1 is for Xi.
 *
 * The form of a table
 *   Numbers, low byte first: l and n, 16 bits each, then n care words, then n value words. These
 *   words have 16 bits where l is 1 to 16 and 32 bits where l is 17 to 32, so that the form has
 *   4 + 4n or 4 + 8n bytes. Bit i - 1 of a word is for position i. Care is 1 where the position is
 *   fixed, value is the digit there, and value is 0 where care is 0. The form does not say its
 *   side: the caller does.
 *   Reading grows the table entry by entry, as every call grows its lists: an all-zero entry is
 *   dropped; any other is widened (a fixed position becomes a star where one entry covers all that
 *   the entry with that digit flipped covers, while more than one position is fixed), then dropped
 *   if one entry covers all of it, else appended in place of those that it covers. The groups are
 *   the same; the entries and their order may not be. What a call wrote reads back as it stands,
 *   unless the caller changed the table in a sharing_running by hand.
 *   A length that is given with a table is that of the form, 4 + 4n or 4 + 8n, not that of the
 *   buffer it stands in: more bytes than the sizes give are refused 1, as fewer are. The length of
 *   what a call wrote follows from its l and n (sharing_front_length in sharing_util.h). Only
 *   sharing_smaller looks at the front of a longer buffer.
 *
 *   TABLE FORM below stands for these refusals, in this order:
 *     1   fewer than 4 bytes
 *     2   l is not 1 to 32
 *     3   n is above 256
 *     1   the length is not 4 + 4n bytes for l up to 16, 4 + 8n bytes from 17 on
 *     4   entry by entry: a bit above l, or a value bit where care is 0
 *
 * The packed form of a table
 *   Five positions to a byte, for tables in store: l and n as above, then for each entry a row of
 *   l/5 bytes, rounded up, with nothing between; 4 + n * ((l + 4) / 5) bytes. A byte is the sum of
 *   its digits times 1, 3, 9, 27 and 81, lowest position first; a digit is 0, 1, or 2 for a star.
 *   The last byte of a row may have digits that no position uses: they are 0. This form does not
 *   say its side either. Only sharing_pack writes it and only sharing_unpack reads it, which grows
 *   the entries as above. The length of what was written follows from its l and n
 *   (sharing_packed_front in sharing_util.h).
 *
 *   PACKED FORM below stands for these refusals, in this order:
 *     1   fewer than 4 bytes
 *     2   l is not 1 to 32
 *     3   n is above 256
 *     1   the length is not 4 + n * ((l + 4) / 5) bytes
 *     12  entry by entry, byte by byte: a byte of 243 or more, or an unused digit that is not 0
 *
 * Terms
 *   A row of 16-bit tokens; as bytes, low byte first. A token with top bit 0 is the number of a
 *   variable. One with top bit 1 is a head, with its arity in bits 0 to 3 and its symbol in bits 4
 *   to 14; as many terms as the arity says follow it.
 *
 *   TERM below stands for these refusals of an equation "variable = term", in this order:
 *     7   more than 1024 tokens: half the length, rounded down, is above 1024
 *     1   the length is odd
 *     5   the left variable is not 1 to l
 *     5   token by token, to the last one: a variable that is not 1 to l
 *     6   the tokens are not one whole term; no tokens at all are 6 too
 *
 * A variable set equal to itself
 *   Where the term of "variable = term" is that variable and nothing else, as in X1 = X1, the
 *   equation says nothing: the table stays as it is. Where the variable stands deeper in its term,
 *   as in X1 = f(X1), no finite term solves the equation (the occurs check). Then the table after
 *   it has no group: it has no entry if it is positive and one entry of stars if it is negative;
 *   no bindings go on from it. Both come after the checks of the equation, and are never 8.
 *   This holds in every call with an equation, and for each equation that is found in two terms. A
 *   table that is given as bytes is read first: it stays as it was read.
 *
 * Two terms set equal
 *   In an equation "left = right" of two terms either may be compound, a constant or a variable.
 *   They are walked together, arguments left to right: a variable on the left makes an equation
 *   with the term across, else a variable on the right does; heads of equal symbol and arity go
 *   down to their arguments; anything else is a clash. So f(X1, g(X2)) = f(X3, X4) is X1 = X3 and
 *   then X4 = g(X2).
 *   The walk is finished before anything is applied. Then the equations that it found are applied
 *   in order, each to what the last one gave, as sharing_equation does it; one that needs entry
 *   257 refuses the whole call 8, also where a later one has no finite solution. Where none was
 *   found, as in a = a, the table stays as it is.
 *   After a clash, wherever it stands, the table has no group: it has no entry if it is positive
 *   and one entry of stars if it is negative. Such a call is accepted, never 8. The equation has
 *   failed, and no bindings go on from it.
 *
 *   TWO TERMS below stands for these refusals, in this order:
 *     7   more than 1024 tokens together: half of each length, rounded down, then added
 *     1   the length of left is odd
 *     1   the length of right is odd
 *     5   token by token of left, to the last one: a variable that is not 1 to l
 *     6   the tokens of left are not one whole term; no tokens at all are 6 too
 *     5   the same of right
 *     6   the same of right
 *
 * Rules for every call
 *   - A call that returns a number returns 0 where it is accepted, else the number of the first
 *     refusal that it meets. It then has written nothing.
 *   - Below, 8 stands for "the call needs entry 257", 9 for "out is too short for the form".
 *   - side: 0 is positive, any other number negative.
 *   - A buffer is a pointer and the number of its elements. No pointer is ever null, also where
 *     the length is 0: an empty buffer needs some valid, aligned pointer.
 *   - The buffers of one call, and the objects that it writes, never overlap.
 *   - An output may be longer than what is written; its other bytes keep what they held. An output
 *     of SHARING_MAX_FORM bytes is never too short.
 *   - No call allocates memory, keeps anything between calls or uses a global variable.
 *
 * After a refusal
 *   A refused equation has not been applied: the table or state is still the one before it, and
 *   describes the bindings before it. Where the program does not run the equation either, go on
 *   from there. Where the program runs it all the same, that table may lack groups which the
 *   equation makes, so that a goal could be said to be independent which is not. Go on from the
 *   table of all groups then: one entry of stars for the positive side, no entry for the negative
 *   side (sharing_unknown_form in sharing_util.h). It describes any bindings. This holds for every
 *   number, 8 (full) as well as 5. In place of a join or projection that was refused 8 the same
 *   table is sound, of the l that is due.
 *
 * Threads
 *   The calls are safe from any number of threads at once, without a lock: there is no global
 *   state and no allocation, and a call touches only what is lent to it. Threads may read one
 *   table at the same time. Two threads must not lend one output, answer or state to calls at the
 *   same time, nor may one write to a buffer that a call of another still reads.
 *
 * Stack
 *   256 KiB are enough for any call. Measured on the library as shipped, not proved:
 *     calls with a term, by its tokens, and calls with two, by those of both, however they nest
 *       up to 128 tokens   72 KiB
 *       256                88 KiB
 *       512               120 KiB
 *       1024              184 KiB
 *     any other call       48 KiB
 */
#ifndef SHARING_H
#define SHARING_H

#include <stddef.h>
#include <stdint.h>

/* The version, which stands here and nowhere else, as numbers and as text. */
#define SHARING_VERSION_MAJOR 0
#define SHARING_VERSION_MINOR 8
#define SHARING_VERSION_PATCH 0
#define SHARING_VERSION                                                                            \
    SHARING_QUOTED(SHARING_VERSION_MAJOR)                                                          \
    "." SHARING_QUOTED(SHARING_VERSION_MINOR) "." SHARING_QUOTED(SHARING_VERSION_PATCH)
#define SHARING_QUOTED(number) SHARING_QUOTED_AS_IS(number)
#define SHARING_QUOTED_AS_IS(number) #number

/* A call whose answer is dropped: a warning, where the compiler knows how. */
#if defined(__cplusplus) && __cplusplus >= 201703L
#define SHARING_MUST_USE [[nodiscard]]
#elif defined(__GNUC__)
#define SHARING_MUST_USE __attribute__((warn_unused_result))
#else
#define SHARING_MUST_USE
#endif

#ifdef __cplusplus
extern "C" {
#endif

/* What a call answers. */
enum {
    SHARING_ACCEPTED = 0,
    SHARING_TORN = 1,    /* the length is not what the sizes give */
    SHARING_WIDTH = 2,   /* l is not 1 to 32 */
    SHARING_ENTRIES = 3, /* more than 256 entries */
    SHARING_STRAY = 4,   /* a bit above l, or a value without care */
    SHARING_NAME = 5,    /* a variable that is not 1 to l */
    SHARING_TERM = 6,    /* counts that do not sum up, or not one whole term */
    SHARING_LONG = 7,    /* more than 64 equations or 1024 tokens */
    SHARING_FULL = 8,    /* entry 257 is needed */
    SHARING_NARROW = 9,  /* the output is too short */
    SHARING_UNLIKE = 10, /* two tables of different l */
    SHARING_KEEP = 11,   /* projection onto no variable or one above l, or an empty group */
    SHARING_DIGIT = 12   /* a packed byte of 243 or more, or an unused digit that is not 0 */
};

/* The limits. */
enum {
    SHARING_MAX_VARIABLES = 32,
    SHARING_MAX_ENTRIES = 256,
    SHARING_MAX_EQUATIONS = 64,
    SHARING_MAX_TOKENS = 1024,
    SHARING_MAX_FORM = 2052,  /* bytes in the form of a table with 256 entries of 32 variables */
    SHARING_MAX_PACKED = 1796 /* bytes in the packed form of such a table */
};

/* The sides. */
enum { SHARING_POSITIVE = 0, SHARING_NEGATIVE = 1 };

/* What sharing_reason finds of a group, after "x = t": it is kept or joined, or else absent. */
enum {
    SHARING_KEPT = 0,        /* kept: it was there, and the equation does not touch it */
    SHARING_JOINED = 1,      /* joined: groups inside it with x and variables of t make it up */
    SHARING_NO_X_ENTRY = 2,  /* absent: no entry covers a group inside it with x */
    SHARING_NO_T_ENTRY = 3,  /* absent: no entry covers a group inside it with a variable of t */
    SHARING_NOT_MADE_UP = 4, /* absent: groups inside it with x or variables of t lack a part */
    SHARING_NOT_THERE = 5,   /* absent: it was not there, and the equation does not touch it */
    SHARING_NO_SOLUTION = 6  /* absent: t has x deeper, and no finite term solves the equation */
};

/* A table as a value: l variables, n entries, and zeros past the count. Its words have 32 bits,
 * whatever l is. */
typedef struct {
    uint32_t l;
    size_t n;
    uint32_t care[SHARING_MAX_ENTRIES];
    uint32_t value[SHARING_MAX_ENTRIES];
} sharing_table;

/* A running analysis, or the end of a run. */
typedef struct {
    uint32_t code;    /* the answer of the call that last wrote this state; see sharing_step */
    uint32_t side;    /* the side, as it was given */
    uint32_t applied; /* how many equations were accepted; it stays at UINT32_MAX */
    sharing_table table;
} sharing_running;

/* A part of a lent buffer. */
typedef struct {
    const uint8_t *ptr;
    size_t len;
} sharing_part;

/*
 * Reads a form and writes it again, with the entries that reading leaves.
 * Reads table. Writes the form to out.
 * Refusals in order: TABLE FORM; 9.
 * After a refusal: out is as it was.
 */
SHARING_MUST_USE
uint32_t sharing_read(const uint8_t *table, size_t table_len, uint8_t *out, size_t out_len);

/*
 * Packs a table, for storing it: the entries that sharing_read writes, five positions to a byte.
 * Reads table. Writes the packed form to out.
 * Refusals in order: TABLE FORM; 9.
 * After a refusal: out is as it was.
 */
SHARING_MUST_USE
uint32_t sharing_pack(const uint8_t *table, size_t table_len, uint8_t *out, size_t out_len);

/*
 * Unpacks a table. What sharing_pack wrote gives what sharing_read writes of the table packed.
 * Reads packed, a packed form. Writes the form, with the entries that reading leaves, to out.
 * Refusals in order: PACKED FORM; 9.
 * After a refusal: out is as it was.
 */
SHARING_MUST_USE
uint32_t sharing_unpack(const uint8_t *packed, size_t packed_len, uint8_t *out, size_t out_len);

/*
 * Converts groups to a positive table of l variables.
 * Reads groups: any number of words, each a set of variables; a zero word is skipped. groups_len
 * counts words. Writes the form to out.
 * Refusals in order: 2 where l is not 1 to 32; 4 where any word has a bit above l; 8; 9.
 * After a refusal: out is as it was.
 */
SHARING_MUST_USE
uint32_t sharing_convert(uint32_t l, const uint32_t *groups, size_t groups_len, uint8_t *out,
                         size_t out_len);

/*
 * Changes a table to the other side; it stands for the same groups there. Where tables that cover
 * the same strings, the all-zero one counted too, are both accepted, they change to the same
 * entries, perhaps in another order.
 * Reads table, of the side given. Writes the form of the other side to out.
 * Refusals in order: TABLE FORM; 8; 9.
 * After a refusal: out is as it was.
 */
SHARING_MUST_USE
uint32_t sharing_change_side(uint32_t side, const uint8_t *table, size_t table_len, uint8_t *out,
                             size_t out_len);

/*
 * The table after the equation "variable = term": see "A variable set equal to itself" above where
 * the term has the variable.
 * Reads table and term. Writes the form, of the same side, to out.
 * Refusals in order: TABLE FORM; TERM; 8; 9.
 * After a refusal: out is as it was.
 */
SHARING_MUST_USE
uint32_t sharing_equation(uint32_t side, const uint8_t *table, size_t table_len, uint32_t variable,
                          const uint8_t *term, size_t term_len, uint8_t *out, size_t out_len);

/*
 * The table after the equation "left = right" of two terms: see "Two terms set equal" above.
 * Reads table, left and right. Writes the form, of the same side, to out.
 * Refusals in order: TABLE FORM; TWO TERMS; 8; 9.
 * After a refusal: out is as it was.
 */
SHARING_MUST_USE
uint32_t sharing_unify(uint32_t side, const uint8_t *table, size_t table_len, const uint8_t *left,
                       size_t left_len, const uint8_t *right, size_t right_len, uint8_t *out,
                       size_t out_len);

/*
 * The join of two tables of one side: the groups of both together.
 * Reads first and second. Writes the form, of the same side, to out.
 * Refusals in order: TABLE FORM of first; TABLE FORM of second; 10 where their l differ; 8; 9.
 * After a refusal: out is as it was.
 */
SHARING_MUST_USE
uint32_t sharing_join(uint32_t side, const uint8_t *first, size_t first_len, const uint8_t *second,
                      size_t second_len, uint8_t *out, size_t out_len);

/*
 * The projection onto a set of variables: their positions are kept, in rising order, and the new l
 * is their number.
 * Reads table. Writes the form, of the same side, to out.
 * Refusals in order: TABLE FORM; 11 where keep is 0 or has a bit above l; 8; 9.
 * After a refusal: out is as it was.
 */
SHARING_MUST_USE
uint32_t sharing_project(uint32_t side, const uint8_t *table, size_t table_len, uint32_t keep,
                         uint8_t *out, size_t out_len);

/*
 * Do two tables of one side stand for the same groups? The answer is the same for either side.
 * Reads first and second. Writes 1 for yes or 0 for no to *answer.
 * Refusals in order: TABLE FORM of first; TABLE FORM of second; 10 where their l differ.
 * After a refusal: *answer is as it was.
 */
SHARING_MUST_USE
uint32_t sharing_equal(const uint8_t *first, size_t first_len, const uint8_t *second,
                       size_t second_len, uint32_t *answer);

/*
 * Is a variable ground: does no group have it?
 * Reads table. Writes 1 for yes or 0 for no to *answer.
 * Refusals in order: TABLE FORM; 5 where variable is not 1 to l.
 * After a refusal: *answer is as it was.
 */
SHARING_MUST_USE
uint32_t sharing_ground(uint32_t side, const uint8_t *table, size_t table_len, uint32_t variable,
                        uint32_t *answer);

/*
 * Are two sets of variables independent: does no group meet both? Goals on independent sets may
 * run side by side. An empty set is independent of any.
 * Reads table. Writes 1 for yes or 0 for no to *answer.
 * Refusals in order: TABLE FORM; 5 where first or second has a bit above l.
 * After a refusal: *answer is as it was.
 */
SHARING_MUST_USE
uint32_t sharing_independent(uint32_t side, const uint8_t *table, size_t table_len, uint32_t first,
                             uint32_t second, uint32_t *answer);

/*
 * Is a group in a positive table after the equation "variable = term", and why or why not? It is
 * for authors whose goals may not run side by side: of a group that meets both goals it tells which
 * entries joined it. sharing_meeting_group in sharing_util.h finds such a group.
 * Let x be the variable and t the term. The equation touches each group that has x or a variable of
 * t; X1 = X1 touches none. A group is inside another if that one has all its variables; so it is
 * inside itself. Where t has x deeper, every group is SHARING_NO_SOLUTION. Else a group that is not
 * touched is SHARING_KEPT or SHARING_NOT_THERE. One that is touched is the first of these that
 * holds: SHARING_NO_X_ENTRY, SHARING_NO_T_ENTRY, SHARING_NOT_MADE_UP, and else SHARING_JOINED.
 * The table after the equation has the group exactly where it is kept or joined. That table is not
 * made here: this holds also where sharing_equation is refused 8.
 * Reads table, which is positive, and term; group is a set of variables. Writes *verdict and, of a
 * joined group, two entries, counted from 0 in the table as sharing_read writes it: *x_entry is the
 * lowest that covers a group inside it with x, *t_entry the lowest that covers one with a variable
 * of t. They may be the same, and further ones may have a part in the group. With any other verdict
 * both are 0.
 * Refusals in order: TABLE FORM; TERM; 4 where group has a bit above l; 11 where group is 0. It is
 * never refused 8 or 9.
 * After a refusal: *verdict, *x_entry and *t_entry are as they were.
 */
SHARING_MUST_USE
uint32_t sharing_reason(const uint8_t *table, size_t table_len, uint32_t variable,
                        const uint8_t *term, size_t term_len, uint32_t group, uint32_t *verdict,
                        uint32_t *x_entry, uint32_t *t_entry);

/*
 * Of a positive and a negative form, the one with fewer entries.
 * Reads the two buffers. Each begins with a form; more bytes may follow it and are not looked at.
 * The counts compared are the n written in the forms; equal counts give the positive form.
 * Writes to *part where that form stands: the start of its buffer, and its length without what
 * follows. Nothing is copied, so the part is good as long as that buffer is.
 * Refuses nothing. Where a form does not read (it is too short for its sizes, or meets 2, 3 or 4)
 * or the two l differ, part->len is 0, and part->ptr may be in either buffer.
 * Before the call *part must hold a valid part, for example positive with length 0.
 */
void sharing_smaller(const uint8_t *positive, size_t positive_len, const uint8_t *negative,
                     size_t negative_len, sharing_part *part);

/*
 * A run: applies the equations of a form to a table, in order.
 * Reads table and equations. The form of equations is 16-bit numbers, low byte first: e, m, then e
 * left variables, then e token counts that sum to m, then m tokens; 4 + 4e + 2m bytes.
 * Returns the state after the run. `code` is
 *   0  every equation was accepted: `applied` is e;
 *   8  an equation needed entry 257: `applied` and `table` are as before that equation;
 *   another refusal, met before any equation was applied: `applied` is 0 and `table` all zero.
 * Refusals in order: TABLE FORM; then of equations: 1 where there are fewer than 4 bytes; 7 where e
 * is above 64 or m above 1024; 1 where the length is not 4 + 4e + 2m; 6 where the counts do not sum
 * to m; then equation by equation: 5 where the left variable is not 1 to l, 5 where a token is a
 * variable not 1 to l, 6 where the tokens are not one whole term; then 8.
 */
SHARING_MUST_USE
sharing_running sharing_run(uint32_t side, const uint8_t *table, size_t table_len,
                            const uint8_t *equations, size_t equations_len);

/*
 * A run of equations of two terms.
 * Reads table and equations. The form of equations is 16-bit numbers, low byte first: e, m, then
 * the e token counts of left sides, then those of right sides, which sum to m together, then m
 * tokens: of each equation its left side, then its right; 4 + 4e + 2m bytes. A good form of either
 * run is refused 6 by the other one, unless e is 0.
 * Returns the state after the run, as sharing_run does; an equation with a clash is accepted.
 * Refusals in order: TABLE FORM; then of equations: 1 where there are fewer than 4 bytes; 7 where e
 * is above 64 or m above 1024; 1 where the length is not 4 + 4e + 2m; 6 where all counts together
 * do not sum to m; then equation by equation, of the left side and then of the right: 5 where a
 * token is a variable not 1 to l, 6 where the tokens are not one whole term; then 8.
 */
SHARING_MUST_USE
sharing_running sharing_unify_run(uint32_t side, const uint8_t *table, size_t table_len,
                                  const uint8_t *equations, size_t equations_len);

/*
 * Starts a running analysis.
 * Reads table. Returns a state with the table as read, `applied` 0 and `code` 0.
 * Refusals in order, in `code`: TABLE FORM.
 * After a refusal `table` is all zero, so that sharing_step and sharing_write on it meet 2.
 */
SHARING_MUST_USE
sharing_running sharing_start(uint32_t side, const uint8_t *table, size_t table_len);

/*
 * One more equation of a running analysis, "variable = term".
 * Reads *state and term. Writes *state: its table after the equation, `applied` one more, and
 * `code` 0.
 * Refusals in order, of the table in *state: 2 where l is not 1 to 32; 3 where n is above 256; 4
 * where an entry has a bit above l or a value bit where care is 0, or an entry past n is not
 * zero; then TERM; 8.
 * After a refusal: the whole of *state is as it was, `code` too; the number is only returned.
 */
SHARING_MUST_USE
uint32_t sharing_step(sharing_running *state, uint32_t variable, const uint8_t *term,
                      size_t term_len);

/*
 * One more equation of a running analysis, "left = right" of two terms: see "Two terms set equal"
 * above. The two kinds of steps may be mixed.
 * Reads *state, left and right. Writes *state: its table after the equation, `applied` one more,
 * however many equations the walk found, and `code` 0.
 * Refusals in order, of the table in *state: 2, 3, 4 as in sharing_step; then TWO TERMS; 8.
 * After a refusal: the whole of *state is as it was, `code` too; the number is only returned.
 */
SHARING_MUST_USE
uint32_t sharing_unify_step(sharing_running *state, const uint8_t *left, size_t left_len,
                            const uint8_t *right, size_t right_len);

/*
 * Writes the table of a running analysis as a form.
 * Reads *state, which stays as it was, `code` too. Writes the form to out.
 * Refusals in order: 2, 3, 4 of the table in *state, as in sharing_step; 9.
 * After a refusal: out is as it was.
 */
SHARING_MUST_USE
uint32_t sharing_write(const sharing_running *state, uint8_t *out, size_t out_len);

#ifdef __cplusplus
}
#endif

#endif

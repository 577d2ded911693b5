/*
 * What a caller of sharing.h would write around the calls: TESTED, NOT PROVED. The calls of
 * sharing.h are proved; the functions below are compared in the tests with those calls and, for
 * few variables, with a list of all groups.
 *
 * Optional and header-only: static inline functions for C99 and C++11 that need sharing.h and its
 * library. They allocate nothing, keep nothing between calls and are as safe from threads as the
 * calls are. Each needs at most 16 KiB of stack on top of that of the calls it makes.
 *
 * Rules for every function
 *   - One that returns uint32_t and writes to a pointer returns 0, or the number of the first
 *     refusal that it meets, with the meaning of sharing.h; it then has written nothing.
 *   - TABLE FORM, 8, 9, sides, sets of variables and the rules on buffers are those of sharing.h:
 *     no null pointers, no overlap, and a table's length is that of its form.
 *   - Variables are counted from 1, entries and the elements of C arrays from 0.
 */
#ifndef SHARING_UTIL_H
#define SHARING_UTIL_H

#include <sharing.h>

#include <string.h>

/* An entry: bit i - 1 of care is 1 where position i is fixed, that of value is the digit there. */
typedef struct {
    uint32_t care;
    uint32_t value;
} sharing_entry;

/* ---- Numbers, sets and tokens */

/* The number at a place, counted from 0, of a row of 16-bit numbers, low byte first. */
static inline uint32_t sharing_word_at(const uint8_t *row, size_t place) {
    return (uint32_t)row[2 * place] | (uint32_t)row[2 * place + 1] << 8;
}

/* Writes a number, of which the low 16 bits count, at a place of such a row. */
static inline void sharing_put_word(uint8_t *row, size_t place, uint32_t word) {
    row[2 * place] = (uint8_t)(word & 0xff);
    row[2 * place + 1] = (uint8_t)(word >> 8 & 0xff);
}

/* The set of the variables X1 to Xl, where l is at most 32. */
static inline uint32_t sharing_variables(uint32_t l) {
    return (uint32_t)(((uint64_t)1 << l) - 1);
}

/* The token of a head: arity 0 to 15, symbol 0 to 2047. Higher bits of both are cut off. */
static inline uint32_t sharing_head(uint32_t symbol, uint32_t arity) {
    return 0x8000u | (symbol & 0x7ffu) << 4 | (arity & 0xfu);
}

/* ---- Forms and entries */

/* The length in bytes of a care or value word in a form of l variables. */
static inline size_t sharing_word_length(uint32_t l) {
    return l <= 16 ? 2 : 4;
}

/* The length in bytes of a form; 0 where l is not 1 to 32 or n is above 256. */
static inline size_t sharing_form_length(uint32_t l, size_t n) {
    if (l < 1 || l > SHARING_MAX_VARIABLES || n > SHARING_MAX_ENTRIES)
        return 0;
    return 4 + 2 * n * sharing_word_length(l);
}

/*
 * A care or value word of a form that was checked, or whose length was: its care words have the
 * places 0 to n - 1, its value words n to 2n - 1.
 */
static inline uint32_t sharing_entry_word(const uint8_t *form, size_t place) {
    size_t length = sharing_word_length(sharing_word_at(form, 0));
    uint32_t word = 0;
    for (size_t i = 0; i < length; i++)
        word |= (uint32_t)form[4 + length * place + i] << 8 * i;
    return word;
}

/* Writes a word, of which the bits that fit count, at such a place of a form that has its l. */
static inline void sharing_put_entry_word(uint8_t *form, size_t place, uint32_t word) {
    size_t length = sharing_word_length(sharing_word_at(form, 0));
    for (size_t i = 0; i < length; i++)
        form[4 + length * place + i] = (uint8_t)(word >> 8 * i & 0xff);
}

/* The TABLE FORM refusal of a form, or 0. */
SHARING_MUST_USE
static inline uint32_t sharing_check(const uint8_t *form, size_t form_len) {
    if (form_len < 4)
        return SHARING_TORN;
    uint32_t l = sharing_word_at(form, 0), n = sharing_word_at(form, 1);
    if (l < 1 || l > SHARING_MAX_VARIABLES)
        return SHARING_WIDTH;
    if (n > SHARING_MAX_ENTRIES)
        return SHARING_ENTRIES;
    if (form_len != sharing_form_length(l, n))
        return SHARING_TORN;
    for (size_t i = 0; i < n; i++) {
        uint32_t care = sharing_entry_word(form, i), value = sharing_entry_word(form, n + i);
        if ((care & ~sharing_variables(l)) != 0 || (value & ~care) != 0)
            return SHARING_STRAY;
    }
    return SHARING_ACCEPTED;
}

/*
 * The length of the form at the front of a buffer, whatever follows it; 0 where none stands there.
 * After a call wrote to a buffer this is the length of what it wrote.
 */
static inline size_t sharing_front_length(const uint8_t *buffer, size_t buffer_len) {
    if (buffer_len < 4)
        return 0;
    size_t length = sharing_form_length(sharing_word_at(buffer, 0), sharing_word_at(buffer, 1));
    if (length == 0 || length > buffer_len)
        return 0;
    return sharing_check(buffer, length) == SHARING_ACCEPTED ? length : 0;
}

/* The length in bytes of a packed form; 0 where l is not 1 to 32 or n is above 256. */
static inline size_t sharing_packed_length(uint32_t l, size_t n) {
    if (l < 1 || l > SHARING_MAX_VARIABLES || n > SHARING_MAX_ENTRIES)
        return 0;
    return 4 + n * ((l + 4) / 5);
}

/*
 * The length of the packed form at the front of a buffer, whatever follows it; 0 where none stands
 * there. After sharing_pack wrote to a buffer this is the length of what it wrote.
 */
static inline size_t sharing_packed_front(const uint8_t *buffer, size_t buffer_len) {
    uint8_t form[SHARING_MAX_FORM];
    if (buffer_len < 4)
        return 0;
    size_t length = sharing_packed_length(sharing_word_at(buffer, 0), sharing_word_at(buffer, 1));
    if (length == 0 || length > buffer_len)
        return 0;
    return sharing_unpack(buffer, length, form, sizeof form) == SHARING_ACCEPTED ? length : 0;
}

/*
 * Makes a form of l variables from n entries, as they stand and in order.
 * Refusals in order: 2; 3 where n is above 256; 4; 9.
 */
SHARING_MUST_USE
static inline uint32_t sharing_make_form(uint32_t l, const sharing_entry *entries, size_t n,
                                         uint8_t *out, size_t out_len) {
    if (l < 1 || l > SHARING_MAX_VARIABLES)
        return SHARING_WIDTH;
    if (n > SHARING_MAX_ENTRIES)
        return SHARING_ENTRIES;
    for (size_t i = 0; i < n; i++)
        if ((entries[i].care & ~sharing_variables(l)) != 0 ||
            (entries[i].value & ~entries[i].care) != 0)
            return SHARING_STRAY;
    if (out_len < sharing_form_length(l, n))
        return SHARING_NARROW;
    sharing_put_word(out, 0, l);
    sharing_put_word(out, 1, (uint32_t)n);
    for (size_t i = 0; i < n; i++) {
        sharing_put_entry_word(out, i, entries[i].care);
        sharing_put_entry_word(out, n + i, entries[i].value);
    }
    return SHARING_ACCEPTED;
}

/* Entry i of a form that was checked: the functions below use it. */
static inline sharing_entry sharing_entry_in(const uint8_t *form, size_t i) {
    sharing_entry entry;
    entry.care = sharing_entry_word(form, i);
    entry.value = sharing_entry_word(form, sharing_word_at(form, 1) + i);
    return entry;
}

/*
 * Takes entry i, counted from 0, out of a form; writes it to *entry.
 * Refusals in order: TABLE FORM; 1 where the form ends before an entry i.
 */
SHARING_MUST_USE
static inline uint32_t sharing_entry_at(const uint8_t *form, size_t form_len, size_t i,
                                        sharing_entry *entry) {
    uint32_t code = sharing_check(form, form_len);
    if (code == SHARING_ACCEPTED && i >= sharing_word_at(form, 1))
        code = SHARING_TORN;
    if (code == SHARING_ACCEPTED)
        *entry = sharing_entry_in(form, i);
    return code;
}

/*
 * Writes an entry of l positions as text, position 1 first, as in 01*: l characters and a zero.
 * Refusals in order: 2; 4; 9 where text_len is below l + 1.
 */
SHARING_MUST_USE
static inline uint32_t sharing_entry_text(uint32_t l, sharing_entry entry, char *text,
                                          size_t text_len) {
    if (l < 1 || l > SHARING_MAX_VARIABLES)
        return SHARING_WIDTH;
    if ((entry.care & ~sharing_variables(l)) != 0 || (entry.value & ~entry.care) != 0)
        return SHARING_STRAY;
    if (text_len < l + 1)
        return SHARING_NARROW;
    for (uint32_t i = 0; i < l; i++)
        text[i] = entry.care >> i & 1 ? (entry.value >> i & 1 ? '1' : '0') : '*';
    text[l] = '\0';
    return SHARING_ACCEPTED;
}

/*
 * Reads an entry from text_len characters, position 1 first; its l is text_len.
 * Refusals in order: 2 where text_len is not 1 to 32; 4 where a character is none of 0, 1 and *.
 */
SHARING_MUST_USE
static inline uint32_t sharing_text_entry(const char *text, size_t text_len, sharing_entry *entry) {
    sharing_entry read = {0, 0};
    if (text_len < 1 || text_len > SHARING_MAX_VARIABLES)
        return SHARING_WIDTH;
    for (size_t i = 0; i < text_len; i++) {
        if (text[i] != '0' && text[i] != '1' && text[i] != '*')
            return SHARING_STRAY;
        read.care |= (uint32_t)(text[i] != '*') << i;
        read.value |= (uint32_t)(text[i] == '1') << i;
    }
    *entry = read;
    return SHARING_ACCEPTED;
}

/* ---- Forms to begin with. Refusals in order, of each: 2 where l is not 1 to 32; 9. */

/* One entry of stars. As a positive table: all groups. As a negative table it has no group. */
SHARING_MUST_USE
static inline uint32_t sharing_all_star(uint32_t l, uint8_t *out, size_t out_len) {
    const sharing_entry stars = {0, 0};
    return sharing_make_form(l, &stars, 1, out, out_len);
}

/* No entry. As a positive table it has no group: all is known. As a negative table: all groups. */
SHARING_MUST_USE
static inline uint32_t sharing_empty(uint32_t l, uint8_t *out, size_t out_len) {
    const sharing_entry none = {0, 0};
    return sharing_make_form(l, &none, 0, out, out_len);
}

/* The table of all groups, of the side given: it describes any bindings whatever. */
SHARING_MUST_USE
static inline uint32_t sharing_unknown_form(uint32_t side, uint32_t l, uint8_t *out,
                                            size_t out_len) {
    return side == SHARING_POSITIVE ? sharing_all_star(l, out, out_len)
                                    : sharing_empty(l, out, out_len);
}

/* A positive table in which every variable is free: each is a group of its own. */
SHARING_MUST_USE
static inline uint32_t sharing_all_free(uint32_t l, uint8_t *out, size_t out_len) {
    sharing_entry alone[SHARING_MAX_VARIABLES];
    if (l < 1 || l > SHARING_MAX_VARIABLES)
        return SHARING_WIDTH;
    for (uint32_t i = 0; i < l; i++) {
        alone[i].care = sharing_variables(l);
        alone[i].value = (uint32_t)1 << i;
    }
    return sharing_make_form(l, alone, l, out, out_len);
}

/* ---- Refusals in words */

/* The word of an answer, as "torn"; "unknown" for a number that is no answer. */
static inline const char *sharing_refusal_word(uint32_t code) {
    static const char *const words[] = {"accepted", "torn", "width", "entries", "stray",
                                        "name",     "term", "long",  "full",    "narrow",
                                        "unlike",   "keep", "digit"};
    return code < sizeof words / sizeof words[0] ? words[code] : "unknown";
}

/* An answer in a few words more, as in sharing.h. */
static inline const char *sharing_refusal_sentence(uint32_t code) {
    static const char *const sentences[] = {
        "the call was accepted",
        "the length is not what the sizes give",
        "l is not 1 to 32",
        "more than 256 entries",
        "a bit above l, or a value without care",
        "a variable that is not 1 to l",
        "counts that do not sum up, or not one whole term",
        "more than 64 equations or 1024 tokens",
        "entry 257 is needed",
        "the output is too short",
        "two tables of different l",
        "projection onto no variable or one above l, or an empty group",
        "a packed byte of 243 or more, or an unused digit that is not 0"};
    return code < sizeof sentences / sizeof sentences[0] ? sentences[code]
                                                         : "no answer of the calls";
}

/* ---- Reasons: what sharing_reason tells of a group, and which group to ask it for */

/* A verdict of sharing_reason in words, as in sharing.h. */
static inline const char *sharing_verdict_text(uint32_t verdict) {
    static const char *const texts[] = {
        "kept: it was there, and the equation does not touch it",
        "joined: groups inside it with x and variables of t make it up",
        "absent: no entry covers a group inside it with x",
        "absent: no entry covers a group inside it with a variable of t",
        "absent: groups inside it with x or variables of t lack a part",
        "absent: it was not there, and the equation does not touch it",
        "absent: t has x deeper, and no finite term solves the equation"};
    return verdict < sizeof texts / sizeof texts[0] ? texts[verdict]
                                                    : "no verdict of sharing_reason";
}

/* How many variables a set has. */
static inline size_t sharing_set_size(uint32_t set) {
    size_t size = 0;
    for (; set != 0; set &= set - 1)
        size++;
    return size;
}

/* The set of the first variable of a set; the empty set where there is none. */
static inline uint32_t sharing_first_of(uint32_t set) {
    return set & (~set + 1);
}

/* Does a set stand before another? The one of fewer variables does or, of as many, the one that has
 * the first variable in which they differ. */
static inline int sharing_set_before(uint32_t set, uint32_t other) {
    size_t size = sharing_set_size(set), other_size = sharing_set_size(other);
    if (size != other_size)
        return size < other_size;
    return (sharing_first_of(set ^ other) & set) != 0;
}

/*
 * The first group of an entry, in that order, that meets two sets; 0 where none does. It has the 1s
 * of the entry and, for a set that these do not meet, the first star that is in it: one for both
 * sets where there is such a star.
 */
static inline uint32_t sharing_meeting_entry(sharing_entry entry, uint32_t first, uint32_t second) {
    uint32_t group = entry.value;
    if ((group & first) == 0 && (group & second) == 0)
        group |= sharing_first_of(~entry.care & first & second);
    if ((group & first) == 0)
        group |= sharing_first_of(~entry.care & first);
    if ((group & second) == 0)
        group |= sharing_first_of(~entry.care & second);
    return (group & first) != 0 && (group & second) != 0 ? group : 0;
}

/*
 * A group of a positive table that meets two sets of variables, to ask sharing_reason for: such a
 * group is why goals on these sets may not run side by side. Of all of them it is the one that
 * stands before the others. Writes it to *group, or 0 where sharing_independent says yes.
 * Refusals in order: TABLE FORM; 5 where first or second has a bit above l.
 */
SHARING_MUST_USE
static inline uint32_t sharing_meeting_group(const uint8_t *table, size_t table_len, uint32_t first,
                                             uint32_t second, uint32_t *group) {
    uint32_t code = sharing_check(table, table_len), least = 0;
    if (code != SHARING_ACCEPTED)
        return code;
    if (((first | second) & ~sharing_variables(sharing_word_at(table, 0))) != 0)
        return SHARING_NAME;
    for (size_t i = 0; i < sharing_word_at(table, 1); i++) {
        uint32_t met = sharing_meeting_entry(sharing_entry_in(table, i), first, second);
        if (met != 0 && (least == 0 || sharing_set_before(met, least)))
            least = met;
    }
    *group = least;
    return SHARING_ACCEPTED;
}

/* ---- Equations: what they come to by their terms, for those who want to see or to tell it */

/* Where the left variable of an equation "variable = term" stands in its term. */
enum {
    SHARING_OCCURS_NOT = 0,
    SHARING_OCCURS_ALONE = 1, /* the term is the variable: the equation says nothing */
    SHARING_OCCURS_DEEPER = 2 /* no finite term solves it, and the table after it has no group */
};

/* The same of an equation that sharing_equation accepts: see sharing.h. */
static inline uint32_t sharing_occurs(uint32_t variable, const uint8_t *term, size_t term_len) {
    for (size_t place = 0; place < term_len / 2; place++)
        if (sharing_word_at(term, place) == variable)
            return term_len == 2 ? SHARING_OCCURS_ALONE : SHARING_OCCURS_DEEPER;
    return SHARING_OCCURS_NOT;
}

/* The length in bytes of the term at the front of a row of tokens; 0 where it is not whole. */
static inline size_t sharing_term_length(const uint8_t *row, size_t row_len) {
    size_t due = 1, place = 0;
    for (; due > 0 && place < row_len / 2; place++) {
        uint32_t token = sharing_word_at(row, place);
        due += (token & 0x8000u) != 0 ? token & 0xfu : 0;
        due--;
    }
    return due > 0 ? 0 : 2 * place;
}

/* What the walk of two terms comes to next. */
enum { SHARING_WALK_END = 0, SHARING_WALK_EQUATION = 1, SHARING_WALK_CLASH = 2 };

/* A walk: what of both terms is still ahead. It begins with the whole of both. */
typedef struct {
    const uint8_t *left;
    size_t left_len;
    const uint8_t *right;
    size_t right_len;
} sharing_walk;

/* An equation that a walk finds. Its term is a part of one of the two terms. */
typedef struct {
    uint32_t variable;
    const uint8_t *term;
    size_t term_len;
} sharing_found;

/* Goes on behind so many bytes of each term. */
static inline void sharing_walk_on(sharing_walk *walk, size_t left_len, size_t right_len) {
    walk->left += left_len;
    walk->left_len -= left_len;
    walk->right += right_len;
    walk->right_len -= right_len;
}

/* Finds an equation between a variable and the term at the front of a row. */
static inline sharing_found sharing_found_here(uint32_t variable, const uint8_t *row,
                                               size_t row_len) {
    sharing_found found;
    found.variable = variable;
    found.term = row;
    found.term_len = sharing_term_length(row, row_len);
    return found;
}

/*
 * The next step of the walk of two terms that sharing_unify accepts; called again and again it
 * gives the equations that this call applies, in their order. At an equation *found is written and
 * the walk goes on behind it. At a clash the walk stays: the two heads that differ stand first in
 * what is ahead. Of terms that are not whole it reads no byte past their end.
 */
static inline uint32_t sharing_walk_next(sharing_walk *walk, sharing_found *found) {
    while (walk->left_len > 1 && walk->right_len > 1) {
        uint32_t s = sharing_word_at(walk->left, 0), t = sharing_word_at(walk->right, 0);
        if ((s & 0x8000u) == 0) {
            *found = sharing_found_here(s, walk->right, walk->right_len);
            sharing_walk_on(walk, 2, found->term_len);
            return SHARING_WALK_EQUATION;
        }
        if ((t & 0x8000u) == 0) {
            *found = sharing_found_here(t, walk->left, walk->left_len);
            sharing_walk_on(walk, found->term_len, 2);
            return SHARING_WALK_EQUATION;
        }
        if (s != t)
            return SHARING_WALK_CLASH;
        sharing_walk_on(walk, 2, 2);
    }
    return SHARING_WALK_END;
}

/*
 * Do two terms that sharing_unify accepts clash? The table after it has no group then; but a table
 * without groups does not say why it has none. Where they do not clash, sharing_occurs tells
 * whether an equation that is found has no finite solution.
 */
static inline int sharing_terms_clash(const uint8_t *left, size_t left_len, const uint8_t *right,
                                      size_t right_len) {
    sharing_walk walk = {left, left_len, right, right_len};
    sharing_found found;
    uint32_t met;
    do
        met = sharing_walk_next(&walk, &found);
    while (met == SHARING_WALK_EQUATION);
    return met == SHARING_WALK_CLASH;
}

/* ---- Renaming */

/* The set of old variables that more than one new position takes. */
static inline uint32_t sharing_taken_twice(const uint32_t *from, size_t from_len) {
    uint32_t once = 0, twice = 0;
    for (size_t j = 0; j < from_len; j++) {
        uint32_t old = from[j] == 0 ? 0 : (uint32_t)1 << (from[j] - 1);
        twice |= once & old;
        once |= old;
    }
    return twice;
}

/* An entry at its new positions; a known position becomes 0 if `known` is 1, else a star. */
static inline sharing_entry sharing_renamed_entry(sharing_entry entry, const uint32_t *from,
                                                  size_t from_len, uint32_t known) {
    sharing_entry renamed = {0, 0};
    for (size_t j = 0; j < from_len; j++) {
        uint32_t care = from[j] == 0 ? known : entry.care >> (from[j] - 1) & 1;
        uint32_t value = from[j] == 0 ? 0 : entry.value >> (from[j] - 1) & 1;
        renamed.care |= care << j;
        renamed.value |= value << j;
    }
    return renamed;
}

/* The entries of a renamed positive form, into a list of 256; 257 or more where it is too short. */
static inline size_t sharing_rename_positive(const uint8_t *table, const uint32_t *from,
                                             size_t from_len, sharing_entry *list) {
    size_t n = 0;
    uint32_t twice = sharing_taken_twice(from, from_len);
    for (size_t i = 0; i < sharing_word_at(table, 1); i++) {
        sharing_entry entry = sharing_entry_in(table, i);
        uint32_t split = twice & ~entry.care, ones = 0;
        do {
            sharing_entry half = {entry.care | split, entry.value | ones};
            if (n >= SHARING_MAX_ENTRIES)
                return SHARING_MAX_ENTRIES + 1;
            list[n++] = sharing_renamed_entry(half, from, from_len, 1);
            ones = (ones - split) & split;
        } while (ones != 0);
    }
    return n;
}

/* What a negative form needs at new position j beside the renamed entries; care 0 for nothing. */
static inline sharing_entry sharing_rename_rule(const uint32_t *from, size_t from_len, size_t j) {
    sharing_entry rule = {0, 0};
    size_t next = j;
    do
        next = next + 1 < from_len ? next + 1 : 0;
    while (from[next] != from[j]);
    if (from[j] != 0 && next == j)
        return rule;
    rule.care = rule.value = (uint32_t)1 << j;
    if (from[j] != 0)
        rule.care |= (uint32_t)1 << next;
    return rule;
}

/* The entries of a renamed negative form, into a list of 256; 257 or more where it is too short. */
static inline size_t sharing_rename_negative(const uint8_t *table, const uint32_t *from,
                                             size_t from_len, sharing_entry *list) {
    size_t n = 0;
    for (size_t i = 0; i < sharing_word_at(table, 1); i++)
        list[n++] = sharing_renamed_entry(sharing_entry_in(table, i), from, from_len, 0);
    for (size_t j = 0; j < from_len; j++) {
        sharing_entry rule = sharing_rename_rule(from, from_len, j);
        if (rule.care == 0)
            continue;
        if (n >= SHARING_MAX_ENTRIES)
            return SHARING_MAX_ENTRIES + 1;
        list[n++] = rule;
    }
    return n;
}

/*
 * Renames the variables of a table. The new l is from_len. New variable Xj stands for what the old
 * variable from[j - 1] stood for; where from[j - 1] is 0, Xj is known (ground).
 * The new groups, on either side, are exactly these: for each old group the string with, at each
 * new position, the digit of its old variable, and 0 at a known position. So no group is lost and
 * none is added; two new positions of one old variable are alike in every group.
 * As a list: each entry in order. A positive entry is 0 at known positions; where it has stars at
 * old variables that several positions take, it is written once for each choice of digits there. A
 * negative entry has stars at known positions; after the entries follow, for positions j rising,
 * the string with 1 at j where j is known, and the one with 1 at j and 0 at the next position of
 * the same old variable (after the last the first) where there is another; stars elsewhere.
 * Refusals in order: TABLE FORM; 2 where from_len is not 1 to 32; 5 where a number in from is above
 * l; 11 where no position takes some old variable (that is a projection: sharing_select); 8 where
 * this list has more than 256 entries; 9.
 */
SHARING_MUST_USE
static inline uint32_t sharing_rename(uint32_t side, const uint8_t *table, size_t table_len,
                                      const uint32_t *from, size_t from_len, uint8_t *out,
                                      size_t out_len) {
    sharing_entry list[SHARING_MAX_ENTRIES];
    uint32_t code = sharing_check(table, table_len), taken = 0;
    if (code != SHARING_ACCEPTED)
        return code;
    uint32_t l = sharing_word_at(table, 0);
    if (from_len < 1 || from_len > SHARING_MAX_VARIABLES)
        return SHARING_WIDTH;
    for (size_t j = 0; j < from_len; j++)
        if (from[j] > l)
            return SHARING_NAME;
    for (size_t j = 0; j < from_len; j++)
        taken |= from[j] == 0 ? 0 : (uint32_t)1 << (from[j] - 1);
    if (taken != sharing_variables(l))
        return SHARING_KEEP;
    size_t n = side == SHARING_POSITIVE ? sharing_rename_positive(table, from, from_len, list)
                                        : sharing_rename_negative(table, from, from_len, list);
    if (n > SHARING_MAX_ENTRIES)
        return SHARING_FULL;
    return sharing_make_form((uint32_t)from_len, list, n, out, out_len);
}

/*
 * The table as some variables see it: the projection onto the variables in from, then renamed so
 * that new variable Xj stands for the old one from[j - 1], or is known where that is 0. A variable
 * may be named twice. This takes a caller's table to the arguments of a goal.
 * Refusals in order: TABLE FORM; 2 where from_len is not 1 to 32; 5 where a number in from is above
 * l; 11 where from has only zeros; 8 of sharing_project, then of sharing_rename; 9.
 */
SHARING_MUST_USE
static inline uint32_t sharing_select(uint32_t side, const uint8_t *table, size_t table_len,
                                      const uint32_t *from, size_t from_len, uint8_t *out,
                                      size_t out_len) {
    uint8_t kept[SHARING_MAX_FORM];
    uint32_t rank[SHARING_MAX_VARIABLES];
    uint32_t code = sharing_check(table, table_len), keep = 0;
    if (code != SHARING_ACCEPTED)
        return code;
    if (from_len < 1 || from_len > SHARING_MAX_VARIABLES)
        return SHARING_WIDTH;
    for (size_t j = 0; j < from_len; j++)
        if (from[j] > sharing_word_at(table, 0))
            return SHARING_NAME;
    for (size_t j = 0; j < from_len; j++)
        keep |= from[j] == 0 ? 0 : (uint32_t)1 << (from[j] - 1);
    for (size_t j = 0; j < from_len; j++) {
        rank[j] = from[j] == 0 ? 0 : 1;
        for (uint32_t i = 1; i < from[j]; i++)
            rank[j] += keep >> (i - 1) & 1;
    }
    code = sharing_project(side, table, table_len, keep, kept, sizeof kept);
    if (code != SHARING_ACCEPTED)
        return code;
    return sharing_rename(side, kept, sharing_front_length(kept, sizeof kept), rank, from_len, out,
                          out_len);
}

/* ---- Goals of a clause, on positive tables. docs/COMPILER.md says why they are sound. */

/*
 * Adds `more` free variables after Xl, each a group of its own; the other groups stay as they are.
 * Refusals in order: TABLE FORM; 2 where l + more is above 32; 8 where n + more is above 256; 9.
 */
SHARING_MUST_USE
static inline uint32_t sharing_add_free(const uint8_t *table, size_t table_len, uint32_t more,
                                        uint8_t *out, size_t out_len) {
    sharing_entry list[SHARING_MAX_ENTRIES];
    uint32_t code = sharing_check(table, table_len);
    if (code != SHARING_ACCEPTED)
        return code;
    uint32_t l = sharing_word_at(table, 0), n = sharing_word_at(table, 1);
    if (more > SHARING_MAX_VARIABLES - l)
        return SHARING_WIDTH;
    if (more > SHARING_MAX_ENTRIES - n)
        return SHARING_FULL;
    uint32_t all = sharing_variables(l + more), added = all & ~sharing_variables(l);
    for (size_t i = 0; i < n; i++) {
        list[i] = sharing_entry_in(table, i);
        list[i].care |= added;
    }
    for (uint32_t i = 0; i < more; i++) {
        list[n + i].care = all;
        list[n + i].value = (uint32_t)1 << (l + i);
    }
    return sharing_make_form(l + more, list, n + more, out, out_len);
}

/* The bytes in the longest term of sharing_set_term. */
enum { SHARING_SET_TERM = 2 * (2 * SHARING_MAX_VARIABLES + 1) };

/*
 * Writes a term that has exactly the variables of a set, for sharing_equation and sharing_step: the
 * table after an equation depends on nothing else of the term, unless the left variable is in it.
 * A set of one variable gives that variable alone. Set equal to itself it leaves the table as it
 * is, which is sound for X = X and also for X = f(X), from which no bindings go on.
 * term has SHARING_SET_TERM bytes. Returns the length of what was written.
 */
static inline size_t sharing_set_term(uint32_t variables, uint8_t *term) {
    size_t tokens = 0;
    for (uint32_t x = 1; x <= SHARING_MAX_VARIABLES; x++) {
        if (variables == (uint32_t)1 << (x - 1)) {
            sharing_put_word(term, 0, x);
            return 2;
        }
        if (variables >> (x - 1) & 1) {
            sharing_put_word(term, tokens++, sharing_head(0, 2));
            sharing_put_word(term, tokens++, x);
        }
    }
    sharing_put_word(term, tokens++, sharing_head(0, 0));
    return 2 * tokens;
}

/*
 * The table after "variable = t" for any t that has exactly the variables of a set. Where the set
 * is the variable alone, t may be it or have it deeper: the table is read and written again, which
 * is sound for both. Where the set has the variable and others, the table after it has no group.
 * Refusals in order: TABLE FORM; 5 where variable is not 1 to l; 5 where the set has a bit above l;
 * 8; 9.
 */
SHARING_MUST_USE
static inline uint32_t sharing_set_equation(uint32_t side, const uint8_t *table, size_t table_len,
                                            uint32_t variable, uint32_t variables, uint8_t *out,
                                            size_t out_len) {
    uint8_t term[SHARING_SET_TERM];
    uint32_t code = sharing_check(table, table_len);
    if (code != SHARING_ACCEPTED)
        return code;
    if ((variables & ~sharing_variables(sharing_word_at(table, 0))) != 0)
        return SHARING_NAME;
    size_t term_len = sharing_set_term(variables, term);
    return sharing_equation(side, table, table_len, variable, term, term_len, out, out_len);
}

/*
 * The intersection of two positive tables: the groups that both have.
 * Refusals in order: those of sharing_join.
 * Read as negative, the forms stand for all the other groups; joined as negative ones they stand
 * for what one of the two lacks; read as positive again, for what none of the two lacks.
 */
SHARING_MUST_USE
static inline uint32_t sharing_intersect(const uint8_t *first, size_t first_len,
                                         const uint8_t *second, size_t second_len, uint8_t *out,
                                         size_t out_len) {
    return sharing_join(SHARING_NEGATIVE, first, first_len, second, second_len, out, out_len);
}

/* The form, in a buffer of SHARING_MAX_FORM bytes, with a variable taken out of every group. */
static inline uint32_t sharing_take_out(const uint8_t *form, uint32_t variable, uint8_t *out,
                                        size_t out_len) {
    uint32_t from[SHARING_MAX_VARIABLES], l = sharing_word_at(form, 0);
    for (uint32_t i = 0; i < l; i++)
        from[i] = i + 1 == variable ? 0 : i + 1;
    return sharing_select(SHARING_POSITIVE, form, sharing_front_length(form, SHARING_MAX_FORM),
                          from, l, out, out_len);
}

/*
 * Of such a form and a variable that is in no group of it: every "or" of one or more groups that
 * meet a set, with the variable in each, and the groups that do not meet the set. For that the
 * variable is made free, and set equal to a term of the set, which does not have it.
 */
static inline uint32_t sharing_mark(const uint8_t *form, uint32_t variable, uint32_t variables,
                                    uint8_t *out, size_t out_len) {
    uint8_t alone[4 + 8], joined[SHARING_MAX_FORM];
    uint32_t l = sharing_word_at(form, 0);
    const sharing_entry entry = {sharing_variables(l), (uint32_t)1 << (variable - 1)};
    uint32_t code = sharing_make_form(l, &entry, 1, alone, sizeof alone);
    if (code == SHARING_ACCEPTED)
        code = sharing_join(SHARING_POSITIVE, form, sharing_front_length(form, SHARING_MAX_FORM),
                            alone, sharing_form_length(l, 1), joined, sizeof joined);
    if (code != SHARING_ACCEPTED)
        return code;
    return sharing_set_equation(SHARING_POSITIVE, joined,
                                sharing_front_length(joined, sizeof joined), variable, variables,
                                out, out_len);
}

/* The groups of a table that have a variable, where `digit` is 1, or have it not. */
static inline uint32_t sharing_part_with(const uint8_t *table, size_t table_len, uint32_t variable,
                                         uint32_t digit, uint8_t *out, size_t out_len) {
    uint8_t one[4 + 8];
    uint32_t l = sharing_word_at(table, 0);
    const sharing_entry entry = {(uint32_t)1 << (variable - 1), digit << (variable - 1)};
    uint32_t code = sharing_make_form(l, &entry, 1, one, sizeof one);
    if (code != SHARING_ACCEPTED)
        return code;
    return sharing_intersect(table, table_len, one, sharing_form_length(l, 1), out, out_len);
}

/*
 * As sharing_unknown_goal, where no further variable is left; l is at least 2. A variable x of the
 * goal is the mark. An "or" of groups that all lack x is made of the part without x. One of groups
 * with x and groups with another variable of the goal is made by the equation between x and these.
 * Any other is made of the part with x, out of which x is taken for it.
 */
static inline uint32_t sharing_unknown_within(const uint8_t *table, size_t table_len, uint32_t x,
                                              uint32_t variables, uint8_t *out, size_t out_len) {
    uint8_t a[SHARING_MAX_FORM], b[SHARING_MAX_FORM], c[SHARING_MAX_FORM];
    const size_t most = SHARING_MAX_FORM;
    uint32_t mark = (uint32_t)1 << (x - 1), others = variables & ~mark;
    uint32_t code = sharing_part_with(table, table_len, x, 0, a, most);
    if (code == SHARING_ACCEPTED)
        code = sharing_mark(a, x, others, b, most);
    if (code == SHARING_ACCEPTED)
        code = sharing_take_out(b, x, a, most);
    if (code == SHARING_ACCEPTED)
        code = sharing_set_equation(SHARING_POSITIVE, table, table_len, x, others, b, most);
    if (code == SHARING_ACCEPTED)
        code = sharing_join(SHARING_POSITIVE, a, sharing_front_length(a, most), b,
                            sharing_front_length(b, most), c, most);
    if (code == SHARING_ACCEPTED)
        code = sharing_part_with(table, table_len, x, 1, a, most);
    if (code == SHARING_ACCEPTED)
        code = sharing_join(SHARING_POSITIVE, c, sharing_front_length(c, most), a,
                            sharing_front_length(a, most), b, most);
    if (code == SHARING_ACCEPTED)
        code = sharing_take_out(a, x, c, most);
    if (code == SHARING_ACCEPTED)
        code = sharing_mark(c, x, sharing_variables(sharing_word_at(table, 0)) & ~mark, a, most);
    if (code != SHARING_ACCEPTED)
        return code;
    return sharing_join(SHARING_POSITIVE, b, sharing_front_length(b, most), a,
                        sharing_front_length(a, most), out, out_len);
}

/*
 * The table after a goal of which nothing is known but the set of variables in its arguments.
 * The new groups are those that have none of these variables, and every "or" of one or more that
 * have some. Where the set is empty the table is read and written again.
 * Refusals in order: TABLE FORM; 5 where the set has a bit above l; 8 where a step needs entry 257;
 * 9.
 * How: a further free variable is set equal to a term of the whole set, and projected away again.
 * A table of 32 variables has no room for it: see sharing_unknown_within.
 */
SHARING_MUST_USE
static inline uint32_t sharing_unknown_goal(const uint8_t *table, size_t table_len,
                                            uint32_t variables, uint8_t *out, size_t out_len) {
    uint8_t wider[SHARING_MAX_FORM], closed[SHARING_MAX_FORM];
    uint32_t x = 1, code = sharing_check(table, table_len);
    if (code != SHARING_ACCEPTED)
        return code;
    uint32_t l = sharing_word_at(table, 0);
    if ((variables & ~sharing_variables(l)) != 0)
        return SHARING_NAME;
    if (variables == 0)
        return sharing_read(table, table_len, out, out_len);
    if (l == SHARING_MAX_VARIABLES) {
        while ((variables >> (x - 1) & 1) == 0)
            x++;
        return sharing_unknown_within(table, table_len, x, variables, out, out_len);
    }
    code = sharing_add_free(table, table_len, 1, wider, sizeof wider);
    if (code == SHARING_ACCEPTED)
        code = sharing_set_equation(SHARING_POSITIVE, wider,
                                    sharing_front_length(wider, sizeof wider), l + 1, variables,
                                    closed, sizeof closed);
    if (code != SHARING_ACCEPTED)
        return code;
    return sharing_project(SHARING_POSITIVE, closed, sharing_front_length(closed, sizeof closed),
                           sharing_variables(l), out, out_len);
}

/* The entries of an exit form at the arguments of a goal, stars elsewhere; returns their number. */
static inline size_t sharing_place_exit(const uint8_t *exit_form, const uint32_t *arguments,
                                        sharing_entry *list) {
    size_t n = 0;
    for (size_t i = 0; i < sharing_word_at(exit_form, 1); i++) {
        sharing_entry entry = sharing_entry_in(exit_form, i);
        uint32_t zeros = 0, ones = 0, known_one = 0;
        for (uint32_t j = 0; j < sharing_word_at(exit_form, 0); j++) {
            uint32_t at = arguments[j] == 0 ? 0 : (uint32_t)1 << (arguments[j] - 1);
            uint32_t one = entry.value >> j & 1, fixed = entry.care >> j & 1;
            ones |= one ? at : 0;
            zeros |= fixed && !one ? at : 0;
            known_one |= one && at == 0;
        }
        if ((zeros & ones) != 0 || known_one)
            continue;
        list[n].care = zeros | ones;
        list[n++].value = ones;
    }
    return n;
}

/* The groups of a closed table that an exit allows, and those that have none of the variables. */
static inline uint32_t sharing_meet_exit(const uint8_t *closed, uint32_t variables,
                                         const sharing_entry *list, size_t n, uint8_t *out,
                                         size_t out_len) {
    uint8_t allowed[SHARING_MAX_FORM], reached[SHARING_MAX_FORM], others[SHARING_MAX_FORM];
    const sharing_entry apart = {variables, 0};
    size_t closed_len = sharing_front_length(closed, SHARING_MAX_FORM);
    uint32_t l = sharing_word_at(closed, 0);
    uint32_t code = sharing_make_form(l, list, n, allowed, sizeof allowed);
    if (code == SHARING_ACCEPTED)
        code = sharing_intersect(closed, closed_len, allowed,
                                 sharing_front_length(allowed, sizeof allowed), reached,
                                 sizeof reached);
    if (code == SHARING_ACCEPTED)
        code = sharing_make_form(l, &apart, 1, allowed, sizeof allowed);
    if (code == SHARING_ACCEPTED)
        code = sharing_intersect(closed, closed_len, allowed,
                                 sharing_front_length(allowed, sizeof allowed), others,
                                 sizeof others);
    if (code != SHARING_ACCEPTED)
        return code;
    return sharing_join(SHARING_POSITIVE, others, sharing_front_length(others, sizeof others),
                        reached, sharing_front_length(reached, sizeof reached), out, out_len);
}

/*
 * The table after a goal p(A1, ..., Ak) whose exit table is known: a positive table of k variables
 * that describes the arguments at every exit of p, for a call table that has all groups of this
 * call (sharing_select gives them).
 * arguments[j] is the number of the variable that argument j + 1 is, or 0 where the argument has no
 * variable. A variable may be named twice. An argument that is a term with variables needs a
 * variable of its own first: sharing_add_free, then the equation.
 * The new groups are those of sharing_unknown_goal that have none of the variables named, or whose
 * digits at the arguments, in order and 0 for an argument that is 0, are a group of the exit table.
 * Refusals in order: TABLE FORM of table; TABLE FORM of exit_form; 10 where arguments_len is not
 * the l of exit_form; 5 where an argument is above the l of table; 8 where a step needs entry 257;
 * 9.
 */
SHARING_MUST_USE
static inline uint32_t sharing_known_goal(const uint8_t *table, size_t table_len,
                                          const uint8_t *exit_form, size_t exit_len,
                                          const uint32_t *arguments, size_t arguments_len,
                                          uint8_t *out, size_t out_len) {
    sharing_entry list[SHARING_MAX_ENTRIES];
    uint8_t closed[SHARING_MAX_FORM];
    uint32_t variables = 0, code = sharing_check(table, table_len);
    if (code == SHARING_ACCEPTED)
        code = sharing_check(exit_form, exit_len);
    if (code != SHARING_ACCEPTED)
        return code;
    if (arguments_len != sharing_word_at(exit_form, 0))
        return SHARING_UNLIKE;
    for (size_t j = 0; j < arguments_len; j++) {
        if (arguments[j] > sharing_word_at(table, 0))
            return SHARING_NAME;
        variables |= arguments[j] == 0 ? 0 : (uint32_t)1 << (arguments[j] - 1);
    }
    if (variables == 0)
        return sharing_read(table, table_len, out, out_len);
    code = sharing_unknown_goal(table, table_len, variables, closed, sizeof closed);
    if (code != SHARING_ACCEPTED)
        return code;
    return sharing_meet_exit(closed, variables, list,
                             sharing_place_exit(exit_form, arguments, list), out, out_len);
}

#endif

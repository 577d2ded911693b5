/* The groups that one table has and another lacks, as tables that calls of the library make. They
 * are listed and counted by their entries; no sets of variables are gone through, of which there
 * may be 2 to the power of 32. */
#include "answers.h"

#include <string.h>

/* So many parts of the two tables are looked at, which takes a second or two. A part is halved only
 * where a call on it is full, so that few differences come near this. */
enum { MOST_PARTS = 2048 };

/* The length of the form at the front of a buffer that holds any form. */
static size_t length_of(const uint8_t form[SHARING_MAX_FORM]) {
    return sharing_front_length(form, SHARING_MAX_FORM);
}

/* Do two forms have the same groups? */
static bool same_groups(const rules *given, const uint8_t *one, const uint8_t *other) {
    uint32_t same = 0;
    return accepted(given, sharing_equal(one, length_of(one), other, length_of(other), &same)) &&
           same != 0;
}

/* Does a form cover all groups of an entry? The part of it inside that entry is never full. */
static bool covers_entry(const rules *given, const uint8_t *form, sharing_entry entry) {
    uint8_t one[SHARING_MAX_FORM], inside[SHARING_MAX_FORM];
    uint32_t code = sharing_make_form(sharing_word_at(form, 0), &entry, 1, one, sizeof one);
    if (code == SHARING_ACCEPTED)
        code = sharing_intersect(form, length_of(form), one, length_of(one), inside, sizeof inside);
    return accepted(given, code) && same_groups(given, inside, one);
}

/* Has a form all groups of another? Then the two joined have no more than it alone. Where the join
 * is full, that is asked of each entry. */
static bool covers(const rules *given, const uint8_t *form, const uint8_t *other) {
    uint8_t joined[SHARING_MAX_FORM];
    uint32_t code = sharing_join(SHARING_POSITIVE, form, length_of(form), other, length_of(other),
                                 joined, sizeof joined);
    if (code != SHARING_FULL)
        return accepted(given, code) && same_groups(given, joined, form);
    for (size_t i = 0; i < sharing_word_at(other, 1); i++)
        if (!covers_entry(given, form, sharing_entry_in(other, i)))
            return false;
    return true;
}

/* The groups of a form that another lacks: those that it has in common with the other's negative,
 * whose entries cover what the other has not. Both calls may be full. */
static uint32_t subtract(const uint8_t *form, const uint8_t *other, uint8_t *out) {
    uint8_t lacked[SHARING_MAX_FORM];
    uint32_t code = sharing_change_side(SHARING_POSITIVE, other, length_of(other), lacked,
                                        sizeof lacked);
    if (code != SHARING_ACCEPTED)
        return code;
    return sharing_intersect(form, length_of(form), lacked, length_of(lacked), out,
                             SHARING_MAX_FORM);
}

/* ---- Parts */

/* Adds a group to a list in its order; from a list that is too long the last one falls off. */
static void add_group(group_list *list, uint32_t group) {
    size_t at = list->count;
    while (at > 0 && sharing_set_before(group, list->group[at - 1]))
        at--;
    if (at == list->most)
        return;
    list->count += list->count < list->most;
    for (size_t i = list->count - 1; i > at; i--)
        list->group[i] = list->group[i - 1];
    list->group[at] = group;
}

/* Adds the groups of a part in which all that differs is known. */
static void add_part(const uint8_t *form, difference *out) {
    group_list first;
    list_groups(form, out->first.most, &first);
    for (size_t i = 0; i < first.count; i++)
        add_group(&out->first, first.group[i]);
    out->count += count_groups(form);
}

static void search(const rules *given, const uint8_t *form, const uint8_t *other, uint32_t chosen,
                   difference *out);

/* Looks at two halves of a part: without a variable, and with it. A half has no more entries than
 * the whole, so that it is never full. */
static void halve(const rules *given, const uint8_t *form, const uint8_t *other, uint32_t chosen,
                  difference *out) {
    uint8_t half[SHARING_MAX_FORM], other_half[SHARING_MAX_FORM];
    uint32_t among = sharing_variables(sharing_word_at(form, 0)) & ~chosen, position;
    entry_list entries;
    take_entries(other, &entries);
    position = most_fixed(&entries, among);
    for (uint32_t digit = 0; digit < 2; digit++) {
        uint32_t code = sharing_part_with(form, length_of(form), position + 1, digit, half,
                                          sizeof half);
        if (code == SHARING_ACCEPTED)
            code = sharing_part_with(other, length_of(other), position + 1, digit, other_half,
                                     sizeof other_half);
        if (accepted(given, code))
            search(given, half, other_half, chosen | 1u << position, out);
    }
}

/* Finds what a form has and another lacks, in the part of both with these variables chosen. A part
 * with nothing of the kind is left at once, so that each one that is halved has some; a part with
 * all variables chosen is one group, of which nothing is full. */
static void search(const rules *given, const uint8_t *form, const uint8_t *other, uint32_t chosen,
                   difference *out) {
    uint8_t lacked[SHARING_MAX_FORM];
    uint32_t code;
    if (covers(given, other, form))
        return;
    if (out->parts == MOST_PARTS) {
        out->whole = false;
        return;
    }
    out->parts++;
    code = subtract(form, other, lacked);
    if (code == SHARING_FULL)
        halve(given, form, other, chosen, out);
    else if (accepted(given, code))
        add_part(lacked, out);
}

/* The groups that a table has and another one of as many variables lacks: how many, and the first
 * of them, `most` in number. */
void find_difference(const point *at, const point *other, size_t most, difference *out) {
    memset(out, 0, sizeof *out);
    out->whole = true;
    out->first.most = most;
    search(at->given, at->form, other->form, 0, out);
}

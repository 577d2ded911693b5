/* The groups of a table, listed and counted by its entries; and those of each table of a file as
 * rows of marks, to see which variables go together. */
#include "answers.h"

/* ---- Counting */

/* The entries of a list that may have this digit at a position, which is a star in them then. */
static void choose(const entry_list *from, uint32_t position, uint32_t digit, entry_list *out) {
    uint32_t bit = 1u << position;
    out->width = from->width;
    out->count = 0;
    for (size_t i = 0; i < from->count; i++) {
        sharing_entry e = from->entry[i];
        if ((e.care & bit) != 0 && (e.value >> position & 1) != digit)
            continue;
        e.care &= ~bit;
        e.value &= ~bit;
        out->entry[out->count++] = e;
    }
}

/* The position, from 0, of a set at which most entries of a list are fixed. */
uint32_t most_fixed(const entry_list *list, uint32_t among) {
    size_t most = 0;
    uint32_t found = 0;
    for (uint32_t position = 0; position < list->width; position++) {
        size_t fixed = (among >> position & 1) != 0;
        for (size_t i = 0; fixed > 0 && i < list->count; i++)
            fixed += list->entry[i].care >> position & 1;
        if (fixed > most) {
            most = fixed;
            found = position;
        }
    }
    return found;
}

/* How many strings the entries of a list cover, of so many positions that are still open. There
 * can be 2 to the power of 32, so that they are not listed: both digits are chosen at a position,
 * until an entry covers all that is open or no entry is left. */
static uint64_t count_strings(const entry_list *list, size_t open) {
    entry_list half;
    uint64_t found = 0;
    uint32_t position;
    if (list->count == 0)
        return 0;
    for (size_t i = 0; i < list->count; i++)
        if (list->entry[i].care == 0)
            return (uint64_t)1 << open;
    position = most_fixed(list, sharing_variables((uint32_t)list->width));
    for (uint32_t digit = 0; digit < 2; digit++) {
        choose(list, position, digit, &half);
        found += count_strings(&half, open - 1);
    }
    return found;
}

/* The entries of a form. */
void take_entries(const uint8_t *form, entry_list *out) {
    out->width = sharing_word_at(form, 0);
    out->count = sharing_word_at(form, 1);
    for (size_t i = 0; i < out->count; i++)
        out->entry[i] = sharing_entry_in(form, i);
}

/* How many groups the entries of a form cover: the string of zeros is none. */
uint64_t count_groups(const uint8_t *form) {
    entry_list list;
    uint64_t strings;
    take_entries(form, &list);
    strings = count_strings(&list, list.width);
    for (size_t i = 0; i < list.count; i++)
        if (list.entry[i].value == 0)
            return strings - 1;
    return strings;
}

/* ---- Listing */

/* Does an entry cover a group that has of the positions before `from` those of `begun`, and so many
 * more variables? */
static bool goes_on(const entry_list *list, uint32_t begun, size_t from, size_t more) {
    uint32_t before = sharing_variables((uint32_t)from);
    uint32_t after = sharing_variables((uint32_t)list->width) & ~before;
    for (size_t i = 0; i < list->count; i++) {
        sharing_entry e = list->entry[i];
        size_t least = sharing_set_size(e.value & after);
        size_t most = least + sharing_set_size(~e.care & after);
        if ((begun & e.care) == (e.value & before) && least <= more && more <= most)
            return true;
    }
    return false;
}

/*
 * Lists the groups that have `begun` and so many more variables, none before position `from`, in
 * the order of their variables. Where no group goes on this way, nothing below is looked at: so the
 * time follows the groups that are listed, not the sets of variables.
 */
static void list_from(const entry_list *list, uint32_t begun, size_t from, size_t more,
                      group_list *out) {
    if (out->count == out->most || !goes_on(list, begun, from, more))
        return;
    if (more == 0) {
        out->group[out->count++] = begun;
        return;
    }
    for (size_t i = from; i + more <= list->width; i++)
        list_from(list, begun | 1u << i, i + 1, more - 1, out);
}

/* The first groups of a form, `most` in number: those of fewer variables come first, those of as
 * many in the order of their variables. */
void list_groups(const uint8_t *form, size_t most, group_list *out) {
    entry_list list;
    take_entries(form, &list);
    out->count = 0;
    out->most = most;
    for (size_t size = 1; size <= list.width; size++)
        list_from(&list, 0, 0, size, out);
}

/* ---- Rows */

/* The names of the variables, one a line. Below each name bars lead down to its column. */
static void put_names(const rules *given) {
    for (size_t i = 0; i < given->width; i++) {
        fputs("    ", stdout);
        for (size_t earlier = 0; earlier < i; earlier++)
            fputs("| ", stdout);
        put_piece(stdout, variable_name(given, i));
        putchar('\n');
    }
}

/* A group as a row: a mark in the column of each variable that it has. */
static void put_row(uint32_t group, size_t width) {
    fputs("   ", stdout);
    for (size_t i = 0; i < width; i++)
        fputs((group >> i & 1) != 0 ? " x" : " .", stdout);
    putchar('\n');
}

/* The groups of a point, by the entries that the library wrote. */
static void put_groups(const point *at) {
    uint64_t count = count_groups(at->form);
    group_list shown;
    put_heading("Groups", at);
    if (count == 0) {
        fputs(" none\n", stdout);
        return;
    }
    printf(" %llu\n", (unsigned long long)count);
    put_names(at->given);
    list_groups(at->form, MOST_LISTED, &shown);
    for (size_t i = 0; i < shown.count; i++)
        put_row(shown.group[i], at->given->width);
    if (shown.count < count)
        printf("    and %llu more\n", (unsigned long long)(count - shown.count));
}

/* The groups before the first equation and after each one. */
int show(const rules *given) {
    for (size_t after = 0; after <= given->equations; after++) {
        point at;
        if (!reach(given, after, &at))
            return finish(STATUS_WRONG);
        put_groups(&at);
    }
    return finish(STATUS_YES);
}

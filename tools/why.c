/* Why two goals may not run side by side: the equation that made them share, a group of both, and
 * the entries that it was joined from. The library applies the equations and gives the reason; here
 * only the equation and the group to ask for are looked for. */
#include "answers.h"

/* ---- Steps */

/* An equation that is found in one of the file, and the tables before and after it. */
typedef struct {
    size_t place;   /* among those that are found there, from 1 */
    two_sides both; /* in which `found` stands */
    sharing_found found;
    point before, after;
} step;

/* Stands before the first step of an equation of the file, by its number from 1. */
static bool begin_steps(const rules *given, size_t number, step *out) {
    out->place = 0;
    begin_walk(given, number - 1, &out->both);
    return reach(given, number - 1, &out->after);
}

/* Goes on to the next step, if there is one. */
static bool next_step(step *at) {
    const sharing_found *f = &at->found;
    uint32_t code;
    if (sharing_walk_next(&at->both.walk, &at->found) != SHARING_WALK_EQUATION)
        return false;
    at->place++;
    at->before = at->after;
    code = sharing_equation(SHARING_POSITIVE, at->before.form, at->before.len, f->variable, f->term,
                            f->term_len, at->after.form, sizeof at->after.form);
    at->after.len = sharing_front_length(at->after.form, sizeof at->after.form);
    return accepted(at->after.given, code);
}

/* What the library tells of a group. */
typedef struct {
    uint32_t verdict, x_entry, t_entry;
} reason;

/* The reason why a group is there after a step, or is not. */
static reason reason_at(const step *at, uint32_t group) {
    const point *before = &at->before;
    const sharing_found *f = &at->found;
    reason told = {SHARING_NOT_THERE, 0, 0};
    uint32_t code = sharing_reason(before->form, before->len, f->variable, f->term, f->term_len,
                                   group, &told.verdict, &told.x_entry, &told.t_entry);
    accepted(before->given, code);
    return told;
}

/* ---- Variables */

/* The variables of the term of an equation that was found. */
static uint32_t term_variables(const sharing_found *found) {
    uint32_t set = 0;
    for (size_t i = 0; i < found->term_len / 2; i++) {
        uint32_t token = sharing_word_at(found->term, i);
        set |= token < HEAD ? 1u << (token - 1) : 0;
    }
    return set;
}

/* Groups with these variables are touched by such an equation; X = X touches none. */
static uint32_t touched_by(const sharing_found *found) {
    if (sharing_occurs(found->variable, found->term, found->term_len) == SHARING_OCCURS_ALONE)
        return 0;
    return 1u << (found->variable - 1) | term_variables(found);
}

/* The same of the first equations of a file, `count` in number. */
static uint32_t touched(const rules *given, size_t count) {
    two_sides both;
    sharing_found found;
    uint32_t set = 0;
    for (size_t i = 0; i < count; i++) {
        begin_walk(given, i, &both);
        while (sharing_walk_next(&both.walk, &found) == SHARING_WALK_EQUATION)
            set |= touched_by(&found);
    }
    return set;
}

/* The largest group inside another one that an entry covers; 0 where it covers none. */
static uint32_t part_of(uint32_t group, sharing_entry entry) {
    return (entry.value & ~group) == 0 ? (entry.value | ~entry.care) & group : 0;
}

/* ---- Groups of both goals */

/* A group of a point that has variables of both goals; 0 where there is none. */
static uint32_t group_of_both(const point *at, const goal goals[2]) {
    uint32_t group = 0;
    uint32_t code = sharing_meeting_group(at->form, at->len, goals[0].set, goals[1].set, &group);
    return accepted(at->given, code) ? group : 0;
}

/* The same of the start, of the groups that no equation up to another point touches. */
static uint32_t untouched_group(const point *start, const goal goals[2], size_t after) {
    uint32_t set = touched(start->given, after), code;
    sharing_entry entry[SHARING_MAX_ENTRIES];
    size_t count = 0;
    point rest = *start;
    for (size_t i = 0; i < entries_of(start); i++) {
        entry[count] = sharing_entry_in(start->form, i);
        entry[count].care |= set;
        count += (entry[count].value & set) == 0;
    }
    code = sharing_make_form((uint32_t)start->given->width, entry, count, rest.form,
                             sizeof rest.form);
    rest.len = sharing_front_length(rest.form, sizeof rest.form);
    return accepted(start->given, code) ? group_of_both(&rest, goals) : 0;
}

/* A group of both goals, and the step that joined it; its number is 0 where no step did. */
typedef struct {
    uint32_t group;
    size_t number, place;
} cause;

/* Of an equation before which goals share nothing, and after which they do: its last such step. */
static cause first_shared(const rules *given, size_t number, const goal goals[2]) {
    cause found = {0, 0, 0};
    step at;
    bool more = begin_steps(given, number, &at);
    while (more && next_step(&at)) {
        uint32_t group = group_of_both(&at.after, goals);
        if (group != 0 && group_of_both(&at.before, goals) == 0) {
            found.group = group;
            found.number = number;
            found.place = at.place;
        }
    }
    return found;
}

/* The last step up to a point that did not just keep a group which is there at the point. */
static cause last_joined(const point *at, uint32_t group) {
    cause found = {group, 0, 0};
    for (size_t number = at->after; number > 0 && found.number == 0; number--) {
        step now;
        bool more = begin_steps(at->given, number, &now);
        while (more && next_step(&now))
            if (reason_at(&now, group).verdict == SHARING_JOINED) {
                found.number = number;
                found.place = now.place;
            }
    }
    return found;
}

/* The last equation before which goals that share at a point do not; 0 where they always did. */
static size_t made_sharing(const point *at, const goal goals[2]) {
    for (size_t number = at->after; number > 0; number--) {
        point before;
        if (!reach(at->given, number - 1, &before) || group_of_both(&before, goals) == 0)
            return number;
    }
    return 0;
}

/* ---- In words */

/* A group, as an entry is written. */
static void put_group(const rules *given, uint32_t group) {
    sharing_entry entry = {sharing_variables((uint32_t)given->width), group};
    put_entry(stdout, given, entry);
}

/* An entry that something was told of, below that. */
static void put_below(const rules *given, sharing_entry entry, const char *indent) {
    fputs(indent, stdout);
    put_entry(stdout, given, entry);
}

/* The first entry of a group that was there from the start. */
static void put_first_entry(const point *start, uint32_t group, const char *indent) {
    size_t i = 0;
    sharing_entry entry = {0, 0};
    for (bool covers = false; !covers && i < entries_of(start); i++) {
        entry = sharing_entry_in(start->form, i);
        covers = (group & entry.care) == entry.value;
    }
    printf("%sIt is in this entry of the table before the first equation:\n", indent);
    put_below(start->given, entry, indent);
}

/* A group of both that was there from the start, up to a point. */
static void put_start(const point *start, uint32_t group, size_t after) {
    printf("They share from the start, by this group%s:\n",
           after > 0 ? ", which no equation has touched" : "");
    put_group(start->given, group);
    put_first_entry(start, group, "");
}

/* The entries with a part in a group beside those that are told, which cover `known` of it. */
static void put_rest(const step *at, uint32_t group, uint32_t known, const char *indent) {
    bool first = true;
    for (size_t i = 0; i < entries_of(&at->before) && known != group; i++) {
        sharing_entry entry = sharing_entry_in(at->before.form, i);
        uint32_t part = part_of(group, entry);
        if ((part & touched_by(&at->found)) == 0 || (part & ~known) == 0)
            continue;
        if (first)
            printf("%sand for the rest of it:\n", indent);
        put_below(at->before.given, entry, indent);
        first = false;
        known |= part;
    }
}

/* The entries that a step joined a group from: one with its variable, one with some of its term. */
static void put_entries(const step *at, uint32_t group, reason told, const char *indent) {
    const rules *given = at->before.given;
    sharing_entry x = sharing_entry_in(at->before.form, told.x_entry);
    sharing_entry t = sharing_entry_in(at->before.form, told.t_entry);
    printf("%sBefore it there was a group with ", indent);
    put_variables(stdout, given, 1u << (at->found.variable - 1));
    fputs(" inside this one, ", stdout);
    if (told.x_entry != told.t_entry) {
        puts("in this entry:");
        put_below(given, x, indent);
        fputs(indent, stdout);
    }
    fputs("and one with ", stdout);
    put_variables(stdout, given, part_of(group, t) & term_variables(&at->found));
    puts(", in this entry:");
    put_below(given, t, indent);
    put_rest(at, group, part_of(group, x) | part_of(group, t), indent);
}

/* The step of a cause, and the reason of its group there. It joined that group. Should the library
 * say otherwise, no reason is given. */
static bool reach_step(const rules *given, cause c, step *out, reason *told) {
    if (!begin_steps(given, c.number, out))
        return false;
    while (out->place < c.place)
        if (!next_step(out))
            return false;
    *told = reason_at(out, c.group);
    if (told->verdict == SHARING_JOINED)
        return true;
    fprintf(stderr, "%s: %s\n", given->from.name, sharing_verdict_text(told->verdict));
    return false;
}

/* The step that joined a group of both; `before` is true where goals shared before it already. */
static bool put_step(const rules *given, cause c, bool before) {
    step at;
    reason told;
    if (!reach_step(given, c, &at, &told))
        return false;
    put_equation(before ? "They shared from the start already, and share now by equation"
                        : "Equation", given, c.number - 1);
    fputs(before ? ". " : ", made them share. ", stdout);
    if (equation_sides(given, c.number - 1) == TWO_TERMS) {
        fputs("In it ", stdout);
        put_equals(given, &at.found);
    } else
        fputs("It", stdout);
    puts(" joined this group:");
    put_group(given, c.group);
    put_entries(&at, c.group, told, "");
    return true;
}

/* Why a point has a group: the last step that joined it and the entries that this came from, or the
 * entry that it has been in from the start. */
bool put_reason(const point *at, uint32_t group, const char *indent) {
    const rules *given = at->given;
    cause c = last_joined(at, group);
    point start;
    step joined;
    reason told;
    fputs(indent, stdout);
    if (c.number == 0) {
        printf("It is there from the start%s.\n",
               at->after > 0 ? ", and no equation has touched it" : "");
        if (!reach(given, 0, &start))
            return false;
        put_first_entry(&start, group, indent);
        return true;
    }
    if (!reach_step(given, c, &joined, &told))
        return false;
    put_equation("Equation", given, c.number - 1);
    fputs(", joined it", stdout);
    if (equation_sides(given, c.number - 1) == TWO_TERMS) {
        fputs(": in it ", stdout);
        put_equals(given, &joined.found);
    }
    puts(".");
    put_entries(&joined, group, told, indent);
    return true;
}

/* Where both goals have a variable of the group, that alone is enough. */
static void put_common(const rules *given, const goal goals[2], uint32_t group) {
    uint32_t common = goals[0].set & goals[1].set & group;
    if (common == 0)
        return;
    fputs("Both goals have ", stdout);
    put_variables(stdout, given, common);
    printf(": what is not known in %s, they share.\n",
           sharing_set_size(common) == 1 ? "it" : "them");
}

/* Why goals share at a point. */
static bool put_why(const point *at, const goal goals[2]) {
    const rules *given = at->given;
    size_t number = made_sharing(at, goals);
    point start;
    cause c;
    if (number > 0) {
        c = first_shared(given, number, goals);
        put_common(given, goals, c.group);
        return c.number > 0 && put_step(given, c, false);
    }
    if (!reach(given, 0, &start))
        return false;
    c.group = untouched_group(&start, goals, at->after);
    c = last_joined(at, c.group != 0 ? c.group : group_of_both(at, goals));
    put_common(given, goals, c.group);
    if (c.number > 0)
        return put_step(given, c, true);
    put_start(&start, c.group, at->after);
    return true;
}

/* May two goals run side by side at a point and, if not, why? */
int why(const rules *given, char *const texts[2], size_t after) {
    goal goals[2];
    point at;
    int status;
    if (!read_goals(given, texts, goals) || !reach(given, after, &at))
        return STATUS_WRONG;
    status = answer(&at, goals);
    if (status == STATUS_YES)
        printf("There is nothing to explain: %s.\n",
               goals[0].set == 0 || goals[1].set == 0 ? "a goal without variables shares none"
                                                      : "no group has variables of both");
    if (status == STATUS_NO && !put_why(&at, goals))
        status = STATUS_WRONG;
    return finish(status);
}

/*
 * The audit of a table before it is shipped: a line for each question of the checklist, and at last
 * what to do. The table that the clause gives is the library's, and so is every answer; here the
 * questions are put and the answers are told.
 */
#include "audit.h"

#include <string.h>

/* The lines, by their numbers. */
enum { VARIABLES = 1, READING, GROUPS, GROUND, OTHER_SIDE, GOALS, LINES };

/* Of groups that are missing, or too many, so many are told; then how many more there are. */
enum { MOST_TOLD = 20 };

typedef struct {
    const rules *given;
    const shipped *table; /* NULL where the recomputed table itself is audited */
    point all;            /* the recomputed table, of every variable */
    point due;            /* the same of the variables that the audited table has */
    point held;           /* the audited table */
    bool bad[LINES];
    difference missing, surplus;
    uint32_t unmade; /* the variables that it calls ground, and no equation made so */
    size_t wrong_pairs;
} audited;

/* What stands before the parts of a line, and before what is told of a part. */
static const char *const inner = "      ";
static const char *const deeper = "          ";

/* The beginning of a line: its number, ok or BAD, and what it is about. */
static void begin_line(audited *a, int number, bool good, const char *subject) {
    a->bad[number] = !good;
    printf("%d %s %s: ", number, good ? "ok " : "BAD", subject);
}

/* A number and what it counts. */
static void put_count(size_t count, const char *one, const char *many) {
    printf("%zu %s", count, count == 1 ? one : many);
}

/* ---- 1 and 2: whose table it is, and whether it reads */

/* Are the names of a table those of the clause, in the same order? */
static bool same_names(const rules *given, const rules *table) {
    if (table->named != given->named)
        return false;
    for (size_t i = 0; i < given->named; i++)
        if (!same_piece(given->variable[i], table->variable[i]))
            return false;
    return true;
}

/* Has the table names, and can they be compared with those of the clause? */
static bool table_names(const audited *a) {
    return a->table->text != NULL && has_names(a->table->text);
}
static bool compares_names(const audited *a) { return table_names(a) && has_names(a->given); }

/* Is the table one of the clause by its variables? A table without names has as many as the line
 * vars of the clause, or as many as that and each _. */
static bool has_variables(const audited *a) {
    size_t width = a->table->width;
    if (compares_names(a))
        return same_names(a->given, a->table->text);
    return width == a->given->named || width == a->given->width;
}

/* The variables of the clause, by name or by number. */
static void put_clause(const audited *a) {
    const rules *given = a->given;
    if (compares_names(a))
        put_variables(stdout, given, sharing_variables((uint32_t)given->named));
    else
        printf("%zu", given->named);
    if (given->width > given->named)
        printf(", and %zu more of _", given->width - given->named);
}

/* The variables of the table, by name or by number. */
static void put_table_variables(const audited *a) {
    const shipped *table = a->table;
    if (table->width == 0)
        fputs("not known, since the table does not read", stdout);
    else if (table_names(a))
        put_variables(stdout, table->text, sharing_variables((uint32_t)table->width));
    else {
        put_count(table->width, "variable", "variables");
        fputs(" without names", stdout);
    }
}

/* Line 1: the table's variables against the clause's. */
static void audit_variables(audited *a) {
    bool good = has_variables(a);
    begin_line(a, VARIABLES, good, "variables");
    put_table_variables(a);
    if (good)
        printf(", as %sin the clause%s", compares_names(a) ? "" : "many as ",
               a->table->width > a->given->named ? ", each _ counted" : "");
    else if (a->table->width != 0) {
        fputs("; but the clause has ", stdout);
        put_clause(a);
        fputs(": a table cut for another clause", stdout);
    }
    putchar('\n');
}

/* Line 2: the table reads. */
static void audit_reading(audited *a) {
    bool good = a->table->code == SHARING_ACCEPTED;
    begin_line(a, READING, good, "reading");
    if (good)
        put_kind(a->table);
    else
        put_refused(a->table);
    putchar('\n');
}

/* A line that cannot be asked of this table. */
static void not_asked(audited *a, int number, const char *subject) {
    begin_line(a, number, false, subject);
    printf("not asked, since %s\n", a->bad[READING] ? "the table does not read (line 2)"
                                                    : "the table is of another clause (line 1)");
}

/* ---- 3: the groups */

/* The first group of the recomputed table, of every variable, that has these and no others of the
 * audited table's variables: what a _ is in is not known from there, and the reason needs it. */
static uint32_t whole_group(const audited *a, uint32_t group) {
    uint32_t asked = sharing_variables(sharing_word_at(a->due.form, 0));
    const sharing_entry wanted = {asked, group};
    uint8_t one[SHARING_MAX_FORM], found[SHARING_MAX_FORM];
    group_list first;
    uint32_t code =
        sharing_make_form(sharing_word_at(a->all.form, 0), &wanted, 1, one, sizeof one);
    if (code == SHARING_ACCEPTED)
        code = sharing_intersect(a->all.form, a->all.len, one,
                                 sharing_front_length(one, sizeof one), found, sizeof found);
    if (!accepted(a->given, code))
        return group;
    list_groups(found, 1, &first);
    return first.count > 0 ? first.group[0] : group;
}

/* How many groups differ in one way. */
static void put_number(const difference *d) {
    printf("%s%llu", d->whole ? "" : "at least ", (unsigned long long)d->count);
}

/* The groups that differ in one way, the missing ones with the reason why they belong there. */
static void put_difference(const audited *a, const difference *d, const char *way, bool reasons) {
    for (size_t i = 0; i < d->first.count; i++) {
        printf("%s%s: ", inner, way);
        put_variables(stdout, a->given, d->first.group[i]);
        putchar('\n');
        if (reasons)
            put_reason(&a->all, whole_group(a, d->first.group[i]), deeper);
    }
    if (d->count > d->first.count)
        printf("%sand %s%llu more %s\n", inner, d->whole ? "" : "at least ",
               (unsigned long long)(d->count - d->first.count), way);
}

/* Where no group differs: how many there are, and whether the entries do. */
static void put_same(const audited *a) {
    uint64_t count = count_groups(a->due.form);
    bool entries = a->held.len == a->due.len && memcmp(a->held.form, a->due.form, a->due.len) == 0;
    if (count == 0)
        puts("none, as the clause gives none");
    else
        printf("the %llu that the clause gives, in %s\n", (unsigned long long)count,
               entries ? "the same entries" : "other entries, which is no fault");
}

/* Line 3: the groups of the table against those that the clause gives. */
static bool audit_groups(audited *a) {
    uint32_t same = 0;
    uint32_t code = sharing_equal(a->held.form, a->held.len, a->due.form, a->due.len, &same);
    if (!accepted(a->given, code))
        return false;
    begin_line(a, GROUPS, same != 0, "groups");
    if (same != 0) {
        put_same(a);
        return true;
    }
    find_difference(&a->due, &a->held, MOST_TOLD, &a->missing);
    find_difference(&a->held, &a->due, MOST_TOLD, &a->surplus);
    put_number(&a->missing);
    fputs(" missing, ", stdout);
    put_number(&a->surplus);
    fputs(" too many\n", stdout);
    put_difference(a, &a->missing, "missing", true);
    put_difference(a, &a->surplus, "too many", false);
    return true;
}

/* ---- 4: the ground variables */

/* The first point at which each variable is ground; one more than the last where it is at none. */
static bool first_ground(const audited *a, size_t first[SHARING_MAX_VARIABLES]) {
    for (size_t i = 0; i < a->given->named; i++)
        first[i] = a->all.after + 1;
    for (size_t after = a->all.after + 1; after-- > 0;) {
        point at;
        uint32_t ground;
        if (!reach(a->given, after, &at))
            return false;
        ground = ground_at(&at);
        for (size_t i = 0; i < a->given->named; i++)
            first[i] = (ground >> i & 1) != 0 ? after : first[i];
    }
    return true;
}

/* Did an equation make a variable ground, which is so from a point on? */
static bool is_made(const audited *a, size_t first) { return first > 0 && first <= a->all.after; }

/* What made a variable ground. */
static void put_made(const audited *a, size_t variable, size_t first) {
    const rules *given = a->given;
    bool made = is_made(a, first);
    printf("%s%s ", inner, made ? "ok " : "BAD");
    put_piece(stdout, variable_name(given, variable));
    fputs(": ", stdout);
    if (made) {
        put_equation("after equation", given, first - 1);
        if (fails(given, first - 1)) {
            fputs(", which ", stdout);
            put_failure(stdout, given, first - 1);
        }
    } else
        fputs("no equation made it so", stdout);
    if (first == 0) {
        fputs("; it is in no group at the start. If it is known there, say so: free ", stdout);
        put_piece(stdout, variable_name(given, variable));
        fputs(", and the equation ", stdout);
        put_piece(stdout, variable_name(given, variable));
        fputs(" = known", stdout);
    }
    putchar('\n');
}

/* Line 4: what made each variable ground that the table calls so. */
static bool audit_ground(audited *a) {
    size_t first[SHARING_MAX_VARIABLES];
    uint32_t ground = ground_at(&a->held);
    if (!first_ground(a, first))
        return false;
    for (size_t i = 0; i < a->given->named; i++)
        a->unmade |= (ground >> i & 1) != 0 && !is_made(a, first[i]) ? 1u << i : 0;
    begin_line(a, GROUND, a->unmade == 0, "ground");
    if (ground == 0)
        fputs("no variable", stdout);
    put_variables(stdout, a->given, ground);
    putchar('\n');
    for (size_t i = 0; i < a->given->named; i++)
        if ((ground >> i & 1) != 0)
            put_made(a, i, first[i]);
    return true;
}

/* ---- 5: the other side */

/* Line 5: the table turned into its negative and back. */
static bool audit_other_side(audited *a) {
    uint8_t other[SHARING_MAX_FORM], back[SHARING_MAX_FORM];
    uint32_t same = 0;
    uint32_t code = sharing_change_side(SHARING_POSITIVE, a->held.form, a->held.len, other,
                                        sizeof other);
    if (code == SHARING_ACCEPTED)
        code = sharing_change_side(SHARING_NEGATIVE, other,
                                   sharing_front_length(other, sizeof other), back, sizeof back);
    if (code == SHARING_FULL) {
        begin_line(a, OTHER_SIDE, true, "other side");
        printf("full, it needs more than %d entries, which is no fault\n", SHARING_MAX_ENTRIES);
        return true;
    }
    if (code == SHARING_ACCEPTED)
        code = sharing_equal(back, sharing_front_length(back, sizeof back), a->held.form,
                             a->held.len, &same);
    if (!accepted(a->given, code))
        return false;
    begin_line(a, OTHER_SIDE, same != 0, "other side");
    fputs("as a negative table, of ", stdout);
    put_count(sharing_word_at(other, 1), "entry", "entries");
    printf(", and back it has %s groups\n", same != 0 ? "the same" : "other");
    return true;
}

/* ---- 6: the goals */

/* May two goals run side by side by a table? */
static bool side_by_side(const point *at, const goal goals[2]) {
    uint32_t yes = 0;
    uint32_t code =
        sharing_independent(SHARING_POSITIVE, at->form, at->len, goals[0].set, goals[1].set, &yes);
    return accepted(at->given, code) && yes != 0;
}

/* What is said of a pair, by what the audited table and the recomputed one allow. */
static const char *pair_words(const audited *a, bool held, bool due) {
    if (a->table == NULL)
        return held ? "may run side by side" : "may not run side by side";
    if (held == due)
        return held ? "may run side by side by both tables"
                    : "may not run side by side by either table";
    return held ? "may run side by side by the shipped table, but may not by the recomputed one"
                : "may not run side by side by the shipped table, though they may by the other";
}

/* One pair of goals. Where the file names none, pairs of variables are many, and only those are
 * told in which the tables differ. Without `tell` wrong pairs are only counted. */
static void audit_pair(audited *a, const goal goals[2], bool tell, size_t *allowed) {
    bool held = side_by_side(&a->held, goals), due = side_by_side(&a->due, goals);
    *allowed += held;
    if (!tell) {
        a->wrong_pairs += held && !due;
        return;
    }
    if (a->given->goals == 0 && held == due)
        return;
    printf("%s%s ", inner, held && !due ? "BAD" : "ok ");
    put_piece(stdout, goals[0].name);
    fputs(" and ", stdout);
    put_piece(stdout, goals[1].name);
    printf(": %s\n", pair_words(a, held, due));
}

/* All pairs of goals; gives how many may run side by side by the audited table. */
static size_t audit_pairs(audited *a, bool tell) {
    size_t allowed = 0, count = goals_of(a->given);
    for (size_t i = 0; i < count; i++)
        for (size_t j = i + 1; j < count; j++) {
            const goal goals[2] = {goal_of(a->given, i), goal_of(a->given, j)};
            audit_pair(a, goals, tell, &allowed);
        }
    return allowed;
}

/* Line 6: which goals may run side by side, by the table and by what the clause gives. */
static void audit_goals(audited *a) {
    size_t count = goals_of(a->given), allowed = audit_pairs(a, false);
    begin_line(a, GOALS, a->wrong_pairs == 0, "goals");
    if (a->given->goals == 0)
        fputs("none is named, so that each variable is one; ", stdout);
    put_count(count * (count - 1) / 2, "pair", "pairs");
    printf(", of which %zu may run side by side by the %s table\n", allowed,
           a->table != NULL ? "shipped" : "recomputed");
    audit_pairs(a, true);
}

/* ---- What to do */

/* Begins a reason why not to ship it, behind those before it. */
static bool because(const audited *a, int number, bool *first) {
    if (!a->bad[number])
        return false;
    fputs(*first ? "" : "; ", stdout);
    *first = false;
    return true;
}

/* How many groups it lacks, and has too many. */
static void put_group_faults(const audited *a) {
    const difference *missing = &a->missing, *surplus = &a->surplus;
    if (missing->count > 0) {
        fputs("it lacks ", stdout);
        put_number(missing);
        fputs(missing->count == 1 ? " group" : " groups", stdout);
    }
    fputs(missing->count > 0 && surplus->count > 0 ? " and " : "", stdout);
    if (surplus->count > 0) {
        fputs(missing->count > 0 ? "has " : "it has ", stdout);
        put_number(surplus);
        fputs(surplus->count == 1 ? " group too many" : " groups too many", stdout);
    }
    fputs(" (line 3)", stdout);
}

/* Why not to ship it: what each BAD line found. */
static void put_faults(const audited *a) {
    bool first = true, asked = !a->bad[VARIABLES] && !a->bad[READING];
    if (because(a, READING, &first))
        fputs("it does not read (line 2)", stdout);
    if (!a->bad[READING] && because(a, VARIABLES, &first))
        fputs("it is a table of another clause (line 1)", stdout);
    if (!asked)
        return;
    if (because(a, GROUPS, &first))
        put_group_faults(a);
    if (because(a, GROUND, &first)) {
        fputs("nothing makes ", stdout);
        put_variables(stdout, a->given, a->unmade);
        fputs(" ground (line 4)", stdout);
    }
    if (because(a, OTHER_SIDE, &first))
        fputs("its other side has other groups (line 5)", stdout);
    if (because(a, GOALS, &first)) {
        put_count(a->wrong_pairs, "pair of goals", "pairs of goals");
        fputs(" would run side by side that may not (line 6)", stdout);
    }
}

/* What helps, behind the faults. */
static void put_help(const audited *a) {
    puts(a->table == NULL || a->given->absent != 0
             ? "Correct the clause first."
             : "Write it anew: --write OUT, without TABLE.");
}

/* The last line: ship it, or not, and why. */
static int put_verdict(const audited *a, const audit_wish *wish) {
    for (int number = VARIABLES; number < LINES; number++)
        if (a->bad[number]) {
            fputs("Do not ship it: ", stdout);
            put_faults(a);
            fputs(". ", stdout);
            put_help(a);
            return STATUS_NO;
        }
    if (a->table != NULL)
        puts("Ship it: it has exactly the groups that the clause gives.");
    else if (wish->write == NULL)
        puts("Ship it: --write OUT writes the table that the clause gives.");
    else if (write_shipped(wish->write, &a->due, wish->written))
        printf("Ship it: the table that the clause gives is in %s.\n", wish->write);
    else {
        printf("Do not ship it: %s could not be written.\n", wish->write);
        return STATUS_WRONG;
    }
    return STATUS_YES;
}

/* ---- All of it */

/* The table that is audited, and the recomputed one of its variables. A projection of entries has
 * no more of them, so that it is never full. */
static bool take_tables(audited *a) {
    size_t width = a->table != NULL ? a->table->width : a->given->named;
    uint32_t keep = sharing_variables((uint32_t)width);
    uint32_t code = sharing_project(SHARING_POSITIVE, a->all.form, a->all.len, keep, a->due.form,
                                    sizeof a->due.form);
    if (!accepted(a->given, code))
        return false;
    a->due.given = a->given;
    a->due.after = a->all.after;
    a->due.len = sharing_front_length(a->due.form, sizeof a->due.form);
    a->held = a->due;
    if (a->table != NULL) {
        memcpy(a->held.form, a->table->form, sizeof a->held.form);
        a->held.len = sharing_front_length(a->held.form, sizeof a->held.form);
    }
    return true;
}

/* Lines 3 to 6, or 4 to 6 where the recomputed table itself is audited. */
static bool audit_tables(audited *a) {
    if (a->bad[VARIABLES] || a->bad[READING]) {
        not_asked(a, GROUPS, "groups");
        not_asked(a, GROUND, "ground");
        not_asked(a, OTHER_SIDE, "other side");
        not_asked(a, GOALS, "goals");
        return true;
    }
    if (!take_tables(a) || (a->table != NULL && !audit_groups(a)) || !audit_ground(a) ||
        !audit_other_side(a))
        return false;
    audit_goals(a);
    return true;
}

/* Without the clause's table, because an equation is full, there is nothing to compare with. */
static int no_table(const rules *given) {
    if (given->full > 0) {
        put_equation("Do not ship it: equation", given, given->full - 1);
        puts(", is full, so that the clause gives no table.");
    }
    return STATUS_WRONG;
}

/* The lines of the audit, and the last one. */
static int audit_all(audited *a, size_t after, const audit_wish *wish) {
    if (!reach(a->given, after, &a->all))
        return no_table(a->given);
    put_heading("Audit", &a->all);
    putchar('\n');
    if (a->table != NULL) {
        audit_variables(a);
        audit_reading(a);
    }
    return audit_tables(a) ? put_verdict(a, wish) : STATUS_WRONG;
}

/* Audits a table that is to be shipped, or the one that the clause gives. */
int audit(const rules *given, size_t after, const audit_wish *wish) {
    audited a;
    shipped table;
    int status;
    if (wish->table != NULL && !open_shipped(wish->table, wish->packed, &table))
        return STATUS_WRONG;
    memset(&a, 0, sizeof a);
    a.given = given;
    a.table = wish->table != NULL ? &table : NULL;
    status = audit_all(&a, after, wish);
    if (wish->table != NULL)
        close_shipped(&table);
    return finish(status);
}

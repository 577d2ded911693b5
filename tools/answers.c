/* What the library answers of a readable file, in words. Nothing of it is worked out here. */
#include "answers.h"

#include <string.h>

/* The reader lets nothing by that the library refuses. Should it do so, no answer is given. */
bool accepted(const rules *given, uint32_t code) {
    if (code == SHARING_ACCEPTED)
        return true;
    fprintf(stderr, "%s: refused %u\n", given->from.name, (unsigned)code);
    explain_number(stderr, code);
    return false;
}

/* ---- Variables */

/* Is the variable known at this point: does no group have it? */
static bool is_ground(const point *at, uint32_t variable) {
    uint32_t answer = 0;
    uint32_t code = sharing_ground(SHARING_POSITIVE, at->form, at->len, variable, &answer);
    return accepted(at->given, code) && answer != 0;
}

/* Writes the names of the variables of a set, with a comma between two. */
void put_variables(FILE *to, const rules *given, uint32_t set) {
    bool first = true;
    for (size_t i = 0; i < given->width; i++) {
        if ((set >> i & 1) == 0)
            continue;
        fputs(first ? "" : ", ", to);
        put_piece(to, variable_name(given, i));
        first = false;
    }
}

/* Of which variables does no group of this point have any? Those of the line vars are asked for. */
uint32_t ground_at(const point *at) {
    uint32_t set = 0;
    for (uint32_t i = 0; i < at->given->named; i++)
        set |= (uint32_t)is_ground(at, i + 1) << i;
    return set;
}

/* ---- Points */

/* Says where a point is. */
static void put_point(FILE *to, const rules *given, size_t after) {
    if (after == 0) {
        fputs("before the first equation", to);
        return;
    }
    fprintf(to, "after equation %zu, ", after);
    put_piece(to, given->equation[after - 1].text);
}

/* Says which variables are in no group at the start: every answer may depend on that. */
static void put_absent(FILE *to, const rules *given) {
    bool one = (given->absent & (given->absent - 1)) == 0;
    put_variables(to, given, given->absent);
    fputs(one ? " is in no group at the start: it counts as known"
              : " are in no group at the start: they count as known", to);
}

/* Says which equation failed before a point: every answer there rests on that. */
static void put_failed(FILE *to, const rules *given) {
    fprintf(to, "equation %zu ", given->failed);
    put_failure(to, given, given->failed - 1);
    fputs(": no bindings go on from it", to);
}

/* In brackets what an answer at a point rests on, after what is said first of all, or NULL. */
static void put_notes(const point *at, const char *first) {
    const rules *given = at->given;
    bool failed = given->failed != 0 && given->failed <= at->after;
    const char *before = " (";
    if (first != NULL) {
        printf("%s%s", before, first);
        before = "; ";
    }
    if (failed) {
        fputs(before, stdout);
        put_failed(stdout, given);
        before = "; ";
    }
    if (given->absent != 0) {
        fputs(before, stdout);
        put_absent(stdout, given);
    }
    if (first != NULL || failed || given->absent != 0)
        putchar(')');
}

/* The heading of what is known at a point. */
void put_heading(const char *what, const point *at) {
    printf("%s ", what);
    put_point(stdout, at->given, at->after);
    put_notes(at, NULL);
    putchar(':');
}

/* How many entries the table of a point has. */
size_t entries_of(const point *at) { return sharing_word_at(at->form, 1); }

/* An entry as a string. */
void put_string(FILE *to, size_t width, sharing_entry entry) {
    char text[SHARING_MAX_VARIABLES + 1] = "";
    if (sharing_entry_text((uint32_t)width, entry, text, sizeof text) == SHARING_ACCEPTED)
        fputs(text, to);
}

/* The same, and the variables that it has and may have. */
void put_entry(FILE *to, const rules *given, sharing_entry entry) {
    uint32_t either = ~entry.care & sharing_variables((uint32_t)given->width);
    fputs("    ", to);
    put_string(to, given->width, entry);
    /* A single * without a 1 is a 1: a group is never empty. */
    fputs(entry.value == 0 && (either & (either - 1)) != 0 ? "  any of " : "  ", to);
    put_variables(to, given, entry.value);
    fputs(entry.value != 0 && either != 0 ? ", perhaps with " : "", to);
    put_variables(to, given, either);
    fputc('\n', to);
}

/* The table of a point, an entry a line, and the variables that are known there. */
static void put_table(FILE *to, const point *at) {
    size_t entries = entries_of(at);
    uint32_t ground = ground_at(at);
    for (size_t i = 0; i < entries; i++)
        put_entry(to, at->given, sharing_entry_in(at->form, i));
    if (entries == 0)
        fputs("    no entry\n", to);
    if (ground != 0) {
        fputs("    known: ", to);
        put_variables(to, at->given, ground);
        fputc('\n', to);
    }
}

/* Says that an equation is full, what was known before it, and what is safe after it. */
static void tell_full(const point *before) {
    const rules *given = before->given;
    const equation *full = &given->equation[before->after];
    tell(&full->where, full->text,
         "Equation %zu is full: it needs a table of more than %d entries.", before->after + 1,
         SHARING_MAX_ENTRIES);
    fputs("    No answer can be given for a point after it. What is safe to go on with there is\n"
          "    the all-star table, where every variable may share with every other: ", stderr);
    for (size_t i = 0; i < given->width; i++)
        fputc('*', stderr);
    fprintf(stderr, "\n    Before it answers are given (--after %zu), from what was known ",
            before->after);
    put_point(stderr, given, before->after);
    fputs(":\n", stderr);
    put_table(stderr, before);
}

/* Runs the first equations, `after` in number. */
static sharing_running run_equations(const rules *given, size_t after) {
    uint8_t table[SHARING_MAX_FORM], equations[MOST_EQUATIONS_FORM];
    size_t table_len = write_table(given, table);
    size_t equations_len = given->compound ? write_term_equations(given, after, equations)
                                           : write_equations(given, after, equations);
    return given->compound
               ? sharing_unify_run(SHARING_POSITIVE, table, table_len, equations, equations_len)
               : sharing_run(SHARING_POSITIVE, table, table_len, equations, equations_len);
}

/* The point after the first equations, `after` in number. A full one, or a refusal, is said. */
bool reach(const rules *given, size_t after, point *out) {
    sharing_running state = run_equations(given, after);
    if (state.code != SHARING_FULL && !accepted(given, state.code))
        return false;
    out->given = given;
    out->after = state.applied;
    out->len = sharing_form_length(state.table.l, state.table.n);
    if (!accepted(given, sharing_write(&state, out->form, sizeof out->form)))
        return false;
    if (state.code == SHARING_FULL)
        tell_full(out);
    return state.code == SHARING_ACCEPTED;
}

/* Reads a file, and says which of its variables are in no group. NULL where it is wrong. */
rules *open_rules(const char *path) {
    rules *given = read_rules(path);
    point start;
    if (given == NULL)
        return NULL;
    if (!reach(given, 0, &start)) {
        free_rules(given);
        return NULL;
    }
    given->absent = ground_at(&start);
    for (size_t i = 0; i < given->named; i++) {
        if ((given->absent >> i & 1) == 0)
            continue;
        fprintf(stderr, "%s: ", given->from.name);
        put_piece(stderr, given->variable[i]);
        fputs(" is in no group: it counts as known\n", stderr);
    }
    for (size_t i = given->equations; i-- > 0;)
        given->failed = fails(given, i) ? i + 1 : given->failed;
    sharing_running all = run_equations(given, given->equations);
    given->full = all.code == SHARING_FULL ? all.applied + 1 : 0;
    return given;
}

/* ---- Goals */

/* Asks of a point whether goals may run side by side, and writes the answer's line. */
int answer(const point *at, const goal goals[2]) {
    const rules *given = at->given;
    uint32_t yes = 0;
    uint32_t code =
        sharing_independent(SHARING_POSITIVE, at->form, at->len, goals[0].set, goals[1].set, &yes);
    if (!accepted(given, code))
        return STATUS_WRONG;
    put_piece(stdout, goals[0].name);
    fputs(" and ", stdout);
    put_piece(stdout, goals[1].name);
    printf(": %s side by side ", yes ? "may run" : "may not run");
    put_point(stdout, given, at->after);
    put_notes(at, yes ? NULL : "they may share a variable");
    putchar('\n');
    return yes ? STATUS_YES : STATUS_NO;
}

/* In a goal there are blanks, but no comments. */
static void skip_blanks(cursor *c) {
    while (is_blank(peek(c)))
        c->at++;
}

/* One variable of a goal, as the library takes it: bit i - 1 is for Xi. */
static bool read_goal_variable(const rules *given, const place *where, cursor *c, uint32_t *set) {
    const char *more = ", with commas between them, or - for no variable";
    uint32_t number = 0;
    piece name;
    skip_blanks(c);
    name = piece_here(*c);
    if (!starts_variable(peek(c)))
        tell_cannot(where, name);
    else if (!find_variable(given, name, &number))
        tell_unknown(given, where, name);
    else {
        take_name(c);
        skip_blanks(c);
        *set |= 1u << (number - 1);
        return true;
    }
    expected_variables(given, more);
    return false;
}

/* A goal that the file names. */
static bool read_named_goal(const rules *given, const place *where, goal *out) {
    if (find_goal(given, where->text, out))
        return true;
    tell_piece(where, where->text, " is not one of the goals of %s.", given->from.name);
    expected_goals(given);
    return false;
}

/* A goal: its name in the file, variables with commas between them, or - for none. `which` names it
 * in a message. A goal's name begins with a small letter, and a variable's does not. */
static bool read_goal(const rules *given, const char *which, const char *text, goal *out) {
    place where = {which, 0, from_text(text)};
    cursor c = {where.text.at, where.text.at + where.text.len};
    bool none = strcmp(text, "-") == 0;
    out->name = none ? from_text("no variable") : where.text;
    out->set = 0;
    if (none)
        return true;
    if (given->goals > 0 && is_small(peek(&c)))
        return read_named_goal(given, &where, out);
    do {
        if (!read_goal_variable(given, &where, &c, &out->set))
            return false;
    } while (take(&c, ','));
    if (peek(&c) == END)
        return true;
    tell_cannot(&where, piece_here(c));
    expected("a comma and a further variable, or the end of the goal");
    return false;
}

/* The two goals of the command line. */
bool read_goals(const rules *given, char *const texts[2], goal out[2]) {
    return read_goal(given, "sharetext: goal 1", texts[0], &out[0]) &&
           read_goal(given, "sharetext: goal 2", texts[1], &out[1]);
}

/* May two goals run side by side at a point? */
int apart(const rules *given, char *const texts[2], size_t after) {
    goal goals[2];
    point at;
    if (!read_goals(given, texts, goals) || !reach(given, after, &at))
        return STATUS_WRONG;
    return finish(answer(&at, goals));
}

/* How many goals a file has: where it names none, each variable of the line vars is one. */
size_t goals_of(const rules *given) { return given->goals > 0 ? given->goals : given->named; }

/* Goal i of a file, from 0. */
goal goal_of(const rules *given, size_t i) {
    goal variable;
    if (given->goals > 0)
        return given->goal[i];
    variable.name = given->variable[i];
    variable.set = 1u << i;
    return variable;
}

/* The same question for each pair of the goals of a file. */
int pairs(const rules *given, size_t after) {
    point at;
    if (!reach(given, after, &at))
        return STATUS_WRONG;
    if (goals_of(given) == 1)
        fprintf(stderr, "%s: There is one %s, and so no pair.\n", given->from.name,
                given->goals > 0 ? "goal" : "variable");
    for (size_t i = 0; i < goals_of(given); i++)
        for (size_t j = i + 1; j < goals_of(given); j++) {
            const goal goals[2] = {goal_of(given, i), goal_of(given, j)};
            if (answer(&at, goals) == STATUS_WRONG)
                return STATUS_WRONG;
        }
    return finish(STATUS_YES);
}

/* The table before the first equation and after each one. */
int tables(const rules *given) {
    for (size_t after = 0; after <= given->equations; after++) {
        point at;
        if (!reach(given, after, &at))
            return finish(STATUS_WRONG);
        put_heading("Table", &at);
        putchar('\n');
        put_table(stdout, &at);
    }
    return finish(STATUS_YES);
}

/* What the walk of the two sides of an equation comes to, in words: the equations that it finds, or
 * a clash. The library walks and applies them; here they are only told. */
#include "answers.h"

/* ---- Terms as text */

/* Is an atom with so many arguments one that needs no quotes? */
static bool is_plain(piece atom, uint32_t arity) {
    for (size_t i = 0; i < atom.len; i++)
        if (!is_in_name(atom.at[i]))
            return arity == 0 && same_piece(atom, from_text("[]"));
    return atom.len > 0 && is_small(atom.at[0]);
}

/* The symbol of a head. */
static const symbol *symbol_of(const rules *given, uint32_t head) {
    return &given->symbol[((head - HEAD) >> ARITY_BITS) - 1];
}

/* The same as a file has it; in quotes a quote stands twice, and so does a backslash. */
static void put_symbol(FILE *to, const rules *given, uint32_t head) {
    const symbol *s = symbol_of(given, head);
    if (s->number || is_plain(s->text, head & MOST_ARITY)) {
        put_piece(to, s->text);
        return;
    }
    fputc('\'', to);
    for (size_t i = 0; i < s->text.len; i++) {
        if (s->text.at[i] == '\'' || s->text.at[i] == '\\')
            fputc(s->text.at[i], to);
        fputc(s->text.at[i], to);
    }
    fputc('\'', to);
}

/* Is a token the head of an atom, with so many arguments? */
static bool is_atom(const rules *given, uint32_t token, const char *atom, uint32_t arity) {
    return token >= HEAD && (token & MOST_ARITY) == arity && !symbol_of(given, token)->number &&
           same_piece(symbol_of(given, token)->text, from_text(atom));
}

static const uint8_t *put_term(FILE *to, const rules *given, const uint8_t *at);

/* A list, after its first cell: its elements and, unless that is [], what it ends with. */
static const uint8_t *put_list(FILE *to, const rules *given, const uint8_t *at) {
    fputc('[', to);
    at = put_term(to, given, at);
    while (is_atom(given, sharing_word_at(at, 0), ".", 2)) {
        fputs(", ", to);
        at = put_term(to, given, at + 2);
    }
    if (is_atom(given, sharing_word_at(at, 0), "[]", 0))
        at += 2;
    else {
        fputs(" | ", to);
        at = put_term(to, given, at);
    }
    fputc(']', to);
    return at;
}

/* The term that begins here, as a file has it. Gives the place after it. */
static const uint8_t *put_term(FILE *to, const rules *given, const uint8_t *at) {
    uint32_t token = sharing_word_at(at, 0), arity = token & MOST_ARITY;
    at += 2;
    if (token < HEAD) {
        put_piece(to, variable_name(given, token - 1));
        return at;
    }
    if (is_atom(given, token, ".", 2))
        return put_list(to, given, at);
    put_symbol(to, given, token);
    for (uint32_t i = 0; i < arity; i++) {
        fputs(i == 0 ? "(" : ", ", to);
        at = put_term(to, given, at);
    }
    if (arity > 0)
        fputc(')', to);
    return at;
}

/* A head as it is told, with its arity: f/2. A number is told as it is. */
static void put_head(FILE *to, const rules *given, uint32_t head) {
    put_symbol(to, given, head);
    if (!symbol_of(given, head)->number)
        fprintf(to, "/%u", (unsigned)(head & MOST_ARITY));
}

/* ---- Walks */

/* The walk of an equation before its first step. */
void begin_walk(const rules *given, size_t i, two_sides *out) {
    const equation *e = &given->equation[i];
    write_tokens(given, e->first, e->left + e->right, out->bytes);
    out->walk.left = out->bytes;
    out->walk.left_len = 2 * e->left;
    out->walk.right = out->bytes + 2 * e->left;
    out->walk.right_len = 2 * e->right;
}

/* What an equation comes to by its terms alone. It fails by a clash or, without one, where an
 * equation that is found has its variable deeper in its term. */
typedef enum { MAY_HOLD, CLASHES, NO_SOLUTION } outcome;

/* The outcome of an equation; the walk stands at the clash, or `found` has no finite solution. */
static outcome outcome_of(const rules *given, size_t i, two_sides *both, sharing_found *found) {
    uint32_t met;
    begin_walk(given, i, both);
    while ((met = sharing_walk_next(&both->walk, found)) == SHARING_WALK_EQUATION) {
    }
    if (met == SHARING_WALK_CLASH)
        return CLASHES;
    begin_walk(given, i, both);
    while (sharing_walk_next(&both->walk, found) == SHARING_WALK_EQUATION)
        if (sharing_occurs(found->variable, found->term, found->term_len) == SHARING_OCCURS_DEEPER)
            return NO_SOLUTION;
    return MAY_HOLD;
}

/* Does an equation fail by its terms, whatever the bindings are? */
bool fails(const rules *given, size_t i) {
    two_sides both;
    sharing_found found;
    return outcome_of(given, i, &both, &found) != MAY_HOLD;
}

/* The two heads that a walk stands at, which differ. */
static void put_heads(FILE *to, const rules *given, const sharing_walk *walk) {
    put_head(to, given, sharing_word_at(walk->left, 0));
    fputs(" against ", to);
    put_head(to, given, sharing_word_at(walk->right, 0));
}

/* The variable of an equation that was found. */
static void put_left(FILE *to, const rules *given, const sharing_found *found) {
    put_piece(to, variable_name(given, found->variable - 1));
}

/* Why an equation fails. */
void put_failure(FILE *to, const rules *given, size_t i) {
    two_sides both;
    sharing_found found;
    if (outcome_of(given, i, &both, &found) == CLASHES) {
        fputs("clashes, ", to);
        put_heads(to, given, &both.walk);
    } else {
        fputs("has no finite solution for ", to);
        put_left(to, given, &found);
    }
}

/* What follows from a failure for the points after it. Where an equation that is found before it is
 * full, there is no table after it to speak of. */
static const char *empty_after(const rules *given, size_t i) {
    return given->full == i + 1 ? "" : " No bindings go on from it: the table is empty after it.";
}

/* Says that an equation fails, at its place in the file. */
static void tell_failure(const rules *given, size_t i) {
    const equation *e = &given->equation[i];
    two_sides both;
    sharing_found found;
    outcome came = outcome_of(given, i, &both, &found);
    tell_place(&e->where, e->text);
    fprintf(stderr, "Equation %zu ", i + 1);
    if (came == CLASHES) {
        fputs("clashes: ", stderr);
        put_heads(stderr, given, &both.walk);
    } else {
        fputs("has no finite solution: ", stderr);
        put_left(stderr, given, &found);
        fputs(" stands inside its own term", stderr);
    }
    fputc('.', stderr);
    show_line(&e->where, e->text);
    fprintf(stderr, "   %s%s\n", came == NO_SOLUTION ? " A clause with it never succeeds." : "",
            empty_after(given, i));
}

/* Says which of the first equations, `count` in number, fail. */
void tell_failures(const rules *given, size_t count) {
    for (size_t i = 0; i < count; i++)
        if (fails(given, i))
            tell_failure(given, i);
}

/* ---- Each equation of a file */

/* An equation of the file, with its place, after the words that lead to it. */
void put_equation(const char *words, const rules *given, size_t i) {
    printf("%s %zu in line %lu, ", words, i + 1, given->equation[i].where.line);
    put_piece(stdout, given->equation[i].text);
}

/* An equation that was found. */
void put_equals(const rules *given, const sharing_found *found) {
    put_left(stdout, given, found);
    fputs(" = ", stdout);
    put_term(stdout, given, found->term);
}

/* The same in a line, and what there is to say where its variable is in its own term: has it no
 * finite solution? */
static bool put_found(const rules *given, size_t i, const sharing_found *found) {
    uint32_t occurs = sharing_occurs(found->variable, found->term, found->term_len);
    fputs("    ", stdout);
    put_equals(given, found);
    if (occurs == SHARING_OCCURS_ALONE)
        fputs(", which says nothing: the table stays as it is", stdout);
    if (occurs == SHARING_OCCURS_DEEPER)
        printf(", which no finite term solves: a clause with it never succeeds.%s",
               empty_after(given, i));
    putchar('\n');
    return occurs == SHARING_OCCURS_DEEPER;
}

/* What the walk of an equation finds, an equation a line, up to one that has no finite solution:
 * nothing after that is reached. Does the equation fail? */
static bool put_walk(const rules *given, size_t i) {
    two_sides both;
    sharing_found found;
    bool nothing = true, failed = false;
    if (outcome_of(given, i, &both, &found) == CLASHES) {
        fputs("    clash: ", stdout);
        put_heads(stdout, given, &both.walk);
        printf(".%s\n", empty_after(given, i));
        return true;
    }
    begin_walk(given, i, &both);
    while (!failed && sharing_walk_next(&both.walk, &found) == SHARING_WALK_EQUATION) {
        failed = put_found(given, i, &found);
        nothing = false;
    }
    if (nothing)
        puts("    nothing: the two sides are the same, and the table stays as it is");
    return failed;
}

/* One more equation of a running analysis. */
static uint32_t apply(const rules *given, size_t i, sharing_running *state) {
    two_sides both;
    const sharing_walk *w = &both.walk;
    sides kind = equation_sides(given, i);
    begin_walk(given, i, &both);
    if (kind == LEFT_VARIABLE)
        return sharing_step(state, sharing_word_at(w->left, 0), w->right, w->right_len);
    if (kind == RIGHT_VARIABLE)
        return sharing_step(state, sharing_word_at(w->right, 0), w->left, w->left_len);
    return sharing_unify_step(state, w->left, w->left_len, w->right, w->right_len);
}

/* Says of each equation of a file what comes of it, up to one that is full. */
int explain_file(const rules *given) {
    uint8_t table[SHARING_MAX_FORM];
    size_t table_len = write_table(given, table);
    sharing_running state = sharing_start(SHARING_POSITIVE, table, table_len);
    bool failed = false;
    uint32_t code = state.code;
    for (size_t i = 0; i < given->equations && code == SHARING_ACCEPTED; i++) {
        put_equation("Equation", given, i);
        puts(":");
        failed = put_walk(given, i) || failed;
        code = apply(given, i, &state);
        if (code == SHARING_FULL)
            puts("    full: this needs a table of more than 256 entries, and nothing after it is "
                 "applied");
    }
    if (code != SHARING_FULL && !accepted(given, code))
        return STATUS_WRONG;
    return finish(failed || code == SHARING_FULL ? STATUS_NO : STATUS_YES);
}

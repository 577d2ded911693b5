/*
 * Records: equations with compound terms on both sides. A rule matches records of the register with
 * those that it looks for; the library takes each equation as it is written.
 *
 *     find(Child, Father, Groom, Day) :-
 *         baptism(Child, son(Father)) = baptism(ann, Groom),
 *         book(ashby, 1841) = book(ashby, 1841),
 *         Day = may,
 *         wedding(Groom, on(Day)) = wedding(Groom, in(may, 1841)),
 *         date_wedding(Day).
 *
 * The program applies them one by one in a running analysis, and then all of them in one run.
 *
 *     cc records.c $(pkg-config --cflags --libs sharing) -o records
 */
#include <sharing_util.h>

#include <stdio.h>
#include <stdlib.h>

enum { CHILD = 1, FATHER, GROOM, DAY, VARIABLES = DAY };

/* Symbols by number, and heads: a symbol with an arity. */
enum { ANN = 1, ASHBY, BAPTISM, BOOK, IN, MAY, ON, SON, WEDDING, YEAR_1841 };
#define HEAD(symbol, arity) (0x8000u | (uint32_t)(symbol) << 4 | (arity))

/* A term is a row of tokens, and a variable alone is one too. */
enum { MAX_TOKENS = 5, MAX_BYTES = 2 * MAX_TOKENS };
typedef struct { size_t n; uint32_t tokens[MAX_TOKENS]; } term;
typedef struct { const char *text; term left, right; } equation;

static const equation rule[] = {
    {"baptism(Child, son(Father)) = baptism(ann, Groom)",
     {4, {HEAD(BAPTISM, 2), CHILD, HEAD(SON, 1), FATHER}},
     {3, {HEAD(BAPTISM, 2), HEAD(ANN, 0), GROOM}}},
    {"book(ashby, 1841) = book(ashby, 1841)",
     {3, {HEAD(BOOK, 2), HEAD(ASHBY, 0), HEAD(YEAR_1841, 0)}},
     {3, {HEAD(BOOK, 2), HEAD(ASHBY, 0), HEAD(YEAR_1841, 0)}}},
    {"Day = may", {1, {DAY}}, {1, {HEAD(MAY, 0)}}},
    {"wedding(Groom, on(Day)) = wedding(Groom, in(may, 1841))",
     {4, {HEAD(WEDDING, 2), GROOM, HEAD(ON, 1), DAY}},
     {5, {HEAD(WEDDING, 2), GROOM, HEAD(IN, 2), HEAD(MAY, 0), HEAD(YEAR_1841, 0)}}}};

enum { EQUATIONS = sizeof rule / sizeof rule[0] };

/* A refusal ends the program: these equations meet none. */
static void accepted(uint32_t code, const char *call) {
    if (code != SHARING_ACCEPTED) {
        fprintf(stderr, "%s answered %s\n", call, sharing_refusal_word(code));
        exit(EXIT_FAILURE);
    }
}

/* A term as bytes; returns their number. */
static size_t put_term(term t, uint8_t *out) {
    for (size_t i = 0; i < t.n; i++)
        sharing_put_word(out, i, t.tokens[i]);
    return 2 * t.n;
}

/* How many equations were accepted, and the table. */
static void print_state(const sharing_running *state) {
    const sharing_table *table = &state->table;
    char text[VARIABLES + 1];
    printf("   applied %u, table", (unsigned)state->applied);
    for (size_t i = 0; i < table->n; i++) {
        sharing_entry entry = {table->care[i], table->value[i]};
        accepted(sharing_entry_text(table->l, entry, text, sizeof text), "sharing_entry_text");
        printf(" %s", text);
    }
    printf(table->n == 0 ? " without entries\n" : "\n");
}

/* An equation that was found: its variable, and those in its term. */
static void print_found(sharing_found found) {
    static const char *const names[] = {"Child", "Father", "Groom", "Day"};
    int variables = 0;
    printf("   found: %s = a term with", names[found.variable - 1]);
    for (size_t i = 0; i < found.term_len / 2; i++) {
        uint32_t token = sharing_word_at(found.term, i);
        if (token <= VARIABLES)
            printf("%s %s", variables++ > 0 ? "," : "", names[token - 1]);
    }
    printf(variables > 0 ? "\n" : " no variable\n");
}

/*
 * What the library finds in two terms. A table without groups does not say whether a clash left it:
 * a compiler that wants to know asks the terms.
 */
static void print_walk(sharing_walk walk) {
    sharing_found found;
    if (sharing_terms_clash(walk.left, walk.left_len, walk.right, walk.right_len))
        printf("   clash: the equation fails, and no goal after it is run\n");
    else
        while (sharing_walk_next(&walk, &found) == SHARING_WALK_EQUATION)
            print_found(found);
}

/* One equation of the running analysis. */
static void apply(sharing_running *state, const equation *e) {
    uint8_t left[MAX_BYTES], right[MAX_BYTES];
    size_t left_len = put_term(e->left, left), right_len = put_term(e->right, right);
    sharing_walk walk = {left, left_len, right, right_len};
    printf("%s\n", e->text);
    print_walk(walk);
    accepted(sharing_unify_step(state, left, left_len, right, right_len), "sharing_unify_step");
    print_state(state);
}

/* The form of all equations: sizes, left counts, right counts, then both sides of each. */
static size_t put_equations(uint8_t *out) {
    size_t m = 0, len = 4 + 4 * EQUATIONS;
    for (size_t i = 0; i < EQUATIONS; i++) {
        m += rule[i].left.n + rule[i].right.n;
        sharing_put_word(out, 2 + i, (uint32_t)rule[i].left.n);
        sharing_put_word(out, 2 + EQUATIONS + i, (uint32_t)rule[i].right.n);
        len += put_term(rule[i].left, out + len);
        len += put_term(rule[i].right, out + len);
    }
    sharing_put_word(out, 0, EQUATIONS);
    sharing_put_word(out, 1, (uint32_t)m);
    return len;
}

int main(void) {
    uint8_t form[SHARING_MAX_FORM], equations[4 + (4 + 2 * MAX_BYTES) * EQUATIONS];
    accepted(sharing_all_free(VARIABLES, form, sizeof form), "sharing_all_free");
    size_t form_len = sharing_front_length(form, sizeof form);
    sharing_running state = sharing_start(SHARING_POSITIVE, form, form_len);
    accepted(state.code, "sharing_start");
    printf("Four free variables: X1 Child, X2 Father, X3 Groom, X4 Day\n");
    print_state(&state);
    for (size_t i = 0; i < EQUATIONS; i++)
        apply(&state, &rule[i]);
    size_t equations_len = put_equations(equations);
    state = sharing_unify_run(SHARING_POSITIVE, form, form_len, equations, equations_len);
    accepted(state.code, "sharing_unify_run");
    printf("all of them in one run\n");
    print_state(&state);
    return EXIT_SUCCESS;
}

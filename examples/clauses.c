/*
 * A compiler of clauses: which goals may run side by side after each goal?
 *
 *     cc clauses.c $(pkg-config --cflags --libs sharing) -o clauses
 *     ./clauses clauses.txt
 *
 * It reads facts, rules and queries (?- Goals.) and follows the calls from the queries, in which
 * all variables are free; a file without a query has every predicate called in any way. A goal
 * without clauses is unknown: it may do anything with its arguments. A predicate whose name stands
 * in a term is called in any way too, since an unknown goal may call it from there; unknown goals
 * are taken to call no other predicate of the file, and a predicate to have all its clauses in it.
 * docs/COMPILER.md has the recipes.
 */
#include "clauses.h"

/* Did the last round of calls change a table? */
static int changed;

/* ---- Following the calls */

#define TABLE(table) (table)->bytes, sharing_front_length((table)->bytes, SHARING_MAX_FORM)
#define POSITIVE(table) SHARING_POSITIVE, TABLE(table)
#define OUT next.bytes, sizeof next.bytes

/* One step: the table of l variables that the call writes. Where it is full: the all-star table. */
#define STEP(table, l, call)                                                                       \
    do {                                                                                           \
        form next;                                                                                 \
        uint32_t answer = (call);                                                                  \
        if (answer == SHARING_FULL)                                                                \
            answer = sharing_all_star((l), OUT);                                                   \
        if (answer != SHARING_ACCEPTED) {                                                          \
            fprintf(stderr, "line %d: %s\n", __LINE__, sharing_refusal_sentence(answer));          \
            exit(EXIT_FAILURE);                                                                    \
        }                                                                                          \
        *(table) = next;                                                                           \
    } while (0)

static uint32_t width(const form *table) { return sharing_word_at(table->bytes, 0); }

static void equate(form *table, uint32_t variable, uint32_t set) {
    STEP(table, width(table), sharing_set_equation(POSITIVE(table), variable, set, OUT));
}

static void add_free(form *table) {
    STEP(table, width(table) + 1, sharing_add_free(TABLE(table), 1, OUT));
}

static void project(form *table, uint32_t l) {
    STEP(table, l, sharing_project(POSITIVE(table), sharing_variables(l), OUT));
}

/* Gives each argument a variable of the table: a further one to a term. 0 where none is left. */
static int name_arguments(const goal *g, form *table, uint32_t *variables) {
    for (uint32_t j = 0; j < g->arity; j++) {
        variables[j] = g->arguments[j].variable;
        if (variables[j] != 0 || g->arguments[j].set == 0)
            continue;
        if (width(table) == MAX_VARIABLES)
            return 0;
        add_free(table);
        variables[j] = width(table);
        equate(table, variables[j], g->arguments[j].set);
    }
    return 1;
}

/* Adds the arguments as a table has them to a sum, of calls or exits. 0 where that was too wide. */
static int merge(form *sum, const goal *g, form *table, uint32_t *variables) {
    form seen, before = *sum;
    uint32_t named = 0, equal = 0;
    int fits = name_arguments(g, table, variables);
    for (uint32_t j = 0; fits && j < g->arity; j++)
        named |= variables[j];
    if (!fits)
        STEP(&seen, g->arity, sharing_all_star(g->arity, OUT));
    else if (named == 0)
        STEP(&seen, g->arity, sharing_empty(g->arity, OUT));
    else
        STEP(&seen, g->arity, sharing_select(POSITIVE(table), variables, g->arity, OUT));
    STEP(sum, g->arity, sharing_join(POSITIVE(&before), TABLE(&seen), OUT));
    if (sharing_equal(TABLE(&before), TABLE(sum), &equal) != SHARING_ACCEPTED || !equal)
        changed = 1;
    return fits;
}

/* The table at the start of a clause: head variables as they are called, the others free. */
static void start(const clause *c, form *table) {
    uint32_t from[MAX_VARIABLES] = {0}, term_of[MAX_VARIABLES] = {0}, l = c->l, n = 0;
    sharing_entry alone[MAX_VARIABLES];
    for (uint32_t j = 0; j < c->head.arity; j++) {
        uint32_t x = c->head.arguments[j].variable;
        if (x == 0 || from[x - 1] != 0) {
            if (l == MAX_VARIABLES) {
                STEP(table, c->l, sharing_all_star(c->l, OUT));
                return;
            }
            term_of[l] = j;
            x = ++l;
        }
        from[x - 1] = j + 1;
    }
    for (uint32_t x = 0; x < c->l; x++)
        if (from[x] == 0) {
            alone[n].care = sharing_variables(l);
            alone[n++].value = 1u << x;
        }
    form called, locals;
    STEP(&locals, l, sharing_make_form(l, alone, n, OUT));
    *table = locals;
    if (c->head.arity > 0) {
        STEP(&called, l, sharing_rename(POSITIVE(&c->head.p->call), from, l, OUT));
        STEP(table, l, sharing_join(POSITIVE(&called), TABLE(&locals), OUT));
    }
    for (uint32_t x = c->l; x < l; x++)
        equate(table, x + 1, c->head.arguments[term_of[x]].set);
    project(table, c->l);
}

/* The table after X = t. After X = f(X) it has no group; X = X says nothing. */
static void equate_argument(form *table, uint32_t variable, argument t) {
    if (t.variable == 0 && (t.set >> (variable - 1) & 1) != 0)
        STEP(table, width(table), sharing_empty(width(table), OUT));
    else
        equate(table, variable, t.set);
}

/* The table after an equation. Two terms are each equal to a further variable. */
static void after_equation(const goal *g, form *table) {
    argument left = g->arguments[0], right = g->arguments[1];
    uint32_t l = width(table);
    if (left.variable != 0)
        equate_argument(table, left.variable, right);
    else if (right.variable != 0)
        equate_argument(table, right.variable, left);
    else if (l == MAX_VARIABLES)
        STEP(table, l, sharing_unknown_goal(TABLE(table), g->set, OUT));
    else {
        add_free(table);
        equate(table, l + 1, left.set);
        equate(table, l + 1, right.set);
        project(table, l);
    }
}

/* The table after a goal. The call is added to those of its predicate. */
static void after_goal(const goal *g, form *table) {
    uint32_t variables[MAX_VARIABLES], l = width(table);
    form wider = *table;
    if (g->p == NULL) {
        after_equation(g, table);
        return;
    }
    changed |= !g->p->called;
    g->p->called = 1;
    if (g->p->defined && g->arity > 0 && merge(&g->p->call, g, &wider, variables)) {
        STEP(table, width(&wider),
             sharing_known_goal(TABLE(&wider), TABLE(&g->p->exit), variables, g->arity, OUT));
        project(table, l);
    } else
        STEP(table, l, sharing_unknown_goal(TABLE(table), g->set, OUT));
}

/* ---- Printing */

/*
 * May goal k run beside goal i at this point? It must share no variable with goal i nor with any
 * goal between the two. All goals that may run beside goal i may then run side by side.
 */
static int beside(const clause *c, int i, int k, const form *table) {
    uint32_t before = 0, apart = 0;
    for (int j = i; j < k; j++)
        before |= c->body[j].set;
    return sharing_independent(POSITIVE(table), before, c->body[k].set, &apart) == 0 && apart == 1;
}

/* The text of a goal, with one blank for any run of them. */
static void print_text(const char *before, slice piece) {
    printf("%s", before);
    for (const char *c = piece.at; c < piece.at + piece.len; c++)
        if (!isspace((unsigned char)*c))
            putchar(*c);
        else if (!isspace((unsigned char)c[1]))
            putchar(' ');
}

/* The goal that is next at this point, and those that may run beside it. */
static void print_point(const clause *c, int i, const form *table) {
    if (i == 0)
        printf("    at the start");
    else
        print_text("    after ", c->body[i - 1].text);
    print_text(": ", c->body[i].text);
    for (int k = i + 1; k < c->goals; k++)
        if (beside(c, i, k, table))
            print_text(" | ", c->body[k].text);
    putchar('\n');
}

/* Follows a clause from its start to its end; with `print` says what may run side by side. */
static void follow(const clause *c, int print) {
    uint32_t variables[MAX_VARIABLES];
    form table;
    start(c, &table);
    for (int i = 0; i < c->goals; i++) {
        if (print)
            print_point(c, i, &table);
        after_goal(&c->body[i], &table);
    }
    if (c->head.arity > 0)
        merge(&c->head.p->exit, &c->head, &table, variables);
}

/* Calls and exits begin with no group; what may be called from outside is called in any way. */
static void prepare(void) {
    for (predicate *p = predicates; p < predicates + predicate_count; p++) {
        p->called = queries == 0;
        for (int i = 0; i < in_terms_count; i++)
            p->called = p->called || same(in_terms[i], p->name);
        if (p->arity == 0)
            continue;
        STEP(&p->exit, p->arity, sharing_empty(p->arity, OUT));
        p->call = p->exit;
        if (p->called)
            STEP(&p->call, p->arity, sharing_all_star(p->arity, OUT));
    }
}

static int called(const clause *c) { return c->head.p == NULL || c->head.p->called; }

/* Follows every clause that is called until no call and no exit has a new group. */
static void analyse(void) {
    prepare();
    do {
        changed = 0;
        for (int i = 0; i < clause_count; i++)
            if (called(&clauses[i]))
                follow(&clauses[i], 0);
    } while (changed);
}

int main(int count, char **words) {
    file = count > 1 ? words[1] : "clauses.txt";
    FILE *input = fopen(file, "rb");
    size_t len = input == NULL ? 0 : fread(text, 1, sizeof text, input);
    if (input == NULL || ferror(input) || len > MAX_TEXT || memchr(text, '\0', len) != NULL) {
        fprintf(stderr, "%s: it is not a text of at most %d bytes\n", file, MAX_TEXT);
        return EXIT_FAILURE;
    }
    fclose(input);
    for (skip(); *at != '\0'; skip())
        read_clause();
    analyse();
    for (const clause *c = clauses; c < clauses + clause_count; c++) {
        if (c->goals == 0)
            continue;
        print_text(c->head.p == NULL ? "?-" : "", c->head.text);
        printf(called(c) ? "\n" : ": not called\n");
        if (called(c))
            follow(c, 1);
    }
    return EXIT_SUCCESS;
}

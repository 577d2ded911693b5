/*
 * The compiler of clauses against runs. Random programs are written as text for examples/clauses.c,
 * which is included here, and run by a small interpreter: real terms, unification with the occurs
 * check, a random clause at each call, random bindings for an unknown goal. At every point that a
 * run reaches, the table must describe the bindings of the clause, and goals that the compiler says
 * may run side by side must have no run-time variable in common.
 */
#define main clauses_main
#include "../examples/clauses.c"
#undef main

enum { PROGRAMS = 500, RUNS = 40, DEEPEST = 10, CELLS = 1 << 14, VARIABLES = SHARING_MAX_VARIABLES };
enum { PREDICATES = 4, MOST_CLAUSES = 3, MOST_GOALS = 4, MOST_ARITY = 3 };

/* A term of a program: variable `id` where n is -1, else symbol `id` with n arguments. */
typedef struct node { int id, n; const struct node *arguments[2]; } node;
typedef struct { int id, known, arity; const node *arguments[MOST_ARITY]; } atom;
typedef struct { atom head, body[MOST_GOALS]; int goals; } rule;

/* A run-time term: a reference, to itself where it is a variable, or a symbol with arguments. */
typedef struct { int symbol, n, reference, arguments[2]; } cell;

static node nodes[CELLS];
static rule rules[PREDICATES * MOST_CLAUSES + 2];
static cell cells[CELLS];
static int node_count, rule_count, cell_count, arity_of[PREDICATES], variables;
static unsigned points, checks, yes, failures;

/* The next random number below a bound, of a fixed sequence. */
static int any(int bound) {
    static uint64_t state = 1741;
    state = state * 6364136223846793005u + 1442695040888963407u;
    return (int)((state >> 33) % (uint64_t)bound);
}

/* ---- Random programs */

static const node *random_term(int deep) {
    node *made = &nodes[node_count++];
    int kind = any(deep > 0 ? 6 : 4);
    made->id = kind < 3 ? any(variables) : any(2);
    made->n = kind < 3 ? -1 : kind == 3 ? 0 : kind - 3;
    for (int i = 0; i < made->n; i++)
        made->arguments[i] = random_term(deep - 1);
    return made;
}

/* A term with arguments. */
static const node *random_pair(const node *first, const node *second) {
    node *made = &nodes[node_count++];
    made->id = any(2);
    made->n = 2;
    made->arguments[0] = first;
    made->arguments[1] = second;
    return made;
}

/* A goal of a kind: 0 an equation, 1 a predicate with clauses, 2 an unknown one. */
static atom random_goal(int kind, int id) {
    atom made = {id, kind, kind == 0 ? 2 : kind == 1 ? arity_of[id] : any(MOST_ARITY + 1), {0}};
    int pairs = kind == 0 && any(3) == 0;
    for (int i = 0; i < made.arity; i++)
        made.arguments[i] = pairs ? random_pair(random_term(0), random_term(1))
                                  : random_term(any(3) == 0 ? 2 : 0);
    return made;
}

/* An unknown goal with all variables in one argument: a clause that has as many as can be. */
static atom wide_goal(void) {
    atom made = {0, 2, 1, {0}};
    made.arguments[0] = random_term(0);
    for (int i = 0; i < VARIABLES; i++) {
        node *x = &nodes[node_count++];
        x->id = i;
        x->n = -1;
        made.arguments[0] = random_pair(x, made.arguments[0]);
    }
    return made;
}

static void random_program(void) {
    node_count = rule_count = 0;
    memset(rules, 0, sizeof rules);
    for (int p = 0; p < PREDICATES; p++)
        arity_of[p] = any(MOST_ARITY + 1);
    for (int p = 0; p <= PREDICATES; p++) /* the last one is for queries */
        for (int i = 1 + any(p < PREDICATES ? MOST_CLAUSES : 2); i > 0; i--) {
            rule *r = &rules[rule_count++];
            variables = any(6) == 0 ? VARIABLES : 1 + any(5);
            r->head.id = p;
            if (p < PREDICATES)
                r->head = random_goal(1, p);
            r->goals = p < PREDICATES && any(3) == 0 ? 0 : 1 + any(MOST_GOALS);
            for (int g = 0; g < r->goals; g++) {
                int kind = any(5) / 2;
                r->body[g] = random_goal(kind, any(PREDICATES));
            }
            if (variables == VARIABLES && r->goals > 0)
                r->body[any(r->goals)] = wide_goal();
        }
}

/* ---- The program as text */

static char *put;

static void put_term(const node *t) {
    put += sprintf(put, t->n < 0 ? "V%d" : "s%d", t->id);
    for (int i = 0; i < t->n; i++) {
        put += sprintf(put, i == 0 ? "(" : ", ");
        put_term(t->arguments[i]);
    }
    put += sprintf(put, t->n > 0 ? ")" : "");
}

static void put_goal(const atom *g) {
    if (g->known == 0) {
        put_term(g->arguments[0]);
        put += sprintf(put, " = ");
        put_term(g->arguments[1]);
        return;
    }
    put += sprintf(put, "%c%d", g->known == 1 ? 'p' : 'u', g->id);
    for (int i = 0; i < g->arity; i++) {
        put += sprintf(put, i == 0 ? "(" : ", ");
        put_term(g->arguments[i]);
    }
    put += sprintf(put, g->arity > 0 ? ")" : "");
}

/* Writes the program, and has it read and analysed. */
static void compile(void) {
    put = text;
    for (rule *r = rules; r < rules + rule_count; r++) {
        if (r->head.id < PREDICATES)
            put_goal(&r->head);
        for (int g = 0; g < r->goals; g++) {
            put += sprintf(put, g > 0 ? ", " : r->head.id < PREDICATES ? " :- " : "?- ");
            put_goal(&r->body[g]);
        }
        put += sprintf(put, ".\n");
    }
    memset(clauses, 0, sizeof clauses);
    memset(predicates, 0, sizeof predicates);
    clause_count = predicate_count = in_terms_count = queries = depth = 0;
    file = "random program";
    at = text;
    for (skip(); *at != '\0'; skip())
        read_clause();
    analyse();
}

/* ---- Runs */

static int new_cell(int symbol, int n) {
    if (cell_count == CELLS)
        return CELLS - 1; /* the run is given up: see run_goals */
    cell made = {symbol, n, cell_count, {0, 0}};
    cells[cell_count] = made;
    return cell_count++;
}

static int found(int c) {
    while (cells[c].n < 0 && cells[c].reference != c)
        c = cells[c].reference;
    return c;
}

/* A run-time term of a program's term; env has the cells of the clause's variables. */
static int built(const node *t, const int *env) {
    if (t->n < 0)
        return env[t->id];
    int made = new_cell(t->id, t->n);
    for (int i = 0; i < t->n; i++) {
        int argument_cell = built(t->arguments[i], env);
        cells[made].arguments[i] = argument_cell;
    }
    return made;
}

static int occurs(int variable, int c) {
    c = found(c);
    if (cells[c].n < 0)
        return c == variable;
    for (int i = 0; i < cells[c].n; i++)
        if (occurs(variable, cells[c].arguments[i]))
            return 1;
    return 0;
}

static int unify(int a, int b) {
    a = found(a);
    b = found(b);
    if (a == b)
        return 1;
    if (cells[a].n >= 0 && cells[b].n < 0)
        return unify(b, a);
    if (cells[a].n < 0) {
        if (occurs(a, b))
            return 0;
        cells[a].reference = b;
        return 1;
    }
    if (cells[a].symbol != cells[b].symbol || cells[a].n != cells[b].n)
        return 0;
    for (int i = 0; i < cells[a].n; i++)
        if (!unify(cells[a].arguments[i], cells[b].arguments[i]))
            return 0;
    return 1;
}

/* A cell below one, at random. */
static int below(int c) {
    c = found(c);
    while (cells[c].n > 0 && any(3) > 0)
        c = found(cells[c].arguments[any(cells[c].n)]);
    return c;
}

/* An unknown goal: binds what it can reach, to one another and to new terms. 0 where it fails. */
static int run_unknown(const int *arguments, int n) {
    for (int times = n == 0 ? 0 : any(4); times > 0; times--) {
        int a = below(arguments[any(n)]), b = below(arguments[any(n)]);
        if (any(3) == 0) {
            b = new_cell(any(2), any(3));
            for (int i = 0; i < cells[b].n; i++)
                cells[b].arguments[i] = any(2) ? new_cell(0, -1) : below(arguments[any(n)]);
        }
        if (!unify(a, b))
            return 0;
    }
    return 1;
}

/* Marks in `bits` the variables below a cell. */
static void mark(int c, uint32_t bit, uint32_t *bits) {
    c = found(c);
    if (cells[c].n < 0)
        bits[c] |= bit;
    for (int i = 0; i < cells[c].n; i++)
        mark(cells[c].arguments[i], bit, bits);
}

/* Does some entry of a positive table cover a string? */
static int covers(const form *table, uint32_t string) {
    for (size_t i = 0; i < sharing_word_at(table->bytes, 1); i++) {
        sharing_entry entry = {0, 0};
        if (sharing_entry_at(TABLE(table), i, &entry) == 0 && (string & entry.care) == entry.value)
            return 1;
    }
    return 0;
}

static void holds(int fact, const char *what) {
    checks++;
    if (!fact && failures++ < 3)
        printf("%s, of this program:\n%s", what, text);
}

/* The table describes the bindings of the clause's variables. */
static void check_table(const clause *c, const int *env, const form *table) {
    static uint32_t bits[CELLS];
    memset(bits, 0, sizeof bits);
    for (uint32_t x = 0; x < c->l && c->names[x].at != NULL; x++)
        mark(env[atoi(c->names[x].at + 1)], 1u << x, bits);
    for (int i = 0; i < cell_count; i++)
        if (bits[i] != 0)
            holds(covers(table, bits[i]), "a table lacks a group");
}

/* Goals that may run side by side have no run-time variable in common. */
static void check_goals(const clause *c, const rule *r, int i, const int *env, const form *table) {
    static uint32_t bits[CELLS];
    for (int k = i + 1; k < r->goals; k++) {
        if (!beside(c, i, k, table))
            continue;
        yes++;
        memset(bits, 0, sizeof bits);
        for (int j = i; j <= k; j++)
            for (int a = 0; a < r->body[j].arity; a++)
                mark(built(r->body[j].arguments[a], env), j < k ? 1 : 2, bits);
        for (int j = 0; j < cell_count; j++)
            holds(bits[j] != 3, "goals that share a variable are said to run side by side");
    }
}

/* Runs a clause, called with some arguments, and checks each point. 0 where it fails. */
static int run_clause(int index, const int *arguments, int deep) {
    const rule *r = &rules[index];
    const clause *c = &clauses[index];
    int env[VARIABLES], values[MOST_ARITY] = {0, 0, 0};
    form table;
    if (deep > DEEPEST || cell_count > CELLS / 2)
        return 0;
    for (int i = 0; i < VARIABLES; i++)
        env[i] = new_cell(0, -1);
    for (int i = 0; i < r->head.arity; i++)
        if (!unify(arguments[i], built(r->head.arguments[i], env)))
            return 0;
    start(c, &table);
    for (int g = 0;; g++) {
        points++;
        check_table(c, env, &table);
        if (g == r->goals)
            return 1;
        check_goals(c, r, g, env, &table);
        const atom *next = &r->body[g];
        for (int i = 0; i < next->arity; i++)
            values[i] = built(next->arguments[i], env);
        int chosen = any(rule_count), good = 1;
        while (next->known == 1 && rules[chosen].head.id != next->id)
            chosen = any(rule_count);
        if (next->known == 0)
            good = unify(values[0], values[1]);
        else if (next->known == 1)
            good = run_clause(chosen, values, deep + 1);
        else
            good = run_unknown(values, next->arity);
        if (!good)
            return 0;
        after_goal(&c->body[g], &table);
    }
}

int main(void) {
    for (int program = 0; program < PROGRAMS; program++) {
        random_program();
        compile();
        changed = 0;
        for (int run = 0; run < RUNS; run++)
            for (int i = 0; i < rule_count; i++)
                if (rules[i].head.id == PREDICATES) {
                    cell_count = 0;
                    run_clause(i, NULL, 0);
                }
        holds(!changed, "a run has a call or an exit that the analysis has not");
    }
    printf("%d programs, %u points, %u times side by side, %u checks, %u failed\n", PROGRAMS,
           points, yes, checks, failures);
    return failures == 0 && yes > 1000 ? EXIT_SUCCESS : EXIT_FAILURE;
}

/*
 * Reads clauses, for clauses.c: facts, rules and queries, with variables, atoms, numbers, lists and
 * compound terms. Of a term only the set of its variables is kept.
 */
#ifndef CLAUSES_H
#define CLAUSES_H

#include <sharing_util.h>

#include <ctype.h>
#include <stdio.h>
#include <stdlib.h>

enum { MAX_TEXT = 1 << 16, MAX_CLAUSES = 256, MAX_GOALS = 16, MAX_NAMES = 512 };
enum { MAX_DEPTH = 256, MAX_VARIABLES = SHARING_MAX_VARIABLES };

#define NAME_LETTERS "abcdefghijklmnopqrstuvwxyzABCDEFGHIJKLMNOPQRSTUVWXYZ0123456789_"

typedef struct { const char *at; size_t len; } slice;
typedef struct { uint32_t set, variable; } argument; /* variable is 0 where it is a term */
typedef struct { uint8_t bytes[SHARING_MAX_FORM]; } form;
typedef struct { slice name; uint32_t arity; int defined, called; form call, exit; } predicate;
typedef struct {
    slice name, text;
    uint32_t arity, set;
    argument arguments[MAX_VARIABLES];
    predicate *p;
} goal;
typedef struct {
    goal head, body[MAX_GOALS];
    int goals;
    uint32_t l;
    slice names[MAX_VARIABLES];
} clause;

static char text[MAX_TEXT + 1];
static const char *file, *at = text, *taken; /* taken: the end of the last piece */
static clause clauses[MAX_CLAUSES];
static predicate predicates[MAX_NAMES];
static slice in_terms[MAX_NAMES];
static int clause_count, predicate_count, in_terms_count, queries, depth;

/* Ends the program with a message that names the place in the file. */
static void fail(const char *place, const char *message) {
    int line = 1, column = 1;
    for (const char *c = text; c < place; c++) {
        line += *c == '\n';
        column = *c == '\n' ? 1 : column + 1;
    }
    fprintf(stderr, "%s:%d:%d: %s\n", file, line, column, message);
    exit(EXIT_FAILURE);
}

/* Passes over blanks and comments. */
static void skip(void) {
    for (; isspace((unsigned char)*at) || *at == '%'; at++)
        if (*at == '%')
            at += strcspn(at, "\n") - 1;
}

/* Takes a piece of text, if it stands next. */
static int take(const char *piece) {
    skip();
    int there = strncmp(at, piece, strlen(piece)) == 0;
    if (there)
        taken = at += strlen(piece);
    return there;
}

/* Does a name stand next that is no variable? */
static int at_symbol(void) { return islower((unsigned char)*at) || *at == '\''; }

static int same(slice one, slice other) {
    return one.len == other.len && memcmp(one.at, other.at, one.len) == 0;
}

/* A name: letters, digits and _, or what is between quotes. */
static slice name(void) {
    slice made = {at, strspn(at, NAME_LETTERS)};
    if (*at == '\'') {
        made.at++;
        made.len = strcspn(made.at, "'\\");
        if (made.at[made.len] != '\'')
            fail(at, "the quoted name has no end, or a backslash in it");
        at += 2;
    }
    taken = at += made.len;
    return made;
}

/* The number of a variable of the clause; _ is one of its own each time. */
static uint32_t variable_number(clause *c) {
    slice read = name();
    for (uint32_t i = 0; i < c->l; i++)
        if (same(c->names[i], read) && (read.len > 1 || *read.at != '_'))
            return i + 1;
    if (c->l == MAX_VARIABLES)
        fail(read.at, "the clause has more than 32 variables");
    c->names[c->l++] = read;
    return c->l;
}

/* Notes a name in a term: an unknown goal may call it. */
static void in_term(slice read) {
    if (in_terms_count == MAX_NAMES)
        fail(read.at, "more than 512 names in terms");
    in_terms[in_terms_count++] = read;
}

/*
 * A term: a variable, a number, a list, or a symbol with arguments. Name and arguments are kept
 * where g is not NULL; of the rest only the variables count.
 */
static argument term(clause *c, goal *g) {
    argument read = {0, 0};
    const char *close = NULL;
    skip();
    if (++depth > MAX_DEPTH)
        fail(at, "the term nests deeper than 256");
    if (isupper((unsigned char)*at) || *at == '_') {
        read.variable = variable_number(c);
        read.set = 1u << (read.variable - 1);
    } else if (at_symbol() || isdigit((unsigned char)*at)) {
        slice read_name = name();
        if (g != NULL)
            g->name = read_name;
        else
            in_term(read_name);
        close = take("(") ? ")" : NULL;
    } else if (take("["))
        close = take("]") ? NULL : "]";
    else
        fail(at, "a term is expected here");
    while (close != NULL) {
        if (g != NULL && g->arity == MAX_VARIABLES)
            fail(at, "more than 32 arguments");
        argument inner = term(c, NULL);
        read.set |= inner.set;
        if (g != NULL)
            g->arguments[g->arity++] = inner;
        if (!take(",") && !(*close == ']' && take("|")))
            break;
    }
    if (close != NULL && !take(close))
        fail(at, "a comma or the end of the term is expected here");
    depth--;
    return read;
}

/* The predicate of a name and arity. */
static predicate *predicate_of(slice read, uint32_t arity) {
    predicate *p = predicates, *last = predicates + predicate_count;
    while (p < last && (p->arity != arity || !same(p->name, read)))
        p++;
    if (p == predicates + MAX_NAMES)
        fail(read.at, "more than 512 predicates");
    p->name = read;
    p->arity = arity;
    predicate_count += p == last;
    return p;
}

/* A goal: a symbol with arguments or, in a body, an equation, which has no predicate. */
static void read_goal(clause *c, goal *g, int in_body) {
    skip();
    int symbol = at_symbol();
    g->text.at = at;
    argument left = term(c, g), right = {0, 0};
    g->text.len = (size_t)(taken - g->text.at);
    if (in_body && take("=") && (*at == '\0' || strchr("=<>\\.:@", *at) == NULL)) {
        if (symbol)
            in_term(g->name);
        right = term(c, NULL);
        g->arity = 2;
        g->arguments[0] = left;
        g->arguments[1] = right;
        g->text.len = (size_t)(taken - g->text.at);
    } else if (symbol)
        g->p = predicate_of(g->name, g->arity);
    else
        fail(at, "an equation with = is expected here");
    g->set = left.set | right.set;
}

/* A clause or a query, to its full stop. */
static void read_clause(void) {
    if (clause_count == MAX_CLAUSES)
        fail(at, "more than 256 clauses");
    clause *c = &clauses[clause_count++];
    int body = take("?-");
    queries += body;
    if (!body) {
        if (!at_symbol())
            fail(at, "the head of a clause or ?- is expected here");
        read_goal(c, &c->head, 0);
        c->head.p->defined = 1;
    }
    for (body = body || take(":-"); body; body = take(",")) {
        if (c->goals == MAX_GOALS)
            fail(at, "the clause has more than 16 goals");
        read_goal(c, &c->body[c->goals++], 1);
    }
    if (!take("."))
        fail(at, "a comma, :- or a full stop is expected here");
    c->l += c->l == 0; /* a table has at least one variable */
}

#endif

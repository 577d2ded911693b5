/*
 * The recipes of docs/COMPILER.md, one after another. Tables are positive; each is printed as its
 * entries, and X1 is the first position.
 *
 *     cc recipes.c $(pkg-config --cflags --libs sharing) -o recipes
 */
#include <sharing_util.h>

#include <stdio.h>
#include <stdlib.h>

typedef struct { uint8_t bytes[SHARING_MAX_FORM]; } form;

/* A table as the calls take it, and an output. */
#define TABLE(form) (form).bytes, sharing_front_length((form).bytes, sizeof (form).bytes)
#define POSITIVE(form) SHARING_POSITIVE, TABLE(form)
#define OUT(form) (form).bytes, sizeof (form).bytes

/* A recipe whose call is refused has no table to go on with. */
static void need(uint32_t code) {
    if (code != SHARING_ACCEPTED) {
        fprintf(stderr, "refused %u: %s\n", (unsigned)code, sharing_refusal_sentence(code));
        exit(EXIT_FAILURE);
    }
}

/* A term as a row of tokens. */
typedef struct { uint8_t bytes[2 * SHARING_MAX_TOKENS]; size_t len; } row;
#define TERM(row) (row).bytes, (row).len

static row row_of(const uint32_t *tokens, size_t n) {
    row made = {{0}, 2 * n};
    for (size_t i = 0; i < n; i++)
        sharing_put_word(made.bytes, i, tokens[i]);
    return made;
}

/* An entry of l positions as text. */
static void show_entry(uint32_t l, sharing_entry entry) {
    char text[SHARING_MAX_VARIABLES + 1];
    need(sharing_entry_text(l, entry, text, sizeof text));
    printf(" %s", text);
}

/* A line of text, then the entries of a table. */
static void show(const char *what, form table) {
    sharing_entry entry;
    printf("   %-46s", what);
    for (size_t i = 0; i < sharing_word_at(table.bytes, 1); i++) {
        need(sharing_entry_at(TABLE(table), i, &entry));
        show_entry(sharing_word_at(table.bytes, 0), entry);
    }
    printf(sharing_word_at(table.bytes, 1) == 0 ? " no entry\n" : "\n");
}

/* A table from text, as "100 01*". */
static form table_of(const char *text) {
    sharing_entry entries[SHARING_MAX_ENTRIES];
    size_t n = 0, l = strcspn(text, " ");
    form made;
    for (; *text != '\0'; text += l + (text[l] == ' '))
        need(sharing_text_entry(text, l, &entries[n++]));
    need(sharing_make_form((uint32_t)l, entries, n, OUT(made)));
    return made;
}

/* 1. Starting a clause p(X1, X2) :- ... with two local variables, X3 and X4. */
static void start_clause(void) {
    form call = table_of("10 11"), clause;
    printf("\n1. Starting a clause\n");
    show("the call, over the two arguments", call);
    need(sharing_add_free(TABLE(call), 2, OUT(clause)));
    show("p(X1, X2) :- ... X3 ... X4", clause);

    /* The head is p(X3, f(X1)): X3 is the first argument, the second gets X4 for a while. */
    const uint32_t from[] = {0, 0, 1, 2};
    form renamed, local = table_of("1000 0100"), joined, equal, start;
    need(sharing_rename(POSITIVE(call), from, 4, OUT(renamed)));
    need(sharing_join(POSITIVE(renamed), TABLE(local), OUT(joined)));
    need(sharing_set_equation(POSITIVE(joined), 4, 1u << 0, OUT(equal)));
    need(sharing_project(POSITIVE(equal), sharing_variables(3), OUT(start)));
    show("p(X3, f(X1)) :- ... X2", start);
}

/* 2. To a callee's variables and back: the goal q(X3, X1). */
static void rename_goal(void) {
    form caller = table_of("100 011 001"), callee, back, exits = table_of("11 01");
    const uint32_t arguments[] = {3, 1};
    printf("\n2. Renaming to and from a callee's variables\n");
    show("before q(X3, X1)", caller);
    need(sharing_select(POSITIVE(caller), arguments, 2, OUT(callee)));
    show("the call of q, over its two arguments", callee);
    const uint32_t from[] = {2, 0, 1};
    show("an exit of q", exits);
    need(sharing_rename(POSITIVE(exits), from, 3, OUT(back)));
    show("the exit over the caller's X1, X2, X3", back);
}

/* 3. A goal with a known exit table. */
static void known_goal(void) {
    form caller = table_of("100 011 001"), exits = table_of("11 01"), after;
    const uint32_t arguments[] = {3, 1};
    printf("\n3. A goal with a known exit table\n");
    need(sharing_known_goal(TABLE(caller), TABLE(exits), arguments, 2, OUT(after)));
    show("after q(X3, X1) with the exit 11 01", after);

    /* A join is not it: X1 and X2 share a variable, and q makes X3 share it too. */
    form before = table_of("110 001"), exit_11 = table_of("11"), renamed, joined;
    const uint32_t first_third[] = {1, 3}, from[] = {1, 0, 2};
    need(sharing_rename(POSITIVE(exit_11), from, 3, OUT(renamed)));
    need(sharing_join(POSITIVE(before), TABLE(renamed), OUT(joined)));
    show("q(X1, X3), exit 11: the join lacks a group", joined);
    need(sharing_known_goal(TABLE(before), TABLE(exit_11), first_third, 2, OUT(after)));
    show("after q(X1, X3) with the exit 11", after);

    /* The argument f(X1, X2) gets a variable of its own; a constant is 0. */
    form wider, equal, called, narrow, mixed_exits = table_of("11 10");
    const uint32_t mixed[] = {4, 0};
    need(sharing_add_free(TABLE(caller), 1, OUT(wider)));
    need(sharing_set_equation(POSITIVE(wider), 4, 1u << 0 | 1u << 1, OUT(equal)));
    need(sharing_known_goal(TABLE(equal), TABLE(mixed_exits), mixed, 2, OUT(called)));
    need(sharing_project(POSITIVE(called), sharing_variables(3), OUT(narrow)));
    show("after r(f(X1, X2), a) with the exit 11 10", narrow);
}

/* 4. A goal of which nothing is known. */
static void unknown_goal(void) {
    form caller = table_of("1000 0100 0011"), after;
    printf("\n4. An unknown goal\n");
    show("before u(X1, X2)", caller);
    need(sharing_unknown_goal(TABLE(caller), 1u << 0 | 1u << 1, OUT(after)));
    show("after u(X1, X2)", after);
}

/* 5. A disjunction: each branch from the same table, then the groups of both. */
static void disjunction(void) {
    form before = table_of("100 010 001"), left, right, after;
    printf("\n5. A disjunction, (X1 = X2 ; X1 = X3)\n");
    need(sharing_set_equation(POSITIVE(before), 1, 1u << 1, OUT(left)));
    need(sharing_set_equation(POSITIVE(before), 1, 1u << 2, OUT(right)));
    need(sharing_join(POSITIVE(left), TABLE(right), OUT(after)));
    show("after X1 = X2", left);
    show("after X1 = X3", right);
    show("after either", after);
}

/* 6. Two tables that both describe the same bindings. */
static void intersection(void) {
    form one = table_of("1** 001"), other = table_of("*1* 001"), both;
    printf("\n6. The intersection of two positive tables\n");
    show("one", one);
    show("the other", other);
    need(sharing_join(SHARING_NEGATIVE, TABLE(one), TABLE(other), OUT(both)));
    show("both", both);
}

/* The fact app([], B, B): its exit from a call. */
static form app_fact(form call) {
    form first, second;
    need(sharing_set_equation(POSITIVE(call), 1, 0, OUT(first)));
    need(sharing_set_equation(POSITIVE(first), 2, 1u << 2, OUT(second)));
    return second;
}

/* The rule app([H | A], B, [H | C]) :- app(A, B, C): its exit, and how it calls app again. */
static form app_rule(form call, form exits, form *again) {
    /* H, A, B, C are X1 to X4; the first and the last argument are X5 and X6 for a while. */
    const uint32_t from[] = {0, 0, 2, 0, 1, 3}, goal[] = {2, 3, 4}, head[] = {5, 3, 6};
    form renamed, local = table_of("100000 010000 000100"), joined, first, second, after, made;
    need(sharing_rename(POSITIVE(call), from, 6, OUT(renamed)));
    need(sharing_join(POSITIVE(renamed), TABLE(local), OUT(joined)));
    need(sharing_set_equation(POSITIVE(joined), 5, 1u << 0 | 1u << 1, OUT(first)));
    need(sharing_set_equation(POSITIVE(first), 6, 1u << 0 | 1u << 3, OUT(second)));
    need(sharing_select(POSITIVE(second), goal, 3, OUT(*again)));
    need(sharing_known_goal(TABLE(second), TABLE(exits), goal, 3, OUT(after)));
    need(sharing_select(POSITIVE(after), head, 3, OUT(made)));
    return made;
}

/* Adds the groups of a table to a sum. Had the sum all of them? */
static int had(form *sum, form more) {
    form joined;
    uint32_t same = 0;
    need(sharing_join(POSITIVE(*sum), TABLE(more), OUT(joined)));
    need(sharing_equal(TABLE(*sum), TABLE(joined), &same));
    *sum = joined;
    return same == 1;
}

/* 7. A recursive predicate: the calls and the exits grow until nothing changes. */
static void recursion(void) {
    form calls = table_of("100 010 001"), exits, again;
    int same = 0;
    printf("\n7. A recursive rule: app(A, B, C), called with three free variables\n");
    need(sharing_empty(3, OUT(exits)));
    while (!same) {
        form fact = app_fact(calls), rule = app_rule(calls, exits, &again);
        same = had(&exits, fact);
        same = had(&exits, rule) && same;
        same = had(&calls, again) && same;
        show(same ? "the calls, at the end" : "calls so far", calls);
        show(same ? "the exits, at the end" : "exits so far", exits);
    }
}

/* 8. An equation of two terms, f(X1, g(X2)) = f(X3, X4). */
static void two_terms(void) {
    enum { A = 1, F, G };
    form before = table_of("1000 0100 0010 0001"), after, failed;
    printf("\n8. A left side that is no variable, f(X1, g(X2)) = f(X3, X4)\n");
    const uint32_t left_tokens[] = {sharing_head(F, 2), 1, sharing_head(G, 1), 2};
    const uint32_t right_tokens[] = {sharing_head(F, 2), 3, 4};
    row left = row_of(left_tokens, 4), right = row_of(right_tokens, 3);
    need(sharing_unify(POSITIVE(before), TERM(left), TERM(right), OUT(after)));
    show("after it: X1 = X3, then X4 = g(X2)", after);

    /* f(X1, g(X2)) = f(X3, a): g/1 against a/0. */
    const uint32_t other_tokens[] = {sharing_head(F, 2), 3, sharing_head(A, 0)};
    row other = row_of(other_tokens, 3);
    need(sharing_unify(POSITIVE(before), TERM(left), TERM(other), OUT(failed)));
    int clash = sharing_terms_clash(TERM(left), TERM(other));
    show(clash ? "after f(X1, g(X2)) = f(X3, a), a clash" : "no clash", failed);

    /* Only the sets of variables are known: X5 is equal to both sides. */
    form wider, first, second;
    need(sharing_add_free(TABLE(before), 1, OUT(wider)));
    need(sharing_set_equation(POSITIVE(wider), 5, 1u << 0 | 1u << 1, OUT(first)));
    need(sharing_set_equation(POSITIVE(first), 5, 1u << 2 | 1u << 3, OUT(second)));
    need(sharing_project(POSITIVE(second), sharing_variables(4), OUT(after)));
    show("after X5 = f(X1, g(X2)), X5 = f(X3, X4)", after);
}

/* 9. A constant is a head of arity 0. A goal of arity 0 names no variable and changes nothing. */
static void arity_zero(void) {
    form before = table_of("110 001"), known, after, none;
    uint8_t constant[2];
    uint32_t apart = 0;
    printf("\n9. Arity 0\n");
    sharing_put_word(constant, 0, sharing_head(0, 0));
    need(sharing_equation(POSITIVE(before), 1, constant, sizeof constant, OUT(known)));
    show("after X1 = a", known);
    need(sharing_unknown_goal(TABLE(before), 0, OUT(after)));
    show("after a goal without arguments", after);
    need(sharing_independent(POSITIVE(before), 0, 7, &apart));
    printf("   %-46s %s\n", "may it run beside a goal on X1, X2, X3?", apart ? "yes" : "no");
    need(sharing_empty(1, OUT(none)));
    show("no variables: a table of one that is known", none);
}

/* 10. Across from a variable symbols do not matter: f(X2) and g(X2) give the same table. */
static void symbols(void) {
    form before = table_of("100 010 001"), one, other;
    uint8_t term[4];
    printf("\n10. Symbols\n");
    for (uint32_t symbol = 0; symbol < 2; symbol++) {
        sharing_put_word(term, 0, sharing_head(symbol, 1));
        sharing_put_word(term, 1, 2);
        need(sharing_equation(POSITIVE(before), 1, term, sizeof term,
                              symbol == 0 ? one.bytes : other.bytes, SHARING_MAX_FORM));
    }
    show("X1 = f(X2), with the symbol 0", one);
    show("X1 = f(X2), with the symbol 1", other);
}

/* 11. X1 = X1 says nothing; X1 = f(X1) never holds. */
static void own_term(void) {
    form before = table_of("110 101"), same, none;
    printf("\n11. A variable in its own term\n");
    const uint32_t alone[] = {1}, deeper[] = {sharing_head(0, 1), 1};
    row x1 = row_of(alone, 1), f_x1 = row_of(deeper, 2);
    need(sharing_equation(POSITIVE(before), 1, TERM(x1), OUT(same)));
    show("after X1 = X1", same);
    need(sharing_equation(POSITIVE(before), 1, TERM(f_x1), OUT(none)));
    int never = sharing_occurs(1, TERM(f_x1)) == SHARING_OCCURS_DEEPER;
    show(never ? "after X1 = f(X1), which never holds" : "no such term", none);
}

/* What is told of a group after X1 = the term, and the two entries where it is joined. */
static void show_reason(const char *what, form before, row term, uint32_t group) {
    uint32_t verdict, x_entry, t_entry, l = sharing_word_at(before.bytes, 0);
    need(sharing_reason(TABLE(before), 1, TERM(term), group, &verdict, &x_entry, &t_entry));
    printf("   %-46s %s\n", what, sharing_verdict_text(verdict));
    if (verdict != SHARING_JOINED)
        return;
    sharing_entry x, t;
    need(sharing_entry_at(TABLE(before), x_entry, &x));
    need(sharing_entry_at(TABLE(before), t_entry, &t));
    printf("   %-46s", "the first entries for x and for t");
    show_entry(l, x);
    show_entry(l, t);
    printf("\n");
}

/* 12. After X1 = f(X2) goals on X1 and on X3 may not run side by side, though X3 is not in it. */
static void why_not(void) {
    form given = table_of("100 010 011 001"), before, after;
    uint32_t apart = 1, group = 0;
    const uint32_t tokens[] = {sharing_head(0, 1), 2};
    row f_x2 = row_of(tokens, 2);
    printf("\n12. Why two goals may not run side by side\n");
    need(sharing_read(TABLE(given), OUT(before)));
    show("before X1 = f(X2)", before);
    need(sharing_equation(POSITIVE(before), 1, TERM(f_x2), OUT(after)));
    show("after X1 = f(X2)", after);
    need(sharing_independent(POSITIVE(after), 1u << 0, 1u << 2, &apart));
    printf("   %-46s %s\n", "may goals on X1 and on X3 run side by side?", apart ? "yes" : "no");
    need(sharing_meeting_group(TABLE(after), 1u << 0, 1u << 2, &group));
    show_reason("the group that is found, of X1, X2 and X3", before, f_x2, group);
    show_reason("the group of X1 and X3 alone", before, f_x2, 1u << 0 | 1u << 2);
}

int main(void) {
    printf("The recipes of docs/COMPILER.md\n");
    start_clause();
    rename_goal();
    known_goal();
    unknown_goal();
    disjunction();
    intersection();
    recursion();
    two_terms();
    arity_zero();
    symbols();
    own_term();
    why_not();
    return EXIT_SUCCESS;
}

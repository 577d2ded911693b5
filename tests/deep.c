/* Terms of 1024 tokens in the shapes that nest deepest, through the exported calls, on tables of 16 and of 32 variables; two terms
   have 1024 together. Run in a small stack by tests/stack. */
#include "sharing.h"

#include <stdio.h>

enum { TOKENS = 1024, HEAD = 0x8000 };

static void put(uint8_t *at, unsigned word) {
    at[0] = (uint8_t)(word & 0xff);
    at[1] = (uint8_t)(word >> 8);
}

/* The number of variables. */
static unsigned l;

/* So many heads of one argument, then heads of `arity` arguments, all of them variable x but the last: so many tokens in all. */
static void nest(uint8_t *term, unsigned tokens, unsigned first, unsigned arity, unsigned x) {
    for (unsigned i = 0; i + 1 < tokens; i++) {
        unsigned token = x;
        if (i < first)
            token = HEAD + 1;
        else if ((i - first) % arity == 0)
            token = HEAD + arity;
        put(term + 2 * i, token);
    }
    put(term + 2 * (tokens - 1), x);
}

/* A table of one entry, with 1 at X1 and 0 at X2, of 16 or of 32 variables. Gives the length of its form. */
static size_t make_table(uint8_t table[12]) {
    size_t value = l <= 16 ? 6 : 8;
    for (size_t i = 0; i < 12; i++)
        table[i] = 0;
    put(table, l), put(table + 2, 1), put(table + 4, 3), put(table + value, 1);
    return l <= 16 ? 8 : 12;
}

/* The answers to the term on one table: by itself on either side, as the equation of a run, and as that of a reason. */
static int answers(const uint8_t *term) {
    static uint8_t table[12], equations[8 + 2 * TOKENS], out[SHARING_MAX_FORM];
    uint32_t told[3];
    size_t table_len = make_table(table);
    put(equations, 1), put(equations + 2, TOKENS), put(equations + 4, 1), put(equations + 6, TOKENS);
    for (size_t i = 0; i < 2 * TOKENS; i++)
        equations[8 + i] = term[i];
    for (uint32_t side = 0; side < 2; side++) {
        uint32_t code = sharing_equation(side, table, table_len, 1, term, 2 * TOKENS, out, sizeof out);
        sharing_running ran = sharing_run(side, table, table_len, equations, sizeof equations);
        if (code != SHARING_ACCEPTED || ran.code != SHARING_ACCEPTED)
            return printf("side %u: %u, and %u of the run\n", (unsigned)side, (unsigned)code, (unsigned)ran.code);
    }
    uint32_t code = sharing_reason(table, table_len, 1, term, 2 * TOKENS, 1, &told[0], &told[1], &told[2]);
    return code == SHARING_ACCEPTED ? 0 : printf("the reason: %u\n", (unsigned)code);
}

/* The answers to two terms in the same way. */
static int answers_to_two(const uint8_t *terms, size_t left, size_t right) {
    static uint8_t table[12], equations[8 + 2 * TOKENS], out[SHARING_MAX_FORM];
    const uint8_t *second = terms + 2 * left;
    size_t table_len = make_table(table);
    put(equations, 1), put(equations + 2, TOKENS);
    put(equations + 4, (unsigned)left), put(equations + 6, (unsigned)right);
    for (size_t i = 0; i < 2 * TOKENS; i++)
        equations[8 + i] = terms[i];
    for (uint32_t side = 0; side < 2; side++) {
        uint32_t code = sharing_unify(side, table, table_len, terms, 2 * left, second, 2 * right, out, sizeof out);
        sharing_running ran = sharing_unify_run(side, table, table_len, equations, sizeof equations);
        uint32_t step = sharing_unify_step(&ran, terms, 2 * left, second, 2 * right);
        if (code != SHARING_ACCEPTED || ran.code != SHARING_ACCEPTED || step != SHARING_ACCEPTED)
            return printf("side %u, %u and %u tokens: %u, %u of the run, %u of the step\n", (unsigned)side, (unsigned)left,
                          (unsigned)right, (unsigned)code, (unsigned)ran.code, (unsigned)step);
    }
    return 0;
}

/* Two terms of heads of `arity` arguments, as long as each other or not, with variables of their own or with the same one, so that
   it is set equal to itself or to a term that has it. */
static int two_terms(unsigned arity, unsigned x) {
    static uint8_t terms[2 * TOKENS];
    static const unsigned lefts[] = {1, 2, 256, TOKENS / 2, TOKENS - 256, TOKENS - 2, TOKENS - 1};
    for (size_t i = 0; i < sizeof lefts / sizeof lefts[0]; i++) {
        unsigned left = lefts[i], right = TOKENS - left;
        nest(terms, left, (left - 1) % arity, arity, x);
        nest(terms + 2 * left, right, (right - 1) % arity, arity, l);
        if (answers_to_two(terms, left, right) != 0)
            return 1;
    }
    return 0;
}

int main(void) {
    static uint8_t term[2 * TOKENS];
    const unsigned shapes[][2] = {{TOKENS - 1, 1}, {1, 2}, {3, 15}};
    for (l = 16; l <= 32; l += 16)
        for (size_t i = 0; i < sizeof shapes / sizeof shapes[0]; i++) {
            nest(term, TOKENS, shapes[i][0], shapes[i][1], l);
            if (answers(term) != 0 || two_terms(shapes[i][1], 1) != 0 || two_terms(shapes[i][1], l) != 0)
                return printf("of %u variables\n", l);
            nest(term, TOKENS, shapes[i][0], shapes[i][1], 1);
            if (answers(term) != 0)
                return printf("of %u variables, with the left one in the term\n", l);
        }
    return 0;
}

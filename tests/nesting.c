/*
 * The stack that a call needs, measured: it runs in a thread whose stack was filled before, and the
 * bytes that changed are counted. Terms of several lengths in the shapes that nest deepest, two terms
 * with so many tokens together in several splits, and the other calls on tables that are long or have
 * many stars. The arguments are what sharing.h says, and must not be exceeded: tokens and KiB, tokens
 * and KiB, ..., and the KiB of any other call.
 */
#define _DEFAULT_SOURCE
#include <sharing_util.h>

#include <pthread.h>
#include <stdio.h>
#include <stdlib.h>

enum { STACK = 1 << 20, FILL = 0x5a, KIB = 1024, UTIL = 16 };

/* The input and the output of the call that is measured. */
static uint8_t table[SHARING_MAX_FORM], other[SHARING_MAX_FORM], out[SHARING_MAX_FORM];
static uint8_t term[2 * SHARING_MAX_TOKENS], equations[8 + 2 * SHARING_MAX_TOKENS];
static uint8_t packed[SHARING_MAX_PACKED];
static size_t table_len, packed_len, term_len, left_len; /* the left term is the first part of two */
static uint32_t side, code, answer, x_entry, t_entry;
static uint32_t l, words[SHARING_MAX_VARIABLES]; /* the words are 1 to l */
static sharing_running state;
static int number;

/* The calls with a term, those with two, the others, and functions of sharing_util.h. */
enum { EQUATION, RUN, STEP, REASON, WITH_ONE };
enum { UNIFY = WITH_ONE, UNIFY_RUN, UNIFY_STEP, WITH_TERM };
enum { READ = WITH_TERM, PACK, UNPACK, CONVERT, SIDES, JOIN, PROJECT, EQUAL, GROUND, INDEPENDENT,
       START, WRITE, WITHOUT_TERM };
enum { SELECT = WITHOUT_TERM, UNKNOWN, KNOWN, CALLS };

/* The call by its number. */
static void *call(void *unused) {
    const uint8_t *t = table, *right = term + left_len;
    size_t n = table_len, o = sizeof out, right_len = term_len - left_len;
    uint32_t all = sharing_variables(l);
    switch (number) {
    case EQUATION: code = sharing_equation(side, t, n, 1, term, term_len, out, o); break;
    case RUN: state = sharing_run(side, t, n, equations, 8 + term_len); code = state.code; break;
    case STEP: code = sharing_step(&state, 1, term, term_len); break;
    case REASON:
        code = sharing_reason(t, n, 1, term, term_len, all, &answer, &x_entry, &t_entry);
        break;
    case UNIFY:
        code = sharing_unify(side, t, n, term, left_len, right, right_len, out, o);
        break;
    case UNIFY_RUN:
        state = sharing_unify_run(side, t, n, equations, 8 + term_len);
        code = state.code;
        break;
    case UNIFY_STEP: code = sharing_unify_step(&state, term, left_len, right, right_len); break;
    case READ: code = sharing_read(t, n, out, o); break;
    case PACK: code = sharing_pack(t, n, out, o); break;
    case UNPACK: code = sharing_unpack(packed, packed_len, out, o); break;
    case CONVERT: code = sharing_convert(l, words, l, out, o); break;
    case SIDES: code = sharing_change_side(side, t, n, out, o); break;
    case JOIN: code = sharing_join(side, t, n, t, n, out, o); break;
    case PROJECT: code = sharing_project(side, t, n, 3, out, o); break;
    case EQUAL: code = sharing_equal(t, n, t, n, &answer); break;
    case GROUND: code = sharing_ground(side, t, n, 1, &answer); break;
    case INDEPENDENT:
        code = sharing_independent(side, t, n, 0x55555555 & all, 0xaaaaaaaa & all, &answer);
        break;
    case START: state = sharing_start(side, t, n); code = state.code; break;
    case WRITE: code = sharing_write(&state, out, o); break;
    case SELECT: code = sharing_select(side, t, n, words, l, out, o); break;
    case UNKNOWN: code = sharing_unknown_goal(t, n, all, out, o); break;
    default: code = sharing_known_goal(t, n, other, n, words, l, out, o); break;
    }
    return unused;
}

/* The bytes of stack that the call changed. */
static size_t measured(unsigned char *stack) {
    pthread_attr_t attributes;
    pthread_t thread;
    size_t kept = 0;
    memset(stack, FILL, STACK);
    if (pthread_attr_init(&attributes) != 0 ||
        pthread_attr_setstack(&attributes, stack, STACK) != 0 ||
        pthread_create(&thread, &attributes, call, NULL) != 0 || pthread_join(thread, NULL) != 0)
        exit(EXIT_FAILURE);
    while (kept < STACK && stack[kept] == FILL)
        kept++;
    return STACK - kept;
}

/* Heads of `arity` arguments, all of them variable x but the last, which nests: so many tokens in
 * all. Both sides of an equation have variables of their own, so that the table is worked on. */
static void nest(uint8_t *row, size_t tokens, uint32_t arity, uint32_t x) {
    size_t first = (tokens - 1) % arity;
    for (size_t i = 0; i < tokens; i++) {
        uint32_t head = i < first ? 1 : (i - first) % arity == 0 ? arity : 0;
        sharing_put_word(row, i, head != 0 && i + 1 < tokens ? sharing_head(0, head) : x);
    }
}

/* One term of so many tokens or, where left is not 0, two; and the equations of a run of it. */
static void make_terms(size_t tokens, size_t left, uint32_t arity) {
    left_len = 2 * left;
    term_len = 2 * tokens;
    if (left > 0)
        nest(term, left, arity, 1);
    nest(term + left_len, tokens - left, arity, 2);
    sharing_put_word(equations, 0, 1);
    sharing_put_word(equations, 1, (uint32_t)tokens);
    sharing_put_word(equations, 2, left > 0 ? (uint32_t)left : 1);
    sharing_put_word(equations, 3, (uint32_t)(tokens - left));
    memcpy(equations + 8, term, term_len);
}

/* The most that the calls first to last need with these terms, on either side. */
static size_t most_of(unsigned char *stack, int first, int last, size_t tokens) {
    size_t most = 0;
    for (side = 0; side < 2; side++)
        for (number = first; number < last; number++) {
            state = sharing_start(side, table, table_len);
            size_t used = measured(stack);
            if (code != SHARING_ACCEPTED) {
                printf("%u tokens are refused %u\n", (unsigned)tokens, (unsigned)code);
                exit(EXIT_FAILURE);
            }
            most = used > most ? used : most;
        }
    return most;
}

/* The most that a call with a term or two of so many tokens needs, in any shape. */
static size_t most_with_term(unsigned char *stack, size_t tokens) {
    const size_t lefts[] = {1, tokens / 4, tokens / 2, tokens - 1};
    size_t most = 0;
    for (uint32_t arity = 1; arity <= 15; arity++) {
        make_terms(tokens, 0, arity);
        size_t used = most_of(stack, EQUATION, WITH_ONE, tokens);
        most = used > most ? used : most;
        for (size_t i = 0; i < sizeof lefts / sizeof lefts[0]; i++) {
            make_terms(tokens, lefts[i], arity);
            used = most_of(stack, UNIFY, WITH_TERM, tokens);
            most = used > most ? used : most;
        }
    }
    return most;
}

/* The most that the calls first to last without a term need, over tables of many kinds. */
static size_t most_without(unsigned char *stack, int first, int last) {
    size_t most = 0;
    for (uint32_t kind = 0; kind < 6; kind++) {
        sharing_entry entries[SHARING_MAX_ENTRIES];
        uint32_t n = kind % 3 == 0 ? 256 : kind % 3 == 1 ? 16 : 1, next = 15;
        for (uint32_t i = 0; i < n; i++) {
            next = next * 1664525u + 1013904223u;
            uint32_t one = next >> 16 | next << 16, two = next >> 8 | next << 24;
            entries[i].care = (kind < 3 ? one & two : one | two) & sharing_variables(l);
            entries[i].value = entries[i].care & (next >> 12 | next << 20);
        }
        if (sharing_make_form(l, entries, n, table, sizeof table) != SHARING_ACCEPTED)
            exit(EXIT_FAILURE);
        table_len = sharing_form_length(l, n);
        memcpy(other, table, sizeof table);
        if (sharing_pack(table, table_len, packed, sizeof packed) != SHARING_ACCEPTED)
            exit(EXIT_FAILURE);
        packed_len = sharing_packed_front(packed, sizeof packed);
        for (side = 0; side < 2; side++)
            for (number = first; number < last; number++) {
                state = sharing_start(side, table, table_len);
                size_t used = measured(stack);
                most = used > most ? used : most;
            }
    }
    return most;
}

/* Prints a measure, and tells one that is above what is said. */
static int within(const char *what, size_t most, size_t said) {
    printf("%s: %u bytes, said %u KiB\n", what, (unsigned)most, (unsigned)said);
    return most <= said * KIB;
}

/* All calls on tables of one l. */
static int check(unsigned char *stack, int count, char **said) {
    int good = 1;
    if (sharing_all_star(l, table, sizeof table) != SHARING_ACCEPTED)
        return 0;
    table_len = sharing_form_length(l, 1);
    for (uint32_t i = 0; i < l; i++)
        words[i] = i + 1;
    for (int i = 1; i + 1 < count; i += 2) {
        size_t tokens = (size_t)atoi(said[i]);
        char what[48];
        sprintf(what, "%u tokens, %u variables", (unsigned)tokens, (unsigned)l);
        good = within(what, most_with_term(stack, tokens), (size_t)atoi(said[i + 1])) && good;
    }
    good = within("other calls", most_without(stack, WITH_TERM, WITHOUT_TERM),
                  (size_t)atoi(said[count - 1])) && good;
    return within("goals", most_without(stack, WITHOUT_TERM, CALLS),
                  (size_t)atoi(said[2]) + UTIL) && good;
}

int main(int count, char **said) {
    unsigned char *stack = NULL;
    int good = count > 2 && count % 2 == 0;
    if (posix_memalign((void **)&stack, 4096, STACK) != 0)
        return EXIT_FAILURE;
    for (l = 16; l <= SHARING_MAX_VARIABLES; l += 16)
        good = check(stack, count, said) && good;
    free(stack);
    return good ? EXIT_SUCCESS : EXIT_FAILURE;
}

/*
 * Threads that call at the same time: each gets what one thread alone got. They read the same
 * tables; every output, answer and state is a thread's own.
 */
#define _DEFAULT_SOURCE
#include <sharing_util.h>

#include <pthread.h>
#include <stdio.h>
#include <stdlib.h>

enum { THREADS = 8, ROUNDS = 200, TABLES = 24, L = 7, WIDE = 32 };

typedef struct { uint8_t bytes[SHARING_MAX_FORM]; } form;

/* All that the calls give for one table and the next. */
typedef struct { uint32_t codes[13]; form forms[8]; uint32_t answers[6]; } result;

static form tables[TABLES];
static result due[TABLES];

/* Every kind of call on table i and the next one. */
static void calls(size_t i, result *got) {
    const uint8_t *one = tables[i].bytes, *two = tables[(i + 1) % TABLES].bytes;
    size_t one_len = sharing_front_length(one, SHARING_MAX_FORM);
    size_t two_len = sharing_front_length(two, SHARING_MAX_FORM);
    uint8_t term[SHARING_SET_TERM];
    size_t term_len = sharing_set_term(0x56, term);
    uint8_t other[6];
    sharing_put_word(other, 0, sharing_head(0, 2)); /* as the term begins */
    sharing_put_word(other, 1, 1);
    sharing_put_word(other, 2, 4);
    memset(got, 0, sizeof *got);
    sharing_running state = sharing_start(i % 2, one, one_len);
    got->codes[0] = sharing_equation(i % 2, one, one_len, 1, term, term_len, got->forms[0].bytes,
                                     sizeof(form));
    got->codes[1] =
        sharing_join(i % 2, one, one_len, two, two_len, got->forms[1].bytes, sizeof(form));
    got->codes[2] = sharing_project(i % 2, one, one_len, 0x2b, got->forms[2].bytes, sizeof(form));
    got->codes[3] = sharing_change_side(i % 2, one, one_len, got->forms[3].bytes, sizeof(form));
    got->codes[4] = sharing_equal(one, one_len, two, two_len, &got->answers[0]);
    got->codes[5] = sharing_independent(i % 2, one, one_len, 0x3, 0x70, &got->answers[1]);
    got->codes[6] = sharing_step(&state, 4, term, term_len);
    got->codes[7] = sharing_write(&state, got->forms[4].bytes, sizeof(form));
    got->codes[8] = sharing_pack(one, one_len, got->forms[5].bytes, sizeof(form));
    got->codes[9] = sharing_unpack(got->forms[5].bytes,
                                   sharing_packed_front(got->forms[5].bytes, sizeof(form)),
                                   got->forms[6].bytes, sizeof(form));
    got->codes[10] = sharing_unify(i % 2, one, one_len, term, term_len, other, sizeof other,
                                   got->forms[7].bytes, sizeof(form));
    got->codes[11] = sharing_unify_step(&state, other, sizeof other, term, term_len);
    got->answers[2] = state.applied;
    got->codes[12] = sharing_reason(one, one_len, 1, term, term_len, 0x57, &got->answers[3],
                                    &got->answers[4], &got->answers[5]);
}

/* One thread: all tables, many times. Its answer is NULL where something differs. */
static void *work(void *good) {
    result got;
    for (size_t round = 0; round < ROUNDS; round++)
        for (size_t i = 0; i < TABLES; i++) {
            calls(i, &got);
            if (memcmp(&got, &due[i], sizeof got) != 0)
                good = NULL;
        }
    return good;
}

int main(void) {
    pthread_t threads[THREADS];
    uint32_t next = 1741;
    for (size_t t = 0; t < TABLES; t++) {
        sharing_entry entries[12];
        uint32_t l = t < TABLES / 2 ? L : WIDE;
        for (size_t i = 0; i < 12; i++) {
            next = next * 1664525u + 1013904223u;
            entries[i].care = (next >> 16 | next >> 8 | next << 16) & sharing_variables(l);
            entries[i].value = entries[i].care & (next >> 12 | next << 20);
        }
        if (sharing_make_form(l, entries, t % 12, tables[t].bytes, sizeof(form)) != 0)
            return EXIT_FAILURE;
    }
    for (size_t i = 0; i < TABLES; i++)
        calls(i, &due[i]);
    for (size_t i = 0; i < THREADS; i++)
        if (pthread_create(&threads[i], NULL, work, due) != 0)
            return EXIT_FAILURE;
    for (size_t i = 0; i < THREADS; i++) {
        void *good = NULL;
        if (pthread_join(threads[i], &good) != 0 || good == NULL) {
            printf("a thread got another answer than one alone\n");
            return EXIT_FAILURE;
        }
    }
    printf("%d threads, %d calls each\n", THREADS, ROUNDS * TABLES * 15);
    return EXIT_SUCCESS;
}

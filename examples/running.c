/*
 * The running analysis: one state that each equation changes, what to do where an equation is
 * refused, and how to store its table. X1 Baptism, X2 Wedding, X3 Parish.
 *
 *     cc running.c $(pkg-config --cflags --libs sharing) -o running
 */
#include <sharing_util.h>

#include <stdio.h>
#include <stdlib.h>

/* What the program does with an equation that the analysis refuses. */
enum { SKIPS = 0, RUNS_IT = 1 };

/* An answer other than the one that is due ends the program. */
static void expect(uint32_t due, uint32_t code, const char *call) {
    if (code != due) {
        fprintf(stderr, "%s answered %s\n", call, sharing_refusal_word(code));
        exit(EXIT_FAILURE);
    }
}

/* The state, which is open to read: equations accepted so far, and the table. */
static void print_state(const char *what, uint32_t answer, const sharing_running *state) {
    const sharing_table *table = &state->table;
    char text[SHARING_MAX_VARIABLES + 1];
    printf("%-24s answer %u, %s; applied %u, table", what, (unsigned)answer,
           sharing_refusal_word(answer), (unsigned)state->applied);
    for (size_t i = 0; i < table->n && i < 3; i++) {
        sharing_entry entry = {table->care[i], table->value[i]};
        expect(0, sharing_entry_text(table->l, entry, text, sizeof text), "sharing_entry_text");
        printf(" %s", text);
    }
    printf("%s\n", table->n > 3 ? " ..." : "");
}

/* A state with the table of all groups. It describes any bindings, so that it is always sound. */
static sharing_running start_unknown(uint32_t side, uint32_t l) {
    uint8_t form[SHARING_MAX_FORM];
    expect(0, sharing_unknown_form(side, l, form, sizeof form), "sharing_unknown_form");
    sharing_running state = sharing_start(side, form, sharing_front_length(form, sizeof form));
    expect(0, state.code, "sharing_start");
    return state;
}

/*
 * One more equation, between a variable and a term with the variables of a set. A refused equation
 * has not been applied. If the program does not run it either, the state holds as it is. If the
 * program runs it all the same, the state may lack groups: go on from the table of all groups, in
 * a new state that counts from 0.
 */
static void equation(sharing_running *state, const char *text, uint32_t variable, uint32_t set,
                     int if_refused) {
    uint8_t term[SHARING_SET_TERM];
    size_t term_len = sharing_set_term(set, term);
    uint32_t answer = sharing_step(state, variable, term, term_len);
    if (answer != SHARING_ACCEPTED && if_refused == RUNS_IT)
        *state = start_unknown(state->side, state->table.l);
    print_state(text, answer, state);
}

/* May goals on two sets of variables run side by side? */
static void ask(const char *what, const sharing_running *state, uint32_t one, uint32_t other) {
    uint8_t form[SHARING_MAX_FORM];
    uint32_t yes = 0;
    expect(0, sharing_write(state, form, sizeof form), "sharing_write");
    expect(0,
           sharing_independent(state->side, form, sharing_front_length(form, sizeof form), one,
                               other, &yes),
           "sharing_independent");
    printf("%-24s %s\n", what, yes ? "yes" : "no");
}

/*
 * Which side has the shorter form? Both buffers are longer than the forms in them: the part that
 * comes back ends where its form does.
 */
static void print_smaller(const char *what, const sharing_running *state) {
    uint8_t positive[SHARING_MAX_FORM] = {0}, negative[SHARING_MAX_FORM] = {0};
    sharing_part part = {positive, 0};
    expect(0, sharing_write(state, positive, sizeof positive), "sharing_write");
    expect(0,
           sharing_change_side(SHARING_POSITIVE, positive,
                               sharing_front_length(positive, sizeof positive), negative,
                               sizeof negative),
           "sharing_change_side");
    sharing_smaller(positive, sizeof positive, negative, sizeof negative, &part);
    if (part.len == 0) {
        fprintf(stderr, "sharing_smaller gave no part\n");
        exit(EXIT_FAILURE);
    }
    printf("%-24s the %s form, %u bytes\n", what, part.ptr == positive ? "positive" : "negative",
           (unsigned)part.len);
}

/*
 * The table packed, as it would be stored, and a new analysis that goes on from what was stored.
 * The packed form says neither its side nor how many equations were applied: store these with it.
 */
static sharing_running store_and_resume(const sharing_running *state) {
    uint8_t form[SHARING_MAX_FORM], stored[SHARING_MAX_PACKED];
    expect(0, sharing_write(state, form, sizeof form), "sharing_write");
    size_t form_len = sharing_front_length(form, sizeof form);
    expect(0, sharing_pack(form, form_len, stored, sizeof stored), "sharing_pack");
    size_t stored_len = sharing_packed_front(stored, sizeof stored);
    expect(0, sharing_unpack(stored, stored_len, form, sizeof form), "sharing_unpack");
    printf("%-24s %u bytes, packed %u\n", "stored", (unsigned)form_len, (unsigned)stored_len);
    return sharing_start(state->side, form, sharing_front_length(form, sizeof form));
}

/* The register: two good equations, and a wrong one that the program does not run. */
static void parish(void) {
    const sharing_entry entries[] = {{7, 1}, {3, 2}, {5, 4}}; /* 100 01* 0*1 */
    uint8_t form[SHARING_MAX_FORM];
    expect(0, sharing_make_form(3, entries, 3, form, sizeof form), "sharing_make_form");
    sharing_running state =
        sharing_start(SHARING_POSITIVE, form, sharing_front_length(form, sizeof form));
    expect(0, state.code, "sharing_start");
    print_state("start", state.code, &state);
    print_smaller("smaller at the start", &state);
    equation(&state, "Baptism = after(Wedding)", 1, 2, RUNS_IT);
    equation(&state, "X4 = ashby", 4, 0, SKIPS);
    equation(&state, "Parish = ashby", 3, 0, RUNS_IT);
    print_smaller("smaller at the end", &state);
    state = store_and_resume(&state);
    print_state("read again", state.code, &state);
}

/*
 * Sixteen variables, each of which may share with the next one. X1 = f(X2, ..., X15) needs entry
 * 257, and is run all the same.
 */
static void full(void) {
    uint32_t groups[15];
    for (int i = 0; i < 15; i++)
        groups[i] = 3u << i;
    uint8_t form[SHARING_MAX_FORM];
    expect(0, sharing_convert(16, groups, 15, form, sizeof form), "sharing_convert");
    sharing_running state =
        sharing_start(SHARING_POSITIVE, form, sharing_front_length(form, sizeof form));
    expect(0, state.code, "sharing_start");
    print_state("start", state.code, &state);
    equation(&state, "X16 = a", 16, 0, RUNS_IT);
    ask("X2 beside X4?", &state, 1u << 1, 1u << 3);
    equation(&state, "X1 = f(X2, ..., X15)", 1, sharing_variables(15) & ~1u, RUNS_IT);
    ask("X2 beside X4?", &state, 1u << 1, 1u << 3);
    equation(&state, "X2 = a", 2, 0, RUNS_IT);
    ask("X2 beside X4?", &state, 1u << 1, 1u << 3);
}

int main(void) {
    printf("Three variables; the wrong equation X4 = ashby is not run\n");
    parish();
    printf("\nSixteen variables; a full equation is run all the same\n");
    full();
    return EXIT_SUCCESS;
}

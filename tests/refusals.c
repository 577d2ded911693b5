/*
 * Every refusal that the header documents, call by call. Each case has the fault that is named
 * and, where they can stand together, the later ones too: so the order shows. After a refusal the
 * outputs must be as they were.
 */
#include <sharing.h>

#include <stdio.h>
#include <stdlib.h>
#include <string.h>

#define WORD(w) (uint8_t)((w) & 0xff), (uint8_t)((w) >> 8 & 0xff)
#define WIDE(w) WORD(w), WORD((w) >> 16) /* a care or value word from l = 17 on */
#define BYTES(buffer) (buffer), sizeof(buffer)
#define COUNT(array) (sizeof(array) / sizeof((array)[0]))
#define TOLD &told[0], &told[1], &told[2] /* the words of sharing_reason */
#define EXPECT(due, code) expect_at(__LINE__, due, code)
#define HOLDS(fact) holds_at(__LINE__, fact)

enum { FILL = 0x5a, NO_ANSWER = 7, FAR = 99 };

static uint8_t out[SHARING_MAX_FORM];
static uint32_t answer, told[3];
static unsigned cases, failures;

static void holds_at(int line, int holds) {
    cases++;
    if (!holds) {
        printf("refusals.c:%d does not hold\n", line);
        failures++;
    }
}

static void clear_outputs(void) {
    memset(out, FILL, sizeof out);
    answer = told[0] = told[1] = told[2] = NO_ANSWER;
}

static void expect_at(int line, uint32_t due, uint32_t code) {
    int kept = answer == NO_ANSWER;
    for (size_t i = 0; i < COUNT(told); i++)
        kept = kept && told[i] == NO_ANSWER;
    for (size_t i = 0; i < sizeof out; i++)
        kept = kept && out[i] == FILL;
    holds_at(line, code == due && (due == SHARING_ACCEPTED || kept));
    clear_outputs();
}

/* Tables. `good` has three variables and the entries 100, 01* and 0*1. */
static const uint8_t good[] = {WORD(3), WORD(3), WORD(7), WORD(3),
                               WORD(5), WORD(1), WORD(2), WORD(4)};
static const uint8_t two_variables[] = {WORD(2), WORD(1), WORD(3), WORD(3)};
static const uint8_t no_sizes[] = {WORD(33), 1};
static const uint8_t width_33[] = {WORD(33), WORD(257), 1};
static const uint8_t width_0[] = {WORD(0), WORD(257)};
static const uint8_t width_most[] = {WORD(0xffff), WORD(257)};
static const uint8_t entries_257[] = {WORD(1), WORD(257), WORD(2), WORD(2)};
static const uint8_t wide_257[] = {WORD(32), WORD(257), WIDE(0u), 1};
static const uint8_t too_short[] = {WORD(2), WORD(1), WORD(4), 0};
static const uint8_t too_long[] = {WORD(2), WORD(1), WORD(4), WORD(0), 0};
static const uint8_t above_l[] = {WORD(2), WORD(1), WORD(4), WORD(0)};
static const uint8_t no_care[] = {WORD(2), WORD(1), WORD(1), WORD(2)};
/* Words of the other width, and 32-bit words that are cut, loose or above l. */
static const uint8_t narrow_17[] = {WORD(17), WORD(1), WORD(0), WORD(1)};
static const uint8_t wide_16[] = {WORD(16), WORD(1), WIDE(0x10000u), WIDE(0u)};
static const uint8_t cut_32[] = {WORD(32), WORD(1), WIDE(0u), 1, 0, 0};
static const uint8_t long_32[] = {WORD(32), WORD(1), WIDE(0u), WIDE(1u), 0};
static const uint8_t above_17[] = {WORD(17), WORD(1), WIDE(1u << 17), WIDE(0u)};
static const uint8_t above_31[] = {WORD(31), WORD(1), WIDE(1u << 31), WIDE(0u)};
static const uint8_t no_care_32[] = {WORD(32), WORD(1), WIDE(~0u >> 1), WIDE(1u << 31)};

typedef struct { const uint8_t *bytes; size_t len; uint32_t due; } bad_form;

static const bad_form bad_tables[] = {
    {BYTES(no_sizes), SHARING_TORN},    {BYTES(width_33), SHARING_WIDTH},
    {BYTES(width_0), SHARING_WIDTH},    {BYTES(width_most), SHARING_WIDTH},
    {BYTES(entries_257), SHARING_ENTRIES}, {BYTES(wide_257), SHARING_ENTRIES},
    {BYTES(too_short), SHARING_TORN},   {BYTES(too_long), SHARING_TORN},
    {BYTES(narrow_17), SHARING_TORN},   {BYTES(wide_16), SHARING_TORN},
    {BYTES(cut_32), SHARING_TORN},      {BYTES(long_32), SHARING_TORN},
    {BYTES(above_l), SHARING_STRAY},    {BYTES(no_care), SHARING_STRAY},
    {BYTES(above_17), SHARING_STRAY},   {BYTES(above_31), SHARING_STRAY},
    {BYTES(no_care_32), SHARING_STRAY}};

/* Terms, for tables of three variables. */
static uint8_t zeros[2 * SHARING_MAX_TOKENS + 3];
static const uint8_t variable_1[] = {WORD(1)};
static const uint8_t variable_2[] = {WORD(2)};
static const uint8_t variable_4[] = {WORD(4)};
static const uint8_t two_then_4[] = {WORD(2), WORD(4)};
static const uint8_t two_terms[] = {WORD(2), WORD(3)};
static const uint8_t half_term[] = {WORD(0x8002), WORD(2)};

typedef struct { uint32_t variable; const uint8_t *term; size_t len; uint32_t due; } bad_equation;

static const bad_equation bad_equations[] = {
    {FAR, zeros, 2 * SHARING_MAX_TOKENS + 2, SHARING_LONG},
    {FAR, zeros, 2 * SHARING_MAX_TOKENS + 3, SHARING_LONG},
    {FAR, zeros, 2 * SHARING_MAX_TOKENS + 1, SHARING_TORN},
    {0, BYTES(half_term), SHARING_NAME},
    {4, BYTES(half_term), SHARING_NAME},
    {1, BYTES(variable_4), SHARING_NAME},
    {1, BYTES(two_then_4), SHARING_NAME},
    {1, zeros, 2, SHARING_NAME},
    {1, BYTES(two_terms), SHARING_TERM},
    {1, BYTES(half_term), SHARING_TERM},
    {1, zeros, 0, SHARING_TERM}};

/* Pairs of terms: the left one, then the right one. */
typedef struct { const uint8_t *left; size_t left_len; const uint8_t *right; size_t right_len;
                 uint32_t due; } bad_pair;

enum { MOST_BYTES = 2 * SHARING_MAX_TOKENS };

static const bad_pair bad_pairs[] = {
    {zeros, MOST_BYTES + 2, zeros, 0, SHARING_LONG},
    {zeros, MOST_BYTES + 3, zeros, 1, SHARING_LONG},
    {zeros, 1, zeros, MOST_BYTES + 3, SHARING_LONG},
    {zeros, MOST_BYTES, zeros, 2, SHARING_LONG},
    {zeros, MOST_BYTES / 2, zeros, MOST_BYTES / 2 + 3, SHARING_LONG},
    {zeros, MOST_BYTES + 1, zeros, 1, SHARING_TORN},
    {zeros, MOST_BYTES / 2 + 1, zeros, MOST_BYTES / 2 + 1, SHARING_TORN},
    {zeros, 3, zeros, 2, SHARING_TORN},
    {zeros, 2, zeros, 3, SHARING_TORN},
    {BYTES(variable_4), BYTES(variable_4), SHARING_NAME},
    {BYTES(two_then_4), BYTES(variable_4), SHARING_NAME},
    {zeros, 2, BYTES(half_term), SHARING_NAME},
    {BYTES(two_terms), BYTES(variable_4), SHARING_TERM},
    {BYTES(half_term), BYTES(variable_4), SHARING_TERM},
    {zeros, 0, BYTES(variable_4), SHARING_TERM},
    {BYTES(variable_2), BYTES(variable_4), SHARING_NAME},
    {BYTES(variable_2), BYTES(two_then_4), SHARING_NAME},
    {BYTES(variable_2), zeros, 2, SHARING_NAME},
    {BYTES(variable_2), BYTES(two_terms), SHARING_TERM},
    {BYTES(variable_2), BYTES(half_term), SHARING_TERM},
    {BYTES(variable_2), zeros, 0, SHARING_TERM}};

/* Is the table of a refused start or run all zero, and nothing applied? */
static int is_zero(const sharing_running *state) {
    int zero = state->applied == 0 && state->table.l == 0 && state->table.n == 0;
    for (size_t i = 0; i < SHARING_MAX_ENTRIES; i++)
        zero = zero && state->table.care[i] == 0 && state->table.value[i] == 0;
    return zero;
}

/* Do two states hold the same, `code` too? */
static int same_state(const sharing_running *state, const sharing_running *other) {
    return state->code == other->code && state->side == other->side &&
           state->applied == other->applied && state->table.l == other->table.l &&
           state->table.n == other->table.n &&
           memcmp(state->table.care, other->table.care, sizeof other->table.care) == 0 &&
           memcmp(state->table.value, other->table.value, sizeof other->table.value) == 0;
}

/* The refusals of a table's form come before all others of the call. */
static void refuse_table(bad_form bad) {
    const uint8_t *form = bad.bytes;
    size_t len = bad.len;
    EXPECT(bad.due, sharing_read(form, len, out, 0));
    EXPECT(bad.due, sharing_pack(form, len, out, 0));
    EXPECT(bad.due, sharing_change_side(1, form, len, out, 0));
    EXPECT(bad.due, sharing_equation(0, form, len, FAR, BYTES(zeros), out, 0));
    EXPECT(bad.due, sharing_unify(1, form, len, BYTES(zeros), zeros, 1, out, 0));
    EXPECT(bad.due, sharing_join(1, form, len, zeros, 3, out, 0));
    EXPECT(bad.due, sharing_join(0, BYTES(good), form, len, out, 0));
    EXPECT(bad.due, sharing_project(0, form, len, 0, out, 0));
    EXPECT(bad.due, sharing_equal(form, len, zeros, 3, &answer));
    EXPECT(bad.due, sharing_equal(BYTES(good), form, len, &answer));
    EXPECT(bad.due, sharing_ground(0, form, len, FAR, &answer));
    EXPECT(bad.due, sharing_independent(1, form, len, 1u << 31, 0, &answer));
    EXPECT(bad.due, sharing_reason(form, len, FAR, BYTES(zeros), 0, TOLD));
    sharing_running started = sharing_start(1, form, len);
    EXPECT(bad.due, started.code);
    HOLDS(started.side == 1 && is_zero(&started));
    EXPECT(SHARING_WIDTH, sharing_step(&started, FAR, BYTES(zeros)));
    EXPECT(SHARING_WIDTH, sharing_unify_step(&started, BYTES(zeros), zeros, 1));
    EXPECT(bad.due, started.code);
    EXPECT(SHARING_WIDTH, sharing_write(&started, out, 0));
    sharing_running ran = sharing_run(0, form, len, zeros, 3);
    EXPECT(bad.due, ran.code);
    HOLDS(is_zero(&ran));
    ran = sharing_unify_run(0, form, len, zeros, 3);
    EXPECT(bad.due, ran.code);
    HOLDS(is_zero(&ran));
}

/* The refusals of a packed form; `packed` is the table `good`. */
static void refuse_packed(void) {
    static const uint8_t packed[] = {WORD(3), WORD(3), 1, 3 + 2 * 9, 2 * 3 + 9};
    static const uint8_t short_row[] = {WORD(6), WORD(1), 255};
    static const uint8_t long_row[] = {WORD(5), WORD(1), 255, 0};
    static const uint8_t byte_243[] = {WORD(5), WORD(2), 242, 243};
    static const uint8_t byte_255[] = {WORD(6), WORD(1), 255, 0};
    static const uint8_t unused_1[] = {WORD(4), WORD(2), 81, 80};
    static const uint8_t unused_2[] = {WORD(6), WORD(1), 242, 6};
    static const uint8_t short_32[] = {WORD(32), WORD(1), 255, 0, 0, 0, 0, 0};
    static const uint8_t unused_32[] = {WORD(32), WORD(1), 0, 0, 0, 0, 0, 0, 9};
    static const uint8_t byte_32[] = {WORD(32), WORD(1), 0, 0, 0, 0, 0, 243, 1};
    const bad_form bad[] = {{BYTES(no_sizes), SHARING_TORN},  {BYTES(width_33), SHARING_WIDTH},
                            {BYTES(width_0), SHARING_WIDTH},  {BYTES(entries_257), SHARING_ENTRIES},
                            {BYTES(width_most), SHARING_WIDTH}, {BYTES(wide_257), SHARING_ENTRIES},
                            {BYTES(short_32), SHARING_TORN},  {BYTES(unused_32), SHARING_DIGIT},
                            {BYTES(byte_32), SHARING_DIGIT},
                            {BYTES(short_row), SHARING_TORN}, {BYTES(long_row), SHARING_TORN},
                            {BYTES(byte_243), SHARING_DIGIT}, {BYTES(byte_255), SHARING_DIGIT},
                            {BYTES(unused_1), SHARING_DIGIT}, {BYTES(unused_2), SHARING_DIGIT}};
    for (size_t i = 0; i < COUNT(bad); i++)
        EXPECT(bad[i].due, sharing_unpack(bad[i].bytes, bad[i].len, out, 0));
    EXPECT(SHARING_NARROW, sharing_pack(BYTES(good), out, sizeof packed - 1));
    EXPECT(SHARING_NARROW, sharing_unpack(BYTES(packed), out, sizeof good - 1));
    HOLDS(sharing_pack(BYTES(good), out, sizeof packed) == SHARING_ACCEPTED &&
          memcmp(out, packed, sizeof packed) == 0);
    HOLDS(sharing_unpack(BYTES(packed), out, sizeof good) == SHARING_ACCEPTED &&
          memcmp(out, good, sizeof good) == 0);
    clear_outputs();
}

/* The refusals of an equation, of one call, of a reason, and of a step, which keeps its state. */
static void refuse_equation(bad_equation bad) {
    EXPECT(bad.due, sharing_equation(1, BYTES(good), bad.variable, bad.term, bad.len, out, 0));
    EXPECT(bad.due, sharing_reason(BYTES(good), bad.variable, bad.term, bad.len, 8, TOLD));
    EXPECT(bad.due, sharing_reason(BYTES(good), bad.variable, bad.term, bad.len, 0, TOLD));
    sharing_running state = sharing_start(0, BYTES(good)), before;
    memcpy(&before, &state, sizeof state);
    EXPECT(bad.due, sharing_step(&state, bad.variable, bad.term, bad.len));
    HOLDS(same_state(&state, &before));
}

/* The same of two terms. */
static void refuse_pair(bad_pair bad) {
    EXPECT(bad.due, sharing_unify(1, BYTES(good), bad.left, bad.left_len, bad.right, bad.right_len,
                                  out, 0));
    sharing_running state = sharing_start(0, BYTES(good)), before;
    memcpy(&before, &state, sizeof state);
    EXPECT(bad.due,
           sharing_unify_step(&state, bad.left, bad.left_len, bad.right, bad.right_len));
    HOLDS(same_state(&state, &before));
}

/* The refusals of the form of equations of two terms. */
static void refuse_term_equations(void) {
    static const uint8_t e_65[] = {WORD(65), WORD(1025)};
    static const uint8_t m_1025[] = {WORD(0), WORD(1025)};
    static const uint8_t cut[] = {WORD(1), WORD(2), WORD(1), WORD(2), WORD(9), 0};
    static const uint8_t sum[] = {WORD(1), WORD(2), WORD(1), WORD(2), WORD(9), WORD(9)};
    static const uint8_t below[] = {WORD(1), WORD(2), WORD(0), WORD(1), WORD(9), WORD(9)};
    static const uint8_t wrapped[] = {WORD(1), WORD(0), WORD(0x8000), WORD(0x8000)};
    static const uint8_t left[] = {WORD(1), WORD(2), WORD(1), WORD(1), WORD(4), WORD(0x8001)};
    static const uint8_t part[] = {WORD(1), WORD(2), WORD(1), WORD(1), WORD(0x8001), WORD(4)};
    static const uint8_t no_left[] = {WORD(1), WORD(1), WORD(0), WORD(1), WORD(4)};
    static const uint8_t right[] = {WORD(1), WORD(3), WORD(1), WORD(2), WORD(1), WORD(1), WORD(4)};
    static const uint8_t rest[] = {WORD(1), WORD(3), WORD(1), WORD(2), WORD(1), WORD(1), WORD(2)};
    static const uint8_t none[] = {WORD(1), WORD(1), WORD(1), WORD(0), WORD(1)};
    /* The left side does not go on in the right one. */
    static const uint8_t split[] = {WORD(1), WORD(3), WORD(1), WORD(2), WORD(0x8001), WORD(1),
                                    WORD(2)};
    static const uint8_t order[] = {WORD(2), WORD(4), WORD(1), WORD(1), WORD(1), WORD(1),
                                    WORD(1), WORD(0x8001), WORD(4), WORD(1)};
    const bad_form bad[] = {{zeros, 3, SHARING_TORN},        {BYTES(e_65), SHARING_LONG},
                            {BYTES(m_1025), SHARING_LONG},   {BYTES(cut), SHARING_TORN},
                            {BYTES(sum), SHARING_TERM},      {BYTES(below), SHARING_TERM},
                            {BYTES(wrapped), SHARING_TERM},  {BYTES(left), SHARING_NAME},
                            {BYTES(part), SHARING_TERM},     {BYTES(no_left), SHARING_TERM},
                            {BYTES(right), SHARING_NAME},    {BYTES(rest), SHARING_TERM},
                            {BYTES(none), SHARING_TERM},     {BYTES(split), SHARING_TERM},
                            {BYTES(order), SHARING_TERM}};
    for (size_t i = 0; i < COUNT(bad); i++) {
        sharing_running state = sharing_unify_run(0, BYTES(good), bad[i].bytes, bad[i].len);
        EXPECT(bad[i].due, state.code);
        HOLDS(is_zero(&state));
    }
    sharing_running state = sharing_unify_run(0, BYTES(good), zeros, 4);
    HOLDS(state.code == SHARING_ACCEPTED && state.applied == 0 && state.table.n == 3);
}

/* Is a form the one of the bytes given? It has then been written to out, and is cleared. */
static int wrote(const uint8_t *due, size_t len) {
    int same = memcmp(out, due, len) == 0;
    for (size_t i = len; i < sizeof out; i++)
        same = same && out[i] == FILL;
    clear_outputs();
    return same;
}

/* What a clash gives, what is given back where nothing is found, and the example of the header. */
static void two_terms_set_equal(void) {
    static const uint8_t doubled[] = {WORD(2), WORD(2), WORD(3), WORD(1), WORD(1), WORD(1)};
    static const uint8_t grown[] = {WORD(2), WORD(1), WORD(1), WORD(1)};
    static const uint8_t empty[] = {WORD(3), WORD(0)}, stars[] = {WORD(3), WORD(1), WORD(0), WORD(0)};
    static const uint8_t a[] = {WORD(0x8010)}, f_a[] = {WORD(0x8021), WORD(0x8010)};
    static const uint8_t late[] = {WORD(0x8022), WORD(1), WORD(0x8010)};
    static const uint8_t other[] = {WORD(0x8022), WORD(2), WORD(0x8020)};
    HOLDS(sharing_unify(0, BYTES(good), BYTES(late), BYTES(other), out, 4) == SHARING_ACCEPTED);
    HOLDS(wrote(BYTES(empty)));
    HOLDS(sharing_unify(1, BYTES(good), BYTES(late), BYTES(other), out, 8) == SHARING_ACCEPTED);
    HOLDS(wrote(BYTES(stars)));
    EXPECT(SHARING_NARROW, sharing_unify(0, BYTES(good), BYTES(a), BYTES(f_a), out, 3));
    EXPECT(SHARING_NARROW, sharing_unify(1, BYTES(good), BYTES(a), BYTES(f_a), out, 7));
    for (uint32_t side = 0; side < 2; side++) {
        HOLDS(sharing_unify(side, BYTES(doubled), BYTES(f_a), BYTES(f_a), out, 8) ==
              SHARING_ACCEPTED);
        HOLDS(wrote(BYTES(grown)));
    }
    /* f(X1, g(X2)) = f(X3, X4) on four free variables: 1010 0101. */
    static const uint8_t alone[] = {WORD(4), WORD(4), WORD(15), WORD(15), WORD(15), WORD(15),
                                    WORD(1), WORD(2), WORD(4), WORD(8)};
    static const uint8_t left[] = {WORD(0x8022), WORD(1), WORD(0x8031), WORD(2)};
    static const uint8_t right[] = {WORD(0x8022), WORD(3), WORD(4)};
    static const uint8_t due[] = {WORD(4), WORD(2), WORD(15), WORD(15), WORD(5), WORD(10)};
    HOLDS(sharing_unify(0, BYTES(alone), BYTES(left), BYTES(right), out, sizeof due) ==
          SHARING_ACCEPTED);
    HOLDS(wrote(BYTES(due)));
    sharing_running state = sharing_start(0, BYTES(alone));
    EXPECT(SHARING_ACCEPTED, sharing_unify_step(&state, BYTES(left), BYTES(right)));
    HOLDS(state.code == SHARING_ACCEPTED && state.applied == 1 && state.table.n == 2 &&
          state.table.value[0] == 5 && state.table.value[1] == 10);
}

/* The calls on one equation between X1 and a term, and on it as the argument of f on both sides,
 * write the bytes due, and so does a run of both, X1 = X1 first. */
static void own_equation(uint32_t side, const uint8_t *term, size_t len, bad_form due) {
    uint8_t left[] = {WORD(0x8021), WORD(1)}, right[8] = {WORD(0x8021)};
    uint8_t run[40] = {WORD(2), WORD(1 + len / 2), WORD(1), WORD(1), WORD(1), WORD(len / 2), WORD(1)};
    memcpy(right + 2, term, len);
    memcpy(run + 14, term, len);
    HOLDS(sharing_equation(side, BYTES(good), 1, term, len, out, due.len) == SHARING_ACCEPTED);
    HOLDS(wrote(due.bytes, due.len));
    EXPECT(SHARING_NARROW, sharing_equation(side, BYTES(good), 1, term, len, out, due.len - 1));
    HOLDS(sharing_unify(side, BYTES(good), BYTES(left), right, 2 + len, out, due.len) ==
          SHARING_ACCEPTED);
    HOLDS(wrote(due.bytes, due.len));
    HOLDS(sharing_unify(side, BYTES(good), term, len, BYTES(variable_1), out, due.len) ==
          SHARING_ACCEPTED);
    HOLDS(wrote(due.bytes, due.len));
    sharing_running state = sharing_start(side, BYTES(good));
    EXPECT(SHARING_ACCEPTED, sharing_unify_step(&state, right, 2 + len, BYTES(left)));
    EXPECT(SHARING_ACCEPTED, sharing_step(&state, 1, term, len));
    HOLDS(state.applied == 2 && sharing_write(&state, out, due.len) == SHARING_ACCEPTED);
    HOLDS(wrote(due.bytes, due.len));
    state = sharing_run(side, BYTES(good), run, 14 + len);
    HOLDS(state.code == SHARING_ACCEPTED && state.applied == 2);
    HOLDS(sharing_write(&state, out, due.len) == SHARING_ACCEPTED && wrote(due.bytes, due.len));
    const uint8_t sizes[] = {WORD(1), WORD(3 + len / 2), WORD(2), WORD(1 + len / 2)};
    memcpy(run, sizes, sizeof sizes);
    memcpy(run + sizeof sizes, left, sizeof left);
    memcpy(run + sizeof sizes + sizeof left, right, 2 + len);
    state = sharing_unify_run(side, BYTES(good), run, sizeof sizes + sizeof left + 2 + len);
    HOLDS(state.code == SHARING_ACCEPTED && state.applied == 1);
    HOLDS(sharing_write(&state, out, due.len) == SHARING_ACCEPTED && wrote(due.bytes, due.len));
}

/* A variable set equal to itself leaves the table as it is, one set equal to a term that has it
 * deeper leaves no group. A value in a state is not even grown. */
static void set_equal_to_itself(void) {
    static const uint8_t empty[] = {WORD(3), WORD(0)}, stars[] = {WORD(3), WORD(1), WORD(0), WORD(0)};
    static const uint8_t f_x1[] = {WORD(0x8011), WORD(1)};
    static const uint8_t f_x2_x1[] = {WORD(0x8012), WORD(2), WORD(1)};
    const bad_form same = {BYTES(good), 0}, none[] = {{BYTES(empty), 0}, {BYTES(stars), 0}};
    for (uint32_t side = 0; side < 2; side++) {
        own_equation(side, BYTES(variable_1), same);
        own_equation(side, BYTES(f_x1), none[side]);
        own_equation(side, BYTES(f_x2_x1), none[side]);
        sharing_running state = sharing_start(side, BYTES(good)), before;
        for (size_t i = 3; i < SHARING_MAX_ENTRIES; i++) {
            state.table.care[i] = state.table.care[i % 3];
            state.table.value[i] = state.table.value[i % 3];
        }
        state.table.n = SHARING_MAX_ENTRIES;
        memcpy(&before, &state, sizeof state);
        before.applied = 2;
        EXPECT(SHARING_ACCEPTED, sharing_step(&state, 1, BYTES(variable_1)));
        EXPECT(SHARING_ACCEPTED, sharing_unify_step(&state, BYTES(f_x1), BYTES(f_x1)));
        HOLDS(same_state(&state, &before));
    }
}

/* A table, and an equation of it. */
typedef struct {
    const uint8_t *table; size_t len; uint32_t variable; const uint8_t *term; size_t term_len;
} asked;

/* Does the call tell these three words of a group? */
static int tells(asked a, uint32_t group, uint32_t verdict, uint32_t x_entry, uint32_t t_entry) {
    uint32_t code = sharing_reason(a.table, a.len, a.variable, a.term, a.term_len, group, TOLD);
    int same = code == SHARING_ACCEPTED && told[0] == verdict && told[1] == x_entry &&
               told[2] == t_entry;
    clear_outputs();
    return same;
}

/* Each verdict, of the table 100, 01*, 0*1 and of two that show more. */
static void reasons(void) {
    static const uint8_t f_x1[] = {WORD(0x8011), WORD(1)}, variable_3[] = {WORD(3)};
    static const uint8_t apart[] = {WORD(3), WORD(2), WORD(7), WORD(7), WORD(1), WORD(2)};
    static const uint8_t ones[] = {WORD(3), WORD(1), WORD(7), WORD(7)};
    /* 100, 1*0, 001: reading leaves 1*0, 001. */
    static const uint8_t grown[] = {WORD(3), WORD(3), WORD(7), WORD(5),
                                    WORD(7), WORD(1), WORD(1), WORD(4)};
    const asked equal = {BYTES(good), 1, BYTES(variable_2)};
    const asked itself = {BYTES(good), 2, BYTES(variable_2)};
    const asked deeper = {BYTES(good), 1, BYTES(f_x1)};
    const asked lacking = {BYTES(apart), 1, BYTES(variable_2)};
    const asked one = {BYTES(ones), 1, BYTES(variable_2)};
    const asked read = {BYTES(grown), 1, BYTES(variable_3)};
    HOLDS(tells(equal, 4, SHARING_KEPT, 0, 0));
    HOLDS(tells(equal, 3, SHARING_JOINED, 0, 1) && tells(equal, 7, SHARING_JOINED, 0, 1));
    HOLDS(tells(equal, 2, SHARING_NO_X_ENTRY, 0, 0) && tells(equal, 6, SHARING_NO_X_ENTRY, 0, 0));
    HOLDS(tells(equal, 1, SHARING_NO_T_ENTRY, 0, 0) && tells(equal, 5, SHARING_NO_T_ENTRY, 0, 0));
    HOLDS(tells(lacking, 7, SHARING_NOT_MADE_UP, 0, 0));
    HOLDS(tells(lacking, 4, SHARING_NOT_THERE, 0, 0) && tells(lacking, 3, SHARING_JOINED, 0, 1));
    for (uint32_t group = 1; group < 8; group++) {
        int there = group == 1 || (group & 1) == 0;
        HOLDS(tells(itself, group, there ? SHARING_KEPT : SHARING_NOT_THERE, 0, 0));
        HOLDS(tells(deeper, group, SHARING_NO_SOLUTION, 0, 0));
    }
    EXPECT(SHARING_STRAY, sharing_reason(BYTES(good), 1, BYTES(f_x1), 8, TOLD));
    EXPECT(SHARING_KEEP, sharing_reason(BYTES(good), 1, BYTES(f_x1), 0, TOLD));
    HOLDS(tells(one, 7, SHARING_JOINED, 0, 0) && tells(one, 3, SHARING_NO_X_ENTRY, 0, 0));
    HOLDS(tells(read, 5, SHARING_JOINED, 0, 1) && tells(read, 7, SHARING_JOINED, 0, 1));
}

/* The refusals of the form of equations. */
static void refuse_equations(void) {
    static const uint8_t e_65[] = {WORD(65), WORD(1025)};
    static const uint8_t m_1025[] = {WORD(0), WORD(1025)};
    static const uint8_t cut[] = {WORD(1), WORD(1), WORD(9), WORD(2), 0};
    static const uint8_t sum[] = {WORD(1), WORD(1), WORD(9), WORD(2), WORD(9)};
    static const uint8_t left[] = {WORD(1), WORD(1), WORD(9), WORD(1), WORD(0x8001)};
    static const uint8_t token[] = {WORD(1), WORD(2), WORD(1), WORD(2), WORD(1), WORD(9)};
    static const uint8_t term[] = {WORD(1), WORD(2), WORD(1), WORD(2), WORD(1), WORD(2)};
    static const uint8_t none[] = {WORD(1), WORD(0), WORD(1), WORD(0)};
    static const uint8_t order[] = {WORD(2), WORD(2), WORD(1), WORD(9), WORD(0), WORD(2),
                                    WORD(9), WORD(9)};
    const bad_form bad[] = {{zeros, 3, SHARING_TORN},      {BYTES(e_65), SHARING_LONG},
                            {BYTES(m_1025), SHARING_LONG}, {BYTES(cut), SHARING_TORN},
                            {BYTES(sum), SHARING_TERM},    {BYTES(left), SHARING_NAME},
                            {BYTES(token), SHARING_NAME},  {BYTES(term), SHARING_TERM},
                            {BYTES(none), SHARING_TERM},   {BYTES(order), SHARING_TERM}};
    for (size_t i = 0; i < COUNT(bad); i++) {
        sharing_running state = sharing_run(0, BYTES(good), bad[i].bytes, bad[i].len);
        EXPECT(bad[i].due, state.code);
        HOLDS(is_zero(&state));
    }
    sharing_running state = sharing_run(0, BYTES(good), zeros, 4);
    HOLDS(state.code == SHARING_ACCEPTED && state.applied == 0 && state.table.n == 3);
}

/* What the calls refuse after their tables and terms, 8 apart. */
static void refuse_rest(void) {
    const uint32_t words[] = {1, 8};
    const uint8_t all_ones[] = {WORD(3), WORD(1), WORD(7), WORD(7)};
    EXPECT(SHARING_WIDTH, sharing_convert(0, words, 2, out, 0));
    EXPECT(SHARING_WIDTH, sharing_convert(33, words, 2, out, 0));
    EXPECT(SHARING_WIDTH, sharing_convert(UINT32_MAX, words, 2, out, 0));
    EXPECT(SHARING_STRAY, sharing_convert(3, words, 2, out, 0));
    EXPECT(SHARING_UNLIKE, sharing_join(0, BYTES(good), BYTES(two_variables), out, 0));
    EXPECT(SHARING_UNLIKE, sharing_equal(BYTES(good), BYTES(two_variables), &answer));
    EXPECT(SHARING_KEEP, sharing_project(0, BYTES(good), 0, out, 0));
    EXPECT(SHARING_KEEP, sharing_project(1, BYTES(good), 8 | 1, out, 0));
    EXPECT(SHARING_NAME, sharing_ground(0, BYTES(good), 0, &answer));
    EXPECT(SHARING_NAME, sharing_ground(1, BYTES(good), 4, &answer));
    EXPECT(SHARING_NAME, sharing_independent(0, BYTES(good), 8, 0, &answer));
    EXPECT(SHARING_NAME, sharing_independent(1, BYTES(good), 0, 8, &answer));
    EXPECT(SHARING_STRAY, sharing_reason(BYTES(good), 1, BYTES(variable_2), 8, TOLD));
    EXPECT(SHARING_STRAY, sharing_reason(BYTES(good), 1, BYTES(variable_2), 1u << 31 | 3, TOLD));
    EXPECT(SHARING_KEEP, sharing_reason(BYTES(good), 1, BYTES(variable_2), 0, TOLD));
    sharing_running state = sharing_start(0, BYTES(good));
    EXPECT(SHARING_NARROW, sharing_read(BYTES(good), out, sizeof good - 1));
    EXPECT(SHARING_NARROW, sharing_convert(3, words, 1, out, 7));
    EXPECT(SHARING_NARROW, sharing_change_side(0, BYTES(good), out, 11));
    EXPECT(SHARING_NARROW, sharing_equation(0, BYTES(good), 1, BYTES(variable_2), out, 11));
    EXPECT(SHARING_NARROW,
           sharing_unify(0, BYTES(good), BYTES(variable_2), BYTES(variable_2), out, 11));
    EXPECT(SHARING_NARROW, sharing_join(0, BYTES(good), BYTES(all_ones), out, 19));
    EXPECT(SHARING_NARROW, sharing_project(0, BYTES(good), 1, out, 7));
    EXPECT(SHARING_NARROW, sharing_write(&state, out, sizeof good - 1));
    EXPECT(SHARING_ACCEPTED, sharing_write(&state, out, sizeof good));
}

/* A table in the state is a value: the caller could have changed it. */
static void refuse_value(uint32_t due, const sharing_running *state) {
    sharing_running copy;
    memcpy(&copy, state, sizeof copy);
    EXPECT(due, sharing_write(&copy, out, 0));
    HOLDS(copy.code == SHARING_ACCEPTED);
    EXPECT(due, sharing_step(&copy, FAR, BYTES(zeros)));
    HOLDS(same_state(&copy, state));
    EXPECT(due, sharing_unify_step(&copy, BYTES(zeros), zeros, 1));
    HOLDS(same_state(&copy, state));
}

static void refuse_values(void) {
    sharing_running state = sharing_start(0, BYTES(good));
    state.table.care[3] = 1;
    refuse_value(SHARING_STRAY, &state);
    state.table.care[3] = 0;
    state.table.value[1] |= 4;
    refuse_value(SHARING_STRAY, &state);
    state.table.n = SHARING_MAX_ENTRIES + 1;
    refuse_value(SHARING_ENTRIES, &state);
    state.table.l = SHARING_MAX_VARIABLES + 1;
    refuse_value(SHARING_WIDTH, &state);
}

/* 257 words of four ones each: no two differ in one bit, so that none widens. */
static void four_ones(uint32_t words[SHARING_MAX_ENTRIES + 1]) {
    size_t n = 0;
    for (uint32_t word = 0; n <= SHARING_MAX_ENTRIES; word++) {
        int ones = 0;
        for (uint32_t rest = word; rest != 0; rest &= rest - 1)
            ones++;
        if (ones == 4)
            words[n++] = word;
    }
}

/* Full, of calls that make lists longer; out is also too short, which would be 9. The groups are of
 * the last 16 of l variables, and `bytes` is the length of a word in the form. */
static void refuse_full_lists(uint32_t l, size_t bytes) {
    static uint8_t all[SHARING_MAX_FORM];
    uint8_t one[12];
    uint32_t words[SHARING_MAX_ENTRIES + 1];
    size_t all_len = 4 + 2 * bytes * SHARING_MAX_ENTRIES, one_len = 4 + 2 * bytes;
    four_ones(words);
    for (size_t i = 0; i < COUNT(words); i++)
        words[i] <<= l - 16;
    EXPECT(SHARING_FULL, sharing_convert(l, words, SHARING_MAX_ENTRIES + 1, out, 0));
    EXPECT(SHARING_NARROW, sharing_convert(l, words, SHARING_MAX_ENTRIES, out, all_len - 1));
    EXPECT(SHARING_ACCEPTED, sharing_convert(l, words, SHARING_MAX_ENTRIES, all, all_len));
    EXPECT(SHARING_ACCEPTED, sharing_convert(l, words + SHARING_MAX_ENTRIES, 1, one, one_len));
    EXPECT(SHARING_ACCEPTED, sharing_read(all, all_len, out, all_len));
    EXPECT(SHARING_FULL, sharing_join(0, all, all_len, one, one_len, out, 0));
    EXPECT(SHARING_FULL, sharing_change_side(0, all, all_len, out, 0));
    EXPECT(SHARING_FULL, sharing_project(1, all, all_len, 1u << (l - 1), out, 0));
}

/* The same equation, whose term has 16 tokens, as one that a walk finds after X1 = X2: the whole
 * call is refused. A clash that comes after it is found first. */
static void refuse_full_pair(const uint8_t *table, size_t table_len, const uint8_t term[2 * 16]) {
    const uint8_t sizes[] = {WORD(2), WORD(25), WORD(1), WORD(4), WORD(1), WORD(19), WORD(1), WORD(2)};
    uint8_t left[] = {WORD(0x8023), WORD(1), WORD(1), WORD(0x8010)};
    uint8_t right[2 * 19] = {WORD(0x8023), WORD(2)}, run[sizeof sizes + sizeof left + sizeof right];
    memcpy(right + 4, term, 2 * 16);
    memcpy(right + 2 * 18, left + 6, 2);
    memcpy(run, sizes, sizeof sizes);
    memcpy(run + sizeof sizes, left, sizeof left);
    memcpy(run + sizeof sizes + sizeof left, right, sizeof right);
    EXPECT(SHARING_FULL, sharing_unify(0, table, table_len, BYTES(left), BYTES(right), out, 0));
    sharing_running state = sharing_start(0, table, table_len);
    EXPECT(SHARING_FULL, sharing_unify_step(&state, BYTES(left), BYTES(right)));
    HOLDS(state.code == SHARING_ACCEPTED && state.applied == 0 && state.table.n == 15);
    state = sharing_unify_run(0, table, table_len, BYTES(run));
    HOLDS(state.code == SHARING_FULL && state.applied == 1 && state.table.n == 14);
    left[6] ^= 0x10;
    EXPECT(SHARING_ACCEPTED, sharing_unify_step(&state, BYTES(left), BYTES(right)));
    HOLDS(state.code == SHARING_ACCEPTED && state.applied == 2 && state.table.n == 0);
}

/* The equation between X1 and that term in a walk with X16 = g(X16): the one that is found first
 * says whether the call is full, since nothing is full after no groups. */
static void full_beside_deeper(const uint8_t *table, size_t table_len, const uint8_t term[2 * 16]) {
    const uint8_t full_first[] = {WORD(0x8022), WORD(1), WORD(16)};
    const uint8_t full_last[] = {WORD(0x8022), WORD(16), WORD(1)};
    const uint8_t deeper[] = {WORD(0x8011), WORD(16)};
    uint8_t right[2 * 19] = {WORD(0x8022)};
    memcpy(right + 2, term, 2 * 16);
    memcpy(right + 2 * 17, deeper, sizeof deeper);
    EXPECT(SHARING_FULL, sharing_unify(0, table, table_len, BYTES(full_first), BYTES(right), out, 0));
    memcpy(right + 2, deeper, sizeof deeper);
    memcpy(right + 6, term, 2 * 16);
    EXPECT(SHARING_ACCEPTED,
           sharing_unify(0, table, table_len, BYTES(full_last), BYTES(right), out, 4));
}

/* Full, of an equation: each variable may share with the next one, and X1 = f(X2, ..., X16). With X1
 * for X16 it has no finite solution, and is not full. In a run X1 = X1 stands before it. */
static void refuse_full_equation(void) {
    static uint8_t next[4 + 4 * 15], term[2 * 16], run[4 + 4 * 2 + 2 * 17];
    uint32_t words[15];
    for (int i = 0; i < 15; i++)
        words[i] = 3u << i;
    EXPECT(SHARING_ACCEPTED, sharing_convert(16, words, 15, BYTES(next)));
    const uint8_t sizes[] = {WORD(2), WORD(17), WORD(1), WORD(1), WORD(1), WORD(16), WORD(1)};
    term[0] = 0x1f;
    term[1] = 0x80;
    for (int i = 1; i < 16; i++)
        term[2 * i] = (uint8_t)(i + 1);
    memcpy(run, sizes, sizeof sizes);
    memcpy(run + sizeof sizes, term, sizeof term);
    EXPECT(SHARING_FULL, sharing_equation(0, BYTES(next), 1, BYTES(term), out, 0));
    /* A reason is given all the same. */
    const asked full = {BYTES(next), 1, BYTES(term)};
    HOLDS(tells(full, 3, SHARING_JOINED, 0, 0) && tells(full, 0xffff, SHARING_JOINED, 0, 0));
    HOLDS(tells(full, 6, SHARING_NO_X_ENTRY, 0, 0) && tells(full, 11, SHARING_NOT_MADE_UP, 0, 0));
    sharing_running state = sharing_start(0, BYTES(next));
    EXPECT(SHARING_ACCEPTED, sharing_step(&state, 1, variable_2, 2));
    EXPECT(SHARING_FULL, sharing_step(&state, 1, BYTES(term)));
    HOLDS(state.code == SHARING_ACCEPTED && state.applied == 1 && state.table.n == 14);
    state = sharing_run(0, BYTES(next), BYTES(run));
    HOLDS(state.code == SHARING_FULL && state.applied == 1 && state.table.n == 15);
    refuse_full_pair(BYTES(next), term);
    full_beside_deeper(BYTES(next), term);
    term[2 * 15] = 1;
    memcpy(run + sizeof sizes, term, sizeof term);
    EXPECT(SHARING_ACCEPTED, sharing_equation(0, BYTES(next), 1, BYTES(term), out, 4));
    EXPECT(SHARING_ACCEPTED, sharing_step(&state, 1, BYTES(term)));
    HOLDS(state.code == SHARING_ACCEPTED && state.applied == 2 && state.table.n == 0);
    state = sharing_run(0, BYTES(next), BYTES(run));
    HOLDS(state.code == SHARING_ACCEPTED && state.applied == 2 && state.table.n == 0);
}

/* The two-buffer call: where the part stands, and when it is empty. */
static void smaller_parts(void) {
    const uint8_t tail[] = {WORD(3), WORD(1), WORD(7), WORD(7), 9, 9};
    const uint8_t same[] = {WORD(3), WORD(1), WORD(3), WORD(3)};
    sharing_part part = {good, 0};
    sharing_smaller(BYTES(good), BYTES(tail), &part);
    HOLDS(part.ptr == tail && part.len == 8);
    sharing_smaller(BYTES(tail), BYTES(good), &part);
    HOLDS(part.ptr == tail && part.len == 8);
    sharing_smaller(BYTES(same), BYTES(tail), &part);
    HOLDS(part.ptr == same && part.len == 8);
    sharing_smaller(BYTES(good), BYTES(two_variables), &part);
    HOLDS(part.len == 0);
    for (size_t i = 0; i < COUNT(bad_tables); i++) {
        part.ptr = good;
        part.len = sizeof good;
        sharing_smaller(bad_tables[i].bytes, bad_tables[i].len, BYTES(good), &part);
        HOLDS(part.len == 0);
    }
}

/* ---- The widest tables whose words have 16 bits, and the narrowest and widest of 32 bits */

/* The table of l variables in which X1 and Xl are free and the others known: its form, and packed. */
typedef struct { uint32_t l; uint8_t form[24], packed[20]; size_t len, packed_len; } two_free;

static void put_bytes(uint8_t *at, size_t bytes, uint32_t word) {
    for (size_t i = 0; i < bytes; i++)
        at[i] = (uint8_t)(word >> 8 * i & 0xff);
}

static two_free two_free_of(uint32_t l) {
    static const uint8_t powers[] = {1, 3, 9, 27, 81};
    size_t bytes = l <= 16 ? 2 : 4, row = (l + 4) / 5;
    const uint32_t words[] = {~0u >> (32 - l), ~0u >> (32 - l), 1, 1u << (l - 1)};
    two_free made;
    memset(&made, 0, sizeof made);
    made.l = l;
    made.form[0] = (uint8_t)l;
    made.form[2] = 2;
    for (size_t i = 0; i < COUNT(words); i++)
        put_bytes(made.form + 4 + bytes * i, bytes, words[i]);
    made.len = 4 + 4 * bytes;
    memcpy(made.packed, made.form, 4);
    made.packed[4] = 1;
    made.packed[4 + 2 * row - 1] = powers[(l - 1) % 5];
    made.packed_len = 4 + 2 * row;
    return made;
}

/* Both forms there and back; any other length is torn. */
static void width_forms(const two_free *t) {
    for (size_t len = 0; len <= sizeof t->form; len++)
        EXPECT(len == t->len ? SHARING_ACCEPTED : SHARING_TORN,
               sharing_read(t->form, len, out, sizeof out));
    for (size_t len = 0; len <= sizeof t->packed; len++)
        EXPECT(len == t->packed_len ? SHARING_ACCEPTED : SHARING_TORN,
               sharing_unpack(t->packed, len, out, sizeof out));
    EXPECT(SHARING_NARROW, sharing_read(t->form, t->len, out, t->len - 1));
    HOLDS(sharing_read(t->form, t->len, out, t->len) == SHARING_ACCEPTED);
    HOLDS(wrote(t->form, t->len));
    EXPECT(SHARING_NARROW, sharing_pack(t->form, t->len, out, t->packed_len - 1));
    HOLDS(sharing_pack(t->form, t->len, out, t->packed_len) == SHARING_ACCEPTED);
    HOLDS(wrote(t->packed, t->packed_len));
    EXPECT(SHARING_NARROW, sharing_unpack(t->packed, t->packed_len, out, t->len - 1));
    HOLDS(sharing_unpack(t->packed, t->packed_len, out, t->len) == SHARING_ACCEPTED);
    HOLDS(wrote(t->form, t->len));
}

/* Each bit of the words turned: one above l is stray, and so is a care bit that a value needs. */
static void width_bits(const two_free *t) {
    size_t bits = t->l <= 16 ? 16 : 32;
    for (size_t bit = 0; bit < 4 * bits; bit++) {
        two_free turned = *t;
        size_t place = bit / bits, position = bit % bits;
        int needed = (place == 0 && position == 0) || (place == 1 && position == t->l - 1);
        uint32_t due = position >= t->l || needed ? SHARING_STRAY : SHARING_ACCEPTED;
        turned.form[4 + bit / 8] ^= (uint8_t)(1u << bit % 8);
        EXPECT(due, sharing_read(turned.form, t->len, out, sizeof out));
        EXPECT(due, sharing_join(1, t->form, t->len, turned.form, t->len, out, sizeof out));
        EXPECT(due, sharing_start(0, turned.form, t->len).code);
    }
}

/* Sets, groups and names up to the last bit, and where they are above l. */
static void width_sets(const two_free *t) {
    const uint32_t first = 1, last = 1u << (t->l - 1), groups[] = {first, 0, last};
    const uint8_t one[] = {WORD(1), WORD(1), WORD(1), WORD(1)};
    const uint8_t two[] = {WORD(2), WORD(2), WORD(3), WORD(3), WORD(1), WORD(2)};
    HOLDS(sharing_convert(t->l, groups, 3, out, t->len) == SHARING_ACCEPTED);
    HOLDS(wrote(t->form, t->len));
    HOLDS(sharing_project(0, t->form, t->len, last, out, 8) == SHARING_ACCEPTED);
    HOLDS(wrote(BYTES(one)));
    HOLDS(sharing_project(0, t->form, t->len, first | last, out, 12) == SHARING_ACCEPTED);
    HOLDS(wrote(BYTES(two)));
    HOLDS(sharing_ground(0, t->form, t->len, t->l, &answer) == 0 && answer == 0);
    HOLDS(sharing_ground(0, t->form, t->len, t->l - 1, &answer) == 0 && answer == 1);
    HOLDS(sharing_independent(0, t->form, t->len, first, last, &answer) == 0 && answer == 1);
    HOLDS(sharing_independent(0, t->form, t->len, last, ~0u >> (32 - t->l), &answer) == 0 &&
          answer == 0);
    clear_outputs();
    EXPECT(SHARING_NAME, sharing_ground(0, t->form, t->len, t->l + 1, &answer));
    if (t->l == 32) /* a word has no bit above it */
        return;
    EXPECT(SHARING_STRAY, sharing_convert(t->l, (const uint32_t[]){1, last << 1}, 2, out, 0));
    EXPECT(SHARING_STRAY, sharing_reason(t->form, t->len, 1, variable_2, 2, last << 1, TOLD));
    EXPECT(SHARING_KEEP, sharing_project(0, t->form, t->len, last << 1 | 1, out, 0));
    EXPECT(SHARING_NAME, sharing_independent(0, t->form, t->len, last << 1, 0, &answer));
    EXPECT(SHARING_NAME, sharing_independent(1, t->form, t->len, 0, last << 1, &answer));
}

/* X1 = Xl by every call with equations: one entry is left, with a 1 at both. */
static void width_equations(const two_free *t) {
    size_t bytes = t->l <= 16 ? 2 : 4;
    const uint32_t all = ~0u >> (32 - t->l), both = 1 | 1u << (t->l - 1);
    const uint8_t x1[] = {WORD(1)}, last[] = {WORD(t->l)}, above[] = {WORD(t->l + 1)};
    const uint8_t run[] = {WORD(1), WORD(1), WORD(1), WORD(1), WORD(t->l)};
    const uint8_t unify_run[] = {WORD(1), WORD(2), WORD(1), WORD(1), WORD(t->l), WORD(1)};
    uint8_t due[12] = {WORD(t->l), WORD(1)};
    put_bytes(due + 4, bytes, all);
    put_bytes(due + 4 + bytes, bytes, both);
    size_t due_len = 4 + 2 * bytes;
    HOLDS(sharing_equation(0, t->form, t->len, t->l, x1, 2, out, due_len) == SHARING_ACCEPTED);
    HOLDS(wrote(due, due_len));
    HOLDS(sharing_unify(0, t->form, t->len, x1, 2, last, 2, out, due_len) == SHARING_ACCEPTED);
    HOLDS(wrote(due, due_len));
    const asked reason = {t->form, t->len, t->l, x1, 2};
    HOLDS(tells(reason, both, SHARING_JOINED, 1, 0) && tells(reason, 2, SHARING_NOT_THERE, 0, 0));
    HOLDS(tells(reason, 1, SHARING_NO_X_ENTRY, 0, 0));
    HOLDS(tells(reason, all, SHARING_NOT_MADE_UP, 0, 0));
    EXPECT(SHARING_NAME, sharing_reason(t->form, t->len, t->l + 1, x1, 2, both, TOLD));
    sharing_running state = sharing_run(0, t->form, t->len, BYTES(run));
    HOLDS(sharing_write(&state, out, due_len) == SHARING_ACCEPTED && wrote(due, due_len));
    state = sharing_unify_run(0, t->form, t->len, BYTES(unify_run));
    HOLDS(sharing_write(&state, out, due_len) == SHARING_ACCEPTED && wrote(due, due_len));
    state = sharing_start(0, t->form, t->len);
    EXPECT(SHARING_NAME, sharing_step(&state, t->l + 1, x1, 2));
    EXPECT(SHARING_NAME, sharing_unify_step(&state, x1, 2, above, 2));
    EXPECT(SHARING_ACCEPTED, sharing_step(&state, 1, last, 2));
    HOLDS(state.table.n == 1 && state.table.care[0] == all && state.table.value[0] == both);
    EXPECT(SHARING_NARROW, sharing_write(&state, out, due_len - 1));
}

/* The other calls on whole tables, and a value in a state with a bit above l. */
static void width_tables(const two_free *t) {
    uint8_t other[SHARING_MAX_FORM];
    sharing_part part = {good, 0};
    HOLDS(sharing_change_side(0, t->form, t->len, other, sizeof other) == SHARING_ACCEPTED);
    size_t other_len = 4 + (t->l <= 16 ? 4 : 8) * (size_t)(other[2] | other[3] << 8);
    HOLDS(sharing_change_side(1, other, other_len, out, t->len) == SHARING_ACCEPTED);
    HOLDS(sharing_equal(out, t->len, t->form, t->len, &answer) == 0 && answer == 1);
    clear_outputs();
    sharing_smaller(BYTES(t->form), other, other_len, &part);
    HOLDS(part.ptr == t->form && part.len == t->len);
    HOLDS(sharing_join(0, t->form, t->len, t->form, t->len, out, t->len) == SHARING_ACCEPTED);
    HOLDS(wrote(t->form, t->len));
    EXPECT(SHARING_UNLIKE, sharing_join(0, t->form, t->len, BYTES(good), out, 0));
    EXPECT(SHARING_UNLIKE, sharing_equal(BYTES(good), t->form, t->len, &answer));
    sharing_running state = sharing_start(0, t->form, t->len);
    HOLDS(state.table.value[1] == 1u << (t->l - 1));
    state.table.care[1] = t->l == 32 ? ~0u >> 1 : state.table.care[1] | 1u << t->l;
    refuse_value(SHARING_STRAY, &state);
    state.table.l = SHARING_MAX_VARIABLES + 1;
    refuse_value(SHARING_WIDTH, &state);
}

static void widths(void) {
    const uint32_t ls[] = {15, 16, 17, 18, 31, 32};
    for (size_t i = 0; i < COUNT(ls); i++) {
        const two_free t = two_free_of(ls[i]);
        width_forms(&t);
        width_bits(&t);
        width_sets(&t);
        width_equations(&t);
        width_tables(&t);
    }
}

int main(void) {
    clear_outputs();
    widths();
    for (size_t i = 0; i < COUNT(bad_tables); i++)
        refuse_table(bad_tables[i]);
    refuse_packed();
    for (size_t i = 0; i < COUNT(bad_equations); i++)
        refuse_equation(bad_equations[i]);
    for (size_t i = 0; i < COUNT(bad_pairs); i++)
        refuse_pair(bad_pairs[i]);
    refuse_equations();
    refuse_term_equations();
    two_terms_set_equal();
    set_equal_to_itself();
    reasons();
    refuse_rest();
    refuse_values();
    refuse_full_lists(16, 2);
    refuse_full_lists(32, 4);
    refuse_full_equation();
    smaller_parts();
    printf("%u cases, %u failed\n", cases, failures);
    return failures == 0 ? EXIT_SUCCESS : EXIT_FAILURE;
}

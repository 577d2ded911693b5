/* Makes each call of the analyser with its buffers placed where touching one byte too many is seen, and compares what comes of it.
   Standard input has the cases with their expected outcomes, as `calls --cases` writes them.

   Each case is run three times:
   - each buffer ends where a page begins that cannot be touched: a read or a write behind it ends the program;
   - each buffer begins right behind such a page: the same before it;
   - each buffer is a block of its own from malloc, for the address sanitizer.
   In the first two, buffers lent for reading can only be read. The sanitizer sees the accesses of this file and those that the archive
   makes through the C library; the archive's own code is not instrumented, so that the pages are the stronger check. */
#define _DEFAULT_SOURCE
#include <signal.h>
#include <stdint.h>
#include <stdio.h>
#include <stdlib.h>
#include <string.h>
#include <sys/mman.h>
#include <unistd.h>

#include "sharing.h"

/* The calls, numbered as in the stream. */
enum call {
    READ, PACK, UNPACK, CONVERT, CHANGE_SIDE, EQUATION, UNIFY, JOIN, PROJECT, EQUAL,
    GROUND, INDEPENDENT, REASON, SMALLER, RUN, UNIFY_RUN, START, STEP, UNIFY_STEP, WRITE, CALLS
};
static const char *const names[CALLS] = {
    "read",   "pack",        "unpack", "convert", "change_side", "equation",  "unify", "join", "project",    "equal",
    "ground", "independent", "reason", "smaller", "run",         "unify_run", "start", "step", "unify_step", "write"};

struct row { uint32_t len; uint8_t *bytes; };

/* One case of the stream. The state rows are empty where the call has no state. */
struct record {
    uint32_t call, side, word, other;
    struct row first, second, third, held, state;
    uint32_t number;
    struct row out, state_after;
    uint32_t part_of, part_len; /* 0: part of the first buffer, 1: of the second, 2: empty */
};

/* What a call is lent. The three words of a reason are OUT and the two entries. */
enum role { FIRST, SECOND, THIRD, OUT, X_ENTRY, T_ENTRY, STATE, PART, ROLES };
enum placing { BEFORE_FENCE, BEHIND_FENCE, BLOCK, PLACINGS };
static const char *const placings[PLACINGS] = {"buffers end at a fence", "buffers begin at a fence", "buffers are blocks"};

/* Room for the longest row of a stream, between two pages that cannot be touched. */
enum { ROOM = 1 << 20 };
static uint8_t *rooms[ROLES];

static unsigned long cases;
static uint32_t current_call;
static int current_placing;

static void fail(const char *what)
{
    printf("sharing_%s, case %lu, %s: %s\n", names[current_call], cases, placings[current_placing], what);
    exit(1);
}

/* A touched fence: printf is not allowed here. */
static void on_fault(int signal)
{
    char line[160];
    int len = snprintf(line, sizeof line, "sharing_%s, case %lu, %s: touches memory outside its buffers, or writes to an input (signal %d)\n",
                       names[current_call], cases, placings[current_placing], signal);
    if (write(STDOUT_FILENO, line, (size_t)len) < 0)
        _exit(2);
    _exit(1);
}

static void make_rooms(void)
{
    size_t page = (size_t)sysconf(_SC_PAGESIZE);
    for (int role = 0; role < ROLES; role++) {
        uint8_t *all = mmap(NULL, ROOM + 2 * page, PROT_NONE, MAP_PRIVATE | MAP_ANONYMOUS, -1, 0);
        if (all == MAP_FAILED || mprotect(all + page, ROOM, PROT_READ | PROT_WRITE) != 0) {
            perror("fences");
            exit(2);
        }
        rooms[role] = all + page;
    }
}

/* A place of the given length for a role, filled with the given bytes. */
static uint8_t *place(enum role role, const void *bytes, size_t len)
{
    uint8_t *at = current_placing == BLOCK ? malloc(len) : current_placing == BEHIND_FENCE ? rooms[role] : rooms[role] + ROOM - len;
    if (at == NULL && len > 0)
        exit(2);
    if (len > 0)
        memcpy(at, bytes, len);
    return at;
}

static void leave(uint8_t *at)
{
    if (current_placing == BLOCK)
        free(at);
}

/* Makes a room readable only, or writable again. */
static void protect(enum role role, int how)
{
    if (current_placing != BLOCK && mprotect(rooms[role], ROOM, how) != 0)
        exit(2);
}

/* The fields of a state, as the stream has them: the struct has padding, which counts for nothing. */
enum { STATE_BYTES = 4 * 4 + 8 + 2 * 4 * 256 };

static void fill_state(sharing_running *state, const uint8_t *bytes)
{
    uint64_t n;
    memset(state, 0, sizeof *state);
    memcpy(&state->code, bytes, 4);
    memcpy(&state->side, bytes + 4, 4);
    memcpy(&state->applied, bytes + 8, 4);
    memcpy(&state->table.l, bytes + 12, 4);
    memcpy(&n, bytes + 16, 8);
    state->table.n = (size_t)n;
    memcpy(state->table.care, bytes + 24, 1024);
    memcpy(state->table.value, bytes + 24 + 1024, 1024);
}

static int same_state(const sharing_running *state, const uint8_t *bytes)
{
    sharing_running other;
    fill_state(&other, bytes);
    return state->code == other.code && state->side == other.side && state->applied == other.applied &&
           state->table.l == other.table.l && state->table.n == other.table.n &&
           memcmp(state->table.care, other.table.care, sizeof other.table.care) == 0 &&
           memcmp(state->table.value, other.table.value, sizeof other.table.value) == 0;
}

/* The lent memory of the present call. */
struct lent { uint8_t *first, *second, *third, *out, *x_entry, *t_entry; sharing_running *state; sharing_part *part; };

/* How many bytes of what a call writes are in OUT, and how many in each entry. */
static size_t out_len(const struct record *r) { return r->call == REASON ? 4 : r->held.len; }
static size_t entry_len(const struct record *r) { return r->call == REASON ? 4 : 0; }

static uint32_t make_call(const struct record *r, const struct lent *m)
{
    size_t first = r->first.len, second = r->second.len, third = r->third.len, out = r->held.len;
    switch (r->call) {
    case READ: return sharing_read(m->first, first, m->out, out);
    case PACK: return sharing_pack(m->first, first, m->out, out);
    case UNPACK: return sharing_unpack(m->first, first, m->out, out);
    case CONVERT: return sharing_convert(r->word, (const uint32_t *)(void *)m->first, first / 4, m->out, out);
    case CHANGE_SIDE: return sharing_change_side(r->side, m->first, first, m->out, out);
    case EQUATION: return sharing_equation(r->side, m->first, first, r->word, m->second, second, m->out, out);
    case UNIFY: return sharing_unify(r->side, m->first, first, m->second, second, m->third, third, m->out, out);
    case JOIN: return sharing_join(r->side, m->first, first, m->second, second, m->out, out);
    case PROJECT: return sharing_project(r->side, m->first, first, r->word, m->out, out);
    case EQUAL: return sharing_equal(m->first, first, m->second, second, (uint32_t *)(void *)m->out);
    case GROUND: return sharing_ground(r->side, m->first, first, r->word, (uint32_t *)(void *)m->out);
    case INDEPENDENT: return sharing_independent(r->side, m->first, first, r->word, r->other, (uint32_t *)(void *)m->out);
    case REASON:
        return sharing_reason(m->first, first, r->word, m->second, second, r->other, (uint32_t *)(void *)m->out,
                              (uint32_t *)(void *)m->x_entry, (uint32_t *)(void *)m->t_entry);
    case SMALLER: sharing_smaller(m->first, first, m->second, second, m->part); return 0;
    case RUN: *m->state = sharing_run(r->side, m->first, first, m->second, second); return m->state->code;
    case UNIFY_RUN: *m->state = sharing_unify_run(r->side, m->first, first, m->second, second); return m->state->code;
    case START: *m->state = sharing_start(r->side, m->first, first); return m->state->code;
    case STEP: return sharing_step(m->state, r->word, m->second, second);
    case UNIFY_STEP: return sharing_unify_step(m->state, m->second, second, m->third, third);
    default: return sharing_write(m->state, m->out, out);
    }
}

/* Whether a place holds other bytes than these; it may be null where there are none. */
static int differs(const uint8_t *at, const uint8_t *bytes, size_t len)
{
    return len > 0 && memcmp(at, bytes, len) != 0;
}

static void compare(const struct record *r, const struct lent *m, uint32_t number)
{
    size_t word = entry_len(r);
    if (number != r->number)
        fail("another number");
    if (r->out.len != r->held.len || differs(m->out, r->out.bytes, out_len(r)) ||
        differs(m->x_entry, r->out.bytes + word, word) || differs(m->t_entry, r->out.bytes + 2 * word, word))
        fail("another output");
    if (differs(m->first, r->first.bytes, r->first.len) || differs(m->second, r->second.bytes, r->second.len) ||
        differs(m->third, r->third.bytes, r->third.len))
        fail("an input was changed");
    if (r->state_after.len == STATE_BYTES && !same_state(m->state, r->state_after.bytes))
        fail("another state");
    if (r->call == SMALLER) {
        const uint8_t *expected = r->part_of == 0 ? m->first : m->second;
        if (m->part->len != r->part_len || (r->part_of < 2 && m->part->ptr != expected))
            fail("another part");
    }
}

static void run_placed(const struct record *r)
{
    sharing_running state;
    memset(&state, 0x5a, sizeof state);
    if (r->state.len == STATE_BYTES)
        fill_state(&state, r->state.bytes);
    struct lent m;
    m.first = place(FIRST, r->first.bytes, r->first.len);
    m.second = place(SECOND, r->second.bytes, r->second.len);
    m.third = place(THIRD, r->third.bytes, r->third.len);
    m.out = place(OUT, r->held.bytes, out_len(r));
    m.x_entry = place(X_ENTRY, r->held.bytes + entry_len(r), entry_len(r));
    m.t_entry = place(T_ENTRY, r->held.bytes + 2 * entry_len(r), entry_len(r));
    m.state = (sharing_running *)(void *)place(STATE, &state, sizeof state);
    sharing_part part = {m.first, 0};
    m.part = (sharing_part *)(void *)place(PART, &part, sizeof part);
    protect(FIRST, PROT_READ);
    protect(SECOND, PROT_READ);
    protect(THIRD, PROT_READ);
    if (r->call == WRITE)
        protect(STATE, PROT_READ);
    compare(r, &m, make_call(r, &m));
    protect(FIRST, PROT_READ | PROT_WRITE);
    protect(SECOND, PROT_READ | PROT_WRITE);
    protect(THIRD, PROT_READ | PROT_WRITE);
    protect(STATE, PROT_READ | PROT_WRITE);
    leave(m.first);
    leave(m.second);
    leave(m.third);
    leave(m.out);
    leave(m.x_entry);
    leave(m.t_entry);
    leave((uint8_t *)m.state);
    leave((uint8_t *)m.part);
}

static void take(void *bytes, size_t len)
{
    if (len > 0 && fread(bytes, 1, len, stdin) != len) {
        fputs("fences: the stream of cases ends within a case\n", stderr);
        exit(2);
    }
}

static struct row take_row(void)
{
    struct row row;
    take(&row.len, 4);
    row.bytes = malloc(row.len + 1);
    if (row.bytes == NULL || row.len > ROOM)
        exit(2);
    take(row.bytes, row.len);
    return row;
}

/* The next case; 0 at the end of the stream. */
static int take_record(struct record *r)
{
    if (fread(&r->call, 1, 4, stdin) != 4)
        return 0;
    if (r->call >= CALLS)
        exit(2);
    take(&r->side, 4);
    take(&r->word, 4);
    take(&r->other, 4);
    r->first = take_row();
    r->second = take_row();
    r->third = take_row();
    r->held = take_row();
    r->state = take_row();
    take(&r->number, 4);
    r->out = take_row();
    r->state_after = take_row();
    take(&r->part_of, 4);
    take(&r->part_len, 4);
    return 1;
}

static void free_record(struct record *r)
{
    struct row *rows[] = {&r->first, &r->second, &r->third, &r->held, &r->state, &r->out, &r->state_after};
    for (size_t k = 0; k < sizeof rows / sizeof rows[0]; k++)
        free(rows[k]->bytes);
}

/* The widths that each call must have been given: those on both sides of where a form's words get longer, the two greatest,
   and one too many. */
static const uint32_t edges[] = {16, 17, 31, 32, 33};

/* The l that a call is given: of its state, of a conversion, or of the form in its first buffer. */
static uint32_t width(const struct record *r)
{
    uint32_t l = 0;
    if (r->state.len == STATE_BYTES)
        memcpy(&l, r->state.bytes + 12, 4);
    else if (r->call == CONVERT)
        l = r->word;
    else if (r->first.len >= 2)
        l = r->first.bytes[0] | (uint32_t)r->first.bytes[1] << 8;
    return l;
}

/* Ends the program where a call was never made, or never with one of these widths. */
static void check_widths(const uint64_t *widths)
{
    for (int call = 0; call < CALLS; call++) {
        for (size_t k = 0; k < sizeof edges / sizeof edges[0]; k++) {
            if ((widths[call] >> edges[k] & 1) == 0) {
                printf("sharing_%s was never called with l = %u\n", names[call], (unsigned)edges[k]);
                exit(1);
            }
        }
    }
}

int main(void)
{
    unsigned long calls = 0;
    uint64_t widths[CALLS] = {0};
    struct record r;
    make_rooms();
    signal(SIGSEGV, on_fault);
    signal(SIGBUS, on_fault);
    for (cases = 0; take_record(&r); cases++) {
        current_call = r.call;
        if (width(&r) < 64)
            widths[r.call] |= UINT64_C(1) << width(&r);
        for (current_placing = 0; current_placing < PLACINGS; current_placing++, calls++)
            run_placed(&r);
        free_record(&r);
    }
    check_widths(widths);
    printf("%lu calls between fences, 0 differences\n", calls);
    return 0;
}

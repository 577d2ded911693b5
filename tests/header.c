/*
 * The header, in C99 and in C++: the numbers, the layouts and each call's type are as documented,
 * and the archive has every name. A state returned by value shows that both agree on its layout.
 * The version as text has the version's numbers; with the argument "version" the program prints it.
 */
#include <sharing.h>

#include <stdio.h>
#include <string.h>

/* A size of -1 stops the compiler. */
#define CHECK(name, holds) typedef char name[(holds) ? 1 : -1]

CHECK(answers, SHARING_ACCEPTED == 0 && SHARING_TORN == 1 && SHARING_WIDTH == 2 &&
                   SHARING_ENTRIES == 3 && SHARING_STRAY == 4 && SHARING_NAME == 5 &&
                   SHARING_TERM == 6 && SHARING_LONG == 7 && SHARING_FULL == 8 &&
                   SHARING_NARROW == 9 && SHARING_UNLIKE == 10 && SHARING_KEEP == 11 &&
                   SHARING_DIGIT == 12);
CHECK(limits, SHARING_MAX_VARIABLES == 32 && SHARING_MAX_ENTRIES == 256 &&
                  SHARING_MAX_EQUATIONS == 64 && SHARING_MAX_TOKENS == 1024);
CHECK(longest_form, SHARING_MAX_FORM == 2052 && SHARING_MAX_FORM == 4 + 8 * SHARING_MAX_ENTRIES);
CHECK(longest_packed,
      SHARING_MAX_PACKED == 1796 &&
          SHARING_MAX_PACKED == 4 + (SHARING_MAX_VARIABLES + 4) / 5 * SHARING_MAX_ENTRIES &&
          (int)SHARING_MAX_PACKED <= (int)SHARING_MAX_FORM);
CHECK(sides, SHARING_POSITIVE == 0 && SHARING_NEGATIVE != 0);
CHECK(verdicts, SHARING_KEPT == 0 && SHARING_JOINED == 1 && SHARING_NO_X_ENTRY == 2 &&
                    SHARING_NO_T_ENTRY == 3 && SHARING_NOT_MADE_UP == 4 &&
                    SHARING_NOT_THERE == 5 && SHARING_NO_SOLUTION == 6);
CHECK(table_layout, offsetof(sharing_table, n) == 8 && offsetof(sharing_table, care) == 16 &&
                        offsetof(sharing_table, value) == 1040 && sizeof(sharing_table) == 2064);
CHECK(running_layout, offsetof(sharing_running, side) == 4 &&
                          offsetof(sharing_running, applied) == 8 &&
                          offsetof(sharing_running, table) == 16 &&
                          sizeof(sharing_running) == 2080);
CHECK(part_layout, offsetof(sharing_part, len) == 8 && sizeof(sharing_part) == 16);

typedef const uint8_t *in;
typedef uint8_t *out;
typedef uint32_t word;

/* Visible outside this file, so that the linker must find every name. */
struct calls {
    word (*read)(in, size_t, out, size_t);
    word (*pack)(in, size_t, out, size_t);
    word (*unpack)(in, size_t, out, size_t);
    word (*convert)(word, const uint32_t *, size_t, out, size_t);
    word (*change_side)(word, in, size_t, out, size_t);
    word (*equation)(word, in, size_t, word, in, size_t, out, size_t);
    word (*unify)(word, in, size_t, in, size_t, in, size_t, out, size_t);
    word (*join)(word, in, size_t, in, size_t, out, size_t);
    word (*project)(word, in, size_t, word, out, size_t);
    word (*equal)(in, size_t, in, size_t, word *);
    word (*ground)(word, in, size_t, word, word *);
    word (*independent)(word, in, size_t, word, word, word *);
    word (*reason)(in, size_t, word, in, size_t, word, word *, word *, word *);
    void (*smaller)(in, size_t, in, size_t, sharing_part *);
    sharing_running (*run)(word, in, size_t, in, size_t);
    sharing_running (*unify_run)(word, in, size_t, in, size_t);
    sharing_running (*start)(word, in, size_t);
    word (*step)(sharing_running *, word, in, size_t);
    word (*unify_step)(sharing_running *, in, size_t, in, size_t);
    word (*write)(const sharing_running *, out, size_t);
} calls = {sharing_read,        sharing_pack,       sharing_unpack, sharing_convert,
           sharing_change_side, sharing_equation,   sharing_unify,  sharing_join,
           sharing_project,     sharing_equal,      sharing_ground, sharing_independent,
           sharing_reason,      sharing_smaller,    sharing_run,    sharing_unify_run,
           sharing_start,       sharing_step,       sharing_unify_step, sharing_write};

#if SHARING_VERSION_MAJOR < 0 || SHARING_VERSION_MINOR < 0 || SHARING_VERSION_PATCH < 0
#error "the preprocessor cannot compare the version"
#endif

/* Is the version as text made of the three numbers? */
static int version_agrees(void) {
    char due[64];
    sprintf(due, "%d.%d.%d", SHARING_VERSION_MAJOR, SHARING_VERSION_MINOR, SHARING_VERSION_PATCH);
    return strcmp(due, SHARING_VERSION) == 0;
}

/* Does the state that is made of a form have these l, care and value, and zeros past its entry? */
static int starts_as(in form, size_t form_len, word l, word care, word value) {
    sharing_running state = calls.start(7, form, form_len);
    int agree = state.code == SHARING_ACCEPTED && state.side == 7 && state.applied == 0 &&
                state.table.l == l && state.table.n == 1 && state.table.care[0] == care &&
                state.table.value[0] == value;
    for (size_t i = 1; i < SHARING_MAX_ENTRIES; i++)
        agree = agree && state.table.care[i] == 0 && state.table.value[i] == 0;
    return agree;
}

int main(int count, char **words) {
    if (count > 1 && strcmp(words[1], "version") == 0)
        return puts(SHARING_VERSION) < 0;
    /* Three variables and the entry 01*; 32 variables, with words of 32 bits in the form. */
    const uint8_t narrow[] = {3, 0, 1, 0, 3, 0, 2, 0};
    const uint8_t wide[] = {32, 0, 1, 0, 3, 0, 1, 0x80, 2, 0, 0, 0x80};
    int agree = starts_as(narrow, sizeof narrow, 3, 3, 2) &&
                starts_as(wide, sizeof wide, 32, 0x80010003u, 0x80000002u);
    return agree && version_agrees() ? 0 : 1;
}

/*
 * sharing_util.h, function by function: against the calls of sharing.h, and for few variables
 * against lists of all groups. A set of groups is a word here: bit s is for the string s, whose
 * bit i - 1 is for Xi. After a refusal the outputs must be as they were. C99 and C++.
 */
#include <sharing_util.h>

#include <stdio.h>
#include <stdlib.h>

#define COUNT(array) (sizeof(array) / sizeof((array)[0]))
#define HOLDS(fact) holds_at(__LINE__, fact)
#define REFUSED(due, code) refused_at(__LINE__, due, code)

enum { FILL = 0x5a, ROUNDS = 3000, SMALL = 4 };

static uint8_t out[SHARING_MAX_FORM];
static unsigned cases, failures;

/* Counts a case, and tells one that does not hold. */
static void holds_at(int line, int holds) {
    cases++;
    if (!holds && failures++ < 20)
        printf("util.c:%d does not hold\n", line);
}

/* The answer is the number due and, if that is a refusal, the output is as it was. */
static void refused_at(int line, uint32_t due, uint32_t code) {
    int kept = 1;
    for (size_t i = 0; i < sizeof out; i++)
        kept = kept && out[i] == FILL;
    holds_at(line, code == due && (due == SHARING_ACCEPTED || kept));
    memset(out, FILL, sizeof out);
}

/* The next random number below a bound, of a fixed sequence. */
static uint32_t any(uint32_t bound) {
    static uint64_t state = 15;
    state = state * 6364136223846793005u + 1442695040888963407u;
    return (uint32_t)(state >> 33) % bound;
}

/* A random word of 32 bits. */
static uint32_t any_word(void) {
    uint32_t low = any(0x10000);
    return low | any(0x10000) << 16;
}

/* The set of X1 to Xl, l from 1 to 32, and the bytes of a care or value word. */
static uint32_t all_of(uint32_t l) { return ~0u >> (32 - l); }
static size_t word_bytes(uint32_t l) { return l < 17 ? 2 : 4; }

/* An l that is often one of those beside the border between the two widths of words. */
static uint32_t any_l(void) {
    static const uint32_t chosen[] = {1, 15, 16, 17, 18, 31, 32};
    return any(2) ? chosen[any(COUNT(chosen))] : 1 + any(SHARING_MAX_VARIABLES);
}

/* A form with room, and its length. */
typedef struct { uint8_t bytes[SHARING_MAX_FORM]; size_t len; } form;

/* What was just written to out, with its length; out is filled again. */
static form taken(void) {
    form made;
    memcpy(made.bytes, out, sizeof out);
    made.len = 4 + 2 * word_bytes(out[0]) * (size_t)(out[2] | out[3] << 8);
    memset(out, FILL, sizeof out);
    return made;
}

/* Writes a number of so many bytes, low byte first. */
static void put(uint8_t *at, size_t bytes, uint32_t word) {
    for (size_t i = 0; i < bytes; i++)
        at[i] = (uint8_t)(word >> 8 * i & 0xff);
}

/* A random form of l variables and n entries; one in four digits is a star, or all kinds alike. */
static form random_form(uint32_t l, uint32_t n) {
    form made;
    uint32_t dense = any(2);
    size_t bytes = word_bytes(l);
    memset(&made, 0, sizeof made);
    put(made.bytes, 2, l);
    put(made.bytes + 2, 2, n);
    for (uint32_t i = 0; i < n; i++) {
        uint32_t care = (dense ? any_word() | any_word() : any_word()) & all_of(l);
        put(made.bytes + 4 + bytes * i, bytes, care);
        put(made.bytes + 4 + bytes * (n + i), bytes, care & any_word());
    }
    made.len = 4 + 2 * bytes * n;
    return made;
}

/* The groups of a table of few variables, by looking at every string. */
static uint32_t groups_of(uint32_t side, const form *table) {
    uint32_t l = table->bytes[0], n = table->bytes[2] | (uint32_t)table->bytes[3] << 8, groups = 0;
    for (uint32_t s = 1; s < 1u << l; s++) {
        int covered = 0;
        for (uint32_t i = 0; i < n; i++) {
            const uint8_t *care = table->bytes + 4 + 2 * i, *value = care + 2 * n;
            covered = covered || (s & (care[0] | (uint32_t)care[1] << 8)) ==
                                     (value[0] | (uint32_t)value[1] << 8);
        }
        groups |= (uint32_t)(covered == (side == SHARING_POSITIVE)) << s;
    }
    return groups;
}

/* Does sharing_equal find the same groups in two tables? */
static int equal(const form *first, const form *second) {
    uint32_t answer = 7;
    return sharing_equal(first->bytes, first->len, second->bytes, second->len, &answer) == 0 &&
           answer == 1;
}

/* ---- Lengths, forms and entries */

/* The numbers of entries for which lengths are tried. */
static const uint32_t counts[] = {0, 1, 2, 3, 17, 100, 255, 256, 257, 512, 65535};

/* The length by l and number of entries is the one that sharing_read takes, and no other. */
static void lengths(void) {
    static uint8_t zeros[SHARING_MAX_FORM + 8];
    for (uint32_t l = 0; l <= SHARING_MAX_VARIABLES + 1; l++)
        for (size_t i = 0; i < COUNT(counts); i++) {
            size_t length = sharing_form_length(l, counts[i]);
            int good = l >= 1 && l <= SHARING_MAX_VARIABLES && counts[i] <= SHARING_MAX_ENTRIES;
            sharing_put_word(zeros, 0, l);
            sharing_put_word(zeros, 1, counts[i]);
            HOLDS(length == (good ? 4 + counts[i] * (l <= 16 ? 4u : 8u) : 0));
            for (size_t at = 0; at < sizeof zeros; at++) {
                uint32_t code = sharing_read(zeros, at, out, sizeof out);
                HOLDS((code == SHARING_ACCEPTED) == (good && at == length));
            }
        }
    HOLDS(sharing_form_length(SHARING_MAX_VARIABLES, SHARING_MAX_ENTRIES) == SHARING_MAX_FORM);
    HOLDS(sharing_form_length(UINT32_MAX, 1) == 0 && sharing_form_length(1, 70000) == 0);
    memset(out, FILL, sizeof out);
}

/* The same for packed forms and sharing_unpack. */
static void packed_lengths(void) {
    static uint8_t zeros[SHARING_MAX_PACKED + 8];
    for (uint32_t l = 0; l <= SHARING_MAX_VARIABLES + 1; l++)
        for (size_t i = 0; i < COUNT(counts); i++) {
            size_t length = sharing_packed_length(l, counts[i]);
            int good = l >= 1 && l <= SHARING_MAX_VARIABLES && counts[i] <= SHARING_MAX_ENTRIES;
            sharing_put_word(zeros, 0, l);
            sharing_put_word(zeros, 1, counts[i]);
            HOLDS((length != 0) == good && length <= SHARING_MAX_PACKED);
            for (size_t at = 0; at < sizeof zeros; at++) {
                uint32_t code = sharing_unpack(zeros, at, out, sizeof out);
                HOLDS((code == SHARING_ACCEPTED) == (good && at == length));
            }
        }
    HOLDS(sharing_packed_length(SHARING_MAX_VARIABLES, SHARING_MAX_ENTRIES) == SHARING_MAX_PACKED);
    memset(out, FILL, sizeof out);
}

/* Sets of the first variables, and words at each place of forms of both widths. */
static void words_and_sets(void) {
    HOLDS(sharing_variables(0) == 0);
    for (uint32_t l = 1; l <= SHARING_MAX_VARIABLES; l++) {
        uint8_t row[4 + 3 * 4 + 1];
        size_t bytes = word_bytes(l);
        HOLDS(sharing_variables(l) == all_of(l) && sharing_word_length(l) == bytes);
        for (size_t place = 0; place < 3; place++) {
            uint32_t word = any_word() | 1u << (8 * bytes - 1);
            memset(row, FILL, sizeof row);
            sharing_put_word(row, 0, l);
            sharing_put_entry_word(row, place, word);
            word &= bytes == 2 ? 0xffffu : ~0u;
            HOLDS(sharing_entry_word(row, place) == word);
            for (size_t i = 2; i < sizeof row; i++) {
                size_t from = 4 + bytes * place;
                HOLDS(row[i] == (i < from || i >= from + bytes ? (uint32_t)FILL
                                                               : word >> 8 * (i - from) & 0xff));
            }
        }
    }
}

/* A form, now often with one fault or cut short or followed by more, and its length as given. */
static form doubtful(form made) {
    if (any(3) == 0)
        made.bytes[any(4)] = (uint8_t)(any(6) * 8);
    if (any(3) == 0)
        made.bytes[0] = (uint8_t)any_l();
    if (any(3) == 0)
        made.bytes[any((uint32_t)made.len)] ^= (uint8_t)(1u << any(8));
    if (any(2) == 0)
        made.len = any(64);
    return made;
}

/* The check answers as sharing_read does, the front length as sharing_smaller. */
static void doubtful_forms(void) {
    unsigned seen[SHARING_DIGIT + 1] = {0};
    for (int round = 0; round < 20 * ROUNDS; round++) {
        form one = doubtful(random_form(any_l(), any(6))), copy = one;
        sharing_part part = {one.bytes, 0};
        uint32_t code = sharing_read(one.bytes, one.len, out, sizeof out);
        HOLDS(sharing_check(one.bytes, one.len) == code);
        sharing_smaller(one.bytes, one.len, copy.bytes, copy.len, &part);
        HOLDS(sharing_front_length(one.bytes, one.len) == part.len);
        seen[code]++;
        memset(out, FILL, sizeof out);
    }
    HOLDS(seen[SHARING_ACCEPTED] && seen[SHARING_TORN] && seen[SHARING_WIDTH] &&
          seen[SHARING_ENTRIES] && seen[SHARING_STRAY]);
}

/* The packed form of a random table. */
static form random_packed(void) {
    form made = random_form(any_l(), any(6)), packed;
    memset(&packed, 0, sizeof packed);
    HOLDS(sharing_pack(made.bytes, made.len, packed.bytes, sizeof packed.bytes) == 0);
    packed.len = sharing_packed_front(packed.bytes, sizeof packed.bytes);
    HOLDS(packed.len == sharing_packed_length(packed.bytes[0], packed.bytes[2]));
    return packed;
}

/* The front of a packed form is the part that sharing_unpack takes, if there is one. */
static void doubtful_packed(void) {
    unsigned seen[SHARING_DIGIT + 1] = {0};
    for (int round = 0; round < 5 * ROUNDS; round++) {
        form one = doubtful(random_packed());
        size_t due = 0;
        for (size_t at = 0; at <= one.len; at++)
            if (sharing_unpack(one.bytes, at, out, sizeof out) == SHARING_ACCEPTED)
                due = at;
        HOLDS(sharing_packed_front(one.bytes, one.len) == due);
        seen[sharing_unpack(one.bytes, one.len, out, sizeof out)]++;
        memset(out, FILL, sizeof out);
    }
    HOLDS(seen[SHARING_ACCEPTED] && seen[SHARING_TORN] && seen[SHARING_WIDTH] &&
          seen[SHARING_ENTRIES] && seen[SHARING_DIGIT]);
}

/* A form made from entries is the bytes of the rule, and gives them back; sharing_start agrees. */
static void made_forms(void) {
    for (int round = 0; round < ROUNDS; round++) {
        uint32_t l = any_l(), n = any(8) == 0 ? 256 : any(6);
        form due = random_form(l, n);
        sharing_entry entries[SHARING_MAX_ENTRIES], entry = {9, 9};
        for (uint32_t i = 0; i < n; i++)
            HOLDS(sharing_entry_at(due.bytes, due.len, i, &entries[i]) == 0);
        REFUSED(SHARING_TORN, sharing_entry_at(due.bytes, due.len, n, &entry));
        HOLDS(entry.care == 9 && entry.value == 9);
        REFUSED(SHARING_NARROW, sharing_make_form(l, entries, n, out, due.len - 1));
        HOLDS(sharing_make_form(l, entries, n, out, due.len) == 0);
        HOLDS(memcmp(out, due.bytes, due.len) == 0);
        HOLDS(due.len == sizeof out || out[due.len] == FILL);
        form made = taken();
        HOLDS(sharing_front_length(made.bytes, sizeof made.bytes) == due.len);
        HOLDS(sharing_read(made.bytes, made.len, out, sizeof out) == 0);
        form read = taken();
        sharing_running state = sharing_start(0, read.bytes, read.len);
        HOLDS(state.code == 0);
        for (uint32_t i = 0; i < state.table.n; i++)
            HOLDS(sharing_entry_at(read.bytes, read.len, i, &entry) == 0 &&
                  entry.care == state.table.care[i] && entry.value == state.table.value[i]);
    }
}

/* Each refusal of making a form and of taking an entry out, with the later faults beside it. */
static void refused_forms(void) {
    sharing_entry stray = {1u << 16, 0}, above = {8, 0}, no_care = {1, 2}, good = {7, 1};
    sharing_entry kept = good;
    sharing_entry many[SHARING_MAX_ENTRIES + 1];
    sharing_entry last = {1u << 31, 1u << 31}, loose_last = {~0u >> 1, 1u << 31};
    const uint8_t wide[] = {33, 0, 9, 9}, loose[] = {2, 0, 1, 0, 1, 0, 2, 0};
    for (size_t i = 0; i < COUNT(many); i++)
        many[i] = stray;
    REFUSED(SHARING_WIDTH, sharing_make_form(0, many, 257, out, 0));
    REFUSED(SHARING_WIDTH, sharing_make_form(33, many, 257, out, 0));
    REFUSED(SHARING_ENTRIES, sharing_make_form(32, many, 257, out, 0));
    REFUSED(SHARING_ENTRIES, sharing_make_form(3, many, 257, out, 0));
    REFUSED(SHARING_STRAY, sharing_make_form(3, &stray, 1, out, 0));
    REFUSED(SHARING_STRAY, sharing_make_form(3, &above, 1, out, 0));
    REFUSED(SHARING_STRAY, sharing_make_form(3, &no_care, 1, out, 0));
    REFUSED(SHARING_NARROW, sharing_make_form(3, &good, 1, out, 7));
    REFUSED(SHARING_STRAY, sharing_make_form(16, &stray, 1, out, 0));
    REFUSED(SHARING_STRAY, sharing_make_form(31, &last, 1, out, 0));
    REFUSED(SHARING_STRAY, sharing_make_form(32, &loose_last, 1, out, 0));
    REFUSED(SHARING_NARROW, sharing_make_form(16, &good, 1, out, 7));
    REFUSED(SHARING_NARROW, sharing_make_form(17, &stray, 1, out, 11));
    REFUSED(SHARING_NARROW, sharing_make_form(32, &last, 1, out, 11));
    REFUSED(SHARING_WIDTH, sharing_entry_at(wide, sizeof wide, 9, &kept));
    REFUSED(SHARING_STRAY, sharing_entry_at(loose, sizeof loose, 9, &kept));
    HOLDS(kept.care == good.care && kept.value == good.value);
    HOLDS(sharing_front_length(wide, 0) == 0 && sharing_front_length(wide, 3) == 0);
}

/* An entry of l positions by its number in base 3, and its text. */
static sharing_entry numbered(uint64_t number, uint32_t l, char *text) {
    sharing_entry entry = {0, 0};
    for (uint32_t i = 0; i < l; i++, number /= 3) {
        text[i] = "01*"[number % 3];
        entry.care |= (uint32_t)(number % 3 != 2) << i;
        entry.value |= (uint32_t)(number % 3 == 1) << i;
    }
    text[l] = '\0';
    return entry;
}

/* Every entry of at most 8 positions, and some of up to 32, to text and back. */
static void texts(void) {
    char due[36], text[36];
    for (uint32_t l = 1; l <= SHARING_MAX_VARIABLES; l++) {
        uint64_t all = 1;
        for (uint32_t i = 0; i < l; i++)
            all *= 3;
        for (uint32_t round = 0; round < (l <= 8 ? all : (uint64_t)ROUNDS); round++) {
            uint64_t number = l <= 8 ? round : ((uint64_t)any_word() << 32 | any_word()) % all;
            sharing_entry entry = numbered(number, l, due), back = {9, 9};
            memset(text, FILL, sizeof text);
            HOLDS(sharing_entry_text(l, entry, text, l) == SHARING_NARROW && text[0] == FILL);
            HOLDS(sharing_entry_text(l, entry, text, l + 1) == 0 && strcmp(text, due) == 0);
            HOLDS(text[l + 1] == FILL);
            HOLDS(sharing_text_entry(text, l, &back) == 0);
            HOLDS(back.care == entry.care && back.value == entry.value);
        }
    }
}

/* Each refusal of text, with the later faults beside it; nothing is written. */
static void refused_texts(void) {
    sharing_entry above = {8, 0}, no_care = {1, 2}, back = {9, 9};
    char text[8] = "as was";
    HOLDS(sharing_entry_text(0, above, text, 0) == SHARING_WIDTH);
    HOLDS(sharing_entry_text(33, above, text, 0) == SHARING_WIDTH);
    HOLDS(sharing_entry_text(3, above, text, 0) == SHARING_STRAY);
    HOLDS(sharing_entry_text(3, no_care, text, 0) == SHARING_STRAY);
    HOLDS(strcmp(text, "as was") == 0);
    HOLDS(sharing_text_entry("2", 0, &back) == SHARING_WIDTH);
    HOLDS(sharing_text_entry("01010101010101010101010101010101O", 33, &back) == SHARING_WIDTH);
    HOLDS(sharing_text_entry("0101010101010101010101010101010O", 32, &back) == SHARING_STRAY);
    HOLDS(back.care == 9 && back.value == 9);
    for (int c = 0; c < 256; c++) {
        char one[3] = {'0', (char)c, '*'};
        int good = c == '0' || c == '1' || c == '*';
        back.care = back.value = 9;
        HOLDS((sharing_text_entry(one, 3, &back) == SHARING_STRAY) == !good);
        HOLDS(good || (back.care == 9 && back.value == 9));
    }
}

/* ---- Forms to begin with */

/* Each of them, for one l, by the questions that it must answer. */
static void first_forms_of(uint32_t l) {
    uint32_t alone[SHARING_MAX_VARIABLES], answer = 7, all = all_of(l);
    size_t one = 4 + 2 * word_bytes(l), most = 4 + 2 * word_bytes(l) * l;
    for (uint32_t i = 0; i < l; i++)
        alone[i] = 1u << i;
    HOLDS(sharing_all_star(l, out, one) == 0);
    form stars = taken();
    HOLDS(sharing_empty(l, out, 4) == 0);
    form empty = taken();
    HOLDS(sharing_all_free(l, out, most) == 0);
    form made = taken();
    HOLDS(sharing_convert(l, alone, l, out, sizeof out) == 0);
    form converted = taken();
    HOLDS(equal(&made, &converted));
    for (uint32_t x = 1; x <= l; x++) {
        HOLDS(sharing_independent(0, made.bytes, made.len, alone[x - 1], all & ~alone[x - 1],
                                  &answer) == 0 && answer == 1);
        HOLDS(sharing_ground(0, made.bytes, made.len, x, &answer) == 0 && answer == 0);
        HOLDS(sharing_ground(0, empty.bytes, empty.len, x, &answer) == 0 && answer == 1);
        HOLDS(sharing_ground(1, stars.bytes, stars.len, x, &answer) == 0 && answer == 1);
        for (uint32_t y = 1; y <= l; y++)
            HOLDS(sharing_independent(0, stars.bytes, stars.len, alone[x - 1], alone[y - 1],
                                      &answer) == 0 && answer == 0);
    }
    HOLDS(sharing_change_side(0, stars.bytes, stars.len, out, sizeof out) == 0);
    form other = taken();
    HOLDS(equal(&other, &empty));
    HOLDS(sharing_unknown_form(0, l, out, one) == 0 && memcmp(out, stars.bytes, one) == 0);
    HOLDS(sharing_unknown_form(1, l, out, 4) == 0 && memcmp(out, empty.bytes, 4) == 0);
    HOLDS(sharing_unknown_form(7, l, out, 4) == 0 && memcmp(out, empty.bytes, 4) == 0);
    memset(out, FILL, sizeof out);
    REFUSED(SHARING_NARROW, sharing_all_star(l, out, one - 1));
    REFUSED(SHARING_NARROW, sharing_empty(l, out, 3));
    REFUSED(SHARING_NARROW, sharing_all_free(l, out, most - 1));
    REFUSED(SHARING_NARROW, sharing_unknown_form(0, l, out, one - 1));
    REFUSED(SHARING_NARROW, sharing_unknown_form(1, l, out, 3));
}

static void first_forms(void) {
    for (uint32_t l = 1; l <= SHARING_MAX_VARIABLES; l++)
        first_forms_of(l);
    for (uint32_t l = 0; l <= 33; l += 33) {
        REFUSED(SHARING_WIDTH, sharing_all_star(l, out, 0));
        REFUSED(SHARING_WIDTH, sharing_empty(l, out, 0));
        REFUSED(SHARING_WIDTH, sharing_all_free(l, out, 0));
        REFUSED(SHARING_WIDTH, sharing_unknown_form(l, l, out, 0));
    }
}

/* ---- Renaming */

/* The string that a new position reads off an old one. */
static uint32_t renamed(uint32_t s, const uint32_t *from, size_t from_len) {
    uint32_t made = 0;
    for (size_t j = 0; j < from_len; j++)
        made |= (from[j] == 0 ? 0 : s >> (from[j] - 1) & 1) << j;
    return made;
}

/* The images of a set of groups; all zero is no group. */
static uint32_t images(uint32_t groups, uint32_t l, const uint32_t *from, size_t from_len) {
    uint32_t made = 0;
    for (uint32_t s = 1; s < 1u << l; s++)
        if (groups >> s & 1)
            made |= 1u << renamed(s, from, from_len);
    return made & ~1u;
}

/* Renaming and selecting one form on one side by one map, against the images of its groups. */
static void rename_one(uint32_t side, const form *table, const uint32_t *from, size_t from_len) {
    uint32_t l = table->bytes[0], taken_set = 0, groups = groups_of(side, table);
    for (size_t j = 0; j < from_len; j++)
        taken_set |= from[j] == 0 ? 0 : 1u << (from[j] - 1);
    uint32_t code =
        sharing_rename(side, table->bytes, table->len, from, from_len, out, sizeof out);
    REFUSED(taken_set == sharing_variables(l) ? SHARING_ACCEPTED : SHARING_KEEP, code);
    code = sharing_rename(side, table->bytes, table->len, from, from_len, out, sizeof out);
    if (code == SHARING_ACCEPTED) {
        form made = taken();
        HOLDS(groups_of(side, &made) == images(groups, l, from, from_len));
        HOLDS(made.bytes[0] == from_len && sharing_check(made.bytes, made.len) == 0);
        REFUSED(SHARING_NARROW, sharing_rename(side, table->bytes, table->len, from, from_len, out,
                                               made.len - 1));
    }
    code = sharing_select(side, table->bytes, table->len, from, from_len, out, sizeof out);
    if (taken_set == 0) {
        REFUSED(SHARING_KEEP, code);
        return;
    }
    HOLDS(code == SHARING_ACCEPTED);
    form seen = taken();
    HOLDS(groups_of(side, &seen) == images(groups, l, from, from_len));
}

/* Every map of 1 to 3 old onto 1 to 4 new variables, on random forms of either side. */
static void every_map(void) {
    for (uint32_t l = 1; l <= 3; l++)
        for (size_t from_len = 1; from_len <= SMALL; from_len++) {
            uint32_t maps = 1, from[SMALL];
            for (size_t j = 0; j < from_len; j++)
                maps *= l + 1;
            for (uint32_t map = 0; map < maps; map++) {
                uint32_t rest = map;
                for (size_t j = 0; j < from_len; j++, rest /= l + 1)
                    from[j] = rest % (l + 1);
                for (int round = 0; round < 8; round++) {
                    form table = random_form(l, any(5));
                    rename_one((uint32_t)round & 1, &table, from, from_len);
                }
            }
        }
}

/* Many variables in another order and back are the same table. */
static void wide_maps(void) {
    for (int round = 0; round < ROUNDS / 4; round++) {
        uint32_t side = any(2), order[32], back[32], answer = 7, l = any_l();
        form table = random_form(l, any(12));
        for (uint32_t i = 0; i < l; i++)
            order[i] = i + 1;
        for (uint32_t i = l - 1; i > 0; i--) {
            uint32_t j = any(i + 1), swap = order[i];
            order[i] = order[j];
            order[j] = swap;
        }
        for (uint32_t i = 0; i < l; i++)
            back[order[i] - 1] = i + 1;
        HOLDS(sharing_rename(side, table.bytes, table.len, order, l, out, sizeof out) == 0);
        form moved = taken();
        uint32_t x = 1 + any(l), ground = 8;
        HOLDS(sharing_ground(side, table.bytes, table.len, order[x - 1], &ground) == 0);
        HOLDS(sharing_ground(side, moved.bytes, moved.len, x, &answer) == 0 && answer == ground);
        HOLDS(sharing_rename(side, moved.bytes, moved.len, back, l, out, sizeof out) == 0);
        form again = taken();
        HOLDS(again.len == table.len && memcmp(again.bytes, table.bytes, table.len) == 0);
    }
}

/* Selecting variables in rising order is the projection, a full one too. */
static void projections(void) {
    unsigned full = 0;
    for (int round = 0; round < ROUNDS / 4; round++) {
        uint32_t side = any(2), l = any_l(), keep = any_word() & all_of(l), rising[32];
        size_t kept = 0;
        form table = random_form(l, any(12)), cut;
        keep |= any(4) == 0 || keep == 0 ? 1u << (l - 1) : 0;
        for (uint32_t i = 0; i < l; i++)
            if (keep >> i & 1)
                rising[kept++] = i + 1;
        memset(cut.bytes, FILL, sizeof cut.bytes);
        uint32_t due =
            sharing_project(side, table.bytes, table.len, keep, cut.bytes, sizeof cut.bytes);
        HOLDS(sharing_select(side, table.bytes, table.len, rising, kept, out, sizeof out) == due);
        HOLDS(memcmp(out, cut.bytes, sizeof out) == 0);
        memset(out, FILL, sizeof out);
        full += due == SHARING_FULL;
    }
    HOLDS(full > 0 && full < ROUNDS / 8);
}

/* A known position is ground, and a variable taken twice projects back to the table. */
static void maps_and_questions(void) {
    for (int round = 0; round < ROUNDS; round++) {
        uint32_t side = any(2), wide = any(3) == 0, l = wide ? 13 + any(18) : 1 + any(8);
        uint32_t from[32], answer = 7;
        /* Of many variables more than one negative entry could be full. */
        form table = random_form(l, any(!wide ? 8 : side == SHARING_POSITIVE ? 4 : 2));
        for (uint32_t i = 0; i < l; i++)
            from[i] = i + 1;
        from[l] = 1 + any(l);
        from[l + 1] = 0;
        HOLDS(sharing_rename(side, table.bytes, table.len, from, l + 2, out, sizeof out) == 0);
        form made = taken();
        HOLDS(sharing_ground(side, made.bytes, made.len, l + 2, &answer) == 0 && answer == 1);
        uint32_t keep = (all_of(l) & ~(1u << (from[l] - 1))) | 1u << l;
        HOLDS(sharing_project(side, made.bytes, made.len, all_of(l), out, sizeof out) == 0);
        form first = taken();
        HOLDS(equal(&first, &table));
        HOLDS(sharing_project(side, made.bytes, made.len, keep, out, sizeof out) == 0);
        form second = taken();
        for (uint32_t i = 0; i < l; i++)
            from[i] = i + 1 == from[l] ? l : i + 1 < from[l] ? i + 1 : i;
        HOLDS(sharing_rename(side, second.bytes, second.len, from, l, out, sizeof out) == 0);
        second = taken();
        HOLDS(equal(&second, &table));
    }
}

/* Each refusal of renaming and selecting, with the later faults beside it; full exactly at 257. */
static void refused_maps(void) {
    const uint8_t loose[] = {2, 0, 1, 0, 1, 0, 2, 0}, two[] = {2, 0, 0, 0};
    const uint32_t bad[] = {3, 1}, once[] = {1}, none[] = {0};
    const uint32_t twice[] = {1, 2, 3, 4, 5, 6, 7, 8, 8}, known[] = {1, 2, 3, 4, 5, 6, 7, 8, 0};
    for (uint32_t side = 0; side < 2; side++) {
        REFUSED(SHARING_STRAY, sharing_rename(side, loose, sizeof loose, bad, 33, out, 0));
        REFUSED(SHARING_WIDTH, sharing_rename(side, two, 4, bad, 0, out, 0));
        REFUSED(SHARING_WIDTH, sharing_rename(side, two, 4, bad, 33, out, 0));
        REFUSED(SHARING_NAME, sharing_rename(side, two, 4, bad, 2, out, 0));
        REFUSED(SHARING_KEEP, sharing_rename(side, two, 4, once, 1, out, 0));
        REFUSED(SHARING_STRAY, sharing_select(side, loose, sizeof loose, bad, 33, out, 0));
        REFUSED(SHARING_WIDTH, sharing_select(side, two, 4, bad, 0, out, 0));
        REFUSED(SHARING_WIDTH, sharing_select(side, two, 4, bad, 33, out, 0));
        REFUSED(SHARING_NAME, sharing_select(side, two, 4, bad, 2, out, 0));
        REFUSED(SHARING_KEEP, sharing_select(side, two, 4, none, 1, out, 0));
        REFUSED(SHARING_NARROW, sharing_select(side, two, 4, once, 1, out, 3));
    }
    for (uint32_t n = 0; n <= SHARING_MAX_ENTRIES; n++) {
        form table = random_form(8, n);
        uint32_t list = 0;
        for (uint32_t i = 0; i < n; i++)
            list += table.bytes[4 + 2 * i] >> 7 & 1 ? 1 : 2;
        REFUSED(list > 256 ? SHARING_FULL : SHARING_NARROW,
                sharing_rename(0, table.bytes, table.len, twice, 9, out, 0));
        REFUSED(n > 254 ? SHARING_FULL : SHARING_NARROW,
                sharing_rename(1, table.bytes, table.len, twice, 9, out, 0));
        REFUSED(SHARING_NARROW, sharing_rename(0, table.bytes, table.len, known, 9, out, 0));
        REFUSED(n > 255 ? SHARING_FULL : SHARING_NARROW,
                sharing_rename(1, table.bytes, table.len, known, 9, out, 0));
    }
}

/* ---- Goals */

/* Every "or" of one or more strings of a set. */
static uint32_t closed(uint32_t groups) {
    for (uint32_t before = 0; before != groups;) {
        before = groups;
        for (uint32_t s = 0; s < 1u << SMALL; s++)
            for (uint32_t t = 0; t < s; t++)
                if (before >> s & before >> t & 1)
                    groups |= 1u << (s | t);
    }
    return groups;
}

/* The groups of a set that meet some variables. */
static uint32_t meeting(uint32_t groups, uint32_t variables) {
    uint32_t found = 0;
    for (uint32_t s = 0; s < 1u << SMALL; s++)
        if ((s & variables) != 0)
            found |= groups & 1u << s;
    return found;
}

/* Further variables: the groups stay, and each new one is a group of its own. */
static void free_variables(void) {
    const uint8_t loose[] = {2, 0, 1, 0, 1, 0, 2, 0};
    for (int round = 0; round < ROUNDS; round++) {
        uint32_t l = 1 + any(SMALL), more = any(SMALL + 1 - l), due;
        form table = random_form(l, any(5));
        due = groups_of(0, &table);
        for (uint32_t i = 0; i < more; i++)
            due |= 1u << (1u << (l + i));
        HOLDS(sharing_add_free(table.bytes, table.len, more, out, sizeof out) == 0);
        form made = taken();
        HOLDS(made.bytes[0] == l + more && groups_of(0, &made) == due);
        REFUSED(SHARING_NARROW,
                sharing_add_free(table.bytes, table.len, more, out, made.len - 1));
    }
    form most = random_form(30, 255);
    REFUSED(SHARING_STRAY, sharing_add_free(loose, sizeof loose, 99, out, 0));
    REFUSED(SHARING_WIDTH, sharing_add_free(most.bytes, most.len, 3, out, 0));
    REFUSED(SHARING_WIDTH, sharing_add_free(most.bytes, most.len, UINT32_MAX, out, 0));
    REFUSED(SHARING_FULL, sharing_add_free(most.bytes, most.len, 2, out, 0));
    REFUSED(SHARING_NARROW, sharing_add_free(most.bytes, most.len, 1, out, 0));
}

/* The same of many variables, also where the words of the form grow wider: what was there is as it
 * was, and each new variable is free. */
static void wide_free_variables(void) {
    for (int round = 0; round < ROUNDS / 4; round++) {
        uint32_t l = 1 + any(31), more = 1 + any(32 - l), answer = 7;
        form table = random_form(l, any(6));
        HOLDS(sharing_add_free(table.bytes, table.len, more, out, sizeof out) == 0);
        form made = taken();
        HOLDS(made.bytes[0] == l + more && sharing_check(made.bytes, made.len) == 0);
        HOLDS(sharing_project(0, made.bytes, made.len, all_of(l), out, sizeof out) == 0);
        form back = taken();
        HOLDS(equal(&back, &table));
        for (uint32_t x = l; x < l + more; x++) {
            uint32_t others = all_of(l + more) & ~(1u << x);
            HOLDS(sharing_ground(0, made.bytes, made.len, x + 1, &answer) == 0 && answer == 0);
            HOLDS(sharing_independent(0, made.bytes, made.len, 1u << x, others, &answer) == 0 &&
                  answer == 1);
        }
    }
}

/* A random term with exactly the variables of a set; returns its length. */
static size_t random_term(uint32_t variables, uint8_t *term) {
    size_t tokens = 0;
    for (uint32_t x = 1; x <= SHARING_MAX_VARIABLES; x++)
        for (uint32_t times = variables >> (x - 1) & 1 ? 1 + any(3) : 0; times > 0; times--) {
            if (any(2))
                sharing_put_word(term, tokens++, sharing_head(any(2048), 1));
            sharing_put_word(term, tokens++, sharing_head(any(2048), 3));
            sharing_put_word(term, tokens++, x);
            sharing_put_word(term, tokens++, sharing_head(any(2048), 0));
        }
    sharing_put_word(term, tokens++, sharing_head(any(2048), 0));
    return 2 * tokens;
}

/* The table without groups of a side. */
static form no_groups(uint32_t side, uint32_t l) {
    HOLDS((side == SHARING_POSITIVE ? sharing_empty(l, out, sizeof out)
                                    : sharing_all_star(l, out, sizeof out)) == 0);
    return taken();
}

/* A variable set equal to itself, and to random terms that have it deeper: sharing_occurs tells the
 * two from each other and from all other equations, and so does the table. */
static void own_terms(void) {
    unsigned seen[3] = {0, 0, 0};
    for (int round = 0; round < ROUNDS; round++) {
        uint32_t side = any(2), l = any_l(), x = 1 + any(l), y = any(2) ? x : 1 + any(l);
        uint32_t variables = any_word() & any_word() & all_of(l);
        uint8_t term[800];
        form table = random_form(l, any(4)), none = no_groups(side, l);
        uint32_t alone = any(3) == 0, kind = alone ? x == y : 2 * (variables >> (x - 1) & 1);
        size_t len = alone ? 2 : random_term(variables, term);
        if (alone)
            sharing_put_word(term, 0, y);
        HOLDS(sharing_occurs(x, term, len) == kind);
        seen[kind]++;
        if (kind == SHARING_OCCURS_NOT)
            continue;
        HOLDS(sharing_read(table.bytes, table.len, out, sizeof out) == 0);
        form read = taken(), due = kind == SHARING_OCCURS_ALONE ? read : none;
        HOLDS(sharing_equation(side, table.bytes, table.len, x, term, len, out, due.len) == 0);
        HOLDS(memcmp(out, due.bytes, due.len) == 0);
        memset(out, FILL, sizeof out);
        sharing_running state = sharing_start(side, table.bytes, table.len);
        HOLDS(sharing_step(&state, x, term, len) == 0 && state.applied == 1);
        HOLDS(sharing_write(&state, out, due.len) == 0 && memcmp(out, due.bytes, due.len) == 0);
        memset(out, FILL, sizeof out);
    }
    HOLDS(seen[0] > ROUNDS / 10 && seen[1] > ROUNDS / 10 && seen[2] > ROUNDS / 10);
}

/* The table after an equation depends on the variables of the term alone, not on its symbols; but a
 * set of the left variable alone may be that variable, and then the table stays. */
static void set_terms(void) {
    uint8_t term[400], set[SHARING_SET_TERM];
    const uint8_t loose[] = {2, 0, 1, 0, 1, 0, 2, 0};
    for (int round = 0; round < ROUNDS; round++) {
        uint32_t side = any(2), l = 1 + any(6), x = 1 + any(l), variables = any(1u << l);
        form table = random_form(l, any(6));
        size_t len = random_term(variables, term);
        uint32_t code =
            variables == 1u << (x - 1)
                ? sharing_read(table.bytes, table.len, out, sizeof out)
                : sharing_equation(side, table.bytes, table.len, x, term, len, out, sizeof out);
        HOLDS(code == 0);
        form due = taken();
        len = sharing_set_term(variables, set);
        code = sharing_equation(side, table.bytes, table.len, x, set, len, out, sizeof out);
        HOLDS(code == 0 && memcmp(out, due.bytes, due.len) == 0);
        memset(out, FILL, sizeof out);
        code = sharing_set_equation(side, table.bytes, table.len, x, variables, out, sizeof out);
        HOLDS(code == 0 && memcmp(out, due.bytes, due.len) == 0);
        memset(out, FILL, sizeof out);
        REFUSED(SHARING_NARROW, sharing_set_equation(side, table.bytes, table.len, x, variables,
                                                     out, due.len - 1));
        REFUSED(SHARING_NAME,
                sharing_set_equation(side, table.bytes, table.len, x, 1u << l, out, 0));
        REFUSED(SHARING_NAME,
                sharing_set_equation(side, table.bytes, table.len, l + 1, 0, out, 0));
    }
    REFUSED(SHARING_STRAY, sharing_set_equation(0, loose, sizeof loose, 9, 99, out, 0));
    HOLDS(sharing_set_term(UINT32_MAX, set) == sizeof set && sharing_word_at(set, 63) == 32);
    HOLDS(sharing_set_term(1u << 31 | 1, set) == 10 && sharing_word_at(set, 3) == 32);
    for (uint32_t x = 1; x <= SHARING_MAX_VARIABLES; x++)
        HOLDS(sharing_set_term(1u << (x - 1), set) == 2 && sharing_word_at(set, 0) == x);
    HOLDS(sharing_set_term(0, set) == 2 && sharing_word_at(set, 0) == sharing_head(0, 0));
}

/* The intersection, against the groups of both; the sides as the comment reads them. */
static void intersections(void) {
    const uint8_t one[] = {1, 0, 0, 0}, two[] = {2, 0, 0, 0};
    for (int round = 0; round < 4 * ROUNDS; round++) {
        uint32_t l = 1 + any(SMALL);
        form first = random_form(l, any(6)), second = random_form(l, any(6));
        HOLDS(sharing_intersect(first.bytes, first.len, second.bytes, second.len, out,
                                sizeof out) == 0);
        form made = taken();
        HOLDS(groups_of(0, &made) == (groups_of(0, &first) & groups_of(0, &second)));
        HOLDS(groups_of(1, &made) == (groups_of(1, &first) | groups_of(1, &second)));
    }
    REFUSED(SHARING_UNLIKE, sharing_intersect(one, 4, two, 4, out, 0));
    REFUSED(SHARING_NARROW, sharing_intersect(one, 4, one, 4, out, 3));
}

/* Many variables, each of which may share with the next one: a goal on all of them is full. */
static form next_ones(uint32_t l) {
    uint32_t words[31];
    for (uint32_t i = 0; i + 1 < l; i++)
        words[i] = 3u << i;
    HOLDS(sharing_convert(l, words, l - 1, out, sizeof out) == 0);
    return taken();
}

/* A goal of which nothing is known, against the closure of the groups that meet it. */
static void unknown_goals(void) {
    const uint8_t loose[] = {2, 0, 1, 0, 1, 0, 2, 0}, two[] = {2, 0, 0, 0};
    for (int round = 0; round < 2 * ROUNDS; round++) {
        uint32_t l = 1 + any(SMALL), goal = any(1u << l);
        form table = random_form(l, any(6));
        uint32_t groups = groups_of(0, &table), met = meeting(groups, goal);
        HOLDS(sharing_unknown_goal(table.bytes, table.len, goal, out, sizeof out) == 0);
        form made = taken();
        HOLDS(groups_of(0, &made) == ((groups & ~met) | closed(met)));
        REFUSED(SHARING_NARROW,
                sharing_unknown_goal(table.bytes, table.len, goal, out, made.len - 1));
        /* The same as where there is no further variable, with each variable of the goal. */
        for (uint32_t x = 1; x <= l && l > 1; x++) {
            if ((goal >> (x - 1) & 1) == 0)
                continue;
            HOLDS(sharing_unknown_within(table.bytes, table.len, x, goal, out, sizeof out) == 0);
            form within = taken();
            HOLDS(equal(&within, &made));
            REFUSED(SHARING_NARROW, sharing_unknown_within(table.bytes, table.len, x, goal, out,
                                                           within.len - 1));
        }
    }
    for (uint32_t l = 16; l <= 32; l += 16) {
        form next = next_ones(l);
        REFUSED(SHARING_FULL, sharing_unknown_goal(next.bytes, next.len, all_of(l), out, 0));
    }
    REFUSED(SHARING_STRAY, sharing_unknown_goal(loose, sizeof loose, 99, out, 0));
    REFUSED(SHARING_NAME, sharing_unknown_goal(two, 4, 4, out, 0));
    REFUSED(SHARING_NARROW, sharing_unknown_goal(two, 4, 0, out, 3));
}

/* The groups of the closure that an exit table allows at the arguments. */
static uint32_t allowed(uint32_t groups, uint32_t exits, const uint32_t *arguments, size_t len) {
    uint32_t found = 0;
    for (uint32_t s = 1; s < 1u << SMALL; s++)
        if (exits >> renamed(s, arguments, len) & 1)
            found |= groups & 1u << s;
    return found;
}

/* A goal with a known exit table, against the groups one by one; arguments twice and known too. */
static void known_goals(void) {
    for (int round = 0; round < 4 * ROUNDS; round++) {
        uint32_t l = 1 + any(SMALL), k = 1 + any(SMALL), arguments[SMALL], goal = 0;
        form table = random_form(l, any(6)), exits = random_form(k, any(6));
        for (uint32_t j = 0; j < k; j++) {
            arguments[j] = any(l + 1);
            goal |= arguments[j] == 0 ? 0 : 1u << (arguments[j] - 1);
        }
        uint32_t groups = groups_of(0, &table), met = meeting(groups, goal);
        uint32_t due = (groups & ~met) |
                       allowed(closed(met), groups_of(0, &exits), arguments, k);
        HOLDS(sharing_known_goal(table.bytes, table.len, exits.bytes, exits.len, arguments, k, out,
                                 sizeof out) == 0);
        form made = taken();
        HOLDS(groups_of(0, &made) == due);
        REFUSED(SHARING_NARROW, sharing_known_goal(table.bytes, table.len, exits.bytes, exits.len,
                                                   arguments, k, out, made.len - 1));
    }
}

/* Each refusal of a goal with a known exit table, with the later faults beside it. */
static void refused_goals(void) {
    const uint8_t loose[] = {2, 0, 1, 0, 1, 0, 2, 0}, two[] = {2, 0, 0, 0};
    const uint32_t far[] = {3, 3}, some[] = {1, 2};
    uint32_t all[32];
    for (uint32_t i = 0; i < 32; i++)
        all[i] = i + 1;
    form next = next_ones(32);
    REFUSED(SHARING_STRAY, sharing_known_goal(loose, 8, loose, 7, far, 9, out, 0));
    REFUSED(SHARING_TORN, sharing_known_goal(two, 4, loose, 7, far, 9, out, 0));
    REFUSED(SHARING_UNLIKE, sharing_known_goal(two, 4, two, 4, far, 1, out, 0));
    REFUSED(SHARING_NAME, sharing_known_goal(two, 4, two, 4, far, 2, out, 0));
    REFUSED(SHARING_FULL,
            sharing_known_goal(next.bytes, next.len, next.bytes, next.len, all, 32, out, 0));
    REFUSED(SHARING_NARROW, sharing_known_goal(two, 4, two, 4, some, 2, out, 3));
}

/* A table of few variables at the last positions of 32; the others are known. */
static form lifted(const form *table) {
    uint32_t l = table->bytes[0], from[32] = {0};
    for (uint32_t i = 0; i < l; i++)
        from[32 - l + i] = i + 1;
    HOLDS(sharing_rename(0, table->bytes, table->len, from, 32, out, sizeof out) == 0);
    return taken();
}

/* The functions on goals do at the last positions of 32 what they do to the few variables alone. */
static void wide_goals(void) {
    for (int round = 0; round < ROUNDS / 4; round++) {
        uint32_t l = 1 + any(SMALL), k = 1 + any(SMALL), near[SMALL], far[SMALL];
        uint32_t goal = any(1u << l), high = 32 - l, x = 1 + any(l), side = any(2);
        form table = random_form(l, any(6)), exits = random_form(k, any(6)), wide = lifted(&table);
        for (uint32_t j = 0; j < k; j++) {
            near[j] = any(l + 1);
            far[j] = near[j] == 0 ? 0 : near[j] + high;
        }
        HOLDS(sharing_unknown_goal(table.bytes, table.len, goal, out, sizeof out) == 0);
        form due = taken(), due_wide = lifted(&due);
        HOLDS(sharing_unknown_goal(wide.bytes, wide.len, goal << high, out, sizeof out) == 0);
        form made = taken();
        HOLDS(equal(&made, &due_wide));
        HOLDS(sharing_known_goal(table.bytes, table.len, exits.bytes, exits.len, near, k, out,
                                 sizeof out) == 0);
        due = taken(), due_wide = lifted(&due);
        HOLDS(sharing_known_goal(wide.bytes, wide.len, exits.bytes, exits.len, far, k, out,
                                 sizeof out) == 0);
        made = taken();
        HOLDS(equal(&made, &due_wide));
        HOLDS(sharing_set_equation(0, table.bytes, table.len, x, goal, out, sizeof out) == 0);
        due = taken(), due_wide = lifted(&due);
        HOLDS(sharing_set_equation(0, wide.bytes, wide.len, x + high, goal << high, out,
                                   sizeof out) == 0);
        made = taken();
        HOLDS(equal(&made, &due_wide));
        REFUSED(SHARING_NAME, sharing_set_equation(side, wide.bytes, wide.len, 33, 1, out, 0));
    }
}

/* ---- Two terms */

/* A row of tokens. */
typedef struct { uint8_t bytes[2 * SHARING_MAX_TOKENS]; size_t len; } row;

static void push(row *r, uint32_t token) {
    r->bytes[r->len++] = (uint8_t)(token & 0xff);
    r->bytes[r->len++] = (uint8_t)(token >> 8);
}

/* A random term over X1 to Xl; of each kind of head there are few, so that many are equal. */
static void push_term(row *r, uint32_t l, uint32_t depth) {
    uint32_t arity = depth == 0 ? 0 : any(4);
    if (any(3) == 0) {
        push(r, 1 + any(l));
        return;
    }
    push(r, sharing_head(any(8) == 0, arity));
    for (uint32_t i = 0; i < arity; i++)
        push_term(r, l, depth - 1);
}

/* The place after the term at a place of a row, in bytes. */
static size_t after_term(const row *r, size_t at) {
    uint32_t token = r->bytes[at] | (uint32_t)r->bytes[at + 1] << 8;
    at += 2;
    for (uint32_t i = 0; token >> 15 != 0 && i < (token & 15); i++)
        at = after_term(r, at);
    return at;
}

/* What a walk must find: the equations by their places, and whether it clashes. */
typedef struct { size_t n; int clash; size_t left[64], right[64]; } finds;

/* The walk from a place of each row, by its definition. */
static void walk_from(const row *s, size_t i, const row *t, size_t j, finds *due) {
    uint32_t a = s->bytes[i] | (uint32_t)s->bytes[i + 1] << 8;
    uint32_t b = t->bytes[j] | (uint32_t)t->bytes[j + 1] << 8;
    size_t p = i + 2, q = j + 2;
    if (due->clash)
        return;
    if (a >> 15 == 0 || b >> 15 == 0) {
        due->left[due->n] = i;
        due->right[due->n++] = j;
        return;
    }
    due->clash = a != b;
    for (uint32_t k = 0; !due->clash && k < (a & 15); k++) {
        walk_from(s, p, t, q, due);
        p = after_term(s, p);
        q = after_term(t, q);
    }
}

/* The walk step by step, and sharing_unify beside the equations that it finds. Is one of them, in
 * terms that do not clash, without a finite solution? Then there are no groups. */
static uint32_t check_walk(uint32_t side, const form *table, const row *s, const row *t) {
    finds due = {0, 0, {0}, {0}};
    uint32_t deeper = 0;
    sharing_walk walk = {s->bytes, s->len, t->bytes, t->len};
    sharing_found found = {0, NULL, 0};
    HOLDS(sharing_read(table->bytes, table->len, out, sizeof out) == 0);
    form now = taken();
    walk_from(s, 0, t, 0, &due);
    for (size_t k = 0; k < due.n; k++) {
        const uint8_t *x = s->bytes + due.left[k], *y = t->bytes + due.right[k];
        int on_left = x[1] >> 7 == 0;
        HOLDS(sharing_walk_next(&walk, &found) == SHARING_WALK_EQUATION);
        HOLDS(found.variable == (on_left ? x : y)[0] && found.term == (on_left ? y : x));
        HOLDS(found.term_len == (on_left ? after_term(t, due.right[k]) - due.right[k]
                                         : after_term(s, due.left[k]) - due.left[k]));
        HOLDS(sharing_equation(side, now.bytes, now.len, found.variable, found.term, found.term_len,
                               out, sizeof out) == 0);
        now = taken();
        deeper |= sharing_occurs(found.variable, found.term, found.term_len) ==
                  SHARING_OCCURS_DEEPER;
    }
    for (int again = 0; again < 2; again++)
        HOLDS(sharing_walk_next(&walk, &found) ==
              (uint32_t)(due.clash ? SHARING_WALK_CLASH : SHARING_WALK_END));
    HOLDS(due.clash ? sharing_word_at(walk.left, 0) != sharing_word_at(walk.right, 0)
                    : walk.left_len == 0 && walk.right_len == 0);
    HOLDS(sharing_terms_clash(s->bytes, s->len, t->bytes, t->len) == due.clash);
    HOLDS(sharing_unify(side, table->bytes, table->len, s->bytes, s->len, t->bytes, t->len, out,
                        sizeof out) == 0);
    form made = taken();
    if (due.clash || deeper) {
        form none = no_groups(side, table->bytes[0]);
        HOLDS(made.len == none.len && memcmp(made.bytes, none.bytes, none.len) == 0);
    } else
        HOLDS(made.len == now.len && memcmp(made.bytes, now.bytes, now.len) == 0);
    return !due.clash && deeper;
}

/* Walks of random terms; lengths of terms, cut and followed by more. */
static void walks(void) {
    uint32_t clashes = 0, nothing = 0, deeper = 0;
    for (int round = 0; round < ROUNDS; round++) {
        uint32_t wide = any(3) == 0, l = wide ? 16 + any(17) : 1 + any(SMALL);
        form table = random_form(l, any(wide ? 4 : 6));
        row s = {{0}, 0}, t = {{0}, 0};
        push_term(&s, l, 3);
        if (any(6) == 0)
            t = s;
        else
            push_term(&t, l, 3);
        deeper += check_walk(wide ? 0 : any(2), &table, &s, &t); /* see maps_and_questions */
        clashes += (uint32_t)sharing_terms_clash(s.bytes, s.len, t.bytes, t.len);
        nothing += s.len == t.len && memcmp(s.bytes, t.bytes, s.len) == 0;
        for (size_t len = 0; len <= s.len; len++)
            HOLDS(sharing_term_length(s.bytes, len) == (len == s.len ? len : 0));
        size_t whole = s.len;
        push(&s, 1);
        HOLDS(sharing_term_length(s.bytes, s.len) == whole);
        HOLDS(sharing_term_length(s.bytes, whole + 1) == whole);
    }
    HOLDS(clashes > ROUNDS / 10 && nothing > ROUNDS / 10 && deeper > ROUNDS / 20);
}

/* Terms that are not whole: each is a block of its own, so that a sanitizer sees a byte too many. */
static void cut_walks(void) {
    for (int round = 0; round < ROUNDS; round++) {
        row s = {{0}, 0}, t = {{0}, 0};
        sharing_found found;
        push_term(&s, 3, 3);
        push_term(&t, 3, 3);
        size_t left_len = any((uint32_t)s.len + 1), right_len = any((uint32_t)t.len + 1);
        uint8_t *left = (uint8_t *)malloc(left_len + 1), *right = (uint8_t *)malloc(right_len + 1);
        if (left == NULL || right == NULL)
            exit(EXIT_FAILURE);
        memcpy(left + 1, s.bytes, left_len);
        memcpy(right + 1, t.bytes, right_len);
        sharing_walk walk = {left + 1, left_len, right + 1, right_len};
        for (size_t steps = 0; steps < s.len + t.len; steps++)
            if (sharing_walk_next(&walk, &found) != SHARING_WALK_EQUATION)
                break;
        HOLDS(walk.left_len <= left_len && walk.right_len <= right_len);
        HOLDS(walk.left + walk.left_len == left + 1 + left_len);
        HOLDS(walk.right + walk.right_len == right + 1 + right_len);
        free(left);
        free(right);
    }
}

/* ---- Reasons */

/* The number of a set with X1 as its highest bit. Of sets of one size the greatest stands first. */
static uint32_t turned(uint32_t set) {
    uint32_t number = 0;
    for (int i = 0; i < 32; i++)
        number = number << 1 | (set >> i & 1);
    return number;
}

/* The group of few variables that is due: it meets both sets, and no other that does is before. */
static uint32_t first_meeting(uint32_t groups, uint32_t first, uint32_t second) {
    uint32_t best = 0, best_size = 0;
    for (uint32_t s = 1; s < 1u << SMALL; s++) {
        uint32_t size = (s & 1) + (s >> 1 & 1) + (s >> 2 & 1) + (s >> 3 & 1);
        if ((groups >> s & 1) == 0 || (s & first) == 0 || (s & second) == 0)
            continue;
        if (best == 0 || size < best_size || (size == best_size && turned(s) > turned(best))) {
            best = s;
            best_size = size;
        }
    }
    return best;
}

/* The table with its variables moved up to be the last of l, and the others known. */
static form moved_up(const form *table, uint32_t l) {
    sharing_entry entries[SHARING_MAX_ENTRIES];
    uint32_t n = sharing_word_at(table->bytes, 1), by = l - sharing_word_at(table->bytes, 0);
    for (uint32_t i = 0; i < n; i++) {
        entries[i] = sharing_entry_in(table->bytes, i);
        entries[i].care = entries[i].care << by | ((1u << by) - 1);
        entries[i].value <<= by;
    }
    HOLDS(sharing_make_form(l, entries, n, out, sizeof out) == 0);
    return taken();
}

/* The group of each pair of sets, also where these are of the last variables of many. */
static void meeting_groups(void) {
    for (int round = 0; round < ROUNDS / 4; round++) {
        uint32_t l = 1 + any(SMALL), wide = l + any(33 - l), group = 7, answer = 7;
        form table = random_form(l, any(6)), up = moved_up(&table, wide);
        uint32_t groups = groups_of(0, &table), by = wide - l;
        for (uint32_t first = 0; first < 1u << l; first++)
            for (uint32_t second = 0; second < 1u << l; second++) {
                uint32_t due = first_meeting(groups, first, second);
                HOLDS(sharing_meeting_group(table.bytes, table.len, first, second, &group) == 0 &&
                      group == due);
                HOLDS(sharing_meeting_group(up.bytes, up.len, first << by, second << by, &group) ==
                          0 && group == due << by);
                HOLDS(sharing_independent(0, table.bytes, table.len, first, second, &answer) == 0 &&
                      answer == (due == 0));
            }
    }
}

/* What is refused, and that nothing is written then. */
static void refused_groups(void) {
    const uint8_t loose[] = {2, 0, 1, 0, 1, 0, 2, 0};
    form table = random_form(7, 3), most = random_form(32, 3);
    uint32_t group = 99;
    HOLDS(sharing_meeting_group(loose, sizeof loose, ~0u, ~0u, &group) == SHARING_STRAY);
    HOLDS(sharing_meeting_group(table.bytes, table.len - 1, 0x80, 0, &group) == SHARING_TORN);
    HOLDS(sharing_meeting_group(table.bytes, table.len, 0x80, 0, &group) == SHARING_NAME);
    HOLDS(sharing_meeting_group(table.bytes, table.len, 1, 0x81, &group) == SHARING_NAME);
    HOLDS(group == 99);
    HOLDS(sharing_meeting_group(table.bytes, table.len, 0x7f, 0, &group) == 0 && group == 0);
    HOLDS(sharing_meeting_group(most.bytes, most.len, 0, ~0u, &group) == 0 && group == 0);
}

/* Does an entry cover a group inside another one that meets a set? By looking at every string. */
static int covers_inside(sharing_entry entry, uint32_t group, uint32_t set) {
    for (uint32_t s = group; s > 0; s = (s - 1) & group)
        if ((s & entry.care) == entry.value && (s & set) != 0)
            return 1;
    return 0;
}

/* The lowest such entry of a form; its number of entries where there is none. */
static uint32_t lowest_inside(const form *table, uint32_t group, uint32_t set) {
    uint32_t i = 0, n = sharing_word_at(table->bytes, 1);
    while (i < n && !covers_inside(sharing_entry_in(table->bytes, i), group, set))
        i++;
    return i;
}

/* The reason of each group of few variables: it is kept or joined exactly where the table after the
 * equation has it, and the entries of a joined one are the lowest of the table as it is read. */
static void group_reasons(void) {
    for (int round = 0; round < ROUNDS; round++) {
        uint32_t l = 1 + any(SMALL), x = 1 + any(l), set = any(1u << l), told[3];
        uint8_t term[2 * 16 * SMALL];
        size_t len = random_term(set, term);
        form table = random_form(l, any(6));
        HOLDS(sharing_equation(0, table.bytes, table.len, x, term, len, out, sizeof out) == 0);
        form after = taken();
        HOLDS(sharing_read(table.bytes, table.len, out, sizeof out) == 0);
        form read = taken();
        for (uint32_t s = 1; s < 1u << l; s++) {
            HOLDS(sharing_reason(table.bytes, table.len, x, term, len, s, told, told + 1,
                                 told + 2) == 0);
            int joined = told[0] == SHARING_JOINED, there = groups_of(0, &after) >> s & 1;
            HOLDS((told[0] == SHARING_KEPT || joined) == there);
            HOLDS(told[1] == (joined ? lowest_inside(&read, s, 1u << (x - 1)) : 0));
            HOLDS(told[2] == (joined ? lowest_inside(&read, s, set) : 0));
        }
    }
}

/* The words of the answers, for tests/c to compare with the header. */
static int print_words(void) {
    for (uint32_t code = 0; code <= SHARING_DIGIT + 1; code++)
        printf("%u %s: %s\n", (unsigned)code, sharing_refusal_word(code),
               sharing_refusal_sentence(code));
    return strcmp(sharing_refusal_word(UINT32_MAX), "unknown");
}

/* Those of the verdicts. */
static int print_verdicts(void) {
    for (uint32_t verdict = 0; verdict <= SHARING_NO_SOLUTION + 1; verdict++)
        printf("%u %s\n", (unsigned)verdict, sharing_verdict_text(verdict));
    return strcmp(sharing_verdict_text(UINT32_MAX), "no verdict of sharing_reason");
}

int main(int count, char **words) {
    if (count == 2 && strcmp(words[1], "words") == 0)
        return print_words();
    if (count == 2 && strcmp(words[1], "verdicts") == 0)
        return print_verdicts();
    memset(out, FILL, sizeof out);
    lengths();
    packed_lengths();
    words_and_sets();
    doubtful_forms();
    doubtful_packed();
    made_forms();
    refused_forms();
    texts();
    refused_texts();
    first_forms();
    every_map();
    wide_maps();
    projections();
    maps_and_questions();
    refused_maps();
    free_variables();
    wide_free_variables();
    own_terms();
    set_terms();
    intersections();
    unknown_goals();
    known_goals();
    refused_goals();
    wide_goals();
    walks();
    cut_walks();
    meeting_groups();
    refused_groups();
    group_reasons();
    printf("%u cases, %u failed\n", cases, failures);
    return failures == 0 ? EXIT_SUCCESS : EXIT_FAILURE;
}

/* A table that is to be shipped: which kind of file it is, what it says, and where it is wrong. */
#include "shipped.h"

#include <errno.h>
#include <stdlib.h>
#include <string.h>

/* ---- Which kind */

/* A readable file has no zero byte, and a form always has one: the high byte of its number of
 * variables. A file in UTF-16 has some too, and is told as such when it is read. */
static bool is_readable(const file *from) {
    cursor c = {from->bytes, from->bytes + from->len};
    return is_encoded_otherwise(c) || memchr(from->bytes, 0, from->len) == NULL;
}

/* Reads the bytes as a form of this kind. */
static uint32_t read_as(const file *from, table_kind kind, uint8_t form[SHARING_MAX_FORM]) {
    return kind == PACKED_FORM ? sharing_unpack(from->bytes, from->len, form, SHARING_MAX_FORM)
                               : sharing_read(from->bytes, from->len, form, SHARING_MAX_FORM);
}

/* Does the length of a file fit the sizes that its first bytes give? */
static bool fits(const shipped *table, table_kind kind) {
    const uint8_t *bytes = table->from.bytes;
    size_t len = table->from.len;
    if (len < 4)
        return false;
    return len == (kind == PACKED_FORM
                       ? sharing_packed_length(sharing_word_at(bytes, 0), sharing_word_at(bytes, 1))
                       : sharing_form_length(sharing_word_at(bytes, 0), sharing_word_at(bytes, 1)));
}

/* The kind of a form by its length. The two lengths are the same for 16 variables, and without an
 * entry, where it makes no difference. Then it is a plain form, unless only the other one reads. */
static table_kind kind_of(shipped *table) {
    uint8_t plain[SHARING_MAX_FORM], packed[SHARING_MAX_FORM];
    bool as_plain, as_packed;
    if (!fits(table, PLAIN_FORM) || !fits(table, PACKED_FORM))
        return fits(table, PACKED_FORM) ? PACKED_FORM : PLAIN_FORM;
    as_plain = read_as(&table->from, PLAIN_FORM, plain) == SHARING_ACCEPTED;
    as_packed = read_as(&table->from, PACKED_FORM, packed) == SHARING_ACCEPTED;
    table->doubtful = as_plain && as_packed && sharing_word_at(plain, 1) > 0;
    return as_packed && !as_plain ? PACKED_FORM : PLAIN_FORM;
}

/* ---- Reading */

/* A form, packed if that is said, else as its length has it. */
static void read_bytes_of(shipped *out, bool packed) {
    uint32_t width = out->from.len < 4 ? 0 : sharing_word_at(out->from.bytes, 0);
    out->kind = packed ? PACKED_FORM : kind_of(out);
    out->width = width <= SHARING_MAX_VARIABLES ? width : 0;
    out->code = read_as(&out->from, out->kind, out->form);
}

/* A readable file, which has no equations: a table is what is left after them. */
static bool read_text_of(shipped *out) {
    uint8_t written[SHARING_MAX_FORM];
    out->text = rules_of(out->from);
    memset(&out->from, 0, sizeof out->from);
    if (out->text == NULL)
        return false;
    if (out->text->equations > 0) {
        const equation *first = &out->text->equation[0];
        tell(&first->where, first->text, "A table that is to be shipped has no equations.");
        expected("entries alone, as `sharetext audit FILE --write OUT --text` writes them");
        return false;
    }
    out->width = out->text->width;
    out->code = sharing_read(written, write_table(out->text, written), out->form, sizeof out->form);
    return accepted(out->text, out->code);
}

/* Reads the file of a table. False where it cannot be read as a file, or has a mistake as a text:
 * that has been said, with its place. */
bool open_shipped(const char *path, bool packed, shipped *out) {
    memset(out, 0, sizeof *out);
    if (!read_file(path, &out->from))
        return false;
    if (!is_readable(&out->from)) {
        read_bytes_of(out, packed);
        return true;
    }
    out->kind = READABLE;
    if (read_text_of(out))
        return true;
    close_shipped(out);
    return false;
}

/* Gives back its memory. */
void close_shipped(shipped *table) {
    free_rules(table->text);
    free(table->from.bytes);
}

/* ---- In words */

/* Which kind it is, and how many entries it has as it was read. */
void put_kind(const shipped *table) {
    static const char *const kinds[] = {"a readable file", "a form", "a packed form"};
    unsigned entries = (unsigned)sharing_word_at(table->form, 1);
    printf("%s, read as %u %s", kinds[table->kind], entries, entries == 1 ? "entry" : "entries");
    if (table->doubtful)
        fputs(" (its bytes are those of a packed form as well: --packed reads them so)", stdout);
}

/* Where a stray bit is: in the first entry that is refused by itself. */
static void put_stray(const uint8_t *bytes) {
    uint32_t width = sharing_word_at(bytes, 0), entries = sharing_word_at(bytes, 1);
    size_t word = sharing_word_length(width), i = 0;
    uint8_t one[4 + 8];
    while (i < entries) {
        sharing_entry entry = sharing_entry_in(bytes, i);
        if (sharing_make_form(width, &entry, 1, one, sizeof one) == SHARING_STRAY)
            break;
        i++;
    }
    printf("entry %zu, with its care word at byte %zu and its value word at byte %zu", i + 1,
           5 + word * i, 5 + word * (entries + i));
}

/* Where a wrong digit is: in the first byte that is refused in a row of zeros. */
static void put_digit(const uint8_t *bytes, size_t len) {
    uint8_t row[4 + (SHARING_MAX_VARIABLES + 4) / 5], form[SHARING_MAX_FORM];
    size_t row_len = sharing_packed_length(sharing_word_at(bytes, 0), 1), at = 4;
    for (; at + 1 < len; at++) {
        memset(row, 0, sizeof row);
        sharing_put_word(row, 0, sharing_word_at(bytes, 0));
        sharing_put_word(row, 1, 1);
        row[4 + (at - 4) % (row_len - 4)] = bytes[at];
        if (sharing_unpack(row, row_len, form, sizeof form) == SHARING_DIGIT)
            break;
    }
    printf("byte %zu, in entry %zu, is %u", at + 1, (at - 4) / (row_len - 4) + 1,
           (unsigned)bytes[at]);
}

/* How long a torn form should be. */
static void put_torn(const uint8_t *bytes, size_t len) {
    uint32_t width, entries;
    printf("it has %zu byte%s", len, len == 1 ? "" : "s");
    if (len < 4) {
        fputs(", and its sizes alone are 4", stdout);
        return;
    }
    width = sharing_word_at(bytes, 0), entries = sharing_word_at(bytes, 1);
    printf("; its sizes, %u variable%s and %u entr%s, make %zu, or %zu packed", (unsigned)width,
           width == 1 ? "" : "s", (unsigned)entries, entries == 1 ? "y" : "ies",
           sharing_form_length(width, entries), sharing_packed_length(width, entries));
}

/* The refusal of a form in words, with its place; bytes and entries are counted from 1. */
void put_refused(const shipped *table) {
    const uint8_t *bytes = table->from.bytes;
    printf("refused %u, %s: %s: ", (unsigned)table->code, sharing_refusal_word(table->code),
           sharing_refusal_sentence(table->code));
    if (table->code == SHARING_TORN)
        put_torn(bytes, table->from.len);
    else if (table->code == SHARING_WIDTH)
        printf("bytes 1 and 2 are l, %u", (unsigned)sharing_word_at(bytes, 0));
    else if (table->code == SHARING_ENTRIES)
        printf("bytes 3 and 4 are their number, %u", (unsigned)sharing_word_at(bytes, 1));
    else if (table->code == SHARING_STRAY)
        put_stray(bytes);
    else
        put_digit(bytes, table->from.len);
}

/* ---- Writing */

/* The table of a point as text, under the names of its variables if they have some. */
static void put_text(FILE *to, const point *at) {
    const rules *given = at->given;
    size_t width = sharing_word_at(at->form, 0);
    fputs("vars", to);
    if (has_names(given))
        for (size_t i = 0; i < width; i++) {
            fputc(' ', to);
            put_piece(to, given->variable[i]);
        }
    else
        fprintf(to, " %zu", width);
    fputc('\n', to);
    put_strings(to, at->form);
}

/* Writes the table of a point to a file, as text or as bytes. */
bool write_shipped(const char *path, const point *at, table_kind kind) {
    FILE *to = fopen(path, "wb");
    bool good = to != NULL;
    if (good && kind == READABLE)
        put_text(to, at);
    else if (good)
        good = put_form(to, at, kind == PACKED_FORM);
    good = good && !ferror(to);
    good = to != NULL && fclose(to) == 0 && good;
    if (!good)
        fprintf(stderr, "%s: The file cannot be written: %s.\n", path, strerror(errno));
    return good;
}

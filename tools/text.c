/* Parts of a text, and messages that show where in a text something is wrong. */
#include "text.h"

#include <stdarg.h>
#include <string.h>

/* ---- Characters */

/* The kinds of characters. Letters are those of ASCII. */
bool is_blank(int c) { return c == ' ' || c == '\t'; }
bool is_digit(int c) { return c >= '0' && c <= '9'; }
bool is_small(int c) { return c >= 'a' && c <= 'z'; }
bool is_capital(int c) { return c >= 'A' && c <= 'Z'; }
bool is_in_name(int c) { return is_small(c) || is_capital(c) || is_digit(c) || c == '_'; }
bool starts_variable(int c) { return is_capital(c) || c == '_'; }

/* The signs of which Prolog's operators are made, without #, which starts a comment here. */
bool is_in_operator(int c) { return c > 0 && strchr("+-*/\\^<>=~:.?@&$", c) != NULL; }

/* Outside of quotes. */
static bool starts_comment(int c) { return c == '%' || c == '#'; }

/* ---- Reading on */

/* The next character, or END after the last one. */
int peek(const cursor *c) { return c->at < c->end ? *c->at : END; }

/* The character after the next one. */
int peek_second(const cursor *c) { return c->end - c->at > 1 ? c->at[1] : END; }

/* A file of two bytes a character begins with a mark of its own. */
bool is_encoded_otherwise(cursor c) {
    return peek(&c) == 0xff ? peek_second(&c) == 0xfe : peek(&c) == 0xfe && peek_second(&c) == 0xff;
}

/* Reads past the character, if it is the one due. */
bool take(cursor *c, int due) {
    if (peek(c) != due)
        return false;
    c->at++;
    return true;
}

/* Reads past the text, if it is the one due. If not, a beginning of it may have been read. */
bool take_text(cursor *c, const char *due) {
    while (*due != '\0')
        if (!take(c, (unsigned char)*due++))
            return false;
    return true;
}

/* The number that the digits here give. Once above `most` it grows no more: digits can be many. */
uint32_t take_number(cursor *c, uint32_t most) {
    uint32_t number = 0;
    for (; is_digit(peek(c)); c->at++)
        if (number <= most)
            number = 10 * number + (uint32_t)(peek(c) - '0');
    return number;
}

/* The letters, digits and underscores that stand here. */
piece take_name(cursor *c) {
    piece name = {c->at, 0};
    for (; is_in_name(peek(c)); c->at++)
        name.len++;
    return name;
}

/* Skips blanks. Where a comment begins the text ends; callers never skip inside of quotes. */
void skip(cursor *c) {
    while (is_blank(peek(c)))
        c->at++;
    if (starts_comment(peek(c)))
        c->end = c->at;
}

/* ---- Pieces */

/* How many bytes a character of UTF-8 has by its first one; 0 where none begins so. */
static size_t length_by_first(uint8_t first) {
    if (first < 0x80)
        return 1;
    if (first >= 0xc2 && first <= 0xdf)
        return 2;
    if (first >= 0xe0 && first <= 0xef)
        return 3;
    return first >= 0xf0 && first <= 0xf4 ? 4 : 0;
}

/* Is the second byte one that may follow the first? Some would be a longer way of writing. */
static bool second_follows(uint8_t first, uint8_t second) {
    uint8_t least = first == 0xe0 ? 0xa0 : first == 0xf0 ? 0x90 : 0x80;
    uint8_t most = first == 0xed ? 0x9f : first == 0xf4 ? 0x8f : 0xbf;
    return second >= least && second <= most;
}

/* The bytes of the character here; 0 at the end, and where it is no character of UTF-8. */
size_t character_length(cursor c) {
    size_t len, i;
    if (c.at == c.end)
        return 0;
    len = length_by_first(*c.at);
    if (len > (size_t)(c.end - c.at) || (len > 1 && !second_follows(c.at[0], c.at[1])))
        return 0;
    for (i = 2; i < len; i++)
        if (c.at[i] < 0x80 || c.at[i] > 0xbf)
            return 0;
    return len;
}

/* The character here; a byte that is none counts as one. */
piece character_here(cursor c) {
    size_t len = character_length(c);
    piece here = {c.at, len > 0 || c.at == c.end ? len : 1};
    return here;
}

/* What a reader takes as one: a word, the signs of an operator, or a character. */
piece piece_here(cursor c) {
    const uint8_t *start = c.at;
    bool word = is_in_name(peek(&c));
    if (!word && !is_in_operator(peek(&c)))
        return character_here(c);
    while (word ? is_in_name(peek(&c)) : is_in_operator(peek(&c)))
        c.at++;
    return between(start, c.at);
}

/* A whole text as a piece. */
piece from_text(const char *text) {
    piece p = {(const uint8_t *)text, strlen(text)};
    return p;
}

/* What stands between two places, without blanks at its end. */
piece between(const uint8_t *start, const uint8_t *end) {
    piece p = {start, 0};
    while (end > start && is_blank(end[-1]))
        end--;
    p.len = (size_t)(end - start);
    return p;
}

/* Do two pieces have the same bytes? */
bool same_piece(piece one, piece other) {
    return one.len == other.len && memcmp(one.at, other.at, one.len) == 0;
}

/* Does a terminal show this character? Control characters and stray bytes it does not. */
static bool is_shown(piece character) {
    uint8_t first = *character.at;
    return first >= 0x80 ? character.len > 1 : first == '\t' || (first >= ' ' && first < 0x7f);
}

/* Writes a piece; what a terminal would not show as a character stands as a question mark. */
void put_piece(FILE *to, piece p) {
    cursor c = {p.at, p.at + p.len};
    while (c.at < c.end) {
        piece next = character_here(c);
        if (is_shown(next))
            fwrite(next.at, 1, next.len, to);
        else
            fputc('?', to);
        c.at += next.len;
    }
}

/* ---- Messages */

/* Writes a sign below each character of a piece, and another one, or a tab, below a tab. */
static void put_below(piece p, int sign, int below_tab) {
    cursor c = {p.at, p.at + p.len};
    while (c.at < c.end) {
        fputc(*c.at == '\t' ? below_tab : sign, stderr);
        c.at += character_here(c).len;
    }
}

/* The beginning of a message: the file, line and column, or the goal and column. */
void tell_place(const place *where, piece wrong) {
    unsigned long column = (unsigned long)(wrong.at - where->text.at) + 1;
    if (where->line > 0)
        fprintf(stderr, "%s:%lu:%lu: ", where->name, where->line, column);
    else
        fprintf(stderr, "%s, column %lu: ", where->name, column);
}

/* The text of the line, and below it the signs that point at the wrong piece. */
void show_line(const place *where, piece wrong) {
    piece before = {where->text.at, (size_t)(wrong.at - where->text.at)};
    fputs("\n    ", stderr);
    put_piece(stderr, where->text);
    fputs("\n    ", stderr);
    put_below(before, ' ', '\t');
    put_below(wrong, '^', '^');
    fputs(wrong.len == 0 ? "^\n" : "\n", stderr);
}

/* Says what is wrong with a piece of the line, and shows the place. */
void tell(const place *where, piece wrong, const char *what, ...) {
    va_list values;
    tell_place(where, wrong);
    va_start(values, what);
    vfprintf(stderr, what, values);
    va_end(values);
    show_line(where, wrong);
}

/* Says of the piece, which begins the message, what is wrong with it. */
void tell_piece(const place *where, piece wrong, const char *what, ...) {
    va_list values;
    tell_place(where, wrong);
    put_piece(stderr, wrong);
    va_start(values, what);
    vfprintf(stderr, what, values);
    va_end(values);
    show_line(where, wrong);
}

/* Says that the piece cannot stand there. What cannot be shown is given by its number. */
void tell_cannot(const place *where, piece wrong) {
    bool last = wrong.at == where->text.at + where->text.len;
    tell_place(where, wrong);
    if (wrong.len == 0)
        fprintf(stderr, "The %s ends too early%s.", where->line > 0 ? "line" : "goal",
                !last && starts_comment(*wrong.at) ? ": a comment begins here" : "");
    else if (!is_shown(wrong) || *wrong.at == '\t')
        fprintf(stderr, "The byte %u cannot stand here.", (unsigned)*wrong.at);
    else {
        fputc('\'', stderr);
        put_piece(stderr, wrong);
        fputs("' cannot stand here.", stderr);
    }
    show_line(where, wrong);
}

/* Says what is expected at the place of the message before. */
void expected(const char *what, ...) {
    va_list values;
    fputs("    Expected: ", stderr);
    va_start(values, what);
    vfprintf(stderr, what, values);
    va_end(values);
    fputs(".\n", stderr);
}

/* The reader of terms, as a writer of Prolog types them. */
#include "reader.h"

#include <string.h>

/* ---- Tokens */

/* How many tokens there may be by now. A variable alone on a side does not count, one for each
 * equation, until some equation has a variable on neither side. */
static size_t most_tokens(const reader *r) {
    const rules *out = r->out;
    return SHARING_MAX_TOKENS + (out->compound ? 0 : out->equations + r->variable);
}

/* One more token; `where` is what it stands for in the text. */
static bool add_token(reader *r, piece where, uint32_t token) {
    rules *out = r->out;
    if (out->tokens >= most_tokens(r)) {
        tell(&r->where, where, "There are more than %d variables and symbols in the terms.",
             SHARING_MAX_TOKENS);
        expected("at most %d in all equations together%s; a list counts one more for each of its "
                 "elements and one for its end", SHARING_MAX_TOKENS,
                 out->compound ? ", both sides of each, since one has a variable on neither" : "");
        return false;
    }
    out->token[out->tokens++] = token;
    return true;
}

/* The number of a symbol: its old one, or the next one if it is new. */
static uint32_t symbol_number(rules *out, symbol wanted) {
    size_t i = 0;
    while (i < out->symbols && (out->symbol[i].number != wanted.number ||
                                !same_piece(out->symbol[i].text, wanted.text)))
        i++;
    if (i == out->symbols)
        out->symbol[out->symbols++] = wanted;
    return (uint32_t)(i + 1);
}

/* A head. Where there is no room for it the symbol is not numbered, so that all numbers fit. */
static bool add_head(reader *r, piece where, symbol head, uint32_t arity) {
    uint32_t number = r->out->tokens < most_tokens(r) ? symbol_number(r->out, head) : 0;
    return add_token(r, where, HEAD | number << ARITY_BITS | arity);
}

/* A head whose symbol is not written out in the text: those of lists. */
static bool add_atom(reader *r, piece where, const char *name, uint32_t arity) {
    symbol head = {false, from_text(name)};
    return add_head(r, where, head, arity);
}

/* ---- Variables */

/* A variable of its own, for _: the next position, with an entry that has a single 1 there. */
static bool add_unnamed(reader *r, piece where, uint32_t *number) {
    rules *out = r->out;
    if (out->width == SHARING_MAX_VARIABLES) {
        tell(&r->where, where, "There is no room for this _, a variable of its own.");
        expected("at most %d variables, those of line %lu and each _ counted",
                 SHARING_MAX_VARIABLES, out->vars_line);
        return false;
    }
    *number = (uint32_t)++out->width;
    return add_entry(r, where, sharing_variables((uint32_t)out->named), 1u << (*number - 1));
}

/* The variable that stands here: one of the line vars, or _. */
static bool read_variable(reader *r, uint32_t *number) {
    piece name = take_name(&r->rest);
    if (same_piece(name, from_text("_")))
        return add_unnamed(r, name, number);
    if (find_variable(r->out, name, number))
        return true;
    tell_unknown(r->out, &r->where, name);
    expected_variables(r->out, " (a symbol begins with a small letter or stands in quotes)");
    return false;
}

/* ---- Symbols */

/* Says what is wrong in a quoted atom. */
static bool tell_quoted(const reader *r, piece where, const char *what) {
    tell(&r->where, where, what);
    expected("%s", "a quoted atom such as 'Ashby St Mary', with a quote in it as '' or \\' and a "
                   "backslash as \\\\");
    return false;
}

/* One character of a quoted atom, which is added to `text`; quotes and escapes stand for one. */
static bool read_quoted_character(reader *r, piece *text) {
    piece next = character_here(r->rest);
    int second = peek_second(&r->rest);
    if (peek(&r->rest) == '\\') {
        if (second != '\\' && second != '\'') {
            next.len = second == END ? 1 : 2;
            return tell_quoted(r, next, "This escape is not known.");
        }
        r->rest.at++;
        next.at++;
    } else if (peek(&r->rest) == '\'')
        r->rest.at++;
    else if (character_length(r->rest) == 0 || *next.at < ' ' || *next.at == 0x7f) {
        tell_cannot(&r->where, next);
        expected("a character of ASCII or UTF-8, and no tab");
        return false;
    }
    memcpy(r->out->atoms + r->out->atoms_len, next.at, next.len);
    r->out->atoms_len += next.len;
    text->len += next.len;
    r->rest.at += next.len;
    return true;
}

/* A quoted atom; its text without the quotes is kept apart. A comment sign in it is none. */
static bool read_quoted(reader *r, symbol *out) {
    const uint8_t *start = r->rest.at++;
    out->text.at = r->out->atoms + r->out->atoms_len;
    out->text.len = 0;
    while (peek(&r->rest) != '\'' || peek_second(&r->rest) == '\'') {
        if (peek(&r->rest) == END)
            return tell_quoted(r, between(start, r->rest.at), "The quoted atom does not end.");
        if (!read_quoted_character(r, &out->text))
            return false;
    }
    r->rest.at++;
    return true;
}

/* Reads past the digits here. */
static void take_digits(cursor *c) {
    while (is_digit(peek(c)))
        c->at++;
}

/* Takes a fraction and an exponent, if they are there. A full stop has no digit after it. */
static void take_fraction(cursor *c) {
    cursor after = *c;
    if (peek(c) != '.' || !is_digit(peek_second(c)))
        return;
    c->at++;
    take_digits(c);
    after = *c;
    if (!take(&after, 'e') && !take(&after, 'E'))
        return;
    if (!take(&after, '+'))
        take(&after, '-');
    if (!is_digit(peek(&after)))
        return;
    take_digits(&after);
    *c = after;
}

/* A number, as a constant. It is known by its text. */
static bool read_number(reader *r, symbol *out) {
    const uint8_t *start = r->rest.at;
    take(&r->rest, '-');
    take_digits(&r->rest);
    take_fraction(&r->rest);
    out->number = true;
    out->text = between(start, r->rest.at);
    if (!is_in_name(peek(&r->rest)) && peek(&r->rest) != '\'')
        return true;
    tell_cannot(&r->where, piece_here(r->rest));
    expected("the end of the number: one such as 1870, -3, 2.5 or 1.0e6");
    return false;
}

/* ---- Terms */

/* One more argument of the innermost open head, whose arity is in the lowest bits of its token. */
static bool count_argument(reader *r) {
    uint32_t *head = &r->out->token[r->open[r->depth - 1].head];
    skip(&r->rest);
    if ((*head & MOST_ARITY) == MOST_ARITY) {
        tell(&r->where, piece_here(r->rest), "There are more than %d arguments of one symbol.",
             MOST_ARITY);
        expected("at most %d arguments", MOST_ARITY);
        return false;
    }
    ++*head;
    return true;
}

/* The last token is a head whose arguments, or elements, begin here. */
static void open_here(reader *r, opening kind) {
    r->open[r->depth].kind = kind;
    r->open[r->depth++].head = r->out->tokens - 1;
}

/* A symbol, and where ( follows it the beginning of its arguments. */
static bool read_compound(reader *r, bool *whole) {
    const uint8_t *start = r->rest.at;
    symbol head = {false, {NULL, 0}};
    if (peek(&r->rest) != '\'')
        head.text = take_name(&r->rest);
    else if (!read_quoted(r, &head))
        return false;
    if (!add_head(r, between(start, r->rest.at), head, 0))
        return false;
    skip(&r->rest);
    *whole = !take(&r->rest, '(');
    if (*whole)
        return true;
    open_here(r, ARGUMENTS);
    return count_argument(r);
}

/* The empty list, or the beginning of a list: a cell '.' of the first element and the rest. */
static bool read_list(reader *r, bool *whole) {
    piece where = character_here(r->rest);
    r->rest.at++;
    skip(&r->rest);
    *whole = take(&r->rest, ']');
    if (*whole)
        return add_atom(r, where, "[]", 0);
    if (!add_atom(r, where, ".", 2))
        return false;
    open_here(r, ELEMENTS);
    return true;
}

/* What is no term. Some things that are terms in Prolog have a message of their own. */
static bool no_term(const reader *r) {
    const char *term = "a term, in the same line: a variable, a symbol such as a or f(X), a quoted "
                       "atom, a number or a list";
    piece here = piece_here(r->rest);
    if (peek(&r->rest) == '"') {
        tell(&r->where, here, "A text in double quotes is not supported.");
        expected("a quoted atom, such as 'Ashby St Mary'");
        return false;
    }
    return is_in_operator(peek(&r->rest)) ? cannot_after_term(r, term) : cannot(r, term);
}

/* A term up to its first argument or element; `whole` where it has none. */
static bool read_start(reader *r, bool *whole) {
    symbol constant = {false, {NULL, 0}};
    uint32_t number = 0;
    piece where;
    int next;
    skip(&r->rest);
    where = piece_here(r->rest);
    next = peek(&r->rest);
    *whole = true;
    if (starts_variable(next))
        return read_variable(r, &number) && add_token(r, where, number);
    if (is_small(next) || next == '\'')
        return read_compound(r, whole);
    if (next == '[')
        return read_list(r, whole);
    if (is_digit(next) || (next == '-' && is_digit(peek_second(&r->rest))))
        return read_number(r, &constant) && add_head(r, where, constant, 0);
    return no_term(r);
}

/* What may stand after a whole term inside of a larger one. */
static const char *const after_whole[] = {
    [ARGUMENTS] = "a comma or ')', in the same line",
    [ELEMENTS] = "a comma, '|' or ']', in the same line",
    [TAIL] = "']', in the same line"};

/* What stands after a whole term: `more` where another one follows in the innermost open term. */
static bool read_mark(reader *r, bool *more) {
    open_term *innermost = &r->open[r->depth - 1];
    piece where = character_here(r->rest);
    opening kind = innermost->kind;
    *more = kind != TAIL && take(&r->rest, ',');
    if (*more)
        return kind == ARGUMENTS ? count_argument(r) : add_atom(r, where, ".", 2);
    *more = kind == ELEMENTS && take(&r->rest, '|');
    if (*more) {
        innermost->kind = TAIL;
        return true;
    }
    if (!take(&r->rest, kind == ARGUMENTS ? ')' : ']'))
        return cannot_after_term(r, after_whole[kind]);
    r->depth--;
    return kind != ELEMENTS || add_atom(r, where, "[]", 0);
}

/* Terms nest as deep as there are tokens, so that this is a loop over what is open. */
bool read_term(reader *r) {
    bool whole = false, more = true;
    r->depth = 0;
    while (more) {
        if (!read_start(r, &whole))
            return false;
        more = !whole;
        while (!more && r->depth > 0) {
            skip(&r->rest);
            if (!read_mark(r, &more))
                return false;
        }
    }
    return true;
}

/* The reader of a readable file, line by line. */
#include "reader.h"

#include <stdlib.h>
#include <string.h>

static const char *const operators =
    "Operators are not supported: write a symbol with arguments, such as plus(X1, X2)";

/* ---- Mistakes */

/* Says that what stands here cannot stand here. */
bool cannot(const reader *r, const char *what) {
    tell_cannot(&r->where, piece_here(r->rest));
    expected("%s", what);
    return false;
}

/* The same after a whole term, or in place of one: there it may be an operator of Prolog. */
bool cannot_after_term(const reader *r, const char *what) {
    piece here = piece_here(r->rest);
    if (is_in_operator(peek(&r->rest)))
        tell(&r->where, here, "The operator '%.*s' is not supported.",
             here.len < 80 ? (int)here.len : 80, (const char *)here.at);
    else
        tell_cannot(&r->where, here);
    if (is_in_operator(peek(&r->rest)) || is_small(peek(&r->rest)))
        expected("%s. %s", what, operators);
    else
        expected("%s", what);
    return false;
}

/* Nothing but a comment follows; else `what` says what is expected. */
static bool read_end(reader *r, const char *what) {
    skip(&r->rest);
    return peek(&r->rest) == END || cannot(r, what);
}

/* ---- The line vars */

/* What is expected after the word vars. */
static const char *vars_wanted(void) {
    static char text[160];
    snprintf(text, sizeof text,
             "the number of variables, 1 to %d, or their names, each a capital letter or an "
             "underscore and then letters, digits and underscores",
             SHARING_MAX_VARIABLES);
    return text;
}

/* The next variable of a line that has only their number. */
static void add_numbered(rules *out) {
    char *name = out->numbered[out->named];
    snprintf(name, sizeof out->numbered[0], "X%zu", out->named + 1);
    out->variable[out->named++] = from_text(name);
}

/* The number of variables, which are then X1, X2 and so on. */
static bool read_count(reader *r) {
    piece here = piece_here(r->rest);
    uint32_t count = take_number(&r->rest, SHARING_MAX_VARIABLES);
    bool whole = !is_in_name(peek(&r->rest));
    if (!whole || count == 0 || count > SHARING_MAX_VARIABLES) {
        tell_piece(&r->where, here, whole && count > 0 ? " variables are too many."
                                                       : " is not a number of variables.");
        expected("%s", vars_wanted());
        return false;
    }
    while (r->out->named < count)
        add_numbered(r->out);
    return read_end(r, "the end of the line (a comment begins with % or #)");
}

/* One more name, which must be new and no bare underscore. */
static bool add_name(reader *r, piece name) {
    rules *out = r->out;
    uint32_t number = 0;
    if (same_piece(name, from_text("_"))) {
        tell(&r->where, name, "A bare _ is not a name.");
        expected("%s", vars_wanted());
    } else if (find_variable(out, name, &number)) {
        tell_piece(&r->where, name, " stands twice in this line.");
        expected("each variable once");
    } else if (out->named == SHARING_MAX_VARIABLES) {
        tell_piece(&r->where, name, " is one variable too many.");
        expected("at most %d variables", SHARING_MAX_VARIABLES);
    } else {
        out->variable[out->named++] = name;
        return true;
    }
    return false;
}

/* The next name of a list, with a comma before it or without; the end of the line ends the list.
 * `what` says what is expected before the first name, and is NULL after it. */
static bool next_name(reader *r, const char *what, bool *more) {
    bool comma;
    skip(&r->rest);
    comma = what == NULL && take(&r->rest, ',');
    skip(&r->rest);
    *more = comma || peek(&r->rest) != END;
    if (what == NULL)
        what = comma ? "a further variable, with a capital letter or an underscore first"
                     : "a further variable, with a capital letter or an underscore first, or the "
                       "end of the line";
    return !*more || starts_variable(peek(&r->rest)) || cannot(r, what);
}

/* The names of the variables, one at least. */
static bool read_names(reader *r) {
    bool more = true;
    while (next_name(r, r->out->named == 0 ? vars_wanted() : NULL, &more) && more)
        if (!add_name(r, take_name(&r->rest)))
            return false;
    if (!more && r->out->named == 0)
        return cannot(r, vars_wanted());
    return !more;
}

/* The line vars, with a number or with names. */
static bool read_vars(reader *r) {
    bool good;
    take_text(&r->rest, "vars");
    skip(&r->rest);
    r->out->vars_line = r->where.line;
    good = is_digit(peek(&r->rest)) ? read_count(r) : read_names(r);
    r->out->width = r->out->named;
    return good;
}

/* ---- Entries */

/* One more entry, which stands at `where`. Its care word is that of the named variables. */
bool add_entry(reader *r, piece where, uint32_t care, uint32_t value) {
    rules *out = r->out;
    if (out->entries == SHARING_MAX_ENTRIES) {
        tell(&r->where, where, "There are more than %d entries.", SHARING_MAX_ENTRIES);
        expected("at most %d, with one for each free variable and for each _; one that another "
                 "covers can be left out", SHARING_MAX_ENTRIES);
        return false;
    }
    out->entry[out->entries].care = care;
    out->entry[out->entries++].value = value;
    return true;
}

/* Is no equation before this? Entries after one would count for the start all the same. */
static bool before_equations(const reader *r, piece where, const char *what) {
    if (r->out->equations == 0)
        return true;
    tell(&r->where, where, "There is %s after an equation.", what);
    expected("an equation; entries and free stand before the first one");
    return false;
}

/* What stands where position `at`, from 0, of an entry is expected, is none. */
static bool no_position(const reader *r, size_t at) {
    int next = peek(&r->rest);
    piece here = character_here(r->rest);
    cursor after = r->rest;
    skip(&after);
    if (peek(&after) == END)
        here.len = 0;
    if (is_small(next) || is_capital(next))
        tell(&r->where, here, "The letter '%c' cannot stand here.", next);
    else
        tell_cannot(&r->where, here);
    fprintf(stderr, "    Expected: 0, 1 or * for ");
    put_piece(stderr, r->out->variable[at]);
    fprintf(stderr, ", position %zu of %zu.\n", at + 1, r->out->named);
    return false;
}

/* Nothing but a comment follows an entry. */
static bool end_entry(reader *r) {
    cursor after = r->rest;
    skip(&after);
    if (peek(&after) == END)
        return true;
    if (after.at > r->rest.at)
        tell_cannot(&r->where, piece_here(after));
    else
        tell_cannot(&r->where, character_here(after));
    expected("the end of the line: an entry has %zu position%s, one for each variable of line %lu "
             "(a comment begins with %% or #)", r->out->named, r->out->named == 1 ? "" : "s",
             r->out->vars_line);
    return false;
}

/* Care is 1 where a position is fixed, and value is its digit there. */
static bool read_entry(reader *r) {
    const uint8_t *start = r->rest.at;
    uint32_t care = 0, value = 0;
    if (!before_equations(r, piece_here(r->rest), "an entry"))
        return false;
    for (size_t at = 0; at < r->out->named; at++, r->rest.at++) {
        int next = peek(&r->rest);
        if (next != '0' && next != '1' && next != '*')
            return no_position(r, at);
        if (next != '*')
            care |= 1u << at;
        if (next == '1')
            value |= 1u << at;
    }
    return end_entry(r) && add_entry(r, between(start, r->rest.at), care, value);
}

/* ---- Free variables */

/* A group of its own for a variable: an entry with a single 1. */
static bool add_free(reader *r, piece where, uint32_t number) {
    return add_entry(r, where, sharing_variables((uint32_t)r->out->named), 1u << (number - 1));
}

/* The bare word free: each variable of the line vars. */
static bool add_all_free(reader *r, piece where) {
    for (uint32_t number = 1; number <= r->out->named; number++)
        if (!add_free(r, where, number))
            return false;
    return true;
}

/* One variable of a line free or goal, and its number; `seen` has those before it. */
static bool read_listed(reader *r, uint32_t *seen, uint32_t *number) {
    piece name = take_name(&r->rest);
    if (!find_variable(r->out, name, number)) {
        tell_unknown(r->out, &r->where, name);
        expected_variables(r->out, "");
        return false;
    }
    if ((*seen >> (*number - 1) & 1) != 0) {
        tell_piece(&r->where, name, " stands twice in this line.");
        expected("each variable once");
        return false;
    }
    *seen |= 1u << (*number - 1);
    return true;
}

/* One variable of the line free. */
static bool read_free_variable(reader *r, uint32_t *seen) {
    piece name = piece_here(r->rest);
    uint32_t number = 0;
    return read_listed(r, seen, &number) && add_free(r, name, number);
}

/* The line free, with variables or for all of them. */
static bool read_free(reader *r) {
    piece word = piece_here(r->rest);
    const char *what = "variables of the line vars, or the end of the line for all of them";
    bool more = true;
    uint32_t seen = 0;
    if (!before_equations(r, word, "free"))
        return false;
    take_text(&r->rest, "free");
    while (next_name(r, seen == 0 ? what : NULL, &more) && more)
        if (!read_free_variable(r, &seen))
            return false;
    return !more && (seen != 0 || add_all_free(r, word));
}

/* ---- Goals */

/* The name of a goal, which is new. It cannot be that of a variable, which begins otherwise. */
static bool read_goal_name(reader *r, goal *next) {
    goal other;
    skip(&r->rest);
    if (!is_small(peek(&r->rest)))
        return cannot(r, "the name of the goal, with a small letter first and then letters, digits "
                         "and underscores, as in: goal date_baptism: Baptism, Parish");
    next->name = take_name(&r->rest);
    if (find_goal(r->out, next->name, &other)) {
        tell_piece(&r->where, next->name, " is the name of a goal already.");
        expected("a name of its own for each goal");
        return false;
    }
    skip(&r->rest);
    return take(&r->rest, ':') || cannot(r, "':' and then the variables of the goal");
}

/* The variables of a goal, or - for none. */
static bool read_goal_variables(reader *r, goal *next) {
    const char *what = "the variables of the goal, or - for none";
    bool more = true;
    uint32_t number = 0;
    next->set = 0;
    skip(&r->rest);
    if (take(&r->rest, '-'))
        return read_end(r, "the end of the line: a goal with - has no variable");
    if (peek(&r->rest) == END)
        return cannot(r, what);
    while (next_name(r, next->set == 0 ? what : NULL, &more) && more)
        if (!read_listed(r, &next->set, &number))
            return false;
    return !more;
}

/* The line goal. It says nothing of the table, and so stands before or after equations. */
static bool read_goal_line(reader *r) {
    rules *out = r->out;
    goal next;
    if (out->goals == MOST_GOALS) {
        tell(&r->where, piece_here(r->rest), "There are more than %d goals.", MOST_GOALS);
        expected("at most %d goals", MOST_GOALS);
        return false;
    }
    take_text(&r->rest, "goal");
    if (!read_goal_name(r, &next) || !read_goal_variables(r, &next))
        return false;
    out->goal[out->goals++] = next;
    return true;
}

/* ---- Equations */

/* The sign between the two sides, which may not be part of an operator such as ==. */
static bool read_equals(reader *r) {
    const char *what = "'=', as in X1 = f(X2) or X1 = -1";
    skip(&r->rest);
    if (!same_piece(piece_here(r->rest), from_text("=")))
        return cannot_after_term(r, what);
    r->rest.at++;
    skip(&r->rest);
    return true;
}

/* Both sides of an equation, each a variable or a term with a head. */
static bool read_sides(reader *r, equation *next) {
    rules *out = r->out;
    next->first = out->tokens;
    r->variable = starts_variable(peek(&r->rest));
    if (!read_term(r))
        return false;
    next->left = out->tokens - next->first;
    if (!read_equals(r))
        return false;
    r->variable = r->variable || starts_variable(peek(&r->rest));
    out->compound = out->compound || !r->variable;
    if (!read_term(r))
        return false;
    next->right = out->tokens - next->first - next->left;
    return true;
}

/* Nothing but a full stop and a comment follows an equation. */
static bool end_equation(reader *r) {
    const char *what = "the end of the line, after a full stop or without one: one equation a line";
    skip(&r->rest);
    if (peek(&r->rest) == '.' && !is_in_operator(peek_second(&r->rest))) {
        r->rest.at++;
        return read_end(r, what);
    }
    return peek(&r->rest) == END || cannot_after_term(r, what);
}

/* One equation, with its text for the answers. */
static bool read_equation(reader *r) {
    rules *out = r->out;
    equation *next = &out->equation[out->equations];
    const uint8_t *start = r->rest.at;
    if (out->equations == SHARING_MAX_EQUATIONS) {
        tell(&r->where, piece_here(r->rest), "There are more than %d equations.",
             SHARING_MAX_EQUATIONS);
        expected("at most %d equations", SHARING_MAX_EQUATIONS);
        return false;
    }
    if (!read_sides(r, next))
        return false;
    next->text = between(start, r->rest.at);
    next->where = r->where;
    if (!end_equation(r))
        return false;
    out->equations++;
    return true;
}

/* ---- Lines */

/* Does the line begin with this word, and not with an equation such as free(X1) = X2? */
static bool begins(cursor line, const char *word) {
    if (!same_piece(piece_here(line), from_text(word)))
        return false;
    take_name(&line);
    skip(&line);
    return peek(&line) != '(' && peek(&line) != '=';
}

/* The signs of an entry, and the letters that are typed for them by mistake. */
static bool is_like_position(int c) { return c > 0 && strchr("01*OoIl", c) != NULL; }

/* Is the line meant as an entry? Then no = follows its first word, as in 100 = X1. */
static bool begins_entry(cursor line) {
    bool like = is_like_position(peek(&line));
    bool digit = is_digit(peek(&line)) || peek(&line) == '*';
    for (; peek(&line) > ' ' && peek(&line) != '%' && peek(&line) != '#'; line.at++) {
        if (peek(&line) == '=')
            return false;
        like = like && is_like_position(peek(&line));
    }
    skip(&line);
    return (like || digit) && peek(&line) != '=';
}

/* What a side of an equation begins with. */
static bool begins_equation(int c) {
    return is_in_name(c) || c == '\'' || c == '[' || c == '-';
}

/* A second line vars. */
static bool second_vars(const reader *r) {
    tell(&r->where, piece_here(r->rest), "There is a second line vars.");
    expected("one such line, and line %lu is one", r->out->vars_line);
    return false;
}

/* The line vars comes first: without it nothing else can be read. */
static bool first_item(reader *r) {
    if (begins(r->rest, "vars"))
        return read_vars(r);
    tell(&r->where, piece_here(r->rest), "The file does not begin with its variables.");
    expected("a line such as: vars 3, or: vars Baptism Wedding Parish");
    return false;
}

/* A line that is not blank: what it is shows at its beginning. */
static bool read_item(reader *r) {
    if (r->out->vars_line == 0)
        return first_item(r);
    if (begins(r->rest, "vars"))
        return second_vars(r);
    if (begins(r->rest, "free"))
        return read_free(r);
    if (begins(r->rest, "goal"))
        return read_goal_line(r);
    if (begins_entry(r->rest))
        return read_entry(r);
    if (begins_equation(peek(&r->rest)))
        return read_equation(r);
    return cannot(r, "an entry of 0, 1 and *, the word free, or an equation such as X1 = f(X2)");
}

/* The next line, without its end, which is LF or CRLF. */
static bool next_line(reader *r) {
    const uint8_t *start = r->lines.at, *stop;
    if (start == r->lines.end)
        return false;
    stop = memchr(start, '\n', (size_t)(r->lines.end - start));
    r->lines.at = stop != NULL ? stop + 1 : r->lines.end;
    if (stop == NULL)
        stop = r->lines.end;
    if (stop > start && stop[-1] == '\r')
        stop--;
    r->where.line++;
    r->where.text.at = r->rest.at = start;
    r->where.text.len = (size_t)(stop - start);
    r->rest.end = stop;
    return true;
}

/* Says that the file is in another encoding. */
static bool wrong_encoding(const reader *r) {
    piece mark = {r->rest.at, 2};
    tell(&r->where, mark, "The file is in UTF-16.");
    expected("ASCII or UTF-8");
    return false;
}

/* Says that the file has nothing but comments. An empty file has no line, and counts as line 1. */
static bool no_vars(reader *r) {
    piece end = {r->where.text.at + r->where.text.len, 0};
    r->where.line += r->where.line == 0;
    tell(&r->where, end, "The file ends without its variables.");
    expected("a line such as: vars 3, or: vars Baptism Wedding Parish");
    return false;
}

/* All lines, after a byte order mark if there is one. */
static bool read_lines(reader *r) {
    cursor after_mark = r->lines;
    if (take_text(&after_mark, "\xef\xbb\xbf"))
        r->lines = after_mark;
    while (next_line(r)) {
        if (r->where.line == 1 && is_encoded_otherwise(r->rest))
            return wrong_encoding(r);
        skip(&r->rest);
        if (peek(&r->rest) != END && !read_item(r))
            return false;
    }
    return r->out->vars_line > 0 || no_vars(r);
}

/* ---- Files */

/* The items of the bytes that were read. */
static bool read_items(rules *out) {
    reader *r = need(calloc(1, sizeof *r));
    bool good;
    r->out = out;
    r->lines.at = r->where.text.at = out->from.bytes;
    r->lines.end = out->from.bytes + out->from.len;
    r->where.name = out->from.name;
    out->atoms = need(malloc(out->from.len + 1));
    good = read_lines(r);
    free(r);
    return good;
}

/* What the bytes of a file say, which belong to it from here on; NULL where something is wrong with
 * them, which has then been said. */
rules *rules_of(file from) {
    rules *out = need(calloc(1, sizeof *out));
    out->from = from;
    if (read_items(out))
        return out;
    free_rules(out);
    return NULL;
}

/* The file as it was read; NULL where it cannot be read, or something is wrong with it. */
rules *read_rules(const char *path) {
    file from;
    return read_file(path, &from) ? rules_of(from) : NULL;
}

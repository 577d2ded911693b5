/* What was read of a readable file: its variables by name, and its written forms. */
#include "rules.h"

#include <stdlib.h>

/* Gives back the memory of a file; NULL is none. */
void free_rules(rules *given) {
    if (given != NULL) {
        free(given->from.bytes);
        free(given->atoms);
    }
    free(given);
}

/* ---- Variables */

/* The name of the variable at position i, from 0. */
piece variable_name(const rules *given, size_t i) {
    return i < given->named ? given->variable[i] : from_text("_");
}

/* Does the line vars have names, and not only a number? */
bool has_names(const rules *given) { return given->numbered[0][0] == '\0'; }

/* The number of a variable of the line vars, from 1. */
bool find_variable(const rules *given, piece name, uint32_t *number) {
    for (size_t i = 0; i < given->named; i++)
        if (same_piece(given->variable[i], name)) {
            *number = (uint32_t)(i + 1);
            return true;
        }
    return false;
}

/* The goal of this name, from a line goal. */
bool find_goal(const rules *given, piece name, goal *out) {
    for (size_t i = 0; i < given->goals; i++)
        if (same_piece(given->goal[i].name, name)) {
            *out = given->goal[i];
            return true;
        }
    return false;
}

/* What stands before name i of a list of so many, where one of them is expected. */
static const char *before_name(size_t i, size_t count) {
    return i == 0 ? "" : i + 1 == count ? " or " : ", ";
}

/* Says that one of the variables is expected, and then what more there is to say. */
void expected_variables(const rules *given, const char *more) {
    fputs("    Expected: ", stderr);
    for (size_t i = 0; i < given->named; i++) {
        fputs(before_name(i, given->named), stderr);
        put_piece(stderr, given->variable[i]);
    }
    fprintf(stderr, "%s.\n", more);
}

/* Says that one of the goals is expected. */
void expected_goals(const rules *given) {
    fputs("    Expected: ", stderr);
    for (size_t i = 0; i < given->goals; i++) {
        fputs(before_name(i, given->goals), stderr);
        put_piece(stderr, given->goal[i].name);
    }
    fputs(", variables with commas between them, or - for no variable.\n", stderr);
}

/* Says that a name, in the file or in a goal, is not that of a variable of the file. */
void tell_unknown(const rules *given, const place *where, piece name) {
    bool in_goal = where->line == 0;
    tell_piece(where, name, " is not one of the variables of line %lu%s%s.", given->vars_line,
               in_goal ? " of " : "", in_goal ? given->from.name : "");
}

/* ---- Written forms */

/* The form of the table. An entry has 0 at the position of each _, but for the entry of that _.
 * Should no form have these entries, which the reader does not let by, its length is 0. */
size_t write_table(const rules *given, uint8_t out[SHARING_MAX_FORM]) {
    uint32_t width = (uint32_t)given->width;
    uint32_t unnamed = sharing_variables(width) & ~sharing_variables((uint32_t)given->named);
    sharing_entry entry[SHARING_MAX_ENTRIES];
    for (size_t i = 0; i < given->entries; i++) {
        entry[i] = given->entry[i];
        entry[i].care |= unnamed;
    }
    if (sharing_make_form(width, entry, given->entries, out, SHARING_MAX_FORM) != SHARING_ACCEPTED)
        return 0;
    return sharing_form_length(width, given->entries);
}

/* On which side an equation has a variable; the left one is looked at first. */
sides equation_sides(const rules *given, size_t i) {
    const equation *e = &given->equation[i];
    if (given->token[e->first] < HEAD)
        return LEFT_VARIABLE;
    return given->token[e->first + e->left] < HEAD ? RIGHT_VARIABLE : TWO_TERMS;
}

/* A 16-bit number, low byte first. */
static void put_word(uint8_t *out, size_t *len, size_t word) {
    sharing_put_word(out + *len, 0, (uint32_t)word);
    *len += 2;
}

/* Tokens as bytes. */
size_t write_tokens(const rules *given, size_t first, size_t count, uint8_t *out) {
    size_t len = 0;
    for (size_t i = 0; i < count; i++)
        put_word(out, &len, given->token[first + i]);
    return len;
}

/* The form of the first equations, `count` in number, with their variables apart: each has one on
 * one side, which stands for the left one. */
size_t write_equations(const rules *given, size_t count, uint8_t out[MOST_EQUATIONS_FORM]) {
    size_t len = 0, tokens = 0;
    for (size_t i = 0; i < count; i++)
        tokens += given->equation[i].left + given->equation[i].right - 1;
    put_word(out, &len, count);
    put_word(out, &len, tokens);
    for (size_t i = 0; i < count; i++) {
        const equation *e = &given->equation[i];
        size_t right = equation_sides(given, i) == RIGHT_VARIABLE ? e->left : 0;
        put_word(out, &len, given->token[e->first + right]);
    }
    for (size_t i = 0; i < count; i++)
        put_word(out, &len, given->equation[i].left + given->equation[i].right - 1);
    for (size_t i = 0; i < count; i++) {
        const equation *e = &given->equation[i];
        size_t left = equation_sides(given, i) == LEFT_VARIABLE;
        len += write_tokens(given, e->first + left, e->left + e->right - 1, out + len);
    }
    return len;
}

/* The same with both sides as terms: the counts of left sides, those of right sides, the tokens. */
size_t write_term_equations(const rules *given, size_t count, uint8_t out[MOST_EQUATIONS_FORM]) {
    size_t len = 0, tokens = 0;
    for (size_t i = 0; i < count; i++)
        tokens += given->equation[i].left + given->equation[i].right;
    put_word(out, &len, count);
    put_word(out, &len, tokens);
    for (size_t i = 0; i < count; i++)
        put_word(out, &len, given->equation[i].left);
    for (size_t i = 0; i < count; i++)
        put_word(out, &len, given->equation[i].right);
    return len + write_tokens(given, 0, tokens, out + len);
}

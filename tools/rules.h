/* A readable file as it was read: variables, entries and equations; and its written forms. */
#ifndef SHARETEXT_RULES_H
#define SHARETEXT_RULES_H

#include <sharing_util.h>

#include "files.h"
#include "text.h"

/* A token that is a head has this bit, and its arity in the lowest bits. */
enum { HEAD = 0x8000, ARITY_BITS = 4 };

/* The limits of the written forms that the header has no name for. Where each equation has a
 * variable on one side, that one is not among the tokens of the form that sharerun reads. */
enum {
    MOST_TOKENS = SHARING_MAX_TOKENS + SHARING_MAX_EQUATIONS,
    MOST_SYMBOL = 2047,
    MOST_ARITY = 15,
    MOST_SHARERUN_INPUT = 8192,
    MOST_EQUATIONS_FORM = 4 + 4 * SHARING_MAX_EQUATIONS + 2 * SHARING_MAX_TOKENS
};

/* These two limits cannot be passed: within the others there are fewer symbols and fewer bytes. */
typedef char symbols_suffice[(int)SHARING_MAX_TOKENS <= (int)MOST_SYMBOL ? 1 : -1];
typedef char input_suffices[(int)SHARING_MAX_FORM + (int)MOST_EQUATIONS_FORM <=
                                    (int)MOST_SHARERUN_INPUT ? 1 : -1];

/* A symbol as it is known: a number, or an atom without its quotes. */
typedef struct {
    bool number;
    piece text;
} symbol;

/* An equation: its line, its text without a full stop, where its tokens begin, and how many its
 * left and its right side have. */
typedef struct {
    place where;
    piece text;
    size_t first, left, right;
} equation;

/* A goal as an answer names it, and the set of its variables: bit i - 1 is for Xi. */
typedef struct {
    piece name;
    uint32_t set;
} goal;

/* The goals that a file may name: their pairs still fit on a few pages. */
enum { MOST_GOALS = 64 };

/* Positions 1 to `named` are the variables of the line vars, those up to `width` each one _. */
typedef struct {
    file from; /* in which the pieces stand */
    unsigned long vars_line;
    size_t named, width;
    uint32_t absent; /* the named ones that are in no group at the start, bit i - 1 for the ith */
    piece variable[SHARING_MAX_VARIABLES];
    char numbered[SHARING_MAX_VARIABLES][sizeof "X32"]; /* their names where vars has a number */
    size_t entries;
    sharing_entry entry[SHARING_MAX_ENTRIES];
    size_t equations;
    equation equation[SHARING_MAX_EQUATIONS];
    bool compound; /* some equation has a variable on neither side */
    size_t failed; /* the number of the first one that fails by its terms, 0 where none does */
    size_t full;   /* that of the one that is full, 0 where none is */
    size_t goals;
    goal goal[MOST_GOALS];
    size_t tokens;
    uint32_t token[MOST_TOKENS];
    size_t symbols; /* those of the tokens by number, from 1 */
    symbol symbol[SHARING_MAX_TOKENS];
    uint8_t *atoms; /* room for the atoms of the file without their quotes, and what is used */
    size_t atoms_len;
} rules;

rules *read_rules(const char *path);
rules *rules_of(file from);
void free_rules(rules *given);

piece variable_name(const rules *given, size_t i);
bool has_names(const rules *given);
bool find_variable(const rules *given, piece name, uint32_t *number);
bool find_goal(const rules *given, piece name, goal *out);
void expected_variables(const rules *given, const char *more);
void expected_goals(const rules *given);
void tell_unknown(const rules *given, const place *where, piece name);

/* The sides of an equation, as its tokens have them: a variable, or a term with a head. */
typedef enum { LEFT_VARIABLE, RIGHT_VARIABLE, TWO_TERMS } sides;
sides equation_sides(const rules *given, size_t i);

size_t write_table(const rules *given, uint8_t out[SHARING_MAX_FORM]);
size_t write_tokens(const rules *given, size_t first, size_t count, uint8_t *out);
size_t write_equations(const rules *given, size_t count, uint8_t out[MOST_EQUATIONS_FORM]);
size_t write_term_equations(const rules *given, size_t count, uint8_t out[MOST_EQUATIONS_FORM]);

#endif

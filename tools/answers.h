/* What the library answers of a readable file, in words. */
#ifndef SHARETEXT_ANSWERS_H
#define SHARETEXT_ANSWERS_H

#include "rules.h"

/* A point of a file: the table after its first equations, `after` in number. */
typedef struct {
    const rules *given;
    size_t after;
    size_t len;
    uint8_t form[SHARING_MAX_FORM];
} point;

/* The two sides of an equation as bytes, and the walk of them. */
typedef struct {
    uint8_t bytes[2 * (SHARING_MAX_TOKENS + 1)];
    sharing_walk walk;
} two_sides;

/* Entries of so many positions, or what is left of them where some digits are chosen. */
typedef struct {
    size_t width, count;
    sharing_entry entry[SHARING_MAX_ENTRIES];
} entry_list;

/* Of a table so many groups are listed at most. */
enum { MOST_LISTED = 64 };

/* Groups in order: those of fewer variables first, those of as many in the order of these. */
typedef struct {
    size_t count, most;
    uint32_t group[MOST_LISTED];
} group_list;

/* Groups that one table has and another lacks. Where not every part of the two could be looked at,
 * there are at least so many, and those that are listed need not be the first. */
typedef struct {
    uint64_t count;
    bool whole;
    size_t parts;
    group_list first;
} difference;

rules *open_rules(const char *path);
bool accepted(const rules *given, uint32_t code);

bool reach(const rules *given, size_t after, point *out);
size_t entries_of(const point *at);
uint32_t ground_at(const point *at);
void put_heading(const char *what, const point *at);
void put_variables(FILE *to, const rules *given, uint32_t set);
void put_string(FILE *to, size_t width, sharing_entry entry);
void put_entry(FILE *to, const rules *given, sharing_entry entry);

bool read_goals(const rules *given, char *const texts[2], goal out[2]);
size_t goals_of(const rules *given);
goal goal_of(const rules *given, size_t i);
int answer(const point *at, const goal goals[2]);
int apart(const rules *given, char *const texts[2], size_t after);
int pairs(const rules *given, size_t after);
bool put_reason(const point *at, uint32_t group, const char *indent);
int why(const rules *given, char *const texts[2], size_t after);
int tables(const rules *given);
int show(const rules *given);
uint64_t count_groups(const uint8_t *form);
void list_groups(const uint8_t *form, size_t most, group_list *out);
void take_entries(const uint8_t *form, entry_list *out);
uint32_t most_fixed(const entry_list *list, uint32_t among);
void find_difference(const point *at, const point *other, size_t most, difference *out);

void put_strings(FILE *to, const uint8_t *form);
bool put_form(FILE *to, const point *at, bool packed);
int write_form(const rules *given, size_t after, bool packed);
int write_text(const char *path, bool packed);

void begin_walk(const rules *given, size_t i, two_sides *out);
void put_equation(const char *words, const rules *given, size_t i);
void put_equals(const rules *given, const sharing_found *found);
bool fails(const rules *given, size_t i);
void put_failure(FILE *to, const rules *given, size_t i);
void tell_failures(const rules *given, size_t count);
int explain_file(const rules *given);

void explain_number(FILE *to, uint32_t number);
int explain(void);

#endif

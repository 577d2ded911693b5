/* The reader of a readable file: what the reading of lines and the reading of terms share. */
#ifndef SHARETEXT_READER_H
#define SHARETEXT_READER_H

#include "rules.h"

/* What is open around the present place: the arguments of a head, or a list, before or after |. */
typedef enum { ARGUMENTS, ELEMENTS, TAIL } opening;

typedef struct {
    opening kind;
    size_t head; /* where the head stands among the tokens */
} open_term;

typedef struct {
    rules *out;
    cursor lines; /* the lines that are not yet read */
    cursor rest;  /* what is not yet read of the present line */
    place where;  /* the present line */
    bool variable; /* a side of the present equation is known to be a variable */
    size_t depth;
    open_term open[SHARING_MAX_TOKENS];
} reader;

bool cannot(const reader *r, const char *what);
bool cannot_after_term(const reader *r, const char *what);
bool add_entry(reader *r, piece where, uint32_t care, uint32_t value);
bool read_term(reader *r);

#endif

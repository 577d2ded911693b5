/* A table that is to be shipped, as its file has it: text, or the bytes of a form. */
#ifndef SHARETEXT_SHIPPED_H
#define SHARETEXT_SHIPPED_H

#include "answers.h"

typedef enum { READABLE, PLAIN_FORM, PACKED_FORM } table_kind;

/* What was read of it. Where its bytes are refused, `code` is the refusal and there is no table. */
typedef struct {
    file from;
    table_kind kind;
    bool doubtful; /* its bytes are those of a packed form as well as of a plain one */
    rules *text;   /* what a readable file says, else NULL */
    uint32_t code;
    size_t width; /* its number of variables, 0 where the bytes do not give one */
    uint8_t form[SHARING_MAX_FORM];
} shipped;

bool open_shipped(const char *path, bool packed, shipped *out);
void close_shipped(shipped *table);
void put_kind(const shipped *table);
void put_refused(const shipped *table);
bool write_shipped(const char *path, const point *at, table_kind kind);

#endif

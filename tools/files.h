/* Files, memory for them, and the end of the output. */
#ifndef SHARETEXT_FILES_H
#define SHARETEXT_FILES_H

#include <stdbool.h>
#include <stddef.h>
#include <stdint.h>

/* A file that was read. */
typedef struct {
    const char *name; /* its name in messages */
    uint8_t *bytes;
    size_t len;
} file;

/* The exit status of the program. */
enum { STATUS_YES = 0, STATUS_NO = 1, STATUS_WRONG = 2 };

void *need(void *memory);
bool read_file(const char *path, file *out);
int finish(int status);

#endif

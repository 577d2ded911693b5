/* Files, memory for them, and the end of the output. */
#include "files.h"

#include <errno.h>
#include <stdio.h>
#include <stdlib.h>
#include <string.h>

/* Without memory nothing can be done, and nothing has been written yet. */
void *need(void *memory) {
    if (memory == NULL) {
        fprintf(stderr, "sharetext: There is not enough memory.\n");
        exit(STATUS_WRONG);
    }
    return memory;
}

/* A read error ends the bytes early; the caller asks ferror. */
static void read_bytes(FILE *from, file *out) {
    size_t room = 4096, got;
    out->bytes = need(malloc(room));
    while ((got = fread(out->bytes + out->len, 1, room - out->len, from)) > 0) {
        out->len += got;
        if (out->len == room) {
            room *= 2;
            out->bytes = need(realloc(out->bytes, room));
        }
    }
}

/* The bytes of a file, or of standard input for -, for the caller to free. NULL where it fails. */
bool read_file(const char *path, file *out) {
    bool standard = strcmp(path, "-") == 0;
    FILE *from = standard ? stdin : fopen(path, "rb");
    bool good = from != NULL;
    memset(out, 0, sizeof *out);
    out->name = standard ? "standard input" : path;
    if (good) {
        read_bytes(from, out);
        good = !ferror(from);
    }
    if (!good) {
        fprintf(stderr, "%s: The file cannot be read: %s.\n", out->name, strerror(errno));
        free(out->bytes);
        out->bytes = NULL;
    }
    if (from != NULL && from != stdin)
        fclose(from);
    return good;
}

/* Output that did not arrive is an error, whatever the answer was. */
int finish(int status) {
    if (fflush(stdout) == 0 && !ferror(stdout))
        return status;
    fprintf(stderr, "sharetext: The output cannot be written.\n");
    return STATUS_WRONG;
}

/* The forms of tables: one from a readable file, and a readable file from one. */
#include "answers.h"

#include <stdlib.h>

/* The bytes of the form of a table, or of its packed form. */
bool put_form(FILE *to, const point *at, bool packed) {
    uint8_t out[SHARING_MAX_PACKED];
    if (!packed) {
        fwrite(at->form, 1, at->len, to);
        return true;
    }
    if (!accepted(at->given, sharing_pack(at->form, at->len, out, sizeof out)))
        return false;
    fwrite(out, 1, sharing_packed_front(out, sizeof out), to);
    return true;
}

/* Writes the form of the table at a point, or its packed form. */
int write_form(const rules *given, size_t after, bool packed) {
    point at;
    if (!reach(given, after, &at) || !put_form(stdout, &at, packed))
        return STATUS_WRONG;
    return finish(STATUS_YES);
}

/* Says why a form is refused. It may be one of the other kind. */
static void tell_refused(const char *name, uint32_t code, bool packed) {
    fprintf(stderr, "%s: refused %u, %s: %s.\n", name, (unsigned)code, sharing_refusal_word(code),
            sharing_refusal_sentence(code));
    if (packed)
        expected("a packed form, as `sharetext form FILE --packed` writes it; a form that is not "
                 "packed is read without --packed");
    else
        expected("a form, as `sharetext form FILE` writes it; a packed form is read with --packed");
}

/* The entries of a form as text, one a line. */
void put_strings(FILE *to, const uint8_t *form) {
    for (size_t i = 0; i < sharing_word_at(form, 1); i++) {
        put_string(to, sharing_word_at(form, 0), sharing_entry_in(form, i));
        fputc('\n', to);
    }
}

/* Reads a form, or a packed one, and writes it as a readable file. */
int write_text(const char *path, bool packed) {
    uint8_t form[SHARING_MAX_FORM];
    uint32_t code;
    file from;
    if (!read_file(path, &from))
        return STATUS_WRONG;
    code = packed ? sharing_unpack(from.bytes, from.len, form, sizeof form)
                  : sharing_read(from.bytes, from.len, form, sizeof form);
    free(from.bytes);
    if (code != SHARING_ACCEPTED) {
        tell_refused(from.name, code, packed);
        return STATUS_WRONG;
    }
    printf("vars %u\n", (unsigned)sharing_word_at(form, 0));
    put_strings(stdout, form);
    return finish(STATUS_YES);
}

/* The refusals of sharerun in words. */
#include "answers.h"

#include <errno.h>
#include <string.h>

/* By number: the word of the refusal, what it means, and what to look at. */
static const char *const meanings[] = {
    [SHARING_TORN] =
        "torn: the input is shorter or longer than its sizes say, or longer than 8192 bytes. "
        "Look for a message of `sharetext input`, and for bytes lost or added after it.",
    [SHARING_WIDTH] =
        "width: the number of variables is not 1 to 32. "
        "`sharetext input` writes none such; look at what else wrote the input.",
    [SHARING_ENTRIES] =
        "entries: there are more than 256 entries. "
        "`sharetext input` writes none such; look at what else wrote the input.",
    [SHARING_STRAY] =
        "stray: an entry has a bit above the last variable, or a digit at a position that is not "
        "fixed. `sharetext input` writes none such; look at what else wrote the input.",
    [SHARING_NAME] =
        "name: a variable is not one of X1 to Xl, where l is the number of variables. "
        "`sharetext input` writes none such; look at what else wrote the input.",
    [SHARING_TERM] =
        "term: the token counts do not sum up, or the tokens of an equation are not one whole "
        "term. `sharetext input` writes none such without --unify, which is not for sharerun; look "
        "at what else wrote the input.",
    [SHARING_LONG] =
        "long: there are more than 64 equations, or more than 1024 variables and symbols in their "
        "terms. `sharetext input` writes none such; look at what else wrote the input.",
    [SHARING_FULL] =
        "full: this equation needs a table of more than 256 entries, and the run ends before it. "
        "The table above is what was known before it; what is safe to go on with after it is the "
        "all-star table, where every variable may share with every other. "
        "Look at the equation with that number, counted from 1.",
    [SHARING_NARROW] =
        "narrow: the output that the caller lent is too short. "
        "Look at the program that made the call; the file may be good.",
    [SHARING_UNLIKE] =
        "unlike: two tables have different numbers of variables. "
        "Look at the line `vars` of both files.",
    [SHARING_KEEP] =
        "keep: a projection keeps no variable, or one above the last, or a group that is asked for "
        "is empty. Look at the variables that were to be kept, or at those of the group.",
    [SHARING_DIGIT] =
        "digit: a byte of a packed table is 243 or more, or has a digit that is not 0 after the "
        "last variable. Look at what wrote the packed table."};

/* Writes a line with the meaning of a refusal's number. */
void explain_number(FILE *to, uint32_t number) {
    size_t known = sizeof meanings / sizeof meanings[0];
    bool has_words = number >= SHARING_TORN && number < known;
    fprintf(to, "    %s\n", has_words ? meanings[number] : "No refusal has this number.");
}

enum { MOST_WORD = 65535 };

/* Is the line `refused N` or `eq K refused N`? Then *number is N. */
static bool is_refusal(cursor line, uint32_t *number) {
    if (take_text(&line, "eq ")) {
        if (!is_digit(peek(&line)))
            return false;
        take_number(&line, MOST_WORD);
        if (!take(&line, ' '))
            return false;
    }
    if (!take_text(&line, "refused ") || !is_digit(peek(&line)))
        return false;
    *number = take_number(&line, MOST_WORD);
    take(&line, '\r');
    return peek(&line) == END;
}

/* Of each line only so much is kept as a refusal can be long. */
enum { LINE_ROOM = 64 };

/* Adds words to a line that is a refusal. One that fills the room may be cut, and is none. */
static bool explain_line(const uint8_t *kept, size_t len, bool ended) {
    cursor line = {kept, kept + len};
    uint32_t number = 0;
    if (len == LINE_ROOM || !is_refusal(line, &number))
        return false;
    if (!ended)
        putchar('\n');
    explain_number(stdout, number);
    return true;
}

/* Copies standard input and adds words to each refusal. */
int explain(void) {
    uint8_t kept[LINE_ROOM] = {0};
    size_t len = 0;
    bool seen = false;
    int c;
    while ((c = getchar()) != EOF) {
        putchar(c);
        if (c == '\n') {
            seen = explain_line(kept, len, true) || seen;
            len = 0;
        } else if (len < LINE_ROOM)
            kept[len++] = (uint8_t)c;
    }
    if (ferror(stdin)) {
        fprintf(stderr, "standard input: The file cannot be read: %s.\n", strerror(errno));
        return STATUS_WRONG;
    }
    seen = explain_line(kept, len, false) || seen;
    return finish(seen ? STATUS_NO : STATUS_YES);
}

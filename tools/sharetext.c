/*
 * sharetext: sharing tables and equations in a readable file, and which goals may run side by side.
 * `sharetext --help`, in help.c, says all of it; the manual page sharetext.1 says the same.
 *
 *     files.c     files, memory for them, and the end of the output
 *     text.c      parts of a text, and messages that show the place of a mistake
 *     reader.c    the reader of a file, line by line; terms.c reads its terms
 *     rules.c     what was read, and its written forms
 *     answers.c   what the library answers of it, in words
 *     why.c       why goals may not run side by side, and why a table has a group
 *     groups.c    the groups of its tables, listed, counted and as rows of marks
 *     forms.c     the forms of its tables, and a readable file of a form
 *     audit.c     the audit of a table that is to be shipped
 *     shipped.c   the file of such a table, text or bytes
 *     differ.c    the groups that one table has and another lacks
 *     walks.c     what its equations come to, in words
 *     explain.c   the refusals of sharerun in words
 *
 * Every answer is the library's. This program reads, writes an entry for each variable that the
 * file calls free and for each _, lists and counts the groups that the library's entries cover, and
 * tells which equations and clashes are found in two terms, and which equations can never hold. It
 * looks for the equation and the group that the library is to give the reason of, and takes tables
 * apart where a call on the whole of them is full.
 */
#include "audit.h"
#include "help.h"

#include <string.h>

/* What stands on the command line after the command. */
typedef struct {
    int count;
    char *plain[3];    /* the arguments that are no options */
    const char *after; /* the number of --after, or NULL */
    const char *write; /* the file of --write, or NULL */
    bool packed, unify, text, help;
} arguments;

typedef enum {
    INPUT,
    EXPLAIN,
    APART,
    PAIRS,
    WHY,
    TABLES,
    SHOW,
    FORM,
    TEXT,
    AUDIT,
    COMMANDS
} command;

/* The options, as bits. */
enum { NONE = 0, AFTER = 1, PACKED = 2, UNIFY = 4, WRITE = 8, AS_TEXT = 16 };

/* Of each command its name, how many arguments it has that are no options, and its options. */
static const struct {
    const char *name;
    int least, most, options;
} commands[COMMANDS] = {[INPUT] = {"input", 1, 1, UNIFY},
                        [EXPLAIN] = {"explain", 0, 1, NONE},
                        [APART] = {"apart", 3, 3, AFTER},
                        [PAIRS] = {"pairs", 1, 1, AFTER},
                        [WHY] = {"why", 3, 3, AFTER},
                        [TABLES] = {"tables", 1, 1, NONE},
                        [SHOW] = {"show", 1, 1, NONE},
                        [FORM] = {"form", 1, 1, AFTER | PACKED},
                        [TEXT] = {"text", 1, 1, PACKED},
                        [AUDIT] = {"audit", 1, 2, AFTER | PACKED | WRITE | AS_TEXT}};

/* An argument of one dash is standard input or no variable; those of more letters are options. */
static bool is_option(const char *argument) { return argument[0] == '-' && argument[1] != '\0'; }

/* Is this an option of the command that was not there before? */
static bool is_new(const char *argument, const char *name, command c, int option, bool before) {
    return (commands[c].options & option) != 0 && strcmp(argument, name) == 0 && !before;
}

/* Can an audit do all that it is asked for? With TABLE nothing is written, and without --write no
 * way of writing is chosen. Standard input is read once, and a table is written to a file, which is
 * not that of the clause. */
static bool fits_audit(const arguments *got) {
    const char *clause = got->plain[0];
    if (got->count > 1)
        return got->write == NULL && !got->text &&
               (strcmp(clause, "-") != 0 || strcmp(got->plain[1], "-") != 0);
    if (got->write == NULL)
        return !got->packed && !got->text;
    return !(got->packed && got->text) && strcmp(got->write, "-") != 0 &&
           strcmp(got->write, clause) != 0;
}

/* The arguments of a command, with the options that it has. */
static bool read_arguments(char **argv, command c, arguments *out) {
    memset(out, 0, sizeof *out);
    for (; *argv != NULL; argv++) {
        if (strcmp(*argv, "--help") == 0)
            out->help = true;
        else if (is_new(*argv, "--after", c, AFTER, out->after != NULL) && argv[1] != NULL)
            out->after = *++argv;
        else if (is_new(*argv, "--write", c, WRITE, out->write != NULL) && argv[1] != NULL)
            out->write = *++argv;
        else if (is_new(*argv, "--packed", c, PACKED, out->packed))
            out->packed = true;
        else if (is_new(*argv, "--unify", c, UNIFY, out->unify))
            out->unify = true;
        else if (is_new(*argv, "--text", c, AS_TEXT, out->text))
            out->text = true;
        else if (!is_option(*argv) && out->count < commands[c].most)
            out->plain[out->count++] = *argv;
        else
            return false;
    }
    return out->help || (out->count >= commands[c].least && (c != AUDIT || fits_audit(out)));
}

/* The point that --after gives: after the last equation where it is not there. */
static bool read_after(const rules *given, const char *after, size_t *point) {
    piece text = from_text(after != NULL ? after : "");
    cursor c = {text.at, text.at + text.len};
    bool digits = is_digit(peek(&c));
    *point = after != NULL ? take_number(&c, SHARING_MAX_EQUATIONS) : given->equations;
    if (after == NULL || (digits && peek(&c) == END && *point <= given->equations))
        return true;
    fprintf(stderr, "sharetext: --after ");
    put_piece(stderr, text);
    fprintf(stderr, " is no point of %s.\n", given->from.name);
    expected("a number from 0 to %zu, how many of the equations have been applied",
             given->equations);
    return false;
}

/* Says that sharerun does not read the first equation with a variable on neither side. */
static int not_for_sharerun(const rules *given) {
    size_t i = 0;
    while (equation_sides(given, i) != TWO_TERMS)
        i++;
    tell(&given->equation[i].where, given->equation[i].text,
         "sharerun does not read equation %zu: neither side of it is a variable.", i + 1);
    expected("a variable on one side. All other commands take the file as it is: `sharetext "
             "tables` has the tables, and `sharetext input --unify` writes what sharing_unify_run "
             "reads");
    return STATUS_WRONG;
}

/* Says that the form of two terms does not hold the equations. */
static int too_long_to_unify(const rules *given) {
    fprintf(stderr, "%s: There are more than %d variables and symbols on both sides together.\n",
            given->from.name, SHARING_MAX_TOKENS);
    expected("at most %d where left sides count too, as they do with --unify", SHARING_MAX_TOKENS);
    return STATUS_WRONG;
}

/* Writes the table and then the equations: the input of sharerun, or both sides as terms. */
static int input(const rules *given, bool unify) {
    uint8_t table[SHARING_MAX_FORM], equations[MOST_EQUATIONS_FORM];
    if (unify && given->tokens > SHARING_MAX_TOKENS)
        return too_long_to_unify(given);
    fwrite(table, 1, write_table(given, table), stdout);
    fwrite(equations, 1,
           unify ? write_term_equations(given, given->equations, equations)
                 : write_equations(given, given->equations, equations),
           stdout);
    return finish(STATUS_YES);
}

/* What an audit is asked for on the command line. */
static audit_wish wish_of(const arguments *got) {
    audit_wish wish;
    wish.table = got->count > 1 ? got->plain[1] : NULL;
    wish.packed = got->packed;
    wish.write = got->write;
    wish.written = got->text ? READABLE : got->packed ? PACKED_FORM : PLAIN_FORM;
    return wish;
}

/* Does what a command does with a file that was read. */
static int run_on(command c, const rules *given, const arguments *got) {
    audit_wish wish = wish_of(got);
    size_t after = 0;
    if (!read_after(given, got->after, &after))
        return STATUS_WRONG;
    if (c == EXPLAIN)
        return explain_file(given);
    if (c == INPUT && given->compound && !got->unify)
        return not_for_sharerun(given);
    tell_failures(given, after);
    if (c == INPUT)
        return input(given, got->unify);
    if (c == APART)
        return apart(given, got->plain + 1, after);
    if (c == PAIRS)
        return pairs(given, after);
    if (c == WHY)
        return why(given, got->plain + 1, after);
    if (c == FORM)
        return write_form(given, after, got->packed);
    if (c == AUDIT)
        return audit(given, after, &wish);
    return c == TABLES ? tables(given) : show(given);
}

/* Does what a command does, with its arguments. */
static int run(command c, const arguments *got) {
    rules *given;
    int status = STATUS_WRONG;
    if (got->help) {
        print_help();
        return finish(STATUS_YES);
    }
    if (c == EXPLAIN && got->count == 0)
        return explain();
    if (c == TEXT)
        return write_text(got->plain[0], got->packed);
    given = open_rules(got->plain[0]);
    if (given != NULL)
        status = run_on(c, given, got);
    free_rules(given);
    return status;
}

/* Does the first argument ask for something without a command? Then it is done. */
static bool without_command(const char *first) {
    if (strcmp(first, "--help") == 0 || strcmp(first, "help") == 0) {
        print_help();
        return true;
    }
    return strcmp(first, "--version") == 0 && print_version();
}

/* The commands, or the usage where the arguments are none of them. */
int main(int argc, char **argv) {
    arguments got;
    if (argc == 2 && without_command(argv[1]))
        return finish(STATUS_YES);
    for (int c = 0; argc > 1 && c < COMMANDS; c++)
        if (strcmp(argv[1], commands[c].name) == 0 && read_arguments(argv + 2, (command)c, &got))
            return run((command)c, &got);
    print_usage(stderr);
    return STATUS_WRONG;
}

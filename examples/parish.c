/*
 * The parish register: which goals of a matching rule may run side by side?
 *
 *     match(Baptism, Wedding, Parish, Book) :-
 *         Baptism = after(Wedding),
 *         date_baptism(Baptism), date_wedding(Wedding), open_book(Parish, Book).
 *
 * Two goals may run side by side only if they share no variable. The program asks the rule's table
 * before the equation and after it, and then a table that lost a group.
 *
 *     cc parish.c $(pkg-config --cflags --libs sharing) -o parish
 */
#include <sharing_util.h>

#include <stdio.h>
#include <stdlib.h>
#include <string.h>

/* The variables by number, and the sets of one variable each: bit i - 1 is for Xi. */
enum { X_BAPTISM = 1, X_WEDDING = 2, VARIABLES = 4 };
enum { BAPTISM = 1, WEDDING = 2, PARISH = 4, BOOK = 8 };

typedef struct { const char *text; uint32_t variables; } goal;

static const goal date_baptism = {"date_baptism(Baptism)", BAPTISM};
static const goal date_wedding = {"date_wedding(Wedding)", WEDDING};
static const goal open_book = {"open_book(Parish, Book)", PARISH | BOOK};

/* A table in bytes. Its length is that of its form, not that of the buffer. */
typedef struct { uint8_t bytes[SHARING_MAX_FORM]; } form;

static size_t length(const form *table) {
    return sharing_front_length(table->bytes, sizeof table->bytes);
}

static size_t entries(const form *table) { return sharing_word_at(table->bytes, 1); }

/* An answer other than the one that is due ends the program. */
static void expect(uint32_t due, uint32_t code, const char *call) {
    if (code != due) {
        fprintf(stderr, "%s answered %s\n", call, sharing_refusal_word(code));
        exit(EXIT_FAILURE);
    }
}

static void accepted(uint32_t code, const char *call) { expect(SHARING_ACCEPTED, code, call); }

/* Entry i of a table. */
static sharing_entry entry_of(const form *table, size_t i) {
    sharing_entry entry = {0, 0};
    accepted(sharing_entry_at(table->bytes, length(table), i, &entry), "sharing_entry_at");
    return entry;
}

/* The entries as text, position 1 first. */
static void print_table(const form *table) {
    char text[VARIABLES + 1];
    printf("   table");
    for (size_t i = 0; i < entries(table); i++) {
        accepted(sharing_entry_text(VARIABLES, entry_of(table, i), text, sizeof text),
                 "sharing_entry_text");
        printf(" %s", text);
    }
    putchar('\n');
}

/* Prints whether two goals may run side by side. */
static void ask(const form *table, goal one, goal other) {
    uint32_t yes = 0;
    accepted(sharing_independent(SHARING_POSITIVE, table->bytes, length(table), one.variables,
                                 other.variables, &yes),
             "sharing_independent");
    printf("   %s beside %s? %s\n", one.text, other.text, yes ? "yes" : "no");
}

/* The two unknown dates stand alone. The parish is named in its book, which has years as well. */
static void start_of_rule(form *table) {
    const uint32_t groups[] = {BAPTISM, WEDDING, PARISH | BOOK, BOOK};
    accepted(sharing_convert(VARIABLES, groups, sizeof groups / sizeof groups[0], table->bytes,
                             sizeof table->bytes),
             "sharing_convert");
    printf("\n1. At the start of the rule, from the groups 1000 0100 0011 0001\n");
    print_table(table);
    ask(table, date_baptism, date_wedding);
}

/* A term is a head, with its symbol and arity, and then its arguments. */
static void apply_equation(const form *before, form *computed) {
    const uint32_t symbol_after = 1;
    uint8_t term[4];
    sharing_put_word(term, 0, sharing_head(symbol_after, 1));
    sharing_put_word(term, 1, X_WEDDING);
    accepted(sharing_equation(SHARING_POSITIVE, before->bytes, length(before), X_BAPTISM, term,
                              sizeof term, computed->bytes, sizeof computed->bytes),
             "sharing_equation");
    printf("\n2. After Baptism = after(Wedding): one unknown date is in both, the group 1100\n");
    print_table(computed);
    ask(computed, date_baptism, date_wedding);
    ask(computed, date_baptism, open_book);
}

/* The table without its last entry. Nothing in it shows that there was one more. */
static void drop_last(const form *table, form *shorter) {
    sharing_entry kept[SHARING_MAX_ENTRIES];
    size_t n = entries(table) > 0 ? entries(table) - 1 : 0;
    for (size_t i = 0; i < n; i++)
        kept[i] = entry_of(table, i);
    accepted(sharing_make_form(VARIABLES, kept, n, shorter->bytes, sizeof shorter->bytes),
             "sharing_make_form");
}

/* What a table that lost a group answers. */
static void bad_release(const form *computed) {
    form bad;
    uint32_t known = 0, equal = 1;
    drop_last(computed, &bad);
    printf("\n3. The bad release: the same table without the group 1100, and no call refuses it\n");
    print_table(&bad);
    ask(&bad, date_baptism, date_wedding);
    accepted(sharing_ground(SHARING_POSITIVE, bad.bytes, length(&bad), X_BAPTISM, &known),
             "sharing_ground");
    printf("   Is the date of the baptism known (ground)? %s\n", known ? "yes" : "no");
    accepted(sharing_equal(bad.bytes, length(&bad), computed->bytes, length(computed), &equal),
             "sharing_equal");
    printf("   Has it the groups of the table in 2? %s\n", equal ? "yes" : "no");
    printf("   With one group lost, both yes are wrong: the baptism is dated too soon.\n");
}

/* Lost bytes, unlike a lost entry, show in the form itself. */
static void cut_form(const form *computed) {
    form out, before;
    memset(&out, 0x5a, sizeof out);
    memset(&before, 0x5a, sizeof before);
    expect(SHARING_TORN,
           sharing_read(computed->bytes, length(computed) - 1, out.bytes, sizeof out.bytes),
           "sharing_read");
    printf("\n4. The table in 2 with its last byte cut off: refused %d, %s\n", SHARING_TORN,
           sharing_refusal_word(SHARING_TORN));
    printf("   Is the output as it was? %s\n", memcmp(&out, &before, sizeof out) ? "no" : "yes");
}

int main(void) {
    form start, computed;
    printf("May one goal run beside another? X1 Baptism, X2 Wedding, X3 Parish, X4 Book\n");
    start_of_rule(&start);
    apply_equation(&start, &computed);
    bad_release(&computed);
    cut_form(&computed);
    return EXIT_SUCCESS;
}

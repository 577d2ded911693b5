/*
 * Random readable files for tests/tools, and what sharetext must make of them by plain sets of
 * groups: no code of the tool or of the library is used.
 *
 *     files FOLDER COUNT SEED
 *
 * writes for each K from 0: K.txt a good file; K.words what `input` writes or, where an equation has
 * a variable on neither side, K.unify what `input --unify` writes; K.after.N what `pairs` prints
 * after N equations, for each N; K.show what `show` prints; K.why how `why` begins for pairs of the
 * variables in its equations; K.table a table to be shipped, with groups lost or added or not, and
 * K.audit the lines that `audit` has of it; and K.bad, the file with a few bytes changed.
 */
#include <stdarg.h>
#include <stdbool.h>
#include <stdint.h>
#include <stdio.h>
#include <stdlib.h>
#include <string.h>

/*
 * A file has up to 4 variables and 2 _, or many variables and one _. Of many only 4 stand in
 * equations and in entries with stars; each other one is a group of its own, or known. So no
 * equation is full: with six positions no table has more than 240 entries of which none covers
 * another, and with five no more than 80, and one for each other variable. There are at most 63
 * groups: of six positions, or 31 of five and one for each other variable.
 */
enum { LIVE = 4, UNNAMED = 2, WIDE = 32, GROUPS = 63 };
enum { ENTRIES = 128, EQUATIONS = 4, GOALS = 4, ROOM = 20000 };

typedef struct { char text[1000]; size_t first, left, right; } equation;
typedef struct { char name[8]; uint32_t set; } goal;

static struct {
    char text[ROOM];
    size_t len;
    unsigned named, width, most; /* most: the greatest width that it may have */
    char name[WIDE][8];
    unsigned lives, live[LIVE]; /* the variables of entries and equations, from 0 */
    unsigned entries;
    uint32_t care[ENTRIES], value[ENTRIES];
    unsigned equations;
    equation equation[EQUATIONS];
    bool compound; /* an equation has a variable on neither side */
    unsigned goals;
    goal goal[GOALS];
    unsigned token[1000];
    size_t tokens;
    const char *symbol[20];
    unsigned symbols;
    const char *line_end;
} file;

static uint32_t state;

/* A random number below `most`. */
static unsigned below(unsigned most) {
    state = state * 1664525u + 1013904223u;
    return (unsigned)((uint64_t)(state >> 8) * most >> 24);
}

/* The set of so many variables, 1 to 32. */
static uint32_t all_of(unsigned variables) { return ~(uint32_t)0 >> (32 - variables); }

/* Writes to the text of the file. */
static void put(const char *format, ...) {
    va_list values;
    va_start(values, format);
    file.len += (size_t)vsnprintf(file.text + file.len, ROOM - file.len, format, values);
    va_end(values);
}

/* Blanks, now and then. */
static void put_blank(void) { put("%s", below(4) == 0 ? (below(2) ? " " : "\t ") : ""); }

/* The end of a line, perhaps with a comment before it and a line that counts for nothing after. */
static void put_end(void) {
    static const char *const comments[] = {"", "", "", " % X1 = f(", "# 100 'a", "\t%%\xff\xfe"};
    put("%s%s", comments[below(6)], file.line_end);
    if (below(8) == 0)
        put("%s%s", below(2) ? "  " : "  # vars 3", file.line_end);
}

/* ---- Lines */

/* How many variables there are, and which of them stand in entries and equations: of many some,
 * the last one among them. */
static void choose_variables(void) {
    bool many = below(3) == 0;
    file.named = file.width = many ? 13 + below(WIDE - 12) : 1 + below(LIVE);
    file.most = file.named + (many ? 1 : UNNAMED);
    if (file.most > WIDE)
        file.most = WIDE;
    file.lives = file.named < LIVE ? file.named : LIVE;
    for (unsigned i = 0; i < file.lives; i++)
        file.live[i] = many ? file.named - 1 - i * (1 + below(4)) : i;
    for (unsigned i = 1; many && i < file.lives; i++)
        if (file.live[i] >= file.live[i - 1])
            file.live[i] = file.live[i - 1] - 1;
}

/* Does the variable at this place, from 0, stand in entries and equations? */
static bool is_live(unsigned variable) {
    for (unsigned i = 0; i < file.lives; i++)
        if (file.live[i] == variable)
            return true;
    return false;
}

/* The line vars, by number or by names. */
static void make_vars(void) {
    static const char *const names[] = {"Baptism", "W", "_Parish", "X2", "O", "B_9"};
    bool by_name = below(2);
    unsigned start = below(6);
    choose_variables();
    for (unsigned i = 0; i < file.named; i++)
        if (by_name && i < 6)
            snprintf(file.name[i], sizeof file.name[i], "%s", names[(start + i) % 6]);
        else
            snprintf(file.name[i], sizeof file.name[i], by_name ? "N%u_" : "X%u", i + 1);
    put("vars");
    if (!by_name)
        put(" %u", file.named);
    for (unsigned i = 0; by_name && i < file.named; i++)
        put("%s%s", i == 0 ? " " : below(2) ? ", " : "  ", file.name[i]);
    put_end();
}

/* One more entry, as the words have it. */
static void add_entry(uint32_t care, uint32_t value) {
    file.care[file.entries] = care;
    file.value[file.entries++] = value;
}

/* A line free, with some variables or with none for all. */
static void make_free(void) {
    bool all = below(2), some = false;
    put("free");
    for (unsigned i = 0; i < file.named; i++)
        if (all || below(2)) {
            if (!all)
                put("%s%s", !some ? " " : below(2) ? " , " : " ", file.name[i]);
            add_entry(all_of(file.named), 1u << i);
            some = true;
        }
    /* The bare word is for all of them. */
    for (unsigned i = 0; !some && i < file.named; i++)
        add_entry(all_of(file.named), 1u << i);
    put_end();
}

/* A random entry. */
static void make_entry(void) {
    uint32_t care = 0, value = 0;
    put_blank();
    for (unsigned i = 0; i < file.named; i++) {
        unsigned kind = is_live(i) ? below(3) : 0;
        care |= (uint32_t)(kind < 2) << i;
        value |= (uint32_t)(kind == 1) << i;
        put("%c", "01*"[kind]);
    }
    add_entry(care, value);
    put_end();
}

/* ---- Terms */

/* A head; a symbol has the number of its first appearance. */
static void add_head(const char *symbol, unsigned arity) {
    unsigned i = 0;
    while (i < file.symbols && strcmp(file.symbol[i], symbol) != 0)
        i++;
    file.symbol[i] = symbol;
    file.symbols += i == file.symbols;
    file.token[file.tokens++] = 0x8000 + 16 * (i + 1) + arity;
}

/* A variable; its number is returned, and its token not yet written. */
static unsigned make_variable(void) {
    unsigned number = 1 + file.live[below(file.lives)];
    if (file.width < file.most && below(6) == 0) {
        put("_");
        return ++file.width;
    }
    put("%s", file.name[number - 1]);
    return number;
}

enum { ATOMS = 13, CONSTANTS = 18 };

/* The ways of writing symbols. Equal names in column 0 are equal symbols. */
static const char *const written[CONSTANTS][2] = {
    {"a", "a"}, {"a", "'a'"}, {"f", "f"}, {"fX_1", "fX_1"}, {"it's", "'it''s'"},
    {"it's", "'it\\'s'"}, {"A % b", "'A % b'"}, {"\\", "'\\\\'"}, {"", "''"},
    {"\xc3\x89", "'\xc3\x89'"}, {"[]", "'[]'"}, {".", "'.'"}, {"free", "free"},
    /* numbers, which differ from atoms of the same text */
    {"number 1", "1"}, {"number -3", "-3"}, {"number 2.5", "2.5"}, {"1", "'1'"},
    {"number 1.0e-6", "1.0e-6"}};

/* A symbol, in one of the ways of writing it. */
static const char *make_symbol(unsigned ways) {
    const char *const *way = written[below(ways)];
    put("%s", way[1]);
    return way[0];
}

/* The first way of writing a symbol by its name. */
static const char *first_way(const char *name) {
    unsigned i = 0;
    while (strcmp(written[i][0], name) != 0)
        i++;
    return written[i][1];
}

static uint32_t make_term(unsigned depth);

/* A list of one or two elements, with a tail or without: cells '.' and at its end '[]'. */
static uint32_t make_list(unsigned depth) {
    unsigned elements = 1 + below(2);
    uint32_t variables = 0;
    put("[");
    for (unsigned i = 0; i < elements; i++) {
        add_head(".", 2);
        put(i == 0 ? "" : ",");
        variables |= make_term(depth - 1);
    }
    if (below(2)) {
        put("|");
        variables |= make_term(depth - 1);
    } else
        add_head("[]", 0);
    put("]");
    return variables;
}

/* Symbols with arguments; the head stands before its arguments, and its arity is known by then. */
static uint32_t make_compound(unsigned depth) {
    unsigned arguments = 1 + below(3);
    uint32_t variables = 0;
    add_head(make_symbol(ATOMS), arguments);
    put("(");
    for (unsigned i = 0; i < arguments; i++) {
        put(i == 0 ? "" : ",");
        variables |= make_term(depth - 1);
    }
    put(")");
    return variables;
}

/* A term, and the set of its variables: bit i - 1 for the ith. */
static uint32_t make_term(unsigned depth) {
    uint32_t variables = 0;
    unsigned kind = below(depth == 0 ? 4 : 8);
    put_blank();
    if (kind < 2) {
        unsigned number = make_variable();
        file.token[file.tokens++] = number;
        variables = 1u << (number - 1);
    } else if (kind == 2)
        add_head(make_symbol(CONSTANTS), 0);
    else if (kind == 3) {
        put("[]");
        add_head("[]", 0);
    } else
        variables = kind < 7 ? make_compound(depth) : make_list(depth);
    put_blank();
    return variables;
}

/* Passes over the term at a place of the tokens, and gives the place after it. */
static size_t pass(size_t at) {
    unsigned token = file.token[at++];
    for (unsigned i = 0; token >= 0x8000 && i < token % 16; i++)
        at = pass(at);
    return at;
}

/* The term at a place of the tokens once more, here and there with a variable or another term in
 * place of a part, or with another symbol. The whole of it is no variable. Gives the place after it. */
static size_t make_like(size_t at, bool whole) {
    unsigned token = file.token[at], arity = token % 16, other = below(12);
    const char *name;
    if (!whole && (token < 0x8000 || other < 5)) {
        if (other == 0)
            make_term(1);
        else
            file.token[file.tokens++] = make_variable();
        return pass(at);
    }
    name = other == 11 ? "f" : file.symbol[(token - 0x8000) / 16 - 1];
    put("%s", first_way(name));
    add_head(name, arity);
    at++;
    for (unsigned i = 0; i < arity; i++) {
        put(i == 0 ? "(" : ", ");
        at = make_like(at, false);
    }
    put(arity > 0 ? ")" : "");
    return at;
}

/* The two sides of an equation: a variable on the left, on the right or on neither. */
static void make_sides(equation *e, unsigned kind) {
    e->first = file.tokens;
    if (kind == 0)
        file.token[file.tokens++] = make_variable();
    else
        make_compound(kind == 1 ? 1 : 2);
    e->left = file.tokens - e->first;
    put_blank();
    put(" = ");
    if (kind == 0)
        make_term(2);
    else if (kind == 1)
        file.token[file.tokens++] = make_variable();
    else
        make_like(e->first, true);
    e->right = file.tokens - e->first - e->left;
    file.compound = file.compound || kind == 2;
}

/* A random equation; `kinds` is 3 where it may have a variable on neither side. */
static void make_equation(unsigned kinds) {
    equation *e = &file.equation[file.equations++];
    size_t start, end;
    put_blank();
    start = file.len;
    make_sides(e, below(kinds));
    for (end = file.len; file.text[end - 1] == ' ' || file.text[end - 1] == '\t';)
        end--;
    memcpy(e->text, file.text + start, end - start);
    e->text[end - start] = '\0';
    put(below(2) ? "." : " . ");
    put_end();
}

/* A goal, with some variables or with none. */
static void make_goal(void) {
    goal *next = &file.goal[file.goals];
    snprintf(next->name, sizeof next->name, below(2) ? "g%u" : "dA_%u", file.goals++);
    next->set = 0;
    put("goal %s%s:", next->name, below(2) ? "" : " ");
    for (unsigned i = 0; i < file.lives; i++)
        if (below(2)) {
            put("%s%s", next->set == 0 || below(2) ? " " : ", ", file.name[file.live[i]]);
            next->set |= 1u << file.live[i];
        }
    put("%s", next->set == 0 ? "-" : "");
    put_end();
}

/* A good file. The first line stands after a byte order mark now and then. */
static void make_file(void) {
    unsigned lines = below(4), equations = below(EQUATIONS + 1), kinds = 2 + below(2);
    unsigned goals = below(2) ? 1 + below(GOALS) : 0, early = below(goals + 1);
    memset(&file, 0, sizeof file);
    file.line_end = below(5) == 0 ? "\r\n" : "\n";
    put("%s", below(5) == 0 ? "\xef\xbb\xbf" : "");
    make_vars();
    while (file.goals < early)
        make_goal();
    for (unsigned i = 0; i < lines; i++) {
        if (below(3) == 0)
            make_free();
        else
            make_entry();
    }
    for (unsigned i = 0; i < equations; i++)
        make_equation(kinds);
    while (file.goals < goals)
        make_goal();
    for (unsigned i = file.named; i < file.width; i++)
        add_entry(all_of(file.named), 1u << i);
}

/* ---- What must come of it */

/* Opens a file of the folder for writing. */
static FILE *open_result(const char *folder, unsigned number, const char *kind) {
    char path[1000];
    FILE *to;
    snprintf(path, sizeof path, "%s/%u.%s", folder, number, kind);
    to = fopen(path, "wb");
    if (to == NULL) {
        perror(path);
        exit(1);
    }
    return to;
}

/* A number of so many bytes, low byte first. */
static void put_number(FILE *to, unsigned bytes, size_t number) {
    for (unsigned i = 0; i < bytes; i++)
        fputc((int)(number >> 8 * i & 0xff), to);
}

/* A 16-bit number. */
static void put_word(FILE *to, size_t word) { put_number(to, 2, word); }

/* The side of an equation that is a variable alone, as `input` takes it: 0 left, 1 right. */
static size_t variable_side(const equation *e) { return file.token[e->first] >= 0x8000; }

/* The equations as `input` writes them, without the variables that are a side. */
static void write_equations(FILE *to) {
    put_word(to, file.tokens - file.equations);
    for (unsigned i = 0; i < file.equations; i++) {
        const equation *e = &file.equation[i];
        put_word(to, file.token[e->first + variable_side(e) * e->left]);
    }
    for (unsigned i = 0; i < file.equations; i++)
        put_word(to, file.equation[i].left + file.equation[i].right - 1);
    for (unsigned i = 0; i < file.equations; i++) {
        const equation *e = &file.equation[i];
        for (size_t k = 0; k < e->left + e->right; k++)
            if (k != variable_side(e) * e->left)
                put_word(to, file.token[e->first + k]);
    }
}

/* The same with both sides as terms. */
static void write_both_sides(FILE *to) {
    put_word(to, file.tokens);
    for (unsigned i = 0; i < file.equations; i++)
        put_word(to, file.equation[i].left);
    for (unsigned i = 0; i < file.equations; i++)
        put_word(to, file.equation[i].right);
    for (size_t i = 0; i < file.tokens; i++)
        put_word(to, file.token[i]);
}

/* The care word of an entry: it is 0 at each _, but for the entry of that _. */
static uint32_t care_of(unsigned entry) {
    return file.care[entry] | (all_of(file.width) & ~all_of(file.named));
}

/* What `input` writes of the file, or `input --unify`. */
static void write_words(FILE *to) {
    unsigned bytes = file.width > 16 ? 4 : 2;
    put_word(to, file.width);
    put_word(to, file.entries);
    for (unsigned i = 0; i < file.entries; i++)
        put_number(to, bytes, care_of(i));
    for (unsigned i = 0; i < file.entries; i++)
        put_number(to, bytes, file.value[i]);
    put_word(to, file.equations);
    if (file.compound)
        write_both_sides(to);
    else
        write_equations(to);
}

/* A set of groups; a group is a set of variables. */
typedef struct { unsigned count; uint32_t group[GROUPS]; } groups;

/* Adds a group, unless it is there or empty. Is it new? */
static bool add_group(groups *all, uint32_t group) {
    for (unsigned i = 0; i < all->count; i++)
        if (all->group[i] == group)
            return false;
    if (group == 0)
        return false;
    all->group[all->count++] = group;
    return true;
}

/* The groups of the entries: the ones of each with some of its stars. */
static groups start_groups(void) {
    groups all = {0, {0}};
    for (unsigned i = 0; i < file.entries; i++) {
        uint32_t stars = all_of(file.width) & ~care_of(i), some = stars;
        do {
            add_group(&all, file.value[i] | some);
            some = (some - 1) & stars;
        } while (some != stars);
    }
    return all;
}

/* One round of the closure: is there a further group that is the union of two? */
static bool close_once(groups *all) {
    bool more = false;
    for (unsigned i = 0; i < all->count; i++)
        for (unsigned j = 0; j < i; j++)
            more = add_group(all, all->group[i] | all->group[j]) || more;
    return more;
}

/* The groups after x = t, by the definition of Jacobs and Langen. */
static groups after_one(groups before, uint32_t left, uint32_t right) {
    groups joined = {0, {0}};
    for (unsigned i = 0; i < before.count; i++)
        for (unsigned j = 0; j < before.count; j++)
            if ((before.group[i] & left) != 0 && (before.group[j] & right) != 0)
                add_group(&joined, before.group[i] | before.group[j]);
    while (close_once(&joined)) {
    }
    for (unsigned i = 0; i < before.count; i++)
        if ((before.group[i] & (left | right)) == 0)
            add_group(&joined, before.group[i]);
    return joined;
}

/* The variables of the term at a place. */
static uint32_t variables_at(size_t at) {
    uint32_t set = 0;
    for (size_t end = pass(at); at < end; at++)
        set |= file.token[at] < 0x8000 ? 1u << (file.token[at] - 1) : 0;
    return set;
}

/* Why an equation fails: by two heads that clash or, without a clash, by the first variable that is
 * set equal to a term that has it deeper; 0 where there is none. */
typedef struct { unsigned left, right, variable; } failure;

/* Each equation that is found: the number of the one of the file, from 1, the variables of the groups
 * that it touches, and the groups before it. */
enum { STEPS = 1000 };
static struct { unsigned number; uint32_t touches; groups before; } trail[STEPS];
static unsigned steps, present;

/* The groups after a variable is set equal to the term at a place. One set equal to itself changes
 * nothing, and a term that has it deeper leaves no group. */
static void set_equal(unsigned variable, size_t term, groups *now, failure *found) {
    uint32_t left = 1u << (variable - 1), right = variables_at(term);
    if (file.token[term] == variable)
        return;
    trail[steps].number = present;
    trail[steps].touches = left | right;
    trail[steps++].before = *now;
    if ((left & right) == 0) {
        *now = after_one(*now, left, right);
        return;
    }
    now->count = 0;
    if (found->variable == 0)
        found->variable = variable;
}

/* The groups after the terms at two places are set equal, up to the first clash. */
static void unify(size_t left, size_t right, groups *now, failure *found) {
    unsigned s = file.token[left], t = file.token[right];
    if (s < 0x8000)
        set_equal(s, right, now, found);
    else if (t < 0x8000)
        set_equal(t, left, now, found);
    else if (s != t) {
        found->left = s;
        found->right = t;
    } else {
        left++, right++;
        for (unsigned i = 0; found->left == 0 && i < s % 16; i++) {
            unify(left, right, now, found);
            left = pass(left), right = pass(right);
        }
    }
}

/* The groups after an equation, and why it fails. */
static groups after_equation(groups before, const equation *e, failure *found) {
    groups none = {0, {0}};
    memset(found, 0, sizeof *found);
    unify(e->first, e->first + e->left, &before, found);
    return found->left != 0 ? none : before;
}

/* Is there a group that has a variable of each set? */
static bool meets(const groups *all, uint32_t first, uint32_t second) {
    for (unsigned i = 0; i < all->count; i++)
        if ((all->group[i] & first) != 0 && (all->group[i] & second) != 0)
            return true;
    return false;
}

/* What is said of the variables that are in no group at the start. */
static void write_absent(FILE *to, const groups *start) {
    unsigned absent = 0;
    for (unsigned i = 0; i < file.named; i++)
        if (!meets(start, 1u << i, 1u << i))
            fprintf(to, "%s%s", absent++ > 0 ? ", " : "", file.name[i]);
    if (absent > 0)
        fputs(absent == 1 ? " is in no group at the start: it counts as known"
                          : " are in no group at the start: they count as known", to);
}

/* Is a variable of the line vars in no group at the start? */
static bool has_absent(const groups *start) {
    for (unsigned i = 0; i < file.named; i++)
        if (!meets(start, 1u << i, 1u << i))
            return true;
    return false;
}

/* Where a point is. */
static void write_place(FILE *to, unsigned after) {
    if (after == 0)
        fputs("before the first equation", to);
    else
        fprintf(to, "after equation %u, %s", after, file.equation[after - 1].text);
}

/* A head as it is told; the empty list has no quotes there. */
static void write_head(FILE *to, unsigned head) {
    const char *name = file.symbol[(head - 0x8000) / 16 - 1];
    fputs(head % 16 == 0 && strcmp(name, "[]") == 0 ? name : first_way(name), to);
    if (strncmp(name, "number ", 7) != 0)
        fprintf(to, "/%u", head % 16);
}

/* In brackets what an answer rests on: the first equation that fails, by its number, and what is in
 * no group. */
static void write_notes(FILE *to, bool no, failure first, unsigned number, const groups *start) {
    const char *before = " (";
    if (no)
        fputs(" (they may share a variable", to);
    before = no ? "; " : before;
    if (number > 0) {
        fprintf(to, "%sequation %u ", before, number);
        if (first.left != 0) {
            fputs("clashes, ", to);
            write_head(to, first.left);
            fputs(" against ", to);
            write_head(to, first.right);
        } else
            fprintf(to, "has no finite solution for %s", file.name[first.variable - 1]);
        fputs(": no bindings go on from it", to);
        before = "; ";
    }
    if (has_absent(start))
        fputs(before, to);
    write_absent(to, start);
    fputs(no || number > 0 || has_absent(start) ? ")" : "", to);
}

/* A point of the file: how many equations are before it, its groups, and the first failure before
 * it. */
typedef struct { unsigned after, number; failure first; groups now; } point;

/* How many goals there are: where none is named each variable is one. */
static unsigned goal_count(void) { return file.goals > 0 ? file.goals : file.named; }

/* A variable as a goal, and goal i of the file. */
static goal variable_goal(unsigned i) {
    goal g;
    strcpy(g.name, file.name[i]);
    g.set = 1u << i;
    return g;
}
static goal goal_at(unsigned i) { return file.goals > 0 ? file.goal[i] : variable_goal(i); }

static void write_pair(FILE *to, const point *at, const groups *start, goal one, goal other) {
    bool no = meets(&at->now, one.set, other.set);
    fprintf(to, "%s and %s: may %srun side by side ", one.name, other.name, no ? "not " : "");
    write_place(to, at->after);
    write_notes(to, no, at->first, at->number, start);
    fputc('\n', to);
}

/* The row of a group: x for each of its variables. A greater row stands before a lesser one. */
static const char *row_of(uint32_t group) {
    static char row[2 * WIDE + 1];
    for (unsigned i = 0; i < file.width; i++)
        snprintf(row + 2 * i, 3, " %c", (group >> i & 1) != 0 ? 'x' : '.');
    return row;
}

/* The group of so many variables whose row is the greatest that is less than `last`; 0 is none. */
static uint32_t next_group(const groups *now, unsigned size, const char *last) {
    uint32_t best = 0;
    char row[2 * WIDE + 1] = "";
    for (unsigned k = 0; k < now->count; k++) {
        uint32_t g = now->group[k];
        unsigned variables = 0;
        for (unsigned i = 0; i < file.width; i++)
            variables += g >> i & 1;
        if (variables == size && strcmp(row_of(g), last) < 0 && strcmp(row_of(g), row) > 0) {
            best = g;
            strcpy(row, row_of(g));
        }
    }
    return best;
}

/* What `show` prints at a point: all its groups fit. */
static void write_show(FILE *to, const point *at, const groups *start) {
    unsigned count = at->now.count;
    fputs("Groups ", to);
    write_place(to, at->after);
    write_notes(to, false, at->first, at->number, start);
    fputs(": ", to);
    if (count == 0)
        fputs("none\n", to);
    else
        fprintf(to, "%u\n", count);
    for (unsigned i = 0; count > 0 && i < file.width; i++) {
        fputs("    ", to);
        for (unsigned j = 0; j < i; j++)
            fputs("| ", to);
        fprintf(to, "%s\n", i < file.named ? file.name[i] : "_");
    }
    for (unsigned size = 1; size <= file.width; size++) {
        char row[2 * WIDE + 1] = "~";
        for (uint32_t g; (g = next_group(&at->now, size, row)) != 0;)
            fprintf(to, "   %s\n", strcpy(row, row_of(g)));
    }
}

/* Goes on behind the next equation. */
static void step(point *at) {
    failure found;
    present = at->after + 1;
    at->now = after_equation(at->now, &file.equation[at->after++], &found);
    if ((found.left != 0 || found.variable != 0) && at->number == 0) {
        at->number = at->after;
        at->first = found;
    }
}

/* ---- Why two variables share */

/* The first group, in the order of `show`, that has both variables and none of a set; 0 is none. */
static uint32_t first_of_both(const groups *now, const unsigned pair[2], uint32_t without) {
    groups both = {0, {0}};
    for (unsigned k = 0; k < now->count; k++)
        if ((now->group[k] >> pair[0] & now->group[k] >> pair[1] & 1) != 0 &&
            (now->group[k] & without) == 0)
            add_group(&both, now->group[k]);
    for (unsigned size = 1; size <= file.width; size++)
        if (next_group(&both, size, "~") != 0)
            return next_group(&both, size, "~");
    return 0;
}

/* A line with a group, as `why` has it. */
static void write_group(FILE *to, uint32_t group) {
    const char *before = "  ";
    fputs("    ", to);
    for (unsigned i = 0; i < file.width; i++)
        fputc("01"[group >> i & 1], to);
    for (unsigned i = 0; i < file.width; i++)
        if ((group >> i & 1) != 0) {
            fprintf(to, "%s%s", before, i < file.named ? file.name[i] : "_");
            before = ", ";
        }
    fputc('\n', to);
}

/* Do two variables share in the groups before a step? The last step is followed by the last groups. */
static bool share_before(unsigned k, const point *at, const unsigned pair[2]) {
    return first_of_both(k < steps ? &trail[k].before : &at->now, pair, 0) != 0;
}

/* The beginning of what is told where they shared at the start and at every point since. */
static void write_always(FILE *to, const point *at, const groups *start, const unsigned pair[2]) {
    uint32_t touched = 0, group;
    unsigned k = steps;
    for (unsigned i = 0; i < steps; i++)
        touched |= trail[i].touches;
    group = first_of_both(start, pair, touched);
    if (group != 0) {
        fprintf(to, "They share from the start, by this group%s:\n",
                at->after > 0 ? ", which no equation has touched" : "");
        write_group(to, group);
        return;
    }
    group = first_of_both(&at->now, pair, 0);
    while ((trail[--k].touches & group) == 0) {
    }
    fprintf(to, "They shared from the start already, and share now by equation %u:\n",
            trail[k].number);
    write_group(to, group);
}

/* The beginning of what `why` says of two variables at the last point. They came to share by the last
 * equation before which they shared nothing, and in that by the last step that is so. */
static void write_why(FILE *to, const point *at, const groups *start, const unsigned pair[2]) {
    unsigned k = steps, number = 0;
    write_pair(to, at, start, variable_goal(pair[0]), variable_goal(pair[1]));
    if (!share_before(steps, at, pair)) {
        fputs("There is nothing to explain: no group has variables of both.\n", to);
        return;
    }
    for (unsigned i = 0; i < steps; i++)
        if ((i == 0 || trail[i].number != trail[i - 1].number) && !share_before(i, at, pair))
            number = trail[i].number;
    if (number == 0) {
        write_always(to, at, start, pair);
        return;
    }
    /* From the end back to its last step after which they share and before which they do not. */
    while (k == steps || trail[k].number > number || share_before(k, at, pair))
        k--;
    fprintf(to, "Equation %u made them share:\n", number);
    write_group(to, first_of_both(k + 1 < steps ? &trail[k + 1].before : &at->now, pair, 0));
}

/* ---- The audit of a table */

/* The first point at which a variable is ground; -1 where it is at none yet. */
static int first_ground[WIDE];

/* Notes which variables are ground at a point and were not before. */
static void note_ground(const groups *now, unsigned after) {
    for (unsigned i = 0; i < file.named; i++) {
        if (after == 0)
            first_ground[i] = -1;
        if (first_ground[i] < 0 && !meets(now, 1u << i, 1u << i))
            first_ground[i] = (int)after;
    }
}

/* A set of groups with room for some more. */
enum { MORE = 80 };
typedef struct { unsigned count; uint32_t group[MORE]; } more_groups;

/* Is a group there? */
static bool has_group(const more_groups *all, uint32_t group) {
    for (unsigned i = 0; i < all->count; i++)
        if (all->group[i] == group)
            return true;
    return false;
}

/* Adds a group, unless it is there or empty or there is no room. */
static void put_group_in(more_groups *all, uint32_t group) {
    if (group != 0 && all->count < MORE && !has_group(all, group))
        all->group[all->count++] = group;
}

/* Some groups lost, some added, or both; now and then all lost, or of few variables all there. */
static void damage(more_groups *held, unsigned width) {
    unsigned kind = below(8), times = 1 + below(2);
    if (kind == 0)
        held->count = 0;
    for (uint32_t g = 1; kind == 1 && width <= 6 && g <= all_of(width); g++)
        put_group_in(held, g);
    for (unsigned i = 0; (kind == 2 || kind == 4 || kind == 5) && i < times && held->count > 0; i++)
        held->group[below(held->count)] = held->group[held->count - 1], held->count--;
    for (unsigned i = 0; (kind == 3 || kind == 4) && i < times; i++)
        put_group_in(held, (below(65536) | (uint32_t)below(65536) << 16) & all_of(width));
}

/* A table as text, under the names of the variables or their number. */
static void write_text(FILE *to, const more_groups *held, unsigned width) {
    fprintf(to, "vars");
    if (width == file.named && below(2))
        for (unsigned i = 0; i < width; i++)
            fprintf(to, " %s", file.name[i]);
    else
        fprintf(to, " %u", width);
    for (unsigned k = 0; k < held->count; k++) {
        fputc('\n', to);
        for (unsigned i = 0; i < width; i++)
            fputc("01"[held->group[k] >> i & 1], to);
    }
    fputc('\n', to);
}

/* The same as a packed form: the digits of five positions in a byte. */
static void write_packed(FILE *to, const more_groups *held, unsigned width) {
    for (unsigned k = 0; k < held->count; k++)
        for (unsigned i = 0; i < width; i += 5) {
            unsigned byte = 0;
            for (unsigned j = i + 5; j-- > i;)
                byte = 3 * byte + (j < width ? held->group[k] >> j & 1 : 0);
            fputc((int)byte, to);
        }
}

/* The table of groups as a file: text, a form, or a packed form. Of 16 variables the two forms are
 * as long, and may both read. */
static void write_table_file(FILE *to, const more_groups *held, unsigned width) {
    unsigned bytes = width > 16 ? 4 : 2, kind = below(3);
    if (kind == 0) {
        write_text(to, held, width);
        return;
    }
    put_word(to, width);
    put_word(to, held->count);
    if (kind == 2 && width != 16) {
        write_packed(to, held, width);
        return;
    }
    for (unsigned k = 0; k < held->count; k++)
        put_number(to, bytes, all_of(width));
    for (unsigned k = 0; k < held->count; k++)
        put_number(to, bytes, held->group[k]);
}

/* The names of a set. */
static void write_names(FILE *to, uint32_t set) {
    const char *before = "";
    for (unsigned i = 0; i < file.width; i++)
        if ((set >> i & 1) != 0) {
            fprintf(to, "%s%s", before, i < file.named ? file.name[i] : "_");
            before = ", ";
        }
}

/* Why the groups after the last equation have one that has these of so many variables: the last
 * equation that touches the first such group, or the start. */
static void write_reason(FILE *to, const point *at, uint32_t group, unsigned width) {
    groups whole = {0, {0}};
    uint32_t first = 0;
    unsigned k = steps;
    for (unsigned i = 0; i < at->now.count; i++)
        if ((at->now.group[i] & all_of(width)) == group)
            add_group(&whole, at->now.group[i]);
    for (unsigned size = file.width; size > 0; size--)
        if (next_group(&whole, size, "~") != 0)
            first = next_group(&whole, size, "~");
    while (k > 0 && (trail[k - 1].touches & first) == 0)
        k--;
    if (k > 0)
        fprintf(to, "          Equation %u\n", trail[k - 1].number);
    else
        fputs("          It is there from the start\n", to);
}

/* How many groups one set has and another lacks. */
static unsigned lacks(const more_groups *all, const more_groups *other) {
    unsigned count = 0;
    for (unsigned i = 0; i < all->count; i++)
        count += !has_group(other, all->group[i]);
    return count;
}

/* These groups, 20 of them in the order of `show`, and how many more there are. With a point the
 * reason of each is told. */
static void write_lacked(FILE *to, const more_groups *all, const more_groups *other,
                         const char *way, const point *at, unsigned width) {
    groups lacked = {0, {0}};
    unsigned told = 0, count = lacks(all, other);
    for (unsigned i = 0; i < all->count && lacked.count < GROUPS; i++)
        if (!has_group(other, all->group[i]))
            add_group(&lacked, all->group[i]);
    for (unsigned size = 1; size <= file.width; size++) {
        char row[2 * WIDE + 1] = "~";
        for (uint32_t g; told < 20 && (g = next_group(&lacked, size, row)) != 0; told++) {
            strcpy(row, row_of(g));
            fprintf(to, "      %s: ", way);
            write_names(to, g);
            fputc('\n', to);
            if (at != NULL)
                write_reason(to, at, g, width);
        }
    }
    if (count > told)
        fprintf(to, "      and %u more %s\n", count - told, way);
}

/* Line 3. Is it BAD? */
static bool write_groups(FILE *to, const more_groups *held, const more_groups *due, const point *at,
                         unsigned width) {
    unsigned missing = lacks(due, held), surplus = lacks(held, due);
    if (missing + surplus > 0)
        fprintf(to, "3 BAD groups: %u missing, %u too many\n", missing, surplus);
    else if (due->count == 0)
        fputs("3 ok  groups: none, as the clause gives none\n", to);
    else
        fprintf(to, "3 ok  groups: the %u that the clause gives\n", due->count);
    write_lacked(to, due, held, "missing", at, width);
    write_lacked(to, held, due, "too many", NULL, width);
    return missing + surplus > 0;
}

/* Does a table meet two sets? */
static bool table_meets(const more_groups *all, uint32_t first, uint32_t second) {
    for (unsigned i = 0; i < all->count; i++)
        if ((all->group[i] & first) != 0 && (all->group[i] & second) != 0)
            return true;
    return false;
}

/* Line 4. Is it BAD? */
static bool write_ground(FILE *to, const more_groups *held) {
    uint32_t ground = 0;
    bool bad = false;
    for (unsigned i = 0; i < file.named; i++)
        if (!table_meets(held, 1u << i, 1u << i)) {
            ground |= 1u << i;
            bad = bad || first_ground[i] <= 0;
        }
    fprintf(to, "4 %s ground: %s", bad ? "BAD" : "ok ", ground == 0 ? "no variable" : "");
    write_names(to, ground);
    fputc('\n', to);
    for (unsigned i = 0; i < file.named; i++)
        if ((ground >> i & 1) != 0 && first_ground[i] > 0)
            fprintf(to, "      ok  %s: after equation %d\n", file.name[i], first_ground[i]);
        else if ((ground >> i & 1) != 0)
            fprintf(to, "      BAD %s: no equation made it so\n", file.name[i]);
    return bad;
}

/* Line 6. Is it BAD? `lines` is false for what is counted alone. */
static bool write_goals(FILE *to, const more_groups *held, const more_groups *due, bool lines) {
    bool bad = false;
    for (unsigned i = 0; i < goal_count(); i++)
        for (unsigned j = i + 1; j < goal_count(); j++) {
            goal one = goal_at(i), other = goal_at(j);
            bool yes = !table_meets(held, one.set, other.set);
            bool due_yes = !table_meets(due, one.set, other.set);
            bad = bad || (yes && !due_yes);
            if (!lines || (file.goals == 0 && yes == due_yes))
                continue;
            fprintf(to, "      %s %s and %s: %s side by side by %s\n",
                    yes && !due_yes ? "BAD" : "ok ", one.name, other.name,
                    yes ? "may run" : "may not run",
                    yes != due_yes ? (yes ? "the shipped table, but may not by the recomputed one"
                                          : "the shipped table, though they may by the other")
                    : yes ? "both tables" : "either table");
        }
    return bad;
}

/* A table to be shipped, of the named variables or of all, and what `audit` says of it but for what
 * only the library knows. */
static void write_audit(const char *folder, unsigned number, const point *at) {
    FILE *table = open_result(folder, number, "table"), *to = open_result(folder, number, "audit");
    unsigned width = below(2) ? file.width : file.named;
    more_groups due = {0, {0}}, held;
    bool bad;
    for (unsigned i = 0; i < at->now.count; i++)
        put_group_in(&due, at->now.group[i] & all_of(width));
    held = due;
    damage(&held, width);
    write_table_file(table, &held, width);
    bad = write_groups(to, &held, &due, at, width);
    bad = write_ground(to, &held) || bad;
    fprintf(to, "6 %s goals\n", write_goals(to, &held, &due, false) ? "BAD" : "ok ");
    bad = write_goals(to, &held, &due, true) || bad;
    fprintf(to, bad ? "Do not ship it\n" : "Ship it\n");
    fclose(table);
    fclose(to);
}

/* What `pairs` and `show` print at each point, and how `why` begins at the last. */
static void write_points(const char *folder, unsigned number) {
    groups start = start_groups();
    point at = {0, 0, {0, 0, 0}, start};
    FILE *shown = open_result(folder, number, "show"), *reasons;
    steps = 0;
    for (unsigned after = 0; after <= file.equations; after++) {
        char kind[20];
        FILE *to;
        snprintf(kind, sizeof kind, "after.%u", after);
        to = open_result(folder, number, kind);
        if (after > 0)
            step(&at);
        for (unsigned i = 0; i < goal_count(); i++)
            for (unsigned j = i + 1; j < goal_count(); j++)
                write_pair(to, &at, &start, goal_at(i), goal_at(j));
        note_ground(&at.now, after);
        write_show(shown, &at, &start);
        fclose(to);
    }
    fclose(shown);
    reasons = open_result(folder, number, "why");
    for (unsigned i = 0; i < file.lives; i++)
        for (unsigned j = 0; j < i; j++)
            write_why(reasons, &at, &start, (unsigned[]){file.live[i], file.live[j]});
    fclose(reasons);
    write_audit(folder, number, &at);
}

/* The file with one to three places changed. */
static void write_bad(FILE *to) {
    static const char signs[] = "X10*O_(),=.'[]|%# \t\n\r-+af\\\xff\x01";
    for (unsigned changes = 1 + below(3); changes > 0; changes--) {
        size_t at = below((unsigned)file.len), kind = below(3), rest = file.len - at;
        if (kind == 0)
            file.text[at] = signs[below(sizeof signs)];
        else if (kind == 1) {
            memmove(file.text + at + 1, file.text + at, rest);
            file.text[at] = signs[below(sizeof signs)];
            file.len++;
        } else {
            memmove(file.text + at, file.text + at + 1, rest - 1);
            file.len--;
        }
    }
    fwrite(file.text, 1, file.len, to);
}

/* All files. */
int main(int argc, char **argv) {
    unsigned count = argc == 4 ? (unsigned)atoi(argv[2]) : 0;
    state = argc == 4 ? (uint32_t)atoi(argv[3]) : 0;
    for (unsigned number = 0; number < count; number++) {
        FILE *good, *words, *bad;
        make_file();
        good = open_result(argv[1], number, "txt");
        words = open_result(argv[1], number, file.compound ? "unify" : "words");
        bad = open_result(argv[1], number, "bad");
        fwrite(file.text, 1, file.len, good);
        write_words(words);
        write_points(argv[1], number);
        write_bad(bad);
        fclose(good);
        fclose(words);
        fclose(bad);
    }
    return count > 0 ? 0 : 1;
}

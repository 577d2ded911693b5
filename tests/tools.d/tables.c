/*
 * Random pairs of tables for tests/tools, and what the audit must find of them by going through all
 * groups: no code of the tool or of the library is used. The tables have so many entries that a
 * change of side is full, and the audit has to take them in parts.
 *
 *     tables FOLDER COUNT SEED
 *
 * writes for each K from 0: K.txt a clause without equations; K.table the table that is to be
 * shipped; K.audit line 3 of the audit, without reasons.
 */
#include <stdbool.h>
#include <stdint.h>
#include <stdio.h>
#include <stdlib.h>

enum { MOST_WIDTH = 13, MOST_ENTRIES = 80, TOLD = 20 };

typedef struct { unsigned count; uint32_t care[MOST_ENTRIES], value[MOST_ENTRIES]; } table;

static uint32_t state;

/* A random number below `most`. */
static unsigned below(unsigned most) {
    state = state * 1664525u + 1013904223u;
    return (unsigned)((uint64_t)(state >> 8) * most >> 24);
}

/* Random entries, each with about half of its positions fixed. */
static void draw(table *out, unsigned width, unsigned count) {
    out->count = count;
    for (unsigned k = 0; k < count; k++) {
        out->care[k] = out->value[k] = 0;
        for (unsigned i = 0; i < width; i++)
            if (below(2)) {
                out->care[k] |= 1u << i;
                out->value[k] |= below(2) << i;
            }
    }
}

/* The other table: the same with one entry lost, or changed, or another one. */
static table damaged(const table *from, unsigned width) {
    table out = *from, other;
    unsigned kind = below(4), k = below(from->count);
    if (kind == 0)
        draw(&out, width, from->count);
    if (kind == 1)
        out.care[k] = out.care[out.count - 1], out.value[k] = out.value[--out.count];
    if (kind == 2) {
        draw(&other, width, 1);
        out.care[k] = other.care[0], out.value[k] = other.value[0];
    }
    return out;
}

/* Has a table a group? */
static bool has(const table *t, uint32_t group) {
    for (unsigned k = 0; k < t->count; k++)
        if ((group & t->care[k]) == t->value[k])
            return true;
    return false;
}

/* How many variables a group has. */
static unsigned size_of(uint32_t group) {
    return group == 0 ? 0 : 1 + size_of(group & (group - 1));
}

/* Fewer variables first; of as many, the one with the first variable that only one of them has. */
static int compare(const void *one, const void *other) {
    uint32_t a = *(const uint32_t *)one, b = *(const uint32_t *)other, only = a ^ b;
    if (size_of(a) != size_of(b))
        return size_of(a) < size_of(b) ? -1 : 1;
    return (only & (~only + 1) & a) != 0 ? -1 : 1;
}

/* The groups that one table has and the other lacks, in order; how many there are. */
static unsigned lacked(const table *t, const table *other, unsigned width, uint32_t *out) {
    unsigned count = 0;
    for (uint32_t group = 1; group < 1u << width; group++)
        if (has(t, group) && !has(other, group))
            out[count++] = group;
    qsort(out, count, sizeof *out, compare);
    return count;
}

/* The lines of these groups. */
static void write_lacked(FILE *to, const uint32_t *groups, unsigned count, const char *way) {
    for (unsigned k = 0; k < count && k < TOLD; k++) {
        const char *before = ": ";
        fprintf(to, "      %s", way);
        for (unsigned i = 0; i < MOST_WIDTH; i++)
            if ((groups[k] >> i & 1) != 0) {
                fprintf(to, "%sX%u", before, i + 1);
                before = ", ";
            }
        fputc('\n', to);
    }
    if (count > TOLD)
        fprintf(to, "      and %u more %s\n", count - TOLD, way);
}

/* A file of the folder. */
static FILE *open_result(const char *folder, unsigned number, const char *kind) {
    char path[1000];
    FILE *to;
    snprintf(path, sizeof path, "%s/%u.%s", folder, number, kind);
    to = fopen(path, "wb");
    if (to == NULL) {
        perror(path);
        exit(1);
    }
    return to;
}

/* A table as a readable file. */
static void write_table(FILE *to, const table *t, unsigned width) {
    fprintf(to, "vars %u\n", width);
    for (unsigned k = 0; k < t->count; k++) {
        for (unsigned i = 0; i < width; i++)
            fputc((t->care[k] >> i & 1) == 0 ? '*' : "01"[t->value[k] >> i & 1], to);
        fputc('\n', to);
    }
    fclose(to);
}

int main(int argc, char **argv) {
    static uint32_t missing[1 << MOST_WIDTH], surplus[1 << MOST_WIDTH];
    unsigned count = argc == 4 ? (unsigned)atoi(argv[2]) : 0;
    state = argc == 4 ? (uint32_t)atoi(argv[3]) : 0;
    for (unsigned number = 0; number < count; number++) {
        unsigned width = 10 + below(MOST_WIDTH - 9), lost, added;
        table due, held;
        FILE *to = open_result(argv[1], number, "audit");
        draw(&due, width, 20 + below(MOST_ENTRIES - 19));
        held = damaged(&due, width);
        lost = lacked(&due, &held, width, missing);
        added = lacked(&held, &due, width, surplus);
        if (lost + added > 0)
            fprintf(to, "3 BAD groups: %u missing, %u too many\n", lost, added);
        else
            fputs("3 ok  groups\n", to);
        write_lacked(to, missing, lost, "missing");
        write_lacked(to, surplus, added, "too many");
        fclose(to);
        write_table(open_result(argv[1], number, "txt"), &due, width);
        write_table(open_result(argv[1], number, "table"), &held, width);
    }
    return count > 0 ? 0 : 1;
}

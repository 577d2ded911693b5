/* Parts of a text, and messages that show where in a text something is wrong. */
#ifndef SHARETEXT_TEXT_H
#define SHARETEXT_TEXT_H

#include <stdbool.h>
#include <stddef.h>
#include <stdint.h>
#include <stdio.h>

enum { END = -1 };

/* What is not yet read of a text. */
typedef struct {
    const uint8_t *at, *end;
} cursor;

/* A part of a text, which belongs to somebody else. */
typedef struct {
    const uint8_t *at;
    size_t len;
} piece;

/* The line that a message is about. Line 0 is an argument of the command line. */
typedef struct {
    const char *name;
    unsigned long line;
    piece text;
} place;

bool is_blank(int c);
bool is_digit(int c);
bool is_small(int c);
bool is_capital(int c);
bool is_in_name(int c);
bool is_in_operator(int c);
bool starts_variable(int c);

int peek(const cursor *c);
int peek_second(const cursor *c);
bool is_encoded_otherwise(cursor c);
bool take(cursor *c, int due);
bool take_text(cursor *c, const char *due);
uint32_t take_number(cursor *c, uint32_t most);
piece take_name(cursor *c);
void skip(cursor *c);

size_t character_length(cursor c);
piece character_here(cursor c);
piece piece_here(cursor c);
piece from_text(const char *text);
piece between(const uint8_t *start, const uint8_t *end);
bool same_piece(piece one, piece other);
void put_piece(FILE *to, piece p);

void tell_place(const place *where, piece wrong);
void show_line(const place *where, piece wrong);
void tell(const place *where, piece wrong, const char *what, ...);
void tell_piece(const place *where, piece wrong, const char *what, ...);
void tell_cannot(const place *where, piece wrong);
void expected(const char *what, ...);

#endif

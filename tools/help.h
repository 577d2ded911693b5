/* What sharetext says of itself. */
#ifndef SHARETEXT_HELP_H
#define SHARETEXT_HELP_H

#include <stdbool.h>
#include <stdio.h>

void print_usage(FILE *to);
void print_help(void);
bool print_version(void);

#endif

/* The audit of a table before it is shipped. */
#ifndef SHARETEXT_AUDIT_H
#define SHARETEXT_AUDIT_H

#include "shipped.h"

/* What an audit is asked for: of which table, or NULL for the recomputed one; whether its bytes are
 * those of a packed form; and where to write the recomputed table, or NULL, and as what. */
typedef struct {
    const char *table;
    bool packed;
    const char *write;
    table_kind written;
} audit_wish;

int audit(const rules *given, size_t after, const audit_wish *wish);

#endif

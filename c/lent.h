/* Memory to lend to a call. Each table stands in pages of its own, between two pages without access. */
#ifndef LENT_H
#define LENT_H

#include "calls.h"

/* No table is longer, in bytes. */
#define LENT_MOST 8192

/* Where a table stands: it ends where a page without access begins, or begins where one ends. */
enum { AT_THE_END, AT_THE_START };

/* Makes the pages; 0 where there is no memory. */
int lent_open(void);

/* Lends a table of some length, full of junk. */
void lend(given *g, int part, size_t len, int side);

/* Lends no table: a null pointer of length 0. */
void lend_null(given *g, int part);

/* Makes a call, and says in `fault` what is wrong with the form of its answer or with the lent memory afterwards, or null. */
told ask(const call *c, const given *g, const char **fault);

/* Runs something, and answers the number of the signal that it ended in, or 0. */
int guarded(void (*run)(void));

#endif

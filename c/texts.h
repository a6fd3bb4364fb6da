/* Flags, removals and answers as short texts, for tables of tests.
 *
 * Flags: "kind@base/owner epoch:count ..", as "1@5 7:10 9:5" or "2@5/A". A removal: "none", "basic 4", or "rows owner/epoch:bytes ..".
 * An owner is a letter: 0 for 32 zeros, z for the bytes 1 to 32, any other for 32 times itself, but a, which is A with the last byte one
 * higher. Bytes are hex digits. A repair: its bytes, then each line behind a comma, as "000005, 0 kind changed, 3 tail cut". A table of
 * totals: "totals owner/epoch:total ..". */
#ifndef TEXTS_H
#define TEXTS_H

#include "lent.h"

/* Lends what a text says: bytes, flags with their two tables, a removal with its three, or a table of totals, as three slices and as structs.
 * There are `more` places behind it. */
void give_bytes(given *g, int part, const char *hex, int side);
void give_flags(given *g, petasunok_head *head, int epochs, const char *text, size_t more, int side);
void give_removal(given *g, petasunok_removal *removal, int ids, const char *text, size_t more, int side);
void give_totals(given *g, const char *text, size_t more, int side);

/* The 32 bytes of a letter. */
void owner_of(char letter, uint8_t *owner);

/* The answer of a call as a text, which stands until the next call. */
const char *text_of(const call *c, const given *g, const told *answer);

#endif

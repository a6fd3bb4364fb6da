/* Flags, removals and answers as short texts. */
#include "texts.h"
#include <stdarg.h>
#include <stdio.h>
#include <stdlib.h>
#include <string.h>

#define MOST 16

/* ---- from a text */

void owner_of(char letter, uint8_t *owner) {
    int i;
    for (i = 0; i < 32; i++) owner[i] = (uint8_t)(letter == '0' ? 0 : letter == 'z' ? i + 1 : letter == 'a' ? 'A' : letter);
    if (letter == 'a') owner[31]++;
}

/* The value of a hex digit. */
static int digit(char c) {
    return c <= '9' ? c - '0' : (c | 32) - 'a' + 10;
}

void give_bytes(given *g, int part, const char *hex, int side) {
    size_t i, len = strlen(hex) / 2;
    lend(g, part, len, side);
    for (i = 0; i < len; i++) ((uint8_t *)g->parts[part].at)[i] = (uint8_t)(digit(hex[2 * i]) * 16 + digit(hex[2 * i + 1]));
    if (len == 0 && side == AT_THE_START) lend_null(g, part);
}

/* Lends a table with values at its start; one without places is a null pointer at the one side, and no null pointer at the other. */
static void give_table(given *g, int part, const void *values, size_t len, size_t more, int side) {
    lend(g, part, len + more, side);
    if (len > 0) memcpy(g->parts[part].at, values, len * widths[part]);
    if (len + more == 0 && side == AT_THE_START) lend_null(g, part);
}

void give_flags(given *g, petasunok_head *head, int epochs, const char *text, size_t more, int side) {
    uint16_t at[MOST];
    uint32_t counts[MOST];
    char *rest;
    memset(head, 0, sizeof *head);
    head->kind = (uint8_t)strtoul(text, &rest, 10);
    head->base = (uint16_t)strtoul(rest + 1, &rest, 10);
    if (*rest == '/') {
        owner_of(rest[1], head->owner);
        rest += 2;
    }
    while (*rest == ' ') {
        at[head->records] = (uint16_t)strtoul(rest + 1, &rest, 10);
        counts[head->records++] = (uint32_t)strtoul(rest + 1, &rest, 10);
    }
    give_table(g, epochs, at, head->records, more, side);
    give_table(g, epochs + 1, counts, head->records, more, side);
}

/* Rows of an owner, an epoch and a number. */
typedef struct {
    uint8_t owners[MOST][32];
    uint16_t epochs[MOST];
    uint64_t numbers[MOST];
    size_t len;
} rows;

static rows rows_of(const char *text) {
    rows r = {.len = 0};
    char *rest = (char *)text;
    for (; *rest == ' '; r.len++) {
        owner_of(rest[1], r.owners[r.len]);
        r.epochs[r.len] = (uint16_t)strtoul(rest + 3, &rest, 10);
        r.numbers[r.len] = strtoull(rest + 1, &rest, 10);
    }
    return r;
}

/* Lends the owners and epochs of rows. */
static void give_pairs(given *g, int owners, const rows *r, size_t more, int side) {
    give_table(g, owners, r->owners, r->len, more, side);
    give_table(g, owners + 1, r->epochs, r->len, more, side);
}

/* Lends rows as structs. */
static void give_structs(given *g, const rows *r, size_t more, int side) {
    petasunok_total structs[MOST];
    size_t i;
    memset(structs, 0, sizeof structs);
    for (i = 0; i < r->len; i++) {
        memcpy(structs[i].owner, r->owners[i], 32);
        structs[i].epoch = r->epochs[i];
        structs[i].total = r->numbers[i];
    }
    give_table(g, TOTAL_STRUCTS, structs, r->len, more, side);
}

void give_totals(given *g, const char *text, size_t more, int side) {
    rows r = rows_of(text + strlen("totals"));
    g->rows = r.len;
    give_pairs(g, TOTAL_OWNERS, &r, more, side);
    give_table(g, TOTALS, r.numbers, r.len, more, side);
    give_structs(g, &r, more, side);
}

void give_removal(given *g, petasunok_removal *removal, int ids, const char *text, size_t more, int side) {
    rows r = {.len = 0};
    uint32_t bytes[MOST];
    size_t i;
    memset(removal, 0, sizeof *removal);
    if (strncmp(text, "basic ", 6) == 0) {
        removal->kind = PETASUNOK_BASIC_REMOVAL;
        removal->bytes = (uint32_t)strtoul(text + 6, NULL, 10);
    } else if (strncmp(text, "rows", 4) == 0) {
        removal->kind = PETASUNOK_SECTIONED_REMOVAL;
        r = rows_of(text + 4);
        removal->rows = r.len;
    }
    for (i = 0; i < r.len; i++) bytes[i] = (uint32_t)r.numbers[i];
    give_pairs(g, ids, &r, more, side);
    give_table(g, ids + 2, bytes, r.len, more, side);
}

/* ---- to a text */

static char text[2048];
static size_t used;

/* Puts more at the end of the text. */
static void put(const char *form, ...) {
    va_list values;
    va_start(values, form);
    used += (size_t)vsnprintf(text + used, sizeof text - used, form, values);
    va_end(values);
    if (used >= sizeof text) used = sizeof text - 1;
}

/* The letter of an owner, or ? where it has none. */
static char letter_of(const uint8_t *owner) {
    static const char letters[] = "0zaABCDEFGHIJKLMNOPQRSTUVWXYZ";
    uint8_t bytes[32];
    const char *letter;
    for (letter = letters; *letter != 0; letter++) {
        owner_of(*letter, bytes);
        if (memcmp(bytes, owner, 32) == 0) return *letter;
    }
    return '?';
}

static void put_head(const petasunok_head *head) {
    char owner = letter_of(head->owner);
    put("%u@%u", head->kind, head->base);
    if (head->kind >= 2 || owner != '0') put("/%c", owner);
}

static void put_flags(const given *g, const told *answer) {
    const uint16_t *epochs = g->parts[EPOCHS].at;
    const uint32_t *counts = g->parts[COUNTS].at;
    size_t i;
    put_head(&answer->head);
    for (i = 0; i < answer->head.records; i++) put(" %u:%u", epochs[i], counts[i]);
}

static void put_removal(const given *g, const petasunok_removal *removal, int ids) {
    uint8_t(*owners)[32] = g->parts[ids].at;
    const uint16_t *epochs = g->parts[ids + 1].at;
    const uint32_t *bytes = g->parts[ids + 2].at;
    size_t i;
    put(removal->kind == 0 ? "none" : removal->kind == 1 ? "basic" : "rows");
    if (removal->bytes != 0 || removal->kind == 1) put(" %u", removal->bytes);
    for (i = 0; i < removal->rows; i++) put(" %c/%u:%u", letter_of(owners[i]), epochs[i], bytes[i]);
}

static void put_bytes(const given *g, const told *answer) {
    const uint8_t *out = g->parts[OUT].at;
    size_t i;
    for (i = 0; i < answer->count; i++) put("%02X", out[i]);
}

/* A number; of writing flags the bytes instead. */
static void put_number(const call *c, const given *g, const told *answer) {
    if (c == &calls[SERIALIZE]) put_bytes(g, answer);
    else put("%llu", (unsigned long long)answer->count);
}

/* The bytes of a repair, and its lines. */
static void put_repaired(const given *g, const told *answer) {
    static const char *const words[] = {
        [PETASUNOK_RE_ENCODED] = "re-encoded", [PETASUNOK_TOO_LARGE] = "too large", [PETASUNOK_NOT_ABOVE_BASE] = "not above base",
        [PETASUNOK_REPLACED] = "replaced", [PETASUNOK_TAIL_CUT] = "tail cut", [PETASUNOK_MOVED] = "moved",
        [PETASUNOK_KIND_CHANGED] = "kind changed",
    };
    const size_t *offsets = g->parts[OFFSETS].at;
    const uint8_t *changes = g->parts[CHANGES].at;
    size_t i;
    put_bytes(g, answer);
    for (i = 0; i < answer->lines; i++) {
        int known = changes[i] >= PETASUNOK_RE_ENCODED && changes[i] <= PETASUNOK_KIND_CHANGED;
        put(", %zu %s", offsets[i], known ? words[changes[i]] : "?");
    }
}

/* The rows of a table of totals, from its three slices or its structs. */
static void put_totals(const call *c, const given *g, const told *answer) {
    uint8_t(*owners)[32] = g->parts[TOTAL_OWNERS].at;
    const uint16_t *epochs = g->parts[TOTAL_EPOCHS].at;
    const uint64_t *totals = g->parts[TOTALS].at;
    const petasunok_total *structs = c->parts & BIT(TOTAL_STRUCTS) ? g->parts[TOTAL_STRUCTS].at : NULL;
    size_t i;
    put("totals");
    for (i = 0; i < answer->count; i++) {
        const uint8_t *owner = structs ? structs[i].owner : owners[i];
        put(" %c/%u:%llu", letter_of(owner), structs ? structs[i].epoch : epochs[i], (unsigned long long)(structs ? structs[i].total : totals[i]));
    }
}

const char *text_of(const call *c, const given *g, const told *answer) {
    used = 0;
    text[0] = 0;
    if (answer->refusal != 0) put("refused %u", answer->refusal);
    else if (c->answer == NUMBER) put_number(c, g, answer);
    else if (c->answer == WHOSE) put("whose %u", answer->which);
    else if (c->answer == SUM || c->answer == SPLIT) {
        put_removal(g, &answer->removal, LEFT_IDS);
        if (c->answer == SPLIT) put(", visited %zu", answer->visited);
    }
    else if (c->answer == REPAIRED) put_repaired(g, answer);
    else if (c->answer == TABLE) put_totals(c, g, answer);
    else if (!answer->present) put("none");
    else if (c->answer == FLAGS) put_flags(g, answer);
    else if (c->answer == MAYBE_OWNER) put("owner %c", letter_of(answer->id.bytes));
    else {
        put_head(&answer->head);
        put(" records %zu", answer->head.records);
    }
    return text;
}

/* Random inputs for the fuzzer, mostly proper ones, and a store of earlier answers that become inputs. */
#include "fuzz.h"
#include <string.h>

#define STORED 16
#define MOST 40 /* records or rows of a stored answer */

typedef struct {
    petasunok_head head;
    uint16_t epochs[MOST];
    uint32_t counts[MOST];
} held_flags;

typedef struct {
    petasunok_removal removal;
    uint8_t ids[MOST][32];
    uint16_t epochs[MOST];
    uint32_t bytes[MOST];
    held_flags of; /* the flags that it was split from, or random ones */
} held_removal;

typedef struct {
    uint8_t bytes[512];
    size_t len;
} held_bytes;

typedef struct {
    uint8_t owners[MOST][32];
    uint16_t epochs[MOST];
    uint64_t totals[MOST];
    size_t rows;
} held_totals;

static held_flags flags[STORED];
static held_removal removals[STORED];
static held_bytes encodings[STORED];
static held_totals tables[STORED];

/* ---- random numbers */

static uint64_t state;

void seed_random(uint64_t seed) {
    state = seed;
}

/* The generator splitmix64. */
uint64_t any(void) {
    uint64_t z = state += 0x9E3779B97F4A7C15u;
    z = (z ^ z >> 30) * 0xBF58476D1CE4E5B9u;
    z = (z ^ z >> 27) * 0x94D049BB133111EBu;
    return z ^ z >> 31;
}

size_t below(size_t n) {
    return (size_t)(any() % n);
}

int once_in(unsigned n) {
    return below(n) == 0;
}

/* A number of bytes; the limits of the rules and of varints come often. */
static uint32_t some_count(void) {
    static const uint32_t limits[] = {0, 1, 2, 3, 4, 5, 7, 127, 128, 16383, 16384, 2097151, 2097152, 268435455, 268435456,
                                      2147483648u, 4294967291u, 4294967292u, 4294967293u, 4294967294u, 4294967295u};
    if (once_in(2)) return (uint32_t)below(600);
    return once_in(4) ? (uint32_t)any() : limits[below(sizeof limits / sizeof *limits)];
}

static uint16_t some_epoch(void) {
    return (uint16_t)(once_in(8) ? 65535 - below(3) : once_in(8) ? any() : below(12));
}

/* One of a few owners, so that they often meet. Their order is that of their numbers. */
static void some_owner(uint8_t *owner, size_t number) {
    static const uint8_t fill[] = {0, 0, 65, 65, 200};
    memset(owner, fill[number], 32);
    if (number == 1 || number == 3) owner[31]++;
}
#define OWNERS 5

static uint8_t some_byte(unsigned proper) {
    return (uint8_t)(once_in(32) ? any() : below(proper));
}

/* ---- random flags, removals and bytes */

static void random_flags(held_flags *f) {
    size_t n = below(once_in(4) ? 20 : 4), epoch;
    memset(f, 0, sizeof *f);
    f->head.kind = (uint8_t)below(4);
    f->head.base = some_epoch();
    if (f->head.kind >= 2) some_owner(f->head.owner, below(OWNERS));
    else if (once_in(4)) memset(f->head.owner, 9, 32); /* not to be read */
    epoch = f->head.base;
    while ((f->head.kind & 1) && f->head.records <= n) {
        epoch += 1 + (once_in(8) ? below(5000) : below(3));
        if (epoch > 65535) break;
        f->epochs[f->head.records] = (uint16_t)epoch;
        f->counts[f->head.records++] = some_count();
    }
    if (f->head.records == 0) f->head.kind &= 2;
}

static void random_removal(held_removal *r) {
    size_t owner = 0, epoch = below(6), n = below(8);
    memset(r, 0, sizeof *r);
    random_flags(&r->of);
    r->removal.kind = (uint8_t)(once_in(3) ? below(2) : 2);
    if (r->removal.kind == 1) r->removal.bytes = some_count();
    while (r->removal.kind == 2 && r->removal.rows < n) {
        size_t step = once_in(3) ? 1 + below(2) : 0;
        epoch = step > 0 ? below(6) : epoch + 1 + below(3);
        owner += step;
        if (owner >= OWNERS || epoch > 65535) break;
        some_owner(r->ids[r->removal.rows], owner);
        r->epochs[r->removal.rows] = (uint16_t)(once_in(16) ? 65535 : epoch);
        r->bytes[r->removal.rows++] = some_count();
        if (r->epochs[r->removal.rows - 1] == 65535) epoch = 65535;
    }
}

/* A total, often one that a count brings to 0 or past 64 bits. */
static uint64_t some_total(void) {
    uint64_t total = once_in(4) ? UINT64_MAX - some_count() : once_in(8) ? any() : some_count();
    return total == 0 ? 1 : total;
}

/* A table of totals that need not come from elements. */
static void random_totals(held_totals *t) {
    held_removal r;
    size_t i;
    random_removal(&r);
    t->rows = r.removal.rows;
    memcpy(t->owners, r.ids, sizeof t->owners);
    memcpy(t->epochs, r.epochs, sizeof t->epochs);
    for (i = 0; i < t->rows; i++) t->totals[i] = some_total();
}

/* A count around what a total has, or around what it can still take. */
static uint32_t count_for_total(uint64_t total) {
    uint64_t count = once_in(3) ? UINT64_MAX - total : total;
    if (once_in(3)) count += below(3) - 1;
    return count > UINT32_MAX || once_in(8) ? some_count() : (uint32_t)count;
}

/* Flags whose records name rows of a table from some row on, and epochs between them; where that cannot be, any flags. */
static void flags_of_rows(held_flags *f, const held_totals *t) {
    size_t i = t->rows > 0 ? below(t->rows) : 0;
    const uint8_t *owner = t->owners[i];
    random_flags(f);
    if (t->rows == 0 || t->epochs[i] == 0) return;
    f->head.kind = owner[31] == 0 && !once_in(4) ? 1 : 3;
    f->head.base = (uint16_t)(t->epochs[i] - 1);
    f->head.records = 0;
    memcpy(f->head.owner, owner, 32);
    for (; i < t->rows && memcmp(t->owners[i], owner, 32) == 0 && (f->head.records == 0 || !once_in(3)); i++) {
        if (f->head.records > 0 && once_in(8)) continue;
        f->epochs[f->head.records] = t->epochs[i];
        f->counts[f->head.records++] = count_for_total(t->totals[i]);
        if (f->head.records == MOST || t->epochs[i] == 65535 || !once_in(6)) continue;
        if (i + 1 < t->rows && memcmp(t->owners[i + 1], owner, 32) == 0 && t->epochs[i + 1] == t->epochs[i] + 1) continue;
        f->epochs[f->head.records] = (uint16_t)(t->epochs[i] + 1);
        f->counts[f->head.records++] = some_count();
    }
}

/* A byte, a bit, the end, or a piece in the middle is changed. */
static void damage(held_bytes *b) {
    static const uint8_t odd[] = {0, 1, 4, 127, 128, 129, 255};
    size_t at = b->len > 0 ? below(b->len) : 0;
    switch (below(5)) {
    case 0: b->len = at; break;
    case 1: b->bytes[at] ^= (uint8_t)BIT(below(8)); break;
    case 2: b->bytes[at] = odd[below(sizeof odd)]; break;
    case 3:
        if (b->len < sizeof b->bytes) b->bytes[b->len++] = odd[below(sizeof odd)];
        break;
    default:
        if (b->len + 3 > sizeof b->bytes) break;
        memmove(b->bytes + at + 3, b->bytes + at, b->len - at);
        b->len += 3;
    }
}

/* Flags as bytes, by the library. */
static void encode(held_bytes *b, const held_flags *f) {
    petasunok_count n = petasunok_serialize(f->head, f->epochs, MOST, f->counts, MOST, b->bytes, sizeof b->bytes);
    b->len = n.refusal != 0 ? 0 : (size_t)n.count;
}

void open_store(void) {
    int i;
    for (i = 0; i < STORED; i++) {
        random_flags(&flags[i]);
        random_removal(&removals[i]);
        encode(&encodings[i], &flags[i]);
        random_totals(&tables[i]);
    }
}

/* ---- lending them */

/* Lends a table with values at its start, at either side of its pages; one without places may be a null pointer. */
static void give(given *g, int part, const void *values, size_t have, size_t len) {
    lend(g, part, len, once_in(2) ? AT_THE_END : AT_THE_START);
    if (have > len) have = len;
    if (have > 0) memcpy(g->parts[part].at, values, have * widths[part]);
    if (len == 0 && once_in(2)) lend_null(g, part);
}

/* A length for a table that has to hold some places: mostly just so long, or a little longer, rarely too short. */
static size_t length_for(size_t have) {
    if (once_in(40)) return below(have + 1);
    return have + (once_in(3) ? below(4) : 0);
}

/* A count of places, rarely one that no table has. */
static size_t count_for(size_t have) {
    static const size_t wrong[] = {SIZE_MAX, SIZE_MAX / 2 + 1, 65536, (size_t)1 << 32, (size_t)1 << 63, SIZE_MAX / 32 + 1};
    if (!once_in(50)) return have;
    return once_in(2) ? have + 1 + below(2) : wrong[below(6)];
}

static void give_flags(given *g, petasunok_head *head, int epochs, const held_flags *f) {
    held_flags changed = *f;
    if (once_in(24) && f->head.records > 0) changed.epochs[below(f->head.records)] = some_epoch();
    if (once_in(50)) changed.head.kind = (uint8_t)(once_in(2) ? below(4) : any());
    *head = changed.head;
    head->records = count_for(f->head.records);
    give(g, epochs, changed.epochs, f->head.records, length_for(f->head.records));
    give(g, epochs + 1, changed.counts, f->head.records, length_for(f->head.records));
}

/* Lends a removal; its tables have `more` places behind its rows. */
static void give_removal(given *g, petasunok_removal *removal, int ids, const held_removal *r, size_t more) {
    held_removal changed = *r;
    size_t rows = r->removal.rows;
    if (once_in(24) && rows > 0) changed.epochs[below(rows)] = some_epoch();
    if (once_in(24) && rows > 0) changed.bytes[below(rows)] = some_count();
    if (once_in(24) && rows > 0) some_owner(changed.ids[below(rows)], below(OWNERS));
    if (once_in(50)) changed.removal.kind = (uint8_t)(once_in(2) ? below(3) : any());
    *removal = changed.removal;
    removal->rows = count_for(rows);
    if (removal->kind != 2 && once_in(4)) removal->rows = (size_t)any(); /* not to be read */
    if (removal->kind != 1 && once_in(4)) removal->bytes = (uint32_t)any();
    give(g, ids, changed.ids, rows, length_for(rows) + more);
    give(g, ids + 1, changed.epochs, rows, length_for(rows) + more);
    give(g, ids + 2, changed.bytes, rows, length_for(rows) + more);
}

/* Lends a table of totals, with `more` places behind its rows. */
static void give_totals(given *g, const held_totals *t, size_t more) {
    held_totals changed = *t;
    size_t rows = t->rows;
    if (once_in(24) && rows > 0) changed.epochs[below(rows)] = some_epoch();
    if (once_in(24) && rows > 0) changed.totals[below(rows)] = once_in(2) ? 0 : some_total();
    if (once_in(24) && rows > 0) some_owner(changed.owners[below(rows)], below(OWNERS));
    g->rows = count_for(rows);
    give(g, TOTAL_OWNERS, changed.owners, rows, length_for(rows) + more);
    give(g, TOTAL_EPOCHS, changed.epochs, rows, length_for(rows) + more);
    give(g, TOTALS, changed.totals, rows, length_for(rows) + more);
}

/* Lends the table of totals that was lent as structs too, as long as the shortest of its slices, which are cut to that length. */
static void give_structs(given *g) {
    static petasunok_total structs[LENT_MOST / sizeof(petasunok_total)];
    size_t len = g->parts[TOTALS].len, i;
    for (i = TOTAL_OWNERS; i < TOTALS; i++)
        if (g->parts[i].len < len) len = g->parts[i].len;
    for (i = TOTAL_OWNERS; i <= TOTALS; i++) g->parts[i].len = len;
    for (i = 0; i < len; i++) {
        memcpy(structs[i].owner, (uint8_t *)g->parts[TOTAL_OWNERS].at + 32 * i, 32);
        structs[i].epoch = ((uint16_t *)g->parts[TOTAL_EPOCHS].at)[i];
        structs[i].total = ((uint64_t *)g->parts[TOTALS].at)[i];
    }
    give(g, TOTAL_STRUCTS, structs, len, len);
}

/* Incoming flags that go with ours: mostly at an epoch of ours or behind the base, and of the same owner. */
static void incoming(held_flags *theirs, const held_flags *ours) {
    random_flags(theirs);
    if (once_in(4)) return;
    if (!once_in(4)) {
        theirs->head.kind &= 2;
        theirs->head.records = 0;
        theirs->head.base = (uint16_t)(ours->head.base + below(5));
        if (ours->head.records > 0 && once_in(2)) theirs->head.base = ours->epochs[below(ours->head.records)];
    }
    if (!once_in(4)) memcpy(theirs->head.owner, ours->head.owner, 32);
}

/* Bytes of many records, which rise by one and count little. */
static void give_long_bytes(given *g) {
    static uint8_t bytes[LENT_MOST];
    size_t n = 1 + below(2000), i;
    bytes[0] = 1;
    bytes[1] = bytes[2] = 0;
    for (i = 0; i < n; i++) {
        bytes[3 + 3 * i] = (uint8_t)((i + 1) >> 8);
        bytes[4 + 3 * i] = (uint8_t)(i + 1);
        bytes[5 + 3 * i] = (uint8_t)(any() & 127);
    }
    give(g, BYTES, bytes, 3 + 3 * n, 3 + 3 * n - (once_in(4) ? 1 : 0));
}

static void give_bytes(given *g, int part, int which) {
    held_bytes b = encodings[below(STORED)];
    int tries, i;
    /* a reader by kind mostly gets bytes of its kind */
    for (tries = 0; tries < 6 && which > DESERIALIZE && b.len > 0 && b.bytes[0] != which - READ_SINGLE; tries++)
        b = encodings[below(STORED)];
    if (once_in(8)) {
        held_flags f;
        random_flags(&f);
        encode(&b, &f);
    }
    if (once_in(16))
        for (b.len = below(48), i = 0; i < 48; i++) b.bytes[i] = (uint8_t)any();
    while (once_in(4)) damage(&b);
    if (once_in(40)) b.len = 0;
    give(g, part, b.bytes, b.len, b.len);
}

/* Puts a record at the end of some bytes: an epoch around the base, and a count that may be longer than minimal or too large. */
static void put_record(held_bytes *b, uint16_t base) {
    uint64_t count = once_in(6) ? any() >> below(64) : some_count();
    size_t groups = 1, i;
    uint16_t epoch = once_in(4) ? some_epoch() : (uint16_t)(base - 1 + below(12));
    while (groups < 10 && count >> 7 * groups != 0) groups++;
    if (once_in(3)) groups += below(12 - groups); /* an eleventh byte rarely */
    if (b->len + 2 + groups > sizeof b->bytes) return;
    b->bytes[b->len++] = (uint8_t)(epoch >> 8);
    b->bytes[b->len++] = (uint8_t)epoch;
    for (i = 0; i < groups; i++) b->bytes[b->len++] = (uint8_t)((i < 10 ? count >> 7 * i & 127 : 0) | (i + 1 < groups ? 128 : 0));
}

/* Old bytes for a repair: a head, and records in any order, some of them for one epoch. */
static void give_old_bytes(given *g) {
    held_flags f;
    held_bytes b;
    size_t n = below(once_in(4) ? 40 : 6);
    random_flags(&f);
    f.head.kind &= 2;
    f.head.records = 0;
    encode(&b, &f);
    if (!once_in(8)) b.bytes[0] |= 1;
    while (n-- > 0) put_record(&b, f.head.base);
    if (once_in(4)) damage(&b);
    give(g, BYTES, b.bytes, b.len, b.len);
}

/* How much room is lent: enough, none, or a little. */
static size_t some_room(void) {
    return once_in(2) ? 64 : once_in(8) ? 0 : below(8);
}

/* Room for everything that the call writes; mostly as much in each table. */
static void give_room(given *g, const call *c) {
    size_t room = some_room();
    int i;
    for (i = OUT; i < PARTS; i++)
        if (c->parts & BIT(i)) give(g, i, NULL, 0, (once_in(6) ? some_room() : room) * (i == OUT ? 8 : 1));
}

/* Lends a table of totals, old flags that mostly name rows of it, and new ones that are mostly of the same owner. */
static void give_change(given *g) {
    const held_totals *t = &tables[below(STORED)];
    held_flags old, new;
    flags_of_rows(&old, t);
    if (once_in(2)) flags_of_rows(&new, t);
    else incoming(&new, &old);
    if (once_in(4)) random_flags(&new);
    if (once_in(8)) new = old;
    give_totals(g, t, some_room());
    give_flags(g, &g->ours, OURS_EPOCHS, &old);
    give_flags(g, &g->theirs, THEIRS_EPOCHS, &new);
}

void make_input(given *g, int which) {
    const call *c = &calls[which];
    const held_removal *r = &removals[below(STORED)];
    const held_flags *ours = (c->takes & TAKES_REMOVAL) && !once_in(4) ? &r->of : &flags[below(STORED)];
    held_flags theirs;
    memset(g, 0, sizeof *g);
    give_room(g, c);
    if (c->parts & BIT(BYTES)) give_bytes(g, BYTES, which);
    if (which == REPAIR && !once_in(4)) give_old_bytes(g);
    if ((c->parts & BIT(BYTES)) && once_in(400)) give_long_bytes(g);
    if (c->parts & BIT(OTHER_BYTES)) give_bytes(g, OTHER_BYTES, DESERIALIZE);
    if (c->takes & TAKES_OURS) give_flags(g, &g->ours, OURS_EPOCHS, ours);
    incoming(&theirs, ours);
    if (c->takes & TAKES_THEIRS) give_flags(g, &g->theirs, THEIRS_EPOCHS, once_in(6) ? &flags[below(STORED)] : &theirs);
    if (c->takes & TAKES_REMOVAL) give_removal(g, &g->removal, REMOVAL_IDS, r, 0);
    if (c->takes & TAKES_LEFT) give_removal(g, &g->left, LEFT_IDS, &removals[below(STORED)], some_room());
    if (c->takes & TAKES_ROWS) give_change(g);
    if (c->parts & BIT(TOTAL_STRUCTS)) give_structs(g);
    g->amount = some_count();
    g->epoch = some_epoch();
    g->version = (uint16_t)(once_in(16) ? any() : below(2));
    g->strategy = some_byte(3);
    g->present = (uint8_t)(once_in(4) ? any() : below(3));
    g->theirs_present = (uint8_t)(once_in(4) ? any() : below(3));
    g->yes = (uint8_t)(once_in(4) ? any() : below(3));
    g->size = (uint8_t)any();
    some_owner(g->id.bytes, below(OWNERS));
}

/* ---- keeping answers */

/* Keeps the removal that stands in the left tables, with the flags that it was split from, if it was. */
static void keep_removal(const given *g, const petasunok_removal *removal, int split) {
    held_removal *r = &removals[below(STORED)];
    if (removal->rows > 8 && !once_in(8)) return;
    if (removal->rows > MOST || (split && g->ours.records > MOST)) return;
    r->removal = *removal;
    memcpy(r->ids, g->parts[LEFT_IDS].at, removal->rows * 32);
    memcpy(r->epochs, g->parts[LEFT_EPOCHS].at, removal->rows * 2);
    memcpy(r->bytes, g->parts[LEFT_BYTES].at, removal->rows * 4);
    if (!split) return;
    r->of.head = g->ours;
    if (g->ours.records == 0) return;
    memcpy(r->of.epochs, g->parts[OURS_EPOCHS].at, g->ours.records * 2);
    memcpy(r->of.counts, g->parts[OURS_COUNTS].at, g->ours.records * 4);
}

/* Keeps the rows of a table of totals, which stand in three slices: its own, or a work area. */
static void keep_totals(const given *g, int owners, size_t rows) {
    held_totals *t = &tables[below(STORED)];
    if (rows > MOST) return;
    t->rows = rows;
    memcpy(t->owners, g->parts[owners].at, rows * 32);
    memcpy(t->epochs, g->parts[owners + 1].at, rows * 2);
    memcpy(t->totals, g->parts[owners + 2].at, rows * 8);
}

void keep_answer(int which, const given *g, const told *answer) {
    size_t slot = below(STORED);
    if (once_in(4)) random_flags(&flags[below(STORED)]);
    if (once_in(8)) random_removal(&removals[below(STORED)]);
    if (once_in(400)) random_totals(&tables[below(STORED)]);
    if (calls[which].answer == TABLE) keep_totals(g, which == TOTALS_REPLACE ? TOTAL_OWNERS : WORK_OWNERS, (size_t)answer->count);
    if (which == SPLIT_KEY || which == SPLIT_VALUE) keep_removal(g, &answer->removal, 1);
    if (which == ADD_ASSIGN) keep_removal(g, &answer->removal, 0);
    if (calls[which].answer == FLAGS && answer->present && answer->head.records <= MOST) {
        flags[slot].head = answer->head;
        memcpy(flags[slot].epochs, g->parts[EPOCHS].at, answer->head.records * 2);
        memcpy(flags[slot].counts, g->parts[COUNTS].at, answer->head.records * 4);
    }
    if ((which == SERIALIZE || which == REPAIR) && answer->count <= sizeof encodings[slot].bytes) {
        encodings[slot].len = (size_t)answer->count;
        memcpy(encodings[slot].bytes, g->parts[OUT].at, encodings[slot].len);
    }
}

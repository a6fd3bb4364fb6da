/* What has to hold of the answers that the fuzzer gets, said without the library where that is short. */
#include "fuzz.h"
#include <string.h>

#define ROOM 8192

/* ---- proper flags and rows */

static int owned(const petasunok_head *head) {
    return head->kind == 2 || head->kind == 3;
}

static int has_records(const petasunok_head *head) {
    return head->kind == 1 || head->kind == 3;
}

static int proper_flags(const given *g, const petasunok_head *head, int epochs) {
    const uint16_t *at = g->parts[epochs].at;
    size_t i;
    if (head->kind > 3 || head->records > g->parts[epochs].len || head->records > g->parts[epochs + 1].len) return 0;
    if (!has_records(head)) return head->records == 0;
    for (i = 0; i < head->records; i++)
        if (at[i] <= (i == 0 ? head->base : at[i - 1])) return 0;
    return head->records > 0;
}

/* Whether so many rows stand in three tables, and their pairs ascend. */
static int ascending(const given *g, int ids, size_t rows) {
    uint8_t(*owners)[32] = g->parts[ids].at;
    const uint16_t *epochs = g->parts[ids + 1].at;
    size_t i;
    for (i = 0; i < 3; i++)
        if (rows > g->parts[ids + i].len) return 0;
    for (i = 1; i < rows; i++) {
        int order = memcmp(owners[i - 1], owners[i], 32);
        if (order > 0 || (order == 0 && epochs[i - 1] >= epochs[i])) return 0;
    }
    return 1;
}

static int proper_rows(const given *g, const petasunok_removal *removal, int ids) {
    return removal->kind == 2 ? ascending(g, ids, removal->rows) : removal->kind < 2;
}

static int proper_totals(const given *g, size_t rows) {
    const uint64_t *totals = g->parts[TOTALS].at;
    size_t i;
    if (!ascending(g, TOTAL_OWNERS, rows)) return 0;
    for (i = 0; i < rows; i++)
        if (totals[i] == 0) return 0;
    return 1;
}

int improper(const call *c, const given *g) {
    int absent = (c->takes & TAKES_PRESENT) && g->present == 0;
    int theirs_absent = (c->takes & TAKES_THEIRS_PRESENT) && g->theirs_present == 0;
    if ((c->takes & TAKES_STRATEGY) && g->strategy > 2) return 1;
    if ((c->takes & TAKES_OURS) && !absent && g->ours.kind > 3) return 1;
    if ((c->parts & OURS_TABLES) && !absent && !proper_flags(g, &g->ours, OURS_EPOCHS)) return 1;
    if ((c->takes & TAKES_THEIRS) && !theirs_absent && !proper_flags(g, &g->theirs, THEIRS_EPOCHS)) return 1;
    if ((c->takes & TAKES_ROWS) && !proper_totals(g, g->rows)) return 1;
    if ((c->takes & TAKES_REMOVAL) && !proper_rows(g, &g->removal, REMOVAL_IDS)) return 1;
    return (c->takes & TAKES_LEFT) && !proper_rows(g, &g->left, LEFT_IDS);
}

/* All bytes of a removal, and whether one of them is as large as a number can be, so that it may be cut. */
static uint64_t total(const given *g, const petasunok_removal *removal, int ids, int *full) {
    const uint32_t *bytes = g->parts[ids + 2].at;
    uint64_t sum = removal->kind == 1 ? removal->bytes : 0;
    size_t i;
    if (removal->kind == 1 && removal->bytes == UINT32_MAX) *full = 1;
    for (i = 0; removal->kind == 2 && i < removal->rows; i++) {
        sum += bytes[i];
        if (bytes[i] == UINT32_MAX) *full = 1;
    }
    return sum;
}

/* ---- tables of totals, and what elements count */

/* More rows than a lent table has. */
#define MOST_ROWS 1024

/* A table apart from what is lent. */
typedef struct {
    uint8_t owners[MOST_ROWS][32];
    uint16_t epochs[MOST_ROWS];
    uint64_t totals[MOST_ROWS];
    size_t rows;
} table;

static void copy_table(table *to, const given *g, size_t rows) {
    to->rows = rows;
    if (rows == 0) return;
    memcpy(to->owners, g->parts[TOTAL_OWNERS].at, rows * 32);
    memcpy(to->epochs, g->parts[TOTAL_EPOCHS].at, rows * 2);
    memcpy(to->totals, g->parts[TOTALS].at, rows * 8);
}

static int same_table(const table *a, const table *b) {
    return a->rows == b->rows && memcmp(a->owners, b->owners, a->rows * 32) == 0 && memcmp(a->epochs, b->epochs, a->rows * 2) == 0
        && memcmp(a->totals, b->totals, a->rows * 8) == 0;
}

static uint64_t total_at(const table *t, const uint8_t *owner, uint16_t epoch) {
    size_t i;
    for (i = 0; i < t->rows; i++)
        if (t->epochs[i] == epoch && memcmp(t->owners[i], owner, 32) == 0) return t->totals[i];
    return 0;
}

/* What an element's flags count, under whom. */
typedef struct {
    const uint8_t *owner;
    const uint16_t *epochs;
    const uint32_t *counts;
    size_t records;
} element;

static element element_of(const given *g, const petasunok_head *head, int epochs, uint8_t present) {
    static const uint8_t zeros[32];
    element e = {owned(head) ? head->owner : zeros, g->parts[epochs].at, g->parts[epochs + 1].at, present ? head->records : 0};
    return e;
}

static element old_of(const given *g) {
    return element_of(g, &g->ours, OURS_EPOCHS, g->present);
}

static element new_of(const given *g) {
    return element_of(g, &g->theirs, THEIRS_EPOCHS, g->theirs_present);
}

static uint64_t count_at(const element *e, const uint8_t *owner, uint16_t epoch) {
    size_t i;
    for (i = 0; i < e->records; i++)
        if (e->epochs[i] == epoch && memcmp(e->owner, owner, 32) == 0) return e->counts[i];
    return 0;
}

/* ---- the laws of each sort of call */

/* What was read is proper, and written again it is the same bytes. */
static const char *reading(int which, const given *g, const told *answer) {
    static uint8_t out[ROOM];
    const uint8_t *bytes = g->parts[BYTES].at;
    size_t len = g->parts[BYTES].len;
    petasunok_count n;
    if (!answer->present) return which == DESERIALIZE && len == 0 ? NULL : "no flags were read, and there are bytes";
    if (!proper_flags(g, &answer->head, EPOCHS)) return "flags that were read are not proper";
    if (answer->head.kind != (which == DESERIALIZE ? bytes[0] : which - READ_SINGLE)) return "flags of another kind were read";
    n = petasunok_serialize(answer->head, g->parts[EPOCHS].at, answer->head.records, g->parts[COUNTS].at, answer->head.records, out, ROOM);
    if (n.refusal != 0 || n.count != len || memcmp(out + 1, bytes + 1, len - 1) != 0) return "flags that were read are not written alike";
    return out[0] == answer->head.kind ? NULL : "byte 0 is not the kind";
}

/* What was written has the size that is told, and read again it is the same flags. */
static const char *writing(const given *g, const told *answer) {
    static uint16_t epochs[ROOM];
    static uint32_t counts[ROOM];
    size_t n = g->ours.records;
    petasunok_count size = petasunok_serialized_size(g->ours, g->parts[OURS_EPOCHS].at, n, g->parts[OURS_COUNTS].at, n);
    petasunok_flags back = petasunok_deserialize(g->parts[OUT].at, (size_t)answer->count, epochs, ROOM, counts, ROOM);
    petasunok_head head = g->ours;
    if (!owned(&head)) memset(head.owner, 0, 32);
    if (size.refusal != 0 || size.count != answer->count) return "the size is another than that of what was written";
    if (back.refusal != 0 || back.present != 1 || !same_head(&back.head, &head)) return "flags that were written are not read alike";
    if (n == 0) return NULL;
    if (memcmp(epochs, g->parts[OURS_EPOCHS].at, n * 2) != 0 || memcmp(counts, g->parts[OURS_COUNTS].at, n * 4) != 0)
        return "records that were written are not read alike";
    return NULL;
}

/* An optional merge with ours there answers as the plain one. */
static const char *alike(int which, const given *g, const told *answer) {
    static uint16_t epochs[ROOM];
    static uint32_t counts[ROOM];
    size_t n = answer->head.records;
    given other = *g;
    told plain;
    other.parts[EPOCHS].at = epochs;
    other.parts[COUNTS].at = counts;
    other.parts[EPOCHS].len = other.parts[COUNTS].len = ROOM;
    plain = calls[which - 1].run(&other);
    if (!same_told(&plain, answer)) return "the plain merge answers otherwise";
    if (memcmp(epochs, g->parts[EPOCHS].at, n * 2) == 0 && memcmp(counts, g->parts[COUNTS].at, n * 4) == 0) return NULL;
    return "the plain merge has other records";
}

/* A merge answers proper flags at our base. Where ours is absent they are theirs. */
static const char *merging(int which, const given *g, const told *answer) {
    int optional = which == OPTIONAL_ADDED || which == OPTIONAL_REMOVED, absent = optional && g->present == 0;
    static const uint8_t zeros[32];
    const petasunok_head *from = absent ? &g->theirs : &g->ours;
    if (!answer->present || !proper_flags(g, &answer->head, EPOCHS)) return "merged flags are not proper";
    if (answer->head.base != from->base) return "merged flags are at another base";
    if (!owned(&answer->head) && memcmp(answer->head.owner, zeros, 32) != 0) return "unowned flags with an owner";
    if (!absent && g->theirs.base < g->ours.base) return "a lower incoming base was merged";
    if (!absent) return optional ? alike(which, g, answer) : NULL;
    if (answer->head.kind != from->kind || answer->head.records != from->records) return "where ours is absent, it is not theirs";
    if (from->records == 0) return NULL;
    return memcmp(g->parts[COUNTS].at, g->parts[THEIRS_COUNTS].at, from->records * 4) == 0 ? NULL : "other counts than theirs";
}

/* Sections stand under our owner and sum to what was asked; of a key all stand at the base, of a value as many beside it as were visited. */
static const char *splitting(int which, const given *g, const told *answer) {
    static const uint8_t zeros[32];
    uint8_t(*ids)[32] = g->parts[LEFT_IDS].at;
    const uint16_t *epochs = g->parts[LEFT_EPOCHS].at;
    size_t i, beside = 0;
    int full = 0;
    if (!proper_rows(g, &answer->removal, LEFT_IDS)) return "sections are not proper";
    if (total(g, &answer->removal, LEFT_IDS, &full) != g->amount) return "the sections have another sum";
    if (answer->removal.kind != (g->amount == 0 ? 0 : 2)) return "a removal of another kind";
    for (i = 0; i < answer->removal.rows; i++) {
        beside += epochs[i] != g->ours.base;
        if (memcmp(ids[i], owned(&g->ours) ? g->ours.owner : zeros, 32) != 0) return "a section under another owner";
    }
    if (which == SPLIT_KEY) return beside == 0 ? NULL : "a section of a key's bytes that is not at the base";
    return beside == answer->visited ? NULL : "another number of records was visited than gave";
}

static uint64_t left_total;
static table before;

void note_before(const given *g) {
    int full = 0;
    left_total = total(g, &g->left, LEFT_IDS, &full);
    copy_table(&before, g, g->rows);
}

/* A sum is proper; from version 1 on nothing is lost where nothing is cut. */
static const char *adding_up(const given *g, const told *answer) {
    int full = 0, right_full = 0;
    uint64_t both, all = total(g, &answer->removal, LEFT_IDS, &full);
    if (!proper_rows(g, &answer->removal, LEFT_IDS)) return "a sum is not proper";
    both = left_total + total(g, &g->removal, REMOVAL_IDS, &right_full);
    if (g->version == 0 && g->left.kind == 1) return all <= both ? NULL : "a sum has too much";
    return full || all == both ? NULL : "bytes were lost in a sum";
}

/* Whether some total is less than the old flags' count. */
static int mismatched(const given *g) {
    element old = old_of(g);
    size_t i;
    for (i = 0; i < old.records; i++)
        if (total_at(&before, old.owner, old.epochs[i]) < old.counts[i]) return 1;
    return 0;
}

/* The total that a change makes of one; 64 bits hold it where the change is accepted. */
static uint64_t changed(const given *g, const uint8_t *owner, uint16_t epoch) {
    element old = old_of(g), new = new_of(g);
    return total_at(&before, owner, epoch) - count_at(&old, owner, epoch) + count_at(&new, owner, epoch);
}

/* Whether some total would pass 64 bits: it is less than what was added. */
static int too_large(const given *g) {
    element new = new_of(g);
    size_t i;
    for (i = 0; i < new.records; i++)
        if (changed(g, new.owner, new.epochs[i]) < new.counts[i]) return 1;
    return 0;
}

/* Whether a table has the total that a change makes, for each pair of rows and records. */
static int has_changed(const given *g, const table *t, uint8_t (*owners)[32], const uint16_t *epochs, size_t rows) {
    size_t i;
    for (i = 0; i < rows; i++)
        if (total_at(t, owners[i], epochs[i]) != changed(g, owners[i], epochs[i])) return 0;
    return 1;
}

/* Makes a change in a table that has room, over three slices, and answers its refusal. */
static uint32_t change_in(table *t, const given *g) {
    given other = *g;
    told answer;
    other.rows = t->rows;
    other.parts[TOTAL_OWNERS] = (part){t->owners, MOST_ROWS};
    other.parts[TOTAL_EPOCHS] = (part){t->epochs, MOST_ROWS};
    other.parts[TOTALS] = (part){t->totals, MOST_ROWS};
    answer = calls[TOTALS_REPLACE].run(&other);
    if (answer.refusal == 0) t->rows = (size_t)answer.count;
    return answer.refusal;
}

/* Puts the old flags back for the new ones, which has to give the table as it was. */
static const char *putting_back(const given *g, const table *after) {
    static table back;
    given other = *g;
    back = *after;
    other.ours = g->theirs;
    other.theirs = g->ours;
    other.present = g->theirs_present;
    other.theirs_present = g->present;
    memcpy(&other.parts[OURS_EPOCHS], &g->parts[THEIRS_EPOCHS], 2 * sizeof(part));
    memcpy(&other.parts[THEIRS_EPOCHS], &g->parts[OURS_EPOCHS], 2 * sizeof(part));
    return change_in(&back, &other) == 0 && same_table(&back, &before) ? NULL : "what was changed back is not the table before";
}

/* A change over structs is answered or refused as over three slices, and leaves the same rows. */
static const char *like_slices(const given *g, uint32_t refusal, size_t rows) {
    static table slices;
    const petasunok_total *structs = g->parts[TOTAL_STRUCTS].at;
    size_t i;
    slices = before;
    if (change_in(&slices, g) != refusal) return "over three slices it is refused otherwise";
    if (refusal == 0 && slices.rows != rows) return "over three slices there are other rows";
    for (i = 0; refusal == 0 && i < rows; i++)
        if (structs[i].total != slices.totals[i] || structs[i].epoch != slices.epochs[i] || memcmp(structs[i].owner, slices.owners[i], 32) != 0)
            return "over three slices a row is another";
    return NULL;
}

/* A changed table is proper, and has at every pair the total less the old count plus the new. */
static const char *changing(const given *g, const told *answer) {
    static table after;
    element new = new_of(g);
    size_t i;
    if (!proper_totals(g, (size_t)answer->count)) return "a changed table is not proper";
    copy_table(&after, g, (size_t)answer->count);
    if (mismatched(g)) return "more was taken than a total has";
    if (too_large(g)) return "a total passes 64 bits";
    if (!has_changed(g, &after, before.owners, before.epochs, before.rows)) return "a row that was there has another total";
    if (!has_changed(g, &after, after.owners, after.epochs, after.rows)) return "a row that is there has another total";
    for (i = 0; i < new.records; i++)
        if (total_at(&after, new.owner, new.epochs[i]) != changed(g, new.owner, new.epochs[i])) return "a new record is not in the table";
    return putting_back(g, &after);
}

/* An owner that stands is that of an encoding that is read and owned. */
static const char *owning(const given *g, const told *answer) {
    static uint16_t epochs[ROOM];
    static uint32_t counts[ROOM];
    int part = answer->which == 2 ? OTHER_BYTES : BYTES;
    petasunok_flags read = petasunok_deserialize(g->parts[part].at, g->parts[part].len, epochs, ROOM, counts, ROOM);
    if (read.refusal != 0) return "an encoding that is refused has an owner";
    return answer->which == 0 || owned(&read.head) ? NULL : "the owner of unowned flags";
}

/* A removal's total and whether it has any. */
static const char *telling(int which, const given *g, const told *answer) {
    int full = 0;
    uint64_t all = total(g, &g->removal, REMOVAL_IDS, &full);
    if (which == HAS_REMOVAL) return answer->count == (all != 0) ? NULL : "has_removal differs from the rows";
    return answer->count == all ? NULL : "a total differs from the sum of the rows";
}

/* The calls on a head alone. */
static const char *heading(int which, const given *g, const told *answer) {
    petasunok_head expected = g->ours;
    if (which == TYPE_BYTE) return answer->count == g->ours.kind ? NULL : "another type byte";
    if (which == BASE_EPOCH) return answer->count == g->ours.base ? NULL : "another base";
    if (which == OWNER_ID) {
        if (answer->present != owned(&g->ours)) return "an owner where there is none, or none where there is one";
        return !answer->present || memcmp(answer->id.bytes, g->ours.owner, 32) == 0 ? NULL : "another owner";
    }
    if (which == NEW_SINGLE_EPOCH) {
        memset(&expected, 0, sizeof expected);
        expected.kind = g->yes ? 2 : 0;
        expected.base = g->epoch;
    }
    if (owned(&expected)) memcpy(expected.owner, g->id.bytes, 32);
    return same_head(&answer->head, &expected) ? NULL : "another head";
}

/* The size of flags before they are made. */
static const char *sizing(const given *g, const told *answer) {
    uint32_t expected = 3 + (g->yes ? 32u : 0u) + (g->present ? (uint32_t)g->epoch * (2u + g->size) : 0u);
    return answer->count == expected ? NULL : "another approximate size";
}

/* A line names a change and a place of the bytes, and lines ascend; two at one place are re-encoded, then moved. */
static const char *listing(const given *g, const told *answer) {
    const size_t *offsets = g->parts[OFFSETS].at;
    const uint8_t *changes = g->parts[CHANGES].at;
    size_t i;
    for (i = 0; i < answer->lines; i++) {
        if (changes[i] < PETASUNOK_RE_ENCODED || changes[i] > PETASUNOK_KIND_CHANGED) return "a change that does not exist";
        if (offsets[i] >= g->parts[BYTES].len) return "a line behind the bytes";
        if ((offsets[i] == 0) != (changes[i] == PETASUNOK_KIND_CHANGED)) return "a line at the head";
        if (i == 0 || offsets[i - 1] < offsets[i]) continue;
        if (offsets[i - 1] > offsets[i]) return "lines that do not ascend";
        if (changes[i - 1] != PETASUNOK_RE_ENCODED || changes[i] != PETASUNOK_MOVED) return "two lines at one place";
    }
    return NULL;
}

/* Repaired bytes are read, and a second repair changes nothing. Without a line they are the old ones, and with one they are not read. */
static const char *repairing(const given *g, const told *answer) {
    static uint16_t epochs[ROOM];
    static uint32_t counts[ROOM];
    static uint8_t out[ROOM], changes[ROOM];
    static size_t offsets[ROOM];
    const part *old = &g->parts[BYTES], *new = &g->parts[OUT];
    size_t n = (size_t)answer->count;
    petasunok_flags before = petasunok_deserialize(old->at, old->len, epochs, ROOM, counts, ROOM);
    petasunok_flags after = petasunok_deserialize(new->at, n, epochs, ROOM, counts, ROOM);
    petasunok_repaired again = petasunok_repair(new->at, n, out, ROOM, offsets, ROOM, changes, ROOM);
    if (after.refusal != 0 || after.present != (old->len > 0)) return "repaired bytes are not read";
    if (again.refusal != 0 || again.bytes != n || again.lines != 0) return "a second repair finds something";
    if (n > 0 && memcmp(out, new->at, n) != 0) return "a second repair gives other bytes";
    if ((before.refusal == 0) != (answer->lines == 0)) return "lines for canonical bytes, or none for others";
    if (answer->lines == 0 && (n != old->len || (n > 0 && memcmp(old->at, new->at, n) != 0))) return "other bytes without a line";
    return listing(g, answer);
}

const char *broken_law(int which, const given *g, const told *answer) {
    if (which <= READ_MULTI_OWNED) return reading(which, g, answer);
    if (which == SERIALIZE) return writing(g, answer);
    if (which == APPROXIMATE_SIZE) return sizing(g, answer);
    if (which == COMBINE_OWNER_ID) return owning(g, answer);
    if (which >= COMBINE_ADDED && which <= OPTIONAL_REMOVED) return merging(which, g, answer);
    if (which == SPLIT_KEY || which == SPLIT_VALUE) return splitting(which, g, answer);
    if (which == ADD_ASSIGN) return adding_up(g, answer);
    if (which == HAS_REMOVAL || which == TOTAL_REMOVED) return telling(which, g, answer);
    if (which == REPAIR) return repairing(g, answer);
    if (which == TOTALS_REPLACE) return changing(g, answer);
    if (which == TOTALS_REPLACE_STRUCTS) return like_slices(g, 0, (size_t)answer->count);
    return which >= NEW_SINGLE_EPOCH ? heading(which, g, answer) : NULL;
}

const char *broken_refusal(int which, const given *g, uint32_t refusal) {
    int merge = which >= COMBINE_ADDED && which <= OPTIONAL_REMOVED, full = 0, change = calls[which].answer == TABLE;
    const uint8_t *bytes = g->parts[BYTES].at;
    if (refusal == 1 && (which == DESERIALIZE || which == REPAIR) && bytes[0] < 4) return "a kind that exists is unknown";
    if (refusal == 2 && which == REPAIR && g->parts[BYTES].len >= (bytes[0] < 2 ? 3u : 35u)) return "2, and owner and base are complete";
    if (refusal == 4 && g->theirs.base >= g->ours.base) return "4, and the incoming base is not lower";
    if (refusal == 5 && merge && which <= OPTIONAL_ADDED && !(owned(&g->ours) && owned(&g->theirs) && g->strategy == 0))
        return "5 without two owners";
    if (refusal == 14 && !mismatched(g)) return "14, and no total is less than the old count";
    if (refusal == 6 && change && mismatched(g)) return "6, and it is 14";
    if (refusal == 6 && change && !too_large(g)) return "6, and no total passes 64 bits";
    if (which == TOTALS_REPLACE_STRUCTS) return like_slices(g, refusal, 0);
    if (refusal == 9 && total(g, &g->removal, REMOVAL_IDS, &full) <= UINT32_MAX) return "9, and the total is not too large";
    return merge && refusal >= 4 && refusal <= 7 && which % 2 == OPTIONAL_ADDED % 2 && g->present == 0 ? "absent ours was looked at" : NULL;
}

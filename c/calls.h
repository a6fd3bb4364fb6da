/* Every function of petasunok.h in one form, so that the tests can go through them by a table. */
#ifndef CALLS_H
#define CALLS_H

#include "petasunok.h"

/* The lent memory: a pointer and a length for each table that some call takes. */
enum {
    BYTES, OTHER_BYTES,
    OURS_EPOCHS, OURS_COUNTS,
    THEIRS_EPOCHS, THEIRS_COUNTS,
    REMOVAL_IDS, REMOVAL_EPOCHS, REMOVAL_BYTES,
    OUT,
    EPOCHS, COUNTS,
    LEFT_IDS, LEFT_EPOCHS, LEFT_BYTES, /* the rows of a split, and the left removal of a sum */
    OFFSETS, CHANGES,
    TOTAL_OWNERS, TOTAL_EPOCHS, TOTALS,
    TOTAL_STRUCTS,
    WORK_OWNERS, WORK_EPOCHS, WORK_TOTALS,
    PARTS
};

#define BIT(n) (1u << (n))
/* The tables of one thing together. */
#define OURS_TABLES (BIT(OURS_EPOCHS) | BIT(OURS_COUNTS))
#define THEIRS_TABLES (BIT(THEIRS_EPOCHS) | BIT(THEIRS_COUNTS))
#define REMOVAL_TABLES (BIT(REMOVAL_IDS) | BIT(REMOVAL_EPOCHS) | BIT(REMOVAL_BYTES))
#define ROOM_TABLES (BIT(EPOCHS) | BIT(COUNTS))
#define LEFT_TABLES (BIT(LEFT_IDS) | BIT(LEFT_EPOCHS) | BIT(LEFT_BYTES))
#define LINE_TABLES (BIT(OFFSETS) | BIT(CHANGES))
#define TOTAL_TABLES (BIT(TOTAL_OWNERS) | BIT(TOTAL_EPOCHS) | BIT(TOTALS))
#define WORK_TABLES (BIT(WORK_OWNERS) | BIT(WORK_EPOCHS) | BIT(WORK_TOTALS))
#define WRITTEN_TABLES (BIT(OUT) | ROOM_TABLES | LEFT_TABLES | LINE_TABLES | TOTAL_TABLES | BIT(TOTAL_STRUCTS) | WORK_TABLES)

/* The values that a call takes beside its tables. */
#define TAKES_STRATEGY 1u
#define TAKES_OURS 2u
#define TAKES_THEIRS 4u
#define TAKES_REMOVAL 8u
#define TAKES_LEFT 16u
#define TAKES_ROWS 32u
#define TAKES_PRESENT 64u
#define TAKES_THEIRS_PRESENT 128u

/* The largest number of a refusal. */
#define LAST_REFUSAL PETASUNOK_INDEX_MISMATCH

typedef struct {
    void *at;
    size_t len;
} part;

/* Everything that a call may be given. */
typedef struct {
    part parts[PARTS];
    petasunok_head ours, theirs; /* also the old flags and the new ones */
    petasunok_removal removal, left;
    size_t rows; /* of a table of totals */
    petasunok_id id;
    uint32_t amount; /* also the bytes of a split */
    uint16_t epoch, version; /* epoch: also the number of changes */
    uint8_t strategy, present, yes, size; /* yes: has_owner and owned; present: also whether changes are given */
    uint8_t theirs_present;
} given;

/* Everything that a call may answer; what it does not have is 0. */
typedef struct {
    uint32_t refusal;
    uint8_t present, which;
    uint64_t count; /* also the bytes of a repair, and the rows of a table of totals */
    petasunok_head head;
    petasunok_removal removal;
    size_t visited, lines;
    size_t worked; /* how many places of a work area hold rows before or after */
    petasunok_id id;
} told;

/* What sort of answer a call gives. */
enum { FLAGS, HEAD, NUMBER, WHOSE, MAYBE_OWNER, SUM, SPLIT, REPAIRED, TABLE };

/* The calls, in the header's order. */
enum {
    DESERIALIZE, READ_SINGLE, READ_MULTI, READ_SINGLE_OWNED, READ_MULTI_OWNED,
    SERIALIZE, SERIALIZED_SIZE, APPROXIMATE_SIZE,
    COMBINE_OWNER_ID, COMBINE_ADDED, OPTIONAL_ADDED, COMBINE_REMOVED, OPTIONAL_REMOVED,
    SPLIT_KEY, SPLIT_VALUE, ADD_ASSIGN, HAS_REMOVAL, TOTAL_REMOVED,
    NEW_SINGLE_EPOCH, SET_OWNER_ID, BASE_EPOCH, OWNER_ID, TYPE_BYTE,
    REPAIR,
    TOTALS_REPLACE, TOTALS_REPLACE_STRUCTS,
    CALLS
};

typedef struct {
    const char *name;
    told (*run)(const given *);
    int answer;
    unsigned parts;    /* the tables that it takes */
    unsigned takes;    /* the values that it takes */
    unsigned refusals; /* the numbers that it may give */
} call;

extern const call calls[CALLS];
extern const size_t widths[PARTS];

/* How many places at the start of a table the answer takes. */
size_t places(const told *answer, int part);

/* Whether so many places of a table hold the same; of structs, what their fields hold. */
int same_places(int part, const void *a, const void *b, size_t places);

/* What is wrong with the form of an answer, or null: its number, its zeros where it is refused, its room, its truth value. */
const char *malformed(const call *c, const given *g, const told *answer);

/* Compares heads and removals field by field. */
int same_head(const petasunok_head *a, const petasunok_head *b);
int same_removal(const petasunok_removal *a, const petasunok_removal *b);
int same_told(const told *a, const told *b);

#endif

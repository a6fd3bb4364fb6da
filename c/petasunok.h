/* Storage flags of a GroveDB store: reading, writing, merging and repairing them, splitting and adding up what was removed, and keeping
 * totals per owner and epoch.
 *
 * Every function is proved: on any input it ends, in an answer or in a refusal, and equals a short definition (docs/STATEMENTS.md).
 * A refusal is one of the numbers below; then everything else in the answer is 0, and nothing that was lent has changed. An answer
 * stands at the start of what was lent for it, and what lies behind it is untouched.
 *
 * What a caller owes: a pointer and its length (in elements) name memory that may be read, and where the pointer is not const, written;
 * a pointer may be null where its length is 0. What is written overlaps nothing else that the same call is given. Pointers are aligned
 * as C asks. Nothing is kept after a call, and nothing is shared, so calls may run on any thread. Reading takes up to 180 KB of its stack, in
 * proportion to the records (12 KB for 1,024) and no more from 16,384 records on; repairing takes up to 1 MiB.
 *
 * Truth values (`present`, `has_owner_id`, `given`, `owned`) are 0 for no, and anything else for yes. Link with libpetasunok.a. */
#ifndef PETASUNOK_H
#define PETASUNOK_H

#include <stddef.h>
#include <stdint.h>

#ifdef __cplusplus
extern "C" {
#endif

/* The refusals. */
#define PETASUNOK_UNKNOWN_TYPE 1          /* a kind byte above 3 */
#define PETASUNOK_WRONG_SIZE 2            /* bytes are missing, or there are too many */
#define PETASUNOK_NON_CANONICAL 3         /* a count that is too large or not minimal, or epochs that do not rise */
#define PETASUNOK_DIFFERENT_BASE_EPOCH 4  /* the incoming base is below ours */
#define PETASUNOK_DIFFERENT_OWNERS 5      /* the owners differ, or a removal is not under our owner */
#define PETASUNOK_OVERFLOW 6              /* a count would pass 32 bits or a total 64, or a section takes more than its record holds */
#define PETASUNOK_NO_STORAGE_AT_EPOCH 7   /* a section's epoch is not the base and has no record */
#define PETASUNOK_REMOVAL_TOO_LARGE 8     /* no longer given, since every amount is split; the number is not used again */
#define PETASUNOK_TOTAL_TOO_LARGE 9       /* a total passes 32 bits */
#define PETASUNOK_NO_ROOM 10              /* the answer needs more room than was lent */
#define PETASUNOK_BAD_TABLE 11            /* flags or rows that are not proper, or a kind or strategy that does not exist */
#define PETASUNOK_INDEX_MISMATCH 14       /* a total is less than what the old flags count there; 12 and 13 are not given */

/* The kinds of flags. */
#define PETASUNOK_SINGLE_EPOCH 0
#define PETASUNOK_MULTI_EPOCH 1
#define PETASUNOK_SINGLE_EPOCH_OWNED 2
#define PETASUNOK_MULTI_EPOCH_OWNED 3

/* Which owner stands where both are owned and differ. */
#define PETASUNOK_RAISE_ISSUE 0
#define PETASUNOK_USE_OURS 1
#define PETASUNOK_USE_THEIRS 2

/* The kinds of a removal. */
#define PETASUNOK_NO_REMOVAL 0
#define PETASUNOK_BASIC_REMOVAL 1
#define PETASUNOK_SECTIONED_REMOVAL 2

/* The changes of a repair. */
#define PETASUNOK_RE_ENCODED 1            /* a record stays, and its count is written with fewer bytes */
#define PETASUNOK_TOO_LARGE 2             /* a record is dropped: its count passes 32 bits */
#define PETASUNOK_NOT_ABOVE_BASE 3        /* a record is dropped: its epoch is at or below the base */
#define PETASUNOK_REPLACED 4              /* a record is dropped: a later one has its epoch */
#define PETASUNOK_TAIL_CUT 5              /* the bytes from here on are cut */
#define PETASUNOK_MOVED 6                 /* a record stays, and comes before one that stood before it */
#define PETASUNOK_KIND_CHANGED 7          /* no record is left, so the kind is 0 or 2 now */

/* Flags without their records, which stand in the first `records` places of two tables. The owner of flags of kinds 0 and 1 is not read,
 * and is zeros in what reading, merging and petasunok_new_single_epoch answer. */
typedef struct {
    uint8_t kind;
    uint16_t base;
    uint8_t owner[32];
    size_t records;
} petasunok_head;

/* Flags, or none (present is 0), or a refusal. */
typedef struct {
    uint32_t refusal; /* 0: answered */
    uint8_t present;  /* 0: no flags */
    petasunok_head head;
} petasunok_flags;

/* A number, or a refusal. */
typedef struct {
    uint32_t refusal;
    uint64_t count;
} petasunok_count;

/* A removal without its rows, which stand in the first `rows` places of three tables: 0 none, 1 basic (`bytes`), 2 sectioned (`rows`).
 * What a kind does not have is not read, and is 0 in an answer. */
typedef struct {
    uint8_t kind;
    uint32_t bytes;
    size_t rows;
} petasunok_removal;

/* A removal, or a refusal. */
typedef struct {
    uint32_t refusal;
    petasunok_removal removal;
} petasunok_sum;

/* The removal of a value's bytes, and how many records were visited: the number of its rows that are not at the base; or a refusal. */
typedef struct {
    uint32_t refusal;
    petasunok_removal removal;
    size_t visited;
} petasunok_value_split;

/* Whose owner stands: 0 none, 1 ours, 2 theirs; or a refusal. */
typedef struct {
    uint32_t refusal;
    uint8_t which;
} petasunok_owner;

/* 32 bytes that name who paid. */
typedef struct {
    uint8_t bytes[32];
} petasunok_id;

/* An owner, or none (present is 0), or a refusal. */
typedef struct {
    uint32_t refusal;
    uint8_t present;
    petasunok_id id;
} petasunok_maybe_owner;

/* How many bytes and lines of a repair stand in what was lent for them; or a refusal. */
typedef struct {
    uint32_t refusal;
    size_t bytes;
    size_t lines;
} petasunok_repaired;

/* A row of a table of totals: who paid, 32 zero bytes where there is no owner, in which epoch, and how many bytes in all. */
typedef struct {
    uint8_t owner[32];
    uint16_t epoch;
    uint64_t total;
} petasunok_total;

/* ---- reading: 1, 2, 3, 10 */

/* Flags of the kind that byte 0 names; no bytes are no flags. */
petasunok_flags petasunok_deserialize(
    const uint8_t *src, size_t src_len,
    uint16_t *epochs, size_t epochs_len, uint32_t *counts, size_t counts_len);

/* Flags of kind 0, 1, 2 or 3, whatever byte 0 says. */
petasunok_flags petasunok_deserialize_single_epoch(
    const uint8_t *src, size_t src_len,
    uint16_t *epochs, size_t epochs_len, uint32_t *counts, size_t counts_len);
petasunok_flags petasunok_deserialize_multi_epoch(
    const uint8_t *src, size_t src_len,
    uint16_t *epochs, size_t epochs_len, uint32_t *counts, size_t counts_len);
petasunok_flags petasunok_deserialize_single_epoch_owned(
    const uint8_t *src, size_t src_len,
    uint16_t *epochs, size_t epochs_len, uint32_t *counts, size_t counts_len);
petasunok_flags petasunok_deserialize_multi_epoch_owned(
    const uint8_t *src, size_t src_len,
    uint16_t *epochs, size_t epochs_len, uint32_t *counts, size_t counts_len);

/* ---- writing */

/* Writes flags, and answers how many bytes they are: 11, 10. */
petasunok_count petasunok_serialize(
    petasunok_head flags, const uint16_t *epochs, size_t epochs_len, const uint32_t *counts, size_t counts_len,
    uint8_t *out, size_t out_len);

/* How many bytes flags are: 11. */
petasunok_count petasunok_serialized_size(
    petasunok_head flags, const uint16_t *epochs, size_t epochs_len, const uint32_t *counts, size_t counts_len);

/* The size of flags before they are made; `changes` and `size` (of one change) count where `given` is not 0. Never refused. */
uint32_t petasunok_approximate_size(uint8_t has_owner_id, uint8_t given, uint16_t changes, uint8_t size);

/* ---- owners and merging */

/* Whose owner stands in two encodings; it is then bytes 1 to 32 of that one: 11 for the strategy, 1, 2, 3 (ours first), 5. */
petasunok_owner petasunok_combine_owner_id(
    const uint8_t *ours, size_t ours_len, const uint8_t *theirs, size_t theirs_len, uint8_t strategy);

/* Merges ours with the incoming flags that came with added bytes: 11, 4, 5, 6, 10. */
petasunok_flags petasunok_combine_added_bytes(
    petasunok_head ours, const uint16_t *our_epochs, size_t our_epochs_len, const uint32_t *our_counts, size_t our_counts_len,
    petasunok_head theirs, const uint16_t *their_epochs, size_t their_epochs_len, const uint32_t *their_counts, size_t their_counts_len,
    uint32_t added_bytes, uint8_t strategy,
    uint16_t *epochs, size_t epochs_len, uint32_t *counts, size_t counts_len);

/* The same; where `present` is 0 ours is not looked at, and the answer is theirs. */
petasunok_flags petasunok_optional_combine_added_bytes(
    uint8_t present,
    petasunok_head ours, const uint16_t *our_epochs, size_t our_epochs_len, const uint32_t *our_counts, size_t our_counts_len,
    petasunok_head theirs, const uint16_t *their_epochs, size_t their_epochs_len, const uint32_t *their_counts, size_t their_counts_len,
    uint32_t added_bytes, uint8_t strategy,
    uint16_t *epochs, size_t epochs_len, uint32_t *counts, size_t counts_len);

/* Merges ours with the incoming flags that came with removed bytes: 11, 4, 5, then 7 or 6 at the first section, 10. */
petasunok_flags petasunok_combine_removed_bytes(
    petasunok_head ours, const uint16_t *our_epochs, size_t our_epochs_len, const uint32_t *our_counts, size_t our_counts_len,
    petasunok_head theirs, const uint16_t *their_epochs, size_t their_epochs_len, const uint32_t *their_counts, size_t their_counts_len,
    petasunok_removal removal, const uint8_t (*ids)[32], size_t ids_len,
    const uint16_t *removed_epochs, size_t removed_epochs_len, const uint32_t *removed_bytes, size_t removed_bytes_len,
    uint8_t strategy,
    uint16_t *epochs, size_t epochs_len, uint32_t *counts, size_t counts_len);

/* The same; where `present` is 0 ours is not looked at, and the answer is theirs. */
petasunok_flags petasunok_optional_combine_removed_bytes(
    uint8_t present,
    petasunok_head ours, const uint16_t *our_epochs, size_t our_epochs_len, const uint32_t *our_counts, size_t our_counts_len,
    petasunok_head theirs, const uint16_t *their_epochs, size_t their_epochs_len, const uint32_t *their_counts, size_t their_counts_len,
    petasunok_removal removal, const uint8_t (*ids)[32], size_t ids_len,
    const uint16_t *removed_epochs, size_t removed_epochs_len, const uint32_t *removed_bytes, size_t removed_bytes_len,
    uint8_t strategy,
    uint16_t *epochs, size_t epochs_len, uint32_t *counts, size_t counts_len);

/* ---- removals */

/* Splits a removal of a key's bytes, whatever their number is: one row at the base; 0 bytes are no removal: 11, 10. One row is room enough. */
petasunok_sum petasunok_split_key_removed_bytes(
    petasunok_head flags, const uint16_t *epochs, size_t epochs_len, const uint32_t *counts, size_t counts_len,
    uint32_t removed_key_bytes,
    uint8_t (*ids)[32], size_t ids_len, uint16_t *row_epochs, size_t row_epochs_len, uint32_t *row_bytes, size_t row_bytes_len);

/* Splits a removal of a value's bytes, whatever their number is: from the latest record down, each of which keeps 3, or all it has where that
 * is less, and the rest at the base; 0 bytes are no removal: 11, 10. One row more than there are records is room enough. No other division is
 * "latest first, three kept": docs/DIVISION.md. */
petasunok_value_split petasunok_split_value_removed_bytes(
    petasunok_head flags, const uint16_t *epochs, size_t epochs_len, const uint32_t *counts, size_t counts_len,
    uint32_t removed_value_bytes,
    uint8_t (*ids)[32], size_t ids_len, uint16_t *row_epochs, size_t row_epochs_len, uint32_t *row_bytes, size_t row_bytes_len);

/* Adds the right removal to the left one, in the left one's tables: 11, 10. At version 0 a basic number plus rows loses what the
 * original's first versions lose; from version 1 on removals can be added in any order. */
petasunok_sum petasunok_add_assign(
    petasunok_removal lhs, uint8_t (*ids)[32], size_t ids_len,
    uint16_t *epochs, size_t epochs_len, uint32_t *bytes, size_t bytes_len,
    petasunok_removal rhs, const uint8_t (*rhs_ids)[32], size_t rhs_ids_len,
    const uint16_t *rhs_epochs, size_t rhs_epochs_len, const uint32_t *rhs_bytes, size_t rhs_bytes_len,
    uint16_t version);

/* Whether anything was removed, 1 or 0: 11. */
petasunok_count petasunok_has_removal(
    petasunok_removal removal, const uint8_t (*ids)[32], size_t ids_len,
    const uint16_t *epochs, size_t epochs_len, const uint32_t *bytes, size_t bytes_len);

/* All bytes of a removal: 11, 9. */
petasunok_count petasunok_total_removed_bytes(
    petasunok_removal removal, const uint8_t (*ids)[32], size_t ids_len,
    const uint16_t *epochs, size_t epochs_len, const uint32_t *bytes, size_t bytes_len);

/* ---- the head alone: no record is looked at; 11 only for a kind that does not exist */

/* Flags whose bytes were all paid in one epoch, owned where `owned` is not 0. Never refused. */
petasunok_head petasunok_new_single_epoch(uint16_t epoch, uint8_t owned, petasunok_id owner_id);

/* The head with another owner, where it is owned; another head comes back as it is. */
petasunok_flags petasunok_set_owner_id(petasunok_head head, petasunok_id owner_id);

/* The epoch of the bytes that no record counts. */
petasunok_count petasunok_base_epoch(petasunok_head head);

/* The owner or none. */
petasunok_maybe_owner petasunok_owner_id(petasunok_head head);

/* Byte 0 of the flags. */
petasunok_count petasunok_type_byte(petasunok_head head);

/* ---- old bytes */

/* Reads old flag bytes as a map would, writes their canonical bytes, and lists each change in two tables, by its offset in `src` and its
 * number: 1, 2 (owner or base not complete), 10 (`out` has no room for the bytes, or `offsets` or `changes` for the lines). The canonical
 * bytes are at most as many as the old ones, and src_len / 2 + 2 lines are always enough.
 *
 * Flags of kinds 1 and 3: a record that is not complete, or a count of ten bytes that all say that more follow, is cut with all behind it.
 * Records whose count passes 32 bits or whose epoch is not above the base are dropped, and of the others for one epoch all but the last;
 * such a record has one line, the first that fits of too large, not above base and replaced. A record that stays has a line where its
 * count is re-encoded, then one where it is moved: some record before it that stays has a higher epoch. Where none stays the kind becomes
 * 0 or 2, and the first line says so, at offset 0. Flags of kinds 0 and 2: what lies behind the base is cut. Lines ascend by offset.
 * Canonical bytes come back equal and with no line, and no bytes are none. */
petasunok_repaired petasunok_repair(
    const uint8_t *src, size_t src_len, uint8_t *out, size_t out_len,
    size_t *offsets, size_t offsets_len, uint8_t *changes, size_t changes_len);

/* ---- totals */

/* Replaces an element's old flags by new ones in a table of totals, and answers how many rows there are then: 11, 14, 6, 10. Where
 * `old_present` or `new_present` is 0, those flags are absent and not looked at.
 *
 * The table stands in the first `rows` places of three slices: owners, which are 32 zero bytes for unowned flags, epochs, and totals. Rows
 * ascend by owner, then epoch; no pair stands twice, and no total is 0. Each record's count in the old flags is taken from the total at
 * their owner and its epoch, and each in the new flags is added there. A total that comes to 0 loses its row, and a pair that had none gets
 * one; all other rows keep their totals. So the table of no elements has no rows, and a table that is the recount of all elements stays so
 * as they are changed. 6 is for a total that would pass 64 bits. Room for as many rows more as the new flags have records is always
 * enough. */
petasunok_count petasunok_totals_replace(
    size_t rows, uint8_t (*owners)[32], size_t owners_len, uint16_t *epochs, size_t epochs_len, uint64_t *totals, size_t totals_len,
    uint8_t old_present, petasunok_head old_flags,
    const uint16_t *old_epochs, size_t old_epochs_len, const uint32_t *old_counts, size_t old_counts_len,
    uint8_t new_present, petasunok_head new_flags,
    const uint16_t *new_epochs, size_t new_epochs_len, const uint32_t *new_counts, size_t new_counts_len);

/* The same where the rows are structs, in the first `rows` places of `table`: 11, 14, 6, 10. The three slices are a work area, which may hold
 * anything and overlaps neither the table nor the flags. 10 is also for a slice of it that lacks room for the rows before or after; more
 * room than that is not looked at. A refusal changes neither the table nor the work area. After an accepted change the work area has the new
 * rows at its start, then what is left of the rows before, and behind both it is untouched.
 *
 * This is for those whose table is structs already: all rows are copied into the work area and back. Those who can choose keep three slices
 * and call petasunok_totals_replace, which needs no work area. */
petasunok_count petasunok_totals_replace_structs(
    size_t rows, petasunok_total *table, size_t table_len,
    uint8_t (*owners)[32], size_t owners_len, uint16_t *epochs, size_t epochs_len, uint64_t *totals, size_t totals_len,
    uint8_t old_present, petasunok_head old_flags,
    const uint16_t *old_epochs, size_t old_epochs_len, const uint32_t *old_counts, size_t old_counts_len,
    uint8_t new_present, petasunok_head new_flags,
    const uint16_t *new_epochs, size_t new_epochs_len, const uint32_t *new_counts, size_t new_counts_len);

#ifdef __cplusplus
}
#endif

#endif

/* Every function of petasunok.h in one form, and what holds of every answer. */
#include "calls.h"
#include <string.h>

const size_t widths[PARTS] = {
    [BYTES] = 1, [OTHER_BYTES] = 1, [OURS_EPOCHS] = 2, [OURS_COUNTS] = 4, [THEIRS_EPOCHS] = 2, [THEIRS_COUNTS] = 4,
    [REMOVAL_IDS] = 32, [REMOVAL_EPOCHS] = 2, [REMOVAL_BYTES] = 4, [OUT] = 1, [EPOCHS] = 2, [COUNTS] = 4,
    [LEFT_IDS] = 32, [LEFT_EPOCHS] = 2, [LEFT_BYTES] = 4,
    [OFFSETS] = sizeof(size_t), [CHANGES] = 1, [TOTAL_OWNERS] = 32, [TOTAL_EPOCHS] = 2, [TOTALS] = 8,
    [TOTAL_STRUCTS] = sizeof(petasunok_total), [WORK_OWNERS] = 32, [WORK_EPOCHS] = 2, [WORK_TOTALS] = 8,
};

/* ---- answers of every sort as one */

#define OF(name, type, ...) \
    static told of_##name(type a) { return (told){__VA_ARGS__}; }

OF(flags, petasunok_flags, .refusal = a.refusal, .present = a.present, .head = a.head)
OF(head, petasunok_head, .present = 1, .head = a)
OF(count, petasunok_count, .refusal = a.refusal, .count = a.count)
OF(size, uint32_t, .count = a)
OF(owner, petasunok_owner, .refusal = a.refusal, .which = a.which)
OF(maybe_owner, petasunok_maybe_owner, .refusal = a.refusal, .present = a.present, .id = a.id)
OF(sum, petasunok_sum, .refusal = a.refusal, .removal = a.removal)
OF(value_split, petasunok_value_split, .refusal = a.refusal, .removal = a.removal, .visited = a.visited)
OF(repaired, petasunok_repaired, .refusal = a.refusal, .count = a.bytes, .lines = a.lines)

/* ---- the calls */

#define PART(i) g->parts[i].at, g->parts[i].len
#define OURS g->ours, PART(OURS_EPOCHS), PART(OURS_COUNTS)
#define THEIRS g->theirs, PART(THEIRS_EPOCHS), PART(THEIRS_COUNTS)
#define REMOVAL g->removal, PART(REMOVAL_IDS), PART(REMOVAL_EPOCHS), PART(REMOVAL_BYTES)
#define LEFT PART(LEFT_IDS), PART(LEFT_EPOCHS), PART(LEFT_BYTES)
#define ROOM PART(EPOCHS), PART(COUNTS)
#define TABLE_OF_TOTALS g->rows, PART(TOTAL_OWNERS), PART(TOTAL_EPOCHS), PART(TOTALS)
#define TABLE_OF_STRUCTS g->rows, PART(TOTAL_STRUCTS), PART(WORK_OWNERS), PART(WORK_EPOCHS), PART(WORK_TOTALS)
#define CHANGE g->present, OURS, g->theirs_present, THEIRS
#define CALL(name, of, arguments) \
    static told name(const given *g) { return of(petasunok_##name arguments); }

CALL(deserialize, of_flags, (PART(BYTES), ROOM))
CALL(deserialize_single_epoch, of_flags, (PART(BYTES), ROOM))
CALL(deserialize_multi_epoch, of_flags, (PART(BYTES), ROOM))
CALL(deserialize_single_epoch_owned, of_flags, (PART(BYTES), ROOM))
CALL(deserialize_multi_epoch_owned, of_flags, (PART(BYTES), ROOM))
CALL(serialize, of_count, (OURS, PART(OUT)))
CALL(serialized_size, of_count, (OURS))
CALL(approximate_size, of_size, (g->yes, g->present, g->epoch, g->size))
CALL(combine_owner_id, of_owner, (PART(BYTES), PART(OTHER_BYTES), g->strategy))
CALL(combine_added_bytes, of_flags, (OURS, THEIRS, g->amount, g->strategy, ROOM))
CALL(optional_combine_added_bytes, of_flags, (g->present, OURS, THEIRS, g->amount, g->strategy, ROOM))
CALL(combine_removed_bytes, of_flags, (OURS, THEIRS, REMOVAL, g->strategy, ROOM))
CALL(optional_combine_removed_bytes, of_flags, (g->present, OURS, THEIRS, REMOVAL, g->strategy, ROOM))
CALL(split_key_removed_bytes, of_sum, (OURS, g->amount, LEFT))
CALL(split_value_removed_bytes, of_value_split, (OURS, g->amount, LEFT))
CALL(add_assign, of_sum, (g->left, LEFT, REMOVAL, g->version))
CALL(has_removal, of_count, (REMOVAL))
CALL(total_removed_bytes, of_count, (REMOVAL))
CALL(new_single_epoch, of_head, (g->epoch, g->yes, g->id))
CALL(set_owner_id, of_flags, (g->ours, g->id))
CALL(base_epoch, of_count, (g->ours))
CALL(owner_id, of_maybe_owner, (g->ours))
CALL(type_byte, of_count, (g->ours))
CALL(repair, of_repaired, (PART(BYTES), PART(OUT), PART(OFFSETS), PART(CHANGES)))
CALL(totals_replace, of_count, (TABLE_OF_TOTALS, CHANGE))

/* The rows before or after, whichever are more, stand in the work area. */
static told totals_replace_structs(const given *g) {
    told answer = of_count(petasunok_totals_replace_structs(TABLE_OF_STRUCTS, CHANGE));
    if (answer.refusal == 0) answer.worked = answer.count > g->rows ? (size_t)answer.count : g->rows;
    return answer;
}

#define READS (BIT(BYTES) | ROOM_TABLES)
#define MERGES (OURS_TABLES | THEIRS_TABLES | ROOM_TABLES)
#define TAKES_MERGE (TAKES_OURS | TAKES_THEIRS | TAKES_STRATEGY)
#define LIST_REFUSALS (BIT(2) | BIT(3) | BIT(10))
#define ADDING_REFUSALS (BIT(4) | BIT(5) | BIT(6) | BIT(10) | BIT(11))
#define REMOVING_REFUSALS (ADDING_REFUSALS | BIT(7))
#define CHANGES_TOTALS (OURS_TABLES | THEIRS_TABLES)
#define TAKES_CHANGE (TAKES_OURS | TAKES_THEIRS | TAKES_ROWS | TAKES_PRESENT | TAKES_THEIRS_PRESENT)
#define CHANGE_REFUSALS (BIT(6) | BIT(10) | BIT(11) | BIT(14))

const call calls[CALLS] = {
    {"deserialize", deserialize, FLAGS, READS, 0, BIT(1) | LIST_REFUSALS},
    {"deserialize_single_epoch", deserialize_single_epoch, FLAGS, READS, 0, BIT(2)},
    {"deserialize_multi_epoch", deserialize_multi_epoch, FLAGS, READS, 0, LIST_REFUSALS},
    {"deserialize_single_epoch_owned", deserialize_single_epoch_owned, FLAGS, READS, 0, BIT(2)},
    {"deserialize_multi_epoch_owned", deserialize_multi_epoch_owned, FLAGS, READS, 0, LIST_REFUSALS},
    {"serialize", serialize, NUMBER, OURS_TABLES | BIT(OUT), TAKES_OURS, BIT(10) | BIT(11)},
    {"serialized_size", serialized_size, NUMBER, OURS_TABLES, TAKES_OURS, BIT(11)},
    {"approximate_size", approximate_size, NUMBER, 0, 0, 0},
    {"combine_owner_id", combine_owner_id, WHOSE, BIT(BYTES) | BIT(OTHER_BYTES), TAKES_STRATEGY,
     BIT(1) | BIT(2) | BIT(3) | BIT(5) | BIT(11)},
    {"combine_added_bytes", combine_added_bytes, FLAGS, MERGES, TAKES_MERGE, ADDING_REFUSALS},
    {"optional_combine_added_bytes", optional_combine_added_bytes, FLAGS, MERGES, TAKES_MERGE | TAKES_PRESENT, ADDING_REFUSALS},
    {"combine_removed_bytes", combine_removed_bytes, FLAGS, MERGES | REMOVAL_TABLES, TAKES_MERGE | TAKES_REMOVAL, REMOVING_REFUSALS},
    {"optional_combine_removed_bytes", optional_combine_removed_bytes, FLAGS, MERGES | REMOVAL_TABLES,
     TAKES_MERGE | TAKES_REMOVAL | TAKES_PRESENT, REMOVING_REFUSALS},
    {"split_key_removed_bytes", split_key_removed_bytes, SUM, OURS_TABLES | LEFT_TABLES, TAKES_OURS, BIT(10) | BIT(11)},
    {"split_value_removed_bytes", split_value_removed_bytes, SPLIT, OURS_TABLES | LEFT_TABLES, TAKES_OURS, BIT(10) | BIT(11)},
    {"add_assign", add_assign, SUM, LEFT_TABLES | REMOVAL_TABLES, TAKES_LEFT | TAKES_REMOVAL, BIT(10) | BIT(11)},
    {"has_removal", has_removal, NUMBER, REMOVAL_TABLES, TAKES_REMOVAL, BIT(11)},
    {"total_removed_bytes", total_removed_bytes, NUMBER, REMOVAL_TABLES, TAKES_REMOVAL, BIT(9) | BIT(11)},
    {"new_single_epoch", new_single_epoch, HEAD, 0, 0, 0},
    {"set_owner_id", set_owner_id, HEAD, 0, TAKES_OURS, BIT(11)},
    {"base_epoch", base_epoch, NUMBER, 0, TAKES_OURS, BIT(11)},
    {"owner_id", owner_id, MAYBE_OWNER, 0, TAKES_OURS, BIT(11)},
    {"type_byte", type_byte, NUMBER, 0, TAKES_OURS, BIT(11)},
    {"repair", repair, REPAIRED, BIT(BYTES) | BIT(OUT) | LINE_TABLES, 0, BIT(1) | BIT(2) | BIT(10)},
    {"totals_replace", totals_replace, TABLE, CHANGES_TOTALS | TOTAL_TABLES, TAKES_CHANGE, CHANGE_REFUSALS},
    {"totals_replace_structs", totals_replace_structs, TABLE, CHANGES_TOTALS | BIT(TOTAL_STRUCTS) | WORK_TABLES, TAKES_CHANGE, CHANGE_REFUSALS},
};

/* ---- what holds of every answer */

int same_head(const petasunok_head *a, const petasunok_head *b) {
    return a->kind == b->kind && a->base == b->base && a->records == b->records && memcmp(a->owner, b->owner, 32) == 0;
}

int same_removal(const petasunok_removal *a, const petasunok_removal *b) {
    return a->kind == b->kind && a->bytes == b->bytes && a->rows == b->rows;
}

int same_told(const told *a, const told *b) {
    return a->refusal == b->refusal && a->present == b->present && a->which == b->which && a->count == b->count
        && same_head(&a->head, &b->head) && same_removal(&a->removal, &b->removal) && a->visited == b->visited && a->lines == b->lines
        && a->worked == b->worked && memcmp(a->id.bytes, b->id.bytes, 32) == 0;
}

int same_places(int part, const void *a, const void *b, size_t places) {
    const petasunok_total *x = a, *y = b;
    size_t i;
    if (part != TOTAL_STRUCTS) return places == 0 || memcmp(a, b, places * widths[part]) == 0;
    for (i = 0; i < places; i++)
        if (memcmp(x[i].owner, y[i].owner, 32) != 0 || x[i].epoch != y[i].epoch || x[i].total != y[i].total) return 0;
    return 1;
}

size_t places(const told *answer, int part) {
    if (answer->refusal != 0) return 0;
    if (part == OUT || part == TOTAL_STRUCTS || (BIT(part) & TOTAL_TABLES)) return (size_t)answer->count;
    if (BIT(part) & WORK_TABLES) return answer->worked;
    if (BIT(part) & ROOM_TABLES) return answer->head.records;
    if (BIT(part) & LEFT_TABLES) return answer->removal.rows;
    if (BIT(part) & LINE_TABLES) return answer->lines;
    return 0;
}

const char *malformed(const call *c, const given *g, const told *answer) {
    told nothing = {0};
    int holds_flags = c->answer == FLAGS || c->answer == HEAD || c->answer == MAYBE_OWNER;
    int i;
    if (answer->refusal != 0) {
        if (answer->refusal > LAST_REFUSAL || !(c->refusals & BIT(answer->refusal))) return "a refusal that this call does not give";
        nothing.refusal = answer->refusal;
        return same_told(answer, &nothing) ? NULL : "more than the number in a refused answer";
    }
    if (holds_flags && !answer->present && !same_told(answer, &nothing)) return "more than nothing in an answer that holds none";
    if (answer->present > 1 || answer->which > 2) return "a truth value or an owner that does not exist";
    if (answer->head.kind > 3 || answer->removal.kind > 2) return "a kind that does not exist";
    for (i = 0; i < PARTS; i++)
        if ((c->parts & WRITTEN_TABLES & BIT(i)) && places(answer, i) > g->parts[i].len) return "an answer that passes its room";
    return NULL;
}

/* Holds petasunok.h against the library: layouts, every function on the examples of test_cases.c and on what follows from each, heads,
 * null pointers. Each check that fails is printed; the last line says how many held. */
#include "test_cases.h"
#include "texts.h"
#include <stdio.h>
#include <string.h>

/* More room than any example needs. */
#define ENOUGH 60

static unsigned checks, wrong;
static unsigned seen[CALLS]; /* the refusals that each call has given */
static unsigned changes_seen; /* the changes that repairs have listed */

/* ---- one check */

static void check(int held, const char *file, int line, const char *what, const char *got, const char *expected) {
    checks++;
    if (held) return;
    wrong++;
    printf("%s:%d: %s: got %s, expected %s\n", file, line, what, got, expected);
}

/* The call that is being checked, where it ends in a signal. */
static struct {
    const char *file, *variant;
    int line, call;
} current;

/* Notes the changes that a repair has listed. */
static void note_changes(const given *g, const told *answer) {
    const uint8_t *changes = g->parts[CHANGES].at;
    size_t i;
    for (i = 0; i < answer->lines; i++)
        if (changes[i] < 32) changes_seen |= BIT(changes[i]);
}

/* Makes a call and checks what it tells, and that it left the lent memory as it should. */
static told check_call(int which, const given *g, const char *file, int line, const char *variant, const char *expected) {
    const char *fault, *got;
    char what[160];
    told answer;
    current.file = file;
    current.variant = variant;
    current.line = line;
    current.call = which;
    answer = ask(&calls[which], g, &fault);
    if (answer.refusal < 32) seen[which] |= BIT(answer.refusal);
    if (fault == NULL) note_changes(g, &answer);
    got = fault != NULL ? fault : text_of(&calls[which], g, &answer);
    snprintf(what, sizeof what, "%s, %s", calls[which].name, variant);
    check(fault == NULL && strcmp(got, expected) == 0, file, line, what, got, expected);
    return answer;
}

/* ---- layouts, as C on x86-64 lays structs out */

#define SIZE(type, bytes) {__LINE__, "sizeof(" #type ")", sizeof(type), bytes}
#define FIELD(type, field, at) {__LINE__, "offsetof(" #type ", " #field ")", offsetof(type, field), at}

static const struct {
    int line;
    const char *what;
    size_t got, expected;
} layouts[] = {
    SIZE(petasunok_head, 48), FIELD(petasunok_head, kind, 0), FIELD(petasunok_head, base, 2), FIELD(petasunok_head, owner, 4),
    FIELD(petasunok_head, records, 40),
    SIZE(petasunok_flags, 56), FIELD(petasunok_flags, refusal, 0), FIELD(petasunok_flags, present, 4), FIELD(petasunok_flags, head, 8),
    SIZE(petasunok_count, 16), FIELD(petasunok_count, refusal, 0), FIELD(petasunok_count, count, 8),
    SIZE(petasunok_removal, 16), FIELD(petasunok_removal, kind, 0), FIELD(petasunok_removal, bytes, 4), FIELD(petasunok_removal, rows, 8),
    SIZE(petasunok_sum, 24), FIELD(petasunok_sum, refusal, 0), FIELD(petasunok_sum, removal, 8),
    SIZE(petasunok_value_split, 32), FIELD(petasunok_value_split, refusal, 0), FIELD(petasunok_value_split, removal, 8),
    FIELD(petasunok_value_split, visited, 24),
    SIZE(petasunok_owner, 8), FIELD(petasunok_owner, refusal, 0), FIELD(petasunok_owner, which, 4),
    SIZE(petasunok_id, 32), FIELD(petasunok_id, bytes, 0),
    SIZE(petasunok_maybe_owner, 40), FIELD(petasunok_maybe_owner, refusal, 0), FIELD(petasunok_maybe_owner, present, 4),
    FIELD(petasunok_maybe_owner, id, 5),
    SIZE(petasunok_repaired, 24), FIELD(petasunok_repaired, refusal, 0), FIELD(petasunok_repaired, bytes, 8),
    FIELD(petasunok_repaired, lines, 16),
    SIZE(petasunok_total, 48), FIELD(petasunok_total, owner, 0), FIELD(petasunok_total, epoch, 32), FIELD(petasunok_total, total, 40),
};

static void check_layouts(void) {
    char got[24], expected[24];
    size_t i;
    for (i = 0; i < sizeof layouts / sizeof *layouts; i++) {
        snprintf(got, sizeof got, "%zu", layouts[i].got);
        snprintf(expected, sizeof expected, "%zu", layouts[i].expected);
        check(layouts[i].got == layouts[i].expected, __FILE__, layouts[i].line, layouts[i].what, got, expected);
    }
}

/* ---- an example, and what follows from it */

/* How much room an example is given. */
typedef struct {
    size_t room[PARTS];
    size_t more; /* places behind what the read tables have to have */
    int side;
} lending;

static lending lending_of(size_t room, size_t more, int side) {
    lending l = {{0}, more, side};
    int i;
    for (i = 0; i < PARTS; i++) l.room[i] = room;
    return l;
}

/* A text, or another where there is none. */
static const char *or_else(const char *text, const char *other) {
    return text != NULL ? text : other;
}

/* How much more one number is than another, if it is. */
static size_t more_than(size_t room, size_t rows) {
    return room > rows ? room - rows : 0;
}

static int is_none(const char *flags) {
    return strcmp(flags, "none") == 0;
}

/* Lends flags, and says whether they are there. Absent ones have a kind that does not exist, more records than any table, and no tables. */
static uint8_t give_maybe(given *g, petasunok_head *head, int epochs, const char *flags, const lending *l) {
    give_flags(g, head, epochs, is_none(flags) ? "255@9/A" : flags, l->more, l->side);
    if (!is_none(flags)) return 1;
    head->records = SIZE_MAX;
    lend_null(g, epochs);
    lend_null(g, epochs + 1);
    return 0;
}

/* Lends everything that an example gives. */
static void build(const example *e, given *g, const lending *l) {
    const call *c = &calls[e->call];
    int i;
    memset(g, 0, sizeof *g);
    g->amount = e->amount;
    g->version = e->version;
    g->strategy = e->strategy;
    if (c->parts & BIT(BYTES)) give_bytes(g, BYTES, e->ours, l->side);
    if (c->parts & BIT(OTHER_BYTES)) give_bytes(g, OTHER_BYTES, e->theirs, l->side);
    if (c->takes & TAKES_OURS) g->present = give_maybe(g, &g->ours, OURS_EPOCHS, e->ours, l);
    if (c->takes & TAKES_THEIRS) g->theirs_present = give_maybe(g, &g->theirs, THEIRS_EPOCHS, e->theirs, l);
    if (c->takes & TAKES_REMOVAL) give_removal(g, &g->removal, REMOVAL_IDS, or_else(e->removal, "none"), l->more, l->side);
    for (i = 0; i < PARTS; i++) {
        if (!(c->parts & WRITTEN_TABLES & BIT(i))) continue;
        lend(g, i, l->room[i], l->side);
        if (l->room[i] == 0 && l->side == AT_THE_START) lend_null(g, i);
    }
    if (c->takes & TAKES_LEFT) {
        give_removal(g, &g->left, LEFT_IDS, e->left, 0, l->side);
        give_removal(g, &g->left, LEFT_IDS, e->left, more_than(l->room[LEFT_IDS], g->left.rows), l->side);
    }
    if (c->takes & TAKES_ROWS) {
        give_totals(g, e->totals, 0, l->side);
        give_totals(g, e->totals, more_than(l->room[TOTALS], g->rows), l->side);
    }
}

/* Builds an example and checks one variant of it. */
static told check_example(const example *e, lending l, const char *variant, const char *expected) {
    given g;
    build(e, &g, &l);
    return check_call(e->call, &g, "c/test_cases.c", e->line, variant, expected);
}

/* The answer stands in just the room that it needs; with one place less in any one table it is refused with 10. */
static void check_room(const example *e, const told *answer) {
    lending exact = lending_of(0, 0, AT_THE_END);
    given g;
    int i;
    for (i = 0; i < PARTS; i++) exact.room[i] = places(answer, i);
    check_example(e, exact, "exact room", e->told);
    exact.side = AT_THE_START;
    check_example(e, exact, "exact room behind a page without access", e->told);
    for (i = 0; i < PARTS; i++) {
        if (!(calls[e->call].parts & WRITTEN_TABLES & BIT(i)) || places(answer, i) == 0) continue;
        build(e, &g, &exact);
        g.parts[i].len = places(answer, i) - 1;
        /* the left removal or the totals do not fit: 11, see check_short; in a work area they do not have to */
        if (!(BIT(i) & WORK_TABLES) && g.parts[i].len < g.left.rows + g.rows) continue;
        check_call(e->call, &g, "c/test_cases.c", e->line, "room one short", "refused 10");
    }
}

/* A count of records or rows that passes one of its tables by one: 11. */
static void check_short(const example *e) {
    lending l = lending_of(ENOUGH, 0, AT_THE_START);
    given g;
    int i;
    for (i = 0; i < PARTS; i++) {
        size_t counted;
        build(e, &g, &l);
        counted = BIT(i) & OURS_TABLES ? g.ours.records
            : BIT(i) & THEIRS_TABLES ? g.theirs.records
            : BIT(i) & REMOVAL_TABLES ? g.removal.rows
            : BIT(i) & LEFT_TABLES ? g.left.rows
            : BIT(i) & (TOTAL_TABLES | BIT(TOTAL_STRUCTS)) ? g.rows : 0;
        if (!(calls[e->call].parts & BIT(i)) || counted == 0 || counted == SIZE_MAX) continue;
        g.parts[i].len = counted - 1;
        check_call(e->call, &g, "c/test_cases.c", e->line, "a count one past its table", "refused 11");
    }
}

/* The values that an example gives, but for absent flags. */
static unsigned given_by(const example *e) {
    unsigned takes = calls[e->call].takes;
    if ((takes & TAKES_OURS) && is_none(e->ours)) takes &= ~TAKES_OURS;
    if ((takes & TAKES_THEIRS) && is_none(e->theirs)) takes &= ~TAKES_THEIRS;
    return takes;
}

/* Kinds, removals and strategies that do not exist: 11. */
static void check_values(const example *e) {
    lending l = lending_of(ENOUGH, 0, AT_THE_END);
    unsigned takes = given_by(e);
    unsigned bit;
    given g;
    int i;
    for (bit = TAKES_STRATEGY; bit <= TAKES_LEFT; bit *= 2) {
        for (i = 0; i < 2; i++) {
            if (!(takes & bit)) continue;
            build(e, &g, &l);
            if (bit == TAKES_OURS) g.ours.kind = i == 0 ? 4 : 255;
            if (bit == TAKES_THEIRS) g.theirs.kind = i == 0 ? 4 : 255;
            if (bit == TAKES_REMOVAL) g.removal.kind = i == 0 ? 3 : 255;
            if (bit == TAKES_LEFT) g.left.kind = i == 0 ? 3 : 255;
            if (bit == TAKES_STRATEGY) g.strategy = i == 0 ? 3 : 255;
            check_call(e->call, &g, "c/test_cases.c", e->line, "a kind or strategy that does not exist", "refused 11");
        }
    }
}

/* As many records or rows as a number can say: 11. */
static void check_most(const example *e) {
    lending l = lending_of(ENOUGH, 0, AT_THE_END);
    unsigned bit;
    given g;
    for (bit = TAKES_OURS; bit <= TAKES_ROWS; bit *= 2) {
        if (!(given_by(e) & bit)) continue;
        build(e, &g, &l);
        if (bit == TAKES_OURS) g.ours.records = SIZE_MAX;
        if (bit == TAKES_THEIRS) g.theirs.records = SIZE_MAX;
        if (bit == TAKES_REMOVAL) g.removal.rows = SIZE_MAX;
        if (bit == TAKES_LEFT) g.left.rows = SIZE_MAX;
        if (bit == TAKES_ROWS) g.rows = SIZE_MAX;
        g.removal.kind = g.left.kind = PETASUNOK_SECTIONED_REMOVAL;
        check_call(e->call, &g, "c/test_cases.c", e->line, "more records or rows than any table has", "refused 11");
    }
}

/* A merge tells the same in its optional form, by whatever truth value ours is there; a change of totals, whatever says so of both. */
static void check_optional(const example *e) {
    static const uint8_t yes[] = {1, 2, 255};
    int merge = e->call == COMBINE_ADDED || e->call == COMBINE_REMOVED;
    lending l = lending_of(ENOUGH, 1, AT_THE_END);
    given g;
    int i;
    if (!merge && calls[e->call].answer != TABLE) return;
    for (i = 0; i < 3; i++) {
        build(e, &g, &l);
        if (g.present) g.present = yes[i];
        if (g.theirs_present) g.theirs_present = yes[2 - i];
        check_call(e->call + merge, &g, "c/test_cases.c", e->line, "another truth value", e->told);
    }
}

/* An example with much room, at both sides of its pages; then what follows from it. */
static told check_from(const example *e) {
    told answer = check_example(e, lending_of(ENOUGH, 0, AT_THE_END), "as it is", e->told);
    example optional = *e;
    check_example(e, lending_of(ENOUGH, 2, AT_THE_START), "longer tables", e->told);
    if (answer.refusal == 0) check_room(e, &answer);
    else check_example(e, lending_of(0, 0, AT_THE_START), "refused also without room", e->told);
    check_short(e);
    check_values(e);
    check_most(e);
    check_optional(e);
    if (e->call == COMBINE_ADDED || e->call == COMBINE_REMOVED) {
        optional.call++;
        if (answer.refusal == 0) check_room(&optional, &answer);
    }
    return answer;
}

/* A change of totals tells the same over structs, also where the work area is shorter than the table and the rows have just room in it. */
static void check_structs(const example *slices) {
    lending l = lending_of(ENOUGH, 0, AT_THE_END);
    example e = *slices;
    told answer;
    if (slices->call != TOTALS_REPLACE) return;
    e.call = TOTALS_REPLACE_STRUCTS;
    answer = check_from(&e);
    l.room[WORK_OWNERS] = l.room[WORK_EPOCHS] = l.room[WORK_TOTALS] = places(&answer, WORK_OWNERS);
    check_example(&e, l, "a long table and a short work area", e.told);
}

/* ---- null pointers */

/* What each call that takes tables tells of unowned flags of kind 0 at 5 and of no removal, where every pointer is null. */
static const char *const with_nulls[CALLS] = {
    [DESERIALIZE] = "none", [READ_SINGLE] = "refused 2", [READ_MULTI] = "refused 2", [READ_SINGLE_OWNED] = "refused 2",
    [READ_MULTI_OWNED] = "refused 2", [SERIALIZE] = "refused 10", [SERIALIZED_SIZE] = "3",
    [COMBINE_OWNER_ID] = "whose 0", [COMBINE_ADDED] = "0@5", [OPTIONAL_ADDED] = "0@5", [COMBINE_REMOVED] = "0@5",
    [OPTIONAL_REMOVED] = "0@5", [SPLIT_KEY] = "none", [SPLIT_VALUE] = "none, visited 0", [ADD_ASSIGN] = "none", [HAS_REMOVAL] = "0",
    [TOTAL_REMOVED] = "0", [REPAIR] = "", [TOTALS_REPLACE] = "totals", [TOTALS_REPLACE_STRUCTS] = "totals",
};

/* Every pointer null; then each alone, beside tables that are not read and room that is not needed. */
static void check_nulls(void) {
    given g;
    int which, null, i;
    for (which = 0; which < CALLS; which++) {
        for (null = -1; null < PARTS && with_nulls[which] != NULL; null++) {
            int written = which == SERIALIZE && null >= 0 && null != OUT;
            if (null >= 0 && !(calls[which].parts & BIT(null))) continue;
            memset(&g, 0, sizeof g);
            g.ours.base = g.theirs.base = 5;
            for (i = 0; i < PARTS; i++) {
                if (null == -1 || null == i) lend_null(&g, i);
                else lend(&g, i, BIT(i) & (BIT(BYTES) | BIT(OTHER_BYTES)) ? 0 : 3, AT_THE_END);
            }
            check_call(which, &g, __FILE__, __LINE__, "null pointers", written ? "000005" : with_nulls[which]);
        }
    }
}

/* ---- the head alone, and the size before flags are made */

static const struct {
    int line;
    uint8_t owned, given, size;
    uint16_t changes;
    const char *told;
} sizes[] = {
    {__LINE__, 0, 0, 9, 9, "3"}, {__LINE__, 1, 0, 9, 9, "35"}, {__LINE__, 2, 0, 0, 0, "35"}, {__LINE__, 255, 0, 0, 0, "35"},
    {__LINE__, 0, 1, 0, 0, "3"}, {__LINE__, 0, 1, 3, 2, "13"}, {__LINE__, 255, 2, 3, 2, "45"}, {__LINE__, 0, 255, 255, 65535, "16842498"},
};

static void check_sizes(void) {
    given g = {.size = 0};
    size_t i;
    for (i = 0; i < sizeof sizes / sizeof *sizes; i++) {
        g.yes = sizes[i].owned;
        g.present = sizes[i].given;
        g.epoch = sizes[i].changes;
        g.size = sizes[i].size;
        check_call(APPROXIMATE_SIZE, &g, __FILE__, sizes[i].line, "a row of sizes", sizes[i].told);
    }
}

/* A head and what the calls on it alone tell. No record is looked at, so any number of records will do. */
static const struct {
    int line;
    const char *head;
    const char *type, *base, *owner, *with_z; /* with_z: the head with the owner z, where it is owned */
} heads[] = {
    {__LINE__, "0@5", "0", "5", "none", "0@5 records 7"},
    {__LINE__, "1@65535", "1", "65535", "none", "1@65535 records 7"},
    {__LINE__, "2@0/A", "2", "0", "owner A", "2@0/z records 7"},
    {__LINE__, "3@256/A", "3", "256", "owner A", "3@256/z records 7"},
    {__LINE__, "0@5/A", "0", "5", "none", "0@5/A records 7"},
    {__LINE__, "4@5", "refused 11", "refused 11", "refused 11", "refused 11"},
    {__LINE__, "255@5/A", "refused 11", "refused 11", "refused 11", "refused 11"},
};

static void check_heads(void) {
    given g = {.size = 0};
    size_t i;
    owner_of('z', g.id.bytes);
    for (i = 0; i < sizeof heads / sizeof *heads; i++) {
        give_flags(&g, &g.ours, OURS_EPOCHS, heads[i].head, 0, AT_THE_END);
        g.ours.records = 7;
        check_call(TYPE_BYTE, &g, __FILE__, heads[i].line, heads[i].head, heads[i].type);
        check_call(BASE_EPOCH, &g, __FILE__, heads[i].line, heads[i].head, heads[i].base);
        check_call(OWNER_ID, &g, __FILE__, heads[i].line, heads[i].head, heads[i].owner);
        check_call(SET_OWNER_ID, &g, __FILE__, heads[i].line, heads[i].head, heads[i].with_z);
    }
}

static void check_new_heads(void) {
    static const uint8_t yes[] = {1, 2, 255};
    given g = {.size = 0};
    int i;
    owner_of('z', g.id.bytes);
    g.epoch = 65535;
    check_call(NEW_SINGLE_EPOCH, &g, __FILE__, __LINE__, "unowned", "0@65535 records 0");
    for (i = 0; i < 3; i++) {
        g.yes = yes[i];
        check_call(NEW_SINGLE_EPOCH, &g, __FILE__, __LINE__, "owned", "2@65535/z records 0");
    }
}

/* Every call has answered, and has given each refusal that it may give; repairs have listed every change. */
static void check_seen(void) {
    char got[16], expected[16];
    int which;
    snprintf(got, sizeof got, "%02X", changes_seen);
    check(changes_seen == 0xFE, __FILE__, __LINE__, "the changes of repairs", got, "FE");
    for (which = 0; which < CALLS; which++) {
        snprintf(got, sizeof got, "%04X", seen[which]);
        snprintf(expected, sizeof expected, "%04X", calls[which].refusals | 1);
        check(seen[which] == (calls[which].refusals | 1), __FILE__, __LINE__, calls[which].name, got, expected);
    }
}

static void check_all(void) {
    size_t i;
    check_layouts();
    for (i = 0; i < examples_len; i++) {
        check_from(&examples[i]);
        check_structs(&examples[i]);
    }
    check_nulls();
    check_sizes();
    check_heads();
    check_new_heads();
    check_seen();
}

int main(void) {
    int number;
    if (!lent_open()) {
        puts("c/test.c: there is no memory to lend");
        return 1;
    }
    number = guarded(check_all);
    if (number != 0) {
        printf("%s:%d: %s, %s: it ended in signal %d\n", current.file, current.line, calls[current.call].name, current.variant, number);
        return 1;
    }
    if (wrong > 0) printf("c/test.c: %u of %u checks are wrong\n", wrong, checks);
    else printf("c/test.c: %u checks, all as they should be\n", checks);
    return wrong > 0;
}

/* Random and damaged bytes, tables and numbers through every function of petasunok.h: fuzz SECONDS SEED.
 *
 * The library is an archive without instrumentation, so libFuzzer and AFL++ would see none of its branches; this is a loop of its own.
 * Each table that is lent ends right before a page without access, or begins right behind one. */
#define _DEFAULT_SOURCE
#include "fuzz.h"
#include <signal.h>
#include <stdio.h>
#include <stdlib.h>
#include <string.h>
#include <time.h>
#include <unistd.h>

/* A call that takes longer, in seconds, is taken not to end. */
#define PATIENCE 60

static uint64_t seed;
static long seconds;
static unsigned long long rounds;
static int current; /* the call of this round */
static given input; /* and what it is given */
static unsigned long long tally[CALLS][LAST_REFUSAL + 1];

/* ---- findings */

static void print_part(int i) {
    const uint8_t *at = input.parts[i].at;
    size_t n, bytes = input.parts[i].len * widths[i];
    fprintf(stderr, "  table %d: %zu places of %zu bytes%s", i, input.parts[i].len, widths[i], at == NULL ? ", null" : ":");
    for (n = 0; n < bytes && n < 48; n++) fprintf(stderr, " %02x", at[n]);
    fprintf(stderr, bytes > 48 ? " ..\n" : "\n");
}

static void print_head(const char *name, const petasunok_head *head) {
    fprintf(stderr, "  %s: kind %u base %u owner %02x..%02x records %zu\n", name, head->kind, head->base, head->owner[0], head->owner[31],
            head->records);
}

static void print_removal(const char *name, const petasunok_removal *removal) {
    fprintf(stderr, "  %s: kind %u bytes %u rows %zu\n", name, removal->kind, removal->bytes, removal->rows);
}

/* Says what was found, and at which seed and round; ends the program. */
static void found(const char *what) {
    const call *c = &calls[current];
    int i;
    fprintf(stderr, "fuzz: %s: %s (seed %llu, round %llu)\n", c->name, what, (unsigned long long)seed, rounds);
    if (c->takes & TAKES_OURS) print_head("ours", &input.ours);
    if (c->takes & TAKES_THEIRS) print_head("theirs", &input.theirs);
    if (c->takes & TAKES_REMOVAL) print_removal("removal", &input.removal);
    if (c->takes & TAKES_LEFT) print_removal("left", &input.left);
    if (c->takes & TAKES_ROWS) fprintf(stderr, "  rows %zu, theirs present %u\n", input.rows, input.theirs_present);
    fprintf(stderr, "  amount %u strategy %u present %u version %u epoch %u\n", input.amount, input.strategy, input.present, input.version,
            input.epoch);
    for (i = 0; i < PARTS; i++)
        if (c->parts & BIT(i)) print_part(i);
    fflush(stderr);
    _exit(1);
}

/* A read or a write out of bounds, a fault of another kind, or a call that does not end. */
static void found_signal(int number) {
    char what[48];
    snprintf(what, sizeof what, number == SIGALRM ? "the call does not end" : "it ended in signal %d", number);
    found(what);
}

/* ---- a round */

/* The same input with more room than any answer needs, in memory of its own. */
static void make_roomy(given *roomy) {
    static uint64_t room[PARTS][4096];
    int i;
    *roomy = input;
    for (i = 0; i < PARTS; i++) {
        if (!(calls[current].parts & WRITTEN_TABLES & BIT(i))) continue;
        roomy->parts[i].at = room[i];
        roomy->parts[i].len = sizeof room[i] / widths[i];
        if (input.parts[i].len > 0) memcpy(room[i], input.parts[i].at, input.parts[i].len * widths[i]);
    }
}

/* Whether an answer has room in what the call is lent. */
static int fits(const told *answer) {
    int i;
    for (i = 0; i < PARTS; i++)
        if ((calls[current].parts & BIT(i)) && places(answer, i) > input.parts[i].len) return 0;
    return 1;
}

/* Whether the answer stands alike in the lent tables and in the roomy ones. */
static int stands_alike(const told *answer, const given *roomy) {
    int i;
    for (i = 0; i < PARTS; i++)
        if ((calls[current].parts & BIT(i)) && !same_places(i, input.parts[i].at, roomy->parts[i].at, places(answer, i))) return 0;
    return 1;
}

/* What is wrong with an answer, beside the one that the same input has with much room. */
static const char *compare(const told *answer, const told *wide, const given *roomy) {
    if (wide->refusal == 10) return "10, and there is more room than any answer needs";
    if (wide->refusal != 0) return answer->refusal == wide->refusal ? NULL : "with more room it is refused otherwise";
    if (!fits(wide)) return answer->refusal == 10 ? NULL : "the room is short, and the refusal is not 10";
    if (!same_told(answer, wide)) return answer->refusal == 10 ? "10, and the answer has room" : "with more room the answer is another";
    return stands_alike(answer, roomy) ? NULL : "with more room something else is written";
}

static void one_round(void) {
    const call *c = &calls[current = (int)below(CALLS)];
    const char *fault;
    given roomy;
    told wide, answer;
    int bad;
    make_input(&input, current);
    bad = improper(c, &input);
    if (!bad) note_before(&input);
    make_roomy(&roomy);
    wide = c->run(&roomy);
    answer = ask(c, &input, &fault);
    if (fault != NULL) found(fault);
    tally[current][answer.refusal]++;
    if (bad != (answer.refusal == 11)) found(bad ? "what is not proper is not refused with 11" : "11, and everything is proper");
    if (bad) return;
    fault = compare(&answer, &wide, &roomy);
    if (fault == NULL) fault = wide.refusal == 0 ? broken_law(current, &roomy, &wide) : broken_refusal(current, &roomy, wide.refusal);
    if (fault != NULL) found(fault);
    if (wide.refusal == 0) keep_answer(current, &roomy, &wide);
}

/* ---- the run */

static void print_summary(void) {
    int which, refusal;
    for (which = 0; which < CALLS; which++) {
        printf("%-32s answered %llu", calls[which].name, tally[which][0]);
        for (refusal = 1; refusal <= LAST_REFUSAL; refusal++)
            if (tally[which][refusal] > 0) printf(", refused %d: %llu", refusal, tally[which][refusal]);
        printf("\n");
    }
    printf("fuzz: %llu rounds, at least %llu calls, nothing found (seed %llu)\n", rounds, 2 * rounds, (unsigned long long)seed);
}

/* Rounds for as many seconds as were asked; says each second how many there were. */
static void run(void) {
    time_t start = time(NULL), last = start, now = start;
    seed_random(seed);
    open_store();
    alarm(PATIENCE);
    for (; now - start < seconds; rounds++) {
        one_round();
        if (rounds % 64 != 0 || (now = time(NULL)) == last) continue;
        fprintf(stderr, "fuzz: %ld seconds, %llu rounds\n", (long)(now - start), rounds);
        last = now;
        alarm(PATIENCE);
    }
}

int main(int argc, char **argv) {
    int number;
    if (argc != 3) {
        fprintf(stderr, "usage: fuzz SECONDS SEED\n");
        return 2;
    }
    seconds = strtol(argv[1], NULL, 10);
    seed = strtoull(argv[2], NULL, 10);
    fprintf(stderr, "fuzz: %ld seconds, seed %llu\n", seconds, (unsigned long long)seed);
    if (!lent_open()) {
        fprintf(stderr, "fuzz: there is no memory to lend\n");
        return 1;
    }
    number = guarded(run);
    if (number != 0) found_signal(number);
    print_summary();
    return 0;
}

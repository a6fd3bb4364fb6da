/* Memory to lend to a call, and whether the call left it as it should. */
#define _DEFAULT_SOURCE
#include "lent.h"
#include <setjmp.h>
#include <signal.h>
#include <string.h>
#include <sys/mman.h>

#define PAGE 4096
/* So much junk beside a table, on the side of the accessible memory, is looked at too. */
#define MARGIN 64
#define OPEN_BYTES (LENT_MOST + PAGE)

/* What is looked at of a part: the table and the junk beside it. */
typedef struct {
    uint8_t *at;
    size_t len;
} window;

static uint8_t *pages[PARTS];
static window windows[PARTS];
static uint8_t before[PARTS][LENT_MOST + MARGIN];

int lent_open(void) {
    int i;
    for (i = 0; i < PARTS; i++) {
        uint8_t *all = mmap(NULL, OPEN_BYTES + 2 * PAGE, PROT_NONE, MAP_PRIVATE | MAP_ANONYMOUS, -1, 0);
        if (all == MAP_FAILED || mprotect(all + PAGE, OPEN_BYTES, PROT_READ | PROT_WRITE) != 0) return 0;
        pages[i] = all + PAGE;
    }
    return 1;
}

void lend(given *g, int part, size_t len, int side) {
    static unsigned junk;
    size_t bytes = len * widths[part];
    uint8_t *at = side == AT_THE_END ? pages[part] + OPEN_BYTES - bytes : pages[part];
    windows[part].at = side == AT_THE_END ? at - MARGIN : at;
    windows[part].len = bytes + MARGIN;
    junk = junk * 29 + 71;
    memset(windows[part].at, (int)(junk >> 8 & 255), windows[part].len);
    g->parts[part].at = at;
    g->parts[part].len = len;
}

void lend_null(given *g, int part) {
    windows[part].len = 0;
    g->parts[part].at = NULL;
    g->parts[part].len = 0;
}

/* Whether a part is what it was, but for the places of the answer. */
static int kept(const given *g, const told *answer, int part) {
    size_t bytes = places(answer, part) * widths[part];
    size_t start, behind;
    if (windows[part].len == 0) return 1;
    start = (size_t)((uint8_t *)g->parts[part].at - windows[part].at);
    behind = start + bytes;
    return memcmp(windows[part].at, before[part], start) == 0
        && memcmp(windows[part].at + behind, before[part] + behind, windows[part].len - behind) == 0;
}

/* Whether a work area has the new rows at its start, and behind them what is left of the rows before. */
static int worked_well(const given *g, const told *answer) {
    uint8_t(*owners)[32] = g->parts[WORK_OWNERS].at;
    const uint16_t *epochs = g->parts[WORK_EPOCHS].at;
    const uint64_t *totals = g->parts[WORK_TOTALS].at;
    const window *table = &windows[TOTAL_STRUCTS];
    size_t i;
    for (i = 0; i < places(answer, WORK_OWNERS); i++) {
        size_t at = (size_t)((uint8_t *)g->parts[TOTAL_STRUCTS].at - table->at) + i * sizeof(petasunok_total);
        petasunok_total row;
        memcpy(&row, (i < answer->count ? table->at : before[TOTAL_STRUCTS]) + at, sizeof row);
        if (memcmp(owners[i], row.owner, 32) != 0 || epochs[i] != row.epoch || totals[i] != row.total) return 0;
    }
    return 1;
}

told ask(const call *c, const given *g, const char **fault) {
    told answer;
    int i;
    for (i = 0; i < PARTS; i++)
        if (c->parts & BIT(i)) memcpy(before[i], windows[i].at, windows[i].len);
    answer = c->run(g);
    *fault = malformed(c, g, &answer);
    for (i = 0; i < PARTS && *fault == NULL; i++)
        if ((c->parts & BIT(i)) && !kept(g, &answer, i))
            *fault = answer.refusal != 0 ? "lent memory that a refused call has changed" : "lent memory changed beside the answer";
    if (*fault == NULL && !worked_well(g, &answer)) *fault = "a work area without the rows after and before";
    return answer;
}

/* ---- signals */

static sigjmp_buf fallen;

/* Nothing is done in the handler, since an emulator may run it on a stack that is not aligned. */
static void on_signal(int number) {
    siglongjmp(fallen, number);
}

int guarded(void (*run)(void)) {
    static const int numbers[] = {SIGSEGV, SIGBUS, SIGILL, SIGFPE, SIGABRT, SIGTRAP, SIGALRM};
    struct sigaction action;
    size_t i;
    int number = sigsetjmp(fallen, 1);
    if (number != 0) return number;
    memset(&action, 0, sizeof action);
    action.sa_handler = on_signal;
    for (i = 0; i < sizeof numbers / sizeof *numbers; i++) sigaction(numbers[i], &action, NULL);
    run();
    return 0;
}

/* Measures how many bytes of stack each call of the planner uses, the most on sheets that take each way of the search: a sheet with all places and
 * steps, and one with more live costs at a place than a list has room for, with ample room for arrivals and with room that just fits. The call runs on
 * a thread whose stack was filled with a pattern, and what it wrote over is counted. Prints a Markdown table; fails when a call uses more than LIMIT
 * bytes. */
#include "../host/planner.h"

#include <pthread.h>
#include <stdint.h>
#include <stdio.h>
#include <stdlib.h>
#include <string.h>
#include <sys/mman.h>

enum { LIMIT = PLANNER_MOST_STACK, STACK = 4 << 20, PATTERN = 0xA5, ARRIVALS = 2000000, COSTS = 4000, BYTES = PLANNER_MOST_BYTES, DIAMONDS = 8 };

static uint8_t sheet[BYTES], written[BYTES];
static size_t sheet_len, room = ARRIVALS;
static uint32_t arrivals[ARRIVALS], list[COSTS];
static PlannerSheetRead answer;
static uint32_t refusal;
static uint64_t rows;

/* The sheet: a grid of 8 by 8 places, waiting dearer at each fifth, each occupied for three steps, a closure of each corridor to the right, and 255
 * steps. */
static void write_sheet(void)
{
    char *at = (char *)sheet;
    at += sprintf(at, "S,64,255,0,63,0\n");
    for (int v = 0; v < 64; v++) at += sprintf(at, "W,%d,%d,0,0\n", v, v % 5 == 4 ? 3 : 1);
    for (int v = 0; v < 64; v++) {
        if (v % 8 < 7) at += sprintf(at, "C,%d,%d,%d,1,0\n", v, v + 1, 1 + v % 3);
        if (v < 56) at += sprintf(at, "C,%d,%d,1,%d,1\n", v, v + 8, v % 4);
    }
    for (int v = 0; v < 64; v++)
        if (v % 8 < 7) at += sprintf(at, "X,%d,%d,%d\n", v, v + 1, 4 + v);
    for (int v = 0; v < 64; v++) at += sprintf(at, "O,%d,%d,%d\n", v, 20 + v, 22 + v);
    sheet_len = (size_t)(at - (char *)sheet);
}

/* A row of diamonds: two ways from each place to the next, one at a charge and one at a noise, so that each diamond doubles the front. */
static void write_diamonds(void)
{
    char *at = (char *)sheet;
    int last = 3 * DIAMONDS;
    at += sprintf(at, "S,%d,255,0,%d,0\n", last + 1, last);
    for (int v = 0; v <= last; v++) at += sprintf(at, "W,%d,1,1,1\n", v);
    for (int v = 0; v < last; v += 3) {
        at += sprintf(at, "C,%d,%d,%d,0,0\nC,%d,%d,0,%d,0\n", v, v + 1, 1 << v / 3, v, v + 2, 1 << v / 3);
        at += sprintf(at, "C,%d,%d,0,0,0\nC,%d,%d,0,0,0\n", v + 1, v + 3, v + 2, v + 3);
    }
    sheet_len = (size_t)(at - (char *)sheet);
}

static void *idle(void *unused) { return unused; }

static void *run_read(void *unused)
{
    answer = planner_read(sheet, sheet_len);
    refusal = answer.refusal;
    return unused;
}

static void *run_write(void *unused)
{
    const uint32_t *lines = answer.lines;
    refusal = planner_write(answer.head, 5, answer.waits, lines[1] * 4, answer.corridors, lines[2] * 5, answer.closures, lines[3] * 3, answer.occupancies,
                            lines[4] * 3, written, BYTES)
                  .refusal;
    return unused;
}

static void *run_front(void *unused)
{
    PlannerFrontAnswer front = planner_front(sheet, sheet_len, arrivals, room, list, COSTS);
    refusal = front.refusal;
    rows = front.arrivals;
    return unused;
}

static void *run_journey(void *unused)
{
    refusal = planner_journey(sheet, sheet_len, 0, arrivals, room, list, COSTS).refusal;
    return unused;
}

static void *run_kind(void *unused)
{
    refusal = planner_kind('0') != PLANNER_KIND_DIGIT;
    return unused;
}

/* The bytes of a new thread's stack that differ from the pattern after the function ran. */
static size_t touched(void *(*run)(void *))
{
    uint8_t *stack = mmap(NULL, STACK, PROT_READ | PROT_WRITE, MAP_PRIVATE | MAP_ANONYMOUS, -1, 0);
    pthread_attr_t attributes;
    pthread_t thread;
    size_t kept = 0;
    if (stack == MAP_FAILED) abort();
    memset(stack, PATTERN, STACK);
    pthread_attr_init(&attributes);
    if (pthread_attr_setstack(&attributes, stack, STACK) || pthread_create(&thread, &attributes, run, NULL) || pthread_join(thread, NULL)) abort();
    while (kept < STACK && stack[kept] == PATTERN) kept++;
    munmap(stack, STACK);
    return STACK - kept;
}

/* The most that a call takes on the sheets, if none of them is refused. */
static size_t most(void *(*run)(void *), size_t empty)
{
    size_t use[3];
    uint32_t refusals = 0;
    for (int way = 0; way < 3; way++) {
        if (way == 0) write_sheet(); else write_diamonds();
        room = ARRIVALS;
        if (way == 2) {
            run_front(NULL);
            room = rows * PLANNER_ARRIVAL_WIDTH;
        }
        if (run == run_write) run_read(NULL);
        use[way] = touched(run) - empty;
        refusals |= refusal;
    }
    refusal = refusals;
    return use[0] > use[1] ? (use[0] > use[2] ? use[0] : use[2]) : (use[1] > use[2] ? use[1] : use[2]);
}

int main(void)
{
    struct { const char *name; void *(*run)(void *); } calls[] = {
        {"planner_read", run_read}, {"planner_write", run_write}, {"planner_front", run_front}, {"planner_journey", run_journey},
        {"planner_kind", run_kind}};
    size_t empty = touched(idle);
    int status = 0;
    printf("| call | bytes of stack |\n|---|---:|\n");
    for (size_t i = 0; i < sizeof calls / sizeof *calls; i++) {
        size_t use = most(calls[i].run, empty);
        printf("| `%s` | %zu |\n", calls[i].name, use);
        if (refusal != 0 || use > LIMIT) {
            printf("FAILED: %s, refusal %u, at most %d bytes\n", calls[i].name, refusal, LIMIT);
            status = 1;
        }
    }
    return status;
}

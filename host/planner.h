/* The planner's calls for a host in C or C++, in crates/planner/out/libplanner.a (made by `rt lib` there).
 *
 * The sheet, the front, the tie rule and the refusals are those of document 01, "The corridor sheet and the journeys
 * it offers", with what document 02 changed (E2: the time to unload; E3: PLANNER_MONTH_LINES; E4: the kinds of bytes;
 * E5: the closures; E6: PLANNER_LATE; E8: waiting costs by place; E9: the tie rule); their open points are decided in
 * docs/DECISIONS.md. What each call hands back and leaves in every lent buffer is proved of the calls in
 * crates/planner/src/lib.rt. That this header declares those calls is not proved; tests/host runs each of them through
 * it.
 *
 * The lines of a sheet come in the order S, W, C, X, O: one S, one W for each place, up to 256 of each other kind.
 *
 * The S line is `S,places,steps,start,goal,u`: the count of places, 1 to 64, the last step, where a journey starts and
 * ends, and the steps that unloading takes, 0 to 99. An arrival at the goal at step A counts only if the goal is free
 * at each step from A to A + u, and A + u is at most the last step. A journey is lawful only if its arrival counts; the
 * arrival step handed back is A.
 *
 * A W line, `W,place,w1,w2,w3`, tells the cost of waiting one step at the place, each figure 0 to 60,000. Every place
 * has one, 0 first, then 1, and so on to the last.
 *
 * A closure, `X,from,to,step`, between the C and the O lines, closes the corridor from the one place to the other to a
 * cart that would depart by it at that step, 0 to 255; one at the last step or past it has no effect. The other
 * direction is not closed by it: for a bed that is moved towards the cart the sheet names the cart's direction.
 *
 * The costs handed back, one for each journey driven, make a month. The program of bin/month, which is not in the
 * archive, takes them as lines `M,c1,c2,c3`, 1 to 4,096 of them, each figure 0 to 15,300,000, the most that a journey
 * can cost, and prints for each figure, 1 to 3, a line `A,figure,total,least,greatest,mean`: all exact but the mean,
 * the nearest whole number, a half going to the even neighbour.
 *
 * Holds for every call:
 * - An array is passed as a pointer and a length, the count of its elements. A pointer is never null, not even where
 *   the length is 0 (pass a valid pointer), and a pointer to uint32_t is aligned as one.
 * - A buffer lent to be written overlaps neither the other buffers lent to the same call nor the sheet or the groups.
 *   This is not checked, and nothing is promised where it is broken.
 * - A call ends and writes only what it is lent to be written. A call of a sheet or of groups refuses rather than
 *   fails: `refusal` is 0 or one number of PlannerRefusal, `line` is the line at fault, counted from 1, or 0 where no
 *   line is at fault. With a refusal every other field is 0.
 * - Kept, of a buffer, means: each element holds what it held before the call.
 * - A call keeps nothing between calls, allocates nothing and needs of the C library memcpy and memset alone. The
 *   archive has no data that is written and at most 64 bytes of constants beside its code. Calls may run on several
 *   threads at once, each with buffers of its own; they may share a sheet that none of them writes.
 * - A call's own memory is the stack, at most PLANNER_MOST_STACK bytes. That and the figure at each call are measured
 *   (tests/stack, on sheets that take each way of the search; docs/DECISIONS.md, "Stack"), not proved.
 */
#ifndef PLANNER_H
#define PLANNER_H

#include <stddef.h>
#include <stdint.h>

#ifdef __cplusplus
extern "C" {
#endif

#define PLANNER_MOST_BYTES 16384    /* of a sheet that is read; every sheet that can be written fits too */
#define PLANNER_MOST_PLACES 64      /* of a sheet */
#define PLANNER_MOST_LINES 256      /* of corridors, of closures, and of occupancies */
#define PLANNER_MOST_PATH 256       /* places of a journey: steps 0 to 255 */
#define PLANNER_MOST_TABLE 41943039 /* numbers of an arrivals table; past them a search with a large front is hundreds of times slower */
#define PLANNER_MOST_STACK 200000   /* bytes of stack of any call */
#define PLANNER_FIGURES 3           /* of a cost: charge, noise, doors */
#define PLANNER_HEAD_WIDTH 5        /* places, steps, start, goal, u */
#define PLANNER_WAIT_WIDTH 4        /* place, w1, w2, w3 */
#define PLANNER_CORRIDOR_WIDTH 5    /* from, to, c1, c2, c3 */
#define PLANNER_CLOSURE_WIDTH 3     /* from, to, step */
#define PLANNER_OCCUPANCY_WIDTH 3   /* place, first, last */
#define PLANNER_ARRIVAL_WIDTH 5     /* a row of the arrivals table: place, step, c1, c2, c3 */
#define PLANNER_COST_WIDTH 4        /* a row of the front list: c1, c2, c3, arrival step */

/* The refusals of the sheet, 1 to 7, 15 and 16, and those of the host, 8 to 12. PLANNER_TOO_LONG comes first; then the
 * first faulty line is named, tested in the order 2, 3, 7, 4, 6, 15, 16, 5; then 8 and 9, or 8, 10 and 11 for a
 * journey. The writer: 2, then 3, 7, 4, 6, 15, 16, 5 line by line, then 12. */
enum PlannerRefusal {
    PLANNER_SERVED = 0,           /* no refusal */
    /* of the sheet: caused by its writer */
    PLANNER_TOO_LONG = 1,         /* more than PLANNER_MOST_BYTES bytes; line 0 */
    PLANNER_MALFORMED = 2,        /* a first field other than S, W, C, X, O; a wrong count of fields; a bad number;
                                     an empty line; a line feed missing */
    PLANNER_OUT_OF_ORDER = 3,     /* no S line first, or a second S; a line after one of a later kind; a W line of
                                     another place than the next, or one more than places; a C, X or O line before
                                     the last W line; input that ends before it, at the number after its last line
                                     (empty input: 1) */
    PLANNER_OUT_OF_RANGE = 4,     /* a number outside its range */
    PLANNER_NOT_ASCENDING = 5,    /* a C, X or O line not above the one of its kind before */
    PLANNER_REVERSED = 6,         /* a corridor or a closure from a place to itself, or last below first */
    PLANNER_TOO_MANY_LINES = 7,   /* a 257th C, X or O line */
    /* of the host; line 0 */
    PLANNER_ROOM_ARRIVALS = 8,    /* more leading arrivals than room in the arrivals table */
    PLANNER_ROOM_COSTS = 9,       /* more front costs than room in the front list */
    PLANNER_NOT_ON_FRONT = 10,    /* a journey number not on the front */
    PLANNER_ROOM_PATH = 11,       /* a path buffer shorter than the arrival step + 1 */
    PLANNER_ROOM_SHEET = 12,      /* a buffer shorter than the sheet to be written */
    /* of a month, by the program of bin/month: no call of this header hands it back */
    PLANNER_MONTH_LINES = 14,     /* no line, at line 0, or a 4,097th */
    /* of the sheet */
    PLANNER_NO_CORRIDOR = 15,     /* a closure that names no corridor of the sheet, by both its ends */
    PLANNER_LATE = 16             /* an occupancy that begins after the last step; to end after it is no fault */
};

/* The kinds of bytes. */
enum PlannerKind {
    PLANNER_KIND_DIGIT = 0,      /* 0 to 9: bytes 48 to 57 */
    PLANNER_KIND_COMMA = 1,      /* byte 44 */
    PLANNER_KIND_LINE_FEED = 2,  /* byte 10 */
    PLANNER_KIND_LETTER = 3,     /* A to Z: bytes 65 to 90 */
    PLANNER_KIND_OTHER = 4       /* every other byte */
};

/* What planner_read hands back: the sheet as five groups of numbers, zeros past the last line of each. */
typedef struct {
    uint32_t refusal;
    uint32_t line;
    uint32_t lines[5];                                                   /* count of S (1), W, C, X and O lines */
    uint32_t head[PLANNER_HEAD_WIDTH];                                   /* the S line */
    uint32_t waits[PLANNER_MOST_PLACES * PLANNER_WAIT_WIDTH];            /* the W lines, one after the other */
    uint32_t corridors[PLANNER_MOST_LINES * PLANNER_CORRIDOR_WIDTH];     /* the C lines, one after the other */
    uint32_t closures[PLANNER_MOST_LINES * PLANNER_CLOSURE_WIDTH];       /* the X lines, one after the other */
    uint32_t occupancies[PLANNER_MOST_LINES * PLANNER_OCCUPANCY_WIDTH];  /* the O lines, one after the other */
} PlannerSheetRead;

/* What planner_write hands back. */
typedef struct {
    uint32_t refusal;
    uint32_t line;
    uint32_t bytes;  /* count of bytes written */
} PlannerSheetWritten;

/* What planner_front hands back. */
typedef struct {
    uint32_t refusal;
    uint32_t line;
    uint64_t costs;     /* count of front costs; 0 exactly when no lawful journey exists */
    uint64_t arrivals;  /* number of leading arrivals */
} PlannerFrontAnswer;

/* What planner_journey hands back. */
typedef struct {
    uint32_t refusal;
    uint32_t line;
    uint32_t cost[PLANNER_FIGURES];  /* the figures of the front cost with the number asked for */
    uint32_t arrival;                /* the arrival step: the journey has arrival + 1 places */
} PlannerJourneyAnswer;

/* Reads a sheet.
 *
 * Hands back: the five groups by value, which planner_write turns back into the same bytes.
 * Refuses with: the refusals of the sheet, 1 at line 0, the others at the first line at fault.
 * Lent to be written: nothing.
 * Stack: 40,248 bytes measured. */
PlannerSheetRead planner_read(const uint8_t *sheet, size_t sheet_len);

/* Writes the sheet of five groups: the S line's five numbers, four for each place's waiting cost, five for each
 * corridor, three for each closure, three for each occupancy. The lengths are counts of numbers, of a read sheet:
 * PLANNER_HEAD_WIDTH, lines[1] * PLANNER_WAIT_WIDTH, lines[2] * PLANNER_CORRIDOR_WIDTH,
 * lines[3] * PLANNER_CLOSURE_WIDTH and lines[4] * PLANNER_OCCUPANCY_WIDTH.
 *
 * Hands back: the count of bytes written; planner_read turns them back into the same groups.
 * Refuses with: 2 (line 0: head_len is not 5, waits_len no multiple of 4, corridors_len none of 5, closures_len or
 * occupancies_len none of 3); 3 to 7, 15 and 16 (the first line at fault, as counted in the sheet to be written); 12
 * (line 0). 3 is for waits alone: a row of another place than the next, or one more than places, at its line; too few,
 * at the line after the last of them, also where no line follows. PLANNER_MOST_BYTES bytes are always enough.
 * out: the bytes of the sheet, and past them kept. Refused: kept.
 * Stack: 12,760 bytes measured. */
PlannerSheetWritten planner_write(const uint32_t *head, size_t head_len, const uint32_t *waits, size_t waits_len,
                                  const uint32_t *corridors, size_t corridors_len, const uint32_t *closures,
                                  size_t closures_len, const uint32_t *occupancies, size_t occupancies_len,
                                  uint8_t *out, size_t out_len);

/* Works out the front of a sheet: every cost of a lawful journey that no lawful journey's cost dominates, each once.
 * Room for arrivals is arrivals_len / PLANNER_ARRIVAL_WIDTH, for costs list_len / PLANNER_COST_WIDTH, rounded down.
 *
 * Hands back: the count of front costs and the number of leading arrivals. An empty front is no refusal.
 * Refuses with: the refusals of the sheet, as planner_read; 8 (line 0); 9 (line 0).
 * arrivals: a row for each leading arrival (place, step, c1, c2, c3), ascending by step, place, cost, then zeros to
 * its end; a row at the goal need not be an arrival that counts. Refused with one of the sheet: kept. Refused with 8 or
 * 9: zeros from its first element to its last.
 * list: a row for each front cost (c1, c2, c3, arrival step), ascending by c1, c2, c3, then zeros to its end. The
 * arrival step is the earliest at which a lawful journey with that cost arrives. Refused: kept.
 * Time: where the table has little more room than needed, or less, the last rows are found by scans of all rows, which
 * can take a hundred times as long. Twice the room needed is enough to be spared that.
 * Stack: 199,096 bytes measured. */
PlannerFrontAnswer planner_front(const uint8_t *sheet, size_t sheet_len, uint32_t *arrivals, size_t arrivals_len,
                                 uint32_t *list, size_t list_len);

/* Works out the journey of a front cost, the one that the tie rule selects: of the journeys with that cost the
 * earliest arrival; of those, compared from step 0 forwards, the one with the lower place number at the first
 * difference. `number` is the cost's number in the front, from 0. The journey is worked out from the sheet anew:
 * nothing that planner_front left is read. Room for arrivals is that of planner_front.
 *
 * Hands back: the cost and the arrival step.
 * Refuses with: the refusals of the sheet, as planner_read; 8 (line 0); 10 (line 0; every number, where the front is
 * empty); 11 (line 0). PLANNER_MOST_PATH places are always enough.
 * arrivals: as planner_front leaves it. Refused with one of the sheet: kept. Refused with 8, 10 or 11: zeros from its
 * first element to its last.
 * path: a place for each step from 0 to the arrival step, then zeros to its end. Refused: kept.
 * Stack: 199,048 bytes measured. */
PlannerJourneyAnswer planner_journey(const uint8_t *sheet, size_t sheet_len, uint32_t number, uint32_t *arrivals,
                                     size_t arrivals_len, uint32_t *path, size_t path_len);

/* Tells the kind of a byte as the reader takes it.
 *
 * Hands back: one number of PlannerKind. Refuses nothing.
 * Lent to be written: nothing.
 * Stack: 0 bytes measured. */
uint32_t planner_kind(uint8_t byte);

#ifdef __cplusplus
}
#endif

#endif

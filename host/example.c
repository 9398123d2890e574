/* Plans a corridor sheet and prints for a person what it offers: each front cost with its arrival step and the places
 * of its journey, one for each step; or in words why the sheet was refused. Usage: example [FILE], without a file
 * standard input. Exit status: 0 served, 1 refused, 2 where the input cannot be read or the output not written. */
#include "planner.h"

#include <inttypes.h>
#include <stdio.h>

#define LENGTH(array) (sizeof(array) / sizeof *(array))

enum { ARRIVALS = 2000, COSTS = 200 };

/* One byte more than a sheet may have, so that a longer input is refused and not cut short. */
static uint8_t sheet[PLANNER_MOST_BYTES + 1];
static size_t sheet_len;
static uint32_t arrivals[ARRIVALS * PLANNER_ARRIVAL_WIDTH];
static uint32_t list[COSTS * PLANNER_COST_WIDTH];
static uint32_t path[PLANNER_MOST_PATH];

/* The refusals in words, by their numbers, as refusals.txt has them. */
static const char *const meanings[] = {
    [PLANNER_SERVED] = "served",
    [PLANNER_TOO_LONG] = "the sheet has more than 16,384 bytes",
    [PLANNER_MALFORMED] = "the line is malformed: its letter, its count of fields, a number or its line feed",
    [PLANNER_OUT_OF_ORDER] = "a line is out of turn or missing: one S, one W for each place from 0 up, then C, X, O",
    [PLANNER_OUT_OF_RANGE] = "a number is outside its range",
    [PLANNER_NOT_ASCENDING] = "the line is not above the line before",
    [PLANNER_REVERSED] = "a corridor or a closure leads from a place to itself, or an occupancy ends before it begins",
    [PLANNER_TOO_MANY_LINES] = "the sheet has more than 256 lines of this kind",
    [PLANNER_ROOM_ARRIVALS] = "there are more leading arrivals than room",
    [PLANNER_ROOM_COSTS] = "there are more front costs than room",
    [PLANNER_NOT_ON_FRONT] = "no journey on the front has this number",
    [PLANNER_ROOM_PATH] = "the path buffer is shorter than the journey",
    [PLANNER_ROOM_SHEET] = "the buffer is shorter than the sheet",
    [PLANNER_MONTH_LINES] = "the month has no line, or more than 4,096",
    [PLANNER_NO_CORRIDOR] = "the closure names no corridor of the sheet",
    [PLANNER_LATE] = "the occupancy begins after the last step",
};

/* What a refusal's number means. */
static const char *meaning_of(uint32_t number)
{
    if (number < LENGTH(meanings) && meanings[number] != NULL)
        return meanings[number];
    return "the planner gives no such number";
}

/* The position of the first byte of a line, counted from 1. */
static size_t start_of(uint32_t line)
{
    size_t at = 0;
    while (line > 1 && at < sheet_len)
        line -= sheet[at++] == '\n';
    return at;
}

/* Prints a line of the sheet; a byte that may not be printable as \xHH. */
static void print_line(uint32_t line)
{
    printf("    \"");
    for (size_t at = start_of(line); at < sheet_len && sheet[at] != '\n'; at++)
        printf(sheet[at] < 32 || sheet[at] > 126 ? "\\x%02x" : "%c", sheet[at]);
    printf("\"\n");
}

/* Prints a refusal in words, with the text of the line at fault; hands back the exit status. */
static int print_refusal(uint32_t number, uint32_t line)
{
    printf("refusal %" PRIu32, number);
    if (line != 0)
        printf(" at line %" PRIu32, line);
    printf(": %s\n", meaning_of(number));
    if (line != 0)
        print_line(line);
    return 1;
}

/* Prints a front cost and its journey; hands back the exit status. */
static int print_journey(uint32_t number)
{
    const uint32_t *cost = list + number * PLANNER_COST_WIDTH;
    PlannerJourneyAnswer journey =
        planner_journey(sheet, sheet_len, number, arrivals, LENGTH(arrivals), path, LENGTH(path));
    if (journey.refusal != PLANNER_SERVED)
        return print_refusal(journey.refusal, journey.line);
    printf("journey %" PRIu32 ": charge %" PRIu32 ", noise %" PRIu32 ", doors %" PRIu32 ", arrival at step %" PRIu32
           "\n    places",
           number, cost[0], cost[1], cost[2], cost[3]);
    for (uint32_t step = 0; step <= journey.arrival; step++)
        printf(" %" PRIu32, path[step]);
    printf("\n");
    return 0;
}

/* Prints what the sheet offers; hands back the exit status. */
static int print_front(void)
{
    PlannerFrontAnswer front = planner_front(sheet, sheet_len, arrivals, LENGTH(arrivals), list, LENGTH(list));
    int status = 0;
    if (front.refusal != PLANNER_SERVED)
        return print_refusal(front.refusal, front.line);
    printf("front costs: %" PRIu64 ", leading arrivals: %" PRIu64 "\n", front.costs, front.arrivals);
    if (front.costs == 0)
        printf("no lawful journey exists\n");
    for (uint32_t number = 0; number < front.costs && status == 0; number++)
        status = print_journey(number);
    return status;
}

int main(int argc, char **argv)
{
    FILE *input = argc > 1 ? fopen(argv[1], "rb") : stdin;
    int status;
    if (input == NULL) {
        perror(argv[1]);
        return 2;
    }
    sheet_len = fread(sheet, 1, sizeof sheet, input);
    if (ferror(input)) {
        perror("example");
        return 2;
    }
    status = print_front();
    return fflush(stdout) == 0 ? status : 2;
}

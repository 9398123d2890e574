/* host/planner.h against the archive: the layout of its structs, with the numbers that the Rust wrapper's test asserts
 * (host/rust/src/calls.rs), a kind of byte, and a sheet on standard input read and written back to standard output. */
#include "../host/planner.h"

#include <stdio.h>

#define AT(type, field, offset) _Static_assert(offsetof(type, field) == (offset), #type "." #field)
#define SIZE(type, size, align) _Static_assert(sizeof(type) == (size) && _Alignof(type) == (align), #type)

SIZE(PlannerSheetRead, 12336, 4);
AT(PlannerSheetRead, refusal, 0);
AT(PlannerSheetRead, line, 4);
AT(PlannerSheetRead, lines, 8);
AT(PlannerSheetRead, head, 28);
AT(PlannerSheetRead, waits, 48);
AT(PlannerSheetRead, corridors, 1072);
AT(PlannerSheetRead, closures, 6192);
AT(PlannerSheetRead, occupancies, 9264);

SIZE(PlannerSheetWritten, 12, 4);
AT(PlannerSheetWritten, refusal, 0);
AT(PlannerSheetWritten, line, 4);
AT(PlannerSheetWritten, bytes, 8);

SIZE(PlannerFrontAnswer, 24, 8);
AT(PlannerFrontAnswer, refusal, 0);
AT(PlannerFrontAnswer, line, 4);
AT(PlannerFrontAnswer, costs, 8);
AT(PlannerFrontAnswer, arrivals, 16);

SIZE(PlannerJourneyAnswer, 24, 4);
AT(PlannerJourneyAnswer, refusal, 0);
AT(PlannerJourneyAnswer, line, 4);
AT(PlannerJourneyAnswer, cost, 8);
AT(PlannerJourneyAnswer, arrival, 20);

static uint8_t text[PLANNER_MOST_BYTES], copy[PLANNER_MOST_BYTES];

int main(void)
{
    size_t len = fread(text, 1, sizeof text, stdin);
    PlannerSheetRead read = planner_read(text, len);
    PlannerSheetWritten written = planner_write(
        read.head, PLANNER_HEAD_WIDTH, read.waits, read.lines[1] * PLANNER_WAIT_WIDTH, read.corridors,
        read.lines[2] * PLANNER_CORRIDOR_WIDTH, read.closures, read.lines[3] * PLANNER_CLOSURE_WIDTH,
        read.occupancies, read.lines[4] * PLANNER_OCCUPANCY_WIDTH, copy, sizeof copy);
    if (planner_kind(',') != PLANNER_KIND_COMMA || planner_kind('Z' + 1) != PLANNER_KIND_OTHER)
        return 1;
    if (read.refusal != PLANNER_SERVED || written.refusal != PLANNER_SERVED || read.lines[0] != 1)
        return 1;
    return fwrite(copy, 1, written.bytes, stdout) == written.bytes ? 0 : 1;
}

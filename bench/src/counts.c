/* Where callgrind counts: it is told to look at the code only there, so that what stands around costs little. */
#include <valgrind/callgrind.h>

void bench_counts_begin(void) { CALLGRIND_START_INSTRUMENTATION; }

/* What was counted since the beginning goes to a file of its own. */
void bench_counts_end(void) {
    CALLGRIND_STOP_INSTRUMENTATION;
    CALLGRIND_DUMP_STATS;
}

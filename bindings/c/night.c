/* A night in small: of 8 ms of air an alarm wants 6 and soil reports want 9. Alarms first, then the rest. */
#include <stdio.h>
#include <tev.h>
static TevPlan plan; static TevWork work; static TevNight night;
int main(void) {
    tev_begin(&plan);
    size_t alarm = tev_column(&plan, -1, 0, 6), soil = tev_column(&plan, 0, 0, 9);
    tev_row(&plan, TEV_LE, 8), tev_entry(&plan, alarm, 1), tev_entry(&plan, soil, 1);
    night.report_costs[soil] = -9;
    TevalumiNight told = tev_night(&plan, &work, &night);
    const int64_t *ms = night.whole + TEVALUMI_HANDED;
    printf("answer %zu: alarm %d ms, soil %d ms\n", told.kind, (int)ms[alarm], (int)ms[soil]);
    return printf("alarms within %g of the most\n", (double)told.first.verdict.value / 1024) < 0;
}

/* North must have at least 2 and all of them at most 5: no start that a plain solve knows. Then prices change. */
#include <math.h>
#include <stdio.h>
#include <tev.h>
static TevPlan plan;
static TevWork work;
int main(void) {
    tev_begin(&plan);
    size_t north = tev_column(&plan, -1, 0, INFINITY), south = tev_column(&plan, 1, 0, INFINITY);
    tev_row(&plan, TEV_GE, 2), tev_entry(&plan, north, 1);
    tev_row(&plan, TEV_LE, 5), tev_entry(&plan, north, 1), tev_entry(&plan, south, 1);
    double before = tev_solve_any(&plan, &work).answer.objective;
    plan.costs[south] = -3;
    return printf("%g, then %g\n", before, tev_reprice(&plan, &work).objective) < 0;
}

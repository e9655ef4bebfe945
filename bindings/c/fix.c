/* North's radio is under repair: its column is held at 0, then let go again. */
#include <math.h>
#include <stdio.h>
#include <tev.h>
static TevPlan plan;
static TevWork work;
int main(void) {
    tev_begin(&plan);
    size_t north = tev_column(&plan, -6, 0, INFINITY), south = tev_column(&plan, -2, 0, INFINITY);
    tev_row(&plan, TEV_LE, 9), tev_entry(&plan, north, 2), tev_entry(&plan, south, 1);
    double all = tev_solve(&plan, &work).objective;
    double held = tev_fix(&plan, &work, north, 0).objective;
    return printf("%g, held %g, let go %g\n", all, held, tev_unfix(&plan, &work, north).objective) < 0;
}

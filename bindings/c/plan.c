/* Two tunnels share 9 ms of air; what north sends takes air twice. */
#include <math.h>
#include <stdio.h>
#include <tev.h>
static TevPlan plan;
static TevWork work;
int main(void) {
    tev_begin(&plan);
    size_t north = tev_column(&plan, -6, 0, INFINITY), south = tev_column(&plan, -2, 0, INFINITY);
    tev_row(&plan, TEV_LE, 9);
    tev_entry(&plan, north, 2);
    tev_entry(&plan, south, 1);
    TevalumiAnswer answer = tev_solve(&plan, &work);
    return printf("status %zu: north %g, south %g\n", answer.status, work.values[north], work.values[south]) < 0;
}

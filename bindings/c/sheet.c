/* How much cheaper could another plan be? Then the ninth millisecond is given to south. */
#include <math.h>
#include <stdio.h>
#include <tev.h>
static TevPlan plan;
static TevWork work;
int main(void) {
    tev_begin(&plan);
    size_t north = tev_column(&plan, -6, 0, INFINITY), south = tev_column(&plan, -2, 0, INFINITY);
    tev_row(&plan, TEV_LE, 9), tev_entry(&plan, north, 2), tev_entry(&plan, south, 1);
    SheetVerdict before = tev_audit(&plan, &work);
    size_t refused = tev_edit(&work, TEV_AMOUNT, 0, south, 1);
    printf("gap %g, ", (double)before.value / 1024);
    return printf("edit %zu, gap %g\n", refused, (double)tev_verdict(&work).value / 1024) < 0;
}

/* What every peer's shim has: a problem object that is built before, and a solve from the slack basis. */
#include <math.h>
#include <stddef.h>
#include <stdlib.h>

/* A plan as it is lent; ops are 0 Le, 1 Eq, 2 Ge. */
typedef struct {
    size_t columns, rows, entries;
    const double *costs, *lowers, *uppers;
    const size_t *starts, *cols;
    const double *coeffs;
    const unsigned char *ops;
    const double *rhs;
} Plan;

/* Whether a column starts at its upper bound: where 01's start has it, so that every side starts at one point. */
static inline int starts_up(const Plan *plan, size_t column) {
    return !isinf(plan->uppers[column]) && (plan->costs[column] < 0 || isinf(plan->lowers[column]));
}

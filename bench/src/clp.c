/* Clp's primal or dual simplex, with nothing around it: no presolve, no crash, no scaling. */
#include "peer.h"
#include <coin/Clp_C_Interface.h>

typedef struct {
    Clp_Simplex *model;
    unsigned char *stats;
} Clp;

enum { FREE = 0, BASIC = 1, AT_UPPER = 2, AT_LOWER = 3 };

/* The matrix goes over by columns. */
static void load(const Plan *plan, Clp_Simplex *model) {
    int *starts = calloc(plan->columns + 1, sizeof *starts), *rows = malloc((plan->entries + 1) * sizeof *rows);
    double *values = malloc((plan->entries + 1) * sizeof *values);
    double *lows = malloc((plan->rows + 1) * sizeof *lows), *ups = malloc((plan->rows + 1) * sizeof *ups);
    size_t at = 0;
    for (size_t j = 0; j < plan->columns; j++) {
        for (size_t i = 0; i < plan->rows; i++) {
            for (size_t k = plan->starts[i]; k < plan->starts[i + 1]; k++) {
                if (plan->cols[k] == j) {
                    rows[at] = (int)i;
                    values[at++] = plan->coeffs[k];
                }
            }
        }
        starts[j + 1] = (int)at;
    }
    for (size_t i = 0; i < plan->rows; i++) {
        lows[i] = plan->ops[i] == 0 ? -INFINITY : plan->rhs[i];
        ups[i] = plan->ops[i] == 2 ? INFINITY : plan->rhs[i];
    }
    Clp_loadProblem(model, (int)plan->columns, (int)plan->rows, starts, rows, values, plan->lowers, plan->uppers, plan->costs, lows, ups);
    free(starts), free(rows), free(values), free(lows), free(ups);
}

void *bench_clp_new(const Plan *plan) {
    Clp *clp = malloc(sizeof *clp);
    clp->model = Clp_newModel();
    clp->stats = malloc(plan->columns + plan->rows);
    Clp_setLogLevel(clp->model, 0);
    Clp_scaling(clp->model, 0);
    load(plan, clp->model);
    for (size_t j = 0; j < plan->columns; j++)
        clp->stats[j] = starts_up(plan, j) ? AT_UPPER : isinf(plan->lowers[j]) ? FREE : AT_LOWER;
    for (size_t i = 0; i < plan->rows; i++)
        clp->stats[plan->columns + i] = BASIC;
    return clp;
}

/* Whether it is optimal. */
int bench_clp_solve(void *problem, int dual, double *objective, size_t *steps) {
    Clp *clp = problem;
    Clp_copyinStatus(clp->model, clp->stats);
    Clp_setNumberIterations(clp->model, 0);
    int status = dual ? Clp_dual(clp->model, 0) : Clp_primal(clp->model, 0);
    *objective = Clp_objectiveValue(clp->model);
    *steps = (size_t)Clp_numberIterations(clp->model);
    return status == 0;
}

void bench_clp_delete(void *problem) {
    Clp *clp = problem;
    Clp_deleteModel(clp->model);
    free(clp->stats);
    free(clp);
}

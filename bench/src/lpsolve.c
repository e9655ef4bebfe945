/* lp_solve's primal or dual simplex, with nothing around it: no presolve, no crash, no scaling. */
#include "peer.h"
#include <lpsolve/lp_lib.h>

typedef struct {
    lprec *lp;
    int *basis;
} LpSolve;

/* A number, or lp_solve's own infinity. */
static double bound(lprec *lp, double number) {
    return isinf(number) ? copysign(get_infinite(lp), number) : number;
}

void *bench_lpsolve_new(const Plan *plan) {
    static const int kinds[] = {LE, EQ, GE};
    LpSolve *made = malloc(sizeof *made);
    lprec *lp = made->lp = make_lp(0, (int)plan->columns);
    int *index = malloc((plan->columns + 1) * sizeof *index), rows = (int)plan->rows;
    set_verbose(lp, NEUTRAL);
    set_scaling(lp, SCALE_NONE);
    set_presolve(lp, PRESOLVE_NONE, 0);
    set_basiscrash(lp, CRASH_NONE);
    set_add_rowmode(lp, TRUE);
    for (size_t i = 0; i < plan->rows; i++) {
        size_t start = plan->starts[i], count = plan->starts[i + 1] - start;
        for (size_t k = 0; k < count; k++)
            index[k] = (int)plan->cols[start + k] + 1;
        add_constraintex(lp, (int)count, (double *)plan->coeffs + start, index, kinds[plan->ops[i]], plan->rhs[i]);
    }
    set_add_rowmode(lp, FALSE);
    free(index);
    for (size_t j = 0; j < plan->columns; j++) {
        set_obj(lp, (int)j + 1, plan->costs[j]);
        set_bounds(lp, (int)j + 1, bound(lp, plan->lowers[j]), bound(lp, plan->uppers[j]));
    }
    /* The basic rows, then the columns; below 0 at the lower bound. */
    made->basis = malloc((1 + plan->rows + plan->columns) * sizeof *made->basis);
    made->basis[0] = 0;
    for (int i = 1; i <= rows; i++)
        made->basis[i] = -i;
    for (size_t j = 0; j < plan->columns; j++) {
        int column = rows + 1 + (int)j;
        made->basis[column] = starts_up(plan, j) ? column : -column;
    }
    return made;
}

/* Whether it is optimal. */
int bench_lpsolve_solve(void *problem, int dual, double *objective, size_t *steps) {
    LpSolve *made = problem;
    set_simplextype(made->lp, dual ? SIMPLEX_DUAL_DUAL : SIMPLEX_PRIMAL_PRIMAL);
    set_basis(made->lp, made->basis, TRUE);
    int status = solve(made->lp);
    *objective = get_objective(made->lp);
    *steps = (size_t)get_total_iter(made->lp);
    return status == OPTIMAL;
}

void bench_lpsolve_delete(void *problem) {
    LpSolve *made = problem;
    delete_lp(made->lp);
    free(made->basis);
    free(made);
}

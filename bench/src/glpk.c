/* GLPK's primal or dual simplex, with nothing around it. */
#include "peer.h"
#include <glpk.h>

typedef struct {
    glp_prob *prob;
    int columns, *stats;
} Glpk;

void *bench_glpk_new(const Plan *plan) {
    Glpk *glpk = malloc(sizeof *glpk);
    glp_prob *prob = glpk->prob = glp_create_prob();
    glpk->columns = (int)plan->columns;
    glpk->stats = malloc((plan->columns + 1) * sizeof *glpk->stats);
    glp_add_cols(prob, (int)plan->columns);
    glp_add_rows(prob, (int)plan->rows);
    for (size_t j = 0; j < plan->columns; j++) {
        int low = !isinf(plan->lowers[j]), up = !isinf(plan->uppers[j]);
        int fixed = low && plan->lowers[j] == plan->uppers[j];
        int kind = fixed ? GLP_FX : low && up ? GLP_DB : low ? GLP_LO : up ? GLP_UP : GLP_FR;
        glp_set_obj_coef(prob, (int)j + 1, plan->costs[j]);
        glp_set_col_bnds(prob, (int)j + 1, kind, plan->lowers[j], plan->uppers[j]);
        glpk->stats[j] = fixed ? GLP_NS : starts_up(plan, j) ? GLP_NU : low ? GLP_NL : GLP_NF;
    }
    int *index = malloc((plan->columns + 1) * sizeof *index);
    for (size_t i = 0; i < plan->rows; i++) {
        static const int kinds[] = {GLP_UP, GLP_FX, GLP_LO};
        size_t start = plan->starts[i], count = plan->starts[i + 1] - start;
        for (size_t k = 0; k < count; k++)
            index[k + 1] = (int)plan->cols[start + k] + 1;
        glp_set_row_bnds(prob, (int)i + 1, kinds[plan->ops[i]], plan->rhs[i], plan->rhs[i]);
        /* Its arrays begin at 1. */
        glp_set_mat_row(prob, (int)i + 1, (int)count, index, plan->coeffs + start - 1);
    }
    free(index);
    return glpk;
}

/* Whether it is optimal. */
int bench_glpk_solve(void *problem, int dual, double *objective, size_t *steps) {
    Glpk *glpk = problem;
    glp_smcp parm;
    glp_init_smcp(&parm);
    parm.msg_lev = GLP_MSG_OFF;
    parm.meth = dual ? GLP_DUALP : GLP_PRIMAL;
    parm.presolve = GLP_OFF;
    glp_std_basis(glpk->prob);
    for (int j = 0; j < glpk->columns; j++)
        glp_set_col_stat(glpk->prob, j + 1, glpk->stats[j]);
    glp_set_it_cnt(glpk->prob, 0);
    if (glp_simplex(glpk->prob, &parm) != 0)
        return 0;
    *objective = glp_get_obj_val(glpk->prob);
    *steps = (size_t)glp_get_it_cnt(glpk->prob);
    return glp_get_status(glpk->prob) == GLP_OPT;
}

void bench_glpk_delete(void *problem) {
    Glpk *glpk = problem;
    glp_delete_prob(glpk->prob);
    free(glpk->stats);
    free(glpk);
}

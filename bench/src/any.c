/* Plans in the exchange text (docs/EXCHANGE.md) from standard input through GLPK's simplex. A line for each:
   `ID optimal OBJECTIVE`, `ID none`, `ID endless` or `ID ?`. Plans that are said otherwise than they are lent, or
   that GLPK has no name for, are `ID ?`. */
#include <glpk.h>
#include <math.h>
#include <stdint.h>
#include <stdio.h>
#include <stdlib.h>
#include <string.h>

enum { COST, LOWER, UPPER, STARTS, COLS, COEF, OPS, RHS, KINDS };
static const char *const names[KINDS] = {"cost", "lower", "upper", "starts", "cols", "coef", "ops", "rhs"};

typedef struct {
    char id[64];
    double columns, rows, entries;
    double *cells[KINDS];
    size_t lengths[KINDS];
} Plan;

/* Whole numbers are doubles here too: one that isn't its double is too large for any plan. */
static double number(int kind, const char *word) {
    if (kind == STARTS || kind == COLS || kind == OPS)
        return strtod(word, NULL);
    uint64_t bits = strtoull(word, NULL, 16);
    double value;
    memcpy(&value, &bits, sizeof value);
    return value;
}

static void take(Plan *plan, int kind) {
    size_t room = 16;
    plan->lengths[kind] = 0;
    plan->cells[kind] = realloc(plan->cells[kind], room * sizeof(double));
    for (char *word; (word = strtok(NULL, " \n")) != NULL;) {
        if (plan->lengths[kind] == room)
            plan->cells[kind] = realloc(plan->cells[kind], (room *= 2) * sizeof(double));
        plan->cells[kind][plan->lengths[kind]++] = number(kind, word);
    }
}

/* Whether the arrays hold what the sizes say, so that the plan can be handed over. */
static int whole(const Plan *plan) {
    double needed[KINDS] = {plan->columns, plan->columns, plan->columns, plan->rows + 1,
                            plan->entries, plan->entries, plan->rows,    plan->rows};
    if (plan->columns > 128 || plan->rows > 96 || plan->entries > 2048)
        return 0;
    for (int kind = 0; kind < KINDS; kind++)
        if (plan->lengths[kind] < needed[kind])
            return 0;
    const double *starts = plan->cells[STARTS], *cols = plan->cells[COLS];
    for (int i = 0; i < plan->rows; i++) {
        if (starts[i] > starts[i + 1] || plan->cells[OPS][i] > 2)
            return 0;
        for (int k = (int)starts[i]; k < (int)starts[i + 1]; k++)
            if (cols[k] >= plan->columns || (k > (int)starts[i] && cols[k] <= cols[k - 1]))
                return 0;
    }
    for (int j = 0; j < plan->columns; j++)
        if (!isfinite(plan->cells[COST][j]) || plan->cells[LOWER][j] > plan->cells[UPPER][j])
            return 0;
    return starts[0] == 0 && starts[(int)plan->rows] == plan->entries;
}

static glp_prob *problem(const Plan *plan) {
    static const int kinds[] = {GLP_UP, GLP_FX, GLP_LO};
    glp_prob *prob = glp_create_prob();
    int columns = (int)plan->columns, rows = (int)plan->rows;
    if (columns > 0)
        glp_add_cols(prob, columns);
    if (rows > 0)
        glp_add_rows(prob, rows);
    for (int j = 0; j < columns; j++) {
        double low = plan->cells[LOWER][j], up = plan->cells[UPPER][j];
        int kind = isfinite(low) && isfinite(up) ? (low == up ? GLP_FX : GLP_DB)
                   : isfinite(low)               ? GLP_LO
                   : isfinite(up)                ? GLP_UP
                                                 : GLP_FR;
        glp_set_obj_coef(prob, j + 1, plan->cells[COST][j]);
        glp_set_col_bnds(prob, j + 1, kind, low, up);
    }
    for (int i = 0; i < rows; i++) {
        int index[1 + 128], count = 0;
        double value[1 + 128];
        for (int k = (int)plan->cells[STARTS][i]; k < (int)plan->cells[STARTS][i + 1]; k++) {
            index[++count] = (int)plan->cells[COLS][k] + 1;
            value[count] = plan->cells[COEF][k];
        }
        double rhs = plan->cells[RHS][i];
        glp_set_row_bnds(prob, i + 1, kinds[(int)plan->cells[OPS][i]], rhs, rhs);
        glp_set_mat_row(prob, i + 1, count, index, value);
    }
    return prob;
}

static void answer(const Plan *plan) {
    if (!whole(plan)) {
        printf("%s ?\n", plan->id);
        return;
    }
    glp_prob *prob = problem(plan);
    glp_smcp parm;
    glp_init_smcp(&parm);
    parm.msg_lev = GLP_MSG_OFF;
    parm.tm_lim = 10000;
    glp_std_basis(prob);
    int failed = glp_simplex(prob, &parm), status = glp_get_status(prob);
    if (!failed && status == GLP_OPT)
        printf("%s optimal %.17g\n", plan->id, glp_get_obj_val(prob));
    else if (!failed && (status == GLP_NOFEAS || status == GLP_UNBND))
        printf("%s %s\n", plan->id, status == GLP_NOFEAS ? "none" : "endless");
    else
        printf("%s ?\n", plan->id);
    glp_delete_prob(prob);
}

int main(void) {
    Plan plan = {0};
    char *line = NULL;
    size_t room = 0;
    glp_term_out(GLP_OFF);
    while (getline(&line, &room, stdin) > 0) {
        char *key = strtok(line, " \n");
        if (key == NULL)
            continue;
        if (strcmp(key, "plan") == 0) {
            memset(plan.lengths, 0, sizeof plan.lengths);
            snprintf(plan.id, sizeof plan.id, "%s", strtok(NULL, " \n"));
        } else if (strcmp(key, "dims") == 0) {
            plan.columns = number(STARTS, strtok(NULL, " \n"));
            plan.rows = number(STARTS, strtok(NULL, " \n"));
            plan.entries = number(STARTS, strtok(NULL, " \n"));
        } else if (strcmp(key, "end") == 0) {
            answer(&plan);
        }
        for (int kind = 0; kind < KINDS; kind++)
            if (strcmp(key, names[kind]) == 0)
                take(&plan, kind);
    }
    return 0;
}

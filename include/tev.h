/* A thin layer over tevalumi.h: three structs with their arrays inside, and a short call for each of the library's.
 *
 * TevPlan is a plan that is built column by column and row by row. TevWork is what a run leaves and the audit sheet.
 * TevNight is what a night of two stages needs beside them. They are large (some 40, 490 and 110 KB), so let them be
 * static or on the heap. tevalumi.h says what each number and status means; firmware that must save memory lends its
 * own arrays to the calls there. */
#ifndef TEV_H
#define TEV_H

#include <float.h>
#include <string.h>

#include "tevalumi.h"

#ifdef __cplusplus
extern "C" {
#endif

#define TEV_COLUMNS 128
#define TEV_ROWS 96
#define TEV_ENTRIES 2048
#define TEV_BUDGET 10000
#define TEV_TOLERANCE 1e-6
#define TEV_BLOCK 512
#define TEV_FILE (217 * TEV_BLOCK)

/* Comparisons. */
enum { TEV_LE, TEV_EQ, TEV_GE };

/* Kinds of edits. */
enum {
    TEV_AMOUNT = 1,
    TEV_COST,
    TEV_LOWER,
    TEV_UPPER,
    TEV_RIGHT,
    TEV_COEFFICIENT,
    TEV_MULTIPLIER,
    TEV_DROP_LOWER,
    TEV_DROP_UPPER
};

/* Kinds of verdicts. */
enum { TEV_NOT_A_PLAN, TEV_NO_FLOOR, TEV_GAP, TEV_NONE_EXISTS };

/* Kinds of a night's answers. */
enum {
    TEV_NO_GAP = 1,
    TEV_ROWS_FULL,
    TEV_ENTRIES_FULL,
    TEV_COST_BEYOND,
    TEV_FOUND_BEYOND,
    TEV_FIRST_STANDS,
    TEV_HANDED
};

typedef struct {
    size_t columns, rows, entries, budget;
    double tolerance;
    double costs[TEV_COLUMNS], lowers[TEV_COLUMNS], uppers[TEV_COLUMNS];
    size_t starts[TEV_ROWS + 1], cols[TEV_ENTRIES];
    double coeffs[TEV_ENTRIES];
    uint8_t ops[TEV_ROWS];
    double rhs[TEV_ROWS];
} TevPlan;

typedef struct {
    /* What a run leaves: the columns' values, then the kept rows' slacks, of a night one more; its state. */
    double values[TEV_COLUMNS + TEV_ROWS + 1];
    size_t numbers[TEVALUMI_NUMBERS];
    double doubles[TEVALUMI_DOUBLES];
    size_t factor_numbers[TEVALUMI_FACTOR_NUMBERS];
    double factor_coeffs[TEVALUMI_FACTOR_COEFFS];
    /* The audit sheet: its sizes, its plan in whole numbers with amounts and multipliers, its kept numbers. */
    size_t rows, columns;
    int64_t coefs[TEV_ROWS * TEV_COLUMNS], costs[TEV_COLUMNS], lowers[TEV_COLUMNS], uppers[TEV_COLUMNS];
    uint8_t lower_marks[TEV_COLUMNS], upper_marks[TEV_COLUMNS];
    int64_t rhs[TEV_ROWS];
    uint8_t ops[TEV_ROWS];
    int64_t amounts[TEV_COLUMNS], mults[TEV_ROWS];
    int64_t r[TEV_ROWS], d[TEV_COLUMNS], c[1], b[1], counts[4];
    /* A journal's feed: part of a block that waits for the rest, and where the feed stands. */
    uint8_t waiting[TEV_BLOCK];
    size_t feed[4];
} TevWork;

typedef struct {
    /* The costs of the reports; those of the alarms are the plan's. */
    int64_t report_costs[TEV_COLUMNS];
    /* Both stages' sheets, and the amounts that are handed out from TEVALUMI_HANDED on. */
    int64_t whole[TEVALUMI_WHOLE];
} TevNight;

/* An array inside a struct, as the library wants it. */
#define TEV_ARRAY(a) (a), sizeof(a) / sizeof((a)[0])
#define TEV_STATE(w) TEV_ARRAY((w)->numbers), TEV_ARRAY((w)->doubles)
#define TEV_FIGURES(w) \
    TEV_ARRAY((w)->coefs), TEV_ARRAY((w)->costs), TEV_ARRAY((w)->lowers), TEV_ARRAY((w)->uppers), \
        TEV_ARRAY((w)->lower_marks), TEV_ARRAY((w)->upper_marks), TEV_ARRAY((w)->rhs), TEV_ARRAY((w)->ops), \
        TEV_ARRAY((w)->amounts), TEV_ARRAY((w)->mults)
#define TEV_SHEET(w) \
    (w)->rows, (w)->columns, TEV_FIGURES(w), TEV_ARRAY((w)->r), TEV_ARRAY((w)->d), TEV_ARRAY((w)->c), \
        TEV_ARRAY((w)->b), TEV_ARRAY((w)->counts)

/* ---- Plans ----
 * What is added beyond the limits is counted and not stored, so that the solve answers 1. */

static inline void tev_begin(TevPlan *plan) {
    plan->columns = plan->rows = plan->entries = 0;
    plan->budget = TEV_BUDGET;
    plan->tolerance = TEV_TOLERANCE;
    plan->starts[0] = 0;
}

/* A column with its cost and its bounds (-INFINITY, INFINITY: none); its number. */
static inline size_t tev_column(TevPlan *plan, double cost, double lower, double upper) {
    size_t column = plan->columns++;
    if (column < TEV_COLUMNS) {
        plan->costs[column] = cost;
        plan->lowers[column] = lower;
        plan->uppers[column] = upper;
    }
    return column;
}

/* A row with its comparison and its right side; its number. Its entries follow. */
static inline size_t tev_row(TevPlan *plan, uint8_t op, double rhs) {
    size_t row = plan->rows++;
    if (row < TEV_ROWS) {
        plan->ops[row] = op;
        plan->rhs[row] = rhs;
        plan->starts[row + 1] = plan->entries;
    }
    return row;
}

/* An entry of the last row; columns rise within a row. */
static inline void tev_entry(TevPlan *plan, size_t column, double coeff) {
    size_t entry = plan->entries++;
    if (entry < TEV_ENTRIES) {
        plan->cols[entry] = column;
        plan->coeffs[entry] = coeff;
    }
    if (plan->rows <= TEV_ROWS) {
        plan->starts[plan->rows] = plan->entries;
    }
}

/* What every call over a plan and the memory of a run is lent. */
#define TEV_LENT(plan, work) \
    (plan)->columns, (plan)->rows, (plan)->entries, (plan)->budget, (plan)->tolerance, TEV_ARRAY((plan)->costs), \
        TEV_ARRAY((plan)->lowers), TEV_ARRAY((plan)->uppers), TEV_ARRAY((plan)->starts), TEV_ARRAY((plan)->cols), \
        TEV_ARRAY((plan)->coeffs), TEV_ARRAY((plan)->ops), TEV_ARRAY((plan)->rhs), TEV_ARRAY((work)->values), \
        TEV_STATE(work), TEV_ARRAY((work)->factor_numbers), TEV_ARRAY((work)->factor_coeffs)

/* On status 0 work->values has the columns' values, then the kept rows' slacks. */
static inline TevalumiAnswer tev_solve(const TevPlan *plan, TevWork *work) {
    return tevalumi_solve(TEV_LENT(plan, work));
}

/* From any start: where tev_solve answers 7, first with costs 0, then with the plan's own. */
static inline TevalumiAnyAnswer tev_solve_any(const TevPlan *plan, TevWork *work) {
    return tevalumi_solve_any(TEV_LENT(plan, work));
}

/* The solved plan's costs have changed: goes on from what work holds. */
static inline TevalumiAnswer tev_reprice(const TevPlan *plan, TevWork *work) {
    return tevalumi_reprice(TEV_LENT(plan, work));
}

/* Holds a column of the solved plan still, and goes on from what work holds. */
static inline TevalumiAnswer tev_fix(const TevPlan *plan, TevWork *work, size_t column, double value) {
    return tevalumi_fix(TEV_LENT(plan, work), column, value);
}

/* Lets it go. */
static inline TevalumiAnswer tev_unfix(const TevPlan *plan, TevWork *work, size_t column) {
    return tevalumi_unfix(TEV_LENT(plan, work), column);
}

/* ---- The audit sheet of a plan ---- */

/* A whole number that some cell of a sheet could hold; which one may is tevalumi_open's to say. */
static inline int tev_whole(double number) {
    return number >= -2147483648.0 && number <= 2147483648.0 && number == (double)(int64_t)number;
}

/* A bound that a sheet could hold: a whole number, or an infinity, which it holds as an absent bound. */
static inline int tev_bound(double number) {
    return tev_whole(number) || number > DBL_MAX || number < -DBL_MAX;
}

/* Whether a plan's sizes and entries are in place (else 11) and its numbers whole (else 12). */
static inline size_t tev_fits(const TevPlan *plan) {
    size_t i, j, k;
    if (plan->columns > TEV_COLUMNS || plan->rows > TEV_ROWS || plan->entries > TEV_ENTRIES) {
        return 11;
    }
    for (i = 0; i < plan->rows; i++) {
        if (plan->starts[i] > plan->starts[i + 1] || plan->starts[i + 1] > plan->entries) {
            return 11;
        }
    }
    for (k = 0; k < plan->entries; k++) {
        if (plan->cols[k] >= plan->columns) {
            return 11;
        }
        if (!tev_whole(plan->coeffs[k])) {
            return 12;
        }
    }
    for (i = 0; i < plan->rows; i++) {
        if (!tev_whole(plan->rhs[i])) {
            return 12;
        }
    }
    for (j = 0; j < plan->columns; j++) {
        if (!tev_whole(plan->costs[j]) || !tev_bound(plan->lowers[j]) || !tev_bound(plan->uppers[j])) {
            return 12;
        }
    }
    return 0;
}

/* The plan's numbers over the sheet's, with amounts and multipliers 0. 0, or 11 or 12 and nothing changed. */
static inline size_t tev_sheet(const TevPlan *plan, TevWork *work) {
    size_t i, j, k, refused = tev_fits(plan);
    if (refused != 0) {
        return refused;
    }
    work->rows = plan->rows;
    work->columns = plan->columns;
    for (i = 0; i < plan->rows; i++) {
        for (j = 0; j < plan->columns; j++) {
            work->coefs[i * plan->columns + j] = 0;
        }
        for (k = plan->starts[i]; k < plan->starts[i + 1]; k++) {
            work->coefs[i * plan->columns + plan->cols[k]] = (int64_t)plan->coeffs[k];
        }
        work->rhs[i] = (int64_t)plan->rhs[i];
        work->ops[i] = plan->ops[i];
        work->mults[i] = 0;
    }
    for (j = 0; j < plan->columns; j++) {
        work->lower_marks[j] = tev_whole(plan->lowers[j]);
        work->upper_marks[j] = tev_whole(plan->uppers[j]);
        work->costs[j] = (int64_t)plan->costs[j];
        work->lowers[j] = work->lower_marks[j] ? (int64_t)plan->lowers[j] : 0;
        work->uppers[j] = work->upper_marks[j] ? (int64_t)plan->uppers[j] : 0;
        work->amounts[j] = 0;
    }
    return 0;
}

static inline TevalumiWhole tev_amount(double value) {
    return tevalumi_amount(value);
}

static inline TevalumiWhole tev_multiplier(uint8_t op, double price) {
    return tevalumi_multiplier(op, price);
}

/* Amounts and multipliers for the sheet, from the run that work has of this plan. */
static inline TevalumiProposal tev_propose(const TevPlan *plan, TevWork *work) {
    return tevalumi_propose(plan->columns, plan->rows, TEV_ARRAY(plan->starts), TEV_ARRAY(plan->ops),
        TEV_ARRAY(work->values), TEV_STATE(work), TEV_ARRAY(work->amounts), TEV_ARRAY(work->mults));
}

static inline size_t tev_open(TevWork *work) {
    return tevalumi_open(TEV_SHEET(work));
}

static inline SheetVerdict tev_verdict(const TevWork *work) {
    return tevalumi_verdict(TEV_SHEET(work));
}

static inline size_t tev_edit(TevWork *work, size_t kind, size_t row, size_t column, int64_t number) {
    return tevalumi_edit(kind, row, column, number, TEV_SHEET(work));
}

/* Solves the plan, opens its sheet with the whole numbers that the run proposes, and judges it. The verdict's status
 * is the first that isn't 0: the solve's, the sheet's (12 where a number isn't whole), or the proposal's. */
static inline SheetVerdict tev_audit(const TevPlan *plan, TevWork *work) {
    SheetVerdict verdict = {0, 0, 0};
    verdict.status = tev_solve(plan, work).status;
    if (verdict.status == 0) {
        verdict.status = tev_sheet(plan, work);
    }
    if (verdict.status == 0) {
        TevalumiProposal proposal = tev_propose(plan, work);
        verdict.status = proposal.status == 0 && proposal.kind != 0 ? 12 : proposal.status;
    }
    if (verdict.status == 0) {
        verdict.status = tev_open(work);
    }
    return verdict.status == 0 ? tev_verdict(work) : verdict;
}

/* ---- The night: alarms first, then the rest ----
 * The plan's costs are the alarms', and its numbers are put over the sheet's. The status is the call's, or 11 or 12 as
 * tev_sheet says them, and then nothing changed. */
static inline TevalumiNight tev_night(const TevPlan *plan, TevWork *work, TevNight *night) {
    TevalumiNight none;
    size_t refused = tev_sheet(plan, work);
    if (refused != 0) {
        memset(&none, 0, sizeof none);
        none.status = refused;
        return none;
    }
    return tevalumi_night(work->rows, work->columns, TEV_ARRAY(work->coefs), TEV_ARRAY(work->costs),
        TEV_ARRAY(night->report_costs), TEV_ARRAY(work->lowers), TEV_ARRAY(work->uppers), TEV_ARRAY(work->lower_marks),
        TEV_ARRAY(work->upper_marks), TEV_ARRAY(work->rhs), TEV_ARRAY(work->ops), plan->budget, plan->tolerance,
        TEV_ARRAY(work->values), TEV_STATE(work), TEV_ARRAY(work->factor_numbers), TEV_ARRAY(work->factor_coeffs),
        TEV_ARRAY(night->whole));
}

/* ---- Files and journals ---- */

/* The sheet's plan as a file of at most TEV_FILE bytes. */
static inline TevalumiWritten tev_write(const TevWork *work, uint8_t *file, size_t file_len) {
    return tevalumi_write_plan(work->rows, work->columns, TEV_FIGURES(work), file, file_len);
}

/* The sheet's plan from a file; tev_open then works its kept numbers out. */
static inline TevalumiRead tev_read(TevWork *work, const uint8_t *file, size_t file_len) {
    TevalumiRead read = tevalumi_read_plan(file, file_len, TEV_FIGURES(work));
    if (read.status == 0) {
        work->rows = read.rows;
        work->columns = read.columns;
    }
    return read;
}

static inline size_t tev_journal_begin(uint8_t *journal, size_t journal_len) {
    return tevalumi_journal_begin(journal, journal_len);
}

static inline size_t tev_journal_edit(TevWork *work, size_t kind, size_t row, size_t column, int64_t number,
    uint8_t *journal, size_t journal_len) {
    return tevalumi_journal_edit(kind, row, column, number, TEV_SHEET(work), journal, journal_len);
}

static inline size_t tev_journal_undo(TevWork *work, uint8_t *journal, size_t journal_len) {
    return tevalumi_journal_undo(TEV_SHEET(work), journal, journal_len);
}

/* A feed begins; its pieces follow, then its end. */
static inline void tev_feed_begin(TevWork *work) {
    work->feed[0] = work->feed[1] = work->feed[2] = work->feed[3] = 0;
}

static inline size_t tev_journal_feed(TevWork *work, const uint8_t *piece, size_t piece_len) {
    return tevalumi_journal_feed(piece, piece_len, TEV_SHEET(work), TEV_ARRAY(work->waiting), TEV_ARRAY(work->feed));
}

static inline size_t tev_journal_close(const TevWork *work) {
    return tevalumi_journal_close(TEV_ARRAY(work->feed));
}

/* ---- Triangles ----
 * starts has size + 1 cells, rows and vals as many as starts[size] says, list and values size. Where diag is NULL the
 * diagonal is all ones. */
#define TEV_TRIANGLE(starts, rows, vals) starts[size], starts, size + 1, rows, starts[size], vals, starts[size]
#define TEV_DIAG(diag) diag != NULL, diag, (diag != NULL ? size : 0)

static inline TriAnswer tev_lower_sparse(size_t size, const size_t *starts, const size_t *rows, const double *vals,
    const double *diag, size_t *list, size_t listed, double *values) {
    return tevalumi_lower_sparse(
        size, TEV_TRIANGLE(starts, rows, vals), TEV_DIAG(diag), list, size, listed, values, size);
}

static inline TriAnswer tev_upper_sparse(size_t size, const size_t *starts, const size_t *rows, const double *vals,
    const double *diag, size_t *list, size_t listed, double *values) {
    return tevalumi_upper_sparse(
        size, TEV_TRIANGLE(starts, rows, vals), TEV_DIAG(diag), list, size, listed, values, size);
}

static inline TriAnswer tev_lower_dense(size_t size, const size_t *starts, const size_t *rows, const double *vals,
    const double *diag, double *values) {
    return tevalumi_lower_dense(size, TEV_TRIANGLE(starts, rows, vals), TEV_DIAG(diag), values, size);
}

static inline TriAnswer tev_upper_dense(size_t size, const size_t *starts, const size_t *rows, const double *vals,
    const double *diag, double *values) {
    return tevalumi_upper_dense(size, TEV_TRIANGLE(starts, rows, vals), TEV_DIAG(diag), values, size);
}

static inline TriAnswer tev_solve_dense(size_t size, const size_t *lower_starts, const size_t *lower_rows,
    const double *lower_vals, const double *lower_diag, const size_t *upper_starts, const size_t *upper_rows,
    const double *upper_vals, const double *upper_diag, double *values) {
    return tevalumi_solve_dense(size, TEV_TRIANGLE(lower_starts, lower_rows, lower_vals), TEV_DIAG(lower_diag),
        TEV_TRIANGLE(upper_starts, upper_rows, upper_vals), TEV_DIAG(upper_diag), values, size);
}

#undef TEV_ARRAY
#undef TEV_STATE
#undef TEV_FIGURES
#undef TEV_SHEET
#undef TEV_TRIANGLE
#undef TEV_DIAG

#ifdef __cplusplus
}
#endif

#endif

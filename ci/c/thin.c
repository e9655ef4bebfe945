/* The thin layer: each call of tev.h, over night case N2's plan, its sheet, file and journal, and small triangles.
   Compiled as C and as C++. */
#include <math.h>
#include <stdio.h>
#include <string.h>

#include "tev.h"

static int passed;
static int failed;

static void check(int holds, const char *what) {
    if (holds) {
        passed++;
    } else {
        failed++;
        printf("FAILED: %s\n", what);
    }
}

static TevPlan plan;
static TevWork work;
static TevWork other;
static TevNight night;

/* Costs -3, -1; bounds 0 to none, 0 to 2; x0 + x1 <= 4. */
static void n2(void) {
    tev_begin(&plan);
    size_t x = tev_column(&plan, -3, 0, INFINITY), y = tev_column(&plan, -1, 0, 2);
    check(x == 0 && y == 1 && tev_row(&plan, TEV_LE, 4) == 0, "numbers of columns and rows");
    tev_entry(&plan, x, 1);
    tev_entry(&plan, y, 1);
}

static int is(SheetVerdict v, size_t status, size_t kind, int64_t value) {
    return v.status == status && v.kind == kind && v.value == value;
}

static void plans(void) {
    n2();
    TevalumiAnswer a = tev_solve(&plan, &work);
    check(a.status == 0 && a.objective == -12 && a.steps == 2, "N2's answer");
    check(work.values[0] == 4 && work.values[1] == 0 && work.values[2] == 0, "its values and its slack");
    check(work.numbers[TEVALUMI_BASIC_VARS] == 0 && work.doubles[TEVALUMI_OBJECTIVE] == -12, "its state");
    plan.budget = 0;
    check(tev_solve(&plan, &work).status == 21, "the budget of the plan");
    n2();
    plan.tolerance = 2;
    check(tev_solve(&plan, &work).status == 2, "the tolerance of the plan");
}

/* More is wanted than there is: dual steps; and rows that can't be kept together. */
static void dual(void) {
    tev_begin(&plan);
    size_t a = tev_column(&plan, -3, 0, 50), b = tev_column(&plan, -2, 0, 300), c = tev_column(&plan, -5, 0, 750);
    tev_row(&plan, TEV_LE, 900), tev_entry(&plan, a, 1), tev_entry(&plan, b, 1), tev_entry(&plan, c, 1);
    TevalumiAnswer answer = tev_solve(&plan, &work);
    check(answer.status == 0 && answer.objective == -4100 && answer.steps == 1, "a dual step's answer");
    check(work.values[a] == 50 && work.values[b] == 100 && work.values[c] == 750, "its values");
    check(work.doubles[TEVALUMI_DUAL_NORMS] == 1, "its dual norm");
    tev_row(&plan, TEV_GE, 901), tev_entry(&plan, a, 1), tev_entry(&plan, b, 1), tev_entry(&plan, c, 1);
    answer = tev_solve(&plan, &work);
    check(answer.status == 26 && answer.steps == 1 && answer.objective == -4100, "26");
    check(answer.place == 5 && answer.at == 1 && answer.within == 0 && answer.excess == 0, "its kept row");
    check(work.numbers[TEVALUMI_COUNTS + 4] == 26 && work.doubles[TEVALUMI_BASIC_VAR_VALS + 1] == 1, "its state");
}

/* A column held still and let go, and each refusal of the two calls. */
static void fixes(void) {
    n2();
    check(tev_unfix(&plan, &work, 0).status == 41, "no run is kept yet");
    tev_solve(&plan, &work);
    TevalumiAnswer a = tev_fix(&plan, &work, 0, 3);
    check(a.status == 0 && a.objective == -10 && a.steps == 1, "a column held");
    check(work.values[0] == 3 && work.values[1] == 1, "its values");
    size_t place = work.numbers[TEVALUMI_VAR_STATES];
    check(place < 2 && work.numbers[TEVALUMI_FLAGS + place] == 7, "its mark");
    check(tev_fix(&plan, &work, 2, 3).status == 42 && tev_unfix(&plan, &work, 2).status == 42, "an unknown column");
    check(tev_fix(&plan, &work, 1, 3).status == 43 && tev_fix(&plan, &work, 1, NAN).status == 43, "a value outside");
    check(tev_unfix(&plan, &work, 1).status == 44, "a column that isn't held");
    a = tev_unfix(&plan, &work, 0);
    check(a.status == 0 && a.objective == -12 && work.values[0] == 4, "let go");
}

/* A start that neither kind of step begins at; then other costs from there on. */
static void any_start(void) {
    tev_begin(&plan);
    size_t x = tev_column(&plan, -1, 0, INFINITY), y = tev_column(&plan, 1, 0, INFINITY);
    tev_row(&plan, TEV_GE, 2), tev_entry(&plan, x, 1), tev_entry(&plan, y, 1);
    tev_row(&plan, TEV_LE, 5), tev_entry(&plan, x, 1), tev_entry(&plan, y, 1);
    check(tev_solve(&plan, &work).status == 7, "a plain solve refuses it");
    check(tev_reprice(&plan, &work).status == 41, "and leaves no run");
    TevalumiAnyAnswer any = tev_solve_any(&plan, &work);
    check(any.way == 2 && any.costless_steps == 1 && any.answer.steps == 1, "the way and both runs' steps");
    check(any.answer.status == 0 && any.answer.objective == -5 && work.values[x] == 5 && work.values[y] == 0, "its values");
    plan.costs[x] = 3;
    TevalumiAnswer a = tev_reprice(&plan, &work);
    check(a.status == 0 && a.objective == 2 && work.values[x] == 0 && work.values[y] == 2, "other costs");
    any = tev_solve_any(&plan, &work);
    check(any.way == 0 && any.costless_steps == 0 && any.answer.status == 0 && any.answer.objective == 2, "by dual steps");
    plan.costs[x] = -1;
    plan.rhs[1] = 1;
    any = tev_solve_any(&plan, &work);
    check(any.way == 1 && any.answer.status == 26 && any.answer.place == 5, "no plan: the run with costs 0 says so");
}

/* What is too much is counted, stands nowhere, and is refused. */
static void limits(void) {
    tev_begin(&plan);
    for (size_t j = 0; j <= TEV_COLUMNS; j++) {
        tev_column(&plan, 1, 0, 1);
    }
    check(plan.columns == TEV_COLUMNS + 1 && tev_solve(&plan, &work).status == 1, "a column too many");
    check(tev_sheet(&plan, &work) == 11, "and for a sheet");
    tev_begin(&plan);
    tev_column(&plan, 1, 0, 1);
    for (size_t i = 0; i <= TEV_ROWS; i++) {
        tev_row(&plan, TEV_LE, 9);
        tev_entry(&plan, 0, 1);
    }
    check(plan.rows == TEV_ROWS + 1 && tev_solve(&plan, &work).status == 1, "a row too many");
    tev_begin(&plan);
    tev_column(&plan, 1, 0, 1);
    tev_row(&plan, TEV_LE, 9);
    for (size_t k = 0; k <= TEV_ENTRIES; k++) {
        tev_entry(&plan, k, 1);
    }
    check(plan.entries == TEV_ENTRIES + 1 && tev_solve(&plan, &work).status == 1, "an entry too many");
    /* As many as there may be. */
    tev_begin(&plan);
    for (size_t j = 0; j < TEV_COLUMNS; j++) {
        tev_column(&plan, -1, 0, 1);
    }
    for (size_t i = 0; i < TEV_ROWS; i++) {
        tev_row(&plan, TEV_LE, 128);
        for (size_t j = 0; j < 21; j++) {
            tev_entry(&plan, i + j, 1);
        }
    }
    check(plan.entries == 2016 && is(tev_audit(&plan, &work), 0, TEV_GAP, 0), "the largest plan, and its sheet");
}

static void sheets(void) {
    n2();
    check(is(tev_audit(&plan, &work), 0, TEV_GAP, 0), "N5: gap 0");
    check(work.amounts[0] == 4 && work.mults[0] == -3072, "its amount and multiplier");
    check(work.upper_marks[0] == 0 && work.uppers[1] == 2, "its upper bounds");
    check(tev_edit(&work, TEV_AMOUNT, 0, 0, 3) == 0 && is(tev_verdict(&work), 0, TEV_GAP, 3072), "an amount");
    check(tev_edit(&work, TEV_AMOUNT, 0, 0, 5) == 0 && is(tev_verdict(&work), 0, TEV_NOT_A_PLAN, 0), "not a plan");
    check(tev_edit(&work, TEV_RIGHT, 0, 0, 5) == 0 && work.rhs[0] == 5, "a right side");
    check(tev_edit(&work, TEV_MULTIPLIER, 0, 0, -2048) == 0 && is(tev_verdict(&work), 0, TEV_NO_FLOOR, 0), "no floor");
    check(tev_edit(&work, TEV_COST, 0, 1, -2) == 0 && work.costs[1] == -2, "a cost");
    check(tev_edit(&work, TEV_LOWER, 0, 1, 1) == 0 && work.lowers[1] == 1, "a lower bound");
    check(tev_edit(&work, TEV_UPPER, 0, 0, 9) == 0 && work.upper_marks[0] == 1, "an upper bound");
    check(tev_edit(&work, TEV_COEFFICIENT, 0, 1, 7) == 0 && work.coefs[1] == 7, "a coefficient");
    check(tev_edit(&work, TEV_DROP_LOWER, 0, 1, 0) == 0 && work.lower_marks[1] == 0, "a lower bound dropped");
    check(tev_edit(&work, TEV_DROP_UPPER, 0, 0, 0) == 0 && work.upper_marks[0] == 0, "an upper bound dropped");
    check(tev_edit(&work, TEV_AMOUNT, 0, 2, 0) == 11, "11");

    n2();
    plan.costs[1] = 0.5;
    check(is(tev_audit(&plan, &work), 12, 0, 0), "12: a cost that isn't whole");
    n2();
    plan.uppers[1] = 2.5;
    check(tev_sheet(&plan, &work) == 12, "12: a bound that isn't whole");
    n2();
    plan.rhs[0] = 1e12;
    check(tev_sheet(&plan, &work) == 12, "12: a right side that is too large");
    n2();
    plan.cols[1] = 2;
    check(tev_sheet(&plan, &work) == 11 && is(tev_audit(&plan, &work), 3, 0, 0), "a column that isn't there");
    n2();
    plan.starts[0] = 3;
    check(tev_sheet(&plan, &work) == 11, "11: starts that fall");

    /* x >= 5 with x <= 4 and costs 0: none exists */
    tev_begin(&plan);
    tev_column(&plan, 0, 0, 4);
    tev_row(&plan, TEV_GE, 5);
    tev_entry(&plan, 0, 1);
    check(tev_sheet(&plan, &work) == 0, "a sheet without a run");
    work.mults[0] = 1024;
    check(tev_open(&work) == 0 && is(tev_verdict(&work), 0, TEV_NONE_EXISTS, 0), "none exists");

    check(tev_amount(2.5).number == 2 && tev_amount(NAN).kind == 2, "an amount");
    check(tev_multiplier(TEV_LE, 3).number == -3072 && tev_multiplier(TEV_GE, 3).number == 0, "a multiplier");
    n2();
    plan.uppers[1] = 1e6;
    plan.costs[1] = -5;
    plan.rhs[0] = 1e6;
    check(tev_solve(&plan, &work).status == 0, "a run with a large amount");
    TevalumiProposal p = tev_propose(&plan, &work);
    check(p.status == 0 && p.kind == 2 && p.place == 1 && p.answer.beyond == 1e6, "an amount beyond the sheet's limit");
}

/* 8 ms of air: an alarm wants 6 of them, soil as many as its upper bound says. */
static void frost(double most) {
    tev_begin(&plan);
    memset(&night, 0, sizeof night);
    size_t alarm = tev_column(&plan, -1, 0, 6), soil = tev_column(&plan, 0, 0, most);
    tev_row(&plan, TEV_LE, 8), tev_entry(&plan, alarm, 1), tev_entry(&plan, soil, 1);
    night.report_costs[soil] = -9;
}

static void nights(void) {
    const int64_t *first = night.whole + TEVALUMI_FIRST, *second = night.whole + TEVALUMI_SECOND;
    const int64_t *handed = night.whole + TEVALUMI_HANDED;
    frost(9);
    TevalumiNight told = tev_night(&plan, &work, &night);
    check(told.status == 0 && told.kind == TEV_HANDED, "a night is handed out");
    check(handed[0] == 6 && handed[1] == 2, "its amounts");
    check(told.first.audit == 3 && is(told.first.verdict, 0, TEV_GAP, 0) && first[TEVALUMI_STAGE_C] == -6, "its alarms");
    check(told.second.audit == 3 && is(told.second.verdict, 0, TEV_GAP, 0), "its reports");
    check(second[TEVALUMI_STAGE_C] == -18 && second[TEVALUMI_STAGE_MULTS + 1] == -9216, "what the alarms' row costs them");
    frost(INFINITY);
    told = tev_night(&plan, &work, &night);
    check(told.kind == TEV_FIRST_STANDS && told.second.run.status == 7 && handed[0] == 6 && handed[1] == 0, "alarms alone");
    frost(9);
    plan.costs[0] = -4097;
    told = tev_night(&plan, &work, &night);
    check(told.kind == TEV_COST_BEYOND && told.column == 0 && handed[0] == 0, "an alarm cost beyond");
    frost(9);
    plan.budget = 0;
    plan.rhs[0] = 5;
    told = tev_night(&plan, &work, &night);
    check(told.kind == TEV_NO_GAP && told.first.run.status == 21 && told.first.audit == 0, "no gap");
    frost(9);
    for (size_t i = 1; i < TEV_ROWS; i++) {
        tev_row(&plan, TEV_LE, 9);
        tev_entry(&plan, 0, 1);
    }
    check(tev_night(&plan, &work, &night).kind == TEV_ROWS_FULL, "rows full");
    frost(2.5);
    told = tev_night(&plan, &work, &night);
    check(told.status == 12 && told.kind == 0 && told.first.run.status == 0, "12: a bound that isn't whole");
}

static void files(void) {
    static uint8_t file[TEV_FILE];
    n2();
    check(tev_audit(&plan, &work).status == 0, "N5");
    TevalumiWritten w = tev_write(&work, file, sizeof file);
    check(w.status == 0 && w.bytes == 12 * TEV_BLOCK, "its file");
    memset(&other, 9, sizeof other);
    TevalumiRead r = tev_read(&other, file, w.bytes);
    check(r.status == 0 && other.rows == 1 && other.columns == 2, "reading it");
    check(tev_open(&other) == 0 && is(tev_verdict(&other), 0, TEV_GAP, 0), "its verdict");
    file[600] ^= 1;
    r = tev_read(&other, file, w.bytes);
    check(r.status == 32 && r.block == 1 && other.rows == 1, "32, and nothing changed");
}

static void journals(void) {
    static uint8_t journal[2 * TEV_BLOCK];
    n2();
    check(tev_audit(&plan, &work).status == 0, "N5");
    memcpy(&other, &work, sizeof work);
    check(tev_journal_begin(journal, sizeof journal) == 0, "a journal begins");
    check(tev_journal_edit(&work, TEV_AMOUNT, 0, 0, 3, journal, sizeof journal) == 0, "an edit");
    check(tev_journal_edit(&work, TEV_UPPER, 0, 0, 9, journal, sizeof journal) == 0, "another");
    check(tev_journal_undo(&work, journal, sizeof journal) == 0 && work.upper_marks[0] == 0, "taken back");
    tev_feed_begin(&other);
    check(tev_journal_feed(&other, journal, 100) == 0 && tev_journal_close(&other) == 33, "a piece alone");
    check(tev_journal_feed(&other, journal + 100, sizeof journal - 100) == 0, "the rest");
    check(tev_journal_close(&other) == 0, "the end");
    check(other.amounts[0] == 3 && is(tev_verdict(&other), 0, TEV_GAP, 3072), "the sheet that was kept");
    check(tev_journal_undo(&work, journal, sizeof journal) == 0 && work.amounts[0] == 4, "the first taken back");
    check(tev_journal_undo(&work, journal, sizeof journal) == 35, "35: nothing is left");
}

/* [2 0; 2 4] and [1 0.5; 0 4], by columns. */
static void triangles(void) {
    const size_t lower_starts[] = {0, 1, 1}, lower_rows[] = {1}, upper_starts[] = {0, 0, 1}, upper_rows[] = {0};
    const double lower_vals[] = {2}, lower_diag[] = {2, 4}, upper_vals[] = {0.5}, upper_diag[] = {1, 4};
    size_t list[] = {0, 77}, last[] = {1, 77};
    double sparse[] = {6, 99}, dense[] = {6, 0}, ones[] = {6, 0};
    TriAnswer a = tev_lower_sparse(2, lower_starts, lower_rows, lower_vals, lower_diag, list, 1, sparse);
    check(a.status == 0 && a.places == 2 && list[1] == 1 && sparse[0] == 3 && sparse[1] == -1.5, "lower, sparse");
    a = tev_lower_dense(2, lower_starts, lower_rows, lower_vals, lower_diag, dense);
    check(a.status == 0 && dense[0] == 3 && dense[1] == -1.5, "lower, dense");
    a = tev_lower_dense(2, lower_starts, lower_rows, lower_vals, NULL, ones);
    check(a.status == 0 && ones[0] == 6 && ones[1] == -12, "a diagonal of ones");
    double upper[] = {99, 8}, below[] = {3, 8}, both[] = {8, 40};
    a = tev_upper_sparse(2, upper_starts, upper_rows, upper_vals, upper_diag, last, 1, upper);
    check(a.status == 0 && a.places == 2 && last[1] == 0 && upper[1] == 2 && upper[0] == -1, "upper, sparse");
    a = tev_upper_dense(2, upper_starts, upper_rows, upper_vals, upper_diag, below);
    check(a.status == 0 && below[1] == 2 && below[0] == 2, "upper, dense");
    a = tev_solve_dense(2, lower_starts, lower_rows, lower_vals, lower_diag, upper_starts, upper_rows, upper_vals,
        upper_diag, both);
    check(a.status == 0 && both[0] == 3 && both[1] == 2, "two triangles");
}

int main(void) {
    plans();
    dual();
    fixes();
    any_start();
    limits();
    sheets();
    nights();
    files();
    journals();
    triangles();
    printf("%d passed, %d failed\n", passed, failed);
    return failed != 0;
}

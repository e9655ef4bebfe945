/* The library's face as a C program sees it: night case N2's plan with its state, a column of it held still and let go,
   triangles, and night case N5's sheet with its edits and its file; N2's run as whole numbers; a night of two stages. */
#include <math.h>
#include <stdio.h>
#include <string.h>

#include "tevalumi.h"

#define LEN(a) (sizeof(a) / sizeof((a)[0]))
#define ARRAY(a) (a), LEN(a)

static int passed;
static int failed;

static void check(int holds, const char *what) {
    if (holds) {
        passed++;
    } else {
        failed++;
        printf("FAILED: %s\n", what);
    }
}

#define MARK 77

/* N2's plan: costs -3, -1; bounds 0 to none, 0 to 2; x0 + x1 <= 4. Each array has a cell more than needed. */
static size_t factor_numbers[TEVALUMI_FACTOR_NUMBERS + 1];
static double factor_coeffs[TEVALUMI_FACTOR_COEFFS + 1];

#define N2_ARRAYS \
    const double costs[] = {-3, -1}, lowers[] = {0, 0}, uppers[] = {HUGE_VAL, 2}, coeffs[] = {1, 1}, rhs[] = {4}; \
    const size_t starts[] = {0, 2}, cols[] = {0, 1}; \
    const uint8_t ops[] = {0};
#define N2(budget) \
    2, 1, 2, budget, 1e-9, ARRAY(costs), ARRAY(lowers), ARRAY(uppers), ARRAY(starts), ARRAY(cols), ARRAY(coeffs), ARRAY(ops), ARRAY(rhs)

static TevalumiAnswer solve_with(double *values, size_t *numbers, size_t numbers_len, double *doubles, size_t doubles_len, size_t factor_numbers_len,
    size_t factor_coeffs_len) {
    N2_ARRAYS
    return tevalumi_solve(
        N2(10), values, 4, numbers, numbers_len, doubles, doubles_len, factor_numbers, factor_numbers_len, factor_coeffs, factor_coeffs_len);
}

static TevalumiAnswer solve(double *values, size_t *numbers, size_t numbers_len, double *doubles, size_t doubles_len) {
    return solve_with(values, numbers, numbers_len, doubles, doubles_len, LEN(factor_numbers), LEN(factor_coeffs));
}

/* Whether the cells of the array from one place up to another are marked. */
#define MARKED(array, from, to) marked_##array(array, from, to)
#define marked_factor_numbers marked_numbers
#define marked_factor_coeffs marked_doubles

static int marked_numbers(const size_t *numbers, size_t from, size_t to) {
    while (from < to && numbers[from] == MARK) {
        from++;
    }
    return from >= to;
}

static int marked_doubles(const double *doubles, size_t from, size_t to) {
    while (from < to && doubles[from] == MARK) {
        from++;
    }
    return from >= to;
}

static void plan(void) {
    static size_t numbers[TEVALUMI_NUMBERS + 1];
    static double doubles[TEVALUMI_DOUBLES + 1];
    double values[] = {MARK, MARK, MARK, MARK};
    for (size_t i = 0; i < LEN(numbers); i++) {
        numbers[i] = MARK;
    }
    for (size_t i = 0; i < LEN(doubles); i++) {
        doubles[i] = MARK;
    }
    for (size_t i = 0; i < LEN(factor_numbers); i++) {
        factor_numbers[i] = MARK;
    }
    for (size_t i = 0; i < LEN(factor_coeffs); i++) {
        factor_coeffs[i] = MARK;
    }
    TevalumiAnswer a = solve(values, numbers, TEVALUMI_NUMBERS - 1, doubles, TEVALUMI_DOUBLES);
    check(a.status == 1, "numbers a cell short: 1");
    a = solve(values, numbers, TEVALUMI_NUMBERS, doubles, TEVALUMI_DOUBLES - 1);
    check(a.status == 1, "doubles a cell short: 1");
    a = solve_with(values, numbers, LEN(numbers), doubles, LEN(doubles), TEVALUMI_FACTOR_NUMBERS - 1, TEVALUMI_FACTOR_COEFFS);
    check(a.status == 1, "factor_numbers a cell short: 1");
    a = solve_with(values, numbers, LEN(numbers), doubles, LEN(doubles), TEVALUMI_FACTOR_NUMBERS, TEVALUMI_FACTOR_COEFFS - 1);
    check(a.status == 1, "factor_coeffs a cell short: 1");
    check(MARKED(numbers, 0, LEN(numbers)) && MARKED(doubles, 0, LEN(doubles)) && values[0] == MARK, "and nothing changed");

    a = solve(values, numbers, LEN(numbers), doubles, LEN(doubles));
    check(a.status == 0 && a.steps == 2 && a.objective == -12, "N2's answer");
    check(values[0] == 4 && values[1] == 0 && values[2] == 0 && values[3] == MARK, "its values, and the cell past them");
    const size_t *counts = numbers + TEVALUMI_COUNTS;
    check(counts[0] == 1 && counts[1] == 1 && counts[3] == 2 && counts[4] == 0 && counts[5] == 0 && counts[6] == 0, "the counts");
    check(doubles[TEVALUMI_OBJECTIVE] == -12 && numbers[TEVALUMI_KEPT] == 0, "the objective, the kept row");
    check(numbers[TEVALUMI_BASIC_VARS] == 0 && doubles[TEVALUMI_BASIC_VAR_VALS] == 4, "column 0 is basic");
    check(numbers[TEVALUMI_NB_VARS] == 2 && numbers[TEVALUMI_NB_VARS + 1] == 1, "the slack and column 1 are not");
    check(numbers[TEVALUMI_VAR_STATES] == 2 && numbers[TEVALUMI_VAR_STATES + 1] == 1 && numbers[TEVALUMI_VAR_STATES + 2] == 0, "the map back");
    check(doubles[TEVALUMI_PRICES] == 3 && doubles[TEVALUMI_PRICES + 1] == 2, "the prices");
    check(doubles[TEVALUMI_DUAL_NORMS] == 1, "the dual norm");
    check(numbers[TEVALUMI_FLAGS] == 1 && numbers[TEVALUMI_FLAGS + 1] == 1, "the flags");
    check(numbers[TEVALUMI_ETA_LEAVING] == 0 && numbers[TEVALUMI_ETA_STARTS] == 0 && numbers[TEVALUMI_ETA_STARTS + 1] == counts[2], "the eta store");
    check(MARKED(numbers, 1, TEVALUMI_NB_VARS) && MARKED(numbers, TEVALUMI_NB_VARS + 2, TEVALUMI_VAR_STATES) && MARKED(numbers, TEVALUMI_VAR_STATES + 3, TEVALUMI_FLAGS)
            && MARKED(numbers, TEVALUMI_FLAGS + 2, TEVALUMI_ETA_LEAVING) && MARKED(numbers, TEVALUMI_ETA_LEAVING + 1, TEVALUMI_ETA_STARTS)
            && MARKED(numbers, TEVALUMI_ETA_STARTS + 2, TEVALUMI_ETA_ROWS) && MARKED(numbers, TEVALUMI_ETA_ROWS + counts[2], TEVALUMI_KEPT)
            && MARKED(numbers, TEVALUMI_KEPT + 1, TEVALUMI_COUNTS) && MARKED(numbers, TEVALUMI_NUMBERS, LEN(numbers)),
        "all other cells of numbers");
    check(MARKED(doubles, 1, TEVALUMI_NB_VAR_VALS) && MARKED(doubles, TEVALUMI_NB_VAR_VALS + 2, TEVALUMI_PRICES) && MARKED(doubles, TEVALUMI_PRICES + 2, TEVALUMI_NORMS)
            && MARKED(doubles, TEVALUMI_NORMS + 2, TEVALUMI_ETA_COEFFS) && MARKED(doubles, TEVALUMI_ETA_COEFFS + counts[2], TEVALUMI_DUAL_NORMS)
            && MARKED(doubles, TEVALUMI_DUAL_NORMS + 1, TEVALUMI_OBJECTIVE)
            && MARKED(doubles, TEVALUMI_DOUBLES, LEN(doubles)),
        "all other cells of doubles");
    check(MARKED(factor_numbers, 0, LEN(factor_numbers)) && MARKED(factor_coeffs, 0, LEN(factor_coeffs)), "and no factor");
}

/* N2's memory, with a cell more in each array. */
typedef struct {
    double values[4], doubles[TEVALUMI_DOUBLES + 1], factor_coeffs[TEVALUMI_FACTOR_COEFFS + 1];
    size_t numbers[TEVALUMI_NUMBERS + 1], factor_numbers[TEVALUMI_FACTOR_NUMBERS + 1];
} Memory;

#define LENT(m) ARRAY((m)->values), ARRAY((m)->numbers), ARRAY((m)->doubles), ARRAY((m)->factor_numbers), ARRAY((m)->factor_coeffs)

static TevalumiAnswer fix(Memory *m, size_t budget, size_t column, double value) {
    N2_ARRAYS
    return tevalumi_fix(N2(budget), LENT(m), column, value);
}

static TevalumiAnswer unfix(Memory *m, size_t column) {
    N2_ARRAYS
    return tevalumi_unfix(N2(10), LENT(m), column);
}

static int refused(TevalumiAnswer a, size_t status) {
    return a.status == status && a.objective == 0 && a.steps == 0 && a.place == 0 && a.excess == 0;
}

/* A column held still and let go, and each refusal of the two calls; a refused call changes nothing. */
static void fixes(void) {
    N2_ARRAYS
    static Memory m, before;
    memset(&m, 0, sizeof m);
    m.values[3] = m.doubles[TEVALUMI_DOUBLES] = m.factor_coeffs[TEVALUMI_FACTOR_COEFFS] = MARK;
    m.numbers[TEVALUMI_NUMBERS] = m.factor_numbers[TEVALUMI_FACTOR_NUMBERS] = MARK;
    check(refused(unfix(&m, 0), 41), "41: no run is kept");
    check(tevalumi_solve(N2(10), LENT(&m)).status == 0, "N2's run");
    memcpy(&before, &m, sizeof m);
    check(refused(fix(&m, 10001, 0, 3), 1), "1: as a solve");
    check(refused(fix(&m, 10, 2, NAN), 42) && refused(unfix(&m, 2), 42), "42: no such column");
    check(refused(fix(&m, 10, 1, 3), 43) && refused(fix(&m, 10, 0, HUGE_VAL), 43) && refused(fix(&m, 10, 0, NAN), 43), "43: a value outside");
    check(refused(unfix(&m, 0), 44) && refused(unfix(&m, 1), 44), "44: a column that isn't held");
    check(memcmp(&m, &before, sizeof m) == 0, "and nothing changed");
    m.numbers[TEVALUMI_FLAGS] = 4;
    check(refused(fix(&m, 10, 0, 3), 41), "41: flags that no call leaves");
    m.numbers[TEVALUMI_FLAGS] = 1;

    TevalumiAnswer a = fix(&m, 10, 0, 3);
    check(a.status == 0 && a.objective == -10 && a.steps == 1 && a.excess == 0, "a basic column held");
    check(m.values[0] == 3 && m.values[1] == 1 && m.values[2] == 0, "its values");
    size_t place = m.numbers[TEVALUMI_VAR_STATES];
    check(place < 2 && m.numbers[TEVALUMI_FLAGS + place] == 7 && m.doubles[TEVALUMI_NB_VAR_VALS + place] == 3, "its place, its mark");
    a = fix(&m, 10, 0, 4);
    check(a.status == 0 && a.objective == -12 && m.values[0] == 4 && m.numbers[TEVALUMI_VAR_STATES] == place, "held elsewhere");
    check(m.numbers[TEVALUMI_COUNTS + 3] == a.steps && m.numbers[TEVALUMI_COUNTS + 4] == 0, "its counts");
    a = unfix(&m, 0);
    check(a.status == 0 && a.objective == -12 && m.numbers[TEVALUMI_FLAGS + place] != 7, "let go");
    a = fix(&m, 0, 0, 1);
    check(a.status == 21 && a.objective == -12 && a.steps == 0, "21: no budget to move it");
    check(tevalumi_solve(N2(10), LENT(&m)).status == 0 && fix(&m, 10, 0, 5).status == 26, "26: nothing takes the move up");
    check(m.numbers[TEVALUMI_COUNTS + 4] == 26 && refused(fix(&m, 10, 0, 3), 41), "its status, and 41 after it");
    check(m.values[3] == MARK && m.numbers[TEVALUMI_NUMBERS] == MARK && m.doubles[TEVALUMI_DOUBLES] == MARK
            && m.factor_numbers[TEVALUMI_FACTOR_NUMBERS] == MARK && m.factor_coeffs[TEVALUMI_FACTOR_COEFFS] == MARK,
        "the cells past the arrays");
}

/* Other costs over what N2's run left: each refusal, and that none changes a cell. */
static void reprices(void) {
    N2_ARRAYS
    static Memory m, before;
    memset(&m, 0, sizeof m);
    check(refused(tevalumi_reprice(N2(10), LENT(&m)), 41), "41: no run to price anew");
    check(tevalumi_solve(N2(10), LENT(&m)).status == 0, "N2's run again");
    memcpy(&before, &m, sizeof m);
    check(refused(tevalumi_reprice(N2(10001), LENT(&m)), 1), "1: as a solve");
    m.numbers[TEVALUMI_COUNTS + 4] = 21;
    before.numbers[TEVALUMI_COUNTS + 4] = 21;
    check(refused(tevalumi_reprice(N2(10), LENT(&m)), 41), "41: that run wasn't Optimal");
    check(memcmp(&m, &before, sizeof m) == 0, "and nothing changed");
    m.numbers[TEVALUMI_COUNTS + 4] = 0;
    TevalumiAnswer a = tevalumi_reprice(N2(0), LENT(&m));
    check(a.status == 0 && a.steps == 0 && a.objective == -12 && a.excess == 0, "the same costs: no step");
    check(m.numbers[TEVALUMI_COUNTS + 3] == 0 && m.numbers[TEVALUMI_COUNTS + 4] == 0 && m.numbers[TEVALUMI_COUNTS + 6] == 1,
        "its counts, with its own factoring");
    TevalumiAnyAnswer any = tevalumi_solve_any(N2(10), LENT(&m));
    check(any.way == 0 && any.costless_steps == 0 && any.answer.status == 0 && any.answer.steps == 2, "solve's own answer");
    any = tevalumi_solve_any(N2(10001), LENT(&m));
    check(any.way == 0 && refused(any.answer, 1), "and refusal");
}

/* 2 x0 = 6 and 2 x0 + 4 x1 = 0, by columns; cells past the second are marked. */
static void triangle(void) {
    const size_t starts[] = {0, 1, 1};
    const size_t rows[] = {1};
    const double vals[] = {2.0};
    const double diag[] = {2.0, 4.0};
    size_t list[] = {0, 77, 77};
    double values[] = {6.0, 99.0, 99.0};
    TriAnswer a = tevalumi_lower_sparse(2, 1, ARRAY(starts), ARRAY(rows), ARRAY(vals), 1, ARRAY(diag), ARRAY(list), 1, ARRAY(values));
    check(a.status == 0 && a.places == 2, "the sparse solve's answer");
    check(list[0] == 0 && list[1] == 1 && list[2] == 77, "the list, and the cell past it");
    check(values[0] == 3.0 && values[1] == -1.5 && values[2] == 99.0, "the values, and the cell past them");

    double dense[] = {6.0, 0.0};
    a = tevalumi_lower_dense(2, 1, ARRAY(starts), ARRAY(rows), ARRAY(vals), 1, ARRAY(diag), ARRAY(dense));
    check(a.status == 0 && a.places == 2, "the dense solve's answer");
    check(dense[0] == 3.0 && dense[1] == -1.5, "the dense values");

    /* no diagonal lent: all ones */
    double ones[] = {6.0, 0.0};
    a = tevalumi_lower_dense(2, 1, ARRAY(starts), ARRAY(rows), ARRAY(vals), 0, NULL, 0, ARRAY(ones));
    check(a.status == 0 && ones[0] == 6.0 && ones[1] == -12.0, "a diagonal of ones");

    /* row 1 isn't above column 0 */
    a = tevalumi_upper_dense(2, 1, ARRAY(starts), ARRAY(rows), ARRAY(vals), 1, ARRAY(diag), ARRAY(dense));
    check(a.status == 1 && a.places == 0 && dense[0] == 3.0, "1, and nothing changed");
    size_t twice[] = {0, 0};
    double two[] = {6.0, 0.0};
    a = tevalumi_lower_sparse(2, 1, ARRAY(starts), ARRAY(rows), ARRAY(vals), 1, ARRAY(diag), ARRAY(twice), 2, ARRAY(two));
    check(a.status == 3 && two[0] == 6.0, "3, and nothing changed");
    const size_t upper_starts[] = {0, 0, 1};
    const size_t upper_rows[] = {0};
    size_t last[] = {1, 77};
    double upper[] = {99.0, 8.0};
    a = tevalumi_upper_sparse(2, 1, ARRAY(upper_starts), ARRAY(upper_rows), ARRAY(vals), 1, ARRAY(diag), ARRAY(last), 1, ARRAY(upper));
    check(a.status == 0 && last[1] == 0 && upper[1] == 2.0 && upper[0] == -2.0, "an upper triangle");
}

#define LOWER 1, ARRAY(lower_starts), ARRAY(lower_rows), ARRAY(lower_vals)
#define UPPER 1, ARRAY(upper_starts), ARRAY(upper_rows), ARRAY(upper_vals)
#define ONES 0, NULL, 0

/* [2 0; 2 4] times [1 0.5; 0 4] is [2 1; 2 17], which makes 8, 40 of 3, 2. Cells past the needed ones are marked. */
static void factors(void) {
    const size_t lower_starts[] = {0, 1, 1, 77}, lower_rows[] = {1, 77};
    const double lower_vals[] = {2.0, 99.0}, lower_diag[] = {2.0, 4.0, 0.0};
    const size_t upper_starts[] = {0, 0, 1}, upper_rows[] = {0};
    const double upper_vals[] = {0.5}, upper_diag[] = {1.0, 4.0};
    double values[] = {8.0, 40.0, 99.0};
    TriAnswer a = tevalumi_solve_dense(2, LOWER, 1, ARRAY(lower_diag), UPPER, 1, ARRAY(upper_diag), ARRAY(values));
    check(a.status == 0 && a.places == 2, "the answer of two triangles");
    check(values[0] == 3.0 && values[1] == 2.0 && values[2] == 99.0, "their values, and the cell past them");

    /* no diagonals lent: all ones */
    double ones[] = {8.0, 20.0};
    a = tevalumi_solve_dense(2, LOWER, ONES, UPPER, ONES, ARRAY(ones));
    check(a.status == 0 && ones[0] == 6.0 && ones[1] == 4.0, "two diagonals of ones");
    const size_t none[] = {0};
    a = tevalumi_solve_dense(0, 0, ARRAY(none), NULL, 0, NULL, 0, ONES, 0, ARRAY(none), NULL, 0, NULL, 0, ONES, NULL, 0);
    check(a.status == 0 && a.places == 0, "two triangles of size 0");

    a = tevalumi_solve_dense(2, UPPER, ONES, UPPER, ONES, ARRAY(ones));
    check(a.status == 1 && a.places == 0 && ones[0] == 6.0, "1 by the lower triangle, and nothing changed");
    double infinite[] = {8.0, HUGE_VAL};
    a = tevalumi_solve_dense(2, LOWER, ONES, UPPER, 1, upper_diag, 1, ARRAY(infinite));
    check(a.status == 1 && infinite[0] == 8.0, "1 by the upper triangle's short diagonal, before 2");
    a = tevalumi_solve_dense(2, LOWER, ONES, UPPER, ONES, ARRAY(infinite));
    check(a.status == 2 && a.places == 0 && infinite[0] == 8.0, "2 by a value, and nothing changed");
}

/* N2's plan: costs -3, -1; bounds 0 to none, 0 to 2; x0 + x1 <= 4. */
typedef struct {
    int64_t coefs[2], costs[2], lowers[2], uppers[2];
    uint8_t lower_marks[2], upper_marks[2];
    int64_t rhs[1];
    uint8_t ops[1];
    int64_t amounts[2], mults[1];
    int64_t r[1], d[3], c[1], b[1], counts[4];
} Sheet;

static Sheet n2(int64_t amount, int64_t mult) {
    Sheet s = {{1, 1}, {-3, -1}, {0, 0}, {0, 2}, {1, 1}, {0, 1}, {4}, {0}, {amount, 0}, {mult}, {9}, {9, 9, 9}, {9}, {9}, {9, 9, 9, 9}};
    return s;
}

#define PLAN(s) \
    ARRAY((s)->coefs), ARRAY((s)->costs), ARRAY((s)->lowers), ARRAY((s)->uppers), ARRAY((s)->lower_marks), ARRAY((s)->upper_marks), \
        ARRAY((s)->rhs), ARRAY((s)->ops), ARRAY((s)->amounts), ARRAY((s)->mults)
#define KEPT(s) ARRAY((s)->r), ARRAY((s)->d), ARRAY((s)->c), ARRAY((s)->b), ARRAY((s)->counts)

static size_t open_sheet(Sheet *s) {
    return tevalumi_open(1, 2, PLAN(s), KEPT(s));
}

static size_t edit(Sheet *s, size_t kind, size_t row, size_t column, int64_t number) {
    return tevalumi_edit(kind, row, column, number, 1, 2, PLAN(s), KEPT(s));
}

static SheetVerdict judge(const Sheet *s) {
    return tevalumi_verdict(1, 2, PLAN(s), KEPT(s));
}

static int is(SheetVerdict v, size_t status, size_t kind, int64_t value) {
    return v.status == status && v.kind == kind && v.value == value;
}

static void sheet(void) {
    Sheet s = n2(4, -3072);
    check(open_sheet(&s) == 0, "opening");
    check(s.r[0] == 4 && s.d[0] == 0 && s.d[1] == 2048 && s.c[0] == -12 && s.b[0] == -12288, "R, D, C, B");
    check(s.counts[0] == 0 && s.counts[1] == 0 && s.counts[2] == 0 && s.counts[3] == 0, "the counts");
    check(s.d[2] == 9, "a cell past the needed length");
    check(is(judge(&s), 0, 2, 0), "N5: gap 0");

    s = n2(4, -4096);
    check(open_sheet(&s) == 0 && is(judge(&s), 0, 2, 4096), "N5: gap 4096");
    s = n2(4, -2048);
    check(open_sheet(&s) == 0 && is(judge(&s), 0, 1, 0), "N5: no floor");
    s = n2(3, -3072);
    check(open_sheet(&s) == 0 && is(judge(&s), 0, 2, 3072), "N5: gap 3072");
    s = n2(5, -3072);
    check(open_sheet(&s) == 0 && is(judge(&s), 0, 0, 0), "N5: not a plan");
    s.c[0] = INT64_MAX;
    check(is(judge(&s), 14, 0, 0), "14: a kept number over its size");
    check(is(tevalumi_verdict(2, 2, PLAN(&s), KEPT(&s)), 11, 0, 0), "11: arrays too short");

    s = n2(65537, 0);
    check(open_sheet(&s) == 12 && s.r[0] == 9 && s.counts[3] == 9, "12, and nothing changed");
    s = n2(4, 0);
    s.lowers[1] = 3;
    check(open_sheet(&s) == 13 && s.b[0] == 9, "13, and nothing changed");
}

static void edits(void) {
    Sheet s = n2(4, -3072);
    check(open_sheet(&s) == 0, "opening");
    check(edit(&s, 7, 0, 0, -4096) == 0 && s.mults[0] == -4096, "a multiplier");
    check(s.d[0] == 1024 && s.d[1] == 3072 && s.b[0] == -16384 && s.d[2] == 9, "its D and B");
    check(is(judge(&s), 0, 2, 4096), "N5: gap 4096, by an edit");
    check(edit(&s, 7, 0, 0, -2048) == 0 && is(judge(&s), 0, 1, 0), "N5: no floor, by an edit");
    check(edit(&s, 7, 0, 0, -3072) == 0 && is(judge(&s), 0, 2, 0), "and back");
    check(edit(&s, 1, 0, 0, 3) == 0 && s.r[0] == 3 && s.c[0] == -9, "an amount, its R and C");
    check(is(judge(&s), 0, 2, 3072), "N5: gap 3072, by an edit");
    check(edit(&s, 1, 0, 0, 5) == 0 && is(judge(&s), 0, 0, 0), "N5: not a plan, by an edit");
    check(edit(&s, 5, 0, 0, 5) == 0 && s.rhs[0] == 5 && s.counts[0] == 0, "a right side");
    check(edit(&s, 9, 0, 1, 77) == 0 && s.uppers[1] == 0 && s.upper_marks[1] == 0, "an upper bound dropped");
    check(edit(&s, 4, 0, 1, 2) == 0 && s.uppers[1] == 2 && s.upper_marks[1] == 1, "and set again");

    Sheet before;
    memcpy(&before, &s, sizeof s);
    check(edit(&s, 0, 9, 9, 0) == 16 && edit(&s, 32, 9, 9, 0) == 16, "16");
    check(edit(&s, 10, 9, 9, 0) == 15 && edit(&s, 31, 9, 9, 0) == 15, "15");
    check(edit(&s, 1, 9, 2, 0) == 11 && edit(&s, 5, 1, 0, 0) == 11, "11");
    check(edit(&s, 2, 0, 0, 1048577) == 12, "12");
    check(edit(&s, 3, 0, 1, 3) == 13, "13");
    check(memcmp(&s, &before, sizeof s) == 0, "a refused edit changes nothing");
    s.c[0] = INT64_MIN;
    check(edit(&s, 1, 0, 0, 4) == 14 && s.amounts[0] == 5, "14");
}

static void files(void) {
    Sheet s = n2(4, -3072);
    static uint8_t file[12 * 512 + 1];
    memset(file, 0xce, sizeof file);
    TevalumiWritten w = tevalumi_write_plan(1, 2, PLAN(&s), file, 12 * 512 - 1);
    check(w.status == 11 && w.bytes == 0 && file[0] == 0xce, "11: a file too short, and nothing changed");
    w = tevalumi_write_plan(1, 2, PLAN(&s), ARRAY(file));
    check(w.status == 0 && w.bytes == 12 * 512 && file[12 * 512] == 0xce, "a sheet's file, and the byte past it");
    check(file[0] == 1 && file[3] == 1 && file[11] == 2 && file[508] == 29, "its sizes and their check");
    check(file[11 * 512] == 255 && file[11 * 512 + 1] == 11, "its end");

    Sheet t = n2(0, 0);
    memset(&t, 9, sizeof t); /* what the lent cells hold is no matter */
    TevalumiRead a = tevalumi_read_plan(file, w.bytes, PLAN(&t));
    check(a.status == 0 && a.rows == 1 && a.columns == 2, "reading it");
    check(t.costs[0] == -3 && t.uppers[1] == 2 && t.upper_marks[0] == 0 && t.amounts[0] == 4 && t.mults[0] == -3072, "what is read");
    check(open_sheet(&t) == 0 && is(judge(&t), 0, 2, 0), "N5 from its file");

    Sheet before;
    memcpy(&before, &t, sizeof t);
    a = tevalumi_read_plan(ARRAY(file), PLAN(&t));
    check(a.status == 33 && a.block == 12, "33: a byte behind the end");
    a = tevalumi_read_plan(file, 600, PLAN(&t));
    check(a.status == 33 && a.block == 1, "33: a cut block");
    file[2 * 512 + 3] ^= 1;
    a = tevalumi_read_plan(file, w.bytes, PLAN(&t));
    check(a.status == 32 && a.block == 2, "32: a byte changed");
    file[512] = 11;
    a = tevalumi_read_plan(file, w.bytes, PLAN(&t));
    check(a.status == 31 && a.block == 1, "31: a kind that isn't known");
    check(memcmp(&before, &t, sizeof t) == 0, "and nothing changed");
}

static int whole(TevalumiWhole w, int64_t number) { return w.kind == 0 && w.number == number && w.beyond == 0; }

/* N2's run, as whole numbers; cells past the needed ones are marked. */
static void wholes(void) {
    check(whole(tevalumi_amount(2.5), 2) && whole(tevalumi_amount(-3.5), -4), "ties to even");
    TevalumiWhole w = tevalumi_amount(65537);
    check(whole(tevalumi_amount(65536.5), 65536) && w.kind == 1 && w.number == 0 && w.beyond == 65537, "an amount's limit");
    check(tevalumi_amount(NAN).kind == 2 && tevalumi_multiplier(0, -HUGE_VAL).beyond == HUGE_VAL, "NaN, an infinity");
    check(whole(tevalumi_multiplier(0, 3), -3072) && whole(tevalumi_multiplier(2, 3), 0), "a multiplier, and its sign");

    static size_t numbers[TEVALUMI_NUMBERS];
    static double doubles[TEVALUMI_DOUBLES];
    double values[4];
    const size_t starts[] = {0, 2};
    const uint8_t ops[] = {0};
    int64_t amounts[] = {MARK, MARK, MARK}, mults[] = {MARK, MARK};
    check(solve(values, ARRAY(numbers), ARRAY(doubles)).status == 0, "N2's run");
#define PROPOSE(columns) tevalumi_propose(columns, 1, ARRAY(starts), ARRAY(ops), ARRAY(values), ARRAY(numbers), ARRAY(doubles), ARRAY(amounts), ARRAY(mults))
    TevalumiProposal p = PROPOSE(4);
    check(p.status == 1 && amounts[0] == MARK, "1: an array too short");
    numbers[TEVALUMI_COUNTS + 4] = 21;
    p = PROPOSE(2);
    check(p.status == 0 && p.kind == 1 && amounts[0] == MARK, "nothing from another status");
    numbers[TEVALUMI_COUNTS + 4] = 0;
    numbers[TEVALUMI_VAR_STATES] ^= 1;
    p = PROPOSE(2);
    check(p.status == 41 && mults[0] == MARK, "41: a map changed");
    numbers[TEVALUMI_VAR_STATES] ^= 1;
    values[1] = 1e9;
    p = PROPOSE(2);
    check(p.status == 0 && p.kind == 2 && p.place == 1 && p.answer.kind == 1 && p.answer.beyond == 1e9, "an amount beyond");
    check(amounts[0] == MARK && mults[0] == MARK, "and nothing changed");
    values[1] = 0;
    p = PROPOSE(2);
    check(p.status == 0 && p.kind == 0 && whole(p.answer, 0), "proposed");
    check(amounts[0] == 4 && amounts[1] == 0 && mults[0] == -3072, "N5's amounts and multiplier");
    check(amounts[2] == MARK && mults[1] == MARK, "and the cells past them");
}

/* 8 ms of air; an alarm wants 6, soil 9. Every array has a cell more than needed, and whole is marked. */
static int64_t cells[TEVALUMI_WHOLE + 1];
static size_t night_numbers[TEVALUMI_NUMBERS + 1];
static double night_doubles[TEVALUMI_DOUBLES + 1], night_values[5];

static TevalumiNight two_stages(const int64_t *alarm_costs, size_t budget, size_t values_len, size_t whole_len) {
    const int64_t coefs[] = {1, 1, 9}, report_costs[] = {0, -9, 9}, lowers[] = {0, 0, 9}, uppers[] = {6, 9, 9}, rhs[] = {8, 9};
    const uint8_t marks[] = {1, 1, 9}, ops[] = {0, 9};
    return tevalumi_night(1, 2, ARRAY(coefs), alarm_costs, 2, ARRAY(report_costs), ARRAY(lowers), ARRAY(uppers), ARRAY(marks), ARRAY(marks), ARRAY(rhs),
        ARRAY(ops), budget, 1e-6, night_values, values_len, ARRAY(night_numbers), ARRAY(night_doubles), ARRAY(factor_numbers), ARRAY(factor_coeffs), cells,
        whole_len);
}

static int marked_cells(size_t from, size_t to) {
    while (from < to && cells[from] == MARK) {
        from++;
    }
    return from >= to;
}

static void mark_cells(void) {
    for (size_t i = 0; i < LEN(cells); i++) {
        cells[i] = MARK;
    }
}

static void night(void) {
    const int64_t alarm_costs[] = {-1, 0}, beyond[] = {-1, 4097};
    const int64_t *first = cells + TEVALUMI_FIRST, *second = cells + TEVALUMI_SECOND, *handed = cells + TEVALUMI_HANDED, *coefs = cells + TEVALUMI_COEFS;
    mark_cells();
    TevalumiNight n = two_stages(alarm_costs, 10, 4, TEVALUMI_WHOLE - 1);
    check(n.status == 1 && n.kind == 0 && marked_cells(0, LEN(cells)), "1: whole a cell short, and nothing changed");
    n = two_stages(alarm_costs, 10, 3, TEVALUMI_WHOLE);
    check(n.status == 1 && marked_cells(0, LEN(cells)), "1: values without a cell for the new row");

    n = two_stages(beyond, 10, 4, TEVALUMI_WHOLE);
    check(n.status == 0 && n.kind == 4 && n.column == 1, "an alarm cost above 4,096");
    check(n.first.audit == 3 && is(n.first.verdict, 0, 2, 0) && n.second.run.status == 0 && n.second.audit == 0, "its first stage alone");
    check(first[0] == 6 && first[1] == 0 && marked_cells(TEVALUMI_SECOND, LEN(cells)), "and no amounts");

    mark_cells();
    n = two_stages(alarm_costs, 0, 4, TEVALUMI_WHOLE);
    check(n.status == 0 && n.kind == 6 && n.second.run.status == 21 && n.second.audit == 0, "the first stands");
    check(handed[0] == 6 && handed[1] == 0 && marked_cells(TEVALUMI_SECOND, TEVALUMI_HANDED), "its amounts");

    mark_cells();
    n = two_stages(alarm_costs, 10, LEN(night_values), LEN(cells));
    check(n.status == 0 && n.kind == 7 && n.column == 0, "a night is handed out");
    check(n.first.run.status == 0 && n.first.run.objective == -6 && n.first.audit == 3 && is(n.first.verdict, 0, 2, 0), "its first stage");
    check(n.second.run.status == 0 && n.second.run.objective == -18 && n.second.audit == 3 && is(n.second.verdict, 0, 2, 0), "its second stage");
    check(first[0] == 6 && first[1] == 0 && first[TEVALUMI_STAGE_MULTS] == 0 && first[TEVALUMI_STAGE_C] == -6, "the first sheet");
    check(second[0] == 6 && second[1] == 2 && second[TEVALUMI_STAGE_MULTS] == -9216 && second[TEVALUMI_STAGE_MULTS + 1] == -9216, "the second's numbers");
    check(second[TEVALUMI_STAGE_R] == 8 && second[TEVALUMI_STAGE_R + 1] == -6 && second[TEVALUMI_STAGE_C] == -18 && second[TEVALUMI_STAGE_B] == -18432, "R, C, B");
    check(handed[0] == 6 && handed[1] == 2 && handed[2] == 0 && handed[127] == 0, "the amounts");
    check(coefs[0] == 1 && coefs[1] == 1 && coefs[2] == -1 && coefs[3] == 0 && marked_cells(TEVALUMI_COEFS + 4, LEN(cells)), "the coefficients, and the cells past them");
    check(night_numbers[TEVALUMI_COUNTS] == 2 && night_doubles[TEVALUMI_OBJECTIVE] == -18, "the state of the second run");
}

int main(void) {
    plan();
    fixes();
    reprices();
    wholes();
    night();
    triangle();
    factors();
    sheet();
    edits();
    files();
    printf("%d passed, %d failed\n", passed, failed);
    return failed != 0;
}

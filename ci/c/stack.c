/* How many bytes of stack a call needs: it runs on a stack of our own that was painted before, and the paint that is left is counted.
 * The numbers that include/tevalumi.h and docs/SCRATCH.md give are held to what is seen. */
#define _POSIX_C_SOURCE 200809L
#include <math.h>
#include <pthread.h>
#include <stdio.h>
#include <stdlib.h>
#include <string.h>

#include "tevalumi.h"

#define LEN(a) (sizeof(a) / sizeof((a)[0]))
#define ARRAY(a) (a), LEN(a)

enum { STACK = 1 << 20, PAINT = 0x5a, COLUMNS = 128, ROWS = 96 };

static int passed;
static int failed;

static void *idle(void *nothing) { return nothing; }

/* N2: an exchange and a flip, then the final check. */
static void *solve(void *answer) {
    static const double costs[] = {-3, -1}, lowers[] = {0, 0}, coeffs[] = {1, 1}, rhs[] = {4};
    const double uppers[] = {INFINITY, 2};
    static const size_t starts[] = {0, 2}, cols[] = {0, 1};
    static const uint8_t ops[] = {0};
    static double values[COLUMNS + ROWS], doubles[TEVALUMI_DOUBLES], factor_coeffs[TEVALUMI_FACTOR_COEFFS];
    static size_t numbers[TEVALUMI_NUMBERS], factor_numbers[TEVALUMI_FACTOR_NUMBERS];
    TevalumiAnswer a = tevalumi_solve(2, 1, 2, 10, 1e-9, ARRAY(costs), ARRAY(lowers), ARRAY(uppers), ARRAY(starts), ARRAY(cols), ARRAY(coeffs), ARRAY(ops),
        ARRAY(rhs), ARRAY(values), ARRAY(numbers), ARRAY(doubles), ARRAY(factor_numbers), ARRAY(factor_coeffs));
    *(int *)answer = a.status == 0 && a.steps == 2 && a.objective == -12 && a.excess == 0;
    return NULL;
}

enum { CUBE = 8 };

static struct {
    size_t rows, entries, starts[2 * CUBE], cols[4 * CUBE], numbers[TEVALUMI_NUMBERS], factor_numbers[TEVALUMI_FACTOR_NUMBERS];
    double costs[CUBE], lowers[CUBE], uppers[CUBE], coeffs[4 * CUBE], rhs[2 * CUBE], values[COLUMNS + ROWS], doubles[TEVALUMI_DOUBLES],
        factor_coeffs[TEVALUMI_FACTOR_COEFFS];
    uint8_t ops[2 * CUBE];
} cube;

#define CUBE_PLAN \
    CUBE, cube.rows, cube.entries, 10000, 1e-6, ARRAY(cube.costs), ARRAY(cube.lowers), ARRAY(cube.uppers), ARRAY(cube.starts), ARRAY(cube.cols), \
        ARRAY(cube.coeffs), ARRAY(cube.ops), ARRAY(cube.rhs), ARRAY(cube.values), ARRAY(cube.numbers), ARRAY(cube.doubles), ARRAY(cube.factor_numbers), \
        ARRAY(cube.factor_coeffs)

static int factored(TevalumiAnswer a) {
    return a.status == 0 && cube.numbers[TEVALUMI_COUNTS + 5] == 1 && cube.numbers[TEVALUMI_COUNTS + 6] == 1;
}

/* A cube whose run has more exchanges than the eta store has room for: the basis is factored. */
static void *factor(void *answer) {
    size_t rows = 1, entries = 1;
    double right = 0.016;
    for (size_t k = CUBE; k-- > 0;) {
        cube.costs[k] = k + 1 == CUBE ? -0.1 : cube.costs[k + 1] * 1.25;
        cube.uppers[k] = INFINITY;
    }
    cube.coeffs[0] = cube.rhs[0] = 0.001;
    for (size_t k = 1; k < CUBE; k++) {
        for (int below = 1; below >= 0; below--, rows++) {
            cube.starts[rows] = entries;
            cube.ops[rows] = below ? 2 : 0;
            cube.rhs[rows] = below ? 0 : right;
            cube.cols[entries] = k - 1;
            cube.coeffs[entries++] = below ? -0.004 : 0.004;
            cube.cols[entries] = k;
            cube.coeffs[entries++] = 0.001;
        }
        right *= 16;
    }
    cube.starts[rows] = entries;
    cube.rows = rows;
    cube.entries = entries;
    *(int *)answer = factored(tevalumi_solve(CUBE_PLAN));
    return NULL;
}

/* From what that run left: the transposes are made anew, and steps follow. */
static void *fix(void *answer) {
    TevalumiAnswer a = tevalumi_fix(CUBE_PLAN, 0, 0.5);
    *(int *)answer = factored(a) && a.steps > 0 && cube.values[0] == 0.5;
    return NULL;
}

static void *unfix(void *answer) {
    TevalumiAnswer a = tevalumi_unfix(CUBE_PLAN, 0);
    *(int *)answer = factored(a) && a.steps > 0;
    return NULL;
}

/* The eta columns of those steps make room for a factor of the basis as it stands. */
static void *reprice(void *answer) {
    TevalumiAnswer a = tevalumi_reprice(CUBE_PLAN);
    *(int *)answer = a.status == 0 && cube.numbers[TEVALUMI_COUNTS + 6] == 2;
    return NULL;
}

/* Below x0 + x1 = 2 to 5 the start is neither feasible nor dual feasible: two runs, and a factor between them. */
static void *any(void *answer) {
    static const double costs[] = {-1, 1}, lowers[] = {0, 0}, coeffs[] = {1, 1, 1, 1}, rhs[] = {2, 5};
    const double uppers[] = {INFINITY, INFINITY};
    static const size_t starts[] = {0, 2, 4}, cols[] = {0, 1, 0, 1};
    static const uint8_t ops[] = {2, 0};
    static double values[COLUMNS + ROWS], doubles[TEVALUMI_DOUBLES], factor_coeffs[TEVALUMI_FACTOR_COEFFS];
    static size_t numbers[TEVALUMI_NUMBERS], factor_numbers[TEVALUMI_FACTOR_NUMBERS];
    TevalumiAnyAnswer a = tevalumi_solve_any(2, 2, 4, 10, 1e-9, ARRAY(costs), ARRAY(lowers), ARRAY(uppers), ARRAY(starts), ARRAY(cols), ARRAY(coeffs),
        ARRAY(ops), ARRAY(rhs), ARRAY(values), ARRAY(numbers), ARRAY(doubles), ARRAY(factor_numbers), ARRAY(factor_coeffs));
    *(int *)answer = a.way == 2 && a.answer.status == 0 && a.answer.objective == -5;
    return NULL;
}

/* A chain of as many places as there may be: the walk is as deep as it can be. */
static void *triangle(void *answer) {
    static size_t starts[ROWS + 1], rows[ROWS - 1], list[ROWS];
    static double vals[ROWS - 1], values[ROWS];
    for (size_t j = 0; j < ROWS - 1; j++) {
        starts[j] = j;
        rows[j] = j + 1;
        vals[j] = 1;
    }
    starts[ROWS - 1] = starts[ROWS] = ROWS - 1;
    values[0] = 1;
    TriAnswer a = tevalumi_lower_sparse(ROWS, ROWS - 1, ARRAY(starts), ARRAY(rows), ARRAY(vals), 0, NULL, 0, ARRAY(list), 1, ARRAY(values));
    *(int *)answer = a.status == 0 && a.places == ROWS;
    return NULL;
}

/* A multiplier moves on a sheet of every size. */
static void *edit(void *answer) {
    static int64_t coefs[ROWS * COLUMNS], costs[COLUMNS], lowers[COLUMNS], uppers[COLUMNS], rhs[ROWS], amounts[COLUMNS], mults[ROWS], r[ROWS], d[COLUMNS],
        c[1], b[1], counts[4];
    static uint8_t low[COLUMNS], up[COLUMNS], ops[ROWS];
    size_t opened = tevalumi_open(ROWS, COLUMNS, ARRAY(coefs), ARRAY(costs), ARRAY(lowers), ARRAY(uppers), ARRAY(low), ARRAY(up), ARRAY(rhs), ARRAY(ops),
        ARRAY(amounts), ARRAY(mults), ARRAY(r), ARRAY(d), ARRAY(c), ARRAY(b), ARRAY(counts));
    size_t edited = tevalumi_edit(7, 3, 0, -5, ROWS, COLUMNS, ARRAY(coefs), ARRAY(costs), ARRAY(lowers), ARRAY(uppers), ARRAY(low), ARRAY(up), ARRAY(rhs),
        ARRAY(ops), ARRAY(amounts), ARRAY(mults), ARRAY(r), ARRAY(d), ARRAY(c), ARRAY(b), ARRAY(counts));
    *(int *)answer = opened == 0 && edited == 0 && mults[3] == -5;
    return NULL;
}

/* A night whose plan has every column and a row less than there may be: both stages, with steps and sheets. */
static void *night(void *answer) {
    static int64_t coefs[(ROWS - 1) * COLUMNS], alarm_costs[COLUMNS], report_costs[COLUMNS], lowers[COLUMNS], uppers[COLUMNS], rhs[ROWS - 1],
        whole[TEVALUMI_WHOLE];
    static uint8_t marks[COLUMNS], ops[ROWS - 1];
    static double values[COLUMNS + ROWS], doubles[TEVALUMI_DOUBLES], factor_coeffs[TEVALUMI_FACTOR_COEFFS];
    static size_t numbers[TEVALUMI_NUMBERS], factor_numbers[TEVALUMI_FACTOR_NUMBERS];
    for (size_t j = 0; j < COLUMNS; j++) {
        alarm_costs[j] = j % 2 == 0 ? -1 : 0;
        report_costs[j] = j % 2 == 0 ? 0 : -1;
        uppers[j] = 9;
        marks[j] = 1;
    }
    for (size_t i = 0; i < ROWS - 1; i++) {
        for (size_t j = 0; j < 20; j++) {
            coefs[i * COLUMNS + i + j] = 1;
        }
        rhs[i] = 99;
    }
    TevalumiNight n = tevalumi_night(ROWS - 1, COLUMNS, ARRAY(coefs), ARRAY(alarm_costs), ARRAY(report_costs), ARRAY(lowers), ARRAY(uppers), ARRAY(marks),
        ARRAY(marks), ARRAY(rhs), ARRAY(ops), 10000, 1e-6, ARRAY(values), ARRAY(numbers), ARRAY(doubles), ARRAY(factor_numbers), ARRAY(factor_coeffs),
        ARRAY(whole));
    *(int *)answer = n.status == 0 && n.kind == 7 && n.second.run.steps > 0;
    return NULL;
}

/* The bytes that a thread touched of its painted stack. */
static size_t touched(void *(*body)(void *), int *answer) {
    unsigned char *stack = aligned_alloc(4096, STACK);
    pthread_attr_t attr;
    pthread_t thread;
    if (stack == NULL) {
        abort();
    }
    memset(stack, PAINT, STACK);
    pthread_attr_init(&attr);
    if (pthread_attr_setstack(&attr, stack, STACK) != 0 || pthread_create(&thread, &attr, body, answer) != 0) {
        abort();
    }
    pthread_join(thread, NULL);
    size_t left = 0;
    while (left < STACK && stack[left] == PAINT) {
        left++;
    }
    free(stack);
    return STACK - left;
}

static void measure(const char *name, void *(*body)(void *), size_t limit) {
    int answer = 0;
    int nothing = 0;
    size_t bytes = touched(body, &answer) - touched(idle, &nothing);
    int holds = answer && bytes <= limit;
    printf("%s: %zu bytes of stack, at most %zu\n", name, bytes, limit);
    if (holds) {
        passed++;
    } else {
        failed++;
    }
}

int main(void) {
    measure("tevalumi_solve", solve, 512 << 10);
    measure("tevalumi_solve with a factor", factor, 512 << 10);
    measure("tevalumi_fix with a factor", fix, 512 << 10);
    measure("tevalumi_unfix with a factor", unfix, 512 << 10);
    measure("tevalumi_reprice with a factor", reprice, 640 << 10);
    measure("tevalumi_solve_any", any, 640 << 10);
    measure("tevalumi_night", night, 512 << 10);
    measure("tevalumi_lower_sparse", triangle, 24 << 10);
    measure("tevalumi_open and tevalumi_edit", edit, 8 << 10);
    printf("%d passed, %d failed\n", passed, failed);
    return failed != 0;
}

/* Tevalumi: plans (linear programs), triangle solves, the audit sheet and its plans in files.
 *
 * Each call answers whatever it is lent, keeps no pointer and takes no memory of its own.
 * An array goes over as a pointer and its number of cells. It may be longer than needed: cells past
 * the needed length are neither read nor written. Where a length is 0 the pointer isn't used.
 * An array that a call writes overlaps no other array of that call. A refusal changes no cell. */
#ifndef TEVALUMI_H
#define TEVALUMI_H

#include <stddef.h>
#include <stdint.h>

#ifdef __cplusplus
extern "C" {
#endif

/* ---- Plans ----
 * Minimise the sum of costs * values, each value within its bounds and each row's sum <=, = or >= its
 * right side.
 *
 * status     0 optimal; refused, the lowest number that applies, objective 0.0 and 0 steps:
 *            1 a size or the budget over its limit, an array too short, bad row starts
 *            2 NaN; an infinite cost, coefficient or right side; a lower bound of +inf or an upper of
 *              -inf; a finite one of these above 1e12 in size; a tolerance outside 0 to 1; a comparison
 *              above 2
 *            3 a column number that is too large or doesn't rise     4 lower > upper
 *            5 an empty row that is false                            6 no longer given
 *            7 a slack starts outside its bounds, and a cost doesn't prefer the bound that its column starts at
 *              (a start that isn't dual feasible)
 *            ended with the state after the last whole step, and the values left alone:
 *            20 unbounded   21 the budget is spent   22 no longer given
 *            23 a number of the step isn't finite    24 the final check rejects
 *            25 the basis after an exchange can't be factored
 *            26 no column can mend a row that is out of its bounds: none has a coefficient of at least 1e-8 in
 *              size there and room for the move
 * objective  of that state
 * steps      taken, at most the budget
 * place      what at and within name: 0 nothing; 1 a row (at) and a place in it (within), with status
 *            3; 2 a column (4); 3 a row (5); 4 a value, columns before slacks (24); 5 a kept row (24; with 26
 *            the one whose basic variable is out of its bounds)
 * excess     with status 0 and 24 the largest excess: of a value over a finite bound (lower - value or
 *            value - upper), +inf where the value isn't finite, and of a kept row the size of its right
 *            side - (its sum + its slack). 0.0 where nothing exceeds 0, and with any other status. 0
 *            where it is at most the tolerance, else 24 and place names where it is, the first on a tie */
typedef struct {
    size_t status;
    double objective;
    size_t steps;
    size_t place;
    size_t at;
    size_t within;
    double excess;
} TevalumiAnswer;

/* columns 0 to 128, rows 0 to 96, entries 0 to 2,048, budget 0 to 10,000, tolerance 0 to 1.
 * Read:
 *   costs, lowers, uppers          columns cells; a lower bound may be -inf, an upper one +inf; every
 *                                  other number of the plan is at most 1e12 in size
 *   starts                         rows + 1: the entries of row i are starts[i] up to starts[i + 1]
 *   cols, coeffs                   entries; column numbers rise within a row
 *   ops, rhs                       rows; 0 is <=, 1 is =, 2 is >=
 * Written on status 0:
 *   values                         columns + rows: the columns' values, then the kept rows' slacks
 * Written on status 0 and 20 to 26, the state, each array whole whatever the plan's sizes:
 *   numbers                        TEVALUMI_NUMBERS cells
 *   doubles                        TEVALUMI_DOUBLES cells
 *   factor_numbers                 TEVALUMI_FACTOR_NUMBERS cells
 *   factor_coeffs                  TEVALUMI_FACTOR_COEFFS cells
 * A section stands at its name's cell; its first cells are written, and all others stay:
 *   KEPT                           the plan's numbers of its kept (not empty) rows
 *   BASIC_VARS, BASIC_VAR_VALS     of the kept rows; variable columns + k is the slack of kept row k
 *   NB_VARS, NB_VAR_VALS, PRICES, NORMS, FLAGS
 *                                  columns cells; flags are 1 at the lower bound + 2 at the upper bound + 4
 *                                  held still (all three then)
 *   VAR_STATES                     columns + kept rows: a variable's place, columns + row where it is basic
 *   ETA_LEAVING, ETA_STARTS        a column's leaving row, and where its entries start
 *   ETA_ROWS, ETA_COEFFS           the entries
 *   DUAL_NORMS                     of the kept rows
 *   COUNTS                         7: kept rows, eta columns, eta entries, steps, status, 1 where there is
 *                                  a factor, factorings since the start
 *   OBJECTIVE                      1
 * The factor is L and U of a basis by columns, rows as pivot numbers; where there is none both are the
 * identity, and no cell of its arrays is written:
 *   PIVOTS, PIVOT_PLACES           kept rows: the row of each pivot number, and each row's pivot number
 *   L_STARTS, L_ROWS, L_COEFFS     kept rows + 1, and the entries: L without its diagonal of ones
 *   U_STARTS, U_ROWS, U_COEFFS     U without its diagonal
 *   DIAG                           kept rows: U's diagonal
 *   LT_STARTS, LT_ROWS, LT_COEFFS, UT_STARTS, UT_ROWS, UT_COEFFS
 *                                  the transposes of L and U */
#define TEVALUMI_BASIC_VARS 0
#define TEVALUMI_NB_VARS (TEVALUMI_BASIC_VARS + 96)
#define TEVALUMI_VAR_STATES (TEVALUMI_NB_VARS + 128)
#define TEVALUMI_FLAGS (TEVALUMI_VAR_STATES + 224)
#define TEVALUMI_ETA_LEAVING (TEVALUMI_FLAGS + 128)
#define TEVALUMI_ETA_STARTS (TEVALUMI_ETA_LEAVING + 256)
#define TEVALUMI_ETA_ROWS (TEVALUMI_ETA_STARTS + 257)
#define TEVALUMI_KEPT (TEVALUMI_ETA_ROWS + 4096)
#define TEVALUMI_COUNTS (TEVALUMI_KEPT + 96)
#define TEVALUMI_NUMBERS (TEVALUMI_COUNTS + 7)

#define TEVALUMI_BASIC_VAR_VALS 0
#define TEVALUMI_NB_VAR_VALS (TEVALUMI_BASIC_VAR_VALS + 96)
#define TEVALUMI_PRICES (TEVALUMI_NB_VAR_VALS + 128)
#define TEVALUMI_NORMS (TEVALUMI_PRICES + 128)
#define TEVALUMI_ETA_COEFFS (TEVALUMI_NORMS + 128)
#define TEVALUMI_DUAL_NORMS (TEVALUMI_ETA_COEFFS + 4096)
#define TEVALUMI_OBJECTIVE (TEVALUMI_DUAL_NORMS + 96)
#define TEVALUMI_DOUBLES (TEVALUMI_OBJECTIVE + 1)

#define TEVALUMI_PIVOTS 0
#define TEVALUMI_PIVOT_PLACES (TEVALUMI_PIVOTS + 96)
#define TEVALUMI_L_STARTS (TEVALUMI_PIVOT_PLACES + 96)
#define TEVALUMI_L_ROWS (TEVALUMI_L_STARTS + 97)
#define TEVALUMI_U_STARTS (TEVALUMI_L_ROWS + 4560)
#define TEVALUMI_U_ROWS (TEVALUMI_U_STARTS + 97)
#define TEVALUMI_LT_STARTS (TEVALUMI_U_ROWS + 4560)
#define TEVALUMI_LT_ROWS (TEVALUMI_LT_STARTS + 97)
#define TEVALUMI_UT_STARTS (TEVALUMI_LT_ROWS + 4560)
#define TEVALUMI_UT_ROWS (TEVALUMI_UT_STARTS + 97)
#define TEVALUMI_FACTOR_NUMBERS (TEVALUMI_UT_ROWS + 4560)

#define TEVALUMI_L_COEFFS 0
#define TEVALUMI_U_COEFFS (TEVALUMI_L_COEFFS + 4560)
#define TEVALUMI_LT_COEFFS (TEVALUMI_U_COEFFS + 4560)
#define TEVALUMI_UT_COEFFS (TEVALUMI_LT_COEFFS + 4560)
#define TEVALUMI_DIAG (TEVALUMI_UT_COEFFS + 4560)
#define TEVALUMI_FACTOR_COEFFS (TEVALUMI_DIAG + 96)

TevalumiAnswer tevalumi_solve(
    size_t columns, size_t rows, size_t entries, size_t budget, double tolerance,
    const double *costs, size_t costs_len,
    const double *lowers, size_t lowers_len,
    const double *uppers, size_t uppers_len,
    const size_t *starts, size_t starts_len,
    const size_t *cols, size_t cols_len,
    const double *coeffs, size_t coeffs_len,
    const uint8_t *ops, size_t ops_len,
    const double *rhs, size_t rhs_len,
    double *values, size_t values_len,
    size_t *numbers, size_t numbers_len,
    double *doubles, size_t doubles_len,
    size_t *factor_numbers, size_t factor_numbers_len,
    double *factor_coeffs, size_t factor_coeffs_len);

/* ---- Columns held still ----
 * A call over a plan and the memory that the last call over it left: it goes on from there, mostly in a few
 * steps. tevalumi_fix holds a column still at a value, tevalumi_unfix lets it go. A held column stays where
 * it is through later calls, until it is held elsewhere or let go.
 *
 * status  as of tevalumi_solve, without 6 and 7; and refused:
 *         41 the last call didn't end in 0, or the memory isn't what a call over this plan leaves: its
 *            maps, flags, eta store, factor, or a number in use that isn't finite
 *         42 there is no such column     43 the value isn't finite, or is outside the column's bounds
 *         44 the column to let go isn't held
 * steps   of this call, at most the budget
 * A call that doesn't end in 0 leaves memory that later ones refuse with 41, until a solve ends in 0. */
TevalumiAnswer tevalumi_fix(
    size_t columns, size_t rows, size_t entries, size_t budget, double tolerance,
    const double *costs, size_t costs_len,
    const double *lowers, size_t lowers_len,
    const double *uppers, size_t uppers_len,
    const size_t *starts, size_t starts_len,
    const size_t *cols, size_t cols_len,
    const double *coeffs, size_t coeffs_len,
    const uint8_t *ops, size_t ops_len,
    const double *rhs, size_t rhs_len,
    double *values, size_t values_len,
    size_t *numbers, size_t numbers_len,
    double *doubles, size_t doubles_len,
    size_t *factor_numbers, size_t factor_numbers_len,
    double *factor_coeffs, size_t factor_coeffs_len,
    size_t column, double value);

TevalumiAnswer tevalumi_unfix(
    size_t columns, size_t rows, size_t entries, size_t budget, double tolerance,
    const double *costs, size_t costs_len,
    const double *lowers, size_t lowers_len,
    const double *uppers, size_t uppers_len,
    const size_t *starts, size_t starts_len,
    const size_t *cols, size_t cols_len,
    const double *coeffs, size_t coeffs_len,
    const uint8_t *ops, size_t ops_len,
    const double *rhs, size_t rhs_len,
    double *values, size_t values_len,
    size_t *numbers, size_t numbers_len,
    double *doubles, size_t doubles_len,
    size_t *factor_numbers, size_t factor_numbers_len,
    double *factor_coeffs, size_t factor_coeffs_len,
    size_t column);

/* ---- Other costs ----
 * A call over a plan and the memory that the last call left, where only the costs have changed since: it works
 * the prices out anew and goes on from there, mostly in a few steps. That rows and bounds are the same isn't
 * tested: with others the values are still the kept ones. A held column stays where it is.
 *
 * status  as of tevalumi_solve, without 6, 7 and 26; and refused: 41 as of tevalumi_fix. 23 and 25 are also
 *         given where the basis can't be priced: the state is then the one before the call, but for the status
 * steps   of this call, at most the budget
 * A call that doesn't end in 0 leaves memory that later ones refuse with 41, until a solve ends in 0. */
TevalumiAnswer tevalumi_reprice(
    size_t columns, size_t rows, size_t entries, size_t budget, double tolerance,
    const double *costs, size_t costs_len,
    const double *lowers, size_t lowers_len,
    const double *uppers, size_t uppers_len,
    const size_t *starts, size_t starts_len,
    const size_t *cols, size_t cols_len,
    const double *coeffs, size_t coeffs_len,
    const uint8_t *ops, size_t ops_len,
    const double *rhs, size_t rhs_len,
    double *values, size_t values_len,
    size_t *numbers, size_t numbers_len,
    double *doubles, size_t doubles_len,
    size_t *factor_numbers, size_t factor_numbers_len,
    double *factor_coeffs, size_t factor_coeffs_len);

/* ---- From any start ----
 * tevalumi_solve; on 7, tevalumi_solve with every cost 0, which never refuses with 7; and where that ends in 0,
 * tevalumi_reprice with the plan's own costs over what it left.
 *
 * answer          that of the last of these calls, never 7
 * way             0 tevalumi_solve answered
 *                 1 it refused with 7, and the run with costs 0 didn't end in 0: its answer and what it left, the
 *                   objective that of costs 0
 *                 2 it refused with 7, the run with costs 0 ended in 0, and the plan's own costs followed: with 20
 *                   to 25 the values are those of the run with costs 0
 * costless_steps  of the run with costs 0, at most the budget; 0 with way 0. With way 2 answer.steps are those
 *                 after it, at most the budget too */
typedef struct {
    TevalumiAnswer answer;
    size_t way;
    size_t costless_steps;
} TevalumiAnyAnswer;

TevalumiAnyAnswer tevalumi_solve_any(
    size_t columns, size_t rows, size_t entries, size_t budget, double tolerance,
    const double *costs, size_t costs_len,
    const double *lowers, size_t lowers_len,
    const double *uppers, size_t uppers_len,
    const size_t *starts, size_t starts_len,
    const size_t *cols, size_t cols_len,
    const double *coeffs, size_t coeffs_len,
    const uint8_t *ops, size_t ops_len,
    const double *rhs, size_t rhs_len,
    double *values, size_t values_len,
    size_t *numbers, size_t numbers_len,
    double *doubles, size_t doubles_len,
    size_t *factor_numbers, size_t factor_numbers_len,
    double *factor_coeffs, size_t factor_coeffs_len);

/* ---- Triangles ----
 * Solves a triangle that is stored by columns, or two of them, one after the other.
 *
 * status  0 solved; refused, the lowest number that applies:
 *         1 a bad size or start, an array too short, an off-diagonal row too large or on the wrong
 *           side, a diagonal of 0
 *         2 a number that isn't finite     3 a listed place too large or repeated (sparse alone)
 * places  how many places are listed afterwards; size after a dense solve; 0 where refused */
typedef struct {
    size_t status;
    size_t places;
} TriAnswer;

/* size 0 to 96, entries 0 to 4,560.
 * Read:
 *   starts       size + 1: the entries of column j are starts[j] up to starts[j + 1]
 *   rows, vals   entries: off-diagonal rows below (lower) or above (upper), in any order
 *   diag         size, read where with_diag isn't 0; else the diagonal is all ones
 * Written where solved:
 *   list         size, sparse alone: before, the first listed cells are places whose values count, all
 *                others counting as 0.0; afterwards the newly visited ones follow
 *   values       size */
TriAnswer tevalumi_lower_sparse(
    size_t size, size_t entries,
    const size_t *starts, size_t starts_len,
    const size_t *rows, size_t rows_len,
    const double *vals, size_t vals_len,
    size_t with_diag,
    const double *diag, size_t diag_len,
    size_t *list, size_t list_len,
    size_t listed,
    double *values, size_t values_len);

TriAnswer tevalumi_upper_sparse(
    size_t size, size_t entries,
    const size_t *starts, size_t starts_len,
    const size_t *rows, size_t rows_len,
    const double *vals, size_t vals_len,
    size_t with_diag,
    const double *diag, size_t diag_len,
    size_t *list, size_t list_len,
    size_t listed,
    double *values, size_t values_len);

TriAnswer tevalumi_lower_dense(
    size_t size, size_t entries,
    const size_t *starts, size_t starts_len,
    const size_t *rows, size_t rows_len,
    const double *vals, size_t vals_len,
    size_t with_diag,
    const double *diag, size_t diag_len,
    double *values, size_t values_len);

TriAnswer tevalumi_upper_dense(
    size_t size, size_t entries,
    const size_t *starts, size_t starts_len,
    const size_t *rows, size_t rows_len,
    const double *vals, size_t vals_len,
    size_t with_diag,
    const double *diag, size_t diag_len,
    double *values, size_t values_len);

/* Solves the lower triangle for the values and then the upper one for what that gives, both of one size,
 * as the dense calls do; a number between the two that isn't finite isn't refused. 1 and 2 look at both
 * triangles and at the values; 3 isn't given. Each triangle has its own entries, 0 to 4,560.
 * Read, for each triangle:
 *   starts       size + 1: the entries of column j are starts[j] up to starts[j + 1]
 *   rows, vals   its entries: off-diagonal rows below (lower) or above (upper), in any order
 *   diag         size, read where its with_diag isn't 0; else the diagonal is all ones
 * Written where solved:
 *   values       size: before, the right side; afterwards the solution */
TriAnswer tevalumi_solve_dense(
    size_t size,
    size_t lower_entries,
    const size_t *lower_starts, size_t lower_starts_len,
    const size_t *lower_rows, size_t lower_rows_len,
    const double *lower_vals, size_t lower_vals_len,
    size_t lower_with_diag,
    const double *lower_diag, size_t lower_diag_len,
    size_t upper_entries,
    const size_t *upper_starts, size_t upper_starts_len,
    const size_t *upper_rows, size_t upper_rows_len,
    const double *upper_vals, size_t upper_vals_len,
    size_t upper_with_diag,
    const double *upper_diag, size_t upper_diag_len,
    double *values, size_t values_len);

/* ---- The audit sheet ----
 * rows 0 to 96, columns 0 to 128, whole numbers, with their limits in size.
 *   coefs                      rows * columns, row by row; 4,096
 *   costs                      columns; 2^20
 *   lowers, uppers             columns; 2^16; 0 where the bound is absent
 *   lower_marks, upper_marks   columns; 0 absent, 1 present
 *   rhs                     rows; 2^31
 *   ops                        rows; 0 is <=, 1 is =, 2 is >=
 *   amounts                    columns; 2^16
 *   mults                      rows, in 1/1024; 2^20
 * Kept:
 *   r        rows: each row's sum of coefficient * amount; 2^35
 *   d        columns: 1024 * cost less the sum of coefficient * multiplier; 2^39
 *   c        1: the cost of the amounts; 2^43
 *   b        1: the floor, in 1/1024; 2^62
 *   counts   4: rows broken, amounts out of bounds, wrong signs, absent bounds needed */

/* Works the kept numbers out afresh. 0, or refused, the lowest that applies: 11 a size or an array too
 * short, 12 a number over its limit or an unknown comparison or mark, 13 lower > upper, both present. */
size_t tevalumi_open(
    size_t rows, size_t columns,
    const int64_t *coefs, size_t coefs_len,
    const int64_t *costs, size_t costs_len,
    const int64_t *lowers, size_t lowers_len,
    const int64_t *uppers, size_t uppers_len,
    const uint8_t *lower_marks, size_t lower_marks_len,
    const uint8_t *upper_marks, size_t upper_marks_len,
    const int64_t *rhs, size_t rhs_len,
    const uint8_t *ops, size_t ops_len,
    const int64_t *amounts, size_t amounts_len,
    const int64_t *mults, size_t mults_len,
    int64_t *r, size_t r_len,
    int64_t *d, size_t d_len,
    int64_t *c, size_t c_len,
    int64_t *b, size_t b_len,
    int64_t *counts, size_t counts_len);

/* status  0, or 11 as at opening, or 14 a kept number over its size
 * kind    0 not a plan: a row is broken or an amount out of bounds; 1 no floor: a sign is wrong or an
 *         absent bound needed; 2 a gap; 3 none exists: where the kept numbers are true, no amounts, whole or
 *         fractional, keep every row and bound (costs all 0, right signs, no absent bound needed, b above 0)
 * value   the gap 1024 * c - b: where the kept numbers are true, no plan is cheaper than these amounts by
 *         more than value / 1024 */
typedef struct {
    size_t status;
    size_t kind;
    int64_t value;
} SheetVerdict;

SheetVerdict tevalumi_verdict(
    size_t rows, size_t columns,
    const int64_t *coefs, size_t coefs_len,
    const int64_t *costs, size_t costs_len,
    const int64_t *lowers, size_t lowers_len,
    const int64_t *uppers, size_t uppers_len,
    const uint8_t *lower_marks, size_t lower_marks_len,
    const uint8_t *upper_marks, size_t upper_marks_len,
    const int64_t *rhs, size_t rhs_len,
    const uint8_t *ops, size_t ops_len,
    const int64_t *amounts, size_t amounts_len,
    const int64_t *mults, size_t mults_len,
    const int64_t *r, size_t r_len,
    const int64_t *d, size_t d_len,
    const int64_t *c, size_t c_len,
    const int64_t *b, size_t b_len,
    const int64_t *counts, size_t counts_len);

/* Edits one number of an opened sheet, and moves the kept numbers with it. Kinds, with what they use:
 *   1 amount of column   2 cost of column   3 lower of column   4 upper of column   5 right side of row
 *   6 coefficient at row and column   7 multiplier of row
 *   8 drop the lower of column   9 drop the upper of column (whatever the number)
 * 0, or refused, the first in this order: 16 kind 0 or above 31, 15 kinds 10 to 31, 11 as at opening or a
 * bad index, 12 the number over its limit, 13 two present bounds would cross, 14 before or after the edit
 * a number or mark in any array but coefs, in the edited row's or column's coefficients, or among the kept
 * numbers breaks its limit (never where the sheet was opened and changed by edits alone). */
size_t tevalumi_edit(
    size_t kind, size_t row, size_t column, int64_t number,
    size_t rows, size_t columns,
    int64_t *coefs, size_t coefs_len,
    int64_t *costs, size_t costs_len,
    int64_t *lowers, size_t lowers_len,
    int64_t *uppers, size_t uppers_len,
    uint8_t *lower_marks, size_t lower_marks_len,
    uint8_t *upper_marks, size_t upper_marks_len,
    int64_t *rhs, size_t rhs_len,
    const uint8_t *ops, size_t ops_len,
    int64_t *amounts, size_t amounts_len,
    int64_t *mults, size_t mults_len,
    int64_t *r, size_t r_len,
    int64_t *d, size_t d_len,
    int64_t *c, size_t c_len,
    int64_t *b, size_t b_len,
    int64_t *counts, size_t counts_len);

/* ---- Plans in a file ----
 * A whole-number plan (the sheet's ten arrays of the plan, without the kept numbers) as blocks of 512 bytes;
 * docs/FILES.md has them byte by byte. One plan has one file, and a file with any one byte changed is refused. */

/* status  0; refused, the lowest number that applies: 11 a size, an array or the lent file too short, 12 and
 *         13 as at opening
 * bytes   how many the plan's file has; 0 where refused */
typedef struct {
    size_t status;
    size_t bytes;
} TevalumiWritten;

/* Writes the plan's file over the front of file: two blocks at least (0 rows, 0 columns), 217 at most (96 rows,
 * 128 columns). The bytes past it aren't changed. */
TevalumiWritten tevalumi_write_plan(
    size_t rows, size_t columns,
    const int64_t *coefs, size_t coefs_len,
    const int64_t *costs, size_t costs_len,
    const int64_t *lowers, size_t lowers_len,
    const int64_t *uppers, size_t uppers_len,
    const uint8_t *lower_marks, size_t lower_marks_len,
    const uint8_t *upper_marks, size_t upper_marks_len,
    const int64_t *rhs, size_t rhs_len,
    const uint8_t *ops, size_t ops_len,
    const int64_t *amounts, size_t amounts_len,
    const int64_t *mults, size_t mults_len,
    uint8_t *file, size_t file_len);

/* status   0; refused, at the first block that isn't accepted, the lowest number that applies to it, but 33
 *          alone where it is cut:
 *          31 a kind that isn't known          32 a wrong check
 *          33 missing, cut, repeated, misplaced, or behind the end     34 an unused byte that isn't 0
 *          or, right after block 0: 11 a size over its limit or an array too short for the sizes
 *          or, after the last block: 12 and 13 as at opening
 * block    the place in the file where reading stood, from 0 on; the end block's for 12 and 13; 0 on status 0
 * rows, columns   the plan's sizes; 0 where refused */
typedef struct {
    size_t status;
    size_t block;
    size_t rows;
    size_t columns;
} TevalumiRead;

/* Reads a plan's file, all of it and nothing more, and on status 0 writes the plan over the front of the ten
 * arrays. */
TevalumiRead tevalumi_read_plan(
    const uint8_t *file, size_t file_len,
    int64_t *coefs, size_t coefs_len,
    int64_t *costs, size_t costs_len,
    int64_t *lowers, size_t lowers_len,
    int64_t *uppers, size_t uppers_len,
    uint8_t *lower_marks, size_t lower_marks_len,
    uint8_t *upper_marks, size_t upper_marks_len,
    int64_t *rhs, size_t rhs_len,
    uint8_t *ops, size_t ops_len,
    int64_t *amounts, size_t amounts_len,
    int64_t *mults, size_t mults_len);

/* ---- A journal of edits ---- */

/* A journal of edits in lent bytes (docs/FILES.md): blocks of 512 bytes, 22 entries in each, then an end block;
 * behind the end is room. tevalumi_journal_begin writes an empty one: 0, or 33 and nothing changed where not one
 * whole block is lent. */
size_t tevalumi_journal_begin(uint8_t *journal, size_t journal_len);

/* tevalumi_edit, with the edit kept in the journal. 0, or refused with nothing changed, the first of: 31 to 34
 * where the lent bytes aren't a journal (31 a block of an unknown kind, 32 a wrong check, 33 a cut, missing or
 * misplaced block, 34 an unused byte that isn't 0), the sheet's number, 37 where the journal is full. */
size_t tevalumi_journal_edit(
    size_t kind, size_t row, size_t column, int64_t number,
    size_t rows, size_t columns,
    int64_t *coefs, size_t coefs_len,
    int64_t *costs, size_t costs_len,
    int64_t *lowers, size_t lowers_len,
    int64_t *uppers, size_t uppers_len,
    uint8_t *lower_marks, size_t lower_marks_len,
    uint8_t *upper_marks, size_t upper_marks_len,
    int64_t *rhs, size_t rhs_len,
    const uint8_t *ops, size_t ops_len,
    int64_t *amounts, size_t amounts_len,
    int64_t *mults, size_t mults_len,
    int64_t *r, size_t r_len,
    int64_t *d, size_t d_len,
    int64_t *c, size_t c_len,
    int64_t *b, size_t b_len,
    int64_t *counts, size_t counts_len,
    uint8_t *journal, size_t journal_len);

/* Takes the journal's last entry back. 0, or refused with nothing changed, the first of: 31 to 34, 35 no entry is
 * left, the sheet's number for the edit back, 36 the cell doesn't hold the entry's new number or presence. */
size_t tevalumi_journal_undo(
    size_t rows, size_t columns,
    int64_t *coefs, size_t coefs_len,
    int64_t *costs, size_t costs_len,
    int64_t *lowers, size_t lowers_len,
    int64_t *uppers, size_t uppers_len,
    uint8_t *lower_marks, size_t lower_marks_len,
    uint8_t *upper_marks, size_t upper_marks_len,
    int64_t *rhs, size_t rhs_len,
    const uint8_t *ops, size_t ops_len,
    int64_t *amounts, size_t amounts_len,
    int64_t *mults, size_t mults_len,
    int64_t *r, size_t r_len,
    int64_t *d, size_t d_len,
    int64_t *c, size_t c_len,
    int64_t *b, size_t b_len,
    int64_t *counts, size_t counts_len,
    uint8_t *journal, size_t journal_len);

/* A piece of a journal's file, of any size, fed to a sheet: its entries are taken as edits. `waiting` has 512 bytes or
 * more, in which part of a block waits for the rest, and `feed` four cells or more; both are lent to every piece, and a
 * feed begins with its four cells at 0. 11, and nothing changed, where they aren't a feed's. Else the feed's refusal, 0
 * while there is none: 31 to 34 for a block, or for an entry the sheet's number, else 36 where its cell doesn't hold
 * the entry's old number or presence. What came before a refused entry stays, and every later piece changes nothing and
 * gets the same number. */
size_t tevalumi_journal_feed(
    const uint8_t *piece, size_t piece_len,
    size_t rows, size_t columns,
    int64_t *coefs, size_t coefs_len,
    int64_t *costs, size_t costs_len,
    int64_t *lowers, size_t lowers_len,
    int64_t *uppers, size_t uppers_len,
    uint8_t *lower_marks, size_t lower_marks_len,
    uint8_t *upper_marks, size_t upper_marks_len,
    int64_t *rhs, size_t rhs_len,
    const uint8_t *ops, size_t ops_len,
    int64_t *amounts, size_t amounts_len,
    int64_t *mults, size_t mults_len,
    int64_t *r, size_t r_len,
    int64_t *d, size_t d_len,
    int64_t *c, size_t c_len,
    int64_t *b, size_t b_len,
    int64_t *counts, size_t counts_len,
    uint8_t *waiting, size_t waiting_len,
    size_t *feed, size_t feed_len);

/* The end of a feed: 11 as above, else its refusal, else 33 where part of a block waits or the journal's end hasn't
 * come, else 0. */
size_t tevalumi_journal_close(const size_t *feed, size_t feed_len);

/* ---- Whole numbers from a run ----
 * Each double's case, as an amount or as a multiplier of the sheet: the nearest whole number, ties to even, proved
 * against the exact value of the double.
 *
 * kind     0 whole   1 beyond: the whole number wouldn't fit the sheet's limit; infinities too   2 not a number: NaN
 * number   the whole number; 0 for kind 1 and 2
 * beyond   for kind 1 the double that doesn't fit: an amount's value, or a multiplier's -price * 1024 (an infinity
 *          where that overflows); 0.0 for kind 0 and 2 */
typedef struct {
    size_t kind;
    int64_t number;
    double beyond;
} TevalumiWhole;

/* An amount: whole within 2^16. */
TevalumiWhole tevalumi_amount(double value);

/* The multiplier of a row with comparison op (0 is <=, 1 is =, 2 and above is >=), from the price of its slack: minus
 * the price times 1024, whole within 2^20, and then 0 where the sign is wrong (above 0 for <=, below 0 for >=). */
TevalumiWhole tevalumi_multiplier(uint8_t op, double price);

/* status   0; refused: 1 a size over its limit or an array too short; 41 the rows or maps in numbers aren't those of a
 *          run over this plan
 * kind     on status 0: 0 proposed, amounts and mults are written; nothing is written for the others: 1 nothing, since
 *          the run's status isn't 0; 2 an amount isn't whole; 3 every amount is, and a multiplier isn't
 * place    the column (kind 2) or row (kind 3) of the first number that isn't whole; else 0
 * answer   its case; else all zeros */
typedef struct {
    size_t status;
    size_t kind;
    size_t place;
    TevalumiWhole answer;
} TevalumiProposal;

/* Proposes whole numbers for the sheet of a plan, from the memory that tevalumi_solve left.
 * Read:
 *   starts, ops                rows + 1, rows: the plan's
 *   values                     columns: the run's values
 *   numbers, doubles           TEVALUMI_NUMBERS, TEVALUMI_DOUBLES: the run's state
 * Written where every number is whole:
 *   amounts                    columns: the values, rounded
 *   mults                      rows: from the price of each row's slack, 0 for a basic or dropped one */
TevalumiProposal tevalumi_propose(
    size_t columns, size_t rows,
    const size_t *starts, size_t starts_len,
    const uint8_t *ops, size_t ops_len,
    const double *values, size_t values_len,
    const size_t *numbers, size_t numbers_len,
    const double *doubles, size_t doubles_len,
    int64_t *amounts, size_t amounts_len,
    int64_t *mults, size_t mults_len);

/* ---- The night: alarms first, then the rest ----
 * A plan in whole numbers with two sets of costs. It is solved with the alarm costs alone, rounded and audited; then
 * the row "alarm cost at most what was found" is added, and it is solved with the report costs. So no amounts that are
 * handed out cost more alarms than the first stage's, and those cost at most the first gap more than the least possible.
 *
 * A stage: the answer of its run, as of tevalumi_solve, and
 * audit     0 nothing was proposed, since the run was refused or didn't end in 0
 *           1 a proposed number isn't whole: proposal says which
 *           2 opening the sheet was refused with the number in opening
 *           3 the sheet was opened: verdict is what it says
 * A stage that wasn't run is all zeros. */
typedef struct {
    TevalumiAnswer run;
    size_t audit;
    size_t opening;
    TevalumiProposal proposal;
    SheetVerdict verdict;
} TevalumiStage;

/* status  0; 1 a lent array is too short, and nothing is changed
 * kind    on status 0; with 1 to 5 no amounts are handed out, and the first that applies is given:
 *         1 the first audit shows no gap       2 the plan has 96 rows already
 *         3 the new row would pass 2,048 entries
 *         4 an alarm cost is above 4,096 in size, that of column first
 *         5 the found alarm cost is above 2^31 in size
 *         6 the first stage's amounts are handed out: the second's sheet wasn't opened, or says "not a plan" or "none
 *           exists"
 *         7 the second stage's amounts are handed out */
typedef struct {
    size_t status;
    size_t kind;
    size_t column;
    TevalumiStage first;
    TevalumiStage second;
} TevalumiNight;

/* Sections of whole: for each stage whose sheet was opened its amounts, multipliers and kept numbers; the amounts that
 * are handed out; the second stage's coefficients. All other cells stay. */
#define TEVALUMI_STAGE_AMOUNTS 0
#define TEVALUMI_STAGE_MULTS (TEVALUMI_STAGE_AMOUNTS + 128)
#define TEVALUMI_STAGE_R (TEVALUMI_STAGE_MULTS + 96)
#define TEVALUMI_STAGE_D (TEVALUMI_STAGE_R + 96)
#define TEVALUMI_STAGE_C (TEVALUMI_STAGE_D + 128)
#define TEVALUMI_STAGE_B (TEVALUMI_STAGE_C + 1)
#define TEVALUMI_STAGE_COUNTS (TEVALUMI_STAGE_B + 1)
#define TEVALUMI_STAGE (TEVALUMI_STAGE_COUNTS + 4)
#define TEVALUMI_FIRST 0
#define TEVALUMI_SECOND (TEVALUMI_FIRST + TEVALUMI_STAGE)
#define TEVALUMI_HANDED (TEVALUMI_SECOND + TEVALUMI_STAGE)
#define TEVALUMI_COEFS (TEVALUMI_HANDED + 128)
#define TEVALUMI_WHOLE (TEVALUMI_COEFS + 96 * 128)

/* Read: the plan's arrays as of tevalumi_open, with two costs for each column; budget and tolerance of each stage's run.
 * Written: the solver's memory, as of tevalumi_solve, by both stages one after the other: values needs columns + rows + 1
 * cells; whole, TEVALUMI_WHOLE cells. */
TevalumiNight tevalumi_night(
    size_t rows, size_t columns,
    const int64_t *coefs, size_t coefs_len,
    const int64_t *alarm_costs, size_t alarm_costs_len,
    const int64_t *report_costs, size_t report_costs_len,
    const int64_t *lowers, size_t lowers_len,
    const int64_t *uppers, size_t uppers_len,
    const uint8_t *lower_marks, size_t lower_marks_len,
    const uint8_t *upper_marks, size_t upper_marks_len,
    const int64_t *rhs, size_t rhs_len,
    const uint8_t *ops, size_t ops_len,
    size_t budget, double tolerance,
    double *values, size_t values_len,
    size_t *numbers, size_t numbers_len,
    double *doubles, size_t doubles_len,
    size_t *factor_numbers, size_t factor_numbers_len,
    double *factor_coeffs, size_t factor_coeffs_len,
    int64_t *whole, size_t whole_len);

#ifdef __cplusplus
}
#endif

#endif

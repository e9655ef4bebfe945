//! From minilp 0.2.2, src/solver.rs, Apache-2.0, changed: the rules and corrections of document 01,
//! and of 02 where it says so, are put in, each marked `// ours:` with their words. Left out: the
//! artificial objective, add_constraint, Gomory cuts, logging and the parts that only these use. The
//! shown lu_factorize stands in shown.rs, fix_var and unfix_var in fix.rs, recalc_obj_coeffs in
//! reprice.rs.

use crate::{
    answer::{Named, Outcome, Rejected, StartNumber, State},
    limits,
    lu::{self, LUFactors, NoFactor, ScratchSpace},
    shown::{self, Correction, Options},
    sparse::{ScatteredVec, SparseMat, SparseVec},
    sprs::{CsMat, CsVec},
    ComparisonOp,
};

pub mod etas;
mod fix;
mod reprice;

// ours: "EPS is the double nearest 1e-8".
const EPS: f64 = 1e-8;

#[derive(Clone)]
pub struct Solver {
    pub(crate) num_vars: usize,

    pub(crate) orig_obj_coeffs: Vec<f64>,
    orig_var_mins: Vec<f64>,
    orig_var_maxs: Vec<f64>,
    orig_constraints: CsMat, // excluding rhs
    pub(crate) orig_constraints_csc: CsMat,
    orig_rhs: Vec<f64>,

    enable_primal_steepest_edge: bool,

    is_primal_feasible: bool,
    is_dual_feasible: bool,

    // ours: the plan's number of each kept row, the budget, the steps taken, the dual ones among them,
    // how often a basis was factored, the first number of 01's order that isn't finite, and the corrections that are
    // switched off.
    kept_rows: Vec<usize>,
    budget: u64,
    steps: u64,
    dual_steps: u64,
    factorings: usize,
    not_finite: Option<Named>,
    options: Options,

    // Updated on each pivot
    /// For each var: whether it is basic/non-basic and the corresponding index.
    var_states: Vec<VarState>,
    pub(crate) basis_solver: BasisSolver,

    /// For each constraint the corresponding basic var.
    pub(crate) basic_vars: Vec<usize>,
    pub(crate) basic_var_vals: Vec<f64>,
    basic_var_mins: Vec<f64>,
    basic_var_maxs: Vec<f64>,
    dual_edge_sq_norms: Vec<f64>,

    /// Remaining variables. (idx -> var), 'nb' means 'non-basic'
    pub(crate) nb_vars: Vec<usize>,
    pub(crate) nb_var_obj_coeffs: Vec<f64>,
    pub(crate) nb_var_vals: Vec<f64>,
    nb_var_states: Vec<NonBasicVarState>,
    primal_edge_sq_norms: Vec<f64>,

    pub(crate) cur_obj_val: f64,

    // Recomputed on each pivot
    col_coeffs: SparseVec,
    sq_norms_update_helper: Vec<f64>,
    inv_basis_row_coeffs: SparseVec,
    row_coeffs: ScatteredVec,
}

#[derive(Clone, Debug)]
enum VarState {
    Basic(usize),
    NonBasic(usize),
}

#[derive(Clone, Debug)]
struct NonBasicVarState {
    at_min: bool,
    at_max: bool,
    // ours: "The fixed mark joins NonBasicVarState"; the shown text has nb_var_is_fixed beside it.
    fixed: bool,
}

impl NonBasicVarState {
    // ours: "flags cell 1 * at_min + 2 * at_max + 4 * fixed".
    fn to_flags(&self) -> u8 {
        u8::from(self.at_min) + 2 * u8::from(self.at_max) + 4 * u8::from(self.fixed)
    }

    fn of_flags(cell: u8) -> NonBasicVarState {
        NonBasicVarState {
            at_min: cell & 1 != 0,
            at_max: cell & 2 != 0,
            fixed: cell & 4 != 0,
        }
    }
}

impl Solver {
    pub fn try_new(
        obj_coeffs: &[f64],
        var_mins: &[f64],
        var_maxs: &[f64],
        constraints: &[(CsVec, ComparisonOp, f64)],
        budget: u64,
        options: Options,
    ) -> Result<Self, Outcome> {
        let enable_steepest_edge = true; // TODO: make user-settable.

        let num_vars = obj_coeffs.len();

        assert_eq!(num_vars, var_mins.len());
        assert_eq!(num_vars, var_maxs.len());
        let mut orig_var_mins = var_mins.to_vec();
        let mut orig_var_maxs = var_maxs.to_vec();

        let mut var_states = vec![];

        let mut nb_vars = vec![];
        let mut nb_var_vals = vec![];
        let mut nb_var_states = vec![];

        let mut obj_val = 0.0;

        let mut is_dual_feasible = true;

        for v in 0..num_vars {
            // choose initial variable values

            let min = orig_var_mins[v];
            let max = orig_var_maxs[v];
            if min > max {
                // ours: 4: "lower > upper, with the first such column".
                return Err(Outcome::CrossedBounds { column: v });
            }

            // initially all user-created variables are non-basic
            var_states.push(VarState::NonBasic(nb_vars.len()));
            nb_vars.push(v);

            // Try to choose values to achieve dual feasibility.
            let init_val = if min == max {
                // Fixed variable, the obj. coeff doesn't matter.
                min
            } else if min.is_infinite() && max.is_infinite() {
                // Free variable, if we are lucky and obj. coeff is zero, then dual-feasible.
                if obj_coeffs[v] != 0.0 {
                    is_dual_feasible = false;
                }
                0.0
            } else if obj_coeffs[v] > 0.0 {
                // We need a finite value and prefer min for dual feasibility.
                if min.is_finite() {
                    min
                } else {
                    is_dual_feasible = false;
                    max
                }
            } else if obj_coeffs[v] < 0.0 {
                // We need a finite value and prefer max for dual feasibility.
                if max.is_finite() {
                    max
                } else {
                    is_dual_feasible = false;
                    min
                }
            } else if min.is_finite() {
                // Obj. coeff is zero, just take any finite value,
                // dual feasibility will be satisfied.
                min
            } else {
                max
            };

            nb_var_vals.push(init_val);
            obj_val += init_val * obj_coeffs[v];

            nb_var_states.push(NonBasicVarState {
                at_min: init_val == min,
                at_max: init_val == max,
                fixed: false,
            });
        }

        let mut constraint_coeffs = vec![];
        let mut orig_rhs = vec![];

        // Initially, all slack vars are basic.
        let mut basic_vars = vec![];
        let mut basic_var_vals = vec![];
        let mut basic_var_mins = vec![];
        let mut basic_var_maxs = vec![];

        // ours: "Empty true rows are dropped, get no slack and aren't numbered after 7."
        let mut kept_rows = vec![];

        for (row, (coeffs, cmp_op, rhs)) in constraints.iter().enumerate() {
            let rhs = *rhs;

            if coeffs.indices().is_empty() {
                let is_tautological = match cmp_op {
                    ComparisonOp::Eq => 0.0 == rhs,
                    ComparisonOp::Le => 0.0 <= rhs,
                    ComparisonOp::Ge => 0.0 >= rhs,
                };

                if is_tautological {
                    continue;
                } else {
                    // ours: 5: "an empty row whose 0 op rhs is false, with the first such row".
                    return Err(Outcome::FalseEmptyRow { row });
                }
            }

            kept_rows.push(row);
            constraint_coeffs.push(coeffs.clone());
            orig_rhs.push(rhs);

            let (slack_var_min, slack_var_max) = match cmp_op {
                ComparisonOp::Le => (0.0, f64::INFINITY),
                ComparisonOp::Ge => (f64::NEG_INFINITY, 0.0),
                ComparisonOp::Eq => (0.0, 0.0),
            };

            orig_var_mins.push(slack_var_min);
            orig_var_maxs.push(slack_var_max);

            basic_var_mins.push(slack_var_min);
            basic_var_maxs.push(slack_var_max);

            let cur_slack_var = var_states.len();
            var_states.push(VarState::Basic(basic_vars.len()));
            basic_vars.push(cur_slack_var);

            let mut lhs_val = 0.0;
            for (var, &coeff) in coeffs.iter() {
                lhs_val += coeff * nb_var_vals[var];
            }
            basic_var_vals.push(rhs - lhs_val);
        }

        let num_constraints = constraint_coeffs.len();
        let num_total_vars = num_vars + num_constraints;

        let mut orig_obj_coeffs = obj_coeffs.to_vec();
        orig_obj_coeffs.resize(num_total_vars, 0.0);

        let mut orig_constraints = CsMat::empty(num_total_vars);
        for (cur_slack_var, coeffs) in constraint_coeffs.into_iter().enumerate() {
            let mut coeffs = into_resized(coeffs, num_total_vars);
            coeffs.append(num_vars + cur_slack_var, 1.0);
            orig_constraints = orig_constraints.append_outer_csvec(coeffs.view());
        }
        let orig_constraints_csc = orig_constraints.to_csc();

        let is_primal_feasible = basic_var_vals
            .iter()
            .zip(&basic_var_mins)
            .zip(&basic_var_maxs)
            .all(|((&val, &min), &max)| val >= min && val <= max);

        // ours: enable_dual_steepest_edge is left out; the shown text never has it off.
        let dual_edge_sq_norms = vec![1.0; basic_vars.len()];

        // If is dual feasible at start, we don't need lengthy primal phase2.
        // Thus we can skip expensive calculations for primal sq. norms.
        // ours: "A norm, reckoned for every plan".
        let enable_primal_steepest_edge =
            enable_steepest_edge && !(options.shows(Correction::Norms) && is_dual_feasible);
        let sq_norms_update_helper = if enable_primal_steepest_edge {
            vec![0.0; num_total_vars - num_constraints]
        } else {
            vec![]
        };

        let mut nb_var_obj_coeffs = vec![];
        let mut primal_edge_sq_norms = vec![];
        // ours: an artificial objective is for starts that are feasible neither way, which are
        // refused (7).
        for &var in nb_vars.iter() {
            let col = orig_constraints_csc.outer_view(var).unwrap();

            nb_var_obj_coeffs.push(orig_obj_coeffs[var]);

            if enable_primal_steepest_edge {
                primal_edge_sq_norms.push(col.squared_l2_norm() + 1.0);
            }
        }

        let cur_obj_val = obj_val;

        let scratch = ScratchSpace::with_capacity(num_constraints);
        // ours: "The first factor is the identity."
        let lu_factors = LUFactors::identity(num_constraints);
        let lu_factors_transp = lu_factors.transpose();

        let res = Self {
            num_vars,
            orig_obj_coeffs,
            orig_var_mins,
            orig_var_maxs,
            orig_constraints,
            orig_constraints_csc,
            orig_rhs,
            enable_primal_steepest_edge,
            is_primal_feasible,
            is_dual_feasible,
            kept_rows,
            budget,
            steps: 0,
            dual_steps: 0,
            factorings: 0,
            not_finite: None,
            options,
            var_states,
            basis_solver: BasisSolver {
                lu_factors,
                lu_factors_transp,
                scratch,
                eta_matrices: EtaMatrices::new(num_constraints),
                rhs: ScatteredVec::empty(num_constraints),
            },
            basic_vars,
            basic_var_vals,
            basic_var_mins,
            basic_var_maxs,
            dual_edge_sq_norms,
            nb_vars,
            nb_var_obj_coeffs,
            nb_var_vals,
            nb_var_states,
            primal_edge_sq_norms,
            cur_obj_val,
            col_coeffs: SparseVec::new(),
            sq_norms_update_helper,
            inv_basis_row_coeffs: SparseVec::new(),
            row_coeffs: ScatteredVec::empty(num_total_vars - num_constraints),
        };

        Ok(res)
    }

    // ours: 6 and 7, which "are about a start": fix and unfix don't give them.
    pub fn refuse_start(&self) -> Result<(), Outcome> {
        // ours: 6: "a start value, objective sum or start norm isn't finite". The lowest number
        // that applies is given, so 6 is settled for the whole plan before 7.
        let is_finite = |val: &f64| val.is_finite();
        if !self.nb_var_vals.iter().all(is_finite) || !self.basic_var_vals.iter().all(is_finite) {
            return Err(Outcome::StartNotFinite(StartNumber::Value));
        }
        if !self.cur_obj_val.is_finite() {
            return Err(Outcome::StartNotFinite(StartNumber::Objective));
        }
        if !self.primal_edge_sq_norms.iter().all(is_finite) {
            return Err(Outcome::StartNotFinite(StartNumber::Norm));
        }

        // ours: 7: "a slack starts outside its bounds, no tolerance". 02: "exactly when a slack is
        // outside and the start isn't dual feasible".
        if !self.is_primal_feasible && !self.is_dual_feasible {
            return Err(Outcome::SlackOutside);
        }
        Ok(())
    }

    /// The plan's numbers of its kept rows.
    pub fn kept_rows(&self) -> &[usize] {
        &self.kept_rows
    }

    // ours: "get_value's reference a value".
    pub fn get_value(&self, var: usize) -> f64 {
        match self.var_states[var] {
            VarState::Basic(idx) => self.basic_var_vals[idx],
            VarState::NonBasic(idx) => self.nb_var_vals[idx],
        }
    }

    pub(crate) fn num_constraints(&self) -> usize {
        self.orig_constraints.rows()
    }

    fn num_total_vars(&self) -> usize {
        self.num_vars + self.num_constraints()
    }

    pub fn initial_solve(&mut self) -> Result<(), Outcome> {
        if !self.is_primal_feasible {
            self.restore_feasibility()?;
        }

        // ours: for every plan "primal steps until no column enters".
        if !self.is_dual_feasible || !self.options.shows(Correction::AfterDual) {
            // ours: recalc_obj_coeffs is left out. With "Sums start at 0.0" it changes no bit here.
            if !self.is_dual_feasible && self.options.shows(Correction::SumStart) {
                self.recalc_obj_coeffs(-0.0);
            } else if !self.is_dual_feasible && self.options.shows(Correction::Recalc) {
                self.recalc_obj_coeffs(0.0);
            }
            self.optimize()?;
        }

        Ok(())
    }

    fn optimize(&mut self) -> Result<(), Outcome> {
        loop {
            if let Some(pivot_info) = self.choose_pivot()? {
                self.take_step(&pivot_info)?;
            } else {
                break;
            }
        }

        self.is_dual_feasible = true;
        Ok(())
    }

    fn restore_feasibility(&mut self) -> Result<(), Outcome> {
        loop {
            if let Some((row, leaving_new_val)) = self.choose_pivot_row_dual() {
                self.dual_step(row, leaving_new_val)?;
            } else {
                break;
            }
        }

        self.is_primal_feasible = true;
        Ok(())
    }

    // ours: what restore_feasibility and fix_var share: all of a dual step but the choice of its row.
    // The result is the entering place.
    fn dual_step(&mut self, row: usize, leaving_new_val: f64) -> Result<usize, Outcome> {
        // ours: 21, where a row would leave. 02: "Budget, store, 23 and the final check apply
        // as for primal steps".
        if self.steps >= self.budget {
            return Err(Outcome::Spent);
        }

        self.calc_row_coeffs(row);
        // ours: "Column, row and helper entries ... must be finite, else 23".
        for (_, &coeff) in self.row_coeffs.iter() {
            check_finite(Named::Row, coeff)?;
        }

        let pivot_info = self.choose_entering_col_dual(row, leaving_new_val)?;
        self.calc_col_coeffs(pivot_info.col);
        // ours: as above.
        for (_, &coeff) in self.col_coeffs.iter() {
            check_finite(Named::Column, coeff)?;
        }

        self.touch_pivot(row, pivot_info.col);
        self.take_step(&pivot_info)?;
        self.dual_steps += 1;
        Ok(pivot_info.col)
    }

    // ours: "20 to 24 leave the values array alone; the workspace then holds the state after the last
    // whole step", so a step with a number that isn't finite is undone, and so is one whose new basis
    // has no factor.
    fn take_step(&mut self, pivot_info: &PivotInfo) -> Result<(), Outcome> {
        let before = (!cfg!(feature = "plain")).then(|| self.clone());
        if let Err(outcome) = self.pivot(pivot_info) {
            *self = before.expect("a plan that answers 23 or 25 is run with copies");
            return Err(outcome);
        }
        // ours: "The step count in the answer is the number of steps the rules took." 02: "each dual
        // step counts as one".
        self.steps += 1;
        Ok(())
    }

    // ours: "Before the new numbers of an exchange the entering place is touched in the row, and the
    // leaving row in the column".
    fn touch_pivot(&mut self, row: usize, col: usize) {
        if !self.options.shows(Correction::Reset) {
            self.row_coeffs.get_mut(col);
            self.col_coeffs.touch(row);
        }
    }

    /// Calculate current coeffs column for a single non-basic variable.
    fn calc_col_coeffs(&mut self, c_var: usize) {
        let var = self.nb_vars[c_var];
        let orig_col = self.orig_constraints_csc.outer_view(var).unwrap();
        self.basis_solver
            .solve(orig_col.iter())
            .to_sparse_vec(&mut self.col_coeffs);
    }

    /// Calculate current coeffs row for a single constraint (permuted according to nb_vars).
    fn calc_row_coeffs(&mut self, r_constr: usize) {
        self.basis_solver
            .solve_transp(std::iter::once((r_constr, &1.0)))
            .to_sparse_vec(&mut self.inv_basis_row_coeffs);

        self.row_coeffs.clear_and_resize(self.nb_vars.len());
        for (r, &coeff) in self.inv_basis_row_coeffs.iter() {
            for (v, &val) in self.orig_constraints.outer_view(r).unwrap().iter() {
                if let VarState::NonBasic(idx) = self.var_states[v] {
                    *self.row_coeffs.get_mut(idx) += val * coeff;
                }
            }
        }
    }

    fn choose_pivot(&mut self) -> Result<Option<PivotInfo>, Outcome> {
        let entering_c = {
            let filtered_obj_coeffs = self
                .nb_var_obj_coeffs
                .iter()
                .zip(&self.nb_var_states)
                .enumerate()
                .filter_map(|(col, (&obj_coeff, var_state))| {
                    // Choose only among non-basic vars that can be changed
                    // with objective decreasing.
                    // ours, 02: "a column at neither bound enters only if its price's size is at
                    // least EPS". The switch has a say only where the shown text takes primal steps.
                    let is_free = !var_state.at_min && !var_state.at_max;
                    let is_shown =
                        self.options.shows(Correction::FreeFilter) && !self.is_dual_feasible;
                    if (var_state.at_min && obj_coeff > -EPS)
                        || (var_state.at_max && obj_coeff < EPS)
                        || (is_free && obj_coeff.abs() < EPS && !is_shown)
                    {
                        None
                    } else {
                        Some((col, obj_coeff))
                    }
                });

            let mut best_col = None;
            let mut best_score = f64::NEG_INFINITY;
            if self.enable_primal_steepest_edge {
                for (col, obj_coeff) in filtered_obj_coeffs {
                    let score = obj_coeff * obj_coeff / self.primal_edge_sq_norms[col];
                    if score > best_score {
                        best_col = Some(col);
                        best_score = score;
                    }
                }
            } else {
                for (col, obj_coeff) in filtered_obj_coeffs {
                    let score = obj_coeff.abs();
                    if score > best_score {
                        best_col = Some(col);
                        best_score = score;
                    }
                }
            }

            if let Some(col) = best_col {
                col
            } else {
                return Ok(None);
            }
        };

        // ours: 21: "budget spent and a column would enter". "Order: entering column (none: final
        // check); budget; column solve; ..."
        if self.steps >= self.budget {
            return Err(Outcome::Spent);
        }

        let entering_cur_val = self.nb_var_vals[entering_c];
        // If true, entering variable will increase (because the objective function must decrease).
        let entering_diff_sign = self.nb_var_obj_coeffs[entering_c] < 0.0;
        let entering_other_val = if entering_diff_sign {
            self.orig_var_maxs[self.nb_vars[entering_c]]
        } else {
            self.orig_var_mins[self.nb_vars[entering_c]]
        };

        self.calc_col_coeffs(entering_c);

        // ours: "Column, row and helper entries ... must be finite, else 23, given where this order
        // reaches it".
        for (_, &coeff) in self.col_coeffs.iter() {
            check_finite(Named::Column, coeff)?;
        }

        // ours: the bound towards which a basic var moves, as get_leaving_var_step below has it.
        let get_bound_ahead = |r: usize, coeff: f64| -> f64 {
            if (entering_diff_sign && coeff < 0.0) || (!entering_diff_sign && coeff > 0.0) {
                self.basic_var_maxs[r]
            } else {
                self.basic_var_mins[r]
            }
        };

        let get_leaving_var_step = |r: usize, coeff: f64| -> f64 {
            let val = self.basic_var_vals[r];
            // leaving_diff = -entering_diff * coeff. From this we can determine
            // in which direction this basic var will change and select appropriate bound.
            if (entering_diff_sign && coeff < 0.0) || (!entering_diff_sign && coeff > 0.0) {
                let max = self.basic_var_maxs[r];
                if val < max {
                    max - val
                } else {
                    0.0
                }
            } else {
                let min = self.basic_var_mins[r];
                if val > min {
                    val - min
                } else {
                    0.0
                }
            }
        };

        // Harris rule. See e.g.
        // Gill, P. E., Murray, W., Saunders, M. A., & Wright, M. H. (1989).
        // A practical anti-cycling procedure for linearly constrained optimization.
        // Mathematical Programming, 45(1-3), 437-474.
        //
        // https://link.springer.com/content/pdf/10.1007/BF01589114.pdf

        // First, we determine the max change in entering variable so that basic variables
        // remain feasible using relaxed bounds.
        let mut max_step = (entering_other_val - entering_cur_val).abs();
        for (r, &coeff) in self.col_coeffs.iter() {
            let coeff_abs = coeff.abs();
            if coeff_abs < EPS {
                continue;
            }

            // By which amount can we change the entering variable so that the limit on this
            // basic var is not violated. The var with the minimum such amount becomes leaving.
            let cur_step = (get_leaving_var_step(r, coeff) + EPS) / coeff_abs;

            // ours: "A finite bound whose limit or quotient isn't finite gives 23". Pass two's
            // quotient is no larger than this one.
            if get_bound_ahead(r, coeff).is_finite() {
                check_finite(Named::Limit, get_leaving_var_step(r, coeff))?;
                check_finite(Named::Quotient, cur_step)?;
            }

            if cur_step < max_step {
                max_step = cur_step;
            }
        }

        // ours: "as does a finite other bound whose distance isn't finite".
        if entering_other_val.is_finite() {
            check_finite(Named::Distance, entering_other_val - entering_cur_val)?;
        }

        // Second, we choose among variables with steps less than max_step a variable with the biggest
        // abs. coefficient as the leaving variable. This means that we get numerically more stable
        // basis at the price of slight infeasibility of some basic variables.
        let mut leaving_r = None;
        let mut leaving_new_val = 0.0;
        let mut pivot_coeff_abs = f64::NEG_INFINITY;
        let mut pivot_coeff = 0.0;
        for (r, &coeff) in self.col_coeffs.iter() {
            let coeff_abs = coeff.abs();
            if coeff_abs < EPS {
                continue;
            }

            // ours: "a row with an infinite bound ahead is no candidate in pass two".
            if get_bound_ahead(r, coeff).is_infinite()
                && !self.options.shows(Correction::InfiniteRow)
            {
                continue;
            }

            let cur_step = get_leaving_var_step(r, coeff) / coeff_abs;
            if cur_step <= max_step && coeff_abs > pivot_coeff_abs {
                leaving_r = Some(r);
                leaving_new_val = if (entering_diff_sign && coeff < 0.0)
                    || (!entering_diff_sign && coeff > 0.0)
                {
                    self.basic_var_maxs[r]
                } else {
                    self.basic_var_mins[r]
                };
                pivot_coeff = coeff;
                pivot_coeff_abs = coeff_abs;
            }
        }

        if let Some(row) = leaving_r {
            self.calc_row_coeffs(row);

            // ours: "Column, row and helper entries ... must be finite, else 23".
            for (_, &coeff) in self.row_coeffs.iter() {
                check_finite(Named::Row, coeff)?;
            }

            self.touch_pivot(row, entering_c);

            let entering_diff = (self.basic_var_vals[row] - leaving_new_val) / pivot_coeff;
            let entering_new_val = entering_cur_val + entering_diff;

            Ok(Some(PivotInfo {
                col: entering_c,
                entering_new_val,
                entering_diff,
                elem: Some(PivotElem {
                    row,
                    coeff: pivot_coeff,
                    leaving_new_val,
                }),
            }))
        } else {
            if entering_other_val.is_infinite() {
                // ours: "Unbounded is given exactly when no row is a candidate and the entering
                // column's other bound is infinite."
                return Err(Outcome::Unbounded);
            }

            Ok(Some(PivotInfo {
                col: entering_c,
                entering_new_val: entering_other_val,
                entering_diff: entering_other_val - entering_cur_val,
                elem: None,
            }))
        }
    }

    fn choose_pivot_row_dual(&self) -> Option<(usize, f64)> {
        let infeasibilities = self
            .basic_var_vals
            .iter()
            .zip(&self.basic_var_mins)
            .zip(&self.basic_var_maxs)
            .enumerate()
            .filter_map(|(r, ((&val, &min), &max))| {
                if val < min - EPS {
                    Some((r, min - val))
                } else if val > max + EPS {
                    Some((r, val - max))
                } else {
                    None
                }
            });

        let mut leaving_r = None;
        let mut max_score = f64::NEG_INFINITY;
        for (r, infeasibility) in infeasibilities {
            let sq_norm = self.dual_edge_sq_norms[r];
            let score = infeasibility * infeasibility / sq_norm;
            if score > max_score {
                leaving_r = Some(r);
                max_score = score;
            }
        }

        leaving_r.map(|r| {
            let val = self.basic_var_vals[r];
            let min = self.basic_var_mins[r];
            let max = self.basic_var_maxs[r];

            // If we choose this var as leaving, its new val will be at the boundary
            // which is violated.
            // Why is that? We must maintain primal optimality (a.k.a. dual feasibility) for
            // the leaving variable, thus new_obj_coeff must be >= 0 if new_val is min, and <= 0
            // if new_val is max. Sign of the leaving var obj coeff:
            // sign(new_obj_coeff) = -sign(old_obj_coeff) * sign(pivot_coeff).
            // Another constraint is that we must not decrease primal objective.
            // As sign(obj_val_diff) = -sign(old_obj_coeff) * sign(leaving_diff) * sign(pivot_coeff)
            // must be >= 0, we conclude that sign(new_obj_coeff) = sign(leaving_diff).
            // From this we see that if old val was < min, dual feasibility is maintained if the
            // new var is min (analogously for max).
            let new_val = if val < min {
                min
            } else if val > max {
                max
            } else {
                unreachable!();
            };
            (r, new_val)
        })
    }

    fn choose_entering_col_dual(
        &self,
        row: usize,
        leaving_new_val: f64,
    ) -> Result<PivotInfo, Outcome> {
        // True if the new obj. coeff. must be nonnegative in a dual-feasible configuration.
        let leaving_diff_sign = leaving_new_val > self.basic_var_vals[row];

        fn clamp_obj_coeff(mut obj_coeff: f64, var_state: &NonBasicVarState) -> f64 {
            if var_state.at_min && obj_coeff < 0.0 {
                obj_coeff = 0.0;
            }
            if var_state.at_max && obj_coeff > 0.0 {
                obj_coeff = 0.0;
            }
            obj_coeff
        }

        // ours: where fix_var's "value equals the basic value there is no move, so no bound is in the
        // way: every column with a coefficient of size at least EPS and no fixed mark is eligible".
        let is_still = leaving_new_val == self.basic_var_vals[row]
            && !self.options.shows(Correction::StillFix);

        let is_eligible_var = |coeff: f64, var_state: &NonBasicVarState| -> bool {
            if is_still {
                return coeff.abs() >= EPS && !var_state.fixed;
            }

            let entering_diff_sign = if coeff >= EPS {
                !leaving_diff_sign
            } else if coeff <= -EPS {
                leaving_diff_sign
            } else {
                return false;
            };

            if entering_diff_sign {
                !var_state.at_max
            } else {
                !var_state.at_min
            }
        };

        // Harris rule. See e.g.
        // Gill, P. E., Murray, W., Saunders, M. A., & Wright, M. H. (1989).
        // A practical anti-cycling procedure for linearly constrained optimization.
        // Mathematical Programming, 45(1-3), 437-474.
        //
        // https://link.springer.com/content/pdf/10.1007/BF01589114.pdf

        // First, we determine the max step (change in the leaving variable obj. coeff that still
        // leaves us with a dual-feasible state) using relaxed bounds.
        let mut max_step = f64::INFINITY;
        for (c, &coeff) in self.row_coeffs.iter() {
            let var_state = &self.nb_var_states[c];
            if !is_eligible_var(coeff, var_state) {
                continue;
            }

            let obj_coeff = clamp_obj_coeff(self.nb_var_obj_coeffs[c], var_state);
            let cur_step = (obj_coeff.abs() + EPS) / coeff.abs();
            // ours: "A quotient of an eligible column that isn't finite: 23". Pass two's quotient is
            // no larger than this one.
            check_finite(Named::DualQuotient, cur_step)?;
            if cur_step < max_step {
                max_step = cur_step;
            }
        }

        // Second, we choose among the variables satisfying the relaxed step bound
        // the one with the biggest pivot coefficient. This allows for a much more
        // numerically stable basis at the price of slight infeasibility in dual variables.
        let mut entering_c = None;
        let mut pivot_coeff_abs = f64::NEG_INFINITY;
        let mut pivot_coeff = 0.0;
        for (c, &coeff) in self.row_coeffs.iter() {
            let var_state = &self.nb_var_states[c];
            if !is_eligible_var(coeff, var_state) {
                continue;
            }

            let obj_coeff = clamp_obj_coeff(self.nb_var_obj_coeffs[c], var_state);

            // If we change obj. coeff of the leaving variable by this amount,
            // obj. coeff if the current variable will reach the bound of dual infeasibility.
            // Variable with the tightest such bound is the entering variable.
            let cur_step = obj_coeff.abs() / coeff.abs();
            if cur_step <= max_step {
                let coeff_abs = coeff.abs();
                if coeff_abs > pivot_coeff_abs {
                    entering_c = Some(c);
                    pivot_coeff_abs = coeff_abs;
                    pivot_coeff = coeff;
                }
            }
        }

        if let Some(col) = entering_c {
            let entering_diff = (self.basic_var_vals[row] - leaving_new_val) / pivot_coeff;
            let entering_new_val = self.nb_var_vals[col] + entering_diff;

            Ok(PivotInfo {
                col,
                entering_new_val,
                entering_diff,
                elem: Some(PivotElem {
                    row,
                    leaving_new_val,
                    coeff: pivot_coeff,
                }),
            })
        } else {
            // ours: 26: "exactly when no column has a row coefficient of size at least EPS and isn't
            // already at the bound in the way of the move".
            Err(Outcome::Infeasible { row })
        }
    }

    // ours: "The eta store has 256 columns and 4,096 entries." The shown store grows.
    fn eta_fits(&self) -> bool {
        let eta_matrices = &self.basis_solver.eta_matrices;
        eta_matrices.len() < limits::ETA_COLUMNS as usize
            && eta_matrices.coeff_cols.nnz() + self.col_coeffs.len() <= limits::ETA_ENTRIES as usize
    }

    // ours: the numbers noted so far.
    fn check_noted(&self, flip: bool) -> Result<(), Outcome> {
        match self.not_finite {
            Some(named) => Err(Outcome::NotFinite { named, flip }),
            None => Ok(()),
        }
    }

    // ours: "every number to be stored must be finite, else 23". Each is noted where it is stored;
    // optimize undoes the step if one isn't finite.
    fn pivot(&mut self, pivot_info: &PivotInfo) -> Result<(), Outcome> {
        // TODO: periodically (say, every 1000 pivots) recalc basic vars and object coeffs
        // from scratch for numerical stability.

        self.cur_obj_val += self.nb_var_obj_coeffs[pivot_info.col] * pivot_info.entering_diff;
        note(&mut self.not_finite, Named::Objective, self.cur_obj_val);
        note(
            &mut self.not_finite,
            Named::Value,
            pivot_info.entering_new_val,
        );

        let entering_var = self.nb_vars[pivot_info.col];

        if pivot_info.elem.is_none() {
            // "entering" var is still non-basic, it just changes value from one limit
            // to the other.
            self.nb_var_vals[pivot_info.col] = pivot_info.entering_new_val;
            for (r, coeff) in self.col_coeffs.iter() {
                self.basic_var_vals[r] -= pivot_info.entering_diff * coeff;
                note(&mut self.not_finite, Named::Basic, self.basic_var_vals[r]);
            }
            let var_state = &mut self.nb_var_states[pivot_info.col];
            var_state.at_min = pivot_info.entering_new_val == self.orig_var_mins[entering_var];
            var_state.at_max = pivot_info.entering_new_val == self.orig_var_maxs[entering_var];
            return self.check_noted(true);
        }

        let pivot_elem = pivot_info.elem.as_ref().unwrap();
        let pivot_coeff = pivot_elem.coeff;

        // Update basic vars stuff

        for (r, coeff) in self.col_coeffs.iter() {
            if r == pivot_elem.row {
                self.basic_var_vals[r] = pivot_info.entering_new_val;
            } else {
                self.basic_var_vals[r] -= pivot_info.entering_diff * coeff;
                note(&mut self.not_finite, Named::Basic, self.basic_var_vals[r]);
            }
        }

        self.basic_var_mins[pivot_elem.row] = self.orig_var_mins[entering_var];
        self.basic_var_maxs[pivot_elem.row] = self.orig_var_maxs[entering_var];

        self.update_dual_sq_norms(pivot_elem.row, pivot_coeff);

        // Update non-basic vars stuff

        let leaving_var = self.basic_vars[pivot_elem.row];

        self.nb_var_vals[pivot_info.col] = pivot_elem.leaving_new_val;
        note(
            &mut self.not_finite,
            Named::Leaving,
            pivot_elem.leaving_new_val,
        );
        let leaving_var_state = &mut self.nb_var_states[pivot_info.col];
        leaving_var_state.at_min = pivot_elem.leaving_new_val == self.orig_var_mins[leaving_var];
        leaving_var_state.at_max = pivot_elem.leaving_new_val == self.orig_var_maxs[leaving_var];

        let pivot_obj = self.nb_var_obj_coeffs[pivot_info.col] / pivot_coeff;
        for (c, &coeff) in self.row_coeffs.iter() {
            if c == pivot_info.col {
                self.nb_var_obj_coeffs[c] = -pivot_obj;
            } else {
                self.nb_var_obj_coeffs[c] -= pivot_obj * coeff;
            }
            note(
                &mut self.not_finite,
                Named::Price,
                self.nb_var_obj_coeffs[c],
            );
        }

        if self.enable_primal_steepest_edge {
            self.update_primal_sq_norms(pivot_info.col, pivot_coeff);
        }

        // Update basis itself

        self.basic_vars[pivot_elem.row] = entering_var;
        self.var_states[entering_var] = VarState::Basic(pivot_elem.row);
        self.nb_vars[pivot_info.col] = leaving_var;
        self.var_states[leaving_var] = VarState::NonBasic(pivot_info.col);

        // ours: "An exchange whose eta column doesn't fit is made, and the new basis is factored in
        // place of storing the column". "23 by another new number comes before 25." The shown
        // heuristic runs only if it is switched on.
        self.check_noted(false)?;
        if !self.options.shows(Correction::Reset) {
            if self.eta_fits() {
                self.basis_solver
                    .push_eta_matrix(&self.col_coeffs, pivot_elem.row, pivot_coeff);
                for &val in self.basis_solver.eta_matrices.last_col_data() {
                    note(&mut self.not_finite, Named::Eta, val);
                }
                return self.check_noted(false);
            }
            self.factorings = self.factorings.wrapping_add(1);
            return self
                .basis_solver
                .factor(&self.orig_constraints_csc, &self.basic_vars);
        }

        // A simple heuristic to choose when to recompute LU factorization.
        // Note: a possible failure mode is that the LU factorization accidentally
        // generates a lot of fill-in and doesn't get recomputed for a long time.
        let eta_matrices_nnz = self.basis_solver.eta_matrices.coeff_cols.nnz();
        if eta_matrices_nnz < self.basis_solver.lu_factors.nnz() {
            self.basis_solver
                .push_eta_matrix(&self.col_coeffs, pivot_elem.row, pivot_coeff);
            Ok(())
        } else {
            self.factorings = self.factorings.wrapping_add(1);
            self.basis_solver
                .reset(&self.orig_constraints_csc, &self.basic_vars)
        }
    }

    fn update_primal_sq_norms(&mut self, entering_col: usize, pivot_coeff: f64) {
        // Computations for the steepest edge pivoting rule. See
        // Forrest, J. J., & Goldfarb, D. (1992).
        // Steepest-edge simplex algorithms for linear programming.
        // Mathematical programming, 57(1-3), 341-374.
        //
        // https://link.springer.com/content/pdf/10.1007/BF01581089.pdf

        let tmp = self.basis_solver.solve_transp(self.col_coeffs.iter());
        // now tmp contains the v vector from the article.

        // ours: "An untouched place of sq_norms_update_helper counts as 0.0; the source can read a
        // stale one".
        if !self.options.shows(Correction::StaleHelper) {
            self.sq_norms_update_helper.fill(0.0);
        }

        for &r in tmp.indices() {
            for &v in self.orig_constraints.outer_view(r).unwrap().indices() {
                if let VarState::NonBasic(idx) = self.var_states[v] {
                    self.sq_norms_update_helper[idx] = 0.0;
                }
            }
        }
        // now significant positions in sq_norms_update_helper are cleared.

        for (r, &coeff) in tmp.iter() {
            for (v, &val) in self.orig_constraints.outer_view(r).unwrap().iter() {
                if let VarState::NonBasic(idx) = self.var_states[v] {
                    self.sq_norms_update_helper[idx] += val * coeff;
                }
            }
        }
        // now sq_norms_update_helper contains transp(N) * v vector.

        // ours: "Column, row and helper entries ... must be finite, else 23".
        for &r in tmp.indices() {
            for &v in self.orig_constraints.outer_view(r).unwrap().indices() {
                if let VarState::NonBasic(idx) = self.var_states[v] {
                    note(
                        &mut self.not_finite,
                        Named::Helper,
                        self.sq_norms_update_helper[idx],
                    );
                }
            }
        }

        // Calculate pivot_sq_norm directly to avoid loss of precision.
        let pivot_sq_norm = self.col_coeffs.sq_norm() + 1.0;
        // assert!((self.primal_edge_sq_norms[entering_col] - pivot_sq_norm).abs() < 0.1);

        let pivot_coeff_sq = pivot_coeff * pivot_coeff;
        for (c, &r_coeff) in self.row_coeffs.iter() {
            if c == entering_col {
                self.primal_edge_sq_norms[c] = pivot_sq_norm / pivot_coeff_sq;
            } else {
                self.primal_edge_sq_norms[c] += -2.0 * r_coeff * self.sq_norms_update_helper[c]
                    / pivot_coeff
                    + pivot_sq_norm * r_coeff * r_coeff / pivot_coeff_sq;
            }

            // ours: "unwrap and assert become the numbered answers."
            note(
                &mut self.not_finite,
                Named::Norm,
                self.primal_edge_sq_norms[c],
            );
        }
    }

    fn update_dual_sq_norms(&mut self, leaving_row: usize, pivot_coeff: f64) {
        // Computations for the dual steepest edge pivoting rule.
        // See the same reference (Forrest, Goldfarb).

        let tau = self.basis_solver.solve(self.inv_basis_row_coeffs.iter());

        // ours: tau's "listed entries must be finite, else 23 (as the helper's)".
        for (_, &val) in tau.iter() {
            note(&mut self.not_finite, Named::Tau, val);
        }

        // Calculate pivot_sq_norm directly to avoid loss of precision.
        let pivot_sq_norm = self.inv_basis_row_coeffs.sq_norm();
        // assert!((self.dual_edge_sq_norms[leaving_row] - pivot_sq_norm).abs() < 0.1);

        let pivot_coeff_sq = pivot_coeff * pivot_coeff;
        for (r, &col_coeff) in self.col_coeffs.iter() {
            if r == leaving_row {
                self.dual_edge_sq_norms[r] = pivot_sq_norm / pivot_coeff_sq;
            } else {
                self.dual_edge_sq_norms[r] += -2.0 * col_coeff * tau.get(r) / pivot_coeff
                    + pivot_sq_norm * col_coeff * col_coeff / pivot_coeff_sq;
            }

            // ours: "unwrap and assert become the numbered answers."
            note(
                &mut self.not_finite,
                Named::DualNorm,
                self.dual_edge_sq_norms[r],
            );
        }
    }

    // ours. 02: "Acceptance is excess <= tol".
    pub fn final_check(&self, tol: f64) -> (Outcome, f64) {
        let (excess, place) = self.largest_excess();
        let rejected = if self.options.shows(Correction::Acceptance) {
            self.first_rejected(tol)
        } else if excess <= tol {
            None
        } else {
            place
        };
        (rejected.map_or(Outcome::Optimal, Outcome::Rejected), excess)
    }

    // ours. 02: "the largest excess over all bounds and rows, with its place, first on a tie, and 0.0
    // when nothing exceeds 0."
    fn largest_excess(&self) -> (f64, Option<Rejected>) {
        let mut largest = (0.0, None);
        let mut measure = |excess: f64, place: Rejected| {
            let counted = if excess.is_nan() {
                f64::INFINITY
            } else {
                excess
            };
            if counted > largest.0 {
                largest = (counted, Some(place));
            }
        };

        for var in 0..self.num_total_vars() {
            let val = self.get_value(var);
            if !val.is_finite() {
                measure(f64::INFINITY, Rejected::Value(var));
                continue;
            }
            let (min, max) = (self.orig_var_mins[var], self.orig_var_maxs[var]);
            for (bound, excess) in [(min, min - val), (max, val - max)] {
                if bound.is_finite() {
                    measure(excess, Rejected::Value(var));
                }
            }
        }
        for r in 0..self.orig_rhs.len() {
            measure(self.residual(r), Rejected::Row(r));
        }
        largest
    }

    /// The size of rhs - (row sum + slack). The row's stored slack entry is 1.0, so its product is the
    /// slack itself.
    fn residual(&self, r: usize) -> f64 {
        let mut lhs_val = 0.0;
        for (var, &coeff) in self.orig_constraints.outer_view(r).unwrap().iter() {
            lhs_val += coeff * self.get_value(var);
        }
        (self.orig_rhs[r] - lhs_val).abs()
    }

    // 01: "Final check: every value finite, at least lower - tol and at most upper + tol, columns
    // before slacks; then, row by row, the size of rhs - (row sum + slack) at most tol."
    fn first_rejected(&self, tol: f64) -> Option<Rejected> {
        let value = (0..self.num_total_vars()).find(|&var| {
            let val = self.get_value(var);
            let (min, max) = (self.orig_var_mins[var], self.orig_var_maxs[var]);
            !(val.is_finite() && val >= min - tol && val <= max + tol)
        });
        let row = || {
            (0..self.orig_rhs.len()).find(|&r| {
                let fits = self.residual(r) <= tol;
                !fits
            })
        };
        value
            .map(Rejected::Value)
            .or_else(|| row().map(Rejected::Row))
    }

    pub fn steps(&self) -> u64 {
        self.steps
    }

    /// Columns, then kept slacks.
    pub fn values(&self) -> Vec<f64> {
        (0..self.num_total_vars())
            .map(|var| self.get_value(var))
            .collect()
    }

    // ours: "the workspace then holds the state after the last whole step".
    pub fn state(&self) -> State {
        let eta_matrices = &self.basis_solver.eta_matrices;
        let (etaptr, etaidx, etaval) = eta_matrices.coeff_cols.raw_parts();
        State {
            kept: self.kept_rows.clone(),
            basic: self.basic_vars.clone(),
            nonbasic: self.nb_vars.clone(),
            bval: self.basic_var_vals.clone(),
            nval: self.nb_var_vals.clone(),
            price: self.nb_var_obj_coeffs.clone(),
            norm: self.primal_edge_sq_norms.clone(),
            flags: self
                .nb_var_states
                .iter()
                .map(NonBasicVarState::to_flags)
                .collect(),
            etarow: eta_matrices.leaving_rows.clone(),
            etaptr: etaptr.to_vec(),
            etaidx: etaidx.to_vec(),
            etaval: etaval.to_vec(),
            factor: self.basis_solver.lu_factors.to_factor(),
            dnorm: self.dual_edge_sq_norms.clone(),
            factorings: self.factorings,
            dual_steps: self.dual_steps,
            in_dual: !self.is_primal_feasible,
        }
    }
}

// ours: 23 is given where 01's order reaches it, so of all numbers of a step that aren't finite
// the first in that order is kept.
fn note(not_finite: &mut Option<Named>, named: Named, val: f64) {
    if !val.is_finite() && not_finite.is_none_or(|first| named < first) {
        *not_finite = Some(named);
    }
}

// ours: "Column, row and helper entries ... must be finite, else 23".
fn check_finite(named: Named, val: f64) -> Result<(), Outcome> {
    if val.is_finite() {
        Ok(())
    } else {
        Err(Outcome::NotFinite { named, flip: false })
    }
}

#[derive(Debug)]
struct PivotInfo {
    col: usize,
    entering_new_val: f64,
    entering_diff: f64,

    /// Contains info about the intersection between pivot row and column.
    /// If it is None, objective can be decreased without changing the basis
    /// (simply by changing the value of non-basic variable chosen as entering)
    elem: Option<PivotElem>,
}

#[derive(Debug)]
struct PivotElem {
    row: usize,
    coeff: f64,
    leaving_new_val: f64,
}

/// Stuff related to inversion of the basis matrix
#[derive(Clone)]
pub(crate) struct BasisSolver {
    lu_factors: LUFactors,
    pub(crate) lu_factors_transp: LUFactors,
    pub(crate) scratch: ScratchSpace,
    eta_matrices: EtaMatrices,
    rhs: ScatteredVec,
}

impl BasisSolver {
    // ours: "Eta entry (ours): 1 - 1/pivot at the leaving row, else coefficient/pivot, in the
    // column's listed order." As shown.
    fn push_eta_matrix(&mut self, col_coeffs: &SparseVec, r_leaving: usize, pivot_coeff: f64) {
        let coeffs = col_coeffs.iter().map(|(r, &coeff)| {
            let val = if r == r_leaving {
                1.0 - 1.0 / pivot_coeff
            } else {
                coeff / pivot_coeff
            };
            (r, val)
        });
        self.eta_matrices.push(r_leaving, coeffs);
    }

    // Only with the correction Reset switched off.
    fn reset(&mut self, orig_constraints_csc: &CsMat, basic_vars: &[usize]) -> Result<(), Outcome> {
        self.scratch.clear_sparse(basic_vars.len());
        self.eta_matrices.clear_and_resize(basic_vars.len());
        self.rhs.clear_and_resize(basic_vars.len());
        self.lu_factors = shown::lu_factorize(
            basic_vars.len(),
            |c| {
                orig_constraints_csc
                    .outer_view(basic_vars[c])
                    .unwrap()
                    .into_raw_storage()
            },
            0.1,
            &mut self.scratch,
        )
        .map_err(|_| Outcome::Panicked)?; // the shown text unwraps
        self.lu_factors_transp = self.lu_factors.transpose();
        Ok(())
    }

    // ours: as reset, with our factor, whose refusals are 23 and 25.
    fn factor(
        &mut self,
        orig_constraints_csc: &CsMat,
        basic_vars: &[usize],
    ) -> Result<(), Outcome> {
        let get_col = |c: usize| {
            let col = orig_constraints_csc.outer_view(basic_vars[c]).unwrap();
            col.into_raw_storage()
        };
        let factors = lu::lu_factorize(basic_vars.len(), get_col, &mut self.scratch);
        self.lu_factors = factors.map_err(|err| match err {
            NoFactor::NotFinite => Outcome::NotFinite {
                named: Named::Factor,
                flip: false,
            },
            NoFactor::Singular => Outcome::Singular,
        })?;
        self.lu_factors_transp = self.lu_factors.transpose();
        self.eta_matrices.clear_and_resize(basic_vars.len());
        Ok(())
    }

    fn solve<'a>(&mut self, rhs: impl Iterator<Item = (usize, &'a f64)>) -> &ScatteredVec {
        self.rhs.set(rhs);
        self.lu_factors.solve(&mut self.rhs, &mut self.scratch);

        // apply eta matrices (Vanderbei p.139)
        for idx in 0..self.eta_matrices.len() {
            let r_leaving = self.eta_matrices.leaving_rows[idx];
            let coeff = *self.rhs.get(r_leaving);
            for (r, &val) in self.eta_matrices.coeff_cols.col_iter(idx) {
                *self.rhs.get_mut(r) -= coeff * val;
            }
        }

        &mut self.rhs
    }

    /// Pass right-hand side via self.rhs
    fn solve_transp<'a>(&mut self, rhs: impl Iterator<Item = (usize, &'a f64)>) -> &ScatteredVec {
        self.rhs.set(rhs);
        // apply eta matrices in reverse (Vanderbei p.139)
        for idx in (0..self.eta_matrices.len()).rev() {
            let mut coeff = 0.0;
            // eta col `dot` rhs_transp
            for (i, &val) in self.eta_matrices.coeff_cols.col_iter(idx) {
                coeff += val * self.rhs.get(i);
            }
            let r_leaving = self.eta_matrices.leaving_rows[idx];
            *self.rhs.get_mut(r_leaving) -= coeff;
        }

        self.lu_factors_transp
            .solve(&mut self.rhs, &mut self.scratch);
        &mut self.rhs
    }
}

#[derive(Clone, Debug)]
struct EtaMatrices {
    leaving_rows: Vec<usize>,
    coeff_cols: SparseMat,
}

impl EtaMatrices {
    fn new(n_rows: usize) -> EtaMatrices {
        EtaMatrices {
            leaving_rows: vec![],
            coeff_cols: SparseMat::new(n_rows),
        }
    }

    fn len(&self) -> usize {
        self.leaving_rows.len()
    }

    // ours: the entries of a new column are tested for 23.
    fn last_col_data(&self) -> &[f64] {
        self.coeff_cols.col_data(self.coeff_cols.cols() - 1)
    }

    fn clear_and_resize(&mut self, n_rows: usize) {
        self.leaving_rows.clear();
        self.coeff_cols.clear_and_resize(n_rows);
    }

    fn push(&mut self, leaving_row: usize, coeffs: impl Iterator<Item = (usize, f64)>) {
        self.leaving_rows.push(leaving_row);
        self.coeff_cols.append_col(coeffs);
    }
}

fn into_resized(vec: CsVec, len: usize) -> CsVec {
    let (mut indices, mut data) = vec.into_raw_storage();

    while let Some(&i) = indices.last() {
        if i < len {
            // TODO: binary search
            break;
        }

        indices.pop();
        data.pop();
    }

    CsVec::new(len, indices, data)
}

#[cfg(test)]
mod tests {
    use super::*;

    /// Two rows with one column each.
    fn two_rows(options: Options) -> Solver {
        let row = |col| CsVec::new(2, vec![col], vec![1.0]);
        let constraints = [
            (row(0), ComparisonOp::Le, 1.0),
            (row(1), ComparisonOp::Le, 1.0),
        ];
        Solver::try_new(
            &[-1.0, -1.0],
            &[0.0, 0.0],
            &[f64::INFINITY, f64::INFINITY],
            &constraints,
            10,
            options,
        )
        .unwrap()
    }

    /// No plan reads a stale helper place (the v vector's list holds every place of the row
    /// solve's, since the leaving row is in the column's list), so the place is set up by hand:
    /// the row's list holds a place that the helper doesn't touch.
    #[test]
    fn a_stale_helper_place_counts_as_zero() {
        let norm_with = |options| {
            let mut solver = two_rows(options);
            solver.calc_col_coeffs(0);
            solver.row_coeffs.set([(1, &1.0)]);
            solver.sq_norms_update_helper[1] = 7.0;
            solver.update_primal_sq_norms(0, 1.0);
            solver.primal_edge_sq_norms[1]
        };
        assert_eq!(norm_with(Options::default()), 4.0);
        let shown = Options::showing(Correction::StaleHelper);
        assert_eq!(norm_with(shown), 4.0 - 14.0);
    }

    /// The kept bounds of a basic variable are the variable's own, after every step of a run.
    #[test]
    fn basic_bounds_are_the_variables_own() {
        let mut solver = two_rows(Options::default());
        while let Some(pivot_info) = solver.choose_pivot().unwrap() {
            solver.pivot(&pivot_info).unwrap();
            for (r, &var) in solver.basic_vars.iter().enumerate() {
                assert_eq!(solver.basic_var_mins[r], solver.orig_var_mins[var]);
                assert_eq!(solver.basic_var_maxs[r], solver.orig_var_maxs[var]);
            }
        }
        assert_eq!(solver.basic_vars, [0, 1]);
    }

    /// What the shown lu_factorize makes of a slack basis solves as the identity does.
    #[test]
    fn the_first_factor_is_the_identity() {
        let mut scratch = ScratchSpace::with_capacity(3);
        let cols = [([0usize], [1.0]), ([1], [1.0]), ([2], [1.0])];
        let shown = shown::lu_factorize(3, |c| (&cols[c].0[..], &cols[c].1[..]), 0.1, &mut scratch)
            .unwrap();
        for factors in [shown.clone(), shown.transpose(), LUFactors::identity(3)] {
            let mut rhs = ScatteredVec::empty(3);
            rhs.set([(2, &-0.0), (0, &0.3)]);
            factors.solve(&mut rhs, &mut scratch);
            assert_eq!(rhs.indices(), [2, 0]);
            assert_eq!(rhs.get(0).to_bits(), 0.3f64.to_bits());
            assert_eq!(rhs.get(1).to_bits(), 0.0f64.to_bits());
            assert_eq!(rhs.get(2).to_bits(), (-0.0f64).to_bits());
        }
    }
}

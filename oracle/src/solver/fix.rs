//! From minilp 0.2.2, src/solver.rs (fix_var, unfix_var), Apache-2.0, changed: the rules of document
//! 02, Ask 9, are put in, each marked `// ours:` with its words; a solver goes on from what a run left.

use super::{check_finite, note};
use super::{EtaMatrices, NonBasicVarState, Solver, VarState};
use crate::{
    answer::{Named, Outcome, State},
    lu::LUFactors,
    shown::Correction,
    sparse::SparseMat,
};

impl Solver {
    // ours: the calls are made "over a plan and the memory that a run left". The kept bounds of a basic
    // variable are its own, and "Steps are counted from 0 in each call".
    pub fn resume(&mut self, state: &State, objective: f64) {
        let num_constraints = self.num_constraints();
        for (col, &var) in state.nonbasic.iter().enumerate() {
            self.var_states[var] = VarState::NonBasic(col);
        }
        for (row, &var) in state.basic.iter().enumerate() {
            self.var_states[var] = VarState::Basic(row);
            self.basic_var_mins[row] = self.orig_var_mins[var];
            self.basic_var_maxs[row] = self.orig_var_maxs[var];
        }
        self.basic_vars = state.basic.clone();
        self.basic_var_vals = state.bval.clone();
        self.dual_edge_sq_norms = state.dnorm.clone();
        self.nb_vars = state.nonbasic.clone();
        self.nb_var_obj_coeffs = state.price.clone();
        self.nb_var_vals = state.nval.clone();
        let flags = state.flags.iter();
        self.nb_var_states = flags
            .map(|&cell| NonBasicVarState::of_flags(cell))
            .collect();
        self.primal_edge_sq_norms = state.norm.clone();
        self.cur_obj_val = objective;
        self.factorings = state.factorings;

        self.basis_solver.eta_matrices = EtaMatrices {
            leaving_rows: state.etarow.clone(),
            coeff_cols: SparseMat::from_parts(
                num_constraints,
                state.etaptr.clone(),
                state.etaidx.clone(),
                state.etaval.clone(),
            ),
        };
        self.basis_solver.lu_factors = match &state.factor {
            Some(factor) => LUFactors::of_factor(factor),
            None => LUFactors::identity(num_constraints),
        };
        // ours: "Transposes aren't looked at: a call makes them anew from L and U."
        self.basis_solver.lu_factors_transp = self.basis_solver.lu_factors.transpose();

        self.is_primal_feasible = true;
        self.is_dual_feasible = true;
    }

    pub fn fix_var(&mut self, var: usize, val: f64) -> Result<(), Outcome> {
        // ours: 43: "value not finite, below lower or above upper"; the shown text answers Infeasible,
        // and lets NaN through.
        if !val.is_finite() || val < self.orig_var_mins[var] || val > self.orig_var_maxs[var] {
            return Err(Outcome::BadValue);
        }

        let col = match self.var_states[var] {
            VarState::Basic(row) => {
                // if var was basic, remove it.
                // ours: "budget (21 where it is 0), then a dual step from its part 3 on with this row
                // and the value as the leaving value; 1 step".
                self.dual_step(row, val)?
            }

            VarState::NonBasic(col) => {
                // ours: "for a stop in fix's own first part: the state before the call".
                let before = self.clone();
                if let Err(outcome) = self.move_nb_var(col, val) {
                    *self = before;
                    return Err(outcome);
                }

                col
            }
        };

        self.nb_var_states[col] = NonBasicVarState {
            at_min: true,
            at_max: true,
            fixed: true,
        };

        self.is_primal_feasible = false;
        self.restore_feasibility()?;

        // ours: "then the run of Ask 8: dual steps, then primal ones".
        if !self.options.shows(Correction::AfterDual) {
            self.optimize()?;
        }
        Ok(())
    }

    // ours: that part of fix_var, where 23 may arise: "column solve (entries finite, else 23)"; "all
    // finite, else 23".
    fn move_nb_var(&mut self, col: usize, val: f64) -> Result<(), Outcome> {
        self.calc_col_coeffs(col);
        for (_, &coeff) in self.col_coeffs.iter() {
            check_finite(Named::Column, coeff)?;
        }

        let diff = val - self.nb_var_vals[col];
        for (r, coeff) in self.col_coeffs.iter() {
            self.basic_var_vals[r] -= diff * coeff;
            note(&mut self.not_finite, Named::Basic, self.basic_var_vals[r]);
        }
        self.cur_obj_val += diff * self.nb_var_obj_coeffs[col];
        note(&mut self.not_finite, Named::Objective, self.cur_obj_val);
        self.nb_var_vals[col] = val;
        self.check_noted(false)
    }

    /// Return true if the var was really unset.
    // ours: false is 44: "the column is basic or not marked fixed".
    pub fn unfix_var(&mut self, var: usize) -> Result<bool, Outcome> {
        if let VarState::NonBasic(col) = self.var_states[var] {
            if !self.nb_var_states[col].fixed {
                return Ok(false);
            }

            let cur_val = self.nb_var_vals[col];
            self.nb_var_states[col] = NonBasicVarState {
                at_min: cur_val == self.orig_var_mins[var],
                at_max: cur_val == self.orig_var_maxs[var],
                fixed: false,
            };

            // Shouldn't result in error, presumably problem was solvable before this variable
            // was fixed.
            // ours: where it does, the numbered answer.
            self.is_dual_feasible = false;
            self.optimize()?;
            Ok(true)
        } else {
            Ok(false)
        }
    }
}

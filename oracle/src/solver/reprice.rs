//! From minilp 0.2.2, src/solver.rs (recalc_obj_coeffs), Apache-2.0, changed: sums start at 0.0, and
//! the numbered answers are put in, each place marked `// ours:`.

use super::{note, Solver};
use crate::answer::{Named, Outcome};

impl Solver {
    // ours: "The memory is that of an Optimal run over the same rows and bounds; the costs may be
    // others."
    pub fn reprice(&mut self) -> Result<(), Outcome> {
        // ours: on 23 and 25 before the steps, "the state before the call".
        let before = self.clone();
        if let Err(outcome) = self.refactor_and_recalc() {
            *self = before;
            return Err(outcome);
        }

        // ours: "primal steps; final check".
        self.is_dual_feasible = false;
        self.optimize()
    }

    fn refactor_and_recalc(&mut self) -> Result<(), Outcome> {
        // ours: "Where eta columns are stored: the basis is factored in their place (23 and 25 as in
        // Ask 5)". The shown reset stands at the head of recalc_obj_coeffs.
        if self.basis_solver.eta_matrices.len() > 0 {
            self.factorings = self.factorings.wrapping_add(1);
            self.basis_solver
                .factor(&self.orig_constraints_csc, &self.basic_vars)?;
        }

        let multipliers = self.recalc_obj_coeffs(0.0);

        // ours: "All finite, else 23. Then they are stored".
        for val in multipliers {
            note(&mut self.not_finite, Named::Multiplier, val);
        }
        for &val in &self.nb_var_obj_coeffs {
            note(&mut self.not_finite, Named::Price, val);
        }
        note(&mut self.not_finite, Named::Objective, self.cur_obj_val);
        self.check_noted(false)
    }

    /// The sum's start is the caller's: 0.0, or the -0.0 of Rust's sum(). The result are the multipliers.
    pub(super) fn recalc_obj_coeffs(&mut self, sum_start: f64) -> Vec<f64> {
        let multipliers = {
            let mut rhs = vec![0.0; self.num_constraints()];
            for (c, &var) in self.basic_vars.iter().enumerate() {
                rhs[c] = self.orig_obj_coeffs[var];
            }
            self.basis_solver
                .lu_factors_transp
                .solve_dense(&mut rhs, &mut self.basis_solver.scratch);
            rhs
        };

        self.nb_var_obj_coeffs.clear();
        for &var in &self.nb_vars {
            let col = self.orig_constraints_csc.outer_view(var).unwrap();
            let dot_prod: f64 = col
                .iter()
                .map(|(r, val)| val * multipliers[r])
                .fold(sum_start, |sum, prod| sum + prod);
            self.nb_var_obj_coeffs
                .push(self.orig_obj_coeffs[var] - dot_prod);
        }

        self.cur_obj_val = 0.0;
        for (r, &var) in self.basic_vars.iter().enumerate() {
            self.cur_obj_val += self.orig_obj_coeffs[var] * self.basic_var_vals[r];
        }
        for (c, &var) in self.nb_vars.iter().enumerate() {
            self.cur_obj_val += self.orig_obj_coeffs[var] * self.nb_var_vals[c];
        }
        multipliers
    }
}

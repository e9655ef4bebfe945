//! The switches of `--shown`, and the shown parts that only they run: lu_factorize and order_simple.
//! From minilp 0.2.2, src/lu.rs and src/ordering.rs, Apache-2.0, changed: logging and the count of
//! the queue's columns are left out, an assert became an error.

use crate::{
    lu::{LUFactors, ScratchSpace},
    sparse::{Error, Perm, SparseMat, TriangleMat},
};

/// One correction of document 01 or 02 that can be switched off.
#[derive(Clone, Copy, Debug, PartialEq, Eq, Hash)]
pub enum Correction {
    /// "a row with an infinite bound ahead is no candidate in pass two"
    InfiniteRow,
    /// "An untouched place of sq_norms_update_helper counts as 0.0"
    StaleHelper,
    /// "The source lets NaN bounds through": refusal 2 doesn't look at NaN bounds.
    NanBounds,
    /// 02, Ask 5: a basis is factored only "when an exchange's eta column doesn't fit", and in
    /// our order; the shown pivot factors as soon as the etas have as many entries as the factor, in its
    /// own order and with its own pivots. The two touches of an exchange are ours too.
    Reset,
    /// "A norm, reckoned for every plan": the shown try_new skips it if dual feasible.
    Norms,
    /// recalc_obj_coeffs runs before the first step, its sums from 0.0.
    Recalc,
    /// "Sums start at 0.0": as Recalc, with the start of Rust's sum(), which is -0.0. The other
    /// sums by sum() are of squares with 1.0 added, where no start of zero can be seen.
    SumStart,
    /// 02, Ask 4: "a column at neither bound enters only if its price's size is at least EPS". The
    /// shown filter lets it enter at any price.
    FreeFilter,
    /// 02, Ask 7: "Acceptance is excess <= tol", and 24 names the largest excess. 01 has each value
    /// within lower - tol and upper + tol, and names the first that isn't.
    Acceptance,
    /// 02: "every finite cost, coefficient, right side or bound whose size is above 1e12" is
    /// refused; the source takes it.
    Wild,
    /// 02, Ask 8, ours: primal steps come after the dual ones too. The shown initial_solve takes them
    /// only where the start wasn't dual feasible.
    AfterDual,
    /// 02, Ask 9, ours: where a basic column is fixed at the value it has, no bound is in the way. The
    /// shown choose_entering_col_dual takes it for a fall of the column.
    StillFix,
}

impl Correction {
    pub const ALL: [Correction; 12] = [
        Correction::InfiniteRow,
        Correction::StaleHelper,
        Correction::NanBounds,
        Correction::Reset,
        Correction::Norms,
        Correction::Recalc,
        Correction::SumStart,
        Correction::FreeFilter,
        Correction::Acceptance,
        Correction::Wild,
        Correction::AfterDual,
        Correction::StillFix,
    ];

    pub fn name(self) -> &'static str {
        match self {
            Correction::InfiniteRow => "infinite-row",
            Correction::StaleHelper => "stale-helper",
            Correction::NanBounds => "nan-bounds",
            Correction::Reset => "reset",
            Correction::Norms => "norms",
            Correction::Recalc => "recalc",
            Correction::SumStart => "sum",
            Correction::FreeFilter => "free-filter",
            Correction::Acceptance => "acceptance",
            Correction::Wild => "wild",
            Correction::AfterDual => "after-dual",
            Correction::StillFix => "still-fix",
        }
    }
}

/// Which corrections are switched off: none by default.
#[derive(Clone, Copy, Debug, Default)]
pub struct Options {
    shown: [bool; Correction::ALL.len()],
}

impl Options {
    /// Switches the named correction off; `all` is every one. False for an unknown name.
    pub fn show(&mut self, name: &str) -> bool {
        let mut known = false;
        for correction in Correction::ALL {
            if name == "all" || name == correction.name() {
                self.shown[correction as usize] = true;
                known = true;
            }
        }
        known
    }

    /// The options with one correction switched off.
    pub fn showing(correction: Correction) -> Options {
        let mut options = Options::default();
        options.shown[correction as usize] = true;
        options
    }

    pub fn shows(&self, correction: Correction) -> bool {
        !cfg!(feature = "plain") && self.shown[correction as usize]
    }
}

pub fn lu_factorize<'a>(
    size: usize,
    get_col: impl Fn(usize) -> (&'a [usize], &'a [f64]),
    stability_coeff: f64,
    scratch: &mut ScratchSpace,
) -> Result<LUFactors, Error> {
    // Implementation of the Gilbert-Peierls algorithm:
    //
    // Gilbert, John R., and Tim Peierls. "Sparse partial pivoting in time
    // proportional to arithmetic operations." SIAM Journal on Scientific and
    // Statistical Computing 9.5 (1988): 862-874.
    //
    // https://ecommons.cornell.edu/bitstream/handle/1813/6623/86-783.pdf

    let col_perm = order_simple(size, |c| get_col(c).0);

    let mut orig_row2elt_count = vec![0; size];
    for col_rows in (0..size).map(|c| get_col(c).0) {
        for &orig_r in col_rows {
            orig_row2elt_count[orig_r] += 1;
        }
    }

    scratch.clear_sparse(size);

    let mut lower = SparseMat::new(size);
    let mut upper = SparseMat::new(size);
    let mut upper_diag = Vec::with_capacity(size);

    let mut new2orig_row = (0..size).collect::<Vec<_>>();
    let mut orig2new_row = new2orig_row.clone();

    for i_col in 0..size {
        let mat_col = get_col(col_perm.new2orig[i_col]);

        // Solve the equation L'_j * x = a_j (x will be in scratch.rhs).
        // L'_j is a sq. matrix with the first j columns of L
        // and columns of identity matrix after j.
        // Part of x above the diagonal (in the new row indices) is the column of U
        // and part of x below the diagonal divided by the pivot value is the column of L

        scratch.rhs.set(mat_col.0.iter().copied().zip(mat_col.1));

        scratch.mark_nonzero.run(
            &mut scratch.rhs,
            |new_i| &lower.col_rows(new_i),
            |new_i| new_i < i_col,
            |orig_r| orig2new_row[orig_r],
        );

        // At this point all future nonzero positions of scratch.rhs are marked
        // and the order in which variables depend on each other is determined.
        // rev() because DFS returns vertices in reverse topological order.
        for &orig_i in scratch.mark_nonzero.visited.iter().rev() {
            // values[orig_i] is already fully calculated, diag coeff = 1.0.
            let new_i = orig2new_row[orig_i];
            if new_i < i_col {
                let x_val = scratch.rhs.values[orig_i];
                for (orig_r, coeff) in lower.col_iter(new_i) {
                    scratch.rhs.values[orig_r] -= x_val * coeff;
                }
            }
        }

        // Next we choose a pivot among values of x below the diagonal.
        // Pivoting by choosing the max element is good for stability,
        // but bad for sparseness, so we do threshold pivoting instead.

        let pivot_orig_r = {
            let mut max_abs = 0.0;
            for &orig_r in &scratch.rhs.nonzero {
                if orig2new_row[orig_r] < i_col {
                    continue;
                }

                let abs = f64::abs(scratch.rhs.values[orig_r]);
                if abs > max_abs {
                    max_abs = abs;
                }
            }

            if max_abs < 1e-8 {
                return Err(Error::SingularMatrix);
            }

            // The shown text asserts this; here it is answered like a singular basis.
            if !max_abs.is_normal() {
                return Err(Error::SingularMatrix);
            }

            // Choose among eligible pivot rows one with the least elements.
            // Gilbert-Peierls suggest to choose row with least elements *to the right*,
            // but it yielded poor results. Our heuristic is not a huge improvement either,
            // but at least we are less dependent on initial row ordering.
            let mut best_orig_r = None;
            let mut best_elt_count = None;
            for &orig_r in &scratch.rhs.nonzero {
                if orig2new_row[orig_r] < i_col {
                    continue;
                }

                if f64::abs(scratch.rhs.values[orig_r]) >= stability_coeff * max_abs {
                    let elt_count = orig_row2elt_count[orig_r];
                    if best_elt_count.is_none() || best_elt_count.unwrap() > elt_count {
                        best_orig_r = Some(orig_r);
                        best_elt_count = Some(elt_count);
                    }
                }
            }
            best_orig_r.unwrap()
        };

        let pivot_val = scratch.rhs.values[pivot_orig_r];

        {
            // Keep track of row permutations.
            let row = i_col;
            let orig_row = new2orig_row[row];
            let pivot_row = orig2new_row[pivot_orig_r];
            new2orig_row.swap(row, pivot_row);
            orig2new_row.swap(orig_row, pivot_orig_r);
        }

        // Gather the values of x into lower and upper matrices.

        for &orig_r in &scratch.rhs.nonzero {
            let val = scratch.rhs.values[orig_r];

            if val == 0.0 {
                continue;
            }

            let new_r = orig2new_row[orig_r];
            if new_r < i_col {
                upper.push(new_r, val);
            } else if new_r == i_col {
                upper_diag.push(pivot_val);
            } else {
                lower.push(orig_r, val / pivot_val);
            }
        }

        upper.seal_column();
        lower.seal_column();
    }

    // permute rows of lower to "new" indices.
    for i_col in 0..lower.cols() {
        for r in lower.col_rows_mut(i_col) {
            *r = orig2new_row[*r];
        }
    }

    let res = LUFactors {
        lower: TriangleMat {
            nondiag: lower,
            diag: None,
        },
        upper: TriangleMat {
            nondiag: upper,
            diag: Some(upper_diag),
        },
        row_perm: Some(Perm {
            orig2new: orig2new_row,
            new2orig: new2orig_row,
        }),
        col_perm: Some(col_perm),
    };

    Ok(res)
}

/// Simplest preordering: order columns based on their size
pub fn order_simple<'a>(size: usize, get_col: impl Fn(usize) -> &'a [usize]) -> Perm {
    let mut cols_queue = ColsQueue::new(size);
    for c in 0..size {
        cols_queue.add(c, get_col(c).len() - 1);
    }

    let mut new2orig = Vec::with_capacity(size);
    while new2orig.len() < size {
        new2orig.push(cols_queue.pop_min().unwrap());
    }

    let mut orig2new = vec![0; size];
    for (new, &orig) in new2orig.iter().enumerate() {
        orig2new[orig] = new;
    }

    Perm { orig2new, new2orig }
}

#[derive(Debug)]
struct ColsQueue {
    score2head: Vec<Option<usize>>,
    prev: Vec<usize>,
    next: Vec<usize>,
    min_score: usize,
    len: usize,
}

impl ColsQueue {
    fn new(num_cols: usize) -> ColsQueue {
        ColsQueue {
            score2head: vec![None; num_cols],
            prev: vec![0; num_cols],
            next: vec![0; num_cols],
            min_score: num_cols,
            len: 0,
        }
    }

    fn pop_min(&mut self) -> Option<usize> {
        let col = loop {
            if self.min_score >= self.score2head.len() {
                return None;
            }
            if let Some(col) = self.score2head[self.min_score] {
                break col;
            }
            self.min_score += 1;
        };

        self.remove(col, self.min_score);
        Some(col)
    }

    fn add(&mut self, col: usize, score: usize) {
        self.min_score = std::cmp::min(self.min_score, score);
        self.len += 1;

        if let Some(head) = self.score2head[score] {
            self.prev[col] = self.prev[head];
            self.next[col] = head;
            self.next[self.prev[head]] = col;
            self.prev[head] = col;
        } else {
            self.prev[col] = col;
            self.next[col] = col;
            self.score2head[score] = Some(col);
        }
    }

    fn remove(&mut self, col: usize, score: usize) {
        self.len -= 1;
        if self.next[col] == col {
            self.score2head[score] = None;
        } else {
            self.next[self.prev[col]] = self.next[col];
            self.prev[self.next[col]] = self.prev[col];
            if self.score2head[score].unwrap() == col {
                self.score2head[score] = Some(self.next[col]);
            }
        }
    }
}

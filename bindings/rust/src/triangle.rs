//! Triangular systems, as the solver's own solves would use them: stored by columns, solved in
//! place over lent memory, without allocation.
//!
//! ```
//! use tevalumi::triangle::Triangle;
//!
//! // x0 = 2, 3 x0 + x1 = 5: ones on the diagonal, one entry of 3 below it.
//! let triangle = Triangle {
//!     upper: false,
//!     size: 2,
//!     entries: 1,
//!     starts: &[0, 1, 1],
//!     rows: &[1],
//!     vals: &[3.0],
//!     diag: None,
//! };
//! let mut values = [2.0, 5.0];
//! triangle.solve_dense(&mut values)?;
//! assert_eq!(values, [2.0, -1.0]);
//!
//! // Only place 0 is listed, so place 1 counts as 0.0; the walk from 0 reaches it.
//! let (mut list, mut values) = ([0, 99], [2.0, f64::NAN]);
//! assert_eq!(triangle.solve_sparse(&mut list, 1, &mut values)?, 2);
//! assert_eq!((list, values), ([0, 1], [2.0, -6.0]));
//! # Ok::<(), tevalumi::triangle::Refusal>(())
//! ```
//!
//! A matrix that is the product of a lower and an upper triangle is solved by one call:
//!
//! ```
//! use tevalumi::triangle::{solve_dense, Triangle};
//!
//! // Lower: 1, 0 over 3, 1. Upper: 2, 4 over 0, 5. Their product: 2, 4 over 6, 17.
//! let lower = Triangle {
//!     upper: false,
//!     size: 2,
//!     entries: 1,
//!     starts: &[0, 1, 1],
//!     rows: &[1],
//!     vals: &[3.0],
//!     diag: None,
//! };
//! let upper = Triangle {
//!     upper: true,
//!     size: 2,
//!     entries: 1,
//!     starts: &[0, 0, 1],
//!     rows: &[0],
//!     vals: &[4.0],
//!     diag: Some(&[2.0, 5.0]),
//! };
//! // 2 x0 + 4 x1 = 10, 6 x0 + 17 x1 = 40.
//! let mut values = [10.0, 40.0];
//! solve_dense(&lower, &upper, &mut values)?;
//! assert_eq!(values, [1.0, 2.0]);
//! # Ok::<(), tevalumi::triangle::Refusal>(())
//! ```

use crate::ffi;

/// A triangular matrix by columns, as it is lent.
#[derive(Clone, Copy, Debug)]
pub struct Triangle<'a> {
    /// Whether the entries stand above the diagonal, not below it.
    pub upper: bool,
    /// Rows and columns: at most 96.
    pub size: usize,
    /// Entries beside the diagonal: at most 4,560.
    pub entries: usize,
    /// Where each column's entries start, and at the end the entry count: `size + 1` cells.
    pub starts: &'a [usize],
    /// The row of each entry, in any order within a column.
    pub rows: &'a [usize],
    /// The number of each entry.
    pub vals: &'a [f64],
    /// The diagonal, or none for all ones.
    pub diag: Option<&'a [f64]>,
}

/// Why a triangle was refused: document 01's numbers. Nothing has changed.
#[derive(Clone, Copy, Debug, PartialEq, Eq, Hash)]
pub enum Refusal {
    /// 1: a bad size or start, an array that is too short, an entry outside or on the wrong side,
    /// a diagonal of 0.
    BadTriangle = 1,
    /// 2: a number isn't finite.
    NotFinite = 2,
    /// 3: a listed place is too large or repeated.
    BadList = 3,
}

impl Refusal {
    /// Document 01's number.
    pub const fn number(self) -> u8 {
        self as u8
    }

    /// A plain sentence, without its full stop.
    pub const fn sentence(self) -> &'static str {
        match self {
            Refusal::BadTriangle => "this isn't a triangle that can be solved",
            Refusal::NotFinite => "a number isn't finite",
            Refusal::BadList => "a listed place is too large or repeated",
        }
    }
}

impl core::fmt::Display for Refusal {
    fn fmt(&self, f: &mut core::fmt::Formatter<'_>) -> core::fmt::Result {
        write!(f, "{}: {}", self.number(), self.sentence())
    }
}

impl core::error::Error for Refusal {}

impl Triangle<'_> {
    /// Solves for the right side in the first `size` cells of `values`, which then hold the
    /// solution.
    ///
    /// # Errors
    ///
    /// [`Refusal::BadTriangle`] or [`Refusal::NotFinite`], the lower one first.
    pub fn solve_dense(&self, values: &mut [f64]) -> Result<(), Refusal> {
        let call = match self.upper {
            true => ffi::tevalumi_upper_dense,
            false => ffi::tevalumi_lower_dense,
        };
        let numbers = call(
            self.size,
            self.entries,
            self.starts,
            self.rows,
            self.vals,
            usize::from(self.diag.is_some()),
            self.diag.unwrap_or(&[]),
            values,
        );
        answer(numbers).map(drop)
    }

    /// Solves for a right side of which only the places in the first `listed` cells of `list`
    /// count; all others are 0.0, whatever `values` holds there. Answers how many places are listed
    /// afterwards: the given ones, then those that the walk from them has visited. The first
    /// `size` cells of `values` hold the solution. `list` needs `size` cells.
    ///
    /// The bits can differ from those of [`solve_dense`](Triangle::solve_dense): the order of
    /// subtractions does.
    ///
    /// # Errors
    ///
    /// Any [`Refusal`], the lowest one first.
    pub fn solve_sparse(
        &self,
        list: &mut [usize],
        listed: usize,
        values: &mut [f64],
    ) -> Result<usize, Refusal> {
        let call = match self.upper {
            true => ffi::tevalumi_upper_sparse,
            false => ffi::tevalumi_lower_sparse,
        };
        answer(call(
            self.size,
            self.entries,
            self.starts,
            self.rows,
            self.vals,
            usize::from(self.diag.is_some()),
            self.diag.unwrap_or(&[]),
            list,
            listed,
            values,
        ))
    }
}

/// Solves the product of two triangles for the right side in the first `size` cells of `values`,
/// which then hold the solution: the lower triangle first, then the upper one for what that gives.
/// A number between the two that isn't finite goes on.
///
/// # Errors
///
/// [`Refusal::BadTriangle`] or [`Refusal::NotFinite`], the lower one first, over both triangles and
/// the values. The first one too where `lower` is an upper triangle, `upper` isn't, or their sizes
/// differ.
pub fn solve_dense(lower: &Triangle, upper: &Triangle, values: &mut [f64]) -> Result<(), Refusal> {
    if lower.upper || !upper.upper || lower.size != upper.size {
        return Err(Refusal::BadTriangle);
    }
    let numbers = ffi::tevalumi_solve_dense(
        lower.size,
        lower.entries,
        lower.starts,
        lower.rows,
        lower.vals,
        usize::from(lower.diag.is_some()),
        lower.diag.unwrap_or(&[]),
        upper.entries,
        upper.starts,
        upper.rows,
        upper.vals,
        usize::from(upper.diag.is_some()),
        upper.diag.unwrap_or(&[]),
        values,
    );
    answer(numbers).map(drop)
}

fn answer(from: ffi::TriAnswer) -> Result<usize, Refusal> {
    match from.status {
        0 => Ok(from.places),
        1 => Err(Refusal::BadTriangle),
        2 => Err(Refusal::NotFinite),
        _ => Err(Refusal::BadList),
    }
}

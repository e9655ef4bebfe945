//! Triangles, and pairs of them, through the library.

use oracle::exchange::{factors_answer_line, tri_answer_line};
use oracle::limits;
use oracle::rng::Rng;
use oracle::tri::{Factors, FactorsAnswer, Tri, TriAnswer};

use crate::lent::{Cell, Lent};
use crate::library as lib;
use crate::EXTRA;

/// A size past the limit is said, but not lent.
const MOST: u64 = limits::TRI_PLACES + 1;

/// The answer line of a triangle; what a call changed that it must leave stands at its end.
pub fn line(tri: &Tri, rng: &mut Rng) -> String {
    let (answer, fault) = solve(tri, rng);
    with_fault(tri_answer_line(&tri.id, &answer), fault)
}

/// The answer line of two triangles, likewise.
pub fn factors_line(factors: &Factors, rng: &mut Rng) -> String {
    let (answer, fault) = solve_dense(factors, rng);
    with_fault(factors_answer_line(&factors.id, &answer), fault)
}

fn with_fault(mut line: String, fault: Option<&str>) -> String {
    if let Some(fault) = fault {
        line.push_str(" fault: ");
        line.push_str(fault);
    }
    line
}

fn solve(tri: &Tri, rng: &mut Rng) -> (TriAnswer, Option<&'static str>) {
    let size = tri.size.min(MOST) as usize;
    let given = Given::of(tri, rng);
    let given_before = given.clone();
    let listed = places(&tri.list);
    // Unlisted cells of the sparse call are marked: they count as 0.0 whatever they hold.
    let mut vals = vec![f64::MARK; size];
    let mut dense_vals = vec![0.0; size];
    for (i, &place) in listed.iter().enumerate() {
        if place < size {
            vals[place] = tri.lvals.get(i).copied().unwrap_or(f64::NAN);
            dense_vals[place] = vals[place];
        }
    }

    let room = size.saturating_sub(listed.len());
    let mut list = Lent::longer(&listed, room + rng.below(EXTRA));
    let mut values = Lent::longer(&vals, rng.below(EXTRA));
    let mut dense = Lent::longer(&dense_vals, rng.below(EXTRA));
    let before = (list.clone(), values.clone(), dense.clone());
    let sparse = given.sparse(tri, &mut list, listed.len(), &mut values);
    let dense_answer = given.dense(tri, &mut dense);

    let written = if sparse.status == 0 { size } else { 0 };
    let places = sparse.places;
    let dense_written = if dense_answer.status == 0 { size } else { 0 };
    let fault = if places > list.get().len() {
        Some("more places than the list has")
    } else if sparse.status != 0 && places != 0 {
        Some("places where nothing was solved")
    } else if dense_answer.places != dense_written {
        Some("the dense call's places")
    } else if !given.stayed(&given_before) {
        Some("the triangle changed")
    } else if !list.stayed(&before.0, places) {
        Some("a cell of the list changed")
    } else if !values.stayed(&before.1, written) {
        Some("a cell of the values changed")
    } else if !dense.stayed(&before.2, dense_written) {
        Some("a cell of the dense values changed")
    } else if sparse.status != 3 && dense_answer.status != sparse.status {
        // The dense call has no list, so it never answers 3.
        Some("the dense call answers otherwise")
    } else {
        None
    };

    let answer = TriAnswer {
        status: sparse.status as u8,
        list: list.get()[..places.min(list.get().len())].to_vec(),
        sparse: values.get()[..written].to_vec(),
        dense: dense.get()[..written].to_vec(),
    };
    (answer, fault)
}

fn solve_dense(factors: &Factors, rng: &mut Rng) -> (FactorsAnswer, Option<&'static str>) {
    let size = factors.size() as usize;
    let lower = Given::of(&factors.lower, rng);
    let upper = Given::of(&factors.upper, rng);
    let mut values = Lent::holding(&factors.values);
    let before = (lower.clone(), upper.clone(), values.clone());
    let answer = lib::tevalumi_solve_dense(
        size,
        factors.lower.entries as usize,
        lower.starts.get(),
        lower.rows.get(),
        lower.vals.get(),
        lower.with_diag,
        lower.diag.get(),
        factors.upper.entries as usize,
        upper.starts.get(),
        upper.rows.get(),
        upper.vals.get(),
        upper.with_diag,
        upper.diag.get(),
        values.lend(),
    );

    let written = if answer.status == 0 { size } else { 0 };
    let fault = if written > values.get().len() {
        Some("solved with too few values")
    } else if answer.places != written {
        Some("the places answered")
    } else if !lower.stayed(&before.0) {
        Some("the lower triangle changed")
    } else if !upper.stayed(&before.1) {
        Some("the upper triangle changed")
    } else if !values.stayed(&before.2, written) {
        Some("a cell of the values changed")
    } else {
        None
    };
    let answer = FactorsAnswer {
        status: answer.status as u8,
        dense: values.get()[..written.min(values.get().len())].to_vec(),
    };
    (answer, fault)
}

/// The triangle's arrays as lent. Where it has no diagonal, marked cells are lent as one, which no
/// call may read; where it has one, any number but 0 says so.
#[derive(Clone)]
struct Given {
    starts: Lent<usize>,
    rows: Lent<usize>,
    vals: Lent<f64>,
    with_diag: usize,
    diag: Lent<f64>,
}

impl Given {
    fn of(tri: &Tri, rng: &mut Rng) -> Given {
        let (with_diag, diag) = match &tri.diag {
            Some(diag) => (rng.pick(&[1, 2, usize::MAX]), Lent::holding(diag)),
            None => (0, Lent::marked(rng.below(EXTRA))),
        };
        Given {
            starts: Lent::holding(&places(&tri.starts)),
            rows: Lent::holding(&places(&tri.rows)),
            vals: Lent::holding(&tri.vals),
            with_diag,
            diag,
        }
    }

    fn stayed(&self, before: &Given) -> bool {
        self.starts.stayed(&before.starts, 0)
            && self.rows.stayed(&before.rows, 0)
            && self.vals.stayed(&before.vals, 0)
            && self.diag.stayed(&before.diag, 0)
    }

    fn sparse(
        &self,
        tri: &Tri,
        list: &mut Lent<usize>,
        listed: usize,
        values: &mut Lent<f64>,
    ) -> lib::TriAnswer {
        let call = if tri.upper {
            lib::tevalumi_upper_sparse
        } else {
            lib::tevalumi_lower_sparse
        };
        call(
            tri.size as usize,
            tri.entries as usize,
            self.starts.get(),
            self.rows.get(),
            self.vals.get(),
            self.with_diag,
            self.diag.get(),
            list.lend(),
            listed,
            values.lend(),
        )
    }

    fn dense(&self, tri: &Tri, values: &mut Lent<f64>) -> lib::TriAnswer {
        let call = if tri.upper {
            lib::tevalumi_upper_dense
        } else {
            lib::tevalumi_lower_dense
        };
        call(
            tri.size as usize,
            tri.entries as usize,
            self.starts.get(),
            self.rows.get(),
            self.vals.get(),
            self.with_diag,
            self.diag.get(),
            values.lend(),
        )
    }
}

fn places(from: &[u64]) -> Vec<usize> {
    from.iter().map(|&n| n as usize).collect()
}

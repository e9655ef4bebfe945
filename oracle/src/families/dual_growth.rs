//! Plans whose dual steps grow past the largest double, for places that a 23 can name there. All ours.
//!
//! A wave goes through a chain of rows: a row leaves, its column enters and takes the next row's slack
//! outside, so many times as far. Only slacks and columns at the bound in the way stand in a row beside
//! its own column, so one column is eligible at a time.

use super::growth::{few_bits, Cancel, PIVOT};
use super::{power_of_two, Draft, GE, INF, LE};
use crate::answer::Named;
use crate::rng::Rng;

/// A row that its slack is outside of by `past`.
fn source(draft: &mut Draft, past: f64) -> usize {
    let row = draft.empty_row(GE);
    draft.rows[row].rhs = past;
    row
}

/// Rows from `first` to `end`, in which numbers grow by 2^bits over so many steps, the last of them by
/// `odd` too: what stands in a row before the end has as few bits as what stands in the first.
struct Chain {
    bits: i32,
    steps: i32,
    odd: f64,
}

impl Chain {
    fn put(&self, draft: &mut Draft, first: usize, end: usize) {
        let mut row = first;
        for step in 0..self.steps {
            let last = step + 1 == self.steps;
            let next = if last { end } else { draft.empty_row(GE) };
            let grown = self.bits * (step + 1) / self.steps - self.bits * step / self.steps;
            let factor = power_of_two(grown) * PIVOT * if last { self.odd } else { 1.0 };
            // A column that rises takes a Le row's slack up, a Ge row's down.
            let pivot = if draft.rows[row].op == LE {
                -PIVOT
            } else {
                PIVOT
            };
            draft.column_in(0.0, INF, &[(row, pivot), (next, -factor)]);
            row = next;
        }
    }

    /// What stands in the end row for a number in the first.
    fn times(&self, number: f64) -> f64 {
        number * power_of_two(self.bits) * self.odd
    }

    /// To an end row of its own.
    fn put_on(&self, draft: &mut Draft, first: usize) -> usize {
        let end = draft.empty_row(GE);
        self.put(draft, first, end);
        end
    }
}

fn chain(bits: i32, steps: i32, odd: f64) -> Chain {
    Chain { bits, steps, odd }
}

/// The places that a dual step is seen to name.
pub const DUAL_PLACES: [Named; 8] = [
    Named::Norm,
    Named::DualNorm,
    Named::Objective,
    Named::Basic,
    Named::Price,
    Named::DualQuotient,
    Named::Row,
    Named::Tau,
];

/// A draft that is made for this place.
pub(super) fn draft(rng: &mut Rng, named: Named) -> Draft {
    match named {
        Named::Norm => norm_draft(rng),
        Named::DualNorm => dual_norm_draft(rng),
        Named::DualQuotient => quotient_draft(rng),
        Named::Row => row_draft(rng, 180),
        // Of less size, as in growth.rs.
        Named::Tau => row_draft(rng, 100),
        _ => product_draft(rng, named),
    }
}

/// One chain of a little over half the exponents.
fn norm_draft(rng: &mut Rng) -> Draft {
    let mut draft = Draft::new();
    let first = source(&mut draft, 1.0);
    let (bits, steps) = (514 + rng.below(40) as i32, 9 + rng.below(8) as i32);
    chain(bits, steps, 1.0 + rng.unit()).put_on(&mut draft, first);
    draft
}

/// Two chains to one end row, which doesn't leave: the squares of both are within the largest double,
/// each in the norm of a slack of its own, and the end row's norm is their sum.
fn dual_norm_draft(rng: &mut Rng) -> Draft {
    let mut draft = Draft::new();
    let end = draft.empty_row(LE);
    for past in [1.0, 0.5] {
        let first = source(&mut draft, past);
        chain(511, 9, 1.45 + 0.5 * rng.unit()).put(&mut draft, first, end);
    }
    draft
}

/// Two chains. A column takes the first one's rows along, so it has large entries, and, where the first
/// one's end has a cost, a large price. It enters in the second one's end row.
fn product_draft(rng: &mut Rng, named: Named) -> Draft {
    let mut draft = Draft::new();
    let (cost, past, pivot) = match named {
        Named::Objective => (1.0, 0.5, power_of_two(-20)),
        Named::Price => (1.0, power_of_two(-20), power_of_two(-20)),
        _ => (0.0, 0.5, power_of_two(-20)),
    };
    let first = source(&mut draft, 1.0);
    let end = chain(500, 8, 1.0 + rng.unit()).put_on(&mut draft, first);
    draft.column_in(cost, INF, &[(end, 1.0)]);
    let second = source(&mut draft, past);
    let end = chain(506, 9, 1.0 + rng.unit()).put_on(&mut draft, second);
    draft.column_in(0.0, INF, &[(first, -1.0), (end, pivot)]);
    draft
}

/// A price that is rounding alone, grown three times, as growth.rs has it for a flip. A column with a
/// large price enters in the end row of a level: there the next column has what a `Cancel` leaves, and
/// gets its price from that, while its own entries are small. The last such column stands with a small
/// coefficient in a row that then leaves.
fn quotient_draft(rng: &mut Rng) -> Draft {
    let mut draft = Draft::new();
    let first = source(&mut draft, 512.0);
    let end = chain(250, 5, 1.0).put_on(&mut draft, first);
    draft.column_in(1.0, INF, &[(end, 1.0)]);
    let mut column = vec![(first, -1.0)];
    for (bits, steps, past, entry) in [(260, 5, 64.0, 31), (474, 8, 8.0, 31), (82, 2, 1.0, 38)] {
        let (cancel, chain) = loop {
            let cancel = Cancel::few_bits(rng);
            let chain = chain(bits, steps, 1.0 + rng.unit());
            let left = cancel.left_of_multiple(-chain.times(1.0));
            if (power_of_two(bits - 56)..power_of_two(bits - 53)).contains(&left) {
                break (cancel, chain);
            }
        };
        let from = source(&mut draft, past);
        let to = cancel.put_dual(&mut draft, from, 0.5 * past);
        let end = chain.put_on(&mut draft, to);
        column.push((end, 1.0));
        draft.column_in(0.0, INF, &column);
        column = vec![(from, -power_of_two(entry))];
    }
    let last = source(&mut draft, power_of_two(-16));
    column.push((last, PIVOT));
    draft.column_in(0.0, INF, &column);
    draft
}

/// After a `Cancel` that large numbers went through nothing smaller is left in its end row. Then a column
/// that enters after its three takes the end row's slack outside, by `trigger` times what came.
fn put_trigger(draft: &mut Draft, to: usize, trigger: f64) {
    let by_first = draft.columns() - 2;
    let row = draft.rows.len();
    draft.row(vec![(by_first, -1.0)], GE, 0.0);
    draft.column_in(0.0, INF, &[(to, trigger), (row, 1.0)]);
}

/// The row solve from the end row, as growth.rs has it: what two `Cancel`s leave, each enlarged by a
/// chain, stands in no norm, since no row that left before has more than few bits.
fn row_draft(rng: &mut Rng, bits: i32) -> Draft {
    let (nearer, farther, near, far) = loop {
        let (nearer, farther) = (Cancel::few_bits(rng), Cancel::few_bits(rng));
        let (near, far) = (
            chain(500, 8, few_bits(rng)),
            chain(500, 8, 1.0 + rng.unit()),
        );
        let left = farther.left_of_multiple(-far.times(1.0));
        let left = nearer.left_of_multiple(-near.times(left));
        if left.abs() > power_of_two(870) {
            break (nearer, farther, near, far);
        }
    };
    let mut draft = Draft::new();
    let first = source(&mut draft, 1.0);
    let row = chain(bits, 3, 1.0).put_on(&mut draft, first);
    let row = nearer.put_dual(&mut draft, row, 0.0);
    put_trigger(&mut draft, row, power_of_two(-bits));
    let row = near.put_on(&mut draft, row);
    let row = farther.put_dual(&mut draft, row, 0.0);
    put_trigger(&mut draft, row, power_of_two(-500));
    let end = far.put_on(&mut draft, row);
    draft.column_in(0.0, INF, &[(end, 1.0)]);
    draft
}

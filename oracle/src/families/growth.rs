//! Plans with numbers within 1e12 whose runs grow past the largest double: one for each place that a
//! 23 can name. All ours.
//!
//! Every cascade and every `Cancel` here has a score of its own, and the rule takes the larger score
//! first; so the columns enter in the order of the scores, and every step but the last one or two
//! moves nothing. docs/DECISIONS.md, "23's places", says why no plan is simpler.

use super::{power_of_two, Draft, EQ, GE, INF, LE};
use crate::answer::Named;
use crate::rng::Rng;

/// A little over EPS.
pub(super) const PIVOT: f64 = 1.0 / (1 << 26) as f64;

/// A chain of rows in which numbers grow. Each column has its pivot in a row and a large entry, which
/// takes that row's slack away from its bound, in the next. Only the last column has a cost. When it
/// enters, the price of the one before it becomes one that enters, and so on to the first. Then what
/// stands in the first row stands in the end row too, so many times as large.
///
/// A price and the root of its norm grow alike, so all of a cascade has one score.
pub(super) struct Cascade {
    factors: Vec<f64>,
    pivot: f64,
}

impl Cascade {
    /// Grows by 2^bits over so many steps, each by a power of two, and once by `odd`.
    pub(super) fn new(bits: i32, steps: i32, odd: f64) -> Cascade {
        let mut factors = vec![];
        for step in 0..steps {
            let grown = bits * step / steps;
            factors.push(power_of_two(bits * (step + 1) / steps - grown) * PIVOT);
        }
        factors[0] *= odd;
        Cascade {
            factors,
            pivot: PIVOT,
        }
    }

    /// What stands in the end row for a number in the first.
    fn times(&self, number: f64) -> f64 {
        self.factors
            .iter()
            .fold(number, |grown, factor| grown * (factor / self.pivot))
    }

    /// Begins at a row that is there; the end row, a new one.
    pub(super) fn put(&self, draft: &mut Draft, first: usize, score: f64) -> usize {
        self.put_to(draft, first, None, score)
    }

    fn put_to(&self, draft: &mut Draft, first: usize, end: Option<usize>, score: f64) -> usize {
        let mut row = first;
        for (step, &factor) in self.factors.iter().enumerate() {
            let last = step + 1 == self.factors.len();
            let given = end.filter(|_| last);
            let next = given.unwrap_or_else(|| draft.empty_row(LE));
            let cost = if last { -score * factor } else { 0.0 };
            draft.column_in(cost, INF, &[(row, self.pivot), (next, -factor)]);
            row = next;
        }
        row
    }
}

/// Three columns that bring a number of one row into another row three times, together 0 times: a norm
/// sees nothing there, and what is left is rounding. The column solve and the row solve take the
/// products in different orders, and few bits make the one or the other exact: see `few_bits`.
#[derive(Clone, Copy)]
pub(super) struct Cancel {
    first: f64,
    second: f64,
    by_first: f64,
    by_second: f64,
    back: f64,
}

impl Cancel {
    /// With few bits, so that the row solve of a number with few bits comes to 0.0 exactly. The second
    /// product is far smaller than the first: then what is left has many bits, and what is left of
    /// that isn't 0.0 either.
    pub(super) fn few_bits(rng: &mut Rng) -> Cancel {
        let mut bits = || (65 + rng.below(62)) as f64 / 128.0;
        let (first, second) = (-bits(), -bits() / 1024.0);
        let (by_first, by_second) = (bits(), bits() / 1024.0);
        Cancel {
            first,
            second,
            by_first,
            by_second,
            back: first * by_first + second * by_second,
        }
    }

    /// What the column solve leaves of an entry.
    fn left_of_entry(&self, entry: f64) -> f64 {
        let (first, second) = (-(entry * self.first), -(entry * self.second));
        -(entry * self.back) - first * self.by_first - second * self.by_second
    }

    /// What the row solve leaves of a multiple.
    pub(super) fn left_of_multiple(&self, multiple: f64) -> f64 {
        let (first, second) = (-(self.by_first * multiple), -(self.by_second * multiple));
        -(self.first * first + self.back * multiple + self.second * second)
    }

    /// From a row that is there; the row that what is left stands in.
    fn put(&self, draft: &mut Draft, from: usize, score: f64) -> usize {
        // Eq, since the prices of these rows' slacks fall.
        let first = draft.empty_row(EQ);
        let to = draft.empty_row(LE);
        let second = draft.empty_row(EQ);
        let column = [
            (from, 1.0),
            (first, self.first),
            (to, self.back),
            (second, self.second),
        ];
        draft.column_in(-score, INF, &column);
        draft.column_in(-0.75 * score, INF, &[(first, 1.0), (to, self.by_first)]);
        draft.column_in(-0.5 * score, INF, &[(second, 1.0), (to, self.by_second)]);
        to
    }

    /// As `put`, for dual steps: from a row whose slack gets outside, so that the three columns enter in
    /// turn. The second row's slack starts outside by `past`, and then so does the end row's, a Le row's,
    /// by a little; what comes from the first row comes to 0 there too.
    pub(super) fn put_dual(&self, draft: &mut Draft, from: usize, past: f64) -> usize {
        let first = draft.empty_row(GE);
        let to = draft.empty_row(LE);
        let second = draft.empty_row(GE);
        draft.rows[second].rhs = past;
        let column = [
            (from, 1.0),
            (first, self.first),
            (to, self.back),
            (second, self.second),
        ];
        draft.column_in(0.0, INF, &column);
        draft.column_in(0.0, INF, &[(first, 1.0), (to, self.by_first)]);
        draft.column_in(0.0, INF, &[(second, 1.0), (to, self.by_second)]);
        to
    }

    /// What a column of cost 0.0 with -entry in the first row comes to cost by these three: with this
    /// cost it doesn't enter.
    fn price_of(&self, entry: f64, score: f64) -> f64 {
        score * (entry - 0.75 * entry * self.first - 0.5 * entry * self.second) + 1.0
    }
}

/// 12 bits.
pub(super) fn few_bits(rng: &mut Rng) -> f64 {
    (2_049 + 2 * rng.below(1_024)) as f64 / 2_048.0
}

fn many_bits(rng: &mut Rng) -> f64 {
    1.0 + rng.unit()
}

/// The sort of step in which a place is reached.
#[derive(Clone, Copy, Debug, PartialEq)]
pub(super) enum Within {
    Exchange,
    Flip,
    Dual,
}

/// A place that can be named.
pub(super) type Place = (Named, Within);

pub(super) const PLACES: [Place; 10] = [
    (Named::Norm, Within::Exchange),
    (Named::Price, Within::Exchange),
    (Named::Row, Within::Exchange),
    (Named::Objective, Within::Flip),
    (Named::Column, Within::Exchange),
    (Named::Helper, Within::Exchange),
    (Named::Basic, Within::Flip),
    (Named::Quotient, Within::Exchange),
    (Named::Objective, Within::Exchange),
    (Named::Basic, Within::Exchange),
];

/// What the dual norms add.
pub(super) const DUAL_NORMS: [Place; 2] = [
    (Named::Tau, Within::Exchange),
    (Named::DualNorm, Within::Exchange),
];

/// A draft that is made for this place.
pub(super) fn draft(rng: &mut Rng, (named, within): Place) -> Draft {
    match (named, within) {
        (_, Within::Dual) => super::dual_growth::draft(rng, named),
        (Named::Norm, _) => norm_draft(rng),
        (Named::Price, _) => price_draft(rng),
        (Named::Row, _) => row_draft(rng, 180),
        // Of less size: the row is finite, its product with the end row's numbers isn't.
        (Named::Tau, _) => row_draft(rng, 100),
        (Named::DualNorm, _) => dual_norm_draft(rng),
        (Named::Objective, Within::Flip) => flipped_objective_draft(rng),
        _ => hidden_draft(rng, named, within == Within::Flip),
    }
}

/// One cascade of a little over half the exponents.
fn norm_draft(rng: &mut Rng) -> Draft {
    let mut draft = Draft::new();
    let first = draft.empty_row(LE);
    let (bits, steps) = (514 + rng.below(40) as i32, 9 + rng.below(8) as i32);
    Cascade::new(bits, steps, many_bits(rng)).put(&mut draft, first, 1.0);
    draft
}

/// Two cascades to one end row: the squares of both are within the largest double, each in the norm of
/// a slack of its own, and the end row's dual norm is their sum.
fn dual_norm_draft(rng: &mut Rng) -> Draft {
    let mut draft = Draft::new();
    let end = draft.empty_row(LE);
    for score in [1.0, 0.5] {
        let first = draft.empty_row(LE);
        Cascade::new(511, 9, 1.45 + 0.5 * rng.unit()).put_to(&mut draft, first, Some(end), score);
    }
    draft
}

/// Two cascades. The last column takes the second one's columns away from their bounds, so it has a
/// large price, and its pivot is in the first one's end row, where the first one's slack is large: that
/// slack's price is the product.
fn price_draft(rng: &mut Rng) -> Draft {
    let mut draft = Draft::new();
    let first = draft.empty_row(LE);
    let end = Cascade::new(500, 8, many_bits(rng)).put(&mut draft, first, 1.0);
    let second = draft.empty_row(LE);
    Cascade::new(506, 9, many_bits(rng)).put(&mut draft, second, 0.5);
    let pivot = power_of_two(-20);
    draft.column_in(0.0, INF, &[(second, -1.0), (end, pivot)]);
    draft
}

/// A row solve from the end row. What two `Cancel`s leave, each enlarged by a cascade, stands in no norm,
/// since no row that was pivoted on before has more than few bits. The last column's pivot is in the
/// end row.
fn row_draft(rng: &mut Rng, bits: i32) -> Draft {
    let (nearer, farther, near, far) = loop {
        let (nearer, farther) = (Cancel::few_bits(rng), Cancel::few_bits(rng));
        let near = Cascade::new(500, 8, few_bits(rng));
        let far = Cascade::new(500, 8, many_bits(rng));
        let left = farther.left_of_multiple(far.times(1.0));
        let left = nearer.left_of_multiple(near.times(left));
        if left.abs() > power_of_two(870) {
            break (nearer, farther, near, far);
        }
    };
    let mut draft = Draft::new();
    let first = draft.empty_row(LE);
    let row = Cascade::new(bits, 3, 1.0).put(&mut draft, first, 1.0);
    let row = nearer.put(&mut draft, row, power_of_two(-4));
    let row = near.put(&mut draft, row, power_of_two(-8));
    let row = farther.put(&mut draft, row, power_of_two(-12));
    let end = far.put(&mut draft, row, power_of_two(-16));
    draft.column_in(-power_of_two(-22), INF, &[(end, 1.0)]);
    draft
}

/// A price that is rounding alone, grown three times. A column takes a cascade's columns away from
/// their bounds and has a large price and large entries. It enters in the end row of a level: there the
/// next column has what a `Cancel` leaves, and gets its price from that, while its own entries are
/// small. So it is with the next level, and the last column flips with such a price.
fn flipped_objective_draft(rng: &mut Rng) -> Draft {
    let entry = power_of_two(31);
    let mut draft = Draft::new();
    let mut levels = vec![];
    for (bits, steps, score) in [(260, 5, 64.0), (474, 8, 63.0), (80, 2, 62.0)] {
        let (cancel, cascade) = loop {
            let cancel = Cancel::few_bits(rng);
            let cascade = Cascade::new(bits, steps, many_bits(rng));
            let left = cancel.left_of_multiple(cascade.times(1.0));
            if (power_of_two(bits - 56)..power_of_two(bits - 53)).contains(&left) {
                break (cancel, cascade);
            }
        };
        let from = draft.empty_row(LE);
        let to = cancel.put(&mut draft, from, score);
        let end = cascade.put(&mut draft, to, score / 16.0);
        levels.push((from, end, cancel.price_of(entry, score)));
    }
    let first = draft.empty_row(LE);
    Cascade::new(250, 5, many_bits(rng)).put(&mut draft, first, 1.0);
    draft.column_in(0.0, INF, &[(first, -1.0), (levels[0].1, 1.0)]);
    for (level, &(from, _, cost)) in levels.iter().enumerate() {
        match levels.get(level + 1) {
            Some(next) => draft.column_in(cost, INF, &[(from, -entry), (next.1, 1.0)]),
            None => draft.column_in(cost, power_of_two(39), &[(from, -entry)]),
        }
    }
    draft
}

/// A column that holds what three `Cancel`s leave of its entry, each enlarged by a cascade but for the
/// third, which decides the place. No norm knows of it. A last column makes its price one that enters.
///
/// Its own entry may be past the largest double. Or it enters by an exchange: the helper has the product
/// with a norm's root. Or it flips: a basic value may pass the largest double, or stay under it, and
/// then another column's pivot is in that row, with a quotient, a product with its price or a basic
/// value too large.
fn hidden_draft(rng: &mut Rng, named: Named, flip: bool) -> Draft {
    let (entry, cancels, cascades) = loop {
        let entry = power_of_two(37) * many_bits(rng);
        let cancels = [(); 3].map(|()| Cancel::few_bits(rng));
        let cascades = [(); 2].map(|()| Cascade::new(500, 8, few_bits(rng)));
        // Below 0.0 everywhere, so that every basic variable moves away from its bound.
        let once = cancels[0].left_of_entry(-entry);
        let twice = cancels[1].left_of_entry(cascades[0].times(once));
        let left = cancels[2].left_of_entry(cascades[1].times(twice));
        if once < 0.0 && twice < 0.0 && (power_of_two(870)..power_of_two(877)).contains(&-left) {
            break (entry, cancels, cascades);
        }
    };
    let bits = match (named, flip) {
        (Named::Column, _) => 160,
        (Named::Helper, _) | (_, true) => 130,
        _ => 100,
    };
    let mut draft = Draft::new();
    let from = draft.empty_row(LE);
    let row = cancels[0].put(&mut draft, from, 1.0);
    let row = cascades[0].put(&mut draft, row, power_of_two(-4));
    let row = cancels[1].put(&mut draft, row, power_of_two(-8));
    let row = cascades[1].put(&mut draft, row, power_of_two(-12));
    let row = cancels[2].put(&mut draft, row, power_of_two(-16));
    let end = Cascade::new(bits, 3, 1.0).put(&mut draft, row, power_of_two(-20));

    let last = draft.empty_row(LE);
    draft.column_in(-power_of_two(-23), INF, &[(last, 1.0)]);
    let mut entries = vec![(from, -entry), (last, -power_of_two(38))];
    let mut upper = power_of_two(39);
    if named == Named::Helper {
        entries.push((draft.empty_row(LE), 1.0));
        upper = INF;
    }
    draft.column_in(cancels[0].price_of(entry, 1.0), upper, &entries);

    let (cost, pivot) = match (named, flip) {
        (Named::Quotient, false) => (power_of_two(-20), PIVOT),
        (Named::Objective, false) => (power_of_two(12), power_of_two(-6)),
        (Named::Basic, false) => (power_of_two(-20), 1.0),
        _ => return draft,
    };
    let other = draft.empty_row(LE);
    draft.column_in(-cost, INF, &[(end, pivot), (other, -power_of_two(38))]);
    draft
}

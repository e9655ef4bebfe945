//! The triangle calls: refusals 1 to 3 (ours), then tri_solve_sparse and tri_solve_dense as shown,
//! and for two triangles solve_dense as shown.

use crate::{
    limits,
    lu::{tri_solve_dense, tri_solve_sparse, LUFactors, ScratchSpace, Triangle},
    sparse::{SparseMat, TriangleMat},
};

/// A triangle as lent, with the listed places and their numbers.
#[derive(Clone, Debug, Default)]
pub struct Tri {
    pub id: String,
    pub upper: bool,
    pub size: u64,
    pub entries: u64,
    pub starts: Vec<u64>,
    pub rows: Vec<u64>,
    pub vals: Vec<f64>,
    /// None: all ones.
    pub diag: Option<Vec<f64>>,
    pub list: Vec<u64>,
    /// The number of each listed place. A place listed twice has the later number, one without a
    /// number has NaN.
    pub lvals: Vec<f64>,
}

#[derive(Clone, Debug)]
pub struct TriAnswer {
    pub status: u8,
    /// The list afterwards, the values of the sparse solve and those of the dense one.
    pub list: Vec<usize>,
    pub sparse: Vec<f64>,
    pub dense: Vec<f64>,
}

/// Two triangles as lent, of one size and without lists, and the numbers to solve for.
#[derive(Clone, Debug, Default)]
pub struct Factors {
    pub id: String,
    pub lower: Tri,
    pub upper: Tri,
    pub values: Vec<f64>,
}

impl Factors {
    pub fn size(&self) -> u64 {
        self.lower.size
    }

    pub fn set_size(&mut self, size: u64) {
        self.lower.size = size;
        self.upper.size = size;
    }
}

#[derive(Clone, Debug)]
pub struct FactorsAnswer {
    pub status: u8,
    pub dense: Vec<f64>,
}

pub fn solve(tri: &Tri) -> TriAnswer {
    let status = refusal(tri);
    if status != 0 {
        return TriAnswer {
            status,
            list: vec![],
            sparse: vec![],
            dense: vec![],
        };
    }

    let size = tri.size as usize;
    let tri_mat = triangle_mat(tri);
    let rhs: Vec<(usize, f64)> = tri
        .list
        .iter()
        .map(|&i| i as usize)
        .zip(lvals(tri))
        .collect();

    let mut scratch = ScratchSpace::with_capacity(size);
    scratch.rhs.set(rhs.iter().map(|(i, val)| (*i, val)));
    tri_solve_sparse(&tri_mat, &mut scratch);

    // "Unlisted places count as 0.0."
    let mut dense = vec![0.0; size];
    for &(i, val) in &rhs {
        dense[i] = val;
    }
    let triangle = if tri.upper {
        Triangle::Upper
    } else {
        Triangle::Lower
    };
    tri_solve_dense(&tri_mat, triangle, &mut dense);

    TriAnswer {
        status,
        list: scratch.rhs.nonzero,
        sparse: scratch.rhs.values,
        dense,
    }
}

/// "solve_dense (no permutations)".
pub fn solve_dense(factors: &Factors) -> FactorsAnswer {
    let status = factors_refusal(factors);
    if status != 0 {
        return FactorsAnswer {
            status,
            dense: vec![],
        };
    }

    let size = factors.size() as usize;
    let lu = LUFactors {
        lower: triangle_mat(&factors.lower),
        upper: triangle_mat(&factors.upper),
        row_perm: None,
        col_perm: None,
    };
    let mut dense = factors.values[..size].to_vec();
    lu.solve_dense(&mut dense, &mut ScratchSpace::with_capacity(size));
    FactorsAnswer { status, dense }
}

fn triangle_mat(tri: &Tri) -> TriangleMat {
    let size = tri.size as usize;
    let mut nondiag = SparseMat::new(size);
    for col in 0..size {
        let range = tri.starts[col] as usize..tri.starts[col + 1] as usize;
        nondiag.append_col(range.map(|i| (tri.rows[i] as usize, tri.vals[i])));
    }
    TriangleMat {
        nondiag,
        diag: tri.diag.as_ref().map(|diag| diag[..size].to_vec()),
    }
}

/// The number of each listed place as it stands in the lent values.
fn lvals(tri: &Tri) -> Vec<f64> {
    let number_of = |place: u64| {
        let last = tri.list.iter().rposition(|&p| p == place).unwrap();
        tri.lvals.get(last).copied().unwrap_or(f64::NAN)
    };
    tri.list.iter().map(|&place| number_of(place)).collect()
}

/// "Refused, lowest first, nothing changed".
fn refusal(tri: &Tri) -> u8 {
    if !shape_fits(tri) {
        1
    } else if !numbers_fit(tri) {
        2
    } else if !list_fits(tri) {
        3
    } else {
        0
    }
}

/// The same over both triangles and the numbers to solve for, each of which counts: no list is lent,
/// so 3 isn't given. A number between the two solves isn't looked at.
fn factors_refusal(factors: &Factors) -> u8 {
    let both = [&factors.lower, &factors.upper];
    if !both.into_iter().all(shape_fits) || (factors.values.len() as u64) < factors.size() {
        1
    } else if !both.into_iter().all(numbers_fit)
        || !finite(&factors.values[..factors.size() as usize])
    {
        2
    } else {
        0
    }
}

// "1 a bad size or start, an off-diagonal row too large or not below (lower) or above (upper), a
// diagonal of 0"
fn shape_fits(tri: &Tri) -> bool {
    if tri.size > limits::TRI_PLACES || tri.entries > limits::TRI_ENTRIES {
        return false;
    }

    let size = tri.size as usize;
    let entries = tri.entries as usize;
    if tri.starts.len() < size + 1
        || tri.rows.len() < entries
        || tri.vals.len() < entries
        || tri.diag.as_ref().is_some_and(|diag| diag.len() < size)
    {
        return false;
    }

    let starts = &tri.starts[..size + 1];
    if starts[0] != 0 || starts.windows(2).any(|w| w[0] > w[1]) || starts[size] != tri.entries {
        return false;
    }

    for col in 0..size {
        for &row in &tri.rows[starts[col] as usize..starts[col + 1] as usize] {
            let inside = if tri.upper {
                row < col as u64
            } else {
                row > col as u64 && row < tri.size
            };
            if !inside {
                return false;
            }
        }
    }

    match &tri.diag {
        Some(diag) => diag[..size].iter().all(|&val| val != 0.0),
        None => true,
    }
}

fn finite(vals: &[f64]) -> bool {
    vals.iter().all(|val| val.is_finite())
}

// "2 a number not finite": off-diagonal, diagonal, and the numbers of listed places in range.
fn numbers_fit(tri: &Tri) -> bool {
    let size = tri.size as usize;
    finite(&tri.vals[..tri.entries as usize])
        && tri.diag.as_ref().is_none_or(|diag| finite(&diag[..size]))
        && tri
            .list
            .iter()
            .zip(lvals(tri))
            .all(|(&place, val)| place >= tri.size || val.is_finite())
}

// "3 a listed place too large or repeated"
fn list_fits(tri: &Tri) -> bool {
    tri.list
        .iter()
        .enumerate()
        .all(|(i, &place)| place < tri.size && !tri.list[..i].contains(&place))
}

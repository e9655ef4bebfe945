//! A stand-in for the crate sprs, which isn't at hand: only what solver.rs and shown.rs use,
//! under sprs' names. Two orders rest on document 01 and could not be compared: `to_csc` lists a
//! column's rows rising, and `squared_l2_norm` adds squares from 0.0 in stored order.

/// A sparse vector whose indices rise.
#[derive(Clone, Debug)]
pub struct CsVec {
    dim: usize,
    indices: Vec<usize>,
    data: Vec<f64>,
}

impl CsVec {
    pub fn new(dim: usize, indices: Vec<usize>, data: Vec<f64>) -> CsVec {
        assert_eq!(indices.len(), data.len());
        assert!(indices.windows(2).all(|w| w[0] < w[1]));
        assert!(indices.last().is_none_or(|&i| i < dim));
        CsVec { dim, indices, data }
    }

    pub fn append(&mut self, i: usize, val: f64) {
        assert!(self.indices.last().is_none_or(|&last| last < i) && i < self.dim);
        self.indices.push(i);
        self.data.push(val);
    }

    pub fn view(&self) -> CsVecView<'_> {
        CsVecView {
            indices: &self.indices,
            data: &self.data,
        }
    }

    pub fn indices(&self) -> &[usize] {
        &self.indices
    }

    pub fn iter(&self) -> impl Iterator<Item = (usize, &f64)> {
        self.indices.iter().copied().zip(&self.data)
    }

    pub fn into_raw_storage(self) -> (Vec<usize>, Vec<f64>) {
        (self.indices, self.data)
    }
}

/// A row or a column of a matrix.
#[derive(Clone, Copy, Debug)]
pub struct CsVecView<'a> {
    indices: &'a [usize],
    data: &'a [f64],
}

impl<'a> CsVecView<'a> {
    pub fn indices(&self) -> &'a [usize] {
        self.indices
    }

    pub fn iter(&self) -> impl Iterator<Item = (usize, &'a f64)> {
        self.indices.iter().copied().zip(self.data)
    }

    pub fn into_raw_storage(self) -> (&'a [usize], &'a [f64]) {
        (self.indices, self.data)
    }

    pub fn squared_l2_norm(&self) -> f64 {
        let mut sum = 0.0;
        for &val in self.data {
            sum += val * val;
        }
        sum
    }
}

/// A sparse matrix, stored by rows or by columns. The outer dimension is the stored one.
#[derive(Clone, Debug)]
pub struct CsMat {
    inner: usize,
    indptr: Vec<usize>,
    indices: Vec<usize>,
    data: Vec<f64>,
}

impl CsMat {
    /// A matrix by rows, with no row yet.
    pub fn empty(inner: usize) -> CsMat {
        CsMat {
            inner,
            indptr: vec![0],
            indices: vec![],
            data: vec![],
        }
    }

    pub fn append_outer_csvec(mut self, vec: CsVecView) -> CsMat {
        self.indices.extend_from_slice(vec.indices);
        self.data.extend_from_slice(vec.data);
        self.indptr.push(self.indices.len());
        self
    }

    /// The number of stored rows (of a matrix by rows).
    pub fn rows(&self) -> usize {
        self.indptr.len() - 1
    }

    pub fn outer_view(&self, i: usize) -> Option<CsVecView<'_>> {
        if i + 1 >= self.indptr.len() {
            return None;
        }
        let range = self.indptr[i]..self.indptr[i + 1];
        Some(CsVecView {
            indices: &self.indices[range.clone()],
            data: &self.data[range],
        })
    }

    /// The same matrix by columns, rows rising in each.
    pub fn to_csc(&self) -> CsMat {
        let mut cols = vec![vec![]; self.inner];
        for r in 0..self.rows() {
            for (c, &val) in self.outer_view(r).unwrap().iter() {
                cols[c].push((r, val));
            }
        }

        let mut csc = CsMat::empty(self.rows());
        for col in cols {
            for (r, val) in col {
                csc.indices.push(r);
                csc.data.push(val);
            }
            csc.indptr.push(csc.indices.len());
        }
        csc
    }
}

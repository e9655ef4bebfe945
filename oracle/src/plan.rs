//! A plan as lent: the sizes are what the caller says, the arrays have the lengths they have.
//! All ours.

use crate::limits;

#[derive(Clone, Debug, Default)]
pub struct Plan {
    pub id: String,
    pub columns: u64,
    pub rows: u64,
    pub entries: u64,
    pub budget: u64,
    pub tolerance: f64,
    pub cost: Vec<f64>,
    pub lower: Vec<f64>,
    pub upper: Vec<f64>,
    pub starts: Vec<u64>,
    pub cols: Vec<u64>,
    pub coef: Vec<f64>,
    pub ops: Vec<u64>,
    pub rhs: Vec<f64>,
    /// Lengths of the values array, of the store's columns and of its entries.
    pub room: Option<[u64; 3]>,
    /// Lengths of arrays of the state or the store.
    pub short: Vec<(Lent, u64)>,
    /// Whether it is solved from any start.
    pub any: bool,
    /// What comes after the run, in order.
    pub calls: Vec<Call>,
}

/// A call over the memory that the one before it left, or a lent cell written between calls.
#[derive(Clone, Debug, PartialEq)]
pub enum Call {
    Fix {
        column: u64,
        value: f64,
    },
    Unfix {
        column: u64,
    },
    /// The plan's costs are these from here on.
    Reprice {
        cost: Vec<f64>,
    },
    /// A double by its bits. The index is below the section's cells.
    Poke {
        lent: Lent,
        index: usize,
        bits: u64,
    },
}

/// The lent arrays of the state and the store, under the exchange text's names.
#[derive(Clone, Copy, Debug, PartialEq, Eq)]
pub enum Lent {
    Kept,
    Basic,
    Bval,
    Nonbasic,
    Nval,
    Price,
    Norm,
    Flags,
    /// Where each variable stands: below the columns non-basic, above them a row.
    Where,
    Etarow,
    Etaptr,
    Etaidx,
    Etaval,
    Dnorm,
    /// Kept rows, eta columns, eta entries, steps, status of the last run, whether a factor is there,
    /// factorings since the start.
    Counts,
    Obj,
    /// The array that holds the state's whole numbers, and the one that holds its doubles.
    Numbers,
    Doubles,
    /// The arrays that hold the factor's.
    FactorNumbers,
    FactorCoeffs,
}

impl Lent {
    /// The arrays that the sections stand in.
    pub const ARRAYS: [Lent; 4] = [
        Lent::Numbers,
        Lent::Doubles,
        Lent::FactorNumbers,
        Lent::FactorCoeffs,
    ];

    /// The sections.
    pub const ALL: [Lent; 16] = [
        Lent::Kept,
        Lent::Basic,
        Lent::Bval,
        Lent::Nonbasic,
        Lent::Nval,
        Lent::Price,
        Lent::Norm,
        Lent::Flags,
        Lent::Where,
        Lent::Etarow,
        Lent::Etaptr,
        Lent::Etaidx,
        Lent::Etaval,
        Lent::Dnorm,
        Lent::Counts,
        Lent::Obj,
    ];

    pub fn name(self) -> &'static str {
        match self {
            Lent::Kept => "kept",
            Lent::Basic => "basic",
            Lent::Bval => "bval",
            Lent::Nonbasic => "nonbasic",
            Lent::Nval => "nval",
            Lent::Price => "price",
            Lent::Norm => "norm",
            Lent::Flags => "flags",
            Lent::Where => "where",
            Lent::Etarow => "etarow",
            Lent::Etaptr => "etaptr",
            Lent::Etaidx => "etaidx",
            Lent::Etaval => "etaval",
            Lent::Dnorm => "dnorm",
            Lent::Counts => "counts",
            Lent::Obj => "obj",
            Lent::Numbers => "numbers",
            Lent::Doubles => "doubles",
            Lent::FactorNumbers => "factor_numbers",
            Lent::FactorCoeffs => "factor_coeffs",
        }
    }

    /// By its name, or by the short one that a factor's array has too.
    pub fn named(name: &str) -> Option<Lent> {
        match name {
            "fnum" => Some(Lent::FactorNumbers),
            "fval" => Some(Lent::FactorCoeffs),
            _ => Lent::ALL
                .into_iter()
                .chain(Lent::ARRAYS)
                .find(|lent| lent.name() == name),
        }
    }

    /// By the name that a poke has for it: its own but for four.
    pub fn poked(name: &str) -> Option<Lent> {
        let all = Lent::ALL.into_iter().chain(Lent::ARRAYS);
        let mut pokable = all.filter(|lent| !matches!(lent, Lent::Numbers | Lent::Doubles));
        pokable.find(|lent| lent.poke_name() == name)
    }

    pub fn poke_name(self) -> &'static str {
        match self {
            Lent::Where => "states",
            Lent::Obj => "objective",
            Lent::FactorNumbers => "fnum",
            Lent::FactorCoeffs => "fval",
            _ => self.name(),
        }
    }

    /// The cells that a plan of these sizes needs. Dropped rows are counted, and the store is
    /// needed in full: "Needed are columns plus rows of values, dropped rows counted, and the full
    /// stated store".
    pub fn needed(self, columns: u64, rows: u64) -> u64 {
        match self {
            Lent::Kept | Lent::Basic | Lent::Bval | Lent::Dnorm => rows,
            Lent::Nonbasic | Lent::Nval | Lent::Price | Lent::Norm | Lent::Flags => columns,
            Lent::Where => columns + rows,
            Lent::Etarow => limits::ETA_COLUMNS,
            Lent::Etaptr => limits::ETA_COLUMNS + 1,
            Lent::Etaidx | Lent::Etaval => limits::ETA_ENTRIES,
            Lent::Counts => 7,
            Lent::Obj => 1,
            Lent::Numbers => limits::NUMBERS,
            Lent::Doubles => limits::DOUBLES,
            Lent::FactorNumbers => limits::FACTOR_NUMBERS,
            Lent::FactorCoeffs => limits::FACTOR_COEFFS,
        }
    }
}

impl Plan {
    /// Whether the array has at least the needed cells. Sizes are known to be small here.
    pub fn lends_enough(&self, lent: Lent) -> bool {
        let needed = lent.needed(self.columns, self.rows);
        if let Some(&(_, length)) = self.short.iter().rev().find(|(name, _)| *name == lent) {
            return length >= needed;
        }
        match (lent, self.room) {
            (Lent::Etarow, Some([_, store_columns, _])) => store_columns >= needed,
            (Lent::Etaptr, Some([_, store_columns, _])) => store_columns >= needed - 1,
            (Lent::Etaidx | Lent::Etaval, Some([_, _, store_entries])) => store_entries >= needed,
            _ => true,
        }
    }

    pub fn lends_enough_values(&self) -> bool {
        self.room
            .is_none_or(|[values, _, _]| values >= self.columns + self.rows)
    }
}

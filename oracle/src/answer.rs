//! What a call of the solver answers. All ours.

/// Where a 23 arose, in the order in which document 01's step reaches the numbers.
#[derive(Clone, Copy, Debug, PartialEq, Eq, PartialOrd, Ord, Hash)]
pub enum Named {
    Column,
    Limit,
    Quotient,
    Distance,
    /// Of a dual step this comes before the column.
    Row,
    /// Of a dual step.
    DualQuotient,
    Helper,
    Tau,
    /// Of a repricing, as its prices and objective.
    Multiplier,
    Objective,
    /// The entering column's new value.
    Value,
    /// Another basic value.
    Basic,
    Leaving,
    Price,
    Norm,
    DualNorm,
    /// The new eta column, where it fits.
    Eta,
    /// The new basis' factor, where the column doesn't fit.
    Factor,
}

impl Named {
    /// Every place of a run; a repricing has one more.
    pub const ALL: [Named; 17] = [
        Named::Column,
        Named::Limit,
        Named::Quotient,
        Named::Distance,
        Named::Row,
        Named::DualQuotient,
        Named::Helper,
        Named::Tau,
        Named::Objective,
        Named::Value,
        Named::Basic,
        Named::Leaving,
        Named::Price,
        Named::Norm,
        Named::DualNorm,
        Named::Eta,
        Named::Factor,
    ];

    pub fn name(self) -> &'static str {
        match self {
            Named::Column => "column",
            Named::Limit => "limit",
            Named::Quotient => "quotient",
            Named::Distance => "distance",
            Named::Row => "row",
            Named::DualQuotient => "dual-quotient",
            Named::Helper => "helper",
            Named::Tau => "tau",
            Named::Multiplier => "multiplier",
            Named::Objective => "objective",
            Named::Value => "value",
            Named::Basic => "basic",
            Named::Leaving => "leaving",
            Named::Price => "price",
            Named::Norm => "norm",
            Named::DualNorm => "dual-norm",
            Named::Eta => "eta",
            Named::Factor => "factor",
        }
    }
}

/// Which start number of a 6 isn't finite: the first in 01's order.
#[derive(Clone, Copy, Debug, PartialEq, Eq, Hash)]
pub enum StartNumber {
    Value,
    Objective,
    Norm,
}

/// 24's place, that of the largest excess: a value (columns, then kept slacks) or a kept row.
#[derive(Clone, Copy, Debug, PartialEq, Eq, Hash)]
pub enum Rejected {
    Value(usize),
    Row(usize),
}

/// No number of 01's: where the shown text would have panicked.
pub const PANICKED: usize = 99;

/// Every answer of a call, 0 to 7, 20 to 26 and 41 to 44. 02: 22 is no longer given.
#[derive(Clone, Copy, Debug, PartialEq, Eq, Hash)]
pub enum Outcome {
    Optimal,
    BadSize,
    BadNumber,
    BadEntry {
        row: usize,
        place: usize,
    },
    CrossedBounds {
        column: usize,
    },
    FalseEmptyRow {
        row: usize,
    },
    StartNotFinite(StartNumber),
    SlackOutside,
    Unbounded,
    Spent,
    NotFinite {
        named: Named,
        /// Whether it arose while a flip was stored.
        flip: bool,
    },
    Rejected(Rejected),
    /// 02: "no pivot of at least EPS gives the new status 25".
    Singular,
    /// 02: "A new status 26 says no entering column exists for the leaving row".
    Infeasible {
        row: usize,
    },
    /// 02: "41 the last run wasn't Optimal or the workspace's maps, lists or store break 01's limits".
    NoRun,
    /// 02: "42 an unknown column".
    UnknownColumn,
    /// 02: "43 a value outside bounds or not finite".
    BadValue,
    /// 02: "44 unfixing a column that isn't fixed".
    NotFixed,
    /// Only with `--shown`: the shown text would have panicked here.
    Panicked,
}

impl Outcome {
    /// 01's number.
    pub fn number(self) -> u8 {
        match self {
            Outcome::Optimal => 0,
            Outcome::BadSize => 1,
            Outcome::BadNumber => 2,
            Outcome::BadEntry { .. } => 3,
            Outcome::CrossedBounds { .. } => 4,
            Outcome::FalseEmptyRow { .. } => 5,
            Outcome::StartNotFinite(_) => 6,
            Outcome::SlackOutside => 7,
            Outcome::Unbounded => 20,
            Outcome::Spent => 21,
            Outcome::NotFinite { .. } => 23,
            Outcome::Rejected(_) => 24,
            Outcome::Singular => 25,
            Outcome::Infeasible { .. } => 26,
            Outcome::NoRun => 41,
            Outcome::UnknownColumn => 42,
            Outcome::BadValue => 43,
            Outcome::NotFixed => 44,
            Outcome::Panicked => PANICKED as u8,
        }
    }

    /// Whether nothing was changed, and nothing is carried.
    pub fn is_refusal(self) -> bool {
        matches!(self.number(), 1..=7 | 41..=44)
    }

    /// What `--why` adds.
    pub fn why(self) -> Option<&'static str> {
        match self {
            Outcome::StartNotFinite(StartNumber::Value) => Some("slack"),
            Outcome::StartNotFinite(StartNumber::Objective) => Some("objective"),
            Outcome::StartNotFinite(StartNumber::Norm) => Some("norm"),
            Outcome::NotFinite { named, .. } => Some(named.name()),
            _ => None,
        }
    }
}

/// The workspace after the last whole step.
#[derive(Clone, Debug, Default, PartialEq)]
pub struct State {
    pub kept: Vec<usize>,
    pub basic: Vec<usize>,
    pub nonbasic: Vec<usize>,
    pub bval: Vec<f64>,
    pub nval: Vec<f64>,
    pub price: Vec<f64>,
    pub norm: Vec<f64>,
    pub flags: Vec<u8>,
    pub etarow: Vec<usize>,
    pub etaptr: Vec<usize>,
    pub etaidx: Vec<usize>,
    pub etaval: Vec<f64>,
    /// None is the identity.
    pub factor: Option<Factor>,
    pub dnorm: Vec<f64>,
    /// How often a basis was factored; the text doesn't have it, nor what follows.
    pub factorings: usize,
    /// How many of the steps were dual ones, and whether the run stopped among them.
    pub dual_steps: u64,
    pub in_dual: bool,
}

/// The factor in the state: L and U by columns in stored order, rows as pivot numbers.
#[derive(Clone, Debug, Default, PartialEq)]
pub struct Factor {
    /// The kept row of each pivot number.
    pub pivots: Vec<usize>,
    pub lptr: Vec<usize>,
    pub lidx: Vec<usize>,
    pub lval: Vec<f64>,
    pub uptr: Vec<usize>,
    pub uidx: Vec<usize>,
    pub uval: Vec<f64>,
    pub udiag: Vec<f64>,
    /// Only of the shown factor: its order of columns. The text doesn't have it.
    pub col_order: Option<Vec<usize>>,
}

/// How a solve from any start came to its answer.
#[derive(Clone, Copy, Debug, PartialEq, Eq, Hash)]
pub enum Way {
    /// "What solve says, other than 7".
    Direct = 0,
    /// What the run with costs 0 says, where that isn't Optimal.
    Halted = 1,
    /// What the repricing with the plan's own costs says.
    Repriced = 2,
}

impl Way {
    pub const ALL: [Way; 3] = [Way::Direct, Way::Halted, Way::Repriced];

    pub fn name(self) -> &'static str {
        match self {
            Way::Direct => "direct",
            Way::Halted => "halted",
            Way::Repriced => "repriced",
        }
    }
}

/// The outcome with its numbers: a refusal has objective 0.0, 0 steps, no values and no state.
#[derive(Clone, Debug)]
pub struct Answer {
    pub outcome: Outcome,
    pub objective: f64,
    pub steps: u64,
    /// The final check's largest excess; 0.0 where it wasn't asked.
    pub excess: f64,
    /// Columns, then kept slacks; only with Optimal, and with `Way::Repriced`.
    pub values: Vec<f64>,
    pub state: Option<State>,
    /// Of a solve from any start: its way, and the steps of the run with costs 0.
    pub way: Option<(Way, u64)>,
}

impl Answer {
    pub fn refusal(outcome: Outcome) -> Answer {
        Answer {
            outcome,
            objective: 0.0,
            steps: 0,
            excess: 0.0,
            values: vec![],
            state: None,
            way: None,
        }
    }
}

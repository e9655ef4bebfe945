//! The night: alarms first, then the rest. A plan in whole numbers with two sets of costs is solved with the alarm
//! costs alone, rounded and audited; then the row "alarm cost at most what was found" is added, and it is solved with
//! the report costs.
//!
//! So the amounts that are handed out never cost more alarms than the first stage's, and those are within the first gap
//! of the least possible: that is proved, whatever the numbers are.
//!
//! ```
//! use tevalumi::night::{Case, Night};
//! use tevalumi::ComparisonOp;
//!
//! // 8 ms of air. An alarm wants 6 ms and soil reports 9; a lost ms of either costs 1.
//! let mut night = Night::new();
//! let alarm = night.add_column(-1, 0, (Some(0), Some(6)));
//! let soil = night.add_column(0, -1, (Some(0), Some(9)));
//! night.add_row([(alarm, 1), (soil, 1)], ComparisonOp::Le, 8);
//!
//! let told = night.run();
//! assert_eq!(told.case, Case::SecondHanded);
//! assert_eq!(told.amounts, Some(vec![6, 2]));
//! assert_eq!(told.alarm_cost, Some(-6));
//! ```

use std::fmt;

use crate::ffi;
use crate::raw::{limits, Answer, Verdict, Workspace};
use crate::sheet::Refusal;
use crate::wholes::NotProposed;
use crate::ComparisonOp;

/// A night's plan, built column by column and row by row. What is over a limit is answered, not refused here.
#[derive(Clone, Debug, Default, PartialEq)]
pub struct Night {
    alarm_costs: Vec<i64>,
    report_costs: Vec<i64>,
    bounds: Vec<Bounds>,
    rows: Vec<Row>,
    budget: usize,
    tolerance: f64,
}

/// The lower and the upper bound, where there is one.
type Bounds = (Option<i64>, Option<i64>);

#[derive(Clone, Debug, PartialEq)]
struct Row {
    terms: Vec<(usize, i64)>,
    op: ComparisonOp,
    rhs: i64,
}

/// What is handed out, or why nothing is: 02's cases in their order.
#[derive(Clone, Copy, Debug, PartialEq, Eq, Hash)]
pub enum Case {
    /// The first audit shows no gap.
    NoGap,
    /// The plan has 96 rows already, so that the row for the alarms has no room.
    RowsFull,
    /// The row for the alarms would pass 2,048 entries.
    EntriesFull,
    /// This column's alarm cost, the first such, is above 4,096 in size.
    CostBeyond(usize),
    /// The found alarm cost is above 2^31 in size.
    FoundBeyond,
    /// The first stage's amounts are handed out: the second stage's sheet wasn't opened, or says that it isn't a plan or
    /// that none exists.
    FirstStands,
    /// The second stage's amounts are handed out.
    SecondHanded,
}

impl Case {
    /// The header's number of the case.
    pub const fn number(self) -> u8 {
        match self {
            Case::NoGap => 1,
            Case::RowsFull => 2,
            Case::EntriesFull => 3,
            Case::CostBeyond(_) => 4,
            Case::FoundBeyond => 5,
            Case::FirstStands => 6,
            Case::SecondHanded => 7,
        }
    }
}

impl fmt::Display for Case {
    fn fmt(&self, f: &mut fmt::Formatter<'_>) -> fmt::Result {
        match self {
            Case::NoGap => {
                f.write_str("nothing is handed out: the audit of the alarms shows no gap")
            }
            Case::RowsFull => f.write_str(
                "nothing is handed out: the plan has 96 rows already, and the alarms need one",
            ),
            Case::EntriesFull => f.write_str(
                "nothing is handed out: the row for the alarms would pass 2,048 entries",
            ),
            Case::CostBeyond(column) => write!(
                f,
                "nothing is handed out: the alarm cost of column {column} is above 4,096 in size"
            ),
            Case::FoundBeyond => {
                f.write_str("nothing is handed out: the found alarm cost is above 2^31 in size")
            }
            Case::FirstStands => f.write_str(
                "the amounts are those of the alarms alone: the second stage gives no plan",
            ),
            Case::SecondHanded => f.write_str(
                "alarms first, then the rest: the amounts are those of the second stage",
            ),
        }
    }
}

/// What came of a stage's audit.
#[derive(Clone, Copy, Debug, PartialEq)]
pub enum Audit {
    /// Nothing was proposed: the run was refused or didn't end in 0.
    NotRun,
    /// A proposed number isn't whole.
    NotWhole(NotProposed),
    /// Opening the sheet was refused.
    NotOpened(Refusal),
    /// The sheet was opened, and says this.
    Judged(Verdict),
}

/// One stage of a night.
#[derive(Clone, Debug, PartialEq)]
pub struct Stage {
    /// How its run ended.
    pub run: Answer,
    /// What came of its audit.
    pub audit: Audit,
    /// Its sheet's amounts, multipliers (in 1/1024) and cost, where it was opened.
    pub sheet: Option<StageSheet>,
}

/// What a stage's sheet holds.
#[derive(Clone, Debug, PartialEq, Eq)]
pub struct StageSheet {
    /// An amount for each column.
    pub amounts: Vec<i64>,
    /// A multiplier for each row, in 1/1024; in the second stage the last is the alarms'.
    pub mults: Vec<i64>,
    /// The kept cost: of the alarms in the first stage, of the reports in the second.
    pub cost: i64,
}

/// What a night gives.
#[derive(Clone, Debug, PartialEq)]
pub struct Told {
    /// What is handed out, or why nothing is.
    pub case: Case,
    /// The first stage: the alarms alone.
    pub first: Stage,
    /// The second stage, where it was run.
    pub second: Option<Stage>,
    /// The amounts that are handed out.
    pub amounts: Option<Vec<i64>>,
    /// The alarm cost of these amounts: at most that of the first stage's.
    pub alarm_cost: Option<i64>,
}

impl Told {
    /// How much less the alarms could cost at most, in 1/1024: the first audit's gap, where it shows one.
    pub fn alarm_gap(&self) -> Option<i64> {
        match self.first.audit {
            Audit::Judged(Verdict::Gap(gap)) => Some(gap),
            _ => None,
        }
    }
}

/// Where what stands in the lent whole numbers, by cells (`TEVALUMI_WHOLE` of the header).
mod whole {
    pub const MULTS: usize = 128;
    pub const COST: usize = MULTS + 96 + 96 + 128;
    pub const STAGE: usize = COST + 6;
    pub const HANDED: usize = 2 * STAGE;
    pub const ALL: usize = HANDED + 128 + 96 * 128;
}

impl Night {
    /// A night without columns and rows, 10,000 steps for each stage, and a tolerance of 1e-6.
    pub fn new() -> Night {
        Night {
            budget: limits::BUDGET,
            tolerance: 1e-6,
            ..Night::default()
        }
    }

    /// Adds a column with its two costs and its bounds; its number.
    pub fn add_column(
        &mut self,
        alarm_cost: i64,
        report_cost: i64,
        bounds: (Option<i64>, Option<i64>),
    ) -> usize {
        self.alarm_costs.push(alarm_cost);
        self.report_costs.push(report_cost);
        self.bounds.push(bounds);
        self.bounds.len() - 1
    }

    /// Adds a row; its number. Terms of one column add up.
    ///
    /// # Panics
    ///
    /// Will panic if a term's column isn't there.
    pub fn add_row(
        &mut self,
        terms: impl IntoIterator<Item = (usize, i64)>,
        op: ComparisonOp,
        rhs: i64,
    ) -> usize {
        let terms: Vec<(usize, i64)> = terms.into_iter().collect();
        assert!(terms.iter().all(|&(column, _)| column < self.bounds.len()));
        self.rows.push(Row { terms, op, rhs });
        self.rows.len() - 1
    }

    /// The most steps of each stage's run.
    pub fn set_budget(&mut self, budget: usize) {
        self.budget = budget;
    }

    /// The final check's tolerance of each stage's run.
    pub fn set_tolerance(&mut self, tolerance: f64) {
        self.tolerance = tolerance;
    }

    /// Both stages, by the proved call.
    pub fn run(&self) -> Told {
        let (rows, columns) = (self.rows.len(), self.bounds.len());
        let mut coefs = vec![0i64; rows * columns];
        for (i, row) in self.rows.iter().enumerate() {
            for &(j, coef) in &row.terms {
                let cell = &mut coefs[i * columns + j];
                // Past an i64 it is past every limit too.
                *cell = cell.saturating_add(coef);
            }
        }
        let side = |of: fn(&Bounds) -> Option<i64>| -> (Vec<i64>, Vec<u8>) {
            let bounds = self.bounds.iter().map(of);
            bounds
                .map(|b| (b.unwrap_or(0), u8::from(b.is_some())))
                .unzip()
        };
        let (lowers, lower_marks) = side(|bounds| bounds.0);
        let (uppers, upper_marks) = side(|bounds| bounds.1);
        let rhs: Vec<i64> = self.rows.iter().map(|row| row.rhs).collect();
        let ops: Vec<u8> = self.rows.iter().map(|row| row.op.code()).collect();
        let mut work = Box::new(Workspace::new());
        let mut values = vec![0.0; limits::COLUMNS + limits::ROWS + 1];
        let mut lent = vec![0i64; whole::ALL];
        let told = ffi::tevalumi_night(
            rows,
            columns,
            &coefs,
            &self.alarm_costs,
            &self.report_costs,
            &lowers,
            &uppers,
            &lower_marks,
            &upper_marks,
            &rhs,
            &ops,
            self.budget,
            self.tolerance,
            &mut values,
            &mut work.numbers,
            &mut work.doubles,
            &mut work.factor_numbers,
            &mut work.factor_coeffs,
            &mut lent,
        );
        assert_eq!(told.status, 0, "every array is long enough");
        let case = match told.kind {
            1 => Case::NoGap,
            2 => Case::RowsFull,
            3 => Case::EntriesFull,
            4 => Case::CostBeyond(told.column),
            5 => Case::FoundBeyond,
            6 => Case::FirstStands,
            _ => Case::SecondHanded,
        };
        let handed = told.kind >= 6;
        let amounts = handed.then(|| lent[whole::HANDED..][..columns].to_vec());
        let alarm_cost = amounts.as_ref().map(|amounts| {
            let terms = amounts.iter().zip(&self.alarm_costs);
            terms.map(|(amount, cost)| amount * cost).sum()
        });
        Told {
            case,
            first: Stage::told(told.first, &lent[..whole::STAGE], rows, columns),
            second: handed
                .then(|| Stage::told(told.second, &lent[whole::STAGE..], rows + 1, columns)),
            amounts,
            alarm_cost,
        }
    }
}

impl Stage {
    fn told(from: ffi::Stage, section: &[i64], rows: usize, columns: usize) -> Stage {
        let audit = match from.audit {
            0 => Audit::NotRun,
            1 => Audit::NotWhole(
                NotProposed::told(from.proposal).expect("a proposed number isn't whole"),
            ),
            2 => Audit::NotOpened(
                Refusal::from_number(from.opening).expect("one of document 01's numbers"),
            ),
            _ => Audit::Judged(Verdict::told(from.verdict)),
        };
        let sheet = matches!(audit, Audit::Judged(_)).then(|| StageSheet {
            amounts: section[..columns].to_vec(),
            mults: section[whole::MULTS..][..rows].to_vec(),
            cost: section[whole::COST],
        });
        Stage {
            run: Answer::from_numbers(from.run),
            audit,
            sheet,
        }
    }
}

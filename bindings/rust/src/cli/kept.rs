//! Plans in files of blocks (docs/FILES.md). Such a file has the sheet's whole numbers, amounts and
//! multipliers too, and nothing else: no names, no direction, no constant.

use tevalumi::raw::limits;
use tevalumi::sheet::Sheet;
use tevalumi::ComparisonOp;

use super::plan::{Fault, Plan, BUDGET, EQ, GE, LE, TOLERANCE};
use super::show::quoted;

/// The sheet in a file. The fault has its number, its block and a sentence.
pub fn sheet(bytes: &[u8]) -> Result<Sheet, Fault> {
    Sheet::from_bytes(bytes).map_err(|bad| Fault::new(0, bad.to_string()))
}

/// The same numbers as doubles, absent bounds infinite, zero coefficients left out.
pub fn plan(sheet: &Sheet) -> Plan {
    let columns = 0..sheet.columns();
    let bound = |bound: Option<i64>, none: f64| bound.map_or(none, |number| number as f64);
    let mut plan = Plan {
        columns: sheet.columns(),
        rows: sheet.rows(),
        budget: BUDGET,
        tolerance: TOLERANCE,
        costs: columns.clone().map(|j| sheet.cost_of(j) as f64).collect(),
        lowers: columns
            .clone()
            .map(|j| bound(sheet.lower(j), f64::NEG_INFINITY))
            .collect(),
        uppers: columns
            .clone()
            .map(|j| bound(sheet.upper(j), f64::INFINITY))
            .collect(),
        starts: vec![0],
        ..Plan::default()
    };
    for i in 0..sheet.rows() {
        for j in columns.clone() {
            let coefficient = sheet.coefficient(i, j);
            if coefficient != 0 {
                plan.cols.push(j);
                plan.coeffs.push(coefficient as f64);
            }
        }
        plan.starts.push(plan.cols.len());
        plan.ops.push(match sheet.op(i) {
            ComparisonOp::Le => LE,
            ComparisonOp::Eq => EQ,
            ComparisonOp::Ge => GE,
        });
        plan.rhs.push(sheet.right(i) as f64);
    }
    plan.entries = plan.cols.len();
    plan
}

/// What `keep` says beside the status.
pub fn line(file: &str, bytes: usize) -> String {
    format!(
        "kept       {file}: {} blocks, {bytes} bytes\n",
        bytes / limits::BLOCK
    )
}

pub fn as_json(file: &str, bytes: usize) -> String {
    format!(",\"kept\":{{\"file\":{},\"bytes\":{bytes}}}", quoted(file))
}

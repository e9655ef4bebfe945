//! Night cases N2 and N5 over lent memory alone. That the crate does without std is its first line's promise.

use tevalumi::raw::{limits, ops, solve_into, PlanRef, SheetMut, Status, Verdict, Workspace};

#[test]
fn a_plan() {
    let plan = PlanRef {
        columns: 2,
        rows: 1,
        entries: 2,
        budget: limits::BUDGET,
        tolerance: 1e-9,
        costs: &[-3.0, -1.0],
        lowers: &[0.0, 0.0],
        uppers: &[f64::INFINITY, 2.0],
        starts: &[0, 2],
        cols: &[0, 1],
        coeffs: &[1.0, 1.0],
        ops: &[ops::LE],
        rhs: &[4.0],
    };
    let (mut work, mut values) = (Workspace::new(), [0.0; 3]);
    let answer = solve_into(&plan, &mut work, &mut values);
    assert_eq!((answer.status, answer.objective), (Status::Optimal, -12.0));
    assert_eq!((values, work.kept()), ([4.0, 0.0, 0.0], &[0][..]));
}

#[test]
fn a_sheet() {
    let mut sheet = SheetMut {
        rows: 1,
        columns: 2,
        coefs: &mut [1, 1],
        costs: &mut [-3, -1],
        lowers: &mut [0, 0],
        uppers: &mut [0, 2],
        lower_marks: &mut [1, 1],
        upper_marks: &mut [0, 1],
        rhs: &mut [4],
        ops: &[ops::LE],
        amounts: &mut [4, 0],
        mults: &mut [-3 * 1024],
        r: &mut [0],
        d: &mut [0, 0],
        c: &mut [0],
        b: &mut [0],
        counts: &mut [0; 4],
    };
    sheet.open().unwrap();
    assert_eq!(sheet.verdict(), Ok(Verdict::Gap(0)));
    sheet.edit(1, 0, 0, 3).unwrap();
    assert_eq!(sheet.verdict(), Ok(Verdict::Gap(3 * 1024)));
}

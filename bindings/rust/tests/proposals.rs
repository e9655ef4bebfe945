//! The search for whole amounts and multipliers: whatever it is given it ends, it is never worse than the
//! first proposal, and on small plans every whole plan is tried against the gap.

mod common;

use common::Rng;
use tevalumi::proposals::best;
use tevalumi::sheet::{Figures, Sheet, Verdict};
use tevalumi::ComparisonOp::{self, Eq, Ge, Le};

/// A plan of a few columns with bounds near 0, so that all of its whole amounts can be counted.
fn small(rng: &mut Rng) -> Figures {
    let (rows, columns) = (rng.below(4), 1 + rng.below(4));
    let mut some = |n: usize, low: i64, high: i64| -> Vec<i64> {
        (0..n).map(|_| rng.between(low, high)).collect()
    };
    let (coefs, costs) = (some(rows * columns, -4, 6), some(columns, -9, 9));
    let (lowers, widths) = (some(columns, -2, 1), some(columns, 0, 4));
    let (rhs, kinds) = (some(rows, -6, 12), some(rows, 0, 4));
    let (amounts, mults) = (some(columns, -3, 5), some(rows, -3000, 3000));
    let uppers = lowers
        .iter()
        .zip(&widths)
        .map(|(lower, width)| Some(lower + width));
    let op = |&kind: &i64| [Le, Ge, Eq, Le, Ge][kind as usize];
    Figures {
        rows,
        columns,
        coefs,
        costs,
        uppers: uppers.collect(),
        lowers: lowers.into_iter().map(Some).collect(),
        rhs,
        ops: kinds.iter().map(op).collect(),
        amounts,
        mults,
    }
}

fn keeps(plan: &Figures, amounts: &[i64]) -> bool {
    let compare = |op: ComparisonOp, sum: i64, right: i64| match op {
        Le => sum <= right,
        Ge => sum >= right,
        Eq => sum == right,
    };
    (0..plan.rows).all(|i| {
        let row = &plan.coefs[i * plan.columns..][..plan.columns];
        let sum = row.iter().zip(amounts).map(|(a, x)| a * x).sum();
        compare(plan.ops[i], sum, plan.rhs[i])
    })
}

/// The cost of the cheapest whole plan, if there is one.
fn cheapest(plan: &Figures) -> Option<i64> {
    let bounds: Vec<(i64, i64)> = (0..plan.columns)
        .map(|j| {
            (
                plan.lowers[j].expect("there"),
                plan.uppers[j].expect("there"),
            )
        })
        .collect();
    let mut amounts: Vec<i64> = bounds.iter().map(|&(low, _)| low).collect();
    let mut best = None;
    loop {
        if keeps(plan, &amounts) {
            let cost: i64 = plan.costs.iter().zip(&amounts).map(|(c, x)| c * x).sum();
            best = Some(best.map_or(cost, |other: i64| other.min(cost)));
        }
        let Some(j) = (0..plan.columns).find(|&j| amounts[j] < bounds[j].1) else {
            return best;
        };
        amounts[j] += 1;
        for k in 0..j {
            amounts[k] = bounds[k].0;
        }
    }
}

/// How bad a sheet is: no plan, no floor, then the gap.
fn rank(sheet: &Sheet) -> (u8, i64) {
    match sheet.verdict() {
        Verdict::NotAPlan => (2, 0),
        Verdict::NoFloor => (1, 0),
        Verdict::Gap(gap) => (0, gap),
        Verdict::NoneExists => (0, 0),
    }
}

#[test]
fn small_plans_against_every_whole_plan() {
    let mut rng = Rng(11);
    let (mut gaps, mut exact, mut none) = (0, 0, 0);
    for _ in 0..3_000 {
        let plan = small(&mut rng);
        let values: Vec<f64> = (0..plan.columns).map(|_| 7.0 * rng.unit() - 2.0).collect();
        let mults: Vec<f64> = (0..plan.rows).map(|_| 6.0 * rng.unit() - 3.0).collect();
        let sheet = best(&plan, &values, &mults).expect("within the limits");
        let first = Sheet::open(&plan).expect("within the limits");
        match (sheet.verdict(), cheapest(&plan)) {
            (Verdict::Gap(gap), Some(cost)) => {
                assert!(rank(&sheet) <= rank(&first));
                assert!(sheet.cost() >= cost && (sheet.cost() - cost) * 1024 <= gap);
                gaps += 1;
                exact += usize::from(sheet.cost() == cost);
            }
            (Verdict::NotAPlan, None) | (Verdict::NoneExists, None) => none += 1,
            // The search is no complete one: a whole plan may be there that it doesn't find.
            (Verdict::NotAPlan, Some(_)) => {}
            other => panic!("{other:?} of {plan:?}"),
        }
    }
    println!(
        "{gaps} gaps, {exact} of them at the cheapest whole plan, {none} plans without a whole one"
    );
    assert!(gaps > 1_500 && exact * 10 > gaps * 8 && none > 300);
}

/// Nothing that a run can leave, and nothing that it can't, makes the search panic.
#[test]
fn any_doubles_and_none() {
    let odd = [
        f64::NAN,
        f64::INFINITY,
        f64::NEG_INFINITY,
        1e300,
        -1e300,
        1e-320,
        -0.0,
        0.5,
    ];
    let mut rng = Rng(12);
    for _ in 0..500 {
        let mut plan = small(&mut rng);
        if rng.below(2) == 0 {
            plan.lowers[0] = None;
        }
        if rng.below(2) == 0 {
            plan.uppers[0] = None;
        }
        let mut some = |n: usize| -> Vec<f64> { (0..n).map(|_| odd[rng.below(8)]).collect() };
        for (values, mults) in [
            (some(plan.columns), some(plan.rows)),
            (Vec::new(), Vec::new()),
        ] {
            let sheet = best(&plan, &values, &mults).expect("within the limits");
            assert!(rank(&sheet).0 <= rank(&Sheet::open(&plan).expect("within the limits")).0);
        }
    }
    assert_eq!(
        best(&Figures::default(), &[], &[]).map(|sheet| sheet.verdict()),
        Ok(Verdict::Gap(0))
    );
    let crossed = Figures {
        lowers: vec![Some(3)],
        uppers: vec![Some(2)],
        ..small_column()
    };
    assert!(best(&crossed, &[1.0], &[]).is_err());
}

fn small_column() -> Figures {
    Figures {
        columns: 1,
        costs: vec![1],
        lowers: vec![None],
        uppers: vec![None],
        amounts: vec![0],
        ..Figures::default()
    }
}

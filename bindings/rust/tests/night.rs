//! A night of two stages: each of its answers, and on small plans its promises against every whole plan.

mod common;

use common::Rng;
use tevalumi::night::{Audit, Case, Night, Told};
use tevalumi::raw::{limits, Status};
use tevalumi::sheet::{Refusal, Verdict};
use tevalumi::wholes::{NotProposed, Rounded};
use tevalumi::ComparisonOp::{self, Eq, Ge, Le};

/// 8 ms of air; an alarm wants 6 of them, soil 9.
fn frost() -> Night {
    let mut night = Night::new();
    let alarm = night.add_column(-1, 0, (Some(0), Some(6)));
    let soil = night.add_column(0, -1, (Some(0), Some(9)));
    night.add_row([(alarm, 1), (soil, 1)], Le, 8);
    night
}

fn nothing(told: &Told, case: Case) {
    assert_eq!((told.case, &told.second), (case, &None), "{told:?}");
    assert_eq!((&told.amounts, told.alarm_cost), (&None, None), "{told:?}");
}

#[test]
fn alarms_first() {
    let told = frost().run();
    assert_eq!(
        told.case.to_string(),
        "alarms first, then the rest: the amounts are those of the second stage"
    );
    assert_eq!((told.case.number(), told.alarm_gap()), (7, Some(0)));
    assert_eq!(told.amounts, Some(vec![6, 2]));
    let first = told.first.sheet.expect("opened");
    assert_eq!((first.amounts, first.cost), (vec![6, 0], -6));
    assert_eq!(first.mults, [0]);
    let second = told.second.expect("run");
    assert_eq!(second.audit, Audit::Judged(Verdict::Gap(0)));
    let sheet = second.sheet.expect("opened");
    // A ms more of air is one more of soil, and so is a ms less for the alarm.
    assert_eq!((sheet.cost, sheet.mults), (-2, vec![-1024, -1024]));
}

/// No gap: the run is refused or ends otherwise than in 0.
#[test]
fn not_run() {
    let mut night = frost();
    night.add_column(0, 0, (Some(3), Some(2)));
    let told = night.run();
    nothing(&told, Case::NoGap);
    assert_eq!(told.first.run.status, Status::CrossedBounds);
    assert_eq!(told.first.audit, Audit::NotRun);

    let mut night = frost();
    night.set_budget(0);
    night.add_row([(0, 1)], Le, 5);
    let told = night.run();
    nothing(&told, Case::NoGap);
    assert_eq!(told.first.run.status, Status::Spent);

    let mut night = frost();
    night.set_tolerance(2.0);
    assert_eq!(night.run().first.run.status, Status::BadNumber);

    // Sizes over their limits are the solver's 1.
    let mut night = frost();
    for _ in 0..limits::COLUMNS {
        night.add_column(0, 0, (None, None));
    }
    let told = night.run();
    nothing(&told, Case::NoGap);
    assert_eq!(told.first.run.status, Status::BadSize);
    let mut night = Night::new();
    for _ in 0..=limits::ROWS {
        night.add_row([], Le, 1);
    }
    assert_eq!(night.run().first.run.status, Status::BadSize);
}

/// No gap: a number isn't whole, the sheet isn't opened, or its verdict is another one.
#[test]
fn no_gap() {
    let mut night = Night::new();
    let alarm = night.add_column(-1, 0, (Some(0), None));
    night.add_row([(alarm, 1)], Le, 70_000);
    let told = night.run();
    nothing(&told, Case::NoGap);
    assert_eq!(
        told.first.audit,
        Audit::NotWhole(NotProposed::Amount {
            column: 0,
            case: Rounded::Beyond(70_000.0)
        })
    );

    let mut night = frost();
    night.add_column(1 << 21, 0, (Some(0), Some(1)));
    let told = night.run();
    nothing(&told, Case::NoGap);
    assert_eq!(told.first.audit, Audit::NotOpened(Refusal::BadNumber));
    assert_eq!(told.first.sheet, None);

    // Half a ms is rounded, and breaks its row.
    let mut night = Night::new();
    let alarm = night.add_column(1, 0, (Some(0), Some(9)));
    night.add_row([(alarm, 2)], Eq, 3);
    let told = night.run();
    nothing(&told, Case::NoGap);
    assert_eq!(told.first.audit, Audit::Judged(Verdict::NotAPlan));
    assert_eq!(told.first.sheet.expect("opened").amounts, [2]);

    // A multiplier of 1/3 isn't exact, and no bound is there for the price that is left.
    let mut night = Night::new();
    let alarm = night.add_column(-1, 0, (Some(0), None));
    night.add_row([(alarm, 3)], Le, 9);
    let told = night.run();
    nothing(&told, Case::NoGap);
    assert_eq!(told.first.audit, Audit::Judged(Verdict::NoFloor));
}

/// The plan with as many rows as there may be.
fn many_rows() -> Night {
    let mut night = frost();
    for _ in 1..limits::ROWS {
        night.add_row([(0, 1)], Le, 100);
    }
    night
}

/// Alarms of 4,096 for each of 65,536: 2^28 a column.
fn dear(columns: usize, alarm_cost: i64) -> Night {
    let mut night = frost();
    for _ in 0..columns {
        night.add_column(alarm_cost, 0, (Some(0), Some(1 << 16)));
    }
    night
}

/// As many entries as there may be, but for so many, and each column an alarm.
fn many_entries(but: usize) -> Night {
    let mut night = Night::new();
    for _ in 0..limits::COLUMNS {
        night.add_column(-1, 0, (Some(0), Some(1)));
    }
    for i in 0..16 {
        let first = if i == 0 { but } else { 0 };
        night.add_row((first..limits::COLUMNS).map(|j| (j, 1)), Le, 128);
    }
    night
}

#[test]
fn stops() {
    nothing(&many_rows().run(), Case::RowsFull);
    nothing(&many_entries(0).run(), Case::EntriesFull);
    nothing(&many_entries(127).run(), Case::EntriesFull);
    assert_eq!(many_entries(128).run().case, Case::SecondHanded);
    nothing(&dear(1, -4_097).run(), Case::CostBeyond(2));
    assert_eq!(dear(1, -4_096).run().case, Case::SecondHanded);
    // 8 * 2^28 and frost's 6 are more than 2^31; without the 6 they are as many.
    nothing(&dear(8, -4_096).run(), Case::FoundBeyond);
    let told = dear(7, -4_096).run();
    assert_eq!(told.case, Case::SecondHanded);
    assert_eq!(told.alarm_cost, Some(-6 - (7 << 28)));
}

/// The first of 02's answers is named.
#[test]
fn the_first_that_applies() {
    // Every stop applies but for the gap, then less and less of them.
    let build = |rows: usize, broken: bool, entries: bool, cost: i64| {
        let mut night = dear(9, cost);
        if entries {
            for _ in 0..limits::COLUMNS - 11 {
                night.add_column(-1, 0, (Some(0), Some(1)));
            }
            for _ in 0..16 {
                night.add_row((1..limits::COLUMNS).map(|j| (j, 1)), Le, 1 << 20);
            }
        }
        let so_far = if entries { 17 } else { 1 };
        for i in so_far..rows {
            let right = if broken && i == so_far { -1 } else { 0 };
            night.add_row([], Le, right);
        }
        night.run().case
    };
    assert_eq!(build(96, true, true, -4_097), Case::NoGap);
    assert_eq!(build(96, false, true, -4_097), Case::RowsFull);
    assert_eq!(build(95, false, true, -4_097), Case::EntriesFull);
    assert_eq!(build(95, false, false, -4_097), Case::CostBeyond(2));
    assert_eq!(build(95, false, false, -4_096), Case::FoundBeyond);
}

/// The second stage gives no plan: the first's amounts stand.
#[test]
fn the_first_stands() {
    // What is worth something has no upper bound, and the alarms' row is broken where the run would begin.
    let mut night = Night::new();
    let alarm = night.add_column(-1, 0, (Some(0), Some(6)));
    let soil = night.add_column(0, -1, (Some(0), None));
    night.add_row([(alarm, 1), (soil, 1)], Le, 8);
    let told = night.run();
    assert_eq!(told.case, Case::FirstStands);
    assert_eq!(
        (told.amounts, told.alarm_cost),
        (Some(vec![6, 0]), Some(-6))
    );
    let second = told.second.expect("run");
    assert_eq!(second.run.status, Status::SlackOutside);
    assert_eq!((second.audit, second.sheet), (Audit::NotRun, None));

    // A report cost over the sheet's limit.
    let mut night = frost();
    night.add_column(0, 1 << 21, (Some(0), Some(1)));
    let told = night.run();
    assert_eq!(told.case, Case::FirstStands);
    let second = told.second.expect("run");
    assert_eq!(second.audit, Audit::NotOpened(Refusal::BadNumber));

    // Half a ms for the reports is rounded, and breaks its row.
    let mut night = Night::new();
    let alarm = night.add_column(-1, 0, (Some(0), Some(6)));
    let soil = night.add_column(0, -1, (Some(0), Some(9)));
    night.add_row([(alarm, 1), (soil, 2)], Le, 9);
    let told = night.run();
    assert_eq!(told.case, Case::FirstStands, "{told:?}");
    assert_eq!(told.amounts, Some(vec![6, 0]));
    let second = told.second.expect("run");
    assert_eq!(second.audit, Audit::Judged(Verdict::NotAPlan));
}

/// A floor that is missing in the second stage alone: a multiplier of 1/3 isn't exact, and no bound is there for the
/// price that is left. Its amounts are handed out all the same.
#[test]
fn a_second_without_a_floor() {
    let mut night = Night::new();
    let alarm = night.add_column(-1, 0, (Some(6), Some(6)));
    let soil = night.add_column(0, -1, (Some(0), None));
    night.add_row([(alarm, 1), (soil, 3)], Le, 15);
    let told = night.run();
    assert_eq!(told.case, Case::SecondHanded, "{told:?}");
    assert_eq!(
        (&told.amounts, told.alarm_gap()),
        (&Some(vec![6, 3]), Some(0))
    );
    let second = told.second.expect("run");
    assert_eq!(second.audit, Audit::Judged(Verdict::NoFloor));
}

/// A small plan: its numbers, so that every whole plan of it can be counted.
#[derive(Debug)]
struct Small {
    costs: Vec<(i64, i64)>,
    bounds: Vec<(i64, i64)>,
    rows: Vec<(Vec<i64>, ComparisonOp, i64)>,
}

impl Small {
    fn new(rng: &mut Rng) -> Small {
        let columns = 1 + rng.below(4);
        let costs = (0..columns).map(|_| match rng.below(2) {
            0 => (rng.between(-9, 4), 0),
            _ => (0, rng.between(-9, 4)),
        });
        let costs = costs.collect();
        let bounds = (0..columns).map(|_| {
            let lower = rng.between(-2, 1);
            (lower, lower + rng.between(0, 4))
        });
        let bounds = bounds.collect();
        let row = |_| {
            let coefs = (0..columns).map(|_| rng.between(-3, 6)).collect();
            (coefs, [Le, Le, Ge, Eq][rng.below(4)], rng.between(-4, 14))
        };
        let rows = (0..1 + columns % 3).map(row).collect();
        Small {
            costs,
            bounds,
            rows,
        }
    }

    fn run(&self) -> Told {
        let mut night = Night::new();
        for (&(alarm, report), &(lower, upper)) in self.costs.iter().zip(&self.bounds) {
            night.add_column(alarm, report, (Some(lower), Some(upper)));
        }
        for (coefs, op, right) in &self.rows {
            night.add_row(coefs.iter().copied().enumerate(), *op, *right);
        }
        night.run()
    }

    fn cost(&self, amounts: &[i64], of: fn(&(i64, i64)) -> i64) -> i64 {
        let terms = self.costs.iter().map(of).zip(amounts);
        terms.map(|(cost, amount)| cost * amount).sum()
    }

    /// Whether every row is kept and every bound.
    fn keeps(&self, amounts: &[i64]) -> bool {
        let mut bounds = self.bounds.iter().zip(amounts);
        let rows = |(coefs, op, right): &(Vec<i64>, ComparisonOp, i64)| {
            let sum: i64 = coefs.iter().zip(amounts).map(|(a, x)| a * x).sum();
            match op {
                Le => sum <= *right,
                Eq => sum == *right,
                Ge => sum >= *right,
            }
        };
        bounds.all(|(&(lower, upper), &x)| (lower..=upper).contains(&x))
            && self.rows.iter().all(rows)
    }

    /// Every whole plan.
    fn plans(&self) -> Vec<Vec<i64>> {
        let mut all = vec![Vec::new()];
        for &(lower, upper) in &self.bounds {
            let longer = all.iter().flat_map(|some: &Vec<i64>| {
                (lower..=upper).map(move |x| [&some[..], &[x]].concat())
            });
            all = longer.collect();
        }
        all.retain(|amounts| self.keeps(amounts));
        all
    }
}

/// What is handed out keeps every row, has alarms no dearer than the first stage's, and both gaps hold
/// against every whole plan.
#[test]
fn promises() {
    let mut rng = Rng(14);
    let (mut handed, mut stand, mut gaps) = (0, 0, 0);
    for _ in 0..4_000 {
        let small = Small::new(&mut rng);
        let told = small.run();
        let Some(amounts) = &told.amounts else {
            assert!(told.case.number() <= 5, "{small:?}");
            continue;
        };
        assert!(small.keeps(amounts), "{small:?}: {told:?}");
        let alarms = small.cost(amounts, |cost| cost.0);
        let found = told.first.sheet.as_ref().expect("opened").cost;
        assert_eq!(told.alarm_cost, Some(alarms));
        assert!(alarms <= found, "{small:?}: {told:?}");
        let gap = told.alarm_gap().expect("a gap");
        let second = told.second.as_ref().expect("run");
        let reports = small.cost(amounts, |cost| cost.1);
        for plan in small.plans() {
            let least = small.cost(&plan, |cost| cost.0);
            assert!(1024 * least >= 1024 * alarms - gap, "{small:?}: {plan:?}");
            if let (Audit::Judged(Verdict::Gap(gap)), true) = (second.audit, least <= found) {
                let cost = small.cost(&plan, |cost| cost.1);
                assert!(1024 * cost >= 1024 * reports - gap, "{small:?}: {plan:?}");
                gaps += 1;
            }
        }
        match told.case {
            Case::SecondHanded => handed += 1,
            _ => stand += 1,
        }
    }
    assert!(
        handed > 500 && stand > 20 && gaps > 5_000,
        "{handed} {stand} {gaps}"
    );
}

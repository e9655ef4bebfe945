//! Plans that grow in one way: by rows, columns, density or steps. `bench/growth` draws what they take.

use oracle::plan::Plan;
use oracle::rng::Rng;

use crate::plans::{self, SEED};
use crate::race::Set;
use crate::sides::Library;

/// Plans at each point.
const COUNT: usize = 6;
/// A point's width in steps.
const STEPS: usize = 8;

/// Where a plan stands in what doesn't grow.
const ROWS: usize = 48;
const COLUMNS: usize = 96;
const PERCENT: usize = 10;

/// Each point's axis and place on it, and its plans.
pub fn points() -> Vec<(String, Vec<Plan>)> {
    let mut points = vec![];
    for rows in (16..=96).step_by(16) {
        points.push(point("rows", rows, [rows, COLUMNS, PERCENT]));
    }
    for columns in (16..=128).step_by(16) {
        points.push(point("columns", columns, [ROWS, columns, PERCENT]));
    }
    for percent in (4..=24).step_by(4) {
        points.push(point("density", percent, [ROWS, COLUMNS, percent]));
    }
    points.extend(by_steps());
    points
}

fn point(axis: &str, at: usize, [rows, columns, percent]: [usize; 3]) -> (String, Vec<Plan>) {
    let name = format!("{axis} {at}");
    let mut rng = Rng::named(SEED, &format!("growth {name}"));
    let next = |number| plans::plan(format!("{name}.{number}"), rows, columns, percent, &mut rng);
    let plans = (0..COUNT).map(next).collect();
    (name, plans)
}

/// The benchmark's plans by the steps that they take, where enough of them take about as many.
fn by_steps() -> Vec<(String, Vec<Plan>)> {
    let mut points: Vec<(String, Vec<Plan>)> = vec![];
    for middle in (STEPS..).step_by(STEPS).take(13) {
        points.push((format!("steps {middle}"), vec![]));
    }
    for plan in plans::gateway().into_iter().chain(plans::long()) {
        let steps = Library::new(&plan).solve(&plan).steps;
        let at = (steps + STEPS / 2) / STEPS;
        if let Some((_, plans)) = at.checked_sub(1).and_then(|at| points.get_mut(at)) {
            plans.push(plan);
        }
    }
    points.retain(|(_, plans)| plans.len() >= COUNT);
    for (_, plans) in &mut points {
        plans.truncate(COUNT);
    }
    points
}

/// The point, its plans, their steps, and what each side takes for one, in microseconds.
pub fn line(set: &Set) -> String {
    let count = set.cases.len() as f64;
    let mean = |side| set.medians(side, false).iter().sum::<f64>() / count / 1e3;
    let steps = set.steps(0) as f64 / count;
    format!(
        "{} {count} {steps:.1} {:.3} {:.3}",
        set.name,
        mean(0),
        mean(1)
    )
}

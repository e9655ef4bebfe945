//! What 02 promises of amounts that are handed out, tested in 128-bit numbers on the lent cells themselves: their alarm
//! cost is at most the first stage's, and within the first gap of every plan's, whole or fractional.

use oracle_sheet::file_cases::Tried;
use oracle_sheet::reference::Sheet;

use super::reference::{Night, FIRST, FLOOR, HANDED, MULTS, SECOND};

/// So many points of a grid are looked at, at most.
const POINTS: i128 = 20_000;

/// The gaps of a night that hands amounts out: the second's where it has one.
pub struct Gaps {
    pub first: i128,
    pub second: Option<i128>,
}

fn sum(costs: &[i64], amounts: &[i128]) -> i128 {
    let terms = costs.iter().zip(amounts);
    terms.map(|(&cost, amount)| i128::from(cost) * amount).sum()
}

/// Whether the amounts z / k keep every row and bound.
fn keeps(plan: &Sheet, z: &[i128], k: i128) -> bool {
    let columns = z.len();
    let inside = z.iter().enumerate().all(|(j, &z)| {
        let bounds = plan.bounds(j);
        (!bounds.has_low || z >= k * bounds.low) && (!bounds.has_up || z <= k * bounds.up)
    });
    inside
        && (0..plan.rows as usize).all(|i| {
            let row = sum(&plan.coef[i * columns..][..columns], z);
            let rhs = k * i128::from(plan.rhs[i]);
            match plan.ops[i] {
                0 => row <= rhs,
                1 => row == rhs,
                _ => row >= rhs,
            }
        })
}

/// A floor under 1024 times the cost of every plan, by the multipliers alone; none where a sign is wrong or an absent
/// bound is needed.
fn floor(plan: &Sheet, costs: &[i64], mults: &[i64]) -> Option<i128> {
    let columns = plan.columns as usize;
    let mut floor = 0;
    for (i, &y) in mults.iter().enumerate() {
        if (plan.ops[i] == 0 && y > 0) || (plan.ops[i] == 2 && y < 0) {
            return None;
        }
        floor += i128::from(y) * i128::from(plan.rhs[i]);
    }
    for (j, &cost) in costs[..columns].iter().enumerate() {
        let rows = mults.iter().enumerate();
        let taken = rows.map(|(i, &y)| plan.a(i, j) * i128::from(y));
        let price = 1024 * i128::from(cost) - taken.sum::<i128>();
        let bounds = plan.bounds(j);
        floor += match price {
            0 => 0,
            1.. if bounds.has_low => price * bounds.low,
            ..0 if bounds.has_up => price * bounds.up,
            _ => return None,
        };
    }
    Some(floor)
}

/// The whole numbers of a section.
fn cells(whole: &[i64], from: usize, count: usize) -> Vec<i128> {
    whole[from..][..count]
        .iter()
        .map(|&cell| cell.into())
        .collect()
}

/// The promises of a night that hands amounts out.
pub fn test(night: &Night, gaps: &Gaps, whole: &[i64], tried: &mut Tried) {
    let plan = &night.plan;
    let (rows, columns) = (plan.rows as usize, plan.columns as usize);
    let (handed, first) = (cells(whole, HANDED, columns), cells(whole, FIRST, columns));
    let (cost, least) = (sum(&plan.cost, &handed), sum(&plan.cost, &first));
    let say = || format!("{}: {handed:?} after {first:?}", night.family);
    tried.see(
        "amounts that keep every row and bound",
        keeps(plan, &handed, 1),
        say,
    );
    tried.see("alarm costs at most the first stage's", cost <= least, say);
    let mults = &whole[FIRST + MULTS..][..rows];
    let floor = floor(plan, &plan.cost, mults);
    let good = floor == Some(whole[FIRST + FLOOR].into())
        && floor.is_some_and(|floor| {
            1024 * least - floor == gaps.first && 1024 * cost - floor <= gaps.first
        });
    tried.see("alarm costs within the first gap of the floor", good, say);
    if gaps.second.is_some() {
        // The last row of the second stage's plan is the alarms'.
        let own = cells(whole, SECOND, columns);
        tried.see("second gaps with the second's amounts", own == handed, say);
    }
    for k in 1..=3 {
        if let Some(grid) = Grid::of(plan, k) {
            grid.test(night, gaps, &handed, least, tried);
        }
    }
}

/// All amounts z / k within finite bounds.
struct Grid {
    k: i128,
    lows: Vec<i128>,
    highs: Vec<i128>,
}

impl Grid {
    /// None where it has too many points.
    fn of(plan: &Sheet, k: i128) -> Option<Grid> {
        let mut grid = Grid {
            k,
            lows: vec![],
            highs: vec![],
        };
        let mut points = 1;
        for j in 0..plan.columns as usize {
            let bounds = plan.bounds(j);
            if !bounds.has_low || !bounds.has_up {
                return None;
            }
            grid.lows.push(k * bounds.low);
            grid.highs.push(k * bounds.up);
            points *= k * (bounds.up - bounds.low) + 1;
            if points > POINTS {
                return None;
            }
        }
        Some(grid)
    }

    /// The point after this one; false after the last.
    fn next(&self, z: &mut [i128]) -> bool {
        for (j, z) in z.iter_mut().enumerate() {
            if *z < self.highs[j] {
                *z += 1;
                return true;
            }
            *z = self.lows[j];
        }
        false
    }

    /// No plan of the grid has an alarm cost that is lower by more than the first gap; nor, of those that keep the
    /// alarms' row, a report cost that is lower by more than the second.
    fn test(&self, night: &Night, gaps: &Gaps, handed: &[i128], least: i128, tried: &mut Tried) {
        let (plan, k) = (&night.plan, self.k);
        let (alarms, reports) = (sum(&plan.cost, handed), sum(&night.reports, handed));
        let mut z = self.lows.clone();
        let (mut plans, mut good) = (0u64, true);
        loop {
            if keeps(plan, &z, k) {
                plans += 1;
                let cost = sum(&plan.cost, &z);
                good &= 1024 * (k * alarms - cost) <= k * gaps.first;
                if let Some(second) = gaps.second.filter(|_| cost <= k * least) {
                    good &= 1024 * (k * reports - sum(&night.reports, &z)) <= k * second;
                }
            }
            if !self.next(&mut z) {
                break;
            }
        }
        tried.see("nights with no better plan on the grid", good, || {
            format!("{}: 1/{k}", night.family)
        });
        tried.reach(format!("nights whose plans in 1/{k} were all tried"));
        if plans > 1 {
            tried.reach("nights with more than one plan among them".into());
        }
    }
}

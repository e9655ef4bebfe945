//! `tevalumi night FILE`: which unit gets which part of what it wants, in a plan whose columns are
//! named GROUP.UNIT, and how good the plan is. The answer stands in the first three lines.

use tevalumi::raw::Status;
use tevalumi::sheet::{Sheet, Verdict};

use super::args::Request;
use super::engine::Solved;
use super::html::{Bar, Page};
use super::plan::{counted, Plan, LE};
use super::show::{number, of_1024, quoted, wrapped};
use super::{audit, report};

/// As wide as a terminal is, and with `--short` as high.
pub const WIDTH: usize = 80;
const HEIGHT: usize = 24;

/// The names before the dot where the command line has none.
pub const GROUPS: [&str; 2] = ["alarm", "soil"];

/// More groups don't fit beside each other.
pub const MOST_GROUPS: usize = 3;

/// Who gets what of a plan.
pub struct Units {
    groups: Vec<String>,
    units: Vec<Unit>,
}

/// A unit's part of each group, in the order of the groups.
struct Unit {
    name: String,
    shares: Vec<Option<Share>>,
}

#[derive(Clone, Copy)]
struct Share {
    /// The column's upper bound, or what a row of this column alone allows it; none where neither does.
    wanted: Option<f64>,
    got: f64,
}

impl Share {
    fn lost(&self) -> f64 {
        let lost = self.wanted.unwrap_or(self.got) - self.got;
        if lost > 1e-6 {
            lost
        } else {
            0.0
        }
    }
}

/// A column's group and unit.
pub fn parted(plan: &Plan, j: usize) -> Option<(&str, &str)> {
    plan.column_names.get(j)?.split_once('.')
}

/// That no column is of one of these groups.
pub fn none_named(groups: &[String], option: &str) -> String {
    let names: Vec<String> = groups.iter().map(|group| format!("{group}.UNIT")).collect();
    format!(
        "expected columns named {}, found none; {option} names other groups",
        names.join(" or ")
    )
}

impl Units {
    /// The error says that no column has such a name.
    pub fn new(
        plan: &Plan,
        groups: Vec<String>,
        got: impl Fn(usize) -> f64,
    ) -> Result<Units, String> {
        let mut all = Units {
            groups,
            units: Vec::new(),
        };
        for j in 0..plan.columns {
            all.see(plan, j, got(j));
        }
        match all.units.is_empty() {
            true => Err(none_named(&all.groups, "--groups")),
            false => Ok(all),
        }
    }

    /// Puts a column of a group at its unit.
    fn see(&mut self, plan: &Plan, j: usize, got: f64) {
        let Some((group, unit)) = parted(plan, j) else {
            return;
        };
        let Some(group) = self.groups.iter().position(|name| name == group) else {
            return;
        };
        let place = match self.units.iter().position(|known| known.name == unit) {
            Some(place) => place,
            None => {
                self.units.push(Unit {
                    name: unit.to_string(),
                    shares: vec![None; self.groups.len()],
                });
                self.units.len() - 1
            }
        };
        let wanted = wanted(plan, j);
        self.units[place].shares[group] = Some(Share { wanted, got });
    }

    /// `alarm: 3 of 25 whole, 22 cut; soil: 24 of 40 whole, 16 cut`
    pub fn counted(&self) -> String {
        let groups = self.groups.iter().enumerate().map(|(g, name)| {
            let wanting = self.wanting(g);
            let cut = wanting.iter().filter(|share| share.lost() > 0.0).count();
            let all = wanting.len();
            format!("{name}: {} of {all} whole, {cut} cut", all - cut)
        });
        groups.collect::<Vec<_>>().join("; ")
    }

    fn wanting(&self, group: usize) -> Vec<Share> {
        let shares = self.units.iter().filter_map(|unit| unit.shares[group]);
        shares.filter(|share| share.wanted.is_some()).collect()
    }

    /// The groups that are cut, each with what it wants and what it gets.
    pub fn cut(&self) -> Vec<(&str, f64, f64)> {
        let groups = self.groups.iter().enumerate().map(|(g, name)| {
            let wanting = self.wanting(g);
            let wanted = wanting.iter().filter_map(|share| share.wanted).sum();
            let got = wanting.iter().map(|share| share.got).sum();
            (name.as_str(), wanted, got)
        });
        groups.filter(|&(_, wanted, got)| got < wanted).collect()
    }

    /// The units that lose most, of the first group first, as many as a terminal has lines for beside the answer.
    pub fn short(&self, ascii: bool, answer: usize) -> String {
        // The answer, a blank, the table's head, what is left out, and the full rows.
        let most = HEIGHT.saturating_sub(answer + 1 + 1 + 1 + 2);
        let lost = |u: usize| -> Vec<f64> {
            let shares = self.units[u].shares.iter();
            shares
                .map(|share| share.map_or(0.0, |share| share.lost()))
                .collect()
        };
        let mut cut: Vec<usize> = (0..self.units.len()).collect();
        cut.retain(|&u| lost(u).iter().any(|&lost| lost > 0.0));
        cut.sort_by(|&a, &b| {
            lost(b)
                .partial_cmp(&lost(a))
                .unwrap_or(std::cmp::Ordering::Equal)
        });
        let left = cut.len().saturating_sub(most);
        let whole = self.units.len() - cut.len();
        cut.truncate(most);
        let mut out = match cut.is_empty() {
            true => String::new(),
            false => self.table(&cut, ascii),
        };
        out += &match left {
            0 => format!("Every other unit gets all that it wants: {whole}.\n"),
            _ => format!("{left} more units are cut; {whole} get all that they want.\n"),
        };
        out
    }

    /// Every unit.
    pub fn all(&self, ascii: bool) -> String {
        self.table(&(0..self.units.len()).collect::<Vec<_>>(), ascii)
    }

    fn table(&self, units: &[usize], ascii: bool) -> String {
        let bar = if self.groups.len() > 2 { 6 } else { 8 };
        let cell = bar + 15;
        let names = units
            .iter()
            .map(|&u| cut(&self.units[u].name, 12).chars().count());
        let first = names.max().unwrap_or(0).max(4);
        let mut out = format!("\n{:<first$}", "unit");
        for group in &self.groups {
            out += &format!(
                "  {:<cell$}",
                format!("{} (got of wanted)", cut(group, cell - 16))
            );
        }
        out = out.trim_end().to_string() + "\n";
        for &u in units {
            let mut line = format!("{:<first$}", cut(&self.units[u].name, 12));
            for (group, share) in self.units[u].shares.iter().enumerate() {
                line += &format!(
                    "  {:<cell$}",
                    share.map_or(String::new(), |s| part(s, group, bar, ascii))
                );
            }
            out += line.trim_end();
            out.push('\n');
        }
        out
    }

    /// `"units":[..]`
    pub fn as_json(&self) -> String {
        let unit = |unit: &Unit| {
            let shares = self.groups.iter().zip(&unit.shares);
            let shares = shares.filter_map(|(group, share)| {
                let Share { wanted, got } = (*share)?;
                let wanted = wanted.map_or("null".to_string(), |wanted| format!("{wanted:?}"));
                Some(format!(
                    ",{}:{{\"wanted\":{wanted},\"got\":{got:?}}}",
                    quoted(group)
                ))
            });
            format!(
                "{{\"unit\":{}{}}}",
                quoted(&unit.name),
                shares.collect::<String>()
            )
        };
        let units: Vec<String> = self.units.iter().map(unit).collect();
        format!("\"units\":[{}]", units.join(","))
    }

    /// A bar for each share.
    pub fn put(&self, page: &mut Page) {
        for (g, group) in self.groups.iter().enumerate() {
            let bars = self.units.iter().filter_map(|unit| {
                let share = unit.shares[g]?;
                Some(Bar::of(&unit.name, share.got, share.wanted))
            });
            page.bars(
                &format!("{}: got of wanted", group),
                &bars.collect::<Vec<_>>(),
            );
        }
    }
}

/// A solved plan's units. The sheet is missing where the plan isn't in whole numbers; then the amounts
/// are the run's own.
pub struct Night<'a> {
    plan: &'a Plan,
    solved: &'a Solved,
    sheet: Result<Sheet, String>,
    units: Units,
}

impl<'a> Night<'a> {
    /// The error says that no column has such a name.
    pub fn new(plan: &'a Plan, solved: &'a Solved, request: &Request) -> Result<Night<'a>, String> {
        let groups = match request.groups.is_empty() {
            true => GROUPS.map(str::to_string).to_vec(),
            false => request.groups.clone(),
        };
        let sheet = match solved.answer.status {
            Status::Optimal => audit::open(plan, solved),
            _ => Err(String::new()),
        };
        let units = Units::new(plan, groups, |j| match &sheet {
            Ok(sheet) => sheet.amount(j) as f64,
            Err(_) => solved.values.get(j).copied().unwrap_or(0.0),
        })?;
        Ok(Night {
            plan,
            solved,
            sheet,
            units,
        })
    }

    /// 0 where there is a plan and the sheet shows a gap.
    pub fn exit(&self) -> u8 {
        match (self.solved.answer.status, &self.sheet) {
            (Status::Optimal, Ok(sheet)) => audit::exit(sheet),
            (Status::Optimal, Err(_)) => audit::NO_GAP,
            (status, _) => report::exit(status),
        }
    }

    pub fn text(&self, request: &Request) -> String {
        let answer = self.answer();
        let mut out = answer.join("\n") + "\n";
        if self.solved.answer.status != Status::Optimal {
            return out;
        }
        out += &match request.short {
            true => self.units.short(request.ascii, answer.len()),
            false => self.units.all(request.ascii),
        };
        out += &self.full();
        if let (true, Ok(sheet)) = (request.sheets, &self.sheet) {
            out += &audit::tables(self.plan, sheet);
            out += &format!("\n{}\n", audit::verdict(self.plan, sheet));
        }
        out
    }

    /// Who gets what, what the plan costs, and how much cheaper another could be. A plan that isn't
    /// solved has its status instead.
    fn answer(&self) -> Vec<String> {
        let name = called(self.plan);
        if self.solved.answer.status != Status::Optimal {
            let status = self.solved.answer.status.number();
            let told = format!(
                "Status {status}, {}",
                report::sentence(self.plan, self.solved)
            );
            let lines = format!(
                "{name}: there is no plan to show.\n{}",
                wrapped(&told, WIDTH, "")
            );
            return lines.lines().map(str::to_string).collect();
        }
        let steps = counted(self.solved.answer.steps, "step", "steps");
        let (costs, second, third) = match &self.sheet {
            Ok(sheet) => ("This whole plan", self.cost(sheet), self.gap(sheet)),
            Err(what) => (
                "This plan",
                number(self.plan.objective(self.solved.answer.objective)),
                format!("There is no audit: {what}."),
            ),
        };
        let verb = if self.plan.maximise {
            "is worth"
        } else {
            "costs"
        };
        vec![
            cut(&format!("{name}: {}.", self.units.counted()), WIDTH),
            cut(
                &format!("{costs} {verb} {second}; Optimal after {steps}."),
                WIDTH,
            ),
            cut(&third, WIDTH),
        ]
    }

    fn cost(&self, sheet: &Sheet) -> String {
        let cost = sheet.cost();
        if self.plan.maximise { -cost } else { cost }.to_string()
    }

    fn gap(&self, sheet: &Sheet) -> String {
        let cheaper = if self.plan.maximise {
            "worth more"
        } else {
            "cheaper"
        };
        match sheet.verdict() {
            Verdict::Gap(0) => format!("No plan, whole or fractional, is {cheaper}."),
            Verdict::Gap(gap) => {
                format!(
                    "No plan, whole or fractional, is {cheaper} by more than {}.",
                    of_1024(gap)
                )
            }
            _ => "The audit sheet shows no gap: how good this plan is isn't known.".to_string(),
        }
    }

    /// The rows that hold the plan back, but for those of one column, which say what it wants.
    fn full(&self) -> String {
        let rows = report::row_lines(self.plan, self.solved);
        let shared = |i: usize| self.plan.row(i).is_some_and(|(cols, _)| cols.len() > 1);
        let tight = rows.iter().enumerate();
        let tight = tight.filter(|&(i, row)| row.multiplier != 0.0 && shared(i));
        named_full(tight.map(|(_, row)| row.name.clone()).collect())
    }

    /// What an audit's JSON has beside it.
    pub fn as_json(&self) -> String {
        let sheet = match &self.sheet {
            Ok(sheet) => audit::as_json(self.plan, sheet),
            Err(_) => String::new(),
        };
        format!(",{}{sheet}", self.units.as_json())
    }

    pub fn page(&self) -> Page {
        let answer = self.answer();
        let mut page = Page::new(&format!("Night {}", self.plan.name), &answer.join(" "));
        if self.solved.answer.status != Status::Optimal {
            return page;
        }
        if let Ok(sheet) = &self.sheet {
            audit::put_gap(&mut page, self.plan, sheet);
        }
        self.units.put(&mut page);
        if let Ok(sheet) = &self.sheet {
            audit::put_tables(&mut page, self.plan, sheet);
        }
        page
    }
}

/// The plan's name, as the answer begins with it.
pub fn called(plan: &Plan) -> String {
    match plan.name.as_str() {
        "" => "This night".to_string(),
        name => cut(name, 24),
    }
}

/// `Full: air, mast.D`
pub fn named_full(names: Vec<String>) -> String {
    match names.is_empty() {
        true => "No shared row is full.\n".to_string(),
        false => cut(&format!("Full: {}", names.join(", ")), WIDTH) + "\n",
    }
}

/// The most that a column may be: its upper bound, and what an "at most" row of it alone allows.
fn wanted(plan: &Plan, j: usize) -> Option<f64> {
    let alone = (0..plan.rows).filter_map(|i| match plan.row(i)? {
        (&[column], &[a]) if column == j && a > 0.0 && plan.ops[i] == LE => Some(plan.rhs[i] / a),
        _ => None,
    });
    let most = alone.fold(plan.uppers[j], f64::min);
    most.is_finite().then_some(most)
}

/// At most so many characters.
pub fn cut(text: &str, most: usize) -> String {
    let text = super::plan::shown_whole(text);
    match text.chars().count() > most {
        true => {
            text.chars()
                .take(most.saturating_sub(2))
                .collect::<String>()
                + ".."
        }
        false => text,
    }
}

/// A bar, and what is got of what is wanted. Only a share that is whole fills the bar, only one of 0
/// leaves it empty.
fn part(share: Share, group: usize, bar: usize, ascii: bool) -> String {
    let short = |x: f64| match x.fract() == 0.0 {
        true => number(x),
        false => format!("{x:.1}"),
    };
    let Some(wanted) = share.wanted else {
        return format!("{} {}", " ".repeat(bar), short(share.got));
    };
    let cells = match share.got {
        _ if share.lost() == 0.0 => bar,
        got if got <= 0.0 => 0,
        got => ((got * bar as f64 / wanted) as usize).clamp(1, bar - 1),
    };
    let (full, empty) = match (group % 2, ascii) {
        (0, false) => ("█", "·"),
        (_, false) => ("▒", "·"),
        (0, true) => ("#", "."),
        (_, true) => ("=", "."),
    };
    let bar = full.repeat(cells) + &empty.repeat(bar - cells);
    format!("{bar} {}/{}", short(share.got), short(wanted))
}

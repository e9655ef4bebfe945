//! `tevalumi night FILE --alarms GROUP`: alarms first, then the rest, by the proved call. What is handed
//! out, how good each stage is, and why the reports lose what they lose.

use tevalumi::night::{Audit, Case, Night, Stage, Told};
use tevalumi::raw::{limits, Status};
use tevalumi::sheet::{Figures, Sheet, Verdict};
use tevalumi::ComparisonOp;

use super::args::Request;
use super::audit::{self, Costs};
use super::engine::{self, Solved};
use super::html::Page;
use super::plan::{counted, Plan, EQ, GE, LE};
use super::report;
use super::show::{json, number, of_1024, quoted, wrapped, Side, Table};
use super::units::{called, cut, named_full, none_named, parted, Units, MOST_GROUPS, WIDTH};

/// A night in two stages.
pub struct Stages<'a> {
    plan: &'a Plan,
    /// The groups of alarms, and whether a column is of one.
    groups: &'a [String],
    alarms: Vec<bool>,
    told: Told,
    first: Shown,
    second: Option<Shown>,
    /// Who gets what, where amounts are handed out.
    units: Option<Units>,
}

/// A stage as it is told: its own plan, how it ended, and its sheet where that was opened.
struct Shown {
    plan: Plan,
    stage: Stage,
    sheet: Option<Sheet>,
}

/// Why there is no night to tell.
pub enum Wrong {
    /// A named group has no column.
    Names(String),
    /// A number that isn't whole or within the sheet's limits.
    NotWhole(String),
}

impl<'a> Stages<'a> {
    /// `solved` is a run of the plan with all its costs; only its refusals are looked at.
    pub fn new(plan: &'a Plan, solved: &Solved, request: &'a Request) -> Result<Stages<'a>, Wrong> {
        let groups = &request.alarms;
        let of = |group: &String, j: usize| parted(plan, j).is_some_and(|(g, _)| g == group);
        let known = |group: &&String| (0..plan.column_names.len()).any(|j| of(group, j));
        if let Some(group) = groups.iter().find(|group| !known(group)) {
            let names = none_named(std::slice::from_ref(group), "--alarms");
            return Err(Wrong::Names(names));
        }
        // 1 to 4 say that there are no rows and bounds to look at, whatever the costs: the first stage is refused.
        if matches!(solved.answer.status.number(), 1..=4) {
            return Ok(Stages::refused(plan, solved, groups));
        }
        let mut figures = audit::figures(plan, Costs::Own).map_err(Wrong::NotWhole)?;
        bound(&mut figures);
        let alarms: Vec<bool> = (0..plan.columns)
            .map(|j| groups.iter().any(|group| of(group, j)))
            .collect();
        let told = night(plan, &figures, &alarms).run();
        let alone = costed(&figures, |j| alarms[j]);
        let second = told.second.clone().map(|stage| {
            let found = told.first.sheet.as_ref().map_or(0, |sheet| sheet.cost);
            let rest = costed(&figures, |j| !alarms[j]);
            Shown::new(plan, with_row(rest, &alone.costs, found), stage)
        });
        let got = |j: usize| {
            told.amounts
                .as_ref()
                .map_or(0.0, |amounts| amounts[j] as f64)
        };
        let units = Units::new(plan, shown_groups(plan, request), got).map_err(Wrong::Names)?;
        Ok(Stages {
            plan,
            groups,
            alarms,
            first: Shown::new(plan, alone, told.first.clone()),
            second,
            units: told.amounts.is_some().then_some(units),
            told,
        })
    }

    /// A night whose first stage is refused.
    fn refused(plan: &'a Plan, solved: &Solved, groups: &'a [String]) -> Stages<'a> {
        let stage = Stage {
            run: solved.answer,
            audit: Audit::NotRun,
            sheet: None,
        };
        Stages {
            plan,
            groups,
            alarms: Vec::new(),
            told: Told {
                case: Case::NoGap,
                first: stage.clone(),
                second: None,
                amounts: None,
                alarm_cost: None,
            },
            first: Shown {
                plan: plan.clone(),
                stage,
                sheet: None,
            },
            second: None,
            units: None,
        }
    }

    /// 0 where both stages show a gap.
    pub fn exit(&self) -> u8 {
        let run = self.first.stage.run.status;
        match (self.told.case, self.second_gap()) {
            (Case::SecondHanded, Some(_)) => 0,
            (Case::NoGap, _) if run != Status::Optimal => report::exit(run),
            _ => audit::NO_GAP,
        }
    }

    fn second_gap(&self) -> Option<i64> {
        match self.second.as_ref()?.sheet.as_ref()?.verdict() {
            Verdict::Gap(gap) => Some(gap),
            _ => None,
        }
    }

    /// The sheet of the amounts that the second stage hands out.
    pub fn handed(&self) -> Option<&Sheet> {
        match self.told.case {
            Case::SecondHanded => self.second.as_ref()?.sheet.as_ref(),
            _ => None,
        }
    }

    /// The steps of both stages.
    pub fn steps(&self) -> (usize, usize) {
        let second = self.second.as_ref();
        (
            self.first.stage.run.steps,
            second.map_or(0, |second| second.stage.run.steps),
        )
    }

    pub fn text(&self, request: &Request) -> String {
        let answer = self.answer();
        let mut out = answer.join("\n") + "\n";
        if let Some(units) = &self.units {
            out += &match request.short {
                true => units.short(request.ascii, answer.len()),
                false => units.all(request.ascii),
            };
            out += &self.full_line();
            if !request.short {
                out += &self.why();
            }
        }
        if request.sheets {
            out += &self.sheets();
        }
        out
    }

    /// Who gets what, how good the alarms are, and how good the rest is; or why nothing is handed out.
    fn answer(&self) -> Vec<String> {
        let name = called(self.plan);
        let lines = match &self.units {
            Some(units) => {
                let first = cut(&format!("{name}: {}.", units.counted()), WIDTH);
                let rest = [self.alarm_bound(), self.report_bound()];
                let rest = rest.map(|sentence| wrapped(&sentence, WIDTH, ""));
                format!("{first}\n{}", rest.concat())
            }
            None => format!(
                "{name}: nothing is handed out ({}, {}).\n{}",
                self.told.case.number(),
                kind(self.told.case),
                wrapped(&self.stop(), WIDTH, "")
            ),
        };
        lines.lines().map(str::to_string).collect()
    }

    /// An alarm's worth is minus its cost.
    pub fn alarm_bound(&self) -> String {
        let more = match self.told.alarm_gap() {
            None | Some(0) => String::new(),
            Some(gap) => format!(" by more than {}", of_1024(gap)),
        };
        format!("No plan, whole or fractional, has alarms worth more{more}.")
    }

    /// Of the plans whose alarms cost at most what was found.
    pub fn report_bound(&self) -> String {
        let more = match (self.told.case, self.second_gap(), &self.second) {
            (Case::SecondHanded, Some(0), _) => String::new(),
            (Case::SecondHanded, Some(gap), _) => format!(" by more than {}", of_1024(gap)),
            (Case::SecondHanded, None, _) => {
                return "The audit of the reports shows no gap: how good they are isn't known."
                    .to_string()
            }
            (_, _, second) => {
                let why = second.as_ref().map_or(String::new(), Shown::ended);
                return format!("These amounts are those of the alarms alone ({}, {}), for the second stage gives no plan. {why}", self.told.case.number(), kind(self.told.case));
            }
        };
        format!("None that keeps the alarms has reports worth more{more}.")
    }

    /// Why nothing is handed out.
    fn stop(&self) -> String {
        let first = &self.first;
        let found = first.stage.sheet.as_ref().map_or(0, |sheet| sheet.cost);
        let found = match self.plan.maximise {
            true => format!("are worth {}", -found),
            false => format!("cost {found}"),
        };
        match self.told.case {
            Case::NoGap => format!(
                "The first stage, the alarms alone, shows no gap. {}",
                first.ended()
            ),
            Case::RowsFull => format!(
                "The plan has {} rows, as many as there may be, and the alarms need one more.",
                self.plan.rows
            ),
            Case::EntriesFull => format!(
                "The plan has {} entries, and with the alarms' row there would be {}, more than {}.",
                first.plan.entries,
                first.plan.entries + first.plan.costs.iter().filter(|&&cost| cost != 0.0).count(),
                limits::ENTRIES
            ),
            Case::CostBeyond(j) => format!(
                "The alarm cost of column {} is {}, over {} in size, so that it can't stand in the alarms' row.",
                self.plan.column_name(j),
                number(self.plan.signed(first.plan.costs[j])),
                limits::SHEET_COEFFICIENT
            ),
            Case::FoundBeyond => format!(
                "The alarms {found}, over {} in size, so that it can't be their row's right side.",
                limits::SHEET_RIGHT
            ),
            other => format!("{other}."),
        }
    }

    /// The rows of several columns that hold the reports back, but for the alarms' own.
    fn full(&self) -> Vec<usize> {
        let (Some(sheet), Some(second)) = (self.handed(), &self.second) else {
            return Vec::new();
        };
        let shared = |i: usize| second.plan.row(i).is_some_and(|(cols, _)| cols.len() > 1);
        let rows = 0..sheet.rows() - 1;
        rows.filter(|&i| sheet.multiplier(i) != 0 && shared(i))
            .collect()
    }

    /// In 1/1024: by how much the most that the reports can be worth would rise with 1 more of a row's right side.
    fn gives(sheet: &Sheet, i: usize) -> i64 {
        -sheet.multiplier(i)
    }

    fn full_line(&self) -> String {
        let mut names: Vec<String> = self.full().iter().map(|&i| self.plan.row_name(i)).collect();
        if let (Some(sheet), Some(second)) = (self.handed(), &self.second) {
            let own = sheet.rows() - 1;
            if sheet.multiplier(own) != 0 {
                names.push(second.plan.row_name(own));
            }
        }
        named_full(names)
    }

    /// Why the reports lose what they lose.
    pub fn why(&self) -> String {
        let Some((cut, last)) = self.reasons() else {
            return String::new();
        };
        let rows = match self.full().is_empty() {
            true => String::new(),
            false => format!("\n{}", self.full_rows()),
        };
        format!(
            "\n{}{rows}\n{}",
            wrapped(&format!("{WHY}: {cut}"), WIDTH, ""),
            wrapped(&last, WIDTH, "")
        )
    }

    /// The sentences before and after the rows that are full; none where no report is cut.
    fn reasons(&self) -> Option<(String, String)> {
        let sheet = self.handed()?;
        let cut = self.units.as_ref()?.cut();
        let cut = cut
            .iter()
            .filter(|(group, _, _)| !self.groups.iter().any(|alarm| alarm == group))
            .map(|&(group, wanted, got)| {
                format!("{group} gets {} of {}", number(got), number(wanted))
            });
        let cut: Vec<String> = cut.collect();
        if cut.is_empty() {
            return None;
        }
        let beside = match self.second_gap() {
            Some(0) => "",
            _ => ", beside the gap",
        };
        let rows = match self.full().is_empty() {
            true => "No row of several columns is full.".to_string(),
            false => format!("These rows are full; with 1 more of one the reports could be worth more by at most what it gives{beside}:"),
        };
        let own = Stages::gives(sheet, sheet.rows() - 1);
        Some((
            format!("{}. {rows}", cut.join(", ")),
            format!(
                "Were the alarms worth 1 less, the reports could be worth more by {} at most{beside}.",
                of_1024(own)
            ),
        ))
    }

    fn full_rows(&self) -> Table {
        let mut table = Table::new(&[
            ("row", Side::Left),
            ("right side", Side::Right),
            ("alarms take", Side::Right),
            ("1 more gives", Side::Right),
        ]);
        for i in self.full() {
            let Some(sheet) = self.handed() else { break };
            table.row(vec![
                self.plan.row_name(i),
                sheet.right(i).to_string(),
                self.taken(sheet, i).to_string(),
                of_1024(Stages::gives(sheet, i)),
            ]);
        }
        table
    }

    /// How much of a row the alarms take.
    fn taken(&self, sheet: &Sheet, i: usize) -> i64 {
        let columns = (0..sheet.columns()).filter(|&j| self.alarms[j]);
        columns
            .map(|j| sheet.coefficient(i, j) * sheet.amount(j))
            .sum()
    }

    /// Both stages' sheets in full, as `tevalumi audit` has them.
    pub fn sheets(&self) -> String {
        let shown = [
            (STAGES[0], Some(&self.first)),
            (STAGES[1], self.second.as_ref()),
        ];
        let told = shown.iter().filter_map(|(title, shown)| {
            let shown = (*shown)?;
            let sheet = shown.sheet.as_ref()?;
            Some(format!(
                "\n{title}\n{}\n{}\n",
                audit::tables(&shown.plan, sheet),
                audit::verdict(&shown.plan, sheet)
            ))
        });
        told.collect()
    }

    pub fn page(&self) -> Page {
        let answer = self.answer();
        let mut page = Page::new(&format!("Night {}", self.plan.name), &answer.join(" "));
        self.put(&mut page);
        if let Some(units) = &self.units {
            units.put(&mut page);
        }
        for (title, shown) in STAGES.iter().zip([Some(&self.first), self.second.as_ref()]) {
            if let Some((shown, sheet)) =
                shown.and_then(|shown| Some((shown, shown.sheet.as_ref()?)))
            {
                page.head(&format!("{title}, its sheet"));
                audit::put_tables(&mut page, &shown.plan, sheet);
            }
        }
        page
    }

    /// How each stage ended, and why the reports are cut.
    pub fn put(&self, page: &mut Page) {
        for (title, shown) in STAGES.iter().zip([Some(&self.first), self.second.as_ref()]) {
            let Some(shown) = shown else { continue };
            page.head(title);
            page.text(&shown.told());
            if let Some(sheet) = &shown.sheet {
                audit::put_gap(page, &shown.plan, sheet);
            }
        }
        if let Some((cut, last)) = self.reasons() {
            page.head(WHY);
            page.text(&cut);
            if !self.full().is_empty() {
                page.table("Full rows", &self.full_rows());
            }
            page.text(&last);
        }
    }

    /// One object on one line.
    pub fn as_json(&self, file: &str) -> String {
        let plan = self.plan;
        let names = |names: &[String]| {
            let names: Vec<String> = names.iter().map(|name| quoted(name)).collect();
            names.join(",")
        };
        let second = self.second.as_ref().map(Shown::as_json);
        let units = self
            .units
            .as_ref()
            .map(|units| format!(",{}", units.as_json()));
        [
            format!(
                "{{\"version\":{},\"file\":{},\"plan\":{},\"sense\":\"{}\",\"notes\":[{}]",
                report::JSON_VERSION,
                quoted(file),
                quoted(&plan.name),
                if plan.maximise {
                    "maximise"
                } else {
                    "minimise"
                },
                names(&plan.notes),
            ),
            format!(",\"alarms\":[{}]", names(self.groups)),
            self.json_answer(),
            format!(",\"first\":{}", self.first.as_json()),
            format!(",\"second\":{}", or_null(second)),
            self.json_full(),
            units.unwrap_or_default(),
            "}\n".to_string(),
        ]
        .concat()
    }

    fn json_answer(&self) -> String {
        let told = &self.told;
        let amounts = told.amounts.as_ref().map(|amounts| {
            let amounts: Vec<String> = amounts.iter().map(i64::to_string).collect();
            format!("[{}]", amounts.join(","))
        });
        format!(
            ",\"case\":{},\"name\":\"{}\",\"sentence\":{},\"alarm_cost\":{},\"alarm_gap_1024\":{},\"amounts\":{}",
            told.case.number(),
            kind(told.case),
            quoted(&self.answer().join(" ")),
            or_null(told.alarm_cost),
            or_null(told.alarm_gap()),
            or_null(amounts)
        )
    }

    fn json_full(&self) -> String {
        let Some(sheet) = self.handed() else {
            return String::new();
        };
        let full = self.full().into_iter().map(|i| {
            format!(
                "{{\"row\":{},\"right\":{},\"alarms\":{},\"gives_1024\":{}}}",
                quoted(&self.plan.row_name(i)),
                sheet.right(i),
                self.taken(sheet, i),
                Stages::gives(sheet, i)
            )
        });
        format!(
            ",\"full\":[{}],\"alarms_give_1024\":{}",
            full.collect::<Vec<_>>().join(","),
            Stages::gives(sheet, sheet.rows() - 1)
        )
    }
}

const STAGES: [&str; 2] = [
    "Stage 1: the alarms alone",
    "Stage 2: the rest, with what the alarms have",
];

const WHY: &str = "Why reports are cut";

impl Shown {
    fn new(of: &Plan, figures: Figures, stage: Stage) -> Shown {
        // The call keeps to a plain solve.
        let plan = Plan {
            plain: true,
            ..plan_of(of, &figures)
        };
        // The call opened it with the same numbers.
        let sheet = stage.sheet.as_ref().and_then(|kept| {
            let figures = Figures {
                amounts: kept.amounts.clone(),
                mults: kept.mults.clone(),
                ..figures
            };
            Sheet::open(&figures).ok()
        });
        Shown { plan, stage, sheet }
    }

    /// What came of it: the sheet's verdict, or where it stopped before. The plan is solved once more for the names in
    /// a sentence, which are those of the same run.
    fn ended(&self) -> String {
        match (self.stage.audit, &self.sheet) {
            (_, Some(sheet)) => audit::verdict(&self.plan, sheet),
            (Audit::NotWhole(why), _) => {
                let what = audit::not_proposed(&self.plan, why);
                format!("A number doesn't fit the sheet: {what}.")
            }
            (Audit::NotOpened(refusal), _) => format!("The sheet isn't opened: {refusal}."),
            _ => format!(
                "Status {}, {}",
                self.stage.run.status.number(),
                report::sentence(&self.plan, &engine::solve(&self.plan))
            ),
        }
    }

    fn told(&self) -> String {
        let steps = counted(self.stage.run.steps, "step", "steps");
        match self.stage.run.status {
            Status::Optimal => format!("Optimal after {steps}. {}", self.ended()),
            _ => self.ended(),
        }
    }

    fn as_json(&self) -> String {
        let run = &self.stage.run;
        let mut out = format!(
            "{{\"status\":{},\"name\":\"{:?}\",\"steps\":{}",
            run.status.number(),
            run.status,
            run.steps
        );
        if !run.status.is_refusal() {
            let objective = self.plan.objective(run.objective);
            out += &format!(",\"objective\":{}", json(objective));
        }
        if matches!(run.status, Status::Optimal | Status::Rejected) {
            out += &format!(",\"excess\":{}", json(run.excess));
        }
        let (audit, opening) = match self.stage.audit {
            Audit::NotRun => ("not run", String::new()),
            Audit::NotWhole(_) => ("not whole", String::new()),
            Audit::NotOpened(refusal) => {
                ("not opened", format!(",\"opening\":{}", refusal.number()))
            }
            Audit::Judged(_) => ("judged", String::new()),
        };
        out += &format!(
            ",\"audit\":\"{audit}\"{opening},\"sentence\":{}",
            quoted(&self.told())
        );
        if let Some(sheet) = &self.sheet {
            out += &audit::as_json(&self.plan, sheet);
        }
        out + "}"
    }
}

/// A piece of JSON that may be missing.
fn or_null(piece: Option<impl ToString>) -> String {
    piece.map_or("null".to_string(), |piece| piece.to_string())
}

/// 02's cases in a word or two.
fn kind(case: Case) -> &'static str {
    match case {
        Case::NoGap => "no gap",
        Case::RowsFull => "rows full",
        Case::EntriesFull => "entries full",
        Case::CostBeyond(_) => "cost beyond",
        Case::FoundBeyond => "found beyond",
        Case::FirstStands => "the first stands",
        Case::SecondHanded => "handed",
    }
}

/// The groups of the table: those of the command line, else alarms first, then the file's others.
fn shown_groups(plan: &Plan, request: &Request) -> Vec<String> {
    if !request.groups.is_empty() {
        return request.groups.clone();
    }
    let mut groups = request.alarms.clone();
    for (group, _) in (0..plan.columns).filter_map(|j| parted(plan, j)) {
        if !groups.iter().any(|known| known == group) {
            groups.push(group.to_string());
        }
    }
    groups.truncate(MOST_GROUPS);
    groups
}

/// Adds the upper bound that an "at most" row of one column implies, where the file has none and it is whole. The row
/// stays, so every plan stays one; but a run can begin with what is worth something at its upper bound alone, where
/// the alarms' row is broken.
fn bound(figures: &mut Figures) {
    let columns = figures.columns;
    let mut most: Vec<Option<i64>> = vec![None; columns];
    for (i, row) in figures.coefs.chunks(columns.max(1)).enumerate() {
        let mut entries = row.iter().enumerate().filter(|(_, &coef)| coef != 0);
        let (Some((j, &coef)), None) = (entries.next(), entries.next()) else {
            continue;
        };
        let right = figures.rhs[i];
        if figures.ops[i] != ComparisonOp::Le || coef < 0 || right % coef != 0 {
            continue;
        }
        let implied = right / coef;
        let below = figures.lowers[j].is_some_and(|lower| implied < lower);
        if !below && implied.abs() <= limits::SHEET_AMOUNT {
            most[j] = Some(most[j].map_or(implied, |most| most.min(implied)));
        }
    }
    for (upper, most) in figures.uppers.iter_mut().zip(most) {
        *upper = upper.or(most);
    }
}

/// The costs of some columns alone.
fn costed(figures: &Figures, own: impl Fn(usize) -> bool) -> Figures {
    let costs = figures.costs.iter().enumerate();
    let costs = costs.map(|(j, &cost)| if own(j) { cost } else { 0 });
    Figures {
        costs: costs.collect(),
        ..figures.clone()
    }
}

/// The second stage's plan: the row "alarm cost at most what was found" is its last.
fn with_row(mut figures: Figures, alarm_costs: &[i64], found: i64) -> Figures {
    figures.rows += 1;
    figures.coefs.extend(alarm_costs);
    figures.rhs.push(found);
    figures.ops.push(ComparisonOp::Le);
    figures
}

fn night(plan: &Plan, figures: &Figures, alarms: &[bool]) -> Night {
    let mut night = Night::new();
    night.set_budget(plan.budget);
    night.set_tolerance(plan.tolerance);
    for (j, &alarm) in alarms.iter().enumerate() {
        let cost = figures.costs[j];
        let (first, second) = if alarm { (cost, 0) } else { (0, cost) };
        night.add_column(first, second, (figures.lowers[j], figures.uppers[j]));
    }
    for i in 0..figures.rows {
        let row = figures.coefs[i * figures.columns..][..figures.columns].iter();
        night.add_row(row.copied().enumerate(), figures.ops[i], figures.rhs[i]);
    }
    night
}

/// A stage's plan as the call hands it to the solver, for names and words. The constant is no part of a stage.
fn plan_of(of: &Plan, figures: &Figures) -> Plan {
    let doubles = |numbers: &[i64]| numbers.iter().map(|&n| n as f64).collect::<Vec<f64>>();
    let side = |bounds: &[Option<i64>], none: f64| {
        let bounds = bounds.iter().map(|b| b.map_or(none, |b| b as f64));
        bounds.collect::<Vec<f64>>()
    };
    let mut row_names = of.row_names.clone();
    if figures.rows > of.rows {
        let mut own = "alarms".to_string();
        while row_names.contains(&own) {
            own.push('\'');
        }
        row_names.push(own);
    }
    let mut plan = Plan {
        name: of.name.clone(),
        maximise: of.maximise,
        columns: figures.columns,
        rows: figures.rows,
        budget: of.budget,
        tolerance: of.tolerance,
        costs: doubles(&figures.costs),
        lowers: side(&figures.lowers, f64::NEG_INFINITY),
        uppers: side(&figures.uppers, f64::INFINITY),
        starts: vec![0],
        rhs: doubles(&figures.rhs),
        column_names: of.column_names.clone(),
        row_names,
        ..Plan::default()
    };
    for i in 0..figures.rows {
        let row = figures.coefs[i * figures.columns..][..figures.columns].iter();
        for (j, &coef) in row.enumerate().filter(|(_, &coef)| coef != 0) {
            plan.cols.push(j);
            plan.coeffs.push(coef as f64);
        }
        plan.starts.push(plan.cols.len());
        plan.ops.push(match figures.ops[i] {
            ComparisonOp::Le => LE,
            ComparisonOp::Eq => EQ,
            ComparisonOp::Ge => GE,
        });
    }
    plan.entries = plan.cols.len();
    plan
}

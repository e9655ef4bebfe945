//! The bundled frost night, told for whoever sits before a terminal at four in the morning.

use tevalumi::raw::Status;
use tevalumi::sheet::{Sheet, Verdict};

use super::args::Request;
use super::engine::{self, Solved};
use super::html::{Bar, Page};
use super::plan::{counted, Plan};
use super::show::wrapped;
use super::source::{self, Format};
use super::stages::{Stages, Wrong};
use super::{audit, report};

const AS_PRICED: &str = include_str!("../../plans/night-as-priced.mps");

/// The groups whose columns go first on the right.
pub fn alarms() -> Vec<String> {
    vec!["alarm".to_string()]
}

/// A unit's part of a plan. A unit without frost has no alarm.
struct Unit {
    name: String,
    alarm: Option<Share>,
    soil: Share,
}

/// Milliseconds.
#[derive(Clone, Copy)]
struct Share {
    wanted: i64,
    got: i64,
}

/// The bundled plan.
pub fn read() -> Result<Plan, String> {
    let plans = source::read(AS_PRICED.as_bytes(), Format::FreeMps, false);
    let plans = plans.map_err(|fault| format!("line {}: {}", fault.line, fault.what))?;
    plans.into_iter().next().ok_or("no plan".to_string())
}

/// The error is for a library that doesn't solve the bundled plan.
pub fn tell(options: &Request) -> Result<(String, Page), String> {
    let plan = read()?;
    let solved = engine::solve(&plan);
    if solved.answer.status != Status::Optimal {
        return Err(report::sentence(&plan, &solved));
    }
    let before = audit::open(&plan, &solved)?;
    let request = Request {
        alarms: alarms(),
        ..Request::default()
    };
    let stages = Stages::new(&plan, &solved, &request);
    let stages = stages.map_err(|(Wrong::Names(what) | Wrong::NotWhole(what))| what)?;
    let after = stages.handed().ok_or(stages.text(&request))?;
    let (left, right) = (units(&plan, &before), units(&plan, after));
    let mut out = story(&left);
    out += &table(&left, &right, options.ascii);
    out += &priced(&plan, &solved, &before, &left);
    out += &first(&stages, &right);
    out += &dearer(&before, after);
    if options.sheets {
        out += &format!("\n{}", report::head(&plan, &solved, false));
        out += &audit::tables(&plan, &before);
        out += &format!("\n{}\n", audit::verdict(&plan, &before));
        out += &stages.sheets();
    }
    let mut page = Page::new(
        "The frost night",
        &format!(
            "{} {} {}",
            sent(TITLES[0], &left),
            sent(TITLES[1], &right),
            stages.alarm_bound()
        ),
    );
    page.text(&format!(
        "{}: {}",
        TITLES[0],
        audit::verdict(&plan, &before)
    ));
    audit::put_gap(&mut page, &plan, &before);
    put_units(&mut page, TITLES[0], &left);
    stages.put(&mut page);
    put_units(&mut page, TITLES[1], &right);
    Ok((out, page))
}

const TITLES: [&str; 2] = ["That night's prices", "Alarms first"];

/// Who gets what, on the page.
fn put_units(page: &mut Page, title: &str, units: &[Unit]) {
    let bar = |name: &str, share: Share| Bar::of(name, share.got as f64, Some(share.wanted as f64));
    let alarms = units
        .iter()
        .filter_map(|unit| Some(bar(&unit.name, unit.alarm?)));
    page.bars(&format!("{title}: alarms, ms"), &alarms.collect::<Vec<_>>());
    let soil = units.iter().map(|unit| bar(&unit.name, unit.soil));
    page.bars(
        &format!("{title}: soil reports, ms"),
        &soil.collect::<Vec<_>>(),
    );
}

/// `Alarms first: 25 of 25 alarms are sent whole, 0 lose milliseconds.`
fn sent(title: &str, units: &[Unit]) -> String {
    let alarms: Vec<Share> = units.iter().filter_map(|unit| unit.alarm).collect();
    let sent = alarms.iter().filter(|a| a.got >= a.wanted).count();
    let lose = alarms.len() - sent;
    format!(
        "{title}: {sent} of {} alarms are sent whole, {lose} lose milliseconds.",
        alarms.len()
    )
}

/// An alarm wants up to its upper bound, soil reports up to their backlog row's right side.
fn units(plan: &Plan, sheet: &Sheet) -> Vec<Unit> {
    let column = |name: String| plan.column_names.iter().position(|n| *n == name);
    let unit = |i: usize| {
        let name = plan.row_names[i].strip_prefix("backlog.")?;
        let alarm = column(format!("alarm.{name}")).map(|j| Share {
            wanted: sheet.upper(j).unwrap_or(0),
            got: sheet.amount(j),
        });
        let soil = Share {
            wanted: sheet.right(i),
            got: sheet.amount(column(format!("soil.{name}"))?),
        };
        Some(Unit {
            name: name.to_string(),
            alarm,
            soil,
        })
    };
    (0..plan.rows).filter_map(unit).collect()
}

fn story(units: &[Unit]) -> String {
    let alarms = units.iter().filter(|unit| unit.alarm.is_some()).count();
    format!(
        "\
THE FROST NIGHT

{} radio units watch the strawberry tunnels of fields A to D. At four in the
morning {alarms} of them see frost and want to send an alarm. All of them have soil
reports waiting. They share one channel: of the quarter hour's 900,000 ms it may
be used for 90,000. What field D sends is repeated once and takes air twice.
The gateway gives out the milliseconds by a linear program: the cheapest plan is
the one whose messages are worth most. (The numbers are made up.)

Left: that night's prices. A millisecond is worth 1, and 1 more for each quarter
hour that the message has waited. Reports wait for hours, alarms don't.
Right: alarms first. They are planned alone; then the reports get what is left,
in a plan whose alarms are worth no less.

",
        units.len()
    )
}

const BAR: usize = 8;

fn table(left: &[Unit], right: &[Unit], ascii: bool) -> String {
    let mut out = String::new();
    let blank = "";
    out += &format!(
        "{blank:<5}{:>13}   {:<27}   {}\n",
        "ms wanted", "THAT NIGHT'S PRICES", "ALARMS FIRST"
    );
    out += &format!(
        "{:<5}{:>6} {:>6}   {1:<13} {2:<13}   {1:<13} {2}\n",
        "unit", "alarm", "soil"
    );
    for (left, right) in left.iter().zip(right) {
        let wanted = left
            .alarm
            .map_or(String::new(), |alarm| alarm.wanted.to_string());
        let line = format!(
            "{:<5}{wanted:>6} {:>6}   {} {}   {} {}",
            left.name,
            left.soil.wanted,
            part(left.alarm, true, ascii),
            part(Some(left.soil), false, ascii),
            part(right.alarm, true, ascii),
            part(Some(right.soil), false, ascii),
        );
        out += line.trim_end();
        out.push('\n');
    }
    out
}

/// A bar and its number. Only a share that is whole fills the bar, only one of 0 leaves it empty.
fn part(share: Option<Share>, alarm: bool, ascii: bool) -> String {
    let Some(Share { wanted, got }) = share else {
        return " ".repeat(BAR + 5);
    };
    let full = match (alarm, ascii) {
        (true, false) => "█",
        (false, false) => "▒",
        (true, true) => "#",
        (false, true) => "=",
    };
    let cells = match got {
        got if got <= 0 => 0,
        got if got >= wanted => BAR,
        got => ((got * BAR as i64 / wanted) as usize).clamp(1, BAR - 1),
    };
    let empty = if ascii { "." } else { "·" };
    format!(
        "{}{} {got:<4}",
        full.repeat(cells),
        empty.repeat(BAR - cells)
    )
}

fn priced(plan: &Plan, solved: &Solved, sheet: &Sheet, units: &[Unit]) -> String {
    format!(
        "\n{}\nOptimal after {} steps. The audit sheet, in whole numbers, says:\n{}",
        sent(TITLES[0], units),
        solved.answer.steps,
        wrapped(&audit::verdict(plan, sheet), 80, "  ")
    )
}

fn first(stages: &Stages<'_>, units: &[Unit]) -> String {
    let (alone, then) = stages.steps();
    format!(
        "\n{}\nOptimal after {}, then {}. The two audit sheets say:\n{}{}{}",
        sent(TITLES[1], units),
        counted(alone, "step", "steps"),
        counted(then, "step", "steps"),
        wrapped(&stages.alarm_bound(), 80, "  "),
        wrapped(&stages.report_bound(), 80, "  "),
        stages.why()
    )
}

/// What the plan with its alarms would have cost: a plan of that night too, only its prices differ.
fn dearer(before: &Sheet, after: &Sheet) -> String {
    let cost = (0..before.columns()).map(|j| before.cost_of(j) * after.amount(j));
    let dearer = cost.sum::<i64>() - before.cost();
    match before.verdict() {
        Verdict::Gap(gap) if dearer * 1024 > gap => format!(
            "\nAt that night's prices the plan on the right is dearer than the one on the left\nby {dearer}. So no rounding lost the alarms: the prices did.\n"
        ),
        _ => String::new(),
    }
}

//! `tevalumi night FILE`: one's own night.

use crate::{kept, run};

const NIGHT: &[u8] = include_bytes!("../../plans/night-as-priced.mps");

/// The bundled plan as a file: the answer is that of the story.
#[test]
fn the_answer_in_three_lines() {
    let told = run(&["night", "n.mps"], NIGHT);
    assert_eq!((told.exit, told.err.as_str()), (0, ""));
    let lines: Vec<&str> = told.out.lines().collect();
    assert!(
        lines[0].starts_with("night-as-priced: alarm: 3 of 25 whole, 22 cut; soil: "),
        "{}",
        lines[0]
    );
    assert!(
        lines[1].starts_with("This whole plan costs -"),
        "{}",
        lines[1]
    );
    assert!(
        lines[1].ends_with("; Optimal after 51 steps."),
        "{}",
        lines[1]
    );
    assert_eq!(lines[2], "No plan, whole or fractional, is cheaper.");
    assert!(told.out.contains("\nA03   ········ 0/725"), "{}", told.out);
    assert_eq!(
        told.out.lines().filter(|line| line.contains('/')).count(),
        40
    );
}

/// The bundled night as JSON: an object for each of its sides, as `night FILE` has it but for the file's name.
#[test]
fn the_bundled_night_as_json() {
    let own = |more: &[&str]| {
        let told = run(&[&["night", "n.mps", "--json"], more].concat(), NIGHT);
        told.out.replace("\"file\":\"n.mps\"", "\"file\":\"\"")
    };
    let wanted = own(&[]) + &own(&["--alarms", "alarm"]);
    assert!(wanted.starts_with("{\"version\":2,\"file\":\"\",\"plan\":\"night-as-priced\","));
    assert_eq!(wanted.lines().count(), 2);
    let told = run(&["night", "--json"], b"");
    assert_eq!(
        (told.exit, told.out.as_str(), told.err.as_str()),
        (0, wanted.as_str(), "")
    );
    // With a page too, which is the story's.
    let (told, files) = kept::run(&["night", "--json", "--html", "page.html"], b"");
    assert_eq!((told.exit, told.out), (0, wanted));
    let (_, story) = kept::run(&["night", "--html", "page.html"], b"");
    assert_eq!((files.len(), &files), (1, &story));
}

#[test]
fn short_fits_a_terminal() {
    for more in [
        &["--groups", "alarm,soil"][..],
        &["--alarms", "alarm"],
        &["--alarms", "soil"],
        &["--groups", "soil"],
        &["--groups", "soil,none,alarm"],
    ] {
        for ascii in [&[][..], &["--ascii"]] {
            let words = [&["night", "n.mps", "--short"][..], more, ascii].concat();
            let told = run(&words, NIGHT);
            assert_eq!(told.exit, 0, "{}", told.err);
            assert!(told.out.lines().count() <= 24, "{}", told.out);
            assert!(
                told.out.lines().all(|line| line.chars().count() <= 80),
                "{}",
                told.out
            );
            assert_eq!(
                told.out.is_ascii(),
                !ascii.is_empty() || !told.out.contains('·')
            );
        }
    }
    // The alarm that loses most stands first, and every unit is counted.
    let told = run(&["night", "n.mps", "--short"], NIGHT);
    let lost: Vec<f64> = told.out.lines().filter_map(alarm_lost).collect();
    assert!(
        lost.len() > 10 && lost.windows(2).all(|two| two[0] >= two[1]),
        "{}",
        told.out
    );
    let end = told.out.lines().nth_back(1).expect("a line");
    assert!(end.ends_with("get all that they want."), "{end}");
}

/// What the alarm of a table's line loses.
fn alarm_lost(line: &str) -> Option<f64> {
    let (got, wanted) = line.split_whitespace().nth(2)?.split_once('/')?;
    Some(wanted.parse::<f64>().ok()? - got.parse::<f64>().ok()?)
}

const OWN: &str = "NAME own
ROWS
 N cost
 L air
 L pump.full
COLUMNS
 heat.n cost -3 air 1
 pump.n cost -2 air 1
 pump.n pump.full 2
 odd cost -1 air 1
RHS
 R air 9 pump.full 11
BOUNDS
 UP B heat.n 8
ENDATA
";

#[test]
fn other_groups() {
    let told = run(&["night", "n.mps"], OWN.as_bytes());
    assert_eq!(told.exit, 2);
    assert_eq!(
        told.err,
        "tevalumi: n.mps: expected columns named alarm.UNIT or soil.UNIT, found none; --groups names other groups\n"
    );
    let told = run(&["night", "n.mps", "--groups", "heat,pump"], OWN.as_bytes());
    let wanted = "\
own: heat: 1 of 1 whole, 0 cut; pump: 0 of 1 whole, 1 cut.
This whole plan costs -26; Optimal after 1 step.
No plan, whole or fractional, is cheaper.

unit  heat (got of wanted)     pump (got of wanted)
n     ████████ 8/8             ▒······· 1/5.5
Full: air
";
    assert_eq!((told.out.as_str(), told.exit), (wanted, 0));
    let told = run(
        &["night", "n.mps", "--groups=heat,pump", "--json"],
        OWN.as_bytes(),
    );
    assert!(
        told.out.contains(",\"units\":[{\"unit\":\"n\",\"heat\":{\"wanted\":8.0,\"got\":8.0},\"pump\":{\"wanted\":5.5,\"got\":1.0}}],\"sheet\":{"),
        "{}",
        told.out
    );
    for groups in ["", "a,,b", "a,b,c,d"] {
        let told = run(&["night", "n.mps", "--groups", groups], OWN.as_bytes());
        assert!(
            told.err.contains("expected one to three names"),
            "{}",
            told.err
        );
    }
}

/// No sheet, or no plan: the three lines say so, and so does the exit status.
#[test]
fn nights_without_an_audit() {
    let halves = OWN.replace("cost -3", "cost -3.5");
    let told = run(
        &["night", "n.mps", "--groups", "heat,pump"],
        halves.as_bytes(),
    );
    let lines: Vec<&str> = told.out.lines().collect();
    assert_eq!(lines[1], "This plan costs -30; Optimal after 1 step.");
    assert_eq!(
        lines[2],
        "There is no audit: the cost of column heat.n is -3.5."
    );
    assert_eq!(told.exit, 4);
    let broken = OWN.replace("air 9", "air -9");
    let told = run(
        &["night", "n.mps", "--groups", "heat,pump"],
        broken.as_bytes(),
    );
    assert!(
        told.out
            .starts_with("own: there is no plan to show.\nStatus 26, Infeasible: "),
        "{}",
        told.out
    );
    assert!(told.out.lines().all(|line| line.len() <= 80));
    assert_eq!(told.exit, 3);
}
